#!/usr/bin/env python3
"""Explains a refusal of `varan`: what it means and what to do, by the tables of docs/REPORT.md and docs/ASSEMBLER.md.

    explain.py 'varan: input hi: no room 0'     explains this line
    varan .. | explain.py                       passes everything on, and explains a refusal on standard error
    varan serve .. 2>&1 | explain.py            the same; a live run's refusal is a comment of its transcript, `# varan: ..`

A version that has no room is looked at, if its file can be read: how much memory it needs is told.
Status: 0 where there was nothing to explain or all was explained, 1 where the pages have no row for a refusal.
"""
import pathlib
import re
import struct
import sys

DOCS = pathlib.Path(__file__).resolve().parent.parent / "docs"
REFUSAL = re.compile(r"(?:# )?varan: (?:input (?P<file>.*): (?P<cause>.*)|(?P<line>usage|memory|read) ?.*)")
# In a cause of the pages these letters stand for numbers.
NUMBERS = "NIAB"
# A version's memory, in bytes: a page of it, the stack at its top, what it has without `--memory`, and the most that it can have.
PAGE, STACK, DEFAULT, MOST = 4096, 65536, 1048576, 16777216
# The type of a program header whose segment is loaded (System V ABI, program header).
PT_LOAD = 1


def sections(page):
    """Each heading of a page with its lines."""
    parts = re.split(r"(?m)^#+ (.*)\n", (DOCS / page).read_text(encoding="utf-8"))
    return list(zip(parts[1::2], (part.split("\n") for part in parts[2::2])))


def rows(lines):
    """The rows of a section's tables of what to do, without their heads."""
    found, is_cure = [], False
    for line in lines:
        cells = [cell.strip() for cell in line.strip("|").split(" | ")] if line.startswith("| ") else []
        if cells[-1:] == ["What to do"]:
            is_cure = True
        elif cells and is_cure:
            found.append(cells)
        elif not line.startswith("|"):
            is_cure = False
    return found


def numbers_of(pattern, cause):
    """The numbers that the letters of a page's cause stand for, or None where it is another cause."""
    if pattern == cause:
        return {}
    form = re.sub(r"\\?[%s]\b" % NUMBERS, lambda it: rf"(?P<{it.group()[-1]}>\d+)", re.escape(pattern))
    found = re.fullmatch(form, cause)
    return found and found.groupdict()


def causes():
    """Each row of a cause: the kind of file, the cause, its meaning and its cure."""
    for heading, lines in sections("REPORT.md"):
        for row in rows(lines):
            if len(row) == 3 and row[0].startswith("`") and not row[0].startswith("`varan:"):
                yield re.sub(r" \(.*", "", heading), row[0].strip("`"), row[1], row[2]
    for heading, lines in sections("ASSEMBLER.md"):
        if heading == "Why a text is refused":
            for row in rows(lines):
                yield "Assembler texts", f"line N {row[0].strip('`')}", row[1], row[2]


def of_cause(cause):
    found = []
    for kind, pattern, means, cure in causes():
        numbers = numbers_of(pattern, cause)
        if numbers is not None:
            means = re.sub(r"\b[%s]\b" % NUMBERS, lambda it: numbers.get(it.group(), it.group()), means)
            found += [f"  {kind}: {means}", f"      do: {cure}"]
    return found


def ends_of(file):
    """Where each segment ends that is loaded and has bytes; none where the file can't be read, or isn't ELF32."""
    try:
        image = pathlib.Path(file).read_bytes()
        first, size, count = *struct.unpack_from("<I", image, 28), *struct.unpack_from("<HH", image, 42)
        headers = [struct.unpack_from("<8I", image, first + size * n) for n in range(count)]
    except (OSError, struct.error):
        return []
    return [address + length for kind, _, address, _, _, length, *_ in headers if kind == PT_LOAD and length]


def memory_of(file, cause):
    """How much memory a version needs that has no room."""
    ends = ends_of(file) if cause.startswith("no room ") else []
    if not ends:
        return []
    needed = -(-(max(ends) + STACK) // PAGE) * PAGE
    there = f"{MOST:,} are the most" if needed > MOST else f"without `--memory` there are {DEFAULT:,}"
    return [f"  {file}: its last byte is {max(ends) - 1:,}, so it needs {needed:,} bytes with the stack; {there}"]


def of_line(word):
    """What the section of a line says that has no cause."""
    for heading, lines in sections("REPORT.md"):
        if heading.startswith(f"`varan: {word}"):
            table = [text for where, cure in rows(lines) for text in (f"  where {where}", f"      do: {cure}")]
            return table + ["  " + line for line in lines if line.strip() and not line.startswith("|")]
    return []


def explained(line):
    """The lines that explain a refusal, none where the pages have nothing; None where the line is no refusal."""
    refusal = REFUSAL.fullmatch(line.rstrip("\n"))
    if not refusal:
        return None
    if not refusal["cause"]:
        return of_line(refusal["line"])
    return of_cause(refusal["cause"]) + memory_of(refusal["file"], refusal["cause"])


def passed_on():
    """The lines of standard input, each of which goes on to standard output as it is."""
    for line in sys.stdin.buffer:
        sys.stdout.buffer.write(line)
        sys.stdout.buffer.flush()
        yield line.decode(errors="replace")


def main():
    status = 0
    for line in sys.argv[1:] or passed_on():
        found = explained(line)
        if found == [] or found is None and sys.argv[1:]:
            found, status = [f"  explain.py: the pages have nothing on this: {line.rstrip()}"], 1
        if found:
            print("\n".join(found), file=sys.stdout if sys.argv[1:] else sys.stderr)
    return status


sys.exit(main())
