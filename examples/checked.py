#!/usr/bin/env python3
"""Says what a version that `guests/cc --checked` built has found (docs/CHECKED.md): the kind of the error, the object, and the lines of C.

    checked.py [--program PROGRAM] [--debug FILE] --script S [--rules R] [--memory N] [--budget N | --hang N] [--calls N] LEADER VERSION
    checked.py [--program PROGRAM] [--debug FILE] --script S [--rules R] [--memory N] [--budget N | --hang N] [--index I] TRACE VERSION

S is the script of the run or the transcript of a live one, also while that goes on. LEADER is the version whose calls are recorded first; a trace has them. The options are those
of `varan record` and `varan replay`; FILE is the version with its line numbers, where VERSION was stripped. It looks at the version where it broke, by `varan inspect`, and wants
riscv64-unknown-elf-nm and -addr2line.
Status: 0 where the version broke at such an error, 1 where it didn't, 2 for a faulty command line or where a program isn't there; where `varan` refuses a file its line goes to
standard error, and the status is that of `varan`.
"""
import argparse
import bisect
import pathlib
import re
import subprocess
import sys
import tempfile

TOOLS = "riscv64-unknown-elf-"
# How a trace begins, and what shows that there was a run.
MAGIC = b"VARANTR1"
RAN = (0, 1)
PAGE = 4096
# A point behind every event of a trace.
BEYOND = "1000000"
# guests/checked: where the shadow is, how it marks the bytes beside an object of the heap, and what is before one.
SHADOW, HEAP = 0xE000, 0xFA
LIVE, GONE, CALLERS, HEAD = 0x68656178, 0x676F6E78, 3, 32
# The compiler's mark of a frame with objects: behind it the address of their description, as `1 32 20 7 buffer:9`.
FRAME = 0x41B58AB3
# Lines that are left out: those of the runtime and of what calls main, and those of functions whose lines aren't known, as the C library's.
LEFT_OUT = re.compile(r"__wrap_|_start |libc_start_main_stage2 |start_program |.*\?$")
# How much of a frame's description is read.
DESCRIPTION = 4096
# How far an object is looked for, how many frames are gone through, and how many lines are shown.
FAR, DEEP, SHOWN = 65536, 32, 4
RA, S0, A0 = 1, 8, 10
UNDEFINED = {
    "add_overflow": "a sum that its type can't hold",
    "sub_overflow": "a difference that its type can't hold",
    "mul_overflow": "a product that its type can't hold",
    "negate_overflow": "a negation that its type can't hold",
    "divrem_overflow": "a division by 0, or one that its type can't hold",
    "shift_out_of_bounds": "a shift by too much, or of a negative number",
    "out_of_bounds": "an index behind its array",
    "pointer_overflow": "a pointer that was moved over the end of memory, or from NULL",
    "nonnull_arg": "NULL for an argument that may not be NULL",
    "nonnull_return_v1": "NULL for a result that may not be NULL",
    "load_invalid_value": "a value that its type doesn't have",
    "vla_bound_not_positive": "an array of no or of negative length",
    "float_cast_overflow": "a floating number that the integer can't hold",
    "invalid_builtin": "0 for a builtin that may not have it",
    "builtin_unreachable": "a place that is said never to be reached",
    "missing_return": "the end of a function that has no result",
}
MISMATCHES = ["read", "write", "reference", "member's use", "member's call", "constructor's call", "cast", "cast", "upcast", "upcast to a base", "use as non-null"]


def refuse(why):
    print(f"checked.py: {why}", file=sys.stderr)
    sys.exit(2)


def done(words, statuses):
    """What a command of `varan` writes. Where it ends otherwise its line goes to standard error."""
    try:
        ended = subprocess.run(words, stdout=subprocess.PIPE, check=False)
    except OSError as fault:
        refuse(f"{words[0]}: {fault.strerror}")
    if ended.returncode not in statuses:
        sys.stderr.write(ended.stdout.decode(errors="replace"))
        sys.exit(ended.returncode)
    return ended.stdout


class Version:
    """A version where it ended, by `varan inspect`, which shows a page at a time."""

    def __init__(self, command):
        self.command = command
        self.pages = {}
        lines = self.inspect()
        self.at = lines[0].split()
        self.x = next(([int(word, 16) for word in line.split()[1:]] for line in lines if line.startswith("x ")), None)

    def inspect(self, *dump):
        return done([*self.command, *dump], [0]).decode().splitlines()

    def byte(self, address):
        """A byte of its memory, None where it has none."""
        page = address & -PAGE
        if page not in self.pages:
            dump = self.inspect("--dump", str(page), "--length", str(PAGE))
            self.pages[page] = [None if digits == "--" else int(digits, 16) for line in dump if line.startswith("mem ") for digits in line.split()[2:]]
        return self.pages[page][address - page]

    def word(self, address):
        found = [self.byte(address + i) for i in range(4)]
        return None if None in found else int.from_bytes(bytes(found), "little")

    def text(self, address):
        found = bytearray()
        while len(found) < DESCRIPTION and self.byte(address + len(found)):
            found.append(self.byte(address + len(found)))
        return found.decode(errors="replace")

    def shadow(self, address):
        return self.byte(SHADOW + (address >> 3))


def tool(name, *words):
    try:
        return subprocess.run([TOOLS + name, *words], stdout=subprocess.PIPE, text=True, check=False).stdout
    except OSError as fault:
        refuse(f"{TOOLS}{name}: {fault.strerror}")


class Names:
    """The symbols and lines of the executable."""

    def __init__(self, path):
        self.path = path
        rows = [line.split() for line in tool("nm", "-S", "--defined-only", path).splitlines()]
        self.symbols = sorted((int(row[0], 16), int(row[1], 16), row[-1]) for row in rows if len(row) == 4)

    def of(self, address):
        """The last symbol that begins at or before the address."""
        at = bisect.bisect_right(self.symbols, (address, 1 << 32, "")) - 1
        return self.symbols[at] if at >= 0 else None

    def line(self, behind):
        """Where the call before this address is, with the functions that it was inlined into."""
        found = tool("addr2line", "-s", "-f", "-i", "-p", "-e", self.path, hex(behind - 4)).splitlines()
        return ", in ".join(re.sub(r" \(discriminator \d+\)", "", line.replace(" (inlined by) ", "")) for line in found)


def lines(names, word, addresses):
    found = [names.line(address) for address in addresses if address]
    shown = [line for line in found if not LEFT_OUT.match(line)][:SHOWN]
    return [f"{word if i == 0 else '':8}{line}" for i, line in enumerate(shown)]


def callers(version):
    """The addresses behind the wrong access and behind the calls that led there, by the frames: the runtime's own are before the access."""
    first, frame, found = version.x[RA], version.x[S0], []
    while len(found) < DEEP and frame and frame & 3 == 0 and version.word(frame - 4) is not None:
        found.append(version.word(frame - 4))
        frame, older = version.word(frame - 8), frame
        if not frame or frame <= older:
            break
    return [first] + (found[found.index(first) + 1 :] if first in found else found)


def beside(address, start, size):
    if address < start:
        return f"{start - address} before"
    return f"{address - start} into" if address < start + size else f"{address - start - size} past"


def heap_object(version, address):
    """The head and the size of the object of the heap that is nearest, of the one that begins before the address and the one whose head it is in."""
    found = []
    for head in range(address & -8, max(address - FAR, SHADOW), -8):
        if version.shadow(head) == HEAP and version.word(head) in (LIVE, GONE):
            start, size = head + HEAD, version.word(head + 4)
            found.append((start - address if address < start else max(0, address - start - size), head, size))
            if start <= address:
                break
    return min(found)[1:] if found else None


def of_heap(version, names, address):
    found = heap_object(version, address)
    if found is None:
        return "no object near it", []
    head, size = found
    words = [version.word(head + 8 + 4 * i) for i in range(2 * CALLERS)]
    told = lines(names, "made", words[:CALLERS])
    if version.word(head) == GONE:
        told += lines(names, "freed", words[CALLERS:])
    return f"{beside(address, head + HEAD, size)} an object of {size} bytes", told


def of_stack(version, names, address):
    """The nearest object of the frame that the address is in."""
    for base in range(address & -8, max(address - FAR, SHADOW), -8):
        if version.word(base) == FRAME:
            words = version.text(version.word(base + 4)).split(" ")
            function = names.of(version.word(base + 8))
            found, at = [], 1
            for _ in range(int(words[0])):
                start, size, name = base + int(words[at]), int(words[at + 1]), words[at + 3]
                found.append((min(abs(address - start), abs(address - start - size)), start, size, name))
                at += 4
            _, start, size, name = min(found)
            name, _, line = name.partition(":")
            told = f"`{name}` of {size} bytes" + (f", line {line}" if line else "") + (f" of {function[2]}" if function else "")
            return f"{beside(address, start, size)} {told}", []
    return "beside an array of variable length", []


def of_global(version, names, address):
    found = names.of(address)
    if found is None:
        return "no object near it", []
    start, size, name = found
    # The compiler's red zone is none of the symbol's size.
    return f"{beside(address, start, size)} `{name}` of {size} bytes", []


def undefined(version, names, kind):
    """Undefined behaviour that is none of memory: the compiler's record begins with the file, the line and the column."""
    data = version.x[A0]
    place = f"{pathlib.PurePath(version.text(version.word(data))).name}:{version.word(data + 4)}:{version.word(data + 8)}"
    if kind == "type_mismatch_v1":
        # the type, the alignment as a power, and what was done; then the pointer
        what, address = MISMATCHES[version.byte(data + 17)], version.x[A0 + 1]
        align = 1 << version.byte(data + 16)
        why = "NULL" if address == 0 else f"0x{address:x}, which isn't at a multiple of {align}" if address % align else f"0x{address:x}, behind its object"
        told = f"a {what} through {why}"
    else:
        told = UNDEFINED[kind]
    return [f"undefined: {told}, at {place}", *lines(names, "at", callers(version))]


def found_by(version, names):
    """The lines to print, None where the version didn't break at an error that it found."""
    if version.at[5:7] != ["fault", "breakpoint"]:
        return None
    symbol = names.of(int(version.at[8], 16))
    if symbol is None:
        return None
    if symbol[2].startswith("__ubsan_handle_"):
        return undefined(version, names, symbol[2].removeprefix("__ubsan_handle_").removesuffix("_abort"))
    if not symbol[2].startswith("checked_"):
        return None
    kind = symbol[2].removeprefix("checked_")
    address, size, write = version.x[A0 : A0 + 3]
    of = of_stack if kind in ("stack_buffer_overflow", "use_after_scope") else of_global if kind == "global_buffer_overflow" else of_heap
    where, told = of(version, names, address)
    what = f"a {'write' if write else 'read'} of {size} byte{'s' if size != 1 else ''}, " if size else ""
    return [f"{kind.replace('_', '-')}: {what}{where}", *lines(names, "at", callers(version)), *told]


def read_words():
    words = argparse.ArgumentParser(description="Says what a version that was built by `guests/cc --checked` has found.")
    words.add_argument("--program", default="varan")
    words.add_argument("--debug")
    words.add_argument("--script", required=True)
    for name in ["--rules", "--memory", "--budget", "--hang", "--calls", "--index"]:
        words.add_argument(name)
    words.add_argument("recorded", metavar="LEADER|TRACE")
    words.add_argument("version")
    return words.parse_args()


def options(given, *names):
    return [word for name in names if getattr(given, name) for word in (f"--{name}", getattr(given, name))]


def is_trace(path):
    try:
        with open(path, "rb") as it:
            return it.read(len(MAGIC)) == MAGIC
    except OSError as fault:
        refuse(f"{path}: {fault.strerror}")


def say(given, trace):
    words = options(given, "script", "rules", "memory", "budget", "hang", "index")
    version = Version([given.program, "inspect", *words, "--stamp", BEYOND, trace, given.version])
    told = found_by(version, Names(given.debug or given.version)) if version.x else None
    print("\n".join(told or [" ".join(version.at)]))
    return 0 if told else 1


def main():
    given = read_words()
    if is_trace(given.recorded):
        return say(given, given.recorded)
    with tempfile.NamedTemporaryFile(prefix="trace_") as trace:
        trace.write(done([given.program, "record", *options(given, "script", "memory", "budget", "hang", "calls"), given.recorded], RAN))
        trace.flush()
        return say(given, trace.name)


sys.exit(main())
