#!/usr/bin/env python3
"""Runs the guests of crates/nv_rows/data/written_code, which write over their own code, by qemu-riscv32, and says which do something else than stands there.

    bench/written_code.py [--print]

Needs riscv64-unknown-elf-as, -ld and -objcopy (Debian's package binutils-riscv64-unknown-elf) and qemu-riscv32 (qemu-user). A guest is assembled by GNU as, with `li` and `la` as the two
words that docs/ASSEMBLER.md says, put into a file of the same form, changed as its row says, and run: what it writes, its status, or the signal that ends it, have to be those of its row.
--print tells each of them. No program of this repository takes part.

Some rows can't be asked of qemu; they are listed below with the reason, and were worked out by hand.
"""
import pathlib
import re
import signal
import struct
import subprocess
import sys
import tempfile

ROWS = pathlib.Path(__file__).resolve().parent.parent / "crates/nv_rows/data"
PAGE = 4096
START = 0x10000
MARK = re.compile(r"\$\[([^\]]*)\]|\$x(..)|\$n")
TOOL = "riscv64-unknown-elf-"
MACHINE = ["-march=rv32ima", "-mabi=ilp32"]
SIGNALS = {"load": signal.SIGSEGV, "store": signal.SIGSEGV, "fetch": signal.SIGSEGV, "illegal": signal.SIGILL, "breakpoint": signal.SIGTRAP}

# How the name of a row begins, and why qemu isn't asked.
BY_HAND = {
    "the next instruction": "qemu goes on with a block of instructions that it has translated, up to its end, as a processor may without FENCE.I",
    "fence.i": "qemu has FENCE.I",
    "time comes into code": "the time is the script's",
    "code that may not be read": "qemu takes the right to write away from what it translates, and the host's page has none left then",
    "code that ends within a word 0x00000013": "Linux maps whole pages, so there are four bytes",
    "word across the end of code": "Linux lets a store reach over two ranges that may both be written",
}


def expanded(text, texts):
    """A text with its marks (crates/nv_rows/data/README.md) replaced."""
    return MARK.sub(lambda at: texts[at[1]] if at[1] is not None else chr(int(at[2], 16)) if at[2] else "\n", text)


def content(line, texts):
    """The text of a line of content; bytes are its characters."""
    if line.startswith("|"):
        return expanded(line[1:-1] if line.endswith("$") else line[1:] + "\n", texts)
    kind, _, numbers = line.partition(" ")
    pack = {"int": lambda number: struct.pack("<i", int(number)), "word": lambda digits: bytes.fromhex(digits)[::-1], "hex": bytes.fromhex}[kind]
    return b"".join(map(pack, expanded(numbers, texts).split())).decode("latin-1")


def is_content(line):
    return line.startswith(("|", "int ", "word ", "hex "))


def entries(path):
    """The entries of a file of rows: a list of fields each, of which the first is its head; a field is its words and its lines of content."""
    found = []
    for line in path.read_text().splitlines():
        if not line or line.startswith("#"):
            continue
        if is_content(line):
            found[-1][-1][1].append(line)
        elif line.startswith(("row ", "text ")):
            found.append([(line, [])])
        else:
            found[-1].append((line, []))
    return found


def lines_of(fields, texts):
    """The texts of each line of the row's table, with how that line begins; of a row without one the texts alone."""
    head, table = fields[-1]
    if not head.startswith("each "):
        yield "", texts
        return
    names = [name.strip() for name in head[5:].split("|")]
    for line in table:
        cells = [cell.strip() for cell in line[1:].split("|")]
        assert len(cells) == len(names), line
        yield line[1:], texts | {name: expanded(cell, texts) for name, cell in zip(names, cells)}


def rows(texts):
    """Name, fields and texts of each row, with one for each line of its table."""
    for entry in entries(ROWS / "common") + entries(ROWS / "written_code"):
        head, lines = entry[0]
        kind, _, name = head.partition(" ")
        if kind == "text":
            texts[name] = "".join(content(line, texts) for line in lines)
        elif "asm v" in [field for field, _ in entry]:
            for line, known in lines_of(entry, texts):
                fields = {expanded(field, known): "".join(content(line, known) for line in lines) for field, lines in entry if not field.startswith("each ")}
                yield f"{name} {line}".strip(), fields


def gnu(text):
    """An assembler's text in GNU as's words, and the label where it begins."""
    entry, out = None, [".option norelax", ".option norvc", ".text"]
    for line in text.splitlines():
        label, statement = re.fullmatch(r"\s*(?:(\w+):)?\s*(.*)", line).groups()
        word, _, rest = statement.partition(" ")
        operands = [operand.strip() for operand in rest.split(",")]
        if label:
            out.append(f"{label}:")
        if word == ".entry":
            entry = operands[0]
            out.append(f".globl {entry}")
        elif word == "li":
            number = int(operands[1], 0) % 2**32
            low = (number + 2048) % 4096 - 2048
            out += [f"lui {operands[0]}, {(number - low) % 2**32 >> 12:#x}", f"addi {operands[0]}, {operands[0]}, {low}"]
        elif word == "la":
            out += [f"lui {operands[0]}, %hi({operands[1]})", f"addi {operands[0]}, {operands[0]}, %lo({operands[1]})"]
        else:
            out.append(statement)
    return "\n".join(out) + "\n", entry


def run(*words):
    return subprocess.run([str(word) for word in words], check=True, capture_output=True, text=True).stdout


def assembled(text, room):
    """Where the program begins, and the bytes of its text and of its data."""
    source, entry = gnu(text)
    (room / "a.s").write_text(source)
    (room / "a.ld").write_text(f"SECTIONS {{ .text {START:#x} : {{ *(.text) }} .data ALIGN({PAGE}) : {{ *(.data) }} /DISCARD/ : {{ *(.riscv.attributes) }} }}\n")
    run(TOOL + "as", *MACHINE, "-o", room / "a.o", room / "a.s")
    run(TOOL + "ld", "-m", "elf32lriscv", "--no-relax", "-e", entry or str(START), "-T", room / "a.ld", "-o", room / "a", room / "a.o")
    begin = re.search(r"Entry point address:\s*(\w+)", run(TOOL + "readelf", "-h", room / "a"))[1]
    parts = []
    for section in (".text", ".data"):
        (room / "part").write_bytes(b"")
        run(TOOL + "objcopy", "-O", "binary", "-j", section, room / "a", room / "part")
        parts.append((room / "part").read_bytes())
    return int(begin, 16), parts


def program(begin, parts):
    """The file that `varan asm` makes of such a program: a header, one for each section with bytes, and these."""
    text, data = parts
    ranges = [(START, text, 5)] + ([((START + len(text) + PAGE - 1) // PAGE * PAGE, data, 6)] if data else [])
    head = b"\x7fELF\1\1\1" + bytes(9) + struct.pack("<HHIIIIIHHHHHH", 2, 243, 1, begin, 52, 0, 0, 52, 32, len(ranges), 0, 0, 0)
    body, first = b"", 52 + 32 * len(ranges)
    for address, content, rights in ranges:
        body += bytes(-(first + len(body)) % 4)
        head += struct.pack("<IIIIIIII", 1, first + len(body), address, address, len(content), len(content), rights, 4)
        body += content
    return bytearray(head + body)


def on_pages(file):
    """The same program with each segment at a place of the file that is its address modulo a page, as mmap(2) wants it."""
    count = struct.unpack_from("<H", file, 44)[0]
    head, body = bytearray(file[: 52 + 32 * count]), b""
    for at in range(52, 52 + 32 * count, 32):
        offset, address, size = (struct.unpack_from("<I", file, at + place)[0] for place in (4, 8, 16))
        body += bytes(address % PAGE)
        struct.pack_into("<I", head, at + 4, PAGE + len(body))
        struct.pack_into("<I", head, at + 28, PAGE)
        body += file[offset : offset + size]
        body += bytes(-len(body) % PAGE)
    return bytes(head).ljust(PAGE, b"\0") + body


def guest_of(fields, room):
    file = program(*assembled(fields["asm v"], room))
    for field in fields:
        if field.startswith("set v "):
            place, digits = field.split()[2:]
            file[int(place) : int(place) + len(digits) // 2] = bytes.fromhex(digits)
    return on_pages(file)


def came(fields, room):
    """What the guest of a row writes under qemu, and how it ends."""
    guest = room / "guest"
    guest.write_bytes(guest_of(fields, room))
    guest.chmod(0o755)
    given = re.search(r"^input (\w+)$", fields["file s"], re.M)
    done = subprocess.run(["prlimit", "--core=0", "qemu-riscv32", guest], input=bytes.fromhex(given[1]) if given else b"", capture_output=True, timeout=60)
    return done.stdout, done.returncode


def due(fields):
    """What the row says of both: bytes, and the status, or minus the signal."""
    report = fields.get("out", fields.get("begins", "output 0\n") + fields.get("ends", ""))
    head, _, rest = report.partition("\n")
    written = rest[: int(head.split()[1])].encode("latin-1")
    kind, what = re.search(r"^0 (exited|fault) (\w+)", rest, re.M).groups()
    return written, int(what) if kind == "exited" else -SIGNALS[what]


def main():
    counted, asked, by_hand, wrong = 0, 0, set(), 0
    for name, fields in rows({}):
        counted += 1
        hand = [begin for begin in BY_HAND if name.startswith(begin)]
        if hand:
            by_hand.add(hand[0])
        with tempfile.TemporaryDirectory() as room:
            found, wanted = came(fields, pathlib.Path(room)), due(fields)
        if sys.argv[1:2] == ["--print"]:
            print(f"{name!r}: {found[0].hex(' ', 4)} {found[1]}{', by hand: ' + wanted[0].hex(' ', 4) + ' ' + str(wanted[1]) if hand else ''}")
        if hand:
            continue
        asked += 1
        if found != wanted:
            wrong += 1
            print(f"{name!r}: {found[0].hex(' ', 4)} {found[1]}, and not {wanted[0].hex(' ', 4)} {wanted[1]}")
    unknown = BY_HAND.keys() - by_hand
    print(f"{asked} guests, {wrong} do something else; {counted - asked} by hand" + "".join(f"; no row {name!r}" for name in unknown))
    sys.exit(wrong != 0 or asked == 0 or unknown != set())


if __name__ == "__main__":
    main()
