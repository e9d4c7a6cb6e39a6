#!/usr/bin/env python3
"""Runs each instruction of RV32IMA on edge values under qemu-riscv32, and compares what it did with the tables of crates/nv_rows/data/instructions.

Needs riscv64-unknown-elf-as and -ld (Debian's package binutils-riscv64-unknown-elf) and qemu-riscv32 (qemu-user).
bench/instruction_results.py says which lines differ; with --print it prints all. A line has the instruction, what it finds and what it leaves, as the head of its table
says. What it finds stands as numbers; what it leaves as it lies in memory, least byte first. x7 and x29 are 5a5a5a5a before.

- `between registers` and `from the pc`: x5 and x6, then x7 and how far the pc moved. From the pc x5 and x7 are counted from the instruction's address.
- `in memory`: x5, counted from the memory's start, and x6, then x7 and the eight bytes of memory, which are MEMORY before.
- `atomic instructions`: up to three, one behind the other. Two words of memory and x6, then x7, x29 and the eight bytes of memory. x5 is the address of the first word,
  x28 that of the second.
"""
import pathlib
import struct
import subprocess
import sys
import tempfile

ROWS = pathlib.Path(__file__).resolve().parent.parent / "crates/nv_rows/data/instructions"
BEFORE = 0x5A5A5A5A
MEMORY = bytes.fromhex("80ff7f01fe00817e")
EDGES = [0, 1, 0x7FFFFFFF, 0x80000000, 0xFFFFFFFF, 0x12345678]
PAIRS = [(0, 0), (1, 2), (0x7FFFFFFF, 1), (0x80000000, 1), (0x80000000, 0xFFFFFFFF), (0xFFFFFFFF, 0x7FFFFFFF), (0xF0F01234, 0xCCAA4321)]
SIGNED = [0, 1, 0xFFFFFFFF, 0x80000000, 0x7FFFFFFF]
SHIFTED = [(0x80000001, 0), (0x80000001, 1), (0x92345678, 31), (0x92345678, 32), (0x72345678, 0xFFFFFFE4)]


def cases():
    """Kind, text of the instruction, x5, x6."""
    for op in ("add", "sub", "slt", "sltu", "xor", "or", "and"):
        yield from (("is", f"{op} x7, x5, x6", a, b) for a, b in PAIRS)
    for op in ("sll", "srl", "sra"):
        yield from (("is", f"{op} x7, x5, x6", a, b) for a, b in SHIFTED)
    for op in ("addi", "slti", "sltiu", "xori", "ori", "andi"):
        yield from (("is", f"{op} x7, x5, {n}", a, 0) for a, n in zip(EDGES, (-2048, -1, 1, -1, 2047, -1366)))
    for op in ("slli", "srli", "srai"):
        yield from (("is", f"{op} x7, x5, {n}", a, 0) for a, n in ((0x80000001, 0), (0x80000001, 1), (0x92345678, 31), (0x72345678, 4)))
    for op in ("mul", "mulh", "mulhsu", "mulhu", "div", "divu", "rem", "remu"):
        yield from (("is", f"{op} x7, x5, x6", a, b) for a in SIGNED + [0x12345678] for b in SIGNED + [0xFFFFFFF9])
    yield from (("is", f"lui x7, {n:#x}", 0, 0) for n in (0, 1, 0x7FFFF, 0x80000, 0xFFFFF))
    yield from (("pc", f"auipc x7, {n:#x}", 0, 0) for n in (0, 1, 0x7FFFF, 0x80000, 0xFFFFF))
    yield ("is", "add x0, x5, x6", 3, 4)
    yield ("is", "fence", 0, 0)
    for op in ("beq", "bne", "blt", "bge", "bltu", "bgeu"):
        yield from (("is", f"{op} x5, x6, .+12", a, b) for a, b in ((5, 5), (1, 2), (2, 1), (0xFFFFFFFF, 1), (1, 0xFFFFFFFF), (0x80000000, 0x7FFFFFFF)))
        yield ("is", f"{op} x5, x6, .-8", 7, 7)
    yield ("pc", "jal x7, .+12", 0, 0)
    yield ("pc", "jal x7, .-8", 0, 0)
    yield from (("pc", f"jalr x7, {n}(x5)", (to - n) % 2**32, 0) for n, to in ((0, 12), (0, 13), (2047, 12), (-2048, 12), (-1, 13), (4, -8)))
    for op in ("lb", "lh", "lw", "lbu", "lhu"):
        yield from (("at", f"{op} x7, {n}(x5)", (at - n) % 2**32, 0) for n, at in ((0, 0), (2047, 1), (-2048, 2), (3, 3), (-1, 4)))
    for op in ("sb", "sh", "sw"):
        yield from (("at", f"{op} x6, {n}(x5)", (at - n) % 2**32, value) for n, at, value in ((0, 0, 0x89ABCDEF), (2047, 1, 0x89ABCDEF), (-2048, 4, 0x01234567), (-1, 3, 0)))


def courses():
    """Two words of memory, x6, and the instructions."""
    for op in ("amoswap", "amoadd", "amoxor", "amoand", "amoor", "amomin", "amomax", "amominu", "amomaxu"):
        yield from ((a, 0x01234567, b, f"{op}.w x7, x6, (x5)") for a in SIGNED for b in SIGNED)
        yield from ((0xF0F01234, 0xCCAA4321, 0x8F0F0F0F, f"{op}.w{suffix} x7, x6, (x28)") for suffix in ("", ".aq", ".rl", ".aqrl"))
        yield (5, 6, 7, f"{op}.w x0, x6, (x5)")
        yield (5, 6, 7, f"{op}.w x7, x0, (x5)")
        yield (5, 6, 7, f"{op}.w x6, x6, (x5); {op}.w x7, x6, (x5); {op}.w x29, x6, (x28)")
    for a in SIGNED:
        yield (a, 6, 7, "lr.w x7, (x5)")
        yield (a, 6, 7, "sc.w x7, x6, (x5)")
        yield from ((a, 6, b, "lr.w x7, (x5); sc.w x29, x6, (x5)") for b in SIGNED)
    yield from ((8, 9, 7, f"lr.w{suffix} x7, (x28); sc.w{suffix} x29, x6, (x28)") for suffix in (".aq", ".rl", ".aqrl"))
    yield (8, 9, 7, "lr.w x7, (x5); sc.w x29, x6, (x28)")
    yield (8, 8, 7, "lr.w x7, (x28); sc.w x29, x6, (x5)")
    yield (8, 9, 7, "lr.w x7, (x5); sc.w x7, x6, (x28); sc.w x29, x6, (x5)")
    yield (8, 9, 7, "lr.w x7, (x5); sc.w x7, x6, (x5); sc.w x29, x0, (x5)")
    yield (8, 9, 7, "lr.w x7, (x5); lr.w x7, (x28); sc.w x29, x6, (x5)")
    yield (8, 9, 7, "lr.w x7, (x5); lr.w x7, (x28); sc.w x29, x6, (x28)")
    yield (8, 9, 7, "lr.w x7, (x5); amoadd.w x7, x6, (x28); sc.w x29, x6, (x5)")
    yield (8, 9, 7, "lr.w x7, (x5); sw x6, 4(x5); sc.w x29, x6, (x5)")
    yield (8, 9, 7, "lr.w x7, (x5); lw x7, 4(x5); sc.w x29, x6, (x5)")
    yield (8, 9, 7, "lr.w x0, (x5); sc.w x0, x6, (x5)")


def text_of_course(first, second, x6, instructions):
    """One course, which nothing is reserved before: its record is x7, x29, the memory and three words."""
    count = instructions.count(";") + 1
    copied = "".join(f"lw x6, {4 * i}(x9)\nsw x6, {16 + 4 * i}(x31)\n" for i in range(count))
    return f"""
la x5, memory
addi x28, x5, 4
sc.w x0, x0, (x31)
li x6, {first:#x}
sw x6, 0(x5)
li x6, {second:#x}
sw x6, 4(x5)
li x6, {x6:#x}
li x7, {BEFORE:#x}
li x29, {BEFORE:#x}
la x9, 7f
7: {instructions}
sw x7, 0(x31)
sw x29, 4(x31)
lw x6, 0(x30)
sw x6, 8(x31)
lw x6, 4(x30)
sw x6, 12(x31)
{copied}
addi x31, x31, 28
"""


def text_of(kind, text, x5, x6):
    """One case: its record is x7, how far the pc moved, and the memory."""
    base = {"pc": "7f", "at": "memory"}.get(kind)
    first = f"la x5, {base}\nli x6, {x5:#x}\nadd x5, x5, x6" if base else f"li x5, {x5:#x}"
    return f"""
li x6, {struct.unpack('<I', MEMORY[:4])[0]:#x}
sw x6, 0(x30)
li x6, {struct.unpack('<I', MEMORY[4:])[0]:#x}
sw x6, 4(x30)
{first}
li x6, {x6:#x}
li x7, {BEFORE:#x}
j 7f
li x8, -8
j 8f
7: {text}
li x8, 4
j 8f
li x8, 12
8: la x9, 7b
sw x7, 0(x31)
sw x9, 4(x31)
sw x8, 8(x31)
lw x6, 0(x30)
sw x6, 12(x31)
lw x6, 4(x30)
sw x6, 16(x31)
lw x6, 0(x9)
sw x6, 20(x31)
addi x31, x31, 24
"""


def records(texts, size, room):
    program = "".join(texts)
    source = f""".option norelax
.option norvc
.globl _start
_start: la x31, records
la x30, memory
{program}
li a0, 1
la a1, records
li a2, {size * len(texts)}
li a7, 64
ecall
li a0, 0
li a7, 94
ecall
.data
memory: .zero 8
records: .zero {size * len(texts)}
"""
    (room / "a.s").write_text(source)
    subprocess.run(["riscv64-unknown-elf-as", "-march=rv32ima", "-mabi=ilp32", "-o", room / "a.o", room / "a.s"], check=True)
    subprocess.run(["riscv64-unknown-elf-ld", "-m", "elf32lriscv", "-o", room / "a", room / "a.o"], check=True)
    written = subprocess.run(["qemu-riscv32", room / "a"], check=True, capture_output=True).stdout
    return [written[at : at + size] for at in range(0, len(written), size)]


def line_of(row, record):
    kind, text, x5, x6 = row
    x7, pc, moved = struct.unpack_from("<IIi", record)
    text = text.replace(".+12", "there").replace(".-8", "back")
    memory, left, way = record[12:20], record[:4].hex(), record[8:12].hex()
    if kind == "at":
        assert moved == 4
        return f"|{text} | {x5:#x} | {x6:#x} | {left} | {memory.hex()}"
    assert memory == MEMORY
    if kind == "pc":
        return f"|{text} | {x5:#x} | {struct.pack('<I', (x7 - pc) % 2**32).hex()} | {way}"
    return f"|{text} | {x5:#x} | {x6:#x} | {left} | {way}"


def line_of_course(row, record):
    first, second, x6, instructions = row
    found = f"{first:#x} | {second:#x} | {x6:#x}"
    left = f"{record[:4].hex()} | {record[4:8].hex()} | {record[8:16].hex()}"
    return f"|{instructions.replace('; ', '$n')} | {found} | {left}"


def lines_of(rows, text, size, line, room):
    written = records([text(*row) for row in rows], size, room)
    return [line(row, record) for row, record in zip(rows, written, strict=True)]


def kept():
    """The lines of the tables: those with columns, which begin with a bar."""
    return [line for line in ROWS.read_text().split("\n") if line.startswith("|") and " | " in line]


def main():
    with tempfile.TemporaryDirectory() as name:
        room = pathlib.Path(name)
        lines = lines_of(list(cases()), text_of, 24, line_of, room) + lines_of(list(courses()), text_of_course, 28, line_of_course, room)
    if sys.argv[1:2] == ["--print"]:
        print("\n".join(lines))
        return
    there = kept()
    differ = [line for line in lines if line not in there]
    for line in differ:
        print(f"not kept: {line}")
    print(f"{len(lines)} results, {len(there)} kept, {len(differ)} differ")
    sys.exit(differ != [] or len(there) != len(lines))


if __name__ == "__main__":
    main()
