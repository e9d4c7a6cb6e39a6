#!/usr/bin/env python3
"""How much memory a written file takes, by where its bytes stand.

Each guest makes files, moves the offset of each and writes one byte there. The table has the peak resident memory of the built program
with no file, and with so many files written at their front and at their greatest offset, and the difference a file. Build the program
first: `cd crates/varan && rt run -- run --script data/s data/v`. The path of another program may be given.
"""
import os
import subprocess
import sys
import tempfile

TOP = os.path.dirname(os.path.dirname(os.path.abspath(__file__)))
PROGRAM = sys.argv[1] if len(sys.argv) > 1 else os.path.join(TOP, "crates", "varan", "out", "varan")
FILES = 200
FRONT, END = 0, (1 << 20) - 1

# The name is two letters, which are counted on.
ONE = """
li a0, -100
la a1, name
li a2, 65
li a7, 56
ecall
mv s1, a0
mv a0, s1
li a1, 0
li a2, {offset}
la a3, room
li a4, 0
li a7, 62
ecall
mv a0, s1
la a1, room
li a2, 1
li a7, 64
ecall
mv a0, s1
li a7, 57
ecall
la t0, name
lbu t1, 0(t0)
addi t1, t1, 1
sb t1, 0(t0)
li t2, 123
bne t1, t2, next
li t1, 97
sb t1, 0(t0)
lbu t1, 1(t0)
addi t1, t1, 1
sb t1, 1(t0)
next:
"""


def guest(files, offset):
    body = f"li s0, {files}\nagain:\n{ONE.format(offset=offset)}addi s0, s0, -1\nbne s0, zero, again\n" if files else ""
    return f'{body}li a0, 0\nli a7, 94\necall\n.data\nname: .ascii "aa\\0"\nroom: .zero 8\n'


def peak(folder, text):
    """The peak resident memory of a run in KiB, as GNU time tells it."""
    with open(os.path.join(folder, "s"), "wb") as out:
        out.write(b"varan-script 1\n")
    with open(os.path.join(folder, "t"), "w") as out:
        out.write(text)
    with open(os.path.join(folder, "v"), "wb") as out:
        subprocess.run([PROGRAM, "asm", os.path.join(folder, "t")], stdout=out, check=True)
    told = os.path.join(folder, "told")
    words = ["/usr/bin/time", "-f", "%M", "-o", told, PROGRAM, "run", "--script", os.path.join(folder, "s"), os.path.join(folder, "v")]
    subprocess.run(words, stdout=subprocess.DEVNULL, check=True)
    with open(told) as lines:
        return int(lines.read())


def main():
    with tempfile.TemporaryDirectory() as folder:
        base = peak(folder, guest(0, 0))
        print(f"{'files':>6}  {'offset':>9}  {'peak KiB':>10}  {'KiB a file':>10}")
        print(f"{0:6}  {'':9}  {base:10,}", flush=True)
        for offset in (FRONT, END):
            used = peak(folder, guest(FILES, offset))
            print(f"{FILES:6}  {offset:9,}  {used:10,}  {(used - base) / FILES:10.1f}", flush=True)


if __name__ == "__main__":
    main()
