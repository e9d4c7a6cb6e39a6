#!/usr/bin/env python3
"""Prints addresses of code for addr2line, from what `varan inspect` writes: the program counter of each thread, the call that its register ra returns from,
and, as far as they can be such, the calls that the words of the dump return from. With a dump that begins at sp these are the callers, and maybe words that only look so.

    varan inspect .. | callers.py | riscv64-unknown-elf-addr2line -f -i -p -e PROGRAM

Status: 0; 1 where there is no thread in what was written. A line by which `varan` refuses its words or a file is told on standard error.
"""
import sys

# Programs begin here (docs/GUESTS.md); an instruction has four bytes.
FIRST, INSTRUCTION = 0x10000, 4



def addresses(lines):
    """The addresses that the lines have, those of the dump last."""
    dump = []
    for line in lines:
        name, *rest = line.split() or [""]
        if line.startswith("varan: "):
            print(line, end="", file=sys.stderr)
        elif name == "thread":
            yield rest[2]
        elif name == "x" and int(rest[1], 16) > FIRST:
            yield f"{int(rest[1], 16) - INSTRUCTION:08x}"
        elif name == "mem":
            dump += rest[1:]
    for at in range(0, len(dump) - 3, 4):
        digits = "".join(reversed(dump[at : at + 4]))
        if "-" not in digits and int(digits, 16) > FIRST and int(digits, 16) % INSTRUCTION == 0:
            yield f"{int(digits, 16) - INSTRUCTION:08x}"


def main():
    found = list(addresses(sys.stdin))
    for it in found:
        print(it)
    return 0 if found else 1


if __name__ == "__main__":
    sys.exit(main())
