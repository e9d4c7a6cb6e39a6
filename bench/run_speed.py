#!/usr/bin/env python3
"""How fast the program runs versions that make many calls.

One guest makes 65,535 writes of one byte and exits, so the log has 65,536 events. The built program runs 1, 2, 4 and 8 equal versions of it;
the table has the median of 41 runs, the events a second, and the time against that of one version. Build the program first:
`cd crates/varan && rt run -- run --script data/s data/v`.
"""
import os
import statistics
import struct
import subprocess
import sys
import tempfile
import time

TOP = os.path.dirname(os.path.dirname(os.path.abspath(__file__)))
PROGRAM = os.path.join(TOP, "crates", "varan", "out", "varan")
WRITES = 65_535
RUNS = int(os.environ.get("RUNS", "41"))


def image(words, tail):
    """A version file: one segment with the rights read and execute at 0x10000, with the entry there."""
    code = b"".join(struct.pack("<I", word) for word in words) + tail
    head = bytes.fromhex("7F454C46010101000000000000000000") + struct.pack(
        "<HHIIIIIHHHHHH", 2, 243, 1, 0x10000, 52, 0, 0, 52, 32, 1, 0, 0, 0)
    table = struct.pack("<IIIIIIII", 1, 84, 0x10000, 0x10000, len(code), len(code), 5, 4)
    return head + table + code


def guest():
    """t0 counts the writes down; each takes the byte behind the code."""
    upper = (WRITES + 0x800) >> 12
    lower = WRITES - (upper << 12)
    words = [
        (upper << 12) | (5 << 7) | 0x37,                      # lui t0
        ((lower & 0xFFF) << 20) | (5 << 15) | (5 << 7) | 0x13,  # addi t0
        0x000105B7,                                           # lui a1, 0x10
        0x03458593,                                           # addi a1, a1, 52
        0x00100613,                                           # addi a2, zero, 1
        0x04000893,                                           # addi a7, zero, 64
        0x00100513,                                           # addi a0, zero, 1
        0x00000073,                                           # ecall
        0xFFF28293,                                           # addi t0, t0, -1
        0xFE029AE3,                                           # bne t0, zero, -12
        0x00000513,                                           # addi a0, zero, 0
        0x05E00893,                                           # addi a7, zero, 94
        0x00000073,                                           # ecall
    ]
    return image(words, b"x")


def seconds(folder, versions):
    words = [PROGRAM, "run", "--script", os.path.join(folder, "s")] + [os.path.join(folder, "v")] * versions
    times = []
    for _ in range(RUNS):
        begun = time.perf_counter()
        with open(os.path.join(folder, "report"), "wb") as report:
            status = subprocess.run(words, stdout=report).returncode
        times.append(time.perf_counter() - begun)
        if status != 0:
            sys.exit(f"status {status}")
    with open(os.path.join(folder, "report"), "rb") as report:
        head = report.readline()
    if head != b"output %d\n" % WRITES:
        sys.exit(f"another report: {head!r}")
    return statistics.median(times)


def main():
    with tempfile.TemporaryDirectory() as folder:
        with open(os.path.join(folder, "s"), "wb") as script:
            script.write(b"varan-script 1\n")
        with open(os.path.join(folder, "v"), "wb") as version:
            version.write(guest())
        print("versions  seconds  events/s  against one")
        one = None
        for versions in (1, 2, 4, 8):
            took = seconds(folder, versions)
            one = one or took
            print(f"{versions:8}  {took:7.3f}  {(WRITES + 1) / took:8.0f}  {took / one:11.2f}")


if __name__ == "__main__":
    main()
