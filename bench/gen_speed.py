#!/usr/bin/env python3
"""How fast large runs go, and what share of one its verdicts take.

The first table is of `gen`: for four, three and two versions, the number below 1,000,000 that makes the most writes, of 64 bytes each, in the log.
Every run has the median of five times, and the events a second, by the events that the summary tells. The share of verdicts is the
number of rewrites, each of which is one verdict, times what a verdict of six instructions takes (the made filter has six) in
`nv_rows rules`, of the run's time. The second table is of `run`: a guest that makes 9,999 writes of 64 bytes, in one and in three equal
versions. Build both programs first: `cd crates/varan && rt run -- run --script data/s data/v`, `cd crates/nv_rows && rt run -- rules`.
"""
import os
import re
import statistics
import subprocess
import sys
import tempfile
import time

from run_speed import PROGRAM, RUNS, TOP, image

VERDICTS = [os.path.join(TOP, "crates", "nv_rows", "out", "nv_rows"), "rules"]
WRITES, SIZE = 9_999, 64
FILTER, VERDICT_COUNT = 6, 5_000_000
SUMMARY = re.compile(rb"gen (\d+) versions (\d+) output (\d+) log (\d+) exited (\d+) rewrites (\d+)\n")


def numbers_of(number):
    """How many versions, writes and bytes a write a number makes."""
    return 2 + number % 3, 1000 + number % 9000, 1 + number % 64


def largest(versions):
    """The least number with so many versions, 64 bytes a write, and as many writes as a number can have with these."""
    fitting = [n for n in range(1_000_000) if numbers_of(n)[0] == versions and numbers_of(n)[2] == SIZE]
    most = max(numbers_of(n)[1] for n in fitting)
    return next(n for n in fitting if numbers_of(n)[1] == most)


def guest():
    """t0 counts the writes down; each takes the bytes behind the code."""
    upper = (WRITES + 0x800) >> 12
    lower = WRITES - (upper << 12)
    words = [
        (upper << 12) | (5 << 7) | 0x37,                      # lui t0
        ((lower & 0xFFF) << 20) | (5 << 15) | (5 << 7) | 0x13,  # addi t0
        0x000105B7,                                           # lui a1, 0x10
        0x03458593,                                           # addi a1, a1, 52
        (SIZE << 20) | (12 << 7) | 0x13,                      # addi a2, zero, SIZE
        0x04000893,                                           # addi a7, zero, 64
        0x00100513,                                           # addi a0, zero, 1
        0x00000073,                                           # ecall
        0xFFF28293,                                           # addi t0, t0, -1
        0xFE029AE3,                                           # bne t0, zero, -12
        0x00000513,                                           # addi a0, zero, 0
        0x05E00893,                                           # addi a7, zero, 94
        0x00000073,                                           # ecall
    ]
    return image(words, b"x" * SIZE)


def timed(words, out):
    """The median time of these words, whose output goes to this file."""
    times = []
    for _ in range(RUNS):
        with open(out, "wb") as sink:
            begun = time.perf_counter()
            status = subprocess.run(words, stdout=sink).returncode
            times.append(time.perf_counter() - begun)
        if status != 0:
            sys.exit(f"{words}: status {status}")
    return statistics.median(times)


def gen_row(versions, out, verdict):
    number = largest(versions)
    took = timed([PROGRAM, "gen", str(number)], out)
    with open(out, "rb") as summary:
        line = summary.read()
    told = SUMMARY.fullmatch(line)
    writes = numbers_of(number)[1]
    if not told or (int(told[1]), int(told[2]), int(told[3])) != (number, versions, writes * SIZE):
        sys.exit(f"another summary: {line!r}")
    events, rewrites = int(told[4]), int(told[6])
    print(f"| {number} | {versions} | {writes} | {events} | {rewrites} | {took:.3f} | {events / took:,.0f} | {rewrites * verdict / took:.2%} |")


def run_row(versions, folder, out):
    words = [PROGRAM, "run", "--script", os.path.join(folder, "s")] + [os.path.join(folder, "v")] * versions
    took = timed(words, out)
    with open(out, "rb") as report:
        head = report.readline()
    if head != b"output %d\n" % (WRITES * SIZE):
        sys.exit(f"another report: {head!r}")
    print(f"| {versions} | {took:.3f} | {(WRITES + 1) / took:,.0f} |")


def main():
    with tempfile.TemporaryDirectory() as folder:
        out = os.path.join(folder, "out")
        with open(os.path.join(folder, "s"), "wb") as script:
            script.write(b"varan-script 1\n")
        with open(os.path.join(folder, "v"), "wb") as version:
            version.write(guest())
        verdict = timed([*VERDICTS, str(FILTER), str(VERDICT_COUNT)], out) / VERDICT_COUNT
        print("| Number | Versions | Writes | Events | Rewrites | Seconds | Events/s | Share of verdicts |")
        print("|---|---|---|---|---|---|---|---|")
        for versions in (4, 3, 2):
            gen_row(versions, out, verdict)
        print("\n| Versions of `run` | Seconds | Events/s |")
        print("|---|---|---|")
        for versions in (1, 3):
            run_row(versions, folder, out)


if __name__ == "__main__":
    main()
