#!/usr/bin/env python3
"""How many calls a second the program serves, call by call.

    bench/call_speed.py [--count] [--program PATH] [--beside PATH]

Each guest makes one call again and again and exits. The built program runs it with 30,000 and with 120,000 calls; the report goes to
/dev/null. The table has the median of five runs, the calls a second, and the time of a call in the longer run against the shorter one: it stays
near 1 where a call's cost doesn't grow with the calls before it. `read` and `lseek` are on a file of 1 MiB and on one of 4 KiB. The start of the program
with a guest that makes no call is taken off. PATH is crates/varan/out/varan where it isn't given: `cd crates/varan && rt run -- run --script data/s data/v` builds it.
With --beside another program takes turns with it, run by run, and the last column has the time of a call by the first in parts of its time by the other.
With --count the host's instructions a call are counted by callgrind, between 1,000 and 3,000 calls, in place of times: another load of the machine doesn't change them.
"""
import argparse
import os
import re
import statistics
import subprocess
import sys
import tempfile
import time

TOP = os.path.dirname(os.path.dirname(os.path.abspath(__file__)))
PROGRAM = os.path.join(TOP, "crates", "varan", "out", "varan")
FEW, MANY = 30_000, 120_000
RUNS = 5
COUNTED = 1_000, 3_000
LARGE, SMALL = 1 << 20, 1 << 12

OPEN = """
li a0, -100
la a1, name
li a2, 0
li a7, 56
ecall
mv s1, a0
"""

# A read at the end of a file is one of no bytes: the offset goes back to the front before each.
BACK = """
mv a0, s1
li a1, 0
li a2, 0
la a3, room
li a4, 0
li a7, 62
ecall
"""

CASES = [
    ("getuid", "", "li a7, 174\necall\n", None),
    ("write 1", "", "li a0, 1\nla a1, room\nli a2, 1\nli a7, 64\necall\n", None),
    ("write 64", "", "li a0, 1\nla a1, room\nli a2, 64\nli a7, 64\necall\n", None),
    ("lseek, 4 KiB", OPEN, BACK, SMALL),
    ("lseek, 1 MiB", OPEN, BACK, LARGE),
    ("lseek and read 64, 4 KiB", OPEN, BACK + "mv a0, s1\nla a1, room\nli a2, 64\nli a7, 63\necall\n", SMALL),
    ("lseek and read 64, 1 MiB", OPEN, BACK + "mv a0, s1\nla a1, room\nli a2, 64\nli a7, 63\necall\n", LARGE),
    ("write 64 to a file", "li a0, -100\nla a1, name\nli a2, 65\nli a7, 56\necall\nmv s1, a0\n",
     BACK + "mv a0, s1\nla a1, room\nli a2, 64\nli a7, 64\necall\n", SMALL),
]

# The console holds 16,777,216 bytes, and a read or write of 4,096 bytes fills a log: these run shorter.
LONG_CASES = [
    ("write 4096", "", "li a0, 1\nla a1, room\nli a2, 4096\nli a7, 64\necall\n", None),
    ("lseek and read 4096, 1 MiB", OPEN, BACK + "mv a0, s1\nla a1, room\nli a2, 4096\nli a7, 63\necall\n", LARGE),
]


def guest(before, calls, turns):
    body = f"li s0, {turns}\nagain: {calls}addi s0, s0, -1\nbne s0, zero, again\n" if turns else ""
    return (f"{before}{body}li a0, 0\nli a7, 94\necall\n"
            '.data\nname: .ascii "f\\0"\nroom: .zero 4096\n')


def words_for(program, folder, script, text):
    """The words of a run of this guest, whose files are written."""
    with open(os.path.join(folder, "s"), "wb") as out:
        out.write(script)
    with open(os.path.join(folder, "t"), "w") as out:
        out.write(text)
    with open(os.path.join(folder, "v"), "wb") as out:
        subprocess.run([program, "asm", os.path.join(folder, "t")], stdout=out, check=True)
    return ["run", "--calls", "131072", "--budget", "100000000",
            "--script", os.path.join(folder, "s"), os.path.join(folder, "v")]


def seconds(programs, folder, script, text):
    """The median time of each program, which take turns."""
    words = words_for(programs[0], folder, script, text)
    times = {program: [] for program in programs}
    for _ in range(RUNS):
        for program in programs:
            begun = time.perf_counter()
            status = subprocess.run([program, *words], stdout=subprocess.DEVNULL).returncode
            times[program].append(time.perf_counter() - begun)
            if status != 0:
                sys.exit(f"{program}: status {status}")
    return [statistics.median(times[program]) for program in programs]


def instructions(program, folder, script, text):
    """Instructions of the host in a run, by callgrind."""
    words = words_for(program, folder, script, text)
    ran = subprocess.run(["valgrind", "--tool=callgrind", "--callgrind-out-file=/dev/null", program, *words],
                         stdout=subprocess.DEVNULL, stderr=subprocess.PIPE, text=True)
    found = re.search(r"Collected : (\d+)", ran.stderr)
    if ran.returncode != 0 or not found:
        sys.exit(f"{program}: status {ran.returncode}, and no count")
    return int(found[1])


def script_with(size):
    """A script, with a file of so many bytes."""
    return b"varan-script 1\n" + (b"file f " + b"61" * size + b"\n" if size else b"")


def count(programs, folder, name, before, calls, size):
    few, many = (it // calls.count("ecall") for it in COUNTED)
    a_turn = [(instructions(it, folder, script_with(size), guest(before, calls, many))
               - instructions(it, folder, script_with(size), guest(before, calls, few))) / (many - few) for it in programs]
    first, *others = [it / calls.count("ecall") for it in a_turn]
    beside = "".join(f"  {first / other:8.3f}" for other in others)
    print(f"{name:28}  {first:12,.1f}{beside}", flush=True)


def measure(programs, folder, name, before, calls, size, few, many):
    script = script_with(size)
    per_turn = calls.count("ecall")
    bases, shorts, longs = (seconds(programs, folder, script, guest(before, calls, turns)) for turns in (0, few // per_turn, many // per_turn))
    short, *_ = [(one - base) / few for one, base in zip(shorts, bases)]
    long, *others = [(one - base) / many for one, base in zip(longs, bases)]
    beside = "".join(f"  {long / other:8.2f}" for other in others)
    print(f"{name:28}  {1 / long:12,.0f}  {long / short:8.2f}{beside}", flush=True)


def main():
    reader = argparse.ArgumentParser(description="how many calls a second the program serves")
    reader.add_argument("--program", default=PROGRAM)
    reader.add_argument("--beside")
    reader.add_argument("--count", action="store_true")
    asked = reader.parse_args()
    programs = [os.path.abspath(it) for it in (asked.program, asked.beside) if it]
    with tempfile.TemporaryDirectory() as folder:
        if asked.count:
            print(f"{'call':28}  {'instructions':>12}" + (f"  {'beside':>8}" if asked.beside else ""))
            for case in CASES + LONG_CASES:
                count(programs, folder, *case)
            return
        print(f"{'call':28}  {'calls/s':>12}  {'growth':>8}" + (f"  {'beside':>8}" if asked.beside else ""))
        for name, before, calls, size in CASES:
            measure(programs, folder, name, before, calls, size, FEW, MANY)
        for name, before, calls, size in LONG_CASES:
            measure(programs, folder, name, before, calls, size, 1_000, 4_000)


if __name__ == "__main__":
    main()
