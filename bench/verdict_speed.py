#!/usr/bin/env python3
"""What a verdict of a filter takes, beside a plain interpreter in C (cc -O2).

    bench/verdict_speed.py [RUNS] [--before OBJECT]

Where a loop lies in a line of 64 bytes can cost half of its time again, in either program, though its code stays the same. So each program is linked four times, its code 0, 16, 32 and 48 bytes
further on, and a program's time is that of its best place. All are run in turn, RUNS times (9), each run a process; the table has the medians of their processor times (user and system), in
nanoseconds a verdict, and of the best place also the least. With valgrind it has the host instructions of a verdict too, which depend neither on the place nor on the load.

`--before` names the object of another build of crates/nv_rows (out/nv_rows.o), as one from before a change.

The verdicts are those of `nv_rows rules`. Takes the object as `rt ci` left it, or has `rt run` make it; links it as these do. Needs cc, nm and the kit's `rt` in PATH.
"""
import argparse
import os
import re
import resource
import shutil
import statistics
import subprocess
import sys
import tempfile

from thread_loops import TOP, counted, timed_program

PLACES = (0, 16, 32, 48)
VERDICTS = {10: 5_000_000, 4096: 20_000}
COUNTED = {10: 10_000, 4096: 100}

# What stands before a program's code: both linkers put this section first, and R keeps it, though nothing refers to it.
PAD = """\
.section .text.unlikely, "axR", @progbits
.fill {}, 1, 0xcc
.section .note.GNU-stack, "", @progbits
"""


def padding(room, place):
    pad = os.path.join(room, f"pad{place}.o")
    subprocess.run(["cc", "-c", "-x", "assembler", "-o", pad, "-"], input=PAD.format(place), text=True, check=True)
    return pad


def link_ours(parts, program):
    kit = os.path.dirname(subprocess.run(["rt", "doc"], capture_output=True, text=True, check=True).stdout.strip())
    words = ["--target", "x86_64-unknown-linux-gnu", "--toolchain", f"{kit}/toolchain", "-o", program, *parts]
    subprocess.run([f"{kit}/bin/rattle-link", *words, f"{kit}/c/libos_c.a", f"{kit}/c/liblibc_c.a"], capture_output=True, check=True)


def link_c(parts, program):
    subprocess.run(["cc", "-o", program, *parts], check=True)


def start(program):
    """Where `main` lies."""
    names = subprocess.run(["nm", program], capture_output=True, text=True, check=True).stdout
    return int(re.search(r"^(\w+) T main$", names, re.M)[1], 16)


def placed(room, name, link, code, *words):
    """The program once for each place, with the words that its runs begin with."""
    programs = [os.path.join(room, f"{name} {place}") for place in PLACES]
    for place, program in zip(PLACES, programs):
        link([padding(room, place), code], program)
        if start(program) - start(programs[0]) != place:
            sys.exit(f"{name}: its code doesn't lie {place} bytes further on")
    return [[program, *words] for program in programs]


def object_built():
    """The object of the program. One that was kept from an earlier run is there without it: then it is built once more."""
    program, _ = timed_program("rules")
    if not os.path.exists(program + ".o"):
        os.remove(program)
        timed_program("rules")
    return program + ".o"


def all_programs(room, before):
    c = os.path.join(room, "c.o")
    subprocess.run(["cc", "-O2", "-c", "-o", c, os.path.join(TOP, "bench", "verdict_baseline.c")], check=True)
    programs = {"C": placed(room, "C", link_c, c), "verdicts": placed(room, "verdicts", link_ours, object_built(), "rules")}
    if before:
        programs["verdicts before"] = placed(room, "verdicts before", link_ours, before, "rules")
    return programs


def timed(program, count, verdicts):
    before = resource.getrusage(resource.RUSAGE_CHILDREN)
    done = subprocess.run([*program, str(count), str(verdicts)], check=True, capture_output=True, text=True).stdout
    after = resource.getrusage(resource.RUSAGE_CHILDREN)
    total = (verdicts * (verdicts - 1) // 2 + verdicts * (count - 2)) % 2**32
    if done != f"{count} {verdicts} {total}\n":
        sys.exit(f"{' '.join(program)} printed {done!r}")
    return after.ru_utime + after.ru_stime - before.ru_utime - before.ru_stime


def times_of(programs, runs, count):
    """The nanoseconds a verdict of each run, by program and place."""
    verdicts = VERDICTS[count]
    times = {name: [[] for _ in PLACES] for name in programs}
    for _ in range(runs):
        for name, of_places in programs.items():
            for took, program in zip(times[name], of_places):
                took.append(timed(program, count, verdicts) / verdicts * 1e9)
    return times


def host_instructions(program, count):
    few, many = COUNTED[count], 2 * COUNTED[count]
    return (counted([*program, str(count), str(many)]) - counted([*program, str(count), str(few)])) / few


def print_rows(programs, runs, count):
    times = times_of(programs, runs, count)
    best = {name: min(of_places, key=statistics.median) for name, of_places in times.items()}
    for name, of_places in times.items():
        medians = ", ".join(f"{statistics.median(took):,.1f}" for took in of_places)
        least = f"{statistics.median(best[name]):,.1f}, {min(best[name]):,.1f}"
        ratio = f"{statistics.median(best[name]) / statistics.median(best['C']):.2f}, {min(best[name]) / min(best['C']):.2f}"
        host = f"{host_instructions(programs[name][0], count):,.1f}" if shutil.which("valgrind") else ""
        print(f"| {count:,} | {name} | {medians} | {least} | {ratio} | {host} |", flush=True)


def main():
    wanted = argparse.ArgumentParser()
    wanted.add_argument("runs", nargs="?", type=int, default=9)
    wanted.add_argument("--before", metavar="OBJECT")
    given = wanted.parse_args()
    with tempfile.TemporaryDirectory() as room:
        programs = all_programs(room, given.before)
        print(f"{given.runs} runs, load {os.getloadavg()[0]:.1f}\n")
        print("| Instructions | Program | Nanoseconds a verdict at 0, 16, 32, 48: medians | Best place: median, least | It / C: median, least | Host instructions |")
        print("|---|---|---|---|---|---|")
        for count in VERDICTS:
            print_rows(programs, given.runs, count)


if __name__ == "__main__":
    main()
