#!/usr/bin/env python3
"""Times the machine's loop in each program that has it: `step` in a bare loop, the turns of a process, and the whole monitor.

    bench/thread_loops.py [RUNS] [--before FOLDER] [--answers PROGRAM]

A guest that counts down (`addi`, `bne`) runs for the same number of instructions as `nv_rows machine` calls `step`, as `nv_rows threads` calls `Process::advance`, in one
thread and in eight that take turns, and as one version under `varan run` on one thread. Beside them the plain C interpreters of bench/machine_loops.c, with `step` as a call of its own
and compiled into the loop, and of bench/machine_decoded.c, which decodes once. Runs them in turn (11 times by default), and prints the medians and the best of their processor times in millions of instructions a second, the speed
of each against `step`, and how many times its time C takes. With valgrind it also prints the host instructions of each guest instruction, which don't depend on the load.

Then a guest that reads, whose calls `nv_rows threads` answers with 4,096 bytes: nanoseconds an answer. `--before` names a folder with other builds of varan and nv_rows, as
from before a change, whose loops are timed as well, and `--answers` another build of nv_rows that answers.

Takes the programs as `rt ci` built them, or builds those that aren't there with `rt run`.
"""
import argparse
import os
import re
import resource
import shutil
import statistics
import subprocess
import sys
import tempfile

from worker_speed import EXIT, PROGRAM, compute, image

TOP = os.path.dirname(os.path.dirname(os.path.abspath(__file__)))
STEPS = 50_000_000
COUNTED = 2_000_000


def built(crate, *words):
    folder = os.path.join(TOP, "crates", crate)
    program = os.path.join(folder, "out", crate)
    if not os.path.exists(program):
        subprocess.run(["rt", "run", "--", *words], cwd=folder, check=True, capture_output=True)
    return program


def timed_program(module):
    """The words that a run of nv_rows begins with, which name what is timed."""
    return [built("nv_rows", "machine", "count", "1"), module]


class Programs:
    """What runs the guest, by name: the words of a run of so many instructions."""

    def __init__(self, room, before):
        self.room = room
        machine, threads = timed_program("machine"), timed_program("threads")
        self.write("s", b"varan-script 1\n")
        self.words = {
            "step": lambda steps: [*machine, "count", str(steps)],
            "advance, one thread": lambda steps: [*threads, "one", str(steps)],
            "advance, eight threads": lambda steps: [*threads, "eight", str(steps)],
            "varan run": lambda steps: self.run_of(PROGRAM, steps),
        }
        if before:
            other = os.path.join(before, "nv_rows")
            self.words["advance, one thread, before"] = lambda steps: [other, "threads", "one", str(steps)]
            self.words["varan run, before"] = lambda steps: self.run_of(os.path.join(before, "varan"), steps)
        for name, source, flags in (
                ("C, step called", "machine_loops.c", []), ("C, step inlined", "machine_loops.c", ["-DINLINE"]), ("C, decoding once", "machine_decoded.c", [])):
            program = os.path.join(room, source + "".join(flags))
            subprocess.run(["gcc", "-O2", *flags, "-o", program, os.path.join(TOP, "bench", source)], check=True)
            self.words[name] = lambda steps, program=program: [program, "count", str(steps)]

    def write(self, name, content):
        path = os.path.join(self.room, name)
        with open(path, "wb") as file:
            file.write(content)
        return path

    def run_of(self, program, steps):
        """A version that does so many instructions, and a few before and after them."""
        version = os.path.join(self.room, f"v{steps}")
        if not os.path.exists(version):
            self.write(f"v{steps}", image(compute(steps // 2) + EXIT))
        return [program, "run", "--threads", "1", "--budget", "1000000000", "--script", os.path.join(self.room, "s"), version]


def timed(words):
    before = resource.getrusage(resource.RUSAGE_CHILDREN)
    subprocess.run(words, capture_output=True, check=True)
    after = resource.getrusage(resource.RUSAGE_CHILDREN)
    return after.ru_utime + after.ru_stime - before.ru_utime - before.ru_stime


def counted(words):
    """Host instructions of a run, by callgrind."""
    ran = subprocess.run(["valgrind", "--tool=callgrind", "--callgrind-out-file=/dev/null", *words],
                         capture_output=True, text=True, check=True)
    return int(re.search(r"Collected : (\d+)", ran.stderr).group(1))


def print_table(programs, times):
    bases = [times[name] for name in ("step", "C, step called", "C, step inlined", "C, decoding once")]
    print("| Program | M/s: median, best | Against `step`: median, best | C called / it: median, best | C inlined / it: median, best | C decoding once / it: median, best | Host instructions |")
    print("|---|---|---|---|---|---|---|")
    for name, took in times.items():
        host = ""
        if shutil.which("valgrind"):
            host = f"{(counted(programs.words[name](2 * COUNTED)) - counted(programs.words[name](COUNTED))) / COUNTED:.1f}"
        a, b = statistics.median(took), min(took)
        ratios = [f"{statistics.median(other) / a:.2f}, {min(other) / b:.2f}" for other in bases]
        print(f"| {name} | {STEPS / a / 1e6:.1f}, {STEPS / b / 1e6:.1f} | {' | '.join(ratios)} | {host} |", flush=True)


# Instructions of the guest that reads: four an answer. A program that stores byte by byte is some hundred times slower.
READS = {"answers": 4_000_000, "answers, the other build": 400_000}


def print_answers(runs, other):
    programs = {"answers": timed_program("threads"), **({"answers, the other build": [other, "threads"]} if other else {})}
    times = {name: [] for name in programs}
    for _ in range(runs):
        for name, program in programs.items():
            idle = timed([*program, "answers", "4"])
            times[name].append((timed([*program, "answers", str(READS[name])]) - idle) / (READS[name] / 4))
    print("\n| An answer of 4,096 bytes | ns: median, best |\n|---|---|")
    for name, took in times.items():
        print(f"| {name} | {statistics.median(took) * 1e9:.1f}, {min(took) * 1e9:.1f} |")


def main():
    wanted = argparse.ArgumentParser()
    wanted.add_argument("runs", nargs="?", type=int, default=11)
    wanted.add_argument("--before")
    wanted.add_argument("--answers")
    given = wanted.parse_args()
    runs = given.runs
    with tempfile.TemporaryDirectory() as room:
        programs = Programs(room, given.before)
        times = {name: [] for name in programs.words}
        for _ in range(runs):
            for name, words in programs.words.items():
                times[name].append(timed(words(STEPS)))
        print(f"{STEPS} instructions, {runs} runs, load {os.getloadavg()[0]:.1f}\n")
        print_table(programs, times)
    print_answers(runs, given.answers)


if __name__ == "__main__":
    main()
