#!/usr/bin/env python3
"""How versions run beside each other.

The program as `rt ci` built it runs guests of this script, from outside; each figure is the median or the best of five runs (or as many as RUNS says), and each ratio is of figures that
were taken in turns. With `--before PROGRAM` the last table also times another program with the same words, as a build from before a change.

- Versions that compute, between 1,000 calls and before their only one, and versions that write 65,535 bytes, one a call: k equal ones
  against one. Those that compute between calls also in processes of their own, which share nothing: what the host gives to as many at once. Those
  that compute before their only call also on one thread, and two of them over a ring of two places.
- A tenth of the writes over rings of 256, 2 and 1,024 places, and on one thread.
- A leader beside a slow follower: the leader makes 1,000 calls at once and then computes; the follower computes as much, a part before each
  call. Where the leader waits for nobody the run takes as long as the follower computes, and else as long as both.
- Seven followers that wait for a leader which computes: the processor time of all against the wall time.
- Versions of 16 MiB that exit at once: what comes before the first instruction.
- One version that writes against the plain monitor on one thread (`nv_rows sequence`), with the same report.
"""
import os
import resource
import statistics
import struct
import subprocess
import sys
import tempfile
import time

TOP = os.path.dirname(os.path.dirname(os.path.abspath(__file__)))
PROGRAM = os.path.join(TOP, "crates", "varan", "out", "varan")
PLAIN = os.path.join(TOP, "crates", "nv_rows", "out", "nv_rows")
RUNS = int(os.environ.get("RUNS", "5"))
# In the place of options: each guest in a process of its own.
APART = ("apart",)

ZERO, A0, A1, A2, A7, S0, S1, T0 = 0, 10, 11, 12, 17, 8, 9, 5
ECALL = 0x00000073


def addi(rd, rs1, imm):
    return ((imm & 0xFFF) << 20) | (rs1 << 15) | (rd << 7) | 0x13


def lui(rd, upper):
    return ((upper & 0xFFFFF) << 12) | (rd << 7) | 0x37


def bne(rs1, rs2, offset):
    o = offset & 0x1FFF
    return ((o >> 12 & 1) << 31) | ((o >> 5 & 63) << 25) | (rs2 << 20) | (rs1 << 15) | (1 << 12) | ((o >> 1 & 15) << 8) | ((o >> 11 & 1) << 7) | 0x63


def load(rd, value):
    upper = (value + 0x800) >> 12
    return [lui(rd, upper), addi(rd, rd, value - (upper << 12))]


def loop(counter, count, body):
    """The body, so many times."""
    return load(counter, count) + body + [addi(counter, counter, -1), bne(counter, ZERO, -4 * (len(body) + 1))]


def compute(count):
    return loop(T0, count, [])


EXIT = [addi(A0, ZERO, 0), addi(A7, ZERO, 94), ECALL]
ASK = [addi(A7, ZERO, 174), ECALL]


def image(words, tail=b""):
    """A version file: one segment with the rights read and execute at 0x10000, with the entry there."""
    code = b"".join(struct.pack("<I", word) for word in words) + tail
    head = bytes.fromhex("7F454C46010101000000000000000000") + struct.pack(
        "<HHIIIIIHHHHHH", 2, 243, 1, 0x10000, 52, 0, 0, 52, 32, 1, 0, 0, 0)
    table = struct.pack("<IIIIIIII", 1, 84, 0x10000, 0x10000, len(code), len(code), 5, 4)
    return head + table + code


def writes(count):
    """Writes the byte behind the code, so often."""
    once = [addi(A0, ZERO, 1), addi(A7, ZERO, 64), ECALL]
    words = [lui(A1, 0x10), 0, addi(A2, ZERO, 1)] + loop(S0, count, once) + EXIT
    words[1] = addi(A1, A1, 4 * len(words))
    return image(words, b"x")


# Instructions of a guest that computes: two a turn of its loop.
TURNS = 150_000_000
CALLS = 1_000

GUESTS = {
    "computes": image(compute(TURNS) + EXIT),
    "writes": writes(65_535),
    "few": writes(6_553),
    "early": image(loop(S0, CALLS, ASK) + compute(TURNS) + EXIT),
    "between": image(loop(S0, CALLS, compute(TURNS // CALLS) + ASK) + EXIT),
    "slow": image(loop(S0, 10, compute(TURNS // 10) + ASK) + EXIT),
    "quick": image(loop(S0, 10, ASK) + EXIT),
    "exits": image(EXIT),
}


class Bench:
    def __init__(self, folder):
        self.folder = folder
        for name, content in list(GUESTS.items()) + [("s", b"varan-script 1\n")]:
            with open(os.path.join(folder, name), "wb") as file:
                file.write(content)

    def words(self, guests, options, program):
        words = ["sequence"]
        if program != PLAIN:
            words = ["run", "--script", os.path.join(self.folder, "s"), "--budget", "1000000000", *options]
        return [program, *words] + [os.path.join(self.folder, guest) for guest in guests]

    def check(self, report, count):
        with open(report, "rb") as file:
            fates = file.read().split(b"fates ")[1].splitlines()[1:]
        if len(fates) != count or not all(b" exited 0 " in fate for fate in fates):
            sys.exit(f"another report: {fates}")

    def once(self, guests, options=(), program=PROGRAM):
        """Wall and processor seconds of a run of these guests beside each other; with APART of as many runs of one each, at once."""
        runs = [[guest] for guest in guests] if options is APART else [guests]
        options = () if options is APART else options
        reports = [os.path.join(self.folder, f"report{n}") for n in range(len(runs))]
        before = resource.getrusage(resource.RUSAGE_CHILDREN)
        begun = time.perf_counter()
        started = []
        for run, report in zip(runs, reports):
            with open(report, "wb") as file:
                started.append(subprocess.Popen(self.words(run, options, program), stdout=file))
        statuses = [process.wait() for process in started]
        took = time.perf_counter() - begun
        after = resource.getrusage(resource.RUSAGE_CHILDREN)
        if any(statuses):
            sys.exit(f"statuses {statuses} of {guests}")
        for run, report in zip(runs, reports):
            self.check(report, len(run))
        spent = after.ru_utime + after.ru_stime - before.ru_utime - before.ru_stime
        return took, spent

    def table(self, rows):
        """Medians and bests of the rows, whose runs take turns, each against the first: seconds, and median processor seconds."""
        times = [[] for _ in rows]
        for _ in range(RUNS):
            for row, (name, guests, options, program) in enumerate(rows):
                times[row].append(self.once(guests, options, program))
        walls = [statistics.median(wall for wall, _ in row) for row in times]
        spent = [statistics.median(cpu for _, cpu in row) for row in times]
        bests = [min(wall for wall, _ in row) for row in times]
        for (name, _, _, _), wall, best, cpu in zip(rows, walls, bests, spent):
            print(f"| {name} | {wall:.3f}, {best:.3f} | {wall / walls[0]:.2f}, {best / bests[0]:.2f} | {cpu:.3f} |", flush=True)


def main():
    before = sys.argv[sys.argv.index("--before") + 1] if "--before" in sys.argv else None
    print("| Run | Seconds: median, best | Against the first: median, best | Processor seconds |\n|---|---|---|---|")
    with tempfile.TemporaryDirectory() as folder:
        bench = Bench(folder)
        bench.table([(f"{k} that compute between calls", ["between"] * k, (), PROGRAM) for k in (1, 2, 4, 8)]
                    + [(f"{k} in processes of their own", ["between"] * k, APART, PROGRAM) for k in (2, 4, 8)])
        bench.table([(f"{k} that compute before their one call", ["computes"] * k, (), PROGRAM) for k in (1, 2, 4, 8)]
                    + [("2, one thread", ["computes"] * 2, ("--threads", "1"), PROGRAM), ("2, ring of 2", ["computes"] * 2, ("--ring", "2"), PROGRAM)])
        bench.table([(f"{k} that write", ["writes"] * k, (), PROGRAM) for k in (1, 2, 4, 8)])
        bench.table([(f"8 that write a tenth, ring of {n}", ["few"] * 8, ("--ring", str(n)), PROGRAM) for n in (256, 2, 1024)]
                    + [("8 that write a tenth, one thread", ["few"] * 8, ("--threads", "1"), PROGRAM)])
        bench.table([("slow follower alone", ["between"], (), PROGRAM)]
                    + [(f"a quick leader and it, ring of {n}", ["early", "between"], ("--ring", str(n)), PROGRAM) for n in (1024, 256, 2)])
        bench.table([("slow leader alone", ["slow"], (), PROGRAM),
                     ("with one quick follower", ["slow", "quick"], (), PROGRAM),
                     ("with seven quick followers", ["slow"] + ["quick"] * 7, (), PROGRAM)])
        bench.table([(f"{k} of 16 MiB that exit at once", ["exits"] * k, ("--memory", "16777216"), PROGRAM) for k in (1, 2, 4, 8)]
                    + [("8 of 1 MiB that exit at once", ["exits"] * 8, (), PROGRAM)])
        rows = [("1 that writes, by the plain monitor", ["writes"], (), PLAIN),
                ("1 that writes, one thread", ["writes"], ("--threads", "1"), PROGRAM),
                ("1 that writes", ["writes"], (), PROGRAM)]
        if before:
            rows.append(("1 that writes, the other build", ["writes"], (), before))
        bench.table(rows)


if __name__ == "__main__":
    main()
