#!/usr/bin/env python3
"""What the gate takes, part by part, in processor minutes.

    gate_parts.py [COMMAND ..]

Runs the command (`rt ci --anew` at the top of the repository, unless one is named), looks at the processor times of the toolchain's processes twice a second, and prints at the end
what the proofs of the crates took, the proofs of their tests, the proof of each crate once more before its edits are tried, the edits, and the rest, with the crates of each,
the dearest first, and beside them the processor time of all that the command ran, as the system counts it. What a process does after its last look isn't in its part: it is in the rest.
The figures are of a machine with nothing else at work. A processor's pace may change by half within a run all the same, as its host has more or less to do: so a loop over a table
of some 80 MB, which is always the same, is timed once a minute, and its processor time is told at the end. It isn't in the figures.
"""
import collections
import os
import pathlib
import re
import resource
import statistics
import subprocess
import sys
import threading
import time

TOP = pathlib.Path(__file__).resolve().parent.parent
TICKS = os.sysconf("SC_CLK_TCK")
NAME = re.compile(r"--crate-name\0(\w+)")
# The loop by which the pace is told: numbers in no order, each kept in a table.
LOOP = """
x, table = 0, {}
for i in range(1_500_000):
    x = (x * 1103515245 + 12345) & 0x7fffffff
    table[x & 0xfffff] = i
"""
PARTS = ["proofs of the crates", "proofs of the tests", "each crate once more before its edits", "must-fail edits"]


class Looks:
    """The toolchain's processes that were seen: when each began, its words, its folder and its last processor time."""

    def __init__(self):
        self.seen = {}
        self.is_over = False

    def look(self):
        for pid in filter(str.isdigit, os.listdir("/proc")):
            try:
                fields = pathlib.Path(f"/proc/{pid}/stat").read_text().rpartition(") ")[2].split()
                key = (pid, fields[19])
                if key not in self.seen:
                    words = pathlib.Path(f"/proc/{pid}/cmdline").read_text()
                    if not os.path.basename(words.split("\0")[0]) == "rattle" or not NAME.search(words):
                        continue
                    self.seen[key] = [int(fields[19]), words, os.readlink(f"/proc/{pid}/cwd"), 0]
                self.seen[key][3] = (int(fields[11]) + int(fields[12])) / TICKS
            except (OSError, IndexError, ValueError):
                continue

    def keep_looking(self):
        while not self.is_over:
            self.look()
            time.sleep(0.5)

    def parts(self):
        """Seconds by part and crate. The first check of a crate among those of its edits is the crate as it stands."""
        found = {part: collections.Counter() for part in PARTS}
        begun = set()
        for _, words, folder, took in sorted(self.seen.values()):
            crate = NAME.search(words)[1]
            if "/rt-edit" in folder:
                part = PARTS[3] if crate in begun else PARTS[2]
                begun.add(crate)
            else:
                part = PARTS[1] if "\0--test\0" in words else PARTS[0]
            found[part][crate] += took
        return found


class Pace:
    """The processor times of the loop, once a minute from the beginning on."""

    def __init__(self):
        self.times = []
        self.is_over = threading.Event()

    def keep_timing(self):
        while True:
            loop = subprocess.Popen([sys.executable, "-c", LOOP])
            used = os.wait4(loop.pid, 0)[2]
            self.times.append(used.ru_utime + used.ru_stime)
            if self.is_over.wait(60):
                return


def main():
    command = sys.argv[1:] or ["rt", "ci", "--anew"]
    looks, pace = Looks(), Pace()
    threads = [threading.Thread(target=looks.keep_looking), threading.Thread(target=pace.keep_timing)]
    for it in threads:
        it.start()
    begun = time.time()
    status = subprocess.run(command, cwd=TOP).returncode
    looks.is_over = True
    pace.is_over.set()
    for it in threads:
        it.join()
    used = resource.getrusage(resource.RUSAGE_CHILDREN)
    whole = used.ru_utime + used.ru_stime - sum(pace.times)
    print(f"\nstatus {status}, {(time.time() - begun) / 60:.1f} minutes, {whole / 60:.1f} processor minutes")
    print(f"the loop: {min(pace.times):.2f} to {max(pace.times):.2f} s, median {statistics.median(pace.times):.2f}\n")
    print("| Part | Minutes | Crates: seconds |\n|---|---|---|")
    known = 0
    for part, crates in looks.parts().items():
        known += crates.total()
        dear = ", ".join(f"{name} {took:.0f}" for name, took in crates.most_common())
        print(f"| {part} | {crates.total() / 60:.1f} | {len(crates)}: {dear} |")
    print(f"| the rest: programs, tests, compilers, between looks | {(whole - known) / 60:.1f} | |")
    return status


if __name__ == "__main__":
    sys.exit(main())
