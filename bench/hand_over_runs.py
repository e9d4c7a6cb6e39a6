#!/usr/bin/env python3
"""Runs with planned hand-overs, again and again: every report is the one that the versions give on one thread.

Equal versions write a byte 6,553 times, and the script has eight planned lengths. Build the program first: `cd crates/varan && rt run -- run --script data/s data/v`.
Then bench/hand_over_runs.py [RUNS] (100 by default): so many runs of eight versions over two places, and of three versions over 2, 16 and 1,024 places in turn.
"""
import os
import subprocess
import sys
import tempfile

from worker_speed import GUESTS, PROGRAM

LENGTHS = [100, 200, 300, 1000, 2000, 3000, 4000, 5000]
SCRIPT = "varan-script 2\n" + "".join(f"hand {length}\n" for length in LENGTHS)


def report(folder, versions, *options):
    words = [PROGRAM, "run", "--script", os.path.join(folder, "script"), *options] + [os.path.join(folder, "guest")] * versions
    done = subprocess.run(words, capture_output=True, timeout=60)
    if done.returncode != 0:
        sys.exit(f"status {done.returncode} of {words}")
    return done.stdout


def main():
    runs = int(sys.argv[1]) if len(sys.argv) > 1 else 100
    with tempfile.TemporaryDirectory() as folder:
        with open(os.path.join(folder, "guest"), "wb") as file:
            file.write(GUESTS["few"])
        with open(os.path.join(folder, "script"), "w") as file:
            file.write(SCRIPT)
        for versions, rings in ((8, [2]), (3, [2, 16, 1024])):
            wanted = report(folder, versions, "--threads", "1")
            same = sum(report(folder, versions, "--ring", str(rings[run % len(rings)])) == wanted for run in range(runs))
            print(f"{versions} versions, rings {rings}: {same} of {runs} runs the same")
            print(wanted.decode().split("fates ")[1], end="")


if __name__ == "__main__":
    main()
