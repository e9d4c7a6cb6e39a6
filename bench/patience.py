#!/usr/bin/env python3
"""How long a client waits beside a follower that can't keep up, and what `--patience` makes of it.

    bench/patience.py [--program PATH] [--requests N]

PATH is crates/varan/out/varan where it isn't given (build it first: `rt run` in crates/varan). One client of examples/live/keeper.c asks N lines, 2,000 by default, one after the other, over the lines of
`varan serve --clients` alone, without varan-listen. The follower goes round a loop of 500,000 turns before each answer (built/keeper_slow). Each answer is checked. Status 1: one is otherwise.
"""
import argparse
import pathlib
import statistics
import subprocess
import sys
import tempfile
import time

TOP = pathlib.Path(__file__).resolve().parent.parent
BUILT = TOP / "examples/live/built"
CASES = (
    ("alone", [], ["keeper_1"]),
    ("an equal follower", [], ["keeper_1", "keeper_1"]),
    ("a slow follower", [], ["keeper_1", "keeper_slow"]),
    ("a slow and an equal one, --patience 100", ["--patience", "100"], ["keeper_1", "keeper_slow", "keeper_1"]),
)
LINE, ANSWER = b"put colour green\n", b"kept\n"
HEAD = f"{'':40} {'answers a second':>16} {'median':>8} {'p99':>8} {'longest':>8} ms  let go"


class Asked:
    """Versions before one client, over the lines of `varan serve --clients`."""

    def __init__(self, program, words, versions):
        self.versions, self.notes = versions, tempfile.TemporaryFile("w+")
        self.process = subprocess.Popen([program, "serve", "--clients", *words, *versions], stdin=subprocess.PIPE, stdout=subprocess.PIPE, stderr=self.notes, text=True)
        self.tell("connect 8080\n")
        if self.process.stdout.readline() != "accept 0\n":
            sys.exit(f"the client isn't accepted with {versions}")

    def tell(self, lines):
        self.process.stdin.write(lines)
        self.process.stdin.flush()

    def ask(self, count=1):
        """The seconds in which so many requests are answered that are sent at once."""
        begun = time.perf_counter()
        self.tell(f"data 0 {LINE.hex()}\n" * count)
        if any(self.process.stdout.readline() != f"data 0 {ANSWER.hex()}\n" for _ in range(count)):
            sys.exit(f"another answer with {self.versions}")
        return time.perf_counter() - begun

    def end(self):
        """What standard error has."""
        self.process.communicate("end 0\nend clients\n")
        self.notes.seek(0)
        return self.notes.read()


def row(name, took):
    median, p99 = statistics.median(took), statistics.quantiles(took, n=100)[98]
    return f"{name:40} {len(took) / sum(took):16,.0f} {1000 * median:8.3f} {1000 * p99:8.3f} {1000 * max(took):8.1f}    "


def main():
    parser = argparse.ArgumentParser(description="How long a client waits beside a follower that can't keep up.")
    parser.add_argument("--program", default=TOP / "crates/varan/out/varan")
    parser.add_argument("--requests", type=int, default=2000)
    given = parser.parse_args()
    print(HEAD)
    for name, words, versions in CASES:
        asked = Asked(given.program, words, [BUILT / it for it in versions])
        took = [asked.ask() for _ in range(given.requests)]
        print(row(name, took), asked.end().count(" ended: left, "))


if __name__ == "__main__":
    main()
