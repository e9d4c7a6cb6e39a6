#!/usr/bin/env python3
"""What a follower with checks costs the service, how far it falls behind, and which ring it wants.

    bench/checked_follower.py [--program PATH] [--requests N]

PATH is crates/varan/out/varan where it isn't given (build it first: `rt run` in crates/varan). The compiler of ../examples/guests/cc builds examples/live/keeper.c plain and checked. One client asks
N lines, 2,000 by default, over the lines of `varan serve --clients` alone: one after the other; then 100 and N at once, each to a process of its own, by the median of TURNS. Each answer is checked.
Instructions are those up to the same event of one trace. Status 1: an answer is another one, or the checked version isn't in step.
"""
import argparse
import pathlib
import re
import statistics
import subprocess
import sys
import tempfile

from patience import HEAD, LINE, TOP, Asked, row

TURNS, BURST = 5, 100
HANG = ("--hang", "100000000")
CASES = (
    ("plain, alone", [], []),
    ("a plain follower", [], ["plain"]),
    ("a checked follower, ring 8", ["--ring", "8"], ["checked"]),
    ("a checked follower, ring 256", [], ["checked"]),
    ("a checked follower, ring 1,024", ["--ring", "1024"], ["checked"]),
    ("a checked follower, --patience 10", ["--patience", "10"], ["checked"]),
)


def built(folder, name, *options):
    live = TOP / "examples/live"
    subprocess.run([TOP / "examples/guests/cc", *options, live / "keeper.c", TOP / "examples/guests/store_1.c", "-o", folder / name], check=True)


def at_once(program, words, versions, requests):
    """Answers a second, where so many requests are sent at once; and how far behind followers were let go."""
    rates, behind = [], []
    for _ in range(TURNS):
        asked = Asked(program, words, versions)
        rates.append(requests / asked.ask(requests))
        behind += re.findall(r" is let go: it is (\d+) events behind", asked.end())
    return statistics.median(rates), behind


def instructions(program, folder, requests):
    """Of each version, up to the last event before the client ends."""
    script, trace = folder / "script", folder / "trace"
    script.write_text("varan-script 5\nconnect 8080\n" + f"data 0 {LINE.hex()}\n" * requests + "end 0\nend clients\n")
    with open(trace, "wb") as file:
        subprocess.run([program, "record", *HANG, "--script", script, folder / "plain"], stdout=file, check=True)
    for name in ("plain", "checked"):
        told = subprocess.run([program, "inspect", *HANG, "--script", script, "--stamp", str(2 * requests), trace, folder / name], stdout=subprocess.PIPE, text=True, check=True).stdout
        yield name, int(re.match(r"at seen \d+ count (\d+) in step\n", told)[1])


def main():
    parser = argparse.ArgumentParser(description="What a follower with checks costs the service.")
    parser.add_argument("--program", type=pathlib.Path, default=TOP / "crates/varan/out/varan")
    parser.add_argument("--requests", type=int, default=2000)
    given = parser.parse_args()
    with tempfile.TemporaryDirectory() as made:
        folder = pathlib.Path(made)
        built(folder, "plain")
        built(folder, "checked", "--checked")
        print(f"{HEAD}  {BURST} at once, {given.requests:,} at once: answers a second, let go at")
        for name, words, followers in CASES:
            versions = [folder / it for it in ("plain", *followers)]
            asked = Asked(given.program, words, versions)
            took = [asked.ask() for _ in range(given.requests)]
            few, many = (at_once(given.program, words, versions, it) for it in (BURST, given.requests))
            print(row(name, took), asked.end().count(" ended: left, "), *(f"{rate:12,.0f} {' '.join(behind)}" for rate, behind in (few, many)))
        counts = dict(instructions(given.program, folder, given.requests))
        print(", ".join(f"{name} {count:,}" for name, count in counts.items()), f"instructions: {counts['checked'] / counts['plain']:.2f}")


if __name__ == "__main__":
    main()
