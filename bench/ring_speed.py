#!/usr/bin/env python3
"""How many events a second go through a room, beside rtrb with the same words, and against what they are made of.

    bench/ring_speed.py [RUNS]

Takes the program that `rt ci` or `rt run nv_rows -- ring` built. Each row is the median of RUNS runs (9 by default); the kinds take turns, so that a busy minute meets all of them.
A run is one process with ten rounds (of one in C), timed from outside. The allocator keeps the memory that a round gave back for the next one,
so that the kernel's log is paged in once and not ten times.

The way of the words between processors is bench/ring_layout.c, built by `gcc -O2`: the same loads and stores of events of six words, with nothing served, spelt or logged. One column is
the time against the kernel alone and that way together, for as many readers. A writer that does nothing between its events is ahead of its readers, which then find several at a look; a lead that
serves calls isn't. So the last column is against the C writer that multiplies before each event for as long as the room's lead takes without a reader.
"""
import os
import pathlib
import statistics
import subprocess
import sys
import tempfile
import time

BENCH = pathlib.Path(__file__).resolve().parent
PROGRAM = BENCH.parent / "crates/nv_rows/out/nv_rows"
KEEPS_MEMORY = dict(os.environ, MALLOC_ARENA_MAX="1", MALLOC_TRIM_THRESHOLD_="4000000000", MALLOC_MMAP_THRESHOLD_="4000000000")
EVENTS = {6: 1_000_000, 518: 100_000}
KINDS = [("kernel alone", "kernel-{}"), ("lead, no reader", "ring-{}-0"), ("ring, 1 reader", "ring-{}-1"),
         ("ring, 2 readers", "ring-{}-2"), ("rtrb, 1 reader", "rtrb-{}")]
READERS = (0, 1, 2)


def seconds(words):
    start = time.perf_counter()
    done = subprocess.run(words, check=True, capture_output=True, text=True, env=KEEPS_MEMORY).stdout
    return time.perf_counter() - start, done


def passed(name):
    """The seconds of a run of the program."""
    took, done = seconds([PROGRAM, "ring", name])
    if done != f"{name} {EVENTS[int(name.split('-')[1])]}\n":
        sys.exit(f"{name} printed {done!r}")
    return took


def multiplications(way):
    """So many as take the C writer without a reader as long for an event as the room's lead, by the best of three."""
    lead = min(passed("ring-6-0") for _ in range(3))
    none, many = (min(seconds([way, "0", str(n)])[0] for _ in range(3)) for n in (0, 200))
    return max(0, round(200 * (lead - none) / (many - none)))


def print_table(words, took, ways):
    """Nanoseconds an event: the median and the best. `ways` are the C writer's times by readers, as it is and at the lead's pace."""
    events = EVENTS[words]
    base = statistics.median(took[f"rtrb-{words}"])
    kernel = statistics.median(took[f"kernel-{words}"])

    def line(label, times, *against):
        median = statistics.median(times)
        ratios = "".join(f" | {median / part:.2f}" if part else " | " for part in (base, *against))
        print(f"| {words} | {label} | {median / events * 1e9:.1f} | {min(times) / events * 1e9:.1f}{ratios} |")

    print("| Words an event | What | ns an event, median | best | Against rtrb | Against kernel and way | Against the way at its pace |")
    print("|---|---|---|---|---|---|---|")
    for label, kind in KINDS:
        readers = int(kind[-1]) if kind.startswith("ring") and words == 6 else None
        way, paced = (statistics.median(times[readers]) for times in ways) if readers is not None else (None, None)
        line(label, took[kind.format(words)], kernel + way if way else None, paced)
    for name, times in zip(("the words' way", "the way at the lead's pace"), ways) if words == 6 else []:
        for readers in READERS:
            line(f"{name}, {readers} readers", times[readers], None, None)
    print()


def main():
    runs = int(sys.argv[1]) if len(sys.argv) > 1 else 9
    names = [kind.format(words) for words in EVENTS for _, kind in KINDS]
    took = {name: [] for name in names}
    ways = [{readers: [] for readers in READERS} for _ in range(2)]
    with tempfile.TemporaryDirectory() as room:
        way = pathlib.Path(room) / "ring_layout"
        subprocess.run(["gcc", "-O2", "-pthread", "-o", way, BENCH / "ring_layout.c"], check=True)
        works = multiplications(way)
        for _ in range(runs):
            for name in names:
                took[name].append(passed(name))
            for times, count in zip(ways, (0, works)):
                for readers in READERS:
                    times[readers].append(seconds([way, str(readers), str(count)])[0])
    print(f"{runs} runs, {works} multiplications an event, load {os.getloadavg()[0]:.1f}\n")
    for words in EVENTS:
        print_table(words, took, ways)


if __name__ == "__main__":
    main()
