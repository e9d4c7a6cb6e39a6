#!/usr/bin/env python3
"""What a live run keeps of clients that are gone: memory and the processor's time over many pages, each a client of its own.

    bench/long_run.py [--program PATH] [--pages N] [--clients N] [served] [listen]

PATH is crates/varan/out/varan where it isn't given (build it first: `rt run` in crates/varan); without a part both are run. An unproved program takes `--pages 20000`.

- served: N pages, 1,000,000 by default, of examples/server in one run of `varan serve --clients`, with 1, 2 and 8 equal versions. This script writes the lines of the clients, 64
  at once, and reads what is said. A page is eleven calls, so a run has some 11,000,000.
- listen: N clients, 200,000 by default, of varan-listen before a program that answers at once (live_answers.c).

Resident memory (VmRSS) is looked at after 10,000 clients and at the end, the processor's time from the 1,000th client on and up to the end, over 2,000 clients each. Each answer is
checked. Status 1: one is otherwise, or resident memory has grown by more than a twentieth.
"""
import argparse
import collections
import concurrent.futures
import os
import pathlib
import select
import signal
import subprocess
import sys
import tempfile
import threading
import time

sys.dont_write_bytecode = True

from live_speed import REQUEST, SECONDS, SERVER, TOP, free_port, processor_time, request, set_up, table, wait_for

COUNTS = (1, 2, 8)
# Clients of the lines that are under way at once, and connections beside each other.
AT_ONCE, BESIDE = 64, 8
# After how many clients memory is looked at, and the time; and over how many clients the time is.
SETTLED, BEGUN, WINDOW = 10_000, 1_000, 2_000
MOST_GROWTH = 1.05


class Wrong(Exception):
    """Something is otherwise than it has to be."""


def resident(process):
    """VmRSS, in KiB."""
    lines = pathlib.Path(f"/proc/{process}/status").read_text().splitlines()
    return next(int(line.split()[1]) for line in lines if line.startswith("VmRSS:"))


class Served:
    """A run of `varan serve --clients`, over pipes."""

    def __init__(self, command, wanted):
        self.process = subprocess.Popen(command, stdin=subprocess.PIPE, stdout=subprocess.PIPE, stderr=subprocess.PIPE, bufsize=0)
        self.pid, self.count = self.process.pid, 0
        self.told = collections.deque(maxlen=20)  # the last lines of the transcript
        self.reader = threading.Thread(target=self.told.extend, args=[self.process.stderr])
        self.reader.start()
        self.page = self.first_page(wanted)

    def first_page(self, wanted):
        """What is said of a client, with a place for its number in each line, by the first one."""
        self.send(1)
        said = b""
        while not said.endswith(b"close 0\n"):
            said += self.read()
        lines = [line.split(b" ") for line in said.splitlines()]
        words = [words[0] for words in lines]
        page = b"".join(bytes.fromhex(words[2].decode()) for words in lines if words[0] == b"data")
        if (words[0], set(words[1:-1]), words[-1], page) != (b"accept", {b"data"}, b"close", wanted):
            raise Wrong(f"the first client: {said!r}")
        return b"".join(b" ".join([words[0], b"%d", *words[2:]]) + b"\n" for words in lines)

    def send(self, count):
        numbers = range(self.count, self.count + count)
        self.process.stdin.write(b"".join(b"connect 8080\ndata %d %b\nend %d\n" % (it, REQUEST.hex().encode(), it) for it in numbers))
        self.count += count
        return numbers

    def read(self):
        if not select.select([self.process.stdout], [], [], SECONDS)[0]:
            raise Wrong(f"no answer in {SECONDS} seconds")
        piece = os.read(self.process.stdout.fileno(), 65536)
        if piece == b"":
            raise Wrong(f"it ended: {list(self.told)}")
        return piece

    def ask(self, count):
        """So many clients come, and each gets the page."""
        while count > 0:
            numbers = self.send(min(AT_ONCE, count))
            count -= len(numbers)
            wanted = b"".join(self.page % ((it,) * self.page.count(b"%d")) for it in numbers)
            said = b""
            while len(said) < len(wanted):
                said += self.read()
            if said != wanted:
                raise Wrong(f"clients {numbers[0]} to {numbers[-1]}: {said!r}")

    def end(self):
        """The calls of the run."""
        self.process.stdin.write(b"end clients\n")
        self.process.stdin.close()
        status = self.process.wait(SECONDS)
        self.reader.join()
        ends = [line.split() for line in self.told if line.startswith(b"# version ")]
        if status or not ends or any(it[4:6] != [b"exited", b"0,"] for it in ends):
            raise Wrong(f"it ended with {status}: {list(self.told)}")
        return int(ends[0][-2])


class Listened:
    """varan-listen, and connections to it."""

    def __init__(self, process, port, wanted):
        self.pid, self.port, self.wanted = process.pid, port, wanted

    def ask(self, count):
        numbers = iter(range(count))

        def be_clients():
            for _ in numbers:
                got = request(self.port)[1]
                if got != self.wanted:
                    raise Wrong(f"a client got {got!r}")

        with concurrent.futures.ThreadPoolExecutor(BESIDE) as pool:
            for it in [pool.submit(be_clients) for _ in range(BESIDE)]:
                it.result()


def measured(asked, count):
    """What memory and time a page take near the beginning and at the end of so many clients: cells of a table."""
    def window():
        before = processor_time(asked.pid)
        asked.ask(WINDOW)
        return (processor_time(asked.pid) - before) / WINDOW

    begun = time.monotonic()
    asked.ask(BEGUN - 1)
    first = window()
    asked.ask(SETTLED - BEGUN - WINDOW)
    settled = resident(asked.pid)
    asked.ask(count - SETTLED - WINDOW)
    last = window()
    grown = resident(asked.pid)
    if grown > settled * MOST_GROWTH:
        faults.append(f"resident memory has grown from {settled:,} to {grown:,} KiB")
    return {
        f"resident, KiB: after {SETTLED:,} clients, {count:,}, ratio": f"{settled:,}, {grown:,}, {grown / settled:.3f}",
        "processor time a client, us: at the beginning, at the end, ratio": f"{1e6 * first:.0f}, {1e6 * last:.0f}, {last / first:.2f}",
        "seconds": f"{time.monotonic() - begun:.0f}",
    }


def served(asked, folder, wanted):
    found = {}
    for count in COUNTS:
        run = Served([asked.program, "serve", "--clients", "--script", folder / "setup", *asked.option, *[SERVER / "built/server_1"] * count], wanted)
        try:
            found[str(count)] = measured(run, asked.pages) | {"calls": f"{run.end():,}"}
        finally:
            run.process.kill()
        print(f"{count}: {found[str(count)]}", file=sys.stderr, flush=True)
    show("versions", found)


def listen(asked, folder, wanted):
    subprocess.run(["cc", "-O2", "-o", folder / "answers", TOP / "bench/live_answers.c"], check=True)
    port = free_port()
    process = subprocess.Popen([TOP / "service/varan-listen", f"{port}:8080", "--", folder / "answers", wanted.hex()], cwd=folder)
    try:
        wait_for(port)
        found = measured(Listened(process, port, wanted), asked.clients)
    finally:
        process.send_signal(signal.SIGTERM)
        status = process.wait(SECONDS)
    if status:
        raise Wrong(f"varan-listen ended with {status}")
    show("", {"varan-listen alone": found})


def show(title, found):
    """A column a case."""
    names = list(next(iter(found.values())))
    table(title, {name: {case: it[name] for case, it in found.items()} for name in names})


PARTS = {"served": served, "listen": listen}
faults = []


def main():
    reader = argparse.ArgumentParser(description="what a live run keeps of clients that are gone")
    reader.add_argument("--program", default=str(TOP / "crates/varan/out/varan"))
    reader.add_argument("--pages", type=int, default=1_000_000)
    reader.add_argument("--clients", type=int, default=200_000)
    reader.add_argument("--option", action="append", default=[], help="a word for `varan serve`, as --option=--hang=100000000")
    reader.add_argument("part", nargs="*", help=", ".join(PARTS))
    asked = reader.parse_args()
    if min(asked.pages, asked.clients) < SETTLED + WINDOW:
        reader.error(f"at least {SETTLED + WINDOW:,} pages and clients")
    asked.program = os.path.abspath(asked.program)
    print(f"load {os.getloadavg()[0]:.1f}")
    with tempfile.TemporaryDirectory() as room:
        folder = pathlib.Path(room)
        wanted = set_up(folder)
        for part in asked.part or PARTS:
            PARTS[part](asked, folder, wanted)
    print(f"\nload {os.getloadavg()[0]:.1f} at the end")
    if faults:
        raise Wrong("; ".join(faults))


if __name__ == "__main__":
    try:
        main()
    except Wrong as fault:
        sys.exit(f"long_run.py: {fault}")
