#!/usr/bin/env python3
"""How long clients wait while a service is updated, and while a killed one comes back.

    bench/update_speed.py [--program PATH] [--requests N] [--clients N] [--seconds N]

PATH is crates/varan/out/varan where it isn't given (build it first: `rt run` in crates/varan). The service is examples/live/keeper.c behind varan-listen, with one
version of it. N requests, 100,000 by default, make its state and its past. Then clients beside each other, 50 by default, each connect, ask for the count of all
requests and leave, ten times a second: for some seconds, 10 by default, as it is; while another version joins, while the lead is handed over to it, and while the
first version leaves; and while the command is killed by SIGKILL and begun anew. The counts that all clients got have to be one more each, none twice and none left out.
"""
import argparse
import os
import pathlib
import signal
import statistics
import sys
import tempfile
import threading
import time

TOP = pathlib.Path(__file__).resolve().parent.parent
sys.path.insert(0, str(TOP / "examples/live"))
import operating

# requests that a client sends at once while the state is made; seconds between two connections of a client, so that a process which joins comes nearer
AT_ONCE, PAUSE = 500, 0.1


class Asker(threading.Thread):
    """A client that connects, asks for the count and leaves, again and again."""

    def __init__(self, service):
        super().__init__()
        self.service, self.is_over, self.asked = service, False, []
        self.start()

    def run(self):
        while not self.is_over:
            begun = time.monotonic()
            count = self.service.ask("size")[0]
            self.asked.append((begun, time.monotonic() - begun, count))
            time.sleep(PAUSE)


def settle(service, count):
    """Makes a state by so many requests."""
    for first in range(0, count, AT_ONCE):
        answers = service.ask(*[f"put name{number % 64} {number}" for number in range(first, min(first + AT_ONCE, count))])
        if set(answers) != {"kept"}:
            sys.exit(f"update_speed.py: other answers: {set(answers)}")


def kill(service):
    """Kills the command, and waits until one that was begun anew answers."""
    os.kill(service.serving(), signal.SIGKILL)
    service.ask("size")


def done(service, command):
    answer = service.operate(command)[-1]
    if answer != "ok":
        sys.exit(f"update_speed.py: {command}: {answer}")


def row(name, took, asked):
    waits = sorted(1000 * wait for _, wait, _ in asked)
    if not waits:
        return f"| {name} | {took:.1f} | 0 | | | |"
    return f"| {name} | {took:.1f} | {len(waits)} | {statistics.median(waits):.1f} | {waits[len(waits) * 99 // 100]:.1f} | {waits[-1]:.1f} |"


def main():
    parser = argparse.ArgumentParser()
    parser.add_argument("--program", default=str(TOP / "crates/varan/out/varan"))
    for name, default in (("requests", 100_000), ("clients", 50), ("seconds", 10)):
        parser.add_argument(f"--{name}", type=int, default=default)
    given = parser.parse_args()
    with tempfile.TemporaryDirectory() as room:
        operating.Service.room = room
        service = operating.Service(os.path.realpath(given.program), operating.KEEPER[1], options=operating.PATIENT)
        begun = time.monotonic()
        settle(service, given.requests)
        print(f"{given.requests:,} requests in {time.monotonic() - begun:.1f} s; then {given.clients} clients beside each other:\n")
        steps = (
            ("as it is", lambda: time.sleep(given.seconds)),
            ("a version joins", lambda: done(service, f"join {operating.KEEPER[3]}")),
            ("the lead is handed over", lambda: done(service, "hand")),
            ("the first version leaves", lambda: done(service, "drop 0")),
            ("the command is killed", lambda: kill(service)),
            ("afterwards", lambda: time.sleep(given.seconds)),
        )
        askers = [Asker(service) for _ in range(given.clients)]
        ends = []
        for _, step in steps:
            begun = time.monotonic()
            step()
            ends.append((begun, time.monotonic()))
        for it in askers:
            it.is_over = True
        for it in askers:
            it.join()
        asked = sorted(once for it in askers for once in it.asked)
        print("| While | s | answers | median wait, ms | 99 of 100 | longest |\n|---|---|---|---|---|---|")
        for (name, _), (begun, end) in zip(steps, ends):
            print(row(name, end - begun, [it for it in asked if it[0] < end and it[0] + it[1] > begun]))
        counts = sorted(int(count) if count.isdigit() else -1 for _, _, count in asked)
        # (`kill` asks once besides)
        lacks = set(range(counts[0], counts[0] + len(counts) + 1)) - set(counts)
        is_whole = counts[0] == given.requests + 1 and len(set(counts)) == len(counts) and len(lacks) == 1
        print(f"\n{len(counts):,} answers, {'each one more than another' if is_whole else 'NOT as they have to be'}; the service ended with status {service.end()}")
    return int(not is_whole)


if __name__ == "__main__":
    operating.started = []
    sys.exit(main())
