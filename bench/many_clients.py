#!/usr/bin/env python3
"""How soon clients are answered that are there at once, beside many that are silent, and across a failover.

    bench/many_clients.py [--program PATH] [--turns N] [answers] [failovers]

Without a part both are taken. PATH is crates/varan/out/varan where it isn't given (build it first: `rt run` in crates/varan). The service is examples/live/loop.c, one
loop over poll, behind `varan-listen --idle 0`, with 1, 2 and 8 equal versions, the same loop over select, and over epoll with 1 and 8. Beside it are the guests over poll and
select under qemu-riscv32 (that over epoll can't have its port again at once there: SO_REUSEADDR isn't Linux's over its library), and varan-listen before a program
that sends back what it gets (live_answers.c). All is taken in one run, on 127.0.0.1, each case with and without the silent ones, in N
turns, 5 by default, every other one in reverse. It needs qemu-riscv32 (Debian: qemu-user) and cc, and takes some minutes.

50 clients ask, with and without 900 that ask once as they come and are silent then. It isn't 1,000 of which 900 are silent, since a guest has 960 sockets at most.

- An answer: from sending a line to its answer, while each client pauses up to 0.1 seconds between an answer and its next line.
- Answers a second: each client asks again as soon as it has its answer. The clients are one thread of this script, which bounds what qemu can show.
- A failover: version 2 of the service leads version 1 before all 950 clients, 4 times a turn. The 50 ask at once: as it is, with a line among theirs at which the leader faults, and once
  more, when version 1 is alone. Then all 950 ask: who has no answer is lost. What a fault costs is the difference of two figures of one failover.

Figures are medians of the turns, and so are ratios, each of two figures of one turn; those of failovers are medians of all. Each answer is checked, the count of the requests, and how each
service ends. Status 1: something is otherwise, or a client is lost.
"""
import argparse
import contextlib
import heapq
import math
import os
import pathlib
import random
import resource
import select
import signal
import socket
import statistics
import subprocess
import sys
import tempfile
import time

TOP = pathlib.Path(__file__).resolve().parent.parent
LISTEN = TOP / "service/varan-listen"
BUILT = TOP / "examples/live/built"
# The guest's port, which it has under qemu too; and the seconds after which it lets a silent client go.
PORT, PATIENCE = 8080, 3600
COUNTS = (1, 2, 8)
LOOPS = {"": "loop_1", ", select": "loop_select", ", epoll": "loop_epoll"}
# Not under qemu; and the memory that musl wants beside the loop's own.
EPOLL, MEMORY = ", epoll", ["--memory", "2097152"]
ACTIVE, SILENT = 50, 900
# Seconds in which clients ask, with so much pause at most and with none; failovers in a turn, and how often all ask before each.
PACED, PAUSE, AT_ONCE, FAILOVERS, BEFORE = 2.0, 0.1, 0.5, 4, 3
# The least answers with a pause: ten of them take longer than p99.
FEWEST = 1000
SECONDS = 60
MOST_OPEN = 4096
ALONE, QEMU = "varan-listen alone", "qemu"
PARTS = ("answers", "failovers")


class Wrong(Exception):
    """Something is otherwise than it has to be."""


class Lost(Wrong):
    """A connection has ended."""


def checked(got, wanted, what):
    if got != wanted:
        raise Wrong(f"{what}: {got!r} in place of {wanted!r}")


class Client:
    """A connection, with a name of its own in the service's store."""

    def __init__(self, port, number, is_sent_back):
        self.number, self.is_sent_back = number, is_sent_back
        self.name, self.value, self.puts = b"k%d" % number, None, False
        with self.lost_at_fault():
            self.connection = socket.create_connection(("127.0.0.1", port), SECONDS)
        self.connection.setsockopt(socket.IPPROTO_TCP, socket.TCP_NODELAY, 1)

    def put(self):
        """A line and its answer."""
        self.value = b"v%d" % random.randrange(1000)
        return b"put %b %b\n" % (self.name, self.value), b"kept\n"

    def get(self):
        return b"get %b\n" % self.name, b"not there\n" if self.value is None else self.value + b"\n"

    def drop(self):
        self.value = None
        return b"drop %b\n" % self.name, b"dropped\n"

    def put_or_get(self):
        self.puts = not self.puts
        return self.put() if self.puts else self.get()

    def send(self, line, answer):
        self.wanted, self.got = line if self.is_sent_back else answer, b""
        self.begun = time.perf_counter()
        with self.lost_at_fault():
            self.connection.sendall(line)

    def hear(self):
        """The seconds in which the answer came, once all of it is there."""
        with self.lost_at_fault():
            piece = self.connection.recv(4096)
        took = time.perf_counter() - self.begun
        if piece == b"":
            raise Lost(f"client {self.number} is lost")
        self.got += piece
        checked(self.got, self.wanted[: len(self.got)], f"client {self.number}")
        return took if self.got == self.wanted else None

    @contextlib.contextmanager
    def lost_at_fault(self):
        try:
            yield
        except OSError as fault:
            raise Lost(f"client {self.number} is lost: {fault}") from fault


class Clients:
    """The clients of a service: some that ask, and behind them those that are silent once they have asked as they came."""

    def __init__(self, port, silent, is_sent_back):
        self.requests, self.all, self.poller = 0, [], select.epoll()
        for number in range(ACTIVE + silent):
            it = Client(port, number, is_sent_back)
            self.all.append(it)
            self.ask(it, it.get())
        self.active = self.all[:ACTIVE]
        self.by_descriptor = {it.connection.fileno(): it for it in self.all}
        for it in self.all:
            self.poller.register(it.connection, select.EPOLLIN)

    def send(self, client, line):
        self.requests += 1
        client.send(*line)

    def ask(self, client, line):
        self.send(client, line)
        while client.hear() is None:
            pass

    def ready(self, until=None):
        """Those for whom something came, up to this time; without one somebody has to be answered."""
        found = self.poller.poll(SECONDS if until is None else max(0, until - time.perf_counter()))
        if not found and until is None:
            raise Wrong(f"no answer in {SECONDS} seconds")
        return [self.by_descriptor[it] for it, _ in found]

    def talk(self, seconds, pause):
        """Each that asks puts a value, gets it, and so on for so many seconds, with a pause of up to so many before each line. The waits, and the answers a second."""
        begun, waits, asking = time.perf_counter(), [], 0
        due = [(begun + pause * random.random(), it.number) for it in self.active]
        heapq.heapify(due)
        while due or asking:
            while due and due[0][0] <= time.perf_counter():
                it = self.active[heapq.heappop(due)[1]]
                self.send(it, it.put_or_get())
                asking += 1
            for it in self.ready(due[0][0] if due else None):
                took = it.hear()
                if took is None:
                    continue
                waits.append(took)
                asking -= 1
                following = time.perf_counter() + pause * random.random()
                if following < begun + seconds:
                    heapq.heappush(due, (following, it.number))
        return waits, len(waits) / (time.perf_counter() - begun)

    def ask_at_once(self, clients, line_of):
        """The waits of those that are answered. Who is lost has none."""
        waits, asking = [], set()
        for it in clients:
            with contextlib.suppress(Lost):
                self.send(it, line_of(it))
                asking.add(it)
        while asking:
            for it in self.ready():
                try:
                    took = it.hear()
                except Lost:
                    it.connection.close()
                    asking.discard(it)
                    continue
                if took is not None:
                    waits.append(took)
                    asking.discard(it)
        return waits

    def leave(self):
        """All leave, once each has what it put, and the service has counted each request once."""
        checked(len(self.ask_at_once(self.all, Client.get)), len(self.all), "clients at the end")
        self.ask(self.active[0], (b"size\n", b"%d\n" % (self.requests + 1)))
        for it in self.all:
            it.connection.close()
        self.poller.close()


def can_listen(port):
    try:
        socket.create_server(("127.0.0.1", port)).close()
    except OSError:
        return False
    return True


def free_port():
    with socket.create_server(("127.0.0.1", 0)) as it:
        return it.getsockname()[1]


def wait_for(port, process):
    end = time.monotonic() + SECONDS
    while f"0100007F:{port:04X} 00000000:0000 0A" not in pathlib.Path("/proc/net/tcp").read_text():
        if process.poll() is not None or time.monotonic() > end:
            raise Wrong(f"nobody listens at port {port}")
        time.sleep(0.01)


def ended(process):
    """The status at SIGTERM."""
    process.send_signal(signal.SIGTERM)
    try:
        return process.wait(SECONDS)
    except subprocess.TimeoutExpired as fault:
        process.kill()
        raise Wrong(str(fault)) from fault


@contextlib.contextmanager
def served(name, command, silent, folder):
    """The clients of a service, which has to end well once they have left."""
    by_qemu = name.startswith(QEMU)
    port = PORT if by_qemu else free_port()
    adapter = [] if by_qemu else [LISTEN, "--idle", "0", f"{port}:{PORT}", "--"]
    with open(folder / "console", "wb") as console, open(folder / "told", "wb") as told:
        process = subprocess.Popen([*adapter, *command], cwd=folder, stdout=console, stderr=told)
    try:
        wait_for(port, process)
        clients = Clients(port, silent, name == ALONE)
        yield clients
        clients.leave()
    finally:
        status = ended(process)
    # (under qemu the signal ends the guest, whose C library has no handlers)
    checked(status, -signal.SIGTERM if by_qemu else 0, f"the status, {name}")
    checked((folder / "console").read_text(), "" if by_qemu or name == ALONE else f"{clients.requests} requests\n", f"the console, {name}")


def hundredth(waits, number):
    """The shortest wait, in milliseconds, that at least so many hundredths don't exceed."""
    return 1000 * sorted(waits)[math.ceil(number * len(waits) / 100) - 1]


def measured(name, command, silent, folder):
    """The median wait and p99 of clients that pause, and the answers a second of those that don't."""
    with served(name, command, silent, folder) as clients:
        waits = []
        while len(waits) < FEWEST:
            waits += clients.talk(PACED, PAUSE)[0]
        _, rate = clients.talk(AT_ONCE, 0)
    return hundredth(waits, 50), hundredth(waits, 99), rate


def of_the_turns(turns, places, shape):
    """Medians of what was measured at these places, or of the ratios between two cases."""
    return ", ".join(format(statistics.median(it[place] for it in turns), shape) for place in places)


def ratios(turns, others):
    return [[one / other for one, other in zip(*pair)] for pair in zip(turns, others)]


def table(title, columns, rows):
    print(f"\n| {title} | {' | '.join(columns)} |\n|{'---|' * (len(columns) + 1)}")
    for name, cells in rows.items():
        print(f"| {name} | {' | '.join(cells)} |", flush=True)


def answers(commands, turns, folder):
    cases = [(name, silent) for name in commands for silent in (0, SILENT)]
    found = {case: [] for case in cases}
    for turn in range(turns):
        for name, silent in cases[:: -1 if turn % 2 else 1]:
            found[name, silent].append(measured(name, commands[name], silent, folder))
    few, many = ([found[name, silent] for name in commands] for silent in (0, SILENT))
    beside = [ratios(*pair) for pair in zip(many, few)]
    table(f"{ACTIVE} clients that ask", commands, {
        "an answer, ms: p50, p99": [of_the_turns(it, (0, 1), ".2f") for it in few],
        f"beside {SILENT} silent clients": [of_the_turns(it, (0, 1), ".2f") for it in many],
        "with them / without: p50, p99": [of_the_turns(it, (0, 1), ".2f") for it in beside],
        "answers a second": [of_the_turns(it, (2,), ",.0f") for it in few],
        f"beside {SILENT} silent clients, a second": [of_the_turns(it, (2,), ",.0f") for it in many],
        "with them / without, a second": [of_the_turns(it, (2,), ".2f") for it in beside],
    })
    one, eight = f"{COUNTS[0]} version", f"{COUNTS[-1]} versions"
    versions = [ratios(found[eight + kind, silent], found[one + kind, silent]) for kind in ("", EPOLL) for silent in (0, SILENT)]
    table(f"{eight} / {one}", [f"{beside}{kind}" for kind in ("", EPOLL) for beside in ("without silent clients", f"beside {SILENT}")], {
        "an answer: p50, p99": [of_the_turns(it, (0, 1), ".2f") for it in versions],
        "answers a second": [of_the_turns(it, (2,), ".2f") for it in versions],
    })


def asked_at_once(clients):
    """The waits of those that ask: the first gets its value, the others put theirs."""
    return clients.ask_at_once(clients.active, lambda it: it.put() if it.number else it.get())


def failover(command, folder):
    """The waits of those that ask, before it, across it and after it."""
    with served("a failover", command, SILENT, folder) as clients:
        before = [asked_at_once(clients) for _ in range(BEFORE)][-1]
        # version 2 remembers the name that was asked for last: once that is dropped, it faults at the next `get`
        first = clients.active[0]
        for line in (Client.put, Client.get, Client.drop):
            clients.ask(first, line(first))
        across, after = asked_at_once(clients), asked_at_once(clients)
        lost = len(clients.all) - len(clients.ask_at_once(clients.all, Client.get))
        if lost:
            raise Lost(f"{lost} of {len(clients.all)} clients are lost in a failover")
    told = (folder / "told").read_text()
    for line in ("# version 0 ended: fault load 100 ", "# version 1 leads from event "):
        checked(told.count(line), 1, f"lines {line!r} of a failover")
    return before, across, after


def failovers(command, count, folder):
    before, across, after = ([[hundredth(it, number) for number in (50, 95, 100)] for it in waits] for waits in zip(*(failover(command, folder) for _ in range(count))))
    costs = [[one - other for one, other in zip(*pair)] for pair in zip(across, before)]
    table(f"{ACTIVE} clients that ask at once, beside {SILENT}, ms", ["p50", "p95", "longest", "longest of all"], {
        name: [f"{statistics.median(column):.2f}" for column in zip(*waits)] + [f"{max(it[-1] for it in waits):.2f}"]
        for name, waits in (("as it is", before), ("the leader faults at a line among theirs", across), ("once more", after), ("what the fault costs", costs))
    })
    print(f"\n{count} failovers with {ACTIVE + SILENT} connections each; 0 are lost")


def processor_times():
    """Of all processors: what the host took away, and all."""
    fields = [int(it) for it in pathlib.Path("/proc/stat").read_text().split("\n")[0].split()[1:9]]
    return fields[7], sum(fields)


def main():
    reader = argparse.ArgumentParser(description="how soon many clients at once are answered")
    reader.add_argument("--program", default=str(TOP / "crates/varan/out/varan"))
    reader.add_argument("--turns", type=int, default=5)
    reader.add_argument("part", nargs="*", help=", ".join(PARTS))
    asked = reader.parse_args()
    parts = asked.part or PARTS
    if unknown := [part for part in parts if part not in PARTS]:
        reader.error(f"no such part: {unknown[0]}")
    begun, (taken, all_times) = time.monotonic(), processor_times()
    # each client takes a descriptor of this script and one of varan-listen
    resource.setrlimit(resource.RLIMIT_NOFILE, (MOST_OPEN, MOST_OPEN))
    print(f"{asked.program}, {asked.turns} turns, {os.cpu_count()} processors, load {os.getloadavg()[0]:.1f}")
    with tempfile.TemporaryDirectory() as room:
        folder = pathlib.Path(room)
        (folder / "setup").write_text(f"varan-script 5\nclock {int(time.time())} 0 0\narg {PATIENCE}\n")
        subprocess.run(["cc", "-O2", "-o", folder / "answers", TOP / "bench/live_answers.c"], check=True)
        serve = [os.path.abspath(asked.program), "serve", "--clients", "--script", folder / "setup"]
        under_qemu = {kind: loop for kind, loop in LOOPS.items() if kind != EPOLL}
        commands = {f"{QEMU}{kind}": ["qemu-riscv32", BUILT / loop, str(PATIENCE)] for kind, loop in under_qemu.items()} | {ALONE: [folder / "answers"]}
        commands |= {f"{k} version{'s' if k > 1 else ''}": [*serve, *[BUILT / "loop_1"] * k] for k in COUNTS}
        commands["1 version, select"] = [*serve, BUILT / LOOPS[", select"]]
        commands |= {f"{k} version{'s' if k > 1 else ''}{EPOLL}": [*serve, *MEMORY, *[BUILT / LOOPS[EPOLL]] * k] for k in (COUNTS[0], COUNTS[-1])}
        if not can_listen(PORT):
            print(f"qemu is left out: somebody listens at port {PORT}")
            commands = {name: words for name, words in commands.items() if not name.startswith(QEMU)}
        if "answers" in parts:
            answers(commands, asked.turns, folder)
        if "failovers" in parts:
            failovers([*serve, BUILT / "loop_2", BUILT / "loop_1"], FAILOVERS * asked.turns, folder)
    taken, all_times = (after - before for after, before in zip(processor_times(), (taken, all_times)))
    print(f"\n{time.monotonic() - begun:.0f} seconds, in which the host took {100 * taken / all_times:.1f}% of the processors' time away; load {os.getloadavg()[0]:.1f} at the end")


if __name__ == "__main__":
    try:
        main()
    except Wrong as fault:
        sys.exit(f"many_clients.py: {fault}")
