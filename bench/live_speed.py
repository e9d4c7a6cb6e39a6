#!/usr/bin/env python3
"""How fast a live run answers and fails over, and what it costs while nobody asks.

    bench/live_speed.py [--program PATH] [--rounds N] [lines] [requests] [failovers] [idle]

PATH is crates/varan/out/varan where it isn't given (build it first: `rt run` in crates/varan); without a part all are run. All is taken in one run, on 127.0.0.1 and over pipes; 1, 2, 4
and 8 equal versions, the same guest under qemu-riscv32, and for requests also varan-listen before a program that answers at once (live_answers.c), take turns
in each of N rounds, 5 by default. It needs qemu-riscv32 (Debian: qemu-user) and cc.

- A line: from its last byte, over a pipe to the service of lines, to the newline of its answer; two calls. Then how many a second are answered, sent at once.
- A request: from connecting to the end of the answer, by varan-listen, one after the other; eleven calls. Then how many a second, eight clients beside each other.
  And the processor's time of the process that listens, varan-listen or qemu, for each request of both kinds.
- A failover: from the line at which the leader breaks, and the versions that lead after it, to that line's answer by the version that leads on; and the line after it.
  Then the same after a pause in which the followers' threads sleep, a tenth of a second and up to one sleep more, which ends by itself after 66 milliseconds.
- The processor's time while nobody asks, of one processor.
"""
import argparse
import concurrent.futures
import contextlib
import os
import pathlib
import signal
import socket
import statistics
import subprocess
import sys
import tempfile
import time

TOP = pathlib.Path(__file__).resolve().parent.parent
GUESTS = TOP / "examples/guests/built"
SERVER = TOP / "examples/server"
COUNTS = (1, 2, 4, 8)
BREAKING = (1, 3, 7)
REQUEST = b"GET / HTTP/1.0\r\nHost: example.org\r\n\r\n"
# How much is asked in a round.
LINES, LINES_AT_ONCE, REQUESTS, BESIDE, REQUESTS_BESIDE, FAILOVERS, PAUSED = 600, 4000, 100, 8, 400, 40, 12
IDLE_SECONDS = 5
SECONDS = 60


def quantiles(samples, unit):
    """The median and the 95th hundredth, in parts of a second."""
    ordered = sorted(samples)
    return f"{statistics.median(ordered) * unit:.2f}, {ordered[int(0.95 * (len(ordered) - 1))] * unit:.2f}"


def table(title, rows):
    """The rows by their names, one column a case."""
    names = list(next(iter(rows.values())))
    print(f"\n| {title} | {' | '.join(names)} |\n|{'---|' * (len(names) + 1)}")
    for row, found in rows.items():
        print(f"| {row} | {' | '.join(found[name] for name in names)} |", flush=True)


def checked(got, wanted):
    if got != wanted:
        sys.exit(f"live_speed.py: {got!r} in place of {wanted!r}")


class Lines:
    """A service of lines over two pipes."""

    def __init__(self, command):
        self.process = subprocess.Popen(command, stdin=subprocess.PIPE, stdout=subprocess.PIPE, stderr=subprocess.DEVNULL, bufsize=0)
        self.answers = self.process.stdout.fileno()

    def ask(self, line, wanted):
        """The seconds from a line to its answer."""
        begun = time.perf_counter()
        self.process.stdin.write(line)
        got = os.read(self.answers, 4096)
        took = time.perf_counter() - begun
        checked(got, wanted)
        return took

    def ask_at_once(self, line, wanted, count):
        """The seconds for as many lines, sent at once."""
        begun = time.perf_counter()
        with concurrent.futures.ThreadPoolExecutor(1) as pool:
            sending = pool.submit(self.send, line * count)
            left = len(wanted) * count
            while left > 0 and (got := os.read(self.answers, 65536)):
                left -= len(got)
            sending.result()
        checked(left, 0)
        return time.perf_counter() - begun

    def send(self, text):
        while text:
            text = text[self.process.stdin.write(text) :]

    def end(self):
        self.process.stdin.close()
        status = self.process.wait(SECONDS)
        self.process.stdout.close()
        checked(status, 0)


def line_round(command, found):
    service = Lines(command)
    service.ask(b"put colour green\n", b"kept\n")
    for _ in range(LINES // 10):
        service.ask(b"get colour\n", b"green\n")
    found["line"] += [service.ask(b"get colour\n", b"green\n") for _ in range(LINES)]
    found["at once"].append(LINES_AT_ONCE / service.ask_at_once(b"get colour\n", b"green\n", LINES_AT_ONCE))
    service.end()


def lines(program, rounds):
    cases = {str(k): [program, "serve", *[GUESTS / "service_1"] * k] for k in COUNTS}
    cases["qemu"] = ["qemu-riscv32", GUESTS / "service_1"]
    found = {name: {"line": [], "at once": []} for name in cases}
    for _ in range(rounds):
        for name, command in cases.items():
            line_round(command, found[name])
    table("lines, versions", {
        "a line, us: p50, p95": {name: quantiles(it["line"], 1e6) for name, it in found.items()},
        "answers a second": {name: f"{statistics.median(it['at once']):,.0f}" for name, it in found.items()},
    })


def request(port):
    """The seconds that a request takes, and its answer."""
    begun = time.perf_counter()
    with socket.create_connection(("127.0.0.1", port), SECONDS) as client:
        client.sendall(REQUEST)
        got = b"".join(iter(lambda: client.recv(65536), b""))
    return time.perf_counter() - begun, got


def free_port():
    with socket.create_server(("127.0.0.1", 0)) as it:
        return it.getsockname()[1]


def wait_for(port):
    end = time.monotonic() + SECONDS
    while f":{port:04X} 00000000:0000 0A" not in pathlib.Path("/proc/net/tcp").read_text():
        if time.monotonic() > end:
            sys.exit(f"live_speed.py: nobody listens at port {port}")
        time.sleep(0.01)


def processor_time(process):
    """The processor's seconds that a process has had, by its clock (clock_getcpuclockid(3))."""
    return time.clock_gettime(~process << 3 | 2)


@contextlib.contextmanager
def served(command, port, folder):
    process = subprocess.Popen(command, cwd=folder, stderr=subprocess.DEVNULL)
    try:
        wait_for(port)
        yield process.pid
    finally:
        process.send_signal(signal.SIGTERM)
        process.wait(SECONDS)


def request_round(command, port, folder, wanted, found):
    with served(command, port, folder) as process:
        for _ in range(REQUESTS // 10):
            checked(request(port)[1], wanted)
        times = [processor_time(process)]
        asked = [request(port) for _ in range(REQUESTS)]
        times.append(processor_time(process))
        begun = time.perf_counter()
        with concurrent.futures.ThreadPoolExecutor(BESIDE) as pool:
            beside = list(pool.map(request, [port] * REQUESTS_BESIDE))
        took = time.perf_counter() - begun
        times.append(processor_time(process))
    for _, got in asked + beside:
        checked(got, wanted)
    found["request"] += [seconds for seconds, _ in asked]
    found["a second"].append(REQUESTS_BESIDE / took)
    found["processor"].append((times[1] - times[0]) / REQUESTS)
    found["processor beside"].append((times[2] - times[1]) / REQUESTS_BESIDE)


def set_up(folder):
    """The server's files, and the script that has them; and the answer to the request, by the twelve clients of the examples."""
    script = ["varan-script 4"]
    for line in (SERVER / "scripts/clients").read_text().splitlines():
        word, _, rest = line.partition(" ")
        name, _, content = rest.partition(" ")
        if word in ("arg", "file"):
            script.append(line)
        if word == "file":
            (folder / name).write_bytes(bytes.fromhex(content))
    (folder / "setup").write_text("\n".join(script) + "\n")
    head, _, rest = (SERVER / "expected/clients_1").read_bytes().partition(b"connection 0 8080 ")
    length, _, rest = rest.partition(b"\n")
    return rest[: int(length)]


def requests(program, rounds):
    with tempfile.TemporaryDirectory() as room:
        requests_in(pathlib.Path(room), program, rounds)


def requests_in(folder, program, rounds):
    wanted = set_up(folder)
    subprocess.run(["cc", "-O2", "-o", folder / "answers", TOP / "bench/live_answers.c"], check=True)

    def listening(port, *command):
        return [TOP / "service/varan-listen", f"{port}:8080", "--", *command]

    versions = {k: [program, "serve", "--clients", "--script", folder / "setup", *[SERVER / "built/server_1"] * k] for k in COUNTS}
    cases = {str(k): lambda port, k=k: listening(port, *versions[k]) for k in COUNTS}
    cases["qemu"] = lambda port: ["qemu-riscv32", SERVER / "built/server_1", str(port)]
    cases["varan-listen alone"] = lambda port: listening(port, folder / "answers", wanted.hex())
    found = {name: {"request": [], "a second": [], "processor": [], "processor beside": []} for name in cases}
    for _ in range(rounds):
        for name, command in cases.items():
            port = free_port()
            request_round(command(port), port, folder, wanted, found[name])
    table("requests, versions", {
        "a request, ms: p50, p95": {name: quantiles(it["request"], 1e3) for name, it in found.items()},
        "requests a second, 8 clients": {name: f"{statistics.median(it['a second']):,.0f}" for name, it in found.items()},
        "processor time of what listens, us a request: one after the other, 8 clients": {
            name: f"{1e6 * statistics.median(it['processor']):.0f}, {1e6 * statistics.median(it['processor beside']):.0f}" for name, it in found.items()},
    })


def failover(program, breaking, pause=0):
    """The seconds of the line at which so many versions break, after a pause, and of the next one."""
    service = Lines([program, "serve", *[GUESTS / "service_2"] * breaking, GUESTS / "service_1"])
    for line, wanted in ((b"put colour green\n", b"kept\n"), (b"get colour\n", b"green\n"), (b"drop colour\n", b"dropped\n")):
        service.ask(line, wanted)
    time.sleep(pause)
    took = service.ask(b"get colour\n", b"not there\n"), service.ask(b"get colour\n", b"not there\n")
    service.end()
    return took


def failovers(program, rounds):
    found, paused = ({breaking: [] for breaking in BREAKING} for _ in range(2))
    for _ in range(rounds * FAILOVERS):
        for breaking in BREAKING:
            found[breaking].append(failover(program, breaking))
    for number in range(rounds * PAUSED):
        for breaking in BREAKING:
            paused[breaking].append(failover(program, breaking, 0.1 + 0.066 * (number % PAUSED) / PAUSED)[0])
    table("versions that break, one after the other", {
        "the line at which they break, ms: p50, p95": {str(k): quantiles([first for first, _ in it], 1e3) for k, it in found.items()},
        "the line after it, ms: p50, p95": {str(k): quantiles([second for _, second in it], 1e3) for k, it in found.items()},
        "the line at which they break after a pause, ms: p50, p95": {str(k): quantiles(it, 1e3) for k, it in paused.items()},
    })


def idle(program, _):
    services = {str(k): Lines([program, "serve", *[GUESTS / "service_1"] * k]) for k in COUNTS}
    for it in services.values():
        it.ask(b"get colour\n", b"not there\n")
    before = {name: processor_time(it.process.pid) for name, it in services.items()}
    time.sleep(IDLE_SECONDS)
    spent = {name: processor_time(it.process.pid) - before[name] for name, it in services.items()}
    for it in services.values():
        it.end()
    table("while nobody asks, versions", {"% of a processor": {name: f"{100 * it / IDLE_SECONDS:.1f}" for name, it in spent.items()}})


PARTS = {"lines": lines, "requests": requests, "failovers": failovers, "idle": idle}


def main():
    reader = argparse.ArgumentParser(description="how fast a live run answers and fails over")
    reader.add_argument("--program", default=str(TOP / "crates/varan/out/varan"))
    reader.add_argument("--rounds", type=int, default=5)
    reader.add_argument("part", nargs="*", help=", ".join(PARTS))
    asked = reader.parse_args()
    for part in asked.part or PARTS:
        PARTS[part](os.path.abspath(asked.program), asked.rounds)


if __name__ == "__main__":
    main()
