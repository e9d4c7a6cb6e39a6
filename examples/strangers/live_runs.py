"""Puts the programs of programs.py before real clients (docs/LIVE.md): curl for requests of HTTP, socat for all else.

A program that accepts connections stands behind ../../service/varan-listen, one run for all its clients; one that reads its standard input behind socat, a run for
each client.
"""
import concurrent.futures
import contextlib
import pathlib
import signal
import socket
import subprocess
import time

HERE = pathlib.Path(__file__).resolve().parent
SECONDS = 60
# the limits that a live run has, for the run of its transcript
LIMITS = ["--budget", 1000000000]
CALLS = ["--calls", 131072]


def wait_for(port):
    """Waits until somebody listens on the port."""
    wanted = f":{port:04X} 00000000:0000 0A"
    end = time.monotonic() + SECONDS
    while time.monotonic() < end:
        if wanted in pathlib.Path("/proc/net/tcp").read_text():
            return
        time.sleep(0.02)
    raise SystemExit(f"programs.py: nobody listens on port {port}")


def free_port():
    """A port of 127.0.0.1 at which nobody listens."""
    with socket.create_server(("127.0.0.1", 0)) as it:
        return it.getsockname()[1]


# ---- clients


def ask(port, client):
    """What a client gets at the port, and the status that its program ends with."""
    if isinstance(client, bytes):
        words, given = ["socat", "-t", str(SECONDS), "-", f"TCP:127.0.0.1:{port}"], client
    else:
        words, given = ["curl", "--silent", "--max-time", str(SECONDS), *client.words(port)], client.body
    done = subprocess.run(words, input=given, stdout=subprocess.PIPE, stderr=subprocess.DEVNULL, timeout=2 * SECONDS)
    return done.stdout, done.returncode


def in_turn(port, clients):
    """What each client gets, where each comes once the one before it has its answer."""
    return [ask(port, client) for client in clients]


def at_once(port, clients):
    """What each client gets, where all of them come beside each other."""
    with concurrent.futures.ThreadPoolExecutor(len(clients)) as pool:
        return list(pool.map(ask, [port] * len(clients), clients))


class Nobody:
    """No client that is silent."""

    got = []

    def __enter__(self):
        return self

    def __exit__(self, *_):
        pass


class Silent(Nobody):
    """A client that sends these bytes, is silent as long as others come, and then leaves."""

    def __init__(self, port, sent):
        self.client = socket.create_connection(("127.0.0.1", port), SECONDS)
        self.client.sendall(sent)

    def __exit__(self, *_):
        got = b""
        with contextlib.suppress(ConnectionError), self.client:
            self.client.shutdown(socket.SHUT_WR)
            while part := self.client.recv(65536):
                got += part
        self.got = [got]


# ---- services


class Service:
    """Versions before real clients at a port of 127.0.0.1, with a folder for the transcripts of its runs."""

    def __init__(self, room, words, versions):
        self.folder, self.port = room, free_port()
        self.folder.mkdir()
        # stays open to the end, so that nobody else's standard input or output is the service's
        self.process = subprocess.Popen(self.command([str(word) for word in [*words, *versions]]), stdin=subprocess.DEVNULL, stdout=subprocess.DEVNULL)

    def __enter__(self):
        wait_for(self.port)
        return self

    def __exit__(self, *_):
        if self.process.poll() is None:
            self.process.kill()
            self.process.wait()

    def end(self):
        """Tells it to end, and comes to its status."""
        self.process.send_signal(signal.SIGTERM)
        return self.process.wait(2 * SECONDS)


class Connections(Service):
    """A program that accepts connections at this port, behind ../../service/varan-listen: one run, and after one that ends by itself the next."""

    def __init__(self, room, inner, words, versions, options):
        self.inner, self.options = inner, options
        super().__init__(room, words, versions)

    def command(self, words):
        adapter = [HERE / "../../service/varan-listen", *self.options, "--transcripts", self.folder, f"{self.port}:{self.inner}", "--"]
        return [*adapter, words[0], "serve", "--clients", "--log", *words[1:]]

    def transcripts(self):
        return sorted(self.folder.iterdir())


class Lines(Service):
    """A program that reads its standard input, behind socat: a run for each client."""

    def command(self, words):
        quoted = " ".join("'" + word + "'" for word in [words[0], "serve", "--log", *words[1:]])
        runner = self.folder / "run"
        # the transcript has its name once the run is over
        runner.write_text(f'#!/bin/sh\n{quoted} 2> "$0.$$"\nstatus=$?\nmv "$0.$$" "$0.$$.$status"\n')
        runner.chmod(0o755)
        return ["socat", "-t", str(SECONDS), f"TCP-LISTEN:{self.port},bind=127.0.0.1,fork", f"EXEC:{runner}"]

    def transcripts(self):
        """Those of all runs; each has its status in its name. A client has its answer before its run's transcript has its name."""
        end = time.monotonic() + SECONDS
        while time.monotonic() < end and any(len(it.name.split(".")) == 2 for it in self.folder.iterdir()):
            time.sleep(0.02)
        return sorted(it for it in self.folder.iterdir() if it.name != "run")

    def end(self):
        """socat ends at once by the signal: the runs have ended before."""
        self.transcripts()
        super().end()
        return max(int(it.name.split(".")[2]) for it in self.transcripts())
