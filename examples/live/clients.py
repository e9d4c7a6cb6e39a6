#!/usr/bin/env python3
"""Clients of a live service at a port of 127.0.0.1. What they got is printed as at the end of a report (docs/REPORT.md).

    clients.py turn PORT SCRIPT        those of the script (docs/SCRIPT.md), each one after the one before it has got its answer
    clients.py beside PORT SCRIPT      those of the script, all at once
    clients.py slow PORT SCRIPT N      the first N of them at once; the first one sends the last half of its request once nobody listens at the port
    clients.py leave PORT SCRIPT       the first of them, which leaves after the first byte of its answer: nothing is printed
    clients.py input PORT FILE N       N clients at once, each of which sends what is in the file: only what each got is printed, one after the other
    clients.py same FILE FILE          compares two reports' ends: as many clients were written each answer, in whatever order. Status 1 where they differ

A client sends its bytes, says that no more come, and takes what it gets. Each waits 60 seconds at most.
"""
import concurrent.futures
import functools
import pathlib
import re
import socket
import struct
import sys
import time

sys.dont_write_bytecode = True
sys.path.insert(0, str(pathlib.Path(__file__).resolve().parent.parent / "server"))

from under_linux import read_script, report_end

SECONDS = 60


def connected(port):
    return socket.create_connection(("127.0.0.1", port), SECONDS)


def rest_of(client):
    """What a client gets until its connection is closed, once it has said that it sends no more."""
    client.shutdown(socket.SHUT_WR)
    return b"".join(iter(lambda: client.recv(65536), b""))


def ask(port, sent):
    with connected(port) as client:
        client.sendall(sent)
        return rest_of(client)


def wait_until_closed(port):
    """Waits until nobody listens at the port of 127.0.0.1."""
    listener, end = f"0100007F:{port:04X} 00000000:0000 0A", time.monotonic() + SECONDS
    while listener in pathlib.Path("/proc/net/tcp").read_text():
        if time.monotonic() > end:
            raise SystemExit(f"clients.py: somebody listens at port {port} still")
        time.sleep(0.02)


def ask_late(port, sent):
    """What a client gets that sends its last half once nobody listens."""
    half = len(sent) // 2
    with connected(port) as client:
        client.sendall(sent[:half])
        wait_until_closed(port)
        client.sendall(sent[half:])
        return rest_of(client)


def leave(port, sent):
    """A client that resets its connection after the first byte of its answer."""
    with connected(port) as client:
        client.sendall(sent)
        client.recv(1)
        client.setsockopt(socket.SOL_SOCKET, socket.SO_LINGER, struct.pack("ii", 1, 0))


def at_once(works):
    """What the works come to, in their order, done beside each other."""
    with concurrent.futures.ThreadPoolExecutor(len(works)) as pool:
        return [done.result() for done in [pool.submit(work) for work in works]]


def answers_in(path):
    """The answers at the end of a report, in order of their bytes."""
    text = re.search(rb"(?m)^connections \d+\n((?s:.*))", path.read_bytes()).group(1)
    answers = []
    while text:
        head, _, text = text.partition(b"\n")
        length = int(head.split()[3])
        answers.append(text[:length])
        text = text[length + 1 :]
    return sorted(answers)


def be_clients(way, port, path, count):
    """Does the clients' part, and prints what they got."""
    if way == "input":
        sys.stdout.buffer.writelines(at_once([functools.partial(ask, port, path.read_bytes())] * count))
        return
    ports, sent = zip(*read_script(path)[1][:count])
    works = [functools.partial(ask, port, it) for it in sent]
    if way == "leave":
        leave(port, sent[0])
        return
    if way == "slow":
        works[0] = functools.partial(ask_late, port, sent[0])
    answers = [work() for work in works] if way == "turn" else at_once(works)
    sys.stdout.buffer.write(report_end(ports, answers))


def main():
    way, first, path, *rest = sys.argv[1:]
    if way == "same":
        return int(answers_in(pathlib.Path(first)) != answers_in(pathlib.Path(path)))
    be_clients(way, int(first), pathlib.Path(path), int(rest[0]) if rest else None)
    return 0


if __name__ == "__main__":
    sys.exit(main())
