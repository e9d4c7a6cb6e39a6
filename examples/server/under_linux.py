#!/usr/bin/env python3
"""Writes expected/: what the clients of scripts/clients get from the servers of built/ under Linux, by qemu-riscv32 (Debian's package qemu-user).

Each server listens on a port of 127.0.0.1, and a client after the other connects, sends its bytes, says that no more come and takes what it gets.
A client that finds nobody gets nothing. The files have the form of a report's end (docs/REPORT.md). Says how each server ended, too.
"""
import pathlib
import socket
import subprocess
import tempfile
import time

HERE = pathlib.Path(__file__).resolve().parent
# The first of the ports that are used here, one a server.
PORT = 18080
SECONDS = 10


def read_script(path):
    """The files and the connections of a script (docs/SCRIPT.md)."""
    files, connections = {}, []
    for line in path.read_text().splitlines():
        word, _, rest = line.partition(" ")
        first, _, content = rest.partition(" ")
        if word == "file":
            files[first] = bytes.fromhex(content)
        elif word == "connect":
            connections.append((int(first), bytes.fromhex(content)))
    return files, connections


def wait_for(port):
    """Waits until somebody listens on the port."""
    wanted = f"0100007F:{port:04X} 00000000:0000 0A"
    any_address = f"00000000:{port:04X} 00000000:0000 0A"
    end = time.monotonic() + SECONDS
    while time.monotonic() < end:
        table = pathlib.Path("/proc/net/tcp").read_text()
        if wanted in table or any_address in table:
            return
        time.sleep(0.01)
    raise SystemExit(f"nobody listens on port {port}")


def ask(port, sent):
    """What a client that sends these bytes gets."""
    got = b""
    try:
        with socket.create_connection(("127.0.0.1", port), SECONDS) as client:
            client.sendall(sent)
            client.shutdown(socket.SHUT_WR)
            while part := client.recv(65536):
                got += part
    except ConnectionError:
        pass
    return got


def report_end(ports, answers):
    """The end of a report in which clients of these ports were written these answers (docs/REPORT.md)."""
    text = f"connections {len(answers)}\n".encode()
    for place, (port, got) in enumerate(zip(ports, answers)):
        text += f"connection {place} {port} {len(got)}\n".encode() + got + b"\n"
    return text


def main():
    files, connections = read_script(HERE / "scripts/clients")
    for version in [1, 2, 3, 4]:
        port = PORT + version
        with tempfile.TemporaryDirectory() as room:
            for name, content in files.items():
                (pathlib.Path(room) / name).write_bytes(content)
            server = subprocess.Popen(["qemu-riscv32", HERE / f"built/server_{version}", str(port)], cwd=room, stderr=subprocess.DEVNULL)
            try:
                wait_for(port)
                answers = [ask(port, sent) for _, sent in connections]
                ended = server.poll()
            finally:
                server.kill()
                server.wait()
        (HERE / f"expected/clients_{version}").write_bytes(report_end([named for named, _ in connections], answers))
        print(f"server_{version}:", "serves on" if ended is None else f"ended with {ended}")


if __name__ == "__main__":
    main()
