#!/usr/bin/env python3
"""Runs the guest socket_answers.c under Linux, by qemu-riscv32, and under varan, and prints the answers that differ. docs/LINUX.md has them.

Needs Debian's packages gcc-riscv64-unknown-elf, picolibc-riscv64-unknown-elf and qemu-user. Under Linux its clients come over 127.0.0.1.
socket_answers.py [PROGRAM]: crates/varan/out/varan where no program is named.
"""
import pathlib
import socket
import subprocess
import sys
import tempfile
import time

TOP = pathlib.Path(__file__).resolve().parent.parent
GUESTS = TOP / "examples/guests"
PORT, OTHER = 18190, 18191
SENT = [b"abcdef", b"ghijkl", b""]
SECONDS = 20


def build(place):
    flags = "--specs=picolibc.specs -DPICOLIBC_INTEGER_PRINTF_SCANF -march=rv32ima -mabi=ilp32 -std=gnu11 -Os -Wall -Wextra -nostartfiles"
    sources = [GUESTS / "start.S", GUESTS / "linux.c", TOP / "bench/socket_answers.c"]
    command = ["riscv64-unknown-elf-gcc", *flags.split(), "-T", GUESTS / "guest.ld", "-Wl,-z,max-page-size=4096", "-s", "-o", place, *sources]
    subprocess.run(command, check=True)


def come(clients, sent):
    """A client comes, as soon as somebody listens, and says that no more bytes follow."""
    end = time.monotonic() + SECONDS
    while time.monotonic() < end:
        try:
            client = socket.create_connection(("127.0.0.1", PORT), SECONDS)
            break
        except ConnectionRefusedError:
            time.sleep(0.01)
    client.sendall(sent)
    client.shutdown(socket.SHUT_WR)
    clients.append(client)


def under_linux(guest):
    clients = []
    # Python ignores SIGPIPE, and so does what it starts here.
    command = ["qemu-riscv32", guest, str(PORT), str(OTHER)]
    running = subprocess.Popen(command, stdin=subprocess.DEVNULL, stdout=subprocess.PIPE, restore_signals=False)
    try:
        for sent in SENT:
            come(clients, sent)
        return running.communicate(timeout=SECONDS)[0].decode().splitlines()
    finally:
        running.kill()
        for client in clients:
            client.close()


def under_varan(program, guest, place):
    script = place / "script"
    connections = [f"connect {PORT} {sent.hex()}".rstrip() for sent in SENT]
    script.write_text("\n".join(["varan-script 3", f"arg {PORT}", f"arg {OTHER}", *connections]) + "\n")
    report = subprocess.run([program, "run", "--script", script, guest], check=True, capture_output=True).stdout
    head, _, rest = report.partition(b"\n")
    return rest[: int(head.split()[1])].decode().splitlines()


def main():
    program = sys.argv[1] if len(sys.argv) > 1 else str(TOP / "crates/varan/out/varan")
    with tempfile.TemporaryDirectory() as room:
        place = pathlib.Path(room)
        build(place / "guest")
        ours, theirs = under_varan(program, place / "guest", place), under_linux(place / "guest")
    others = 0
    for mine, linux in zip(ours, theirs, strict=True):
        if mine != linux:
            others += 1
            what, _, gave = linux.rpartition(": ")
            print(f"{mine}    (Linux: {gave})")
            assert mine.startswith(what)
    print(f"{len(ours)} answers, {others} others under Linux")


if __name__ == "__main__":
    main()
