#!/usr/bin/env python3
"""Runs poll_answers.c under Linux, built for the host and, by qemu-riscv32, for guests, and under varan, and prints the answers that differ. docs/LINUX.md has them.

Needs Debian's packages gcc, gcc-riscv64-unknown-elf, picolibc-riscv64-unknown-elf and qemu-user. Under Linux its client comes over 127.0.0.1.
poll_answers.py [PROGRAM]: crates/varan/out/varan where no program is named. poll_answers.py linux: the answers of Linux alone.
"""
import pathlib
import resource
import socket
import subprocess
import sys
import tempfile

TOP = pathlib.Path(__file__).resolve().parent.parent
SOURCE = TOP / "bench/poll_answers.c"
PORT = 18192
INPUT, SENT = b"hello\n", b"abcdef"
SECONDS = 20
# A poll that finds nothing takes in what comes up to the next of these.
TIMES = ["time 0 0"] * 40


def be_client():
    """The client, once somebody listens."""
    with socket.create_connection(("127.0.0.1", PORT), SECONDS) as client:
        client.recv(1)
        client.sendall(SENT)
        client.recv(1)
        client.shutdown(socket.SHUT_WR)


def under_linux(command, place):
    """Its answers, with as many descriptors as a poll of varan may have. Its input ends once it has read it, and its client comes once it has found nobody."""
    few = lambda: resource.setrlimit(resource.RLIMIT_NOFILE, (408, 408))
    running = subprocess.Popen(["timeout", str(SECONDS), *command, str(PORT)], stdin=subprocess.PIPE, stdout=subprocess.PIPE, cwd=place, preexec_fn=few)
    running.stdin.write(INPUT)
    running.stdin.flush()
    answers = []
    for line in running.stdout:
        answers.append(line.decode().rstrip())
        if line.startswith(b"read of the rest:"):
            running.stdin.close()
        elif line.startswith(b"accept, nobody being there:"):
            be_client()
    assert running.wait() == 0, command
    return answers


def under_varan(program, guest, place):
    script = place / "script"
    comes = [*TIMES, f"input {INPUT.hex()}", *TIMES, "end input", *TIMES, f"connect {PORT}", *TIMES, f"data 0 {SENT.hex()}", *TIMES, "end 0", *TIMES, "time 1000 0", "time 2000 0", "time 3000 0"]
    script.write_text("\n".join(["varan-script 5", f"arg {PORT}", *comes]) + "\n")
    report = subprocess.run([program, "run", "--script", script, guest], check=True, capture_output=True).stdout
    head, _, rest = report.partition(b"\n")
    return rest[: int(head.split()[1])].decode().splitlines()


def main():
    program = sys.argv[1] if len(sys.argv) > 1 else str(TOP / "crates/varan/out/varan")
    with tempfile.TemporaryDirectory() as room:
        place = pathlib.Path(room)
        native, guest = place / "native", place / "guest"
        subprocess.run(["gcc", "-O1", "-o", native, SOURCE], check=True)
        subprocess.run([TOP / "examples/guests/cc", SOURCE, "-o", guest], check=True)
        linux = [under_linux([native], place), under_linux(["qemu-riscv32", guest], place)]
        ours = linux[0] if program == "linux" else under_varan(program, guest, place)
    others = 0
    for mine, host, qemu in zip(ours, *linux, strict=True):
        what, _, _ = mine.rpartition(": ")
        assert host.startswith(what) and qemu.startswith(what), (mine, host, qemu)
        if program == "linux":
            print(host if host == qemu else f"{host}    (qemu: {qemu[len(what) + 2:]})")
        elif not mine == host == qemu:
            others += 1
            print(f"{mine}    (Linux: {host[len(what) + 2:]}{'' if host == qemu else f'; qemu: {qemu[len(what) + 2:]}'})")
    print(f"{len(ours)} answers" + ("" if program == "linux" else f", {others} others under Linux"))


if __name__ == "__main__":
    main()
