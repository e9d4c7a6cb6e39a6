#!/usr/bin/env python3
"""Memory and time of runs whose log is the largest there is, 131,072 events: writes to the console and to a connection, of one byte and of 4,096.

    largest_runs.py [PROGRAM [OTHER]]

Each row is one version on one thread, as `run`, which writes the report, and as `record`, which writes the trace. It has the bytes written, the greatest memory, the median of
the processor time of RUNS runs (environment, 5), the microseconds an event and, where an OTHER program is named, such as the one before a change, PROGRAM's time and memory
against OTHER's; the two run in turn. A row that a program refuses is left out. The largest take a gigabyte or two and want a quiet machine.
Build the program first: `cd crates/varan && rt run -- run --script data/s data/v`. EVENTS (environment) makes the logs shorter.
"""
import os
import pathlib
import statistics
import subprocess
import sys
import tempfile

TOP = pathlib.Path(__file__).resolve().parent.parent
EVENTS = int(os.environ.get("EVENTS", "131072"))
RUNS = int(os.environ.get("RUNS", "5"))
SIZES = [1, 4096]

WRITES = """
        li s2, {count}
        la s3, bytes
again:  mv a0, s1
        mv a1, s3
        li a2, {size}
        li a7, 64               # write
        ecall
        addi s2, s2, -1
        bne s2, zero, again
        li a0, 0
        li a7, 94               # exit_group
        ecall
        .data
bytes:  .zero 4096
"""
# Before the writes: what gives s1, and how many events that makes.
CONSOLE = ("        li s1, 1\n", 0, "")
CONNECTION = (
    """
        li a0, 2
        li a1, 1
        li a2, 0
        li a7, 198              # socket
        ecall
        mv s0, a0
        la a1, address
        li a2, 16
        li a7, 200              # bind
        ecall
        mv a0, s0
        li a1, 1
        li a7, 201              # listen
        ecall
        mv a0, s0
        li a7, 202              # accept
        ecall
        mv s1, a0
""",
    4,
    "address: .byte 2, 0, 0, 80\n.zero 12\n",
)


def assembled(program, folder, start, size):
    before, events, data = start
    text = before + WRITES.format(count=EVENTS - events - 1, size=size) + data
    (folder / "text").write_text(text)
    place = folder / "guest"
    place.write_bytes(subprocess.run([program, "asm", folder / "text"], check=True, capture_output=True).stdout)
    return place


def measured(program, command, folder, guest):
    """The bytes written, the greatest memory in MiB and the processor time in seconds of a run, or None where the program refuses the words."""
    words = [program, command, "--script", folder / "script", "--threads", "1", "--calls", str(EVENTS), "--budget", "1000000000", guest]
    with open(folder / "written", "wb") as written:
        running = subprocess.Popen([str(word) for word in words], stdout=written)
        _, status, usage = os.wait4(running.pid, 0)
    running.returncode = os.waitstatus_to_exitcode(status)
    if running.returncode == 2:
        return None
    if running.returncode != 0:
        sys.exit(f"status {running.returncode}")
    return (folder / "written").stat().st_size, usage.ru_maxrss / 1024, usage.ru_utime + usage.ru_stime


def medians(runs):
    return runs[0][0], max(memory for _, memory, _ in runs), statistics.median(time for _, _, time in runs)


def row(programs, name, command, folder, guest):
    runs = {program: [] for program in programs}
    for _ in range(RUNS):
        for program in programs:
            runs[program].append(measured(program, command, folder, guest))
    if runs[programs[0]][0] is None:
        return
    written, memory, time = medians(runs[programs[0]])
    line = f"{name:24} {command:7} {written:12,} {memory:8.0f} {time:9.3f} {time / EVENTS * 1e6:9.2f}"
    if len(programs) == 2 and runs[programs[1]][0] is not None:
        _, old_memory, old_time = medians(runs[programs[1]])
        line += f" {time / old_time:9.3f} {memory / old_memory:9.3f}"
    print(line, flush=True)


def main():
    programs = sys.argv[1:3] or [str(TOP / "crates/varan/out/varan")]
    print("writes                   command        bytes      MiB   seconds  us/event      time    memory")
    with tempfile.TemporaryDirectory() as room:
        folder = pathlib.Path(room)
        for name, start, script in [("console", CONSOLE, "varan-script 1\n"), ("connection", CONNECTION, "varan-script 3\nconnect 80\n")]:
            (folder / "script").write_text(script)
            for size in SIZES:
                guest = assembled(programs[0], folder, start, size)
                for command in ["run", "record"]:
                    row(programs, f"{name}, {size:,} bytes", command, folder, guest)


if __name__ == "__main__":
    main()
