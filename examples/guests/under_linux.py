#!/usr/bin/env python3
"""Writes expected/: what the guests of built/ write under Linux, by qemu-riscv32 (Debian's package qemu-user).

Each guest runs in a new directory with the files of its script, on the script's input and with its arguments. Its two outputs are one,
as under varan. Says how each guest ended, too.
"""
import pathlib
import subprocess
import tempfile

HERE = pathlib.Path(__file__).resolve().parent

# a file of expected/, the guest and the script
RUNS = [
    ("heap", "heap", "heap"),
    ("lines", "lines", "lines"),
    ("threads", "threads", "threads"),
    ("service", "service_1", "service"),
    ("service_2_alone", "service_2", "service"),
]


def read_script(path):
    """The arguments, the input and the files of a script (docs/SCRIPT.md)."""
    arguments, given, files = [], b"", {}
    for line in path.read_text().splitlines():
        word, _, rest = line.partition(" ")
        if word == "arg":
            arguments.append(rest)
        elif word == "line":
            given += rest.encode() + b"\n"
        elif word == "input":
            given += bytes.fromhex(rest)
        elif word == "file":
            name, _, content = rest.partition(" ")
            files[name] = bytes.fromhex(content)
    return arguments, given, files


for expected, guest, script in RUNS:
    arguments, given, files = read_script(HERE / "scripts" / script)
    with tempfile.TemporaryDirectory() as room:
        for name, content in files.items():
            (pathlib.Path(room) / name).write_bytes(content)
        command = ["qemu-riscv32", HERE / "built" / guest, *arguments]
        done = subprocess.run(command, cwd=room, input=given, stdout=subprocess.PIPE, stderr=subprocess.STDOUT, timeout=60)
    (HERE / "expected" / expected).write_bytes(done.stdout)
    print(f"{expected}: {guest} ended with {done.returncode}")
