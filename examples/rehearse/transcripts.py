#!/usr/bin/env python3
"""Writes transcripts of the server in C, each of three clients of ../server/scripts/clients, as if a live run had taken them one after the other.

    transcripts.py FOLDER COUNT

The clients of transcript I are those of the numbers I, 5 I + 1 and 7 I + 2, counted round.
"""
import pathlib
import sys

# the second in which the first client of each comes: 29.11.2026
BEGIN = 1795910400
CLIENTS = pathlib.Path(__file__).resolve().parent.parent / "server/scripts/clients"


def read_clients():
    """The lines of the guests' setup, and what each client sends, as hexadecimal digits."""
    lines = [line for line in CLIENTS.read_text().splitlines() if not line.startswith("#")]
    sent = [line.split()[2] if len(line.split()) > 2 else "" for line in lines if line.startswith("connect ")]
    return [line for line in lines if line.startswith(("arg ", "file "))], sent


def transcript(setup, sent):
    lines = ["varan-script 5", *setup]
    for number, digits in enumerate(sent):
        lines += [f"time {BEGIN + number} 0", "connect 8080", *([f"data {number} {digits}"] if digits else []), f"end {number}"]
    return "".join(f"{line}\n" for line in [*lines, "end clients"])


def main():
    folder, count = pathlib.Path(sys.argv[1]), int(sys.argv[2])
    setup, sent = read_clients()
    folder.mkdir(parents=True, exist_ok=True)
    for place in range(count):
        chosen = [sent[it % len(sent)] for it in (place, 5 * place + 1, 7 * place + 2)]
        (folder / f"{place:05}").write_text(transcript(setup, chosen))


if __name__ == "__main__":
    main()
