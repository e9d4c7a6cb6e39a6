#!/usr/bin/env python3
"""One transcript of a rehearsal: what GNU parallel does for each, maybe on another machine. It uses what lies beside it, and nothing of this folder.

    one.py trace PROGRAM OLD TRANSCRIPT TRACE [OPTION..]           records the calls of the old version
    one.py row PROGRAM NEW TRANSCRIPT TRACE ROW [OPTION..]         rehearses the new version on them, and writes a row

OPTION.. are options of `varan replay`. Where `varan` refuses the transcript its line stands in the trace's place. A row is JSON: the transcript, how it ended ("in step", "refused",
"broken", "damaged"), the line that `varan` wrote, and where it ended out of step the numbers of the log's call and of the version's, and the addresses of the version's instruction
and of its caller's.
Status: 0 where the trace or the row is written, 1 where it isn't.
"""
import json
import os
import pathlib
import re
import struct
import subprocess
import sys

LIMITS = ["--calls", "131072", "--hang", "100000000"]
SECONDS = 600
HEAD = struct.Struct("<8IIiII")
FIRST = 12


def varan(words):
    done = subprocess.run(words, stdout=subprocess.PIPE, timeout=SECONDS)
    return done.returncode, done.stdout


def put(path, content):
    """Writes the file, whole or not at all. On another machine its folder isn't there yet."""
    path.parent.mkdir(parents=True, exist_ok=True)
    part = path.with_name(f"{path.name}.part")
    part.write_bytes(content)
    os.replace(part, path)


def trace(program, old, transcript, into, *options):
    status, text = varan([f"./{program}", "record", *LIMITS, *without_rules(options), "--script", transcript, old])
    if status not in (0, 1, 4):
        raise SystemExit(f"one.py: varan record ended with {status}: {text[:200]!r}")
    put(pathlib.Path(into), text)


def without_rules(options):
    """The options that a recording takes: one version needs no rules."""
    rest = list(options)
    if "--rules" in rest:
        at = rest.index("--rules")
        del rest[at : at + 2]
    return rest


def call_at(recorded, place):
    """The number of the call of the event at this place of a trace; None behind its end."""
    count = struct.unpack_from("<I", recorded, FIRST - 4)[0]
    at = FIRST
    for index in range(count):
        fields = HEAD.unpack_from(recorded, at)
        if index == place:
            return fields[1]
        at += HEAD.size + fields[10] + fields[11]
    return None


def end_of(line):
    """How a rehearsal ended, by the line that `varan` wrote."""
    if line.startswith(("replay exited ", "replay in step ")):
        return "in step"
    return "refused" if line.startswith("replay refused ") else "broken"


def places(program, new, transcript, trace, seen, options):
    """The address of the instruction at which the version ended, and of the one that called."""
    words = [f"./{program}", "inspect", *options, "--hang", LIMITS[3], "--script", transcript, "--stamp", str(seen + 1), trace, new]
    _, text = varan(words)
    shown = re.search(rb"(?m)^thread \S+ \S+ ([0-9a-f]{8}).*\nx \S+ ([0-9a-f]{8})", text)
    return [shown[1].decode(), f"{int(shown[2], 16) - 4:08x}"] if shown else []


def row_of(program, new, transcript, trace, options):
    recorded = pathlib.Path(trace).read_bytes()
    if recorded.startswith(b"varan: "):
        return {"end": "damaged", "line": recorded.decode().strip()}
    status, text = varan([f"./{program}", "replay", *options, "--hang", LIMITS[3], "--script", transcript, trace, new])
    line = text.decode().strip()
    if status == 4:
        return {"end": "damaged", "line": line}
    if status not in (0, 1):
        raise SystemExit(f"one.py: varan replay ended with {status}: {line[:200]}")
    row = {"end": end_of(line), "line": line}
    if row["end"] != "in step":
        seen = int(re.search(r" seen (\d+) ", line)[1])
        parted = re.match(r"replay refused \d+ (\d+) ", line)
        row |= {"log": call_at(recorded, seen), "version": parted and int(parted[1]), "places": places(program, new, transcript, trace, seen, options)}
    return row


def row(program, new, transcript, trace, into, *options):
    found = {"transcript": pathlib.Path(transcript).name, **row_of(program, new, transcript, trace, options)}
    put(pathlib.Path(into), json.dumps(found).encode() + b"\n")


if __name__ == "__main__":
    {"trace": trace, "row": row}[sys.argv[1]](*sys.argv[2:])
