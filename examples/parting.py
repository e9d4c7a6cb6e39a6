#!/usr/bin/env python3
"""Shows where a version parts from a run: the event of the log and the version's own call one above the other, as strace prints calls, and what differs first.

    parting.py [--program PROGRAM] (--script S | --transcript T) [options of varan run] V1 V2 ..
    parting.py [--program PROGRAM] (--script S | --transcript T) [--rules R] [--memory N] [--budget N | --hang N] [--index I] TRACE VERSION

The arguments but --program (default `varan`) are those of `varan run`, or of `varan replay` with a trace. Of a run it makes the trace by itself, and shows each version.
docs/COMPARE.md says how it is read. Needs jq, for strace.jq.
Status: 0 where the version is in step or exited, 1 where it parts or breaks, 2 for a faulty command line or where a program isn't there, the trace can't be read or a command takes
longer than SECONDS; where `varan` refuses a file its line goes to standard error, and the status is that of `varan`.
"""
import argparse
import dataclasses
import json
import pathlib
import struct
import subprocess
import sys
import tempfile

# The options that `run` and `replay` share, and those of `run` alone; and how a trace begins.
OPTIONS, OF_RUN = ["--script", "--transcript", "--rules", "--memory", "--budget", "--hang"], ["--calls", "--ring", "--threads"]
MAGIC = b"VARANTR1"
SECONDS = 120
STRACE = pathlib.Path(__file__).resolve().parent / "strace.jq"
UNLINKAT, OPENAT, WRITE, READV, WRITEV, BIND = 35, 56, 64, 65, 66, 200
# The arguments of each call that are values, from 0: those that are compared (docs/RULES.md). Addresses and what isn't used aren't.
VALUES = {
    17: [1], 23: [0], 24: [0, 1, 2], 29: [0, 1], UNLINKAT: [0, 2], OPENAT: [0, 2], 57: [0], 59: [1], 62: [0, 1, 2, 4], 63: [0, 2], WRITE: [0, 2], READV: [0, 2], WRITEV: [0, 2],
    93: [0], 94: [0], 198: [0, 1, 2], BIND: [0, 2], 201: [0, 1], 202: [0], 220: [0], 242: [0, 3], 278: [1, 2], 403: [0],
}
# How many bytes, vectors and bytes of a path and of a socket's address a call hands in at most.
MOST_BYTES, MOST_VECTORS, MOST_PATH, MOST_ADDRESS = 4096, 1024, 256, 16
EPERM, EFAULT = 1, 14
# The registers of a call: its arguments from a0 on, its number in a7.
FIRST_ARGUMENT, NUMBER = 10, 17


@dataclasses.dataclass
class Call:
    tid: int
    nr: int
    args: list
    sent: bytes
    bad: bool
    # What it got: the result and the bytes. Of the version's own call they aren't known.
    ret: int = -EPERM
    got: bytes = b""


class BadAddress(Exception):
    pass


def read_trace(path):
    """The events of a trace (docs/COMPARE.md)."""
    data = pathlib.Path(path).read_bytes()
    events, at = [], 12
    while at < len(data):
        tid, nr, *args, bad, ret, sent, got = struct.unpack_from("<9Ii2I", data, at)
        at += 48
        events.append(Call(tid, nr, args, data[at : at + sent], bool(bad), ret, data[at + sent : at + sent + got]))
        at += sent + got
    return events


class State:
    """A version at the call that was refused, as `varan inspect` shows it."""

    def __init__(self, inspect, tid):
        self.inspect = inspect
        lines = inspect([])
        at = next(i for i, line in enumerate(lines) if line.startswith(f"thread {tid} "))
        self.x = [int(word, 16) for word in lines[at + 1].split()[1:]]

    def argument(self, number):
        return self.x[FIRST_ARGUMENT + number]

    def memory(self, address, length):
        """So many bytes, None for one that the version has no memory at."""
        found = []
        for first in range(address, address + length, MOST_BYTES):
            part = min(MOST_BYTES, address + length - first)
            for line in self.inspect(["--dump", str(first), "--length", str(part)]):
                if line.startswith("mem "):
                    found += [None if digits == "--" else int(digits, 16) for digits in line.split()[2:]]
        return found

    def bytes(self, address, length):
        if address + length >= 1 << 32:
            raise BadAddress
        found = self.memory(address, length) if length > 0 else []
        if None in found:
            raise BadAddress
        return bytes(found)

    def path(self, address):
        found = self.memory(address, min(MOST_PATH, (1 << 32) - 1 - address))
        end = found.index(0) if 0 in found else len(found)
        if None in found[:end]:
            raise BadAddress
        return bytes(found[:end])

    def vectors(self):
        """The parts that the vectors of the call name, as far as a call moves bytes."""
        count = self.argument(2) if self.argument(2) <= MOST_VECTORS else 0
        left, parts = MOST_BYTES, []
        for number in range(count):
            if left == 0:
                break
            address, size = struct.unpack("<2I", self.bytes(self.argument(1) + 8 * number, 8))
            parts.append((address, min(size, left)))
            left -= parts[-1][1]
        return parts

    def sent(self, nr):
        """The bytes that the call hands in."""
        if nr == WRITE:
            return self.bytes(self.argument(1), min(self.argument(2), MOST_BYTES))
        if nr == BIND:
            return self.bytes(self.argument(1), min(self.argument(2), MOST_ADDRESS))
        if nr in (UNLINKAT, OPENAT):
            return self.path(self.argument(1))
        if nr == WRITEV:
            return b"".join(self.bytes(address, size) for address, size in self.vectors())
        return b""

    def call(self, tid):
        nr = self.x[NUMBER]
        args = [self.argument(i) if i in VALUES.get(nr, []) else 0 for i in range(6)]
        try:
            sent = self.sent(nr)
            if nr == READV:
                args[3] = sum(size for _, size in self.vectors())
        except BadAddress:
            return Call(tid, nr, args, b"", True, -EFAULT)
        return Call(tid, nr, args, sent, False)


def stop(why):
    print(f"parting.py: {why}", file=sys.stderr)
    sys.exit(2)


def ended(words, given=None, is_text=True):
    """The command once it has ended; where it can't be begun or takes too long, a sentence in its place."""
    try:
        return subprocess.run(words, input=given, stdout=subprocess.PIPE, text=is_text, timeout=SECONDS)
    except FileNotFoundError:
        stop(f"there is no program {words[0]}" + (" (Debian: jq)" if words[0] == "jq" else " (--program names another)"))
    except OSError as error:
        stop(f"{words[0]} can't be begun: {error.strerror}")
    except subprocess.TimeoutExpired:
        stop(f"{words[0]} takes longer than {SECONDS} seconds, and was ended")


def printed(calls):
    """The calls as strace prints them."""
    log = [{"tid": c.tid, "nr": c.nr, "args": c.args, "ret": c.ret, "payload": (c.sent + c.got).hex(), "stamp": 0} for c in calls]
    done = ended(["jq", "-r", "-f", STRACE], json.dumps({"log": log}))
    if done.returncode:
        stop(f"jq ended with {done.returncode}")
    return done.stdout.splitlines()


def quoted(data):
    return '"' + "".join(chr(b) if 32 <= b < 127 and b not in b'"\\' else {9: "\\t", 10: "\\n", 13: "\\r", 34: '\\"', 92: "\\\\"}.get(b, f"\\x{b:02x}") for b in data) + '"'


def around(data, at):
    """The bytes about a place, where it stands between."""
    before, after = data[max(at - 12, 0) : at], data[at : at + 20]
    return ("" if at <= 12 else "..") + quoted(before) + " " + (quoted(after) if after else "ends") + ("" if at + 20 >= len(data) else "..")


def difference(logged, own):
    """What differs first, in the order of the call's number, arguments, addresses and bytes."""
    if logged.nr != own.nr:
        return [f"differs  the number of the call: {logged.nr}, {own.nr}"]
    for number, (one, other) in enumerate(zip(logged.args, own.args)):
        if one != other and not (logged.nr == READV and number == 3 and logged.bad != own.bad):
            return [f"differs  argument {number}: {one}, {other}"] + bytes_difference(logged.sent, own.sent)
    if logged.bad != own.bad or logged.sent == own.sent:
        return [f"differs  an address: {'bad' if logged.bad else 'good'} in the log, {'good' if logged.bad else 'bad'} in the version"]
    return bytes_difference(logged.sent, own.sent)


def is_taken(logged, own):
    """Whether the calls are writes to one descriptor with other bytes, of which the event's wrote all or failed: what the verdict Take lets through (docs/RULES.md)."""
    same = logged.nr == own.nr and logged.nr in (WRITE, WRITEV) and logged.args[0] == own.args[0] and not logged.bad and not own.bad
    return same and logged.sent != own.sent and (logged.ret < 0 or logged.ret == len(logged.sent))


def bytes_difference(one, other):
    if one == other:
        return []
    at = next((i for i, (a, b) in enumerate(zip(one, other)) if a != b), min(len(one), len(other)))
    return [f"differs  byte {at}, of {len(one)} and {len(other)}", f"log      {around(one, at)}", f"version  {around(other, at)}"]


def run(words):
    done = ended(words)
    if done.stdout.startswith("varan: "):
        print(done.stdout, end="", file=sys.stderr)
        sys.exit(done.returncode)
    if not done.stdout:
        stop(f"{words[0]} wrote nothing, and ended with {done.returncode}")
    return done.stdout.splitlines()


def event_of(trace, place):
    """The event of the trace at this place."""
    try:
        return read_trace(trace)[place]
    except OSError as error:
        stop(f"{trace} can't be read: {error.strerror}")
    except (struct.error, IndexError):
        stop(f"{trace} has no whole event {place}")


def is_trace(path):
    try:
        with open(path, "rb") as file:
            return file.read(len(MAGIC)) == MAGIC
    except OSError:
        return False


def recorded(program, given, versions, path):
    """Records the run of these versions; where it is refused the line goes to standard error, and ends this."""
    done = ended([program, "record", *given, *versions], is_text=False)
    if not done.stdout.startswith(MAGIC):
        print(done.stdout.decode(errors="replace"), end="", file=sys.stderr)
        sys.exit(done.returncode or 1)
    pathlib.Path(path).write_bytes(done.stdout)


def arguments():
    parser = argparse.ArgumentParser(description="Shows where a version parts from a run.")
    parser.add_argument("--program", default="varan")
    script = parser.add_mutually_exclusive_group(required=True)
    for name in OPTIONS[:2]:
        script.add_argument(name)
    for name in [*OPTIONS[2:], *OF_RUN, "--index"]:
        parser.add_argument(name)
    parser.add_argument("files", nargs="+", metavar="TRACE VERSION, or V1 V2 ..")
    words = parser.parse_args()
    with_trace = is_trace(words.files[0])
    if with_trace and len(words.files) != 2:
        parser.error("one version with a trace")
    if any(getattr(words, name[2:]) is not None for name in (OF_RUN if with_trace else ["--index"])):
        parser.error("--calls, --ring and --threads are for a run, --index for a trace")
    return words, with_trace


def given_of(words, names):
    """The options with these names that stand on the command line."""
    return [word for name in names if getattr(words, name[2:]) is not None for word in (name, getattr(words, name[2:]))]


def main():
    words, with_trace = arguments()
    given = given_of(words, OPTIONS)
    if with_trace:
        return compare(words.program, given + given_of(words, ["--index"]), *words.files)
    status = 0
    with tempfile.TemporaryDirectory() as place:
        trace = f"{place}/trace"
        recorded(words.program, given + given_of(words, OF_RUN), words.files, trace)
        for number, version in enumerate(words.files):
            print(f"version {number}, {version}", flush=True)
            status = max(status, compare(words.program, [*given, "--index", str(number)], trace, version))
    return status


def compare(program, given, trace, version):
    """Shows where a version parts from a trace, and answers the status."""
    [line] = run([program, "replay", *given, trace, version])
    end = line.split()[1:]
    if end[0] in ("in", "exited"):
        print(line)
        return 0
    seen = int(end[end.index("seen") + 1])
    logged = event_of(trace, seen)
    print(f"event    {seen}, of thread {logged.tid}; rewrites before it: {end[-1]}")
    if end[0] == "fault":
        print("log     ", *printed([logged]))
        print("version ", *end[: end.index("seen")])
        return 1

    def inspect(dump):
        return run([program, "inspect", *given, "--stamp", str(seen + 1), *dump, trace, version])

    own = State(inspect, logged.tid).call(logged.tid)
    of_log, of_version = printed([logged, own])
    print("log     ", of_log)
    # What the version's call would give isn't known.
    print("version ", of_version.rsplit(" = ", 1)[0])
    print(*difference(logged, own), sep="\n")
    if is_taken(logged, own):
        print("rule     other bytes in the same write: `ret #take` gives it the event's answer")
    return 1


if __name__ == "__main__":
    sys.exit(main())
