#!/usr/bin/env python3
"""Makes a script of files, of what strace saw of a server, or of a packet capture; and prints one as text. docs/SCRIPT.md has the format.

    script.py OPTION.. > SCRIPT
    script.py --text SCRIPT

    --arg TEXT             an argument
    --line TEXT            a line of the input
    --input PATH           input: the bytes of this file
    --file PATH            a file, under its own name without the folders
    --client PORT PATH     a client that sends the bytes of this file
    --hand N               the leader hands over at N events
    --strace PATH          the clients of a server, by strace -f -xx -s 65535 -o PATH
    --capture PATH         the clients of a server, by tshark -r CAPTURE -Y 'tcp.dstport == PORT' -T fields -e tcp.stream -e tcp.dstport -e tcp.seq -e tcp.payload

Options stand in any order, each as often as needed; the script has the lines in that order. Of strace's output the calls of one process are read, or of its threads: what it got on
each connection that it accepted. --text prints a script with its bytes as text: what can't be printed as an escape of C.
Status: 0; 1 where something can't be a script; 2 for a faulty command line or a file that can't be read.
"""
import argparse
import pathlib
import re
import sys

NAMES = ["arg", "line", "input", "file", "client", "hand", "strace", "capture"]
RECEIVING = {"read", "recv", "recvfrom"}
ESCAPES = {9: "\\t", 10: "\\n", 13: "\\r", 34: '\\"', 92: "\\\\"}


class Refused(Exception):
    pass


class Append(argparse.Action):
    """Keeps all options in the order of the command line."""

    def __call__(self, parser, given, values, option=None):
        given.parts = (given.parts or []) + [(self.dest, values)]


def bytes_of(path):
    return pathlib.Path(path).read_bytes()


def line_of(*words):
    return " ".join(word for word in words if word)


def connect(port, sent):
    return line_of("connect", str(port), sent.hex())


# ---- strace


def calls_of(text):
    """Each call that strace saw as (its name, its arguments, its result). A call that others interrupted stands on two lines."""
    begun = {}
    for line in text.split("\n"):
        line = re.sub(r"^(?:\[pid +(\d+)\]|(\d+)) +", lambda it: f"{it.group(1) or it.group(2)} ", line)
        thread, line = line.split(" ", 1) if re.match(r"\d+ ", line) else ("", line)
        if line.endswith("<unfinished ...>"):
            begun[thread] = line[: -len("<unfinished ...>")]
            continue
        resumed = re.match(r"<\.\.\. \w+ resumed>(.*)", line)
        if resumed:
            line = begun.pop(thread, "") + resumed.group(1)
        call = re.fullmatch(r"(\w+)\((.*)\) += (-?\d+).*", line)
        if call:
            yield call.group(1), call.group(2), int(call.group(3))


def text_in(arguments):
    """The bytes of the text among a call's arguments."""
    found = re.search(r'"((?:\\x[0-9a-f]{2})*)"(\.\.\.)?', arguments)
    if not found:
        raise Refused(f"this isn't what strace -xx prints: {arguments[:60]}")
    if found.group(2):
        raise Refused("strace cut a text: give it -s 65535")
    return bytes.fromhex(found.group(1).replace("\\x", ""))


def clients_of_strace(text):
    """The port of each connection that was accepted, and what came on it."""
    ports, open_ones, found = {}, {}, []
    for name, arguments, result in calls_of(text):
        first = re.match(r"(\d+)", arguments)
        fd = int(first.group(1)) if first else None
        port = re.search(r"sin6?_port=htons\((\d+)\)", arguments)
        if name == "bind" and result == 0 and port:
            ports[fd] = int(port.group(1))
        elif name in ("accept", "accept4") and result >= 0:
            if fd not in ports:
                raise Refused(f"no bind of the descriptor {fd}, which accepts")
            open_ones[result] = (ports[fd], bytearray())
            found.append(open_ones[result])
        elif name in RECEIVING and fd in open_ones and result > 0 and "MSG_PEEK" not in arguments:
            open_ones[fd][1].extend(text_in(arguments)[:result])
        elif name == "close" and result == 0:
            open_ones.pop(fd, None)
            ports.pop(fd, None)
    return found


# ---- tshark


def clients_of_capture(text):
    """The port of each connection, and what was sent to it. What was sent twice stands once, at its place."""
    found = {}
    for line in text.splitlines():
        stream, port, place, payload = line.split("\t")
        port_and_sent = found.setdefault(int(stream), (int(port), bytearray()))
        data, at = bytes.fromhex(payload.replace(":", "")), int(place) - 1
        if not data:
            continue
        if at > len(port_and_sent[1]):
            raise Refused(f"the capture lacks bytes of connection {stream}, from {len(port_and_sent[1])} on")
        port_and_sent[1][at : at + len(data)] = data
    return list(found.values())


# ---- the script


def lines_of(name, value):
    """The lines of the script for an option."""
    if name == "arg":
        if not re.fullmatch(r"[ -~]+", value):
            raise Refused(f"an argument has one byte or more, from space to ~: {value!r}")
        return [f"arg {value}"]
    if name == "line":
        if "\n" in value:
            raise Refused("a line has no newline: --input takes the bytes of a file")
        return [f"line {value}"]
    if name == "input":
        return [line_of("input", bytes_of(value).hex())]
    if name == "file":
        return [line_of("file", pathlib.Path(value).name, bytes_of(value).hex())]
    if name == "client":
        return [connect(value[0], bytes_of(value[1]))]
    if name == "hand":
        return [f"hand {value}"]
    clients = clients_of_strace if name == "strace" else clients_of_capture
    return [connect(port, sent) for port, sent in clients(bytes_of(value).decode())]


def form_of(lines):
    words = {line.split(" ")[0] for line in lines}
    return 3 if "connect" in words else 2 if "hand" in words else 1


def quoted(digits):
    return '"' + "".join(ESCAPES.get(b) or (chr(b) if 32 <= b < 127 else f"\\x{b:02x}") for b in bytes.fromhex(digits)) + '"'


def as_text(line):
    """A line of a script with its hexadecimal digits as text."""
    word, *rest = line.split(" ")
    if word == "input":
        return f"input {quoted(rest[0] if rest else '')}"
    if word in ("file", "connect") and rest:
        return f"{word} {rest[0]} {quoted(rest[1] if len(rest) > 1 else '')}"
    return line


def main():
    parser = argparse.ArgumentParser(description="Makes a script, and prints one as text.", usage="script.py OPTION.. > SCRIPT, or script.py --text SCRIPT")
    parser.set_defaults(parts=None)
    for name in NAMES:
        parser.add_argument(f"--{name}", action=Append, nargs=2 if name == "client" else None, metavar=("PORT", "PATH") if name == "client" else None)
    parser.add_argument("--text", metavar="SCRIPT")
    given = parser.parse_args()
    if bool(given.text) == bool(given.parts):
        parser.error("the parts of a script, or --text and a script")
    try:
        if given.text:
            print("\n".join(as_text(line) for line in bytes_of(given.text).decode().removesuffix("\n").split("\n")))
        else:
            lines = [line for name, value in given.parts for line in lines_of(name, value)]
            print("\n".join([f"varan-script {form_of(lines)}", *lines]))
    except OSError as fault:
        parser.error(f"{fault.filename}: {fault.strerror}")
    except (Refused, ValueError) as fault:
        print(f"script.py: {fault}", file=sys.stderr)
        return 1
    return 0


sys.exit(main())
