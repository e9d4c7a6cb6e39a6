#!/usr/bin/env python3
"""Writes a version's state at a point of a trace as a core file, as Linux writes one, for gdb-multiarch.

    core.py [--program PROGRAM] CORE (--script S | --transcript T) [--rules R] [--memory N] [--budget N | --hang N] [--index I] POINT TRACE VERSION
    gdb-multiarch VERSION CORE

The arguments after CORE are those of `varan inspect` (docs/COMPARE.md) without --dump and --length; `varan` is the program unless another is named. CORE gets the registers
of each thread, and the memory that `inspect` shows: from the first byte of the executable's segments on, up to the end of the heap, and the stack. It prints the line `at` of `inspect`.
Status: 0; 1 where the version has ended at the point, and has no state; 2 for a faulty command line; where `varan` refuses a file its line goes to standard error, and
the status is that of `varan`.
"""
import argparse
import dataclasses
import pathlib
import struct
import subprocess
import sys

# The program's own sizes (docs/GUESTS.md): --dump shows 4,096 bytes at most.
PAGE, STACK, MEMORY = 4096, 65536, 1048576
# elf(5): the kinds of a file, of a program header and of a note, and RISC-V.
ET_CORE, PT_LOAD, PT_NOTE, NT_PRSTATUS, EM_RISCV = 4, 1, 4, 1, 243
HEADER, PROGRAM_HEADER = 52, 32
READ_WRITE_RUN = 7
# Linux's prstatus for 32-bit RISC-V: its size, and where the signal, the thread and the registers stand, of which the first is pc in the place of x0.
STATUS, AT_SIGNAL, AT_THREAD, AT_REGISTERS = 204, 12, 24, 72
# signal(7): what Linux would have sent.
SIGNALS = {"illegal": 4, "breakpoint": 5, "misaligned": 7, "fetch": 11, "load": 11, "store": 11}
SIGTRAP = 5


@dataclasses.dataclass
class Thread:
    tid: int
    pc: int
    x: list


class Version:
    """A version at the point, by `varan inspect`."""

    def __init__(self, command):
        self.command = command
        lines = self.inspect([])
        self.at = lines[0]
        self.threads = []
        for line in lines:
            name, *rest = line.split()
            if name == "thread":
                self.threads.append(Thread(int(rest[0]), int(rest[2], 16), []))
            elif name == "x":
                self.threads[-1].x = [int(word, 16) for word in rest]

    def inspect(self, dump):
        try:
            done = subprocess.run(self.command + dump, stdout=subprocess.PIPE, text=True)
        except OSError as fault:
            print(f"core.py: {self.command[0]}: {fault.strerror}", file=sys.stderr)
            sys.exit(2)
        if done.returncode:
            print(done.stdout, end="", file=sys.stderr)
            sys.exit(done.returncode)
        return done.stdout.splitlines()

    def page(self, address):
        """The bytes of a page, None for one that the version has no memory at."""
        dump = self.inspect(["--dump", str(address), "--length", str(PAGE)])
        return [None if digits == "--" else int(digits, 16) for line in dump if line.startswith("mem ") for digits in line.split()[2:]]


def segments_of(path):
    """The addresses that the executable's segments are loaded to, as pairs."""
    data = pathlib.Path(path).read_bytes()
    [first] = struct.unpack_from("<I", data, 28)
    [count] = struct.unpack_from("<H", data, 44)
    headers = [struct.unpack_from("<8I", data, first + PROGRAM_HEADER * number) for number in range(count)]
    return [(address, address + size) for kind, _, address, _, _, size, _, _ in headers if kind == PT_LOAD and size > 0]


def pages_of(version, segments, memory):
    """The pages with the version's memory, as (address, bytes): those of the executable, the heap after it, and the stack."""
    address, loaded = min(low for low, _ in segments) & -PAGE, max(high for _, high in segments)
    while address < memory - STACK:
        page = version.page(address)
        if address >= loaded and all(byte is None for byte in page):
            break
        yield address, page
        address += PAGE
    for address in range(memory - STACK, memory, PAGE):
        yield address, version.page(address)


def regions(pages):
    """The memory as pairs of an address and bytes, with a new one where there is a gap."""
    found, end = [], None
    for first, page in pages:
        for address, byte in enumerate(page, first):
            if byte is None:
                continue
            if address != end:
                found.append((address, bytearray()))
            found[-1][1].append(byte)
            end = address + 1
    return found


def signal_of(words):
    """The signal for how the version stands, by the words of the line `at`."""
    return SIGNALS.get(words[words.index("fault") + 1], SIGTRAP) if "fault" in words else SIGTRAP


def thread_of(words):
    """The thread that broke or was refused, if one did."""
    if "fault" in words:
        return int(words[words.index("fault") + 2])
    return int(words[words.index("refused") + 1]) if "refused" in words else None


def status_note(thread, signal):
    status = bytearray(STATUS)
    struct.pack_into("<H", status, AT_SIGNAL, signal)
    struct.pack_into("<I", status, AT_THREAD, thread.tid)
    struct.pack_into("<32I", status, AT_REGISTERS, thread.pc, *thread.x[1:])
    return struct.pack("<3I8s", len("CORE") + 1, STATUS, NT_PRSTATUS, b"CORE") + status


def core_file(notes, memory):
    """An ELF core file: its header, a program header for the notes and one for each region, the notes, and the regions, each on a page of the file."""
    count = 1 + len(memory)
    at = HEADER + PROGRAM_HEADER * count
    ident = b"\x7fELF" + bytes([1, 1, 1]) + bytes(9)
    head = ident + struct.pack("<2H5I6H", ET_CORE, EM_RISCV, 1, 0, HEADER, 0, 0, HEADER, PROGRAM_HEADER, count, 0, 0, 0)
    head += struct.pack("<8I", PT_NOTE, at, 0, 0, len(notes), 0, 0, 4)
    body = notes
    for address, data in memory:
        body += bytes(-(at + len(body)) % PAGE)
        head += struct.pack("<8I", PT_LOAD, at + len(body), address, 0, len(data), len(data), READ_WRITE_RUN, PAGE)
        body += data
    return head + body


def arguments():
    parser = argparse.ArgumentParser(description="Writes a version's state at a point of a trace as a core file.")
    parser.add_argument("--program", default="varan")
    parser.add_argument("core")
    script = parser.add_mutually_exclusive_group(required=True)
    for name in ["--script", "--transcript"]:
        script.add_argument(name)
    for name in ["--rules", "--memory", "--budget", "--hang", "--index"]:
        parser.add_argument(name)
    point = parser.add_mutually_exclusive_group(required=True)
    for name in ["--stamp", "--call", "--count"]:
        point.add_argument(name)
    parser.add_argument("trace")
    parser.add_argument("version")
    return parser.parse_args()


def main():
    given = arguments()
    options = [word for name in ["script", "transcript", "rules", "memory", "budget", "hang", "index", "stamp", "call", "count"] if getattr(given, name) for word in (f"--{name}", getattr(given, name))]
    version = Version([given.program, "inspect", *options, given.trace, given.version])
    print(version.at)
    if not version.threads:
        print("core.py: the version has ended there", file=sys.stderr)
        return 1
    words = version.at.split()
    # gdb takes the first thread.
    threads = sorted(version.threads, key=lambda thread: thread.tid != thread_of(words))
    notes = b"".join(status_note(thread, signal_of(words)) for thread in threads)
    memory = regions(pages_of(version, segments_of(given.version), int(given.memory or MEMORY)))
    pathlib.Path(given.core).write_bytes(core_file(notes, memory))
    return 0


sys.exit(main())
