#!/usr/bin/env python3
"""Works out what calls on files, pipes, descriptors and the kernel's own values answer, by a model of its own, and compares with the rows of crates/nv_rows/data.

    bench/call_results.py              says which rows have another report than the model makes, and how many have the same
    bench/call_results.py --print      writes the event of the last call before the exit, of each row, as a table's line has it

The model is written from docs/LINUX.md, docs/REPORT.md and docs/SCRIPT.md and from Linux's manual pages (openat(2), dup3(2), pipe2(2), lseek(2), readv(2), getrandom(2),
clock_gettime(2), clone(2)), and knows nothing of the program. A row counts where its one version makes a table of calls (`makes the calls` in the rows' file `common`) that the
model knows: its data are laid out here, its calls made one after the other, and the whole report is compared. Sockets and threads that run are left out.
Status: 0 where each report is the same, else 1.
"""
import ast
import dataclasses
import pathlib
import re
import struct
import sys

ROWS = pathlib.Path(__file__).resolve().parent.parent / "crates/nv_rows/data"
# In the order in which the rows' program reads them, since a file may include the texts of those before it.
SUBJECTS = ["common", "calls", "memory", "addresses", "flags", "numbers", "files", "files_in_turn"]
ENOENT, EBADF, EAGAIN, EFAULT, EEXIST, ENOTDIR, EINVAL, EMFILE, ENOTTY = 2, 9, 11, 14, 17, 20, 22, 24, 25
EFBIG, ENOSPC, ESPIPE, EPIPE, ERANGE, ENAMETOOLONG, ENOSYS = 27, 28, 29, 32, 34, 36, 38
AT_FDCWD, O_CREAT, O_EXCL, O_TRUNC, O_APPEND, O_NONBLOCK, O_CLOEXEC = 0xFFFFFF9C, 0x40, 0x80, 0x200, 0x400, 0x800, 0x80000
# CLONE_VM, FS, FILES, SIGHAND and THREAD; CLONE_SYSVSEM and SETTLS.
CLONE_NEEDS, CLONE_TAKES = 0x10F00, 0xC0000
DESCRIPTORS, FILES, FILE_SIZE, PIPE_SIZE, MOST_BYTES, MOST_VECTORS, MOST_PATH = 64, 256, 1 << 20, 4096, 4096, 1024, 256
MOST_OFFSET, CONSOLE_SIZE, MOST_THREADS = (1 << 31) - 1, 1 << 24, 8
# What is logged of the arguments: the places of those that are values.
VALUES = {17: [1], 23: [0], 24: [0, 1, 2], 29: [0, 1], 35: [0, 2], 56: [0, 2], 57: [0], 59: [1], 62: [0, 1, 2, 4], 63: [0, 2], 64: [0, 2], 65: [0, 2], 66: [0, 2],
          93: [0], 94: [0], 220: [0], 278: [1, 2], 403: [0]}
IDS = {172: 100, 173: 1, 174: 1000, 175: 1000, 176: 1000, 177: 1000}
# Numbers that the model leaves out: calls of threads and of the heap, which no log has, and sockets.
LEFT_OUT = {96, 98, 124, 178, 214, 198, 200, 201, 202, 242}
CODE, DATA, STACK, MEMORY_SIZE = 0x10000, 0x20000, 0xF0000, 0x100000
# The end of the stack of a version without arguments: the text of argument 0 (docs/GUESTS.md).
STACK_ENDS = b"guest\0"
# `lw a7, 0(s0)`, by RISC-V's format of loads: it stands at the label `next`, behind the two instructions of `la s0, calls`.
AT_NEXT = struct.pack("<I", 0 << 20 | 8 << 15 | 0b010 << 12 | 17 << 7 | 0b0000011)


class Refused(Exception):
    """A call's error."""


class Unknown(Exception):
    """A row that the model doesn't know."""


# The guest's memory.


class Memory:
    """Its data and its stack, which may be read and written, and its code, which may be read."""

    def __init__(self, data):
        self.data = bytearray(data)
        self.parts = [(CODE, bytes(8) + AT_NEXT), (DATA, self.data), (STACK, bytearray(MEMORY_SIZE - STACK - len(STACK_ENDS)) + STACK_ENDS)]

    def part(self, address, length, writes):
        """Where the part begins that has this range, and its bytes."""
        for start, content in self.parts:
            if start <= address and address + length <= start + len(content) and not (writes and start == CODE):
                return start, content
        raise Refused(EFAULT)

    def may(self, address, length, writes):
        if length:
            self.part(address, length, writes)

    def read(self, address, length):
        if not length:
            return b""
        start, content = self.part(address, length, False)
        if address < CODE + 8 or STACK <= address < MEMORY_SIZE - len(STACK_ENDS):
            raise Unknown("reads code or stack that the model hasn't")
        return bytes(content[address - start : address - start + length])

    def write(self, address, got):
        if got:
            start, content = self.part(address, len(got), True)
            content[address - start : address - start + len(got)] = got

    def path(self, address):
        found = b""
        while len(found) < MOST_PATH:
            byte = self.read(address + len(found), 1)
            if byte == b"\0":
                break
            found += byte
        return found

    def vectors(self, address, count, writes):
        """The parts of the vectors as far as 4,096 bytes go."""
        parts, left = [], MOST_BYTES
        for number in range(count if count <= MOST_VECTORS else 0):
            if not left:
                break
            at, size = struct.unpack("<2I", self.read(address + 8 * number, 8))
            parts.append((at, min(size, left)))
            self.may(*parts[-1], writes)
            left -= parts[-1][1]
        return parts


# What descriptors name.


@dataclasses.dataclass
class File:
    data: bytearray


@dataclasses.dataclass
class Pipe:
    data: bytearray = dataclasses.field(default_factory=bytearray)


@dataclasses.dataclass(eq=False)
class Open:
    """An open file; `what` is a File, a Pipe, or the words input and console."""

    what: object
    reads: bool
    writes: bool
    appends: bool = False
    offset: int = 0


class Kernel:
    def __init__(self, script):
        self.script = script
        self.names = {name: File(bytearray(content)) for name, content in script.files.items()}
        self.open = {0: Open("input", True, False), 1: Open("console", False, True), 2: Open("console", False, True)}
        self.input, self.console = script.input, b""
        self.random, self.stamp, self.threads = script.seed, 0, 1

    def free(self):
        """The numbers that aren't open, the least first."""
        return [number for number in range(DESCRIPTORS) if number not in self.open]

    def at(self, fd):
        if fd not in self.open:
            raise Refused(EBADF)
        return self.open[fd]

    def is_open(self, what, **wanted):
        return any(it.what is what and all(getattr(it, name) == value for name, value in wanted.items()) for it in self.open.values())

    def kept(self):
        """The files that have a name or a descriptor."""
        return {id(it) for it in [*self.names.values(), *(it.what for it in self.open.values() if isinstance(it.what, File))]}

    # paths

    def named(self, directory, path):
        if len(path) == MOST_PATH:
            raise Refused(ENAMETOOLONG)
        if not path:
            raise Refused(ENOENT)
        if not path.startswith(b"/") and directory != AT_FDCWD:
            raise Refused(ENOTDIR if directory in self.open else EBADF)
        name = path.lstrip(b"/")
        first, slash, _ = name.partition(b"/")
        if slash:
            raise Refused(ENOTDIR if first in self.names else ENOENT)
        if name in (b"", b".", b".."):
            raise Refused(EINVAL)
        return name

    def openat(self, directory, path, flags):
        name = self.named(directory, path)
        mode = flags & 3
        if mode == 3:
            raise Refused(EINVAL)
        if name in self.names and flags & O_CREAT and flags & O_EXCL:
            raise Refused(EEXIST)
        if name not in self.names and not flags & O_CREAT:
            raise Refused(ENOENT)
        if not self.free():
            raise Refused(EMFILE)
        if name not in self.names and len(self.kept()) >= FILES:
            raise Refused(ENOSPC)
        file = self.names.setdefault(name, File(bytearray()))
        if flags & O_TRUNC and mode:
            file.data.clear()
        number = self.free()[0]
        self.open[number] = Open(file, mode != 1, mode != 0, bool(flags & O_APPEND))
        return number

    def unlinkat(self, directory, path, flags):
        name = self.named(directory, path)
        if flags:
            raise Refused(EINVAL)
        if name not in self.names:
            raise Refused(ENOENT)
        del self.names[name]
        return 0

    # descriptors

    def dup(self, fd):
        opened = self.at(fd)
        if not self.free():
            raise Refused(EMFILE)
        number = self.free()[0]
        self.open[number] = opened
        return number

    def dup3(self, old, new, flags):
        if flags not in (0, O_CLOEXEC) or old == new:
            raise Refused(EINVAL)
        if old not in self.open or new >= DESCRIPTORS:
            raise Refused(EBADF)
        self.open[new] = self.open[old]
        return new

    def close(self, fd):
        self.at(fd)
        del self.open[fd]
        return 0

    def pipe2(self, flags):
        if flags & ~(O_NONBLOCK | O_CLOEXEC):
            raise Refused(EINVAL)
        if len(self.free()) < 2:
            raise Refused(EMFILE)
        pipe, (reading, writing) = Pipe(), self.free()[:2]
        self.open[reading], self.open[writing] = Open(pipe, True, False), Open(pipe, False, True)
        return struct.pack("<2I", reading, writing)

    def ioctl(self, fd):
        self.at(fd)
        raise Refused(ENOTTY)

    def llseek(self, fd, high, low, whence):
        opened = self.at(fd)
        if not isinstance(opened.what, File):
            raise Refused(ESPIPE)
        if whence > 2:
            raise Refused(EINVAL)
        offset = struct.unpack("<q", struct.pack("<2I", low, high))[0] + [0, opened.offset, len(opened.what.data)][whence]
        if not 0 <= offset <= MOST_OFFSET:
            raise Refused(EINVAL)
        opened.offset = offset
        return struct.pack("<q", offset)

    # bytes

    def read(self, fd, most):
        if fd not in self.open or not self.open[fd].reads:
            raise Refused(EBADF)
        opened = self.open[fd]
        if opened.what == "input":
            got, self.input = self.input[:most], self.input[most:]
        elif isinstance(opened.what, File):
            got = bytes(opened.what.data[opened.offset : opened.offset + most])
            opened.offset += len(got)
        else:
            got = bytes(opened.what.data[:most])
            if most and not got and self.is_open(opened.what, writes=True):
                raise Refused(EAGAIN)
            del opened.what.data[:most]
        return got

    def write(self, fd, sent):
        if fd not in self.open or not self.open[fd].writes:
            raise Refused(EBADF)
        opened = self.open[fd]
        if not sent:
            return 0
        if opened.what == "console":
            sent = sent[: CONSOLE_SIZE - len(self.console)]
            if not sent:
                raise Refused(ENOSPC)
            self.console += sent
        elif isinstance(opened.what, File):
            sent = self.write_file(opened, sent)
        else:
            self.write_pipe(opened.what, sent)
        return len(sent)

    def write_file(self, opened, sent):
        at = len(opened.what.data) if opened.appends else opened.offset
        if at >= FILE_SIZE:
            raise Refused(EFBIG)
        sent, data = sent[: FILE_SIZE - at], opened.what.data
        data.extend(bytes(max(at - len(data), 0)))
        data[at : at + len(sent)] = sent
        opened.offset = at + len(sent)
        return sent

    def write_pipe(self, pipe, sent):
        if not self.is_open(pipe, reads=True):
            raise Refused(EPIPE)
        if len(pipe.data) + len(sent) > PIPE_SIZE:
            raise Refused(EAGAIN)
        pipe.data += sent

    # the kernel's own

    def getrandom(self, count):
        got = b""
        for _ in range(count):
            self.random = (self.random * 0x5851F42D4C957F2D + 0x14057B7EF767814F) % (1 << 64)
            got += bytes([self.random >> 56])
        return got

    def clock(self, number):
        if number > 1:
            raise Refused(EINVAL)
        start, nanoseconds, step = self.script.clock
        return struct.pack("<2Q", *divmod(start * 10**9 + nanoseconds + self.stamp * step, 10**9))

    def clone(self, flags):
        if flags & CLONE_NEEDS != CLONE_NEEDS or flags & ~(CLONE_NEEDS | CLONE_TAKES):
            raise Refused(EINVAL)
        if self.threads == MOST_THREADS:
            raise Refused(EAGAIN)
        self.threads += 1
        return 99 + self.threads


# A call with its bytes.


@dataclasses.dataclass
class Event:
    nr: int
    args: list
    ret: int = 0
    sent: bytes = b""
    got: bytes = b""

    def line(self):
        payload = (self.sent + self.got).hex()
        return " ".join(map(str, [self.nr, *self.args, "=", self.ret, ":", *([payload] if payload else [])]))


def serve(kernel, memory, nr, given):
    """The event of a call, whose answer is in the memory afterwards."""
    event = Event(nr, [value if at in VALUES.get(nr, []) else 0 for at, value in enumerate(given)])
    try:
        places = ranges(memory, event, given)
        event.ret = answer(kernel, event, given)
    except Refused as refused:
        event.ret = -refused.args[0]
        return event
    got = event.got
    for address, size in places:
        memory.write(address, got[:size])
        got = got[size:]
    return event


def ranges(memory, event, given):
    """Looks at the call's addresses before all else: what it hands in is put into the event, and where its answer's bytes go is returned."""
    a, b, c, d, *_ = given
    places = {17: [(a, min(b, 2))], 59: [(a, 8)], 62: [(d, 8)], 63: [(b, min(c, MOST_BYTES))], 160: [(a, 390)], 278: [(a, min(b, MOST_BYTES))], 403: [(b, 16)]}.get(event.nr, [])
    if event.nr in (35, 56):
        event.sent = memory.path(b)
    elif event.nr == 64:
        event.sent = memory.read(b, min(c, MOST_BYTES))
    elif event.nr == 66:
        event.sent = b"".join(memory.read(*part) for part in memory.vectors(b, c, False))
    elif event.nr == 65:
        places = memory.vectors(b, c, True)
        event.args[3] = sum(size for _, size in places)
    for place in places:
        memory.may(*place, True)
    return places


def answer(kernel, event, given):
    """The result; bytes that come go to the event."""
    a, b, c, *rest = given
    match event.nr:
        case 17:
            if b < 2:
                raise Refused(ERANGE)
            event.got = b"/\0"
            return 2
        case 23:
            return kernel.dup(a)
        case 24:
            return kernel.dup3(a, b, c)
        case 29:
            return kernel.ioctl(a)
        case 35:
            return kernel.unlinkat(a, event.sent, c)
        case 56:
            return kernel.openat(a, event.sent, c)
        case 57:
            return kernel.close(a)
        case 59:
            event.got = kernel.pipe2(b)
        case 62:
            event.got = kernel.llseek(a, b, c, rest[1])
        case 63 | 65:
            if event.nr == 65 and c > MOST_VECTORS:
                raise Refused(EINVAL)
            event.got = kernel.read(a, min(c, MOST_BYTES) if event.nr == 63 else event.args[3])
            return len(event.got)
        case 64 | 66:
            if event.nr == 66 and c > MOST_VECTORS:
                raise Refused(EINVAL)
            return kernel.write(a, event.sent)
        case 160:
            fields = ["Linux", "varan", "5.15.0", "#1", "riscv32", "(none)"]
            event.got = b"".join(field.encode().ljust(65, b"\0") for field in fields)
        case 220:
            return kernel.clone(a)
        case 278:
            event.got = kernel.getrandom(min(b, MOST_BYTES))
            return len(event.got)
        case 403:
            event.got = kernel.clock(a)
        case 94:
            pass
        case nr if nr in IDS:
            return IDS[nr]
        case nr if nr in LEFT_OUT | {93}:
            raise Unknown(f"call {nr}")
        case _:
            raise Refused(ENOSYS)
    return 0


# Rows as text (crates/nv_rows/data/README.md).


class Texts:
    def __init__(self):
        self.known = {}

    def expanded(self, text, count=0):
        def stands_for(sign):
            word = sign[1]
            if word == b"n":
                return b"\n"
            if word == b"#":
                return str(count).encode()
            return bytes([int(word[1:], 16)]) if word.startswith(b"x") else self.known[word[1:-1]]

        return re.sub(rb"\$(n|#|x[0-9a-f]{2}|\[[^\]]*\])", stands_for, text)

    def line(self, text, count=0):
        return self.expanded(text[:-1], count) if text.endswith(b"$") else self.expanded(text, count) + b"\n"

    def content(self, lines):
        out = b""
        for line in lines:
            word, _, rest = line.partition(b" ")
            if line.startswith(b"|"):
                out += self.line(line[1:])
            elif line.startswith(b"*"):
                out += b"".join(self.line(rest, count) for count in range(int(word[1:])))
            else:
                numbers = self.expanded(rest).split(b" ")
                out += b"".join({b"hex": bytes.fromhex, b"word": lambda it: bytes.fromhex(it)[::-1], b"int": lambda it: struct.pack("<i", int(it))}[word](it.decode()) for it in numbers)
        return out


def entries(path):
    """Each entry of a file: its fields, each with its content."""
    entry = []
    for line in path.read_bytes().split(b"\n"):
        if not line or line.startswith(b"#"):
            continue
        word, _, rest = line.partition(b" ")
        if word in (b"row", b"text"):
            if entry:
                yield entry
            entry = [(word, rest, [])]
        elif line[:1] in b"|*" or word in (b"hex", b"word", b"int"):
            entry[-1][2].append(line)
        else:
            entry.append((word, rest, []))
    yield entry


def rows_of(path, texts):
    """Each row of a file, by its name and its fields, with what their texts stand for. One with a table is a row for each of its lines."""
    for (word, name, content), *fields in entries(path):
        if word == b"text":
            texts.known[name] = texts.content(content)
            continue
        tables = [content for field, _, content in fields if field == b"each"]
        heads = [rest for field, rest, _ in fields if field == b"each"]
        fields = [it for it in fields if it[0] != b"each"]
        for line in tables[0] if tables else [None]:
            before = dict(texts.known)
            if line is not None:
                columns = [it.strip() for it in line[1:].split(b"|")]
                texts.known.update({head.strip(): texts.expanded(it) for head, it in zip(heads[0].split(b"|"), columns, strict=True)})
            yield f"{path.name}: {name.decode()} {line.decode() if line else ''}".strip(), [(it, texts.expanded(rest), texts.content(content)) for it, rest, content in fields]
            texts.known = before


# A row's script and its version.


@dataclasses.dataclass
class Script:
    files: dict
    input: bytes = b""
    seed: int = 0
    clock: tuple = (0, 0, 0)


def script_of(text):
    script = Script({})
    for line in text.split(b"\n"):
        word, _, rest = line.partition(b" ")
        if word == b"file":
            name, _, digits = rest.partition(b" ")
            script.files[name] = bytes.fromhex(digits.decode())
        elif word == b"input":
            script.input += bytes.fromhex(rest.decode())
        elif word == b"line":
            script.input += rest + b"\n"
        elif word == b"random":
            script.seed = int(rest)
        elif word == b"clock":
            script.clock = tuple(map(int, rest.split()))
        elif word and line != b"varan-script 1":
            raise Unknown(f"script: {line.decode()}")
    return script


def data_of(text):
    """The bytes of the data of an assembler text, and its labels."""
    labels, out, later, is_data = {"next": CODE + 8}, bytearray(), [], False
    for line in text.decode("latin-1").split("\n"):
        line = re.sub(r"\s+#[^\"]*$", "", line).strip()
        if line in (".data", ".text"):
            is_data = line == ".data"
            continue
        if not is_data or not line:
            continue
        found = re.fullmatch(r"(?:(\w+):)?\s*(?:\.(\w+)\s+(.*))?", line)
        if not found:
            raise Unknown(f"data: {line}")
        label, kind, rest = found.groups()
        if kind == "word":
            out.extend(bytes(-len(out) % 4))
        if label:
            labels[label] = DATA + len(out)
        if kind == "ascii":
            out += ast.literal_eval("b" + rest)
        elif kind == "zero":
            out += bytes(int(rest, 0))
        elif kind == "byte":
            out += bytes(int(it, 0) & 0xFF for it in rest.split(","))
        elif kind == "word":
            later += [(len(out) + 4 * at, it.strip()) for at, it in enumerate(rest.split(","))]
            out += bytes(4 * len(rest.split(",")))
        elif kind:
            raise Unknown(f"data: {line}")
    for at, word in later:
        value = labels[word] if word in labels else int(word, 0)
        out[at : at + 4] = struct.pack("<I", value % (1 << 32))
    return bytes(out), labels


def report_of(script, text):
    """The report of a run of the one version, and its events."""
    if b"next: lw a7, 0(s0)" not in text or b"sw a0" in text:
        raise Unknown("another version")
    data, labels = data_of(text)
    kernel, memory, events, at = Kernel(script), Memory(data), [], labels["calls"] - DATA
    while True:
        nr, *given = struct.unpack_from("<6I", memory.data, at) if struct.unpack_from("<I", memory.data, at)[0] else (94, 0, 0, 0, 0, 0)
        events.append(serve(kernel, memory, nr, [*given, 0]))
        kernel.stamp += 1
        at += 24
        if nr == 94:
            break
    log = "".join(f"{place} 100 {event.line()}\n" for place, event in enumerate(events))
    head = f"output {len(kernel.console)}\n".encode() + kernel.console
    count = len(events)
    return head + f"\nlog {count}\n{log}fates 1\n0 exited {events[-1].args[0] & 0xFF} seen {count} led 0-{count} rewrites 0\n".encode(), events


def is_wanted(report, fields):
    """Whether the report is what the row wants."""
    looks = {b"out": lambda it: report == it, b"begins": report.startswith, b"ends": report.endswith}
    return all(looks[word](content) for word, _, content in fields if word in looks)


def main(words):
    if words not in ([], ["--print"]):
        sys.exit(__doc__)
    texts, same, left, wrong = Texts(), 0, 0, 0
    for subject in SUBJECTS:
        for name, fields in rows_of(ROWS / subject, texts):
            given = {word: content for word, _, content in fields}
            try:
                if {b"words": rest for word, rest, _ in fields if word == b"words"} != {b"words": b"varan run --script s v"} or b"asm" not in given:
                    raise Unknown("other words, or another version")
                report, events = report_of(script_of(given[b"file"]), given[b"asm"])
            except Unknown:
                left += 1
                continue
            if words:
                print(f"{name}: {events[max(len(events) - 2, 0)].line()}")
            if is_wanted(report, fields):
                same += 1
            else:
                wrong += 1
                print(f"call_results.py: {name}: the model has {events[max(len(events) - 2, 0)].line()[:200]}")
    print(f"call_results.py: {same} rows have what the model makes, {wrong} have not; {left} are of other words and versions")
    return 1 if wrong else 0


if __name__ == "__main__":
    sys.exit(main(sys.argv[1:]))
