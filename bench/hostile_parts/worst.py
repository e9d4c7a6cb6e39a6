"""The largest work that a file or a guest may ask for within the limits, at two or more sizes: time is to grow in step with the size."""
import itertools
import struct

from hostile_parts.guests import image, made_line
from hostile_parts.program import MIB, write, write_all
from hostile_parts.readers import Event, Wrong, trace_of

SCRIPT = b"varan-script 1\n"
CALLS = ["--calls", "131072", "--budget", "1000000000"]
MOST = 131_072
FILE = 4_194_304
EXIT = "li a0, 0\nli a7, 94\necall\n"

# At 0x1F000: `auipc s1, 0`, `lw t0, 10(s1)`, and for ever `sw t0, 10(s1)`, which writes over the half of itself and of what follows, and a jump back to it.
WRITES_OVER_ITSELF = [0x00000497, 0x00A4A283, 0x0054A523, 0xFFDFF06F]


class Compared:
    """Compares what is written, piece by piece, with the pieces that are due."""

    def __init__(self, due):
        self.due, self.rest, self.size, self.fault = iter(due), b"", 0, None

    def take(self, piece):
        self.size += len(piece)
        while piece and not self.fault:
            if not self.rest:
                self.rest = next(self.due, None)
                if self.rest is None:
                    self.fault = f"more than is due: {piece[:60]!r}"
                    return
            count = min(len(piece), len(self.rest))
            if piece[:count] != self.rest[:count]:
                self.fault = f"at byte {self.size - len(piece)}: {piece[:60]!r}, due {self.rest[:60]!r}"
            piece, self.rest = piece[count:], self.rest[count:]

    def end(self):
        if self.fault:
            raise Wrong(self.fault)
        if self.rest or next(self.due, None):
            raise Wrong(f"only {self.size} bytes of what is due")


def event(place, nr, arguments, ret, payload=b""):
    """A line of the log, of thread 100."""
    padded = " ".join(str(value) for value in [*arguments, *[0] * (6 - len(arguments))])
    return f"{place} 100 {nr} {padded} = {ret} :{' ' + payload.hex() if payload else ''}\n".encode()


def report(output, count, events, fates):
    """The pieces of a report; `events` gives the number, arguments, result and payload of each."""
    yield b"output %d\n" % len(output)
    yield output
    yield b"\nlog %d\n" % count
    block = []
    for place, (nr, arguments, ret, *payload) in enumerate(events):
        block.append(event(place, nr, arguments, ret, *payload))
        if len(block) == 16:
            yield b"".join(block)
            block = []
    yield b"".join(block)
    yield b"fates %d\n" % len(fates) + b"".join(b"%d %s\n" % (i, fate.encode()) for i, fate in enumerate(fates))


def loop(count, body, before=""):
    return f"{before}li s0, {count}\nagain: {body}addi s0, s0, -1\nbne s0, zero, again\n"


def many_segments(words, rights=5):
    """A version of 16 segments, a page apart, with the code in the last at 0x1F000, which has these rights."""
    code = struct.pack(f"<{len(words)}I", *words)
    head = image([])[:24] + struct.pack("<I", 0x1F000) + image([])[28:44] + struct.pack("<HHHH", 16, 0, 0, 0)
    table = b"".join(
        struct.pack("<IIIIIIII", 1, 52 + 16 * 32, 0x10000 + 0x1000 * i, 0, len(code), len(code), rights if i == 15 else 6, 4) for i in range(16))
    return head + table + code


def code_of(file, size):
    """The same version, of one segment, which has so many bytes and may be read, written and executed."""
    return file[:72] + struct.pack("<II", size, 7) + file[80:]


def available():
    with open("/proc/meminfo") as file:
        return next(int(line.split()[1]) * 1024 for line in file if line.startswith("MemAvailable"))


class Worst:
    def __init__(self, program, tally):
        self.program, self.tally = program, tally
        self.rows = []

    def assembled(self, name, text):
        write("a", text.encode())
        answer = self.program.run(["asm", "a"])
        if answer.status != 0:
            raise SystemExit(f"the harness's own text is refused: {answer.text!r}")
        write(name, answer.text)

    def row(self, name, size, words, due, status=0, space=1024 * MIB, payload=None):
        """Runs the words, compares what is written with what is due, and tells time and memory."""
        compared = Compared(due)
        answer = self.program.run(words, space=space, clock=600, take=compared.take)

        def look(answer):
            if answer.status != status:
                raise Wrong(f"not {status}")
            compared.end()

        self.tally.add("worst", words, answer, look)
        share = f"{answer.resident / payload:8.3f}" if payload else ""
        below = "<" if answer.resident <= 1.02 * answer.floor else " "
        print(f"{name:58}{size:>12}{answer.processor:9.2f}   {below}{answer.resident / MIB:7.1f}{share}", flush=True)

    def words(self):
        for count in (20_000, 40_000, 80_000):
            for name, word in (("versions", "v"), ("flags", "--json"), ("options that aren't there", "--nothing")):
                self.row(f"words: {name}", count, ["run", "--script", "s", *[word] * count], [b"varan: usage\n"], status=2)

    # Files and descriptors

    def files(self):
        """256 files whose names of 255 bytes differ in the last three; all descriptors in use, as files and as pipes; then the last file again and again."""
        names = [b"n" * 252 + b"%03d" % i for i in range(256)]
        script = SCRIPT + b"".join(b"file %s %s\n" % (name, b"61" * 7_800) for name in names)
        write("s", script)
        here, full = names[-1], [(56, [4294967196, 0, 2], -24, names[-1])]
        first = [(56, [4294967196, 0, 2], fd, here) for fd in range(3, 64)] + full + [(57, [fd], 0) for fd in range(3, 64)]
        first += [(59, [], 0, bytes([fd, 0, 0, 0, fd + 1, 0, 0, 0])) for fd in range(3, 63, 2)] + [(59, [], -24)]
        first += [(64, [fd, 0, 4096], 4096, b"\0" * 4096) for fd in range(4, 64, 2)] + [(64, [4, 0, 1], -11, b"\0")]
        first += [(57, [fd], 0) for fd in range(3, 63)] + [(56, [4294967196, 0, 66], -28, b"new")]
        for count in (10_000, 20_000, 40_000):
            self.assembled("v", f"""
                la s1, last
                la s2, place
                li s0, 62
                open: li a0, -100
                mv a1, s1
                li a2, 2
                li a7, 56
                ecall
                addi s0, s0, -1
                bne s0, zero, open
                li s0, 3
                li s3, 64
                close: mv a0, s0
                li a7, 57
                ecall
                addi s0, s0, 1
                bne s0, s3, close
                li s0, 31
                pipe: addi a0, s2, 0
                li a1, 0
                li a7, 59
                ecall
                addi s0, s0, -1
                bne s0, zero, pipe
                sw zero, 0(s2)
                sw zero, 4(s2)
                li s0, 4
                fill: mv a0, s0
                mv a1, s2
                li a2, 4096
                li a7, 64
                ecall
                addi s0, s0, 2
                bne s0, s3, fill
                li a0, 4
                li a2, 1
                ecall
                li s0, 3
                li s3, 63
                shut: mv a0, s0
                li a7, 57
                ecall
                addi s0, s0, 1
                bne s0, s3, shut
                li a0, -100
                la a1, new
                li a2, 66
                li a7, 56
                ecall
                {loop(count, '''li a0, -100
                mv a1, s1
                li a2, 0
                li a7, 56
                ecall
                li a7, 57
                ecall
                ''')}
                {EXIT}
                .data
                last: .ascii "{here.decode()}\\0"
                new: .ascii "new\\0"
                place: .zero 4096
            """)
            events = itertools.chain(first, itertools.islice(itertools.cycle([(56, [4294967196, 0, 0], 3, here), (57, [3], 0)]), 2 * count), [(94, [0], 0)])
            length = len(first) + 2 * count + 1
            due = report(b"", length, events, [f"exited 0 seen {length} led 0-{length} rewrites 0"])
            self.row("256 files, 64 descriptors, openat and close", count, ["run", "--script", "s", *CALLS, "v"], due)

    # Rules

    def rules(self):
        """A filter of 4,096 instructions, nearly all divisions, behind each event; and by a follower that only makes calls which it has to answer."""
        write("s", SCRIPT)
        write("r", b"4096\n1 0 0 1\n" + b"60 0 0 0\n" * 4094 + b"6 0 0 2147418112\n")
        for count in (10_000, 20_000, 40_000):
            self.assembled("v", loop(count, "li a7, 177\necall\n") + EXIT)
            self.assembled("w", loop(count, "li a7, 174\necall\nli a7, 177\necall\n") + EXIT)
            length = count + 1
            events = itertools.chain(itertools.repeat((177, [], 1000), count), [(94, [0], 0)])
            fates = [f"exited 0 seen {length} led 0-{length} rewrites 0", f"exited 0 seen {length} led - rewrites {count}"]
            self.row("4,096 instructions of a rule, an event", count, ["run", "--script", "s", "--rules", "r", *CALLS, "v", "w"], report(b"", length, events, fates))
        self.assembled("v", EXIT)
        self.assembled("w", "li a7, 174\nagain: ecall\nj again\n")
        for budget in (20_000, 40_000, 80_000):
            fates = ["exited 0 seen 1 led 0-1 rewrites 0", f"fault budget 100 00010008 seen 0 led - rewrites {budget // 2 - 1}"]
            words = ["run", "--script", "s", "--rules", "r", "--budget", str(budget), "v", "w"]
            self.row("4,096 instructions of a rule, two of a budget", budget, words, report(b"", 1, [(94, [0], 0)], fates))

    # Texts

    def texts(self):
        """Assembler, rule and script texts up to the limit of length."""
        self.assembled("v", EXIT)
        for size in (FILE // 4, FILE // 2, FILE):
            self.assembler_texts(size)
            self.rule_texts(size)
            self.scripts(size)
        write_all("x", [b"nop\nx:.byte 0", *itertools.repeat(b",0", (FILE - 14) // 2), b"\n"])
        self.row("asm: more bytes on a line than there is room", FILE, ["asm", "x"], [b"varan: input x: line 2 range\n"], status=4)

    def assembler_texts(self, size):
        write_all("x", itertools.repeat(b"a:\n", size // 3))
        self.row("asm: one label on each line", size, ["asm", "x"], [b"varan: input x: line 2 twice\n"], status=4)
        count = size // 440
        label = b"L" * 210 + b"%07d"
        write_all("x", itertools.chain(((label + b": j " + label + b"\n") % (i, i + 1) for i in range(count)), [label % count + b":nop\n"]))
        self.row("asm: labels with a common front, each used", size, ["asm", "x"], [image([0x0040006F] * count + [0x00000013])])
        write_all("x", itertools.chain((b"a%06x:\n" % (i * 0x9E3779 % 0x1000000) for i in range(size // 9 - 1)), [b"nop\n"]))
        self.row("asm: short labels, in no order", size, ["asm", "x"], [image([0x00000013])])

    def rule_texts(self, size):
        write_all("x", itertools.repeat(b"a: ret #0\n", size // 10))
        self.row("rules --asm: one label on each line", size, ["rules", "--asm", "x"], [b"varan: input x: line 2 twice\n"], status=4)
        write_all("x", itertools.chain((b"L" * 200 + b"%07d:\n" % i for i in range(size // 209 - 1)), [b"ret #0\n"]))
        self.row("rules --asm: labels with a common front", size, ["rules", "--asm", "x"], [b"1\n6 0 0 0\n"])
        write_all("x", itertools.repeat(b"ret #0\n", size // 7))
        self.row("rules --asm: too many instructions", size, ["rules", "--asm", "x"], [b"varan: input x: too long\n"], status=4)
        write_all("x", itertools.chain([b"4096\n"], itertools.repeat(b"6 0 0 " + b"0" * (size // 4096 - 9) + b"7\n", 4096)))
        self.row("rules: numbers of many zeros", size, ["rules", "x"], [b"ok 4096\n"])

    def scripts(self, size):
        quiet = [*report(b"", 1, [(94, [0], 0)], ["exited 0 seen 1 led 0-1 rewrites 0"])]
        write_all("x", itertools.chain([SCRIPT], itertools.repeat(b"line \n", (size - len(SCRIPT)) // 6)))
        self.row("script: empty lines of input", size, ["run", "--script", "x", "v"], quiet)
        write_all("x", itertools.chain([SCRIPT, b"input "], itertools.repeat(b"61", (size - len(SCRIPT) - 6) // 2)))
        self.row("script: one line of input", size, ["run", "--script", "x", "v"], quiet)

    # Versions

    def last_event(self):
        """Eight versions that differ in the last event alone, refused there; and eight of which seven break there."""
        write("s", SCRIPT)
        for count in (MOST // 4, MOST // 2, MOST):
            before = loop(count - 1, "li a7, 174\necall\n")
            for i in range(8):
                self.assembled(f"v{i}", before + f"li a0, {i}\nli a7, 94\necall\n")
                self.assembled(f"w{i}", before + ("ebreak\n" if i < 7 else EXIT))
            events = itertools.chain(itertools.repeat((174, [], 1000), count - 1), [(94, [0], 0)])
            fates = [f"exited 0 seen {count} led 0-{count} rewrites 0"] + [f"refused 100 94 {count - 1} 00000000 seen {count - 1} led - rewrites 0"] * 7
            self.row("8 versions, the last event differs", count, ["run", "--script", "s", *CALLS, *[f"v{i}" for i in range(8)]], report(b"", count, events, fates))
            events = itertools.chain(itertools.repeat((174, [], 1000), count - 1), [(94, [0], 0)])
            broke = "fault breakpoint 100 0001001c"
            fates = [f"{broke} seen {count - 1} led 0-{count - 1} rewrites 0"] + [f"{broke} seen {count - 1} led {count - 1}-{count - 1} rewrites 0"] * 6
            fates += [f"exited 0 seen {count} led {count - 1}-{count} rewrites 0"]
            due = report(b"", count, events, fates)
            self.row("8 versions, seven break at the last event", count, ["run", "--script", "s", *CALLS, *[f"w{i}" for i in range(8)]], due)

    def handed(self):
        """Eight versions and eight planned lengths, the last at the last event: each leads once, and the first again at the end."""
        for count in (MOST // 4, MOST // 2, MOST):
            lengths = [count // 8 * i for i in range(1, 8)] + [count - 1]
            write("s", b"varan-script 2\n" + b"".join(b"hand %d\n" % length for length in lengths))
            self.assembled("v", loop(count - 1, "li a7, 174\necall\n") + EXIT)
            events = itertools.chain(itertools.repeat((174, [], 1000), count - 1), [(94, [0], 0)])
            spans = [f"{start}-{end}" for start, end in zip([0, *lengths], [*lengths, count])]
            led = [f"{spans[0]},{spans[8]}", *spans[1:8]]
            fates = [f"exited 0 seen {count} led {part} rewrites 0" for part in led]
            self.row("8 versions, 8 planned lengths", count, ["run", "--script", "s", *CALLS, *["v"] * 8], report(b"", count, events, fates))
            quiet = [Event(100, 174, [0] * 6, 0, 1000, b"", b"")] * (count - 1) + [Event(100, 94, [0] * 6, 0, 0, b"", b"")]
            trace = trace_of(quiet)
            self.row("record, 8 versions, 8 planned lengths", count, ["record", "--script", "s", *CALLS, *["v"] * 8], [trace])
            write("t", trace)
            self.row("replay of a whole log", count, ["replay", "--script", "s", "t", "v"], [b"replay exited 0 seen %d rewrites 0\n" % count])

    def traces(self):
        """Traces up to the limit of length: of the largest payloads, and ones that break at the last byte."""
        write("s", SCRIPT)
        self.assembled("v", EXIT)
        for count in (4_000, 8_000, 16_000):
            written = [Event(100, 64, [1, 0, 4096, 0, 0, 0], 0, 4096 if i < 4096 else -28, b"a" * 4096, b"") for i in range(count)]
            trace = trace_of(written)
            write("t", trace)
            refused = [b"replay refused 100 94 0 00000000 seen 0 rewrites 0\n"]
            self.row("replay of writes of 4,096 bytes", count, ["replay", "--script", "s", "t", "v"], refused, status=1, payload=count * 4096)
            write("t", trace[:-1])
            self.row("a trace cut at its last byte", count, ["replay", "--script", "s", "t", "v"], [b"varan: input t: short %d\n" % (count - 1)], status=4)

    def large_versions(self):
        """Eight versions of the largest file in the largest memory."""
        write("s", SCRIPT)
        write("v", image([0x05E00893, 0x00000073], b"\0" * (FILE - 92)))
        fates = ["exited 0 seen 1 led 0-1 rewrites 0"] + ["exited 0 seen 1 led - rewrites 0"] * 7
        self.row("8 versions of 4 MiB in 16 MiB", 8, ["run", "--script", "s", "--memory", "16777216", *["v"] * 8], report(b"", 1, [(94, [0], 0)], fates))

    def versions_of_code(self):
        """Eight versions in the largest memory, of which all but the stack is one range that may be executed and written."""
        write("s", SCRIPT)
        write("v", code_of(image([0x05E00893, 0x00000073]), 16 * MIB - 65_536 - 0x10000))
        fates = ["exited 0 seen 1 led 0-1 rewrites 0"] + ["exited 0 seen 1 led - rewrites 0"] * 7
        self.row("8 versions of 16 MiB of code", 8, ["run", "--script", "s", "--memory", "16777216", *["v"] * 8], report(b"", 1, [(94, [0], 0)], fates))

    # Calls

    def payloads(self):
        """The largest payload in each call: the log's memory beside its payload."""
        write("s", SCRIPT)
        block = b"a" * 4096
        for count in (MOST // 8, MOST // 4, MOST):
            ascii = ".data\nplace: " + f".ascii \"{'a' * 64}\"\n" * 64
            self.assembled("v", loop(count - 1, "li a0, 1\nli a7, 64\necall\n", "la a1, place\nli a2, 4096\n") + EXIT + ascii)
            fit = min(count - 1, 4096)
            written = itertools.chain(itertools.repeat(4096, fit), itertools.repeat(-28, count - 1 - fit))
            events = itertools.chain(((64, [1, 0, 4096], ret, block) for ret in written), [(94, [0], 0)])
            words = ["run", "--script", "s", *CALLS, "v"]
            payload = (count - 1) * 4096
            due = report(block * fit, count, events, [f"exited 0 seen {count} led 0-{count} rewrites 0"])
            self.row("write of 4,096 bytes", count, words, due, space=8192 * MIB, payload=payload)
            self.json(count, fit, words, payload)
        for count in (MOST // 8, MOST // 4, MOST):
            self.assembled("v", "la a0, place\nli a1, 0\nli a7, 59\necall\n" + loop(count - 2, "li a0, 3\nli a7, 63\necall\n", "la a1, place\nli a2, 4096\n")
                           + EXIT + ".data\nplace: .zero 4096\n")
            events = itertools.chain([(59, [], 0, bytes([3, 0, 0, 0, 4, 0, 0, 0]))], itertools.repeat((63, [3, 0, 4096], -11), count - 2), [(94, [0], 0)])
            due = report(b"", count, events, [f"exited 0 seen {count} led 0-{count} rewrites 0"])
            self.row("read of 4,096 bytes that gets none", count, ["run", "--script", "s", *CALLS, "v"], due, space=8192 * MIB)

    def json(self, count, fit, words, payload):
        if count == MOST and available() < 10_240 * MIB:
            print("write of 4,096 bytes, JSON: left out, less than 10 GiB of memory are available")
            return
        hexed = b"61" * 4096

        def due():
            yield b'{"fates":[{"code":0,"fate":"exited","led":[[0,%d]],"rewrites":0,"seen":%d}],"log":[' % (count, count)
            for place in range(count - 1):
                ret = 4096 if place < fit else -28
                yield b'{"args":[1,0,4096,0,0,0],"nr":64,"payload":"%s","ret":%d,"stamp":%d,"tid":100},' % (hexed, ret, place)
            yield b'{"args":[0,0,0,0,0,0],"nr":94,"payload":"","ret":0,"stamp":%d,"tid":100}],"output":"' % (count - 1)
            for _ in range(fit):
                yield hexed
            yield b'"}\n'

        self.row("write of 4,096 bytes, JSON", count, [*words[:1], "--json", *words[1:]], due(), space=10_240 * MIB, payload=payload)

    def vectors(self):
        """Calls over 1,024 vectors of no bytes."""
        write("s", SCRIPT)
        for count in (MOST // 4, MOST // 2, MOST):
            self.assembled("v", loop(count - 1, "li a0, 1\nli a7, 66\necall\n", "la a1, place\nli a2, 1024\n") + EXIT + ".data\nplace: .zero 8192\n")
            events = itertools.chain(itertools.repeat((66, [1, 0, 1024], 0), count - 1), [(94, [0], 0)])
            due = report(b"", count, events, [f"exited 0 seen {count} led 0-{count} rewrites 0"])
            self.row("writev of 1,024 empty parts", count, ["run", "--script", "s", *CALLS, "v"], due)

    def gaps(self):
        """A file that is emptied and then written at its last place, so that all before it becomes 0 again."""
        write("s", SCRIPT)
        last = 1_048_575
        body = f"""li a0, -100
            la a1, name
            li a2, 578
            li a7, 56
            ecall
            mv s1, a0
            li a1, 0
            li a2, {last}
            la a3, place
            li a4, 0
            li a7, 62
            ecall
            mv a0, s1
            la a1, name
            li a2, 1
            li a7, 64
            ecall
            mv a0, s1
            li a7, 57
            ecall
            """
        again = [(56, [4294967196, 0, 578], 3, b"f"), (62, [3, 0, last, 0, 0], 0, last.to_bytes(8, "little")), (64, [3, 0, 1], 1, b"f"), (57, [3], 0)]
        for count in (2_500, 5_000, 10_000):
            self.assembled("v", loop(count, body) + EXIT + '.data\nname: .ascii "f\\0"\nplace: .zero 8\n')
            events = itertools.chain(itertools.islice(itertools.cycle(again), 4 * count), [(94, [0], 0)])
            length = 4 * count + 1
            due = report(b"", length, events, [f"exited 0 seen {length} led 0-{length} rewrites 0"])
            self.row("a write 1 MiB behind a file's end", count, ["run", "--script", "s", *CALLS, "v"], due)

    # Instructions

    def instructions(self):
        """What a guest may do between two calls of the log: calls that aren't logged, threads that hand over, and the break moved to and fro."""
        write("s", SCRIPT)
        for budget in (5_000_000, 10_000_000, 20_000_000):
            self.assembled("v", "again: j again\n")
            due = report(b"", 0, [], ["fault budget 100 00010000 seen 0 led 0-0 rewrites 0"])
            self.row("a jump to itself", budget, ["run", "--script", "s", "--budget", str(budget), "v"], due, status=1)
            self.assembled("v", "li a7, 178\nagain: ecall\nj again\n")
            due = report(b"", 0, [], ["fault budget 100 00010008 seen 0 led 0-0 rewrites 0"])
            self.row("gettid, which isn't logged", budget, ["run", "--script", "s", "--budget", str(budget), "v"], due, status=1)
            write("v", many_segments([0x00012283, 0xFFDFF06F]))
            due = report(b"", 0, [], ["fault budget 100 0001f000 seen 0 led 0-0 rewrites 0"])
            self.row("16 segments: a load from the stack, a jump", budget, ["run", "--script", "s", "--budget", str(budget), "v"], due, status=1)
            write("v", many_segments(WRITES_OVER_ITSELF, rights=7))
            due = report(b"", 0, [], ["fault budget 100 0001f008 seen 0 led 0-0 rewrites 0"])
            self.row("16 segments: a store over itself and over its jump", budget, ["run", "--script", "s", "--budget", str(budget), "v"], due, status=1)
        for memory, count in ((1 << 20, 500), (1 << 22, 500), (1 << 24, 500), (1 << 24, 1_000), (1 << 24, 2_000)):
            self.moved_break(memory, count)
        for count in (500, 1_000, 2_000):
            self.moved_break_behind_code(count)

    def moved_break(self, memory, count):
        top = memory - 65_536
        self.assembled("v", "li a0, 0\nli a7, 214\necall\nmv s1, a0\n" + loop(count, f"li a0, {top}\necall\nmv a0, s1\necall\n") + EXIT)
        due = report(b"", 1, [(94, [0], 0)], ["exited 0 seen 1 led 0-1 rewrites 0"])
        self.row(f"brk up and down, {memory // MIB} MiB", count, ["run", "--script", "s", "--memory", str(memory), "v"], due)

    def moved_break_behind_code(self, count):
        """Half of the memory is code, of which an instruction is written anew each time that the break goes up over the other half and down."""
        top = 16 * MIB - 65_536
        body = f"li a0, {top}\necall\nsw t0, 0(s2)\nwritten: nop\nmv a0, s1\necall\n"
        self.assembled("v", "li a0, 0\nli a7, 214\necall\nmv s1, a0\nla s2, written\nlw t0, 0(s2)\n" + loop(count, body) + EXIT)
        with open("v", "rb") as file:
            version = file.read()
        write("v", code_of(version, 8 * MIB - 0x10000))
        due = report(b"", 1, [(94, [0], 0)], ["exited 0 seen 1 led 0-1 rewrites 0"])
        self.row("brk up and down, 16 MiB, half of it code", count, ["run", "--script", "s", "--memory", "16777216", "v"], due)

    def generated(self):
        """The made run with the most events."""
        number = next(n for n in range(999_999, 0, -1) if n % 9000 == 8999 and n % 3 == 2 and n % 64 == 63)
        self.row(f"gen {number}", 9_999, ["gen", str(number)], [made_line(number)])

    def run(self):
        print(f"{'worst case':58}{'size':>12}{'CPU s':>9}{'MiB':>11}  of its payload")
        for part in (self.words, self.files, self.rules, self.texts, self.last_event, self.handed, self.traces, self.large_versions, self.versions_of_code, self.payloads, self.vectors, self.gaps,
                     self.instructions, self.generated):
            part()
