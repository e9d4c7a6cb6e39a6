"""Readers of what the program reads and writes, for bench/hostile.py. They are written from the descriptions of the forms (docs/SCRIPT.md,
docs/RULES.md, docs/REPORT.md, docs/COMPARE.md, docs/TESTING.md, the System V ABI's ELF32, the filters of McCanne and Jacobson), not from the program.

Each reader of a file raises `Refused` with the cause that the program has to name.
"""
import json
import re
import struct


class Refused(Exception):
    """A file is refused; the text is the cause."""


class Wrong(Exception):
    """The program wrote something that it must not write; the text says what."""


def lines_of(content):
    """Lines that end with a newline; the last newline may be missing."""
    lines = content.split(b"\n")
    if lines[-1] == b"":
        lines.pop()
    return lines


def number(text, limit=4_294_967_295):
    """A decimal number of up to 32 bits, or None. Leading zeros are fine."""
    if not re.fullmatch(rb"[0-9]+", text):
        return None
    value = int(text)
    return value if value <= limit else None


def unhex(text):
    return bytes.fromhex(text.decode()) if re.fullmatch(rb"([0-9A-Fa-f]{2})*", text) else None


# Scripts

WORDS = (b"arg", b"line", b"input", b"file", b"clock", b"random")
FORMS = {b"varan-script 1": WORDS, b"varan-script 2": (*WORDS, b"hand"), b"varan-script 3": (*WORDS, b"hand", b"connect")}


class Script:
    def __init__(self):
        self.arguments, self.input, self.files, self.clock, self.seed = [], b"", {}, None, None
        self.hands, self.connections = [], []


def script_line(script, line, known):
    """Takes one line in, or answers its cause."""
    word, space, rest = line.partition(b" ")
    if word not in known:
        return "word"
    if not space:
        return "shape"
    if word == b"arg":
        if not re.fullmatch(rb"[ -~]+", rest):
            return "shape"
        if len(script.arguments) == 256:
            return "long"
        script.arguments.append(rest)
    elif word == b"line":
        script.input += rest + b"\n"
    elif word == b"input":
        content = unhex(rest)
        if content is None:
            return "shape"
        script.input += content
    elif word == b"file":
        name, _, text = rest.partition(b" ")
        content = unhex(text)
        if content is None or not re.fullmatch(rb"[!-.0-~]{1,255}", name) or name in (b".", b".."):
            return "shape"
        if name in script.files:
            return "twice"
        if len(script.files) == 256 or len(content) > 1_048_576:
            return "long"
        script.files[name] = content
    elif word == b"clock":
        numbers = [number(text) for text in rest.split(b" ")]
        if len(numbers) != 3 or None in numbers:
            return "shape"
        if numbers[1] > 999_999_999 or numbers[2] > 1_000_000_000:
            return "range"
        if script.clock is not None:
            return "twice"
        script.clock = numbers
    elif word == b"hand":
        length = number(rest)
        if length is None:
            return "shape"
        if not 1 <= length <= 131_072:
            return "range"
        if length in script.hands:
            return "twice"
        if len(script.hands) == 8:
            return "long"
        script.hands.append(length)
    elif word == b"connect":
        port, _, text = rest.partition(b" ")
        port, content = number(port), unhex(text)
        if port is None or content is None:
            return "shape"
        if not 1 <= port <= 65_535:
            return "range"
        if len(script.connections) == 64 or len(content) > 1_048_576:
            return "long"
        script.connections.append((port, content))
    else:
        seed = number(rest)
        if seed is None:
            return "shape"
        if script.seed is not None:
            return "twice"
        script.seed = seed
    return None


def read_script(content):
    lines = lines_of(content)
    if not lines or lines[0] not in FORMS:
        raise Refused("line 1 form")
    script = Script()
    for place, line in enumerate(lines[1:], 2):
        cause = script_line(script, line, FORMS[lines[0]]) if line and not line.startswith(b"#") else None
        if cause:
            raise Refused(f"line {place} {cause}")
    return script


# Arrivals

MOST_ARRIVAL = 2_000
# By the form of the script. A live run's transcript has form 5.
MOST_CLIENTS = {4: 65_536, 5: 2**32}


def some_bytes(text):
    content = unhex(text)
    if not content:
        raise Refused("shape")
    if len(content) > MOST_ARRIVAL:
        raise Refused("long")
    return content


def numbered(text):
    value = number(text)
    if value is None:
        raise Refused("shape")
    return value


def read_arrival(line):
    """An arrival of form 5, by its line alone: a word and its fields. What comes for descriptor 0 is `input`."""
    word, space, rest = line.partition(b" ")
    if word not in (b"line", b"input", b"connect", b"data", b"end", b"time"):
        raise Refused("word")
    if not space:
        raise Refused("shape")
    if word == b"line":
        if len(rest) >= MOST_ARRIVAL:
            raise Refused("long")
        return "input", rest + b"\n"
    if word == b"input":
        return "input", some_bytes(rest)
    if word == b"connect":
        port = numbered(rest)
        if not 1 <= port <= 65_535:
            raise Refused("range")
        return "connect", port
    if word == b"data":
        client, space, text = rest.partition(b" ")
        if not space:
            raise Refused("shape")
        return "data", numbered(client), some_bytes(text)
    if word == b"time":
        seconds, _, nanos = rest.partition(b" ")
        seconds, nanos = numbered(seconds), numbered(nanos)
        if nanos > 999_999_999:
            raise Refused("range")
        return "time", (seconds, nanos)
    return "end", rest if rest in (b"input", b"clients") else numbered(rest)


class Arrivals:
    """What has come, one arrival after the other, by a form of a script."""

    def __init__(self, form):
        self.taken, self.clients, self.over, self.most = [], 0, set(), MOST_CLIENTS[form]

    def take(self, line):
        """Takes a line in. It is refused by itself, or since it may not come next."""
        arrival = read_arrival(line)
        word, subject = arrival[0], arrival[1]
        stream = {"input": b"input", "connect": b"clients"}.get(word, subject)
        if word in ("data", "end") and isinstance(subject, int) and subject >= self.clients:
            raise Refused("range")
        if stream in self.over:
            raise Refused("twice")
        if word == "connect":
            if self.clients == self.most:
                raise Refused("long")
            self.clients += 1
        if word == "end":
            self.over.add(subject)
        self.taken.append(arrival)


def read_arrivals(lines, form=5):
    """The arrivals of lines, and the number and the cause of the line that is refused, or None."""
    arrivals = Arrivals(form)
    for place, line in enumerate(lines, 1):
        if not line or line.startswith(b"#"):
            continue
        try:
            arrivals.take(line)
        except Refused as fault:
            return arrivals.taken, (place, str(fault))
    return arrivals.taken, None


# Filters

LOADS, STORES, RETURNS = {0x60, 0x61}, {0x02, 0x03}, {0x06, 0x16}
BRANCHES = {0x15, 0x1D, 0x25, 0x2D, 0x35, 0x3D, 0x45, 0x4D}
ARITHMETIC = {0x04, 0x0C, 0x14, 0x1C, 0x24, 0x2C, 0x34, 0x3C, 0x44, 0x4C, 0x54, 0x5C, 0x64, 0x6C, 0x74, 0x7C, 0x84}
CODES = {0x20, 0x00, 0x01, 0x80, 0x81, 0x05, 0x07, 0x87} | LOADS | STORES | RETURNS | BRANCHES | ARITHMETIC


def filter_fault(place, count, code, true, false, k):
    if code not in CODES:
        return "code"
    if code == 0x05 and place + 1 + k >= count or code in BRANCHES and place + 1 + max(true, false) >= count:
        return "jump"
    if code in LOADS | STORES and k > 15:
        return "scratch"
    if code == 0x20 and (k % 4 != 0 or k > 128):
        return "offset"
    if code == 0x34 and k == 0:
        return "zero"
    if code in (0x64, 0x74) and k > 31:
        return "shift"
    return None


def read_filter(content):
    lines = lines_of(content)
    count = number(lines[0]) if lines else None
    if count is None:
        raise Refused("line 1")
    if count == 0:
        raise Refused("empty")
    if count > 4096:
        raise Refused("too long")
    code = []
    for place in range(1, count + 1):
        if place >= len(lines):
            raise Refused("count")
        fields = lines[place].split(b" ")
        limits = (65_535, 255, 255, 4_294_967_295)
        values = [number(text, limit) for text, limit in zip(fields, limits)]
        if len(fields) != 4 or None in values:
            raise Refused(f"line {place + 1}")
        code.append(values)
    if len(lines) > count + 1:
        raise Refused("count")
    for place, fields in enumerate(code):
        fault = filter_fault(place, count, *fields)
        if fault:
            raise Refused(f"{fault} {place}")
    if code[-1][0] not in RETURNS:
        raise Refused("no return")
    return code


# Version files


def read_version(content, memory, arguments=()):
    """The segments of a version that a guest with so many bytes of memory and these arguments can be made of."""
    if len(content) < 52:
        raise Refused("short")
    if content[:4] != b"\x7fELF":
        raise Refused("magic")
    if content[4] != 1 or content[5] != 1:
        raise Refused("class")
    kind, machine, version, entry, table = struct.unpack_from("<HHIII", content, 16)
    flags, size, count = struct.unpack_from("<I2xHH", content, 36)
    if kind != 2:
        raise Refused("type")
    if machine != 243:
        raise Refused("machine")
    if flags & 15:
        raise Refused("flags")
    if content[6] != 1 or version != 1 or count > 64 or count > 0 and (size != 32 or table + 32 * count > len(content)):
        raise Refused("header")
    heads = [struct.unpack_from("<8I", content, table + 32 * i) for i in range(count)]
    segments = [head for head in heads if head[0] == 1 and head[5] > 0]
    if len(segments) > 16:
        raise Refused("header")
    if any(head[0] in (2, 3) for head in heads):
        raise Refused("interpreted")
    for i, (_, offset, address, _, filed, held, _, _) in enumerate(segments):
        if filed > held or offset + filed > len(content) or address + held > 2**32 - 1:
            raise Refused(f"outside {i}")
    spans = [(head[2], head[2] + head[5], head[6]) for head in segments]
    for a, (start, end, _) in enumerate(spans):
        for b, (other_start, other_end, _) in enumerate(spans[a + 1:], a + 1):
            if start < other_end and other_start < end:
                raise Refused(f"overlap {a} {b}")
    if entry % 4 != 0 or not any(start <= entry and entry + 4 <= end and rights & 1 for start, end, rights in spans):
        raise Refused("entry")
    for i, (_, end, _) in enumerate(spans):
        if end > memory - 65_536:
            raise Refused(f"no room {i}")
    texts = [b"guest", *arguments]
    stack = memory - sum(len(text) + 1 for text in texts) - 4 * (len(texts) + 5)
    if memory - stack // 16 * 16 > 65_536:
        raise Refused("arguments")
    return spans


# Traces

MAGIC = b"VARANTR1"


class Event:
    """An event: its thread, number, arguments and result, whether the call is bad, and the bytes that it hands in and gets."""

    def __init__(self, tid, nr, arguments, bad, ret, given, got):
        self.tid, self.nr, self.arguments, self.bad, self.ret, self.given, self.got = tid, nr, arguments, bad, ret, given, got

    def bytes(self):
        return struct.pack("<8IIiII", self.tid, self.nr, *self.arguments, self.bad, self.ret, len(self.given), len(self.got)) + self.given + self.got


def trace_of(events):
    return MAGIC + struct.pack("<I", len(events)) + b"".join(event.bytes() for event in events)


def read_trace(content):
    if len(content) < 12 or content[:8] != MAGIC:
        raise Refused("magic")
    count = struct.unpack_from("<I", content, 8)[0]
    if count > 131_072:
        raise Refused("count")
    events, place = [], 12
    for i in range(count):
        if place + 48 > len(content):
            raise Refused(f"short {i}")
        *fields, bad, ret, given, got = struct.unpack_from("<8IIiII", content, place)
        if bad > 1 or given + got > 4096:
            raise Refused(f"field {i}")
        place += 48
        if place + given + got > len(content):
            raise Refused(f"short {i}")
        events.append(Event(fields[0], fields[1], fields[2:], bad, ret, content[place:place + given], content[place + given:place + given + got]))
        place += given + got
    if place != len(content):
        raise Refused("extra")
    return events


# The causes of a trace that its script's kernel doesn't come to.
CHECKS = re.compile(r"(ended|shape|thread|reply) (0|[1-9][0-9]*)")


# Reports

NUMBER = r"(0|[1-9][0-9]*)"
PART = r"(?:0|[1-9][0-9]*)-(?:0|[1-9][0-9]*)"
KINDS = "illegal|misaligned|fetch|load|store|breakpoint|budget|deadlock|calls"
EVENT = re.compile(rf"{NUMBER} {NUMBER} {NUMBER}((?: (?:0|[1-9][0-9]*)){{6}}) = (0|-?[1-9][0-9]*) :(?: ((?:[0-9a-f]{{2}})+))?".encode())
FATE = re.compile(
    rf"{NUMBER} (exited {NUMBER}|fault (?:{KINDS}) {NUMBER} [0-9a-f]{{8}}|refused {NUMBER} {NUMBER} {NUMBER} [0-9a-f]{{8}}|memory)"
    rf" seen {NUMBER} led (?P<led>{PART}(?:,{PART})*|-) rewrites (?P<rewrites>{NUMBER})".encode()
)
REPLAY = re.compile(
    rf"replay (?P<end>exited {NUMBER}|in step|fault (?:{KINDS}) {NUMBER} [0-9a-f]{{8}}|refused {NUMBER} {NUMBER} {NUMBER} [0-9a-f]{{8}})"
    rf" seen (?P<seen>{NUMBER}) rewrites {NUMBER}\n".encode()
)


class Account:
    """A report that was read: the console's bytes; events (thread, number, arguments, result, payload); versions (fate, seen, span, rewrites).
    A span is None, a pair of places, or, where the lead was handed over, several pairs."""

    def __init__(self, output, events, versions):
        self.output, self.events, self.versions = output, events, versions

    def same(self, other):
        return (self.output, self.events, self.versions) == (other.output, other.events, other.versions)

    def status(self):
        fates = [fate.split()[0] for fate, _, _, _ in self.versions]
        return 0 if "exited" in fates else 7 if "memory" in fates else 1


def counted(text, word):
    """The number on the line `word n` in front of the text, and what is behind it."""
    line, newline, rest = text.partition(b"\n")
    found = re.fullmatch(word + b" (0|[1-9][0-9]*)", line)
    if not found or not newline:
        raise Wrong(f"no line `{word.decode()} n`")
    return int(found[1]), rest


def taken(rest, count):
    lines = rest.split(b"\n", count)
    if len(lines) != count + 1:
        raise Wrong("too few lines")
    return lines[:count], lines[count]


def span_of(parts):
    """The span of these parts: none, the one, or all of them."""
    return None if not parts else parts[0] if len(parts) == 1 else tuple(parts)


def parts_of(span):
    return [] if span is None else [span] if isinstance(span[0], int) else list(span)


def read_report(text, handed=False):
    """A report; `handed` says that the script plans lengths, so that a version may lead more than once."""
    size, rest = counted(text, b"output")
    output = rest[:size]
    if len(rest) <= size or rest[size:size + 1] != b"\n":
        raise Wrong("the console's bytes aren't as many as said")
    count, rest = counted(rest[size + 1:], b"log")
    lines, rest = taken(rest, count)
    events = []
    for place, line in enumerate(lines):
        found = EVENT.fullmatch(line)
        if not found or int(found[1]) != place:
            raise Wrong(f"line {place} of the log: {line[:60]!r}")
        arguments = [int(word) for word in found[4].split()]
        events.append((int(found[2]), int(found[3]), arguments, int(found[5]), bytes.fromhex((found[6] or b"").decode())))
    count, rest = counted(rest, b"fates")
    lines, rest = taken(rest, count)
    if rest:
        raise Wrong("bytes behind the report")
    versions = []
    for place, line in enumerate(lines):
        found = FATE.fullmatch(line)
        if not found or int(found[1]) != place:
            raise Wrong(f"line of version {place}: {line[:60]!r}")
        led = found["led"].decode()
        span = None if led == "-" else span_of([tuple(map(int, part.split("-"))) for part in led.split(",")])
        versions.append((found[2].decode(), int(found[8]), span, int(found["rewrites"])))
    return checked(Account(output, events, versions), handed)


def json_fate(item):
    kind = item["fate"]
    if kind == "exited":
        return f"exited {item['code']}"
    if kind == "fault":
        return f"fault {item['kind']} {item['tid']} {item['pc']}"
    if kind == "refused":
        return f"refused {item['tid']} {item['nr']} {item['stamp']} {item['verdict']}"
    return kind


def read_json(text, handed=False):
    try:
        whole = json.loads(text)
        again = json.dumps(whole, separators=(",", ":"), sort_keys=True) + "\n"
        events = [(i["tid"], i["nr"], i["args"], i["ret"], bytes.fromhex(i["payload"])) for i in whole["log"]]
        versions = []
        for item in whole["fates"]:
            span = span_of([tuple(part) for part in item["led"]])
            versions.append((json_fate(item), item["seen"], span, item["rewrites"]))
        account = Account(bytes.fromhex(whole["output"]), events, versions)
    except (ValueError, KeyError, TypeError, IndexError) as fault:
        raise Wrong(f"no report in JSON: {fault!r}") from fault
    if again.encode() != text:
        raise Wrong("the JSON isn't compact, or its keys are in another order")
    if [item["stamp"] for item in whole["log"]] != list(range(len(events))):
        raise Wrong("the stamps aren't the places")
    return checked(account, handed)


def checked(account, handed):
    """The account, whose numbers fit together. Without planned lengths the versions lead in order, each once."""
    length = len(account.events)
    reached = 0
    for tid, nr, arguments, ret, payload in account.events:
        if max(tid, nr, *arguments) >= 2**32 or not -(2**31) <= ret < 2**31 or len(payload) > 4096 or len(arguments) != 6:
            raise Wrong("an event past its limits")
    parts = [part for _, _, span, _ in account.versions for part in parts_of(span)]
    for start, end in sorted(parts) if handed else parts:
        if start != reached or not start <= end <= length:
            raise Wrong(f"the span {start}-{end} behind {reached}")
        reached = end
    for fate, seen, span, _ in account.versions:
        kind = fate.split()[0]
        if span and (seen < parts_of(span)[-1][1] if handed else seen != span[1]):
            raise Wrong(f"seen {seen}, led {span}")
        if seen > length or kind == "exited" and seen != length:
            raise Wrong(f"seen {seen} of {length}: {fate}")
        if kind == "refused" and (span and not handed or int(fate.split()[3]) != seen):
            raise Wrong(f"seen {seen}, led {span}: {fate}")
        if kind == "exited" and int(fate.split()[1]) > 255 or kind == "memory" and not span:
            raise Wrong(fate)
    if reached != length:
        raise Wrong(f"the log's {length} events are led up to {reached}")
    return account
