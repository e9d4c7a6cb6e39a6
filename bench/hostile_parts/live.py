"""Live runs: broken lines of clients, input that ends early, streams that are closed, full or not for it, calls of the C library that fail, and clients that leave.

One of the services makes polls that Linux refuses, with lists that can't be read, times that are none and too many descriptors, before each of its waits.
Whatever happens, what a run took is the beginning of what was sent, as a reader of the form reads it; and where the run began, `run` takes its transcript, up
to the last newline, and comes to the events that the live run told.
"""
import os
import random
import re
import signal
import socket
import struct
import subprocess
import sys
import time

from hostile_parts.broken import damaged_text
from hostile_parts.failing import WANTING
from hostile_parts.guests import polls
from hostile_parts.program import CLOCK, TOP, is_refusal, is_small, write
from hostile_parts.readers import MOST_CLIENTS, Refused, Wrong, read_arrival, read_arrivals, read_report

EXAMPLES = os.path.join(TOP, "examples")
GUESTS, SERVERS = os.path.join(EXAMPLES, "guests", "built"), os.path.join(EXAMPLES, "server", "built")
SERVICE, BROKEN_SERVICE = [os.path.join(GUESTS, "service_1")], [os.path.join(GUESTS, "service_2"), os.path.join(GUESTS, "service_1")]
LOOPS, SELECTS = ([os.path.join(EXAMPLES, "live", "built", name) for name in names] for names in (("loop_2", "loop_1"), ("loop_select", "loop_select")))
# Made by the program's assembler: loops between whose waits are polls of every kind that Linux refuses. The first breaks at a client's "x".
POLL_LOOPS = {"polls_2": polls(ord("x")), "polls_1": polls(256)}
SERVER, BROKEN_SERVER = [os.path.join(SERVERS, "server_1")], [os.path.join(SERVERS, "server_2"), os.path.join(SERVERS, "server_1")]
SETUP = b"varan-script 4\nfile index.html 68690a\n"
PORT = 8080
# Two versions and their threads; as much memory as the largest of these guests takes.
OPTIONS = ["--memory", "1048576", "--threads", "2", "--ring", "2"]
LIMITS = [*OPTIONS, "--calls", "131072", "--budget", "1000000000"]

REQUEST = b"GET / HTTP/1.0\r\n\r\n"
CLIENTS = b"# two clients\nconnect 8080\ntime 4294967295 999999999\ndata 0 %s\nend 0\nconnect 8080\n\ndata 1 00FF\nend 1\nend clients\n" % REQUEST.hex().encode()
INPUT = b"line put a b\ninput 67657420\ntime 7 8\ninput 610a\n#\nline drop a\nline get a\nend input\n"
# Two clients of a server with one loop: each wait of the loop may end with what either sends, with the time or with the end.
POLLED = b"connect 8080\nconnect 8080\ndata 1 %s\ntime 2 0\ndata 0 %s\ntime 1 5\nend 1\ntime 90 0\ndata 0 0A\nend 0\nend clients\n" % (b"put a b\nget".hex().encode(), b"drop a\nsize".hex().encode())
# The same of the loops of polls, which also take lines; client 1 says "x".
HARD_POLLED = (
    b"connect 8080\nline a\nconnect 8080\ndata 1 78\ntime 2 0\ndata 0 00FF\ntime 1 5\nend 1\ninput 0A\ntime 90 0\nend input\ndata 0 0A\nend 0\nend clients\n"
)
LINES = b"put a b\nget a\n\x00\xff\ndrop a\nget a\nget a"

# Of a line that the end of input came within.
CUT_OFF = "cut off"

# What of the events that a run told is compared with those of its transcript: all, and the fates; those that it told; nothing.
ALL, SOME, NOTHING = "all", "some", "nothing"

CLOSED, FULL, FOLDER, WRITES_ONLY, READS_ONLY, UNREAD = "closed", "full", "folder", "writes only", "reads only", "unread"


class Case:
    """A live run: the words behind `serve`, its versions, and what is sent to it."""

    def __init__(self, words, versions, sent):
        self.words = ["serve", "--log", *OPTIONS, *words, *versions]
        self.again = ["run", *LIMITS, "--script", "t", *versions]
        self.has_lines = "--clients" in words
        self.sent = sent

    def sent_arrivals(self):
        """The arrivals that were sent, and the number of the line that is refused with its cause, or None. A last line without its newline is, whatever it says."""
        *lines, rest = self.sent.split(b"\n")
        arrivals, refused = read_arrivals(lines)
        return arrivals, refused or ((len(lines) + 1, CUT_OFF) if rest else None)


PLAIN = Case([], BROKEN_SERVICE, LINES)
BY_LINES = Case(["--clients"], BROKEN_SERVICE, INPUT)
BY_CLIENTS = Case(["--clients", "--script", "s"], BROKEN_SERVER, CLIENTS)
BY_LOOP = Case(["--clients", "--script", "s"], LOOPS, POLLED)
BY_SELECT = Case(["--clients", "--script", "s"], SELECTS, POLLED)
BY_HARD_POLLS = Case(["--clients", "--script", "s"], list(POLL_LOOPS), HARD_POLLED)
CASES = (PLAIN, BY_LINES, BY_CLIENTS, BY_LOOP, BY_SELECT, BY_HARD_POLLS)


def transcript_in(told):
    """What was told up to its last newline, if a run began."""
    return told[: told.rfind(b"\n") + 1] if told.startswith(b"varan-script 5\n") else None


def without_comments(told):
    return b"".join(line for line in told.splitlines(keepends=True) if not line.startswith(b"#"))


def arrivals_in(transcript):
    """The arrivals of a transcript, which may have nothing else but comments and the lines of the script."""
    lines = [line for line in transcript.split(b"\n")[1:] if not line.startswith(b"file ")]
    arrivals, refused = read_arrivals(lines)
    if refused:
        raise Wrong(f"the transcript's arrival {refused}")
    return arrivals


def not_taken(transcript):
    """What was read and taken by no call, by the comments of the transcript."""
    return bytes.fromhex("".join(it.decode() for it in re.findall(rb"(?m)^# not taken: ([0-9a-f]+)$", transcript)))


def events_told(transcript):
    return re.findall(rb"(?m)^# (\d+ \d+ .* = .*)$", transcript)


def fates_told(transcript):
    """How each version ended, and after how many events, as a report has it but for what it led."""
    return sorted(b"%s %s seen %s" % it for it in re.findall(rb"(?m)^# version (\d) ended: (.*), after (\d+) events$", transcript))


def answered(answer):
    """What was said but for the lines of the console: the loop writes there how many requests it had before its end, which comes sooner where a read fails."""
    return b"".join(line for line in answer.text.splitlines(keepends=True) if not line.startswith(b"output "))


def is_within(some, whole):
    """Whether they stand among the others, in the same order."""
    rest = iter(whole)
    return all(it in rest for it in some)


def lines_of_report(text):
    """The lines of the events and of the fates of a report."""
    head, _, rest = text.partition(b"\n")
    size = len(head) + int(head.split()[1]) + 2
    front, connections, _ = text[size:].partition(b"\nconnections ")
    read_report(text[:size] + front + (b"\n" if connections else b""))
    rest = front.split(b"\n")
    middle = next(place for place, line in enumerate(rest) if line.startswith(b"fates "))
    return rest[1:middle], [line.partition(b" led ")[0] for line in rest[middle + 1:] if line]


def bytes_of(arrivals):
    return b"".join(arrival[1] for arrival in arrivals if arrival[0] == "input")


class Live:
    """Each run of `serve` is followed by a `run` on its transcript."""

    def __init__(self, program, tally):
        self.program, self.tally = program, tally
        self.shim = os.path.abspath("failing.so")

    def rehearse(self, case, told, compared=ALL):
        """Judges what was told: what the transcript took is what was sent, and `run` comes to its events, and its fates where all are compared."""
        transcript = transcript_in(told)
        if transcript is None:
            if any(not line.startswith((b"#", b"varan: ")) for line in told.split(b"\n") if line):
                raise Wrong(f"neither a transcript nor why there is none: {told[:80]!r}")
            return
        self.is_front(case, arrivals_in(transcript), not_taken(transcript))
        write("t", transcript)
        answer = self.program.run(case.again)
        if answer.killed or answer.status not in (0, 1) or answer.errors:
            raise Wrong(f"run on the transcript: {answer.status}, {answer.text[:80]!r}")
        events, fates = lines_of_report(answer.text)
        found = events_told(transcript)
        if any(b"fault breakpoint" in fate for fate in fates) or b"fault breakpoint" in told:
            raise Wrong("a loop of polls got another answer")
        if compared is ALL and (found, fates_told(transcript)) != (events, fates) or compared is SOME and not is_within(found, events):
            raise Wrong("run on the transcript comes to other events or fates")

    @staticmethod
    def is_front(case, taken, held):
        """Whether what was taken begins what was sent, and what was read but not taken comes next."""
        if case.has_lines:
            ends = [0, *(it.end() for it in re.finditer(b"\n", case.sent))]
            if not any(case.sent.startswith(held, end) and read_arrivals(case.sent[:end].split(b"\n")[:-1]) == (taken, None) for end in ends):
                raise Wrong(f"taken: {taken}, and not taken: {held[:80]}")
        elif not case.sent.startswith(bytes_of(taken) + held):
            raise Wrong(f"taken: {taken}, and not taken: {held[:80]}")

    def judge(self, kind, case, answer, due, compared=ALL, may_want=False, say=""):
        """Counts the answer. `due` raises `Wrong` where it isn't one that may come."""

        def look(answer):
            is_small(answer)
            due(answer)
            self.rehearse(case, answer.errors, compared)

        self.tally.add(f"live: {kind}", [*case.words, say], answer, look, may_want=may_want, tells=True)

    # ---- broken lines, and input that ends early

    def broken(self, kind, usual, content):
        """What is sent is damaged. All of it is taken but what comes behind a refused line, or after the guests have ended."""
        case = Case([], [], content)
        case.words, case.again, case.has_lines = usual.words, usual.again, usual.has_lines
        write("in", content)
        answer = self.program.run(case.words, given="in")

        def due(answer):
            sent, refused = case.sent_arrivals() if case.has_lines else ([], None)
            taken = arrivals_in(transcript_in(answer.errors) or b"")
            if answer.status == 4:
                if refused is None or len(taken) < len(sent):
                    raise Wrong(f"{len(taken)} arrivals of {len(sent)}, and {refused} is refused")
            elif answer.status not in (0, 1):
                raise Wrong("a status that nothing causes")
            elif refused and len(taken) == len(sent) and not self.is_over(taken):
                raise Wrong(f"the refused line {refused} isn't told")
            elif not case.has_lines and bytes_of(taken) != content:
                raise Wrong(f"taken: {taken}")

        self.judge(kind, case, answer, due, say=repr(content[:60]))

    @staticmethod
    def is_over(taken):
        """Whether the guests may have ended before more was asked for: no more clients come, or no more input."""
        return ("end", b"clients") in taken or ("end", b"input") in taken

    # ---- more clients than form 4 lets come

    def many(self):
        """They come to a port where no guest listens. The transcript has them all, and `run` takes it; with form 4 in its head it is refused."""
        case = BY_CLIENTS
        sent = b"".join(b"connect 9\nend %d\n" % it for it in range(MOST_CLIENTS[4] + 1)) + b"end clients\n"
        write("in", sent)
        answer = self.program.run(case.words, given="in", last=[(os.POSIX_SPAWN_OPEN, 2, "t", os.O_WRONLY | os.O_CREAT | os.O_TRUNC, 0o600)])
        with open("t", "rb") as file:
            transcript = file.read()

        def all_taken(answer):
            if answer.status != 0 or arrivals_in(transcript) != read_arrivals(sent.split(b"\n"))[0]:
                raise Wrong("not all that was sent is taken")

        def refused(answer):
            lines = [b"" if line.startswith(b"file ") else line for line in transcript.split(b"\n")[1:]]
            place, cause = read_arrivals(lines, 4)[1]
            is_refusal(answer, "t", f"line {place + 1} {cause}")

        self.tally.add("live: many clients", case.words, answer, all_taken)
        self.tally.add("live: many clients", case.again, self.program.run(case.again), lambda answer: None)
        write("t", transcript.replace(b"varan-script 5", b"varan-script 4", 1))
        self.tally.add("live: many clients", case.again, self.program.run(case.again), refused)

    # ---- streams of the process

    def streams(self):
        """Each stream as it should be, closed, and otherwise not what it should be."""
        inputs, outputs = ("file", CLOSED, FOLDER, WRITES_ONLY), ("file", CLOSED, FULL, READS_ONLY, UNREAD)
        for case in CASES:
            for given in inputs:
                for out in outputs:
                    for told in outputs:
                        self.stream(case, given, out, told)

    def stream(self, case, given, out, told):
        write("in", case.sent)
        write("out", b"")
        last = [*stream_action(0, given, "in", os.O_RDONLY), *stream_action(1, out, "out", os.O_WRONLY), *stream_action(2, told, None, 0)]
        reading, writing = os.pipe()
        os.close(reading)
        last = [action if action[0] != "unread" else (os.POSIX_SPAWN_DUP2, writing, action[1]) for action in last]
        answer = self.program.run(case.words, last=last)
        os.close(writing)
        status = 5 if given != "file" else 6 if out != "file" or told != "file" else 0

        def due(answer):
            if answer.status != status:
                raise Wrong(f"not {status}")

        self.judge("streams", case, answer, due, say=f"{given}, {out}, {told}")

    # ---- calls of the C library

    def preloaded(self, case, failing=None):
        os.environ.update(LD_PRELOAD=self.shim, COUNTED=os.path.abspath("counted"), **({"FAILING": failing} if failing else {}))
        write("in", case.sent)
        try:
            answer = self.program.run(case.words, given="in")
        finally:
            for name in ("LD_PRELOAD", "COUNTED", "FAILING"):
                os.environ.pop(name, None)
        with open("counted") as file:
            counts = dict(zip(("alloc", "open", "read", "write"), map(int, file.read().split())))
        os.unlink("counted")
        return answer, counts

    def failing(self, case):
        whole, counts = self.preloaded(case)
        self.judge("nothing fails", case, whole, lambda answer: None)

        def is_status(*statuses):
            def due(answer):
                if answer.status not in statuses:
                    raise Wrong(f"none of {statuses}")
                if answer.status == 3 and (answer.text, answer.errors) == (WANTING, b""):
                    return  # there was no memory to read the words, so it isn't known that this is a live run
                if not answered(whole).startswith(answered(answer)) or answer.status == 0 and answer.text != whole.text:
                    raise Wrong("standard output isn't the beginning of what it was")

            return due

        def unwritten(answer):
            """What a write failed of is lacking: 6, unless it was a comment."""
            if not whole.text.startswith(answer.text) or not without_comments(whole.errors).startswith(without_comments(answer.errors)):
                raise Wrong("what was written isn't the beginning of what it was")
            is_whole = (answer.text, without_comments(answer.errors)) == (whole.text, without_comments(whole.errors))
            if answer.status != (0 if is_whole else 6):
                raise Wrong("the status isn't that of what is lacking")

        for number in range(counts["write"]):
            answer, _ = self.preloaded(case, f"write:{number}")
            self.judge("write", case, answer, unwritten, NOTHING, say=f"(write {number})")
        for kind, counted, statuses, compared in (
            ("read", "read", (5,), ALL), ("open", "open", (5,), ALL), ("alloc", "alloc", (0, 3, 7), SOME),
            ("short-read", "read", (0,), ALL), ("short-write", "write", (0,), ALL),
        ):
            for number in range(counts[counted]):
                answer, _ = self.preloaded(case, f"{kind}:{number}")
                self.judge(kind, case, answer, is_status(*statuses), compared, may_want=kind == "alloc", say=f"({kind} {number})")

    # ---- clients that leave

    def leaving(self, seed):
        """Clients over TCP that come beside each other and leave at whatever place; one of those that stay is served to the end."""
        chance = random.Random(seed)
        port = free_port()
        case = Case(["--clients", "--script", "s"], BROKEN_SERVER, b"")
        listening = [sys.executable, os.path.join(TOP, "service", "varan-listen"), "--idle", "5", f"{port}:{PORT}", "--", self.program.path, *case.words]
        with open("told", "wb") as told:
            adapter = subprocess.Popen(listening, stderr=told)
        try:
            wait_for(port)
            answers = [be_client(port, chance, stays) for stays in (False, False, True, False, False)]
        finally:
            adapter.send_signal(signal.SIGTERM)
            status = adapter.wait(CLOCK)
        with open("told", "rb") as file:
            transcript = file.read()

        def due(_):
            if status != 0:
                raise Wrong(f"varan-listen ended with {status}")
            if not answers[2].endswith(b"\r\n\r\nhi\n"):
                raise Wrong(f"the client that stayed got {answers[2]!r}")
            taken = b"".join(line for line in without_comments(transcript).splitlines(keepends=True) if re.match(rb"connect|data|end|time", line))
            held = not_taken(transcript)
            # What varan-listen sent isn't kept. Behind the end of all clients it may tell the ends of those that had stayed, and their times, for which no call asks.
            if held and not (b"\nend clients\n" in taken and re.fullmatch(rb"((time \d+|end) \d+\n)+", held)):
                raise Wrong(f"not taken: {held[:80]}")
            case.sent = taken + held
            self.rehearse(case, transcript)

        write("t", transcript)
        self.tally.add("live: clients that leave", [*case.words, f"(seed {seed})"], self.program.run(case.again), due)

    def run(self):
        subprocess.run(["cc", "-O2", "-shared", "-fPIC", "-o", self.shim, os.path.join(TOP, "bench", "hostile_parts", "failing.c")], check=True)
        write("s", SETUP)
        for name, text in POLL_LOOPS.items():
            write("text", text)
            write(name, self.program.run(["asm", "text"]).text)
        kinds = ("lines", "lines of --clients", "clients", "clients of a loop", "clients of a loop over select", "clients of a loop of refused polls")
        for kind, case in zip(kinds, CASES, strict=True):
            for content in damaged_text(case.sent):
                self.broken(kind, case, content)
        self.many()
        self.streams()
        for case in CASES:
            self.failing(case)
        for seed in range(40):
            self.leaving(seed)


def stream_action(fd, state, path, way):
    """What is done to a descriptor at the end, so that it is in this state."""
    if state == "file":
        return [(os.POSIX_SPAWN_OPEN, fd, path, way, 0)] if path else []
    if state == CLOSED:
        return [(os.POSIX_SPAWN_CLOSE, fd)]
    if state == UNREAD:
        return [("unread", fd)]
    path, way = {FULL: ("/dev/full", os.O_WRONLY), FOLDER: (".", os.O_RDONLY), WRITES_ONLY: ("out", os.O_WRONLY), READS_ONLY: ("s", os.O_RDONLY)}[state]
    return [(os.POSIX_SPAWN_OPEN, fd, path, way, 0)]


def free_port():
    with socket.create_server(("127.0.0.1", 0)) as it:
        return it.getsockname()[1]


def wait_for(port):
    end = time.monotonic() + CLOCK
    while f"0100007F:{port:04X} 00000000:0000 0A" not in open("/proc/net/tcp").read():
        if time.monotonic() > end:
            sys.exit(f"nobody listens at port {port}")
        time.sleep(0.01)


def be_client(port, chance, stays):
    """A client that stays until it has its answer, which it comes to; or one that sends some of its request, takes some of its answer, and resets its
    connection then."""
    sent = REQUEST if stays else REQUEST[: chance.choice((0, 5, len(REQUEST)))]
    with socket.create_connection(("127.0.0.1", port), CLOCK) as client:
        client.sendall(sent)
        if stays:
            client.shutdown(socket.SHUT_WR)
            got = b"".join(iter(lambda: client.recv(65536), b""))
            return got
        if sent == REQUEST and chance.random() < 0.5:
            client.recv(1)
        client.setsockopt(socket.SOL_SOCKET, socket.SO_LINGER, struct.pack("ii", 1, 0))
    return None
