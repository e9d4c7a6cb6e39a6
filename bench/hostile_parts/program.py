"""Runs the built program within limits, and counts what it answers."""
import collections
import os
import resource
import shutil
import signal

from hostile_parts.readers import REPLAY, Wrong, read_json, read_report

TOP = os.path.dirname(os.path.dirname(os.path.dirname(os.path.abspath(__file__))))
MIB = 1 << 20

# What one run of a small file may take: address space, peak of resident memory, seconds of the processor, seconds of the clock (other work may hold it up).
SPACE = 1024 * MIB
RESIDENT = 64 * MIB
PROCESSOR = 1.0
CLOCK = 60.0

# Python ignores these two, and so would what it starts.
SIGNALS = (signal.SIGPIPE, signal.SIGXFSZ)

STATUSES = (0, 1, 2, 3, 4, 5, 6, 7)

# What a rehearsal and an inspection take of these.
FOLLOWING = ["--memory", str(262_144), "--budget", "20000"]

BYTES = (0, 1, 127, 128, 255)
MEMORY = 262_144
LIMITS = ["--memory", str(MEMORY), "--budget", "20000", "--calls", "200", "--ring", "2", "--threads", "2"]

# `floor` is what the harness itself had in memory: a smaller peak of the program isn't seen by wait4.
Answer = collections.namedtuple("Answer", "status killed text errors processor resident floor")


class Program:
    """The built program, run in the folder that the harness works in."""

    def __init__(self, path):
        self.path = path
        self.hard = resource.getrlimit(resource.RLIMIT_AS)[1]
        self.errors = os.open("errors", os.O_RDWR | os.O_CREAT | os.O_TRUNC | os.O_APPEND, 0o600)

    def start(self, words, actions, space, user, signals, given, last):
        resource.setrlimit(resource.RLIMIT_AS, (space, self.hard))
        where = [(os.POSIX_SPAWN_OPEN, 0, given, os.O_RDONLY, 0), *actions, (os.POSIX_SPAWN_DUP2, self.errors, 2), *last]
        line = [self.path, *words]
        if user is None:
            return os.posix_spawn(self.path, line, os.environ, file_actions=where, setsigdef=signals)
        child = os.fork()
        if child == 0:
            os.setuid(user)
            os.dup2(actions[0][1], 1)
            os.execv(self.path, line)
        return child

    def run(self, words, actions=None, space=SPACE, clock=CLOCK, take=None, user=None, signals=SIGNALS, given="/dev/null", last=()):
        """Runs the program. Its standard output is what `actions` say, or else a pipe whose bytes are kept or handed to `take`. Its standard input
        is the file `given`; what `last` says is done to its streams at the end."""
        os.ftruncate(self.errors, 0)
        kept, end = [], None
        if actions is None:
            end, written = os.pipe()
            actions = [(os.POSIX_SPAWN_DUP2, written, 1)]
        floor = own_memory()
        child = self.start(words, actions, space, user, signals, given, last)
        signal.signal(signal.SIGALRM, lambda *_: os.kill(child, signal.SIGKILL))
        signal.setitimer(signal.ITIMER_REAL, clock)
        if end is not None:
            os.close(written)
            while piece := os.read(end, 1 << 18):
                (take or kept.append)(piece)
            os.close(end)
        _, ended, used = os.wait4(child, 0)
        signal.setitimer(signal.ITIMER_REAL, 0)
        killed = os.WTERMSIG(ended) if os.WIFSIGNALED(ended) else None
        status = None if killed else os.WEXITSTATUS(ended)
        errors = os.pread(self.errors, MIB, 0)
        return Answer(status, killed, b"".join(kept), errors, used.ru_utime + used.ru_stime, used.ru_maxrss * 1024, floor)


def own_memory():
    """The harness's own resident memory, from which on its peak is counted anew: a started process takes the peak of its starter over."""
    with open("/proc/self/clear_refs", "w") as file:
        file.write("5")
    with open("/proc/self/status") as file:
        return next(int(line.split()[1]) * 1024 for line in file if line.startswith("VmHWM"))


class Tally:
    """What was answered, and what was wrong with it."""

    def __init__(self, kept):
        self.kept = kept
        self.counts = collections.defaultdict(collections.Counter)
        self.most = collections.defaultdict(lambda: (0, 0))
        self.wrong = 0

    def add(self, kind, words, answer, look, may_want=False, tells=False):
        """Counts an answer. `look` raises `Wrong` where it isn't one that these words and files may have; `may_want` says that memory may be short,
        `tells` that something may stand on standard error."""
        self.counts[kind][answer.status] += 1
        processor, resident = self.most[kind]
        self.most[kind] = (max(processor, answer.processor), max(resident, answer.resident))
        try:
            if answer.killed:
                raise Wrong(f"ended by signal {answer.killed}")
            if answer.status not in STATUSES or answer.status == 3 and not may_want:
                raise Wrong(f"status {answer.status}")
            if answer.errors and not tells:
                raise Wrong(f"standard error: {answer.errors[:80]!r}")
            look(answer)
        except Wrong as fault:
            self.wrong += 1
            print(f"WRONG {kind}: {' '.join(map(str, words))}: {fault}; status {answer.status}, {answer.text[:120]!r}", flush=True)
            if self.wrong <= 20:
                shutil.copytree(".", os.path.join(self.kept, f"{self.wrong}"), symlinks=True, ignore=shutil.ignore_patterns("closed"))

    def table(self):
        print(f"{'kind':28}{'runs':>8}" + "".join(f"{status:>8}" for status in STATUSES) + "   CPU s    MiB")
        total = collections.Counter()
        for kind, counts in self.counts.items():
            total += counts
            processor, resident = self.most[kind]
            print(row(kind, counts) + f"{processor:8.3f}{resident / MIB:7.1f}")
        print(row("all", total))


def row(kind, counts):
    return f"{kind:28}{sum(counts.values()):8}" + "".join(f"{counts[status]:>8}" for status in STATUSES)


def write(name, content):
    write_all(name, [content])


def write_all(name, pieces):
    with open(name, "wb") as file:
        file.writelines(pieces)


def is_answer(answer, status, text):
    if (answer.status, answer.text) != (status, text):
        raise Wrong(f"not {status} with {text[:120]!r}")


def is_refusal(answer, name, cause):
    is_answer(answer, 4, b"varan: input %s: %s\n" % (name.encode(), cause.encode()))


def is_small(answer):
    if answer.processor > PROCESSOR or answer.resident > RESIDENT:
        raise Wrong(f"{answer.processor:.2f} seconds of the processor, {answer.resident / MIB:.0f} MiB")


def is_replay(answer, length):
    """The line of a rehearsal over so many events, whose status is that of its end."""
    found = REPLAY.fullmatch(answer.text)
    if not found or int(found["seen"]) > length:
        raise Wrong("no line of a rehearsal")
    if answer.status != (0 if found["end"].startswith((b"exited", b"in step")) else 1):
        raise Wrong("the status isn't that of the end")


def account_of(answer, words, handed=False):
    """The report that a run wrote, whose status is that of its fates."""
    account = read_json(answer.text, handed) if "--json" in words else read_report(answer.text, handed)
    if answer.status != account.status() or answer.status == 7:
        raise Wrong("the status isn't that of the fates")
    return account
