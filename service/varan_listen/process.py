"""A process of the command, `varan serve --clients`."""
import asyncio
import contextlib
import ctypes
import os
import signal
import time

from varan_listen.streams import Lines, Telling, note
from varan_listen.transcript import Transcript
from varan_listen.written import Written

# Bytes that a process which has to catch up is told at once.
AT_ONCE = 65_536
HAND = b"hand\n"
PR_SET_PDEATHSIG = 1

libc = ctypes.CDLL(None)


def end_with_parent():
    """Done in the new process: it is killed where varan-listen ends in whatever way."""
    libc.prctl(PR_SET_PDEATHSIG, signal.SIGKILL, 0, 0, 0)


class Process:
    """It is told what came to its run, and the operator's words `hand`, each at its place of what came; and what it says is heard."""

    def __init__(self, process, lineup, transcript, asked, said, written, is_behind):
        self.process, self.lineup, self.transcript, self.is_behind = process, lineup, transcript, is_behind
        self.asked, self.said, self.written = asked, said, written
        self.versions, self.hands = lineup.versions, lineup.hands
        self.begun = time.monotonic()
        self.served_since = None if is_behind else self.begun  # by it, or by the one that it replaced meanwhile
        self.fed = self.heard = self.heard_lines = 0  # bytes of what came, bytes and lines of what it said
        self.handed = 0  # so many of the operator's words it was told
        self.feeding = None
        self.fault = None  # why it was ended by us

    @classmethod
    async def begin(cls, command, lineup, transcript, is_behind):
        """Begins the command, in a session of its own, so that Ctrl-C ends varan-listen alone. SIGXFSZ stays ignored in it, as in Python: a file of the most size is a failed write then."""
        file = os.open(transcript, os.O_WRONLY | os.O_CREAT | os.O_EXCL, 0o666) if transcript else os.dup(2)
        (asking, asked), (said, saying), (written, writing) = os.pipe(), os.pipe(), os.pipe()
        try:
            process = await asyncio.create_subprocess_exec(
                *command, stdin=asking, stdout=saying, stderr=writing, start_new_session=True, restore_signals=False, preexec_fn=end_with_parent)
        except OSError:
            for it in (asked, said, written, file):
                os.close(it)
            raise
        finally:
            for it in (asking, saying, writing):
                os.close(it)
        return cls(process, lineup, Transcript(transcript, len(lineup.versions)), Telling(asked), Lines(said), Written(written, file), is_behind)

    async def feed(self, told):
        """Tells all that came, as fast as it is taken, and what comes meanwhile."""
        self.tell_hands()
        while self.fed < told.size:
            if not (piece := told.at(self.fed, min(AT_ONCE, self.next_hand(told) - self.fed))):
                self.end("what came isn't whole")
                return
            self.fed += len(piece)
            self.asked.write(piece)
            self.tell_hands()
            await self.asked.drain()

    def next_hand(self, told):
        """Up to where it is told what came before it is told the next word."""
        return self.hands[self.handed] if self.handed < len(self.hands) else told.size

    def tell_hands(self):
        """Tells the words that stand where it is."""
        while self.handed < len(self.hands) and self.hands[self.handed] == self.fed:
            self.handed += 1
            self.asked.write(HAND)

    def hand(self, place):
        """The operator says `hand` at this place of what came."""
        self.hands.append(place)
        self.tell_hands()

    def tell(self, lines, told):
        """Tells the last lines that came, unless `feed` has still to tell others."""
        if self.fed + len(lines) == told.size:
            self.fed = told.size
            self.asked.write(lines)

    def is_full(self):
        """Whether it has much to take yet."""
        return not self.feeding.done() or self.asked.is_full()

    async def drain(self):
        """Waits until it has taken about all that it was told. One that was killed takes nothing more."""
        if not self.feeding.done():
            await asyncio.wait([self.feeding])
        await self.asked.drain()

    def end(self, why):
        self.fault = self.fault or why
        with contextlib.suppress(ProcessLookupError):
            os.killpg(self.process.pid, signal.SIGKILL)

    def arrive(self):
        """It has caught up."""
        now = time.monotonic()
        self.is_behind, self.served_since = False, self.served_since or now
        self.transcript.arrive()
        self.written.heed_taken = None
        note(f"caught up after {now - self.begun:.3f} s, with {self.written.taken} lines taken")

    def served_for(self):
        """The seconds in which clients have been served without a break: none while it catches up."""
        return 0 if self.is_behind else time.monotonic() - self.served_since

    def obeyed(self):
        """How many words the leaders have obeyed."""
        self.transcript.learn()
        return max(len(self.transcript.hands) - len(self.lineup.script.lengths()), 0)

    def standings(self):
        """A line a version: who leads, who follows, who has ended and how."""
        return [f"{number} {self.versions[number]} {role}" for number, role in enumerate(self.transcript.roles(len(self.versions)))]

    def last_words(self):
        """Why it ended, by its transcript, in which a version has the operator's name."""
        words = self.transcript.last_words()
        for version in self.versions:
            words = words.replace(version.copy, version.name)
        return words


class Joining(Process):
    """A process that is to serve in the place of another one, once it has said what that one has said."""

    def __init__(self, *words):
        super().__init__(*words)
        self.ahead = bytearray()  # lines that the other one hasn't said yet
        self.has_settled = False
        self.outcome = asyncio.get_running_loop().create_future()  # why it was given up, or None

    def compare_ahead(self, lines):
        """The other one says these lines. What this one has said of them is the same, or it is ended."""
        size = min(len(lines), len(self.ahead))
        if self.ahead[:size] != lines[:size]:
            self.end(str(next(Parted(*pair) for pair in zip(self.ahead.splitlines(True), lines.splitlines(True)) if pair[0] != pair[1])))
        del self.ahead[:size]

    def newly_ended(self, serving):
        """The first version that has ended here and not in the process that serves, and how; or None."""
        for it in (self, serving):
            it.transcript.learn()
        ends = self.transcript.ends.items()
        return next((f"{number} {self.versions[number]} ended: {end}" for number, end in ends if self.lineup.before[number] not in serving.transcript.ends), None)


class Parted(Exception):
    """A process says something else than was said."""

    def __init__(self, line, said):
        super().__init__(f"it says `{line.decode().strip()}` where the service said `{said.decode().strip()}`")
