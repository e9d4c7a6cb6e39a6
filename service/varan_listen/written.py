"""What a process writes on standard error: its transcript, and between the lines of it up to when its calls wait."""
import contextlib
import os
import re

from varan_listen.loop import poller
from varan_listen.streams import PIPE
from varan_listen.transcript import ARRIVALS

SECOND = 1_000_000_000
WAIT = re.compile(rb"(?m)^# wait (\d+) (\d+)\n")
ARRIVAL = re.compile(rb"\n(?:%b)" % b"|".join(ARRIVALS))


class Written:
    """What comes goes to a file, but for the lines `# wait S N`, of which the last is kept. Once a write has failed nothing more is written.
    The arrivals are counted until the process has caught up: a call that waits has taken all that came, since what doesn't end its wait is taken, too."""

    def __init__(self, reader, file):
        self.reader, self.file = reader, file
        self.rest = b""  # the beginning of a line that isn't whole
        self.wait = None  # the time that the last one tells, in nanoseconds
        self.taken = 0  # arrivals
        self.heed_wait = self.heed_taken = None  # what is done where a wait comes, and where arrivals were taken by one that catches up
        self.has_failed = self.is_over = False
        os.set_blocking(reader, False)

    def follow(self, heed_wait, heed_taken):
        self.heed_wait, self.heed_taken = heed_wait, heed_taken
        poller().read_patiently(self.reader, self.take)

    def take(self):
        """Takes what is there: so what a process wrote before it said a line is in the file before the line is heeded."""
        try:
            if not self.is_over and not self.take_piece():
                self.close()
        except BlockingIOError:
            pass

    def take_piece(self):
        """Whether there was a piece; there is none at the end."""
        text = piece = os.read(self.reader, PIPE)
        if self.rest or not piece.endswith(b"\n"):
            whole, newline, self.rest = (self.rest + piece).rpartition(b"\n")
            text = whole + newline
        waits = WAIT.findall(text) if b"# wait " in text else ()
        self.write(WAIT.sub(b"", text) if waits else text)
        if waits:
            seconds, nanos = map(int, waits[-1])
            self.wait = seconds * SECOND + nanos
            self.heed_wait()
        if self.heed_taken and (taken := len(ARRIVAL.findall(b"\n" + text))):
            self.taken += taken
            self.heed_taken()
        return piece

    def write(self, piece):
        try:
            while piece and not self.has_failed:
                piece = piece[os.write(self.file, piece) :]
        except OSError:
            self.has_failed = True

    def close(self):
        """Takes what is left, to the last line, which may be cut off."""
        if self.is_over:
            return
        with contextlib.suppress(BlockingIOError):
            while self.take_piece():
                pass
        self.is_over = True
        self.write(self.rest)
        poller().read_patiently(self.reader, None)
        for it in (self.reader, self.file):
            os.close(it)
