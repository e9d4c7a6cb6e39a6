"""What came to a run and what its guests said, kept while the run lasts."""
import os
import tempfile

from varan_listen.streams import note


# Bytes of lines that are written together.
MOST_UNWRITTEN = 65_536


class Past:
    """Lines in their order, in a file without a name, but for the last ones, which are written together. Once one can't be written they aren't whole."""

    def __init__(self, what):
        self.what = what
        self.file = tempfile.TemporaryFile(buffering=0)
        self.unwritten = bytearray()
        self.size = self.lines = 0
        self.is_whole = True

    def add(self, lines):
        self.unwritten += lines
        self.size += len(lines)
        self.lines += lines.count(b"\n")
        if len(self.unwritten) > MOST_UNWRITTEN:
            self.write()

    def write(self):
        """Writes what isn't written yet. Whether all is there."""
        try:
            while self.is_whole and self.unwritten:
                del self.unwritten[: os.pwrite(self.file.fileno(), self.unwritten, self.size - len(self.unwritten))]
        except OSError as fault:
            self.is_whole = False
            note(f"{self.what} can't be kept: {fault.strerror}: until the next run nothing can join, and a command that is killed isn't begun anew")
        self.unwritten.clear()
        return self.is_whole

    def at(self, place, count):
        self.write()
        return os.pread(self.file.fileno(), count, place)

    def line_at(self, place):
        return self.at(place, 4096).partition(b"\n")[0]

    def close(self):
        self.is_whole = False
        self.file.close()
