"""The files that the command reads: versions, each kept as it was when it was named, and scripts."""
import contextlib
import fcntl
import os
import pathlib
import shutil
import tempfile

# How the names of the folders of copies begin.
PREFIX = "varan-listen."


class Version:
    """A version of the service: the operator's name for it, and a copy, so that a process that is begun anew has the same version whatever became of the file."""

    def __init__(self, name, copy):
        self.name, self.copy = name, copy

    def __str__(self):
        return self.name


class Script:
    """A script, or none. Its planned lengths are those at which a leader gives up the lead."""

    def __init__(self, path=None, text=b""):
        self.path, self.text = path, text

    def words(self):
        return ["--script", str(self.path)] if self.path else []

    def lengths(self):
        """Its planned lengths."""
        fields = (line.split() for line in self.text.splitlines())
        return [int(it[1]) for it in fields if len(it) == 2 and it[0] == b"hand" and it[1].isdigit()]


def lock(folder, how=fcntl.LOCK_EX):
    """Locks a folder until this process ends, in whatever way, or the lock that it comes to is closed."""
    held = os.open(folder, os.O_RDONLY | os.O_DIRECTORY | os.O_NOFOLLOW)
    try:
        fcntl.flock(held, how)
    except OSError:
        os.close(held)
        raise
    return held


def remove_left():
    """Removes the folders of processes that were killed."""
    for folder in pathlib.Path(tempfile.gettempdir()).glob(f"{PREFIX}*"):
        with contextlib.suppress(OSError):
            remove_unlocked(folder)


def remove_unlocked(folder):
    """Removes a folder that no process has locked. An empty one stays: it may be of a process that has just begun."""
    held = lock(folder, fcntl.LOCK_EX | fcntl.LOCK_NB)
    try:
        if os.listdir(held):
            shutil.rmtree(folder)
    finally:
        os.close(held)


class Files:
    """The folder of the copies, which is removed in the end. Where a process was killed nobody wants its copies any more, and the next one removes them."""

    def __init__(self):
        remove_left()
        self.room = tempfile.TemporaryDirectory(prefix=PREFIX)
        with contextlib.suppress(OSError):
            lock(self.room.name)
        self.count = 0

    def new(self, name):
        """A path for a new file. The name shows in what the command says of it."""
        self.count += 1
        folder = pathlib.Path(self.room.name, str(self.count))
        folder.mkdir()
        return folder / pathlib.Path(name).name

    def version(self, name):
        """This version as it is now. Where it can't be copied the command reads it, and says why it can't."""
        try:
            copy = shutil.copyfile(name, self.new(name))
        except OSError:
            copy = name
        return Version(name, str(copy))

    def script(self, text, name="script"):
        path = self.new(name)
        path.write_bytes(text)
        return Script(path, text)

    def script_at(self, path):
        """This script as it is now, or none where no path is given. Where it can't be read the command says why."""
        if path is None:
            return Script()
        try:
            return self.script(pathlib.Path(path).read_bytes(), path)
        except OSError:
            return Script(path)

    def without(self, script, lengths):
        """The script without these planned lengths."""
        gone = {b"hand %d" % it for it in lengths}
        if not set(lengths) & set(script.lengths()):
            return script
        return self.script(b"".join(line + b"\n" for line in script.text.splitlines() if b" ".join(line.split()) not in gone))

    def close(self):
        self.room.cleanup()
