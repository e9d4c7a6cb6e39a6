#!/usr/bin/env python3
"""Follows a page: does its commands from top to bottom, and compares what they print with what the page says.

    follow.py PAGE [PROGRAM]             crates/varan/out/varan where no program is named
    follow.py --write PAGE [PROGRAM]     writes into the page what they print

A command is a line `$ ..` of an indented block. It goes on over lines `> ..`, and what it prints stands below it, up to the next command or the end of the block. There a line `..` stands for
lines that are left out, and ` ..` at the end of a line for the rest of it. All commands are done in one shell, in copies of docs/, examples/ and service/, so nothing is changed here.
Those that want a program of the host that isn't there (WANTED) are left out, and a line with `left out` tells how many, and the Debian package.

The last line says how many commands there were and how many printed something else. Status: 0 where none did, 1 where one did or where they took longer than SECONDS,
2 where the program isn't built, the page can't be read or the words are others. Whatever the commands started is ended with them.
"""
import collections
import contextlib
import functools
import os
import pathlib
import re
import shutil
import signal
import subprocess
import sys
import tempfile

TOP = pathlib.Path(__file__).resolve().parent.parent
COPIED = ["docs", "examples", "service"]
INDENT = "    "
COMPILER = "riscv64-unknown-elf-gcc"
# What a command may want of the host: how its text shows that, the program, and the Debian packages.
WANTED = [
    (re.compile(r"\bgdb-multiarch\b"), "gdb-multiarch", "gdb-multiarch"),
    (re.compile(r"\bdebug/"), COMPILER, "gcc-riscv64-unknown-elf, picolibc-riscv64-unknown-elf"),
    (re.compile(r"build\.sh|riscv64-unknown-elf-|\bguests/cc\b|_checked\b"), COMPILER, "gcc-riscv64-unknown-elf, picolibc-riscv64-unknown-elf"),
    (re.compile(r"\bjq\b|\bparting\.py\b"), "jq", "jq"),
    (re.compile(r"\bxxd\b"), "xxd", "xxd"),
    (re.compile(r"\bqemu-riscv32\b"), "qemu-riscv32", "qemu-user"),
    (re.compile(r"\bsocat\b"), "socat", "socat"),
]
# Printed between the commands; no command prints it.
MARK = "---- the next command ----"
SECONDS = 300


class Command:
    """A command of a page, and where in the page stands what it prints: the lines from `first` to before `end`."""

    def __init__(self, text, first):
        self.text = text
        self.first = self.end = first
        self.printed = []

    def lacks(self):
        """The first program that the command wants and that isn't on this machine, with its packages; or None."""
        return next(((tool, packages) for sign, tool, packages in WANTED if sign.search(self.text) and not is_there(tool)), None)


class TooLong(Exception):
    pass


@functools.cache
def is_there(tool):
    """Whether the host has the program; the compiler, whether it has its library too."""
    if shutil.which(tool) is None:
        return False
    if tool != COMPILER:
        return True
    words = [tool, "--specs=picolibc.specs", "-march=rv32ima", "-mabi=ilp32", "-E", "-"]
    return subprocess.run(words, input=b"#include <stdio.h>\n", stdout=subprocess.DEVNULL, stderr=subprocess.DEVNULL).returncode == 0


def block_ends(lines, at):
    """Whether an indented block ends before this line. It goes on over empty lines, if it goes on after them."""
    while at < len(lines) and lines[at] == "":
        at += 1
    return at == len(lines) or not lines[at].startswith(INDENT)


def read_commands(lines):
    commands, now = [], None
    for at, line in enumerate(lines):
        text = line[len(INDENT) :]
        if not line.startswith(INDENT) and block_ends(lines, at):
            now = None
        elif text.startswith("$ "):
            now = Command(text[2:], at + 1)
            commands.append(now)
        elif now is not None and text.startswith("> ") and not now.printed:
            now.text += "\n" + text[2:]
            now.first = now.end = at + 1
        elif now is not None:
            now.printed.append(text)
            now.end = at + 1 if text else now.end
    for command in commands:
        del command.printed[command.end - command.first :]
    return commands


def is_printed(pattern, printed):
    """Whether lines are those of the page, in which dots stand for what is left out."""
    parts = []
    for line in pattern:
        if line == "..":
            parts.append(r"(?:.*\n)*")
        elif line.endswith(" .."):
            parts.append(re.escape(line[:-2]) + r".*\n")
        else:
            parts.append(re.escape(line) + r"\n")
    return re.fullmatch("".join(parts), "".join(line + "\n" for line in printed)) is not None


def do(commands, program):
    """What each command prints."""
    with tempfile.TemporaryDirectory() as place:
        place = pathlib.Path(place)
        for name in COPIED:
            shutil.copytree(TOP / name, place / name)
        (place / "bin").mkdir()
        (place / "bin/varan").symlink_to(program)
        # What ends a command keeps its status, so that `echo $?` shows it.
        lines = [f"PATH={place}/bin:$PATH", f"next() {{ local status=$?; echo '{MARK}'; return $status; }}"]
        for command in commands:
            lines += [command.text, "next"]
        (place / "commands").write_text("\n".join(lines) + "\n")
        said = ended(["bash", "commands"], place)
    printed = said.decode(errors="replace").split(MARK + "\n")[:-1]
    return [text.rstrip("\n").split("\n") if text.strip() else [] for text in printed]


def ended(words, place):
    """What the command prints, in a group of its own, whose processes are all ended where it takes too long, or where this script is ended."""
    begun = subprocess.Popen(words, cwd=place, stdin=subprocess.DEVNULL, stdout=subprocess.PIPE, stderr=subprocess.STDOUT, start_new_session=True)
    try:
        return begun.communicate(timeout=SECONDS)[0]
    except subprocess.TimeoutExpired:
        raise TooLong from None
    finally:
        with contextlib.suppress(ProcessLookupError):
            os.killpg(begun.pid, signal.SIGKILL)
        begun.wait()


def stop(why):
    print(f"follow.py: {why}")
    sys.exit(2)


def read(page):
    try:
        return page.read_text().split("\n")
    except (OSError, UnicodeDecodeError) as error:
        stop(f"{page} can't be read: {getattr(error, 'strerror', None) or error}")


def kept(commands, page):
    """The commands whose programs are there. Of the others it tells how many there are."""
    lacking = collections.Counter(filter(None, (command.lacks() for command in commands)))
    for (tool, packages), count in lacking.items():
        print(f"follow.py: left out: {count} commands of {page.name}, for want of {tool} (Debian: {packages})")
    return [command for command in commands if not command.lacks()]


def main():
    # A signal to end unwinds as Ctrl-C does, so that what was started is ended too.
    signal.signal(signal.SIGTERM, lambda *_: sys.exit(1))
    words = sys.argv[1:]
    is_writing = words[:1] == ["--write"]
    words = words[is_writing:]
    if len(words) not in (1, 2):
        stop("the words are [--write] PAGE [PROGRAM]")
    page = pathlib.Path(words[0])
    program = pathlib.Path(words[1] if len(words) > 1 else TOP / "crates/varan/out/varan").resolve()
    if not os.access(program, os.X_OK) or program.is_dir():
        stop(f"{program} isn't built")
    lines = read(page)
    commands = kept(read_commands(lines), page)
    try:
        done = do(commands, program)
    except TooLong:
        print(f"follow.py: {page}: the commands take longer than {SECONDS} seconds, and were ended")
        return 1
    if len(done) != len(commands):
        print(f"follow.py: {page}: the shell ended in command {len(done) + 1}: {commands[len(done)].text}")
        return 1
    wrong = 0
    for command, printed in reversed(list(zip(commands, done))):
        if is_printed(command.printed, printed):
            continue
        wrong += 1
        if is_writing:
            lines[command.first : command.end] = [INDENT + line if line else "" for line in printed]
        else:
            print(f"follow.py: {page}:{command.first}: {command.text}", "the page has", *command.printed, "printed was", *printed, sep="\n")
    if is_writing:
        page.write_text("\n".join(lines))
    print(f"follow.py: {page.name}: {len(commands)} commands, {wrong} {'written' if is_writing else 'wrong'}")
    return 1 if wrong and not is_writing else 0


if __name__ == "__main__":
    sys.exit(main())
