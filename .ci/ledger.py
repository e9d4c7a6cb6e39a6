#!/usr/bin/env python3
"""Counts which must-fail edits were tried on the code as it is, at the top of the repository: those of must-fail/ by the gate, those of must-fail-by-hand/ by the
ledger, .ci/edits.ledger.

A line of the ledger is `CRATE/EDIT OWN BELOW WHAT`: an edit that was tried by hand, two sums of what it was tried on, and what refused it, of what counts by
.ci/edits.py. OWN is of the edit and of its crate's src/ and specs/, BELOW of the specs/ of all crates below, each without the lines that are comments alone.
`.ci/by_hand.py NAME ..` writes the lines of the edits that it tries, and removes those of edits that didn't count.

An edit is stale if it has no line, or if one of its sums has changed. The check prints how many are. It fails if OWN has changed: the crate is someone's who can
try its edits. It fails as well if a line can't be read, or names no edit that is tried by hand, or has something that doesn't count.
With --list it first names each edit, crate by crate, as one that the gate tries, that the ledger has, or that is stale.
Status: 0, or 1 if it fails.
"""
import dataclasses
import hashlib
import os
import re
import sys

sys.dont_write_bytecode = True
import edits

LEDGER = ".ci/edits.ledger"
HEAD = """# Edits that were tried by hand: CRATE/EDIT, a sum of the edit and of its crate's src/ and specs/, a sum of the specs/ of the crates below, and what refused it.
# Written by .ci/by_hand.py, compared by .ci/ledger.py.
"""
LINE = re.compile(r"(\w+/[\w.-]+) ([0-9a-f]{16}) ([0-9a-f]{16}) (\S.*)")
CRATE = re.compile(r"(?m)^(\w+)[^:#\n]*:(.*)$")
# a list of imports for readers, which no contract cites
READING_LIST = "Headline.antt"


@dataclasses.dataclass(frozen=True)
class Line:
    """An edit that was tried: two sums of what it was tried on, and what refused it."""

    name: str
    own: str
    below: str
    what: str

    def __str__(self):
        return f"{self.name} {self.own} {self.below} {self.what}"


def sum_of(parts):
    """A sum of texts with their names, whatever order they come in."""
    whole = hashlib.sha256()
    for name, text in sorted(parts):
        for piece in (name.encode(), text):
            whole.update(len(piece).to_bytes(8, "little") + piece)
    return whole.hexdigest()[:16]


def without_comments(text):
    """A text of Rattle without the lines that are comments alone."""
    return b"".join(line for line in text.splitlines(keepends=True) if not line.lstrip().startswith((b"//", b"--")))


class Sums:
    """The sums of a repository's crates, as its files are."""

    def __init__(self, top):
        self.top = top
        with open(f"{top}/crates.txt", encoding="utf-8") as text:
            self.uses = {name: below.split() for name, below in CRATE.findall(text.read())}

    def texts(self, crate, part, kind):
        """The files of a kind in a part of a crate, as (name, content)."""
        folder = f"{self.top}/crates/{crate}/{part}"
        for place, _, files in os.walk(folder):
            for file in files:
                if file.endswith(kind) and file != READING_LIST:
                    with open(f"{place}/{file}", "rb") as text:
                        yield f"{crate}/{part}/{os.path.relpath(f'{place}/{file}', folder)}", without_comments(text.read())

    def crates_below(self, crate):
        """All of the repository's crates that a crate uses, and those that these use."""
        found, todo = set(), [crate]
        while todo:
            for name in self.uses.get(todo.pop(), ()):
                if name in self.uses and name not in found:
                    found.add(name)
                    todo.append(name)
        return found

    def of(self, name, folder=edits.BY_HAND):
        """The two sums of an edit, which is in this folder of its crate."""
        crate, _, edit = name.partition("/")
        with open(f"{self.top}/crates/{crate}/{folder}/{edit}.edit", "rb") as text:
            own = [("", text.read()), *self.texts(crate, "src", ".rt"), *self.texts(crate, "specs", ".antt")]
        below = [it for other in self.crates_below(crate) for it in self.texts(other, "specs", ".antt")]
        return sum_of(own), sum_of(below)


def lines_in(text):
    """The ledger's lines by their edits, and what is wrong with the others."""
    found, wrong = {}, []
    for at, line in enumerate(text.split("\n"), 1):
        if not line or line.startswith("#"):
            continue
        it = LINE.fullmatch(line)
        if not it:
            wrong.append(f"{LEDGER}:{at}: no line of an edit: {line}")
        elif it[4] not in edits.KINDS:
            wrong.append(f"{LEDGER}:{at}: `{it[4]}` isn't among what counts")
        elif it[1] in found:
            wrong.append(f"{LEDGER}:{at}: {it[1]} has a line already")
        else:
            found[it[1]] = Line(*it.groups())
    return found, wrong


def updated(text, tried):
    """The ledger after these edits were tried: the line of each, or None for one that doesn't count."""
    lines = lines_in(text)[0] | tried
    return HEAD + "".join(f"{it}\n" for _, it in sorted(lines.items()) if it)


def lines_for(log, known, page, sums):
    """The line of each edit that the log tells of, by the sums of what it was tried on, or None for one that doesn't count."""
    told = edits.told_in(log)
    found = {}
    for name in known.keys() & told.keys():
        what = edits.refused_by(name, *told[name], known[name], page)
        found[name] = Line(name, *sums[name], what) if what else None
    return found


def compare(text, by_gate, by_hand, sums):
    """What is wrong, and the line that says how many edits are tried and how many are stale."""
    lines, wrong = lines_in(text)
    tried, unlisted, below = 0, 0, 0
    for name in sorted(lines.keys() - by_hand):
        wrong.append(f"{LEDGER}: remove the line of {name}, {'which the gate tries' if name in by_gate else 'of which there is no edit'}")
    for name in sorted(by_hand):
        if name not in lines:
            unlisted += 1
            continue
        own_now, below_now = sums.of(name)
        if lines[name].own != own_now:
            wrong.append(f"{name} was tried on another text of the edit or of its crate: .ci/by_hand.py {name.partition('/')[0]}")
        elif lines[name].below != below_now:
            below += 1
        else:
            tried += 1
    changed = len(by_hand) - tried - unlisted - below
    said = (f"of {len(by_gate) + len(by_hand)} edits {len(by_gate)} are tried by the gate, {tried} by the ledger, and {len(by_hand) - tried} are stale: {unlisted} without a line, "
            f"{below} by definitions below, {changed} by their crate")
    return wrong, said


def listed(text, by_gate, by_hand, sums):
    """A line for each crate with edits, which names them by who tries them."""
    lines = lines_in(text)[0]
    kinds = {name: "gate" for name in by_gate}
    for name in by_hand:
        line = lines.get(name)
        kinds[name] = "ledger" if line and (line.own, line.below) == sums.of(name) else "stale"
    for crate in sorted({name.partition("/")[0] for name in kinds}):
        of_kind = {kind: [name.partition("/")[2] for name in sorted(kinds) if name.startswith(f"{crate}/") and kinds[name] == kind] for kind in ("gate", "ledger", "stale")}
        yield f"{crate}: " + "; ".join(f"{kind}: {' '.join(names)}" for kind, names in of_kind.items() if names)


def content(path):
    """The text of a file; nothing if there is no such file."""
    if not os.path.isfile(path):
        return ""
    with open(path, encoding="utf-8") as text:
        return text.read()


def write(tried):
    """Writes what these edits came to into the ledger."""
    text = updated(content(LEDGER), tried)
    with open(LEDGER, "w", encoding="utf-8") as it:
        it.write(text)


def main():
    by_gate, by_hand = edits.edits_of("crates").keys(), edits.edits_of("crates", edits.BY_HAND).keys()
    if sys.argv[1:] == ["--list"]:
        for line in listed(content(LEDGER), by_gate, by_hand, Sums(".")):
            print(f"ledger.py: {line}")
    wrong, said = compare(content(LEDGER), by_gate, by_hand, Sums("."))
    for it in wrong:
        print(f"ledger.py: {it}")
    print(f"ledger.py: {said}")
    return 1 if wrong else 0


if __name__ == "__main__":
    sys.exit(main())
