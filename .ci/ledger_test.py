#!/usr/bin/env python3
"""Tries ledger.py on a made-up repository: what it says of a ledger after each kind of change, and which lines the edits that were tried get.

Status: 0 if each comes out as it is written here, else 1.
"""
import pathlib
import sys
import tempfile

sys.dont_write_bytecode = True
import edits
import ledger

# `high` uses `mid`, which uses `low`; nothing uses `other`.
FILES = {
    "crates.txt": "# The crates.\nlow:\nmid: low byteorder\nhigh may_wait=9: mid\nother:\n",
    "crates/low/src/lib.rt": "fn low() {}\n",
    "crates/low/specs/Low.antt": "low : 1\n",
    "crates/mid/src/lib.rt": "fn mid() -> u32 { 1 }\n",
    "crates/mid/src/more/part.rt": "fn part() {}\n",
    "crates/mid/specs/Mid.antt": "mid : 2\n",
    "crates/mid/proofs/Laws.antt": "law : 3\n",
    "crates/mid/must-fail/at_gate.edit": "file: src/lib.rt\nold: 1\nnew: 3\n",
    "crates/mid/must-fail-by-hand/wrong.edit": "file: src/lib.rt\nold: 1\nnew: 2\n",
    "crates/high/src/main.rt": "fn main() {}\n",
    "crates/high/specs/Headline.antt": "use low\n",
    "crates/high/must-fail-by-hand/late.edit": "file: src/main.rt\nold: main\nnew: mains\n",
    "crates/other/specs/Other.antt": "other : 4\n",
}
WRONG, LATE = "mid/wrong", "high/late"
AT_WRONG, AT_LATE = "mid/wrong was tried on another text", "high/late was tried on another text"
# What changes once both edits have a line, with None for a file that goes; what is wrong then, in this order; and how many edits of those tried by hand
# the ledger has, and how many are stale: without a line, by definitions below, by their crate.
CHANGES = [
    ({}, [], (2, 0, 0, 0)),
    # neither a proof nor the code of a crate below, nor what no one uses, nor what rt makes, nor the list for readers
    ({"crates/mid/proofs/Laws.antt": "law : 4\n"}, [], (2, 0, 0, 0)),
    ({"crates/low/src/lib.rt": "fn low() { }\n"}, [], (2, 0, 0, 0)),
    ({"crates/other/specs/Other.antt": "other : 5\n"}, [], (2, 0, 0, 0)),
    ({"crates/mid/out/src/lib.rt": "fn made() {}\n"}, [], (2, 0, 0, 0)),
    ({"crates/mid/src/notes.txt": "notes\n"}, [], (2, 0, 0, 0)),
    ({"crates/high/specs/Headline.antt": "use mid\n"}, [], (2, 0, 0, 0)),
    # lines that are comments alone
    ({"crates/mid/src/lib.rt": "// A number.\nfn mid() -> u32 { 1 }\n"}, [], (2, 0, 0, 0)),
    ({"crates/mid/specs/Mid.antt": "  -- a number\nmid : 2\n", "crates/low/specs/Low.antt": "low : 1\n-- one\n"}, [], (2, 0, 0, 0)),
    # the edit's own crate: its code, its definitions, their names, and the edit
    ({"crates/mid/src/lib.rt": "fn mid() -> u32 { 1 } // one\n"}, [AT_WRONG], (1, 0, 0, 1)),
    ({"crates/mid/src/more/part.rt": None}, [AT_WRONG], (1, 0, 0, 1)),
    ({"crates/mid/src/more/part.rt": None, "crates/mid/src/part.rt": "fn part() {}\n"}, [AT_WRONG], (1, 0, 0, 1)),
    ({"crates/mid/must-fail-by-hand/wrong.edit": "file: src/lib.rt\nold: 1\nnew: 4\n"}, [AT_WRONG], (1, 0, 0, 1)),
    ({"crates/high/src/main.rt": "fn main() { }\n"}, [AT_LATE], (1, 0, 0, 1)),
    # definitions of a crate below, right below or further down
    ({"crates/low/specs/Low.antt": "low : 2\n"}, [], (0, 0, 2, 0)),
    ({"crates/low/specs/More.antt": ""}, [], (0, 0, 2, 0)),
    ({"crates/mid/specs/Mid.antt": "mid : 3\n"}, [AT_WRONG], (0, 0, 1, 1)),
    ({"crates.txt": "low:\nmid: low other\nhigh: mid\nother:\n"}, [], (0, 0, 2, 0)),
    # edits that come, go, and move to the gate
    ({"crates/low/must-fail-by-hand/new.edit": "file: src/lib.rt\n"}, [], (2, 1, 0, 0)),
    ({"crates/mid/must-fail-by-hand/wrong.edit": None}, ["remove the line of mid/wrong, of which there is no edit"], (1, 0, 0, 0)),
    ({"crates/mid/must-fail-by-hand/wrong.edit": None, "crates/mid/must-fail/wrong.edit": "file: src/lib.rt\nold: 1\nnew: 2\n"}, ["remove the line of mid/wrong, which the gate tries"], (1, 0, 0, 0)),
]
# A ledger's text with {wrong} and {late} for the lines of the two edits; what is wrong, and the same counts.
LEDGERS = [
    ("", [], (0, 2, 0, 0)),
    ("# nothing yet\n\n", [], (0, 2, 0, 0)),
    ("{late}\n", [], (1, 1, 0, 0)),
    ("{wrong}\n{late}\n{wrong}\n", ["edits.ledger:3: mid/wrong has a line already"], (2, 0, 0, 0)),
    ("{wrong}\n{late} of main\n", ["edits.ledger:2: `a clause of main` isn't among what counts"], (1, 1, 0, 0)),
    ("mid/wrong\n{late}\n", ["edits.ledger:1: no line of an edit"], (1, 1, 0, 0)),
    ("mid/wrong 0 1 a clause\n", ["edits.ledger:1: no line of an edit"], (0, 2, 0, 0)),
    ("mid/wrong 0123456789abcdef 0123456789abcdef a clause\n{late}\n", [AT_WRONG], (1, 0, 0, 1)),
]
REFUSED = "refused, as it must be"
AT_CLAUSE = f"{REFUSED}: note: src/lib.rt:1:1: it is not proved that what the function ensures holds when it returns (`returns`)"
AT_CONDITION = f"{REFUSED}: note: src/lib.rt:1:1: it is not proved that what `f` requires holds at this call (`f-requires`)"
# What a run tells of the two edits, what docs/TESTING.md lists, and what their lines have then; nothing for an edit without a line. Both had one before.
TRIED = [
    ({WRONG: AT_CLAUSE, LATE: AT_CLAUSE}, set(), {WRONG: edits.CLAUSE, LATE: edits.CLAUSE}),
    ({WRONG: AT_CONDITION, LATE: AT_CLAUSE}, set(), {LATE: edits.CLAUSE}),
    ({WRONG: AT_CONDITION}, {WRONG}, {WRONG: edits.LISTED, LATE: edits.RULE}),
    ({WRONG: "NOT REFUSED: the crate is still proved with this edit"}, {WRONG}, {LATE: edits.RULE}),
    ({WRONG: "NOT TRIED: its check was killed"}, set(), {LATE: edits.RULE}),
    ({"mid/another": AT_CLAUSE}, set(), {WRONG: edits.RULE, LATE: edits.RULE}),
    ({}, set(), {WRONG: edits.RULE, LATE: edits.RULE}),
]
# What --list names once both edits have a line and these files changed.
LISTED = [
    ({}, ["high: ledger: late", "mid: gate: at_gate; ledger: wrong"]),
    ({"crates/mid/specs/Mid.antt": "mid : 3\n"}, ["high: stale: late", "mid: gate: at_gate; stale: wrong"]),
    ({"crates/low/must-fail-by-hand/new.edit": "file: src/lib.rt\n"}, ["high: ledger: late", "low: stale: new", "mid: gate: at_gate; ledger: wrong"]),
]


def made(top, files):
    """Makes the files, or removes those without a text."""
    for name, text in files.items():
        path = pathlib.Path(top, name)
        if text is None:
            path.unlink()
        else:
            path.parent.mkdir(parents=True, exist_ok=True)
            path.write_text(text)


def lines_of(top):
    """The lines of both edits as the files are."""
    sums = ledger.Sums(top)
    return {"wrong": str(ledger.Line(WRONG, *sums.of(WRONG), edits.CLAUSE)), "late": str(ledger.Line(LATE, *sums.of(LATE), edits.CLAUSE))}


def said_of(top, text):
    """What is wrong with a ledger, and its counts, as the files are."""
    by_gate, by_hand = edits.edits_of(f"{top}/crates").keys(), edits.edits_of(f"{top}/crates", edits.BY_HAND).keys()
    return ledger.compare(text, by_gate, by_hand, ledger.Sums(top))


def is_as_wanted(found, wanted, counts):
    wrong, said = found
    tried, unlisted, below, own = counts
    parts = (f" {tried} by the ledger, and {unlisted + below + own} are stale: {unlisted} without a line, {below} by definitions below, {own} by their crate")
    return len(wrong) == len(wanted) and all(part in it for part, it in zip(wanted, wrong)) and said.endswith(parts)


def faults():
    """A line for each case that comes out otherwise."""
    for changes, wanted, counts in CHANGES:
        with tempfile.TemporaryDirectory() as top:
            made(top, FILES)
            text = "{wrong}\n{late}\n".format(**lines_of(top))
            made(top, changes)
            if not is_as_wanted(found := said_of(top, text), wanted, counts):
                yield f"{changes}: {found}"
    for text, wanted, counts in LEDGERS:
        with tempfile.TemporaryDirectory() as top:
            made(top, FILES)
            if not is_as_wanted(found := said_of(top, text.format(**lines_of(top))), wanted, counts):
                yield f"{text!r}: {found}"
    for changes, wanted in LISTED:
        with tempfile.TemporaryDirectory() as top:
            made(top, FILES)
            text = "{wrong}\n{late}\n".format(**lines_of(top))
            made(top, changes)
            by_gate, by_hand = edits.edits_of(f"{top}/crates").keys(), edits.edits_of(f"{top}/crates", edits.BY_HAND).keys()
            if (found := list(ledger.listed(text, by_gate, by_hand, ledger.Sums(top)))) != wanted:
                yield f"{changes}: {found}"
    for told, listed, wanted in TRIED:
        with tempfile.TemporaryDirectory() as top:
            made(top, FILES)
            yield from tried_faults(top, told, listed, wanted)


def tried_faults(top, told, listed, wanted):
    """What comes out otherwise of a run that tells this, and whether what it writes is the ledger of the files as they are."""
    log = [f"rt: must-fail {name}.edit: {came_to}" for name, came_to in told.items()]
    known = edits.edits_of(f"{top}/crates", edits.BY_HAND)
    sums = {name: ledger.Sums(top).of(name) for name in known}
    before = "".join(f"{ledger.Line(name, *sums[name], edits.RULE)}\n" for name in known)
    text = ledger.updated(before, ledger.lines_for(log, known, edits.Page(conditions=listed), sums))
    lines, wrong = ledger.lines_in(text)
    if wrong or {name: it.what for name, it in lines.items()} != wanted:
        yield f"{told}: {text}"
    if said_of(top, text)[0] or ledger.updated(text, {}) != text:
        yield f"{told}: the ledger that is written isn't that of the files: {text}"


if __name__ == "__main__":
    wrong = list(faults())
    for it in wrong:
        print(f"ledger_test.py: {it}")
    print(f"ledger_test.py: {len(CHANGES) + len(LEDGERS) + len(LISTED) + len(TRIED)} cases, {len(wrong)} wrong")
    sys.exit(1 if wrong else 0)
