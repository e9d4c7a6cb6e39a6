#!/usr/bin/env python3
"""Says which must-fail edits show nothing of a contract, by what `rt ci` told of each, at the top of the repository.

    .ci/edits.py LOG           writes a line for each edit that shows nothing, for each that the log doesn't tell of, and for each line of docs/TESTING.md that is of no use
    .ci/edits.py --all LOG     writes for each edit what refused it

An edit counts where the prover refuses it at something that is listed here: a goal of an `ensures`, a type's or a loop's invariant, the rule of the table that
stations share, or a law where the edit changes a definition. Where the search gave up at such a goal, it counts if the edit changes values alone: then the text as it stands
is the right value in the wrong one's place, and the same search proves that. Whatever else is said of it, or nothing, is a reason why it doesn't count. docs/TESTING.md has the same
as a table, and names those edits that count though something else refuses them: a condition that is the rule itself, and an answer or a lemma of a proof file, or a
goal at which the search gave up, that was tried with the right value; and those of the last kind that weren't tried yet.
Status: 0 where there is no line to write, else 1.
"""
import dataclasses
import os
import re
import sys

# What the gate says of an edit: its name, what it came to, and what the prover said first of what isn't proved.
TOLD = re.compile(r"rt: must-fail (\w+/[\w.-]+)\.edit: ([^:(]*)(.*)")
REFUSED = "refused, as it must be"
LACKS_A_NAME = "(only because a proof file names"
AT_A_LIMIT = "(only by a limit of the prover"

# A goal that no answer of a proof file is for: `note: src/x.rt:1:2: it is not proved that WHAT (`GOAL`)`, and maybe why. rt cuts what is said at 160 bytes.
OPEN_GOAL = re.compile(r": note: src/\S+:\d+:\d+: (?:it is not proved that )?(.*)")
GOAL = re.compile(r"\(`([\w.'-]+)(`\))?")
# An answer or a lemma that doesn't prove its goal: `proofs/f/Answers.antt:1:2: error: `GOAL`: WHY`.
ANSWER = re.compile(r": (?:\./)?proofs/\S+:\d+:\d+: error: `([^`]*)`: (.*)")
# The prover's search stopped before it knew. After a goal's name nothing else but this and a counterexample is said, so the sign before it is enough.
GAVE_UP = re.compile(r"`\); `|gave up|broke off|given up after|ran out of|stopped at|outgrew the memory limit")

CLAUSE, INVARIANT, LOOP, RULE, LAW = "a clause", "a type's invariant", "a loop's invariant", "the table's rule", "a law"
# what docs/TESTING.md names, though something else refuses it
LISTED = "a reason that is listed"
KINDS = (CLAUSE, INVARIANT, LOOP, RULE, LAW, LISTED)
COUNTS = [
    (CLAUSE, re.compile(r"returns($|-)")),
    (INVARIANT, re.compile(r"invariant_of-")),
    (LOOP, re.compile(r"loop(-\S*)?-(init|preserved)($|-)")),
    # Where a seat writes to the table that stations share, and where that table is made, what the call requires is the table's rule.
    (RULE, re.compile(r"(store|exchange|new-made)-requires($|-)")),
]
# The same by the words before a goal's name, which may be cut off.
WORDS = [
    (CLAUSE, "what the function ensures holds when it returns"),
    (INVARIANT, "the `invariant` of the struct's"),
    (INVARIANT, "the `invariant` holds of the struct's fields"),
    (INVARIANT, "the struct's ghost fields"),
    (LOOP, "the invariant of the loop holds"),
]
# Names of what is no clause: what a call requires, and that a number, an index or a divisor is within its bounds, and that a loop ends.
CONDITION = re.compile(r"(^|-)(requires|overflow_|bounds-|slice_bounds-|offset_bounds-|nonzero_|prove-)|-smaller$")
ROW = re.compile(r"\| `(\w+/[\w.-]+)` \|")
UNSURE = "the search gave up, so nothing says that it is false"
WORD = re.compile(r"\w+|[^\w\s]")

# The folders of a crate: of the edits that the gate tries, and of those that are tried by hand (by_hand.py).
GATE, BY_HAND = "must-fail", "must-fail-by-hand"


@dataclasses.dataclass
class Edit:
    """What a file of must-fail/ changes: a definition; and whether it changes words one for one, and adds and drops none."""

    changes_definition: bool = False
    changes_values: bool = False

    @classmethod
    def of(cls, text):
        old, new = re.findall(r"(?m)^old: (.*)$", text), re.findall(r"(?m)^new:(.*)$", text)
        pairs = zip(old, new) if len(old) == len(new) else [("a", "")]
        return cls("\nfile: specs/" in "\n" + text, all(len(WORD.findall(a)) == len(WORD.findall(b)) for a, b in pairs))


def kind_of(goal, words):
    """What a goal is of, of what counts; None for all else."""
    by_name = next((kind for kind, name in COUNTS if name.match(goal)), None)
    return by_name or next((kind for kind, said in WORDS if said in words), None)


def shown_by(came_to, said, edit):
    """What an edit shows, and None; or None, and why it shows nothing."""
    if came_to.strip() != REFUSED:
        return None, f"{came_to}{said}"
    if said.startswith(LACKS_A_NAME):
        return None, "only a name is missing: change a value and keep the names"
    if said.startswith(AT_A_LIMIT):
        return None, "only a limit of the prover refuses it"
    at_goal, at_answer = OPEN_GOAL.match(said), ANSWER.match(said)
    if at_goal:
        words, found = at_goal[1], GOAL.search(at_goal[1])
        goal = found[1] if found else ""
        is_unsure = GAVE_UP.search(words) and "allow values" not in words
    elif at_answer:
        goal, words = at_answer[1], ""
        is_unsure = GAVE_UP.search(at_answer[2])
    else:
        return None, f"no goal is named{said}"
    if is_unsure and not edit.changes_values:
        return None, f"{UNSURE}{said}"
    kind = kind_of(goal, words)
    if kind is None and at_answer and edit.changes_definition and not CONDITION.search(goal):
        kind = LAW
    if kind is None and (CONDITION.search(goal) or not goal):
        return None, f"a condition or a bound on the way refuses it, and no clause{said}"
    return (kind, None) if kind else (None, f"what refuses it is none of what counts{said}")


def edits_of(folder, kind=GATE):
    """Returns the edits of a kind that stand in the crates, by their names as CRATE/NAME."""
    found = {}
    for crate in os.listdir(folder):
        place = f"{folder}/{crate}/{kind}"
        for it in os.listdir(place) if os.path.isdir(place) else []:
            if it.endswith(".edit"):
                with open(f"{place}/{it}", encoding="utf-8", errors="replace") as text:
                    found[f"{crate}/{it.removesuffix('.edit')}"] = Edit.of(text.read())
    return found


def told_in(lines):
    """What the log says of each edit, by its name: what it came to, and what was said."""
    return {it[1]: (it[2], it[3]) for it in map(TOLD.match, lines) if it}


@dataclasses.dataclass
class Page:
    """The names on docs/TESTING.md: of edits that a condition may refuse, and of those that were tried with the right value."""

    conditions: set = dataclasses.field(default_factory=set)
    tried: set = dataclasses.field(default_factory=set)

    @classmethod
    def of(cls, text):
        parts = {part.partition("\n")[0]: set(ROW.findall(part)) for part in text.split("\n## ")}
        return cls(*(parts.get(title, set()) for title in ("Conditions that are the rule", "Tried with a right value")))

    def only(self, names):
        """The page's rows of these edits."""
        return Page(self.conditions & names, self.tried & names)

    def takes(self, name, why, said):
        """Whether an edit counts by the page."""
        return name in self.conditions or name in self.tried and (why.startswith(UNSURE) or ANSWER.match(said))


def refused_by(name, came_to, said, edit, page):
    """What refused an edit, of what counts; None for one that doesn't count."""
    kind, why = shown_by(came_to, said, edit)
    if why and came_to.strip() == REFUSED and page.takes(name, why, said):
        return LISTED
    return kind


def faults_in(lines, edits, page, untold=frozenset()):
    """Returns a line for each edit that shows nothing or isn't told of, and for each name of the page that is of no use. Other edits that stand, and that the run needn't tell of, are `untold`."""
    told = told_in(lines)
    whys = {name: shown_by(*it, edits.get(name, Edit()))[1] for name, it in told.items()}
    for name, why in sorted(whys.items()):
        if why and not (told[name][0].strip() == REFUSED and page.takes(name, why, told[name][1])):
            yield f"{name}: {why}"
    for name in sorted(edits.keys() - told.keys()):
        yield f"{name}: the run says nothing of it"
    for name in sorted(page.conditions - untold):
        if name not in told or not whys[name]:
            yield f"{name}: docs/TESTING.md names it, and it counts without"
    for name in sorted(page.tried - edits.keys() - untold):
        yield f"{name}: docs/TESTING.md names it, and there is no such edit"


def main(words):
    if len(words) not in (1, 2) or words[:-1] not in ([], ["--all"]):
        sys.exit(__doc__)
    with open("docs/TESTING.md", encoding="utf-8") as text:
        page = Page.of(text.read())
    edits = edits_of("crates")
    with open(words[-1], encoding="utf-8", errors="replace") as log:
        lines = log.readlines()
    if words[0] == "--all":
        for name, it in sorted(told_in(lines).items()):
            kind, why = shown_by(*it, edits.get(name, Edit()))
            print(f"{name}: {kind or 'NOTHING'}{it[1].rstrip() if kind else ': ' + why.rstrip()}")
        return 0
    faults = list(faults_in(lines, edits, page, edits_of("crates", BY_HAND).keys()))
    for it in faults:
        print(f"edits.py: {it.rstrip()}")
    return 1 if faults else 0


if __name__ == "__main__":
    sys.exit(main(sys.argv[1:]))
