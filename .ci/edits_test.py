#!/usr/bin/env python3
"""Tries edits.py on made-up logs: a line of each kind that `rt ci` prints of an edit, whether the edit counts by it, and whole logs with what must be told of them; and by_hand.py on
made-up edits, whether they can be applied.

The lines have the form that rt gives them, as it cuts them. Status: 0 where each comes out as it is written here, else 1.
"""
import sys

sys.dont_write_bytecode = True
import by_hand
import edits

REFUSED = "refused, as it must be"
AT_RETURN = "it is not proved that what the function ensures holds when it returns"
FALSE = "; the facts known there allow values at which this goal is false"

PLAIN, DEFINITION, VALUES = edits.Edit(), edits.Edit(changes_definition=True), edits.Edit(changes_values=True)
# What is said of an edit after its name, what the edit changes, and what it shows, or a part of why it shows nothing.
CASES = [
    # goals of an `ensures`
    (f"{REFUSED}: note: src/lib.rt:27:1: {AT_RETURN} (`returns`)", PLAIN, edits.CLAUSE),
    (f"{REFUSED}: note: src/lib.rt:27:1: {AT_RETURN} (`returns`){FALSE}"[:160], PLAIN, edits.CLAUSE),
    (f"{REFUSED}: note: src/steps.rt:40:5: {AT_RETURN} (`returns-clause-log`)", PLAIN, edits.CLAUSE),
    (f"{REFUSED}: note: src/a_file_of_a_very_long_name.rt:1271:13: {AT_RETURN} (`returns-in_err-by", PLAIN, edits.CLAUSE),
    (f"{REFUSED}: note: src/a_file_of_a_name_that_is_longer_still/and_goes_on.rt:1271:13: {AT_RETURN}", PLAIN, edits.CLAUSE),
    (f"{REFUSED}: ./proofs/double/Answers.antt:7:13: error: `returns`: `search`: no proof of `c.args.count ≡ twice_of c.args.count` was found. `grind`: the goa", PLAIN, edits.CLAUSE),
    (f"{REFUSED}: proofs/end/Answers.antt:7:13: error: `returns-in-Failed`: this term has the type `1 ≡ 2`, and `1 ≡ 1` is wanted", PLAIN, edits.CLAUSE),
    # invariants of a type and of a loop
    (f"{REFUSED}: note: src/lib.rt:13:1: `search` found no proof (`invariant_of-result`){FALSE}", PLAIN, edits.INVARIANT),
    (f"{REFUSED}: note: src/memory.rt:13:1: it is not proved that the `invariant` of the struct's `impl Model` holds of its fields where it is next used whole (`invari", PLAIN, edits.INVARIANT),
    (f"{REFUSED}: note: src/memory.rt:13:1: it is not proved that the `invariant` of the struct's `impl Model` holds of its fields where it is next used wh", PLAIN, edits.INVARIANT),
    (f"{REFUSED}: ./proofs/arrive/Answers.antt:9:20: error: `invariant_of-self`: this term has another type", PLAIN, edits.INVARIANT),
    (f"{REFUSED}: note: src/lib.rt:57:5: it is not proved that the invariant of the loop holds (`loop-i-preserved`)", PLAIN, edits.LOOP),
    (f"{REFUSED}: ./proofs/fill/Answers.antt:9:20: error: `loop-init`: this term has another type", PLAIN, edits.LOOP),
    # the table's rule
    (f"{REFUSED}: note: src/moves.rt:57:5: it is not proved that what `store` requires holds at this call (`store-requires`)", PLAIN, edits.RULE),
    (f"{REFUSED}: ./proofs/end/Answers.antt:9:20: error: `exchange-requires-clause-rule`: this term has another type", PLAIN, edits.RULE),
    (f"{REFUSED}: ./proofs/make/Answers.antt:9:20: error: `new-made-requires`: this term has another type", PLAIN, edits.RULE),
    # a law, where a definition is edited, and where none is
    (f"{REFUSED}: ./proofs/Owner.antt:9:20: error: `owner-stays`: this term has another type", DEFINITION, edits.LAW),
    (f"{REFUSED}: ./proofs/Owner.antt:9:20: error: `owner-stays`: this term has another type", PLAIN, "none of what counts"),
    # no reason at all
    (REFUSED, PLAIN, "no goal is named"),
    (f"{REFUSED}: ", PLAIN, "no goal is named"),
    (f"{REFUSED}: note: src/lib.rt:24:5: ", PLAIN, "a condition or a bound"),
    (f"{REFUSED}: src/lib.rt:24:5: error: something that isn't known here", PLAIN, "no goal is named"),
    # the search ran out of steps, which says nothing of the goal
    (f"{REFUSED}: note: src/lib.rt:27:1: {AT_RETURN} (`returns`); `search` gave up at one of its limits", PLAIN, "the search gave up"),
    (f"{REFUSED}: note: src/lib.rt:27:1: {AT_RETURN} (`returns`); `grind` gave up at one of its limits", PLAIN, "the search gave up"),
    (f"{REFUSED}: note: src/lib.rt:27:1: {AT_RETURN} (`returns-clause-log`); `sea", PLAIN, "the search gave up"),
    (f"{REFUSED}: note: src/lib.rt:13:1: `search` found no proof (`invariant_of-result`); `search` gave up at one of its limits", PLAIN, "the search gave up"),
    (f"{REFUSED}: note: src/lib.rt:27:1: {AT_RETURN} (`returns`); `grind` gave up at one of its limits{FALSE}", PLAIN, edits.CLAUSE),
    # but where values alone are changed the same search proves the right one
    (f"{REFUSED}: note: src/lib.rt:27:1: {AT_RETURN} (`returns`); `search` gave up at one of its limits", VALUES, edits.CLAUSE),
    (f"{REFUSED}: note: src/lib.rt:27:1: it is not proved that what `f` requires holds at this call (`f-requires`); `search` gave up at one of its limits", VALUES, "a condition or a bound"),
    (f"{REFUSED}: ./proofs/double/Answers.antt:7:13: error: `returns`: `search` broke off: it may take 65536 steps", PLAIN, "the search gave up"),
    (f"{REFUSED}: ./proofs/double/Answers.antt:7:13: error: `returns`: antt ran out of the steps that the check of one declaration may take", PLAIN, "the search gave up"),
    (f"{REFUSED} (only by a limit of the prover, which gave no verdict, so this says less of the contract: choose a change that it refuses sooner): antt ran out of stack", PLAIN, "only a limit"),
    # conditions and bounds on the way
    (f"{REFUSED}: note: src/lib.rt:31:10: it is not proved that what `bump` requires holds at this call (`bump-requires`){FALSE}", PLAIN, "a condition or a bound"),
    (f"{REFUSED}: note: src/lib.rt:31:10: it is not proved that what `restore` requires holds at this call (`restore-requires`)", PLAIN, "a condition or a bound"),
    (f"{REFUSED}: note: src/lib.rt:31:10: it is not proved that what `bump` requires holds at th", PLAIN, "a condition or a bound"),
    (f"{REFUSED}: note: src/lib.rt:24:5: it is not proved that the sum fits its type (at a range `..=n`, `n + 1`) (`overflow_add-result-2`){FALSE}", PLAIN, "a condition or a bound"),
    (f"{REFUSED}: note: src/lib.rt:44:5: it is not proved that index 2 is below the slice's length (`bounds-bytes-2`){FALSE}", PLAIN, "a condition or a bound"),
    (f"{REFUSED}: note: src/lib.rt:44:5: it is not proved that the part ends within what it is a part of (`slice_bounds-part-end`)", PLAIN, "a condition or a bound"),
    (f"{REFUSED}: note: src/lib.rt:50:5: it is not proved that the divisor is not 0 (`nonzero_div-result`){FALSE}", PLAIN, "a condition or a bound"),
    (f"{REFUSED}: note: src/lib.rt:57:5: it is not proved that the loop ends, by its measure (`loop-done-smaller`){FALSE}", PLAIN, "a condition or a bound"),
    (f"{REFUSED}: ./proofs/end/Answers.antt:7:13: error: `serve-requires-clause-ready`: this term has another type", PLAIN, "a condition or a bound"),
    (f"{REFUSED}: ./proofs/end/Answers.antt:7:13: error: `overflow_cast-value`: this term has another type", PLAIN, "a condition or a bound"),
    # a name that is missing
    (f"{REFUSED} (only because a proof file names what the edit took away, so this says little of the contract: change a value and keep the names): proofs/a", PLAIN, "only a name"),
    # what isn't refused, read or tried
    ("NOT REFUSED: the crate is still proved with this edit (one that means the same as before cannot be refused: remove it)", PLAIN, "NOT REFUSED"),
    ("BAD EDIT: an 'old:' text is in src/lib.rt 0 times, and not once", PLAIN, "BAD EDIT"),
    ("BAD EDIT: it did not reach the prover; the first lines of what it said:", PLAIN, "BAD EDIT"),
    ("NOT TRIED: its check was killed, most likely for memory, so nothing is known of it: run this again", PLAIN, "NOT TRIED"),
]

COUNTED = f"rt: must-fail a/counts.edit: {REFUSED}: note: src/lib.rt:27:1: {AT_RETURN} (`returns`)"
AT_CONDITION = f"rt: must-fail a/condition.edit: {REFUSED}: note: src/lib.rt:1:1: it is not proved that what `f` requires holds at this call (`f-requires`)"
BAD = "rt: must-fail a/condition.edit: BAD EDIT: it changes nothing"
AT_LEMMA = f"rt: must-fail a/lemma.edit: {REFUSED}: ./proofs/f/Answers.antt:9:20: error: `moved-stays`: this term has another type"
PAGE = """
## Tried with a right value

| Edit | Refused at |
|---|---|
| `a/lemma` | an answer |

## Conditions that are the rule

| Edit | Condition |
|---|---|
| `a/condition` | the rule |
"""
AT_LIMIT = f"rt: must-fail a/unsure.edit: {REFUSED}: note: src/lib.rt:27:1: {AT_RETURN} (`returns`); `search` gave up at one of its limits"
CHANGES = [
    ("file: src/a.rt\nold: a + 1\nnew: a + 2\n", VALUES),
    ("file: src/a.rt\nold: a == 1 && b\nnew: c == 2 || b\n", VALUES),
    ("file: src/a.rt\nold: a + 1\nnew: a\n", PLAIN),
    ("file: src/a.rt\nold: a + 1\nnew:\n", PLAIN),
    ("file: specs/A.antt\nold: a + 1\nnew: a + 1 + 1\n", DEFINITION),
]
# The lines of a log, the edits that stand, and how each line begins that must be told. The page is the one above, with the names of these edits alone.
LOGS = [
    ([COUNTED], ["a/counts"], []),
    (["rt: a proved", COUNTED, "1 passed, 0 failed"], ["a/counts"], []),
    ([COUNTED, AT_CONDITION.replace("a/condition", "a/other")], ["a/counts", "a/other"], ["a/other: a condition"]),
    ([COUNTED, AT_CONDITION], ["a/counts", "a/condition"], []),
    ([COUNTED, BAD], ["a/counts", "a/condition"], ["a/condition: BAD EDIT"]),
    ([COUNTED.replace("a/counts", "a/condition")], ["a/condition"], ["a/condition: docs/TESTING.md names it"]),
    ([COUNTED], ["a/counts", "a/silent"], ["a/silent: the run says nothing"]),
    ([], ["a/counts"], ["a/counts: the run says nothing"]),
    ([AT_LEMMA], ["a/lemma"], []),
    ([AT_LEMMA.replace("a/lemma", "a/other")], ["a/other"], ["a/other: what refuses it"]),
    ([AT_CONDITION.replace("a/condition", "a/lemma")], ["a/lemma"], ["a/lemma: a condition"]),
    ([AT_LIMIT.replace("a/unsure", "a/lemma")], ["a/lemma"], []),
    ([AT_LIMIT.replace("a/unsure", "a/other")], ["a/other"], ["a/other: the search gave up"]),
]
# Edits that are tried by hand: the gate needn't tell of them, nor of their rows of the page.
UNTOLD = {"a/lemma", "a/condition"}
FILES = {"src/a.rt": "let a = b + 1;\nlet c = b + 1;\n", "src/b.rt": "let d = 2;\n"}
# An edit's text, and why it can't be applied to these files, or a part of that.
MISFITS = [
    ("file: src/b.rt\nold: d = 2;\nnew: d = 3;\n", None),
    ("file: src/a.rt\nold: let a = b + 1;\nnew: let a = b;\nfile: src/b.rt\nold: let d\nnew: let e\n", None),
    ("file: src/a.rt\nold: b + 1;\nnew: b;\n", "in src/a.rt 2 times"),
    ("file: src/a.rt\nold: let a = b + 1;\nnew: let a = b;\nfile: src/b.rt\nold: d = 4;\nnew: d = 5;\n", "in src/b.rt 0 times"),
    ("file: src/c.rt\nold: d = 2;\nnew: d = 3;\n", "in src/c.rt 0 times"),
    ("old: d = 2;\nnew: d = 3;\nfile: src/b.rt\n", "before any file"),
    ("old and new\n", "no file"),
]


def case_fault(said, edit, wanted):
    """What comes out otherwise of a line, or None."""
    it = edits.TOLD.match(f"rt: must-fail nv_x/an_edit.edit: {said}")
    kind, why = edits.shown_by(it[2], it[3], edit)
    is_right = kind == wanted if kind else wanted in why
    return None if is_right else f"{said}\n  shows {kind or 'nothing: ' + why}, in place of: {wanted}"


def log_fault(lines, names, wanted):
    """What comes out otherwise of a log, or None."""
    known = edits.Page.of(PAGE)
    page = edits.Page(*({name for name in part if name in names} for part in (known.conditions, known.tried)))
    told = list(edits.faults_in(lines, {name: PLAIN for name in names}, page))
    is_right = len(told) == len(wanted) and all(it.startswith(begin) for it, begin in zip(told, wanted))
    return None if is_right else f"{lines}\n  has {told}, in place of: {wanted}"


def untold_fault():
    """What comes out otherwise of a log without the edits that are tried by hand, or None."""
    told = list(edits.faults_in([COUNTED], {"a/counts": PLAIN}, edits.Page.of(PAGE), UNTOLD))
    return f"by hand: {told}" if told else None


def misfit_fault(text, wanted):
    """What comes out otherwise of an edit that may be misfit, or None."""
    why = by_hand.misfit(text, lambda path: FILES.get(path, ""))
    is_right = why is None if wanted is None else wanted in (why or "")
    return None if is_right else f"{text}\n  can't be applied for: {why}, in place of: {wanted}"


def change_fault(text, wanted):
    """What comes out otherwise of an edit's text, or None."""
    return None if edits.Edit.of(text) == wanted else f"{text}\n  is {edits.Edit.of(text)}, in place of: {wanted}"


def main():
    tried = [*(case_fault(*case) for case in CASES), *(log_fault(*log) for log in LOGS), untold_fault()]
    tried += [*(change_fault(*it) for it in CHANGES), *(misfit_fault(*it) for it in MISFITS)]
    faults = [it for it in tried if it]
    for it in faults:
        print(f"edits_test.py: {it}")
    print(f"edits_test.py: {len(tried)} cases, {len(faults)} wrong")
    return 1 if faults else 0


if __name__ == "__main__":
    sys.exit(main())
