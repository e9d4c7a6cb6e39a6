#!/usr/bin/env python3
"""Tries the edits that the gate leaves to whoever changes their crate, crates/NAME/must-fail-by-hand, at the top of the repository.

    .ci/by_hand.py             says which of them can't be applied to their crate's text any more; the gate does this, in no time
    .ci/by_hand.py NAME ..     tries those of these crates, and says which show nothing, as .ci/edits.py does of the gate's
    .ci/by_hand.py --all       tries all of them

They are tried by `rt must-fail NAME ..` in a copy of the repository, as its files stand, in which they are the crate's only edits; what earlier checks
kept of the crates below is taken along. What refused each is written into
.ci/edits.ledger, with sums of what it was tried on (.ci/ledger.py); the line of one that shows nothing is removed.
Status: 0 where there is nothing to say, else 1.
"""
import os
import re
import shutil
import subprocess
import sys
import tempfile

import edits
import ledger

PAIR = re.compile(r"(?m)^file: (.+)$|^old: (.+)$")


def misfit(text, read):
    """Why an edit can't be applied to the files that `read` gives, or None."""
    path = None
    for line in PAIR.finditer(text):
        if line[1]:
            path = line[1].strip()
        elif path is None:
            return "an old text stands before any file"
        elif read(path).count(line[2]) != 1:
            return f"an old text is in {path} {read(path).count(line[2])} times, and not once"
    return None if path else "it names no file"


def misfits():
    """Returns a line for each edit tried by hand that can't be applied, or that has the name of one of the gate's."""
    known = edits.edits_of("crates")
    for name in sorted(edits.edits_of("crates", edits.BY_HAND)):
        crate, _, edit = name.partition("/")
        with open(f"crates/{crate}/{edits.BY_HAND}/{edit}.edit", encoding="utf-8") as text:
            why = misfit(text.read(), lambda path: content(f"crates/{crate}/{path}"))
        if why or name in known:
            yield f"{name}: {why or 'the gate has an edit of this name'}"


def content(path):
    """The text of a file; nothing where there is no such file."""
    if not os.path.isfile(path):
        return ""
    with open(path, encoding="utf-8") as text:
        return text.read()


def libraries_of(names):
    """The crates below these, by crates.txt."""
    lines = [line.partition(":") for line in content("crates.txt").splitlines() if line.strip() and not line.startswith("#")]
    uses = {head.split()[0]: rest.split() for head, _, rest in lines}
    found, left = set(), list(names)
    while left:
        more = {it for it in uses.get(left.pop(), []) if it in uses} - found
        found |= more
        left += more
    return found


def copied(top, names):
    """Copies the repository's files into a folder, where these crates have the edits tried by hand alone, and the others none."""
    files = subprocess.run(["git", "ls-files", "-z", "--cached", "--others", "--exclude-standard"], check=True, capture_output=True, text=True).stdout
    for file in filter(os.path.isfile, files.split("\0")):
        os.makedirs(os.path.dirname(f"{top}/{file}"), exist_ok=True)
        shutil.copy2(file, f"{top}/{file}")
    for crate in os.listdir(f"{top}/crates"):
        shutil.rmtree(f"{top}/crates/{crate}/{edits.GATE}", ignore_errors=True)
        if crate in names:
            os.rename(f"{top}/crates/{crate}/{edits.BY_HAND}", f"{top}/crates/{crate}/{edits.GATE}")
    for crate in libraries_of(names):
        kept = f"crates/{crate}/out/rlib"
        if os.path.isdir(kept):
            shutil.copytree(kept, f"{top}/{kept}")


def tried(names):
    """Tries the edits of these crates. Returns a line for each that shows nothing, or that isn't told of."""
    with tempfile.TemporaryDirectory(prefix="by-hand-") as top:
        copied(top, names)
        known = edits.edits_of(f"{top}/crates")
        of = ledger.Sums(top)
        sums = {name: of.of(name, edits.GATE) for name in known}
        run = subprocess.Popen(["rt", "must-fail", *names], cwd=top, stdout=subprocess.PIPE, stderr=subprocess.STDOUT, text=True, errors="replace")
        lines = []
        for line in run.stdout:
            print(line, end="", flush=True)
            lines.append(line)
        status = run.wait()
    with open("docs/TESTING.md", encoding="utf-8") as text:
        page = edits.Page.of(text.read()).only(known.keys())
    ledger.write(ledger.lines_for(lines, known, page, sums))
    yield from edits.faults_in(lines, known, page)
    if status:
        yield f"rt must-fail {' '.join(names)}: status {status}"


def main(words):
    by_crate = {name.partition("/")[0] for name in edits.edits_of("crates", edits.BY_HAND)}
    names = sorted(by_crate) if words == ["--all"] else words
    if unknown := [it for it in names if it not in by_crate]:
        sys.exit(f"by_hand.py: no edits are tried by hand in: {' '.join(unknown)}")
    faults = list(tried(names) if names else misfits())
    for it in faults:
        print(f"by_hand.py: {it.rstrip()}")
    if not words:
        print(f"by_hand.py: {len(edits.edits_of('crates', edits.BY_HAND))} edits of {len(by_crate)} crates, {len(faults)} can't be applied")
    return 1 if faults else 0


if __name__ == "__main__":
    sys.exit(main(sys.argv[1:]))
