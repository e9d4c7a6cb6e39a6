#!/usr/bin/env python3
"""Gives the built program broken files, odd words, an outside that fails and the largest work that its limits allow, and looks at every answer.

    bench/hostile.py [--program PATH] [broken] [edges] [failing] [live] [worst]

PATH is crates/varan/out/varan where it isn't given (build it first: `rt run` in crates/varan); without a part all five are run. docs/TESTING.md
says what each part does and what it has found. It ends with 1 where an answer is wrong; each such answer is printed, and its files are kept.

What an answer has to be comes from the descriptions of the forms (hostile_parts/readers.py reads them) and from the answers that calls have, never
from the program. One process of the program runs at a time.
"""
import argparse
import os
import sys
import tempfile

sys.dont_write_bytecode = True

from hostile_parts.broken import Broken
from hostile_parts.edges import Edges
from hostile_parts.failing import Failing
from hostile_parts.live import Live
from hostile_parts.program import TOP, Program, Tally
from hostile_parts.worst import Worst

PARTS = {"broken": Broken, "edges": Edges, "failing": Failing, "live": Live, "worst": Worst}


def main():
    reader = argparse.ArgumentParser(description="broken input, edges and worst cases of the built program")
    reader.add_argument("--program", default=os.path.join(TOP, "crates", "varan", "out", "varan"))
    reader.add_argument("part", nargs="*", help=", ".join(PARTS))
    asked = reader.parse_args()
    if unknown := [part for part in asked.part if part not in PARTS]:
        reader.error(f"no such part: {unknown[0]}")
    program = os.path.abspath(asked.program)
    if not os.access(program, os.X_OK):
        sys.exit(f"{program}: build it first")
    kept = tempfile.mkdtemp(prefix="hostile-wrong-")
    with tempfile.TemporaryDirectory(prefix="hostile-") as folder:
        os.chdir(folder)
        tally = Tally(kept)
        for part in asked.part or PARTS:
            PARTS[part](Program(program), tally).run()
        os.chdir("/")
    tally.table()
    if tally.wrong:
        sys.exit(f"{tally.wrong} wrong answers; files of the first are kept in {kept}")
    os.rmdir(kept)


if __name__ == "__main__":
    main()
