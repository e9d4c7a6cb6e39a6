#!/usr/bin/env python3
"""Tries the program that runs the rows (crates/nv_rows, as `rt ci` built it) on made-up files: what it prints of entries that it can't read, of rows that come out
otherwise, and of right ones.

Each text stands in the place of the first file of rows, and the other files are empty. Prints what comes otherwise. Status: 0 where nothing does, else 1.
"""
import pathlib
import re
import subprocess
import sys
import tempfile

TOP = pathlib.Path(__file__).resolve().parent.parent
CRATE = TOP / "crates/nv_rows"
SUBJECTS = re.search(r"const SUBJECTS: [^=]*= \[(.*?)\];", (CRATE / "src/main.rt").read_text(), re.S)[1]
FILES = re.findall(r'"(\w+)"', SUBJECTS)

LINE, TWICE, EMPTY, NUMBER = "a line out of place", "a name or a field that stands twice", "a field without its content", "not a number"
MISSING, ESCAPE, NAME, COLUMNS = "no words or no status", "a $ that stands for nothing", "an unknown name", "a table's line of other columns"

# What begins each row here, and its right answer.
WORDS = "words varan\n"
RIGHT = WORDS + "status 2\nout\n|varan: usage\n"

# Fields of a row that can't be read, and why.
FAULTY = [
    (RIGHT + "out\n|b\n", TWICE),
    (RIGHT + "ends\n|b\nends\n|c\n", TWICE),
    (RIGHT + "once\nonce\n", TWICE),
    (RIGHT + "status 2\n", TWICE),
    (RIGHT + WORDS, TWICE),
    (RIGHT + "file f\n|b\ncode f\n", TWICE),
    (RIGHT + "takes 1\ntakes 1\n", TWICE),
    (RIGHT + "said\n|b\nsaid\n|c\n", TWICE),
    (RIGHT + "noted\n|b\nnoted\n|c\n", TWICE),
    (RIGHT + "says-fail 0\nsays-fail 1\n", TWICE),
    (RIGHT + "notes-fail 0\nnotes-fail 1\n", TWICE),
    (RIGHT + "said\n", EMPTY),
    (RIGHT + "noted\n", EMPTY),
    (RIGHT + "ends\n", EMPTY),
    (RIGHT + "begins\n", EMPTY),
    (RIGHT + "each b\n", EMPTY),
    (RIGHT + "in b\n", LINE),
    (RIGHT + "said b\n", LINE),
    (RIGHT + "noted b\n", LINE),
    (RIGHT + "once more\n", LINE),
    (RIGHT + "each-write-fails twice\n", LINE),
    (WORDS + "status 2\nout b\n", LINE),
    (RIGHT + "what\n", LINE),
    (RIGHT + "says-fail b\n", NUMBER),
    (RIGHT + "meets b\n", NUMBER),
    (WORDS + "status b\n", NUMBER),
    (WORDS, MISSING),
    ("status 2\n", MISSING),
    (WORDS + "status 2\nout\n|$b\n", ESCAPE),
    (WORDS + "status 2\nout\n|$[b]\n", NAME),
    (RIGHT + "set f 0 00\n", NAME),
    (RIGHT + "each b | c\n|1\n", COLUMNS),
]

# Files whose last entry is the first that can't be read: its name, why, and how many rows there are with it.
FAULTY_FILES = [
    (f"row a\n{RIGHT}row a\n{RIGHT}", "a", TWICE, 2),
    (f"row a\n{RIGHT}each b\n|1\n|1\n", "a", TWICE, 1),
    ("text a\n|b\ntext a\n|b\n", "a", TWICE, 1),
    (f"text a\n|b\nrow c\n{RIGHT}each a\n|1\n", "c", TWICE, 1),
    ("text a\n|b\nonce\n", "a", LINE, 1),
    ("hello\n", "", LINE, 1),
]

# A live run of a guest that exits at once.
LIVE = "words varan serve v\nasm v\n|li a0, 0\n|li a7, 94\n|ecall\nin\nstatus 0\nout\n"
TOLD = "noted\n|varan-script 5\n"

# Files whose rows come out as they say, and how many rows they have.
READ = [
    (f"row a\n{RIGHT}", 1),
    (f"# a comment\n\nrow a\n{RIGHT}row b\n{RIGHT}", 2),
    (f"row a\n{RIGHT}file f\nfile g\n|b\n|c\nset g 0 00\nset g 1 00\ncut g 3\nonce\n", 1),
    (f"row a\n{RIGHT}in\n|b\nin\n|b\n|c$\nin\n", 1),
    (f"row a\n{RIGHT}each-write-fails\n", 1),
    (f"row a\n{WORDS}status 2\nbegins\n|varan$\nends\n|usage\n", 1),
    (f"row a\n{WORDS}status 2\nout\n|$[b]: usage\neach b\n|varan\n|var$x61n\n", 2),
    (f"row a\n{RIGHT}each b\n|1\nrow c\n{RIGHT}each b\n|1\n", 2),
    ("text a\n|b\ntext b\n|b\n", 0),
    (f"row a\n{LIVE}{TOLD}", 1),
    (f"row a\n{LIVE}{TOLD}takes 1\n", 1),
    ("row a\n" + LIVE.replace("status 0", "status 6") + "notes-fail 0 2\n", 1),
]

USAGE = 'status 2, "varan: usage\\n", said "", noted ""'
SERVED = 'status 0, "", said "", noted "varan-script 5\\n"'

# Rows that come out otherwise, and what is printed of them.
OTHERWISE = [
    (RIGHT.replace("status 2", "status 0"), USAGE),
    (RIGHT + "meets 1\n", USAGE.replace("status 2", "status 255")),
    (WORDS + "status 2\nout\n", USAGE),
    (WORDS + "status 2\nout\n|varan: usage\n|\n", USAGE),
    (WORDS + "status 2\nout\n|varan: usage$\n", USAGE),
    (WORDS + "status 2\nbegins\n|usage\n", USAGE),
    (WORDS + "status 2\nends\n|varan\n", USAGE),
    (RIGHT + "said\n|b\n", USAGE),
    (RIGHT + "noted\n|b\n", USAGE),
    (LIVE, SERVED),
    (LIVE + "noted\n|varan-script 3\n", SERVED),
    (LIVE + TOLD + "said\n|b\n", SERVED),
]


def cases():
    """Each file's text, and the lines that are printed of it."""
    for fields, fault in FAULTY:
        yield f"row a\n{fields}", [f"wrong: {FILES[0]}: a: {fault}", "1 rows, 1 wrong"]
    for text, name, fault, rows in FAULTY_FILES:
        yield text, [f"wrong: {FILES[0]}: {name}: {fault}", f"{rows} rows, 1 wrong"]
    for text, rows in READ:
        yield text, [f"{rows} rows, 0 wrong"]
    for fields, answer in OTHERWISE:
        yield f"row a\n{fields}", [f"wrong: {FILES[0]}: a: {answer}", "1 rows, 1 wrong"]


def main():
    program = CRATE / "out/nv_rows"
    if not program.exists():
        print(f"rows_test: there is no program {program.relative_to(TOP)}")
        return 1
    wrong = 0
    count = 0
    with tempfile.TemporaryDirectory() as folder:
        for name in FILES:
            (pathlib.Path(folder) / name).write_text("")
        for text, wanted in cases():
            count += 1
            (pathlib.Path(folder) / FILES[0]).write_text(text)
            printed = subprocess.run([program, "rows"], cwd=folder, capture_output=True, text=True, timeout=60).stdout.splitlines()
            if printed != wanted:
                wrong += 1
                print(f"rows_test: {printed} in place of {wanted} for {text!r}")
    print(f"rows_test: {count} files, {wrong} wrong")
    return 1 if wrong else 0


if __name__ == "__main__":
    sys.exit(main())
