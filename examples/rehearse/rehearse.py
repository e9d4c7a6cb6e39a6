#!/usr/bin/env python3
"""Rehearses a version on the transcripts of a live service, by GNU parallel (docs/COMPARE.md).

    rehearse.py traces [--memory N] [GNU parallel's] FOLDER TRANSCRIPTS OLD     records the calls of the version in service on each transcript, once
    rehearse.py run [--rules R] [GNU parallel's] FOLDER NAME NEW                rehearses a new version on each; the rehearsal is kept by its name
    rehearse.py table [-g EXECUTABLE] FOLDER NAME                               what came of it: the groups, the most frequent first
    rehearse.py compare FOLDER NAME NAME                                        what the second rehearsal has otherwise than the first
    rehearse.py picture FOLDER NAME > PICTURE.svg                               the groups as bars

FOLDER is a folder of its own, where all is kept; begun anew, `traces` and `run` go on where they were interrupted. [GNU parallel's] are `-j N`, so many at once, and `--sshlogin HOST`,
as often as there are machines, `:` for this one. `-g` names an executable with line numbers of which the version is a stripped copy; it wants riscv64-unknown-elf-addr2line.
`--program PATH`, of `traces`, is the program; `varan` where it isn't given.
Status: 0; 1 where some transcript came to no row, so that it is to be begun anew; 2 where a file or a program isn't there.
"""
import argparse
import collections
import json
import pathlib
import re
import shutil
import subprocess
import sys
from xml.sax.saxutils import escape

HERE = pathlib.Path(__file__).resolve().parent
sys.dont_write_bytecode = True
sys.path.insert(0, str(HERE.parent))

from timeline import NAMES, OTHER

ENDS = ["in step", "refused", "broken", "damaged"]
BREAKPOINT = "fault breakpoint"
ADDR2LINE = "riscv64-unknown-elf-addr2line"
# Of the picture, in pixels.
LABEL, BAR, LINE, MARGIN = 330, 420, 22, 14


def stop(why):
    print(f"rehearse.py: {why}", file=sys.stderr)
    sys.exit(2)


def read_json(path):
    return json.loads(path.read_text())


class Rehearsals:
    """A folder: `transcripts`, `traces`, the program, the old version, and a folder for each rehearsal with its rows."""

    def __init__(self, path):
        self.path = path

    def names(self):
        return sorted(it.name for it in (self.path / "transcripts").iterdir())

    def rows(self, name):
        """The rows of a rehearsal."""
        folder = self.path / name / "rows"
        if not folder.is_dir():
            stop(f"no rehearsal {name} in {self.path}")
        return [read_json(it) for it in sorted(folder.iterdir()) if not it.name.endswith(".part")]

    def options(self, name):
        return read_json(self.path / name / "options")

    def take_over(self, transcripts):
        """Copies the transcripts, each up to its last newline: behind that there may be a line that was cut off."""
        (self.path / "transcripts").mkdir(parents=True, exist_ok=True)
        for it in sorted(transcripts.iterdir()):
            content = it.read_bytes()
            (self.path / "transcripts" / it.name).write_bytes(content[: content.rfind(b"\n") + 1])

    def parallel(self, given, base, taken, left, joblog, command):
        """Does the command for each transcript, by GNU parallel. What is done by `joblog` isn't done again, and what failed is; on machines of --sshlogin it has
        the files `base`, and of each transcript those that it takes over, and hands `left` back."""
        words = ["parallel", *(["--bar"] if sys.stderr.isatty() else []), "--joblog", joblog, "--resume-failed", "--retries", "3"]
        words += [*(["-j", str(given.jobs)] if given.jobs else []), *[word for host in given.sshlogin for word in ("--sshlogin", host)]]
        if any(host != ":" for host in given.sshlogin):
            words += ["--workdir", f"rehearsal_{self.path.resolve().name}", "--cleanup", *[word for it in base for word in ("--basefile", it)]]
            words += [*[word for it in taken for word in ("--transferfile", it)], "--return", left]
        if not shutil.which("parallel"):
            stop("GNU parallel isn't there (Debian: parallel)")
        return subprocess.run([*words, command], input="\n".join(self.names()), text=True, cwd=self.path).returncode


def traces(given):
    folder = Rehearsals(given.folder)
    folder.take_over(given.transcripts)
    options = ["--memory", str(given.memory)] if given.memory else []
    for name, path in (("varan", shutil.which(given.program)), ("old", given.old), ("one.py", HERE / "one.py")):
        shutil.copy(path or stop(f"{given.program} isn't there"), folder.path / name)
    (folder.path / "traces").mkdir(exist_ok=True)
    (folder.path / "options").write_text(json.dumps(options))
    command = " ".join(["./one.py trace varan old transcripts/{} traces/{}", *options])
    return int(folder.parallel(given, ["varan", "old", "one.py"], ["transcripts/{}"], "traces/{}", "joblog", command) != 0)


def run(given):
    folder, name = Rehearsals(given.folder), given.name
    if not re.fullmatch(r"[A-Za-z0-9_]+", name) or name in ("transcripts", "traces"):
        stop(f"a rehearsal's name has letters, digits and _: {name}")
    (folder.path / name / "rows").mkdir(parents=True, exist_ok=True)
    shutil.copy(given.new, folder.path / name / "version")
    options, base = read_json(folder.path / "options"), ["varan", "one.py", f"{name}/version"]
    if given.rules:
        shutil.copy(given.rules, folder.path / name / "rules")
        options += ["--rules", f"{name}/rules"]
        base.append(f"{name}/rules")
    (folder.path / name / "options").write_text(json.dumps(options))
    command = " ".join([f"./one.py row varan {name}/version transcripts/{{}} traces/{{}} {name}/rows/{{}}", *options])
    folder.parallel(given, base, ["transcripts/{}", "traces/{}"], f"{name}/rows/{{}}", f"{name}/joblog", command)
    lacking = len(folder.names()) - len(folder.rows(name))
    if lacking:
        print(f"rehearse.py: {lacking} transcripts have no row", file=sys.stderr)
    return int(lacking != 0)


def call_name(number):
    return "the end" if number is None else NAMES.get(number, f"{OTHER} {number}")


def kind_of(row):
    """What the group of a row is, in words."""
    if row["end"] == "damaged":
        return f"damaged: {row['line'].rpartition(': ')[2].split()[-1]}"
    if row["end"] == "refused":
        return f"refused: {call_name(row['version'])} in place of {call_name(row['log'])}"
    fault = " ".join(row["line"].split()[1:3])
    # a version with checks: what it found is at the two places (docs/CHECKED.md)
    return f"broken: {fault}" if fault == BREAKPOINT else f"broken: {fault} before {call_name(row['log'])}"


def groups_of(rows):
    """The rows that aren't in step, by what happened and where; the most frequent group first."""
    groups = collections.defaultdict(list)
    for row in rows:
        if row["end"] != "in step":
            groups[kind_of(row), tuple(row.get("places", ()))].append(row)
    return sorted(groups.items(), key=lambda it: (-len(it[1]), it[0]))


def lines_of_c(executable, places):
    """The lines of C at these addresses."""
    if executable is None or not places or not shutil.which(ADDR2LINE):
        return []
    words = [ADDR2LINE, "-s", "-f", "-p", "-e", executable, *places]
    return subprocess.run(words, stdout=subprocess.PIPE, text=True).stdout.splitlines()


def looked_into(folder, name, row, tool, *options):
    """A script of the examples over this row's rehearsal."""
    words = [HERE.parent / tool, "--program", folder.path.resolve() / "varan", *options, *folder.options(name), "--script", f"transcripts/{row['transcript']}",
             "--hang", "100000000", f"traces/{row['transcript']}", f"{name}/version"]
    return subprocess.run(words, stdout=subprocess.PIPE, stderr=subprocess.DEVNULL, text=True, cwd=folder.path)


def parting(folder, name, row):
    """Both calls, one above the other."""
    return looked_into(folder, name, row, "parting.py").stdout.splitlines()


def found(folder, name, row, executable):
    """What a version with checks has found, or nothing where it broke at another breakpoint."""
    done = looked_into(folder, name, row, "checked.py", *(["--debug", executable.resolve()] if executable else []))
    return done.stdout.splitlines() if done.returncode == 0 else []


def table(given):
    folder = Rehearsals(given.folder)
    rows = folder.rows(given.name)
    counts = collections.Counter(row["end"] for row in rows)
    print(f"{len(rows)} transcripts: {', '.join(f'{counts[end]} {end}' for end in ENDS)}")
    for (kind, places), group in groups_of(rows):
        first = group[0]
        print(f"\n{len(group):7} {kind}")
        shown = found(folder, given.name, first, given.executable) if kind.endswith(BREAKPOINT) else []
        shown = shown or lines_of_c(given.executable, places) or ([f"at {', from '.join(places)}"] if places else [])
        shown.append(f"{first['transcript']}: {first['line']}")
        shown += parting(folder, given.name, first) if first["end"] == "refused" else []
        for line in shown:
            print(f"        {line}")
    return 0


def compare(given):
    folder = Rehearsals(given.folder)
    before, after = ({row["transcript"]: row for row in folder.rows(name)} for name in (given.name, given.other))
    changes = collections.defaultdict(list)
    for it in sorted(before.keys() & after.keys()):
        old, new = (row["end"] if row["end"] == "in step" else kind_of(row) for row in (before[it], after[it]))
        if old != new:
            changes[new == "in step", old, new].append(it)
    print(f"{sum(map(len, changes.values()))} of {len(before.keys() & after.keys())} transcripts end otherwise")
    for (is_mended, old, new), found in sorted(changes.items(), key=lambda it: (-it[0][0], -len(it[1]), it[0])):
        print(f"{len(found):7} {'mended' if is_mended else 'broken' if old == 'in step' else 'other'}: {old} -> {new} ({found[0]})")
    return 0


def picture(given):
    rows = Rehearsals(given.folder).rows(given.name)
    in_step = sum(row["end"] == "in step" for row in rows)
    bars = [("in step", in_step), *((kind, len(found)) for (kind, _), found in groups_of(rows))]
    most = max(count for _, count in bars) or 1
    height = 2 * MARGIN + LINE * len(bars)
    print(f'<svg xmlns="http://www.w3.org/2000/svg" width="{LABEL + BAR + 100}" height="{height}"><style>text{{font:12px sans-serif}}.end{{text-anchor:end}}</style>')
    print(f'<rect width="100%" height="100%" fill="#fff"/><title>{len(rows)} transcripts</title>')
    for place, (label, count) in enumerate(bars):
        top, width = MARGIN + LINE * place, max(1, BAR * count / most)
        print(f'<text x="{LABEL - 8}" y="{top + 15}" class="end">{escape(label)}</text><rect x="{LABEL}" y="{top + 3}" width="{width:.1f}" height="{LINE - 6}" '
              f'fill="{"#ccc" if place == 0 else "#555"}"/><text x="{LABEL + width + 6:.1f}" y="{top + 15}">{count}</text>')
    print("</svg>")
    return 0


def read_words():
    reader = argparse.ArgumentParser(description="Rehearses a version on the transcripts of a live service.")
    commands = reader.add_subparsers(required=True)
    for work, words in ((traces, ["transcripts", "old"]), (run, ["name", "new"]), (table, ["name"]), (compare, ["name", "other"]), (picture, ["name"])):
        command = commands.add_parser(work.__name__)
        command.set_defaults(work=work)
        command.add_argument("folder", type=pathlib.Path)
        for word in words:
            command.add_argument(word, type=pathlib.Path if word in ("transcripts", "old", "new") else str)
        if work in (traces, run):
            command.add_argument("-j", dest="jobs", type=int)
            command.add_argument("--sshlogin", action="append", default=[])
        if work is traces:
            command.add_argument("--program", default="varan")
            command.add_argument("--memory", type=int)
        if work is run:
            command.add_argument("--rules", type=pathlib.Path)
        if work is table:
            command.add_argument("-g", dest="executable", type=pathlib.Path)
    return reader.parse_args()


def main():
    given = read_words()
    try:
        return given.work(given)
    except FileNotFoundError as fault:
        stop(f"{fault.filename}: {fault.strerror}")


if __name__ == "__main__":
    sys.exit(main())
