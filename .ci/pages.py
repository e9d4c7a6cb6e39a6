#!/usr/bin/env python3
"""Holds pages against the code, and says what a page has otherwise.

- Options: docs/varan.1 has those of nv_driver/specs/Simple.antt, command by command, with the limits of Words.antt, and so has what `usage` writes
  (Help.antt); README.md and docs/REPORT.md have each command's usage as `usage` does, and name no other option.
- Statuses: those of README.md, docs/varan.1, docs/LIVE.md and docs/PROVED.md are the definitions' (nv_driver/specs).
- Refusals: docs/REPORT.md has each line with its status and each cause of the definitions, with something to do; docs/ASSEMBLER.md the causes of its texts.
- Limits of files and options: the pages of LIMITS and OPTION_LIMITS have the numbers of the definitions.
- Crates: crates.txt has each after those that it uses, with the first sentence of its head; docs/inside/ARCHITECTURE.md has its layers as a picture. The head of each that
  isn't of tests or benches says what is proved of it, since docs/PROVED.md leaves that to the heads. A report's line is found in the code as ARCHITECTURE says.
- The walk: each function of ARCHITECTURE's tables of a live request is in its file, and the nearest row above it whose depth is one less calls it.
- Steps: each step that nv_room takes on its table is of a kind that nv_laws counts, as docs/PROVED.md says.
- Pages: README.md lists those of docs/ and docs/inside/. The ones that a user reads first have no line of more than 200 characters, the others none of more than 240; those of
  docs/inside/ and the list of changes none of more than 120, but in tables.
- Plain English: the pages of PLAIN have no line of more than 120 characters but those of tables, and few of the words of CONTRIBUTING.md's list in their prose.

What it does with lines and words it tries on made-up pages, too.
"""
import glob
import itertools
import os
import re
import sys
import typing

MANUAL = "docs/varan.1"
ROOT = os.path.dirname(os.path.dirname(os.path.abspath(__file__)))
# the pages that a user reads first; how long their lines are at most, and those of the others
FIRST = ("docs/varan.1",)
MOST_FIRST, MOST = 200, 240
# the pages in plain English: how long their lines are at most, tables aside, and how many words of CONTRIBUTING.md's list they have at most in 1,000 words of prose
PLAIN = ("README.md", *(f"docs/{it}.md" for it in (
    "ASSEMBLER", "CHECKED", "COMPARE", "DEFINITIONS", "GUESTS", "LINUX", "LIVE", "PROVED", "REPORT", "RULES", "SCRIPT", "TESTING", "TUTORIAL")))
MOST_PLAIN, HOUSE_WORDS = 120, 2
WORDS_HEAD = "| In place of | Write |"
# the pages for who changes the program; how long their lines are at most, and those of the list of changes, but in tables
INSIDE, MOST_INSIDE = "docs/inside", 120
ARCHITECTURE = f"{INSIDE}/ARCHITECTURE.md"
COMMANDS = ("run", "serve", "record", "replay", "inspect", "rules", "asm", "gen", "usage")
# calls on a room's table that are no step of a seat's own turn: the kernel goes into its slot or out of it, and seats are made before the first turn and taken back after the last
BETWEEN_STEPS = ("exchange", "split_seat", "join_seat")
# what a shell tells of a service that SIGTERM ended: 128 and the signal's number
BY_SIGTERM = "143"
OUTCOME = "crates/nv_driver/specs/Outcome.antt"
# the causes of each kind of file: the section of a page, and the definitions of their texts
CAUSES = {
    "### Any file": (("nv_driver/specs/Causes.antt", "cause_text Long"),),
    "### Scripts (SCRIPT.md)": (("nv_script/specs/Texts.antt", "cause_word"), ("nv_driver/specs/Causes.antt", "cause_text Comes")),
    "### Rule files (RULES.md)": (("nv_bpf/specs/Faults.antt", "filter_text"),),
    "### Rule texts (RULES.md)": (("nv_bpf_asm/specs/Faults.antt", "rule_word"),),
    "## Why a text is refused": (("nv_asm/specs/Faults.antt", "asm_word"),),
    "### Versions (GUESTS.md)": (("nv_elf/specs/Faults.antt", "elf_text"), ("nv_guest/specs/Faults.antt", "guest_text")),
    "### Traces (COMPARE.md)": (("nv_trace/specs/Texts.antt", "trace_text"), ("nv_trace/specs/Texts.antt", "check_text")),
}
# limits: where the number stands, and what pages of docs/ say with it
LIMITS = (
    ("nv_driver/specs/Found.antt", r"FILE_LIMIT = (\d+)", {
        "REPORT": "more than {} bytes | for a version", "LIVE": "it may have {} bytes, as every script", "GUESTS": "A file has at most {} bytes", "ASSEMBLER": "A text of up to {} bytes is read"}),
    ("nv_driver/specs/Found.antt", r"TRACE_LIMIT = (\d+)", {"REPORT": "a trace has more than {} bytes", "COMPARE": "`inspect` read traces of up to {} bytes"}),
    ("nv_driver/specs/Found.antt", r"TRANSCRIPT_LIMIT = (\d+)", {
        "REPORT": "a script has more than {} bytes", "LIVE": "by `--transcript` in its place {};", "SCRIPT": "by `--transcript` (LIVE.md) {}", "PROVED": "of a transcript {}."}),
    ("nv_script/specs/Scripts.antt", r"length draft\.arguments\) (\d+)", {"REPORT": "more than {} arguments", "SCRIPT": "line, {} arguments"}),
    ("nv_script/specs/Scripts.antt", r"length draft\.files\) (\d+)", {"REPORT": "{} files, 8 planned", "SCRIPT": ", {} files of"}),
    ("nv_script/specs/Scripts.antt", r"length draft\.hands\) (\d+)", {"REPORT": "{} planned lengths or", "SCRIPT": "{} planned lengths, all different"}),
    ("nv_script/specs/Scripts.antt", r"length draft\.connections\) (\d+)", {"REPORT": "or {} connections", "SCRIPT": "and {} clients of"}),
    ("nv_script/specs/Scripts.antt", r"length content\) (\d+)", {"REPORT": "a file or a connection of more than {} bytes", "SCRIPT": "files of {} bytes each"}),
    ("nv_script/specs/Scripts.antt", r"length input\) (\d+)", {"REPORT": "a file or a connection of more than {} bytes", "SCRIPT": "clients of {} bytes each"}),
    ("nv_script/specs/Entry.antt", r"clock\.nanos (\d+)", {"REPORT": "nanoseconds above {}", "SCRIPT": "N of `clock` and `time` is at most {}"}),
    ("nv_script/specs/Entry.antt", r"clock\.step (\d+)", {"REPORT": "a step above {}", "SCRIPT": "STEP at most {}"}),
    ("nv_script/specs/Entry.antt", r"is_hand n = .* nat_le n (\d+)", {"REPORT": "a planned length that is 0 or above {}", "SCRIPT": "N of `hand` is from 1 to {}"}),
    ("nv_script/specs/Entry.antt", r"is_port n = .* nat_le n (\d+)", {"REPORT": "a port that is 0 or above {}", "SCRIPT": "PORT from 1 to {}"}),
    ("nv_script/specs/Arrivals.antt", r"is_nanos n = nat_le n (\d+)", {"REPORT": "nanoseconds above {}", "SCRIPT": "N of `clock` and `time` is at most {}"}),
    ("nv_script/specs/Reading.antt", r"length bytes\) (\d+)", {"REPORT": "`data` of more than {} bytes", "SCRIPT": "have 1 to {} bytes", "LIVE": "| an arrival | {} bytes"}),
    ("nv_script/specs/Order.antt", r"most_clients false = (\d+)", {"REPORT": "more than {} clients", "SCRIPT": "At most {} clients connect"}),
    ("nv_bpf/specs/Texts.antt", r"\(field (\d+) code\)", {"REPORT": "the first above {}, the second"}),
    ("nv_bpf/specs/Texts.antt", r"\(field (\d+) jt\)", {"REPORT": "the second or third above {}, the last"}),
    ("nv_bpf/specs/Verified.antt", r"ShiftLeft i k = unless \(nat_le k (\d+)\)", {"REPORT": "by a constant above {}", "RULES": "shifts by a constant go up to {}"}),
    ("nv_bpf/specs/Verified.antt", r"LoadScratch r\) n i op = unless \(nat_le op\.k (\d+)\)", {"REPORT": "a word of M above {}", "RULES": "word k of M, k at most {}"}),
    ("nv_bpf/specs/Verified.antt", r"is_word k = .*nat_le k (\d+)", {"REPORT": "or above {} | see what a filter sees", "RULES": "at most {}, and not 132"}),
    ("nv_bpf/src/op.rt", r"MOST_OPS: usize = (\d+)", {"REPORT": "the count is above {}", "RULES": "A filter has 1 to {} instructions"}),
    ("nv_elf/specs/Elf.antt", r"length b\) (\d+) then Some Short", {"REPORT": "fewer than {} bytes"}),
    ("nv_elf/specs/Elf.antt", r"nat_le \(table_len b\) (\d+)", {"REPORT": "more than {} program headers"}),
    ("nv_elf/specs/Elf.antt", r"nat_lt (\d+) \(length loadables\)", {"REPORT": "more than {} loadable segments", "GUESTS": "bytes and {} segments"}),
    ("nv_guest/specs/Load.antt", r"image\.ranges \(size - (\d+)\)", {"REPORT": "the memory less {} bytes", "GUESTS": "The top {} are the stack"}),
    ("nv_trace/specs/Limits.antt", r"MOST_TRACED = (\d+)", {
        "REPORT": "its header has more than {} events", "COMPARE": "the number of events, at most {}.",
        "DEFINITIONS": "at most {} events, each with its place"}),
    ("nv_calls/specs/Limits.antt", r"MOST_EVENTS = (\d+)", {
        "PROVED": "a seat {} + 4 n + 4 such steps", "inside/DECISIONS": "{} times, as often as a log can have an event", "TESTING": "of these a service has up to {}"}),
    ("nv_replay/specs/Rewrites.antt", r"MOST_REWRITES = (\d+)", {"PROVED": "never more than {}, `few` of `Version::rewrites`"}),
    ("nv_calls/specs/Limits.antt", r"MOST_BYTES = (\d+)", {"REPORT": "neither 0 nor 1, or more than {} bytes", "COMPARE": "together at most {}.", "GUESTS": "a call reads or writes {} at most"}),
    ("nv_fs/specs/Starts.antt", r"console_limit polls = if polls then \d+ else (\d+)", {"LINUX": "ENOSPC, after {} bytes", "GUESTS": "and the console {};"}),
    ("nv_sockets/specs/Sockets.antt", r"output_limit polls = if polls then \d+ else (\d+)", {
        "SCRIPT": "`write` takes up to {} bytes for each client", "GUESTS": "a client gets {} over", "LINUX": "write past {} bytes to one client"}),
)
# what pages of docs/ say of an option's limits: the most, what it is where it isn't named, and both for a service
OPTION_LIMITS = (
    ("memory", "GUESTS", "{usual} bytes, or `--memory N`, up to {most}."),
    ("budget", "GUESTS", "{usual} for each version, or `--budget N`, up to {most}."),
    ("calls", "GUESTS", "{usual} in the log, or `--calls N`, up to {most}."),
    ("memory", "COMPARE", "| as in `run` | {usual}; "),
    ("budget", "COMPARE", "; {usual} |"),
    ("memory", "LIVE", "of each version {served} bytes, or `--memory N`"),
    ("hang", "LIVE", "{served} of each version after each answer, or `--hang N`"),
    ("calls", "GUESTS", "of a service up to {most_served}"),
    ("calls", "LIVE", "| calls | {served}, or `--calls N`"),
    ("calls", "LIVE", "to be run again by `varan run` it may have {most} calls"),
    ("count", "COMPARE", "after C instructions, 1 to {most},"),
    ("length", "COMPARE", "from the address A on, 1 to {most}."),
)
# layers of crates.txt that stand beside the program
BESIDE = {"tests", "benches"}
# what stands on a page for another program's option
OTHERS = {"help", "version", "anew", "program"}


def read(path):
    with open(f"{ROOT}/{path}", encoding="utf-8") as it:
        return it.read()


def flat(path):
    """A page's text, on one line."""
    return " ".join(read(path).split())


def digits(text):
    return text.replace(",", "")


def commas(number):
    return f"{int(number):,}" if number else ""


class Limit(typing.NamedTuple):
    """An option's numbers, as they stand in a definition or on a page: for a service the most and the default may be others."""
    least: str = ""
    most: str = ""
    usual: str = ""
    most_served: str = ""
    served: str = ""


# the limits of an option, as its entry on the manual page ends
LIMITS_SAID = re.compile(
    r"From ([\d,]+) to ([\d,]+)(?: less the length)?(?:, default ([\d,]+))?(?:, for serve (?:up to ([\d,]+), )?(?:default )?([\d,]+|none))?\.")


def options_in(manual):
    """Each option of the manual page: its commands and its limits."""
    options = {}
    for name, lines in re.findall(r"(?m)^\.It Fl -(\w+)\b.*\n((?:(?!\.It |\.El).*\n)*)", manual):
        text = " ".join(lines.split())
        commands = re.match(r"For ([\w, ]+)\.", text)
        limits = LIMITS_SAID.search(text)
        low, high, usual, most_served, served = (digits(it or "") for it in limits.groups()) if limits else [""] * 5
        served = "" if served == "none" else served or usual
        options[name] = (tuple(commands[1].split(", ")) if commands else (), Limit(low, high, usual, most_served or high, served))
    return options


def options_by_command(specs):
    """The options that each command's definition has, those of lists that it names among them."""
    bodies = dict(re.findall(r"(?m)^(\w+) =((?:.|\n(?! *\n|\w))*)", specs))
    def options(body):
        found = re.findall(r'(?:option|flag)_rule \(codes "(\w+)"\)', body)
        return found + [one for name in re.findall(r"\b\w+_options\b", body) for one in options(bodies[name])]
    apps = {it[1]: body for body in bodies.values() if (it := re.search(r'\bsimple_app \(codes "(\w+)"\)', body))}
    return {name: options(apps[name]) for name in COMMANDS}


def commands_by_name(specs):
    """The words by which commands are called, by the names of the definitions."""
    return {name: word for word, name in re.findall(r'\(codes "(\w+)"\) then Some Names(\w+)', specs)}


def limits_in(specs):
    """Each option's limits as the definitions have them."""
    usual = defaults_in(specs, r"usual = record")
    served = usual | defaults_in(specs, r"service_usual = record usual")
    within = re.findall(r'number_within (?:defaults\.)?(\w+) (\d+) (?:(\d+)|\(max (\d+) defaults\.(\w+)\)) \(first_of \(codes "(\w+)"\)', specs)
    found = {}
    for it, least, most, most_or_default, of, name in within:
        # the most is a number, or that of the default where it is more
        most, most_served = (most, most) if most else (str(max(int(most_or_default), int(its[of]))) for its in (usual, served))
        found[name] = Limit(least, most, usual.get(it, it), most_served, served.get(it, it))
    found.update({name: Limit(least, most, "", most) for least, most, name in re.findall(r"number_between (\d+) (\d+) (\w+)\)", specs)})
    # one number by two options: over a version's whole life, as usual, and after each answer, as usual for a service
    any_of_two = found.pop("text")
    return found | {"budget": any_of_two._replace(usual=usual["budget"]), "hang": any_of_two._replace(served=served["budget"])}


def defaults_in(specs, head):
    """The numbers of a record of limits."""
    return dict(re.findall(r"(\w+) = (\d+)", re.search(rf"(?m)^{head} \{{(.*)\}}$", specs)[1]))


def options(wrong):
    rows = options_in(read(MANUAL))
    by_command = options_by_command(read("crates/nv_driver/specs/Simple.antt"))
    for name in sorted({*rows, *(one for found in by_command.values() for one in found)}):
        of = tuple(it for it in COMMANDS if name in by_command[it])
        if name not in rows or rows[name][0] != of:
            wrong.append(f"{MANUAL}: --{name} is an option of {', '.join(of) or 'no command'}")
    for name, it in limits_in(read("crates/nv_driver/specs/Words.antt")).items():
        if rows.get(name, ((), Limit()))[1] != it:
            run = f"from {it.least} to {it.most}, default {it.usual or 'none'}"
            wrong.append(f"{MANUAL}: --{name} is {run}, for serve up to {it.most_served}, default {it.served or 'none'}, by nv_driver/specs/Words.antt")
    refusals = flat("docs/REPORT.md")
    for name, (_, it) in rows.items():
        said = f"`--{name}` from {commas(it.least)} to {commas(it.most)}" + (f" (for `serve` to {commas(it.most_served)})" if it.most_served != it.most else "")
        if it.least not in ("", "0") and said not in refusals:
            wrong.append(f"docs/REPORT.md doesn't say: {said}")
    for path in ("README.md", "docs/REPORT.md", MANUAL):
        for name in sorted(set(re.findall(r"--(\w+)|\bFl -(\w+)", read(path)))):
            name = name[0] or name[1]
            if name not in rows and name not in OTHERS:
                wrong.append(f"{path} names --{name}, which {MANUAL} hasn't among its options")


def options_helped(specs, commands):
    """What `usage` says of each option, command by command: (from, to, default)."""
    lines = {}
    for name, word, meaning in re.findall(r'(?m)^(\w+)_help = codes "  --(\w+)\b(.*)\\n"$', specs):
        limits = re.search(r": (\d+) to (\d+)(?: less the length)?(?:, default (\d+)|; default none)?$", meaning)
        lines[name] = (word, tuple(it or "" for it in limits.groups()) if limits else ("", "", ""))
    options = {}
    for command, names in re.findall(r"(?m)^option_lines Names(\w+) =((?:.|\n )*)", specs):
        for name in re.findall(r"\b(\w+)_help\b", names):
            word, limits = lines[name]
            options.setdefault(word, {})[commands[command]] = limits
    return options


def by_command(commands, limit):
    """An option of the manual page, command by command: (from, to, default)."""
    run, service = (limit.least, limit.most, limit.usual), (limit.least, limit.most_served, limit.served)
    return {it: service if it == "serve" else run for it in commands}


def helped(wrong):
    """What `usage` writes has the manual page's options, and each command's usage is in README.md and docs/REPORT.md."""
    specs, page = read("crates/nv_driver/specs/Help.antt"), "nv_driver/specs/Help.antt"
    commands = commands_by_name(read("crates/nv_driver/specs/Words.antt"))
    helped = options_helped(specs, commands)
    rows = {name: by_command(*row) for name, row in options_in(read(MANUAL)).items()}
    for name in sorted({*rows, *helped}):
        if rows.get(name) != helped.get(name):
            wrong.append(f"{page}: --{name} is {rows.get(name, 'no option')} in {MANUAL}, and {helped.get(name, 'no option')} here")
    usage = dict(re.findall(r'(?m)^usage_line Names(\w+) = codes "(.*)\\n"$', specs))
    if sorted(commands[it] for it in usage) != sorted(COMMANDS):
        wrong.append(f"{page}: the usage of {', '.join(usage)} is there, of the commands {', '.join(COMMANDS)}")
    readme, refusals = read("README.md"), flat("docs/REPORT.md")
    for text in usage.values():
        if not re.search(rf"(?m)^    {re.escape(text)}(?: >|  )", readme):
            wrong.append(f"README.md hasn't the usage: {text}")
        if f"`{text}`" not in refusals:
            wrong.append(f"docs/REPORT.md hasn't the usage: {text}")


def listed(wrong):
    """The pages that the last table of README.md lists are those of docs/ and docs/inside/."""
    table = read("README.md").partition("\n## Pages\n")[2]
    names = {it for row in re.findall(r"(?m)^\| ([^|]*) \|", table) for it in re.findall(r"[A-Z]{3,}|varan(?:-listen)?\.1", row)}
    there = {it.removesuffix(".md") for folder in ("docs", INSIDE) for it in os.listdir(f"{ROOT}/{folder}") if it.endswith((".md", ".1"))}
    for name in sorted(names ^ there):
        wrong.append(f"README.md lists {name}, which isn't there" if name in names else f"README.md doesn't list docs/{name}")


def layers():
    """The layers of crates.txt: (name, its crates with what each is by the table of contents and with those that it uses)."""
    found = []
    for block in read("crates.txt").strip().split("\n\n")[1:]:
        roles = dict(re.findall(r"(?m)^#   (\w+) +(.*)$", block))
        uses = re.findall(r"(?m)^(\w+)[^:#\n]*:(.*)$", block)
        found.append((re.match(r"# (\w+):", block)[1], roles, [(name, it.split()) for name, it in uses]))
    return found


def whole_head(crate):
    """The lines of a crate's head."""
    folder = f"crates/{crate}/src"
    root = "lib.rt" if os.path.isfile(f"{ROOT}/{folder}/lib.rt") else "main.rt"
    return re.match(r"(?://!.*\n)*", read(f"{folder}/{root}"))[0].splitlines()


def head_of(crate):
    """The first sentence of a crate's head, without its point."""
    return re.match(r"(.*?)\.(?: |$)", " ".join(it[3:].strip() for it in whole_head(crate)))[1]


def proved(wrong):
    """The head of each crate of the program's layers says what is proved of it."""
    for name in (name for layer, _, uses in layers() if layer not in BESIDE for name, _ in uses):
        if not any(it.startswith("//! Proved") for it in whole_head(name)):
            wrong.append(f"crates/{name}: its head does not say what is proved")


def crates(wrong):
    """crates.txt has each crate after those that it uses, and what it is as its head says; ARCHITECTURE names each, those of a layer in the picture's line of that layer."""
    page, seen = read(ARCHITECTURE), set()
    picture = {name: line.split() for name, line in re.findall(r"(?m)^ +(\w+)   +(nv_\w.*)$", page)}
    for layer, roles, uses in layers():
        names = [name for name, _ in uses]
        if list(roles) != names:
            wrong.append(f"crates.txt: the layer {layer} lists {', '.join(roles)}, and has {', '.join(names)}")
        if layer not in BESIDE and picture.get(layer) != names:
            wrong.append(f"{ARCHITECTURE}: the picture's {layer} is {', '.join(picture.get(layer, ['not there']))}, in crates.txt it is {', '.join(names)}")
        for name, below in uses:
            late = [it for it in below if it not in seen and os.path.isdir(f"{ROOT}/crates/{it}")]
            if late:
                wrong.append(f"crates.txt: {name} uses {', '.join(late)}, which stand after it")
            if not re.search(rf"\b{name}\b", page):
                wrong.append(f"{ARCHITECTURE} doesn't name {name}")
            if roles.get(name) != head_of(name):
                wrong.append(f"crates.txt: by its head {name} is: {head_of(name)}")
            seen.add(name)
    for name in sorted({it for it in os.listdir(f"{ROOT}/crates") if os.path.isdir(f"{ROOT}/crates/{it}/src")} - seen):
        wrong.append(f"crates.txt doesn't have {name}")


def clauses(path, *names):
    """The texts of these definitions of a file, all clauses of each."""
    text = read(path)
    return "\n".join(it for name in names for it in re.findall(rf"(?m)^{name}\b[^\n]*=[^\n]*(?:\n +[^\n]*)*", text))


def table(path, head):
    """The rows of the table of a page with this head."""
    lines = read(path).partition(f"\n{head}\n")[2].split("\n")
    return [[cell.strip() for cell in row.strip("|").split(" | ")] for row in itertools.takewhile(lambda it: it.startswith("|"), lines[1:])]


def statuses_defined():
    ends = clauses(OUTCOME, "outcome_status", "ending_status", "ended_with")
    ends += clauses("crates/nv_driver/specs/Account.antt", "run_status") + clauses("crates/nv_driver/specs/Replayed.antt", "replay_status")
    return set(re.findall(r"(?:=|then|else) (\d)\b", ends))


def statuses(wrong):
    """The statuses of each page are those of the definitions."""
    manual = read(MANUAL).partition(".Sh EXIT STATUS\n")[2].partition(".Sh ")[0]
    told = {
        "README.md": {it for row in table("README.md", "| Status | Means |") for it in row[0].split(", ")},
        MANUAL: set(re.findall(r"(?m)^\.It (\d+)$", manual)),
        "docs/LIVE.md": {row[0] for row in table("docs/LIVE.md", "| Status | Means |")} - {BY_SIGTERM},
        "docs/PROVED.md": {it for head in re.findall(r"(?m)^- \*\*(\d[\d, ]*)", read("docs/PROVED.md")) for it in re.findall(r"\d", head)},
    }
    defined = statuses_defined()
    for page, found in told.items():
        if found != defined:
            wrong.append(f"{page} has the statuses {', '.join(sorted(found))}; the definitions have {', '.join(sorted(defined))}")


def refusal_lines(wrong):
    """docs/REPORT.md has each line of a refusal with its status."""
    status_of = dict(re.findall(r"(?m)^outcome_status \(?(\w+)[^=]*= (\d)$", clauses(OUTCOME, "outcome_status")))
    rows = {it[1]: status for line, status, _ in table("docs/REPORT.md", "| Line | Status | Means |") if (it := re.match(r"`(varan: \w+)", line))}
    for name, line in re.findall(r'(?m)^text_of \(?(\w+)[^=]*= (?:concat \()?codes "(varan: \w+)', read(OUTCOME)):
        if rows.get(line) != status_of[name]:
            wrong.append(f"docs/REPORT.md: `{line}` has the status {status_of[name]} by {OUTCOME}, and {rows.get(line, 'no row')} there")


def causes(wrong):
    """docs/REPORT.md, and docs/ASSEMBLER.md for assembler texts, have each cause of the definitions, and no other."""
    for section, definitions in CAUSES.items():
        page = "docs/ASSEMBLER.md" if section == "## Why a text is refused" else "docs/REPORT.md"
        part = read(page).partition(f"\n{section}\n")[2].partition("\n##")[0]
        shown = {re.sub(r"^line [N1] (?=\w)| [NIAB0]\b", "", it) for it in re.findall(r"(?m)^\| `([^`]+)` \|", part)}
        texts = "\n".join(clauses(f"crates/{path}", name) for path, name in definitions)
        defined = {it.strip() for it in re.findall(r'= codes "([^"]*)"', texts)} - {"memory"}
        wrong += [f"{page}, {section}: the cause `{it}` of the definitions has no row" for it in sorted(defined - shown)]
        wrong += [f"{page}, {section}: `{it}` is no cause of the definitions" for it in sorted(shown - defined)]


def report_lines(wrong):
    """ARCHITECTURE: a report's line is found by its words in the files that the row names, which have its functions and definitions."""
    for line, searches, *places in table(ARCHITECTURE, "| Line | Search | Written by | Defined by | What decides it |"):
        for place in places:
            text = "\n".join(read(f"crates/{it}") for it in re.findall(r"nv_\w+/\S+\.(?:rt|antt)", place))
            wrong += [f"{ARCHITECTURE}, {line}: `{it}` isn't in {place}" for it in re.findall(r"`([^`]+)`", place) if it not in text]
        written = "\n".join(read(f"crates/{it}") for it in re.findall(r"nv_\w+/\S+\.(?:rt|antt)", " ".join(places[:2])))
        wrong += [f"{ARCHITECTURE}, {line}: nothing is found by {it}" for it in re.findall(r"`'([^`]+)'`", searches) if written.count(it) < 2]


def bodies_of(file, name):
    """The bodies of a file's functions of this name, or of its closures, without what their signatures and clauses name."""
    text = read(f"crates/{file}")
    for it in re.finditer(rf"(?m)^( *)(?:pub(?:\(crate\))? )?fn {name}\b(?:.*\n)*?\1\}}\n", text):
        head = re.search(r"(?m)^ *\{\n", it[0]) or re.search(r"\{\n", it[0])
        yield it[0][head.end():]
    yield from re.findall(rf"let {name} = \|[^;]*;", text)


def walk_rows(page):
    """The rows of the page's tables of depths: (depth, function, file)."""
    for depth, name, file in re.findall(r"(?m)^\| (\d+) \| `(\w+)`, (\S+\.rt) \|", page):
        yield int(depth), name, file


def walk(wrong):
    """ARCHITECTURE: each function of the walk is in its file, and the nearest row above it whose depth is one less calls it."""
    callers, rows = {}, list(walk_rows(read(ARCHITECTURE)))
    for depth, name, file in rows:
        caller, at = callers.get(depth - 1, ("nobody", ""))
        if not list(bodies_of(file, name)):
            wrong.append(f"{ARCHITECTURE}, the walk: crates/{file} has no `{name}`")
        if depth > 1 and not any(re.search(rf"\b{name}\(|&{name}\b", it) for it in (bodies_of(at, caller) if at else ())):
            wrong.append(f"{ARCHITECTURE}, the walk: `{caller}`, {at}, doesn't call `{name}`")
        callers[depth] = (name, file)
    if not rows:
        wrong.append(f"{ARCHITECTURE} has no walk")


def limits_told():
    """What pages have to say of limits: (page, text, where the number stands)."""
    for path, pattern, pages in LIMITS:
        found = re.search(pattern, read(f"crates/{path}"))
        for page, told in pages.items():
            yield page, told.format(f"{int(found[1]):,}") if found else f"no limit {pattern}", path
    limits = limits_in(read("crates/nv_driver/specs/Words.antt"))
    for option, page, told in OPTION_LIMITS:
        yield page, told.format(**{name: commas(it) for name, it in limits[option]._asdict().items()}), "nv_driver/specs/Words.antt"


def page_limits(wrong):
    """The limits that pages tell are the numbers of the definitions."""
    for page, told, path in limits_told():
        if told not in flat(f"docs/{page}.md"):
            wrong.append(f"docs/{page}.md doesn't say, by crates/{path}: {told}")


def room_steps(wrong):
    """Each step that a room's seats take on its table has one of nv_room's plays, and nv_laws has each play as a kind of step that the room allows; no other crate steps on it."""
    plays = dict(re.findall(r"Play<[^{]*for (\w+)(?:<\w+>)? \{\s*(?:ghost use [^;]*;\s*)*ghost then = \{ (\w+)", read("crates/nv_room/src/plays.rt")))
    taken = set()
    for path in sorted(glob.glob(f"{ROOT}/crates/*/src/*.rt")):
        path = os.path.relpath(path, ROOT)
        code = re.sub(r"(?m)^ *(?:ghost|requires|ensures) .*", "", read(path))
        for call, play in re.findall(r"\btable\s*\.shared\s*\.(\w+)(?:::<(\w+))?.*?\(", code):
            taken.add(play)
            if not path.startswith("crates/nv_room/"):
                wrong.append(f"{path} steps on a table: {call}")
            elif call not in BETWEEN_STEPS and play not in plays:
                wrong.append(f"{path}: {call} has no play of crates/nv_room/src/plays.rt")
    law = read("crates/nv_laws/specs/Plays.antt")
    named = {new: old for old, new in re.findall(r"(\w+) as (\w+)", law)}
    kinds = {kind: named.get(play, play) for kind, play in re.findall(r"(?m)^  Plays \(?(\w+)[^=\n]*= .*?(\w+) (?:hist came )?st m\b", law)}
    allowed = set(re.findall(r"MayDo [^\n]*\(λ \w+\. (\w+)", read("crates/nv_laws/src/progress.rt")))
    wrong += [f"crates/nv_room/src: no step has the play {it}" for it in sorted(set(plays) - taken)]
    wrong += [f"crates/nv_laws/specs/Plays.antt has no kind of the play {name}" for name, then in sorted(plays.items()) if list(kinds.values()).count(then) != 1]
    wrong += [f"crates/nv_laws/src/progress.rt doesn't say when the room allows {it}" for it in sorted(set(kinds) - allowed)]
    if not plays or len(kinds) != len(plays):
        wrong.append(f"crates/nv_room/src/plays.rt has {len(plays)} plays, crates/nv_laws/specs/Plays.antt {len(kinds)} kinds")


def cures(wrong):
    for line in read("docs/REPORT.md").split("\n"):
        if line.startswith("|") and not line.split("|")[-2].strip():
            wrong.append(f"docs/REPORT.md says nothing to do: {line.split('|')[1].strip()}")


def lines_above(text, most, of_tables):
    """The numbers and lengths of the lines that are longer than most, or, of a table, than of_tables."""
    return [(at, len(line)) for at, line in enumerate(text.split("\n"), 1) if len(line) > (of_tables if line.startswith("|") else most)]


def long_lines(wrong):
    """No line of a page is longer than its readers' screens: the first pages have a lower limit, and those in plain English and for who changes the program the lowest."""
    pages = {it: (MOST, MOST) for it in ("CONTRIBUTING.md", *(f"docs/{it}" for it in sorted(os.listdir(f"{ROOT}/docs")) if it.endswith(".md")))}
    pages |= {it: (MOST_FIRST, MOST_FIRST) for it in FIRST} | {it: (MOST_PLAIN, MOST) for it in PLAIN}
    pages |= {it: (MOST_INSIDE, 10 ** 9) for it in ("CHANGELOG.md", *(f"{INSIDE}/{it}" for it in sorted(os.listdir(f"{ROOT}/{INSIDE}"))))}
    for path, most in pages.items():
        wrong += [f"{path}:{at}: a line of {length} characters" for at, length in lines_above(read(path), *most)]


def prose(text):
    """A page without its code: neither indented lines nor what is in backticks."""
    return re.sub(r"`[^`]*`", " ", re.sub(r"(?m)^(?: {4}|\t).*$", "", text))


def house_words():
    """The words that CONTRIBUTING.md lists: one in lower case is meant at a sentence's beginning, too."""
    return [it for row in table("CONTRIBUTING.md", WORDS_HEAD) for it in re.findall(r"`([^`]+)`", row[0])]


def found_words(text, words):
    """How often each of these is in the text's prose, and how many words that has."""
    plain = prose(text)
    found = {it: len(re.findall(r"\b" + r"\s+".join(map(re.escape, it.split())) + r"\b", plain, re.IGNORECASE if it.islower() else 0)) for it in words}
    return {it: count for it, count in found.items() if count}, len(re.findall(r"\w[\w'-]*", plain))


def is_plain(found, count):
    """Whether a page of so many words may have these: one, or two in 1,000."""
    return sum(found.values()) <= max(1, HOUSE_WORDS * count // 1000)


def plain_words(wrong):
    """The pages in plain English have few words of the list."""
    words = house_words()
    if not words:
        wrong.append(f"CONTRIBUTING.md has no table `{WORDS_HEAD}`")
    for path in PLAIN:
        found, count = found_words(read(path), words)
        if not is_plain(found, count):
            wrong.append(f"{path}: {', '.join(f'{it} ({n})' for it, n in found.items())} in {count} words; CONTRIBUTING.md has what to write")


LONG = "word " * 1000
# made-up pages with made-up words: (text, words, what is found, whether it is plain)
WORD_CASES = (
    ("A limit stands here.", ("stands",), {"stands": 1}, True),
    ("A limit stands here, and stands there.", ("stands",), {"stands": 2}, False),
    (LONG + "It stands, it stands.", ("stands",), {"stands": 2}, True),
    (LONG + "It stands, it stands. The page says so.", ("stands", "says"), {"stands": 2, "says": 1}, False),
    ("Stands of trees, Where and where.", ("stands", "Where"), {"stands": 1, "Where": 1}, False),
    ("It understands withstands `stands` it.", ("stands",), {}, True),
    ("It comes\nto an end, and comes  to another.", ("comes to",), {"comes to": 2}, False),
    ("What comes too late.", ("comes to",), {}, True),
    ("A command:\n\n    it stands and stands\n\nends.", ("stands",), {}, True),
    ("| it stands | it stands |", ("stands",), {"stands": 2}, False),
)
# made-up pages of lines: (text, the numbers and lengths of those that are longer than 5, or 9 of a table)
LINE_CASES = (("12345\n123456\n", [(2, 6)]), ("| 3456 |\n| 34567 |", []), ("| 345678 |", [(1, 10)]), ("    code", [(1, 8)]), ("", []))


def made_up(wrong):
    """The made-up pages that come out otherwise."""
    for text, words, found, plain in WORD_CASES:
        got = found_words(text, words)
        if (got[0], is_plain(*got)) != (found, plain):
            wrong.append(f"made-up: {text[-60:]!r} has {got[0]}, plain: {is_plain(*got)}")
    wrong += [f"made-up: {text!r} has {lines_above(text, 5, 9)}" for text, found in LINE_CASES if lines_above(text, 5, 9) != found]


if __name__ == "__main__":
    wrong = []
    options(wrong)
    helped(wrong)
    listed(wrong)
    crates(wrong)
    proved(wrong)
    statuses(wrong)
    refusal_lines(wrong)
    causes(wrong)
    page_limits(wrong)
    report_lines(wrong)
    walk(wrong)
    room_steps(wrong)
    cures(wrong)
    long_lines(wrong)
    plain_words(wrong)
    made_up(wrong)
    if wrong:
        sys.exit("\n".join(f"pages: {it}" for it in wrong))
    print("pages: options, limits, statuses, causes, cures, steps, pages and crates stand as the code has them; "
          f"{len(PLAIN)} pages are in plain English; {len(WORD_CASES) + len(LINE_CASES)} made-up cases, 0 wrong")
