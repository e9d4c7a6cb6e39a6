#!/usr/bin/env python3
"""What the clauses of three calls cite, whole: the definitions of specs/ that a reader has to believe. The calls are `nv_cli::varan`;
`nv_cli::varan_over`, the same over the streams of a live run; and `nv_cli::program`, which `main` calls.

    .ci/headline.py            compares them with crates/nv_cli/specs/Headline.antt and with the number in README.md, and the names on docs/DEFINITIONS.md with the definitions
    .ci/headline.py --write    writes them there: Headline.antt behind its line MORE, the number
    .ci/headline.py --why X    says by which definitions the clauses come to X
    .ci/headline.py --inner    lists the definitions that no contract cites, and those that contracts of private functions alone cite

Headline.antt is imports alone, one file of specs/ a line, under a heading for each theme that says where to begin.
"""
import re
import sys

sys.dont_write_bytecode = True
from definitions import ROOT, House, imports_of, read, whole

TOP = [("nv_cli", "top", "varan"), ("nv_cli", "top", "varan_over"), ("nv_cli", "process", "program")]
HEADLINE, PAGE, README = "crates/nv_cli/specs/Headline.antt", "docs/DEFINITIONS.md", "README.md"
MORE = "-- All of them, by theme. (.ci/headline.py --write makes the lines from here on.)"
# The themes, in the order in which a reader may take them: a heading, where to begin, and the crates.
THEMES = [
    ("What a command has to do: words and files", "begin with `IsDue` of nv_driver's Due, which has a case for each command; a live run's streams are `Lived` of Live",
     "nv_cli nv_driver nv_outside"),
    ("The monitor: leader, followers, rules", "begin with `Run` of nv_replay's Monitor and `Account` of Sequence; a rule's verdict is nv_rules' `verdict_of`",
     "nv_replay nv_rules nv_bpf"),
    ("The kernel: calls, files, sockets, what arrives", "begin with `serve_next` of nv_arriving's Arriving, then `serve` of nv_sockets' and of nv_kernel's Serving",
     "nv_calls nv_script nv_live nv_fs nv_kernel nv_sockets nv_arriving"),
    ("The guest: instructions, memory, threads", "begin with `effect` of nv_machine's Guest and the table of instructions (nv_isa's Table), then nv_threads",
     "nv_threads nv_guest nv_elf nv_machine nv_memory nv_isa"),
    ("The texts: reports, traces, assemblers, made runs", "begin with `report_text` of nv_report's Report",
     "nv_report nv_trace nv_inspect nv_asm nv_bpf_asm nv_gen nv_bytes"),
]
# the heading of the page's last list
UNCITED = "\n## What these clauses don't cite\n"
COUNT = re.compile(r"\*\*[\d,]+\*\* definitions")


def cited_by_top(house):
    found = []
    for crate, file, name in TOP:
        cites = [cites for at, known, _, cites in house.contracts(crate) if (at, known) == (file, name)]
        if not cites:
            sys.exit(f"headline: {crate} has no function {name} in src/{file}.rt")
        found += cites[0]
    return found


def path_of(it):
    return f"{it.crate}/specs/{it.module.replace('.', '/')}.antt"


def by_file(house, definitions):
    """The definitions by file, in the order of crates.txt, of files' names and of the files."""
    order = [it.group(1) for it in re.finditer(r"(?m)^(\w+)[^:#\n]*:", read(f"{ROOT}/crates.txt"))]
    files = sorted({(order.index(it.crate), it.module) for it in definitions})
    for at, module in files:
        yield order[at], module, [it for it in house.scopes[order[at], module].definitions.values() if it in definitions]


def imported(house, text):
    """The definitions that a list of imports names, and what is wrong with it."""
    found, wrong = set(), []
    for line in text.split("\n"):
        if line.strip() and not line.startswith(("--", "use ")):
            wrong.append(f"{HEADLINE} has more than imports: {line.strip()}")
    for _, path, names, _ in imports_of(text):
        parts = path.split(".")
        for name, _ in names or [("", "")]:
            it = house.find((parts[1], ".".join(parts[3:])), name)
            if it in found:
                wrong.append(f"{HEADLINE} has {it} twice")
            if it:
                found.add(it)
            else:
                wrong.append(f"{HEADLINE} names {path} {name}, which isn't there")
    return found, wrong


def more_imports(house, definitions, first):
    """The imports of these, each by its own name, or with its crate's and file's where another has that name."""
    taken, lines = {here for _, _, names, _ in imports_of(first) for _, here in names or []}, {}
    for crate, module, found in by_file(house, definitions):
        names = []
        for it in found:
            here = next(name for name in (it.name, f"{crate}_{it.name}", f"{crate}_{module.replace('.', '_')}_{it.name}") if name not in taken)
            taken.add(here)
            names.append(it.name if here == it.name else f"{it.name} as {here}")
        lines.setdefault(crate, []).append(f"use Rattle.{crate}.specs.{module}.{{{', '.join(names)}}}")
    return by_theme(lines)


def by_theme(lines):
    """The lines of each crate under the heading of its theme."""
    missing = sorted(set(lines) - {crate for _, _, crates in THEMES for crate in crates.split()})
    if missing:
        sys.exit(f"headline: no theme has {', '.join(missing)}")
    text = []
    for heading, begin, crates in THEMES:
        text += [f"-- ---- {heading}", f"-- {begin[0].upper()}{begin[1:]}."]
        text += [line for crate in crates.split() for line in lines.get(crate, [])]
    return text


def entries(text):
    """The list's entries on the page, each in one line."""
    return [it for it in re.sub(r"\n  (?=\S)", " ", text).split("\n") if it.startswith("- `")]


def files_named(place):
    """The files of an entry's place, `nv_x/specs/A.antt, B.antt`: one without a crate is of the crate before it, the first one of nv_driver; or a crate's specs/ whole."""
    folder = "nv_driver/specs"
    for it in re.findall(r"[\w/]+(?:\.antt)?", place.replace(" and ", " ")):
        if "/specs" in it:
            folder = it.partition("/specs")[0] + "/specs"
        yield it if "/" in it else f"{folder}/{it}"


def by_name(definitions):
    """The files that define each name."""
    files = {}
    for it in definitions:
        files.setdefault(it.name, set()).add(path_of(it))
    return files


def is_in(files, name, places):
    """Whether a file at one of these places defines the name."""
    return any(it.startswith(place) for it in files.get(name, ()) for place in places)


def in_words(house, text, cited):
    """Names of the page's entries that no file of the entry's place defines; those that the clauses don't cite, but in its last list, and those of that one that they cite."""
    files, believed = by_name([*house.definitions(), *house.types.values()]), by_name(cited)
    others = entries(text.partition(UNCITED)[2])
    if not others:
        yield f"{PAGE} has no entries under {UNCITED.strip()}"
    for line in entries(text):
        names, _, rest = line.partition(" (")
        places = list(files_named(rest.partition(")")[0]))
        for name in re.findall(r"`([^`]+)`", names):
            if not is_in(files, name, places):
                yield f"{PAGE} has `{name}` in {', '.join(places)}, where it isn't"
            elif is_in(believed, name, places) == (line in others):
                yield f"{PAGE} has `{name}` among those that the clauses {'do not cite, and they do' if line in others else 'cite, and they do not'}"


def count_of(definitions):
    return f"**{len(definitions):,}** definitions"


def unresolved(house):
    """Imports that this script doesn't follow: what they cite would be missing."""
    for (crate, module), scope in house.scopes.items():
        for target, there in scope.imports.values():
            if "TheConstants" not in target[1] and not house.find(target, there):
                yield f"{crate}/specs/{module}: {there} of {'.'.join(target)} isn't found"


def compare(house, cited):
    listed, wrong = imported(house, read(f"{ROOT}/{HEADLINE}"))
    wrong += list(unresolved(house)) + list(in_words(house, read(f"{ROOT}/{PAGE}"), cited))
    wrong += sorted(f"{HEADLINE} lacks {it}" for it in cited - listed)
    wrong += sorted(f"{HEADLINE} has {it}, which the clauses don't cite" for it in listed - cited)
    if count_of(cited) not in read(f"{ROOT}/{README}"):
        wrong.append(f"{README} doesn't say {count_of(cited)}")
    return wrong


def write(house, cited):
    def put(path, text):
        with open(f"{ROOT}/{path}", "w", encoding="utf-8") as it:
            it.write(text)
    first = read(f"{ROOT}/{HEADLINE}").partition(MORE)[0].rstrip()
    kept, _ = imported(house, first)
    put(HEADLINE, "\n".join([first, MORE, *more_imports(house, cited - kept, first), ""]))
    put(README, COUNT.sub(count_of(cited), read(f"{ROOT}/{README}")))


def why(house, roots, name):
    came, todo = {it: None for it in roots}, list(roots)
    while todo:
        it = todo.pop(0)
        for more in it.cites:
            if more not in came:
                came[more] = it
                todo.append(more)
    for it in came:
        if it.name == name:
            steps = []
            while it:
                steps.append(str(it))
                it = came[it]
            print("\n  by ".join(steps))


def inner(house):
    """What no contract cites; and what is cited by contracts of functions that only their own crate calls."""
    public, private = set(), set()
    for crate in house.crates:
        for _, _, is_public, cites in house.contracts(crate):
            (public if is_public else private).update(cites)
    public, private = whole(public), whole(private)
    for title, keep in (("no contract cites:", lambda it: it not in private), ("contracts of private functions alone cite:", lambda it: it in private)):
        print(title)
        for _, _, found in by_file(house, {it for it in house.definitions() if it not in public and keep(it)}):
            print(f"  {path_of(found[0])}: {', '.join(it.name for it in found)}")


def main(words):
    house = House()
    roots = cited_by_top(house)
    cited = {it for it in whole(roots) if it.is_of_specs}
    if words[:1] == ["--why"] and len(words) == 2:
        return why(house, roots, words[1])
    if words == ["--inner"]:
        return inner(house)
    if words == ["--write"]:
        write(house, cited)
    elif words:
        sys.exit(__doc__)
    wrong = compare(house, cited)
    if wrong:
        sys.exit("\n".join(f"headline: {it}" for it in wrong))
    lines, types = sum(it.lines for it in cited), len(whole(roots)) - len(cited)
    known = f"{len(cited):,} of the {len(house.definitions()):,} definitions of specs/"
    print(f"headline: the clauses of varan, varan_over and program cite {known}, in {lines:,} lines, and {types} types of the code")


if __name__ == "__main__":
    main(sys.argv[1:])
