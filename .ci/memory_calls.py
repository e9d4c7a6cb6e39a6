#!/usr/bin/env python3
"""Compares docs/inside/ARCHITECTURE.md with the signatures, both ways: each public call that takes memory stands in its table "Calls that take memory" as CRATE::NAME or
CRATE::TYPE::NAME, and each that stands there takes memory by its signature.

A call takes memory by its signature where it takes an allocator (Global), or where its answer has AllocError or a type of the code with a case Memory. Those that
take none all the same stand in the paragraph after the table. Reads crates/*/src. A call is public where its crate's lib.rt exports it, its type or its module (whose name is then
part of its path); each call of an exported trait is. Crates of tests, their harnesses, benchmarks and those that read rows are left out.
Prints what one has and the other hasn't. Status: 0 where there is nothing, else 1.
"""
import pathlib
import re
import sys

TOP = pathlib.Path(__file__).resolve().parent.parent
PAGE = "docs/inside/ARCHITECTURE.md"
LEFT_OUT = re.compile(r"_(tests|bench|laws|harness)$|^nv_rows$")
CALL = re.compile(r"^( *)(pub )?(?:final )?fn (\w+)(?:<[^{;]*?>)?\(([^{;]*?)\)(?: -> ([^{;]*?))?(?=\s*(?:;|requires|ensures|where|\{))", re.M | re.S)
OWNER = re.compile(r"^(impl|pub trait|trait)(?:<(?:[^<>]|<[^<>]*>)*>)? (\w+)([^{\n]*)", re.M)
CASES = re.compile(r"^pub enum (\w+)[^{]*\{(.*?)^\}", re.M | re.S)
MEMORY = re.compile(r"^    Memory\b", re.M)
PATH = re.compile(r"`(nv_\w+(?:::\w+)+)`")


def sources(crate):
    """The texts of a crate's sources, by their files' names."""
    return {it.stem: it.read_text() for it in sorted((crate / "src").glob("**/*.rt"))}


def exported(texts):
    """The names that lib.rt hands on, and the modules that are public as a whole."""
    text = texts["lib"]
    names = {name.strip() for part in re.findall(r"^pub use ([^;]*);", text, re.M) for name in re.findall(r"\b\w+\b(?!::)", part)}
    return names, set(re.findall(r"^pub mod (\w+);", text, re.M))


def of_memory(crates):
    """The types whose value may say that memory was wanted."""
    found = {"AllocError"}
    for texts in crates.values():
        found |= {name for text in texts.values() for name, cases in CASES.findall(text) if MEMORY.search(cases)}
    return found


def calls(crate, texts, wanting):
    """The public calls that take memory by their signatures, as their paths."""
    names, modules = exported(texts)
    for module, text in texts.items():
        owners = list(OWNER.finditer(text))
        for call in CALL.finditer(text):
            indent, is_public, name, arguments, answer = call.groups()
            owner = next((it for it in reversed(owners) if it.start() < call.start()), None) if indent else None
            is_of_trait = owner is not None and "trait" in owner[1]
            if not is_public and not is_of_trait:
                continue
            if "Global" not in arguments and not wanting & set(re.findall(r"\w+", answer or "")):
                continue
            if (owner[2] if owner else name) in names or module in modules:
                is_by_module = (owner[2] if owner else name) not in names
                yield "::".join([crate, *([module] if is_by_module else []), *([owner[2]] if owner else []), name])


def said_by(page):
    """The paths in the first column of the page's table of these calls, and in the paragraph after it."""
    table, _, after = page.partition("## Calls that take memory\n")[2].partition("\n\nThese take none")
    columns = [line.split(" | ")[0] for line in table.split("\n") if line.startswith("| `")]
    return {path for text in [*columns, after.partition("\n\n")[0]] for path in PATH.findall(text)}


def main():
    crates = {it.name: sources(it) for it in sorted((TOP / "crates").iterdir()) if (it / "src/lib.rt").exists() and not LEFT_OUT.search(it.name)}
    wanting = of_memory(crates)
    taking = {path for name, texts in crates.items() for path in calls(name, texts, wanting)}
    said = said_by((TOP / PAGE).read_text())
    wrong = [f"{PAGE} lacks {it}" for it in sorted(taking - said)] + [f"{PAGE} has {it}, which takes none by its signature" for it in sorted(said - taking)]
    print("\n".join(f"memory_calls: {it}" for it in wrong) or f"memory_calls: {len(taking)} public calls take memory by their signatures, and stand in {PAGE}")
    return 1 if wrong else 0


if __name__ == "__main__":
    sys.exit(main())
