"""Reads the definitions of all crates' specs/ and the types of their src/, and what each cites by name.

A name counts as cited where a declaration, a clause or a field has it and doesn't bind it itself (a parameter, a pattern, λ). A type of the code
(`declared.` in an import) cites the types of its fields and its Model's view; a trait cites what its clauses name. A `do` block cites the
operator that its steps stand for.
"""
import glob
import os
import re

ROOT = os.path.dirname(os.path.dirname(os.path.abspath(__file__)))
WORD = re.compile(r"[^\s(){}\[\],;:.|\"]+")
USE = re.compile(r"(?m)^[ \t]*(pub )?(?:ghost )?use ([^\s{;]+?)(?:\.\{([^}]*)\}|\s+as\s+([^\s;]+))?;?[ \t]*$")
DECLARED = re.compile(r"(?:(?:abbrev|unfoldable) )?(?:pub )?(record|data) (\S+)|(?:(?:abbrev|unfoldable) )?(?:pub )?([^\s({]+) :(?: |$)")
FIELD = re.compile(r"\s*(?:pub )?([^\s({]+) : ")
STEP = ">>="


def read(path):
    with open(path, encoding="utf-8") as it:
        return it.read()


class Definition:
    """A declaration of specs/, or a struct, enum or trait of src/; `pieces` are its declaration, clauses and fields."""

    def __init__(self, crate, module, name, kind, pieces, lines=0):
        self.crate, self.module, self.name, self.kind, self.pieces, self.lines = crate, module, name, kind, pieces, lines
        self.cites = set()

    def __repr__(self):
        return f"{self.crate}/specs/{self.module.replace('.', '/')}.antt: {self.name}" if self.is_of_specs else f"{self.crate}: {self.name}"

    @property
    def is_of_specs(self):
        return not self.module.startswith("declared.")


class Scope:
    """The names of a file: its definitions, the constructors of its data, its imports, its modules' short names, and what it passes on."""

    def __init__(self):
        self.definitions, self.constructors, self.imports, self.aliases, self.passed = {}, {}, {}, {}, {}


def imports_of(text):
    """Each `use`: (is it passed on, path, its names as (name there, name here) or None, short name of the module)."""
    for it in USE.finditer(text):
        names = it.group(3)
        if names is not None:
            pairs = [one.strip().split(" as ") for one in names.split(",") if one.strip()]
            names = [(pair[0].strip(), pair[-1].strip()) for pair in pairs]
        yield bool(it.group(1)), it.group(2), names, it.group(4)


def head_of(clause):
    """What stands before the `=` of a clause; nothing for a declaration."""
    depth = 0
    for at, sign in enumerate(clause):
        depth += {"(": 1, "{": 1, "[": 1, ")": -1, "}": -1, "]": -1}.get(sign, 0)
        if depth == 0 and (it := re.match(r" ([:=])(?=[ \n]|$)", clause[at:at + 3])):
            return clause[:at] if it.group(1) == "=" else ""
    return ""


def tokens(text):
    """Words and brackets, each with the sign directly before it."""
    for it in re.finditer(r"[(){}\[\],;:|.]|[^\s(){}\[\],;:.|]+", text):
        yield it.group(), text[it.start() - 1] if it.start() else " "


def block_at(text, at):
    """The text from the brace at this place to its partner."""
    depth = 0
    for end in range(at, len(text)):
        depth += {"{": 1, "}": -1}.get(text[end], 0)
        if depth == 0:
            return text[at:end + 1]
    return text[at:]


def body_after(text, at):
    """What a type's or a trait's brackets hold, or what stands before its `;`."""
    it = re.compile(r"[{;(=]").search(text, at)
    if it and it.group() == "{":
        return block_at(text, it.start())
    return text[at:text.find(";", at)]


def signature_after(text, at):
    """A function's text up to its body: parameters, result, clauses."""
    place, depth = at, 0
    while place < len(text):
        sign = text[place]
        if sign == ";" and depth == 0:
            break
        depth += {"(": 1, "[": 1, ")": -1, "]": -1}.get(sign, 0)
        if sign == "{" and depth == 0:
            if not re.search(r"\b(ensures|requires)(\s+\w+)?$", text[at:place].rstrip()):
                break
            place += len(block_at(text, place)) - 1
        place += 1
    return text[at:place]


class House:
    """All crates' definitions: `scopes` by crate and file of specs/, `types` by crate, file of src/ and name."""

    def __init__(self, root=ROOT):
        self.root, self.scopes, self.types = root, {}, {}
        self.crates = sorted(os.path.basename(it) for it in glob.glob(f"{root}/crates/*"))
        for crate in self.crates:
            for path, text in self.sources(crate):
                self.read_source(crate, path, text)
            for path in self.files(crate, "specs", "antt"):
                if os.path.basename(path) not in ("Lib.antt", "Headline.antt"):
                    self.read_specs(crate, path)
        for it in self.definitions():
            it.cites = self.cited_in(self.scopes[it.crate, it.module], it.pieces)
        for it in self.types.values():
            it.cites = self.cited_by_source(it)

    def files(self, crate, part, kind):
        return sorted(glob.glob(f"{self.root}/crates/{crate}/{part}/**/*.{kind}", recursive=True))

    def sources(self, crate):
        """Each file of src/ by its name, without its comments."""
        for path in self.files(crate, "src", "rt"):
            yield os.path.basename(path)[:-3], re.sub(r"(?m)//.*$", "", read(path))

    def definitions(self):
        return [it for scope in self.scopes.values() for it in scope.definitions.values()]

    def bind(self, scope, text):
        for passed, path, names, alias in imports_of(text):
            parts = path.split(".")
            if len(parts) < 4 or parts[0] != "Rattle" or parts[1] not in self.crates:
                continue
            target = (parts[1], ".".join(parts[3:]))
            if names is None:
                scope.aliases[alias or parts[-1]] = target
            for there, here in names or []:
                scope.imports[here] = (target, there)
                if passed:
                    scope.passed[here] = (target, there)
        return scope

    # -- specs/

    def read_specs(self, crate, path):
        module = os.path.relpath(path, f"{self.root}/crates/{crate}/specs")[:-5].replace("/", ".")
        text = read(path)
        scope = self.scopes[crate, module] = self.bind(Scope(), text)
        lines = text.split("\n")
        comments = [line.strip().startswith("--") for line in lines]
        head, headers = None, []
        for at, line in enumerate(lines):
            line = re.sub(r"(^|(?<=\s))--.*$", "", line)
            if not line.strip() or re.match(r"\s*(pub )?use |infix", line):
                continue
            indent = len(line) - len(line.lstrip())
            while headers and indent <= headers[-1][0]:
                headers.pop()
            if line.lstrip().startswith("module "):
                headers.append((indent, line.lstrip()))
                head = None
                continue
            known = indent == (headers[-1][0] + 2 if headers else 0)
            it = known and DECLARED.match(line.strip())
            if it:
                name = it.group(2) or it.group(3)
                head = Definition(crate, module, name, it.group(1) or "", [header for _, header in headers] + [line])
                head.lines = 1 + next(n for n in range(at + 1) if n == at or not comments[at - 1 - n])
                scope.definitions[name] = head
            elif head:
                head.lines += 1
                field = head.kind and not known and FIELD.match(line)
                if known or field:
                    head.pieces.append(line)
                else:
                    head.pieces[-1] += "\n" + line
                if field and head.kind == "data":
                    scope.constructors[field.group(1)] = head

    def find(self, target, name, seen=()):
        """The definition of this name in a file, as other files see it."""
        crate, path = target
        if path.startswith("declared."):
            parts = path.split(".")
            return self.types.get((crate, parts[1], parts[2] if len(parts) > 2 else name))
        scope = self.scopes.get(target)
        if scope is None or target in seen:
            return None
        if name in scope.passed:
            return self.find(*scope.passed[name], seen + (target,))
        return scope.definitions.get(name) or scope.constructors.get(name)

    def named(self, scope, word):
        """The definition that a word names in a file's scope, if any."""
        for name in (word, f"◌{word}◌"):
            found = scope.definitions.get(name) or scope.constructors.get(name)
            if not found and name in scope.imports:
                found = self.find(*scope.imports[name])
            if found:
                return found
        return None

    def is_constructor(self, scope, name):
        if name in scope.imports:
            target, there = scope.imports[name]
            return "TheVariants" in target[1] or target in self.scopes and there in self.scopes[target].constructors
        return name in scope.constructors or not name[:1].isalpha() or name[:1].isupper() and name not in scope.definitions

    def bound_in(self, scope, piece):
        """The names that a piece binds itself, and its own field's."""
        names = [name for it in re.finditer(r"λ ([^.]*)\.|[({]([^(){}:=;]+) : |(?:\blet|;) ([^\s:]+) : ", piece) for group in it.groups() if group for name in group.split()]
        patterns = WORD.findall(head_of(piece))[1:] + [name for it in re.finditer(r"[\[|] ([^\[|]*?) ↦", piece) for name in WORD.findall(it.group(1))]
        field = FIELD.match(piece)
        return {*names, *(it for it in patterns if not self.is_constructor(scope, it)), *(field.groups() if field else [])}

    def cited_in(self, scope, pieces):
        found, kept = set(), set()
        for piece in pieces:
            bound = self.bound_in(scope, piece) | kept
            if re.match(r"module |(pub )?(record|data) ", piece) or FIELD.match(piece):
                kept |= bound if re.match(r"module |(pub )?(record|data) ", piece) else set(FIELD.match(piece).groups())
            module = previous = ""
            for word, before in tokens(piece):
                if word == ".":
                    previous = "."
                    continue
                if previous == "." and before == ".":
                    found.add(self.find(scope.aliases[module], word) if module else None)
                    module = ""
                else:
                    module = word if word in scope.aliases and word not in bound else ""
                    found.add(None if word in bound else self.named(scope, STEP if word == "do" else word))
                previous = word
        return found - {None}

    # -- src/

    def read_source(self, crate, file, text):
        uses = "\n".join(re.findall(r"(?m)^(?:ghost )?use [^;]*;", text))
        for it in re.finditer(r"(?m)^\s*(?:pub(?:\([a-z]+\))? )?(struct|enum|trait) (\w+)", text):
            model = "".join(body_after(text, at.end()) for at in re.finditer(rf"impl(?:<[^>]*>)? Model for {it.group(2)}\b", text))
            model = re.sub(r"ghost invariant = \{[^}]*\};?", "", model)
            body = f"{uses}\n{body_after(text, it.end())}\n{model}"
            self.types.setdefault((crate, file, it.group(2)), Definition(crate, f"declared.{file}", it.group(2), it.group(1), [body]))

    def ghost_scope(self, text):
        return self.bind(Scope(), re.sub(r"(?m)^\s+ghost use", "ghost use", text))

    def cited_by_source(self, definition):
        text = definition.pieces[0]
        scope, known = self.ghost_scope(text), self.types_named(definition.crate, text)
        words = set(re.findall(r"[^\s(){}\[\],;:.|&<>?]+", re.sub(r"(?m)^\s*(ghost )?use [^;]*;", "", text)))
        return {found for word in words for found in (self.named(scope, word), known.get(word)) if found}

    def types_named(self, crate, text):
        """The types and traits that a file of src/ can name: its crate's own and those that it imports."""
        known = {name: it for (at, _, name), it in self.types.items() if at == crate}
        for it in re.finditer(r"(?m)^use (\w+)::([^;]*);", text):
            for name in re.findall(r"\w+", it.group(2)):
                found = self.exported(crate if it.group(1) == "crate" else it.group(1), name)
                if found:
                    known[name] = found
        return known

    def exported(self, crate, name, deep=0):
        """The type that a library gives by this name, its own or one that it passes on."""
        for (at, _, known), found in self.types.items():
            if at == crate and known == name:
                return found
        path = f"{self.root}/crates/{crate}/src/lib.rt"
        if deep < 4 and os.path.isfile(path):
            for it in re.finditer(r"(?m)^pub use (\w+)::([^;]*);", read(path)):
                if it.group(1) in self.crates and name in re.findall(r"\w+", it.group(2)):
                    return self.exported(it.group(1), name, deep + 1)
        return None

    def contracts(self, crate):
        """Of each function: its file, its name, whether others can call it, and what its clauses and its signature's traits cite. Then what stands in ghost members."""
        exported, open_files = self.exports(crate)
        for file, text in self.sources(crate):
            scope, known = self.ghost_scope(text), self.types_named(crate, text)
            heads = list(re.finditer(r"(?m)^(?:pub )?(impl\b[^{]*|trait [^{]*)", text))
            for it in re.finditer(r"(?m)^([ \t]*)(pub )?(?:pub\([a-z]+\) )?(?:const )?fn (\w+)", text):
                signature = signature_after(text, it.end())
                traits = {known[word] for word in re.findall(r"[:+]\s*([A-Z]\w+)", re.split(r"ensures|requires", signature)[0]) if word in known and known[word].kind == "trait"}
                owner = [head.group(1) for head in heads if head.start() < it.start()][-1:] if it.group(1) else []
                if owner:
                    of_trait = owner[0].startswith("trait") or " for " in owner[0]
                    public = bool(exported & set(re.findall(r"\w+", owner[0].split(" for ")[-1]))) and (of_trait or bool(it.group(2)))
                else:
                    public = bool(it.group(2)) and (it.group(3) in exported or file in open_files)
                yield file, it.group(3), public, self.cited_in(scope, [signature]) | traits
            for it in re.finditer(r"\bghost (?!use)(\w+)\s*[:=]\s*\{", text):
                yield file, it.group(1), it.group(1) != "invariant", self.cited_in(scope, [block_at(text, it.end() - 1)])

    def exports(self, crate):
        """The names that a crate's root passes on, and its files whose items all can name."""
        text = "".join(read(path) for path in self.files(crate, "src", "rt") if os.path.basename(path) in ("lib.rt", "main.rt"))
        names = {name for it in re.finditer(r"(?m)^pub use ([^;]*);", text) for name in re.findall(r"\w+", it.group(1))}
        return names, {"lib", "main", *re.findall(r"(?m)^pub mod (\w+)", text)}


def whole(roots):
    """These and all that they cite."""
    seen, todo = set(), list(roots)
    while todo:
        it = todo.pop()
        if it not in seen:
            seen.add(it)
            todo += it.cites
    return seen
