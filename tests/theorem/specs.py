"""The definitions of a file of crates/*/specs, by its text: the words of a term that it does not
bind itself, the names that `use` gives a file, and the words that each definition refers to."""

import re
from collections.abc import Callable, Iterable, Iterator
from dataclasses import dataclass, field
from itertools import takewhile
from pathlib import Path
from typing import NamedTuple

QUOTED = r'"(?:[^"\\]|\\.)*"'
# A bracket or a mark, or a word; a dot behind a word ends what a λ binds.
TOKEN = re.compile(r"[(){};,]|[^\s(){};,]+?(?=\.?[\s(){};,]|\.?$)|\.")
OPEN, CLOSE = {"(", "{"}, {")", "}"}
MARKS = OPEN | CLOSE | {";", ",", ".", ":", "=", "λ", "_"}


def words(text: str) -> list[str]:
    """The words and marks of a text, its quotations left out."""
    return TOKEN.findall(re.sub(QUOTED, " ", text))


def bound_by(tokens: list[str], at: int) -> list[str]:
    """The names of a bracket that binds some, such as `(x y : ℕ)`; none of any other."""
    names: list[str] = []
    for word in tokens[at + 1 :]:
        if word == ":":
            return names
        if word != "_" and (word in MARKS or "." in word):
            return []
        names += [word] if word != "_" else []
    return []


class Walk:
    """A walk along a term, which knows what is bound at each place."""

    def __init__(self, bound: Iterable[str] = ()) -> None:
        self.bound = list(bound)
        # for each open bracket what was bound before it, and what it binds behind it
        self.brackets: list[tuple[int, list[str]]] = []
        # how many brackets are open where a λ binds names
        self.binding: int | None = None

    def mark(self, word: str, tokens: list[str], at: int) -> None:
        if word in OPEN:
            self.brackets.append((len(self.bound), bound_by(tokens, at)))
        elif word in CLOSE:
            # what was bound within is bound no longer
            count, names = self.brackets.pop()
            self.bound = self.bound[:count] + names
        elif word in {";", ","} and self.brackets:
            self.bound = self.bound[: self.brackets[-1][0]]
        elif word == "λ":
            self.binding = len(self.brackets)
        elif word == "." and self.binding == len(self.brackets):
            self.binding = None

    def names(self, tokens: list[str]) -> Iterator[str]:
        """The words that are not bound, in order: neither names that a bracket binds nor those of
        fields, before `=` in a brace."""
        skipped = 0
        for at, word in enumerate(tokens):
            if word in MARKS:
                self.mark(word, tokens, at)
                skipped = len(bound_by(tokens, at)) if word in OPEN else skipped
            elif skipped:
                skipped -= 1
            elif self.binding == len(self.brackets) or tokens[at + 1 : at + 2] == ["←"]:
                self.bound.append(word)
            elif at and tokens[at - 1] in {"{", ";"} and tokens[at + 1 : at + 2] == ["="]:
                continue
            elif word.partition(".")[0] not in self.bound:
                yield word


def split_at_equals(tokens: list[str]) -> tuple[list[str], list[str]]:
    """The two sides of an equation."""
    depth = 0
    for at, word in enumerate(tokens):
        depth += (word in OPEN) - (word in CLOSE)
        if word == "=" and depth == 0:
            return tokens[:at], tokens[at + 1 :]
    raise ValueError("no equation: " + " ".join(tokens))


USE = re.compile(
    r"^\s*(pub )?(?:ghost )?use (?:Rattle\.|(?=mir\.))([^\s{;]+?)(?:\.\{([^}]*)\}| as (\S+?))?;?$",
    re.M,
)


class Place(NamedTuple):
    """A definition: its file, below crates/, or the module of a library, and its name; without one,
    the whole file."""

    file: str
    name: str

    def __str__(self) -> str:
        return f"{self.name} of {self.file}" if self.name else self.file


class Target(NamedTuple):
    """What a path of imports names: a file, and in it one type of the code, or any name."""

    file: str
    owner: str
    # whether the names are those of the variants of a type
    has_variants: bool

    def place(self, name: str) -> Place:
        """Where a name of it is defined."""
        return Place(self.file, self.owner or name)


def code_of(crates: Path, crate: str, modules: list[str]) -> str:
    """The file of a module of the code."""
    roots = [it for it in ("lib", "main") if (crates / crate / "src" / f"{it}.rt").is_file()]
    return f"{crate}/src/{'/'.join(modules or roots[:1])}.rt"


def target_of(crates: Path, path: str) -> Target:
    """What a path names, behind `Rattle.` if it begins with it."""
    crate, kind, *parts = path.split(".")
    if not (crates / crate).is_dir():
        return Target(path.replace(".specs.", "."), "", False)
    if kind != "specs" or parts[0] not in {"declared", "contracts"}:
        return Target(f"{crate}/{kind}/{'/'.join(parts)}.antt", "", False)
    files = list(takewhile(lambda it: not it[0].isupper(), parts[1:]))
    types = parts[1 + len(files) :]
    owner = "" if types[0] == "TheConstants" else ".".join([types[0], *({"TheInside"} & {*types})])
    return Target(code_of(crates, crate, files), owner, "TheVariants" in types)


def symbols_of(name: str) -> dict[str, str]:
    """The symbols of an operator, such as ≡ of ◌≡◌, each with its name; none of any other name."""
    return dict.fromkeys(filter(None, name.split("◌")), name) if "◌" in name else {}


class Imports:
    def __init__(self, crates: Path, text: str) -> None:
        self.names: dict[str, tuple[Target, str]] = {}
        self.aliases: dict[str, Target] = {}
        # the names that the file hands on
        self.handed_on: set[str] = set()
        self.symbols: dict[str, str] = {}
        for is_public, path, listed, alias in USE.findall(text):
            target = target_of(crates, path)
            if alias:
                self.aliases[alias] = target
            for item in filter(None, map(str.strip, listed.split(","))):
                name, _, other = item.partition(" as ")
                self.names[other or name] = target, name
                self.handed_on |= {name} if is_public else set()
                self.symbols.update(symbols_of(name))

    def of(self, word: str) -> tuple[Target, str] | None:
        """What a word refers to, if it is imported."""
        first, _, rest = word.partition(".")
        if rest and first in self.aliases:
            return self.aliases[first], rest.partition(".")[0]
        return self.names.get(self.symbols.get(first, first))


HEAD = re.compile(r"(?:abbrev |unfoldable )?(?:pub )?(record |data )?(\S+)(?= |$)")
NOTHING_DEFINED = re.compile(r"(?:pub )?use |pub mod |infix")
COMMENT = re.compile(rf'^((?:[^"]|{QUOTED})*?)(?:^|(?<=\s))--(?:\s.*)?$')
# A row that goes on with what stands above it.
CONTINUES = (" ", "}", ")")


@dataclass
class Definition:
    """A record, a data type or a function, with the parameters of the module that it stands in."""

    name: str
    form: str
    parameters: str
    rows: list[str] = field(default_factory=list)

    def clauses(self) -> list[list[str]]:
        """Its head and each field, constructor or equation, in words."""
        clauses: list[str] = []
        for row in self.rows:
            inner = row.removeprefix("  ") if self.form else row
            if clauses and inner.startswith(CONTINUES):
                clauses[-1] += f" {row}"
            else:
                clauses.append(row)
        return [words(clause) for clause in clauses]

    def constructors(self) -> list[str]:
        """Those of a data type."""
        rows = self.clauses()[1:] if self.form == "data" else []
        return [word for row in rows for word in row[: row.index(":")]]


class Source:
    def __init__(self, crates: Path, file: str) -> None:
        text = (crates / file).read_text(encoding="utf-8")
        self.imports = Imports(crates, text)
        self.definitions: dict[str, Definition] = {}
        self.read([COMMENT.sub(r"\1", row).rstrip() for row in text.splitlines()])
        found = self.definitions.values()
        self.constructors = {name: it.name for it in found for name in it.constructors()}
        # what each word of the file stands for that is defined in it
        self.symbols = self.constructors | {name: name for name in self.definitions}
        for name in self.definitions:
            self.symbols |= symbols_of(name)

    def read(self, rows: list[str]) -> None:
        parameters = margin = ""
        current = Definition("", "", "")
        for row in filter(None, rows):
            if row.startswith("module "):
                parameters, margin = row.removeprefix("module _").removesuffix("where"), "  "
                continue
            if not row.startswith(CONTINUES):
                parameters = margin = ""
            if NOTHING_DEFINED.match(row):
                continue
            inner = row.removeprefix(margin)
            head = None if inner.startswith(CONTINUES) else HEAD.match(inner)
            if head and head[0] != head[2]:
                current = Definition(head[2], (head[1] or "").strip(), parameters)
                self.definitions[current.name] = current
                inner = inner[head.end() :]
            current.rows.append(inner)


def free(definition: Definition, is_constructor: Callable[[str], bool]) -> Iterator[str]:
    """The words of a definition that it does not bind, given which words of its patterns take a
    value apart, and are no variables."""
    walk = Walk()
    yield from walk.names(words(definition.parameters))
    bound = [*walk.bound]
    head, *clauses = definition.clauses()
    yield from walk.names(head)
    for clause in clauses:
        if definition.form:
            at = clause.index(":")
            yield from walk.names(clause[at + 1 :])
            walk.bound += clause[at - 1 : at] if definition.form == "record" else []
        else:
            left, right = split_at_equals(clause)
            own = {*MARKS, definition.name, *symbols_of(definition.name)}
            patterns = [it for it in left if it not in own]
            yield from filter(is_constructor, patterns)
            variables = [it for it in patterns if not is_constructor(it)]
            yield from Walk([*bound, *variables]).names(right)
