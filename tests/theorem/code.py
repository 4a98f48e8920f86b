"""What a file of the code declares, by its text: types, constants, blocks and contracts."""

import functools
import re
from pathlib import Path
from typing import NamedTuple

from theorem.specs import Imports, Walk, words

# A comment, or a text or a character, whose brackets count for nothing.
IDLE = re.compile(r"""//[^\n]*|"(?:\\.|[^"\\])*"|b?'(?:\\[^'\n]*|[^\\'\n])'""", re.S)
DECLARED = re.compile(r"\b(?:struct|enum|trait|type|const) (\w+)")
USE = re.compile(r"^ *(?:pub |pub\(crate\) )?use ([^;{]+)(?:\{([^}]*)\})?;", re.M)
MODEL = re.compile(r"^impl(?:<[^{]*?>)? Model for (\w+)", re.M)
FUNCTION = re.compile(r"(\bpub )?(?:(?:const|unsafe) )*\bfn (\w+)")
BLOCK = re.compile(r"^(?:pub )?(impl|trait)\b([^{;]*)\{", re.M)
CLAUSE = re.compile(r"\s*(requires|ensures\*?)(?: (\w+))? \{")
BOUND = re.compile(r"(\w+)\s*:")
# The variants of a type, and other types.
VARIANT = re.compile(r"(?<=[{,])\s*(?:#\[[^\]]*\]\s*)*[A-Z]\w*(?=\s*[({,}=])")
TYPE = re.compile(r"\b[A-Z]\w*")


def end_of(text: str, at: int) -> int:
    """The end of the first brackets behind a place, or of a semicolon before them."""
    depth = 0
    for end in range(at, len(text)):
        depth += (text[end] in "([{") - (text[end] in ")]}")
        if depth == 0 and text[end] in ")]};":
            return end + 1
    raise ValueError(f"no end: {text[at : at + 60]}")


class Function(NamedTuple):
    """A function: its name, whether it is `pub`, its parameters and result, the names that these
    bind, and its clauses, each with its name, in words. What it requires, and a clause without a
    name, have the name ''."""

    name: str
    is_public: bool
    head: str
    bound: list[str]
    clauses: list[tuple[str, list[str]]]


def function_of(text: str, found: re.Match[str]) -> Function:
    at, depth = found.end(), 0
    while depth or text[at] not in "{;" and not CLAUSE.match(text, at):
        depth += (text[at] in "([{") - (text[at] in ")]}")
        at += 1
    head, clauses = text[found.end() : at], []
    while clause := CLAUSE.match(text, at):
        at = end_of(text, clause.end() - 1)
        name = clause[2] if clause[2] and clause[1] != "requires" else ""
        clauses.append((name, words(text[clause.end() : at - 1])))
    bound = [*BOUND.findall(head), *re.findall(r"\w+", head.partition("(")[0])]
    return Function(found[2], bool(found[1]), head, bound, clauses)


class Block(NamedTuple):
    """An `impl` or a trait: its trait and its type, each "" if it has none, and what is in it."""

    trait: str
    type: str
    text: str


class Code:
    def __init__(self, crates: Path, file: str) -> None:
        text = (crates / file).read_text(encoding="utf-8")
        self.file, self.imports = file, Imports(crates, text)
        self.text = IDLE.sub(lambda it: "" if it[0].startswith("//") else '""', text)
        self.declared = {it[1]: it.start() for it in DECLARED.finditer(self.text)}
        self.models = {it[1]: it.end() for it in MODEL.finditer(self.text)}
        # the names that the file takes from others, each with the path before it
        self.taken: dict[str, list[str]] = {}
        for path, listed in USE.findall(self.text):
            head, _, last = path.strip().rpartition("::")
            for name in filter(None, map(str.strip, listed.split(",") if listed else [last])):
                self.taken[name] = head.split("::")

    def declaration(self, name: str) -> str:
        at = self.declared[name]
        end = end_of(self.text, at)
        return self.text[at : end if self.text[end - 1] != ")" else end_of(self.text, end)]

    def value(self, name: str) -> str | None:
        """What contracts see of a type, if that is not the type itself."""
        if name not in self.models:
            return None
        at = self.models[name]
        found = re.compile(r"ghost Value = \{(.*)\};").search(self.text, at, end_of(self.text, at))
        return found[1] if found else None

    def contract(self, function: str) -> dict[str, list[str]]:
        """The clauses of a function by their names: the words that it does not bind."""
        found = next((it for it in FUNCTION.finditer(self.text) if it[2] == function), None)
        if not found:
            raise ValueError(f"{self.file} has no function {function}")
        own = function_of(self.text, found)
        clauses: dict[str, list[str]] = {}
        for name, said in own.clauses:
            walk = Walk([*own.bound, "self", "result"])
            clauses[name] = [*clauses.get(name, []), *walk.names(said)]
        return clauses

    @functools.cached_property
    def parts(self) -> tuple[str, list[Block]]:
        outside, at, blocks = "", 0, []
        for found in BLOCK.finditer(self.text):
            end, head = end_of(self.text, found.end() - 1), found[2].replace("->", "")
            while (shorter := re.sub(r"<[^<>]*>", "", head)) != head:
                head = shorter
            names = [re.findall(r"\w+", it)[-1] for it in head.partition(":")[0].split(" for ")]
            names = [*names, ""] if found[1] == "trait" else ["", *names][-2:]
            blocks.append(Block(names[0], names[1], self.text[found.end() : end]))
            outside, at = outside + self.text[at : found.start()], end
        return outside + self.text[at:], blocks
