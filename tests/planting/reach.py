"""Which functions of a crate state something of a definition of its specs/, and which clauses of
laws come to it: read by names from the texts.

What names a definition reaches it and all that it reaches: another definition; a contract; a clause
of a law also by its answer in the law's written proof, by the lemmas that this names in the files
that the proof imports, and by those that they name. Names are compared as words, so that too much
may be said to be reached, and nothing too little: what is no plain definition, such as an operator,
and what the types of src/ name count as reached by every law, and what is no plain lemma by every
law that imports its file.
"""

import os
import re
from collections.abc import Iterator
from dataclasses import dataclass
from pathlib import Path

# A line of a file, by the file's path in the crate and the line's number.
Place = tuple[str, int]
# The contracts of functions by their paths, each with the size of the function's body.
Contracts = dict[str, tuple[str, int]]
WORD = re.compile(r"[\w'-]+")
# The head of a definition, with its name, and the lines that go on with what stands above them.
HEAD = re.compile(r"(?:(?:abbrev|unfoldable|pub|record|data)\s+)+([^\s:({]+)|([^\s:({]+) :")
GOES_ON = re.compile(r"$|[\s})]|--|unfolding\s")
COMMENT = re.compile(r"(?:^|\s)--.*")
# The head of a block of definitions that have parameters in common; they are indented by two.
BLOCK = re.compile(r"module .* where$")
IMPORT = re.compile(r"use (\S+)\.\{(.*)\}")
ALIAS = re.compile(r"([\w'-]+) as ([\w'-]+)")
# What names nothing in src/ by itself.
IDLE = re.compile(r"//[^\n]*|\buse [^;]*;")


def named_lines(text: str) -> list[str | None]:
    """The name of the definition, or lemma, to which each line of a file of specs/ or proofs/
    belongs: "" of an import, and None of what is no plain definition."""
    name: str | None = ""
    names: list[str | None] = []
    is_in_block = False
    for row in text.split("\n"):
        if not GOES_ON.match(row):
            is_in_block = bool(BLOCK.match(row))
        elif is_in_block and row.startswith("  "):
            row = row[2:]
        if not GOES_ON.match(row):
            head = HEAD.match(row)
            own = head and (head[1] or head[2]) or row.split()[0]
            is_plain = WORD.fullmatch(own) and (head or own == name)
            name = "" if row.startswith("use ") else own if is_plain else None
        names.append(name)
    return names


def words_of(text: str, uses: str = "") -> set[str]:
    """The words of a text, and what they stand for by the imports."""
    words = {*WORD.findall(text)}
    return words | {it for it, alias in ALIAS.findall(uses) if alias in words}


def only_imports_more(old: str, new: str) -> bool:
    """Whether the line imports what it did, and other names under no name of their own."""
    was, now = IMPORT.fullmatch(old), IMPORT.fullmatch(new)
    if not was or not now or was[1] != now[1]:
        return False
    names = {*was[2].split(", ")}, {*now[2].split(", ")}
    return names[0] <= names[1] and not any(" as " in it for it in names[1] - names[0])


def levels(words: set[str], named: dict[str, set[str]]) -> Iterator[set[str]]:
    """The definitions that the words name, those that these name, and so on."""
    found: set[str] = set()
    left = words & named.keys()
    while left:
        yield left
        found |= left
        left = (set[str]().union(*(named[it] for it in left)) & named.keys()) - found


class Text:
    """A file of specs/ or proofs/: the words of each plain definition or lemma, by its name, those
    of all else but imports (`others`), and the name of each line."""

    def __init__(self, text: str) -> None:
        rows, self.names = text.split("\n"), named_lines(text)
        uses = "\n".join(row for row, name in zip(rows, self.names) if name == "")
        self.words: dict[str, set[str]] = {}
        self.others: set[str] = set()
        for row, name in zip(rows, self.names):
            words = words_of(COMMENT.sub("", row), uses)
            if name is None:
                self.others |= words
            elif name:
                self.words.setdefault(name, set()).update(words)

    def lines(self, named: set[str]) -> set[int]:
        """The numbers of the lines of these definitions, and of what is no plain one."""
        return {at for at, it in enumerate(self.names, 1) if it is None or it in named}


@dataclass
class Clause:
    """A clause of a contract: its function, its name, if any, the words that it reaches by, the
    size of the function's body, and, if it is a law's and rests on no other proofs of the crate,
    all definitions that it reaches and the lines of its answer and of the lemmas that this rests
    on."""

    function: str
    name: str
    words: set[str]
    size: int
    reached: set[str] | None = None
    places: set[Place] | None = None


def clauses_of(function: str, contract: str, size: int) -> list[Clause]:
    """The clauses of a contract. What stands before the first belongs to each."""
    before, *rest = re.split(r"\bensures\b", IDLE.sub("", contract))
    named = [(re.findall(r"\A[*\s]*(\w*)", part)[0], part) for part in rest or [""]]
    return [Clause(function, name, words_of(before + part), size) for name, part in named]


class Reach:
    """What the functions of a crate reach."""

    def __init__(
        self, folder: str, crate: str, functions: Contracts, laws: list[str], types: str
    ) -> None:
        self.folder, self.laws = folder, laws
        self.clauses = [it for f, told in functions.items() for it in clauses_of(f, *told)]
        self.definitions: dict[str, set[str]] = {}
        self.everywhere = words_of(IDLE.sub("", types))
        self.imported = re.compile(rf"Rattle\.{crate}\.(proofs|specs\.contracts)\b\.?([\w.+-]*)")
        for path in Path(folder, "specs").rglob("*.antt"):
            text = Text(path.read_text(encoding="utf-8"))
            self.everywhere |= text.others
            for name, words in text.words.items():
                self.definitions.setdefault(name, set()).update(words)
        files = {law: self.files_of(law.replace("::", "/")) for law in laws}
        every = set[str]().union(*files.values())
        texts = {file: Text(self.read(file)) for file in every}
        for clause in self.clauses:
            if own := files.get(clause.function):
                self.note(clause, {file: texts[file] for file in own})

    def read(self, file: str) -> str:
        """What a file of the crate says."""
        return Path(self.folder, file).read_text(encoding="utf-8")

    def files_of(self, path: str) -> set[str]:
        """The files of a law's proof, and those of lemmas that they import; none if they rest on
        anything else of the crate."""
        found: set[str] = set()
        left = sorted(map(str, Path(self.folder, "proofs", path).glob("*.antt")))
        while left:
            file = os.path.relpath(left.pop(), self.folder)
            if file in found:
                continue
            found.add(file)
            for part, module in self.imported.findall(self.read(file)):
                words = module.strip(".").split(".")
                tried = ["/".join(words[:count]) for count in range(len(words), 0, -1)]
                places = [f"{self.folder}/proofs/{it}.antt" for it in tried]
                lemmas = [it for it in places if os.path.isfile(it)]
                if part != "proofs" or not lemmas and path not in tried:
                    return set()
                left += lemmas[:1]
        return found

    def note(self, clause: Clause, texts: dict[str, Text]) -> None:
        """Notes what a law's clause reaches, by the files of its proof."""
        folder = f"proofs/{clause.function.replace('::', '/')}/"
        proofs = [text.words for it, text in texts.items() if it.startswith(folder)]
        answers = set[str]().union(*proofs)
        own = {f"returns-clause-{clause.name}"} & answers or answers
        lemmas: dict[str, set[str]] = {}
        for text in texts.values():
            for name, words in text.words.items():
                lemmas.setdefault(name, set()).update(words)
        words = own.union(clause.words, self.everywhere, *(it.others for it in texts.values()))
        found = set[str]().union(*levels(words, lemmas))
        words = words.union(*(lemmas[it] for it in found))
        clause.reached = set[str]().union(*levels(words, self.definitions))
        clause.places = {(file, at) for file, it in texts.items() for at in it.lines(found)}

    def touched(self, texts: dict[str, str]) -> set[str]:
        """The definitions in which the changed lines lie, and the places of imports that only gain
        names; none if any lies elsewhere."""
        found: set[str] = set()
        for file, text in texts.items():
            was = self.read(file)
            if not file.startswith("specs/") or was.count("\n") != text.count("\n"):
                return set()
            rows = zip(was.split("\n"), text.split("\n"), named_lines(was))
            for at, (old, new, name) in enumerate(rows, 1):
                if old != new and not name and not only_imports_more(old, new):
                    return set()
                found |= {name or f"{file}:{at}"} if old != new else set()
        return found

    def nearest(self, touched: set[str]) -> Clause | None:
        """The clause of a law that comes to any of these definitions by the fewest steps; if none
        does, that of a function."""
        ranked: list[tuple[bool, int, int, int]] = []
        for number, it in enumerate(self.clauses):
            ranks = enumerate(levels(it.words, self.definitions))
            steps = next((at for at, level in ranks if level & touched), None)
            if steps is not None:
                ranked.append((it.function not in self.laws, steps, it.size, number))
        return self.clauses[min(ranked)[-1]] if ranked else None
