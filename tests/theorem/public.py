"""What is public of the crates, by their sources, and on which definitions that rests.

Public is what a crate's root defines or hands on in public: of a function its contract and the
types that this takes and gives, of a type its methods and what contracts see of it, of a trait its
functions. Of a `Model` contracts see the `Value` alone: how it lies in memory is the checker's
business. A private function of whose contract docs/THEOREM.md speaks counts too.
"""

import re
from collections.abc import Iterable, Iterator
from typing import NamedTuple

from theorem.code import BOUND, FUNCTION, TYPE, USE, Block, end_of, function_of
from theorem.promises import Contract, closure, rests_on
from theorem.sources import Sources
from theorem.specs import Place, Walk, code_of, words

GHOST = re.compile(r"\bghost (\w+)\s*[:=]\s*\{")
ITEM = re.compile(r"^pub (?:const )?(?:fn|struct|enum|trait|type|const) (\w+)", re.M)
MODULE = re.compile(r"^pub mod (\w+);", re.M)
HANDED_ON = re.compile(r"^pub use [^;]*;", re.M)
# The public fields of a struct; all that an enum has is public.
FIELD = re.compile(r"\bpub (?:\w+: )?[^,;{]*")
# The ghost items of a type that contracts do not see.
UNSEEN = {"view", "invariant", "coded", "laws", "inverse"}


class Seen(NamedTuple):
    """A clause that callers see: its file, its words, and the names that it does not define."""

    file: str
    said: list[str]
    bound: list[str]


class Crate:
    def __init__(self, sources: Sources, name: str) -> None:
        self.sources, self.name = sources, name
        self.files = sources.files(f"{name}/src/**/*.rt")
        self.names: set[Place] = set()
        self.seen: list[Seen] = []
        self.open([])
        looked_at: set[Place] = set()
        while new := self.names - looked_at:
            looked_at |= new
            for place in sorted(new):
                self.look_at(place)

    def open(self, modules: list[str]) -> None:
        """Takes what a public module defines or hands on: the root, or one of its modules."""
        file = code_of(self.sources.crates, self.name, modules)
        code = self.sources.code(file)
        self.names |= {Place(file, it) for it in ITEM.findall(code.parts[0])}
        if file.endswith("/src/main.rt"):
            self.names.add(Place(file, "main"))
        for path, listed in USE.findall("\n".join(HANDED_ON.findall(code.text))):
            head, _, last = path.strip().rpartition("::")
            owner = code_of(self.sources.crates, self.name, head.split("::"))
            if owner in self.files:
                handed_on = re.findall(r"\w+(?=\s*(?:,|$| as ))", listed or last)
                self.names |= {Place(owner, name) for name in handed_on}
        for module in MODULE.findall(code.text):
            self.open([*modules, module])

    def look_at(self, place: Place) -> None:
        """Takes what callers see of a function, a type or a trait."""
        code = self.sources.code(place.file)
        self.take_functions(place.file, code.parts[0], f".* {place.name}")
        if place.name not in code.declared:
            return
        declared = code.declaration(place.name)
        fields = [declared] if declared.startswith("enum") else FIELD.findall(declared)
        self.take_types(place.file, " ".join(fields))
        if code.value(place.name) is None:
            self.take_ghosts(place.file, declared, BOUND.findall(declared))
        for file in self.files:
            for block in self.sources.code(file).parts[1]:
                if self.shows(file, block, place):
                    ghosts = GHOST.findall(block.text)
                    self.take_ghosts(file, block.text, ghosts)
                    self.take_functions(file, block.text, ".*" if block.trait else "pub .*", ghosts)

    def shows(self, file: str, block: Block, place: Place) -> bool:
        """Whether a block is about a type or a trait, and about nothing that is not public."""
        named = {it: self.sources.type_of(file, it) for it in (block.trait, block.type)}
        own = {it for it in named.values() if it and it.file in self.files}
        return named.get(place.name) == place and own <= self.names

    def take_ghosts(self, file: str, text: str, bound: list[str]) -> None:
        """Takes the ghost items of a text."""
        for item in GHOST.finditer(text):
            if item[1] not in UNSEEN:
                said = text[item.end() : end_of(text, item.end() - 1) - 1]
                self.seen.append(Seen(file, words(said), bound))

    def take_functions(self, file: str, text: str, head: str, ghosts: Iterable[str] = ()) -> None:
        """Takes the functions of a text whose heads match: their clauses, and the types in their
        heads."""
        for found in FUNCTION.finditer(text):
            if re.fullmatch(head, found[0]):
                own = function_of(text, found)
                self.seen += [Seen(file, said, [*own.bound, *ghosts]) for _, said in own.clauses]
                self.take_types(file, own.head)

    def take_types(self, file: str, text: str) -> None:
        """Takes the types of the crate that a text names."""
        types = {self.sources.type_of(file, it) for it in TYPE.findall(text)}
        self.names |= {it for it in types if it and it.file in self.files}

    def places(self) -> Iterator[Place]:
        """The definitions, and the types of the code, that callers see."""
        yield from (it for it in self.names if it.name in self.sources.code(it.file).declared)
        for file, said, bound in self.seen:
            code = self.sources.code(file)
            for word in Walk([*bound, "self", "Self", "result"]).names(said):
                # (a word may be a type that the file's code names)
                first = word.partition(".")[0]
                if code.imports.of(word) or first not in {*code.declared, *code.taken}:
                    yield from self.sources.referred_to(file, [word])
                elif place := self.sources.type_of(file, first):
                    yield place


def promised(sources: Sources, page: Iterable[Place | Contract]) -> set[Place]:
    """All on which public contracts rest, and what a page speaks of."""
    crates = sorted(it.parent.name for it in sources.crates.glob("*/src"))
    begins = {place for crate in crates for place in Crate(sources, crate).places()}
    return closure(sources, begins) | rests_on(sources, page)
