"""The promises of docs/THEOREM.md, which promises.txt lists, and on which definitions each rests,
by the sources.

A promise is a record of crates/*/specs, or what functions' contracts say. It rests on the
definitions that it names, on those that these name, and so on; of a type of the code, on what
contracts see of it (the `Value` of its `Model`) or, without a model, on its fields. How a value
lies in memory, and lemmas, are the checker's business.
"""

from collections.abc import Iterable
from pathlib import Path
from typing import NamedTuple

from theorem.specs import Place
from theorem.sources import Sources

HEADLINE = Place("tg_vault/specs/Promise/Headline.antt", "Headline")


class Contract(NamedTuple):
    """Clauses of a function's contract; all, and what it requires, if none is named."""

    file: str
    function: str
    clauses: tuple[str, ...] = ()


class Promise(NamedTuple):
    """A promise: its title on the page, with what it begins, and what may be skipped."""

    title: str
    begins: tuple[Place | Contract, ...]
    skipped: frozenset[Place] = frozenset()


def promise_of(paragraph: str) -> Promise:
    """A promise of the list; the numbered items have no title."""
    title, *rows = [row for row in paragraph.splitlines() if row[0] != "#"]
    begins: list[Place | Contract] = []
    skipped: list[Place] = []
    for file, name, *more in map(str.split, rows):
        if file == "but":
            skipped.append(Place(name, *more))
        elif file.endswith(".antt"):
            begins.append(Place(file, name))
        else:
            begins.append(Contract(file, name, tuple(more)))
    title = title.removeprefix("The numbered items")
    return Promise(title, tuple(begins), frozenset(skipped))


LIST = Path(__file__).with_suffix(".txt").read_text(encoding="utf-8")
# Behind the first paragraph, which says how the list is to be read.
PROMISES = [promise_of(paragraph) for paragraph in LIST.split("\n\n")[1:]]


def closure(
    sources: Sources, begins: Iterable[Place], skipped: frozenset[Place] = frozenset()
) -> set[Place]:
    """Some definitions, those that these name, and so on."""
    found: set[Place] = set()
    waiting = {*begins}
    while waiting:
        place = waiting.pop()
        found.add(place)
        waiting |= sources.names(place) - found - skipped
    return found


def rests_on(
    sources: Sources, begins: Iterable[Place | Contract], skipped: frozenset[Place] = frozenset()
) -> set[Place]:
    """All on which something rests."""
    named: set[Place] = set()
    for it in begins:
        if isinstance(it, Place):
            named.add(sources.defined(it))
            continue
        clauses = sources.code(it.file).contract(it.function)
        if lacking := {*it.clauses} - {*clauses}:
            raise ValueError(f"{it.file}, {it.function}: no clause {', '.join(lacking)}")
        for name in it.clauses or clauses:
            named.update(sources.referred_to(it.file, clauses[name]))
    return closure(sources, named, skipped)


class Size(NamedTuple):
    definitions: int
    files: int
    lines: int
    types: int

    def __str__(self) -> str:
        return "%d definitions in %d files, %d lines; %d types and constants of the code" % self


def size_of(sources: Sources, places: set[Place]) -> Size:
    """The size of some definitions, without comments, imports and empty lines."""
    specs = [it for it in places if it.file.endswith(".antt")]
    lines = sum(len(sources.spec(it.file).definitions[it.name].rows) for it in specs)
    types = sum(it.file.endswith(".rt") for it in places)
    return Size(len(specs), len({it.file for it in specs}), lines, types)
