"""What docs/THEOREM.md says has to be read, compared with what its promises rest on: its items,
with files and what to read of each.

Items stand behind the heading `What to read`: those with a number, and paragraphs that begin with a
title in bold. An item ends at the next one or at an empty line.
"""

import re
from collections.abc import Iterator
from pathlib import Path
from typing import NamedTuple

from theorem.promises import HEADLINE, PROMISES, Contract, Promise, rests_on, size_of
from theorem.sources import Sources
from theorem.specs import Place

SECTION = re.compile(r"^## What to read.*", re.M | re.S)
ITEM = re.compile(r"^(?:\d+\.|\*\*([^*]+?)\.?\*\*) ?(.*\n(?:(?!\d+\.).+\n)*)", re.M)
# Files of a crate, and what is to be read of the last: in a bracket, or named up to the next file.
FILES = re.compile(
    r"\*\*(?:(\w+)\s+)?([^*]+)\*\*"
    r"(?:\s+\((not\s+)?((?:`[^`]+`[,\s]*)+)\)|,\s+of\s+it\b((?:(?!\*\*).)*))?",
    re.S,
)
NUMBERS = re.compile(
    r"`Headline` rests on (\d+) definitions in (\d+) files, (\d+) lines without comments, "
    r"and on (\d+) types and constants of the code: items 1 to (\d+)"
)

# A function, a clause of its contract if any is named, its file, and a definition on which that
# rests, if any is.
CITED = re.compile(
    r"`(?:\w+::)?(\w+)`(?:, clause `(\w+)`)?(?:, whose contract is `\w+`)? "
    r"\(crates/([\w/]+\.rt)(?:; (?:`(\w+)`|[\w/]+))?\)"
)


class Selection(NamedTuple):
    """What is to be read of a file: these definitions, all but these, or all."""

    file: str
    is_without: bool
    names: tuple[str, ...]

    def is_there(self, sources: Sources) -> bool:
        """Whether there is such a file; those of libraries are taken to be there."""
        is_own = self.file.endswith((".antt", ".rt"))
        return not is_own or (sources.crates / self.file).is_file()

    def places(self, sources: Sources) -> set[Place]:
        """The definitions; a file of the code and a module of a library count as one each."""
        if not self.file.endswith(".antt"):
            return {Place(self.file, "")}
        there = {*sources.spec(self.file).definitions} if self.is_there(sources) else set()
        chosen = there.difference(self.names) if self.is_without else there & {*self.names}
        return {Place(self.file, name) for name in chosen}

    def misnamed(self, sources: Sources) -> Iterator[str]:
        if not self.is_there(sources):
            yield f"there is no file {self.file}"
        elif self.file.endswith(".antt"):
            for name in sorted({*self.names} - {*sources.spec(self.file).definitions}):
                yield f"{self.file} defines no {name}"


class Item(NamedTuple):
    """An item of the page: its title, none if it has a number, and its files."""

    title: str
    selections: list[Selection]


def file_of(crates: Path, crate: str, name: str) -> str:
    """The file below crates/ of a name on the page, or the module of a library."""
    if not (crates / crate).is_dir():
        return f"{crate}.{name}"
    path = name.replace(".", "/")
    return f"{crate}/specs/Promise/{path}.antt" if name[0].isupper() else f"{crate}/src/{path}.rt"


def selections(crates: Path, text: str) -> Iterator[Selection]:
    """The files of an item. A bracket belongs to the last file before it; a crate that is not
    named is the one before."""
    crate = ""
    for named, files, is_without, bracket, told in FILES.findall(text):
        crate, (*before, last) = named or crate, [it.strip() for it in files.split(",")]
        for name in before:
            yield Selection(file_of(crates, crate, name), True, ())
        names = tuple(re.findall(r"`([^`]+)`", bracket or told))
        yield Selection(file_of(crates, crate, last), bool(is_without) or not names, names)


def as_listed(places: set[Place]) -> set[Place]:
    """The definitions, with the files of the code and the modules of libraries as one each."""
    return {it if it.file.endswith(".antt") else Place(it.file, "") for it in places}


def listed_by(sources: Sources, items: list[Item]) -> set[Place]:
    """All that some items list."""
    chosen = (selection.places(sources) for item in items for selection in item.selections)
    return set[Place]().union(*chosen)


def out_of_order(sources: Sources, items: list[Item], promise: Promise) -> Iterator[str]:
    """What a file needs of one that is listed behind it."""
    files = [selection for item in items for selection in item.selections]
    ranks: dict[Place, int] = {}
    for rank, selection in enumerate(files):
        for place in selection.places(sources):
            ranks.setdefault(place, rank)
    for place in rests_on(sources, promise.begins, promise.skipped):
        (own,) = as_listed({place})
        for needed in as_listed(sources.names(place) - promise.skipped):
            if own in ranks and needed in ranks and ranks[own] < ranks[needed]:
                yield f"{own} needs {needed}, which comes later"


def differences(where: str, needed: set[Place], listed: set[Place]) -> Iterator[str]:
    """What is not listed, and what is listed and not needed."""
    for it in sorted(needed - listed):
        yield f"{where}: {it} is not listed"
    for it in sorted(listed - needed):
        yield f"{where}: {it} is listed without need"


def misplaced(
    sources: Sources, items: list[Item], last: int, headline: set[Place], needed: set[Place]
) -> Iterator[str]:
    """What the headline needs and the page lists behind the last item that it names for it, and
    what is listed up to there and only other promises need."""
    first, later = listed_by(sources, items[:last]), listed_by(sources, items[last:])
    for it in sorted((headline & later) - first):
        yield f"{it} is needed by the headline, but comes after item {last}"
    for it in sorted((first & needed) - headline):
        yield f"{it} comes up to item {last}, but the headline does not need it"


def miscited(sources: Sources, page: str, promises: list[Promise]) -> Iterator[str]:
    """What the page says wrongly of contracts, and the functions that it does not name."""
    for function, clause, file, definition in CITED.findall(" ".join(page.split())):
        contract = Contract(file, function, (clause,) if clause else ())
        try:
            names = {it.name for it in rests_on(sources, [contract])}
        except FileNotFoundError:
            yield f"there is no file {file}"
        except ValueError as error:
            yield str(error)
        else:
            if definition and definition not in names:
                yield f"{file}, {function}: it does not rest on {definition}"
    for begin in (it for promise in promises for it in promise.begins):
        if not re.search(rf"`(?:\w+::)?{begin[1]}\b", page):
            yield f"the page does not name {begin[1]}"


def complaints(
    sources: Sources, page: str, promises: list[Promise] = PROMISES, headline: Place = HEADLINE
) -> Iterator[str]:
    """What is wrong with the lists and the numbers of a page."""
    section = SECTION.search(page)
    found = ITEM.findall(section[0] if section else "")
    items = [Item(title, [*selections(sources.crates, text)]) for title, text in found]
    # what a page says of the headline, and the number of the last item that it needs
    told = NUMBERS.search(" ".join(page.split()))
    *said, last = map(int, told.groups()) if told else [0]
    of_headline = rests_on(sources, [headline])
    for item in items:
        if item.title not in {it.title for it in promises}:
            yield f"no promise has the title {item.title}"
        for selection in item.selections:
            yield from selection.misnamed(sources)
    yield from miscited(sources, page, promises)
    read: set[Place] = set()
    for promise in promises:
        own = [it for it in items if it.title == promise.title]
        needed, listed = rests_on(sources, promise.begins, promise.skipped), listed_by(sources, own)
        if promise.title:
            of_read, of_needed, of_listed = (
                {Place(it.file, "") for it in places} for places in (read, needed - read, listed)
            )
            yield from differences(promise.title, of_needed - of_read, of_listed)
        else:
            needed_here = as_listed(needed)
            yield from differences("the numbered items", needed_here, listed)
            yield from misplaced(sources, own, last, as_listed(of_headline), needed_here)
            yield from sorted({*out_of_order(sources, own, promise)})
        read |= needed
    size = size_of(sources, of_headline)
    if not said or any(it > most for it, most in zip(size, said)):
        yield f"the headline rests on {size}, but the page says {said}"
