"""Tests that docs/THEOREM.md lists what its promises rest on, by the sources: all, and no more; and
that each definition of crates/*/specs stands in the folder to which it belongs: in Promise/ if a
public contract rests on it, of its crate or of one above, else in Inner/.

And tests of these tests: lapses in made-up crates, each of which has to be told. The crates are in
the folders lapses/, with a page that lists what they promise, and moves/, where each definition
stands in its folder. lapses.bugs and moves.bugs have the lapses, as entries of planting/reading.py:
the edits, of which one without an old text makes a file, and behind `>` each line that is told.
"""

import tempfile
from collections.abc import Callable, Iterable, Iterator
from pathlib import Path

from checking import Tests, same
from planting.reading import Edit, entries_in, made, unpacked
from running import ROOT
from theorem.compared import complaints
from theorem.specs import Place
from theorem.promises import PROMISES, Contract, Promise
from theorem.public import promised
from theorem.sources import Sources

WRONG = {"Promise": "no public contract rests on it", "Inner": "public contracts rest on it"}
HERE = Path(__file__).resolve().parent
# What the page of lapses/ promises.
HEADLINE = Place("tiny/specs/Promise/Theorem.antt", "Theorem")
PROMISED = [
    Promise("", (HEADLINE, Place("tiny/specs/Promise/Ends.antt", "Ends"))),
    Promise("A run", (Contract("tiny/src/run.rt", "run", ("ran",)),)),
]
# Of whose contract a page speaks, though it is private.
STEP = Contract("high/src/main.rt", "step")

# What is told of the crates in a folder.
Teller = Callable[[Path], Iterator[str]]


def is_listed(crates: Path) -> None:
    """The page has what the promises rest on, and says how much the headline needs."""
    page = (ROOT / "docs" / "THEOREM.md").read_text(encoding="utf-8")
    found = [*complaints(Sources(crates), page)]
    assert not found, "\n    ".join(["another list than the page's", *found])


def misplaced(crates: Path, page: Iterable[Place | Contract] = ()) -> Iterator[str]:
    """The definitions that stand in the wrong folder, or in none."""
    sources = Sources(crates)
    rested = promised(sources, page)
    for file in sources.files("*/specs/**/*.antt"):
        folder = file.split("/")[2]
        for name in sources.spec(file).definitions:
            if folder not in WRONG:
                yield f"{Place(file, name)} is in no folder"
            elif (Place(file, name) in rested) != (folder == "Promise"):
                yield f"{Place(file, name)}: {WRONG[folder]}"


def are_in_their_folders(crates: Path) -> None:
    found = [*misplaced(crates, [it for one in PROMISES for it in one.begins])]
    assert not found, "\n    ".join(["in wrong folders", *found])


def told(tell: Teller, crates: str, edits: list[Edit]) -> list[str]:
    """What is told of the crates with these edits."""
    with tempfile.TemporaryDirectory() as folder:
        copy = unpacked(HERE / crates, folder)
        for file, text in made(edits, copy).items():
            (copy / file).write_text(text, encoding="utf-8")
        try:
            return [*tell(copy)]
        except ValueError as error:
            return [str(error)]


def all_are_told(tell: Teller, crates: str) -> None:
    """Of the crates as they are nothing is told, and of each lapse exactly what is wrong."""
    same(told(tell, crates, []), [], "no lapse")
    for name, wanted, edits in entries_in(HERE / f"{crates}.bugs"):
        same(told(tell, crates, edits), wanted, name)


def told_of_the_page(crates: Path) -> Iterator[str]:
    page = (crates / "page.md").read_text(encoding="utf-8")
    return complaints(Sources(crates), page, PROMISED, HEADLINE)


def moves_are_told(_: Path) -> None:
    """Of definitions in wrong folders all are told; and of one that is inner, if a page speaks of
    it."""
    all_are_told(misplaced, "moves")
    found = told(lambda crates: misplaced(crates, [STEP]), "moves", [])
    same(found, ["Steps of high/specs/Inner/Steps.antt: public contracts rest on it"], "a page")


def tests() -> Tests:
    yield "theorem-rests-on-what-is-listed", is_listed
    yield "definitions-stand-in-their-folders", are_in_their_folders
    yield "lapses-of-the-theorem-are-told", lambda _: all_are_told(told_of_the_page, "lapses")
    yield "definitions-in-wrong-folders-are-told", moves_are_told
