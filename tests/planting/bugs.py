"""A planted bug, and what it changes: bodies or contracts of functions, their constants, or other
lines."""

import os
import re
from pathlib import Path
from typing import NamedTuple

from planting import kit, reading
from planting.kit import Crate, Function, Source

# A constant may be named by as many functions if its bug is tried with others.
MOST_USERS = 3
# Words of items and contracts, with which a line may change more than a body.
ITEMS = re.compile(
    r"\b(?:fn|impl|struct|enum|trait|mod|use|const|static|extern|macro_rules"
    r"|ghost|requires|ensures|prove)\b|#\s*!?\["
)
# A constant that means the same in each file of the crate.
PLAIN = re.compile(
    rb"(?:pub(?:\([a-z]+\))? )?"
    rb"(const (\w+): (?:&str|bool|char|[iu](?:8|16|32|64|size)) = [\w.\"']+;)$"
)
# What names a constant and does nothing with it.
IDLE = re.compile(rb"//[^\n]*|\buse [^;]*;")


class Span(NamedTuple):
    """Bytes of a file, and what takes their place."""

    start: int
    end: int
    new: bytes


class Result(NamedTuple):
    """Whether the prover refused a bug, and what is reported."""

    is_refused: bool
    said: str


class Line(NamedTuple):
    """A line, or several, that a bug changes: its file, its place in bytes, the old and the new."""

    file: str
    at: int
    was: bytes
    row: bytes


def shape(row: bytes) -> tuple[list[int], list[str]]:
    """The brackets that a line opens and closes, and its words of items."""
    opened = [row.count(a) - row.count(b) for a, b in (b"()", b"[]", b"{}")]
    return opened, ITEMS.findall(row.decode())


def changed(file: str, old: list[bytes], new: list[bytes]) -> list[Line]:
    """The lines that differ; if lines come or go, all from the first that differs to the last."""
    if len(old) != len(new):
        least = min(len(old), len(new)) - 1
        head = min(least, len(os.path.commonprefix([old, new])))
        tail = min(least - head, len(os.path.commonprefix([old[::-1], new[::-1]])))
        at = sum(len(it) + 1 for it in old[:head])
        was, row = (b"\n".join(rows[head : len(rows) - tail]) for rows in (old, new))
        return [Line(file, at, was, row)]
    found, at = [], 0
    for was, row in zip(old, new):
        found += [Line(file, at, was, row)] if was != row else []
        at += len(was) + 1
    return found


def can_be_edited(f: Function) -> bool:
    """Whether a change of the function's body changes its own proof alone: the function is no
    trait's default, and in no cycle of calls."""
    return f.has_body and not f.in_cycle and not (f.block and f.block.is_trait)


def arguments(f: Function) -> list[str]:
    """The names in the type arguments of the function's impl."""
    words = f.block.ty[1:] if f.block else []
    return [it for before, it in zip(["", *words], words) if it.isidentifier() and before != "'"]


def is_chosen(f: Function) -> bool:
    """Whether the function's impl is of chosen type arguments."""
    return any(f.block and it not in f.block.generics for it in arguments(f))


def can_stand_twice(f: Function) -> bool:
    """Whether a copy of the function can be placed next to it: it is no trait's, and its impl is of
    no chosen type arguments."""
    return not f.in_trait and can_be_edited(f) and not is_chosen(f)


class Bug:
    """A planted bug, and the functions whose bodies or contracts it changes, each with the bytes
    that it replaces there, and the constants."""

    def __init__(
        self, crate: Crate, name: str, texts: dict[str, str], why: str | None = None
    ) -> None:
        self.name, self.texts, self.seconds = f"{crate.name}/{name}", texts, 0.0
        self.result = Result(False, f"BAD EDIT: {why}") if why else None
        self.spans: dict[Function, list[Span]] = {}
        self.constants: dict[bytes, bytes] = {}
        self.is_of_contract = False

    def lines(self, source: Source) -> list[Line]:
        """The lines that the bug changes in src/ and, as one, all of any other file."""
        found = []
        for file, text in self.texts.items():
            old = source.data.get(file, b"").split(b"\n")
            found += changed(file, old, text.encode().split(b"\n"))
        return found

    def fits(self, source: Source) -> bool:
        """Finds what the bug changes, and returns whether all of it lies in bodies of functions, in
        contracts of functions that can be copied, or in constants that bodies alone name."""
        for it in self.lines(source):
            if not self.is_in_a_function(source, it) and not self.is_a_constant(source, it):
                return False
        is_plain = len(self.spans) == 1 and not self.constants and not self.is_of_contract
        return is_plain or self.can_be_copied()

    def is_in_a_function(self, source: Source, line: Line) -> bool:
        """Whether the line's change lies in the body of a function, or between its name and its
        body, which is noted."""
        file, at, was, row = line
        same_end = len(os.path.commonprefix([was[::-1], row[::-1]]))
        first = at + len(os.path.commonprefix([was, row]))
        end = max(first, at + len(was) - same_end)
        inside = [f for f in source.functions if f.file == file and f.has_body]
        found = [f for f in inside if f.named[1] < first and end < f.end]
        if len(found) != 1 or not can_be_edited(found[0]) or shape(was) != shape(row):
            return False
        self.is_of_contract |= first <= found[0].opens
        self.spans.setdefault(found[0], []).append(Span(at, at + len(was), row))
        return True

    def is_a_constant(self, source: Source, line: Line) -> bool:
        """Whether the line is a plain constant that a few functions name in their bodies, and
        nothing else does; it and they are noted."""
        old, new = PLAIN.match(line.was), PLAIN.match(line.row)
        if not old or not new or old[2] != new[2]:
            return False
        word = re.compile(rb"\b%s\b" % new[2])

        def times(text: bytes) -> int:
            return len(word.findall(IDLE.sub(b"", text)))

        bodies = {f: source.data[f.file][f.opens : f.end] for f in source.functions if f.has_body}
        users = {f: times(body) for f, body in bodies.items() if times(body)}
        every = sum(map(times, source.data.values()))
        is_named_in_bodies_alone = users and every == sum(users.values()) + 1
        if not is_named_in_bodies_alone or len(users) > MOST_USERS:
            return False
        if not all(map(can_stand_twice, users)):
            return False
        self.constants[new[2]] = new[1]
        for f in users:
            self.spans.setdefault(f, [])
        return True

    def can_be_copied(self) -> bool:
        """Whether each function that the bug changes can be."""
        return bool(self.spans) and all(map(can_stand_twice, self.spans))


def planted(crate: Crate) -> list[Bug]:
    folder, found = Path(crate.folder), []
    for name, edits in reading.bugs_of(folder).items():
        try:
            found.append(Bug(crate, name, reading.edited(edits, folder)))
        except reading.Misplaced as error:
            found.append(Bug(crate, name, {}, str(error)))
    return found


def must_fail(crate: Crate) -> list[Bug]:
    found = []
    for file in sorted(Path(crate.folder, "must-fail").glob("*.edit")):
        texts, why = kit.read_edit(str(file), crate.folder)
        found.append(Bug(crate, file.stem, texts or {}, why))
    return found
