"""Which functions a bug is tried on that is not tried in copies: the laws for a bug in a
definition, those that a bug is about for any other."""

import re
from typing import NamedTuple

from planting import kit
from planting.bugs import Bug, can_be_edited
from planting.copies import Copies
from planting.kit import Function
from planting.reach import Clause, Reach

# A line of a constant.
CONSTANT = re.compile(rb"\s*(?:pub(?:\([a-z]+\))? )?const (\w+):[^\n]*")


class Asked(NamedTuple):
    """A bug in definitions, the clause that is asked for it, and what the bug touches."""

    bug: Bug
    clause: Clause
    touched: set[str]

    def is_apart(self, other: "Asked") -> bool:
        """Whether the clause of each is certain not to reach what the other touches, and the two
        touch nothing in common."""
        pairs = [(self.clause.reached, other.touched), (other.clause.reached, self.touched)]
        are_apart = all(reached is not None and not reached & it for reached, it in pairs)
        return are_apart and not self.touched & other.touched


class Laws:
    """The functions of a crate by what they state."""

    def __init__(self, copies: Copies) -> None:
        self.crate, self.copies, self.source = copies.crate, copies, copies.source

    def name(self, f: Function) -> str:
        return "::".join(self.copies.path(f))

    def laws(self) -> list[str]:
        """The functions that only state something: with no arguments, and no result."""
        functions = [f for f in self.source.functions if f.has_ensures]
        return [self.name(f) for f in functions if not (f.block or f.params or f.ret)]

    def reach(self) -> Reach:
        """What the functions of the crate reach by contracts, and the laws by proofs too."""

        own = [f for f in self.source.functions if f.has_body and not f.in_trait]
        heads = {f: self.source.data[f.file][f.first : f.opens].decode() for f in own}
        contracts = {self.name(f): (head, len(f.body)) for f, head in heads.items()}
        types = b""
        for file, data in self.source.data.items():
            spans = sorted((f.first, f.end) for f in self.source.functions if f.file == file)
            between = zip([(0, 0), *spans], [*spans, (len(data), 0)])
            types += b"".join(data[done:start] + b"\n" for (_, done), (start, _) in between)
        calling = {self.name(f) for f in own if self.copies.calls[f]}
        laws = [it for it in self.laws() if it not in calling]
        return Reach(self.crate.folder, self.crate.name, contracts, laws, types.decode())

    def groups(self, bugs: list[Bug]) -> list[list[Asked]]:
        """The bugs in definitions that one check each tries."""
        reach = self.reach()
        groups: list[list[Asked]] = []
        for bug in bugs:
            touched = reach.touched(bug.texts)
            clause = reach.nearest(touched)
            if clause:
                own = Asked(bug, clause, touched)
                for room in groups:
                    if all(map(own.is_apart, room)):
                        room.append(own)
                        break
                else:
                    groups.append([own])
        return groups

    def joined(self, bugs: list[Bug]) -> dict[str, str]:
        """The texts with all of these bugs, no two of which change the same line."""
        texts: dict[str, str] = {}
        for bug in bugs:
            for file, text in bug.texts.items():
                was = kit.text_of(f"{self.crate.folder}/{file}")
                now = texts.get(file, was)
                rows = zip(was.split("\n"), text.split("\n"), now.split("\n"))
                texts[file] = "\n".join(row if old == new else new for old, new, row in rows)
        return texts

    def constants(self, bug: Bug) -> list[bytes]:
        """The constants whose lines a bug changes; none if it changes anything else."""
        found = [CONSTANT.fullmatch(it.was) for it in bug.lines(self.source)]
        return [it[1] for it in found if it] if all(found) else []

    def users(self, constants: list[bytes]) -> list[Function]:
        """The functions that name one of the constants: those that do so in their bodies and those
        of the others that call one of these, or all of them if no body does."""
        named = re.compile(rb"\b(?:%s)\b" % b"|".join(constants))
        data, functions = self.source.data, self.source.functions
        every = [f for f in functions if constants and named.search(data[f.file], f.first, f.end)]
        nearest = {f for f in every if f.has_body and named.search(data[f.file], f.opens, f.end)}
        return [f for f in every if not nearest or f in nearest or self.copies.calls[f] & nearest]

    def inside(self, bug: Bug) -> set[Function]:
        """The functions in which the bug changes lines; none if a change there changes more than
        one proof."""
        found = set()
        for line in bug.lines(self.source):
            here = [f for f in self.source.functions if f.file == line.file]
            end = line.at + len(line.was)
            found |= {f for f in here if f.first <= end and line.at < f.end}
        return found if all(map(can_be_edited, found)) else set()

    def about(self, bug: Bug) -> list[str]:
        """The functions that a bug is about: the laws if it changes a definition, those that name a
        constant that it changes, those in which it changes lines, or else those of the modules that
        it changes."""
        if any(not it.startswith("src/") for it in bug.texts):
            return self.laws()
        if own := self.users(self.constants(bug)) or self.inside(bug):
            return sorted(map(self.copies.asked, own))
        modules = {f.module for f in self.source.functions if f.file in bug.texts}
        return [] if () in modules else ["::".join(it) for it in sorted(modules)]
