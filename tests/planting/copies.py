"""The texts of a check of many planted bugs: edited copies of functions, or functions edited in
their place, and holes for the proofs of the others."""

import re
from collections import Counter
from collections.abc import Collection, Iterable
from operator import attrgetter
from pathlib import Path

from planting import kit
from planting.bugs import Bug, Span, arguments, can_be_edited, is_chosen
from planting.kit import Crate, Function, Texts

# What stands for a function in a check: numbered bugs, each in a copy of its own or in the
# function's place. The control is a copy with no bug.
Part = tuple[int, Bug | None]
CONTROL: Part = 0, None
Numbered = tuple[Function, int]
# A proof that is a hole, and thus takes no time.
HOLE = """use Rattle.{crate}.proofs.{module}.Statement.{{statement}}

pub {name}_spec : {{M : Type 1}} → statement M
{name}_spec = ?
"""


def may_call(body: bytes, f: Function) -> bool:
    """Whether the body may name the function: by a path or on a value, or alone if no method."""
    forms = [rb"::\s*%s\b"] if f.block else [rb"(?<![.\w])%s\b"]
    forms += [rb"\.\s*%s\s*(?:\(|::)"] if f.block and f.takes_self else []
    return any(re.search(form % re.escape(f.name.encode()), body) for form in forms)


class Copies:
    """The functions of a crate, with their names and calls, and the texts that hold edited ones.

    With `are_holed`, what is only called gets a hole for its proof.
    """

    def __init__(self, crate: Crate, are_holed: bool) -> None:
        self.crate, self.are_holed = crate, are_holed
        self.source, self.stem = kit.source_of(crate), "_planted"
        while any(self.stem.encode() in it for it in self.source.data.values()):
            self.stem += "_"
        data = self.source.data
        self.calls = {f: self.named(data[f.file][f.opens : f.end]) for f in self.source.functions}

    def path(self, f: Function) -> list[str]:
        """Where a report and the written proofs have the function: a method goes by the module that
        declares its type, and by its type arguments if any is chosen."""
        homes = [it[0] for it in self.source.declared.get(f.owner, [])] if f.block else []
        module = f.module if f.module in homes or not homes else homes[0]
        if not f.block:
            return [*module, f.name]
        owner = "+".join([f.owner, *arguments(f)]) if is_chosen(f) else f.owner
        return [*module, owner, f.name]

    def symbol(self, f: Function, ending: str = "") -> str:
        """The name by which a report calls the function, or its copy with this ending."""
        if f.in_trait and f.block:
            trait = kit.named(f.block.trait)[0]
            return "::".join([self.crate.name, *f.module, f"{f.owner}{trait}", f.name])
        return "::".join([self.crate.name, *self.path(f)]) + ending

    def asked(self, f: Function) -> str:
        """The name by which a check is asked for the function."""
        return self.symbol(f).partition("::")[2]

    def named(self, row: bytes) -> set[Function]:
        """The functions that the row may name in a call."""
        return {it for it in self.source.functions if may_call(row, it)}

    def called(self, bugs: Iterable[Bug], f: Function) -> set[Function]:
        """The functions that the function, as it stands or with one of the bugs, may come to by
        calls, but for calls behind a hole. (What it comes to in another way, by way of a trait, a
        report says of it too, and then its bug is tried alone.)"""
        rows = [span.new for it in bugs for span in it.spans.get(f, [])]
        found: set[Function] = set()
        ahead = self.calls[f].union(*map(self.named, rows))
        while ahead:
            found |= ahead
            behind = [self.calls[it] for it in ahead if not self.has_hole(it)]
            ahead = set[Function]().union(*behind) - found
        return found

    def has_hole(self, f: Function) -> bool:
        """Whether the function gets a hole for its proof in a check in which it is only called."""
        return self.are_holed and can_be_edited(f) and not f.in_trait

    def placed(self, bugs: Collection[Bug]) -> dict[Bug, Function]:
        """Those of the bugs that can be made in the functions themselves, and these: each is the
        only bug of the only function that it changes, and changes its body alone, and none of the
        other functions may come to it by calls."""
        times = Counter(f for it in bugs for f in it.spans)
        called = Counter(f for g in times for f in self.called(bugs, g) - {g})
        single = [it for it in bugs if len(it.spans) == 1 and not it.constants]
        own = {it: next(iter(it.spans)) for it in single if not it.is_of_contract}
        return {it: f for it, f in own.items() if times[f] == 1 and not called[f]}

    def written(
        self, file: str, parts: dict[Function, list[Part]]
    ) -> tuple[bytes, dict[tuple[str, int], Numbered]]:
        """The text of a file with what stands for its functions, and of each line of that the
        function and the number."""
        text, done = b"", 0
        lines: dict[tuple[str, int], Numbered] = {}
        for f in sorted((it for it in parts if it.file == file), key=attrgetter("end")):
            is_copied = CONTROL in parts[f]
            text += self.source.data[file][done : f.end if is_copied else f.first]
            done = f.end
            for number, bug in parts[f]:
                text += b"\n" * is_copied
                first = text.count(b"\n") + 1
                text += self.edited(f, bug, f"{self.stem}{number}" * is_copied)
                last = text.count(b"\n") + 1
                lines.update({(file, line): (f, number) for line in range(first, last + 1)})
        return text + self.source.data[file][done:], lines

    def made(
        self, bugs: Collection[Bug]
    ) -> tuple[Texts, dict[tuple[str, int], Numbered], dict[Numbered, str]]:
        """The texts of a check of the bugs, of each line of an edited function that function and
        its number, and the names by which a report calls these functions."""
        # (what stands for each function that the bugs change: a bug, or copies and a control)
        placed = self.placed(bugs).values()
        parts = {f: [] if f in placed else [CONTROL] for it in bugs for f in it.spans}
        for number, bug in enumerate(bugs, 1):
            for f in bug.spans:
                parts[f].append((number, bug))
        lines: dict[tuple[str, int], Numbered] = {}
        names: dict[Numbered, str] = {}
        texts = self.holes(placed)
        for file in {f.file for f in parts}:
            text, found = self.written(file, parts)
            lines.update(found)
            for number, bug in enumerate(bugs, 1):
                rows = bug.constants.values() if any(f.file == file for f in bug.spans) else []
                ending = f"{self.stem}{number}"
                text += b"".join(self.renamed(bug, row + b"\n", ending) for row in rows)
            texts[file] = text.decode()
        for f, some in parts.items():
            is_copied = CONTROL in some
            for number, _ in some:
                names[f, number] = self.symbol(f, f"{self.stem}{number}" * is_copied)
                texts.update(self.proofs(f, number) if is_copied else {})
        return texts, lines, names

    def renamed(self, bug: Bug, data: bytes, ending: str) -> bytes:
        """The bytes, where the names of the constants that the bug changes have this ending."""
        for it in bug.constants:
            data = re.sub(rb"\b%s\b" % it, it + ending.encode(), data)
        return data

    def edited(self, f: Function, bug: Bug | None, ending: str) -> bytes:
        """The text of the function with the bug, if any, under its name with this ending."""
        data: bytes = self.source.data[f.file][: f.end]
        name = Span(f.named[0], f.named[1], f"{f.name}{ending}".encode())
        for start, end, new in sorted([*(bug.spans[f] if bug else []), name], reverse=True):
            data = data[:start] + new + data[end:]
        return self.renamed(bug, data[f.first :], ending) if bug else data[f.first :]

    def holes(self, placed: Collection[Function]) -> Texts:
        """A hole in place of the written proof of each function but these, so that a check of those
        that call it need not prove it."""
        texts: Texts = {}
        for f in (it for it in self.source.functions if self.has_hole(it) and it not in placed):
            path = self.path(f)
            written = "/".join(["proofs", *path])
            texts |= {f"{written}/Invariants.antt": None, f"{written}/Answers.antt": None}
            hole = HOLE.format(module=".".join(path), name=f.name, crate=self.crate.name)
            texts[f"{written}/Proof.antt"] = hole
        return texts

    def proofs(self, f: Function, number: int) -> Texts:
        """The written proofs of the function, for a copy: each file's path and text, where it names
        its own modules anew."""
        path, folder = self.path(f), Path(self.crate.folder)
        texts: Texts = {}
        module, new = re.escape(".".join(path)), rf"\g<0>{self.stem}{number}"
        own = re.compile(rf"\bRattle\.{self.crate.name}\.proofs\.{module}(?=[.\s])")
        for file in filter(Path.is_file, folder.joinpath("proofs", *path).rglob("*")):
            to = [*file.relative_to(folder).parts]
            to[len(path)] += f"{self.stem}{number}"
            texts["/".join(to)] = own.sub(new, kit.text_of(str(file)))
        return texts
