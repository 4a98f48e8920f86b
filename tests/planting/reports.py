"""What the report of a check says of planted bugs."""

import re
from collections.abc import Iterable, Mapping

from planting import kit
from planting.checks import Ran
from planting.reach import Place

# What a report says of a written proof that names what a bug took away.
NAMES = re.compile(r"has no field|is not in scope|has no `|was not admitted")
ERROR = re.compile(r"(?:\./)?((?:src|specs|proofs)/\S+?):(\d+):\d+: error")
TOLD = re.compile(r"(?:note: )?\S+:\d+:\d+:")
# What a report says of a function of which nothing is wrong but what it calls, or the impl that it
# hands on.
UNPROVED = (
    r"it (?:calls|passes the blocks?) `[^`]+`(?:(?:, | and |, and )`[^`]+`)*,"
    r" which (?:is|are) not proved"
)
WAITS = re.compile(rf"fn (\S+): no proof: ({UNPROVED}(?:; {UNPROVED})*)$")
# What a report says of a function that calls what is not proved, if its own written proof is
# refused too: its other goals are left.
UNTRIED = re.compile(
    r"note: `search` has not tried the goals of `([^`]+)`, which wait for a callee's proof"
)
# What a report says of a function that is proved, given the contracts of those whose proof is a
# hole.
PROVED = r"(?:proved|no holes$|depends on a hole in )"
PROVES = re.compile(rf"fn (\S+): {PROVED}")
# What it says of anything else that is not proved.
STRAY = re.compile(rf"(fn|impl) \S+: (?!assumed|{PROVED})")
QUOTED = re.compile(r"`([^`]+)`")


def waiting(said: list[str], edited: set[str]) -> set[str]:
    """The functions of a report that are not proved only because they call edited ones or one
    another, or hand on an impl of such, which is the module that they stand in."""
    calls = {it[1]: {*QUOTED.findall(it[2])} for it in map(WAITS.match, said) if it}
    found, unproved, more = set[str](), set[str](), edited
    while more:
        unproved |= more | {f.rpartition("::")[0] for f in more}
        more = {f for f, named in calls.items() if f not in found and named <= unproved}
        found |= more
    return found


# A function, and the number of a copy of it.
Numbered = tuple[object, int]


class Report:
    """What a check said of the crate of this name with edited functions: the faults of each, those
    that are proved, those whose text cannot be read, and what else is wrong.

    `lines` says to which function and number each line of an edited one belongs, `symbols` names
    the edited functions, and `holes` those whose proof is a hole.
    """

    def __init__(
        self,
        crate: str,
        ran: Ran,
        lines: Mapping[Place, Numbered],
        symbols: set[str],
        holes: set[str],
    ) -> None:
        self.faults: dict[str, list[str]] = {}
        self.proved: set[str] = set()
        self.unread: set[Numbered] = set()
        self.stray: list[str] = []
        self.crate, self.lines, self.symbols, self.holes = crate, lines, symbols, holes
        said = ran.lines()
        # (of a hole a report says that it is not proved if its caller cannot have one)
        self.waits = waiting(said, symbols | holes)
        # (a function whose goals wait is looked at in its own line, and may be proved all the same
        # by what an earlier check kept)
        self.seen = symbols | self.waits | {it[1] for it in map(PROVES.match, said) if it}
        notes: list[str] = []
        for line in said:
            if line.startswith("note: src/") and ": it is not proved" in line:
                notes.append(line)
            else:
                self.read(line, notes)
            notes = [] if line.startswith("fn ") else notes
        ended = ran.returncode in (0, 1) and said[-1].startswith("only=")
        self.stray += [] if ended and not kit.STALE.search(ran.stdout) else said[-1:]

    def read(self, line: str, notes: list[str]) -> None:
        """Takes a line of the report that is no note; these are the notes before it."""
        error = ERROR.match(line)
        name = line[len("fn ") :].partition(": ")[0] if line.startswith("fn ") else ""
        if error:
            name = "::".join([self.crate, *error[1].split("/")[1:-1]])
        # (a closure in M::T::f is named M::fn::T::f::closure)
        path = f"{name}::".replace("::fn::", "::")
        copy = next((it for it in self.symbols if path.startswith(f"{it}::")), None)
        if error and copy:
            self.faults.setdefault(copy, []).append(line)
        elif error and (error[1], int(error[2])) in self.lines:
            self.unread.add(self.lines[error[1], int(error[2])])
        elif copy:
            self.judge(copy, line, notes)
        elif error or name not in self.waits and STRAY.match(line):
            self.stray.append(line)
        elif "has not tried the goals of" in line and not {*UNTRIED.findall(line)} & self.seen:
            self.stray.append(line)

    def judge(self, copy: str, line: str, notes: list[str]) -> None:
        """Takes the line that says of an edited function whether it is proved."""
        if re.match(rf"fn {re.escape(copy)}: {PROVED}", line):
            self.proved.add(copy)
        own = [*notes, *[line] * ("; `search` did not prove" in line)]
        calls = line.partition("; it calls ")[2]
        is_open = "not proved" in calls and not {*QUOTED.findall(calls)} <= self.holes
        self.faults.setdefault(copy, []).extend([] if is_open else own)


def refusal(ran: Ran, texts: Mapping[str, str | None], own: set[Place] | None = None) -> str | None:
    """What refuses the edited texts in a check that was asked for some functions, in one of its own
    lines if any are given, or None if that is not clear."""
    said = ran.lines()
    if ran.returncode != 1 or not said[-1].startswith("only=") or kit.STALE.search(ran.stdout):
        return None
    if any(kit.cannot_be_read(it, texts) for it in said):
        return None
    told = [it for it in said if TOLD.match(it)]
    told = [it for it in told if ": error" in it or it.startswith("note: ")]
    errors = [ERROR.match(it) for it in told]
    if own:
        if not all(it[1].startswith("proofs/") for it in errors if it):
            return None
        told = [it for it, error in zip(told, errors) if error and (error[1], int(error[2])) in own]
    # (of a written proof that only names what is not there nothing is taken)
    proof = re.compile(r"(note: )?(\./)?proofs/")
    return next((it for it in told if not (NAMES.search(it) and proof.match(it))), None)


def first_fault(faults: Iterable[str]) -> str | None:
    """The first fault that is not only of a name in a written proof."""
    return next((it for it in faults if not NAMES.search(it)), None)
