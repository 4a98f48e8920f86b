"""A run as its answers describe it: the graph that is never collected, and how many slots and cells
may be in use.

Only the number in use is known: slots by the creates and enrols and the slots that collector steps
freed, cells between the edges of what is live and those of what may still have a slot.
docs/COLLECTOR.md has what a collector step does.
"""

import re

from models.graph import MAKES, NONE_LEFT, Graph
from models.reading import Answer, Config, Event, line_of

NOTE = re.compile(rb'\{"ended":(true|false),"freed":([01]),"phase":"(idle|mark|sweep)"\}')
SWEPT = re.compile(rb'\{"freed":(0|[1-9][0-9]*),"steps":([1-9][0-9]*)\}')
FOLLOWS = {"idle": ["mark"], "mark": ["mark", "sweep"], "sweep": ["sweep", "idle"]}
# The commands that change the edges or leave a target, if they are carried out.
CHANGES = (*MAKES, "take", "grant", "remove", "assume")


class Run:
    """A run so far. `problem` takes each event in turn with the line that answered it."""

    def __init__(self, config: Config):
        self.graph = Graph(config)
        self.slots, self.cells = config["slots"], config["cells"]
        self.used = len(self.graph.names)
        self.phase, self.steps = "idle", 0
        # What was unreachable when this cycle started, what was so when the one before it did, and
        # what has no slot any more.
        self.doomed: set[int] = set()
        self.ripe: set[int] = set()
        self.gone: set[int] = set()
        # Whether sessions changed nothing since this cycle started, and how many cycles in a row
        # before it were like that.
        self.is_alone, self.quiet = True, 0

    def problem(self, event: Event, answer: bytes) -> str | None:
        """What is wrong with the answer to an event; nothing if it is right."""
        if event["op"] in ("collect", "cycle"):
            return self.noted(event["op"], answer)
        wanted = self.graph.judged(event)
        if wanted is None:
            full = self.full(event, answer)
            wanted = {"full": full} if full else self.carried_out(event)
        return None if answer == line_of(wanted) else f"wanted {line_of(wanted).decode()}"

    def carried_out(self, event: Event) -> Answer:
        """The answer to an event that is carried out; what it changes ends the quiet."""
        roots = self.graph.roots()
        answer = self.graph.carried_out(event)
        self.used += event["op"] in MAKES
        if event["op"] in CHANGES or answer.get("shaded") or self.graph.roots() != roots:
            self.is_alone, self.quiet = False, 0
        return answer

    def rebase(self) -> None:
        """Three cycles while nobody has a seat: just what is live has a slot then."""
        self.graph = self.graph.rebased()
        self.used = len(self.graph.kinds)
        self.phase, self.steps, self.is_alone, self.quiet = "idle", 0, True, 2
        self.doomed, self.ripe, self.gone = set(), set(), set()

    def cells_in_use(self) -> tuple[int, int]:
        """The fewest and the most cells in use: those of what is live, and of what may be there."""
        live, starts = self.graph.live(), [start for start, _ in self.graph.pairs()]
        return sum(it in live for it in starts), sum(it not in self.gone for it in starts)

    def full(self, event: Event, answer: bytes) -> str | None:
        """Why an event that the rules allow is refused as full: what has to be used up, or what may
        be and is reported as such."""
        graph, op = self.graph, event["op"]
        if op in MAKES and graph.next == NONE_LEFT:
            return "serials"
        if op in MAKES and self.used == self.slots:
            return "slots"
        if op in MAKES or not graph.has_edge(event):
            fewest, most = self.cells_in_use()
            if fewest >= self.cells or (most >= self.cells and answer == b'{"full":"cells"}'):
                return "cells"
        return None

    def noted(self, op: str, answer: bytes) -> str | None:
        """What is wrong with the answer to a line for the collector."""
        told = (NOTE if op == "collect" else SWEPT).fullmatch(answer)
        if not told:
            return f"no answer to {op}"
        if self.phase == "idle":
            self.steps, self.is_alone = 0, True
            self.doomed = set(self.graph.kinds) - self.graph.live()
        if op == "collect":
            ended, freed, steps, phase = told[1] == b"true", int(told[2]), 1, told[3].decode()
            may_free = self.phase == phase == "sweep"
            follows = phase in FOLLOWS[self.phase] and ended == (phase == "idle")
            if not follows or (freed and not may_free):
                return f"a step that does not follow the phase {self.phase}"
        else:
            ended, freed, steps, phase = True, int(told[1]), int(told[2]), "idle"
        self.phase, self.steps, self.used = phase, self.steps + steps, self.used - freed
        if freed and self.used < len(self.graph.live()):
            return "fewer slots in use than live vertices"
        if self.steps > self.slots**2 + 3 * self.slots + self.cells + 3:
            return "more steps than a cycle has"
        return self.ended() if ended else None

    def ended(self) -> str | None:
        if self.is_alone:
            fewest, most = self.cells_in_use()
            # how many pending targets the cycle shades for their seats, when sessions wait
            found, late = self.graph.reached(self.graph.roots()), 0
            for _, target in sorted(self.graph.pending.items()):
                if target not in found:
                    found, late = found | self.graph.reached([target]), late + 1
            # A start, an end of marking and an end of the sweep; a step for each slot; two for each
            # slot that is kept, one for each cell.
            cells = self.steps - 3 - self.slots - 2 * self.used
            if not fewest + (late if self.quiet else 0) <= cells <= most + late:
                known = f"the cells are {fewest} to {most} and {late} targets are shaded"
                return f"{self.steps} steps, where {known}"
            self.quiet += 1
        self.gone |= self.ripe
        self.ripe = self.doomed
        if self.used > len(self.graph.kinds) - len(self.gone):
            return "more slots in use than may be after two cycles"
        return None
