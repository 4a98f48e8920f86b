"""The store of docs/COLLECTOR.md step by step: slots with their colours, cells in their order, and
both lists of slots.

storage.py says what any collector may answer; this says what this one answers. Opening edges are
put in by rising pairs of their ends. A new cell goes in front of its owner's, a slot in front of
its list; a new vertex takes the first slot that is free.
"""

from dataclasses import dataclass, field

from models.graph import MAKES, NONE_LEFT, Graph
from models.reading import Answer, Config, Event, line_of


@dataclass(eq=False)
class Slot:
    """A slot in use: its vertex, its colour, and the serials to which it has cells."""

    serial: int
    colour: str
    cells: list[int] = field(default_factory=list)


class Store:
    """The slots, each None if it is free; `where` has the place of each vertex that is held."""

    def __init__(self, config: Config):
        count = len(config["principals"])
        self.slots: list[Slot | None] = [Slot(place + 1, "white") for place in range(count)]
        self.slots += [None] * (config["slots"] - count)
        self.where = {serial: serial - 1 for serial in range(1, count + 1)}
        self.free = list(range(count, len(self.slots)))
        self.grey: list[Slot] = []
        self.phase, self.at, self.cells = "idle", 0, config["cells"]
        # The slot under scan, and those of its cells that are not passed.
        self.scanned: Slot | None = None
        self.ahead: list[int] = []
        for start, end in sorted((start, end) for start, _, end in config["edges"]):
            self.link(start, end)

    def slot(self, serial: int) -> Slot:
        found = self.slots[self.where[serial]]
        assert found, f"vertex {serial} has no slot"
        return found

    def link(self, start: int, end: int) -> None:
        self.slot(start).cells.insert(0, end)
        self.cells -= 1

    def unlink(self, start: int, end: int) -> None:
        """An edge without rights goes; if the cursor is at it, the cursor moves on."""
        slot = self.slot(start)
        slot.cells.remove(end)
        if slot is self.scanned and end in self.ahead:
            self.ahead.remove(end)
        self.cells += 1

    def make(self, start: int, serial: int) -> None:
        place = self.free.pop(0)
        colour = "black" if self.phase == "sweep" and place >= self.at else "white"
        self.slots[place], self.where[serial] = Slot(serial, colour), place
        self.link(start, serial)

    def shade(self, serial: int) -> None:
        slot = self.slot(serial)
        if slot.colour == "white":
            slot.colour = "grey"
            self.grey.insert(0, slot)

    def step(self, graph: Graph) -> tuple[bool, int]:
        """One step of the collector: whether it ended a cycle, and how many slots it freed."""
        if self.phase == "sweep":
            return self.sweep()
        (self.start if self.phase == "idle" else self.mark)(graph)
        return False, 0

    def start(self, graph: Graph) -> None:
        """Shades the agents from the greatest seat on, then the principals from the last on."""
        agents = [agent for _, agent in sorted(graph.agents.items(), reverse=True)]
        for serial in [*agents, *sorted(graph.names.values(), reverse=True)]:
            self.shade(serial)
        self.phase = "mark"

    def mark(self, graph: Graph) -> None:
        targets = [serial for _, serial in sorted(graph.pending.items())]
        white = [serial for serial in targets if self.slot(serial).colour == "white"]
        if self.scanned and self.ahead:
            self.shade(self.ahead.pop(0))
        elif self.scanned:
            self.scanned.colour, self.scanned = "black", None
        elif self.grey:
            self.scanned = self.grey.pop(0)
            self.ahead = list(self.scanned.cells)
        elif white:
            self.shade(white[0])
        else:
            self.phase, self.at = "sweep", 0
            parked = {slot.serial for slot in self.slots if slot and slot.colour == "white"}
            self.where = {it: place for it, place in self.where.items() if it not in parked}

    def sweep(self) -> tuple[bool, int]:
        if self.at == len(self.slots):
            self.phase = "idle"
            return True, 0
        slot, freed = self.slots[self.at], 0
        if slot and slot.colour == "white" and slot.cells:
            slot.cells.pop(0)
            self.cells += 1
            return False, 0
        if slot and slot.colour == "white":
            self.slots[self.at], freed = None, 1
            self.free.insert(0, self.at)
        elif slot and slot.colour == "black":
            slot.colour = "white"
        self.at += 1
        return False, freed


class Course:
    """A run so far: `problem` takes each event in turn with the line that answered it."""

    def __init__(self, config: Config):
        self.graph, self.store = Graph(config), Store(config)

    def problem(self, event: Event, answer: bytes) -> str | None:
        """What is wrong with the answer to an event; nothing if it is right."""
        wanted = line_of(self.answer(event))
        return None if answer == wanted else f"wanted {wanted.decode()}"

    def rebase(self) -> None:
        """Three cycles while nobody has a seat, and the graph of what is live in place of that of
        the history; the store stays, and has nothing else."""
        for _ in range(3):
            self.noted("cycle")
        self.graph = self.graph.rebased()
        in_slots = {slot.serial for slot in self.store.slots if slot}
        assert in_slots == set(self.graph.kinds) == set(self.store.where), "not what is live"

    def answer(self, event: Event) -> Answer:
        """The answer to an event, and the change that it makes."""
        if event["op"] in ("collect", "cycle"):
            return self.noted(event["op"])
        refusal = self.graph.judged(event)
        if refusal:
            return refusal
        full = self.full(event)
        return {"full": full} if full else self.carried_out(event)

    def full(self, event: Event) -> str | None:
        """Why there is no room for an event that is carried out otherwise; nothing if there is."""
        graph, op = self.graph, event["op"]
        if op in MAKES and graph.next == NONE_LEFT:
            return "serials"
        if op in MAKES and not self.store.free:
            return "slots"
        gains = op in MAKES or not graph.has_edge(event)
        return "cells" if gains and not self.store.cells else None

    def carried_out(self, event: Event) -> Answer:
        """The answer to an event that is neither refused nor denied nor full."""
        before = self.graph.pairs()
        answer = self.graph.carried_out(event)
        after = self.graph.pairs()
        for start, end in before - after:
            self.store.unlink(start, end)
        for start, end in after - before:
            (self.store.make if event["op"] in MAKES else self.store.link)(start, end)
        if answer.get("shaded") is not None:
            self.store.shade(answer["shaded"])
        return answer

    def noted(self, op: str) -> Answer:
        """The answer of the collector."""
        ended, freed = self.store.step(self.graph)
        if op == "collect":
            return {"ended": ended, "freed": freed, "phase": self.store.phase}
        steps = 1
        while not ended:
            ended, more = self.store.step(self.graph)
            freed, steps = freed + more, steps + 1
        return {"freed": freed, "steps": steps}
