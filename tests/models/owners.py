"""A model of one principal and of all that it makes, which nobody else reaches, by the rules of
graph.py; nothing is collected.

Commands are a method of examples/tgdoc_client.py and its arguments. It asks for no name but one
that is taken, and acts for subjects of its own.
"""

from random import Random
from typing import Any

from models.graph import Graph
from models.reading import COMMANDS, LETTERS, Answer, Config, Event

Arguments = tuple[Any, ...]

WORDS = ["", "noon", 'a "quoted" word', "back\\slash", "two\nlines", "\u00e9t\u00e9"]
WORDS += ["\u6587\u66f8", "\U0001f4c4"]
MOST_HELD = 8
NAMES_OF_COMMANDS = ["create"] * 6 + ["grant", "read", "write"] * 4
NAMES_OF_COMMANDS += ["take", "remove", "look"] * 2 + ["enrol"] + ["assume"] * 4 + ["leave"] * 2


class Owner:
    """The graph of one principal, who sits on the one seat."""

    def __init__(self, serial: int, name: str):
        self.serial, self.name = serial, name
        nobody: Config = {"principals": [], "edges": [], "next": 0, "slots": 0, "cells": 0}
        self.graph = Graph(nobody)
        self.graph.names, self.graph.seats = {name: serial}, {0: serial}
        self.graph.kinds = {serial: "subject"}

    @property
    def actor(self) -> int:
        """Whose rights count: for whom it acts, or else the principal itself."""
        return self.graph.agents.get(0, self.serial)

    def event(self, name: str, arguments: Arguments) -> Event:
        """A command as a line; the client's methods have their arguments in the same order."""
        return {"op": name, "seat": 0, **dict(zip(COMMANDS[name], arguments))}

    def denial(self, name: str, arguments: Arguments) -> Answer | None:
        return self.graph.denial(self.actor, self.event(name, arguments))

    def value(self, name: str, arguments: Arguments, serial: int) -> Any:
        """What the client returns for a command that is allowed, after which the graph is another;
        a new vertex has this serial, which the server chooses."""
        self.graph.next = serial
        answer = self.graph.carried_out(self.event(name, arguments))
        self.graph.pending.clear()
        # what nobody reaches is never named to any effect
        reached = self.reached()
        self.graph.triples = {triple for triple in self.graph.triples if triple[0] in reached}
        if name == "look":
            return dict(answer["edges"])
        return answer.get({"create": "vertex", "read": "text"}.get(name, ""))

    def reached(self) -> set[int]:
        """All vertices that the principal and the actor reach over edges, themselves among them."""
        return self.graph.reached([self.serial, self.actor])


def command(source: Random, owner: Owner) -> tuple[str, Arguments]:
    """A random command; if much is held, one that gives all rights over a vertex up, or leaves."""
    held = owner.graph.edges(owner.actor)
    if len(owner.reached()) > MOST_HELD:
        if not held:
            return "leave", ()
        over, label = source.choice(held)
        return "remove", (label, over)
    # Mostly what is held; now and then the actor itself, a vertex that was dropped, or one that
    # never existed or is another's.
    serials = [serial for serial, _ in held] * 5 + list(owner.graph.kinds)
    serials.append(source.randint(1, 5000))
    over, other = source.choice(serials), source.choice(serials)
    # some rights in any order, seldom none
    rights = "".join(source.sample(LETTERS, source.choice([0, 1, 1, 1, 2, 2, 3, 4, 4])))
    name = source.choice(NAMES_OF_COMMANDS)
    fields = {
        "kind": source.choice(["document", "document", "subject"]),
        "name": owner.name,
        "text": f"{source.choice(WORDS)} {source.randrange(1000)}",
        "at": source.choice([owner.actor, over]),
        **{"rights": rights, "over": over, "from": other, "to": other, "agent": over},
    }
    return name, tuple(fields[field] for field in COMMANDS[name])
