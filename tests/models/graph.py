"""The rules of docs/PROTOCOL.md over a graph that is never collected: triples, texts and serials,
with no slots, no cells and no collector."""

import copy
from collections.abc import Iterable

from models.reading import COMMANDS, LETTERS, Answer, Config, Event

# The next serial at which none is left.
NONE_LEFT = 2**64 - 1
SEATS = 64
# How many principals there may be at a time.
MOST_PRINCIPALS = 64
# The commands that make a vertex.
MAKES = ("create", "enrol")
# The field of a command that names a vertex which has to be of a kind, and the kind.
OF_KIND = {
    "read": ("over", "document"),
    "write": ("over", "document"),
    "assume": ("agent", "subject"),
}


def needs(actor: int, event: Event) -> list[tuple[int, int, str]]:
    """The labels that a command asks for, in their order: from, to, rights."""
    op, over, rights = event["op"], event.get("over", 0), event.get("rights", "")
    if op == "take":
        return [(actor, event["from"], "t"), (event["from"], over, rights)]
    if op == "grant":
        return [(actor, event["to"], "g"), (actor, over, rights)]
    if op == "look":
        return [(actor, event["at"], "t")] if event["at"] != actor else []
    letters = {"remove": rights, "read": "r", "write": "w", "assume": "tg"}
    return [(actor, event.get("agent", over), letters[op])] if op in letters else []


def gained(actor: int, event: Event) -> tuple[int, int]:
    """The edge that a take or grant adds rights to."""
    return (actor, event["over"]) if event["op"] == "take" else (event["to"], event["over"])


class Graph:
    """The graph of a configuration and of all that was carried out since, with the names of the
    principals, who has retired, who sits where, for whom a seat acts, and the pending targets."""

    def __init__(self, config: Config):
        edges = config["edges"]
        self.names = {name: serial for serial, name in enumerate(config["principals"], 1)}
        self.retired: set[int] = set()
        self.kinds = {serial: "subject" for serial in self.names.values()}
        self.texts: dict[int, str] = {}
        self.triples = {(start, end, right) for start, rights, end in edges for right in rights}
        self.next = config["next"]
        self.seats: dict[int, int] = {}
        self.agents: dict[int, int] = {}
        self.pending: dict[int, int] = {}

    def label(self, start: int, end: int) -> str:
        """The rights that one vertex has over another."""
        return "".join(right for right in LETTERS if (start, end, right) in self.triples)

    def edges(self, start: int) -> list[tuple[int, str]]:
        """The edges of a vertex by rising serial."""
        ends = {end for owner, end, _ in self.triples if owner == start}
        return [(end, self.label(start, end)) for end in sorted(ends)]

    def pairs(self) -> set[tuple[int, int]]:
        """The ends of all edges."""
        return {(start, end) for start, end, _ in self.triples}

    def reached(self, roots: Iterable[int]) -> set[int]:
        """The vertices at the ends of paths from these."""
        ends: dict[int, list[int]] = {}
        for start, end in self.pairs():
            ends.setdefault(start, []).append(end)
        found = set(roots)
        waiting = list(found)
        while waiting:
            new = set(ends.get(waiting.pop(), ())) - found
            found |= new
            waiting.extend(new)
        return found

    def actor(self, seat: int) -> int | None:
        """The actor of a seat: for whom it acts, or else who sits there; none if nobody does."""
        return self.agents.get(seat, self.seats.get(seat))

    def roots(self) -> set[int]:
        """The principals, and for whom seats act."""
        return {*self.names.values(), *self.agents.values()}

    def live(self) -> set[int]:
        """What these and the pending targets reach."""
        return self.reached({*self.roots(), *self.pending.values()})

    def stand_up(self) -> None:
        """All sessions end."""
        self.seats.clear()
        self.agents.clear()

    def rebased(self) -> "Graph":
        """The graph with which the history begins anew once nobody has a seat: what is live, with
        the same names and next serial; of those who have retired, the ones that are live."""
        assert not (self.seats or self.agents or self.pending), "somebody has a seat"
        live, fresh = self.live(), copy.deepcopy(self)
        fresh.retired &= live
        fresh.kinds = {serial: kind for serial, kind in self.kinds.items() if serial in live}
        fresh.texts = {serial: text for serial, text in self.texts.items() if serial in live}
        fresh.triples = {triple for triple in self.triples if triple[0] in live}
        return fresh

    def denial(self, actor: int, event: Event) -> Answer | None:
        """Why the rules deny a command, the first cause that holds; nothing if they allow it."""
        op = event["op"]
        if op == "leave":
            return None
        if actor in self.retired:
            return {"cause": "retired", "denied": op}
        if event.get("rights") == "":
            return {"cause": "empty", "denied": op}
        ends = [event[name] for name in ("over", "from", "to", "agent") if name in event]
        if len({actor, *ends}) <= len(ends):
            return {"cause": "not distinct", "denied": op}
        for start, end, rights in needs(actor, event):
            label = self.label(start, end)
            missing = "".join(it for it in LETTERS if it in rights and it not in label)
            if missing:
                return {"denied": op, "from": start, "missing": missing, "to": end}
        name, kind = OF_KIND.get(op, ("", ""))
        if name and self.kinds[event[name]] != kind:
            return {"cause": "not " + kind, "denied": op, "vertex": event[name]}
        cause = self.bar(actor, event)
        return {"cause": cause, "denied": op} if cause else None

    def bar(self, actor: int, event: Event) -> str | None:
        """Why a command may not enrol a principal, or its actor not retire; nothing if it may."""
        op = event["op"]
        if op == "retire":
            return None if actor in self.names.values() else "not principal"
        if op != "enrol":
            return None
        if event["name"] in self.names:
            return "name taken"
        return "crowded" if len(self.names) >= MOST_PRINCIPALS else None

    def refusal(self, event: Event) -> str | None:
        op, seat = event["op"], event["seat"]
        if seat >= SEATS:
            return "no seat"
        if op == "hello":
            unknown = None if event["name"] in self.names else "no principal"
            return "bound" if seat in self.seats else unknown
        if seat not in self.seats:
            return "no actor"
        return "busy" if op != "shade" and seat in self.pending else None

    def judged(self, event: Event) -> Answer | None:
        """The answer to an event that changes nothing, refused or denied; nothing if it is to be
        carried out. No event of the collector."""
        refusal = self.refusal(event)
        if refusal:
            return {"error": refusal}
        is_command = event["op"] in COMMANDS
        return self.denial(self.acting(event), event) if is_command else None

    def has_edge(self, event: Event) -> bool:
        """Whether an event takes no new edge: it gains rights over one that is there, or none."""
        if event["op"] not in ("take", "grant"):
            return True
        return bool(self.label(*gained(self.acting(event), event)))

    def acting(self, event: Event) -> int:
        """The actor of an event, at whose seat somebody sits."""
        actor = self.actor(event["seat"])
        assert actor is not None, "nobody sits here"
        return actor

    def carried_out(self, event: Event) -> Answer:
        """The answer to an event that is not refused or denied, and the change that it makes."""
        seat = event["seat"]
        if event["op"] == "hello":
            self.seats[seat] = self.names[event["name"]]
            return {"ok": "hello", "vertex": self.seats[seat]}
        if event["op"] == "bye":
            del self.seats[seat]
            self.agents.pop(seat, None)
            return {"ok": "bye"}
        if event["op"] == "shade":
            return {"shaded": self.pending.pop(seat, None)}
        answer, target = self.done(self.acting(event), event)
        if target is not None:
            self.pending[seat] = target
        if event["op"] == "assume":
            self.agents[seat] = event["agent"]
        if event["op"] == "leave":
            self.agents.pop(seat, None)
        return answer

    def done(self, actor: int, event: Event) -> tuple[Answer, int | None]:
        """The answer to a command that is allowed, and the target that it leaves."""
        op, over, rights = event["op"], event.get("over", 0), event.get("rights", "")
        if op in MAKES:
            new, self.next = self.next, self.next + 1
            self.kinds[new] = event.get("kind", "subject")
            self.triples |= {(actor, new, right) for right in rights}
            if op == "enrol":
                self.names[event["name"]] = new
            return {"ok": "created", "vertex": new}, new
        if op == "read":
            return {"ok": "text", "text": self.texts.get(over, "")}, None
        if op == "look":
            return {"edges": self.edges(event["at"]), "ok": "edges"}, None
        if op == "retire":
            self.names = {name: it for name, it in self.names.items() if it != actor}
            self.retired.add(actor)
        elif op == "write":
            self.texts[over] = event["text"]
        elif op == "remove":
            self.triples -= {(actor, over, right) for right in rights}
        elif op in ("take", "grant"):
            self.triples |= {(*gained(actor, event), right) for right in rights}
            return {"ok": "done"}, over
        return {"ok": "done"}, event.get("agent")


def verdict(config: Config, goal: Event, steps: list[Event]) -> Answer:
    graph = Graph(config)
    for index, step in enumerate(steps):
        if graph.kinds.get(step["actor"]) != "subject":
            return {"step": index, "verdict": "actor not subject"}
        denial = graph.denial(step["actor"], step)
        if denial:
            return {**denial, "step": index, "verdict": "step denied"}
        if step["op"] == "create" and graph.next == NONE_LEFT:
            return {"step": index, "verdict": "step full"}
        graph.done(step["actor"], step)
    label = graph.label(goal["from"], goal["to"])
    missing = "".join(it for it in LETTERS if it in goal["rights"] and it not in label)
    return {"missing": missing, "verdict": "goal missing"} if missing else {"verdict": "shared"}
