"""Random runs of valid lines, each answer compared with that of a graph that is never collected and
with that of each step of the collector, and random derivations with their verdicts.

Few slots, few cells, several seats, and the collector in between. Each line is sent once the answer
to the one before it is checked, so that the next one can be chosen by what is there. Half of the
runs come from a fixed seed and half from one of the clock, both printed; SEED names one for all.
The first answer that is wrong is printed with the whole run before it.
"""

import contextlib
import json
import os
import random
import time
from collections import Counter
from collections.abc import Iterator
from pathlib import Path
from random import Random

from checking import Tests, parametrised, same, tell_counts
from models.collector import Course
from models.graph import MOST_PRINCIPALS, NONE_LEFT, SEATS, Graph, verdict
from models.reading import COMMANDS, LETTERS, Answer, Event, line_of, read_config, read_event
from models.reading import read_goal, read_step
from models.storage import Run
from running import asked, hear, joined, rest_of, started, tell

RUNS = 200
DERIVATIONS = 200
LINES = 80
NAMES = ["alice", "bob", "carol", "dave"]
# Those who may join, most of them later than the others, and a crowd of principals.
JOINING = [*NAMES, "erin", "frank", "z" * 32]
OTHER_NAMES = ["x" * (number % 32 + 1) + "y" * (number // 32) for number in range(64)]
CROWD = [*NAMES, *OTHER_NAMES][:MOST_PRINCIPALS]
TEXTS = ["", "hi", "é\u2028😀", '"\\\n\0\x7f']
OPS = ["take"] * 4 + ["grant"] * 4 + ["create"] * 4 + ["remove"] * 5 + ["read", "write", "look"]
SESSION_OPS = [*OPS * 2, *["enrol"] * 5, "retire", *["assume"] * 6, "leave"]
# What an answer has by which its kind is known, the first that it has.
KINDS = ["retired", "not subject", "not principal", "name taken", "crowded", "serials", "slots"]
KINDS += ["cells", "denied", "error", "ok", "shaded", "mark", "sweep", "idle"]
OTHERS = ["shade", "shade", "cycle", "cycle", "hello", "hello", "bye"]


def seeds() -> list[str]:
    """The seeds of a test: SEED, or a fixed one and one of the clock."""
    named = os.environ.get("SEED")
    return [named] if named else ["1", str(time.time_ns())]


def sources(count: int, what: str) -> Iterator[tuple[str, Random]]:
    """Sources for so many tries, half of them of each seed, each with the words that name it."""
    for seed in seeds():
        print(f"  seed {seed}")
        for index in range(count // len(seeds())):
            yield f"{what}{index} of seed {seed}", random.Random(f"{seed}/{what}{index}")


def some(source: Random, letters: str = LETTERS) -> str:
    """One or more of these letters, in any order."""
    return "".join(source.sample(letters, source.randint(1, len(letters))))


def edges_among(source: Random, count: int) -> list[list[object]]:
    """Edges between most of so many principals, as a configuration has them."""
    ends = range(1, count + 1)
    pairs = [(x, y) for x in ends for y in ends if x != y and source.random() < 0.6]
    return [[x, some(source), y] for x, y in pairs]


def opening(source: Random) -> Event:
    """A configuration of one to four principals or a crowd; few slots, cells and serials."""
    few = source.randint(1, 4)
    count = source.randint(MOST_PRINCIPALS - 1, MOST_PRINCIPALS) if source.random() < 0.08 else few
    edges = edges_among(source, few)
    config: Event = {"principals": CROWD[:count], "edges": edges}
    config["slots"] = count + source.randint(0, 8)
    config["cells"] = max(1, len(edges) + source.randint(0, 16))
    if source.random() < 0.1:
        config["next"] = NONE_LEFT - source.randint(0, 6)
    return config


def serial(source: Random, graph: Graph) -> int:
    """A serial: mostly of a vertex, perhaps a lost one, else of none."""
    if source.random() < 0.9:
        return source.choice(list(graph.kinds))
    return source.choice([0, graph.next, NONE_LEFT])


def at_random(source: Random, graph: Graph, op: str) -> Event:
    """A command of this op, about as often denied as allowed, or more often."""
    fields: Event = {
        "rights": some(source) if source.random() < 0.95 else "",
        "kind": source.choice(["subject", "document"]),
        "text": source.choice([*TEXTS, f"text {source.randint(0, 99)}"]),
        "name": source.choice(JOINING),
        **{name: serial(source, graph) for name in ("over", "from", "to", "at", "agent")},
    }
    return {"op": op, **{name: fields[name] for name in COMMANDS[op]}}


def aimed(source: Random, graph: Graph, actor: int, event: Event) -> Event:
    """The command with ends and rights that are likely to be allowed, if there are any."""

    def end_of(
        edges: list[tuple[int, str]], letter: str = "", but: tuple[int, ...] = ()
    ) -> tuple[int, str]:
        """An edge with this right, not to these; none with no rights if there is none."""
        good = [edge for edge in edges if letter in edge[1] and edge[0] not in but]
        return source.choice(good or [(event.get("over", actor), "")])

    op, own = event["op"], graph.edges(actor)
    if op in ("read", "write"):
        documents = [edge for edge in own if graph.kinds[edge[0]] == "document"]
        return {**event, "over": end_of(documents, op[0])[0]}
    if op == "look":
        return {**event, "at": source.choice([actor, end_of(own, "t")[0]])}
    if op in ("retire", "leave"):
        return event
    if op == "assume":
        held = [edge for edge in own if {"t", "g"} <= set(edge[1])]
        subjects = [edge for edge in held if graph.kinds[edge[0]] == "subject"]
        return {**event, "agent": end_of(subjects if source.random() < 0.8 else held)[0]}
    if op == "create":
        return {**event, "rights": "rwtg"}
    if op == "enrol":
        free = [name for name in JOINING if name not in graph.names]
        return {**event, "rights": "rwtg", "name": source.choice(free or JOINING)}
    if op == "remove":
        over, label = end_of(own)
        rights = label or "r"
        rights = some(source, rights) if source.random() < 0.3 else rights
        return {**event, "over": over, "rights": rights}
    other, way = end_of(own, op[0])[0], "to" if op == "grant" else "from"
    over, label = end_of(own if op == "grant" else graph.edges(other), but=(actor, other))
    return {**event, "over": over, "rights": some(source, label or "r"), way: other}


def command(source: Random, graph: Graph, actor: int, ops: list[str]) -> Event:
    is_poor = len(graph.edges(actor)) < 2 and source.random() < 0.4
    event = at_random(source, graph, "create" if is_poor else source.choice(ops))
    is_aimed = source.random() < 0.85 and event.get("rights") != ""
    return aimed(source, graph, actor, event) if is_aimed else event


def greeting(source: Random, graph: Graph) -> Event:
    """A hello, often at a free seat, and of somebody who has none."""
    free = [seat for seat in range(SEATS) if seat not in graph.seats]
    waiting = [name for name, it in graph.names.items() if it not in graph.seats.values()]
    seats = free[:3] if free and source.random() < 0.7 else [0, 1, 2, 3, 62, 63, SEATS]
    names = waiting if waiting and source.random() < 0.6 else [*graph.names, *JOINING, "nobody"]
    return {"op": "hello", "seat": source.choice(seats), "name": source.choice(names)}


def event_of(source: Random, graph: Graph) -> Event:
    """The next line of a session."""
    is_taken = graph.seats and source.random() < 0.97
    seat = source.choice(list(graph.seats) if is_taken else [0, 1, 5, 63, 64])
    actor = graph.actor(seat) or 1
    if seat in graph.pending and source.random() < 0.5:
        return {"op": "shade", "seat": seat}
    if actor in graph.retired and source.random() < 0.5:
        return {"op": source.choice(["bye", "leave"]), "seat": seat}
    if seat in graph.agents and source.random() < 0.1:
        return {"op": source.choice(["retire", "leave"]), "seat": seat}
    if source.random() < 0.85:
        return {"seat": seat, **command(source, graph, actor, SESSION_OPS)}
    op = source.choice(OTHERS)
    if op == "hello":
        return greeting(source, graph)
    return {"op": op} if op == "cycle" else {"op": op, "seat": seat}


def filled(source: Random, graph: Graph) -> Iterator[Event]:
    """Documents are made until storage is settled and full."""
    yield from [{"op": "cycle"}] * 3
    for seat in list(graph.seats):
        for _ in range(source.randint(1, 4)):
            yield {"op": "shade", "seat": seat}
            yield {"op": "create", "kind": "document", "rights": "rw", "seat": seat}
        yield {"op": "shade", "seat": seat}
    yield from [{"op": "cycle"}] * 2


def plan(source: Random, run: Run | Course) -> Iterator[Event]:
    """The lines of a run, each chosen once it is asked for. In the end everybody looks around."""
    graph = run.graph
    for seat, name in enumerate(list(graph.names)[: len(NAMES)]):
        yield {"op": "hello", "name": name, "seat": seat}
    pace = source.choice([0, 0.2, 0.5, 0.7])
    for _ in range(source.randint(10, LINES)):
        yield event_of(source, graph)
        while source.random() < pace:
            yield {"op": "collect"}
    if source.random() < 0.5:
        yield from filled(source, graph)
    for seat, sitting in list(graph.seats.items()):
        actor = graph.agents.get(seat, sitting)
        for end in [actor, *dict(graph.edges(actor))]:
            yield {"op": "look", "at": end, "seat": seat}


def row_of(source: Random, event: Event) -> bytes:
    """The line of an event, its fields in any order, seat 0 sometimes left out."""
    fields = [it for it in event.items() if it != ("seat", 0) or source.random() < 0.5]
    source.shuffle(fields)
    return json.dumps(dict(fields)).encode()


def answered(source: Random, course: Course) -> Iterator[tuple[bytes, Answer]]:
    """The lines of a run, each with the model's answer."""
    for event in plan(source, course):
        row = row_of(source, event)
        yield row, course.answer(read_event(row))


def talked(
    program: Path, source: Random, config: bytes, told: list[bytes], seen: Counter[str]
) -> None:
    """A run with each of its answers, and its end. Lines and answers go to the list."""
    opened = read_config(config)
    run, course, errors = Run(opened), Course(opened), 0
    with started(program, "run") as process:
        tell(process, config + b"\n")
        for event in plan(source, run):
            row = row_of(source, event)
            told.append(row)
            tell(process, row + b"\n")
            answer, read = hear(process)[:-1], read_event(row)
            told.append(answer)
            problem = run.problem(read, answer) or course.problem(read, answer)
            assert problem is None, problem
            kind = next((kind for kind in KINDS if f'"{kind}"'.encode() in answer), "steps")
            seen[kind] += 1
            errors += kind == "error"
        same(rest_of(process), (b"", int(errors > 0)), "the end of the run")


@contextlib.contextmanager
def printed_if_wrong(what: str, rows: list[bytes]) -> Iterator[None]:
    """Prints lines if what is done about them in the block fails."""
    try:
        yield
    except (AssertionError, OSError):
        print(f"  {what}:")
        print("\n".join("    " + row.decode("utf-8", "backslashreplace") for row in rows))
        raise


@parametrised
def random_runs(program: Path, count: int) -> None:
    seen: Counter[str] = Counter()
    for name, source in sources(count, ""):
        config = line_of(opening(source))
        told = [config]
        with printed_if_wrong(f"run {name}", told):
            talked(program, source, config, told, seen)
    tell_counts("answers", seen)
    same(set(seen), {*KINDS, "steps"}, "answers of each kind")


def derivation(source: Random) -> list[Event]:
    """The values of an audit's lines: a configuration, a goal and steps. Many have only steps that
    are possible; the rest end in one of any kind."""
    config = opening(source)
    if source.random() < 0.2:
        config["next"] = NONE_LEFT - source.randint(0, 4)
    graph, is_good = Graph(read_config(line_of(config))), source.random() < 0.5
    steps: list[Event] = []
    for _ in range(source.randint(0, source.choice([40, 40, 160]))):
        subjects = [serial for serial, kind in graph.kinds.items() if kind == "subject"]
        actor = source.choice(subjects) if source.random() < 0.9 else serial(source, graph)
        step: Event = {"actor": actor, **command(source, graph, actor, OPS)}
        may_be_wrong = 0.08 if actor in subjects and graph.next < NONE_LEFT else 0.4
        # (whether the step can be carried out)
        is_allowed = graph.kinds.get(actor) == "subject" and not graph.denial(actor, step)
        if is_allowed and (step["op"] != "create" or graph.next < NONE_LEFT):
            graph.done(actor, step)
            steps.append(step)
        elif not is_good and source.random() < may_be_wrong:
            steps.append(step)
    start = source.choice(list(graph.kinds))
    end, label = source.choice(graph.edges(start) or [(serial(source, graph), "")])
    rights = label if source.random() < 0.7 else some(source)
    return [config, {"from": start, "rights": rights, "to": end}, *steps]


@parametrised
def derivations(program: Path, count: int) -> None:
    """This many random derivations, each with the verdict of the graph that is never collected."""
    seen: Counter[str] = Counter()
    for name, source in sources(count, "derivation "):
        rows = [row_of(source, value) for value in derivation(source)]
        steps = [read_step(row) for row in rows[2:]]
        wanted = verdict(read_config(rows[0]), read_goal(rows[1]), steps)
        seen[wanted["verdict"]] += 1
        status = int(wanted["verdict"] != "shared")
        with printed_if_wrong(name, rows):
            found = asked(program, "audit", given=joined(*rows))
            same(found, (line_of(wanted) + b"\n", status))
    tell_counts("verdicts", seen)
    verdicts = {"shared", "goal missing", "step denied", "step full", "actor not subject"}
    same(set(seen), verdicts, "verdicts of each kind")


def tests(runs: int = RUNS, of_audits: int = DERIVATIONS) -> Tests:
    yield "random-runs", random_runs(runs)
    yield "random-derivations", derivations(of_audits)
