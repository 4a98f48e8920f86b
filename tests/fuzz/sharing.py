"""Random graphs, and whether rights can ever be shared in them: each answer of `tgdoc share`
compared with a closure by brute force, and each derivation given to `tgdoc audit`. It may make
vertices only if a closure in which nobody makes any lacks the goal's rights.

Half of the graphs come from a fixed seed and half from one of the clock, both printed; SEED names
one for all. The first answer that is wrong is printed with the whole run before it.
"""

import json
from collections import Counter
from dataclasses import dataclass
from pathlib import Path
from random import Random

from checking import Tests, parametrised, same, tell_counts
from fuzz.differential import event_of, opening, printed_if_wrong, row_of, some, sources
from models.collector import Course
from models.graph import NONE_LEFT, Graph, verdict
from models.reading import LETTERS, Event, line_of, read_config, read_event, read_goal, read_step
from models.sharing import Closure, actors, closure, most_steps
from running import asked, joined

GRAPHS = 500
GOALS = 4
# A graph of more vertices is left out: its closure takes too long.
MOST_VERTICES = 9
NEVER, NO_SERIAL = b'{"verdict":"never"}\n', b'{"verdict":"no serial"}\n'
SHARED = b'{"verdict":"shared"}\n'
TOO_MUCH = b'{"error":"too much"}\n'


def shared(program: Path, given: bytes, *words: str) -> tuple[bytes, int]:
    return asked(program, "share", *words, given=given)


def audited(program: Path, given: bytes) -> bytes:
    return asked(program, "audit", given=given)[0]


@dataclass
class Drawn:
    """The lines of a run, the graph that it leads to, the status that it ends with, and what each
    vertex can come to have, also if nobody makes anything."""

    rows: list[bytes]
    graph: Graph
    status: int
    reached: Closure
    plain: Closure

    @property
    def given(self) -> bytes:
        return joined(*self.rows)

    def room_is_near(self, serials: int) -> bool:
        """Whether there are not so many serials left for each actor."""
        left = NONE_LEFT - self.graph.next
        return left < serials * max(1, len(actors(self.graph)))


def drawn(source: Random) -> Drawn | None:
    """A random run; None if its graph has too many vertices."""
    config = line_of(opening(source))
    course, rows, status = Course(read_config(config)), [config], 0
    graph = course.graph
    hellos = [{"op": "hello", "name": it, "seat": at} for at, it in enumerate([*graph.names][:4])]
    for event in [*hellos, *[None] * source.randint(0, 30)]:
        rows.append(row_of(source, event or event_of(source, graph)))
        status |= "error" in course.answer(read_event(rows[-1]))
    if len(graph.kinds) > MOST_VERTICES:
        return None
    depth = 2 if len(graph.kinds) < 6 else 1
    return Drawn(rows, graph, status, closure(graph, depth), closure(graph, 0))


def vertex(source: Random, graph: Graph) -> tuple[str, int]:
    """A vertex, as a serial or, if it is a principal, now and then by its name."""
    vertices = [("", serial) for serial in graph.kinds] + list(graph.names.items())
    name, serial = source.choice(vertices)
    return name or str(serial), serial


def has(closed: Closure, start: int, rights: str, end: int) -> bool:
    return start != end and set(rights) <= closed[start].get(end, set())


def check_steps(program: Path, run: Drawn, words: list[str], text: bytes, goal: Event) -> int:
    """A derivation of a goal; how many vertices it makes."""
    lines = text.splitlines(keepends=True)
    alone, _ = shared(program, run.given, *words, "--steps")
    assert text.endswith(alone), f"the steps alone are not those of the derivation: {alone!r}"
    steps = [json.loads(row) for row in alone.splitlines()]
    most, creates = most_steps(run.graph, goal["rights"])
    made = len([step for step in steps if step["op"] == "create"])
    assert len(steps) <= most and made <= creates, f"{len(steps)} steps, {made} creates"
    same(audited(program, text), SHARED, "an audit of the derivation")
    same(lines[0], run.rows[0] + b"\n", "the configuration of the derivation")
    same(read_goal(lines[1][:-1]), goal, "the goal of the derivation")
    done = [read_step(row[:-1]) for row in lines[2:]]
    same(verdict(read_config(lines[0][:-1]), goal, done), {"verdict": "shared"})
    return made


def check_question(program: Path, source: Random, run: Drawn) -> str:
    """A random question; the kind of its answer."""
    (start, from_serial), (end, to_serial) = (vertex(source, run.graph) for _ in range(2))
    letters = some(source, source.choice(["r", "w", "t", "g", "rw", "tg", "rwtg"]))
    rights = "".join(letter for letter in LETTERS if letter in letters)
    words = ["--from", start, "--to", end, "--rights", letters]
    text, status = shared(program, run.given, *words)
    can, is_plain = (has(it, from_serial, rights, to_serial) for it in (run.reached, run.plain))
    same(status, run.status, f"the status of {words}")
    if text == NO_SERIAL and can and not is_plain and run.room_is_near(4):
        return "no serial"
    if not can:
        same(text, NEVER, f"the answer to {words}")
        return "never"
    assert text not in (NEVER, NO_SERIAL), f"{words}: a derivation is wanted, and not {text!r}"
    goal = {"from": from_serial, "rights": rights, "to": to_serial}
    made = check_steps(program, run, words, text, goal)
    assert not (is_plain and made), f"{words}: makes a vertex, and none is needed"
    return "shared" if is_plain else "shared by new vertices"


def check_lookup(program: Path, source: Random, run: Drawn) -> None:
    """Who could have rights over a random vertex, or over what one could."""
    end, (word, serial) = source.choice(["--from", "--to"]), vertex(source, run.graph)
    rights = some(source, source.choice(["r", "w", "t", "g", "rw", "tg"]))
    words = [end, word, "--rights", rights]
    text, status = shared(program, run.given, *words)
    could = []
    for other in sorted(run.graph.kinds):
        start, over = (serial, other) if end == "--from" else (other, serial)
        if has(run.reached, start, rights, over):
            label = run.graph.label(start, over)
            could.append([other, "".join(right for right in label if right in rights)])
    # (all that a vertex could have may take more serials than are left, though what is asked for
    # takes none, or is never had)
    is_too_much = text == NO_SERIAL and could or text == TOO_MUCH and end == "--from"
    if not (is_too_much and run.room_is_near(100)):
        wanted = (line_of({"could": could}) + b"\n", run.status)
        same((text, status), wanted, f"the answer to {words}")


@parametrised
def random_graphs(program: Path, count: int) -> None:
    seen: Counter[str] = Counter()
    for name, source in sources(count, "sharing/"):
        run = drawn(source)
        if run is None:
            continue
        with printed_if_wrong(name, run.rows):
            for _ in range(GOALS):
                seen[check_question(program, source, run)] += 1
                check_lookup(program, source, run)
    tell_counts("questions", seen)
    kinds = {"never", "shared", "shared by new vertices"}
    same(kinds - set(seen), set(), "no answers of these kinds")


def run_of_chain(links: int) -> bytes:
    """A run in which alice makes subjects 2, 3, .., a document for each two that follow each other,
    by which the earlier can pass on what it has to the later, and one that the first may read, and
    drops all that she has. Each subject also has take over the next, by which it could pass on as
    much with a new vertex."""
    first, last = links + 3, 2 * links + 3
    made = range(2, last + 1)
    kinds = ["subject" if serial < first else "document" for serial in made]
    events: list[Event] = [{"op": "create", "kind": kind, "rights": "rwtg"} for kind in kinds]
    grants = [("r", last, 2)]
    for giver, between in zip(range(2, links + 2), range(first, last)):
        grants += [("g", between, giver), ("t", between, giver + 1), ("t", giver + 1, giver)]
    events += [{"op": "grant", "rights": it, "over": over, "to": to} for it, over, to in grants]
    rows = [b'{"principals":["alice"],"slots":1024,"cells":8192}']
    rows.append(b'{"op":"hello","name":"alice"}')
    for event in events:
        rows += [line_of(event), b'{"op":"shade"}']
    rows += [line_of({"op": "remove", "rights": "rwtg", "over": serial}) for serial in made]
    return joined(*rows)


def chain(program: Path) -> None:
    """If 128 vertices can take part, none is made, and there are at most two steps a link; if there
    are more, the answer is right."""
    for links in (63, 100):
        given = run_of_chain(links)
        words = ["--from", str(links + 2), "--to", str(2 * links + 3), "--rights", "r"]
        rows = shared(program, given, *words, "--steps")[0].splitlines()
        steps = [json.loads(row) for row in rows]
        made = sum(step["op"] == "create" for step in steps)
        text, status = shared(program, given, *words)
        print(f"  {links} links: {len(steps)} steps, {made} creates")
        same((status, audited(program, text)), (0, SHARED))
        if links == 63:
            assert not made and len(steps) <= 2 * links, "too many steps or creates"


def tests(graphs: int = GRAPHS) -> Tests:
    yield "rights-that-can-be-shared", random_graphs(graphs)
    yield "no-new-vertex-in-a-long-chain", chain
