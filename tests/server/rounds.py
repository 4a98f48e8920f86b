"""Servers that serve in rounds: `--round`.

Between two rounds what lives becomes the opening graph, and the history is dropped. No client can
tell: each answer is that of a graph that was cut down to what lives after each round, and that of
one that never was.
"""

import random
from concurrent.futures import ThreadPoolExecutor
from pathlib import Path
from random import Random

from checking import Tests, named_in, parametrised, same
from fuzz.differential import NAMES, SESSION_OPS, command, edges_among, row_of, seeds
from models.collector import Course
from models.graph import Graph
from models.reading import Event, line_of, read_config, read_event
from models.storage import Run
from server.servers import BYE, CONFIG, CREATE, HELLO, LOOK, MADE, PARTED, ROOMY, WELCOME, Server
from server.servers import asks, in_rounds, poured, served
from transcripts import transcripts

TALKS = transcripts(Path(__file__).with_suffix(".txt"))
NARROW = b'{"cells":4,"principals":["alice","bob"],"slots":3}\n'


@parametrised
def talks(program: Path, config: bytes, each: int, *names: str, dropped: list[int]) -> None:
    """One talk after the other, so many in a round."""
    words, ends = ("--round", str(each)), in_rounds(*dropped)
    with served(program, 1, len(names), *words, config=config, ends=ends) as server:
        for name in names:
            same(server.exchange(TALKS[name].given), TALKS[name].wanted, name)


def one_waits_for_the_next_round(program: Path) -> None:
    """Who connects before a round is over is answered in the next one."""
    with served(program, 1, 2, "--round", "1", ends=in_rounds(1)) as server:
        with server.connection() as first, server.connection() as late:
            late.sendall(HELLO + BYE)
            asks(first, HELLO + CREATE + BYE, WELCOME, MADE, PARTED)
            asks(late, b"", WELCOME, PARTED)


def many_clients_in_a_round(program: Path) -> None:
    """Four clients in each of three rounds: all that they make is there in the end."""
    words, ends = ("--round", "4"), in_rounds(8, 8)
    with served(program, 4, 12, *words, config=ROOMY, ends=ends) as server:
        found: list[bytes] = []
        for lines in (CREATE * 2, CREATE * 2, LOOK):
            with ThreadPoolExecutor(4) as pool:
                found += pool.map(server.exchange, [HELLO + lines + BYE] * 4)
    rows = [row for answer in found[:8] for row in answer.splitlines()[1:3]]
    same(sorted(int(row.rpartition(b":")[2][:-1]) for row in rows), list(range(3, 19)))
    edges = b",".join([b'[2,"t"]', *[b'[%d,"rw"]' % serial for serial in range(3, 19)]])
    same(found[8:], [WELCOME + b'{"edges":[%s],"ok":"edges"}\n' % edges + PARTED] * 4)


def answer(graph: Graph, event: Event) -> bytes:
    """A server's answer to a line of a talk; a target is finished before it is answered."""
    found = graph.judged(event) or graph.carried_out(event)
    graph.pending.pop(event["seat"], None)
    return line_of(found) + b"\n"


def visit(server: Server, source: Random, graphs: list[Graph]) -> int:
    """One client's talk, each answer checked against all graphs; how many commands it asked."""
    last, count = graphs[-1], source.randint(5, 40)
    with server.connection() as one:
        for number in range(count + 1):
            actor = last.actor(0) or 1
            hello = {"op": "hello", "name": source.choice(list(last.names))}
            event = command(source, last, actor, SESSION_OPS) if number else hello
            row = row_of(source, {"seat": 0, **event}) + b"\n"
            (wanted,) = {answer(graph, read_event(row)) for graph in graphs}
            asks(one, row, wanted)
        same(poured(one, is_all=True), b"")
    for graph in graphs:
        graph.stand_up()
    return count


def same_before_and_after_a_rebase(program: Path) -> None:
    """Twenty rounds of one random client each: all answers are those of a graph that is cut down to
    what lives after each round, and those of one that never is."""
    for seed in seeds():
        source = random.Random(f"{seed}/rounds")
        edges = edges_among(source, len(NAMES))
        config = line_of({"principals": NAMES, "edges": edges}) + b"\n"
        cut, whole = (Graph(read_config(config[:-1])) for _ in range(2))
        dropped: list[int] = []
        with served(program, 1, 20, "--round", "1", config=config, ends=None) as server:
            while len(dropped) < 20 and whole.names:
                dropped.append(visit(server, source, [cut, whole]))
                cut = cut.rebased()
            for _ in range(20 - len(dropped)):
                server.exchange(b"")
                dropped.append(0)
            same(server.end(), in_rounds(*dropped[:-1]))
        print(f"  {len(cut.kinds)} vertices of {len(whole.kinds)} are left")


def models_after_garbage(_: Path) -> None:
    """The worked case of a rebase after garbage, by the models."""
    config = read_config(NARROW[:-1])
    models: list[Course | Run] = [Course(config), Run(config)]
    for model in models:
        for name in ("garbage", "afterwards"):
            for line, answer in TALKS[name].pairs:
                problem = model.problem(read_event(line), answer)
                assert problem is None, f"{line!r}: {problem}"
            if name == "garbage":
                model.rebase()
        graph = model.graph
        same((sorted(graph.kinds), graph.label(1, 4), graph.next), ([1, 2, 4], "r", 5))


# Talks, what is dropped after each round, and how many talks are in one.
ROUNDS: dict[str, tuple[str, list[int], int]] = {
    "a-server-in-rounds": ("writes reads", [2], 1),
    "one-round": ("writes reads", [], 2),
    "round-of-more-than-the-connections": ("writes reads", [], 10**6),
    "last-round-is-shorter": ("writes reads reads reads reads", [3, 2], 2),
    "principals-of-earlier-rounds": ("enrols retires enrols-again comes-back", [1, 1, 2], 1),
    "agents-of-earlier-rounds": ("acts looks looks", [3, 1], 1),
}


def tests() -> Tests:
    yield from named_in(globals())
    for name, (names, dropped, each) in ROUNDS.items():
        yield name, talks(CONFIG, each, *names.split(), dropped=dropped)
    garbage = talks(NARROW, 1, "drops", "makes", "keeps", dropped=[2, 3])
    yield "garbage-is-gone-in-the-next-round", garbage
