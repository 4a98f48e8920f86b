"""A server that serves in rounds for as long as months would: for tests/soak.

Its clients come one after the other, a host and a guest in turn. The host enrols the guest, the
guest acts for a subject of its own and retires, and both make and drop documents; each answer is
that of models/graph.py, which is cut down to what lives after each round. The documents and rights
that are there are read at the end of a round and again at the start of the next. The peak of the
memory in the later rounds is that of the earlier ones, and so is the number of open files. Since a
slot takes memory once it is used, and how many are in use at a time is up to the collector's pace,
most are used once before that. The server has one arena of malloc: what several hold is up to the
scheduler, and more on a busy machine.
"""

import json
import os
from collections.abc import Iterator
from pathlib import Path
from unittest.mock import patch

from checking import Tests, parametrised, same
from models.graph import Graph
from models.reading import Event, line_of, read_config
from running import hear, joined
from server.rounds import answer
from server.servers import AGREED, Server, figure, served

ROUNDS = 200
# Connections in a round, the first and the last of which read what is there, and commands of each
# of the others.
CONNECTIONS = 100
COMMANDS = 1_000
# How many slots are used before the memory is looked at.
FILLED = 60_000
# How much more memory the later rounds may use.
MORE = 1.05
CONFIG = line_of({"principals": ["alice"], "slots": 65_536, "cells": 262_144}) + b"\n"

Events = Iterator[Event]


def chores(graph: Graph, actor: int, count: int) -> Events:
    """A document is written and read over and over, others are made and dropped."""
    kept = graph.next
    yield {"op": "create", "kind": "document", "rights": "rw"}
    for number in range(count // 4):
        made = graph.next
        yield {"op": "create", "kind": "document", "rights": "r"}
        yield {"op": "write", "over": kept, "text": f"{actor} writes {number}"}
        yield {"op": "read", "over": kept}
        yield {"op": "remove", "over": made, "rights": "r"}


def host(graph: Graph, is_last: bool) -> Events:
    """The host drops the last guest and what it gave itself to do, unless this is the last time in
    a round, and enrols another guest."""
    yield {"op": "hello", "name": "alice"}
    for end, label in graph.edges(1):
        yield {"op": "remove", "over": end, "rights": label}
    guest = graph.next
    yield {"op": "enrol", "name": "guest", "rights": "tg"}
    yield from chores(graph, 1, COMMANDS)
    yield {"op": "grant", "over": guest + 1, "rights": "r", "to": guest}
    yield {"op": "look", "at": guest if is_last else 1}
    yield {"op": "bye"}


def guest(graph: Graph, _is_last: bool) -> Events:
    """The guest acts for a subject that it makes, and retires."""
    me = graph.names["guest"]
    yield {"op": "hello", "name": "guest"}
    agent = graph.next
    yield {"op": "create", "kind": "subject", "rights": "tg"}
    yield {"op": "assume", "agent": agent}
    yield from chores(graph, agent, COMMANDS)
    yield {"op": "leave"}
    yield {"op": "look", "at": agent}
    yield {"op": "look", "at": me}
    yield {"op": "retire"}
    yield {"op": "read", "over": agent + 1}
    yield {"op": "bye"}


def filler(graph: Graph) -> Events:
    """Many documents at the same time, which are dropped again."""
    yield {"op": "hello", "name": "alice"}
    made = range(graph.next, graph.next + FILLED)
    for _ in made:
        yield {"op": "create", "kind": "document", "rights": "r"}
    for serial in made:
        yield {"op": "remove", "over": serial, "rights": "r"}
    yield {"op": "bye"}


def reader(graph: Graph) -> Events:
    """All that alice can look at and read."""
    yield {"op": "hello", "name": "alice"}
    for serial in sorted(graph.reached([1])):
        yield {"op": "look", "at": serial}
        yield {"op": "read", "over": serial}


def used(server: Server) -> tuple[int, int]:
    """What a server uses: the peak of its memory since the last look, and its open files."""
    peak, folder = figure(server.process, "VmHWM"), Path(f"/proc/{server.process.pid}")
    (folder / "clear_refs").write_text("5")
    return peak, len(list((folder / "fd").iterdir()))


def talk(server: Server, graph: Graph, events: Events) -> bytes:
    """One talk of events, each of which is chosen by the graph as it then is, and has to be answered
    as that says; its answers."""
    lines, answers = [], []
    for event in events:
        lines.append(json.dumps(event).encode())
        answers.append(answer(graph, {"seat": 0, **event}))
    same(server.exchange(joined(*lines)), b"".join(answers))
    graph.stand_up()
    return b"".join(answers)


def one_round(server: Server, graph: Graph, before: bytes) -> bytes:
    """The talks of a round, the first and the last of which read, the first what was read before;
    what the last one reads. The first talk of the first round uses most slots instead."""
    if before:
        same(talk(server, graph, reader(graph)), before, "what is left of the round before")
    else:
        talk(server, graph, filler(graph))
    for number in range(CONNECTIONS - 2):
        who = (host, guest)[number % 2] if before else lambda graph, _: reader(graph)
        talk(server, graph, who(graph, number >= CONNECTIONS - 4))
    return talk(server, graph, reader(graph))


@parametrised
def lasted(program: Path, rounds: int) -> None:
    """A server that serves so many rounds."""
    graph, before, uses = Graph(read_config(CONFIG[:-1])), b"", []
    # A round more comes before the others, and a talk more keeps the server alive behind them.
    count = (rounds + 1) * CONNECTIONS + 1
    words = ("--round", str(CONNECTIONS))
    in_rounds = served(program, 2, count, *words, config=CONFIG, seconds=3_600, ends=None)
    with patch.dict(os.environ, MALLOC_ARENA_MAX="1"), in_rounds as server:
        for number in range(rounds + 1):
            before = one_round(server, graph, before)
            graph = graph.rebased()
            same(json.loads(hear(server.process))["round"], number + 1)
            if number in (0, rounds // 2, rounds):
                uses.append(used(server))
        same(talk(server, graph, reader(graph)), before)
        same(server.end(), AGREED)
    (_, (early, files), (late, files_left)) = uses
    print(f"  {len(graph.kinds)} vertices at the end")
    print(f"  {early >> 10} and {late >> 10} KB at most, {files} and {files_left} open files")
    assert late <= MORE * early, "more and more memory"
    same(files_left, files, "open files")


def tests(rounds: int = ROUNDS) -> Tests:
    yield "server-in-many-rounds", lasted(rounds)
