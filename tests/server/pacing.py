"""The collector's pace: beside a busy program on one processor, and with nothing to do."""

import contextlib
import os
import socket
import subprocess
import sys
import time
from collections.abc import Iterator
from concurrent.futures import ThreadPoolExecutor
from pathlib import Path
from typing import IO

from checking import Tests, named_in, same
from models.reading import line_of
from server.servers import BYE, CREATE, DONE, Server, busy_part, served

# Of the slots, 1 + 4 * (15 + 16) at most are reachable, a little less than half.
SLOTS, CLIENTS, KEPT, ROUNDS, AT_ONCE = 256, 4, 15, 150, 16
CONFIG = line_of({"principals": ["alice"], "slots": SLOTS}) + b"\n"
# Seconds for which a server with nothing to do is watched, and the part of a processor that it may
# then take.
WATCHED, MOST_BUSY = 3, 0.05


@contextlib.contextmanager
def busy_processor() -> Iterator[None]:
    """A processor that a busy program shares with whatever is begun in the block."""
    with contextlib.ExitStack() as stack:
        stack.callback(os.sched_setaffinity, 0, free := os.sched_getaffinity(0))
        os.sched_setaffinity(0, {max(free)})
        busy = subprocess.Popen([sys.executable, "-c", "while True: pass"])
        stack.enter_context(busy)
        stack.callback(busy.kill)
        yield


class Maker:
    """Alice, who makes documents and drops them, many lines at once."""

    def __init__(self, answers: IO[bytes], one: socket.socket):
        self.answers, self.connection = answers, one

    def ask(self, lines: bytes) -> list[bytes]:
        """The answers to these lines."""
        self.connection.sendall(lines)
        return [self.answers.readline() for _ in range(lines.count(b"\n"))]

    def make(self, count: int) -> tuple[list[bytes], list[bytes]]:
        """The serials of so many documents, and the answers to those that are not made."""
        rows = self.ask(CREATE * count)
        made = [row for row in rows if row.startswith(b'{"ok":"created"')]
        serials = [row.rstrip(b"}\n").rpartition(b":")[2] for row in made]
        return serials, [row for row in rows if row not in made]

    def drop(self, serials: list[bytes]) -> None:
        """Gives up all rights over these documents."""
        remove = b'{"op":"remove","over":%s,"rights":"rw"}\n'
        same(self.ask(b"".join(remove % it for it in serials)), [DONE] * len(serials))


@contextlib.contextmanager
def making(server: Server) -> Iterator[Maker]:
    """Alice makes and drops documents, and leaves."""
    with server.seated() as one, one.makefile("rb") as answers:
        yield (maker := Maker(answers, one))
        maker.ask(BYE)


def makes_and_drops(server: Server) -> list[bytes]:
    """A client that keeps some documents, and over and over makes some more and drops them, of
    which it sends as many lines at once; the answers to those that are not made."""
    with making(server) as maker:
        _, refused = maker.make(KEPT)
        for _ in range(ROUNDS):
            made, others = maker.make(AT_ONCE)
            refused += others
            maker.drop(made)
    return refused


def creates_on_a_busy_processor(program: Path) -> None:
    """No create is refused as full where a little less than half of the slots are reachable,
    however slow the server is."""
    with busy_processor(), served(program, CLIENTS, CLIENTS, config=CONFIG) as server:
        with ThreadPoolExecutor(CLIENTS) as pool:
            found = list(pool.map(makes_and_drops, [server] * CLIENTS))
    print(f"  {CLIENTS * (KEPT + ROUNDS * AT_ONCE)} documents in {SLOTS} slots")
    same(found, [[]] * CLIENTS, "refused")


# Slots for a collector that alone has to free them, seconds for which it has had nothing to do
# before, and seconds in which it has to.
FEW, IDLE, SOON = 512, 25, 5.0


def collector_that_frees_alone(program: Path) -> None:
    """In a vault all of whose slots are full a create fails, and so does no step of a session: if
    everything is dropped, however long the collector found nothing to free before, its own thread
    has room for another one soon."""
    config = line_of({"principals": ["alice"], "slots": FEW}) + b"\n"
    with served(program, 1, 1, config=config) as server, making(server) as maker:
        made, _ = maker.make(FEW)
        same(len(made), FEW - 1)
        time.sleep(IDLE)
        maker.drop(made)
        began, made = time.monotonic(), []
        while not made:
            assert time.monotonic() < began + SOON, "no slot is free"
            made, _ = maker.make(1)
        print(f"  one of {FEW} slots is free after {time.monotonic() - began:.2f} s")


def server_with_nothing_to_do(program: Path) -> None:
    """A server with nothing to do hardly takes a processor."""
    with served(program, 1, 1, config=CONFIG) as server, server.client() as alice:
        alice.hello("alice")
        alice.remove("rw", alice.create("document", "rw"))
        time.sleep(1)
        assert busy_part(server.process, WATCHED) < MOST_BUSY, "too much"
        alice.bye()


def tests() -> Tests:
    yield from named_in(globals())
