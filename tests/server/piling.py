"""A client who piles edges up: it knows the key that everybody can read (`Key::FIXED`,
crates/tg_cells/src/key.rt), and chooses edges that all lie in one bucket of the index under it,
among many others, so that their cells lie far apart. Then it asks for an edge that is not there, in
that bucket and in the next one. Under the fixed key, that of `run`, the one takes much longer than
the other; under a server's own key they take as long.

bench/piling.py does the same with more edges, and prints the times.
"""

import json
import random
import time
from collections import defaultdict
from collections.abc import Callable, Iterator
from functools import partial
from pathlib import Path
from typing import Any, NamedTuple

from checking import Tests
from running import hear, rest_of, started, tell
from server.servers import ANY_PORT, Server, running

OWNER, SERIAL = 0x9E37_79B9_7F4A_7C15, 0x9FB2_1C65_1E98_DF25
WORD, BLOCK = 1 << 64, 64
BUCKET = 12_345
COMMANDS, ROUNDS = 1_000, 7
# How much longer a command takes in the bucket: under the fixed key at least so many times, under a
# server's at most.
LEAST_PILED, MOST_APART = 5, 3


def shift(owner: int, block: int) -> int:
    """How far the key moves an owner's edges to the serials of a block."""
    return (block * SERIAL + owner * OWNER) % WORD >> 32


class Pile(NamedTuple):
    """How many cells there are, a power of two, how many documents, and how many other edges."""

    cells: int
    vertices: int
    others: int

    @property
    def buckets(self) -> int:
        return self.cells // 2

    @property
    def config(self) -> bytes:
        return b'{"cells":%d,"principals":["alice"],"slots":65536}\n' % self.cells

    def in_bucket(self, owner: int, block: int, bucket: int) -> int | None:
        """The serial of the block to which an owner's edge lies in the bucket, as `bucket_of` has
        it; None if there is none."""
        place = (bucket - shift(owner, block) - BLOCK * block) % self.buckets
        return BLOCK * block + place if place < BLOCK else None

    def piled(self, bucket: int) -> Iterator[tuple[int, int]]:
        """Edges of alice's documents in the bucket; the vertex of serial k is in slot k - 1."""
        near = defaultdict(list)
        for block in range((self.vertices + 1) // BLOCK + 1):
            near[(shift(0, block) + BLOCK * block) % self.buckets // BLOCK].append(block)
        for owner in range(2, self.vertices + 2):
            wanted = (bucket - shift(owner - 1, 0)) % self.buckets // BLOCK
            places = [place % (self.buckets // BLOCK) for place in range(wanted - 2, wanted + 2)]
            for block in (block for place in places for block in near[place]):
                over = self.in_bucket(owner - 1, block, bucket)
                if over is not None and 2 <= over < self.vertices + 2 and over != owner:
                    yield owner, over

    def scattered(self) -> list[tuple[int, int]]:
        """The edges of the bucket among others, in an order of their own."""
        source = random.Random(1)
        places = range(2, self.vertices + 2)
        others = {(source.choice(places), source.choice(places)) for _ in range(self.others)}
        mixed = list(self.piled(BUCKET)) + sorted(edge for edge in others if edge[0] != edge[1])
        source.shuffle(mixed)
        return mixed

    def unknown(self, bucket: int) -> int:
        """A serial that no vertex has, to which alice's edge would lie in the bucket."""
        found = (self.in_bucket(0, block, bucket) for block in range(1 << 34, 1 << 35))
        return next(over for over in found if over is not None)


class Talk(NamedTuple):
    """Lines that are sent many at once, and their answers."""

    send: Callable[[bytes], object]
    receive: Callable[[], bytes]

    def ask(self, lines: list[str]) -> tuple[dict[str, Any], float]:
        """The last answer, and the seconds until it was there."""
        start, last = time.perf_counter(), b""
        for first in range(0, len(lines), 500):
            some = lines[first : first + 500]
            self.send("".join(line + "\n" for line in some).encode())
            for _ in some:
                last = self.receive()
        return json.loads(last), time.perf_counter() - start


def asked(talk: Talk, over: int) -> float:
    """Microseconds a command that reads over this serial: the least of some rounds."""
    lines = [f'{{"op":"read","over":{over}}}'] * COMMANDS
    found = [talk.ask(lines) for _ in range(ROUNDS)]
    assert all("denied" in answer for answer, _ in found), found
    return min(seconds for _, seconds in found) / COMMANDS * 1e6


def times(name: str, talk: Talk, pile: Pile, behind: list[str]) -> tuple[float, float]:
    """Piles the edges up; prints and returns how long a command takes in the bucket and beside."""
    lines = ['{"name":"alice","op":"hello"}']
    for _ in range(pile.vertices):
        lines += ['{"kind":"document","op":"create","rights":"rg"}', *behind]
    for owner, over in pile.scattered():
        lines += [f'{{"op":"grant","over":{over},"rights":"r","to":{owner}}}', *behind]
    answer, seconds = talk.ask(lines)
    assert "ok" in answer or "shaded" in answer, answer
    found = asked(talk, pile.unknown(BUCKET)), asked(talk, pile.unknown(BUCKET + 1))
    print(f"  {name}: {len(lines)} lines in {seconds:.1f} s; a command in the bucket", end=" ")
    print(f"{found[0]:.2f} us, beside it {found[1]:.2f} us", flush=True)
    return found


def times_of_run(program: Path, pile: Pile) -> tuple[float, float]:
    """Under the fixed key."""
    with started(program, "run", seconds=600) as process:
        tell(process, pile.config)
        talk = Talk(partial(tell, process), partial(hear, process))
        found = times("run", talk, pile, ['{"op":"shade"}'])
        rest_of(process)
    return found


def times_of_serve(program: Path, pile: Pile) -> tuple[float, float]:
    """Under a key that is drawn."""
    words = (*ANY_PORT, "--connections", "1")
    with running(program, *words, config=pile.config, seconds=600) as process:
        with Server(process).connection() as client, client.makefile("rb") as answers:
            client.settimeout(None)
            return times("serve", Talk(client.sendall, answers.readline), pile, [])


def edges_cannot_be_piled_up(program: Path) -> None:
    """Edges in one bucket under the key that all can read are not so under a server's."""
    pile = Pile(cells=32_768, vertices=12_000, others=9_000)
    fixed, own = times_of_run(program, pile), times_of_serve(program, pile)
    assert fixed[0] > LEAST_PILED * fixed[1], "the bucket is not slow under the fixed key"
    assert own[0] < MOST_APART * own[1], "the bucket is slow under a server's own key"


def tests() -> Tests:
    yield "edges-cannot-be-piled-up", edges_cannot_be_piled_up
