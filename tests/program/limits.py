"""Every limit at once: a run, a server with its settling, and an audit, each with the greatest
configuration, lines of 16,384 bytes, texts of 4,096 bytes, an owner of an edge for each slot, and
63 sessions, 64 seats or 100,000 steps. And runs in which a name is that of 100,000 principals, in
which every slot is that of one who retired, and in which every seat acts for a subject of its own.
And a server that begins a round with a vault that is full. No answer may be `out of memory`.

Each answer is built here by the rules of docs/PROTOCOL.md, the steps of the cycle by
docs/COLLECTOR.md.
"""

import contextlib
import json
import socket
from collections.abc import Callable, Iterator
from concurrent.futures import ThreadPoolExecutor
from pathlib import Path
from typing import Any

from checking import Tests, named, needing, parametrised, same
from models.graph import SEATS
from models.reading import LONGEST_LINE, LONGEST_TEXT
from running import SECONDS, asked, instructions, joined
from server.servers import asks, in_rounds, read_all, served

# Lines, each with its seat, and answers.
HELLO, WELCOME = b'{"name":"%s","op":"hello","seat":%d}', b'{"ok":"hello","vertex":%d}'
CREATE = b'{"kind":"%s","op":"create","rights":"%s","seat":%d}'
CREATED, SWEPT = b'{"ok":"created","vertex":%d}', b'{"freed":%d,"steps":%d}'
TAKE = b'{"from":%d,"op":"take","over":%d,"rights":"%s","seat":%d}'
REMOVE = b'{"op":"remove","over":%d,"rights":"%s","seat":%d}'
READ, TEXT = b'{"op":"read","over":%d,"seat":%d}', b'{"ok":"text","text":"%s"}'
WRITE, DONE = b'{"op":"write","over":%d,"text":"%s"}', b'{"ok":"done"}'
LOOK, SEEN = b'{"at":%d,"op":"look","seat":%d}', b'{"edges":[%s],"ok":"edges"}'
ENROL = b'{"name":"guest","op":"enrol","rights":"r","seat":0}'
SHADE, SHADED = b'{"op":"shade","seat":%d}', b'{"shaded":%d}'
RETIRE, CYCLE = b'{"op":"retire","seat":%d}', b'{"op":"cycle","seat":0}'
ASSUME, LEAVE = b'{"agent":%d,"op":"assume","seat":%d}', b'{"op":"leave","seat":%d}'
BYE, PARTED = b'{"op":"bye","seat":%d}', b'{"ok":"bye"}'

SLOTS, CELLS = 65_536, 1_048_576
NAMES = [x + y for x in "abcdefgh" for y in "abcdefgh"]
SESSIONS = 63
STEPS = 100_000
READS = 1_000
VISITS = 100_000

# Each principal may take from the first, who makes documents until no slot is left.
EDGES = [[serial, "t", 1] for serial in range(2, len(NAMES) + 1)]
CONFIG = {"cells": CELLS, "edges": EDGES, "principals": NAMES, "slots": SLOTS}
DOCUMENTS = range(len(NAMES) + 1, SLOTS + 1)
FIRST = DOCUMENTS[0]
OWNED = SEEN % b",".join(b'[%d,"rw"]' % serial for serial in DOCUMENTS)

# The second is written by escapes, which make a line of three times its bytes.
TEXTS = {
    b"a" * LONGEST_TEXT: b"a" * LONGEST_TEXT,
    b"\\u00e9" * (LONGEST_TEXT // 2): "é".encode() * (LONGEST_TEXT // 2),
}
LAST_TEXT = TEXT % list(TEXTS.values())[-1]
FULL = b'{"full":"slots"}'

# Lines with their answers; an opening has none.
Rows = Iterator[tuple[bytes, bytes | None]]


def longest(line: bytes) -> bytes:
    """The line with white space up to the limit."""
    return line.ljust(LONGEST_LINE)


OPENING = longest(json.dumps(CONFIG).encode())


def commands(seat: int) -> list[tuple[bytes, bytes, int | None]]:
    """The commands of the principal of a seat, each with its answer and the target that it leaves.
    The first principal's come before all others'."""
    if seat > 0:
        taken = (TAKE % (1, FIRST, b"r", seat), DONE, FIRST)
        return [taken, (longest(READ % (FIRST, seat)), LAST_TEXT, None)]
    create, more = (CREATE % (b"document", rights, 0) for rights in (b"rw", b"r"))
    made = [(create, CREATED % serial, serial) for serial in DOCUMENTS]
    told = [(more, FULL, None), (longest(LOOK % (1, 0)), OWNED, None)]
    for given, kept in TEXTS.items():
        told.append((longest(WRITE % (FIRST, given)), DONE, None))
        told.append((longest(READ % (FIRST, 0)), TEXT % kept, None))
    return [*made, *told]


def lines_of_run() -> Rows:
    """The lines of a run of 64 principals, each on a seat, with their answers, none of which is an
    error. A cycle starts, ends its marking and ends its sweep, goes over each slot once, and has
    two steps for each that is kept, which all are, and one for each edge."""
    yield OPENING, None
    for seat, name in enumerate(NAMES):
        yield longest(HELLO % (name.encode(), seat)), WELCOME % (seat + 1)
    for seat in range(len(NAMES)):
        for line, answer, target in commands(seat):
            yield line, answer
            if target:
                yield SHADE % seat, SHADED % target
    held = len(EDGES) + len(DOCUMENTS) + len(NAMES) - 1
    yield CYCLE, SWEPT % (0, 3 + 3 * SLOTS + held)


def greeted(connection: socket.socket, seat: int) -> None:
    """The client of a connection is greeted as the principal of a seat."""
    line = longest(HELLO % (NAMES[seat].encode(), 0)) + b"\n"
    asks(connection, line, WELCOME % (seat + 1) + b"\n")


def talked(connection: socket.socket, seat: int) -> None:
    """The principal of a seat has the answers that are wanted; no line waits for an answer."""
    rows = [(line, answer) for line, answer, _ in commands(seat)] + [(BYE % 0, PARTED)]
    with ThreadPoolExecutor() as pool:
        poured = pool.submit(connection.sendall, joined(*[line for line, _ in rows]))
        found = read_all(connection)
        poured.result(SECONDS)
    same(found, joined(*[answer for _, answer in rows]), f"seat {seat}")


def talks_at_every_limit(program: Path) -> None:
    """63 sessions at once. Settling goes over all that was made, written, looked at and read, and
    over what was full: it finds that everything agrees."""
    serving = served(program, SESSIONS, SESSIONS, config=OPENING + b"\n")
    with serving as server, contextlib.ExitStack() as stack:
        clients = [stack.enter_context(server.connection()) for _ in range(SESSIONS)]
        for seat, client in enumerate(clients):
            greeted(client, seat)
        talked(clients[0], 0)
        with ThreadPoolExecutor(SESSIONS) as pool:
            list(pool.map(talked, clients[1:], range(1, SESSIONS)))


def a_full_vault_is_rebased(program: Path) -> None:
    """What fills every slot lives, so the next round begins with all of it: an edge to each
    document, and the text of one."""
    rows = [(HELLO % (NAMES[0].encode(), 0), WELCOME % 1), (longest(LOOK % (1, 0)), OWNED)]
    rows += [(READ % (FIRST, 0), LAST_TEXT), (BYE % 0, PARTED)]
    how: dict[str, Any] = {"config": OPENING + b"\n", "ends": in_rounds(len(commands(0)))}
    with served(program, 1, 2, "--round", "1", **how) as server:
        with server.connection() as first:
            greeted(first, 0)
            talked(first, 0)
        found = server.exchange(joined(*[line for line, _ in rows]))
        same(found, joined(*[answer for _, answer in rows]))


def step(actor: int, line: bytes) -> bytes:
    fields = {name: value for name, value in json.loads(line).items() if name != "seat"}
    return json.dumps({"actor": actor, **fields}).encode()


def audit_at_every_limit(program: Path) -> None:
    """As many documents as in the run; what is owned is looked at, each text is written and read,
    the last one again and again; and all take from the first, the last of them what the goal asks
    for."""
    steps = [step(1, CREATE % (b"document", b"rw", 0))] * len(DOCUMENTS)
    steps += [step(1, LOOK % (1, 0))]
    for given in TEXTS:
        steps += [step(1, WRITE % (FIRST, given)), longest(step(1, READ % (FIRST, 0)))]
    steps += [step(1, READ % (FIRST, 0))] * (STEPS - len(steps) - (len(NAMES) - 1))
    steps += [step(serial, TAKE % (1, FIRST, b"r", 0)) for serial in range(2, len(NAMES) + 1)]
    same(len(steps), STEPS)
    goal = b'{"from":%d,"rights":"r","to":%d}' % (len(NAMES), FIRST)
    given = joined(OPENING, longest(goal), *steps)
    same(asked(program, "audit", given=given), (b'{"verdict":"shared"}\n', 0))


def visit(serial: int) -> Rows:
    """The lines of a guest who is enrolled, retires and leaves, with their answers."""
    yield ENROL, CREATED % serial
    yield SHADE % 0, SHADED % serial
    yield HELLO % (b"guest", 1), WELCOME % serial
    yield RETIRE % 1, DONE
    yield LOOK % (serial, 1), b'{"cause":"retired","denied":"look"}'
    yield BYE % 1, PARTED


def lines_of_one_name() -> Rows:
    """One name, of one guest after the other. Each was shaded, so that it is freed by the second
    cycle after it is dropped: three slots are enough. A cycle goes over alice and the last guest,
    neither of whom has an edge then."""
    yield b'{"principals":["alice"],"slots":3}', None
    yield HELLO % (b"alice", 0), WELCOME % 1
    for serial in range(2, VISITS + 2):
        yield from visit(serial)
        yield REMOVE % (serial, b"r", 0), DONE
        yield CYCLE, SWEPT % (serial > 2, 3 + 3 + 2 * 2)


def lines_of_all_slots() -> Rows:
    """No guest is dropped, so that each keeps a slot, and there is no room for one more. When alice
    has retired too, there is no root, and one cycle frees all that the one before it made white."""
    yield b'{"cells":65536,"principals":["alice"],"slots":65536}', None
    yield HELLO % (b"alice", 0), WELCOME % 1
    for serial in range(2, SLOTS + 1):
        yield from visit(serial)
    yield ENROL, FULL
    yield CYCLE, SWEPT % (0, 3 + 3 * SLOTS + SLOTS - 1)
    yield RETIRE % 0, DONE
    yield CYCLE, SWEPT % (SLOTS, 3 + SLOTS + SLOTS - 1)


def lines_of_64_agents() -> Rows:
    """Each seat is alice's, and acts for a subject of its own that has a document; only of the last
    does alice keep her rights. They are all kept, and after half of the seats left and half said
    bye all but the last are freed."""
    slots = 1 + 2 * SEATS
    yield b'{"principals":["alice"],"slots":%d}' % slots, None
    for seat in range(SEATS):
        agent = 2 + 2 * seat
        yield HELLO % (b"alice", seat), WELCOME % 1
        yield CREATE % (b"subject", b"tg", seat), CREATED % agent
        yield SHADE % seat, SHADED % agent
        if seat:
            yield REMOVE % (agent - 2, b"tg", seat), DONE
        yield ASSUME % (agent, seat), DONE
        yield SHADE % seat, SHADED % agent
        yield CREATE % (b"document", b"r", seat), CREATED % (agent + 1)
        yield SHADE % seat, SHADED % (agent + 1)
    yield CREATE % (b"document", b"r", 0), FULL
    # The steps are those that `lines_of_run` counts; a cell that is freed takes one step like one
    # that is looked at.
    yield from [(CYCLE, SWEPT % (0, 3 + 3 * slots + SEATS + 1))] * 2
    for seat in range(SEATS):
        agent = 2 + 2 * seat
        yield LOOK % (agent, seat), SEEN % (b'[%d,"r"]' % (agent + 1))
        yield (LEAVE % seat, DONE) if seat % 2 else (BYE % seat, PARTED)
    yield CYCLE, SWEPT % (slots - 3, 3 + slots + 2 * 3 + SEATS + 1)
    yield LOOK % (1, 63), SEEN % (b'[%d,"tg"]' % (2 * SEATS))


@parametrised
def answered(program: Path, lines: Callable[[], Rows]) -> None:
    """A run whose lines have their answers; no answer is an error."""
    rows = list(lines())
    written, status = asked(program, "run", given=joined(*[line for line, _ in rows]))
    same(written, joined(*[answer for _, answer in rows if answer]))
    same(status, 0)


# Alice makes document 2.
MADE = joined(
    b'{"principals":["alice"]}',
    *[HELLO % (b"alice", 0), CREATE % (b"document", b"rw", 0), SHADE % 0],
)


@needing("Valgrind")
def escapes_are_read_in_place(program: Path) -> None:
    """Escapes of a backslash and one letter, or of four hex digits, are cheaper than a surrogate
    pair: by at least 800 instructions for a line."""
    texts = (rb"a \"b\"", rb"a \u0022b\u0022", rb"a \ud834\udd1e")
    writes = [joined(*[WRITE % (2, text)] * READS) for text in texts]
    costs = [instructions(program, MADE + lines, "run") for lines in writes]
    print(f"  {READS} writes: {costs[:2]} instructions, with a surrogate pair {costs[2]}")
    assert costs[2] - max(costs[:2]) >= 800 * READS, "they are found token by token"


@needing("Valgrind")
def long_text_is_not_looked_at(program: Path) -> None:
    """A read of the longest text is cheaper if that came without escapes: by at least a quarter of
    an instruction for each of its bytes."""
    costs = []
    for last in (b"a", b"\\u0061"):
        lines = [WRITE % (2, b"a" * (LONGEST_TEXT - 1) + last), *[READ % (2, 0)] * READS]
        costs.append(instructions(program, MADE + joined(*lines), "run"))
    print(f"  {READS} reads: {costs[0]} instructions, of a text with an escape {costs[1]}")
    assert costs[1] - costs[0] >= LONGEST_TEXT * READS / 4, "its bytes are looked at"


def tests() -> Tests:
    yield "a-name-of-100000-principals", answered(lines_of_one_name)
    yield "every-slot-of-a-principal-that-retired", answered(lines_of_all_slots)
    yield "each-seat-acts-for-a-subject", answered(lines_of_64_agents)
    yield from named(long_text_is_not_looked_at, escapes_are_read_in_place)
    yield "run-at-every-limit", answered(lines_of_run)
    yield from named(talks_at_every_limit, a_full_vault_is_rebased, audit_at_every_limit)
