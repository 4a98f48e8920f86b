"""Runs of `tgdoc serve` with many clients at once, on real connections.

A well-behaved client is that of examples/tgdoc_client.py; the others send bytes. What one client
gets is tested in talks.py, how a server starts in listening.py, for how long it waits in
waiting.py, rounds in rounds.py, the collector's pace in pacing.py.
"""

import contextlib
import itertools
import random
import re
import socket
import struct
import threading
import time
from collections.abc import Callable
from concurrent.futures import ThreadPoolExecutor
from pathlib import Path
from random import Random
from typing import Any

from checking import Tests, named_in, parametrised, same
from models import owners
from running import SECONDS, example
from server import attended, bounds, listening, pacing, piling, rounds, talks, waiting
from server.servers import AGREED, ANY_PORT, BYE, CREATE, HELLO, LOOK, PARTED, ROOMY, SEEN, WELCOME
from server.servers import Server, asks, is_silent, poured, read_line, refusal_of, running, served
from tgdoc_client import Client, Full, Refused

# A well-behaved client is answered within this many seconds, whatever others do.
SOON = 1.0


def more_clients_than_workers(program: Path) -> None:
    """Twelve clients come at once to two workers: each waits its turn, makes a document and finds
    its own text there. Every third one leaves without a bye."""

    def in_turn(number: int) -> int:
        with server.client() as one:
            one.hello(["alice", "bob"][number % 2])
            document = one.create("document", "rw")
            one.write(document, f"text {number}")
            same(one.read(document), f"text {number}")
            if number % 3:
                one.bye()
        return document

    with served(program, 2, 12, config=ROOMY) as server, ThreadPoolExecutor(12) as pool:
        same(sorted(pool.map(in_turn, range(12))), list(range(3, 15)))


@parametrised
def waits_for_a_seat(program: Path, workers: int, *words: str) -> None:
    """This many clients are served at once; one more is answered once the first has left."""
    connections = ("--connections", str(workers + 1))
    with running(program, *ANY_PORT, *connections, *words) as process:
        server = Server(process)
        with server.seats(workers) as seated, server.connection() as late:
            late.sendall(HELLO)
            assert is_silent(late), "answered without a worker"
            seated[0].sendall(BYE)
            same(read_line(late), WELCOME)
        same(server.end(), AGREED)


def answer_of(client: Client, name: str, *arguments: Any, may_be_full: bool) -> Any:
    """The answer to a command: a value, or a refusal. If it may be full, it is sent again."""
    limit = time.monotonic() + 20
    while True:
        try:
            return getattr(client, name)(*arguments)
        except Full as full:
            if not may_be_full or time.monotonic() > limit:
                return full.answer
        except Refused as refusal:
            return refusal.answer
        time.sleep(0.001)


def one_more(source: Random, client: Client, owner: owners.Owner, made: list[int]) -> None:
    """One command of a client, answered as the model of what it owns says; a serial that it gets is
    added to what it made, the principals' before it."""
    name, arguments = owners.command(source, owner)
    denial = owner.denial(name, arguments)
    may_be_full = denial is None and name in ("create", "take", "grant")
    found = answer_of(client, name, *arguments, may_be_full=may_be_full)
    if denial is None and name == "create":
        assert isinstance(found, int) and found > made[-1], f"create: {found}"
        made.append(found)
    wanted = denial or owner.value(name, arguments, made[-1])
    # Edges are compared in their order.
    same(repr(found), repr(wanted), f"{name}{arguments}")


def live(server: Server, number: int, count: int) -> list[int]:
    """This many commands of one client; returns the serials of what it made."""
    source = random.Random(number)
    with server.client() as client:
        serial = client.hello(NAMES[number])
        same(serial, number + 1)
        owner, made = owners.Owner(serial, NAMES[number]), [len(NAMES)]
        for _ in range(count):
            one_more(source, client, owner, made)
        client.bye()
    return made[1:]


NAMES = [letter * 2 for letter in "abcdefghijklmnop"]
MANY = b'{"cells":2048,"principals":["%s"],"slots":256}\n' % '","'.join(NAMES).encode()


def no_serial_is_missing(made: list[int], least: int) -> None:
    """At least so many vertices were made; no serial was given twice or left out."""
    print(f"  {len(made)} vertices made")
    same(made, list(range(17, 17 + len(made))))
    assert len(made) > least, "too few"


def sixteen_clients(program: Path) -> None:
    """16 clients at once, each with 1,000 commands over what it owns: all answers are the model's.

    They make many times as many vertices as there are slots.
    """
    with served(program, 16, 16, config=MANY) as server, ThreadPoolExecutor(16) as pool:
        made = pool.map(lambda number: live(server, number, 1_000), range(16))
        no_serial_is_missing(sorted(itertools.chain(*made)), 1024)


GUEST = "guest"


def visit(server: Server, serial: int) -> list[int]:
    """A guest, who has this serial and nothing yet, works, acts for nobody, retires, and is denied
    whatever comes then; every other one leaves without a bye. Returns the serials of what it
    made."""
    source = random.Random(serial)
    with server.client() as client:
        same((client.hello(GUEST), client.look(serial)), (serial, {}))
        owner, made = owners.Owner(serial, GUEST), [serial]
        for _ in range(30):
            one_more(source, client, owner, made)
        for name in ("leave", "retire"):
            same(getattr(client, name)(), owner.value(name, (), 0), name)
        for _ in range(10):
            one_more(source, client, owner, made)
        if serial % 2:
            client.bye()
    return made[1:]


def receive(server: Server, name: str, count: int) -> list[int]:
    """A principal enrols one guest after the other, all by one name, and drops each when it has
    left; returns the serials of the guests and of what they made."""
    made = [len(NAMES)]
    with server.client() as host:
        host.hello(name)
        for _ in range(count):
            serial = answer_of(host, "enrol", GUEST, "tg", may_be_full=True)
            assert isinstance(serial, int) and serial > max(made), f"enrol: {serial}"
            taken = {"rule": "enrol", "cause": "name taken"}
            same(refusal_of(host, "enrol", GUEST, "r"), taken)
            made += [serial, *visit(server, serial)]
            host.remove("tg", serial)
        host.bye()
    return made[1:]


def guests_beside_others(program: Path) -> None:
    """Forty guests come and go while eight clients work: all answers are the models'. The slots
    have no room for all that the guests leave, unless it is freed."""
    with served(program, 10, 9 + 40, config=MANY) as server, ThreadPoolExecutor(9) as pool:
        others = [pool.submit(live, server, number, 500) for number in range(8)]
        guests = receive(server, NAMES[8], 40)
        made = itertools.chain(guests, *[other.result(2 * SECONDS) for other in others])
        no_serial_is_missing(sorted(made), 512)
    print(f"  {len(guests) - 40} of them by guests")


GONE: list[list[Any]] = [["look", 1], ["create", "document", "r"], ["retire"]]


def retired_on_two_seats(program: Path) -> None:
    """Who retires on one connection has retired on the other. Both end as always."""
    with served(program, 2, 4, config=ROOMY) as server:
        with server.client() as one, server.client() as other:
            same((one.hello("alice"), other.hello("alice")), (1, 1))
            document = other.create("document", "rw")
            one.retire()
            for client, (name, *arguments) in itertools.product((one, other), GONE):
                denial = {"rule": name, "cause": "retired"}
                same(refusal_of(client, name, *arguments), denial)
            other.bye()
        with server.client() as late, server.client() as bob:
            same(refusal_of(late, "hello", "alice"), "no principal")
            same((late.hello("bob"), bob.hello("bob"), bob.enrol("alice", "t")), (2, 2, 4))
            what: dict[str, Any] = {"rule": "read", "cause": "missing", "missing": "r"}
            same(refusal_of(bob, "read", document), what | {"source": 2, "target": document})
            same(late.look(2), {4: "t"})


def behave(bob: Client, document: int, is_over: threading.Event) -> float:
    """Writes and reads until all is over, thirty times at least; the longest wait."""
    waits: list[float] = []
    while len(waits) < 60 or not is_over.is_set():
        text = f"text {len(waits)}"
        for name, *arguments in (["write", text], ["read"]):
            start = time.monotonic()
            same(getattr(bob, name)(document, *arguments), text if name == "read" else None)
            waits.append(time.monotonic() - start)
        time.sleep(0.005)
    bob.bye()
    return max(waits)


@parametrised
def beside(program: Path, rough: Callable[[Server], None], connections: int) -> None:
    """A client that behaves is answered soon, whatever another one does on this many connections;
    the other's seat is free afterwards."""
    is_over = threading.Event()
    served_here = served(program, 2, connections + 2, config=ROOMY)
    with served_here as server, server.client() as bob, ThreadPoolExecutor() as pool:
        bob.hello("bob")
        behaved = pool.submit(behave, bob, bob.create("document", "rw"), is_over)
        try:
            rough(server)
            server.greet()
        finally:
            is_over.set()
        longest = behaved.result(SECONDS)
    print(f"  the longest wait was {longest:.3f} s")
    assert longest < SOON, "too long"


def waits_in_a_line(server: Server) -> None:
    """Sends half a line and waits; then leaves."""
    with server.connection() as one:
        asks(one, HELLO + LOOK[:10], WELCOME)
        assert is_silent(one, 1.0), "half a line is answered"


def never_reads(server: Server) -> None:
    """Sends lines until none is taken for a second, and reads no answer; then leaves. A server that
    took all would keep their answers."""
    with server.connection() as one:
        one.sendall(HELLO)
        one.settimeout(1.0)
        with contextlib.suppress(TimeoutError):
            for _ in range(900):
                one.sendall(LOOK * 1_000)
            raise AssertionError("the server took all lines")


def leaves_in_a_line(server: Server) -> None:
    """Leaves again and again in the middle of a line, every other time with an answer unread."""
    for turn in range(20):
        with server.connection() as one:
            one.sendall(HELLO + CREATE[: 5 + turn])
            if turn % 2:
                same(read_line(one), WELCOME)


def resets(server: Server) -> None:
    """Resets its connections: with answers unread, with half a line sent, with none."""
    for turn in range(20):
        with server.connection() as one:
            one.setsockopt(socket.SOL_SOCKET, socket.SO_LINGER, struct.pack("ii", 1, 0))
            if turn % 4:
                one.sendall(HELLO + LOOK * 100 + LOOK[: 5 + turn])
            if turn % 2:
                same(read_line(one), WELCOME)


def floods_and_reads(server: Server) -> None:
    """Sends 200,000 lines as fast as they are taken, and reads the answers, which are all there."""
    with server.connection() as one:
        found = poured(one, HELLO, *[LOOK * 1_000] * 200, BYE)
    same(found, WELCOME + SEEN * 200_000 + PARTED)


def slots_come_back(program: Path) -> None:
    """A client makes and drops more documents than there are slots; a text that it keeps stays."""
    with served(program, 1, 1) as server, server.client() as alice:
        alice.hello("alice")
        kept = alice.create("document", "rw")
        alice.write(kept, "kept")
        for serial in range(4, 104):
            same(answer_of(alice, "create", "document", "r", may_be_full=True), serial)
            alice.remove("r", serial)
        same(alice.read(kept), "kept")
        alice.bye()


@parametrised
def of_example(program: Path, name: str, *wanted: str) -> None:
    """An example ends well and reports what is wanted; its server says what a round may keep."""
    found = example(name, program)
    for text in [*wanted, "its one history agree."]:
        assert text in found.stdout, f"{text} is not in {found.stdout}"
    same(found.returncode, 0)
    kept = re.fullmatch(r"tgdoc: the history and .* may take \d+ bytes .*\n", found.stderr)
    assert kept, f"on standard error: {found.stderr!r}"


def tests_at_once() -> Tests:
    """What many clients do to one another."""
    yield from named_in(globals())
    yield "four-workers-where-no-number-is-given", waits_for_a_seat(4)
    yield "one-worker", waits_for_a_seat(1, "--workers", "1")
    yield "most-workers-each-with-a-client", waits_for_a_seat(63, "--workers", "63")
    yield "beside-one-that-waits-in-a-line", beside(waits_in_a_line, 1)
    yield "beside-one-that-never-reads", beside(never_reads, 1)
    yield "beside-one-that-leaves-in-a-line", beside(leaves_in_a_line, 20)
    yield "beside-one-that-resets", beside(resets, 20)
    yield "beside-one-that-floods-and-reads", beside(floods_and_reads, 1)
    talked = "bob reads: We meet at noon.", "carol made and dropped 200 documents"
    joined = "(no principal)", "(read denied: retired)", "(read denied: 9 has"
    acted = "(read denied: 4 has", "(no slots left)", "(assume denied: 1 has"
    examples = {"two-clients": talked, "join-and-leave": joined, "act-for-another": acted}
    for name, wanted in examples.items():
        yield name, of_example(name, *wanted)


def tests() -> Tests:
    yield from tests_at_once()
    for part in (talks, listening, waiting, rounds, pacing, bounds, attended, piling):
        yield from part.tests()
