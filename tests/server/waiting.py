"""How long a server waits for its clients: `--patience`.

The server's limit is one second, if no test says otherwise. Whoever waits for more than that is a
client that behaves; its answer has to come once the limit is over, within the time that the server
takes to end one talk after the other, and no sooner.
"""

import contextlib
import socket
import time
from pathlib import Path

from checking import Tests, named_in, parametrised, same
from server.servers import BYE, CREATE, DONE, HELLO, LOOK, MADE, PARTED, READ, SEEN, WELCOME, WRITE
from server.servers import asks, is_silent, poured, read_all, read_line, served, suspended, takes

PATIENCE = 1.0
PATIENT = ("--patience", "1")
# The machine may be slow.
LATEST = 3 * PATIENCE + 10.0
# A limit of which it can be told whether it was waited for once or twice.
LONG_PATIENCE = 6.0
LONG_PATIENT = ("--patience", "6")


@parametrised
def silent_clients(
    program: Path, sent: bytes, answered: bytes, workers: int = 4, rounds: int = 1
) -> None:
    """So many clients at each worker send this and then nothing; one more, that behaves, is
    answered once patience with each is over. No connection is reset."""
    count = workers * rounds
    with contextlib.ExitStack() as stack:
        server = stack.enter_context(served(program, workers, count + 1, *PATIENT))
        with takes(rounds * PATIENCE, LATEST):
            silent = [stack.enter_context(server.connection()) for _ in range(count)]
            for one in silent:
                one.sendall(sent)
            server.greet()
        same([read_all(one) for one in silent], [answered] * count)


def sends_all(one: socket.socket, lines: bytes, times: int) -> None:
    """Sends the lines over and over, until none is taken any more."""
    one.settimeout(PATIENCE / 2)
    with contextlib.suppress(TimeoutError, ConnectionError):
        for _ in range(times):
            one.sendall(lines)


def client_that_never_reads(program: Path) -> None:
    """A client sends lines until none is taken any more, and reads no answer: the next one is
    answered once patience is over, which is waited for once, and finds nobody in its seat."""
    with served(program, 1, 2, *LONG_PATIENT) as server, server.connection() as one:
        with takes(LONG_PATIENCE, 2 * LONG_PATIENCE):
            one.sendall(HELLO)
            sends_all(one, LOOK * 1_000, 900)
            server.greet()
        server.end()


def client_that_trickles(program: Path) -> None:
    """A client that sends a byte of a line now and then has one limit for the whole line, and so
    has one that takes a little of its answers now and then for all of them; the next client is
    answered then."""
    with served(program, 1, 2, *PATIENT) as server, server.connection() as one:
        with takes(PATIENCE, LATEST):
            one.sendall(HELLO)
            with contextlib.suppress(ConnectionError):
                for byte in (LOOK * 2)[:25]:
                    one.sendall(bytes([byte]))
                    time.sleep(PATIENCE / 5)
            server.greet()
        server.end()
    with served(program, 1, 2, *PATIENT) as server, server.connection() as one:
        with takes(PATIENCE, LATEST):
            one.sendall(HELLO)
            sends_all(one, LOOK * 1_000, 900)
            with server.connection() as late:
                late.sendall(HELLO)
                with contextlib.suppress(ConnectionError):
                    while is_silent(late, PATIENCE / 5):
                        one.recv(1_000)
                same(read_line(late), WELCOME)
        server.end()


def server_that_is_stopped_for_a_while(program: Path) -> None:
    """A server that is stopped and goes on has not lost its clients: neither one that is silent
    nor one whose line has come meanwhile."""
    with served(program, 2, 2, *LONG_PATIENT) as server, server.seats(2) as (silent, busy):
        for _ in range(3):
            with suspended(server.process):
                time.sleep(0.1)
                busy.sendall(LOOK)
            same(read_line(busy), SEEN)
        same([poured(one, BYE) for one in (silent, busy)], [PARTED] * 2)


def client_that_is_slow(program: Path) -> None:
    """A client each of whose lines comes within the limit is served for longer than that."""
    pieces = {HELLO[:9]: b"", HELLO[9:]: WELCOME, LOOK[:5]: b"", LOOK[5:] + LOOK: SEEN * 2}
    with served(program, 1, 1, *PATIENT) as server, server.connection() as one:
        with takes(1.5 * PATIENCE, LATEST):
            for piece, answers in {**pieces, BYE: PARTED}.items():
                time.sleep(PATIENCE / 3)
                asks(one, piece, *answers.splitlines(True))
            same(read_all(one), b"")


def client_that_reads_late(program: Path) -> None:
    """A client that begins to read late, but within the limit, gets all its answers, which are
    more than the buffers take."""
    text, count = b"a" * 4_096, 2_000
    with served(program, 1, 1, *PATIENT) as server, server.connection() as one:
        one.sendall(HELLO + CREATE + WRITE % text + READ * count + BYE)
        time.sleep(PATIENCE / 2)
        found = read_all(one)
    texts = b'{"ok":"text","text":"%s"}\n' % text * count
    same(found, WELCOME + MADE + DONE + texts + PARTED)


def silent_client_without_a_limit(program: Path) -> None:
    """Without a limit, or under a long one, a silent client keeps its worker."""
    limits = [("--patience", seconds) for seconds in ("65536", "65537", "86400")]
    for words in [(), *limits]:
        with served(program, 1, 2, *words) as server:
            with server.connection() as silent, server.connection() as late:
                late.sendall(HELLO)
                assert is_silent(late, 2 * PATIENCE), "the worker was not kept"
                silent.shutdown(socket.SHUT_WR)
                same(read_line(late), WELCOME)


def tests() -> Tests:
    yield from named_in(globals())
    yield "silent-clients", silent_clients(b"", b"")
    yield "silent-clients-in-a-line", silent_clients(HELLO[:10], b"")
    yield "silent-clients-in-a-session", silent_clients(HELLO, WELCOME)
    in_a_line = silent_clients(HELLO + LOOK[:10], WELCOME, workers=1)
    yield "silent-clients-in-a-line-of-a-session", in_a_line
    yield "silent-clients-one-after-the-other", silent_clients(b"", b"", workers=1, rounds=3)
