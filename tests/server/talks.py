"""What one client of a server gets, line by line."""

import contextlib
import json
import socket
import time
from pathlib import Path

from checking import Tests, named_in, parametrised, same
from running import joined
from server.servers import (
    BYE,
    CONFIG,
    CREATE,
    CREATED,
    DONE,
    HELLO,
    LOOK,
    MADE,
    NOT_JSON,
    PARTED,
    ROOMY,
)
from server.servers import SEEN, WELCOME, asks, is_silent, poured, read_all, refusal_of, served
from transcripts import transcripts

# Room for one document, by slots and by cells.
NARROW = b'{"edges":[[1,"rt",2]],"principals":["alice","bob"],"slots":3}\n'
FEW_CELLS = b'{"cells":2,"edges":[[1,"t",2]],"principals":["alice","bob"]}\n'
ENROL = b'{"name":"carol","op":"enrol","rights":"t"}\n'
RETIRE = b'{"op":"retire"}\n'
ERROR = b'{"error":"%s"}\n'
NO_ACTOR, NO_PRINCIPAL = ERROR % b"no actor", ERROR % b"no principal"

HERE = Path(__file__).parent
TALKS = transcripts(HERE / "talks.txt")
SHORT_TALK = TALKS["short-talk"]


@parametrised
def one_talk(program: Path, answer: bytes, *pieces: bytes, config: bytes = CONFIG) -> None:
    """A server of one connection, over which the pieces are sent, and the whole of the answers."""
    with served(program, 1, 1, config=config) as server:
        same(server.exchange(*pieces), answer)


def answer_comes_before_more(program: Path) -> None:
    """Each answer can be read before the next line is sent; half a line has none."""
    with served(program, 1, 1) as server, server.connection() as one:
        asks(one, HELLO, WELCOME)
        one.sendall(LOOK[:10])
        assert is_silent(one), "half a line is answered"
        asks(one, LOOK[10:], SEEN)
        asks(one, LOOK + LOOK[:10], SEEN)
        assert is_silent(one), "half a line is answered"
        one.sendall(LOOK[10:] + BYE)
        same(read_all(one), SEEN + PARTED)


def many_lines_before_any_answer_is_read(program: Path) -> None:
    """Ten thousand lines are sent before the first answer is read; each is answered."""
    with served(program, 1, 1) as server, server.connection() as one:
        one.sendall(HELLO + LOOK * 9_998 + BYE)
        same(read_all(one), WELCOME + SEEN * 9_998 + PARTED)


def many_lines_of_a_client(program: Path) -> None:
    """The client of the examples, too, may send ten thousand lines before it receives an answer."""
    texts = [f"text {number}" for number in range(5_000)]
    with served(program, 1, 1) as server, server.client() as alice:
        alice.hello("alice")
        document = alice.create("document", "rw")
        for text in texts:
            alice.send(op="write", over=document, text=text)
            alice.send(op="read", over=document)
        for text in texts:
            same(alice.receive(), {"ok": "done"})
            same(alice.receive(), {"ok": "text", "text": text})
        alice.bye()


def refusals_of_a_client(program: Path) -> None:
    """The client of the examples raises each refusal with its fields."""
    with served(program, 1, 1, config=NARROW) as server, server.client() as alice:
        alice.hello("alice")
        same(alice.create("document", "r"), 3)
        for command, wanted in transcripts(HERE / "client.txt")["refusals"].pairs:
            found = refusal_of(alice, *json.loads(command))
            same(found, json.loads(wanted), command.decode())
        alice.bye()


def line_in_many_segments(program: Path) -> None:
    """A line that comes byte by byte is one line."""
    with served(program, 1, 1) as server, server.connection() as one:
        for byte in HELLO:
            one.sendall(bytes([byte]))
            time.sleep(0.001)
        asks(one, b"", WELCOME)
        asks(one, BYE, PARTED)
        same(read_all(one), b"")


def after_bye(program: Path) -> None:
    """The connection ends with the answer to bye; lines behind the bye are not answered."""
    with served(program, 1, 1) as server, server.connection() as one:
        one.sendall(HELLO + BYE + HELLO)
        same(read_all(one), WELCOME + PARTED)
        server.end()


def nobody_is_left(program: Path) -> None:
    """When the last principal has retired nobody can say hello; the server settles."""
    with served(program, 1, 2, config=b'{"principals":["alice"]}\n') as server:
        same(server.exchange(HELLO, RETIRE, BYE), WELCOME + DONE + PARTED)
        same(server.exchange(HELLO, ENROL), NO_PRINCIPAL + NO_ACTOR)


def lines_up_to_the_limit(program: Path) -> None:
    """A line of 16,384 bytes is taken; one byte more ends the talk, and frees the seat."""
    most = HELLO[:-1].ljust(16_384) + b"\n"
    with served(program, 1, 2) as server:
        same(server.exchange(most, b"x" * 16_385), WELCOME + ERROR % b"line too long")
        server.greet()


# Commands that a web page could have sent here as the body of a request, behind lines that are no
# JSON, and how such a connection begins: requests of HTTP, a handshake of TLS (RFC 8446, 5.1) and
# requests of STUN and TURN (RFC 8489, 5 and 18.2; RFC 8656).
BODY = HELLO + RETIRE
HEAD = b" / HTTP/1.1\r\nHost: 127.0.0.1\r\nContent-Length: %d\r\n\r\n" % len(BODY)
METHODS = b"GET POST PUT HEAD OPTIONS DELETE PATCH CONNECT TRACE PRI a-method-of-its-own".split()
OTHERS = [method + HEAD for method in METHODS]
OTHERS += [b"\x16\x03\x01\x02\n", b"\x00\x01\x00\x08\n", b"\x00\x03\x00\x08\n"]


def is_closed_unanswered(one: socket.socket, *pieces: bytes) -> None:
    """The server ends a connection over which these are sent without an answer."""
    with one, contextlib.suppress(ConnectionError):
        for piece in pieces:
            one.sendall(piece)
            time.sleep(0.001)
        same(read_all(one), b"")


def other_protocols(program: Path) -> None:
    """A connection that begins as another protocol does is closed unanswered, in however many
    pieces it comes, and no line of it is carried out: alice, whom each of them would retire, says
    hello afterwards."""
    with served(program, 1, 2 * len(OTHERS) + 1) as server:
        for start in OTHERS:
            is_closed_unanswered(server.connection(), start + BODY)
            pieces = start[:1], start[1:2], start[2:] + BODY
            is_closed_unanswered(server.connection(), *pieces)
        server.greet()


def no_other_protocol(program: Path) -> None:
    """Any other first line that is no JSON is answered as such, and those behind it are taken; so
    is a line like a request of HTTP that is not the first one."""
    firsts = [b"no json\n", b"POST\n", b"get me /\n", b" GET /\n", b"\nGET /\n", b"\x16\n"]
    talks = {it + HELLO + BYE: NOT_JSON * it.count(b"\n") + WELCOME + PARTED for it in firsts}
    talks[HELLO + b"GET / HTTP/1.1\n" + BYE] = WELCOME + NOT_JSON + PARTED
    with served(program, 1, len(talks)) as server:
        for given, wanted in talks.items():
            same(server.exchange(given), wanted, repr(given))


def million_lines(program: Path) -> None:
    """The millionth line of a talk is carried out; the line after it is one too many, and ends the
    talk. The seat is free then."""
    pieces = [HELLO, *[b"\n" * 9_999] * 100, b"\n" * 98, LOOK, BYE]
    with served(program, 1, 2) as server:
        with server.connection() as one:
            found = poured(one, *pieces)
        same(found, WELCOME + NOT_JSON * 999_998 + SEEN + ERROR % b"too many lines")
        server.greet()


def cut_after_each_byte(program: Path) -> None:
    """A short talk is cut after each byte, and the connection half closed: its lines are answered,
    a cut last one as a line too."""
    whole, serial = SHORT_TALK.given, 3
    with served(program, 1, len(whole) + 2, config=ROOMY) as server:
        for count in range(len(whole) + 1):
            wanted = joined(*SHORT_TALK.answers_to(whole[:count])).replace(MADE, CREATED % serial)
            same(server.exchange(whole[:count]), wanted, f"cut after {count} bytes")
            serial += b"created" in wanted
        server.greet()


def dropped_after_each_byte(program: Path) -> None:
    """A short talk is dropped after each byte, no answer read: the next client is seated."""
    whole = SHORT_TALK.given
    with served(program, 2, len(whole) + 2, config=ROOMY) as server:
        for count in range(len(whole) + 1):
            with server.connection() as one:
                one.sendall(whole[:count])
        server.greet()


def tests() -> Tests:
    yield from named_in(globals())
    lines = [line + b"\n" for line in SHORT_TALK.lines]
    yield "short-talk-line-by-line", one_talk(SHORT_TALK.wanted, *lines)
    for name, talk in TALKS.items():
        yield name, one_talk(talk.wanted, talk.given)
    yield "no-line", one_talk(b"")
    yield "no-hello", one_talk(NO_ACTOR, LOOK)
    yield "two-lines-in-one-segment", one_talk(WELCOME + PARTED, HELLO + BYE)
    yield "last-line-without-line-feed", one_talk(WELCOME + SEEN, HELLO, LOOK[:-1])
    # What was refused as full is in the history, with nothing made, and the server settles.
    for which, config in [("slots", NARROW), ("cells", FEW_CELLS)]:
        answers = WELCOME + MADE + b'{"full":"%s"}\n' % which.encode() + PARTED
        test = one_talk(answers, HELLO + CREATE * 2 + BYE, config=config)
        yield f"create-that-is-full-for-{which}", test
