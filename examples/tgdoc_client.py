"""A client of `tgdoc serve`, for programs: one method a command, answers as values, refusals as
exceptions.

    with Client(*address_of(line)) as alice:
        alice.hello("alice")
        document = alice.create("document", "rw")
        alice.write(document, "hi")

`line` is the first line that the server writes. The lines that are sent and answered are those of
docs/PROTOCOL.md. A client is for one thread at a time; it needs only Python's standard library.
"""

from __future__ import annotations

import contextlib
import json
import select
import socket
import time
from collections.abc import Iterator
from typing import Any

# An answer of the server, as it was read.
Answer = dict[str, Any]


class Refused(Exception):
    """The server refused a line. `answer` is its answer as it was read."""

    def __init__(self, answer: Answer, text: str):
        super().__init__(text)
        self.answer = answer


class Denied(Refused):
    """The take-grant rules deny the command; `rule` is its name, and `cause` what is wrong:
    `retired`, `empty`, `not distinct`, `missing`, `not document`, `not subject`, `not principal`,
    `name taken` or `crowded`.

    If rights are missing, the label from `source` to `target` lacks the letters `missing`. If a
    vertex is not a document or not a subject, it is `vertex`. What the cause does not have is None.
    """

    def __init__(self, answer: Answer):
        self.rule: str = answer["denied"]
        self.cause: str = answer.get("cause", "missing")
        self.missing: str | None = answer.get("missing")
        self.source: int | None = answer.get("from")
        self.target: int | None = answer.get("to")
        self.vertex: int | None = answer.get("vertex")
        text = f"{self.rule} denied: {self.cause}"
        if self.missing is not None:
            text = f"{self.rule} denied: {self.source} has no {self.missing} over {self.target}"
        elif self.vertex is not None:
            kind = self.cause.removeprefix("not ")
            text = f"{self.rule} denied: {self.vertex} is no {kind}"
        super().__init__(answer, text)


class Full(Refused):
    """The rules allow the command, and there is no room for it: no more `what`, which is `slots`,
    `cells` or `serials`.

    Slots and cells come back as the collector frees what was dropped, so the command may be sent
    again.
    """

    def __init__(self, answer: Answer):
        self.what: str = answer["full"]
        super().__init__(answer, f"no {self.what} left")


class Fault(Refused):
    """The line was refused before any rule was asked; `error` says why, as in `no actor`.

    Nothing was changed, except that `out of memory` may also be the answer to a command that was
    carried out.
    """

    def __init__(self, answer: Answer):
        self.error: str = answer["error"]
        super().__init__(answer, self.error)


REFUSALS: dict[str, type[Denied | Full | Fault]] = {"denied": Denied, "full": Full, "error": Fault}


def address_of(line: str | bytes) -> tuple[str, int]:
    """The host and the port in the first line of a server."""
    host, _, port = json.loads(line)["listening"].rpartition(":")
    return host.strip("[]"), int(port)


class Client:
    """One connection to a server, and one session on it from `hello` to `bye`, or to the end of the
    connection.

    `seconds` is how long a connection, the sending of a line and the wait for an answer may take:
    then they raise TimeoutError. A connection that the server ends raises ConnectionError, once the
    answers that came before are received.
    """

    def __init__(self, host: str, port: int, seconds: float = 10.0):
        self.seconds = seconds
        self.socket = socket.create_connection((host, port), seconds)
        self.socket.setsockopt(socket.IPPROTO_TCP, socket.TCP_NODELAY, 1)
        self.socket.setblocking(False)
        self.arrived = bytearray()
        self.is_ended = False

    def __enter__(self) -> Client:
        return self

    def __exit__(self, *_: object) -> None:
        self.close()

    def close(self) -> None:
        """Ends the connection, and with it the session."""
        self.socket.close()

    def send(self, **fields: object) -> None:
        """Sends a line of these fields, and does not wait for its answer.

        Any number of lines may be sent before the first answer is received: answers that come
        meanwhile are kept.
        """
        line = json.dumps(fields, ensure_ascii=False, separators=(",", ":")).encode() + b"\n"
        limit = time.monotonic() + self.seconds
        while line:
            if self._wait(select.POLLOUT, limit):
                line = line[self.socket.send(line) :]

    def receive(self) -> Answer:
        """The next answer, in the order of the lines that were sent; raises the refusal that it
        is."""
        limit = time.monotonic() + self.seconds
        found = self.arrived.find(b"\n")
        while found < 0:
            if self.is_ended:
                raise ConnectionError("the server ended the connection")
            self._wait(0, limit)
            found = self.arrived.find(b"\n")
        answer: Answer = json.loads(self.arrived[:found])
        del self.arrived[: found + 1]
        for key, refusal in REFUSALS.items():
            if key in answer:
                raise refusal(answer)
        return answer

    def _wait(self, events: int, limit: float) -> bool:
        """Waits up to the limit for the events or for answers, which are kept; returns whether
        anything but answers came."""
        poll = select.poll()
        poll.register(self.socket, events if self.is_ended else events | select.POLLIN)
        found = poll.poll(max(0.0, limit - time.monotonic()) * 1000)
        if not found:
            raise TimeoutError(f"the server was silent for {self.seconds:g} seconds")
        if not self.is_ended and found[0][1] & ~select.POLLOUT:
            piece = self.socket.recv(65536)
            self.arrived += piece
            self.is_ended = not piece
        return bool(found[0][1] & ~select.POLLIN)

    def ask(self, **fields: object) -> Answer:
        """Sends a line, and receives its answer. No answer of an earlier line may be
        outstanding."""
        self.send(**fields)
        return self.receive()

    def hello(self, name: str) -> int:
        """Begins the session of the principal of this name, and returns its serial. There is no
        password: the server believes the name."""
        return int(self.ask(op="hello", name=name)["vertex"])

    def bye(self) -> None:
        """Ends the session; the server then ends the connection."""
        self.ask(op="bye")

    def take(self, rights: str, over: int, source: int) -> None:
        """Takes rights over `over` that `source` has."""
        self.ask(op="take", rights=rights, over=over, **{"from": source})

    def grant(self, rights: str, over: int, to: int) -> None:
        """Gives `to` rights over `over`."""
        self.ask(op="grant", rights=rights, over=over, to=to)

    def create(self, kind: str, rights: str) -> int:
        """Makes a vertex, a `subject` or a `document`, over which the one who asks has these
        rights, and returns its serial."""
        return int(self.ask(op="create", kind=kind, rights=rights)["vertex"])

    def enrol(self, name: str, rights: str) -> int:
        """Makes a subject that is a principal by this name, 1 to 32 letters a to z, and over which
        the one who asks has these rights; returns its serial. A client may then say hello by the
        name."""
        return int(self.ask(op="enrol", name=name, rights=rights)["vertex"])

    def retire(self) -> None:
        """Ends the principal who asks: its name is free for another, and from then on its own
        commands but `leave` are denied, in every session; those of a session that acts for a
        subject are not. All its sessions go on until `bye`, and its vertex stays as long as
        somebody reaches it."""
        self.ask(op="retire")

    def assume(self, agent: int) -> None:
        """Acts for a subject over which the one who asks has t and g: the rights of the subject are
        those that count from then on in this session, until `leave` or `bye`. A subject that is
        acted for stays, even if nobody reaches it."""
        self.ask(op="assume", agent=agent)

    def leave(self) -> None:
        """Acts for no subject any longer: the principal's own rights count again. It is never
        denied."""
        self.ask(op="leave")

    @contextlib.contextmanager
    def acting_for(self, agent: int) -> Iterator[Client]:
        """Acts for a subject in a `with` block, and leaves it at the end, unless the connection is
        broken. One block within another goes on from the first subject's rights, and its end leaves
        both."""
        self.assume(agent)
        try:
            yield self
        except OSError:
            raise
        except BaseException:
            self.leave()
            raise
        self.leave()

    def remove(self, rights: str, over: int) -> None:
        """Gives up the rights over `over` of the one who asks."""
        self.ask(op="remove", rights=rights, over=over)

    def read(self, over: int) -> str:
        """The text of a document."""
        return str(self.ask(op="read", over=over)["text"])

    def write(self, over: int, text: str) -> None:
        """Makes this the text of a document."""
        self.ask(op="write", over=over, text=text)

    def look(self, at: int) -> dict[int, str]:
        """The edges of a vertex: the rights by the serial that they are over, the least serial
        first."""
        return dict(self.ask(op="look", at=at)["edges"])
