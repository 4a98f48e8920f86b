"""Servers that run while clients talk to them, for the tests of `tgdoc serve`, and what both say.

Every wait has an end: a client's and a connection's are ten seconds, and a server is killed when
its time is over.
"""

import contextlib
import functools
import itertools
import os
import select
import signal
import socket
import subprocess
import time
from collections.abc import Iterable, Iterator
from concurrent.futures import ThreadPoolExecutor
from pathlib import Path
from typing import Any

from checking import same
from running import SECONDS, Process, hear, started, tell
from tgdoc_client import Client, Denied, Fault, Full, address_of

CONFIG = b'{"cells":8,"edges":[[1,"t",2]],"principals":["alice","bob"],"slots":8}\n'
ROOMY = b'{"edges":[[1,"t",2]],"principals":["alice","bob"]}\n'
NOT_JSON = b'{"error":"not json"}\n'
# What a server writes at its end, and its status.
AGREED = (b'{"settled":"agreed"}\n', 0)

# What alice sends, and how a server over these configurations answers her.
HELLO, WELCOME = b'{"name":"alice","op":"hello"}\n', b'{"ok":"hello","vertex":1}\n'
LOOK, SEEN = b'{"at":1,"op":"look"}\n', b'{"edges":[[2,"t"]],"ok":"edges"}\n'
CREATE = b'{"kind":"document","op":"create","rights":"rw"}\n'
CREATED = b'{"ok":"created","vertex":%d}\n'
MADE = CREATED % 3
READ = b'{"op":"read","over":3}\n'
WRITE, DONE = b'{"op":"write","over":3,"text":"%s"}\n', b'{"ok":"done"}\n'
BYE, PARTED = b'{"op":"bye"}\n', b'{"ok":"bye"}\n'
SHADE = b'{"op":"shade"}\n'
NO_MEMORY = b'{"error":"out of memory"}\n'
# The words for a free port of the loopback.
ANY_PORT = ("--listen", "127.0.0.1:0")


class Server:
    """A server that runs, and where it listens."""

    def __init__(self, process: Process):
        self.process = process
        self.address = address_of(hear(process))

    def client(self) -> Client:
        """A well-behaved client."""
        return Client(*self.address)

    def connection(self) -> socket.socket:
        """A connection over which bytes are sent."""
        one = socket.create_connection(self.address, 10.0)
        one.setsockopt(socket.IPPROTO_TCP, socket.TCP_NODELAY, 1)
        return one

    def greet(self, name: str = "alice") -> None:
        """A client says hello and bye."""
        with self.client() as one:
            same(one.hello(name), {"alice": 1, "bob": 2}[name], "a greeting")
            one.bye()

    @contextlib.contextmanager
    def seated(self) -> Iterator[socket.socket]:
        """A connection over which alice is greeted."""
        with self.connection() as one:
            asks(one, HELLO, WELCOME)
            yield one

    @contextlib.contextmanager
    def seats(self, count: int) -> Iterator[list[socket.socket]]:
        """So many of them."""
        with contextlib.ExitStack() as stack:
            yield [stack.enter_context(self.seated()) for _ in range(count)]

    def exchange(self, *pieces: bytes) -> bytes:
        """Sends the pieces over a connection, each by itself, and reads all answers."""
        with self.connection() as one:
            return poured(one, *pieces, is_all=True)

    @functools.cache
    def end(self) -> tuple[bytes, int]:
        """What it writes after its first line, and its status, once all connections are over."""
        return self.process.stdout.read(), self.process.wait(SECONDS)


@contextlib.contextmanager
def running(
    program: Path, *words: str, config: bytes = CONFIG, seconds: float = SECONDS, **how: Any
) -> Iterator[Process]:
    """A program that serves a configuration. Its input stays open; standard error is not shown."""
    how = {"stderr": subprocess.DEVNULL, **how}
    with started(program, "serve", *words, seconds=seconds, **how) as process:
        tell(process, config)
        yield process


@contextlib.contextmanager
def served(
    program: Path,
    workers: int,
    connections: int,
    *words: str,
    config: bytes = CONFIG,
    seconds: float = SECONDS,
    ends: tuple[bytes, int] | None = AGREED,
) -> Iterator[Server]:
    """A server on a free port of the loopback, which ends in this way behind the block."""
    numbers = ("--workers", str(workers), "--connections", str(connections))
    with running(program, *ANY_PORT, *numbers, *words, config=config, seconds=seconds) as process:
        server = Server(process)
        yield server
        if ends:
            same(server.end(), ends, "the end of the server")


def in_rounds(*dropped: int) -> tuple[bytes, int]:
    """How a server in rounds ends, each of which but the last dropped so many entries."""
    rounds = enumerate(dropped, 1)
    lines = [b'{"dropped":%d,"round":%d}\n' % (count, number) for number, count in rounds]
    return b"".join(lines) + AGREED[0], 0


def read_all(one: socket.socket) -> bytes:
    """All bytes up to the end of the connection."""
    return b"".join(iter(lambda: one.recv(65536), b""))


def read_line(one: socket.socket) -> bytes:
    """The bytes up to the next line feed, or to the end; no byte more is taken."""
    line = b""
    while not line.endswith(b"\n") and (piece := one.recv(1)):
        line += piece
    return line


def asks(one: socket.socket, sent: bytes, *answers: bytes) -> None:
    """Sends bytes to which these lines are the next answers."""
    one.sendall(sent)
    same([read_line(one) for _ in answers], [*answers])


def is_silent(one: socket.socket, seconds: float = 0.3) -> bool:
    """Whether nothing comes for a while."""
    return not select.select([one], [], [], seconds)[0]


@contextlib.contextmanager
def takes(least: float, most: float) -> Iterator[None]:
    """What is done in the block takes at least and less than so many seconds."""
    began = time.monotonic()
    yield
    took = time.monotonic() - began
    print(f"  {took:.1f} s")
    assert least <= took < most, f"not in time: {took:.1f} s"


def busy_part(process: Process, seconds: float) -> float:
    """The part of a processor that a process takes for so many seconds."""
    began, before = time.monotonic(), processor_time(process)
    time.sleep(seconds)
    part = (processor_time(process) - before) / (time.monotonic() - began)
    print(f"  {100 * part:.2f} % of a processor")
    return part


def processor_time(process: Process) -> float:
    """The seconds of processor time that a process has used."""
    fields = Path(f"/proc/{process.pid}/stat").read_text().rpartition(")")[2].split()
    return (int(fields[11]) + int(fields[12])) / os.sysconf("SC_CLK_TCK")


def figure(process: Process | None, name: str) -> int:
    """A figure of a process in bytes, or of the system: `VmRSS`, its memory; `VmHWM`, the peak of
    that."""
    file = Path(f"/proc/{process.pid}/status" if process else "/proc/meminfo")
    rows = file.read_text().splitlines()
    return next(int(row.split()[1]) << 10 for row in rows if row.startswith(name + ":"))


@contextlib.contextmanager
def suspended(process: Process) -> Iterator[None]:
    """A process is stopped for as long as the block lasts, as a job of a shell is."""
    process.send_signal(signal.SIGSTOP)
    yield
    process.send_signal(signal.SIGCONT)


# Ports below those that the system gives to clients.
PORTS = itertools.count(20000 + os.getpid() % 10000)


def free_port() -> int:
    """A port at which nobody listens."""
    for port in PORTS:
        with socket.socket() as trial:
            if trial.connect_ex(("127.0.0.1", port)) != 0:
                return port
    raise AssertionError("there are always more")


def connected(process: Process, port: int) -> socket.socket:
    """A connection, as soon as a program listens at this port."""
    while process.poll() is None:
        with contextlib.suppress(ConnectionRefusedError, ConnectionResetError):
            return socket.create_connection(("127.0.0.1", port), timeout=30)
        time.sleep(0.002)
    raise ConnectionError("the program has ended")


def poured(one: socket.socket, *pieces: bytes, is_all: bool = False) -> bytes:
    """Sends the pieces as fast as they are taken, and perhaps that they are all; all answers."""
    with ThreadPoolExecutor() as pool:
        sent = pool.submit(pour, one, pieces, is_all)
        found = read_all(one)
        sent.result(SECONDS)
    return found


def pour(one: socket.socket, pieces: Iterable[bytes], is_all: bool = False) -> None:
    for piece in pieces:
        one.sendall(piece)
    if is_all:
        one.shutdown(socket.SHUT_WR)


def refusal_of(client: Client, name: str, *arguments: Any) -> Any:
    """The fields of the exception that a client raises, or what the command returns."""
    try:
        return getattr(client, name)(*arguments)
    except Denied as denial:
        fields = {name: value for name, value in vars(denial).items() if value is not None}
        same(fields.pop("answer")["denied"], fields["rule"])
        return fields
    except Full as full:
        return full.what
    except Fault as fault:
        return fault.error
