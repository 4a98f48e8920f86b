"""A server under hostile clients for a while, with ten others that behave: for tests/soak.

The hostile ones leave within a line, wait within one, flood without reading, reset their
connections and send bad lines, each as long as the time lasts. Those that behave have each answer
checked by models/owners.py. In the end the server settles as agreed; its memory and its open files
stayed within bounds, and are printed.
"""

import contextlib
import random
import socket
import struct
import threading
import time
from concurrent.futures import ThreadPoolExecutor
from pathlib import Path
from random import Random

from checking import Tests, parametrised, same
from faults.line_faults import fields_of, with_faults
from fuzz.differential import seeds
from models import owners
from models.reading import EVENTS, Refused, line_of, read_event
from server.servers import LOOK, Server, figure, read_line, served
from server.serving import one_more
from server.talks import NO_ACTOR

SECONDS = 60
WORKERS = 63
BEHAVED = 10
CONNECTIONS = 100_000
NAMES = [x + y for x in "abcdefgh" for y in "abcdefgh"][:WORKERS]
CONFIG = line_of({"principals": NAMES, "slots": 4096, "cells": 65536}) + b"\n"

# Open files of the server besides a connection for each worker; bytes that it may use, in all and
# for each line that was sent.
MORE_FILES = 8
MOST_BYTES = 96 << 20
BYTES_A_LINE = 1024


class Siege:
    """A server that is used for a while: how many connections may still be made, how many lines
    were sent, and the most that it used."""

    def __init__(self, server: Server, seconds: float):
        self.server = server
        self.until = time.monotonic() + seconds
        self.left = CONNECTIONS - BEHAVED
        self.lines = self.files = self.memory = 0
        self.lock = threading.Lock()

    def is_over(self) -> bool:
        return time.monotonic() > self.until

    def connection(self) -> socket.socket | None:
        """A connection, as long as there are any."""
        with self.lock:
            if self.left == 0 or self.is_over():
                return None
            self.left -= 1
        return self.server.connection()

    def sent(self, count: int) -> None:
        with self.lock:
            self.lines += count

    def look(self) -> None:
        """Looks at what the server uses, until the time is over."""
        process = self.server.process
        files = Path(f"/proc/{process.pid}/fd")
        while not self.is_over():
            self.memory = max(self.memory, figure(process, "VmRSS"))
            self.files = max(self.files, len(list(files.iterdir())))
            time.sleep(0.1)


def hello(number: int) -> bytes:
    """The line that seats a principal."""
    return line_of({"name": NAMES[number], "op": "hello"}) + b"\n"


def leaves(siege: Siege, source: Random, one: socket.socket, number: int) -> None:
    """Leaves within a line."""
    siege.sent(1)
    one.sendall((hello(number) + LOOK)[: source.randrange(60)])


def waits(siege: Siege, source: Random, one: socket.socket, number: int) -> None:
    """Waits within a line, and leaves."""
    siege.sent(1)
    one.sendall(hello(number) + LOOK[:10])
    time.sleep(source.random())


def floods(siege: Siege, source: Random, one: socket.socket, number: int) -> None:
    """Sends lines and reads no answer, until none is taken for a moment."""
    one.sendall(hello(number))
    one.settimeout(0.2)
    for _ in range(source.randrange(200)):
        siege.sent(100)
        one.sendall(LOOK * 100)


def resets(siege: Siege, source: Random, one: socket.socket, number: int) -> None:
    """Resets its connection with answers unread."""
    one.setsockopt(socket.SOL_SOCKET, socket.SO_LINGER, struct.pack("ii", 1, 0))
    siege.sent(20)
    one.sendall(hello(number) + LOOK * source.randrange(20))


def answer_to(line: bytes) -> bytes | None:
    """The answer to a line before any hello; None if it may be a hello that succeeds."""
    try:
        return NO_ACTOR if read_event(line)["op"] != "hello" else None
    except Refused as refused:
        return line_of(refused.answer) + b"\n"


def misspeaks(siege: Siege, source: Random, one: socket.socket, _number: int) -> None:
    """Sends bad lines before any hello; each is answered by its first fault."""
    for _ in range(source.randrange(1, 50)):
        line = with_faults(source, fields_of(source, source.choice(list(EVENTS))))
        wanted = answer_to(line)
        if wanted is None:
            continue
        one.sendall(line + b"\n")
        siege.sent(1)
        same(read_line(one), wanted, f"the answer to {line[:200]!r}")
        if b"line too long" in wanted:
            return


ROUGH = [leaves, waits, floods, resets, misspeaks]


def besieges(siege: Siege, seed: str, number: int) -> int:
    """One hostile client after the other; returns how many there were."""
    source = random.Random(f"{seed}/{number}")
    count = 0
    while one := siege.connection():
        with one, contextlib.suppress(TimeoutError, ConnectionError):
            source.choice(ROUGH)(siege, source, one, number)
        count += 1
    return count


def behaves(siege: Siege, seed: str, number: int) -> tuple[int, float]:
    """A client that behaves, for as long as the time lasts; returns how many commands it sent, and
    the longest wait for an answer."""
    source, longest, count = random.Random(f"{seed}/{number}"), 0.0, 0
    with siege.server.client() as client:
        owner, made = owners.Owner(client.hello(NAMES[number]), NAMES[number]), [WORKERS]
        while not siege.is_over():
            began = time.monotonic()
            one_more(source, client, owner, made)
            longest = max(longest, time.monotonic() - began)
            siege.sent(1)
            count += 1
        client.bye()
    return count, longest


@parametrised
def withstood(program: Path, seconds: float) -> None:
    """A server that is besieged for this long."""
    seed = seeds()[-1]
    print(f"  seed {seed}")
    besieged = served(program, WORKERS, CONNECTIONS, config=CONFIG, seconds=seconds + 120)
    with besieged as server, ThreadPoolExecutor(WORKERS + 1) as pool:
        siege = Siege(server, seconds)
        looked = pool.submit(siege.look)
        behaved = [pool.submit(behaves, siege, seed, number) for number in range(BEHAVED)]
        others = range(BEHAVED, WORKERS)
        rough = [pool.submit(besieges, siege, seed, number) for number in others]
        commands, waited = zip(*[one.result() for one in behaved])
        hostile = sum(one.result() for one in rough)
        looked.result()
        # the connections that are left are made, and ended, so that the server ends
        for _ in range(siege.left):
            server.connection().close()
    print(f"  {sum(commands)} commands of {BEHAVED} clients that behave")
    print(f"  the longest wait {max(waited):.2f} s; {hostile} hostile connections")
    print(f"  {siege.lines} lines, {siege.files} open files, {siege.memory >> 20} MB")
    assert siege.files <= WORKERS + MORE_FILES, "too many files"
    assert siege.memory <= MOST_BYTES + BYTES_A_LINE * siege.lines, "too much memory"
    assert min(commands) > 0 and hostile > 0, "too few connections or commands"


def tests(seconds: float = SECONDS) -> Tests:
    yield "server-under-hostile-clients", withstood(seconds)
