#!/usr/bin/env python3
"""How long a server stops between two rounds: from the end of a round's last connection to the first answer of the next round, to a client
who was connected before.

`bench/rounds.py PROGRAM` takes another program than crates/tgdoc/out/tgdoc. Each row is the median of some servers, whose store has so many
vertices, each with some edges, and whose round so many entries: reads or, in the last rows, grants, which a history keeps as steps. There
servers that keep a history (--history) take turns with those that keep none. Takes three minutes.
"""

import json
import socket
import statistics
import subprocess
import sys
import tempfile
import time
from pathlib import Path

ROOT = Path(__file__).resolve().parent.parent
sys.path.insert(0, str(ROOT / "examples"))

from tgdoc_client import address_of

SERVERS, EDGES, TOGETHER = 5, 3, 500
# Vertices in the store, and entries of the round that is over.
ROWS = [(2, 10_000), (2, 999_000), (65_536, 10_000), (65_536, 999_000)]
KEPT_ROWS = [(3, 10_000), (3, 999_000), (65_536, 999_000)]
CONFIG = b'{"cells":1048576,"principals":["alice"],"slots":65536}\n'
HELLO = b'{"name":"alice","op":"hello"}\n'
READ = b'{"op":"read","over":2}\n'
GRANT = b'{"op":"grant","over":2,"rights":"r","to":3}\n'


def documents(count):
    """The lines that make so many documents, whose first serial is 2, and edges between them."""
    yield from [b'{"kind":"document","op":"create","rights":"rwg"}\n'] * count
    for one in range(2, count + 2):
        for step in range(1, EDGES + 1 if count > EDGES else 1):
            yield b'{"op":"grant","over":%d,"rights":"r","to":%d}\n' % (2 + (one - 2 + step) % count, one)


def talk(one, lines):
    """A client's talk over its connection, to the end of this."""
    with one, one.makefile("rb") as answers:
        one.sendall(HELLO)
        answers.readline()
        for first in range(0, len(lines), TOGETHER):
            some = lines[first : first + TOGETHER]
            one.sendall(b"".join(some))
            for _ in some:
                answer = answers.readline()
                assert b'"ok"' in answer, answer
        one.shutdown(socket.SHUT_WR)
        assert answers.read() == b""


def stop(program, vertices, entries, line, *options):
    """Seconds for which a server of three rounds stops after its second, in which the line came so many times."""
    words = [program, "serve", "--listen", "127.0.0.1:0", "--workers", "1", "--connections", "3", "--round", "1", *options]
    with subprocess.Popen(words, stdin=subprocess.PIPE, stdout=subprocess.PIPE, stderr=subprocess.DEVNULL) as server:
        server.stdin.write(CONFIG)
        server.stdin.flush()
        address = address_of(server.stdout.readline())
        talk(socket.create_connection(address), list(documents(vertices - 1)))
        second = socket.create_connection(address)
        with socket.create_connection(address) as late, late.makefile("rb") as answers:
            late.sendall(HELLO)
            talk(second, [line] * entries)
            start = time.perf_counter()
            answers.readline()
            seconds = time.perf_counter() - start
        told = [json.loads(line) for line in server.stdout]
        assert told[1]["dropped"] == entries and told[-1] == {"settled": "agreed"}, told
        return seconds


def stop_with_history(program, vertices, entries):
    """The same of a server that keeps the history of its rounds."""
    with tempfile.TemporaryDirectory() as folder:
        return stop(program, vertices, entries, GRANT, "--history", f"{folder}/steps.jsonl")


def main():
    program = sys.argv[1] if len(sys.argv) > 1 else str(ROOT / "crates" / "tgdoc" / "out" / "tgdoc")
    print("%10s %10s %12s %12s" % ("vertices", "entries", "median ms", "longest ms"))
    for vertices, entries in ROWS:
        found = [1000 * stop(program, vertices, entries, READ) for _ in range(SERVERS)]
        print("%10d %10d %12.1f %12.1f" % (vertices, entries, statistics.median(found), max(found)), flush=True)
    print("%10s %10s %12s %12s %8s" % ("vertices", "grants", "none kept", "history kept", "ratio"))
    for vertices, entries in KEPT_ROWS:
        without, kept = [], []
        for _ in range(SERVERS):
            without.append(1000 * stop(program, vertices, entries, GRANT))
            kept.append(1000 * stop_with_history(program, vertices, entries))
        first, second = statistics.median(without), statistics.median(kept)
        print("%10d %10d %12.1f %12.1f %8.2f" % (vertices, entries, first, second, second / first), flush=True)
    return 0


if __name__ == "__main__":
    sys.exit(main())
