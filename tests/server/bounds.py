"""What bounds a server: the memory of a round, and the descriptors of its process."""

import contextlib
import resource
import subprocess
import tempfile
import time
from collections.abc import Iterator
from concurrent.futures import ThreadPoolExecutor
from pathlib import Path

from checking import Tests, named_in, same
from models.reading import line_of
from running import limited, ran
from server.servers import AGREED, ANY_PORT, BYE, CONFIG, CREATE, DONE, HELLO, LOOK, MADE, PARTED
from server.servers import READ, WELCOME, WRITE, Server, asks, figure, in_rounds, is_silent, pour
from server.servers import poured, read_line, running, served, takes
from server.waiting import sends_all

MEGABYTE = 1 << 20

# What a round may keep in these tests, and what the process may take besides: what it has at its
# start, the buffers of its clients, and the graph that settling replays.
KEPT = 48 * MEGABYTE
BESIDES = 64 * MEGABYTE
BOUND = ("--memory", str(KEPT))
LONG_TEXT = WRITE % (b"a" * 4_096)


def floods(server: Server, lines: bytes, times: int) -> int:
    """A client that sends lines without end and takes all answers; how many bytes it got."""
    count = 0
    with server.connection() as one, ThreadPoolExecutor() as pool:
        pool.submit(pour, one, [lines] * times)
        with contextlib.suppress(ConnectionError):
            while piece := one.recv(1 << 20):
                count += len(piece)
    return count


def flooded(server: Server, lines: bytes, times: int) -> int:
    """How many bytes a client that floods gets; the memory that it takes is bounded."""
    before = figure(server.process, "VmHWM")
    count, most = floods(server, HELLO + lines, times), figure(server.process, "VmHWM")
    print(f"  {count >> 20} MB answered, {before >> 20} MB before, {most >> 20} MB at most")
    assert most < before + KEPT + BESIDES, "too much"
    return count


def memory_that_reads_fill(program: Path) -> None:
    """A client that reads a text of 4,096 bytes without end fills what a round may keep, and no
    more: the round ends and agrees."""
    with served(program, 4, 5, *BOUND) as server:
        server.exchange(HELLO + CREATE + LONG_TEXT + BYE)
        assert flooded(server, READ * 1_000, 200) > KEPT // 2, "too few answers"


def memory_that_looks_fill(program: Path) -> None:
    """So does one that looks over 60,000 edges: lines are taken singly where one can fill it."""
    config = line_of({"principals": ["alice"], "slots": 65_536, "cells": 131_072}) + b"\n"
    with served(program, 4, 5, *BOUND, config=config) as server:
        with server.connection() as one, one.makefile("rb") as rows:
            one.sendall(HELLO)
            rows.readline()
            for _ in range(60):
                one.sendall(CREATE * 1_000)
                for _ in range(1_000):
                    rows.readline()
            one.sendall(BYE)
            rows.readline()
        flooded(server, LOOK * 1_000, 1)


def memory_beside_a_flood(program: Path) -> None:
    """A client beside one that floods is answered, until the round ends and in the next one."""
    seen, count = b'{"edges":[[2,"t"],[3,"rw"]],"ok":"edges"}\n', 0
    with served(program, 2, 4, *BOUND, "--round", "2", ends=None) as server:
        with server.seated() as honest:
            asks(honest, CREATE + LONG_TEXT, MADE, DONE)
            with ThreadPoolExecutor() as pool, contextlib.suppress(ConnectionError):
                pool.submit(floods, server, HELLO + READ * 1_000, 200)
                while honest.send(LOOK) and read_line(honest) == seen:
                    count += 1
        server.greet()
        server.greet()
        lines, status = server.end()
    print(f"  {count} answers beside the flood")
    first, last = lines.splitlines(True)
    same((last, status), AGREED)
    assert count > 0 and first.endswith(b',"round":1}\n'), first


def late_once_memory_is_used_up(program: Path) -> None:
    """Who connects just after the memory of a round is used up is served in the next one, and
    counts there alone."""
    for gap in (0.0, 0.05, 0.1, 0.2):
        bounds = ("--memory", "320", "--round", "2")
        with served(program, 2, 3, *bounds, ends=in_rounds(1)) as server:
            same(server.exchange(HELLO + CREATE), WELCOME + MADE)
            time.sleep(gap)
            server.greet()
            server.greet()


def memory_while_a_client_takes_no_answers(program: Path) -> None:
    """A client that takes no answers does not hold up the end of a round whose memory is used up;
    the next round serves."""
    bounds = ("--memory", str(4 * MEGABYTE), "--round", "3")
    with served(program, 2, 4, *bounds, ends=None) as server, server.connection() as one:
        one.sendall(HELLO + CREATE + LONG_TEXT)
        sends_all(one, READ * 1_000, 900)
        server.greet()
        floods(server, HELLO + LOOK * 1_000, 40)
        with takes(0, 5):
            server.greet()
        lines, status = server.end()
    same((lines.splitlines(True)[-1], status), AGREED)


@contextlib.contextmanager
def short(
    program: Path, files: int, warning: str, *words: str, logged: str = ""
) -> Iterator[Server]:
    """A server whose process may have so many files open; if there is a warning, standard error has
    it, and else none; and it has what was logged."""
    how = limited(resource.RLIMIT_NOFILE, files, stderr=subprocess.PIPE)
    with running(program, *ANY_PORT, *words, **how) as process:
        server = Server(process)
        yield server
        same(server.end(), AGREED)
        said = process.stderr.read().decode()
        assert warning in said and bool(warning) == ("open files" in said), said
        assert logged in said, said


def descriptors_warned_of(program: Path) -> None:
    """A server warns if it may have fewer descriptors than it can need: with a control socket two
    more, with a history one more."""
    with tempfile.TemporaryDirectory() as folder:
        control = ("--control", f"{folder}/control")
        history = ("--history", f"{folder}/steps")
        for needed, words in ((8, ()), (10, control), (9, history), (11, control + history)):
            warning = f"4 workers need {needed} open files, and the limit is {needed - 1}"
            for files, said in ((needed - 1, warning), (needed, "")):
                with short(program, files, said, "--connections", "1", *words) as server:
                    server.greet()


def descriptors_that_are_short(program: Path) -> None:
    """A client waits if no descriptor is left, and is served once another one has gone."""
    words = ("6 workers need 10 open files, and the limit is 7", "--workers", "6")
    with short(program, 7, *words, "--connections", "5") as server, server.seats(3) as clients:
        with server.connection() as late:
            late.sendall(HELLO)
            assert is_silent(late, 1.5), "served without a descriptor"
            same(poured(clients[0], BYE), PARTED)
            same(read_line(late), WELCOME)
            same([poured(one, BYE) for one in (*clients[1:], late)], [PARTED] * 3)
            server.greet()


def descriptors_that_never_come(program: Path) -> None:
    """A connection that cannot be accepted for ten seconds counts, and is logged."""
    words, logged = ("--connections", "1", "--log"), '"lines":0,"ended":"reading"'
    with takes(9.5, 30), short(program, 4, "the limit is 4", *words, logged=logged):
        pass


def memory_is_said(program: Path) -> None:
    """Standard error has the bound: as was asked for, or half of what is available."""

    def said(*words: str) -> int:
        more = ("--listen", "nonsense", "--connections", "1", *words)
        told = ran(program, "serve", *more, given=CONFIG).stderr.split()
        return int(next(word for word in told if word.isdigit()))

    same(said("--memory", "3m"), 3 * MEGABYTE)
    usual, half = said(), figure(None, "MemAvailable") // 2
    assert 0.8 * half < usual < 1.2 * half, (usual, half)


def tests() -> Tests:
    yield from named_in(globals())
