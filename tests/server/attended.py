"""Servers that are attended: asked at the control socket, logged, and with a history."""

import contextlib
import fcntl
import functools
import http.client
import itertools
import json
import os
import pwd
import random
import resource
import select
import signal
import socket
import subprocess
import sys
import tempfile
import threading
import time
from collections import Counter
from collections.abc import Callable, Iterator
from concurrent.futures import ThreadPoolExecutor
from pathlib import Path
from typing import Any

from checking import Tests, attempted, named_in, same, skipped
from faults import faults
from faults.faults import Fault, Ran
from models.graph import Graph
from models.reading import line_of, read_config, read_event, read_step
from running import ROOT, Process, Word, asked, hear, limited, ran, started, tell
from server.servers import AGREED, ANY_PORT, BYE, CONFIG, CREATE, CREATED, HELLO, LOOK, PARTED, READ
from server.servers import SEEN, WELCOME, WRITE, Server, asks, busy_part, connected, free_port
from server.servers import in_rounds, is_silent, poured, read_all, read_line, running, suspended
from server.servers import takes
from server.waiting import sends_all
from transcripts import transcripts

# How a server ends that lacked memory for a client's buffers, of which a worker has two.
SHORT = (b'{"settled":"no memory"}\n', 1)
BUFFERS = 2

LARGE = b'{"edges":[[1,"t",2]],"principals":["alice","bob"],"slots":4096,"cells":65536}\n'


class Attended(Server):
    """A server with a control socket, and what it says on standard error."""

    def __init__(self, process: Process, path: Path):
        super().__init__(process)
        self.path = path
        self.is_told = False

    def attendant(self) -> socket.socket:
        """A connection to the control socket."""
        one = socket.socket(socket.AF_UNIX)
        one.settimeout(10.0)
        one.connect(str(self.path))
        return one

    def ask(self, **fields: Any) -> dict[str, Any]:
        """The answer to one line."""
        with self.attendant() as one:
            one.sendall(json.dumps(fields).encode() + b"\n")
            answer: dict[str, Any] = json.loads(read_line(one))
            return answer

    def status(self) -> dict[str, Any]:
        """What the server says of itself."""
        return self.ask(op="status")

    def stop(self, within: int = 0) -> None:
        """Tells the server to stop, at once or within so many seconds."""
        self.is_told = True
        same(self.ask(op="stop", within=within), {"ok": "stop"})

    def end_round(self, number: int) -> None:
        """Has a round end, behind which the one of this number begins."""
        same(self.ask(op="end round", within=0), {"ok": "end round"})
        until("another round", lambda: self.status()["round"] == number)

    def errors(self) -> list[dict[str, Any]]:
        """The lines of JSON on standard error, once the server has ended."""
        rows = self.said().splitlines()
        return [json.loads(row) for row in rows if row.startswith(b"{")]

    def said(self) -> bytes:
        """All of standard error, once the server has ended."""
        self.end()
        return self.process.stderr.read()


@contextlib.contextmanager
def attended(
    program: Path,
    *words: str,
    folder: str = "",
    config: bytes = CONFIG,
    ends: tuple[bytes, int] | None = AGREED,
    **how: Any,
) -> Iterator[Attended]:
    """A server with a control socket, in a folder of its own if none is named. Behind the block it
    is told to stop, unless it was or has ended, and ends in this way."""
    with contextlib.ExitStack() as stack:
        folder = folder or stack.enter_context(tempfile.TemporaryDirectory())
        path = Path(folder) / "control"
        how = {"stderr": subprocess.PIPE, "config": config, **how}
        serving = running(program, *ANY_PORT, "--control", str(path), *words, **how)
        server = Attended(stack.enter_context(serving), path)
        yield server
        if ends:
            if not server.is_told and server.process.poll() is None:
                server.stop()
            same(server.end(), ends, "the end of the server")


def until(what: str, holds: Callable[[], object]) -> None:
    """Returns once this holds, which has to be before long."""
    end = time.monotonic() + 10.0
    while not holds():
        assert time.monotonic() < end, f"never: {what}"
        time.sleep(0.02)


def stop_while_idle(program: Path) -> None:
    """A server without an end stops when it is told to, and its socket is gone then."""
    with attended(program) as server:
        server.greet()
        server.greet()
        same(server.ask(op="stop"), {"ok": "stop"})
        same(server.end(), AGREED)
        assert not server.path.exists(), "the socket is left"


def stop_beside_another(program: Path) -> None:
    """A server whose socket was moved away leaves that of another alone, which took its path."""
    with tempfile.TemporaryDirectory() as folder, attended(program, folder=folder) as first:
        first.path = first.path.rename(f"{folder}/moved")
        with attended(program, folder=folder):
            first.stop()
            same(first.end(), AGREED)


def stop_before_anybody_came(program: Path) -> None:
    with attended(program, "--connections", "5"):
        pass


def stop_before_the_configuration(program: Path) -> None:
    """So does one that has not read its configuration, once it has."""
    with tempfile.TemporaryDirectory() as folder:
        path = f"{folder}/control"
        how: dict[str, Any] = {"stderr": subprocess.DEVNULL}
        with started(program, "serve", *ANY_PORT, "--control", path, **how) as process:
            until("a socket", lambda: os.path.exists(path))
            stop = asked(program, "control", path, "stop", "--within", "0")
            same(stop, (b'{"ok":"stop"}\n', 0))
            assert not select.select([process.stdout], [], [], 0.5)[0], "an address already"
            tell(process, CONFIG)
            same(Server(process).end(), AGREED)


def works(server: Server) -> int:
    """How many answers a client has that sends line after line until the talk ends."""
    count = 0
    with server.connection() as one, contextlib.suppress(ConnectionError):
        one.sendall(HELLO)
        while read_line(one):
            count += 1
            one.sendall(LOOK)
    return count


def stop_while_63_clients_work(program: Path) -> None:
    """Sixty-three clients that send line after line are answered until the time is over; then their
    talks end after the lines that have come."""
    with ThreadPoolExecutor(63) as pool, attended(program, "--workers", "63") as server:
        clients = [pool.submit(works, server) for _ in range(63)]
        until("63 clients", lambda: len(server.status()["clients"]) == 63)
        with takes(2, 12):
            server.stop(within=2)
            counts = [one.result() for one in clients]
    print(f"  {min(counts)} to {max(counts)} answers")
    assert min(counts) > 2, "a client without answers"


def stop_while_clients_are_silent(program: Path) -> None:
    """Silent clients are waited for as long as was named; nobody else is let in meanwhile."""
    with attended(program, "--workers", "2") as server:
        with server.seats(2) as (one, two), takes(2, 6):
            server.stop(within=2)
            asks(two, BYE, PARTED)
            assert is_silent(one, 1.0), "an answer to no line"
            asks(one, LOOK, SEEN)
            same(read_all(one), b"")


def stop_while_a_client_takes_no_answers(program: Path) -> None:
    """A client that takes no answers is left once its talk is to end in any case."""
    with attended(program, "--workers", "1") as server, server.connection() as one:
        one.sendall(HELLO + CREATE + WRITE % (b"a" * 4_096))
        sends_all(one, READ * 1_000, 900)
        wait_while_it_works(server)
        with takes(1, 10):
            server.stop(within=1)
            same(server.end(), AGREED)


def stop_while_a_client_reads_a_little(program: Path) -> None:
    """A client that takes a megabyte of its answers five times a second is left too, though it
    always takes some: all answers to the lines that have come would take it ten seconds or more."""
    count = 4_000
    with attended(program, "--workers", "1", config=LARGE) as server, server.connection() as one:
        one.sendall(HELLO + CREATE * count)
        read_some(one, len(WELCOME) + sum(len(CREATED % (3 + it)) for it in range(count)))
        sends_all(one, LOOK * 1_000, 900)
        wait_while_it_works(server)
        one.settimeout(10.0)
        with takes(1, 8):
            server.stop()
            with contextlib.suppress(ConnectionError):
                while server.process.poll() is None:
                    read_some(one, 1 << 20)
                    time.sleep(0.2)
            same(server.end(), AGREED)


def wait_while_it_works(server: Attended) -> None:
    """Returns once a server carries out nothing for a second."""
    before, now = -1, 0
    while before != now:
        time.sleep(1)
        before, now = now, server.status()["entries"]


def stop_without_a_descriptor(program: Path) -> None:
    """A server that had no descriptor to spare as it began, besides its streams, the socket and the
    listener, stops though nobody comes, and rests until then: it takes less than half a processor
    on a slow machine and in either build."""
    files = resource.RLIMIT_NOFILE
    most = resource.getrlimit(files)[1]
    few = functools.partial(resource.setrlimit, files, (5, most))
    with attended(program, preexec_fn=few) as server:
        resource.prlimit(server.process.pid, files, (most, most))
        server.greet()
        assert busy_part(server.process, 2) < 0.5, "too much"


def stop_twice(program: Path) -> None:
    """A second stop ends a silent client at once."""
    with attended(program, "--workers", "1") as server, server.seated() as one:
        server.stop(within=600)
        assert is_silent(one, 1.0), "an answer to no line"
        with takes(0, 5):
            server.stop()
            same(read_all(one), b"")
            same(server.end(), AGREED)


def end_of_a_round(program: Path) -> None:
    """A round ends when it is told to, what it dropped is said, and the next one has what lives."""
    with attended(program, "--connections", "9", ends=in_rounds(1)) as server:
        same(server.exchange(HELLO + CREATE + BYE).count(b"\n"), 3)
        server.end_round(2)
        assert b'[3,"rw"]' in server.exchange(HELLO + LOOK + BYE), "the document is lost"
        same(server.status()["connections"], {"taken": 2, "left": 7})


# On a busy machine a door may be closed late.
mostly = attempted(passes=5, failures=1)


@mostly
def late_as_a_round_ends(program: Path) -> None:
    """Who connects just after a round was told to end is served in the next one, and stays."""
    with attended(program, "--workers", "2", ends=in_rounds(0)) as server:
        server.ask(op="end round", within=0)
        time.sleep(0.15)
        with server.seated() as one:
            for _ in range(3):
                time.sleep(0.5)
                asks(one, LOOK, SEEN)


@mostly
def late_as_a_server_stops(program: Path) -> None:
    """Who connects just after a server was told to stop does not hold it up, and is not counted:
    the connection ends with the server."""
    with contextlib.ExitStack() as stack:
        server = stack.enter_context(attended(program, "--workers", "2", "--log"))
        server.stop()
        time.sleep(0.15)
        with takes(0, 5):
            same(greeting(server, stack), b"")
            same(server.end(), AGREED)
        same(server.errors(), [{"round": 1, "connections": 0, "entries": 0}])


def stop_between_rounds(program: Path) -> None:
    """A stop that comes as a round ends, or between two, ends the server all the same."""
    for _ in range(5):
        with attended(program, "--round", "1", config=LARGE, ends=None) as server:
            stopper = threading.Timer(random.Random(7).random() / 20, server.stop)
            stopper.start()
            with contextlib.suppress(OSError, ValueError):
                for _ in range(20):
                    server.greet()
            stopper.join()
            lines, status = server.end()
            assert lines.endswith(AGREED[0]) and status == 0, (lines, status)


IS_SERVED = {"connection": 1, "principal": 1, "lines": 5}


def status_tells(program: Path) -> None:
    """The status has what the server counts."""
    words = ("--workers", "2", "--connections", "7")
    with attended(program, *words, config=LARGE) as server, server.connection() as one:
        one.sendall(HELLO + LOOK + b'[]\n{"op":"read","over":9}\n' + CREATE)
        for _ in range(5):
            read_line(one)
        until("the document's slot", lambda: server.status()["slots"]["free"] == 4093)
        found = server.status()
        server.stop()
        same(server.end(), AGREED)
    (client,) = found["clients"]
    same(client, {it: client[it] for it in ("worker", "seat", "idle")} | IS_SERVED)
    same(client["seat"], client["worker"])
    known: dict[str, Any] = {
        "answers": {"refused": 1, "denied": 1, "full": 0},
        "connections": {"taken": 1, "left": 6},
        "slots": {"all": 4096, "free": 4093},
        "cells": {"all": 65536, "free": 65534},
        **{"round": 1, "course": "serving", "entries": 3},
    }
    same({key: found[key] for key in known}, known)
    same(set(found["collector"]), {"cycles", "freed"})
    assert found["bytes"] > 0 and found["uptime"] < 60, found


def greeting(server: Server, stack: contextlib.ExitStack) -> bytes:
    """The first answer to a client that then stays; none if its connection was closed."""
    with contextlib.suppress(ConnectionError):
        one = stack.enter_context(server.connection())
        one.sendall(HELLO)
        return read_line(one)
    return b""


def status_of_a_client_without_a_buffer(program: Path) -> None:
    """A second client for which a worker has no buffer is not among those that are served, and is
    logged: each allocation fails in turn, until both are served."""
    shorts, wrong = 0, 1
    for place in itertools.takewhile(lambda _: wrong, itertools.count(1)):
        with contextlib.ExitStack() as stack:
            fault = Fault("memory", place, place, whose="others")
            how, count = stack.enter_context(faults.at_fault(fault))
            serving = attended(program, "--workers", "2", "--log", ends=None, **how)
            server = stack.enter_context(serving)
            answers = [greeting(server, stack), greeting(server, stack)]
            wrong = count()
            if answers == [WELCOME, b""]:
                clients = server.status()["clients"]
                same([client["connection"] for client in clients], [1])
                server.stop()
                shorts += server.end() == SHORT
                rows = [row for row in server.errors() if "connection" in row]
                same([row["connection"] for row in rows], [2, 1])
    print(f"  {place} allocations, {shorts} of them for a buffer of the second client")
    assert shorts == BUFFERS, "not each buffer was lacking"


def no_control_socket(program: Path) -> None:
    """What is no socket that nobody listens on is not replaced: nothing is served then."""
    with tempfile.TemporaryDirectory() as name:
        folder = Path(name)

        def refused(path: Path = folder / "control") -> Path:
            found = ran(program, "serve", *ANY_PORT, "--control", path, given=CONFIG)
            same((found.stdout, found.returncode), (b'{"error":"control"}\n', 1))
            assert b"control" in found.stderr, found.stderr
            return path

        (folder / "control").write_text("a file")
        same(refused().read_text(), "a file")
        refused().unlink()
        (folder / "control").mkdir()
        refused().rmdir()
        (folder / "control").symlink_to(folder / "nothing")
        assert refused().is_symlink(), "no link any longer"
        refused().unlink()
        with attended(program, folder=name) as server:
            refused()
            server.greet()
        refused(folder / "missing" / "control")
        same(os.listdir(folder), [])


def killed_and_started_again(program: Path) -> None:
    """After a kill the socket is still there; the next server replaces it."""
    with tempfile.TemporaryDirectory() as folder:
        with attended(program, folder=folder, ends=None) as server:
            server.greet()
            server.process.kill()
            server.end()
        assert server.path.is_socket(), "the socket is gone"
        with attended(program, folder=folder) as server:
            server.greet()
            same(server.status()["round"], 1)


def another_user_is_refused(program: Path) -> None:
    """Another user cannot connect, though the folder is open to all."""
    if os.geteuid() != 0:
        return skipped("right to act as another user")
    nobody = pwd.getpwnam("nobody")
    connect = "import socket, sys; socket.socket(socket.AF_UNIX).connect(sys.argv[1])"
    with tempfile.TemporaryDirectory() as folder:
        os.chmod(folder, 0o777)
        with attended(program, folder=folder) as server:
            server.greet()
            words = ["/usr/bin/env", "python3", "-c", connect, str(server.path)]
            who: dict[str, Any] = {"user": nobody.pw_uid, "group": nobody.pw_gid}
            tried = subprocess.run(words, stderr=subprocess.PIPE, timeout=30, **who)
    same(tried.returncode, 1)
    assert b"\nPermissionError: " in tried.stderr, tried.stderr


def hostile_lines_at_the_control_socket(program: Path) -> None:
    """Ten thousand hostile lines at the control socket are refused, and the server serves."""
    source = random.Random(61)
    texts = [b"", b"[]", b"{}", b'{"op":1}', b'{"op":"stop","within":-1}']
    texts += [b'{"op":"stop","within":1e9}', b'{"op":"stop","op2":1}', b"\xff\xfe"]
    texts += [b"[" * 2_000, b'{"op":"status"']

    def line() -> bytes:
        if source.random() < 0.8:
            return source.choice(texts)
        return bytes(source.randrange(11, 256) for _ in range(source.randrange(40)))

    with attended(program) as server:
        answers = b""
        for _ in range(10):
            with server.attendant() as one:
                lines = [line() + b"\n" for _ in range(1_000)]
                answers += poured(one, *lines, is_all=True)
        with server.attendant() as one:
            one.sendall(b"a" * 5_000)
            same(read_all(one), b"")
        server.greet()
        same(server.status()["course"], "serving")
    same(sum(row.startswith(b'{"error"') for row in answers.splitlines()), 10_000)


def stopped_by_a_signal_at_the_control_socket(program: Path) -> None:
    """Who is connected to the control socket is answered though the server's process was stopped
    meanwhile, as a job of a shell is."""
    with attended(program) as server, server.attendant() as one:
        for _ in range(3):
            time.sleep(0.3)
            with suspended(server.process):
                time.sleep(0.3)
        one.sendall(b'{"op":"status"}\n')
        assert b'"uptime":' in read_line(one), "no answer"


def end_while_no_answer_is_taken_at_the_control_socket(program: Path) -> None:
    """A client at the socket that takes no answers does not hold up the end of the server."""
    with attended(program) as server, server.attendant() as one:
        server.greet()
        with takes(0, 4):
            one.sendall(b'{"op":"stop","within":0}\n' + b'{"op":"status"}\n' * 5_000)
            same(server.end(), AGREED)


def slow_at_the_control_socket(program: Path) -> None:
    """A silent client at the socket is left after five seconds, and the next one answered."""
    with attended(program) as server, server.attendant() as one:
        with takes(3, 8):
            same(server.status()["round"], 1)
        same(one.recv(1), b"")


def log_tells(program: Path) -> None:
    """The log has a line for each connection and for each round, whatever ends it."""
    words = ("--log", "--round", "2", "--patience", "1")
    with attended(program, *words, ends=in_rounds(0)) as server:
        server.greet()
        with server.connection() as one:
            asks(one, HELLO + b"no json\n", WELCOME, b'{"error":"not json"}\n')
            with contextlib.suppress(ConnectionError):
                read_all(one)
        server.greet("bob")
        server.stop()
        rows = server.errors()
    keys = ("connection", "principal", "lines", "ended")
    left = [tuple(row[key] for key in keys) for row in rows if "connection" in row]
    same(left, [(1, 1, 2, "lines"), (2, 1, 2, "reading"), (3, 2, 2, "lines")])
    rounds = [{"round": number, "connections": 3 - number, "entries": 0} for number in (1, 2)]
    same([row for row in rows if "round" in row], rounds)


def carried_out(graph: Graph, steps: list[dict[str, Any]]) -> int:
    """Carries out what is allowed in a model; how many commands that are."""
    return sum(
        graph.denial(step["actor"], step) is None and bool(graph.done(step["actor"], step))
        for step in steps
    )


def two_servers_at_once(program: Path) -> None:
    """Of two servers that start at once where a killed one has left its socket, one is refused, and
    the other answers there."""
    for _ in range(10):
        with tempfile.TemporaryDirectory() as folder, contextlib.ExitStack() as stack:
            path = Path(folder) / "control"
            with socket.socket(socket.AF_UNIX) as left:
                left.bind(str(path))
            config = Path(folder) / "config"
            config.write_bytes(CONFIG)
            words = ("serve", *ANY_PORT, "--control", path)
            said = []
            for _ in range(2):
                given = stack.enter_context(config.open("rb"))
                how: dict[str, Any] = {"stdin": given, "stderr": subprocess.DEVNULL}
                said.append(stack.enter_context(started(program, *words, **how)))
            refused, listening = sorted(map(hear, said))
            same((refused, listening[:13]), (b'{"error":"control"}\n', b'{"listening":'))
            same(asked(program, "control", path, "status")[1], 0)


def history_replays(program: Path) -> None:
    """The history of each round that is settled has the commands that changed edges, as steps:
    replayed they lead to the graph of the model."""
    work, more = transcripts(Path(__file__).with_name("history.txt")).values()
    model, replayed = (Graph(read_config(LARGE.rstrip())) for _ in range(2))
    with tempfile.TemporaryDirectory() as folder:
        path = Path(folder) / "steps"
        with attended(program, "--history", str(path), config=LARGE, ends=None) as server:
            answers = server.exchange(HELLO + work.given + BYE)
            same(answers.count(b"\n"), len(work.lines) + 2)
            server.end_round(2)
            server.exchange(HELLO + more.given + BYE)
            server.stop()
            same(server.end()[1], 0)
        steps = [read_step(line) for line in path.read_bytes().splitlines()]
    for told, denied in ((work, 2), (more, 0)):
        events = [{**read_event(line), "actor": 1} for line in told.lines]
        same(carried_out(model, events), len(events) - denied)
    same(carried_out(replayed, steps), len(steps))
    kept = (model.triples, model.kinds, model.next)
    same((replayed.triples, replayed.kinds, replayed.next), kept, f"after {steps}")


def history_that_cannot_be_written(program: Path) -> None:
    """If the file of a history cannot be opened, standard error says so, and nobody is served."""
    with tempfile.TemporaryDirectory() as folder:
        words = ("--control", f"{folder}/control", "--history", "/dev/full/steps")
        found = ran(program, "serve", *ANY_PORT, *words, given=CONFIG)
        same((found.stdout, found.returncode), (b"", 1))
        same(found.stderr.count(b"/dev/full/steps"), 1)
        same(os.listdir(folder), [], "what is left")


def history_without_room(program: Path) -> None:
    """A history that runs out of room ends in the middle of a line, and nothing is added once there
    is room again."""
    step = line_of({"actor": 1, "kind": "document", "op": "create", "rights": "rw"}) + b"\n"
    whole = 40 * step
    room = len(whole) // 2 + 5
    how = limited(resource.RLIMIT_FSIZE, room, restore_signals=False, config=LARGE)
    how["ends"] = (in_rounds(40, 1)[0], 1)
    with tempfile.TemporaryDirectory() as folder:
        path = Path(folder) / "steps"
        with attended(program, "--round", "1", "--history", str(path), **how) as server:
            server.exchange(HELLO + 40 * CREATE + BYE)
            until("a part of a round", lambda: path.read_bytes() == whole[:room])
            time.sleep(0.2)
            path.write_bytes(b"")
            server.exchange(HELLO + CREATE + BYE)
            until("the third round", lambda: server.status()["round"] == 3)
            server.stop()
            same(server.said().count(bytes(path)), 1)
            same(path.read_bytes(), b"")


def history_that_waits(program: Path) -> None:
    """While histories cannot be written and take more than a round may, nobody is served. All are
    written once they can be."""
    with tempfile.TemporaryDirectory() as folder:
        path = Path(folder) / "steps"
        os.mkfifo(path)
        words = ("--round", "1", "--memory", "100k", "--history", str(path))
        with open(os.open(path, os.O_RDONLY | os.O_NONBLOCK), "rb", buffering=0) as pipe:
            fcntl.fcntl(pipe, fcntl.F_SETPIPE_SZ, 4096)
            written = bytearray()

            def are_written(steps: int) -> bool:
                written.extend(pipe.read() or b"")
                return written.count(b"\n") == steps

            ends = in_rounds(100, 100, 100, 100, 0)
            with attended(program, *words, config=LARGE, ends=ends) as server:
                for number in range(1, 5):
                    server.exchange(HELLO + 100 * CREATE + BYE)
                    kept = 100 * 320 * number
                    until("it waits", lambda: server.status()["unwritten"] == kept)
                with server.connection() as late:
                    late.sendall(HELLO + BYE)
                    assert is_silent(late, 1.0), "served though histories wait"
                    until("all is written", lambda: are_written(400))
                    same(read_all(late), WELCOME + PARTED)
                same(server.status()["unwritten"], 0)
    model = Graph(read_config(LARGE.rstrip()))
    same(carried_out(model, [read_step(line) for line in written.splitlines()]), 400)


def output_that_nobody_reads(program: Path) -> None:
    """A server whose output nobody reads waits between two rounds once the pipe is full, though it
    hears of a stop, and goes on as soon as somebody reads."""
    with attended(program, "--round", "1", ends=None) as server:
        fcntl.fcntl(server.process.stdout, fcntl.F_SETPIPE_SZ, 4096)
        for count in range(1_000):
            with server.connection() as one:
                one.sendall(HELLO + BYE)
                if is_silent(one, 2.0):
                    break
                same(read_all(one), WELCOME + PARTED)
        else:
            raise AssertionError("all were greeted")
        server.stop()
        time.sleep(1.0)
        assert server.process.poll() is None, "it has ended"
        same(server.end(), in_rounds(*count * [0]))


def log_that_cannot_be_written(program: Path) -> None:
    """A log that cannot be written hurts nobody."""
    with open("/dev/full", "wb") as full:
        with attended(program, "--connections", "2", "--log", stderr=full) as server:
            server.greet()
            server.greet()
            same(server.end(), AGREED)


def no_server_without_an_end_or_a_socket(program: Path) -> None:
    """Without a number of connections or a control socket nothing is served."""
    found = ran(program, "serve", *ANY_PORT, given=CONFIG)
    same((found.stdout, found.returncode), (b"", 2))
    assert b"--control" in found.stderr, found.stderr


def control_subcommand(program: Path) -> None:
    """`tgdoc control` asks and prints; its status is 0 if that was done."""

    def control(*words: Word) -> tuple[bytes, int]:
        return asked(program, "control", server.path, *words)

    with attended(program, ends=None) as server:
        line, status = control("status")
        same((json.loads(line)["round"], status), (1, 0))
        watch = ("control", server.path, "status", "--watch", "1")
        with started(program, *watch, stderr=subprocess.DEVNULL) as watching:
            shown = os.read(watching.stdout.fileno(), 4_096)
            assert b"slots [" in shown and b"free of 8" in shown, shown
            same(control("end-round", "--within", "0"), (b'{"ok":"end round"}\n', 0))
            same(control("stop"), (b'{"ok":"stop"}\n', 0))
            lines, _ = server.end()
            assert lines.endswith(AGREED[0]), lines
            same(watching.wait(30), 1)
        same([control("status")[1], control("shutdown")[1]], [1, 2])


@contextlib.contextmanager
def control_socket() -> Iterator[tuple[Path, socket.socket]]:
    """A control socket without a server: its path, and what listens there."""
    with tempfile.TemporaryDirectory() as folder, socket.socket(socket.AF_UNIX) as listener:
        listener.settimeout(30.0)
        listener.bind(f"{folder}/control")
        listener.listen()
        yield Path(folder) / "control", listener


@contextlib.contextmanager
def answering(*answers: bytes) -> Iterator[Path]:
    """A control socket at which the first lines are answered so."""
    with control_socket() as (path, listener), ThreadPoolExecutor(1) as pool:
        # (an accept with a limit would not end with the shutdown)
        listener.setblocking(True)

        def answer_all() -> None:
            for answer in answers:
                with contextlib.suppress(OSError), listener.accept()[0] as one:
                    read_line(one)
                    one.sendall(answer)

        pool.submit(answer_all)
        try:
            yield path
        finally:
            listener.shutdown(socket.SHUT_RDWR)


NO_MEMORY = b'{"error":"no memory"}\n'
IDLE = b'{"uptime":1,"slots":{"all":8,"free":5},"clients":[{"worker":3}]}\n'


def watching_ends_with_an_error(program: Path) -> None:
    """A status that is watched is a table until the answer is an error or no status: that is
    printed as it came, and the status of the program is 1."""
    for last in (NO_MEMORY, b"[]\n", b"no json\n"):
        with answering(IDLE, last) as path:
            found = ran(program, "control", path, "status", "--watch", "1")
        tables = found.stdout.removesuffix(last)
        assert tables != found.stdout and tables.count(b"\x1b[H\x1b[2J") == 1, found.stdout
        assert b"] 5 free of 8\n" in tables and b"\n     3  " in tables, tables
        same((found.stderr, found.returncode), (b"", 1))


def control_without_an_answer(program: Path) -> None:
    """A server that does not answer is waited for for ten seconds, and standard error says so."""
    with answering() as path, takes(9, 20):
        found = ran(program, "control", path, "status")
    said = f"tgdoc: {path}: no answer within 10 seconds\n".encode()
    same((found.stdout, found.stderr, found.returncode), (b"", said, 1))


def control_that_is_suspended(program: Path) -> None:
    """`tgdoc control` that is suspended while it waits for an answer prints it all the same."""
    with control_socket() as (path, listener), started(
        program, "control", path, "status"
    ) as asking:
        with listener.accept()[0] as one:
            read_line(one)
            time.sleep(0.2)
            with suspended(asking):
                time.sleep(0.2)
            time.sleep(0.2)
            one.sendall(IDLE)
            same((asking.stdout.read(), asking.wait(30)), (IDLE, 0))


def exporter_answers(_program: Path) -> None:
    """The exporter answers 503 if the server answers with an error, and with the numbers of a
    status, though a client before is silent."""
    exporter, port = ROOT / "examples" / "exporter", free_port()
    with answering(NO_MEMORY, IDLE) as path:
        words: tuple[Word, ...] = (exporter, path, str(port))
        with started(Path(sys.executable), *words, stderr=subprocess.DEVNULL) as process:
            with connected(process, port):
                found = [scraped(port), scraped(port)]
    numbers = b"tgdoc_uptime 1\ntgdoc_slots_all 8\ntgdoc_slots_free 5\ntgdoc_clients 1\n"
    same(found, [(503, b"no memory\n"), (200, numbers)])


def scraped(port: int) -> tuple[int, bytes]:
    """The code and the text of the metrics at the port."""
    with contextlib.closing(http.client.HTTPConnection("127.0.0.1", port, timeout=20.0)) as line:
        line.request("GET", "/metrics")
        answer = line.getresponse()
        return answer.status, answer.read()


def all_attend(folder: str) -> tuple[str, ...]:
    """The words of a server at which everybody attends, who have their files in this folder."""
    return ("--control", f"{folder}/control", "--log", "--history", f"{folder}/steps")


def thread_refused_to_attendants(program: Path) -> None:
    """If no thread can be started for one who attends, standard error says so, and nobody is
    served. The socket is gone then, as it is if a thread of the server itself cannot be started."""
    for number in range(1, 5):
        fault = Fault("thread", number, number)
        with tempfile.TemporaryDirectory() as folder, faults.at_fault(fault) as (how, _):
            found = ran(program, "serve", *ANY_PORT, *all_attend(folder), given=CONFIG, **how)
            left = set(os.listdir(folder))
        answer = found.stdout.partition(b"\n")[2] if number == 4 else found.stdout
        said = b"tgdoc: a thread for --control, --log or --history cannot be started\n"
        same(answer, SHORT[0] if number == 4 else b"", f"at thread {number}")
        same((found.stderr.count(said), found.returncode), (int(number < 4), 1))
        assert left <= {"steps"}, left


def memory_refused_to_attendants(program: Path) -> None:
    """Each allocation of a server fails that has nowhere to listen: it ends by itself, and its
    socket is gone, and so is the folder in which that was made."""

    def attempt(fault: Fault) -> Ran:
        with tempfile.TemporaryDirectory() as folder, faults.at_fault(fault) as (how, count):
            words = ("--listen", "here", *all_attend(folder))
            found = ran(program, "serve", *words, given=CONFIG, **how)
            left = ",".join(sorted(set(os.listdir(folder)) - {"steps"})).encode()
            return Ran(left, found.returncode, count())

    ends = {(b"", 1): "not served", (b"", 2): "command line refused"}
    faults.tell_refused(faults.memory_refused(attempt, faults.one_of(ends)))


def memory_refused_to_the_control_subcommand(program: Path) -> None:
    """Each allocation fails as a server is asked: all is done as with memory, or standard error
    says why not, or the command line is refused."""
    requests = ("status", "--watch", "1"), ("status",), ("stop",)
    counts: Counter[str] = Counter()

    def attempt(words: tuple[str, ...], fault: Fault) -> Ran:
        with answering(IDLE, NO_MEMORY) as path, faults.at_fault(fault) as (how, count):
            found = ran(program, "control", path, *words, **how)
            said = found.stderr.replace(str(path).encode(), b"PATH")
            return Ran(found.stdout + said, found.returncode, count())

    for words in requests:
        asks = functools.partial(attempt, words)
        whole, status, _ = asks(Fault())
        ends = {(whole, status): "asked all the same"}
        ends[b"", 2] = ends[b"error: out of memory\n", 2] = "command line refused"
        for before in (b"", whole.removesuffix(NO_MEMORY)):
            for said in (b"tgdoc: no memory\n", b"tgdoc: PATH: out of memory\n"):
                ends[before + said, 1] = "said"
        counts += faults.memory_refused(asks, faults.one_of(ends))
    faults.tell_refused(counts)
    assert counts["said"] > 0, "it was never said that memory is lacking"


def idle_with_a_control_socket(program: Path) -> None:
    """An idle server with a control socket takes little of a processor: less than three
    hundredths, on a slow machine and in either build."""
    with attended(program, "--workers", "16", config=LARGE) as server:
        server.greet()
        time.sleep(2)
        assert busy_part(server.process, 10) < 0.03, "too much"


def read_some(one: socket.socket, count: int) -> None:
    """Reads so many bytes, or up to the end."""
    while count > 0 and (piece := one.recv(min(count, 1 << 16))):
        count -= len(piece)


def stop_without_memory(program: Path) -> None:
    """A server that may take no more memory, which clients use up, stops when it is told to."""
    words = ("--workers", "2", "--memory", "1g")
    how = limited(resource.RLIMIT_AS, 384 << 20, stderr=subprocess.DEVNULL, ends=None)
    with attended(program, *words, config=LARGE, **how) as server:
        with server.connection() as one, contextlib.suppress(OSError):
            one.sendall(HELLO)
            for _ in range(2_000):
                one.sendall(LOOK * 1_000)
                read_some(one, 1_000 * len(SEEN))
        told = server.status()
        assert told == {"error": "no memory"} or "uptime" in told, told
        server.stop()
        ended = server.end()
    print(f"  {ended}")
    assert ended in (AGREED, SHORT), "another end"


def tests() -> Tests:
    yield from named_in(globals())
