"""Allocations, threads, reads and writes of a server: each goes wrong in turn while two clients
talk to it, one after the other.

A client sends a line when it has the answer to the one before, and the first comes when all threads
of the server wait. So the calls of the server's own thread come in one order, and those of its
workers too, and the test says of each to which end it has to lead. If a client is not answered,
since its talk ends, its line was carried out or not sent, as in refused.py. Each test prints how
many calls went wrong.
"""

import functools
import itertools
import re
import socket
import subprocess
import time
from collections import Counter
from collections.abc import Collection
from pathlib import Path
from typing import NamedTuple

from checking import Tests, attempted, named_in, parametrised, same, tell_counts
from faults import faults, scripts
from faults.faults import FAILS, INTERRUPTED, WITHOUT_END, Fault
from faults.refused import NO_MEMORY, kind_of_answers
from running import Process, joined, started
from server.servers import connected, free_port
from transcripts import NOT_JSON

SECONDS = 30

# The answers to lines, None for a line without one.
Answers = list[bytes | None]


class Served(NamedTuple):
    """All answers in order; what the server wrote, its status, and how many calls went wrong."""

    answers: Answers
    output: bytes
    status: int
    wrong: int
    port: int


def talk(process: Process, port: int, lines: list[bytes]) -> Answers:
    """The answers to lines, each sent after the one before is answered; None behind the end."""
    answers: Answers = []
    try:
        with connected(process, port) as connection, connection.makefile("rb") as source:
            for line in lines:
                connection.sendall(line + b"\n")
                answers.append(source.readline().removesuffix(b"\n") or None)
                if not answers[-1]:
                    break
            connection.shutdown(socket.SHUT_WR)
            same(source.read(), b"", "more than was asked for")
    except TimeoutError:
        raise AssertionError("a talk does not end") from None
    except OSError:
        # The server has ended, or the connection was closed by it, or by both sides at once.
        pass
    return answers + [None] * (len(lines) - len(answers))


def is_at_rest(task: Path) -> bool:
    """Whether a thread waits, or has ended."""
    try:
        return (task / "stat").read_text().rpartition(")")[2].split()[0] not in "RD"
    except OSError:
        return True


def wait_for_threads(process: Process) -> None:
    """Returns when each thread of a server waits, or the server has ended. Its own thread waits for
    the first time when it has started all others."""
    own = Path(f"/proc/{process.pid}/task/{process.pid}")
    for tasks in (lambda: [own], own.parent.iterdir):
        for task in tasks():
            while not is_at_rest(task):
                time.sleep(0.0005)


# Two workers, who serve two clients in one round, or each client in a round of its own.
ONE_ROUND = ("--workers", "2")
TWO_ROUNDS = (*ONE_ROUND, "--round", "1")
Options = tuple[str, ...]


def serve(
    program: Path, talks: list[list[bytes]], fault: Fault, options: Options = ONE_ROUND
) -> Served:
    """A server with these options, and for each of these talks a client, one after the other."""
    port, connections, answers = free_port(), str(len(talks)), []
    words = ("--listen", f"127.0.0.1:{port}", *options, "--connections", connections)
    opening = faults.source_of(scripts.SERVED + b"\n")
    with opening as source, faults.at_fault(fault) as (how, count):
        how |= {"stdin": source, "stderr": subprocess.DEVNULL, "seconds": SECONDS}
        with started(program, "serve", *words, **how) as process:
            wait_for_threads(process)
            for lines in talks:
                answers += talk(process, port, lines)
            output, status = process.stdout.read(), process.wait(SECONDS)
        return Served(answers, output, status, count(), port)


ALL_ANSWERS = [answer for talk in scripts.TALKS for answer in talk.answers]
FIRST_ANSWERS, SECOND_ANSWERS = (talk.answers for talk in scripts.TALKS)


def lines_at(places: Collection[int]) -> list[list[bytes]]:
    """The lines of the script at these places, a list for each client."""
    numbers = itertools.count()
    return [[it for it in talk.lines if next(numbers) in places] for talk in scripts.TALKS]


ALL_LINES = lines_at(range(len(ALL_ANSWERS)))

# How a server ends, by what it writes, its address left out, and its status; each with the letter
# by which the tests below name it. Of two rounds, the first one agreed at the last two.
ENDS = {
    (b"", 2): ("c", "command line refused"),
    (joined(NO_MEMORY), 1): ("o", "opening refused"),
    (joined(NOT_JSON), 1): ("j", "no opening"),
    (b"", 1): ("w", "nothing written"),
    (b"ADDRESS", 1): ("l", "no last line"),
    (b'ADDRESS{"settled":"agreed"}\n', 0): ("a", "agreed"),
    (b'ADDRESS{"settled":"no memory"}\n', 1): ("m", "not settled"),
}
PART_OF_ADDRESS = ("p", "part of the address")
ENDS_IN_ROUNDS = {
    **{end: name for end, name in ENDS.items() if name[0] not in "al"},
    (b'ADDRESSDROPPED{"settled":"agreed"}\n', 0): ("a", "agreed"),
    (b"ADDRESS" + joined(NO_MEMORY), 1): ("b", "not rebased"),
    (b'ADDRESSDROPPED{"settled":"no memory"}\n', 1): ("n", "second round not settled"),
}
CUT_LATER = ("k", "part of a line behind the address")
REBASED = re.compile(rb'{"dropped":\d+,"round":1}\n')
PART_OF_REBASED = re.compile(rb'ADDRESS(DROPPED|{"dropped":(\d+(,"round":1?)?)?)?')


def end_of(found: Served, options: Options = ONE_ROUND) -> tuple[str, str]:
    """How a server ended: its letter and its name."""
    address, ends = b'{"listening":"127.0.0.1:%d"}\n' % found.port, ENDS
    output = found.output.replace(address, b"ADDRESS")
    if options == TWO_ROUNDS:
        ends, output = ENDS_IN_ROUNDS, REBASED.sub(b"DROPPED", output)
        if found.status == 1 and PART_OF_REBASED.fullmatch(output):
            return CUT_LATER
    is_cut = found.status == 1 and address.startswith(found.output)
    end = ends.get((output, found.status)) or (PART_OF_ADDRESS if is_cut else None)
    assert end, f"a server ends as it may not: {found}"
    return end


def heard_by_clients(found: Served, told: str) -> str:
    """The letter of what the clients heard: all, nothing, or all by the first one and nothing by
    the second; X if a line that was not answered was carried out, and else W."""
    if told == "no line in want":
        return "H"
    if not any(found.answers):
        return "N"
    if found.answers == FIRST_ANSWERS + [None] * len(SECOND_ANSWERS):
        return "K"
    return "X" if told == "carried out" else "W"


def tried_each(program: Path, fault: Fault, options: Options) -> tuple[str, list[str]]:
    """A server for each call of a kind, which goes wrong: two letters of each, how it ended and
    what its clients heard, and both in words."""
    ask = functools.cache(lambda places: serve(program, lines_at(places), Fault()).answers)
    attempt = functools.partial(serve, program, ALL_LINES, options=options)
    letters, words = "", []
    for _, found in faults.each(attempt, fault):
        told, end = kind_of_answers(ask, found.answers), end_of(found, options)
        assert told, f"a client is told what it may not be: {found}"
        letters += end[0] + heard_by_clients(found, told)
        words.append(f"{end[1]}, {told}")
    return letters, words


@functools.cache
def openings_refused(program: Path) -> int:
    """How many failed allocations of `run` end it with its opening refused."""
    attempt = faults.runs(program, ["run"], joined(scripts.RUN.lines[0]))
    ends = [found[:2] for _, found in faults.each(attempt, Fault("memory"))]
    return ends.count((joined(NO_MEMORY), 1))


@parametrised
def gone_wrong(program: Path, fault: Fault, wanted: str, options: Options = ONE_ROUND) -> None:
    """Calls of a kind go wrong, each in turn. The letters of the servers, as these calls came, are
    as the pattern says, in which OPENING stands for the allocations of the opening of a run."""
    whole = serve(program, ALL_LINES, Fault(), options)
    same((whole.answers, end_of(whole, options)), (ALL_ANSWERS, ("a", "agreed")), "without a fault")
    letters, words = tried_each(program, fault, options)
    tell_counts(f"calls of the kind {fault.kind} {fault.whose}".rstrip(), Counter(words))
    if "OPENING" in wanted:
        wanted = wanted.replace("OPENING", str(openings_refused(program)))
    if not re.fullmatch(wanted, letters):
        for row, group in itertools.groupby(words):
            print(f"    {len(list(group))} {row}")
        raise AssertionError(f"{letters} is not {wanted}")


# The allocations of the server's own thread after the last talk. One is for the list into which the
# lists of all workers are moved: two sessions fit into its first room. One is for the list of logs.
# Then settling copies the opening graph: its vertices are one node of a map and its edges another,
# and its two principals have a list and two names. And it carries the commands out once more, of
# which these need memory: the enrol that is allowed, whose name is copied, and the first retire. A
# reply is compared where it stands, and a write needs none, since a text of few bytes lies in the
# command, and copies of any other share it.
LAST = 1 + 1 + (2 + 3) + (1 + 1)

# The texts in which the system tells its limits: how many files may be open, and how much memory is
# available. They are read first, and a failure there changes nothing.
TEXTS = "(aH){2,}"
COUNT = len(ALL_ANSWERS)
FAIL, FIND_THE_END = Fault("read"), Fault("read", moves=0)
OWN, OTHERS = (Fault("memory", whose=whose) for whose in ("first", "others"))
FROM_THEN_ON = Fault("memory", last=WITHOUT_END)

# What goes wrong in a server of one round, and the letters.
IN_ONE_ROUND = {
    # Its own thread never serves a client. One growth for words changes nothing, each other refuses
    # the command line. The opening takes as many as that of a run, and before it one for the buffer
    # of lines, without which a run writes nothing. Three threads and the list of workers take one
    # each before all is answered; what connections left, the logs, and settling take the last ones.
    "memory-of-a-server-itself-refused-once": (
        OWN,
        rf"(c.)*(aH)?(c.)+{TEXTS}o.(o.){{OPENING}}(?=(.*m[^H]){{4}})(m.)*m[^H](mH){{{LAST}}}",
    ),
    # Settling needs memory, so nothing is agreed.
    "memory-of-a-server-refused-from-then-on": (
        FROM_THEN_ON,
        rf"(c.)*(o.){{3}}(o.){{OPENING,}}(m.){{{LAST + 1},}}",
    ),
    # It is one of what the system says, that of the configuration, or one of a talk, which makes
    # one for each line, and the second one for its end. What was not read was not carried out.
    "reads-of-a-server-that-fail": (FAIL, rf"{TEXTS}w[^X](a[^X]){{{COUNT + 1},}}"),
    "reads-of-a-server-that-find-the-end": (FIND_THE_END, rf"{TEXTS}j[^X](a[^X]){{{COUNT + 1},}}"),
    # What is said on standard error may be lost. Without its address, which takes some writes, a
    # server serves all the same and writes nothing more. Each answer is one write, and so is the
    # last line.
    **{
        f"writes-of-a-server-that-{what}": (
            Fault("write", moves=moves),
            rf"(aH)*wH([wp]H)*(a.){{{COUNT}}}lH",
        )
        for what, moves in {"fail": FAILS, "take-no-byte": 0}.items()
    },
    # One byte is as good as many; and a call that a signal interrupts is made again, but for one of
    # what is said on standard error or of what the system says.
    **{
        f"{kind}s-of-a-server-that-{what}": (Fault(kind, moves=moves), rf"(aH){{{COUNT + 1},}}")
        for what, moves in {"move-one-byte": 1, "are-interrupted": INTERRUPTED}.items()
        for kind in ("read", "write")
    },
}

# One allocation of a worker fails. Each of the two makes three that are no part of its talk: the
# buffers of lines and of answers, before it, and the list of what connections left, after it.
# Without that list the first worker closes the door, and then it depends on who is quicker whether
# the second client is let in. A growth of a talk is told to its client, and the server settles.
WORKERS_MEMORY = "(m[^H]){2}(a[^H])*m.(m[^H]){2}(a[^H])*mH"

# The workers of the servers that cannot start some thread, more than the clients: it is the
# collector's, which is the first, or a worker's. Nobody is served where no worker was started.
WORKERS = 5
THREADS = rf"(mN){{2}}(m.){{{WORKERS - 1}}}"

# The same of a server of two rounds.
IN_TWO_ROUNDS = {
    # It fails in a round, in the settling at its end, or in the rebase behind the first, which
    # comes when the first client is answered, and nobody else, and takes one for what lives.
    "memory-of-a-server-in-rounds-refused-once": (OWN, "([^o].)*(o.)+(m.)*mK(m.)*(bK)+(n.)+"),
    # In each round some growth of a worker is none of its talk.
    "memory-of-workers-in-rounds-refused-once": (OTHERS, "(?=.*m)(?=.*n)([mn].|a[^H])*"),
    # In some servers those of the rebase come first.
    "memory-of-a-server-in-rounds-refused-from-then-on": (
        FROM_THEN_ON,
        "([^o].)*(o.)+(?=.*bK)([mbn].)*",
    ),
    # Behind a line that it could not write, that of the rebase in five writes or the last one, it
    # serves on, and writes no other.
    "writes-of-a-server-in-rounds-that-fail": (Fault("write"), "(([wpa].)*kH){6}([wpa].)*"),
}

# With a hello and a bye a connection makes four allocations, for its three buffers and the name,
# and now and then one for the list of what connections left. So this one is late.
LATE = 4 * 80


def greeted(program: Path, fault: Fault, options: Options = ONE_ROUND) -> tuple[int, str]:
    """How many of 101 clients were greeted, and how the server ended."""
    found = serve(program, [scripts.GREETING] * 101, fault, options)
    count, (end, words) = found.answers.count(b'{"ok":"hello","vertex":1}'), end_of(found)
    print(f"  of 101 clients were greeted {count}: {words}")
    return count, end


def memory_of_a_server_of_101_connections_refused_late(program: Path) -> None:
    """It takes no further one, nor settles."""
    fault = Fault("memory", LATE, WITHOUT_END, whose="others")
    count, end = greeted(program, fault, ("--workers", "1"))
    same(end, "m")
    assert 60 < count < 101, "too few or too many"


def memory_of_a_worker_of_101_connections_refused_late(program: Path) -> None:
    """One allocation of a worker fails late, in each try another one. If it is one that a worker
    needs before it serves a client, no further connection is taken, by no worker; if it is one of a
    talk, that talk alone ends, and everything agrees."""
    ends = ""
    for place in range(LATE, LATE + 4):
        count, end = greeted(program, Fault("memory", place, place, whose="others"))
        assert 60 < count < 95 if end == "m" else 100 <= count, "too few or too many"
        ends += end
    assert "m" in ends, "all settled"


def thread_of_a_server_of_101_connections_refused(program: Path) -> None:
    """It does not settle, and answers nobody."""
    found = serve(program, [scripts.GREETING] * 101, Fault("thread", 1, 1))
    same((end_of(found)[0], any(found.answers)), ("m", False))


def tests() -> Tests:
    yield from named_in(globals())
    for name, (fault, wanted) in IN_ONE_ROUND.items():
        yield name, gone_wrong(fault, wanted)
    for name, (fault, wanted) in IN_TWO_ROUNDS.items():
        yield name, gone_wrong(fault, wanted, TWO_ROUNDS)
    # Which worker takes the second client is left to the system, and one that takes both leaves the
    # other without a list.
    tried = attempted(passes=1, failures=9)(gone_wrong(OTHERS, WORKERS_MEMORY))
    yield "memory-of-workers-refused-once", tried
    threads = gone_wrong(Fault("thread"), THREADS, ("--workers", str(WORKERS)))
    yield "threads-of-a-server-refused-once", threads
