"""Faults from outside: faults.c is loaded before a program, and some of its calls go wrong."""

import contextlib
import functools
import itertools
import os
import subprocess
import tempfile
from collections import Counter
from collections.abc import Callable, Iterator
from concurrent.futures import ThreadPoolExecutor
from pathlib import Path
from typing import IO, Any, NamedTuple

from checking import shown, tell_counts

SOURCE = Path(__file__).resolve().with_name("faults.c")
SECONDS = 60

# Runs at once, and how many are begun before it is checked whether the fault still happens.
WORKERS = 2
BLOCK = 16

FAILS = -1
# The error of a call that a signal interrupts is 4.
INTERRUPTED = -4
WITHOUT_END = 1 << 62


class Fault(NamedTuple):
    """What goes wrong: the calls of a kind from the first to the last; the bytes that they move if
    they read or write; the most that any does; and whose calls count, those of the program's first
    thread, those of its others, or of all."""

    kind: str = ""
    first: int = 0
    last: int = 0
    moves: int = FAILS
    most: int = 0
    whose: str = ""


class Ran(NamedTuple):
    """What a run wrote, its status, and how many of its calls went wrong."""

    output: bytes
    status: int
    wrong: int


@functools.cache
def folder() -> tempfile.TemporaryDirectory[str]:
    """A folder that is removed as the tests end."""
    return tempfile.TemporaryDirectory(prefix="faults-")


@functools.cache
def library() -> Path:
    """The library, built by the toolchain's own clang."""
    how: dict[str, Any] = {"timeout": SECONDS, "check": True}
    page = subprocess.run(["rt", "doc"], capture_output=True, text=True, **how).stdout.strip()
    tools, place = Path(page).parent / "toolchain" / "bin", Path(folder().name)
    code, built = place / "faults.o", place / "faults.so"
    subprocess.run([tools / "clang", "-O1", "-fPIC", "-c", SOURCE, "-o", code], **how)
    subprocess.run([tools / "ld.lld", "-shared", code, "-o", built], **how)
    return built


@contextlib.contextmanager
def at_fault(fault: Fault) -> Iterator[tuple[dict[str, Any], Callable[[], int]]]:
    """How a program is run in which this goes wrong, and what tells how many calls did."""
    with tempfile.TemporaryFile() as told:
        numbers = {"FIRST": fault.first, "LAST": fault.last, "MOVES": fault.moves}
        numbers |= {"MOST": fault.most, "TOLD": told.fileno()}
        given = {name: str(number) for name, number in numbers.items()}
        given |= {"LD_PRELOAD": str(library()), "FAULT": fault.kind, "WHOSE": fault.whose}
        how = {"env": {**os.environ, **given}, "pass_fds": [told.fileno()]}
        yield how, lambda: os.fstat(told.fileno()).st_size


@contextlib.contextmanager
def source_of(given: bytes) -> Iterator[IO[bytes]]:
    """A file to read these bytes from."""
    with tempfile.TemporaryFile() as source:
        source.write(given)
        source.seek(0)
        yield source


def ran(program: Path, words: list[str], given: bytes, fault: Fault) -> Ran:
    """A run on these bytes, in which this goes wrong."""
    with source_of(given) as source, at_fault(fault) as (how, count):
        how |= {"stdin": source, "stdout": subprocess.PIPE, "stderr": subprocess.DEVNULL}
        done = subprocess.run([str(program), *words], timeout=SECONDS, **how)
        return Ran(done.stdout, done.returncode, count())


def runs(program: Path, words: list[str], given: bytes) -> Callable[[Fault], Ran]:
    """Such runs, each at a fault of its own."""
    return functools.partial(ran, program, words, given)


def each(attempt: Callable[[Fault], Any], fault: Fault) -> Iterator[tuple[int, Any]]:
    """The results of the attempt if the call 1, 2, .. goes wrong, or all calls from it on where the
    last is WITHOUT_END, until none of that number is made; a result has in `wrong` how many calls
    did."""
    library()
    with ThreadPoolExecutor(WORKERS) as pool:
        for start in itertools.count(1, BLOCK):
            numbers = range(start, start + BLOCK)
            faults = [fault._replace(first=it, last=max(it, fault.last)) for it in numbers]
            for number, found in zip(numbers, pool.map(attempt, faults)):
                if not found.wrong:
                    return
                yield number, found


def memory_refused(
    attempt: Callable[[Fault], Ran], kind_of: Callable[[Ran], str | None], last: int = 0
) -> Counter[str]:
    """The ends of runs, as each allocation fails in turn, or all from it on where the last is
    WITHOUT_END. A run of no kind is not allowed."""
    counts: Counter[str] = Counter()
    for number, found in each(attempt, Fault("memory", last=last)):
        kind = kind_of(found)
        at = f"at allocation {number}: status {found.status}, {shown(found.output)}"
        assert kind is not None, at
        counts[kind] += 1
    return counts


def tell_refused(counts: Counter[str]) -> None:
    """Prints how many allocations were refused, and what came of it."""
    tell_counts("allocations refused", counts)


# The ends of a program that lacks memory before its first answer.
BEFORE_ANY = {(b"", 2): "command line refused", (b"", 1): "no line read"}


def one_of(ends: dict[tuple[bytes, int], str]) -> Callable[[Ran], str | None]:
    """The kind of a run by its output and status."""
    return lambda found: ends.get(found[:2])
