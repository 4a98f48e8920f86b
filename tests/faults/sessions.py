"""Runs of `tg_load`, many sessions at once over one vault."""

from pathlib import Path

from checking import Tests, named, same
from faults import faults
from faults.faults import Fault

AGREED = (b'{"settled":"agreed","counted":true}\n', 0)
SHORT = (b'{"error":"a thread, a session or a command was refused"}\n', 1)
NO_ROOM = (b'{"settled":"no room","counted":false}\n', 1)
NO_MEMORY_TO_SETTLE = (b'{"settled":"no memory","counted":true}\n', 1)
NO_MEMORY = (b'{"error":"out of memory"}\n', 1)


def allocations_refused(program: Path) -> None:
    """Whichever allocation fails, the run ends by itself and says so, and no logs differ."""
    words = ["--sessions", "1", "--commands", "10", "--no-collector"]
    attempt = faults.runs(program, words, b"")
    same(attempt(Fault())[:2], AGREED, "with memory")
    found = {run[:2] for _, run in faults.each(attempt, Fault("memory"))}
    told = {NO_MEMORY, SHORT, NO_ROOM, NO_MEMORY_TO_SETTLE}
    same(told - found, set(), "no end of these kinds")
    same(found - told - {AGREED, (b"", 2)}, set(), "ends of other kinds")


def threads_refused(program: Path) -> None:
    """Whichever thread of four cannot be started, the run ends by itself and says so."""
    attempt = faults.runs(program, ["--sessions", "3", "--commands", "10"], b"")
    same([run[:2] for _, run in faults.each(attempt, Fault("thread"))], [SHORT] * 4)


def tests() -> Tests:
    yield from named(allocations_refused, threads_refused)
