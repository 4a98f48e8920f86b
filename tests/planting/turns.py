"""Who may run a check now: so many at once, the dearest crates first; and what was changed lately,
and so comes before what has its turn by the date."""

import itertools
import os
import subprocess
import threading
from collections.abc import Collection, Iterator
from contextlib import contextmanager, suppress
from pathlib import Path
from typing import Any, TypeVar

Item = TypeVar("Item")
# What counts as lately.
LATELY = "3 days ago"
# The lower comes first: whether a bug is tried alone, and its crate's place.
Rank = tuple[bool, int]


def changed_lately(root: Path) -> set[str]:
    """The files that commits of the last days have changed, as far as git tells."""
    words = ["git", "log", f"--since={LATELY}", "--name-only", "--format="]
    try:
        ran = subprocess.run(words, cwd=root, capture_output=True, text=True)
    except OSError:
        return set()
    return set(ran.stdout.split())


def rotated(items: list[Item], by: int) -> list[Item]:
    """The items from this one on, and then those before it."""
    first = by % max(len(items), 1)
    return items[first:] + items[:first]


def in_turn(crates: list[Any], changed: Collection[str], day: int) -> list[Any]:
    """The crates so that the last have the first turns on this day, by its number: those in which
    one of these files is, and then the others, each of them first on some day."""
    touched = {file.split("/")[1] for file in changed if file.startswith("crates/")}
    return sorted(rotated(crates, day), key=lambda it: it.name in touched)


class Closed(Exception):
    """No turn comes any more."""


def set_niceness(process: int, niceness: int) -> None:
    """Gives the threads of a process this niceness, as far as it may be given."""
    for thread in Path(f"/proc/{process}/task").glob("[0-9]*"):
        with suppress(OSError):
            os.setpriority(os.PRIO_PROCESS, int(thread.name), niceness)


class Turns:
    """Lets this many run at once, with this niceness, and next the first by rank of the others."""

    def __init__(self, count: int, niceness: int = 0) -> None:
        self.free, self.niceness, self.is_closed = count, niceness, False
        self.waiting: list[tuple[Rank, int]] = []
        self.numbers = itertools.count()
        self.processes: set[int] = set()
        self.changed = threading.Condition()

    @contextmanager
    def turn(self, rank: Rank) -> Iterator[None]:
        """Waits for a turn, and holds it."""
        with self.changed:
            own = rank, next(self.numbers)
            self.waiting.append(own)
            self.changed.wait_for(
                lambda: self.is_closed or self.free > 0 and min(self.waiting) == own
            )
            if self.is_closed:
                raise Closed
            self.waiting.remove(own)
            self.free -= 1
            self.changed.notify_all()
        try:
            yield
        finally:
            with self.changed:
                self.free += 1
                self.changed.notify_all()

    @contextmanager
    def minded(self, process: int) -> Iterator[None]:
        """Runs the process with the niceness that those who run now have, until it ends."""
        with self.changed:
            self.processes.add(process)
            set_niceness(process, os.nice(0) + self.niceness)
        try:
            yield
        finally:
            with self.changed:
                self.processes.discard(process)

    def grow(self, more: int) -> None:
        """Lets this many more run at once, and also those that run already at full speed."""
        with self.changed:
            self.free, self.niceness = self.free + more, 0
            for process in self.processes:
                set_niceness(process, os.nice(0))
            self.changed.notify_all()

    def close(self) -> None:
        with self.changed:
            self.is_closed = True
            self.changed.notify_all()

    def close_in(self, seconds: float) -> None:
        """Gives no more turns once so many seconds are over."""
        if seconds <= 0:
            return self.close()
        timer = threading.Timer(seconds, self.close)
        timer.daemon = True
        timer.start()
