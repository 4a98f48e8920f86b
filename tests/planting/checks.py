"""Checks of a crate with other texts in its files' place, over what earlier checks have kept."""

import os
import re
import shutil
import subprocess
import tempfile
import threading
import time
from collections.abc import Collection, Iterator, Mapping
from contextlib import contextmanager, suppress
from pathlib import Path
from typing import NamedTuple

from planting import kit
from planting.bugs import Bug, Result
from planting.kit import Crate
from planting.turns import Turns

FLAGS = ["--jobs", "1"]

# What the toolchain's rule says of a check that was killed, and seconds until it is made again.
KILLED = "was killed"
PAUSE = 60
# What it says of a bug that is refused because a written proof names what the bug took away.
BY_FORM = "only because a proof file names what the edit took away"


class Ran(NamedTuple):
    """What a check said, its status, how many seconds each function's proof took, and the whole."""

    stdout: str
    returncode: int
    seconds: dict[str, float]
    elapsed: float

    def lines(self) -> list[str]:
        return self.stdout.rstrip("\n").split("\n")


def link(one: str, other: str) -> None:
    """Copies a file of what was kept. A check puts new files in the place of what was proved, so
    that a link to it will do; into the few other files it writes, so these get a copy each."""
    if one.endswith(".oantt"):
        os.link(one, other)
    else:
        shutil.copy2(one, other)


def linked(kept: str | Path, to: str) -> None:
    shutil.copytree(kept, to, copy_function=link)


def ran(words: list[str], folder: str, turns: Turns) -> Ran:
    """Runs a check in the folder. A function's seconds are those since the last proof ended."""
    begun = last = time.monotonic()
    said: list[str] = []
    seconds: dict[str, float] = {}
    with subprocess.Popen(
        [*kit.guard(), *words, "--progress"],
        cwd=folder,
        stdin=subprocess.DEVNULL,
        stdout=subprocess.PIPE,
        stderr=subprocess.STDOUT,
        errors="replace",
    ) as process, turns.minded(process.pid):
        for line in process.stdout or []:
            if ended := re.match(r"checked (\S+), \d+ of \d+$", line):
                seconds[ended[1]], last = time.monotonic() - last, time.monotonic()
            else:
                said.append(line)
    return Ran("".join(said), process.returncode, seconds, time.monotonic() - begun)


class Checks:
    """The checks of a crate: what the crate's own checks kept (`were`), what these keep, how many
    there were, and the folder for their reports."""

    def __init__(self, crate: Crate, turns: Turns, rank: int, seeds: str, log: str) -> None:
        self.crate, self.turns, self.rank, self.log = crate, turns, rank, log
        places = [f"{crate.folder}/{kit.KEPT}", *[f"{it}/{crate.name}" for it in [seeds] if it]]
        self.were = [it for it in places if os.path.isdir(it)]
        self.kept, self.count, self.counting = "", 0, threading.Lock()

    def keep_in(self, room: str) -> None:
        """Has the checks keep their work in this folder, over what the crate's own checks kept."""
        self.kept = f"{room}/kept"
        if self.were:
            linked(self.were[-1], self.kept)

    def has_kept(self) -> bool:
        """Whether there is kept work that the next check can take over."""
        return os.path.isdir(self.kept)

    @contextmanager
    def room(self, is_alone: bool) -> Iterator[str]:
        """A folder for a check, with what is kept, once it has its turn."""
        turn = self.turns.turn((is_alone, self.rank))
        with turn, tempfile.TemporaryDirectory(prefix="planted-") as room:
            if self.has_kept():
                linked(self.kept, f"{room}/kept")
            yield room

    def counted(self) -> int:
        with self.counting:
            self.count += 1
            return self.count

    def check(
        self, texts: Mapping[str, str | None], only: Collection[str], is_alone: bool = False
    ) -> Ran:
        """What a check says of these functions of the crate with these texts, of which those that
        are None are taken away."""
        with self.room(is_alone) as room:
            is_first = not os.path.isdir(f"{room}/kept")
            for part in kit.PARTS:
                if os.path.isdir(f"{self.crate.folder}/{part}"):
                    shutil.copytree(f"{self.crate.folder}/{part}", f"{room}/{part}")
            for path, text in texts.items():
                file = Path(room, path)
                file.parent.mkdir(parents=True, exist_ok=True)
                file.unlink(missing_ok=True)
                if text is not None:
                    file.write_text(text, encoding="utf-8")
            flags = [*FLAGS, "--allow-holes"] if None in texts.values() else FLAGS
            words = [kit.RATTLE, "check", *self.crate.words(flags, keeps=False)]
            words += [word for it in only for word in ("--only", it)]
            done = ran([*words, "--incremental", f"{room}/kept"], room, self.turns)
            if is_first:
                # (of several that began without, the first one to end leaves its own)
                with suppress(OSError):
                    os.rename(f"{room}/kept", self.kept)
        number = self.counted()
        if self.log:
            report = Path(self.log, f"{self.crate.name}-{number}")
            report.write_text(done.stdout, encoding="utf-8")
        return done

    def by_the_rule(self, bug: Bug) -> None:
        """Tries the bug by the toolchain's own rule, over what is kept and, if that settles
        nothing, from nothing."""
        with self.room(is_alone=True) as room:
            begun = time.monotonic()
            for kept, pause in ((f"{room}/kept", 0), (None, 0), (None, PAUSE)):
                # Twice from nothing only if the check was killed, as when memory runs short.
                time.sleep(pause)
                self.counted()
                judged = kit.tried(self.crate, bug.name, bug.texts, FLAGS, kept)
                is_refused, is_settled, said = judged
                if is_settled or (kept is None and KILLED not in said):
                    break
        bug.seconds += time.monotonic() - begun
        if BY_FORM in said:
            bug.result = Result(False, f"BY FORM ALONE: {said}")
        else:
            bug.result = Result(is_refused, f"alone: {said}")
