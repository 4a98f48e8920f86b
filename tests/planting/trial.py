"""The planted bugs of a crate, tried: many in one check, and the others one by one; and those of
several crates at once, with the lines that are printed."""

import os
import sys
import tempfile
from collections import Counter
from collections.abc import Callable, Iterable
from concurrent.futures import Future, ThreadPoolExecutor, as_completed
from contextlib import suppress
from functools import partial
from typing import TypeVar

from planting import kit
from planting.bugs import Bug, Result, can_be_edited, must_fail, planted
from planting.checks import Checks
from planting.copies import Copies
from planting.kit import Crate, Function
from planting.laws import Asked, Laws
from planting.reports import Report, first_fault, refusal
from planting.turns import Closed, Turns

# The bugs that one check tries at most, and how many that then need no copy are worth a check of
# their own.
MOST, APART = 40, 8

Item = TypeVar("Item")


class Trial:
    """The planted bugs of a crate. Those that are tried alone, which take less time each, come
    after all checks of copies."""

    def __init__(self, bugs: list[Bug], checks: Checks) -> None:
        self.crate, self.bugs, self.checks = checks.crate, bugs, checks
        self.copies = Copies(self.crate, are_holed=not checks.were)
        self.laws, self.source = Laws(self.copies), self.copies.source

    def symbols(self, functions: Iterable[Function]) -> set[str]:
        """The names by which a report calls these functions."""
        return set(map(self.copies.symbol, functions))

    def batch(self, bugs: list[Bug], more: Iterable[str] = ()) -> None:
        """Tries the bugs in one check, which also proves these functions. Those that it does not
        refuse for certain get no result; each is told how long its functions took."""
        texts, lines, names = self.copies.made(bugs)
        symbols = {*names.values()}
        asked = [it.partition("::")[2] for it in sorted(symbols)]
        done = self.checks.check(texts, [*asked, *more])
        are_holed = self.copies.are_holed
        holes = self.symbols(self.source.functions) - symbols if are_holed else set[str]()
        report = Report(self.crate.name, done, lines, symbols, holes)
        if report.unread:
            # (the text of a function, with a bug or as the control, cannot be read)
            unread = {(f, bugs[number - 1] if number else None) for f, number in report.unread}
            rest = [it for it in bugs if not any(unread & {(f, it), (f, None)} for f in it.spans)]
            return self.batch(rest) if rest else None
        if report.stray:
            why = f"{len(bugs)} bugs are tried in halves, or alone: {report.stray[0][:200]}"
            print(f"planted: {self.crate.name}: {why}", file=sys.stderr)
            middle = len(bugs) // 2
            for half in (bugs[:middle], bugs[middle:]) * (len(bugs) > 1):
                self.batch(half)
            return None
        for number, bug in enumerate(bugs, 1):
            for f in bug.spans:
                name, control = names[f, number], names.get((f, 0))
                bug.seconds += done.seconds.get(name, 0)
                fault = first_fault(report.faults.get(name, []))
                is_sound = control is None or control in report.proved
                if fault and is_sound and name not in report.proved:
                    bug.result = Result(True, f"refused: {fault[:160]}")

    def by_laws(self, group: list[Asked]) -> None:
        """Tries bugs in definitions in one check of the functions that are asked for them."""
        texts, is_alone = self.laws.joined([it.bug for it in group]), len(group) == 1
        asked = sorted({it.clause.function for it in group})
        done = self.checks.check(texts, asked, is_alone=True)
        for bug, clause, _ in group:
            is_proved = f"\nfn {self.crate.name}::{clause.function}: not proved" not in done.stdout
            fault = refusal(done, texts, None if is_alone else clause.places)
            bug.seconds += done.elapsed / len(group)
            if fault and (is_alone or not is_proved):
                bug.result = Result(True, f"refused{', alone' * is_alone}: {fault[:160]}")

    def alone(self, bug: Bug) -> None:
        """Tries the bug on the functions that it is about, and then by the toolchain's own rule."""
        about = self.laws.about(bug)
        fault = self.fault(bug, about) if about else None
        if fault:
            bug.result = Result(True, f"refused, alone: {fault[:160]}")
        else:
            self.checks.by_the_rule(bug)

    def fault(self, bug: Bug, about: list[str]) -> str | None:
        """What refuses the bug in a check of these functions, if that is clear."""
        functions = filter(can_be_edited, self.source.functions)
        own = {f for f in functions if self.copies.asked(f) in about}
        is_inside = len(own) == len(about) and bug.texts.keys() <= self.source.data.keys()
        is_holed = self.copies.are_holed and is_inside
        holes = self.copies.holes(own) if is_holed else {}
        done = self.checks.check({**holes, **bug.texts}, about, is_alone=True)
        bug.seconds += done.elapsed
        if not is_holed:
            return refusal(done, bug.texts)
        symbols = self.symbols(own)
        others = self.symbols(self.source.functions) - symbols
        report = Report(self.crate.name, done, {}, symbols, others)
        unproved = [it for it in sorted(report.faults.items()) if it[0] not in report.proved]
        fault = first_fault(line for _, lines in unproved for line in lines)
        return None if report.stray else fault

    def batches(self, bugs: list[Bug]) -> list[list[Bug]]:
        """The bugs that are tried in one check each: those that cannot be made in copies, and with
        them, or by themselves if they are enough, those that need no copy there; and all others."""
        copied = [it for it in bugs if it.can_be_copied()]
        # (a function's bugs follow one another, so that it has one control)
        copied.sort(key=lambda it: min((f.file, f.start) for f in it.spans))
        left = [it for it in bugs if it not in copied]
        apart: list[list[Bug]] = []
        while left or len(self.together([], self.inner(copied))) >= APART:
            room = self.together([], left)
            left = [it for it in left if it not in room]
            room = self.together(room, self.inner(copied))
            copied = [it for it in copied if it not in room]
            apart.append(room)
        count = -(-len(copied) // MOST)
        ends = [at * len(copied) // count for at in range(count + 1)] if count else []
        return [*(copied[at:end] for at, end in zip(ends, ends[1:])), *apart]

    def inner(self, bugs: list[Bug]) -> list[Bug]:
        """Those of the bugs that cannot be made in the functions themselves if all of them are
        tried at once."""
        placed = self.copies.placed(bugs)
        return [it for it in bugs if it not in placed]

    def together(self, room: list[Bug], bugs: list[Bug]) -> list[Bug]:
        """The room, and as many of the bugs as can be made in the functions themselves in one check
        with it."""
        for bug in bugs:
            if len(room) < MOST and len(self.copies.placed([*room, bug])) > len(room):
                room = [*room, bug]
        return room

    def run(self, pool: ThreadPoolExecutor) -> None:
        """Tries all the bugs, unless no turn comes any more: then the others get no result."""
        with tempfile.TemporaryDirectory(prefix="planted-") as room:
            self.checks.keep_in(room)
            copied = [it for it in self.bugs if not it.result and it.fits(self.source)]
            others = [it for it in self.bugs if not it.result and it not in copied]
            batches = self.batches(copied)
            if not self.checks.were and batches:
                # (it makes what the others begin with; the laws are for bugs in definitions)
                laws = self.laws.laws() if len(copied) < len(self.bugs) else []
                while_open(partial(self.batch, more=laws))(batches.pop(0))
            groups = self.laws.groups(others)
            if not self.checks.has_kept() and groups:
                while_open(self.by_laws)(groups.pop(0))
            list(pool.map(while_open(self.batch), batches))
            list(pool.map(while_open(self.by_laws), groups))
            list(pool.map(while_open(self.alone), [it for it in self.bugs if not it.result]))


def while_open(task: Callable[[Item], None]) -> Callable[[Item], None]:
    """The task, which is given up when no turn comes any more; checks that run go on."""

    def tried(item: Item) -> None:
        with suppress(Closed):
            task(item)

    return tried


def are_left(crates: list[Crate], since: float = 0) -> bool:
    """Whether each library is there as rt ci leaves it, without a stamp, newer than its sources,
    and written after this time."""
    for it in crates:
        made = f"{it.rlib}/format"
        if not os.path.isfile(made) or os.path.exists(f"{it.folder}/out/rlib/stamp"):
            return False
        written = map(os.path.getmtime, kit.files_of(it.folder))
        if os.path.getmtime(made) <= max(since, *written):
            return False
    return True


class Planting:
    """The planted bugs of crates that come one after another; `are_all`: of must-fail/ too."""

    def __init__(
        self,
        crates: list[Crate],
        turns: Turns,
        seeds: str = "",
        log: str = "",
        are_all: bool = False,
    ) -> None:
        # (its first call sets a signal's handler, which only the main thread may)
        kit.guard()
        # (the last in the list have the first turns: as the crates stand there, the dearest)
        self.ranks = {it.name: -at for at, it in enumerate(crates)}
        self.bugs = {it.name: [*(must_fail(it) if are_all else []), *planted(it)] for it in crates}
        self.turns, self.seeds, self.log = turns, seeds, log
        self.begun: dict[str, Trial] = {}
        self.running: dict[Future[None], Trial] = {}
        self.crates = ThreadPoolExecutor(max(1, len(crates)))
        # (most of the threads wait for a turn)
        self.pool = ThreadPoolExecutor(max(1, sum(map(len, self.bugs.values()))))

    def begin(self, crate: Crate) -> None:
        """Begins with the bugs of a crate whose libraries are proved."""
        checks = Checks(crate, self.turns, self.ranks[crate.name], self.seeds, self.log)
        self.begun[crate.name] = trial = Trial(self.bugs[crate.name], checks)
        self.running[self.crates.submit(trial.run, self.pool)] = trial

    def leave(self) -> None:
        """Waits for the checks that run, and begins with no other."""
        self.turns.close()
        self.crates.shutdown()
        self.pool.shutdown()

    def end(self) -> bool:
        """Reports each bug once its crate's have been tried; returns whether all were refused that
        there was time for."""
        tried: list[tuple[Bug, Result]] = []
        left: Counter[str] = Counter()
        for ended in as_completed(self.running):
            ended.result()
            trial = self.running[ended]
            for bug in trial.bugs:
                if bug.result or not self.turns.is_closed:
                    result = bug.result or Result(False, "NOT TRIED")
                    tried.append((bug, result))
                    print(f"planted {bug.name}: {result.said}", flush=True)
                else:
                    left[trial.crate.name] += 1
        dearest = sorted((bug for bug, _ in tried), key=lambda it: -it.seconds)[:10]
        times = ", ".join(f"{it.name} {it.seconds:.0f}" for it in dearest)
        print(f"planted: dearest, in seconds: {times}")
        print(f"planted: {sum(it.checks.count for it in self.begun.values())} checks")
        if left:
            counts = ", ".join(f"{name} {left[name]}" for name in self.begun if left[name])
            print(f"planted: no time for {left.total()}: {counts}")
        failed = [(bug, result) for bug, result in tried if not result.is_refused]
        for bug, result in failed:
            # Once more, since of a long output often only the end is kept.
            print(f"planted FAILED {bug.name}: {result.said}")
        print(f"{len(tried) - len(failed)} passed, {len(failed)} failed", flush=True)
        return not failed
