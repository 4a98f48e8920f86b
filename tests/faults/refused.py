"""Failed allocations, failing devices and cut inputs: each allocation, read and write of the
program goes wrong in turn, and each answer is checked.

A line that is answered as out of memory is one that nobody sent, or one that was carried out all
the same: what comes after it is what the program, with all its memory, answers to the lines without
it, or with it. All other answers are in scripts.py. Each test prints how many calls went wrong.
"""

import functools
import os
from collections import Counter
from collections.abc import Callable, Sequence
from pathlib import Path
from typing import NamedTuple

from checking import Tests, named_in, parametrised, same
from faults import faults, scripts
from faults.faults import BEFORE_ANY, FAILS, INTERRUPTED, WITHOUT_END, Fault, Ran, one_of, ran
from faults.faults import tell_refused
from running import asked, joined
from transcripts import NOT_JSON, Transcript

NO_MEMORY = b'{"error":"out of memory"}'
SHARED = b'{"verdict":"shared"}'

# Lines that are answered.
AUDIT = scripts.AUDITS[0]
FIRST_LINES = {"run": joined(AUDIT.lines[0], scripts.GREETING[0]), "audit": AUDIT.given}

# Few bytes for each read, so that there are many.
FEW = 16

End = tuple[bytes, int]
Places = tuple[int, ...]


def end_with(answers: Sequence[bytes]) -> End:
    """The output and the status of a run that has these answers and ends with its input."""
    return joined(*answers), int(any(b'"error"' in answer for answer in answers))


def kind_of_answers(
    ask: Callable[[Places], Sequence[bytes | None]], answers: Sequence[bytes | None]
) -> str | None:
    """The result that the answers, None for a line without one, show: as if the lines that lacked
    memory were not sent, or the first of them carried out. A program with all its memory is asked
    for its answers to the lines at some places."""
    wanting = [at for at, answer in enumerate(answers) if answer in (None, NO_MEMORY)]
    heard = [at for at in range(len(answers)) if at not in wanting]
    seen = []
    for kind, places in {"not sent": heard, "carried out": sorted(heard + wanting[:1])}.items():
        found = dict(zip(places, ask(tuple(places))))
        if all(found.get(place) == answers[place] for place in heard):
            seen.append(kind)
    if not wanting:
        return "no line in want" if seen else None
    return " or ".join(seen) or None


@parametrised
def memory_refused(program: Path, script: Transcript, last: int = 0) -> None:
    """Each allocation of a run fails, alone or with all after it."""
    opening, *lines = script.lines

    @functools.cache
    def ask(places: Places) -> list[bytes]:
        given = joined(opening, *(lines[place] for place in places))
        return ran(program, ["run"], given, Fault()).output.splitlines()

    def kind_of(found: Ran) -> str | None:
        answers = found.output.splitlines()
        if not answers or (answers == [NO_MEMORY] and found.status == 1):
            return {**BEFORE_ANY, (NO_MEMORY + b"\n", 1): "opening refused"}.get(found[:2])
        if len(answers) != len(script.answers) or found[:2] != end_with(answers):
            return None
        return kind_of_answers(ask, answers)

    attempt = faults.runs(program, ["run"], script.given)
    same(attempt(Fault())[:2], end_with(script.answers), "with memory")
    counts = faults.memory_refused(attempt, kind_of, last)
    tell_refused(counts)
    assert any("not sent" in kind for kind in counts), "no line was refused"


@parametrised
def memory_of_one_answer_refused(program: Path, cases: list[Transcript], least: int = 1) -> None:
    """Each allocation of runs with one answer fails: it is this, or `out of memory`, which it is so
    many times at least."""
    counts: Counter[str] = Counter()
    for case in cases:
        attempt = faults.runs(program, case.words, case.given)
        whole = case.wanted, case.status
        same(attempt(Fault())[:2], whole, "with memory")
        no_memory = {(joined(NO_MEMORY), 1): "out of memory"}
        ends = {**BEFORE_ANY, **no_memory, whole: "answered all the same"}
        counts += faults.memory_refused(attempt, one_of(ends))
    tell_refused(counts)
    assert counts["out of memory"] >= least, "too little was out of memory"


def memory_of_texts_refused(program: Path) -> None:
    """Each allocation fails when a text is asked for, or a command line is refused: it is the same
    text, or none and status 2."""
    counts: Counter[str] = Counter()
    asked_for: list[list[str]] = [["--help"], ["run", "--help"], ["--version"], [], ["steal"]]
    for words in asked_for:
        attempt = faults.runs(program, words, b"")
        ends = {attempt(Fault())[:2]: "the same text", (b"", 2): "command line refused"}
        counts += faults.memory_refused(attempt, one_of(ends))
    tell_refused(counts)
    assert counts["command line refused"] > 0, "no command line was refused"


class Mode(NamedTuple):
    """A mode of the program and the script that it reads: what it answers to bytes from the begin
    of that, as soon as they are there; and how it ends behind them, if the input ends, or if it
    cannot be read."""

    word: str
    script: Transcript
    told: Callable[[bytes], list[bytes]]
    end: Callable[[bytes], End]
    cut_off: Callable[[bytes], End]


def run_of(script: Transcript) -> Mode:
    """A run answers each line when it is whole."""

    def told(given: bytes) -> list[bytes]:
        whole = given[: given.rfind(b"\n") + 1]
        return script.answers_to(whole) if whole else []

    def end(given: bytes) -> End:
        return end_with(script.answers_to(given))

    return Mode("run", script, told, end, lambda given: (joined(*told(given)), 1))


def audit_of(audit: Transcript) -> Mode:
    """An audit answers at its end: its goal is reached by the last step but two, and not before."""

    def end(given: bytes) -> End:
        rows = given.splitlines()
        if len(rows) < 2 or rows != audit.lines[: len(rows)]:
            return joined(NOT_JSON), 1
        if len(rows) < len(audit.lines) - 2:
            return b'{"missing":"r","verdict":"goal missing"}\n', 1
        return audit.wanted, 0

    def told(given: bytes) -> list[bytes]:
        return audit.answers if given == audit.given else []

    return Mode("audit", audit, told, end, lambda _: (b"", 1))


def check_calls(program: Path, mode: Mode, fault: Fault, wanted: Callable[[int], End]) -> int:
    """How many of the calls went wrong, each with the output and status that are wanted."""
    count = 0
    attempt = faults.runs(program, [mode.word], mode.script.given)
    for number, found in faults.each(attempt, fault):
        same(found[:2], wanted(number), f"at call {number}")
        count += 1
    print(f"  {fault.kind}s that went wrong: {count}")
    return count


# What changes nothing: that a call moves one byte, or is interrupted.
HARMLESS = (1, INTERRUPTED)


@parametrised
def reads_gone_wrong(program: Path, mode: Mode, moves: int, last: int = 0) -> None:
    """Each read of few bytes fails, or moves one byte, or is interrupted, or it and all after it
    find the end."""
    given = mode.script.given

    def wanted(number: int) -> End:
        if moves in HARMLESS:
            return mode.end(given)
        return (mode.end if moves == 0 else mode.cut_off)(given[: FEW * (number - 1)])

    count = check_calls(program, mode, Fault("read", moves=moves, most=FEW, last=last), wanted)
    assert count > len(given) // FEW, "too few reads"


def writes_of(mode: Mode) -> list[tuple[int, bytes]]:
    """What is written, with reads and writes of few bytes, each with the number of its read: after
    each the answers to the lines that are whole then, and not yet answered."""
    given, before, writes = mode.script.given, b"", []
    for end in (*range(FEW, len(given), FEW), len(given)):
        text = joined(*mode.told(given[:end]))
        starts = range(len(before), len(text), FEW)
        writes += [(end, text[at : at + FEW]) for at in starts]
        before = text
    return writes


@parametrised
def writes_gone_wrong(program: Path, mode: Mode, moves: int, last: int = 0) -> None:
    """Each write fails, is interrupted, or takes none or one of its bytes. One byte and a signal
    change nothing; else the run ends with status 1, and what is written is a prefix.

    As the writer is dropped, it tries once more to write what it holds: if only one write goes
    wrong, the rest of that piece is there too.
    """
    rows, answers = writes_of(mode), mode.told(mode.script.given)

    def wanted(number: int) -> End:
        if moves in HARMLESS:
            return joined(*answers), int(answers != [SHARED])
        if last:
            return b"".join(row for _, row in rows[: number - 1]), 1
        return b"".join(row for place, row in rows if place <= rows[number - 1][0]), 1

    count = check_calls(program, mode, Fault("write", moves=moves, most=FEW, last=last), wanted)
    assert count == len(rows) or (moves in HARMLESS and count > len(rows)), "other writes"


@parametrised
def answers_in_one_write(program: Path, mode: Mode) -> None:
    """Answers to lines that came together are written together: if the first write fails there is
    none, and no run makes a second write."""
    given = mode.script.given
    same(ran(program, [mode.word], given, Fault()).output, joined(*mode.told(given)))
    failing = Fault("write", last=WITHOUT_END)
    same(check_calls(program, mode, failing, lambda _: (b"", 1)), 1)


@parametrised
def cut_inputs(program: Path, mode: Mode) -> None:
    """An input that ends after each of its bytes is answered line by line."""
    given = mode.script.given
    for count in range(len(given) + 1):
        found = ran(program, [mode.word], given[:count], Fault())
        same(found[:2], mode.end(given[:count]), f"cut after {count} bytes")
    print(f"  inputs: {len(given) + 1}")


@parametrised
def closed(program: Path, word: str, device: str) -> None:
    """A run whose input or output is closed ends with status 1, and nothing is written."""
    words = ("-c", f'exec "$0" {word} {device}', program)
    same(asked(Path("sh"), *words, given=FIRST_LINES[word]), (b"", 1))


@parametrised
def unread(program: Path, word: str) -> None:
    """A run whose output nobody reads any more ends with status 1, by no signal."""
    reading, writing = os.pipe()
    os.close(reading)
    try:
        same(asked(program, word, given=FIRST_LINES[word], stdout=writing)[1], 1)
    finally:
        os.close(writing)


def tests_of_devices(mode: Mode, short: Mode) -> Tests:
    """Reads and writes of a mode that go wrong, and inputs that are cut."""
    word = mode.word
    for name, moves, last in [
        ("fail", FAILS, 0),
        ("find-the-end", 0, WITHOUT_END),
        ("move-one-byte", 1, 0),
        ("are-interrupted", INTERRUPTED, 0),
    ]:
        yield f"reads-of-{word}-that-{name}", reads_gone_wrong(mode, moves, last)
    for name, moves, last in [
        ("fail", FAILS, 0),
        ("fail-from-then-on", FAILS, WITHOUT_END),
        ("take-no-byte", 0, 0),
        ("take-one-byte", 1, 0),
        ("are-interrupted", INTERRUPTED, 0),
    ]:
        yield f"writes-of-{word}-that-{name}", writes_gone_wrong(mode, moves, last)
    yield f"answers-of-{word}-in-one-write", answers_in_one_write(mode)
    yield f"cut-inputs-of-{word}", cut_inputs(short)
    yield f"closed-input-of-{word}", closed(word, "<&-")
    yield f"closed-output-of-{word}", closed(word, ">&-")
    yield f"output-that-nobody-reads-of-{word}", unread(word)


def tests() -> Tests:
    yield from named_in(globals())
    yield "memory-refused-once", memory_refused(scripts.RUN)
    yield "memory-refused-from-then-on", memory_refused(scripts.RUN, WITHOUT_END)
    yield "memory-refused-in-a-run-without-errors", memory_refused(scripts.WITHOUT_ERRORS)
    yield "memory-refused-among-64-principals", memory_refused(scripts.CROWDED)
    yield "memory-refused-while-acting-for-another", memory_refused(scripts.ACTING)
    refused_openings = memory_of_one_answer_refused(scripts.REFUSED_OPENINGS)
    yield "memory-refused-at-refused-openings", refused_openings
    yield "memory-of-audits-refused", memory_of_one_answer_refused(scripts.AUDITS)
    yield from tests_of_devices(run_of(scripts.PLAIN), run_of(scripts.SHORT))
    yield from tests_of_devices(audit_of(AUDIT), audit_of(AUDIT))
