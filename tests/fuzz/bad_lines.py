"""Bad lines, answered as docs/PROTOCOL.md says.

The lines come from faults/line_faults.py. models/reading.py says what each is read as, and what is
wrong with it; lines that are valid after all are answered as models/storage.py says, so that a
refused line which changed something would show. Half of the lines come from a fixed seed and half
from one of the clock, both printed; SEED names one for all.
"""

import random
from collections.abc import Callable
from pathlib import Path
from random import Random
from typing import TypeVar

from checking import Tests, parametrised, same
from faults.line_faults import GOOD, fields_of, object_of, with_faults
from fuzz.differential import printed_if_wrong, seeds
from models.graph import verdict
from models.reading import EVENTS, LONGEST_LINE, STEPS, Refused, line_of, read_config, read_event
from models.reading import read_goal, read_step
from models.storage import Run
from running import asked, joined
from transcripts import transcripts

T = TypeVar("T")

LINES = 20000
LINES_OF_A_RUN = 500
# The forms of a run's lines; two are rare, since answers tell less of what a line changed once
# alice has retired, or acts for bob.
FORMS = [form for form in EVENTS for _ in range({"retire": 1, "assume": 2}.get(form, 8))]

CONFIG = b'{"principals":["alice","bob"],"edges":[[1,"tg",2],[2,"r",1]],"slots":64,"cells":256}'
BEGIN, PROBES = (it.lines for it in transcripts(Path(__file__).with_suffix(".txt")).values())


def read_or_refused(read: Callable[[bytes], T], line: bytes) -> tuple[T | None, bytes]:
    """What a line is read as, or nothing and the answer that refuses it."""
    try:
        return read(line), b""
    except Refused as refused:
        return None, line_of(refused.answer)


def lines_of_a_run(source: Random) -> tuple[list[bytes], int]:
    """The lines of one run, which a line that is too long ends; after that one come a few more,
    which are not answered. And how many of them are drawn."""
    lines, count = list(BEGIN), 0
    while count < LINES_OF_A_RUN:
        line = with_faults(source, fields_of(source, source.choice(FORMS)))
        lines.append(line)
        count += 1
        if len(line) > LONGEST_LINE:
            return [*lines, *PROBES], count
        if source.random() < 0.1:
            lines += PROBES
    if source.random() < 0.3:
        lines += [source.choice(PROBES).ljust(LONGEST_LINE + 1), *PROBES]
    return lines, count


def check_run(program: Path, source: Random, config: bytes, lines: list[bytes]) -> None:
    end = b"" if lines[-1:] != [b""] and source.random() < 0.5 else b"\n"
    written, status = asked(program, "run", given=b"\n".join([config, *lines]) + end)
    opened, refusal = read_or_refused(read_config, config)
    if opened is None:
        same((written, status), (refusal + b"\n", 1), f"a run of {config!r}")
        return
    run, answers, count = Run(opened), written.split(b"\n"), 0
    for line, answer in zip(lines, answers):
        event, refusal = read_or_refused(read_event, line)
        if event is None:
            same(answer, refusal, f"the answer to {line!r}")
        else:
            problem = run.problem(event, answer)
            assert problem is None, f"{line!r} is answered {answer!r}: {problem}"
        count += 1
        if len(line) > LONGEST_LINE:
            break
    else:
        same(count, len(lines), "how many lines are answered")
    same(answers[count:], [b""], "answers to no lines")
    same(status, int(b'{"error":' in written), "the status")


def rows_of_an_audit(source: Random) -> list[bytes]:
    """A configuration, a goal and steps, one of them or more at fault; perhaps not all."""
    steps = [source.choice(list(STEPS)) for _ in range(source.randint(1, 4))]
    forms, rows = ["config", "goal", *steps], []
    for form in forms:
        fields = [field for field in fields_of(source, form) if field[0] != "seat"]
        fields += [("actor", source.choice(GOOD["actor"]))] if form in STEPS else []
        is_bad = source.random() < 1.5 / len(forms)
        rows.append(with_faults(source, fields) if is_bad else object_of(fields))
    return rows[: source.randint(0, 1)] if source.random() < 0.02 else rows


def check_audit(program: Path, source: Random) -> None:
    rows = rows_of_an_audit(source)
    try:
        config = read_config(rows[0] if rows else b"")
        goal = read_goal(rows[1] if len(rows) > 1 else b"")
        wanted = line_of(verdict(config, goal, [read_step(row) for row in rows[2:]]))
    except Refused as refused:
        wanted = line_of(refused.answer)
    status = int(wanted != b'{"verdict":"shared"}')
    with printed_if_wrong("an audit", rows):
        same(asked(program, "audit", given=joined(*rows)), (wanted + b"\n", status))


@parametrised
def bad_lines(program: Path, count: int) -> None:
    """This many bad lines, half of them of each seed; every twentieth is a configuration, every
    hundredth an audit."""
    for seed in seeds():
        print(f"  seed {seed}")
        made, number = 0, 0
        while made < count // len(seeds()):
            number += 1
            source = random.Random(f"{seed}/{number}")
            lines, of_this = lines_of_a_run(source)
            made += of_this
            with printed_if_wrong(f"run {number} of seed {seed}", []):
                check_run(program, source, CONFIG, lines)
                for _ in range(of_this // 20):
                    fields = fields_of(source, "config")
                    is_bad = source.random() < 0.5
                    config = with_faults(source, fields) if is_bad else object_of(fields)
                    check_run(program, source, config, [*BEGIN, *PROBES])
                for _ in range(of_this // 100):
                    check_audit(program, source)


def tests(count: int = LINES) -> Tests:
    yield "bad-lines", bad_lines(count)
