"""Lines and their answers: the worked cases of tests/cases, those that stand in lines/, and those
of many forms or of many lines, of runs and of audits. Each answer is written by hand from
docs/PROTOCOL.md."""

import json
from collections.abc import Iterable
from pathlib import Path

from checking import Tests, parametrised, same, shown
from faults.line_faults import Field, names, object_of
from models.reading import EVENTS, STEPS
from running import ROOT, joined, ran
from transcripts import Pair, Transcript, transcripts

HERE = Path(__file__).parent / "lines"
CONFIG = b'{"edges":[[1,"tg",2]],"principals":["alice","bob"]}'
HELLO = b'{"name":"alice","op":"hello"}'
WELCOME = b'{"ok":"hello","vertex":1}'

NOT_JSON = b'{"error":"not json"}'
NOT_OBJECT = b'{"error":"not an object"}'
UNKNOWN_OP = b'{"error":"unknown op"}'
MISSING = b'{"error":"missing field"}'
BAD = b'{"error":"bad field"}'
UNKNOWN_FIELD = b'{"error":"unknown field"}'
TOO_LONG = b'{"error":"line too long"}'
TOO_MANY = b'{"error":"too many lines"}'
NO_ACTOR = b'{"error":"no actor"}'

# The look at alice's own edges, and its answer.
LOOK = b'{"at":1,"op":"look"}'
SEEN = b'{"edges":[[2,"tg"]],"ok":"edges"}'

GOOD = {"name": '"alice"', "rights": '"r"', "over": "3", "from": "2", "to": "2"}
GOOD |= {"kind": '"document"', "text": '"hi"', "at": "1", "agent": "2", "seat": "0", "actor": "1"}

BAD_NUMBERS = ["-1", "-0", "1.5", "2.0", "2e0", "18446744073709551616", '"1"', "null", "true"]
BAD_NUMBERS += ["[1]", "{}"]
BAD_RIGHTS = ['"rr"', '"x"', '"R"', '"r w"', '"rwtgr"', '"rwtgx"', "1", "null", "[]"]
BAD_VALUES = {
    **dict.fromkeys(["seat", "over", "from", "to", "at", "agent"], BAD_NUMBERS),
    "rights": BAD_RIGHTS,
    "kind": ['"object"', '"Subject"', '""', "1", "null"],
    "text": ["1", "null", '["hi"]', f'"{"a" * 4097}"'],
    "name": ["1", "null", '["alice"]'],
}
# The names that nobody may have; who says hello may say any.
NO_NAMES = ['""', '"Carol"', '"carol1"', '"ca rol"', '"carol "', '"é"', '"a\\u0000"']
NO_NAMES.append(f'"{"a" * 33}"')

# The worked derivation: alice takes from bob, and then has what the goal asks for.
THREE = b'{"edges":[[1,"t",2],[2,"r",3]],"principals":["alice","bob","carol"]}'
GOAL = b'{"from":1,"rights":"r","to":3}'
STEP = b'{"actor":1,"from":2,"op":"take","over":3,"rights":"r"}'
SHARED = b'{"verdict":"shared"}'


@parametrised
def answered(program: Path, words: list[str], given: bytes, wanted: bytes, status: int) -> None:
    """The run writes what is wanted and ends with the status; if not, its input is printed too."""
    found = ran(program, *words, given=given, timeout=120)
    try:
        same((found.stdout, found.returncode), (wanted, status))
    except AssertionError:
        print(f"  input: {shown(given)}\n  on standard error: {shown(found.stderr)}")
        raise


def cases() -> Tests:
    for folder in sorted((ROOT / "tests" / "cases").iterdir()):
        words, status = (
            file.read_text() if file.exists() else default
            for file, default in ((folder / "args", "run"), (folder / "status", "0"))
        )
        given, wanted = ((folder / file).read_bytes() for file in ("stdin", "stdout"))
        yield folder.name, answered(words.split(), given, wanted, int(status))


def line_of(op: str, *extra: Field, but: Iterable[str] = (), more: Iterable[str] = ()) -> bytes:
    """The line of an op with good fields, without some and with others."""
    fields = [(name, GOOD[name]) for name in [*more, *EVENTS[op]] if name not in but]
    return object_of([("op", f'"{op}"'), *fields, *extra])


def case_of(name: str, found: Transcript) -> Tests:
    """A run, or what the words say."""
    yield name, answered(found.words or ["run"], found.given, found.wanted, found.status)


def run(name: str, *pairs: Pair) -> Tests:
    """A run of alice's session."""
    lines, answers = zip((HELLO, WELCOME), *pairs)
    return case_of(name, Transcript([CONFIG, *lines], [*answers]))


def refused_opening(name: str, line: bytes, answer: bytes) -> Tests:
    """A configuration line that is refused, which ends the run."""
    return case_of(name, Transcript([line, HELLO], [answer]))


def written() -> Tests:
    runs = ("session", "openings", "audits", "questions", "questions_of_runs")
    for file in (*runs, "pictures", "words", "servers"):
        for name, found in transcripts(HERE / f"{file}.txt").items():
            yield from case_of(name, found)
    for name, found in transcripts(HERE / "refused.txt").items():
        yield from run(name, *found.pairs, (LOOK, SEEN))
    for name, found in transcripts(HERE / "refused_openings.txt").items():
        yield from refused_opening(name, *found.lines, *found.answers)


def refusals() -> Tests:
    """Each fault of each field of an op."""
    for op, fields in EVENTS.items():
        refused = [(f"missing-{name}-of-{op}", line_of(op, but=[name]), MISSING) for name in fields]
        for name in fields + ["seat"]:
            for value in BAD_VALUES[name] + (NO_NAMES if (op, name) == ("enrol", "name") else []):
                line = line_of(op, (name, value), but=[name])
                short = value if len(value) < 30 else "long"
                refused.append((f"bad-{name}-of-{op}-{short}", line, BAD))
        for name, field in (("unknown-field-of", "x"), ("actor-in", "actor")):
            refused.append((f"{name}-{op}", line_of(op, (field, "1")), UNKNOWN_FIELD))
        for name, line, answer in refused:
            yield from run(name, (line, answer), (LOOK, SEEN))
    ops = [op for op in EVENTS if op not in ("hello", "collect", "cycle")]
    yield from run("no-actor", *[(line_of(op, ("seat", "1")), NO_ACTOR) for op in ops])


def ends() -> Tests:
    """Where the lines end, and how many they are."""
    yield from run("error-after-many-lines", *[(LOOK, SEEN)] * 1_001, (b"", NOT_JSON))
    opened, config, welcome = joined(CONFIG, HELLO), joined(CONFIG), joined(WELCOME)
    refused = joined(NOT_JSON)
    # The configuration line counts, so that the line after the millionth is the millionth after it.
    most, last = refused * 999999, refused * 999999 + joined(TOO_MANY)
    for name, given, wanted, status in [
        ("no-line-at-all", b"", refused, 1),
        ("an-empty-line-alone", b"\n", refused, 1),
        ("last-line-without-a-line-feed", opened + LOOK, welcome + joined(SEEN), 0),
        ("configuration-without-a-line-feed", CONFIG, b"", 0),
        ("line-feed-at-the-end-begins-no-line", opened, welcome, 0),
        ("two-line-feeds-at-the-end-are-an-empty-line", opened + b"\n", welcome + refused, 1),
        (
            "last-line-too-long-without-a-line-feed",
            opened + b"x" * 100000,
            welcome + joined(TOO_LONG),
            1,
        ),
        ("a-million-lines", config + b"\n" * 999999, most, 1),
        ("the-line-after-the-millionth", config + b"\n" * 1000000, last, 1),
        ("a-long-line-after-the-millionth", config + b"\n" * 999999 + b"x" * 20000, last, 1),
        ("more-lines-after-the-millionth", config + b"\n" * 1000005, last, 1),
    ]:
        yield name, answered(["run"], given, wanted, status)


def opening(principals: list[str], *fields: Field) -> bytes:
    return object_of([("principals", json.dumps(principals)), *fields])


def configurations() -> Tests:
    """Configuration lines with numbers that are none, and with as many principals as there may be,
    and more."""
    for field in ["next", "slots", "cells"]:
        for value in BAD_NUMBERS:
            line = opening(["alice"], (field, value))
            yield from refused_opening(f"configuration-{field}-{value}", line, BAD)
    refused = b'{"error":"config","fault":1}'
    yield from refused_opening("configuration-fault-65-principals", opening(names(65)), refused)
    last = b'{"name":"%s","op":"hello"}' % names(64)[63].encode()
    most = Transcript([opening(names(64)), last], [b'{"ok":"hello","vertex":64}'])
    yield from case_of("configuration-of-64-principals", most)
    enrol = b'{"name":"carol","op":"enrol","rights":"tg"}'
    crowded = b'{"cause":"crowded","denied":"enrol"}'
    config = opening(["alice", *names(63)], ("slots", "64"))
    most = Transcript([config, HELLO, enrol], [WELCOME, crowded])
    yield from case_of("crowded-before-full", most)


def audited(name: str, answer: bytes, *rows: bytes, end: bytes = b"") -> Tests:
    """An audit of these lines, and perhaps of a last one without its line feed, and its answer. The
    status is 0 only for the verdict `shared`."""
    given, status = joined(*rows) + end, int(answer != SHARED)
    yield f"audit-{name}", answered(["audit"], given, joined(answer), status)


def audit_of(name: str, answer: bytes, *steps: bytes) -> Tests:
    """An audit of steps behind the worked configuration and goal."""
    return audited(name, answer, THREE, GOAL, *steps)


def step_line(op: str, *extra: tuple[str, str], but: str = "") -> bytes:
    """The line of a step with good fields, without one and with others."""
    return line_of(op, *extra, but=[but], more=["actor"])


def refused_openings() -> Tests:
    """Each configuration and each goal that is refused ends an audit with an error and no verdict,
    and so does a line that is no object as a step."""
    refused = [("not-json", b"{", NOT_JSON), ("empty", b"", NOT_JSON), ("list", b"[]", NOT_OBJECT)]
    for name, line, answer in refused:
        yield from audited("configuration-" + name, answer, line, GOAL)
        yield from audited("goal-" + name, answer, THREE, line, STEP)
        yield from audit_of("step-" + name, answer, STEP, line)
    good = {"from": "1", "rights": '"r"', "to": "3"}
    for field in good:
        others = [pair for pair in good.items() if pair[0] != field]
        yield from audited("goal-missing-" + field, MISSING, THREE, object_of(others), STEP)
        for value in BAD_VALUES[field]:
            bad = object_of([*others, (field, value)])
            yield from audited(f"goal-bad-{field}-{value}", BAD, THREE, bad, STEP)
    for field in ["op", "seat", "actor", "over"]:
        line = object_of([*good.items(), (field, "1")])
        yield from audited("goal-with-" + field, UNKNOWN_FIELD, THREE, line, STEP)


def refused_steps() -> Tests:
    """So does each step that is refused, a line that is cut, and one that is too many."""
    for op in ["hello", "bye", "shade", "collect", "cycle", "enrol", "retire", "assume", "leave"]:
        yield from audit_of(f"{op}-is-no-step", UNKNOWN_OP, line_of(op), STEP)
    for op in STEPS:
        for field in ["actor", *EVENTS[op]]:
            yield from audit_of(f"missing-{field}-of-{op}", MISSING, step_line(op, but=field))
            bad = step_line(op, (field, "null"), but=field)
            yield from audit_of(f"bad-{field}-of-{op}", BAD, bad)
        for field in ["seat", "x"]:
            unknown = step_line(op, (field, "0"))
            yield from audit_of(f"{field}-in-{op}", UNKNOWN_FIELD, unknown)
    for value in BAD_NUMBERS:
        bad = step_line("look", ("actor", value), but="actor")
        yield from audit_of(f"bad-actor-{value}", BAD, bad)
    yield from audited("last-line-without-a-line-feed", SHARED, THREE, GOAL, end=STEP)
    yield from audited("cut-in-a-step", NOT_JSON, THREE, GOAL, STEP, end=STEP[:20])
    # The configuration and the goal count, so that the line after the millionth is the 999,999th
    # after them.
    looks = [b'{"actor":1,"at":1,"op":"look"}'] * 999998
    yield from audit_of("of-a-line-after-the-millionth", TOO_MANY, *looks, STEP)


def many_steps() -> Tests:
    """The verdict on many steps is the one on few, and so is the status."""
    two = b'{"edges":[[1,"tg",2]],"principals":["alice","bob"]}'
    look = b'{"actor":%d,"op":"look","at":%d}'
    lacks = b'{"denied":"look","from":1,"missing":"t","step":1001,"to":9,"verdict":"step denied"}'
    late: dict[str, list[bytes]] = {
        "goal-missing": [b'{"missing":"r","verdict":"goal missing"}'],
        "step-denied": [lacks, look % (1, 9)],
        "actor-no-subject": [b'{"step":1001,"verdict":"actor not subject"}', look % (9, 9)],
        "line-refused": [NOT_JSON, b""],
    }
    for name, (answer, *steps) in late.items():
        looks = [look % (1, 1)] * 1_001
        yield from audited(f"{name}-after-many-steps", answer, two, GOAL, *looks, *steps)


def tests() -> Tests:
    runs, audits = (refusals, ends, configurations), (refused_openings, refused_steps, many_steps)
    for group in (cases, *runs, *audits, written):
        yield from group()
