"""Tests of how planted bugs are read and made, of what a law reaches, of what is taken from reports
of checks, and of what is said over another kit, on what made_up/ has; and of what the runners
report: that of planted bugs, of a crate of three lines, can fail, and credits no bug with another's
refusal; tests/run, given names, runs the tests of these names, and fails if a name is no test's.

What needs the toolchain is imported where it is tested: tests/run does without it.
"""

import os
import re
import shutil
import tempfile
from collections.abc import Callable
from pathlib import Path
from typing import Any

from checking import Tests, named, same
from planting import reading
from planting.reach import Reach, named_lines
from planting.reading import Edit, Entry, entries_in, unpacked
from running import ROOT, ran
from transcripts import transcripts

HERE = Path(__file__).parent / "made_up"
# The bugs of made_up/rules.rt.bugs.
RULES, GRAPH = "src/rules.rt", "src/graph.rt"
IF = (GRAPH, "    if b {\n\n    }", "    if !b {\n- + #\n    }")
READ = [
    ("one-line", [(RULES, "let a = 1;", "let a = 2;")]),
    ("several-lines", [(RULES, "let b = 1;", ""), IF]),
    ("last", [(RULES, "c", " d"), (RULES, "e", "f")]),
]
EMPTY = "an old text is in src/lib.rt 7 times, and not once: "
# Files of planted/ that are not read, and what is said of the last one.
STRANGE = {
    "src/old.edit": "src/old.edit is no file of bugs",
    "src/two.rt.bugs": "src/two.rt.bugs: the name one stands in another file of the crate too",
}

SPEC = (HERE / "laws" / "specs" / "Numbers.antt.txt").read_text(encoding="utf-8")
# The definition of each of its lines; a comment belongs to what stands above it.
NAMES = ["", "", "", "base", "base", "base", None, None, "above", "above", "above"]
NAMES += ["Both", "Both", "Both", "last", "last", "last"]
# Two laws (what a comment says is not reached).
LAWS = {
    "one": ("// last\npub fn one() ensures { above 1 ≡ 1 }", 0),
    "two": ("pub fn two() ensures above { above 1 ≡ 1 } ensures last { last ≡ 2 }", 0),
}

# Lines of reports, as the toolchain writes them.
CALLS, COPIES, STRAY = (
    [line.decode() for line in told.lines] for told in transcripts(HERE / "reports.txt").values()
)
SYMBOLS = {"tiny::echo_planted0", "tiny::echo_planted1", "tiny::echo_planted2"}

# The repository of a crate with bugs, and how the runner's line on each begins.
TINY = Path(__file__).resolve().parent / "tiny"
BUGS = {
    **dict.fromkeys(["echo-of-nothing", "seven-is-eight", "most-is-to-be-eight"], "refused: "),
    **dict.fromkeys(["kept-is-nothing", "rings-four-times"], "refused: "),
    "law-echo-is-four": "refused, alone: ",
    "law-twice-is-thrice": "refused: ",
    **dict.fromkeys(["law-spare-is-the-same", "harmless-in-its-place"], "alone: NOT REFUSED"),
    "harmless-beside-a-bug": "alone: NOT REFUSED",
    "text-that-is-not-there": "BAD EDIT",
    "proof-loses-a-name": "BY FORM ALONE",
}


def error_of(call: Callable[..., object], *given: object) -> str:
    """What the call raises, or what it returns."""
    try:
        return f"no error, but {call(*given)}"
    except ValueError as error:
        return str(error)


def bugs_are_read(_: Path) -> None:
    """Names, texts of one line and of several, an empty one, and other files; the last line has no
    line feed."""
    text = (HERE / "rules.rt.bugs").read_text(encoding="utf-8").removesuffix("\n")
    same(list(reading.bugs_in(text, RULES).items()), READ)


def misread_bugs_are_told(_: Path) -> None:
    """What is no bug is told, with its line."""
    for name, told in transcripts(HERE / "misread.txt").items():
        text, (wanted,) = b"\n".join(told.lines).decode(), told.answers
        found = error_of(reading.bugs_in, text, "src/lib.rt")
        same(found, wanted.decode().replace("WANTED", reading.WANTED), name)


def misplaced_bugs_are_told(_: Path) -> None:
    """A bug whose old text is not there exactly once is told; an edit sees those before it."""
    empty = Entry("an empty text", [EMPTY], [Edit("src/lib.rt", "", "d")])
    with tempfile.TemporaryDirectory() as folder:
        crate = Path(folder)
        (crate / "src").mkdir()
        (crate / "src" / "lib.rt").write_text("a b b\n")
        for name, wanted, edits in [*entries_in(HERE / "misplaced.bugs"), empty]:
            same([error_of(reading.edited, edits, crate)], wanted, name)
        edits = [Edit("src/lib.rt", "a", "c\n"), Edit("src/lib.rt", "c\n b", "")]
        same(reading.edited(edits, crate), {"src/lib.rt": " b\n"})


def strange_files_are_told(_: Path) -> None:
    """A file of another form, and a name in two files, are told with the file's name."""
    for strange, wanted in STRANGE.items():
        with tempfile.TemporaryDirectory() as folder:
            planted = Path(folder, "planted")
            (planted / "src").mkdir(parents=True)
            for file in ("src/lib.rt.bugs", strange):
                (planted / file).write_text("one\n- a\n+ b\n")
            same(error_of(reading.bugs_of, Path(folder)), f"{planted}/{wanted}")


def planted_bugs_have_their_places(_: Path) -> None:
    """Each bug of the repository is read and can be made, and there are some."""
    same(reading.misplaced(ROOT), [])
    assert any(ROOT.glob("crates/*/planted/**/*.bugs")), "there are none"


def another_kit_is_told(program: Path) -> None:
    """Over a kit of another name there is a warning; one that lacks a name ends the run."""
    real = Path(os.path.realpath(shutil.which("rt") or "")).parent
    with tempfile.TemporaryDirectory() as folder:
        kit, rt = Path(folder), Path(folder, "bin", "rt")
        rt.parent.mkdir()
        for name in ("rt", "rtlib.py", "rt-plant-bodies"):
            shutil.copy(real / name, kit / "bin" / name)
        (kit / "KIT-ID").write_text("another kit\n")
        (kit / "crates.txt").write_text("")
        environment = {**os.environ, "PATH": f"{kit}/bin:{os.environ['PATH']}"}
        other = ran(program, "no-crate", cwd=kit, env=environment)
        text = rt.read_text(encoding="utf-8")
        rt.write_text(text.replace("def must_fail(", "def renamed("), encoding="utf-8")
        lacking = ran(program, "no-crate", cwd=kit, env=environment)
    same((other.returncode, lacking.returncode), (2, 1))
    lines, (line,) = other.stderr.decode().splitlines(), lacking.stderr.decode().splitlines()
    assert "written for" in lines[0] and lines[0].endswith("this kit is another kit"), lines
    assert lines[-1].endswith("there is no crate no-crate"), lines
    wanted = "planted: this kit's rt has no must_fail: tests/planting/kit.py is written for "
    assert line.startswith(wanted), line


def lines_have_their_definitions(_: Path) -> None:
    """Lines of a block with parameters too."""
    same(named_lines(SPEC), NAMES)


def made_up(folder: str) -> Reach:
    return Reach(str(unpacked(HERE / "laws", folder)), "tiny", LAWS, ["one", "two"], "")


def clauses_reach_by_their_lemmas(_: Path) -> None:
    """A clause reaches what the lemmas of its answer name, and no others of their file."""
    with tempfile.TemporaryDirectory() as folder:
        clauses = made_up(folder).clauses
    above, last = {"above", "base"}, {"last"}
    found = [(it.function, it.name, it.reached) for it in clauses]
    same(found, [("one", "", above), ("two", "above", above), ("two", "last", last)])
    places = [sorted(it.places or []) for it in clauses]
    lines = [[at for file, at in it if file == "proofs/Lemmas.antt"] for it in places]
    same(lines, [[3, 4, 5, 6], [3, 4, 5, 6], [7, 8, 9]])
    answers = [[at for file, at in it if "Answers" in file] for it in places]
    same(answers, [[2, 3], [3, 4, 5], [6, 7, 8]])


def a_bug_is_asked_of_the_nearest_clause(_: Path) -> None:
    """Of a law's before a function's, and of the fewest steps."""
    with tempfile.TemporaryDirectory() as folder:
        reach = made_up(folder)
    found = [reach.nearest({it}) for it in ("base", "last", "nothing")]
    names = [it and (it.function, it.name) for it in found]
    same(names, [("one", ""), ("two", "last"), None])


def changes_touch_definitions(_: Path) -> None:
    """An import that only gains names is touched by itself; of any other change nothing is told."""
    use = "use Rattle.std.specs.Prelude.{ℕ"
    imports = [f"{use}, true", use[:-1], f"{use}, true as last"]
    texts = [SPEC.replace("above = base", "above = n")]
    texts += [SPEC.replace(use, it) for it in imports] + [f"{SPEC}\n"]
    with tempfile.TemporaryDirectory() as folder:
        reach = made_up(folder)
        found = [reach.touched({"specs/Numbers.antt": it}) for it in texts]
    same(found, [{"above"}, {"specs/Numbers.antt:2"}, *[set[str]()] * 3])


def report(said: list[str], status: int = 1, holes: set[str] | None = None) -> Any:
    from planting.checks import Ran
    from planting.reports import Report

    lines = {("src/lib.rt", 40): ("same", 3)}
    return Report("tiny", Ran("\n".join(said), status, {}, 0), lines, SYMBOLS, holes or set())


def waiting_functions_are_found(_: Path) -> None:
    """Those that only call an edited function or one another, or hand on an impl of such."""
    from planting.reports import waiting

    found = waiting(CALLS, {"tiny::echo_planted1", "tiny::Bell::times"})
    wanted = ("same", "twice", "rung", "both", "Horn::times", "loud")
    same(found, {f"tiny::{it}" for it in wanted})


def copies_are_judged_by_a_report(_: Path) -> None:
    """The faults of each copy, closures too, those that are proved, and a text that is not read."""
    found = report(COPIES)
    faults = {"tiny::echo_planted1": [*COPIES[4:6], COPIES[7]], "tiny::echo_planted2": COPIES[1:2]}
    same({name: some for name, some in found.faults.items() if some}, faults)
    same(found.proved, {"tiny::echo_planted0"})
    same((found.unread, found.stray), ({("same", 3)}, []))


def a_stray_line_spoils_a_report(_: Path) -> None:
    """Whatever else is wrong is kept, also a check that has not ended well."""
    *begin, end = COPIES
    for line in STRAY:
        same(report([*begin, line, end]).stray, [line])
    same(report(begin).stray, begin[-1:])
    same(report(COPIES, status=2).stray, [end])


def a_call_behind_a_hole_is_no_excuse(_: Path) -> None:
    """A goal that fails counts if what the copy calls has a hole for its proof, and not if that is
    refused too."""
    line = f"{CALLS[0]}; it calls `tiny::kept`, which is not proved"
    said = [line, "only=1 proved=0"]
    found = [report(said, holes=holes).faults for holes in ({"tiny::kept"}, set[str]())]
    same(found, [{"tiny::echo_planted1": [line]}, {"tiny::echo_planted1": []}])


def a_refusal_is_clear(_: Path) -> None:
    """What refuses a bug in a definition, if it is no lost name and the check ended well."""
    from planting.checks import Ran
    from planting.reports import refusal

    for name, told in transcripts(HERE / "refusals.txt").items():
        done = Ran(b"\n".join(told.lines).decode(), told.status, {}, 0)
        own = {(told.words[0], int(told.words[1]))} if told.words else None
        found = refusal(done, {"specs/Echo.antt": ""}, own)
        same([] if found is None else [found], [answer.decode() for answer in told.answers], name)


def tried(program: Path, *words: str) -> tuple[list[str], int]:
    """The lines of the runner over a copy of the repository, and its status."""
    with tempfile.TemporaryDirectory() as folder:
        place = unpacked(TINY, folder)
        done = ran(program, "--jobs", "1", *words, cwd=place, timeout=900)
    return done.stdout.decode().splitlines(), done.returncode


def edits_of_a_crate_are_told_apart(program: Path) -> None:
    """Seven bugs are refused; harmless ones, an absent text and a lost name count as failed."""
    lines, status = tried(program)
    found = dict(re.findall(r"^planted tiny/(.*?): (.*)", "\n".join(lines), re.M))
    for name, begins in BUGS.items():
        same(found.get(name, "")[: len(begins)], begins, f"{name}: {found.get(name)}")
    same((lines[-1:], status), (["7 passed, 5 failed"], 1))


def bugs_without_time_are_counted(program: Path) -> None:
    """Without a minute for checks no bug fails but the one that cannot be made."""
    lines, status = tried(program, "--minutes", "0")
    left = f"planted: no time for {len(BUGS) - 1}: tiny {len(BUGS) - 1}"
    same((left in lines, lines[-1:], status), (True, ["0 passed, 1 failed"], 1))


def names_pick_tests(program: Path) -> None:
    """A name and a pattern pick a test each; a name that no test has counts as failed."""
    name, pattern = "every-want-of-memory-is-handed-on", "wants-that-*"
    done = ran(program.parent / "run", name, pattern, "no-test")
    rows = [row for row in done.stdout.decode().splitlines() if not row.startswith(" ")]
    passed = [f"passed {name} (crates)", "passed wants-that-are-made-up-are-seen (crates)"]
    wanted = [*passed, "no test has the name no-test", "2 passed, 1 failed"]
    same((rows, done.returncode), (wanted, 1))


def tests() -> Tests:
    yield from named(bugs_are_read, misread_bugs_are_told, misplaced_bugs_are_told)
    yield from named(strange_files_are_told, planted_bugs_have_their_places, another_kit_is_told)
    yield from named(waiting_functions_are_found, copies_are_judged_by_a_report)
    yield from named(a_stray_line_spoils_a_report, a_call_behind_a_hole_is_no_excuse)
    yield from named(a_refusal_is_clear)
    yield from named(lines_have_their_definitions, clauses_reach_by_their_lemmas)
    yield from named(a_bug_is_asked_of_the_nearest_clause, changes_touch_definitions)
    yield from named(edits_of_a_crate_are_told_apart, bugs_without_time_are_counted)
    yield from named(names_pick_tests)
