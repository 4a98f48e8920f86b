"""Runs that are more than an input and an output."""

import itertools
import os
import re
import select
import subprocess
import tempfile
from pathlib import Path

from checking import Tests, named, parametrised, same
from program.lines import HERE
from running import ROOT, Word, asked, example, hear, ran, rest_of, started, tell, unreadable
from server.servers import BYE, HELLO, PARTED, WELCOME
from transcripts import transcripts

CONFIG = b'{"principals":["alice"]}\n'
DERIVATION = CONFIG + b'{"from":1,"rights":"r","to":2}\n'
DERIVATION += b'{"actor":1,"kind":"document","op":"create","rights":"r"}\n'
SHARED = b'{"verdict":"shared"}\n'


def answers_come_at_once(program: Path) -> None:
    """Each answer can be read before the next line is sent."""
    with started(program, "run") as process:
        tell(process, CONFIG + HELLO)
        same(hear(process), WELCOME)
        tell(process, BYE)
        same(hear(process), PARTED)
        tell(process, b"half a li")
        tell(process, b"ne\n")
        same(hear(process), b'{"error":"not json"}\n')
        same(rest_of(process), (b"", 1))


@parametrised
def answered_together(
    program: Path, lines: bytes, answers: bytes, status: int, room: int = -1
) -> None:
    """Lines that are sent together, over pipes with this many bytes of room, are all answered
    before the program waits for more."""
    with started(program, "run", pipesize=room) as process:
        tell(process, CONFIG + lines)
        found = b"".join(hear(process) for _ in range(lines.count(b"\n")))
        same((found, rest_of(process)), (answers, (b"", status)))


@parametrised
def input_that_cannot_be_read(program: Path, word: str) -> None:
    """A read that fails ends the run with status 1 and no answer."""
    with unreadable() as folder:
        found = ran(program, word, given=None, stdin=folder)
    same((found.stdout, found.returncode), (b"", 1))


def no_verdict_before_the_end(program: Path) -> None:
    """Steps that may still come keep the verdict back; it is there as soon as the input ends."""
    with started(program, "audit") as process:
        tell(process, DERIVATION)
        same(select.select([process.stdout], [], [], 0.2)[0], [])
        same(rest_of(process), (SHARED, 0))


def refused_line_of_an_audit_is_answered_at_once(program: Path) -> None:
    """A line that is refused ends an audit though its input goes on."""
    with started(program, "audit") as process:
        tell(process, CONFIG + b"{}\n")
        same(process.stdout.read(), b'{"error":"missing field"}\n')
        same(process.wait(), 1)


@parametrised
def lost(program: Path, word: str, given: bytes, status: int) -> None:
    """The status of a run whose output cannot be written: 0 if there is none."""
    with open("/dev/full", "wb") as full:
        same(ran(program, word, given=given, stdout=full).returncode, status)


@parametrised
def refused(program: Path, *words: Word) -> None:
    """A command line that is refused: status 2, a text on standard error, no output."""
    found = ran(program, *words, given=CONFIG + HELLO)
    same((found.returncode, found.stdout), (2, b""))
    assert found.stderr, "nothing on standard error"


@parametrised
def helped(program: Path, named: list[str], *words: str) -> None:
    """Help on standard output, with status 0; it names these words."""
    found = ran(program, *words)
    same((found.returncode, found.stderr), (0, b""))
    same([word for word in named if word not in found.stdout.decode()], [], "not named")


@parametrised
def helped_by_example(
    program: Path, wanted: bytes, named: list[str], *words: str, dot: str = ""
) -> None:
    """Help on standard output, status 0; it names certain words before the one example that ends
    it, which writes what matches this, perhaps for Graphviz."""
    found = ran(program, *words, "--help")
    same((found.returncode, found.stderr), (0, b""))
    before, _, line = found.stdout.decode().partition("\nExample:\n")
    same([word for word in named if word not in before], [], "not named")
    same(line.count("\n"), 1, "lines of the example")
    command, _, drawn = line.partition(" | dot ")
    assert drawn.startswith(dot), drawn
    with tempfile.TemporaryDirectory() as folder:
        Path(folder, "tgdoc").symlink_to(program.resolve())
        env = {"PATH": f"{folder}:{os.environ['PATH']}"}
        done = subprocess.run(command, shell=True, cwd=ROOT, env=env, capture_output=True)
    same(done.returncode, 0)
    assert re.fullmatch(wanted, done.stdout, re.DOTALL), done.stdout


@parametrised
def derivation_of(program: Path, name: str, answer: bytes, status: int) -> None:
    given = (ROOT / "examples" / name).read_bytes()
    same(asked(program, "audit", given=given), (answer, status))


def demo_of(program: Path, *words: str) -> str:
    found = example("demo", program, *words)
    same(found.returncode, 0)
    return found.stdout


def demo_of_the_readme(program: Path) -> None:
    """examples/README.md shows what `make demo` prints, from the line on that opens a graph."""
    rows = (ROOT / "examples" / "README.md").read_text().splitlines()
    opens = itertools.dropwhile(lambda row: not row.startswith('    {"principals"'), rows)
    shown = itertools.takewhile(lambda row: row.startswith("    "), opens)
    same("".join(row[4:] + "\n" for row in shown), demo_of(program))


def demo_of_an_audit(program: Path) -> None:
    """The demo of a derivation prints its lines, and the verdict after them."""
    given = ROOT / "examples" / "derivation.jsonl"
    same(demo_of(program, str(given)), given.read_text() + SHARED.decode())


@parametrised
def versioned(program: Path, *words: str) -> None:
    found = ran(program, *words)
    version = (b"tgdoc 0.1.0\n", b"", 0)
    same((found.stdout, found.stderr, found.returncode), version)


def library_page(_: Path) -> None:
    """docs/LIBRARY.md shows the program of crates/tg_example, and what it prints."""
    page, crate = (ROOT / "docs" / "LIBRARY.md").read_text(), ROOT / "crates" / "tg_example"
    rows = (crate / "stdout").read_text().splitlines()
    main = (crate / "src" / "main.rt").read_text()
    assert f"```rust\n{main}```\n" in page, "another program"
    assert "".join(f"    {row}\n" for row in rows) in page, "another output"


def man_page(program: Path) -> None:
    """The man page tells every option that the help texts tell, and no other, for each command."""
    page = (ROOT / "docs" / "tgdoc.1").read_text().replace("\\-", "-")
    commands = page.partition(".SH COMMANDS")[2].partition(".SH LINES")[0]
    words = []
    for part in re.split(r"\.TP\n\.B (?=[a-z])", commands)[1:]:
        words.append(part.partition("\n")[0])
        shown = ran(program, words[-1], "--help").stdout.decode().partition("Example:")[0]
        told, wanted = (set(re.findall("--[a-z]+", text)) for text in (part, shown))
        same(told - {"--help"}, wanted - {"--help"}, f"options of {words[-1]}")
    same(words, ["run", "draw", "share", "audit", "serve", "control"])


def tests() -> Tests:
    yield from named(answers_come_at_once)
    together = answered_together(HELLO + BYE + HELLO, WELCOME + PARTED + WELCOME, 0)
    yield "lines-in-one-write", together
    lines, bound = HELLO * 9_999 + BYE, b'{"error":"bound"}\n'
    many = answered_together(lines, WELCOME + bound * 9_998 + PARTED, 1, 1 << 20)
    yield "many-lines-before-any-answer-is-read", many
    for kind, word in (("", "run"), ("-of-an-audit", "audit"), ("-of-a-picture", "draw")):
        yield f"input{kind}-that-cannot-be-read", input_that_cannot_be_read(word)
    yield from named(no_verdict_before_the_end, refused_line_of_an_audit_is_answered_at_once)
    yield "verdict-that-cannot-be-written", lost("audit", DERIVATION, 1)
    yield "output-that-cannot-be-written", lost("run", CONFIG + HELLO * 1000, 1)
    yield "nothing-to-write", lost("run", CONFIG, 0)
    for name, found in transcripts(HERE / "refused_words.txt").items():
        yield name, refused(*found.words)
    yield "a-word-that-is-not-utf-8", refused(b"run\xff")
    yield "a-word-that-is-not-utf-8-behind-run", refused("run", b"\xff")
    welcome, commands = re.escape(WELCOME), ["run", "audit", "draw", "share", "serve"]
    yield "help", helped_by_example(welcome + b".*", commands)
    yield "help-on-run", helped_by_example(welcome, ["run"], "run")
    yield "help-on-audit", helped_by_example(re.escape(SHARED) + b".*", ["audit"], "audit")
    picture = helped_by_example(b"digraph[^\n]*\n", ["draw", "--each"], "draw", dot="-Tsvg > ")
    yield "help-on-draw", picture
    yield from named(man_page, library_page)
    yield "version", versioned("--version")
    yield "version-before-other-words", versioned("--version", "run", "now")
    yield "example-derivation", derivation_of("derivation.jsonl", SHARED, 0)
    # Without the step by which bob takes g, he may not grant to vertex 5.
    short = b'{"denied":"grant","from":2,"missing":"g","step":3,"to":5,"verdict":"step denied"}\n'
    yield "example-derivation-short", derivation_of("derivation-short.jsonl", short, 1)
    yield from named(demo_of_the_readme, demo_of_an_audit)
