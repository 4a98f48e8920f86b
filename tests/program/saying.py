"""What standard error says where no line can, and what `--explain` says of refused lines."""

import os
import pty
import re
import socket
import subprocess
from pathlib import Path

from checking import Tests, named, parametrised, same
from faults import faults
from faults.faults import INTERRUPTED, Fault, Ran
from program.lines import HERE
from program.programs import CONFIG
from running import Word, ran, started, unreadable
from server.servers import ANY_PORT
from transcripts import Transcript, transcripts

LONG = b" " * 16_385 + b"\n"
GOAL = b'{"from":1,"rights":"r","to":2}\n'
# Configurations of which the names are refused: two are the same, and one is malformed.
TWICE = b'{"principals":["alice","alice"]}\n'
MALFORMED = b'{"principals":["Alice"]}\n'


@parametrised
def says(
    program: Path, wanted: bytes, *words: str, given: bytes = CONFIG, output: str = os.devnull
) -> None:
    """Standard error has exactly this, and the status is 1."""
    with open(output, "wb") as out:
        found = ran(program, *words, given=given, stdout=out)
    same((found.stderr, found.returncode), (wanted, 1))


def no_input_to_read(program: Path) -> None:
    """An input that cannot be read is named, with the reason."""
    with unreadable() as folder:
        found = ran(program, "run", given=None, stdin=folder)
    same((found.stdout, found.returncode), (b"", 1))
    begin = b"tgdoc: standard input: Is a directory"
    assert found.stderr.startswith(begin), found.stderr


@parametrised
def explained(program: Path, told: Transcript) -> None:
    """Each refused line is explained, by its number; the answers are as without explanations."""
    found, plain = (ran(program, *told.words, *it, given=told.given) for it in (["--explain"], []))
    same((found.stderr, plain.stderr), (told.wanted, b""))
    same((found.stdout, found.returncode), (plain.stdout, plain.returncode))


def lines_behind_the_last_unexplained(program: Path) -> None:
    """Lines that are not taken any more are not explained, though they were read with others."""
    too_long = b"line 2: more than 16384 bytes\n"
    for word, given, wanted in [
        ("run", b"[]\n", b""),
        ("run", b'{"principals":["alice"],"slots":0}\n', b""),
        ("run", LONG, b""),
        ("run", CONFIG + LONG, too_long),
        ("run", CONFIG + LONG[:-1], too_long),
        ("audit", b"[]\n" + GOAL, b""),
        ("audit", CONFIG + b"[]\n", b""),
        ("audit", CONFIG + LONG, b""),
    ]:
        found = ran(program, word, "--explain", given=given + b"x\ny\n")
        said = [row for row in found.stderr.splitlines(True) if row.startswith(b"line")]
        same((b"".join(said), found.returncode), (wanted, 1), f"{word} of {given[:40]!r}")


def no_other_field_blamed_without_memory(program: Path) -> None:
    """Whichever allocation fails, no field is said to be at fault that is not."""
    given = CONFIG + b'{"op":"write","over":2,"text":"%s","x":1}\n' % (b"a" * 100)
    given += b'{"op":"enrol","name":"%s","rights":"r","x":1}\n' % (b"a" * 32)

    def attempt(fault: Fault) -> Ran:
        with faults.at_fault(fault) as (how, count):
            found = ran(program, "run", "--explain", given=given, **how)
            return Ran(found.stderr, found.returncode, count())

    for number, found in faults.each(attempt, Fault("memory")):
        blamed = re.findall(rb"^line \d: .*field (\w+)$", found.output, re.MULTILINE)
        assert set(blamed) <= {b"x"}, f"at allocation {number}: {found.output!r}"


def nothing_else_explained(program: Path) -> None:
    """No other mode takes the word, and nothing stands behind it."""
    for words in (["draw", "--explain"], ["run", "--explain", "x"], ["run"] + ["--explain"] * 2):
        same(ran(program, *words, given=CONFIG).returncode, 2, str(words))


def last_said(program: Path, *words: Word, given: bytes = CONFIG) -> bytes:
    """The last line of standard error of a server that does not serve."""
    found = ran(program, "serve", "--connections", "1", *words, given=given)
    same(found.returncode, 1)
    return found.stderr.splitlines()[-1]


def port_in_use_explained(program: Path) -> None:
    """A port that is in use is named, with the reason."""
    with socket.create_server(("127.0.0.1", 0)) as taken:
        address = f"127.0.0.1:{taken.getsockname()[1]}"
        said = last_said(program, "--listen", address).decode()
    assert said.startswith(f"tgdoc: {address}: Address already in use"), said


@parametrised
def not_served(program: Path, wanted: bytes, *words: str, given: bytes = CONFIG) -> None:
    same(last_said(program, *words, given=given), wanted)


def interrupted_calls_are_no_failures(program: Path) -> None:
    """Nothing is said of a read or a write of a server that is made again after a signal."""
    words = ("serve", "--listen", "here", "--connections", "1", "--memory", "1m")
    rows = ran(program, *words, given=CONFIG).stderr.splitlines()

    def attempt(fault: Fault) -> Ran:
        with faults.at_fault(fault) as (how, count):
            found = ran(program, *words, given=CONFIG, **how)
            others = [row for row in found.stderr.splitlines() if row not in rows]
            return Ran(found.stdout + b"".join(others), found.returncode, count())

    for kind in ("read", "write"):
        tried = list(faults.each(attempt, Fault(kind, moves=INTERRUPTED)))
        assert tried, f"no {kind}"
        for number, found in tried:
            same(found[:2], (b'{"error":"listen"}\n', 1), f"{kind} {number}")


def waits_for_its_configuration(program: Path) -> None:
    """On a terminal a server says that it waits for its configuration."""
    leader, follower = pty.openpty()
    how = {"stdin": follower, "stderr": subprocess.PIPE}
    with started(program, "serve", *ANY_PORT, "--connections", "1", **how) as process:
        os.close(follower)
        said = [process.stderr.readline() for _ in range(2)]
    os.close(leader)
    assert any(b"waiting for the configuration" in line for line in said), said


def tests() -> Tests:
    full, device = b"tgdoc: standard output: No space left on device (os error 28)\n", "/dev/full"
    for word in ("run", "draw"):
        yield f"no-space-for-{word}", says(full, word, given=CONFIG + b"[]\n", output=device)
    yield "no-space-for-audit", says(full, "audit", given=CONFIG + GOAL, output=device)
    question = ("share", "--from", "1", "--to", "1", "--rights", "r")
    yield "no-space-for-share", says(full, *question, output=device)
    yield from named(no_input_to_read)
    names = b"tgdoc: the configuration is refused: a name is not 1 to 32 letters a to z, "
    names += b"or two principals have the same name\n"
    for word in ("run", "draw"):
        yield f"configuration-explained-for-{word}", says(names, word, given=TWICE)
    yield "malformed-name-explained", says(names, "run", given=MALFORMED)
    said = b"tgdoc: 0.0.0.0:0 is not an address of the loopback"
    yield "address-of-no-loopback-explained", not_served(said, "--listen", "0.0.0.0:0")
    said = b"tgdoc: here is no address with a port, as 127.0.0.1:7000 is"
    yield "address-that-is-none-explained", not_served(said, "--listen", "here")
    for name, given in (("configuration", TWICE), ("malformed-name", MALFORMED)):
        refused = not_served(names.rstrip(), *ANY_PORT, given=given)
        yield f"{name}-explained-for-serve", refused
    yield from named(port_in_use_explained, waits_for_its_configuration)
    yield from named(interrupted_calls_are_no_failures)
    for name, told in transcripts(HERE / "explained.txt").items():
        yield name, explained(told)
    # (the last line may lack its line feed)
    wanted = b"line 2: not one JSON value in UTF-8\n"
    yield "last-line-explained", says(wanted, "run", "--explain", given=CONFIG + b"x")
    yield from named(lines_behind_the_last_unexplained)
    yield from named(no_other_field_blamed_without_memory, nothing_else_explained)
