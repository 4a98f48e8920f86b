"""Whether rights can ever be shared: what is more than a question of lines/ and its answer."""

import resource
from pathlib import Path

from checking import Tests, named, same
from faults.refused import memory_of_one_answer_refused
from fuzz.sharing import NEVER, NO_SERIAL, SHARED, audited, shared
from program.lines import HERE
from program.programs import helped
from running import example
from server.servers import HELLO, SHADE
from transcripts import transcripts

# Alice can take a right that bob has.
RIGHT = transcripts(HERE / "questions.txt")["a-right-that-can-be-taken"]


def words(start: str, end: str, rights: str, *more: str) -> list[str]:
    return ["--from", start, "--to", end, "--rights", rights, *more]


def no_serial_left_for_a_question(program: Path) -> None:
    """Where no serial is left, what takes a new vertex cannot be done, and is no `never`."""
    opening = (
        b'{"edges":[[2,"t",1]%s],"next":18446744073709551615,"principals":["alice","bob"%s]}\n'
    )
    more = opening % (b',[2,"r",3]', b',"carol"')
    lines = opening % (b"", b"") + HELLO + b'{"op":"create","kind":"document","rights":"r"}\n'
    same(shared(program, more, *words("alice", "carol", "r")), (NO_SERIAL, 0))
    same(shared(program, lines, *words("alice", "bob", "r")), (NEVER, 0))


def example_of_a_leak(program: Path) -> None:
    """The example of a company: a leak, and `never` once it is closed."""
    found = example("leak", program)
    same(found.returncode, 0, found.stderr)
    assert "\n    bob grants r over 5 to dave\n" in found.stdout, "no leak"
    assert "dave can never read it: never.\n" in found.stdout, "not closed"


# As many vertices as there can be slots.
MANY = 65_536


def a_question_about_all_slots(program: Path) -> None:
    """A question about a graph of 65,536 vertices is answered soon, and in bounded memory."""
    create = b'{"op":"create","kind":"%s","rights":"rtg"}\n' + SHADE
    given = b'{"principals":["alice"],"slots":%d,"cells":1048576}\n' % MANY + HELLO
    # alice makes subjects, and at last a document
    given += create % b"subject" * (MANY - 2) + create % b"document"
    before = resource.getrusage(resource.RUSAGE_CHILDREN).ru_utime
    derivation, status = shared(program, given, *words("3", str(MANY), "r"))
    took = resource.getrusage(resource.RUSAGE_CHILDREN).ru_utime - before
    lines = derivation.count(b"\n")
    print(f"  {took:.1f} s of processor time, {lines} lines")
    same((status, audited(program, derivation)), (0, SHARED))


def tests() -> Tests:
    options = ["--from", "--to", "--rights", "--steps"]
    yield "help-on-share", helped([*options, "Letters", "tgdoc share"], "share", "--help")
    yield "memory-refused-to-a-question", memory_of_one_answer_refused([RIGHT], 11)
    yield from named(no_serial_left_for_a_question)
    yield from named(a_question_about_all_slots, example_of_a_leak)
