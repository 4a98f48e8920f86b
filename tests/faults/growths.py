"""Failed allocations of single calls: each allocation of a test of a crate fails in turn, and the
test looks at what the call left.

The tests are those of the crates whose names begin with `growth_refused_`, in the programs
crates/NAME/out/NAME_tests. Such a test makes a call; if memory runs out it prints `no memory`,
looks at what is left, and makes the call again. A test whose preparations lack memory ends with
AllocError. A test whose name begins with `no_growth_in_` makes calls that allocate nothing, and
there is no allocation to fail.
"""

from collections import Counter
from pathlib import Path

from checking import Tests, parametrised, same
from faults import faults
from faults.faults import Fault, Ran, tell_refused
from running import ROOT, asked

OK = b"\ntest result: ok\n"
AGAIN = "no memory, and then the answer"
ENDS = {(OK, 0): "went on", (b"no memory\n" + OK, 0): AGAIN}


def programs() -> list[Path]:
    """The built tests of the crates."""
    return sorted(ROOT.glob("crates/*/out/*_tests"))


def names_of(program: Path, begin: str) -> list[str]:
    """The tests of a program whose names begin in this way."""
    listed, status = asked(program, "--list")
    same(status, 0)
    names = [row.removesuffix(": test") for row in listed.decode().splitlines()]
    return [name for name in names if name.rpartition("::")[2].startswith(begin)]


def kind_of(found: Ran) -> str | None:
    """The result of a test with a failed allocation; None if it is not allowed."""
    return "not prepared" if found[:2] == (b"", 101) else ENDS.get(found[:2])


def counted(program: Path, name: str) -> Counter[str]:
    """The test passes with memory; as its allocations fail in turn, how many had which result."""
    attempt = faults.runs(program, [name], b"")
    same(attempt(Fault())[:2], (OK, 0), "with memory")
    counts = faults.memory_refused(attempt, kind_of)
    tell_refused(counts)
    return counts


@parametrised
def growth_refused(program: Path, name: str) -> None:
    """Whichever allocation fails, the call leaves what it should; one of them is its own."""
    assert counted(program, name)[AGAIN] > 0, "no allocation of the call itself"


@parametrised
def no_growth(program: Path, name: str) -> None:
    same(counted(program, name), Counter(), "allocations")


def tests(program: Path) -> Tests:
    """All tests of a program by their names."""
    for begin, test in (("growth_refused_", growth_refused), ("no_growth_in_", no_growth)):
        for name in names_of(program, begin):
            yield name.rpartition("::")[2].replace("_", "-"), test(name)
