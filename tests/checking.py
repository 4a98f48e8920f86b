"""How a test fails: it raises, with what it found and what it wanted.

A test is a function of the program's path. It passes if it returns nothing (or True), and fails if
it raises (or returns False).
"""

import functools
import itertools
import shutil
from collections import Counter
from collections.abc import Callable, Iterator, Sequence
from pathlib import Path
from typing import Any, Concatenate, ParamSpec

Test = Callable[[Path], bool | None]
Tests = Iterator[tuple[str, Test]]
# What a test takes besides the program.
More = ParamSpec("More")
Check = Callable[Concatenate[Path, More], bool | None]

# How much of a value is shown.
MOST_SHOWN = 2_000


def shown(value: object) -> str:
    """A value for a reader, a long one cut in the middle."""
    text, half = repr(value), MOST_SHOWN // 2
    more = len(text) - MOST_SHOWN
    return text if more <= 0 else f"{text[:half]} ({more} more) {text[-half:]}"


def parts_of(value: object) -> Sequence[object]:
    """The lines of bytes, or the elements of a list or tuple; else none."""
    if isinstance(value, bytes):
        return value.splitlines(True)
    return value if isinstance(value, list | tuple) else []


def same(found: object, wanted: object, what: str = "") -> None:
    """Raises unless this was found; of values that are too long, with the first part that
    differs."""
    if found == wanted:
        return
    parts, others = parts_of(found), parts_of(wanted)
    is_long = len(repr(found)) > MOST_SHOWN or len(repr(wanted)) > MOST_SHOWN
    if is_long and max(len(parts), len(others)) > 1:
        for number, pair in enumerate(itertools.zip_longest(parts, others), 1):
            same(*pair, f"{what} [{number}]".strip())
    begin = f"{what}: " if what else ""
    raise AssertionError(f"{begin}wanted\n    {shown(wanted)}\n  found\n    {shown(found)}")


def passes(test: Test, program: Path) -> bool:
    """Whether a program passes a test; if not, why not is printed."""
    try:
        return test(program) in (None, True)
    except Exception as error:
        print(f"  {type(error).__name__}: {error}")
        return False


def named(*tests: Test) -> Tests:
    """Tests by the names of their functions, in kebab case."""
    for test in tests:
        yield test.__name__.replace("_", "-"), test


def named_in(module: dict[str, Any]) -> Tests:
    """The tests of a module by their names: all its functions of a path alone that return nothing."""
    for one in list(module.values()):
        if getattr(one, "__module__", "") == module["__name__"]:
            if [*getattr(one, "__annotations__", {}).values()] == [Path, None]:
                yield from named(one)


def parametrised(check: Check[More]) -> Callable[More, Test]:
    """Called with all that it takes besides the program, the function makes a test."""

    @functools.wraps(check)
    def made(*more: More.args, **named: More.kwargs) -> Test:
        return lambda program: check(program, *more, **named)

    return made


def attempted(passes: int, failures: int) -> Callable[[Test], Test]:
    """Has a test made until it has passed so often. So many of its failures are forgiven."""

    def attempting(test: Test) -> Test:
        @functools.wraps(test)
        def tried(program: Path) -> None:
            passed = failed = 0
            while passed < passes:
                try:
                    test(program)
                    passed += 1
                except (AssertionError, OSError):
                    failed += 1
                    if failed > failures:
                        raise

        return tried

    return attempting


def tell_counts(what: str, counts: Counter[str]) -> None:
    """Prints how often each kind was seen."""
    kinds = ", ".join(f"{number} {kind}" for kind, number in sorted(counts.items())) or "none"
    print(f"  {what}: {counts.total()} ({kinds})")


def skipped(what: str) -> None:
    """A test that cannot be made here passes, and says so."""
    print(f"  skipped: there is no {what}")


# Tools without which some tests are skipped, and their commands.
TOOLS = {"Chromium": "chromium", "Graphviz": "dot", "Valgrind": "valgrind"}


def needing(*tools: str) -> Callable[[Check[More]], Check[More]]:
    """Has a test skipped where one of these tools is not installed."""

    def needing_them(test: Check[More]) -> Check[More]:
        @functools.wraps(test)
        def tried(program: Path, /, *more: More.args, **named: More.kwargs) -> bool | None:
            missing = [tool for tool in tools if not shutil.which(TOOLS[tool])]
            if not missing:
                return test(program, *more, **named)
            skipped(" and no ".join(missing))
            return None

        return tried

    return needing_them
