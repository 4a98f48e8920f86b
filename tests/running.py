"""How tests run a program: on an input, or while they talk to it. Every run has an end."""

import contextlib
import functools
import os
import re
import resource
import subprocess
import threading
from collections.abc import Iterator
from pathlib import Path
from typing import IO, Any

ROOT = Path(__file__).resolve().parents[1]
# A program is killed after this many seconds.
SECONDS = 60

Word = str | bytes | Path


class Process(subprocess.Popen[bytes]):
    """A program that runs. A test uses those of its streams that are pipes."""

    stdin: IO[bytes]
    stdout: IO[bytes]
    stderr: IO[bytes]


def joined(*rows: bytes) -> bytes:
    """Lines, each with its line feed."""
    return b"".join(row + b"\n" for row in rows)


def ran(
    program: Path, *words: Word, given: bytes | None = b"", **how: Any
) -> subprocess.CompletedProcess[bytes]:
    """A run on an input."""
    how = {"stdout": subprocess.PIPE, "stderr": subprocess.PIPE, "timeout": SECONDS, **how}
    return subprocess.run([str(program), *words], input=given, **how)


def asked(program: Path, *words: Word, given: bytes = b"", **how: Any) -> tuple[bytes, int]:
    """What a run on an input writes, and its status."""
    done = ran(program, *words, given=given, **how)
    return done.stdout, done.returncode


def instructions(program: Path, given: bytes, *words: str) -> int:
    """How many instructions the program takes for an input, as Valgrind counts them: the same,
    whatever else the machine does."""
    options = ("--tool=callgrind", "--callgrind-out-file=/dev/null")
    how: dict[str, Any] = {"stdout": subprocess.DEVNULL, "check": True}
    counted = ran(Path("valgrind"), *options, program, *words, given=given, **how)
    return int(re.findall(rb"Collected : (\d+)", counted.stderr)[0])


def example(name: str, program: Path, *words: str) -> subprocess.CompletedProcess[str]:
    """A run of a program of examples/ with this program."""
    how: dict[str, Any] = {"env": {**os.environ, "TGDOC": str(program)}, "text": True}
    command = [str(ROOT / "examples" / name), *words]
    return subprocess.run(command, capture_output=True, timeout=2 * SECONDS, **how)


def limited(what: int, most: int, **how: Any) -> dict[str, Any]:
    """How a program is run that may have so much of a resource, `RLIMIT_..` of the system."""
    return {"preexec_fn": functools.partial(resource.setrlimit, what, (most, most)), **how}


@contextlib.contextmanager
def started(program: Path, *words: Word, seconds: float = SECONDS, **how: Any) -> Iterator[Process]:
    """A program that runs while a test talks to it. It is killed in the end, or when its time is
    over: a read from it then finds no more bytes."""
    how = {"stdin": subprocess.PIPE, "stdout": subprocess.PIPE, **how}
    with Process([str(program), *words], **how) as process:
        limit = threading.Timer(seconds, process.kill)
        limit.start()
        try:
            yield process
        finally:
            limit.cancel()
            process.kill()


def tell(process: Process, some: bytes) -> None:
    """Sends these bytes at once."""
    process.stdin.write(some)
    process.stdin.flush()


def hear(process: Process) -> bytes:
    """The next line that is written."""
    return process.stdout.readline()


def rest_of(process: Process) -> tuple[bytes, int]:
    """Ends the input; what is still written, and the status."""
    process.stdin.close()
    return process.stdout.read(), process.wait(SECONDS)


@contextlib.contextmanager
def unreadable() -> Iterator[int]:
    """An input whose every read fails."""
    folder = os.open("/", os.O_RDONLY)
    try:
        yield folder
    finally:
        os.close(folder)
