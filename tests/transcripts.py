"""Transcripts: lines and their answers, as files that the author of a client can read.

An entry is its name and, below it, what a line begins with two characters for:

    $ words of a command line
    > a line that is sent
    < a line that answers it
    ! the status in the end, if it is not 1 for an error and 0 for none

In a line \\{a*99} is what stands before the star so many times, and \\xff a byte by its number.
Behind two blanks goes on what the line above has. What stands above the first name begins every
entry. A line that begins with `#` is a comment.
"""

import re
import shlex
from dataclasses import dataclass, field
from pathlib import Path

from running import joined

NOT_JSON = b'{"error":"not json"}'

# A line and its answer.
Pair = tuple[bytes, bytes]


@dataclass
class Transcript:
    """Lines, and the answers to the last of them: what opens a run or an audit has none."""

    lines: list[bytes] = field(default_factory=list)
    answers: list[bytes] = field(default_factory=list)
    words: list[str] = field(default_factory=list)
    told: int | None = None

    def __add__(self, other: "Transcript") -> "Transcript":
        """One behind the other, with the words of the first."""
        return Transcript(self.lines + other.lines, self.answers + other.answers, self.words)

    @property
    def given(self) -> bytes:
        """The lines, each with its line feed."""
        return joined(*self.lines)

    @property
    def wanted(self) -> bytes:
        """The answers, each with its line feed."""
        return joined(*self.answers)

    @property
    def status(self) -> int:
        """The status in the end: 1 if an answer is an error, unless another one is told."""
        return int(b'"error"' in self.wanted) if self.told is None else self.told

    @property
    def pairs(self) -> list[Pair]:
        """The lines that are answered, each with its answer."""
        return list(zip(self.lines[self.opening :], self.answers, strict=True))

    @property
    def opening(self) -> int:
        """How many lines open a run or an audit, and have no answer."""
        return len(self.lines) - len(self.answers)

    def answers_to(self, given: bytes) -> list[bytes]:
        """The answers if the lines are cut after these bytes: a cut line is not JSON."""
        rows = given.splitlines()
        if rows[: self.opening] != self.lines[: self.opening]:
            return [NOT_JSON]
        pairs = zip(rows[self.opening :], self.pairs)
        return [answer if row == line else NOT_JSON for row, (line, answer) in pairs]


def bytes_of(text: str) -> bytes:
    """The bytes of a line of a file."""
    whole = re.sub(r"\\\{(.+?)\*(\d+)\}", lambda found: found[1] * int(found[2]), text)
    return re.sub(rb"\\x(..)", lambda found: bytes.fromhex(found[1].decode()), whole.encode())


def transcripts(file: Path) -> dict[str, Transcript]:
    """The entries of a file by their names."""
    found: dict[str, Transcript] = {}
    begin = entry = Transcript()
    for row in file.read_text(encoding="utf-8").replace("\n  ", "").split("\n"):
        mark, text = row[:1], row[2:]
        if mark == ">":
            entry.lines.append(bytes_of(text))
        elif mark == "<":
            entry.answers.append(bytes_of(text))
        elif mark == "$":
            entry.words = shlex.split(text)
        elif mark == "!":
            entry.told = int(text)
        elif mark not in ("", "#"):
            assert row not in found, f"{file}: {row} stands twice"
            found[row] = entry = begin + Transcript()
    return found
