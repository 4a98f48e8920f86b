"""Lines with faults, drawn at random: each form of a line with one or two of them.

Faults are made in the fields (keys renamed, doubled, moved and removed, values of other types,
values at and beyond each limit, escapes) and in the bytes (cut, spoilt, invalid UTF-8, a byte order
mark, lengths about the longest). What is wrong with a line, if anything, is not said here.
"""

from collections.abc import Iterable
from pathlib import Path
from random import Random

from models.reading import EVENTS, LONGEST_LINE, MOST_LEVELS
from transcripts import transcripts

# A key and its value as JSON.
Field = tuple[str, str]
Fields = list[Field]


def names(count: int) -> list[str]:
    """Names of so many principals."""
    return ["a" * (it % 26 + 1) + "b" * (it // 26) for it in range(count)]


def quoted(words: Iterable[str]) -> list[str]:
    """Texts as JSON, if they need no escapes."""
    return [f'"{word}"' for word in words]


FILE = {name: it.lines for name, it in transcripts(Path(__file__).with_name("values.txt")).items()}
BYTES = {name[6:]: lines for name, lines in FILE.items() if name.startswith("bytes-")}
VALUES = {
    name: [line.decode() for line in lines]
    for name, lines in FILE.items()
    if not name.startswith("bytes-")
}
GOOD = {name[5:]: values for name, values in VALUES.items() if name.startswith("good-")}
SERIALS = ["1", "2", "3", "4", "99"]
# The greatest whole number that is nearer to a float than to what is beyond the range is among
# them; the next one is not JSON.
LIMIT = 2**1024 - 2**970
NUMBERS = VALUES["numbers"] + [str(LIMIT - 1)]
NO_NUMBERS = VALUES["no-numbers"] + [str(LIMIT), str(-LIMIT)]
CONTROLS = [bytes([byte]) for byte in range(32) if byte != 10]

# Values at and beyond what a field may have; if a field is not named, those of numbers.
NOBODY, *OTHERS = VALUES["limit-principals"]
MOST = ",".join(quoted(names(64)))
WORDS = ["", *VALUES["words"]]
AT_A_LIMIT = {
    "rights": quoted(VALUES["rights"]),
    **dict.fromkeys(["kind", "op"], quoted(WORDS)),
    "name": quoted([*WORDS, *VALUES["names"]]),
    **{name: VALUES[f"limit-{name}"] for name in ("slots", "cells", "next")},
    "principals": [NOBODY, f"[{MOST}]", f'[{MOST},"z"]', *OTHERS],
    "edges": VALUES["odd-edges"] * 3 + VALUES["bad-edges"],
}
# What may stand in a text.
ODD = [VALUES[name] for name in ("escapes", "whole", "rights", "words")]


def text_of_bytes(source: Random) -> str:
    """A text about the longest, in letters of one to four bytes, some as escapes."""
    kinds = [("a", 1, "\\u0061"), ("é", 2, "\\u00e9"), ("€", 3, "\\u20AC")]
    letter, width, escaped = source.choice([*kinds, ("😀", 4, "\\ud83d\\ude00")])
    size = source.choice([4092, 4095, 4096, 4097, 4100, 8192])
    count, rest = divmod(size, width)
    escapes = source.randint(0, 900)
    return f'"{escaped * escapes}{letter * (count - escapes)}{"b" * rest}"'


def nested(source: Random) -> str:
    """A value that is nested about as deeply as it may be, one level being that of the line."""
    near = range(MOST_LEVELS - 2, MOST_LEVELS + 2)
    depth: int = source.choice([1, 2, *near, 1000, 5000])
    if source.random() < 0.5:
        return "[" * depth + "]" * depth
    return '{"a":' * (depth - 1) + "{}" + "}" * (depth - 1)


def text(source: Random) -> str:
    """A text with something odd in it."""
    kind = source.randrange(5)
    if kind == 0:
        return text_of_bytes(source)
    inside = source.choice(ODD[kind - 1])
    return f'"{inside}"' if source.random() < 0.7 else f'"ab{inside}c"'


def value(source: Random) -> str:
    """Any value, as JSON or nearly so."""
    kind = source.randrange(10)
    if kind == 0:
        return source.choice([*NO_NUMBERS, *VALUES["no-values"]])
    if kind == 1:
        return nested(source)
    others = NUMBERS if kind < 8 else VALUES["other-values"]
    return text(source) if kind < 5 else source.choice(others)


def rewritten(source: Random, word: str) -> str:
    """The text of a key or value, some of its letters as escapes, which means the same."""
    codes = [source.choice([f"\\u{ord(it):04x}", f"\\u{ord(it):04X}"]) for it in word]
    return "".join(source.choice(pair) for pair in zip(word, codes))


def at_a_limit(source: Random, key: str) -> str:
    """A value at or beyond a limit of a field."""
    if key == "text":
        return text_of_bytes(source)
    return source.choice(AT_A_LIMIT.get(key, source.choice([NUMBERS] * 4 + [NO_NUMBERS])))


def faulty_fields(source: Random, key: str, given: str) -> Fields:
    """What stands in place of a field that is at fault: nothing, or two, or one with another key or
    value, or with escapes for some of its letters."""
    other = source.choice(VALUES["keys"])
    kind = source.randrange(12)
    if kind < 3:
        return [(key, at_a_limit(source, key))]
    if kind == 3 and given[:1] == '"' and "\\" not in given:
        given = rewritten(source, given[1:-1]).join('""')
    forms: list[Fields] = [
        [(key, given)],
        [(rewritten(source, key), given)],
        [(source.choice([other, key.upper(), key + "s", key[1:]]), given)],
        [(key, given), (key, source.choice([given, value(source)]))],
        [],
        [(key, value(source))],
        [(key, source.choice(VALUES["around"]) % given)],
        [(other, f'{{"{key}":{given}}}')],
        [(key, given), (other, value(source))],
    ]
    return forms[kind - 3]


def faulty_bytes(source: Random, line: bytes) -> bytes:
    """A line that is at fault in its bytes: cut, or with some put in, or in place of others; with
    something before it, behind it or around it; with white space at its marks, or with marks in
    another form; or with one bit turned."""
    kind, at = source.randrange(11), source.randrange(len(line) + 1)
    if kind < 3:
        anything = [bytes([source.choice([*range(10), *range(11, 256)])])]
        whole = [word.encode() for word in VALUES["whole"]]
        odd = source.choice(source.choice([BYTES["broken"], CONTROLS, whole, anything]))
        return line[:at] + odd + line[at + source.randint(0, 2) :]
    if kind < 5:
        turned = bytes([byte ^ 1 << source.randrange(8) for byte in line[at : at + 1]])
        return line[:at] + turned + line[at + 1 :]
    mark, space = source.choice([b",", b":", b"{", b"}"]), source.choice(BYTES["spaces"])
    old, _, new = source.choice(BYTES["misspelt"]).partition(b" ")
    forms = [
        line[:at],
        source.choice(BYTES["begins"]) + line,
        line + source.choice([*BYTES["ends"], line]),
        line.replace(mark, source.choice([mark + space, space + mark])),
        source.choice(BYTES["around"]) % line,
        line.replace(old, new, source.randint(1, 3)),
    ]
    return forms[kind - 5]


def lengthened(source: Random, line: bytes) -> bytes:
    """White space up to the longest line, or a byte more, which ends a run."""
    size = source.choice([LONGEST_LINE - 1] * 4 + [LONGEST_LINE] * 4 + [LONGEST_LINE + 1])
    return line.ljust(size) if source.random() < 0.5 else line.rjust(size, b"\t")


def fields_of(source: Random, form: str) -> Fields:
    """The fields of a form, each with its value as JSON, in any order. The values are good, but for
    some of a configuration, whose faults are many."""
    known = {"config": ["principals"], "goal": ["from", "to", "rights"]}.get(form) or EVENTS[form]
    others = ["seat"] if form in EVENTS else []
    others = ["edges", "slots", "cells", "next"] if form == "config" else others
    keys = [*known, *[name for name in others if source.random() < 0.5]]
    is_config = form == "config"
    values = [AT_A_LIMIT if is_config and source.random() < 0.3 else GOOD for _ in keys]
    fields = [(it, source.choice(given.get(it, SERIALS))) for it, given in zip(keys, values)]
    fields += [("op", f'"{form}"')] if form in EVENTS else []
    source.shuffle(fields)
    return fields


def object_of(fields: Iterable[Field]) -> bytes:
    """The line of these fields."""
    inside = ",".join(f'"{key}":{given}' for key, given in fields)
    return f"{{{inside}}}".encode()


def with_faults(source: Random, fields: Fields) -> bytes:
    """A line with one or two faults; perhaps with none that matters."""
    counts = [(1, 0), (1, 0), (2, 0), (2, 0), (2, 0), (0, 1), (0, 2), (1, 1)]
    in_fields, in_bytes = source.choice(counts)
    for _ in range(in_fields):
        # The fields besides the op are the more often at fault, since an unknown op hides what is
        # wrong with them.
        places = [it for it in fields if it[0] != "op" or source.random() < 0.2]
        if places:
            at = fields.index(source.choice(places))
            fields[at : at + 1] = faulty_fields(source, *fields[at])
            source.shuffle(fields)
    line = object_of(fields)
    for _ in range(in_bytes):
        line = faulty_bytes(source, line)
    if source.random() < 0.02:
        line = lengthened(source, line)
    return line.replace(b"\n", b"\r")
