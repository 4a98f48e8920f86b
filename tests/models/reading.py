"""What docs/PROTOCOL.md says of lines, as a program of its own: what a line is read as, or
`Refused` with its answer.

It shares nothing with the program under test.
"""

import json
import math
import re
from collections.abc import Callable, Collection, Iterable
from typing import Any, TypedDict

# The fields of a line: an event of a run, a step or a goal of an audit, or an answer.
Event = dict[str, Any]
Answer = dict[str, Any]


class Config(TypedDict):
    """A configuration; each edge is a list of its start, rights and end."""

    principals: list[str]
    edges: list[list[Any]]
    next: int
    slots: int
    cells: int


LETTERS = "rwtg"
LONGEST_LINE = 16384
LONGEST_TEXT = 4096
MOST_LEVELS = 127
# Ops with their fields: the commands that a step of an audit may be, all commands, all events.
Ops = dict[str, list[str]]
STEPS: Ops = {
    "take": ["rights", "over", "from"],
    "grant": ["rights", "over", "to"],
    "create": ["kind", "rights"],
    "remove": ["rights", "over"],
    "read": ["over"],
    "write": ["over", "text"],
    "look": ["at"],
}
COMMANDS: Ops = {**STEPS, "enrol": ["name", "rights"], "retire": [], "assume": ["agent"]}
COMMANDS["leave"] = []
EVENTS: Ops = {"hello": ["name"], "bye": [], **COMMANDS, "shade": [], "collect": [], "cycle": []}

TEXT = re.compile(r'"(?:[^"\\]|\\.)*"', re.DOTALL)
BRACKET = re.compile(r"[\[\]{}]")
NAME = re.compile("[a-z]{1,32}")
HALF_A_PAIR = re.compile("[\ud800-\udfff]")


class Refused(Exception):
    """A line that is refused, with its answer."""

    def __init__(self, error: str, **more: int):
        super().__init__(error)
        self.answer: Answer = {"error": error, **more}


def line_of(answer: object) -> bytes:
    """The line of an answer, without its line feed."""
    text = json.dumps(answer, ensure_ascii=False, separators=(",", ":"), sort_keys=True)
    return text.encode()


def number(text: str) -> int | float:
    """A whole number from 0 to 2^64-1 without a sign as an int, every other number as a float."""
    if text.isdigit() and len(text) <= 20 and int(text) < 2**64:
        return int(text)
    if math.isinf(float(text)):
        raise Refused("not json")
    return float(text)


def no_constant(_: str) -> None:
    """NaN and the infinities, which Python would read."""
    raise Refused("not json")


def is_broken(value: object) -> bool:
    """Whether a text, or one in a list, has half a surrogate pair, which Python would read."""
    if isinstance(value, list):
        return any(map(is_broken, value))
    return isinstance(value, str) and bool(HALF_A_PAIR.search(value))


def members(pairs: list[tuple[str, Any]]) -> Event:
    """An object; of equal keys the last one counts."""
    if any(is_broken(part) for pair in pairs for part in pair):
        raise Refused("not json")
    return dict(pairs)


def levels(text: str) -> int:
    """How deeply lists and objects are nested."""
    depth = most = 0
    for bracket in BRACKET.findall(TEXT.sub("", text)):
        depth += 1 if bracket in "[{" else -1
        most = max(most, depth)
    return most


DECODER = json.JSONDecoder(
    parse_int=number, parse_float=number, parse_constant=no_constant, object_pairs_hook=members
)


def read_object(line: bytes) -> Event:
    if len(line) > LONGEST_LINE:
        raise Refused("line too long")
    try:
        text = line.decode()
        deep = text.count("[") + text.count("{") > MOST_LEVELS and levels(text) > MOST_LEVELS
        value = None if deep else DECODER.decode(text)
    except ValueError:
        raise Refused("not json") from None
    if deep or is_broken(value):
        raise Refused("not json")
    if not isinstance(value, dict):
        raise Refused("not an object")
    return value


def is_number(value: object) -> bool:
    return type(value) is int


def is_rights(value: object) -> bool:
    if not isinstance(value, str):
        return False
    return len(value) == len(set(value)) and set(value) <= set(LETTERS)


def is_name(value: object) -> bool:
    """Whether a principal may have this name."""
    return isinstance(value, str) and bool(NAME.fullmatch(value))


def is_edge(value: object) -> bool:
    if not isinstance(value, list) or len(value) != 3:
        return False
    return is_number(value[0]) and is_rights(value[1]) and is_number(value[2])


def is_text(value: object) -> bool:
    return isinstance(value, str)


NUMBERS = ["seat", "over", "from", "to", "at", "agent", "actor", "next", "slots", "cells"]
GOOD: dict[str, Callable[[Any], bool]] = {
    **dict.fromkeys(NUMBERS, is_number),
    "op": lambda value: True,
    "rights": is_rights,
    "kind": lambda value: value in ("subject", "document"),
    "text": lambda value: isinstance(value, str) and len(value.encode()) <= LONGEST_TEXT,
    "name": is_text,
    "principals": lambda value: isinstance(value, list) and all(map(is_text, value)),
    "edges": lambda value: isinstance(value, list) and all(map(is_edge, value)),
}


def is_good(op: object, name: str, value: object) -> bool:
    """Whether a field of a line may have this value; `hello` takes any text for a name."""
    return is_name(value) if (op, name) == ("enrol", "name") else GOOD[name](value)


def with_fields(value: Event, required: list[str], optional: Iterable[str] = ()) -> Event:
    """An object whose fields are these, with values that they may have."""
    known, op = [*required, *optional], value.get("op")
    if any(name not in value for name in required):
        raise Refused("missing field")
    if any(name in value and not is_good(op, name, value[name]) for name in known):
        raise Refused("bad field")
    if any(name not in known for name in value):
        raise Refused("unknown field")
    return value


def op_of(value: Event, ops: Collection[str]) -> str:
    """The op of a line, one of these."""
    op = value.get("op")
    if not isinstance(op, str) or op not in ops:
        raise Refused("unknown op")
    return op


def read_event(line: bytes) -> Event:
    value = read_object(line)
    return {"seat": 0, **with_fields(value, ["op", *EVENTS[op_of(value, EVENTS)]], ["seat"])}


def read_step(line: bytes) -> Event:
    value = read_object(line)
    return with_fields(value, ["op", "actor", *STEPS[op_of(value, STEPS)]])


def read_goal(line: bytes) -> Event:
    return with_fields(read_object(line), ["from", "to", "rights"])


def config_fault(config: Config) -> int:
    """The first fault of a configuration, 0 if it has none."""
    names, edges = config["principals"], config["edges"]
    slots, cells = config["slots"], config["cells"]
    pairs = [(edge[0], edge[2]) for edge in edges]
    faults = [
        not 1 <= len(names) <= 64,
        len(set(names)) < len(names) or not all(map(is_name, names)),
        not all(1 <= end <= len(names) for pair in pairs for end in pair),
        any(start == end for start, end in pairs),
        any(edge[1] == "" for edge in edges),
        len(set(pairs)) < len(pairs),
        config["next"] <= len(names),
        slots < len(names),
        cells < len(edges),
        not (1 <= slots <= 65536 and 1 <= cells <= 1048576),
    ]
    return next((fault for fault, is_there in enumerate(faults, 1) if is_there), 0)


def read_config(line: bytes) -> Config:
    """The configuration line, with all its fields."""
    value = with_fields(read_object(line), ["principals"], ["edges", "next", "slots", "cells"])
    config: Config = {
        "principals": value["principals"],
        "edges": value.get("edges", []),
        "next": value.get("next", len(value["principals"]) + 1),
        "slots": value.get("slots", 1024),
        "cells": value.get("cells", 16384),
    }
    fault = config_fault(config)
    if fault:
        raise Refused("config", fault=fault)
    return config
