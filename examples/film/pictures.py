"""A reader of the pictures that `tgdoc draw` writes: a line of DOT as its vertices, its edges and the rows of its label.

Whatever is not such a line is refused with a ValueError: a statement that comes twice, an edge with an end that is not
drawn, a word too many.
"""

import re
from collections import deque
from dataclasses import dataclass, field

TOKEN = re.compile(r'\s*(?:("(?:[^"\\]|\\.)*")|(->|[{}\[\];=,])|([A-Za-z0-9_.]+))')
ESCAPE = re.compile(r"\\(.)|&amp;", re.DOTALL)


@dataclass
class Vertex:
    """A drawn vertex."""

    serial: int
    name: str
    kind: str
    colour: str
    is_held: bool
    # Rows as "seat 0", "agent 0", "target 0".
    marks: list
    look: dict


@dataclass
class Picture:
    """A drawn vault. `rows` is the label before the row of the phase: of `draw --each` a line and its answer."""

    rows: list
    phase: str
    free_slots: int
    free_cells: int
    seats: dict
    vertices: dict = field(default_factory=dict)
    edges: dict = field(default_factory=dict)


def tokens(text):
    """The words, signs and quoted texts of a line, these as they stand."""
    place, end, found = 0, len(text.rstrip()), []
    while place < end:
        match = TOKEN.match(text, place)
        if not match:
            raise ValueError("no token: %r" % text[place : place + 20])
        found.append(match.group().strip())
        place = match.end()
    return found


def label_rows(quoted):
    """The rows of a quoted label, as they are shown."""
    ends = {"l": "\n", "n": "\n"}
    shown = ESCAPE.sub(lambda match: "&" if match.group(1) is None else ends.get(match.group(1), match.group(1)), quoted[1:-1])
    return shown.removesuffix("\n").split("\n")


class Reader:
    """The tokens that are left."""

    def __init__(self, text):
        self.left = deque(tokens(text))

    def take(self, *wanted):
        """The next token, which has to be one of these if any are given."""
        token = self.left.popleft() if self.left else "the end"
        if wanted and token not in wanted:
            raise ValueError("%s in place of %s" % (token, " or ".join(wanted)))
        return token

    def attributes(self):
        """The attributes between brackets, each once; quoted values stay quoted."""
        found = {}
        self.take("[")
        while True:
            name = self.take()
            self.take("=")
            if name in found:
                raise ValueError("%s comes twice" % name)
            found[name] = self.take()
            if self.take(",", "]") == "]":
                self.take(";")
                return found


def number(word):
    if not word.isdecimal():
        raise ValueError("%s is no number" % word)
    return int(word)


def unquoted(value):
    return value[1:-1] if value.startswith('"') else value


def vertex_of(serial, look):
    """A vertex as its attributes have it."""
    head, colour, *marks = label_rows(look.pop("label"))
    kind, told, *rest = unquoted(look.pop("class")).split(" ")
    first, _, name = head.partition(" ")
    if number(first) != serial or told != colour or rest not in ([], ["condemned"]):
        raise ValueError("vertex %d is told otherwise: %s, %s, %s" % (serial, head, colour, rest))
    return Vertex(serial, name, kind, colour, not rest, marks, {key: unquoted(value) for key, value in look.items()})


STATE = re.compile(r"phase (idle|mark|sweep), free slots (\d+), free cells (\d+)")
SEAT = re.compile(r"seat (\d+): (\d+)")


def begun(rows):
    """A picture with nothing drawn yet, from all rows of its label. A line and its answer may look like these rows, so
    the seats are counted from the end."""
    seats = {}
    while rows and (seat := SEAT.fullmatch(rows[-1])):
        seats[int(seat[1])] = int(seat[2])
        rows = rows[:-1]
    state = STATE.fullmatch(rows[-1]) if rows else None
    if not state:
        raise ValueError("no phase in the label")
    return Picture(rows[:-1], state[1], int(state[2]), int(state[3]), dict(sorted(seats.items())))


def picture(line):
    """The picture that a line draws."""
    reader = Reader(line)
    reader.take("digraph")
    reader.take("{")
    reader.take("graph")
    found = begun(label_rows(reader.attributes()["label"]))
    reader.take("node")
    reader.attributes()
    while (word := reader.take()) != "}":
        start = number(word)
        if reader.left and reader.left[0] == "->":
            reader.take("->")
            end = number(reader.take())
            if (start, end) in found.edges or start not in found.vertices or end not in found.vertices:
                raise ValueError("the edge from %d to %d" % (start, end))
            found.edges[start, end] = unquoted(reader.attributes()["label"])
        elif start in found.vertices or found.edges:
            raise ValueError("vertex %d" % start)
        else:
            found.vertices[start] = vertex_of(start, reader.attributes())
    if reader.left:
        raise ValueError("more than a picture: %s" % reader.left[0])
    return found
