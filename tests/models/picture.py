"""What docs/PROTOCOL.md says of pictures, as a text of its own: the one line that draws a run of
models/collector.py.

It shares nothing with the program under test, nor with the parser that reads what the program
draws.
"""

from collections.abc import Iterator

from models.collector import Course, Slot, Store
from models.graph import Graph

RIMS = {"white": ",penwidth=1", "grey": ",penwidth=4,color=gray50", "black": ",penwidth=4"}
STYLES = {
    ("subject", True): "style=filled,fillcolor=skyblue",
    ("subject", False): 'style="filled,dashed",fillcolor=skyblue',
    ("document", True): "style=solid",
    ("document", False): "style=dashed",
}
ESCAPES = {"\n": "\\l", '"': '\\"', "\\": "\\\\", "&": "&amp;", "\x7f": "\u2421"}
ESCAPES.update({chr(code): chr(0x2400 + code) for code in range(32) if code != 10})


def escaped(label: bytes) -> str:
    """Bytes between quotes; bytes that are not UTF-8 are U+FFFD."""
    return "".join(ESCAPES.get(letter, letter) for letter in label.decode("utf-8", "replace"))


def slots_in_use(store: Store) -> dict[int, Slot]:
    """The slots that are not free, by the serials of their vertices."""
    return {slot.serial: slot for slot in store.slots if slot}


def marks(graph: Graph, serial: int) -> Iterator[str]:
    """For which seats a vertex is the principal, the agent or the target."""
    marked = {"seat": graph.seats, "agent": graph.agents, "target": graph.pending}
    for seat in sorted(graph.seats):
        for word, vertices in marked.items():
            if vertices.get(seat) == serial:
                yield f"{word} {seat}"


def vertex(course: Course, slot: Slot) -> str:
    """The statement of a slot's vertex."""
    graph, serial = course.graph, slot.serial
    kind, is_held = graph.kinds[serial], serial in course.store.where
    names = [name for name, owner in graph.names.items() if owner == serial]
    label = "\\n".join([" ".join([str(serial), *names]), slot.colour, *marks(graph, serial)])
    about = " ".join([kind, slot.colour, *([] if is_held else ["condemned"])])
    look = STYLES[kind, is_held] + RIMS[slot.colour]
    return f' {serial} [label="{label}",class="{about}",{look}];'


def edges(course: Course) -> list[tuple[int, str, int]]:
    """The edges whose ends have slots, by rising pairs of ends, with their rights."""
    slots = slots_in_use(course.store)
    pairs = [(start, end) for start, slot in slots.items() for end in slot.cells if end in slots]
    return [(start, course.graph.label(start, end), end) for start, end in sorted(pairs)]


def picture(course: Course, label: bytes) -> bytes:
    """The picture of a run so far, under a label."""
    store, graph = course.store, course.graph
    room = f"free slots {len(store.free)}, free cells {store.cells}"
    seats = "".join(f"seat {seat}: {graph.seats[seat]}\\l" for seat in sorted(graph.seats))
    title = f"{escaped(label)}phase {store.phase}, {room}\\l{seats}"
    vertices = "".join(vertex(course, slot) for _, slot in sorted(slots_in_use(store).items()))
    arrows = "".join(f' {start} -> {end} [label="{it}"];' for start, it, end in edges(course))
    begin = f'digraph {{ graph [labelloc=t,labeljust=l,label="{title}"];'
    return f"{begin} node [shape=circle,width=1];{vertices}{arrows} }}\n".encode()
