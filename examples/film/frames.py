"""The frames of a film: pictures, with the rights that a denial says are missing."""

import json
from dataclasses import dataclass, replace

from film.pictures import Picture, picture

# The lines that are the collector's business alone.
OF_THE_COLLECTOR = ("shade", "collect", "cycle")


@dataclass
class Frame:
    """A frame: its number from 1 on, the picture, the line and its answer, the missing rights, as from, rights, to, what
    is not as in the frame before, and a caption if it has one."""

    number: int
    picture: Picture
    line: str
    answer: str
    missing: tuple
    changes: list
    caption: str = ""


def missing_rights(answer, vertices):
    """The rights that an answer says are missing, if both ends of their edge are drawn."""
    try:
        told = json.loads(answer)
    except ValueError:
        return None
    if not isinstance(told, dict) or "missing" not in told or "to" not in told:
        return None
    ends = (told["from"], told["to"])
    return (ends[0], told["missing"], ends[1]) if all(end in vertices for end in ends) else None


def mark_told(mark):
    """A mark with its seat's number: `target 2` is the target of seat 2, not vertex 2."""
    word, _, seat = mark.partition(" ")
    return mark if word == "seat" else "%s of seat %s" % (word, seat)


def op_of(line):
    """The op of a line, if it has one."""
    try:
        told = json.loads(line)
    except ValueError:
        return None
    return told.get("op") if isinstance(told, dict) else None


def leading_to(shot, end):
    """The picture without the vertices from which no path leads to this one."""
    found, waiting = {end}, [end]
    while waiting:
        target = waiting.pop()
        new = {start for start, over in shot.edges if over == target} - found
        found |= new
        waiting += new
    edges = {ends: rights for ends, rights in shot.edges.items() if found.issuperset(ends)}
    return replace(shot, vertices={serial: vertex for serial, vertex in shot.vertices.items() if serial in found}, edges=edges)


def without_collector(shot):
    """The picture as if there were no collector: what it has condemned is gone, all is white, and nobody has a target."""
    vertices = {
        serial: replace(vertex, colour="white", marks=[mark for mark in vertex.marks if not mark.startswith("target")])
        for serial, vertex in shot.vertices.items()
        if vertex.is_held
    }
    edges = {ends: rights for ends, rights in shot.edges.items() if vertices.keys() >= set(ends)}
    return replace(shot, phase="idle", vertices=vertices, edges=edges)


def vertex_changes(before, now):
    """What has become of the vertices that are drawn in both pictures."""
    for serial in sorted(before.vertices.keys() & now.vertices.keys()):
        old, new = before.vertices[serial], now.vertices[serial]
        if not new.is_held and old.is_held:
            yield "%d is condemned" % serial
        elif new.colour != old.colour:
            yield "%d turns %s" % (serial, new.colour)
        if old.name and not new.name:
            yield "%d has retired" % serial
        for mark in new.marks:
            if mark not in old.marks and mark.startswith(("target", "agent")):
                yield "%d is %s" % (serial, mark_told(mark))
        for mark in old.marks:
            if mark not in new.marks and mark.startswith(("target", "agent")):
                yield "%d is no longer %s" % (serial, mark_told(mark))


def changes(before, now):
    """What is not as in the picture before."""
    found = ["%d comes" % serial for serial in sorted(now.vertices.keys() - before.vertices.keys())]
    found += ["%d is freed" % serial for serial in sorted(before.vertices.keys() - now.vertices.keys())]
    found += vertex_changes(before, now)
    for ends in sorted(now.edges.keys() | before.edges.keys()):
        old, new = before.edges.get(ends, ""), now.edges.get(ends, "")
        gained, lost = ["".join(right for right in a if right not in b) for a, b in ((new, old), (old, new))]
        found += ["%d gains %s over %d" % (ends[0], gained, ends[1])] if gained else []
        found += ["%d loses %s over %d" % (ends[0], lost, ends[1])] if lost else []
    for seat in sorted(before.seats.keys() | now.seats.keys()):
        old, new = before.seats.get(seat), now.seats.get(seat)
        if old != new:
            found.append("seat %d is empty" % seat if new is None else "%d sits on seat %d" % (new, seat))
    if before.phase != now.phase:
        found.append("the collector goes from %s to %s" % (before.phase, now.phase))
    free = now.free_slots, now.free_cells
    if not found and free != (before.free_slots, before.free_cells):
        found.append("free slots %d, free cells %d" % free)
    return found


def frames_of(lines, captions=(), is_plain=False, over=None):
    """The frames of the lines that `draw --each` wrote: all of them, or without the collector, or those in which a vertex
    is, with what leads to it."""
    found = []
    for place, line in enumerate(lines):
        shot = picture(line)
        asked, answer = (shot.rows + ["", ""])[:2]
        if (is_plain and op_of(asked) in OF_THE_COLLECTOR) or (over is not None and over not in shot.vertices):
            continue
        shot = without_collector(shot) if is_plain else shot
        shot = shot if over is None else leading_to(shot, over)
        changed = changes(found[-1].picture, shot) if found else []
        caption = captions[place] if place < len(captions) else ""
        found.append(Frame(len(found) + 1, shot, asked, answer, missing_rights(answer, shot.vertices), changed, caption))
    return found


def told(frame):
    """What a frame shows, in words."""
    shot, rows = frame.picture, []
    rows.append("Phase %s, free slots %d, free cells %d." % (shot.phase, shot.free_slots, shot.free_cells))
    for vertex in shot.vertices.values():
        name = " ".join(filter(None, [str(vertex.serial), vertex.name]))
        about = [vertex.kind, vertex.colour, *([] if vertex.is_held else ["condemned"]), *map(mark_told, vertex.marks)]
        rows.append("%s: %s." % (name, ", ".join(about)))
    rows += ["%d has %s over %d." % (start, rights, end) for (start, end), rights in shot.edges.items()]
    if frame.missing:
        rows.append("%d has no %s over %d." % frame.missing)
    return " ".join(rows)
