"""Where everything stands in all frames: Graphviz lays out the union of them. What is wider than a page is put in rows."""

import json
import re
import subprocess
from dataclasses import dataclass

from film.curves import curve_along
from film.letters import letters
from film.routes import routes_of, take_angles, take_lanes
from film.rows import RADIUS, WIDTH, arranged, ranks_of, stacked

PAIR = re.compile(r"(-?[0-9.e+-]+),(-?[0-9.e+-]+)")


@dataclass
class Places:
    """The size of the picture, the centre of each vertex, and the curve of each edge with its tip and its label's place.
    Missing rights have curves of their own. A wide film has its ranks in rows."""

    width: float
    height: float
    vertices: dict
    edges: dict
    missing: dict
    is_wide: bool = False


def labels_of(frames):
    """All edges, each with the longest of its labels, and all missing rights likewise."""
    edges, missing = {}, {}
    for frame in frames:
        for ends, rights in frame.picture.edges.items():
            edges[ends] = max(edges.get(ends, ""), rights, key=len)
        if frame.missing:
            start, rights, end = frame.missing
            missing[start, end] = max(missing.get((start, end), ""), "no " + rights, key=len)
    return dict(sorted(edges.items())), dict(sorted(missing.items()))


def statements(frames, edges, missing):
    """The union of all frames in DOT; missing rights after the others."""
    vertices = sorted({serial for frame in frames for serial in frame.picture.vertices})
    size = 2 * RADIUS / 72
    yield "node [shape=circle,fixedsize=true,width=%.3f,label=\"\"]; edge [fontsize=15]; nodesep=0.45; ranksep=0.6;" % size
    yield from ("%d;" % serial for serial in vertices)
    yield from ('%d -> %d [label=" %s "];' % (*ends, rights) for ends, rights in edges.items())
    yield from ('%d -> %d [label=" %s ",class=missing];' % (*ends, rights) for ends, rights in missing.items())


def curve_of(pos):
    """The start and the control points of a curve, and its tip, from `e,X,Y x,y x,y ..`."""
    points = [(float(x), float(y)) for x, y in PAIR.findall(pos.replace("e,", ""))]
    return points[1:], points[0]


def wrapped(places, edges, missing):
    """The places of a film that Graphviz makes wider than a page: it says in which rank each vertex is, and in which order.
    The ends of an edge are never in the same rank."""
    ranks = [arranged(serials, places.vertices, places.width) for serials in ranks_of(places.vertices)]
    numbers = {serial: number for number, rank in enumerate(ranks) for serial in rank.vertices}
    spans = [sorted((numbers[start], numbers[end])) for start, end in [*edges, *missing]]
    turning = [sum(first == number or last == number + 1 for first, last in spans) for number in range(len(ranks))]
    spots, height = stacked(ranks, turning)
    routes = list(routes_of(edges, missing, spots))
    take_lanes(routes, ranks)
    take_angles(routes)
    curves = [curve_along(route) for route in routes]
    told = [(points, tip, at) for (points, tip), at in zip(curves, letters(routes, curves, spots.values()))]
    vertices = {serial: (spot.x, spot.y) for serial, spot in spots.items()}
    return Places(WIDTH, height, vertices, dict(zip(edges, told)), dict(zip(missing, told[len(edges) :])), True)


def laid_out(frames):
    """The places of all that any frame draws; y grows downwards."""
    labels = labels_of(frames)
    text = "digraph { %s }" % " ".join(statements(frames, *labels))
    ran = subprocess.run(["dot", "-Tjson0"], input=text, capture_output=True, text=True, check=True)
    told = json.loads(ran.stdout)
    _, _, width, height = (float(part) for part in told["bb"].split(","))

    def placed(x, y):
        return round(float(x), 1), round(height - float(y), 1)

    names = {node["_gvid"]: int(node["name"]) for node in told["objects"]}
    vertices = {int(node["name"]): placed(*node["pos"].split(",")) for node in told["objects"]}
    edges, missing = {}, {}
    for edge in told.get("edges", []):
        points, tip = curve_of(edge["pos"])
        curve = ([placed(*point) for point in points], placed(*tip), placed(*edge["lp"].split(",")))
        ends = (names[edge["tail"]], names[edge["head"]])
        (missing if edge.get("class") == "missing" else edges)[ends] = curve
    places = Places(width, height, vertices, edges, missing)
    return wrapped(places, *labels) if places.width > WIDTH else places
