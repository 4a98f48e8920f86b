"""A frame as SVG: circles with rims of the collector's colours, and curves with the letters of the rights."""

from html import escape

from film.frames import mark_told, told
from film.layout import RADIUS

MARGIN = 12

# The colours follow the reader's choice of light or dark.
STYLE = """
.film { --ink: #16191d; --paper: #ffffff; --subject: #a9d2f5; --grey: #8b929a; --line: #3c444d; --bad: #b3261e; --key: #0842a0; }
@media (prefers-color-scheme: dark) {
  .film { --ink: #f1f3f5; --paper: #1b1f24; --subject: #2f5f8f; --grey: #8b929a; --line: #c3cad2; --bad: #ff9b93; --key: #a8c7fa; }
}
.film { font: 13px system-ui, sans-serif; }
.film text { fill: var(--ink); text-anchor: middle; }
.film .body { fill: var(--paper); }
.film .subject .body { fill: var(--subject); }
.film .rim { fill: none; stroke-width: 6; }
.film .white .rim { stroke: #ffffff; }
.film .grey .rim { stroke: var(--grey); }
.film .black .rim { stroke: #000000; }
.film .edge-of-rim { fill: none; stroke: var(--ink); stroke-width: 1.2; }
.film .condemned .edge-of-rim { stroke-dasharray: 6 4; stroke-width: 1.8; }
.film .condemned .rim { stroke: none; }
.film .condemned .inner { stroke: none; }
.film .condemned .word { font-size: 12px; }
.film.plain .rim, .film.plain .inner { stroke: none; }
.film .name { font-weight: 600; font-size: 14px; }
.film .mark { font-size: 11.5px; }
.film .mark.target, .film .mark.agent { font-weight: 700; font-size: 10.5px; fill: var(--key); }
.film .edge path { fill: none; stroke: var(--line); stroke-width: 1.6; }
.film .edge polygon { fill: var(--line); }
.film .edge text { font-size: 15px; font-weight: 600; paint-order: stroke; stroke: var(--paper); stroke-width: 4; }
.film .missing path { stroke: var(--bad); stroke-dasharray: 2 5; stroke-width: 2.4; }
.film .missing polygon { fill: var(--bad); }
.film .missing text { fill: var(--bad); }
"""


def text_svg(name, text, x, y):
    """A row in a circle, smaller if it is long."""
    smaller = ' style="font-size: %.1fpx"' % (14 * 11 / len(text)) if len(text) > 11 else ""
    return '<text class="%s"%s x="%.1f" y="%.1f">%s</text>' % (name, smaller, x, y, escape(text))


def mark_rows(mark):
    """A mark in one row, or in two if it has a seat's number behind it."""
    word = mark.partition(" ")[0]
    rows = [mark] if word == "seat" else [word, mark_told(mark).removeprefix(word + " ")]
    return [("mark " + word, row) for row in rows]


def vertex_svg(vertex, place, is_plain):
    """A vertex: what it is fills the circle, its colour is the rim."""
    x, y = place
    classes = " ".join([vertex.kind, vertex.colour, *([] if vertex.is_held else ["condemned"])])
    head = " ".join(filter(None, [str(vertex.serial), vertex.name]))
    word = vertex.colour if vertex.is_held else "condemned"
    rows = [("name", head), *([] if is_plain else [("word", word)])]
    rows += [row for mark in vertex.marks for row in mark_rows(mark)]
    step = 15 if len(rows) < 4 else 13.5
    first = y - step / 2 * (len(rows) - 1) + 4.5
    texts = "".join(text_svg(name, text, x, first + step * place) for place, (name, text) in enumerate(rows))
    rings = '<circle class="body" cx="{0}" cy="{1}" r="{2}"/><circle class="rim" cx="{0}" cy="{1}" r="{3}"/>'
    rings += '<circle class="edge-of-rim" cx="{0}" cy="{1}" r="{2}"/><circle class="edge-of-rim inner" cx="{0}" cy="{1}" r="{4}"/>'
    return '<g class="vertex %s">%s%s</g>' % (classes, rings.format(x, y, RADIUS, RADIUS - 3.6, RADIUS - 7.2), texts)


def arrow(tip, before):
    """The three corners of an arrow's head."""
    (x, y), (a, b) = tip, before
    length = max(((x - a) ** 2 + (y - b) ** 2) ** 0.5, 0.1)
    across, along = (x - a) / length, (y - b) / length
    corners = [(x, y), (a - 4.5 * along, b + 4.5 * across), (a + 4.5 * along, b - 4.5 * across)]
    return " ".join("%.1f,%.1f" % corner for corner in corners)


def edge_svg(label, curve, more=""):
    """An edge with the letters of its rights."""
    points, tip, (x, y) = curve
    start, rest = points[0], " ".join("%s,%s" % point for point in points[1:])
    path = '<path d="M%s,%s C%s"/><polygon points="%s"/>' % (*start, rest, arrow(tip, points[-1]))
    return '<g class="edge%s">%s<text x="%.1f" y="%.1f">%s</text></g>' % (more, path, x, y + 5, escape(label))


def svg_of(frame, places, is_plain=False, style=""):
    """A frame, with what it shows in words; a plain one without the collector's colours."""
    shot = frame.picture
    edges = [edge_svg(rights, places.edges[ends]) for ends, rights in shot.edges.items()]
    if frame.missing:
        start, rights, end = frame.missing
        edges.append(edge_svg("no " + rights, places.missing[start, end], " missing"))
    vertices = [vertex_svg(vertex, places.vertices[serial], is_plain) for serial, vertex in shot.vertices.items()]
    width, height = places.width + 2 * MARGIN, places.height + 2 * MARGIN
    box = "%d %d %d %d" % (-MARGIN, -MARGIN, round(width), round(height))
    head = '<svg class="film%s" xmlns="http://www.w3.org/2000/svg" role="img" viewBox="%s" width="%d" height="%d">'
    head %= (" plain" if is_plain else "", box, round(width), round(height))
    return "%s%s<title>Frame %d</title><desc>%s</desc>%s%s</svg>" % (head, style, frame.number, escape(told(frame)), "".join(edges), "".join(vertices))


def alone(frame, places, is_plain=False):
    """A frame as a file of its own, which is on paper of its own, whatever page it stands on."""
    return svg_of(frame, places, is_plain, "<style>%s.film { background: var(--paper); }</style>" % STYLE) + "\n"
