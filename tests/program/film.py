"""The film of examples/film: its pages, as they are kept in docs/films, and in a browser.

Without Graphviz, or without Chromium, a test says that it is skipped, and passes.
"""

import json
import math
import operator
import re
import sys
import tempfile
from collections.abc import Callable, Iterator, Sequence
from html import unescape
from pathlib import Path
from typing import Any

from checking import Tests, named, needing, parametrised, same
from film.frames import Frame, frames_of, told
from running import ROOT, ran

FILM = ROOT / "examples" / "film"
KEPT = ROOT / "docs" / "films"
SECONDS = 120
FACTS = re.compile("<dl.*?</dl>")
CIRCLE = re.compile(
    '<g class="vertex[^"]*"><circle class="body" cx="([-.0-9]+)" cy="([-.0-9]+)"'
    '.*?<text class="name"[^>]*>([0-9]+)'
)
CURVE = re.compile(
    '<g class="edge[^"]*"><path d="([^"]*)"/><polygon points="([-.0-9]+),([-.0-9]+) '
)
SVG = re.compile('<svg [^>]*width="([0-9]+)"(.*?)</svg>')
# Points: a vertex, and the breadth of a film that a page can show, at most so many vertices in a
# row.
RADIUS, BROADEST, MOST = 42, 1_560, 14
# The frames of each story, and those with a denial.
STORIES: dict[str, tuple[int, set[int]]] = {"sharing": (19, {6, 15}), "collector": (28, set())}
# Run in a copy of a page, each reports what it saw: as it steps through the frames by keys and
# buttons; and whether a picture is shown in its full breadth, how large, and, if not, where the
# next one is.
PROBE, BREADTH = (
    (Path(__file__).parent / "probes" / f"{name}.html").read_text() for name in ("film", "breadth")
)
PROBED = (
    "right {0}; left {1}; end {0}; home 1; on 2; back 1; last {0}; first 1; "
    "Pause; Play; larger true; as before true"
)
# The words with which Chromium shows no window, and tells what is said in its console.
HEADLESS = ("--headless", "--no-sandbox", "--disable-gpu", "--enable-logging=stderr")

Lines = Iterator[dict[str, object]]
Point = tuple[float, ...]
Ends = tuple[int, int]
# The places of vertices, and the path and the tip of edges.
Circles = dict[int, Point]
Curves = dict[Ends, tuple[str, Point]]


def page_of(program: Path, lines: str | Lines, *words: str) -> tuple[list[str], str]:
    """The pictures of lines, or those of a story, and the page that is made of them."""
    how: dict[str, Any] = {"timeout": SECONDS, "check": True}
    if isinstance(lines, str):
        given = (FILM / lines).read_bytes()
    else:
        given = b"".join(json.dumps(it).encode() + b"\n" for it in lines)
    drawn = ran(program, "draw", "--each", given=given, **how).stdout
    made = ran(FILM / "film", *words, given=drawn, **how).stdout
    return drawn.decode().removesuffix("\n").split("\n"), made.decode()


def texts_of(page: str, kind: str) -> list[str]:
    return [unescape(words) for words in re.findall(f"<{kind}>(.*?)</", page)]


@parametrised
@needing("Graphviz")
def kept(program: Path, name: str) -> None:
    """The page that is kept shows what the program draws now, and so does the one that is made of
    it."""
    captions = FILM / f"{name}.captions"
    lines, made = page_of(program, f"{name}.jsonl", "--captions", str(captions))
    page, single = ((KEPT / f"{name}.{kind}").read_text() for kind in ("html", "svg"))
    frames = frames_of(lines)
    wanted = [told(frame) for frame in frames]
    same(texts_of(made, "desc"), wanted, "the page that is made")
    same(texts_of(page, "desc"), wanted, "the page that is kept")
    (shown,) = texts_of(single, "desc")
    assert shown in wanted, shown
    same((len(frames), {it.number for it in frames if it.missing}), STORIES[name])
    texts = captions.read_text().splitlines()
    same([texts_of(it, 'p class="caption"') for it in (made, page)], [texts, texts], "captions")
    same(FACTS.findall(page), FACTS.findall(made))


def same_console(said: bytes) -> None:
    rows = said.decode(errors="replace").splitlines()
    same([row for row in rows if ":CONSOLE" in row], [], "the console")


def seen_in_a_browser(page: str, probe: str, *words: str) -> str:
    """What a probe reports of a page."""
    with tempfile.TemporaryDirectory() as folder:
        file = Path(folder) / "page.html"
        file.write_text(page.replace("</body>", f"{probe}</body>"))
        words = (*words, f"--user-data-dir={folder}/data", "--dump-dom", file.as_uri())
        done = ran(Path("chromium"), *HEADLESS, *words, timeout=SECONDS)
    found = re.search('<pre id="seen">(.*?)</pre>', done.stdout.decode())
    report = unescape(found[1]) if found else "no report"
    print(f"  {report}")
    same_console(done.stderr)
    return report


@parametrised
@needing("Chromium")
def in_a_browser(_: Path, name: str) -> None:
    """Each frame is drawn, and the keys and the buttons work."""
    count = STORIES[name][0]
    report = seen_in_a_browser((KEPT / f"{name}.html").read_text(), PROBE)
    same(report, PROBED.format(count, count - 1))


@needing("Graphviz")
def film_of_a_part(program: Path) -> None:
    """Without the collector no colours, targets and steps of it are shown, and what is condemned is
    gone; over one vertex, only what leads to it."""
    words = ("--over", "4", "--plain")
    plain = texts_of(page_of(program, "collector.jsonl", "--plain")[1], "desc")
    over = texts_of(page_of(program, "sharing.jsonl", *words)[1], "desc")
    # of 28 events 3 are shades, 1 is a cycle and 15 are steps
    same(len(plain), 9)
    same(re.findall("grey|black|target|condemned", " ".join(plain)), [])
    assert "4: document" not in plain[-1], plain[-1]
    # document 4 is made by event 10, before a shade, two cycles and six others; bob and document 3
    # lead nowhere near it
    same(len(over), 7)
    for row in over:
        assert "1 has rw over 4." in row and "2 bob" not in row and "3:" not in row, row


NAMES = [chr(97 + number // 26) + chr(97 + number % 26) for number in range(64)]


def company() -> Lines:
    """64 principals and 6 documents: one is above 56 others, and they are above 7, of whom one is
    above the first."""
    members = range(2, 58)
    edges = [(1, "tg", member) for member in members]
    edges += [*((member, "r", 58) for member in members), (58, "t", 1)]
    edges += [(member, "g", 59 + member % 6) for member in members]
    yield {"principals": NAMES, "edges": edges, "slots": 70}
    yield from ({"op": "hello", "name": NAMES[58 + seat], "seat": seat} for seat in range(6))
    for seat in range(6):
        yield {"op": "create", "kind": "document", "rights": "rw", "seat": seat}
        yield {"op": "shade", "seat": seat}
    yield {"op": "read", "over": 70, "seat": 0}
    yield {"op": "cycle"}


def crossed() -> Lines:
    """64 principals with edges in all directions, and 6 documents."""
    starts = range(1, 65)
    pairs = {(it, (factor * it + 7) % 64 + 1) for it in starts for factor in (5, 11, 22)}
    edges = [(start, "rwtg"[start % 4 :], end) for start, end in sorted(pairs) if start != end]
    yield {"principals": NAMES, "edges": edges, "slots": 70}
    for seat in range(6):
        yield {"op": "hello", "name": NAMES[10 * seat], "seat": seat}
        yield {"op": "create", "kind": "document", "rights": "rw", "seat": seat}


def hub() -> Lines:
    """A principal with 60 documents of its own."""
    yield {"principals": ["alice"], "slots": 61}
    yield {"op": "hello", "name": "alice"}
    for _ in range(60):
        yield {"op": "create", "kind": "document", "rights": "rw"}
        yield {"op": "shade"}


def circles(text: str) -> Circles:
    """The centre of each vertex of a drawn frame."""
    return {int(serial): (float(x), float(y)) for x, y, serial in CIRCLE.findall(text)}


def curves(text: str, frame: Frame) -> Curves:
    """The path and the tip of each edge of a drawn frame."""
    missing = [(frame.missing[0], frame.missing[2])] if frame.missing else []
    found = [(path, (float(x), float(y))) for path, x, y in CURVE.findall(text)]
    return dict(zip([*frame.picture.edges, *missing], found, strict=True))


def course(path: str) -> Iterator[Point]:
    """Places all along a path."""
    points = [tuple(map(float, pair.split(","))) for pair in re.findall("[-.0-9]+,[-.0-9]+", path)]
    for first in range(0, len(points) - 1, 3):
        corners = points[first : first + 4]
        for part in (step / 20 for step in range(21)):
            rest = 1 - part
            weights = (rest**3, 3 * part * rest**2, 3 * part**2 * rest, part**3)
            axes = zip(*corners, strict=True)
            yield tuple(sum(map(operator.mul, weights, axis)) for axis in axes)


def faults_of_vertices(places: Circles) -> Iterator[str]:
    """What is wrong with where the vertices of a film stand."""
    rows: dict[float, list[float]] = {}
    for serial, (x, y) in places.items():
        rows.setdefault(y, []).append(x)
        for other, place in places.items():
            if other < serial and math.dist(place, (x, y)) < 2 * RADIUS:
                yield f"{serial} and {other} overlap"
    for y, row in rows.items():
        if len(row) > MOST or max(row) - min(row) > BROADEST - 2 * RADIUS:
            yield f"the row at {y} is too wide: {sorted(row)}"


def faults_of_edges(places: Circles, edges: Curves) -> Iterator[str]:
    """What is wrong with how the edges of a film run: they touch both their vertices, and no vertex
    covers them."""
    for (start, end), (path, tip) in edges.items():
        way = [*course(path), tip]
        ends = ((way[0], start), (tip, end))
        far = [math.dist(place, places[serial]) - RADIUS for place, serial in ends]
        if max(abs(it) for it in far) > 0.5:
            yield f"the edge from {start} to {end} is {far} away from its ends"
        for serial, centre in places.items():
            if min(math.dist(centre, place) for place in way) < RADIUS - 0.5:
                yield f"the edge from {start} to {end} runs below {serial}"


def faults_of_film(frames: Sequence[Frame], page: str) -> Iterator[str]:
    """What is wrong with a wide film: a vertex is not drawn or moves, or is where it should not
    be."""
    texts = SVG.findall(page)
    places: Circles = {}
    edges: Curves = {}
    if len(texts) != len(frames):
        yield f"{len(texts)} pictures of {len(frames)} frames"
    for frame, (width, text) in zip(frames, texts):
        here, drawn = circles(text), curves(text, frame)
        if here.keys() != frame.picture.vertices.keys() or int(width) > BROADEST:
            yield f"frame {frame.number} draws {sorted(here)}, {width} wide"
        # (what is found anew is known then)
        known: list[tuple[dict[Any, Any], dict[Any, Any]]] = [(places, here), (edges, drawn)]
        for them, found in known:
            moved = [key for key, place in found.items() if them.setdefault(key, place) != place]
            yield from (f"{it} moves in frame {frame.number}" for it in moved)
    yield from faults_of_vertices(places)
    yield from faults_of_edges(places, edges)


@parametrised
@needing("Graphviz")
def wide(program: Path, lines: Callable[[], Lines], count: int, *words: str, **how: Any) -> None:
    """A film of so many vertices is no wider than a page, and shows all of them."""
    pictures, page = page_of(program, lines(), *words)
    frames = frames_of(pictures, **how)
    found = set[int]().union(*(frame.picture.vertices for frame in frames))
    print(f"  {len(found)} vertices, {len(frames)} frames")
    same(list(faults_of_film(frames, page)), [])
    same(len(found), count)


@needing("Graphviz")
def film_with_ranks_in_rows(program: Path) -> None:
    """The 60 documents of a hub are one rank: between its rows there is less room than a vertex
    takes, and than above it."""
    page = page_of(program, hub(), "--frame", "121")[1]
    rows = sorted({y for _, y in circles(page).values()})
    first, *others = [below - above - 2 * RADIUS for above, below in zip(rows, rows[1:])]
    print(f"  room above the rows: {first}, {others}")
    same(len(others), 4)
    assert max(others) - min(others) < 0.2 and max(others) < 2 * RADIUS < first, "other rows"


@needing("Graphviz", "Chromium")
def film_of_seventy_in_a_browser(program: Path) -> None:
    """A window of 1,600 pixels shows the whole breadth of a wide film, no smaller than letters may
    get; one of 1,200 too, with the words below; a smaller one shows the part in which the first
    vertex is, and of the next picture the same part as of this one."""
    page = page_of(program, company())[1]
    for breadth, wanted in ((1600, "whole"), (1200, "whole"), (400, "same part")):
        report = seen_in_a_browser(page, BREADTH, f"--window-size={breadth},1000")
        part, _, scale = report.partition(": ")
        same(part, wanted, f"a window of {breadth} pixels")
        assert float(scale) >= 0.7, f"the letters are too small: {scale}"


def no_film_without_graphviz(_: Path) -> None:
    """Without Graphviz the film says so, and writes nothing."""
    done = ran(Path(sys.executable), FILM / "film", env={"PATH": "/nowhere"})
    same((done.returncode, done.stdout), (1, b""))
    assert b"needs Graphviz" in done.stderr, done.stderr


def tests() -> Tests:
    for name in STORIES:
        yield f"film-of-{name}", kept(name)
        yield f"film-of-{name}-in-a-browser", in_a_browser(name)
    yield from named(film_of_a_part)
    yield "film-of-seventy-vertices", wide(company, 70)
    yield "film-of-seventy-in-all-directions", wide(crossed, 70)
    over = ("--plain", "--over", "58")
    yield "film-over-one-of-seventy", wide(company, 58, *over, is_plain=True, over=58)
    yield "film-of-a-hub", wide(hub, 61, "--plain", is_plain=True)
    yield from named(film_with_ranks_in_rows, film_of_seventy_in_a_browser)
    yield from named(no_film_without_graphviz)
