"""Pictures: worked by hand from docs/PROTOCOL.md, read by a parser of their own, and compared with
those of a model.
"""

import resource
import subprocess
from pathlib import Path
from random import Random

from checking import Tests, named, needing, parametrised, same
from faults import faults
from faults.faults import BEFORE_ANY, one_of, tell_refused
from film.pictures import picture as read
from fuzz.differential import answered, opening, printed_if_wrong, sources
from models import picture as model
from models.collector import Course
from models.reading import line_of, read_config
from program.lines import HERE
from program.programs import CONFIG
from running import asked, instructions, joined, ran
from server.servers import CREATE, HELLO, NO_MEMORY, SHADE
from transcripts import Transcript, transcripts

RUNS = 120
LINES = 40_000
MOST_SLOTS = 65_536
COLLECT = b'{"op":"collect"}\n'


@parametrised
def last_of(program: Path, found: Transcript) -> None:
    """Lines after whose last one `draw --each` writes this picture."""
    written, status = asked(program, "draw", "--each", given=found.given)
    rows = written.splitlines(keepends=True)
    same((len(rows), rows[-1], status), (len(found.lines) - 1, found.wanted, 0))


def expected(source: Random) -> tuple[Course, list[bytes], list[bytes], int]:
    """The lines of a random run, a model's picture after each, and how many answers are errors."""
    config = line_of(opening(source))
    course, rows, errors = Course(read_config(config)), [config], 0
    shots: list[bytes] = []
    for row, answer in answered(source, course):
        errors += "error" in answer
        rows.append(row)
        shots.append(model.picture(course, joined(row, line_of(answer))))
    return course, rows, shots, errors


def random_pictures(program: Path) -> None:
    """Random runs: after each line, and at the end, the picture is that of a model."""
    for name, source in sources(RUNS, "picture "):
        course, rows, shots, errors = expected(source)
        given, status = joined(*rows), int(errors > 0)
        last = model.picture(course, b"lines %d, errors %d\n" % (len(rows), errors))
        with printed_if_wrong(name, rows):
            same(asked(program, "draw", "--each", given=given), (b"".join(shots), status))
            same(asked(program, "draw", given=given), (last, status))
            # the last picture is read as what the model has
            found, slots = read(shots[-1].decode()), model.slots_in_use(course.store)
            shown = {it: (vertex.colour, vertex.is_held) for it, vertex in found.vertices.items()}
            same(shown, {it: (slots[it].colour, it in course.store.where) for it in slots})
            edges = [(start, rights, end) for (start, end), rights in found.edges.items()]
            same((edges, found.seats), (model.edges(course), course.graph.seats))


@parametrised
def memory_refused(program: Path, which: str) -> None:
    """Without memory for a picture its line is `out of memory`, and the picture after the next line
    is there. What comes of alice's line without memory is in its picture, and in the next one. Each
    allocation fails in turn: the output is one of these, and that of each kind that has `picture`
    in its name is seen."""
    ends = transcripts(HERE / f"{which}_without_memory.txt")
    run = next(iter(ends.values()))
    known = {(found.wanted, 1): name for name, found in ends.items()}
    known |= {**BEFORE_ANY, (NO_MEMORY, 1): "configuration not read"}
    attempt = faults.runs(program, run.words, run.given)
    counts = faults.memory_refused(attempt, one_of(known))
    tell_refused(counts)
    same([name for name in ends if "picture" in name and not counts[name]], [], "never seen")


@needing("Valgrind")
def last_picture_is_cheap(program: Path) -> None:
    """A run and a picture take at most 1.2 times the instructions of the run's answers."""
    given = CONFIG + HELLO + CREATE + SHADE + b'{"op":"remove","rights":"rw","over":2}\n'
    given += (b'{"op":"look","at":1}\n' + COLLECT) * (LINES // 2)
    run, draw = instructions(program, given, "run"), instructions(program, given, "draw")
    print(f"  {LINES} lines: run {run} instructions, draw {draw}")
    assert draw <= 1.2 * run, "too many"


def seconds(program: Path, given: bytes) -> float:
    """The processor time that a picture takes; neither other programs nor the clock count."""
    before = resource.getrusage(resource.RUSAGE_CHILDREN)
    ran(program, "draw", given=given, stdout=subprocess.DEVNULL, check=True)
    after = resource.getrusage(resource.RUSAGE_CHILDREN)
    return after.ru_utime + after.ru_stime - before.ru_utime - before.ru_stime


def all_slots_are_drawn_at_once(program: Path) -> None:
    """65,536 vertices with an edge to each but one are made and drawn in less than a second."""
    given = b'{"principals":["alice"],"slots":%d,"cells":%d}\n' % (MOST_SLOTS, MOST_SLOTS)
    given += HELLO + (CREATE + SHADE) * (MOST_SLOTS - 1)
    shot, _ = asked(program, "draw", given=given)
    same((shot.count(b",class="), shot.count(b" -> ")), (MOST_SLOTS, MOST_SLOTS - 1))
    took = min(seconds(program, given) for _ in range(3))
    print(f"  {MOST_SLOTS} vertices: {took:.3f} s")
    assert took < 1, "too long"


def tests() -> Tests:
    for name, found in transcripts(HERE / "last_pictures.txt").items():
        yield name, last_of(found)
    yield "memory-refused-to-the-last-picture", memory_refused("last")
    yield "memory-refused-to-each-picture", memory_refused("each")
    yield from named(random_pictures, last_picture_is_cheap, all_slots_are_drawn_at_once)
