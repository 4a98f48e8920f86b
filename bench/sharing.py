#!/usr/bin/env python3
"""Measures how long questions take whether rights can ever be shared, `tgdoc share`, beside `tgdoc run` of the same lines.

usage: bench/sharing.py [VERTICES..]

By default 8,192 and 65,536 vertices. Alice makes them, half of them subjects, with all rights over each, and grants each of them rights over some of
the others, as many as a run of a million lines has room for, at most seven. Nobody has a right over alice, so that it can never be shared, which is
known once the whole graph was searched; all that she has can be shared with everybody. Prints seconds of processor time, the least of three.

Then as many subjects as are searched for a derivation without new vertices, where there is none, so that all that they could come to have is found.
"""

import os
import random
import resource
import subprocess
import sys
from pathlib import Path

ROOT = Path(__file__).resolve().parent.parent
PROGRAM = os.environ.get("TGDOC", ROOT / "crates" / "tgdoc" / "out" / "tgdoc")
MOST_LINES, GRANTS, TRIES, CROWD = 1_000_000, 7, 3, 128
SHADE = '{"op":"shade"}'


def lines(vertices):
    """A configuration, and the events that make a graph."""
    source = random.Random(vertices)
    yield '{"principals":["alice"],"slots":%d,"cells":1048576}' % vertices
    yield '{"op":"hello","name":"alice"}'
    for number in range(2, vertices + 1):
        yield '{"op":"create","kind":"%s","rights":"rwtg"}' % ("subject" if number % 2 else "document")
        yield SHADE
    for _ in range(min((vertices - 1) * GRANTS, (MOST_LINES - 2 * vertices - 2) // 2)):
        start, end = source.sample(range(2, vertices + 1), 2)
        yield '{"op":"grant","rights":"%s","over":%d,"to":%d}' % (source.choice("rwtg"), end, start)
        yield SHADE


def crowd(subjects):
    """A run in which alice, who has take over bob, makes subjects that she can give everything, and a document. Bob can come to read it only by a
    vertex that he makes."""
    yield '{"principals":["alice","bob"],"edges":[[1,"t",2]]}'
    yield '{"op":"hello","name":"alice"}'
    for _ in range(subjects - 2):
        yield '{"op":"create","kind":"subject","rights":"tg"}'
        yield SHADE
    yield '{"op":"create","kind":"document","rights":"r"}'
    yield SHADE


def measured(given, *words):
    """The least processor time of some runs, and the output."""
    best = None
    for _ in range(TRIES):
        before = resource.getrusage(resource.RUSAGE_CHILDREN)
        ran = subprocess.run([str(PROGRAM), *words], input=given, capture_output=True)
        after = resource.getrusage(resource.RUSAGE_CHILDREN)
        took = after.ru_utime + after.ru_stime - before.ru_utime - before.ru_stime
        best = took if best is None else min(best, took)
    return best, ran.stdout


def main():
    for vertices in [int(word) for word in sys.argv[1:]] or [8_192, 65_536]:
        rows = list(lines(vertices))
        given = ("\n".join(rows) + "\n").encode()
        edges = (len(rows) - 2) // 2
        run, _ = measured(given, "run")
        never, answer = measured(given, "share", "--from", "3", "--to", "1", "--rights", "r")
        assert answer == b'{"verdict":"never"}\n', answer
        yes, text = measured(given, "share", "--from", "3", "--to", str(vertices), "--rights", "rwtg")
        audit, verdict = measured(text, "audit")
        assert verdict == b'{"verdict":"shared"}\n', verdict
        print("%d vertices, %d edges: run %.2f, never %.2f, a derivation %.2f, its audit %.2f" % (vertices, edges, run, never, yes, audit), flush=True)
    given = ("\n".join(crowd(CROWD)) + "\n").encode()
    run, _ = measured(given, "run")
    yes, text = measured(given, "share", "--from", "bob", "--to", str(CROWD + 1), "--rights", "r", "--steps")
    assert b'"create"' in text, text
    print("%d subjects: run %.3f, a derivation that needs a new vertex %.3f" % (CROWD, run, yes))


if __name__ == "__main__":
    main()
