#!/usr/bin/env python3
"""How fast `tgdoc run` is: lines a second and peak memory on generated input, one owner's edges, cycles of the collector; and how
fast `tgdoc audit` is on a long derivation.

`bench/lines.py PROGRAM` measures another program than crates/tgdoc/out/tgdoc. Each run ends within a minute.
"""

import os
import subprocess
import sys
import threading
import time
from pathlib import Path

ROOT = Path(__file__).resolve().parent.parent
OUT = ROOT / "bench" / "out"
LINES = 900_000
STEPS = 100_000
VERTICES = 1_000
RUNS = 3


def opening(slots=2_000, cells=16_384):
    """Two principals who may take from and grant to each other, each on a seat."""
    return [
        '{"cells":%d,"edges":[[1,"tg",2],[2,"tg",1]],"principals":["alice","bob"],"slots":%d}' % (cells, slots),
        '{"name":"alice","op":"hello"}',
        '{"name":"bob","op":"hello","seat":1}',
    ]


def create():
    """Alice makes a document."""
    return ['{"kind":"document","op":"create","rights":"rwg"}', '{"op":"shade"}']


def reads():
    """The same document is read again and again."""
    yield from opening() + create() + ['{"op":"write","over":3,"text":"hello"}']
    for _ in range(LINES):
        yield '{"op":"read","over":3}'


def mixed_turn(turn):
    """Alice reads and writes a document and grants bob to read it; bob reads it, gives the right up and asks again."""
    over = 3 + turn * 7 % (VERTICES - 2)
    return [
        '{"op":"read","over":%d}' % over,
        '{"op":"write","over":%d,"text":"turn %d"}' % (over, turn),
        '{"op":"grant","over":%d,"rights":"r","to":2}' % over,
        '{"op":"shade"}',
        '{"op":"read","over":%d,"seat":1}' % over,
        '{"at":2,"op":"look"}',
        '{"op":"remove","over":%d,"rights":"r","seat":1}' % over,
        '{"op":"read","over":%d,"seat":1}' % over,
        '{"op":"read","over":%d}' % over,
    ]


def mixed():
    """Commands of all kinds over a graph that keeps its size."""
    yield from opening()
    for _ in range(VERTICES - 2):
        yield from create()
    for turn in range(LINES // 9):
        yield from mixed_turn(turn)


def collected():
    """The same with collection: each turn bob also makes a document and drops it, and the collector makes ten steps."""
    yield from opening(slots=4_000)
    for _ in range(VERTICES - 2):
        yield from create()
    for turn in range(LINES // 22):
        yield from mixed_turn(turn)
        yield '{"kind":"document","op":"create","rights":"r","seat":1}'
        yield '{"op":"shade","seat":1}'
        yield '{"op":"remove","over":%d,"rights":"r","seat":1}' % (VERTICES + 1 + turn)
        yield from ['{"op":"collect"}'] * 10


def owner(edges, commands):
    """Alice has this many edges, and reads and writes over each in turn."""
    yield from opening(slots=edges + 2, cells=edges + 2)
    for _ in range(edges):
        yield from create()
    for turn in range(commands // 2):
        over = 3 + turn * 7 % edges
        yield '{"op":"read","over":%d}' % over
        yield '{"op":"write","over":%d,"text":"turn %d"}' % (over, turn)


def derivation():
    """Alice makes documents, reads and writes them, and grants bob to read them; bob reads them and gives the right up. The goal is met."""
    yield '{"edges":[[1,"tg",2],[2,"tg",1]],"principals":["alice","bob"]}'
    yield '{"from":1,"rights":"rwg","to":%d}' % VERTICES
    for _ in range(VERTICES - 2):
        yield '{"actor":1,"kind":"document","op":"create","rights":"rwg"}'
    for step in range(STEPS - (VERTICES - 2)):
        over = 3 + step // 6 * 7 % (VERTICES - 2)
        yield [
            '{"actor":1,"op":"read","over":%d}' % over,
            '{"actor":1,"op":"write","over":%d,"text":"step %d"}' % (over, step),
            '{"actor":1,"op":"grant","over":%d,"rights":"r","to":2}' % over,
            '{"actor":2,"op":"read","over":%d}' % over,
            '{"actor":1,"at":2,"op":"look"}',
            '{"actor":2,"op":"remove","over":%d,"rights":"r"}' % over,
        ][step % 6]


def written(name, rows):
    """The file of these lines."""
    OUT.mkdir(exist_ok=True)
    place = OUT / (name + ".jsonl")
    if not place.exists():
        with open(place, "w") as file:
            for row in rows:
                file.write(row + "\n")
    return place


def measure(program, name, rows, runs=RUNS, word="run"):
    """Runs the program, or another of its commands, on the lines, and prints how long it took and its peak memory."""
    place = written(name, rows)
    with open(place, "rb") as file:
        count = sum(1 for _ in file)
    for _ in range(runs):
        with open(place, "rb") as given, open(os.devnull, "wb") as answers:
            start = time.perf_counter()
            child = subprocess.Popen([str(program), word], stdin=given, stdout=answers)
            _, status, used = os.wait4(child.pid, 0)
            taken = time.perf_counter() - start
        child.returncode = os.waitstatus_to_exitcode(status)
        print(
            "%-13s %7d lines in %6.2f s: %7d lines a second, %3d MB at most, status %d"
            % (name, count, taken, count / taken, used.ru_maxrss // 1024, child.returncode),
            flush=True,
        )


def ask(talk, rows):
    """Sends the lines and returns the last one's answer; the first line of a talk has none."""
    sender = threading.Thread(target=lambda: (talk.stdin.write("".join(row + "\n" for row in rows).encode()), talk.stdin.flush()))
    sender.start()
    answer = b""
    for row in rows:
        if '"principals"' not in row:
            answer = talk.stdout.readline()
    sender.join()
    return answer


def cycle(talk, slots, what):
    """Times one cycle line."""
    start = time.perf_counter()
    answer = ask(talk, ['{"op":"cycle"}'])
    taken = time.perf_counter() - start
    print("cycle over %5d slots, %-13s %8.3f s, answer %s" % (slots, what, taken, answer.decode().strip()), flush=True)


def cycles(program, slots):
    """Alice fills the store with documents; a cycle; she drops every second one; two more cycles, the first of which frees them."""
    with subprocess.Popen([str(program), "run"], stdin=subprocess.PIPE, stdout=subprocess.PIPE) as talk:
        ask(talk, opening(slots, slots) + create() * (slots - 2))
        cycle(talk, slots, "all in use")
        ask(talk, ['{"op":"remove","over":%d,"rights":"rwg"}' % over for over in range(3, slots + 1, 2)])
        cycle(talk, slots, "half dropped")
        cycle(talk, slots, "half in use")
        talk.stdin.close()


def main():
    program = Path(sys.argv[1]) if len(sys.argv) > 1 else ROOT / "crates" / "tgdoc" / "out" / "tgdoc"
    if not program.exists():
        print("no program: %s" % program)
        return 1
    measure(program, "reads", reads())
    measure(program, "mixed", mixed())
    measure(program, "collected", collected())
    for edges in (100, 1_000, 10_000):
        measure(program, "owner-%d" % edges, owner(edges, 100_000), runs=1)
    measure(program, "derivation", derivation(), word="audit")
    for slots in (1_000, 4_096, 16_384, 65_536):
        cycles(program, slots)
    return 0


if __name__ == "__main__":
    sys.exit(main())
