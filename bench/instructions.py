#!/usr/bin/env python3
"""How many instructions `tgdoc run` takes for a line, by kinds of lines, and in which functions, as
valgrind's callgrind counts them.

Each kind is run with so many lines and with twice as many, and the difference is divided by the
number of lines, so that what a run costs at its start and its end does not count.
`bench/instructions.py PROGRAM [KIND..]` measures another program than crates/tgdoc/out/tgdoc; with
`--functions` it also lists the functions that take at least one instruction a line. Takes a minute.
"""

import re
import subprocess
import sys
import tempfile
from collections import Counter
from pathlib import Path

ROOT = Path(__file__).resolve().parent.parent
# From about 2,000 commands on the history is not copied as it grows, but mapped anew.
LINES = 4_000
OPENING = [
    '{"cells":16384,"edges":[[1,"tg",2],[2,"tg",1]],"principals":["alice","bob"],"slots":4096}',
    '{"name":"alice","op":"hello"}',
    '{"name":"bob","op":"hello","seat":1}',
    '{"kind":"document","op":"create","rights":"rwg"}',
    '{"op":"shade"}',
]
TEXT = "x" * 4_096


def same(*lines):
    """A kind in which these lines come again and again, after some that prepare."""
    return lambda count: [lines[turn % len(lines)] for turn in range(count)]


def made(count):
    """So many documents of alice."""
    return ['{"kind":"document","op":"create","rights":"rwg"}', '{"op":"shade"}'] * count


WRITE = '{"op":"write","over":3,"text":"%s"}'
# What comes before, and the lines that count.
KINDS = {
    "read": ([WRITE % "hello"], same('{"op":"read","over":3,"seat":0}')),
    "write": ([], same(WRITE % "hello")),
    "denied read": ([], same('{"op":"read","over":3,"seat":1}')),
    "shade": ([], same('{"op":"shade"}')),
    "grant": ([], same('{"op":"grant","over":3,"rights":"r","to":2}')),
    "remove, denied": ([], same('{"op":"remove","over":999,"rights":"r"}')),
    "collect": ([], same('{"op":"collect"}')),
    "read of 4 KB": ([WRITE % TEXT], same('{"op":"read","over":3}')),
    "write of 4 KB": ([], same(WRITE % TEXT)),
    "write with an escape": ([], same(WRITE % r'a \"b\"')),
    "look at 1,000 edges": (made(999), same('{"at":1,"op":"look"}')),
}


def counted(program, lines):
    """The instructions of a run over the lines, by function."""
    with tempfile.NamedTemporaryFile() as out, tempfile.NamedTemporaryFile("w") as given:
        given.write("".join(line + "\n" for line in lines))
        given.flush()
        words = ["valgrind", "--tool=callgrind", "--callgrind-out-file=" + out.name]
        quiet = {"stdout": subprocess.DEVNULL, "stderr": subprocess.DEVNULL}
        with open(given.name) as source:
            subprocess.run([*words, str(program), "run"], stdin=source, check=False, **quiet)
        words = ["callgrind_annotate", "--threshold=100", "--show-percs=no", out.name]
        told = subprocess.run(words, stdout=subprocess.PIPE, text=True, check=True).stdout
    found = Counter()
    for number, name in re.findall(r"^ *([\d,]+) +\S*?:(.+?)(?: \[.*\])?$", told, re.M):
        found[name] += int(number.replace(",", ""))
    return found


def show(program, kind, functions):
    """Prints what a line of this kind takes."""
    before, lines = KINDS[kind]
    few = 20 if "look" in kind else LINES
    once, twice = (counted(program, OPENING + before + lines(count)) for count in (few, 2 * few))
    took = {name: (twice[name] - once[name]) / few for name in twice}
    print("%-22s %9.0f" % (kind, sum(took.values())), flush=True)
    for name, number in sorted(took.items(), key=lambda one: -one[1]) if functions else []:
        if number >= 1:
            print("    %8.1f %s" % (number, name))


def main():
    words = sys.argv[1:]
    functions = "--functions" in words
    words = [word for word in words if word != "--functions"]
    program = Path(words[0]) if words else ROOT / "crates" / "tgdoc" / "out" / "tgdoc"
    if not program.exists():
        print("no program: %s" % program)
        return 1
    for kind in words[1:] or KINDS:
        show(program, kind, functions)
    return 0


if __name__ == "__main__":
    sys.exit(main())
