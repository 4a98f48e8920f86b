#!/usr/bin/env python3
"""What a client gets who piles edges up under the key that everybody can read (tests/server/piling.py).

`bench/piling.py PROGRAM` takes another program than crates/tgdoc/out/tgdoc. It prints the microseconds a command: `run` has the fixed key,
`serve` one that it draws. Takes a minute.
"""

import sys
from pathlib import Path

ROOT = Path(__file__).resolve().parent.parent
sys.path[:0] = [str(ROOT / "tests"), str(ROOT / "examples")]
sys.dont_write_bytecode = True

from server.piling import BUCKET, Pile, times_of_run, times_of_serve


def main():
    program = Path(sys.argv[1] if len(sys.argv) > 1 else ROOT / "crates" / "tgdoc" / "out" / "tgdoc")
    pile = Pile(cells=1_048_576, vertices=60_000, others=400_000)
    print("%d edges in one bucket of %d" % (len(list(pile.piled(BUCKET))), pile.buckets), flush=True)
    times_of_run(program, pile)
    times_of_serve(program, pile)


main()
