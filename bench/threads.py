#!/usr/bin/env python3
"""How fast sessions on threads are: submits a second and the longest submit, with the collector and without, and the settle.

`bench/threads.py PROGRAM` measures another program than crates/tg_load/out/tg_load. Each row of the table is one run.
"""

import json
import subprocess
import sys
from pathlib import Path

ROOT = Path(__file__).resolve().parent.parent
COMMANDS = 400_000
# So many that some cycles over 65,536 slots end meanwhile.
COMMANDS_BESIDE_LONG_CYCLES = 2_000_000
SECONDS = 600

# What a row is called, and the program's words.
ROWS = [
    ("%2d sessions, %s" % (sessions, what), ["--sessions", sessions, "--commands", COMMANDS // sessions, "--slots", 4_096, *words])
    for sessions in (1, 4, 16)
    for what, words in (("collector", []), ("no collector", ["--no-collector"]))
] + [
    ("16 sessions, 65,536 slots in use", ["--sessions", 16, "--commands", COMMANDS_BESIDE_LONG_CYCLES // 16, "--slots", 65_536, "--held", 65_400]),
    (" 1 session, a million commands", ["--sessions", 1, "--commands", 1_000_000, "--slots", 4_096]),
]


def figures(program, words):
    """What the program measured; it stops here if the run did not come out as it should."""
    words = [str(program), *[str(word) for word in words], "--figures"]
    ran = subprocess.run(words, capture_output=True, text=True, timeout=SECONDS)
    if ran.returncode != 0:
        sys.exit("%s: status %d\n%s%s" % (" ".join(words), ran.returncode, ran.stdout, ran.stderr))
    return json.loads(ran.stderr)


def main():
    program = Path(sys.argv[1]) if len(sys.argv) > 1 else ROOT / "crates" / "tg_load" / "out" / "tg_load"
    if not program.exists():
        print("no program: %s" % program)
        return 1
    print("%-34s %9s %9s %10s %9s %8s %8s %7s" % ("", "seconds", "submits/s", "longest us", "entries", "settle s", "freed", "cycles"))
    for name, words in ROWS:
        found = figures(program, words)
        row = (name, found["seconds"], found["submits_a_second"], found["longest_submit_micros"], found["entries"], found["settle_seconds"], found["freed"], found["cycles"])
        print("%-34s %9.3f %9d %10d %9d %8.3f %8d %7d" % row, flush=True)
    return 0


if __name__ == "__main__":
    sys.exit(main())
