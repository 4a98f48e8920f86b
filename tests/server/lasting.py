"""A server whose one client makes documents and drops each at once, for a while: for tests/soak.

The server has room for few, so what was dropped has to be freed over and over, for as long as the
server lasts, by its collector and by those who make documents. To be full for a moment is no fault;
to stay full is one. That the collector's own thread goes on is shown by
`collector-that-frees-alone`, and by `full-but-for-one` here, in which no create succeeds before it
has freed something.
"""

import contextlib
import time
from collections.abc import Callable
from pathlib import Path

from checking import Tests, parametrised
from models.reading import line_of
from server.servers import served
from tgdoc_client import Client, Full

# More than a minute, so that a collector that gives up after a count of steps or of rests is seen.
SECONDS = 90
SLOTS = 64
CONFIG = line_of({"principals": ["alice"], "slots": SLOTS, "cells": 4 * SLOTS}) + b"\n"

# Seconds between two documents, and seconds for which the server may be full without a break.
PAUSE = 0.001
MOST_FULL = 5.0

# Seconds for which the collector's own thread alone has to free what was dropped: more than 10,000
# of its turns.
ALONE = 30


def makes_and_drops(client: Client, seconds: float) -> tuple[int, float]:
    """Makes and drops documents: how many, and for how long at most none could be made."""
    made, longest, last = 0, 0.0, time.monotonic()
    until = last + seconds
    while time.monotonic() < until:
        try:
            client.remove("rw", client.create("document", "rw"))
            made, last = made + 1, time.monotonic()
        except Full:
            longest = max(longest, time.monotonic() - last)
        time.sleep(PAUSE)
    return made, longest


def makes_one_at_a_time(client: Client, seconds: float) -> tuple[int, float]:
    """In a vault in which all slots but one are kept, drops a document and makes one, over and
    over; returns how many were made, and for how long at most none could be."""
    kept = [client.create("document", "rw") for _ in range(SLOTS - 1)]
    made, longest = 0, 0.0
    until = time.monotonic() + seconds
    while time.monotonic() < until and longest < MOST_FULL:
        client.remove("rw", kept.pop(0))
        began = time.monotonic()
        while len(kept) < SLOTS - 1 and longest < MOST_FULL:
            with contextlib.suppress(Full):
                kept.append(client.create("document", "rw"))
                made += 1
            longest = max(longest, time.monotonic() - began)
    return made, longest


@parametrised
def used(
    program: Path, use: Callable[[Client, float], tuple[int, float]], seconds: float, least: int
) -> None:
    """A server that is used in this way for so long makes more documents than these."""
    with served(program, 1, 1, config=CONFIG, seconds=seconds + 60) as server:
        with server.client() as alice:
            alice.hello("alice")
            made, longest = use(alice, seconds)
            alice.bye()
    print(f"  {made} documents in {SLOTS} slots, none for {longest:.2f} s at most")
    assert made > least, "too few"
    assert longest < MOST_FULL, "full for too long"


def tests(seconds: float = SECONDS) -> Tests:
    yield "server-that-makes-and-drops", used(makes_and_drops, seconds, SLOTS)
    # only the collector's own thread can free the one slot, since no create succeeds before
    yield "full-but-for-one", used(makes_one_at_a_time, ALONE, ALONE)
