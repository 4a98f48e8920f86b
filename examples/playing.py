"""What the examples with a server have in common: how it is started and ends, and how its clients
wait and report.

examples/builds.py says which build of `tgdoc` is run.
"""

import json
import subprocess
import threading
import time

from builds import answers_in, words
from tgdoc_client import Client, Denied, Full, address_of

SECONDS = 60


def told(*words):
    """Prints a line at once."""
    print(*words, flush=True)


def same(found, wanted):
    """Raises unless this was found."""
    if found != wanted:
        raise AssertionError(f"wanted {wanted!r}, found {found!r}")


def refusal_of(kind, command, *arguments):
    """The refusal of a command that is to be refused in this way."""
    try:
        command(*arguments)
    except kind as refusal:
        return refusal
    raise AssertionError(f"{command.__name__}{arguments} was carried out")


def denial_of(command, *arguments):
    """The denial of a command that the rules are to deny."""
    return refusal_of(Denied, command, *arguments)


def connected(address):
    """A client of the server."""
    return Client(*address, seconds=SECONDS)


def with_room(command, *arguments):
    """The answer to a command, and how often it was sent again: if no slot is free, until the
    collector has freed one."""
    limit = time.monotonic() + SECONDS
    tries = 0
    while True:
        try:
            return command(*arguments), tries
        except Full:
            if time.monotonic() > limit:
                raise
            tries += 1
            time.sleep(0.001)


def play(config, workers, connections, story):
    """Starts a server over a configuration, tells the story to its address, and returns the
    server's status."""
    numbers = ["--workers", str(workers), "--connections", str(connections)]
    command = words("serve", "--listen", "127.0.0.1:0", *numbers)
    with subprocess.Popen(command, stdin=subprocess.PIPE, stdout=subprocess.PIPE) as server:
        limit = threading.Timer(2 * SECONDS, server.terminate)
        limit.start()
        try:
            server.stdin.write(json.dumps(config).encode() + b"\n")
            server.stdin.close()
            address = address_of(server.stdout.readline())
            told(f"The server listens on {address[0]}, port {address[1]}.")
            story(address)
            settled = json.loads(answers_in(server.stdout.read().decode())[-1])["settled"]
            found = {"agreed": "agree"}.get(settled, "do not agree: " + settled)
            told(f"The server ends: what it answered and its one history {found}.")
            return server.wait()
        finally:
            limit.cancel()
            server.terminate()
