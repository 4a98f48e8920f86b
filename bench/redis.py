#!/usr/bin/env python3
"""How many commands a second a server answers, beside Redis: reads of a document of 8 bytes and GETs of 8 bytes, for 1, 4 and 16 clients with
one command outstanding each and with 32.

bench/load.c plays our lines as `redis-benchmark` plays its own. Each setting is measured in turn, ours and Redis, and the medians are
told. Redis has four I/O threads and writes nothing to disk. Without redis-server and redis-benchmark (Debian's package redis) ours alone is
measured. `bench/redis.py PROGRAM` takes another program than crates/tgdoc/out/tgdoc.
"""

import shutil
import socket
import statistics
import subprocess
import sys
import tempfile
import time
from pathlib import Path

ROOT = Path(__file__).resolve().parent.parent
sys.path.insert(0, str(ROOT / "examples"))

from tgdoc_client import address_of

TIMES = 7
# Clients, what each has outstanding, and how many commands are played: under a million a client.
SETTINGS = [(1, 1, 100_000), (4, 1, 400_000), (16, 1, 400_000), (1, 32, 900_000), (4, 32, 2_000_000), (16, 32, 4_000_000)]


def compiled():
    """The clients' program."""
    folder = ROOT / "bench" / "out"
    folder.mkdir(exist_ok=True)
    subprocess.run(["cc", "-O2", "-o", folder / "load", ROOT / "bench" / "load.c"], check=True)
    return folder / "load"


def ours(program, load, clients, outstanding, commands):
    """Commands a second of a server of its own."""
    words = [program, "serve", "--listen", "127.0.0.1:0", "--workers", str(clients), "--connections", str(clients)]
    with subprocess.Popen(words, stdin=subprocess.PIPE, stdout=subprocess.PIPE) as server:
        server.stdin.write(b'{"principals":["alice"],"slots":65536}\n')
        server.stdin.flush()
        port = address_of(server.stdout.readline())[1]
        words = [load, str(port), str(clients), str(outstanding), str(commands)]
        found = float(subprocess.run(words, capture_output=True, check=True).stdout)
        last = server.stdout.read()
        assert last == b'{"settled":"agreed"}\n', last
    return found


class Redis:
    """A Redis on a port of its own, as long as the block runs."""

    def __enter__(self):
        with socket.create_server(("127.0.0.1", 0)) as free:
            self.port = str(free.getsockname()[1])
        self.folder = tempfile.TemporaryDirectory()
        words = ["redis-server", "--port", self.port, "--io-threads", "4", "--save", "", "--appendonly", "no", "--dir", self.folder.name]
        self.server = subprocess.Popen(words, stdout=subprocess.DEVNULL)
        while subprocess.run(["redis-cli", "-p", self.port, "set", "key:__rand_int__", "12345678"], capture_output=True).stdout != b"OK\n":
            time.sleep(0.1)
        return self

    def __exit__(self, *_):
        self.server.terminate()
        self.server.wait()
        self.folder.cleanup()

    def figure(self, clients, outstanding, commands):
        words = ["redis-benchmark", "-p", self.port, "-c", clients, "-P", outstanding, "-n", commands, "-t", "get", "-d", 8, "--csv"]
        ran = subprocess.run([str(word) for word in words], capture_output=True, text=True, check=True)
        row = next(line for line in ran.stdout.splitlines() if line.startswith('"GET"'))
        return float(row.split(",")[1].strip('"'))


def measure(program, load, redis):
    """Prints a row for each setting."""
    print("%7s %12s %12s %12s %7s" % ("clients", "outstanding", "tgdoc", "redis", "ratio"))
    for clients, outstanding, commands in SETTINGS:
        found, theirs = [], []
        for _ in range(TIMES):
            found.append(ours(program, load, clients, outstanding, commands))
            if redis:
                theirs.append(redis.figure(clients, outstanding, commands))
        one, two = statistics.median(found), statistics.median(theirs) if theirs else 0
        ratio = "%.2f" % (one / two) if two else "-"
        print("%7d %12d %12d %12d %7s" % (clients, outstanding, one, two, ratio), flush=True)


def main():
    program = sys.argv[1] if len(sys.argv) > 1 else str(ROOT / "crates" / "tgdoc" / "out" / "tgdoc")
    load = compiled()
    if shutil.which("redis-server") and shutil.which("redis-benchmark"):
        with Redis() as redis:
            measure(program, load, redis)
    else:
        print("redis-server and redis-benchmark are not installed: tgdoc alone")
        measure(program, load, None)
    return 0


if __name__ == "__main__":
    sys.exit(main())
