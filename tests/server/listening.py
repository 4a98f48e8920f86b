"""How a server starts: its command line, configuration and address."""

import functools
import os
import socket
import subprocess
from pathlib import Path

from checking import Test, Tests, named_in, parametrised, same
from faults import faults
from faults.faults import Fault
from program.programs import helped
from running import SECONDS, asked, ran, unreadable
from server.servers import AGREED, ANY_PORT, CONFIG, HELLO, WELCOME, Server, asks, connected
from server.servers import free_port, is_silent, running, served
from tgdoc_client import Client

LISTEN = b'{"error":"listen"}\n'
ONE = ("--connections", "1")


@parametrised
def accepted(
    program: Path, words: str, host: str = "", config: bytes = CONFIG, is_whole: bool = False
) -> None:
    """A command line that is taken: one client is served, perhaps after the end of the input; the
    address that is written has a real port, and this host if one is given."""
    with running(program, *words.split(), config=config) as process:
        if is_whole:
            process.stdin.close()
        server = Server(process)
        server.greet()
        same(server.end(), AGREED)
    found, port = server.address
    same(found, host or found)
    assert 0 < port < 65536, f"port {port}"


def has_loopback_of_ipv6() -> bool:
    """Whether this machine can listen there."""
    try:
        socket.create_server(("::1", 0), family=socket.AF_INET6).close()
    except OSError:
        return False
    return True


def not_served(address: str, config: bytes = CONFIG, answer: bytes = LISTEN) -> Test:
    """A server that does not listen: its one line, and status 1."""
    words = ("serve", "--listen", address, *ONE)
    return lambda program: same(asked(program, *words, given=config), (answer, 1))


def addresses_of_this_machine() -> list[str]:
    """The addresses of this machine that others can reach, if it tells."""
    told = subprocess.run(["hostname", "-I"], capture_output=True, text=True, check=False)
    found = told.stdout.split() if told.returncode == 0 else []
    return [f"[{address}]" if ":" in address else address for address in found]


def address_in_use(program: Path) -> None:
    with socket.create_server(("127.0.0.1", 0)) as other:
        not_served(f"127.0.0.1:{other.getsockname()[1]}")(program)


def server_whose_input_cannot_be_read(program: Path) -> None:
    """A read that fails ends the server with status 1 before it listens, and with no answer."""
    with unreadable() as folder:
        found = ran(program, "serve", *ANY_PORT, *ONE, given=None, stdin=folder)
    same((found.stdout, found.returncode), (b"", 1))


def server_whose_input_is_closed(program: Path) -> None:
    """So does an input that is closed, and standard error says why."""
    words = ("-c", 'exec "$0" "$@" <&-', program, "serve", *ANY_PORT, *ONE)
    found = ran(Path("sh"), *words)
    same((found.stdout, found.returncode), (b"", 1))
    assert b"tgdoc: standard input: Bad file descriptor" in found.stderr, found.stderr


def server_without_random_numbers(program: Path) -> None:
    """A server asks for random numbers once, and goes on without them."""
    words = ["serve", "--listen", "nonsense", *ONE]
    faulty = [Fault("entropy", number, number) for number in (1, 2)]
    ended = [faults.ran(program, words, CONFIG, fault) for fault in faulty]
    same(ended, [(LISTEN, 1, 1), (LISTEN, 1, 0)])


def server_whose_output_cannot_be_written(program: Path) -> None:
    """A server whose own lines are lost serves as others do; its status is 1."""
    address = f"127.0.0.1:{(port := free_port())}"
    with open("/dev/full", "wb") as full:
        with running(program, "--listen", address, *ONE, stdout=full) as process:
            with connected(process, port) as one:
                asks(one, HELLO, WELCOME)
            same(process.wait(SECONDS), 1)


def server_whose_streams_are_closed(program: Path) -> None:
    """No connection takes the number of a stream that is closed, and no client gets the log."""
    address = f"127.0.0.1:{(port := free_port())}"
    words = ("--listen", address, "--workers", "2", "--connections", "2", "--log")
    with running(program, *words, preexec_fn=functools.partial(os.closerange, 1, 3)) as process:
        with connected(process, port) as one:
            with Client("127.0.0.1", port) as other:
                same(other.hello("bob"), 2)
                other.bye()
            assert is_silent(one, 1.0), f"a client gets {one.recv(1_000)!r}"
        same(process.wait(SECONDS), 1)


def most_connections(program: Path) -> None:
    """The greatest number of connections is taken."""
    with served(program, 1, 1_000_000, ends=None) as server:
        server.greet()


# Addresses of other machines and of other parts of this one.
OTHERS = ["0.0.0.0", "[::]", "[::ffff:127.0.0.1]", "192.0.2.1"]


# Command lines that are taken, each for one connection.
TAKEN = {
    "most-workers": "--listen 127.0.0.1:0 --workers 63 --connections 1",
    "most-patience": "--listen 127.0.0.1:0 --connections 1 --patience 86400",
    "most-memory": "--listen 127.0.0.1:0 --connections 1 --memory 1024g",
    "options-in-another-order": "--connections 1 --patience 9 --round 1 --workers 2 "
    "--listen 127.0.0.1:0",
    "options-in-one-word-each": "--workers=3 --patience=9 --round=1 --connections=1 "
    "--listen=127.0.0.1:0",
}


def tests() -> Tests:
    yield from named_in(globals())
    here = "--connections 1 --listen 127.0.0.1:0"
    # the address is there as soon as the configuration line is, though more input may come
    yield "listening-at-once", accepted(here, "127.0.0.1")
    yield "one-line-is-read", accepted(here, config=CONFIG + b'{"op":"cycle"}\nno line at all')
    elsewhere = accepted("--connections 1 --listen 127.0.0.2:0", "127.0.0.2")
    yield "another-address-of-the-loopback", elsewhere
    if has_loopback_of_ipv6():
        yield "loopback-of-ipv6", accepted("--connections 1 --listen [::1]:0", "::1")
        whole = f"--connections 1 --listen [0:0:0:0:0:0:0:1]:{free_port()}"
        yield "loopback-of-ipv6-in-full", accepted(whole, "::1")
    for other in [*OTHERS, *addresses_of_this_machine()]:
        yield f"no-listener-on-{other}", not_served(f"{other}:0")
        yield f"no-listener-on-{other}-at-a-port", not_served(f"{other}:{free_port()}")
    long = not_served("127.0.0.1:0", b" " * 16_385, b'{"error":"line too long"}\n')
    yield "configuration-that-is-too-long", long
    unended = accepted(here, config=CONFIG[:-1], is_whole=True)
    yield "configuration-without-line-feed", unended
    for name, words in TAKEN.items():
        yield name, accepted(words)
    yield "help-names-serve", helped(["run", "audit", "serve"], "--help")
    options = ["--listen", "--workers", "--connections", "--round", "--patience", "--memory"]
    limits = ["1 to 63", "1 to 1000000", "1 to 86400", "1 to 1024g"]
    yield "help-on-serve", helped([*options, *limits], "serve", "--help")
