"""The playground: what its server answers and refuses, and its page in a browser.

Without Chromium the test of the page says that it is skipped, and passes.
"""

import contextlib
import http.client
import json
import os
import shlex
import signal
import subprocess
import tempfile
import threading
from collections.abc import Iterator
from functools import partial
from pathlib import Path
from typing import Any
from unittest.mock import patch

import builds
from checking import Tests, named, needing, parametrised, same
from playground.service import MOST_BYTES, MOST_LINES, Service, opened
from program.film import HEADLESS, same_console
from running import ROOT, SECONDS, asked, hear, joined, started

GROUP = (ROOT / "examples" / "models" / "group.jsonl").read_text().splitlines()

# Run in the page: it steps, chooses, types and asks, and reports what it saw.
PROBE = Path(__file__).parent / "probes" / "playground.js"
SEEN = """place 1 / 18; caption true; vertices 6; missing no t; home 1 / 18, 4; right 2 / 18
left 17 / 18; play Pause; pause Play; chosen true; dragged true; edge true; who true; steps 1
made true; carol r; typed 20 vertex 7; denied denied: alice has no g over dave; confused true
cycle true; zoe 1; refused true; wide false"""


class Probed(Service):
    """The playground with a probe in its page, which reports to the test."""

    files = [*Service.files, "probe.js"]

    def reply(self, status: int, kind: str, body: bytes) -> None:
        if kind == "text/html":
            probe = b'<script type="module" src="probe.js"></script></head>'
            body = body.replace(b"</head>", probe)
        super().reply(status, kind, body)

    def do_GET(self) -> None:
        if self.path == "/probe.js":
            self.reply(200, "text/javascript", PROBE.read_bytes())
        else:
            super().do_GET()


@contextlib.contextmanager
def served(program: Path, service: type[Service] = Service) -> Iterator[int]:
    """A playground over this program, on a free port."""
    with patch.object(builds, "FOUND", program), opened(service, 0) as server:
        thread = threading.Thread(target=server.serve_forever, daemon=True)
        thread.start()
        try:
            yield server.server_port
        finally:
            server.shutdown()
            thread.join()


def replied(
    port: int, method: str, path: str, headers: dict[str, str], body: bytes | None = None
) -> tuple[int, bytes]:
    line = http.client.HTTPConnection("127.0.0.1", port, timeout=SECONDS)
    with contextlib.closing(line):
        line.request(method, path, body, headers)
        reply = line.getresponse()
        return reply.status, reply.read()


def told(port: int, path: str, question: object, **headers: str) -> tuple[int, Any]:
    body = question if isinstance(question, bytes) else json.dumps(question).encode()
    headers = {"Content-Type": "application/json", **headers}
    status, answer = replied(port, "POST", path, headers, body)
    return status, json.loads(answer)


def fetched(port: int, path: str, **headers: str) -> int:
    return replied(port, "GET", path, headers)[0]


WHO = {"lines": GROUP, "to": 6, "rights": "r"}
# alice and bob have it, and so has the group (5); carol can be granted it; nobody can give dave
# anything
TOLD_WHO = (200, {"have": [1, 2, 5], "could": [3], "never": [4]})


def playground_answers(program: Path) -> None:
    """What the server answers is what the program does about the lines."""
    given = joined(*[row.encode() for row in GROUP])
    ran, drew = asked(program, "run", given=given), asked(program, "draw", "--each", given=given)
    with served(program) as port:
        status, state = told(port, "/state", {"lines": GROUP})
        same(status, 200)
        same(state["answers"], ran[0].decode().splitlines())
        same(state["pictures"][1:], drew[0].decode().splitlines())
        refused = {"refused": {"error": "missing field"}}
        same(told(port, "/state", {"lines": ["{}"]}), (200, refused))
        same(told(port, "/who", WHO), TOLD_WHO)
        for start, verdict in ((4, "never"), (2, None)):
            question: dict[str, Any] = {**WHO, "from": start}
            answer = told(port, "/share", question)
            same(answer, (200, {"steps": [], "verdict": verdict}))


def playground_refuses(program: Path) -> None:
    """Requests that no page of the server's own makes, and questions that are too long or none."""
    fine = {"lines": GROUP[:1]}
    ends: dict[str, Any] = {**fine, "from": 1, "to": 2, "rights": "r"}
    with served(program) as port:
        for status, headers in [
            (200, {"Origin": f"http://127.0.0.1:{port}"}),
            (403, {"Origin": "http://example.org"}),
            (403, {"Origin": "null"}),
            (403, {"Host": f"example.org:{port}"}),
            (403, {"Sec-Fetch-Site": "cross-site"}),
            (403, {"Content-Type": "text/plain"}),
        ]:
            same(told(port, "/state", fine, **headers)[0], status, str(headers))
        for status, path, question in [
            (404, "/nothing", fine),
            (404, "/state", b"[]"),
            (400, "/state", b"{"),
            (400, "/state", {"lines": ["x"] * (MOST_LINES + 1)}),
            (400, "/state", {"lines": ["x\ny"]}),
            (400, "/state", {"lines": []}),
            (413, "/state", {"lines": ["x" * MOST_BYTES]}),
            (400, "/share", {**ends, "rights": "--help"}),
            (400, "/share", {**ends, "from": "--help"}),
        ]:
            same(told(port, path, question)[0], status, str(question)[:100])
        outside = ["/service.py", "/../builds.py", "/playground", "/%2e%2e/builds.py"]
        for status, path in [(200, "/"), (200, "/app.js"), *[(404, path) for path in outside]]:
            same(fetched(port, path), status, path)
        same(fetched(port, "/", Host="example.org"), 403)


# A program that answers for all vertices at once who could come to have rights, and for none alone.
AT_ONCE = """#!/bin/sh
case "$*" in
*--from*) exit 3 ;;
share*) cat > /dev/null; echo '{"could":[[1,"r"],[2,"r"],[3,""],[5,"r"]]}' ;;
*) exec %s "$@" ;;
esac
"""


def playground_asks_at_once(program: Path) -> None:
    """Of a program that can be asked for all vertices at once, that one question is asked."""
    with tempfile.TemporaryDirectory() as folder:
        other = Path(folder) / "tgdoc"
        other.write_text(AT_ONCE % shlex.quote(str(program)))
        other.chmod(0o755)
        with served(other) as port:
            same(told(port, "/who", WHO), TOLD_WHO)


@parametrised
@needing("Chromium")
def in_a_browser(program: Path, size: str) -> None:
    """All that the page offers works in a window of this size, and the console stays empty."""
    report: list[str] = []
    is_told = threading.Event()

    def tell(asked: dict[str, Any]) -> dict[str, Any]:
        report.append("; ".join(asked["seen"]))
        is_told.set()
        return {}

    reporting = {"answers": {**Service.answers, "/seen": tell}}
    probed = type("Reporting", (Probed,), reporting)
    with contextlib.ExitStack() as stack:
        folder = stack.enter_context(tempfile.TemporaryDirectory())
        said = stack.enter_context(open(f"{folder}/said", "w+b"))
        port = stack.enter_context(served(program, probed))
        words = [f"--user-data-dir={folder}/data", f"--window-size={size}"]
        address = f"http://127.0.0.1:{port}/"
        with started(Path("chromium"), *HEADLESS, *words, address, stderr=said):
            is_told.wait(SECONDS)
        said.seek(0)
        print(f"  {report or 'no report'}")
        same_console(said.read())
    same(report, [SEEN.replace("\n", "; ")])


def playground_starts(program: Path) -> None:
    """The command prints the address of its page, which is there; Ctrl-C ends it in silence."""
    command = ROOT / "examples" / "playground" / "playground"
    how: dict[str, Any] = {"env": {**os.environ, "TGDOC": str(program)}, "stderr": subprocess.PIPE}
    # (a test that runs in the background may have been started with Ctrl-C ignored)
    how["preexec_fn"] = partial(signal.signal, signal.SIGINT, signal.SIG_DFL)
    with started(command, "--port", "0", **how) as process:
        address = hear(process).decode()
        same(fetched(int(address.split(":")[2].partition("/")[0]), "/"), 200)
        process.send_signal(signal.SIGINT)
        same(process.communicate(timeout=SECONDS), (b"\n", b""))
        same(process.returncode, 0)


def tests() -> Tests:
    yield from named(playground_starts, playground_answers, playground_asks_at_once)
    yield from named(playground_refuses)
    yield "playground-in-a-browser", in_a_browser("1600,1000")
    yield "playground-in-a-narrow-browser", in_a_browser("500,900")
