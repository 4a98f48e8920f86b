"""The playground's server: the page's files, and the program's answers about lines that the page
sends.

It keeps no state. It answers only requests to its own loopback address that no other web page
makes, and lines of bounded size, by a few programs at a time.
"""

import functools
import json
import threading
from http.server import BaseHTTPRequestHandler, ThreadingHTTPServer
from pathlib import Path

import questions
from builds import ROOT

HERE = Path(__file__).resolve().parent
TYPES = {".html": "text/html", ".css": "text/css", ".js": "text/javascript"}
FILES = ["page.html", "page.css", "app.js", "derivation.js", "dot.js", "dragging.js", "drawing.js"]
FILES += ["layout.js", "panels.js", "words.js"]
STORIES = {
    "sharing": ("Sharing", "film/sharing", False),
    "group": ("A group", "models/group", False),
    "collector": ("The collector beside a session", "film/collector", True),
}
MOST_LINES, MOST_BYTES, AT_ONCE = 500, 262_144, 4
HEADERS = {
    "Content-Security-Policy": "default-src 'none'; script-src 'self'; style-src 'self'; "
    "connect-src 'self'; img-src data:; base-uri 'none'; form-action 'none'; "
    "frame-ancestors 'none'",
    "X-Content-Type-Options": "nosniff",
    "Referrer-Policy": "no-referrer",
    "Cache-Control": "no-store",
}


class Unasked(Exception):
    """A request that is not answered, with its status."""


def rows_of(asked):
    """The lines of a question."""
    rows = asked.get("lines")
    is_list = isinstance(rows, list) and 1 <= len(rows) <= MOST_LINES
    if not is_list or not all(isinstance(row, str) and "\n" not in row for row in rows):
        raise Unasked(400, f"1 to {MOST_LINES} lines")
    return rows


def serial_of(asked, name):
    if type(asked.get(name)) is not int or asked[name] < 0:
        raise Unasked(400, name + " is a serial")
    return asked[name]


def rights_of(asked):
    rights = asked.get("rights")
    if not isinstance(rights, str) or not rights or set(rights) - set("rwtg"):
        raise Unasked(400, "rights are letters")
    return rights


@functools.lru_cache(64)
def opening_of(row):
    """The picture of a configuration; its `error` line if it is refused."""
    return questions.asked([row], "draw")[0]


def state(asked):
    """The answer to each line behind the first, and the picture after each line."""
    rows = rows_of(asked)
    first = opening_of(rows[0])
    if not first.startswith("digraph"):
        return {"refused": json.loads(first)}
    answers = questions.asked(rows, "run")
    pictures = [row for row in questions.asked(rows, "draw", "--each") if row.startswith("digraph")]
    return {"answers": answers, "pictures": [first, *pictures]}


def share(asked):
    """The steps by which a vertex can come to have rights over another, or why there are none."""
    start, end = serial_of(asked, "from"), serial_of(asked, "to")
    steps, verdict = questions.shared(rows_of(asked), start, rights_of(asked), end)
    return {"steps": steps, "verdict": verdict}


def who(asked):
    """Who has rights, who could come to have them, and who never can."""
    have, could, never = questions.who(rows_of(asked), rights_of(asked), serial_of(asked, "to"))
    return {"have": have, "could": could, "never": never}


def stories():
    """The stories: their names, lines, a sentence on each but the first, and whether the collector
    is shown."""
    return [story(key, *about) for key, about in STORIES.items()]


def story(key, name, file, shows):
    lines, captions = (
        (ROOT / "examples" / f"{file}.{suffix}").read_text().splitlines()
        for suffix in ("jsonl", "captions")
    )
    return {"key": key, "name": name, "lines": lines, "captions": captions, "collector": shows}


class Service(BaseHTTPRequestHandler):
    """One request."""

    files, answers = FILES, {"/state": state, "/share": share, "/who": who}
    programs = threading.BoundedSemaphore(AT_ONCE)
    timeout = 30

    def log_message(self, *_):
        """Nothing is logged."""

    def is_ours(self):
        """Whether the request is to this server by its loopback address, and of a page of its own
        if a page makes it."""
        port = self.server.server_port
        hosts = [f"127.0.0.1:{port}", f"localhost:{port}"]
        origin = self.headers.get("Origin")
        is_own = self.headers.get("Sec-Fetch-Site", "none") in ("none", "same-origin")
        is_own = is_own and (origin is None or origin in [f"http://{host}" for host in hosts])
        return is_own and self.headers.get("Host") in hosts

    def reply(self, status: int, kind: str, body: bytes) -> None:
        self.send_response(status)
        about = {"Content-Type": f"{kind}; charset=utf-8", "Content-Length": str(len(body))}
        for name, value in {**HEADERS, **about}.items():
            self.send_header(name, value)
        self.end_headers()
        self.wfile.write(body)

    def reply_value(self, status, value):
        self.reply(status, "application/json", json.dumps(value).encode())

    def do_GET(self) -> None:
        name = self.path.partition("?")[0].lstrip("/") or "page.html"
        if not self.is_ours():
            self.reply_value(403, {"refused": "not from here"})
        elif name == "stories":
            self.reply_value(200, stories())
        elif name in self.files:
            self.reply(200, TYPES[Path(name).suffix], (HERE / name).read_bytes())
        else:
            self.reply_value(404, {"refused": "no such page"})

    def asked(self):
        """The question that the request brings."""
        if not self.is_ours() or self.headers.get("Content-Type") != "application/json":
            raise Unasked(403, "not from here")
        length = self.headers.get("Content-Length", "")
        if not length.isdecimal() or int(length) > MOST_BYTES:
            raise Unasked(413, f"at most {MOST_BYTES} bytes")
        asked = json.loads(self.rfile.read(int(length)))
        if self.path not in self.answers or not isinstance(asked, dict):
            raise Unasked(404, "no such question")
        return asked

    def do_POST(self):
        try:
            asked = self.asked()
            with self.programs:
                self.reply_value(200, type(self).answers[self.path](asked))
        except Unasked as error:
            self.close_connection = True
            self.reply_value(error.args[0], {"refused": error.args[1]})
        except (ValueError, OSError, RuntimeError) as error:
            self.reply_value(400, {"refused": str(error)})


def opened(service: type[BaseHTTPRequestHandler], port: int) -> ThreadingHTTPServer:
    """A server at this port of the loopback address, or at any free one if it is taken."""
    try:
        return ThreadingHTTPServer(("127.0.0.1", port), service)
    except OSError:
        return ThreadingHTTPServer(("127.0.0.1", 0), service)
