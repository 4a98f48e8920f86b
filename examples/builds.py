"""The program that the examples run: the proved one, or an unproved build, which is made once and
kept.

The proved program is crates/tgdoc/out/tgdoc, which `make` builds, or the one that TGDOC names.
Without one, `rt try` makes a build with checks in place of proofs, and runs it; it is copied to
bin/unproved while it runs. `make clean` removes it, and it is made anew once a source has changed.
"""

import contextlib
import hashlib
import json
import os
import shutil
import socket
import subprocess
import sys
import tempfile
import time
from pathlib import Path

ROOT = Path(__file__).resolve().parent.parent
PROVED = ROOT / "crates" / "tgdoc" / "out" / "tgdoc"
KEPT = ROOT / "bin" / "unproved" / "tgdoc"
# Where the program runs: in the folder in which the example was started.
FOLDER = None
# How long `rt try` may take.
SECONDS = 600
NO_RT = "There is no proved program at %s, and `rt`, which builds one, is not on the path: it "
NO_RT += "comes with the Rattle kit, whose folder has a first page, START-HERE.md."
UNPROVED = "There is no proved program yet (`make` builds it, in half an hour): an unproved one is "
UNPROVED += "made and kept. Wait a minute .."
FOUND = None


def program():
    """The program's path; an unproved build is made if there is nothing else."""
    global FOUND
    FOUND = FOUND or chosen()
    return FOUND


def chosen():
    named = os.environ.get("TGDOC")
    if named and not shutil.which(named):
        sys.exit(f"TGDOC names {named}, which is no program")
    if named or PROVED.exists():
        return Path(named) if named else PROVED
    sources = sum_of_sources()
    told = KEPT.with_name("sources")
    if not (KEPT.exists() and told.exists() and told.read_text() == sources):
        if not shutil.which("rt"):
            sys.exit(NO_RT % PROVED)
        say(UNPROVED)
        make()
        told.write_text(sources)
    else:
        say("(an unproved build; `make` builds the proved program)")
    return KEPT


def say(text):
    print(text, file=sys.stderr, flush=True)


def crates_below():
    """The crate of the program and those that it is built from, by crates.txt: `NAME: NAME NAME
    ..`."""
    rows = (ROOT / "crates.txt").read_text().splitlines()
    rows = [row.partition(":") for row in rows if row[:1].isalpha()]
    needs = {head.split()[0]: names.split() for head, _, names in rows}
    found, waiting = [], ["tgdoc"]
    while waiting:
        name = waiting.pop()
        if name not in found:
            found.append(name)
            waiting += needs.get(name, [])
    return sorted(found)


def sum_of_sources():
    """A sum of all that the program is built from."""
    files = [ROOT / "crates.txt"]
    for name in crates_below():
        files += sorted((ROOT / "crates" / name / "src").rglob("*.rt"))
    sums = [hashlib.sha256(file.read_bytes()).digest() for file in files]
    return hashlib.sha256(b"".join(sums)).hexdigest()


def free_address():
    """An address that nobody listens on."""
    with socket.create_server(("127.0.0.1", 0)) as one:
        return one.getsockname()


def make():
    """Has `rt try` make the program and run it as a server, and copies it once it listens."""
    KEPT.parent.mkdir(parents=True, exist_ok=True)
    KEPT.unlink(missing_ok=True)
    host, port = address = free_address()
    words = ["rt", "try", "--", "serve", "--listen", f"{host}:{port}"]
    words += ["--workers", "1", "--connections", "1"]
    with contextlib.ExitStack() as stack:
        folder = stack.enter_context(tempfile.TemporaryDirectory(dir=KEPT.parent))
        said = stack.enter_context(open(Path(folder) / "said", "w+b"))
        how = {"stdin": subprocess.PIPE, "stdout": subprocess.DEVNULL, "stderr": said}
        how |= {"env": {**os.environ, "TMPDIR": folder}, "cwd": PROVED.parents[1]}
        with subprocess.Popen(words, **how) as server:
            try:
                with contextlib.suppress(BrokenPipeError), server.stdin as lines:
                    lines.write(json.dumps({"principals": ["alice"]}).encode() + b"\n")
                with listening(server, address):
                    copy_from(Path(folder))
            finally:
                server.terminate()
        if not KEPT.exists():
            said.seek(0)
            sys.exit("`rt try` made no program:\n" + said.read().decode(errors="replace"))


def listening(server, address):
    """A connection to the server, as soon as it listens; none if it ends before."""
    limit = time.monotonic() + SECONDS
    while server.poll() is None and time.monotonic() < limit:
        try:
            return socket.create_connection(address)
        except ConnectionRefusedError:
            time.sleep(0.1)
    return open(os.devnull)


def copy_from(folder):
    """Keeps the program that `rt try` left below this folder."""
    for file in folder.rglob("program"):
        if file.is_file():
            copied = KEPT.with_name("copied")
            shutil.copyfile(file, copied)
            copied.chmod(0o755)
            copied.replace(KEPT)


def words(*arguments):
    """The words that start the program with these arguments."""
    return [str(program()), *arguments]


def answers_in(output):
    """The lines of the program in an output."""
    return [row for row in output.splitlines() if row.startswith("{")]
