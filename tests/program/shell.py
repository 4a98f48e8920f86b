"""The shell of examples/shell: what it prints for typed lines, worked out by hand."""

import contextlib
import json
import os
import pty
import re
import shutil
import signal
import sys
import tempfile
import threading
import time
from pathlib import Path

from checking import Tests, named, parametrised, same
from running import ROOT, SECONDS, hear, ran, rest_of, started, tell
from server.servers import AGREED, ANY_PORT, Server, running

SHELL = ROOT / "examples" / "shell" / "shell"
# What a person types stands behind these, in a README and elsewhere.
PROMPT = re.compile("[a-z]+> (.*)")
ANY_PROMPT = re.compile("[a-z0-9 (),]*> (.*)")


def environment(program: Path) -> dict[str, str]:
    return {**os.environ, "TGDOC": str(program)}


def session(program: Path, typed: list[str], *words: str) -> tuple[str, int]:
    given = "".join(line + "\n" for line in typed).encode()
    found = ran(SHELL, *words, given=given, env=environment(program))
    if found.stderr:
        print(f"  on standard error: {found.stderr.decode()}")
    return found.stdout.decode(), found.returncode


@parametrised
def printed(program: Path, name: str, *words: str, status: int = 0) -> None:
    """A session that prints exactly what its file has; what is typed stands behind its prompts."""
    wanted = (Path(__file__).parent / "sessions" / f"{name}.txt").read_text()
    typed = [match[1] for row in wanted.splitlines() if (match := ANY_PROMPT.match(row))]
    text, ended = session(program, typed, *words)
    # without the last prompt, at which the input ends
    same((re.sub(r"[^\n]*> \n\Z", "", text), ended), (wanted, status))


def shell_keeps_a_run(program: Path) -> None:
    """The lines that the shell keeps are a run: each is answered there as it was on the server,
    though slots were used up and freed between them."""
    with tempfile.TemporaryDirectory() as folder:
        config, kept = Path(folder) / "config", Path(folder) / "lines"
        config.write_text('{"principals":["alice","bob"],"edges":[[1,"g",2]],"slots":4}\n')
        made = range(3, 9)
        typed = [line for it in made for line in ("create document r", f"remove r {it}")]
        text, status = slowly(program, typed, config, kept)
        found = ran(program, "run", given=kept.read_bytes())
    same((status, found.returncode), (0, 0))
    answers = [json.loads(row) for row in found.stdout.splitlines()]
    cycles = sum("steps" in answer for answer in answers)
    print(f"  cycles in the run: {cycles}")
    same(re.findall(r"^Document (\d+)", text, re.MULTILINE), [str(serial) for serial in made])
    serials = [answer["vertex"] for answer in answers if answer.get("ok") == "created"]
    same(serials, list(made))


def slowly(program: Path, typed: list[str], config: Path, kept: Path) -> tuple[str, int]:
    """What the shell prints for lines that are typed one by one, each again while there is no room
    for it: the collector may not have freed a slot yet."""
    environ = environment(program)
    with started(SHELL, "--config", config, env=environ) as process:
        told, limit = hear(process), time.monotonic() + SECONDS
        for line in typed:
            answer = b"There is no room"
            while answer.startswith(b"There is no room"):
                assert time.monotonic() < limit, "there is no room"
                # (its echo comes before one line of an answer)
                tell(process, f"{line}\n".encode())
                told += hear(process)
                answer = hear(process)
                told += answer
                time.sleep(0.05 * answer.startswith(b"There is no room"))
        tell(process, f"lines {kept}\nquit\n".encode())
        text, status = rest_of(process)
    return (told + text).decode(), status


def shell_in_a_terminal(program: Path) -> None:
    """At a terminal there are prompts, completion and history, and Ctrl-D ends the shell."""
    process, terminal = pty.fork()
    if process == 0:
        os.execve(str(SHELL), [str(SHELL)], {**environment(program), "TERM": "dumb"})
    limit = threading.Timer(SECONDS / 2, os.kill, (process, signal.SIGKILL))
    limit.start()
    made = b"Document %d: alice has r over it.\r\nalice> "
    # words completed by Tab; the line before once more, by Ctrl-P; Ctrl-D at last
    seen = until(terminal, b"alice> ")
    for keys, wanted in ((b"cre\tdoc\tr\r", made % 5), (b"\x10\r", made % 6), (b"\x04", None)):
        os.write(terminal, keys)
        seen += until(terminal, wanted)
    _, status = os.waitpid(process, 0)
    limit.cancel()
    os.close(terminal)
    same(os.waitstatus_to_exitcode(status), 0)
    assert made % 6 in seen, f"seen: {seen!r}"


def until(terminal: int, wanted: bytes | None) -> bytes:
    """What a terminal shows until it has shown this, or until it ends."""
    seen = b""
    with contextlib.suppress(OSError):
        while (wanted is None or wanted not in seen) and (piece := os.read(terminal, 4096)):
            seen += piece
    return seen


def shell_of_the_readme(program: Path) -> None:
    """README.md shows what the shell prints, but for its last prompt."""
    rows = (ROOT / "README.md").read_text().splitlines()
    first = rows.index("    $ make play") + 1
    shown = [row[4:] for row in rows[first : rows.index("", first)]]
    typed = [match[1] for row in shown if (match := PROMPT.fullmatch(row))]
    assert len(typed) > 5, "too short"
    text, status = session(program, typed)
    same((text.splitlines()[:-1], status), (shown, 0))


def shell_on_another_server(program: Path) -> None:
    """On a server that is not its own the shell talks, and says what it cannot tell."""
    config = b'{"principals":["alice"]}\n'
    with running(program, *ANY_PORT, "--connections", "1", config=config) as process:
        server = Server(process)
        host, port = server.address
        printed("on-another-server", "--connect", f"{host}:{port}", status=1)(program)
        same(server.end(), AGREED)


def no_program_and_no_rt(_: Path) -> None:
    """Without a program and without `rt` there is one sentence, and no more."""
    with tempfile.TemporaryDirectory() as name:
        folder = Path(name)
        shutil.copytree(ROOT / "examples", folder / "examples")
        shutil.copy(ROOT / "crates.txt", folder)
        for example in ("shell/shell", "demo", "two-clients"):
            command = (Path(sys.executable), folder / "examples" / example)
            found = ran(*command, env={"PATH": "/nowhere"})
            same((found.returncode, found.stdout, found.stderr.count(b"\n")), (1, b"", 1))
            assert b"START-HERE.md" in found.stderr, found.stderr


def tests() -> Tests:
    yield "shell-shares", printed("shares")
    # Bob, whom no t or g joins to alice, can still make a subject, act for it and enrol erin; what
    # he drops is freed.
    yield "shell-names", printed("names")
    yield "shell-is-confused", printed("is-confused", status=1)
    yield "shell-shows-lines", printed("shows-lines", "--raw")
    yield from named(shell_keeps_a_run, shell_in_a_terminal, shell_on_another_server)
    yield from named(shell_of_the_readme, no_program_and_no_rt)
