"""What the program tells about the lines of a run: answers, pictures, and what can ever come
about."""

import json
import subprocess

import builds
from film.pictures import picture

# How long the program may take.
SECONDS = 60


def asked(rows, *words):
    """The lines that the program writes about these; a ValueError if it refuses its command
    line."""
    given = "".join(row + "\n" for row in rows).encode()
    command = [str(builds.program()), *words]
    ran = subprocess.run(command, input=given, capture_output=True, timeout=SECONDS)
    if ran.returncode == 2:
        raise ValueError(ran.stderr.decode(errors="replace").strip())
    # not splitlines, which also cuts at other signs than line feeds
    return ran.stdout.decode().removesuffix("\n").split("\n") if ran.stdout else []


def answers(rows):
    """The answers to the lines behind the first, each as a value."""
    return [json.loads(row) for row in asked(rows, "run")]


def drawn(rows):
    """What stands where after the last line."""
    return picture(asked(rows, "draw")[0])


def shared(rows, start, rights, end):
    """How one vertex can come to have rights over another: steps and None, or no steps and a word
    that says why."""
    question = ["--from", str(start), "--to", str(end), "--rights", rights]
    told = asked(rows, "share", *question, "--steps")
    steps = [json.loads(row) for row in told]
    if steps and "op" not in steps[0]:
        return [], reason_in(steps[0])
    return steps, None


def reason_in(told):
    """The word of an answer that has neither steps nor a list."""
    words = [str(told[key]) for key in ("error", "vertex") if key in told]
    return told.get("verdict") or " ".join(words)


def who(rows, rights, end):
    """Who has rights over a vertex, who else could come to have them, and who never can, of all
    subjects with a slot."""
    shot = drawn(rows)
    subjects = [serial for serial, vertex in shot.vertices.items() if vertex.kind == "subject"]
    subjects = [serial for serial in subjects if serial != end]
    have = [serial for serial in subjects if set(rights) <= set(shot.edges.get((serial, end), ""))]
    others = [serial for serial in subjects if serial not in have]
    found = could(rows, rights, end)
    could_have = [serial for serial in others if serial in found]
    return have, could_have, [serial for serial in others if serial not in found]


def could(rows, rights, end):
    """Which vertices could come to have the rights; a ValueError if that is not known."""
    told = json.loads(asked(rows, "share", "--to", str(end), "--rights", rights)[0])
    if "could" not in told:
        raise ValueError(f"Not known: {reason_in(told)}.")
    return {serial for serial, _ in told["could"]}
