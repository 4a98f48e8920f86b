"""Reads planted bugs (tests/README.md says how they are written), without the toolchain."""

import os
import re
import shutil
from pathlib import Path
from typing import NamedTuple

# The lines of an old text, and right below them those of the new one; or any other line.
TOKEN = re.compile(
    r"(?P<old>(?:-(?: .*)?\n)+)(?P<new>(?:\+(?: .*)?\n)+)"
    r"|(?:#.*|in (?P<file>\S+)|(?P<name>[a-z0-9][a-z0-9-]*))?[ \t]*\n"
)
WANTED = "a name or, below one, `in FILE` or lines `- ..` and, right below them, lines `+ ..`"


class Edit(NamedTuple):
    """A text that is in a file of the crate exactly once, and what takes its place."""

    file: str
    old: str
    new: str


class Entry(NamedTuple):
    """A change that is made up: its name, remarks on it, and its edits."""

    name: str
    remarks: list[str]
    edits: list[Edit]


class Misread(ValueError):
    """What is wrong with a file of bugs, and where."""


class Misplaced(ValueError):
    """Why a bug cannot be made in its crate."""


def text_of(rows: str) -> str:
    """The text that these lines have behind their marks."""
    return "\n".join(row[2:] for row in rows[:-1].split("\n"))


def bugs_in(text: str, file: str) -> dict[str, list[Edit]]:
    """The bugs of a text by their names, in its order. Their edits are made in this file of the
    crate, unless they name another."""
    bugs: dict[str, list[Edit]] = {}
    name, place, at, text = "", file, 0, f"{text}\n"
    while at < len(text):
        found, number = TOKEN.match(text, at), text.count("\n", 0, at) + 1
        if not found or not name and (found["old"] or found["file"]):
            raise Misread(f"{number}: here should be {WANTED}")
        if found["name"] in bugs:
            raise Misread(f"{number}: the name {found['name']} stands twice")
        if found["name"]:
            name, place, bugs[found["name"]] = found["name"], file, []
        elif found["old"]:
            bugs[name].append(Edit(place, text_of(found["old"]), text_of(found["new"])))
        place, at = found["file"] or place, found.end()
    for name in [it for it in bugs if not bugs[it]]:
        raise Misread(f"{name} has no old and new text")
    return bugs


def entries_in(file: Path) -> list[Entry]:
    """The entries of a file, a paragraph each: a name of any words, remarks in lines that begin
    with `> `, and edits as of a bug, each `in FILE`."""
    found = []
    for paragraph in file.read_text(encoding="utf-8").strip().split("\n\n"):
        rows = [row for row in paragraph.split("\n") if not row.startswith("#")]
        remarks = [row[2:] for row in rows[1:] if row.startswith("> ")]
        rest = [row for row in rows[1:] if not row.startswith("> ")]
        edits = bugs_in("\n".join(["entry", *rest]), "")["entry"] if rest else []
        if rows:
            found.append(Entry(rows[0], remarks, edits))
    return found


def unpacked(kept: Path, folder: str) -> Path:
    """Copies a made-up repository to a folder. Its files are kept with `.txt` behind their names,
    since `rt ci` refuses sources that stand elsewhere than in a crate."""
    for file in kept.rglob("*.txt"):
        path = Path(folder, file.relative_to(kept)).with_suffix("")
        path.parent.mkdir(parents=True, exist_ok=True)
        shutil.copy(file, path)
    return Path(folder)


def bugs_of(crate: Path) -> dict[str, list[Edit]]:
    """The planted bugs of a crate by their names, in the order of these: the file
    planted/src/rules.rt.bugs has those of src/rules.rt."""
    bugs: dict[str, list[Edit]] = {}
    for file in sorted(it for it in (crate / "planted").rglob("*") if it.is_file()):
        if file.suffix != ".bugs":
            raise Misread(f"{file} is no file of bugs")
        source = file.relative_to(crate / "planted").with_suffix("").as_posix()
        try:
            own = bugs_in(file.read_text(encoding="utf-8"), source)
        except ValueError as error:
            raise Misread(f"{file}:{error}") from None
        for name in own.keys() & bugs.keys():
            raise Misread(f"{file}: the name {name} stands in another file of the crate too")
        bugs.update(own)
    return dict(sorted(bugs.items()))


def edited(edits: list[Edit], crate: Path) -> dict[str, str]:
    """The texts of the crate's files with these edits of a bug."""
    for file in (it.file for it in edits):
        if os.path.normpath(file) != file or not file.startswith(("src/", "specs/", "proofs/")):
            raise Misplaced(f"{file} is no path below src/, specs/ or proofs/")
        if not (crate / file).is_file():
            raise Misplaced(f"there is no file {file}")
    texts = made(edits, crate)
    if all((crate / file).read_text(encoding="utf-8") == it for file, it in texts.items()):
        raise Misplaced("it changes nothing")
    return texts


def made(edits: list[Edit], folder: Path) -> dict[str, str]:
    """The texts of the folder's files with these edits, made one after another. A file that is not
    there has no text."""
    texts: dict[str, str] = {}
    for file, old, new in edits:
        path = folder / file
        if file not in texts:
            texts[file] = path.read_text(encoding="utf-8") if path.is_file() else ""
        count = texts[file].count(old)
        if count != 1:
            raise Misplaced(f"an old text is in {file} {count} times, and not once: {old}")
        texts[file] = texts[file].replace(old, new)
    return texts


def misplaced(root: Path) -> list[str]:
    """What is wrong with the planted bugs of the repository: why one cannot be read or made."""
    found = []
    for crate in sorted(it.parent for it in root.glob("crates/*/planted")):
        try:
            bugs = bugs_of(crate)
        except Misread as error:
            found.append(str(error))
            continue
        for name, edits in bugs.items():
            try:
                edited(edits, crate)
            except Misplaced as error:
                found.append(f"{crate.name}/{name}: {error}")
    return found
