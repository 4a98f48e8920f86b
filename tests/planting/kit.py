"""The toolchain's own Python programs, as far as trying planted bugs needs them.

`rt` has no command for what this folder does, so this module, and no other, loads three private
programs of the kit: rt, its rtlib and rt-plant-bodies. It is written for one kit (WRITTEN_FOR).
Over another it warns; if that one lacks anything that is used here, the run ends with a sentence
that names it.
"""

import operator
import os
import re
import shutil
import sys
import types
from collections.abc import Callable, Mapping
from importlib.machinery import SourceFileLoader
from pathlib import Path
from typing import Any, NoReturn, Protocol

WRITTEN_FOR = "rattle-kit-13f logic dac8208d650f15bf"
# What is used of each program. (What is used of what they make is looked for once one is made.)
USED_OF_RT = "rtlib must_fail read_edit unread processors free REFUSED AT_LIMIT SETTLED"
USED_OF_RTLIB = "KIT RATTLE PARTS KEPT STALE guarded crates_below text_of files_of"
USED_OF_BODIES = "Source Source.read named"


class Block(Protocol):
    """The head of an impl or a trait."""

    is_trait: bool
    trait: list[str]
    ty: list[str]
    generics: list[str]


class Function(Protocol):
    """A function of a crate, with the places of its parts as bytes of its file."""

    file: str
    module: tuple[str, ...]
    block: Block | None
    name: str
    owner: str
    has_body: bool
    in_trait: bool
    in_cycle: bool
    has_ensures: bool
    takes_self: str
    params: list[Any]
    ret: list[str]
    body: list[str]
    first: int
    start: int
    named: tuple[int, int]
    opens: int
    end: int


class Source(Protocol):
    """The functions of a crate, the bytes of its files, and its types with what declares them."""

    functions: list[Function]
    data: dict[str, bytes]
    declared: dict[str, list[Any]]

    def read(self, file: str) -> None:
        ...


class Crate(Protocol):
    """A crate of the repository: what it stands on, the words of a check of it, and its library."""

    name: str
    folder: str
    rlib: str
    is_program: bool

    def below(self) -> list["Crate"]:
        ...

    def words(self, flags: list[str], tests: bool = False, keeps: bool = True) -> list[str]:
        ...

    def build_rlib(self, flags: list[str], anew: bool) -> int:
        ...


# The texts of files by their paths in the crate; None for a file that is taken away.
Texts = dict[str, str | None]


def stop(why: str) -> NoReturn:
    sys.exit(f"planted: {why}: tests/planting/kit.py is written for {WRITTEN_FOR}")


def load(file: str) -> Any:
    """A program of the toolchain as a module, so that its rules are not written again."""
    made = types.ModuleType(os.path.basename(file))
    made.__file__ = file
    try:
        SourceFileLoader(made.__name__, file).exec_module(made)
    except (AttributeError, OSError, SyntaxError) as error:
        stop(f"this kit's {made.__name__} cannot be loaded ({error})")
    return made


def need(whose: str, of: Any, names: str | type) -> None:
    """Ends the run if anything of these names, or of those of a protocol, is missing."""
    if isinstance(names, type):
        members = {**names.__annotations__, **vars(names)}
        names = " ".join(it for it in members if not it.startswith("_"))
    for name in names.split():
        try:
            operator.attrgetter(name)(of)
        except AttributeError:
            stop(f"this kit's {whose} has no {name}")


RT = os.path.realpath(shutil.which("rt") or sys.exit("planted: there is no rt on the path"))
_rt, _bodies = load(RT), load(f"{os.path.dirname(RT)}/rt-plant-bodies")
need("rt", _rt, USED_OF_RT)
need("rt-plant-bodies", _bodies, USED_OF_BODIES)
_rtlib = _rt.rtlib
need("rtlib", _rtlib, USED_OF_RTLIB)

RATTLE: str = _rtlib.RATTLE
# The folders of a crate that a check reads, and the one in which rt keeps what a check proved.
PARTS: tuple[str, ...] = _rtlib.PARTS
KEPT: str = _rtlib.KEPT[1]
# What a check reports if the kept work of a library could not be used.
STALE: re.Pattern[str] = _rtlib.STALE
# The words before a command with which it ends when this program does. (The first call sets a
# signal's handler, which only the main thread may do.)
guard: Callable[[], list[str]] = _rtlib.guarded
text_of: Callable[[str], str] = _rtlib.text_of
# The files that a check of a crate reads, by its folder.
files_of: Callable[[str], list[str]] = _rtlib.files_of
# The last name of the path of a type, that path, and the type's arguments.
named: Callable[[list[str]], tuple[str, str, list[str]]] = _bodies.named
# Whether the line of a report says that one of these texts, or a source, cannot be read.
cannot_be_read: Callable[[str, Mapping[str, str | None]], bool] = _rt.unread
# The texts that an edit of must-fail/ makes of the crate's files, or why it cannot be made.
read_edit: Callable[[str, str], tuple[dict[str, str] | None, str | None]] = _rt.read_edit

_id = Path(_rtlib.KIT, "KIT-ID")
_kit = _id.read_text(encoding="utf-8").strip() if _id.is_file() else "without a KIT-ID"
if _kit != WRITTEN_FOR:
    _said = f"tests/planting/kit.py is written for {WRITTEN_FOR}, and this kit is {_kit}"
    print(f"planted: warning: {_said}", file=sys.stderr)


def crates_below(folder: str) -> list[Crate]:
    """The crates below the folder, the lower ones first."""
    crates: list[Crate] = _rtlib.crates_below(folder)
    for it in crates[:1]:
        need("rtlib.Crate", it, Crate)
    return crates


def source_of(crate: Crate) -> Source:
    source: Source = _bodies.Source(crate.folder)
    source.read("src/main.rt" if crate.is_program else "src/lib.rt")
    need("rt-plant-bodies.Source", source, Source)
    for it in source.functions[:1]:
        need("rt-plant-bodies.Function", it, Function)
    for block in [f.block for f in source.functions if f.block][:1]:
        need("rt-plant-bodies.Block", block, Block)
    return source


def jobs_now() -> int:
    """How many checks processors and memory allow at once."""
    return max(1, min(int(_rt.processors()), int(_rt.free() / 4e9)))


# The toolchain's rule reads a bug from a file of its own form, but for those whose texts are here.
_texts: dict[str, dict[str, str]] = {}
_rt.read_edit = lambda file, folder: (
    (_texts[file], None) if file in _texts else read_edit(file, folder)
)


def tried(
    crate: Crate, name: str, texts: dict[str, str], flags: list[str], kept: str | None
) -> tuple[bool, bool, str]:
    """What the toolchain's own rule says of the crate with these texts: whether it is refused,
    whether that is settled over this kept work, and the words."""
    _texts[name] = texts
    verdict, said = _rt.must_fail(crate, name, flags, kept)
    said = re.sub(r"^must-fail \S+: ", "", said)
    return verdict in (_rt.REFUSED, _rt.AT_LIMIT), verdict in _rt.SETTLED, said
