"""A look at the sources: no body reports without cause that memory ran out.

A body may always report that memory ran out, so no contract refuses one that makes it up. Here each
place at which such a fault is made is found, and has to be exactly where the refusal of a call is
handed on: in the arm `Err(_) =>` of a match on the call, in the block of a `let Ok(..) = .. else`
or of an `if .. .is_err()`, in a `map_err`, or in the arm of another such fault. And it has to be in
the list wants.txt, by its file and function, by the call or the fault that is handed on, and by the
fault that is made of it. What `?` hands on is made nowhere. Modules of tests are left out.

Nor does a contract say how much room a body asks for, of which there may be too little or none. So
each size that a list is made with, or that room is taken for, is in another list, sizes.txt, and a
call that asks for what nobody has is seen there.

The sources are read as text, laid out as `rt fmt` does it.
"""

import re
from collections import Counter
from collections.abc import Iterator
from pathlib import Path
from typing import Any

from checking import Tests, named_in, same
from transcripts import transcripts

# A place at which it is reported that memory ran out: file, function, what is handed on, and what
# is made of it.
Place = tuple[str, str, str | None, str]
# A size: file, function, call, and what it is given but for the allocator.
Size = tuple[str, str, str, str]

# What says that memory ran out, if it is a value and not a type.
WANT = re.compile(
    r"\b(?:\w+::(?:OutOfMemory|NoMemory|NoRoom)|Said::Nothing)\b" r"|(?<!: )\bAllocError\b(?!>)"
)
NONE = re.compile(r"\bNone\b")

# Functions, and the results of two, whose `None` says so too.
SAY_IT_BY_NONE = {"work", "serve_in_threads", "opened", "run_one", "ran"}

# A flag that says so, and each line that names it.
FLAG = "is_short"
FLAG_LINES = [
    "let mut is_short = scope.spawn(move || collect_until(round, over)).is_err();",
    "if is_short {",
    "is_short = match scope.spawn(move || work(round, seat)) {",
    "if is_short {",
    "Some(mut ended) => is_short = is_short || all.append(&mut ended).is_err(),",
    "None => is_short = true,",
    "if is_short { None } else { Some(all) }",
]

# A call that takes a size, and a list of so many equal elements.
SIZED = re.compile(
    r"((?:\w+::|[\w.]+\.)(?:with_capacity|with_capacity_in|reserve|try_reserve|reserve_exact"
    r"|try_reserve_exact|resize))\(|(vec!)\[in [^;]*;[^;\]]*;"
)

FUNCTION = re.compile(r"\bfn (\w+)")
CONVERSION = re.compile(r"fn from\(_\w*: (Alloc\w+)")
# What follows a pattern: the rest of it, and the arrow of its arm, another pattern, or the value
# that it is matched with.
BEHIND_A_PATTERN = re.compile(r"(?:\s*(?:\{[^{}]*\}|\([^()]*\)))?\)*\s*(?:=>|\||=[^=])")
PATTERN = re.compile(r"[\w:]+(?:\([^()]*\)|\s\{[^{}]*\})?$")
# The name before the fields of a value.
NAME = re.compile(r"(?:^|[\s(>])(?:\w+::)*[A-Z]\w*$")


def code_of(text: str) -> str:
    """The code without comments, texts, characters and imports."""
    bare = re.sub(r'//[^\n]*|b?"(?:[^"\\]|\\.)*"|b?\'(?:[^\'\\]|\\.)\'', "", text, flags=re.DOTALL)
    return re.sub(r"^\s*(?:pub |ghost )*use [^;]*;", "", bare, flags=re.MULTILINE)


def openings(code: str, start: int, at: int) -> Iterator[int]:
    """What a place is in, from the inside: the places of open brackets, and of the arrows of arms
    at the same depth, back to the start."""
    depth = 0
    for place in range(at - 1, start - 1, -1):
        if code[place] in ")]}":
            depth += 1
        elif depth == 0 and (code[place] in "([{" or code.startswith("=>", place)):
            yield place
        elif code[place] in "([{":
            depth -= 1


def called(text: str) -> str | None:
    """The path of the one call or value that a text is; None for any other text."""
    flat = re.sub(r"\s*\n\s*", "", text.strip())
    path = flat[: next(openings(flat, 0, len(flat) - 1), 0)] if flat.endswith(")") else flat
    return path if re.fullmatch(r"(?:[\w.:]|\(\))+", path) else None


def by_none(call: str | None) -> str | None:
    """The call, if it reports by `None` that memory ran out."""
    return call if call in SAY_IT_BY_NONE else None


def head_of(before: str) -> str:
    """The last statement before a block, as far as it goes."""
    return re.split(r"[;{}]", before)[-1].strip()


def handed_on_in_block(head: str) -> str | None:
    """The call whose refusal the block after this is about; None for any other block."""
    if head in (f"if {FLAG}", "if e.is_memory()"):
        return head.removeprefix("if ").removesuffix("()")
    found = re.search(r"let (Ok|Some)\(.*\) = (.*) else$|if (.*)\.is_err\(\)$", head, re.DOTALL)
    if not found:
        return None
    call = called(found[2] or found[3])
    return by_none(call) if found[1] == "Some" else call


def handed_on_in_arm(pattern: str, matched: str) -> str | None:
    """The call whose refusal an arm of a match on it is about, or the fault that is the arm's
    pattern; None for any other arm."""
    call = called(matched.rpartition("match ")[2])
    if WANT.search(pattern):
        return pattern.split()[0]
    if re.fullmatch(r"Err\(\w+\)", pattern):
        return call
    return by_none(call) if pattern == "None" else None


def handed_on(code: str, start: int, at: int) -> str | None:
    """The refusal that is handed on at a place of the function that starts there: the call, or the
    fault; None if there is none."""
    conversion = CONVERSION.match(code, start)
    if conversion:
        return conversion[1]
    places = openings(code, start, at)
    for place in places:
        before = code[start:place].rstrip()
        if code.startswith("=>", place):
            pattern = PATTERN.search(before)
            opening = next((other for other in places if code[other] == "{"), start)
            head = head_of(code[start:opening].rstrip())
            return handed_on_in_arm(pattern[0] if pattern else "", head)
        if code[place] == "{" and not before.endswith("=>") and not NAME.search(before):
            return handed_on_in_block(head_of(before))
        if before.endswith(".map_err"):
            return called(re.split(r"[;{}=]|\breturn\b", before.removesuffix(".map_err"))[-1])
    return None


def functions_in(text: str) -> Iterator[tuple[str, str, int, int]]:
    """The functions of a source: the code, and each one's name and its ends."""
    code = code_of(text)
    functions = list(FUNCTION.finditer(code))
    ends = [*(function.start() for function in functions[1:]), len(code)]
    for function, end in zip(functions, ends):
        yield code, function[1], function.start(), end


def places_in(file: str, text: str) -> Iterator[Place]:
    """The places of a source at which it is reported that memory ran out."""
    for code, name, start, end in functions_in(text):
        words = [WANT, NONE] if name in SAY_IT_BY_NONE else [WANT]
        for found in (found for word in words for found in word.finditer(code, start, end)):
            if not BEHIND_A_PATTERN.match(code, found.end()):
                yield file, name, handed_on(code, start, found.start()), found[0]


def sources(crates: Path) -> Iterator[tuple[str, str]]:
    """The sources of all crates by their names, without the modules of tests."""
    module = re.compile(r"#\[cfg\(test\)\]\s*mod (\w+);")
    for crate in sorted(crates.iterdir()):
        files = sorted((crate / "src").rglob("*.rt"))
        tests = {name for file in files for name in module.findall(file.read_text())}
        for file in files:
            if tests.isdisjoint(file.relative_to(crate / "src").with_suffix("").parts):
                yield str(file.relative_to(crates)), file.read_text()


def every_want_of_memory_is_handed_on(crates: Path) -> None:
    """Each place hands on a refusal and is listed, and each one that is listed is there."""
    texts = dict(sources(crates))
    found = Counter(place for file, text in texts.items() for place in places_in(file, text))
    print(f"  {found.total()} places")
    same([place for place in found if place[2] is None], [], "made of no refusal")
    all_are_listed(found, "wants.txt")
    lines = [line.strip() for text in texts.values() for line in text.splitlines()]
    same([line for line in lines if FLAG in line], FLAG_LINES)


def all_are_listed(found: Counter[Any], name: str) -> None:
    """What is found and what is listed in a file, each as often as the other. Two blanks or more
    stand between the columns of a row."""
    rows = Path(__file__).with_name(name).read_text().splitlines()
    listed = Counter(tuple(re.split("  +", row)) for row in rows if row and row[0] != "#")
    for one in found.keys() | listed.keys():
        same(found[one], listed[one], f"how often there is {one}")


def arguments(code: str, start: int) -> str:
    """The text from a place up to the bracket that closes what it is in, on one line."""
    depth = 0
    for place in range(start, len(code)):
        if code[place] in ")]}" and depth == 0:
            return re.sub(r"\s+", " ", code[start:place].strip().rstrip(","))
        depth += (code[place] in "([{") - (code[place] in ")]}")
    return ""


def sizes_in(file: str, text: str) -> Iterator[Size]:
    """The sizes of a source."""
    for code, name, start, end in functions_in(text):
        for found in SIZED.finditer(code, start, end):
            given = arguments(code, found.end())
            if "with_capacity" in found[0]:
                given = given.partition(", ")[2]
            yield file, name, found[1] or found[2], given


def every_size_is_listed(crates: Path) -> None:
    """Each size is listed, and each one that is listed is there."""
    found = Counter(size for file, text in sources(crates) for size in sizes_in(file, text))
    print(f"  {found.total()} sizes")
    all_are_listed(found, "sizes.txt")


HEAD = "use std::alloc::{AllocError, Global};\n\nfn work(alloc: Global) -> Option<Told> {"


def wants_that_are_made_up_are_seen(_: Path) -> None:
    """What is seen in bodies, which hand a refusal on, make a want up, or neither; or which ask for
    a size."""
    for name, told in transcripts(Path(__file__).with_name("bodies.txt")).items():
        text = f"{HEAD}\n{told.given.decode()}}}\n"
        found = [handed or "nothing" for _, _, handed, _ in places_in("x.rt", text)]
        if "size" in name:
            found = ["  ".join(size) for _, _, *size in sizes_in("x.rt", text)]
        same(found, [answer.decode() for answer in told.answers], name)


def tests() -> Tests:
    """They take the folder of the crates."""
    yield from named_in(globals())
