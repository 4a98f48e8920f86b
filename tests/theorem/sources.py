"""The definitions of a repository, and which of them each one names."""

import functools
import re
from collections.abc import Iterable, Iterator
from pathlib import Path

from theorem.code import TYPE, VARIANT, Code
from theorem.specs import Place, Source, Walk, code_of, free, words

# The words of terms that stand for no definition, among them numbers and parameters of types.
BUILT_IN = re.compile(r"record|where|Type|→|×|Unit|tt|⊥|←|𝓛|\d*|[A-Z]")


class Sources:
    """The files of a folder of crates, each read once it is asked for."""

    def __init__(self, crates: Path) -> None:
        self.crates = crates
        # a file of specs/, one of src/, and the definitions that one names
        self.spec = functools.cache(functools.partial(Source, crates))
        self.code = functools.cache(functools.partial(Code, crates))
        self.names = functools.cache(lambda place: {*self.named_in(place)} - {place})

    def files(self, pattern: str) -> list[str]:
        return sorted(it.relative_to(self.crates).as_posix() for it in self.crates.glob(pattern))

    def is_constructor(self, file: str, word: str) -> bool:
        """Whether a word of a file is a constructor; of a library each is taken to be one."""
        source = self.spec(file)
        found = source.imports.of(word)
        if word in source.constructors or not found:
            return word in source.constructors
        target, name = found
        if target.file.endswith(".antt"):
            return self.is_constructor(target.file, name)
        return target.has_variants or not target.file.endswith(".rt")

    def defined(self, place: Place) -> Place:
        """Where a name that a file gives to others is defined, of a constructor its type."""
        file, name = place
        if file.endswith(".antt"):
            source = self.spec(file)
            if name in source.imports.handed_on:
                target, given = source.imports.names[name]
                return self.defined(target.place(given))
            name = source.constructors.get(name, name)
            if name not in source.definitions:
                raise ValueError(f"{file} defines no {name}")
        elif file.endswith(".rt"):
            if name.removesuffix(".TheInside") not in self.code(file).declared:
                raise ValueError(f"{file} declares no {name}")
        return Place(file, name)

    def referred_to(self, file: str, found: Iterable[str]) -> Iterator[Place]:
        """What the words of a file refer to."""
        source: Source | Code = self.spec(file) if file.endswith(".antt") else self.code(file)
        own = source.symbols if isinstance(source, Source) else {}
        for word in found:
            # (what `do` binds, >>= hands on)
            word = ">>=" if word == "do" else word
            first, imported = word.partition(".")[0], source.imports.of(word)
            if first in own:
                yield self.defined(Place(file, own[first]))
            elif imported:
                target, name = imported
                yield self.defined(target.place(name))
            elif not BUILT_IN.fullmatch(first):
                raise ValueError(f"{file}: {word}")

    def named_in(self, place: Place) -> Iterator[Place]:
        """The definitions that stand in one; none in those of a library."""
        if place.file.endswith(".antt"):
            definition = self.spec(place.file).definitions[place.name]
            found = free(definition, lambda word: self.is_constructor(place.file, word))
            yield from self.referred_to(place.file, found)
        if not place.file.endswith(".rt"):
            return
        # what a type of the code is made of: what contracts see of it, or its fields
        code, name = self.code(place.file), place.name.removesuffix(".TheInside")
        value = code.value(name) if name == place.name else None
        if value is not None:
            yield from self.referred_to(place.file, Walk().names(words(value)))
            return
        text = code.declaration(name)
        types = TYPE.findall(VARIANT.sub("", text) if text.startswith("enum") else text)
        yield from filter(None, [self.type_of(place.file, it) for it in types])

    def type_of(self, file: str, name: str) -> Place | None:
        """Where a type is declared that a file of the code names; None for those of libraries."""
        code, crate = self.code(file), file.partition("/")[0]
        if name in code.declared:
            return Place(file, name)
        if name not in code.taken:
            return None
        first, *modules = code.taken[name]
        if (self.crates / code_of(self.crates, crate, [first])).is_file():
            modules = [first, *modules]
        elif first != "crate":
            crate = first
        other = code_of(self.crates, crate, modules)
        return self.type_of(other, name) if (self.crates / other).is_file() else None
