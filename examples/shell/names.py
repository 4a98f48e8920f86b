"""What vertices are called: principals by their names, others by names that were given in the
shell, or by their serials."""

import re

from shell.commands import COMMANDS, Confused

WORD = re.compile("[A-Za-z_][A-Za-z0-9_-]*")


class Names:
    """The principals' serials by name, as far as they are known, and the names given here."""

    def __init__(self, principals):
        self.principals = {name: serial for serial, name in enumerate(principals, 1)}
        self.given = {}
        self.retired = {}

    def enrolled(self, name, serial):
        self.principals[name] = serial

    def has_retired(self, serial):
        """The principal's name is free from now on."""
        for name in [name for name, owner in self.principals.items() if owner == serial]:
            self.retired[serial] = name
            del self.principals[name]

    def check(self, word):
        """Refuses a word that cannot be given to a vertex as its name."""
        if not WORD.fullmatch(word) or word in COMMANDS:
            what = "a name has letters and digits, begins with a letter, and is no command"
            raise Confused(f"{word}: {what}")
        if word in self.principals:
            raise Confused(f"{word} is a principal's name")

    def give(self, word, serial):
        """Gives a vertex a name, in place of one that it has."""
        self.check(word)
        self.given = {name: owner for name, owner in self.given.items() if owner != serial}
        self.given[word] = serial

    def serial_of(self, word):
        if word.isdecimal():
            return int(word)
        found = self.principals.get(word, self.given.get(word))
        if found is None:
            what = "vertices have numbers, and `name NUMBER WORD` names one"
            raise Confused(f"{word}: no vertex has this name here; {what}")
        return found

    def of(self, serial):
        """What a vertex is called."""
        for known in (self.principals, self.given):
            for name, owner in known.items():
                if owner == serial:
                    return name
        was = self.retired.get(serial)
        return f"{serial} ({was}, retired)" if was else str(serial)

    def both(self, serial):
        """What a vertex is called, with its serial."""
        name = self.of(serial)
        return name if name[:1].isdecimal() else f"{name} ({serial})"

    def all(self):
        return [*self.principals, *self.given]
