"""The commands of the shell: how each is written, what it is for, and how its words become the
fields of a line."""

import json

KINDS = ("document", "subject")
LETTERS = "rwtg"


class Confused(Exception):
    """A line that is no command, with what to say about it."""


# Each command: its words, what it does, and the kinds of its words. A word in brackets may be left
# out.
COMMANDS = {
    words.split()[0]: (words, what, kinds.split())
    for words, what, kinds in [
        ("as NAME", "go on as this principal, on a connection of their own", "person"),
        (
            "create KIND RIGHTS [NAME]",
            "make a document or a subject with rights over it; NAME is known to this shell alone",
            "kind rights [new",
        ),
        (
            "grant RIGHTS OVER TO",
            "give TO rights over OVER that you have; needs g over TO",
            "rights vertex vertex",
        ),
        (
            "take RIGHTS OVER FROM",
            "take rights over OVER that FROM has; needs t over FROM",
            "rights vertex vertex",
        ),
        (
            "remove RIGHTS OVER",
            "give up your own rights over OVER; nobody can take a right away from somebody else",
            "rights vertex",
        ),
        ("read OVER", "read a document; needs r", "vertex"),
        ("write OVER TEXT", "replace a document's text; needs w", "vertex text"),
        ("look [AT]", "list what AT has, or what you have; needs t over AT", "[vertex"),
        ("enrol NAME RIGHTS", "make a principal of this name, with rights over it", "new rights"),
        ("retire", "be a principal no longer", ""),
        (
            "assume AGENT",
            "act for a subject, with its rights in place of yours; needs t and g over it",
            "vertex",
        ),
        ("leave", "act for yourself again", ""),
        ("bye", "end your connection", ""),
        (
            "share RIGHTS OVER WHO",
            "can WHO ever come to have rights over OVER, whatever all of them do?",
            "rights vertex vertex",
        ),
        (
            "who RIGHTS OVER",
            "who has rights over OVER now, who could come to have them, and who never can",
            "rights vertex",
        ),
        ("graph", "show who has which rights over whom", ""),
        ("collect", "what the collector frees: what nobody can reach any more", ""),
        ("name NUMBER WORD", "give a vertex a name that this shell knows", "vertex new"),
        (
            "lines [FILE]",
            "what was done so far, as lines for `tgdoc run`; into FILE if it is named",
            "[file",
        ),
        ("raw", "show the lines that are sent and answered, or no longer", ""),
        ("help [COMMAND]", "this list, or one command", "[command"),
        ("quit", "leave the shell (or Ctrl-D)", ""),
    ]
}
# The commands that are lines of a client, with the fields that their words fill.
FIELDS = {
    "create": ["kind", "rights"],
    "grant": ["rights", "over", "to"],
    "take": ["rights", "over", "from"],
    "remove": ["rights", "over"],
    "read": ["over"],
    "write": ["over", "text"],
    "look": ["at"],
    "enrol": ["name", "rights"],
    "retire": [],
    "assume": ["agent"],
    "leave": [],
    "bye": [],
}
VERTICES = ("over", "to", "from", "at", "agent")
RIGHTS = "r (read), w (write), t (take rights that it has), g (grant it rights)"


def usage(verb):
    words, what, _ = COMMANDS[verb]
    return f"{words}: {what}"


def parts_of(line):
    """The verb of a line and its words, as many as its command takes."""
    verb, _, rest = line.strip().partition(" ")
    if verb not in COMMANDS:
        near = [name for name in COMMANDS if name.startswith(verb[:2])]
        more = f"Did you mean {' or '.join(near)}?" if near else "`help` lists them."
        raise Confused(f"There is no command {verb}. {more}")
    kinds = COMMANDS[verb][2]
    words = rest.split(None, len(kinds) - 1) if kinds[-1:] == ["text"] else rest.split()
    least = sum(not kind.startswith("[") for kind in kinds)
    if not least <= len(words) <= len(kinds):
        # a text may be empty
        if kinds[-1:] == ["text"] and len(words) == least - 1:
            return verb, [*words, ""]
        raise Confused(usage(verb))
    return verb, words


def rights_of(word):
    """The letters of a word, in their order."""
    if not word or set(word) - set(LETTERS) or len(set(word)) < len(word):
        raise Confused(f"{word}: rights are letters, each once: {RIGHTS}")
    return "".join(letter for letter in LETTERS if letter in word)


def fields_of(verb, words, names, actor):
    """The fields of a client's line."""
    fields = {"op": verb}
    for field, word in zip(FIELDS[verb], words):
        if field == "rights":
            fields[field] = rights_of(word)
        elif field in VERTICES:
            fields[field] = names.serial_of(word)
        elif field == "kind" and word not in KINDS:
            raise Confused(f"{word}: a vertex is a document or a subject")
        else:
            fields[field] = word
    if verb == "look" and not words:
        fields["at"] = actor
    return fields


def line_of(fields):
    """The line of an object, as the program writes it."""
    return json.dumps(fields, ensure_ascii=False, separators=(",", ":"), sort_keys=True)
