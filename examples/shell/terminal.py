"""Lines as they are typed: with history and completion at a terminal, printed behind their prompts
otherwise."""

import sys

from shell.commands import COMMANDS, KINDS

try:
    import readline
except ImportError:
    readline = None


def offered(session, before):
    """The words that may follow those before."""
    if not before:
        return list(COMMANDS)
    if before[0] not in COMMANDS or len(before) > len(COMMANDS[before[0]][2]):
        return []
    kind = COMMANDS[before[0]][2][len(before) - 1].removeprefix("[")
    known = {"person": list(session.names.principals), "vertex": session.names.all()}
    known |= {"kind": list(KINDS), "command": list(COMMANDS)}
    return known.get(kind, ["r", "rw", "tg", "t", "g", "w"] if kind == "rights" else [])


def completer(session):
    """What readline asks for: the k-th word that completes a text."""

    def complete(text, number):
        before = readline.get_line_buffer()[: readline.get_begidx()].split()
        found = [word + " " for word in offered(session, before) if word.startswith(text)]
        return found[number] if number < len(found) else None

    return complete


def typed(session):
    """The lines, until the end of the input."""
    is_terminal = sys.stdin.isatty()
    if is_terminal and readline:
        readline.set_completer_delims(" ")
        readline.set_completer(completer(session))
        readline.parse_and_bind("tab: complete")
    while True:
        try:
            line = input(session.prompt())
        except EOFError:
            print()
            return
        except KeyboardInterrupt:
            print()
            continue
        if not is_terminal:
            print(line)
        yield line
