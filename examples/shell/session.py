"""Who sits in the shell, and what each command does."""

from dataclasses import dataclass
from pathlib import Path

from shell import reasons, words
from shell.commands import COMMANDS, FIELDS, Confused, fields_of, line_of, parts_of, rights_of
from shell.commands import usage
from shell.names import Names
from tgdoc_client import Client, Refused

NOT_OURS = "This server is not the shell's own, and others may talk to it, so the shell does not "
NOT_OURS += "know all that was done."
NOT_SURE = "A line may have been carried out whose answer was lost, so the shell is no longer sure "
NOT_SURE += "what was done."
LETTERS = "KIND is document or subject. RIGHTS are letters: r to read, w to write, t to take "
LETTERS += "rights that it has, g to grant it rights."


@dataclass
class Person:
    """A connection: its client, its seat in the record, its principal and the subject that it acts
    for."""

    client: Client
    seat: int
    serial: int
    agent: int = None

    def actor(self):
        return self.agent or self.serial


class Session:
    """A shell's state. `do` does what a line says, and returns whether the shell is to end."""

    def __init__(self, vault, is_raw):
        self.vault, self.is_raw = vault, is_raw
        self.names = Names(vault.config["principals"] if vault.config else [])
        self.people, self.now = {}, None
        self.status = 0

    def begin(self):
        """Says what there is, and lets the first principal sit."""
        config = self.vault.config
        names = ", ".join(config["principals"])
        edges = [
            f"{self.names.of(start)} has {rights} over {self.names.of(end)}."
            for start, rights, end in config.get("edges", [])
        ]
        print(f"Principals: {names}.", *edges, "`help` lists the commands.")
        self.sit(config["principals"][0])

    def prompt(self):
        if self.now is None:
            return "> "
        acts = f" for {self.names.of(self.now.agent)}" if self.now.agent else ""
        return f"{self.names.of(self.now.serial)}{acts}> "

    def do(self, line):
        self.status = 0
        if not line.strip():
            return False
        verb, given = parts_of(line)
        if verb == "quit":
            return True
        if verb in FIELDS:
            self.act(verb, given)
        else:
            getattr(self, "do_" + verb)(*given)
        return False

    def sent(self, client, fields):
        """The answer to a line, also a refusal."""
        try:
            answer = client.ask(**fields)
        except Refused as refusal:
            answer = refusal.answer
        if self.is_raw:
            print(f"  sent      {line_of(fields)}\n  answered  {line_of(answer)}")
        if "error" in answer:
            self.status = 1
        return answer

    def act(self, verb, given):
        """Sends a client's line, and tells what came of it."""
        if self.now is None:
            raise Confused("Nobody sits here: `as NAME` first.")
        person, actor = self.now, self.now.actor()
        fields = fields_of(verb, given, self.names, actor)
        if verb == "create" and len(given) > 2:
            self.names.check(given[2])
        answer = self.sent(person.client, fields)
        if self.vault.record:
            self.vault.record.add(person.seat, fields, answer)
        if "ok" not in answer:
            print(words.refusal_told(answer, self.names, actor))
            self.explain(answer, actor)
            return
        if verb == "create" and len(given) > 2:
            self.names.give(given[2], answer["vertex"])
        print(words.done_told(fields, answer, self.names, actor))
        self.follow(verb, fields, answer, person)

    def follow(self, verb, fields, answer, person):
        """What a command that was carried out changes in the shell."""
        if verb == "assume":
            person.agent = fields["agent"]
        elif verb == "leave":
            person.agent = None
        elif verb == "enrol":
            self.names.enrolled(fields["name"], answer["vertex"])
        elif verb == "retire":
            self.names.has_retired(person.actor())
        elif verb == "bye":
            person.client.close()
            del self.people[person.serial]
            self.now = None

    def explain(self, answer, actor):
        """What can be done about a denial."""
        if "missing" in answer and self.vault.record and self.vault.record.is_sure:
            for row in reasons.ways(answer, self.vault.picture(), self.names, actor):
                print("  " + row)

    def sit(self, word):
        """Goes on as a principal: on the connection that there is, or on a new one."""
        known = int(word) if word.isdecimal() else self.names.principals.get(word)
        if known in self.people:
            self.now = self.people[known]
            return
        if word.isdecimal():
            raise Confused("A principal is named by name: as NAME")
        client = Client(*self.vault.address)
        answer = self.sent(client, {"op": "hello", "name": word})
        if "ok" not in answer:
            client.close()
            print(words.refusal_told(answer, self.names, None))
            return
        serial = answer["vertex"]
        self.names.enrolled(word, serial)
        seat = self.vault.record.sit(word) if self.vault.record else 0
        self.now = self.people[serial] = Person(client, seat, serial)

    def do_as(self, word):
        self.sit(word)

    def record(self):
        """The lines so far, if they are all that was done."""
        if not self.vault.record:
            raise Confused(NOT_OURS)
        if not self.vault.record.is_sure:
            raise Confused(NOT_SURE)
        return self.vault.record

    def do_share(self, rights, over, who):
        self.record()
        rights = rights_of(rights)
        end, start = self.names.serial_of(over), self.names.serial_of(who)
        steps, verdict = self.vault.shared(start, rights, end)
        has = f"{rights} over {self.names.of(end)}"
        if verdict == "never":
            print(f"Never: whatever all of them do, {self.names.of(start)} can never have {has}.")
        elif verdict:
            print(f"Not known: {verdict}.")
        elif not steps:
            print(f"{self.names.of(start)} has {has} already.")
        else:
            print(f"Yes, in {len(steps)} step{'s' if len(steps) > 1 else ''}:")
            print("\n".join(words.steps_told(steps, self.names, self.vault.following())))

    def do_who(self, rights, over):
        self.record()
        rights, end = rights_of(rights), self.names.serial_of(over)
        have, could, never = self.vault.who(rights, end)
        print(f"{rights} over {self.names.both(end)}")
        for head, serials in (("now", have), ("could come to have it", could), ("never", never)):
            print(f"  {head}: {words.listed(serials, self.names)}")

    def do_graph(self):
        self.record()
        shot = self.vault.picture()
        for serial, vertex in shot.vertices.items():
            edges = [(end, it) for (start, end), it in shot.edges.items() if start == serial]
            unreached = "" if vertex.is_held else " (waits to be freed)"
            if vertex.kind == "subject" or edges:
                told = words.edges_told(edges, self.names)
                print(f"  {self.names.both(serial)} has {told}{unreached}")

    def do_collect(self):
        rows = self.record()
        freed, steps, shot = self.vault.collected()
        print("The server's collector runs all the time, so there is nothing to do.")
        left = f"{shot.free_slots} of {rows.slots} slots are free then."
        print(f"In a run of the same lines, two cycles take {steps} steps and free {freed}; {left}")

    def do_name(self, number, word):
        serial = self.names.serial_of(number)
        self.names.give(word, serial)
        print(f"{serial} is called {word} here.")

    def do_lines(self, file=None):
        text = "".join(row + "\n" for row in self.record().rows)
        if file is None:
            print(text, end="")
            return
        try:
            Path(file).write_text(text)
        except OSError as error:
            raise Confused(f"{file}: {error.strerror}") from None
        print(f"Written; `tgdoc run < {file}` answers the lines, `tgdoc draw < {file}` draws them.")

    def do_raw(self):
        self.is_raw = not self.is_raw
        print("Lines are shown." if self.is_raw else "Lines are no longer shown.")

    def do_help(self, verb=None):
        if verb is not None and verb not in COMMANDS:
            raise Confused(f"There is no command {verb}.")
        if verb:
            print(usage(verb))
            return
        for told, what, _ in COMMANDS.values():
            print(f"  {told:<26} {what}")
        print(LETTERS)
        print("Vertices are named by number, or by name if they have one.")
