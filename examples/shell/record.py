"""What the shell's clients did, as the lines of a run.

A client's connection has a seat of its own, the least that is free. A server finishes each pending
target by itself and collects all the time; in the run a `shade` follows each command that leaves a
target, and two cycles come before a command that could find the vault full otherwise: they free
whatever the server can have freed by then. Commands that were refused as full or as an error
changed nothing, and are left out.
"""

from shell.commands import line_of

TARGETS = ("take", "grant", "create", "enrol", "assume")
MAKES = ("create", "enrol")
GAINS = ("create", "enrol", "take", "grant")
SEATS = 64
CYCLES = [line_of({"op": "cycle"})] * 2


class Record:
    """The lines so far. It is no longer sure once a line may have been carried out whose answer is
    lost."""

    def __init__(self, config):
        self.rows = [line_of(config)]
        self.slots, self.cells = config.get("slots", 1024), config.get("cells", 16384)
        self.vertices, self.edges = len(config["principals"]), len(config.get("edges", []))
        self.seats = set()
        self.is_sure = True

    def sit(self, name):
        """Takes the least free seat for a principal, and returns it."""
        seat = min(set(range(SEATS)) - self.seats)
        self.seats.add(seat)
        self.rows.append(line_of({"op": "hello", "name": name, "seat": seat}))
        return seat

    def add(self, seat, fields, answer):
        """Adds a line that was answered so."""
        if answer.get("error") == "out of memory":
            self.is_sure = False
        if "error" in answer or "full" in answer:
            return
        op, is_done = fields["op"], "ok" in answer
        if is_done and op in GAINS:
            self.rows += CYCLES if self.is_perhaps_full(op) else []
            self.vertices += op in MAKES
            self.edges += 1
        self.rows.append(line_of({**fields, "seat": seat}))
        if is_done and op in TARGETS:
            self.rows.append(line_of({"op": "shade", "seat": seat}))
        if is_done and op == "bye":
            self.seats.discard(seat)

    def is_perhaps_full(self, op):
        return self.edges >= self.cells or (op in MAKES and self.vertices >= self.slots)
