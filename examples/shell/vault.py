"""The server that the shell talks to, and what the program tells about what was done on it."""

import contextlib
import subprocess
import sys
import tempfile

import builds
import questions
from shell.commands import line_of
from shell.record import CYCLES, Record
from tgdoc_client import address_of

# The most clients that a server serves at once.
WORKERS = 63


class Vault:
    """A server's address and, if the server is the shell's own, what was done on it."""

    def __init__(self, address, config):
        self.address, self.config = address, config
        self.record = Record(config) if config else None

    def picture(self):
        """What stands where after all lines."""
        return questions.drawn(self.record.rows)

    def shared(self, start, rights, end):
        return questions.shared(self.record.rows, start, rights, end)

    def who(self, rights, end):
        return questions.who(self.record.rows, rights, end)

    def following(self):
        """The serial of the next vertex."""
        made = sum(answer.get("ok") == "created" for answer in questions.answers(self.record.rows))
        return self.config.get("next", len(self.config["principals"]) + 1) + made

    def collected(self):
        """What two cycles after all lines free, in how many steps, and the picture then."""
        rows = [*self.record.rows, *CYCLES]
        told = questions.answers(rows)[-2:]
        freed, steps = (sum(it[key] for it in told) for key in ("freed", "steps"))
        return freed, steps, questions.drawn(rows)


@contextlib.contextmanager
def own_server(config):
    """A server over a configuration, until the block ends."""
    numbers = ("--workers", str(WORKERS), "--connections", "1000000")
    words = builds.words("serve", "--listen", "127.0.0.1:0", *numbers)
    with tempfile.TemporaryFile() as said:
        # in a session of its own, so that Ctrl-C ends a line of the shell and not the server
        pipes = {"stdin": subprocess.PIPE, "stdout": subprocess.PIPE, "stderr": said}
        with subprocess.Popen(words, **pipes, start_new_session=True) as server:
            try:
                server.stdin.write(line_of(config).encode() + b"\n")
                server.stdin.close()
                told = server.stdout.readline()
                if b"listening" not in told:
                    said.seek(0)
                    why = (told or said.read()).decode(errors="replace").strip()
                    sys.exit(f"The server does not start: {why}")
                yield Vault(address_of(told), config)
            finally:
                server.terminate()
