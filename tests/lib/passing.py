"""An open desk whose elapsed time the test sets. So a test checks timeouts to the millisecond without waiting for them."""

import os
import struct

from . import faults
from .authority import until
from .program import is_read, parted

ASKED = b"GET /counts HTTP/1.1\r\nHost: localhost\r\n\r\n"


class Passing:
    """An open desk with a log. Its elapsed time changes only by `set_forward` and `advance`. `count` is a file for the counts of its calls."""

    def __init__(self, t, *words, file="ca.db", count=None, **how):
        self.t, self.file, self.millis = t, t.room / "passed", 1_000_000
        self.file.write_bytes(struct.pack("=Q", self.millis))
        self.desk = t.open(file, "--log", *words, faults=faults.environment(passed=self.file, count=count), **how)
        self.before = self.files

    @property
    def files(self):
        """How many file descriptors the desk has."""
        return len(os.listdir(f"/proc/{self.desk.process.pid}/fd"))

    def set_forward(self, millis):
        """Lets this many milliseconds pass, and does nothing else that the desk could notice."""
        self.millis += millis
        # The desk reads this file at any time, so the file is never empty.
        with open(self.file, "r+b") as it:
            it.write(struct.pack("=Q", self.millis))

    def advance(self, millis):
        """Lets this many milliseconds pass. When this returns, the desk has handled each timeout that has passed."""
        self.set_forward(millis)
        for _ in range(2):
            self.t.same(parted(self.desk.send(ASKED))[0], 200, f"a request at {self.millis} ms")

    def comes(self, sent):
        """Connects a client, which sends these bytes; returns it once the desk has read them."""
        made = self.t.enter_context(self.desk.connect())
        made.sendall(sent)
        until(lambda: is_read(made), "the desk to read the bytes of the client")
        self.advance(0)
        return made

    @property
    def lost(self):
        """The lost connections in the log so far: the port of each client, and why."""
        return [tuple(it.split(":")[-1].split(" lost ")) for it in self.desk.log if " lost " in it]

    def loses(self, *clients, why=""):
        """Checks that these connections, in this order, are the lost ones of the log, for this reason."""
        self.advance(0)
        self.t.same(self.lost, [(str(it.getsockname()[1]), why) for it in clients], "lost connections, and why")
