"""The argument `t` of a test: a folder of its own, the program, and comparisons whose failures show the input, the expected and the actual value."""

import contextlib
import os
import shutil
import sqlite3
import subprocess
import time
from pathlib import Path

from . import program

# Debian's package of each tool that a group may need.
PACKAGES = {
    "openssl": "openssl", "curl": "curl", "cc": "gcc", "nginx": "nginx-light", "wrk": "wrk", "socat": "socat", "chromium": "chromium",
    "debootstrap": "debootstrap", "dpkg-deb": "dpkg", "systemd-nspawn": "systemd-container", "sqlite3": "sqlite3",
    "systemd-analyze": "systemd", "java": "default-jre-headless", "javac": "default-jdk-headless", "ocsptool": "gnutls-bin", "certtool": "gnutls-bin", "certutil": "libnss3-tools", "vfychain": "libnss3-tools", "go": "golang-go",
    "mkfs.btrfs": "btrfs-progs", "setpriv": "util-linux", "taskset": "util-linux", "softhsm2-util": "softhsm2", "pkcs11-tool": "opensc", "prometheus": "prometheus", "promtool": "prometheus",
    "ip": "iproute2", "tc": "iproute2", "keepalived": "keepalived", "nft": "nftables", "ssh": "openssh-client", "sshd": "openssh-server", "jq": "jq", "logrotate": "logrotate", "clang": "clang", "valgrind": "valgrind", "make": "make", "readelf": "binutils",
}


# A desk that waits for a hanging signer or client waits for ten seconds at least. A reply that waits for neither takes fewer seconds than this, even on a
# slow machine with a slow disk.
AT_ONCE = 5
# A wait of ten seconds is never shorter. On a slow machine it takes longer, but less than two such waits.
TEN_SECONDS = (9.9, 19)


class Failed(Exception):
    """A test whose result differs from the expected one."""


class Skipped(Exception):
    """A test that can't run here, and why."""


def test(function=None, *, seconds=1):
    """Marks a function of a group as a test; `seconds` is about how long it takes, so that the long ones start first."""
    if function is None:
        return lambda it: test(it, seconds=seconds)
    function.seconds = seconds
    return function


def each(rows, *, seconds=1):
    """Marks a function as a test of each row of a table: its name, and the arguments after `t`."""

    def marked(function):
        function.rows, function.seconds = dict(rows), seconds
        return function

    return marked


def need(*tools):
    """Skips the test if a tool is missing."""
    for tool in tools:
        if not shutil.which(tool):
            raise Skipped(f"no {tool} here: apt install {PACKAGES.get(tool, tool)}")


class Trial(contextlib.ExitStack):
    """One test: `room` is its folder, where the program runs."""

    def __init__(self, room):
        super().__init__()
        self.room, self.given = Path(room), []
        self._clock = None

    # Actions

    def note(self, text):
        self.given.append(text)

    def clock(self, moment):
        """Sets the machine's clock for programs that start later, and for those that run already under a clock that was set."""
        self._clock = self.room / "clock"
        self._clock.write_text(str(moment if isinstance(moment, int) else program.seconds_of(moment)))
        self.note(f"clock {moment}")

    def desk(self, *words, given=b"", **how):
        """Runs the program to its end."""
        how.setdefault("clock", self._clock)
        text = given if isinstance(given, str) else given.decode("latin-1")
        self.note(program.shown(words) + (f"  < {show(text, 600)}" if text else ""))
        ran = program.run(words, given, cwd=self.room, **how)
        # In each test the program must warn about a first CRL with a placeholder digest, and about no other CRL.
        is_sealed = program.can_seal(ran.words) and "--signer" not in ran.words
        self.same(ran.is_warned, is_sealed and any(it.startswith("crl 1 entries ") for it in ran.lines), "whether there is a warning about a placeholder digest")
        return ran

    def done(self, *words, given=b"", **how):
        """Runs the program, which must end with status 0 and nothing on standard error; returns its output."""
        ran = self.desk(*words, given=given, **how)
        self.same((ran.status, ran.err), (0, b""), "status and standard error")
        return ran.out.decode("latin-1")

    def as_nobody(self, *words, given=b""):
        """Runs the program to its end as a user without rights; as the user of the tests, if that is not root."""
        before = [program.program()]
        if os.geteuid() == 0:
            need("setpriv")
            # User 65534 may not be able to read the program where it is, but can read this copy.
            desk = self.room / "desk"
            if not desk.exists():
                shutil.copy(program.program(), desk)
                os.chmod(desk, 0o755)
                os.chmod(self.room, 0o755)
            before = ["setpriv", "--reuid", "65534", "--regid", "65534", "--clear-groups", str(desk)]
        self.note(f"as nobody: {program.shown(words)}")
        return subprocess.run([*before, *map(str, words)], cwd=self.room, input=given, capture_output=True, timeout=program.LONGEST, env=program.environment())

    def register(self, file="ca.db", lines="", name=program.NAME, key=program.KEY, options=()):
        """Makes a register, and runs lines over it, none of which may be refused or fail; returns its path."""
        self.same(self.done("init", file, "--name", name, "--key", key, *options), "created\n")
        if lines:
            told = self.done("script", file, given=lines)
            self.same([it for it in told.splitlines() if it[:1] in "EF"], [], "refusals")
        return self.room / file

    def open(self, file="ca.db", *words, command="open", **how):
        """Runs `desk open` or `desk serve` until the test ends. `open` gets the control socket `control` if none is named, and --unsigned if neither a signer nor
        a responder is named."""
        how.setdefault("clock", self._clock)
        if command == "open" and not {"--control", "--counter"} & set(words):
            words = (*words, "--control", "control")
        if command == "open" and not {"--signer", "--responder", "--unsigned"} & set(words):
            words = (*words, "--unsigned")
        self.note(program.shown([command, file, *words]))
        opened = self.enter_context(program.Opened([command, file, *words], cwd=self.room, **how))
        if not opened.listens:
            ended = opened.wait()
            raise Failed(f"{program.shown(opened.words)} does not listen: status {ended.status}, {ended.err!r}")
        return opened

    def control(self, path="control"):
        return self.enter_context(program.Control(self.room / path))

    def signer(self, path="ca.sign", answer=None):
        """Starts a signer at a socket until the test ends."""
        words = (self.room / path,) if answer is None else (self.room / path, answer)
        return self.enter_context(program.Signer(*words))

    def sql(self, file, statement, *values):
        """Runs a statement of SQL on a closed register, by Python's SQLite; returns its rows."""
        self.note(f"sql {file} {statement}")
        with contextlib.closing(sqlite3.connect(self.room / file)) as it:
            rows = it.execute(statement, values).fetchall()
            it.commit()
        return rows

    def tool(self, *words, given=b"", timeout=program.LONGEST, **how):
        """Runs another program, such as openssl, which must end with status 0; returns its output, followed by standard error."""
        ran = self.tried(*words, given=given, timeout=timeout, **how)
        self.same(ran.returncode, 0, f"status of {words[0]}, which printed {(ran.stdout + ran.stderr)[-2000:]!r}")
        return ran.stdout + ran.stderr

    def tried(self, *words, given=b"", timeout=program.LONGEST, **how):
        """Runs another program, with any exit status."""
        need(str(words[0]))
        words = [str(it) for it in words]
        self.note(" ".join(words))
        if isinstance(given, str):
            given = given.encode()
        return subprocess.run(words, input=given, capture_output=True, cwd=self.room, timeout=timeout, **how)

    # Comparisons

    def files(self):
        """The files of the test's folder: for each name the bytes, the mode and the moment of its last change."""
        found = [it for it in self.room.rglob("*") if it.is_file()]
        return {str(it.relative_to(self.room)): (it.read_bytes(), it.stat().st_mode, it.stat().st_mtime_ns) for it in found}

    @contextlib.contextmanager
    def untouched(self, what):
        """Fails if the block changes, creates or removes a file in the test's folder."""
        before = self.files()
        yield
        after = self.files()
        self.same(sorted(it for it in {*before, *after} if before.get(it) != after.get(it)), [], f"files that {what} touched")

    @contextlib.contextmanager
    def at_once(self, what):
        """Fails if the block takes five seconds, as one that waits for a hanging signer or client does."""
        begun = time.monotonic()
        yield
        seconds = time.monotonic() - begun
        self.true(seconds < AT_ONCE, f"{what} took {seconds:.1f} s")

    @contextlib.contextmanager
    def ten_seconds(self, what="it"):
        """Fails if the block does not wait for ten seconds, once."""
        begun = time.monotonic()
        yield
        seconds = time.monotonic() - begun
        self.true(TEN_SECONDS[0] <= seconds < TEN_SECONDS[1], f"{what} took {seconds:.1f} s in place of ten")

    def same(self, got, wanted, what=""):
        if got != wanted:
            raise Failed(f"{what + ': ' if what else ''}\n    wanted {show(wanted)}\n    got    {show(got)}")

    def has(self, got, part, what=""):
        if part not in got:
            raise Failed(f"{what + ': ' if what else ''}\n    wanted {show(part)} in it\n    got    {show(got)}")

    def true(self, holds, what):
        if not holds:
            raise Failed(what)


def show(value, most=4_000):
    """A value as text; a long one without its middle."""
    text = repr(value)
    return text if len(text) <= most else f"{text[: most // 2]} .. {text[-most // 2 :]} ({len(text)} characters)"
