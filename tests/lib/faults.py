"""Runs the program with injected faults (tests/faults.c), and compares the contents of its file and its later replies with those of a run without
faults.

For a slow build the variable DESK_FAULTS_STEP=N makes the tests try only each Nth of the call numbers.
"""

import hashlib
import os
import shutil
import sqlite3
import struct
import subprocess
import tempfile

from . import program
from .trial import Failed

KINDS = (
    "alloc", "read", "write", "sync", "cut", "open", "unlink", "link", "stat", "lock", "socket", "connect", "bind", "listen", "accept", "poll", "watch", "clock",
    "random",
)  # fmt: skip
COUNTED = (*KINDS, "steps", "met")
MEMORY, STORE = "F1 memory", "F2 store"
# The OCSP response internalError (RFC 6960 2.3).
INTERNAL_ERROR = "ocsp 30030a0102"
OCSP_REQUEST = (
    "30673065303e303c303a300906052b0e03021a05000414711d397671c9facf2242095925979a0698e46b110414a9993e364706816aba3e25717850c26c9cd0d89d020105"
    "a2233021301f06092b060105050730010204120410000102030405060708090a0b0c0d0e0f"
)
OCSP_RESPONSE = (
    "3082010b0a0100a08201043082010006092b06010505073001010481f23081ef3081caa2160414a9993e364706816aba3e25717850c26c9cd0d89d180f"
    "32303236303130323030303030305a307a3078303a300906052b0e03021a05000414711d397671c9facf2242095925979a0698e46b110414a9993e36470681"
    "6aba3e25717850c26c9cd0d89d020105a116180f32303236303130323030303030305aa0030a0101180f32303236303130323030303030305aa011180f3230"
    "3236303130363030303030305aa1233021301f06092b060105050730010204120410000102030405060708090a0b0c0d0e0f300906052b0e03021a05000315"
    "00966b1bb631ef55f550546a6930a63488df490a2d"
)
DAY_1, DAY_2, PAST_END = "2026-01-01T00:00:00Z", "2026-01-02T00:00:00Z", "2026-01-10T00:00:01Z"
# A certificate is registered.
REGISTERED = [
    (f"{DAY_1} subscriber acme", "subscriber 1"),
    (f"{DAY_1} order 1 398", "order 1"),
    (f"{DAY_1} register 1 05 2026-01-01T00:00:00Z 2026-01-10T00:00:00Z", "registered"),
]
# It is revoked, and listed on two CRLs, but not on a third.
LIFE = [
    *REGISTERED,
    (f"{DAY_2} request 05 key-compromise", "request 1 due 2026-01-03T00:00:00Z"),
    (f"{DAY_2} revoke 1", "revoked"),
    (f"{DAY_2} crl", "crl 1 entries 1"),
    (f"{DAY_2} ocsp {OCSP_REQUEST}", f"ocsp {OCSP_RESPONSE}"),
    (f"{PAST_END} crl", "crl 2 entries 1"),
    (f"{PAST_END} crl", "crl 3 entries 0"),
    (f"{PAST_END} counts", "good 0 revoked 1 expired 0"),
]
# The other changes, over a register with that certificate: a repeated row, a declined request, and a certificate that ends.
CHANGES = [
    (f"{DAY_2} register 1 05 2026-01-01T00:00:00Z 2026-01-10T00:00:00Z", "same"),
    (f"{DAY_2} request 05 asked", "request 1 due 2026-01-03T00:00:00Z"),
    (f"{DAY_2} decline 1", "declined"),
    (f"{PAST_END} order 1 398", "order 2"),
    (f"{PAST_END} counts", "good 0 revoked 0 expired 1"),
]
SOUND = "sound, {} certificates, {} revoked, {} CRLs\n"


def places(last, each, stride, first=1):
    """The call numbers that are tried: each one up to `each`, and every `stride`th after it."""
    slower = int(os.environ.get("DESK_FAULTS_STEP", "1"))
    return [it for it in range(first, last + 1) if it <= each or it % stride == first % stride][::slower]


def environment(**told):
    """The variables that inject these faults: `fail="write:3"` is FAULTS_FAIL=write:3. Syncs don't wait for the disk, since no test stops the machine."""
    return {f"FAULTS_{name.upper()}": str(value) for name, value in {"quick": 1, **told}.items() if value is not None}


def sound_run(t, words, given=""):
    """Runs the program with no fault."""
    return program.run(words, given, cwd=t.room, faults=environment())


def counted(path):
    """How many calls of each kind there were. The file is empty at first."""
    with open(path, "rb") as it:
        return dict(zip(COUNTED, struct.unpack(f"<{len(COUNTED)}Q", it.read() or bytes(8 * len(COUNTED)))))


def run(t, words, given=b"", count="count", clock=None, **told):
    """Runs the program with faults to its end; returns the result and the counts of calls."""
    ran = program.run(words, given, cwd=t.room, clock=clock, faults=environment(count=t.room / count, same=1, **told))
    return ran, counted(t.room / count)


def total(t, words, kind, given=b"", **told):
    """How many calls of a kind a run makes without a fault."""
    ran, count = run(t, words, given, **told)
    t.same((ran.status, ran.err), (0, b""), f"{program.shown(words)} without a fault")
    return count[kind]


# The contents of a register's file


def copy(base, path):
    """Copies a register's file and its -wal to another path, and replaces the files there. Without a base, deletes them."""
    for end in ("", "-wal"):
        if os.path.lexists(f"{path}{end}"):
            os.remove(f"{path}{end}")
        if base is not None and os.path.exists(f"{base}{end}"):
            shutil.copyfile(f"{base}{end}", f"{path}{end}")


def contents(path):
    """The bytes of a register's file and of its -wal; None for a missing file."""
    return [open(f"{path}{end}", "rb").read() if os.path.exists(f"{path}{end}") else None for end in ("", "-wal")]


def tables(path):
    """Every row of a register's file, read by Python's SQLite from a copy, so that the file stays as it is; None if it has no tables or is
    no database yet."""
    with tempfile.TemporaryDirectory(dir=os.path.dirname(path)) as folder:
        if not os.path.exists(path):
            return None
        copy(path, f"{folder}/copy")
        database = sqlite3.connect(f"{folder}/copy")
        try:
            names = [row[0] for row in database.execute("SELECT name FROM sqlite_schema WHERE type = 'table' ORDER BY name")]
            rows = {name: database.execute(f"SELECT * FROM {name} ORDER BY 1").fetchall() for name in names}
        except sqlite3.DatabaseError:
            rows = None
        finally:
            database.close()
        return rows or None


def states(t, base, lines, path="states.db"):
    """The tables before each line of a script and after the last one, without a fault. Checks that each line has its expected reply."""
    copy(base, t.room / path)
    found = [tables(t.room / path)]
    with Lines(t, path) as desk:
        for asked, wanted in lines:
            t.same(desk.ask(asked), wanted, asked)
            found.append(tables(t.room / path))
        t.same(desk.end(), (0, "", ""), "the end of the script")
    return found


class Lines:
    """`desk script` over a register, which gets its lines one by one."""

    # The rest of standard output, the status and standard error of a run without a fault.
    ends = (("", 0, ""),)

    def __init__(self, t, path, words=(), **told):
        self.count = t.room / "count-lines"
        env = program.environment(faults=environment(count=self.count, same=1, **told))
        self.words = ["script", str(path), *words]
        self.process = subprocess.Popen(
            [program.program(), *self.words], cwd=t.room, env=env, stdin=subprocess.PIPE, stdout=subprocess.PIPE, stderr=subprocess.PIPE
        )

    def ask(self, line):
        """The reply to a line; empty if the program has ended."""
        try:
            self.process.stdin.write(line.encode() + b"\n")
            self.process.stdin.flush()
        except BrokenPipeError:
            return ""
        return self.process.stdout.readline().decode().removesuffix("\n")

    @property
    def counted(self):
        return counted(self.count)

    def end(self):
        """Its exit status, the rest of standard output, and standard error."""
        try:
            self.process.stdin.close()
        except BrokenPipeError:
            pass
        self.process.stdin = None
        out, err = self.process.communicate(timeout=program.LONGEST)
        err, _ = program.without_warning(self.words, err)
        return self.process.returncode, out.decode(), err.decode()

    def __enter__(self):
        return self

    def __exit__(self, *_):
        if self.process.poll() is None:
            self.process.kill()
        self.process.communicate()


class Office:
    """`desk open` over a register, which gets its lines one by one at the control socket, with the clock set to the moment of each."""

    # SIGTERM ends it. `program.Opened` has already read its first line.
    ends = (("", -15, ""),)

    def __init__(self, t, path, words=(), **told):
        self.count, self.clock, self.socket, self.control = t.room / "count-office", t.room / "clock", t.room / "control", None
        self.socket.unlink(missing_ok=True)
        self.clock.write_text(str(program.seconds_of(DAY_1)))
        env = environment(count=self.count, same=1, **told)
        self.desk = program.Opened(["open", path, "--control", "control", "--unsigned", *words], cwd=t.room, clock=self.clock, faults=env)

    def ask(self, line):
        moment, line = line.split(" ", 1)
        self.clock.write_text(str(program.seconds_of(moment)))
        try:
            if self.control is None:
                self.control = program.Control(self.socket)
            return self.control.ask(line)
        except OSError:
            return ""

    @property
    def counted(self):
        return counted(self.count)

    def end(self):
        if self.control is not None:
            self.control.__exit__()
        ended = self.desk.end()
        return ended.status, ended.out.decode(), ended.err.decode()

    def __enter__(self):
        return self

    def __exit__(self, *_):
        self.desk.__exit__()


class Course:
    """Lines for a register, and its tables before each of them. Each round has a fault, after which the register must continue as without it."""

    def __init__(self, t, base, lines, sound, asked_by=Lines):
        self.t, self.base, self.lines, self.sound, self.asked_by = t, base, lines, sound, asked_by
        self.states = states(t, base, lines)
        self.known = set()

    def fail(self, where, what):
        raise Failed(f"{where}: {what}")

    def standing(self, path, place, reach, where):
        """How many lines are in the register: those that were answered, and at most `reach` more."""
        found = tables(self.t.room / path)
        for it in range(place, min(place + reach, len(self.lines)) + 1):
            if found == self.states[it]:
                return it
        self.fail(where, f"the tables are not those after {place} lines: {found}")

    def round(self, fault, reach, where, path="ca.db", **told):
        """Runs the lines one by one with a fault. `fault` is the reply that reports it, or None if it kills the process. Returns whether the fault occurred."""
        copy(self.base, self.t.room / path)
        place, faults = 0, 0
        with self.asked_by(self.t, path, **told) as desk:
            while place < len(self.lines):
                asked, wanted = self.lines[place]
                reply = desk.ask(asked)
                if reply == wanted:
                    place += 1
                    continue
                if not desk.counted["met"]:
                    self.fail(where, f"{asked}: {reply!r} with no fault")
                if reply == "":
                    break
                if reply != fault and not (reply == INTERNAL_ERROR and " ocsp " in asked):
                    self.fail(where, f"{asked}: {reply!r}")
                faults += 1
                # If a commit failed, the register has the whole change or nothing of it.
                place = self.standing(path, place, reach, where)
                if faults == 3:
                    break
            status, out, err = desk.end()
            met = desk.counted["met"]
        if fault is None and met and status != -9:
            self.fail(where, f"it was not stopped: {status}, {out!r}, {err!r}")
        if fault is not None and (out, status, err) not in (*self.asked_by.ends, ("", 1, f"{fault}\n")):
            self.fail(where, f"status {status}, {out!r}, {err!r}")
        if status == 1 and not met:
            self.fail(where, f"status 1 and {err!r} with no fault")
        self.goes_on(path, place, reach if status in (1, -9) else 0, where)
        return met

    def goes_on(self, path, place, reach, where):
        """Checks that the register, opened again, has a prefix of the lines, accepts the rest, and is sound."""
        mark = (place, reach, *(hashlib.sha1(it or b"").digest() for it in contents(self.t.room / path)))
        if mark in self.known:
            return
        place = self.standing(path, place, reach, where)
        rest = self.lines[place:]
        # If no line is left, the last line opens the register; its reply is the same again.
        given = rest or [self.lines[-1]]
        ran = sound_run(self.t, ["script", path], "".join(f"{asked}\n" for asked, _ in given))
        wanted = "".join(f"{reply}\n" for _, reply in given).encode()
        if (ran.status, ran.out, ran.err) != (0, wanted, b""):
            self.fail(where, f"opened again after {place} lines: status {ran.status}, {ran.out!r}, {ran.err!r}")
        if tables(self.t.room / path) != self.states[-1]:
            self.fail(where, "the tables are others in the end")
        audited(self.t, path, self.sound, where)
        self.known.add(mark)


def audited(t, path, sound, where):
    ran = sound_run(t, ["audit", path])
    if (ran.status, ran.out, ran.err) != (0, SOUND.format(*sound).encode(), b""):
        raise Failed(f"{where}: an audit says {ran.out!r}, {ran.err!r}")
