"""`desk follow`: a copy of an open desk's register that is kept up to date. Expected rows are those of the leader's file, read by Python's SQLite;
a leader that breaks rules is a server of this file, whose pages are text."""

import contextlib
import json
import os
import shutil
import signal
import socket
import subprocess
import threading
import time
from random import Random

from groups.changes import DAY, KINDS, LINES, Tables, asked, feed_after, taken
from groups.responder import JAVA, LEAVES, Responder
from groups.responder import asked as asked_at
from lib import faults, program, registers
from lib.authority import EXAMPLES, KEYS, TRY_LATER, Authority, body_of, end, first_day, now, until
from lib.program import parted
from lib.trial import Skipped, each, need, test
from lib.web_server import AROUND, certificates

CLOCK = "2026-01-03T00:00:00Z"
OCSP = "Content-Type: application/ocsp-request"


class Copy:
    """A running follower of a desk at a port or socket: `file` is its register, `control` its control socket."""

    def __init__(self, t, leader, *words, file="copy.db", signing=("--unsigned",), **how):
        self.t, self.file, self.name = t, file, f"c{program.next_port()}"
        self.desk = t.open(file, "--from", str(leader), "--control", self.name, *signing, *words, command="follow", **how)
        self.lines = t.control(self.name)

    def health(self):
        code, _, body = parted(self.desk.ask("GET", "/health"))
        return code, json.loads(body)

    @property
    def leader(self):
        return self.health()[1]["leader"]

    @property
    def refused(self):
        """How many pages it has refused."""
        lines = parted(self.desk.ask("GET", "/metrics"))[2].decode().splitlines()
        return next(int(it.split()[1]) for it in lines if it.startswith('desk_follower_pages_total{result="refused"} '))

    def until_at(self, positions):
        until(lambda: self.leader["positions"] == positions, f"the positions {positions}; it has {self.leader}")

    def follows(self, leader):
        """Waits until the leader's feed has nothing after its positions."""
        until(lambda: asked(self.t, leader, self.leader["positions"])[1:4] == ([], {}, True), "the end of the leader's feed")

    def copied(self):
        return Tables(taken(self.t, self.lines, "copied.db"))

    def is_like(self, leader_control):
        """Waits until it has reached the leader and has what the leader has now, and compares all rows, CRLs, the head and the positions."""
        until(lambda: self.leader["current"], "the leader")
        wanted = Tables(taken(self.t, leader_control))
        self.until_at(wanted.positions())
        got = self.copied()
        if got.head != wanted.head:
            until(lambda: self.copied().head == wanted.head, "the head of the leader")
        for kind in KINDS:
            self.t.same(got.lines[kind], wanted.lines[kind], f"rows of the kind {kind}")
        self.t.same((got.crls, got.positions()), (wanted.crls, wanted.positions()), "CRLs and positions")

    def is_sound(self):
        """The last copy of its file must be sound, with the derived tables of its records."""
        self.t.true(self.t.done("audit", "copied.db").startswith("sound"), "desk audit")


def address(port):
    return f"127.0.0.1:{port}"


def led(t, *words):
    """A leader with the records of LINES, its control connection, and a follower with these options."""
    t.register(lines=LINES)
    t.clock(CLOCK)
    leader = t.open()
    return leader, t.control(), Copy(t, address(leader.port), *words)


ASKED = (
    "/status/05", "/status/06", "/status/08", "/status/09", "/counts", "/crl", "/crl/1", "/crl/2", "/crl/4", "/list/revoked", "/list/subscribers",
)  # fmt: skip


def same_answers(t, leader, copy, targets=ASKED):
    for target in targets:
        wanted, got = (parted(desk.ask("GET", target)) for desk in (leader, copy))
        t.same((got[0], got[2]), (wanted[0], wanted[2]), f"GET {target}")


@test(seconds=3)
def a_new_copy_has_all_rows(t):
    leader, control, copy = led(t)
    copy.is_like(control)
    copy.is_sound()
    same_answers(t, leader, copy.desk)
    for line in ("status 05", "status 08", "counts", "listing 06", "overdue", "next-crl", "show 05", "show request 2"):
        t.same(copy.lines.ask(line), control.ask(line), line)
    t.true(not (t.room / "copy.db.fill").exists(), "the file that was filled first is left")
    code, health = copy.health()
    t.same((health["leader"]["diverged"], health["leader"]["failure"], health["store"]), (False, None, None), "health")


@test(seconds=3)
def its_health_and_metrics(t):
    """Those of an open desk, and its own: one more member in /health, and series at the end of /metrics."""
    leader, control, copy = led(t)
    copy.is_like(control)
    code, health = copy.health()
    wanted = {"current": True, "diverged": False, "failure": None, "lag": 0, "pages": 0, "positions": "", "refused": 0}
    own = parted(leader.ask("GET", "/health"))
    t.same((list(health), list(health["leader"])), ([*json.loads(own[2]), "leader"], [*wanted]), "members of /health")
    got = {name: value for name, value in health["leader"].items() if name in ("current", "diverged", "failure", "refused")}
    t.same(got, {name: wanted[name] for name in got}, "leader")
    t.true(health["leader"]["pages"] > 0 and health["leader"]["lag"] <= 60, "pages and lag")
    t.same((code, health["status"]), (own[0], json.loads(own[2])["status"]), "status, as the leader's")
    text = parted(copy.desk.ask("GET", "/metrics"))[2]
    lines = [it for it in text.decode().splitlines() if it.startswith("desk_follower_")]
    counts = health["leader"]["positions"].split(".")
    tables = ("subscribers", "orders", "certificates", "requests", "revocations", "crls")
    t.same(lines[2:8], [f'desk_follower_rows{{table="{table}"}} {count}' for table, count in zip(tables, counts)], "rows")
    t.same([lines[0], *lines[9:]], ["desk_follower_current 1", 'desk_follower_pages_total{result="refused"} 0', "desk_follower_diverged 0"], "series")
    t.true(lines[1].startswith("desk_follower_lag_seconds ") and lines[8].startswith('desk_follower_pages_total{result="entered"} '), "lag and pages")
    t.true(b"desk_follower" not in parted(leader.ask("GET", "/metrics"))[2], "series of a follower in the leader's /metrics")
    t.same(t.tool("promtool", "check", "metrics", given=text), b"", "what promtool finds wrong with /metrics")


@test(seconds=6)
def each_command_reaches_the_copy(t):
    leader, control, copy = led(t)
    for line in (
        "subscriber third", "order 3 20", "register 6 0A 2026-01-03T00:00:00Z 2026-01-05T00:00:00Z", "request 0A cessation", "request 0A asked",
        "decline 5", "revoke 6", "crl", "crl", "schedule 1970-01-01T00:00:00Z=398 2026-06-01T00:00:00Z=200", "decline 4", "crl",
    ):  # fmt: skip
        t.true(control.ask(line)[:1] not in "EF", line)
        copy.follows(leader)
    copy.is_like(control)
    same_answers(t, leader, copy.desk)
    # Certificates end: the leader's next command makes them expired, at the copy too.
    t.clock("2026-01-12T00:00:00Z")
    t.true(control.ask("crl")[:1] not in "EF", "crl")
    copy.is_like(control)
    copy.is_sound()
    same_answers(t, leader, copy.desk)


@test(seconds=3)
def a_new_key_identifier(t):
    """`key-id` needs the leader closed; the copy gets it with the next page, and the CRL after it has it."""
    leader, control, copy = led(t)
    leader.end()
    t.same(t.done("key-id", "ca.db", "0A1B2C3D"), "key-id set\n")
    leader = t.open("ca.db", "--port", str(leader.port))
    control = t.control()
    t.same(control.ask("crl"), "crl 4 entries 2")
    copy.is_like(control)


@test(seconds=2)
def commands_are_refused(t):
    leader, control, copy = led(t)
    before = copy.leader["positions"]
    for line in ("subscriber x", "order 1 2", "request 08 asked", "revoke 4", "decline 4", "crl", f"accept-clock {CLOCK}",
                 f"revoke 4 7{'f' * 39}", "schedule 1970-01-01T00:00:00Z=1"):  # fmt: skip
        t.same(copy.lines.ask(line), "follower", line)
    t.same(copy.lines.ask("why"), "why follower", "why")
    t.same(copy.lines.ask("no such line"), "E22 syntax")
    t.same(copy.lines.ask("help"), control.ask("help"), "help")
    body = '{"ground":"asked","serial":"08"}'
    t.same(parted(copy.desk.ask("POST", "/requests", body))[0], 503, "POST /requests")
    t.same(parted(copy.desk.ask("GET", "/changes"))[0], 404, "GET /changes")
    t.same(parted(copy.desk.ask("GET", "/requests"))[0], 503, "GET /requests")
    t.same(copy.leader["positions"], before, "positions")


def a_request():
    """An OCSP request for serial number 05 of the issuer of the examples (RFC 6960 4.1.1), without a nonce."""
    import hashlib

    tlv = lambda tag, body: bytes([tag, len(body)]) + body
    hashed = [tlv(4, hashlib.sha1(bytes.fromhex(it)).digest()) for it in (program.NAME, program.KEY)]
    cert = tlv(48, bytes.fromhex("300906052B0E03021A0500") + b"".join(hashed) + tlv(2, b"\5"))
    return tlv(48, tlv(48, tlv(48, tlv(48, cert))))


def ocsp(desk):
    code, _, body = parted(desk.ask("POST", "/ocsp", a_request(), headers=[OCSP]))
    return code, body


@test(seconds=6)
def once_the_lag_is_over_nothing_is_answered(t):
    t.register(lines=LINES)
    t.clock(CLOCK)
    leader = t.open()
    copy = Copy(t, address(leader.port), "--lag", "3")
    until(lambda: parted(copy.desk.ask("GET", "/status/05"))[0] == 200, "an answer while the leader is there")
    t.true(ocsp(copy.desk)[1] != TRY_LATER, "OCSP while the leader is there")
    leader.end()
    until(lambda: parted(copy.desk.ask("GET", "/status/05"))[0] == 503, "the end of the lag")
    t.same(ocsp(copy.desk), (200, TRY_LATER), "OCSP")
    for target in ASKED:
        t.same(parted(copy.desk.ask("GET", target))[0], 503, target)
    for line, reply in (("status 05", "behind"), ("counts", "behind"), ("show 05", "behind"), ("crl", "follower"), ("nonsense", "E22 syntax")):
        t.same(copy.lines.ask(line), reply, line)
    code, health = copy.health()
    t.same((code, health["status"], health["leader"]["failure"]), (503, "failing", "leader unreachable"), "health")
    t.true(health["leader"]["lag"] >= 3, "lag")
    metrics = parted(copy.desk.ask("GET", "/metrics"))[2].decode().splitlines()
    t.true("desk_follower_current 0" in metrics and "desk_follower_diverged 0" in metrics, "metrics")
    t.same([it for it in copy.desk.log if it.startswith("follow:")], ["follow: leader unreachable"], "standard error")
    # The leader comes back.
    t.open("ca.db", "--port", str(leader.port))
    until(lambda: parted(copy.desk.ask("GET", "/status/05"))[0] == 200, "answers again")
    t.same(copy.leader["failure"], None)


@test(seconds=4)
def either_is_restarted(t):
    leader, control, copy = led(t)
    copy.desk.end()
    control.ask("subscriber while-it-was-away")
    copy = Copy(t, address(leader.port))
    copy.is_like(control)
    leader.end()
    leader = t.open("ca.db", "--port", str(leader.port))
    control = t.control()
    control.ask("subscriber after")
    copy.is_like(control)
    # It ends without a moment to clean up, in the middle of commands.
    for name in range(20):
        control.ask(f"subscriber s{name}")
        if name == 10:
            copy.desk.process.kill()
            copy.desk.process.wait()
    copy = Copy(t, address(leader.port))
    copy.is_like(control)


@test(seconds=3)
def over_a_unix_socket(t):
    """A proxy at a Unix socket, as of `ssh -L`, leads to the leader."""
    t.register(lines=LINES)
    t.clock(CLOCK)
    leader = t.open()
    t.enter_context(Forward(t.room / "lead", leader.port))
    copy = Copy(t, "lead")
    copy.is_like(t.control())


class Forward:
    """Passes each connection at a Unix socket on to a port; each piece takes so many seconds."""

    def __init__(self, path, port, delay=0.0):
        self.port, self.delay, self.server = port, delay, socket.socket(socket.AF_UNIX)
        self.server.bind(str(path))
        self.server.listen(8)
        threading.Thread(target=self.serve, daemon=True).start()

    def serve(self):
        with contextlib.suppress(OSError):
            while True:
                client, _ = self.server.accept()
                with client, contextlib.suppress(OSError), socket.create_connection(("127.0.0.1", self.port)) as to:
                    asked = client.recv(65536)
                    time.sleep(self.delay)
                    to.sendall(asked)
                    while piece := to.recv(65536):
                        time.sleep(self.delay)
                        client.sendall(piece)

    def __enter__(self):
        return self

    def __exit__(self, *_):
        with contextlib.suppress(OSError):
            self.server.shutdown(socket.SHUT_RDWR)
        self.server.close()


@test(seconds=15)
def a_large_register(t):
    records = registers.Records(10_000, crls=20)
    registers.make(t.room / "ca.db", records, 3)
    t.clock(records.last + 60)
    leader, control = t.open(), t.control()
    copy = Copy(t, address(leader.port))
    copy.is_like(control)
    copy.desk.end()
    t.true(t.done("audit", "copy.db").startswith("sound"), "desk audit of the file itself")


class Revoked(registers.Records):
    """Records in which each certificate is revoked, and no CRL was issued."""

    def __init__(self, count):
        super().__init__(count, 0)
        self.requests = [(id, cert[0], 6, registers.START, 0) for id, cert in enumerate(self.certs, 1)]
        self.revocations = [(serial, registers.START, 4, id, 1) for id, serial, *_ in self.requests]


@test(seconds=40)
def a_crl_of_a_megabyte(t):
    """A CRL of 20,000 entries, which is issued while the copy follows."""
    records = Revoked(20_000)
    registers.make(t.room / "ca.db", records, 3)
    t.clock(records.last + 1)
    leader, control = t.open(), t.control()
    copy = Copy(t, address(leader.port))
    t.same(control.ask("crl"), "crl 1 entries 20000")
    copy.is_like(control)
    copy.is_sound()
    got, wanted = (parted(desk.ask("GET", "/crl"))[2] for desk in (copy.desk, leader))
    t.true(got == wanted and len(got) > 1_000_000, f"a CRL of {len(got)} bytes")


@test(seconds=4)
def a_returning_leader_is_diverged(t):
    """The copy takes over; the old leader can follow it only if it has no record that the new one lacks."""
    leader, control, copy = led(t)
    copy.is_like(control)
    leader.end()
    copy.desk.end()
    taken_over = t.open("copy.db", "--control", "own")
    own = t.control("own")
    t.same(own.ask("crl"), "crl 4 entries 2", "the next CRL of the new leader")
    # The old leader has a prefix of the new one's records: it follows.
    old = Copy(t, address(taken_over.port), file="ca.db")
    old.is_like(own)
    old.desk.end()
    # It was opened as a leader once more: now it has a record that the new leader lacks.
    alone = t.open("ca.db", "--control", "alone")
    alone_control = t.control("alone")
    t.same(alone_control.ask("subscriber lost"), "subscriber 3")
    number = alone_control.ask("request 08 asked").split()[1]
    t.same(alone_control.ask(f"decline {number}"), "declined")
    alone.end()
    own.ask("subscriber new")
    taken(t, own, "next.db")
    ran = t.desk("follow", "ca.db", "--from", address(taken_over.port), "--port", str(program.free_port()), "--unsigned")
    t.same((ran.status, ran.err_lines[-1]), (1, "diverged"), "the old leader")
    lost_rows = lambda file: t.tried(
        "python3", EXAMPLES / "lost-rows.py", file, "--from", address(taken_over.port), "--desk", program.program(), env=program.environment()
    )  # fmt: skip
    told = lost_rows("ca.db")
    rows = ["subscriber 3 lost", f"request {number} {8:040x} asked {CLOCK}", f"declined {number}"]
    t.same((told.returncode, told.stdout.decode().splitlines()), (3, rows), "the rows that the new leader lacks")
    told = lost_rows("next.db")
    t.same((told.returncode, told.stdout), (0, b""), "the rows of a copy that the new leader lacks")


@each({"at a port": "port", "at a Unix socket": "socket"}, seconds=2)
def lost_rows_py_waits_a_minute_for_the_other_desk(t, where):
    """The script's timeouts are a sixtieth of their length here."""
    t.register(lines=LINES)
    timeouts = "socket.socket.settimeout = lambda self, seconds, real=socket.socket.settimeout: real(self, seconds / 60)"
    (t.room / "sitecustomize.py").write_text(f"import socket\n{timeouts}\n")
    with socket.create_server(("127.0.0.1", 0)) if where == "port" else socket.socket(socket.AF_UNIX) as server:
        if where == "socket":
            server.bind(str(t.room / "leader"))
            server.listen(8)
        there = address(server.getsockname()[1]) if where == "port" else "leader"
        words = ("timeout", 30, "python3", EXAMPLES / "lost-rows.py", "ca.db", "--from", there)
        ran = t.tried("env", f"PYTHONPATH={t.room}", *words)
    t.same((ran.returncode, ran.stdout, ran.stderr.decode()), (1, b"", f"{there}: timed out\n"), "status and output")


@test(seconds=20)
def a_leader_that_is_replaced(t):
    """Another register answers at the leader's address: the copy answers until its lag is over, and then ends."""
    t.register(lines=LINES)
    t.register("other.db", lines=LINES.replace("acme", "acne"))
    t.clock(CLOCK)
    leader = t.open()
    copy = Copy(t, address(leader.port), "--lag", "15")
    until(lambda: copy.health()[1]["leader"]["pages"] > 0, "a page")
    leader.end()
    t.open("other.db", "--port", str(leader.port), "--control", "other")
    until(lambda: copy.leader["diverged"], "that it has diverged")
    t.same(parted(copy.desk.ask("GET", "/status/05"))[0], 200, "status within the lag, which is over within 15 s")
    ran = copy.desk.wait()
    t.same((ran.status, ran.err.decode().splitlines()[-1]), (1, "diverged"), "its end")


# ---- a leader that breaks rules


class Leader:
    """A leader whose answers to GET /changes the test sets: a status and a body, bytes as they are, or a function of the request that gives these."""

    def __init__(self, port, answer):
        self.answer, self.asked, self.requests = answer, 0, []
        self.server = socket.create_server(("127.0.0.1", port))
        threading.Thread(target=self.serve, daemon=True).start()

    def serve(self):
        with contextlib.suppress(OSError):
            while True:
                client, _ = self.server.accept()
                with client, contextlib.suppress(OSError):
                    self.requests.append(client.recv(65536).decode())
                    status, body = self.answer(self.requests[-1]) if callable(self.answer) else self.answer
                    head = f"HTTP/1.1 {status} X\r\nContent-Length: {len(body)}\r\n\r\n".encode()
                    client.sendall(body if status is None else head + body)
                self.asked += 1

    def __enter__(self):
        return self

    def __exit__(self, *_):
        with contextlib.suppress(OSError):
            self.server.shutdown(socket.SHUT_RDWR)
        self.server.close()


LATER = "2026-01-02T14:00:00Z"
OPEN = "7" + "f" * 39
MALFORMED = "malformed page"
# Each: lines of a page after the records of LINES, and the rule that they break.
RULES = {
    "a gap in ids": ("subscriber 4 x", "subscriber 4 other-row"),
    "a name twice": ("subscriber 3 acme", "subscriber 3 E05 name-taken 1"),
    "a bad name": ("subscriber 3 a/b", MALFORMED),
    "an order of nobody": ("order 6 9 30", "order 6 E06 no-subscriber"),
    "an order of no days": ("order 6 1 0", "order 6 E07 bad-days 398"),
    "an order of 399 days": ("order 6 1 399", "order 6 E07 bad-days 398"),
    "an order again": ("order 5 1 1", "order 5 other-row"),
    "a certificate without an order": (f"certificate 09 6 {DAY} {LATER}", "certificate 6 E08 no-order"),
    "a filled order": (f"certificate 09 1 {LATER} {LATER}", "certificate 1 E09 order-filled"),
    "a serial number twice": (f"certificate 05 5 {LATER} {LATER}", "certificate 5 E10 serial-taken"),
    "a registered certificate again": (f"certificate 05 1 {DAY} 2026-01-10T00:00:00Z", "certificate 1 other-row"),
    "a validity backwards": (f"certificate 09 5 {LATER} {DAY}", "certificate 5 E11 bad-validity"),
    "a validity too long": (f"certificate 09 5 {DAY} {LATER}", "certificate 5 E12 too-long"),
    "an ended certificate": (f"certificate 09 5 {DAY} {DAY}", "certificate 5 E13 ended"),
    "a request for nothing": (f"request 5 09 asked {LATER}", "request 5 E14 unknown-serial"),
    "a request for a revoked one": (f"request 5 05 asked {LATER}", "request 5 E19 revoked-before 2026-01-02T08:00:00Z"),
    "a request after the last moment": ("request 5 08 asked 2026-01-02T14:00:01Z", "head E01 clock-back 2026-01-02T14:00:01Z"),
    "a request before the last moment": (f"request 5 08 asked {DAY}", "request 5 E01 clock-back 2026-01-02T13:00:00Z"),
    "a gap in requests": (f"request 6 08 asked {LATER}", "request 6 other-row"),
    "a request at the end of the clock": ("request 5 08 asked 9999-12-22T00:00:00Z", "request 5 E02 clock-end"),
    "requests backwards": (
        "request 5 08 asked 2026-01-02T13:30:00Z\nrequest 6 08 asked 2026-01-02T13:29:59Z", "request 6 E01 clock-back 2026-01-02T13:30:00Z",
    ),
    "a declined request that is none": ("declined 5", "declined 5 E17 no-request"),
    "a declined request that led to a revocation": ("declined 1", "declined 1 E19 revoked-before 2026-01-02T08:00:00Z"),
    "a revocation by no request": (f"revocation {OPEN} {LATER} 4 9 4", "revocation 9 E17 no-request"),
    "a revocation by a declined request": (f"revocation 06 {LATER} 0 2 4", "revocation 2 E18 declined-before"),
    "a revocation twice": (f"revocation 05 {LATER} 1 1 4", "revocation 1 E19 revoked-before 2026-01-02T08:00:00Z"),
    "a revocation by another one's request": (f"revocation 08 {LATER} 4 4 4", "revocation 4 other-row"),
    "a revocation with another reason": (f"revocation {OPEN} {LATER} 1 4 4", "revocation 4 other-row"),
    "a revocation with an earlier first CRL": (f"revocation {OPEN} {LATER} 4 4 3", "revocation 4 other-row"),
    "a revocation with a later first CRL": (f"revocation {OPEN} {LATER} 4 4 5", "revocation 4 other-row"),
    "a revocation before the last CRL": (f"revocation {OPEN} 2026-01-02T12:59:59Z 4 4 4", "revocation 4 E01 clock-back 2026-01-02T13:00:00Z"),
    "a revocation after the last moment": (f"revocation {OPEN} 2026-01-02T14:00:01Z 4 4 4", "head E01 clock-back 2026-01-02T14:00:01Z"),
    "a revocation before its request": (
        f"request 5 08 misuse 2026-01-02T13:30:00Z\nrevocation 08 2026-01-02T13:29:59Z 9 5 4", "revocation 5 E17 no-request",
    ),
    "nothing, with other positions": (None, "positions other-positions"),
}  # fmt: skip


def full(line):
    """A line with its serial number in forty digits."""
    words = line.split()
    at = {"certificate": 1, "request": 2, "revocation": 1}.get(words[0])
    if at:
        words[at] = words[at].rjust(40, "0").lower()
    return " ".join(words)


def paged(tables, lines, last=LATER, tail=None, octets=b""):
    """A page after the records of `tables` with these lines and the octets of a CRL. If it has none, its counts are as many as there are lines."""
    head = tables.head.decode().splitlines()
    head[4] = f"last {last}"
    return ("\n".join([*head, *lines]) + "\n").encode() + octets + (tail or f"end {tables.positions()}").encode() + b"\n"


def faked(t, *words):
    """A copy of the register of LINES, whose leader is now a server of the test; its tables; and the next CRL that the register gives."""
    leader, control, copy = led(t, "--lag", "3600")
    copy.is_like(control)
    tables = Tables(t.room / "taken.db")
    leader.end()
    t.done("copy", "ca.db", "next.db")
    t.done("script", "next.db", given=f"{LATER} crl\n")
    ((octets,),) = t.sql("next.db", "SELECT der FROM crl WHERE number = 4")
    return copy, tables, octets, t.enter_context(Leader(leader.port, (500, b"")))


def refuses(t, copy, leader, body, failure, what):
    """The leader answers with this body: the copy says why it refuses it, keeps its records, and goes on answering."""
    before = copy.leader["positions"]
    leader.answer = (200, body)
    count = copy.refused
    until(lambda: copy.refused > count + 1, f"two refusals of {what}")
    t.same(copy.leader["failure"], failure, what)
    t.same((copy.leader["positions"], parted(copy.desk.ask("GET", "/status/05"))[0]), (before, 200), f"positions and an answer after {what}")


@test(seconds=80)
def pages_that_break_a_rule(t):
    copy, tables, octets, leader = faked(t)
    for what, (lines, rule) in RULES.items():
        page = paged(tables, [full(it) for it in lines.split("\n")]) if lines else paged(tables, [], tail=f"end {tables.positions()[:-64]}{'0' * 64}")
        refuses(t, copy, leader, page, rule if rule == MALFORMED else f"broken page: {rule}", what)
    copied = copy.copied()
    t.same((copied.lines, copied.crls), (tables.lines, tables.crls), "rows after all of these pages")


@test(seconds=20)
def crls_that_the_records_do_not_give(t):
    copy, tables, octets, leader = faked(t)
    line = lambda der, number=4, at=LATER: [f"crl {number} {at} {len(der)}"]
    entry = octets.index(bytes.fromhex("020105"))
    cases = {
        "another number": (line(octets, 5), octets, "crl 5 other-row"),
        "another moment": (line(octets, at="2026-01-02T13:59:59Z"), octets, "crl 4 other-crl"),
        "an earlier moment": (line(octets, at="2026-01-02T12:00:00Z"), octets, "crl 4 E01 clock-back 2026-01-02T13:00:00Z"),
        "the end of the clock": (line(octets, at="9999-12-22T00:00:00Z"), octets, "crl 4 E02 clock-end"),
        "a later moment than the last": (line(octets, at="2026-01-02T14:00:01Z"), octets, "crl 4 other-crl"),
        "an earlier CRL": (line(tables.crls[3]), tables.crls[3], "crl 4 other-crl"),
        "another serial number": (line(octets), octets[: entry + 2] + b"\x04" + octets[entry + 3 :], "crl 4 other-crl"),
        "another digest": (line(octets), octets[:-1] + bytes([octets[-1] ^ 1]), "crl 4 no-signature"),
        "no DER": (line(b"x" * 30), b"x" * 30, "crl 4 other-crl"),
        "nothing": (line(b""), b"", "crl 4 other-crl"),
    }  # fmt: skip
    for what, (lines, der, rule) in cases.items():
        refuses(t, copy, leader, paged(tables, lines, octets=der + b"\n"), f"broken page: {rule}", what)


@test(seconds=8)
def a_page_of_megabytes(t):
    """The copy answers while a page of 8 MB comes, and refuses what it has."""
    copy, tables, _, leader = faked(t)
    der = b"x" * 8_000_000
    refuses(t, copy, leader, paged(tables, [f"crl 4 {LATER} {len(der)}"], octets=der + b"\n"), "broken page: crl 4 other-crl", "8 MB")


@test(seconds=20)
def pages_that_are_none(t):
    copy, tables, octets, leader = faked(t)
    page = paged(tables, ["subscriber 3 x"])
    crl = f"crl 4 {LATER} {len(octets)}"
    rows = lambda count: [f"subscriber {number} s{number}" for number in range(3, 3 + count)]
    behind = lambda count, more="": paged(tables, [*rows(count), crl], octets=octets + f"\n{more}".encode())
    cases = {
        "another version": (page.replace(b"changes 1\n", b"changes 2\n"), "page of another version"),
        "random bytes": (bytes(range(256)) * 20, "malformed page"),
        "no bytes": (b"", "malformed page"),
        "a page that is cut off": (page[: page.index(b"end ")], "malformed page"),
        "a page without its LF": (page[:-1], "malformed page"),
        "a page and more": (page + b"\n", "malformed page"),
        "tables in another order": (paged(tables, ["order 6 1 1", "subscriber 3 x"]), "malformed page"),
        "a CRL behind 1,000 rows": (behind(1_000), "malformed page"),
        "a CRL behind 999 rows, which the positions do not count": (behind(999), "broken page: positions other-positions"),
        "a row behind a CRL": (behind(0, "subscriber 3 x\n"), "malformed page"),
        "a second CRL": (behind(1, f"{crl}\n{'x' * len(octets)}\n"), "malformed page"),
        "another issuer": (page.replace(b"issuer 300d310b", b"issuer 300d310c"), "broken page: head other-issuer"),
        "an issuer that is no Name": (page.replace(b"issuer 300d310b", b"issuer 310d310b"), "broken page: head other-issuer"),
        "another key": (page.replace(b" 616263\n", b" 616264\n"), "broken page: head other-issuer"),
        "another cap": (page.replace(b" 1000000\n", b" 999999\n"), "broken page: head other-policy"),
        "a last moment before": (paged(tables, ["subscriber 3 x"], last=DAY), "broken page: head E01 clock-back 2026-01-02T13:00:00Z"),
        "a last moment at the end of the clock": (paged(tables, ["subscriber 3 x"], last="9999-12-22T00:00:00Z"), "broken page: head E02 clock-end"),
        "a page that leads nowhere": (paged(tables, [], tail="more " + tables.positions()), "broken page: positions other-positions"),
        "a row that the positions do not count": (page, "broken page: positions other-positions"),
    }  # fmt: skip
    for what, (body, failure) in cases.items():
        refuses(t, copy, leader, body, failure, what)
    # Responses that are none.
    for what, answer in {
        "a connection that ends": (None, b""), "a body that is too short": (None, b"HTTP/1.1 200 OK\r\nContent-Length: 99\r\n\r\nchanges 1\n"),
        "a head without a length": (None, b"HTTP/1.1 200 OK\r\n\r\n" + page), "no HTTP": (None, b"hello\r\n\r\n"),
        "more than its length": (None, b"HTTP/1.1 200 OK\r\nContent-Length: 1\r\n\r\nchanges"),
    }.items():  # fmt: skip
        leader.answer = (404, b"{}")
        until(lambda: copy.leader["failure"] == "leader answered 404", "404")
        leader.answer = answer
        until(lambda: copy.leader["failure"] == "leader unreachable", what)
    told = [it for it in copy.desk.log if it.startswith("follow: leader ")]
    t.same(told[-10:], ["follow: leader answered 404", "follow: leader unreachable"] * 5, "each failure that was another one, on standard error")
    t.same(copy.copied().lines, tables.lines, "rows after all of these")


@test(seconds=6)
def a_good_page_of_a_server(t):
    """The server of these tests is a leader like any other if its page is right."""
    copy, tables, octets, leader = faked(t)
    more = dict(tables.lines, subscriber=[*tables.lines["subscriber"], "3 x"])
    wanted = Tables.__new__(Tables)
    wanted.__dict__.update(tables.__dict__, lines=more)
    leader.answer = (200, paged(tables, ["subscriber 3 x"], tail=f"end {wanted.positions()}"))
    copy.until_at(wanted.positions())
    t.same(copy.copied().lines, more)
    t.same(copy.copied().head.decode().splitlines()[4], f"last {LATER}")


@test(seconds=6)
def a_request_has_the_number_of_the_copy_once_the_rows_are_stored(t):
    """A page that does not end the feed is kept in memory only: the request for the next one confirms nothing, and does not wait."""
    copy, tables, octets, leader = faked(t)
    more = Tables.__new__(Tables)
    more.__dict__.update(tables.__dict__, lines=dict(tables.lines, subscriber=[*tables.lines["subscriber"], "3 x"]))
    before, reached = tables.positions(), more.positions()

    def answer(request):
        return 200, paged(tables, [], tail=f"end {reached}") if reached in request else paged(tables, ["subscriber 3 x"], tail=f"more {reached}")

    leader.answer = answer
    named = lambda positions: [it for it in leader.requests if it.startswith(f"GET /changes?after={positions}&follower=")]
    until(lambda: named(reached), "a request that confirms the row")
    copy.until_at(reached)
    kept = [it for it in leader.requests if it.startswith(f"GET /changes?after={reached} HTTP/1.1\r\n")]
    t.same(len(kept), 1, "requests while the row was in memory only")
    t.true(leader.requests.index(kept[0]) < leader.requests.index(named(reached)[0]), "the request that confirms the row came first")
    parameters = {it.split()[1].split("&", 1)[1] for it in [*named(before), *named(reached)]}
    t.true(len(parameters) == 1 and parameters.pop().endswith("&wait=1"), f"parameters of the requests after stored rows: {parameters}")


@test(seconds=8)
def signatures_of_another_form(t):
    """CRLs are signed by a key: the copy, which has a responder of its own, takes only signatures in the form of the algorithm."""
    ca = Authority(t)
    ca.register()
    t.clock(CLOCK)
    ca.signer()
    signing = ("--signer", "ca.sign", "--algorithm", "ecdsa-sha256")
    leader = t.open("ca.db", *signing)
    control = t.control()
    for line in ("subscriber acme", "order 1 90", f"register 1 05 {DAY} 2026-03-01T00:00:00Z", "crl"):
        t.true(control.ask(line)[:1] not in "EF", line)
    copy = Copy(t, address(leader.port), signing=signing)
    copy.is_like(control)
    t.true(control.ask("crl").startswith("crl 2"), "crl")
    copy.is_like(control)
    tables = Tables(t.room / "taken.db")
    leader.end()
    fake = t.enter_context(Leader(leader.port, (500, b"")))
    # CRL 3 of the same records, signed and then changed.
    t.done("copy", "ca.db", "next.db")
    later = "2026-01-03T01:00:00Z"
    t.done("script", "next.db", *signing, given=f"{later} crl\n")
    ((der,),) = t.sql("next.db", "SELECT der FROM crl WHERE number = 3")
    # The signature is a SEQUENCE (30h) of two INTEGERs at the end.
    at = next(len(der) - it - 2 for it in range(60, 80) if der[-it - 2 : -it] == bytes([0x30, it]))
    wrong = der[:at] + b"\x31" + der[at + 1 :]
    page = paged(tables, [f"crl 3 {later} {len(wrong)}"], last=later, octets=wrong + b"\n")
    refuses(t, copy, fake, page, "broken page: crl 3 no-signature", "another form")
    right = paged(tables, [f"crl 3 {later} {len(der)}"], last=later, octets=der + b"\n")
    refuses(t, copy, fake, right, "broken page: positions other-positions", "the CRL itself")


@each({"before the first CRL": (False, False), "after a signed CRL": (True, True), "after a CRL with a placeholder digest": (True, False)}, seconds=6)
def a_responder_of_its_own(t, has_crl, is_signed):
    """A copy whose OCSP responses a responder signs: it has no signer of CRLs, and takes those that the leader's key signed."""
    ca = Authority(t)
    responder = Responder(ca)
    ca.signer()
    responder.signer()
    ca.register()
    lines = first_day(now() - 3600)
    t.done("script", "ca.db", *(ca.signing() if is_signed else ()), given=lines if has_crl else lines.rsplit("\n", 2)[0] + "\n")
    leader = t.open("ca.db", *ca.signing())
    control = t.control()
    copy = Copy(t, address(leader.port), signing=responder.words())
    copy.is_like(control)
    t.same(ca.reads("05", body_of(t, copy.desk.ask("POST", "/ocsp", ca.asks("05"), headers=[OCSP]))), "revoked", "OCSP")
    number = 2 if has_crl else 1
    t.same(control.ask("crl"), f"crl {number} entries 1")
    copy.is_like(control)
    copy.is_sound()
    ca.verifies(parted(copy.desk.ask("GET", "/crl"))[2])
    t.same([control.ask("request 06 superseded").split()[0], control.ask("revoke 2")], ["request", "revoked"])
    copy.follows(leader)
    t.same(ca.reads("06", body_of(t, copy.desk.ask("POST", "/ocsp", ca.asks("06"), headers=[OCSP]))), "revoked", "OCSP after a revocation")
    t.same(copy.lines.ask("crl"), "follower", "a CRL of the copy")
    t.same(copy.refused, 0, "refused pages")
    copy.desk.end()
    t.same(control.ask("crl"), f"crl {number + 1} entries 2")
    Copy(t, address(leader.port), signing=responder.words()).is_like(control)


@each({it: it for it in KEYS if it != "ecdsa-sha256"}, seconds=6)
def crls_of_the_other_algorithms(t, algorithm):
    """A copy with a responder of its own takes the CRLs that the leader's key signed, whatever its algorithm is."""
    ca = Authority(t, algorithm)
    responder = Responder(ca)
    ca.signer()
    responder.signer()
    ca.register()
    t.done("script", "ca.db", given=first_day(now() - 3600))
    leader = t.open("ca.db", *ca.signing())
    control = t.control()
    copy = Copy(t, address(leader.port), signing=responder.words())
    copy.is_like(control)
    t.same(control.ask("crl"), "crl 2 entries 1")
    copy.is_like(control)
    ca.verifies(parted(copy.desk.ask("GET", "/crl"))[2])


@test(seconds=15)
def clients_take_its_answers(t):
    """openssl, GnuTLS, Java and curl ask a copy with a responder of its own, while the leader is away."""
    need("ocsptool", "javac", "java", "curl")
    ca, words = asked_at(t, "a responder")
    leader = t.open("ca.db", *ca.signing())
    copy = Copy(t, address(leader.port), signing=words)
    until(lambda: copy.health()[1]["leader"]["current"], "the leader")
    leader.end()
    url = f"http://127.0.0.1:{copy.desk.port}"
    for name, _ in LEAVES:
        told = t.tool("openssl", "ocsp", "-issuer", ca.pem, "-CAfile", "root.pem", "-cert", f"{name}.pem", "-url", f"{url}/ocsp").decode()
        t.has(told, "Response verify OK", f"openssl: {name}")
        t.has(told, f"{name}.pem: {name}\n", f"openssl: {name}")
        told = t.tool("ocsptool", f"--ask={url}/ocsp", "--load-issuer", ca.pem, "--load-cert", f"{name}.pem", "--load-trust", ca.pem,
                      "--verify-allow-broken").decode()  # fmt: skip
        t.has(told, "Verifying OCSP Response: Success", f"GnuTLS: {name}")
        t.has(told, f"Certificate Status: {name}", f"GnuTLS: {name}")
    (t.room / "Checked.java").write_text(JAVA)
    t.tool("javac", "Checked.java")
    told = t.tool("java", "-cp", t.room, "Checked", "root.pem", f"{url}/ocsp", "good.pem", "revoked.pem").decode().split()
    t.same(told, ["good", "REVOKED"], "Java")
    ca.verifies(t.tool("curl", "-s", "-f", f"{url}/crl"))


# ---- a follower that is stopped, and one whose disk is full


@test(seconds=60)
def a_copy_is_stopped_at_any_write(t):
    """It is killed in place of a write or a sync, while it fills its file or follows, and what was not synced is lost. Its file stays sound."""
    t.register(lines=LINES)
    t.clock(CLOCK)
    leader, control = t.open(), t.control()
    random, number, stopped = Random(58), 2, 0
    for turn in range(40):
        if turn % 4 == 0:
            faults.copy(None, t.room / "copy.db")
        # An opening makes fewer writes than filling does.
        most = 60 if (t.room / "copy.db").exists() else 400
        env = faults.environment(stop=random.randrange(1, most), lose=turn + 1, torn=turn % 2)
        words = ["follow", "copy.db", "--from", address(leader.port), "--port", str(program.free_port()), "--unsigned"]
        nowhere = subprocess.DEVNULL
        process = subprocess.Popen([program.program(), *words], cwd=t.room, env=program.environment(t._clock, env), stdout=nowhere, stderr=nowhere)
        for _ in range(8):
            number += 1
            t.same(control.ask(f"subscriber s{number}"), f"subscriber {number}")
        try:
            stopped += process.wait(2 * program.PATIENCE) == -signal.SIGKILL
        except subprocess.TimeoutExpired:
            process.kill()
            process.wait()
        if (t.room / "copy.db").exists():
            t.true(t.done("audit", "copy.db").startswith("sound"), f"desk audit after turn {turn}")
    t.true(stopped > 4, f"{stopped} stops at a write")
    copy = Copy(t, address(leader.port))
    copy.is_like(control)
    copy.is_sound()


@test(seconds=6)
def a_full_disk(t):
    """Writes fail: the copy says so, keeps its records, and answers until its lag is over. With a disk again, it catches up."""
    t.register(lines=LINES)
    t.clock(CLOCK)
    leader, control = t.open(), t.control()
    Copy(t, address(leader.port)).desk.end()
    # How many writes an opening makes.
    opened = Copy(t, address(leader.port), faults=faults.environment(count=t.room / "count", only="copy.db,copy.db-wal"))
    opened.follows(leader)
    writes = faults.counted(t.room / "count")["write"]
    opened.desk.end()
    copy = Copy(t, address(leader.port), "--lag", "6", faults=faults.environment(fail=f"write:{writes + 1}+", only="copy.db,copy.db-wal"))
    until(lambda: copy.health()[1]["leader"]["current"], "the leader")
    before = copy.leader["positions"]
    t.same(control.ask("subscriber third"), "subscriber 3")
    until(lambda: copy.leader["failure"] == "F2 store", "the failure")
    t.same((parted(copy.desk.ask("GET", "/status/05"))[0], copy.leader["positions"]), (200, before), "an answer, and the positions")
    until(lambda: parted(copy.desk.ask("GET", "/status/05"))[0] == 503, "the end of the lag")
    copy.desk.end()
    Copy(t, address(leader.port)).is_like(control)


# ---- transport

# A site that shows the changes to clients of a CA, and one at a Unix socket that fetches them with a client certificate.
NEAR_LEADER = """server {{
    listen 127.0.0.1:{tls} ssl;
    ssl_certificate {room}/desk.pem;
    ssl_certificate_key {room}/desk.key;
    ssl_client_certificate {room}/office.pem;
    ssl_verify_client on;
    location = /changes {{ proxy_pass http://127.0.0.1:{port}; }}
}}
"""
NEAR_COPY = """server {{
    listen unix:{room}/lead;
    location = /changes {{
        proxy_pass https://127.0.0.1:{tls};
        proxy_http_version 1.1;
        proxy_ssl_certificate {room}/{client}.pem;
        proxy_ssl_certificate_key {room}/{client}.key;
        proxy_ssl_trusted_certificate {room}/desk.pem;
        proxy_ssl_verify on;
        proxy_ssl_name localhost;
    }}
}}
"""


def nginx(t, name, site, before=()):
    """Starts nginx with a site, until the test ends. `before` are the words of a program that starts it."""
    folder = t.room / name
    folder.mkdir()
    (folder / "desk.conf").write_text(site)
    user = "user root;\n" if os.getuid() == 0 else ""
    (folder / "nginx.conf").write_text(AROUND.format(user=user, folder=folder))
    words = [*before, "nginx", "-c", str(folder / "nginx.conf"), "-e", str(folder / "error.log"), "-g", "daemon off;"]
    t.note(" ".join(words))
    process = subprocess.Popen(words, cwd=folder, stdin=subprocess.DEVNULL)
    t.callback(end, process)
    return process


@test(seconds=8)
def through_nginx_with_client_certificates(t):
    """Two web servers are between the copy and the leader: one has a client certificate, the other asks for it. A stranger gets no page."""
    need("nginx")
    certificates(t)
    t.register(lines=LINES)
    t.clock(CLOCK)
    leader = t.open()
    tls = program.free_port()
    nginx(t, "first", NEAR_LEADER.format(tls=tls, room=t.room, port=leader.port))
    stranger = nginx(t, "stranger-s", NEAR_COPY.format(tls=tls, room=t.room, client="stranger"))
    until((t.room / "lead").exists, "the socket of the web server")
    process = subprocess.Popen(
        [program.program(), "follow", "copy.db", "--from", "lead", "--port", str(program.free_port()), "--unsigned"],
        cwd=t.room, env=program.environment(clock=t._clock), stderr=subprocess.PIPE,
    )  # fmt: skip
    t.callback(end, process)
    t.same(process.stderr.readline(), b"follow: leader answered 400\n", "what a follower with a stranger's certificate says")
    end(process)
    end(stranger)
    (t.room / "lead").unlink(missing_ok=True)
    nginx(t, "second", NEAR_COPY.format(tls=tls, room=t.room, client="clerk"))
    until((t.room / "lead").exists, "the socket of the web server")
    control = t.control()
    copy = Copy(t, "lead")
    copy.is_like(control)
    t.same(control.ask("subscriber third"), "subscriber 3")
    copy.is_like(control)


def accepts(port):
    with contextlib.suppress(OSError):
        socket.create_connection(("127.0.0.1", port)).close()
        return True
    return False


@test(seconds=8)
def through_ssh(t):
    """`ssh -L` leads from a Unix socket to the leader's port."""
    need("ssh", "sshd")
    t.register(lines=LINES)
    t.clock(CLOCK)
    leader = t.open()
    port = program.free_port()
    for name in ("host", "user"):
        t.tool("ssh-keygen", "-q", "-t", "ed25519", "-N", "", "-f", t.room / name)
    (t.room / "authorized").write_bytes((t.room / "user.pub").read_bytes())
    for it in ("authorized", "host", "user"):
        (t.room / it).chmod(0o600)
    starts = t.tried(shutil.which("sshd"), "-t", "-f", "/dev/null", "-h", t.room / "host")
    if starts.returncode:
        raise Skipped(f"sshd can't start here: {starts.stderr.decode().strip()}")
    server = subprocess.Popen([
        shutil.which("sshd"), "-D", "-e", "-f", "/dev/null", "-p", str(port), "-h", t.room / "host", "-o", "ListenAddress=127.0.0.1",
        "-o", f"AuthorizedKeysFile={t.room}/authorized", "-o", "StrictModes=no", "-o", f"PidFile={t.room}/sshd.pid",
    ], stderr=subprocess.DEVNULL)  # fmt: skip
    t.callback(end, server)
    until(lambda: accepts(port), "sshd")
    words = ["ssh", "-N", "-F", "/dev/null", "-p", str(port), "-i", t.room / "user", "-o", "StrictHostKeyChecking=no",
             "-o", f"UserKnownHostsFile={t.room}/known", "-o", "ExitOnForwardFailure=yes",
             "-L", f"{t.room}/lead:127.0.0.1:{leader.port}", "127.0.0.1"]  # fmt: skip
    client = subprocess.Popen(list(map(str, words)), stderr=subprocess.DEVNULL)
    t.callback(end, client)
    until((t.room / "lead").exists, "the socket of ssh")
    copy = Copy(t, "lead")
    copy.is_like(t.control())


class Link:
    """Two hosts, each a network namespace, with a link between them. The first forwards to a desk's port, and the second has the Unix socket `lead`
    that leads there."""

    def __init__(self, t, port):
        need("ip", "tc", "socat")
        self.hosts, self.ends = [f"desk-{os.getpid()}-{port}-{it}" for it in "ab"], [f"d{port}a", f"d{port}b"]
        if os.geteuid() != 0 or ran("ip", "netns", "add", self.hosts[0]):
            raise Skipped("no network namespaces here")
        t.callback(ran, "ip", "netns", "del", self.hosts[0])
        steps = [("ip", "netns", "add", self.hosts[1]), ("ip", "link", "add", self.ends[0], "netns", self.hosts[0], "type", "veth",
                 "peer", "name", self.ends[1], "netns", self.hosts[1])]  # fmt: skip
        for host, at, last in zip(self.hosts, self.ends, (1, 2)):
            steps += [("ip", "-n", host, "addr", "add", f"10.9.8.{last}/24", "dev", at), ("ip", "-n", host, "link", "set", at, "up")]
        t.same([it for it in steps if ran(*it)], [], "steps that failed")
        t.callback(ran, "ip", "netns", "del", self.hosts[1])
        for words in (
            ("socat", f"UNIX-LISTEN:{t.room}/first,fork", f"TCP:127.0.0.1:{port}"),
            (*inside_of(self.hosts[0]), "socat", "TCP-LISTEN:9000,fork,reuseaddr", f"UNIX-CONNECT:{t.room}/first"),
            (*inside_of(self.hosts[1]), "socat", f"UNIX-LISTEN:{t.room}/lead,fork", "TCP:10.9.8.1:9000,connect-timeout=5"),
        ):
            t.note(" ".join(words))
            t.callback(end, subprocess.Popen(list(words), stdin=subprocess.DEVNULL, stderr=subprocess.DEVNULL))
        until(lambda: (t.room / "lead").exists() and (t.room / "first").exists(), "the forwarders")

    def cut(self, is_cut):
        ran("ip", "-n", self.hosts[0], "link", "set", self.ends[0], "down" if is_cut else "up")

    def lose(self, percent):
        """Drops this share of the packets that come to the second host, by a rule of `nft`; whether this kernel can."""
        rule = f"add rule inet link in numgen random mod 100 < {percent} drop"
        lines = ("add table inet link", "add chain inet link in { type filter hook input priority 0; }", rule)
        return ran(*inside_of(self.hosts[1]), "nft", "; ".join(lines)) == 0

    def quality(self, *words):
        """Sets the quality of the link by a queue of `tc`; whether this kernel has it."""
        return ran(*inside_of(self.hosts[1]), "tc", "qdisc", "replace", "dev", self.ends[1], "root", *words) == 0


def ran(*words):
    return subprocess.run(list(map(str, words)), capture_output=True, check=False).returncode


def inside_of(host):
    return ("ip", "netns", "exec", host)


def at_a_link(t, *words):
    """A leader, its control connection, and a copy at the other end of a link."""
    t.register(lines=LINES)
    t.clock(CLOCK)
    leader = t.open()
    it = Link(t, leader.port)
    return it, t.control(), Copy(t, "lead", *words)


def enter_all(t, control, numbers):
    for number in numbers:
        t.same(control.ask(f"subscriber s{number}"), f"subscriber {number}")


@test(seconds=40)
def over_a_bad_link(t):
    """The link between two hosts is slow, loses, repeats and swaps packets: the copy catches up."""
    it, control, copy = at_a_link(t)
    copy.is_like(control)
    qualities = (("delay", "100ms", "20ms"), ("loss", "10%"), ("delay", "50ms", "loss", "5%", "duplicate", "5%", "reorder", "20%"))
    for turn, words in enumerate(qualities):
        if not it.quality("netem", *words):
            raise Skipped("no tc netem in this kernel")
        enter_all(t, control, range(3 + 20 * turn, 23 + 20 * turn))
        copy.is_like(control)


@test(seconds=30)
def over_a_link_that_loses_packets(t):
    """Each tenth packet to the copy is lost, and later a third of the others, too: the copy catches up."""
    need("nft")
    it, control, copy = at_a_link(t)
    copy.is_like(control)
    for first, percent in ((3, 10), (23, 33)):
        if not it.lose(percent):
            raise Skipped("no nft numgen in this kernel")
        enter_all(t, control, range(first, first + 20))
        copy.is_like(control)


@test(seconds=15)
def over_a_link_with_a_delay(t):
    """Each piece takes 300 ms in each direction. A reply that waits for the copy comes, too."""
    t.register(lines=LINES)
    t.clock(CLOCK)
    leader = t.open("ca.db", "--confirm-by", "1")
    t.enter_context(Forward(t.room / "lead", leader.port, 0.3))
    copy, control = Copy(t, "lead"), t.control()
    until(lambda: copy.leader["current"], "the leader")
    took, reply = timed(lambda: control.ask("subscriber third"))
    t.same((reply, copy.leader["positions"][:2]), ("subscriber 3", "3."), "the reply, and the positions of the copy")
    t.true(took > 0.5, f"{took} seconds to a reply, with two ways of 300 ms")
    copy.is_like(control)


@test(seconds=20)
def over_a_slow_link(t):
    """At 200 kbit/s, with room for few packets."""
    it, control, copy = at_a_link(t)
    if not it.quality("tbf", "rate", "200kbit", "burst", "4kbit", "latency", "100ms"):
        raise Skipped("no tc tbf in this kernel")
    enter_all(t, control, range(3, 103))
    copy.is_like(control)


@test(seconds=30)
def over_a_link_that_is_cut(t):
    """Once its lag is over, the copy answers nothing; once the link is there again, it catches up."""
    it, control, copy = at_a_link(t, "--lag", "4")
    copy.is_like(control)
    for turn in range(2):
        it.cut(True)
        enter_all(t, control, range(3 + 10 * turn, 13 + 10 * turn))
        until(lambda: parted(copy.desk.ask("GET", "/status/05"))[0] == 503, "the end of the lag")
        t.same(copy.lines.ask("counts"), "behind", "a query after the lag")
        it.cut(False)
        until(lambda: parted(copy.desk.ask("GET", "/status/05"))[0] == 200, "answers again")
        copy.is_like(control)


# ---- replies that wait for followers


class Sender(threading.Thread):
    """A control connection of its own that sends a line, and keeps its reply once that has come."""

    def __init__(self, t, line, path="control"):
        super().__init__(daemon=True)
        self.lines, self.line, self.reply = t.control(path), line, None
        self.start()

    def run(self):
        with contextlib.suppress(OSError):
            self.reply = self.lines.ask(self.line)


@test(seconds=8)
def a_reply_waits_for_a_follower(t):
    """With --confirm-by 1 and no follower, a command runs, and gets no reply. Queries, HTTP and other connections go on. /health says since when."""
    t.register(lines=LINES)
    t.clock(CLOCK)
    leader = t.open("ca.db", "--confirm-by", "1")
    health = lambda: json.loads(parted(leader.ask("GET", "/health"))[2])
    t.same(health()["unconfirmed"], None, "unconfirmed")
    other = t.control()
    sender = Sender(t, "subscriber third")
    until(lambda: health()["unconfirmed"] == CLOCK, "the moment of the command in /health")
    sender.join(1)
    t.same(sender.reply, None, "a reply without a follower")
    t.same(other.ask("next-crl")[:8], "next-crl", "a query of another connection")
    t.same(parted(leader.ask("GET", "/counts"))[0], 200, "HTTP")
    t.same(asked(t, leader)[1].count(("subscriber", "3 third")), 1, "the row in the feed")
    t.clock("2026-01-03T00:00:11Z")
    code, _, body = parted(leader.ask("GET", "/health"))
    t.same((code, json.loads(body)["status"]), (503, "failing"), "health after eleven seconds")
    copy = Copy(t, address(leader.port))
    sender.join(60 * program.PATIENCE)
    t.same(sender.reply, "subscriber 3", "the reply once a follower has the row")
    t.same(health()["unconfirmed"], None, "unconfirmed after the reply")
    copy.is_like(other)
    # From now on a reply comes as soon as the follower has synced the row.
    for number in range(4, 14):
        t.same(other.ask(f"subscriber s{number}"), f"subscriber {number}")
        t.true(int(copy.leader["positions"].split(".")[0]) >= number, f"positions of the copy after subscriber {number}")
    t.same(other.ask("crl"), "crl 4 entries 2", "a CRL")
    t.true(int(copy.leader["positions"].split(".")[5]) >= 4, "positions of the copy after a CRL")


@test(seconds=4)
def a_request_without_a_number_confirms_nothing(t):
    """Nor does one with a number but without the last rows."""
    t.register(lines=LINES)
    t.clock(CLOCK)
    leader = t.open("ca.db", "--confirm-by", "1")
    before = feed_after(t, leader)[3]
    sender = Sender(t, "subscriber third")
    until(lambda: json.loads(parted(leader.ask("GET", "/health"))[2])["unconfirmed"], "the command")
    reached = feed_after(t, leader)[3]
    for after in (reached, f"{before}&follower=7"):
        asked(t, leader, after)
        sender.join(0.5)
        t.same(sender.reply, None, f"the reply after a request with {after}")
    asked(t, leader, f"{reached}&follower=7")
    sender.join(60 * program.PATIENCE)
    t.same(sender.reply, "subscriber 3", "the reply after a request of a follower with the row")


@test(seconds=12)
def a_reply_waits_for_two_followers(t):
    t.register(lines=LINES)
    t.clock(CLOCK)
    leader = t.open("ca.db", "--confirm-by", "2")
    first = Copy(t, address(leader.port), "--follower", "1")
    sender = Sender(t, "subscriber third")
    until(lambda: first.leader["positions"].startswith("3."), "the row at the first follower")
    sender.join(2)
    t.same(sender.reply, None, "a reply with one follower")
    # A follower that is started again has the same number.
    first.desk.end()
    first = Copy(t, address(leader.port), "--follower", "1")
    until(lambda: first.leader["current"], "the first follower again")
    sender.join(1)
    t.same(sender.reply, None, "a reply with one follower that was started twice")
    second = Copy(t, address(leader.port), "--follower", "2", file="copy-2.db")
    sender.join(60 * program.PATIENCE)
    t.same((sender.reply, second.leader["positions"][:2]), ("subscriber 3", "3."), "the reply with two followers")


@test(seconds=40)
def no_acknowledged_command_is_lost(t):
    """The leader is killed at random moments, and its file destroyed: each acknowledged command is in the follower's file, which takes over."""
    random = Random(58)
    t.register(lines=LINES)
    t.clock(CLOCK)
    number, acknowledged, file = 2, [], "ca.db"
    for turn in range(8):
        leader = t.open(file, "--confirm-by", "1", "--control", f"lead-{turn}")
        next_file = f"copy-{turn}.db"
        copy = Copy(t, address(leader.port), file=next_file)
        lines = t.control(f"lead-{turn}")
        killer = threading.Timer(random.uniform(0.2, 2) * program.PATIENCE, leader.process.kill)
        killer.start()
        with contextlib.suppress(OSError):
            for at in range(1_000):
                name = f"t{turn}-{at}"
                if not lines.ask(f"subscriber {name}").startswith("subscriber "):
                    break
                acknowledged.append(name)
        killer.join()
        leader.process.wait()
        copy.desk.end()
        names = {name for (name,) in t.sql(next_file, "SELECT name FROM subscriber")}
        t.same([it for it in acknowledged if it not in names], [], f"acknowledged commands that the copy of turn {turn} lacks")
        (t.room / file).unlink()
        file = next_file
    t.true(len(acknowledged) > 8, f"{len(acknowledged)} acknowledged commands")
    t.true(t.done("audit", file).startswith("sound"), "desk audit")


@test(seconds=3)
def a_client_that_asks_for_changes_by_hand(t):
    """The number of a follower and `wait` are optional, and anything else after the positions can't be read."""
    leader, control, copy = led(t)
    copy.follows(leader)
    positions = copy.leader["positions"]
    copy.desk.end()
    wrong = ("&follower=", "&follower=x", "&wait=2", "&wait=1&follower=7", "&follower=7&follower=8")
    for more, status in (("", 200), ("&follower=7", 200), ("&wait=1", 200), ("&follower=7&wait=1", 200), *[(it, 400) for it in wrong]):
        t.same(parted(leader.ask("GET", f"/changes?after={positions}{more}"))[0], status, f"status with {more!r}")


@test(seconds=5)
def a_request_without_news_waits(t):
    """With `wait=1` the desk answers after a second, or once a line or a request for revocation has added a row. Others are answered meanwhile."""
    t.register(lines=LINES)
    t.clock(CLOCK)
    leader, control = t.open(), t.control()
    body = '{"ground":"asked","serial":"08"}'
    for add in (lambda: control.ask("subscriber third"), lambda: leader.ask("POST", "/requests", body)):
        positions = Tables(taken(t, control)).positions()
        waiting_for = lambda: asked(t, leader, f"{positions}&wait=1")
        # Now the desk knows that its feed ends there.
        t.same(asked(t, leader, positions)[1:4], ([], {}, True), "a page without rows")
        took, page = timed(waiting_for)
        t.true(0.9 < took < 4 * program.PATIENCE, f"{took} seconds without news")
        t.same(page[1:4], ([], {}, True), "a page without rows, a second later")
        waiting = Waiting(waiting_for)
        waiting.join(0.3)
        t.true(waiting.is_alive(), "an answer at once, without news")
        t.same(parted(leader.ask("GET", "/counts"))[0], 200, "another request meanwhile")
        add()
        waiting.join(60 * program.PATIENCE)
        t.same(len(waiting.answer[1]), 1, "rows of the page that waited")


def timed(call):
    began = time.monotonic()
    answer = call()
    return time.monotonic() - began, answer


class Waiting(threading.Thread):
    """A call in a thread of its own, and its result once that has come."""

    def __init__(self, call):
        super().__init__(daemon=True)
        self.call, self.answer = call, None
        self.start()

    def run(self):
        self.answer = self.call()
