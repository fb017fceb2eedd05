"""What a follower asks, and when; which pages it drops; how a new copy begins; which requests wait at a leader, and which confirm a command. The
tests set the elapsed time of the follower or of the leader, and mostly the other one is a server of this file."""

import contextlib
import json
import os
import re
import select
import signal
import socket
import sqlite3
import subprocess
import threading
import time
from random import Random

from groups.changes import KINDS, LINES, Tables, asked, page_of, taken
from groups.follow import CLOCK, LATER, OCSP, Copy, Leader, Sender, Waiting, address, led, paged, refuses
from groups.responder import Responder
from lib import faults, program
from lib.authority import Authority, body_of, end, first_day, now, until
from lib.passing import Passing
from lib.program import hold, parted, read_all
from lib.trial import each, test


class Server:
    """A leader of the test. `answer` is a status and a body, or a function that gives these for a target, or None for no answer. `targets` are those
    that it was asked for, `requests` the whole requests, and `answered` says how many it has answered."""

    def __init__(self, answer, port=None):
        self.answer, self.answered, self.targets, self.requests, self.silent = answer, 0, [], [], []
        self.port = port or program.free_port()
        self.server = socket.create_server(("127.0.0.1", self.port))
        threading.Thread(target=self.serve, daemon=True).start()

    def serve(self):
        with contextlib.suppress(OSError):
            while True:
                client, _ = self.server.accept()
                self.requests.append(client.recv(65536).decode("latin-1"))
                self.targets.append(self.requests[-1].partition(" HTTP")[0].partition(" ")[2])
                answer = self.answer(self.targets[-1]) if callable(self.answer) else self.answer
                if answer is None:
                    self.silent.append(client)
                    continue
                status, body = answer
                with client, contextlib.suppress(OSError):
                    client.sendall(f"HTTP/1.1 {status} X\r\nContent-Length: {len(body)}\r\n\r\n".encode() + body)
                self.answered += 1

    def __enter__(self):
        return self

    def __exit__(self, *_):
        with contextlib.suppress(OSError):
            self.server.shutdown(socket.SHUT_RDWR)
        self.server.close()
        for client in self.silent:
            client.close()


# ---- a follower whose elapsed time the test sets

# How many requests it makes at once after its start: one before which it does not know the schedule of its file, one after that news, and one more.
FIRST = 3


def with_rows(tables, **rows):
    """The same tables with more rows."""
    it = Tables.__new__(Tables)
    it.__dict__.update(tables.__dict__, lines={kind: [*tables.lines[kind], *rows.get(kind, [])] for kind in KINDS})
    return it


def no_news(tables, last=None):
    return 200, (paged(tables, [], last=last) if last else tables.head + f"end {tables.positions()}\n".encode())


class Slow(Passing):
    """A follower of a copy of the register of LINES. Its elapsed time is set by the test, and its leader is a server of the test."""

    def __init__(self, t, *words, **how):
        leader, control, copy = led(t)
        copy.is_like(control)
        copy.desk.end()
        leader.end()
        self.tables = Tables(t.room / "taken.db")
        self.leader = t.enter_context(Server(no_news(self.tables), leader.port))
        super().__init__(t, "--from", address(leader.port), "--control", "copy", "--unsigned", *words, file="copy.db", command="follow", **how)

    def health(self):
        return json.loads(parted(self.desk.ask("GET", "/health"))[2])["leader"]

    def asks(self, count):
        """Checks that it has asked so many times, and does not ask again while no time passes."""
        until(lambda: len(self.leader.targets) >= count, f"request {count} of the follower", seconds=15)
        until(lambda: self.leader.answered >= count, f"the answer to request {count}", seconds=15)
        for _ in range(3):
            self.health()
        self.t.same(len(self.leader.targets), count, "requests of the follower")

    def asks_after(self, millis):
        """Checks that it asks again after so many milliseconds, and not before."""
        count = len(self.leader.targets)
        self.set_forward(millis - 1)
        self.asks(count)
        self.set_forward(1)
        self.health()
        self.asks(count + 1)


@each({"may wait": ((), 10, "&wait=1"), "does not wait": (("--lag", "4"), 200, "")}, seconds=3)
def a_request_of_a_follower(t, words, pause, more):
    """When it asks, what, and that it keeps neither descriptors nor writes of what it asked."""
    it = Slow(t, *words)
    it.asks(FIRST)
    it.asks_after(pause)
    # Without news nothing is written.
    written = lambda: [os.stat(t.room / f"copy.db{end}").st_mtime_ns for end in ("", "-wal") if (t.room / f"copy.db{end}").exists()]
    before, files = written(), it.files
    for _ in range(4):
        it.asks_after(pause)
    t.same(written(), before, "the last changes of its files")
    until(lambda: it.files <= files, f"no more descriptors than {files}; it has {it.files}")
    # After news it asks at once, so that the leader knows that it has them, and once more, to wait for the next ones.
    then = with_rows(it.tables, subscriber=["3 x"])
    news = 200, paged(it.tables, ["subscriber 3 x"], tail=f"end {then.positions()}")
    it.leader.answer = lambda target: no_news(then, LATER) if then.positions() in target else news
    count = len(it.leader.targets)
    it.set_forward(pause)
    it.health()
    it.asks(count + 3)
    t.same(it.health()["positions"], then.positions(), "its positions")
    # After a failure it waits for a second.
    it.leader.answer = (500, b"")
    count = len(it.leader.targets)
    it.set_forward(pause)
    it.health()
    it.asks(count + 1)
    it.asks_after(1_000)
    it.asks_after(1_000)
    t.same(it.health()["failure"], "leader answered 500", "the failure")
    # Its first request has neither its number nor the schedule of its file, which it has not read.
    t.same(it.leader.targets[0], f"/changes?after={it.tables.positions()}", "its first request")
    numbers = {target.partition("&follower=")[2].partition("&")[0] for target in it.leader.targets[1:]}
    asked_for = lambda tables: [f"/changes?after={tables.positions()}&follower={number}{more}" for number in numbers]
    t.same(len(numbers), 1, "numbers of the follower")
    t.same({*it.leader.targets[1:]}, {*asked_for(it.tables), *asked_for(then)}, "what it asked for")
    steps = next(line.partition(" ")[2] for line in it.tables.head.decode().splitlines() if line.startswith("schedule "))
    t.same([schedule_given(head) for head in it.leader.requests], [None] + [steps] * (len(it.leader.requests) - 1), "the schedules that it gave")


def schedule_given(head):
    """The value of the header `desk-schedule` of a request; None without it."""
    return next((line.partition(": ")[2] for line in head.split("\r\n") if line.startswith("desk-schedule: ")), None)


@test(seconds=2)
def a_feed_that_breaks_off(t):
    """A page came, and the next one does not: the follower drops it, and fetches it again. 409 after a page does not mean that it has diverged."""
    it = Slow(t)
    it.asks(FIRST)
    middle, last = with_rows(it.tables, subscriber=["3 x"]), with_rows(it.tables, subscriber=["3 x", "4 y"])
    first = 200, paged(it.tables, ["subscriber 3 x"], tail=f"more {middle.positions()}")
    second = 200, paged(it.tables, ["subscriber 4 y"], tail=f"end {last.positions()}")
    after = lambda tables: f"/changes?after={tables.positions()}"
    answers = iter([first, (409, b"{}"), first, (503, b""), first, second, (409, b"{}"), no_news(last, LATER)])
    it.leader.answer = lambda target: next(answers)
    wanted = [after(it.tables)] * FIRST + [after(it.tables), after(middle)] * 3 + [after(last)] * 2
    entered = it.health()["pages"]
    it.set_forward(10)
    it.health()
    for count, failure in ((2, "leader answered 409"), (4, "leader answered 503")):
        it.asks(FIRST + count)
        got = it.health()
        t.same((got["failure"], got["diverged"], got["positions"]), (failure, False, it.tables.positions()), "after a page, and none after it")
        it.set_forward(1_000)
        it.health()
    # Now it has all pages, and asks again at once. 409 then means that it has diverged.
    it.asks(FIRST + 7)
    got = it.health()
    t.same((got["positions"], got["pages"] - entered, got["refused"]), (last.positions(), 2, 0), "positions, and pages")
    t.same((got["diverged"], got["failure"], got["current"]), (True, "leader answered 409", True), "after 409 without a page")
    it.set_forward(1_000)
    it.health()
    it.asks(FIRST + 8)
    got = it.health()
    t.same((got["diverged"], got["failure"], got["current"]), (False, None, True), "once the leader has its records")
    t.same([target.partition("&")[0] for target in it.leader.targets], wanted, "what it asked for")


@test(seconds=5)
def a_leader_that_is_too_far_ahead(t):
    """After 512 pages without an end the follower says so. It answers until its lag is over, and then ends."""
    it = Slow(t)
    it.asks(FIRST)
    counts = it.tables.positions().split(".")
    page = lambda number: (200, paged(it.tables, [f"subscriber {number} s{number}"], tail="more " + ".".join([str(number), *counts[1:]])))
    pages = iter(range(3, 10_000))
    it.leader.answer = lambda target: page(next(pages))
    it.set_forward(10)
    until(lambda: it.health()["failure"] or len(it.leader.targets) > FIRST + 512, "512 pages")
    got = it.health()
    t.same((got["failure"], got["refused"], got["diverged"], len(it.leader.targets)), ("too far behind", 1, False, FIRST + 512), "after 512 pages")
    t.same(parted(it.desk.ask("GET", "/status/05"))[0], 200, "an answer within the lag")
    it.set_forward(60_000)
    with contextlib.suppress(OSError):
        it.desk.ask("GET", "/health")
    ran = it.desk.wait()
    t.same((ran.status, ran.err_lines[-1]), (1, "too-far-behind"), "its end")


@test(seconds=4)
def a_leader_that_is_512_pages_ahead(t):
    """That is not too far: the follower enters all of them."""
    it = Slow(t)
    it.asks(FIRST)
    rows = [f"{number} s{number}" for number in range(3, 515)]
    after = [with_rows(it.tables, subscriber=rows[:count]) for count in range(1, len(rows) + 1)]
    ends = ["more"] * (len(rows) - 1) + ["end"]
    pages = iter([(200, paged(it.tables, [f"subscriber {row}"], tail=f"{end} {then.positions()}")) for row, end, then in zip(rows, ends, after)])
    it.leader.answer = lambda target: next(pages, no_news(after[-1], LATER))
    it.set_forward(10)
    until(lambda: it.health()["failure"] or it.health()["positions"] == after[-1].positions(), "512 pages")
    got = it.health()
    t.same((got["failure"], got["refused"], got["positions"]), (None, 0, after[-1].positions()), "after 512 pages")


def megabytes(it, count, number=4):
    """A page with a CRL of so many megabytes, which is not the last one. Its rows are checked only once there is a last page."""
    counts = it.tables.positions().split(".")
    size = count * 1_000_000 + 1
    tail = "more " + ".".join([*counts[:5], str(number), *counts[6:]])
    return 200, paged(it.tables, [f"crl {number} {LATER} {size}"], tail=tail, octets=bytes(size) + b"\n")


@each({"one of 160": (160,), "two of 40 and one of 80": (40, 40, 80)}, seconds=5)
def pages_of_160_megabytes(t, *sizes):
    """The same after pages of 160 MB together."""
    it = Slow(t)
    it.asks(FIRST)
    pages = iter([megabytes(it, size, number) for number, size in enumerate(sizes, 4)])
    it.leader.answer = lambda target: next(pages, (500, b""))
    it.set_forward(10)
    until(lambda: it.health()["failure"], "the failure")
    t.same((it.health()["failure"], len(it.leader.targets)), ("too far behind", FIRST + len(sizes)), "after the last one")


@test(seconds=5)
def the_bytes_of_dropped_pages_do_not_count(t):
    it = Slow(t)
    it.asks(FIRST)
    page = megabytes(it, 90)
    it.leader.answer = lambda target: page if (len(it.leader.targets) - FIRST) % 2 else (500, b"")
    it.set_forward(10)
    for count in (FIRST + 2, FIRST + 4):
        until(lambda: it.leader.answered >= count or it.health()["failure"] == "too far behind", "a page, and none after it")
        until(lambda: it.health()["failure"], "the failure")
        t.same(it.health()["failure"], "leader answered 500", f"why request {count} failed")
        it.set_forward(1_000)
        it.health()


@test(seconds=2)
def a_lag_without_a_leader(t):
    """A follower that has not reached its leader since its start answers nothing; its lag is the time since its start."""
    it = Slow(t)
    it.asks(FIRST)
    it.desk.end()
    it.leader.__exit__()
    it = Passing(t, "--from", address(it.leader.port), "--unsigned", file="copy.db", command="follow")
    it.set_forward(7_500)
    got = json.loads(parted(it.desk.ask("GET", "/health"))[2])["leader"]
    t.same((got["current"], got["lag"], got["failure"], got["pages"]), (False, 7, "leader unreachable", 0), "health")
    t.same(parted(it.desk.ask("GET", "/status/05"))[0], 503, "status")


@test(seconds=2)
def lines_that_a_follower_refuses_are_in_its_log(t):
    it = Slow(t)
    it.asks(FIRST)
    lines = t.control("copy")
    for line in ("crl", "revoke 4", "counts"):
        lines.ask(line)
    logged = lambda: [text.split('"')[1::2] for text in it.desk.log if " control " in text]
    t.same(logged(), [["crl", "follower"], ["revoke 4", "follower"], ["counts", lines.ask("counts")]], "lines and replies in the log")


@test(seconds=3)
def connections_that_a_follower_loses_are_in_its_log(t):
    """One client resets, one leaves the control socket before its reply, one is late, and one is evicted because no descriptor is left."""
    it = Slow(t)
    it.asks(FIRST)
    lost = lambda: [line for line in it.desk.log if " lost " in line]

    def loses(client, why):
        """Waits until the log has this line."""
        until(lambda: f"{CLOCK} {client} lost {why}" in lost(), f"the line `lost {why}` of {client}; it has {lost()}", seconds=10)

    with it.comes(b"GET /coun") as gone:
        named = "127.0.0.1:%d" % gone.getsockname()[1]
        # With this option, close(2) sends a reset.
        gone.setsockopt(socket.SOL_SOCKET, socket.SO_LINGER, b"\1\0\0\0\0\0\0\0")
    loses(named, "broken")
    hold(it.desk.process)
    with program.Control(t.room / "copy") as control:
        control.stream.sendall(b"counts\n")
    it.desk.process.send_signal(signal.SIGCONT)
    loses("control", "broken")
    late = it.comes(b"GET /coun")
    it.set_forward(30_000)
    loses("127.0.0.1:%d" % late.getsockname()[1], "late")
    t.same(len(lost()), 3, f"lost connections in the log: {lost()}")
    it.asks(FIRST + 1)
    first = it.comes(b"GET /coun")
    t.tool("prlimit", "--pid", it.desk.process.pid, f"--nofile={it.files}:{it.files}")
    for _ in range(3):
        t.enter_context(it.desk.connect())
    loses("127.0.0.1:%d" % first.getsockname()[1], "crowded")


@test(seconds=4)
def a_responder_that_ends(t):
    """Its /metrics say when the certificate of its responder ends."""
    ca = Authority(t)
    responder = Responder(ca)
    ca.signer()
    responder.signer()
    ca.register()
    leader = t.open("ca.db", *ca.signing())
    copy = Copy(t, address(leader.port), signing=responder.words())
    told = t.tool("openssl", "x509", "-in", responder.pem, "-noout", "-enddate", "-dateopt", "iso_8601").decode().strip().partition("=")[2]
    wanted = program.seconds_of(told.replace(" ", "T"))
    series = f"desk_responder_certificate_not_after_timestamp_seconds {wanted}"
    t.has(parted(copy.desk.ask("GET", "/metrics"))[2].decode(), series, "metrics")


# ---- a new copy


def fills(t, answer):
    """A leader of the register of LINES whose answers are changed: `answer` gets a target and the leader's own status and body."""
    t.register(lines=LINES)
    t.clock(CLOCK)
    leader = t.open()
    changed = lambda target: answer(target, *parted(leader.ask("GET", target))[::2])
    return leader, t.enter_context(Server(changed))


@test(seconds=4)
def a_new_copy_of_a_leader_that_fails(t):
    """Its leader answers with 503 twice, and again to the request for the second page: it asks for that page again, and says the failure once. Then
    the leader no longer knows the first page: it asks for all pages again. Its requests don't have its number: it has stored nothing yet."""
    failures = iter([(503, b""), (503, b""), None, (503, b""), (409, b"{}")])
    leader, server = fills(t, lambda target, status, body: next(failures, None) or (status, body))
    copy = Copy(t, address(server.port), "--follower", 7)
    t.same([it for it in copy.desk.log if it.startswith("follow:")], ["follow: leader answered 503"], "standard error")
    wanted = [*["/changes"] * 3, "/changes?after=", "/changes?after=", "/changes", "/changes?after="]
    t.same([re.sub(r"\d+(\.\w+)*$", "", it) for it in server.targets[:7]], wanted, "what it asked for, without the positions")
    copy.is_like(t.control())


def some_line(random):
    """A command with small numbers, which the register may refuse."""
    number = random.randrange(1, 40)
    return random.choice((
        f"subscriber s{random.randrange(10**6)}", f"order 2 {number}", f"register {number} {number:02x} {CLOCK} 2026-01-09T00:00:00Z",
        f"request {number:02x} {random.choice(('asked', 'misuse'))}", f"decline {number}", f"revoke {number}", "crl",
    ))  # fmt: skip


@test(seconds=8)
def commands_of_all_kinds_before_each_page(t):
    """The leader runs commands before each page that it gives, first to a new copy, then to one that follows. The copy takes all of their rows."""
    t.register(lines=LINES)
    t.clock(CLOCK)
    leader, control, random, entered = t.open(), t.control(), Random(58), []
    lines = [some_line(random) for _ in range(1_000)]

    def answer(target):
        t.clock(program.seconds_of(CLOCK) + 1_000 - len(lines) // 4)
        for _ in range(min(random.randrange(1, 8), len(lines))):
            line = lines.pop()
            if control.ask(line)[:1] not in "EF":
                entered.append(line.split()[0])
        return parted(leader.ask("GET", target))[::2]

    server = t.enter_context(Server(answer))
    copy = Copy(t, address(server.port))
    until(lambda: not lines, "all commands")
    copy.is_like(t.control())
    copy.is_sound()
    t.same(copy.refused, 0, "refused pages")
    kinds = {kind: entered.count(kind) for kind in ("subscriber", "order", "register", "request", "decline", "revoke", "crl")}
    t.true(min(kinds.values()) >= 10, f"how many commands the leader accepted: {kinds}")


@each({
    "another version": (b"changes 1\n", b"changes 2\n", "page of another version"),
    "a row that can't be read": (b"subscriber 2 ", b"subscriber two ", "malformed page"),
    "a row that breaks a rule": (b"subscriber 2 ", b"subscriber 3 ", "broken page: subscriber 3 other-row"),
    "an issuer whose name is none": (b"issuer 30", b"issuer 31", "malformed page"),
    "a page that leads nowhere": (b"\nend ", b"\nmore ", "broken page: positions other-positions"),
}, seconds=2)  # fmt: skip
def a_new_copy_of_a_page_that_is_wrong(t, part, other, failure):
    leader, server = fills(t, lambda target, status, body: (status, body.replace(part, other)))
    ran = t.desk("follow", "copy.db", "--from", address(server.port), "--port", program.free_port(), "--unsigned", timeout=20)
    t.same((ran.status, ran.err_lines), (1, [f"follow: {failure}", "broken-feed"]), "its end")
    t.same([it.name for it in t.room.iterdir() if it.name.startswith("copy.db")], [], "files that it left")


@test(seconds=7)
def a_leader_that_never_answers(t):
    """After five seconds without a byte a new copy, and one that nobody asks meanwhile, say that they can't reach their leader."""
    it = Slow(t)
    it.asks(FIRST)
    it.desk.end()
    server = t.enter_context(Server(lambda target: None))
    old = t.open("copy.db", "--from", address(server.port), "--unsigned", command="follow")
    words = ["follow", "new.db", "--from", address(server.port), "--port", str(program.free_port()), "--unsigned"]
    new = subprocess.Popen([program.program(), *words], cwd=t.room, stdin=subprocess.DEVNULL, stderr=subprocess.PIPE, env=program.environment())
    t.callback(end, new)
    said = Waiting(new.stderr.readline)
    until(lambda: said.answer and old.log, "what both say", seconds=15)
    t.same((said.answer, old.log), (b"follow: leader unreachable\n", ["follow: leader unreachable"]), "what they say")


# ---- CRLs with placeholder digests, and then signatures


def sets_out(t, by_issuer):
    """A CA with a responder, its register without records, and the options of a follower that expects CRLs of the CA's signer."""
    ca = Authority(t)
    responder = Responder(ca)
    ca.signer()
    responder.signer()
    ca.register()
    return ca, ca.signing() if by_issuer else responder.words()


FOLLOWERS = {"a follower with a responder": False, "a follower with the signer": True}


@each(FOLLOWERS, seconds=8)
def a_register_that_got_a_signer_later(t, by_issuer):
    """Its first CRLs have placeholder digests, the later ones signatures. A new copy takes all of them in one feed; so does a copy without a CRL, and
    one that has a digest."""
    ca, words = sets_out(t, by_issuer)
    t.done("script", "ca.db", given=first_day(now() - 3600).rsplit("\n", 2)[0] + "\n")
    leader = t.open("ca.db", "--unsigned")
    control = t.control()
    for file, line in (("none.db", "crl"), ("one.db", "request 06 superseded"), ("two.db", "crl")):
        copy = Copy(t, address(leader.port), file=file, signing=words)
        copy.is_like(control)
        # For a follower with the signer, a CRL with a signature is due at once. Without a CRL, one is due at once for each follower.
        t.same(copy.health()[1]["crl"], "at-once" if by_issuer or file == "none.db" else None, f"what /health says of the next CRL, {file}")
        copy.desk.end()
        t.true(control.ask(line)[0] not in "EF", line)
    leader.end()
    leader = t.open("ca.db", *ca.signing(), "--port", str(leader.port))
    control = t.control()
    replies = [control.ask(line).split(" due ")[0] for line in ("crl", "revoke 2", "subscriber third", "crl")]
    t.same(replies, ["crl 3 entries 1", "revoked", "subscriber 2", "crl 4 entries 2"])
    for file in ("new.db", "none.db", "one.db", "two.db"):
        copy = Copy(t, address(leader.port), file=file, signing=words)
        copy.is_like(control)
        copy.is_sound()
        ca.verifies(parted(copy.desk.ask("GET", "/crl"))[2])
        t.same(ca.reads("06", body_of(t, copy.desk.ask("POST", "/ocsp", ca.asks("06"), headers=[OCSP]))), "revoked", f"OCSP of {file}")
    t.same(control.ask("crl"), "crl 5 entries 2")
    copy.is_like(control)


@each(FOLLOWERS, seconds=6)
def a_digest_after_a_signature(t, by_issuer):
    """Once a CRL is signed, none with a placeholder digest is taken. Before, only one with the right digest is."""
    ca, words = sets_out(t, by_issuer)
    ca.register("digests.db")
    begins, later = now() - 3600, now_text(-1800)
    t.done("script", "ca.db", *ca.signing(), given=first_day(begins))
    t.done("script", "digests.db", given=first_day(begins))
    for file, rule in (("ca.db", "other-crl"), ("digests.db", "no-signature")):
        leader = t.open(file, *(ca.signing() if file == "ca.db" else ("--unsigned",)))
        copy = Copy(t, address(leader.port), "--lag", "3600", file=f"copy-{file}", signing=words)
        copy.is_like(t.control())
        tables = Tables(t.room / "taken.db")
        leader.end()
        # The CRL of the same records with a digest.
        if file == "ca.db":
            t.done("copy", "digests.db", "next.db")
            t.done("script", "next.db", given=f"{later} crl\n")
        ((der,),) = t.sql("next.db", "SELECT der FROM crl WHERE number = 2")
        wrong = der if file == "ca.db" else der[:-1] + bytes([der[-1] ^ 1])
        with Leader(leader.port, (500, b"")) as fake:
            page = lambda octets: paged(tables, [f"crl 2 {later} {len(octets)}"], last=later, octets=octets + b"\n")
            refuses(t, copy, fake, page(wrong), f"broken page: crl 2 {rule}", f"a digest for {file}")
            if file == "digests.db":
                refuses(t, copy, fake, page(der), "broken page: positions other-positions", "the right digest")
        copy.desk.end()


@test(seconds=5)
def a_disk_that_fails_while_the_latest_crl_is_read(t):
    """A follower with the signer gets a CRL with a digest, so it reads the latest CRL. If that fails, it says `F2 store`, and not `F1 memory`."""
    ca, words = sets_out(t, True)
    t.done("script", "ca.db", given=first_day(now() - 3600))
    der_of = lambda *parts: b"\x30\x83" + sum(map(len, parts)).to_bytes(3, "big") + b"".join(parts)
    with contextlib.closing(sqlite3.connect(t.room / "ca.db")) as it:
        # CRL 2 ends with the algorithm and the digest of CRL 1. A register's cache has room for 2,000 pages; its CRL takes more of 512 octets.
        ((first,),) = it.execute("SELECT der FROM crl").fetchall()
        it.execute("INSERT INTO crl SELECT 2, this_update, ? FROM crl", (der_of(der_of(bytes(1_200_000)), first[-34:]),))
        it.commit()
        for statement in ("PRAGMA journal_mode = delete", "PRAGMA page_size = 512", "VACUUM", "PRAGMA journal_mode = wal"):
            it.execute(statement)
    faults.copy(t.room / "ca.db", t.room / "base.db")
    t.done("script", "ca.db", given=f"{now_text(-1800)} crl\n")
    leader = t.open("ca.db", "--unsigned")

    def run(answer, requests, fail=None):
        """The counts of calls once it has asked its leader so many times or said something, and what it said."""
        faults.copy(t.room / "base.db", t.room / "copy.db")
        env = faults.environment(count=t.room / "count", same=1, only="copy.db,copy.db-wal", fail=fail)
        with Server(answer) as it, program.Opened(["follow", "copy.db", "--from", address(it.port), *words], cwd=t.room, faults=env) as desk:
            until(lambda: desk.log or len(it.targets) >= requests, f"the end of {fail}")
            return faults.counted(t.room / "count"), desk.end().err

    news = lambda target: (200, parted(leader.ask("GET", target))[2])
    (before, _), (after, told) = run(None, 1), run(news, 3)
    first, more = before["read"], after["read"] - before["read"]
    t.same((told, more > 100), (b"", True), f"what it says without a fault, and whether it reads the CRL: {more} reads")
    for at in (first + more // 4, first + more // 2, first + more // 4 * 3):
        count, told = run(news, 3, f"read:{at}")
        t.same((count["met"], told), (1, b"follow: F2 store\n"), f"read {at}: {first} before the CRL, {more} for it")


# ---- a leader whose elapsed time the test sets, and requests that wait at it


def waiting_for(positions):
    return f"GET /changes?after={positions}&wait=1 HTTP/1.1\r\nHost: ca\r\n\r\n".encode()


def waits(it, positions):
    """A client of a desk whose elapsed time is set, once that has read its request, which waits."""
    client = it.comes(waiting_for(positions))
    client.settimeout(10 * program.PATIENCE)
    return client


def is_answered(client):
    return bool(select.select([client], [], [], 0)[0])


def page_for(t, client):
    """The page that a client gets, without its head and positions."""
    with contextlib.suppress(TimeoutError):
        return page_of(t, parted(read_all(client))[2])[1:4]


@test(seconds=4)
def requests_that_wait_are_answered_once_there_is_news(t):
    """No time passes, so only news end a wait. Two requests wait at once. A request after a page that has a next one does not wait."""
    ca = Authority(t)
    ca.signer()
    ca.register()
    it = Passing(t, *ca.signing())
    control = t.control()
    for line in ("subscriber acme", "order 1 90", f"register 1 05 {now_text(-60)} {now_text(86_400)}", "crl"):
        t.true(control.ask(line)[:1] not in "EF", line)
    first = asked(t, it.desk)
    kinds = [kind for kind, _ in first[1]]
    t.same((kinds, first[3]), (["subscriber", "order", "certificate", "crl"], False), "the first page, which is not the last")
    client = t.enter_context(it.desk.connect(timeout=10))
    client.sendall(waiting_for(first[4]))
    t.same(page_for(t, client), ([], {}, True), "the page after it")
    body = '{"ground":"asked","serial":"05"}'
    adds = {
        "crl": lambda: control.ask("crl"), "request": lambda: it.desk.ask("POST", "/requests", body), "declined": lambda: control.ask("decline 1"),
    }  # fmt: skip
    for kind, add in adds.items():
        positions = Tables(taken(t, control)).positions()
        t.same(asked(t, it.desk, positions)[1:4], ([], {}, True), "a page without rows")
        both = [waits(it, positions) for _ in range(2)]
        t.same([is_answered(client) for client in both], [False, False], "answers without news")
        add()
        for client in both:
            page = page_for(t, client)
            t.same(page and [row for row, _ in page[0]], [kind], "the rows of a page that waited")
    # Time passes, and no news come.
    positions = Tables(taken(t, control)).positions()
    asked(t, it.desk, positions)
    client = waits(it, positions)
    it.advance(999)
    t.same(is_answered(client), False, "an answer before a second is over")
    it.advance(1)
    t.same(page_for(t, client), ([], {}, True), "a page after a second")


@test(seconds=3)
def news_come_with_the_reply_to_the_command(t):
    """At the latest in the fastest of eight tries: a request that waits is answered together with the command that brings the news."""
    t.register(lines=LINES)
    t.clock(CLOCK)
    leader, control = t.open(), t.control()
    took = []
    for number in range(3, 11):
        positions = Tables(taken(t, control)).positions()
        asked(t, leader, positions)
        waiting = Waiting(lambda: (asked(t, leader, f"{positions}&wait=1"), time.monotonic()))
        waiting.join(0.1)
        t.same(control.ask(f"subscriber s{number}"), f"subscriber {number}")
        replied = time.monotonic()
        waiting.join(60 * program.PATIENCE)
        took.append(waiting.answer[1] - replied)
    t.true(min(took) < 0.15, f"seconds from the reply to the news: {took}")


def now_text(seconds):
    return program.moment_of(now() + seconds)


@test(seconds=3)
def commands_one_after_another_wait_for_no_pause(t):
    """The elapsed time of leader and follower stands: a pause would never end, nor a wait for news at the leader."""
    t.register(lines=LINES)
    t.clock(CLOCK)
    leader = Passing(t, "--confirm-by", "1").desk
    copy = Copy(t, address(leader.port), "--lag", "4")
    until(lambda: copy.leader["current"], "the leader")
    copy.desk.end()
    Passing(t, "--from", address(leader.port), "--unsigned", file="copy.db", command="follow")
    for number in range(3, 9):
        sender = Sender(t, f"subscriber s{number}")
        sender.join(10 * program.PATIENCE)
        t.same(sender.reply, f"subscriber {number}", "the reply")


@test(seconds=3)
def a_command_that_waits_for_three_followers(t):
    """Each follower counts once, by its number, and only with the positions after all rows. A CRL that a process signs waits, too."""
    ca = Authority(t)
    ca.signer()
    ca.register()
    leader = t.open("ca.db", "--confirm-by", "3", *ca.signing())
    other = t.control()
    unconfirmed = lambda: json.loads(parted(leader.ask("GET", "/health"))[2])["unconfirmed"]
    for line, kind in (("subscriber acme", "subscriber"), ("crl", "crl")):
        before = Tables(taken(t, other, f"before-{kind}.db")).positions()
        sender = Sender(t, line)
        until(lambda: sender.reply or unconfirmed(), "the command")
        after = Tables(taken(t, other, f"after-{kind}.db")).positions()
        t.true(before != after, "the row of the command")
        stale = [f"{before}&follower={number}" for number in (1, 2, 3)]
        for query in (*stale, f"{after}&follower=1", f"{after}&follower=1", f"{after}&follower=2&wait=1", after[:-1] + "x&follower=9"):
            parted(leader.ask("GET", f"/changes?after={query}"))
            t.same((unconfirmed() is None, sender.reply), (False, None), f"whether {line} is confirmed after {query}")
        t.same(parted(leader.ask("GET", f"/changes?after={after}&follower=3&wait=1"))[0], 200, "the third follower")
        sender.join(60 * program.PATIENCE)
        t.true(sender.reply is not None and sender.reply.startswith(kind), f"the reply {sender.reply}")
        t.same(unconfirmed(), None, "unconfirmed after the reply")


@test(seconds=4)
def a_schedule_that_waits_for_a_follower(t):
    """Positions don't tell the schedule: a follower has it if its request gives the steps of the response. A request without them counts for rows."""
    t.register(lines=LINES)
    t.clock(CLOCK)
    leader = t.open("ca.db", "--confirm-by", "1")
    unconfirmed = lambda: json.loads(parted(leader.ask("GET", "/health"))[2])["unconfirmed"]
    positions = Tables(taken(t, t.control())).positions()
    old, more = "1970-01-01T00:00:00Z=398", "1970-01-01T00:00:00Z=398 2026-06-01T00:00:00Z=200"
    asks = lambda steps: leader.ask("GET", f"/changes?after={positions}&follower=7&wait=1", headers=[f"desk-schedule: {steps}"])
    sender = Sender(t, f"schedule {more}")
    until(unconfirmed, "the schedule")
    for steps in (old, more[:-1], more + " ", more + " 2026-07-01T00:00:00Z=100", more[:-2] + "1", "", " "):
        t.same(page_of(t, parted(asks(steps))[2])[1:4], ([], {}, True), "a page after all rows")
        sender.join(0.1)
        t.same((sender.reply, unconfirmed()), (None, CLOCK), f"the reply after a request with the steps {steps!r}")
    asks(more)
    sender.join(60 * program.PATIENCE)
    t.same((sender.reply, unconfirmed()), ("schedule set", None), "the reply after a request with all steps")
    # The last command counts, also for rows: here the first follower has them with the schedule, the second without a word of it.
    for line, headers in (("subscriber third", [f"desk-schedule: {more}"]), ("subscriber fourth", [])):
        sender = Sender(t, line)
        until(unconfirmed, line)
        for steps in (old, None):
            positions = Tables(taken(t, t.control(), f"{line[11:]}-{steps and 1}.db")).positions()
            given = [f"desk-schedule: {steps}"] if steps else headers
            leader.ask("GET", f"/changes?after={positions}&follower=7", headers=given)
            sender.join(0.1 if steps else 60 * program.PATIENCE)
            t.same(sender.reply and sender.reply.split()[0], None if steps else "subscriber", f"the reply to {line} after {given}")


def relayed(port, head):
    """The status and the body of the answer of the desk at a port to this request."""
    with socket.create_connection(("127.0.0.1", port)) as stream:
        stream.sendall(head.encode("latin-1"))
        status, _, body = parted(read_all(stream))
    return status, body


@test(seconds=5)
def a_schedule_is_at_the_follower_once_its_reply_came(t):
    """While the page with the schedule is on its way to the follower, the reply waits."""
    t.register(lines=LINES)
    t.clock(CLOCK)
    leader = t.open("ca.db", "--confirm-by", "1")
    held, passes, steps = threading.Event(), threading.Event(), "1970-01-01T00:00:00Z=398 2026-06-01T00:00:00Z=200"

    def answer(target):
        status, body = relayed(leader.port, server.requests[-1])
        if steps.encode() in body:
            held.set()
            passes.wait(60 * program.PATIENCE)
        return status, body

    server = t.enter_context(Server(answer))
    copy = Copy(t, address(server.port))
    copy.is_like(t.control())
    schedule = lambda: next(line for line in copy.copied().head.decode().splitlines() if line.startswith("schedule"))
    until(lambda: schedule_given(server.requests[-1]), "a request that gives the schedule of the copy")
    sender = Sender(t, f"schedule {steps}")
    until(held.is_set, "the page with the schedule")
    sender.join(0.5)
    t.same((sender.reply, schedule()), (None, "schedule 1970-01-01T00:00:00Z=398"), "the reply before the page is there, and the copy's schedule")
    passes.set()
    sender.join(60 * program.PATIENCE)
    t.same((sender.reply, schedule()), ("schedule set", f"schedule {steps}"), "the reply, and the schedule of the copy")


@test(seconds=4)
def without_news_nobody_is_busy(t):
    """A leader, a follower whose requests wait there, and one whose requests don't: each waits for events nearly all the time."""
    t.register(lines=LINES)
    t.clock(CLOCK)
    counting = [{"faults": faults.environment(count=t.room / f"count-{it}")} for it in range(3)]
    leader, control = t.open(**counting[0]), t.control()
    copies = [Copy(t, address(leader.port), **counting[1]), Copy(t, address(leader.port), "--lag", "4", file="copy-2.db", **counting[2])]
    for copy in copies:
        copy.is_like(control)
    polls = lambda: [faults.counted(t.room / f"count-{it}")["poll"] for it in range(3)]
    time.sleep(0.3)
    before = polls()
    for _ in range(7):
        time.sleep(0.13)
        for copy in copies:
            copy.health()
    took = [after - begun for after, begun in zip(polls(), before)]
    t.true(all(it < 1_000 for it in took), f"calls of epoll_wait(2) in a second: {took}")


@test(seconds=3)
def a_follower_whose_leader_is_slow_is_not_busy(t):
    """A millisecond before its request is due, the follower waits for events for a millisecond. Once it waits for the answer, it waits longer."""
    it = Slow(t, count=t.room / "count")
    it.asks(FIRST)
    it.leader.answer = None
    it.set_forward(9)
    it.health()
    it.set_forward(1)
    until(lambda: len(it.leader.targets) > FIRST, "the request that the leader does not answer")
    polls = lambda: faults.counted(t.room / "count")["poll"]
    before = polls()
    time.sleep(0.5)
    t.true(polls() - before < 20, f"calls of epoll_wait(2) while the leader is silent: {polls() - before}")
