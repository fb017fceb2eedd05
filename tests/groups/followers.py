"""Followers of one desk: commands that wait for them, pages that come slowly, and what a follower counts."""

import contextlib
import json
import socket
import struct
import threading
import time
from pathlib import Path

from groups.changes import LINES, Tables, asked, taken
from groups.follow import CLOCK, LATER, OPEN, Copy, Sender, address, faked, led, paged
from groups.monitoring import metrics
from groups.waiting import SIGNING, Held, asked_for
from lib import faults, program
from lib.authority import until
from lib.passing import Passing
from lib.program import P256_KEY, is_read, parted
from lib.trial import test


def unconfirmed(leader):
    return json.loads(parted(leader.ask("GET", "/health"))[2])["unconfirmed"]


def confirm(t, leader, control, *followers):
    """Requests of followers with these numbers that have all rows of the leader."""
    positions = Tables(taken(t, control)).positions()
    for number in followers:
        t.same(asked(t, leader, f"{positions}&follower={number}")[1:4], ([], {}, True), f"a page after all rows, for the follower {number}")


class Reply(threading.Thread):
    """The reply to a line on a control connection, once that has come."""

    def __init__(self, lines, line):
        super().__init__(daemon=True)
        self.lines, self.line, self.text = lines, line, None
        self.start()

    def run(self):
        with contextlib.suppress(OSError):
            self.text = self.lines.ask(self.line)


@test(seconds=6)
def each_kind_of_command_waits(t):
    """With --confirm-by 1, the reply to any command comes only once a follower has it."""
    t.register(lines=LINES)
    t.clock(CLOCK)
    leader, other, lines = t.open("ca.db", "--confirm-by", "1"), t.control(), t.control()
    for line in (
        "subscriber third", "order 3 20", f"register 6 0A {CLOCK} 2026-01-05T00:00:00Z", "request 0A cessation", "request 08 asked", "revoke 5",
        "decline 6", "request 08 misuse", "revoke 7 08", f"decline 4 {OPEN}", "crl", "schedule 1970-01-01T00:00:00Z=398 2026-06-01T00:00:00Z=200",
    ):  # fmt: skip
        reply = Reply(lines, line)
        until(lambda: reply.text is not None or unconfirmed(leader), f"the command {line}")
        reply.join(0.1)
        t.same(reply.text, None, f"the reply to {line} without a follower")
        confirm(t, leader, other, 7)
        reply.join(10 * program.PATIENCE)
        t.true(reply.text and reply.text[0] not in "EF", f"the reply {reply.text} to {line} with a follower")
        t.same(unconfirmed(leader), None, "unconfirmed")


@test(seconds=2)
def replies_of_several_connections_wait(t):
    """Five connections have a command each: all replies come with the same confirmation."""
    t.register(lines=LINES)
    t.clock(CLOCK)
    leader, other = t.open("ca.db", "--confirm-by", "1"), t.control()
    senders = [Sender(t, f"subscriber s{at}") for at in range(5)]
    until(lambda: len(Tables(taken(t, other)).lines["subscriber"]) == 7, "the rows of all")
    t.same([it.reply for it in senders], [None] * 5, "replies without a follower")
    confirm(t, leader, other, 7)
    until(lambda: all(it.reply for it in senders), "the replies with a follower", seconds=10)
    t.same(sorted(str(it.reply) for it in senders), [f"subscriber {at}" for at in range(3, 8)], "replies with a follower")


@test(seconds=2)
def a_line_that_comes_while_a_reply_waits_is_answered_after_it(t):
    """Nothing else happens after the confirmation."""
    t.register(lines=LINES)
    t.clock(CLOCK)
    leader, other = t.open("ca.db", "--confirm-by", "1"), t.control()
    with program.Control(t.room / "control", timeout=10) as lines:
        lines.stream.sendall(b"subscriber third\n")
        until(lambda: unconfirmed(leader), "the command")
        lines.stream.sendall(b"counts\n")
        confirm(t, leader, other, 7)
        t.same([lines.file.readline() for _ in range(2)], [b"subscriber 3\n", b"good 2 revoked 2 expired 0\n"], "the replies")


@test(seconds=5)
def a_reply_that_waits_takes_no_memory(t):
    """One of a command's last allocations fails, or the first one after it. The reply comes with the confirmation, or reports the fault."""
    t.register("base.db", lines=LINES)
    t.clock(CLOCK)
    calls = lambda kind: faults.counted(t.room / "count")[kind]

    def run(fail):
        """The count of allocations once the command was run, and its reply."""
        faults.copy(t.room / "base.db", t.room / "ca.db")
        (t.room / "control").unlink(missing_ok=True)
        leader = t.open("ca.db", "--confirm-by", "1", faults=faults.environment(count=t.room / "count", same=1, fail=fail))
        state = lambda: Path(f"/proc/{leader.process.pid}/stat").read_text().rpartition(") ")[2][0]
        rests = lambda: until(lambda: state() == "S", "the desk to sleep")
        lines, other = t.enter_context(program.Control(t.room / "control", timeout=10)), t.control()
        for it in (lines, other):
            it.ask("counts")
        rests()
        before = calls("watch")
        lines.stream.sendall(b"subscriber third\n")
        # Once the command is run, the desk polls the connection again. Any question whether it has run would take memory.
        until(lambda: calls("watch") > before, "the desk to run the command")
        rests()
        last = calls("alloc")
        # This takes the failure, if the command and its reply did not.
        leader.ask("GET", "/counts")
        confirm(t, leader, other, 7)
        reply = lines.file.readline()
        leader.end()
        return last, reply

    last, reply = run(None)
    t.same(reply, b"subscriber 3\n", "the reply")
    for at in range(last - 2, last + 2):
        t.true(run(f"alloc:{at}")[1] in (reply, b"F1 memory\n"), f"no reply, if allocation {at} of {last} fails")


@test(seconds=2)
def eight_followers_confirm(t):
    """--confirm-by 8: the same follower counts once."""
    t.register(lines=LINES)
    t.clock(CLOCK)
    leader, other = t.open("ca.db", "--confirm-by", "8"), t.control()
    sender = Sender(t, "subscriber third")
    until(lambda: unconfirmed(leader), "the command")
    confirm(t, leader, other, *range(1, 8), *range(1, 8))
    sender.join(0.3)
    t.same((sender.reply, unconfirmed(leader)), (None, CLOCK), "the reply with seven followers")
    confirm(t, leader, other, 0)
    sender.join(10 * program.PATIENCE)
    t.same(sender.reply, "subscriber 3", "the reply with eight followers")


@test(seconds=4)
def clients_that_leave_before_their_replies(t):
    """Sixteen clients leave while their replies wait, half of them as soon as they have sent their line: each leaves its place to the next one."""
    t.register(lines=LINES)
    t.clock(CLOCK)
    leader = t.open("ca.db", "--confirm-by", "1")
    for at in range(16):
        lines = program.Control(t.room / "control")
        lines.stream.sendall(f"subscriber s{at}\n".encode())
        if at % 2:
            until(lambda: f"s{at}" in [row.split()[-1] for _, row in asked(t, leader)[1]], "the row")
        lines.file.close()
        lines.stream.close()
    t.same(program.Control(t.room / "control", timeout=20).ask("counts"), "good 2 revoked 2 expired 0", "a query after them")
    t.true(unconfirmed(leader), "the commands")


@test(seconds=2)
def a_client_that_leaves_takes_no_reply_of_others(t):
    """Three clients' replies wait. The first one leaves, and then the follower has all commands."""
    t.register(lines=LINES)
    t.clock(CLOCK)
    leader, other = t.open("ca.db", "--confirm-by", "1"), t.control()
    clients = [program.Control(t.room / "control", timeout=20) for _ in range(3)]
    for at, lines in enumerate(clients):
        lines.stream.sendall(f"subscriber s{at}\n".encode())
        until(lambda: f"s{at}" in [row.split()[-1] for _, row in asked(t, leader)[1]], "the row")
    open_ones = lambda: metrics(t, leader)['desk_connections{at="counter"}']
    t.same(open_ones(), 4, "open control connections")
    with clients[0]:
        pass
    until(lambda: open_ones() == 3, "the end of one connection")
    t.same(metrics(t, leader)['desk_connections_lost_total{why="broken"}'], 1, "lost connections")
    confirm(t, leader, other, 7)
    t.same([lines.file.readline().strip() for lines in clients[1:]], [b"subscriber 4", b"subscriber 5"], "the replies")


@test(seconds=2)
def a_client_that_sends_no_more_gets_its_reply(t):
    """It has shut down its sending side while its reply waits."""
    t.register(lines=LINES)
    t.clock(CLOCK)
    leader, other = t.open("ca.db", "--confirm-by", "1"), t.control()
    lines = t.control()
    lines.stream.sendall(b"subscriber third\n")
    until(lambda: unconfirmed(leader), "the command")
    lines.stream.shutdown(socket.SHUT_WR)
    time.sleep(0.2)
    confirm(t, leader, other, 7)
    t.same(lines.file.readline().strip(), b"subscriber 3", "the reply")


@test(seconds=3)
def a_crl_that_a_signer_signs_waits(t):
    """The CRL is signed while others are answered: then its reply waits for the follower, too."""
    t.signer()
    t.register(key=P256_KEY, lines=LINES)
    t.clock(CLOCK)
    leader, other = t.open("ca.db", "--confirm-by", "1", "--signer", "ca.sign", "--algorithm", "ecdsa-sha256"), t.control()
    sender = Sender(t, "crl")
    until(lambda: sender.reply is not None or unconfirmed(leader), "the CRL")
    sender.join(0.3)
    t.same(sender.reply, None, "the reply without a follower")
    confirm(t, leader, other, 7)
    sender.join(10 * program.PATIENCE)
    t.same(sender.reply, "crl 4 entries 2", "the reply with a follower")


@test(seconds=2)
def a_leader_whose_connection_the_kernel_does_not_poll_is_asked_again_after_a_second(t):
    """epoll_ctl(2) fails for the first connection to the leader. The follower gives that up at once: in this test no time passes for it."""
    leader, control, copy = led(t)
    copy.is_like(control)
    copy.desk.end()
    passed, now = t.room / "passed", 1_000_000
    passed.write_bytes(struct.pack("=Q", now))
    # The first of these calls is for the port. The follower has no control socket.
    told = faults.environment(count=t.room / "count", passed=passed, fail="watch:2")
    desk = t.open("copy.db", "--from", address(leader.port), "--unsigned", command="follow", faults=told)
    until(lambda: desk.log, "a line on standard error", seconds=15)
    t.same((desk.log, faults.counted(t.room / "count")["met"]), (["follow: leader unreachable"], 1), "standard error, and injected faults")
    # The follower has mapped the file, so it must never be empty.
    with open(passed, "r+b") as it:
        it.write(struct.pack("=Q", now + 1_000))
    until(lambda: json.loads(parted(desk.ask("GET", "/health"))[2])["leader"]["current"], "the leader")


@test(seconds=2)
def a_crl_that_nobody_signs_waits_from_the_moment_at_which_it_ran(t):
    """Its line came ten seconds before, but the signer is silent."""
    held = Held(t)
    t.register(key=P256_KEY, lines=LINES)
    t.clock(CLOCK)
    desk = Passing(t, "--confirm-by", "1", *SIGNING)
    sender = Sender(t, "crl")
    t.true(held.signers.until(1), "no signature is requested")
    t.same(unconfirmed(desk.desk), None, "unconfirmed, while the signer is silent")
    t.clock(ran := "2026-01-03T00:00:10Z")
    desk.advance(10_000)
    until(lambda: unconfirmed(desk.desk), "the command")
    before = unconfirmed(desk.desk), sender.reply
    confirm(t, desk.desk, t.control(), 7)
    sender.join(10 * program.PATIENCE)
    t.same(before, (ran, None), "unconfirmed, and the reply without a follower")
    t.same((unconfirmed(desk.desk), sender.reply), (None, "F3 signer"), "unconfirmed, and the reply with a follower")


class Slow:
    """A leader that takes one request on a connection, and sends its response in pieces, when the test says so."""

    def __init__(self, t, port):
        self.t = t
        self.server = t.enter_context(socket.create_server(("127.0.0.1", port)))
        self.server.settimeout(60 * program.PATIENCE)

    def asked(self):
        """The connection of the next request, which has come."""
        client = self.t.enter_context(self.server.accept()[0])
        client.settimeout(60 * program.PATIENCE)
        client.recv(65536)
        return client


@test(seconds=3)
def a_page_that_comes_slowly(t):
    """A follower waits five seconds for the next byte of a response, not for the whole one. The test sets the time that passes."""
    leader, control, copy = led(t)
    copy.is_like(control)
    tables = Tables(t.room / "taken.db")
    leader.end()
    copy.desk.end()
    slow, passed, now = Slow(t, leader.port), t.room / "passed", 1_000_000
    passed.write_bytes(struct.pack("=Q", now))

    def show(millis):
        # The copy reads this file at any time, so the file is never empty.
        with open(passed, "r+b") as it:
            it.write(struct.pack("=Q", millis))

    copy = Copy(t, address(leader.port), faults=faults.environment(passed=passed))
    more = dict(tables.lines, subscriber=[*tables.lines["subscriber"], "3 x"])
    wanted = Tables.__new__(Tables)
    wanted.__dict__.update(tables.__dict__, lines=more)
    body = paged(tables, ["subscriber 3 x"], tail=f"end {wanted.positions()}")
    whole = f"HTTP/1.1 200 OK\r\nContent-Length: {len(body)}\r\n\r\n".encode() + body
    client, piece = slow.asked(), len(whole) // 4 + 1
    for at in range(0, len(whole), piece):
        now += 4_000
        show(now)
        client.sendall(whole[at : at + piece])
        # The copy closes the connection once it has the whole page.
        if at + piece < len(whole):
            until(lambda: is_read(client), f"the copy to read the bytes from {at} on", seconds=20)
    copy.until_at(wanted.positions())
    t.same((copy.leader["failure"], copy.leader["current"]), (None, True), "after a page that took more than five seconds")
    # It asked again at once. This request gets no byte.
    slow.asked()
    show(now + 4_999)
    for _ in range(2):
        t.same(copy.leader["failure"], None, "after 4,999 ms without a byte")
    show(now + 5_000)
    until(lambda: copy.leader["failure"] == "leader unreachable", "the end of five seconds without a byte")


@test(seconds=5)
def it_asks_again_by_itself(t):
    """After a failure it asks once a second, also if nobody asks it anything meanwhile."""
    copy, _, _, leader = faked(t)
    before, began = leader.asked, time.monotonic()
    until(lambda: leader.asked >= before + 3, "three more requests", seconds=20)
    t.true(time.monotonic() - began > 1, "three requests within a second")


@test(seconds=14)
def rows_and_crls_while_commands_come(t):
    """A client sends commands without a pause, another one a `crl` each second: for ten seconds, the copy's lag stays under two seconds."""
    leader, control, copy = led(t)
    copy.is_like(control)
    ends, sent = threading.Event(), []

    def send():
        with program.Control(t.room / "control") as lines:
            while not ends.is_set():
                sent.append(lines.ask(f"subscriber s{len(sent)}"))

    sender = threading.Thread(target=send, daemon=True)
    sender.start()
    has = lambda: [int(it) for it in copy.leader["positions"].split(".")[:6]]
    lags = []
    for second in range(10):
        began, before = time.monotonic(), len(sent)
        t.same(control.ask("crl"), f"crl {second + 4} entries 2")
        until(lambda: has()[0] >= before + 2 and has()[5] >= second + 4, "the rows and the CRL", seconds=2)
        while time.monotonic() < began + 1:
            lags.append(copy.leader["lag"])
            time.sleep(0.05)
    ends.set()
    sender.join(10 * program.PATIENCE)
    t.true(max(lags) < 2 * program.PATIENCE, f"the lag: {max(lags)} seconds")
    t.true(len(sent) > 100 and all(it.startswith("subscriber ") for it in sent), f"{len(sent)} commands, the last with the reply {sent[-1:]}")
    copy.is_like(control)
    t.same(copy.leader["refused"], 0, "refused pages")


@test(seconds=3)
def a_signed_crl_behind_a_thousand_rows(t):
    """A new copy, which signs no CRL, takes the leader's algorithm from the first CRL, which isn't in the first page."""
    t.signer()
    names = "".join(f"2026-01-01T00:00:00Z subscriber s{at}\n" for at in range(1_100))
    t.register(key=P256_KEY)
    t.done("script", "ca.db", *SIGNING, given=f"{names}{LATER} crl\n")
    t.clock(CLOCK)
    leader, control = t.open("ca.db", *SIGNING), t.control()
    copy = Copy(t, address(leader.port), signing=SIGNING)
    copy.is_like(control)


@test(seconds=3)
def a_line_that_is_signed_blocks_nobody(t):
    """A copy signs OCSP answers: while the line `ocsp` waits for its signer, others get their answers. It refuses `crl` without asking its signer."""
    t.register(key=P256_KEY, lines=LINES)
    t.clock(CLOCK)
    leader, control = t.open(), t.control()
    held = Held(t)
    copy = Copy(t, address(leader.port), signing=SIGNING)
    copy.follows(leader)
    until(lambda: copy.leader["current"], "the leader")
    t.same((copy.lines.ask("crl"), held.signers.asked), ("follower", []), "the reply to `crl`, and the messages to the signer")
    sender = Sender(t, f"ocsp {asked_for(0x1105).hex()}", copy.name)
    t.true(held.signers.until(1), "the signer is not asked")
    began = time.monotonic()
    t.same(parted(copy.desk.ask("GET", "/counts"))[0], 200, "GET /counts")
    t.true(time.monotonic() - began < 8, "GET /counts waits for the signature")
    t.same(sender.reply, None, "a reply before the signature")
    held.release.set()
    sender.join(10 * program.PATIENCE)
    t.true((sender.reply or "").startswith("ocsp "), f"reply {sender.reply}")


@test(seconds=3)
def it_counts_as_an_open_desk_does(t):
    """Answers, lines, connections and losses in /metrics."""
    leader, control, copy = led(t)
    copy.is_like(control)
    before, its_leaders = metrics(t, copy.desk), metrics(t, leader)
    for name in ("desk_requests_open", "desk_requests_overdue"):
        t.same(before[name], its_leaders[name], name)
    t.true(before["desk_requests_open"], "no request is open")
    for _ in range(3):
        t.same(parted(copy.desk.ask("GET", "/counts"))[0], 200)
    t.same(parted(copy.desk.ask("POST", "/requests", '{"ground":"asked","serial":"08"}'))[0], 503)
    for line, reply in (("crl", "follower"), ("subscriber x", "follower"), ("next-crl", "next-crl")):
        t.same(copy.lines.ask(line).split()[0], reply, line)
    with copy.desk.connect() as client:
        client.sendall(b"GET /counts")
        until(lambda: is_read(client), "the copy to read it")
        # With this option, close(2) sends a reset.
        client.setsockopt(1, 13, b"\1\0\0\0\0\0\0\0")
    why = 'desk_connections_lost_total{why="broken"}'
    until(lambda: metrics(t, copy.desk)[why] == before[why] + 1, "the lost connection", seconds=10)
    after = metrics(t, copy.desk)
    grown = lambda name: after.get(name, 0) - before.get(name, 0)
    t.same([grown(f'desk_http_responses_total{{route="{route}",code="{code}"}}') for route, code in (("/counts", 200), ("/requests", 503))], [3, 1])
    t.same([grown(f'desk_lines_total{{reply="{reply}"}}') for reply in ("accepted", "refused", "fault")], [1, 2, 0], "lines")
    t.same((after['desk_connections{at="port"}'], after['desk_connections{at="counter"}']), (1, 1), "open connections")
    t.true(grown("desk_connections_accepted_total") >= 6, "accepted connections")


@test(seconds=6)
def a_status_of_the_leader_is_kept(t):
    """Only 409 says that the leader lacks a record of the copy; the copy asks again after any other status."""
    copy, _, _, leader = faked(t)
    for status in (400, 404, 503, 409):
        leader.answer = (status, b"{}")
        until(lambda: copy.leader["failure"] == f"leader answered {status}", f"status {status}", seconds=20)
        t.same(copy.leader["diverged"], status == 409, f"diverged after {status}")
