"""`overdue` and the requests of /metrics, of a desk that caches the undecided requests between two queries: the model finds them among all requests."""

import os
from pathlib import Path
from random import Random

from groups.batches import send_together
from groups.changes import LINES, Tables, taken
from groups.follow import Copy, address
from groups.monitoring import metrics, of
from lib.trial import test
from model.lines import told_now
from model.moments import DAY, read, text_of
from model.register import GROUNDS, Register

FIRST = read(b"2026-01-01T00:00:00Z")


class Asked:
    """An open desk, its follower, and the model of both."""

    def __init__(self, t, count):
        self.t, self.now, self.model = t, FIRST, Register()
        t.register()
        t.clock(FIRST)
        self.desk = t.open()
        self.lines, self.chosen = t.control(), Random(count)
        self.copy = Copy(t, address(self.desk.port))
        self.together("orders", ["subscriber acme"] + ["order 1 398"] * count)
        self.together("certificates", [self.registration(at) for at in range(1, count + 1)])

    def registration(self, order):
        return f"register {order} {order:x} {text_of(FIRST)} {text_of(FIRST + self.chosen.choice([3, 9, 60, 90]) * DAY)}"

    def request(self, at):
        return f"request {at:x} {self.chosen.choice(sorted(GROUNDS)).decode()}"

    def together(self, what, lines):
        """Sends lines at once, and compares each reply with the model's."""
        wanted = [told_now(self.model, self.now, line.encode()) for line in lines]
        self.t.same(send_together(self.desk, self.lines, lines), wanted, f"the replies to {what}")

    def says(self, what, later=60):
        """Both desks answer as the model does, `later` seconds later: /metrics counts the requests once a minute."""
        self.now += later
        self.t.clock(self.now)
        good = lambda it: not it.declined and self.model.status_of(self.now, it.serial) == "good"
        count = sum(map(good, self.model.requests))
        overdue = self.model.overdue(self.now)
        self.copy.until_at(Tables(taken(self.t, self.lines)).positions())
        for name, desk, lines in (("the desk", self.desk, self.lines), ("the follower", self.copy.desk, self.copy.lines)):
            self.t.same(lines.ask("overdue"), overdue, f"overdue of {name} after {what}")
            wanted = {"open": count, "overdue": int(overdue.split()[1]), "counted_timestamp_seconds": self.now}
            self.t.same(of(metrics(self.t, desk), "desk_requests_"), wanted, f"requests of {name} after {what}")
            self.t.same(lines.ask("overdue"), overdue, f"overdue of {name} once more after {what}")


@test(seconds=8)
def overdue_requests_are_those_of_all_requests(t):
    """Declines alone and in batches, 255, 256 and 257 revocations at once, new requests, and certificates that end."""
    asked = Asked(t, 900)
    asked.says("no request")
    asked.together("requests", [asked.request(at) for at in range(1, 871)])
    asked.says("the requests")
    asked.says("two days", 2 * DAY)
    asked.together("a decline", ["decline 800"])
    asked.says("a decline")
    asked.together("a refused decline", ["decline 800"])
    asked.says("a refused decline")
    asked.together("declines", [f"decline {at}" for at in range(801, 821)] + [asked.request(at) for at in range(871, 881)])
    asked.says("a batch with declines")
    asked.together("both", ["revoke 830", "decline 831", "request 320 asked", "revoke 832", "decline 832", "request 320 misuse", "decline 871"])
    asked.says("a batch with all")
    for first, count in ((1, 255), (256, 256), (512, 257)):
        asked.together("revocations", [f"revoke {at}" for at in range(first, first + count)])
        asked.says(f"{count} revocations")
    asked.together("requests", [asked.request(at) for at in (*range(800, 821), *range(881, 901))])
    asked.says("new requests")
    for days in (1, 5, 30, 60):
        asked.says("more days", days * DAY)
    t.same(asked.model.counts(asked.now).split()[-1] != "0", True, "whether certificates ended")


def seconds_of(desk):
    """The processor time of a desk so far."""
    user, system = Path(f"/proc/{desk.process.pid}/stat").read_text().rsplit(") ", 1)[1].split()[11:13]
    return (int(user) + int(system)) / os.sysconf("SC_CLK_TCK")


def many_requests(t):
    """A register with 60,000 requests, of which 59,997 are open."""
    t.register(lines=LINES)
    more = "WITH RECURSIVE row (at) AS (SELECT 5 UNION ALL SELECT at + 1 FROM row WHERE at < ?)"
    t.sql("ca.db", f"{more} INSERT INTO request SELECT at, serial, ground, received, 0 FROM row, (SELECT * FROM request WHERE id = 4)", 60_000)


@test(seconds=8)
def only_the_first_query_reads_all_requests(t):
    """After the first query, each scrape of /metrics and each `overdue` reads only the requests that came since, also after lines that came together,
    a decline and a revocation."""
    many_requests(t)
    moment = read(b"2026-01-03T00:00:00Z")
    t.clock(moment)
    desk, lines = t.open(), t.control()
    took, begun = [], seconds_of(desk)
    for at in range(12):
        t.clock(moment + 60 * at)
        t.same(of(metrics(t, desk), "desk_requests_")["open"], 59_997 - (at + 1) // 2, "open requests")
        t.same(lines.ask("overdue"), "overdue 0", "overdue")
        took, begun = [*took, seconds_of(desk) - begun], seconds_of(desk)
        replies = send_together(desk, lines, [f"subscriber s{at}", f"order 1 {at + 1}", f"subscriber t{at}"])
        t.same([it.split()[0] for it in replies], ["subscriber", "order", "subscriber"], "replies")
        if at % 2 == 0:
            t.same(lines.ask(f"decline {5 + at}"), "declined")
            continue
        order, serial = lines.ask("order 1 30").split()[1], f"a{at:x}"
        t.same(lines.ask(f"register {order} {serial} 2026-01-03T00:00:00Z 2026-01-20T00:00:00Z"), "registered")
        t.same(lines.ask(f"revoke {lines.ask(f'request {serial} asked').split()[1]}"), "revoked")
    t.true(sum(took[1:]) < 2 * took[0] + 0.2, f"seconds of the processor: {took}")


@test(seconds=8)
def only_the_first_query_of_a_follower_reads_all_requests(t):
    """After it, each one reads only those of the pages that came since."""
    many_requests(t)
    t.done("copy", "ca.db", "copy.db")
    t.clock("2026-01-03T00:00:00Z")
    desk, lines = t.open(), t.control()
    copy, took = Copy(t, address(desk.port)), []
    for at in range(8):
        t.same(lines.ask(f"subscriber s{at}"), f"subscriber {3 + at}")
        copy.follows(desk)
        begun = seconds_of(copy.desk)
        t.same(copy.lines.ask("overdue"), "overdue 0", "overdue")
        took.append(seconds_of(copy.desk) - begun)
    t.true(sum(took[1:]) < took[0] + 0.1, f"seconds of the processor: {took}")
