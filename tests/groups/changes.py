"""The changes feed of an open desk, GET /changes: its pages must have the rows of the tables in the order of entry, and its positions
their digest. Expected pages are made from a copy of the register, read by Python's SQLite."""

import contextlib
import hashlib
import sqlite3

from lib import faults, program, registers
from lib.authority import Authority, values_of
from lib.program import parted
from lib.trial import need, test
from lib.web_server import Front, certificates
from model.moments import read, text_of

MOST_ROWS, WINDOW = 1_000, 32
DAY = "2026-01-01T00:00:00Z"
GROUNDS = (
    "asked", "unauthorized", "key-compromise", "control-lost", "affiliation", "superseded", "cessation", "misuse", "name-not-permitted",
    "nonconforming", "inaccurate",
)  # fmt: skip
# The order in which rows come, and the tables in which each kind of row is.
KINDS = ("subscriber", "order", "certificate", "request", "declined", "revocation", "crl")
COUNTED = ("subscriber", "order", "certificate", "request", "revocation", "crl")
NOTHING = "0.0.0.0.0.0.0.0."


class Tables:
    """The rows of a register's file as lines of the feed, each kind in the order of entry; the octets of the CRLs; and the head of a page."""

    def __init__(self, path):
        with contextlib.closing(sqlite3.connect(path)) as db:
            rows = lambda statement: db.execute(statement).fetchall()
            ((self.name, self.key, life, ocsp_life, cap, last),) = rows("SELECT name, pubkey, crl_life, ocsp_life, cap, last_at FROM office")
            steps = rows("SELECT from_at, days FROM longest ORDER BY from_at")
            self.crls = dict(rows("SELECT number, der FROM crl ORDER BY number"))
            self.firsts = [first for (first,) in rows("SELECT first_crl FROM revocation ORDER BY rowid")]
            self.lines = {
                "subscriber": [f"{id} {name}" for id, name in rows("SELECT id, name FROM subscriber ORDER BY id")],
                "order": [f"{id} {subscriber} {days}" for id, subscriber, days in rows("SELECT id, subscriber, days FROM orders ORDER BY id")],
                "certificate": [f"{serial.hex()} {order} {text_of(begin)} {text_of(end)}"
                                for serial, order, begin, end in rows("SELECT serial, order_id, not_before, not_after FROM cert ORDER BY rowid")],
                "request": [f"{id} {serial.hex()} {GROUNDS[ground - 1]} {text_of(at)}"
                            for id, serial, ground, at in rows("SELECT id, serial, ground, received FROM request ORDER BY id")],
                "declined": [f"{id}" for (id,) in rows("SELECT id FROM request WHERE declined = 1 ORDER BY id")],
                "revocation": [f"{serial.hex()} {text_of(at)} {reason} {request} {first}" for serial, at, reason, request, first in
                               rows("SELECT serial, at, reason, request, first_crl FROM revocation ORDER BY rowid")],
                "crl": [f"{number} {text_of(at)} {len(self.crls[number])}"
                        for number, at in rows("SELECT number, this_update FROM crl ORDER BY number")],
            }  # fmt: skip
        schedule = "".join(f" {text_of(at)}={days}" for at, days in steps)
        issuer = f"issuer {self.name.hex()} {self.key.hex()}\n"
        self.head = f"changes 1\n{issuer}policy {life} {ocsp_life} {cap}\nschedule{schedule}\nlast {text_of(last)}\n".encode()

    def counts(self):
        return {kind: len(self.lines[kind]) for kind in COUNTED}

    def digest(self, counts):
        """The digest of positions with these counts of rows."""
        name = values_of(self.name)[0][2]
        text = f"issuer {name.hex()} {self.key.hex()}\n{''.join(f'{counts[kind]}.' for kind in COUNTED)}\n".encode()
        for kind in COUNTED[:-1]:
            text += "".join(f"{kind} {line}\n" for line in self.lines[kind][: counts[kind]][-WINDOW:]).encode()
        if number := counts["crl"]:
            text += self.crls[number][-64:]
        return hashlib.sha256(text).hexdigest()

    def positions(self, counts=None, declined=None):
        """The text of positions: of all rows, or of these counts and of the declined requests with these ids."""
        counts = counts or self.counts()
        ids = self.lines["declined"] if declined is None else declined
        return "".join(f"{counts[kind]}." for kind in COUNTED) + f"{len(ids)}.{ids[-1] if ids else 0}.{self.digest(counts)}"

    def feed(self, counts, declined):
        """The rows after these counts, and the declined requests but these: pairs of a kind and a line."""
        rows = [(kind, line) for kind in KINDS[:4] for line in self.lines[kind][counts[kind] :]]
        rows += [("declined", id) for id in self.lines["declined"] if id not in declined]
        revoked = list(zip(self.firsts, self.lines["revocation"]))[counts["revocation"] :]
        for number, line in list(zip(self.crls, self.lines["crl"]))[counts["crl"] :]:
            while revoked and revoked[0][0] <= number:
                rows.append(("revocation", revoked.pop(0)[1]))
            rows.append(("crl", line))
        return rows + [("revocation", line) for _, line in revoked]


def pages_of(rows):
    """The rows on their pages: each has 1,000 rows, or fewer up to the next CRL or the end of the feed."""
    pages = [[]]
    for row in rows:
        if len(pages[-1]) == MOST_ROWS or pages[-1] and pages[-1][-1][0] == "crl":
            pages.append([])
        pages[-1].append(row)
    return pages if len(pages[-1]) < MOST_ROWS and (not rows or rows[-1][0] != "crl") else [*pages, []]


def page_of(t, body):
    """The parts of a page: its head, its rows as pairs of a kind and a line, the octets of its CRLs, whether it ends the feed, and positions."""
    head = b"".join(body.splitlines(keepends=True)[:5])
    rows, crls, at = [], {}, len(head)
    while True:
        end = body.index(b"\n", at)
        kind, _, line = body[at:end].decode().partition(" ")
        at = end + 1
        if kind in ("more", "end"):
            t.same(body[at:], b"", "bytes after the last line of a page")
            return head, rows, crls, kind == "end", line
        rows.append((kind, line))
        if kind == "crl":
            number, _, octets = line.split()
            crls[int(number)] = body[at : at + int(octets)]
            t.same(body[at + int(octets) :][:1], b"\n", "the byte after a CRL")
            at += int(octets) + 1


def asked(t, desk, after=None, status=200):
    got, fields, body = parted(desk.ask("GET", "/changes" if after is None else f"/changes?after={after}"))
    kind = "application/octet-stream" if status == 200 else "application/json"
    t.same((got, [it for it in fields if it.startswith("Content-Type")]), (status, [f"Content-Type: {kind}"]), f"status and type after {after}")
    return page_of(t, body) if status == 200 else body


def feed_after(t, desk, after=None):
    """The pages from positions to the end: the head of the last one, all rows, the octets of the CRLs, and the positions after them."""
    rows, crls, ends = [], {}, False
    while not ends:
        head, more, octets, ends, after = asked(t, desk, after)
        rows += more
        crls |= octets
    return head, rows, crls, after


class Copy:
    """What a follower has: the rows of the pages that it got, one after another."""

    def __init__(self, t, desk):
        self.t, self.desk, self.after, self.pages = t, desk, None, 0
        self.rows, self.crls, self.serials = {kind: [] for kind in KINDS}, {}, set()

    def get(self):
        """Asks for the next page, and returns its rows and whether it is the end."""
        head, rows, crls, ends, self.after = asked(self.t, self.desk, self.after)
        self.head = head
        self.pages += 1
        for kind, line in rows:
            self.enter(kind, line)
        self.crls.update(crls)
        kinds = [kind for kind, _ in rows]
        others = len(kinds) - kinds.count("crl")
        is_right = "crl" not in kinds or others < MOST_ROWS and not ends and kinds.index("crl") == others == len(kinds) - 1
        self.t.true(others <= MOST_ROWS and is_right, f"a page of {others} rows and {len(kinds) - others} CRLs, at last {kinds[-1:]}; end: {ends}")
        return rows, ends

    def enter(self, kind, line):
        """Adds a row, whose references must be there."""
        words = line.split()
        if kind == "declined":
            self.t.true(int(words[0]) <= len(self.rows["request"]), f"declined {line} comes before the request")
            if line not in self.rows["declined"]:
                self.rows["declined"] = sorted([*self.rows["declined"], line], key=int)
            return
        if kind in ("subscriber", "order", "request", "crl"):
            self.t.same(int(words[0]), len(self.rows[kind]) + 1, f"the number in {kind} {line}")
        if kind == "order":
            self.t.true(int(words[1]) <= len(self.rows["subscriber"]), f"order {line} comes before its subscriber")
        if kind == "certificate":
            self.t.true(int(words[1]) <= len(self.rows["order"]), f"certificate {line} comes before its order")
        if kind == "revocation":
            self.t.true(int(words[3]) <= len(self.rows["request"]), f"revocation {line} comes before its request")
            self.t.same(int(words[4]), len(self.rows["crl"]) + 1, f"the first CRL of revocation {line}, after {len(self.rows['crl'])} CRLs")
        if kind == "request":
            self.t.true(words[1] in self.serials, f"request {line} comes before its certificate")
        if kind == "certificate":
            self.serials.add(words[0])
        self.rows[kind].append(line)

    def get_all(self, most=200):
        for _ in range(most):
            if self.get()[1]:
                return self
        raise AssertionError(f"{most} pages and no end")

    def is_like(self, path):
        """The rows, the CRLs byte for byte, the head and the positions must be those of a register's file."""
        tables = Tables(path)
        for kind in KINDS:
            self.t.same(self.rows[kind], tables.lines[kind], f"rows of the kind {kind}")
        self.t.same(self.crls, tables.crls, "CRLs")
        self.t.same(self.head, tables.head, "the head of the last page")
        self.t.same(self.after, tables.positions(), "the positions after the last page")
        return tables


def taken(t, control, name="taken.db"):
    """A copy of the open register, by the line `copy`."""
    with contextlib.suppress(FileNotFoundError):
        (t.room / name).unlink()
    t.true(control.ask(f"copy {t.room / name}").startswith("copied "), "copy")
    return t.room / name


def entered(copy, path):
    """Makes a register's file of the rows that a follower has, with the derived tables that follow from them."""
    rows = {kind: [line.split() for line in lines] for kind, lines in copy.rows.items()}
    head = [line.split() for line in copy.head.decode().splitlines()]
    name, key = map(bytes.fromhex, head[1][1:])
    last, at = read(head[4][1].encode()), lambda text: read(text.encode())
    certs = [(bytes.fromhex(serial), int(order), at(begin), at(end)) for serial, order, begin, end in rows["certificate"]]
    declined = {id for (id,) in rows["declined"]}
    ends = {cert[0]: cert[3] for cert in certs}
    grounds = {word: index for index, word in enumerate(GROUNDS, 1)}
    requests = [(int(id), bytes.fromhex(serial), grounds[word], at(moment), int(id in declined)) for id, serial, word, moment in rows["request"]]
    revoked = [(bytes.fromhex(serial), at(moment), *map(int, numbers)) for serial, moment, *numbers in rows["revocation"]]
    crls = [(int(number), at(moment), copy.crls[int(number)]) for number, moment, _ in rows["crl"]]
    letters = {cert[0]: "X" if cert[3] < last else "G" for cert in certs} | {row[0]: "R" for row in revoked}
    last_crl = lambda row: next((crl[0] for crl in crls if crl[0] >= row[4] and crl[1] > ends[row[0]]), None)
    listed = [(*row[:3], row[4], ends[row[0]], last_crl(row)) for row in revoked]
    with contextlib.closing(sqlite3.connect(path)) as db:
        db.executescript(" ".join((registers.FIRST + registers.SECOND + registers.THIRD).split()).replace("( ", "(").replace(" )", ")"))
        for table, values in (
            ("office", [(1, 3, name, key, 398, *map(int, head[2][1:]), last)]), ("subscriber", [(int(id), name) for id, name in rows["subscriber"]]),
            ("orders", [tuple(map(int, row)) for row in rows["order"]]), ("cert", certs), ("request", requests), ("revocation", revoked),
            ("crl", crls),
            ("standing", [(serial, ends[serial], letter) for serial, letter in letters.items()]), ("listed", listed),
            ("kept", [(1, *(list(letters.values()).count(it) for it in "GRX"))]),
            ("longest", [(at(moment), int(days)) for moment, days in (step.split("=") for step in head[3][1:])]),
        ):  # fmt: skip
            db.executemany(f"INSERT INTO {table} VALUES ({', '.join('?' * len((values or [()])[0]))})", values)
        db.commit()


# Four certificates: 05 is revoked and on CRL 1, 06 has a declined request and is revoked by another one, 07 has an open request, 08 none.
LINES = "".join(
    f"{it}\n"
    for it in (
        f"{DAY} subscriber acme", f"{DAY} subscriber b.example", *[f"{DAY} order 2 {days}" for days in (90, 398, 30, 15)], f"{DAY} order 1 1",
        *[f"{DAY} register {at} {serial} {DAY} 2026-01-{9 + at:02}T00:00:00Z"
          for at, serial in ((1, "05"), (3, "06"), (2, "7" + "f" * 39), (4, "08"))],
        "2026-01-02T00:00:00Z request 05 key-compromise", "2026-01-02T08:00:00Z revoke 1", "2026-01-02T08:30:00Z crl",
        "2026-01-02T09:00:00Z request 06 asked", "2026-01-02T09:00:00Z request 06 misuse", f"2026-01-02T10:00:00Z request 7{'f' * 39} superseded",
        "2026-01-02T11:00:00Z decline 2", "2026-01-02T12:00:00Z revoke 3", "2026-01-02T13:00:00Z crl", "2026-01-02T13:00:00Z crl",
    )
)  # fmt: skip


def opened(t, lines=LINES, clock="2026-01-03T00:00:00Z"):
    t.register(lines=lines)
    t.clock(clock)
    return t.open(), t.control()


@test
def pages_have_all_rows_in_their_order(t):
    desk, control = opened(t)
    tables = Tables(taken(t, control))
    none = dict.fromkeys(COUNTED, 0)
    head, rows, crls, after = feed_after(t, desk)
    t.same((head, rows, crls), (tables.head, tables.feed(none, []), tables.crls), "the pages from nothing")
    t.same(after, tables.positions(), "positions")
    t.same({kind for kind, _ in rows}, set(KINDS), "kinds of rows that occur")
    t.same(feed_after(t, desk, NOTHING + tables.digest(none)), (head, rows, crls, after), "the pages after positions of nothing")
    for number, octets in crls.items():
        t.same(octets, parted(desk.ask("GET", f"/crl/{number}"))[2], f"CRL {number}")
    t.same(asked(t, desk, after), (head, [], {}, True, after), "the page without news")
    t.same(parted(desk.ask("GET", "/changes?"))[2], parted(desk.ask("GET", "/changes"))[2], "an empty query")


@test
def the_page_in_the_documentation(t):
    """docs/RULES.md has the first page of the register of examples/first-day.txt, with `..` for the octets of its CRL."""
    _, text = (program.TOP / "docs/RULES.md").read_text().split("$ curl -s http://127.0.0.1:8080/changes\n", 1)
    block, _ = text.split("\n\n", 1)
    t.register()
    t.done("script", "ca.db", given=(program.TOP / "examples/first-day.txt").read_text())
    t.clock("2026-01-03T00:00:00Z")
    _, _, page = parted(t.open().ask("GET", "/changes"))
    ((_, octets),) = page_of(t, page)[2].items()
    t.same(page.count(octets), 1, "the octets of the CRL on the page")
    told = page.replace(octets, b"..").decode().splitlines()
    t.same(told, [line.removeprefix("    ") for line in block.splitlines()], "the first page")


@test
def the_pages_after_each_prefix(t):
    """After the first rows of each table, the pages have the others; positions that skip a reference are positions too."""
    desk, control = opened(t)
    tables = Tables(taken(t, control))
    for kind, count in tables.counts().items():
        for had in range(count):
            counts = {**tables.counts(), kind: had}
            ids = [id for id in tables.lines["declined"] if int(id) <= counts["request"]]
            _, rows, _, after = feed_after(t, desk, tables.positions(counts, ids))
            t.same((rows, after), (tables.feed(counts, ids), tables.positions()), f"after {had} rows of the kind {kind}")


@test
def each_command_is_on_the_next_page(t):
    desk, control = opened(t)
    copy = Copy(t, desk).get_all()
    for line, kinds in (
        ("subscriber third", ["subscriber"]), ("order 3 20", ["order"]), ("register 6 0A 2026-01-03T00:00:00Z 2026-01-05T00:00:00Z", ["certificate"]),
        ("register 6 0A 2026-01-03T00:00:00Z 2026-01-05T00:00:00Z", []), ("request 0A cessation", ["request"]), ("request 0A asked", ["request"]),
        ("decline 5", ["declined"]), ("revoke 6", ["revocation"]), ("crl", ["crl"]), ("crl", ["crl"]), ("status 05", []), ("revoke 6", []),
        ("schedule 1970-01-01T00:00:00Z=398 2026-06-01T00:00:00Z=200", []), ("decline 4", ["declined"] * 3),
    ):  # fmt: skip
        told = control.ask(line)
        t.true(told[:1] not in "F" and (told[:1] != "E") == (line != "revoke 6" or bool(kinds)), f"{line}: {told}")
        rows, ends = copy.get()
        t.same(([kind for kind, _ in rows], ends), (kinds, kinds != ["crl"]), f"the page after {line}")
        if kinds == ["crl"]:
            t.same(copy.get(), ([], True), "the page after that of a CRL")
        copy.is_like(taken(t, control))
    t.same(copy.get(), ([], True), "the page at the end")


@test
def a_decline_of_an_earlier_request(t):
    """A request is declined whose id is below that of another declined one: the next page has all declined ids."""
    desk, control = opened(t)
    copy = Copy(t, desk).get_all()
    for line in ("request 08 asked", "request 08 misuse", "request 08 inaccurate", "decline 6"):
        control.ask(line)
    t.same([row for row in copy.get()[0] if row[0] == "declined"], [("declined", "6")])
    t.same(control.ask("decline 5"), "declined")
    t.same(copy.get(), ([("declined", "2"), ("declined", "5"), ("declined", "6")], True))
    copy.is_like(taken(t, control))


@test(seconds=6)
def pages_of_a_large_register(t):
    """Pages of at most 1,000 rows, while commands come in between."""
    records = registers.Records(3_000, crls=40)
    registers.make(t.room / "ca.db", records, 3)
    t.clock(records.last + 60)
    desk, control = t.open(), t.control()
    copy = Copy(t, desk)
    good = next(serial.hex() for serial, letter in records.standing().items() if letter == "G")
    next_id = len(records.requests) + 1
    told = iter((
        "subscriber late", "order 2 9", f"request {good} asked", f"decline {next_id}", f"request {good} misuse", f"revoke {next_id + 1}", "crl",
    ))  # fmt: skip
    ends = False
    while not ends:
        ends = copy.get()[1]
        if line := next(told, None):
            t.true(control.ask(line)[:1] not in "EF", line)
            ends = False
    t.true(copy.pages > 7, f"{copy.pages} pages")
    copy.is_like(taken(t, control))


@test(seconds=6)
def a_register_made_of_the_pages_is_sound(t):
    """The pages have all that a register needs: `desk audit` finds one that is made of them sound, and lists and replies are the same."""
    desk, control = opened(t)
    for line in ("request 08 asked", "decline 5", "order 1 3", "register 6 0A 2026-01-02T00:00:00Z 2026-01-04T00:00:00Z", "crl"):
        t.true(control.ask(line)[:1] not in "EF", line)
    copy = Copy(t, desk).get_all()
    t.clock("2026-01-12T00:00:00Z")
    for line in ("subscriber late", "request 08 misuse", "crl", "crl"):
        t.true(control.ask(line)[:1] not in "EF", line)
    copy.get_all()
    desk.end()
    entered(copy, t.room / "made.db")
    t.same(t.done("audit", "made.db"), t.done("audit", "ca.db"), "what desk audit says")
    for words in (["list", "ca.db", word] for word in ("certificates", "revoked", "requests", "subscribers", "orders", "crls", "overdue")):
        t.same(t.done(*["made.db" if it == "ca.db" else it for it in words]), t.done(*words), f"desk list {words[2]}")
    # It is an ordinary open register.
    t.open("made.db", "--control", "made")
    t.same(t.control("made").ask("crl"), "crl 7 entries 1")


@test(seconds=4)
def more_declines_than_fit_on_a_page(t):
    lines = [f"{DAY} subscriber acme", f"{DAY} order 1 398", f"{DAY} register 1 05 {DAY} 2026-12-31T00:00:00Z", *[f"{DAY} request 05 asked"] * 2_300]
    lines += [f"{DAY} decline {id}" for id in range(1, 2_301) if id % 10 != 7]
    desk, control = opened(t, "".join(f"{it}\n" for it in lines))
    copy = Copy(t, desk).get_all()
    copy.is_like(taken(t, control))
    t.same(control.ask("decline 7"), "declined")
    pages = copy.pages
    copy.get_all()
    t.same((copy.pages - pages, len(copy.rows["declined"])), (3, 2_071), "pages with the declined ids again, and how many are declined")
    copy.is_like(taken(t, control))
    # A decline of an id that was sent already, while the declined ids are sent again: they are sent once more.
    t.same(control.ask("decline 2297"), "declined")
    t.same(len(copy.get()[0]), 1_000)
    t.same(control.ask("decline 17"), "declined")
    copy.get_all()
    copy.get_all()
    copy.is_like(taken(t, control))


@test(seconds=4)
def a_page_ends_with_its_crl(t):
    """Each page has one CRL behind its rows, and says `more`; the revocations that the CRL lists come before it."""
    t.register(lines=LINES)
    # The latest one is a CRL: the desk reads its algorithm.
    ((real,),) = t.sql("ca.db", "SELECT der FROM crl WHERE number = 3")
    octets = [b"", bytes(range(251)) * 20_000, b"7" * 63, b"8" * 64, b"9" * 65]
    for number, der in enumerate([*octets, real], 4):
        t.sql("ca.db", "INSERT INTO crl VALUES (?, ?, ?)", number, 1_767_398_400 + number, der)
    t.sql("ca.db", "UPDATE office SET last_at = 1767398500")
    t.clock("2026-01-04T00:00:00Z")
    desk, control = t.open(), t.control()
    copy, found = Copy(t, desk), []
    while True:
        rows, ends = copy.get()
        found.append({kind for kind, _ in rows} & {"revocation", "crl"})
        if ends:
            break
    t.same(found, [{"revocation", "crl"}] * 2 + [{"crl"}] * 7 + [set()], "revocations and CRLs of each page")
    copy.is_like(taken(t, control))


@test
def rows_before_each_page_hold_up_no_crl(t):
    """A command comes before each request: yet each page has the next CRL and the revocations before it, until there is none."""
    desk, control = opened(t)
    copy, found = Copy(t, desk), []
    for number in range(3, 7):
        t.same(control.ask(f"subscriber s{number}"), f"subscriber {number}")
        rows, ends = copy.get()
        kinds = [kind for kind, _ in rows]
        found.append((kinds.count("subscriber"), kinds.count("revocation"), kinds.count("crl"), ends))
    wanted = [(3, 1, 1, False), (1, 1, 1, False), (1, 0, 1, False), (1, 0, 0, True)]
    t.same(found, wanted, "subscribers, revocations and CRLs of each page, and its end")
    copy.is_like(taken(t, control))


@test(seconds=6)
def a_full_page_has_no_crl(t):
    """A CRL comes behind up to 999 rows, whatever rows these are. Behind 1,000 it comes on the next page, as does a revocation that it lists."""
    more = 1_001
    lines = [f"{DAY} subscriber s{at}" for at in range(more)] + [f"{DAY} order 1 398" for _ in range(more)]
    lines += [f"{DAY} register {at} {at:04x} {DAY} 2026-12-31T00:00:00Z" for at in range(1, more + 1)]
    lines += [f"{DAY} request {at:04x} asked" for at in range(1, more + 1)] + [f"{DAY} revoke {at}" for at in range(1, more + 1)]
    lines += [f"{DAY} crl"] * 2
    desk, control = opened(t, "".join(f"{it}\n" for it in lines))
    tables = Tables(taken(t, control))
    whole = tables.counts()
    for kind in COUNTED[:-1]:
        for left in (998, 999, 1_000, 1_001):
            counts = {**whole, kind: more - left, "crl": 0}
            wanted, after, ends, got = pages_of(tables.feed(counts, [])), tables.positions(counts, []), False, []
            while not ends:
                _, rows, _, ends, after = asked(t, desk, after)
                got.append(rows)
            t.same([len(it) for it in got], [len(it) for it in wanted], f"rows of each page, behind all but {left} of the kind {kind}")
            t.true(got == wanted, f"other rows behind all but {left} of the kind {kind}")


GOOD = "2.5.4.4.2.3.1.2." + "0" * 64
BAD = {
    "empty": "after=", "without a digest": "after=2.5.4.4.2.3.1.2.", "seven numbers": "after=2.5.4.4.2.3.1." + "0" * 64,
    "nine numbers": f"after=1.{GOOD}", "a short digest": f"after={GOOD[:-1]}", "a long digest": f"after={GOOD}0",
    "a digest with a g": f"after={GOOD[:-1]}g", "a sign": f"after=+{GOOD}", "an encoded space": f"after=%20{GOOD}",
    "19 digits": "after=" + "0" * 19 + GOOD[1:], "another name": f"since={GOOD}", "a second parameter": f"after={GOOD}&wait=2",
    "no value": "after", "a letter": "after=2.5.4.4.2.3.1.x." + "0" * 64, "a name in capital letters": f"After={GOOD}", "no name": "x",
}  # fmt: skip


@test
def positions_that_cant_be_read(t):
    desk, _ = opened(t)
    for what, query in BAD.items():
        got, _, body = parted(desk.ask("GET", f"/changes?{query}"))
        t.same((got, body), (400, b'{"error":"E22 syntax"}'), what)
    asked(t, desk, GOOD, status=409)


@test
def positions_that_are_not_in_the_history(t):
    desk, control = opened(t)
    tables = Tables(taken(t, control))
    counts = tables.counts()
    refused = b'{"error":"diverged"}'
    wrong, digest = {}, tables.digest(counts)
    numbers = lambda values: "".join(f"{it}." for it in values)
    whole = [*counts.values(), 1, 2]
    wrong["another digest"] = numbers(whole) + hashlib.sha256(b"").hexdigest()
    for at in range(6):
        for more in (1, 32, 33, 10**17):
            wrong[f"{more} more at {at}, with the digest of all"] = numbers([*whole[:at], whole[at] + more, *whole[at + 1 :]]) + digest
        wrong[f"one less at {at}, with the digest of all"] = numbers([*whole[:at], whole[at] - 1, *whole[at + 1 :]]) + digest
    for what, positions in wrong.items():
        t.same(asked(t, desk, positions, status=409), refused, what)
    t.same(asked(t, desk, numbers(whole) + digest.upper())[1:4], ([], {}, True), "a digest in capital letters")


@test
def positions_of_another_register(t):
    """A register with other rows, with the same rows in another order, with another issuer, and an older copy that went another way."""
    t.register(lines=LINES)
    faults.copy(t.room / "ca.db", t.room / "older.db")
    # Certificates 06 and 08 change places in the order of entry, with the same parts.
    line = "{0} register {1} {2} {0} 2026-01-{3}T00:00:00Z\n"
    one, other = line.format(DAY, 3, "06", 12), line.format(DAY, 4, "08", 13)
    t.true(one in LINES and other in LINES, "no such lines")
    t.register("swapped.db", lines=LINES.replace(one, "X").replace(other, one).replace("X", other))
    t.register("issuer.db", lines=LINES, key="616264")
    t.done("script", "ca.db", given="2026-01-02T14:00:00Z subscriber late\n")
    t.done("script", "older.db", given="2026-01-02T14:00:00Z subscriber other\n")
    t.clock("2026-01-03T00:00:00Z")
    desk = t.open()
    ours = asked(t, desk)[4]
    for file in ("swapped.db", "issuer.db", "older.db"):
        other = t.open(file, "--control", f"{file}.control")
        theirs = asked(t, other)[4]
        t.same(asked(t, desk, theirs, status=409), b'{"error":"diverged"}', f"positions of {file}")
        t.same(asked(t, other, ours, status=409), b'{"error":"diverged"}', f"our positions at {file}")
    t.same(asked(t, desk, ours)[0], asked(t, desk)[0], "the head after our positions at our register")


@test
def positions_outlive_a_restart(t):
    desk, control = opened(t)
    copy = Copy(t, desk).get_all()
    t.same(control.ask("subscriber late"), "subscriber 3")
    desk.end()
    copy.desk = t.open("ca.db", "--control", "again")
    t.same(copy.get(), ([("subscriber", "3 late")], True), "the page after the desk was opened again")


@test
def a_new_issuer_key_identifier_is_in_the_head(t):
    t.register(lines=LINES)
    t.clock("2026-01-03T00:00:00Z")
    with t.open() as desk:
        before = feed_after(t, desk)
    t.same(t.done("key-id", "ca.db", "0A0B"), "key-id set\n")
    desk, control = t.open("ca.db", "--control", "again"), t.control("again")
    head, rows, _, ends, after = asked(t, desk, before[3])
    t.same((rows, ends, after), ([], True, before[3]), "no rows, and the same positions")
    t.same(head, Tables(taken(t, control)).head, "the head")
    t.true(head != before[0] and b"0a0b " in head, "the key identifier")


@test
def where_the_route_is(t):
    desk, _ = opened(t)
    for method in ("POST", "HEAD", "DELETE"):
        got, fields, _ = parted(desk.ask(method, "/changes", b"" if method == "POST" else None))
        t.same((got, [it for it in fields if it.startswith("Allow")]), (405, ["Allow: GET"]), method)
    for path in ("/changes/", "/change", "/changes/1", "/Changes"):
        t.same(parted(desk.ask("GET", path))[0], 404, path)
    desk.end()
    served = t.open("ca.db", "--requests", "2", command="serve")
    for path in ("/changes", f"/changes?after={GOOD}"):
        t.same(parted(served.ask("GET", path))[0], 404, f"{path} of desk serve")


@test
def an_empty_register(t):
    desk, control = opened(t, "")
    copy = Copy(t, desk).get_all()
    t.same(copy.pages, 1)
    tables = copy.is_like(taken(t, control))
    t.same(copy.after, NOTHING + tables.digest(dict.fromkeys(COUNTED, 0)))
    t.same(control.ask("crl"), "crl 1 entries 0")
    t.same([kind for kind, _ in copy.get()[0]], ["crl"])


@test
def the_log_and_the_metrics_have_it(t):
    t.register(lines=LINES)
    t.clock("2026-01-03T00:00:00Z")
    desk = t.open("ca.db", "--log")
    asked(t, desk)
    asked(t, desk, GOOD, status=409)
    t.same(sum("GET /changes" in it for it in desk.log), 2, "lines of the log with the route")
    told = desk.ask("GET", "/metrics").decode()
    t.has(told, 'desk_http_responses_total{route="/changes",code="200"} 1\n')
    t.has(told, 'desk_http_responses_total{route="/changes",code="409"} 1\n')


@test(seconds=4)
def nginx_does_not_forward_it(t):
    need("nginx")
    it = Authority(t)
    certificates(t)
    it.register()
    front = Front(t, t.open().port)
    t.same([front.ask(path)[0] for path in ("/changes", f"/changes?after={GOOD}")], [404, 404], "by plain http")
    t.same(front.ask("/changes", "--cert", "clerk.pem", "--key", "clerk.key", tls=True)[0], 404, "with a clerk's certificate")


@test(seconds=12)
def a_page_without_memory(t):
    """One allocation fails while a page is made: the page is the usual one, or the answer reports the fault, and the next one is the page."""
    base = t.register("base.db", lines=LINES)
    clock = t.room / "clock"
    clock.write_text(str(program.seconds_of("2026-01-03T00:00:00Z")))

    def run(fail, what):
        """The counts of calls when the desk listens, and after the first answer; the first answer, and a second one."""
        faults.copy(base, t.room / "ca.db")
        env = faults.environment(count=t.room / "count", same=1, fail=fail)
        words = ["open", "ca.db", "--control", "control", "--unsigned"]
        (t.room / "control").unlink(missing_ok=True)
        with program.Opened(words, cwd=t.room, clock=clock, faults=env) as desk:
            t.true(desk.listens, f"{what}: it does not listen")
            first = faults.counted(t.room / "count")
            answers = [desk.ask("GET", "/changes"), faults.counted(t.room / "count"), desk.ask("GET", "/changes")]
            desk.end()
        return first, answers[1], answers[0], answers[2]

    first, last, page, again = run(None, "no fault")
    t.same(parted(page)[2], parted(again)[2], "the page twice")
    t.true(parted(page)[2].startswith(b"changes 1\n"), f"{page!r}")
    t.true(last["alloc"] > first["alloc"] + 20, f"{last['alloc'] - first['alloc']} allocations for a page")
    # The last ones are for the text of the page's rows.
    for at in (*range(first["alloc"] + 1, last["alloc"] - 20, 7), *range(last["alloc"] - 20, last["alloc"] + 1)):
        _, _, got, again = run(f"alloc:{at}", f"allocation {at}")
        status, _, body = parted(got)
        t.true(got in (b"", page) or status == 500 and body in (b'{"error":"F1 memory"}', b""), f"allocation {at}: {got!r}")
        t.same(again, page, f"the page after the failure of allocation {at}")
