"""An open desk at large sizes: pages, CRLs, requests, answers and lines as long as they may be, or longer than users have them; and an open desk
after many requests, connections, signatures and failures, and after years."""

import base64
import contextlib
import json
import os
import re
import resource
import signal
import socket
from concurrent.futures import ThreadPoolExecutor

from groups.changes import COUNTED, GROUNDS, Tables, asked, pages_of
from groups.follow import inside_of, ran
from groups.identifiers import name_of
from groups.limits import asks, full_queue, have_passed
from groups.lists import FIELDS
from groups.monitoring import metrics, of
from groups.persistent import Keeping, is_own
from groups.second_machine import namespace
from groups.signers import LONGEST_RSA_KEY
from groups.waiting import Held, asked_for, own_signature
from lib import authority, faults, program, registers
from lib.native import ANNOUNCEMENT, frame
from lib.passing import Passing
from lib.program import ANY_SIGNATURE, P256_KEY, Control, Signers, moment_of, parted, read_all
from lib.trial import Skipped, need, test
from model import der, ocsp
from model.register import GROUNDS as TERMS
from model.register import Certificate, Register, Revocation

DAY = "2026-01-01T00:00:00Z"
SIGNING = ("--signer", "ca.sign", "--algorithm", "ecdsa-sha256")
COUNTS = b"GET /counts HTTP/1.1\r\n\r\n"
SECONDS = 86_400


def unhurried(t, **how):
    """The environment of a desk for which no time passes, so that no client and no signature is late, however slow the machine is."""
    have_passed(t, 0)
    return faults.environment(passed=t.room / "passed", **how)


# A register of 20,000 certificates


class Records(registers.Records):
    """Of 20,000 certificates 12,000 are revoked and 1,000 have expired; 1,000 more have a declined request, and 1,000 more have twelve open requests
    each. Of these all but 500 are overdue. The 1,200 CRLs came before the first revocation. Names have 64 bytes, serial numbers 20 octets."""

    SUBSCRIBERS, CERTIFICATES, REQUESTS, REVOKED, CRLS = 2_500, 20_000, 25_000, 12_000, 1_200
    NOW = registers.START + 20 * SECONDS

    def __init__(self):
        begins, ids = registers.START, range(1, self.CERTIFICATES + 1)
        self.serials = [(it * 0x9E3779B97F4A7C15F39CC0605CEDC8341082276B % 2**158 + 2**158).to_bytes(20, "big") for it in ids]
        self.certs = [(serial, id, begins, begins + (300 * SECONDS if id <= 19_000 else SECONDS) + id) for id, serial in zip(ids, self.serials)]
        self.ends = {cert[0]: cert[3] for cert in self.certs}
        # Ground 1, `asked`, has no reason in a CRL.
        ground, received = lambda id: 2 + id % 10, lambda id: begins + 2_000 + id + (id > 24_500) * 39 * SECONDS // 2
        declined = lambda id: int(12_000 < id <= 13_000)
        of = self.certificate_of
        self.requests = [(id, self.serials[of(id) - 1], ground(id), received(id), declined(id)) for id in range(1, self.REQUESTS + 1)]
        reason = lambda id: TERMS[GROUNDS[ground(id) - 1].encode()][1]
        at = lambda id: begins + 20_000 + id + (id > 11_000) * 2 * SECONDS
        self.revocations = [(self.serials[id - 1], at(id), reason(id), id, self.CRLS + 1) for id in range(1, self.REVOKED + 1)]
        self.updates = [(number, begins + number) for number in range(1, self.CRLS + 1)]
        self.crls = [(number, update, registers.sealed(number, update, [])) for number, update in self.updates]
        self.last = self.requests[-1][3]

    def listed(self):
        return {serial: (at, reason, first, self.ends[serial], None) for serial, at, reason, _, first in self.revocations}

    def make(self, path):
        registers.make(path, self, 3)
        with contextlib.closing(registers.sqlite3.connect(path)) as db:
            db.execute("DELETE FROM subscriber")
            names = [(id, self.name(id)) for id in range(1, self.SUBSCRIBERS + 1)]
            db.executemany("INSERT INTO subscriber VALUES (?, ?)", names)
            db.execute(f"UPDATE orders SET subscriber = (id - 1) % {self.SUBSCRIBERS} + 1")
            db.commit()
        return path

    def name(self, id):
        return f"subscriber-{id:053d}"

    def certificate_of(self, id):
        """The order of the certificate for which there is a request."""
        return id if id <= 14_000 else 13_001 + id % 1_000

    # The rows of lists at NOW

    def owner(self, order):
        id = (order - 1) % self.SUBSCRIBERS + 1
        return {"subscriber": id, "name": self.name(id), "order": order}

    def certificate(self, order):
        serial, _, begin, end = self.certs[order - 1]
        row = {"serial": serial.hex(), **self.owner(order), "notBefore": moment_of(begin), "notAfter": moment_of(end)}
        revoked = self.revocations[order - 1] if order <= self.REVOKED else None
        row |= {"status": "revoked" if revoked else "expired" if end < self.NOW else "good", "revokedAt": revoked and moment_of(revoked[1])}
        return row | {"reason": revoked and revoked[2], "firstCrl": revoked and revoked[4], "lastCrl": None}

    def request(self, id):
        _, serial, ground, at, _ = self.requests[id - 1]
        word = GROUNDS[ground - 1]
        row = {"request": id, "serial": serial.hex(), "ground": word, "received": moment_of(at), "due": moment_of(at + TERMS[word.encode()][0])}
        order = self.certificate_of(id)
        return row | self.owner(order) | {it: self.certificate(order)[it] for it in ("notBefore", "notAfter")}

    def history(self, id):
        _, _, ground, at, declined = self.requests[id - 1]
        until = self.revocations[id - 1][1] if id <= self.REVOKED else self.NOW
        late = max(0, until - at - TERMS[GROUNDS[ground - 1].encode()][0])
        state = "revoked" if id <= self.REVOKED else "declined" if declined else "open"
        decided = moment_of(until) if state == "revoked" else None
        return self.request(id) | {"state": state, "decided": decided, "lateness": None if declined else late}

    def revoked(self, id):
        row = self.certificate(id) | {it: self.request(id)[it] for it in ("request", "ground", "received", "due")}
        return row | {"lateness": self.history(id)["lateness"]}

    def pages(self):
        """Of each list the query, the ids of the rows that it reads in their order, the key of each, and a function that gives its row or None."""
        by_serial = lambda last: sorted(range(1, last + 1), key=lambda id: self.serials[id - 1])
        serial, number = lambda id: self.serials[id - 1].hex(), str
        certificates, before = by_serial(self.CERTIFICATES), registers.START + 300 * SECONDS + 15_000
        ending = lambda id: self.certificate(id) if self.REVOKED < id <= 19_000 and self.certs[id - 1][3] < before else None
        late = lambda id: self.request(id) if 13_000 < id <= 24_500 else None
        requests = range(1, self.REQUESTS + 1)
        return {
            "certificates": ("", certificates, serial, self.certificate), "revoked": ("", by_serial(self.REVOKED), serial, self.revoked),
            "ending": (f"&before={moment_of(before)}", certificates, serial, ending), "requests": ("", requests, number, self.history),
            "open-requests": ("", requests, number, lambda id: self.request(id) if id > 13_000 else None), "overdue": ("", requests, number, late),
            "subscribers": ("", range(1, self.SUBSCRIBERS + 1), number, lambda id: {"subscriber": id, "name": self.name(id)}),
            "orders": ("", range(1, self.CERTIFICATES + 1), number, lambda id: self.owner(id) | {"days": 398, "serial": self.serials[id - 1].hex()}),
            "crls": ("", range(1, self.CRLS + 1), number, lambda id: {"crl": id, "thisUpdate": moment_of(registers.START + id)}),
        }  # fmt: skip


def page_of(word, read, key, row, full):
    """The text of a page that reads these ids."""
    rows = [{name: it[name] for name in FIELDS[word]} for it in map(row, read) if it]
    return json.dumps({"list": word, "next": key(read[-1]) if full else None, "rows": rows}, separators=(",", ":"))


def crl_of(number, at, entries, identifier, algorithm, signature, name=bytes.fromhex(program.NAME)):
    """The TBSCertList of a CRL (RFC 5280 5.1) whose entries have these octets, and the whole CRL with this signature of the former."""
    key_identifier = registers.extension(b"\x55\x1d\x23", registers.tlv(0x30, registers.tlv(0x80, identifier)))
    counted = registers.extension(b"\x55\x1d\x14", registers.integer(number.to_bytes(8, "big")))
    times = registers.utc(at), registers.utc(at + registers.CRL_LIFE)
    extensions = registers.tlv(0xA0, registers.tlv(0x30, key_identifier, counted))
    revoked = registers.tlv(0x30, entries) if entries else b""
    part = registers.tlv(0x30, registers.tlv(2, b"\1"), algorithm, name, *times, revoked, extensions)
    return part, registers.tlv(0x30, part, algorithm, registers.tlv(3, b"\0", signature(part)))


def placeholder_crl(number, at, entries):
    """A CRL of the issuer of the examples, with a placeholder digest."""
    return crl_of(number, at, entries, der.sha1(registers.KEY), der.SHA1, der.sha1)[1]


def counts_of(tables, **other):
    """The counts of all rows of a register; other ones for some kinds of rows."""
    return {**tables.counts(), **other}


def copy_of(t, control, name):
    """The tables of a copy of the open register."""
    t.true(control.ask(f"copy {t.room / name}").startswith("copied "), "no copy")
    return Tables(t.room / name)


@test(seconds=10)
def a_register_of_twenty_thousand_certificates(t):
    """Its lists, its numbers and its changes feed, beside a published CRL of 12,000 entries; then its next CRL has as many."""
    records = Records()
    records.make(t.room / "ca.db")
    t.clock(records.NOW)
    entries = b"".join(registers.entry(serial, at, reason) for serial, at, reason, _, _ in sorted(records.revocations))
    (t.room / "published.crl").write_bytes(placeholder_crl(1_200, records.NOW, entries))
    tables = Tables(t.room / "ca.db")
    desk = t.open("ca.db", "--log-file", "ca.log", "--published", "published.crl")
    with t.control() as control:
        its_lists(t, records, desk)
        its_numbers(t, records, desk, control)
        before = counts_of(tables, revocation=0, crl=1)
        pages, crls, after = pages_of(tables.feed(dict.fromkeys(COUNTED, 0), [])), {}, None
        while not crls:
            page = pages.pop(0)
            head, rows, crls, ends, after = asked(t, desk, after)
            t.same((head, len(rows), ends), (tables.head, len(page), False), f"the page from {page[0]} on")
            t.true(rows == page, f"the page from {page[0]} on has other rows than the tables")
        t.same((crls, after), ({1: tables.crls[1]}, tables.positions(before)), "the CRL behind them, and the positions after it")
        steps = " ".join(f"{moment_of(at * 400 * SECONDS)}={398 - at}" for at in range(16))
        t.same((control.ask(f"schedule {steps}"), control.ask("crl")), ("schedule set", "crl 1201 entries 12000"))
        t.true(parted(desk.ask("GET", "/crl"))[2] == placeholder_crl(1_201, records.NOW, entries), "GET /crl has other octets")
        t.same(control.ask(f"listing {records.serials[0].hex()}"), "listing first 1201")
        tables = copy_of(t, control, "copy.db")
    # The CRLs from 1,191 on, and the revocations, which come before the last CRL.
    before = counts_of(tables, revocation=0, crl=1_190)
    rows, crls, after, ends = [], {}, tables.positions(before), False
    while not ends:
        head, more, octets, ends, after = asked(t, desk, after)
        rows, crls = rows + more, crls | octets
    t.true(rows == tables.feed(before, tables.lines["declined"]), "the last rows are others than those of the tables")
    t.same((head, after), (tables.head, tables.positions()), "the last head, and the last positions")
    t.same(sorted(crls), list(range(1_191, 1_202)), "the CRLs of the feed")
    t.true(crls == {number: tables.crls[number] for number in crls}, "the CRLs of the feed have other octets")
    desk.end()
    t.register("none.db")
    ran = t.desk("open", "none.db", "--port", program.free_port(), "--control", "control", "--unsigned", "--published", "published.crl")
    missing = ["missing crl 1200", *(f"missing revocation {it[0].hex()}" for it in sorted(records.revocations))]
    t.same((ran.status, ran.err), (1, b"behind-crl\n"), "a register without these revocations")
    t.true(ran.lines == missing, f"other lines than {len(missing)} missing ones: {ran.out[:200]!r}")


def its_lists(t, records, desk):
    """Pages of 250 rows at the beginning, behind ten thousand rows, and at the end."""
    longest, sizes = 0, []
    for word, (query, ids, key, row) in records.pages().items():
        for first in (0, 1, 1_000, 10_001, 13_000, len(ids) - 251, len(ids) - 250, len(ids) - 1):
            if not 0 <= first < len(ids):
                continue
            behind = f"&after={key(ids[first - 1])}" if first else ""
            response = desk.ask("GET", f"/list/{word}?limit=1000{query}{behind}")
            status, _, body = parted(response)
            read = ids[first : first + 250]
            t.same((status, body.decode()), (200, page_of(word, read, key, row, len(read) == 250)), f"{word} behind {first} rows")
            longest, sizes = max(longest, len(body)), [*sizes, len(response)]
    t.true(longest > 98_304, f"the longest page has only {longest} bytes")
    told = re.findall(r'"GET /list/.*" "HTTP/1\.1 200 OK" (\d+) \d+\n', (t.room / "ca.log").read_text())
    t.same(list(map(int, told)), sizes, "the bytes of each page in the log")
    # Each octet of a query may be percent-encoded. This one has all names but `before`.
    wanted = records.certificate(15_000)
    in_order = sorted(it.hex() for it in records.serials)
    told = {
        "after": in_order[in_order.index(wanted["serial"]) - 100], "limit": "250", "subscriber": wanted["name"], "serial": wanted["serial"],
        "from": DAY, "to": moment_of(records.NOW),
    }  # fmt: skip
    encoded = lambda text: "".join(f"%{ord(it):02X}" for it in text)
    query = "&".join(f"{encoded(name)}={encoded(value)}" for name, value in told.items())
    t.true(len(query) > 600, f"the query has only {len(query)} characters")
    t.same(json.loads(parted(desk.ask("GET", f"/list/certificates?{query}"))[2])["rows"], [wanted], "the row that a filter selects")


def its_numbers(t, records, desk, control):
    """Single rows, statuses and counts by lines, and the metrics."""
    as_json = lambda word, row: json.dumps({name: row[name] for name in FIELDS[word]}, separators=(",", ":"))
    serial, (_, at, reason, _, _) = records.serials[11_999].hex(), records.revocations[-1]
    for line, reply in {
        "show request 24999": as_json("requests", records.history(24_999)),
        f"show {serial}": as_json("certificates", records.certificate(12_000)),
        f"show subscriber {records.name(2_499)}": as_json("subscribers", {"subscriber": 2_499, "name": records.name(2_499)}),
        "counts": "good 7000 revoked 12000 expired 1000",
        "overdue": "overdue 11500 first 13001",
        f"listing {serial}": "listing first 1201",
        f"status {serial}": f"revoked {moment_of(at)} reason {reason}",
        "next-crl": f"next-crl {moment_of(registers.START + 20_001 + SECONDS)}",
    }.items():
        t.same(control.ask(line), reply, line)
    found = metrics(t, desk)
    t.same(of(found, "desk_certificates"), {'{status="good"}': 7_000, '{status="revoked"}': 12_000, '{status="expired"}': 1_000})
    t.same((found["desk_requests_open"], found["desk_requests_overdue"], found["desk_crl_number"]), (12_000, 11_500, 1_200), "requests and CRLs")
    rows = {"subscribers": 2_500, "orders": 20_000, "certificates": 20_000, "requests": 25_000, "crls": 1_200}
    t.same(of(found, "desk_rows{"), {f'table="{table}"}}': count for table, count in rows.items()}, "rows")


@test(seconds=3)
def an_issuer_of_1200_key_identifiers(t):
    """Its Name and its key are as long as they may be. The key identifier of CRL N ends with N. In the file they come after the Name, the last one
    first."""
    count, at = 1_200, registers.START + 1
    own = {number: b"5" * 56 + number.to_bytes(8, "big") for number in range(1, count + 1)}
    name = name_of(1_024)
    crl = lambda number: crl_of(number, at, b"", own[number], der.SHA1, der.sha1, name)[1]
    t.register(lines=f"{moment_of(at)} crl\n", name=name.hex(), key="5A" * 2_048)
    with contextlib.closing(registers.sqlite3.connect(t.room / "ca.db")) as db:
        db.execute("DELETE FROM crl")
        db.executemany("INSERT INTO crl VALUES (?, ?, ?)", [(number, at, crl(number)) for number in own])
        stored = name + b"".join(registers.tlv(0x80, it.to_bytes(8, "big"), own[it]) for it in range(count, 0, -1))
        db.execute("UPDATE office SET name = ?", (stored,))
        db.commit()
    t.true(len(stored) > 65_536, f"the issuer has only {len(stored)} octets")
    t.same(t.done("key-id", "ca.db", "0A0B"), "key-id set\n")
    t.clock(at)
    before = Tables(t.room / "ca.db")
    desk = t.open()
    with t.control() as control:
        t.same(control.ask("crl"), "crl 1201 entries 0")
        last = crl_of(1_201, at, b"", b"\x0a\x0b", der.SHA1, der.sha1, name)[1]
        t.same(parted(desk.ask("GET", "/crl"))[2], last, "the CRL with the next key identifier")
        t.same(parted(desk.ask("GET", "/crl/600"))[2], crl(600), "an earlier CRL")
        tables = copy_of(t, control, "copy.db")
    head, rows, crls, ends, after = asked(t, desk, before.positions())
    t.true((head, crls, ends) == (tables.head, {1_201: last}, False), f"the page of the CRL is another: {head[-200:]!r}")
    t.true(asked(t, desk, after) == (head, [], {}, True, tables.positions()), "the last page is another")
    desk.end()
    t.same(t.done("audit", "ca.db"), "sound, 0 certificates, 0 revoked, 1201 CRLs\n")


@test(seconds=2)
def the_last_row_of_each_table(t):
    """Each table has its row 999,999, without most rows before it. So there is room for one more, as the cap is 1,000,000."""
    count, begins, ends = 999_999, registers.START, registers.START + 300 * SECONDS
    t.register()
    serial = bytes(18) + b"\1\1"
    with contextlib.closing(registers.sqlite3.connect(t.room / "ca.db")) as db:
        db.execute("INSERT INTO subscriber VALUES (?, 'acme')", (count,))
        db.execute("INSERT INTO orders VALUES (?, ?, 398)", (count, count))
        db.execute("INSERT INTO cert (rowid, serial, order_id, not_before, not_after) VALUES (?, ?, ?, ?, ?)", (count, serial, count, begins, ends))
        db.execute("INSERT INTO request VALUES (?, ?, 6, ?, 0)", (count, serial, begins))
        db.execute("INSERT INTO standing VALUES (?, ?, 'G')", (serial, ends))
        db.execute("UPDATE kept SET n_good = 1")
        db.execute("INSERT INTO crl VALUES (?, ?, ?)", (count, begins, placeholder_crl(count, begins, b"")))
        db.execute("UPDATE office SET last_at = ?", (begins,))
        db.commit()
    t.clock(begins)
    desk = t.open("ca.db", "--log-file", "ca.log")
    last = f"{2**159 - 1:x}"
    lines = {
        "subscriber b": "subscriber 1000000", "order 1000000 398": "order 1000000", f"register 1000000 {last} {DAY} {moment_of(ends)}": "registered",
        f"request {last} superseded": f"request 1000000 due {moment_of(begins + SECONDS)}", "request 101 superseded": "E03 full",
        "why": "why E03 full", "revoke 1000000": "revoked",
        "crl": "crl 1000000 entries 1", "revoke 999999 101": "revoked",
    }  # fmt: skip
    full = ("subscriber c", "order 1000000 1", "crl")
    with t.control() as control:
        for line, reply in lines.items():
            t.same(control.ask(line), reply, line)
        entry = registers.entry((2**159 - 1).to_bytes(20, "big"), begins, 4)
        t.same(parted(desk.ask("GET", "/crl/1000000"))[2], placeholder_crl(1_000_000, begins, entry), "CRL 1,000,000")
        t.same([control.ask(it) for it in full], ["E03 full"] * 3, "lines that would add a row")
        t.same(control.ask(f"listing {last}"), "listing first 1000000")
        t.same(control.ask("listing 101"), "listing first 1000001")
    found = metrics(t, desk)
    t.same(set(of(found, "desk_rows{").values()), {1_000_000}, "the rows of each table")
    t.same(found["desk_crl_number"], 1_000_000, "the number of the latest CRL")
    (row,) = json.loads(parted(desk.ask("GET", "/list/crls?after=999999"))[2])["rows"]
    t.same(row, {"crl": 1_000_000, "thisUpdate": DAY}, "the last page of CRLs")
    t.same((t.room / "ca.log").read_text().count(f" request 1000000 {last}"), 2, "lines of the log that name request 1,000,000")


def of_rows(t, file, orders, requests):
    """A register whose last order and whose last request have these numbers. It has no other one, and a certificate of serial number 05."""
    begins, ends, serial = registers.START, registers.START + 300 * SECONDS, bytes(19) + b"\5"
    t.register(file)
    with contextlib.closing(registers.sqlite3.connect(t.room / file)) as db:
        db.execute("INSERT INTO subscriber VALUES (1, 'acme')")
        db.execute("INSERT INTO orders VALUES (?, 1, 398)", (orders,))
        db.execute("INSERT INTO cert VALUES (?, ?, ?, ?)", (serial, orders, begins, ends))
        db.execute("INSERT INTO request VALUES (?, ?, 6, ?, 1)", (requests, serial, begins))
        db.execute("INSERT INTO standing VALUES (?, ?, 'G')", (serial, ends))
        db.execute("UPDATE kept SET n_good = 1")
        db.execute("UPDATE office SET last_at = ?", (begins,))
        db.commit()
    t.clock(begins)
    return t.open(file, "--control", f"{file}.control")


@test(seconds=2)
def a_fifth_and_a_tenth_of_a_million_rows_are_left(t):
    """The health is failing if less than a fifth is left in a table. Requests over HTTP are refused if less than a tenth is left for them."""
    desk = of_rows(t, "orders.db", 799_999, 1)
    for number, rows in ((800_000, None), (800_001, DAY)):
        t.same(t.control("orders.db.control").ask("order 1 398"), f"order {number}")
        t.same(json.loads(parted(desk.ask("GET", "/health"))[2])["rows"], rows, f"the health with {number} orders")
    desk = of_rows(t, "requests.db", 1, 899_999)
    body, due = b'{"serial":"05","ground":"superseded"}', moment_of(registers.START + SECONDS)
    for number in (900_000, 900_001):
        told = parted(desk.ask("POST", "/requests", body))[::2]
        t.same(told, (200, b'{"due":"%b","request":%d}' % (due.encode(), number)), f"request {number}")
    t.same(parted(desk.ask("POST", "/requests", body))[::2], (503, b'{"error":"503"}'), "request 900,002")
    t.same(t.control("requests.db.control").ask("request 05 superseded"), f"request 900002 due {due}", "the line")


# A CRL of more than two mebibytes


def of_revoked(t, count):
    """A register with so many certificates, all of them revoked at once, on no CRL yet. Returns the octets of the CRL's entries."""
    begins, ends = registers.START, registers.START + 300 * SECONDS
    t.register(key=P256_KEY)
    numbers = "WITH RECURSIVE row (id) AS (SELECT 1 UNION ALL SELECT id + 1 FROM row WHERE id < ?)"
    serial = "CAST(printf('%020d', id) AS BLOB)"
    with contextlib.closing(registers.sqlite3.connect(t.room / "ca.db")) as db:
        db.execute("INSERT INTO subscriber VALUES (1, 'acme')")
        for table, columns in {
            "orders": "id, 1, 398",
            "cert": f"{serial}, id, {begins}, {ends}",
            "request": f"id, {serial}, 6, {begins}, 0",
            "revocation": f"{serial}, {begins}, 4, id, 1",
            "standing": f"{serial}, {ends}, 'R'",
            "listed": f"{serial}, {begins}, 4, 1, {ends}, NULL",
        }.items():
            db.execute(f"INSERT INTO {table} {numbers} SELECT {columns} FROM row", (count,))
        db.execute("UPDATE kept SET n_revoked = ?", (count,))
        db.execute("UPDATE office SET last_at = ?", (begins,))
        db.commit()
    start, end = registers.entry(b"0" * 20, begins, 4).split(b"0" * 20)
    return b"".join(b"%b%020d%b" % (start, it, end) for it in range(1, count + 1))


@test(seconds=8)
def a_crl_of_forty_thousand_entries(t):
    """A line has it signed. The signer begins to read once the desk has answered somebody else. Then the CRL is served, read for the metrics, and on
    a page of the changes feed."""
    count, at = 40_000, registers.START + 10
    entries = of_revoked(t, count)
    algorithm, identifier = bytes.fromhex(authority.IDENTIFIERS["ecdsa-sha256"]), der.sha1(bytes.fromhex(P256_KEY))
    part, whole = crl_of(1, at, entries, identifier, algorithm, lambda part: ANY_SIGNATURE)
    tables = Tables(t.room / "ca.db")
    positions = tables.positions(counts_of(tables))
    t.true(len(part) > 2_097_152, f"the message to sign has only {len(part)} bytes")
    t.clock(at)
    server = t.enter_context(socket.socket(socket.AF_UNIX))
    server.bind(str(t.room / "ca.sign"))
    server.listen(4)
    desk = Passing(t, *SIGNING, "--log-file", "ca.log").desk
    with ThreadPoolExecutor(1) as pool, t.control() as control:
        crl = pool.submit(control.ask, "crl")
        client, _ = server.accept()
        with client:
            t.same(parted(desk.send(COUNTS))[0], 200, "GET /counts meanwhile")
            t.true(read_all(client) == part, "another message to sign")
            client.sendall(ANY_SIGNATURE)
        t.same(crl.result(), f"crl 1 entries {count}")
    response = desk.send(b"GET /crl HTTP/1.1\r\n\r\n")
    t.true(parted(response)[::2] == (200, whole), f"another answer to GET /crl, of {len(response)} bytes")
    found = metrics(t, desk)
    t.same((found["desk_register_readable"], found["desk_crl_due_timestamp_seconds"]), (1, at + 7 * SECONDS), "the metrics")
    _, rows, crls, ends, _ = asked(t, desk, positions)
    t.true((rows, crls, ends) == ([("crl", f"1 {moment_of(at)} {len(whole)}")], {1: whole}, False), f"another page: {rows}")
    (line,) = [it for it in (t.room / "ca.log").read_text().splitlines() if "GET /crl" in it]
    t.true(re.search(rf'"GET /crl HTTP/1\.1" "HTTP/1\.1 200 OK" {len(response)} \d+$', line), f"its line in the log: {line}")


@test(seconds=2)
def a_latest_crl_of_twenty_megabytes(t):
    """A signature of 20,000,000 octets makes the CRL so long. The desk doesn't verify it."""
    at = registers.START + 10
    t.register(key=P256_KEY)
    algorithm, identifier = bytes.fromhex(authority.IDENTIFIERS["ecdsa-sha256"]), der.sha1(bytes.fromhex(P256_KEY))
    _, whole = crl_of(1, at, b"", identifier, algorithm, lambda part: bytes(20_000_000))
    t.sql("ca.db", "INSERT INTO crl VALUES (1, ?, ?)", at, whole)
    t.sql("ca.db", "UPDATE office SET last_at = ?", at)
    t.signer()
    t.clock(at)
    desk = t.open("ca.db", *SIGNING)
    t.same(parted(desk.ask("GET", "/health"))[0], 200, "the status of /health")
    found = metrics(t, desk)
    t.same((found["desk_register_readable"], found["desk_crl_due_timestamp_seconds"]), (1, at + 7 * SECONDS), "the metrics")
    t.true(parted(desk.ask("GET", "/crl"))[2] == whole, "another answer to GET /crl")
    _, rows, crls, ends, after = asked(t, desk)
    t.true((rows, crls, ends) == ([("crl", f"1 {moment_of(at)} {len(whole)}")], {1: whole}, False), f"another page: {rows}")
    t.same(asked(t, desk, after)[1:4], ([], {}, True), "the page behind it")
    t.same(t.control().ask("crl"), "crl 2 entries 0")


# The longest requests and lines


def certified(t, **how):
    """A register with four certificates, and its model: 05 is good, 07 revoked, 08 expired, and the last one has the longest serial number."""
    register = Register()
    begins, ends, now = registers.START, registers.START + 300 * SECONDS, registers.START + 2 * SECONDS
    longest = 2**159 - 1
    lines = [f"{DAY} subscriber acme"]
    for order, (serial, end) in enumerate(((5, ends), (7, ends), (8, begins + 10), (longest, ends)), 1):
        register.certificates[serial] = Certificate(serial, order, begins, end)
        lines += [f"{DAY} order 1 398", f"{DAY} register {order} {serial:x} {DAY} {moment_of(end)}"]
    register.revocations[7] = Revocation(7, begins, 1, 1, 1)
    register.last = begins
    t.register(lines="".join(f"{it}\n" for it in [*lines, f"{DAY} request 07 key-compromise", f"{DAY} revoke 1"]), **how)
    t.clock(now)
    return register, now, (5, 7, 8, longest, 9)


def single(serial, issuer=(b"", b""), named=ocsp.SHA1_NAMED):
    """The Request of a CertID (RFC 6960 4.1.1) by SHA-1 or another hash, with these hashes of the issuer."""
    algorithm = der.value(0x30, der.value(0x06, named))
    return der.value(0x30, der.value(0x30, algorithm, *(der.value(0x04, it) for it in issuer), der.integer(serial)))


def request_of(size, serials=None, named=ocsp.SHA1_NAMED):
    """An OCSP request of exactly so many octets: for these serial numbers over and over, or for as many CertIDs of other issuers as fit."""
    issuer = tuple(map(der.sha1, (der.NAME, der.KEY))) if serials else (b"", b"")
    singles, left = [], size - 12
    while left > 250:
        serial = serials[len(singles) % len(serials)] if serials else 100 + len(singles) % 20
        singles.append(single(serial, issuer, named))
        left -= len(singles[-1])
    for first, more in ((first, more) for first in range(8) for more in range(220)):
        made = der.value(0x30, der.value(0x30, der.value(0x30, *singles, single(1, (bytes(first), b"")), single(1, (bytes(more), b"")))))
        if len(made) == size:
            return made
    raise AssertionError(f"no request of {size} octets")


def escaped(text):
    """The first line of a request, as the log quotes it: 256 bytes at most."""
    return re.split(rb"[\r\n]", text, maxsplit=1)[0][:256].decode("latin-1")


def post(body, target="/ocsp"):
    return b"POST %b HTTP/1.1\r\nContent-Length: %d\r\n\r\n" % (target.encode(), len(body)) + body


def get_of(size, request, quoted):
    """A GET of an OCSP request whose head has exactly so many bytes. All characters of its path are percent-encoded, or only `+`, `/` and `=`."""
    text = base64.b64encode(request).decode()
    text = "".join(f"%{ord(it):02X}" for it in text) if quoted else text.replace("+", "%2B").replace("/", "%2F").replace("=", "%3D")
    head = f"GET /ocsp/{text} HTTP/1.1\r\nX: "
    return (head + "x" * (size - len(head) - 4) + "\r\n\r\n").encode()


def longest_by_get(known, quoted):
    """The longest OCSP request, but for a few octets, for which there is room in a head of 8,191 bytes."""
    most = 1_500 * 8_191 // len(get_of(0, request_of(1_500, known), quoted)) + 100
    return next(it for it in (request_of(size, known) for size in range(most, 0, -10)) if len(get_of(0, it, quoted)) <= 8_191)


@test(seconds=5)
def the_longest_requests_have_their_answers(t):
    """OCSP requests of 65,536 bytes by POST, of 8,192 bytes by GET and of 8,171 bytes in a line, each with the answer that the model has, and with
    its line in the log; and other requests of as many bytes."""
    register, now, serials = certified(t)
    desk = t.open("ca.db", "--log-file", "ca.log")
    logged, most = [], 0

    def sends(request, status, body=None, what=""):
        response = desk.send(request)
        got, _, found = parted(response)
        t.true(got == status and body in (None, found), f"{what or request[:100]!r}: status {got}, {len(found)} bytes {found[:200]!r}")
        logged.append(rf'"{re.escape(escaped(request))}" "{re.escape(escaped(response))}" {len(response)} \d+')
        return len(found)

    for known in (None, serials):
        for size in (10_000, 32_768, 65_535, 65_536):
            request = request_of(size, known)
            most = max(most, sends(post(request), 200, ocsp.answer(register, now, request), f"{size} bytes by POST"))
        for quoted in (False, True):
            request = longest_by_get(known, quoted)
            for length in (8_191, 8_192):
                sends(get_of(length, request, quoted), 200, ocsp.answer(register, now, request), f"a head of {length} bytes")
            sends(get_of(8_193, request, quoted), 431, b'{"error":"431"}', "a head of 8,193 bytes")
    # A hash may have a shorter name: then there is room for more CertIDs.
    request = request_of(65_536, named=b"*")
    most = max(most, sends(post(request), 200, ocsp.answer(register, now, request), "the shortest CertIDs"))
    t.true(most > 216_000, f"the longest answer has only {most} bytes")
    sends(post(bytes(65_537)), 413, b'{"error":"413"}', "65,537 bytes by POST")
    revokes = b'"serial":"05","ground":"superseded"}'
    nested = b'{"more":' + b"[" * 60 + b"]" * 60 + b","
    bodies = (
        b'{"more":"' + b"x" * 65_000 + b'",' + revokes, b'{"more":[' + b"1," * 30_000 + b"1]," + revokes, nested + revokes,
        b"{" + b"".join(b'"%d":0,' % at for at in range(6_000)) + revokes, b" " * 65_000 + b"{" + revokes,
    )  # fmt: skip
    for at, body in enumerate(bodies[:3], 1):
        due = moment_of(now + SECONDS)
        sends(post(body, "/requests"), 200, b'{"due":"%b","request":%d}' % (due.encode(), at + 1), f"body {at} of a request for revocation")
    for at, body in enumerate(bodies[3:], 4):
        sends(post(body, "/requests"), 429, b'{"error":"429"}', f"body {at} of a request for revocation")
    sends(post(b'{"serial":"05","ground":"%b"}' % (b"x" * 65_000), "/requests"), 400, b'{"error":"E22 syntax"}', "a long ground")
    long = b"x" * 8_000
    sends(b"GET /" + long + b" HTTP/1.1\r\n\r\n", 404, b'{"error":"404"}')
    for target in (b"/counts", b"/status/05", b"/health", b"/metrics", b"/crl/1"):
        sends(b"GET %b?%b HTTP/1.1\r\n\r\n" % (target, long), {b"/crl/1": 404, b"/health": 503}.get(target, 200))
    for target in (b"/status/", b"/crl/", b"/list/", b"/list/certificates?", b"/list/certificates?after=", b"/changes?after="):
        sends(b"GET %b%b HTTP/1.1\r\n\r\n" % (target, long), 400, b'{"error":"E22 syntax"}')
    sends(long + b" /counts HTTP/1.1\r\n\r\n", 405, b'{"error":"405"}')
    sends(b"GET /counts HTTP/1.1\r\n%b: y\r\n\r\n" % long, 200)
    sends(b"GET /counts HTTP/1.1\r\n" + b"a: %b\r\n" % (b"b" * 120) * 64 + b"\r\n", 200)
    with t.control() as control:

        def asks_for(line, reply):
            told = control.ask(line)
            t.true(told == reply, f"{line[:100]}: {told[:200]!r}")
            logged.append(f'"{re.escape(line[:256])}" "{re.escape(reply[:256])}" {len(reply) + 1} \\d+')

        for known in (None, serials):
            line = f"ocsp {request_of(4_083, known).hex()}"
            t.same(len(line), 8_171, "bytes of the line")
            asks_for(line, f"ocsp {ocsp.answer(register, now, request_of(4_083, known)).hex()}")
        asks_for(f"{line}0", "F4 read")
        asks_for(f"subscriber {'x' * 8_160}", "E22 syntax")
        asks_for("why", "why NAME is not 1 to 64 bytes")
    lines = [it.split(" ", 2)[2] for it in (t.room / "ca.log").read_text("latin-1").splitlines()]
    t.same(len(lines), len(logged), "lines of the log")
    for wanted, line in zip(logged, lines):
        t.true(re.match(wanted, line), f"a line of the log: wanted {wanted[:600]}, got {line[:600]}")


def certificate(key, size):
    """A certificate in the form of RFC 5280 4.1 with this key (P-256) and so many octets. Nobody has signed it."""
    algorithm, name = bytes.fromhex(authority.IDENTIFIERS["ecdsa-sha256"]), bytes.fromhex(program.NAME)
    info = der.value(0x30, bytes.fromhex("301306072A8648CE3D020106082A8648CE3D030107"), der.value(0x03, b"\0", bytes.fromhex(key)))
    validity = der.value(0x30, der.time(registers.START), der.time(registers.START + 300 * SECONDS))
    for octets in range(size - 400, size):
        extensions = der.value(0xA3, der.value(0x30, der.value(0x30, bytes.fromhex("06032A0304"), der.value(0x04, bytes(octets)))))
        part = der.value(0x30, der.value(0xA0, der.integer(2)), der.integer(1), algorithm, name, validity, name, info, extensions)
        made = der.value(0x30, part, algorithm, der.value(0x03, b"\0", ANY_SIGNATURE))
        if len(made) == size:
            return made
    raise AssertionError(f"no certificate of {size} octets")


@test(seconds=3)
def long_answers_have_a_long_certificate_and_a_signature(t):
    """Each answer has the responder's certificate, of 65,536 octets. Its signer takes persistent connections. The longest message to it has more than
    180,000 octets, for which a socket has room. The answer to a line has the certificate, too."""
    t.register(key=P256_KEY)
    t.clock(DAY)
    signer = t.enter_context(Keeping(t.room / "ocsp.sign"))
    own = certificate(P256_KEY, 65_536)
    (t.room / "ocsp.der").write_bytes(own)
    words = ("--responder", "ocsp.der", "--responder-signer", "ocsp.sign", "--responder-algorithm", "ecdsa-sha256")
    desk = t.open("ca.db", *SIGNING, *words, faults=unhurried(t))
    found = metrics(t, desk)
    t.same(found["desk_responder_certificate_not_after_timestamp_seconds"], registers.START + 300 * SECONDS, "notAfter in the metrics")

    def is_whole(response, count):
        part, _, signature = authority.signed_part(authority.basic_of(response))
        t.true(signature == own_signature(part), f"the answer to {count} CertIDs has another signature")
        t.true(len(authority.answered_ids(response)) == count, f"the answer to {count} CertIDs has others")
        t.true(response.endswith(own), f"the answer to {count} CertIDs ends otherwise")
        return len(part)

    longest = 0
    for size in (30_000, 30_000, 65_536, 65_536):
        request = request_of(size)
        status, _, body = parted(desk.send(post(request)))
        t.same(status, 200)
        longest = max(longest, is_whole(body, len(authority.cert_ids(request))))
    t.true(longest > 180_000, f"the longest message has only {longest} octets")
    t.same((len(signer.asked), [len(it) for it in signer.kept]), (1, [3]), "messages on each connection")
    with t.control() as control:
        request = request_of(4_083)
        is_whole(bytes.fromhex(control.ask(f"ocsp {request.hex()}").removeprefix("ocsp ")), len(authority.cert_ids(request)))


@test
def a_body_of_twenty_megabytes_is_refused_and_dropped(t):
    """The answer comes at once, and no time passes. If the desk closed the connection with unread bytes, the client could lose the answer."""
    t.register()
    desk = Passing(t).desk
    with desk.connect() as client:
        client.sendall(b"POST /ocsp HTTP/1.1\r\nContent-Length: 20000000\r\n\r\n")
        client.sendall(bytes(20_000_000))
        t.same(parted(read_all(client))[::2], (413, b'{"error":"413"}'), "the answer")
    t.same(parted(desk.send(COUNTS))[0], 200, "another client")


@test(seconds=3)
def a_long_signature_comes_octet_by_octet(t):
    """Each read and write of a socket moves one octet. The signature is as long as the longest modulus of a key. It comes on connections of its own
    for a CRL, a line and an answer, and on a persistent connection for two answers."""
    signature = b"\7" * 2_037
    signer = t.enter_context(Keeping(t.room / "ca.sign", lambda message: frame(signature)))
    signer.answer = lambda message: ANNOUNCEMENT + signature
    t.register(key=LONGEST_RSA_KEY)
    t.clock(DAY)
    words = ["--signer", "ca.sign", "--algorithm", "rsa-sha256"]
    desk = t.open("ca.db", *words, faults=unhurried(t, short=1, only="socket"))
    for at in range(3):
        body = parted(desk.ask("POST", "/ocsp", asks(1)))[2]
        t.true(authority.signed_part(authority.basic_of(body))[2] == signature, f"answer {at} has no signature")
    t.same((len(signer.asked), [len(it) for it in signer.kept]), (1, [2]), "messages on each connection")
    with t.control() as control:
        t.same(control.ask("crl"), "crl 1 entries 0")
        response = bytes.fromhex(control.ask(f"ocsp {asks(1).hex()}").removeprefix("ocsp "))
        t.true(authority.signed_part(authority.basic_of(response))[2] == signature, "the line has no signature")


# Many requests, connections, lines and signatures


def together(desk, requests, status=b"HTTP/1.1 200 OK\r\n"):
    """Sends requests, each on its connection, and reads the answers. Returns how many have this status."""
    clients = [socket.create_connection(("127.0.0.1", desk.port), program.LONGEST * program.PATIENCE) for _ in requests]
    for client, request in zip(clients, requests):
        client.sendall(request)
    found = 0
    for client in clients:
        found += read_all(client).startswith(status)
        client.close()
    return found


@test(seconds=8)
def a_signed_answer_that_its_socket_does_not_take_at_once(t):
    """A socket holds 4 KiB in each direction, and the client reads 24 KiB a second, so the desk sends its answer of 80 KiB in parts, for longer
    than a quarter of a second, in which an answer to a client that has no time left would end."""
    need("curl", "ip")
    host = f"desk-{os.getpid()}-small"
    namespace(t, host)
    sizes = "cd /proc/sys/net/ipv4 && echo 4096 4096 4096 | tee tcp_wmem tcp_rmem"
    t.same(ran(*inside_of(host), "sh", "-c", sizes), 0, "status of what sets the sizes of buffers")
    t.register(key=P256_KEY)
    t.clock("2026-01-01T00:00:00Z")
    t.signer()
    asked, got = t.room / "request", t.room / "answer"
    asked.write_bytes(asks(800))
    desk = t.open("ca.db", *SIGNING, before=inside_of(host))
    words = ("--limit-rate", "24k", "--data-binary", f"@{asked}", "-o", got, "-w", "%{http_code} %header{content-length}")
    told = t.tool(*inside_of(host), "curl", "-s", *words, f"http://127.0.0.1:{desk.port}/ocsp").decode()
    size = got.stat().st_size
    t.same((told, size > 80_000, ANY_SIGNATURE in got.read_bytes()), (f"200 {size}", True, True), "its status and length; its size; its signature")


@test(seconds=20)
def more_requests_than_65536_of_one_desk(t):
    """They come in rounds of fifty: five for OCSP answers, which are signed, and six for other routes. Each is answered, counted and logged."""
    signer = t.enter_context(Keeping(t.room / "ca.sign", lambda message: frame(ANY_SIGNATURE)))
    t.register(key=P256_KEY)
    t.clock(DAY)
    desk = t.open("ca.db", *SIGNING, "--log-file", "ca.log", faults=unhurried(t))
    with t.control() as control:
        t.same(control.ask("crl"), "crl 1 entries 0")
    others = {
        "/crl": "/crl", "/crl/{number}": "/crl/1", "/status/{serial}": "/status/05", "/list/{word}": "/list/crls", "/health": "/health",
        "/metrics": "/metrics",
    }  # fmt: skip
    rounds, batch = 1_320, [COUNTS] * 39 + [post(asks(1))] * 5 + [f"GET {it} HTTP/1.1\r\n\r\n".encode() for it in others.values()]
    older = None
    for at in range(rounds):
        if at == rounds - 100:
            # It keeps its connection, while those of thousands of later clients end.
            older = t.enter_context(desk.connect())
            older.sendall(COUNTS[:9])
        t.same(together(desk, batch), len(batch), f"answers of round {at}")
    found = metrics(t, desk)
    answers, count = of(found, "desk_http_responses_total"), rounds * len(batch)
    t.true(count > 65_536, f"only {count} requests")
    wanted = {"/counts": 39 * rounds, "/ocsp": 5 * rounds, **dict.fromkeys(others, rounds)}
    t.same(answers, {f'{{route="{route}",code="200"}}': number for route, number in wanted.items()}, "answers by route")
    t.same((found["desk_connections_accepted_total"], found["desk_exchange_seconds_count"]), (count + 2, count + 1), "connections and exchanges")
    t.same(of(found, "desk_signatures_total"), {'{of="crl"}': 1, '{of="ocsp"}': 5 * rounds}, "signatures")
    t.same({*of(found, "desk_connections_lost_total").values(), *of(found, "desk_ocsp_internal_errors_total").values()}, {0}, "losses and errors")
    t.same(len(signer.asked) + sum(map(len, signer.kept)), 5 * rounds + 1, "messages to the signer")
    t.true(len(signer.kept) <= 32, f"{len(signer.kept)} persistent connections")
    t.same((t.room / "ca.log").read_text().count("\n"), count + 2, "lines of the log")
    with t.control() as control:
        t.same((control.ask("counts"), control.ask("crl")), ("good 0 revoked 0 expired 0", "crl 2 entries 0"), "lines at the control socket")
    # With no descriptor left for a third client, the desk evicts the older one, whose number has 16 bits.
    newer = t.enter_context(desk.connect())
    newer.sendall(COUNTS[:9])
    authority.until(lambda: program.is_read(newer), "the desk to read it")
    files = len(os.listdir(f"/proc/{desk.process.pid}/fd"))
    t.tool("prlimit", "--pid", desk.process.pid, f"--nofile={files}:{files}")
    t.same(parted(desk.send(COUNTS))[0], 200, "a third client")
    older.settimeout(20)
    t.same(read_all(older), b"", "the response to the older client")
    newer.sendall(COUNTS[9:])
    t.same(parted(read_all(newer))[0], 200, "the newer client")


@test(seconds=5)
def nine_hundred_answers_wait_for_their_signatures_together(t):
    """All clients send their requests while the desk is stopped. The signer begins to sign once the desk has read all requests."""
    _, hard = resource.getrlimit(resource.RLIMIT_NOFILE)
    if hard < 2_000 and hard != resource.RLIM_INFINITY:
        raise Skipped("the system has no descriptors for 900 connections: ulimit -n 2000")
    resource.setrlimit(resource.RLIMIT_NOFILE, (2_000, hard))
    count = 900
    t.register(key=P256_KEY)
    held = Held(t, signature=own_signature)
    desk = Passing(t, *SIGNING).desk
    clients = [t.enter_context(desk.connect()) for _ in range(count)]
    authority.until(lambda: all(map(program.is_read, clients[::100])), "the desk to accept the clients")
    program.hold(desk.process)
    for at, client in enumerate(clients):
        client.sendall(post(asked_for(0x1100 + at)))
    desk.process.send_signal(signal.SIGCONT)
    t.true(held.signers.until(32), "fewer than 32 signatures are requested")
    t.same(parted(desk.send(COUNTS))[0], 200, "GET /counts meanwhile")
    held.release.set()
    for at, client in enumerate(clients):
        t.true(is_own(parted(read_all(client))[2], 0x1100 + at), f"client {at} has another answer than its own")
    t.same(len(held.signers.asked), count, "messages to the signer")


@test(seconds=2)
def desk_serve_answers_more_than_a_thousand_requests(t):
    t.register()
    count = 1_001
    desk = t.open("ca.db", "--requests", count, command="serve")
    for _ in range(count // 50):
        t.same(together(desk, [COUNTS] * 50), 50, "answers")
    t.same(desk.process.poll(), None, "the exit status of the desk, which still runs")
    t.same(together(desk, [COUNTS]), 1, "the last answer")
    t.same(desk.wait().status, 0, "the exit status")


@test(seconds=4)
def ten_thousand_connections_to_the_control_socket(t):
    t.register()
    t.clock(DAY)
    desk = t.open()
    for at in range(10_001):
        with Control(t.room / "control") as control:
            t.same(control.ask("why"), "why nothing", f"the reply on connection {at}")
    together_open = [t.control() for _ in range(8)]
    t.same({it.ask("counts") for it in together_open}, {"good 0 revoked 0 expired 0"}, "the replies on eight connections")
    t.same(of(metrics(t, desk), "desk_lines_total"), {'{reply="accepted"}': 10_009, '{reply="refused"}': 0, '{reply="fault"}': 0}, "lines")


@test(seconds=8)
def a_thousand_crls_answers_and_failures_of_lines(t):
    """A signer takes each message on a connection of its own. Then it is gone: each line fails, and each answer is internalError. Then it is back."""
    t.register(key=P256_KEY)
    t.clock(DAY)
    count, line = 1_001, f"ocsp {asks(1).hex()}"
    desk = t.open("ca.db", *SIGNING, faults=unhurried(t))
    with t.control() as control:

        def replies_to(*lines):
            control.stream.sendall("".join(f"{it}\n" for it in lines).encode())
            return [control.file.readline().decode().rstrip("\n") for _ in lines]

        with t.signer() as signer:
            for at in range(1, count + 1):
                crl, response = replies_to("crl", line)
                t.true(crl == f"crl {at} entries 0" and ANY_SIGNATURE.hex() in response, f"the replies to lines {at}: {crl}, {response[:100]}")
            t.same(len(signer.asked), 2 * count, "messages to the signer")
        for at in range(count):
            t.same(replies_to("crl", line), ["F3 signer", f"ocsp {authority.INTERNAL.hex()}"], f"the replies to lines {at} without a signer")
        for at in range(count // 50):
            t.same(together(desk, [post(asks(1))] * 50), 50, f"answers of round {at} without a signer")
        found = metrics(t, desk)
        t.same(of(found, "desk_signatures_total"), {'{of="crl"}': count, '{of="ocsp"}': count}, "signatures")
        failed = count + count // 50 * 50
        t.same(of(found, "desk_signature_failures_total"), {'{of="crl"}': count, '{of="ocsp"}': failed}, "failures")
        t.same(of(found, "desk_ocsp_internal_errors_total"), {'{cause="signer"}': failed - count, '{cause="store"}': 0}, "answers without one")
        t.same(of(found, "desk_lines_total"), {'{reply="accepted"}': 3 * count, '{reply="refused"}': 0, '{reply="fault"}': count}, "lines")
        signer = t.enter_context(Signers(t.room / "ca.sign"))
        for at in range(count // 20):
            t.same(together(desk, [post(asks(1))] * 20), 20, f"answers of round {at}")
        t.same(len(signer.asked), count // 20 * 20, "messages to the signer that is back")
        t.same(replies_to("crl"), [f"crl {count + 1} entries 0"])
        t.true(ANY_SIGNATURE.hex() in replies_to(line)[0], "the last line has no signature")
    crls = json.loads(parted(desk.ask("GET", f"/list/crls?after={count - 1}"))[2])
    t.same([it["crl"] for it in crls["rows"]], [count, count + 1], "the last page of CRLs")


@test(seconds=3)
def a_thousand_crls_answers_and_failures_of_a_script(t):
    t.register(key=P256_KEY)
    count, line = 1_001, f"ocsp {asks(1).hex()}"
    given = f"{DAY} crl\n{DAY} {line}\n" * count
    with t.signer() as signer:
        replies = t.done("script", "ca.db", *SIGNING, given=given, faults=faults.environment()).splitlines()
    t.same(replies[::2], [f"crl {at} entries 0" for at in range(1, count + 1)], "the replies to `crl`")
    t.same(sum(ANY_SIGNATURE.hex() in it for it in replies[1::2]), count, "signed answers")
    t.same(len(signer.asked), 2 * count, "messages to the signer")
    replies = t.done("script", "ca.db", *SIGNING, given=given).splitlines()
    t.same(set(zip(replies[::2], replies[1::2])), {("F3 signer", f"ocsp {authority.INTERNAL.hex()}")}, "the replies without a signer")
    t.same(len(replies), 2 * count, "their number")


@test(seconds=4)
def a_thousand_requests_for_revocation_over_http(t):
    """Each of 401 certificates has three, a hundred in each minute. Then a thousand clients reset their connections within a request."""
    count = 401
    lines = [f"{DAY} subscriber acme"]
    for order in range(1, count + 1):
        lines += [f"{DAY} order 1 398", f"{DAY} register {order} {order:x} {DAY} 2026-12-31T00:00:00Z"]
    t.register(lines="".join(f"{it}\n" for it in lines))
    now = registers.START
    t.clock(now)
    desk = t.open("ca.db", faults=unhurried(t))
    for id in range(1, 3 * count + 1):
        if id % 100 == 1:
            now += 60
            t.clock(now)
        status, _, body = parted(desk.ask("POST", "/requests", b'{"serial":"%x","ground":"superseded"}' % ((id - 1) // 3 + 1)))
        t.same((status, body), (200, b'{"due":"%b","request":%d}' % (moment_of(now + SECONDS).encode(), id)), f"request {id}")
    gone = 1_001
    for _ in range(gone):
        with desk.connect() as client:
            client.sendall(COUNTS[:9])
            # With this option, `close` sends a reset.
            client.setsockopt(socket.SOL_SOCKET, socket.SO_LINGER, b"\1\0\0\0\0\0\0\0")
    lost = lambda: of(metrics(t, desk), "desk_connections_lost_total")
    authority.until(lambda: lost()['{why="broken"}'] >= gone, "the lost connections in the metrics")
    t.same(lost(), {'{why="broken"}': gone, '{why="late"}': 0, '{why="crowded"}': 0, '{why="memory"}': 0}, "lost connections")
    found = metrics(t, desk)
    t.same(found["desk_requests_open"], 3 * count, "open requests")
    t.same(of(found, "desk_connections{"), {'at="port"}': 1, 'at="counter"}': 0}, "open connections")


@test(seconds=2)
def a_hundred_copies_and_one_at_a_long_path(t):
    """A path has at most 4,095 bytes; while the copy is made, its name ends with `.part`."""
    t.register()
    t.open(faults=faults.environment())
    folder = t.room
    while len(str(folder)) < 3_850:
        folder /= "f" * 200
    folder.mkdir(parents=True)
    path = folder / ("c" * (4_080 - len(str(folder)) - 1))
    with t.control() as control:
        sizes = {control.ask(f"copy {t.room}/copy-{at}.db").rpartition(" in ")[0] for at in range(101)}
        t.same(sizes, {f"copied {(t.room / 'copy-100.db').stat().st_size} bytes"}, "the replies to the copies")
        t.same(control.ask(f"copy {path}").rpartition(" in ")[0], sizes.pop(), "the reply to the copy at a long path")
    t.true(path.read_bytes() == (t.room / "copy-0.db").read_bytes(), "the copy at a long path has other bytes")


# Long times


@test(seconds=2)
def exchanges_that_take_days(t):
    """A day passes with each reading of the elapsed time. The log and the metrics have the microseconds of each exchange, and their sums."""
    t.register()
    t.clock(DAY)
    day = 86_400_000_000
    desk = t.open("ca.db", "--log", faults=faults.environment(tick=86_400_000))

    def sends(request):
        """Sends a request before the desk accepts the client, as its time would be up by the next reading."""
        program.hold(desk.process)
        with desk.connect() as client:
            client.sendall(request)
            desk.process.send_signal(signal.SIGCONT)
            return parted(read_all(client))

    with t.control() as control:
        for at in range(100):
            t.same(control.ask("counts"), "good 0 revoked 0 expired 0", f"line {at}")
        size = (t.room / "ca.db").stat().st_size
        t.true(re.fullmatch(r"copied \d+ bytes in 86400000 ms", control.ask(f"copy {t.room / 'copy.db'}")), f"the copy of {size} bytes")
    for at in range(3):
        t.same(sends(COUNTS)[0], 200, f"request {at}")
    status, _, body = sends(b"GET /metrics HTTP/1.1\r\n\r\n")
    told = body.decode()
    t.has(told, '\ndesk_http_response_seconds_sum{route="/counts"} 259200.000000\n', "the metrics")
    t.has(told, '\ndesk_exchange_seconds_bucket{le="10"} 0\n', "the metrics")
    t.has(told, "\ndesk_exchange_seconds_count 104\n", "the metrics")
    # The copy reads the elapsed time twice more than another line.
    t.has(told, f"\ndesk_exchange_seconds_sum {(103 + 3) * day // 1_000_000}.000000\n", "the metrics")
    lines = desk.end().err_lines
    t.same([int(it.split()[-1]) for it in lines], [day] * 100 + [3 * day] + [day] * 4, "the microseconds in the log")


@test(seconds=3)
def a_signer_without_room_is_asked_for_nine_seconds(t):
    """An answer and a line wait. Every ten milliseconds the desk tries to connect for them, hundreds of times in all. Then the signer has room."""
    t.register(key=P256_KEY)
    with full_queue(t) as server, ThreadPoolExecutor(2) as pool, contextlib.ExitStack() as clients:
        desk = Passing(t, *SIGNING)
        answer = desk.comes(post(asks(1)))
        control = clients.enter_context(Control(t.room / "control"))
        crl = pool.submit(control.ask, "crl")
        authority.until(lambda: program.is_read(control.stream), "the desk to read the line")
        for _ in range(890):
            desk.advance(10)
        t.same(crl.done(), False, "whether the line has its reply")
        server.accept()[0].close()
        for _ in range(2):
            desk.advance(10)
            client, _ = server.accept()
            with client:
                read_all(client)
                client.sendall(ANY_SIGNATURE)
        t.same(crl.result(), "crl 1 entries 0", "the reply")
        t.true(ANY_SIGNATURE in read_all(answer), "the answer is not signed")


@test(seconds=2)
def after_thirty_years(t):
    """The elapsed time has gone on by thirty years since the desk was opened. Clients still have 30 seconds, and signatures ten."""
    t.register(key=P256_KEY)
    held = Held(t)
    desk = Passing(t, *SIGNING)
    desk.set_forward(30 * 365 * SECONDS * 1_000)
    desk.advance(0)
    first = desk.comes(COUNTS[:9])
    desk.advance(1)
    second = desk.comes(COUNTS[:9])
    desk.advance(29_999)
    t.same(read_all(first), b"", "the response to a client after 30 seconds")
    second.sendall(COUNTS[9:])
    t.same(parted(read_all(second))[0], 200, "another client a millisecond earlier")
    desk.loses(first, why="late")
    with ThreadPoolExecutor(2) as pool, t.control() as control:
        answer = pool.submit(desk.desk.send, post(asks(1)))
        t.true(held.signers.until(1), "no signature is requested")
        desk.advance(1)
        crl = pool.submit(control.ask, "crl")
        t.true(held.signers.until(2), "no signature is requested for the line")
        desk.advance(9_999)
        t.same(parted(answer.result())[2], authority.INTERNAL, "an answer after ten seconds")
        held.release.set()
        t.same(crl.result(), "crl 1 entries 0", "a line a millisecond earlier")
    t.true(ANY_SIGNATURE in desk.desk.send(post(asks(1))), "the next answer is not signed")
