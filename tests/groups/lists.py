"""Lists: `desk list` and the pages of an open desk must give the rows that the model of the register has (tests/model)."""

import csv
import io
import json

from groups.overdue import seconds_of
from lib import registers
from lib.program import parted
from lib.trial import each, test
from model import lines as model_lines
from model.moments import DAY, read, text_of
from model.register import Register

WORDS = ("revoked", "certificates", "open-requests", "overdue", "requests", "subscribers", "orders", "crls")
OF_CERTIFICATES = "serial subscriber name order notBefore notAfter status revokedAt reason firstCrl lastCrl".split()
OF_REVOCATIONS = [*OF_CERTIFICATES, *"request ground received due lateness".split()]
OF_REQUESTS = "request serial ground received due subscriber name order notBefore notAfter".split()
OF_HISTORIES = [*OF_REQUESTS, "state", "decided", "lateness"]
FIELDS = {
    "revoked": OF_REVOCATIONS, "requests": OF_HISTORIES, "certificates": OF_CERTIFICATES, "ending": OF_CERTIFICATES, "open-requests": OF_REQUESTS, "overdue": OF_REQUESTS,
    "subscribers": ["subscriber", "name"], "orders": ["order", "subscriber", "name", "days", "serial"], "crls": ["crl", "thisUpdate"],
}  # fmt: skip
NUMBERS = {"subscriber", "order", "reason", "firstCrl", "lastCrl", "request", "days", "crl", "lateness"}
# Names with each byte that a name may have.
NAMES = ("ABCDEFGHIJKLMNOPQRSTUVWXYZ", "abcdefghijklmnopqrstuvwxyz", "0123456789", "-._", "a" * 64, ".")
MOST = 250


def played(lines):
    """The model of the register after these lines."""
    register = Register()
    for line in lines.encode().splitlines():
        model_lines.reply(register, line)
    return register


# The rows of each list, by the model


def serial_text(serial):
    return f"{serial:040x}"


def owner(register, order):
    names = {id: name.decode() for name, id in register.subscribers.items()}
    id = register.orders[order - 1].subscriber
    return {"subscriber": id, "name": names[id], "order": order}


def of_certificate(register, now, it):
    row = {"serial": serial_text(it.serial), **owner(register, it.order), "notBefore": text_of(it.not_before), "notAfter": text_of(it.not_after)}
    row |= {"status": register.status_of(now, it.serial), "revokedAt": None, "reason": None, "firstCrl": None, "lastCrl": None}
    if it.serial in register.revocations:
        revoked = register.revocations[it.serial]
        row |= {"revokedAt": text_of(revoked.at), "reason": revoked.reason, "firstCrl": revoked.first, "lastCrl": register.last_listing(revoked)}
    return row


def of_revocation(register, now, it):
    revoked = register.revocations[it.serial]
    led = register.requests[revoked.request - 1]
    return {
        **of_certificate(register, now, it), "request": revoked.request, "ground": led.ground.decode(), "received": text_of(led.received),
        "due": text_of(led.due), "lateness": max(0, revoked.at - led.due),
    }  # fmt: skip


def of_history(register, now, id, it):
    """The state of a request: one that is not declined is open until its certificate is revoked or has expired."""
    row, status = of_request(register, id, it), register.status_of(now, it.serial)
    if it.declined:
        return {**row, "state": "declined", "decided": None, "lateness": None}
    if status == "revoked":
        at = register.revocations[it.serial].at
        return {**row, "state": "revoked", "decided": text_of(at), "lateness": max(0, at - it.due)}
    until = now if status == "good" else register.certificates[it.serial].not_after
    return {**row, "state": "open" if status == "good" else "expired", "decided": None, "lateness": max(0, until - it.due)}


def of_request(register, id, it):
    certificate = register.certificates[it.serial]
    return {
        "request": id, "serial": serial_text(it.serial), "ground": it.ground.decode(), "received": text_of(it.received), "due": text_of(it.due),
        **owner(register, certificate.order), "notBefore": text_of(certificate.not_before), "notAfter": text_of(certificate.not_after),
    }  # fmt: skip


def of_order(register, id, it):
    filled = [serial_text(one.serial) for one in register.certificates.values() if one.order == id]
    return {**owner(register, id), "days": it.days, "serial": filled[0] if filled else None}


def is_open(register, now, it):
    return not it.declined and register.status_of(now, it.serial) == "good"


def rows_of(register, now, word, before=None):
    """The rows of a list at a moment, each as an object."""
    certificates = sorted(register.certificates.values(), key=lambda it: it.serial)
    requests = list(enumerate(register.requests, 1))
    if word == "revoked":
        return [of_revocation(register, now, it) for it in certificates if it.serial in register.revocations]
    if word == "certificates":
        return [of_certificate(register, now, it) for it in certificates]
    if word == "ending":
        return [of_certificate(register, now, it) for it in certificates if register.status_of(now, it.serial) == "good" and it.not_after < before]
    if word == "open-requests":
        return [of_request(register, id, it) for id, it in requests if is_open(register, now, it)]
    if word == "requests":
        return [of_history(register, now, id, it) for id, it in requests]
    if word == "overdue":
        return [of_request(register, id, it) for id, it in requests if is_open(register, now, it) and now > it.due]
    if word == "subscribers":
        return [{"subscriber": id, "name": name.decode()} for name, id in register.subscribers.items()]
    if word == "orders":
        return [of_order(register, id, it) for id, it in enumerate(register.orders, 1)]
    return [{"crl": number, "thisUpdate": text_of(at)} for number, at in enumerate(register.crls, 1)]


def as_csv(word, rows):
    fields = FIELDS[word]
    return "".join(",".join("" if it is None else str(it) for it in row) + "\n" for row in [fields, *([row[name] for name in fields] for row in rows)])


def as_lines(rows):
    return "".join(json.dumps(row, separators=(",", ":")) + "\n" for row in rows)


def in_fields(word, row):
    return {name: row[name] for name in FIELDS[word]}


# A register with a row of each kind


FIRST, NOW = read(b"2026-01-01T00:00:00Z"), read(b"2026-01-20T12:00:00Z")


def entered(count=24):
    """Lines that register certificates for subscribers of all names. Certificates expire or are revoked; requests are open, declined or late."""
    told = [f"{text_of(FIRST)} subscriber {name}" for name in NAMES]
    serials = [it * 2**151 + 5 if it % 3 else it + 1 for it in range(count)]
    for at, serial in enumerate(serials):
        end = FIRST + (10 + at) * DAY
        told.append(f"{text_of(FIRST)} order {at % len(NAMES) + 1} {30 + at}")
        told.append(f"{text_of(FIRST)} register {at + 1} {serial:x} {text_of(FIRST)} {text_of(end)}")
    told.append(f"{text_of(FIRST)} order 1 30")
    grounds = ("asked", "key-compromise", "misuse", "superseded", "cessation", "affiliation")
    for at, serial in enumerate(serials[:18]):
        told.append(f"{text_of(FIRST + at * DAY // 4)} request {serial:x} {grounds[at % 6]}")
    told += [f"{text_of(FIRST + 5 * DAY)} {'decline' if at % 3 == 2 else 'revoke'} {at}" for at in range(1, 10)]
    told += [f"{text_of(FIRST + day * DAY)} crl" for day in (6, 13, 19)]
    told += [f"{text_of(NOW)} revoke 17", f"{text_of(NOW)} request {serials[20]:x} asked", f"{text_of(NOW)} request {serials[10]:x} misuse"]
    return "".join(f"{it}\n" for it in told)


def made(t, lines):
    t.register(lines=lines)
    return played(lines)


def asked(t, word, before=None, *more):
    words = ["list", "ca.db", word, *more]
    return words if before is None else [*words, "--before", text_of(before)]


@test
def each_list_has_its_rows(t):
    register = made(t, entered())
    for now in (NOW, NOW + 8 * DAY, NOW + 400 * DAY):
        for word, before in [*((it, None) for it in WORDS), ("ending", now + 7 * DAY), ("ending", now), ("ending", now + 1000 * DAY)]:
            rows = [in_fields(word, it) for it in rows_of(register, now, word, before)]
            t.same(t.done(*asked(t, word, before, "--now", text_of(now))), as_csv(word, rows), f"{word} as CSV")
            t.same(t.done(*asked(t, word, before, "--now", text_of(now), "--json")), as_lines(rows), f"{word} as JSON")
    for word in WORDS:
        t.true(rows_of(register, NOW, word), f"the model has no row of {word}")
    t.same({it["status"] for it in rows_of(register, NOW, "certificates")}, {"good", "revoked", "expired"}, "statuses that occur")
    # Each state occurs, and each but `declined` with a request in time and a late one.
    requests = rows_of(register, NOW, "requests") + rows_of(register, NOW + 400 * DAY, "requests")
    t.same({it["state"] for it in requests}, {"open", "declined", "revoked", "expired"}, "states that occur")
    for state in ("open", "revoked", "expired"):
        t.same({it["lateness"] > 0 for it in requests if it["state"] == state}, {True, False}, f"late and in time, of {state}")


@test
def lists_after_2038(t):
    """The seconds since 1970 then have more than 31 bits. Requests are open, overdue, declined, decided in time and late, and ended."""
    begun = read(b"2038-01-19T03:14:08Z")
    at = lambda days, line: f"{text_of(begun + days * DAY)} {line}\n"
    lines = at(0, "subscriber acme")
    for order, end in enumerate((30, 30, 30, 30, 3), 1):
        lines += at(0, "order 1 30") + at(0, f"register {order} {order:x} {text_of(begun)} {text_of(begun + end * DAY - 1)}")
    lines += "".join(at(1, f"request {it:x} key-compromise") for it in range(1, 6))
    lines += at(1, "revoke 1") + at(1, "decline 2") + at(1, "crl") + at(5, "revoke 3")
    register = made(t, lines)
    for now in (begun + 5 * DAY, begun + 400 * DAY):
        for word, before in [*((it, None) for it in WORDS), ("ending", now + 60 * DAY)]:
            rows = [in_fields(word, it) for it in rows_of(register, now, word, before)]
            t.same(t.done(*asked(t, word, before, "--now", text_of(now))), as_csv(word, rows), f"{word} at {text_of(now)}")
    t.same({it["state"] for it in rows_of(register, begun + 5 * DAY, "requests")}, {"open", "declined", "revoked", "expired"}, "states that occur")


@test
def other_programs_read_a_list(t):
    register = made(t, entered())
    told = t.done("list", "ca.db", "certificates", "--now", text_of(NOW))
    rows = list(csv.DictReader(io.StringIO(told)))
    wanted = rows_of(register, NOW, "certificates")
    t.same(rows, [{name: "" if it[name] is None else str(it[name]) for name in OF_CERTIFICATES} for it in wanted], "by Python's csv")
    told = t.done("list", "ca.db", "certificates", "--now", text_of(NOW), "--json").splitlines()
    t.same([json.loads(it) for it in told], [in_fields("certificates", it) for it in wanted], "by Python's json")
    t.same([it["serial"] for it in wanted], sorted(it["serial"] for it in wanted), "serial numbers, in the order of their text")


@test
def an_empty_register_has_empty_lists(t):
    t.register()
    t.clock(NOW)
    for word in WORDS:
        t.same(t.done("list", "ca.db", word), as_csv(word, []), word)
        t.same(t.done("list", "ca.db", word, "--json"), "", word)
    t.same(t.done("list", "ca.db", "ending", "--before", text_of(NOW)), as_csv("ending", []))
    desk = t.open()
    for word in (*WORDS, f"ending?before={text_of(NOW)}"):
        _, _, body = parted(desk.ask("GET", f"/list/{word}"))
        t.same(body.decode(), '{"list":"%s","next":null,"rows":[]}' % word.split("?")[0], word)


@test
def the_moment_is_that_of_the_machines_clock(t):
    register = made(t, entered())
    t.clock(NOW + DAY)
    t.same(t.done("list", "ca.db", "overdue"), as_csv("overdue", rows_of(register, NOW + DAY, "overdue")))
    for words, line in ((("--now", "2026-01-01T00:00:00Z"), f"E01 clock-back {text_of(NOW)}"), (("--now", "9999-12-22T00:00:00Z"), "E02 clock-end")):
        ran = t.desk("list", "ca.db", "crls", *words)
        t.same((ran.status, ran.out, ran.err), (1, b"", f"{line}\n".encode()), str(words))


# Filters


MOMENT_OF = {"revoked": "revokedAt", "crls": "thisUpdate", "certificates": "notBefore", "ending": "notBefore", "requests": "received", "open-requests": "received", "overdue": "received"}
OF_SUBSCRIBER, OF_SERIAL = {"--subscriber": "a" * 64}, {"--serial": "8"}


def is_wanted(word, row, told):
    """Whether the row of a list passes the filter."""
    moment = row.get(MOMENT_OF.get(word))
    serial, prefix = row.get("serial"), told.get("--serial", "").lower()
    return all((
        "--subscriber" not in told or row.get("name") == told["--subscriber"],
        "--serial" not in told or serial is not None and (serial.startswith(prefix) or serial.lstrip("0").startswith(prefix)),
        "--from" not in told or moment >= told["--from"],
        "--to" not in told or moment < told["--to"],
    ))  # fmt: skip


def takes(word, told):
    """Whether a list takes this filter."""
    wanted = {it.removeprefix("--") for it in told}
    return not wanted & {"crls": {"subscriber", "serial"}, "subscribers": {"serial", "from", "to"}, "orders": {"from", "to"}}.get(word, set())


DAYS = {"--from": text_of(FIRST + DAY), "--to": text_of(FIRST + 5 * DAY)}
TOLD = {
    "a subscriber": OF_SUBSCRIBER, "another": {"--subscriber": "0123456789"}, "nobody": {"--subscriber": "nobody"}, "the begin of serial numbers": OF_SERIAL,
    "in capitals": {"--serial": "0A"}, "with zeros": {"--serial": "0" * 38}, "one serial number": {"--serial": serial_text(1)},
    "a digit": {"--serial": "1"}, "from": {"--from": DAYS["--from"]}, "to": {"--to": DAYS["--to"]}, "days": DAYS, "no time at all": {"--from": DAYS["--to"], "--to": DAYS["--from"]},
    "all": {**OF_SUBSCRIBER, **OF_SERIAL, **DAYS},
}  # fmt: skip


@each({name: (told,) for name, told in TOLD.items()}, seconds=6)
def a_filter_leaves_the_rows_that_are_wanted(t, told):
    register = made(t, entered())
    t.clock(NOW)
    words = [it for option, value in told.items() for it in (option, value)]
    lists = [*((it, {}) for it in WORDS), ("ending", {"before": text_of(NOW + 1000 * DAY)})]
    taken = [(word, more, [it for it in rows_of(register, NOW, word, NOW + 1000 * DAY) if is_wanted(word, it, told)]) for word, more in lists if takes(word, told)]
    for word, more, rows in taken:
        before = NOW + 1000 * DAY if more else None
        t.same(t.done(*asked(t, word, before, *words)), as_csv(word, rows), f"{word} as CSV")
        t.same(t.done(*asked(t, word, before, *words, "--json")), as_lines([in_fields(word, it) for it in rows]), f"{word} as JSON")
    desk = t.open()
    query = {option.removeprefix("--"): value for option, value in told.items()}
    for word, more, rows in taken:
        for limit in (5, 250):
            t.same(pages(t, desk, word, limit, **more, **query)[0], [in_fields(word, it) for it in rows], f"{word} by {limit}")
    for word, _ in lists:
        if not takes(word, told):
            status, _, body = parted(desk.ask("GET", f"/list/{word}?" + "&".join(f"{name}={it}" for name, it in query.items())))
            t.same((status, body), (400, b'{"error":"E22 syntax"}'), word)


# Pages of an open desk


def page(t, desk, word, **told):
    query = "&".join(f"{name}={it}" for name, it in told.items())
    status, lines, body = parted(desk.ask("GET", f"/list/{word}" + (f"?{query}" if query else "")))
    t.same((status, [it for it in lines if it.startswith("Content-Type")]), (200, ["Content-Type: application/json"]), f"{word} {query}")
    it = json.loads(body)
    t.same(body.decode(), json.dumps(it, separators=(",", ":")), "the JSON text of a page")
    t.same((list(it), it["list"]), (["list", "next", "rows"], word), "the fields of a page, and its list")
    return it


def pages(t, desk, word, limit, **told):
    """The rows of all pages, one after the other, and how many each has."""
    rows, counts, behind = [], [], None
    while True:
        it = page(t, desk, word, limit=limit, **told, **({} if behind is None else {"after": behind}))
        rows, counts, behind = [*rows, *it["rows"]], [*counts, len(it["rows"])], it["next"]
        if behind is None:
            return rows, counts
        t.true(len(counts) < 200, "the pages do not end")


@each({str(it): (it,) for it in (1, 2, 5, 6, 8, 12, 24, 25, 250, 1000)})
def pages_have_the_rows_of_a_list(t, limit):
    register = made(t, entered())
    t.clock(NOW)
    desk = t.open()
    for word, told in [*((it, {}) for it in WORDS), ("ending", {"before": text_of(NOW + 7 * DAY)})]:
        wanted = [in_fields(word, it) for it in rows_of(register, NOW, word, NOW + 7 * DAY)]
        rows, counts = pages(t, desk, word, limit, **told)
        t.same(rows, wanted, f"{word} by {limit}")
        t.true(max(counts) <= limit, f"a page of {word} has {max(counts)} rows")
    # There are 24 certificates. If the last page is full, an empty page follows.
    rows, counts = pages(t, desk, "certificates", limit)
    t.same(counts, [limit] * (24 // limit) + [24 % limit], "rows of each page")


@test
def what_is_entered_meanwhile_comes_behind_its_key(t):
    made(t, entered())
    t.clock(NOW)
    desk = t.open()
    first = page(t, desk, "subscribers", limit=6)
    t.same((first["next"], len(first["rows"])), ("6", 6))
    t.same(t.control().ask("subscriber seventh"), "subscriber 7")
    t.same(page(t, desk, "subscribers", limit=6, after=first["next"]), {"list": "subscribers", "next": None, "rows": [{"subscriber": 7, "name": "seventh"}]})


@test
def a_page_looks_at_250_rows_at_most(t):
    lines = [f"{text_of(FIRST)} subscriber s{it}" for it in range(1, 603)]
    made(t, "".join(f"{it}\n" for it in lines))
    t.clock(NOW)
    desk = t.open()
    for told in ({}, {"limit": 1000}, {"limit": 251}, {"limit": 250}):
        it = page(t, desk, "subscribers", **told)
        t.same((len(it["rows"]), it["next"]), (MOST, "250"), str(told))
    rows, counts = pages(t, desk, "subscribers", 1000)
    t.same((counts, [it["subscriber"] for it in rows]), ([250, 250, 102], list(range(1, 603))))
    desk.end()
    t.same(t.done("list", "ca.db", "subscribers").count("\n"), 603)


UNREAD = (
    "", "nothing", "Revoked", "revoked/", "revoked/05", "ending", "ending?after=05", "revoked?before=2026-02-01T00:00:00Z", "ending?before=2026-02-01",
    "revoked?after=", "revoked?after=0", "revoked?after=xyz", "revoked?after=" + "f" * 41, "subscribers?after=5a", "subscribers?after=-1",
    "subscribers?after=1000000000000000000", "revoked?limit=0", "revoked?limit=1001", "revoked?limit=", "revoked?limit=1&limit=1", "revoked?after=05&after=06",
    "revoked?limit", "revoked?limit=1&", "revoked?&limit=1", "revoked?page=1", "revoked?Limit=1", "revoked?limit=1;after=05",
    "revoked?subscriber=", "revoked?subscriber=" + "a" * 65, "revoked?serial=", "revoked?serial=xyz", "revoked?serial=" + "0" * 41, "revoked?from=2026-01-01", "revoked?to=",
    "revoked?from=2026-01-01T00:00:00Z&from=2026-01-01T00:00:00Z", "revoked?serial=1&serial=1", "crls?serial=1", "crls?subscriber=a", "orders?from=2026-01-01T00:00:00Z",
    "subscribers?to=2026-01-01T00:00:00Z", "subscribers?serial=1",
)  # fmt: skip


@test
def what_can_not_be_read_is_told_so(t):
    t.register(lines=entered())
    t.clock(NOW)
    desk = t.open()
    for target in UNREAD:
        status, _, body = parted(desk.ask("GET", f"/list/{target}"))
        t.same((status, body), (400, b'{"error":"E22 syntax"}'), target)
    for method in ("POST", "HEAD", "get", "DELETE"):
        status, lines, body = parted(desk.ask(method, "/list/revoked", b"" if method == "POST" else None))
        t.same((status, [it for it in lines if it.startswith("Allow")], body), (405, ["Allow: GET"], b'{"error":"405"}'), method)
    for target in ("/list", "/lists/revoked", "/List/revoked"):
        status, _, body = parted(desk.ask("GET", target))
        t.same((status, body), (404, b'{"error":"404"}'), target)
    t.same(parted(desk.send(b"GET /list/revoked HTTP/1.1\r\n" + b"a: b\r\n" * 65 + b"\r\n"))[0], 431)
    t.clock(FIRST)
    status, _, body = parted(desk.ask("GET", "/list/crls"))
    t.same((status, body), (409, b'{"error":"E01 clock-back %s"}' % text_of(NOW).encode()))


@test
def what_is_told_may_stand_in_any_order_and_be_quoted(t):
    register = made(t, entered())
    t.clock(NOW)
    desk = t.open()
    before = text_of(NOW + 7 * DAY)
    wanted = parted(desk.ask("GET", f"/list/ending?before={before}&limit=3&after=05"))
    t.true(len(json.loads(wanted[2])["rows"]) in range(4), "the page has more than three rows")
    for told in (f"limit=3&after=5&before={before}", f"after=0005&before={before.replace(':', '%3A')}&limit=003", f"%61fter=05&limit=3&before={before}"):
        t.same(parted(desk.ask("GET", f"/list/ending?{told}"))[2], wanted[2], told)
    t.same(parted(desk.send(b"\r\nGET /list/crls? HTTP/1.0\r\n\r\n"))[2], parted(desk.ask("GET", "/list/crls"))[2], "after an empty line, with an empty query")
    t.same(len(rows_of(register, NOW, "crls")), 3)


@test
def a_key_that_no_row_has_is_a_place_all_the_same(t):
    register = made(t, entered())
    t.clock(NOW)
    desk = t.open()
    wanted = [in_fields("certificates", it) for it in rows_of(register, NOW, "certificates")]
    for serial in (1, 2, 100, 2**151, 2**152 + 6, 2**159 - 1):
        it = page(t, desk, "certificates", after=f"{serial:x}")
        t.same(it["rows"], [row for row in wanted if int(row["serial"], 16) > serial], f"rows after {serial:x}")
    for number in (0, 3, 24, 25, 10**18 - 1):
        it = page(t, desk, "orders", after=number)
        t.same([row["order"] for row in it["rows"]], [id for id in range(1, 26) if id > number], f"rows after {number}")


@test
def no_list_is_served_but_by_open(t):
    t.register(lines=entered())
    t.clock(NOW)
    desk = t.open("ca.db", "--requests", "2", command="serve")
    for target in ("/list/revoked", "/list/crls?limit=1"):
        status, _, body = parted(desk.ask("GET", target))
        t.same((status, body), (404, b'{"error":"404"}'), target)


@test(seconds=6)
def certificates_that_end_later_are_not_looked_up(t):
    """Of 8,000 certificates none ends before the moment. That list takes less than half of the processor time of the list of all."""
    records = registers.Records(8_000)
    registers.make(t.room / "ca.db", records, 3)
    t.clock(records.last)
    desk = t.open()

    def took(word, more=""):
        begun, count, after = seconds_of(desk), 0, ""
        while after is not None:
            page = json.loads(parted(desk.ask("GET", f"/list/{word}?limit=250{more}{after}"))[2])
            count, after = count + len(page["rows"]), page["next"] and f"&after={page['next']}"
        return count, seconds_of(desk) - begun

    (every, long), (none, short) = took("certificates"), took("ending", "&before=1970-01-02T00:00:00Z")
    t.same((every, none), (8_000, 0), "rows")
    t.true(short < long / 2, f"seconds of the processor: {short} for no row, {long} for all")
