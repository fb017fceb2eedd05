"""Registers with many rows, large files, long values and long inputs: each command, list, page and answer has all that the records give.
Python's sqlite3 makes the large registers."""

import contextlib
import hashlib
import os
import shutil
import socket
import sqlite3
from concurrent.futures import ThreadPoolExecutor
from dataclasses import dataclass

from groups.changes import GROUNDS, Tables, asked, page_of
from groups.identifiers import name_of
from groups.limits import on_a_terminal
from groups.vectors import CERTIFICATE, modelled, ran
from lib import authority, program, registers
from lib.program import moment_of, parted
from lib.registers import DAY, START, tlv
from lib.trial import each, test
from model import der
from model.ocsp import NONCE, answer, extension
from model.register import Register

FIRST = moment_of(START)
SOUND = "sound, {} certificates, {} revoked, {} CRLs\n"
OTHER_BYTES = "broken: crl 1: its bytes do not encode the CRL that the records give\n"


def serial_of(at):
    """The serial number of certificate `at`, of 20 octets. Those of certificates that are entered one after another are far apart."""
    return (2**158 + at * 7_919 % 100_003).to_bytes(20, "big")


@dataclass
class Rows:
    """The rows of a register of version 1, as `registers.make` takes them."""

    certs: list
    requests: list
    revocations: list
    last: int
    crls: tuple = ()


def like(t, got, wanted, what):
    """Compares long texts or lists: a failure shows the first place at which they differ."""
    if got != wanted:
        at = next((it for it, (one, other) in enumerate(zip(got, wanted)) if one != other), min(len(got), len(wanted)))
        t.same((len(got), got[at : at + 300]), (len(wanted), wanted[at : at + 300]), f"{what}: the length, and what follows index {at}")


def filled(t, table, columns, count, more=()):
    """Inserts rows of the numbers 1 to `count`, with these columns by SQL, in which `id` is the number."""
    numbers = "WITH RECURSIVE row (id) AS (SELECT 1 UNION ALL SELECT id + 1 FROM row WHERE id < ?)"
    t.sql("ca.db", f"INSERT INTO {table} {numbers} SELECT {columns} FROM row", count)
    for statement in more:
        t.sql("ca.db", statement)


@test(seconds=6)
def a_list_and_an_audit_of_sixty_six_thousand_requests(t):
    """All are for one certificate, and a third of them is declined."""
    count, end = 66_000, moment_of(START + 398 * DAY - 1)
    begun = ("subscriber acme", "order 1 398", f"register 1 05 {FIRST} {end}")
    t.register(lines="".join(f"{FIRST} {it}\n" for it in begun))
    columns = f"id, x'{5:040x}', 2 + id % 10, {START} + id, id % 3 = 0"
    filled(t, "request", columns, count, [f"UPDATE office SET last_at = {START + count}"])
    now = START + 3 * DAY
    due = lambda id: START + id + (5 if id % 10 >= 6 else 1) * DAY
    overdue = [id for id in range(1, count + 1) if id % 3 and due(id) < now]
    pairs = [
        ("overdue", f"overdue {len(overdue)} first {overdue[0]}"), ("request 05 asked", f"request {count + 1} due {moment_of(now + DAY)}"),
        (f"decline {count}", "E18 declined-before"), (f"decline {count - 1}", "declined"), (f"revoke {count - 2}", "revoked"),
        ("overdue", "overdue 0"), (f"revoke {count + 1}", f"E19 revoked-before {moment_of(now)}"), (f"revoke {count + 2}", "E17 no-request"),
    ]  # fmt: skip
    ran(t, [(f"{moment_of(now)} {line}", reply) for line, reply in pairs], "ca.db")
    of_certificate = f'"subscriber":1,"name":"acme","order":1,"notBefore":"{FIRST}","notAfter":"{end}"'
    revoked = '"state":"revoked","decided":"%s","lateness":{}' % moment_of(now)

    def row(id, ground, received, due, is_declined):
        state = '"state":"declined","decided":null,"lateness":null' if is_declined else revoked.format(max(0, now - due))
        asked = f'"request":{id},"serial":"{5:040x}","ground":"{ground}","received":"{moment_of(received)}","due":"{moment_of(due)}"'
        return f"{{{asked},{of_certificate},{state}}}\n"

    wanted = [row(id, GROUNDS[1 + id % 10], START + id, due(id), id % 3 == 0 or id == count - 1) for id in range(1, count + 1)]
    wanted.append(row(count + 1, "asked", now, now + DAY, False))
    t.true(sum(map(len, wanted)) > 16_777_216, "the list is short")
    like(t, t.done("list", "ca.db", "requests", "--json", "--now", moment_of(now)), "".join(wanted), "the list of requests")
    t.same(t.done("audit", "ca.db"), SOUND.format(1, 1, 0))


@test(seconds=4)
def an_audit_of_sixty_six_thousand_subscribers(t):
    """Their names have 64 bytes. An audit names the last row if it is wrong."""
    count = 66_000
    t.register(lines=f"{FIRST} subscriber acme\n")
    filled(t, "subscriber", "id + 1, printf('%064d', id)", count - 1)
    filled(t, "orders", "id, id, 1 + id % 398", count)
    t.same(t.done("audit", "ca.db"), SOUND.format(0, 0, 0))
    t.sql("ca.db", "UPDATE subscriber SET name = 'a b' WHERE id = ?", count)
    told = t.desk("audit", "ca.db")
    t.same((told.status, told.lines), (1, [f"broken: subscriber {count}: a name that no command takes"]))


@test(seconds=3)
def thirty_thousand_certificates_end_at_once(t):
    """The file has only the rows from which certificates are counted, and those that they refer to."""
    count = 30_000
    t.register(lines=f"{FIRST} subscriber acme\n")
    serial = "CAST(printf('%020d', id) AS BLOB)"
    filled(t, "orders", "id, 1, 398", count)
    filled(t, "cert", f"{serial}, id, {START}, {START + DAY}", count)
    filled(t, "standing", f"{serial}, {START + DAY}, 'G'", count, [f"UPDATE kept SET n_good = {count}"])
    before, after = moment_of(START + DAY), moment_of(START + DAY + 1)
    good, expired = f"good {count} revoked 0 expired 0", f"good 0 revoked 0 expired {count}"
    pairs = [
        (f"{FIRST} counts", good), (f"{after} counts", expired), (f"{before} subscriber a", "subscriber 2"), (f"{before} counts", good),
        (f"{after} subscriber b", "subscriber 3"), (f"{after} counts", expired),
    ]  # fmt: skip
    ran(t, pairs, "ca.db")
    t.same(t.sql("ca.db", "SELECT state, count(*) FROM standing GROUP BY 1"), [("X", count)], "the states")
    t.same(t.sql("ca.db", "SELECT n_good, n_revoked, n_expired FROM kept"), [(0, 0, count)], "the counts")


@test(seconds=12)
def sixty_six_thousand_revocations(t):
    """A register of version 1 becomes one of version 3, and issues CRLs with all revocations, until the certificates have ended. Then another
    register is compared with a CRL, and lacks all of its entries."""
    count, overdue = 66_000, 2_000
    end, last, gone = START + 100 * DAY, START + 5 * DAY, START + 2 * DAY
    certs = [(serial_of(at), at, START, end) for at in range(1, count + 2)]
    requests = [(id, certs[id - 1][0], 6, START + id // 2, 0) for id in range(1, count + 1)]
    requests += [(id, certs[-1][0], 6, START + DAY, 0) for id in range(count + 1, count + 1 + overdue)]
    registers.make(t.room / "ca.db", Rows(certs, requests, [(row[1], gone, 4, row[0], 1) for row in requests[:count]], last), 1)
    good, later = f"good 1 revoked {count} expired 0", f"good 0 revoked {count} expired 1"
    pairs = [
        (last, "counts", good), (last, "overdue", f"overdue {overdue} first {count + 1}"), (last, "next-crl", "next-crl at-once"),
        (last, "crl", f"crl 1 entries {count}"), (last, "next-crl", f"next-crl {moment_of(last + 7 * DAY)}"),
        (last, f"listing {certs[-2][0].hex()}", "listing first 1"), (end + 1, "crl", f"crl 2 entries {count}"), (end + 1, "crl", "crl 3 entries 0"),
        (end + 1, "counts", later), (end + 1, f"listing {certs[0][0].hex()}", "listing first 1 last 2"),
    ]  # fmt: skip
    ran(t, [(f"{moment_of(at)} {line}", reply) for at, line, reply in pairs], "ca.db")
    serials = sorted(row[0] for row in certs[:count])
    sample = registers.entry(serials[0], gone, 4)
    at = sample.index(serials[0])
    entries = b"".join(sample[:at] + serial + sample[at + 20 :] for serial in serials)
    crls = [registers.sealed_with(number, *it) for number, it in enumerate(((last, entries), (end + 1, entries), (end + 1, b"")), 1)]
    for (got,), wanted in zip(t.sql("ca.db", "SELECT der FROM crl ORDER BY number"), crls, strict=True):
        like(t, got, wanted, "a CRL")
    t.same(t.sql("ca.db", "SELECT first_crl, last_listed, count(*) FROM listed GROUP BY 1, 2"), [(1, 2, count)], "the entries")
    t.same(t.sql("ca.db", "SELECT state, count(*) FROM standing GROUP BY 1"), [("R", count), ("X", 1)], "the states")
    (t.room / "published.crl").write_bytes(crls[1])
    t.register("other.db")
    t.clock(end + 1)
    told = t.desk("open", "other.db", "--port", program.free_port(), "--control", "other", "--unsigned", "--published", "published.crl")
    t.same((told.status, told.err), (1, b"behind-crl\n"), "status and standard error of a desk that lacks all")
    like(t, told.out.decode(), "missing crl 2\n" + "".join(f"missing revocation {it.hex()}\n" for it in serials), "what that desk lacks")


@test
def a_table_has_a_million_rows(t):
    """That is the most by default. The file has only the last rows, whose numbers are those of full tables: only an audit counts the rows."""
    most, end = 1_000_000, moment_of(START + 398 * DAY - 1)
    begun = ("subscriber acme", "order 1 398", "order 1 398", f"register 1 05 {FIRST} {end}", "request 05 asked", "crl")
    t.register(lines="".join(f"{FIRST} {it}\n" for it in begun))
    serial = "x'4000000000000000000000000000000000000006'"
    for statement in (
        f"INSERT INTO subscriber VALUES ({most - 1}, 'last')",
        f"INSERT INTO orders VALUES ({most - 1}, {most - 1}, 398)",
        f"INSERT INTO request SELECT {most - 1}, serial, ground, received, declined FROM request",
        f"INSERT INTO crl SELECT {most - 1}, this_update, der FROM crl",
        f"INSERT INTO cert (rowid, serial, order_id, not_before, not_after) SELECT {most - 1}, {serial}, {most - 1}, not_before, not_after FROM cert",
        "INSERT INTO standing SELECT serial, not_after, 'G' FROM cert WHERE rowid > 1",
        "UPDATE kept SET n_good = 2",
    ):
        t.sql("ca.db", statement)
    due = moment_of(START + DAY)
    pairs = [
        ("subscriber last", f"E05 name-taken {most - 1}"), ("subscriber most", f"subscriber {most}"), ("subscriber more", "E03 full"),
        (f"order {most + 1} 1", "E06 no-subscriber"), (f"order {most} 398", f"order {most}"), (f"order {most} 397", "E03 full"),
        (f"register {most + 1} 07 {FIRST} {end}", "E08 no-order"), (f"register {most} 07 {FIRST} {end}", "registered"),
        (f"register 2 08 {FIRST} {end}", "E03 full"), (f"register {most} 7 {FIRST} {end}", "same"), ("status 07", "good"),
        ("counts", "good 3 revoked 0 expired 0"), (f"revoke {most}", "E17 no-request"), ("request 07 superseded", f"request {most} due {due}"),
        ("request 0a superseded", "E14 unknown-serial"), ("request 07 asked", "E03 full"), (f"decline {most - 1}", "declined"),
        (f"revoke {most}", "revoked"), ("overdue", "overdue 0"), ("listing 07", f"listing first {most}"), ("crl", f"crl {most} entries 1"),
        ("crl", "E03 full"), ("next-crl", f"next-crl {moment_of(START + 7 * DAY)}"), ("listing 07", f"listing first {most}"),
        ("counts", "good 2 revoked 1 expired 0"),
    ]  # fmt: skip
    ran(t, [(f"{FIRST} {line}", reply) for line, reply in pairs], "ca.db")
    t.clock(START)
    desk = t.open()
    latest = registers.sealed(most, START, [(bytes(19) + b"\7", START, 4)])
    served = [parted(desk.ask("GET", path))[2] == latest for path in ("/crl", f"/crl/{most}")]
    t.same(served, [True] * 2, "whether the highest number has the latest CRL")


@test(seconds=20)
def a_list_of_a_million_rows(t):
    t.register()
    rows = "WITH RECURSIVE row (id) AS (SELECT 1 UNION ALL SELECT id + 1 FROM row WHERE id < 1000000) SELECT id, 's' || id FROM row"
    t.sql("ca.db", f"INSERT INTO subscriber {rows}")
    listed = t.done("list", "ca.db", "subscribers")
    t.same((listed.count("\n"), listed.splitlines()[-1]), (1_000_001, "1000000,s1000000"), "its lines, with the header, and the last one")


def identifier_of(number):
    return hashlib.sha512(str(number).encode()).digest()


@test(seconds=5)
def two_thousand_key_identifiers(t):
    """The issuer got another key identifier before each CRL. They all follow its Name in the file. Then come ten thousand CRLs with the last one."""
    given, count = 2_000, 12_000
    t.register()
    numbers = list(range(1, given + 1))
    written = lambda number: tlv(0x80, number.to_bytes(8, "big"), identifier_of(number))
    stored = lambda: bytes.fromhex(program.NAME) + b"".join(map(written, reversed(numbers)))
    crl = lambda number: registers.sealed_with(number, START + number, b"", identifier_of(max(it for it in numbers if it <= number)))
    with contextlib.closing(sqlite3.connect(t.room / "ca.db")) as db:
        db.executemany("INSERT INTO crl VALUES (?, ?, ?)", [(number, START + number, crl(number)) for number in numbers])
        sealed = lambda number: registers.sealed_with(number, START + number, b"", identifier_of(given))
        db.executemany("INSERT INTO crl VALUES (?, ?, ?)", ((number, START + number, sealed(number)) for number in range(given + 1, count + 1)))
        db.execute("UPDATE office SET name = ?, last_at = ?", (stored(), START + count))
        db.commit()
    t.same(t.done("key-id", "ca.db", identifier_of(count + 1).hex()), "key-id set\n")
    numbers.append(count + 1)
    t.same(t.done("script", "ca.db", given=f"{moment_of(START + count + 1)} crl\n"), f"crl {count + 1} entries 0\n")
    t.same(t.sql("ca.db", "SELECT name FROM office") == [(stored(),)], True, "whether the file has all key identifiers")
    t.same(t.done("audit", "ca.db"), SOUND.format(0, 0, count + 1))
    t.clock(START + count + 2)
    desk = t.open()
    for number in (1, 2, given // 2, given, given + 1, count, count + 1):
        like(t, parted(desk.ask("GET", f"/crl/{number}"))[2], crl(number), f"CRL {number}")
    t.same(t.control().ask("crl"), f"crl {count + 2} entries 0", "a CRL after them")
    t.same(parted(desk.ask("GET", "/crl"))[2] == crl(count + 2), True, "whether the latest CRL is right")
    t.true(t.control().ask("copy copy.db").startswith("copied "), "the open register is not copied")
    tables = Tables(t.room / "copy.db")
    head, rows, _, ends, _ = page_of(t, parted(desk.ask("GET", "/changes"))[2])
    t.true(len(head) > 290_000, f"the head of a page has only {len(head)} octets")
    t.same((head == tables.head, rows, ends), (True, [("crl", tables.lines["crl"][0])], False), "whether the head is right, the rows, and the end")
    _, rows, _, ends, after = asked(t, desk, tables.positions())
    t.same((rows, ends, after), ([], True, tables.positions()), "the page at the end")
    request = ocsp_request()
    t.same(parted(desk.ask("POST", "/ocsp", request))[2], answer(Register(last=START), START + count + 2, request), "an OCSP answer")


@test(seconds=2)
def a_log_of_20_mb_beside_a_register(t):
    """Another program wrote a long CRL in one transaction, which is only in the log, as after it was killed."""
    size, words = 20_000_000, ("script", "large.db")
    t.register(lines=f"{FIRST} subscriber acme\n{FIRST} crl\n{FIRST} crl\n")
    with contextlib.closing(sqlite3.connect(t.room / "ca.db", isolation_level=None)) as db:
        t.same(db.execute("PRAGMA journal_mode = wal").fetchall(), [("wal",)])
        db.execute("PRAGMA wal_autocheckpoint = 0")
        db.execute("UPDATE crl SET der = zeroblob(?) WHERE number = 1", (size,))
        for end in ("", "-wal"):
            shutil.copyfile(t.room / f"ca.db{end}", t.room / f"large.db{end}")
    t.true((t.room / "large.db-wal").stat().st_size > size > 100 * (t.room / "large.db").stat().st_size, "the CRL is not in the log")
    ran = t.desk("audit", "large.db")
    t.same((ran.status, ran.out.decode(), ran.err), (1, OTHER_BYTES, b"broken\n"), "an audit")
    t.same(t.done("copy", "large.db", "copy.db").split()[0], "copied")
    t.same(t.sql("copy.db", "SELECT number, length(der) FROM crl ORDER BY number")[0], (1, size), "the CRL in a copy")
    t.same(t.done(*words, given=f"{FIRST} subscriber acme\n{FIRST} subscriber more\n"), "E05 name-taken 1\nsubscriber 2\n", "a script")
    t.true(not (t.room / "large.db-wal").exists() or (t.room / "large.db-wal").stat().st_size < 4_096, "the log is still there")
    t.true(t.desk("crl", "large.db", "--number", 1).out == bytes(size), "the CRL is not written as it was")


# Paths of 4,087 bytes: the system takes 4,095 (PATH_MAX), and `-journal` follows that of a register.
LONG = 4_087


def long_path(name, size=LONG):
    """A path of so many bytes, or of one less, to a file in the test's folder."""
    return "./" * ((size - len(name)) // 2) + name


@test(seconds=3)
def paths_of_four_thousand_bytes(t):
    """Each command takes them. The path of a socket has 107 bytes at most."""
    file, copy = long_path("x.db"), long_path("y.db")
    t.true(min(map(len, (file, copy))) >= LONG - 1, "the paths are short")
    t.register(file, lines=f"{FIRST} subscriber acme\n{FIRST} order 1 398\n{FIRST} crl\n")
    t.same(t.done("import", file, "--now", FIRST, given=f"1,05,{FIRST},{FIRST}\n"), "registered\n")
    t.same(t.done("schedule", file, f"1970-01-01T00:00:00Z=300"), "schedule set\n")
    t.same(t.done("key-id", file, "0A0B"), "key-id set\n")
    t.same(t.done("list", file, "subscribers", "--now", FIRST), "subscriber,name\n1,acme\n")
    t.same(t.done("audit", file), SOUND.format(1, 0, 1))
    t.same(t.done("copy", file, copy).split()[0], "copied")
    t.same(t.desk("crl", copy).out, t.desk("crl", "x.db").out, "the CRL")
    t.same(t.done("audit", "y.db"), SOUND.format(1, 0, 1))
    (t.room / "published.crl").write_bytes(t.desk("crl", file).out)
    t.clock(START)
    log, control = long_path("ca.log"), long_path("a.ctl", 107)
    desk = t.open(file, "--published", long_path("published.crl"), "--log-file", log, "--control", control)
    t.same(len(control), 107, "the length of the path of the control socket")
    t.same(t.done("at", control, given="counts\n"), "good 1 revoked 0 expired 0\n")
    t.true(t.control("a.ctl").ask(f"copy {long_path('z.db')}").startswith("copied "), "the open register is not copied")
    t.same((t.room / "z.db").stat().st_size > 0, True, "whether the copy is there")
    (t.room / "rows.csv").write_text(f"1,05,{FIRST},{FIRST}\n")
    t.same(t.done("at", control, "--import", long_path("rows.csv")), "same\n")
    (t.room / "rows.csv").write_text(f"05,{FIRST},{FIRST}\n")
    t.same(t.done("at", control, "--import", long_path("rows.csv"), "--orders", 1, 1), "good\n")
    (t.room / "rows.csv").write_text("05,superseded\n")
    t.same(t.done("at", control, "--revoke", long_path("rows.csv")), "revoked\n")
    t.same(len((t.room / "ca.log").read_text().splitlines()), 6, "lines of the log")
    desk.end()
    t.open(copy, "--control", "second")
    t.same(t.done("replay", "second", log).splitlines(), ["same", f"request 1 due {moment_of(START + DAY)}", "revoked"], "the replies to the log")
    served = t.open("z.db", "--requests", 1, "--published", long_path("published.crl"), command="serve")
    t.same(parted(served.ask("GET", "/status/05"))[2], b'{"status":"good"}')


# What is sent to a control socket


@contextlib.contextmanager
def in_place_of_a_desk(t, replies, path="control"):
    """Takes all that a client sends to a control socket, and sends these bytes. Yields a list, which gets the bytes that came at the end."""
    came = []
    with socket.socket(socket.AF_UNIX) as server, ThreadPoolExecutor(2) as pool:
        server.bind(str(t.room / path))
        server.listen()

        def takes(client):
            pieces = []
            while piece := client.recv(1 << 20):
                pieces.append(piece)
            came.append(b"".join(pieces))

        def serves():
            with contextlib.suppress(OSError), server.accept()[0] as client:
                taken = pool.submit(takes, client)
                with contextlib.suppress(BrokenPipeError, ConnectionResetError):
                    client.sendall(replies)
                taken.result()

        served = pool.submit(serves)
        try:
            yield came
        finally:
            with contextlib.suppress(OSError):
                server.shutdown(socket.SHUT_RDWR)
            served.result(program.LONGEST)


@test(seconds=4)
def a_file_of_16_mib_is_sent(t):
    """That is the most that an import takes, and a byte more is refused. In place of a desk, the test takes the lines."""
    row, size = f"1,{5:040x},{FIRST},{FIRST}\n", 16_777_216
    count = size // len(row)
    (t.room / "rows.csv").write_text(row * count + "\n" * (size - count * len(row)))
    with in_place_of_a_desk(t, b"registered\n" * count) as came:
        ran = t.desk("at", "control", "--import", "rows.csv")
    t.same((ran.status, ran.err, ran.out == b"registered\n" * count), (0, b"", True), "status, standard error, and whether all replies are written")
    t.same(came[0] == f"register 1 {5:040x} {FIRST} {FIRST}\n".encode() * count, True, "whether all lines are sent")
    (t.room / "rows.csv").write_text(row * count + "\n" * (size + 1 - count * len(row)))
    ran = t.desk("at", "control", "--import", "rows.csv")
    t.same((ran.status, ran.out, ran.err), (1, b"", b"F4 read\n"), "a file with a byte more")


@test(seconds=3)
def long_rows_are_refused_alone(t):
    """Rows of millions of octets, of a million fields, and with a million line ends between quotation marks."""
    t.register(lines=f"{FIRST} subscriber acme\n{FIRST} order 1 398\n")
    quoted = '"' + "\n" * 1_000_000 + '"'
    rows = f"1,{'x' * 6_000_000},{FIRST},{FIRST}\n{',' * 1_000_000}\n{quoted},05,{FIRST},{FIRST}\n1,05,{FIRST},{FIRST}\n"
    t.clock(START)
    replies = [*["E22 syntax"] * 3, "registered"]
    t.register("other.db", lines=f"{FIRST} subscriber acme\n{FIRST} order 1 398\n")
    t.same(t.desk("import", "other.db", "--now", FIRST, given=rows).lines, replies, "an import")
    ran = t.desk("import", "other.db", "--now", FIRST, "--strict", given=f"1,05,{FIRST},{FIRST}\n" + "x" * 6_000_000)
    t.same((ran.status, ran.lines, ran.err), (3, ["same"], b"no-line-end\n"), "a strict import whose last line has no end")
    t.open()
    (t.room / "rows.csv").write_text(rows)
    t.same(t.desk("at", "control", "--import", "rows.csv").lines, replies, "an import at the control socket")
    (t.room / "rows.csv").write_text(f"05,{'x' * 3_000_000}\n{'0' * 3_000_000}5,superseded\n05,superseded\n")
    t.same(t.desk("at", "control", "--revoke", "rows.csv").lines, ["E22 syntax", "E22 syntax", "revoked"], "rows to revoke")
    (t.room / "rows.csv").write_text(f"05,{FIRST},{'x' * 3_000_000}\n{'0' * 3_000_000}5,{FIRST},{FIRST}\n05,{FIRST},{FIRST}\n")
    told = t.desk("at", "control", "--import", "rows.csv", "--orders", 1, 398).lines
    t.same(told, ["E22 syntax", "E22 syntax", f"revoked {FIRST} reason 4"], "rows that get orders")


@test(seconds=2)
def a_line_and_a_reply_of_two_million_bytes(t):
    """`desk at` sends a line of any length, and writes a reply of any length: the desk alone limits them."""
    line, reply = b"x" * 2_000_000 + b"\n", b"y" * 2_000_000 + b"\n"
    with in_place_of_a_desk(t, reply * 2) as came:
        ran = t.desk("at", "control", given=line * 2)
    t.same((ran.status, ran.err, ran.out == reply * 2, came[0] == line * 2), (0, b"", True, True), "status, standard error, and whether all came")


@test(seconds=5)
def a_log_of_a_hundred_thousand_requests_is_replayed(t):
    """In place of a desk, the test takes the lines, and numbers the requests anew. A line has up to 255 bytes in the log."""
    count, first, serial = 100_001, 5_001, f"{5:040x}"
    schedule = "schedule" + "".join(f" {1970 + at}-01-01T00:00:00Z={398 if at < 7 else 97}" for at in range(10))
    t.same(len(schedule), 255, "the length of the line with the schedule")
    asks = f'{FIRST} control "request 05 asked" "request {{0}} due {FIRST}" 39 9 request {{0}} {serial} asked\n'
    entered = [asks.format(at) for at in range(first, first + count)]
    # The number of a request in the log, and its number at the desk. Number 7 was entered before the log begins.
    decided = [("revoke", first, 1), ("decline", first + count - 1, count), ("revoke", first + count // 2, 1 + count // 2), ("decline", 7, 7)]
    log = [f'{FIRST} control "{schedule}" "schedule set" 13 9\n', *entered, f"{FIRST} 127.0.0.1:50000 lost {'x' * 300_000}\n"]
    log += [f'{FIRST} control "{word} {old}" "{word}d" 8 9 request {old} {serial}\n' for word, old, _ in decided]
    replies = ["schedule set\n", *(f"request {at} due {FIRST}\n" for at in range(1, count + 1)), *(f"{word}d\n" for word, _, _ in decided)]
    (t.room / "ca.log").write_text("".join(log))
    with in_place_of_a_desk(t, "".join(replies).encode()) as came:
        ran = t.desk("replay", "control", "ca.log")
    t.same((ran.status, ran.err, ran.out.decode() == "".join(replies)), (0, b"", True), "status, standard error, and whether all replies are written")
    lines = [f"{schedule}\n", *[f"request {serial} asked\n"] * count, *(f"{word} {new} {serial}\n" for word, _, new in decided)]
    like(t, came[0].decode(), "".join(lines), "the lines that are sent")


@test(seconds=3)
def a_terminal_shows_more_than_65_536_lines(t):
    count = 70_000
    t.register()
    shown = on_a_terminal(t, "import", "ca.db", "--now", FIRST, given=b"1,2\n" * count, tick=1_000)
    t.same((len(shown), shown[-1]), (count, f"{count} lines done, 1 a second"))


@test
def a_log_file_of_five_gigabytes(t):
    """It has no blocks on the disk. Each line comes at its end."""
    size = 5 * 2**30 + 1
    (t.room / "ca.log").write_bytes(b"")
    os.truncate(t.room / "ca.log", size)
    t.callback(os.truncate, t.room / "ca.log", 0)
    t.register()
    t.clock(START)
    t.open("ca.db", "--log-file", "ca.log")
    t.done("at", "control", given="counts\nwhy\n")
    with open(t.room / "ca.log", "rb") as log:
        log.seek(size)
        lines = log.read().decode().splitlines()
    t.same([it.split('"')[1] for it in lines], ["counts", "why"])


# OCSP


def cert_id(algorithm=der.SHA1, name=der.sha1(der.NAME), key=der.sha1(der.KEY), serial=b"\5"):
    """A value of type Request (RFC 6960 4.1.1), by default for the certificate 05."""
    return der.value(0x30, der.value(0x30, algorithm, der.value(0x04, name), der.value(0x04, key), der.value(0x02, serial)))


def single_with(*extensions):
    return der.value(0x30, cert_id()[2:], der.value(0xA0, der.value(0x30, *extensions)))


def ocsp_request(*singles, before=b"", after=(), signature=b""):
    extensions = der.value(0xA2, der.value(0x30, *after)) if after else b""
    return der.value(0x30, der.value(0x30, before, der.value(0x30, *(singles or [cert_id()])), extensions), signature)


SHORT_ID = cert_id(bytes.fromhex("300306012A"), b"", b"")
OTHER, NONCED = extension(b"\x2a", b""), extension(NONCE, b"n" * 131)


def large_requests(most):
    """OCSP requests of nearly as many octets: of each part one that has most of them."""
    long = bytes(most - 200)
    return {
        "CertIDs": ocsp_request(*[SHORT_ID] * ((most - 120) // len(SHORT_ID)), cert_id()),
        "the parameters of an algorithm": ocsp_request(cert_id(der.value(0x30, bytes.fromhex("06012A"), der.value(0x04, long))), cert_id()),
        "a hash of a name": ocsp_request(cert_id(name=long), cert_id()),
        "a hash of a key": ocsp_request(cert_id(key=long), cert_id()),
        "a serial number": ocsp_request(cert_id(serial=b"\1" + long), cert_id()),
        "an extension": ocsp_request(after=(extension(b"\x2a", long[150:]), NONCED)),
        "extensions": ocsp_request(after=(*[OTHER] * ((most - 260) // len(OTHER)), NONCED)),
        "extensions of one certificate": ocsp_request(single_with(*[OTHER] * ((most - 260) // len(OTHER))), cert_id()),
        "the requestor's name": ocsp_request(before=der.value(0xA1, long)),
        "a signature": ocsp_request(signature=der.value(0xA0, long)),
    }


@test(seconds=4)
def large_ocsp_requests_are_answered(t):
    """Over HTTP they have nearly 65,536 octets, and in a line as many as it has room for."""
    register, now = modelled(), START + DAY
    t.register(lines="".join(f"{line}\n" for line, _ in CERTIFICATE))
    t.clock(now)
    desk = t.open()
    for what, request in large_requests(65_536).items():
        t.true(65_000 < len(request) <= 65_536, f"the request with long {what} has {len(request)} octets")
        like(t, parted(desk.ask("POST", "/ocsp", request))[2], answer(register, now, request), f"the answer, with long {what}")
    requests = [*large_requests(4_083).values()]
    told = t.done("at", "control", given="".join(f"ocsp {it.hex()}\n" for it in requests))
    like(t, told, "".join(f"ocsp {answer(register, now, it).hex()}\n" for it in requests), "the answers to lines")
    t.true(max(map(len, told.splitlines())) > 25_000, "all answers are short")
    desk.end()
    requests = [*large_requests(4_072).values()]
    told = t.done("script", "ca.db", given="".join(f"{moment_of(now)} ocsp {it.hex()}\n" for it in requests))
    like(t, told, "".join(f"ocsp {answer(register, now, it).hex()}\n" for it in requests), "the answers in a script")


# What an audit compares


def sealed_by(algorithm, signature):
    """CRL 1 without entries, with this AlgorithmIdentifier and this signature."""
    (part, _, _) = authority.values_of(authority.inside(registers.sealed(1, START, []))[1])
    values = [it[2] for it in authority.values_of(part[1])]
    return der.value(0x30, der.value(0x30, values[0], algorithm, *values[2:]), algorithm, der.value(0x03, b"\0", signature))


@each({
    "the longest algorithm": (1_024, 20, True), "a longer one": (1_025, 20, False),
    "the longest signature": (11, 65_536, True), "a longer one than that": (11, 65_537, False),
})  # fmt: skip
def an_audit_of_a_crl_with(t, octets, signature, is_sound):
    """An AlgorithmIdentifier has at most 1,024 octets, and a signature 65,536."""
    sized = (der.value(0x30, bytes.fromhex("06032A0304"), der.value(0x04, bytes(size))) for size in range(octets))
    algorithm = next(it for it in sized if len(it) >= octets)
    t.same(len(algorithm), octets, "octets of the algorithm")
    t.register(lines=f"{FIRST} crl\n")
    t.sql("ca.db", "UPDATE crl SET der = ?", sealed_by(algorithm, bytes(signature)))
    ran = t.desk("audit", "ca.db")
    wanted = SOUND.format(0, 0, 1) if is_sound else OTHER_BYTES
    t.same((ran.status, ran.out.decode()), (0 if is_sound else 1, wanted))


@test
def the_longest_name_and_key(t):
    """A Name has at most 1,024 octets, and a key 2,048."""
    name, key = name_of(1_024), bytes(range(256)) * 8
    for words in ((name_of(1_025), key), (name, key + b"k")):
        told = t.desk("init", "ca.db", "--name", words[0].hex(), "--key", words[1].hex())
        t.same((told.status, told.out, told.err), (1, b"", b"bad-issuer\n"), f"a Name of {len(words[0])} octets and a key of {len(words[1])}")
    lines = ("subscriber acme", "order 1 398", f"register 1 05 {FIRST} {FIRST}", "crl")
    t.register(name=name.hex(), key=key.hex(), lines="".join(f"{FIRST} {it}\n" for it in lines))
    t.same(t.done("audit", "ca.db"), SOUND.format(1, 0, 1))
    for hashed, algorithm in ((hashlib.sha1, der.SHA1), (hashlib.sha256, bytes.fromhex("300D06096086480165030402010500"))):
        asked_for = cert_id(algorithm, hashed(name).digest(), hashed(key).digest())
        told = t.done("script", "ca.db", given=f"{FIRST} ocsp {ocsp_request(asked_for).hex()}\n")
        t.has(told, asked_for[2:].hex() + "8000", "the answer, by which the certificate is good")
    t.has(t.desk("crl", "ca.db").out, name, "the CRL")
    t.clock(START)
    desk = t.open()
    head, *_ = page_of(t, parted(desk.ask("GET", "/changes"))[2])
    t.has(head.decode(), f"\nissuer {name.hex()} {key.hex()}\n", "the head of a page of the changes feed")


@test(seconds=3)
def words_of_a_hundred_thousand_characters(t):
    """A word has 131,071 at most (MAX_ARG_STRLEN)."""
    t.register()
    size = 131_000
    issuer, long = ["--name", program.NAME, "--key", program.KEY], "6" * size
    for words in (["--name", long, "--key", program.KEY], ["--name", program.NAME, "--key", long], [*issuer, "--key-id", long]):
        ran = t.desk("init", "new.db", *words)
        t.same((ran.status, ran.out, ran.err), (1, b"", b"bad-issuer\n"), f"init, with a long value of {words[words.index(long) - 1]}")
    ran = t.desk("key-id", "ca.db", long)
    t.same((ran.status, ran.out, ran.err), (1, b"", b"bad-issuer\n"), "key-id")
    bad = (
        ["init", "new.db", *issuer, "--days", long], ["list", "ca.db", "orders", "--subscriber", long], [long], ["crl", "ca.db", "--number", long],
        ["schedule", "ca.db", long], ["list", "ca.db", "certificates", "--serial", long],
    )  # fmt: skip
    for words in bad:
        ran = t.desk(*words)
        t.same((ran.status, ran.out, ran.err[:7]), (2, b"", b"error: "), f"a long word after {words[:-1]}")
    for words in (["audit", long], ["list", long, "orders", "--now", FIRST], ["copy", "ca.db", long], ["script", long]):
        ran = t.desk(*words)
        t.same((ran.status, ran.out, ran.err), (1, b"", b"F2 store\n"), words[0])
    for words in (["at", long], ["replay", long, "ca.db"], ["at", "control", "--import", long]):
        ran = t.desk(*words)
        t.same((ran.status, ran.out, ran.err), (1, b"", b"F4 read\n"), words[0])


@test(seconds=8)
def a_script_in_memory_of_66_000_commands(t):
    """Each one is accepted, and adds a row."""
    count = 66_000
    told = t.done("script", given=f"{FIRST} subscriber acme\n" + f"{FIRST} order 1 398\n" * count + f"{FIRST} counts\n")
    like(t, told, "subscriber 1\n" + "".join(f"order {at}\n" for at in range(1, count + 1)) + "good 0 revoked 0 expired 0\n", "the replies")
