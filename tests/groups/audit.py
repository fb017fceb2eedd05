"""`desk audit` reports a sound register as sound. If SQL broke a row, the audit prints the row's table and number, and ends with status 1.
It reports a broken reference or CHECK as a damaged file. An audit changes and creates no file."""

import os
import shutil
import signal
import sqlite3
import subprocess
from functools import cache

from lib import faults, program, registers
from lib.trial import Skipped, each, need, test

NAME = "300C310A300806035504030C0154"
KEY = "0102"
FIRST_DAY = (program.TOP / "examples/first-day.txt").read_text()
TABLES = ("cert", "request", "revocation", "standing", "listed")
# Sets each serial number to one byte in place of 20, in every table that has one.
RENAMED = "; ".join(f"UPDATE {table} SET serial = x'05'" for table in TABLES)
# The report about a row whose rowid is wrong.
MOVED = "its number is not one more than that of the row before it, or not 1 in the first row"

# SQL that changes the register of examples/first-day.txt, and how the audit's line goes on after `broken: `.
BROKEN = {
    "a letter": ("UPDATE standing SET state = 'G' WHERE rowid = 1", "standing 1"),
    "a letter that is none": ("UPDATE standing SET state = 'Q' WHERE rowid = 1", "standing 1"),
    "a letter that is missing": ("DELETE FROM standing", "standing 1"),
    "the counts": ("UPDATE kept SET n_good = n_good + 1", "kept 1"),
    "no counts": ("DELETE FROM kept", "kept"),
    "a last listing that is not yet": ("UPDATE listed SET last_listed = 2", "listed 1"),
    "what a CRL lists": ("UPDATE listed SET reason = 4", "listed 1"),
    "a listing that is missing": ("DELETE FROM listed", "listed 1"),
    "a revocation before its request": ("UPDATE revocation SET at = at - 86400", "revocation 1"),
    "a revocation after the last moment": ("UPDATE revocation SET at = at + 86400", "revocation 1"),
    "a first CRL that is not issued": ("UPDATE revocation SET first_crl = 9", "revocation 1"),
    "a CRL before the first that lists": ("UPDATE revocation SET first_crl = 1", "revocation 1"),
    "a CRL number out of order": ("UPDATE crl SET number = 7 WHERE number = 2", "crl 2"),
    "a CRL before the previous": ("UPDATE crl SET this_update = this_update - 86400 WHERE number = 2", "crl 2"),
    "a serial number that is none": (RENAMED, "cert 1"),
    "a subscriber's id that is left out": ("UPDATE subscriber SET id = 2; UPDATE orders SET subscriber = 2", "subscriber 1"),
    "an order's id that is left out": ("UPDATE orders SET id = 2; UPDATE cert SET order_id = 2", "orders 1"),
    "a name that is none": ("UPDATE subscriber SET name = ''", "subscriber 1"),
    "a ground that is none": ("UPDATE request SET ground = 12", "request 1"),
    "a request after the last moment": ("UPDATE request SET received = received + 864000", "request 1"),
    "a moment below 0": ("UPDATE cert SET not_after = -1", "cert 1"),
    "more rows than the cap": ("UPDATE office SET cap = 1", "crl 2"),
    "a request that is half declined": ("UPDATE request SET declined = 2", "request 1"),
    "a reason that was not listed": ("UPDATE revocation SET reason = 4; UPDATE request SET ground = 6", "listed 1"),
    "another end of a certificate": ("UPDATE cert SET not_after = not_after + 86400", "standing 1"),
    "another end beside a letter": ("UPDATE standing SET not_after = not_after + 1", "standing 1"),
    "another end of what is listed": ("UPDATE listed SET not_after = not_after + 1", "listed 1"),
    "a certificate's rowid that was moved": ("UPDATE cert SET rowid = 9 WHERE rowid = 1", f"cert 1: {MOVED}"),
    "a revocation's rowid that was moved": ("UPDATE revocation SET rowid = 9 WHERE rowid = 1", f"revocation 1: {MOVED}"),
    "a letter's rowid that was moved": ("UPDATE standing SET rowid = 9 WHERE rowid = 1", f"standing 1: {MOVED}"),
    "a listing's rowid that was moved": ("UPDATE listed SET rowid = 9 WHERE rowid = 1", f"listed 1: {MOVED}"),
    "another issuer": (f"UPDATE office SET name = x'{NAME[:-2]}55'", "crl 1"),
    "another key of the issuer": ("UPDATE office SET pubkey = x'0103'", "crl 1"),
    "another life of CRLs": ("UPDATE office SET crl_life = crl_life - 1", "crl 1"),
    "another table": ("CREATE TABLE t (a)", "schema: "),
    "a view": ("CREATE VIEW v AS SELECT 1", "schema: "),
    "a trigger": ("CREATE TRIGGER t AFTER DELETE ON crl BEGIN DELETE FROM crl; END", "schema: "),
    "an index that is missing": ("DROP INDEX standing_due", "schema: "),
    "a column besides": ("ALTER TABLE crl ADD COLUMN note TEXT", "schema: "),
    "a column of another name": ("ALTER TABLE subscriber RENAME COLUMN name TO label", "schema: "),
}
# SQL that changes the register FULL (two certificates, one of them revoked and on CRL 1), and the line that the audit prints after `broken: `.
TOLD = [
    ("UPDATE subscriber SET name = ''", "subscriber 1: a value that no register writes, or not exactly one row in the table"),
    ("UPDATE orders SET days = -1 WHERE id = 2", "orders 2: a value that no register writes, or not exactly one row in the table"),
    ("UPDATE cert SET not_before = -1", "cert 1: a value that no register writes, or not exactly one row in the table"),
    ("UPDATE cert SET not_after = -1 WHERE order_id = 2", "cert 2: a value that no register writes, or not exactly one row in the table"),
    ("UPDATE request SET ground = 12", "request 1: a value that no register writes, or not exactly one row in the table"),
    ("UPDATE request SET declined = 2 WHERE id = 2", "request 2: a value that no register writes, or not exactly one row in the table"),
    ("UPDATE request SET received = 253401436800", "request 1: a value that no register writes, or not exactly one row in the table"),
    ("UPDATE revocation SET reason = 256", "revocation 1: a value that no register writes, or not exactly one row in the table"),
    ("UPDATE crl SET this_update = 253401436800", "crl 1: a value that no register writes, or not exactly one row in the table"),
    ("UPDATE standing SET state = 'Q'", "standing 1: a value that no register writes, or not exactly one row in the table"),
    ("UPDATE kept SET n_revoked = -1", "kept 1: a value that no register writes, or not exactly one row in the table"),
    ("DELETE FROM kept", "kept 1: a value that no register writes, or not exactly one row in the table"),
    ("UPDATE listed SET reason = 256", "listed 1: a value that no register writes, or not exactly one row in the table"),
    ("UPDATE office SET cap = 1", "orders 2: more rows than the policy's cap"),
    ("UPDATE office SET last_at = 1767225600", "request 1: its moment is after the last accepted one"),
    ("INSERT INTO subscriber VALUES (3, 'b')", "subscriber 2: its number is not one more than that of the row before it, or not 1 in the first row"),
    ("INSERT INTO orders VALUES (4, 1, 10)", "orders 3: its number is not one more than that of the row before it, or not 1 in the first row"),
    ("UPDATE request SET received = 1767312001 WHERE id = 2", "request 2: its moment is after the last accepted one"),
    ("UPDATE revocation SET at = 1767312001", "revocation 1: its moment is after the last accepted one"),
    ("UPDATE revocation SET at = 1768003201", "revocation 1: its moment is after the end of the certificate"),
    ("UPDATE revocation SET first_crl = 0", "revocation 1: its first CRL is neither an issued one nor the next one"),
    ("UPDATE revocation SET first_crl = 3", "revocation 1: its first CRL is neither an issued one nor the next one"),
    ("UPDATE revocation SET at = 1767311999, first_crl = 2", "revocation 1: its first CRL is not the first one after its moment"),
    ("UPDATE revocation SET request = 2", "revocation 1: no such request for this serial number"),
    ("UPDATE crl SET this_update = 1767312001", "crl 1: its moment is after the last accepted one"),
    ("INSERT INTO crl VALUES (3, 1767312000, x'00')", "crl 2: its number is not one more than that of the row before it, or not 1 in the first row"),
    ("INSERT INTO crl VALUES (2, 1767311999, x'00')", "crl 2: its thisUpdate is before that of the CRL before it"),
    ("UPDATE kept SET n_good = 2", "kept 1: its counts are not those of the records"),
    ("UPDATE standing SET state = 'X'", "standing 1: differs from the records, or a row with a lower serial number is missing"),
    ("UPDATE standing SET not_after = 1 WHERE state = 'G'", "standing 2: differs from the records, or a row with a lower serial number is missing"),
    ("DELETE FROM standing WHERE state = 'G'", "standing 2: differs from the records, or a row with a lower serial number is missing"),
    ("UPDATE listed SET last_listed = 1", "listed 1: differs from the records, or a row with a lower serial number is missing"),
    ("UPDATE listed SET at = 1767311999", "listed 1: differs from the records, or a row with a lower serial number is missing"),
    ("UPDATE listed SET first_crl = 2", "listed 1: differs from the records, or a row with a lower serial number is missing"),
    ("DELETE FROM listed", "listed 1: differs from the records, or a row with a lower serial number is missing"),
    ("DELETE FROM standing WHERE state = 'R'; INSERT INTO standing SELECT serial, 1768003200, 'R' FROM revocation", "standing 1: its number is not one more than that of the row before it, or not 1 in the first row"),
]  # fmt: skip
# AGREED makes sound rows in every table: two validities are as long as ordered to the second, a request is declined, and each revoked certificate has
# two requests. ONE_SECOND has two revocations in one second, with a CRL between them. A_CRL has nothing but a CRL.
AGREED = "".join(
    f"2026-01-0{it}\n"
    for it in (
        "1T00:00:00Z subscriber acme", "1T00:00:00Z subscriber globex",
        "1T00:00:00Z order 1 10", "1T00:00:00Z order 2 398", "1T00:00:00Z order 1 1",
        "1T00:00:00Z register 1 05 2026-01-01T00:00:00Z 2026-01-10T23:59:59Z", "1T00:00:00Z register 2 06 2026-01-01T00:00:00Z 2026-12-31T00:00:00Z",
        "1T00:00:00Z register 3 07 2026-01-02T00:00:00Z 2026-01-02T23:59:59Z",
        "2T00:00:00Z request 05 asked", "3T00:00:00Z request 06 key-compromise", "3T00:00:00Z decline 2", "3T12:00:00Z request 05 misuse",
        "4T00:00:00Z revoke 1", "4T00:00:00Z crl", "5T00:00:00Z request 06 superseded", "6T00:00:00Z revoke 4", "6T00:00:00Z crl",
    )
)  # fmt: skip
ONE_SECOND = "".join(
    f"2026-01-01T00:00:00Z {it}\n"
    for it in (
        "subscriber acme", "order 1 10", "order 1 10", "register 1 05 2026-01-01T00:00:00Z 2026-01-10T00:00:00Z", "register 2 06 2026-01-01T00:00:00Z 2026-01-10T00:00:00Z",
        "request 05 asked", "request 06 asked", "revoke 1", "crl", "revoke 2",
    )
)  # fmt: skip
A_CRL = "2026-01-01T00:00:00Z crl\n"
# APART has no row whose number is that of an order, certificate, request or CRL that it refers to, or its place by serial number: the rows of `cert`
# have the orders 4, 6 and 5, the requests have the rows 3, 1, 2 and 3 of `cert`, the revocations the requests 3 and 1, and the CRLs 4 and 5.
APART = "".join(
    f"2026-01-0{it}\n"
    for it in (
        "1T00:00:00Z subscriber acme", "1T00:00:00Z subscriber globex", *[f"1T00:00:00Z order {it} 10" for it in (2, 1, 1, 2, 1, 2)],
        *[f"1T00:00:00Z register {it} 2026-01-01T00:00:00Z 2026-01-10T23:59:59Z" for it in ("4 0b", "6 0c", "5 0a")], *["1T00:00:00Z crl"] * 3,
        *[f"2T00:00:00Z request {it} asked" for it in ("0a", "0b", "0c", "0a")],
        "3T00:00:00Z revoke 3", "3T00:00:00Z crl", "3T00:00:00Z revoke 1", "4T00:00:00Z crl",
    )
)  # fmt: skip
NAMED, ALLOWED = "a name that no command takes", "days that no schedule allows"
BACKWARDS, LONGER = "its notBefore is after its notAfter", "a longer validity than its order allows"
EARLIER, ENDED = "its moment is before that of the row before it", "its moment is after the end of the certificate"
REVOKED, DECLINED = "its moment is after the revocation of its serial number", "its request was declined"
REASON, NEVER = "another reason than that of its request's ground", "a last accepted moment that no command set"
MORE = "more rows than the policy's cap"
OTHER = "differs from the records, or a row with a lower serial number is missing"
SWAPPED = "; ".join(f"UPDATE revocation SET rowid = {new} WHERE rowid = {old}" for old, new in ((1, 9), (2, 1), (9, 2)))


def asked(order, received):
    """SQL that adds request 5, for the certificate of an order."""
    return f"INSERT INTO request SELECT 5, serial, 1, {received}, 0 FROM cert WHERE order_id = {order}"


# States that no sequence of commands produces: the register's script, the SQL that changes it, and the audit's line.
UNREACHED = [
    (AGREED, "UPDATE subscriber SET name = 'a b' WHERE id = 1", f"subscriber 1: {NAMED}"),
    (AGREED, "UPDATE subscriber SET name = 'globex!' WHERE id = 2", f"subscriber 2: {NAMED}"),
    (AGREED, "UPDATE subscriber SET name = 'café' WHERE id = 2", f"subscriber 2: {NAMED}"),
    (AGREED, "UPDATE subscriber SET name = 'acme' || char(10) WHERE id = 1", f"subscriber 1: {NAMED}"),
    (AGREED, "UPDATE subscriber SET name = 'a/b' WHERE id = 2", f"subscriber 2: {NAMED}"),
    (AGREED, "UPDATE orders SET days = 0 WHERE id = 1", f"orders 1: {ALLOWED}"),
    (AGREED, "UPDATE orders SET days = 399 WHERE id = 2", f"orders 2: {ALLOWED}"),
    (AGREED, "UPDATE orders SET days = 1000000 WHERE id = 3", f"orders 3: {ALLOWED}"),
    (AGREED, "UPDATE orders SET days = 9223372036854775807 WHERE id = 3", f"orders 3: {ALLOWED}"),
    (AGREED, "UPDATE cert SET not_before = not_after + 1 WHERE order_id = 1", f"cert 1: {BACKWARDS}"),
    (AGREED, "UPDATE cert SET not_after = not_before - 1 WHERE order_id = 2", f"cert 2: {BACKWARDS}"),
    (AGREED, "UPDATE cert SET not_before = 253402300799 WHERE order_id = 3", f"cert 3: {BACKWARDS}"),
    (AGREED, "UPDATE cert SET not_after = not_after + 1 WHERE order_id = 1", f"cert 1: {LONGER}"),
    (AGREED, "UPDATE cert SET not_before = not_before - 1 WHERE order_id = 1", f"cert 1: {LONGER}"),
    (AGREED, "UPDATE cert SET not_before = 0 WHERE order_id = 2", f"cert 2: {LONGER}"),
    (AGREED, "UPDATE cert SET not_after = 253402300799 WHERE order_id = 2", f"cert 2: {LONGER}"),
    (AGREED, "UPDATE cert SET not_after = not_after + 1 WHERE order_id = 3", f"cert 3: {LONGER}"),
    (AGREED, "UPDATE orders SET days = 9 WHERE id = 1", f"cert 1: {LONGER}"),
    (AGREED, "UPDATE orders SET days = 364 WHERE id = 2", f"cert 2: {LONGER}"),
    (AGREED, "UPDATE request SET received = received - 86401 WHERE id = 2", f"request 2: {EARLIER}"),
    (AGREED, "UPDATE request SET received = 0 WHERE id = 4", f"request 4: {EARLIER}"),
    (AGREED, "UPDATE request SET received = 1767441601 WHERE id = 2", f"request 3: {EARLIER}"),
    (AGREED, "UPDATE request SET received = 1767657600 WHERE id = 1", f"request 2: {EARLIER}"),
    (AGREED, "UPDATE request SET id = 5 WHERE id = 4; UPDATE revocation SET request = 5 WHERE request = 4", f"request 4: {MOVED}"),
    (AGREED, asked(3, 1767657600), f"request 5: {ENDED}"),
    (AGREED, "UPDATE cert SET not_after = 1767311999 WHERE order_id = 1", f"request 1: {ENDED}"),
    (AGREED, "UPDATE cert SET not_after = 1767398399 WHERE order_id = 2", f"request 2: {ENDED}"),
    (AGREED, "UPDATE cert SET not_after = 1767441599 WHERE order_id = 1", f"request 3: {ENDED}"),
    (AGREED, "UPDATE cert SET not_after = 1767484799 WHERE order_id = 1", f"revocation 1: {ENDED}"),
    (AGREED, asked(1, 1767657600), f"request 5: {REVOKED}"),
    (AGREED, "UPDATE request SET received = 1767484801 WHERE id = 3", f"request 3: {REVOKED}"),
    (AGREED, "UPDATE revocation SET at = 1767441599 WHERE request = 1", f"request 3: {REVOKED}"),
    (AGREED, "UPDATE revocation SET at = 1767571199 WHERE request = 4", f"request 4: {REVOKED}"),
    (AGREED, "UPDATE request SET declined = 1 WHERE id = 1", f"revocation 1: {DECLINED}"),
    (AGREED, "UPDATE request SET declined = 1 WHERE id = 4", f"revocation 2: {DECLINED}"),
    (AGREED, "UPDATE revocation SET request = 2 WHERE request = 4", f"revocation 2: {DECLINED}"),
    (AGREED, "UPDATE revocation SET reason = 1 WHERE request = 1", f"revocation 1: {REASON}"),
    (AGREED, "UPDATE revocation SET reason = 0 WHERE request = 4", f"revocation 2: {REASON}"),
    (AGREED, "UPDATE revocation SET reason = 6 WHERE request = 4", f"revocation 2: {REASON}"),
    (AGREED, "UPDATE request SET ground = 3 WHERE id = 1", f"revocation 1: {REASON}"),
    (AGREED, "UPDATE request SET ground = 7 WHERE id = 4", f"revocation 2: {REASON}"),
    (AGREED, "UPDATE revocation SET request = 3 WHERE request = 1", f"revocation 1: {REASON}"),
    (AGREED, SWAPPED, f"revocation 2: {EARLIER}"),
    (ONE_SECOND, SWAPPED, "revocation 2: its first CRL is before that of the row before it"),
    (APART, "UPDATE orders SET days = 0 WHERE id = 1", f"orders 1: {ALLOWED}"),
    (APART, "UPDATE orders SET days = 399 WHERE id = 2", f"orders 2: {ALLOWED}"),
    (APART, "UPDATE cert SET not_after = not_before - 1 WHERE order_id = 6", f"cert 2: {BACKWARDS}"),
    (APART, "UPDATE cert SET not_after = not_before - 1 WHERE order_id = 5", f"cert 3: {BACKWARDS}"),
    (APART, "UPDATE cert SET not_after = not_after + 1 WHERE order_id = 4", f"cert 1: {LONGER}"),
    (APART, "UPDATE orders SET days = 9 WHERE id = 5", f"cert 3: {LONGER}"),
    (APART, "UPDATE cert SET not_after = 1767311999 WHERE order_id = 4", f"request 2: {ENDED}"),
    (APART, "UPDATE cert SET not_after = 1767311999 WHERE order_id = 6", f"request 3: {ENDED}"),
    (APART, "UPDATE request SET received = 1767398401 WHERE id = 4", f"request 4: {REVOKED}"),
    (APART, asked(6, 1767398401), f"request 5: {REVOKED}"),
    (APART, "UPDATE request SET declined = 1 WHERE id = 3", f"revocation 1: {DECLINED}"),
    (APART, "UPDATE revocation SET reason = 1 WHERE request = 1", f"revocation 2: {REASON}"),
    (APART, "UPDATE revocation SET at = at + 1 WHERE request = 3", "revocation 1: its first CRL is not the first one after its moment"),
    (APART, "UPDATE revocation SET first_crl = 7 WHERE request = 1", "revocation 2: its first CRL is neither an issued one nor the next one"),
    (APART, SWAPPED, "revocation 2: its first CRL is before that of the row before it"),
    (APART, "UPDATE standing SET not_after = 1 WHERE rowid = 2", f"standing 2: {OTHER}"),
    (APART, "UPDATE listed SET not_after = 1 WHERE rowid = 1", f"listed 1: {OTHER}"),
    (APART, "UPDATE listed SET not_after = 1 WHERE rowid = 2", f"listed 2: {OTHER}"),
    (APART, "UPDATE office SET cap = 4", f"orders 6: {MORE}"),
    (AGREED, "UPDATE office SET cap = 1", f"subscriber 2: {MORE}"),
    (AGREED, "UPDATE office SET cap = 3", f"request 4: {MORE}"),
    (A_CRL * 3, "UPDATE office SET cap = 1", f"crl 3: {MORE}"),
    (A_CRL, "UPDATE office SET last_at = last_at + 1", f"office 1: {NEVER}"),
    ("", "UPDATE office SET last_at = 5", f"office 1: {NEVER}"),
    (AGREED, "UPDATE office SET days = 0", f"office 1: {ALLOWED}"),
    (AGREED, "UPDATE office SET days = 399", f"office 1: {ALLOWED}"),
    (A_CRL, "UPDATE office SET days = -1", f"office 1: {ALLOWED}"),
    ("", "UPDATE office SET days = 9223372036854775807", f"office 1: {ALLOWED}"),
]
# States that commands can produce, as far as the tables show: the schedule may have changed later, and orders have no moment.
REACHED = [
    (AGREED, "UPDATE subscriber SET name = 'A-b_c.9' WHERE id = 1"),
    (AGREED, "UPDATE orders SET days = 398"),
    (AGREED, "UPDATE cert SET not_before = not_before + 1 WHERE order_id = 1"),
    (AGREED, "UPDATE request SET received = 1767484800 WHERE id = 3"),
    (AGREED, "UPDATE request SET received = 1767312000 WHERE id = 2"),
    (AGREED, "UPDATE request SET ground = 11 WHERE id = 3"),
    (AGREED, "UPDATE request SET declined = 1 WHERE id = 3"),
    (AGREED, "UPDATE request SET declined = 0 WHERE id = 2"),
    (AGREED, "UPDATE longest SET days = 1"),
    (AGREED, "UPDATE office SET days = 1"),
    (AGREED, "UPDATE office SET last_at = last_at + 1"),
    (ONE_SECOND, "UPDATE orders SET days = 11"),
    ("", "UPDATE longest SET days = 2"),
]
# SQL after which no command opens the register: a row has a broken reference or violates a CHECK.
DAMAGED = {
    "a certificate whose order is missing": "DELETE FROM orders",
    "an order whose subscriber is missing": "DELETE FROM subscriber",
    "a request for another serial number": "UPDATE request SET serial = x'07'",
    "a letter of another serial number": "UPDATE standing SET serial = x'07'",
    "a revocation on another request": "UPDATE revocation SET request = 2",
    "a second row of counts": "PRAGMA ignore_check_constraints = 1; UPDATE kept SET one = 2",
}
# SQL after which `office` or the schedule has values that no register can have. The audit rejects the file, as each command that opens it does.
NO_OFFICE = {
    "a cap of 0": "UPDATE office SET cap = 0",
    "an empty key": "UPDATE office SET pubkey = x''",
    "a Name that is none": "UPDATE office SET name = x'00'",
    "a schedule that begins later": "UPDATE longest SET from_at = 5",
    "a cap below 0": "UPDATE office SET cap = -1",
    "a last moment past the clock's end": "UPDATE office SET last_at = 253401436800",
    "no office": "DELETE FROM office",
}


@cache
def days():
    """A script of three months: certificates expire, some of them are revoked before, and some lines are refused."""
    lines = ["2026-01-01T08:00:00Z subscriber acme", "2026-01-01T08:00:00Z subscriber globex"]
    for order in range(1, 41):
        lines.append(f"2026-01-01T09:00:00Z order {1 + order % 2} 90")
    for order in range(1, 41):
        lines.append(f"2026-01-02T09:00:00Z register {order} {order:02X} 2026-01-02T00:00:00Z 2026-{1 + order % 3:02}-{5 + order % 20:02}T00:00:00Z")
    request = 0
    for month, day in ((1, 3), (1, 4), (1, 20), (2, 2), (2, 20), (3, 1)):
        for serial in range(day, 41, 9):
            lines.append(f"2026-{month:02}-{day:02}T10:00:00Z request {serial:02X} key-compromise")
        lines.append(f"2026-{month:02}-{day:02}T11:00:00Z crl")
        for request in range(request + 1, request + 4):
            word = "decline" if request % 7 == 0 else "revoke"
            lines.append(f"2026-{month:02}-{day:02}T12:00:00Z {word} {request}")
    return "".join(f"{it}\n" for it in (*lines, "2026-03-03T11:00:00Z crl", "2026-03-20T11:00:00Z crl"))


def made(t, lines, file="ca.db"):
    """Makes a register with the issuer NAME, and runs a script, of which some lines may be refused."""
    t.register(file, name=NAME, key=KEY)
    t.same(t.desk("script", file, given=lines).status, 0, "the script")
    return file


def alter(t, statements, file="ca.db"):
    """Runs statements of SQL on the closed register, without checks of foreign keys."""
    t.note(f"sql {file} {statements}")
    with sqlite3.connect(t.room / file) as db:
        db.executescript("PRAGMA foreign_keys = OFF;" + statements)
    db.close()


def audited(t, file="ca.db", *words):
    """The exit status, standard output and standard error of an audit, which must change and create no file."""
    with t.untouched("the audit"):
        ran = t.desk("audit", file, *words)
    return ran.status, ran.out.decode(), ran.err.decode()


def sound(t, file="ca.db"):
    counts = [t.sql(file, f"SELECT count(*) FROM {table}")[0][0] for table in ("cert", "revocation", "crl")]
    return "sound, {} certificates, {} revoked, {} CRLs\n".format(*counts)


@each({"a first day": FIRST_DAY, "three months": None})
def a_sound_register_is_found_sound(t, lines):
    made(t, lines or days())
    t.same(audited(t), (0, sound(t), ""))


@each(BROKEN)
def a_broken_row_is_reported(t, statements, row):
    made(t, FIRST_DAY)
    alter(t, statements)
    status, printed, told = audited(t)
    t.same((status, told), (1, "broken\n"))
    t.true(printed.startswith(f"broken: {row}") and printed.count("\n") == 1, f"{printed!r} does not name {row}")


FULL = "".join(
    f"{it}\n"
    for it in (
        "2026-01-01T00:00:00Z subscriber acme", "2026-01-01T00:00:00Z order 1 10", "2026-01-01T00:00:00Z register 1 05 2026-01-01T00:00:00Z 2026-01-10T00:00:00Z",
        "2026-01-01T00:00:00Z order 1 10", "2026-01-01T00:00:00Z register 2 06 2026-01-01T00:00:00Z 2026-01-10T00:00:00Z",
        "2026-01-02T00:00:00Z request 05 superseded", "2026-01-02T00:00:00Z request 06 superseded", "2026-01-02T00:00:00Z revoke 1", "2026-01-02T00:00:00Z crl",
    )
)  # fmt: skip


@test
def a_row_is_named_by_its_place_in_its_table(t):
    """The certificates were registered in another order than that of their serial numbers."""
    day = "2026-01-01T00:00:00Z"
    entered = (it for at, serial in enumerate(("0c", "0a", "0b"), 1) for it in ("order 1 10", f"register {at} {serial} {day} 2026-01-10T00:00:00Z"))
    t.register(lines="".join(f"{day} {it}\n" for it in ("subscriber acme", *entered)))
    for at in (1, 2, 3):
        alter(t, f"UPDATE standing SET not_after = not_after + 1 WHERE rowid = {at}")
        t.same(audited(t), (1, f"broken: standing {at}: differs from the records, or a row with a lower serial number is missing\n", "broken\n"))
        alter(t, f"UPDATE standing SET not_after = not_after - 1 WHERE rowid = {at}")


@each({statement: (statement, line) for statement, line in TOLD})
def each_broken_row_has_its_line(t, statement, line):
    t.register(lines=FULL)
    alter(t, statement)
    t.same(audited(t), (1, f"broken: {line}\n", "broken\n"))


@each({f"{statement} of {len(lines.splitlines())} lines": (lines, statement, line) for lines, statement, line in UNREACHED})
def a_state_that_no_run_leaves_is_reported(t, lines, statement, line):
    made(t, lines)
    t.same(audited(t), (0, sound(t), ""))
    alter(t, statement)
    t.same(audited(t), (1, f"broken: {line}\n", "broken\n"))


@each({f"{statement} of {len(lines.splitlines())} lines": (lines, statement) for lines, statement in REACHED})
def a_state_that_a_run_can_leave_is_sound(t, lines, statement):
    made(t, lines)
    alter(t, statement)
    t.same(audited(t), (0, sound(t), ""))


@test(seconds=5)
def each_octet_before_the_signature_counts(t):
    t.register(lines=FULL)
    (der,) = t.sql("ca.db", "SELECT der FROM crl")[0]
    t.same(len(der), 184, "bytes of CRL 1")
    for at in range(len(der) - 20):
        other = der[:at] + bytes([der[at] ^ (1 << at % 8)]) + der[at + 1 :]
        t.sql("ca.db", "UPDATE crl SET der = ?", other)
        t.same(audited(t), (1, "broken: crl 1: its bytes do not encode the CRL that the records give\n", "broken\n"), f"octet {at} is changed")


BOUNDS = {
    "the least of a policy": ("--days", 1, "--crl-life", 1, "--ocsp-life", 28_800, "--cap", 1),
    "the most of a policy": ("--days", 398, "--crl-life", 863_999, "--ocsp-life", 863_999, "--cap", 1_000_000),
}


@each({name: (options,) for name, options in BOUNDS.items()})
def a_policy_s_bounds_are_sound(t, options):
    t.register(lines="2026-01-01T00:00:00Z subscriber acme\n2026-01-01T00:00:00Z crl\n", options=options)
    t.same(audited(t), (0, sound(t), ""))


@test
def a_schedule_of_sixteen_steps_until_9999_is_sound(t):
    t.register(lines=A_CRL)
    steps = [f"{year}-01-01T00:00:00Z={days}" for days, year in enumerate((1970, *range(2026, 2166, 10), 9999), 1)]
    t.same((len(steps), t.done("schedule", "ca.db", *steps)), (16, "schedule set\n"))
    t.same(audited(t), (0, sound(t), ""))


@each(DAMAGED)
def a_broken_reference_or_check_is_damage(t, statements):
    made(t, FIRST_DAY)
    alter(t, statements)
    t.same(audited(t, "ca.db", "--why"), (1, "", "F2 store\n  damaged, or not a database: check the path and the disk (FILE)\n"))


@each(NO_OFFICE)
def an_office_out_of_its_ranges_is_no_register(t, statements):
    made(t, FIRST_DAY)
    alter(t, statements)
    t.same(audited(t), (1, "", "not-a-register\n"))


def values(der, start, end):
    """Yields for each value in DER (X.690 8.1) the offsets of its tag, its contents and its end."""
    while start < end:
        size, contents = der[start + 1], start + 2
        if size >= 128:
            contents += size - 128
            size = int.from_bytes(der[start + 2 : contents], "big")
        yield start, contents, contents + size
        start = contents + size


def parts(der):
    """The offset of one octet in each part of a CRL that has an entry. The last part is the signature."""
    ((_, list_at, list_end),) = values(der, 0, len(der))
    (_, tbs_at, tbs_end), (_, _, algorithm), (bits, _, signature) = values(der, list_at, list_end)
    (_, _, version), (_, _, signed), (_, _, name), (_, _, this_update), (_, _, next_update), revoked, (_, _, number) = values(der, tbs_at, tbs_end)
    _, entry_at, entry_end = next(values(der, revoked[1], revoked[2]))
    (_, _, serial), (_, _, date), (_, _, reason) = values(der, entry_at, entry_end)
    return {
        "list's length": list_at - 1,
        "tbsCertList's length": tbs_at - 1,
        "version": version - 1,
        "algorithm that is signed": signed - 1,
        "issuer's name": name - 1,
        "thisUpdate": this_update - 2,
        "nextUpdate": next_update - 2,
        "first serial number": serial - 1,
        "first revocationDate": date - 2,
        "first reason code": reason - 1,
        "key identifier": der.index(b"\x55\x1d\x23") + 12,
        "CRL number": number - 1,
        "signatureAlgorithm": algorithm - 1,
        "count of unused bits": bits + 2,
        "signature": signature - 1,
    }


@each({"CRL 2 of a first day": (FIRST_DAY, 2), "CRL 5 of three months": (None, 5)}, seconds=3)
def a_changed_bit_of_a_crl_is_reported(t, lines, number):
    made(t, lines or days())
    der, before = (t.sql("ca.db", "SELECT der FROM crl WHERE number = ?", it)[0][0] for it in (number, number - 1))
    breaks = {"no bytes": b"", "bytes of the CRL before": before, "bytes that end before": der[:-1], "a byte more": der + b"\0"}
    for what, place in parts(der).items():
        breaks[f"a bit of the {what}"] = der[:place] + bytes([der[place] ^ 1]) + der[place + 1 :]
    # An audit verifies no signature, so it accepts another one.
    signed = breaks.pop("a bit of the signature")
    for what, other in breaks.items():
        t.sql("ca.db", "UPDATE crl SET der = ? WHERE number = ?", other, number)
        t.same(audited(t), (1, f"broken: crl {number}: its bytes do not encode the CRL that the records give\n", "broken\n"), what)
    t.sql("ca.db", "UPDATE crl SET der = ? WHERE number = ?", signed, number)
    t.same(audited(t), (0, sound(t), ""), "another signature")


@test(seconds=2)
def a_crl_that_is_cut_short(t):
    made(t, FIRST_DAY)
    der = t.sql("ca.db", "SELECT der FROM crl WHERE number = 2")[0][0]
    for end in [*range(0, len(der), 7), len(der) - 21, len(der) - 20, len(der) - 1]:
        t.sql("ca.db", "UPDATE crl SET der = ? WHERE number = 2", der[:end])
        t.same(audited(t), (1, "broken: crl 2: its bytes do not encode the CRL that the records give\n", "broken\n"), f"the first {end} octets")


@test
def other_files_are_reported(t):
    made(t, FIRST_DAY, "newer.db")
    alter(t, "UPDATE office SET version = 4", "newer.db")
    t.same(audited(t, "newer.db"), (1, "", "new-version\n"))
    alter(t, "CREATE TABLE t (a)", "other.db")
    t.same(audited(t, "other.db"), (1, "", "not-a-register\n"))
    (t.room / "text.db").write_text("no database\n" * 100)
    t.same(audited(t, "text.db"), (1, "", "F2 store\n"))
    ran = t.desk("audit", "none.db", "--why")
    t.same((ran.status, ran.out, ran.err), (1, b"", b"F2 store\n  no such file (FILE)\n"))
    t.true(not (t.room / "none.db").exists(), "a file was made")


@test(seconds=2)
def a_large_register_is_found_sound(t):
    records = registers.Records(5_000)
    registers.make(t.room / "ca.db", records, 1)
    t.done("script", "ca.db", given="")
    t.same(audited(t), (0, f"sound, 5000 certificates, {len(records.revocations)} revoked, {len(records.crls)} CRLs\n", ""))


@test(seconds=15)
def a_file_of_more_than_50_mb_is_counted_and_found_sound(t):
    """Another program wrote the sound rows. The desk opens the register, answers queries, accepts commands, and audits it."""
    records = registers.Records(135_000, 60)
    registers.make(t.room / "ca.db", records, 3)
    t.true((t.room / "ca.db").stat().st_size > 50_000_000, "the file has at most 50 MB")
    good, revoked, expired = registers.expected(records)["kept"][0][1:]
    last = program.moment_of(records.last)
    gone = records.revocations[0][0]
    first, end = records.listed()[gone][2], records.listed()[gone][4]
    listing = f"listing first {first}" + (f" last {end}" if end else "")
    asked = ["counts", "order 1 398", f"register 135001 05 {last} {last}", "status 05", f"listing {gone.hex()}"]
    told = t.done("script", "ca.db", given="".join(f"{last} {it}\n" for it in asked)).splitlines()
    t.same(told, [f"good {good} revoked {revoked} expired {expired}", "order 135001", "registered", "good", listing])
    t.same(t.done("audit", "ca.db"), f"sound, 135001 certificates, {revoked} revoked, 60 CRLs\n")


@test(seconds=2)
def a_crl_of_more_than_a_megabyte_is_compared(t):
    """It lists more than 20,000 certificates."""
    records = registers.Records(24_000, 1, every=1)
    registers.make(t.room / "ca.db", records, 3)
    der = records.crls[0][2]
    t.true(len(der) > 1_048_576, f"the CRL has only {len(der)} octets")
    t.same(t.done("audit", "ca.db"), "sound, 24000 certificates, 24000 revoked, 1 CRLs\n")


def with_long_signature(der):
    ((_, start, end),) = values(der, 0, len(der))
    *_, (signature, _, _) = values(der, start, end)
    return registers.tlv(0x30, der[start:signature], registers.tlv(3, bytes(60_001)))


@test
def an_audit_has_the_octets_of_one_crl_in_memory_at_a_time(t):
    """Each of 400 CRLs has a signature of 60,000 octets. Pages of the file that were read stay in memory, so the program may have 95 MB."""
    records = registers.Records(10, 400)
    records.crls = [(number, at, with_long_signature(der)) for number, at, der in records.crls]
    registers.make(t.room / "ca.db", records, 3)
    ran = t.tried("prlimit", "--as=95000000", program.program(), "audit", "ca.db")
    t.same((ran.returncode, ran.stdout, ran.stderr), (0, b"sound, 10 certificates, 2 revoked, 400 CRLs\n", b""))


# An audit only reads

def left_behind(t, file="ca.db"):
    """Makes a register whose last revocation is only in its -wal, because the open desk was killed. Returns the expected audit result."""
    t.register(file, lines=FULL)
    t.clock("2026-01-03T00:00:00Z")
    opened = t.open(file)
    t.same(t.control().ask("revoke 2"), "revoked")
    opened.end(signal.SIGKILL)
    t.true((t.room / f"{file}-wal").stat().st_size > 4096, "the -wal does not have the revocation")
    return "sound, 2 certificates, 2 revoked, 1 CRLs\n"


@test
def rows_in_the_wal_are_found_and_stay_there(t):
    told = left_behind(t)
    for _ in range(2):
        t.same(audited(t), (0, told, ""))
    # Without its -wal, the file does not have the last revocation.
    shutil.copyfile(t.room / "ca.db", t.room / "alone.db")
    t.same(audited(t, "alone.db"), (0, "sound, 2 certificates, 1 revoked, 1 CRLs\n", ""), "the file without its -wal")
    # A command that opens the register for writing finds both revocations.
    t.same(t.done("script", "ca.db", given="2026-01-03T00:00:00Z counts\n"), "good 0 revoked 2 expired 0\n")


@test
def a_log_counts_however_long_and_old_it_is(t):
    """An interrupted checkpoint or a restored copy may leave a -wal that is older than its file; one large transaction leaves a long one."""
    told = left_behind(t)
    log = t.room / "ca.db-wal"
    os.truncate(log, 70_000_000)
    os.utime(log, (0, 0))
    t.same(audited(t), (0, told, ""), "audit")
    t.has(t.done("copy", "ca.db", "copy.db"), "copied ")
    t.same(audited(t, "copy.db"), (0, told, ""), "audit of the copy")
    t.same(t.done("script", "ca.db", given="2026-01-03T00:00:00Z counts\n"), "good 0 revoked 2 expired 0\n")


@test
def a_log_that_may_not_be_read_is_no_missing_one(t):
    left_behind(t)
    os.chmod(t.room / "ca.db", 0o644)
    os.chmod(t.room / "ca.db-wal", 0)
    for words in (("audit", "ca.db"), ("copy", "ca.db", "copy.db"), ("list", "ca.db", "revoked")):
        ran = t.as_nobody(*words)
        t.same((ran.returncode, ran.stdout, ran.stderr), (1, b"", b"F2 store\n"), words[0])


@test
def no_call_writes(t):
    told = left_behind(t)
    ran, count = faults.run(t, ["audit", "ca.db"])
    t.same((ran.status, ran.out.decode()), (0, told))
    t.same({kind: count[kind] for kind in ("sync", "cut", "unlink")}, {"sync": 0, "cut": 0, "unlink": 0})
    _, count = faults.run(t, ["audit", "ca.db"], only="ca.db,ca.db-wal")
    t.same(count["write"], 0, "writes into the register's files")


# The contents of a file, and the line that the audit prints about it.
OTHERS = {
    "no byte": (b"", "not-a-register"),
    "one byte": (b"x", "not-a-register"),
    "three bytes": (b"abc", "F2 store"),
    "a page of zeros": (bytes(4096), "F2 store"),
    "a text": (b"no database\n" * 100, "F2 store"),
    "a text that begins with the letter of SQLite": (b"Serial,notBefore,notAfter\n" * 200, "F2 store"),
    "the head of a database and nothing behind it": (b"SQLite format 3\0\x10\0\x02\x02\0\x40\x20\x20", "F2 store"),
    "a database's first page, cut": (b"SQLite format 3\0\x10\0\x02\x02\0\x40\x20\x20" + bytes(2000), "F2 store"),
}


@each(OTHERS)
def a_file_that_is_no_register_stays_as_it_is(t, contents, line):
    (t.room / "ca.db").write_bytes(contents)
    t.same(audited(t), (1, "", f"{line}\n"))
    # The audit does not change a -wal beside it either.
    (t.room / "ca.db-wal").write_bytes(bytes(40))
    t.same(audited(t), (1, "", f"{line}\n"), "with a -wal beside it")


@test
def no_file_is_created_for_a_missing_register(t):
    t.same(audited(t, "none.db", "--why"), (1, "", "F2 store\n  no such file (FILE)\n"))
    (t.room / "lost.db-wal").write_bytes(bytes(40))
    t.same(audited(t, "lost.db", "--why"), (1, "", "F2 store\n  no such file (FILE)\n"), "a -wal without its register")


@test(seconds=2)
def a_user_without_write_permission_can_audit(t):
    """Neither the files nor their folder are writable. If root runs the tests, a user without rights runs the audit."""
    told = left_behind(t)
    for name in ("ca.db", "ca.db-wal"):
        os.chmod(t.room / name, 0o444)
    t.as_nobody("--version")
    os.chmod(t.room, 0o555)
    t.callback(os.chmod, t.room, 0o755)
    with t.untouched("the audit"):
        ran = t.as_nobody("audit", "ca.db")
    t.same((ran.returncode, ran.stdout.decode(), ran.stderr), (0, told, b""))


@test(seconds=2)
def a_file_system_that_is_read_only(t):
    if os.geteuid():
        raise Skipped("a file system of its own wants root")
    need("mount")
    told = left_behind(t)
    folder = t.room / "disk"
    folder.mkdir()
    if subprocess.run(["mount", "-t", "tmpfs", "tmpfs", folder], capture_output=True).returncode:
        raise Skipped("no file system can be mounted here")
    t.callback(subprocess.run, ["umount", folder], check=True)
    for name in ("ca.db", "ca.db-wal"):
        shutil.copyfile(t.room / name, folder / name)
    subprocess.run(["mount", "-o", "remount,ro", folder], check=True)
    t.same(audited(t, "disk/ca.db"), (0, told, ""))


@test(seconds=4)
def eight_at_once_all_succeed(t):
    records = registers.Records(2_000)
    registers.make(t.room / "ca.db", records, 3)
    words = [program.program(), "audit", "ca.db"]
    with t.untouched("eight audits"):
        begun = [subprocess.Popen(words, cwd=t.room, stdout=subprocess.PIPE, stderr=subprocess.PIPE, env=program.environment()) for _ in range(8)]
        ended = [(*it.communicate(timeout=program.LONGEST), it.returncode) for it in begun]
    told = f"sound, 2000 certificates, {len(records.revocations)} revoked, {len(records.crls)} CRLs\n".encode()
    t.same(ended, [(told, b"", 0)] * 8)


@test
def an_open_register_is_in_use(t):
    t.register(lines=FULL)
    t.open()
    t.same(audited(t, "ca.db", "--why"), (1, "", "F2 store\n  in use by another program (FILE)\n"))
