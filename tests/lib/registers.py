"""Registers of any size that Python's sqlite3 makes, as a program of version 1, 2 or 3 would, and their expected contents after the
program has opened them."""

import hashlib
import random
import sqlite3
import time
from functools import cache

from .program import KEY as KEY_HEX
from .program import NAME

KEY = bytes.fromhex(KEY_HEX)
CRL_LIFE = 691_200
DAY = 86_400
START = 1_767_225_600  # 2026-01-01T00:00:00Z

FIRST = """
CREATE TABLE office (
    one INTEGER PRIMARY KEY CHECK (one = 1),
    version INTEGER NOT NULL,
    name BLOB NOT NULL,
    pubkey BLOB NOT NULL,
    days INTEGER NOT NULL,
    crl_life INTEGER NOT NULL,
    ocsp_life INTEGER NOT NULL,
    cap INTEGER NOT NULL,
    last_at INTEGER NOT NULL
) STRICT;
CREATE TABLE subscriber (
    id INTEGER PRIMARY KEY,
    name TEXT NOT NULL UNIQUE
) STRICT;
CREATE TABLE orders (
    id INTEGER PRIMARY KEY,
    subscriber INTEGER NOT NULL REFERENCES subscriber (id),
    days INTEGER NOT NULL
) STRICT;
CREATE TABLE cert (
    serial BLOB NOT NULL PRIMARY KEY,
    order_id INTEGER NOT NULL UNIQUE REFERENCES orders (id),
    not_before INTEGER NOT NULL,
    not_after INTEGER NOT NULL
) STRICT;
CREATE TABLE request (
    id INTEGER PRIMARY KEY,
    serial BLOB NOT NULL REFERENCES cert (serial),
    ground INTEGER NOT NULL,
    received INTEGER NOT NULL,
    declined INTEGER NOT NULL
) STRICT;
CREATE TABLE revocation (
    serial BLOB NOT NULL PRIMARY KEY REFERENCES cert (serial),
    at INTEGER NOT NULL,
    reason INTEGER NOT NULL,
    request INTEGER NOT NULL UNIQUE REFERENCES request (id),
    first_crl INTEGER NOT NULL
) STRICT;
CREATE TABLE crl (
    number INTEGER PRIMARY KEY,
    this_update INTEGER NOT NULL,
    der BLOB NOT NULL
) STRICT;
"""

SECOND = """
CREATE TABLE standing (
    serial BLOB NOT NULL PRIMARY KEY REFERENCES cert (serial),
    not_after INTEGER NOT NULL,
    state TEXT NOT NULL
) STRICT;
CREATE TABLE kept (
    one INTEGER PRIMARY KEY CHECK (one = 1),
    n_good INTEGER NOT NULL,
    n_revoked INTEGER NOT NULL,
    n_expired INTEGER NOT NULL
) STRICT;
CREATE TABLE listed (
    serial BLOB NOT NULL PRIMARY KEY REFERENCES revocation (serial),
    at INTEGER NOT NULL,
    reason INTEGER NOT NULL,
    first_crl INTEGER NOT NULL,
    not_after INTEGER NOT NULL,
    last_listed INTEGER
) STRICT;
"""

THIRD = """
CREATE TABLE longest (
    from_at INTEGER PRIMARY KEY,
    days INTEGER NOT NULL
) STRICT;
CREATE INDEX crl_at ON crl (number, this_update);
CREATE INDEX standing_due ON standing (state, not_after);
"""

RECORDS = ["subscriber", "orders", "cert", "request", "revocation", "crl"]


def tlv(tag, *parts):
    """Returns a value in DER (X.690 8.1)."""
    contents = b"".join(parts)
    size = len(contents)
    octets = size.to_bytes((size.bit_length() + 7) // 8, "big")
    return bytes([tag]) + (bytes([size]) if size < 128 else bytes([128 + len(octets)]) + octets) + contents


def utc(seconds):
    """Returns a UTCTime (RFC 5280 5.1.2.4)."""
    return tlv(0x17, time.strftime("%y%m%d%H%M%SZ", time.gmtime(seconds)).encode())


def extension(identifier, value):
    return tlv(0x30, tlv(6, identifier), tlv(4, value))


def integer(octets):
    """Returns an INTEGER in DER, from its octets, the highest first."""
    digits = octets.lstrip(b"\0")
    return tlv(2, b"\0" + digits if digits[0] >= 128 else digits)


@cache
def entry(serial, at, reason):
    """Returns one of the revokedCertificates (RFC 5280 5.1.2.6)."""
    return tlv(0x30, integer(serial), utc(at), tlv(0x30, extension(b"\x55\x1d\x15", tlv(10, bytes([reason])))))


def sealed(number, this_update, entries):
    """Returns a CertificateList (RFC 5280 5.1) of these entries, with the SHA-1 digest of its tbsCertList in the place of a signature."""
    return sealed_with(number, this_update, b"".join(entry(*row) for row in sorted(entries)))


def sealed_with(number, this_update, written, identifier=None):
    """Returns a CertificateList as `sealed` does, of entries that are written already, with a key identifier of the issuer's own if one is given."""
    algorithm = bytes.fromhex("300906052b0e03021a0500")
    revoked = tlv(0x30, written) if written else b""
    identifier = tlv(0x30, tlv(0x80, identifier or hashlib.sha1(KEY).digest()))
    counted = integer(number.to_bytes(8, "big"))
    extensions = tlv(0xA0, tlv(0x30, extension(b"\x55\x1d\x23", identifier), extension(b"\x55\x1d\x14", counted)))
    name = bytes.fromhex(NAME)
    tbs = tlv(0x30, tlv(2, b"\1"), algorithm, name, utc(this_update), utc(this_update + CRL_LIFE), revoked, extensions)
    return tlv(0x30, tbs, algorithm, tlv(3, b"\0", hashlib.sha1(tbs).digest()))


def on_crl(listed, number):
    """The entries of CRL `number` from these rows: serial number, moment and reason."""
    return [(serial, row[0], row[1]) for serial, row in listed.items() if row[2] <= number and (row[4] is None or number <= row[4])]


class Records:
    """Sound records: a CRL each day, certificates that expire on some day, and one in `every` of them revoked before its end."""

    def __init__(self, certificates, crls=40, every=5):
        choice = random.Random(certificates)
        self.last = START + crls * DAY + 1
        self.updates = [(n, START + n * DAY) for n in range(1, crls + 1)]
        self.certs = []
        for order in range(1, certificates + 1):
            serial = (choice.getrandbits(158) + 1).to_bytes(20, "big")
            self.certs.append((serial, order, START, START + choice.randint(1, 60 * DAY)))
        ends = {cert[0]: cert[3] for cert in self.certs}
        gone = choice.sample(self.certs, certificates // every)
        moments = sorted((choice.randint(START, min(cert[3], self.last)), cert[0]) for cert in gone)
        self.requests = [(id, serial, 6, at, 0) for id, (at, serial) in enumerate(moments, 1)]
        self.revocations = []
        for id, (at, serial) in enumerate(moments, 1):
            first = 1 + sum(1 for _, update in self.updates if update <= at)
            self.revocations.append((serial, at, 4, id, first))
        self.ends = ends
        listed = self.listed()
        self.crls = [(n, update, sealed(n, update, on_crl(listed, n))) for n, update in self.updates]

    def standing(self):
        revoked = {row[0] for row in self.revocations}
        letters = {}
        for serial, _, _, not_after in self.certs:
            letters[serial] = "R" if serial in revoked else "X" if not_after < self.last else "G"
        return letters

    def listed(self):
        rows = {}
        for serial, at, reason, _, first in self.revocations:
            not_after = self.ends[serial]
            last = next((n for n, update in self.updates if n >= first and update > not_after), None)
            rows[serial] = (at, reason, first, not_after, last)
        return rows


def make(path, records, version):
    """Makes a register of a version. In version 2 half of its derived rows are missing, and the other half are wrong."""
    with sqlite3.connect(path) as db:
        # The statements are on one line, as the program wrote them, since the file keeps their text.
        texts = " ".join("".join((FIRST, SECOND, THIRD)[:version]).split()).replace("( ", "(").replace(" )", ")")
        db.executescript("PRAGMA journal_mode = DELETE; PRAGMA cache_size = -200000;" + texts)
        office = (1, version, bytes.fromhex(NAME), KEY, 398, 691200, 345600, 1000000, records.last)
        db.execute("INSERT INTO office VALUES (?, ?, ?, ?, ?, ?, ?, ?, ?)", office)
        db.execute("INSERT INTO subscriber VALUES (1, 'acme')")
        db.executemany("INSERT INTO orders VALUES (?, 1, 398)", [(cert[1],) for cert in records.certs])
        db.executemany("INSERT INTO cert VALUES (?, ?, ?, ?)", records.certs)
        db.executemany("INSERT INTO request VALUES (?, ?, ?, ?, ?)", records.requests)
        db.executemany("INSERT INTO revocation VALUES (?, ?, ?, ?, ?)", records.revocations)
        db.executemany("INSERT INTO crl VALUES (?, ?, ?)", records.crls)
        if version == 2:
            rows = [(serial, records.ends[serial], letter) for serial, letter in records.standing().items()]
            db.executemany("INSERT INTO standing VALUES (?, ?, ?)", rows[::2])
            rows = [(serial, *row[:4], 1) for serial, row in records.listed().items()]
            db.executemany("INSERT INTO listed VALUES (?, ?, ?, ?, ?, ?)", rows[::2])
        elif version == 3:
            put_beside(db, records)
    db.close()


def make_revoked(path, count, key, every=5):
    """Makes a register with this key, in which `count` certificates, one in `every`, are revoked, and no CRL was issued."""
    make(path, Records(every * count, 0, every), 3)
    with sqlite3.connect(path) as db:
        db.execute("UPDATE office SET pubkey = ?", (bytes.fromhex(key),))
    db.close()


def put_beside(db, records):
    """Inserts the derived rows of version 3, in the order of the records."""
    letters, listed = records.standing(), records.listed()
    db.executemany("INSERT INTO standing VALUES (?, ?, ?)", [(cert[0], cert[3], letters[cert[0]]) for cert in records.certs])
    db.executemany("INSERT INTO listed VALUES (?, ?, ?, ?, ?, ?)", [(row[0], *listed[row[0]]) for row in records.revocations])
    for table in ("kept", "longest"):
        for row in expected(records)[table]:
            db.execute(f"INSERT INTO {table} VALUES ({', '.join('?' * len(row))})", row)


def rows_of(path):
    """The rows of the records' tables, with their rowids."""
    with sqlite3.connect(path) as db:
        rows = {table: db.execute(f"SELECT rowid, * FROM {table} ORDER BY rowid").fetchall() for table in RECORDS}
    db.close()
    return rows


def schema_of(path):
    with sqlite3.connect(path) as db:
        rows = db.execute("SELECT type, name, tbl_name, sql FROM sqlite_schema").fetchall()
    db.close()
    return rows


def expected(records):
    """The expected derived rows of a register of version 3: office, schedule, letters, counts, listings."""
    letters = records.standing()
    return {
        "office": [(1, 3, bytes.fromhex(NAME), KEY, 398, 691200, 345600, 1000000, records.last)],
        "longest": [(0, 398)],
        "standing": sorted((serial, records.ends[serial], letter) for serial, letter in letters.items()),
        "kept": [(1, *(sum(1 for letter in letters.values() if letter == one) for one in "GRX"))],
        "listed": sorted((serial, *row) for serial, row in records.listed().items()),
    }


def beside(path):
    """The derived rows of a file, and the results of SQLite's checks of the file."""
    with sqlite3.connect(path) as db:
        found = {table: sorted(db.execute(f"SELECT * FROM {table}").fetchall()) for table in ("office", "longest", "standing", "kept", "listed")}
        sound = (db.execute("PRAGMA integrity_check").fetchall(), db.execute("PRAGMA foreign_key_check").fetchall())
    db.close()
    return found, sound
