"""The migration of a register of version 1 or 2 fails: the disk or an allocation fails, or the process is killed, and unsynced writes may be lost.
The register then has the old version or the new one, as a whole. The next command migrates it if needed, and succeeds."""

import contextlib
import sqlite3

from lib import faults
from lib.faults import LIFE, MEMORY, PAST_END, STORE, Course
from lib.trial import each

FILES = "ca.db,ca.db-wal"
FIRST = """
CREATE TABLE office (one INTEGER PRIMARY KEY CHECK (one = 1), version INTEGER NOT NULL, name BLOB NOT NULL, pubkey BLOB NOT NULL, days INTEGER NOT NULL,
    crl_life INTEGER NOT NULL, ocsp_life INTEGER NOT NULL, cap INTEGER NOT NULL, last_at INTEGER NOT NULL) STRICT;
CREATE TABLE subscriber (id INTEGER PRIMARY KEY, name TEXT NOT NULL UNIQUE) STRICT;
CREATE TABLE orders (id INTEGER PRIMARY KEY, subscriber INTEGER NOT NULL REFERENCES subscriber (id), days INTEGER NOT NULL) STRICT;
CREATE TABLE cert (serial BLOB NOT NULL PRIMARY KEY, order_id INTEGER NOT NULL UNIQUE REFERENCES orders (id), not_before INTEGER NOT NULL,
    not_after INTEGER NOT NULL) STRICT;
CREATE TABLE request (id INTEGER PRIMARY KEY, serial BLOB NOT NULL REFERENCES cert (serial), ground INTEGER NOT NULL, received INTEGER NOT NULL,
    declined INTEGER NOT NULL) STRICT;
CREATE TABLE revocation (serial BLOB NOT NULL PRIMARY KEY REFERENCES cert (serial), at INTEGER NOT NULL, reason INTEGER NOT NULL,
    request INTEGER NOT NULL UNIQUE REFERENCES request (id), first_crl INTEGER NOT NULL) STRICT;
CREATE TABLE crl (number INTEGER PRIMARY KEY, this_update INTEGER NOT NULL, der BLOB NOT NULL) STRICT;
"""
SECOND = """
CREATE TABLE standing (serial BLOB NOT NULL PRIMARY KEY REFERENCES cert (serial), not_after INTEGER NOT NULL, state TEXT NOT NULL) STRICT;
CREATE TABLE kept (one INTEGER PRIMARY KEY CHECK (one = 1), n_good INTEGER NOT NULL, n_revoked INTEGER NOT NULL, n_expired INTEGER NOT NULL) STRICT;
CREATE TABLE listed (serial BLOB NOT NULL PRIMARY KEY REFERENCES revocation (serial), at INTEGER NOT NULL, reason INTEGER NOT NULL, first_crl INTEGER NOT NULL,
    not_after INTEGER NOT NULL, last_listed INTEGER) STRICT;
"""
RECORDS = ("office", "subscriber", "orders", "cert", "request", "revocation", "crl")
# The lines after the migration. Their replies follow from the records, even if the derived rows were wrong.
GOES_ON = [(f"{PAST_END} listing 05", "listing first 1 last 2"), (f"{PAST_END} crl", "crl 4 entries 0"), (f"{PAST_END} counts", "good 0 revoked 1 expired 0")]
SOUND = (1, 1, 4)
VERSIONS = (1, 2)


def one_line(statements):
    """The statements as the older programs wrote them, each on one line: the program compares these texts when it opens a register."""
    return [" ".join(it.split()) for it in statements.split(";") if it.strip()]


def older(t, version):
    """Makes a register of an older version from the records of a new one, whose certificate was revoked and listed. In version 2 all its derived
    rows are wrong. Returns its path, and the tables of the new one."""
    newer = faults.tables(t.register("newer.db", "".join(f"{asked}\n" for asked, _ in LIFE)))
    with contextlib.closing(sqlite3.connect(t.room / "older.db")) as database:
        database.execute("PRAGMA journal_mode = DELETE")
        for it in one_line(FIRST) + (one_line(SECOND) if version == 2 else []):
            database.execute(it)
        for table in RECORDS:
            for row in newer[table]:
                row = (row[0], version, *row[2:]) if table == "office" else row
                database.execute(f"INSERT INTO {table} VALUES ({', '.join('?' * len(row))})", row)
        if version == 2:
            database.execute("INSERT INTO standing SELECT serial, not_after, 'G' FROM cert")
            database.execute("INSERT INTO kept VALUES (1, 7, 7, 7)")
        database.commit()
    return t.room / "older.db", newer


def course_of(t, version):
    base, newer = older(t, version)
    course = Course(t, base, GOES_ON, SOUND)
    t.same(course.states[0]["office"][0][1], version, "the version before the migration")
    t.same(course.states[1], newer, "the tables after the migration, in comparison with the new register")
    return course


def last_of(t, course, kind, **told):
    faults.copy(course.base, t.room / "ca.db")
    last = faults.total(t, ["script", "ca.db"], kind, "".join(f"{asked}\n" for asked, _ in course.lines), **told)
    t.true(last > 1, f"only {last} calls of the kind {kind}")
    return last


LOST_WRITES = {
    "nothing is lost": {},
    "what was not synced is lost": {"lose": 1},
    "some of what was not synced is lost": {"lose": 7},
    "other of what was not synced is lost": {"lose": 11},
    "the write is torn and some is lost": {"torn": 1, "lose": 3},
    "new files are lost": {"lose": 1, "lose_files": 1},
}


@each({f"version {version}, {name}": (version, told) for version in VERSIONS for name, told in LOST_WRITES.items()}, seconds=5)
def it_stops(t, version, told):
    course = course_of(t, version)
    for at in range(1, last_of(t, course, "steps", only=FILES) + 1):
        t.true(course.round(None, 1, f"stopped at step {at}", only=FILES, stop=at, **told), f"the process was not stopped at step {at}")


FAILURES = {"write": "", "sync": "", "cut": "", "read": "", "open": "", "stat": "", "lock": "", "every write": "+", "every sync": "+", "every read": "+"}


@each({f"version {version}, {name}": (version, name.split()[-1], how) for version in VERSIONS for name, how in FAILURES.items()}, seconds=4)
def the_store_fails(t, version, kind, how):
    course = course_of(t, version)
    for at in faults.places(last_of(t, course, kind, only=FILES), 60, 7):
        t.true(course.round(STORE, 1, f"{kind} {at}{how}", only=FILES, fail=f"{kind}:{at}{how}"), f"the fault at {kind} {at} did not occur")


PARTS = 4


@each({f"version {version}, part {part}": (version, part) for version in VERSIONS for part in range(PARTS)}, seconds=15)
def memory_is_refused(t, version, part):
    course = course_of(t, version)
    # Each of the first 300 allocations fails in a run, and then every eleventh.
    for at in faults.places(last_of(t, course, "alloc"), 300, 11)[part::PARTS]:
        t.true(course.round(MEMORY, 1, f"allocation {at}", fail=f"alloc:{at}"), f"allocation {at} did not fail")
