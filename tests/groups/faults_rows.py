"""Another program has changed a register's file. A command that reads a row that `desk` never writes reports `F2 store` and changes nothing. `desk`
does not open a file that is no register, and leaves it as it was."""

import contextlib
import sqlite3

from lib import faults, program, registers
from lib.faults import DAY_1, DAY_2, PAST_END, REGISTERED
from lib.trial import each, test

FULL = "".join(f"{asked}\n" for asked, _ in REGISTERED) + (
    f"{DAY_1} order 1 10\n{DAY_1} register 2 06 {DAY_1} 2026-01-10T00:00:00Z\n{DAY_2} request 05 superseded\n{DAY_2} request 06 asked\n{DAY_2} revoke 1\n{DAY_2} crl\n"
)


def altered(t, base, statements):
    """Copies a register to ca.db, or creates an empty database there if `base` is None, and runs these statements in it."""
    faults.copy(base, t.room / "ca.db")
    with contextlib.closing(sqlite3.connect(t.room / "ca.db")) as it:
        it.executescript(statements)
    t.note(f"sql ca.db {statements}")


# Statements, and the line that reads the changed row.
ROWS = {
    "a serial number of 19 bytes": (
        "INSERT INTO orders VALUES (3, 1, 10); INSERT INTO cert VALUES (x'00000000000000000000000000000000000007', 3, 1767225600, 1768003200)",
        f"{DAY_2} register 3 08 {DAY_2} 2026-01-10T00:00:00Z",
    ),
    "a notBefore of none": ("UPDATE cert SET not_before = -1", f"{DAY_2} register 1 05 {DAY_1} 2026-01-10T00:00:00Z"),
    "a notAfter of none": ("UPDATE cert SET not_after = -1", f"{DAY_2} register 1 05 {DAY_1} 2026-01-10T00:00:00Z"),
    "a receipt past the clock's end": ("UPDATE request SET received = 253401436800", f"{DAY_2} revoke 2"),
    "ground 12": ("UPDATE request SET ground = 12", f"{DAY_2} revoke 2"),
    "ground 0": ("UPDATE request SET ground = 0", f"{DAY_2} decline 2"),
    "declined by 2": ("UPDATE request SET declined = 2", f"{DAY_2} decline 2"),
    "a revocation past the clock's end": ("UPDATE revocation SET at = 253401436800", f"{DAY_2} status 05"),
    "reason 256": ("UPDATE revocation SET reason = 256", f"{DAY_2} status 05"),
    "fewer good ones than end, counted": ("UPDATE kept SET n_good = 0", f"{PAST_END} counts"),
    "fewer good ones than end, entered": ("UPDATE kept SET n_good = 0", f"{PAST_END} subscriber b"),
    "no counts, entered": ("DELETE FROM kept", f"{PAST_END} subscriber b"),
    "no counts, counted": ("DELETE FROM kept", f"{PAST_END} counts"),
    "a letter that is not that of the row": ("UPDATE standing SET state = 'X'", f"{DAY_2} revoke 2"),
    "a CRL number of 19 digits": ("UPDATE crl SET number = 1000000000000000000", f"{DAY_2} next-crl"),
}


@each(ROWS, seconds=1)
def a_row_that_no_register_writes(t, statements, line):
    altered(t, t.register("base.db", FULL), statements)
    before = faults.tables(t.room / "ca.db")
    ran = t.desk("script", "ca.db", given=f"{line}\n")
    t.same((ran.status, ran.out, ran.err), (0, b"F2 store\n", b""))
    t.same(faults.tables(t.room / "ca.db"), before, "the tables")


@test
def the_latest_crl_is_met_by_opening(t):
    altered(t, t.register("base.db", FULL), "UPDATE crl SET this_update = 253401436800")
    ran = t.desk("script", "ca.db", given=f"{DAY_2} next-crl\n")
    t.same((ran.status, ran.out, ran.err), (1, b"", b"F2 store\n"))


NOT, NEW = "not-a-register", "new-version"
# Statements, and the resulting line on standard error; None if `desk` opens the file.
OPENED = [
    ("UPDATE office SET days = 0", None),
    ("UPDATE office SET last_at = 253401436799", None),
    ("UPDATE office SET crl_life = 863999", None),
    ("DELETE FROM longest WHERE from_at > 0", None),
    ("UPDATE office SET version = 4", NEW),
    ("UPDATE office SET version = 2", NOT),
    ("UPDATE office SET version = 1", NOT),
    ("UPDATE office SET version = 2, name = x''", NOT),
    ("UPDATE office SET version = 4; DROP TABLE longest", NEW),
    ("UPDATE office SET version = 0", NOT),
    ("UPDATE office SET version = -1", NOT),
    ("DELETE FROM office", NOT),
    ("DROP TABLE office", NOT),
    ("DROP TABLE office; CREATE TABLE office (version INTEGER); INSERT INTO office VALUES (3), (3)", NOT),
    ("DROP TABLE office; CREATE TABLE office (version TEXT); INSERT INTO office VALUES ('3')", NOT),
    ("UPDATE office SET last_at = 253401436800", NOT),
    ("UPDATE office SET last_at = -1", NOT),
    ("UPDATE office SET name = x'3100'", NOT),
    ("UPDATE office SET pubkey = x''", NOT),
    ("UPDATE office SET crl_life = 864000", NOT),
    ("UPDATE office SET ocsp_life = 28799", NOT),
    ("UPDATE office SET cap = 0", NOT),
    ("UPDATE longest SET days = 399 WHERE from_at = 0", NOT),
    ("UPDATE longest SET from_at = 1 WHERE from_at = 0", NOT),
    ("INSERT INTO longest VALUES (253402300800, 1)", NOT),
    ("DELETE FROM longest", NOT),
    ("DROP TABLE longest", NOT),
    # A table, index or view too many, one too few, or one that differs from a register's.
    ("CREATE TABLE note (title TEXT) STRICT", NOT),
    ("CREATE VIEW note AS SELECT 1 AS one", NOT),
    ("CREATE INDEX of_crl ON crl (this_update)", NOT),
    ("DROP INDEX crl_at", NOT),
    ("DROP TABLE kept", NOT),
    (
        "DROP TABLE kept; CREATE TABLE counted (one INTEGER PRIMARY KEY CHECK (one = 1), n_good INTEGER NOT NULL, n_revoked INTEGER NOT NULL, "
        "n_expired INTEGER NOT NULL) STRICT",
        NOT,
    ),
    ("DROP INDEX standing_due; CREATE INDEX standing_due ON standing (not_after, state)", NOT),
]
# Drops the last table of a register and its two indexes, and creates them again in their order.
AGAIN = (
    "DROP INDEX standing_due; DROP INDEX crl_at; DROP TABLE longest; CREATE TABLE longest (from_at INTEGER PRIMARY KEY, days INTEGER NOT NULL{}){}; "
    "CREATE INDEX crl_at ON crl (number, this_update); CREATE INDEX standing_due ON standing (state, not_after); INSERT INTO longest VALUES (0, 398{})"
)
OPENED += [
    (AGAIN.format(", note TEXT", " STRICT", ", NULL"), NOT),
    (AGAIN.format("", "", ""), NOT),
    (AGAIN.format("", " STRICT", ""), None),
]


@test(seconds=3)
def what_is_opened(t):
    base = t.register("base.db", "".join(f"{asked}\n" for asked, _ in REGISTERED))
    for statements, told in OPENED:
        altered(t, base, statements)
        before = faults.tables(t.room / "ca.db")
        # One of the rows of OPENED sets the last accepted moment to 9999-12-21T23:59:59Z, so this line has that moment.
        ran = t.desk("script", "ca.db", given="9999-12-21T23:59:59Z listing 05\n")
        wanted = (0, b"listing none\n", b"") if told is None else (1, b"", f"{told}\n".encode())
        t.same((ran.status, ran.out, ran.err), wanted, statements)
        t.same(faults.tables(t.room / "ca.db"), before, f"the tables: {statements}")


# Statements in an older register that `desk` then does not migrate, and the resulting line on standard error.
OLDER = [
    ("UPDATE office SET days = 0", NOT),
    ("UPDATE office SET days = 399", NOT),
    ("UPDATE office SET name = x''", NOT),
    ("UPDATE office SET cap = 0", NOT),
    ("UPDATE office SET last_at = 253401436800", NOT),
    ("CREATE TABLE longest (from_at INTEGER PRIMARY KEY, days INTEGER NOT NULL) STRICT", NOT),
    ("CREATE INDEX crl_at ON crl (number, this_update)", NOT),
    ("CREATE VIEW note AS SELECT 1 AS one", NOT),
    ("DROP TABLE crl", NOT),
    ("UPDATE cert SET not_after = -1", "F2 store"),
    ("UPDATE crl SET this_update = 253401436800", "F2 store"),
    ("UPDATE revocation SET reason = 256", "F2 store"),
    ("UPDATE revocation SET at = 253401436800", "F2 store"),
    ("UPDATE office SET version = 3 - version", NOT),
]


@each({"version 1": 1, "version 2": 2}, seconds=2)
def what_is_not_made_newer(t, version):
    registers.make(t.room / "base.db", registers.Records(10, 4), version)
    for statements, told in OLDER:
        altered(t, t.room / "base.db", statements)
        before = faults.tables(t.room / "ca.db")
        ran = t.desk("script", "ca.db", given=f"{PAST_END} counts\n")
        t.same((ran.status, ran.out, ran.err), (1, b"", f"{told}\n".encode()), statements)
        t.same(faults.tables(t.room / "ca.db"), before, f"the tables: {statements}")


WORDS = ("--name", program.NAME, "--key", program.KEY)


@each({"a table": "CREATE TABLE note (title TEXT) STRICT", "an index": "CREATE TABLE note (title TEXT); CREATE INDEX of_title ON note (title)",
       "a view": "CREATE VIEW note AS SELECT 1 AS one"}, seconds=1)  # fmt: skip
def a_register_is_made_in_an_empty_database_alone(t, statements):
    altered(t, None, statements)
    before = t.sql("ca.db", "SELECT sql FROM sqlite_schema")
    ran = t.desk("init", "ca.db", *WORDS)
    t.same((ran.status, ran.out, ran.err), (1, b"", b"not-empty\n"))
    t.same(t.sql("ca.db", "SELECT sql FROM sqlite_schema"), before, "the schema after `desk init`")


@test
def nothing_is_no_register(t):
    (t.room / "ca.db").write_bytes(b"")
    for words in (["script", "ca.db"], ["crl", "ca.db"], ["audit", "ca.db"]):
        ran = t.desk(*words)
        t.same((ran.status, ran.out, ran.err), (1, b"", b"not-a-register\n"), words[0])


SCHEMA = [
    "CREATE TABLE office (one INTEGER PRIMARY KEY CHECK (one = 1), version INTEGER NOT NULL, name BLOB NOT NULL, pubkey BLOB NOT NULL, days INTEGER NOT NULL, "
    "crl_life INTEGER NOT NULL, ocsp_life INTEGER NOT NULL, cap INTEGER NOT NULL, last_at INTEGER NOT NULL) STRICT",
    "CREATE TABLE subscriber (id INTEGER PRIMARY KEY, name TEXT NOT NULL UNIQUE) STRICT",
    "CREATE TABLE orders (id INTEGER PRIMARY KEY, subscriber INTEGER NOT NULL REFERENCES subscriber (id), days INTEGER NOT NULL) STRICT",
    "CREATE TABLE cert (serial BLOB NOT NULL PRIMARY KEY, order_id INTEGER NOT NULL UNIQUE REFERENCES orders (id), not_before INTEGER NOT NULL, "
    "not_after INTEGER NOT NULL) STRICT",
    "CREATE TABLE request (id INTEGER PRIMARY KEY, serial BLOB NOT NULL REFERENCES cert (serial), ground INTEGER NOT NULL, received INTEGER NOT NULL, "
    "declined INTEGER NOT NULL) STRICT",
    "CREATE TABLE revocation (serial BLOB NOT NULL PRIMARY KEY REFERENCES cert (serial), at INTEGER NOT NULL, reason INTEGER NOT NULL, "
    "request INTEGER NOT NULL UNIQUE REFERENCES request (id), first_crl INTEGER NOT NULL) STRICT",
    "CREATE TABLE crl (number INTEGER PRIMARY KEY, this_update INTEGER NOT NULL, der BLOB NOT NULL) STRICT",
    "CREATE TABLE standing (serial BLOB NOT NULL PRIMARY KEY REFERENCES cert (serial), not_after INTEGER NOT NULL, state TEXT NOT NULL) STRICT",
    "CREATE TABLE kept (one INTEGER PRIMARY KEY CHECK (one = 1), n_good INTEGER NOT NULL, n_revoked INTEGER NOT NULL, n_expired INTEGER NOT NULL) STRICT",
    "CREATE TABLE listed (serial BLOB NOT NULL PRIMARY KEY REFERENCES revocation (serial), at INTEGER NOT NULL, reason INTEGER NOT NULL, "
    "first_crl INTEGER NOT NULL, not_after INTEGER NOT NULL, last_listed INTEGER) STRICT",
    "CREATE TABLE longest (from_at INTEGER PRIMARY KEY, days INTEGER NOT NULL) STRICT",
    "CREATE INDEX crl_at ON crl (number, this_update)",
    "CREATE INDEX standing_due ON standing (state, not_after)",
]


@test
def the_schema_of_version_3(t):
    t.register()
    t.same([row[0] for row in t.sql("ca.db", "SELECT sql FROM sqlite_schema WHERE sql IS NOT NULL")], SCHEMA)
