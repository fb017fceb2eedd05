"""The first command that opens a register of version 1 or 2 migrates it to version 3. It keeps the records, and computes the derived rows anew from
them. A kill or running out of memory during the migration leaves the old or the new version."""

from functools import cache

from lib import faults, program, registers
from lib.program import moment_of
from lib.trial import each, test

VERSIONS = {"version 1": 1, "version 2": 2}


@cache
def records_of(size):
    return registers.Records(size)


def counts_line(t, records):
    """The line that asks for the counts at the last moment, and its reply."""
    good, revoked, expired = registers.expected(records)["kept"][0][1:]
    return f"{moment_of(records.last)} counts\n", f"good {good} revoked {revoked} expired {expired}\n"


def made(t, size, version, file="ca.db"):
    records = records_of(size)
    registers.make(t.room / file, records, version)
    return records


def is_newer(t, records, before, file="ca.db", what=""):
    """Checks that the file is a register of version 3 with these records, and with the derived rows that follow from them."""
    t.same(registers.rows_of(t.room / file), before, f"the records{what}")
    found, sound = registers.beside(t.room / file)
    t.same(found, registers.expected(records), f"the derived rows{what}")
    t.same(sound, ([("ok",)], []), f"the results of SQLite's checks of the file{what}")


@each(VERSIONS, seconds=5)
def an_older_register_is_made_newer_by_the_first_command(t, version):
    t.register("new.db")
    records = made(t, 1_000, version)
    before = registers.rows_of(t.room / "ca.db")
    line, reply = counts_line(t, records)
    t.same(t.done("script", "ca.db", given=line), reply, "the counts")
    is_newer(t, records, before)
    t.same(registers.schema_of(t.room / "ca.db"), registers.schema_of(t.room / "new.db"), "the schema, which is that of a new register")
    t.same(t.done("script", "ca.db", given=line), reply, "the counts of a second run")
    t.same(t.done("audit", "ca.db"), f"sound, 1000 certificates, {len(records.revocations)} revoked, {len(records.crls)} CRLs\n")
    for number in (1, 2, len(records.crls)):
        t.same(t.desk("crl", "ca.db", "--number", number).out, records.crls[number - 1][2], f"CRL {number}")


@each(VERSIONS, seconds=2)
def one_without_a_crl_is_made_newer(t, version):
    """Its revocations wait for CRL 1, which lists them all."""
    records = registers.Records(50, 0)
    registers.make(t.room / "ca.db", records, version)
    before = registers.rows_of(t.room / "ca.db")
    line, reply = counts_line(t, records)
    t.same(t.done("script", "ca.db", given=line), reply, "the counts")
    is_newer(t, records, before)
    t.same(t.done("script", "ca.db", given=f"{moment_of(records.last)} crl\n"), f"crl 1 entries {len(records.revocations)}\n")


@each(VERSIONS, seconds=3)
def one_of_more_than_ten_thousand_revocations_is_made_newer(t, version):
    records = registers.Records(10_100, 1, every=1)
    registers.make(t.room / "ca.db", records, version)
    line, reply = counts_line(t, records)
    t.same(t.done("script", "ca.db", given=line), reply, "the counts")
    t.same(registers.beside(t.room / "ca.db")[0], registers.expected(records), "the derived rows")


@each(VERSIONS, seconds=2)
def each_command_that_opens_makes_it_newer(t, version):
    records = records_of(50)
    moment = moment_of(records.last)
    for words, given in (
        (["crl", "ca.db"], ""),
        (["import", "ca.db", "--now", moment], "order,serial,notBefore,notAfter\n"),
        (["schedule", "ca.db", "1970-01-01T00:00:00Z=398"], ""),
        (["key-id", "ca.db", "0A0B"], ""),
        (["script", "ca.db"], f"{moment} crl\n"),
    ):
        (t.room / "ca.db").unlink(missing_ok=True)
        registers.make(t.room / "ca.db", records, version)
        t.same(t.desk(*words, given=given).status, 0, program.shown(words))
        t.same(t.sql("ca.db", "SELECT version FROM office"), [(3,)], f"the version after {words[0]}")
        t.same(t.desk("audit", "ca.db").status, 0, f"the audit after {words[0]}")


@each(VERSIONS, seconds=2)
def it_is_given_a_key_identifier(t, version):
    """`key-id` migrates the register too. The issued CRLs stay the same, byte for byte, and the next CRL has the key identifier."""
    records = made(t, 50, version)
    before = registers.rows_of(t.room / "ca.db")
    t.same(t.done("key-id", "ca.db", "0A0B"), "key-id set\n")
    next_one, wanted = len(records.crls) + 1, registers.expected(records)
    name = bytes.fromhex(program.NAME) + b"\x80\x0a" + next_one.to_bytes(8, "big") + b"\x0a\x0b"
    wanted["office"] = [(*row[:2], name, *row[3:]) for row in wanted["office"]]
    t.same(registers.rows_of(t.room / "ca.db"), before, "the records")
    t.same(registers.beside(t.room / "ca.db"), (wanted, ([("ok",)], [])), "derived rows, with the key identifier after the Name")
    t.has(t.done("script", "ca.db", given=f"{moment_of(records.last)} crl\n"), f"crl {next_one} entries ")
    t.has(t.desk("crl", "ca.db").out, bytes.fromhex("0603551D23040630048002" "0A0B"), "its authorityKeyIdentifier")
    for number, _, crl in records.crls:
        t.same(t.desk("crl", "ca.db", "--number", number).out, crl, f"CRL {number}")
    t.same(t.done("audit", "ca.db"), f"sound, 50 certificates, {len(records.revocations)} revoked, {next_one} CRLs\n")


@each(VERSIONS, seconds=2)
def an_audit_leaves_it_as_it_was(t, version):
    made(t, 50, version)
    before = (t.room / "ca.db").read_bytes()
    ran = t.desk("audit", "ca.db")
    t.same((ran.status, ran.out, ran.err), (1, b"", b"old-version\n"))
    t.same((t.room / "ca.db").read_bytes() == before, True, "whether the file's bytes are the same")


@each(VERSIONS, seconds=2)
def other_tables_than_its_versions_are_no_register(t, version):
    made(t, 50, version)
    for statement in ("CREATE TABLE t (a)", "CREATE INDEX i ON cert (not_after)", "CREATE VIEW v AS SELECT 1"):
        (t.room / "ca.db").unlink()
        made(t, 50, version)
        t.sql("ca.db", statement)
        ran = t.desk("script", "ca.db", given="2026-01-01T00:00:00Z counts\n")
        t.same((ran.status, ran.out, ran.err), (1, b"", b"not-a-register\n"), statement)
        t.same(t.sql("ca.db", "SELECT version FROM office"), [(version,)], f"the version after {statement}")


@test
def a_database_of_thirty_other_tables_is_no_register(t):
    for at in range(30):
        t.sql("ca.db", f"CREATE TABLE t{at} (a INTEGER PRIMARY KEY, b TEXT UNIQUE)")
    for words in (["script", "ca.db"], ["audit", "ca.db"], ["crl", "ca.db"]):
        ran = t.desk(*words)
        t.same((ran.status, ran.out, ran.err), (1, b"", b"not-a-register\n"), words[0])


@test
def versions_below_1_and_above_3(t):
    t.register()
    for version, told in ((0, "not-a-register"), (4, "new-version"), (2_147_483_647, "new-version")):
        t.sql("ca.db", f"UPDATE office SET version = {version}")
        for words in (["script", "ca.db"], ["audit", "ca.db"], ["crl", "ca.db"]):
            ran = t.desk(*words)
            t.same((ran.status, ran.out, ran.err), (1, b"", f"{told}\n".encode()), f"{words[0]} over version {version}")


LOST_WRITES = {f"{name}, {loss}": (version, told) for name, version in VERSIONS.items() for loss, told in (
    ("nothing is lost", {}), ("what was not synced is lost", {"lose": 1}), ("some of it is lost", {"lose": 5}))}


@each(LOST_WRITES, seconds=10)
def a_stop_leaves_the_older_or_the_newer_one(t, version, told):
    records = made(t, 20, version, "base.db")
    before = registers.rows_of(t.room / "base.db")
    line, reply = counts_line(t, records)
    faults.copy(t.room / "base.db", t.room / "ca.db")
    last = faults.total(t, ["script", "ca.db"], "steps", line, only="ca.db,ca.db-wal")
    for at in range(1, last + 1):
        faults.copy(t.room / "base.db", t.room / "ca.db")
        ran, count = faults.run(t, ["script", "ca.db"], line, only="ca.db,ca.db-wal", stop=at, **told)
        t.same((ran.status, count["met"]), (-9, 1), f"stopped at step {at}")
        again = program.run(["script", "ca.db"], line, cwd=t.room)
        t.same((again.status, again.out.decode()), (0, reply), f"opened after a stop at step {at}")
        is_newer(t, records, before, what=f" after a stop at step {at}")


@each(VERSIONS, seconds=10)
def refused_memory_leaves_the_older_or_the_newer_one(t, version):
    records = made(t, 20, version, "base.db")
    before = registers.rows_of(t.room / "base.db")
    line, reply = counts_line(t, records)
    faults.copy(t.room / "base.db", t.room / "ca.db")
    last = faults.total(t, ["script", "ca.db"], "alloc", line)
    for at in faults.places(last, 100, 37):
        faults.copy(t.room / "base.db", t.room / "ca.db")
        ran, _ = faults.run(t, ["script", "ca.db"], line, fail=f"alloc:{at}")
        done = (ran.status, ran.out.decode(), ran.err) == (0, reply, b"")
        refused = (ran.status, ran.out, ran.err) in ((1, b"", b"F1 memory\n"), (0, b"F1 memory\n", b""))
        t.true(done or refused, f"allocation {at}: {ran}")
        t.same(registers.rows_of(t.room / "ca.db"), before, f"the records after allocation {at}")
        again = program.run(["script", "ca.db"], line, cwd=t.room)
        t.same((again.status, again.out.decode()), (0, reply), f"opened after allocation {at}")
        is_newer(t, records, before, what=f" after allocation {at}")
