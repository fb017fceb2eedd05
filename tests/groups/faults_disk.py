"""System calls on a register's files fail. The program replies `F2 store`, or internalError to an OCSP request. When the register is opened
again, it has a prefix of the lines, with at least all answered ones, and accepts the rest."""

import contextlib
import sqlite3

from groups.changes import LINES
from groups.follow import CLOCK, address
from groups.follow_steps import Server
from lib import faults, program
from lib.authority import until
from lib.faults import LIFE, STORE, Course
from lib.program import parted
from lib.trial import each

# The files, the kind of call, and how the Nth call fails: with an error, with no byte moved (`=0`), or with all later calls (`+`).
FAILURES = {
    "a write of the log": ("ca.db-wal", "write", ""),
    "a write of the file": ("ca.db", "write", ""),
    "a write that moves nothing": ("ca.db,ca.db-wal", "write", "=0"),
    "a sync of the log": ("ca.db-wal", "sync", ""),
    "a sync of the file": ("ca.db", "sync", ""),
    "a cut": ("ca.db,ca.db-wal", "cut", ""),
    "a read": ("ca.db,ca.db-wal", "read", ""),
    "a read that moves nothing": ("ca.db,ca.db-wal", "read", "=0"),
    "an opening": ("ca.db,ca.db-wal", "open", ""),
    "a look": ("ca.db,ca.db-wal", "stat", ""),
    "a lock": ("ca.db,ca.db-wal", "lock", ""),
    "every write": ("ca.db,ca.db-wal", "write", "+"),
    "every sync": ("ca.db,ca.db-wal", "sync", "+"),
    "every read": ("ca.db,ca.db-wal", "read", "+"),
}


@each(FAILURES, seconds=20)
def the_store_fails(t, only, kind, how):
    base = t.register("base.db")
    course = Course(t, base, LIFE, (1, 1, 3))
    path = "ca.db"
    faults.copy(base, t.room / path)
    text = "".join(f"{asked}\n" for asked, _ in LIFE)
    last = faults.total(t, ["script", path], kind, text, only=only)
    # Opening reads each page three times, so only the first 30 reads and then every seventh are tried.
    for at in faults.places(last, 30 if kind == "read" else last, 7):
        met = course.round(STORE, 1, f"{kind} {at}{how} of {only}", only=only, fail=f"{kind}:{at}{how}")
        t.true(met, f"the fault at {kind} {at} of {last} did not occur")


# News of each kind for a follower that has the records of LINES. The page with the CRL ends with it, so the next one is empty.
NEWS = (
    "subscriber c", "order 3 30", "register 6 0a 2026-01-02T00:00:00Z 2026-01-20T00:00:00Z", "request 08 asked", "request 0a misuse", "decline 5",
    "revoke 6", "crl",
)  # fmt: skip
NEWS_REQUESTS = 3
# How the Nth call on the files of a new copy fails, and which of them are tried: each Nth. All rows come in one commit, of four writes and two syncs.
COPIED = {
    "a read": ("read", "", 17),
    "a read that moves nothing": ("read", "=0", 17),
    "a write": ("write", "", 3),
    "a write that moves nothing": ("write", "=0", 4),
    "a sync": ("sync", "", 2),
    "a cut": ("cut", "", 1),
}
# The same of a follower, while it enters news. Its register has so many octets in a CRL that pages which it decides by are no longer in memory.
FOLLOWED = {
    "a read": ("read", "", 1_100_000),
    "a read that moves nothing": ("read", "=0", 1_100_000),
    "a write": ("write", "", 10),
    "a write that moves nothing": ("write", "=0", 10),
    "a sync": ("sync", "", 10),
}


@each(COPIED, seconds=8)
def a_new_copy_on_a_disk_that_fails(t, kind, how, step):
    """It ends by `F2 store`, and not by `F1 memory`, or has all records, if the call failed that closes the file which is filled first."""
    t.register(lines=LINES)
    t.clock(CLOCK)
    leader = t.open()
    files = ",".join(f"copy.db{it}" for it in ("", "-wal", ".fill", ".fill-wal", ".part"))

    def run(fail=None):
        """The counts of calls; None, or how it ends before it listens."""
        for it in t.room.glob("copy.db*"):
            it.unlink()
        env = faults.environment(count=t.room / "count", same=1, only=files, fail=fail)
        with program.Opened(["follow", "copy.db", "--from", address(leader.port), "--unsigned"], cwd=t.room, faults=env) as desk:
            count = faults.counted(t.room / "count")
            ended = desk.end() if desk.listens else desk.wait()
            return count, None if desk.listens else (ended.status, ended.err)

    count, ended = run()
    t.same(ended, None, "its end without a fault")
    ends = set()
    for at in range(1, count[kind] + 1, step):
        where = f"{kind} {at}{how} of {count[kind]}"
        found, ended = run(f"{kind}:{at}{how}")
        t.same((found["met"], ended or (1, b"F2 store\n")), (1, (1, b"F2 store\n")), where)
        if not ended:
            faults.audited(t, "copy.db", (4, 2, 3), where)
        ends.add(ended)
    t.true(kind == "cut" or (1, b"F2 store\n") in ends, f"no call of this kind that fails ends it: {ends}")


@each(FOLLOWED, seconds=10)
def news_on_a_disk_that_fails(t, kind, how, size):
    """A follower says `F2 store`, and neither `F1 memory` nor that a page is wrong."""
    t.register("base.db", lines=LINES)
    # The register's cache has room for 2,000 pages, and these have 512 octets. The latest CRL is the real one: the desk reads its algorithm.
    with contextlib.closing(sqlite3.connect(t.room / "base.db")) as it:
        it.execute("INSERT INTO crl SELECT 4, this_update, zeroblob(?) FROM crl WHERE number = 3", (size,))
        it.execute("INSERT INTO crl SELECT 5, this_update, der FROM crl WHERE number = 3")
        it.commit()
        for statement in ("PRAGMA journal_mode = delete", "PRAGMA page_size = 512", "VACUUM", "PRAGMA journal_mode = wal"):
            it.execute(statement)
    faults.copy(t.room / "base.db", t.room / "ca.db")
    t.done("script", "ca.db", given="".join(f"2026-01-02T14:00:00Z {it}\n" for it in NEWS))
    t.clock(CLOCK)
    leader = t.open()

    def run(answer, requests, fail=None):
        """The counts of calls when it reports a failure or has asked its leader so many times, and what it reports."""
        faults.copy(t.room / "base.db", t.room / "copy.db")
        env = faults.environment(count=t.room / "count", same=1, only="copy.db,copy.db-wal", fail=fail)
        with Server(answer) as it, program.Opened(["follow", "copy.db", "--from", address(it.port), "--unsigned"], cwd=t.room, faults=env) as desk:
            until(lambda: desk.log or len(it.targets) >= requests, f"the end of {fail}")
            count = faults.counted(t.room / "count")
            return count, desk.end().err

    news = lambda target: (200, parted(leader.ask("GET", target))[2])
    (before, _), (after, told) = run(None, 1), run(news, NEWS_REQUESTS)
    t.same((told, after[kind] > before[kind]), (b"", True), f"what it says without a fault, and whether there is {kind} for the news")
    for at in range(before[kind] + 1, after[kind] + 1):
        count, told = run(news, NEWS_REQUESTS, f"{kind}:{at}{how}")
        t.same((count["met"], told), (1, b"follow: F2 store\n"), f"{kind} {at}{how}: {before[kind]} before the news, {after[kind]} after them")
