"""System calls of a command on a register's file fail. The command succeeds, or it reports `F2 store` and leaves the tables as before or as after
it (an import may enter some rows). The same command then succeeds, unless `init` has already made the register."""

import re

from lib import faults, program
from lib.faults import DAY_1, LIFE, PAST_END, REGISTERED
from lib.trial import Failed, each

FILES = "ca.db,ca.db-wal"


def text(lines):
    return "".join(f"{asked}\n" for asked, _ in lines)


ROWS = f"order,serial,notBefore,notAfter\n1,05,{DAY_1},2026-01-10T00:00:00Z\n2,06,{DAY_1},2026-01-10T00:00:00Z\n"
ORDERS = f"{DAY_1} subscriber acme\n{DAY_1} order 1 398\n{DAY_1} order 1 398\n"
# The words, the standard input, and the lines that make the register (None if there is none yet).
JOBS = {
    "init": (["init", "ca.db", "--name", program.NAME, "--key", program.KEY], "", None),
    "import": (["import", "ca.db", "--now", DAY_1], ROWS, ORDERS),
    "schedule": (["schedule", "ca.db", "1970-01-01T00:00:00Z=398", "2026-03-15T00:00:00Z=200"], "", text(REGISTERED)),
    "key-id": (["key-id", "ca.db", "0102030405"], "", text(LIFE)),
    "crl": (["crl", "ca.db"], "", text(LIFE)),
    "list": (["list", "ca.db", "revoked", "--now", PAST_END], "", text(LIFE)),
    "audit": (["audit", "ca.db"], "", text(LIFE)),
}
CHANGES = ("init", "import", "schedule", "key-id")
FAILURES = {
    "write": "", "sync": "", "cut": "", "read": "", "open": "", "stat": "", "lock": "", "every write": "+", "every sync": "+", "every read": "+", "every cut": "+",
    "a write that moves nothing": "=0", "a read that moves nothing": "=0", "random": "",
}  # fmt: skip
KIND = re.compile("write|sync|cut|read|open|stat|lock|random")
ROWS_OF = {f"{job}, {name}": (job, KIND.search(name)[0], how) for job in JOBS for name, how in FAILURES.items()}


@each(ROWS_OF, seconds=3)
def a_call_fails(t, job, kind, how):
    words, given, before = JOBS[job]
    base = None if before is None else t.register("base.db", before)
    faults.copy(base, t.room / "ca.db")
    old = faults.tables(t.room / "ca.db")
    usual, count = faults.run(t, words, given, only=FILES)
    t.same((usual.status, usual.err), (0, b""), "without a fault")
    new, told = faults.tables(t.room / "ca.db"), 0
    for at in faults.places(count[kind], 80, 7):
        where = f"{kind} {at}{how}"
        faults.copy(base, t.room / "ca.db")
        ran, count = faults.run(t, words, given, only=FILES, fail=f"{kind}:{at}{how}")
        t.true(count["met"], f"the fault at {where} did not occur")
        found = faults.tables(t.room / "ca.db")
        if (ran.status, ran.out, ran.err) == (0, usual.out, b""):
            t.same(found, new, f"{where}: the tables after a command that succeeded")
        else:
            told += 1
            judge(t, job, ran, usual, where)
            if job == "import":
                stands(t, ran, found, old, where)
            else:
                t.true(found in (old, new, None) if job == "init" else found in (old, new), f"{where}: the tables: {found}")
        again = faults.sound_run(t, words, given)
        if job == "import":
            t.same((again.status, len([it for it in again.lines if it in ("registered", "same")])), (0, 2), f"{where}: the same command again")
        elif not (job == "init" and found == new and again.err == b"not-empty\n"):
            t.same((again.status, again.out, again.err), (0, usual.out, b""), f"{where}: the same command again")
        t.same(faults.tables(t.room / "ca.db"), new, f"{where}: the tables at the end")
    t.true(told or kind in ("cut", "stat") or (kind, job) in NEVER_TOLD, f"{job} reported no failed {kind}")


# These jobs only read the register, so they need not make these calls.
NEVER_TOLD = {(it, job) for it in ("write", "sync") for job in ("crl", "list", "audit")}


def judge(t, job, ran, usual, where):
    """Checks how a job with a fault ended: `F2 store` on standard error, and no standard output. An import may reply `F2 store` to a row instead."""
    if job == "import":
        fits = set(ran.lines) <= {"registered", "F2 store"} and (ran.status, ran.err) in ((0, b""), (1, b"F2 store\n"))
    else:
        fits = (ran.status, ran.out, ran.err) == (1, b"", b"F2 store\n")
    if not fits:
        raise Failed(f"{where}: {ran}")


def stands(t, ran, found, old, where):
    """Checks that after an import the register has each row that was answered `registered`. It may also have the row whose commit failed."""
    serials = {row[0][-1] for row in found["cert"]}
    for line, serial in zip(ran.lines, (5, 6)):
        if line == "registered":
            t.true(serial in serials, f"{where}: serial number {serial} was answered `registered`, but the register lacks it")
    t.same(found["orders"], old["orders"], f"{where}: the orders")
