"""`desk init` beside another one at the same path, and with an output that can't be written."""

import contextlib
import os
import sqlite3
import subprocess

from lib import authority, faults, program
from lib.trial import each, test

WORDS = ("--name", program.NAME, "--key", program.KEY)
ROUNDS = 60


def begun(t, *words):
    return subprocess.Popen(
        [program.program(), *words], cwd=t.room, stdin=subprocess.DEVNULL, stdout=subprocess.PIPE, stderr=subprocess.PIPE, env=program.environment()
    )


@test(seconds=6)
def of_two_at_once_one_makes_the_register(t):
    for number in range(ROUNDS):
        file = f"{number}.db"
        both = [begun(t, "init", file, *WORDS) for _ in range(2)]
        ended = [(*it.communicate(timeout=program.LONGEST), it.returncode) for it in both]
        made = [it for it in ended if it == (b"created\n", b"", 0)]
        t.same(len(made), 1, f"round {number}: how many created the register, of {ended}")
        out, told, status = next(it for it in ended if it not in made)
        # The other process found the register incomplete (F2), or complete.
        t.true((out, status) == (b"", 1) and told in (b"F2 store\n", b"not-empty\n"), f"round {number}: the other said {told!r}, {out!r}, {status}")
        t.same(t.done("script", file, given="2026-01-01T00:00:00Z counts\n"), "good 0 revoked 0 expired 0\n", f"round {number}")


@test
def a_register_whose_reply_can_not_be_printed_is_not_left(t):
    with open("/dev/full", "wb") as full:
        ran = subprocess.run(
            [program.program(), "init", "ca.db", *WORDS], cwd=t.room, stdin=subprocess.DEVNULL, stdout=full, stderr=subprocess.PIPE, timeout=program.LONGEST
        )
    t.same((ran.returncode, ran.stderr), (1, b"F5 write\n"))
    t.same(sorted(it.name for it in t.room.iterdir()), [], "what is left")


@test
def a_register_is_locked_while_it_is_removed(t):
    """Otherwise another program could open it meanwhile, and lose its commands."""
    env = program.environment(faults=faults.environment(slow_unlink=t.room / "goes-on", only="ca.db"))
    words = [program.program(), "init", "ca.db", *WORDS]
    with open("/dev/full", "wb") as full:
        it = subprocess.Popen(words, cwd=t.room, stdin=subprocess.DEVNULL, stdout=full, stderr=subprocess.PIPE, env=env)
    t.callback(it.kill)
    authority.until(lambda: (t.room / "goes-on.waits").exists(), "the desk to remove the register")
    other = t.desk("script", "ca.db", "--why", given="2026-01-01T00:00:00Z subscriber acme\n")
    (t.room / "goes-on").touch()
    t.same((other.status, other.out, other.err), (1, b"", b"F2 store\n  in use by another program (FILE)\n"), "the other program")
    t.same((it.communicate(timeout=program.LONGEST)[1], it.returncode), (b"F5 write\n", 1), "the end of `desk init`")
    t.same([it.name for it in t.room.glob("ca.db*")], [], "what is left")


@test
def a_read_only_file_system(t):
    ran = t.desk("init", "ca.db", *WORDS, "--why", faults=faults.environment(fail="open:1=EROFS", only="ca.db"))
    t.same((ran.status, ran.out, ran.err), (1, b"", b"F2 store\n  permission denied, or the file system is read-only (FILE)\n"))


@test
def in_a_folder_that_may_not_be_searched(t):
    (t.room / "private").mkdir(mode=0)
    t.callback(os.chmod, t.room / "private", 0o755)
    ran = t.as_nobody("init", "private/ca.db", *WORDS, "--why")
    t.same((ran.returncode, ran.stdout, ran.stderr), (1, b"", b"F2 store\n  permission denied, or the file system is read-only (FILE)\n"))


@test
def a_log_that_may_be_there_is_left_alone(t):
    """`desk init` can't find out whether a log lies beside the path, so it creates nothing."""
    ran = t.desk("init", "ca.db", *WORDS, faults=faults.environment(fail="stat:1", only="ca.db-wal"))
    t.same((ran.status, ran.out, ran.err), (1, b"", b"F2 store\n"))
    t.same(list(t.room.iterdir()), [], "what is left")


def printing_nowhere(t):
    """Starts `desk init` with a full pipe for its output. Returns the process, once the register is complete, and the pipe's other end. When that is
    closed, the process finds that nobody reads its reply, and removes the register."""
    reads, writes = os.pipe()
    os.set_blocking(writes, False)
    with contextlib.suppress(BlockingIOError):
        while True:
            os.write(writes, bytes(4_096))
    os.set_blocking(writes, True)
    it = subprocess.Popen([program.program(), "init", "ca.db", *WORDS], cwd=t.room, stdin=subprocess.DEVNULL, stdout=writes, stderr=subprocess.PIPE)
    t.callback(it.kill)
    os.close(writes)
    authority.until(lambda: t.desk("audit", "ca.db").status == 0, "the register to be complete")
    return it, reads


@test
def a_register_that_another_program_has_open_is_not_removed(t):
    """Another desk opens the register before `desk init` finds that nobody reads its reply."""
    it, reads = printing_nowhere(t)
    desk = t.open()
    os.close(reads)
    t.same((it.communicate(timeout=program.LONGEST)[1], it.returncode), (b"F5 write\n", 1), "the end of `desk init`")
    t.same(t.control().ask("subscriber acme"), "subscriber 1")
    desk.end()
    t.same(t.desk("list", "ca.db", "subscribers").lines[1:], ["1,acme"], "the register")


@test
def a_register_that_sqlite_reads_is_not_removed(t):
    """SQLite holds a shared lock while it reads, and in WAL mode as long as it has the file open."""
    it, reads = printing_nowhere(t)
    with contextlib.closing(sqlite3.connect(t.room / "ca.db", isolation_level=None)) as other:
        t.same(other.execute("SELECT count(*) FROM subscriber").fetchall(), [(0,)], "what SQLite reads")
        os.close(reads)
        t.same((it.communicate(timeout=program.LONGEST)[1], it.returncode), (b"F5 write\n", 1), "the end of `desk init`")
        t.true((t.room / "ca.db").exists(), "the register was removed while SQLite had it open")


@each({"one sync": "", "each from then on": "+"}, seconds=3)
def a_register_that_can_not_be_synced_is_not_left(t, how):
    words = ["init", "ca.db", *WORDS]
    last, told = faults.total(t, words, "sync"), 0
    for at in range(1, last + 1):
        for path in t.room.glob("ca.db*"):
            path.unlink()
        ran, count = faults.run(t, words, fail=f"sync:{at}{how}")
        where = f"sync {at}{how}"
        t.true(count["met"], f"{where} was not met")
        if ran.status:
            told += 1
            t.same((ran.status, ran.out, ran.err), (1, b"", b"F2 store\n"), where)
            t.same(sorted(it.name for it in t.room.glob("ca.db*")), [], f"{where}: what is left")
        else:
            t.same((ran.out, ran.err), (b"created\n", b""), where)
            faults.audited(t, "ca.db", (0, 0, 0), where)
    t.true(told, "no failed sync was reported")


@test
def a_log_that_is_a_link_to_nowhere_is_left_alone(t):
    (t.room / "ca.db-wal").symlink_to("nowhere")
    ran = t.desk("init", "ca.db", *WORDS)
    t.same((ran.status, ran.out, ran.err), (1, b"", b"F2 store\n"))
    t.same([(it.name, os.readlink(it)) for it in t.room.iterdir()], [("ca.db-wal", "nowhere")], "what is left")


@test
def a_journal_without_its_register_is_left_alone(t):
    """Only SQLite can play back the journal. `--why` reports no cause, since nothing is damaged."""
    journal = bytes.fromhex("d9d505f920a163d7 00000001 00000000 00000001 00000200 00001000".replace(" ", "")) + bytes(484)
    (t.room / "ca.db-journal").write_bytes(journal)
    ran = t.desk("init", "ca.db", *WORDS, "--why")
    t.same((ran.status, ran.out, ran.err), (1, b"", b"F2 store\n"))
    t.same([(it.name, it.read_bytes()) for it in t.room.iterdir()], [("ca.db-journal", journal)], "what is left")


@each({"a URI": "file:ca.db", "a name of SQLite's own": ":memory:"})
def no_register_gets_a_name_that_sqlite_reads_otherwise(t, name):
    """No command could open a register of this name later."""
    ran = t.desk("init", name, *WORDS)
    t.same((ran.status, ran.out, ran.err), (1, b"", b"F2 store\n"))
    t.same([it.name for it in t.room.iterdir()], [], "what is left")
