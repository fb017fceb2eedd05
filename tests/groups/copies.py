"""Copies of a closed and of an open register. The program makes a whole and sound copy, at a path where no file was, or none."""

import contextlib
import os
import re
import shutil
import signal
import sqlite3
import struct
import threading
from concurrent.futures import ThreadPoolExecutor

from lib import authority, faults, program, registers
from lib.program import Control, parted
from lib.trial import each, test

DAY, NEXT = "2026-01-01T00:00:00Z", "2026-01-02T00:00:00Z"
ENTERED = "".join(
    f"{DAY} {line}\n"
    for line in ("subscriber acme", "order 1 398", "order 1 398", f"register 1 05 {DAY} 2026-12-31T00:00:00Z", f"register 2 06 {DAY} 2026-12-31T00:00:00Z", "crl")
)
SOUND = "sound, 2 certificates, 0 revoked, 1 CRLs\n"
TAKEN = "the path already exists: give another one"
NO_RIGHT = "  permission denied, or the file system is read-only\n"
DAMAGED = b"F2 store\n  damaged, or not a database: check the path and the disk\n"
COPY_FILES = "copy.db,copy.db.part"


def copied(t, reply, path="copy.db"):
    """Checks the reply that reports a copy: it has the copy's size, and the copy has mode 600."""
    told = re.fullmatch(r"copied (\d+) bytes in \d+ ms\n?", reply)
    t.true(told, f"the reply does not report a copy: {reply!r}")
    found = (t.room / path).stat()
    t.same((int(told[1]), "%o" % (found.st_mode & 0o7777), found.st_nlink), (found.st_size, "600", 1), "size, mode and number of hard links")
    t.same([it.name for it in (t.room / path).parent.iterdir() if it.name.startswith(f"{(t.room / path).name}.")], [], "files left beside it")


def opens(t, path, wanted):
    """Checks that the program opens a file as a register, and that it has these counts."""
    t.same(t.done("script", path, given=f"{NEXT} counts\n"), f"{wanted}\n")


def refused(t, control, path, why):
    """The control socket refuses a copy, and reports the cause."""
    with Control(t.room / control) as it:
        t.same((it.ask(f"copy {path}"), it.ask("why")), ("F2 store", f"why {why}"))


@test
def a_closed_register(t):
    t.register(lines=ENTERED)
    before = t.files()
    copied(t, t.done("copy", "ca.db", "copy.db"))
    t.same({name: it for name, it in t.files().items() if name != "copy.db"}, before, "the other files of the folder")
    t.same(t.done("audit", "copy.db"), SOUND)
    t.same(t.desk("crl", "copy.db").out, t.desk("crl", "ca.db").out, "the CRL")
    opens(t, "copy.db", "good 2 revoked 0 expired 0")


@test
def the_time_of_a_copy_is_told(t):
    """The elapsed time goes on by 1,234 ms while the job opens the copy. No other time passes for the job."""
    t.register(lines=ENTERED)
    passed, goes_on = t.room / "passed", t.room / "goes-on"
    passed.write_bytes(struct.pack("=Q", 1_000_000))
    with ThreadPoolExecutor(1) as pool:
        ran = pool.submit(t.desk, "copy", "ca.db", "copy.db", faults=faults.environment(passed=passed, slow_open=goes_on, only="copy.db.part"))
        authority.until(lambda: (t.room / "goes-on.waits").exists(), "the job to open the copy")
        with open(passed, "r+b") as it:
            it.write(struct.pack("=Q", 1_001_234))
        goes_on.touch()
        told = ran.result()
    t.same((told.status, told.err, told.out.decode().partition(" bytes ")[2]), (0, b"", "in 1234 ms\n"))


@test(seconds=3)
def an_open_register_is_copied_while_it_answers(t):
    t.register(lines=ENTERED)
    t.clock(NEXT)
    desk = t.open()
    crl = parted(desk.ask("GET", "/crl"))[2]
    stop, wrong = threading.Event(), []

    def asks():
        with Control(t.room / "control") as it:
            while not stop.is_set():
                if it.ask("status 05") != "good" or parted(desk.ask("GET", "/status/06"))[2] != b'{"status":"good"}':
                    wrong.append("another answer")

    requester = threading.Thread(target=asks)
    requester.start()
    try:
        with Control(t.room / "control") as it:
            for at in range(20):
                # Together they take more pages than the register's file has, so only the -wal has these.
                for number in range(5 * at + 2, 5 * at + 7):
                    t.same(it.ask(f"subscriber {'s' * 60}{number}"), f"subscriber {number}")
                copied(t, it.ask(f"copy copy{at}.db"), f"copy{at}.db")
    finally:
        stop.set()
        requester.join()
    t.same(wrong, [], "wrong answers while the desk copied")
    # A copy has the entries made before it, also those that are only in the -wal, and none made after it.
    for at in (0, 19):
        t.same(t.done("audit", f"copy{at}.db"), SOUND)
        t.same(t.sql(f"copy{at}.db", "SELECT count(*) FROM subscriber"), [(5 * at + 6,)], f"subscribers of copy {at}")
    t.same(t.desk("crl", "copy19.db").out, crl, "the CRL")
    opens(t, "copy19.db", "good 2 revoked 0 expired 0")
    t.same(desk.end().status, -15)
    t.same(t.done("audit", "ca.db"), SOUND, "the register itself")


@test
def a_path_at_the_control_socket_is_of_the_desks_own_folder(t):
    t.register(lines=ENTERED)
    t.clock(NEXT)
    t.open()
    (t.room / "elsewhere").mkdir()
    with Control(t.room / "control") as it:
        it.stream.sendall(b"copy elsewhere/copy.db\r\n")
        copied(t, it.file.readline().decode(), "elsewhere/copy.db")
    copied(t, t.done("at", "control", given=f"copy {t.room / 'with a blank.db'}\n"), "with a blank.db")
    # All that follows the first space is the path, with spaces at its ends.
    copied(t, t.done("at", "control", given="copy  ends in blanks.db \n"), " ends in blanks.db ")
    # A path of two thousand bytes.
    copied(t, t.done("at", "control", given=f"copy {'./' * 1_000}copy.db\n"))


def a_file(path):
    path.write_text("mine")


def a_link_to_nowhere(path):
    path.symlink_to("nowhere")


IN_THE_WAY = {
    "a file": (a_file, ""),
    "a folder": (lambda path: path.mkdir(), ""),
    "a link that leads nowhere": (a_link_to_nowhere, ""),
    "a log": (a_file, "-wal"),
    "a journal": (a_file, "-journal"),
    "a link at a log's path that leads nowhere": (a_link_to_nowhere, "-wal"),
    "a link at a journal's path that leads nowhere": (a_link_to_nowhere, "-journal"),
    "another copy under way": (a_file, ".part"),
}


@each(IN_THE_WAY)
def never_over_an_existing_file(t, create, end):
    t.register(lines=ENTERED)
    create(t.room / f"copy.db{end}")
    before = sorted((it.name, os.readlink(it) if it.is_symlink() else it.is_file() and it.read_bytes()) for it in t.room.iterdir())
    ran = t.desk("copy", "ca.db", "copy.db", "--why")
    t.same((ran.status, ran.out, ran.err.decode()), (1, b"", f"F2 store\n  {TAKEN}\n"))
    found = sorted((it.name, os.readlink(it) if it.is_symlink() else it.is_file() and it.read_bytes()) for it in t.room.iterdir())
    t.same(found, before, "the files of the folder")
    t.open()
    refused(t, "control", "copy.db", TAKEN)


@test(seconds=2)
def never_over_a_file_that_appears_meanwhile(t):
    """Another file appears after the program has found the path free, while it begins its copy."""
    t.register(lines=ENTERED)
    with ThreadPoolExecutor(1) as pool:
        ran = pool.submit(t.desk, "copy", "ca.db", "copy.db", "--why", faults=faults.environment(slow_open=t.room / "go", only="copy.db.part"))
        authority.until((t.room / "go.waits").exists, "the program to open the new file")
        (t.room / "copy.db").write_text("mine")
        (t.room / "go").touch()
        t.same((ran.result().status, ran.result().err.decode()), (1, f"F2 store\n  {TAKEN}\n"))
    t.same((t.room / "copy.db").read_text(), "mine", "the file that appeared")
    t.same([it.name for it in t.room.iterdir() if it.name.endswith(".part")], [], "files that are left")


@test
def its_own_register_is_in_the_way(t):
    t.register(lines=ENTERED)
    before = (t.room / "ca.db").read_bytes()
    t.same(t.desk("copy", "ca.db", "ca.db", "--why").err.decode(), f"F2 store\n  {TAKEN}\n")
    t.same((t.room / "ca.db").read_bytes(), before)


def cut_off(t):
    a_log_with_the_last_command(t)
    os.truncate(t.room / "ca.db", 4_096)


REFUSED = {
    "one whose file was cut off, with its log": (cut_off, "ca.db", DAMAGED),
    "no register there": (lambda t: None, "nowhere.db", b"F2 store\n  no such file\n"),
    "nothing begun": (lambda t: (t.room / "nowhere.db").write_bytes(b""), "nowhere.db", b"not-a-register\n"),
    "no database": (lambda t: (t.room / "nowhere.db").write_bytes(b"x" * 9_000), "nowhere.db", DAMAGED),
    "one that is open": (lambda t: t.open(), "ca.db", b"F2 store\n  in use by another program\n"),
}


@each(REFUSED)
def no_copy_by_desk_copy(t, before, file, told):
    t.register(lines=ENTERED)
    before(t)
    ran = t.desk("copy", file, "copy.db", "--why")
    t.same((ran.status, ran.out, ran.err), (1, b"", told))
    t.same([it.name for it in t.room.iterdir() if it.name.startswith("copy")], [], "files that are left")


@test
def no_copy_at_the_control_socket(t):
    t.register(lines=ENTERED)
    t.open()
    refused(t, "control", "nowhere/copy.db", "no such file")
    # No other file of the folder is one of the empty path.
    for name in ("-wal", "-journal", ".part"):
        (t.room / name).write_text("mine")
    refused(t, "control", "", "no such file")
    with Control(t.room / "control") as it:
        it.stream.sendall(b"copy \xff\nwhy\ncopy\n")
        t.same([it.file.readline() for _ in range(3)], [b"F2 store\n", b"why F2 store\n", b"E22 syntax\n"], "replies: not UTF-8, `why`, no path")
    # The open register is moved, and another file is at its path.
    os.rename(t.room / "ca.db", t.room / "moved.db")
    shutil.copy(t.room / "moved.db", t.room / "ca.db")
    refused(t, "control", "copy.db", "no such file")
    t.same([it.name for it in t.room.iterdir() if it.name.startswith("copy")], [], "files that are left")


@test
def no_copy_of_an_open_register_whose_lock_can_t_be_tried(t):
    """The lock shows that the file at the path is still the open one. No cause is told, since none is known."""
    t.register(lines=ENTERED)
    desk = t.open(faults=faults.environment(count=t.room / "count"))
    t.has(t.control().ask("copy first.db"), "copied ")
    tried = faults.counted(t.room / "count")["lock"]
    desk.end()
    t.open(faults=faults.environment(count=t.room / "count", fail=f"lock:{tried}=EIO"))
    refused(t, "control", "copy.db", "F2 store")
    t.same((faults.counted(t.room / "count")["met"], left(t)), (1, []), "injected faults, and files that are left")


@test
def an_open_register_whose_files_were_emptied_is_damaged(t):
    t.register(lines=ENTERED)
    t.open()
    for name in ("ca.db", "ca.db-wal"):
        os.truncate(t.room / name, 0)
    refused(t, "control", "copy.db", "damaged, or not a database: check the path and the disk")
    t.same(left(t), [], "files that are left")


@test
def no_right(t):
    t.register(lines=ENTERED)
    for name in {"ca.db", "ca.db-wal"} & {it.name for it in t.room.iterdir()}:
        os.chmod(t.room / name, 0o644)
    ran = t.as_nobody("copy", "ca.db", "copy.db", "--why")
    t.same((ran.returncode, ran.stdout, ran.stderr), (1, b"", b"F2 store\n  permission denied, or the file system is read-only\n"))


@test
def into_a_folder_that_may_not_be_searched(t):
    """Nobody can tell whether there is a file at the path."""
    t.register(lines=ENTERED)
    for name in {"ca.db", "ca.db-wal"} & {it.name for it in t.room.iterdir()}:
        os.chmod(t.room / name, 0o644)
    (t.room / "private").mkdir(mode=0)
    t.callback(os.chmod, t.room / "private", 0o755)
    ran = t.as_nobody("copy", "ca.db", "private/copy.db", "--why")
    t.same((ran.returncode, ran.stdout, ran.stderr), (1, b"", b"F2 store\n  permission denied, or the file system is read-only\n"))


@each({"512 bytes": 512, "2,048 bytes": 2_048})
def a_register_whose_pages_have_another_size(t, size):
    """SQLite changed it. The desk's own registers have pages of 4,096 bytes."""
    t.register(lines=ENTERED)
    with contextlib.closing(sqlite3.connect(t.room / "ca.db", isolation_level=None)) as other:
        for statement in ("PRAGMA journal_mode = delete", f"PRAGMA page_size = {size}", "VACUUM", "PRAGMA journal_mode = wal"):
            other.execute(statement).fetchall()
        t.same(other.execute("PRAGMA page_size").fetchall(), [(size,)], "the page size")
    t.same(t.done("audit", "ca.db"), SOUND)
    copied(t, t.done("copy", "ca.db", "copy.db"))
    t.same(t.desk("crl", "copy.db").out, t.desk("crl", "ca.db").out, "the CRL")
    opens(t, "ca.db", "good 2 revoked 0 expired 0")
    opens(t, "copy.db", "good 2 revoked 0 expired 0")


@each({f"of version {version}": (version,) for version in (1, 2)})
def a_copy_of_an_older_one_stays_so(t, version):
    registers.make(t.room / "ca.db", registers.Records(50), version)
    copied(t, t.done("copy", "ca.db", "copy.db"))
    t.same((t.room / "copy.db").read_bytes(), (t.room / "ca.db").read_bytes(), "the bytes of the copy: the register has no -wal")
    t.same(t.desk("audit", "copy.db").err, b"old-version\n")
    lines = "9999-01-01T00:00:00Z counts\n"
    t.same(t.done("script", "copy.db", given=lines), t.done("script", "ca.db", given=lines), "the counts; this command migrates both files")
    t.has(t.done("audit", "copy.db"), "sound, ")


def left(t):
    return sorted(it.name for it in t.room.iterdir() if it.name.startswith("copy"))


FAILURES = {"write": "  disk full\n", "sync": "", "link": NO_RIGHT, "open": "", "stat": "", "unlink": NO_RIGHT}


@each({f"each {kind}": (kind, cause) for kind, cause in FAILURES.items()}, seconds=4)
def a_call_that_fails_leaves_nothing(t, kind, cause):
    t.register(lines=ENTERED)
    words = ("copy", "ca.db", "copy.db", "--why")
    last = faults.total(t, words, kind, only=COPY_FILES)
    t.true(last > 0, f"the copy makes no call of {kind}")
    for at in range(1, last + 1):
        for name in left(t):
            os.remove(t.room / name)
        ran, count = faults.run(t, words, fail=f"{kind}:{at}", only=COPY_FILES)
        t.same((ran.status, ran.out, count["met"]), (1, b"", 1), f"{kind} {at}")
        t.same(ran.err.decode(), f"F2 store\n{cause}", f"{kind} {at}") if cause else t.has(ran.err.decode(), "F2 store\n")
        t.same(left(t), [], f"files that are left if {kind} {at} fails")
    copied(t, t.done("copy", "ca.db", "copy.db"))


@test(seconds=5)
def a_copy_that_has_no_memory_says_so(t):
    """From some allocation on there is none. An operator who is told of damage would look for a backup."""
    t.register(lines=ENTERED)
    words = ("copy", "ca.db", "copy.db", "--why")
    last = faults.total(t, words, "alloc")
    os.remove(t.room / "copy.db")
    # The last ones are for the line that it prints.
    for at in (*range(last, last - 12, -1), *faults.places(last - 12, 250, 37)):
        ran, count = faults.run(t, words, fail=f"alloc:{at}+")
        t.same((ran.status, ran.out, ran.err), (1, b"", b"F1 memory\n"), f"allocation {at}")
        # Without memory for its reply only, the copy is whole.
        for name in left(t):
            t.same((name, t.done("audit", name)), ("copy.db", SOUND), f"what is left of allocation {at}")
            os.remove(t.room / name)


@test(seconds=4)
def a_copy_at_the_control_socket_that_has_no_memory_says_so(t):
    """One allocation fails while the copy is made. An operator who is told of the store would look at the disk."""
    base = t.register("base.db", lines=ENTERED)
    t.clock(NEXT)

    def ask(fail):
        """The reply, and the counts of allocations before it and at its end."""
        faults.copy(base, t.room / "ca.db")
        for name in ("control", "copy.db"):
            (t.room / name).unlink(missing_ok=True)
        env = faults.environment(count=t.room / "count", same=1, fail=fail)
        with program.Opened(["open", "ca.db", "--control", "control", "--unsigned"], cwd=t.room, clock=t.room / "clock", faults=env) as desk:
            with Control(t.room / "control") as it:
                t.same(it.ask("counts"), "good 2 revoked 0 expired 0")
                first = faults.counted(t.room / "count")["alloc"]
                reply = it.ask("copy copy.db")
            desk.end()
        return reply, first, faults.counted(t.room / "count")["alloc"]

    reply, first, last = ask(None)
    copied(t, reply)
    told = 0
    for at in sorted({*range(first + 1, first + 30), *range(first + 1, last, 197)}):
        reply = ask(f"alloc:{at}")[0]
        t.true(reply in ("", "F1 memory") or reply.startswith("copied "), f"allocation {at}, from {first} on: {reply!r}")
        told += reply == "F1 memory"
    t.true(told > 3, f"`F1 memory` was reported {told} times")


def a_log_with_the_last_command(t):
    t.clock(NEXT)
    desk = t.open()
    t.same(t.control().ask("subscriber beta"), "subscriber 2")
    desk.end(signal.SIGKILL)


BESIDE = {
    "its log": (a_log_with_the_last_command, 0),
    "its journal": (lambda t: (t.room / "ca.db-journal").write_bytes(b"x"), 1),
    "a log at the copy's path": (lambda t: (t.room / "copy.db-wal").write_text("mine"), 1),
}


@each(BESIDE, seconds=2)
def no_copy_passes_over_a_file_for_whose_name_there_is_no_memory(t, create, status):
    """One allocation fails. Each copy has all records, and none is made that a journal or a log would change."""
    t.register(lines=ENTERED)
    create(t)
    words = ["copy", "ca.db", "copy.db"]
    ran, count = faults.run(t, words)
    t.same(ran.status, status, "the status without a fault")
    # A run without a register ends where this one looks for the files beside its register. The last allocations are those of the copy's files.
    first, last = faults.run(t, ["copy", "no.db", "copy.db"])[1]["alloc"], count["alloc"]
    for at in sorted({*range(first - 3, first + 12), *range(last - 12, last + 1)}):
        (t.room / "copy.db").unlink(missing_ok=True)
        ran, _ = faults.run(t, words, fail=f"alloc:{at}")
        if status:
            t.same((ran.status, ran.out), (1, b""), f"allocation {at}")
        elif ran.status:
            t.same((ran.status, ran.out, ran.err), (1, b"", b"F1 memory\n"), f"allocation {at}")
        else:
            t.same(t.sql("copy.db", "SELECT count(*) FROM subscriber"), [(2,)], f"subscribers of the copy, although allocation {at} failed")


@each({"the sync fails": "sync:1", "it can't be opened": "open:1"})
def a_copy_whose_folder_can_not_be_synced_is_not_left(t, fault):
    """After a power failure, the copy could be missing, though the desk had reported it."""
    t.register(lines=ENTERED)
    (t.room / "copies").mkdir()
    ran, count = faults.run(t, ["copy", "ca.db", "copies/copy.db"], fail=fault, only="copies")
    t.same((ran.status, ran.out, ran.err, count["met"]), (1, b"", b"F2 store\n", 1), "status, output, standard error and calls that failed")
    t.same(list((t.room / "copies").iterdir()), [], "files that are left")


@test(seconds=4)
def a_full_disk_at_the_control_socket(t):
    t.register(lines=ENTERED)
    t.clock(NEXT)
    t.open(faults=faults.environment(fail="write:1+", only="copy.db.part"))
    refused(t, "control", "copy.db", "disk full")
    t.same(left(t), [], "files that are left")
    t.same(t.done("at", "control", given="subscriber beta\n"), "subscriber 2\n", "a command after the failed copy")


LOST_WRITES = {"nothing is lost": {}, "what was not synced is lost": {"lose": 1}, "the write is torn": {"torn": 1}}


@each(LOST_WRITES, seconds=6)
def a_stop_leaves_a_whole_one_or_none(t, told):
    t.register(lines=ENTERED)
    words = ("copy", "ca.db", "copy.db")
    last = faults.total(t, words, "steps", only=COPY_FILES)
    t.true(last > 5, f"only {last} steps")
    whole = 0
    for at in range(1, last + 1):
        for name in left(t):
            os.remove(t.room / name)
        ran, count = faults.run(t, words, stop=at, only=COPY_FILES, **told)
        t.same((ran.status, count["met"]), (-9, 1), f"stopped at step {at}")
        t.true(set(left(t)) <= {"copy.db", "copy.db.part"}, f"what is left at step {at}: {left(t)}")
        if (t.room / "copy.db").exists():
            # The copy still has its second name (hard link), copy.db.part. The program does not open a file that has two.
            (t.room / "copy.db.part").unlink()
            t.same(t.done("audit", "copy.db"), SOUND, f"at step {at}")
            whole += 1
    t.same(whole, 1, "stops after which copy.db exists")


@test(seconds=2)
def a_desk_that_is_killed_while_it_copies(t):
    """The register of a killed desk stays sound. The partial copy blocks the next one until it is deleted."""
    t.register(lines=ENTERED)
    desk = t.open(faults=faults.environment(stop=3, only=COPY_FILES))
    with Control(t.room / "control") as it:
        t.same(it.ask("copy copy.db"), "", "the reply of the killed desk")
    t.same(desk.wait().status, -9)
    t.same(left(t), ["copy.db.part"])
    t.same(t.done("audit", "ca.db"), SOUND)
    t.same(t.desk("copy", "ca.db", "copy.db", "--why").err.decode(), f"F2 store\n  {TAKEN}\n")
    (t.room / "copy.db.part").unlink()
    copied(t, t.done("copy", "ca.db", "copy.db"))
