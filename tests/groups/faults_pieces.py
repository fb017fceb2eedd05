"""If reads and writes move only a few bytes per call, the output is the same, byte for byte. If a read of standard input fails, a script replies to
all whole lines before, and prints `F4 read`. If a write of a reply fails, it prints `F5 write`, and the register has the command."""

import re

from lib import faults, program
from lib.faults import LIFE, REGISTERED
from lib.trial import each, test

DAY = "2026-01-01T00:00:00Z"
LATER = "2026-01-02T00:00:00Z"
# The register's files are left out, because a short read or write of them is a failure of the store (below).
STREAMS = "stdin,stdout,socket"
SCRIPT = "".join(f"{asked}\n" for asked, _ in LIFE)
REPLIES = "".join(f"{reply}\n" for _, reply in LIFE)
ROWS = f"order,serial,notBefore,notAfter\n1,05,{DAY},2026-01-10T00:00:00Z\n1,05,{DAY},2026-01-10T00:00:00Z\n2,06\n"


@each({"one byte": 1, "seven bytes": 7, "4,095 bytes": 4_095}, seconds=2)
def a_script_in_pieces(t, size):
    t.register()
    ran, _ = faults.run(t, ["script", "ca.db"], SCRIPT, only=STREAMS, short=size)
    t.same((ran.status, ran.out.decode(), ran.err), (0, REPLIES, b""))
    faults.audited(t, "ca.db", (1, 1, 3), "in pieces")


@test
def the_longest_lines_of_a_script_come_in_pieces(t):
    """Each has 8,192 bytes, and each read takes one byte."""
    longest = "x" * 8_192
    ran, _ = faults.run(t, ["script"], f"{longest}\n{DAY} counts\n{longest}\n", only="stdin", short=1)
    t.same((ran.status, ran.lines), (0, ["E22 syntax", "good 0 revoked 0 expired 0", "E22 syntax"]))


@each({"one byte": 1, "seven bytes": 7}, seconds=2)
def jobs_in_pieces(t, size):
    ran, _ = faults.run(t, ["init", "ca.db", "--name", program.NAME, "--key", program.KEY], only=STREAMS, short=size)
    t.same((ran.status, ran.out), (0, b"created\n"))
    t.done("script", "ca.db", given=f"{DAY} subscriber acme\n{DAY} order 1 398\n")
    ran, _ = faults.run(t, ["import", "ca.db", "--now", DAY], ROWS, only=STREAMS, short=size)
    t.same((ran.status, ran.lines), (0, ["registered", "same", "E22 syntax"]))
    t.done("script", "ca.db", given=f"{DAY} crl\n")
    ran, _ = faults.run(t, ["crl", "ca.db"], only=STREAMS, short=size)
    t.same((ran.status, ran.out), (0, t.desk("crl", "ca.db").out), "the CRL's bytes")
    ran, _ = faults.run(t, ["audit", "ca.db"], only=STREAMS, short=size)
    t.same((ran.status, ran.lines), (0, ["sound, 1 certificates, 0 revoked, 1 CRLs"]))


@each({"one byte": 1, "seven bytes": 7}, seconds=3)
def an_open_desk_in_pieces(t, size):
    t.register(lines="".join(f"{asked}\n" for asked, _ in REGISTERED))
    t.clock(LATER)
    whole = t.open()
    asked = [("GET", "/status/05", None), ("POST", "/ocsp", bytes.fromhex(faults.OCSP_REQUEST)), ("GET", "/crl", None), ("POST", "/ocsp", bytes(9_000))]
    wanted = [whole.ask(*it) for it in asked]
    whole.end()
    opened = t.open(faults=faults.environment(only=STREAMS, short=size))
    t.same([opened.ask(*it) for it in asked], wanted, "HTTP in pieces")
    ran = t.desk("at", "control", given="status 05\nrequest 05 asked\nrevoke 1\nstatus 05\n", faults=faults.environment(only=STREAMS, short=size))
    t.same(ran.lines, ["good", "request 1 due 2026-01-03T00:00:00Z", "revoked", f"revoked {LATER} reason 0"], "the control socket in pieces")


@each({"one byte": 1, "seven bytes": 7}, seconds=2)
def an_import_at_the_control_socket_in_pieces(t, size):
    """Of 300 rows, 256 are in flight: more writes than a socket's buffer takes. So the desk must read on while no reply is read."""
    t.register(lines=f"{DAY} subscriber acme\n{DAY} order 1 398\n")
    t.clock(DAY)
    t.open()
    (t.room / "rows").write_text(f"1,05,{DAY},2026-01-10T00:00:00Z\n" * 300)
    ran = t.desk("at", "control", "--import", "rows", faults=faults.environment(only=STREAMS, short=size))
    t.same((ran.status, ran.out, ran.err), (0, b"registered\n" + b"same\n" * 299, b""))


@each({"standard error": ("stderr", ["--log"]), "a file": ("ca.log", ["--log-file", "ca.log"])})
def a_log_in_pieces(t, only, words):
    t.register()
    t.clock(DAY)
    desk = t.open("ca.db", *words, faults=faults.environment(only=only, short=1))
    t.same(t.control().ask("subscriber acme"), "subscriber 1")
    desk.end()
    told = desk.stderr.name if only == "stderr" else t.room / "ca.log"
    t.same(re.sub(r"\d+\n$", "N\n", open(told).read()), f'{DAY} control "subscriber acme" "subscriber 1" 13 N\n')


@each({"one byte": 1, "two bytes": 2}, seconds=2)
def a_control_line_is_answered_however_many_reads_it_takes(t, size):
    t.register()
    t.open(faults=faults.environment(only=STREAMS, short=size))
    with t.control() as control:
        for length in range(40):
            t.same(control.ask("x" * length), "E22 syntax", f"a line of {length} bytes")


@each({"one byte": 1, "4,095 bytes": 4_095}, seconds=2)
def a_register_s_file_in_pieces_is_a_failure_that_loses_nothing(t, size):
    base = t.register("base.db", "".join(f"{asked}\n" for asked, _ in REGISTERED))
    before = faults.tables(base)
    faults.copy(base, t.room / "ca.db")
    ran, _ = faults.run(t, ["script", "ca.db"], f"{DAY} subscriber b\n", only="ca.db,ca.db-wal", short=size)
    t.same((ran.status, ran.out, ran.err), (1, b"", b"F2 store\n"))
    t.same(faults.tables(t.room / "ca.db"), before, "the tables")
    t.same(t.done("script", "ca.db", given=f"{DAY} subscriber b\n"), "subscriber 2\n")


@each({"4,095 bytes": 4_095, "a hundred bytes": 100})
def a_register_that_is_only_read_in_pieces_is_read_whole(t, size):
    """An audit and a copy read on where a read ended."""
    t.register(lines="".join(f"{asked}\n" for asked, _ in REGISTERED))
    ran, _ = faults.run(t, ["audit", "ca.db"], only="ca.db", short=size)
    t.same((ran.status, ran.out, ran.err), (0, b"sound, 1 certificates, 0 revoked, 0 CRLs\n", b""))
    ran, _ = faults.run(t, ["copy", "ca.db", "copy.db"], only="ca.db", short=size)
    t.same((ran.status, ran.err), (0, b""))
    t.same((t.room / "copy.db").read_bytes(), (t.room / "ca.db").read_bytes(), "the copy")


@each({"fails": "", "fails from then on": "+"}, seconds=4)
def a_read_of_a_script_fails(t, how):
    base = t.register("base.db")
    for at in range(1, len(SCRIPT) // 16 + 2):
        faults.copy(base, t.room / "ca.db")
        ran, count = faults.run(t, ["script", "ca.db"], SCRIPT, only="stdin", short=16, fail=f"read:{at}{how}")
        whole = SCRIPT[: 16 * (at - 1)].count("\n")
        wanted = "".join(f"{reply}\n" for _, reply in LIFE[:whole])
        if not count["met"]:
            t.same((ran.status, ran.out.decode()), (0, REPLIES), f"read {at}, which did not fail")
            break
        t.same((ran.status, ran.out.decode(), ran.err), (1, wanted, b"F4 read\n"), f"read {at}")
        faults.audited(t, "ca.db", (int(whole > 2), int(whole > 4), [0, 0, 0, 0, 0, 0, 1, 1, 2, 3, 3][whole]), f"read {at}")


@test(seconds=2)
def a_read_of_an_import_fails(t):
    base = t.register("base.db", f"{DAY} subscriber acme\n{DAY} order 1 398\n")
    before = faults.tables(base)
    for at in range(1, len(ROWS) // 16 + 2):
        faults.copy(base, t.room / "ca.db")
        ran, count = faults.run(t, ["import", "ca.db", "--now", DAY], ROWS, only="stdin", short=16, fail=f"read:{at}")
        if count["met"]:
            t.same((ran.status, ran.out, ran.err), (1, b"", b"F4 read\n"), f"read {at}")
            t.same(faults.tables(t.room / "ca.db"), before, f"the tables after read {at}, where no row was entered")


# A file that a job reads in place of standard input: the words of the job, and what the file has.
NAMED = {
    "rows to register": (["at", "control", "--import", "named"], f"1,05,{DAY},2026-01-10T00:00:00Z\n" * 2),
    "rows to order and register": (["at", "control", "--import", "named", "--orders", 1, 10], f"05,{DAY},2026-01-10T00:00:00Z\n" * 2),
    "rows to revoke": (["at", "control", "--revoke", "named"], "05,superseded\n" * 2),
    "a log": (["replay", "control", "named"], f'{DAY} control "status 05" "unknown" 8 1\n' * 2),
}


@each(NAMED)
def a_read_of_a_named_file_fails(t, words, text):
    """The job does not take the failure for the end of the file."""
    t.register(lines=f"{DAY} subscriber acme\n{DAY} order 1 398\n")
    t.clock(DAY)
    t.open()
    (t.room / "named").write_text(text)
    for at in (1, 2, 3):
        ran = t.desk(*words, faults=faults.environment(only="named", short=16, fail=f"read:{at}", count=t.room / "count"))
        t.same((ran.status, ran.err, faults.counted(t.room / "count")["met"]), (1, b"F4 read\n", 1), f"read {at}")


@test
def a_read_of_a_published_crl_fails(t):
    t.register(lines=f"{DAY} crl\n")
    (t.room / "named").write_bytes(t.desk("crl", "ca.db").out)
    words = ["--port", program.free_port(), "--published", "named"]
    for words in (["open", "ca.db", "--control", "control", "--unsigned", *words], ["serve", "ca.db", "--requests", 1, *words]):
        for at in (1, 2, 3):
            ran, count = faults.run(t, words, only="named", short=16, fail=f"read:{at}")
            t.same((ran.status, ran.out, ran.err, count["met"]), (1, b"", b"F4 read\n", 1), f"{words[0]}, read {at}")


@each({"fails": "", "fails from then on": "+", "moves nothing": "=0"}, seconds=6)
def a_write_of_replies_fails(t, how):
    base = t.register("base.db")
    for at in range(1, len(REPLIES) // 5 + 2):
        faults.copy(base, t.room / "ca.db")
        ran, count = faults.run(t, ["script", "ca.db"], SCRIPT, only="stdout", short=5, fail=f"write:{at}{how}")
        if not count["met"]:
            break
        t.same((ran.status, ran.err), (1, b"F5 write\n"), f"write {at}")
        t.true(REPLIES.encode().startswith(ran.out), f"write {at}: the output is no prefix of the replies: {ran.out!r}")
        # The register has the command whose reply was cut, and no later one.
        place = ran.out.count(b"\n") + 1
        rest = "".join(f"{asked}\n" for asked, _ in LIFE[place:])
        again = program.run(["script", "ca.db"], rest, cwd=t.room)
        t.same(again.out.decode(), "".join(f"{reply}\n" for _, reply in LIFE[place:]), f"the replies to the remaining lines after write {at}")


@each({"a CRL": (["crl", "ca.db"], ""), "an audit": (["audit", "ca.db"], ""), "an import": (["import", "ca.db", "--now", LATER], f"1,05,{DAY},2026-01-10T00:00:00Z\n")})
def a_write_of_a_job_fails(t, words, given):
    t.register(lines="".join(f"{asked}\n" for asked, _ in REGISTERED) + f"{DAY} crl\n")
    for how in ("", "=0"):
        ran, count = faults.run(t, words, given, only="stdout", fail=f"write:1{how}")
        t.same((ran.status, ran.out, ran.err, count["met"]), (1, b"", b"F5 write\n", 1))
