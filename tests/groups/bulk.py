"""`desk at --revoke` and `desk at --import --orders` send the rows of a file, one after the other, to the control socket of an open desk."""

import contextlib
import fcntl
import os
import pty
import re
import signal
import socket
import subprocess
import threading
import time

from pathlib import Path

from lib import program
from lib.trial import each, test

DAY = "2026-01-01T00:00:00Z"
END = "2026-12-31T00:00:00Z"
MANY = 10_000


def entered(count):
    orders = "".join(f"{DAY} order 1 398\n{DAY} register {it} {it:02x} {DAY} {END}\n" for it in range(1, count + 1))
    return f"{DAY} subscriber acme\n{orders}"


def opened(t, count=4, *words):
    t.register(lines=entered(count))
    t.clock(DAY)
    return t.open("ca.db", *words)


def rows(t, text):
    (t.room / "rows.csv").write_text(text)
    return t.desk("at", "control", "--revoke", "rows.csv")


def ordering(subscriber=1, days=398):
    return "--import", "rows.csv", "--orders", str(subscriber), str(days)


def ordered(t, text, *terms):
    (t.room / "rows.csv").write_text(text)
    return t.desk("at", "control", *ordering(*terms))


def replies_to(t, *lines):
    return t.done("at", "control", given="".join(f"{it}\n" for it in lines)).splitlines()


@test
def each_row_is_requested_and_revoked_in_order(t):
    opened(t, 4, "--log-file", "ca.log")
    ran = rows(t, "serial,ground\n03,key-compromise\n01,superseded\n")
    t.same((ran.status, ran.out, ran.err), (0, b"revoked\nrevoked\n", b""))
    lines = [it.split('"')[1::2] for it in (t.room / "ca.log").read_text().splitlines()]
    t.same(
        [asked for asked, _ in lines],
        [f"request {3:040x} key-compromise", f"revoke 1 {3:040x}", f"request {1:040x} superseded", f"revoke 2 {1:040x}"],
        "the lines that were sent",
    )
    t.same(replies_to(t, "status 01", "status 02", "status 03"), [f"revoked {DAY} reason 4", "good", f"revoked {DAY} reason 1"])


@test
def it_is_run_again_and_revokes_nothing_twice(t):
    opened(t)
    t.same(rows(t, "01,superseded\n02,superseded\n").status, 0)
    ran = rows(t, "01,superseded\n02,misuse\n03,superseded\n")
    before = f"E19 revoked-before {DAY}\n"
    t.same((ran.status, ran.out.decode(), ran.err), (0, f"{before}{before}revoked\n", b""))
    t.same(replies_to(t, "counts"), ["good 1 revoked 3 expired 0"])
    t.same(t.desk("at", "control", given="show request 4\n").out, b"E17 no-request\n", "request 4: only three certificates got a request")


@test
def refused_rows_are_reported_and_the_others_revoked(t):
    opened(t)
    ran = rows(t, "01,superseded\n0f,superseded\n02,hold\n03,whim\n04,misuse\n")
    t.same((ran.status, ran.out, ran.err), (3, b"revoked\nE14 unknown-serial\nE15 no-hold\nE16 bad-ground\nrevoked\n", b"refused\n"))
    t.same(replies_to(t, "counts"), ["good 2 revoked 2 expired 0"])


BROKEN = {
    "one field": "02",
    "no serial number": "zz,superseded",
    "no ground": "02,",
    "no comma": "02 superseded",
    "a third field": "02,superseded,x",
    "quotation marks": '"02","superseded"',
    "a space": "02, superseded",
    "two words": "02,key compromise",
    "another line within": "02,superseded\rrevoke 1",
    "a long one": "02," + "x" * 20_000,
    "a long serial number": "0" * 20_000 + "2,superseded",
}


@each(BROKEN)
def a_broken_row_revokes_nothing(t, row):
    opened(t)
    ran = rows(t, f"01,superseded\n{row}\n03,superseded\n")
    t.same((ran.status, ran.err), (3, b"refused\n"))
    first, second, third = ran.out.splitlines()
    t.same((first, third), (b"revoked", b"revoked"))
    t.true(second in (b"E22 syntax", b"E16 bad-ground"), f"the reply to the row is {second!r}")
    t.same(replies_to(t, "status 02"), ["good"])


PASSED_OVER = {
    "nothing": ("", ""),
    "the header alone": ("serial,ground\n", ""),
    "an empty line": ("01,superseded\n\n02,superseded\n\n", "revoked\nrevoked\n"),
    "a CR before each LF": ("serial,ground\r\n01,superseded\r\n\r\n", "revoked\n"),
    "two files with their headers": ("serial,ground\n01,superseded\nserial,ground\n02,superseded\n", "revoked\nrevoked\n"),
}


@each(PASSED_OVER)
def no_row_has_no_reply(t, text, replies):
    opened(t)
    ran = rows(t, text)
    t.same((ran.status, ran.out.decode(), ran.err), (0, replies, b""))


@each({"alone": ("01,superseded\n02,super", 3, b"revoked\n", b"no-line-end\n"), "behind a refusal": ("0f,asked\n02,superseded", 3, b"E14 unknown-serial\n", b"refused\nno-line-end\n")})
def a_last_row_without_its_end_is_not_sent(t, text, *wanted):
    opened(t)
    ran = rows(t, text)
    t.same((ran.status, ran.out, ran.err), wanted)
    t.same(replies_to(t, "status 02"), ["good"])


@each({
    "no socket": ("none", "rows.csv", (1, b"F4 read\n")),
    "no file": ("control", "none.csv", (1, b"F4 read\n")),
})
def nobody_or_nothing_is_read(t, control, file, wanted):
    opened(t)
    (t.room / "rows.csv").write_text("01,superseded\n")
    ran = t.desk("at", control, "--revoke", file)
    t.same((ran.status, ran.err), wanted)
    t.same(replies_to(t, "status 01"), ["good"])


@test
def it_is_not_taken_beside_an_import(t):
    ran = t.desk("at", "control", "--import", "rows.csv", "--revoke", "rows.csv")
    t.same((ran.status, b"at takes --import or --revoke" in ran.err), (2, True), ran.err.decode())


@test
def a_request_that_was_open_already_stays_with_its_certificate(t):
    opened(t)
    replies_to(t, "request 01 superseded")
    t.same(rows(t, "01,superseded\n").out, b"revoked\n")
    t.same([it.split('"state":')[1].split(",")[0] for it in replies_to(t, "show request 1", "show request 2")], ['"revoked"'] * 2)


# The replies to this many rows do not fit into a pipe of one page. If the test does not read them, the program waits before the last row.
UNREAD, PAGE = 900, 4_096


def begun(t, words=("--revoke", "rows.csv")):
    """Starts `desk at`. Its output goes into a pipe of one page, so the program waits if the test does not read."""
    it = subprocess.Popen(
        [program.program(), "at", "control", *words], cwd=t.room, bufsize=0, stdout=subprocess.PIPE, stderr=subprocess.PIPE,
        env=program.environment(t._clock),
    )
    fcntl.fcntl(it.stdout, fcntl.F_SETPIPE_SZ, PAGE)
    t.callback(it.kill)
    return it


def of_many_rows(t):
    """Opens a desk with UNREAD certificates, and writes a file that revokes them all."""
    desk = opened(t, UNREAD)
    (t.room / "rows.csv").write_text("".join(f"{it:02x},superseded\n" for it in range(1, UNREAD + 1)))
    return desk


@test(seconds=4)
def it_is_killed_and_resumed(t):
    of_many_rows(t)
    kills = 0
    for count in (1, 40, 90):
        it = begun(t)
        for _ in range(count):
            it.stdout.readline()
        it.kill()
        it.wait(program.LONGEST)
        kills += 1
    ran = t.desk("at", "control", "--revoke", "rows.csv")
    t.same((ran.status, ran.err, len(ran.lines)), (0, b"", UNREAD))
    t.same({it.split()[0] for it in ran.lines}, {"E19", "revoked"}, "replies to the rows done before a kill, and to those done now")
    t.same(replies_to(t, "counts"), [f"good 0 revoked {UNREAD} expired 0"])
    # Each kill adds at most one request: if it comes between a row's request and its revocation, the next run enters another request.
    t.same(t.desk("at", "control", given=f"show request {UNREAD + kills + 1}\n").out, b"E17 no-request\n")


@test(seconds=2)
def a_desk_that_is_lost_ends_it(t):
    desk = of_many_rows(t)
    it = begun(t)
    it.stdout.readline()
    desk.end(signal.SIGKILL)
    # The test reads the replies until the program ends.
    it.stdout.read()
    t.same((it.wait(program.LONGEST), it.stderr.read() in (b"F4 read\n", b"F5 write\n")), (1, True))
    t.open("ca.db")
    t.same(t.desk("at", "control", "--revoke", "rows.csv").status, 0)
    t.same(replies_to(t, "counts"), [f"good 0 revoked {UNREAD} expired 0"])


def standing_in(path, replies, pause=0):
    """Answers each line at a socket with the next of these texts, after a pause. Returns the list of received lines, and the thread."""
    received, listener = [], socket.socket(socket.AF_UNIX)
    listener.bind(str(path))
    listener.listen()

    def serve():
        with listener, listener.accept()[0] as client, client.makefile("rb") as lines:
            for reply in replies:
                received.append(lines.readline().decode())
                time.sleep(pause)
                client.sendall(reply.encode())

    thread = threading.Thread(target=serve, daemon=True)
    thread.start()
    return received, thread


@each({
    "to a request": (["request 7 due"], [f"request {1:040x} superseded\n"]),
    "to a revocation": (["request 7 due x\n", "revo"], [f"request {1:040x} superseded\n", f"revoke 7 {1:040x}\n"]),
})
def a_reply_that_is_cut_off_is_not_printed(t, replies, lines):
    (t.room / "rows.csv").write_text("01,superseded\n02,superseded\n")
    received, thread = standing_in(t.room / "control", replies)
    ran = t.desk("at", "control", "--revoke", "rows.csv")
    thread.join(program.LONGEST)
    t.same((ran.status, ran.out, ran.err, received), (1, b"", b"F4 read\n", lines))


@test
def a_row_that_fails_ends_nothing(t):
    """The rows behind it are revoked."""
    (t.room / "rows.csv").write_text("01,superseded\n02,superseded\n03,superseded\n")
    received, _ = standing_in(t.room / "control", ["F2 store\n", "request 7 due x\n", "F1 memory\n", "request 8 due x\n", "revoked\n"])
    ran = t.desk("at", "control", "--revoke", "rows.csv")
    t.same((ran.status, ran.out, ran.err), (3, b"F2 store\nF1 memory\nrevoked\n", b"refused\n"))
    t.same(received[-1], f"revoke 8 {3:040x}\n")


@test
def a_refused_revocation_is_reported(t):
    (t.room / "rows.csv").write_text("01,superseded\n")
    received, _ = standing_in(t.room / "control", ["request 7 due x\n", "E18 declined-before\n"])
    ran = t.desk("at", "control", "--revoke", "rows.csv")
    t.same((ran.status, ran.out, ran.err), (3, b"E18 declined-before\n", b"refused\n"))
    t.same(received[1], f"revoke 7 {1:040x}\n")


@test(seconds=3)
def it_shows_its_progress_on_a_terminal(t):
    (t.room / "rows.csv").write_text("01,superseded\n" * 4)
    standing_in(t.room / "control", ["E14 unknown-serial\n"] * 4, pause=0.6)
    ours, theirs = pty.openpty()
    with open(t.room / "replies", "wb") as replies:
        it = subprocess.Popen([program.program(), "at", "control", "--revoke", "rows.csv"], cwd=t.room, stdout=replies, stderr=theirs, env=program.environment())
    os.close(theirs)
    shown = b""
    # os.read fails once the program has ended, because its side of the terminal is closed.
    with contextlib.suppress(OSError):
        while piece := os.read(ours, 4096):
            shown += piece
    os.close(ours)
    t.same((it.wait(program.LONGEST), (t.room / "replies").read_text()), (3, "E14 unknown-serial\n" * 4))
    t.true(re.search(rb"\d+ lines done, \d+ a second", shown), f"the terminal shows no progress: {shown!r}")


@test(seconds=20)
def ten_thousand_rows(t):
    opened(t, MANY)
    (t.room / "rows.csv").write_text("serial,ground\n" + "".join(f"{it:02x},superseded\n" for it in range(1, MANY + 1)))
    ran = t.desk("at", "control", "--revoke", "rows.csv", timeout=600)
    t.same((ran.status, ran.err, ran.out), (0, b"", b"revoked\n" * MANY))
    t.same(replies_to(t, "counts"), [f"good 0 revoked {MANY} expired 0"])
    again = t.desk("at", "control", "--revoke", "rows.csv", timeout=600)
    t.same((again.status, again.out), (0, f"E19 revoked-before {DAY}\n".encode() * MANY), "the same rows again")


# ---- registrations, each under an order of its own


def row(serial, end=END):
    return f"{serial},{DAY},{end}\n"


@test
def each_row_gets_an_order_and_is_registered_in_order(t):
    opened(t, 1, "--log-file", "ca.log")
    ran = ordered(t, "serial,notBefore,notAfter\n" + row("0b") + row("0a"))
    t.same((ran.status, ran.out, ran.err), (0, b"registered\nregistered\n", b""))
    lines = [it.split('"')[1] for it in (t.room / "ca.log").read_text().splitlines()]
    # Queries are in the log too.
    t.same(
        lines,
        [
            *(f"status {0xb:040x}", "order 1 398", f"register 2 {0xb:040x} {DAY} {END}"),
            *(f"status {0xa:040x}", "order 1 398", f"register 3 {0xa:040x} {DAY} {END}"),
        ],
        "the lines that were sent",
    )
    t.same(replies_to(t, "status 0a", "status 0b", "counts"), ["good", "good", "good 3 revoked 0 expired 0"])


@test
def a_certificate_that_is_there_gets_no_order(t):
    opened(t, 2)
    replies_to(t, "request 02 superseded", "revoke 1")
    ran = ordered(t, row("01") + row("02") + row("03") + row("03"))
    t.same((ran.status, ran.out.decode(), ran.err), (0, f"good\nrevoked {DAY} reason 4\nregistered\ngood\n", b""))
    t.same(replies_to(t, "order 1 1"), ["order 4"], "the next order: only the new certificate got one")


@test
def rows_of_certificates_that_have_expired_end_nothing(t):
    """One that is registered gets no order, and is not revoked. The rows behind it are registered and revoked."""
    ended = "2026-01-05T00:00:00Z"
    t.register(lines=f"{DAY} subscriber acme\n{DAY} order 1 398\n{DAY} register 1 01 {DAY} {ended}\n")
    t.clock("2026-01-06T00:00:00Z")
    t.open("ca.db")
    ran = ordered(t, row("01", ended) + row("02"))
    t.same((ran.status, ran.out, ran.err), (0, b"expired\nregistered\n", b""), "with one that is registered")
    ran = ordered(t, row("03", ended) + row("04"))
    t.same((ran.status, ran.out, ran.err), (3, b"E13 ended\nregistered\n", b"refused\n"), "with a new one")
    ran = rows(t, "01,superseded\n04,superseded\n")
    t.same((ran.status, ran.out, ran.err), (3, b"E20 expired\nrevoked\n", b"refused\n"), "to be revoked")
    t.same(replies_to(t, "counts", "order 1 1"), ["good 1 revoked 1 expired 1", "order 5"], "the next order: each new certificate got one")


REFUSED = {
    "no such subscriber": ((2, 398), row("0a"), "E06 no-subscriber"),
    "no days": ((1, 0), row("0a"), "E07 bad-days 398"),
    "too many days": ((1, 399), row("0a"), "E07 bad-days 398"),
}


@each(REFUSED)
def an_order_that_is_refused_registers_nothing(t, terms, text, reply):
    opened(t, 1)
    ran = ordered(t, row("01") + text + text, *terms)
    t.same((ran.status, ran.out.decode(), ran.err), (3, f"good\n{reply}\n{reply}\n", b"refused\n"))
    t.same(replies_to(t, "status 0a", "order 1 1"), ["unknown", "order 2"])


@test
def a_registration_that_is_refused_is_told_and_the_others_are_registered(t):
    opened(t, 1)
    ran = ordered(t, row("0a", "2027-02-03T00:00:00Z") + row("0b", "2025-01-01T00:00:00Z") + row("0c"))
    t.same((ran.status, ran.out, ran.err), (3, b"E12 too-long\nE11 bad-validity\nregistered\n", b"refused\n"))
    t.same(replies_to(t, "counts"), ["good 2 revoked 0 expired 0"])


NO_REGISTRATION = {
    "one field": "0b",
    "two fields": f"0b,{DAY}",
    "the order of an import": f"2,0b,{DAY},{END}",
    "no order in an import's place": f",0b,{DAY},{END}",
    "a fourth field": f"0b,{DAY},{END},x",
    "no serial number": f"zz,{DAY},{END}",
    "no moment": f"0b,2026-01-01,{END}",
    "no second moment": f"0b,{DAY},",
    "a space": f"0b, {DAY},{END}",
    "quotation marks": f'"0b","{DAY}","{END}"',
    "another line within": f"0b,{DAY},{END}\rorder 1 1",
    "a long one": f"0b,{DAY}," + "x" * 20_000,
    "the header of revocations": "serial,ground",
}


@each(NO_REGISTRATION)
def a_broken_row_gets_no_order(t, text):
    opened(t, 1)
    ran = ordered(t, row("0a") + f"{text}\n" + row("0c"))
    t.same((ran.status, ran.out, ran.err), (3, b"registered\nE22 syntax\nregistered\n", b"refused\n"))
    t.same(replies_to(t, "status 0b", "order 1 1"), ["unknown", "order 4"])


@each({
    "nothing": ("", ""),
    "the header alone": ("serial,notBefore,notAfter\n", ""),
    "a CR before each LF": (f"serial,notBefore,notAfter\r\n0a,{DAY},{END}\r\n\r\n", "registered\n"),
    "two files with their headers": (2 * f"serial,notBefore,notAfter\n0a,{DAY},{END}\n", "registered\ngood\n"),
})
def no_row_to_register_has_no_reply(t, text, replies):
    opened(t, 1)
    ran = ordered(t, text)
    t.same((ran.status, ran.out.decode(), ran.err), (0, replies, b""))


@test
def a_last_registration_without_its_end_is_not_sent(t):
    opened(t, 1)
    ran = ordered(t, row("0a") + row("0b").rstrip("\n"))
    t.same((ran.status, ran.out, ran.err), (3, b"registered\n", b"no-line-end\n"))
    t.same(replies_to(t, "status 0b", "order 1 1"), ["unknown", "order 3"])


WANTED = b"error: at takes --import or --revoke, and not both; --orders needs --import\n"


@each({
    "without an import": (("--orders", "1", "398"), WANTED),
    "beside a revocation": (("--revoke", "rows.csv", "--orders", "1", "398"), WANTED),
    "beside a revocation and an import": (("--revoke", "rows.csv", "--import", "rows.csv", "--orders", "1", "398"), WANTED),
    "an import beside a revocation": (("--revoke", "rows.csv", "--import", "rows.csv"), WANTED),
    "one value": (("--import", "rows.csv", "--orders", "1"), b"--orders"),
    "three values": (("--import", "rows.csv", "--orders", "1", "398", "2"), b"'2'"),
    "a name": (("--import", "rows.csv", "--orders", "acme", "398"), b"invalid value 'acme' for '--orders'"),
    "days that are no number": (("--import", "rows.csv", "--orders", "1", "1y"), b"invalid value '1y' for '--orders'"),
    "twice": (("--import", "rows.csv", "--orders", "1", "1", "--orders", "1", "1"), b"--orders"),
})
def orders_are_two_numbers_of_an_import(t, words, part):
    ran = t.desk("at", "control", *words)
    t.same((ran.status, ran.out, part in ran.err), (2, b"", True), ran.err.decode())


@test(seconds=4)
def an_import_is_killed_and_resumed(t):
    opened(t, 1)
    (t.room / "rows.csv").write_text("".join(row(f"{it:02x}") for it in range(2, 302)))
    kills = 0
    for count in (1, 40, 90):
        it = begun(t, ordering())
        for _ in range(count):
            it.stdout.readline()
        it.kill()
        it.wait(30)
        kills += 1
    ran = t.desk("at", "control", *ordering())
    t.same((ran.status, ran.err, len(ran.lines)), (0, b"", 300))
    t.same(set(ran.lines), {"good", "registered"}, "replies to the rows done before a kill, and to those done now")
    t.same(replies_to(t, "counts"), ["good 301 revoked 0 expired 0"])
    # Each kill adds at most one order: if it comes between a row's order and its registration, the next run enters another order.
    (reply,) = replies_to(t, "order 1 1")
    t.true(302 <= int(reply.split()[1]) <= 302 + kills, f"the number of the next order, after {kills} kills: {reply}")


@each({
    "to a status": (["unknown"], [f"status {1:040x}\n"]),
    "to an order": (["unknown\n", "order 7"], [f"status {1:040x}\n", "order 1 398\n"]),
    "to a registration": (["unknown\n", "order 7\n", "regis"], [f"status {1:040x}\n", "order 1 398\n", f"register 7 {1:040x} {DAY} {END}\n"]),
})
def a_reply_to_a_row_of_an_import_that_is_cut_off_is_not_told(t, replies, lines):
    (t.room / "rows.csv").write_text(row("01") + row("02"))
    received, thread = standing_in(t.room / "control", replies)
    ran = t.desk("at", "control", *ordering())
    thread.join(30)
    t.same((ran.status, ran.out, ran.err, received), (1, b"", b"F4 read\n", lines))


@test(seconds=30)
def ten_thousand_registrations(t):
    opened(t, 0)
    (t.room / "rows.csv").write_text("serial,notBefore,notAfter\n" + "".join(row(f"{it:02x}") for it in range(1, MANY + 1)))
    for reply in ("registered", "good"):
        began = time.monotonic()
        ran = t.desk("at", "control", *ordering(), timeout=300)
        t.note(f"{MANY} rows, {reply}: {time.monotonic() - began:.1f} s")
        t.same((ran.status, ran.err, ran.out), (0, b"", f"{reply}\n".encode() * MANY))
    t.same(replies_to(t, "counts", "order 1 1"), [f"good {MANY} revoked 0 expired 0", f"order {MANY + 1}"])
