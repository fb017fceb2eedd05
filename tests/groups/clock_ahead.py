"""If the clock is far ahead of the register, an open desk, and `script` and `import` with --clock, refuse commands until the operator accepts it."""

import json
import re

from lib import program
from lib.program import ANY_SIGNATURE, moment_of, parted
from lib.trial import each, test

DAY = "2026-01-01T00:00:00Z"
FIRST = program.seconds_of(DAY)
MONTH = 30 * 86_400
LINES = ["subscriber acme", "order 1 90", f"register 1 05 {DAY} 2026-03-01T00:00:00Z", "order 1 90", f"register 2 06 {DAY} 2026-03-01T00:00:00Z", "request 05 asked", "crl"]
BAD = "bad-clock"


def opened(t, *words, **how):
    """An open register whose last accepted moment is DAY."""
    t.register(**how)
    t.clock(DAY)
    desk = t.open("ca.db", *words)
    t.done("at", "control", given="".join(f"{it}\n" for it in LINES))
    return desk


def health(desk):
    status, _, body = parted(desk.ask("GET", "/health"))
    return status, json.loads(body)["clock"]


def post(desk):
    return parted(desk.ask("POST", "/requests", '{"serial":"06","ground":"asked"}'))


@test
def commands_are_refused_until_the_operator_accepts_the_clock(t):
    desk = opened(t)
    with t.control() as control:
        t.clock(moment_of(FIRST + MONTH))
        t.same((control.ask("order 1 30"), health(desk)[1]), ("order 3", None), "30 days later")
        last, now = moment_of(FIRST + MONTH), moment_of(FIRST + 2 * MONTH + 1)
        t.clock(now)
        for line in ("subscriber other", "order 1 30", f"register 3 07 {now} {now}", "request 06 asked", "decline 1", "revoke 1", "revoke 1 05", "decline 1 05", "crl"):
            t.same(control.ask(line), BAD, line)
        t.same(control.ask("why"), f"why the clock is more than 30 days past the last command, {last}")
        t.same(post(desk)[::2], (503, b'{"error":"503"}'))
        t.same(health(desk), (503, now))
        # The desk answers queries, and refuses malformed lines, as before.
        t.same([control.ask(it) for it in ("counts", "status 06", "overdue", "crl 1", "order x 1")], ["good 0 revoked 0 expired 2", "expired", "overdue 0", "E22 syntax", "E22 syntax"])
        t.same(desk.ask("GET", "/crl")[9:12], b"200")
        t.same([control.ask(it) for it in ("accept-clock", "accept-clock now", f"accept-clock  {now}", f"accept-clock {now} ")], ["E22 syntax"] * 4)
        t.same(control.ask(f"accept-clock {last}"), "clock accepted", "a moment that is not the clock's")
        t.same(control.ask("order 1 30"), BAD)
        t.same(control.ask(f"accept-clock {now}"), "clock accepted")
        t.same(health(desk)[1], None)
        t.same(control.ask("order 1 30"), "order 4")
        t.same(control.ask("crl"), "crl 2 entries 0")


@test
def an_accepted_clock_lasts_for_30_days_and_until_the_desk_is_closed(t):
    desk = opened(t)
    t.clock(moment_of(FIRST + 2 * MONTH))
    with t.control() as control:
        t.same(control.ask(f"accept-clock {moment_of(FIRST + 2 * MONTH - 5)}"), "clock accepted")
        t.clock(moment_of(FIRST + 3 * MONTH - 4))
        t.same(control.ask("order 1 30"), BAD, "more than 30 days past the accepted moment")
        t.clock(moment_of(FIRST + 3 * MONTH - 5))
        t.same(health(desk)[1], None)
    desk.end()
    (t.room / "control").unlink(missing_ok=True)
    t.open("ca.db")
    with t.control() as control:
        t.same(control.ask("order 1 30"), BAD, "opened again")


@test
def a_moment_that_is_still_to_come_may_be_accepted(t):
    opened(t)
    t.clock(moment_of(FIRST + 2 * MONTH))
    with t.control() as control:
        t.same(control.ask("order 1 30"), BAD)
        t.same(control.ask(f"accept-clock {moment_of(FIRST + 3 * MONTH)}"), "clock accepted")
        t.same(control.ask("order 1 30"), "order 3")


@test
def desk_at_ends_with_status_3(t):
    opened(t)
    t.clock(moment_of(FIRST + MONTH + 1))
    ran = t.desk("at", "control", given="order 1 30\ncounts\n")
    t.same((ran.status, ran.lines, ran.err), (3, [BAD, "good 2 revoked 0 expired 0"], b"refused\n"))


@test
def a_new_register_has_no_moment_to_compare_with(t):
    t.register()
    t.clock("2099-01-01T00:00:00Z")
    desk = t.open("ca.db")
    t.same(health(desk)[1], None)
    t.same(t.done("at", "control", given="subscriber acme\n"), "subscriber 1\n")


@test
def nothing_is_signed_for_a_crl_that_is_refused(t):
    asked = []
    t.signer(answer=lambda message, call: (asked.append(call), ANY_SIGNATURE)[1])
    opened(t, "--signer", "ca.sign", "--algorithm", "ecdsa-sha256", key=program.P256_KEY)
    t.same(len(asked), 1, "signatures for the first CRL")
    t.clock(moment_of(FIRST + MONTH + 1))
    with t.control() as control:
        t.same((control.ask("crl"), len(asked)), (BAD, 1))
        t.same(control.ask(f"accept-clock {moment_of(FIRST + MONTH)}"), "clock accepted")
        t.same((control.ask("crl"), len(asked)), ("crl 2 entries 0", 2))


@test
def serve_answers_as_before(t):
    t.register(lines="".join(f"{DAY} {it}\n" for it in LINES))
    t.clock(moment_of(FIRST + MONTH + 1))
    desk = t.open("ca.db", "--requests", "1", command="serve")
    t.same(post(desk)[0], 200)


@test
def a_script_by_the_clock(t):
    t.register(lines="".join(f"{DAY} {it}\n" for it in LINES))
    t.clock(moment_of(FIRST + MONTH + 1))
    for words in (("--clock",), ("--clock", "--strict")):
        ran = t.desk("script", "ca.db", *words, given="order 1 30\n")
        t.same((ran.status, ran.out, ran.err), (1, b"", b"bad-clock\n"))
    t.same(t.done("script", "ca.db", "--clock", "--accept-clock", given="order 1 30\n"), "order 3\n")
    t.clock(moment_of(FIRST + 2 * MONTH + 1))
    t.same(t.done("script", "ca.db", "--clock", given="order 1 30\n"), "order 4\n", "30 days later")
    t.same(t.done("script", "ca.db", given="2027-01-01T00:00:00Z order 1 30\n"), "order 5\n", "a line with its own moment")


@test
def an_import_by_the_clock(t):
    t.register(lines="".join(f"{DAY} {it}\n" for it in [*LINES, "order 1 90", "order 1 90"]))
    now = moment_of(FIRST + MONTH + 1)
    t.clock(now)
    later, end = moment_of(FIRST + 3 * MONTH), moment_of(FIRST + 4 * MONTH)
    rows = [f"3,07,{now},{later}\n", f"4,08,{later},{end}\n"]
    for words in (("--clock",), ("--clock", "--strict")):
        ran = t.desk("import", "ca.db", *words, given=rows[0])
        t.same((ran.status, ran.out, ran.err), (1, b"", b"bad-clock\n"))
    t.same(t.done("import", "ca.db", "--clock", "--accept-clock", given=rows[0]), "registered\n")
    t.same(t.done("import", "ca.db", "--now", later, given=rows[1]), "registered\n", "with --now")


@each({f"{command}, {year}": (command, year) for command in ("script", "import") for year in (2027, 2030, 2070, 9998)})
def a_clock_that_is_years_ahead_is_refused_too(t, command, year):
    t.register(lines=f"{DAY} {LINES[0]}\n")
    t.clock(f"{year}-12-31T00:00:00Z")
    for more in ((), ("--strict",)):
        ran = t.desk(command, "ca.db", "--clock", *more)
        t.same((ran.status, ran.out, ran.err), (1, b"", b"bad-clock\n"), f"{command} {more}")


@each({it: it for it in ("script", "import")})
def it_is_refused_past_as_many_days_as_help_names(t, command):
    days = int(re.search(r"--accept-clock .*?more than (\d+) days past", t.done(command, "--help"), re.DOTALL)[1])
    t.register(lines=f"{DAY} {LINES[0]}\n")
    for seconds, told in ((0, (0, b"")), (1, (1, b"bad-clock\n"))):
        t.clock(moment_of(FIRST + days * 86_400 + seconds))
        ran = t.desk(command, "ca.db", "--clock")
        t.same((ran.status, ran.err), told, f"{days} days and {seconds} s past the last command")
