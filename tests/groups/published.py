"""`--published` of `open` and `serve` compares a register with a published CRL, and examples/after-a-backup.py builds the script that enters again what a
register lost that was restored from a backup."""

import json
import os
import re
import shutil
import sys

from lib import authority, program, registers
from lib.authority import EXAMPLES, Authority, body_of, moment_of
from lib.documents import blocks
from lib.program import Control, seconds_of
from lib.trial import each, test
from model import der

BEGUN = "2026-01-01T00:00:00Z"
NEXT = "2026-01-02T00:00:00Z"
AFTER_A_BACKUP = [sys.executable, EXAMPLES / "after-a-backup.py"]
LISTS = ("subscribers", "orders", "certificates", "requests", "revoked", "crls")


def lines(*words, at=BEGUN):
    return "".join(f"{at} {it}\n" for it in words)


# 05 is revoked and on CRL 1, 06 is good, and 07 ends ten days later.
ENTERED = lines(
    "subscriber acme", "order 1 398", "order 1 398", "order 1 10", f"register 1 05 {BEGUN} 2026-12-31T00:00:00Z", f"register 2 06 {BEGUN} 2026-12-31T00:00:00Z",
    f"register 3 07 {BEGUN} 2026-01-10T00:00:00Z", "request 05 key-compromise", "revoke 1", "crl",
)
LISTED_06 = lines("request 06 superseded", "revoke 2", "crl", at=NEXT)
LISTED_07 = lines("request 07 asked", "revoke 2", "crl", at=NEXT)


def serial(text):
    return text.rjust(40, "0")


def run(t, file, more, crl="published.crl"):
    """Runs a script over a register, and writes its latest CRL to a file."""
    if more:
        t.desk("script", file, given=more)
    (t.room / crl).write_bytes(t.desk("crl", file).out)
    return crl


def begun(t):
    """Makes a register and a copy of it, and sets the clock to two days later."""
    t.register(lines=ENTERED)
    t.done("copy", "ca.db", "copy.db")
    t.clock("2026-01-03T00:00:00Z")


def ending(ran):
    return ran.status, ran.lines, ran.err_lines


def compared(t, command="open", file="copy.db", crl="published.crl"):
    """Starts a desk with a published CRL that stops it. Returns its status, and its lines on standard output and on standard error."""
    more = {"open": ("--control", "control", "--unsigned"), "serve": ("--requests", "1")}[command]
    if not (t.room / file).exists():
        return ending(t.desk(command, file, "--port", program.free_port(), *more, "--published", crl))
    before = (t.room / file).read_bytes()
    ran = t.desk(command, file, "--port", program.free_port(), *more, "--published", crl)
    t.same(((t.room / file).read_bytes(), (t.room / "control").exists()), (before, False), "the register as it was, and no control socket")
    return ending(ran)


def serves(t, command="open", file="copy.db", crl="published.crl"):
    desk = t.open(file, "--published", crl, *(("--requests", "1") if command == "serve" else ()), command=command)
    t.same(program.parted(desk.ask("GET", "/counts"))[0], 200)
    desk.end()


BEHIND = {
    "a higher number": ("crl\n", ["missing crl 2"]),
    "numbers between": ("crl\ncrl\ncrl\n", ["missing crl 4"]),
    "an entry that is not revoked": (LISTED_06, ["missing crl 2", f"missing revocation {serial('06')}"]),
    "entries in the CRL's order": (
        LISTED_07 + lines("request 06 asked", "revoke 3", "crl", at=NEXT),
        ["missing crl 3", f"missing revocation {serial('06')}", f"missing revocation {serial('07')}"],
    ),
    "an entry of a certificate that is unknown": (
        lines("order 1 398", f"register 4 ff {NEXT} 2026-12-31T00:00:00Z", "request ff asked", "revoke 2", "crl", at=NEXT),
        ["missing crl 2", f"missing revocation {serial('ff')}"],
    ),
}


@each({f"{name}, {command}": (command, *it) for name, it in BEHIND.items() for command in ("open", "serve")})
def nothing_is_served(t, command, more, wanted):
    begun(t)
    run(t, "ca.db", "".join(it if it.startswith("2026") else f"{NEXT} {it}" for it in more.splitlines(keepends=True)))
    t.same(compared(t, command), (1, wanted, ["behind-crl"]))


@test
def an_entry_with_a_number_that_is_not_higher(t):
    """The register and its copy went on separately, and each issued a CRL 2."""
    begun(t)
    run(t, "ca.db", LISTED_06)
    t.done("script", "copy.db", given=f"{NEXT} crl\n")
    t.same(compared(t), (1, [f"missing revocation {serial('06')}"], ["behind-crl"]))


@test(seconds=2)
def a_crl_of_more_than_16_mib_is_compared(t):
    """A signature of 17 MB makes the CRL so long. The desk does not verify it."""
    begun(t)
    run(t, "ca.db", "")
    part, algorithm, _ = authority.values_of(authority.inside((t.room / "published.crl").read_bytes())[1])
    (t.room / "long.crl").write_bytes(der.value(0x30, part[2], algorithm[2], der.value(0x03, bytes(17_000_000))))
    serves(t, crl="long.crl")


@test
def a_crl_that_is_larger_than_the_memory(t):
    """The file has 200 MB, and the program may have 95 MB."""
    t.register()
    (t.room / "long.crl").touch()
    os.truncate(t.room / "long.crl", 200_000_000)
    for words in (("open", "ca.db", "--control", "control", "--unsigned"), ("serve", "ca.db", "--requests", "1")):
        more = ("--port", program.free_port(), "--published", "long.crl")
        ran = t.tried("prlimit", "--as=95000000", program.program(), *words, *more)
        t.same((ran.returncode, ran.stdout, ran.stderr), (1, b"", b"F1 memory\n"), words[0])


@test(seconds=2)
def hundreds_of_entries_that_are_not_revoked(t):
    registers.make_revoked(t.room / "ca.db", 300, program.KEY)
    t.same(t.done("script", "ca.db", given=f"{NEXT} crl\n"), "crl 1 entries 300\n")
    (t.room / "published.crl").write_bytes(t.desk("crl", "ca.db").out)
    listed = [row[0].hex() for row in t.sql("ca.db", "SELECT serial FROM revocation ORDER BY serial")]
    t.register("copy.db")
    t.clock(NEXT)
    t.same(compared(t), (1, ["missing crl 1", *(f"missing revocation {it}" for it in listed)], ["behind-crl"]))


NOT_BEHIND = {
    "the same CRL": ("", ""),
    "an older one": ("", LISTED_06),
    "a newer one, which it has": (LISTED_06, LISTED_06),
}


@each({f"{name}, {command}": (command, *it) for name, it in NOT_BEHIND.items() for command in ("open", "serve")})
def all_of_it_is_there(t, command, published, entered):
    begun(t)
    run(t, "ca.db", published)
    if entered:
        t.done("script", "copy.db", given=entered)
    serves(t, command)


@test
def a_certificate_that_has_ended(t):
    """A CRL may still list a certificate that has ended. A desk that has its revocation serves, and one that lost it doesn't."""
    begun(t)
    run(t, "ca.db", LISTED_07)
    t.clock("2026-02-01T00:00:00Z")
    t.same(compared(t), (1, ["missing crl 2", f"missing revocation {serial('07')}"], ["behind-crl"]))
    serves(t, file="ca.db")


@test
def moments_of_2050_and_later(t):
    """The times of such a CRL are GeneralizedTimes (RFC 5280 5.1.2.4)."""
    begun(t)
    t.clock("2051-01-02T00:00:00Z")
    run(t, "ca.db", "2051-01-01T00:00:00Z crl\n")
    t.same(compared(t), (1, ["missing crl 2"], ["behind-crl"]))
    serves(t, file="ca.db")


@test
def a_clock_that_is_behind(t):
    """The comparison does not depend on the clock. Commands and answers do."""
    begun(t)
    run(t, "ca.db", LISTED_06)
    t.done("script", "copy.db", given=lines("subscriber beta", at="2026-01-04T00:00:00Z"))
    t.same(compared(t), (1, ["missing crl 2", f"missing revocation {serial('06')}"], ["behind-crl"]))
    t.done("script", "copy.db", given=lines("request 06 superseded", "revoke 2", "crl", at="2026-01-04T00:00:00Z"))
    desk = t.open("copy.db", "--published", "published.crl")
    t.same(program.parted(desk.ask("GET", "/counts"))[0], 409)


def in_pem(t, crl):
    return t.tool("openssl", "crl", "-inform", "DER", "-outform", "PEM", given=crl)


CONFIG = """[ca]
default_ca = it
[it]
database = index.txt
certificate = it.pem
private_key = it.key
default_md = sha256
default_crl_days = 8
"""


def of_openssl(t, number=None, listed="05"):
    """A CRL that openssl issues, with this number; or of version 1, without one. It lists this serial number."""
    Authority(t, name="it")
    (t.room / "index.txt").write_text(f"R\t261231000000Z\t260101000000Z\t{listed}\tunknown\t/CN=a\n")
    (t.room / "crlnumber").write_text(f"{number}\n")
    (t.room / "ca.cnf").write_text(CONFIG + ("crlnumber = crlnumber\ncrl_extensions = more\n[more]\nauthorityKeyIdentifier = keyid\n" if number else ""))
    t.tool("openssl", "ca", "-config", "ca.cnf", "-gencrl", "-out", "it.pem.crl")
    return t.tool("openssl", "crl", "-in", "it.pem.crl", "-outform", "DER")


NO_CRLS = {
    "text": lambda t, crl: b"no CRL\n",
    "PEM": in_pem,
    "an empty file": lambda t, crl: b"",
    "without its last octet": lambda t, crl: crl[:-1],
    "with an octet behind it": lambda t, crl: crl + b"\0",
    "a certificate": lambda t, crl: t.tool("openssl", "x509", "-in", Authority(t).pem, "-outform", "DER"),
    "without a number": lambda t, crl: of_openssl(t),
    "a number of 2^63": lambda t, crl: of_openssl(t, "8000000000000000"),
    "an entry for a serial number of 2^159": lambda t, crl: of_openssl(t, "0A", "80" + "00" * 19),
}


@each({f"{name}, {command}": (command, it) for name, it in NO_CRLS.items() for command in ("open", "serve")})
def no_crl(t, command, made):
    begun(t)
    crl = t.desk("crl", "ca.db").out
    (t.room / "published.crl").write_bytes(made(t, crl))
    t.same(compared(t, command), (1, [], ["not-a-crl"]))


@test
def a_crl_of_openssl(t):
    """The CRL of another issuer is compared as well, since the desk verifies no signature."""
    begun(t)
    (t.room / "published.crl").write_bytes(of_openssl(t, "0A"))
    t.same(compared(t), (1, ["missing crl 10"], ["behind-crl"]))
    (t.room / "published.crl").write_bytes(of_openssl(t, "01"))
    serves(t)


@each({"open": ("open",), "serve": ("serve",)})
def a_file_that_is_not_there(t, command):
    begun(t)
    t.same(compared(t, command, crl="nowhere.crl"), (1, [], ["F4 read"]))
    t.same(compared(t, command, crl="."), (1, [], ["F4 read"]), "a folder")


@test
def the_register_is_looked_at_first(t):
    begun(t)
    (t.room / "published.crl").write_bytes(b"no CRL\n")
    t.same(compared(t, file="nowhere.db"), (1, [], ["F2 store"]))


# examples/after-a-backup.py


def again(t, *words, file="ca.db", status=0):
    """Runs after-a-backup.py. Returns the script that it prints, and its lines on standard error."""
    ran = t.tried(*AFTER_A_BACKUP, file, *words, env=dict(program.environment(), DESK=program.program()))
    t.same(ran.returncode, status, f"status; it printed {(ran.stdout + ran.stderr).decode()}")
    return ran.stdout.decode().splitlines(), ran.stderr.decode().splitlines()


def listed(t, file="ca.db"):
    return {it: t.done("list", file, it) for it in LISTS}


def logged(*exchanges, at=NEXT, client="control"):
    """Lines of a log: each has a command at the control socket, its reply, and the request that the log names. An older desk calls the socket `counter`."""
    made = []
    for asked, answered, *named in exchanges:
        end = f" request {named[0]}" if named else ""
        made.append(f'{at} {client} "{asked}" "{answered}" {len(answered) + 1} 99{end}\n')
    return "".join(made)


ENDS = "2026-12-31T00:00:00Z"
S6 = serial("06")
# For each: the lines of a log, the script for a register of ENTERED, and the lines on standard error.
LOGS = {
    "nothing": (logged(("counts", "good 2 revoked 1 expired 0"), ("subscriber", "E22 syntax"), ("revoke 9", "E17 no-request")), [], []),
    "each command": (
        logged(
            ("subscriber beta", "subscriber 2"), ("order 2 398", "order 4"), (f"register 4 0A {NEXT} {ENDS}", "registered"),
            (f"register 4 0A {NEXT} {ENDS}", "same"), ("request 06 misuse", "request 2 due D", f"2 {S6} misuse"), ("decline 2", "declined", f"2 {S6}"),
            ("request 06 asked", "request 3 due D", f"3 {S6} asked"), (f"revoke 3 {S6}", "revoked late", f"3 {S6}"), ("crl", "crl 2 entries 2"),
        ),
        ["subscriber beta", "order 2 398", f"register 4 0A {NEXT} {ENDS}", "request 6 misuse", "decline 2", "request 6 asked", "revoke 3", "crl"],
        [],
    ),
    "those of a desk that was upgraded": (
        logged(("subscriber beta", "subscriber 2"), ("order 2 398", "order 4"), ("request 06 misuse", "request 2 due D", f"2 {S6} misuse"), client="counter")
        + logged((f"register 4 0A {NEXT} {ENDS}", "registered"), ("revoke 2", "revoked", f"2 {S6}"), ("crl", "crl 2 entries 2")),
        ["subscriber beta", "order 2 398", "request 6 misuse", f"register 4 0A {NEXT} {ENDS}", "revoke 2", "crl"],
        [],
    ),
    "another client": (logged(("subscriber beta", "subscriber 2"), client="controls"), [], []),
    "what the register has": (
        logged(
            ("subscriber acme", "subscriber 1"), ("order 1 398", "order 1"), (f"register 1 05 {BEGUN} {ENDS}", "registered"),
            ("request 05 key-compromise", "request 1 due D", f"1 {serial('05')} key-compromise"), ("revoke 1", "revoked", f"1 {serial('05')}"),
            ("crl", "crl 1 entries 1"), at=BEGUN,
        ),
        [],
        [],
    ),
    "over HTTP": (
        f'{NEXT} 127.0.0.1:51236 "POST /requests HTTP/1.1" "HTTP/1.1 200 OK" 173 1980 request 2 {S6} superseded\n'
        f'{NEXT} 127.0.0.1:51238 "GET /counts HTTP/1.1" "HTTP/1.1 200 OK" 140 312\n{NEXT} 127.0.0.1:51240 lost late\n'
        + logged(("revoke 2", "revoked", f"2 {S6}")),
        ["request 6 superseded", "revoke 2"],
        [],
    ),
    "requests that the log does not have": (
        logged(("request 06 asked", "request 4 due D", f"4 {S6} asked"), ("revoke 4", "revoked", f"4 {S6}")),
        ["request 6 asked", "revoke 2"],
        [],
    ),
    "a revocation whose request the log does not have": (
        logged(("revoke 4", "revoked", f"4 {S6}")),
        ["request 6 asked", "revoke 2"],
        ["ca.log:1: neither the register nor the log has request 4: requested as asked"],
    ),
    "a log whose requests are not named": (
        logged(("request 06 asked", "request 2 due D"), ("revoke 2", "revoked"), ("revoke 7", "revoked"))
        + f'{NEXT} 127.0.0.1:51236 "POST /requests HTTP/1.1" "HTTP/1.1 200 OK" 173 1980\n',
        ["request 06 asked".replace("06", "6"), "revoke 2"],
        [
            "ca.log:4: left out: the log does not name the request",
            "ca.log:3: left out: neither the register nor the log has request 7, which was revoked",
        ],
    ),
    "a subscriber and an order that the log does not have": (
        logged(("subscriber gamma", "subscriber 3"), ("order 2 90", "order 4"), ("order 3 90", "order 5"), (f"register 4 0B {NEXT} {NEXT}", "registered"),
               (f"register 5 0C {NEXT} {NEXT}", "registered")),
        ["subscriber gamma", "order 2 90", f"register 4 0C {NEXT} {NEXT}"],
        [
            "ca.log:2: left out: neither the register nor the log has subscriber 2",
            "ca.log:4: left out: neither the register nor the log has order 4, under which serial number B was registered",
        ],
    ),
    "what no script has": (
        # The last line was cut off in its last number, and another one came behind it.
        logged((f"schedule {BEGUN}=200", "schedule set"), ("crl", "F3 signer"), ("revoke 1", "F2 store")) + "no line\n"
        + logged(("subscriber beta", "subscriber 2")).removesuffix("9\n") + logged(("subscriber gamma", "subscriber 3")),
        [],
        [
            f"ca.log:1: not in the script: set the schedule first, by desk schedule REGISTER {BEGUN}=200",
            "ca.log:3: left out: the reply to 'revoke 1' was F2 store, and it may stand or not",
            "ca.log:4: no line of a log",
            "ca.log:5: no line of a log",
        ],
    ),
    "exchanges for which the signer failed": (
        logged(("crl", "F3 signer")).replace(" 99\n", " 99 signer\n")
        + f'{NEXT} 127.0.0.1:51236 "POST /ocsp HTTP/1.1" "HTTP/1.1 200 OK" 180 1980 signer\n' + logged(("subscriber beta", "subscriber 2")),
        ["subscriber beta"],
        [],
    ),
    "octets that the desk never writes": (
        "\xff\0\n" + logged(("subscriber beta", "subscriber 2")), ["subscriber beta"], ["ca.log:1: no line of a log"],
    ),
}


@each(LOGS)
def of_a_log(t, log, wanted, told):
    begun(t)
    (t.room / "ca.log").write_text(log, "latin-1")
    script, said = again(t, "--log", "ca.log")
    t.same(script, [f"{NEXT} {it}" for it in wanted])
    t.same(said[:-1], told, "standard error")
    t.true(said[-1].startswith(f"{len(wanted)} lines"), f"the last line has another number of lines: {said[-1]}")
    replies = t.done("script", "ca.db", "--strict", given="".join(f"{it}\n" for it in script)).splitlines() if script else []
    t.same([it for it in replies if it[:1] in "EF"], [], "refusals")
    t.same(again(t, "--log", "ca.log")[0], [], "the next script, after this one ran")


@test
def of_two_logs(t):
    """The second log begins where the first was rotated. All lines have the same moment, and stay in their order."""
    begun(t)
    log, wanted, _ = LOGS["each command"]
    lines_of_it = log.splitlines(keepends=True)
    (t.room / "ca.log.1").write_text("".join(lines_of_it[:5]))
    (t.room / "ca.log").write_text("".join(lines_of_it[5:]))
    script, told = again(t, "--log", "ca.log.1", "--log", "ca.log")
    t.same(script, [f"{NEXT} {it}" for it in wanted])
    t.same(told[:-1], [], "standard error")


@test
def of_two_equal_requests(t):
    """Two requests of one second are for one certificate and on one ground. The register has both; the log declines the first, and revokes by the other."""
    begun(t)
    both = logged(("request 06 asked", "request 2 due D", f"2 {S6} asked"), ("request 06 asked", "request 3 due D", f"3 {S6} asked"))
    decided = logged(("decline 2", "declined", f"2 {S6}"), (f"revoke 3 {S6}", "revoked", f"3 {S6}"))
    for log, wanted in ((both, ["request 6 asked"] * 2), (both + decided, ["decline 2", "revoke 3"])):
        (t.room / "ca.log").write_text(log)
        script, told = again(t, "--log", "ca.log")
        t.same((script, told[:-1]), ([f"{NEXT} {it}" for it in wanted], []), "the script, and standard error")
        replies = t.done("script", "ca.db", "--strict", given="".join(f"{it}\n" for it in script))
        t.same([it for it in replies.splitlines() if it[:1] in "EF"], [], "refusals")


@test
def of_a_request_like_one_that_was_declined(t):
    """The log begins after the decline. Its request has the same serial number and ground, and another moment, so the register lacks it."""
    t.register(lines=ENTERED + lines("request 06 asked", "decline 2"))
    (t.room / "ca.log").write_text(logged(("request 06 asked", "request 3 due D", f"3 {S6} asked"), (f"revoke 3 {S6}", "revoked", f"3 {S6}")))
    t.same(again(t, "--log", "ca.log")[0], [f"{NEXT} request 6 asked", f"{NEXT} revoke 3"])


LATER = "2026-01-05T00:00:00Z"
GROUNDS = ("asked", "unauthorized", "key-compromise", "control-lost", "affiliation", "superseded", "cessation", "misuse", "name-not-permitted", "nonconforming", "inaccurate")
# The ground in the script of a revocation of which only the reason is known.
TOLD = {"control-lost": "superseded", "nonconforming": "superseded", "name-not-permitted": "cessation", "misuse": "unauthorized", "inaccurate": "unauthorized"}


@test(seconds=2)
def of_a_crl_alone(t):
    """The copy lacks a revocation on each ground, each at its own moment, and three CRLs. The script has their reasons and moments, and the CRLs."""
    certificates = [f"{BEGUN} order 1 398\n{BEGUN} register {4 + at} {100 + at} {BEGUN} {ENDS}\n" for at in range(len(GROUNDS))]
    t.register(lines=ENTERED + "".join(certificates))
    t.done("copy", "ca.db", "copy.db")
    moments = [f"2026-01-02T00:00:{at:02}Z" for at in range(len(GROUNDS))]
    for at, (moment, ground) in enumerate(zip(moments, GROUNDS)):
        t.desk("script", "ca.db", given=f"{moment} request {100 + at} {ground}\n{moment} revoke {2 + at}\n")
    run(t, "ca.db", lines("crl", at=NEXT.replace("T00", "T01")) + lines("crl", "crl", at=LATER))
    (t.room / "published.pem").write_bytes(in_pem(t, (t.room / "published.crl").read_bytes()))
    script, told = again(t, "--published", "published.crl", file="copy.db")
    wanted = [
        line
        for at, (moment, ground) in enumerate(zip(moments, GROUNDS))
        for line in (f"{moment} request {100 + at} {TOLD.get(ground, ground)}", f"{moment} revoke {2 + at}")
    ]
    t.same(script, [*wanted, *[f"{LATER} crl"] * 3])
    t.same(told, ["25 lines, 11 request, 11 revoke, 3 crl"])
    t.same(again(t, "--published", "published.pem", file="copy.db")[0], script, "the script from a CRL in PEM")
    t.done("script", "copy.db", "--strict", given="".join(f"{it}\n" for it in script))
    t.same(t.desk("crl", "copy.db").out, t.desk("crl", "ca.db").out, "the CRL, octet for octet")
    t.same(again(t, "--published", "published.crl", file="copy.db"), ([], ["0 lines"]))
    serves(t)


@each({ground: (ground,) for ground in GROUNDS if ground != "asked"}, seconds=2)
def an_open_request_led_to_an_entry(t, ground):
    """The script revokes an open request of the register if its ground has the entry's reason."""
    t.register(lines=ENTERED + lines("request 06 asked", f"request 06 {ground}", "decline 3", f"request 06 {ground}"))
    t.done("copy", "ca.db", "copy.db")
    run(t, "ca.db", lines("revoke 4", "crl", at=NEXT))
    t.same(again(t, "--published", "published.crl", file="copy.db")[0], [f"{NEXT} revoke 4", f"{NEXT} crl"])


@test
def lines_that_the_crl_has_are_between_those_of_the_log(t):
    """`desk script` leaves no line in the log, but the CRL has its revocations. The script has them too, so the log's requests get other numbers."""
    begun(t)
    t.done("script", "ca.db", given=lines("request 06 asked", "decline 2", "request 06 superseded", "revoke 3", at="2026-01-02T00:00:01Z"))
    run(t, "ca.db", lines("request 07 affiliation", "revoke 4", "crl", at="2026-01-02T00:00:02Z"))
    log = logged(
        ("request 07 affiliation", "request 4 due D", f"4 {serial('07')} affiliation"), ("revoke 4", "revoked", f"4 {serial('07')}"), ("crl", "crl 2 entries 3"),
        at="2026-01-02T00:00:02Z",
    )
    (t.room / "ca.log").write_text(log)
    script, told = again(t, "--published", "published.crl", "--log", "ca.log", file="copy.db")
    first, second = "2026-01-02T00:00:01Z", "2026-01-02T00:00:02Z"
    t.same(script, [f"{first} request 6 superseded", f"{first} revoke 2", f"{second} request 7 affiliation", f"{second} revoke 3", f"{second} crl"])
    t.same(told, ["5 lines, 2 request, 2 revoke, 1 crl"])
    t.done("script", "copy.db", "--strict", given="".join(f"{it}\n" for it in script))
    t.same(t.desk("crl", "copy.db").out, t.desk("crl", "ca.db").out, "the CRL, octet for octet")


@test
def a_register_that_went_on(t):
    """Lines that are earlier than its last command get that moment, and standard error names each."""
    begun(t)
    run(t, "ca.db", LISTED_06)
    t.clock("2026-01-06T00:00:00Z")
    t.done("script", "copy.db", given=f"{LATER} request 07 asked\n")
    script, told = again(t, "--published", "published.crl", file="copy.db")
    t.same(script, [f"{LATER} request 6 superseded", f"{LATER} revoke 3", f"{LATER} crl"])
    moved = lambda line: f"published.crl: '{line}' is of {NEXT}, and gets {LATER}, the moment of the register's last command"
    t.same(told, [*(moved(line.split(" ", 1)[1]) for line in script), "3 lines, 1 request, 1 revoke, 1 crl"])
    t.done("script", "copy.db", "--strict", given="".join(f"{it}\n" for it in script))
    serves(t)


@test
def nothing_is_printed(t):
    begun(t)
    more = lines("order 1 398", f"register 4 ff {NEXT} {ENDS}", "request ff asked", "request 06 asked", "revoke 2", "revoke 3", "crl", at=NEXT)
    run(t, "ca.db", more)
    lacks = f"serial number FF, {NEXT}: neither the register nor the log has its certificate: register it first, as of {BEGUN}"
    t.same(again(t, "--published", "published.crl", file="copy.db", status=1), ([], [f"published.crl: {lacks}"]))
    (t.room / "ca.log").write_text(logged(("request ff asked", "request 2 due D", f"2 {serial('ff')} asked")))
    t.same(again(t, "--log", "ca.log", file="copy.db", status=1), ([], [f"ca.log:1: {lacks}"]))
    (t.room / "no.crl").write_bytes(b"no CRL\n")
    t.same(again(t, "--published", "no.crl", status=1), ([], ["after-a-backup: no.crl: openssl reads no CRL"]))
    (t.room / "v1.crl").write_bytes(of_openssl(t))
    t.same(again(t, "--published", "v1.crl", status=1), ([], ["after-a-backup: v1.crl: the CRL has no number"]))
    t.same(again(t, "--log", "no.log", status=1)[0], [], "a log that does not exist")
    t.same(again(t, "--log", "ca.log", file="no.db", status=1), ([], ["after-a-backup: no.db: F2 store no such file (FILE)"]))
    t.same(again(t, file="copy.db", status=2)[0], [], "neither a log nor a CRL")
    t.open("copy.db")
    t.same(again(t, "--log", "ca.log", file="copy.db", status=1), ([], ["after-a-backup: copy.db: F2 store in use by another program (FILE)"]))


# docs/OPERATIONS.md, "Go back to a backup"

BACKUP = "2026-01-01T08:00:00Z"
LOST = "2026-01-02T09:30:00Z"


def lost(t, it):
    """Makes a register with a log, copies it, enters more of each kind, and publishes a CRL as ca.crl. Then it deletes the register's files, and puts the
    copy in their place. Returns the lists as they were before."""
    it.register()
    it.signer()
    t.clock(BACKUP)
    desk = t.open("ca.db", *it.signing(), "--log-file", "ca.log")
    asks = lambda control, *words: [t.true(control.ask(word)[:1] not in "EF", word) for word in words]
    with Control(t.room / "control") as control:
        asks(control, "subscriber acme", "order 1 365", "order 1 365", f"register 1 05 {BEGUN} {ENDS}", f"register 2 06 {BEGUN} {ENDS}")
        asks(control, "request 05 superseded", "revoke 1 05", "crl", f"copy {t.room}/copy.db")
        t.clock("2026-01-02T09:00:00Z")
        certificate(t, it, 7)
        begins, ends = (openssl_moment(t, "07.pem", word) for word in ("-startdate", "-enddate"))
        asks(control, "subscriber beta", "order 2 365", f"register 3 07 {begins} {ends}")
        t.same(program.parted(desk.ask("POST", "/requests", json.dumps({"serial": "06", "ground": "key-compromise"})))[0], 200, "over HTTP")
        asks(control, "request 07 asked", "decline 3 07", "request 07 misuse")
        t.clock(LOST)
        asks(control, "revoke 2 06", "revoke 4 07", "crl")
        (t.room / "ca.crl").write_bytes(body_of(t, desk.ask("GET", "/crl"), "application/pkix-crl"))
        asks(control, "order 1 30", f"register 4 08 {BEGUN} 2026-01-30T00:00:00Z", "request 08 cessation", "revoke 5 08")
    desk.end()
    had = listed(t)
    for file in t.room.glob("ca.db*"):
        file.unlink()
    shutil.copy(t.room / "copy.db", t.room / "ca.db")
    return had


def certificate(t, it, number):
    """A certificate of the CA for beta, with this serial number."""
    t.tool("openssl", "req", "-newkey", *authority.KEYS["ecdsa-sha256"], "-nodes", "-keyout", "x.key", "-out", "x.csr", "-subj", "/CN=beta")
    t.tool("openssl", "x509", "-req", "-in", "x.csr", "-CA", it.pem, "-CAkey", it.key, "-set_serial", number, "-days", 90, "-out", f"{number:02X}.pem")


def openssl_moment(t, path, word):
    return moment_of(authority.openssl_time(t.tool("openssl", "x509", "-in", path, "-noout", word).decode().strip().split("=")[1]))


def transcripts():
    """The commands of the section's transcripts, each with the lines that it prints."""
    found = []
    for lines_of in blocks("Go back to a backup"):
        if lines_of[0].startswith("$ "):
            found.append([])
            for line in lines_of:
                if line.startswith("$ "):
                    found[-1].append([line[2:]])
                else:
                    found[-1][-1].append(line)
    return found


def typed(t, it, port, command):
    """The output of bash for a command of the document."""
    env = dict(program.environment(), SIGNER=" ".join(it.signing()))
    env["PATH"] = f"{t.room}/bin:{env['PATH']}"
    (t.room / "bin").mkdir(exist_ok=True)
    if not (t.room / "bin/desk").exists():
        os.symlink(program.program(), t.room / "bin/desk")
    ran = t.tried("bash", "-c", command.replace("/usr/lib/durshavon/", f"{EXAMPLES}/").replace("8080", str(port)), env=env)
    return (ran.stdout + ran.stderr).decode().splitlines()


def as_it_stands(t, it, transcript):
    """Types the commands of a transcript. The last one opens the desk, which is returned."""
    port = program.free_port()
    *commands, (opens, *listens) = transcript
    for command, *printed in commands:
        t.same(typed(t, it, port, command), printed, f"what `{command}` prints")
    words = opens.replace("$SIGNER", " ".join(it.signing())).split()
    t.same((words[:2], listens), (["desk", "open"], ["listening 8080"]), "the last command")
    words[words.index("--port") + 1] = str(port)
    return t.open(words[2], *words[3:])


def goes_on(t, it, desk, wanted):
    """The next CRL has a higher number than the published one, verifies, and lists these with moments and reasons. OCSP answers have the moments."""
    with Control(t.room / desk.words[desk.words.index("--control") + 1]) as control:
        t.same(control.ask("crl"), f"crl 3 entries {len(wanted)}")
    crl = body_of(t, desk.ask("GET", "/crl"), "application/pkix-crl")
    it.verifies(crl)
    t.same(authority.listed(t, crl), {number: (seconds_of(moment), reason) for number, (moment, reason) in wanted.items()}, "the next CRL")
    # openssl accepts an answer only if it is of now.
    t.clock(authority.now())
    for number, (moment, _) in wanted.items():
        response = body_of(t, desk.ask("POST", "/ocsp", it.asks(number)))
        t.same(it.reads(number, response), "revoked", f"the OCSP status of {number}")
        (t.room / "said.der").write_bytes(response)
        told = t.tool("openssl", "ocsp", "-noverify", "-respin", "said.der", "-resp_text").decode()
        t.same(authority.openssl_time(re.search(r"Revocation Time: (.*)", told)[1]), seconds_of(moment), f"when {number} was revoked")
    t.same(desk.end().status, -15)
    t.has(t.done("audit", "ca.db"), "sound, ")


@test(seconds=4)
def after_a_lost_disk(t):
    """The section's first transcript, with the log: afterwards the lists have all that they had before the loss."""
    it = Authority(t)
    had = lost(t, it)
    first = transcripts()[0]
    desk = as_it_stands(t, it, first)
    desk.end()
    t.same(listed(t), had, "the lists")
    desk = t.open("ca.db", *it.signing(), "--published", "ca.crl")
    goes_on(t, it, desk, {5: (BACKUP, 4), 6: (LOST, 1), 7: (LOST, 9), 8: (LOST, 5)})


@test(seconds=4)
def after_a_lost_disk_and_a_lost_log(t):
    """The second transcript, with only the CRL: all certificates that it lists are revoked as before. Later entries are lost."""
    it = Authority(t)
    lost(t, it)
    (t.room / "ca.log").unlink()
    desk = as_it_stands(t, it, transcripts()[1])
    goes_on(t, it, desk, {5: (BACKUP, 4), 6: (LOST, 1), 7: (LOST, 9)})
