"""Calls fail, are interrupted or move few bytes: on standard input, output and error, on the signer's socket and on the socket of `desk at`."""

from groups.signers import LONGEST_RSA_KEY
from lib import faults, program
from lib.faults import DAY_1, DAY_2, LIFE, REGISTERED
from lib.trial import each, test

SIGNING = ("--signer", "ca.sign", "--algorithm", "ecdsa-sha256")
TEXT = "".join(f"{asked}\n" for asked, _ in LIFE)
ENTERED = "".join(f"{asked}\n" for asked, _ in REGISTERED)


WRITES = {"fails": "", "moves nothing": "=0", "is interrupted": "=EINTR"}


@each({f"{name}{kind}": (how, words) for name, how in WRITES.items() for kind, words in (("", []), (", strictly", ["--strict"]))}, seconds=3)
def a_write_of_an_import_fails(t, how, words):
    base = t.register("base.db", f"{DAY_1} subscriber acme\n{DAY_1} order 1 398\n{DAY_1} order 1 398\n")
    rows = f"order,serial,notBefore,notAfter\n1,05,{DAY_1},2026-01-10T00:00:00Z\n2,06,{DAY_1},2026-01-10T00:00:00Z\n2,06\n"
    replies = b"registered\nregistered\nE22 syntax\n"
    for at in range(1, len(replies) + 1):
        faults.copy(base, t.room / "ca.db")
        ran, count = faults.run(t, ["import", "ca.db", "--now", DAY_1, *words], rows, only="stdout", short=1, fail=f"write:{at}{how}")
        t.same((ran.status, ran.out, ran.err, count["met"]), (1, replies[: at - 1], b"F5 write\n", 1), f"write {at}")
        # The register has the row whose reply was cut, and no later one.
        stand = 1 if at <= 11 else 2
        t.same(len(faults.tables(t.room / "ca.db")["cert"]), stand, f"certificates in the register after write {at}")


@each({"over memory": ["script"], "over a file": ["script", "ca.db"]}, seconds=4)
def each_byte_that_can_not_be_read_or_written(t, words):
    base = t.register("base.db")
    lines = LIFE[:6]
    given, replies = "".join(f"{asked}\n" for asked, _ in lines), "".join(f"{reply}\n" for _, reply in lines)
    for at in range(1, len(given) + 2):
        faults.copy(base, t.room / "ca.db")
        ran, count = faults.run(t, words, given, only="stdin", short=1, fail=f"read:{at}")
        wanted = "".join(f"{reply}\n" for _, reply in lines[: given[: at - 1].count("\n")])
        t.same((ran.status, ran.out.decode(), ran.err, count["met"]), (1, wanted, b"F4 read\n", 1), f"read {at}")
    for at in range(1, len(replies) + 1):
        faults.copy(base, t.room / "ca.db")
        ran, count = faults.run(t, words, given, only="stdout", short=1, fail=f"write:{at}=0")
        t.same((ran.status, ran.out.decode(), ran.err, count["met"]), (1, replies[: at - 1], b"F5 write\n", 1), f"write {at}")


@test
def an_input_of_no_bytes_writes_nothing(t):
    ran, count = faults.run(t, ["script"], "", only="stdout", fail="write:1+")
    t.same((ran.status, ran.out, ran.err, count["write"]), (0, b"", b"", 0))


OUTPUTS = {
    "help": ["--help"],
    "a schedule": ["schedule", "ca.db", "1970-01-01T00:00:00Z=200"],
    "an open desk": ["open", "ca.db", "--control", "control", "--port", "0", "--unsigned"],
    "a desk that serves": ["serve", "ca.db", "--requests", "1", "--port", "0"],
}


@each(OUTPUTS, seconds=1)
def a_first_write_that_fails_is_reported(t, words):
    t.register(lines=ENTERED)
    words = [str(program.free_port()) if it == "0" else it for it in words]
    for how in ("", "=0", "+"):
        ran, count = faults.run(t, words, only="stdout", fail=f"write:1{how}")
        t.same((ran.status, ran.out, ran.err), (1, b"", b"F5 write\n"), f"{words[0]} {how}")
        t.true(count["met"], "the fault did not occur")


# A system error, and the line that --why adds after `F5 write`.
CAUSES = {"ENOSPC": b"  disk full (standard output)\n", "EACCES": b"  permission denied, or the file system is read-only (standard output)\n", "EPIPE": b"", "EIO": b"", "ECONNRESET": b""}


@each({it: (it, line) for it, line in CAUSES.items()})
def an_error_of_the_system_has_its_cause_or_none(t, error, line):
    t.register(lines=ENTERED + f"{DAY_1} crl\n")
    for words, given in ((["script"], f"{DAY_1} counts\n"), (["script", "ca.db"], f"{DAY_1} counts\n"), (["crl", "ca.db"], "")):
        ran, count = faults.run(t, [*words, "--why"], given, only="stdout", fail=f"write:1={error}")
        t.same((ran.status, ran.out, ran.err, count["met"]), (1, b"", b"F5 write\n" + line, 1), " ".join(words))


@test
def where_nothing_can_be_printed_the_status_stays(t):
    t.register(lines=ENTERED)
    # This test has no wrong command line, because its status does change, from 2 to 1.
    for words, status in ((["crl", "ca.db"], 1), (["script", "none.db"], 1)):
        ran, count = faults.run(t, words, only="stderr", fail="write:1+")
        t.same((ran.status, ran.out, ran.err), (status, b"", b""), words[0])
        t.true(count["met"], "the fault did not occur")


@each({"one byte": 1, "seven bytes": 7}, seconds=2)
def a_signer_in_pieces(t, size):
    t.register(key=program.P256_KEY)
    signer = t.signer()
    faults.copy(t.room / "ca.db", t.room / "other.db")
    whole = t.desk("script", "ca.db", *SIGNING, given=TEXT)
    asked = list(signer.asked)
    ran, _ = faults.run(t, ["script", "other.db", *SIGNING], TEXT, only="socket", short=size)
    t.same((ran.status, ran.out, ran.err), (0, whole.out, b""))
    t.same((len(asked), signer.asked[len(asked) :]), (4, asked), "the messages that the signer received")


# The kinds of calls that request the four signatures. If one fails, the reply is `F3 signer`, or internalError to an OCSP request.
CALLS = {"a socket": ("socket", ""), "connecting": ("connect", ""), "a write": ("write", ""), "a write of nothing": ("write", "=0"), "a read": ("read", ""),
         "a reset": ("read", "=ECONNRESET")}  # fmt: skip


@each(CALLS, seconds=2)
def a_call_of_the_signer_s_socket_fails(t, kind, how):
    base = t.register("base.db", key=program.P256_KEY)
    t.signer()
    faults.copy(base, t.room / "ca.db")
    whole = t.desk("script", "ca.db", *SIGNING, given=TEXT).lines
    after, told = faults.tables(t.room / "ca.db"), 0
    at = 0
    while True:
        at += 1
        faults.copy(base, t.room / "ca.db")
        with faults.Lines(t, "ca.db", SIGNING, only="socket", fail=f"{kind}:{at}{how}") as desk:
            for (line, _), wanted in zip(LIFE, whole):
                reply = desk.ask(line)
                if reply != wanted:
                    # The same line succeeds the next time, so the failed one recorded nothing.
                    t.same(reply, faults.INTERNAL_ERROR if " ocsp " in line else "F3 signer", f"{kind} {at}: {line}")
                    told += 1
                    t.same(desk.ask(line), wanted, f"{kind} {at}: {line} again")
            met = desk.counted["met"]
            t.same(desk.end(), (0, "", ""), f"{kind} {at}: status, rest of the output and standard error")
        t.same(faults.tables(t.room / "ca.db"), after, f"{kind} {at}: the tables at the end")
        if not met:
            break
    t.true(told >= 4, f"only {told} signatures failed")


@each({"a read": "read", "a write": "write"}, seconds=2)
def a_signal_at_the_signer_s_socket_changes_nothing(t, kind):
    base = t.register("base.db", key=program.P256_KEY)
    t.signer()
    faults.copy(base, t.room / "ca.db")
    whole, at, met = t.desk("script", "ca.db", *SIGNING, given=TEXT).out, 0, True
    while met:
        at += 1
        faults.copy(base, t.room / "ca.db")
        ran, count = faults.run(t, ["script", "ca.db", *SIGNING], TEXT, only="socket", fail=f"{kind}:{at}=EINTR")
        met = count["met"]
        t.same((ran.status, ran.out, ran.err), (0, whole, b""), f"{kind} {at}")
    t.true(at > 4, f"only {at} rounds")


@each({"reads": "read", "writes": "write"})
def thousands_of_signals_at_the_signer_s_socket_change_nothing(t, kind):
    t.register(key=program.P256_KEY)
    signer = t.signer()
    ran, count = faults.run(t, ["script", "ca.db", *SIGNING], f"{DAY_1} crl\n", only="socket", fail=f"{kind}:1-5000=EINTR")
    t.same((ran.status, ran.out, ran.err, count["met"], len(signer.asked)), (0, b"crl 1 entries 0\n", b"", 5_000, 1))


@test
def a_signature_that_comes_octet_by_octet_is_whole(t):
    """It is as long as the longest modulus of a key. The answer takes some two thousand reads."""
    t.register(key=LONGEST_RSA_KEY)
    t.signer("ca.sign", lambda message, call: b"\7" * 2_037)
    words = ["script", "ca.db", "--signer", "ca.sign", "--algorithm", "rsa-sha256"]
    ran, count = faults.run(t, words, f"{DAY_1} crl\n", only="socket", short=1)
    t.same((ran.status, ran.out, ran.err), (0, b"crl 1 entries 0\n", b""), "the CRL")
    t.true(count["read"] > 2_037, f"only {count['read']} reads")


AT = {
    "a read of standard input": ("stdin", "read:1", b"F4 read\n"),
    "a read behind the first": ("stdin", "read:2", b"F4 read\n"),
    "a write of a reply": ("stdout", "write:1", b"F5 write\n"),
    "a write of nothing": ("stdout", "write:1=0", b"F5 write\n"),
    "no socket": ("socket", "socket:1", b"F4 read\n"),
    "nobody there": ("socket", "connect:1", b"F4 read\n"),
}


@each(AT, seconds=1)
def the_client_of_a_control_socket_fails(t, only, fail, told):
    t.register(lines=ENTERED)
    t.clock(DAY_2)
    opened = t.open()
    ran, count = faults.run(t, ["at", "control"], "counts\n", only=only, fail=fail)
    t.same((ran.status, ran.err, count["met"]), (1, told, 1))
    t.true(ran.out in (b"", b"good 1 revoked 0 expired 0\n"), f"the standard output of `desk at` is {ran.out!r}")
    t.same(t.done("at", "control", given="counts\n"), "good 1 revoked 0 expired 0\n", "the reply to the next client")
    t.same(opened.end().err, b"", "standard error of the desk")
