"""Registers and CRLs of many rows, entries and bytes behave as small ones do. Most tests close the register and open it again between steps."""

from lib.program import moment_of, parted, seconds_of
from lib.trial import test

DAY = "2026-01-01T00:00:00Z"
LATER = "2026-01-10T00:00:01Z"


# Serial numbers above this one have 20 bytes (RFC 5280 4.1.2.2).
LONGEST = 0x7F << 152


def entered(first, last, behind=0):
    """Lines that order and register certificates for subscriber 1, each with its own order. Their serial numbers are `behind` + `first` to `behind` +
    `last`."""
    end = "2026-01-10T00:00:00Z"
    return "".join(f"{DAY} order 1 398\n{DAY} register {at} {behind + at:x} {DAY} {end}\n" for at in range(first, last + 1))


def revoked(first, last, behind=0):
    """Lines that request the revocation of these certificates, and revoke them."""
    return "".join(f"{DAY} request {behind + at:x} superseded\n{DAY} revoke {at}\n" for at in range(first, last + 1))


def replies(t, lines, file="ca.db"):
    """Runs a script over a file, and returns its replies. None of them may be a refusal or a fault."""
    told = t.done("script", file, given=lines).splitlines()
    t.same([it for it in told if it[0] in "EF"], [], "refusals and faults")
    return told


@test(seconds=3)
def more_rows_than_250_of_each_table(t):
    t.register(lines=f"{DAY} subscriber acme\n")
    replies(t, "".join(f"{DAY} subscriber s{at}\n" for at in range(2, 301)))
    replies(t, entered(1, 260))
    t.same(replies(t, revoked(1, 255))[-1], "revoked")
    t.same(replies(t, f"{DAY} subscriber last\n{DAY} order 300 1\n"), ["subscriber 301", "order 261"])
    told = replies(t, f"{DAY} crl\n" * 260)
    t.same((told[0], told[-1]), ("crl 1 entries 255", "crl 260 entries 255"))
    t.same(
        replies(t, f"{DAY} counts\n{DAY} listing 1\n{DAY} status ff\n{DAY} status 100\n"),
        ["good 5 revoked 255 expired 0", "listing first 1", f"revoked {DAY} reason 4", "good"],
    )
    t.same(t.done("audit", "ca.db"), "sound, 260 certificates, 255 revoked, 260 CRLs\n")


@test
def the_tenth_crl_and_those_behind_it(t):
    t.register(lines=f"{DAY} subscriber acme\n" + entered(1, 1) + revoked(1, 1))
    for number in range(1, 13):
        t.same(replies(t, f"{DAY} crl\n"), [f"crl {number} entries 1"])
    whole = [t.desk("crl", "ca.db", "--number", number) for number in range(1, 13)]
    t.same([it.status for it in whole], [0] * 12, "status of `desk crl` for each number")
    t.same(len({it.out for it in whole}), 12, "number of different CRLs")
    t.same(t.desk("crl", "ca.db").out, whole[-1].out, "the CRL without --number, which is the latest")


@test(seconds=5)
def more_entries_than_a_thousand_and_a_crl_of_more_than_100_kb(t):
    t.register(lines=f"{DAY} subscriber acme\n" + entered(1, 2_400, LONGEST))
    replies(t, revoked(1, 1_001, LONGEST))
    t.same(replies(t, f"{DAY} crl\n{DAY} listing {LONGEST + 1:x}\n"), ["crl 1 entries 1001", "listing first 1"])
    replies(t, revoked(1_002, 2_400, LONGEST))
    t.same(replies(t, f"{DAY} crl\n"), ["crl 2 entries 2400"])
    der = t.desk("crl", "ca.db").out
    t.true(len(der) > 100_000, f"the CRL has only {len(der)} bytes")
    text = t.tool("openssl", "crl", "-inform", "DER", "-noout", "-text", given=der).decode()
    t.same(text.count("Serial Number:"), 2_400, "entries of CRL 2")
    opened = t.open()
    t.true(parted(opened.ask("GET", "/crl"))[2] == der, "GET /crl gives other bytes")
    opened.end()
    # All these certificates have expired, so the next CRL is the last that lists them.
    t.same(
        replies(t, f"{LATER} crl\n{LATER} crl\n{LATER} listing {LONGEST + 1:x}\n"),
        ["crl 3 entries 2400", "crl 4 entries 0", "listing first 1 last 3"],
    )


@test(seconds=3)
def more_certificates_than_two_thousand_end_at_once(t):
    t.register(lines=f"{DAY} subscriber acme\n" + entered(1, 2_200))
    t.same(
        replies(t, f"{DAY} counts\n{LATER} counts\n{LATER} subscriber b\n{LATER} counts\n"),
        ["good 2200 revoked 0 expired 0", "good 0 revoked 0 expired 2200", "subscriber 2", "good 0 revoked 0 expired 2200"],
    )
    t.same(t.sql("ca.db", "SELECT n_good, n_revoked, n_expired FROM kept"), [(0, 0, 2_200)], "the kept counts")
    t.same(t.done("audit", "ca.db"), "sound, 2200 certificates, 0 revoked, 0 CRLs\n")


@test
def a_schedule_of_three_steps_and_of_sixteen(t):
    t.register(lines=f"{DAY} subscriber acme\n{DAY} order 1 398\n{DAY} order 1 398\n{DAY} order 1 398\n")
    steps = ["1970-01-01T00:00:00Z=398", "2026-03-15T00:00:00Z=200", "2027-03-15T00:00:00Z=100"]
    t.same(t.done("schedule", "ca.db", *steps), "schedule set\n")
    last = [moment_of(seconds_of(it) - 1) for it in ("2026-10-01T00:00:00Z", "2027-06-23T00:00:00Z")]
    rows = [
        "1 05 2026-03-15T00:00:00Z 2026-10-01T00:00:00Z",
        f"1 05 2026-03-15T00:00:00Z {last[0]}",
        "2 06 2027-03-15T00:00:00Z 2027-06-23T00:00:00Z",
        f"2 06 2027-03-15T00:00:00Z {last[1]}",
    ]
    told = t.done("script", "ca.db", given="".join(f"{DAY} register {it}\n" for it in rows))
    t.same(told.splitlines(), ["E12 too-long", "registered", "E12 too-long", "registered"])
    sixteen = [f"{moment_of(at * 86_400 * 365)}={398 - at}" for at in range(16)]
    t.same(t.done("schedule", "ca.db", *sixteen), "schedule set\n")
    t.same(t.sql("ca.db", "SELECT count(*), min(days), max(days) FROM longest"), [(16, 383, 398)])


@test(seconds=5)
def a_file_of_more_than_50_mb_is_opened(t):
    t.register(lines=f"{DAY} subscriber acme\n" + entered(1, 1) + f"{DAY} crl\n{DAY} crl\n")
    # An older CRL of zeros has no effect here, because only an audit checks its bytes.
    t.sql("ca.db", "UPDATE crl SET der = zeroblob(52000000) WHERE number = 1")
    t.true((t.room / "ca.db").stat().st_size > 50_000_000, "the file is not large")
    t.same(t.done("script", "ca.db", given=f"{DAY} counts\n{DAY} subscriber b\n"), "good 1 revoked 0 expired 0\nsubscriber 2\n")
