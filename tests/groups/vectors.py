"""Test vectors that are too many or too long to write down. This file computes them from RFC 5280, RFC 6960 and X.690."""

from lib.program import parted
from lib.trial import each, test
from model.der import KEY, NAME, SHA1, general, integer, sha1, signed, time, value
from model.moments import DAY, read
from model.ocsp import answer
from model.register import Register

FIRST, SECOND, END, PAST = "2026-01-01T00:00:00Z", "2026-01-02T00:00:00Z", "2026-01-10T00:00:00Z", "2026-01-10T00:00:01Z"
WEEK_AND_A_DAY = 8 * DAY
GREATEST = 2**159 - 1


def seconds(moment):
    return read(moment.encode())


def ran(t, pairs, *words):
    """Runs a script. Each pair has a line and its expected reply."""
    told = t.done("script", *words, given="".join(f"{line}\n" for line, _ in pairs)).splitlines()
    for (line, wanted), got in zip(pairs, told):
        t.same(got, wanted, line)
    t.same(len(told), len(pairs), "replies")


def registered(order, serial, until=END, since=FIRST):
    return [(f"{FIRST} order 1 398", f"order {order}"), (f"{FIRST} register {order} {serial:x} {since} {until}", "registered")]


def revoked(request, serial, ground="asked", at=FIRST, due=SECOND):
    return [(f"{at} request {serial:x} {ground}", f"request {request} due {due}"), (f"{at} revoke {request}", "revoked")]


# OCSP requests with a missing end or a changed byte (RFC 6960 4.1.1)

# A request of 105 bytes for the serial number 05, with SHA-1 hashes and a nonce.
REQUEST = bytes.fromhex(
    "30673065303E303C303A300906052B0E03021A05000414711D397671C9FACF2242095925979A0698E46B110414A9993E364706816ABA3E25717850C26C9CD0D89D"
    "020105A2233021301F06092B060105050730010204120410000102030405060708090A0B0C0D0E0F"
)
# The indexes of the bytes of its CertID's two hashes and serial number, without their tags and lengths.
NAME_HASH, KEY_HASH, SERIAL = range(23, 43), range(45, 65), range(67, 68)
MALFORMED = "ocsp 30030a0101"
CERTIFICATE = [(f"{FIRST} subscriber acme", "subscriber 1"), *registered(1, 5)]
COUNTS = (f"{SECOND} counts", "good 1 revoked 0 expired 0")


def asked(request):
    return f"{SECOND} ocsp {request.hex()}"


def modelled():
    """The model's register with the certificate that the lines of CERTIFICATE register."""
    made = Register()
    made.subscriber(seconds(FIRST), b"acme")
    made.order(seconds(FIRST), 1, 398)
    made.register(seconds(FIRST), 1, 5, seconds(FIRST), seconds(END))
    made.last = seconds(FIRST)
    return made


@test
def each_prefix_of_a_request_is_malformed(t):
    prefixes = [(asked(REQUEST[:size]), MALFORMED if size else "E22 syntax") for size in range(len(REQUEST))]
    ran(t, [*CERTIFICATE, *prefixes, COUNTS])


@each({f"{at} to {at + 14}": at for at in range(0, 105, 15)}, seconds=3)
def each_change_of_one_byte_is_answered(t, first):
    """A request with one changed byte gets the model's answer. It is `unknown` if the byte names another certificate or issuer. The register stays
    the same."""
    model = modelled()
    pairs = list(CERTIFICATE)
    for at in range(first, first + 15):
        for byte in range(256):
            changed = REQUEST[:at] + bytes([byte]) + REQUEST[at + 1 :]
            wanted = f"ocsp {answer(model, seconds(SECOND), changed).hex()}"
            names_another = changed != REQUEST and at in (*NAME_HASH, *KEY_HASH, *SERIAL)
            t.true(not names_another or tells_unknown(wanted, changed), f"the model's answer for byte {at} as {byte:02x} is not unknown")
            pairs.append((asked(changed), wanted))
    ran(t, [*pairs, COUNTS])


def tells_unknown(reply, request):
    """Whether the reply has the request's CertID, and after it `unknown`, which is [2] without contents."""
    return (request[8:68].hex() + "8200180f") in reply


# CRLs (RFC 5280 5.1 to 5.3)


def crl(number, this_update, entries, life=WEEK_AND_A_DAY):
    """The bytes of a CRL. Each entry has a serial number, a moment and a reason."""
    listed = [entry(*it) for it in sorted(entries)]
    times = time(seconds(this_update)) + time(seconds(this_update) + life)
    # revokedCertificates is absent if no certificate is revoked (5.1.2.6).
    revoked_certificates = value(0x30, *listed) if listed else b""
    return signed(value(0x30, integer(1), SHA1, NAME, times, revoked_certificates, extensions(number)))


def entry(serial, at, reason):
    code = value(0x30, value(0x06, b"\x55\x1d\x15"), value(0x04, value(0x0A, bytes([reason]))))
    # Reason 0 is left out (5.3.1).
    return value(0x30, integer(serial), time(seconds(at)), value(0x30, code) if reason else b"")


def extensions(number):
    """The authority key identifier and the CRL number."""
    key = value(0x30, value(0x06, b"\x55\x1d\x23"), value(0x04, value(0x30, value(0x80, sha1(KEY)))))
    return value(0xA0, value(0x30, key, value(0x30, value(0x06, b"\x55\x1d\x14"), value(0x04, integer(number)))))


def has_crl(t, number, wanted, *words):
    """Checks that `desk crl` prints these bytes and nothing else."""
    got = t.desk("crl", "ca.db", *words)
    t.same((got.status, got.err), (0, b""), f"CRL {number}: status and standard error")
    t.true(got.out == wanted, f"CRL {number} has {len(got.out)} bytes, {got.out[:64].hex()} .., wanted {len(wanted)}, {wanted[:64].hex()} ..")


@test
def numbers_of_crls_in_the_fewest_octets(t):
    t.register()
    ran(t, [(f"{FIRST} crl", f"crl {number} entries 0") for number in range(1, 258)], "ca.db")
    for number, octets in ((9, "020109"), (10, "02010a"), (127, "02017f"), (128, "02020080"), (255, "020200ff"), (256, "02020100")):
        t.true(bytes.fromhex("0603551d1404" + f"{len(octets) // 2:02x}" + octets) in crl(number, FIRST, []), f"no {octets} in CRL {number}")
        has_crl(t, number, crl(number, FIRST, []), "--number", number)
    has_crl(t, 257, crl(257, FIRST, []))


# The TBSCertList of CRL 128, with the least and the greatest serial number. Its thisUpdate is 2049-12-31T23:59:59Z, and nextUpdate a second later.
TWO_ENTRIES = bytes.fromhex(
    "3081BA020101300906052B0E03021A0500300D310B300906035504030C024341170D3439313233313233353935395A180F32303530303130313030303030305A"
    "30493012020101170D3236303130313030303030305A303302147FFFFFFFFFFFFFFFFFFFFFFFFFFFFFFFFFFFFFFF170D3439313233313233353935395A"
    "300C300A0603551D1504030A0109A030302E301F0603551D23041830168014A9993E364706816ABA3E25717850C26C9CD0D89D300B0603551D140404"
    "02020080"
)


@test
def the_least_and_the_greatest_serial_number_at_the_end_of_2049(t):
    t.register(options=("--crl-life", 1))
    last = "2049-12-31T23:59:59Z"
    certificates = [*registered(1, 1, "2050-01-31T00:00:00Z", last), *registered(2, GREATEST, "2050-01-31T00:00:00Z", last)]
    crls = [(f"{FIRST} crl", f"crl {number} entries 1") for number in range(1, 128)]
    later = [*revoked(2, GREATEST, "unauthorized", last, "2050-01-01T23:59:59Z"), (f"{last} crl", "crl 128 entries 2")]
    ran(t, [(f"{FIRST} subscriber acme", "subscriber 1"), *certificates, *revoked(1, 1), *crls, *later], "ca.db")
    has_crl(t, 128, signed(TWO_ENTRIES))


def many(t, first, last):
    """Opens the register, registers certificates with serial numbers of 20 octets, and closes the register."""
    pairs = [] if first > 1 else [(f"{FIRST} subscriber acme", "subscriber 1")]
    ran(t, [*pairs, *(it for at in range(first, last + 1) for it in registered(at, GREATEST - at))], "ca.db")


@test(seconds=6)
def crls_of_many_entries_byte_for_byte(t):
    """CRLs of 1 to 2,001 entries, with lengths around 4 kB and over 100 kB. Then all 2,001 certificates expire at once, and one more CRL lists
    them."""
    t.register()
    many(t, 1, 2_001)
    issued, listed = [], []
    for number, entries in enumerate((1, 74, 75, 250, 251, 1_000, 1_001, 2_001), 1):
        new = range(len(listed) + 1, entries + 1)
        pairs = [it for at in new for it in revoked(at, GREATEST - at, "superseded")]
        ran(t, [*pairs, (f"{FIRST} crl", f"crl {number} entries {entries}")], "ca.db")
        listed += [(GREATEST - at, FIRST, 4) for at in new]
        issued.append(crl(number, FIRST, listed))
        has_crl(t, number, issued[-1])
    t.same([len(it) > 4_096 for it in issued[:3]], [False, False, True], "which of the first CRLs have more than 4,096 bytes")
    t.true(len(issued[-1]) > 100_000, f"the longest CRL has only {len(issued[-1])} bytes")
    past = [(f"{PAST} counts", "good 0 revoked 2001 expired 0"), (f"{PAST} crl", "crl 9 entries 2001"), (f"{PAST} crl", "crl 10 entries 0")]
    ran(t, [*past, (f"{PAST} listing {GREATEST - 1:x}", "listing first 1 last 9")], "ca.db")
    issued += [crl(9, PAST, listed), crl(10, PAST, [])]
    for number, wanted in enumerate(issued, 1):
        has_crl(t, number, wanted, "--number", number)
    opened = t.open()
    for number in (3, 8, 9):
        status, _, body = parted(opened.ask("GET", f"/crl/{number}"))
        t.true(status == 200 and body == issued[number - 1], f"GET /crl/{number}: {status}, {len(body)} bytes")
    opened.end()


# The bytes of all entries, the tag and length of their list, and the octets of one serial number. An entry has 19 bytes and its serial number.
LISTS = {"65535 bytes": (65_535, "3082ffff", 15), "65536 bytes": (65_536, "3083010000", 16)}


@each(LISTS, seconds=4)
def a_list_of(t, size, head, octets):
    """The length of revokedCertificates takes two octets up to 65,535 bytes, and three octets above that (X.690 8.1.3.5)."""
    serials = [1, 2 ** (8 * octets - 2), *(GREATEST - at for at in range(1_679))]
    contents = [entry(it, FIRST, 0) for it in serials]
    t.same(sum(map(len, contents)), size, "bytes of all entries")
    t.register()
    pairs = [it for at, serial in enumerate(serials, 1) for it in (*registered(at, serial), *revoked(at, serial))]
    ran(t, [(f"{FIRST} subscriber acme", "subscriber 1"), *pairs, (f"{FIRST} crl", f"crl 1 entries {len(serials)}")], "ca.db")
    wanted = crl(1, FIRST, [(it, FIRST, 0) for it in serials])
    t.true(bytes.fromhex(head) + entry(1, FIRST, 0) in wanted, "revokedCertificates of the expected CRL does not begin with this length and entry 1")
    has_crl(t, 1, wanted)


# Many certificates and many lines


@test(seconds=3)
def two_hundred_certificates_are_counted_and_listed(t):
    """Half of the 200 certificates are revoked. The same OCSP request is answered 200 times."""
    pairs, requests = [], 0
    for at in range(1, 201):
        pairs += [(f"{FIRST} subscriber s{at}", f"subscriber {at}"), (f"{FIRST} order {at} 10", f"order {at}")]
        # The serial number has the decimal digits of `at`, read as hexadecimal.
        serial = int(str(at), 16)
        pairs += [(f"{FIRST} register {at} {serial:x} {FIRST} {END}", "registered")]
        if at % 2 == 0:
            requests += 1
            pairs += revoked(requests, serial)
    pairs += [(f"{FIRST} counts", "good 100 revoked 100 expired 0"), (f"{FIRST} crl", "crl 1 entries 100")]
    good = f"ocsp {answer(modelled(), seconds(FIRST), REQUEST).hex()}"
    t.has(good, "020105" + "8000" + general(seconds(FIRST)).hex(), "the expected answer, which has the status good")
    pairs += [(f"{FIRST} ocsp {REQUEST.hex()}", good)] * 200
    pairs += [(f"{PAST} counts", "good 0 revoked 100 expired 100"), (f"{PAST} crl", "crl 2 entries 100"), (f"{PAST} crl", "crl 3 entries 0")]
    ran(t, pairs)


# The input, the exit status, and standard error. The first 1,000,000 lines have a reply.
SCRIPTS = {
    "1000000 lines": (b"\n" * 1_000_000, 0, b""),
    "1000000 lines, the last without its end": (b"\n" * 999_999 + b"x", 0, b""),
    "1000001 lines": (b"\n" * 1_000_001, 1, b"F4 read\n"),
    "1000001 lines, the last without its end": (b"\n" * 1_000_000 + b"x", 1, b"F4 read\n"),
}


@each(SCRIPTS, seconds=2)
def a_script_of(t, given, status, told):
    ended = t.desk("script", given=given)
    t.same((ended.status, ended.err), (status, told), "status and standard error")
    t.true(ended.out == b"E22 syntax\n" * 1_000_000, f"the replies are not {11 * 1_000_000} bytes of `E22 syntax`; they have {len(ended.out)} bytes")
