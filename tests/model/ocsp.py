"""Reads OCSP requests, and writes their responses (RFC 6960 4.1, 4.2)."""

import hashlib

from .der import KEY, NAME, NotDer, general, integer, optional, sha1, signed, take, value, wants, whole
from .moments import CLOCK_END

NONCE = bytes.fromhex("2B0601050507300102")
BASIC = bytes.fromhex("2B0601050507300101")
SHA1_NAMED = bytes.fromhex("2B0E03021A")
SHA256_NAMED = bytes.fromhex("608648016503040201")
MALFORMED, TRY_LATER = (value(0x30, value(0x0A, bytes([it]))) for it in (1, 3))
LONGEST = 65_536
SERIAL_END = 2**159


def algorithms(name):
    """The AlgorithmIdentifiers of a hash: without parameters, and with NULL."""
    return value(0x30, value(0x06, name)), value(0x30, value(0x06, name), value(0x05))


def read_extensions(written):
    """The value of the first nonce among Extensions."""
    nonce, rest = None, whole(written, 0x30)
    while rest:
        _, inner, rest = take(rest, 0x30)
        _, identifier, inner = take(inner, 0x06)
        critical, inner = optional(inner, 0x01)
        contents = whole(inner, 0x04)
        wants(identifier and critical in (None, b"\x00", b"\xff"))
        # An extension that is critical must be known (RFC 5280 4.2).
        wants(critical != b"\xff" or identifier == NONCE)
        if identifier == NONCE and nonce is None:
            nonce = contents
    return nonce


def read_id(contents):
    """The serial number if a CertID with these contents names a certificate of the issuer, else None."""
    _, algorithm, rest = take(contents, 0x30)
    _, identifier, parameters = take(algorithm, 0x06)
    if parameters:
        _, _, more = take(parameters)
        wants(not more)
    _, name, rest = take(rest, 0x04)
    _, key, rest = take(rest, 0x04)
    octets = whole(rest, 0x02)
    wants(identifier and octets)
    # An INTEGER has the fewest octets (X.690 8.3.2).
    wants(len(octets) == 1 or not (octets[0] == 0 and octets[1] < 128 or octets[0] == 255 and octets[1] >= 128))
    serial = int.from_bytes(octets, "big", signed=True)
    hashed = {SHA1_NAMED: "sha1", SHA256_NAMED: "sha256"}.get(identifier)
    if not hashed or value(0x30, algorithm) not in algorithms(identifier) or not 1 <= serial < SERIAL_END:
        return None
    digest = lambda it: hashlib.new(hashed, it).digest()
    return serial if (name, key) == (digest(NAME), digest(KEY)) else None


def read_request(request):
    """The CertIDs of a request, each with the serial number that it names or None, and the nonce that the response repeats."""
    wants(len(request) <= LONGEST)
    _, message, signature = take(whole(request, 0x30), 0x30)
    if signature:
        whole(signature, 0xA0)
    version, message = optional(message, 0xA0)
    wants(version in (None, b"\x02\x01\x00"))
    _, message = optional(message, 0xA1)
    _, singles, rest = take(message, 0x30)
    nonce = read_extensions(whole(rest, 0xA2)) if rest else None
    wants(singles)
    ids = []
    while singles:
        _, single, singles = take(singles, 0x30)
        _, contents, more = take(single, 0x30)
        if more:
            read_extensions(whole(more, 0xA0))
        ids.append((value(0x30, contents), read_id(contents)))
    return ids, nonce if nonce and len(nonce) <= 131 else None


def told(register, now, serial):
    status = "unknown" if serial is None else register.status_of(now, serial)
    if status == "unknown":
        return value(0x82)
    if status != "revoked":
        return value(0x80)
    row = register.revocations[serial]
    reason = value(0xA0, value(0x0A, bytes([row.reason]))) if row.reason else b""
    return value(0xA1, general(row.at), reason)


def answer(register, now, request):
    """The response to a request's bytes at a moment."""
    try:
        ids, nonce = read_request(request)
    except NotDer:
        return MALFORMED
    if now >= CLOCK_END or now < register.last:
        return TRY_LATER
    times = general(now) + value(0xA0, general(now + register.policy.ocsp_life))
    singles = [value(0x30, written, told(register, now, serial), times) for written, serial in ids]
    repeated = value(0xA1, value(0x30, extension(NONCE, nonce))) if nonce else b""
    data = value(0x30, value(0xA2, value(0x04, sha1(KEY))), general(now), value(0x30, *singles), repeated)
    basic = value(0x30, value(0x06, BASIC), value(0x04, signed(data)))
    return value(0x30, value(0x0A, b"\0"), value(0xA0, basic))


def extension(identifier, contents, critical=b""):
    return value(0x30, value(0x06, identifier), critical, value(0x04, contents))


def plain_request(serials):
    """A request for these serial numbers, each by SHA-1 and by SHA-256."""
    singles = []
    for serial in serials:
        for name, hashed in ((SHA1_NAMED, hashlib.sha1), (SHA256_NAMED, hashlib.sha256)):
            hashes = [value(0x04, hashed(it).digest()) for it in (NAME, KEY)]
            singles.append(value(0x30, value(0x30, algorithms(name)[1], *hashes, integer(serial))))
    return value(0x30, value(0x30, value(0x30, *singles)))
