"""The bytes of the CRLs that were issued (RFC 5280 5.1, 5.2, 5.3)."""

from .der import KEY, NAME, SHA1, integer, sha1, signed, time, value


def crl(register, number):
    this_update = register.crls[number - 1]
    rows = sorted(register.entries(number), key=lambda it: it.serial)
    # Without an entry revokedCertificates is absent.
    revoked = value(0x30, *map(entry, rows)) if rows else b""
    times = time(this_update) + time(this_update + register.policy.crl_life)
    return signed(value(0x30, integer(1), SHA1, NAME, times, revoked, extensions(register, number)))


def entry(row):
    reason = value(0x30, value(0x06, b"\x55\x1d\x15"), value(0x04, value(0x0A, bytes([row.reason]))))
    return value(0x30, integer(row.serial), time(row.at), value(0x30, reason) if row.reason else b"")


def extensions(register, number):
    identifier = register.identifier(number) or sha1(KEY)
    key = value(0x30, value(0x06, b"\x55\x1d\x23"), value(0x04, value(0x30, value(0x80, identifier))))
    counted = value(0x30, value(0x06, b"\x55\x1d\x14"), value(0x04, integer(number)))
    return value(0xA0, value(0x30, key, counted))
