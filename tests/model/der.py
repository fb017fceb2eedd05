"""Writes and reads values in DER (X.690), and makes the placeholder digest."""

import hashlib

from . import moments

# The issuer of the examples: common name CA, and a key of three bytes.
NAME = bytes.fromhex("300D310B300906035504030C024341")
KEY = b"abc"
# The AlgorithmIdentifier of SHA-1 with NULL, which the placeholder digest has.
SHA1 = bytes.fromhex("300906052B0E03021A0500")


def sha1(message):
    return hashlib.sha1(message).digest()


def value(tag, *parts):
    """A tag, a length in the fewest octets, and the contents (X.690 8.1, 10.1)."""
    contents = b"".join(parts)
    size = len(contents)
    if size < 128:
        return bytes([tag, size]) + contents
    octets = size.to_bytes((size.bit_length() + 7) // 8, "big")
    return bytes([tag, 128 + len(octets)]) + octets + contents


def integer(number):
    """An INTEGER that is not negative (X.690 8.3)."""
    return value(0x02, number.to_bytes(number.bit_length() // 8 + 1, "big"))


def general(seconds):
    text = moments.text_of(seconds)
    return value(0x18, "".join(it for it in text if it.isdigit()).encode() + b"Z")


def time(seconds):
    """A Time: UTCTime through 2049, else GeneralizedTime (RFC 5280 5.1.2.4)."""
    written = general(seconds)
    return written if seconds >= moments.YEAR_2050 else value(0x17, written[4:])


def signed(message):
    """A SEQUENCE of a message, the algorithm, and the placeholder digest: the message's SHA-1 as a BIT STRING."""
    return value(0x30, message, SHA1, value(0x03, b"\0", sha1(message)))


class NotDer(Exception):
    """Bytes that do not have the expected form."""


def wants(holds):
    if not holds:
        raise NotDer


def take(bytes_, tag=None):
    """The tag and the contents of the first value, and the bytes after it."""
    wants(len(bytes_) >= 2 and bytes_[0] % 32 != 31 and tag in (None, bytes_[0]))
    size, at = bytes_[1], 2
    if size >= 128:
        count = size - 128
        octets = bytes_[2 : 2 + count]
        wants(1 <= count <= 4 and len(octets) == count)
        size, at = int.from_bytes(octets, "big"), 2 + count
        wants(size >= 128 and octets[0] != 0)
    wants(len(bytes_) >= at + size)
    return bytes_[0], bytes_[at : at + size], bytes_[at + size :]


def whole(bytes_, tag):
    """The contents of a value, which must have all these bytes."""
    _, contents, rest = take(bytes_, tag)
    wants(not rest)
    return contents


def optional(bytes_, tag):
    """The contents of the first value if it has this tag, else None; and the bytes after it."""
    if bytes_[:1] != bytes([tag]):
        return None, bytes_
    _, contents, rest = take(bytes_, tag)
    return contents, rest
