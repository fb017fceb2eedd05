#!/usr/bin/env python3
"""Passes on only CRLs and OCSP answers of one issuer, as `desk` writes them, so that nobody at a signer's socket can get a signature for
a certificate, or for bytes that a client reads as one.

It runs a command that signs standard input, and gives it the message:

    socat -t 10 UNIX-LISTEN:ca.sign,fork,mode=600 EXEC:'examples/only_ours.py ca.pem openssl dgst -sha256 -sign ca.key'

(`examples/signer.py --only-ours ca.pem` makes the same checks by itself.) A refused message gets no signature: the exit status is 1,
standard error has the reason, and the desk reports `F3 signer`, or answers internalError.

It also verifies the command's signature with openssl and the certificate, and prints it only if it verifies, so not if it is of another key.

It accepts exactly the form that the desk writes, in DER (X.690 10, 11) and to the last octet:

    TBSCertList (RFC 5280 5.1.2)    version 2, the key's algorithm, the issuer's name, the two moments, entries of a serial number, a
                                    moment and a reason, the issuer's key identifier (its certificate's own, or the SHA-1 of its key) and
                                    the CRL's number
    ResponseData (RFC 6960 4.2.1)   the responder by the SHA-1 of the issuer's key, the moment, the answers, the request's nonce; an
                                    answer good or revoked is about a certificate of the issuer

It doesn't know the register. Whoever connects to the socket can still get a signature for an empty CRL, or for `good` of a revoked
certificate.

With --responder it accepts the answers of that responder (RFC 6960 4.2.2.2) about the CA's certificates, and no CRL:

    examples/only_ours.py --responder responder.pem ca.pem openssl dgst -sha256 -sign responder.key

Usage: examples/only_ours.py [--responder RESPONDER.pem] CA.pem COMMAND WORD ..
"""
import base64
import hashlib
import itertools
import re
import subprocess
import sys
import tempfile
from collections import namedtuple

INTEGER, BITS, OCTETS, IDENTIFIER, SEQUENCE = 0x02, 0x03, 0x04, 0x06, 0x30
# The longest message: the desk signs CRLs of 2^27 bytes at most.
LONGEST = 1 << 27

# The AlgorithmIdentifier of the desk's signatures with a key, by that of the key: RFC 5480 2.1.1 and RFC 5758 3.2 (P-256, P-384),
# RFC 4055 1.2 and 5 (RSA), RFC 8410 3 (Ed25519).
ALGORITHMS = {
    bytes.fromhex("301306072A8648CE3D020106082A8648CE3D030107"): bytes.fromhex("300A06082A8648CE3D040302"),
    bytes.fromhex("301006072A8648CE3D020106052B81040022"): bytes.fromhex("300A06082A8648CE3D040303"),
    bytes.fromhex("300D06092A864886F70D0101010500"): bytes.fromhex("300D06092A864886F70D01010B0500"),
    bytes.fromhex("300506032B6570"): bytes.fromhex("300506032B6570"),
}
# The digest of each of these, as openssl names it; Ed25519 has none.
DIGESTS = dict(zip(ALGORITHMS.values(), ("-sha256", "-sha384", "-sha256", None)))
# id-sha1 and id-sha256, their parameters left out or NULL (RFC 3370 2.1, RFC 5754 2.2).
HASHES = {
    hashlib.sha1: [bytes.fromhex("300706052B0E03021A"), bytes.fromhex("300906052B0E03021A0500")],
    hashlib.sha256: [bytes.fromhex("300B0609608648016503040201"), bytes.fromhex("300D06096086480165030402010500")],
}

KEY_IDENTIFIER, SUBJECT_KEY_IDENTIFIER, CRL_NUMBER = bytes.fromhex("0603551D23"), bytes.fromhex("0603551D0E"), bytes.fromhex("0603551D14")
# The longest key identifier that the desk has, in octets.
LONGEST_IDENTIFIER = 64
NONCE = bytes.fromhex("06092B0601050507300102")

# Moments in seconds and UTC (RFC 5280 4.1.2.5), and the reasons of RFC 5280 5.3.1 but 0, which is left out.
SECONDS = rb"(?:0[1-9]|1[0-2])(?:0[1-9]|[12]\d|3[01])(?:[01]\d|2[0-3])[0-5]\d[0-5]\dZ"
UTC, GENERAL = rb"\x17\x0D\d\d" + SECONDS, rb"\x18\x0F\d{4}" + SECONDS
REASON = rb"\x0A\x01[\x01-\x06\x08-\x0A]"


class Refused(Exception):
    """Bytes that are not to be signed; the text is the reason."""


class Part:
    """Octets that are read value by value. In DER a length has only one form (X.690 10.1)."""

    def __init__(self, octets, at=0, end=None):
        self.octets, self.at, self.end = octets, at, len(octets) if end is None else end

    def next_is(self, tag):
        return self.at < self.end and self.octets[self.at] == tag

    def inside(self, tag):
        """The contents of the next value, which has this tag."""
        if self.end - self.at < 2 or self.octets[self.at] != tag:
            raise Refused(f"octet {self.at} begins no value with the tag {tag:02X}")
        length, begin = self.octets[self.at + 1], self.at + 2
        if length > 127:
            more = self.octets[begin : begin + length - 128]
            length, begin = int.from_bytes(more, "big"), begin + len(more)
            if length < 128 or more[0] == 0:
                raise Refused(f"octet {self.at + 1} begins a length that is not in DER")
        if begin + length > self.end:
            raise Refused(f"the value at octet {self.at} is longer than what holds it")
        self.at = begin + length
        return Part(self.octets, begin, self.at)

    def any(self):
        """The contents of the next value, with any tag of one octet."""
        if self.at == self.end or self.octets[self.at] % 32 == 31:
            raise Refused(f"octet {self.at} begins no value")
        return self.inside(self.octets[self.at])

    def whole(self, tag):
        """The next value, with its tag and its length."""
        begin = self.at
        self.inside(tag)
        return bytes(self.octets[begin : self.at])

    def same(self, wanted, what):
        """Skips octets that have to be these."""
        if self.octets[self.at : min(self.end, self.at + len(wanted))] != wanted:
            raise Refused(f"no {what} at octet {self.at}")
        self.at += len(wanted)

    def one_of(self, wanted, what):
        """Skips octets that have to be one of these."""
        found = next((it for it in wanted if self.octets[self.at : min(self.end, self.at + len(it))] == it), None)
        if found is None:
            raise Refused(f"no {what} at octet {self.at}")
        self.at += len(found)

    def fits(self, pattern, what):
        """Skips octets of this form."""
        found = pattern.match(self.octets, self.at, self.end)
        if not found:
            raise Refused(f"no {what} at octet {self.at}")
        self.at = found.end()

    def number(self):
        """An INTEGER, in the fewest octets that can encode it (X.690 8.3.2)."""
        value = self.inside(INTEGER)
        octets = bytes(self.octets[value.at : value.end])
        number = int.from_bytes(octets, "big", signed=True)
        if octets != number.to_bytes(max(number, ~number).bit_length() // 8 + 1, "big", signed=True):
            raise Refused(f"octet {value.at} begins no number in DER")
        return number

    def ended(self):
        if self.at != self.end:
            raise Refused(f"octet {self.at} is one too many")


# An entry of revokedCertificates, and the status of one certificate


def either(patterns):
    return re.compile(b"|".join(patterns), re.DOTALL)


def positive(count):
    """An INTEGER above 0 of this many octets, with its tag and its length."""
    small = rb"[\x01-\x7F].{%d}" % (count - 1)
    contents = small if count == 1 else rb"(?:%s|\0[\x80-\xFF].{%d})" % (small, count - 2)
    return re.escape(bytes([INTEGER, count])) + contents


def entries():
    """A serial number, its moment, and its reason if it has one, as one pattern for each length: a CRL has up to a million of these."""
    moments = {15: UTC, 17: GENERAL}
    reasons = {0: b"", 14: rb"\x30\x0C\x30\x0A\x06\x03\x55\x1D\x15\x04\x03" + REASON}
    for count, (moment, at), (reason, why) in itertools.product(range(1, 21), moments.items(), reasons.items()):
        yield re.escape(bytes([SEQUENCE, 2 + count + moment + reason])) + positive(count) + at + why


MOMENT, GENERAL_MOMENT, ENTRY = either([UTC, GENERAL]), either([GENERAL]), either(entries())
# good, revoked with and without a reason; unknown (RFC 6960 4.2.1).
KNOWN = either([rb"\x80\x00", rb"\xA1\x11" + GENERAL, rb"\xA1\x16" + GENERAL + rb"\xA0\x03" + REASON])
UNKNOWN = either([rb"\x82\x00"])
HOLDS = either([GENERAL + rb"\xA0\x11" + GENERAL])


# The issuer

Issuer = namedtuple("Issuer", "name key_hash key_identifiers algorithm cert_ids public")


def der_of(path):
    """A certificate's DER, from a file in DER or PEM (RFC 7468 5)."""
    with open(path, "rb") as file:
        octets = file.read()
    found = re.search(rb"-----BEGIN CERTIFICATE-----(.*?)-----END CERTIFICATE-----", octets, re.DOTALL)
    return base64.b64decode(found[1]) if found else octets


def own_identifier(part):
    """The subjectKeyIdentifier (RFC 5280 4.2.1.2) in the rest of a TBSCertificate after its key; nothing if there is none."""
    while part.at < part.end and not part.next_is(0xA3):
        part.any()
    extensions = part.inside(0xA3).inside(SEQUENCE) if part.at < part.end else part
    while extensions.at < extensions.end:
        extension = extensions.inside(SEQUENCE)
        if extension.whole(IDENTIFIER) == SUBJECT_KEY_IDENTIFIER:
            if extension.next_is(0x01):
                extension.inside(0x01)
            value = extension.inside(OCTETS).inside(OCTETS)
            return bytes(value.octets[value.at : value.end])
    return b""


def authority_key_identifier(identifier):
    """The authorityKeyIdentifier extension of a CRL with this key identifier (RFC 5280 5.2.1, 4.2.1.1)."""
    value = bytes([0x80, len(identifier)]) + identifier
    for tag in (SEQUENCE, OCTETS):
        value = bytes([tag, len(value)]) + value
    return bytes([SEQUENCE, len(KEY_IDENTIFIER + value)]) + KEY_IDENTIFIER + value


def issuer_of(path):
    """The issuer, from the certificate of a CA: its subject and its public key (RFC 5280 4.1)."""
    part = Part(der_of(path)).inside(SEQUENCE).inside(SEQUENCE)
    if part.next_is(0xA0):
        part.inside(0xA0)
    # The serial number, the algorithm, the issuer; the validity.
    for tag in (INTEGER, SEQUENCE, SEQUENCE, SEQUENCE):
        part.inside(tag)
    name, public = part.whole(SEQUENCE), part.whole(SEQUENCE)
    info = Part(public).inside(SEQUENCE)
    algorithm = ALGORITHMS.get(info.whole(SEQUENCE))
    if not algorithm:
        raise Refused("its key is none of P-256, P-384, RSA and Ed25519")
    bits = info.inside(BITS)
    key = public[bits.at + 1 : bits.end]
    cert_ids = tuple(it + b"".join(bytes([OCTETS, hashed(part).digest_size]) + hashed(part).digest() for part in (name, key))
                     for hashed, identifiers in HASHES.items() for it in identifiers)
    key_hash, own = hashlib.sha1(key).digest(), own_identifier(part)
    key_identifiers = [authority_key_identifier(it) for it in (key_hash, own) if 1 <= len(it) <= LONGEST_IDENTIFIER]
    return Issuer(name, key_hash, key_identifiers, algorithm, cert_ids, public)


# The messages


def read_crl(part, issuer):
    """The contents of a TBSCertList (RFC 5280 5.1.2)."""
    part.same(b"\x02\x01\x01" + issuer.algorithm, "version 2 with the algorithm of the issuer's key")
    part.same(issuer.name, "name of the issuer")
    part.fits(MOMENT, "thisUpdate")
    part.fits(MOMENT, "nextUpdate")
    if part.next_is(SEQUENCE):
        listed = part.inside(SEQUENCE)
        listed.fits(ENTRY, "entry")
        while listed.at < listed.end:
            listed.fits(ENTRY, "entry")
    tagged = part.inside(0xA0)
    part.ended()
    extensions = tagged.inside(SEQUENCE)
    tagged.ended()
    extensions.one_of(issuer.key_identifiers, "key identifier of the issuer")
    extension = extensions.inside(SEQUENCE)
    extensions.ended()
    extension.same(CRL_NUMBER, "CRL number")
    value = extension.inside(OCTETS)
    extension.ended()
    if value.number() < 1:
        raise Refused("a CRL's number is 1 at least")
    value.ended()


def read_cert_id(part):
    """A CertID (RFC 6960 4.1.1), repeated from the request: the hash algorithm, two hashes and a serial number."""
    algorithm = part.inside(SEQUENCE)
    identifier = algorithm.inside(IDENTIFIER)
    if identifier.at == identifier.end:
        raise Refused(f"octet {identifier.at} begins no identifier")
    if algorithm.at < algorithm.end:
        algorithm.any()
    algorithm.ended()
    part.inside(OCTETS)
    part.inside(OCTETS)
    part.number()
    part.ended()


def read_single(part, issuer):
    """A SingleResponse (RFC 6960 4.2.1)."""
    asked = part.inside(SEQUENCE)
    is_ours = asked.octets.startswith(issuer.cert_ids, asked.at, asked.end)
    read_cert_id(asked)
    if part.next_is(0x82):
        part.fits(UNKNOWN, "status")
    elif is_ours:
        part.fits(KNOWN, "status")
    else:
        raise Refused("the status of another issuer's certificate is not `unknown`")
    part.fits(HOLDS, "thisUpdate and nextUpdate")
    part.ended()


def read_nonce(part):
    """responseExtensions, with only the nonce (RFC 6960 4.4.1)."""
    extensions = part.inside(SEQUENCE)
    part.ended()
    extension = extensions.inside(SEQUENCE)
    extensions.ended()
    extension.same(NONCE, "nonce")
    extension.inside(OCTETS)
    extension.ended()


def read_answer(part, issuer, responder):
    """The contents of a ResponseData (RFC 6960 4.2.1)."""
    part.same(b"\xA2\x16\x04\x14" + responder.key_hash, "responder by the hash of its key")
    part.fits(GENERAL_MOMENT, "producedAt")
    answers = part.inside(SEQUENCE)
    read_single(answers.inside(SEQUENCE), issuer)
    while answers.at < answers.end:
        read_single(answers.inside(SEQUENCE), issuer)
    if part.at < part.end:
        read_nonce(part.inside(0xA1))
    part.ended()


def check(message, issuer, responder=None):
    """Refuses all but a CRL and an OCSP answer of this issuer; with a responder, all but its answers."""
    outer = Part(message)
    part = outer.inside(SEQUENCE)
    outer.ended()
    # A TBSCertList begins with its version. A TBSCertificate of version 1 begins with its serial number; read_crl refuses it, because it has
    # a validity in place of thisUpdate and nextUpdate.
    if part.next_is(INTEGER):
        if responder:
            raise Refused("a responder signs no CRL")
        read_crl(part, issuer)
    else:
        read_answer(part, issuer, responder or issuer)


def read_certificate(path, whose="CA"):
    """The issuer (or responder) of a certificate; exits if the certificate can't be read."""
    try:
        return issuer_of(path)
    except (OSError, ValueError, Refused) as why:
        sys.exit(f"{path}: no certificate of a {whose}: {why}")


# The signature


def is_verified(signature, message, issuer):
    """Whether openssl verifies a signature of a message with the key of an issuer or a responder."""
    with tempfile.TemporaryDirectory() as folder:
        paths = [f"{folder}/{name}" for name in ("key", "message", "signature")]
        pem = b"-----BEGIN PUBLIC KEY-----\n" + base64.encodebytes(issuer.public) + b"-----END PUBLIC KEY-----\n"
        for path, octets in zip(paths, (pem, message, signature)):
            with open(path, "wb") as file:
                file.write(octets)
        key, asked, signed = paths
        if digest := DIGESTS[issuer.algorithm]:
            words = ["dgst", digest, "-verify", key, "-signature", signed, asked]
        else:
            words = ["pkeyutl", "-verify", "-rawin", "-pubin", "-inkey", key, "-in", asked, "-sigfile", signed]
        return subprocess.run(["openssl", *words], capture_output=True, check=False).returncode == 0


def main():
    words, responder = sys.argv[1:], None
    if words[:1] == ["--responder"] and len(words) > 1:
        responder, words = read_certificate(words[1], "responder"), words[2:]
    if len(words) < 2:
        print(__doc__, file=sys.stderr)
        sys.exit(2)
    issuer = read_certificate(words[0])
    message = sys.stdin.buffer.read(LONGEST + 1)
    try:
        check(message, issuer, responder)
    except Refused as why:
        sys.exit(f"refused to have {len(message)} bytes signed: {why}")
    ran = subprocess.run(words[1:], input=message, stdout=subprocess.PIPE, check=False)
    if ran.returncode:
        sys.exit(ran.returncode)
    if not is_verified(ran.stdout, message, responder or issuer):
        sys.exit(f"{words[1]} gave no signature that openssl verifies by the certificate: is its key another?")
    sys.stdout.buffer.write(ran.stdout)


if __name__ == "__main__":
    main()
