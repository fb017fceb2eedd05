#!/usr/bin/env python3
"""Requests a signature for a test message, and verifies it with openssl and the CA's certificate, so that a signer with a wrong key is noticed before
it signs for clients. The unit desk@.service runs this before the desk starts.

    examples/check-signer.py ca.pem --signer ca.sign --algorithm ecdsa-sha256

It takes the options of `desk open`. It verifies the signature of --signer with CA.pem, and that of --responder-signer with the certificate of
--responder. It ignores all other options, and prints nothing if there is no signer. The test message is an OCSP answer of 1970 that says `unknown` about
a certificate of no issuer: a signer that is restricted to one CA (examples/only_ours.py) signs it, and nobody can use it.

Exit status: 0 if each signature verifies; 1 if one does not, or a signer gives none within ten seconds, or a certificate can't be read; 2 if the
command line can't be read. With --allow-absent a signer that gives no signature is reported, and is no failure.

Usage: examples/check-signer.py [--allow-absent] CA.pem [OPTION ..]
"""
import argparse
import socket
import sys
import time

# Python writes no compiled module beside the imported one.
sys.dont_write_bytecode = True
from only_ours import OCTETS, SEQUENCE, is_verified, read_certificate  # noqa: E402

# The desk waits this many seconds for a signature, and accepts at most this many octets.
PATIENCE, LONGEST_SIGNATURE = 10, 4096
# The octets before the signature of a signer that has persistent connections (signer/README.md).
ANNOUNCEMENT = b"desk-signer/1 \r\n"
MOMENT = b"\x18\x0F19700101000000Z"


def value(tag, *parts):
    """A DER value of fewer than 256 octets."""
    contents = b"".join(parts)
    length = bytes([len(contents)]) if len(contents) < 128 else bytes([0x81, len(contents)])
    return bytes([tag]) + length + contents


def test_message(key_hash):
    """A ResponseData (RFC 6960 4.2.1) of the responder with this key, about a certificate of no issuer."""
    algorithm = bytes.fromhex("300906052B0E03021A0500")
    asked = value(SEQUENCE, algorithm, value(OCTETS, bytes(20)), value(OCTETS, bytes(20)), b"\x02\x01\x01")
    answer = value(SEQUENCE, asked, b"\x82\x00", MOMENT, value(0xA0, MOMENT))
    return value(SEQUENCE, value(0xA2, value(OCTETS, key_hash)), MOMENT, value(SEQUENCE, answer))


def signature_of(message, path):
    """The signature that the signer at a socket returns for a message within PATIENCE; empty if it closes without one."""
    deadline = time.monotonic() + PATIENCE
    with socket.socket(socket.AF_UNIX) as connection:
        connection.settimeout(PATIENCE)
        connection.connect(path)
        connection.sendall(message)
        connection.shutdown(socket.SHUT_WR)
        answer = b""
        while len(answer) <= len(ANNOUNCEMENT) + LONGEST_SIGNATURE:
            # A read may not wait for 0 seconds: that would mean not to block.
            connection.settimeout(max(deadline - time.monotonic(), 0.001))
            if not (part := connection.recv(LONGEST_SIGNATURE)):
                break
            answer += part
        return answer.removeprefix(ANNOUNCEMENT)


def check(path, signer, certificate):
    """The fault of the signer at a socket (or None), and whether it returned a signature."""
    message = test_message(signer.key_hash)
    try:
        signature = signature_of(message, path)
    except OSError as fault:
        return f"{path}: no signature: {fault}", False
    if not signature:
        return f"{path}: no signature", False
    if not is_verified(signature, message, signer):
        return f"{path}: openssl does not verify the signer's signature by {certificate}: the signer has another key", True
    return None, True


def read_words():
    parser = argparse.ArgumentParser(usage=__doc__.partition("Usage: ")[2].partition("\n\n")[0], allow_abbrev=False)
    parser.add_argument("--allow-absent", action="store_true")
    for name in ("--signer", "--responder", "--responder-signer"):
        parser.add_argument(name)
    parser.add_argument("certificate")
    words, _ = parser.parse_known_args()
    if words.responder_signer and not words.responder:
        parser.error("--responder-signer needs --responder")
    return words


def main():
    words, failed = read_words(), False
    for path, certificate, whose in ((words.signer, words.certificate, "CA"), (words.responder_signer, words.responder, "responder")):
        if path is None:
            continue
        wrong, is_there = check(path, read_certificate(certificate, whose), certificate)
        if wrong:
            print(wrong, file=sys.stderr)
            failed = failed or is_there or not words.allow_absent
    sys.exit(1 if failed else 0)


main()
