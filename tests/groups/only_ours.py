"""A signer that signs only the desk's messages for one issuer: examples/signer.py --only-ours, and examples/only_ours.py in front of openssl.
The accepted messages come from the program itself; the refused ones come from openssl, or are made by hand."""

import contextlib
import random
import re
import signal
import socket
import subprocess
import sys
import threading
import time
from pathlib import Path

from lib import authority, native, program
from lib.authority import EXAMPLES, INTERNAL, KEYS, Authority, body_of, inside, moment_of, values_of
from lib.registers import tlv
from lib.trial import each, need, test

ALGORITHMS = {it: it for it in KEYS}
FILTER = [sys.executable, EXAMPLES / "only_ours.py"]
INTEGER, OCTETS, SEQUENCE, UTC, GENERAL = 0x02, 0x04, 0x30, 0x17, 0x18


def signature(path, message):
    """The reply to a message; empty if it is refused."""
    with socket.socket(socket.AF_UNIX) as connection:
        connection.settimeout(program.LONGEST)
        connection.connect(str(path))
        connection.sendall(message)
        connection.shutdown(socket.SHUT_WR)
        return program.read_all(connection)


def guard(t, it, path="guarded.sign"):
    """Starts the signer. Returns its socket, and its process, whose standard error has the refusals."""
    authority.need_cryptography(t)
    process = authority.started(t, ["python3", EXAMPLES / "signer.py", "--only-ours", it.pem, it.key, path], t.room / path)
    return t.room / path, process


def to_be_signed(t, it):
    """The messages that the program requests signatures for: CRLs with and without entries, and answers with and without a nonce."""
    file = it.register(f"{it.name}.db")
    signer = it.signer(f"{it.name}.asked")
    begun = authority.now()
    begins, ends = moment_of(begun), moment_of(begun + 90 * authority.DAY)
    lines = ["crl", "subscriber acme"]
    for order, (serial, ground) in enumerate((("05", "key-compromise"), ("80", "asked"), ("7f" + "00" * 19, "misuse"), ("06", None)), 1):
        lines += ["order 1 398", f"register {order} {serial} {begins} {ends}"]
        lines += [f"request {serial} {ground}", f"revoke {order}"] if ground else []
    lines += ["crl"]
    told = t.done("script", file, *it.signing(signer.path), given="".join(f"{begins} {line}\n" for line in lines)).splitlines()
    t.same((told[0], told[-1]), ("crl 1 entries 0", "crl 2 entries 3"))
    desk = t.open(file.name, *it.signing(signer.path), "--control", f"{it.name}.control")
    for words, how in ((["05"], {}), (["05", "06", "80", "07"], {"nonce": True}), (["-sha256", "5"], {}), (["-sha384", "5", "-sha1", "6"], {"nonce": True})):
        serials = [word if word.startswith("-") else f"0x{word}" for word in words]
        asked = [more for word in serials for more in ((word,) if word.startswith("-") else ("-serial", word))]
        request = it.asks(more=asked, **how)
        body_of(t, desk.ask("POST", "/ocsp", request))
    desk.end()
    return signer.asked


def let_through(t, it, message):
    """The bytes that the filter passes on for a message to a command, which signs them."""
    signs = {"ed25519": "pkeyutl -sign -rawin -inkey ca.key -in passed", "ecdsa-sha384": "dgst -sha384 -sign ca.key passed"}
    command = f"cat > passed; openssl {signs.get(it.algorithm, 'dgst -sha256 -sign ca.key passed')} | tee printed"
    t.same(t.tool(*FILTER, it.pem, "sh", "-c", command, given=message), (t.room / "printed").read_bytes(),
           "the signature that the filter prints")
    return (t.room / "passed").read_bytes()


def refused(t, path, message, what):
    t.same(signature(path, message), b"", f"{what} is refused")


@each(ALGORITHMS, seconds=6)
def what_the_desk_has_signed_is_signed(t, algorithm):
    """For each algorithm the signer signs CRLs and answers, which openssl verifies. The filter passes each message on to a command unchanged."""
    it = Authority(t, algorithm)
    path, _ = guard(t, it)
    it.register()
    begun = authority.now()
    signing = ("--signer", path.name, "--algorithm", algorithm)
    t.same(t.done("script", "ca.db", *signing, given=authority.first_day(begun)).splitlines(), authority.first_day_replies(begun))
    it.verifies(t.done("crl", "ca.db").encode("latin-1"))
    desk = t.open("ca.db", *signing)
    for serial, told in (("05", "revoked"), ("06", "good"), ("07", "unknown")):
        t.same(it.asked_by_openssl(serial, f"http://127.0.0.1:{desk.port}/ocsp", verify=True), told, serial)
    it.name = "asked"
    messages = to_be_signed(t, it)
    t.same(len(messages), 6, "CRLs and answers")
    for message in messages:
        t.true(signature(path, message) != b"", f"the signer gave no signature for {message.hex()}")
        t.same(let_through(t, it, message), message, "the message that the command gets")


@test(seconds=10)
def a_message_that_is_not_the_issuer_s_is_refused(t):
    """The signer refuses a message of another issuer or key, and goes on. The desk replies F3 to `crl`, and internalError to an OCSP request."""
    it, other, twin = Authority(t), Authority(t, name="other", subject="/CN=Other"), Authority(t, name="twin")
    path, process = guard(t, it)
    ours = to_be_signed(t, it)
    for foreign, what in ((other, "another issuer"), (twin, "another key under the issuer's name")):
        for message in to_be_signed(t, foreign):
            refused(t, path, message, f"a CRL or an answer of {what}")
        t.same(t.done("script", f"{foreign.name}.db", *it.signing(path.name), "--clock", given="crl\n"), "F3 signer\n", f"a CRL of {what}")
        desk = t.open(f"{foreign.name}.db", *it.signing(path.name), "--control", f"{foreign.name}.control")
        t.same(body_of(t, desk.ask("POST", "/ocsp", foreign.asks("05"))), INTERNAL, f"an answer of {what}")
    # Messages that are neither a CRL nor an answer: certificates, of which one begins as a CRL does, a certification request, and other bytes.
    t.tool("openssl", "req", "-new", "-key", other.key, "-subj", "/CN=T", "-out", "x.csr")
    t.tool("openssl", "x509", "-req", "-in", "x.csr", "-CA", it.pem, "-CAkey", it.key, "-set_serial", "1", "-days", "90", "-out", "v1.pem")
    request = t.tool("openssl", "req", "-in", "x.csr", "-outform", "DER")
    first = t.tool("openssl", "x509", "-in", "v1.pem", "-outform", "DER")
    t.same(inside(first, 0, 0)[2], b"\x02\x01\x01", "a certificate of version 1 and serial number 1 begins as a CRL")
    certificate = t.tool("openssl", "x509", "-in", it.pem, "-outform", "DER")
    for message, what in (
        (inside(certificate, 0)[2], "a TBSCertificate"), (inside(first, 0)[2], "a TBSCertificate of version 1"), (certificate, "a certificate"),
        (inside(request, 0)[2], "a CertificationRequestInfo"), (b"", "nothing"), (b"0", "one octet"), (b"hello", "a text"),
        (it.pem.read_bytes(), "a PEM"), (random.Random(1).randbytes(500), "random bytes"), (bytes(150), "zeros"),
    ):
        refused(t, path, message, what)
    for message in ours:
        t.true(signature(path, message) != b"", "the signer gave no signature for its own issuer's message")
    process.terminate()
    process.wait(program.LONGEST)
    told = process.stderr.read().decode().splitlines()
    t.true(len(told) > 20 and all(line.startswith("refused to sign ") for line in told), f"the signer did not report each refusal: {told}")


def is_refused(t, it, message, what):
    """The filter refuses a message, and does not run its command."""
    ran = t.tried(*FILTER, it.pem, "touch", "ran", given=message)
    t.same((ran.returncode, ran.stdout, (t.room / "ran").exists()), (1, b"", False), f"{what}: status, output, whether the command ran")
    t.has(ran.stderr, b"refused to have ", what)


def crl_of(parts, extensions):
    """A TBSCertList of the parts of another, with these extensions."""
    return tlv(SEQUENCE, *parts[:-1], tlv(0xA0, tlv(SEQUENCE, *extensions)))


def whole(value):
    return [it[2] for it in values_of(value)]


def other_crls(crl):
    """Makes messages from a CRL with entries, by name: forms that the desk never writes (RFC 5280 5 allows some), and bytes that are not DER."""
    parts = whole(inside(crl)[1])
    version, algorithm, name, this, following, entries, _ = parts
    extensions = whole(inside(crl, 6, 0)[1])
    identifier, number = extensions
    delta = tlv(SEQUENCE, bytes.fromhex("0603551D1B"), bytes.fromhex("0101FF"), tlv(OCTETS, b"\x02\x01\x01"))
    distribution = tlv(SEQUENCE, bytes.fromhex("0603551D1C"), bytes.fromhex("0101FF"), tlv(OCTETS, tlv(SEQUENCE, b"\x84\x01\xFF")))
    row = lambda *parts: tlv(SEQUENCE, tlv(SEQUENCE, *parts))
    at = tlv(UTC, b"260101000000Z")
    serial = b"\x02\x01\x05"
    put = lambda place, value: crl_of([*parts[:place], value, *parts[place + 1 :]], extensions)
    return {
        "a delta CRL": crl_of(parts, [*extensions, delta]),
        "an indirect CRL": crl_of(parts, [*extensions, distribution]),
        "with no number": crl_of(parts, [identifier]),
        "with no key identifier": crl_of(parts, [number]),
        "with its extensions in another order": crl_of(parts, [number, identifier]),
        "with a number twice": crl_of(parts, [identifier, number, number]),
        "an octet behind its number": crl_of(parts, [identifier, tlv(SEQUENCE, bytes.fromhex("0603551D14"), tlv(OCTETS, b"\x02\x01\x07\0"))]),
        "number 0": crl_of(parts, [identifier, number[:-1] + b"\0"]),
        "another key's identifier": crl_of(parts, [identifier[:-1] + bytes([identifier[-1] ^ 1]), number]),
        "with no extensions": tlv(SEQUENCE, *parts[:-1]),
        "version 1": tlv(SEQUENCE, *parts[1:]),
        "version 3": put(0, b"\x02\x01\x02"),
        "another algorithm": put(1, bytes.fromhex("300A06082A8648CE3D040303")),
        "another name": put(2, name[:-1] + b"U"),
        "no nextUpdate": tlv(SEQUENCE, *parts[:4], *parts[5:]),
        "a validity in place of thisUpdate": tlv(SEQUENCE, version, algorithm, name, tlv(SEQUENCE, this, following), *parts[5:]),
        "a moment with a zone": put(3, tlv(UTC, b"2601010000+0000")),
        "a moment without seconds": put(3, tlv(UTC, b"2601010000Z")),
        "the 13th month": put(3, tlv(UTC, b"261301000000Z")),
        "the 32nd day": put(3, tlv(UTC, b"260132000000Z")),
        "hour 24": put(3, tlv(UTC, b"260101240000Z")),
        "minute 60": put(3, tlv(UTC, b"260101006000Z")),
        "second 60": put(3, tlv(UTC, b"260101000060Z")),
        "a fraction of a second": put(3, tlv(GENERAL, b"20500101000000.5Z")),
        "no entries, and their list": put(5, tlv(SEQUENCE)),
        "serial number 0": put(5, row(b"\x02\x01\0", at)),
        "a negative serial number": put(5, row(b"\x02\x01\x80", at)),
        "a serial number with an octet too many": put(5, row(b"\x02\x02\0\x05", at)),
        "a serial number of 21 octets": put(5, row(tlv(INTEGER, b"\1" * 21), at)),
        "an entry with no moment": put(5, row(serial)),
        "an entry with another issuer": put(5, row(serial, at, tlv(SEQUENCE, tlv(SEQUENCE, bytes.fromhex("0603551D1D"), b"\x01\x01\xFF",
                                                                                    tlv(OCTETS, tlv(SEQUENCE, tlv(0xA4, name))))))),
        "reason 0": put(5, row(serial, at, tlv(SEQUENCE, tlv(SEQUENCE, bytes.fromhex("0603551D15"), tlv(OCTETS, b"\x0A\x01\0"))))),
        "reason 7": put(5, row(serial, at, tlv(SEQUENCE, tlv(SEQUENCE, bytes.fromhex("0603551D15"), tlv(OCTETS, b"\x0A\x01\x07"))))),
        "reason 11": put(5, row(serial, at, tlv(SEQUENCE, tlv(SEQUENCE, bytes.fromhex("0603551D15"), tlv(OCTETS, b"\x0A\x01\x0B"))))),
        "entries twice": tlv(SEQUENCE, *parts[:5], entries, *parts[5:]),
        "a set in place of a sequence": b"\x31" + crl[1:],
        "a length in an octet too many": b"\x30\x82\0" + crl[2:] if crl[1] == 0x81 else b"\x30\x83\0" + crl[2:],
        "a length that is left open": b"\x30\x80" + crl[3 if crl[1] == 0x81 else 4 :] + b"\0\0",
        "an octet behind it": crl + b"\0",
        "another CRL behind it": crl + crl,
        "an octet too few": crl[:-1],
        "half": crl[: len(crl) // 2],
    }


@test(seconds=8)
def crls_of_other_forms(t):
    it = Authority(t)
    _, crl = to_be_signed(t, it)[:2]
    parts, extensions = whole(inside(crl)[1]), whole(inside(crl, 6, 0)[1])
    t.same(let_through(t, it, crl_of(parts, extensions)), crl, "the CRL, built again from its parts")
    for what, message in other_crls(crl).items():
        is_refused(t, it, message, what)


def forms_of_answer(answer, name):
    """Makes messages from an answer with a revoked certificate and a nonce; `name` is the issuer's. Returns two tables by name: answers that the desk
    gives, and answers that it never gives, such as statuses of another issuer's certificates."""
    responder, produced, answers, nonce = whole(inside(answer)[1])
    singles = whole(inside(answers)[1])
    asked, status, this, following = whole(inside(singles[0])[1])
    put = lambda *singles: tlv(SEQUENCE, responder, produced, tlv(SEQUENCE, *singles))
    one = lambda *parts: put(tlv(SEQUENCE, *parts))
    hashed, name_hash, key_hash, serial = whole(inside(asked)[1])
    foreign = [tlv(SEQUENCE, hashed, bytes([*name_hash[:-1], name_hash[-1] ^ 1]), key_hash, serial),
               tlv(SEQUENCE, hashed, name_hash, bytes([*key_hash[:-1], key_hash[-1] ^ 1]), serial)]
    good, unknown = b"\x80\0", b"\x82\0"
    extension = lambda octets: tlv(SEQUENCE, bytes.fromhex("06092B0601050507300102"), tlv(OCTETS, tlv(OCTETS, bytes(octets))))
    nonced = lambda octets: tlv(SEQUENCE, responder, produced, answers, tlv(0xA1, tlv(SEQUENCE, extension(octets))))
    ours = {
        "with its nonce": answer, "without": put(*singles), "one of them": put(singles[-1]),
        # A nonce has up to 128 octets (RFC 9654 2.1).
        **{f"with a nonce of {octets} octets": nonced(octets) for octets in (1, 32, 33, 128)},
        "another issuer's is unknown": one(foreign[0], unknown, this, following), "another key's is unknown": one(foreign[1], unknown, this, following),
    }
    return ours, {
        "another's is good": one(foreign[0], good, this, following),
        "another key's is good": one(foreign[1], good, this, following),
        "another's is revoked": one(foreign[0], status, this, following),
        "another responder": tlv(SEQUENCE, bytes([*responder[:-1], responder[-1] ^ 1]), produced, answers),
        "a responder by its name": tlv(SEQUENCE, tlv(0xA1, name), produced, answers),
        "a version that is written": tlv(SEQUENCE, tlv(0xA0, b"\x02\x01\0"), responder, produced, answers),
        "no answers": put(),
        "no moment": tlv(SEQUENCE, responder, answers),
        "a moment as a UTCTime": tlv(SEQUENCE, responder, tlv(UTC, b"260101000000Z"), answers),
        "no nextUpdate": one(asked, good, this),
        "another status": one(asked, b"\x83\0", this, following),
        "good, and something in it": one(asked, b"\x80\1\0", this, following),
        "unknown, and something in it": one(asked, b"\x82\1\0", this, following),
        "revoked, and an octet behind the moment": one(asked, tlv(0xA1, whole(inside(status)[1])[0], b"\0"), this, following),
        "revoked with reason 7": one(asked, tlv(0xA1, whole(inside(status)[1])[0], tlv(0xA0, b"\x0A\x01\x07")), this, following),
        "an extension of one answer": one(asked, good, this, following, tlv(0xA1, tlv(SEQUENCE, tlv(SEQUENCE, b"\x06\x01\x2A", tlv(OCTETS))))),
        "a CertID with more in it": one(tlv(SEQUENCE, hashed, name_hash, key_hash, serial, serial), unknown, this, following),
        "a CertID with less": one(tlv(SEQUENCE, hashed, name_hash, serial), unknown, this, following),
        "a CertID with a serial number in an octet too many": one(tlv(SEQUENCE, hashed, name_hash, key_hash, b"\x02\x02\0\x05"), good, this, following),
        "a CertID with serial number -128 in two octets": one(tlv(SEQUENCE, hashed, name_hash, key_hash, b"\x02\x02\xFF\x80"), good, this, following),
        "two extensions": tlv(SEQUENCE, responder, produced, answers, tlv(0xA1, tlv(SEQUENCE, *whole(inside(nonce, 0)[1]) * 2))),
        "another extension": tlv(SEQUENCE, responder, produced, answers, tlv(0xA1, tlv(SEQUENCE, tlv(SEQUENCE, b"\x06\x01\x2A", tlv(OCTETS))))),
        "an octet behind it": answer + b"\0",
        "an octet within, behind all": tlv(SEQUENCE, responder, produced, answers, nonce, b"\0"),
        "an octet too few": answer[:-1],
        "another answer behind it": answer * 2,
    }


@test(seconds=8)
def answers_of_other_forms(t):
    it = Authority(t)
    answer = to_be_signed(t, it)[3]
    t.same(len(whole(inside(answer, 2)[1])), 4, "answers")
    name = inside(t.tool("openssl", "x509", "-in", it.pem, "-outform", "DER"), 0, 5)[2]
    ours, others = forms_of_answer(answer, name)
    for what, message in ours.items():
        t.same(let_through(t, it, message), message, what)
    for what, message in others.items():
        is_refused(t, it, message, what)


@test(seconds=3)
def an_octet_that_names_the_issuer_is_changed(t):
    """The check refuses a message if a bit differs before the CRL's moments, in its key identifier, or in the answer's responder."""
    it = Authority(t)
    sys.path.insert(0, str(EXAMPLES))
    try:
        import only_ours
    finally:
        sys.path.remove(str(EXAMPLES))
    issuer = only_ours.issuer_of(it.pem)
    messages = to_be_signed(t, it)
    crl, answer = messages[1], messages[2]
    key_hash = issuer.key_hash

    def is_let_through(message):
        try:
            only_ours.check(message, issuer)
        except only_ours.Refused:
            return False
        return True

    t.same([is_let_through(it) for it in messages], [True] * len(messages))
    fixed = [(crl, at) for at in range(crl.index(issuer.name) + len(issuer.name))]
    fixed += [(message, message.index(key_hash) + at) for message in (crl, answer) for at in range(len(key_hash))]
    for message, at in fixed:
        for bit in range(8):
            changed = message[:at] + bytes([message[at] ^ 1 << bit]) + message[at + 1 :]
            t.true(not is_let_through(changed), f"octet {at} of {message.hex()} was accepted as {changed[at]:02x}")
    # A message that is cut short or longer is refused.
    for message in messages:
        t.same([at for at in range(len(message)) if is_let_through(message[:at])], [], "lengths at which a message that is cut short is accepted")
        t.true(not is_let_through(message + b"\0"), "a message with one more octet was accepted")


@test(seconds=3)
def a_crl_of_many_entries(t):
    """The signer signs a CRL of 20,000 entries, and refuses it if the last entry is cut short."""
    it = Authority(t)
    path, _ = guard(t, it)
    crl = to_be_signed(t, it)[1]
    parts = whole(inside(crl)[1])
    entries = b"".join(tlv(SEQUENCE, tlv(INTEGER, (2**150 + 7919 * at).to_bytes(19, "big")), tlv(UTC, b"260101000000Z")) for at in range(20_000))
    message = tlv(SEQUENCE, *parts[:5], tlv(SEQUENCE, entries), parts[6])
    t.true(signature(path, message) != b"", "the signer gave no signature")
    refused(t, path, tlv(SEQUENCE, *parts[:5], tlv(SEQUENCE, entries[:-1]), parts[6]), "one whose last entry is cut short")


@test(seconds=2)
def a_certificate_of_another_key_is_not_taken(t):
    authority.need_cryptography(t)
    it, other = Authority(t), Authority(t, name="other")
    for pem, told in ((other.pem, b"is the certificate of another key"), (it.key, b"no certificate of a CA"), ("nowhere.pem", b"no certificate of a CA")):
        ran = t.tried("python3", EXAMPLES / "signer.py", "--only-ours", pem, it.key, "ca.sign")
        t.same((ran.returncode, (t.room / "ca.sign").exists()), (1, False), f"{pem}: status, whether it listens")
        t.has(ran.stderr, told)
    der = t.tool("openssl", "x509", "-in", it.pem, "-outform", "DER")
    (t.room / "ca.der").write_bytes(der)
    t.same(t.tool("python3", EXAMPLES / "signer.py", "--only-ours", "ca.der", it.key), b"ecdsa-sha256\n", "the certificate in DER")


@each(ALGORITHMS, seconds=3)
def a_command_with_another_key(t, algorithm):
    """The command's signature has the right form, but openssl does not verify it with the CA's certificate. The filter passes none on to the desk."""
    need("socat")
    it = Authority(t, algorithm)
    message = to_be_signed(t, it)[0]
    Authority(t, algorithm, name="other")
    signs = {"ed25519": "pkeyutl -sign -rawin -inkey other.key -in asked", "ecdsa-sha384": "dgst -sha384 -sign other.key asked"}
    (t.room / "sign").write_text(f"#!/bin/sh\ncat > asked\nopenssl {signs.get(algorithm, 'dgst -sha256 -sign other.key asked')}\n")
    (t.room / "sign").chmod(0o755)
    ran = t.tried(*FILTER, it.pem, "./sign", given=message)
    t.same((ran.returncode, ran.stdout), (1, b""), "status and output")
    t.has(ran.stderr, b"./sign gave no signature that openssl verifies by the certificate")
    ran = t.tried(*FILTER, it.pem, "sh", "-c", "echo half; exit 7", given=message)
    t.same((ran.returncode, ran.stdout), (7, b""), "a command that fails")
    filter_and_sign = f"{FILTER[0]} {FILTER[1]} ca.pem ./sign"
    authority.started(t, ["socat", "-t", "10", "UNIX-LISTEN:other.sign,fork,mode=600", f"EXEC:{filter_and_sign}"], t.room / "other.sign")
    it.register("wrong.db")
    t.same(t.done("script", "wrong.db", *it.signing("other.sign"), "--clock", given="crl\n"), "F3 signer\n", "a CRL by another key")
    t.same(t.desk("crl", "wrong.db").err, b"E21 no-crl\n", "the register has no CRL")


# This hashlib returns for each message the digest of another message.
WRONG_DIGESTS = """
import hashlib
for name in ("sha256", "sha384"):
    setattr(hashlib, name, lambda message=b"", real=getattr(hashlib, name): real(message + b"x"))
"""


@each({it: it for it in ("ecdsa-sha256", "ecdsa-sha384", "rsa-sha256")}, seconds=3)
def a_signature_that_does_not_verify(t, algorithm):
    """signer.py sends no signature that does not verify. Here it signs digests of other messages. Without a certificate it can't notice that."""
    authority.need_cryptography(t)
    it = Authority(t, algorithm)
    message = to_be_signed(t, it)[0]
    (t.room / "sitecustomize.py").write_text(WRONG_DIGESTS)
    signer = ["env", f"PYTHONPATH={t.room}", "python3", EXAMPLES / "signer.py"]
    process = authority.started(t, [*signer, "--only-ours", it.pem, it.key, "guarded.sign"], t.room / "guarded.sign")
    for _ in range(3):
        refused(t, t.room / "guarded.sign", message, "a signature of another message")
    process.terminate()
    process.wait(program.LONGEST)
    told = process.stderr.read().decode().splitlines()
    t.same([f"its signature does not verify by {it.pem}" in line for line in told], [True] * 3, f"whether each line reports the signature: {told}")
    authority.started(t, [*signer, it.key, "alone.sign"], t.room / "alone.sign")
    t.true(signature(t.room / "alone.sign", message) != b"", "signer.py gave no signature without a certificate")


@test(seconds=3)
def a_client_that_has_gone_takes_no_signature_of_another(t):
    """signer.py goes on if it can't send a signature because the client has closed. The next client gets a signature."""
    authority.need_cryptography(t)
    it = Authority(t)
    path, process = guard(t, it)
    message = to_be_signed(t, it)[0]
    program.hold(process)
    with socket.socket(socket.AF_UNIX) as client:
        client.connect(str(path))
        client.sendall(message)
    process.send_signal(signal.SIGCONT)
    t.true(signature(path, message) != b"", "the next client got no signature")
    process.terminate()
    t.same((process.wait(program.LONGEST), process.stderr.read()), (0, b"a connection failed: [Errno 32] Broken pipe\n"), "status, standard error")


@test(seconds=2)
def a_message_that_is_too_long_is_not_signed(t):
    """signer.py signs no message above its limit of 128 MiB, which is 1,000 octets here."""
    authority.need_cryptography(t)
    it = Authority(t)
    (t.room / "sitecustomize.py").write_text("import only_ours\nonly_ours.LONGEST = 1_000\n")
    words = ["env", f"PYTHONPATH={t.room}:{EXAMPLES}", "python3", EXAMPLES / "signer.py", it.key, "short.sign"]
    authority.started(t, words, t.room / "short.sign")
    t.same([signature(t.room / "short.sign", bytes(size)) != b"" for size in (1_000, 1_001)], [True, False], "whether 1,000 and 1,001 octets are signed")


# check-signer.py, which requests a signature for a test message


def checked(t, *words, status=0):
    ran = t.tried(sys.executable, EXAMPLES / "check-signer.py", *words)
    t.same((ran.returncode, ran.stdout), (status, b""), f"status and output of check-signer.py, which reported {ran.stderr!r}")
    return ran.stderr.decode()


@each(ALGORITHMS, seconds=5)
def a_signer_is_tried_before_the_desk_starts(t, algorithm):
    """check-signer.py takes the options of `desk open`. It accepts the CA's key, and reports another key, or a signer that gives no signature."""
    authority.need_cryptography(t)
    it, other = Authority(t, algorithm), Authority(t, algorithm, name="other")
    guard(t, it)
    t.signer("other.sign", other.sign)
    t.signer("closes.sign", lambda message, call: None)
    t.same(checked(t, "ca.pem", "--log", *it.signing("guarded.sign"), "--unsigned"), "", "the CA's key")
    t.has(checked(t, "ca.pem", *it.signing("other.sign"), status=1), "openssl does not verify the signer's signature by ca.pem", "another key")
    t.has(checked(t, "--allow-absent", "ca.pem", *it.signing("other.sign"), status=1), "the signer has another key", "with --allow-absent")
    for path in ("nowhere.sign", "closes.sign"):
        t.has(checked(t, "ca.pem", *it.signing(path), status=1), f"{path}: no signature", path)
        t.has(checked(t, "--allow-absent", "ca.pem", *it.signing(path)), f"{path}: no signature", path)
    t.same(checked(t, "nowhere.pem", "--unsigned"), "", "no signer is named")
    t.has(checked(t, "nowhere.pem", *it.signing("guarded.sign"), status=1), "no certificate of a CA")


def trickled(it, client):
    """Sends one octet of the signature every 0.3 seconds."""
    for octet in it.sign(program.read_all(client)):
        time.sleep(0.3)
        client.sendall(bytes([octet]))


@each({"no octet comes": None, "an octet comes now and then": trickled}, seconds=3)
def a_signer_is_tried_for_ten_seconds(t, signs):
    """check-signer.py waits at most ten seconds for the whole signature. Here its clock runs ten times as fast."""
    it = Authority(t)
    if signs:
        t.enter_context(authority.ScriptedSigner(t.room / "hangs.sign", lambda client, _: signs(it, client)))
    else:
        t.signer("hangs.sign", lambda message, call: "hang")
    (t.room / "sitecustomize.py").write_text(
        "import socket, time\nsocket.socket.settimeout = lambda self, seconds, real=socket.socket.settimeout: real(self, seconds / 10)\n"
        "time.monotonic = lambda real=time.monotonic: real() * 10\n")
    ran = t.tried("env", f"PYTHONPATH={t.room}", sys.executable, EXAMPLES / "check-signer.py", it.pem, *it.signing("hangs.sign"))
    t.same((ran.returncode, ran.stdout, ran.stderr), (1, b"", b"hangs.sign: no signature: timed out\n"))


@test(seconds=3)
def a_signer_that_sends_without_end_is_refused(t):
    """check-signer.py reads no more than a signature may have. Otherwise it would keep all octets, and the desk would never start."""
    it, sent = Authority(t), [0]

    def send(client, _):
        """Sends octets until the client closes the connection, at most 64 MiB."""
        program.read_all(client)
        with contextlib.suppress(OSError):
            while sent[0] < 64 << 20:
                sent[0] += client.send(b"\0" * 65_536)

    t.enter_context(authority.ScriptedSigner(t.room / "ca.sign", send))
    ran = t.tried(sys.executable, EXAMPLES / "check-signer.py", it.pem, *it.signing("ca.sign"))
    t.same((ran.returncode, b"openssl does not verify the signer's signature" in ran.stderr), (1, True), "status, and whether the cause is reported")
    t.true(sent[0] < 8 << 20, f"check-signer.py has taken {sent[0]} octets")


@test(seconds=3)
def a_signature_that_comes_in_pieces_is_tried_whole(t):
    it = Authority(t)

    def sign(client, _):
        for octet in it.sign(program.read_all(client)):
            client.sendall(bytes([octet]))
            time.sleep(0.001)

    t.enter_context(authority.ScriptedSigner(t.room / "ca.sign", sign))
    t.same(checked(t, it.pem, *it.signing()), "")


@test(seconds=3)
def a_responder_s_signer_is_tried_by_its_own_certificate(t):
    authority.need_cryptography(t)
    it, responder = Authority(t), Authority(t, name="ocsp", subject="/CN=R")
    guard(t, it)
    words = ["python3", EXAMPLES / "signer.py", "--only-ours", it.pem, "--responder", responder.pem, responder.key, "ocsp.sign"]
    authority.started(t, words, t.room / "ocsp.sign")
    (t.room / "ocsp.der").write_bytes(t.tool("openssl", "x509", "-in", responder.pem, "-outform", "DER"))
    beside = ("--responder", "ocsp.der", "--responder-algorithm", "ecdsa-sha256", "--responder-signer")
    t.same(checked(t, "ca.pem", *it.signing("guarded.sign"), *beside, "ocsp.sign"), "", "both signers")
    t.same(checked(t, "ca.pem", *beside, "ocsp.sign"), "", "the responder's signer alone")
    # The CA's signer refuses an answer of the responder. A signer that signs anything with the CA's key has the wrong key here.
    t.has(checked(t, "ca.pem", *beside, "guarded.sign", status=1), "guarded.sign: no signature")
    t.signer("any.sign", it.sign)
    t.has(checked(t, "ca.pem", *beside, "any.sign", status=1), "does not verify the signer's signature by ocsp.der")
    # The CA's key may be away. The responder's signer is tried all the same.
    told = checked(t, "--allow-absent", "ca.pem", *it.signing("nowhere.sign"), *beside, "any.sign", status=1)
    t.same([line.split(":")[0] for line in told.splitlines()], ["nowhere.sign", "any.sign"], "the signers that are reported")


@test(seconds=2)
def a_socket_that_is_handed_over(t):
    """systemd hands a socket over to one process as descriptor 3. LISTEN_FDS is the number of sockets, LISTEN_PID that of the process."""
    authority.need_cryptography(t)
    it = Authority(t)
    message = to_be_signed(t, it)[0]
    words = [sys.executable, str(EXAMPLES / "signer.py"), "--only-ours", str(it.pem), str(it.key), "--inherited"]
    with socket.socket(socket.AF_UNIX) as listener:
        listener.bind(str(t.room / "handed.sign"))
        listener.listen(8)
        process = handed(words, listener)
        t.callback(authority.end, process)
        t.true(signature(t.room / "handed.sign", message) != b"", "the signer gave no signature")
        refused(t, t.room / "handed.sign", b"hello", "a text")
    process.terminate()
    t.same(process.wait(program.LONGEST), 0, "status after SIGTERM")
    t.true((t.room / "handed.sign").exists(), "the signer removed the socket, which is not its own")
    ran = t.tried(*words)
    t.same((ran.returncode, b"no socket was handed over" in ran.stderr), (1, True), "status, and whether the cause is reported, without a socket")
    with socket.socket(socket.AF_UNIX) as listener:
        listener.bind(str(t.room / "other.sign"))
        listener.listen(8)
        for told in ("LISTEN_PID=1 LISTEN_FDS=1", "LISTEN_PID=$$ LISTEN_FDS=2"):
            script = f'exec 3<&"$0"; export {told}; exec "$@"'
            ran = t.tried("bash", "-c", script, listener.fileno(), *words, pass_fds=[listener.fileno()], timeout=20)
            t.same((ran.returncode, b"no socket was handed over" in ran.stderr), (1, True), f"with {told}")
    ran = t.tried(*words, "ca.sign")
    t.same(ran.returncode, 2, "status with a path as well")


@test(seconds=2)
def the_reader_of_its_standard_error_may_end_first(t):
    """The signer can't report the message that it refuses, and signs the next one."""
    authority.need_cryptography(t)
    it = Authority(t)
    message, nothing = to_be_signed(t, it)[0], subprocess.DEVNULL
    words = [sys.executable, str(EXAMPLES / "signer.py"), "--only-ours", str(it.pem), str(it.key), str(t.room / "read.sign")]
    process = subprocess.Popen(words, stdin=nothing, stdout=nothing, stderr=subprocess.PIPE)
    t.callback(authority.end, process)
    authority.until((t.room / "read.sign").exists, "the signer to listen")
    process.stderr.close()
    t.same(signature(t.room / "read.sign", b"hello"), b"", "the signature of a text")
    t.true(signature(t.room / "read.sign", message) != b"", "the signer gave no signature")


@test(seconds=2)
def several_processes_at_a_socket_that_is_handed_over(t):
    """They all end with the first process, to which systemd sends its signal."""
    authority.need_cryptography(t)
    it = Authority(t)
    with socket.socket(socket.AF_UNIX) as listener:
        listener.bind(str(t.room / "handed.sign"))
        listener.listen(8)
        process = handed([sys.executable, str(EXAMPLES / "signer.py"), "--processes", "3", str(it.key), "--inherited"], listener)
        t.callback(authority.end, process)
        authority.until(lambda: len(native.children(process)) == 2, "two more processes")
        t.true(signature(t.room / "handed.sign", b"a message") != b"", "the signer gave no signature")
        others = native.children(process)
        # Another process may have signed. The first one catches SIGTERM (bit 14 of SigCgt, proc(5)) a moment after it made them.
        status = Path(f"/proc/{process.pid}/status")
        caught = lambda: int(re.search(r"SigCgt:\s*(\w+)", status.read_text())[1], 16)
        authority.until(lambda: caught() >> 14 & 1, "the first process to catch SIGTERM")
        process.terminate()
        t.same(process.wait(program.LONGEST), 0, "status after SIGTERM")
        authority.until(lambda: not any(map(native.is_there, others)), "the end of the others")


@test(seconds=4)
def a_client_that_writes_slowly_holds_nobody_up_for_long(t):
    """A client has ten seconds for its whole message. Here it has one, and sends an octet every tenth of a second."""
    authority.need_cryptography(t)
    it = Authority(t)
    (t.room / "only_ours.py").write_bytes((EXAMPLES / "only_ours.py").read_bytes())
    text = (EXAMPLES / "signer.py").read_text()
    t.true("\nPATIENCE = 10\n" in text, "signer.py has no line PATIENCE = 10")
    (t.room / "signer.py").write_text(text.replace("\nPATIENCE = 10\n", "\nPATIENCE = 1\n"))
    authority.started(t, ["python3", t.room / "signer.py", it.key, "ca.sign"], t.room / "ca.sign")
    with socket.socket(socket.AF_UNIX) as slow:
        slow.connect(str(t.room / "ca.sign"))
        is_over = threading.Event()

        def write_slowly():
            with contextlib.suppress(OSError):
                while not is_over.wait(0.1):
                    slow.sendall(b"x")

        writer = threading.Thread(target=write_slowly)
        writer.start()
        try:
            begun = time.monotonic()
            t.true(signature(t.room / "ca.sign", b"a message") != b"", "the signer gave the second client no signature")
            t.true(time.monotonic() - begun < 20 * program.PATIENCE, f"the second client waited {time.monotonic() - begun:.1f} s")
        finally:
            is_over.set()
            writer.join()


@test(seconds=2)
def a_signal_just_before_it_sleeps(t):
    """The signer ends on a SIGTERM that comes when it is about to wait for the next client, and removes its socket."""
    need("cc")
    authority.need_cryptography(t)
    it = Authority(t)
    early = native.made("early_signal.so", "cc", "-shared", "-fPIC", "-O2", program.TESTS / "early_signal.c", "-ldl", "-o")
    ran = t.tried("env", f"LD_PRELOAD={early}", "python3", EXAMPLES / "signer.py", it.key, "ca.sign")
    t.same((ran.returncode, ran.stderr, (t.room / "ca.sign").exists()), (0, b"", False), "status, standard error, whether its socket is still there")


def handed(words, listener):
    """Starts a process with the socket as descriptor 3. LISTEN_PID is the shell's number, which the process keeps."""
    script = 'exec 3<&"$0"; export LISTEN_PID=$$ LISTEN_FDS=1; exec "$@"'
    at, nothing = listener.fileno(), subprocess.DEVNULL
    return subprocess.Popen(["bash", "-c", script, str(at), *words], pass_fds=[at], stdin=nothing, stdout=nothing, stderr=subprocess.PIPE)
