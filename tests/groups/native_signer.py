"""The native signer, signer/desk-signer: signatures that openssl verifies, keys in files and tokens, the messages that it refuses (the same as
examples/only_ours.py), slow and broken clients, and how it is confined. The last tests have it sign for the desk."""

import copy
import fcntl
import os
import pwd
import random
import re
import select
import shutil
import signal
import socket
import struct
import subprocess
import sys
import time
from concurrent.futures import ThreadPoolExecutor
from itertools import takewhile
from pathlib import Path

from groups.limits import full_queue
from groups.only_ours import forms_of_answer, handed, other_crls, to_be_signed
from groups.responder import below_a_root
from lib import authority, native, program
from lib.authority import EXAMPLES, KEYS, Authority, values_of
from lib.native import ANNOUNCEMENT, NAME, answer, asked, connected, ended, frame, signature, started
from lib.program import TESTS
from lib.registers import tlv
from lib.trial import Failed, Skipped, each, need, test

ALGORITHMS = {it: it for it in KEYS}
INTEGER, OCTETS, SEQUENCE, UTC, GENERAL = 0x02, 0x04, 0x30, 0x17, 0x18


def filter_module():
    """The module examples/only_ours.py."""
    sys.path.insert(0, str(EXAMPLES))
    try:
        import only_ours
    finally:
        sys.path.remove(str(EXAMPLES))
    return only_ours


def verifies(t, it, message, signed, what=""):
    filter_ = filter_module()
    t.true(filter_.is_verified(signed, message, filter_.issuer_of(it.pem)), f"openssl rejects the signature of {what or message[:40]!r}: {signed.hex()}")


# Messages as the desk writes them, by hand


def crl_by_hand(issuer, serials=(b"\x05", b"\0\x80", b"\x7f" + bytes(19)), identifier=None, number=b"\x07"):
    """A TBSCertList with these serial numbers; every second one has a reason, and every third one was revoked in 2050."""
    rows = b"".join(
        tlv(SEQUENCE, tlv(INTEGER, it), tlv(GENERAL, b"20500101000000Z") if at % 3 == 2 else tlv(UTC, b"260101000000Z"),
            bytes.fromhex("300C300A0603551D150403") + b"\x0A\x01\x01" if at % 2 else b"")
        for at, it in enumerate(serials))
    extensions = tlv(SEQUENCE, identifier or issuer.key_identifiers[0], tlv(SEQUENCE, bytes.fromhex("0603551D14"), tlv(OCTETS, tlv(INTEGER, number))))
    moments = tlv(UTC, b"260101000000Z") + tlv(GENERAL, b"20500101000000Z")
    return tlv(SEQUENCE, b"\x02\x01\x01", issuer.algorithm, issuer.name, moments, tlv(SEQUENCE, rows) if rows else b"", tlv(0xA0, extensions))


def answer_by_hand(issuer, responder=None, statuses=None, nonce=True):
    """A ResponseData with a certificate of each status."""
    moment = tlv(GENERAL, b"20260101000000Z")
    if statuses is None:
        statuses = [tlv(0xA1, moment, tlv(0xA0, b"\x0A\x01\x04")), tlv(0xA1, moment), b"\x80\0", b"\x82\0"]
    singles = [tlv(SEQUENCE, tlv(SEQUENCE, issuer.cert_ids[at % 4], tlv(INTEGER, bytes([at + 1]))), status, moment, tlv(0xA0, moment))
               for at, status in enumerate(statuses)]
    extension = tlv(0xA1, tlv(SEQUENCE, tlv(SEQUENCE, bytes.fromhex("06092B0601050507300102"), tlv(OCTETS, b"\x04\x08nonce of")))) if nonce else b""
    return tlv(SEQUENCE, tlv(0xA2, tlv(OCTETS, (responder or issuer).key_hash)), moment, tlv(SEQUENCE, *singles), extension)


def ours(issuer):
    return [crl_by_hand(issuer), crl_by_hand(issuer, ()), *(crl_by_hand(issuer, identifier=it) for it in issuer.key_identifiers[1:]),
            answer_by_hand(issuer), answer_by_hand(issuer, statuses=[b"\x80\0"], nonce=False)]


def named_messages(issuer):
    """Messages by name: of the desk's forms, and of many others."""
    messages = {f"ours {at}": it for at, it in enumerate(ours(issuer))}
    answers, others = forms_of_answer(answer_by_hand(issuer), issuer.name)
    return {**messages, **other_crls(crl_by_hand(issuer)), **answers, **others, "nothing": b"", "one octet": b"0", "a text": b"hello"}


def values_octets(printed):
    """The SEQUENCE in the output of openssl, which may also print a line of text before or after it."""
    begin = printed.index(b"\x30\x77")
    return printed[begin : begin + 0x79]


# Signatures


@each(ALGORITHMS, seconds=4)
def openssl_verifies_what_it_signs(t, algorithm):
    it = Authority(t, algorithm)
    t.same(t.tool(native.signer(), it.key), f"{algorithm}\n".encode(), "the name of the key's algorithm")
    process = started(t, it.key)
    t.same((t.room / "ca.sign").stat().st_mode & 0o777, 0o600, "the socket's mode")
    for message in (b"", b"a", bytes(150), random.Random(1).randbytes(4095), bytes(4096), random.Random(2).randbytes(5_000_000)):
        signed = signature(t.room / "ca.sign", message)
        t.true(0 < len(signed) <= 4096, f"the signature of {len(message)} bytes has {len(signed)} bytes")
        # openssl verifies no Ed25519 signature of an empty file.
        if message or algorithm != "ed25519":
            verifies(t, it, message, signed)
    t.same((ended(process), (t.room / "ca.sign").exists()), ((0, []), False), "status, standard error, and whether its socket stays")


@test
def a_name_that_can_not_be_written_is_status_1(t):
    it = Authority(t, "ecdsa-sha256")
    ran = t.tried("sh", "-c", f"{native.signer()} {it.key} > /dev/full")
    t.same((ran.returncode, ran.stdout), (1, b""), "status and output")


NO_KEYS = {
    "a key of P-521": ("ec", "-pkeyopt", "ec_paramgen_curve:P-521"), "an RSA key of 1,024 bits": ("rsa:1024",),
    "an RSA key of 2,047 bits": ("rsa:2047",), "a key of RSA-PSS": ("rsa-pss",),
    "a key of Ed448": ("ed448",),
}


@each(NO_KEYS, seconds=2)
def a_key_of_another_algorithm(t, *key):
    authority.certificate(t, "ca", "/CN=T", key)
    ran = t.tried(native.signer(), "ca.key", "ca.sign")
    t.same((ran.returncode, ran.stdout, (t.room / "ca.sign").exists()), (1, b"", False), "status, output, whether it listens")
    t.same(ran.stderr.startswith(b"desk-signer: ca.key: the key is none of P-256, P-384, RSA of 2,048 bits or more, and Ed25519"), True, ran.stderr)


@test(seconds=2)
def a_key_whose_signatures_don_t_verify(t):
    """The private key in the file does not belong to its public key. With --only-ours the signer notices this at its start."""
    it = Authority(t)
    whole = bytearray(values_octets(t.tool("openssl", "ec", "-in", it.key, "-outform", "DER")))
    # ECPrivateKey (RFC 5915 3): the private key has 32 octets behind the version.
    t.same(bytes(whole[2:7]), bytes.fromhex("0201010420"), "the head of the key")
    whole[7 + 31] ^= 1
    (t.room / "other.der").write_bytes(whole)
    t.tool("openssl", "ec", "-inform", "DER", "-in", "other.der", "-out", "other.key")
    ran = t.tried(native.signer(), "--only-ours", it.pem, "other.key", "ca.sign")
    t.same((ran.returncode, (t.room / "ca.sign").exists(), ran.stderr[:23]), (1, False, b"desk-signer: other.key:"), "status, whether it listens, and the beginning of its reason")


def wrong_libcrypto():
    native.need_libcrypto()
    return native.made("wrong_libcrypto.so", "cc", "-shared", "-fPIC", "-O2", TESTS / "wrong_libcrypto.c", "-ldl", "-o")


def with_wrong_libcrypto():
    """Words before those of the signer: libcrypto changes each signature, and ends a process that draws a nonce ahead (tests/wrong_libcrypto.c)."""
    return ["env", f"LD_PRELOAD={wrong_libcrypto()}"]


def preloaded(t, name, text, *variables):
    """Words before those of the signer, so that it loads this C code first."""
    (t.room / f"{name}.c").write_text(text)
    t.tool("cc", "-shared", "-fPIC", "-O2", "-o", f"{name}.so", f"{name}.c", "-ldl")
    return ["env", f"LD_PRELOAD={t.room / name}.so", *variables]


@each(ALGORITHMS, seconds=2)
def signatures_that_don_t_verify(t, algorithm):
    """With --only-ours the signer notices them at its start, and fails."""
    it = Authority(t, algorithm)
    ran = t.tried(*with_wrong_libcrypto(), native.signer(), "--only-ours", it.pem, it.key)
    t.same((ran.returncode, ran.stdout), (1, b""), "status and output")
    t.has(ran.stderr, f"{NAME}{it.key}: its signature does not verify by the certificate".encode())
    # Octets of another form, for which EVP_PKEY_verify(3) returns a negative number.
    ran = t.tried(*with_wrong_libcrypto(), "NO_FORM=1", native.signer(), "--only-ours", it.pem, it.key)
    t.same((ran.returncode, ran.stdout), (1, b""), "status and output, for octets that are no signature")
    t.has(ran.stderr, f"{NAME}{it.key}: its signature does not verify by the certificate".encode())
    t.same(t.tool(*with_wrong_libcrypto(), native.signer(), it.key), f"{algorithm}\n".encode(), "without a certificate")


# Loaded before the signer (LD_PRELOAD), this changes the signatures that libcrypto makes with a nonce that was drawn ahead.
WRONG = """
#define _GNU_SOURCE
#include <dlfcn.h>
#include <openssl/ec.h>

typedef int Sign(int, const unsigned char *, int, unsigned char *, unsigned *, const BIGNUM *, const BIGNUM *, EC_KEY *);

int ECDSA_sign_ex(int type, const unsigned char *digest, int size, unsigned char *signature, unsigned *length, const BIGNUM *inverse, const BIGNUM *r,
                  EC_KEY *key) {
    int is_signed = ((Sign *)dlsym(RTLD_NEXT, "ECDSA_sign_ex"))(type, digest, size, signature, length, inverse, r, key);
    if (is_signed == 1 && inverse)
        signature[*length - 1] ^= 1;
    return is_signed;
}
"""


@test(seconds=2)
def a_signature_with_a_nonce_that_was_drawn_ahead_is_verified_too(t):
    """With --only-ours, a client gets no signature that does not verify."""
    it = Authority(t)
    before = preloaded(t, "wrong", WRONG)
    process = started(t, "--only-ours", it.pem, it.key, before=before)
    message = ours(filter_module().issuer_of(it.pem))[0]

    def is_refused():
        signed = signature(t.room / "ca.sign", message)
        if signed:
            verifies(t, it, message, signed)
        return not signed

    authority.until(is_refused, "a signature with a nonce that was drawn ahead")
    told = f"{NAME}refused to sign {len(message)} bytes: its signature does not verify by the certificate"
    t.same(ended(process), (0, [told]), "standard error")
    # With --persistent, such a client gets no announcement, or a length of 0 for each message.
    process = started(t, "--persistent", "--only-ours", it.pem, it.key, before=before)
    other, client, got = ours(filter_module().issuer_of(it.pem))[1], persistent(t), []
    authority.until(lambda: got.append(signature(t.room / "ca.sign", message)) or len(got[-1]) <= 16, "a signature with a nonce that was drawn ahead")
    t.same(got[-1], b"", "the reply to a message that is refused")

    def are_refused():
        time.sleep(0.1)
        client.sendall(frame(message) + frame(other))
        return (answer(client), answer(client)) == (b"", b"")

    authority.until(are_refused, "two signatures with nonces that were drawn ahead")
    t.same({*ended(process)[1]}, {told, told.replace(str(len(message)), str(len(other)))}, "the different lines on standard error")


@test(seconds=2)
def with_fresh_nonces_none_is_drawn_ahead(t):
    """libcrypto ends a process that draws a nonce ahead, as the signer without the option does."""
    it = Authority(t)
    drawing = started(t, it.key, path="drawing.sign", before=with_wrong_libcrypto())
    fresh = started(t, "--fresh-nonces", it.key, path="fresh.sign", before=with_wrong_libcrypto())
    t.true(signature(t.room / "drawing.sign", b"a message") != b"", "the signer without the option gives no signature")
    authority.until(lambda: drawing.poll() is not None, "the signer without the option to draw a nonce")
    for _ in range(2):
        t.true(signature(t.room / "fresh.sign", b"a message") != b"", "the signer with the option gives no signature")
        # Time in which it could draw a nonce.
        time.sleep(0.3)
    t.same(ended(fresh), (0, []), "its status and standard error")


@test(seconds=2)
def a_key_that_can_t_be_read(t):
    it = Authority(t)
    (t.room / "text").write_text("hello\n")
    for path, told in (("nowhere", b"nowhere: it can't be read: No such file"), ("text", b"text: no key in PEM"), (it.pem, b"no key in PEM"), (".", b"can't be read: Is a")):
        ran = t.tried(native.signer(), path, "ca.sign")
        t.same((ran.returncode, (t.room / "ca.sign").exists(), ran.stderr.count(b"\n")), (1, False, 1), f"{path}: status, whether it listens, lines")
        t.has(ran.stderr, told)


@test(seconds=2)
def a_command_line_that_can_t_be_read(t):
    it = Authority(t)
    key = it.key
    for words, told in (([], "KEY is missing"), ([key, "a", "b"], "give KEY and SOCKET, and no more"), (["--bad", key], "unrecognized option '--bad'"), ([key, ""], "SOCKET is empty"),
                        (["--rate", "0", key, "a"], "--rate 0: not a number from 1 to 1000000"), (["--rate", "x", key, "a"], "--rate x: not a number from 1 to 1000000"),
                        (["--processes", "257", key, "a"], "--processes 257: not a number from 1 to 256"), ([key, "a", "--inherited"], "with --inherited, give KEY alone"),
                        (["--responder", it.pem, key, "a"], "--responder needs --only-ours"), (["--only-ours"], "option '--only-ours' requires an argument")):
        ran = t.tried(native.signer(), *words)
        t.same((ran.returncode, ran.stdout, b"Usage: desk-signer" in ran.stderr), (2, b"", True), f"{words}: status, output, usage")
        t.has(ran.stderr.decode().splitlines()[0], told)
    t.same(list(t.room.glob("a*")), [], "no socket")


@test
def a_number_is_of_decimal_digits_alone(t):
    """--rate 1,000 is not one signature a second, nor is --processes 0x4 four processes."""
    it = Authority(t)
    for option, text in (("rate", "1,000"), ("rate", "20k"), ("processes", "0x4")):
        ran = t.tried(native.signer(), f"--{option}", text, it.key)
        t.same((ran.returncode, ran.stdout), (2, b""), f"--{option} {text}: status and output")
        t.has(ran.stderr.decode().splitlines()[0], f"--{option} {text}: not a number from 1 to ")
    t.same(t.tool(native.signer(), "--rate", 1_000_000, "--processes", 256, it.key), b"ecdsa-sha256\n", "the greatest numbers")


@test(seconds=3)
def files_that_are_pipes_or_too_long(t):
    """The signer reads a key and a passphrase whole that come in parts through pipes, and a certificate that comes through one. It refuses files that
    are too long."""
    it = Authority(t)
    t.tool("openssl", "pkcs8", "-topk8", "-in", it.key, "-passout", "pass:a word", "-out", "locked.key")
    key = (t.room / "locked.key").read_bytes()
    for name in ("key", "word"):
        os.mkfifo(t.room / name)
    process = subprocess.Popen([native.signer(), "--passphrase-file", "word", "key"], cwd=t.room, stdout=subprocess.PIPE, stderr=subprocess.PIPE)
    t.callback(authority.end, process)
    for name, parts in (("word", (b"a w", b"ord\n")), ("key", (key[:70], key[70:]))):
        with open(t.room / name, "wb", buffering=0) as pipe:
            for part in parts:
                pipe.write(part)
                time.sleep(0.2)
    t.same(process.communicate(timeout=program.LONGEST), (b"ecdsa-sha256\n", b""), "standard output and standard error")
    ran = t.tried("bash", "-c", 'exec "$1" --only-ours <(cat "$2") "$3"', "-", native.signer(), it.pem, it.key)
    t.same((ran.returncode, ran.stdout), (0, b"ecdsa-sha256\n"), f"with a certificate through a pipe: {ran.stderr!r}")
    (t.room / "long.key").write_bytes(key + bytes(65536))
    (t.room / "long").write_text("a word" + 1100 * "x")
    (t.room / "right").write_text("a word\n")
    for words, told in ((("--passphrase-file", "long", "locked.key"), "long: it has more than 1023 bytes"),
                        (("--passphrase-file", "right", "long.key"), "long.key: it has more than 65536 bytes")):
        ran = t.tried(native.signer(), *words)
        t.same((ran.returncode, ran.stdout, ran.stderr.decode()), (1, b"", f"{NAME}{told}\n"), f"{words}: status, output, standard error")


# Passphrases


@each({**ALGORITHMS, "of the older form": "older"}, seconds=3)
def a_key_with_a_passphrase(t, algorithm):
    it = Authority(t, "ecdsa-sha256" if algorithm == "older" else algorithm)
    words = ("ec", "-aes256") if algorithm == "older" else ("pkcs8", "-topk8", "-v2", "aes-256-cbc")
    t.tool("openssl", *words, "-in", it.key, "-passout", "pass:a word", "-out", "locked.key")
    for name, text in (("right", "a word\r\nmore\n"), ("wrong", "another\n"), ("empty", "")):
        (t.room / name).write_text(text)
    t.same(t.tool(native.signer(), "--passphrase-file", "right", "locked.key"), f"{it.algorithm}\n".encode())
    for words, told in ((("--passphrase-file", "wrong"), b"no key in PEM that the passphrase opens"), ((), b"no key in PEM without a passphrase"),
                        (("--passphrase-file", "empty"), b"no key in PEM that the passphrase opens"), (("--passphrase-file", "nowhere"), b"nowhere: it can't be read: No such file")):
        ran = t.tried(native.signer(), *words, "locked.key", "ca.sign")
        t.same((ran.returncode, (t.room / "ca.sign").exists()), (1, False), f"{words}: status, whether it listens")
        t.has(ran.stderr, told)
    process = started(t, "--passphrase-file", "right", "locked.key")
    verifies(t, it, b"a message", signature(t.room / "ca.sign", b"a message"))
    t.same(occurrences(process, b"a word"), 0, "the passphrase in its memory")


def occurrences(process, octets):
    """How often octets occur in the writable memory of a process."""
    return sum(part.count(octets) for part in memory_of(process))


def memory_of(process):
    """The writable memory of a process. Skips the test if it can't be read."""
    try:
        with open(f"/proc/{process.pid}/mem", "rb", buffering=0) as memory:
            parts = []
            for line in Path(f"/proc/{process.pid}/maps").read_text().splitlines():
                if line.split()[1].startswith("rw"):
                    begin, end = (int(it, 16) for it in line.split()[0].split("-"))
                    memory.seek(begin)
                    parts.append(memory.read(end - begin))
            return parts
    except PermissionError as why:
        raise Skipped("the memory of another process can't be read here") from why


# The messages that it signs


@each(ALGORITHMS, seconds=12)
def it_refuses_what_only_ours_py_refuses(t, algorithm):
    """The signer signs each message that examples/only_ours.py accepts, and refuses all others with a reason."""
    filter_, it = filter_module(), Authority(t, algorithm)
    issuer = filter_.issuer_of(it.pem)
    process = started(t, "--only-ours", it.pem, it.key)
    refused = []
    for what, message in named_messages(issuer).items():
        accepted = is_accepted(filter_, message, issuer)
        signed = signature(t.room / "ca.sign", message)
        t.same(signed != b"", accepted, f"whether it signs {what}, {message.hex()}")
        if accepted:
            verifies(t, it, message, signed, what)
        else:
            refused.append(f"{NAME}refused to sign {len(message)} bytes")
    status, told = ended(process)
    t.same((status, [": ".join(line.split(": ")[:2]) for line in told]), (0, refused), "a line for each refusal")
    t.true(len(refused) > 50, f"only {len(refused)} messages are refused")


def is_accepted(filter_, message, issuer, responder=None):
    try:
        filter_.check(message, issuer, responder)
    except filter_.Refused:
        return False
    return True


def checker(name="only-ours", *words):
    """A program that calls signer/only_ours.c without a signer."""
    native.need_libcrypto()
    sources = [TESTS / "only_ours.c", native.SOURCES / "only_ours.c", native.SOURCES / "key.c"]
    return native.made(name, *(words or ("cc", "-O2")), "-g", "-std=gnu17", "-D_GNU_SOURCE", *sources, "-lcrypto", "-o")


def accepted(t, messages, it, responder=None):
    """For each message, whether signer/only_ours.c accepts it."""
    given = b"".join(struct.pack(">I", len(message)) + message for message in messages)
    more = {"RESPONDER": str(responder.pem)} if responder else {}
    told = t.tool(checker(), given=given, env={"CA": str(it.pem), **more}).decode()
    t.same(len(told), len(messages), "results")
    return [it == "1" for it in told]


def compared(t, messages, it, responder=None):
    """Checks that signer/only_ours.c and examples/only_ours.py accept the same messages; returns how many they accept."""
    filter_ = filter_module()
    issuer, theirs = filter_.issuer_of(it.pem), filter_.issuer_of(responder.pem) if responder else None
    wanted = [is_accepted(filter_, message, issuer, theirs) for message in messages]
    for message, want, got in zip(messages, wanted, accepted(t, messages, it, responder)):
        t.same(got, want, f"whether {message.hex()} is accepted")
    return sum(wanted)


def changed(message, dice):
    """A message with one to three small changes."""
    message = bytearray(message)
    for _ in range(dice.choice((1, 1, 2, 3))):
        at = dice.randrange(len(message))
        how = dice.randrange(5)
        if how == 0:
            message[at] = dice.choice((0, 1, 0x7F, 0x80, 0xFF, dice.randrange(256)))
        elif how == 1:
            message[at] ^= 1 << dice.randrange(8)
        elif how == 2:
            message[at:at] = dice.randbytes(1)
        elif how == 3 and len(message) > 1:
            del message[at]
        else:
            message[at] = (message[at] + dice.choice((1, 255))) % 256
    return bytes(message)


@each(ALGORITHMS, seconds=6)
def each_octet_is_changed(t, algorithm):
    """All changes of one bit, all shortenings, and some thousand changes: signer/only_ours.c accepts what examples/only_ours.py accepts."""
    it = Authority(t, algorithm)
    issuer = filter_module().issuer_of(it.pem)
    messages, dice = list(named_messages(issuer).values()), random.Random(59)
    for message in ours(issuer):
        messages += [message[:at] + bytes([message[at] ^ 1 << bit]) + message[at + 1 :] for at in range(len(message)) for bit in range(8)]
        messages += [message[:at] for at in range(len(message))]
        messages += [changed(message, dice) for _ in range(1000)]
    count = compared(t, messages, it)
    t.true(100 < count < len(messages) / 2, f"{count} of {len(messages)} are accepted")


def tree_of(octets):
    """DER as a tree: of each value its tag and its contents, which are octets or values."""
    return [[tag, tree_of(contents) if tag & 0x20 and contents else contents] for tag, contents, _ in values_of(octets)]


def octets_of(values):
    return b"".join(tlv(tag, contents if isinstance(contents, bytes) else octets_of(contents)) for tag, contents in values)


def lists_in(values):
    """All lists of values in a tree."""
    yield values
    for _, contents in values:
        if isinstance(contents, list):
            yield from lists_in(contents)


def with_other_values(message, dice):
    """A message in which values are absent, doubled, exchanged, empty, or have another tag or other contents; all lengths are right."""
    tree = tree_of(message)
    for _ in range(dice.choice((1, 1, 2))):
        values = dice.choice([it for it in lists_in(tree) if it] or [tree])
        if not values:
            break
        at, how = dice.randrange(len(values)), dice.randrange(6)
        tag, contents = values[at]
        if how == 0:
            del values[at]
        elif how == 1:
            values.insert(dice.randrange(len(values) + 1), copy.deepcopy(values[at]))
        elif how == 2:
            other = dice.randrange(len(values))
            values[at], values[other] = values[other], values[at]
        elif how == 3:
            values[at] = [dice.choice((0x01, 0x02, 0x04, 0x05, 0x06, 0x0A, 0x17, 0x18, 0x30, 0x80, 0x81, 0x82, 0xA0, 0xA1, 0xA2, 0x1F)), contents]
        elif how == 4:
            values[at] = [tag, b""]
        else:
            octets = contents if isinstance(contents, bytes) else octets_of(contents)
            values[at] = [tag, changed(octets, dice) if octets else dice.randbytes(2)]
    return octets_of(tree)


@each(ALGORITHMS, seconds=8)
def each_value_is_changed(t, algorithm):
    """As in each_octet_is_changed, but all lengths stay right, so that the changes reach all checks."""
    it = Authority(t, algorithm)
    issuer, dice = filter_module().issuer_of(it.pem), random.Random(62)
    messages = [with_other_values(message, dice) for message in ours(issuer) for _ in range(1500)]
    count = compared(t, messages, it)
    t.true(100 < count < len(messages) / 2, f"{count} of {len(messages)} are accepted")


@test(seconds=6)
def certificates_of_other_forms(t):
    """The key identifier of the CA certificate is not the SHA-1, is too long, absent or critical. Another certificate has a long subject and a
    keyUsage that is no BIT STRING, and is also read in DER."""
    identifiers = {"another": "01:02:03", "of 64": ":".join(["AB"] * 64), "too long": ":".join(["AB"] * 65), "absent": "none",
                   "critical": "critical,01:02:03"}
    for name, identifier in identifiers.items():
        it = Authority(t, name=name.replace(" ", "-"))
        authority.with_key_identifier(it, identifier)
        issuer = filter_module().issuer_of(it.pem)
        t.same(len(issuer.key_identifiers), 2 if name in ("another", "of 64", "critical") else 1, f"{name}: key identifiers")
        wanted = len(ours(issuer))
        t.same(compared(t, ours(issuer) + [crl_by_hand(issuer, identifier=authority_key_identifier(65))], it), wanted, f"{name}: accepted")
    (t.room / "odd.conf").write_text("[req]\ndistinguished_name=d\nx509_extensions=v\n[d]\n[v]\nsubjectKeyIdentifier=DER:0403010203\nkeyUsage=DER:0500\n")
    t.tool("openssl", "req", "-x509", "-config", "odd.conf", "-key", it.key, "-out", it.pem, "-subj", "/O=" + "x" * 60 + "/CN=T", "-days", "3650")
    issuer = filter_module().issuer_of(it.pem)
    t.same((len(issuer.key_identifiers), compared(t, ours(issuer), it)), (2, 5), "a long subject and an odd extension: key identifiers, accepted")
    (t.room / "ca.der").write_bytes(t.tool("openssl", "x509", "-in", it.pem, "-outform", "DER"))
    t.same(t.tool(native.signer(), "--only-ours", "ca.der", it.key), b"ecdsa-sha256\n", "the certificate in DER")


@test(seconds=3)
def a_ca_whose_certificate_another_one_issued(t):
    """The name in its CRLs is its own, which is the subject of its certificate."""
    it = Authority(t)
    name = filter_module().issuer_of(it.pem).name
    below_a_root(t, it)
    issuer = filter_module().issuer_of(it.pem)
    t.same((issuer.name, compared(t, ours(issuer), it)), (name, len(ours(issuer))), "the name of the CA, and accepted messages")


def authority_key_identifier(count):
    value = tlv(OCTETS, tlv(SEQUENCE, tlv(0x80, b"\xAB" * count)))
    return tlv(SEQUENCE, bytes.fromhex("0603551D23"), value)


@test(seconds=6)
def a_responder_signs_its_answers_alone(t):
    """With --responder, the signer refuses CRLs and answers of the CA's key. About another issuer's certificates, it signs only `unknown`."""
    filter_, it, responder = filter_module(), Authority(t), Authority(t, name="ocsp", subject="/CN=R")
    issuer, theirs = filter_.issuer_of(it.pem), filter_.issuer_of(responder.pem)
    process = started(t, "--only-ours", it.pem, "--responder", responder.pem, responder.key)
    path, message = t.room / "ca.sign", answer_by_hand(issuer, theirs)
    verifies(t, responder, message, signature(path, message))
    for refused in (crl_by_hand(issuer), answer_by_hand(issuer), crl_by_hand(theirs), answer_by_hand(theirs)):
        t.same(signature(path, refused), b"", f"{refused.hex()} is refused")
    dice = random.Random(60)
    t.true(compared(t, [message, *ours(issuer), *ours(theirs), *(changed(message, dice) for _ in range(3000))], it, responder) > 1, "too few accepted")
    t.has("\n".join(ended(process)[1]), "refused to sign ")


@test(seconds=3)
def a_certificate_of_another_key_is_not_taken(t):
    """The certificate is of another key of the same curve, of another curve, or of another kind of key."""
    it, other, curve = Authority(t), Authority(t, name="other"), Authority(t, "ecdsa-sha384", name="curve")
    kind = Authority(t, "ed25519", name="kind")
    rows = [(["--only-ours", other.pem], b"other.pem: it is the certificate of another key"), (["--only-ours", curve.pem], b"the certificate of another key"),
            (["--only-ours", kind.pem], b"kind.pem: it is the certificate of another key"),
            (["--only-ours", it.key], b"no certificate of a CA"), (["--only-ours", "nowhere.pem"], b"no certificate of a CA"),
            (["--only-ours", it.pem, "--responder", other.pem], b"other.pem: it is the certificate of another key"),
            (["--only-ours", it.pem, "--responder", it.key], b"no certificate of a responder")]
    for words, told in rows:
        ran = t.tried(native.signer(), *words, it.key, "ca.sign")
        t.same((ran.returncode, (t.room / "ca.sign").exists(), ran.stderr.count(b"\n")), (1, False, 1), f"{words}: status, whether it listens, lines")
        t.has(ran.stderr, told)
    # The signer reads a certificate in DER too, and refuses it only for its key.
    t.tool("openssl", "x509", "-in", other.pem, "-outform", "DER", "-out", "other.der")
    ran = t.tried(native.signer(), "--only-ours", "other.der", it.key, "ca.sign")
    t.same((ran.returncode, ran.stderr), (1, f"{NAME}other.der: it is the certificate of another key\n".encode()), "a certificate in DER")


@test(seconds=3)
def a_crl_of_many_entries(t):
    """The signer signs a CRL of some megabytes whole and in time. It refuses the CRL with reason 0 in one entry."""
    it = Authority(t)
    issuer = filter_module().issuer_of(it.pem)
    started(t, "--only-ours", it.pem, it.key)
    message = crl_by_hand(issuer, [(2**150 + 7919 * at).to_bytes(19, "big") for at in range(100_000)])
    with t.at_once("a signature, for which the desk waits for ten seconds"):
        signed = signature(t.room / "ca.sign", message)
    verifies(t, it, message, signed, "a long CRL")
    t.same(signature(t.room / "ca.sign", message.replace(b"\x0A\x01\x01\x30", b"\x0A\x01\x00\x30", 1)), b"", "the CRL with reason 0 in one entry")


# Clients


@test(seconds=14)
def a_slow_client_blocks_nobody(t):
    """One client sends a byte from time to time, another one nothing. The signer serves others at once, and closes both after ten seconds.
    A signer with persistent connections also closes one after ten seconds whose message comes byte by byte."""
    it = Authority(t)
    process, other = started(t, it.key), started(t, "--persistent", it.key, path="other.sign")
    path = t.room / "ca.sign"
    silent, slow, persistent_one = connected(path), connected(path), connected(t.room / "other.sign")
    open_ones = {silent, slow, persistent_one}
    with t.ten_seconds("the end of all"):
        # A third of a second for each octet: some thirty seconds at most.
        for octet in frame(bytes(96)):
            for client, sent in ((slow, b"x"), (persistent_one, bytes([octet]))):
                if client in open_ones:
                    try:
                        client.send(sent)
                    except BrokenPipeError:
                        open_ones.discard(client)
            if not open_ones:
                break
            with t.at_once("the signature of another client"):
                t.true(signature(path, b"a message") != b"", "another client has no signature")
            if select.select(open_ones & {silent}, [], [], 0.3)[0]:
                t.same(silent.recv(1), b"", "the bytes that the silent client gets")
                open_ones.discard(silent)
    told = f"{NAME}a connection failed: its message took longer than ten seconds"
    t.same((ended(process), ended(other)), ((0, [told] * 2), (0, [told])), "standard error of both signers")


@test(seconds=3)
def clients_that_end_early(t):
    """A client that sends nothing, ends in the middle, reads nothing, or closes before its signature comes loses its own connection only."""
    it = Authority(t)
    process = started(t, "--only-ours", it.pem, it.key)
    message = answer_by_hand(filter_module().issuer_of(it.pem))
    path = t.room / "ca.sign"
    keeps = []
    for octets, ends in ((b"", "close"), (message[:9], "close"), (message, "close"), (message, "half"), (b"", "half"), (bytes(100_000), "close"), (message, "reads not")):
        client = connected(path)
        client.sendall(octets)
        if ends != "close":
            client.shutdown(socket.SHUT_WR)
            keeps.append(client)
        if ends == "close" or ends == "half" and not octets:
            client.close()
        verifies(t, it, message, signature(path, message), f"a message beside a client with {len(octets)} bytes that {ends}s")
    t.true(all(line.startswith((f"{NAME}refused to sign ", f"{NAME}a connection failed: ")) for line in ended(process)[1]), "there is another line")


@test(seconds=6)
def a_message_of_64_mib_and_one_that_is_longer(t):
    it = Authority(t)
    process = started(t, it.key)
    path, message = t.room / "ca.sign", bytes(64 << 20)
    signed = signature(path, message)
    verifies(t, it, message, signed, "64 MiB")
    t.same(signature(path, message + b"\0"), b"", "the signature of a message that is a byte longer")
    with connected(path) as client:
        try:
            while client.send(bytes(1 << 20)):
                pass
        except (BrokenPipeError, ConnectionResetError):
            pass
    t.true(signature(path, b"a message") != b"", "the signer gives no signature afterwards")
    t.same(ended(process), (0, [f"{NAME}a connection failed: its message is longer than 64 MiB"] * 2), "standard error")


@each({"one process": 1, "four processes": 4}, seconds=4)
def two_hundred_clients_at_once(t, count):
    """All clients have connected and sent a part before the first one ends its message."""
    it = Authority(t)
    process = started(t, "--processes", count, it.key)
    clients = [connected(t.room / "ca.sign") for _ in range(200)]
    for at, client in enumerate(clients):
        client.sendall(b"message ")
    for at, client in enumerate(clients):
        client.sendall(b"%d" % at)
        client.shutdown(socket.SHUT_WR)
    signed = [program.read_all(client) for client in clients]
    t.same([at for at, it in enumerate(signed) if not it], [], "clients without a signature")
    for at in (0, 99, 199):
        verifies(t, it, b"message %d" % at, signed[at])
    t.same((len(native.children(process)), ended(process)), (count - 1, (0, [])), "its other processes, status, standard error")


@test(seconds=2)
def clients_connect_while_it_is_busy(t):
    """A signer that is stopped accepts nobody for a while. Meanwhile the queue of its socket takes sixty clients, who all get their signatures afterwards."""
    it = Authority(t)
    t.same(authority.unserved_behind(t, started(t, it.key), t.room / "ca.sign", 60), 0, "clients without a signature")


@test(seconds=3)
def the_slowest_of_256_makes_room(t):
    """With 256 open connections, the signer closes one only if another client connects: the oldest one whose message is incomplete."""
    it = Authority(t)
    process = started(t, it.key)
    clients = [connected(t.room / "ca.sign") for _ in range(256)]
    for client in clients:
        client.sendall(b"a")
    for client in clients[1:]:
        client.sendall(b"b")
    t.true(signature(t.room / "ca.sign", b"a message") != b"", "the 257th client gets no signature")
    gone = []
    for at, client in enumerate(clients):
        try:
            client.shutdown(socket.SHUT_WR)
        except OSError:
            pass
        if not program.read_all(client):
            gone.append(at)
    t.same(gone, [0], "closed connections")
    t.same(ended(process), (0, [f"{NAME}a connection failed: it is the slowest of 256, and another one waits"]), "standard error")


@test(seconds=4)
def a_rate(t):
    """At --rate 20 with two processes, 30 signatures take at least 1.45 s, and 11 after a pause at least 0.5 s. Refused messages don't count, and the
    signer doesn't sign for a client that has disconnected."""
    it = Authority(t)
    message = answer_by_hand(filter_module().issuer_of(it.pem))
    process = started(t, "--rate", 20, "--processes", 2, "--only-ours", it.pem, it.key)
    path = t.room / "ca.sign"
    clients = [connected(path) for _ in range(60)]
    began = time.monotonic()
    for at, client in enumerate(clients):
        client.sendall(message)
        client.shutdown(socket.SHUT_WR)
        if at >= 30:
            client.close()
    with t.at_once("a message that is refused"):
        t.same(signature(path, b"refused"), b"")
    t.same([it for it in map(program.read_all, clients[:30]) if not it], [], "clients without a signature")
    waited = time.monotonic() - began
    t.true(1.45 <= waited < 20, f"30 signatures took {waited:.2f} s")
    time.sleep(0.5)
    began = time.monotonic()
    t.same([it for it in (signature(path, message) for _ in range(11)) if not it], [], "clients without a signature after a pause")
    waited = time.monotonic() - began
    t.true(waited >= 0.5, f"11 signatures after a pause took {waited:.2f} s")
    # On a busy machine, a client may disconnect while its message is signed.
    t.same(len([it for it in ended(process)[1] if "a connection failed" not in it]), 1, "lines on standard error")


@test(seconds=3)
def a_rate_goes_on_though_the_clock_is_set_back(t):
    """The clock is set back by a day between two signatures."""
    it = Authority(t)
    (t.room / "clock").write_text("1800000000")
    started(t, "--rate", 20, it.key, before=["env", f"LD_PRELOAD={os.environ['DESK_FAULTS_LIBRARY']}", f"FAULTS_CLOCK={t.room / 'clock'}"])
    t.true(signature(t.room / "ca.sign", b"a message") != b"", "there is no signature before the clock is set back")
    (t.room / "clock").write_text("1799913600")
    t.true(signature(t.room / "ca.sign", b"a message") != b"", "there is no signature after the clock was set back")


@test(seconds=4)
def clients_that_disconnect_together_take_no_other_connection(t):
    """24 clients wait for their turn at two signatures a second. The signer notices at once that twenty disconnect, and signs for the others, who get
    the next four turns."""
    it = Authority(t)
    process = started(t, "--rate", 2, it.key)
    t.true(signature(t.room / "ca.sign", b"a message") != b"", "the first client gets no signature")
    clients = [t.enter_context(connected(t.room / "ca.sign")) for _ in range(24)]
    for client in clients:
        client.settimeout(20)
        client.sendall(b"a message")
        client.shutdown(socket.SHUT_WR)
        authority.until(lambda: program.is_read(client), "the signer to read its message")
    program.hold(process)
    staying = range(5, 24, 6)
    for at in {*range(24)} - {*staying}:
        clients[at].close()
    process.send_signal(signal.SIGCONT)
    with t.at_once("the signatures of the other four"):
        for at in staying:
            t.true(program.read_all(clients[at]) != b"", f"client {at} gets no signature")
    t.same(ended(process)[0], 0, "its status")


@test(seconds=4)
def the_oldest_client_is_signed_for_first(t):
    """At --rate 5, all clients have sent their messages before the second signature."""
    it = Authority(t)
    started(t, "--rate", 5, it.key)
    clients = [connected(t.room / "ca.sign") for _ in range(6)]
    for client in clients:
        client.sendall(b"a message")
        client.shutdown(socket.SHUT_WR)
    came, waiting = [], list(clients)
    while waiting:
        for client in select.select(waiting, [], [])[0]:
            t.true(program.read_all(client), "a client gets no signature")
            came.append(clients.index(client))
            waiting.remove(client)
    t.same(came, list(range(6)), "the order in which they got signatures")


@test(seconds=4)
def what_long_messages_take_is_given_back(t):
    """For each of forty messages of more than 4 MiB the signer allocates 16 MiB. It may have 512 MiB in all, so it must free them."""
    it = Authority(t)
    process = started(t, it.key)
    size = lambda: int(status_of(process.pid)["VmSize"].split()[0])
    before, message = size(), bytes((4 << 20) + 1)
    for at in range(40):
        t.true(signature(t.room / "ca.sign", message) != b"", f"message {at} is not signed")
    t.true(size() - before < 64 << 10, f"its memory has grown from {before} kB to {size()} kB")


@test(seconds=3)
def long_messages_have_512_mib_together(t):
    """The signer allocates 64 MiB for each of eight messages of more than 16 MiB. Then it has no memory for a message of 1,024 octets."""
    it = Authority(t)
    process = started(t, it.key)
    path, clients = t.room / "ca.sign", []
    for at in range(8):
        clients.append(t.enter_context(connected(path)))
        clients[at].sendall(bytes((16 << 20) + 1))
        authority.until(lambda: program.is_read(clients[at]), f"the signer to read long message {at}")
    t.same((signature(path, bytes(1_024)), signature(path, bytes(1_023)) != b""), (b"", True), "a message of 1,024 octets, and whether one of 1,023 is signed")
    for client in clients:
        client.shutdown(socket.SHUT_WR)
        t.true(program.read_all(client) != b"", "a long message is not signed")
    t.true(signature(path, bytes(1_024)) != b"", "a later message is not signed")
    t.same(ended(process), (0, [f"{NAME}a connection failed: out of memory for its message"]), "standard error")


@test(seconds=3)
def clients_beyond_its_descriptors(t):
    """A connection that it can't accept waits until another one has ended, and meanwhile the signer reports it ten times a second."""
    it = Authority(t)
    process = started(t, it.key)
    files = len(os.listdir(f"/proc/{process.pid}/fd"))
    t.tool("prlimit", "--pid", process.pid, f"--nofile={files + 1}:{files + 1}")
    clients = [connected(t.room / "ca.sign") for _ in range(2)]
    t.true(select.select([process.stderr], [], [], program.LONGEST)[0], "the signer reports nothing")
    # Time in which the signer can report it again.
    time.sleep(1)
    for client in clients:
        client.settimeout(20)
        client.sendall(b"a message")
        client.shutdown(socket.SHUT_WR)
        t.true(program.read_all(client) != b"", "a client gets no signature")
    status, told = ended(process)
    t.same((status, {*told}), (0, {f"{NAME}a connection failed: Too many open files"}), "status, and its different lines")
    t.true(len(told) < 100, f"too many lines: {len(told)}")


@each({"another process had it first": "EAGAIN", "a signal came": "EINTR", "it has gone": "ECONNABORTED"})
def a_client_that_is_not_accepted_is_no_failure(t, error):
    """accept4(2) ends so once. Standard error gets no line, and the client has its signature as soon as it is accepted."""
    it = Authority(t)
    process = started(t, it.key, before=["env", f"LD_PRELOAD={os.environ['DESK_FAULTS_LIBRARY']}", f"FAULTS_FAIL=accept:1={error}"])
    t.true(signature(t.room / "ca.sign", b"a message") != b"", "there is no signature")
    t.same(ended(process), (0, []), "status, standard error")


@test(seconds=2)
def it_ends_while_a_client_always_waits(t):
    """The signer has no descriptor for a client, so its socket is readable all the time. SIGTERM ends it all the same."""
    it = Authority(t)
    process = started(t, it.key)
    t.callback(process.kill)
    t.tool("prlimit", "--pid", process.pid, "--nofile=3:")
    t.enter_context(connected(t.room / "ca.sign"))
    t.same(process.stderr.readline().decode(), f"{NAME}a connection failed: Too many open files\n", "its first line on standard error")
    process.terminate()
    with t.at_once("its end"):
        t.same(process.wait(20), 0, "its status")


@test(seconds=4)
def no_client_of_256_is_lost_for_one_that_can_not_be_accepted(t):
    """The signer has no descriptor for the 257th client. The oldest of the others keeps its connection, and gets its signature."""
    it = Authority(t)
    # 300 descriptors are open from the start, so that no client gets a number below the later limit.
    process = started(t, it.key, before=["bash", "-c", 'for at in {3..302}; do eval "exec $at< /dev/null"; done; exec "$@"', "-"])
    t.callback(process.kill)
    clients = [t.enter_context(connected(t.room / "ca.sign")) for _ in range(256)]
    for client in clients:
        client.sendall(b"a")
    authority.until(lambda: all(map(program.is_read, clients)), "the signer to read the beginning of each message")
    t.tool("prlimit", "--pid", process.pid, "--nofile=280:")
    t.enter_context(connected(t.room / "ca.sign"))
    t.same(process.stderr.readline().decode(), f"{NAME}a connection failed: Too many open files\n", "its first line on standard error")
    clients[0].shutdown(socket.SHUT_WR)
    t.true(program.read_all(clients[0]) != b"", "the oldest client gets no signature")


# Persistent connections


def persistent(t, path="ca.sign"):
    """A connection that is persistent once its first message is sent."""
    return t.enter_context(connected(t.room / path))


def announced(t, got):
    """The signature in what a signer with --persistent has sent over a connection that isn't persistent."""
    t.same(got[:16], ANNOUNCEMENT, "the announcement")
    return got[16:]


def verifier(t, it):
    """A function that verifies a signature by the package cryptography: openssl would take seconds for a thousand of them."""
    authority.need_cryptography(t)
    from cryptography.exceptions import InvalidSignature
    from cryptography.hazmat.primitives import hashes
    from cryptography.hazmat.primitives.asymmetric import ec, padding
    from cryptography.hazmat.primitives.serialization import load_pem_private_key

    public = load_pem_private_key(it.key.read_bytes(), None).public_key()
    words = {"ecdsa-sha256": (ec.ECDSA(hashes.SHA256()),), "ecdsa-sha384": (ec.ECDSA(hashes.SHA384()),),
             "rsa-sha256": (padding.PKCS1v15(), hashes.SHA256()), "ed25519": ()}[it.algorithm]

    def check(signed, message):
        try:
            public.verify(signed, message, *words)
        except InvalidSignature:
            raise Failed(f"{signed.hex()} is no signature of {message[:40]!r}, which has {len(message)} bytes") from None

    return check


@test(seconds=2)
def one_message_over_a_connection_to_a_persistent_signer(t):
    """The signature comes behind the announcement. A refused message gets nothing, and neither does a connection without any octet. A message whose
    first octet is not 0 ends with its connection."""
    it = Authority(t)
    message, path = answer_by_hand(filter_module().issuer_of(it.pem)), t.room / "ca.sign"
    process = started(t, "--persistent", "--only-ours", it.pem, it.key)
    verifies(t, it, message, announced(t, signature(path, message)))
    t.same([signature(path, it) for it in (b"", b"hello", message[1:])], [b"", b"", b""], "the replies to messages that are refused")
    told = [line.split(":")[1] for line in ended(process)[1]]
    t.same(told, [f" refused to sign {it} bytes" for it in (5, len(message) - 1)], "standard error")
    started(t, "--persistent", it.key)
    t.same(signature(path, b""), b"", "the reply to no octet")
    for message in (b"\x01", b"\x01\0\0\0", b"a" + bytes(5_000_000)):
        verifies(t, it, message, announced(t, signature(path, message)))
    t.same(t.tool(sys.executable, EXAMPLES / "check-signer.py", it.pem, *it.signing()), b"", "the test message of check-signer.py")


@test(seconds=2)
def without_the_option_no_connection_is_persistent(t):
    """A message may begin with 0, and its signature has no announcement."""
    it = Authority(t)
    started(t, it.key)
    for message in (frame(b"a message"), b"\0", frame(b"a message") * 2):
        verifies(t, it, message, signature(t.room / "ca.sign", message))
    client = persistent(t)
    client.sendall(frame(b"a message"))
    client.settimeout(0.5)
    try:
        t.same(client.recv(1), "no octet", "before the end of the message")
    except socket.timeout:
        pass


@test(seconds=2)
def each_answer_is_one_send(t):
    """A client gets an announcement or a length together with its signature. In this test each send is a packet."""
    it = Authority(t)
    message = answer_by_hand(filter_module().issuer_of(it.pem))
    with socket.socket(socket.AF_UNIX, socket.SOCK_SEQPACKET) as listener:
        listener.bind(str(t.room / "ca.sign"))
        listener.listen(8)
        process = handed([str(native.signer()), "--persistent", "--only-ours", str(it.pem), str(it.key), "--inherited"], listener)
        t.callback(authority.end, process)
        with socket.socket(socket.AF_UNIX, socket.SOCK_SEQPACKET) as client:
            client.settimeout(program.LONGEST)
            client.connect(str(t.room / "ca.sign"))
            client.send(message)
            client.shutdown(socket.SHUT_WR)
            verifies(t, it, message, announced(t, client.recv(8192)))
        with socket.socket(socket.AF_UNIX, socket.SOCK_SEQPACKET) as client:
            client.settimeout(program.LONGEST)
            client.connect(str(t.room / "ca.sign"))
            for sent in (message, b"hello", message):
                client.send(frame(sent))
                got = client.recv(8192)
                t.same(got[:4], struct.pack(">I", len(got) - 4), "the length before an answer")
                t.same(len(got) == 4, sent == b"hello", f"whether it refuses {sent!r}")
            verifies(t, it, message, got[4:])


@each(ALGORITHMS, seconds=5)
def a_thousand_messages_over_one_connection(t, algorithm):
    """Each answer is the signature of its message. The messages have many lengths, in all orders."""
    it, dice = Authority(t, algorithm), random.Random(72)
    check, process = verifier(t, it), started(t, "--persistent", it.key)
    client = persistent(t)
    for at in range(1000):
        message = b"%d" % at + dice.randbytes(dice.choice((0, 9, 150, 1015, 1016, 1017, 1018, 1024, 5000, 70_000)))
        check(asked(client, message), message)
    t.same(ended(process), (0, []), "status and standard error")


@test(seconds=4)
def the_longest_and_the_shortest_message(t):
    """A persistent connection takes messages of 0 and of 16,777,215 octets, and ends at a longer one. With --only-ours, a message of 0 is refused."""
    it = Authority(t)
    process = started(t, "--persistent", it.key)
    client, other = persistent(t), persistent(t)
    for message in (b"", bytes((1 << 24) - 1), b"", random.Random(3).randbytes((1 << 24) - 1), b"a message"):
        verifies(t, it, message, asked(client, message), f"{len(message)} octets")
    verifies(t, it, b"a message", asked(other, b"a message"))
    other.sendall(b"\x01\0\0\0")
    t.same(answer(other), None, "the answer to a longer message")
    verifies(t, it, b"a message", asked(client, b"a message"))
    told = "its message is longer than 16,777,215 bytes"
    t.same(ended(process), (0, [f"{NAME}a connection failed: {told}"]), "standard error")
    process = started(t, "--persistent", "--only-ours", it.pem, it.key)
    t.same(asked(persistent(t), b""), b"", "the answer to a message of 0 octets")
    t.same([line.split(":")[1] for line in ended(process)[1]], [" refused to sign 0 bytes"], "standard error")


@test(seconds=5)
def messages_in_pieces_of_any_size(t):
    """Some messages come together and others in single octets. Each gets the answer that it also gets alone, in their order. With Ed25519, a message
    always has the same signature."""
    it = Authority(t, "ed25519")
    issuer = filter_module().issuer_of(it.pem)
    started(t, "--only-ours", it.pem, it.key, path="other.sign")
    long = crl_by_hand(issuer, [(2**150 + at).to_bytes(19, "big") for at in range(200)])
    messages = [*dict.fromkeys([*random.Random(4).sample([*named_messages(issuer).values()], 20), *ours(issuer), b"", bytes(1020), long])]
    answers = {message: signature(t.room / "other.sign", message) for message in messages}
    t.true(sum(map(bool, answers.values())) > 5, "too few messages are signed")
    process = started(t, "--persistent", "--only-ours", it.pem, it.key)
    for seed in range(24):
        dice, client = random.Random(seed), persistent(t)
        chosen = [dice.choice(messages) for _ in range(20)]
        octets = b"".join(map(frame, chosen))
        sizes = (1,) if seed == 0 else (len(octets),) if seed == 1 else (1, 3, 4, 5, 200, 1024, 3000)
        while octets:
            size = dice.choice(sizes)
            client.sendall(octets[:size])
            octets = octets[size:]
            # Time in which the signer reads this piece alone.
            time.sleep(dice.choice((0, 0, 0.0003)))
        got = [answer(client) for _ in chosen]
        t.same([at for at in range(20) if got[at] != answers[chosen[at]]], [], f"seed {seed}: the messages with other answers")
        client.shutdown(socket.SHUT_WR)
        t.same(answer(client), None, "an answer too many")
    status, told = ended(process)
    t.same((status, [line for line in told if "refused to sign" not in line]), (0, []), "status, and other lines on standard error")


@test(seconds=2)
def many_messages_behind_a_long_one(t):
    """They come in one write, and have more octets than the buffer of a connection without a long message. Another connection goes on."""
    it = Authority(t)
    check = verifier(t, it)
    process = started(t, "--persistent", it.key)
    clients = [persistent(t) for _ in range(3)]
    messages = [bytes(70_000), *(b"message %d" % at + bytes(300) for at in range(100))]
    for client in clients:
        check(asked(client, b"a message"), b"a message")
    for client in clients:
        client.sendall(b"".join(map(frame, messages)))
        for message in messages:
            check(answer(client), message)
    t.same(ended(process), (0, []), "status and standard error")


@test(seconds=2)
def the_end_of_a_persistent_connection(t):
    """A client that ends between two messages causes no line on standard error, and one that ends within a message causes one. A message that came
    whole before the end gets its answer."""
    it = Authority(t)
    process = started(t, "--persistent", it.key)
    one = frame(b"a message")
    for octets, answers in ((one, 1), (one[:-1], 0), (one + one[:3], 1), (b"\0", 0), (one * 3, 3)):
        client = persistent(t)
        client.sendall(octets)
        client.shutdown(socket.SHUT_WR)
        for _ in range(answers):
            t.true(answer(client), f"no signature for a message in {octets!r}")
        t.same(answer(client), None, f"one more answer to {octets!r}")
    client = persistent(t)
    t.true(asked(client, b"a message"), "no signature")
    client.close()
    verifies(t, it, b"a message", asked(persistent(t), b"a message"))
    t.same(ended(process), (0, [f"{NAME}a connection failed: its message is incomplete"] * 3), "standard error")
    process = started(t, "--persistent", it.key)
    client = persistent(t)
    client.sendall(one)
    authority.until(lambda: select.select([client], [], [], 0)[0], "the answer")
    client.close()
    t.true(asked(persistent(t), b"a message"), "no signature")
    t.same(ended(process), (0, [f"{NAME}a connection failed: Connection reset by peer"]), "standard error after a client that left its answer unread")


@test(seconds=2)
def a_client_that_reads_no_answers(t):
    """A hundred answers may wait for the client. The signer ends a connection whose socket takes no more answers, and serves the others."""
    it = Authority(t)
    process = started(t, "--persistent", it.key)
    client = persistent(t)
    client.sendall(frame(b"a message") * 100)
    authority.until(lambda: program.is_read(client), "the signer to read a hundred messages")
    t.same([at for at in range(100) if not answer(client)], [], "messages without an answer")
    client.settimeout(20)
    try:
        for _ in range(100_000):
            client.sendall(frame(b"a message"))
    except (BrokenPipeError, ConnectionResetError):
        pass
    else:
        raise Failed("the signer takes a hundred thousand messages whose answers nobody reads")
    verifies(t, it, b"a message", asked(persistent(t), b"a message"))
    t.same(ended(process), (0, [f"{NAME}a connection failed: Resource temporarily unavailable"]), "standard error")


@test(seconds=13)
def an_idle_connection_has_no_time_limit(t):
    """A client is idle for twelve seconds. Another one is idle for nine, and needs three for its message. A third one is cut off after ten."""
    it = Authority(t)
    process = started(t, "--persistent", it.key)
    idle, later, slow = (persistent(t) for _ in range(3))
    for client in (idle, later, slow):
        verifies(t, it, b"a message", asked(client, b"a message"))
    with t.ten_seconds("the end of the third one"):
        slow.sendall(frame(b"a message")[:5])
        time.sleep(9)
        later.sendall(frame(b"a message")[:5])
        t.same(answer(slow), None, "the answer to a message that has not come whole")
    time.sleep(2)
    later.sendall(frame(b"a message")[5:])
    verifies(t, it, b"a message", answer(later), "a message after nine seconds")
    verifies(t, it, b"a message", asked(idle, b"a message"), "a message after twelve seconds")
    t.same(ended(process), (0, [f"{NAME}a connection failed: its message took longer than ten seconds"]), "standard error")


@test(seconds=3)
def an_idle_connection_makes_room(t):
    """With 256 open connections, the signer closes the one that is idle for longest if another client comes, and rather than one whose message is
    incomplete."""
    it = Authority(t)
    process = started(t, "--persistent", it.key)
    idle = [persistent(t) for _ in range(256)]
    late = connected(t.room / "ca.sign")
    late.sendall(b"a message")
    late.shutdown(socket.SHUT_WR)
    t.true(select.select([late], [], [], 5)[0], "no answer while all 256 connections are idle")
    verifies(t, it, b"a message", announced(t, program.read_all(late)))
    t.same([at for at, client in enumerate(idle) if select.select([client], [], [], 0)[0]], [0], "idle connections that were closed")
    for client in idle:
        client.close()
    incomplete = persistent(t)
    incomplete.sendall(b"a")
    clients = [persistent(t) for _ in range(255)]
    for client in (*clients, clients[0]):
        t.true(asked(client, b"a message"), "no signature")
    for at in range(2):
        verifies(t, it, b"a message", announced(t, signature(t.room / "ca.sign", b"a message")))
        persistent(t).sendall(b"b")
        authority.until(lambda: select.select([clients[at + 1]], [], [], 0)[0], f"the end of idle connection {at + 1}")
    t.same([at for at, client in enumerate(clients) if not asked(client, b"a message")], [1, 2], "closed connections")
    incomplete.shutdown(socket.SHUT_WR)
    verifies(t, it, b"a", announced(t, program.read_all(incomplete)))
    t.same(ended(process), (0, []), "standard error")


@test(seconds=2)
def a_connection_is_idle_from_its_last_answer_on(t):
    """A message begins, and ends after another client's message was answered. With 256 open connections and another client, the signer closes the
    one that has been idle for longest: that of the other client."""
    it = Authority(t)
    process = started(t, "--persistent", it.key)
    slow, quick, message = persistent(t), persistent(t), frame(b"a message")
    slow.sendall(message[:5])
    authority.until(lambda: program.is_read(slow), "the signer to read the beginning of the message")
    t.true(asked(quick, b"a message"), "the client whose message comes whole gets no signature")
    slow.sendall(message[5:])
    t.true(answer(slow), "the client whose message comes in parts gets no signature")
    for _ in range(255):
        persistent(t)
    authority.until(lambda: select.select([slow, quick], [], [], 0)[0], "the end of a connection")
    t.same([bool(asked(client, b"a message")) for client in (slow, quick)], [True, False], "whether each connection is open")
    t.same(ended(process), (0, []), "standard error")


# Loaded before the signer (LD_PRELOAD), this appends to the file TURNS each call by which the signer reads from a client (r) or answers it (s), with
# the number of its descriptor. A client with a long message has always sent more: a call that has room for it waits for a second.
TURNS = """
#define _GNU_SOURCE
#include <dlfcn.h>
#include <errno.h>
#include <poll.h>
#include <stdio.h>
#include <stdlib.h>
#include <sys/socket.h>

static ssize_t noted(char what, int client, ssize_t octets) {
    int error = errno;
    FILE *turns = fopen(getenv("TURNS"), "a");
    fprintf(turns, "%c %d %zd\\n", what, client, octets);
    fclose(turns);
    errno = error;
    return octets;
}

ssize_t recv(int from, void *octets, size_t room, int flags) {
    ssize_t (*real)(int, void *, size_t, int) = dlsym(RTLD_NEXT, "recv");
    if (room > 32768)
        poll(&(struct pollfd){from, POLLIN, 0}, 1, 1000);
    return noted('r', from, real(from, octets, room, flags));
}

ssize_t send(int to, const void *octets, size_t length, int flags) {
    ssize_t (*real)(int, const void *, size_t, int) = dlsym(RTLD_NEXT, "send");
    return noted('s', to, real(to, octets, length, flags));
}
"""


def turns(t, what):
    """The clients that the signer read from ("r") or sent to ("s"), each time with how many octets."""
    lines = (line.split() for line in (t.room / "turns").read_text().splitlines())
    return [(client, int(octets)) for kind, client, octets in lines if kind == what]


@test(seconds=2)
def two_hundred_messages_of_one_client_hold_up_nobody(t):
    """They come in one write while the signer is stopped, and so do two other clients. The signer accepts the second of these once it has answered
    each of the first two clients once."""
    it = Authority(t)
    process = started(t, "--persistent", it.key, before=preloaded(t, "turns", TURNS, f"TURNS={t.room / 'turns'}"))
    many = persistent(t)
    t.true(asked(many, b""), "no signature")
    program.hold(process)
    many.sendall(200 * frame(b""))
    others = [t.enter_context(connected(t.room / "ca.sign")) for _ in range(2)]
    for client in others:
        client.sendall(b"a message")
        client.shutdown(socket.SHUT_WR)
    process.send_signal(signal.SIGCONT)
    for client in others:
        verifies(t, it, b"a message", announced(t, program.read_all(client)))
    t.true(all(answer(many) for _ in range(200)), "a message of the first client is not signed")
    first, *sent = (client for client, _ in turns(t, "s"))
    t.same((len(sent), sent.count(first)), (202, 200), "answers after the first one, and those to the first client")
    last = max(at for at, number in enumerate(sent) if number != first)
    t.true(last < 20, f"the last client gets answer {last + 2}")
    t.same(ended(process), (0, []), "standard error")


@test(seconds=2)
def a_long_message_takes_turns_with_others(t):
    """A client has always sent more of its 8 MiB. The signer reads from another client, whose message came with the beginning of the long one, after
    a part of it."""
    it = Authority(t)
    process = started(t, it.key, before=preloaded(t, "turns", TURNS, f"TURNS={t.room / 'turns'}"))
    other, long = (t.enter_context(connected(t.room / "ca.sign")) for _ in range(2))
    for client in (other, long):
        client.sendall(b"a")
        authority.until(lambda: program.is_read(client), "the signer to read the beginning")
    program.hold(process)
    before = turns(t, "r")
    other.sendall(b" message")
    other.shutdown(socket.SHUT_WR)
    long.sendall(bytes(65_536))
    with ThreadPoolExecutor(1) as pool:
        rest = pool.submit(long.sendall, bytes(8 << 20))
        process.send_signal(signal.SIGCONT)
        verifies(t, it, b"a message", program.read_all(other))
        rest.result()
    long.shutdown(socket.SHUT_WR)
    t.true(program.read_all(long), "the long message is not signed")
    reads = turns(t, "r")[len(before):]
    octets = sum(octets for client, octets in takewhile(lambda it: it[0] != before[0][0], reads))
    t.true(octets < 4 << 20, f"the other client's message is read after {octets} octets of the long one")
    t.same(ended(process), (0, []), "standard error")


@test(seconds=3)
def connections_are_spread_over_the_processes(t):
    """While one of two processes is stopped, the other one serves all clients. Once it goes on, it gets the next ones, until both have as many.
    Connections that have ended, or that had one message, don't count."""
    it = Authority(t)
    process = started(t, "--persistent", "--processes", 2, it.key)
    numbers = (process.pid, *native.children(process))
    # Each process has the listener too.
    connections = lambda: [sum(os.readlink(it).startswith("socket:") for it in Path(f"/proc/{number}/fd").iterdir()) - 1 for number in numbers]
    t.callback(os.kill, numbers[1], signal.SIGCONT)
    os.kill(numbers[1], signal.SIGSTOP)
    clients = []
    with t.at_once("the answers of the process that goes on"):
        for _ in range(10):
            clients.append(persistent(t))
            t.true(asked(clients[-1], b"a message"), "no signature")
            t.true(announced(t, signature(t.room / "ca.sign", b"a message")), "no signature over another connection")
    t.same(connections(), [10, 0], "connections of each process")
    os.kill(numbers[1], signal.SIGCONT)
    for _ in range(10):
        t.true(asked(persistent(t), b"a message"), "no signature")
    t.true(connections()[1] >= 8, f"of twenty, the processes have {connections()} connections")
    for client in clients:
        client.close()
    authority.until(lambda: sum(connections()) == 10, "the end of ten connections")
    for _ in range(10):
        t.true(asked(persistent(t), b"a message"), "no signature")
    t.true(connections()[0] >= 8, f"after the end of ten, the processes have {connections()} connections")
    t.same(ended(process), (0, []), "status and standard error")


@test(seconds=5)
def idle_connections_take_no_processor_time(t):
    it = Authority(t)
    process = started(t, "--persistent", "--processes", 2, it.key)
    for _ in range(3):
        t.true(asked(persistent(t), b"a message"), "no signature")
    time.sleep(1.5)
    is_idle(t, process)


@test(seconds=2)
def it_polls_for_the_next_message(t):
    """The process runs, and doesn't sleep, for 0.3 ms after the answer to a message that came so soon after the one before. Here the test sets the
    elapsed time."""
    if len(os.sched_getaffinity(0)) == 1:
        raise Skipped("with a single processor the signer does not poll")
    it = Authority(t)
    (t.room / "passed").write_bytes(struct.pack("=Q", 1_000_000))
    before = ["env", f"LD_PRELOAD={os.environ['DESK_FAULTS_LIBRARY']}", f"FAULTS_PASSED={t.room / 'passed'}"]
    process = started(t, "--persistent", it.key, before=before)
    client = persistent(t)
    state = lambda: Path(f"/proc/{process.pid}/stat").read_text().rpartition(") ")[2][0]
    for _ in range(3):
        t.true(asked(client, b"a message"), "no signature")
    t.same({state() for _ in range(1000)}, {"R"}, "its states after a message")
    with open(t.room / "passed", "r+b") as passed:
        passed.write(struct.pack("=Q", 1_000_001))
    authority.until(lambda: state() == "S", "the signer to sleep after a millisecond")


@each({"two": (2, "R"), "three": (3, "S")}, seconds=2)
def it_polls_only_for_two_clients(t, number, wanted):
    """With more than two connections that had a message within a millisecond, it sleeps as soon as it has answered. No time passes for it."""
    if len(os.sched_getaffinity(0)) == 1:
        raise Skipped("with a single processor the signer does not poll")
    it = Authority(t)
    (t.room / "passed").write_bytes(struct.pack("=Q", 1_000_000))
    before = ["env", f"LD_PRELOAD={os.environ['DESK_FAULTS_LIBRARY']}", f"FAULTS_PASSED={t.room / 'passed'}"]
    process = started(t, "--persistent", it.key, before=before)
    clients = [persistent(t) for _ in range(number)]
    for _ in range(3):
        for client in clients:
            t.true(asked(client, b"a message"), "no signature")
    state = lambda: Path(f"/proc/{process.pid}/stat").read_text().rpartition(") ")[2][0]
    if wanted == "S":
        authority.until(lambda: state() == "S", "the signer to sleep")
    else:
        t.same({state() for _ in range(1000)}, {"R"}, "its states after the messages")


@each({"with nonces": (), "without nonces, which libcrypto does not draw": ("NO_NONCES=1",)}, seconds=2)
def on_the_only_processor_it_does_not_poll(t, *variables):
    """There it sleeps as soon as it has answered, because polling would keep the client from running. No time passes for it."""
    need("taskset")
    it = Authority(t)
    (t.room / "passed").write_bytes(struct.pack("=Q", 1_000_000))
    processor = min(os.sched_getaffinity(0))
    loaded = [os.environ["DESK_FAULTS_LIBRARY"], *([wrong_libcrypto()] if variables else [])]
    before = ["taskset", "-c", processor, "env", *variables, f"LD_PRELOAD={':'.join(map(str, loaded))}", f"FAULTS_PASSED={t.room / 'passed'}"]
    process = started(t, "--persistent", it.key, before=before)
    client = persistent(t)
    for _ in range(3):
        t.true(asked(client, b"a message"), "no signature")
    authority.until(lambda: Path(f"/proc/{process.pid}/stat").read_text().rpartition(") ")[2][0] == "S", "the signer to sleep")


@test(seconds=4)
def a_rate_counts_each_message(t):
    """At --rate 20 with two processes, 20 signatures over two persistent connections take at least 0.95 s. Refused messages don't count."""
    it = Authority(t)
    message = answer_by_hand(filter_module().issuer_of(it.pem))
    process = started(t, "--persistent", "--rate", 20, "--processes", 2, "--only-ours", it.pem, it.key)
    clients = [persistent(t), persistent(t)]
    began = time.monotonic()
    for client in clients:
        client.sendall(frame(message) * 10)
    with t.at_once("many messages that are refused"):
        other = persistent(t)
        t.same([asked(other, b"refused") for _ in range(450)], [b""] * 450, "the answers")
    for client in clients:
        for _ in range(10):
            verifies(t, it, message, answer(client))
    waited = time.monotonic() - began
    t.true(0.95 <= waited < 20, f"20 signatures took {waited:.2f} s")
    t.same(len(ended(process)[1]), 450, "lines on standard error")


@test(seconds=4)
def what_long_messages_take_on_persistent_connections_is_given_back(t):
    """For each of forty messages of more than 4 MiB the signer allocates 16 MiB, of 512 MiB in all. The connections stay open."""
    it = Authority(t)
    process = started(t, "--persistent", it.key)
    size = lambda: int(status_of(process.pid)["VmSize"].split()[0])
    before, message, clients = size(), bytes((4 << 20) + 1), [persistent(t) for _ in range(40)]
    for at, client in enumerate(clients):
        t.true(asked(client, message), f"message {at} is not signed")
    t.true(size() - before < 64 << 10, f"its memory has grown from {before} kB to {size()} kB")
    t.same([at for at, client in enumerate(clients) if not asked(client, b"a message")], [], "connections without a signature")
    t.same(ended(process), (0, []), "status and standard error")


@test(seconds=3)
def it_ends_with_persistent_connections(t):
    """SIGTERM ends the signer at once: one client is idle, another one always sends messages. Both connections end. A signer that starts at the same
    path serves new ones."""
    it = Authority(t)
    process = started(t, "--persistent", it.key)
    idle, busy = persistent(t), persistent(t)
    t.true(asked(idle, b"a message"), "no signature")

    def send():
        """Sends messages, and has twenty answers to read, until the signer ends."""
        try:
            busy.sendall(frame(b"a message") * 20)
            while answer(busy) is not None:
                busy.sendall(frame(b"a message"))
        except (BrokenPipeError, ConnectionResetError):
            pass

    with ThreadPoolExecutor(1) as pool:
        sending = pool.submit(send)
        time.sleep(0.5)
        process.terminate()
        with t.at_once("its end"):
            t.same((process.wait(program.LONGEST), process.stderr.read()), (0, b""), "its status and standard error")
        sending.result()
    t.same(asked(idle, b"a message"), None, "the answer of a signer that has ended")
    started(t, "--persistent", it.key)
    verifies(t, it, b"a message", asked(persistent(t), b"a message"))


# Processes and sockets


@test(seconds=4)
def its_processes_end_together(t):
    it = Authority(t)
    process = started(t, "--processes", 3, it.key)
    authority.until(lambda: len(native.children(process)) == 2, "its processes")
    others = native.children(process)
    t.same(ended(process)[0], 0, "ended by SIGTERM")
    authority.until(lambda: not any(map(native.is_there, others)), "the end of its other processes")
    process = started(t, "--processes", 3, it.key)
    others = native.children(process)
    os.kill(others[0], signal.SIGKILL)
    t.same((process.wait(program.LONGEST), process.stderr.read()), (1, b"desk-signer: another process ended\n"), "after one process is killed")
    authority.until(lambda: not any(map(native.is_there, others)), "the end of its other processes")
    t.true(not (t.room / "ca.sign").exists(), "its socket is left")
    process = started(t, "--processes", 3, it.key)
    others = native.children(process)
    process.send_signal(signal.SIGINT)
    t.same((process.wait(program.LONGEST), process.stderr.read()), (0, b""), "ended by SIGINT")
    authority.until(lambda: not any(map(native.is_there, others)), "the end of its other processes")
    t.true(not (t.room / "ca.sign").exists(), "its socket is left")
    process = started(t, "--processes", 3, it.key)
    others = native.children(process)
    process.kill()
    authority.until(lambda: not any(map(native.is_there, others)), "the end of the others after the first one is killed")


@test(seconds=3)
def what_is_at_its_path(t):
    """The path is that of another signer, a stale socket, a file or a link, or is in no folder, or is too long. Only the stale socket is replaced."""
    it = Authority(t)
    started(t, it.key)
    (t.room / "file").write_text("precious")
    for path, told in (("ca.sign", b"something listens at ca.sign already"), ("file", b"file: Address already in use"),
                       ("none/ca.sign", b"none/ca.sign: No such file or directory"), ("x" * 108, b"a socket's path has at most 107 characters")):
        ran = t.tried(native.signer(), it.key, path)
        t.same(ran.returncode, 1, f"{path}: status")
        t.has(ran.stderr, told)
    t.true(signature(t.room / "ca.sign", b"a message") != b"", "the first signer gives no signature")
    t.same((t.room / "file").read_text(), "precious", "the file stays")
    with socket.socket(socket.AF_UNIX) as stale:
        stale.bind(str(t.room / "stale.sign"))
    process = subprocess.Popen([native.signer(), it.key, "stale.sign"], cwd=t.room, stdout=subprocess.PIPE, stderr=subprocess.PIPE)
    t.callback(authority.end, process)
    t.same(process.stdout.readline(), b"ecdsa-sha256 at stale.sign\n", "the line of a signer at a stale socket")
    t.true(signature(t.room / "stale.sign", b"a message") != b"", "the signer at the stale socket gives no signature")
    process.stdout.close()
    with socket.socket(socket.AF_UNIX) as stale:
        stale.bind(str(t.room / "other.sign"))
    (t.room / "link.sign").symlink_to("other.sign")
    ran = t.tried(native.signer(), it.key, "link.sign", timeout=30)
    t.same((ran.returncode, ran.stderr, os.readlink(t.room / "link.sign")), (1, b"desk-signer: link.sign: Address already in use\n", "other.sign"), "at a link to a socket")


SIGNERS = {it: (it,) for it in ("desk-signer", "signer.py")}


def signer_words(t, name):
    """The words that start a signer, which every user may run from the test's folder."""
    if name == "signer.py":
        authority.need_cryptography(t)
        for module in (name, "only_ours.py"):
            shutil.copy(EXAMPLES / module, t.room)
        return [sys.executable, t.room / name]
    shutil.copy(native.signer(), t.room)
    return [t.room / name, "--allow-swap"]


@each(SIGNERS, seconds=2)
def a_busy_signer_at_its_path_is_not_replaced(t, name):
    """The queue of that signer's socket is full, so a client would have to wait."""
    it, words = Authority(t), signer_words(t, name)
    with full_queue(t):
        made = (t.room / "ca.sign").stat().st_ino
        ran = t.tried(*words, it.key, "ca.sign", timeout=20)
        t.same((ran.returncode, ran.stdout), (1, b""), f"status and output; it reported {ran.stderr!r}")
        t.has(ran.stderr, b"something listens at ca.sign already")
        t.same((t.room / "ca.sign").stat().st_ino, made, "the socket at its path")


@each(SIGNERS, seconds=2)
def a_socket_to_which_it_may_not_connect_is_not_replaced(t, name):
    """Another user's signer listens at the path, in a folder in which this user may remove files."""
    if os.geteuid():
        raise Skipped("only root can make a socket of another user")
    need("setpriv")
    it, words = Authority(t), signer_words(t, name)
    for path in (t.room, it.key):
        path.chmod(0o755)
    (t.room / "theirs").mkdir()
    os.chown(t.room / "theirs", 65534, 65534)
    with socket.socket(socket.AF_UNIX) as listener:
        listener.bind(str(t.room / "theirs/ca.sign"))
        listener.listen(8)
        (t.room / "theirs/ca.sign").chmod(0o600)
        as_nobody = ("setpriv", "--reuid", "65534", "--regid", "65534", "--clear-groups")
        ran = t.tried(*as_nobody, *words, it.key, "theirs/ca.sign", timeout=20)
        if ran.stderr.startswith(b"setpriv: failed to execute"):
            raise Skipped(f"another user can't run {words[0]}")
        t.same((ran.returncode, ran.stdout), (1, b""), f"status and output; it reported {ran.stderr!r}")
        t.has(ran.stderr, b"theirs/ca.sign: Permission denied\n")
        with connected(t.room / "theirs/ca.sign"):
            t.true(select.select([listener], [], [], 20)[0], "the other signer's socket is not at its path any more")


@test(seconds=3)
def another_signer_at_its_path(t):
    """A signer whose socket was removed leaves a later signer's socket at the same path when it ends, and one whose socket was moved a link to it."""
    it = Authority(t)
    earlier = started(t, it.key)
    (t.room / "ca.sign").unlink()
    later = started(t, it.key)
    t.same(ended(earlier), (0, []), "the earlier one")
    t.true(signature(t.room / "ca.sign", b"a message") != b"", "the later signer gives no signature")
    (t.room / "ca.sign").rename(t.room / "moved.sign")
    (t.room / "ca.sign").symlink_to("moved.sign")
    t.same((ended(later), os.readlink(t.room / "ca.sign")), ((0, []), "moved.sign"), "the later one, and the link")


@test(seconds=30)
def eight_that_start_at_one_stale_socket(t):
    """Forty times, eight signers start at one stale socket at once: one serves, and seven report that something listens."""
    it = Authority(t)
    told = b"desk-signer: something listens at %s already\n"
    for at in range(40):
        path = t.room / f"{at}.sign"
        with socket.socket(socket.AF_UNIX) as stale:
            stale.bind(str(path))
        processes = [subprocess.Popen([native.signer(), it.key, path.name], cwd=t.room, stdout=subprocess.PIPE, stderr=subprocess.PIPE) for _ in range(8)]
        for process in processes:
            t.callback(authority.end, process)
        serving = [process for process in processes if process.stdout.readline()]
        t.same(len(serving), 1, f"{at}: how many serve")
        others = [process.communicate(timeout=program.LONGEST) + (process.returncode,) for process in processes if process not in serving]
        t.same(others, [(b"", told % path.name.encode(), 1)] * 7, f"{at}: the others")
        t.true(signature(path, b"a message") != b"", f"{at}: the one that serves gives no signature")
        t.same((ended(serving[0])[0], path.exists()), (0, False), f"{at}: status, and whether its socket stays")
        serving[0].stdout.close()


# Loaded before the signer (LD_PRELOAD), this has listen(2) wait until the file `goes-on` exists.
SLOW_LISTEN = """
#define _GNU_SOURCE
#include <dlfcn.h>
#include <sys/socket.h>
#include <unistd.h>

int listen(int socket, int most) {
    int (*real)(int, int) = dlsym(RTLD_NEXT, "listen");
    for (int at = 0; at < 6000 && access("goes-on", F_OK) != 0; at++)
        usleep(10000);
    return real(socket, most);
}
"""


@test(seconds=2)
def a_signer_has_the_folder_locked_until_it_listens(t):
    """Between bind(2) and listen(2) its socket refuses connections, as a stale one does."""
    it = Authority(t)
    words = [native.signer(), it.key, "ca.sign"]
    start = lambda *before: subprocess.Popen([*before, *words], cwd=t.room, stdout=subprocess.PIPE, stderr=subprocess.PIPE)
    first = start(*preloaded(t, "slow_listen", SLOW_LISTEN))
    t.callback(authority.end, first)
    authority.until(lambda: (t.room / "ca.sign").exists(), "the first signer's socket")
    made = (t.room / "ca.sign").stat().st_ino
    second = start()
    t.callback(authority.end, second)
    t.callback((t.room / "goes-on").touch)
    # The second signer would replace the socket in this time if it had the lock.
    time.sleep(0.5)
    t.same(((t.room / "ca.sign").stat().st_ino, second.poll()), (made, None), "the socket's inode number, and the status of the second signer")
    (t.room / "goes-on").touch()
    t.same(first.stdout.readline(), b"ecdsa-sha256 at ca.sign\n", "the first signer's line")
    told = (*second.communicate(timeout=program.LONGEST), second.returncode)
    t.same(told, (b"", b"desk-signer: something listens at ca.sign already\n", 1), "the end of the second one")
    t.true(signature(t.room / "ca.sign", b"a message") != b"", "the first signer gives no signature")
    first.stdout.close()


@test(seconds=6)
def a_folder_that_stays_locked(t):
    """While another program has the folder's lock, the signer waits, and takes hardly any processor time."""
    it = Authority(t)
    folder = os.open(t.room, os.O_RDONLY)
    fcntl.flock(folder, fcntl.LOCK_EX)
    process = subprocess.Popen([native.signer(), it.key, "ca.sign"], cwd=t.room, stdout=subprocess.PIPE, stderr=subprocess.PIPE)
    t.callback(authority.end, process)
    is_idle(t, process)
    t.same((t.room / "ca.sign").exists(), False, "whether it listens")
    os.close(folder)
    t.same(process.stdout.readline(), b"ecdsa-sha256 at ca.sign\n", "once the lock is released")
    process.stdout.close()


@test(seconds=11)
def a_folder_that_stays_locked_for_ten_seconds(t):
    """The signer gives up, and says why: otherwise a start would hang without a word."""
    it = Authority(t)
    folder = os.open(t.room, os.O_RDONLY)
    t.callback(os.close, folder)
    fcntl.flock(folder, fcntl.LOCK_EX)
    with t.ten_seconds("the end of the signer"):
        ran = t.tried(native.signer(), it.key, "ca.sign", timeout=30)
    t.same((ran.returncode, ran.stdout, ran.stderr.decode()), (1, b"", f"{NAME}ca.sign: its folder can't be locked: Resource temporarily unavailable\n"), "status and output")


@each({"P-256": ("ecdsa-sha256",), "P-384": ("ecdsa-sha384",), "P-256, each drawn for its message": ("ecdsa-sha256", "--fresh-nonces")}, seconds=6)
def no_nonce_signs_twice(t, algorithm, *words):
    """Three processes sign, with pauses of several lengths. Two signatures with the same r would reveal the key (FIPS 186-5 6.4.1)."""
    it = Authority(t, algorithm)
    started(t, *words, "--processes", 3, it.key)
    found = set()
    for at, pause in enumerate([0] * 300 + [0.001] * 40 + [0.02] * 5 + [1.2, 0]):
        time.sleep(pause)
        signed = signature(t.room / "ca.sign", b"%d" % at)
        found.add(values_of(values_of(signed)[0][1])[0][1])
        if at % 20 == 0 or pause >= 0.02:
            verifies(t, it, b"%d" % at, signed)
    t.same(len(found), 347, "different values of r")


# Loaded before the signer (LD_PRELOAD), this appends k^-1 of each nonce that is drawn ahead to the file DRAWN.
DRAWN = """
#define _GNU_SOURCE
#include <dlfcn.h>
#include <stdio.h>
#include <stdlib.h>
#include <openssl/ec.h>

int ECDSA_sign_setup(EC_KEY *key, BN_CTX *context, BIGNUM **inverse, BIGNUM **r) {
    int (*real)(EC_KEY *, BN_CTX *, BIGNUM **, BIGNUM **) = dlsym(RTLD_NEXT, "ECDSA_sign_setup");
    int is_drawn = real(key, context, inverse, r);
    FILE *drawn = fopen(getenv("DRAWN"), "a");
    BN_print_fp(drawn, *inverse);
    fputc(' ', drawn);
    fclose(drawn);
    return is_drawn;
}
"""


@test(seconds=4)
def a_nonce_is_in_its_memory_for_a_second_at_most(t):
    """A nonce that was drawn ahead is in the signer's memory before it signs, with the r that its signature then shows. The signer erases all of them after a
    second without a client."""
    it = Authority(t)
    process = started(t, it.key, before=preloaded(t, "drawn", DRAWN, f"DRAWN={t.room / 'drawn'}"))

    def is_drawn_ahead(pause):
        """Whether the memory has the nonce of the next signature, so long after the one before."""
        t.true(signature(t.room / "ca.sign", b"a message") != b"", "it gives no signature")
        time.sleep(pause)
        memory = memory_of(process)
        r = values_of(values_of(signature(t.room / "ca.sign", b"another"))[0][1])[0][1]
        return any(int.from_bytes(r, "big").to_bytes(32, "little") in part for part in memory)

    authority.until(lambda: is_drawn_ahead(0.2), "a signature with a nonce that was drawn ahead")
    kept = lambda drawn: [it for it in drawn if any(int(it, 16).to_bytes(32, "little") in part for part in memory_of(process))]
    drawn = lambda: (t.room / "drawn").read_text().split()[-8:]

    def are_kept():
        t.true(signature(t.room / "ca.sign", b"a message") != b"", "it gives no signature")
        time.sleep(0.2)
        return len(kept(drawn())) > 5

    authority.until(are_kept, "several nonces in its memory")
    time.sleep(2.5)
    t.same(kept(drawn()), [], "the nonces in its memory after a pause")


@test(seconds=5)
def it_uses_no_processor_time_once_its_nonces_are_forgotten(t):
    """A second after its last signature, the signer forgets the nonces that it drew ahead. A client is connected, and sends nothing."""
    it = Authority(t)
    process = started(t, it.key)
    t.true(signature(t.room / "ca.sign", b"a message") != b"", "it gives no signature")
    t.enter_context(connected(t.room / "ca.sign"))
    time.sleep(1.5)
    is_idle(t, process)


def is_idle(t, process):
    """Checks that a process and its children take less than a tenth of a processor's time while nothing happens."""
    numbers = (process.pid, *native.children(process))
    ticks = lambda: sum(sum(map(int, Path(f"/proc/{it}/stat").read_text().rsplit(") ", 1)[1].split()[11:13])) for it in numbers)
    before = ticks()
    time.sleep(2)
    t.true(ticks() - before < 20, f"{ticks() - before} clock ticks in two seconds")


@test(seconds=4)
def it_uses_no_processor_time_while_256_clients_wait_for_their_turn(t):
    """The signer gives one signature a second. Further clients wait until it can accept them."""
    it = Authority(t)
    process = started(t, "--rate", 1, it.key)
    for _ in range(262):
        client = t.enter_context(connected(t.room / "ca.sign"))
        client.sendall(b"a message")
        client.shutdown(socket.SHUT_WR)
    is_idle(t, process)


@test(seconds=3)
def its_standard_streams(t):
    """If the standard streams are closed from the start, no client gets a warning as its signature. If their reader ends, the signer goes on. It
    prints one line, also with several processes."""
    it = Authority(t)
    message = answer_by_hand(filter_module().issuer_of(it.pem))
    words = [native.signer(), "--only-ours", it.pem, it.key]
    for closed in ("<&- >&- 2>&-", ">&- 2>&-", "2>&-"):
        process = authority.started(t, ["bash", "-c", f'exec "$@" {closed}', "-", *words, "closed.sign"], t.room / "closed.sign")
        t.same(signature(t.room / "closed.sign", b"hello"), b"", f"{closed}: the reply to a message that is refused")
        verifies(t, it, message, signature(t.room / "closed.sign", message))
        process.terminate()
        t.same(process.wait(program.LONGEST), 0, f"{closed}: status")
    process = started(t, *words[1:])
    process.stderr.close()
    t.same(signature(t.room / "ca.sign", b"hello"), b"", "the reply to a message that is refused, while nobody reads standard error")
    verifies(t, it, message, signature(t.room / "ca.sign", message))
    with open(t.room / "told", "wb") as told:
        process = subprocess.Popen([*words, "--processes", "3", "told.sign"], cwd=t.room, stdin=subprocess.DEVNULL, stdout=told, stderr=subprocess.PIPE)
    t.callback(authority.end, process)
    authority.until(lambda: (t.room / "told").read_bytes(), "its line on standard output")
    verifies(t, it, message, signature(t.room / "told.sign", message))
    t.same(ended(process), (0, []), "its status and standard error")
    t.same((t.room / "told").read_bytes(), b"ecdsa-sha256 at told.sign\n", "standard output of three processes")


@test(seconds=2)
def each_line_on_standard_error_is_one_write(t):
    """Otherwise lines of several processes could be mixed. In this test each write is a datagram."""
    it = Authority(t)
    reads, writes = socket.socketpair(socket.AF_UNIX, socket.SOCK_DGRAM)
    with reads, writes:
        words = [native.signer(), "--only-ours", it.pem, it.key, "ca.sign"]
        process = subprocess.Popen(words, cwd=t.room, stdin=subprocess.DEVNULL, stdout=subprocess.PIPE, stderr=writes)
        t.callback(authority.end, process)
        with process.stdout:
            process.stdout.readline()
        t.same(signature(t.room / "ca.sign", b"hello"), b"", "the reply to a message that is refused")
        reads.settimeout(program.LONGEST)
        t.same(reads.recv(65_536), f"{NAME}refused to sign 5 bytes: no value with the right tag at octet 0\n".encode())


@test(seconds=4)
def what_it_was_started_with(t):
    """The signer ignores the end of a child that it has from before exec(3). It ends by SIGTERM, which was blocked at its start."""
    it = Authority(t)
    before = [sys.executable, "-c", "import os, signal, subprocess, sys; subprocess.Popen(['sleep', '0.5']); "
              "signal.pthread_sigmask(signal.SIG_BLOCK, [signal.SIGTERM]); os.execv(sys.argv[1], sys.argv[1:])"]
    process = started(t, "--processes", 2, it.key, before=before)
    time.sleep(1)
    t.true(signature(t.room / "ca.sign", b"a message") != b"", "it gives no signature after the end of the child")
    t.same(ended(process), (0, []), "ended by SIGTERM")


# Loaded before the signer, this has it get SIGTERM when it is about to sleep after its first answer, if STOP is "sleep"; else when it lets signals
# through for a moment because a client has come, with SIGCHLD right after SIGTERM.
STOP = """
#define _GNU_SOURCE
#include <dlfcn.h>
#include <poll.h>
#include <signal.h>
#include <stdbool.h>
#include <stdlib.h>
#include <string.h>
#include <sys/socket.h>

static bool has_answered;

static bool stops_asleep(void) {
    return strcmp(getenv("STOP"), "sleep") == 0;
}

ssize_t send(int to, const void *octets, size_t length, int flags) {
    ssize_t (*real)(int, const void *, size_t, int) = dlsym(RTLD_NEXT, "send");
    has_answered = true;
    return real(to, octets, length, flags);
}

int ppoll(struct pollfd *polled, nfds_t count, const struct timespec *timeout, const sigset_t *signals) {
    int (*real)(struct pollfd *, nfds_t, const struct timespec *, const sigset_t *) = dlsym(RTLD_NEXT, "ppoll");
    if (stops_asleep() && has_answered && (timeout->tv_sec || timeout->tv_nsec))
        raise(SIGTERM);
    return real(polled, count, timeout, signals);
}

int sigprocmask(int how, const sigset_t *signals, sigset_t *before) {
    int (*real)(int, const sigset_t *, sigset_t *) = dlsym(RTLD_NEXT, "sigprocmask");
    int result = real(how, signals, before);
    if (!stops_asleep() && how == SIG_SETMASK && !sigismember(signals, SIGTERM)) {
        raise(SIGTERM);
        raise(SIGCHLD);
    }
    return result;
}
"""


@each({"as it goes to sleep": "sleep", "beside the end of a child": "child"}, seconds=2)
def sigterm_at_any_moment_ends_it(t, when):
    it = Authority(t)
    process = started(t, "--fresh-nonces", it.key, before=preloaded(t, "stop", STOP, f"STOP={when}"))
    with t.at_once("its end"):
        signature(t.room / "ca.sign", b"a message")
        t.same((process.wait(20), process.stderr.read()), (0, b""), "its status and standard error")


@test(seconds=2)
def it_notices_the_end_of_its_process_beside_that_of_another_child(t):
    """A child from before exec(3) and a process of the signer end while the signer is stopped, so that it gets one SIGCHLD for both."""
    it = Authority(t)
    before = [sys.executable, "-c", "import os, subprocess, sys; subprocess.Popen(['sleep', '60']); os.execv(sys.argv[1], sys.argv[1:])"]
    process = started(t, "--processes", 2, it.key, before=before)
    others = native.children(process)
    t.same(len(others), 2, "its children")
    program.hold(process)
    for other in others:
        os.kill(other, signal.SIGKILL)
    authority.until(lambda: not any(map(native.is_there, others)), "the end of both")
    process.send_signal(signal.SIGCONT)
    t.same((process.wait(program.LONGEST), process.stderr.read()), (1, b"desk-signer: another process ended\n"), "status and standard error")


@test(seconds=3)
def a_socket_that_is_handed_over(t):
    """The test hands the socket over as systemd does: as descriptor 3, with LISTEN_FDS and LISTEN_PID in the environment."""
    it = Authority(t)
    message = answer_by_hand(filter_module().issuer_of(it.pem))
    words = [str(native.signer()), "--only-ours", str(it.pem), str(it.key), "--inherited"]
    with socket.socket(socket.AF_UNIX) as listener:
        listener.bind(str(t.room / "handed.sign"))
        listener.listen(8)
        process = handed(words, listener)
        t.callback(authority.end, process)
        verifies(t, it, message, signature(t.room / "handed.sign", message))
        t.same(signature(t.room / "handed.sign", b"hello"), b"", "the reply to a text, which is refused")
        # Otherwise a process would wait in accept(2), where no signal ends it, for a client that another process has accepted.
        t.same(os.get_blocking(listener.fileno()), False, "whether its socket blocks")
    t.same(ended(process)[0], 0, "ended by SIGTERM")
    t.true((t.room / "handed.sign").exists(), "it has removed the socket, which is not its own")
    ran = t.tried(*words)
    t.same((ran.returncode, b"no socket was handed over" in ran.stderr), (1, True), "without a socket")
    with socket.socketpair()[0] as connection:
        process = handed(words, connection)
        told = process.communicate(timeout=program.LONGEST)[1]
        t.same((process.returncode, b"no socket that listens was handed over" in told), (1, True), "with a connection, as by Accept=yes")
    with socket.socket(socket.AF_UNIX) as listener:
        listener.bind(str(t.room / "other.sign"))
        listener.listen(8)
        for told in ("LISTEN_PID=1 LISTEN_FDS=1", "LISTEN_PID=$$ LISTEN_FDS=2"):
            ran = t.tried("bash", "-c", f'exec 3<&"$0"; export {told}; exec "$@"', listener.fileno(), *words, pass_fds=[listener.fileno()])
            t.same((ran.returncode, b"no socket was handed over" in ran.stderr), (1, True), told)


# How it is confined


def status_of(number):
    return dict(line.split(":", 1) for line in Path(f"/proc/{number}/status").read_text().splitlines())


@test(seconds=3)
def its_memory_is_locked_and_never_dumped(t):
    """With `--allow-swap`, too: the option is for a machine where it can't be locked."""
    it = Authority(t)
    # The shell allows core dumps, if the limits of the test permit it.
    dumps = ["bash", "-c", 'ulimit -c unlimited 2> /dev/null; exec "$@"', "-"]
    process, lenient = started(t, "--processes", 2, it.key, before=dumps), started(t, "--allow-swap", it.key, path="other.sign", before=dumps)
    for number in (process.pid, *native.children(process), lenient.pid):
        status = {name: int(status_of(number)[name].split()[0]) for name in ("VmLck", "VmSize", "VmSwap")}
        t.true(status["VmLck"] > 0.9 * status["VmSize"] > 0 and status["VmSwap"] == 0, f"its memory is not locked, or is swapped: {status}")
        core = next(line.split() for line in Path(f"/proc/{number}/limits").read_text().splitlines() if line.startswith("Max core"))
        t.same(core[4:6], ["0", "0"], "the limits of a core dump")
        if os.geteuid():
            t.same(Path(f"/proc/{number}/mem").stat().st_uid, 0, "the owner of /proc/NUMBER/mem, which is root if dumps are forbidden (proc(5))")


@test(seconds=2)
def its_memory_is_locked_before_it_reads_the_passphrase(t):
    """The passphrase comes through a pipe, for which the signer waits."""
    it, pipe, writers = Authority(t), t.room / "passphrase", []
    os.mkfifo(pipe)
    words = [native.signer(), "--passphrase-file", pipe, it.key, "ca.sign"]
    process = subprocess.Popen(words, cwd=t.room, stdout=subprocess.DEVNULL, stderr=subprocess.DEVNULL)
    t.callback(authority.end, process)

    def is_opened():
        try:
            writers.append(os.open(pipe, os.O_WRONLY | os.O_NONBLOCK))
        except OSError:
            pass
        return writers

    authority.until(is_opened, "the signer to open the pipe")
    t.true(int(status_of(process.pid)["VmLck"].split()[0]) > 0, "its memory is not locked")
    os.close(writers[0])


@test(seconds=2)
def it_is_built_for_an_attacker(t):
    """The program that holds the key is loaded anywhere in memory, its tables of functions can't be written, its stack is no code and has canaries, and
    the C library checks the sizes of what it writes."""
    need("readelf")
    told = t.tool("readelf", "--wide", "--file-header", "--program-headers", "--dynamic", "--dyn-syms", native.signer()).decode()
    for part in ("Type:                              DYN", "GNU_RELRO", "BIND_NOW", "PIE", "__stack_chk_fail", "__snprintf_chk"):
        t.has(told, part, "readelf's output")
    t.true(re.search(r"GNU_STACK .* RW  ", told), "the stack can be executed")


@test(seconds=2)
def its_key_file_does_not_stay_in_its_memory(t):
    it = Authority(t)
    process = started(t, it.key)
    t.same(occurrences(process, it.key.read_bytes().splitlines()[1]), 0, "a line of the file")


@test(seconds=3)
def another_user(t):
    """With --user the signer reads its key as root. Then all its processes run as the other user, who owns the socket."""
    if os.geteuid():
        raise Skipped("only root can start a signer that becomes another user")
    it = Authority(t)
    t.room.chmod(0o755)
    it.key.chmod(0o400)
    process = started(t, "--user", "nobody", "--processes", 2, it.key)
    path = t.room / "ca.sign"
    verifies(t, it, b"a message", signature(path, b"a message"))
    nobody, group = path.stat().st_uid, pwd.getpwnam("nobody").pw_gid
    t.same((nobody != 0, path.stat().st_mode & 0o777), (True, 0o600), "the socket's owner and mode")
    for number in (process.pid, *native.children(process)):
        status = status_of(number)
        t.same((set(status["Uid"].split()), set(status["Gid"].split())), ({str(nobody)}, {str(group)}), "its user and its group")
        t.same(sorted(map(int, status["Groups"].split())), sorted(os.getgrouplist("nobody", group)), "its further groups")
        t.same((int(status["CapEff"], 16), int(status["CapPrm"], 16)), (0, 0), "its capabilities")
        t.same(Path(f"/proc/{number}/mem").stat().st_uid, 0, "the owner of /proc/NUMBER/mem, which is root if dumps are forbidden (proc(5))")
        t.true(int(status["VmLck"].split()[0]) > 0, "its memory is not locked")
    t.same(status_of(process.pid)["Uid"].split()[0], str(nobody))
    others = native.children(process)
    process.kill()
    authority.until(lambda: not any(map(native.is_there, others)), "the end of the others after the first one is killed")
    ran = t.tried(native.signer(), "--user", "no-such-user", it.key, "other.sign")
    t.same((ran.returncode, ran.stderr, (t.room / "other.sign").exists()), (1, b"desk-signer: no user no-such-user\n", False), "a name that no user has")


# Loaded before the signer (LD_PRELOAD), this has setuid(2) allow core dumps.
ALLOWS = """
#define _GNU_SOURCE
#include <dlfcn.h>
#include <sys/prctl.h>
#include <unistd.h>

int setuid(uid_t user) {
    int (*real)(uid_t) = dlsym(RTLD_NEXT, "setuid"), status = real(user);
    prctl(PR_SET_DUMPABLE, 1);
    return status;
}
"""


@test(seconds=2)
def another_user_on_a_machine_whose_setuid_allows_dumps(t):
    """So does setuid(2) if fs.suid_dumpable is 1 (proc(5)). The signer forbids dumps again, also in its other processes."""
    if os.geteuid():
        raise Skipped("only root can start a signer that becomes another user")
    it = Authority(t)
    t.room.chmod(0o755)
    process = started(t, "--user", "nobody", "--processes", 2, it.key, before=preloaded(t, "allows", ALLOWS))
    for number in (process.pid, *native.children(process)):
        t.true(status_of(number)["Uid"].split()[0] != "0", "it is root")
        t.same(Path(f"/proc/{number}/mem").stat().st_uid, 0, "the owner of /proc/NUMBER/mem, which is root if dumps are forbidden (proc(5))")


@test(seconds=3)
def memory_that_can_t_be_locked(t):
    need("setpriv")
    it = Authority(t)
    t.room.chmod(0o777)
    it.key.chmod(0o444)
    copy = shutil.copy(native.signer(), t.room / "desk-signer")
    as_nobody = ["setpriv", "--reuid", "65534", "--regid", "65534", "--clear-groups", "--inh-caps=-all", "--bounding-set=-all"] if os.geteuid() == 0 else []
    limited = ["bash", "-c", 'ulimit -l 64; exec "$@"', "-", *as_nobody, copy]
    ran = t.tried(*limited, it.key, "ca.sign")
    t.same((ran.returncode, (t.room / "ca.sign").exists()), (1, False), "status, whether it listens")
    t.has(ran.stderr, b"desk-signer: the memory can't be locked (LimitMEMLOCK= in systemd, ulimit -l; or --allow-swap): Cannot allocate memory")
    authority.started(t, [*limited, "--allow-swap", it.key, "ca.sign"], t.room / "ca.sign")
    t.true(signature(t.room / "ca.sign", b"a message") != b"", "with --allow-swap it gives no signature")
    # The signer may raise this limit itself. Only a test with enough rights can set it so.
    if subprocess.run(["bash", "-c", "ulimit -H -l unlimited"], capture_output=True).returncode == 0:
        raised = ["bash", "-c", 'ulimit -H -l unlimited; ulimit -S -l 64; exec "$@"', "-", *as_nobody, copy]
        authority.started(t, [*raised, it.key, "raised.sign"], t.room / "raised.sign")
    # Each process may raise its limit up to the hard one.
    partly = ["bash", "-c", 'ulimit -H -l 8192; ulimit -S -l 64; exec "$@"', "-", *as_nobody, copy]
    authority.started(t, [*partly, it.key, "partly.sign"], t.room / "partly.sign")
    # The limit of systemd and of Debian's kernel.
    usual = ["bash", "-c", 'ulimit -l 8192; exec "$@"', "-", *as_nobody, copy]
    authority.started(t, [*usual, "--only-ours", it.pem, it.key, "usual.sign"], t.room / "usual.sign")
    # A long message is no secret. The 16 MiB of memory that it takes are not locked.
    authority.started(t, [*usual, it.key, "long.sign"], t.room / "long.sign")
    t.true(signature(t.room / "long.sign", bytes(5 << 20)) != b"", "a message of 5 MiB gets no signature")


# Tokens


@each({"P-256": ("ecdsa-sha256", 1), "P-384": ("ecdsa-sha384", 1), "RSA": ("rsa-sha256", 1), "P-256 in three processes": ("ecdsa-sha256", 3)}, seconds=5)
def a_key_in_a_token(t, algorithm, count):
    """The signer uses libp11's engine and SoftHSM, and reads the token's PIN from a file."""
    need("softhsm2-util")
    module = next((it for it in map(Path, ("/usr/lib/softhsm/libsofthsm2.so", "/usr/lib64/softhsm/libsofthsm2.so")) if it.exists()), None)
    if not module:
        raise Skipped("no libsofthsm2.so here: apt install softhsm2")
    it, other = Authority(t, algorithm), Authority(t, algorithm, name="other")
    (t.room / "tokens").mkdir()
    (t.room / "softhsm2.conf").write_text(f"directories.tokendir = {t.room}/tokens\nlog.level = ERROR\n")
    (t.room / "pin").write_text("4711\n")
    (t.room / "wrong").write_text("4712\n")
    token = {**os.environ, "SOFTHSM2_CONF": str(t.room / "softhsm2.conf"), "PKCS11_MODULE_PATH": str(module)}
    t.tool("softhsm2-util", "--init-token", "--free", "--label", "ca", "--pin", "4711", "--so-pin", "47114711", env=token)
    t.tool("openssl", "pkcs8", "-topk8", "-nocrypt", "-in", it.key, "-out", "p8")
    t.tool("softhsm2-util", "--import", "p8", "--token", "ca", "--pin", "4711", "--label", "key", "--id", "01", env=token)
    named, key = (str(native.signer()), "--passphrase-file", "pin"), "pkcs11:token=ca;object=key"
    ran = t.tried(*named, key, env=token)
    if b"no engine pkcs11" in ran.stderr:
        raise Skipped("no engine pkcs11 of OpenSSL here: apt install libengine-pkcs11-openssl")
    t.same((ran.returncode, ran.stdout), (0, f"{algorithm}\n".encode()), f"status and output; standard error is {ran.stderr!r}")
    t.same(t.tool(named[0], f"{key}?pin-value=4711", env=token), f"{algorithm}\n".encode(), "with the PIN in the URI (RFC 7512 2.4)")
    for words, told in (((*named, "pkcs11:token=ca;object=none"), b"the token gives no such key"), ((named[0], "--passphrase-file", "wrong", key), b"the token gives no such key"),
                        ((*named, "--only-ours", other.pem, key), b"it is the certificate of another key")):
        ran = t.tried(*words, "ca.sign", env=token)
        t.same((ran.returncode, (t.room / "ca.sign").exists()), (1, False), f"{words}: status, whether it listens")
        t.has(ran.stderr, told)
    before = ["env", f"SOFTHSM2_CONF={token['SOFTHSM2_CONF']}", f"PKCS11_MODULE_PATH={module}"]
    process = started(t, *named[1:], "--processes", count, "--only-ours", it.pem, key, before=before)
    message = answer_by_hand(filter_module().issuer_of(it.pem))
    for _ in range(9):
        verifies(t, it, message, signature(t.room / "ca.sign", message))
    t.same(signature(t.room / "ca.sign", b"hello"), b"", "the reply to a text, which is refused")
    t.same(occurrences(process, b"4711\n"), 0, "the PIN's line in its memory")
    t.same(ended(process)[0], 0, "ended by SIGTERM")
    if os.geteuid() == 0:
        ran = t.tried(*named, "--user", "nobody", key, "ca.sign", env=token)
        t.same((ran.returncode, b"libcrypto gives no signature" in ran.stderr), (1, True), "for a user who can't read the token's files: status, standard error")
    process = started(t, *named[1:], "--processes", count, key, path="away.sign", before=before)
    (t.room / "tokens").rename(t.room / "away")
    t.same((signature(t.room / "away.sign", b"a message"), process.wait(program.LONGEST)), (b"", 1), "without the token: signature, status")
    (t.room / "away").rename(t.room / "tokens")
    process = started(t, *named[1:], "--persistent", "--processes", count, key, path="away.sign", before=before)
    client = t.enter_context(connected(t.room / "away.sign"))
    for message in (b"a message", b"another"):
        verifies(t, it, message, asked(client, message))
    (t.room / "tokens").rename(t.room / "away")
    told = asked(client, b"a message"), answer(client), process.wait(program.LONGEST)
    t.same(told, (b"", None, 1), "without the token on a persistent connection: answers, status")


# The desk's signatures


@each(ALGORITHMS, seconds=8)
def what_the_desk_has_signed_is_signed(t, algorithm):
    """openssl verifies the desk's CRLs and OCSP answers. signer/only_ours.c and examples/only_ours.py accept all that the desk has signed."""
    it = Authority(t, algorithm)
    started(t, "--only-ours", it.pem, "--processes", 2, it.key)
    it.register()
    begun = authority.now()
    t.same(t.done("script", "ca.db", *it.signing(), given=authority.first_day(begun)).splitlines(), authority.first_day_replies(begun))
    it.verifies(t.done("crl", "ca.db").encode("latin-1"))
    desk = t.open("ca.db", *it.signing())
    for serial, told in (("05", "revoked"), ("06", "good"), ("07", "unknown")):
        t.same(it.asked_by_openssl(serial, f"http://127.0.0.1:{desk.port}/ocsp", verify=True), told, serial)
    desk.end()
    t.same(t.tool(sys.executable, EXAMPLES / "check-signer.py", it.pem, *it.signing()), b"", "the test message")
    it.name = "asked"
    messages = to_be_signed(t, it)
    dice = random.Random(61)
    count = compared(t, [*messages, *(changed(message, dice) for message in messages for _ in range(300))], it)
    t.same([signature(t.room / "ca.sign", message) != b"" for message in messages], [True] * 6, f"whether it signs each message ({count} accepted)")


@test(seconds=8)
def a_desk_with_another_key_gets_no_signature(t):
    """The desk replies F3, as with signer.py."""
    it, other = Authority(t), Authority(t, name="other", subject="/CN=Other")
    started(t, "--only-ours", it.pem, it.key)
    other.register("other.db")
    t.same(t.done("script", "other.db", *it.signing(), "--clock", given="crl\n"), "F3 signer\n", "a CRL of another issuer")


@test(seconds=13)
def a_client_may_connect_long_before_its_first_message(t):
    """With --persistent, a connection without any octet has no time limit. Its first message may then have either form."""
    it = Authority(t)
    process = started(t, "--persistent", it.key)
    kept, single = persistent(t), persistent(t)
    time.sleep(12)
    verifies(t, it, b"a message", asked(kept, b"a message"))
    single.sendall(b"a message")
    single.shutdown(socket.SHUT_WR)
    verifies(t, it, b"a message", announced(t, program.read_all(single)))
    persistent(t).close()
    t.same(ended(process)[1], [], "standard error")


@test(seconds=2)
def clients_that_only_connect_are_spread_over_the_processes(t):
    """32 clients connect, and send nothing before all have connected. Then each process has half of them."""
    it = Authority(t)
    process = started(t, "--persistent", "--processes", 2, it.key)
    clients = [persistent(t) for _ in range(32)]
    for client in clients:
        verifies(t, it, b"a message", asked(client, b"a message"))
    numbers = (process.pid, *native.children(process))
    # Each process has the listener too.
    counts = [sum(os.readlink(it).startswith("socket:") for it in Path(f"/proc/{number}/fd").iterdir()) - 1 for number in numbers]
    t.true(max(counts) - min(counts) <= 2, f"connections of each process: {counts}")


@test(seconds=2)
def crls_with_numbers_of_any_form(t):
    """In DER, the CRL numbers 128 to 255 and 32,768 to 65,535 have a first octet 0."""
    it = Authority(t)
    issuer = filter_module().issuer_of(it.pem)
    started(t, "--only-ours", it.pem, it.key)
    for number in (b"\1", b"\x7F", b"\0\x80", b"\0\xFF", b"\1\0", b"\0\x80\0", b"\0\xFF\xFF"):
        message = crl_by_hand(issuer, number=number)
        verifies(t, it, message, signature(t.room / "ca.sign", message), f"CRL {number.hex()}")


@test(seconds=2)
def a_process_that_can_not_serve_is_noticed_at_the_start(t):
    """Without privileges, no process can become a user. The first one starts the second, which fails, before it needs the privileges itself."""
    need("setpriv")
    it = Authority(t)
    t.room.chmod(0o777)
    it.key.chmod(0o444)
    copy = shutil.copy(native.signer(), t.room / "desk-signer")
    as_nobody = ("setpriv", "--reuid", "65534", "--regid", "65534", "--clear-groups", "--inh-caps=-all", "--bounding-set=-all")
    ran = t.tried(*(as_nobody if os.geteuid() == 0 else ()), copy, "--user", "nobody", "--processes", 2, "--allow-swap", it.key, "ca.sign")
    told = b"desk-signer: can't become nobody: Operation not permitted\ndesk-signer: another process doesn't start\n"
    t.same((ran.returncode, ran.stdout, ran.stderr), (1, b"", told), "status, output, standard error")
    t.same((t.room / "ca.sign").exists(), False, "whether there is a socket")


@test(seconds=4)
def a_desk_is_idle_once_its_answers_are_signed(t):
    """The signatures come within the fraction of a millisecond in which the desk polls for them without waiting."""
    it = Authority(t)
    it.register()
    started(t, "--persistent", it.key)
    desk = t.open("ca.db", *it.signing())
    for _ in range(20):
        authority.body_of(t, desk.ask("GET", authority.path_of(it.asks("06"))))
    is_idle(t, desk.process)
