#!/usr/bin/env python3
"""Signs for `desk` with a key in a file: the signer at the other end of `--signer SOCKET --algorithm NAME`.

For each signature the desk connects to the socket, writes the bytes to be signed and shuts down its side for writing. The signer writes the
signature and closes the connection. One line of socat does the same, and starts openssl anew for each signature:

    socat -t 10 UNIX-LISTEN:ca.sign,fork,mode=600 EXEC:'openssl dgst -sha256 -sign ca.key'

This program keeps the key in memory. A key that matters belongs in hardware (examples/pkcs11-signer.sh).
Every process that can connect to the socket can have anything signed. The socket has mode 600; put it into a folder that only the desk's user
can enter. With --only-ours the program signs only CRLs and OCSP answers of the CA whose certificate is given. It refuses any other message: it
closes the connection without a signature, and standard error has the reason (examples/only_ours.py has the checks). It also checks at its start
that the key is that of the certificate, and verifies each signature with the certificate before it sends it. With --responder it has a
responder's key, and signs only that responder's answers about the CA's certificates.

With P-256 it computes nonces before the messages come, by the system's libcrypto (OpenSSL), because nearly all of a signature's work depends
only on the nonce. Some nonces are in memory at any time, and so is the key. So never copy or restore a machine together with its memory while
this program runs: one nonce could then sign two messages, which gives the key away.

With --processes N, N processes accept connections at the one socket, each with the key in its memory. The desk requests up to 32 signatures of
OCSP answers at once.

Usage: examples/signer.py [--only-ours CA.pem [--responder RESPONDER.pem]] [--processes N] KEY.pem SOCKET
       examples/signer.py [--only-ours CA.pem ..] KEY.pem --inherited  at the socket that systemd made for it (sd_listen_fds(3))
       examples/signer.py KEY.pem                                      prints the NAME of the key's algorithm, and ends

The key is one of P-256, P-384, RSA or Ed25519, in PEM and without a passphrase. Use RSA with 2,048 bits or more: the program does not check that.
It needs the package `cryptography` (Debian: python3-cryptography).
"""
import argparse
import contextlib
import ctypes
import ctypes.util
import errno
import fcntl
import hashlib
import os
import select
import signal
import socket
import stat
import sys
import time

from cryptography.exceptions import InvalidSignature
from cryptography.hazmat.primitives import hashes
from cryptography.hazmat.primitives.asymmetric import ec, ed25519, padding, rsa, utils
from cryptography.hazmat.primitives.serialization import (
    Encoding, NoEncryption, PrivateFormat, PublicFormat, load_der_public_key, load_pem_private_key,
)

# Python writes no compiled module beside the imported one.
sys.dont_write_bytecode = True
from only_ours import LONGEST, Refused, check, read_certificate  # noqa: E402

# How many seconds a client has for its message: the desk waits as long for a signature.
PATIENCE = 10
# The first descriptor that systemd hands over (sd_listen_fds(3)).
HANDED_OVER = 3
# The most nonces that a process keeps.
POOL = 8
# How many times a process polls before it sleeps, in 100 or 200 microseconds in all. A client of many signatures is back by then, and waking up
# takes as long as signing.
POLLS = 100


def libcrypto():
    """OpenSSL's library, with the calls that split an ECDSA signature into a part before and a part after the message; None if it lacks them."""
    pointer, number = ctypes.c_void_p, ctypes.c_int
    try:
        library = ctypes.CDLL(ctypes.util.find_library("crypto"))
        library.d2i_ECPrivateKey.restype, library.d2i_ECPrivateKey.argtypes = pointer, [pointer, pointer, ctypes.c_long]
        library.ECDSA_sign_setup.argtypes = [pointer] * 4
        library.ECDSA_sign_ex.argtypes = [number, ctypes.c_char_p, number] + [pointer] * 5
        library.BN_clear_free.restype, library.BN_clear_free.argtypes = None, [pointer]
        return library
    except (AttributeError, OSError):
        return None


class Ecdsa:
    """Signs by ECDSA with nonces that were computed while no client waited (k^-1, and r of kG: FIPS 186-5 6.4.1). Only libcrypto reads the
    nonces. If none is left, or none can be computed, the package signs. The digest is hashlib's: the package's takes three times as long.

    A nonce signs one message only, because two signatures with one nonce give the key away. So it leaves the list before it is used, and is
    freed afterwards even if signing fails. A forked process begins with no nonces."""

    def __init__(self, key, digest, kind):
        self.key, self.digest, self.algorithm = key, digest, ec.ECDSA(utils.Prehashed(kind))
        self.room, self.length, self.drawn = ctypes.create_string_buffer(256), ctypes.c_uint(), []
        # For P-384 OpenSSL 3.0 takes five times as long to compute a nonce as the package takes to sign.
        self.library, self.theirs = libcrypto() if key.curve.name == "secp256r1" else None, None
        if self.library:
            der = key.private_bytes(Encoding.DER, PrivateFormat.TraditionalOpenSSL, NoEncryption())
            self.theirs = self.library.d2i_ECPrivateKey(None, ctypes.byref(ctypes.c_char_p(der)), len(der))
            os.register_at_fork(after_in_child=self.drawn.clear)

    def draw(self):
        """Computes one more nonce; returns whether it did."""
        if len(self.drawn) == POOL:
            return False
        inverse, r = ctypes.c_void_p(), ctypes.c_void_p()
        if self.library.ECDSA_sign_setup(self.theirs, None, ctypes.byref(inverse), ctypes.byref(r)) != 1:
            return False
        self.drawn.append((inverse, r))
        return True

    def sign(self, message):
        digest = self.digest(message).digest()
        if not self.drawn:
            return self.key.sign(digest, self.algorithm)
        inverse, r = self.drawn.pop()
        try:
            if self.library.ECDSA_sign_ex(0, digest, len(digest), self.room, ctypes.byref(self.length), inverse, r, self.theirs) != 1:
                raise OSError("libcrypto gave no signature")
            return self.room.raw[: self.length.value]
        finally:
            self.library.BN_clear_free(inverse)
            self.library.BN_clear_free(r)


def nothing():
    """Computes nothing before a message comes."""


def signer_of(key):
    """The name of a key's algorithm, the function that signs with it, and the one that computes nonces for it."""
    if isinstance(key, ec.EllipticCurvePrivateKey):
        kinds = {"secp256r1": ("ecdsa-sha256", hashlib.sha256, hashes.SHA256()), "secp384r1": ("ecdsa-sha384", hashlib.sha384, hashes.SHA384())}
        if key.curve.name not in kinds:
            sys.exit(f"the key's curve is {key.curve.name}: only P-256 and P-384 have an algorithm here")
        name, *parts = kinds[key.curve.name]
        signer = Ecdsa(key, *parts)
        return name, signer.sign, signer.draw if signer.theirs else nothing
    if isinstance(key, rsa.RSAPrivateKey):
        kind, filling = utils.Prehashed(hashes.SHA256()), padding.PKCS1v15()
        return "rsa-sha256", lambda message: key.sign(hashlib.sha256(message).digest(), filling, kind), nothing
    if isinstance(key, ed25519.Ed25519PrivateKey):
        return "ed25519", key.sign, nothing
    sys.exit(f"no algorithm for a key of the kind {type(key).__name__}")


def verifier_of(public):
    """A function that verifies a signature of a message with a public key, or raises InvalidSignature. OpenSSL digests the message again."""
    if isinstance(public, ec.EllipticCurvePublicKey):
        how = ec.ECDSA(hashes.SHA256() if public.curve.name == "secp256r1" else hashes.SHA384())
        return lambda signature, message: public.verify(signature, message, how)
    if isinstance(public, rsa.RSAPublicKey):
        filling, kind = padding.PKCS1v15(), hashes.SHA256()
        return lambda signature, message: public.verify(signature, message, filling, kind)
    return public.verify


def guarded(sign, words, key):
    """A function that signs only for the CA of a certificate, or as its responder, and verifies each signature. Exits if `key` is not the key of the
    CA or responder."""
    issuer = read_certificate(words.only_ours)
    responder = read_certificate(words.responder, "responder") if words.responder else None
    path, theirs = words.responder or words.only_ours, load_der_public_key((responder or issuer).public)
    spelled = [it.public_bytes(Encoding.DER, PublicFormat.SubjectPublicKeyInfo) for it in (theirs, key.public_key())]
    if spelled[0] != spelled[1]:
        sys.exit(f"{path} is the certificate of another key")

    verify = verifier_of(theirs)

    def sign_ours(message):
        check(message, issuer, responder)
        signature = sign(message)
        try:
            verify(signature, message)
        except InvalidSignature as fault:
            raise Refused(f"its signature does not verify by {path}") from fault
        return signature

    return sign_ours


def soon(call, at, patience, meanwhile):
    """The result of a non-blocking call on the descriptors `at`. While the call would block, `meanwhile` runs as long as it has work. Then the call
    is polled some times more, and then the process sleeps until a descriptor is readable."""
    polls = 0
    while True:
        try:
            return call()
        except BlockingIOError:
            if meanwhile():
                continue
        polls += 1
        if polls > POLLS and not select.select(at, [], [], patience)[0]:
            raise TimeoutError("nothing came in time")


def message_of(connection):
    """The message that the client writes, up to its end; None if it is too long. TimeoutError if it is not whole in time."""
    last = time.monotonic() + PATIENCE
    parts, length = [], 0
    while part := soon(lambda: os.read(connection, 65536), [connection], max(0, last - time.monotonic()), nothing):
        parts.append(part)
        length += len(part)
        if length > LONGEST:
            return None
        if time.monotonic() > last:
            raise TimeoutError("the message was not whole in time")
    return parts[0] if len(parts) == 1 else b"".join(parts)


def report(text):
    """Writes a line on standard error, whose reader may have ended before the signer."""
    with contextlib.suppress(OSError):
        print(text, file=sys.stderr, flush=True)


def answer(connection, sign):
    """Reads one message and writes its signature, over a bare descriptor: a socket object takes as long to make as a signature. A client that
    fails loses only its own connection."""
    try:
        os.set_blocking(connection, False)
        message = message_of(connection)
        if message is not None:
            # A new socket has room for more than this.
            os.write(connection, sign(message))
    except Refused as why:
        report(f"refused to sign {len(message)} bytes: {why}")
    except OSError as error:
        report(f"a connection failed: {error}")
    finally:
        os.close(connection)


def remove_stale(path):
    """Removes a socket at which no process listens. Anything else at the path stays, and the program ends."""
    if not stat.S_ISSOCK(os.lstat(path).st_mode):
        sys.exit(f"{path} is no socket")
    with socket.socket(socket.AF_UNIX) as probe:
        probe.setblocking(False)
        fault = probe.connect_ex(path)
    # EAGAIN: the queue of a signer that is busy has no room.
    if fault in (0, errno.EAGAIN):
        sys.exit(f"something listens at {path} already")
    if fault != errno.ECONNREFUSED:
        sys.exit(f"{path}: {os.strerror(fault)}")
    os.remove(path)


def listen(path):
    """Listens at a path where no process listens, for its owner only. It locks the folder meanwhile, so that of several signers only one starts."""
    listener = socket.socket(socket.AF_UNIX)
    folder = os.open(os.path.dirname(path) or ".", os.O_RDONLY | os.O_DIRECTORY)
    fcntl.flock(folder, fcntl.LOCK_EX)
    if os.path.lexists(path):
        remove_stale(path)
    mask = os.umask(0o177)
    listener.bind(path)
    os.umask(mask)
    listener.listen(128)
    os.close(folder)
    listener.setblocking(False)
    return listener


def handed_over():
    """The socket that systemd made, and listened at until a client connected."""
    if (os.environ.get("LISTEN_PID"), os.environ.get("LISTEN_FDS")) != (str(os.getpid()), "1"):
        sys.exit("no socket was handed over: --inherited is for a unit of systemd with a socket")
    listener = socket.socket(fileno=HANDED_OVER)
    listener.setblocking(False)
    return listener


def end_on_signals():
    """Makes SIGTERM and SIGINT end the process. Returns a descriptor that is readable once one of them has come: without it, select(2) would go on
    waiting for a client if the signal came just before."""
    readable, writable = os.pipe()
    os.set_blocking(writable, False)
    signal.set_wakeup_fd(writable)
    for ending in (signal.SIGTERM, signal.SIGINT):
        signal.signal(ending, lambda *_: sys.exit(0))
    return readable


def serve(listener, sign, draw):
    signalled = end_on_signals()
    while True:
        connection, _ = soon(listener._accept, [listener, signalled], None, draw)
        answer(connection, sign)


def share(count):
    """Forks until there are so many processes, which all end with the first; returns whether this is the first."""
    first = os.getpid()
    for _ in range(count - 1):
        if os.fork() == 0:
            # PR_SET_PDEATHSIG (prctl(2)). No signal comes if the first has ended already.
            ctypes.CDLL(None).prctl(1, signal.SIGTERM)
            if os.getppid() != first:
                sys.exit(0)
            return False
    return True


def read_words():
    parser = argparse.ArgumentParser(usage=__doc__.partition("Usage: ")[2].partition("\n\n")[0])
    parser.add_argument("--only-ours", metavar="CA.pem")
    parser.add_argument("--responder", metavar="RESPONDER.pem")
    parser.add_argument("--inherited", action="store_true")
    parser.add_argument("--processes", metavar="N", type=int, default=1)
    parser.add_argument("key", metavar="KEY.pem")
    parser.add_argument("socket", metavar="SOCKET", nargs="?")
    words = parser.parse_args()
    if words.socket and words.inherited:
        parser.error("give SOCKET or --inherited, not both")
    if words.responder and not words.only_ours:
        parser.error("--responder wants --only-ours")
    return words


def main():
    words = read_words()
    with open(words.key, "rb") as file:
        key = load_pem_private_key(file.read(), None)
    name, sign, draw = signer_of(key)
    if words.only_ours:
        sign = guarded(sign, words, key)
    if words.inherited:
        print(f"{name} at a socket that was handed over", flush=True)
        listener = handed_over()
        share(words.processes)
        serve(listener, sign, draw)
    if not words.socket:
        print(name)
        return
    listener = listen(words.socket)
    made = os.lstat(words.socket)
    print(f"{name} at {words.socket}", flush=True)
    is_first = share(words.processes)
    try:
        serve(listener, sign, draw)
    finally:
        # Another signer may have its socket there by now.
        if is_first and os.path.lexists(words.socket) and os.path.samestat(os.lstat(words.socket), made):
            os.remove(words.socket)


main()
