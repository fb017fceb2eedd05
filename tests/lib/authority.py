"""A certification authority that openssl makes: its key, its certificate, its signer, and what openssl says about the program's answers.
Also the few parts of DER (X.690) that tests compare byte for byte."""

import base64
import contextlib
import datetime
import os
import re
import signal
import socket
import subprocess
import tempfile
import threading
import time
import urllib.parse
from pathlib import Path

from . import program
from .program import TOP, moment_of
from .trial import Failed, Skipped

EXAMPLES = TOP / "examples"
DAY = 86400
# The arguments of `openssl req -newkey` for a key of each algorithm.
KEYS = {
    "ecdsa-sha256": ("ec", "-pkeyopt", "ec_paramgen_curve:P-256"),
    "ecdsa-sha384": ("ec", "-pkeyopt", "ec_paramgen_curve:P-384"),
    "rsa-sha256": ("rsa:2048",),
    "ed25519": ("ed25519",),
}
# The AlgorithmIdentifier of each: RFC 5758 3.2, RFC 4055 5 (its parameters are NULL), RFC 8410 3.
IDENTIFIERS = {
    "ecdsa-sha256": "300A06082A8648CE3D040302",
    "ecdsa-sha384": "300A06082A8648CE3D040303",
    "rsa-sha256": "300D06092A864886F70D01010B0500",
    "ed25519": "300506032B6570",
}
# The names of the reasons of RFC 5280 5.3.1, as openssl prints them in a CRL.
REASONS = {"Unspecified": 0, "Key Compromise": 1, "CA Compromise": 2, "Affiliation Changed": 3, "Superseded": 4, "Cessation Of Operation": 5,
           "Certificate Hold": 6, "Privilege Withdrawn": 9}
MALFORMED, INTERNAL, TRY_LATER = (bytes.fromhex(f"30030A010{it}") for it in (1, 2, 3))


# An environment with a proxy that does not exist. The scripts must not use it, since the desk is on the same machine.
NO_PROXY = {"http_proxy": "http://127.0.0.1:1"}


def now():
    """The machine's clock, in whole seconds."""
    return int(time.time())


class Authority:
    """A CA whose key is in the test's folder, as NAME.key, and whose certificate is NAME.pem."""

    def __init__(self, t, algorithm="ecdsa-sha256", name="ca", subject="/CN=T", more=()):
        self.t, self.algorithm, self.name = t, algorithm, name
        self.key, self.pem = t.room / f"{name}.key", t.room / f"{name}.pem"
        certificate(t, name, subject, KEYS[algorithm], more)

    def words(self):
        """The options --name and --key of its register, and --key-id if its key identifier is not the SHA-1 of its key."""
        return self.t.tool("sh", EXAMPLES / "issuer-words.sh", self.pem).decode().split()

    def register(self, file="ca.db", options=()):
        self.t.same(self.t.done("init", file, *self.words(), *options), "created\n")
        return self.t.room / file

    def sign(self, message, call=0):
        """A signature by openssl, for a signer at a socket."""
        if self.algorithm == "ed25519":
            with tempfile.NamedTemporaryFile(dir=self.t.room) as file:
                file.write(message)
                file.flush()
                return openssl("pkeyutl", "-sign", "-rawin", "-inkey", self.key, "-in", file.name)
        digest = "-sha384" if self.algorithm == "ecdsa-sha384" else "-sha256"
        return openssl("dgst", digest, "-sign", self.key, given=message)

    def signer(self, path="ca.sign"):
        return self.t.signer(path, self.sign)

    def signing(self, path="ca.sign"):
        """The options that name the CA's signer."""
        return ("--signer", path, "--algorithm", self.algorithm)

    def verifies(self, crl, what="the CRL"):
        told = self.t.tool("openssl", "crl", "-inform", "DER", "-noout", "-verify", "-CAfile", self.pem, given=crl)
        self.t.has(told, b"verify OK", f"{what} verifies")

    # OCSP

    def asks(self, *serials, nonce=False, more=()):
        """An OCSP request that openssl makes, for serial numbers or with options of `openssl ocsp`."""
        words = [word for it in serials for word in ((it,) if str(it).startswith("-") else ("-serial", f"0x{it}"))]
        request = self.t.room / "asked.der"
        self.t.tool("openssl", "ocsp", "-issuer", self.pem, *more, *words, *([] if nonce else ["-no_nonce"]), "-reqout", request)
        return request.read_bytes()

    def reads(self, serial, response, *words, verify=True):
        """The status that openssl reads in a response for this serial number. With verify=False it may have a placeholder digest."""
        file = self.t.room / "said.der"
        file.write_bytes(response)
        trust = ("-CAfile", self.pem) if verify else ("-noverify",)
        told = self.t.tool("openssl", "ocsp", "-issuer", self.pem, *trust, *words, "-serial", f"0x{serial}", "-no_nonce", "-respin", file).decode()
        if verify:
            self.t.has(told, "Response verify OK", f"the response for serial number {serial}")
        return status_of(told, serial)

    def asked_by_openssl(self, serial, url, *words, verify=False):
        """The status that `openssl ocsp -url` prints, which sends its request by POST and with a nonce."""
        trust = ("-CAfile", self.pem) if verify else ("-noverify",)
        told = self.t.tool("openssl", "ocsp", "-issuer", self.pem, *trust, *words, "-serial", f"0x{serial}", "-url", url).decode()
        if verify:
            self.t.has(told, "Response verify OK", f"the response for serial number {serial}")
        return status_of(told, serial)


def with_key_identifier(it, identifier):
    """Makes another certificate of a CA's key, with this subjectKeyIdentifier in openssl's syntax."""
    words = ("-key", it.key, "-out", it.pem, "-subj", "/CN=T", "-days", "3650")
    it.t.tool("openssl", "req", "-x509", *words, "-addext", f"subjectKeyIdentifier={identifier}", "-addext", "authorityKeyIdentifier=none")


def certificate(t, name, subject, key=KEYS["ecdsa-sha256"], more=()):
    """Makes a self-signed certificate and its key: NAME.pem and NAME.key."""
    words = ("-keyout", f"{name}.key", "-out", f"{name}.pem", "-subj", subject, "-days", "3650")
    t.tool("openssl", "req", "-x509", "-newkey", *key, "-nodes", *words, *more)


def openssl(*words, given=b""):
    """The output of openssl. For the thread of a signer, where `t.tool` can't fail the test."""
    return subprocess.run(["openssl", *map(str, words)], input=given, capture_output=True, check=True).stdout


def status_of(told, serial):
    found = re.search(rf"0x{serial}: (\w+)", told)
    return found[1] if found else told


def first_day(moment):
    """The lines of a day: 05 is revoked and listed on a CRL, 06 is good."""
    begins, ends = moment_of(moment), moment_of(moment + 90 * DAY)
    lines = ["subscriber acme", "order 1 398", "order 1 398", f"register 1 05 {begins} {ends}", f"register 2 06 {begins} {ends}",
             "request 05 key-compromise", "revoke 1", "crl"]
    return "".join(f"{begins} {it}\n" for it in lines)


# The replies to these lines; `due` is the deadline of request 1.
FIRST_DAY_REPLIES = ["subscriber 1", "order 1", "order 2", "registered", "registered", "request 1 due {due}", "revoked", "crl 1 entries 1"]


def first_day_replies(moment):
    return [it.format(due=moment_of(moment + DAY)) for it in FIRST_DAY_REPLIES]


# HTTP


def body_of(t, response, content="application/ocsp-response", status=200):
    """The body of a response with this status and type."""
    got, lines, body = program.parted(response)
    t.same((got, f"Content-Type: {content}" in lines), (status, True), f"status and type of {response[:300]!r}")
    return body


def path_of(request, quoted=True):
    """The path of an OCSP request by GET (RFC 6960 appendix A.1)."""
    text = base64.b64encode(request).decode()
    return "/ocsp/" + (urllib.parse.quote(text, safe="") if quoted else text)


# The output of openssl


def openssl_time(text):
    """A moment as openssl prints it, `Nov  2 10:00:00 2026 GMT`."""
    at = datetime.datetime.strptime(" ".join(text.split()), "%b %d %H:%M:%S %Y GMT")
    return int(at.replace(tzinfo=datetime.timezone.utc).timestamp())


def listed(t, crl):
    """The entries of a CRL as openssl prints them: of each serial number its moment and reason."""
    text = t.tool("openssl", "crl", "-inform", "DER", "-noout", "-text", given=crl).decode()
    entries = {}
    for part in text.split("Serial Number: ")[1:]:
        serial, date = re.match(r"([0-9A-F]+)\s+Revocation Date: (.*)", part).groups()
        reason = re.search(r"Reason Code:.*\n\s*(.*)", part)
        entries[int(serial, 16)] = (openssl_time(date), REASONS[reason[1]] if reason else 0)
    return entries


# DER


def values_of(content):
    """A sequence of DER values: of each its tag, its contents, and all its bytes."""
    found, at = [], 0
    while at < len(content):
        tag, length, head = content[at], content[at + 1], 2
        if length >= 128:
            head += length - 128
            length = int.from_bytes(content[at + 2 : at + head], "big")
        found.append((tag, content[at + head : at + head + length], content[at : at + head + length]))
        at += head + length
    return found


def inside(value, *path):
    """The value within a DER value at a path of indices, from 0 on: its tag, its contents, and all its bytes."""
    found = values_of(value)[0]
    for place in path:
        found = values_of(found[1])[place]
    return found


def cert_ids(request):
    """The CertIDs of an OCSP request (RFC 6960 4.1.1), each as its bytes."""
    # Before the list there may be a version and a name, which have other tags.
    requests = next(it for it in values_of(inside(request, 0)[1]) if it[0] == 0x30)
    return [inside(it, 0)[2] for _, _, it in values_of(requests[1])]


def basic_of(response):
    """The BasicOCSPResponse of a successful response (RFC 6960 4.2.1)."""
    return inside(response, 1, 0, 1)[1]


def answered_ids(response):
    """The CertIDs of a response, each as its bytes."""
    # tbsResponseData has the responder, producedAt, and then the list of responses.
    answers = next(it for it in values_of(inside(basic_of(response), 0)[1]) if it[0] == 0x30)
    return [inside(it, 0)[2] for _, _, it in values_of(answers[1])]


def signed_part(value):
    """The signed part, the AlgorithmIdentifier and the signature of a CRL or a BasicOCSPResponse."""
    part, algorithm, signature = values_of(values_of(value)[0][1])[:3]
    return part[2], algorithm[2], signature[1][1:]


# Signers that break the protocol


class ScriptedSigner:
    """A signer that calls `manner` for each connection, one after the other."""

    def __init__(self, path, manner):
        self.manner, self.asked = manner, 0
        self.server = socket.socket(socket.AF_UNIX)
        self.server.bind(str(path))
        self.server.listen(64)
        self.ended = threading.Event()
        self.thread = threading.Thread(target=self.serve, daemon=True)
        self.thread.start()

    def serve(self):
        while True:
            try:
                client, _ = self.server.accept()
            except OSError:
                return
            self.asked += 1
            with client, contextlib.suppress(OSError):
                self.manner(client, self)

    def __enter__(self):
        return self

    def __exit__(self, *_):
        self.ended.set()
        with contextlib.suppress(OSError):
            self.server.shutdown(socket.SHUT_RDWR)
        self.server.close()
        self.thread.join(5)


def need_cryptography(t):
    """Skips the test if Python has no `cryptography`, which examples/signer.py needs."""
    if t.tried("python3", "-c", "import cryptography").returncode:
        raise Skipped("no cryptography of python3 here: apt install python3-cryptography")


def started(t, words, made):
    """Starts another program until the test ends, and waits for the path that it creates."""
    t.note(" ".join(map(str, words)))
    process = subprocess.Popen([*map(str, words)], cwd=t.room, stdin=subprocess.DEVNULL, stdout=subprocess.DEVNULL, stderr=subprocess.PIPE)
    t.callback(end, process)
    until(lambda: made.exists() or process.poll() is not None, f"{made.name} of {words[0]}")
    if process.poll() is not None:
        raise Failed(f"{words[0]} ended: {process.stderr.read()!r}")
    return process


def unserved_behind(t, process, path, count):
    """How many of these clients get no signature, if they connect and send a message while the signer is stopped."""
    t.callback(process.send_signal, signal.SIGCONT)
    program.hold(process)
    clients = []
    for at in range(count):
        client = t.enter_context(socket.socket(socket.AF_UNIX))
        client.setblocking(False)
        t.same(client.connect_ex(str(path)), 0, f"the error of connect(2) for client {at}")
        client.settimeout(program.LONGEST)
        client.sendall(b"a message")
        client.shutdown(socket.SHUT_WR)
        clients.append(client)
    process.send_signal(signal.SIGCONT)
    return sum(not program.read_all(client) for client in clients)


def end(process):
    process.terminate()
    process.wait(program.LONGEST)
    if process.stderr:
        process.stderr.close()


def until(holds, what, seconds=60):
    """Waits until `holds` returns true, and fails after `seconds`."""
    last = time.monotonic() + seconds * program.PATIENCE
    while not holds():
        if time.monotonic() > last:
            raise Failed(f"waited in vain for {what}")
        time.sleep(0.02)


def in_memory(t):
    """A folder for a register of thousands of lines, in memory if possible: the program syncs each line, which is slow on a disk."""
    memory = "/dev/shm"
    return Path(t.enter_context(tempfile.TemporaryDirectory(prefix="desk-", dir=memory if os.access(memory, os.W_OK) else t.room)))


def stood_in(t):
    """A folder in which `./desk` is the tested program, beside the examples and whatever else the scripts of this repository need."""
    folder = t.room / "top"
    folder.mkdir()
    for it in ("examples", "docs", "packaging", "tools", "README.md"):
        (folder / it).symlink_to(TOP / it)
    (folder / "desk").symlink_to(Path(program.program()))
    return folder
