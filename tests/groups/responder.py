"""OCSP answers in two forms: signed by a responder's own key with its certificate from the CA (RFC 6960 4.2.2.2), or by the CA with the CA's
certificate in the answer. openssl, Java, GnuTLS, NSS, Go and nginx check both. Other tests expect `bad-responder`."""

import hashlib
import os
import threading
from concurrent.futures import ThreadPoolExecutor
from pathlib import Path

from lib import authority, faults, program, registers
from lib.authority import EXAMPLES, INTERNAL, KEYS, Authority, body_of, first_day, inside, path_of, values_of, with_key_identifier
from lib.documents import block
from lib.passing import Passing
from lib.registers import tlv
from lib.trial import Skipped, each, need, test
from lib.web_server import AROUND

ALGORITHMS = {it: it for it in KEYS}
DELEGATED = "extendedKeyUsage=critical,OCSPSigning\nbasicConstraints=critical,CA:FALSE\nnoCheck=ignored\n"
STATUSES = (("05", "revoked"), ("06", "good"), ("07", "unknown"))
BITS, OCTETS, IDENTIFIER, SEQUENCE, CERTIFICATES = 0x03, 0x04, 0x06, 0x30, 0xA0
# The indexes of the key and of the extensions among the fields of a TBSCertificate of version 3 (RFC 5280 4.1).
KEY, EXTENSIONS = 6, 7


class Responder:
    """A responder. NAME.key has its key; NAME.pem and NAME.der have its certificate, which the CA signed."""

    def __init__(self, it, algorithm="ecdsa-sha256", name="responder", extensions=DELEGATED, serial=0x1234):
        self.t, self.algorithm, self.name = it.t, algorithm, name
        self.key, self.pem = it.t.room / f"{name}.key", it.t.room / f"{name}.pem"
        (it.t.room / f"{name}.conf").write_text(extensions)
        it.t.tool("openssl", "req", "-new", "-newkey", *KEYS[algorithm], "-nodes", "-keyout", self.key, "-out", f"{name}.csr", "-subj", f"/CN={name}")
        it.t.tool("openssl", "x509", "-req", "-in", f"{name}.csr", "-CA", it.pem, "-CAkey", it.key, "-set_serial", serial, "-days", 30,
                  "-extfile", f"{name}.conf", "-out", self.pem)
        self.der = der_of(it.t, name)

    def sign(self, message, call=0):
        return Authority.sign(self, message, call)

    def signer(self):
        return self.t.signer(f"{self.name}.sign", self.sign)

    def words(self):
        """The options that name this responder to the program."""
        return ("--responder", f"{self.name}.der", "--responder-signer", f"{self.name}.sign", "--responder-algorithm", self.algorithm)


def der_of(t, name):
    """Converts NAME.pem to NAME.der, and returns the bytes of NAME.der."""
    t.tool("openssl", "x509", "-in", f"{name}.pem", "-outform", "DER", "-out", f"{name}.der")
    return (t.room / f"{name}.der").read_bytes()


def whole(value):
    return [it[2] for it in values_of(value)]


def rebuilt(it, der, change, sign=None):
    """A certificate signed by the CA. Its TBSCertificate has the fields of the certificate `der`, changed by `change`."""
    part, algorithm, _ = whole(inside(der)[1])
    made = tlv(SEQUENCE, *change(whole(inside(part)[1])))
    return tlv(SEQUENCE, made, algorithm, tlv(BITS, b"\0" + (sign or it.sign)(made)))


def key_hash(der):
    """The SHA-1 of the bits of a certificate's public key, by which a responder is named (RFC 6960 4.2.1)."""
    info = values_of(inside(der, 0)[1])[6]
    return hashlib.sha1(values_of(info[1])[1][1][1:]).digest()


def named_by(response):
    """The tag of the ResponderID in an answer, and the key hash in it."""
    named = values_of(inside(authority.basic_of(response), 0)[1])[0]
    return named[0], values_of(named[1])[0][1]


def certificates_in(response):
    """The tag of `certs` in an answer, and the bytes of each certificate in it; `None` if the answer has no `certs`."""
    behind = values_of(values_of(authority.basic_of(response))[0][1])[3:]
    if not behind:
        return None
    [(tag, contents, _)] = behind
    return tag, [it[2] for it in values_of(values_of(contents)[0][1])]


def a_day(t, it, *signing):
    """Creates a register in which 05 is revoked and on a CRL, and 06 is good."""
    it.register()
    t.done("script", "ca.db", *signing, given=first_day(authority.now()))


def answer(t, it, desk, serial):
    return body_of(t, desk.ask("GET", path_of(it.asks(serial))))


def bad_responder(t, words, err=b"bad-responder\n"):
    """Checks that a command ends with `bad-responder`, and creates no control socket."""
    ran = t.desk(*words)
    t.same((ran.status, ran.out, ran.err), (1, b"", err), program.shown(words))
    t.same((t.room / "control").exists(), False, "whether a control socket was created")


# A responder's key


@test(seconds=8)
def a_responder_answers_while_a_crl_is_signed(t):
    it, signs = Authority(t), threading.Event()
    t.callback(signs.set)
    responder = Responder(it)
    responder.signer()
    t.signer("day.sign", lambda message, call: it.sign(message))
    a_day(t, it, *it.signing("day.sign"))
    signer = t.signer("ca.sign", lambda message, call: (signs.wait(60), it.sign(message))[1])
    # No time passes: the ten seconds of a signature never end.
    desk = Passing(t, *it.signing(), *responder.words()).desk
    with ThreadPoolExecutor(1) as pool, t.control() as control:
        crl = pool.submit(control.ask, "crl")
        authority.until(lambda: signer.asked, "a request to the CA's signer")
        t.same(it.reads("05", answer(t, it, desk, "05")), "revoked")
        t.same(crl.done(), False, "whether the CRL is issued")
        signs.set()
        t.same(crl.result(), "crl 2 entries 1")
    it.verifies(body_of(t, desk.ask("GET", "/crl"), "application/pkix-crl"))


@each(ALGORITHMS, seconds=8)
def openssl_verifies_what_a_responder_signed(t, algorithm):
    """The CA's key signs CRLs, and the responder's key signs OCSP answers. openssl trusts only the CA, and verifies each answer by the certificate in
    it."""
    it = Authority(t)
    responder = Responder(it, algorithm)
    signer, signs = it.signer(), responder.signer()
    a_day(t, it, *it.signing())
    t.same(len(signer.asked), 1, "how often the CA's key signed")
    for command, more in (("open", ()), ("serve", ("--requests", "9"))):
        desk = t.open("ca.db", *more, *it.signing(), *responder.words(), command=command)
        url = f"http://127.0.0.1:{desk.port}/ocsp"
        for serial, told in STATUSES:
            t.same(it.asked_by_openssl(serial, url, verify=True), told, f"{command}: {serial} by POST, with a nonce")
        response = answer(t, it, desk, "05")
        t.same(it.reads("05", response), "revoked", f"{command}: by GET")
        t.same(certificates_in(response), (CERTIFICATES, [responder.der]), f"{command}: the certificate in the answer")
        t.same(named_by(response), (0xA2, key_hash(responder.der)), f"{command}: the responder's key hash")
        part, identifier, _ = authority.signed_part(authority.basic_of(response))
        t.same((identifier.hex().upper(), signs.asked[-1]), (authority.IDENTIFIERS[algorithm], part), f"{command}: algorithm and signed bytes")
        it.verifies(body_of(t, desk.ask("GET", "/crl"), "application/pkix-crl"))
        if command == "open":
            t.same(t.control().ask("crl"), "crl 2 entries 1")
            it.verifies(body_of(t, desk.ask("GET", "/crl"), "application/pkix-crl"), "the CRL of the control socket")
        desk.end()
    t.same((len(signer.asked), len(signs.asked)), (2, 8), "how often each key signed")


@test(seconds=5)
def a_revocation_is_in_the_next_answer(t):
    it = Authority(t)
    responder = Responder(it)
    it.signer()
    responder.signer()
    a_day(t, it, *it.signing())
    desk = t.open("ca.db", *it.signing(), *responder.words())
    control = t.control()
    t.same(it.reads("06", answer(t, it, desk, "06")), "good")
    t.same([control.ask("request 06 superseded").split()[0], control.ask("revoke 2")], ["request", "revoked"])
    t.same(it.reads("06", answer(t, it, desk, "06")), "revoked")


@each({"before the first CRL": (False, True), "after a CRL that the key signed": (True, True), "after a CRL that a digest sealed": (True, False)}, seconds=5)
def a_responder_alone(t, has_crl, is_signed):
    """With a responder and without `--signer`, the desk issues no CRL: `crl` gets `F3 signer`. OCSP goes on. The next CRL gets the unused number."""
    it = Authority(t)
    responder = Responder(it)
    signer = it.signer()
    it.register()
    lines, signing = first_day(authority.now()), it.signing() if is_signed else ()
    t.done("script", "ca.db", *signing, given=lines if has_crl else lines.rsplit("\n", 2)[0] + "\n")
    responder.signer()
    asked = len(signer.asked)
    for command, more in (("serve", ("--requests", "9")), ("open", ())):
        desk = t.open("ca.db", *more, *responder.words(), command=command)
        for serial, told in STATUSES:
            t.same(it.reads(serial, answer(t, it, desk, serial)), told, f"{command}: {serial}")
        if command == "serve":
            desk.end()
    control = t.control()
    t.same([control.ask("crl"), control.ask("crl")], ["F3 signer", "F3 signer"])
    t.same((it.reads("06", answer(t, it, desk, "06")), control.ask("request 06 superseded").split()[0]), ("good", "request"), "OCSP and a request")
    ran = t.desk("at", "control", given="crl\n")
    t.same((ran.status, ran.out, ran.err), (3, b"F3 signer\n", b"refused\n"), "status, output and standard error of `desk at`")
    t.same(control.ask("revoke 2"), "revoked")
    t.same(it.reads("06", answer(t, it, desk, "06")), "revoked", "OCSP of a certificate that is revoked, and on no CRL yet")
    status, _, _ = program.parted(desk.ask("GET", "/crl"))
    t.same((status, len(signer.asked)), (200 if has_crl else 404, asked), "status of GET /crl, and how often the CA's signer was asked")
    desk.end()
    told = t.done("script", "ca.db", "--clock", *signing, given="crl\n")
    t.same(told, f"crl {2 if has_crl else 1} entries 2\n", "a script issues the next CRL")
    if is_signed:
        it.verifies(t.done("crl", "ca.db").encode("latin-1"))
    t.has(t.done("audit", "ca.db"), "sound, 2 certificates, 2 revoked, ")


@test(seconds=3)
def when_the_responder_s_certificate_ends(t):
    it = Authority(t)
    it.register()
    series = "desk_responder_certificate_not_after_timestamp_seconds"
    names = "".join(f",DNS:responder-{at}.example" for at in range(60))
    for days, name, more in ((30, "soon", ""), (365 * 40, "in-forty-years", ""), (30, "with-many-names", f"subjectAltName=DNS:a.example{names}\n")):
        responder = Responder(it, name=name, extensions=DELEGATED + more)
        t.tool("openssl", "x509", "-req", "-in", f"{name}.csr", "-CA", it.pem, "-CAkey", it.key, "-days", days, "-extfile", f"{name}.conf", "-out", responder.pem)
        der_of(t, name)
        ends = t.tool("openssl", "x509", "-in", responder.pem, "-noout", "-enddate", "-dateopt", "iso_8601").decode().strip().removeprefix("notAfter=")
        desk = t.open("ca.db", *responder.words())
        t.has(desk.ask("GET", "/metrics").decode(), f"\n{series} {program.seconds_of(ends.replace(' ', 'T'))}\n")
        desk.end()
    der_of(t, "ca")
    for words in ((), ("--embed", "ca.der")):
        desk = t.open("ca.db", *words)
        t.same(series in desk.ask("GET", "/metrics").decode(), False, f"whether the metric exists without a responder, and with {words}")
        desk.end()


@test(seconds=3)
def a_crl_that_nobody_signs_is_no_failing_signer(t):
    it = Authority(t)
    responder = Responder(it)
    it.signer()
    responder.signer()
    it.register()
    t.done("script", "ca.db", *it.signing(), given=first_day(authority.now()))
    desk = t.open("ca.db", *responder.words())
    t.same(t.control().ask("crl"), "F3 signer")
    t.has(desk.ask("GET", "/health").decode(), '"crl_signer":null,"ocsp_signer":null,"rows":null,"status":"ok"')
    told = desk.ask("GET", "/metrics").decode()
    for series in ("desk_signature_failures_total", "desk_signer_failing_since_timestamp_seconds"):
        t.has(told, f'{series}{{of="crl"}} 0\n')


@each({"none is due": 0, "one is due": 8}, seconds=3)
def the_timer_s_script_where_a_responder_alone_signs(t, days):
    """`examples/issue-due-crl.sh` prints nothing on standard output. It fails with the fault `F3 signer` only if a CRL is due."""
    it = Authority(t)
    responder = Responder(it)
    it.signer()
    responder.signer()
    it.register()
    t.done("script", "ca.db", *it.signing(), given=first_day(authority.now() - days * authority.DAY))
    t.open("ca.db", *responder.words())
    ran = t.tried("env", f"DESK={program.program()}", "bash", EXAMPLES / "issue-due-crl.sh", "control")
    t.same((ran.returncode, ran.stdout), (3 if days else 0, b""))
    t.same(b"control: crl: F3 signer\n" in ran.stderr, bool(days), "whether standard error has the fault")


@test(seconds=4)
def a_responder_that_fails(t):
    it = Authority(t)
    responder = Responder(it)
    it.signer()
    a_day(t, it, *it.signing())
    desk = t.open("ca.db", *it.signing(), *responder.words())
    t.same(body_of(t, desk.ask("POST", "/ocsp", it.asks("05"))), INTERNAL, "OCSP while the responder has no signer")
    t.same(t.control().ask("crl"), "crl 2 entries 1", "a CRL, which the CA's signer signs")
    with program.Signer(t.room / "responder.sign", responder.sign):
        t.same(it.reads("05", answer(t, it, desk, "05")), "revoked", "OCSP once the responder has a signer")
    # The desk checks only the form of a signature, so it accepts one of another key. openssl rejects it.
    other = Responder(it, name="other")
    with program.Signer(t.room / "responder.sign", other.sign):
        said = t.room / "said.der"
        said.write_bytes(answer(t, it, desk, "05"))
        ran = t.tried("openssl", "ocsp", "-issuer", it.pem, "-CAfile", it.pem, "-serial", "0x05", "-no_nonce", "-respin", said)
        t.has(ran.stdout + ran.stderr, b"Response Verify Failure", "a signature of another key")


@test(seconds=13)
def a_responder_that_hangs_holds_up_no_crl(t):
    """Only the OCSP client waits for the responder's signer, for ten seconds. Meanwhile the CA's signer signs a CRL."""
    it = Authority(t)
    responder = Responder(it)
    it.signer()
    a_day(t, it, *it.signing())
    hanging = t.signer("responder.sign", lambda message, call: "hang")
    desk = t.open("ca.db", *it.signing(), *responder.words())
    control, request = t.control(), it.asks("05")
    with ThreadPoolExecutor(1) as pool, t.ten_seconds():
        waits = pool.submit(desk.ask, "POST", "/ocsp", request)
        authority.until(lambda: hanging.asked, "a request to the responder's signer")
        with t.at_once("a CRL"):
            t.same(control.ask("crl"), "crl 2 entries 1", "a CRL")
        t.same(waits.done(), False, "whether the OCSP client got its answer")
        t.same(body_of(t, waits.result()), INTERNAL)


@test(seconds=4)
def a_signer_of_crls_that_hangs_holds_up_no_answer(t):
    """OCSP is answered while a CRL waits ten seconds for its signature, and afterwards. Each `ocsp` line asks the responder's signer once."""
    it = Authority(t)
    responder = Responder(it)
    asked = responder.signer().asked
    t.signer("day.sign", lambda message, call: it.sign(message))
    a_day(t, it, *it.signing("day.sign"))
    hanging = t.signer("ca.sign", lambda message, call: "hang")
    desk = Passing(t, *it.signing(), *responder.words())
    with ThreadPoolExecutor(1) as pool, t.control() as control:
        crl = pool.submit(control.ask, "crl")
        authority.until(lambda: hanging.asked, "a request to the CA's signer")
        t.same(it.reads("05", answer(t, it, desk.desk, "05")), "revoked", "an answer while the CRL waits")
        desk.advance(10_000)
        t.same(crl.result(), "F3 signer")
        before = len(asked)
        _, response = control.ask(f"ocsp {it.asks('05').hex()}").split()
        t.same(it.reads("05", bytes.fromhex(response)), "revoked", "an `ocsp` line after the ten seconds")
        t.same(len(asked) - before, 1, "how often the responder was asked")


@test(seconds=4)
def a_crl_that_is_signed_ends_no_back_off_of_a_responder(t):
    """The responder's signer hangs, and an `ocsp` line waits ten seconds for it. The CA's signer then signs a CRL. The next `ocsp` line still does
    not wait."""
    it = Authority(t)
    responder = Responder(it)
    it.signer()
    a_day(t, it, *it.signing())
    hanging = t.signer("responder.sign", lambda message, call: "hang")
    desk, line, unsigned = Passing(t, *it.signing(), *responder.words()), f"ocsp {it.asks('05').hex()}", f"ocsp {INTERNAL.hex()}"
    with ThreadPoolExecutor(1) as pool, t.control() as control:
        control.stream.settimeout(20)
        waits = pool.submit(control.ask, line)
        authority.until(lambda: hanging.asked, "a request to the responder's signer")
        desk.advance(10_000)
        t.same(waits.result(), unsigned, "the line that waited")
        t.same(control.ask("crl"), "crl 2 entries 1", "a CRL")
        with t.at_once("a line behind it"):
            t.same(control.ask(line), unsigned, "the `ocsp` line after the CRL")
    t.same(len(hanging.asked), 1, "how often the responder was asked")


@test(seconds=4)
def the_log_s_last_word_is_about_either_key(t):
    """A log line ends with `signer` if a signature is missing: the responder's for an OCSP answer, the CA's for a CRL. No other line does."""
    it = Authority(t)
    responder = Responder(it)
    with it.signer():
        a_day(t, it, *it.signing())
    desk = t.open("ca.db", "--log", *it.signing(), *responder.words())
    control = t.control()
    t.same(body_of(t, desk.ask("POST", "/ocsp", it.asks("05"))), INTERNAL, "OCSP while the responder has no signer")
    t.same([control.ask("crl"), control.ask("counts")], ["F3 signer", "good 1 revoked 1 expired 0"], "replies while the CA has no signer")
    with program.Signer(t.room / "responder.sign", responder.sign):
        t.same(it.reads("05", answer(t, it, desk, "05")), "revoked")
    t.same([line.endswith(" signer") for line in desk.end().err_lines], [True, True, False, False], "which log lines end with `signer`")


@each({"a new certificate of the same key": False, "a new key": True}, seconds=6)
def a_certificate_is_exchanged(t, is_new):
    """An open desk keeps the certificate that it read when it was opened. After a restart its answers have the new certificate."""
    it = Authority(t)
    it.signer()
    a_day(t, it, *it.signing())
    first = Responder(it, serial=1)
    with program.Signer(t.room / "responder.sign", first.sign):
        desk = t.open("ca.db", *it.signing(), *first.words())
        t.same(certificates_in(answer(t, it, desk, "05")), (CERTIFICATES, [first.der]))
        if is_new:
            second = Responder(it, name="next", serial=2)
            der, sign = second.der, second.sign
        else:
            t.tool("openssl", "x509", "-req", "-in", "responder.csr", "-CA", it.pem, "-CAkey", it.key, "-set_serial", 2, "-days", 60,
                   "-extfile", "responder.conf", "-out", "next.pem")
            der, sign = der_of(t, "next"), first.sign
        (t.room / "responder.der").write_bytes(der)
        response = answer(t, it, desk, "05")
        t.same((certificates_in(response), it.reads("05", response)), ((CERTIFICATES, [first.der]), "revoked"), "certificate and status")
        desk.end()
    t.same(key_hash(der) != key_hash(first.der), is_new, "whether the new certificate has another key")
    with program.Signer(t.room / "responder.sign", sign):
        desk = t.open("ca.db", *it.signing(), *first.words())
        response = answer(t, it, desk, "05")
        t.same(certificates_in(response), (CERTIFICATES, [der]), "the certificate after the restart")
        t.same((named_by(response), it.reads("05", response)), ((0xA2, key_hash(der)), "revoked"))


# The CA's certificate in its own answers


CA_KEYS = {
    "with a key that signs": ("ecdsa-sha256", True),
    "with an RSA key that signs": ("rsa-sha256", True),
    "with a digest that seals": ("ecdsa-sha256", False),
}


@each(CA_KEYS, seconds=4)
def the_ca_s_certificate_in_its_answers(t, algorithm, is_signed):
    it = Authority(t, algorithm)
    der, signing = der_of(t, "ca"), it.signing() if is_signed else ()
    it.signer()
    a_day(t, it, *signing)
    bare = t.open("ca.db", "--requests", "9", *signing, command="serve")
    without = answer(t, it, bare, "05")
    bare.end()
    t.same((certificates_in(without), named_by(without)), (None, (0xA2, key_hash(der))), "certificates and key hash in an answer without --embed")
    desk = t.open("ca.db", *signing, "--embed", "ca.der")
    for serial, told in STATUSES:
        response = answer(t, it, desk, serial)
        t.same((it.reads(serial, response, verify=is_signed), certificates_in(response)), (told, (CERTIFICATES, [der])), serial)
        t.same(named_by(response), (0xA2, key_hash(der)), "the CA's key hash")


@test(seconds=3)
def without_the_options_each_byte_is_as_it_was(t):
    """An answer with a placeholder digest depends only on its moment. `--embed` adds only `certs`, and changes the enclosing lengths."""
    it = Authority(t)
    der = der_of(t, "ca")
    a_day(t, it)
    t.clock(authority.now() + 10)
    request, got = it.asks("05", nonce=True), {}
    for words in ((), ("--embed", "ca.der")):
        desk = t.open("ca.db", "--requests", "9", *words, command="serve")
        got[words] = authority.basic_of(body_of(t, desk.ask("POST", "/ocsp", request)))
        desk.end()
    bare, with_it = (values_of(values_of(one)[0][1]) for one in got.values())
    t.same(len(bare), 3, "fields of an answer without --embed")
    t.same([it[2] for it in with_it[:3]], [it[2] for it in bare], "the same fields of an answer with --embed")
    line = f"{authority.moment_of(authority.now() + 10)} ocsp {request.hex()}\n"
    told = bytes.fromhex(t.done("script", "ca.db", given=line).split()[1])
    t.same(len(values_of(values_of(authority.basic_of(told))[0][1])), 3, "fields of a script's answer")
    t.same(len(der) + 12 > len(with_it[3][2]) > len(der), True, "whether `certs` has the certificate's length, and up to 11 bytes of heads")


# Refusals by `bad-responder`


BROKEN = {
    "nothing": lambda der: b"", "no DER": lambda der: b"certificate", "its last byte is lacking": lambda der: der[:-1],
    "a byte more": lambda der: der + b"\0", "an indefinite length": lambda der: b"\x30\x80" + der[4:] + b"\0\0",
    "another tag": lambda der: b"\x31" + der[1:], "what is signed of it alone": lambda der: inside(der, 0)[2],
}


@each(BROKEN, seconds=2)
def bytes_that_are_no_certificate(t, broken):
    it = Authority(t)
    responder = Responder(it)
    (t.room / "responder.der").write_bytes(broken(responder.der))
    # The register is missing, so a check after that of the certificate would report `F2 store`.
    for command, more, sealed in (("open", ("--control", "control"), ("--unsigned",)), ("serve", ("--requests", "9"), ())):
        bad_responder(t, [command, "none.db", "--port", "1", *more, *responder.words()])
        bad_responder(t, [command, "none.db", "--port", "1", *more, *sealed, "--embed", "responder.der"])


def info(*parts):
    """A change of a TBSCertificate: its SubjectPublicKeyInfo gets these parts, each made of the key's AlgorithmIdentifier and bits."""
    return lambda certified: [*certified[:KEY], tlv(SEQUENCE, *parts_of(certified, parts)), *certified[KEY + 1 :]]


def parts_of(certified, parts):
    algorithm, bits = whole(inside(certified[KEY])[1])
    return [part(algorithm, inside(bits)[1][1:]) for part in parts]


def own_algorithm(identifier, _):
    return identifier


def spelled(make):
    return lambda _, key: tlv(BITS, *make(key))


P256, CURVE = bytes.fromhex("06072A8648CE3D0201"), bytes.fromhex("06082A8648CE3D030107")
KEYLESS = {
    "nothing behind its subject": lambda certified: certified[:KEY],
    "no key": lambda certified: [*certified[:KEY], *certified[EXTENSIONS:]],
    "its key behind its extensions": lambda certified: [*certified[:KEY], certified[EXTENSIONS], certified[KEY]],
    "no serial number": lambda certified: [certified[0], *certified[2:]],
    "a version that is not tagged": lambda certified: [b"\x02\x01\x02", *certified[1:]],
    "a key in an OCTET STRING": info(own_algorithm, lambda _, key: tlv(OCTETS, key)),
    "a key of no algorithm": info(spelled(lambda key: (b"\0", key))),
    "an algorithm of no key": info(own_algorithm),
    "no bits": info(own_algorithm, spelled(lambda key: (b"\0",))),
    "not even a count of unused bits": info(own_algorithm, spelled(lambda key: ())),
    "a bit that is unused": info(own_algorithm, spelled(lambda key: (b"\1", key[:-1], b"\0"))),
    "a key of 2,049 octets": info(own_algorithm, spelled(lambda key: (b"\0", bytes(2049)))),
    "a value behind its key": info(own_algorithm, spelled(lambda key: (b"\0", key)), lambda *_: b"\x05\0"),
    "a point cut short": info(own_algorithm, spelled(lambda key: (b"\0", key[:-1]))),
    "a point of an octet more": info(own_algorithm, spelled(lambda key: (b"\0", key, b"\0"))),
    "a hybrid point": info(own_algorithm, spelled(lambda key: (b"\0", bytes([6 + key[-1] % 2]), key[1:]))),
    "no curve": info(lambda *_: tlv(SEQUENCE, P256), spelled(lambda key: (b"\0", key))),
    "a curve that is written out": info(lambda *_: tlv(SEQUENCE, P256, tlv(SEQUENCE, CURVE)), spelled(lambda key: (b"\0", key))),
    "a curve and NULL": info(lambda *_: tlv(SEQUENCE, P256, CURVE, b"\x05\0"), spelled(lambda key: (b"\0", key))),
}


@each(KEYLESS, seconds=2)
def a_certificate_without_a_key_of_its_algorithm(t, change):
    """A field of the TBSCertificate up to its key is missing, or of another form (RFC 5280 4.1). All other fields are as openssl made them."""
    it = Authority(t)
    responder = Responder(it)
    path, usual = t.room / "responder.der", rebuilt(it, responder.der, lambda certified: certified)
    t.same(inside(usual, 0)[2], inside(responder.der, 0)[2], "the TBSCertificate, rebuilt without a change")
    path.write_bytes(rebuilt(it, responder.der, change))
    bad_responder(t, ["open", "none.db", "--port", "1", "--control", "control", *responder.words()])
    # The unchanged certificate is accepted. The next fault is that the register is missing.
    path.write_bytes(usual)
    ran = t.desk("open", "none.db", "--port", "1", "--control", "control", *responder.words())
    t.same((ran.status, ran.err), (1, b"F2 store\n"))


@test
def a_certificate_that_the_system_has_no_memory_to_open(t):
    """open(2) fails with ENOMEM. An operator who is told of the certificate looks at that."""
    it = Authority(t)
    responder = Responder(it)
    for words in (responder.words(), ("--unsigned", "--embed", "responder.der")):
        no_memory = faults.environment(only="responder.der", fail="open:1=ENOMEM")
        ran = t.desk("open", "none.db", "--port", "1", "--control", "control", *words, faults=no_memory)
        t.same((ran.status, ran.out, ran.err), (1, b"", b"F1 memory\n"), program.shown(words))


@test(seconds=2)
def a_certificate_or_a_signer_for_which_there_is_no_memory(t):
    """One allocation fails. The last ones are those for the certificate and the responder's signer: there is no such register."""
    responder = Responder(Authority(t))
    words = ["open", "none.db", "--port", "1", "--control", "control", *responder.words()]
    ran, count = faults.run(t, words)
    t.same((ran.status, ran.out, ran.err), (1, b"", b"F2 store\n"))
    for at in range(count["alloc"] - 40, count["alloc"] + 1):
        ran, _ = faults.run(t, words, fail=f"alloc:{at}")
        t.true((ran.status, ran.out) == (1, b"") and ran.err in (b"F1 memory\n", b"F2 store\n"), f"allocation {at} of {count['alloc']}: {ran}")


def gencrl(t):
    """Writes the configuration with which openssl makes a CRL, and returns its path."""
    path = t.room / "ca.cnf"
    path.write_text("[ca]\ndatabase = index.txt\ndefault_md = sha256\ndefault_crl_days = 8\n")
    return path


# Files in DER from openssl that are no certificate.
OTHERS = {
    "a request for one": ("req", "-in", "responder.csr", "-outform", "DER"),
    "its key": ("pkey", "-in", "responder.key", "-outform", "DER"),
    "its public key": ("pkey", "-in", "responder.key", "-pubout", "-outform", "DER"),
    "both certificates in PKCS #7": ("crl2pkcs7", "-nocrl", "-certfile", "ca.pem", "-certfile", "responder.pem", "-outform", "DER"),
    "a CRL": ("crl", "-in", "empty.crl", "-outform", "DER"),
}


@each(OTHERS, seconds=2)
def what_is_in_der_and_no_certificate(t, *words):
    it = Authority(t)
    responder = Responder(it)
    (t.room / "index.txt").touch()
    t.tool("openssl", "ca", "-gencrl", "-name", "ca", "-config", gencrl(t), "-keyfile", it.key, "-cert", it.pem, "-out", "empty.crl")
    made = t.tool("openssl", *words)
    t.true(made[:1] == b"\x30" and made != responder.der, f"{words[0]} gives no SEQUENCE, or the certificate itself")
    (t.room / "responder.der").write_bytes(made)
    bad_responder(t, ["open", "none.db", "--port", "1", "--control", "control", *responder.words()])


def padded(it, der, size):
    """The certificate `der` with one more extension, which is so long that the certificate has `size` octets."""
    def made(octets, sign):
        extension = tlv(SEQUENCE, bytes.fromhex("06032A0304"), tlv(OCTETS, bytes(octets)))
        longer = lambda certified: [*certified[:EXTENSIONS], tlv(0xA3, tlv(SEQUENCE, *whole(inside(certified[EXTENSIONS], 0)[1]), extension))]
        return rebuilt(it, der, longer, sign)

    # An RSA signature always has as many octets as the modulus: 256.
    octets = next(octets for octets in range(size - len(der) - 60, size) if len(made(octets, lambda _: bytes(256))) == size)
    return made(octets, it.sign)


@each({"65,535 octets": 65_535, "65,536 octets": 65_536, "65,537 octets": 65_537, "a million octets": 1_000_000}, seconds=5)
def a_certificate_of_so_many_octets(t, size):
    """A certificate may have at most 65,536 octets. Each answer contains all of them."""
    it = Authority(t, "rsa-sha256")
    responder, ca = Responder(it), der_of(t, "ca")
    answers = {("--responder", "responder.der"): padded(it, responder.der, size), ("--embed", "ca.der"): padded(it, ca, size)}
    it.signer()
    responder.signer()
    a_day(t, it, *it.signing())
    for (option, name), der in answers.items():
        t.same(len(der), size)
        (t.room / name).write_bytes(der)
        if option == "--embed":
            t.tool("openssl", "x509", "-inform", "DER", "-in", name, "-out", it.pem)
        words = [*it.signing(), *(responder.words() if option == "--responder" else (option, name))]
        if size > 65_536:
            bad_responder(t, ["open", "ca.db", "--port", program.free_port(), "--control", "control", *words])
            continue
        desk = t.open("ca.db", *words)
        response = answer(t, it, desk, "05")
        t.same((it.reads("05", response), certificates_in(response) == (CERTIFICATES, [der])), ("revoked", True), option)
        desk.end()


@each({f"version {it}": it for it in (1, 2, 3)}, seconds=2)
def before_a_bad_certificate_nothing_is_opened(t, version):
    """The register's file stays as it was and gets no -wal, even if its version is an older one, which the command would otherwise migrate."""
    it = Authority(t)
    responder = Responder(it)
    registers.make(t.room / "ca.db", registers.Records(20, 3), version)
    before = faults.contents(t.room / "ca.db")
    (t.room / "responder.der").write_bytes(responder.der[:-1])
    for command, more in (("open", ("--control", "control")), ("serve", ("--requests", "9"))):
        opens = [command, "ca.db", "--port", program.free_port(), *more]
        bad_responder(t, [*opens, *responder.words()])
        bad_responder(t, [*opens, *(("--unsigned",) if command == "open" else ()), "--embed", "responder.der"])
    t.same(faults.contents(t.room / "ca.db") == before, True, "whether the file's octets are the same")


@test(seconds=3)
def a_certificate_that_can_t_be_read(t):
    """An `open` or `read` that fails, or a folder at the path, is `bad-responder`. A read may return fewer octets than requested."""
    it = Authority(t)
    responder = Responder(it)
    responder.signer()
    a_day(t, it)
    opens = ["open", "ca.db", "--port", program.free_port(), "--control", "control", *responder.words()]
    for fail in ("read:1", "open:1"):
        ran, count = faults.run(t, opens, only="responder.der", fail=fail)
        t.same((ran.status, ran.out, ran.err, count["met"]), (1, b"", b"bad-responder\n", 1), fail)
    bad_responder(t, ["open", "ca.db", "--port", program.free_port(), "--control", "control", "--unsigned", "--embed", "."])
    desk = t.open("ca.db", *responder.words(), faults=faults.environment(only="responder.der", short=1))
    t.same(certificates_in(answer(t, it, desk, "05")), (CERTIFICATES, [responder.der]), "the certificate, which was read octet by octet")


@test(seconds=15)
def an_allocation_is_refused_while_it_is_opened(t):
    """If an allocation fails, `serve` listens as usual or reports only `F1 memory`. Out of memory is not reported as a bad certificate."""
    it = Authority(t)
    responder = Responder(it)
    responder.signer()
    a_day(t, it)
    words, told = ["serve", "ca.db", "--requests", "9", *responder.words()], 0
    for at in faults.places(1_000, 150, 13):
        with program.Opened(words, cwd=t.room, faults=faults.environment(fail=f"alloc:{at}")) as desk:
            if not desk.listens:
                told += 1
                ended = desk.wait()
                t.same((ended.status, ended.err), (1, b"F1 memory\n"), f"allocation {at}")
    t.true(told > 100, f"`F1 memory` was reported only {told} times")


@test(seconds=4)
def a_certificate_that_can_t_be_used(t):
    it, other = Authority(t), Authority(t, name="other", subject="/CN=Other")
    responder = Responder(it)
    der_of(t, "ca")
    der_of(t, "other")
    opens = lambda file, *words: ["open", file, "--port", "1", "--control", "control", *words]
    embeds = lambda file, *words: opens(file, "--unsigned", "--embed", *words)
    bad_responder(t, opens("none.db", *("--responder", "responder.pem", *responder.words()[2:])))
    bad_responder(t, embeds("none.db", "ca.pem"))
    bad_responder(t, embeds("none.db", "none.der", "--why"), b"bad-responder\n  no such file (--embed)\n")
    for algorithm, name in (("ecdsa-sha384", "p384"), ("rsa-sha256", "rsa"), ("ed25519", "ed")):
        Responder(it, algorithm, name=name)
        bad_responder(t, opens("none.db", "--responder", f"{name}.der", *responder.words()[2:]))
        bad_responder(t, opens("none.db", *responder.words()[:4], "--responder-algorithm", algorithm))
    # A key of another curve, of the same form.
    t.tool("openssl", "req", "-x509", "-newkey", "ec", "-pkeyopt", "ec_paramgen_curve:secp256k1", "-nodes", "-keyout", "k.key", "-out", "k.pem", "-subj", "/CN=k")
    der_of(t, "k")
    bad_responder(t, opens("none.db", "--responder", "k.der", *responder.words()[2:]))
    a_day(t, it)
    bad_responder(t, embeds("ca.db", "other.der"))
    bad_responder(t, embeds("ca.db", "responder.der"))


# The clients


def leaf(t, it, name, serial, more=""):
    """Makes a server's certificate, which the CA signs, in NAME.pem, and its key in NAME.key."""
    (t.room / f"{name}.conf").write_text(f"subjectAltName=DNS:localhost,IP:127.0.0.1\n{more}")
    t.tool("openssl", "req", "-new", "-newkey", *KEYS["ecdsa-sha256"], "-nodes", "-keyout", f"{name}.key", "-out", f"{name}.csr", "-subj", f"/CN={name}")
    t.tool("openssl", "x509", "-req", "-in", f"{name}.csr", "-CA", it.pem, "-CAkey", it.key, "-set_serial", serial, "-days", 60,
           "-extfile", f"{name}.conf", "-out", f"{name}.pem")


LEAVES = (("good", 6), ("revoked", 5))


def checked(t, it, extensions=DELEGATED):
    """Makes a leaf certificate for each status, and the register of the CA. Returns the options for each form of a desk."""
    responder = Responder(it, extensions=extensions)
    der_of(t, "ca")
    it.signer()
    responder.signer()
    for name, serial in LEAVES:
        leaf(t, it, name, serial)
    a_day(t, it, *it.signing())
    return {"a responder": responder.words(), "the CA's certificate": ("--embed", "ca.der")}


def below_a_root(t, it):
    """Replaces the self-signed certificate of the CA by one that the root of root.pem signed. all.pem has both."""
    root = Authority(t, name="root", subject="/CN=Root")
    (t.room / "below.conf").write_text("basicConstraints=critical,CA:TRUE\nkeyUsage=critical,keyCertSign,cRLSign\nsubjectKeyIdentifier=hash\n")
    t.tool("openssl", "req", "-new", "-key", it.key, "-out", "ca.csr", "-subj", "/CN=T")
    t.tool("openssl", "x509", "-req", "-in", "ca.csr", "-CA", root.pem, "-CAkey", root.key, "-set_serial", 77, "-days", 300, "-extfile", "below.conf", "-out", it.pem)
    (t.room / "all.pem").write_bytes(it.pem.read_bytes() + root.pem.read_bytes())


# Two more forms: a root signed the CA's certificate, or the CA and its responder have key identifiers that are no hashes.
BELOW, OWN = ", below a root", ", by key identifiers of their own"


def asked(t, form):
    """A CA, and the options for this form of a desk: root.pem is the trust anchor, and all.pem also has the certificates between a leaf and it."""
    it = Authority(t)
    if form.endswith(BELOW):
        below_a_root(t, it)
    if form.endswith(OWN):
        with_key_identifier(it, "0102030405")
    if not form.endswith(BELOW):
        for copy in ("root.pem", "all.pem"):
            (t.room / copy).write_bytes(it.pem.read_bytes())
    extensions = DELEGATED + ("subjectKeyIdentifier=0a0b0c\n" if form.endswith(OWN) else "subjectKeyIdentifier=hash\n")
    return it, checked(t, it, extensions).get(form.removesuffix(BELOW).removesuffix(OWN), ())


def forms(*more):
    names = [f"{form}{ending}" for form in ("a responder", "the CA's certificate") for ending in ("", *more)]
    return {it: it for it in names}


@each(forms(BELOW, OWN), seconds=4)
def openssl_takes_both_forms(t, form):
    """openssl trusts only the root. It is given the CA's certificate, as the issuer in its request and to verify the CRL."""
    it, words = asked(t, form)
    desk = t.open("ca.db", *it.signing(), *words)
    for name, _ in LEAVES:
        told = t.tool("openssl", "ocsp", "-issuer", it.pem, "-CAfile", "root.pem", "-cert", f"{name}.pem", "-url", f"http://127.0.0.1:{desk.port}/ocsp").decode()
        t.has(told, "Response verify OK", name)
        t.has(told, f"{name}.pem: {name}\n", name)
    crl = body_of(t, desk.ask("GET", "/crl"), "application/pkix-crl")
    it.verifies(crl)
    (t.room / "ca.crl").write_bytes(t.tool("openssl", "crl", "-inform", "DER", given=crl))
    for name, told in (("good", "good.pem: OK"), ("revoked", "error 23 at 0 depth lookup: certificate revoked")):
        ran = t.tried("openssl", "verify", "-CAfile", "root.pem", "-untrusted", it.pem, "-CRLfile", "ca.crl", "-crl_check", f"{name}.pem")
        t.has((ran.stdout + ran.stderr).decode(), told, f"{name} by the CRL")

JAVA = """
import java.io.*; import java.net.*; import java.nio.file.*; import java.security.cert.*; import java.util.*;
public class Checked {
    public static void main(String[] words) throws Exception {
        CertificateFactory factory = CertificateFactory.getInstance("X.509");
        X509Certificate ca = (X509Certificate) factory.generateCertificate(Files.newInputStream(Path.of(words[0])));
        CertPathValidator validator = CertPathValidator.getInstance("PKIX");
        for (String name : Arrays.asList(words).subList(2, words.length)) {
            CertPath path = factory.generateCertPath(List.copyOf(factory.generateCertificates(Files.newInputStream(Path.of(name)))));
            PKIXRevocationChecker checker = (PKIXRevocationChecker) validator.getRevocationChecker();
            checker.setOcspResponder(URI.create(words[1]));
            checker.setOptions(EnumSet.of(PKIXRevocationChecker.Option.NO_FALLBACK, PKIXRevocationChecker.Option.ONLY_END_ENTITY));
            PKIXParameters parameters = new PKIXParameters(Set.of(new TrustAnchor(ca, null)));
            parameters.addCertPathChecker(checker);
            try { validator.validate(path, parameters); System.out.println("good"); }
            catch (CertPathValidatorException why) { System.out.println(why.getReason()); }
        }
    }
}
"""


@each(forms(BELOW, OWN), seconds=12)
def java_takes_both_forms(t, form):
    need("javac", "java")
    it, words = asked(t, form)
    desk = t.open("ca.db", *it.signing(), *words)
    if form.endswith(BELOW):
        for name, _ in LEAVES:
            (t.room / f"{name}.pem").write_bytes((t.room / f"{name}.pem").read_bytes() + it.pem.read_bytes())
    (t.room / "Checked.java").write_text(JAVA)
    t.tool("javac", "Checked.java")
    told = t.tool("java", "-cp", t.room, "Checked", "root.pem", f"http://127.0.0.1:{desk.port}/ocsp", "good.pem", "revoked.pem").decode().split()
    t.same(told, ["good", "REVOKED"])


@each(forms(OWN), seconds=5)
def gnutls_takes_both_forms(t, form):
    need("ocsptool")
    it, words = asked(t, form)
    desk = t.open("ca.db", *it.signing(), *words)
    for name, told in (("good", "good"), ("revoked", "revoked")):
        said = t.tool("ocsptool", f"--ask=http://127.0.0.1:{desk.port}/ocsp", "--load-issuer", it.pem, "--load-cert", f"{name}.pem",
                      "--load-trust", it.pem, "--verify-allow-broken").decode()
        t.has(said, "Verifying OCSP Response: Success", name)
        t.has(said, f"Certificate Status: {told}", name)


@each(forms(OWN), seconds=6)
def nss_takes_both_forms(t, form):
    """NSS asks with GET, at the URL in the leaf certificate."""
    need("certutil", "vfychain")
    it, words = asked(t, form)
    desk = t.open("ca.db", *it.signing(), *words)
    (t.room / "nss").mkdir()
    t.tool("certutil", "-N", "-d", "sql:nss", "--empty-password")
    t.tool("certutil", "-A", "-d", "sql:nss", "-n", "ca", "-t", "CT,,", "-a", "-i", it.pem)
    for name, serial in LEAVES:
        leaf(t, it, name, serial, f"authorityInfoAccess=OCSP;URI:http://127.0.0.1:{desk.port}/ocsp\n")
        ran = t.tried("vfychain", "-d", "sql:nss", "-pp", "-g", "leaf", "-m", "ocsp", "-s", "requireInfo,failIfNoInfo", "-u", "1", "-a", f"{name}.pem")
        told = (ran.stdout + ran.stderr).decode()
        t.same(("Chain is good!" in told, "ERROR -8180: Peer's Certificate has been revoked" in told), (name == "good", name == "revoked"), told)


GO = """
package main

import ("bytes"; "crypto/x509"; "encoding/pem"; "fmt"; "io"; "net/http"; "os"; "golang.org/x/crypto/ocsp")

func main() {
	read := func(name string) *x509.Certificate {
		text, err := os.ReadFile(name)
		if err != nil { panic(err) }
		block, _ := pem.Decode(text)
		certificate, err := x509.ParseCertificate(block.Bytes)
		if err != nil { panic(err) }
		return certificate
	}
	ca := read(os.Args[1])
	for _, name := range os.Args[3:] {
		leaf := read(name)
		request, err := ocsp.CreateRequest(leaf, ca, nil)
		if err != nil { panic(err) }
		answered, err := http.Post(os.Args[2], "application/ocsp-request", bytes.NewReader(request))
		if err != nil { panic(err) }
		octets, _ := io.ReadAll(answered.Body)
		response, err := ocsp.ParseResponseForCert(octets, leaf, ca)
		if err != nil { fmt.Println(err); continue }
		fmt.Println(map[int]string{ocsp.Good: "good", ocsp.Revoked: "revoked", ocsp.Unknown: "unknown"}[response.Status])
	}
}
"""


@each(forms(), seconds=8)
def go_takes_both_forms(t, form):
    need("go")
    source = Path("/usr/share/gocode")
    if not (source / "src/golang.org/x/crypto/ocsp").is_dir():
        raise Skipped("no golang.org/x/crypto here: apt install golang-golang-x-crypto-dev")
    it, words = asked(t, form)
    desk = t.open("ca.db", *it.signing(), *words)
    (t.room / "checked.go").write_text(GO)
    env = {**os.environ, "GO111MODULE": "off", "GOPATH": str(source), "GOCACHE": str(t.room / "cache"), "HOME": str(t.room)}
    told = t.tool("go", "run", "checked.go", it.pem, f"http://127.0.0.1:{desk.port}/ocsp", "good.pem", "revoked.pem", env=env).decode().split("\n")
    t.same(told, ["good", "revoked", ""])


STAPLING = """    server {{
        listen 127.0.0.1:{port} ssl;
        ssl_certificate {room}/{chain}.pem;
        ssl_certificate_key {room}/good.key;
        {lines}
        return 204;
    }}
"""


@each({**forms(BELOW), "neither": "neither"}, seconds=8)
def nginx_staples_with_the_leaf_alone(t, form):
    """nginx runs with the lines of docs/OPERATIONS.md. If its chain is only the leaf, nginx accepts an answer only with a certificate in it. If the
    chain has the CA, nginx and curl accept each answer."""
    need("nginx")
    it, words = asked(t, form)
    desk = t.open("ca.db", *it.signing(), *words)
    folder, port, other = t.room / "nginx", program.free_port(), program.free_port()
    folder.mkdir()
    (t.room / "chain.pem").write_bytes((t.room / "good.pem").read_bytes() + it.pem.read_bytes())
    lines = "\n".join(block("A responder", "ssl_stapling on;"))
    for was, now in (("/etc/nginx/ca.pem", t.room / "all.pem"), ("127.0.0.1:8080", f"127.0.0.1:{desk.port}")):
        t.same(lines.count(was), 1, f"how often {lines} has {was}")
        lines = lines.replace(was, str(now))
    servers = (STAPLING.format(port=at, room=t.room, chain=chain, lines=lines) for at, chain in ((port, "good"), (other, "chain")))
    (folder / "desk.conf").write_text("".join(servers))
    (folder / "nginx.conf").write_text(AROUND.format(user="user root;\n", folder=folder))
    authority.started(t, ["nginx", "-c", folder / "nginx.conf", "-e", folder / "error.log", "-g", "daemon off;"], folder / "nginx.pid")

    def stapled():
        ran = t.tried("openssl", "s_client", "-connect", f"127.0.0.1:{port}", "-status", "-servername", "localhost", "-CAfile", "all.pem")
        return b"OCSP Response Status: successful" in ran.stdout and b"Cert Status: good" in ran.stdout

    asks = ("curl", "-sS", "-o", "/dev/null", "-w", "%{http_code}", "--cert-status", "--cacert", "all.pem", f"https://localhost:{other}/")
    authority.until(lambda: t.tried(*asks).stdout == b"204", "a stapled answer that curl accepts")
    if words:
        authority.until(stapled, "a stapled answer")
        return
    stapled()
    authority.until(lambda: "OCSP_basic_verify() failed" in (folder / "error.log").read_text(), "nginx's refusal in its log")
    t.same(stapled(), False, "whether an answer without a certificate is stapled")


@test(seconds=5)
def a_signer_of_a_responder_only(t):
    """examples/signer.py and examples/only_ours.py (with openssl) sign only OCSP answers with a responder's key. They refuse a CRL and any other
    message."""
    authority.need_cryptography(t)
    it = Authority(t)
    responder = Responder(it)
    it.register()
    signer = it.signer()
    t.done("script", "ca.db", *it.signing(), given=first_day(authority.now()))
    words = ["python3", EXAMPLES / "signer.py", "--only-ours", it.pem, "--responder", responder.pem, responder.key, "responder.sign"]
    authority.started(t, words, t.room / "responder.sign")
    desk = t.open("ca.db", *it.signing(), *responder.words())
    for serial, told in STATUSES:
        t.same(it.reads(serial, answer(t, it, desk, serial)), told, serial)
    response = answer(t, it, desk, "05")
    part = authority.signed_part(authority.basic_of(response))[0]
    only_ours = ["python3", EXAMPLES / "only_ours.py"]
    told = ("openssl", "dgst", "-sha256", "-sign", responder.key)
    before = [*only_ours, "--responder", responder.pem, it.pem, *told]
    t.true(t.tool(*before, given=part), "examples/only_ours.py refuses the responder's answer")
    ran = t.tried(*before[:-1], it.key, given=part)
    t.same((ran.returncode, ran.stdout), (1, b""), "the CA's key in place of the responder's is refused")
    for what, message in (("a CRL", signer.asked[0]), ("another message", b"0"), ("a byte more", part + b"\0")):
        ran = t.tried(*before, given=message)
        t.same((ran.returncode, ran.stdout), (1, b""), f"{what} is refused")
    ran = t.tried(*only_ours, it.pem, *told, given=part)
    t.same((ran.returncode, ran.stdout), (1, b""), "examples/only_ours.py without --responder refuses the answer")
    ran = t.tried("python3", EXAMPLES / "signer.py", "--only-ours", it.pem, "--responder", responder.pem, it.key, "other.sign")
    t.has(ran.stderr, b"is the certificate of another key")
