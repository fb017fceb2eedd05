"""examples/from-openssl-index.py moves an index of `openssl ca` into a register. The tests compare the register's statuses with the
index, its CRL with that of `openssl ca -gencrl`, and its OCSP answers with those of `openssl ocsp -index`."""

import hashlib
import os
import random
import re
import sys
import time

from lib import authority, program
from lib.authority import DAY, EXAMPLES, Authority, body_of, listed, moment_of, openssl_time
from lib.trial import each, test

# How many lines the index has; with 10,000 the test takes five times as long.
LINES = 2_000
MOVE = [sys.executable, EXAMPLES / "from-openssl-index.py"]
REASONS = ["", "unspecified", "keyCompromise", "affiliationChanged", "superseded", "cessationOfOperation", "CACompromise", "certificateHold"]
# For each reason word of openssl: the reason code of its own CRL (THEIRS), and that of the register (OURS). 0 is no reason code.
THEIRS = {"": 0, "unspecified": 0, "keyCompromise": 1, "CACompromise": 2, "affiliationChanged": 3, "superseded": 4, "cessationOfOperation": 5,
          "certificateHold": 6, "keyTime": 1, "CAkeyTime": 2, "holdInstruction": 6}
OURS = THEIRS | {"CACompromise": 1, "certificateHold": 0, "CAkeyTime": 1, "holdInstruction": 0}
CONFIG = """[ca]
default_ca = it
[it]
dir = .
database = index.txt
new_certs_dir = newcerts
serial = serial
crlnumber = crlnumber
certificate = ca.pem
private_key = ca.key
default_md = sha256
default_crl_days = 8
policy = any
unique_subject = no
[any]
commonName = supplied
"""


def asn1(at):
    return time.strftime("%y%m%d%H%M%SZ", time.gmtime(at))


def drawn(count, now):
    """Certificates of an index: each begins in the last three years and lasts for 365 days. One in six is revoked, some at impossible moments."""
    draw, made, serials = random.Random(5280), [], set()
    while len(serials) < count:
        serials.add(draw.randrange(1, 2 ** draw.choice([16, 63, 159])))
    for at, serial in enumerate(sorted(serials, key=lambda serial: serial * 2654435761 % 2**32)):
        # No certificate begins or ends within an hour of now, so none expires during the test.
        begun = now - draw.randrange(3600, 3 * 365 * DAY) // 7200 * 7200 - 3600
        holder = f"host{at % (count // 2 + 1)}.example"
        made.append({"serial": serial, "begun": begun, "ends": begun + 365 * DAY, "revoked": None, "reason": "", "holder": holder})
    for cert in draw.sample(made, count // 6):
        cert["revoked"] = draw.randrange(cert["begun"], min(cert["ends"], now) + 1)
        cert["reason"] = draw.choice(REASONS)
        if draw.random() < 0.02:
            cert["reason"] = draw.choice(["keyTime," + re.sub("[-:T]", "", moment_of(cert["begun"])), "holdInstruction,1.2.840.10040.2.1"])
    odd = [cert for cert in made if cert["revoked"] is not None]
    for cert in odd[:3]:
        cert["revoked"] = cert["begun"] - DAY
    for cert in [cert for cert in odd[3:] if cert["ends"] < now - 2 * DAY][:3]:
        cert["revoked"] = cert["ends"] + DAY
    for cert in [cert for cert in odd[3:] if cert["ends"] > now + 3 * DAY][:3]:
        cert["revoked"] = now + 2 * DAY
    return made


def index_of(certs, now):
    """The text of an index.txt, as `openssl ca` writes it."""
    lines = []
    for cert in certs:
        state = "R" if cert["revoked"] is not None else ("E" if cert["ends"] < now and cert["serial"] % 3 else "V")
        revoked = "" if cert["revoked"] is None else asn1(cert["revoked"]) + ("," + cert["reason"] if cert["reason"] else "")
        serial = f"{cert['serial']:X}"
        serial = serial.zfill(len(serial) + len(serial) % 2)
        lines.append(f"{state}\t{asn1(cert['ends'])}\t{revoked}\t{serial}\tunknown\t/C=XX/O=Example/CN={cert['holder']}\n")
    return "".join(lines)


def reason_of(cert):
    return OURS[cert["reason"].partition(",")[0]]


def is_late(cert):
    """Whether the index has a revocation after notAfter. The register can't revoke an expired certificate."""
    return cert["revoked"] is not None and cert["revoked"] > cert["ends"]


def status_of(cert, now):
    """The expected reply of the register to `status`: that of the index, except where a register can't have such a revocation."""
    if cert["revoked"] is not None and not is_late(cert):
        return f"revoked {moment_of(min(cert['revoked'], now))} reason {reason_of(cert)}"
    return "expired" if cert["ends"] < now else "good"


def answers(t, der):
    """The content of an OCSP response as openssl prints it: for each serial number the status, and the moment and reason of its revocation."""
    (t.room / "read.der").write_bytes(der)
    text = t.tool("openssl", "ocsp", "-respin", "read.der", "-noverify", "-resp_text").decode()
    said = {}
    for part in text.split("Serial Number: ")[1:]:
        serial, status = re.match(r"([0-9A-F]+)\s+Cert Status: (\w+)", part).groups()
        at, reason = re.search(r"Revocation Time: (.*)", part), re.search(r"Revocation Reason: .*? \(0x(\w+)\)", part)
        said.setdefault(int(serial, 16), (status, openssl_time(at[1]) if at else None, int(reason[1], 16) if reason else 0))
    return said


def make_ca(t, index=""):
    """Makes a CA in the test's folder, with the configuration and the files of `openssl ca`, and returns it."""
    it = Authority(t)
    (t.room / "newcerts").mkdir()
    attributes = "unique_subject = no\n"
    files = {"ca.cnf": CONFIG, "serial": "1000\n", "crlnumber": "2A\n", "index.txt": index, "index.txt.attr": attributes}
    for name, text in files.items():
        (t.room / name).write_text(text)
    return it


def moved(t, *words, status=0):
    ran = t.tried(*MOVE, *words, env={**os.environ, "TZ": "America/New_York"})
    t.same(ran.returncode, status, f"status of from-openssl-index.py, which printed {ran.stderr[-500:]!r}")
    return ran.stdout.decode(), ran.stderr.decode().splitlines()


def asked(t, lines, now, file="ca.db"):
    return t.done("script", file, given="".join(f"{moment_of(now)} {line}\n" for line in lines)).splitlines()


def differences(got, wanted):
    """The values that differ, so that a failure does not show thousands of equal ones."""
    return {it: (got.get(it), wanted.get(it)) for it in got.keys() | wanted.keys() if got.get(it) != wanted.get(it)}


@test(seconds=25)
def an_index_of_many_lines(t):
    now = authority.now()
    certs = drawn(LINES, now)
    it = make_ca(t, index_of(certs, now))
    written, told = moved(t, "index.txt", "--days", "365", status=1)
    t.same((written, "are on hold" in told[0]), ("", True), "nothing is written if certificates are on hold and --hold is missing")
    words = ("index.txt", "--days", "365", "--hold", "revoke", "--crlnumber", "crlnumber", "--now", moment_of(now))
    late = sorted(cert["serial"] for cert in certs if is_late(cert))
    written, told = moved(t, *words, status=1)
    t.same((written, told[-len(late) :]), ("", [f"{serial:X}" for serial in late]), "no script, and the revocations that would be lost")
    (t.room / "lost").write_text("# Revoked after their end.\n" + "".join(f"{serial:x} had ended\n" for serial in late))
    script, told = moved(t, *words, "--leave-out", "lost")
    for word in ("on hold", "CACompromise", "invalidity", "still to come", "ended before"):
        t.true(any(word in line for line in told), f"no message has the words {word!r}")
    lines = script.splitlines()
    moments = [line[:20] for line in lines]
    t.same((moments == sorted(moments), moments[-1] <= moment_of(now)), (True, True), "whether the moments rise, and none is in the future")
    revoked = sum(1 for cert in certs if status_of(cert, now).startswith("revoked"))
    t.same(told[-2:], [f"{revoked + len(late)} revocations read, {revoked} entered, {len(late)} left out",
                       f"{LINES} lines of the index, {LINES} certificates, {revoked} revocations, {len(lines)} lines of the script"])
    file = it.register(authority.in_memory(t) / "ca.db")
    replies = t.done("script", file, given=script).splitlines()
    t.same((len(replies), [reply for reply in replies if re.match("[EF][0-9]", reply)]), (len(lines), []), "the count of replies, and the refusals")
    got = dict(zip((cert["serial"] for cert in certs), asked(t, [f"status {cert['serial']:x}" for cert in certs], now, file)))
    t.same(differences(got, {cert["serial"]: status_of(cert, now) for cert in certs}), {}, "serial numbers with another status than expected")
    said = [status_of(cert, now).split()[0] for cert in certs]
    t.same(asked(t, ["counts"], now, file), [f"good {said.count('good')} revoked {said.count('revoked')} expired {said.count('expired')}"])
    its_crl_is_that_of_gencrl(t, file, certs, now)
    its_ocsp_is_that_of_openssl(t, file, it, certs, now)
    t.same(t.done("audit", file), f"sound, {LINES} certificates, {revoked} revoked, {0x2A} CRLs\n")


def its_crl_is_that_of_gencrl(t, file, certs, now):
    # openssl lists all revoked certificates of the index, expired ones too.
    pem = t.tool("openssl", "ca", "-config", "ca.cnf", "-gencrl", "-batch", "-out", "theirs.pem")
    theirs = listed(t, t.tool("openssl", "crl", "-in", "theirs.pem", "-outform", "DER"))
    t.same(asked(t, ["crl"], now, file)[0].split()[:2], ["crl", str(0x2A)], "the CRL number, which is that of openssl's next CRL")
    ours = listed(t, t.done("crl", file).encode("latin-1"))
    by_serial = {cert["serial"]: cert for cert in certs}
    wanted = {serial: (min(at, now), reason_of(by_serial[serial])) for serial, (at, _) in theirs.items() if not is_late(by_serial[serial])}
    t.true(len(wanted) > LINES // 8, f"only {len(wanted)} entries; openssl printed {pem[-200:]!r}")
    t.same(differences(ours, wanted), {}, "entries that differ from those of openssl ca -gencrl, without late revocations")


def its_ocsp_is_that_of_openssl(t, file, it, certs, now):
    desk = t.open(file, "--requests", "1000", command="serve")
    theirs, ours, size = {}, {}, 500
    for first in range(0, len(certs), size):
        request = it.asks(*(f"{cert['serial']:x}" for cert in certs[first : first + size]))
        responder = ("-index", "index.txt", "-CA", it.pem, "-rsigner", it.pem, "-rkey", it.key)
        t.tool("openssl", "ocsp", *responder, "-reqin", "asked.der", "-respout", "theirs.der")
        theirs |= answers(t, (t.room / "theirs.der").read_bytes())
        ours |= answers(t, body_of(t, desk.ask("POST", "/ocsp", request)))
    desk.end()
    t.same(len(ours), len(certs), "how many serial numbers are answered")
    by_serial = {cert["serial"]: cert for cert in certs}
    compared = {serial: said for serial, said in theirs.items() if not is_late(by_serial[serial])}
    wanted = {serial: (status, None if at is None else min(at, now), reason_of(by_serial[serial]) if status == "revoked" else 0)
              for serial, (status, at, _) in compared.items()}
    t.same(differences({serial: ours[serial] for serial in compared}, wanted), {}, "answers that differ from those of openssl ocsp -index")
    # openssl does not answer for lines of state E. The register answers good, as for each certificate that is not revoked.
    unanswered = {cert["serial"] for cert in certs} - theirs.keys()
    t.same((len(unanswered) > 0, {ours[serial][0] for serial in unanswered}), (True, {"good"}), "what openssl does not answer")


def issue(t, *certs):
    """Issues a certificate by `openssl ca` for each pair of a name and a number of days. The serial numbers are 1000, 1001, ..."""
    for name, days in certs:
        key = authority.KEYS["ecdsa-sha256"]
        t.tool("openssl", "req", "-newkey", *key, "-nodes", "-keyout", "x.key", "-out", "x.csr", "-subj", f"/CN={name} & sons")
        t.tool("openssl", "ca", "-config", "ca.cnf", "-batch", "-in", "x.csr", "-out", "x.pem", "-days", days, "-notext")


def revoke(t, serial, reason):
    t.tool("openssl", "ca", "-config", "ca.cnf", "-revoke", f"newcerts/{serial}.pem", "-crl_reason", reason)


def is_refused_by(t, crl, serial):
    """Whether `openssl verify` rejects a certificate because this CRL lists it."""
    told = t.tried("openssl", "verify", "-crl_check", "-CAfile", "ca.pem", "-CRLfile", crl, f"newcerts/{serial}.pem")
    t.same(told.returncode == 0, b"certificate revoked" not in told.stderr, f"openssl verify of {serial} printed {told.stderr!r}")
    return told.returncode != 0


@test(seconds=4)
def a_revocation_that_the_register_can_t_take(t):
    """openssl's CRL lists a certificate of 731 days, which no register takes. Nothing is written until the operator lists it for --leave-out."""
    it = make_ca(t)
    issue(t, ("a", 90), ("b", 730), ("c", 30))
    revoke(t, "1000", "superseded")
    revoke(t, "1001", "keyCompromise")
    revoke(t, "1002", "cessationOfOperation")
    t.tool("openssl", "ca", "-config", "ca.cnf", "-gencrl", "-out", "theirs.pem")
    # The index that is moved lacks a revocation that openssl's CRL has.
    kept = [line for line in (t.room / "index.txt").read_text().splitlines(keepends=True) if "\t1002\t" not in line]
    (t.room / "kept.txt").write_text("".join(kept))
    words = ("kept.txt", "--certs", "newcerts", "--crlnumber", "crlnumber")
    written, told = moved(t, *words, status=1)
    t.same(written, "", "nothing is written")
    t.same(told[0], "line 2, serial number 1001: left out: valid for 731 days, both ends counted, and no register takes more than 398; "
                    "its revocation would be lost")
    t.same(told[1:], ["2 revocations read, 1 entered, 1 left out",
                      "from-openssl-index: 1 revocations would be lost; nothing was written. To lose them, list them in a file of --leave-out:", "1001"])
    words = (*words, "--old-crl", "theirs.pem")
    written, told = moved(t, *words, status=1)
    t.same((written, told[-2:]), ("", ["1001", "1002"]), "the revocations that would be lost, also the one that only the old CRL has")
    lacks = [line.partition(": ")[2] for line in told if "old CRL" in line]
    said = "on the old CRL, and missing from the first new one"
    t.same(lacks, [said, f"{said}; the index has no revocation of it"], "each entry that the first new CRL would lack")
    t.same([line.split(",")[0] for line in told if "old CRL" in line], ["serial number 1001", "serial number 1002"])
    (t.room / "lost").write_text("1001 stays with openssl until it has ended\n")
    written, told = moved(t, *words, "--leave-out", "lost", status=1)
    t.same((written, told[-1]), ("", "1002"), "the revocation that --leave-out does not list")
    (t.room / "lost").write_text("# Both.\n\n1001 stays with openssl until it has ended\n1002\n1000\n")
    t.tool("openssl", "crl", "-in", "theirs.pem", "-outform", "DER", "-out", "theirs.crl")
    script, told = moved(t, *words[:-1], "theirs.crl", "--leave-out", "lost")
    t.same(told[-3:-1], ["serial number 1000: entered, although --leave-out lists it", "2 revocations read, 1 entered, 1 left out"])
    t.same([line for line in told if "crlnumber" in line], [], "messages that ask for --crlnumber, which is given")
    it.signer()
    it.register()
    t.same([reply for reply in t.done("script", "ca.db", *it.signing(), given=script).splitlines() if reply[0] in "EF"], [], "refusals")
    t.same(t.done("script", "ca.db", "--clock", *it.signing(), given="crl\n"), "crl 43 entries 1\n")
    (t.room / "ours.pem").write_bytes(t.tool("openssl", "crl", given=t.done("crl", "ca.db").encode("latin-1")))
    t.same([is_refused_by(t, "theirs.pem", serial) for serial in ("1000", "1001", "1002")], [True, True, True], "revoked by openssl's latest CRL")
    t.same([is_refused_by(t, "ours.pem", serial) for serial in ("1000", "1001", "1002")], [True, False, False], "revoked by the register's first CRL")


@test(seconds=3)
def subscribers_have_the_names_of_register_pem(t):
    """register-pem.sh makes the same names, so it finds a new certificate's subscriber. Two subjects with one common name are two subscribers."""
    it = make_ca(t)
    holders = ["Müller", "Möller", "a & sons", "plain.example"]
    for at, name in enumerate(holders):
        t.tool("openssl", "req", "-newkey", *authority.KEYS["ecdsa-sha256"], "-nodes", "-keyout", "x.key", "-utf8", "-out", f"{at}.csr", "-subj", f"/CN={name}")
        t.tool("openssl", "ca", "-config", "ca.cnf", "-batch", "-in", f"{at}.csr", "-out", "x.pem", "-days", "90", "-notext")
    lines = (t.room / "index.txt").read_text()
    (t.room / "index.txt").write_text(lines + lines.splitlines()[-1].replace("\t1003\t", "\t1004\t").replace("/CN=", "/O=Other/CN=") + "\n")
    script, _ = moved(t, "index.txt", "--days", "90")
    names = [line.split()[2] for line in script.splitlines() if line.split()[1] == "subscriber"]
    digest = lambda name: hashlib.sha256(name.encode()).hexdigest()[:16]
    wanted = [f"M-ller.{digest('Müller')}", f"M-ller.{digest('Möller')}", f"a-sons.{digest('a & sons')}", "plain.example", "plain.example.2"]
    t.same(names, wanted)
    it.register()
    t.done("script", "ca.db", given=script)
    t.open()
    for at, _ in enumerate(holders):
        t.tool("openssl", "x509", "-req", "-in", f"{at}.csr", "-CA", it.pem, "-CAkey", it.key, "-set_serial", 5 + at, "-days", "30", "-out", "next.pem")
        told = t.tool("env", f"DESK={program.program()}", "sh", EXAMPLES / "register-pem.sh", "-c", "control", "next.pem").decode()
        t.has(told, f"of subscriber {at + 1}\n")


@test
def each_of_several_subjects_with_one_common_name_is_a_subscriber(t):
    """Also if another subject has the name that one of them would get. A name has 64 characters at most (docs/RULES.md)."""
    longest = "x" * 64
    subjects = ("/CN=acme", "/CN=acme.2", "/O=A/CN=acme", "/O=B/CN=acme", f"/CN={longest}", f"/O=A/CN={longest}")
    (t.room / "index.txt").write_text("".join(f"V\t260301000000Z\t\t{at:02}\tunknown\t{it}\n" for at, it in enumerate(subjects, 1)))
    script, _ = moved(t, "index.txt", "--days", "90", "--now", "2025-12-02T00:00:00Z")
    wanted = ["acme", "acme.2", "acme.3", "acme.4", longest, longest[:62] + ".2"]
    t.same([line.split()[2] for line in script.splitlines() if " subscriber " in line], wanted)


@test
def a_subject_in_latin_1(t):
    """Indexes of old versions of openssl may have such octets."""
    (t.room / "index.txt").write_bytes("V\t260301000000Z\t\t05\tunknown\t/CN=Müller\n".encode("latin-1"))
    script, _ = moved(t, "index.txt", "--days", "90", "--now", "2025-12-02T00:00:00Z")
    names = [line.split()[2].partition(".")[0] for line in script.splitlines() if " subscriber " in line]
    t.same(names, ["M-ller"], "the subscriber's name, without its digest")


@test(seconds=2)
def a_number_that_the_first_crl_would_take_again(t):
    make_ca(t)
    issue(t, ("a", 90))
    revoke(t, "1000", "superseded")
    t.tool("openssl", "ca", "-config", "ca.cnf", "-gencrl", "-out", "theirs.pem")
    words = ("index.txt", "--certs", "newcerts", "--old-crl", "theirs.pem")
    _, told = moved(t, *words)
    t.same(told[:-1], ["the old CRL has number 42, and the first new one would have 1: say --crlnumber", "1 revocations read, 1 entered, 0 left out"])
    _, told = moved(t, *words, "--crlnumber", "crlnumber")
    t.same(told[:-1], ["1 revocations read, 1 entered, 0 left out"])
    for name, text, wanted in (("lost", "05\nx5\n", "lost:2: 'x5' is no serial number"), ("no.crl", "nothing", "openssl can't read the CRL no.crl")):
        (t.room / name).write_text(text)
        written, told = moved(t, *words[:-1], "theirs.pem" if name == "lost" else name, "--leave-out", "lost", status=1)
        t.same((written, told), ("", [f"from-openssl-index: {wanted}; nothing was written"]))
        (t.room / "lost").write_text("")


@test(seconds=4)
def a_small_ca_that_openssl_made(t):
    """With --certs, from-openssl-index.py reads notBefore from the certificates. It reports each line of the index that it leaves out in one line."""
    it = make_ca(t)
    issue(t, ("a", 90), ("b", 365), ("c", 30), ("d", 3650))
    revoke(t, "1001", "superseded")
    lines = (t.room / "index.txt").read_text()
    first = lines.splitlines()[0]
    # Lines that openssl never writes: one with a serial number of another line, and one with too large a serial number.
    (t.room / "odd.txt").write_text(lines + first + "\n" + first.replace("\t1000\t", "\t" + "F" * 40 + "\t") + "\n")
    script, told = moved(t, "odd.txt", "--certs", "newcerts")
    wanted = ["line 4, serial number 1003", "line 5, serial number 1000", "line 6, serial number " + "F" * 40]
    t.same([line.split(": ")[0] for line in told[:-2]], wanted)
    t.same(told[-2], "1 revocations read, 1 entered, 0 left out")
    t.has(told[0], "3651 days")
    it.register()
    replies = t.done("script", "ca.db", given=script).splitlines()
    wanted = [reply for number in (1, 2, 3) for reply in (f"subscriber {number}", f"order {number}", "registered")]
    t.same([reply.partition(" due ")[0] for reply in replies], [*wanted, "request 1", "revoked"])
    got = asked(t, ["status 1000", "status 1001", "status 1002", "status 1003"], authority.now())
    t.same([reply.split()[0] for reply in got], ["good", "revoked", "good", "unknown"])
    t.has(got[1], "reason 4")
    for serial, wanted in (("1000", "Valid (V)"), ("1001", "Revoked (R)")):
        # openssl prints the status on standard error, and always ends with 1.
        t.has(t.tried("openssl", "ca", "-config", "ca.cnf", "-status", serial).stderr.decode(), wanted)


@test
def the_limits_of_a_register(t):
    """The script has the longest validity, the greatest serial number and the last moment that a register takes (docs/RULES.md), and nothing beyond them. With
    --days 397 a certificate is valid for 398 days, both ends counted."""
    greatest = f"{2**159 - 1:X}"
    rows = {"05": ("9999-12-21T23:59:59Z", True), "06": ("9999-12-22T00:00:00Z", False), greatest: ("2026-01-01T00:00:00Z", True), f"{2**159:X}": ("2026-01-01T00:00:00Z", False)}
    index = [f"V\t{re.sub('[-:T]', '', ends)}\t\t{serial}\tunknown\t/CN=a\n" for serial, (ends, _) in rows.items()]
    # A line with `#` is a comment. A year of two digits from 50 on is of the 20th century (RFC 5280 4.1.2.5.1), and these are before 1970.
    index += ["# a comment\n", "V\t500101000000Z\t\t07\tunknown\t/CN=a\n", "V\t690101000000Z\t\t08\tunknown\t/CN=a\n"]
    (t.room / "index.txt").write_text("".join(index))
    script, _ = moved(t, "index.txt", "--days", "397", "--now", "9999-12-01T00:00:00Z")
    registered = [line.split() for line in script.splitlines() if " register " in line]
    t.same(sorted(line[3] for line in registered), sorted(serial for serial, (_, is_taken) in rows.items() if is_taken), "the serial numbers of the script")
    t.same({line.split()[3] for line in script.splitlines() if " order " in line}, {"398"}, "the days of the orders")
    Authority(t).register()
    t.same([reply for reply in t.done("script", "ca.db", given=script).splitlines() if reply[0] in "EF"], [], "refusals")


# A second line of an index, because of which nothing is written, and a part of the message.
UNREADABLE = {
    "too few fields": ("V\t26\n", "bad.txt:2: no line of an index"),
    "another state": ("X\t260101000000Z\t\t06\tunknown\t/CN=a\n", "bad.txt:2: no line of an index"),
    "a serial number that is none": ("V\t260101000000Z\t\t0G\tunknown\t/CN=a\n", "bad.txt:2: no line of an index"),
    "a moment that is none": ("V\t261301000000Z\t\t06\tunknown\t/CN=a\n", "is no time; nothing was written"),
    "revoked with no moment": ("R\t260101000000Z\t\t06\tunknown\t/CN=a\n", "bad.txt:2: a revoked line has a moment"),
    "a moment and not revoked": ("V\t260101000000Z\t250101000000Z\t06\tunknown\t/CN=a\n", "bad.txt:2: a revoked line has a moment"),
    "a reason that is none": ("R\t260101000000Z\t250601000000Z,boredom\t06\tunknown\t/CN=a\n", "bad.txt:2: the reason 'boredom' is none of"),
    "on hold": ("R\t260101000000Z\t250601000000Z,certificateHold\t06\tunknown\t/CN=a\n", "1 certificates are on hold, the first at line 2"),
}


@each(UNREADABLE)
def an_index_that_can_t_be_moved(t, line, wanted):
    (t.room / "bad.txt").write_text("V\t260101000000Z\t\t05\tunknown\t/CN=first\n" + line)
    script, told = moved(t, "bad.txt", "--days", "90", status=1)
    t.same((script, len(told)), ("", 1), "nothing is written")
    t.has(told[0], wanted)
    t.has(told[0], "nothing was written")


@test
def holds_that_are_said_to_be_good(t):
    (t.room / "index.txt").write_text("R\t260101000000Z\t251101000000Z,certificateHold\t05\tunknown\t/CN=a\n")
    it = Authority(t)
    for said, status in (("good", "good"), ("revoke", "revoked 2025-11-01T00:00:00Z reason 0")):
        script, told = moved(t, "index.txt", "--days", "90", "--hold", said, "--now", "2025-12-01T00:00:00Z")
        t.has(told[0], "line 1, serial number 05: it was on hold, and is ")
        it.register(f"{said}.db")
        t.done("script", f"{said}.db", given=script)
        t.same(t.done("script", f"{said}.db", given="2025-12-01T00:00:00Z status 05\n"), f"{status}\n", said)


@test
def a_certificate_whose_assumed_start_lies_after_today(t):
    """A certificate was made for more days than --days says. from-openssl-index.py reports it, leaves it out, and moves the others."""
    lines = ["V\t260301000000Z\t\t05\tunknown\t/CN=a\n", "V\t261130000000Z\t\t06\tunknown\t/CN=b\n",
             "R\t261130000001Z\t251101000000Z,superseded\t07\tunknown\t/CN=c\n", "V\t260301000001Z\t\t08\tunknown\t/CN=d\n"]
    (t.room / "index.txt").write_text("".join(lines))
    written, told = moved(t, "index.txt", "--days", "90", "--now", "2025-12-01T00:00:00Z", status=1)
    t.same((written, told[-1]), ("", "7"), "the serial number of the revocation that would be lost")
    (t.room / "lost").write_text("07\n")
    script, told = moved(t, "index.txt", "--days", "90", "--now", "2025-12-01T00:00:00Z", "--leave-out", "lost")
    unknown = "left out: its notBefore is not known, 90 days before its end are"
    said = "which is still to come: say --certs, or the days that it was made for"
    # By --days 90, the first certificate begins exactly now, and the last one a second later.
    t.same(told, [f"line 2, serial number 06: {unknown} 2026-09-01T00:00:00Z, {said}",
                  f"line 3, serial number 07: {unknown} 2026-09-01T00:00:01Z, {said}; its revocation would be lost",
                  f"line 4, serial number 08: {unknown} 2025-12-01T00:00:01Z, {said}",
                  "1 revocations read, 0 entered, 1 left out",
                  "4 lines of the index, 1 certificates, 0 revocations, 3 lines of the script"])
    t.same(script.splitlines()[-1], "2025-12-01T00:00:00Z register 1 05 2025-12-01T00:00:00Z 2026-03-01T00:00:00Z")
    Authority(t).register()
    t.done("script", "ca.db", given=script)
    asks = "".join(f"2025-12-01T00:00:00Z status 0{serial}\n" for serial in (5, 6, 7, 8))
    t.same(t.done("script", "ca.db", given=asks), "good\nunknown\nunknown\nunknown\n")
    # With the right number of days, each certificate is moved.
    script, told = moved(t, "index.txt", "--days", "365", "--now", "2025-12-01T00:00:00Z")
    t.same(told, ["1 revocations read, 1 entered, 0 left out", "4 lines of the index, 4 certificates, 1 revocations, 14 lines of the script"])
