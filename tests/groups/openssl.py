"""The program with openssl and curl: OCSP requests and answers, CRLs, each route, and the examples that use them, run as they are."""

import contextlib
import os
import re
import shutil
from pathlib import Path

from lib import authority, program
from lib.authority import DAY, EXAMPLES, MALFORMED, Authority, body_of, first_day, first_day_replies, moment_of
from lib.trial import Failed, Skipped, each, test

GREATEST = "7fffffffffffffffffffffffffffffffffffffff"
JSON_TYPE, OCSP_TYPE, CRL_TYPE = "application/json", "application/ocsp-response", "application/pkix-crl"


def register_of_a_day(t, it, begun):
    it.register()
    t.same(t.done("script", "ca.db", given=first_day(begun)).splitlines(), first_day_replies(begun))


# OCSP: requests by openssl, and answers that it reads

# Options of `openssl ocsp`, whether it sends a nonce, and the status of each serial number.
REQUESTS = {
    "one by SHA-1, with a nonce": (["5"], True, ["good"]),
    "one by SHA-1, no nonce": (["5"], False, ["good"]),
    "one by SHA-256, with a nonce": (["-sha256", "5"], True, ["good"]),
    "the greatest by SHA-256, no nonce": (["-sha256", GREATEST], False, ["good"]),
    "some by SHA-1": (["5", "80", "1234567890"], True, ["good", "revoked", "unknown"]),
    "some by SHA-1 and SHA-256": (["5", "-sha256", "80", "-sha1", "7"], True, ["good", "revoked", "good"]),
    "one twice": (["80", "80"], False, ["revoked", "revoked"]),
    "hashes that no certificate of the issuer has": (["-sha384", "5", "-sha512", "80"], True, ["unknown", "unknown"]),
}


def nonce_in(text):
    found = re.search(r"OCSP Nonce:\s*\n\s*([0-9A-F]+)", text)
    return found[1] if found else None


@each(REQUESTS, seconds=3)
def openssl_asks_and_reads(t, words, nonce, told):
    """The answer repeats each CertID and the nonce byte for byte, by `desk script` and over HTTP by POST and GET. openssl reads each answer."""
    it = Authority(t)
    it.register()
    begun = authority.now()
    begins, ends = moment_of(begun), moment_of(begun + 90 * DAY)
    lines = ["subscriber acme", *["order 1 398"] * 4]
    # 07 has ended before the request. Its OCSP status is still good.
    validities = ((5, ends), (80, ends), (7, begins), (GREATEST, ends))
    lines += [f"register {order} {serial} {begins} {last}" for order, (serial, last) in enumerate(validities, 1)]
    lines += ["request 80 superseded", "revoke 1"]
    t.same([one[0] for one in t.done("script", "ca.db", given="".join(f"{begins} {one}\n" for one in lines)).splitlines() if one[0] in "EF"], [])
    request = it.asks(*words, nonce=nonce)
    text = t.tool("openssl", "ocsp", "-reqin", "asked.der", "-req_text", "-noverify").decode()
    t.same(nonce_in(text) is not None, nonce, "a nonce in the request")
    later = begun + 5
    t.clock(later)
    by_line = t.done("script", "ca.db", given=f"{moment_of(later)} ocsp {request.hex()}\n").strip()
    desk = t.open("ca.db", "--requests", "9", command="serve")
    ways = {"by a line": bytes.fromhex(by_line.removeprefix("ocsp ")), "by POST": body_of(t, desk.ask("POST", "/ocsp", request)),
            "by GET": body_of(t, desk.ask("GET", authority.path_of(request)))}
    serials = [word.upper().zfill(len(word) + len(word) % 2) for word in words if not word.startswith("-")]
    for way, response in ways.items():
        t.same(authority.answered_ids(response), authority.cert_ids(request), f"CertIDs {way}")
        (t.room / "said.der").write_bytes(response)
        said = t.tool("openssl", "ocsp", "-respin", "said.der", "-noverify", "-resp_text").decode()
        t.has(said, "OCSP Response Status: successful (0x0)", way)
        produced = re.search(r"Produced At: (.*)", said)[1]
        t.same(authority.openssl_time(produced), later, f"Produced At {way}")
        # All three ways give the same bytes, with a placeholder digest.
        got = re.findall(r"Serial Number: ([0-9A-F]+)\s+Cert Status: (\w+)", said)
        t.same(got, list(zip(serials, told)), f"statuses {way}")
        t.same(nonce_in(said), nonce_in(text), f"the nonce {way}")
        t.same({authority.openssl_time(one) for one in re.findall(r"This Update: (.*)", said)}, {later}, f"This Update {way}")
        t.same({authority.openssl_time(one) for one in re.findall(r"Next Update: (.*)", said)}, {later + 345_600}, f"Next Update {way}")
        revoked = "revoked" in told
        moments = {authority.openssl_time(one) for one in re.findall(r"Revocation Time: (.*)", said)}
        t.same(moments, {begun} if revoked else set(), f"Revocation Time {way}")
        t.same(set(re.findall(r"Revocation Reason: (\w+) ", said)), {"superseded"} if revoked else set(), f"Revocation Reason {way}")
    t.same(len(set(ways.values())), 1, "how many different answers the three ways give")


@test
def another_issuer_s_certificates_are_unknown(t):
    it, other = Authority(t), Authority(t, name="other", subject="/CN=Other")
    register_of_a_day(t, it, authority.now())
    desk = t.open("ca.db", "--requests", "9", command="serve")
    for whose, told in ((it, "revoked"), (other, "unknown")):
        t.same(whose.reads("05", body_of(t, desk.ask("POST", "/ocsp", whose.asks("05"))), verify=False), told, whose.name)


# Each route by curl


class Curl:
    """Sends requests to one server. A call returns the status with the content type, and the body."""

    def __init__(self, t, port):
        self.t, self.url = t, f"http://127.0.0.1:{port}"

    def __call__(self, path, *words, given=b""):
        told = self.t.tool("curl", "-s", "-o", "body", "-w", "%{http_code} %{content_type}", *words, self.url + path, given=given).decode()
        body = (self.t.room / "body").read_bytes()
        return told, body

    def same(self, path, wanted, body, *words, kind=JSON_TYPE, given=b""):
        self.t.same(self(path, *words, given=given), (f"{wanted} {kind}", body), f"{' '.join(words)} {path}")


@test(seconds=3)
def each_route_by_curl(t):
    it = Authority(t)
    begun = authority.now()
    register_of_a_day(t, it, begun)
    curl = Curl(t, t.open("ca.db", "--requests", "1000", command="serve").port)
    curl.same("/counts", 200, b'{"expired":0,"good":1,"revoked":1}')
    curl.same("/status/06", 200, b'{"status":"good"}')
    curl.same("/status/05", 200, b'{"at":"%s","reason":1,"status":"revoked"}' % moment_of(begun).encode())
    curl.same("/status/07", 200, b'{"status":"unknown"}')
    curl.same("/status/06?x=1", 200, b'{"status":"good"}')
    curl.same("/status/0", 400, b'{"error":"E22 syntax"}')
    curl.same("/nowhere", 404, b'{"error":"404"}')
    curl.same("/counts", 405, b'{"error":"405"}', "-X", "DELETE")
    curl.same("/crl/2", 404, b'{"error":"E21 no-crl"}')
    for path in ("/crl", "/crl/1"):
        told, crl = curl(path)
        t.same(told, f"200 {CRL_TYPE}", path)
        text = t.tool("openssl", "crl", "-inform", "DER", "-noout", "-text", given=crl).decode()
        t.same(re.search(r"X509v3 CRL Number:.*\n\s*(\d+)", text)[1], "1", f"the CRL number at {path}")
        t.same(authority.listed(t, crl), {5: (begun, 1)}, f"the entries of the CRL at {path}")
    curl.same("/requests", 409, b'{"error":"E15 no-hold"}', "-d", '{"ground":"hold","serial":"06"}')
    told, body = curl("/requests", "-d", '{"ground":"superseded","serial":"06"}')
    t.same((told, re.sub(rb"\d{4}-\d\d-\d\dT\d\d:\d\d:\d\dZ", b"M", body)), (f"200 {JSON_TYPE}", b'{"due":"M","request":2}'))
    curl.same("/ocsp", 413, b'{"error":"413"}', "--data-binary", "@-", given=b"\0" * 65_537)
    curl.same("/ocsp", 200, MALFORMED, "--data-binary", "@-", kind=OCSP_TYPE, given=b"\0" * 65_536)
    curl.same("/ocsp", 200, MALFORMED, "--data-binary", "garbage", kind=OCSP_TYPE)
    told, body = curl(authority.path_of(it.asks("06")))
    t.same((told, it.reads("06", body, verify=False)), (f"200 {OCSP_TYPE}", "good"), "OCSP by GET")
    for serial, status in (("05", "revoked"), ("06", "good"), ("07", "unknown")):
        t.same(it.asked_by_openssl(serial, curl.url + "/ocsp"), status, f"openssl ocsp -url, {serial}")
        t.same(it.asked_by_openssl(serial, curl.url + "/ocsp", "-sha256"), status, f"openssl ocsp -sha256 -url, {serial}")


@test(seconds=2)
def it_ends_after_the_given_number_of_connections(t):
    it = Authority(t)
    register_of_a_day(t, it, authority.now())
    desk = t.open("ca.db", "--requests", "3", command="serve")
    curl = Curl(t, desk.port)
    for _ in range(3):
        curl.same("/status/06", 200, b'{"status":"good"}')
    ended = desk.wait()
    t.same((ended.status, ended.out, ended.err), (0, b"", b""), "status, standard output after the line with the port, standard error")
    # Two clients that send nothing delay no other client. Their connections count too.
    desk = t.open("ca.db", "--requests", "3", command="serve")
    with contextlib.ExitStack() as silent:
        for _ in range(2):
            silent.enter_context(desk.connect())
        Curl(t, desk.port).same("/status/06", 200, b'{"status":"good"}', "-m", "20")
        t.same(desk.process.poll(), None, "the exit status while the two clients are connected")
    t.same(desk.wait().status, 0, "the exit status once the two clients are gone")


@test(seconds=3)
def a_revocation_is_in_the_next_answer_of_an_open_desk(t):
    it = Authority(t)
    register_of_a_day(t, it, authority.now())
    desk = t.open("ca.db", "--control", "ca.control")
    curl = Curl(t, desk.port)
    t.same((t.room / "ca.control").stat().st_mode & 0o777, 0o600, "the mode of the control socket")
    t.same(t.done("at", "ca.control", given="request 06 superseded\n").split()[:3], ["request", "2", "due"])
    t.same(it.asked_by_openssl("06", curl.url + "/ocsp"), "good", "OCSP before the revocation")
    ran = t.desk("at", "ca.control", given="revoke 2\ncounts")
    t.same((ran.status, ran.out, ran.err), (3, b"revoked\n", b"no-line-end\n"), "a last line without LF, which is not sent")
    t.same(it.asked_by_openssl("06", curl.url + "/ocsp"), "revoked", "OCSP right after the revocation")
    t.has(curl("/status/06")[1], b'"status":"revoked"')
    t.same(t.done("at", "ca.control", given="crl\n"), "crl 2 entries 2\n")
    t.same(sorted(authority.listed(t, curl("/crl")[1])), [5, 6], "the latest CRL")
    ran = t.desk("at", "ca.control", given="revoke 2\ncounts\n")
    got = (ran.status, ran.err, [one[:4] for one in ran.lines])
    t.same(got, (3, b"refused\n", ["E19 ", "good"]), "a refusal, after which the next line is sent")
    refusal = lambda ran: (ran.status, ran.out, ran.err)
    port = program.free_port()
    t.same(refusal(t.desk("open", "ca.db", "--port", port, "--control", "other", "--unsigned")), (1, b"", b"F2 store\n"), "an open register")
    t.done("init", "other.db", *it.words())
    t.same(refusal(t.desk("open", "other.db", "--port", port, "--control", "ca.control", "--unsigned")), (1, b"", b"F4 read\n"),
           "a control socket on which another desk listens")
    desk.end()
    t.same(refusal(t.desk("at", "ca.control")), (1, b"", b"F4 read\n"), "a control socket on which no desk listens")
    (t.room / "ca.txt").write_text("precious\n")
    t.same(refusal(t.desk("open", "ca.db", "--port", port, "--control", "ca.txt", "--unsigned")), (1, b"", b"F4 read\n"), "a path of another file")
    t.same((t.room / "ca.txt").read_text(), "precious\n", "the file at the control path")
    t.open("ca.db", "--control", "ca.control")
    t.same(t.done("at", "ca.control", given="counts\n"), "good 0 revoked 2 expired 0\n", "a stale control socket, which is replaced")


# The examples


def play(t, *words, where=None, more=None, status=0):
    """Runs a script of examples/ with the tested program as its `desk`, where the local time is not UTC."""
    env = dict(os.environ, DESK=program.program(), TZ="America/New_York", **(more or {}))
    ran = t.tried(*words, env=env) if where is None else t.tried("env", "-C", where, *words, env=env)
    t.same(ran.returncode, status, f"status of {words[0]}, which printed {(ran.stdout + ran.stderr)[-2000:]!r}")
    return ran


@each({"as it stands": None, "with no socat": "hidden"}, seconds=6)
def the_walkthrough(t, hidden):
    """examples/openssl-walkthrough.sh runs in a folder whose `desk` is the tested program. openssl verifies the CRL and the OCSP answer."""
    if hidden or not shutil.which("socat"):
        authority.need_cryptography(t)
    top = authority.stood_in(t)
    more = {"TMPDIR": str(t.room)}
    if hidden:
        # This PATH has every tool except socat.
        tools = t.room / "tools"
        tools.mkdir()
        for folder in ("/usr/local/bin", "/usr/bin", "/bin"):
            for it in Path(folder).iterdir() if Path(folder).is_dir() else ():
                if it.name != "socat" and not (tools / it.name).is_symlink():
                    (tools / it.name).symlink_to(it)
        more["PATH"] = str(tools)
    ran = play(t, "sh", top / "examples/openssl-walkthrough.sh", str(program.free_port()), where=top, more=more)
    told = ran.stdout.decode()
    left = re.search(r"== Done; everything is in (/tmp/desk-walkthrough\.\w+)\n", told)
    if not left:
        raise Failed(f"it did not come to its end: {told[-1000:]}")
    t.callback(shutil.rmtree, left[1], ignore_errors=True)
    for part in ("\nverify OK", "Response verify OK", "acme.pem: revoked", "Reason: keyCompromise", "Serial Number: 05", "crl 1 entries 1",
                 '{"expired":0,"good":0,"revoked":1}', '"reason":1,"status":"revoked"'):
        t.has(told, part)
    replies = [one for one in told.splitlines() if re.match("[EF][0-9][0-9]? ", one)]
    t.same(replies, [], "refusals and faults")


@each({"the CRL": ("crl", "verify OK"), "the OCSP answer": ("ocsp", "Response verify OK")}, seconds=5)
def the_walkthrough_fails_if_openssl_does_not_verify(t, command, told):
    """Its exit status is 1 then, though that of openssl is 0. Here openssl says so of what it has verified."""
    authority.need_cryptography(t)
    top = authority.stood_in(t)
    (t.room / "bin").mkdir()
    (t.room / "bin/openssl").write_text(f"""#!/bin/sh
[ "$1" = {command} ] || exec {shutil.which("openssl")} "$@"
pwd > {t.room}/where
{shutil.which("openssl")} "$@" 2>&1 | sed "s/{told}/verify failure/"
""")
    (t.room / "bin/openssl").chmod(0o755)
    more = {"PATH": f"{t.room}/bin:{os.environ['PATH']}"}
    ran = play(t, "sh", top / "examples/openssl-walkthrough.sh", str(program.free_port()), where=top, more=more, status=1)
    t.callback(shutil.rmtree, (t.room / "where").read_text().strip(), ignore_errors=True)
    t.same((b"\nverify failure\n" in ran.stdout, b"== Done" in ran.stdout), (True, False), f"its output, which ends with {ran.stdout[-300:]!r}")


@test(seconds=4)
def issue_due_crl_issues_one_where_it_is_due(t):
    script = EXAMPLES / "issue-due-crl.sh"
    it = Authority(t)
    it.register()
    signer = it.signer()
    desk = t.open("ca.db", "--control", "control", *it.signing())
    control = t.control()
    t.same(play(t, "bash", script, "control").stdout, b"crl 1 entries 0\n", "the first CRL, which is due at once")
    t.same(play(t, "bash", script, "control").stdout, b"", "no second CRL within the week")
    t.same(len(signer.asked), 1, "signatures")
    t.same(control.ask("counts"), "good 0 revoked 0 expired 0")
    it.verifies(body_of(t, desk.ask("GET", "/crl"), CRL_TYPE))
    ran = play(t, "bash", script, status=2)
    t.has(ran.stderr, b"usage: ")
    ran = play(t, "bash", script, "nobody", status=1)
    t.same((ran.stdout, b"no reply" in ran.stderr), (b"", True), "no desk listens")


@test(seconds=4)
def issue_due_crl_behind_a_placeholder_digest(t):
    """If the latest CRL has a placeholder digest and the desk has a signer now, the script issues a signed CRL at once."""
    script = EXAMPLES / "issue-due-crl.sh"
    it = Authority(t)
    it.register()
    now = moment_of(authority.now())
    t.done("script", "ca.db", given=f"{now} crl\n")
    it.signer()
    unsigned = t.open("ca.db")
    t.same(play(t, "bash", script, "control").stdout, b"", "a desk without a signer")
    unsigned.end()
    desk = t.open("ca.db", "--counter", "control", *it.signing())
    t.same(play(t, "bash", script, "control").stdout, b"crl 2 entries 0\n")
    t.same(play(t, "bash", script, "control").stdout, b"", "no further CRL")
    it.verifies(body_of(t, desk.ask("GET", "/crl"), CRL_TYPE))


@test(seconds=4)
def issue_due_crl_by_the_clock(t):
    """A CRL is due a week after the latest one, or a day after a revocation that no CRL lists. With a failing signer the exit status is 3."""
    script = EXAMPLES / "issue-due-crl.sh"
    # The script compares with the clock of `date`, which no test sets. So the register's commands have earlier moments.
    begun = authority.now()
    for name, ago, revoked, due in (("a week", 7 * DAY, None, True), ("less", 7 * DAY - 3600, None, False), ("a day", 2 * DAY, DAY, True),
                                    ("less than a day", 2 * DAY, DAY - 3600, False)):
        file = f"{name.replace(' ', '-')}.db"
        at = begun - ago
        begins, ends = moment_of(at), moment_of(at + 90 * DAY)
        lines = "".join(f"{begins} {one}\n" for one in ("subscriber acme", "order 1 398", f"register 1 05 {begins} {ends}", "crl"))
        if revoked:
            lines += f"{moment_of(begun - revoked)} request 05 superseded\n{moment_of(begun - revoked)} revoke 1\n"
        t.register(file, lines)
        desk = t.open(file, "--control", f"{file}.control")
        ran = play(t, "bash", script, f"{file}.control")
        t.same(ran.stdout.decode(), f"crl 2 entries {1 if revoked else 0}\n" if due else "", name)
        desk.end()
    t.register("signed.db", key=program.P256_KEY)
    t.open("signed.db", "--control", "signed.control", "--signer", "nobody", "--algorithm", "ecdsa-sha256")
    ran = play(t, "bash", script, "signed.control", status=3)
    t.same((ran.stdout, b"F3 signer" in ran.stderr), (b"", True), "a signer that fails")


# For each ground, whether the test's --at-once issues a CRL at once; control-lost, superseded and nonconforming have the same reason (docs/RULES.md).
AT_ONCE = {"key-compromise": True, "control-lost": True, "superseded": False, "nonconforming": False, "asked": False, "unauthorized": False, "affiliation": False,
           "cessation": False, "misuse": False, "name-not-permitted": False, "inaccurate": False}


@each({it: it for it in AT_ONCE}, seconds=3)
def issue_due_crl_at_once(t, ground):
    """With --at-once the script issues a CRL at once if a certificate was revoked on one of its grounds and no CRL lists it. It also does so in
    the last day before the next CRL, which the revocation makes no earlier."""
    begun = authority.now()
    at_once = ("--at-once", "key-compromise,control-lost", "--port")
    for ago in (DAY, 7 * DAY - 7200):
        begins, ends = moment_of(begun - ago), moment_of(begun + 90 * DAY)
        given = [f"{begins} {one}" for one in ("subscriber acme", "order 1 398", f"register 1 05 {begins} {ends}", "crl")]
        given += [f"{moment_of(begun - 3600)} request 05 {ground}", f"{moment_of(begun - 3600)} revoke 1"]
        t.register(f"{ago}.db", "".join(f"{line}\n" for line in given))
        desk = t.open(f"{ago}.db", "--control", f"{ago}.control")
        issues = ("bash", EXAMPLES / "issue-due-crl.sh", *at_once, desk.port, f"{ago}.control")
        t.same(play(t, "bash", EXAMPLES / "issue-due-crl.sh", f"{ago}.control").stdout, b"", "without --at-once")
        t.same(play(t, *issues).stdout.decode(), "crl 2 entries 1\n" if AT_ONCE[ground] else "", f"{ago} seconds after the latest CRL")
        t.same(play(t, *issues).stdout, b"", "no further CRL")
        desk.end()


@test
def issue_due_crl_takes_each_ground(t):
    """It then looks for a desk, of which there is none."""
    for ground in (*AT_ONCE, ",".join(AT_ONCE)):
        ran = play(t, "bash", EXAMPLES / "issue-due-crl.sh", "--at-once", ground, "nobody", status=1)
        t.true(b"no reply" in ran.stderr, f"after --at-once {ground}: {ran.stderr}")


@test(seconds=3)
def a_crl_is_issued_at_once_and_published_at_the_ipv6_loopback_address(t):
    """The scripts of the package's units work with the address [::1] of a desk with --listen [::1]. The units pass ADDRESS on to them."""
    if "00000000000000000000000000000001" not in Path("/proc/net/if_inet6").read_text():
        raise Skipped("this system has no IPv6 loopback address")
    it = Authority(t)
    it.register()
    it.signer()
    begins, ends = moment_of(authority.now()), moment_of(authority.now() + 90 * DAY)
    desk = t.open("ca.db", "--listen", "[::1]", *it.signing())
    control = t.control()
    for line in ("subscriber acme", "order 1 398", f"register 1 05 {begins} {ends}", "crl", "request 05 key-compromise", "revoke 1"):
        t.true(control.ask(line)[0] not in "EF", line)
    issues = ("bash", EXAMPLES / "issue-due-crl.sh", "--at-once", "key-compromise", "--address", "[::1]", "--port", desk.port, "control")
    t.same(play(t, *issues).stdout, b"crl 2 entries 1\n")
    (t.room / "www").mkdir()
    t.same(play(t, "bash", EXAMPLES / "publish-crl.sh", f"http://[::1]:{desk.port}/crl", "www", "ca.pem").stdout, b"crl 2 published in www\n")
    units = [(EXAMPLES.parent / f"packaging/desk-{it}@.service").read_text() for it in ("crl", "publish")]
    t.same([it.count("${ADDRESS}") for it in units], [1, 1], "the units use ADDRESS")


@test(seconds=5)
def issue_due_crl_at_once_among_many(t):
    """The only certificate that no CRL lists is the last of 300 by its serial number. The script finds it on the second page of the list."""
    now = authority.now()
    begins, ends = moment_of(now), moment_of(now + 90 * DAY)
    given = ["subscriber acme"]
    for at in range(1, 301):
        given += ["order 1 398", f"register {at} {at:04x} {begins} {ends}", f"request {at:04x} key-compromise"]
    given += [*(f"revoke {at}" for at in range(1, 300)), "crl"]
    t.register(lines="".join(f"{begins} {line}\n" for line in given))
    desk = t.open()
    issues = ("bash", EXAMPLES / "issue-due-crl.sh", "--at-once", "key-compromise", "--port", desk.port, "control")
    t.same(play(t, *issues).stdout, b"", "a CRL lists each revoked certificate")
    control = t.control()
    t.same(control.ask("revoke 300").split()[0], "revoked")
    t.same(play(t, *issues, more=authority.NO_PROXY).stdout, b"crl 2 entries 300\n", "no CRL lists one revoked certificate")
    for words, status, told in (((*issues[:5], "1", "control"), 1, b"does not answer /metrics at port 1"), ((*issues[:3], "none", "control"), 2, b"there is no ground none"),
                                (issues[:4], 2, b"usage: "), ((*issues[:3], "", "control"), 2, b"usage: "), ((*issues[:2], "--other", "x", "control"), 2, b"usage: ")):
        ran = play(t, *words, status=status)
        t.same((ran.stdout, told in ran.stderr), (b"", True), f"standard output of {words}, and whether standard error has the cause: {ran.stderr}")


@test(seconds=3)
def issue_due_crl_at_once_fails_if_a_list_does_not_come(t):
    """The script fails if curl can't fetch a list. Here curl fetches all pages but lists."""
    now = moment_of(authority.now())
    ends = moment_of(authority.now() + 90 * DAY)
    given = ["subscriber acme", "order 1 398", f"register 1 05 {now} {ends}", "crl", "request 05 key-compromise", "revoke 1"]
    t.register(lines="".join(f"{now} {line}\n" for line in given))
    desk = t.open()
    (t.room / "bin").mkdir()
    (t.room / "bin/curl").write_text(f'#!/bin/sh\ncase "$*" in *"/list/"*) exit 22 ;; esac\nexec {shutil.which("curl")} "$@"\n')
    (t.room / "bin/curl").chmod(0o755)
    issues = ("bash", EXAMPLES / "issue-due-crl.sh", "--at-once", "key-compromise", "--port", desk.port, "control")
    ran = play(t, *issues, more={"PATH": f"{t.room}/bin:{os.environ['PATH']}"}, status=1)
    t.same((ran.stdout, ran.stderr), (b"", f"control: the desk does not answer /list/revoked?limit=250 at port {desk.port}\n".encode()))
    t.same(play(t, *issues).stdout, b"crl 2 entries 1\n", "once curl can fetch the list")


NAMES = {
    "P-256": ("ecdsa-sha256", "/CN=T"),
    "P-384": ("ecdsa-sha384", "/C=XX/O=Example/CN=An Example CA"),
    "RSA, a name of 128 bytes and more": ("rsa-sha256", "/O=" + "e" * 60 + "/OU=" + "o" * 60 + "/CN=" + "n" * 60),
    "Ed25519": ("ed25519", "/C=XX/CN=Ed"),
}


@each(NAMES, seconds=2)
def issuer_words_takes_name_and_key_out_of_a_certificate(t, algorithm, subject):
    it = Authority(t, algorithm, subject=subject)
    der = t.tool("openssl", "x509", "-in", it.pem, "-outform", "DER")
    fields = [one for one in authority.values_of(authority.inside(der, 0)[1]) if one[0] == 0x30]
    # RFC 5280 4.1: the SEQUENCEs of a TBSCertificate are signature, issuer, validity, subject and key.
    name, key = fields[3][2], authority.values_of(fields[4][1])[1][1][1:]
    wanted = f"--name {name.hex()} --key {key.hex()}\n".encode()
    (t.room / "left").mkdir()
    t.same(play(t, "sh", EXAMPLES / "issuer-words.sh", it.pem, more={"TMPDIR": str(t.room / "left")}).stdout, wanted, "from PEM")
    t.same(list((t.room / "left").iterdir()), [], "temporary files that are left")
    (t.room / "ca.der").write_bytes(der)
    t.same(play(t, "sh", EXAMPLES / "issuer-words.sh", "ca.der").stdout, wanted, "from DER")
    it.register()
    begun = authority.now()
    t.done("script", "ca.db", given=f"{moment_of(begun)} crl\n")
    crl = t.done("crl", "ca.db").encode("latin-1")
    text = t.tool("openssl", "crl", "-inform", "DER", "-noout", "-issuer", given=crl)
    subject = t.tool("openssl", "x509", "-in", it.pem, "-noout", "-subject")
    t.same(text.removeprefix(b"issuer="), subject.removeprefix(b"subject="), "the CRL's issuer")
    ran = play(t, "sh", EXAMPLES / "issuer-words.sh", status=2)
    t.has(ran.stderr, b"usage: ")
