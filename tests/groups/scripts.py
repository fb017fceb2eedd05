"""The scripts of examples/ that publish CRLs, register certificates and copy registers: their output and exit status. A failure loses no data."""

import fcntl
import hashlib
import os
import re
import shutil
import signal
import socket
import subprocess
import threading
import time
from concurrent.futures import ThreadPoolExecutor

from lib import authority, program, registers
from lib.authority import DAY, EXAMPLES, Authority, body_of, moment_of
from lib.trial import Skipped, each, need, test


def played(t, script, *words, before=(), more=None):
    """Runs a script of examples/ with the tested program as its `desk`, and without a proxy. Returns its status, its output, and its error lines."""
    env = {**os.environ, "DESK": program.program(), "TZ": "America/New_York", **authority.NO_PROXY, **(more or {})}
    ran = t.tried(*before, EXAMPLES / script if not before else t.room / script, *words, env=env)
    return ran.returncode, ran.stdout.decode(), ran.stderr.decode().splitlines()


def fails(t, ran, told, status=1):
    """Checks that a script printed nothing on standard output, and on standard error one line with this text."""
    t.same((ran[0], ran[1], len(ran[2])), (status, "", 1), f"status, output and number of error lines, which are {ran[2]!r}")
    t.has(ran[2][0], told)


def as_nobody(t, script):
    """The words before a script that run it as a user without rights. That user can read the copy of the script in the test's folder."""
    if os.geteuid():
        return ("env",)
    need("setpriv")
    shutil.copy(EXAMPLES / script, t.room / script)
    os.chmod(t.room / script, 0o755)
    os.chmod(t.room, 0o755)
    return ("setpriv", "--reuid", "65534", "--regid", "65534", "--clear-groups")


def small_disk(t, size):
    """A folder with a file system of its own, of `size` kB."""
    if os.geteuid():
        raise Skipped("a small file system wants root")
    need("mount")
    folder = t.room / "disk"
    folder.mkdir()
    if subprocess.run(["mount", "-t", "tmpfs", "-o", f"size={size}k", "tmpfs", folder], capture_output=True).returncode:
        raise Skipped("no file system can be mounted here")
    t.callback(subprocess.run, ["umount", folder], check=True)
    return folder


def contents(folder):
    """The files below a folder: of each its inode number and its bytes."""
    return {it.relative_to(folder): (it.stat().st_ino, it.read_bytes()) for it in sorted(folder.rglob("*")) if it.is_file()}


# publish-crl.sh


def open_desk(t, *lines):
    """A CA with a signer and an open desk, which runs these lines at its control socket. Also makes the folder `www`."""
    it = Authority(t)
    it.register()
    it.signer()
    desk = t.open("ca.db", "--control", "control", *it.signing())
    (t.room / "www").mkdir()
    at_control(t, *lines)
    return it, desk


def at_control(t, *lines):
    return t.done("at", "control", given="".join(f"{line}\n" for line in lines)).splitlines()


def publish(t, desk, path="/crl", folder="www", ca="ca.pem", **how):
    return played(t, "publish-crl.sh", f"http://127.0.0.1:{desk.port}{path}", folder, ca, **how)


def published(t, it, desk, number):
    """Checks that the published files are the desk's latest CRL in both forms, readable by all users, and verify."""
    crl = body_of(t, desk.ask("GET", "/crl"), "application/pkix-crl")
    t.same((t.room / "www/ca.crl").read_bytes(), crl, "ca.crl")
    t.same(t.tool("openssl", "crl", "-in", "www/ca.crl.pem", "-outform", "DER"), crl, "ca.crl.pem")
    t.has(t.tool("openssl", "crl", "-in", "www/ca.crl.pem", "-noout", "-crlnumber").decode(), f"{number:X}\n")
    it.verifies(crl)
    t.same({path.name: "%o" % (path.stat().st_mode & 0o777) for path in (t.room / "www").iterdir()}, {"ca.crl": "644", "ca.crl.pem": "644"})


@test(seconds=3)
def a_crl_is_published_if_it_differs(t):
    it, desk = open_desk(t, "crl")
    # A cron job may have a umask that lets only its own user read new files.
    before = os.umask(0o077)
    t.same(publish(t, desk), (0, "crl 1 published in www\n", []), "the first CRL")
    os.umask(before)
    published(t, it, desk, 1)
    before = contents(t.room / "www")
    t.same(publish(t, desk), (0, "", []), "the same CRL again")
    t.same(contents(t.room / "www"), before, "the files after the same CRL")
    now = authority.now()
    at_control(t, "subscriber acme", "order 1 30", f"register 1 05 {moment_of(now)} {moment_of(now + DAY)}", "request 05 superseded", "revoke 1", "crl")
    t.same(publish(t, desk), (0, "crl 2 published in www\n", []), "a newer CRL")
    published(t, it, desk, 2)
    t.same(list(authority.listed(t, (t.room / "www/ca.crl").read_bytes())), [5])
    (t.room / "www/ca.crl.pem").unlink()
    t.same(publish(t, desk), (0, "crl 2 published in www\n", []), "the same CRL while ca.crl.pem is missing")
    published(t, it, desk, 2)
    # A killed run left this folder.
    (t.room / "www/.publish-crl.abc").mkdir()
    (t.room / "www/.publish-crl.abc/ca.crl").write_text("half")
    t.same(publish(t, desk), (0, "", []))
    t.same(len(list((t.room / "www").iterdir())), 2, "files in the folder")


def other_authority(subject):
    """Publishes while the script is given the certificate of another CA, which has this name."""
    return lambda t, desk: (Authority(t, name="other", subject=subject), publish(t, desk, ca="other.pem"))[1]


def trusted_elsewhere(t, desk):
    """The machine trusts the CA's certificate, but the script is given the certificate of another CA."""
    (t.room / "trusted").mkdir()
    shutil.copy(t.room / "ca.pem", t.room / "trusted")
    t.tool("openssl", "rehash", "trusted")
    Authority(t, name="other", subject="/CN=U")
    return publish(t, desk, ca="other.pem", more={"SSL_CERT_DIR": str(t.room / "trusted")})


def garbage(t, desk):
    (t.room / "garbage.pem").write_text("no certificate\n")
    return publish(t, desk, ca="garbage.pem")


def gone(t, desk):
    desk.end()
    return publish(t, desk)


# Each failure happens while CRL 2 is published and CRL 3 is the latest. The text is in the error message.
FAILURES = {
    "a CA of the same name with another key": (other_authority("/CN=T"), "is not verified by other.pem: verify failure"),
    "a CA of another name": (other_authority("/CN=U"), "is not verified by other.pem: Error getting CRL issuer certificate"),
    "a CA that the machine trusts, and not the one that is named": (trusted_elsewhere, "is not verified by other.pem: Error getting"),
    "no certificate of the CA": (lambda t, desk: publish(t, desk, ca="nowhere.pem"), "nowhere.pem can't be read"),
    "what is no certificate": (garbage, "is not verified by garbage.pem: "),
    "nobody at the port": (gone, "curl: (7) Failed to connect"),
    "an older CRL": (lambda t, desk: publish(t, desk, "/crl/1"), "/crl/1 is no newer than number 2 in www: was the register set back?"),
    "a CRL that is none yet": (lambda t, desk: publish(t, desk, "/crl/9"), '/crl/9: 404 {"error":"E21 no-crl"}'),
    "what is no CRL": (lambda t, desk: publish(t, desk, "/counts"), "/counts: openssl reads no CRL there"),
    "another scheme": (lambda t, desk: played(t, "publish-crl.sh", "gopher://127.0.0.1:1/", "www", "ca.pem"), "curl: ("),
}


@each(FAILURES, seconds=2)
def a_published_crl_stays_after_a_failure(t, fail, told):
    _, desk = open_desk(t, "crl", "crl")
    publish(t, desk)
    at_control(t, "crl")
    before = contents(t.room / "www")
    fails(t, fail(t, desk), told)
    t.same(contents(t.room / "www"), before, "the published files")


@each({"ca.crl": "ca.crl", "ca.crl.pem": "ca.crl.pem"}, seconds=2)
def an_older_crl_beside_one_form_only(t, left):
    _, desk = open_desk(t, "crl", "crl")
    publish(t, desk)
    for name in {"ca.crl", "ca.crl.pem"} - {left}:
        (t.room / "www" / name).unlink()
    before = contents(t.room / "www")
    fails(t, publish(t, desk, "/crl/1"), "/crl/1 is no newer than number 2 in www: was the register set back?")
    t.same(contents(t.room / "www"), before, "the published files")
    # A PEM file with a line before the same CRL still counts as that CRL.
    (t.room / "www/ca.crl.pem").write_bytes(b"published by hand\n" + t.tool("openssl", "crl", "-in", f"www/{left}"))
    t.same(publish(t, desk)[:2], (0, "crl 2 published in www\n"))
    # A CRL that the CA did not sign does not count, whatever its number.
    octets = (t.room / "www/ca.crl").read_bytes()
    (t.room / "www/ca.crl").write_bytes(octets[:-1] + bytes([octets[-1] ^ 1]))
    (t.room / "www/ca.crl.pem").unlink()
    t.same(publish(t, desk, "/crl/1")[:2], (0, "crl 1 published in www\n"), "a CRL beside one with a greater number and another signature")


@test(seconds=2)
def a_folder_that_is_none_or_not_to_be_written(t):
    _, desk = open_desk(t, "crl")
    fails(t, publish(t, desk, folder="nowhere"), "nowhere is no folder that can be read")
    fails(t, publish(t, desk, folder="ca.db"), "ca.db is no folder that can be read")
    (t.room / "www/ca.crl").mkdir()
    fails(t, publish(t, desk), "www/ca.crl can't be replaced")
    t.same(names(t.room / "www/ca.crl"), [], "files in a folder that is at the place of ca.crl")
    (t.room / "www/ca.crl").rmdir()
    publish(t, desk)
    at_control(t, "crl")
    before = contents(t.room / "www")
    os.chmod(t.room / "www", 0o555)
    if not os.geteuid():
        fails(t, publish(t, desk, before=as_nobody(t, "publish-crl.sh")), "nothing can be written in www")
    t.same(contents(t.room / "www"), before, "the published files")


@test(seconds=2)
def a_disk_that_is_full(t):
    _, desk = open_desk(t, "crl")
    # The disk has three pages of 4 kB, which the two published files and the filler take.
    folder = small_disk(t, 12)
    t.same(publish(t, desk, folder=folder)[0], 0)
    (folder / "filler").write_bytes(bytes(4_096))
    at_control(t, "crl")
    before = contents(folder)
    t.same(publish(t, desk, folder=folder)[:2], (1, ""), "status and output")
    t.same(contents(folder), before, "the files on the disk")


@test(seconds=2)
def a_crl_that_has_ended(t):
    begun = authority.now() - 9 * DAY
    t.clock(moment_of(begun))
    _, desk = open_desk(t, "crl")
    fails(t, publish(t, desk), f"CRL 1 of http://127.0.0.1:{desk.port}/crl has expired, ")
    t.same(contents(t.room / "www"), {})
    at_control(t, "crl")
    t.clock(moment_of(begun + 9 * DAY))
    at_control(t, "crl")
    t.same(publish(t, desk)[1], "crl 3 published in www\n")


@test(seconds=3)
def a_register_that_was_set_back(t):
    """If the desk has another CRL of the published number, the published CRL stays."""
    it, desk = open_desk(t, "crl")
    desk.end()
    for name in ("ca.db", "ca.db-wal"):
        if (t.room / name).exists():
            shutil.copy(t.room / name, t.room / f"before-{name}")
    t.clock(moment_of(authority.now() + 60))
    desk = t.open("ca.db", "--control", "control", *it.signing())
    at_control(t, "crl")
    publish(t, desk)
    desk.end()
    t.clock(moment_of(authority.now() + 3600))
    desk = t.open("before-ca.db", "--control", "control", *it.signing())
    t.same(at_control(t, "crl"), ["crl 2 entries 0"])
    before = contents(t.room / "www")
    fails(t, publish(t, desk), "is no newer than number 2 in www: was the register set back?")
    t.same(contents(t.room / "www"), before)
    at_control(t, "crl")
    t.same(publish(t, desk)[1], "crl 3 published in www\n", "a CRL with a greater number")


@test(seconds=3)
def crls_are_published_after_the_ninth(t):
    """The script compares CRL numbers as numbers, although openssl prints them in hexadecimal."""
    it, desk = open_desk(t, *["crl"] * 9)
    for more, number in ((0, 9), (1, 10), (6, 16), (1, 17)):
        at_control(t, *["crl"] * more)
        t.same(publish(t, desk), (0, f"crl {number} published in www\n", []))
    published(t, it, desk, 17)


@test(seconds=2)
def a_crl_is_published_at_a_path_with_a_blank(t):
    _, desk = open_desk(t, "crl")
    (t.room / "www").rename(t.room / "the www")
    (t.room / "ca.pem").rename(t.room / "the ca.pem")
    for told in ("crl 1 published in the www\n", ""):
        t.same(publish(t, desk, folder="the www", ca="the ca.pem"), (0, told, []))


@test(seconds=3)
def a_crl_is_published_once_another_run_has_ended(t):
    _, desk = open_desk(t, "crl")
    folder = os.open(t.room / "www", os.O_RDONLY)
    fcntl.flock(folder, fcntl.LOCK_EX)
    (t.room / "www/.publish-crl.other").mkdir()
    with ThreadPoolExecutor(1) as pool:
        run = pool.submit(publish, t, desk)
        # The script would begin to write in this time if it did not wait.
        time.sleep(1)
        t.same((run.done(), names(t.room / "www")), (False, [".publish-crl.other"]), "whether the script has ended, and the files in the folder")
        os.close(folder)
        t.same(run.result(), (0, "crl 1 published in www\n", []))


@test(seconds=3)
def a_reader_gets_the_old_one_or_the_new_one(t):
    _, desk = open_desk(t, "crl")
    publish(t, desk)
    crls, seen, ended = set(), set(), threading.Event()

    def read():
        while not ended.is_set():
            seen.add((t.room / "www/ca.crl").read_bytes())

    crls.add((t.room / "www/ca.crl").read_bytes())
    reader = threading.Thread(target=read)
    reader.start()
    try:
        for _ in range(4):
            at_control(t, "crl")
            t.same(publish(t, desk)[0], 0)
            crls.add((t.room / "www/ca.crl").read_bytes())
    finally:
        ended.set()
        reader.join()
    t.same((len(crls), seen <= crls), (5, True), "number of CRLs, and whether each read got one of them")


def played_by_curl(t, does):
    """Makes a shell script of these lines. In the returned environment it runs in place of `curl`."""
    (t.room / "bin").mkdir()
    (t.room / "bin/curl").write_text(f"#!/bin/sh\n{does}\n")
    (t.room / "bin/curl").chmod(0o755)
    return {"PATH": f"{t.room}/bin:{os.environ['PATH']}"}


def issue_at_once(t, desk, **how):
    """Revokes a certificate, and has issue-due-crl.sh issue the CRL that lists it."""
    now = authority.now()
    registers = f"register 1 05 {moment_of(now)} {moment_of(now + DAY)}"
    at_control(t, "subscriber acme", "order 1 30", registers, "request 05 key-compromise", "revoke 1")
    return played(t, "issue-due-crl.sh", "--at-once", "key-compromise", "--port", desk.port, "control", **how)


@each({"publish-crl.sh": (publish, ["/crl"]), "issue-due-crl.sh": (issue_at_once, ["/metrics", "/list/revoked?limit=250"])}, seconds=2)
def each_request_to_a_desk_ends_after_a_minute(t, script, paths):
    """Without the limit, one run would wait forever for a desk that hangs, and no later run could begin."""
    _, desk = open_desk(t, "crl")
    more = played_by_curl(t, f'echo "$@" >>"{t.room}/asked" && exec {shutil.which("curl")} "$@"')
    t.same(script(t, desk, more=more)[0], 0, "the script's status")
    asked = (t.room / "asked").read_text().splitlines()
    t.same([it for it in asked if " --max-time 60 " not in it], [], "calls of curl without the limit")
    t.same([it.partition(f"127.0.0.1:{desk.port}")[2] for it in asked], paths, "the requested paths")


@test
def what_a_server_says_is_told_in_one_line_of_plain_characters(t):
    """The body of a failed response may be a proxy's page. The script prints its first 200 octets on one line without control characters, for a terminal or
    a mail."""
    (t.room / "www").mkdir()
    (t.room / "ca.pem").write_text("")
    body = b"one\n\x1b[31mtwo\x07\r\n" + 1_000 * b"x"
    with socket.create_server(("127.0.0.1", 0)) as server, ThreadPoolExecutor(1) as pool:
        server.settimeout(60)

        def answer():
            client, _ = server.accept()
            with client:
                client.recv(65_536)
                client.sendall(b"HTTP/1.1 502 Bad Gateway\r\nContent-Length: %d\r\nConnection: close\r\n\r\n" % len(body) + body)

        pool.submit(answer)
        url = f"http://127.0.0.1:{server.getsockname()[1]}/crl"
        ran = played(t, "publish-crl.sh", url, "www", "ca.pem")
        t.same(ran, (1, "", [f"publish-crl: {url}: 502 one[31mtwo" + "x" * (200 - 15)]), "status, output and error lines")


@test
def a_run_that_is_ended_leaves_nothing_beside_what_is_published(t):
    """At SIGTERM, with which systemd stops a unit, the script removes its unchecked files from the web server's folder, and ends."""
    (t.room / "www").mkdir()
    (t.room / "ca.pem").write_text("")
    env = {**os.environ, **played_by_curl(t, f'touch "{t.room}/asked"\nexec sleep 60')}
    words = [EXAMPLES / "publish-crl.sh", "http://127.0.0.1:1/crl", "www", "ca.pem"]
    run = subprocess.Popen(words, cwd=t.room, env=env, stdin=subprocess.DEVNULL, stderr=subprocess.DEVNULL, start_new_session=True)
    t.callback(run.wait, program.LONGEST)
    t.callback(run.kill)
    authority.until((t.room / "asked").exists, "the script's call of curl")
    t.same(len(names(t.room / "www")), 1, "number of files in the folder while the script runs")
    os.killpg(run.pid, signal.SIGTERM)
    run.wait(program.LONGEST)
    t.same(names(t.room / "www"), [], "files after SIGTERM")


# register-pem.sh


def issued(t, it, name, serial, subject="/CN=acme", days=90):
    """Makes a certificate of the CA in NAME.pem. Returns its notBefore and notAfter, in seconds."""
    t.tool("openssl", "req", "-new", "-utf8", "-key", it.key, "-subj", subject, "-out", "x.csr")
    t.tool("openssl", "x509", "-req", "-in", "x.csr", "-CA", it.pem, "-CAkey", it.key, "-set_serial", f"0x{serial}", "-days", days, "-out", f"{name}.pem")
    told = t.tool("openssl", "x509", "-in", f"{name}.pem", "-noout", "-dates").decode()
    return [authority.openssl_time(re.search(rf"not{which}=(.*)", told)[1]) for which in ("Before", "After")]


CONFIG = """[ca]
default_ca = it
[it]
database = index.txt
new_certs_dir = .
serial = serial
default_md = sha256
policy = any
[any]
commonName = supplied
"""


def by_openssl_ca(t, it, name, serial, begins, ends):
    """Makes a certificate with this notBefore and notAfter in NAME.pem."""
    for file, text in (("ca.cnf", CONFIG), ("index.txt", ""), ("serial", f"{serial}\n")):
        (t.room / file).write_text(text)
    t.tool("openssl", "req", "-new", "-key", it.key, "-subj", "/CN=acme", "-out", "x.csr")
    words = ("-batch", "-notext", "-cert", it.pem, "-keyfile", it.key, "-startdate", begins, "-enddate", ends)
    t.tool("openssl", "ca", "-config", "ca.cnf", *words, "-in", "x.csr", "-out", f"{name}.pem")


def ended(t, it):
    """Makes a certificate whose validity was January 2020 in ended.pem."""
    by_openssl_ca(t, it, "ended", "14", "200101000000Z", "200131000000Z")


def unsigned_desk(t, *lines):
    it = Authority(t)
    it.register()
    desk = t.open("ca.db", "--control", "control")
    if lines:
        at_control(t, *lines)
    return it, desk


def register_pem(t, *words, **how):
    return played(t, "register-pem.sh", *words, **how)


def rows(t, table):
    return t.sql("ca.db", f"SELECT * FROM {table} ORDER BY rowid")


def name_of(common):
    """The subscriber's name that examples/register-pem.sh makes of a common name."""
    if re.fullmatch(r"[A-Za-z0-9._-]{1,64}", common) and not re.search(r"\.[0-9a-f]{16}$", common):
        return common
    letters = re.sub(rb"[^A-Za-z0-9._-]+", b"-", common.encode()).strip(b"-")[:47].decode()
    return f"{letters}.{hashlib.sha256(common.encode()).hexdigest()[:16]}"


# Common names. Some of them differ only in characters that a subscriber's name can't have.
COMMON_NAMES = ["Müller", "Möller", "M-ller", "Muller", "日本", "日本語", "Ünal & Söhne", "Example Corp", "Example-Corp", " Example Corp", "*.example", "a_b", "a-b", "a b",
                "ł" * 64, "x" * 64, "x" * 63 + "ß", "a/b", "a+b", "-", "--", "🔑"]


@test(seconds=12)
def two_common_names_are_two_subscribers(t):
    """Each common name gets a subscriber of its own, whatever its characters are, even if it equals the name that the script makes of another one."""
    it, desk = unsigned_desk(t)
    names = [*COMMON_NAMES, name_of("Müller"), name_of("日本")]
    for at, common in enumerate(names, 16):
        t.tool("openssl", "req", "-new", "-key", it.key, "-utf8", "-subj", "/O=Example/CN=" + common.replace("/", "\\/").replace("+", "\\+"), "-out", "x.csr")
        t.tool("openssl", "x509", "-req", "-in", "x.csr", "-CA", it.pem, "-CAkey", it.key, "-set_serial", at, "-days", 30, "-out", f"{at}.pem")
    files = [f"{at}.pem" for at, _ in enumerate(names, 16)]
    for first in range(0, len(files), 3):
        status, out, told = register_pem(t, "-c", "control", *files[first : first + 3])
        t.same((status, told), (0, []), "status and error lines")
        t.same([int(line.rpartition(" ")[2]) for line in out.splitlines()], list(range(1, len(names) + 1))[first : first + 3], "subscribers")
    again = len(names) + 16
    t.tool("openssl", "x509", "-req", "-in", "x.csr", "-CA", it.pem, "-CAkey", it.key, "-set_serial", again, "-days", 30, "-out", "again.pem")
    t.has(register_pem(t, "-c", "control", "again.pem")[1], f"of subscriber {len(names)}\n", "a second certificate with the last common name")
    desk.end()
    t.same([name for _, name in rows(t, "subscriber")], [name_of(common) for common in names])


@test(seconds=2)
def the_first_of_several_common_names_is_the_subscriber(t):
    it, desk = unsigned_desk(t)
    issued(t, it, "a", "05", "/CN=first/O=Example/CN=second")
    t.same(register_pem(t, "-c", "control", "a.pem"), (0, "a.pem: serial number 05 registered, order 1 of subscriber 1\n", []))
    desk.end()
    t.same([name for _, name in rows(t, "subscriber")], ["first"])


@test(seconds=3)
def certificates_are_registered_at_the_control_socket(t):
    it, desk = unsigned_desk(t, "subscriber first", "order 1 398")
    days = {name: issued(t, it, name, *more) for name, *more in
            (("a", "05", "/O=Example/CN=a & sons, Zürich", 90), ("b", "7FFFFFFF00AA", "/CN=b.example", 397), ("c", "06", "/CN=first", 1))}
    wanted = ["a.pem: serial number 05 registered, order 2 of subscriber 2", "b.pem: serial number 7FFFFFFF00AA registered, order 3 of subscriber 3",
              "c.pem: serial number 06 registered, order 4 of subscriber 1"]
    t.same(register_pem(t, "-c", "control", "-a", "ca.pem", "a.pem", "b.pem", "c.pem"), (0, "\n".join([*wanted, ""]), []))
    t.same(at_control(t, "status 05", "status 7fffffff00aa", "status 6"), ["good"] * 3)
    ran = register_pem(t, "-c", "control", "a.pem", "b.pem")
    t.same(ran, (3, "", ["a.pem: serial number 05 is not registered anew, status: good",
                         "b.pem: serial number 7FFFFFFF00AA is not registered anew, status: good"]), "the same certificates again")
    # A certificate in DER, for a subscriber that -s names.
    issued(t, it, "d", "08", "/CN=d")
    t.tool("openssl", "x509", "-in", "d.pem", "-outform", "DER", "-out", "d.der")
    t.same(register_pem(t, "-c", "control", "-s", "b.example", "d.der")[1], "d.der: serial number 08 registered, order 5 of subscriber 3\n")
    desk.end()
    t.same([name for _, name in rows(t, "subscriber")], ["first", name_of("a & sons, Zürich"), "b.example"])
    # The second of notAfter belongs to the validity, so `-days 90` is a second longer than 90 days, and needs an order of 91.
    t.same(rows(t, "orders"), [(1, 1, 398), (2, 2, 91), (3, 3, 398), (4, 1, 2), (5, 3, 91)])
    held = {order: (begins, ends) for _, order, begins, ends in rows(t, "cert")}
    t.same([held[order] for order in (2, 3, 4)], [tuple(days[name]) for name in "abc"], "validities")
    t.same(t.done("audit", "ca.db"), "sound, 4 certificates, 0 revoked, 0 CRLs\n")


@test(seconds=3)
def refused_certificates_are_reported_and_the_others_registered(t):
    it, desk = unsigned_desk(t)
    issued(t, it, "long", "11", days=3650)
    issued(t, it, "good", "12")
    issued(t, it, "nameless", "13", "/O=Example")
    stranger = Authority(t, name="other", subject="/CN=T")
    issued(t, stranger, "strange", "15")
    (t.room / "text.pem").write_text("no certificate\n")
    ended(t, it)
    names = ["long.pem", "strange.pem", "text.pem", "nowhere.pem", "nameless.pem", "ended.pem", "good.pem"]
    status, out, told = register_pem(t, "-c", "control", "-a", "ca.pem", *names)
    t.same((status, out), (3, "good.pem: serial number 12 registered, order 1 of subscriber 1\n"))
    wanted = ["long.pem: order of 3651 days: E07 bad-days 398", "strange.pem: not signed by ca.pem", "text.pem: openssl can't read it",
              "nowhere.pem: openssl can't read it", "nameless.pem: it has no common name: give -s NAME", "ended.pem: it ended, 2020-01-31T00:00:00Z"]
    t.same(told, wanted)
    t.same(register_pem(t, "-c", "control", "-s", "two words", "nameless.pem"), (3, "", ["nameless.pem: subscriber two words: E22 syntax"]))
    t.same(register_pem(t, "-c", "control", "-s", "a+b", "nameless.pem"), (3, "", ["nameless.pem: subscriber a+b: E04 bad-name"]))
    desk.end()
    t.same((len(rows(t, "orders")), len(rows(t, "cert"))), (1, 1), "orders and certificates")


@test(seconds=2)
def a_certificate_of_another_ca_that_the_machine_trusts_is_refused(t):
    """Only the CA that -a names is trusted, because a registered serial number can't be removed."""
    unsigned_desk(t)
    other = Authority(t, name="other", subject="/CN=U")
    issued(t, other, "strange", "15")
    (t.room / "trusted").mkdir()
    shutil.copy(other.pem, t.room / "trusted")
    t.tool("openssl", "rehash", "trusted")
    ran = register_pem(t, "-c", "control", "-a", "ca.pem", "strange.pem", more={"SSL_CERT_DIR": str(t.room / "trusted")})
    t.same(ran, (3, "", ["strange.pem: not signed by ca.pem"]))
    t.same(at_control(t, "status 15"), ["unknown"])


@test(seconds=2)
def a_certificate_and_a_control_socket_at_paths_with_a_blank(t):
    it = Authority(t)
    it.register()
    t.open("ca.db", "--control", "my control")
    issued(t, it, "a certificate", "05")
    wanted = "a certificate.pem: serial number 05 registered, order 1 of subscriber 1\n"
    t.same(register_pem(t, "-c", "my control", "-a", "ca.pem", "a certificate.pem"), (0, wanted, []))


@test(seconds=2)
def a_certificate_of_a_ca_below_another_one(t):
    """-a may name a CA certificate that another CA signed."""
    it, _ = unsigned_desk(t)
    root = Authority(t, name="root", subject="/CN=Root")
    (t.room / "ca.ext").write_text("basicConstraints=critical,CA:TRUE\n")
    t.tool("openssl", "req", "-new", "-key", it.key, "-subj", "/CN=T", "-out", "below.csr")
    t.tool("openssl", "x509", "-req", "-in", "below.csr", "-CA", root.pem, "-CAkey", root.key, "-set_serial", 1, "-days", 3650, "-extfile", "ca.ext", "-out", "below.pem")
    issued(t, it, "a", "05")
    wanted = "a.pem: serial number 05 registered, order 1 of subscriber 1\n"
    t.same(register_pem(t, "-c", "control", "-a", "below.pem", "a.pem"), (0, wanted, []))


@test(seconds=2)
def a_certificate_that_begins_later_is_registered(t):
    """A certificate is registered before its notBefore, also by a CA whose own certificate begins later, as one for a change of keys may."""
    it, _ = unsigned_desk(t)
    tomorrow = authority.now() + authority.DAY
    at = lambda days: time.strftime("%y%m%d%H%M%SZ", time.gmtime(tomorrow + days * authority.DAY))
    by_openssl_ca(t, it, "a", "05", at(0), at(30))
    (t.room / "later.ext").write_text("basicConstraints=critical,CA:TRUE\n")
    t.tool("openssl", "req", "-new", "-key", it.key, "-subj", "/CN=T", "-out", "later.csr")
    words = ("-batch", "-notext", "-selfsign", "-keyfile", it.key, "-extfile", "later.ext", "-startdate", at(0), "-enddate", at(365))
    for file, text in (("index.txt", ""), ("serial", "01\n")):
        (t.room / file).write_text(text)
    t.tool("openssl", "ca", "-config", "ca.cnf", *words, "-in", "later.csr", "-out", "later.pem")
    wanted = "a.pem: serial number 05 registered, order 1 of subscriber 1\n"
    t.same(register_pem(t, "-c", "control", "-a", "later.pem", "a.pem"), (0, wanted, []))


@test(seconds=2)
def an_order_that_stays_without_its_certificate_is_reported(t):
    """The schedule allows 398 days, and since 2026-03-15 only 47. An order of 91 days is accepted, but its certificate is refused."""
    it = Authority(t)
    it.register()
    t.done("schedule", "ca.db", "1970-01-01T00:00:00Z=398", "2026-03-15T00:00:00Z=47")
    begins, ends = map(moment_of, issued(t, it, "a", "05"))
    desk = t.open("ca.db", "--control", "control")
    wanted = f"a.pem: register 1 05 {begins} {ends}: E12 too-long (order 1 stays without a certificate)"
    t.same(register_pem(t, "-c", "control", "a.pem"), (3, "", [wanted]))
    desk.end()
    t.same((len(rows(t, "orders")), len(rows(t, "cert"))), (1, 0), "orders and certificates")


@test(seconds=2)
def as_many_days_as_given_to_openssl(t):
    """docs/OPERATIONS.md, "Register certificates": `-days 90` is a second longer than an order of 90 days, and `-enddate` names the last second."""
    it, _ = unsigned_desk(t, "subscriber acme", "order 1 90", "order 1 91")
    begins, ends = issued(t, it, "a", "05", days=90)
    control = t.control()
    registers = lambda order, serial, last: control.ask(f"register {order} {serial} {moment_of(begins)} {moment_of(last)}")
    t.same((ends - begins, registers(1, "05", ends), registers(2, "05", ends)), (90 * DAY, "E12 too-long", "registered"))
    asn1 = lambda at: re.sub("[-:T]", "", moment_of(at))
    by_openssl_ca(t, it, "b", "06", asn1(begins), asn1(ends - 1))
    told = t.tool("openssl", "x509", "-in", "b.pem", "-noout", "-enddate").decode()
    t.same(authority.openssl_time(told.partition("=")[2].strip()), ends - 1, "notAfter, as -enddate set it")
    t.same(registers(1, "06", ends - 1), "registered")


@test(seconds=2)
def no_desk_at_the_control_socket(t):
    it = Authority(t)
    issued(t, it, "a", "05")
    fails(t, register_pem(t, "-c", "control", "a.pem", "a.pem"), "a.pem: status 05: no reply at control")
    t.register("other.db")
    desk = t.open("other.db", "--control", "control")
    desk.end()
    fails(t, register_pem(t, "-c", "control", "a.pem"), "a.pem: status 05: no reply at control")


@test(seconds=3)
def certificates_as_lines_of_a_script(t):
    it = Authority(t)
    it.register()
    t.done("script", "ca.db", "--clock", given="subscriber acme\norder 1 30\n")
    at = {name: [moment_of(one) for one in issued(t, it, name, serial, days=days)] for name, serial, days in (("a", "05", 90), ("b", "06", 30))}
    ended(t, it)
    status, lines, told = register_pem(t, "-o", "2", "-n", "1", "-a", "ca.pem", "a.pem", "ended.pem", "b.pem")
    t.same((status, told), (3, ["ended.pem: it ended, 2020-01-31T00:00:00Z"]), "status and error lines of a certificate that has ended")
    t.same(lines.splitlines(), ["order 1 91", f"register 2 05 {at['a'][0]} {at['a'][1]}", "order 1 31", f"register 3 06 {at['b'][0]} {at['b'][1]}"])
    wanted = lines.replace("register 2 ", "register 8 ").replace("register 3 ", "register 9 ")
    t.same(register_pem(t, "-o", "008", "-n", "1", "a.pem", "b.pem")[1], wanted, "a number with leading zeros")
    t.same(t.done("script", "ca.db", "--clock", "--strict", given=lines), "order 2\nregistered\norder 3\nregistered\n")
    # If -o is not the number of the next order, the script of lines registers nothing.
    issued(t, it, "c", "07")
    for number, refusal in (("3", "E09 order-filled"), ("9", "E08 no-order")):
        _, lines, _ = register_pem(t, "-o", number, "-n", "1", "c.pem")
        ran = t.desk("script", "ca.db", "--clock", "--strict", given=lines)
        t.same((ran.status, ran.lines[1:]), (3, [refusal]))
    t.same(t.done("audit", "ca.db"), "sound, 2 certificates, 0 revoked, 0 CRLs\n")


# Command lines with wrong or missing words, for which each script prints its usage.
WORDS = {
    "register-pem.sh": ([], ["-c", "control"], ["-c", "control", "-o", "1", "a.pem"], ["a.pem"], ["-o", "1", "a.pem"], ["-n", "1", "a.pem"], ["-c", "control", "-o", "1", "-n", "1", "a.pem"],
                        ["-o", "one", "-n", "1", "a.pem"], ["-o", "1", "-n", "1", "-s", "acme", "a.pem"], ["-x", "a.pem"]),
    "publish-crl.sh": ([], ["http://127.0.0.1:1/crl", "www"], ["a", "b", "c", "d"]),
    "backup.sh": ([], ["ca.db"], ["ca.db", "copies", "control", "7"]),
}


@each({script: (script, rows) for script, rows in WORDS.items()})
def words_that_can_t_be_read(t, script, rows):
    for words in rows:
        status, out, told = played(t, script, *words)
        t.same((status, out), (2, ""), f"status and output of {words}")
        t.true(any(re.match(f"[uU]sage: .*{script} ", line) for line in told), f"no usage after the words {words}: {told}")


# backup.sh

ENTERED = "2026-01-01T00:00:00Z subscriber acme\n2026-01-01T00:00:00Z order 1 398\n"
REGISTERED = ENTERED + "2026-01-01T00:00:00Z register 1 05 2026-01-01T00:00:00Z 2026-12-31T00:00:00Z\n2026-01-01T00:00:00Z crl\n"


def back_up(t, register="ca.db", folder="copies", *control, **how):
    return played(t, "backup.sh", register, folder, *control, **how)


def register_and_copies(t, *older):
    """Makes a closed register, and a folder with older copies of these names."""
    t.register(lines=REGISTERED)
    (t.room / "copies").mkdir()
    for name in older:
        shutil.copytree(t.room, t.room / "copies" / name, ignore=lambda folder, names: [it for it in names if not it.startswith("ca.db")])
    return t.room / "copies"


def names(folder):
    return sorted(it.name for it in folder.iterdir())


@test(seconds=2)
def a_copy_of_a_closed_register(t):
    copies = register_and_copies(t)
    before = {name: (t.room / name).read_bytes() for name in ("ca.db", "ca.db-wal") if (t.room / name).exists()}
    if not os.geteuid():
        shutil.chown(t.room / "ca.db", "nobody")
    status, out, told = back_up(t)
    t.same((status, told), (0, []))
    [copy] = copies.iterdir()
    t.same(out, f"copies/{copy.name}: sound, 1 certificates, 0 revoked, 1 CRLs\n")
    t.true(re.fullmatch(r"ca\.db-\d{8}T\d{6}Z", copy.name), copy.name)
    t.same({name: (t.room / name).read_bytes() for name in before}, before, "the register's own files")
    modes = {it.name: "%o" % (it.stat().st_mode & 0o777) for it in [copy, *copy.iterdir()]}
    t.same({mode for name, mode in modes.items() if name.startswith("ca.db") and name != copy.name}, {"600"}, "modes of the copy's files")
    t.same(modes[copy.name], "700")
    t.same((copy / "ca.db").owner(), (t.room / "ca.db").owner(), "the owner of the register's file")
    # The copy is a register that commands can open.
    replies = t.done("script", copy / "ca.db", given="2026-01-02T00:00:00Z status 05\n2026-01-02T00:00:00Z counts\n")
    t.same(replies, "good\ngood 1 revoked 0 expired 0\n")


@test(seconds=2)
def a_copy_of_a_register_whose_desk_was_ended(t):
    """The last commands before the end are only in the register's -wal file."""
    register_and_copies(t)
    t.clock("2026-01-02T00:00:00Z")
    desk = t.open("ca.db", "--control", "control")
    at_control(t, "request 05 superseded", "revoke 1")
    desk.end()
    t.has(back_up(t)[1], ": sound, 1 certificates, 1 revoked, 1 CRLs\n")


@test(seconds=3)
def a_copy_of_an_open_register_comes_from_a_snapshot(t):
    need("mkfs.btrfs", "mount")
    if os.geteuid():
        raise Skipped("a file system with snapshots wants root")
    with open(t.room / "disk.img", "wb") as disk:
        disk.truncate(128 * 2**20)
    t.tool("mkfs.btrfs", "-q", "disk.img")
    for folder in ("srv", "copies"):
        (t.room / folder).mkdir()
    if t.tried("mount", "-o", "loop", "disk.img", "srv").returncode:
        raise Skipped("no btrfs can be mounted here")
    t.callback(subprocess.run, ["umount", t.room / "srv"], check=True)
    t.tool("btrfs", "subvolume", "create", "srv/ca")
    t.register("srv/ca/ca.db", REGISTERED)
    t.clock("2026-01-02T00:00:00Z")
    desk = t.open("srv/ca/ca.db", "--control", "control")
    at_control(t, "request 05 superseded", "revoke 1")
    t.tool("btrfs", "subvolume", "snapshot", "-r", "srv/ca", "srv/ca-now")
    at_control(t, "crl")
    status, out, told = back_up(t, "srv/ca-now/ca.db")
    t.same((status, out.partition(": ")[2], told), (0, "sound, 1 certificates, 1 revoked, 1 CRLs\n", []), "a copy of the snapshot")
    fails(t, back_up(t, "srv/ca/ca.db"), "srv/ca/ca.db is open: name its control socket, or close it")
    t.same(at_control(t, "crl"), ["crl 3 entries 1"], "a CRL of the open desk")
    desk.end()


@test(seconds=2)
def a_copy_of_an_open_register_by_its_control_socket(t):
    copies = register_and_copies(t)
    t.clock("2026-01-02T00:00:00Z")
    t.open("ca.db", "--control", "control")
    at_control(t, "request 05 superseded", "revoke 1")
    # A killed run left this file.
    (t.room / "ca.db.copy.part").write_text("a front")
    status, out, told = back_up(t, "ca.db", "copies", "control")
    t.same((status, out.partition(": ")[2], told), (0, "sound, 1 certificates, 1 revoked, 1 CRLs\n", []))
    [copy] = copies.iterdir()
    t.same({it.name: "%o" % (it.stat().st_mode & 0o777) for it in copy.iterdir()}, {"ca.db": "600"})
    t.same([it.name for it in t.room.iterdir() if ".copy" in it.name], [], "copies that are left beside the register")
    t.same(at_control(t, "crl"), ["crl 2 entries 1"], "a CRL of the open desk")
    t.same(t.done("script", copy / "ca.db", given="2026-01-02T00:00:00Z counts\n"), "good 0 revoked 1 expired 0\n")


@test(seconds=2)
def a_copy_of_an_open_register_in_another_folder(t):
    """The script runs in another folder than the desk. All paths have a blank, and are relative to the script's folder. The name of the copy has the
    moment in UTC."""
    for name in ("the register", "the script", "all copies"):
        (t.room / name).mkdir()
    t.register("the register/my ca.db")
    t.open("the register/my ca.db", "--control", "my control")
    begun = authority.now()
    words = ("env", "-C", "the script", EXAMPLES / "backup.sh", "../the register/my ca.db", "../all copies", "../my control")
    ran = t.tried(*words, env={**os.environ, "DESK": program.program(), "TZ": "America/New_York"})
    t.same((ran.returncode, ran.stderr), (0, b""), f"status and standard error of the script, which printed {ran.stdout!r}")
    [copy] = (t.room / "all copies").iterdir()
    t.same(names(copy), ["my ca.db"])
    name = lambda moment: time.strftime("my ca.db-%Y%m%dT%H%M%SZ", time.gmtime(moment))
    t.true(name(begun) <= copy.name <= name(authority.now()), f"{copy.name} is not named after its moment in UTC")


@each({"at a plain path": "copies", "at a path with a blank and a star": "all * copies"}, seconds=2)
def seven_are_kept(t, folder):
    others = ["ca.db-2-20250101T000000Z", "other.db-20250101T000000Z"]
    copies = register_and_copies(t, *(f"ca.db-2026010{day}T000000Z" for day in range(1, 9)), *others).rename(t.room / folder)
    # A killed run left this folder.
    (copies / ".backup.abc").mkdir()
    (copies / ".backup.abc/ca.db").write_text("half")
    t.same(back_up(t, folder=folder)[0], 0)
    kept = names(copies)
    t.same(kept[1:7], [f"ca.db-2026010{day}T000000Z" for day in range(3, 9)], "the six newest of the older copies")
    t.same((len(kept), [kept[0], kept[-1]]), (9, others), "number of all copies, and the copies of other registers")


@test(seconds=2)
def the_new_one_stays_whatever_the_clock_says(t):
    copies = register_and_copies(t, *(f"ca.db-209{year}0101T000000Z" for year in range(8)))
    status, out, _ = back_up(t)
    new = out.partition(":")[0].removeprefix("copies/")
    t.same((status, names(copies)), (0, [new, *(f"ca.db-209{year}0101T000000Z" for year in range(2, 8))]))


def a_published_crl(t, **how):
    _, desk = open_desk(t, "crl")
    return publish(t, desk, **how)


def a_new_copy(t, **how):
    register_and_copies(t)
    return back_up(t, **how)


SYNCED = {"a published CRL": (a_published_crl, ["www/.publish-crl/ca.crl", "www/.publish-crl/ca.crl.pem"]), "a copy": (a_new_copy, ["copies/.backup/ca.db"])}


@each(SYNCED, seconds=2)
def what_is_kept_is_synced_before_it_has_its_name(t, script, wanted):
    (t.room / "bin").mkdir()
    (t.room / "bin/sync").write_text(f'#!/bin/sh\nls "$@" >>"{t.room}/synced" && exec {shutil.which("sync")} "$@"\n')
    (t.room / "bin/sync").chmod(0o755)
    t.same(script(t, more={"PATH": f"{t.room}/bin:{os.environ['PATH']}"})[0], 0, "the script's status")
    t.same(re.sub(r"\.\w{6}/", "/", (t.room / "synced").read_text()).splitlines(), wanted, "the synced files")


def an_open_one(t):
    t.open("ca.db", "--control", "control")
    return back_up(t)


def a_broken_one(t):
    t.sql("ca.db", "DELETE FROM standing")
    return back_up(t)


def a_cut_one(t):
    text = (t.room / "ca.db").read_bytes()
    (t.room / "ca.db").write_bytes(text[: len(text) // 2])
    return back_up(t)


def in_the_way(t):
    """A folder is at the path where the desk creates its copy."""
    t.open("ca.db", "--control", "control")
    (t.room / "ca.db.copy").mkdir()
    return back_up(t, "ca.db", "copies", "control")


def nobody_there(t):
    t.open("ca.db", "--control", "control")
    return back_up(t, "ca.db", "copies", "elsewhere")


def no_room_beside_it(t):
    t.open("ca.db", "--control", "control", faults={"FAULTS_FAIL": "write:1+", "FAULTS_ONLY": "ca.db.copy.part"})
    return back_up(t, "ca.db", "copies", "control")


def held(t):
    folder = os.open(t.room / "copies", os.O_RDONLY)
    t.callback(os.close, folder)
    fcntl.flock(folder, fcntl.LOCK_EX)
    return back_up(t)


def without_a_right(t):
    if os.geteuid():
        raise Skipped("another user wants root")
    os.chmod(t.room / "copies", 0o755)
    return back_up(t, before=as_nobody(t, "backup.sh"))


def without_the_program(t):
    return back_up(t, more={"DESK": "nowhere"})


def an_older_one(t):
    """The register has version 2. An audit refuses it until another command has migrated it."""
    for name in ("ca.db", "ca.db-wal"):
        (t.room / name).unlink(missing_ok=True)
    registers.make(t.room / "ca.db", registers.Records(50), 2)
    return back_up(t)


NO_COPIES = {
    "a register that is open": (an_open_one, "ca.db is open: name its control socket, or close it"),
    "something where it lays the copy": (in_the_way, "ca.db.copy can't be removed"),
    "nobody at the control socket": (nobody_there, "ca.db is not copied at elsewhere: "),
    "no room beside the register": (no_room_beside_it, "ca.db is not copied at control: F2 store, why disk full"),
    "one with a row that is missing": (a_broken_one, "the copy of ca.db is not kept: desk audit: broken: standing 1"),
    "half of its file": (a_cut_one, "the copy of ca.db is not kept: desk audit: "),
    "one of an older version": (an_older_one, "the copy of ca.db is not kept: desk audit: old-version"),
    "no program": (without_the_program, "ca.db can't be copied into copies: "),
    "no register": (lambda t: back_up(t, "nowhere.db"), "nowhere.db is no file"),
    "another run": (held, "another run holds copies"),
    "no right": (without_a_right, "nothing can be written in copies"),
}


@each(NO_COPIES, seconds=2)
def no_copy_goes_where_it_fails(t, fail, told):
    copies = register_and_copies(t, *(f"ca.db-2026010{day}T000000Z" for day in range(1, 9)))
    before = contents(copies)
    fails(t, fail(t), told)
    t.same(contents(copies), before, "the files of the older copies")
    t.same(len(names(copies)), 8, "number of entries in the folder of copies")


@test
def a_second_run_leaves_the_unfinished_copy_of_the_first(t):
    copies = register_and_copies(t)
    (copies / ".backup.first").mkdir()
    (copies / ".backup.first/ca.db").write_text("a front")
    before = contents(copies)
    fails(t, held(t), "another run holds copies")
    t.same(contents(copies), before, "the first run's files")


@test(seconds=2)
def a_full_disk_of_copies(t):
    register_and_copies(t)
    folder = small_disk(t, 16)
    fails(t, back_up(t, folder=folder), "ca.db can't be copied into ")
    t.same(names(folder), [], "files on the full disk")
    fails(t, back_up(t, folder="nowhere"), "nowhere is no folder that can be read")


@test(seconds=2)
def a_copy_that_does_not_fit_is_not_left_beside_the_register(t):
    register_and_copies(t)
    folder = small_disk(t, 16)
    t.open("ca.db", "--control", "control")
    fails(t, back_up(t, "ca.db", folder, "control"), "ca.db.copy can't be moved into ")
    t.same([it.name for it in t.room.iterdir() if ".copy" in it.name], [], "copies that are left beside the register")
