"""Signers at a Unix socket: keys and signatures of openssl for each algorithm, bytes that are no signature, and signers that fail or hang."""

import hashlib
import json
import os
import re
import select
import shutil
import signal
import socket
import subprocess
import sys
import threading
import time
from concurrent.futures import ThreadPoolExecutor

from groups import native_signer
from lib import authority, faults, native, program
from lib.authority import IDENTIFIERS, INTERNAL, KEYS, Authority, ScriptedSigner, body_of, first_day, first_day_replies, moment_of
from lib.program import ANY_SIGNATURE, P256_KEY
from lib.native import NAME, connected, ended, signature, started
from lib.passing import Passing
from lib.trial import TEN_SECONDS, Skipped, each, need, test

MOMENT = "2026-01-01T00:00:00Z"
ALGORITHMS = {it: it for it in KEYS}
P256 = ("--signer", "ca.sign", "--algorithm", "ecdsa-sha256")


def refused(t, words, what=""):
    """Checks that a command only reports `bad-signer`, and exits with status 1."""
    ran = t.desk(*words)
    t.same((ran.status, ran.out, ran.err), (1, b"", b"bad-signer\n"), what or program.shown(words))


def tried(t, lines, signing=P256, file="ca.db"):
    """Runs these lines as a script, all at one moment, and returns the replies."""
    return t.done("script", file, *signing, given="".join(f"{MOMENT} {it}\n" for it in lines)).splitlines()


# Real keys


@each(ALGORITHMS, seconds=8)
def openssl_verifies_what_a_key_signed(t, algorithm):
    it = Authority(t, algorithm)
    it.register()
    begun = authority.now()
    signer = it.signer()
    t.same(t.done("script", "ca.db", *it.signing(), given=first_day(begun)).splitlines(), first_day_replies(begun), "the first day")
    crl = t.done("crl", "ca.db").encode("latin-1")
    it.verifies(crl)
    part, identifier, signature = authority.signed_part(crl)
    t.same(identifier.hex().upper(), IDENTIFIERS[algorithm], "the CRL's AlgorithmIdentifier")
    t.same(authority.values_of(authority.inside(crl, 0)[1])[1][2], identifier, "the AlgorithmIdentifier in the signed part")
    t.same(signer.asked, [part], "the messages that the signer received")
    desk = t.open("ca.db", "--requests", "1000", *it.signing(), command="serve")
    url = f"http://127.0.0.1:{desk.port}/ocsp"
    for serial, told in (("05", "revoked"), ("06", "good"), ("07", "unknown")):
        t.same(it.asked_by_openssl(serial, url, verify=True), told, f"OCSP of {serial} by POST")
        response = body_of(t, desk.ask("GET", authority.path_of(it.asks(serial))))
        t.same(it.reads(serial, response), told, f"OCSP of {serial} by GET")
        part, identifier, _ = authority.signed_part(authority.basic_of(response))
        t.same((identifier.hex().upper(), signer.asked[-1]), (IDENTIFIERS[algorithm], part), "the algorithm of an answer, and its signed bytes")
    it.verifies(body_of(t, desk.ask("GET", "/crl"), "application/pkix-crl"), "GET /crl")


@each(ALGORITHMS, seconds=4)
def once_no_signer_has_the_key(t, algorithm):
    it = Authority(t, algorithm)
    it.register()
    begun = authority.now()
    with program.Signer(t.room / "ca.sign", it.sign):
        t.done("script", "ca.db", *it.signing(), given=first_day(begun))
    desk = t.open("ca.db", "--requests", "1000", *it.signing(), command="serve")
    t.same(body_of(t, desk.ask("POST", "/ocsp", it.asks("05"))), INTERNAL, "OCSP without a signer")
    t.same(body_of(t, desk.ask("GET", "/status/06"), "application/json"), b'{"status":"good"}', "GET /status without a signer")
    desk.end()
    later = moment_of(begun + 3600)
    lines = f"{later} crl\n{later} status 06\n"
    t.same(t.done("script", "ca.db", *it.signing(), given=lines), "F3 signer\ngood\n", "a CRL and a status without a signer")
    ran = t.desk("crl", "ca.db", "--number", 2)
    t.same((ran.status, ran.out, ran.err), (1, b"", b"E21 no-crl\n"), "the CRL that was not signed")
    refused(t, ["script", "ca.db"], "a digest does not follow a key")
    row = f"order,serial,notBefore,notAfter\n1,05,{moment_of(begun)},{moment_of(begun + 90 * authority.DAY)}\n"
    t.same(t.done("import", "ca.db", "--now", later, given=row), "same\n", "an import, which needs no signature")
    t.same(t.done("schedule", "ca.db", "1970-01-01T00:00:00Z=398"), "schedule set\n", "a schedule, which needs no signature")
    # The next CRL gets the number that the failed one would have had.
    it.signer("again")
    t.same(t.done("script", "ca.db", *it.signing("again"), given=f"{later} crl\n"), "crl 2 entries 1\n", "a CRL once a signer has the key again")


@each({"by examples/signer.py": "signer.py", "by socat and openssl": "socat"}, seconds=4)
def a_tool_that_signs_standard_input(t, tool):
    need("python3" if tool == "signer.py" else "socat")
    it = Authority(t)
    it.register()
    if tool == "signer.py":
        authority.need_cryptography(t)
        t.same(t.tool("python3", authority.EXAMPLES / "signer.py", it.key), b"ecdsa-sha256\n", "the name of the key's algorithm")
        words = ["python3", authority.EXAMPLES / "signer.py", it.key, "ca.sign"]
    else:
        words = ["socat", "-t", "10", "UNIX-LISTEN:ca.sign,fork,mode=600", "EXEC:openssl dgst -sha256 -sign ca.key"]
    authority.started(t, words, t.room / "ca.sign")
    if tool != "signer.py":
        # socat creates its socket first, and then changes the mode.
        authority.until(lambda: t.room.joinpath("ca.sign").stat().st_mode & 0o777 == 0o600, "socat to change the mode")
    t.same(t.room.joinpath("ca.sign").stat().st_mode & 0o777, 0o600, "the mode of the signer's socket")
    t.same(tried(t, ["crl", "crl"]), ["crl 1 entries 0", "crl 2 entries 0"])
    it.verifies(t.done("crl", "ca.db").encode("latin-1"))


@each(ALGORITHMS, seconds=4)
def examples_signer_py_signs_under_each_algorithm(t, algorithm):
    authority.need_cryptography(t)
    it = Authority(t, algorithm)
    it.register()
    t.same(t.tool("python3", authority.EXAMPLES / "signer.py", it.key).decode(), f"{algorithm}\n")
    authority.started(t, ["python3", authority.EXAMPLES / "signer.py", it.key, "ca.sign"], t.room / "ca.sign")
    # With P-256 the signer draws eight nonces ahead. Twelve CRLs use more than those.
    t.same(tried(t, ["crl"] * 12, it.signing()), [f"crl {number} entries 0" for number in range(1, 13)])
    crls = [t.done("crl", "ca.db", "--number", number).encode("latin-1") for number in range(1, 13)]
    for number in (1, 8, 12):
        it.verifies(crls[number - 1], f"CRL {number}")
    # Two signatures with one r would give the key away (FIPS 186-5 6.4.1).
    if algorithm.startswith("ecdsa"):
        t.same(len({authority.inside(authority.signed_part(crl)[2], 0)[1] for crl in crls}), 12, "number of different r")


@test(seconds=4)
def examples_signer_py_uses_no_processor_time_while_nobody_comes(t):
    """The signer draws some nonces ahead. While no client comes, it uses less than a tenth of a processor."""
    authority.need_cryptography(t)
    it = Authority(t)
    process = authority.started(t, ["python3", authority.EXAMPLES / "signer.py", it.key, "ca.sign"], t.room / "ca.sign")
    t.true(signature(t.room / "ca.sign", b"a message") != b"", "the signer does not sign")
    native_signer.is_idle(t, process)


# The order of P-256 (SEC 2, 2.4.2).
ORDER = 0xFFFFFFFF00000000FFFFFFFFFFFFFFFFBCE6FAADA7179E84F3B9CAC2FC632551


@test(seconds=3)
def examples_signer_py_erases_each_nonce_that_has_signed(t):
    """A reader of its memory could compute the key from a nonce and its signature (FIPS 186-5 6.4.1). Here the test computes each nonce from the key."""
    authority.need_cryptography(t)
    it = Authority(t)
    key = native_signer.values_octets(t.tool("openssl", "ec", "-in", it.key, "-outform", "DER"))
    process = authority.started(t, ["python3", authority.EXAMPLES / "signer.py", it.key, "ca.sign"], t.room / "ca.sign")
    inverses = []
    for at in range(20):
        message = b"%d" % at
        r, s = (int.from_bytes(value[1], "big") for value in authority.values_of(authority.inside(signature(t.room / "ca.sign", message))[1]))
        inverses.append(s * pow(int.from_bytes(hashlib.sha256(message).digest(), "big") + r * int.from_bytes(key[7:39], "big"), -1, ORDER) % ORDER)
        # Time in which it draws the next one.
        time.sleep(0.02)
    # libcrypto has the octets in this order. Its stack may keep those of a signature whose nonce was not drawn ahead.
    left = [at for at, inverse in enumerate(inverses) if native_signer.occurrences(process, inverse.to_bytes(32, "little")[16:])]
    t.true(len(left) < 10, f"the nonces of these signatures of twenty are still in memory: {left}")


@each({"SIGTERM": signal.SIGTERM, "SIGINT": signal.SIGINT}, seconds=2)
def examples_signer_py_ends_at_a_signal(t, number):
    authority.need_cryptography(t)
    it = Authority(t)
    process = authority.started(t, ["python3", authority.EXAMPLES / "signer.py", it.key, "ca.sign"], t.room / "ca.sign")
    t.callback(process.kill)
    t.true(signature(t.room / "ca.sign", b"a message") != b"", "the signer does not sign")
    process.send_signal(number)
    t.same((process.wait(20), process.stderr.read(), (t.room / "ca.sign").exists()), (0, b"", False), "status, standard error, whether its socket is still there")


@test(seconds=11)
def examples_signer_py_waits_ten_seconds_for_a_silent_client(t):
    """It signs for one client after the other. The desk gives up after ten seconds too, and then its next requests must not wait any longer."""
    authority.need_cryptography(t)
    it = Authority(t)
    process = authority.started(t, ["python3", authority.EXAMPLES / "signer.py", it.key, "ca.sign"], t.room / "ca.sign")
    t.callback(process.kill)
    t.enter_context(connected(t.room / "ca.sign"))
    with t.ten_seconds("the signature for the next client"):
        t.true(signature(t.room / "ca.sign", b"a message") != b"", "the signer does not sign for the next client")
    process.terminate()
    t.same(process.stderr.read(), b"a connection failed: nothing came in time\n", "standard error")


@test(seconds=2)
def examples_signer_py_has_a_queue_for_all_requests_of_a_desk(t):
    """The desk requests up to 32 signatures of OCSP answers at once, and does not wait for a place in the queue. The signer is stopped meanwhile."""
    authority.need_cryptography(t)
    it = Authority(t)
    process = authority.started(t, ["python3", authority.EXAMPLES / "signer.py", it.key, "ca.sign"], t.room / "ca.sign")
    t.true(signature(t.room / "ca.sign", b"a message") != b"", "the signer does not sign")
    t.same(authority.unserved_behind(t, process, t.room / "ca.sign", 32), 0, "clients without a signature")


@test(seconds=5)
def examples_signer_py_started_thrice_at_a_stale_socket(t):
    """Three signers start at once, and each takes half a second to remove the stale socket, and as long from bind(2) to listen(2). One serves. The
    others report that a signer listens already."""
    authority.need_cryptography(t)
    it = Authority(t)
    with socket.socket(socket.AF_UNIX) as stale:
        stale.bind(str(t.room / "ca.sign"))
    slowed = ("import os, runpy, socket, sys, time; remove = os.remove; os.remove = lambda path: (time.sleep(0.5), remove(path)); "
              "listen = socket.socket.listen; socket.socket.listen = lambda it, most: (time.sleep(0.5), listen(it, most)); "
              "sys.argv = sys.argv[1:]; sys.path.insert(0, os.path.dirname(sys.argv[0])); runpy.run_path(sys.argv[0])")
    words = [sys.executable, "-c", slowed, str(authority.EXAMPLES / "signer.py"), str(it.key), "ca.sign"]
    processes = [subprocess.Popen(words, cwd=t.room, stdout=subprocess.PIPE, stderr=subprocess.PIPE) for _ in range(3)]
    for process in processes:
        t.callback(authority.end, process)
    serving = [process for process in processes if process.stdout.readline()]
    t.same(len(serving), 1, "number of signers that serve")
    others = [(process.communicate()[1], process.returncode) for process in processes if process not in serving]
    t.same(others, [(b"something listens at ca.sign already\n", 1)] * 2, "standard error and status of the others")
    t.true(signature(t.room / "ca.sign", b"a message") != b"", "the serving one does not sign")
    serving[0].stdout.close()


@test(seconds=3)
def examples_signer_py_leaves_what_is_no_stale_socket(t):
    """examples/signer.py ends with an error at the path of a file, a dangling link or a link to a stale socket, and leaves them unchanged."""
    authority.need_cryptography(t)
    it = Authority(t)
    (t.room / "file").write_text("precious")
    with socket.socket(socket.AF_UNIX) as stale:
        stale.bind(str(t.room / "stale.sign"))
    for name, target in (("dangling", "nowhere"), ("link.sign", "stale.sign")):
        (t.room / name).symlink_to(target)
    for name in ("file", "dangling", "link.sign"):
        ran = t.tried("timeout", 60, sys.executable, authority.EXAMPLES / "signer.py", it.key, name)
        t.same((ran.returncode, ran.stdout, ran.stderr), (1, b"", f"{name} is no socket\n".encode()), name)
    t.same((t.room / "file").read_text(), "precious", "the file")
    t.same([os.readlink(t.room / name) for name in ("dangling", "link.sign")], ["nowhere", "stale.sign"], "the links")


@test(seconds=3)
def examples_signer_py_leaves_the_socket_of_a_later_one(t):
    """After a signer's socket was removed, a second signer starts at that path. The first signer ends, and leaves the socket of the second."""
    authority.need_cryptography(t)
    it = Authority(t)
    words = ["python3", authority.EXAMPLES / "signer.py", it.key, "ca.sign"]
    earlier = authority.started(t, words, t.room / "ca.sign")
    t.true(signature(t.room / "ca.sign", b"a message") != b"", "the earlier signer does not sign")
    (t.room / "ca.sign").unlink()
    authority.started(t, words, t.room / "ca.sign")
    earlier.terminate()
    t.same(earlier.wait(program.LONGEST), 0, "the earlier signer's status")
    t.true(signature(t.room / "ca.sign", b"a message") != b"", "the later signer does not sign once the earlier one has ended")


@test(seconds=2)
def the_examples_that_sign_write_nothing_beside_them(t):
    """Python would keep compiled modules there, which no package removes."""
    authority.need_cryptography(t)
    it, names = Authority(t), ["check-signer.py", "only_ours.py", "signer.py"]
    (t.room / "programs").mkdir()
    for name in names:
        shutil.copy(authority.EXAMPLES / name, t.room / "programs")
    env = {name: value for name, value in os.environ.items() if name != "PYTHONDONTWRITEBYTECODE"}
    t.same(t.tool(sys.executable, "programs/signer.py", it.key, env=env), b"ecdsa-sha256\n", "the output of signer.py")
    t.same(t.tool(sys.executable, "programs/check-signer.py", it.pem, env=env), b"", "the output of check-signer.py")
    t.same(sorted(it.name for it in (t.room / "programs").iterdir()), names, "files beside them")


@each(ALGORITHMS, seconds=4)
def a_signature_follows_a_placeholder_digest(t, algorithm):
    """The next CRL is signed, and has the next number and the same entries. The CRL with the placeholder digest stays. After that
    the register refuses a digest, and each other algorithm."""
    it = Authority(t, algorithm)
    it.register()
    begun = authority.now()
    t.same(t.done("script", "ca.db", given=first_day(begun)).splitlines(), first_day_replies(begun), "the first day, with a placeholder digest")
    read = lambda number: t.done("crl", "ca.db", "--number", number).encode("latin-1")
    algorithm_of = lambda crl: authority.signed_part(crl)[1].hex().upper()
    sealed = read(1)
    t.same(algorithm_of(sealed), "300906052B0E03021A0500", "the digest's AlgorithmIdentifier: SHA-1 with NULL")
    signer = it.signer()
    desk = t.open("ca.db", "--requests", "1000", *it.signing(), command="serve")
    t.same(it.asked_by_openssl("05", f"http://127.0.0.1:{desk.port}/ocsp", verify=True), "revoked", "the first OCSP answer, which is signed")
    t.same(body_of(t, desk.ask("GET", "/crl"), "application/pkix-crl"), sealed, "GET /crl, which still has the placeholder digest")
    desk.end()
    t.same(t.done("script", "ca.db", *it.signing(), given=f"{moment_of(begun)} crl\n"), "crl 2 entries 1\n", "the next CRL, with a signer")
    signed = read(2)
    it.verifies(signed)
    t.same((algorithm_of(signed), signer.asked[-1]), (IDENTIFIERS[algorithm], authority.signed_part(signed)[0]), "algorithm and signed bytes")
    t.has(t.tool("openssl", "crl", "-inform", "DER", "-noout", "-crlnumber", given=signed), b"2\n", "the number of CRL 2")
    t.same(authority.listed(t, signed), authority.listed(t, sealed), "the entries of CRL 2, and those of CRL 1")
    t.same(read(1), sealed, "CRL 1 after CRL 2")
    for words in ([], *(["--signer", "ca.sign", "--algorithm", other] for other in KEYS if other != algorithm)):
        refused(t, ["script", "ca.db", *words])
    t.same(t.done("audit", "ca.db"), "sound, 2 certificates, 1 revoked, 2 CRLs\n")


# CRLs with a placeholder digest


SEALED = {"a script": [], "a strict one": ["--strict"], "one by the clock": ["--clock"], "both": ["--clock", "--strict"]}


@each(SEALED)
def the_first_crl_with_a_placeholder_digest_has_a_warning(t, more):
    """The register's first CRL causes one warning on standard error. It changes neither the replies nor the status. Later CRLs cause none."""
    t.register()
    moment = "" if "--clock" in more else f"{MOMENT} "

    def told(*lines):
        ran = t.desk("script", "ca.db", *more, given="".join(f"{moment}{it}\n" for it in lines))
        t.same((ran.status, ran.err), (0, b""), "status, and standard error without the warning")
        return ran.lines, ran.is_warned

    t.same(told("subscriber acme", "next-crl"), (["subscriber 1", "next-crl at-once"], False), "lines without a CRL")
    t.same(told("crl", "subscriber emca", "crl"), (["crl 1 entries 0", "subscriber 2", "crl 2 entries 0"], True), "the first CRL")
    t.same(told("crl"), (["crl 3 entries 0"], False), "a later one")


@test
def the_warning_comes_even_if_replies_can_t_be_written(t):
    """If the reply to the first CRL can't be written, the register still has the CRL, and the warning is printed."""
    t.register()
    ran = t.tried("sh", "-c", f"{program.program()} script ca.db > /dev/full", given=f"{MOMENT} crl\n".encode())
    t.same((ran.returncode, ran.stderr), (1, program.SEALED + b"F5 write\n"))
    t.same(t.sql("ca.db", "SELECT number FROM crl"), [(1,)])


@test
def nothing_else_has_the_warning(t):
    """No warning comes for a CRL that a signer signs or fails to sign, for a script without a file, or for a refused CRL."""
    t.register(key=P256_KEY)
    t.same(tried(t, ["crl"]), ["F3 signer"], "a CRL without a signer at the socket")
    t.signer()
    t.same(tried(t, ["crl"]), ["crl 1 entries 0"], "a signed CRL")
    ran = t.desk("script", given=f"{MOMENT} crl\n")
    t.same((ran.status, ran.out, ran.err), (0, b"crl 1 entries 0\n", b""), "a CRL of a script without a file")
    t.register("other.db")
    ran = t.desk("script", "other.db", given="9999-12-31T00:00:00Z crl\n")
    t.same((ran.status, ran.out, ran.err, ran.is_warned), (0, b"E02 clock-end\n", b"", False), "a CRL that is refused")


# Long messages


@test(seconds=20)
def a_crl_of_3000_entries_is_sent_whole_and_verified(t):
    """The message to sign has over 100 kB, far more than a buffer of 4,096 bytes. The signer answers after the desk has shut down its side for
    writing."""
    it = Authority(t)
    file = it.register(authority.in_memory(t) / "ca.db")
    signer = it.signer()
    # Serial numbers of 19 octets that look random.
    serials = [f"{(1 << 150) + (at * 0x9E3779B97F4A7C15F39CC0605CEDC835) % (1 << 149):038x}" for at in range(3000)]
    begins, ends = MOMENT, "2026-03-01T00:00:00Z"
    lines = [f"{begins} subscriber acme"]
    for at, serial in enumerate(serials, 1):
        lines += [f"{begins} order 1 398", f"{begins} register {at} {serial} {begins} {ends}"]
        lines += [f"{begins} request {serial} superseded", f"{begins} revoke {at}"]
    lines += [f"{begins} crl", f"{begins} crl"]
    counting = faults.environment(count=t.room / "count", only="socket")
    told = t.done("script", file, *it.signing(), given="\n".join(lines) + "\n", faults=counting).splitlines()
    t.same(told[-2:], ["crl 1 entries 3000", "crl 2 entries 3000"])
    # The desk writes at most 32,768 bytes at a time, because the kernel may wait anew for each part of a longer write.
    t.same(faults.counted(t.room / "count")["write"], sum(-(-len(asked) // 32_768) for asked in signer.asked), "calls of write at the socket")
    crl = t.done("crl", file).encode("latin-1")
    t.true(len(crl) > 100_000, f"the CRL has only {len(crl)} bytes")
    it.verifies(crl)
    t.same(len(signer.asked), 2, "how often the signer was asked")
    t.same(signer.asked[1], authority.signed_part(crl)[0], "the message that the signer received")
    t.same(authority.listed(t, crl), {int(serial, 16): (program.seconds_of(begins), 4) for serial in serials})
    desk = t.open(file, *it.signing())
    t.same(body_of(t, desk.ask("GET", "/crl"), "application/pkix-crl") == crl, True, "whether GET /crl is the same CRL")


@each({f"{size} bytes": size for size in (4095, 4096, 4097, 8192, 20_000)}, seconds=2)
def an_ocsp_answer_so_long_is_sent_whole(t, size):
    """The message to sign has exactly `size` bytes. Each CertID in the request lengthens it, and each further octet of a serial number adds one
    byte."""
    it = Authority(t)
    it.register()
    signer = it.signer()
    desk = t.open("ca.db", *it.signing())

    def answered(octets):
        request = it.asks(*(f"{at:x}" + "5A" * more for at, more in enumerate(octets, 0x1101)))
        response = body_of(t, desk.ask("POST", "/ocsp", request))
        t.same(authority.answered_ids(response), authority.cert_ids(request), "the CertIDs")
        t.same(signer.asked[-1], authority.signed_part(authority.basic_of(response))[0], "the message that the signer received")
        t.same(it.reads("1101" + "5A" * octets[0], response), "unknown")
        return len(signer.asked[-1])

    count = (size - 150) // 103
    lacking = size - answered([0] * count)
    t.true(0 <= lacking <= 17 * count, f"{lacking} bytes are lacking with {count} serial numbers of two octets")
    t.same(answered([lacking // count + (at < lacking % count) for at in range(count)]), size, "bytes of the message to sign")


# Which socket


@each({"script": "script", "serve": "serve", "open": "open"}, seconds=2)
def only_the_named_socket_is_used(t, command):
    it = Authority(t)
    it.register()
    told, others = it.signer("told.sign"), [t.signer("other.sign"), t.signer("ca.sign")]
    if command == "script":
        t.same(tried(t, ["crl"], it.signing("told.sign")), ["crl 1 entries 0"])
    else:
        more = ("--requests", "9") if command == "serve" else ()
        desk = t.open("ca.db", *more, *it.signing("told.sign"), command=command)
        t.same(it.reads("05", body_of(t, desk.ask("POST", "/ocsp", it.asks("05")))), "unknown")
        if command == "open":
            t.same(t.control().ask("crl"), "crl 1 entries 0")
    t.same((len(told.asked), [other.asked for other in others]), ({"script": 1, "serve": 1, "open": 2}[command], [[], []]))


@test
def a_signer_s_path_has_107_bytes(t):
    """That is the longest path of a socket."""
    path = "./" * 49 + "long.sign"
    t.register(key=P256_KEY)
    t.signer("long.sign")
    words = ("--signer", path, "--algorithm", "ecdsa-sha256")
    t.same((len(path), tried(t, ["crl"], words)), (107, ["crl 1 entries 0"]), "the path's length, and a script's reply")
    t.clock(MOMENT)
    desk = t.open("ca.db", *words)
    t.same(t.control().ask("crl"), "crl 2 entries 0", "at the control socket")
    t.true(ANY_SIGNATURE in desk.ask("POST", "/ocsp", bytes.fromhex(faults.OCSP_REQUEST)), "the OCSP answer is not signed")


# The forms of signatures and keys

# An ECDSA signature is the DER of two positive INTEGERs below 2^256 or 2^384 (RFC 5480 appendix A, X.690 8.3, 10.1). Each row has bytes, whether they
# have that form under P-256, and whether they have it under P-384.
ECDSA_FORMS = [
    # r and s are 1; 127; 128; 2^15.
    ("3006020101020101", True, True),
    ("300602017F02017F", True, True),
    ("30080202008002020080", True, True),
    ("300A02030080000203008000", True, True),
    # Neither may be 0 or negative, or have an octet too many.
    ("3006020100020101", False, False),
    ("3006020101020100", False, False),
    ("3006020180020101", False, False),
    ("30060201010201FF", False, False),
    ("300702020001020101", False, False),
    ("300702010102020001", False, False),
    ("3007020200000201FF", False, False),
    ("3004020002020101", False, False),
    # One INTEGER, three, other tags, lengths in more octets than necessary or wrong ones, bytes after the end, and a cut signature.
    ("3003020101", False, False),
    ("3009020101020101020101", False, False),
    ("3106020101020101", False, False),
    ("3006030101020101", False, False),
    ("3006020101030101", False, False),
    ("308106020101020101", False, False),
    ("300702810101020101", False, False),
    ("300602010102010100", False, False),
    ("3005020101020101", False, False),
    ("3007020101020101", False, False),
    ("", False, False),
    ("30", False, False),
    ("3000", False, False),
    # 2^256 - 1 and 2^256, 2^384 - 1 and 2^384.
    ("3026022100" + "FF" * 32 + "020101", True, True),
    ("3026022101" + "00" * 32 + "020101", False, True),
    ("3026020101022101" + "00" * 32, False, True),
    ("3036020101023100" + "FF" * 48, False, True),
    ("3066023100" + "FF" * 48 + "023100" + "FF" * 48, False, True),
    ("3036023101" + "00" * 48 + "020101", False, False),
    ("3036020101023101" + "00" * 48, False, False),
    # 4,096 bytes and one more.
    ("07" * 4096, False, False),
    ("07" * 4097, False, False),
    ("3006020101020101" + "00" * 4090, False, False),
]
P384_KEY = "04" + "11" * 96
RSA_2048_KEY = "3082010A0282010100" + "BF" * 256 + "0203010001"
LONGEST_RSA_KEY = "308207FC028207F5" + "7F" * 2037 + "020103"
ED25519_KEY = "17" * 32


def signatures_of_lengths(*lengths):
    return ["07" * it for it in lengths]


# The algorithm, the register's key, and signatures, each with whether it has the form of the algorithm.
FORMS = {
    "ecdsa-sha256": ("ecdsa-sha256", P256_KEY, [(it, fits) for it, fits, _ in ECDSA_FORMS]),
    "ecdsa-sha384": ("ecdsa-sha384", P384_KEY, [(it, fits) for it, _, fits in ECDSA_FORMS]),
    # As long as the modulus (RFC 8017 8.2.2), and 64 octets (RFC 8032 5.1.6).
    "rsa-sha256": ("rsa-sha256", RSA_2048_KEY, [(it, len(it) == 512) for it in signatures_of_lengths(0, 63, 64, 65, 255, 256, 257, 4096, 4097)]),
    "ed25519": ("ed25519", ED25519_KEY, [(it, len(it) == 128) for it in signatures_of_lengths(0, 63, 64, 65, 255, 256, 257, 4096, 4097)]),
    # Other RSA moduli. One of them begins with a zero octet in DER, which does not count (RFC 8017 A.1.1).
    "a modulus of one octet": ("rsa-sha256", "300602010F020103", [(it, len(it) == 2) for it in signatures_of_lengths(0, 1, 2, 3, 4)]),
    "a modulus with a zero octet": ("rsa-sha256", "3008020300FFFF020103", [(it, len(it) == 4) for it in signatures_of_lengths(0, 1, 2, 3, 4)]),
    "a modulus of three octets": ("rsa-sha256", "3008020301FFFF020103", [(it, len(it) == 6) for it in signatures_of_lengths(0, 1, 2, 3, 4)]),
    "the longest modulus of a key": ("rsa-sha256", LONGEST_RSA_KEY, [(it, len(it) == 4074) for it in signatures_of_lengths(2036, 2037, 2038, 4096)]),
}


@each(FORMS, seconds=2)
def what_is_no_signature_is_f3_and_the_next_command_goes_on(t, algorithm, key, rows):
    t.register(key=key)
    t.signer("ca.sign", lambda message, call: bytes.fromhex(rows[call - 1][0]) if call <= len(rows) else b"")
    numbers = iter(range(1, len(rows) + 1))
    wanted = [f"crl {next(numbers)} entries 0" if fits else "F3 signer" for _, fits in rows]
    got = tried(t, ["crl"] * len(rows), ("--signer", "ca.sign", "--algorithm", algorithm))
    t.same(list(zip((it for it, _ in rows), got)), list(zip((it for it, _ in rows), wanted)), "signatures and replies")
    issued = sum(1 for _, fits in rows if fits)
    t.same(t.sql("ca.db", "SELECT count(*) FROM crl"), [(issued,)], "number of recorded CRLs")
    last = [it for it, fits in rows if fits][-1]
    crl = t.done("crl", "ca.db", "--number", issued).encode("latin-1")
    t.same(authority.signed_part(crl)[2].hex().upper(), last.upper(), "the signature in the last CRL")


@test
def the_longest_signature_in_an_open_desk(t):
    """The longest RSA key signs a CRL at the control socket, and an OCSP answer over HTTP."""
    signature = b"\7" * 2037
    t.register(key=LONGEST_RSA_KEY)
    t.signer("ca.sign", lambda message, call: signature)
    desk = t.open("ca.db", "--signer", "ca.sign", "--algorithm", "rsa-sha256")
    t.same(t.control().ask("crl"), "crl 1 entries 0")
    t.true(signature in desk.ask("POST", "/ocsp", bytes.fromhex(faults.OCSP_REQUEST)), "the OCSP answer is not signed")


@each(ALGORITHMS, seconds=4)
def a_signature_of_openssl_cut_short_or_made_longer(t, algorithm):
    it = Authority(t, algorithm)
    it.register()
    signature = it.sign(b"the bytes to be signed")
    gives = [signature[:count] for count in range(len(signature))] + [signature + b"\0", signature]
    t.signer("ca.sign", lambda message, call: gives[call - 1])
    got = tried(t, ["crl"] * len(gives), it.signing())
    t.same(got, ["F3 signer"] * (len(gives) - 1) + ["crl 1 entries 0"])


@each(ALGORITHMS, seconds=4)
def a_signature_of_one_algorithm_under_the_others(t, algorithm):
    """The desk checks only the form of a signature. So a P-256 signature is accepted under P-384, because numbers below 2^256 are below 2^384."""
    own = Authority(t, algorithm)
    own.register()
    others = [Authority(t, it, name=it) for it in KEYS]
    gives = [it.sign(b"the bytes to be signed") for it in others]
    t.signer("ca.sign", lambda message, call: gives[call - 1])
    fits = [it.algorithm == algorithm or (it.algorithm, algorithm) == ("ecdsa-sha256", "ecdsa-sha384") for it in others]
    numbers = iter(range(1, 9))
    t.same(tried(t, ["crl"] * len(gives), own.signing()), [f"crl {next(numbers)} entries 0" if it else "F3 signer" for it in fits])


# Each row has an algorithm, a public key's first octet and number of octets, and whether the key is of the algorithm (SEC 1 2.3.3 for points).
POINTS = [
    ("ecdsa-sha256", 4, 65, True), ("ecdsa-sha256", 2, 33, True), ("ecdsa-sha256", 3, 33, True), ("ecdsa-sha256", 4, 64, False),
    ("ecdsa-sha256", 4, 66, False), ("ecdsa-sha256", 4, 33, False), ("ecdsa-sha256", 2, 65, False), ("ecdsa-sha256", 0, 1, False),
    ("ecdsa-sha256", 6, 65, False), ("ecdsa-sha256", 4, 97, False), ("ecdsa-sha384", 4, 97, True), ("ecdsa-sha384", 2, 49, True),
    ("ecdsa-sha384", 3, 49, True), ("ecdsa-sha384", 4, 65, False), ("ecdsa-sha384", 5, 97, False), ("ed25519", 4, 32, True),
    ("ed25519", 4, 31, False), ("ed25519", 4, 33, False), ("rsa-sha256", 4, 65, False),
]
KEY_ROWS = [(algorithm, f"{first:02X}" + "00" * (count - 1), fits) for algorithm, first, count, fits in POINTS] + [
    ("rsa-sha256", "300602010F020103", True), ("rsa-sha256", "3006020100020103", False), ("rsa-sha256", "300602010F020100", False),
    ("rsa-sha256", "3003020105", False), ("rsa-sha256", "616263", False), ("rsa-sha256", RSA_2048_KEY, True), ("ecdsa-sha256", RSA_2048_KEY, False),
    ("ed25519", RSA_2048_KEY, False), ("rsa-sha256", ED25519_KEY, False), ("ecdsa-sha384", P256_KEY, False), ("ecdsa-sha256", P384_KEY, False),
]


@each({f"{algorithm} {key[:20]} of {len(key) // 2} octets": (algorithm, key, fits) for algorithm, key, fits in KEY_ROWS}, seconds=1)
def a_key_is_of_its_algorithm_or_bad_signer(t, algorithm, key, fits):
    t.register(key=key)
    words = ["script", "ca.db", "--signer", "ca.sign", "--algorithm", algorithm]
    if fits:
        t.same(t.done(*words, given=f"{MOMENT} counts\n"), "good 0 revoked 0 expired 0\n")
    else:
        refused(t, words)


@each(ALGORITHMS, seconds=4)
def each_command_wants_a_key_of_its_algorithm(t, algorithm):
    it = Authority(t, algorithm)
    it.register()
    for other in KEYS:
        if other != algorithm:
            for words in (["script", "ca.db"], ["serve", "ca.db", "--port", program.free_port(), "--requests", 1],
                          ["open", "ca.db", "--port", program.free_port(), "--control", "control"]):
                refused(t, [*words, "--signer", "ca.sign", "--algorithm", other])
    t.true(not (t.room / "control").exists(), "the refused command created a control socket")


# Signers that fail


def gives(*pieces, pause=0.0):
    """A signer that reads the whole message, and sends these pieces one after the other."""

    def manner(client, it):
        program.read_all(client)
        for piece in pieces:
            client.sendall(piece)
            time.sleep(pause)

    return manner


def reads_little(client, it):
    client.recv(1)


FAILING = {
    "closes at once": lambda client, it: None,
    "closes when it has read a byte": reads_little,
    "reads all and gives nothing": gives(),
    "gives half of a signature": gives(ANY_SIGNATURE[:4]),
    "gives a byte too many": gives(ANY_SIGNATURE + b"\0"),
    "gives a signature twice": gives(ANY_SIGNATURE, ANY_SIGNATURE, pause=0.05),
    "gives bytes without end": lambda client, it: endless(client),
}


def endless(client):
    program.read_all(client)
    while True:
        client.sendall(b"\7" * 65_536)


@each(FAILING, seconds=2)
def a_signer_that_fails_once(t, manner):
    """The signer fails at every other request. A failed CRL is `F3 signer` and is not recorded. A failed OCSP request is internalError. The next
    request is signed."""
    t.register(key=P256_KEY)
    well = gives(ANY_SIGNATURE)
    t.enter_context(ScriptedSigner(t.room / "ca.sign", lambda client, it: (manner if it.asked % 2 else well)(client, it)))
    request = bytes.fromhex("30423040303E303C303A300906052B0E03021A05000414" + "00" * 20 + "0414" + "00" * 20 + "020105")
    line = f"ocsp {request.hex()}"
    (*got, last), seconds = timed(lambda: tried(t, ["crl", "crl", "crl", "subscriber acme", "crl", line, line]))
    t.same(got, ["F3 signer", "crl 1 entries 0", "F3 signer", "subscriber 1", "crl 2 entries 0", f"ocsp {INTERNAL.hex()}"])
    t.has(last, ANY_SIGNATURE.hex(), "the next answer to an `ocsp` line")
    t.true(seconds < 9, f"it took {seconds:.1f} s, so the desk waited for a signer that had failed")
    t.same(t.sql("ca.db", "SELECT number FROM crl ORDER BY number"), [(1,), (2,)])
    desk = t.open("ca.db", *P256)
    t.same(body_of(t, desk.ask("POST", "/ocsp", request)), INTERNAL, "an OCSP answer that the signer does not sign")
    t.same(body_of(t, desk.ask("POST", "/ocsp", request))[:2] == INTERNAL[:2], False, "whether the next answer is internalError")


NOBODY = {"no such path": None, "a file": "file", "a socket at which nobody listens": "socket", "a folder": "folder"}


@each(NOBODY, seconds=1)
def nobody_is_at_the_signer_s_socket(t, what):
    t.register(key=P256_KEY)
    path = t.room / "ca.sign"
    if what == "file":
        path.write_text("precious")
    elif what == "folder":
        path.mkdir()
    elif what == "socket":
        with socket.socket(socket.AF_UNIX) as it:
            it.bind(str(path))
    at_once(t, lambda: tried(t, ["crl", "subscriber acme", "next-crl"]), ["F3 signer", "subscriber 1", "next-crl at-once"], "a script")
    t.same(t.sql("ca.db", "SELECT count(*) FROM crl"), [(0,)])
    if what == "file":
        t.same(path.read_text(), "precious", "the contents of the file")


@each({"byte by byte": gives(*(bytes([it]) for it in ANY_SIGNATURE), pause=0.002), "after a second": lambda client, it: late(client)}, seconds=3)
def a_signer_that_takes_its_time(t, manner):
    t.register(key=P256_KEY)
    t.enter_context(ScriptedSigner(t.room / "ca.sign", manner))
    t.same(tried(t, ["crl"]), ["crl 1 entries 0"])


def late(client):
    program.read_all(client)
    time.sleep(1)
    client.sendall(ANY_SIGNATURE)


def hangs(client, it):
    it.ended.wait(40)


def drips(client, it):
    """Sends a byte each second, without end. A timeout of ten seconds for each byte would never expire."""
    program.read_all(client)
    while not it.ended.wait(1):
        client.sendall(b"\7")


def takes_little(client, it):
    """Reads a full socket buffer every four seconds. A timeout of ten seconds for each write would expire too late."""
    while not it.ended.wait(4):
        client.recv(65_536)


# A name of 992 bytes. Written byte by byte, a message with this name does not fit into a socket's buffers.
LONG_NAME = "308203DC" + program.NAME[4:] * 76
LINES = [f"{MOMENT} crl", f"{MOMENT} counts"]


@test(seconds=14)
def a_signer_has_ten_seconds_in_all(t):
    """A script and an open desk wait ten seconds for a signer that hangs, and for one that drips. A script also does so if the signer reads slowly,
    or if signals interrupt each wait. All these run at once."""
    signing = lambda name: ("--signer", f"{name}.sign", "--algorithm", "ecdsa-sha256")

    def by_script(name, **how):
        begun = time.monotonic()
        ran = program.run(["script", f"{name}.db", *signing(name)], "".join(f"{it}\n" for it in LINES), cwd=t.room, **how)
        return ran.lines, time.monotonic() - begun

    def by_pieces(name):
        return by_script(name, faults=faults.environment(short=1, only="socket"))

    def by_stopped(name):
        """SIGSTOP and SIGCONT interrupt the wait at a socket with EINTR (signal(7))."""
        with faults.Lines(t, f"{name}.db", signing(name)) as desk, ThreadPoolExecutor(1) as requester:
            begun = time.monotonic()
            told = requester.submit(lambda: [desk.ask(it) for it in LINES])
            while not told.done():
                for it in (signal.SIGSTOP, signal.SIGCONT):
                    time.sleep(0.2)
                    desk.process.send_signal(it)
            return told.result(), time.monotonic() - begun

    def by_open(name):
        desk = t.open(f"{name}.db", *signing(name), "--control", f"{name}.control")
        with program.Control(t.room / f"{name}.control") as control:
            begun = time.monotonic()
            told = [control.ask("crl"), control.ask("counts")]
            return told, time.monotonic() - begun

    works = {"hangs-script": (hangs, by_script), "hangs-stopped": (hangs, by_stopped), "hangs-open": (hangs, by_open),
             "drips-script": (drips, by_script), "drips-open": (drips, by_open), "takes-little": (takes_little, by_pieces)}
    for name, (manner, _) in works.items():
        t.register(f"{name}.db", name=LONG_NAME, key=P256_KEY)
        t.enter_context(ScriptedSigner(t.room / f"{name}.sign", manner))
    with ThreadPoolExecutor(len(works)) as pool:
        for name, work in {name: pool.submit(work, name) for name, (_, work) in works.items()}.items():
            told, seconds = work.result()
            t.same(told, ["F3 signer", "good 0 revoked 0 expired 0"], name)
            # A busy machine may take longer than ten seconds, but never less.
            t.true(TEN_SECONDS[0] <= seconds < TEN_SECONDS[1], f"{name} took {seconds:.1f} s in place of ten")


# Signers that hang, and what is answered meanwhile

# An OCSP request for a certificate of another issuer, in the form of RFC 6960 4.1.1.
OCSP = bytes.fromhex("30423040303E303C303A300906052B0E03021A05000414" + "00" * 20 + "0414" + "00" * 20 + "020105")
ENTERED = ["subscriber acme", "order 1 398", f"register 1 05 {MOMENT} 2026-12-31T00:00:00Z"]


class Hanging:
    """A signer at a socket that keeps each client waiting until the client disconnects. Once `mended` is set, it answers."""

    def __init__(self, t, path="ca.sign"):
        self.mended = threading.Event()
        self.signer = t.enter_context(ScriptedSigner(t.room / path, self.manner))

    def manner(self, client, it):
        gone = select.poll()
        # With no events, poll(2) still reports that the other side has closed.
        gone.register(client, 0)
        while not (self.mended.is_set() or it.ended.is_set() or gone.poll(50)):
            pass
        gives(ANY_SIGNATURE)(client, it)

    @property
    def asked(self):
        return self.signer.asked


def timed(work):
    """The result of `work()`, and how many seconds it took."""
    begun = time.monotonic()
    return work(), time.monotonic() - begun


def at_once(t, work, wanted, what):
    """Checks the result of `work()`, and that it came without a wait for the signer."""
    with t.at_once(what):
        t.same(work(), wanted, what)


def after_ten_seconds(t, signer, desk, work):
    """The result of `work()`, whose line waits for the signer. Checks that the reply comes after exactly ten seconds of the desk's time."""
    asked = signer.asked
    with ThreadPoolExecutor(1) as pool:
        waits = pool.submit(work)
        authority.until(lambda: signer.asked > asked, "a request to the signer")
        desk.advance(9_999)
        t.same(waits.done(), False, "whether the reply came a millisecond early")
        desk.advance(1)
        return waits.result()


def is_signed(control):
    """Whether the reply to an `ocsp` line is other than internalError."""
    return control.ask(f"ocsp {OCSP.hex()}") != f"ocsp {INTERNAL.hex()}"


def hung(t):
    """A desk whose signer hangs. One `ocsp` line at its control socket has waited for ten seconds. Its time stands still until `advance`."""
    t.register(key=P256_KEY, lines="".join(f"{MOMENT} {it}\n" for it in ENTERED))
    t.clock(MOMENT)
    signer = Hanging(t)
    desk = Passing(t, *P256)
    control = t.control()
    signed = after_ten_seconds(t, signer, desk, lambda: is_signed(control))
    t.same((signed, signer.asked), (False, 1), "whether the answer is signed, and how often the signer was asked")
    return signer, desk, control


@test(seconds=3)
def a_signer_that_hangs_holds_nobody_up_for_ten_seconds_more(t):
    """During the back-off each `ocsp` line is internalError at once, and all else is answered at once. The first `ocsp` line after it asks the signer
    again. An OCSP request over HTTP asks the signer each time, because only its client waits."""
    signer, passing, control = hung(t)
    desk = passing.desk
    for _ in range(3):
        at_once(t, lambda: is_signed(control), False, "a line behind it")
        at_once(t, lambda: program.parted(desk.ask("GET", "/counts"))[0], 200, "GET /counts")
        passing.advance(3_000)
    at_once(t, lambda: control.ask("request 05 asked"), "request 1 due 2026-01-02T00:00:00Z", "a request at the control socket")
    at_once(t, lambda: control.ask("revoke 1"), "revoked", "a revocation at the control socket")
    at_once(t, lambda: json.loads(program.parted(desk.ask("GET", "/status/05"))[2])["status"], "revoked", "GET /status")
    t.same(signer.asked, 1, "how often the signer was asked")
    signer.mended.set()
    passing.advance(999)
    at_once(t, lambda: is_signed(control), False, "a line a millisecond before it is tried again")
    at_once(t, lambda: desk.ask("POST", "/ocsp", OCSP).endswith(INTERNAL), False, "a request over HTTP")
    passing.advance(1)
    for _ in range(4):
        at_once(t, lambda: is_signed(control), True, "a line once it answers again")
    told = [re.search(r'("POST|"GET|control "ocsp|control).*?( signer)?$', it) for it in desk.end().err_lines]
    unsigned = [it[2] is not None for it in told if it[1] == 'control "ocsp']
    t.same(unsigned, [True] * (len(unsigned) - 4) + [False] * 4, "which `ocsp` lines end with `signer` in the log")
    t.same([it[0] for it in told if it[1] != 'control "ocsp' and it[2]], [], "other lines of the log that end with `signer`")


@test(seconds=3)
def a_signer_that_still_hangs_is_tried_once_in_ten_seconds(t):
    signer, desk, control = hung(t)
    for _ in range(2):
        desk.advance(9_999)
        asked = signer.asked
        at_once(t, lambda: is_signed(control), False, "a line a millisecond before it is tried again")
        t.same(signer.asked, asked, "how often the signer was asked")
        desk.advance(1)
        signed = after_ten_seconds(t, signer, desk, lambda: is_signed(control))
        t.same((signed, signer.asked), (False, asked + 1), "whether the answer is signed, and how often the signer was asked")
    at_once(t, lambda: is_signed(control), False, "a line behind that")


@test(seconds=4)
def a_back_off_begins_though_the_line_began_a_little_later_than_its_ten_seconds(t):
    """The desk answers another client first, and a millisecond passes with each reading of the elapsed time. So the `ocsp` line begins a little
    after the beginning of its ten seconds. The back-off begins even so."""
    t.register(key=P256_KEY)
    t.clock(MOMENT)
    signer, passed = Hanging(t), t.room / "passed"
    passed.write_bytes(bytes(8))
    desk = t.open("ca.db", *P256, faults=faults.environment(passed=passed, tick=1))
    control, other = t.control(), t.control()
    t.same([it.ask("counts") for it in (control, other)], ["good 0 revoked 0 expired 0"] * 2)
    program.hold(desk.process)
    control.stream.sendall(f"ocsp {OCSP.hex()}\n".encode())
    other.stream.sendall(b"counts\n")
    desk.process.send_signal(signal.SIGCONT)
    t.same(other.file.readline(), b"good 0 revoked 0 expired 0\n")
    authority.until(lambda: signer.asked, "a request to the signer")
    # The desk has this file mapped, so the test never empties it. The last milliseconds pass as the event loop reads the time, four times a second.
    with open(passed, "r+b") as it:
        it.write((9_985).to_bytes(8, "little"))
    t.same(control.file.readline(), f"ocsp {INTERNAL.hex()}\n".encode(), "the line that waited")
    at_once(t, lambda: is_signed(control), False, "a line behind it")
    t.same(signer.asked, 1, "how often the signer was asked")


@each({"an answer": ANY_SIGNATURE, "no answer": b""}, seconds=3)
def what_comes_within_the_ten_seconds_begins_no_back_off(t, given):
    """After 9.9 seconds the signer ends its connection, with a signature or without one. It is asked again for the next `ocsp` line."""
    t.register(key=P256_KEY)
    t.clock(MOMENT)
    goes_on, asked = threading.Event(), []
    t.callback(goes_on.set)

    def answer(message):
        asked.append(message)
        if len(asked) > 1:
            return ANY_SIGNATURE
        goes_on.wait(60)
        return given

    t.enter_context(program.Signers(t.room / "ca.sign", answer))
    desk, control = Passing(t, *P256), t.control()
    with ThreadPoolExecutor(1) as pool:
        late = pool.submit(is_signed, control)
        authority.until(lambda: asked, "a request to the signer")
        desk.advance(9_900)
        goes_on.set()
        t.same(late.result(), given != b"", "whether the line that waited is signed")
    t.same(is_signed(control), True, "whether the next line is signed")


@test(seconds=3)
def a_crl_asks_a_signer_during_its_back_off(t):
    """While the signer hangs, a CRL waits for its own ten seconds. Once the signer answers, a CRL is issued at once, and `ocsp` lines are signed
    again."""
    signer, desk, control = hung(t)
    told = after_ten_seconds(t, signer, desk, lambda: control.ask("crl"))
    t.same((told, signer.asked), ("F3 signer", 2), "a CRL")
    at_once(t, lambda: is_signed(control), False, "a line behind it")
    signer.mended.set()
    at_once(t, lambda: is_signed(control), False, "a line once it would answer")
    at_once(t, lambda: control.ask("crl"), "crl 1 entries 0", "a CRL then")
    at_once(t, lambda: is_signed(control), True, "a line behind that")
    t.same(signer.asked, 4, "how often the signer was asked")


@test(seconds=3)
def a_crl_that_fails_at_once_ends_the_back_off(t):
    """The hanging signer's socket is removed, so a CRL fails at once. The next `ocsp` line asks another signer at the same path."""
    _, _, control = hung(t)
    at_once(t, lambda: is_signed(control), False, "a line behind it")
    (t.room / "ca.sign").unlink()
    at_once(t, lambda: control.ask("crl"), "F3 signer", "a CRL that no signer signs")
    signer = t.signer()
    at_once(t, lambda: is_signed(control), True, "a line once another signer is there")
    t.same(len(signer.asked), 1, "how often the other signer was asked")


# The native signer


@each(ALGORITHMS, seconds=30)
def valgrind_finds_no_fault_in_the_native_signer(t, algorithm):
    need("valgrind")
    it = Authority(t, algorithm)
    issuer = native_signer.filter_module().issuer_of(it.pem)
    t.tool("openssl", "pkcs8", "-topk8", "-in", it.key, "-passout", "pass:a word", "-out", "locked.key")
    (t.room / "word").write_text("a word\n")
    before = ["valgrind", "-q", "--error-exitcode=99", "--leak-check=full", "--errors-for-leak-kinds=definite,indirect,possible"]
    process = started(t, "--persistent", "--passphrase-file", "word", "--only-ours", it.pem, "locked.key", before=before)
    path = t.room / "ca.sign"
    messages, ours = native_signer.named_messages(issuer), native_signer.ours(issuer)[0]
    accepted = {what: native_signer.is_accepted(native_signer.filter_module(), message, issuer) for what, message in messages.items()}
    clients = [t.enter_context(connected(path)) for _ in range(3)]
    for what, message in messages.items():
        t.same((signature(path, message) != b"", native.asked(clients[0], message) != b""), (accepted[what], accepted[what]), what)
    clients[1].sendall(b"".join(map(native.frame, messages.values())))
    t.same([native.answer(clients[1]) != b"" for _ in messages], [*accepted.values()], "all messages together")
    native_signer.verifies(t, it, ours, native_signer.announced(t, signature(path, ours)))
    incomplete = (bytes(2), native.frame(ours)[:-1], native.frame(bytes(3_000_000))[:-1], native.frame(b"") + b"\1")
    for octets in (b"", b"a" * 9, b"a" * 100_000, b"a" * 3_000_000, *incomplete):
        with connected(path) as client:
            client.sendall(octets)
    t.same((signature(path, b"a" * 3_000_000), native.asked(clients[1], bytes(3_000_000))), (b"", b""), "a long message")
    native_signer.verifies(t, it, ours, native.asked(clients[1], ours))
    clients[2].sendall(incomplete[2])
    status, told = ended(process)
    t.same((status, [line for line in told if not line.startswith(NAME)]), (0, []), "valgrind's status, and its lines on standard error")


@test(seconds=60)
def a_fuzzer_finds_no_fault_in_what_the_native_signer_accepts(t):
    """The fuzzer runs for DESK_FUZZ seconds, by default 60. For its corpus, the native signer and examples/only_ours.py accept the same messages."""
    need("clang", "nice")
    try:
        fuzzer = native_signer.checker("fuzzer", "clang", "-O1", "-DFUZZED", "-fsanitize=fuzzer,address,undefined", "-fno-sanitize-recover=all")
    except AssertionError as why:
        raise Skipped("clang has no fuzzer here: apt install libclang-rt-dev") from why
    it = Authority(t)
    corpus = t.room / "corpus"
    corpus.mkdir()
    for at, message in enumerate(native_signer.named_messages(native_signer.filter_module().issuer_of(it.pem)).values()):
        (corpus / f"seed{at:03}").write_bytes(message)
    seconds = os.environ.get("DESK_FUZZ", "60")
    ran = t.tried("nice", "-n", "10", fuzzer, f"-max_total_time={seconds}", "-max_len=1000", "-print_final_stats=1", corpus,
                  timeout=60 + 3 * int(seconds), env={"CA": str(it.pem), "PATH": os.environ["PATH"]})
    t.same(ran.returncode, 0, f"the fuzzer's status: {ran.stderr[-3000:].decode()}")
    messages = [path.read_bytes() for path in corpus.iterdir()]
    t.true(native_signer.compared(t, messages, it) >= 4, "fewer than four messages of the corpus are accepted")
