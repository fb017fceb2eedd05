"""Pending signatures of OCSP answers and CRLs. Only the client that needs a signature waits for it. Control lines also wait for an earlier line's."""

import hashlib
import os
import queue
import signal
import socket
import struct
import threading
import time
from concurrent.futures import ThreadPoolExecutor
from contextlib import ExitStack

from lib import authority, faults, program, registers
from lib.authority import INTERNAL, Authority, body_of
from lib.passing import Passing
from lib.program import ANY_SIGNATURE, P256_KEY, Signers
from lib.trial import Failed, each, test

SIGNING = ("--signer", "ca.sign", "--algorithm", "ecdsa-sha256")
DAY = "2026-01-01T00:00:00Z"
AT_ONCE = 32


def asked_for(serial):
    """An OCSP request in the form of RFC 6960 4.1.1, for another issuer and this serial number of two octets."""
    octets = serial.to_bytes(2, "big")
    issuer = bytes.fromhex("300906052B0E03021A05000414" + "00" * 20 + "0414" + "00" * 20)
    identifier = b"\x30" + bytes([len(issuer) + 4]) + issuer + b"\x02\x02" + octets
    for tag in (0x30, 0x30, 0x30, 0x30):
        identifier = bytes([tag, len(identifier)]) + identifier
    return identifier


def names(message, serial):
    """Whether the message to sign is the answer for this serial number."""
    return b"\x02\x02" + serial.to_bytes(2, "big") in message


def ocsp_answer(desk, serial):
    """The body of the answer for a serial number."""
    return program.parted(desk.ask("POST", "/ocsp", asked_for(serial)))[2]


def is_signed(response):
    """Whether the OCSP response is successful (RFC 6960 4.2.1), and has ANY_SIGNATURE."""
    return bytes.fromhex("0A0100") in response[:8] and ANY_SIGNATURE in response


def own_signature(message):
    """Bytes in the form of an ECDSA signature, which differ for each message."""
    number = b"\x02\x20\x01" + hashlib.sha256(message).digest()[1:]
    return b"\x30\x44" + number * 2


def files(desk):
    """How many file descriptors the desk has."""
    return len(os.listdir(f"/proc/{desk.process.pid}/fd"))


class Held:
    """A signer that answers only after `release`."""

    def __init__(self, t, path="ca.sign", signature=lambda message: ANY_SIGNATURE):
        self.release, self.signature = threading.Event(), signature
        t.callback(self.release.set)
        self.signers = t.enter_context(Signers(t.room / path, self.answer))

    def answer(self, message):
        self.release.wait(60 * program.PATIENCE)
        return self.signature(message)


def opened(t, *words):
    """An open desk for which no time passes: the ten seconds of a signature never end, however slow the machine is."""
    t.register(key=P256_KEY)
    return Passing(t, *SIGNING, *words).desk


@test(seconds=3)
def at_most_32_signatures_are_requested_at_once(t):
    """The desk requests at most 32 signatures at once, and gives each of 40 answers its own signature."""
    held = Held(t, signature=own_signature)
    desk = opened(t)
    with ThreadPoolExecutor(AT_ONCE + 8) as pool:
        answers = [pool.submit(ocsp_answer, desk, 0x1100 + at) for at in range(AT_ONCE + 8)]
        t.true(held.signers.until(AT_ONCE), "fewer than 32 signatures are requested")
        # The desk could request one more in this time.
        time.sleep(0.3)
        t.same(held.signers.most, AT_ONCE, "signatures requested at once")
        held.release.set()
        for at, it in enumerate(answers):
            part, _, signature = authority.signed_part(authority.basic_of(it.result()))
            t.true(names(part, 0x1100 + at), f"client {at} got the answer for another serial number")
            t.same(signature, own_signature(part), f"signature {at}")
    t.same(len(held.signers.asked), AT_ONCE + 8, "requested signatures")


@test(seconds=2)
def signatures_of_clients_that_come_together_are_requested_together(t):
    """The desk requests the signatures of 32 answers after a few calls of epoll_wait(2), and not after one for each."""
    held = Held(t)
    t.register(key=P256_KEY)
    desk = t.open("ca.db", *SIGNING, faults=faults.environment(count=t.room / "count"))
    calls = lambda: faults.counted(t.room / "count")["poll"]
    authority.until(lambda: calls() >= 2, "the desk to wait for clients")
    program.hold(desk.process)
    for at in range(AT_ONCE):
        body = asked_for(0x1100 + at)
        t.enter_context(desk.connect()).sendall(b"POST /ocsp HTTP/1.1\r\nHost: localhost\r\nContent-Length: %d\r\n\r\n" % len(body) + body)
    before = calls()
    desk.process.send_signal(signal.SIGCONT)
    t.true(held.signers.until(AT_ONCE), "a signature is not requested")
    # While nothing happens, the desk makes four calls a second.
    t.true(calls() - before < AT_ONCE // 2, f"calls of epoll_wait(2) until {AT_ONCE} signatures were requested: {calls() - before}")


@test(seconds=2)
def a_signature_is_requested_without_a_wait_for_another_event(t):
    """The event loop waits up to a quarter of a second if nothing happens. The signature is requested before that, so the fastest of ten answers takes
    less time."""
    t.signer()
    t.register(key=P256_KEY)
    desk, took = t.open("ca.db", *SIGNING), []
    for at in range(10):
        # By the next request, the desk has made its polls for the last signature.
        time.sleep(0.1)
        begun = time.monotonic()
        t.true(is_signed(ocsp_answer(desk, 0x1100 + at)), "the answer is not signed")
        took.append(time.monotonic() - begun)
    t.true(min(took) < 0.2, f"seconds of each answer: {took}")


@test(seconds=3)
def a_client_whose_signature_can_not_be_queued_is_answered_at_once(t):
    """One allocation fails, and no time passes: a client whose signature nobody requests would wait for ever."""
    t.signer()
    base, body = t.register("base.db", key=P256_KEY), asked_for(0x1100)

    def run(fail):
        """The count of allocations after an answer, and the answer."""
        faults.copy(base, t.room / "ca.db")
        (t.room / "control").unlink(missing_ok=True)
        (t.room / "passed").write_bytes(bytes(8))
        desk = t.open("ca.db", *SIGNING, faults=faults.environment(count=t.room / "count", passed=t.room / "passed", same=1, fail=fail))
        with t.at_once(f"the answer with {fail}"):
            response = desk.ask("POST", "/ocsp", body, timeout=5)
        last = faults.counted(t.room / "count")["alloc"]
        desk.end()
        return last, response

    last, response = run(None)
    t.true(is_signed(body_of(t, response)), "the answer is not signed")
    # The response is made after these: the queue has its first place, and the request to the signer its path, its message and its connection.
    t.same({body_of(t, run(f"alloc:{at}")[1]) for at in range(last - 15, last - 10)}, {INTERNAL}, "answers without memory for the signature")


@test(seconds=3)
def nobody_else_waits(t):
    """More clients wait than signatures are requested at once. Other clients, and lines at the control socket, are answered meanwhile."""
    held = Held(t)
    begun = authority.now() - 10
    begins, ends = program.moment_of(begun), program.moment_of(begun + 90 * authority.DAY)
    lines = ["subscriber acme", "order 1 398", f"register 1 05 {begins} {ends}"]
    t.register(key=P256_KEY, lines="".join(f"{begins} {it}\n" for it in lines))
    desk, count = Passing(t, *SIGNING).desk, AT_ONCE + 8
    with ThreadPoolExecutor(count) as pool:
        waits = [pool.submit(ocsp_answer, desk, 0x1100 + at) for at in range(count)]
        t.true(held.signers.until(AT_ONCE), "fewer than 32 signatures are requested")
        quick(t, desk)
        with t.control() as control:
            with t.at_once("a query at the control socket"):
                t.same(control.ask("status 05"), "good")
            t.same(control.ask("request 05 key-compromise").split(" due ")[0], "request 1")
            with t.at_once("a revocation"):
                t.same(control.ask("revoke 1"), "revoked")
        t.same([it.done() for it in waits], [False] * count, "which OCSP clients got an answer")
        held.release.set()
        t.same([is_signed(it.result()) for it in waits], [True] * count)


@test(seconds=3)
def an_answer_whose_turn_comes_too_late_is_not_signed(t):
    held = Held(t)
    t.register(key=P256_KEY)
    desk, body = Passing(t, *SIGNING), asked_for(0x1100)
    clients = [desk.comes(b"POST /ocsp HTTP/1.1\r\nContent-Length: %d\r\n\r\n" % len(body) + body) for _ in range(AT_ONCE + 40)]
    t.true(held.signers.until(AT_ONCE), "fewer than 32 signatures are requested")
    desk.advance(10_000)
    with t.at_once("the answers of all"):
        t.same([is_signed(program.parted(program.read_all(it))[2]) for it in clients], [False] * len(clients), "which answers are signed")
    held.release.set()
    t.true(is_signed(ocsp_answer(desk.desk, 0x2200)), "the next answer is not signed")
    t.same(len(held.signers.clients), AT_ONCE + 1, "connections to the signer")


@test(seconds=3)
def clients_that_reset_make_room_for_others(t):
    held = Held(t)
    t.register(key=P256_KEY)
    desk, body = Passing(t, *SIGNING), asked_for(0x1100)
    request = b"POST /ocsp HTTP/1.1\r\nContent-Length: %d\r\n\r\n" % len(body) + body
    clients = [desk.comes(request) for _ in range(AT_ONCE)]
    t.true(held.signers.until(AT_ONCE), "fewer than 32 signatures are requested")
    for it in clients:
        # With this option, `close` sends a reset.
        it.setsockopt(socket.SOL_SOCKET, socket.SO_LINGER, b"\1\0\0\0\0\0\0\0")
        it.close()
    desk.comes(request)
    authority.until(lambda: len(held.signers.clients) == AT_ONCE + 1, "a request for the next signature", seconds=10)


@test(seconds=3)
def a_client_in_the_place_of_one_that_reset_gets_its_own_answer(t):
    """A client whose request waits in the queue resets its connection. The next client gets its slot, and its own signature."""
    held = Held(t)
    t.register(key=P256_KEY)
    desk = Passing(t, *SIGNING)
    request = lambda serial: b"POST /ocsp HTTP/1.1\r\nContent-Length: %d\r\n\r\n" % len(asked_for(serial)) + asked_for(serial)
    clients = [t.enter_context(desk.desk.connect()) for _ in range(AT_ONCE)]
    for at, it in enumerate(clients):
        it.sendall(request(0x1100 + at))
    t.true(held.signers.until(AT_ONCE), "fewer than 32 signatures are requested")
    # The desk accepts this connection before the request comes, so it polls the connection.
    gone = t.enter_context(desk.desk.connect())
    authority.until(lambda: program.is_read(gone), "the desk to accept the connection")
    gone.sendall(request(0x2200))
    authority.until(lambda: program.is_read(gone), "the desk to read its request")
    desk.advance(0)
    port = str(gone.getsockname()[1])
    # With this option, `close` sends a reset.
    gone.setsockopt(socket.SOL_SOCKET, socket.SO_LINGER, b"\1\0\0\0\0\0\0\0")
    gone.close()
    authority.until(lambda: desk.lost == [(port, "broken")], "the lost connection in the log")
    clients.append(desk.comes(request(0x3300)))
    held.release.set()
    t.same([is_signed(program.parted(program.read_all(it))[2]) for it in clients], [True] * (AT_ONCE + 1), "whether each answer is signed")
    t.same([sum(names(it, serial) for it in held.signers.asked) for serial in (0x2200, 0x3300)], [0, 1], "signatures for the lost and next client")


@test(seconds=3)
def a_disconnected_client_is_not_signed_for(t):
    held = Held(t)
    t.register(key=P256_KEY)
    passing = Passing(t, *SIGNING)
    desk = passing.desk
    with ThreadPoolExecutor(AT_ONCE + 1) as pool:
        waits = [pool.submit(ocsp_answer, desk, 0x1100 + at) for at in range(AT_ONCE)]
        t.true(held.signers.until(AT_ONCE), "fewer than 32 signatures are requested")
        with desk.connect() as gone:
            body = asked_for(0x2200)
            gone.sendall(b"POST /ocsp HTTP/1.1\r\nContent-Length: %d\r\n\r\n" % len(body) + body)
            authority.until(lambda: program.is_read(gone), "the desk to read the request of the client that disconnects")
            port = str(gone.getsockname()[1])
        # Before the desk requests a signature that was queued for some time, it checks whether the client has closed its side.
        passing.advance(1)
        stays = pool.submit(ocsp_answer, desk, 0x3300)
        # The desk usually reads the request of the client that stays in this time, but may do so later.
        time.sleep(0.3)
        held.release.set()
        t.true(is_signed(stays.result()), "the answer for the client that stayed is not signed")
        t.same([is_signed(it.result()) for it in waits], [True] * AT_ONCE)
    asked = held.signers.asked
    t.same([sum(names(it, serial) for it in asked) for serial in (0x2200, 0x3300)], [0, 1], "signatures for the lost client and the one that stayed")
    passing.advance(0)
    t.same(passing.lost, [(port, "broken")], "the lost connections in the log")


@test(seconds=3)
def the_oldest_client_that_waits_for_a_signature_makes_room(t):
    """Two clients wait for signatures, and the desk has no free file descriptor. It evicts the older client, and answers another client at once."""
    held = Held(t)
    t.register(key=P256_KEY)
    desk, body = Passing(t, *SIGNING), asked_for(0x1100)
    clients = [desk.comes(b"POST /ocsp HTTP/1.1\r\nContent-Length: %d\r\n\r\n" % len(body) + body) for _ in range(2)]
    t.true(held.signers.until(2), "fewer than two signatures are requested")
    authority.until(lambda: desk.files == desk.before + 4, "the end of all other connections")
    t.tool("prlimit", "--pid", desk.desk.process.pid, f"--nofile={desk.files}:{desk.files}")
    t.same(program.parted(desk.desk.send(b"GET /counts HTTP/1.1\r\n\r\n", timeout=20))[0], 200, "GET /counts")
    t.same(program.read_all(clients[0]), b"", "the response to the evicted client")
    held.release.set()
    t.true(is_signed(program.parted(program.read_all(clients[1]))[2]), "the answer for the other client is not signed")
    desk.loses(clients[0], why="crowded")


@test(seconds=2)
def a_client_that_waits_for_a_signature_counts_as_unanswered(t):
    """The desk has no free file descriptor. It evicts the client that sent only a part of its request. The client that waits keeps its connection."""
    held = Held(t)
    t.register(key=P256_KEY)
    desk, body = Passing(t, *SIGNING), asked_for(0x1100)
    older = desk.comes(b"GET /coun")
    waits = desk.comes(b"POST /ocsp HTTP/1.1\r\nContent-Length: %d\r\n\r\n" % len(body) + body)
    t.true(held.signers.until(1), "no signature is requested")
    authority.until(lambda: desk.files == desk.before + 3, "the end of all other connections")
    t.tool("prlimit", "--pid", desk.desk.process.pid, f"--nofile={desk.files}:{desk.files}")
    t.same(program.parted(desk.desk.send(b"GET /counts HTTP/1.1\r\n\r\n", timeout=20))[0], 200, "GET /counts")
    held.release.set()
    t.true(is_signed(program.parted(program.read_all(waits))[2]), "the answer of the client that waited is not signed")
    t.same(program.read_all(older), b"", "the response to the older client")
    desk.loses(older, why="crowded")


@test(seconds=2)
def a_client_that_half_closes_after_its_request_is_answered(t):
    t.signer()
    desk = opened(t)
    with desk.connect() as half:
        body = asked_for(0x1111)
        half.sendall(b"POST /ocsp HTTP/1.1\r\nContent-Length: %d\r\n\r\n" % len(body) + body)
        half.shutdown(socket.SHUT_WR)
        t.true(is_signed(program.parted(program.read_all(half))[2]), "the answer is not signed")


@test(seconds=3)
def a_client_that_half_closes_while_its_signature_is_made_is_answered(t):
    held = Held(t)
    t.register(key=P256_KEY)
    desk, body = Passing(t, *SIGNING), asked_for(0x1100)
    # The desk accepts this connection before the request comes, so it polls the connection.
    half = t.enter_context(desk.desk.connect())
    authority.until(lambda: program.is_read(half), "the desk to accept the connection")
    half.sendall(b"POST /ocsp HTTP/1.1\r\nContent-Length: %d\r\n\r\n" % len(body) + body)
    t.true(held.signers.until(1), "no signature is requested")
    half.shutdown(socket.SHUT_WR)
    # `advance` waits until the desk has answered two other clients. By then it has noticed the half-close.
    desk.advance(0)
    held.release.set()
    t.true(is_signed(program.parted(program.read_all(half))[2]), "the answer is not signed")
    desk.loses()


@test(seconds=14)
def only_the_requester_waits_ten_seconds(t):
    """The signer hangs for one of two serial numbers. Answers for the other one are signed meanwhile."""
    ends = threading.Event()
    t.callback(ends.set)

    def answer(message):
        if names(message, 0x1111):
            ends.wait(60)
        return ANY_SIGNATURE

    t.enter_context(Signers(t.room / "ca.sign", answer))
    t.register(key=P256_KEY)
    desk = t.open("ca.db", *SIGNING, "--log")
    with ThreadPoolExecutor(1) as pool, t.ten_seconds():
        hangs = pool.submit(ocsp_answer, desk, 0x1111)
        while not hangs.done():
            t.true(is_signed(ocsp_answer(desk, 0x2222)), "an answer for the other serial number is not signed")
            time.sleep(0.1)
        t.same(hangs.result(), INTERNAL)
    lines = desk.end().err_lines
    t.same(sum(it.endswith(" signer") for it in lines), 1, "log lines that end with `signer`")


@test
def ten_seconds_to_the_millisecond(t):
    """The ten seconds end for one client, but not yet for another client, whose request came a millisecond later."""
    t.register(key=P256_KEY)
    held = Held(t)
    desk = Passing(t, *SIGNING)
    with ThreadPoolExecutor(2) as pool:
        first = pool.submit(ocsp_answer, desk.desk, 0x1111)
        t.true(held.signers.until(1), "the first signature is not requested")
        desk.advance(1)
        second = pool.submit(ocsp_answer, desk.desk, 0x2222)
        t.true(held.signers.until(2), "the second signature is not requested")
        desk.advance(9_999)
        t.same(first.result(), INTERNAL)
        held.release.set()
        t.true(is_signed(second.result()), "the second answer is not signed")


@test(seconds=3)
def a_revocation_is_in_each_answer_requested_after_it(t):
    it = Authority(t)
    it.register()
    moment = authority.now() - 10
    release = threading.Event()
    t.callback(release.set)

    def sign(message):
        release.wait(60)
        return it.sign(message)

    lines = authority.first_day(moment).splitlines(True)
    with program.Signer(t.room / "day.sign", it.sign):
        t.done("script", "ca.db", *it.signing("day.sign"), given="".join(lines))
    signers = t.enter_context(Signers(t.room / "ca.sign", sign))
    desk = Passing(t, *it.signing()).desk
    with ThreadPoolExecutor(2) as pool, t.control() as control:
        before = pool.submit(desk.ask, "GET", authority.path_of(it.asks("06")))
        t.true(signers.until(1), "the first signature is not requested")
        t.same(control.ask("request 06 key-compromise").split(" due ")[0], "request 2")
        t.same(control.ask("revoke 2"), "revoked")
        behind = pool.submit(desk.ask, "GET", authority.path_of(it.asks("06")))
        t.true(signers.until(2), "the second signature is not requested")
        release.set()
        t.same(it.reads("06", body_of(t, before.result())), "good", "the answer requested before the revocation")
        t.same(it.reads("06", body_of(t, behind.result())), "revoked", "the answer requested after the revocation")


@test(seconds=2)
def serve_waits_for_the_signatures_of_its_last_requests(t):
    held = Held(t)
    t.register(key=P256_KEY)
    count = AT_ONCE + 8
    desk = t.open("ca.db", "--requests", count, *SIGNING, command="serve")
    with ThreadPoolExecutor(count) as pool:
        waits = [pool.submit(ocsp_answer, desk, 0x1100 + at) for at in range(count)]
        t.true(held.signers.until(AT_ONCE), "fewer than 32 signatures are requested")
        time.sleep(0.2)
        t.same(desk.process.poll(), None, "the exit status of the desk, which still runs")
        held.release.set()
        t.same([is_signed(it.result()) for it in waits], [True] * count)
    t.same(desk.wait().status, 0)


@test(seconds=25)
def without_memory_nobody_waits_for_a_signature_that_is_not_requested(t):
    """One allocation fails between a request and its answer. The client gets the signed answer, one that reports the fault, or none. No time passes
    for the desk, so it would keep a client that it has forgotten."""
    t.enter_context(Signers(t.room / "ca.sign"))
    base, passed, count = t.register("base.db", key=P256_KEY), t.room / "passed", t.room / "count"
    passed.write_bytes(struct.pack("=Q", 1_000_000))

    def run(fail):
        """The counts of allocations when the desk listens, and at the end; and the response."""
        faults.copy(base, t.room / "ca.db")
        env = faults.environment(count=count, same=1, passed=passed, fail=fail)
        (t.room / "control").unlink(missing_ok=True)
        with program.Opened(["open", "ca.db", *SIGNING, "--control", "control"], cwd=t.room, faults=env) as desk:
            t.true(desk.listens, f"{fail}: it does not listen")
            first = faults.counted(count)["alloc"]
            with desk.connect(timeout=10) as client:
                client.sendall(b"POST /ocsp HTTP/1.1\r\nContent-Length: %d\r\n\r\n" % len(asked_for(0x1100)) + asked_for(0x1100))
                try:
                    response = program.read_all(client)
                except TimeoutError:
                    raise Failed(f"{fail}: the client waits in vain") from None
            return first, faults.counted(count)["alloc"], response

    first, last, response = run(None)
    t.true(is_signed(program.parted(response)[2]), "the answer without a fault is not signed")
    silent = []
    for at in range(first + 1, last + 1):
        status, _, body = program.parted(run(f"alloc:{at}")[2])
        t.true(status in (0, 500) or is_signed(body) or body == INTERNAL, f"allocation {at} of {first + 1} to {last}: {status} {body!r}")
        silent += [at] * (status == 0)
    # There is none without memory for the connection or for a first text, nor at the end for the text and the body of the response.
    t.same(silent, [first + 1, first + 2, last - 1, last], "the allocations without which there is no answer")


@test(seconds=2)
def a_signer_with_a_full_queue_is_asked_again(t):
    """If the listen queue of the signer's socket is full, the desk tries to connect again."""
    t.register(key=P256_KEY)
    server = t.enter_context(socket.socket(socket.AF_UNIX))
    server.bind(str(t.room / "ca.sign"))
    server.listen(1)
    desk = t.open("ca.db", *SIGNING)
    with ThreadPoolExecutor(8) as pool:
        waits = [pool.submit(ocsp_answer, desk, 0x1100 + at) for at in range(8)]
        time.sleep(0.3)
        for _ in range(8):
            client, _ = server.accept()
            with client:
                program.read_all(client)
                client.sendall(ANY_SIGNATURE)
        t.same([is_signed(it.result()) for it in waits], [True] * 8)


@test
def the_first_answer_stays_first_though_the_signer_has_no_room(t):
    t.register(key=P256_KEY)
    server, filled = t.enter_context(socket.socket(socket.AF_UNIX)), t.enter_context(socket.socket(socket.AF_UNIX))
    server.bind(str(t.room / "ca.sign"))
    server.listen(0)
    filled.connect(str(t.room / "ca.sign"))
    desk = Passing(t, *SIGNING)
    serials = (0x1100, 0x2200, 0x3300, 0x4400)
    for serial in serials:
        body = asked_for(serial)
        desk.comes(b"POST /ocsp HTTP/1.1\r\nContent-Length: %d\r\n\r\n" % len(body) + body)
    # The desk again tries to connect for the first answer, in vain.
    desk.advance(10)
    server.accept()[0].close()
    # Then the signer has room for one request after the other. They come in the order of the answers.
    for serial in serials:
        desk.advance(10)
        client, _ = server.accept()
        with client:
            t.true(names(program.read_all(client), serial), f"a signature is requested for another answer than that of {serial:x}")


@test
def each_answer_that_waits_for_its_turn_has_ten_seconds_of_its_own(t):
    """The signer has no room. The ten seconds of the older of two answers end. The younger one is signed once there is room."""
    t.register(key=P256_KEY)
    server, filled = t.enter_context(socket.socket(socket.AF_UNIX)), t.enter_context(socket.socket(socket.AF_UNIX))
    server.bind(str(t.room / "ca.sign"))
    server.listen(0)
    filled.connect(str(t.room / "ca.sign"))
    desk, clients = Passing(t, *SIGNING), []
    for serial in (0x1100, 0x2200):
        body = asked_for(serial)
        clients.append(desk.comes(b"POST /ocsp HTTP/1.1\r\nContent-Length: %d\r\n\r\n" % len(body) + body))
        desk.advance(5_000)
    t.same(program.parted(program.read_all(clients[0]))[2], INTERNAL, "the answer that waited for ten seconds")
    server.accept()[0].close()
    desk.advance(10)
    client, _ = server.accept()
    with client:
        t.true(names(program.read_all(client), 0x2200), "a signature is requested for another answer")
        client.sendall(ANY_SIGNATURE)
    t.true(is_signed(program.parted(program.read_all(clients[1]))[2]), "the answer that waited for five seconds is not signed")


@test(seconds=2)
def a_signature_is_requested_again_once_a_descriptor_is_free(t):
    """A signature that can't be requested because too many files are open is requested again."""
    held = Held(t)
    t.register(key=P256_KEY)
    desk = t.open("ca.db", *SIGNING)
    # Descriptors for four clients, which all connect before the first one sends its request, and for three connections to the signer.
    before = files(desk)
    t.tool("prlimit", "--pid", desk.process.pid, f"--nofile={before + 7}:{before + 7}")
    with ExitStack() as open_ones, ThreadPoolExecutor(4) as pool:
        clients = [open_ones.enter_context(desk.connect()) for _ in range(4)]
        authority.until(lambda: files(desk) == before + 4, "the connections of four clients")
        for at, client in enumerate(clients):
            request = asked_for(0x1100 + at)
            client.sendall(b"POST /ocsp HTTP/1.1\r\nHost: ca.example\r\nContent-Length: %d\r\n\r\n" % len(request) + request)
        waits = [pool.submit(program.read_all, client) for client in clients]
        t.true(held.signers.until(3), "fewer than three signatures are requested")
        time.sleep(0.2)
        t.same([it.done() for it in waits], [False] * 4, "which clients got an answer")
        held.release.set()
        t.same([is_signed(program.parted(it.result())[2]) for it in waits], [True] * 4)


@test(seconds=4)
def a_signer_of_many_processes(t):
    """The three processes of examples/signer.py sign at one socket, and end together."""
    authority.need_cryptography(t)
    it = Authority(t)
    it.register()
    words = ["python3", authority.EXAMPLES / "signer.py", "--processes", 3, it.key, "ca.sign"]
    signer = authority.started(t, words, t.room / "ca.sign")
    children = lambda: t.tried("pgrep", "-P", signer.pid).stdout.split()
    authority.until(lambda: len(children()) == 2, "two more processes of the signer")
    others = children()
    desk = t.open("ca.db", *it.signing())
    requests = [it.asks(f"11{at:02x}") for at in range(12)]
    with ThreadPoolExecutor(12) as pool:
        answers = list(pool.map(lambda request: desk.ask("POST", "/ocsp", request), requests))
    for at, response in enumerate(answers):
        t.same(it.reads(f"11{at:02x}", body_of(t, response)), "unknown")
    signer.terminate()
    signer.wait(program.LONGEST)
    is_there = lambda pid: t.tried("kill", "-0", pid.decode()).returncode == 0
    authority.until(lambda: not any(map(is_there, others)), "the end of the signer's other processes")


# Signatures for the control socket


def with_certificate(t):
    """Makes a register with a certificate of serial number 5, for which a revocation can be requested."""
    t.register(key=P256_KEY, lines="".join(f"{DAY} {it}\n" for it in ("subscriber acme", "order 1 398", f"register 1 05 {DAY} 2026-03-01T00:00:00Z")))
    t.clock(DAY)


def certified(t):
    """An open desk over such a register, for which no time passes."""
    with_certificate(t)
    return Passing(t, *SIGNING).desk


def requests_revocation(t, desk):
    """Requests over HTTP that serial number 5 be revoked. Checks that the desk accepts the request at once."""
    with t.at_once("a request for revocation"):
        status = program.parted(desk.ask("POST", "/requests", b'{"serial":"05","ground":"superseded"}'))[0]
    t.same(status, 200, "the status of the request for revocation")


def quick(t, desk):
    """Checks that a request over HTTP is answered at once."""
    with t.at_once("GET /counts"):
        t.same(program.parted(desk.ask("GET", "/counts"))[0], 200)


@test
def each_crl_is_signed_once(t):
    """The message that is signed before the line runs is that of the CRL, also after revocations."""
    t.register(key=P256_KEY)
    t.clock("2026-01-01T00:00:00Z")
    signer = t.signer()
    t.open("ca.db", *SIGNING)
    ends = "2026-01-01T00:00:00Z 2026-12-31T00:00:00Z"
    lines = {
        "subscriber acme": "subscriber 1", "order 1 398": "order 1", f"register 1 05 {ends}": "registered", "crl": "crl 1 entries 0",
        "request 05 key-compromise": "request 1 due 2026-01-02T00:00:00Z", "revoke 1": "revoked", "crl ": "crl 2 entries 1",
        "crl  ": "crl 3 entries 1",
    }
    with t.control() as control:
        t.same({it: control.ask(it.rstrip()) for it in lines}, lines)
    t.same(len(signer.asked), 3, "messages to the signer")


@test(seconds=3)
def a_crl_delays_control_lines_and_no_http_request(t):
    held = Held(t)
    desk = certified(t)
    with ThreadPoolExecutor(2) as pool, t.control() as first, t.control() as second:
        crl = pool.submit(first.ask, "crl")
        t.true(held.signers.until(1), "the CRL's signature is not requested")
        request = pool.submit(second.ask, "request 05 superseded")
        quick(t, desk)
        # The desk could answer the line in this time.
        time.sleep(0.3)
        t.same((crl.done(), request.done()), (False, False), "which of the two lines are answered")
        # The desk has not run the `request` line either.
        t.has(desk.ask("GET", "/metrics"), b"\ndesk_lines_total{reply=\"accepted\"} 0\n", "the count of accepted lines")
        held.release.set()
        t.same((crl.result(), request.result().split(" due ")[0]), ("crl 1 entries 0", "request 1"))
    t.same(len(held.signers.asked), 1, "requested signatures")


@test(seconds=2)
def a_crl_delays_no_signature_of_an_answer(t):
    """The signer holds the CRL's signature, and signs answers."""
    release = threading.Event()
    t.callback(release.set)
    sign = lambda message: ANY_SIGNATURE if names(message, 0x1111) or release.wait(60 * program.PATIENCE) else None
    signers = t.enter_context(Signers(t.room / "ca.sign", sign))
    desk = opened(t)
    with ThreadPoolExecutor(1) as pool, t.control() as control:
        crl = pool.submit(control.ask, "crl")
        try:
            t.true(signers.until(1), "the CRL's signature is not requested")
            for _ in range(3):
                response = desk.ask("POST", "/ocsp", asked_for(0x1111), timeout=20)
                t.true(is_signed(program.parted(response)[2]), "an answer is not signed")
            t.same(crl.done(), False, "whether the CRL is issued")
        finally:
            release.set()
        t.same(crl.result(), "crl 1 entries 0")


@test(seconds=5)
def replies_come_in_the_order_of_their_lines(t):
    held = Held(t)
    certified(t)
    with ThreadPoolExecutor(1) as pool, t.control() as control:
        replies = pool.submit(control.ask, "counts\ncrl\nstatus 05\ncrl\ncounts")
        t.same(replies.result(), "good 1 revoked 0 expired 0")
        t.true(held.signers.until(1), "the signature of a CRL is not requested")
        held.release.set()
        told = [control.file.readline().decode().rstrip("\n") for _ in range(4)]
    t.same(told, ["crl 1 entries 0", "good", "crl 2 entries 0", "good 1 revoked 0 expired 0"])


@test(seconds=3)
def many_crls_of_one_client_hold_up_another_one_for_one_signature(t):
    """The later client has the lower slot. It sends five lines at once, and the earlier client one."""
    release = threading.Semaphore(0)
    t.callback(release.release, 100)
    signers = t.enter_context(Signers(t.room / "ca.sign", lambda message: release.acquire(timeout=60) and ANY_SIGNATURE))
    certified(t)
    earlier, later = t.control(), t.control()
    t.same([it.ask("counts") for it in (earlier, later)], ["good 1 revoked 0 expired 0"] * 2)
    later.stream.sendall(b"crl\n" * 5)
    t.true(signers.until(1), "no signature is requested")
    earlier.stream.sendall(b"counts\n")
    authority.until(lambda: program.is_read(earlier.stream), "the desk to read the line")
    release.release()
    t.same(later.file.readline(), b"crl 1 entries 0\n")
    earlier.stream.settimeout(20)
    t.same(earlier.file.readline(), b"good 1 revoked 0 expired 0\n", "the reply to the other client")


@test
def lines_that_come_at_once_with_a_crl_are_answered(t):
    t.register(key=P256_KEY)
    t.enter_context(Signers(t.room / "ca.sign"))
    desk = t.open("ca.db", *SIGNING)
    clients = [t.control() for _ in range(3)]
    t.same([it.ask("counts") for it in clients], ["good 0 revoked 0 expired 0"] * 3)
    program.hold(desk.process)
    for it, line in zip(clients, (b"counts\n", b"crl\n", b"counts\n")):
        it.stream.settimeout(20)
        it.stream.sendall(line)
    desk.process.send_signal(signal.SIGCONT)
    t.same([it.file.readline() for it in clients], [b"good 0 revoked 0 expired 0\n", b"crl 1 entries 0\n", b"good 0 revoked 0 expired 0\n"])


@test(seconds=3)
def a_request_goes_on_and_the_crl_is_signed_anew(t):
    held = Held(t)
    desk = certified(t)
    with ThreadPoolExecutor(1) as pool, t.control() as control:
        crl = pool.submit(control.ask, "crl")
        t.true(held.signers.until(1), "the CRL's signature is not requested")
        # The revocation is requested in a later second than the CRL.
        t.clock(program.seconds_of(DAY) + 1)
        requests_revocation(t, desk)
        t.same(crl.done(), False, "whether the CRL is issued")
        held.release.set()
        t.same(crl.result(), "crl 1 entries 0")
    first, second = held.signers.asked
    t.true(first != second, "the second message to sign is the same as the first")
    t.has(authority.body_of(t, desk.ask("GET", "/crl"), "application/pkix-crl"), second, "the CRL has the message that was signed last")


@test
def a_crl_whose_signature_takes_seconds_is_signed_once(t):
    """The clock goes on while the signer signs, and no command is accepted. So the first message still fits, and the CRL has its moment."""
    held = Held(t)
    desk = certified(t)
    with ThreadPoolExecutor(1) as pool, t.control() as control:
        crl = pool.submit(control.ask, "crl")
        t.true(held.signers.until(1), "the CRL's signature is not requested")
        t.clock(program.seconds_of(DAY) + 5)
        held.release.set()
        t.same(crl.result(), "crl 1 entries 0")
    t.same(len(held.signers.asked), 1, "requested signatures")
    t.has(desk.ask("GET", "/list/crls"), f'{{"crl":1,"thisUpdate":"{DAY}"}}'.encode(), "the list of CRLs")


@test(seconds=3)
def a_crl_is_signed_anew_three_times_and_then_waited_for(t):
    release = queue.Queue()

    def answer(message):
        release.get(timeout=60)
        return ANY_SIGNATURE

    signers = t.enter_context(Signers(t.room / "ca.sign", answer))
    desk = certified(t)
    with ThreadPoolExecutor(2) as pool, t.control() as control:
        crl = pool.submit(control.ask, "crl")
        for count in range(1, 4):
            authority.until(lambda: len(signers.asked) == count, f"request {count} for a signature")
            t.clock(program.seconds_of(DAY) + count)
            requests_revocation(t, desk)
            release.put(None)
        authority.until(lambda: len(signers.asked) == 4, "the fourth request for a signature")
        counts = pool.submit(desk.ask, "GET", "/counts")
        time.sleep(0.3)
        t.same(counts.done(), False, "whether GET /counts is answered while the desk waits for the signature")
        release.put(None)
        t.same(crl.result(), "crl 1 entries 0")
        counts.result()


@test(seconds=14)
def a_crl_whose_signature_does_not_come(t):
    held = Held(t)
    with_certificate(t)
    desk = t.open("ca.db", *SIGNING)
    with ThreadPoolExecutor(1) as pool, t.control() as control:
        with t.ten_seconds():
            crl = pool.submit(control.ask, "crl")
            t.true(held.signers.until(1), "the CRL's signature is not requested")
            while not crl.done():
                quick(t, desk)
                time.sleep(0.2)
            t.same(crl.result(), "F3 signer")
        held.release.set()
        t.same(control.ask("crl"), "crl 1 entries 0", "the next CRL")


@test
def ten_seconds_of_a_line_to_the_millisecond(t):
    t.register(key=P256_KEY)
    held = Held(t)
    desk = Passing(t, *SIGNING)
    with ThreadPoolExecutor(1) as pool, t.control() as control:
        crl = pool.submit(control.ask, "crl")
        t.true(held.signers.until(1), "the CRL's signature is not requested")
        desk.advance(9_999)
        time.sleep(0.1)
        t.same(crl.done(), False, "whether the reply came a millisecond early")
        desk.advance(1)
        t.same(crl.result(), "F3 signer")


@test
def ten_seconds_of_a_line_end_although_nothing_else_happens(t):
    t.register(key=P256_KEY)
    held = Held(t)
    desk = Passing(t, *SIGNING)
    with ThreadPoolExecutor(1) as pool, t.control() as control:
        crl = pool.submit(control.ask, "crl")
        t.true(held.signers.until(1), "the CRL's signature is not requested")
        with t.at_once("the reply"):
            desk.set_forward(10_000)
            t.same(crl.result(), "F3 signer")


@each({"at the last command": (DAY, str), "more than 30 days after it": ("2026-02-01T00:00:01Z", str), "in capital letters": (DAY, str.upper)}, seconds=3)
def an_ocsp_line_delays_no_http_request(t, moment, letters):
    """If the clock is too far ahead, only commands are refused. An `ocsp` line is signed as before."""
    held = Held(t)
    desk = certified(t)
    t.clock(moment)
    with ThreadPoolExecutor(1) as pool, t.control() as control:
        line = pool.submit(control.ask, f"ocsp {letters(asked_for(0x1111).hex())}")
        t.true(held.signers.until(1), "the answer's signature is not requested")
        quick(t, desk)
        t.same(line.done(), False, "whether the line is answered")
        held.release.set()
        word, response = line.result().split()
    t.true(word == "ocsp" and is_signed(bytes.fromhex(response)), "the reply is no signed answer")


@test(seconds=3)
def no_signer_listens_for_a_crl(t):
    desk = certified(t)
    with t.control() as control:
        t.same((control.ask("crl"), control.ask("counts")), ("F3 signer", "good 1 revoked 0 expired 0"))
    quick(t, desk)


@test(seconds=5)
def a_crl_of_more_than_a_socket_takes_at_once(t):
    """The message to sign is longer than the socket's buffers, and the signer begins to read after a second. The desk answers HTTP meanwhile."""
    count = 20_000
    registers.make_revoked(t.room / "ca.db", count, P256_KEY, every=1)
    server = t.enter_context(socket.socket(socket.AF_UNIX))
    server.bind(str(t.room / "ca.sign"))
    server.listen(4)
    desk = Passing(t, *SIGNING).desk
    with ThreadPoolExecutor(1) as pool, t.control() as control:
        t.same(control.ask(f"accept-clock {program.moment_of(authority.now())}"), "clock accepted")
        crl = pool.submit(control.ask, "crl")
        client, _ = server.accept()
        with client:
            quick(t, desk)
            time.sleep(1)
            message = program.read_all(client)
            client.sendall(ANY_SIGNATURE)
        t.same(crl.result(), f"crl 1 entries {count}")
    t.true(len(message) > 1_048_576, f"the message to sign has only {len(message)} bytes")
    t.has(authority.body_of(t, desk.ask("GET", "/crl"), "application/pkix-crl"), message, "the CRL has the signed message")


def long_crl(t):
    """A signer's socket, and the control socket of a desk for which no time passes. A CRL's message is longer than a socket's buffers."""
    registers.make_revoked(t.room / "ca.db", 6_000, P256_KEY, every=1)
    server = t.enter_context(socket.socket(socket.AF_UNIX))
    server.bind(str(t.room / "ca.sign"))
    server.listen(4)
    Passing(t, *SIGNING)
    control = t.control()
    control.stream.settimeout(20)
    t.same(control.ask(f"accept-clock {program.moment_of(authority.now())}"), "clock accepted")
    return server, control


@test(seconds=4)
def a_signer_that_ends_before_it_has_read_a_long_crl_holds_up_no_line(t):
    """The signer reads one byte and closes the connection. The CRL then fails at once."""
    server, control = long_crl(t)
    with ThreadPoolExecutor(1) as pool:
        crl = pool.submit(control.ask, "crl")
        client, _ = server.accept()
        with client:
            t.same(len(client.recv(1)), 1, "bytes of the message that the signer read")
            # The desk fills the socket's buffers in this time.
            time.sleep(0.3)
        with t.at_once("the line"):
            t.same(crl.result(), "F3 signer")


@test(seconds=4)
def a_signer_whose_answer_to_a_long_crl_is_too_long_holds_up_no_line(t):
    """The signer reads the message, sends more bytes than a signature may have, and does not close the connection."""
    server, control = long_crl(t)
    with ThreadPoolExecutor(1) as pool:
        crl = pool.submit(control.ask, "crl")
        client, _ = server.accept()
        with client:
            message = program.read_all(client)
            t.true(len(message) > 262_144, f"the message to sign has only {len(message)} bytes")
            # By the end of this time, the desk only waits for the answer.
            time.sleep(0.3)
            client.sendall(bytes(8_192))
            with t.at_once("the line"):
                t.same(crl.result(), "F3 signer")
