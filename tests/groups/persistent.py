"""Persistent connections to a signer that announces them: each OCSP answer gets the signature of its own message, and a restarted signer is found."""

import contextlib
import os
import resource
import socket
import struct
import threading
import time
from concurrent import futures
from concurrent.futures import ThreadPoolExecutor

from groups.follow import Copy, address
from groups.limits import asks
from groups.waiting import SIGNING, asked_for, files, names, ocsp_answer, own_signature
from lib import authority, faults, native, program
from lib.authority import INTERNAL, Authority
from lib.native import ANNOUNCEMENT, frame
from lib.passing import Passing
from lib.program import P256_KEY, Control, read_all
from lib.trial import each, test


class Keeping(program.Signers):
    """A signer that announces persistent connections. `reply(message)` returns the octets that it sends on a persistent connection for a message.
    `asked` has the messages of the other connections, and `kept` a list of messages for each persistent one. `gone` counts connections that ended."""

    def __init__(self, path, reply=lambda message: frame(own_signature(message))):
        self.reply, self.kept, self.gone = reply, [], 0
        super().__init__(path, lambda message: ANNOUNCEMENT + own_signature(message))

    def sign(self, client):
        with client, contextlib.suppress(OSError):
            first = client.recv(1, socket.MSG_PEEK)
            if first == b"\0":
                self.keep(client)
            elif first:
                super().sign(client)
        self.gone += 1

    def keep(self, client):
        """Serves a persistent connection until its client closes it."""
        messages = []
        self.kept.append(messages)
        while (head := native.exactly(client, 4)) is not None:
            message = native.exactly(client, struct.unpack(">I", head)[0])
            messages.append(message)
            client.sendall(self.reply(message))

    def close(self):
        """Ends the signer as a signal would: its socket refuses, and all its connections are closed."""
        super().__exit__()
        for client in self.clients:
            with contextlib.suppress(OSError):
                client.shutdown(socket.SHUT_RDWR)

    def __exit__(self, *_):
        self.close()


class Together(Keeping):
    """Signs its first `number` messages at the same time, so that the desk opens as many connections, and keeps them."""

    def __init__(self, path, number, *reply):
        self.number, self.barrier = number, threading.Barrier(number)
        super().__init__(path, *reply)

    def sign(self, client):
        if len(self.clients) <= self.number and client.recv(1, socket.MSG_PEEK) not in (b"", b"\0"):
            self.barrier.wait(60)
        super().sign(client)


class Holding:
    """The reply of a persistent signer that keeps the answer for one serial number back until `release`."""

    def __init__(self, t, serial):
        self.serial, self.held, self.release = serial, threading.Event(), threading.Event()
        t.callback(self.release.set)

    def signature(self, message):
        if names(message, self.serial):
            self.held.set()
            self.release.wait(60 * program.PATIENCE)
        return own_signature(message)

    def __call__(self, message):
        return frame(self.signature(message))


def is_own(response, serial):
    """Whether a response is for this serial number, and has the signature of its own message."""
    if response == INTERNAL:
        return False
    part, _, signature = authority.signed_part(authority.basic_of(response))
    return names(part, serial) and signature == own_signature(part)


def take_descriptors(t, desk):
    """Leaves the desk no descriptor: clients at the control socket take all numbers below its highest one, and its limit is the next one."""
    used = lambda: {int(it) for it in os.listdir(f"/proc/{desk.process.pid}/fd")}
    while len(used()) <= max(used()):
        t.same(t.control().ask("counts"), "good 0 revoked 0 expired 0")
    t.tool("prlimit", "--pid", desk.process.pid, f"--nofile={max(used()) + 1}:4096")


def opened(t):
    t.register(key=P256_KEY)
    return t.open("ca.db", *SIGNING)


@test(seconds=4)
def each_of_many_answers_has_the_signature_of_its_own_message(t):
    """40 clients request 1,200 answers. The desk keeps at most 32 connections, sends most messages on them, and opens no more."""
    signer = t.enter_context(Keeping(t.room / "ca.sign"))
    desk = opened(t)
    with ThreadPoolExecutor(40) as pool:
        serials = [0x1000 + at for at in range(1_200)]
        answers = list(pool.map(lambda serial: ocsp_answer(desk, serial), serials))
    t.same([hex(serial) for serial, it in zip(serials, answers) if not is_own(it, serial)], [], "serial numbers with a wrong answer")
    kept = sum(map(len, signer.kept))
    t.same(kept + len(signer.asked), len(serials), "messages")
    t.true(len(signer.asked) <= 32, f"{len(signer.asked)} messages on connections of their own")
    t.true(len(signer.kept) <= 32, f"{len(signer.kept)} persistent connections")


@test(seconds=2)
def one_client_uses_one_connection(t):
    """The first message goes on a connection of its own. All others of a client that asks one after the other go on one persistent connection."""
    signer = t.enter_context(Keeping(t.room / "ca.sign"))
    desk = opened(t)
    for at in range(50):
        t.true(is_own(ocsp_answer(desk, 0x1100 + at), 0x1100 + at), f"answer {at}")
    t.same((len(signer.asked), [len(it) for it in signer.kept]), (1, [49]), "messages on each connection")


@test(seconds=3)
def one_client_of_a_follower_uses_one_connection(t):
    signer = t.enter_context(Keeping(t.room / "ca.sign"))
    t.register(key=P256_KEY)
    copy = Copy(t, address(t.open().port), signing=SIGNING)
    authority.until(lambda: copy.leader["current"], "the leader")
    for at in range(20):
        t.true(is_own(ocsp_answer(copy.desk, 0x1100 + at), 0x1100 + at), f"answer {at}")
    t.same((len(signer.asked), [len(it) for it in signer.kept]), (1, [19]), "messages on each connection")


@test(seconds=3)
def a_persistent_connection_that_a_full_queue_refuses_is_not_tried_again(t):
    """The signer announces persistent connections, and then accepts none: the desk tries once, and answers others."""
    with socket.socket(socket.AF_UNIX) as server, socket.socket(socket.AF_UNIX) as filled, ThreadPoolExecutor(1) as pool:
        server.bind(str(t.room / "ca.sign"))
        server.listen(0)
        t.register(key=P256_KEY)
        desk = t.open("ca.db", *SIGNING, faults=faults.environment(count=t.room / "count"))
        answer = pool.submit(ocsp_answer, desk, 0x1100)
        client, _ = server.accept()
        message = read_all(client)
        filled.connect(str(t.room / "ca.sign"))
        with client:
            client.sendall(ANNOUNCEMENT + own_signature(message))
        t.true(is_own(answer.result(), 0x1100), "the answer has no signature")
        tried = lambda: faults.counted(t.room / "count")["connect"]
        authority.until(lambda: tried() > 1, "that the desk tries to connect again")
        for _ in range(2):
            with t.at_once("GET /counts"):
                t.same(program.parted(desk.ask("GET", "/counts"))[0], 200, "GET /counts")
        t.same(tried(), 2, "attempts to connect to the signer")


@test(seconds=2)
def long_messages_go_on_one_connection(t):
    """Each answer is for 900 CertIDs."""
    signer = t.enter_context(Keeping(t.room / "ca.sign"))
    desk = opened(t)
    for at in range(5):
        part, _, signature = authority.signed_part(authority.basic_of(authority.body_of(t, desk.ask("POST", "/ocsp", asks(900)))))
        t.same(signature, own_signature(part), f"the signature of answer {at}")
        t.true(len(part) > 65_536, f"the message has only {len(part)} bytes")
    t.same((len(signer.asked), [len(it) for it in signer.kept]), (1, [4]), "messages on each connection")


@test(seconds=3)
def a_late_signature_reaches_nobody(t):
    """A persistent signer answers after the ten seconds. Its client got internalError, and the next client gets its own signature."""
    reply = Holding(t, 0x2222)
    signer = t.enter_context(Keeping(t.room / "ca.sign", reply))
    t.register(key=P256_KEY)
    passing = Passing(t, *SIGNING)
    for at in range(2):
        t.true(is_own(ocsp_answer(passing.desk, 0x1111), 0x1111), f"answer {at}")
    with ThreadPoolExecutor(1) as pool:
        late = pool.submit(ocsp_answer, passing.desk, 0x2222)
        t.true(reply.held.wait(60), "the signer to get the message")
        passing.advance(10_000)
        t.same(late.result(), INTERNAL)
    reply.release.set()
    for serial in (0x3333, 0x4444):
        t.true(is_own(ocsp_answer(passing.desk, serial), serial), f"the answer for {serial:x}")
    t.same([names(it[-1], 0x2222) for it in signer.kept], [True, False], "whether the last message of each connection is the late one")


@test(seconds=3)
def a_signature_whose_client_has_gone_reaches_nobody(t):
    """A client resets its connection while a persistent signer signs. The next client gets its own signature, on another connection."""
    reply = Holding(t, 0x2222)
    t.enter_context(Keeping(t.room / "ca.sign", reply))
    t.register(key=P256_KEY)
    passing = Passing(t, *SIGNING)
    for at in range(2):
        t.true(is_own(ocsp_answer(passing.desk, 0x1111), 0x1111), f"answer {at}")
    # The desk accepts this connection before the request comes, so it polls the connection.
    body, gone = asked_for(0x2222), t.enter_context(passing.desk.connect())
    authority.until(lambda: program.is_read(gone), "the desk to accept the connection")
    gone.sendall(b"POST /ocsp HTTP/1.1\r\nContent-Length: %d\r\n\r\n" % len(body) + body)
    t.true(reply.held.wait(60), "the signer to get the message")
    # With this option, `close` sends a reset.
    gone.setsockopt(socket.SOL_SOCKET, socket.SO_LINGER, b"\1\0\0\0\0\0\0\0")
    gone.close()
    authority.until(lambda: passing.lost, "the lost connection in the log")
    reply.release.set()
    for serial in (0x3333, 0x4444, 0x5555):
        t.true(is_own(ocsp_answer(passing.desk, serial), serial), f"the answer for {serial:x}")


@each({"that announces": (True,), "that does not": (False,)}, seconds=3)
def a_restarted_signer_is_found_at_once(t, announces):
    """A signer ends, and another one starts at its path, which announces persistent connections or not. No answer is lost."""
    first = t.enter_context(Keeping(t.room / "ca.sign"))
    desk = opened(t)
    for at in range(3):
        t.true(is_own(ocsp_answer(desk, 0x1100 + at), 0x1100 + at), f"answer {at}")
    first.close()
    path = t.room / "ca.sign"
    t.enter_context(Keeping(path) if announces else program.Signers(path, own_signature))
    with t.at_once("five answers"):
        for at in range(5):
            t.true(is_own(ocsp_answer(desk, 0x2200 + at), 0x2200 + at), f"answer {at} of the next signer")


# For each reply to the second message: whether its answer is signed, and whether the third message goes on the same connection.
REPLIES = {
    "in pieces": (lambda own: own, True, True),
    "empty": (lambda own: frame(b""), False, True),
    "no signature": (lambda own: frame(b"no signature"), False, True),
    "4,096 octets": (lambda own: frame(bytes(4_096)), False, True),
    "too long": (lambda own: frame(bytes(4_097)), False, False),
    "two answers": (lambda own: own + own, False, False),
    "too few octets": (lambda own: own[:-1], False, False),
    "announced again": (lambda own: ANNOUNCEMENT + own[4:], False, False),
}


@each(REPLIES, seconds=3)
def a_reply_that_is_no_answer_signs_nothing(t, reply, is_signed, is_kept):
    """After a reply that is not one whole answer, the desk closes the connection, and the next answer has its own signature all the same."""

    class Pieces(Keeping):
        def keep(self, client):
            messages = []
            self.kept.append(messages)
            while (head := native.exactly(client, 4)) is not None:
                messages.append(native.exactly(client, struct.unpack(">I", head)[0]))
                own = frame(own_signature(messages[-1]))
                sent = reply(own) if names(messages[-1], 0x2222) else own
                step = 1 if sent == own else len(sent)
                for at in range(0, len(sent), step):
                    client.sendall(sent[at : at + step])
                    time.sleep(0.001)

    signer = t.enter_context(Pieces(t.room / "ca.sign"))
    t.register(key=P256_KEY)
    passing = Passing(t, *SIGNING)
    t.true(is_own(ocsp_answer(passing.desk, 0x1111), 0x1111), "the first answer")
    with ThreadPoolExecutor(1) as pool:
        second = pool.submit(ocsp_answer, passing.desk, 0x2222)
        authority.until(lambda: signer.kept and signer.kept[0], "the second message")
        if not is_kept:
            time.sleep(0.1)
            passing.advance(10_000)
        t.same(is_own(second.result(), 0x2222), is_signed, "whether the second answer is signed")
    t.true(is_own(ocsp_answer(passing.desk, 0x3333), 0x3333), "the third answer")
    t.same(len(signer.asked), 1 if is_kept else 2, "messages on connections of their own")


@each({"on a connection of its own": (True,), "on a persistent connection": (False,)}, seconds=2)
def a_signer_that_sends_without_end_fills_no_memory(t, is_single):
    """The desk closes the connection after some thousand octets, and answers internalError. No time passes for it."""
    sent = []

    def send(client):
        """Sends octets until the client closes the connection, at most 64 MiB."""
        sent.append(0)
        with contextlib.suppress(OSError):
            while sent[-1] < 64 << 20:
                sent[-1] += client.send(b"\0" * 65_536)

    class Endless(Keeping):
        def sign(self, client):
            if not is_single:
                return super().sign(client)
            with client:
                read_all(client)
                send(client)

        def keep(self, client):
            native.exactly(client, 4)
            send(client)

    t.enter_context(Endless(t.room / "ca.sign"))
    t.register(key=P256_KEY)
    desk = Passing(t, *SIGNING).desk
    if not is_single:
        t.true(is_own(ocsp_answer(desk, 0x1111), 0x1111), "the answer of another connection")
    t.same(ocsp_answer(desk, 0x2222), INTERNAL, "the answer")
    t.true(sent[0] < 8 << 20, f"the desk has taken {sent[0]} octets")


@each({"no room": "EAGAIN", "no signer": "EPIPE"}, seconds=2)
def a_message_that_a_kept_connection_does_not_take_goes_on_another_one(t, error):
    """The third write to a socket is that of the second message: the first message and the first answer come before."""
    signer = t.enter_context(Keeping(t.room / "ca.sign"))
    t.register(key=P256_KEY)
    how = faults.environment(count=t.room / "count", fail=f"write:3={error}", only="socket")
    desk = t.open("ca.db", *SIGNING, faults=how)
    with t.at_once("three answers"):
        for serial in (0x1111, 0x2222, 0x3333):
            t.true(is_own(ocsp_answer(desk, serial), serial), f"the answer for {serial:x}")
    t.same(faults.counted(t.room / "count")["met"], 1, "injected faults")
    t.same((len(signer.asked), sum(map(len, signer.kept))), (2, 1), "messages on connections of their own, and on persistent ones")


@test(seconds=2)
def a_long_answer_takes_few_reads(t):
    """The second answer of a signer has 4,096 octets, and is no signature."""
    t.enter_context(Keeping(t.room / "ca.sign", lambda message: frame(bytes(4_096))))
    t.register(key=P256_KEY)
    desk = t.open("ca.db", *SIGNING, faults=faults.environment(count=t.room / "count", only="socket"))
    t.true(is_own(ocsp_answer(desk, 0x1111), 0x1111), "the first answer")
    before = faults.counted(t.room / "count")["read"]
    t.same(ocsp_answer(desk, 0x2222), INTERNAL, "the second answer")
    count = faults.counted(t.room / "count")["read"] - before
    t.true(count <= 20, f"{count} reads of the client's request and the signer's answer")


@each({"on a connection of its own": (0x1111,), "on a persistent connection": (0x2222,)}, seconds=2)
def the_desk_polls_for_an_answer_before_it_waits(t, serial):
    """Most answers come at once, and waking up takes as long as signing. So the desk polls some hundred times, and then waits for the signer."""
    polls = lambda: faults.counted(t.room / "count")["poll"]
    reply = Holding(t, serial)
    signer = t.enter_context(Keeping(t.room / "ca.sign", reply))
    signer.answer = lambda message: ANNOUNCEMENT + reply.signature(message)
    t.register(key=P256_KEY)
    desk = t.open("ca.db", *SIGNING, faults=faults.environment(count=t.room / "count"))
    if serial != 0x1111:
        t.true(is_own(ocsp_answer(desk, 0x1111), 0x1111), "the first answer")
        # The desk makes the polls for the first answer.
        time.sleep(0.2)
    before = polls()
    with ThreadPoolExecutor(1) as pool:
        answer = pool.submit(ocsp_answer, desk, serial)
        t.true(reply.held.wait(60), "the signer to get the message")
        # Time for many more polls.
        time.sleep(0.5)
        count = polls() - before
        reply.release.set()
        t.true(is_own(answer.result(), serial), "the answer")
    t.true(50 <= count <= 1_000, f"{count} polls")


@test(seconds=2)
def octets_that_nobody_awaits_close_the_connection(t):
    """A signer sends an answer while no message waits for one. The next answer has its own signature."""
    signer = t.enter_context(Keeping(t.room / "ca.sign"))
    desk = opened(t)
    for at in range(2):
        t.true(is_own(ocsp_answer(desk, 0x1100 + at), 0x1100 + at), f"answer {at}")
    signer.clients[-1].sendall(frame(own_signature(b"another message")))
    authority.until(lambda: signer.gone == 2, "the desk to close the connection")
    for at in range(2):
        t.true(is_own(ocsp_answer(desk, 0x2200 + at), 0x2200 + at), f"the next answer {at}")


@test(seconds=3)
def the_connections_of_a_signer_that_ends_are_closed(t):
    """After 32 answers at once, the desk keeps 32 connections. When the signer ends, the desk closes them without another request."""
    signer = t.enter_context(Together(t.room / "ca.sign", 32))
    desk = opened(t)
    before = files(desk)
    with ThreadPoolExecutor(32) as pool:
        answers = list(pool.map(lambda at: is_own(ocsp_answer(desk, 0x1100 + at), 0x1100 + at), range(32)))
    t.same(answers, [True] * 32, "answers with their own signature")
    authority.until(lambda: files(desk) == before + 32, "32 kept connections")
    signer.close()
    authority.until(lambda: files(desk) == before, "the desk to close them")


class FullDesk:
    """A desk that has 1,024 descriptors, as is usual, and keeps 32 connections to its signer. Silent clients take all others at the port. No time
    passes for the desk, so no client is late."""

    def __init__(self, t, *words):
        _, hard = resource.getrlimit(resource.RLIMIT_NOFILE)
        resource.setrlimit(resource.RLIMIT_NOFILE, (2_500, hard))
        t.enter_context(Together(t.room / "ca.sign", 32))
        t.register(key=P256_KEY)
        self.desk = Passing(t, *SIGNING, *words).desk
        before = files(self.desk)
        with ThreadPoolExecutor(32) as pool:
            list(pool.map(lambda at: ocsp_answer(self.desk, 0x1100 + at), range(32)))
        authority.until(lambda: files(self.desk) == before + 32, "32 kept connections")
        t.tool("prlimit", "--pid", self.desk.process.pid, "--nofile=1024:1024")
        clients = [t.enter_context(self.desk.connect()) for _ in range(1_100)]
        authority.until(lambda: program.is_read(clients[-1]), "the desk to accept all")


@test(seconds=5)
def kept_connections_leave_descriptors_for_the_operator(t):
    FullDesk(t)
    with Control(t.room / "control", timeout=20) as control:
        t.same(control.ask("counts"), "good 0 revoked 0 expired 0", "a line at the control socket")


@test(seconds=5)
def kept_connections_leave_descriptors_for_a_crl_and_a_copy(t):
    FullDesk(t)
    with Control(t.room / "control", timeout=20) as control:
        t.same(control.ask("crl"), "crl 1 entries 0", "a CRL")
        t.has(control.ask(f"copy {t.room / 'copy.db'}"), "copied ", "a copy")


@test(seconds=5)
def kept_connections_leave_descriptors_for_the_log(t):
    desk = FullDesk(t, "--log-file", "ca.log").desk
    t.same(program.parted(desk.ask("GET", "/counts"))[0], 200, "a request")
    t.has((t.room / "ca.log").read_text(), "GET /counts", "the log")


@test(seconds=2)
def a_connection_that_ends_as_the_message_comes_loses_no_answer(t):
    """The signer closes each persistent connection at its first octets, as one that ends or makes room does."""

    class Ends(Keeping):
        def keep(self, client):
            native.exactly(client, 4)

    t.enter_context(Ends(t.room / "ca.sign"))
    desk = opened(t)
    t.same([is_own(ocsp_answer(desk, 0x1100 + at), 0x1100 + at) for at in range(4)], [True] * 4, "whether each answer is signed")


@test(seconds=3)
def a_message_has_ten_seconds_on_two_connections_together(t):
    """A kept connection ends nine seconds after the message, without an answer. On the next one the signer hangs for a second more."""
    sent, ends, hangs = threading.Event(), threading.Event(), threading.Event()
    t.callback(hangs.set)

    class Ends(Keeping):
        def keep(self, client):
            native.exactly(client, 4)
            sent.set()
            ends.wait(60 * program.PATIENCE)

    signer = t.enter_context(Ends(t.room / "ca.sign"))
    t.register(key=P256_KEY)
    passing = Passing(t, *SIGNING)
    t.true(is_own(ocsp_answer(passing.desk, 0x1111), 0x1111), "the first answer")
    signer.answer = lambda message: hangs.wait(60 * program.PATIENCE) and None
    with ThreadPoolExecutor(1) as pool:
        late = pool.submit(ocsp_answer, passing.desk, 0x2222)
        t.true(sent.wait(60), "the signer to get the message")
        passing.advance(9_000)
        ends.set()
        authority.until(lambda: len(signer.asked) == 2, "the message on the next connection")
        passing.advance(999)
        before = late.done()
        passing.advance(1)
        after = len(futures.wait([late], timeout=10 * program.PATIENCE).done)
        # Ends the wait of a desk that is too late.
        passing.advance(20_000)
        t.same((before, after, late.result()), (False, 1, INTERNAL), "whether the answer came before ten seconds, and after them; the answer")


@test(seconds=3)
def no_connection_with_a_message_is_closed_for_the_operator(t):
    """The desk has no descriptor for a client at the control socket. It closes the second of its kept connections: the first one has a message."""
    reply = Holding(t, 0x2222)
    t.enter_context(Together(t.room / "ca.sign", 2, reply))
    t.register(key=P256_KEY)
    passing = Passing(t, *SIGNING)
    before = passing.files
    with ThreadPoolExecutor(2) as pool:
        list(pool.map(lambda at: ocsp_answer(passing.desk, 0x1100 + at), range(2)))
        authority.until(lambda: passing.files == before + 2, "two kept connections")
        waits = pool.submit(ocsp_answer, passing.desk, 0x2222)
        t.true(reply.held.wait(60), "the signer to get the message")
        take_descriptors(t, passing.desk)
        with Control(t.room / "control", timeout=20) as control:
            t.same(control.ask("counts"), "good 0 revoked 0 expired 0", "a line at the control socket")
        t.tool("prlimit", "--pid", passing.desk.process.pid, "--nofile=1024:4096")
        reply.release.set()
        futures.wait([waits], timeout=10 * program.PATIENCE)
        # Ends the wait for a connection that was closed.
        passing.advance(10_000)
        t.true(is_own(waits.result(), 0x2222), "the answer of the message")


class EndsOne(Together):
    """Ends a persistent connection after its first message, once the test has the answer (`taken`)."""

    taken = threading.Event()

    def keep(self, client):
        if (head := native.exactly(client, 4)) is not None:
            client.sendall(self.reply(native.exactly(client, struct.unpack(">I", head)[0])))
            self.taken.wait(60)


@each({"the first of two": (Together, 2), "the second of two": (EndsOne, 1)}, seconds=3)
def a_kept_connection_is_closed_for_a_client_at_the_port(t, signer, kept):
    """The desk keeps two connections to its signer, or only the second one, and has no descriptor for a client. No other client has a connection."""
    signers = t.enter_context(signer(t.room / "ca.sign", 2))
    desk = opened(t)
    before = files(desk)
    with ThreadPoolExecutor(2) as pool:
        list(pool.map(lambda at: ocsp_answer(desk, 0x1100 + at), range(2)))
    authority.until(lambda: files(desk) == before + 2, "two kept connections")
    if kept == 1:
        t.true(is_own(ocsp_answer(desk, 0x1200), 0x1200), "the answer on the first connection")
        signers.taken.set()
        authority.until(lambda: files(desk) == before + 1, "the end of the first connection")
    take_descriptors(t, desk)
    full = files(desk)
    t.same(program.parted(desk.ask("GET", "/counts", timeout=20))[0], 200, "the status of the client's answer")
    authority.until(lambda: files(desk) < full, "the desk to close the client's connection")
    t.same(files(desk), full - 1, "descriptors: only one of the kept connections was closed")
    # Without a kept connection there is no descriptor for a signature beside a client.
    for serial in (0x2200, 0x3300) if kept == 2 else ():
        with t.at_once("an answer after that"):
            t.true(is_own(ocsp_answer(desk, serial), serial), f"the answer for {serial:x}")


@test(seconds=2)
def a_half_closed_client_gets_its_answer_after_the_end_of_a_kept_connection(t):
    """The client shuts down its sending side after its request, and waits for the answer. Meanwhile the signer closes the kept connection."""
    closes = threading.Event()

    class Ends(Keeping):
        def keep(self, client):
            native.exactly(client, 4)
            closes.wait(60)

    signer = t.enter_context(Ends(t.room / "ca.sign"))
    desk = opened(t)
    t.true(is_own(ocsp_answer(desk, 0x1100), 0x1100), "the first answer")
    body = asked_for(0x2200)
    with desk.connect() as client:
        client.sendall(b"POST /ocsp HTTP/1.1\r\nContent-Length: %d\r\n\r\n" % len(body) + body)
        authority.until(lambda: program.is_read(client), "the desk to read the request")
        # Not earlier: an end of the stream that the desk hasn't read would count as unread.
        client.shutdown(socket.SHUT_WR)
        time.sleep(0.1)
        closes.set()
        t.true(is_own(program.parted(read_all(client))[2], 0x2200), "the answer")


@test(seconds=6)
def real_signatures_verify(t):
    """The native signer with --persistent signs CRLs and OCSP answers of scripts, lines and HTTP, on both kinds of connections."""
    it = Authority(t)
    it.register()
    native.started(t, "--allow-swap", "--persistent", "--only-ours", "ca.pem", "ca.key")
    moment = authority.now() - 10
    t.done("script", "ca.db", *it.signing(), given=authority.first_day(moment))
    desk = t.open("ca.db", *it.signing())
    for at in range(3):
        it.reads("06", authority.body_of(t, desk.ask("GET", authority.path_of(it.asks("06")))))
    with t.control() as control:
        t.same(control.ask("crl").split()[0], "crl", "the reply to `crl`")
        for _ in range(2):
            response = bytes.fromhex(control.ask(f"ocsp {it.asks('06').hex()}").split()[-1])
            it.reads("06", response)
    it.verifies(program.parted(desk.ask("GET", "/crl"))[2])
