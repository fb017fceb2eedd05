"""Limits of the process and the machine: long runs, full queues, file descriptors, slow clients and signers, idle time, names of files; and the numbers
that other tests leave out: times in the log, in replies and on a terminal, and counts of lost connections."""

import base64
import collections
import contextlib
import fcntl
import os
import pty
import re
import resource
import select
import shutil
import signal
import socket
import sqlite3
import subprocess
import threading
import time
from concurrent.futures import ThreadPoolExecutor

from lib import authority, faults, program, registers
from lib.passing import Passing
from lib.program import ANY_SIGNATURE, P256_KEY, Control, Signers, free_port, parted, read_all
from lib.trial import TEN_SECONDS, Skipped, each, test
from model import der

DAY = "2026-01-01T00:00:00Z"
SIGNING = ("--signer", "ca.sign", "--algorithm", "ecdsa-sha256")
COUNTS = b"GET /counts HTTP/1.1\r\nHost: ca.example\r\n\r\n"
MANY = 100_001


def cert_ids(count):
    """The CertIDs of an OCSP request for this many serial numbers of two octets of another issuer (RFC 6960 4.1.1), each in its own Request."""
    issuer = bytes.fromhex("300906052B0E03021A05000414" + "00" * 20 + "0414" + "00" * 20)
    for serial in range(0x1100, 0x1100 + count):
        yield der.value(0x30, der.value(0x30, issuer + der.integer(serial)))


def asks(count):
    """An OCSP request with this many CertIDs."""
    return der.value(0x30, der.value(0x30, der.value(0x30, b"".join(cert_ids(count)))))


# The control socket


@test
def a_control_socket_with_a_full_queue_is_not_taken_over(t):
    t.register()
    with socket.socket(socket.AF_UNIX) as other, contextlib.ExitStack() as clients:
        other.bind(str(t.room / "control"))
        other.listen(0)
        for _ in range(16):
            client = clients.enter_context(socket.socket(socket.AF_UNIX))
            client.setblocking(False)
            try:
                client.connect(str(t.room / "control"))
            except BlockingIOError:
                break
        else:
            t.true(False, "the queue is not full")
        before = (t.room / "control").stat().st_ino
        ran = t.desk("open", "ca.db", "--port", free_port(), "--control", "control", "--unsigned")
        t.same((ran.status, ran.out, ran.err), (1, b"", b"F4 read\n"), "the second program at the socket")
        t.same((t.room / "control").stat().st_ino, before, "the inode of the socket")


@test(seconds=4)
def clients_that_connect_before_the_mode_is_set_are_disconnected(t):
    t.register()
    with ThreadPoolExecutor(1) as pool, contextlib.ExitStack() as clients:
        opening = pool.submit(t.open, faults=faults.environment(slow_chmod=t.room / "connected"))
        authority.until(lambda: (t.room / "control").is_socket(), "the socket")
        early = [clients.enter_context(Control(t.room / "control")) for _ in range(20)]
        t.true(oct((t.room / "control").stat().st_mode & 0o777) != "0o600", "the mode was set before the clients connected")
        for it in early:
            with contextlib.suppress(BrokenPipeError):
                it.stream.sendall(b"subscriber mallory\n")
        (t.room / "connected").touch()
        opening.result()
        for at, it in enumerate(early):
            reply = b""
            with contextlib.suppress(ConnectionResetError, BrokenPipeError):
                reply = it.file.readline()
            t.same(reply, b"", f"the reply to client {at}, which connected before the mode was set")
    with t.control() as control:
        t.same(control.ask("subscriber owner"), "subscriber 1", "the owner's line")


@test(seconds=4)
def all_clients_that_connect_before_the_mode_is_set_are_disconnected(t):
    """They fill the socket's queue: one more than net.core.somaxconn. A client that has closed its connection still has its place there."""
    t.register()
    with ThreadPoolExecutor(1) as pool, contextlib.ExitStack() as clients:
        opening, early = pool.submit(t.open, faults=faults.environment(slow_chmod=t.room / "connected")), collections.deque()
        authority.until(lambda: (t.room / "control").is_socket(), "the socket")
        with contextlib.suppress(BlockingIOError):
            while True:
                client = clients.enter_context(socket.socket(socket.AF_UNIX))
                client.setblocking(False)
                client.connect(str(t.room / "control"))
                early.append(client)
                if len(early) > 100:
                    early.popleft().close()
        t.true(oct((t.room / "control").stat().st_mode & 0o777) != "0o600", "the mode was set before the clients connected")
        (t.room / "connected").touch()
        opening.result()
        for it in reversed(early):
            it.settimeout(20)
            t.same(it.recv(1), b"", "what one of the last clients receives that connected before the mode was set")


@each({error: error for error in ("EMFILE", "ENFILE")}, seconds=1)
def early_clients_that_cannot_be_disconnected_keep_the_desk_from_opening(t, error):
    """Without a descriptor, accept(2) doesn't take a client from the queue, who could send commands later. The next desk takes the socket over."""
    t.register()
    words = ["open", "ca.db", "--port", free_port(), "--control", "control", "--unsigned"]
    ran, counts = faults.run(t, words, fail=f"accept:1={error}")
    t.same((ran.status, ran.out, ran.err, counts["met"]), (1, b"", b"F4 read\n", 1), "status, output, standard error, injected faults")
    t.open()
    with t.control() as control:
        t.same(control.ask("subscriber owner"), "subscriber 1", "a line to the next desk")


@test(seconds=2)
def a_control_socket_whose_mode_cannot_be_set_keeps_the_desk_from_opening(t):
    """Until the mode is set, the umask alone says who may connect. Here the socket is gone by then, so that chmod(2) fails."""
    t.register()
    words = ["open", "ca.db", "--port", free_port(), "--control", "control", "--unsigned", "--why"]
    with ThreadPoolExecutor(1) as pool:
        opening = pool.submit(program.Opened, words, cwd=t.room, faults=faults.environment(slow_chmod=t.room / "gone"))
        authority.until(lambda: (t.room / "control").is_socket(), "the socket")
        (t.room / "control").unlink()
        (t.room / "gone").touch()
        desk = t.enter_context(opening.result())
        t.same(desk.listens, False, "whether the desk listens")
        ended = desk.wait()
    t.same((ended.status, ended.err), (1, b"F4 read\n  no such file (--control)\n"))


@test
def a_desk_that_gets_no_port_leaves_the_path_of_its_control_socket_as_it_is(t):
    t.register()
    with socket.socket() as other, socket.socket(socket.AF_UNIX) as stale:
        other.bind(("127.0.0.1", 0))
        other.listen()
        for what in ("nothing", "a stale socket"):
            ran = t.desk("open", "ca.db", "--port", other.getsockname()[1], "--control", "control", "--unsigned")
            t.same((ran.status, ran.out, ran.err), (1, b"", b"F4 read\n"), f"a desk that finds {what} at the path")
            if what == "nothing":
                t.same((t.room / "control").exists(), False, "whether there is a socket")
                stale.bind(str(t.room / "control"))
                before = (t.room / "control").stat().st_ino
    t.same((t.room / "control").stat().st_ino, before, "the inode of the stale socket")


@test
def a_link_to_a_socket_is_not_taken_over(t):
    t.register()
    t.open().end()
    os.rename(t.room / "control", t.room / "stale")
    os.symlink("stale", t.room / "control")
    ran = t.desk("open", "ca.db", "--port", free_port(), "--control", "control", "--unsigned")
    t.same((ran.status, ran.out, ran.err), (1, b"", b"F4 read\n"), "a desk whose control socket is at a link")
    t.same((os.readlink(t.room / "control"), (t.room / "stale").is_socket()), ("stale", True), "the link and the socket")


@test
def a_control_socket_that_may_not_be_used_is_not_taken_over(t):
    """The socket may be that of another user's desk, to which this user may not connect."""
    t.register()
    t.register("other.db")
    t.open()
    before = (t.room / "control").stat().st_ino
    words = ["open", "other.db", "--control", "control", "--unsigned"]
    desk = t.enter_context(program.Opened(words, cwd=t.room, faults=faults.environment(count=t.room / "count", fail="connect:1=EACCES")))
    t.same(desk.listens, False, "whether the second desk listens")
    ended = desk.wait()
    t.same((ended.status, ended.err, faults.counted(t.room / "count")["met"]), (1, b"F4 read\n", 1), "the second desk")
    t.same((t.room / "control").stat().st_ino, before, "the inode of the socket")
    t.same(t.control().ask("counts"), "good 0 revoked 0 expired 0", "the first desk")


@test
def a_desk_that_can_not_lock_the_folder_of_its_control_socket_does_not_listen(t):
    """Without the lock, two desks could take over one stale socket."""
    t.register()
    words = ["open", "ca.db", "--control", "control", "--unsigned"]
    fault = faults.environment(count=t.room / "count", fail="lock:1=EIO", only=t.room.name)
    desk = t.enter_context(program.Opened(words, cwd=t.room, faults=fault))
    t.same(desk.listens, False, "whether it listens")
    ended = desk.wait()
    t.same((ended.status, ended.err, faults.counted(t.room / "count")["met"]), (1, b"F4 read\n", 1))
    t.same((t.room / "control").exists(), False, "whether there is a socket")


WHY_NONE = {"in no folder": ("nowhere/control", "  no such file (--control)\n"), "where a desk listens": ("control", "  in use by another program (--control)\n"), "where a file lies": ("ca.db", "")}


@each(WHY_NONE)
def why_a_control_socket_is_not_created(t, path, cause):
    t.register()
    t.register("other.db")
    t.open()
    ran = t.desk("open", "other.db", "--port", free_port(), "--control", path, "--unsigned", "--why")
    t.same((ran.status, ran.out, ran.err), (1, b"", f"F4 read\n{cause}".encode()))


@test
def a_stale_control_socket_that_may_not_be_removed_is_the_cause(t):
    t.register()
    with socket.socket(socket.AF_UNIX) as left:
        left.bind(str(t.room / "control"))
    words = ["open", "ca.db", "--port", free_port(), "--control", "control", "--unsigned", "--why"]
    ran, count = faults.run(t, words, fail="unlink:1", only="control")
    t.same((ran.status, ran.out, count["met"]), (1, b"", 1))
    t.same(ran.err, b"F4 read\n  permission denied, or the file system is read-only (--control)\n")


@test(seconds=3)
def a_crl_whose_line_ends_in_cr_lf_holds_up_nobody(t):
    ends = threading.Event()
    t.callback(ends.set)
    t.register(key=P256_KEY)
    signers = t.enter_context(Signers(t.room / "ca.sign", lambda message: ends.wait(60) and ANY_SIGNATURE))
    desk = t.open("ca.db", *SIGNING)
    for line in (b"crl\r\n", b"ocsp " + asks(1).hex().encode() + b"\r\n"):
        with t.control() as control:
            control.stream.sendall(line)
            # The second line waits for the signature of the first.
            authority.until(lambda: signers.asked and program.is_read(control.stream), "a signature request")
            with t.at_once("GET /counts"):
                t.same(parted(desk.send(COUNTS))[0], 200, f"GET /counts after {line[:5]!r}")


@test
def a_long_ocsp_line_holds_up_nobody(t):
    """The line is nearly as long as a line may be: its request has 60 CertIDs."""
    ends = threading.Event()
    t.callback(ends.set)
    t.register(key=P256_KEY)
    signers = t.enter_context(Signers(t.room / "ca.sign", lambda message: ends.wait(60) and ANY_SIGNATURE))
    desk = t.open("ca.db", *SIGNING)
    with ThreadPoolExecutor(1) as pool, t.control() as control:
        reply = pool.submit(control.ask, f"ocsp {asks(60).hex()}")
        t.true(signers.until(1), "no signature is requested")
        with t.at_once("GET /counts"):
            t.same(parted(desk.send(COUNTS))[0], 200, "GET /counts meanwhile")
        ends.set()
        t.true(ANY_SIGNATURE.hex() in reply.result(), "the reply is not signed")


@test
def at_writes_a_reply_of_more_than_ten_thousand_bytes(t):
    """It is the OCSP answer to 60 CertIDs. The line after it runs."""
    t.register()
    t.clock(DAY)
    desk = t.open()
    answer = parted(desk.ask("POST", "/ocsp", asks(60)))[2]
    t.true(len(answer) > 5_000, f"the answer has only {len(answer)} octets")
    t.same(t.done("at", "control", given=f"ocsp {asks(60).hex()}\ncounts\n"), f"ocsp {answer.hex()}\ngood 0 revoked 0 expired 0\n")


@test(seconds=3)
def the_sixth_crl_of_a_connection_holds_up_nobody(t):
    signs = threading.Event()
    signs.set()
    t.callback(signs.set)
    t.register(key=P256_KEY)
    signers = t.enter_context(Signers(t.room / "ca.sign", lambda message: signs.wait(60) and ANY_SIGNATURE))
    desk = t.open("ca.db", *SIGNING)
    with t.control() as control:
        t.same([control.ask("crl") for _ in range(5)], [f"crl {it} entries 0" for it in range(1, 6)])
        signs.clear()
        control.stream.sendall(b"crl\n")
        t.true(signers.until(1), "no signature is requested")
        with t.at_once("GET /counts"):
            t.same(parted(desk.send(COUNTS))[0], 200, "GET /counts meanwhile")
        signs.set()
        t.same(control.file.readline(), b"crl 6 entries 0\n")


@test(seconds=2)
def at_waits_for_room_in_the_queue_of_a_control_socket(t):
    tried = lambda: (t.room / "count").exists() and faults.counted(t.room / "count")["connect"]
    with ThreadPoolExecutor(1) as pool, full_queue(t, "control") as server:
        ran = pool.submit(t.desk, "at", "control", given="counts\n", faults=faults.environment(count=t.room / "count"))
        authority.until(tried, "`desk at` to connect")
        # Time in which it could give up.
        time.sleep(0.5)
        t.true(not ran.done(), "`desk at` has ended")
        server.accept()[0].close()
        client, _ = server.accept()
        with client:
            t.same(client.recv(100), b"counts\n", "the line")
            client.sendall(b"good\n")
        t.same((ran.result().status, ran.result().out), (0, b"good\n"))


@test(seconds=2)
def a_desk_tries_to_lock_the_folder_of_its_control_socket_for_ten_seconds(t):
    """It tries two thousand times, with five milliseconds between two attempts. In this test it does not sleep."""
    t.register()
    folder = os.open(t.room, os.O_RDONLY)
    t.callback(os.close, folder)
    fcntl.flock(folder, fcntl.LOCK_EX)
    ran, count = faults.run(t, ["open", "ca.db", "--port", free_port(), "--control", "control", "--unsigned", "--why"], only=t.room.name, awake=1)
    t.same((ran.status, ran.out, ran.err), (1, b"", b"F4 read\n  in use by another program (--control)\n"))
    t.same(count["lock"], 2_000, "attempts")


@test(seconds=3)
def a_desk_tries_to_lock_the_folder_of_its_control_socket_many_times_a_second(t):
    """After each of its two thousand attempts it sleeps for five milliseconds. So it waits ten seconds in all, and notices a free lock at once."""
    t.register()
    (t.room / "sockets").mkdir()
    folder = os.open(t.room / "sockets", os.O_RDONLY)
    t.callback(os.close, folder)
    fcntl.flock(folder, fcntl.LOCK_EX)
    tried = lambda: (t.room / "count").exists() and faults.counted(t.room / "count")["lock"]
    with ThreadPoolExecutor(1) as pool:
        opening = pool.submit(t.open, "ca.db", "--control", "sockets/control", faults=faults.environment(count=t.room / "count", only="sockets"))
        try:
            authority.until(tried, "a desk that tries to lock the folder", seconds=20)
            before = tried()
            time.sleep(1)
            attempts = tried() - before
        finally:
            fcntl.flock(folder, fcntl.LOCK_UN)
        opening.result()
    # On a busy machine there are fewer than two hundred.
    t.true(attempts > 10, f"only {attempts} attempts in a second, so the desk waits for minutes in place of ten seconds")


# Long runs


def timed_rows(count):
    return "".join(f"1,{at:x},{DAY},2026-01-02T00:00:00Z\n" for at in range(1, count + 1))


def revoked_rows(count):
    return "".join(f"{at:x},superseded\n" for at in range(1, count + 1))


@test(seconds=20)
def as_many_replies_as_lines_and_rows(t):
    """Each job reads more than a hundred thousand lines, and prints a reply to each: `desk at`, scripts by the clock and with moments, an import."""
    t.register()
    t.clock(DAY)
    t.open()
    ran = t.desk("at", "control", given="counts\n" * MANY)
    t.same((ran.status, ran.lines.count("good 0 revoked 0 expired 0")), (0, MANY), "replies of `desk at`")
    t.register("other.db")
    ran = t.desk("script", "other.db", "--clock", given="counts\n" * MANY)
    t.same((ran.status, ran.lines.count("good 0 revoked 0 expired 0")), (0, MANY), "replies of `desk script --clock`")
    ran = t.desk("script", given=f"{DAY} counts\n" * MANY)
    t.same((ran.status, ran.lines.count("good 0 revoked 0 expired 0")), (0, MANY), "replies of `desk script`")
    ran = t.desk("import", "other.db", "--now", DAY, given=timed_rows(MANY))
    t.same((ran.status, ran.lines.count("E08 no-order")), (0, MANY), "replies of `desk import`")


@test
def a_reply_of_more_than_8_kib_is_written_whole(t):
    """`desk at` writes the reply to an OCSP request of 60 CertIDs as it comes from the control socket."""
    t.register()
    t.clock(DAY)
    t.open()
    line = f"ocsp {asks(60).hex()}"
    reply = t.control().ask(line)
    t.true(len(reply) > 8_192, f"the reply has only {len(reply)} characters")
    t.same(t.done("at", "control", given=f"{line}\ncounts\n"), f"{reply}\ngood 0 revoked 0 expired 0\n")


@test(seconds=5)
def at_writes_more_than_a_million_replies(t):
    """In place of a desk, the test takes the lines of `desk at`, and sends all replies at once."""
    lines, reply = 1_000_001, b"why nothing\n"
    server = t.enter_context(socket.socket(socket.AF_UNIX))
    server.bind(str(t.room / "control"))
    server.listen(1)

    def takes(client):
        while client.recv(1 << 20):
            pass

    def serves():
        client, _ = server.accept()
        with client, ThreadPoolExecutor(1) as taker:
            taker.submit(takes, client)
            with contextlib.suppress(BrokenPipeError, ConnectionResetError):
                client.sendall(reply * lines)

    with ThreadPoolExecutor(1) as pool:
        pool.submit(serves)
        ran = t.desk("at", "control", given=b"why\n" * lines)
    t.same((ran.status, ran.err, ran.out.count(reply)), (0, b"", lines), "the status, standard error, and how many replies are written")


@test(seconds=2)
def a_file_of_more_than_a_million_empty_lines(t):
    """The rows of certificates to revoke come after the empty lines."""
    t.register()
    t.clock(DAY)
    t.open()
    (t.room / "rows.csv").write_text("\n" * 1_000_001 + revoked_rows(2))
    ran = t.desk("at", "control", "--revoke", "rows.csv")
    t.same((ran.status, ran.lines, ran.err), (3, ["E14 unknown-serial"] * 2, b"refused\n"))


@test(seconds=10)
def a_desk_answers_more_than_a_million_lines(t):
    """The event loop answers one `why` of a control connection in each iteration. So it has more than a million iterations."""
    lines, reply = 1_000, b"why nothing\n"
    t.register()
    desk = t.open()
    with t.control() as control:
        for piece in range(1_001):
            control.stream.sendall(b"why\n" * lines)
            replies = b"".join(control.file.readline() for _ in range(lines))
            t.true(replies == reply * lines, f"wrong replies to the lines from {piece * lines} on: {replies[-200:]!r}")
        t.same(control.ask("counts"), "good 0 revoked 0 expired 0", "a later line")
    t.same(parted(desk.send(COUNTS))[0], 200, "GET /counts after them")
    t.same(desk.process.poll(), None, "the exit status of the desk, which must still run")


@test(seconds=4)
def a_list_of_more_than_a_hundred_thousand_rows(t):
    t.register()
    rows = "WITH RECURSIVE row (id) AS (SELECT 1 UNION ALL SELECT id + 1 FROM row WHERE id < ?) SELECT id, printf('%064d', id) FROM row"
    t.sql("ca.db", f"INSERT INTO subscriber {rows}", MANY)
    t.same(t.done("list", "ca.db", "subscribers").count("\n"), MANY + 1, "its lines, with the header")
    text = t.done("list", "ca.db", "subscribers", "--json")
    t.same(text.count("\n"), MANY, "its lines as JSON")
    t.true(len(text) > 8_388_608, f"its text has only {len(text)} bytes")


@test
def a_crl_of_more_than_16_mib_is_written(t):
    t.register(lines=f"{DAY} crl\n{DAY} crl\n")
    t.sql("ca.db", "UPDATE crl SET der = zeroblob(17000000) WHERE number = 1")
    ran = t.desk("crl", "ca.db", "--number", 1)
    t.same((ran.status, ran.err, len(ran.out)), (0, b"", 17_000_000), "status, standard error, and bytes of the CRL")


@test(seconds=4)
def a_log_of_more_than_four_thousand_requests(t):
    """The desk numbers them anew. The last line revokes by the last request, and its number is that of the desk."""
    count, first = 4_200, 5_001
    t.register(lines=f"{DAY} subscriber acme\n{DAY} order 1 398\n{DAY} register 1 05 {DAY} 2026-12-31T00:00:00Z\n")
    t.clock(DAY)
    t.open(faults=faults.environment())
    entered = [f'{DAY} control "request 05 asked" "request {at} due {DAY}" 39 9 request {at} {5:040x} asked\n' for at in range(first, first + count)]
    last = first + count - 1
    (t.room / "ca.log").write_text("".join(entered) + f'{DAY} control "revoke {last}" "revoked" 8 9 request {last} {5:040x}\n')
    replies = t.done("replay", "control", "ca.log").splitlines()
    t.same([it.split(" due ")[0] for it in replies], [*(f"request {at}" for at in range(1, count + 1)), "revoked"], "the replies")


FILES = {
    "rows to revoke": ("--revoke", revoked_rows, "E14 unknown-serial"),
    "rows to register": ("--import", timed_rows, "E08 no-order"),
}


@each(FILES, seconds=12)
def as_many_replies_as_a_file_has_rows(t, option, rows, reply):
    t.register()
    t.clock(DAY)
    t.open()
    (t.room / "rows.csv").write_text(rows(MANY))
    ran = t.desk("at", "control", option, "rows.csv")
    t.same((ran.status, ran.lines.count(reply), len(ran.lines), ran.err), (3, MANY, MANY, b"refused\n"))


@test(seconds=2)
def a_file_is_sent_whose_lines_have_more_than_8_mib(t):
    """The test is at the control socket. It takes the first 256 lines, and disconnects."""
    serial = "5".zfill(40)
    (t.room / "rows.csv").write_text(f"1,{serial},{DAY},2026-01-02T00:00:00Z\n" * 95_000)
    wanted = f"register 1 {serial} {DAY} 2026-01-02T00:00:00Z\n".encode() * 256
    with socket.socket(socket.AF_UNIX) as server, ThreadPoolExecutor(1) as pool:
        server.bind(str(t.room / "control"))
        server.listen()
        ran = pool.submit(t.desk, "at", "control", "--import", "rows.csv")
        authority.until(lambda: ran.done() or select.select([server], [], [], 0)[0], "a connection", seconds=20)
        t.true(not ran.done(), "`desk at` ended, and sent nothing")
        with server.accept()[0] as client, client.makefile("rb") as lines:
            t.same(lines.read(len(wanted)), wanted, "the first lines")
        t.same((ran.result().status, ran.result().out, ran.result().err), (1, b"", b"F4 read\n"))


@test
def a_log_of_more_than_a_hundred_thousand_lines(t):
    """The last line of the log has its only command."""
    t.register()
    t.clock(DAY)
    t.open()
    (t.room / "ca.log").write_text(f'{DAY} control "counts" "good 0 revoked 0 expired 0" 27 9\n' * MANY + f'{DAY} control "subscriber acme" "subscriber 1" 13 9\n')
    t.same(t.done("replay", "control", "ca.log"), "subscriber 1\n")


@test(seconds=5)
def a_log_of_more_than_a_million_lines(t):
    """The log is that of a desk with many clients. Its last line has its only command."""
    t.register()
    t.clock(DAY)
    t.open()
    with open(t.room / "ca.log", "w") as log:
        for _ in range(11):
            log.write(f"{DAY} 127.0.0.1:50000 lost late\n" * MANY)
        log.write(f'{DAY} control "subscriber acme" "subscriber 1" 13 9\n')
    t.same(t.done("replay", "control", "ca.log"), "subscriber 1\n")


@test(seconds=2)
def the_last_answer_is_sent_whole_in_forty_thousand_writes(t):
    """Each write takes one byte. `desk serve` ends only after the last byte of its last answer."""
    size = 40_000
    t.register(lines=f"{DAY} crl\n{DAY} crl\n")
    t.sql("ca.db", f"UPDATE crl SET der = zeroblob({size}) WHERE number = 1")
    t.clock(DAY)
    desk = t.open("ca.db", "--requests", 1, command="serve", faults=faults.environment(short=1, only="socket"))
    status, _, body = parted(desk.send(b"GET /crl/1 HTTP/1.1\r\n\r\n"))
    t.same((status, len(body)), (200, size), "its status, and how many bytes of the CRL came")
    t.same(desk.wait().status, 0, "the status of `serve`")


@test(seconds=3)
def the_last_answer_is_sent_whole_however_long_it_takes(t):
    """After the last request of `desk serve`, a client that sends on causes iterations of the event loop. The answer of a slow client stays whole."""
    t.register(lines=f"{DAY} crl\n{DAY} crl\n")
    t.sql("ca.db", "UPDATE crl SET der = zeroblob(12000000) WHERE number = 1")
    t.clock(DAY)
    (t.room / "passed").write_bytes(bytes(8))
    desk = t.open("ca.db", "--requests", 2, command="serve", faults=faults.environment(passed=t.room / "passed"))
    with desk.connect() as slow, desk.connect() as other:
        slow.sendall(b"GET /crl/1 HTTP/1.1\r\n\r\n")
        t.same(slow.recv(1), b"H", "its answer has begun")
        other.sendall(COUNTS + b"more")
        t.same(parted(read_all(other))[0], 200, "the last request")
        for _ in range(300):
            with contextlib.suppress(BrokenPipeError, ConnectionResetError):
                other.sendall(b"x")
            while not program.is_read(other) and desk.process.poll() is None:
                pass
        t.true(len(read_all(slow)) > 12_000_000, "the answer of the slow client is cut off")


@test(seconds=4)
def the_oldest_connection_is_evicted_after_a_thousand_others_too(t):
    t.register()
    desk = Passing(t)
    t.tool("prlimit", "--pid", desk.desk.process.pid, f"--nofile={desk.before + 2}:{desk.before + 2}")
    held = []
    for others in (500, 700):
        for _ in range(others):
            t.same(parted(desk.desk.send(COUNTS))[0], 200, "the answer to another client")
        held.append(desk.comes(COUNTS[:9]))
    with desk.desk.connect() as newest:
        held[0].settimeout(20)
        t.same(read_all(held[0]), b"", "what the oldest client receives, whose connection is evicted")
        for it in (held[1], newest):
            it.sendall(COUNTS[9:] if it is held[1] else COUNTS)
            t.same(parted(read_all(it))[0], 200, "the answers to the other clients")


@test(seconds=3)
def a_thousand_lost_connections_free_their_slots(t):
    """Each client waits for a signature, for which the signer has no room. The desk has 960 slots, but descriptors for ten clients: each new client
    evicts the oldest one."""
    t.register(key=P256_KEY)
    request = b"POST /ocsp HTTP/1.1\r\nContent-Length: %d\r\n\r\n" % len(asks(1)) + asks(1)
    with full_queue(t), contextlib.ExitStack() as open_ones:
        desk, clients = Passing(t, *SIGNING), collections.deque()
        t.tool("prlimit", "--pid", desk.desk.process.pid, f"--nofile={desk.before + 10}:{desk.before + 10}")
        for number in range(1_000):
            clients.append(open_ones.enter_context(desk.desk.connect(timeout=20)))
            clients[-1].sendall(request)
            if number >= 12:
                with clients.popleft() as evicted:
                    t.same(read_all(evicted), b"", f"the response to client {number - 12}")
        t.same(parted(desk.desk.send(COUNTS, timeout=20))[0], 200, "the next client")
        t.true(lost_by(desk.desk)["crowded"] > 960, "fewer connections were lost than there are slots")


# File descriptors

# How many HTTP connections a desk has at most.
MOST_CLIENTS = 960


@test(seconds=4)
def as_many_clients_as_the_desk_takes_have_connections_at_once(t):
    _, hard = resource.getrlimit(resource.RLIMIT_NOFILE)
    if hard < 2_000 and hard != resource.RLIM_INFINITY:
        raise Skipped("the system has no descriptors for 960 connections: ulimit -n 2000")
    resource.setrlimit(resource.RLIMIT_NOFILE, (2_000, hard))
    t.register()
    desk = t.open()
    clients = [t.enter_context(desk.connect()) for _ in range(MOST_CLIENTS)]
    # The desk answers the last one once it has accepted all.
    for it in reversed(clients):
        it.sendall(COUNTS)
        t.same(parted(read_all(it))[0], 200, "GET /counts")


@test(seconds=4)
def all_clients_are_late_together(t):
    _, hard = resource.getrlimit(resource.RLIMIT_NOFILE)
    if hard < 2_000 and hard != resource.RLIM_INFINITY:
        raise Skipped("the system has no descriptors for 960 connections: ulimit -n 2000")
    resource.setrlimit(resource.RLIMIT_NOFILE, (2_000, hard))
    t.register()
    desk = Passing(t)
    for _ in range(MOST_CLIENTS):
        t.enter_context(desk.desk.connect()).sendall(COUNTS[:9])
    authority.until(lambda: desk.files == desk.before + MOST_CLIENTS, "the desk to accept all")
    desk.set_forward(30_000)
    authority.until(lambda: desk.files == desk.before, "the desk to close all", seconds=10)
    desk.advance(0)
    t.same([why for _, why in desk.lost], ["late"] * MOST_CLIENTS, "why each connection was lost")


@test(seconds=5)
def clients_at_the_port_leave_descriptors_for_the_operator(t):
    """The desk has 1,024 descriptors, as is usual. Silent clients get 960 connections to the port, so some are left for the control socket."""
    _, hard = resource.getrlimit(resource.RLIMIT_NOFILE)
    if hard < 2_000 and hard != resource.RLIM_INFINITY:
        raise Skipped("the system has no descriptors for 1,100 connections: ulimit -n 2000")
    resource.setrlimit(resource.RLIMIT_NOFILE, (2_000, hard))
    t.register()
    desk = t.open()
    t.tool("prlimit", "--pid", desk.process.pid, "--nofile=1024:1024")
    clients = [t.enter_context(desk.connect()) for _ in range(MOST_CLIENTS + 1)]
    clients[0].settimeout(20)
    is_closed = False
    with contextlib.suppress(TimeoutError):
        is_closed = read_all(clients[0]) == b""
    t.true(is_closed, "the oldest of 961 connections is still open, though the desk has 960 at most")
    clients += [t.enter_context(desk.connect()) for _ in range(139)]
    with Control(t.room / "control", timeout=20) as control:
        t.same(control.ask("counts"), "good 0 revoked 0 expired 0", "a line at the control socket")


@each({f"{it}, {what}": (error, what) for it, error in (("the process has no descriptor left", "EMFILE"), ("the machine has none", "ENFILE")) for what in ("an answer", "a CRL")}, seconds=3)
def a_signature_is_requested_again_once_there_is_a_descriptor(t, error, what):
    t.register(key=P256_KEY)
    t.enter_context(Signers(t.room / "ca.sign"))
    usual = t.room / "usual"
    desk = t.open("ca.db", *SIGNING, faults=faults.environment(count=usual))
    before = faults.counted(usual)["socket"]
    desk.end()
    desk = t.open("ca.db", *SIGNING, "--control", "second", faults=faults.environment(count=t.room / "count", fail=f"socket:{before + 1}={error}"))
    if what == "a CRL":
        t.same(t.control("second").ask("crl"), "crl 1 entries 0")
    else:
        response = parted(desk.ask("POST", "/ocsp", asks(1)))[2]
        t.true(ANY_SIGNATURE in response, f"the answer has no signature: {response.hex()}")
    t.same(faults.counted(t.room / "count")["met"], 1, "injected faults")


ACCEPTS = [*((error, place) for error in ("EMFILE", "ENFILE", "EINTR") for place in ("port", "control socket")), ("ECONNABORTED", "port")]


@each({f"{error} at the {place}": (error, place) for error, place in ACCEPTS}, seconds=3)
def a_client_is_accepted_although_accept_failed_once(t, error, place):
    t.register()
    # The desk polls for the second time after its calls of accept(2) at the start.
    waits = lambda count: authority.until(lambda: faults.counted(t.room / count)["poll"] >= 2, "the desk to wait for clients")
    desk = t.open("ca.db", faults=faults.environment(count=t.room / "usual"))
    waits("usual")
    before = faults.counted(t.room / "usual")["accept"]
    desk.end()
    desk = t.open("ca.db", "--control", "second", faults=faults.environment(count=t.room / "count", fail=f"accept:{before + 1}={error}"))
    waits("count")
    if place == "port":
        t.same(parted(desk.send(COUNTS))[0], 200, "GET /counts")
    else:
        t.same(t.control("second").ask("counts"), "good 0 revoked 0 expired 0", "a line")
    t.same((faults.counted(t.room / "count")["met"], desk.process.poll()), (1, None), "injected faults, and the exit status of the desk")


def beside_a_client(t, error):
    """A desk with a client whose request is not whole, which gets this error when it accepts the next one; and the client."""
    calls = lambda kind: faults.counted(t.room / "count")[kind]

    def opened(control, fail):
        """The desk, the client, and the count of calls of accept(2) by then: one found the client, the next one nobody."""
        desk = t.open("ca.db", "--control", control, faults=faults.environment(count=t.room / "count", fail=fail))
        # The desk polls for the second time after its calls of accept(2) at the start.
        authority.until(lambda: calls("poll") >= 2, "the desk to wait for clients")
        before = calls("accept")
        client = t.enter_context(desk.connect())
        client.sendall(COUNTS[:9])
        authority.until(lambda: calls("accept") == before + 2 and program.is_read(client), "the desk to read a part of the request")
        return desk, client, before + 2

    t.register()
    desk, _, count = opened("first", None)
    desk.end()
    return opened("second", f"accept:{count + 1}={error}")[:2]


@test(seconds=3)
def a_client_that_is_gone_before_it_is_accepted_costs_nobody_a_connection(t):
    """accept(2) fails with ECONNABORTED. No descriptor is needed then, as it would be after EMFILE."""
    desk, client = beside_a_client(t, "ECONNABORTED")
    t.same(parted(desk.send(COUNTS))[0], 200, "the next client")
    t.same(faults.counted(t.room / "count")["met"], 1, "injected faults")
    client.sendall(COUNTS[9:])
    t.same(parted(read_all(client))[0], 200, "the first client")


@test(seconds=3)
def a_client_that_waits_no_more_costs_nobody_a_connection(t):
    """accept(2) fails with EAGAIN, although the desk was told of a client."""
    desk, client = beside_a_client(t, "EAGAIN")
    t.enter_context(desk.connect())
    authority.until(lambda: faults.counted(t.room / "count")["met"], "accept(2) to fail")
    client.sendall(COUNTS[9:])
    t.same(parted(read_all(client))[0], 200, "the first client")


@test(seconds=3)
def another_error_of_accept_evicts_a_client_and_does_not_end_the_desk(t):
    desk, client = beside_a_client(t, "EINVAL")
    t.same(parted(desk.send(COUNTS))[0], 200, "the next client")
    t.same(read_all(client), b"", "the response to the first client")
    t.same((faults.counted(t.room / "count")["met"], desk.process.poll()), (1, None), "injected faults, and the exit status of the desk")


@each({"at the port": "port", "at the control socket": "control socket"}, seconds=3)
def where_accept_fails_again_and_again(t, place):
    """For a client at the port the desk ends, as it has no connection that it could close. A client at the control socket doesn't keep it busy."""
    t.register()
    waits = lambda count: authority.until(lambda: faults.counted(t.room / count)["poll"] >= 2, "the desk to wait for clients")
    desk = t.open("ca.db", faults=faults.environment(count=t.room / "usual"))
    waits("usual")
    before = faults.counted(t.room / "usual")["accept"]
    desk.end()
    desk = t.open("ca.db", "--control", "second", faults=faults.environment(count=t.room / "count", fail=f"accept:{before + 1}+=EINVAL"))
    waits("count")
    if place == "port":
        # The desk may end before the client knows that it is connected.
        with contextlib.suppress(ConnectionResetError):
            t.enter_context(desk.connect())
        authority.until(lambda: desk.process.poll() is not None, "the end of the desk", seconds=20)
        ran = desk.wait()
        t.same((ran.status, ran.err), (1, b"F4 read\n"), "its status, and standard error")
    else:
        t.control("second")
        authority.until(lambda: faults.counted(t.room / "count")["met"], "accept(2) to fail")
        seldom_wakes_up(t, 1)


@test(seconds=2)
def a_control_connection_is_accepted_once_there_is_a_descriptor_again(t):
    """The machine or the desk had no descriptor for it for a time. Nobody has a connection to the port."""
    t.register()
    desk = t.open("ca.db", faults=faults.environment(count=t.room / "count"))
    pid, counted = desk.process.pid, lambda kind: faults.counted(t.room / "count")[kind]
    # The desk polls for the second time after its calls of accept(2) at the start.
    authority.until(lambda: counted("poll") >= 2, "the desk to wait for clients")
    before, usual = counted("accept"), resource.prlimit(pid, resource.RLIMIT_NOFILE)
    resource.prlimit(pid, resource.RLIMIT_NOFILE, (len(os.listdir(f"/proc/{pid}/fd")), usual[1]))
    with Control(t.room / "control", timeout=20) as control:
        control.stream.sendall(b"counts\n")
        authority.until(lambda: counted("accept") > before, "accept(2) to fail")
        resource.prlimit(pid, resource.RLIMIT_NOFILE, usual)
        t.same(control.file.readline(), b"good 0 revoked 0 expired 0\n", "the reply")


# Time


def is_idle(t, desk):
    """Checks that a desk takes less than a tenth of a processor's time while nothing happens."""
    ticks = lambda: sum(map(int, open(f"/proc/{desk.process.pid}/stat").read().rsplit(") ", 1)[1].split()[11:13]))
    time.sleep(0.3)
    before = ticks()
    time.sleep(2)
    t.true(ticks() - before < 20, f"the desk took {ticks() - before} clock ticks in two seconds")


def eight_control_connections(t, desk):
    for _ in range(8):
        t.same(t.control().ask("counts"), "good 0 revoked 0 expired 0")


def a_silent_client(t, desk):
    client = t.enter_context(desk.connect())
    client.sendall(COUNTS[:9])
    authority.until(lambda: program.is_read(client), "the desk to read it")


def half_a_line(t, desk):
    control = t.control()
    control.stream.sendall(b"coun")
    authority.until(lambda: program.is_read(control.stream), "the desk to read it")


def a_client_that_closed_its_side(t, desk):
    """The client waits for a signature."""
    signers = t.enter_context(Signers(t.room / "ca.sign", lambda message: t.ends.wait(60) and ANY_SIGNATURE))
    client, request = t.enter_context(desk.connect()), asks(1)
    client.sendall(b"POST /ocsp HTTP/1.1\r\nContent-Length: %d\r\n\r\n" % len(request))
    authority.until(lambda: program.is_read(client), "the desk to read the head")
    client.sendall(request)
    t.true(signers.until(1), "its signature is not requested")
    client.shutdown(socket.SHUT_WR)


def a_line_that_waits_for_its_signature(t, desk):
    """A line of another client waits behind it."""
    signers = t.enter_context(Signers(t.room / "ca.sign", lambda message: t.ends.wait(60) and ANY_SIGNATURE))
    first, behind = t.control(), t.control()
    first.stream.sendall(b"crl\n")
    t.true(signers.until(1), "its signature is not requested")
    behind.stream.sendall(b"counts\n")
    authority.until(lambda: program.is_read(behind.stream), "the desk to read the line behind it")


def a_signer_that_had_no_room(t, desk):
    connects = lambda: faults.counted(t.room / "count")["connect"]
    before = connects()
    with ThreadPoolExecutor(1) as pool, full_queue(t) as server:
        answer = pool.submit(desk.ask, "POST", "/ocsp", asks(1))
        authority.until(lambda: connects() > before + 1, "the desk to ask the signer again")
        signs(server)
        t.true(ANY_SIGNATURE in answer.result(), "the answer has no signature")


def without_a_descriptor(t, desk):
    """A client for which the desk has no descriptor, and a function that ends this lack."""
    pid, counted = desk.process.pid, lambda kind: faults.counted(t.room / "count")[kind]
    # The desk polls for the second time after its calls of accept(2) at the start.
    authority.until(lambda: counted("poll") >= 2, "the desk to wait for clients")
    before, usual = counted("accept"), resource.prlimit(pid, resource.RLIMIT_NOFILE)
    resource.prlimit(pid, resource.RLIMIT_NOFILE, (len(os.listdir(f"/proc/{pid}/fd")), usual[1]))
    client = t.enter_context(desk.connect())
    client.sendall(COUNTS)
    authority.until(lambda: counted("accept") >= before + 2, "accept(2) to fail")
    return client, lambda: resource.prlimit(pid, resource.RLIMIT_NOFILE, usual)


def descriptors_that_ran_out_for_a_time(t, desk):
    client, ends = without_a_descriptor(t, desk)
    ends()
    t.same(parted(read_all(client))[0], 200, "the answer, once there is a descriptor")


def a_client_that_waits_for_a_descriptor(t, desk):
    t.callback(without_a_descriptor(t, desk)[1])


# How often the desk may wake up in a second.
IDLE = {"nobody": (lambda t, desk: None, 1), "eight control connections": (eight_control_connections, 1), "a silent client": (a_silent_client, 8),
        "half a line": (half_a_line, 1),
        "a client that closed its side": (a_client_that_closed_its_side, 8),
        "a line that waits for its signature": (a_line_that_waits_for_its_signature, 8),
        "a signer that had no room": (a_signer_that_had_no_room, 1),
        "descriptors that ran out for a time": (descriptors_that_ran_out_for_a_time, 1),
        "a client that waits for a descriptor": (a_client_that_waits_for_a_descriptor, 8)}


@each(IDLE, seconds=3)
def a_desk_that_waits_seldom_wakes_up(t, begin, most):
    t.ends = threading.Event()
    t.callback(t.ends.set)
    t.register(key=P256_KEY)
    desk = t.open("ca.db", *SIGNING, faults=faults.environment(count=t.room / "count"))
    begin(t, desk)
    seldom_wakes_up(t, most)


def seldom_wakes_up(t, most):
    polls = lambda: faults.counted(t.room / "count")["poll"]
    found = []
    # On a slow machine the desk may still be busy in the first of these seconds.
    while len(found) < 4 and min(found, default=most + 1) > most:
        before = polls()
        time.sleep(1)
        found.append(polls() - before)
    t.true(min(found) <= most, f"polls in each second: {found}; at most {most} are right")


@test(seconds=2)
def desk_serve_seldom_wakes_up_while_it_waits_for_a_client(t):
    t.register()
    t.open("ca.db", "--requests", 1, command="serve", faults=faults.environment(count=t.room / "count"))
    seldom_wakes_up(t, 1)


@test(seconds=2)
def desk_serve_seldom_wakes_up_while_its_last_client_is_silent(t):
    t.register()
    desk = t.open("ca.db", "--requests", 1, command="serve", faults=faults.environment(count=t.room / "count"))
    a_silent_client(t, desk)
    seldom_wakes_up(t, 8)


@test(seconds=3)
def a_desk_polls_for_one_or_two_signatures_before_it_sleeps_and_not_for_more(t):
    """The signer hangs. Polls without waiting take processor time, at most a thousand of them for a signature."""
    polls = lambda: faults.counted(t.room / "count")["poll"]
    ends = threading.Event()
    t.callback(ends.set)
    t.register(key=P256_KEY)
    signers = t.enter_context(Signers(t.room / "ca.sign", lambda message: ends.wait(60) and ANY_SIGNATURE))
    desk = t.open("ca.db", *SIGNING, faults=faults.environment(count=t.room / "count"))
    with ThreadPoolExecutor(4) as pool:
        answers, counts = [], []
        for count in range(1, 5):
            before = polls()
            answers.append(pool.submit(desk.ask, "POST", "/ocsp", asks(1)))
            t.true(signers.until(count), f"signature {count} is not requested")
            # Time in which the desk could poll much more often.
            time.sleep(0.5)
            counts.append(polls() - before)
        ends.set()
        for answer in answers:
            t.true(ANY_SIGNATURE in answer.result(), "the answer has no signature")
    t.true(all(50 <= count <= 1_000 for count in counts[:2]), f"{counts[:2]} polls for the first two")
    t.true(all(count <= 30 for count in counts[2:]), f"{counts[2:]} polls for the next two")


@test(seconds=3)
def a_desk_seldom_wakes_up_once_a_signer_without_room_has_had_its_ten_seconds(t):
    t.register(key=P256_KEY)
    have_passed(t, 0)
    with ThreadPoolExecutor(1) as pool, full_queue(t):
        desk = t.open("ca.db", *SIGNING, faults=faults.environment(passed=t.room / "passed", count=t.room / "count"))
        answer = pool.submit(desk.ask, "POST", "/ocsp", asks(1))
        authority.until(lambda: faults.counted(t.room / "count")["connect"], "the desk to ask the signer")
        have_passed(t, 10_000)
        t.true(answer.result(20).endswith(authority.INTERNAL), "the answer is signed")
        seldom_wakes_up(t, 1)


# What a desk keeps of an exchange


def descriptors(desk):
    """How many descriptors it has open."""
    return len(os.listdir(f"/proc/{desk.process.pid}/fd"))


def kibibytes(desk):
    """Its data: what it has allocated, and what it has freed and will use again."""
    with open(f"/proc/{desk.process.pid}/status") as status:
        return int(re.search(r"VmData:\s*(\d+) kB", status.read())[1])


def many_lines(t, desk):
    lines = ("counts", "why", "status 05", "order 9 1", "no command", "ocsp 00", "last")
    with t.control() as control:
        control.stream.sendall("".join(f"{it}\n" for it in lines).encode() * 30)
        t.same([control.file.readline() != b"" for _ in range(210)], [True] * 210)


def many_requests(t, desk):
    for target in ("/counts", "/metrics", "/health", "/crl", "/ocsp/AA==", "/nowhere", "/status/05", "/list/orders", "/changes") * 5:
        t.true(desk.ask("GET", target).startswith(b"HTTP/1.1 "), f"no answer to GET {target}")


def many_signatures(t, desk):
    for at in range(25):
        t.true(ANY_SIGNATURE in desk.ask("POST", "/ocsp", asks(1)), f"answer {at} has no signature")


def many_crls(t, desk):
    with t.control() as control:
        t.true(all(control.ask("crl").startswith("crl ") for _ in range(15)), "a CRL is not issued")


def many_copies(t, desk):
    with Control(t.room / "control") as control:
        for _ in range(3):
            t.has(control.ask("copy copy.db"), "copied ")
            os.remove(t.room / "copy.db")


def many_lost_clients(t, desk):
    for _ in range(30):
        with desk.connect() as client:
            client.sendall(b"GET /co")
        with Control(t.room / "control") as control:
            control.stream.sendall(b"cou")


EXCHANGES = {
    "lines": many_lines, "requests": many_requests, "signatures": many_signatures, "CRLs": many_crls, "copies": many_copies, "lost clients": many_lost_clients,
}  # fmt: skip


@each(EXCHANGES, seconds=2)
def an_open_desk_keeps_no_memory_and_no_descriptor_of_an_exchange(t, exchange):
    t.register(key=P256_KEY)
    t.enter_context(Signers(t.room / "ca.sign"))
    desk = t.open("ca.db", *SIGNING, "--log-file", "ca.log")
    before = descriptors(desk)
    exchange(t, desk)
    first = kibibytes(desk)
    for _ in range(3):
        exchange(t, desk)
    # The memory allocator may take one more piece of 132 KiB.
    t.true(kibibytes(desk) - first < 256, f"its data grew from {first} to {kibibytes(desk)} KiB")
    authority.until(lambda: descriptors(desk) <= before, f"the desk to close all but {before} descriptors", seconds=10)


@test(seconds=2)
def a_script_keeps_no_memory_and_no_descriptor_of_a_line(t):
    t.register(key=P256_KEY)
    t.enter_context(Signers(t.room / "ca.sign"))
    with faults.Lines(t, "ca.db", SIGNING) as script:

        def runs_lines():
            for line in ("crl", *(f"ocsp {asks(1).hex()}", "counts", "order 9 1") * 20):
                t.true(script.ask(f"{DAY} {line}")[:2] in ("cr", "oc", "go", "E0"), line)
            return kibibytes(script), descriptors(script)

        first, before = runs_lines()
        for _ in range(4):
            last, now = runs_lines()
        t.same((last - first < 256, now), (True, before), f"its data grew from {first} to {last} KiB; its descriptors")


@test(seconds=5)
def an_idle_desk_uses_no_processor_time(t):
    t.register()
    desk = t.open()
    with desk.connect() as silent, t.control() as control:
        silent.sendall(b"GET /co")
        t.same(control.ask("counts"), "good 0 revoked 0 expired 0")
        is_idle(t, desk)


@test(seconds=8)
def a_desk_uses_no_processor_time_during_signatures_and_after_them(t):
    ends = threading.Event()
    t.callback(ends.set)
    t.register(key=P256_KEY)
    signers = t.enter_context(Signers(t.room / "ca.sign", lambda message: ends.wait(60) and ANY_SIGNATURE))
    desk = t.open("ca.db", *SIGNING)
    with ThreadPoolExecutor(2) as pool, t.control() as control:
        answer = pool.submit(desk.ask, "POST", "/ocsp", asks(1))
        line = pool.submit(control.ask, "crl")
        t.true(signers.until(2), "a signature is not requested")
        is_idle(t, desk)
        ends.set()
        t.true(ANY_SIGNATURE in answer.result(), "the answer has no signature")
        t.same(line.result(), "crl 1 entries 0", "the CRL")
        is_idle(t, desk)


@test
def a_lost_connection_is_logged_although_nothing_else_happens(t):
    t.register()
    desk = Passing(t)
    desk.comes(COUNTS[:9])
    desk.set_forward(30_000)
    authority.until(lambda: desk.lost, "the line of the log for the lost connection")
    t.same([why for _, why in desk.lost], ["late"], "why it was lost")


@test
def a_client_is_late_after_49_days_too(t):
    """The milliseconds of the monotonic clock then have more than 32 bits."""
    t.register()
    desk = Passing(t)
    desk.advance(2**32 - 10_000 - desk.millis)
    first = desk.comes(COUNTS[:9])
    desk.advance(30_000)
    desk.loses(first, why="late")


@test
def a_client_that_comes_after_a_pause_has_30_seconds(t):
    """The desk has waited for 30 seconds when the client connects."""
    t.register()
    desk = Passing(t)
    t.same(parted(desk.desk.send(COUNTS))[0], 200, "an answer before the pause")
    authority.until(lambda: desk.files == desk.before, "the end of all connections")
    desk.set_forward(30_000)
    client = desk.comes(COUNTS[:9])
    client.sendall(COUNTS[9:])
    t.same(parted(read_all(client))[0], 200, "its answer")


@test(seconds=2)
def a_late_request_that_is_whole_when_the_desk_looks_is_not_lost(t):
    """The client sends the rest of its request after 30 seconds, while the desk opens the folder of a copy. Then the desk reads the rest, and after
    that looks for connections whose time is up."""
    t.register()
    (t.room / "copies").mkdir()
    have_passed(t, 0)
    desk = t.open("ca.db", "--log", faults=faults.environment(passed=t.room / "passed", slow_open=t.room / "goes-on", only="copies"))
    with desk.connect() as client, ThreadPoolExecutor(1) as pool:
        client.sendall(COUNTS[:9])
        authority.until(lambda: program.is_read(client), "the desk to read the first bytes")
        copy = pool.submit(t.control().ask, "copy copies/copy.db")
        authority.until(lambda: (t.room / "goes-on.waits").exists(), "the desk to open the folder")
        have_passed(t, 30_000)
        client.sendall(COUNTS[9:])
        (t.room / "goes-on").touch()
        t.true(copy.result().startswith("copied "), "the open register is not copied")
        t.same(parted(read_all(client))[0], 200, "its answer")
    t.same(lost_by(desk), {"broken": 0, "late": 0, "crowded": 0, "memory": 0}, "the metrics")
    t.same([it for it in desk.end().err_lines if " lost " in it], [], "lost connections in the log")


@test(seconds=2)
def a_late_answer_that_is_sent_when_the_desk_looks_is_not_lost(t):
    """No byte of the answer can be sent at first. Before that, thirty seconds pass while the desk opens the folder of a copy. Then it sends the
    answer, and after that looks for connections whose time is up."""
    t.register()
    (t.room / "copies").mkdir()
    have_passed(t, 0)
    # The reply to the line is the first write.
    told = dict(only="copies,socket", fail="write:2=EAGAIN", count=t.room / "count")
    desk = t.open("ca.db", "--log", faults=faults.environment(passed=t.room / "passed", slow_open=t.room / "goes-on", **told))
    program.hold(desk.process)
    with desk.connect() as client, t.control() as lines:
        client.sendall(COUNTS)
        lines.stream.sendall(b"copy copies/copy.db\n")
        desk.process.send_signal(signal.SIGCONT)
        authority.until(lambda: (t.room / "goes-on.waits").exists(), "the desk to open the folder")
        have_passed(t, 30_000)
        (t.room / "goes-on").touch()
        t.true(lines.file.readline().startswith(b"copied "), "the open register is not copied")
        t.same(parted(read_all(client))[0], 200, "its answer")
    t.same(lost_by(desk), {"broken": 0, "late": 0, "crowded": 0, "memory": 0}, "the metrics")
    t.same(faults.counted(t.room / "count")["met"], 1, "injected faults")


@each({"an answer": "answer", "a line": "line"}, seconds=2)
def a_signature_that_came_while_the_desk_was_busy_for_ten_seconds_is_used(t, what):
    """The desk opens its log for as long. Then it finds the signature, and after that it looks whether the time is up."""
    ends, goes_on, waits = threading.Event(), t.room / "goes-on", t.room / "goes-on.waits"
    t.callback(ends.set)
    t.register(key=P256_KEY)
    signers = t.enter_context(Signers(t.room / "ca.sign", lambda message: ends.wait(60) and ANY_SIGNATURE))
    have_passed(t, 0)
    goes_on.touch()
    told = faults.environment(passed=t.room / "passed", slow_open=goes_on, only="desk.log")
    desk = t.open("ca.db", *SIGNING, "--log-file", "desk.log", faults=told)
    with ThreadPoolExecutor(2) as pool, t.control() as control:
        signed = pool.submit(desk.ask, "POST", "/ocsp", asks(1)) if what == "answer" else pool.submit(control.ask, "crl")
        t.true(signers.until(1), "the signature is not requested")
        goes_on.unlink()
        waits.unlink()
        pool.submit(desk.ask, "GET", "/counts")
        authority.until(waits.exists, "the desk to open its log")
        have_passed(t, 10_000)
        ends.set()
        authority.until(lambda: signers.clients[0].fileno() < 0, "the signer to answer")
        goes_on.touch()
        if what == "answer":
            t.true(ANY_SIGNATURE in signed.result(), "the answer has no signature")
        else:
            t.same(signed.result(), "crl 1 entries 0")


@test
def a_connection_ends_with_its_answer(t):
    """If nothing follows a request, the desk closes the connection right after the answer. The elapsed time does not change."""
    t.register()
    desk = Passing(t)
    with desk.desk.connect() as client:
        client.sendall(COUNTS)
        t.same(parted(read_all(client))[0], 200, "its answer")
        authority.until(lambda: desk.files == desk.before, "the desk to close the connection", seconds=10)


@test
def a_signed_answer_has_a_second_to_be_read_if_its_client_sends_on(t):
    """If the desk closed the connection with unread bytes, the client could lose its answer. Only the test advances the elapsed time."""
    t.register(key=P256_KEY)
    t.enter_context(Signers(t.room / "ca.sign"))
    desk, request = Passing(t, *SIGNING), asks(1)
    client = desk.comes(b"POST /ocsp HTTP/1.1\r\nContent-Length: %d\r\n\r\n" % len(request) + request + b"more")
    t.true(ANY_SIGNATURE in read_all(client), "the answer has no signature")
    authority.until(lambda: desk.files == desk.before + 1, "its connection to be the only one", seconds=10)
    desk.advance(1_000)
    authority.until(lambda: desk.files == desk.before, "the desk to close its connection", seconds=10)


@test(seconds=2)
def all_that_follows_a_request_is_read_before_its_connection_is_closed(t):
    """If the desk closed the connection with unread bytes, the client could lose its answer. Each read takes one byte. The elapsed time is fixed."""
    t.register()
    have_passed(t, 0)
    desk = t.open("ca.db", faults=faults.environment(passed=t.room / "passed", short=1, only="socket"))
    with desk.connect() as client:
        client.sendall(COUNTS + b"x" * 1_000)
        t.same(parted(read_all(client))[0], 200, "its answer")
        authority.until(lambda: program.is_read(client), "the desk to read all that followed", seconds=10)


@test(seconds=2)
def a_client_that_sends_more_during_a_long_answer_gets_all_of_it(t):
    t.register(lines=f"{DAY} crl\n{DAY} crl\n")
    t.sql("ca.db", "UPDATE crl SET der = zeroblob(12000000) WHERE number = 1")
    desk = t.open()
    with desk.connect() as client:
        client.sendall(b"GET /crl/1 HTTP/1.1\r\n\r\n")
        got = len(client.recv(1))
        client.sendall(COUNTS)
        got += len(client.recv(8_000_000, socket.MSG_WAITALL))
        # Time in which the desk sends the rest to the buffers of the sockets.
        time.sleep(0.3)
        got += len(read_all(client))
    t.true(got > 12_000_000, f"{got} bytes of more than 12,000,000")


@test
def desk_serve_accepts_nobody_after_its_last_request(t):
    """While the client of the last request still reads its answer, a silent client connects. The desk does not wait for this client."""
    t.register(lines=f"{DAY} crl\n{DAY} crl\n")
    t.sql("ca.db", "UPDATE crl SET der = zeroblob(12000000) WHERE number = 1")
    desk = t.open("ca.db", "--requests", 1, command="serve")
    with desk.connect() as last, socket.socket() as silent:
        last.sendall(b"GET /crl/1 HTTP/1.1\r\n\r\n")
        t.same(last.recv(1), b"H", "its answer has begun")
        silent.connect(("127.0.0.1", desk.port))
        silent.sendall(COUNTS[:9])
        # Time in which the desk could accept it.
        time.sleep(0.3)
        t.true(len(read_all(last)) > 12_000_000, "the last answer is cut off")
        with t.at_once("the end of the desk"):
            t.same(desk.wait().status, 0, "the status of `serve`")


@test
def a_client_that_did_not_take_an_answer_is_lost_at_the_end(t):
    """`desk serve` has answered its last request, but another client does not read its long answer."""
    t.register(lines=f"{DAY} crl\n{DAY} crl\n")
    t.sql("ca.db", "UPDATE crl SET der = zeroblob(12000000) WHERE number = 1")
    desk = Passing(t, "--requests", 2, command="serve")
    with desk.desk.connect() as slow:
        slow.sendall(b"GET /crl/1 HTTP/1.1\r\n\r\n")
        t.same(slow.recv(1), b"H", "its answer has begun")
        t.same(parted(desk.desk.send(COUNTS))[0], 200, "the last request")
        desk.set_forward(30_000)
        t.same(desk.desk.wait().status, 0, "the status of `serve`")
        t.same(desk.lost, [(str(slow.getsockname()[1]), "late")], "lost connections")


@test(seconds=3)
def a_client_that_sends_on_while_it_waits_holds_up_nobody(t):
    """The desk reads one byte at a time, and the client has always sent more."""
    ends = threading.Event()
    t.callback(ends.set)
    t.register(key=P256_KEY)
    signers = t.enter_context(Signers(t.room / "ca.sign", lambda message: ends.wait(60) and ANY_SIGNATURE))
    desk, request = t.open("ca.db", *SIGNING, faults=faults.environment(short=1, only="socket")), asks(1)
    client = t.enter_context(desk.connect())

    def sends():
        with contextlib.suppress(OSError):
            client.sendall(b"POST /ocsp HTTP/1.1\r\nContent-Length: %d\r\n\r\n" % len(request) + request)
            while not ends.is_set():
                client.sendall(bytes(65_536))

    with ThreadPoolExecutor(1) as pool:
        pool.submit(sends)
        try:
            t.true(signers.until(1), "its signature is not requested")
            with t.at_once("GET /counts"):
                t.same(parted(desk.send(COUNTS, timeout=20))[0], 200, "GET /counts")
        finally:
            ends.set()
            with contextlib.suppress(OSError):
                client.shutdown(socket.SHUT_RDWR)


@test(seconds=2)
def a_long_request_and_a_long_answer_take_few_system_calls(t):
    """Each call moves up to 64 KiB. Smaller pieces take processor time."""
    t.register(lines=f"{DAY} crl\n{DAY} crl\n")
    t.sql("ca.db", "UPDATE crl SET der = zeroblob(12000000) WHERE number = 1")
    t.clock(DAY)
    desk = t.open(faults=faults.environment(count=t.room / "count", only="socket"))
    t.same(parted(desk.ask("POST", "/ocsp", bytes(65_536)))[2], authority.MALFORMED, "the answer to the longest body")
    reads = faults.counted(t.room / "count")["read"]
    t.true(len(desk.ask("GET", "/crl/1")) > 12_000_000, "the long answer is cut off")
    writes = faults.counted(t.room / "count")["write"]
    t.true(reads < 30 and writes < 10_000, f"{reads} reads of a request of 64 KiB, and {writes} writes of an answer of 12 MB")


@test
def an_import_takes_few_reads(t):
    """Each one takes up to 4 KiB."""
    t.register()
    ran, count = faults.run(t, ["import", "ca.db", "--now", DAY], given=b"x" * 100_000 + b"\n", only="stdin")
    t.same(ran.out, b"E22 syntax\n")
    t.true(20 < count["read"] < 100, f"{count['read']} reads of 100 KB")


@test
def a_script_takes_few_reads_and_writes(t):
    """Each read takes as much as the buffer has room for, some 8 KiB. A reply takes one write."""
    ran, count = faults.run(t, ["script"], given=f"{DAY} counts\n" * 4_000, only="stdin,stdout")
    t.same((ran.status, len(ran.lines)), (0, 4_000), "status, and replies")
    t.true(10 < count["read"] < 100, f"{count['read']} reads of 112 KB")
    t.true(10 < count["write"] < 10_000, f"{count['write']} writes of 4,000 replies")


@test(seconds=2)
def a_long_request_and_a_long_answer_take_turns_with_others(t):
    """Each call moves one byte. The desk polls for other clients after some calls, though this client has always sent more, and has read all."""
    t.register(lines=f"{DAY} crl\n{DAY} crl\n")
    t.sql("ca.db", "UPDATE crl SET der = zeroblob(20000) WHERE number = 1")
    t.clock(DAY)
    desk = t.open(faults=faults.environment(count=t.room / "count", only="socket", short=1))
    for kind, most, asked in (("read", 40, ("POST", "/ocsp", bytes(20_000))), ("write", 8, ("GET", "/crl/1"))):
        before = faults.counted(t.room / "count")
        t.same(parted(desk.ask(*asked))[0], 200, f"status of {asked[1]}")
        after = faults.counted(t.room / "count")
        calls, polls = (after[it] - before[it] for it in (kind, "poll"))
        t.true(20_000 < calls < most * polls, f"{calls} calls of {kind}, and {polls} polls")


@test(seconds=3)
def a_client_whose_request_took_29_seconds_gets_its_signature(t):
    ends = threading.Event()
    t.callback(ends.set)
    t.register(key=P256_KEY)
    signers = t.enter_context(Signers(t.room / "ca.sign", lambda message: ends.wait(60) and ANY_SIGNATURE))
    desk, request = Passing(t, *SIGNING), asks(1)
    client = desk.comes(b"POST /ocsp HTTP/1.1\r\nHost: ca\r\nContent-Length: %d\r\n\r\n" % len(request))
    desk.advance(29_000)
    client.sendall(request)
    t.true(signers.until(1), "its signature is not requested")
    desk.advance(2_000)
    ends.set()
    response = read_all(client)
    t.same(parted(response)[0], 200, "its status")
    t.true(ANY_SIGNATURE in response, "the answer has no signature")


# Times in the log, in replies and on a terminal


# Each reading of the elapsed time is this many milliseconds later than the one before.
TICK = 7


@test
def the_log_has_the_time_between_two_readings(t):
    t.register()
    desk = t.open("ca.db", "--log", faults=faults.environment(tick=TICK))
    desk.send(COUNTS)
    with t.control() as control:
        control.ask("subscriber acme")
    found = dict(re.findall(r"^(desk_exchange_seconds_\w+|desk_http_response_seconds_sum\S+) ([\d.]+)$", desk.ask("GET", "/metrics").decode(), re.MULTILINE))
    t.same((float(found["desk_exchange_seconds_sum"]), found["desk_exchange_seconds_count"]), (2 * TICK / 1_000, "2"), "seconds in the metrics")
    t.same(float(found['desk_http_response_seconds_sum{route="/counts"}']), TICK / 1_000, "seconds of the route")
    t.same([it.rsplit(" ", 1)[1] for it in desk.end().err_lines[:2]], [f"{1_000 * TICK}"] * 2, "microseconds in the log")


@test
def a_copy_reports_the_time_between_two_readings(t):
    t.register()
    t.same(t.done("copy", "ca.db", "copy.db", faults=faults.environment(tick=TICK)).split(" in ")[1], f"{TICK} ms\n")


@each({"a job": "job", "a line": "line"}, seconds=2)
def a_copy_reports_the_time_that_passes_during_it(t, what):
    """A second and a half passes while the desk opens the folder of the copy."""
    t.register()
    (t.room / "copies").mkdir()
    have_passed(t, 0)
    told = faults.environment(passed=t.room / "passed", slow_open=t.room / "goes-on", only="copies")
    with ThreadPoolExecutor(1) as pool:
        if what == "job":
            reply = pool.submit(t.done, "copy", "ca.db", "copies/copy.db", faults=told)
        else:
            t.open(faults=told)
            reply = pool.submit(t.control().ask, "copy copies/copy.db")
        authority.until(lambda: (t.room / "goes-on.waits").exists(), "the desk to open the folder")
        have_passed(t, 1_500)
        (t.room / "goes-on").touch()
        t.same(reply.result().rstrip("\n").split(" in ")[1], "1500 ms")


@test(seconds=3)
def the_log_has_the_time_until_a_signature_came(t):
    ends = threading.Event()
    t.callback(ends.set)
    t.register(key=P256_KEY)
    signers = t.enter_context(Signers(t.room / "ca.sign", lambda message: ends.wait(60) and ANY_SIGNATURE))
    t.clock(DAY)
    desk = Passing(t, *SIGNING)
    with ThreadPoolExecutor(2) as pool, t.control() as control:
        waits = [pool.submit(desk.desk.ask, "POST", "/ocsp", asks(1)), pool.submit(control.ask, "crl")]
        t.true(signers.until(2), "a signature is not requested")
        desk.advance(1_500)
        t.clock("2026-01-01T00:00:02Z")
        ends.set()
        for it in waits:
            it.result()
    told = {it.split('"')[1]: it for it in desk.desk.end().err_lines}
    for asked in ("POST /ocsp HTTP/1.1", "crl"):
        t.same((told[asked].split()[0], told[asked].rsplit(" ", 1)[1]), (DAY, "1500000"), f"the moment at which {asked} came, and the microseconds until it was answered")


def on_a_terminal(t, *words, given=b"", replies=None, **told):
    """The lines that a run shows on standard error, which is a terminal, and on standard output if `replies` is `pty`."""
    ours, theirs = pty.openpty()
    with open(t.room / "replies", "wb") as file:
        it = subprocess.Popen(
            [program.program(), *words], cwd=t.room, stdin=subprocess.PIPE, stdout=theirs if replies is pty else file, stderr=theirs,
            env=program.environment(faults=faults.environment(**told)),
        )
    os.close(theirs)
    it.stdin.write(given)
    it.stdin.close()
    shown = b""
    # The terminal's other side is closed when the program ends.
    with contextlib.suppress(OSError):
        while piece := os.read(ours, 4096):
            shown += piece
    os.close(ours)
    it.wait(program.LONGEST)
    return shown.decode().splitlines()


@test
def a_terminal_shows_the_lines_and_how_many_a_second(t):
    t.register()
    given = f"{DAY} counts\n".encode() * 3
    t.same(on_a_terminal(t, "script", "ca.db", given=given, tick=1_000), [f"{at} lines done, 1 a second" for at in (1, 2, 3)])
    replies = ["good 0 revoked 0 expired 0"] * 3
    t.same(on_a_terminal(t, "script", "ca.db", given=given, replies=pty, tick=1_000), replies, "a terminal that is also standard output")
    t.same(t.desk("script", "ca.db", given=given, faults=faults.environment(tick=1_000)).err, b"", "standard error that is no terminal")
    (t.room / "passed").write_bytes(bytes(8))
    t.same(on_a_terminal(t, "script", "ca.db", given=given, passed=t.room / "passed"), [], "what the terminal shows in less than a second")


@test
def a_terminal_shows_how_many_lines_a_second_are_done(t):
    """A tenth of a second passes with each line. The lines that are done are shown once a second."""
    t.register()
    shown = on_a_terminal(t, "script", "ca.db", given=f"{DAY} counts\n".encode() * 40, tick=100)
    found = [tuple(map(int, re.fullmatch(r"(\d+) lines done, (\d+) a second", it).groups())) for it in shown]
    t.true(len(found) >= 3 and found[-1][0] > 20, f"lines that are done, and how many a second: {found}")
    t.same([rate for _, rate in found], [lines // seconds for seconds, (lines, _) in enumerate(found, 1)], f"how many a second; the terminal shows {shown}")


# The words of each job, and the lines or rows that it reads.
LONG_JOBS = {
    "script": (["script"], f"{DAY} counts\n"),
    "script --clock": (["script", "ca.db", "--clock"], "counts\n"),
    "import": (["import", "ca.db", "--now", DAY], "1,2\n"),
    "at --import": (["at", "control", "--import", "rows"], "1,2\n"),
    "at --import --orders": (["at", "control", "--import", "rows", "--orders", "1", "398"], "1,2\n"),
    "at --revoke": (["at", "control", "--revoke", "rows"], "1,2\n"),
    "replay": (["replay", "control", "rows"], f'{DAY} control "crl" "crl {{}} entries 0" 16 9\n'),
}


@each(LONG_JOBS)
def a_terminal_shows_the_lines_of_each_long_job(t, words, line):
    given = "".join(line.format(at) for at in (1, 2, 3))
    t.register()
    t.clock(DAY)
    if "control" in words:
        t.open()
    (t.room / "rows").write_text(given)
    shown = on_a_terminal(t, *words, given=b"" if "rows" in words else given.encode(), tick=1_000)
    t.same([it for it in shown if "lines done" in it], [f"{at} lines done, 1 a second" for at in (1, 2, 3)])


@test
def a_terminal_shows_the_rows_and_crls_of_an_audit(t):
    registers.make(t.room / "ca.db", registers.Records(50, 4), 3)
    t.done("script", "ca.db", given="9999-01-01T00:00:00Z counts\n")
    shown = on_a_terminal(t, "audit", "ca.db", tick=1_000)
    found = [re.fullmatch(r"(\d+) rows read, (\d+) CRLs compared", it) for it in shown]
    t.true(all(found), f"the terminal shows another line: {shown}")
    rows, crls = zip(*((int(it[1]), int(it[2])) for it in found))
    t.same((list(rows), list(crls)), (sorted(rows), sorted(crls)), "rows and CRLs, which never decrease")
    tables = ("office", "subscriber", "orders", "cert", "request", "revocation", "crl", "standing", "kept", "listed")
    t.same(rows[-1], sum(t.sql("ca.db", f"SELECT count(*) FROM {it}")[0][0] for it in tables), "rows of the last line, and of these tables")
    t.same(crls[-1], 4, "CRLs")
    few = len(on_a_terminal(t, "audit", "ca.db", tick=100))
    t.true(0 < few <= len(shown) // 10 + 1, f"{len(shown)} lines in so many seconds, but {few} in a tenth of these")
    t.same(t.desk("audit", "ca.db", faults=faults.environment(tick=1_000)).err, b"", "standard error that is no terminal")
    # The result is one line, so progress is shown also if that line goes to the terminal.
    both = on_a_terminal(t, "audit", "ca.db", replies=pty, tick=1_000)
    t.same((both[:-1], both[-1][:7]), (shown, "sound, "), "what a terminal shows that is also standard output")
    (t.room / "passed").write_bytes(bytes(8))
    t.same(on_a_terminal(t, "audit", "ca.db", passed=t.room / "passed"), [], "what the terminal shows in less than a second")


@test
def a_terminal_shows_no_crl_as_compared_that_is_broken(t):
    registers.make(t.room / "ca.db", registers.Records(50, 4), 3)
    t.sql("ca.db", "UPDATE crl SET der = x'00' WHERE number = 3")
    shown = on_a_terminal(t, "audit", "ca.db", tick=1_000)
    t.same((shown[-2].split(", ")[1], shown[-1]), ("2 CRLs compared", "broken"), f"the end of what the terminal shows: {shown}")


@each({"a script": (["script", "ca.db"], f"{DAY} counts\n"), "an audit": (["audit", "ca.db"], "")})
def a_terminal_shows_nothing_in_the_first_second(t, words, given):
    """The elapsed time of the machine before the job does not count."""
    t.register(lines=f"{DAY} subscriber acme\n{DAY} crl\n")
    have_passed(t, 5_000)
    t.same(on_a_terminal(t, *words, given=given.encode(), passed=t.room / "passed"), [])


@test
def a_terminal_shows_that_a_large_file_is_opened(t):
    for size, shown in ((67_108_864, ["opening large.db, 67 MB"]), (67_108_863, [])):
        (t.room / "large.db").write_bytes(b"")
        os.truncate(t.room / "large.db", size)
        t.same([it for it in on_a_terminal(t, "crl", "large.db") if it.startswith("opening")], shown, f"a file of {size} bytes")
    os.truncate(t.room / "large.db", 67_108_864)
    t.true(b"opening" not in t.desk("crl", "large.db").err, "it is shown although standard error is no terminal")
    opens = ("--port", free_port(), "--control", "control", "--unsigned")
    for words in (["script"], ["script", "--clock"], ["import", "--now", DAY], ["serve", *opens[:2], "--requests", 1], ["open", *opens], ["schedule", f"{DAY}=90"],
                  ["key-id", "0102"], ["list", "orders"], ["audit"]):
        shown = on_a_terminal(t, words[0], "large.db", *map(str, words[1:]))
        t.same([it for it in shown if it.startswith("opening")], ["opening large.db, 67 MB"], words[0])
    os.symlink("large.db", t.room / "link.db")
    shown = on_a_terminal(t, "crl", "link.db")
    t.same([it for it in shown if it.startswith("opening")], ["opening link.db, 67 MB"], "a symbolic link to it")


@test(seconds=3)
def the_log_measures_what_an_exchange_took(t):
    t.register()
    desk = t.open("ca.db", "--log")
    begun = time.monotonic()
    for _ in range(5):
        desk.send(COUNTS)
    with t.control() as control:
        control.ask("subscriber acme")
    took = 1_000_000 * (time.monotonic() - begun)
    micros = [int(it.rsplit(" ", 1)[1]) for it in desk.end().err_lines]
    t.same(len(micros), 6, "lines of the log")
    t.true(0 < max(micros) and sum(micros) <= took, f"microseconds in the log: {micros}, of {took:.0f} in all")


@test
def a_copy_reports_milliseconds(t):
    t.register()
    begun = time.monotonic()
    told = re.fullmatch(r"copied \d+ bytes in (\d+) ms\n", t.done("copy", "ca.db", "copy.db"))
    t.true(int(told[1]) <= 1_000 * (time.monotonic() - begun) + 1, f"{told[0]!r} is longer than the whole run")


@each({"an HTTP connection": False, "a control connection": True}, seconds=4)
def a_connection_without_memory_is_logged_as_that(t, is_control):
    t.register()
    usual = t.open("ca.db", "--log", faults=faults.environment(count=t.room / "usual"))
    first = faults.counted(t.room / "usual")["alloc"]
    usual.end()
    os.remove(t.room / "control")
    desk = t.open("ca.db", "--log", faults=faults.environment(fail=f"alloc:{first + 1}"))
    with t.control().stream if is_control else desk.connect() as client:
        client.sendall(b"counts\n" if is_control else COUNTS)
        t.same(read_all(client), b"", "the response")
    lost = lambda: [it.rsplit(" lost ", 1)[1] for it in desk.log if " lost " in it]
    authority.until(lost, "a line of the log for the lost connection")
    t.same(lost(), ["memory"], "why it was lost")
    t.same(lost_by(desk), {"broken": 0, "late": 0, "crowded": 0, "memory": 1}, "the metrics")


# At the control socket the next allocation is for the next client, which is lost, too.
@each({"an HTTP connection": (False, 1), "a control connection": (True, 2)}, seconds=2)
def a_connection_without_memory_is_counted_though_the_next_allocation_fails_too(t, is_control, lost):
    t.register()
    usual = t.open(faults=faults.environment(count=t.room / "usual"))
    first = faults.counted(t.room / "usual")["alloc"]
    usual.end()
    os.remove(t.room / "control")
    desk = t.open(faults=faults.environment(fail=f"alloc:{first + 1}-{first + 2}"))
    with t.control().stream if is_control else desk.connect() as client:
        client.sendall(b"counts\n" if is_control else COUNTS)
        t.same(read_all(client), b"", "the response")
    desk.ask("GET", "/counts")
    t.same(lost_by(desk), {"broken": 0, "late": 0, "crowded": 0, "memory": lost}, "the metrics")


# What is counted


def lost_by(desk):
    """How many connections were lost for each reason, by the metrics."""
    return {why: int(count) for why, count in re.findall(r'desk_connections_lost_total\{why="(\w+)"\} (\d+)', desk.ask("GET", "/metrics").decode())}


@test
def late_and_evicted_connections_are_counted(t):
    t.register()
    desk = Passing(t)
    for late in (1, 2, 3):
        desk.comes(COUNTS[:9])
        desk.advance(30_000)
        t.same(lost_by(desk.desk), {"broken": 0, "late": late, "crowded": 0, "memory": 0}, f"{late} that were late")
    # The desk has a descriptor for one connection only.
    t.tool("prlimit", "--pid", desk.desk.process.pid, f"--nofile={desk.before + 1}:{desk.before + 1}")
    for crowded in (1, 2):
        desk.comes(COUNTS[:9])
        wanted = {"broken": 0, "late": 3, "crowded": crowded, "memory": 0}
        authority.until(lambda: lost_by(desk.desk) == wanted, f"{crowded} evicted connections in the metrics", seconds=20)


@test(seconds=3)
def a_lost_control_connection_is_counted(t):
    """The client closes the connection with unread replies."""
    t.register()
    desk = t.open()
    with Control(t.room / "control") as control, contextlib.suppress(TimeoutError):
        control.stream.settimeout(1)
        while True:
            control.stream.sendall(b"counts\n")
    wanted = {"broken": 1, "late": 0, "crowded": 0, "memory": 0}
    authority.until(lambda: lost_by(desk) == wanted, "the lost connection in the metrics", seconds=20)


@test
def a_control_client_that_leaves_a_whole_reply_unread_is_not_lost(t):
    """It closes the connection with the reply in its buffer, so the desk's next read fails (ECONNRESET)."""
    t.register()
    desk = t.open()
    with t.control() as control:
        control.stream.sendall(b"counts\n")
        t.true(select.select([control.stream], [], [], 20)[0], "the reply does not come")
    authority.until(lambda: b'desk_connections{at="counter"} 0\n' in desk.ask("GET", "/metrics"), "the end of the connection", seconds=20)
    t.same(lost_by(desk), {"broken": 0, "late": 0, "crowded": 0, "memory": 0}, "lost connections")


@each({"an HTTP connection": False, "a control connection": True}, seconds=2)
def a_connection_that_the_kernel_does_not_poll_is_lost_as_broken(t, is_control):
    t.register()
    usual = t.open("ca.db", faults=faults.environment(count=t.room / "usual"))
    before = faults.counted(t.room / "usual")["watch"]
    usual.end()
    os.remove(t.room / "control")
    desk = t.open("ca.db", "--log", faults=faults.environment(count=t.room / "count", fail=f"watch:{before + 1}"))
    with t.control().stream if is_control else desk.connect() as client:
        t.same(read_all(client), b"", "what the client receives")
    lost = lambda: [it.rsplit(" lost ", 1)[1] for it in desk.log if " lost " in it]
    authority.until(lost, "a line of the log for the lost connection", seconds=20)
    t.same((lost(), lost_by(desk)), (["broken"], {"broken": 1, "late": 0, "crowded": 0, "memory": 0}), "why it was lost, in the log and in the metrics")
    t.same(faults.counted(t.room / "count")["met"], 1, "injected faults")


# Where the client connects, what it sends, what it must get, and how many connections are lost.
UNWATCHED = {
    "a client at the control socket": ("control", lambda: b"coun", lambda client: client.recv(100) == b"", 1),
    "a client of a long answer": ("port", lambda: b"GET /crl/1 HTTP/1.1\r\n\r\n", lambda client: 0 < len(read_all(client)) < 12_000_000, 1),
    "the signer of an answer": ("port", lambda: b"POST /ocsp HTTP/1.1\r\nContent-Length: %d\r\n\r\n" % len(asks(1)) + asks(1), lambda client: read_all(client).endswith(authority.INTERNAL), 0),
    "the signer of a CRL": ("control", lambda: b"crl\n", lambda client: client.recv(100) == b"F3 signer\n", 0),
}


@each(UNWATCHED, seconds=2)
def a_connection_that_the_kernel_does_not_poll_holds_up_nobody(t, place, sent, is_given_up, lost):
    """epoll_ctl(2) fails for the connection. The desk gives it up at once: in this test no time passes for it."""
    t.register(key=P256_KEY, lines=f"{DAY} crl\n{DAY} crl\n")
    t.sql("ca.db", "UPDATE crl SET der = zeroblob(12000000) WHERE number = 1")
    t.clock(DAY)
    t.enter_context(Signers(t.room / "ca.sign"))
    usual = t.open("ca.db", *SIGNING, faults=faults.environment(count=t.room / "usual"))
    before = faults.counted(t.room / "usual")["watch"]
    usual.end()
    os.remove(t.room / "control")
    have_passed(t, 0)
    desk = t.open("ca.db", *SIGNING, faults=faults.environment(count=t.room / "count", passed=t.room / "passed", fail=f"watch:{before + 1}"))
    # All that the client sends is there when the desk accepts its connection.
    program.hold(desk.process)
    client = desk.connect() if place == "port" else t.control().stream
    client.settimeout(20)
    with client:
        client.sendall(sent())
        desk.process.send_signal(signal.SIGCONT)
        with t.at_once("the end of its wait"):
            t.true(is_given_up(client), "the client gets something else")
    t.same(faults.counted(t.room / "count")["met"], 1, "injected faults")
    t.same((lost_by(desk), t.control().ask("counts")), ({"broken": lost, "late": 0, "crowded": 0, "memory": 0}, "good 0 revoked 0 expired 0"), "lost connections, and another line")


@each({"alone": False, "beside a younger one": True})
def a_client_whose_answer_makes_room_is_not_lost(t, is_beside):
    """The desk has a descriptor for each only. The request on the oldest is complete when another client connects, so no other makes room."""
    t.register()
    desk = Passing(t)
    many = 1 + is_beside
    t.tool("prlimit", "--pid", desk.desk.process.pid, f"--nofile={desk.before + many}:{desk.before + many}")
    with contextlib.ExitStack() as open_ones:
        first, *beside = [open_ones.enter_context(desk.desk.connect()) for _ in range(many)]
        for it in (first, *beside):
            it.sendall(COUNTS[:9])
            authority.until(lambda: program.is_read(it), "the desk to read it")
        program.hold(desk.desk.process)
        first.sendall(COUNTS[9:])
        last = open_ones.enter_context(desk.desk.connect())
        last.sendall(COUNTS)
        desk.desk.process.send_signal(signal.SIGCONT)
        t.same([parted(read_all(it))[0] for it in (first, last)], [200, 200], "the oldest one, and the new one")
        for it in beside:
            it.sendall(COUNTS[9:])
            t.same(parted(read_all(it))[0], 200, "the younger one")
    desk.loses()


# Requests for a long answer, and for one that nobody signs.
LONG_ANSWER = b"GET /crl/1 HTTP/1.1\r\n\r\n"
UNSIGNED_ANSWER = b"POST /ocsp HTTP/1.1\r\nContent-Length: %d\r\n\r\n" % len(asks(1)) + asks(1)
# The bytes of a CRL, how many answers with it fit, how many requests follow, and which.
UNTAKEN = {"another of a megabyte": (1_000_000, 67, 1, LONG_ANSWER), "answers that no signer signed": (8_388_000, 8, 60, UNSIGNED_ANSWER)}


@each(UNTAKEN, seconds=4)
def answers_that_nobody_takes_have_64_mib_together(t, size, fit, more, request):
    """The sockets take no byte, and no time passes. The first answers fit, and what follows does not, so the oldest connection is closed."""
    t.register(key=P256_KEY, lines=f"{DAY} crl\n{DAY} crl\n")
    t.sql("ca.db", f"UPDATE crl SET der = zeroblob({size}) WHERE number = 1")
    have_passed(t, 0)
    desk = t.open("ca.db", "--log", *SIGNING, faults=faults.environment(passed=t.room / "passed", fail="write:1+=EAGAIN", only="socket"))
    logged, clients = lambda word: [it for it in desk.log if word in it], []
    for count in range(1, fit + 1):
        clients.append(t.enter_context(desk.connect()))
        clients[-1].sendall(LONG_ANSWER)
        authority.until(lambda: len(logged('"GET /crl/1')) == count, f"answer {count}", seconds=20)
    t.same(logged(" lost "), [], f"lost connections after {fit} answers")
    for _ in range(more):
        t.enter_context(desk.connect()).sendall(request)
    authority.until(lambda: logged(" lost "), "a lost connection", seconds=10)
    t.same([it.split(":")[-1] for it in logged(" lost ")], [f"{clients[0].getsockname()[1]} lost crowded"], "lost connections after all answers")


@test
def closed_connections_are_counted_no_more(t):
    t.register()
    desk = t.open()
    found = lambda: dict(re.findall(r'desk_connections\{at="(\w+)"\} (\d+)', desk.ask("GET", "/metrics").decode()))
    with contextlib.ExitStack() as clients:
        for _ in range(3):
            clients.enter_context(Control(t.room / "control")).ask("counts")
            silent = clients.enter_context(desk.connect())
            silent.sendall(COUNTS[:9])
            authority.until(lambda: program.is_read(silent), "the desk to read it")
        t.same(found(), {"port": "4", "counter": "3"}, "open connections, including that of /metrics")
    authority.until(lambda: found() == {"port": "1", "counter": "0"}, "the desk to close them")


# Long requests


@test
def a_long_ocsp_request_by_get_is_answered_as_by_post(t):
    t.register(key=P256_KEY)
    t.clock(DAY)
    t.enter_context(Signers(t.room / "ca.sign"))
    # The head of a request has 8,192 bytes at most.
    desk, request = t.open("ca.db", "--log", *SIGNING), asks(85)
    text = base64.b64encode(request).decode().replace("+", "%2B").replace("/", "%2F").replace("=", "%3D")
    t.true(len(text) > 7_000, f"the request has {len(text)} characters")
    t.same(parted(desk.ask("GET", f"/ocsp/{text}"))[2], parted(desk.ask("POST", "/ocsp", request))[2], "the answer by GET")
    status, _, body = parted(desk.ask("GET", "/list/certificates?" + "x" * 1_000))
    t.same((status, body), (400, b'{"error":"E22 syntax"}'), "a query of a thousand characters")
    t.same(desk.end().err_lines[0].split('"')[1], f"GET /ocsp/{text}"[:256], "the request line in the log")


# Signers


@test(seconds=14)
def a_signer_that_reads_nothing_is_given_up_after_ten_seconds(t):
    """The CRL is longer than a socket's buffers."""
    registers.make_revoked(t.room / "ca.db", 6_000, P256_KEY)
    with socket.socket(socket.AF_UNIX) as silent:
        silent.bind(str(t.room / "ca.sign"))
        silent.listen(8)
        begun = time.monotonic()
        with ThreadPoolExecutor(1) as pool:
            waits = pool.submit(t.desk, "script", "ca.db", *SIGNING, given="2026-01-02T00:00:00Z crl\n")
            # Once the desk connects, the register is open and the CRL is made.
            select.select([silent], [], [], program.LONGEST)
            connected = time.monotonic()
            ran = waits.result()
        t.same((ran.status, ran.lines), (0, ["F3 signer"]), "the CRL")
        seconds = time.monotonic() - begun, time.monotonic() - connected
        t.true(seconds[0] >= TEN_SECONDS[0] and seconds[1] < TEN_SECONDS[1], f"it took {seconds[1]:.1f} s in place of ten")


@test(seconds=2)
def a_script_sends_a_long_message_in_pieces_of_32_kib(t):
    """In a longer write, the kernel may apply the timeout to each part anew. Then a script could wait for hours for a signer that reads slowly."""
    registers.make_revoked(t.room / "ca.db", 1_500, P256_KEY)
    signer = t.signer()
    ran, count = faults.run(t, ["script", "ca.db", *SIGNING], "2026-01-02T00:00:00Z crl\n", only="socket")
    t.same((ran.status, ran.lines, len(signer.asked)), (0, ["crl 1 entries 1500"], 1), "status, reply, and messages to the signer")
    (message,) = signer.asked
    t.true(len(message) > 2 * 32_768, f"the message has only {len(message)} bytes")
    t.true(count["write"] * 32_768 >= len(message), f"{len(message)} bytes in {count['write']} writes")


@test(seconds=3)
def a_script_has_a_crl_of_more_than_a_mebibyte_signed(t):
    count = 20_000
    registers.make_revoked(t.room / "ca.db", count, P256_KEY, every=1)
    signer = t.signer()
    ran = t.desk("script", "ca.db", *SIGNING, given="2026-01-02T00:00:00Z crl\n")
    t.same((ran.status, ran.lines, len(signer.asked)), (0, [f"crl 1 entries {count}"], 1), "status, reply, and messages to the signer")
    t.true(len(signer.asked[0]) > 1_048_576, f"the message has only {len(signer.asked[0])} bytes")


@test(seconds=4)
def a_script_waits_for_a_signer_whose_queue_is_full(t):
    t.register(key=P256_KEY)
    with socket.socket(socket.AF_UNIX) as server, contextlib.ExitStack() as clients:
        server.bind(str(t.room / "ca.sign"))
        server.listen(0)
        filled = clients.enter_context(socket.socket(socket.AF_UNIX))
        filled.connect(str(t.room / "ca.sign"))

        def signs():
            time.sleep(2)
            filled.close()
            for _ in range(8):
                client, _ = server.accept()
                with client, contextlib.suppress(OSError):
                    if read_all(client):
                        client.sendall(ANY_SIGNATURE)
                        return

        signer = threading.Thread(target=signs, daemon=True)
        signer.start()
        begun = time.monotonic()
        ran = t.desk("script", "ca.db", *SIGNING, given=f"{DAY} crl\n", faults=faults.environment(count=t.room / "count"))
        t.same((ran.status, ran.lines, ran.err), (0, ["crl 1 entries 0"], b""), "the CRL")
        attempts = faults.counted(t.room / "count")["connect"]
        t.true(attempts <= 100 * (time.monotonic() - begun) + 1, f"{attempts} attempts, some of them less than ten milliseconds apart")
        # In the two seconds without room there are some two hundred, or fewer on a busy machine.
        t.true(attempts > 5, f"only {attempts} attempts, so the script waits longer than it says")


@contextlib.contextmanager
def full_queue(t, path="ca.sign"):
    """A socket, of a signer for example, whose queue is full until a connection is accepted (`signs`)."""
    with socket.socket(socket.AF_UNIX) as server, socket.socket(socket.AF_UNIX) as filled:
        server.bind(str(t.room / path))
        server.listen(0)
        filled.connect(str(t.room / path))
        yield server


def signs(server):
    """Makes room in the queue by one accept(2), and answers the next client with a signature."""
    server.accept()[0].close()
    client, _ = server.accept()
    with client:
        read_all(client)
        client.sendall(ANY_SIGNATURE)


def have_passed(t, millis):
    """Sets the elapsed time of a program that reads it in the file `passed`."""
    # The program has mapped the file, so it must never be empty.
    with open(t.room / "passed", "r+b" if (t.room / "passed").exists() else "wb") as it:
        it.write(millis.to_bytes(8, "little"))


@test(seconds=2)
def a_script_waits_for_a_signer_through_thousands_of_attempts(t):
    """The desk does not sleep between the attempts, and the elapsed time does not change."""
    t.register(key=P256_KEY)
    have_passed(t, 0)
    tried = lambda: (t.room / "count").exists() and faults.counted(t.room / "count")["connect"]
    with ThreadPoolExecutor(1) as pool, full_queue(t) as server:
        told = faults.environment(passed=t.room / "passed", awake=1, count=t.room / "count")
        ran = pool.submit(t.desk, "script", "ca.db", *SIGNING, given=f"{DAY} crl\n", faults=told)
        authority.until(lambda: tried() > 2_000 or ran.done(), "2,000 attempts", seconds=20)
        t.true(not ran.done(), "the script has ended")
        signs(server)
        t.same((ran.result().status, ran.result().lines), (0, ["crl 1 entries 0"]), "the CRL")


@test(seconds=2)
def the_time_in_a_signer_s_queue_counts(t):
    """A script has ten seconds in all, of which half a second is left once the signer has room."""
    t.register(key=P256_KEY)
    have_passed(t, 0)
    tried = lambda: (t.room / "count").exists() and faults.counted(t.room / "count")["connect"]
    with ThreadPoolExecutor(1) as pool, full_queue(t) as server:
        told = faults.environment(passed=t.room / "passed", count=t.room / "count")
        ran = pool.submit(t.desk, "script", "ca.db", *SIGNING, given=f"{DAY} crl\n", faults=told)
        authority.until(lambda: tried() > 2, "attempts", seconds=20)
        have_passed(t, 9_500)
        server.accept()[0].close()
        with server.accept()[0], t.at_once("the end of its ten seconds"):
            t.same((ran.result().status, ran.result().lines), (0, ["F3 signer"]), "the CRL")


@test(seconds=2)
def a_signer_that_reads_slowly_has_ten_seconds_for_a_whole_message(t):
    """The signer reads a part of a CRL that is longer than a socket's buffers, and another part in the tenth second. It gets no more time."""
    registers.make_revoked(t.room / "ca.db", 20_000, P256_KEY)
    have_passed(t, 0)
    with ThreadPoolExecutor(1) as pool, socket.socket(socket.AF_UNIX) as slow:
        slow.bind(str(t.room / "ca.sign"))
        slow.listen(8)
        ran = pool.submit(t.desk, "script", "ca.db", *SIGNING, given="2026-01-02T00:00:00Z crl\n", faults=faults.environment(passed=t.room / "passed"))
        client, _ = slow.accept()
        with client:
            client.recv(65_536)
            # Time in which the desk fills the buffers.
            time.sleep(0.5)
            have_passed(t, 9_500)
            for _ in range(4):
                client.recv(65_536)
            with t.at_once("the end of its ten seconds"):
                t.same((ran.result().status, ran.result().lines), (0, ["F3 signer"]), "the CRL")


@test
def a_script_does_not_ask_a_signer_again_for_ten_seconds(t):
    """The signer exceeds its ten seconds: it sends one byte when they have passed, and nothing more."""
    t.register(key=P256_KEY)
    have_passed(t, 0)
    line, unsigned = f"{DAY} ocsp {asks(1).hex()}", "ocsp 30030a0102"
    with ThreadPoolExecutor(1) as pool, socket.socket(socket.AF_UNIX) as server, faults.Lines(t, "ca.db", SIGNING, passed=t.room / "passed") as desk:
        server.bind(str(t.room / "ca.sign"))
        server.listen(8)
        late = pool.submit(desk.ask, line)
        client, _ = server.accept()
        with client:
            read_all(client)
            have_passed(t, 10_000)
            client.sendall(b"0")
            t.same(late.result(), unsigned, "the line that waited")
        have_passed(t, 19_999)
        t.same((desk.ask(line), select.select([server], [], [], 0)[0]), (unsigned, []), "a later line, and whether the signer was asked")
        have_passed(t, 20_000)
        signed = pool.submit(desk.ask, line)
        client, _ = server.accept()
        with client:
            read_all(client)
            client.sendall(ANY_SIGNATURE)
        t.true(signed.result() != unsigned, "a line ten seconds after the timeout is not signed")


@test
def a_script_asks_a_signer_for_a_crl_during_its_back_off(t):
    """The signer exceeds its ten seconds for an `ocsp` line. The script asks it for a CRL even so, and then again for `ocsp` lines."""
    t.register(key=P256_KEY)
    have_passed(t, 0)
    line, unsigned = f"{DAY} ocsp {asks(1).hex()}", "ocsp 30030a0102"
    with ThreadPoolExecutor(1) as pool, socket.socket(socket.AF_UNIX) as server, faults.Lines(t, "ca.db", SIGNING, passed=t.room / "passed") as desk:
        server.bind(str(t.room / "ca.sign"))
        server.listen(8)
        server.settimeout(20)
        late = pool.submit(desk.ask, line)
        client, _ = server.accept()
        with client:
            read_all(client)
            have_passed(t, 10_000)
            client.sendall(b"0")
            t.same(late.result(), unsigned, "the line that waited")
        t.same(desk.ask(line), unsigned, "a line behind it, for which the signer is not asked")
        for asked in (f"{DAY} crl", line):
            signed = pool.submit(desk.ask, asked)
            authority.until(lambda: signed.done() or select.select([server], [], [], 0)[0], "a request to the signer")
            t.same(signed.done(), False, f"whether `{asked[:30]}` is answered before the signer is asked")
            client, _ = server.accept()
            with client:
                read_all(client)
                client.sendall(ANY_SIGNATURE)
            t.true(signed.result() not in (unsigned, "F3 signer"), f"`{asked[:30]}` is not signed: {signed.result()}")


@test(seconds=2)
def a_crl_at_the_control_socket_waits_for_a_signer_whose_queue_is_full(t):
    t.register(key=P256_KEY)
    with ThreadPoolExecutor(1) as pool, full_queue(t) as server:
        desk = t.open("ca.db", *SIGNING)
        with t.control() as control:
            crl = pool.submit(control.ask, "crl")
            # Time in which the desk could give up.
            time.sleep(0.5)
            t.same((crl.done(), parted(desk.send(COUNTS))[0]), (False, 200), "whether it is answered, and GET /counts meanwhile")
            signs(server)
            t.same(crl.result(), "crl 1 entries 0")


WAITS = {"an answer": lambda t, desk: desk.ask("POST", "/ocsp", asks(1)).rpartition(b"\r\n\r\n")[2], "a line": lambda t, desk: t.control().ask("crl")}


@each({what: (waits, fault) for (what, waits), fault in zip(WAITS.items(), (authority.INTERNAL, "F3 signer"))})
def a_signer_whose_queue_stays_full_has_ten_seconds(t, waits, fault):
    t.register(key=P256_KEY)
    have_passed(t, 0)
    connects = lambda: faults.counted(t.room / "count")["connect"]
    with ThreadPoolExecutor(1) as pool, full_queue(t):
        desk = t.open("ca.db", *SIGNING, faults=faults.environment(passed=t.room / "passed", count=t.room / "count"))
        reply = pool.submit(waits, t, desk)
        authority.until(connects, "the desk to ask the signer")
        for millis in (9_999, 10_000):
            t.same(reply.done(), False, f"whether it has ended before {millis} ms")
            have_passed(t, millis)
            # After two answers, the event loop has made a whole iteration since the time was set.
            t.same([parted(desk.send(COUNTS))[0] for _ in range(2)], [200, 200])
        t.same(reply.result(20), fault)


@test
def a_line_has_ten_seconds_although_its_signer_has_no_room_at_first(t):
    """After six seconds there is room in the queue. The signer then reads the message and does not answer it."""
    t.register(key=P256_KEY)
    have_passed(t, 0)
    connects = lambda: faults.counted(t.room / "count")["connect"]
    with ThreadPoolExecutor(1) as pool, full_queue(t) as server:
        t.open("ca.db", *SIGNING, faults=faults.environment(passed=t.room / "passed", count=t.room / "count"))
        reply = pool.submit(t.control().ask, "crl")
        authority.until(connects, "the desk to ask the signer")
        have_passed(t, 6_000)
        server.accept()[0].close()
        client, _ = server.accept()
        with client:
            t.true(read_all(client), "the message is empty")
            have_passed(t, 10_000)
            # The desk looks four times a second whether the ten seconds are over.
            authority.until(reply.done, "the reply after ten seconds", seconds=5)
        t.same(reply.result(), "F3 signer")


@test
def a_signer_that_is_gone_after_nine_seconds_is_asked_for_the_next_line(t):
    """The queue of the signer's socket is full, and after nine seconds nobody listens there. Only ten seconds begin a back-off."""
    t.register(key=P256_KEY)
    have_passed(t, 0)
    line, connects = f"ocsp {asks(1).hex()}", lambda: faults.counted(t.room / "count")["connect"]
    with ThreadPoolExecutor(1) as pool:
        with full_queue(t):
            desk = t.open("ca.db", *SIGNING, faults=faults.environment(passed=t.room / "passed", count=t.room / "count"))
            control = t.control()
            reply = pool.submit(control.ask, line)
            authority.until(connects, "the desk to ask the signer")
            have_passed(t, 9_000)
            # After two answers, the event loop has made a whole iteration since the time was set.
            t.same([parted(desk.send(COUNTS))[0] for _ in range(2)], [200, 200])
        t.same(reply.result(), "ocsp 30030a0102", "internalError, since the signer is gone")
    os.remove(t.room / "ca.sign")
    t.enter_context(Signers(t.room / "ca.sign"))
    t.true(ANY_SIGNATURE.hex() in control.ask(line), "the next line is not signed")


@each(WAITS, seconds=2)
def a_signer_whose_queue_is_full_is_soon_asked_again(t, waits):
    """The desk asks it up to a hundred times a second, although nothing else happens, and sleeps between two attempts."""
    t.register(key=P256_KEY)
    counts = lambda: [faults.counted(t.room / "count")[it] for it in ("connect", "poll")]
    with ThreadPoolExecutor(1) as pool, full_queue(t):
        desk = t.open("ca.db", *SIGNING, faults=faults.environment(count=t.room / "count"))
        pool.submit(waits, t, desk)
        authority.until(lambda: counts()[0], "the desk to ask the signer")
        found, begun, before = [], time.monotonic(), counts()
        # A slow machine may take eight of the ten seconds that the signer has.
        while len(found) < 8 and max(found, default=0) < 20:
            first = counts()[0]
            time.sleep(1)
            found.append(counts()[0] - first)
        attempts, polls = (now - then for now, then in zip(counts(), before))
        most = 110 * (time.monotonic() - begun) + 10
    t.true(max(found) >= 20, f"attempts in each second: {found}")
    t.true(attempts <= most and polls <= 2 * most, f"{attempts} attempts and {polls} polls, of which {most:.0f} attempts are right")


@test
def a_signer_that_has_no_room_is_asked_again_after_ten_milliseconds(t):
    t.register(key=P256_KEY)
    have_passed(t, 0)
    with full_queue(t):
        desk = t.open("ca.db", *SIGNING, faults=faults.environment(passed=t.room / "passed", count=t.room / "count"))
        client, request = t.enter_context(desk.connect()), asks(1)
        client.sendall(b"POST /ocsp HTTP/1.1\r\nContent-Length: %d\r\n\r\n" % len(request) + request)
        authority.until(lambda: program.is_read(client), "the desk to read the request")
        asked = []
        for millis in (0, 0, 9, 9, 10):
            have_passed(t, millis)
            # After two answers, the event loop has made a whole iteration since the time was set.
            t.same([parted(desk.send(COUNTS))[0] for _ in range(2)], [200, 200])
            asked.append(faults.counted(t.room / "count")["connect"])
        t.same([it - asked[0] for it in asked], [0, 0, 0, 0, 1], "further attempts")


@test
def an_answer_that_does_not_fit_into_the_signer_s_socket_is_internal_error(t):
    """The desk does not ask again. Otherwise each other answer would wait behind one that never fits."""
    t.register(key=P256_KEY)
    signers = t.enter_context(Signers(t.room / "ca.sign"))
    desk = t.open("ca.db", *SIGNING, faults=faults.environment(count=t.room / "count", fail="write:1=EAGAIN", only="socket"))
    t.same(parted(desk.ask("POST", "/ocsp", asks(1)))[2], authority.INTERNAL, "the answer whose message the socket does not take")
    t.true(ANY_SIGNATURE in desk.ask("POST", "/ocsp", asks(1)), "the next answer has no signature")
    t.same((faults.counted(t.room / "count")["met"], len(signers.clients)), (1, 2), "injected faults, and connections to the signer for both answers")


@each({"an answer": "answer", "a line": "line"}, seconds=2)
def a_signature_that_comes_in_pieces(t, what):
    t.register(key=P256_KEY)

    def sign(client, it):
        read_all(client)
        for octet in ANY_SIGNATURE:
            client.sendall(bytes([octet]))
            time.sleep(0.05)

    t.enter_context(authority.ScriptedSigner(t.room / "ca.sign", sign))
    desk = t.open("ca.db", *SIGNING)
    if what == "answer":
        t.true(ANY_SIGNATURE in desk.ask("POST", "/ocsp", asks(1)), "the answer has no signature")
    else:
        t.same(t.control().ask("crl"), "crl 1 entries 0")


# Files


@test
def a_copy_is_reported_once_its_folder_is_synced(t):
    t.register()
    (t.room / "copies").mkdir()
    ran, count = faults.run(t, ["copy", "ca.db", "copies/copy.db"], only="copies")
    t.same(ran.status, 0, ran.err)
    t.true(count["sync"] >= 1, "the folder was not synced")
    desk = t.open(faults=faults.environment(count=t.room / "open", only="copies"))
    with t.control() as control:
        t.true(control.ask("copy copies/second.db").startswith("copied "), "the open register is not copied")
    t.true(faults.counted(t.room / "open")["sync"] >= 1, "the folder was not synced before the reply")
    desk.end()


@test
def a_copy_has_one_name_before_its_folder_is_synced(t):
    """If the machine stopped while the copy had two names, the desk would never open the copy."""
    t.register()
    (t.room / "copies").mkdir()
    with ThreadPoolExecutor(1) as pool:
        ran = pool.submit(t.desk, "copy", "ca.db", "copies/copy.db", faults=faults.environment(slow_open=t.room / "goes-on", only="copies"))
        authority.until(lambda: (t.room / "goes-on.waits").exists(), "the desk to open the folder")
        names = sorted(it.name for it in (t.room / "copies").iterdir())
        (t.room / "goes-on").touch()
        t.same((names, ran.result().status), (["copy.db"], 0), "its names, and the status")


@each({"a list": ["list", "ca.db", "certificates", "--now", "2026-01-04T00:00:00Z"], "a CRL": ["crl", "ca.db", "--number", "1"]}, seconds=2)
def a_register_is_closed_before_its_text_is_printed(t, words):
    """The text is longer than a pipe takes, and its reader waits. Meanwhile another program opens the register."""
    registers.make(t.room / "ca.db", registers.Records(1_000, 2), 3)
    t.sql("ca.db", "UPDATE crl SET der = zeroblob(1000000) WHERE number = 1")
    it = subprocess.Popen([program.program(), *words], cwd=t.room, stdout=subprocess.PIPE, env=program.environment())
    t.callback(it.kill)
    with it.stdout:
        first = it.stdout.read(1)
        other = t.desk("script", "ca.db", given="2026-01-04T00:00:00Z status 05\n")
        t.same((other.status, other.out, other.err), (0, b"unknown\n", b""), "the other program")
        t.true(len(first + it.stdout.read()) > 80_000, "the text is cut off")
    t.same(it.wait(program.LONGEST), 0, words[0])


@each({"an audit": ["audit", "ca.db"], "a copy": ["copy", "ca.db", "copy.db"]})
def a_register_is_locked_before_its_log_is_opened(t, words):
    """Otherwise another program could meanwhile copy the log into the file, and begin a new log."""
    is_in_use_while_it_opens(t, "ca.db-wal", words)


@test
def a_register_is_locked_until_its_copy_is_made(t):
    """Otherwise another program could change the file while its pages are copied."""
    is_in_use_while_it_opens(t, "copy.db.part", ["copy", "ca.db", "copy.db"])


def is_in_use_while_it_opens(t, name, words):
    """Another program can't open the register while a desk, run with these words, opens the file with this name."""
    t.register()
    with ThreadPoolExecutor(1) as pool:
        ran = pool.submit(t.desk, *words, faults=faults.environment(slow_open=t.room / "goes-on", only=name))
        authority.until(lambda: (t.room / "goes-on.waits").exists(), f"the desk to open {name}")
        other = t.desk("script", "ca.db", "--why", given=f"{DAY} subscriber acme\n")
        (t.room / "goes-on").touch()
        t.same((other.status, other.out, other.err), (1, b"", b"F2 store\n  in use by another program (FILE)\n"), "the other program")
        t.same(ran.result().status, 0, words[0])


@each({"an empty one": b"", "one that begins with a zero": bytes(512)})
def a_journal_that_has_nothing_to_play_back_is_passed_over(t, octets):
    """SQLite ignores such a journal too (its file format, 3)."""
    t.register()
    (t.room / "ca.db-journal").write_bytes(octets)
    t.same(t.done("audit", "ca.db"), "sound, 0 certificates, 0 revoked, 0 CRLs\n")
    t.same(t.done("copy", "ca.db", "copy.db").split()[0], "copied")
    t.same(t.done("script", "ca.db", given=f"{DAY} subscriber acme\n"), "subscriber 1\n")


@each({"its file": "ca.db", "its log": "ca.db-wal"})
def a_register_with_a_second_name_is_not_opened(t, path):
    t.register()
    desk = t.open()
    t.same(t.control().ask("subscriber acme"), "subscriber 1")
    desk.end()
    os.remove(t.room / "control")
    os.link(t.room / path, t.room / "second")
    with t.untouched("a register with two names"):
        for words in (["audit", "ca.db"], ["copy", "ca.db", "copy.db"], ["open", "ca.db", "--port", free_port(), "--control", "control", "--unsigned"]):
            ran = t.desk(*words)
            t.same((ran.status, ran.out, ran.err), (1, b"", b"F2 store\n"), program.shown(words))


def hot_journal():
    """The header of a rollback journal for one page (SQLite's file format 3), without the page."""
    return bytes.fromhex("d9d505f920a163d7 00000001 00000000 00000001 00000200 00001000".replace(" ", "")) + bytes(484)


def a_second_name(path):
    (path.parent / "first").write_bytes(b"")
    os.link(path.parent / "first", path)


@each({"a URI": "file:ca.db", "a name of SQLite's own": ":memory:"})
def a_file_whose_name_sqlite_reads_otherwise_is_not_read(t, name):
    """SQLite would take such a name for something else, and would not open the file."""
    t.register()
    os.rename(t.room / "ca.db", t.room / name)
    for words in (["audit", name], ["copy", name, "copy.db"], ["crl", name]):
        ran = t.desk(*words)
        t.same((ran.status, ran.out, ran.err), (1, b"", b"F2 store\n"), program.shown(words))


JOURNALS = {
    "a journal": lambda path: path.write_bytes(hot_journal()),
    "a folder": lambda path: path.mkdir(),
    "a pipe": os.mkfifo,
    "a link that leads nowhere": lambda path: path.symlink_to("nowhere"),
    "a file with a second name": a_second_name,
}


@each({f"{what} beside a register{more}": (create, bool(more)) for what, create in JOURNALS.items() for more in ("", " with a log")})
def what_may_be_a_journal_is_not_passed_over(t, create, has_log):
    """Only SQLite can play back a rollback journal. The desk reads no register beside which one may lie, with or without a log."""
    t.register()
    if has_log:
        desk = t.open()
        t.same(t.control().ask("subscriber acme"), "subscriber 1")
        desk.end()
        os.remove(t.room / "control")
        t.true((t.room / "ca.db-wal").stat().st_size > 0, "the register has no log")
    else:
        t.sql("ca.db", "PRAGMA wal_checkpoint(TRUNCATE)")
        t.true(not (t.room / "ca.db-wal").exists(), "the register still has a log")
    create(t.room / "ca.db-journal")
    for words in (["audit", "ca.db"], ["copy", "ca.db", "copy.db"], ["crl", "ca.db"], ["open", "ca.db", "--port", free_port(), "--control", "control", "--unsigned"]):
        ran = t.desk(*words)
        t.same((ran.status, ran.out, ran.err), (1, b"", b"F2 store\n"), program.shown(words))


@test
def a_register_behind_a_link_is_read_with_its_own_log(t):
    (t.room / "folder").mkdir()
    t.register("folder/ca.db")
    t.register("other.db", lines=f"{DAY} subscriber other\n")
    desk = t.open("folder/ca.db")
    t.same([t.control().ask(f"subscriber {it}") for it in ("acme", "second")], ["subscriber 1", "subscriber 2"])
    desk.end()
    t.true((t.room / "folder/ca.db-wal").stat().st_size > 0, "the register has no log")
    (t.room / "link.db").symlink_to("folder/ca.db")
    for what in ("no log", "another register's log"):
        t.same(t.done("copy", "link.db", "copy.db").split()[0], "copied")
        t.same(t.sql("copy.db", "SELECT name FROM subscriber ORDER BY id"), [("acme",), ("second",)], f"{what} beside the link")
        os.remove(t.room / "copy.db")
        other = t.open("other.db", "--control", "second")
        t.control("second").ask("subscriber mallory")
        other.end()
        shutil.copy(t.room / "other.db-wal", t.room / "link.db-wal")


@test
def a_log_that_is_a_link_is_not_read(t):
    t.register()
    desk = t.open()
    t.same(t.control().ask("subscriber acme"), "subscriber 1")
    desk.end()
    os.remove(t.room / "control")
    os.rename(t.room / "ca.db-wal", t.room / "elsewhere")
    (t.room / "ca.db-wal").symlink_to("elsewhere")
    for words in (["audit", "ca.db"], ["copy", "ca.db", "copy.db"], ["crl", "ca.db"], ["open", "ca.db", "--port", free_port(), "--control", "control", "--unsigned"]):
        ran = t.desk(*words)
        t.same((ran.status, ran.out, ran.err), (1, b"", b"F2 store\n"), program.shown(words))


@each({"an audit": ["audit", "ca.db"], "a copy": ["copy", "ca.db", "copy.db"]})
def a_log_that_may_not_be_read_is_not_passed_over(t, words):
    """Without its log, the register lacks the last commands."""
    t.register()
    desk = t.open()
    t.same(t.control().ask("subscriber acme"), "subscriber 1")
    desk.end(signal.SIGKILL)
    os.chmod(t.room / "ca.db", 0o644)
    os.chmod(t.room / "ca.db-wal", 0)
    t.as_nobody("--version")
    os.chmod(t.room, 0o777)
    ran = t.as_nobody(*words)
    t.same((ran.returncode, ran.stdout, ran.stderr), (1, b"", b"F2 store\n"))
    t.same((t.room / "copy.db").exists(), False, "whether there is a copy")


@each({"an audit": (["audit", "ca.db"], " (FILE)"), "a copy": (["copy", "ca.db", "copy.db"], "")})
def a_journal_that_may_not_be_read_is_not_passed_over(t, words, location):
    """The register may have half of a transaction, which only SQLite can undo by its journal."""
    t.register()
    t.sql("ca.db", "PRAGMA wal_checkpoint(TRUNCATE)")
    os.chmod(t.room / "ca.db", 0o644)
    (t.room / "ca.db-journal").write_bytes(hot_journal())
    os.chmod(t.room / "ca.db-journal", 0)
    t.as_nobody("--version")
    os.chmod(t.room, 0o777)
    ran = t.as_nobody(*words, "--why")
    told = f"F2 store\n  permission denied, or the file system is read-only{location}\n"
    t.same((ran.returncode, ran.stdout, ran.stderr), (1, b"", told.encode()))
    t.same((t.room / "copy.db").exists(), False, "whether there is a copy")


@each({"an audit": (["audit", "private/ca.db"], " (FILE)"), "a copy": (["copy", "private/ca.db", "copy.db"], "")})
def a_register_in_a_folder_that_may_not_be_searched(t, words, location):
    (t.room / "private").mkdir()
    t.register("private/ca.db")
    os.chmod(t.room / "private", 0)
    t.callback(os.chmod, t.room / "private", 0o755)
    ran = t.as_nobody(*words, "--why")
    told = f"F2 store\n  permission denied, or the file system is read-only{location}\n"
    t.same((ran.returncode, ran.stdout, ran.stderr), (1, b"", told.encode()))


@test
def each_log_has_salts_of_its_own(t):
    """Without them, frames that an earlier log left behind could pass for those of a later one (SQLite's file format, 4.1)."""
    salts = []
    for name in ("ca", "other", "third"):
        t.register(f"{name}.db")
        desk = t.open(f"{name}.db", "--control", name)
        t.same(t.control(name).ask("subscriber acme"), "subscriber 1")
        salts.append((t.room / f"{name}.db-wal").read_bytes()[16:24].hex())
        desk.end()
    t.same(len(set(salts)), 3, f"different salts among {salts}")


@test
def a_job_leaves_nothing_in_the_log(t):
    """At its end, the job copies the log into the file."""
    t.register(lines=f"{DAY} subscriber acme\n{DAY} crl\n")
    size = (t.room / "ca.db-wal").stat().st_size
    t.true(size < 4_096, f"the log has {size} bytes, which are a page and more")


@test
def a_job_with_another_signer_leaves_nothing_in_the_log(t):
    """The job has made the register newer before it refuses the signer."""
    registers.make(t.room / "ca.db", registers.Records(50, 4), 2)
    ran = t.desk("script", "ca.db", "--signer", "ca.sign", "--algorithm", "ed25519")
    t.same((ran.status, ran.out, ran.err), (1, b"", b"bad-signer\n"))
    size = (t.room / "ca.db-wal").stat().st_size
    t.true(size < 4_096, f"the log has {size} bytes, which are a page and more")
    t.has(t.done("audit", "ca.db"), "sound, 50 certificates, ")


@test
def a_second_init_leaves_nothing_in_the_log(t):
    """The desk was killed, so the log has pages. The job refuses the register, but copies the log into the file."""
    t.register()
    desk = t.open()
    t.same(t.control().ask("subscriber acme"), "subscriber 1")
    desk.end(signal.SIGKILL)
    t.true((t.room / "ca.db-wal").stat().st_size > 4_096, "the log has no page")
    ran = t.desk("init", "ca.db", "--name", program.NAME, "--key", program.KEY)
    t.same((ran.status, ran.out, ran.err), (1, b"", b"not-empty\n"))
    size = (t.room / "ca.db-wal").stat().st_size
    t.true(size < 4_096, f"the log has {size} bytes, which are a page and more")
    t.same(t.done("list", "ca.db", "subscribers"), "subscriber,name\n1,acme\n")


@test(seconds=2)
def the_log_of_an_open_register_stays_short(t):
    """Before a transaction, the desk copies a log of a thousand pages into the file, and begins it anew."""
    t.register()
    t.clock(DAY)
    t.open(faults=faults.environment())
    lines = 1_500
    replies = t.done("at", "control", given="".join(f"subscriber name{at}\n" for at in range(lines)))
    t.same(replies.count("subscriber "), lines, "commands, of which each writes two pages at least")
    size = (t.room / "ca.db-wal").stat().st_size
    t.true(size < lines * 2 * 4_096 * 2 / 3, f"the log has {size} bytes after {lines} commands")


@test
def a_closed_register_has_no_page_in_its_log(t):
    """Each job that changes the register writes the pages of its log into its file at the end: the file alone has all entries."""
    t.register()
    jobs = (
        (["script", "ca.db"], f"{DAY} subscriber acme\n{DAY} order 1 30\n"),
        (["import", "ca.db", "--now", DAY], f"1,05,{DAY},2026-01-02T00:00:00Z\n"),
        (["schedule", "ca.db", "1970-01-01T00:00:00Z=300"], ""),
        (["key-id", "ca.db", "0A0B"], ""),
    )
    for words, given in jobs:
        t.done(*words, given=given)
        log = t.room / "ca.db-wal"
        t.true(not log.exists() or log.stat().st_size < 4_096, f"after {words[0]}, the log has a page")


@test(seconds=2)
def a_register_whose_log_has_megabytes_is_read_with_all_of_it(t):
    t.register()
    t.clock(DAY)
    desk, count = t.open(faults=faults.environment()), 0
    while (t.room / "ca.db-wal").stat().st_size < 2_000_000 and count < 2_000:
        t.done("at", "control", given="".join(f"subscriber name{at}\n" for at in range(count, count + 50)))
        count += 50
    t.true((t.room / "ca.db-wal").stat().st_size >= 2_000_000, f"the log is short after {count} commands")
    t.true(t.control().ask("copy open.db").startswith("copied "), "the open register is not copied")
    desk.end(signal.SIGKILL)
    t.same(t.done("audit", "ca.db"), "sound, 0 certificates, 0 revoked, 0 CRLs\n", "an audit after the desk was killed")
    t.same(t.done("copy", "ca.db", "closed.db").split()[0], "copied", "a copy after the desk was killed")
    for name in ("open.db", "closed.db", "ca.db"):
        t.same(t.done("list", name, "subscribers").count("\n"), count + 1, f"the lines of the list of {name}")


@test(seconds=3)
def a_large_file_is_read_once(t):
    """SQLite's page cache has room for the whole file, of 80 MB."""
    t.register(lines=f"{DAY} crl\n{DAY} crl\n")
    t.sql("ca.db", "UPDATE crl SET der = zeroblob(80000000) WHERE number = 1")
    desk = t.open(faults=faults.environment(count=t.room / "count", only="ca.db"))
    reads = []
    for _ in range(2):
        t.true(len(desk.ask("GET", "/crl/1")) > 80_000_000, "the answer is cut off")
        reads.append(faults.counted(t.room / "count")["read"])
    t.true(reads[1] - reads[0] < reads[0] / 100, f"reads until each answer: {reads}")


@test(seconds=8)
def a_register_that_grows_while_it_is_open_is_read_once(t):
    """The page cache has room for twice the pages that the file has when it is opened. A CRL of 8 MB is in the file then, and 60 shorter ones come later."""
    count, large, crls = 2_000, 8_000_000, 60
    registers.make_revoked(t.room / "ca.db", count, program.KEY)
    t.done("script", "ca.db", given="2026-01-02T00:00:00Z crl\n" * 2)
    t.sql("ca.db", f"UPDATE crl SET der = zeroblob({large}) WHERE number = 1")
    t.clock("2026-01-02T00:00:00Z")
    before = (t.room / "ca.db").stat().st_size
    desk, reads = t.open(faults=faults.environment(count=t.room / "count", only="ca.db,ca.db-wal")), []
    control = t.control()
    for number in range(3, 3 + crls):
        t.true(control.ask("crl").startswith(f"crl {number} entries "), f"CRL {number} is not issued")
    for _ in range(3):
        added = sum(len(desk.ask("GET", f"/crl/{number}")) for number in (1, *range(3, 3 + crls))) - large
        reads.append(faults.counted(t.room / "count")["read"])
    t.true(before - large + 2_000_000 < added < before - 1_000_000, f"the file of {before} bytes grew by {added}, which are too few or too many for this test")
    t.true(reads[2] - reads[1] < 100, f"reads until the end of each round: {reads}")


@test(seconds=2)
def a_copy_takes_little_memory(t):
    """A register of 270 MB and more than 65,536 pages is copied page by page, by a program that may have 32 MB."""
    t.register(lines=f"{DAY} crl\n{DAY} crl\n")
    t.sql("ca.db", "UPDATE crl SET der = zeroblob(270000000) WHERE number = 1")
    ran = t.tried("prlimit", "--as=32000000", program.program(), "copy", "ca.db", "copy.db")
    t.same((ran.returncode, ran.stdout.split()[:1], ran.stderr), (0, [b"copied"], b""), "status, the first word of the output, and standard error")


@test(seconds=3)
def a_copy_has_a_long_log_in_memory_once(t):
    """The log has 24 MB, and the program may have 54 MB."""
    t.register(lines=f"{DAY} crl\n")
    with contextlib.closing(sqlite3.connect(t.room / "ca.db", isolation_level=None)) as other:
        other.execute("PRAGMA wal_autocheckpoint = 0")
        for _ in range(6):
            other.execute("UPDATE crl SET der = randomblob(4000000)")
        t.true((t.room / "ca.db-wal").stat().st_size > 24_000_000, "the log is shorter")
        ran = t.tried("prlimit", "--as=54000000", program.program(), "copy", "ca.db", "copy.db")
    t.same((ran.returncode, ran.stdout.split()[:1], ran.stderr), (0, [b"copied"], b""), "status, the first word of the output, and standard error")


@test(seconds=3)
def lines_that_a_client_sends_ahead_take_little_memory(t):
    """Of eight megabytes of lines that come faster than they are answered, most wait in the socket."""
    t.register()
    t.clock(DAY)
    desk, control = t.open(), t.control()
    most = lambda: int(re.search(r"VmHWM:\s+(\d+) kB", open(f"/proc/{desk.process.pid}/status").read())[1])
    t.same(control.ask("counts"), "good 0 revoked 0 expired 0")
    before = most()
    threading.Thread(target=control.stream.sendall, args=((b"x" * 199 + b"\n") * 40_000,), daemon=True).start()
    t.same({control.file.readline() for _ in range(40_000)}, {b"E22 syntax\n"}, "replies")
    t.true(most() - before < 3_000, f"the desk took {most() - before} kB more")


@test(seconds=2)
def a_long_script_without_a_file_takes_little_memory(t):
    """The log of a register in memory is emptied again and again: ten thousand commands run in a program that may have 32 MB."""
    lines = "".join(f"{DAY} subscriber name{at}\n" for at in range(10_000))
    ran = t.tried("prlimit", "--as=32000000", program.program(), "script", given=lines)
    t.same((ran.returncode, ran.stdout.count(b"subscriber "), ran.stderr), (0, 10_000, b""), "status, accepted commands, and standard error")


@test
def a_register_to_which_sqlite_writes_is_not_read(t):
    """SQLite, in rollback mode, holds a reserved lock on the file."""
    t.register()
    with contextlib.closing(sqlite3.connect(t.room / "ca.db", isolation_level=None)) as other:
        t.same(other.execute("PRAGMA journal_mode = delete").fetchall(), [("delete",)])
        other.execute("BEGIN IMMEDIATE")
        for words in (["audit", "ca.db"], ["copy", "ca.db", "copy.db"], ["crl", "ca.db"]):
            ran = t.desk(*words, "--why")
            place = b"" if words[0] == "copy" else b" (FILE)"
            t.same((ran.status, ran.out, ran.err), (1, b"", b"F2 store\n  in use by another program%s\n" % place), program.shown(words))


@each({"an audit": ["audit", "ca.db"], "a copy": ["copy", "ca.db", "copy.db"], "a list": ["list", "ca.db", "orders"]}, seconds=2)
def a_disk_that_fails_is_no_damage_and_no_other_program(t, words):
    """No cause is told, since none is known. An operator who is told of damage restores a backup. What a journal has can't be known either."""
    t.register(lines=f"{DAY} subscriber acme\n")
    (t.room / "ca.db-journal").write_bytes(bytes(512))
    files = "ca.db,ca.db-wal,ca.db-journal"
    for kind in ("lock", "read"):
        for at in faults.places(faults.total(t, words, kind, only=files), 8, 9):
            (t.room / "copy.db").unlink(missing_ok=True)
            ran, count = faults.run(t, [*words, "--why"], fail=f"{kind}:{at}=EIO", only=files)
            t.same((ran.status, ran.out, ran.err, count["met"]), (1, b"", b"F2 store\n", 1), f"{kind} {at}")


@test(seconds=3)
def a_file_whose_pages_change_while_it_is_audited_is_damaged(t):
    """The audit stops once it has read each page, and goes on once each page has another octet."""
    registers.make(t.room / "ca.db", registers.Records(3_000, 20), 3)
    whole, pages = (t.room / "ca.db").read_bytes(), (t.room / "ca.db").stat().st_size // 4096
    ran, count = faults.run(t, ["audit", "ca.db"], only="ca.db")
    t.true(count["read"] > 2 * pages, f"{count['read']} reads of {pages} pages")
    for turn in range(20):
        (t.room / "ca.db").write_bytes(whole)
        env = program.environment(faults=faults.environment(count=t.room / f"count{turn}", only="ca.db"))
        it = subprocess.Popen([program.program(), "audit", "ca.db", "--why"], cwd=t.room, stdout=subprocess.PIPE, stderr=subprocess.PIPE, env=env)
        t.callback(authority.end, it)
        reads = lambda: (t.room / f"count{turn}").exists() and faults.counted(t.room / f"count{turn}")["read"]
        while it.poll() is None and reads() < 1.3 * pages:
            time.sleep(0)
        it.send_signal(signal.SIGSTOP)
        is_in_time = reads() < 1.8 * pages
        with open(t.room / "ca.db", "r+b") as file:
            for at in range(4_000, len(whole), 4_096):
                file.seek(at)
                file.write(bytes([whole[at] ^ 1]))
        it.send_signal(signal.SIGCONT)
        out, err = it.communicate()
        if is_in_time:
            break
    t.same((it.returncode, out, err), (1, b"", b"F2 store\n  damaged, or not a database: check the path and the disk (FILE)\n"))


@each({"an audit": ["audit", "ca.db"], "a copy": ["copy", "ca.db", "copy.db"]})
def a_file_that_a_link_replaces_is_not_read(t, words):
    """The link replaces the file after the desk has looked at the file, and before it opens the file."""
    t.register()
    t.register("other.db", lines=f"{DAY} subscriber other\n")
    with ThreadPoolExecutor(1) as pool:
        ran = pool.submit(t.desk, *words, faults=faults.environment(slow_open=t.room / "replaced", only="ca.db"))
        authority.until(lambda: (t.room / "replaced.waits").exists(), "the desk to open the file")
        os.rename(t.room / "ca.db", t.room / "moved.db")
        (t.room / "ca.db").symlink_to("other.db")
        (t.room / "replaced").touch()
        t.same((ran.result().status, ran.result().out, ran.result().err), (1, b"", b"F2 store\n"))


@each({"an audit": ["audit", "ca.db"], "a copy": ["copy", "ca.db", "copy.db"]})
def a_pipe_that_replaces_an_empty_journal_is_not_passed_over(t, words):
    """As above. An empty journal has nothing to play back; what comes through the pipe can't be known."""
    t.register()
    (t.room / "ca.db-journal").touch()
    with ThreadPoolExecutor(1) as pool:
        ran = pool.submit(t.desk, *words, faults=faults.environment(slow_open=t.room / "replaced", only="ca.db-journal"))
        authority.until((t.room / "replaced.waits").exists, "the desk to open the journal")
        os.remove(t.room / "ca.db-journal")
        os.mkfifo(t.room / "ca.db-journal")
        # The desk's open(2) does not wait, since the pipe has a writer.
        t.callback(os.close, os.open(t.room / "ca.db-journal", os.O_RDWR))
        (t.room / "replaced").touch()
        t.same((ran.result().status, ran.result().out, ran.result().err), (1, b"", b"F2 store\n"))


@test
def init_beside_a_log_makes_no_register(t):
    """The desk can't find out whether a register lies there, so it creates none."""
    (t.room / "ca.db-wal").write_bytes(b"all that is left of a register")
    ran = t.desk("init", "ca.db", "--name", program.NAME, "--key", program.KEY, faults=faults.environment(fail="stat:1+", only="ca.db"))
    t.same((ran.status, ran.out, ran.err), (1, b"", b"F2 store\n"))
    t.same(sorted(it.name for it in t.room.iterdir()), ["ca.db-wal"], "the files in the folder")


@test(seconds=2)
def a_crl_of_more_than_ten_thousand_entries_is_issued(t):
    """One certificate is revoked by lines. The rows of the others are copies of its rows, with other numbers."""
    count, begins = 10_001, f"{DAY} register 1 05 {DAY} 2026-12-31T00:00:00Z"
    t.register(lines=f"{DAY} subscriber acme\n{DAY} order 1 398\n{begins}\n{DAY} request 05 superseded\n{DAY} revoke 1\n")
    numbers = "WITH RECURSIVE row (id) AS (SELECT 2 UNION ALL SELECT id + 1 FROM row WHERE id < ?)"
    serial = "CAST(printf('%020d', row.id) AS BLOB)"
    for table, columns in {
        "orders": "row.id, subscriber, days",
        "cert": f"{serial}, row.id, not_before, not_after",
        "request": f"row.id, {serial}, ground, received, declined",
        "revocation": f"{serial}, at, reason, row.id, first_crl",
        "standing": f"{serial}, not_after, state",
        "listed": f"{serial}, at, reason, first_crl, not_after, last_listed",
    }.items():
        t.sql("ca.db", f"INSERT INTO {table} {numbers} SELECT {columns} FROM {table}, row", count)
    t.sql("ca.db", "UPDATE kept SET n_revoked = ?", count)
    t.same(t.done("script", "ca.db", given=f"{DAY} crl\n"), f"crl 1 entries {count}\n")


@test(seconds=2)
def more_than_a_thousand_crls_are_served_and_counted(t):
    t.register()
    t.clock(DAY)
    t.done("script", "ca.db", given=f"{DAY} crl\n" * 1_001, faults=faults.environment())
    desk = t.open("ca.db")
    t.same([parted(desk.ask("GET", path))[0] for path in ("/crl", "/crl/1001", "/health")], [200] * 3, "/crl, /crl/1001 and /health")
    t.has(desk.ask("GET", "/metrics"), b"\ndesk_crl_number 1001\n", "the metrics")
