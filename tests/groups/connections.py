"""An open desk serves many connections at once, of all kinds, and lines at the control socket beside them: a slow client delays no other client."""

import os
import re
import resource
import signal
import socket
import threading
import time
from concurrent.futures import ThreadPoolExecutor

from lib import faults
from lib.authority import until
from lib.passing import Passing
from lib.program import LONGEST, Control, hold, is_read, parted, read_all
from lib.trial import Skipped, each, test

DAY = "2026-01-01T00:00:00Z"
COUNTS = b"GET /counts HTTP/1.1\r\nHost: localhost\r\n\r\n"
CRL = b"GET /crl/1 HTTP/1.1\r\nHost: localhost\r\n\r\n"
LARGE = 12_000_000


def entered(t, *sizes):
    """Makes a register whose CRLs, except the last, are so many zeros. Only an audit checks an older CRL."""
    crls = f"{DAY} crl\n" * (len(sizes) + 1)
    t.register(lines=f"{DAY} subscriber acme\n{DAY} order 1 398\n{DAY} register 1 05 {DAY} 2026-12-31T00:00:00Z\n{crls}")
    for number, size in enumerate(sizes, 1):
        t.sql("ca.db", f"UPDATE crl SET der = zeroblob({size}) WHERE number = {number}")
    t.clock(DAY)


def opened(t, *words, command="open"):
    """Opens a register whose CRL 1 is larger than a socket's buffers."""
    entered(t, LARGE)
    return t.open("ca.db", *words, command=command)


def client(t, desk, sent=b""):
    made = t.enter_context(desk.connect())
    made.sendall(sent)
    return made


def at_once(t, desk, beside):
    """Checks that a request is answered before the 30-second timeout of any other client."""
    began = time.monotonic()
    t.same(parted(desk.send(COUNTS))[0], 200, f"beside {beside}")
    took = time.monotonic() - began
    t.true(took < 25, f"a request beside {beside} took {took:.1f} s")


@test(seconds=4)
def a_request_is_answered_among_200_connections_at_all_stages(t):
    """The elapsed time stands still, so a desk that waits for another client's timeout would wait for ever."""
    entered(t, LARGE)
    desk = Passing(t).desk
    kinds = [b"", b"GET /cou", b"G", b"\0\xff\0\r\n\r\n", b"half closed", b"gone", CRL, COUNTS + b"more" * 1_000]
    for _ in range(25):
        for sent in kinds:
            made = client(t, desk, sent)
            if sent == b"half closed":
                made.shutdown(socket.SHUT_WR)
            elif sent == b"gone":
                made.close()
    t.same(parted(desk.send(COUNTS))[0], 200, "beside 200 connections")
    with desk.connect() as slow:
        for it in COUNTS:
            slow.sendall(bytes([it]))
            time.sleep(0.001)
        t.same(parted(read_all(slow))[0], 200, "a client that sends one byte at a time")
    t.same(t.done("at", "control", given="status 05\n"), "good\n", "a line at the control socket beside them")


@test(seconds=4)
def each_of_32_at_once_gets_the_answer_to_its_own_request(t):
    desk = opened(t)
    wrong = []

    def ask(number):
        wanted = b'{"status":"unknown"}' if number % 2 else b'{"error":"E22 syntax"}'
        target = f"/status/7{number:02x}" if number % 2 else "/status/0"
        for _ in range(30):
            got = parted(desk.ask("GET", target))[2]
            if got != wanted:
                wrong.append((target, got))

    requesters = [threading.Thread(target=ask, args=(number,)) for number in range(32)]
    for it in requesters:
        it.start()
    for it in requesters:
        it.join()
    t.same(wrong, [], "targets that got another response")


@test
def pieces_of_several_requests_are_not_mixed_up(t):
    """Three clients send the first pieces of their requests in turn, and the last pieces in reverse order."""
    desk = opened(t)
    wanted = {"/status/05": b'{"status":"good"}', "/status/06": b'{"status":"unknown"}', "/status/0": b'{"error":"E22 syntax"}'}
    clients = {target: client(t, desk, b"GET ") for target in wanted}
    for target, it in clients.items():
        it.sendall(target.encode())
        time.sleep(0.02)
    for target, it in reversed(clients.items()):
        it.sendall(b" HTTP/1.1\r\n\r\n")
        t.same(parted(read_all(it))[2], wanted[target], target)


@test(seconds=5)
def more_connections_than_slots(t):
    _, hard = resource.getrlimit(resource.RLIMIT_NOFILE)
    if hard < 2_000 and hard != resource.RLIM_INFINITY:
        raise Skipped("the system has no descriptors for 1,100 connections: ulimit -n 2000")
    resource.setrlimit(resource.RLIMIT_NOFILE, (2_000, hard))
    desk = opened(t)
    held = [client(t, desk) for _ in range(1_100)]
    at_once(t, desk, "1,100 silent clients")
    held[0].settimeout(20)
    t.same(read_all(held[0]), b"", "the response to the oldest connection, which the desk evicts")
    held[-1].sendall(COUNTS)
    t.same(parted(read_all(held[-1]))[0], 200, "the newest connection")
    # Two slots are free again. Each further client waits until another connection is evicted.
    hold(desk.process)
    together = [client(t, desk, COUNTS) for _ in range(6)]
    desk.process.send_signal(signal.SIGCONT)
    t.same([parted(read_all(it))[0] for it in together], [200] * 6, "clients that come together")


def busy(process):
    """The processor time that a process uses in one second, in hundredths of a second."""
    used = lambda: sum(map(int, open(f"/proc/{process.pid}/stat").read().rpartition(")")[2].split()[11:13]))
    before = used()
    time.sleep(1)
    return used() - before


@test(seconds=8)
def control_connections_have_all_of_16_descriptors(t):
    """With no descriptor left, the desk neither ends nor spins. It answers an HTTP request or a control line once another connection closes."""
    desk = opened(t)
    files = lambda: len(os.listdir(f"/proc/{desk.process.pid}/fd"))
    t.tool("prlimit", "--pid", desk.process.pid, "--nofile=16:16")
    lines = []
    while files() < 16:
        before = files()
        lines.append(t.enter_context(Control(t.room / "control")))
        until(lambda: files() == before + 1, f"control connection {len(lines)}")
    t.true(len(lines) <= 8, f"{len(lines)} control connections are open, more than the eight that the desk serves")
    waiting = client(t, desk, COUNTS)
    # If the lack of descriptors ended the desk, it would do so within this second.
    time.sleep(1)
    t.same(desk.process.poll(), None, "exit status of the desk, which must still run")
    t.true(busy(desk.process) < 20, "the desk is busy")
    t.same(lines[0].ask("counts"), "good 1 revoked 0 expired 0", "a control line meanwhile")
    last = lines.pop()
    last.file.close()
    last.stream.close()
    t.same(parted(read_all(waiting))[0], 200, "the HTTP request, once a descriptor is free")
    until(lambda: files() == 15, "the end of the HTTP connection")
    held = client(t, desk, COUNTS[:9])
    until(lambda: files() == 16, "an HTTP connection that has not sent all")
    line = t.control()
    line.stream.sendall(b"counts\n")
    t.true(busy(desk.process) < 20, "the desk is busy")
    held.sendall(COUNTS[9:])
    t.same(parted(read_all(held))[0], 200)
    held.close()
    t.same(line.file.readline(), b"good 1 revoked 0 expired 0\n", "the line, once a descriptor is free")


@test(seconds=4)
def the_control_socket_has_the_next_descriptor(t):
    """No descriptor is left while a hundred clients wait at the port. The first one that an evicted client frees is for a client at the control
    socket, and not for the next silent one, which would keep it for 30 seconds."""
    t.register()
    desk = t.open("ca.db", "--log")
    files = lambda: len(os.listdir(f"/proc/{desk.process.pid}/fd"))
    before = files()
    t.tool("prlimit", "--pid", desk.process.pid, f"--nofile={before + 3}:{before + 3}")
    for at in range(3):
        client(t, desk)
        until(lambda: files() == before + at + 1, f"connection {at + 1}")
    hold(desk.process)
    for _ in range(100):
        client(t, desk)
    control = t.enter_context(Control(t.room / "control", timeout=20))
    control.stream.sendall(b"counts\n")
    desk.process.send_signal(signal.SIGCONT)
    t.same(control.file.readline(), b"good 0 revoked 0 expired 0\n")
    told = [it.split()[1] for it in desk.end().err_lines if " lost crowded" in it or " control " in it]
    t.true(told.index("control") < 10, f"{told.index('control')} clients were evicted before the line was answered")


@test(seconds=4)
def the_last_descriptor_evicts_no_connection(t):
    """accept(2) fails for lack of descriptors even if no client waits. The oldest connection is evicted only once another client connects."""
    desk = opened(t)
    files = lambda: len(os.listdir(f"/proc/{desk.process.pid}/fd"))
    before = files()
    t.tool("prlimit", "--pid", desk.process.pid, f"--nofile={before + 3}:{before + 3}")
    held = []
    for at in range(3):
        held.append(client(t, desk, COUNTS[:9]))
        until(lambda: files() == before + at + 1, f"connection {at + 1}")
    time.sleep(0.5)
    for at, each in enumerate(held):
        each.sendall(COUNTS[9:])
        t.same(parted(read_all(each))[0], 200, f"connection {at + 1} of the three for which there are descriptors")
        each.close()
    until(lambda: files() == before, "the end of all three")
    held = []
    for at in range(3):
        held.append(client(t, desk, COUNTS[:9]))
        until(lambda: files() == before + at + 1, f"connection {at + 1} of three others")
    at_once(t, desk, "as many as there are descriptors for")
    held[0].settimeout(20)
    t.same(read_all(held[0]), b"", "the response to the oldest connection, which the desk evicts")
    for each in held[1:]:
        each.sendall(COUNTS[9:])
        t.same(parted(read_all(each))[0], 200, "a connection that is not the oldest")


@test
def the_last_descriptor_is_for_the_later_of_two_clients_that_come_together(t):
    """The desk accepts the first one, who is silent. Then it has no descriptor, so it evicts the first one for the second."""
    entered(t)
    desk = Passing(t)
    t.tool("prlimit", "--pid", desk.desk.process.pid, f"--nofile={desk.before + 1}:{desk.before + 1}")
    hold(desk.desk.process)
    first, second = client(t, desk.desk, COUNTS[:9]), client(t, desk.desk, COUNTS)
    desk.desk.process.send_signal(signal.SIGCONT)
    second.settimeout(20)
    t.same(parted(read_all(second))[0], 200, "the second client")
    t.same(read_all(first), b"", "the response to the first client")
    desk.loses(first, why="crowded")


@test(seconds=2)
def the_last_descriptor_is_for_the_later_client_though_the_port_can_t_be_polled_again(t):
    """The desk asks epoll_ctl(2) whether another client waits, and that fails. So it takes it that one does, and evicts the first one."""
    entered(t)
    usual = t.open(faults=faults.environment(count=t.room / "usual"))
    before, files = faults.counted(t.room / "usual")["watch"], len(os.listdir(f"/proc/{usual.process.pid}/fd"))
    usual.end()
    os.remove(t.room / "control")
    # The first of these calls is for the first client.
    desk = t.open(faults=faults.environment(count=t.room / "count", fail=f"watch:{before + 2}"))
    t.tool("prlimit", "--pid", desk.process.pid, f"--nofile={files + 1}:{files + 1}")
    hold(desk.process)
    first, second = client(t, desk, COUNTS[:9]), client(t, desk, COUNTS)
    desk.process.send_signal(signal.SIGCONT)
    second.settimeout(20)
    t.same(parted(read_all(second))[0], 200, "the second client")
    t.same((read_all(first), faults.counted(t.room / "count")["met"]), (b"", 1), "the response to the first client, and injected faults")


@test(seconds=3)
def a_large_answer_is_sent_as_its_client_reads_it(t):
    desk = opened(t)
    slow = client(t, desk, CRL)
    until(lambda: is_read(slow), "the desk to read the request")
    at_once(t, desk, "one that does not read")
    got = 0
    while piece := slow.recv(200_000):
        got += len(piece)
    t.true(got > LARGE, f"the client got {got} bytes of an answer of more than {LARGE}")


@test(seconds=3)
def a_reset_connection_is_in_the_log(t):
    desk = opened(t, "--log")
    gone = client(t, desk, CRL)
    port = gone.getsockname()[1]
    t.same(gone.recv(1), b"H", "the first byte of its answer")
    # SO_LINGER with 0 seconds: close(2) sends a reset.
    gone.setsockopt(socket.SOL_SOCKET, socket.SO_LINGER, b"\1\0\0\0\0\0\0\0")
    gone.close()
    until(lambda: any(" lost " in it for it in desk.log), "the log line of the lost connection")
    at_once(t, desk, "one that broke off")
    told = desk.end().err_lines
    t.same([it for it in told if " lost " in it], [f"{DAY} 127.0.0.1:{port} lost broken"], "lost connections in the log")


@test(seconds=35)
def an_incomplete_request_is_closed_after_30_seconds(t):
    desk = opened(t, "--log")
    began = time.monotonic()
    both = {sent: client(t, desk, sent) for sent in (b"GET /coun", b"")}
    ports = {sent: late.getsockname()[1] for sent, late in both.items()}
    for sent, late in both.items():
        t.same(read_all(late), b"", f"the response to {sent!r}")
        took = time.monotonic() - began
        t.true(29 < took < 55, f"the desk closed the connection after {took:.0f} s")
    # Once the desk has answered the next request, the log has both.
    at_once(t, desk, "nobody")
    told = [re.sub(r" \d+$", "", it) for it in desk.end().err_lines]
    # The log has two lines for half a request: the exchange, without an answer, and the lost connection. For a silent client it must have the second.
    half = f"{DAY} 127.0.0.1:{ports[b'GET /coun']}"
    t.same([it for it in told if it.startswith(half)], [f'{half} "GET /coun" "" 0', f"{half} lost late"], "the log of half a request")
    t.true(f"{DAY} 127.0.0.1:{ports[b'']} lost late" in told, f"the log does not have the lost connection of the silent client: {told}")


# These tests check timeouts to the millisecond: one client is late, and another, which connected a millisecond later, is not.


@test
def a_request_has_30_seconds_to_be_whole(t):
    entered(t)
    desk = Passing(t)
    first = desk.comes(COUNTS[:9])
    desk.advance(1)
    second = desk.comes(COUNTS[:9])
    desk.advance(29_999)
    t.same(read_all(first), b"", "the response to the first client")
    second.sendall(COUNTS[9:])
    t.same(parted(read_all(second))[0], 200, "the second client")
    desk.loses(first, why="late")


@test
def a_request_has_30_seconds_on_a_machine_that_runs_for_weeks(t):
    """After 49.7 days, the machine's milliseconds need more than 32 bits."""
    entered(t)
    desk = Passing(t)
    desk.advance(2**32 - 10_000 - desk.millis)
    slow = desk.comes(COUNTS[:9])
    desk.advance(20_000)
    desk.loses()
    desk.advance(20_000)
    desk.loses(slow, why="late")


@test
def a_request_in_pieces_has_30_seconds_in_all(t):
    """More bytes of the request do not extend the timeout."""
    entered(t)
    desk = Passing(t)
    slow = desk.comes(COUNTS[:9])
    for at in (9, 10):
        desk.advance(10_000)
        slow.sendall(COUNTS[at : at + 1])
        until(lambda: is_read(slow), "the desk to read it")
    desk.loses()
    desk.advance(10_000)
    desk.loses(slow, why="late")


@test(seconds=3)
def an_answer_that_is_taken_in_pieces_has_30_seconds_in_all(t):
    """Reading a part of the answer does not extend the timeout."""
    entered(t, LARGE)
    desk = Passing(t)
    slow = desk.comes(CRL)
    for _ in range(2):
        desk.advance(10_000)
        # The client reads enough for the desk to send more.
        for _ in range(20):
            slow.recv(65_536)
        desk.advance(0)
    desk.loses()
    desk.advance(10_000)
    desk.loses(slow, why="late")


@test(seconds=2)
def an_answer_has_30_seconds_to_be_taken(t):
    """The timeout of an answer begins when it is ready, however long its request took."""
    entered(t, LARGE)
    desk = Passing(t)
    first, second = desk.comes(CRL[:9]), desk.comes(CRL[:9])
    for it, passes in ((first, 20_000), (second, 1)):
        desk.advance(passes)
        it.sendall(CRL[9:])
        t.same(it.recv(1), b"H", "the first byte of its answer")
    desk.advance(29_999)
    t.true(len(read_all(first)) < LARGE, "the first got all of its answer")
    t.true(len(read_all(second)) > LARGE, "the second did not get all of its answer")
    desk.loses(first, why="late")


@test
def what_follows_a_request_is_dropped_for_a_second(t):
    """The desk answers the request, ends its side, and closes the connection a second later, whatever the client sends."""
    entered(t)
    desk = Passing(t)
    for passes in (1, 0):
        it = desk.comes(COUNTS + b"more")
        t.same(parted(read_all(it))[0], 200, "its answer, after which the desk ends its side")
        it.sendall(b"more")
        desk.advance(passes)
    until(lambda: desk.files == desk.before + 2, "two connections, those of both clients")
    desk.advance(999)
    until(lambda: desk.files == desk.before + 1, "one connection, that of the second client")
    desk.loses()


@test
def a_connection_that_only_drops_bytes_ends_with_its_client(t):
    """The client closes its connection within the second. The elapsed time stands still."""
    entered(t)
    desk = Passing(t)
    it = desk.comes(COUNTS + b"more")
    t.same(parted(read_all(it))[0], 200, "its answer, after which the desk ends its side")
    it.close()
    until(lambda: desk.files == desk.before, "the desk to close the connection", seconds=10)
    desk.loses()


@each({"it has its answer": ((), COUNTS + b"more", True), "it does not take its answer": ((LARGE,), CRL, False)})
def an_answered_connection_is_evicted_before_the_oldest(t, sizes, request, is_taken):
    entered(t, *sizes)
    desk = Passing(t)
    t.tool("prlimit", "--pid", desk.desk.process.pid, f"--nofile={desk.before + 3}:{desk.before + 3}")
    oldest, answered = desk.comes(COUNTS[:9]), desk.comes(request)
    t.same(answered.recv(1), b"H", "the first byte of its answer")
    if is_taken:
        t.same(parted(b"H" + read_all(answered))[0], 200)
    newest = client(t, desk.desk, COUNTS[:9])
    until(lambda: desk.files == desk.before + 3, "three connections, which use all descriptors")
    at_once(t, desk.desk, "them")
    for it in (oldest, newest):
        it.sendall(COUNTS[9:])
        t.same(parted(read_all(it))[0], 200, "a connection that had no answer yet")
    desk.loses(*([] if is_taken else [answered]), why="crowded")


@test(seconds=10)
def answers_that_wait_hold_64_mib_together(t):
    """Two answers of 33 MB fit and a third does not, however much of them the sockets have buffered. The desk evicts the oldest connection, and
    never the newest, even if its answer alone exceeds 64 MiB."""
    size, too_long = 33_000_000, 70_000_000
    entered(t, size, too_long)
    desk = Passing(t)

    def asks(request):
        it = client(t, desk.desk, request)
        t.same(it.recv(1), b"H", "the first byte of its answer")
        return it

    first, second = asks(CRL), asks(CRL)
    desk.loses()
    third = asks(CRL)
    desk.loses(first, why="crowded")
    last = asks(CRL.replace(b"1 ", b"2 ", 1))
    # The desk has evicted both before it answers another request.
    t.same([len(read_all(it)) < size for it in (second, third)], [True] * 2, "whether the evicted clients got a part of their answers")
    t.true(len(read_all(last)) > too_long, "the last did not get all of its answer")
    desk.loses(first, second, third, why="crowded")


@test(seconds=8)
def a_client_that_has_sent_half_a_request_makes_no_room_for_answers_that_wait(t):
    """Its connection is the oldest one. Three clients do not take their answers of 33 MB: the desk evicts the first of these. The oldest client then
    sends the rest of its request."""
    entered(t, 33_000_000)
    desk = Passing(t)
    oldest = desk.comes(COUNTS[:9])
    asked = [client(t, desk.desk, CRL)]
    for _ in range(2):
        t.same(asked[-1].recv(1), b"H", "the first byte of its answer")
        asked.append(client(t, desk.desk, CRL))
    t.same(asked[-1].recv(1), b"H", "the first byte of the last answer")
    desk.loses(asked[0], why="crowded")
    oldest.sendall(COUNTS[9:])
    t.same(parted(read_all(oldest))[0], 200, "its answer")


@test(seconds=6)
def what_a_lost_client_did_not_take_waits_no_more(t):
    """Two clients time out, each with most of its 33 MB answer unsent. The answers of two others then fit."""
    size = 33_000_000
    entered(t, size)
    desk = Passing(t)
    later, earlier = gone = [client(t, desk.desk, CRL) for _ in range(2)][::-1]
    for it in gone:
        t.same(it.recv(1), b"H", "the first byte of its answer")
    desk.advance(30_000)
    desk.loses(later, earlier, why="late")
    others = [client(t, desk.desk, CRL) for _ in range(2)]
    for it in others:
        t.same(it.recv(1), b"H", "the first byte of its answer")
    desk.loses(later, earlier, why="late")
    t.same([len(read_all(it)) > size for it in others], [True] * 2, "whether the others got all of their answers")


@test(seconds=2)
def serve_answers_the_given_number_of_requests(t):
    desk = opened(t, "--requests", 3, command="serve")
    t.same([parted(desk.send(COUNTS))[0] for _ in range(3)], [200] * 3)
    t.same(desk.wait().status, 0, "status")
    with socket.socket() as one_more:
        t.true(one_more.connect_ex(("127.0.0.1", desk.port)) != 0, "a fourth is answered")


@test
def half_a_request_counts_as_one(t):
    """`serve --requests` counts half a request. The client ended its side, so the log has no lost connection."""
    desk = opened(t, "--requests", 2, "--log", command="serve")
    half = client(t, desk, b"GET /status/05 HTTP/1.1\r\n")
    half.shutdown(socket.SHUT_WR)
    t.same(read_all(half), b"", "the response to half a request")
    t.same(desk.process.poll(), None, "exit status of the desk, which must still run")
    t.same(parted(desk.send(COUNTS))[0], 200, "the second request")
    ran = desk.wait()
    t.same((ran.status, [it for it in ran.err_lines if " lost " in it]), (0, []), "status, and lost connections in the log")


@test(seconds=2)
def eight_control_connections_are_served_and_the_ninth_waits(t):
    desk = opened(t)
    first, second = t.control(), t.control()
    first.stream.sendall(b"status 7f")
    t.same(second.ask("status 05"), "good", "while another connection has sent half a line")
    first.stream.sendall(b"f\nstatus x\nstat")
    t.same([first.file.readline(), first.file.readline()], [b"unknown\n", b"E22 syntax\n"], "replies, in order")
    idle = [t.control() for _ in range(6)]
    ninth = t.control()
    ninth.stream.sendall(b"status 05\n")
    t.same([it.ask("status 06") for it in (second, *idle)], ["unknown"] * 7, "the seven others of eight connections")
    ninth.stream.settimeout(0.5)
    try:
        t.same(ninth.stream.recv(10), None, "the ninth is answered while all eight are open")
    except TimeoutError:
        pass
    first.file.close()
    first.stream.close()
    ninth.stream.settimeout(LONGEST)
    t.same(ninth.stream.recv(10), b"good\n", "the ninth, once another is closed")
    t.true(desk.process.poll() is None, "the desk ended")


@test(seconds=2)
def a_line_that_is_not_whole_is_never_run(t):
    desk = opened(t)
    with Control(t.room / "control") as control:
        control.ask("request 05 asked")
        control.stream.sendall(b"revoke 1")
        control.stream.shutdown(socket.SHUT_WR)
        t.same(control.file.read(), b"", "the reply to a line with no LF")
    with Control(t.room / "control") as control:
        control.stream.sendall(b"revoke 1")
    # If the desk ran this line, it would do so within this time.
    time.sleep(0.2)
    t.same(t.done("at", "control", given="status 05\n"), "good\n")
    at_once(t, desk, "a control connection that was cut off")


@test(seconds=3)
def a_control_connection_that_does_not_read_is_held(t):
    """A client sends lines and reads no reply. The desk runs a line only once the socket has accepted the reply to the line before."""
    desk = opened(t, "--log")
    unread = t.control()
    unread.stream.settimeout(1)
    try:
        for _ in range(100_000):
            unread.stream.sendall(b"status 7b\n")
    except TimeoutError:
        pass
    t.same(t.done("at", "control", given="status 05\n"), "good\n", "another control connection")
    told = sum('control "status 7b"' in it for it in desk.end().err_lines)
    replies = read_all(unread.stream).count(b"unknown\n")
    t.true(0 < replies <= told <= replies + 1, f"the log has {told} lines, and the socket has {replies} replies")


@test(seconds=3)
def a_control_connection_of_many_lines_holds_up_nobody(t):
    """One client writes lines and reads replies, until another control connection and HTTP clients have been answered."""
    desk = opened(t)
    busy, other = t.control(), t.control()
    ends = threading.Event()

    def sends():
        while not ends.is_set():
            busy.stream.sendall(b"status 7b\n" * 1_000)
        busy.stream.shutdown(socket.SHUT_WR)

    with ThreadPoolExecutor(2) as pool:
        pool.submit(sends)
        replies = pool.submit(lambda: set(busy.file))
        try:
            for _ in range(3):
                t.same(other.ask("status 05"), "good", "another control connection")
                at_once(t, desk, "a control connection with many lines")
        finally:
            ends.set()
        t.same(replies.result(), {b"unknown\n"}, "the replies to the many lines")


@test(seconds=2)
def lines_of_control_connections_are_answered_in_turn(t):
    """One connection has sent a thousand lines at once. Two others, one accepted before it and one after it, wait for some
    lines, but not for all."""
    entered(t)
    desk = t.open("ca.db", "--log")
    before, busy, after = (t.control() for _ in range(3))
    t.same([it.ask("counts") for it in (before, busy, after)], ["good 1 revoked 0 expired 0"] * 3)
    hold(desk.process)
    busy.stream.sendall(b"status 7b\n" * 1_000)
    for it in (before, after):
        it.stream.sendall(b"status 05\n")
    desk.process.send_signal(signal.SIGCONT)
    t.same([it.file.readline() for it in (before, after)], [b"good\n"] * 2)
    t.same([busy.file.readline() for _ in range(1_000)], [b"unknown\n"] * 1_000)
    places = [at for at, line in enumerate(desk.end().err_lines) if "status 05" in line]
    t.true(len(places) == 2 and places[1] < 100, f"the lines of the other two are at {places} in the log")


@test(seconds=2)
def clients_that_come_together_are_accepted_64_at_a_time(t):
    """Between them the desk polls for other events, so that those who are connected already need not wait for all of them."""
    t.register()
    desk = t.open(faults=faults.environment(count=t.room / "count"))
    calls = lambda kind: faults.counted(t.room / "count")[kind]
    accepts, polls = calls("accept"), calls("poll")
    hold(desk.process)
    for _ in range(600):
        client(t, desk)
    desk.process.send_signal(signal.SIGCONT)
    until(lambda: calls("accept") >= accepts + 600, "the desk to accept six hundred clients")
    t.true(calls("poll") - polls >= 8, f"{calls('poll') - polls} polls while six hundred clients were accepted")


@test
def clients_that_come_together_are_all_answered_though_nothing_else_happens(t):
    """All have sent their requests. The desk answers 64 at once and closes their connections. No event then reports those who still wait."""
    t.register()
    desk = t.open()
    hold(desk.process)
    clients = [client(t, desk, COUNTS) for _ in range(200)]
    desk.process.send_signal(signal.SIGCONT)
    for it in clients:
        it.settimeout(20)
        t.same(parted(read_all(it))[0], 200, "GET /counts")


@test(seconds=2)
def the_events_of_many_connections_are_taken_together(t):
    """A hundred requests come at once. The desk answers all of them after a few calls of epoll_wait(2), and not after one for each."""
    t.register()
    desk = t.open(faults=faults.environment(count=t.room / "count"))
    calls = lambda kind: faults.counted(t.room / "count")[kind]
    accepts = calls("accept")
    clients = [client(t, desk, b"GET /counts") for _ in range(100)]
    until(lambda: calls("accept") >= accepts + 100, "the desk to accept a hundred clients")
    before = calls("poll")
    hold(desk.process)
    for it in clients:
        it.sendall(b" HTTP/1.1\r\n\r\n")
    desk.process.send_signal(signal.SIGCONT)
    t.same({parted(read_all(it))[0] for it in clients}, {200}, "the statuses")
    polls = calls("poll") - before
    t.true(polls < 50, f"{polls} polls for a hundred requests")


@test(seconds=2)
def a_revocation_is_in_the_very_next_answers(t):
    desk = opened(t)
    t.same(t.done("at", "control", given="request 05 key-compromise\nrevoke 1\n").splitlines()[1], "revoked")
    t.same(parted(desk.ask("GET", "/status/05"))[2], b'{"at":"2026-01-01T00:00:00Z","reason":1,"status":"revoked"}')
    t.same(parted(desk.ask("GET", "/counts"))[2], b'{"expired":0,"good":0,"revoked":1}')
