"""The control socket of an open desk: lines in pieces, beside HTTP clients and other control connections; its eight slots; and a line so long that
the desk closes the connection."""

import signal
import socket
import subprocess
import time

from lib import authority, faults
from lib.program import LONGEST, Control, environment, free_port, hold, is_read, parted, program, read_all
from lib.trial import each, test

DAY = "2026-01-01T00:00:00Z"
ENTERED = f"{DAY} subscriber acme\n{DAY} order 1 398\n{DAY} register 1 05 {DAY} 2026-12-31T00:00:00Z\n"
PLACES = 8
# The desk closes a control connection once it keeps this many bytes without an LF.
HELD = 8_194


def opened(t):
    t.register(lines=ENTERED)
    t.clock(DAY)
    return t.open()


def closed(control):
    control.file.close()
    control.stream.close()


@test
def a_line_is_answered_beside_a_slow_client(t):
    desk = opened(t)
    with desk.connect() as slow:
        slow.sendall(b"GET /status/05 HT")
        t.same(t.done("at", "control", given="request 05 superseded\nrevoke 1\n"), "request 1 due 2026-01-02T00:00:00Z\nrevoked\n")
        # The slow client completes its request after the revocation, so the answer has it.
        slow.sendall(b"TP/1.1\r\n\r\n")
        t.same(parted(read_all(slow))[2], b'{"at":"2026-01-01T00:00:00Z","reason":4,"status":"revoked"}')


@test(seconds=2)
def lines_in_pieces_of_one_byte_are_answered_each_on_its_connection(t):
    opened(t)
    lines = {"status 05": "good", "status 06": "unknown", "status 0": "E22 syntax", "counts": "good 1 revoked 0 expired 0"}
    controls = [(t.control(), line, reply) for line, reply in lines.items()]
    longest = max(map(len, lines)) + 1
    for _ in range(20):
        # Each connection sends a byte in turn, so all are within a line at once.
        for at in range(longest):
            for control, line, _ in controls:
                if piece := f"{line}\n".encode()[at : at + 1]:
                    control.stream.sendall(piece)
        for control, line, reply in controls:
            t.same(control.file.readline().decode(), f"{reply}\n", f"the reply to {line!r}")


@test
def commands_after_2038(t):
    """The seconds since 1970 then have more than 31 bits. The desk compares the clock with the last command before it runs another one."""
    t.register()
    t.clock("2038-01-19T03:14:08Z")
    t.open()
    with t.control() as control:
        t.same([control.ask(it) for it in ("subscriber acme", "order 1 30", "crl", "next-crl")], ["subscriber 1", "order 1", "crl 1 entries 0", "next-crl 2038-01-26T03:14:08Z"])


@test
def a_revocation_after_2038(t):
    """No CRL lists it yet, so the next CRL is due a day after it."""
    t.register()
    t.clock("2038-01-20T00:00:00Z")
    t.open()
    lines = {
        "subscriber acme": "subscriber 1", "order 1 30": "order 1", "register 1 05 2038-01-20T00:00:00Z 2038-02-10T00:00:00Z": "registered",
        "crl": "crl 1 entries 0", "request 05 key-compromise": "request 1 due 2038-01-21T00:00:00Z", "revoke 1 05": "revoked",
        "next-crl": "next-crl 2038-01-21T00:00:00Z", "status 05": "revoked 2038-01-20T00:00:00Z reason 1", "overdue": "overdue 0",
    }
    with t.control() as control:
        t.same({it: control.ask(it) for it in lines}, lines)


@test
def why_names_a_moment_after_2050(t):
    t.register(lines=f"{DAY} subscriber acme\n{DAY} order 1 30\n")
    t.clock(DAY)
    t.open()
    with t.control() as control:
        t.same(control.ask("register 1 05 2050-01-01T00:00:00Z 2050-01-31T00:00:00Z"), "E12 too-long")
        t.same(control.ask("why"), "why notAfter at most 2050-01-30T23:59:59Z")


@test(seconds=2)
def a_line_that_is_not_refused_leaves_the_reason(t):
    """`why` tells why the last refused line was refused, whatever was accepted or answered since."""
    opened(t)
    with t.control() as control:
        t.same((control.ask("order 9 1"), control.ask("why")), ("E06 no-subscriber", "why E06 no-subscriber"))
        for line in (
            "subscriber other", "order 1 30", f"register 2 06 {DAY} 2026-01-10T00:00:00Z", "request 05 asked", "request 06 superseded",
            "request 05 asked", "decline 1", "decline 3 05", "revoke 2 06", "crl", "status 05", "counts", "listing 06", "overdue", "next-crl",
            f"ocsp {faults.OCSP_REQUEST}", "show 05", "show request 1", "show subscriber acme", "help", f"accept-clock {DAY}",
            "schedule 1970-01-01T00:00:00Z=398", "copy copy.db", "why",
        ):  # fmt: skip
            t.true((reply := control.ask(line))[0] not in "EFb", f"the reply {reply} to {line}")
            t.same(control.ask("why"), "why E06 no-subscriber", f"`why` after {line}")
        t.same((control.ask("listing 99"), control.ask("why")), ("E14 unknown-serial", "why E14 unknown-serial"), "a query that is refused")


@test
def an_end_of_line_with_a_cr_is_the_same(t):
    opened(t)
    control = t.control()
    control.stream.sendall(b"status 05\r\nstatus 05\r\r\nstatus\r 05\n")
    t.same([control.file.readline() for _ in range(3)], [b"good\n", b"E22 syntax\n", b"E22 syntax\n"], "replies: only one CR is dropped")


@test
def long_lines_that_come_at_once_are_all_answered(t):
    """They fill the buffers of the socket. The desk reads up to 64 KiB at once, which end within a line."""
    desk = opened(t)
    control = t.control()
    t.same(control.ask("counts"), "good 1 revoked 0 expired 0")
    count, line = 200, b"x" * 999 + b"\n"
    hold(desk.process)
    sent = control.stream.send(count * line, socket.MSG_DONTWAIT)
    desk.process.send_signal(signal.SIGCONT)
    control.stream.sendall((count * line)[sent:])
    t.same([control.file.readline() for _ in range(count)], [b"E22 syntax\n"] * count, "the replies")


@each({"as many as are held": (HELD, True), "one fewer": (HELD - 1, False)})
def bytes_without_an_end_of_line(t, count, is_ended):
    opened(t)
    with Control(t.room / "control") as control:
        control.stream.sendall(b"x" * count)
        if is_ended:
            t.same(control.file.read(), b"", "replies before the desk closed the connection")
        else:
            authority.until(lambda: is_read(control.stream), "the desk to read the bytes")
            t.same(control.ask(""), "F4 read", "the reply to this line, which is too long")
            t.same(control.ask("status 05"), "good", "the next line of the same connection")
    t.same(t.done("at", "control", given="status 05\n"), "good\n", "another control connection")


@test
def a_line_is_answered_before_requests_that_came_with_it(t):
    """So a revocation is in the answer to a request that the desk found together with it."""
    t.register()
    desk = t.open("ca.db", "--log")
    with Control(t.room / "control") as control, desk.connect() as client:
        control.ask("counts")
        client.sendall(b"GET /counts")
        authority.until(lambda: is_read(client), "the desk to accept the client")
        hold(desk.process)
        client.sendall(b" HTTP/1.1\r\n\r\n")
        control.stream.sendall(b"subscriber acme\n")
        desk.process.send_signal(signal.SIGCONT)
        t.same((control.file.readline(), parted(read_all(client))[0]), (b"subscriber 1\n", 200), "the reply and the status")
    t.same([it.split('"')[1] for it in desk.end().err_lines], ["counts", "subscriber acme", "GET /counts HTTP/1.1"], "the order in the log")


@test(seconds=2)
def a_closed_control_connection_frees_its_slot(t):
    desk = opened(t)
    for number in range(5 * PLACES):
        control = Control(t.room / "control")
        if number % 4 == 1:
            control.stream.sendall(b"status 0")
        elif number % 4 == 2:
            t.same(control.ask("status 05"), "good")
        elif number % 4 == 3:
            # The client closes without having read its replies.
            control.stream.sendall(b"counts\n" * 3)
        closed(control)
    together = [t.control() for _ in range(PLACES)]
    t.same([it.ask("status 05") for it in together], ["good"] * PLACES, "a connection in each slot, afterwards")
    t.same(parted(desk.ask("GET", "/counts"))[2], b'{"expired":0,"good":1,"revoked":0}', "an HTTP request")


@test
def lines_are_run_although_their_client_closes_at_once(t):
    """The desk finds them together with the end of their connection."""
    desk = opened(t)
    control, other = t.control(), t.control()
    t.same([it.ask("status 05") for it in (control, other)], ["good"] * 2)
    hold(desk.process)
    control.stream.sendall(b"request 05 superseded\nrevoke 1\n")
    closed(control)
    desk.process.send_signal(signal.SIGCONT)
    authority.until(lambda: other.ask("status 05").startswith("revoked"), "the revocation", seconds=20)


@test
def a_control_connection_that_breaks_before_its_reply_is_sent_frees_its_slot(t):
    """The first replies can't be sent, as if the clients were gone. Later clients still find a free slot."""
    t.register()
    t.open(faults=faults.environment(count=t.room / "count", fail=f"write:1-{PLACES}=EPIPE", only="socket"))
    for number in range(PLACES):
        with Control(t.room / "control", timeout=20) as control:
            t.same(control.ask("counts"), "", f"what client {number} receives")
    with Control(t.room / "control", timeout=20) as control:
        t.same(control.ask("counts"), "good 0 revoked 0 expired 0", "the next client")
    t.same(faults.counted(t.room / "count")["met"], PLACES, "replies that were not sent")


@test(seconds=2)
def waiting_control_connections_are_answered_as_others_close(t):
    opened(t)
    first = [t.control() for _ in range(PLACES)]
    t.same([it.ask("counts") for it in first], ["good 1 revoked 0 expired 0"] * PLACES)
    waiting = [t.control() for _ in range(3)]
    for number, it in enumerate(waiting):
        it.stream.sendall(f"subscriber s{number}\nstatus 05\n".encode())
    # If the desk ran their lines too early, it would do so within this time.
    time.sleep(0.3)
    # The desk ran none of their lines: the next subscriber number is still free.
    t.same(first[0].ask("subscriber early"), "subscriber 2")
    for number, it in enumerate(waiting):
        closed(first[number])
        t.same(it.file.readline(), f"subscriber {number + 3}\n".encode(), "its first line, once another connection is closed")
        t.same(it.file.readline(), b"good\n", "its second line")


@test
def a_waiting_control_connection_is_accepted_once_another_had_its_last_reply(t):
    """Another client sends a line and half-closes at once. After its reply, the desk accepts the waiting connection without a further event."""
    desk = opened(t)
    first = [t.control() for _ in range(PLACES)]
    t.same([it.ask("counts") for it in first], ["good 1 revoked 0 expired 0"] * PLACES)
    waiting = t.control()
    waiting.stream.sendall(b"status 05\n")
    hold(desk.process)
    first[0].stream.sendall(b"status 06\n")
    first[0].stream.shutdown(socket.SHUT_WR)
    desk.process.send_signal(signal.SIGCONT)
    t.same(first[0].file.read(), b"unknown\n", "the last reply")
    waiting.stream.settimeout(20)
    t.same(waiting.file.readline(), b"good\n", "the reply to the waiting connection")


@test(seconds=3)
def replies_that_were_not_read_come_in_order_once_they_are(t):
    opened(t)
    unread = t.control()
    unread.stream.settimeout(1)
    lines = b"".join(b"status %x\n" % number for number in range(1, 200_001))
    sent = 0
    try:
        while sent < len(lines):
            sent += unread.stream.send(lines[sent : sent + 4_096])
    except TimeoutError:
        pass
    t.true(sent < len(lines), "the desk read all lines of a client that reads no reply")
    t.same(t.done("at", "control", given="status 05\n"), "good\n", "another control connection meanwhile")
    whole = lines[:sent].count(b"\n")
    unread.stream.settimeout(LONGEST)
    unread.stream.shutdown(socket.SHUT_WR)
    wanted = b"".join(b"good\n" if number == 5 else b"unknown\n" for number in range(1, whole + 1))
    t.true(unread.file.read() == wanted, f"the replies to {whole} lines are wrong, incomplete or out of order")


def without_room_for_a_log(t, *words):
    """Starts a desk that logs to a full disk, until the test ends; returns the process and its port."""
    port = free_port()
    full = t.enter_context(open("/dev/full", "wb"))
    desk = t.enter_context(
        subprocess.Popen([program(), *words, "--port", str(port), "--log"], cwd=t.room, stdout=subprocess.PIPE, stderr=full, env=environment())
    )
    t.callback(desk.kill)
    t.same(desk.stdout.readline(), b"listening %d\n" % port)
    return desk, port


def status_of_05(port):
    with socket.create_connection(("127.0.0.1", port), LONGEST) as client:
        client.sendall(b"GET /status/05 HTTP/1.1\r\n\r\n")
        return parted(read_all(client))[2]


@test
def a_log_that_can_t_be_written_disturbs_no_client(t):
    t.register(lines=ENTERED)
    desk, port = without_room_for_a_log(t, "open", "ca.db", "--control", "control", "--unsigned")
    for _ in range(3):
        t.same(t.done("at", "control", given="status 05\n"), "good\n", "a control line")
        t.same(status_of_05(port), b'{"status":"good"}', "an HTTP request")
    t.same(desk.poll(), None, "exit status of the desk, which must still run")
    desk.terminate()
    t.same(desk.wait(LONGEST), -15, "exit status after SIGTERM")
    desk, port = without_room_for_a_log(t, "serve", "ca.db", "--requests", "1")
    t.same(status_of_05(port), b'{"status":"good"}', "a request to `serve`")
    t.same(desk.wait(LONGEST), 0, "exit status of `serve`")
