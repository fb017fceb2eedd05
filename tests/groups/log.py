"""The log has one line for each exchange, byte for byte, whatever a client sends."""

import fcntl
import re
import socket

from lib import authority, faults, program
from lib.program import ANY_SIGNATURE, Control
from lib.trial import each, test

DAY = "2026-01-01T00:00:00Z"


def log_of(t, *sent, lines=()):
    """The log of these requests, and of these lines at the control socket, without the client's port and the microseconds."""
    t.register()
    t.clock(DAY)
    desk = t.open("ca.db", "--log")
    for it in sent:
        desk.send(it)
    if lines:
        t.desk("at", "control", given="".join(f"{it}\n" for it in lines))
    return [re.sub(r" \d+$", "", re.sub(r"127\.0\.0\.1:\d+", "PEER", it)) for it in desk.end().err_lines]


@test
def an_exchange_has_its_first_lines_and_its_bytes(t):
    response = b"HTTP/1.1 404 Not Found\r\nDate: Thu, 01 Jan 2026 00:00:00 GMT\r\nContent-Type: application/json\r\nContent-Length: 22\r\nConnection: close\r\n\r\n"
    size = len(response) + len(b'{"error":"E21 no-crl"}')
    t.same(log_of(t, b"GET /crl HTTP/1.1\r\nHost: ca\r\n\r\n"), [f'{DAY} PEER "GET /crl HTTP/1.1" "HTTP/1.1 404 Not Found" {size}'])


@test
def no_client_can_inject_a_line(t):
    lines = log_of(t, b'GET /"\\\x00\x7f\xff~ HTTP/1.1\r\n\r\n', b"\nGET /x HTTP/1.1\r\n\r\n", lines=["status \x1b[31m", 'x"'])
    t.same(lines[0].split('" "')[0], f'{DAY} PEER "GET /\\x22\\x5c\\x00\\x7f\\xff~ HTTP/1.1')
    t.same(lines[2:], [f'{DAY} control "status \\x1b[31m" "E22 syntax" 11', f'{DAY} control "x\\x22" "E22 syntax" 11'])
    t.same(len(lines), 4, "lines")


@test
def a_long_line_is_logged_up_to_256_bytes(t):
    (line,) = log_of(t, b"GET /" + b"a" * 5_000 + b" HTTP/1.1\r\n\r\n")
    t.same(line.split('"')[1], "GET /" + "a" * 251)


@test
def a_line_of_octets_that_are_escaped_is_logged(t):
    """Each of its first 256 octets has four characters in the log."""
    (line,) = log_of(t, b"\xff" * 5_000 + b" / HTTP/1.1\r\n\r\n")
    t.same(line.split('"')[1], "\\xff" * 256)


@test
def a_control_line_and_its_reply(t):
    t.same(
        log_of(t, lines=["subscriber acme", "counts", "revoke 1"]),
        [f'{DAY} control "subscriber acme" "subscriber 1" 13', f'{DAY} control "counts" "good 0 revoked 0 expired 0" 27', f'{DAY} control "revoke 1" "E17 no-request" 15'],
    )


# An OCSP request for a certificate of another issuer, in the form of RFC 6960 4.1.1.
OCSP = bytes.fromhex("30423040303E303C303A300906052B0E03021A05000414" + "00" * 20 + "0414" + "00" * 20 + "020105")
INTERNAL = bytes.fromhex("30030a0102")
SIGNING = ("--signer", "ca.sign", "--algorithm", "ecdsa-sha256")
SIGNERS = {
    "one that works": (lambda message, call: ANY_SIGNATURE, [False, False]),
    "one that fails": (lambda message, call: None, [True, True]),
    "one that gives no signature": (lambda message, call: b"none", [True, True]),
    "one that fails once": (lambda message, call: None if call == 1 else ANY_SIGNATURE, [True, False]),
    "nobody": (None, [True, True]),
}


@each(SIGNERS, seconds=2)
def a_signature_that_did_not_come_is_the_line_s_last_word(t, answer, failing):
    """The word `signer` ends the line of an OCSP answer that is internalError for lack of a signature, with HTTP status 200. No other line has it."""
    t.register(key=program.P256_KEY)
    t.clock(DAY)
    if answer is not None:
        t.signer(answer=answer)
    desk = t.open("ca.db", "--log", *SIGNING)
    for is_unsigned in failing:
        t.same(desk.ask("POST", "/ocsp", OCSP).endswith(INTERNAL), is_unsigned, "whether the answer is internalError")
        desk.ask("GET", "/counts")
    told = [re.sub(r"127\.0\.0\.1:\d+", "PEER", it) for it in desk.end().err_lines]
    for line, is_unsigned in zip(told, [it for first in failing for it in (first, False)], strict=True):
        t.same(re.fullmatch(DAY + r' PEER "(POST /ocsp|GET /counts) HTTP/1\.1" "HTTP/1\.1 200 OK" \d+ \d+( signer)?', line).group(2), " signer" if is_unsigned else None, line)


@test
def a_crl_that_nobody_signs_has_the_word_too(t):
    t.register(key=program.P256_KEY)
    t.clock(DAY)
    desk = t.open("ca.db", "--log", *SIGNING)
    with Control(t.room / "control") as control:
        t.same([control.ask(it) for it in ("crl", "counts")], ["F3 signer", "good 0 revoked 0 expired 0"])
    told = [re.sub(r" \d+( signer)?$", r" N\1", it) for it in desk.end().err_lines]
    t.same(told, [f'{DAY} control "crl" "F3 signer" 10 N signer', f'{DAY} control "counts" "good 0 revoked 0 expired 0" 27 N'])


@test
def an_answer_that_the_store_does_not_give_has_no_such_word(t):
    """The answer is internalError because of a row that the desk never writes. Its line does not have the word `signer`."""
    t.register(lines=f"{DAY} subscriber acme\n{DAY} order 1 398\n{DAY} register 1 05 {DAY} 2026-01-10T00:00:00Z\n")
    t.sql("ca.db", "UPDATE cert SET not_after = -1")
    t.clock(DAY)
    desk = t.open("ca.db", "--log")
    # An OCSP request for serial number 05 (RFC 6960 A.1).
    path = "/ocsp/MGcwZTA%2BMDwwOjAJBgUrDgMCGgUABBRxHTl2ccn6zyJCCVkll5oGmORrEQQUqZk%2BNkcGgWq6PiVxeFDCbJzQ2J0CAQWiIzAhMB8GCSsGAQUFBzABAgQSBBAAAQIDBAUGBwgJCgsMDQ4P"
    t.same(desk.ask("GET", path).endswith(INTERNAL), True, "whether the answer is internalError")
    (line,) = desk.end().err_lines
    t.true(re.search(r'"HTTP/1\.1 200 OK" \d+ \d+$', line), line)


def within(desk, what):
    """The log, once one of its lines ends with this text."""
    authority.until(lambda: any(it.endswith(what) for it in desk.log), f"a line that ends with {what!r}")
    return desk.log


@test
def the_client_of_a_signed_answer_is_in_the_log(t):
    t.register(key=program.P256_KEY)
    t.signer()
    desk, request = t.open("ca.db", "--log", *SIGNING), bytes.fromhex(faults.OCSP_REQUEST)
    with desk.connect() as client:
        port = client.getsockname()[1]
        client.sendall(b"POST /ocsp HTTP/1.1\r\nContent-Length: %d\r\n\r\n" % len(request) + request)
        t.true(ANY_SIGNATURE in program.read_all(client), "the answer is not signed")
    t.same([it.split()[1] for it in desk.end().err_lines], [f"127.0.0.1:{port}"], "the clients in the log")


@test
def a_client_that_resets_has_a_line_after_that_of_its_exchange(t):
    t.register()
    t.clock(DAY)
    desk = t.open("ca.db", "--log")
    with desk.connect() as client:
        port = client.getsockname()[1]
        client.sendall(b"GET /counts")
        authority.until(lambda: program.is_read(client), "the desk to read it")
        # With this option, close(2) sends a reset.
        client.setsockopt(socket.SOL_SOCKET, socket.SO_LINGER, b"\1\0\0\0\0\0\0\0")
    told = within(desk, "lost broken")
    t.same([re.sub(r" \d+$", "", it) for it in told], [f'{DAY} 127.0.0.1:{port} "GET /counts" "" 0', f"{DAY} 127.0.0.1:{port} lost broken"])


@test(seconds=3)
def a_control_connection_that_closes_before_its_reply_is_lost(t):
    t.register()
    t.clock(DAY)
    desk = t.open("ca.db", "--log")
    with Control(t.room / "control") as control:
        t.same(control.ask("counts"), "good 0 revoked 0 expired 0")
    with Control(t.room / "control") as control:
        control.stream.settimeout(1)
        try:
            while True:
                control.stream.sendall(b"counts\n")
        except TimeoutError:
            pass
    told = within(desk, "control lost broken")
    t.same([it for it in told if " lost " in it], [f"{DAY} control lost broken"], "lost connections, without the one that had its reply")


@test
def to_standard_error_and_to_a_file(t):
    """With both options each line is in both logs."""
    t.register()
    t.clock(DAY)
    desk = t.open("ca.db", "--log", "--log-file", "ca.log")
    t.same(t.control().ask("subscriber acme"), "subscriber 1")
    desk.send(b"GET /counts HTTP/1.1\r\n\r\n")
    lines = desk.end().err_lines
    t.same([it.split()[1][:9] for it in lines], ["control", "127.0.0.1"], "the clients of the log on standard error")
    t.same((t.room / "ca.log").read_text().splitlines(), lines, "the log in the file")


@test
def each_line_is_one_write(t):
    """The file may be renamed at any time, and other programs may append to it. So the desk writes no line in parts."""
    t.register()
    desk = t.open("ca.db", "--log-file", "ca.log", faults=faults.environment(count=t.room / "count", only="ca.log"))
    t.desk("at", "control", given="subscriber acme\nsubscriber b\ncounts\n")
    desk.send(b"GET /counts HTTP/1.1\r\n\r\n")
    # The longest line: each octet of its request has four characters.
    desk.send(b"\xff" * 300 + b" / HTTP/1.1\r\n\r\n")
    desk.end()
    text = (t.room / "ca.log").read_text()
    t.true(len(text.splitlines()[-1]) > 1_024, f"the last line is short: {text}")
    t.same((text.count("\n"), faults.counted(t.room / "count")["write"]), (5, 5), "lines, and writes")


@test
def a_log_that_another_program_has_locked_holds_up_no_client(t):
    """A program that ships logs may lock them, or be stopped while it does."""
    t.register()
    desk = t.open("ca.db", "--log-file", "ca.log")
    with open(t.room / "ca.log", "a") as locked:
        fcntl.flock(locked, fcntl.LOCK_EX)
        fcntl.lockf(locked, fcntl.LOCK_EX)
        with t.at_once("an answer and a reply"):
            desk.send(b"GET /counts HTTP/1.1\r\n\r\n")
            t.same(t.control().ask("counts"), "good 0 revoked 0 expired 0")
    desk.end()
    t.same([it.split('"')[1] for it in (t.room / "ca.log").read_text().splitlines()], ["GET /counts HTTP/1.1", "counts"], "the log")


@test
def a_line_after_one_that_was_cut_off_is_whole(t):
    """The disk is full once 20 octets of a line are written. The next line does not continue them: `desk replay` stops at the part. Lines before
    them stay."""
    t.register()
    t.clock(DAY)
    (t.room / "ca.log").write_text("before\n")
    desk = t.open("ca.db", "--log-file", "ca.log", faults=faults.environment(only="ca.log", short=20, fail="write:2=ENOSPC"))
    for name in ("acme", "b"):
        t.desk("at", "control", given=f"subscriber {name}\n")
    desk.end()
    *before, last = (t.room / "ca.log").read_text().splitlines()
    t.same([*before, re.sub(r"\d+$", "N", last)], ["before", DAY[:19], f'{DAY} control "subscriber b" "subscriber 2" 13 N'])


@test
def each_route_and_each_line_is_logged(t):
    """So are the requests of a monitoring program, and lines that change no record."""
    routes = ("/crl", "/status/05", "/counts", "/list/orders", "/health", "/metrics", "/changes", "/nowhere")
    lines = ["help", "why", "show 05", "show request 1", f"accept-clock {DAY}", "copy copy.db", "schedule 1970-01-01T00:00:00Z=100", "counts", "x"]
    told = log_of(t, *(f"GET {it} HTTP/1.1\r\n\r\n".encode() for it in routes), lines=lines)
    t.same([it.split('"')[1] for it in told], [*(f"GET {it} HTTP/1.1" for it in routes), *lines], "the requests and lines in the log")


@test
def requests_beyond_the_limits_are_logged(t):
    """Three requests for revocation are open, so a fourth one is refused. Forty days later a fifth one is, as the clock is too far ahead."""
    t.register(lines="".join(f"{DAY} {it}\n" for it in ("subscriber acme", "order 1 398", f"register 1 05 {DAY} 2026-12-31T00:00:00Z")))
    t.clock(DAY)
    desk = t.open("ca.db", "--log")
    for moment in (DAY,) * 4 + ("2026-02-10T00:00:00Z",):
        t.clock(moment)
        desk.ask("POST", "/requests", '{"serial":"05","ground":"asked"}')
    told = [it.split('"')[3].split()[1] for it in desk.end().err_lines]
    t.same(told, ["200", "200", "200", "429", "503"], "the statuses in the log")
