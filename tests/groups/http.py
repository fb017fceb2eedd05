"""HTTP: the framing of requests, the routes and their methods, and the response to each body and target, byte for byte."""

import base64
import time

from lib.program import parted, read_all
from lib.trial import each, test

DAY, LATER = "2026-01-01T00:00:00Z", "2026-01-02T00:00:00Z"
# Serial number 05 is good, 07 is revoked, 08 has expired. Three CRLs were issued.
ENTERED = "".join(
    f"{it}\n"
    for it in (
        f"{DAY} subscriber acme", f"{DAY} order 1 398", f"{DAY} order 1 398", f"{DAY} order 1 398",
        f"{DAY} register 1 05 {DAY} 2026-12-31T00:00:00Z", f"{DAY} register 2 07 {DAY} 2026-12-31T00:00:00Z", f"{DAY} register 3 08 {DAY} 2026-01-01T12:00:00Z",
        f"{LATER} request 07 superseded", f"{LATER} revoke 1", f"{LATER} crl", f"{LATER} crl", f"{LATER} crl",
    )
)  # fmt: skip
MALFORMED = bytes.fromhex("30030a0101")
OK, BAD, LENGTH, LARGE, FIELDS = "200 OK", "400 Bad Request", "411 Length Required", "413 Payload Too Large", "431 Request Header Fields Too Large"
METHOD, NOWHERE = "405 Method Not Allowed", "404 Not Found"


def opened(t):
    t.register(lines=ENTERED)
    t.clock(LATER)
    return t.open()


def of_length(length):
    """A request whose head has this many bytes."""
    return b"GET /counts HTTP/1.1\r\na:" + b"x" * (length - 28) + b"\r\n\r\n"


# A request, and the first line of its response.
FRAMES = [
    (b"POST /nowhere HTTP/1.1\r\n\r\n", LENGTH),
    (b"POST /ocsp HTTP/1.1\r\ncontent-length:   3\r\n\r\nabcd", OK),
    (b"POST /ocsp HTTP/1.1\r\nCONTENT-LENGTH: 003\t\r\n\r\nabc", OK),
    (b"POST /ocsp HTTP/1.1\r\nContent-Length: 3\r\ncontent-LENGTH: 4\r\n\r\nabc", BAD),
    (b"POST /ocsp HTTP/1.1\r\nContent-Length: 3, 3\r\n\r\nabc", BAD),
    (b"POST /ocsp HTTP/1.1\r\nContent-Length: +3\r\n\r\nabc", BAD),
    (b"POST /ocsp HTTP/1.1\r\nContent-Length:\r\n\r\nabc", BAD),
    (b"POST /ocsp HTTP/1.1\r\nContent-Length: 0000000000000000003\r\n\r\nabc", BAD),
    (b"POST /ocsp HTTP/1.1\r\nContent-Length: 000000000000000003\r\n\r\nabc", OK),
    (b"POST /ocsp HTTP/1.1\r\nContent-Length: 999999999999999999\r\n\r\n", LARGE),
    (b"POST /ocsp HTTP/1.1\r\nContent-Length: 65537\r\n\r\n", LARGE),
    (b"POST /ocsp HTTP/1.1\r\nContent-Length: 0\r\n\r\n", OK),
    (b"POST /ocsp HTTP/1.1\r\nTransfer-Encoding: chunked\r\nContent-Length: x\r\n\r\n", LENGTH),
    (b"POST /ocsp HTTP/1.1\r\nContent-Length: 3\r\nTRANSFER-ENCODING: identity\r\n\r\nabc", LENGTH),
    (b"GET /counts HTTP/1.1\r\nTransfer-Encoding: chunked\r\nContent-Length: 70000\r\n\r\n", OK),
    (b"PUT /counts HTTP/1.1\r\nContent-Length: x\r\n\r\n", METHOD),
    (b"post /ocsp HTTP/1.1\r\n\r\n", METHOD),
    (b"\r\nGET /counts HTTP/1.0\r\n\r\n", OK),
    (b"GET /counts HTTP/1.1\r\nA: b\n\nmore\r\n\r\n", BAD),
    (b"\r\n\r\n", BAD),
    (b"GET /counts\r\n\r\n", BAD),
    (b"GET /counts HTTP/2.0\r\n\r\n", BAD),
    (b"GET /counts HTTP/1.1\r\nA b: c\r\n\r\n", BAD),
    (b"GET /counts HTTP/1.1\r\nA: b\r\n c\r\n\r\n", BAD),
    (b"GET counts HTTP/1.1\r\n\r\n", BAD),
    (b"DELETE /nowhere HTTP/1.1\r\n\r\n", NOWHERE),
    (b"GET /counts HTTP/1.1\r\n" + b"a: b\r\n" * 64 + b"\r\n", OK),
    (b"GET /counts HTTP/1.1\r\n" + b"a: b\r\n" * 65 + b"\r\n", FIELDS),
    (of_length(8_192), OK),
    (of_length(8_193), FIELDS),
    (of_length(20_000), FIELDS),
    (bytes(8_192), FIELDS),
]


@test
def each_request_is_framed(t):
    desk = opened(t)
    for sent, wanted in FRAMES:
        got = desk.send(sent)
        t.true(got.startswith(f"HTTP/1.1 {wanted}\r\n".encode()), f"{sent[:200]!r}: {got[:200]!r}")
        status, lines, body = parted(got)
        t.same([it for it in lines if it.startswith("Content-Length")], [f"Content-Length: {len(body)}"], f"{sent[:100]!r}")
        t.same(lines[-1], "Connection: close")
        if status in (400, 411, 413, 431, 405):
            t.same(body, b'{"error":"%d"}' % status, f"{sent[:100]!r}")


# The target of a GET, and the status, the media type and the body of its response. With None, the body is the latest CRL.
JSON, CRL, OCSP = "application/json", "application/pkix-crl", "application/ocsp-response"
GETS = [
    ("/status/05", 200, JSON, b'{"status":"good"}'),
    ("/status/05?x=1", 200, JSON, b'{"status":"good"}'),
    ("/status/5?", 200, JSON, b'{"status":"good"}'),
    ("/status/07", 200, JSON, b'{"at":"2026-01-02T00:00:00Z","reason":4,"status":"revoked"}'),
    ("/status/08", 200, JSON, b'{"status":"expired"}'),
    ("/status/06", 200, JSON, b'{"status":"unknown"}'),
    ("/counts?/", 200, JSON, b'{"expired":1,"good":1,"revoked":1}'),
    ("/crl", 200, CRL, None),
    ("/crl/3", 200, CRL, None),
    ("/crl/03", 200, CRL, None),
    ("/ocsp/MAQwAjA", 200, OCSP, MALFORMED),
    ("/ocsp/%2B%2F+/", 200, OCSP, MALFORMED),
    ("/ocsp/+/%2b%2F?MAQw", 200, OCSP, MALFORMED),
    ("/ocsp/MAQwAjAA", 200, OCSP, MALFORMED),
    ("/ocsp/MAQwAjA!", 200, OCSP, MALFORMED),
    ("/ocsp/MAQw=", 200, OCSP, MALFORMED),
    ("/ocsp/%2", 200, OCSP, MALFORMED),
    ("/ocsp/-_-_", 200, OCSP, MALFORMED),
    ("/status/0", 400, JSON, b'{"error":"E22 syntax"}'),
    ("/status/05%20", 400, JSON, b'{"error":"E22 syntax"}'),
    ("/crl/x", 400, JSON, b'{"error":"E22 syntax"}'),
    ("/crl/1000000000000000000", 400, JSON, b'{"error":"E22 syntax"}'),
    ("/crl/999999999999999999", 404, JSON, b'{"error":"E21 no-crl"}'),
    ("/crl/0", 404, JSON, b'{"error":"E21 no-crl"}'),
    ("*", 400, JSON, b'{"error":"400"}'),
    ("?/counts", 400, JSON, b'{"error":"400"}'),
    ("http://localhost/counts", 400, JSON, b'{"error":"400"}'),
    ("/", 404, JSON, b'{"error":"404"}'),
    ("/?/counts", 404, JSON, b'{"error":"404"}'),
    ("//counts", 404, JSON, b'{"error":"404"}'),
    ("/Counts", 404, JSON, b'{"error":"404"}'),
    ("/counts/", 404, JSON, b'{"error":"404"}'),
    ("/crl/", 404, JSON, b'{"error":"404"}'),
    ("/crl/3/3", 404, JSON, b'{"error":"404"}'),
    ("/status", 404, JSON, b'{"error":"404"}'),
    ("/status/", 404, JSON, b'{"error":"404"}'),
    ("/status/5/", 404, JSON, b'{"error":"404"}'),
    ("/ocsp/", 404, JSON, b'{"error":"404"}'),
    ("/ocsp/?MAQw", 404, JSON, b'{"error":"404"}'),
    ("/nowhere", 404, JSON, b'{"error":"404"}'),
]


@test
def each_target_has_its_answer(t):
    desk = opened(t)
    latest = None
    for target, status, kind, wanted in GETS:
        got, lines, body = parted(desk.ask("GET", target))
        t.same((got, [it for it in lines if it.startswith("Content-Type")]), (status, [f"Content-Type: {kind}"]), target)
        if wanted is None:
            latest = latest or body
            t.true(body == latest and body[:1] == b"\x30", f"{target} gives another CRL, or none")
        else:
            t.same(body, wanted, target)
    desk.end()
    t.true(t.desk("crl", "ca.db").out == latest, "`desk crl` gives another CRL than GET /crl")


METHODS = [
    ("POST", "/counts", "GET"), ("get", "/counts", "GET"), ("DELETE", "/crl/x", "GET"), ("POST", "/crl", "GET"), ("PUT", "/status/0", "GET"),
    ("POST", "/ocsp/MAQwAjAA", "GET"), ("PUT", "/ocsp", "POST"), ("GET", "/ocsp", "POST"), ("HEAD", "/requests", "POST"), ("HEAD", "/counts", "GET"),
    ("GET", "/requests", "POST"), ("AVERYLONGMETHODTHATNOBODYHAS", "/requests", "POST"),
]  # fmt: skip


@test
def each_route_has_one_method(t):
    desk = opened(t)
    for method, target, allowed in METHODS:
        status, lines, body = parted(desk.ask(method, target, b"" if method == "POST" else None))
        t.same((status, [it for it in lines if it.startswith("Allow")], body), (405, [f"Allow: {allowed}"], b'{"error":"405"}'), f"{method} {target}")


BODIES = [
    (b' { "more" : [1, {}], "ground": "misuse", "serial": "5" } ', 200, b'{"due":"2026-01-07T00:00:00Z","request":2}'),
    (b'{"serial":"05","ground":"superseded"}', 200, b'{"due":"2026-01-03T00:00:00Z","request":3}'),
    (b'{"serial":"05","ground":"because"}', 409, b'{"error":"E16 bad-ground"}'),
    (b'{"serial":"05","ground":"hold"}', 409, b'{"error":"E15 no-hold"}'),
    (b'{"serial":"06","ground":"superseded"}', 409, b'{"error":"E14 unknown-serial"}'),
    (b'{"serial":"07","ground":"superseded"}', 409, b'{"error":"E19 revoked-before 2026-01-02T00:00:00Z"}'),
    (b'{"serial":"08","ground":"superseded"}', 409, b'{"error":"E20 expired"}'),
    *((it, 400, b'{"error":"E22 syntax"}') for it in (
        b"", b"null", b"[]", b'{"serial":"05"}', b'{"ground":"superseded"}', b'{"serial":5,"ground":"superseded"}', b'{"serial":"05","ground":null}',
        b'{"serial":"0","ground":"superseded"}', b'{"serial":"05","ground":""}', b'{"serial":"05","ground":"%s"}' % (b"a" * 65),
        b'{"serial":"05","ground":"superseded"', b'{"serial":"05","ground":"superseded"} x', b'{"serial":"05","ground":"\xff"}',
    )),
]  # fmt: skip


@test
def each_body_of_a_request_has_its_answer(t):
    desk = opened(t)
    for body, status, wanted in BODIES:
        got, _, told = parted(desk.ask("POST", "/requests", body))
        t.same((got, told), (status, wanted), repr(body))


@test
def a_request_for_revocation_of_65536_bytes_is_entered(t):
    """JSON may have any number of blanks behind its value (RFC 8259 2)."""
    body = b'{"serial":"05","ground":"superseded"}'.ljust(65_536)
    status, _, told = parted(opened(t).ask("POST", "/requests", body))
    t.same((status, told), (200, b'{"due":"2026-01-03T00:00:00Z","request":2}'))


@test
def an_ocsp_request_by_get_and_by_post_has_one_answer(t):
    desk = opened(t)
    request = bytes.fromhex("3042 3040 303e 303c 303a 300906052b0e03021a0500 0414 711d397671c9facf2242095925979a0698e46b11".replace(" ", "")
                            + "0414a9993e364706816aba3e25717850c26c9cd0d89d" + "020107")
    by_post = parted(desk.ask("POST", "/ocsp", request))
    by_get = parted(desk.ask("GET", "/ocsp/" + base64.b64encode(request).decode().replace("+", "%2B").replace("/", "%2F")))
    t.same(by_post[2], by_get[2], "the answers by POST and by GET")
    # The status revoked [1], with the moment and reason 4 (RFC 6960 4.2.1).
    t.true(bytes.fromhex("a116180f32303236303130323030303030305aa0030a0104") in by_post[2], f"it is not revoked with reason 4: {by_post[2].hex()}")


@test
def a_moment_before_the_last_is_a_conflict(t):
    desk = opened(t)
    t.clock("2026-01-01T23:59:59Z")
    wanted = b'{"error":"E01 clock-back 2026-01-02T00:00:00Z"}'
    for method, target, body in (("GET", "/counts", None), ("GET", "/status/05", None), ("POST", "/requests", b'{"serial":"05","ground":"asked"}')):
        status, _, told = parted(desk.ask(method, target, body))
        t.same((status, told), (409, wanted), target)
    t.same(parted(desk.ask("GET", "/crl"))[0], 200, "GET /crl, although the clock is behind the last command")


@test(seconds=3)
def no_prefix_of_a_request_is_answered(t):
    desk = opened(t)
    whole = b'POST /requests HTTP/1.1\r\nContent-Length: 37\r\n\r\n{"serial":"05","ground":"superseded"}'
    for end in range(len(whole)):
        with desk.connect() as client:
            client.sendall(whole[:end])
            client.shutdown(1)
            t.same(client.recv(100), b"", f"the response to the first {end} bytes of a request")
    t.same(parted(desk.send(whole))[2], b'{"due":"2026-01-03T00:00:00Z","request":2}', "the whole request, number 2 as no prefix was entered")


@each({"one byte": 1, "seven bytes": 7, "4,095 bytes": 4_095}, seconds=3)
def a_request_in_pieces_has_the_same_answer(t, size):
    desk = opened(t)
    request = b"POST /ocsp HTTP/1.1\r\nX: " + b"y" * 500 + b"\r\nContent-Length: 600\r\n\r\n" + bytes(600)
    whole = desk.send(request)
    with desk.connect() as client:
        client.setsockopt(6, 1, 1)
        for at in range(0, len(request), size):
            client.sendall(request[at : at + size])
            time.sleep(0.0005)
        got = b""
        while piece := client.recv(65_536):
            got += piece
    t.same(got, whole)


@test(seconds=4)
def a_body_of_65536_bytes_comes_one_at_a_time(t):
    desk = opened(t)
    with desk.connect() as client:
        client.setsockopt(6, 1, 1)
        client.sendall(b"POST /ocsp HTTP/1.1\r\nContent-Length: 65536\r\n\r\n")
        for _ in range(65_536):
            client.sendall(b"x")
        status, _, body = parted(read_all(client))
    t.same((status, body), (200, MALFORMED))


@test
def what_follows_a_request_is_not_answered(t):
    desk = opened(t)
    got = desk.send(b"GET /counts HTTP/1.1\r\n\r\nGET /status/05 HTTP/1.1\r\n\r\n")
    t.same(got.count(b"HTTP/1.1 "), 1, "responses on one connection")
