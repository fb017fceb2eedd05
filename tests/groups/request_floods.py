"""Floods of requests for revocation over HTTP: which ones an open desk accepts, the rows it keeps for the control socket, and the warnings."""

import json

from lib import program
from lib.program import moment_of, parted
from lib.trial import test

DAY = "2026-01-01T00:00:00Z"
FIRST = program.seconds_of(DAY)
LATER = "Retry-After: 60"


def certificates(count):
    """Lines that register this number of certificates, with the serial numbers 1, 2, .."""
    lines = ["subscriber acme"]
    for number in range(1, count + 1):
        lines += ["order 1 90", f"register {number} {number:02x} 2026-01-01T00:00:00Z 2026-02-01T00:00:00Z"]
    return "".join(f"{it}\n" for it in lines)


def opened(t, count, *options, command="open", **how):
    """An open register with this number of certificates."""
    t.register(options=options)
    t.clock(DAY)
    desk = t.open("ca.db", command=command, **how)
    if command == "open":
        t.done("at", "control", given=certificates(count))
    return desk


def asked(desk, serial):
    """The status, the Retry-After, and the id or the error of a request over HTTP."""
    status, fields, body = parted(desk.ask("POST", "/requests", json.dumps({"serial": f"{serial:02x}", "ground": "superseded"})))
    told = json.loads(body)
    return status, [it for it in fields if it.startswith("Retry-After")], told.get("error", told.get("request"))


def health(desk):
    return json.loads(parted(desk.ask("GET", "/health"))[2])


@test
def three_open_requests_of_a_serial_number(t):
    """Over HTTP a serial number can have three open requests. The control socket accepts more. A declined request no longer counts."""
    desk = opened(t, 2)
    t.same([asked(desk, 1) for _ in range(5)], [(200, [], 1), (200, [], 2), (200, [], 3), (429, [LATER], "429"), (429, [LATER], "429")])
    t.same(asked(desk, 2), (200, [], 4), "another serial number")
    with t.control() as control:
        t.same(control.ask("request 01 superseded"), "request 5 due 2026-01-02T00:00:00Z")
        t.same([control.ask("decline 1"), asked(desk, 1)], ["declined", (429, [LATER], "429")], "while three requests are open")
        t.same([control.ask("decline 5"), asked(desk, 1)], ["declined", (200, [], 6)], "while two requests are open")
        t.same(control.ask("revoke 6"), "revoked")
    t.same(asked(desk, 1), (409, [], "E19 revoked-before 2026-01-01T00:00:00Z"), "a revoked certificate, which has no open request")
    t.same(asked(desk, 99), (409, [], "E14 unknown-serial"))


@test
def an_unknown_ground_is_refused_by_the_register(t):
    """For a request with an unknown ground the desk looks up no open requests, and does not count it towards the limit."""
    desk = opened(t, 1)
    for _ in range(3):
        asked(desk, 1)
    for _ in range(100):
        t.same(parted(desk.ask("POST", "/requests", '{"serial":"01","ground":"none"}'))[::2], (409, b'{"error":"E16 bad-ground"}'))
    t.same(parted(desk.ask("POST", "/requests", '{"serial":"xy","ground":"asked"}'))[0], 400)
    t.same(asked(desk, 99), (409, [], "E14 unknown-serial"))


@test
def a_declined_request_makes_room_wherever_it_stands(t):
    desk = opened(t, 2)
    for number in (1, 2, 1, 2, 1, 2):
        t.same(asked(desk, number)[0], 200)
    t.same((asked(desk, 1)[0], asked(desk, 2)[0]), (429, 429))
    with t.control() as control:
        t.same(control.ask("decline 3"), "declined")
    t.same((asked(desk, 2)[0], asked(desk, 1), asked(desk, 1)[0]), (429, (200, [], 7), 429))


@test(seconds=3)
def a_hundred_a_minute(t):
    """Each request for revocation that the desk looks up counts for a minute, whether it is accepted or refused. At most a hundred may count."""
    desk = opened(t, 40)
    for number in range(60):
        t.same(asked(desk, number // 3 + 1), (200, [], number + 1))
    t.clock(moment_of(FIRST + 30))
    t.same([asked(desk, 1)[0] for _ in range(5)] + [asked(desk, 99)[0] for _ in range(5)], [429] * 5 + [409] * 5, "refused requests")
    for number in range(60, 90):
        t.same(asked(desk, number // 3 + 1), (200, [], number + 1))
    t.same(asked(desk, 40), (429, [LATER], "429"), "the 101st request")
    t.same(asked(desk, 99), (429, [LATER], "429"), "one for an unknown serial number")
    with t.control() as control:
        t.same(control.ask("request 28 asked"), "request 91 due 2026-01-02T00:00:30Z", "at the control socket")
    t.clock(moment_of(FIRST + 59))
    t.same(asked(desk, 40), (429, [LATER], "429"), "59 seconds after the first requests")
    t.clock(moment_of(FIRST + 60))
    for number in range(60):
        t.same(asked(desk, 35 + number // 12)[0], 200 if number % 12 < 3 else 429)
    t.same(asked(desk, 99), (429, [LATER], "429"), "after sixty more requests, and forty of the last minute")
    t.same(program.parted(desk.ask("GET", "/counts"))[0], 200, "other routes have no limit")


@test(seconds=2)
def behind_a_thousand_requests_another_one_is_entered(t):
    desk = opened(t, 2)
    t.done("at", "control", given="request 01 superseded\n" * 1_001)
    t.same(asked(desk, 2), (200, [], 1_002))


@test(seconds=2)
def more_than_a_thousand_open_requests_are_counted(t):
    desk = opened(t, 2)
    t.done("at", "control", given="request 01 superseded\n" * 1_001)
    t.has(parted(desk.ask("GET", "/metrics"))[2].decode(), "\ndesk_requests_open 1001\n", "the metrics")


@test
def a_tenth_of_the_room_is_kept_for_the_control_socket(t):
    """With a cap of 20, requests over HTTP are refused from the 20th on, and /health fails from the 17th on. A revocation needs no room."""
    desk = opened(t, 8, "--cap", "20")
    with t.control() as control:
        t.same(control.ask("crl"), "crl 1 entries 0")
        for number in range(1, 17):
            t.same(control.ask(f"request {number % 8 + 1:02x} asked").split()[1], str(number))
        t.same((health(desk)["status"], health(desk)["rows"]), ("ok", None), "four rows are left")
        t.same(control.ask("request 01 asked").split()[1], "17")
        t.same((health(desk)["status"], health(desk)["rows"]), ("failing", DAY), "three rows are left")
        t.same(control.ask("request 01 asked").split()[1], "18")
        t.same(asked(desk, 5), (200, [], 19), "two rows are left")
        t.same(asked(desk, 5), (503, [], "503"), "one row is left")
        t.same(asked(desk, 99), (503, [], "503"), "one for an unknown serial number")
        t.same(control.ask("request 02 key-compromise").split()[1], "20", "at the control socket")
        t.same(control.ask("request 02 key-compromise"), "E03 full")
        t.same([control.ask(it) for it in ("revoke 20", "crl")], ["revoked", "crl 2 entries 1"])
        t.same(asked(desk, 6), (503, [], "503"), "no row is left")


@test
def desk_serve_has_no_limits(t):
    t.register(lines="".join(f"2026-01-01T00:00:00Z {it}" for it in certificates(1).splitlines(True)), options=("--cap", "10"))
    t.clock(DAY)
    desk = t.open("ca.db", "--requests", "11", command="serve")
    t.same([asked(desk, 1) for _ in range(11)], [*((200, [], number) for number in range(1, 11)), (409, [], "E03 full")])


@test
def rows_and_answers_are_counted(t):
    desk = opened(t, 2)
    for _ in range(5):
        asked(desk, 1)
    found = parted(desk.ask("GET", "/metrics"))[2].decode().splitlines()
    for line in ('desk_rows{table="subscribers"} 1', 'desk_rows{table="orders"} 2', 'desk_rows{table="certificates"} 2', 'desk_rows{table="requests"} 3', 'desk_rows{table="crls"} 0',
                 "desk_rows_cap 1000000", 'desk_http_responses_total{route="/requests",code="200"} 3', 'desk_http_responses_total{route="/requests",code="429"} 2'):
        t.true(line in found, line)
