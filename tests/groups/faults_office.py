"""The disk, the sockets or the clock of an open desk fail. If the disk fails, the desk replies `F2 store` and goes on. If a connection fails, only
that one ends. If the clock can't be read, the desk ends with `F4 read`, and the register has each answered command."""

import contextlib
import socket
import time

from lib import faults, program
from lib.faults import DAY_1, DAY_2, LIFE, REGISTERED, STORE, Course, Office
from lib.program import parted
from lib.trial import each, test

FILES = "ca.db,ca.db-wal"
# The files, the kind of call, and whether only the Nth call fails or all later ones too (`+`).
FAILURES = {
    "a write of the log": ("ca.db-wal", "write", ""),
    "a sync": (FILES, "sync", ""),
    "a read": (FILES, "read", ""),
    "an opening": (FILES, "open", ""),
    "every write": (FILES, "write", "+"),
    "every sync": (FILES, "sync", "+"),
}


@each(FAILURES, seconds=8)
def the_store_fails_under_an_open_desk(t, only, kind, how):
    course = Course(t, t.register("base.db"), LIFE, (1, 1, 3), Office)
    at, met = 0, True
    while met:
        at += 1
        # Opening reads each page three times, so only the first 20 reads and then every seventh are tried.
        if kind == "read" and at > 20 and at % 7:
            continue
        met = course.round(STORE, 1, f"{kind} {at}{how} of {only}", only=only, fail=f"{kind}:{at}{how}")
    t.true(at > 2, f"only {at} rounds")


def text(lines):
    return "".join(f"{asked}\n" for asked, _ in lines)


REQUEST = b'POST /requests HTTP/1.1\r\nContent-Length: 37\r\n\r\n{"serial":"05","ground":"superseded"}'
ENTERED = b'{"due":"2026-01-03T00:00:00Z","request":1}'
ANSWER = (
    b"HTTP/1.1 200 OK\r\nDate: Fri, 02 Jan 2026 00:00:00 GMT\r\nContent-Type: application/json\r\nContent-Length: 42\r\nConnection: close\r\n\r\n" + ENTERED
)
COUNTS = b"GET /counts HTTP/1.1\r\n\r\n"
COUNTED = (
    b"HTTP/1.1 200 OK\r\nDate: Fri, 02 Jan 2026 00:00:00 GMT\r\nContent-Type: application/json\r\nContent-Length: 34\r\nConnection: close\r\n\r\n"
    b'{"expired":0,"good":1,"revoked":0}'
)
STATUS = b"GET /status/05 HTTP/1.1\r\n\r\n"
KNOWN = [(200, b'{"status":"good"}'), (200, b'{"expired":0,"good":1,"revoked":0}')]
STORE_FAILED = [(500, b'{"error":"F2 store"}')] * 2
REFUSED = b'POST /requests HTTP/1.1\r\nContent-Length: 37\r\n\r\n{"serial":"06","ground":"superseded"}'
UNKNOWN = (
    b"HTTP/1.1 409 Conflict\r\nDate: Fri, 02 Jan 2026 00:00:00 GMT\r\nContent-Type: application/json\r\nContent-Length: 30\r\nConnection: close\r\n\r\n"
    b'{"error":"E14 unknown-serial"}'
)
UNREAD = b"POST /requests HTTP/1.1\r\nContent-Length: 2\r\n\r\n[]"
SYNTAX = (
    b"HTTP/1.1 400 Bad Request\r\nDate: Fri, 02 Jan 2026 00:00:00 GMT\r\nContent-Type: application/json\r\nContent-Length: 22\r\nConnection: close\r\n\r\n"
    b'{"error":"E22 syntax"}'
)
# A request, its response, and how many requests for revocation it enters.
EXCHANGES = {
    "a query": (COUNTS, COUNTED, 0),
    "a request for revocation": (REQUEST, ANSWER, 1),
    "a request that is refused": (REFUSED, UNKNOWN, 0),
    "a body of another form": (UNREAD, SYNTAX, 0),
}
TROUBLES = ("", "=0", "=ECONNRESET")


def served(t, base, exchange, where, **told):
    """Sends a request to a desk with a fault, and checks that the desk answers the next client as usual. Returns the response, whether the fault
    occurred, and how many requests for revocation the register has."""
    faults.copy(base, t.room / "ca.db")
    (t.room / "clock").write_text(str(program.seconds_of(DAY_2)))
    env = faults.environment(count=t.room / "count", same=1, only="socket", **told)
    with program.Opened(["serve", "ca.db", "--requests", "2"], cwd=t.room, clock=t.room / "clock", faults=env) as desk:
        got = desk.send(exchange)
        met = faults.counted(t.room / "count")["met"]
        t.same(desk.send(COUNTS), COUNTED, f"{where}: the response to the next client")
        ended = desk.wait()
    t.same((ended.status, ended.err), (0, b""), f"{where}: status and standard error of the desk")
    return got, met, len(faults.tables(t.room / "ca.db")["request"])


@each(EXCHANGES, seconds=15)
def a_read_from_a_client_fails(t, request, response, entered):
    base = t.register("base.db", text(REGISTERED))
    # Each read moves one byte. Each of them fails in a run, also that of the last byte.
    for at in range(1, len(request) + 1):
        for how in TROUBLES:
            where = f"read {at}{how}"
            got, met, stand = served(t, base, request, where, short=1, fail=f"read:{at}{how}")
            t.same((got, met, stand), (b"", 1, 0), f"{where}: the response, the faults, the requests in the register")


@each(EXCHANGES, seconds=20)
def a_write_to_a_client_fails(t, request, response, entered):
    base = t.register("base.db", text(REGISTERED))
    for at in range(1, len(response) + 1):
        for how in TROUBLES[:2] if at % 3 else TROUBLES[2:]:
            where = f"write {at}{how}"
            got, met, stand = served(t, base, request, where, short=1, fail=f"write:{at}{how}")
            t.same((got, met, stand), (response[: at - 1], 1, entered), f"{where}: the response, the faults, the requests in the register")


@each({"a read": "read", "a write": "write"}, seconds=2)
def a_signal_at_a_client_s_socket_changes_nothing(t, kind):
    base = t.register("base.db", text(REGISTERED))
    for at in (1, 2, len(REQUEST)):
        got, met, stand = served(t, base, REQUEST, f"{kind} {at}", short=1, fail=f"{kind}:{at}=EINTR")
        t.same((got, met, stand), (ANSWER, 1, 1), f"{kind} {at}: the response, the faults, the requests in the register")


@each({"a read": "read", "a write": "write"})
def a_signal_at_a_control_connection_changes_nothing(t, kind):
    t.register(lines=text(REGISTERED))
    t.clock(DAY_2)
    for at in (1, 2):
        desk = t.open(faults=faults.environment(count=t.room / "count", only="socket", fail=f"{kind}:{at}=EINTR"))
        with program.Control(t.room / "control") as control:
            t.same([control.ask("status 05") for _ in range(2)], ["good", "good"], f"the replies, with {kind} {at} interrupted")
        t.same(faults.counted(t.room / "count")["met"], 1, "the number of injected faults")
        desk.end()
        (t.room / "control").unlink(missing_ok=True)


@test(seconds=3)
def pieces_of_any_size_are_the_same(t):
    base = t.register("base.db", text(REGISTERED))
    for name, (request, response, entered) in EXCHANGES.items():
        for size in (1, 2, 3, 7, 64, 10_000):
            got, _, stand = served(t, base, request, f"{name} by {size} bytes", short=size)
            t.same((got, stand), (response, entered), f"{name} in pieces of {size} bytes")


@test(seconds=3)
def a_change_by_http_that_is_not_stored_is_reported(t):
    base = t.register("base.db", text(REGISTERED))
    (t.room / "clock").write_text(str(program.seconds_of(DAY_2)))
    for kind in ("write", "sync"):
        at, told = 0, 0
        while True:
            at += 1
            faults.copy(base, t.room / "ca.db")
            env = faults.environment(count=t.room / "count", same=1, only=FILES, fail=f"{kind}:{at}")
            with program.Opened(["open", "ca.db", "--control", "control", "--unsigned"], cwd=t.room, clock=t.room / "clock", faults=env) as desk:
                if desk.listens:
                    status, _, body = parted(desk.send(REQUEST))
                    met = faults.counted(t.room / "count")["met"]
                    t.true((status, body) == (200, ENTERED) or (met and (status, body) == (500, b'{"error":"F2 store"}')), f"{kind} {at}: {status} {body}")
                    told += status == 500
                    stood = len(faults.tables(t.room / "ca.db")["request"])
                    t.true(stood == 1 or status == 500, f"{kind} {at}: the register lacks the answered request")
                    # If the disk may or may not have the change, the desk answers no query until the register is opened again.
                    behind = [parted(desk.send(it))[::2] for it in (STATUS, COUNTS)]
                    t.true(behind in (KNOWN, STORE_FAILED if status == 500 else KNOWN), f"{kind} {at}: the next responses are {behind}")
                desk.end()
            (t.room / "control").unlink(missing_ok=True)
            again = faults.sound_run(t, ["script", "ca.db"], f"{DAY_2} request 05 superseded\n")
            if desk.listens:
                t.same(again.out, b"request %d due 2026-01-03T00:00:00Z\n" % (stood + 1), f"{kind} {at}: the request after reopening")
            faults.audited(t, "ca.db", (1, 0, 0), f"{kind} {at}")
            if not faults.counted(t.room / "count")["met"]:
                break
        t.true(told, f"no {kind} failed during a request")


@each({"accept": "accept:1=ECONNABORTED", "poll": "poll:2=EINTR"}, seconds=1)
def an_interrupted_call_is_repeated(t, fail):
    t.register(lines=text(REGISTERED))
    t.clock(DAY_2)
    opened = t.open(faults=faults.environment(count=t.room / "count", fail=fail))
    t.same([opened.send(COUNTS) for _ in range(3)], [COUNTED] * 3)
    t.same(faults.counted(t.room / "count")["met"], 1, "the number of injected faults")


@test(seconds=3)
def a_connection_that_the_kernel_does_not_poll_counts_as_a_request(t):
    """`serve` accepts no more connections than requests. So a connection for which epoll_ctl fails counts as one, or `serve` would wait for ever."""
    base = t.register("base.db", text(REGISTERED))
    for at in range(1, 20):
        faults.copy(base, t.room / "ca.db")
        env = faults.environment(count=t.room / "count", fail=f"watch:{at}")
        with program.Opened(["serve", "ca.db", "--requests", "2"], cwd=t.room, faults=env) as desk:
            for _ in range(2 if desk.listens else 0):
                with contextlib.suppress(ConnectionError), socket.create_connection(("127.0.0.1", desk.port), 10) as client:
                    client.sendall(COUNTS[:9])
                    time.sleep(0.05)
                    client.sendall(COUNTS[9:])
                    program.read_all(client)
            desk.process.wait(20 * program.PATIENCE)
            ended = desk.wait()
            t.same((ended.status, ended.err), (0, b"") if desk.listens else (1, b"F4 read\n"), f"call {at} of epoll_ctl fails")
        if not faults.counted(t.room / "count")["met"]:
            break
    t.true(2 < at < 19, f"{at - 1} calls of epoll_ctl")


@each({"a socket": "socket:1", "the port": "bind:1", "listening": "listen:1"}, seconds=1)
def where_it_can_not_listen_nothing_is_written(t, fail):
    base = t.register("base.db", text(REGISTERED))
    for words in (["open", "ca.db", "--control", "control", "--unsigned"], ["serve", "ca.db", "--requests", "1"]):
        faults.copy(base, t.room / "ca.db")
        ran, count = faults.run(t, [*words, "--port", str(program.free_port())], fail=fail)
        t.same((ran.status, ran.out, ran.err, count["met"]), (1, b"", b"F4 read\n", 1), f"{words[0]}, {fail}")
        t.same(faults.tables(t.room / "ca.db"), faults.tables(base), "the tables")


@test(seconds=2)
def a_clock_that_can_not_be_read_ends_an_open_desk(t):
    base, asked = t.register("base.db", text(REGISTERED)), ["counts", "request 05 superseded", "revoke 1", "status 05"]
    replies = ["good 1 revoked 0 expired 0", "request 1 due 2026-01-03T00:00:00Z", "revoked", f"revoked {DAY_2} reason 4"]
    (t.room / "clock").write_text(str(program.seconds_of(DAY_2)))
    seen = set()
    for at in range(1, 12):
        faults.copy(base, t.room / "ca.db")
        (t.room / "control").unlink(missing_ok=True)
        env = faults.environment(count=t.room / "count", same=1, fail=f"clock:{at}+")
        with program.Opened(["open", "ca.db", "--control", "control", "--unsigned", "--why"], cwd=t.room, clock=t.room / "clock", faults=env) as desk:
            got = []
            if desk.listens:
                with program.Control(t.room / "control") as control, contextlib.suppress(OSError):
                    for it in asked:
                        got += [reply for reply in [control.ask(it)] if reply]
            met = faults.counted(t.room / "count")["met"]
            ended = desk.wait() if met else desk.end()
        t.same(got, replies[: len(got)], f"clock read {at}: the replies")
        t.same((ended.status, ended.err), (1, b"F4 read\n  the machine's clock can't be read\n") if met else (-15, b""), f"clock read {at}: end")
        stand = faults.sound_run(t, ["script", "ca.db"], f"{DAY_2} status 05\n").out.decode()
        t.same(stand, f"{replies[3]}\n" if len(got) > 2 else "good\n", f"clock read {at}: the status in the register")
        seen.add(len(got))
    t.true(len(seen) > 2 and 4 in seen, f"the clock failed only after these numbers of replies: {seen}")


@test(seconds=2)
def a_clock_that_can_not_be_read_ends_a_clocked_script(t):
    """If the clock can't be read, `desk script --clock` ends. The register has each command that was answered before, and no later line runs."""
    base, asked = t.register("base.db", text(REGISTERED)), ["counts", "request 05 superseded", "revoke 2", "revoke 1", "status 05"]
    replies = ["good 1 revoked 0 expired 0", "request 1 due 2026-01-03T00:00:00Z", "E17 no-request", "revoked", f"revoked {DAY_2} reason 4"]
    (t.room / "clock").write_text(str(program.seconds_of(DAY_2)))
    seen = set()
    for at in range(1, 12):
        faults.copy(base, t.room / "ca.db")
        given = "".join(f"{it}\n" for it in asked)
        ran, count = faults.run(t, ["script", "ca.db", "--clock", "--why"], given, clock=t.room / "clock", fail=f"clock:{at}+")
        t.same((ran.status, ran.err), (1, b"F4 read\n  the machine's clock can't be read\n") if count["met"] else (0, b""), f"clock read {at}: end")
        t.same(ran.lines, replies[: len(ran.lines)], f"clock read {at}: the replies")
        stand = faults.sound_run(t, ["script", "ca.db"], f"{DAY_2} status 05\n").out.decode()
        t.same(stand, f"{replies[4]}\n" if len(ran.lines) > 3 else "good\n", f"clock read {at}: the status in the register")
        seen.add(len(ran.lines))
    t.same(seen, set(range(len(asked) + 1)), "the numbers of replies before the clock failed")


@each({"before 1970": (-1, f"E01 clock-back {DAY_1}"), "past 9999": (253_402_300_800, "E02 clock-end")}, seconds=1)
def a_clock_out_of_range_is_refused(t, seconds, wanted):
    t.register(lines=text(REGISTERED))
    t.clock(DAY_1)
    opened, control = t.open(), t.control()
    t.same(control.ask("counts"), "good 1 revoked 0 expired 0")
    # The operator accepts a clock near its last moment, so the desk does not refuse it as far ahead.
    t.same(control.ask("accept-clock 9999-12-21T23:59:59Z"), "clock accepted")
    t.clock(seconds)
    t.same(control.ask("subscriber late"), wanted, "the reply to a line under this clock")
    t.same(parted(opened.send(COUNTS))[::2], (409, b'{"error":"%s"}' % wanted.encode()), "the response to a request under this clock")
    t.clock(DAY_1)
    t.same(control.ask("subscriber b"), "subscriber 2", "nothing was entered, and the desk goes on")
