"""A client requests each route of `desk serve` while one allocation fails. The response is the usual one, or reports that the desk is out of memory,
or is missing. In these two cases nothing is entered, and the same request then succeeds. To an OCSP request the desk doesn't answer internalError:
that would say that the store or the signer failed."""

from lib import faults, program
from lib.faults import DAY_1, DAY_2, OCSP_REQUEST, PAST_END
from lib.trial import each

LINES = (
    f"{DAY_1} subscriber acme\n" + f"{DAY_1} order 1 398\n" * 3 + f"{DAY_1} register 1 05 {DAY_1} 2026-01-10T00:00:00Z\n"
    f"{DAY_1} register 2 06 {DAY_1} 2026-01-10T00:00:00Z\n{DAY_2} request 05 key-compromise\n{DAY_2} revoke 1\n{DAY_2} crl\n{PAST_END} crl\n"
    f"{PAST_END} register 3 0A {PAST_END} 2027-01-01T00:00:00Z\n"
)
OCSP = bytes.fromhex(OCSP_REQUEST)
BY_GET = (
    b"GET /ocsp/MGcwZTA%2BMDwwOjAJBgUrDgMCGgUABBRxHTl2ccn6zyJCCVkll5oGmORrEQQUqZk%2BNkcGgWq6PiVxeFDCbJzQ2J0CAQWiIzAhMB8GCSsGAQUFBzABAgQSBBAAAQIDBAUGBwgJCgsMDQ4P"
    b" HTTP/1.1\r\n\r\n"
)
BODY = b'{"serial":"0A","ground":"superseded"}'
# Each request, its status, and a part of its response. Only the last request changes the tables.
ROUTES = [
    (b"GET /counts HTTP/1.1\r\n\r\n", b"200", b'{"expired":1,"good":1,"revoked":1}'),
    (b"GET /status/05 HTTP/1.1\r\n\r\n", b"200", b'{"at":"2026-01-02T00:00:00Z","reason":1,"status":"revoked"}'),
    (b"GET /status/07 HTTP/1.1\r\n\r\n", b"200", b'{"status":"unknown"}'),
    (b"GET /crl HTTP/1.1\r\n\r\n", b"200", b"260110000001Z"),
    (b"GET /crl/1 HTTP/1.1\r\n\r\n", b"200", b"260102000000Z"),
    (b"GET /crl/9 HTTP/1.1\r\n\r\n", b"404", b'{"error":"E21 no-crl"}'),
    (b"POST /ocsp HTTP/1.1\r\nContent-Length: %d\r\n\r\n%s" % (len(OCSP), OCSP), b"200", b"20260102000000Z"),
    (BY_GET, b"200", b"20260102000000Z"),
    (b"GET /nowhere HTTP/1.1\r\n\r\n", b"404", b'{"error":"404"}'),
    (b"POST /requests HTTP/1.1\r\nContent-Length: %d\r\n\r\n%s" % (len(BODY), BODY), b"200", b'{"due":"2026-01-11T00:00:01Z","request":2}'),
]
NO_MEMORY = b"HTTP/1.1 500 Internal Server Error\r\nConnection: close\r\nContent-Length: 0\r\n\r\n"
PARTS = 8


def is_answer(got, status, held):
    return got.startswith(b"HTTP/1.1 " + status) and held in got


def is_refused(got):
    """Whether a response reports that the desk is out of memory, or is empty. If there is no memory even for the Date field, it is NO_MEMORY."""
    told = b"\r\n\r\n" + b'{"error":"F1 memory"}'
    return got in (b"", NO_MEMORY) or (got.startswith(b"HTTP/1.1 500 ") and got.endswith(told))


def served(t, base, at):
    """Requests all routes while allocation `at` fails (0: none). Returns the count of allocations when the desk listened, and at the end."""
    faults.copy(base, t.room / "ca.db")
    env = faults.environment(count=t.room / "count", same=1, fail=f"alloc:{at}" if at else None)
    with program.Opened(["serve", "ca.db", "--requests", "1000"], cwd=t.room, clock=t.room / "clock", faults=env) as desk:
        first = faults.counted(t.room / "count")["alloc"]
        if not desk.listens:
            ended = desk.wait()
            t.same((ended.status, ended.err), (1, b"F1 memory\n"), f"allocation {at}, before the desk listens")
            return first, first
        for number, (request, status, held) in enumerate(ROUTES):
            got = desk.send(request)
            if not is_answer(got, status, held):
                t.true(at and is_refused(got), f"allocation {at}: {request[:40]}: {got!r}")
                t.same(len(faults.tables(t.room / "ca.db")["request"]), 1, f"allocation {at}: requests for revocation in the register")
                got = desk.send(request)
                t.true(is_answer(got, status, held), f"allocation {at}: {request[:40]} again: {got!r}")
        desk.end()
    last = faults.counted(t.room / "count")["alloc"]
    t.same(len(faults.tables(t.room / "ca.db")["request"]), 2, f"allocation {at}: requests for revocation at the end")
    return first, last


@each({f"part {it}": it for it in range(PARTS)}, seconds=15)
def a_route_goes_on_after_a_refusal(t, part):
    base = t.register("base.db", LINES)
    (t.room / "clock").write_text(str(program.seconds_of(PAST_END)))
    first, last = served(t, base, 0)
    t.true(last > first + 100, f"only {last - first} allocations for the routes")
    # Of the allocations before the desk listens, every 61st fails in a run; of the later ones, each.
    for at in [*faults.places(first, 0, 61), *faults.places(last, last, 1, first + 1)][part::PARTS]:
        served(t, base, at)


@each({"a GET": b"GET", "a method of another name": b"AS-LONG-AS-THAT-OF-NO-METHOD"}, seconds=5)
def a_request_that_came_is_answered_without_memory(t, method):
    """A client that gets no answer can't tell what failed. There is none only without the first two allocations: for the connection, and for the text
    of an answer."""
    base = t.register("base.db", LINES)
    (t.room / "clock").write_text(str(program.seconds_of(PAST_END)))

    def run(at):
        """The counts of allocations when the desk listens, and after its answer; and the answer."""
        faults.copy(base, t.room / "ca.db")
        env = faults.environment(count=t.room / "count", same=1, fail=f"alloc:{at}" if at else None)
        with program.Opened(["serve", "ca.db", "--requests", "1000"], cwd=t.room, clock=t.room / "clock", faults=env) as desk:
            first = faults.counted(t.room / "count")["alloc"]
            got = desk.send(method + b" /nowhere HTTP/1.1\r\n\r\n")
            last = faults.counted(t.room / "count")["alloc"]
            desk.end()
        return first, last, got

    first, last, _ = run(0)
    for at in faults.places(last - first, 12, 12):
        t.same(run(first + at)[2], b"" if at <= 2 else NO_MEMORY, f"the answer without allocation {at} of {last - first}")
