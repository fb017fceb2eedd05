"""In each run one allocation fails. The command that needed it reports `F1 memory` and changes nothing, or succeeds. Later commands have their
usual replies. The tests try each of the first allocations, and then only every Nth, because a repeated statement allocates the same."""

import socket
import threading

from lib import faults, program
from lib.faults import CHANGES, LIFE, MEMORY, REGISTERED, Course
from lib.program import parted
from lib.trial import Failed, each, test

DAY = "2026-01-01T00:00:00Z"
LATER = "2026-01-02T00:00:00Z"
SOON = "2026-01-02T00:00:01Z"
# Each of the first EACH allocations fails in a run, and then every STRIDE-th one.
EACH, STRIDE = 200, 37
PARTS = 4


def script(lines):
    return "".join(f"{asked}\n" for asked, _ in lines)


def part_of(last, part):
    """One part of the call numbers to try. Each part is a test of its own, so the parts run in parallel."""
    return faults.places(last, EACH, STRIDE)[part::PARTS]


def course_of(t, lines, sound, before=()):
    return Course(t, t.register("base.db", script(before)), lines, sound)


@each({f"part {it}": it for it in range(PARTS)}, seconds=15)
def a_script_goes_on_after_a_refusal(t, part):
    course = course_of(t, LIFE, (1, 1, 3))
    faults.copy(course.base, t.room / "ca.db")
    last = faults.total(t, ["script", "ca.db"], "alloc", script(LIFE))
    t.true(last > 2_000, f"only {last} allocations")
    for at in part_of(last, part):
        course.round(MEMORY, 0, f"allocation {at}", fail=f"alloc:{at}")


@each({f"part {it}": it for it in range(PARTS)}, seconds=15)
def a_script_of_the_other_commands_goes_on_after_a_refusal(t, part):
    course = course_of(t, CHANGES, (1, 0, 0), REGISTERED)
    faults.copy(course.base, t.room / "ca.db")
    last = faults.total(t, ["script", "ca.db"], "alloc", script(CHANGES))
    for at in part_of(last, part):
        course.round(MEMORY, 0, f"allocation {at}", fail=f"alloc:{at}")


# Lines that LIFE and CHANGES lack: the other queries, and refused lines.
QUERIES = [
    (f"{SOON} overdue", "overdue 1 first 1"),
    (f"{SOON} status 05", f"revoked {DAY} reason 0"),
    (f"{SOON} status 06", "good"),
    (f"{SOON} listing 05", "listing first 1"),
    (f"{SOON} next-crl", "next-crl 2026-01-08T00:00:00Z"),
    (f"{SOON} order 1 399", "E07 bad-days 398"),
    (f"{SOON} subscriber acme", "E05 name-taken 1"),
    (f"{SOON} revoke 2", f"E19 revoked-before {DAY}"),
    (f"{SOON} nonsense", "E22 syntax"),
]
BEFORE = "".join(
    f"{DAY} {it}\n"
    for it in (
        "subscriber acme", "order 1 398", "order 1 398", f"register 1 05 {DAY} 2026-01-10T00:00:00Z", f"register 2 06 {DAY} 2026-01-10T00:00:00Z",
        "request 06 asked", "request 05 asked", "revoke 2", "crl",
    )
)  # fmt: skip


@each({f"part {it}": it for it in range(PARTS)}, seconds=15)
def a_script_of_queries_and_refusals_goes_on_after_a_refusal(t, part):
    course = Course(t, t.register("base.db", BEFORE), QUERIES, (2, 1, 1))
    faults.copy(course.base, t.room / "ca.db")
    last = faults.total(t, ["script", "ca.db"], "alloc", script(QUERIES))
    for at in part_of(last, part):
        course.round(MEMORY, 0, f"allocation {at}", fail=f"alloc:{at}")


CRL = "a CRL's bytes"
JOBS = {
    "init": (["init", "ca.db", "--name", program.NAME, "--key", program.KEY], "", None),
    "import": (["import", "ca.db", "--now", DAY], f"2,06,{DAY},2026-01-10T00:00:00Z\n", "base.db"),
    "schedule": (["schedule", "ca.db", "1970-01-01T00:00:00Z=398", "2026-03-15T00:00:00Z=200"], "", "base.db"),
    "init with a key identifier": (["init", "ca.db", "--name", program.NAME, "--key", program.KEY, "--key-id", "0102030405"], "", None),
    "key-id": (["key-id", "ca.db", "0102030405"], "", "base.db"),
    "crl": (["crl", "ca.db"], "", "base.db"),
    "list": (["list", "ca.db", "certificates", "--now", DAY], "", "base.db"),
    "list as JSON": (["list", "ca.db", "orders", "--now", DAY, "--json"], "", "base.db"),
    "audit": (["audit", "ca.db"], "", "base.db"),
}


@each(JOBS, seconds=15)
def a_job_that_is_refused_is_done_the_next_time(t, words, given, base):
    base = base and t.register(base, script(REGISTERED) + f"{DAY} order 1 398\n{DAY} crl\n")
    faults.copy(base, t.room / "ca.db")
    before = faults.tables(t.room / "ca.db")
    usual, count = faults.run(t, words, given)
    t.same((usual.status, usual.err), (0, b""), "status and standard error without a fault")
    after = faults.tables(t.room / "ca.db")
    for at in faults.places(count["alloc"], EACH, STRIDE):
        faults.copy(base, t.room / "ca.db")
        ran, count = faults.run(t, words, given, fail=f"alloc:{at}")
        where, found = f"allocation {at}", faults.tables(t.room / "ca.db")
        t.same(count["met"], 1, f"{where}: the number of injected faults")
        if (ran.status, ran.out) == (0, usual.out):
            t.same(found, after, f"{where}: the tables after a command that succeeded")
        elif words[0] == "import" and ran.out == b"F1 memory\n":
            # The import gives this reply to a row that runs out of memory, and goes on.
            t.same((ran.status, found), (0, before), f"{where}: status and tables after `F1 memory`")
        else:
            t.same((ran.status, ran.out, ran.err), (1, b"", b"F1 memory\n"), where)
            t.true(found in (before, None) or words[0] == "init", f"{where}: the tables: {found}")
        again = program.run(words, given, cwd=t.room)
        if ran.status:
            t.same((again.status, again.out), (0, usual.out), f"{where}: the same command again")
        t.same(faults.tables(t.room / "ca.db"), after, f"{where}: the tables at the end")


@test(seconds=6)
def an_audit_that_has_no_memory_for_what_it_read_says_so(t):
    """From some allocation on there is none. An auditor who is told of the store would look at the disk."""
    t.register(lines=script(REGISTERED) + f"{DAY} order 1 398\n{DAY} crl\n")
    last = faults.total(t, ["audit", "ca.db"], "alloc")
    # It has read all rows by then, and compares them.
    for at in (*range(last - 800, last - 12, 3), *range(last - 12, last + 1)):
        ran, count = faults.run(t, ["audit", "ca.db"], fail=f"alloc:{at}+")
        t.same((ran.status, ran.out, ran.err), (1, b"", b"F1 memory\n"), f"allocation {at} of {last}")


@each({"a list": ("list", 12, 1), "a new key identifier": ("key-id", 120, 3)}, seconds=4)
def a_job_that_has_no_memory_at_its_end_says_so(t, name, many, step):
    """From some allocation on there is none: of the last `many`, each `step`th is tried."""
    words, given, base = JOBS[name]
    base = t.register(base, script(REGISTERED) + f"{DAY} crl\n")
    faults.copy(base, t.room / "ca.db")
    usual, count = faults.run(t, words, given)
    t.same(usual.status, 0, "the status without a fault")
    last = count["alloc"]
    for at in range(last - many, last + 1, step):
        faults.copy(base, t.room / "ca.db")
        ran, _ = faults.run(t, words, given, fail=f"alloc:{at}+")
        t.true((ran.status, ran.out, ran.err) in ((1, b"", b"F1 memory\n"), (0, usual.out, b"")), f"allocation {at} of {last}: {ran}")


@test
def a_desk_that_has_no_memory_to_listen_says_so(t):
    """From one of the last twelve allocations before it listens there is none. An operator who is told of a read would look at the port."""
    t.register()
    words = ["open", "ca.db", "--control", "control", "--unsigned"]

    def opened(fail=None):
        (t.room / "control").unlink(missing_ok=True)
        return t.enter_context(program.Opened(words, cwd=t.room, faults=faults.environment(count=t.room / "count", same=1, fail=fail)))

    desk = opened()
    last = faults.counted(t.room / "count")["alloc"]
    desk.end()
    for at in range(last - 11, last + 1):
        ended = opened(f"alloc:{at}+").wait()
        t.same((ended.status, ended.out, ended.err), (1, b"", b"F1 memory\n"), f"allocation {at} of {last}")


@each({"copy": (["copy", "ca.db", "copy.db"], "", None), **{name: JOBS[name] for name in ("import", "list", "audit")}})
def a_file_that_the_system_has_no_memory_to_open(t, words, given, base):
    """open(2) fails with ENOMEM. An operator who is told of the store looks at the disk."""
    t.register(lines=script(REGISTERED))
    files = "ca.db,ca.db-wal,copy.db.part"
    last = faults.total(t, words, "open", given, only=files)
    (t.room / "copy.db").unlink(missing_ok=True)
    for at in range(1, last + 1):
        ran, count = faults.run(t, words, given, only=files, fail=f"open:{at}=ENOMEM")
        t.same((ran.status, ran.out, ran.err, count["met"]), (1, b"", b"F1 memory\n", 1), f"open {at}")


@test(seconds=6)
def a_script_without_a_file_that_has_no_memory_says_so(t):
    """Its register is in memory. A line that runs out of memory has that reply, and an operator who is told of the store would look for a file."""
    given = script(LIFE)
    last = faults.total(t, ["script"], "alloc", given)
    # A run without a register ends where this one creates its own.
    first = faults.run(t, ["script", "no.db"])[1]["alloc"]
    for at in sorted({*range(first - 30, first + 60), *range(first, last, 197)}):
        ran, count = faults.run(t, ["script"], given, fail=f"alloc:{at}")
        t.true((ran.status, ran.err) in ((0, b""), (1, b"F1 memory\n")) and "F2 store" not in ran.lines, f"allocation {at} of {last}: {ran}")


@test(seconds=3)
def a_script_with_a_signer_that_has_no_memory_says_so(t):
    """An operator who is told of the signer would look at its key. The last allocations before the first line are those for the signer."""
    t.register(key=program.P256_KEY)
    words = ["script", "ca.db", "--signer", "ca.sign", "--algorithm", "ecdsa-sha256"]
    last = faults.total(t, words, "alloc")
    for at in range(last - 40, last + 1):
        ran, count = faults.run(t, words, fail=f"alloc:{at}")
        t.true((ran.status, ran.err) in ((0, b""), (1, b"F1 memory\n")), f"allocation {at} of {last}: {ran}")


@test(seconds=3)
def a_script_that_has_no_memory_to_check_the_clock_says_so(t):
    """Its clock is too far ahead. From one of its last allocations on there is none. An operator who is told of the store would look at the disk."""
    t.register(lines=script(REGISTERED))
    words, clock = ["script", "ca.db", "--clock"], t.room / "clock"
    clock.write_text(str(program.seconds_of("2026-06-01T00:00:00Z")))
    whole, count = faults.run(t, words, clock=clock)
    t.same((whole.status, whole.err), (1, b"bad-clock\n"), "its end without a fault")
    for at in range(count["alloc"] - 30, count["alloc"] + 1):
        ran, _ = faults.run(t, words, clock=clock, fail=f"alloc:{at}+")
        t.same((ran.status, ran.out, ran.err), (1, b"", b"F1 memory\n"), f"allocation {at} of {count['alloc']}")


# The words of a job that prints what it found, and SQL that changes the register before.
FOUND = {
    "a broken row": (["audit", "ca.db"], "UPDATE subscriber SET name = ''"),
    "a number that a published CRL has": (["serve", "ca.db", "--port", "9", "--requests", "1", "--published", "other.crl"], ""),
}


@each(FOUND, seconds=3)
def a_job_that_has_no_memory_for_what_it_found_says_so(t, words, change):
    """From one of its last allocations on there is none."""
    t.register(lines=script(REGISTERED))
    t.register("other.db", lines=f"{DAY} crl\n")
    (t.room / "other.crl").write_bytes(t.desk("crl", "other.db").out)
    t.sql("ca.db", change)
    whole, count = faults.run(t, words)
    t.true(whole.out, f"it found nothing: {whole}")
    for at in range(count["alloc"] - 30, count["alloc"] + 1):
        ran, _ = faults.run(t, words, fail=f"alloc:{at}+")
        t.same((ran.status, ran.out, ran.err), (1, b"", b"F1 memory\n"), f"allocation {at} of {count['alloc']}")


def standing_in(path, replies):
    """Answers each line at a socket with the next of these texts."""
    path.unlink(missing_ok=True)
    listener = socket.socket(socket.AF_UNIX)
    listener.bind(str(path))
    listener.listen()

    def serve():
        with listener, listener.accept()[0] as client, client.makefile("rb") as lines:
            for reply in replies:
                if lines.readline():
                    client.sendall(reply.encode())

    threading.Thread(target=serve, daemon=True).start()


LOG = f'{DAY} control "request 07 asked" "request 4 due x" 16 9 request 4 {7:040x} asked\n'
ROW = f"07,{DAY},2026-01-10T00:00:00Z\n"
# The words of a job at a control socket, its input, and the replies that it gets.
AT = {
    "lines": (["at", "control"], "counts\n", ["good 0 revoked 0 expired 0\n"]),
    "an import": (["at", "control", "--import", "rows"], f"1,{ROW}", ["registered\n"]),
    "an import with its orders": (["at", "control", "--import", "rows", "--orders", "1", "398"], ROW, ["unknown\n", "order 1\n", "registered\n"]),
    "revocations": (["at", "control", "--revoke", "rows"], "07,asked\n", ["request 1 due x\n", "revoked\n"]),
    "a log": (["replay", "control", "rows"], LOG, ["request 9 due x\n"]),
}


@each(AT, seconds=2)
def a_job_at_a_control_socket_that_has_no_memory_says_so(t, words, given, replies):
    """From some allocation on there is none. An operator who is told of a read would look at the socket. Only a line or a reply itself, for each of
    which there is one allocation, then counts as not read."""
    (t.room / "rows").write_text(given)

    def run(fail):
        standing_in(t.room / "control", replies)
        ran, count = faults.run(t, words, given, fail=fail)
        return (ran.status, ran.err.decode().strip()), count["alloc"]

    whole, last = run(None)
    t.same(whole, (0, ""), "its end without a fault")
    ends = [run(f"alloc:{at}+")[0] for at in range(last - 30, last + 1)]
    t.same([it for it in ends if it != (1, "F1 memory")], [(1, "F4 read")] * (1 + len(replies)), "other ends than `F1 memory`")
KEPT = "".join(
    f"{DAY} {it}\n" for it in ("subscriber acme", "order 1 398", f"register 1 05 {DAY} 2026-12-01T00:00:00Z", "request 05 asked", "request 05 misuse")
)


def of_requests(desk):
    """The lines of /metrics about requests."""
    lines = parted(desk.ask("GET", "/metrics"))[2].decode().splitlines()
    return [it for it in lines if it.startswith(("desk_requests_open ", "desk_requests_overdue "))]


@each({"overdue": "overdue 2 first 1", "metrics": ["desk_requests_open 2", "desk_requests_overdue 2"]}, seconds=10)
def requests_are_counted_without_memory_to_keep_them(t, wanted):
    """One allocation fails while a desk reads the requests that it would keep. Then it counts them in the register."""
    base = t.register("base.db", lines=KEPT)
    t.clock("2026-06-01T00:00:00Z")

    def run(fail):
        """The counts of allocations before and after the query, and its answer."""
        faults.copy(base, t.room / "ca.db")
        (t.room / "control").unlink(missing_ok=True)
        desk = t.open("ca.db", faults=faults.environment(count=t.room / "count", same=1, fail=fail))
        with program.Control(t.room / "control") as control:
            control.ask("counts")
            first = faults.counted(t.room / "count")["alloc"]
            answer = control.ask("overdue") if wanted[0] == "o" else of_requests(desk)
            last = faults.counted(t.room / "count")["alloc"]
        desk.end()
        return first, last, answer

    first, last, answer = run(None)
    t.true(last > first + 300, f"{last - first} allocations for a query")
    # The first ones are for the line or the request itself. In /metrics, all of these are for the requests.
    for at in range(first + 10, min(last, first + 500), 11):
        t.same(run(f"alloc:{at}")[2], wanted, f"the answer if allocation {at - first} of it fails")


# HTTP requests to an open desk, with the status and the body of each response. Two lines at the control socket follow them (asked_of).
ASKED = [
    ("GET", "/counts", None, 200, b'{"expired":0,"good":1,"revoked":0}'),
    ("GET", "/status/05", None, 200, b'{"status":"good"}'),
    ("GET", "/crl/9", None, 404, b'{"error":"E21 no-crl"}'),
    ("GET", "/nowhere", None, 404, b'{"error":"404"}'),
    ("GET", "/list/crls?limit=7", None, 200, b'{"list":"crls","next":null,"rows":[]}'),
    ("GET", "/list/nothing", None, 400, b'{"error":"E22 syntax"}'),
    ("POST", "/ocsp", b"\xff", 200, bytes.fromhex("30030a0101")),
    ("POST", "/requests", b'{"serial":"05","ground":"asked"}', 200, b'{"due":"2026-01-03T00:00:00Z","request":1}'),
]


def fits(response, status, body):
    """Whether a response is the usual one, or reports that the desk is out of memory: by status 500 with this JSON or no body, or by its absence."""
    got, lines, told = parted(response)
    no_memory = got == 500 and told in (b'{"error":"F1 memory"}', b"")
    return (got, told) == (status, body) or no_memory or response == b""


@each({f"part {it}": it for it in range(PARTS)}, seconds=20)
def an_open_desk_goes_on_after_a_refusal(t, part):
    base = t.register("base.db", script(REGISTERED))
    clock = t.room / "clock"
    clock.write_text(str(program.seconds_of(LATER)))
    last, done = 0, 0
    for at in faults.places(12_000, 0, 41, 1 + part * 10):
        faults.copy(base, t.room / "ca.db")
        (t.room / "control").unlink(missing_ok=True)
        env = faults.environment(count=t.room / "count", same=1, fail=f"alloc:{at}")
        with program.Opened(["open", "ca.db", "--control", "control", "--unsigned"], cwd=t.room, clock=clock, faults=env) as desk:
            if desk.listens:
                asked_of(t, desk, at)
            else:
                t.same(desk.wait().err, b"F1 memory\n", f"allocation {at}, before the desk listens")
            desk.end()
        if not faults.counted(t.room / "count")["met"]:
            last = at
            break
        opened = program.run(["script", "ca.db"], f"{LATER} status 05\n{LATER} subscriber b\n", cwd=t.room)
        t.same((opened.status, opened.lines[1]), (0, "subscriber 2"), f"the register opened again after allocation {at}")
        faults.audited(t, "ca.db", (1, int(opened.lines[0] != "good"), 0), f"allocation {at}")
        done += 1
    t.true(last and done > 20, f"{done} allocations failed, and allocation {last} was not reached (0: all were)")


def asked_of(t, desk, at):
    for method, target, body, status, wanted in ASKED:
        response = desk.ask(method, target, body)
        t.true(fits(response, status, wanted), f"allocation {at}: {method} {target}: {response!r}")
    with program.Control(t.room / "control") as control:
        for line, wanted in (("revoke 1", ("revoked", "E17 no-request")), ("counts", ("good 0 revoked 1 expired 0", "good 1 revoked 0 expired 0"))):
            try:
                reply = control.ask(line)
            except OSError:
                # The line before this one ran out of memory, and the desk closed the connection.
                reply = ""
            t.true(reply in (*wanted, "F1 memory", ""), f"allocation {at}: {line}: {reply!r}")


@test
def a_run_without_any_memory_is_reported(t):
    t.register(lines=script(REGISTERED))
    for words in (["script"], ["script", "ca.db"], ["audit", "ca.db"], ["crl", "ca.db"]):
        ran, _ = faults.run(t, words, f"{DAY} counts\n", fail="alloc:1+")
        if (ran.status, ran.out, ran.err) != (1, b"", b"F1 memory\n"):
            raise Failed(f"{program.shown(words)} with no memory at all: {ran}")
