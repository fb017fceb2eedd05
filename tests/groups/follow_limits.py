"""Limits of a follower and of its leader: many rows, pages and waiting requests, long positions, full queues, out of memory, and system calls."""

import contextlib
import os
import socket
import subprocess
import time
from concurrent.futures import ThreadPoolExecutor

from groups.changes import DAY, LINES, Tables, asked, taken
from groups.follow import CLOCK, LATER, OPEN, Copy, Forward, address, faked, led, paged, timed
from groups.follow_steps import Server, fills, now_text, page_for, sets_out, waiting_for, waits
from groups.limits import full_queue
from groups.overdue import seconds_of
from groups.signers import LONGEST_RSA_KEY
from lib import faults, program
from lib.authority import end, until
from lib.passing import Passing
from lib.program import parted
from lib.trial import each, test

MORE_ROWS = "WITH RECURSIVE row (id) AS (SELECT 3 UNION ALL SELECT id + 1 FROM row WHERE id < ?) SELECT id, 's' || id FROM row"


@test(seconds=20)
def a_new_copy_of_sixty_six_thousand_rows(t):
    """They come in one feed, and are entered in one transaction."""
    t.register(lines=LINES)
    t.sql("ca.db", f"INSERT INTO subscriber {MORE_ROWS}", 66_000)
    t.clock(CLOCK)
    leader = t.open()
    copy = Copy(t, address(leader.port))
    until(lambda: copy.leader["current"], "the leader", seconds=60)
    t.same(copy.leader["positions"].split(".")[0], "66000", "subscribers of the copy")


@test
def a_new_copy_has_a_log(t):
    """A log can't be in the place of a register that isn't there yet."""
    t.register(lines=LINES)
    t.clock(CLOCK)
    copy = Copy(t, address(t.open().port), "--log-file", "copy.log")
    reply = copy.lines.ask("positions")
    copy.desk.end()
    t.has((t.room / "copy.log").read_text(), f'"positions" "{reply}"')


@test(seconds=4)
def a_request_without_news_reads_few_rows_of_its_leader(t):
    """A follower asks each second, also a leader with 60,000 subscribers."""
    t.register(lines=LINES)
    t.sql("ca.db", f"INSERT INTO subscriber {MORE_ROWS}", 60_000)
    t.clock(CLOCK)
    leader, control = t.open(), t.control()
    positions = Tables(taken(t, control)).positions()
    begun = seconds_of(leader)
    for _ in range(20):
        t.same(asked(t, leader, positions)[1:4], ([], {}, True), "a page without rows")
    took = seconds_of(leader) - begun
    t.true(took < 0.5, f"20 requests took {took} seconds of the processor")


@test(seconds=10)
def a_new_copy_of_more_than_512_pages(t):
    """Each CRL is the end of a page. A follower that runs keeps 512 pages at most; a new copy takes all that there are."""
    t.register(lines=LINES + f"{LATER} crl\n" * 515)
    t.clock(CLOCK)
    leader = t.open()
    copy = Copy(t, address(leader.port))
    copy.is_like(t.control())


@test(seconds=3)
def a_new_copy_of_a_page_that_comes_octet_by_octet(t):
    """Its leader is at a socket, and sends each octet of the first page once the copy has read the one before."""
    t.register(lines=LINES)
    t.sql("ca.db", f"INSERT INTO subscriber {MORE_ROWS}", 400)
    t.clock(CLOCK)
    leader, control = t.open(), t.control()

    def sends(server):
        client, _ = server.accept()
        with client:
            octets = leader.send(client.recv(65536))
            # The next pages come from the leader itself.
            os.rename(t.room / "rest", t.room / "leader")
            t.true(len(octets) > 6_000, f"a response of {len(octets)} octets")
            for at in range(len(octets)):
                client.sendall(octets[at : at + 1])
                while not program.is_read(client):
                    time.sleep(0)

    with socket.socket(socket.AF_UNIX) as server, ThreadPoolExecutor(1) as pool, Forward(t.room / "rest", leader.port):
        server.bind(str(t.room / "leader"))
        server.listen(8)
        sent = pool.submit(sends, server)
        copy = Copy(t, "leader")
        sent.result()
        copy.is_like(control)


@test(seconds=8)
def a_copy_with_twenty_thousand_declined_requests(t):
    """A follower begins with the positions of its own register, which count them."""
    t.register(lines=LINES)
    more = "WITH RECURSIVE row (at) AS (SELECT 5 UNION ALL SELECT at + 1 FROM row WHERE at < ?)"
    t.sql("ca.db", f"{more} INSERT INTO request SELECT at, serial, ground, received, 1 FROM row, (SELECT * FROM request WHERE id = 4)", 20_000)
    t.done("copy", "ca.db", "copy.db")
    t.clock(CLOCK)
    leader = t.open()
    Copy(t, address(leader.port)).is_like(t.control())


@test(seconds=12)
def a_long_crl_with_a_digest_before_the_first_signature(t):
    """The register got a signer after a CRL with 1,500 entries. A new copy takes that CRL with its placeholder digest, and the later ones."""
    ca, words = sets_out(t, True)
    count = 1_500
    begin, end, later = now_text(-3_600), now_text(80 * 86_400), now_text(-1_800)
    lines = [f"{begin} subscriber acme", *[f"{begin} order 1 90"] * count]
    for id in range(1, count + 1):
        serial = f"4{id:039x}"
        lines += [f"{begin} {it}" for it in (f"register {id} {serial} {begin} {end}", f"request {serial} superseded", f"revoke {id}")]
    t.done("script", "ca.db", given="".join(f"{it}\n" for it in (*lines, f"{later} crl")))
    leader = t.open("ca.db", *ca.signing())
    control = t.control()
    t.same(control.ask("crl"), f"crl 2 entries {count}")
    copy = Copy(t, address(leader.port), signing=words)
    copy.is_like(control)
    t.true(len(copy.copied().crls[1]) > 65_536, "the CRL with a digest is short")


@test(seconds=3)
def a_crl_that_the_longest_key_signed(t):
    """Its signature has 2,037 octets."""
    t.register(key=LONGEST_RSA_KEY)
    t.signer("ca.sign", lambda message, call: b"\7" * 2_037)
    t.clock(CLOCK)
    signing = ("--signer", "ca.sign", "--algorithm", "rsa-sha256")
    leader, control = t.open("ca.db", *signing), t.control()
    t.same(control.ask("crl"), "crl 1 entries 0")
    Copy(t, address(leader.port), signing=signing).is_like(control)


STEPS = ["1970-01-01T00:00:00Z=398", *[f"20{year}-01-01T00:00:00Z={398 - year}" for year in range(26, 41)]]


@test(seconds=3)
def a_follower_of_a_schedule_of_sixteen_steps_confirms(t):
    """The header of its requests has all of them."""
    t.register(lines=LINES)
    t.done("schedule", "ca.db", *STEPS)
    t.clock(CLOCK)
    leader, control = t.open("ca.db", "--confirm-by", "1"), t.control()
    copy = Copy(t, address(leader.port))
    copy.is_like(control)
    lines = t.enter_context(program.Control(t.room / "control", timeout=20))
    t.same(lines.ask("subscriber third"), "subscriber 3", "the reply to a command")


@test(seconds=3)
def a_new_key_identifier_after_a_hundred_crls(t):
    """Each CRL keeps its own."""
    t.register(lines=LINES + f"{LATER} crl\n" * 100)
    t.done("copy", "ca.db", "copy.db")
    t.done("key-id", "ca.db", "0A1B2C3D")
    t.clock(CLOCK)
    leader, control = t.open(), t.control()
    t.same(control.ask("crl"), "crl 104 entries 2")
    Copy(t, address(leader.port)).is_like(control)


@test(seconds=4)
def a_request_without_news_writes_to_no_file(t):
    """A follower asks five times a second. The register has a schedule of several steps, and an issuer with another key identifier."""
    t.register(lines=LINES)
    t.done("schedule", "ca.db", *STEPS[:2])
    t.done("key-id", "ca.db", "0102")
    t.clock(CLOCK)
    leader = t.open()
    copy = Copy(t, address(leader.port), "--lag", "4", faults=faults.environment(count=t.room / "count", only="file"))
    copy.is_like(t.control())
    wrote = lambda: [faults.counted(t.room / "count")[it] for it in ("write", "sync")]
    before, pages = wrote(), copy.leader["pages"]
    until(lambda: copy.leader["pages"] >= pages + 5, "five more pages")
    t.same(wrote(), before, "writes and syncs")


@test(seconds=3)
def rows_of_several_tables_come_in_the_order_of_their_commands(t):
    """A feed has its rows table by table. A decline comes before a later request, a revocation before a later request, and a request before a
    revocation of the same second, with no CRL behind them."""
    lines = (f"{LATER} request 08 asked", f"{LATER} revoke 5", f"2026-01-02T14:30:00Z request {OPEN} misuse", "2026-01-02T15:00:00Z subscriber last")
    t.register(lines=LINES + "".join(f"{it}\n" for it in lines))
    t.clock(CLOCK)
    leader = t.open()
    copy = Copy(t, address(leader.port))
    copy.is_like(t.control())
    copy.is_sound()


@test(seconds=3)
def a_revocation_comes_before_a_later_request_though_a_crl_follows_both(t):
    """The CRL is the first one after the revocation. The feed has it behind the rows of all tables."""
    lines = (f"{LATER} request 08 asked", f"{LATER} revoke 5", f"2026-01-02T14:30:00Z request {OPEN} misuse", "2026-01-02T15:00:00Z crl")
    t.register(lines=LINES + "".join(f"{it}\n" for it in lines))
    t.clock(CLOCK)
    leader = t.open()
    copy = Copy(t, address(leader.port))
    copy.is_like(t.control())
    copy.is_sound()


@test(seconds=3)
def a_decline_of_a_request_that_a_follower_has_comes_before_a_later_revocation(t):
    """While the follower is away, the request is declined, a revocation by another request of the same certificate follows, and then a third request."""
    leader, control, copy = led(t)
    t.true(control.ask("request 08 asked").startswith("request 5 "), "the request that the follower has")
    copy.is_like(control)
    copy.desk.end()
    lines = {CLOCK: ("decline 5", "request 08 misuse", "revoke 6"), "2026-01-03T01:00:00Z": (f"request {OPEN} misuse",)}
    for moment, asked_then in lines.items():
        t.clock(moment)
        for line in asked_then:
            t.true(control.ask(line)[:1] not in "EF", line)
    Copy(t, address(leader.port)).is_like(control)


@test(seconds=3)
def a_decline_of_the_newest_request_that_a_follower_has_comes_before_a_later_revocation(t):
    """While the follower is away, the request is declined, and the certificate is revoked by an earlier request. A third request comes after that."""
    leader, control, copy = led(t)
    for word, number in (("asked", 5), ("misuse", 6)):
        t.true(control.ask(f"request 08 {word}").startswith(f"request {number} "), f"request {number}, which the follower has")
    copy.is_like(control)
    copy.desk.end()
    lines = {CLOCK: ("decline 6", "revoke 5"), "2026-01-03T01:00:00Z": (f"request {OPEN} misuse",)}
    for moment, asked_then in lines.items():
        t.clock(moment)
        for line in asked_then:
            t.true(control.ask(line)[:1] not in "EF", line)
    copy = Copy(t, address(leader.port))
    until(lambda: copy.leader["current"] or copy.leader["failure"], "the page of the leader")
    t.same(copy.leader["failure"], None, "what it says of the page")
    copy.is_like(control)


@each({"with digests only": False, "with two digests and a signature": True}, seconds=8)
def a_new_copy_that_has_no_memory_says_so(t, has_signer):
    """An operator who is told of the store would look at the disk. At the end of its last page the feed has positions that it does not reach."""
    other = lambda body: body[:-2] + (b"1" if body[-2:-1] == b"0" else b"0") + b"\n" if b"\nend " in body[-200:] else body
    signing = ["--unsigned"]
    if has_signer:
        ca, signing = sets_out(t, True)
        t.done("script", "ca.db", given=f"{now_text(-3_600)} subscriber acme\n" + f"{now_text(-3_600)} crl\n" * 2)
        leader = t.open("ca.db", *ca.signing())
        t.same(t.control().ask("crl"), "crl 3 entries 0")
        server = t.enter_context(Server(lambda target: (200, other(parted(leader.ask("GET", target))[2]))))
    else:
        leader, server = fills(t, lambda target, status, body: (status, other(body)))
    words = ["follow", "copy.db", "--from", address(server.port), "--port", program.free_port(), *signing]
    whole, count = faults.run(t, words)
    t.same((whole.status, whole.err_lines[-1]), (1, "broken-feed"), "its end without a fault")
    last = count["alloc"]
    ends, left = set(), set()
    for at in range(last, max(last - 1_200, 1), -15):
        ran, count = faults.run(t, words, fail=f"alloc:{at}+")
        ends.add((ran.status, ran.err_lines[-1] if ran.err_lines else ""))
        left |= {it.name for it in t.room.glob("copy.db*")}
    t.true(ends <= {(1, "F1 memory"), (1, "broken-feed")} and (1, "F1 memory") in ends, f"status and last line: {ends}")
    t.true(left <= {"copy.db.fill-wal"}, f"files that are left: {left}")
    # A stop may leave two more. The next `desk follow` removes them.
    for it in (".fill", ".fill-wal", ".part"):
        (t.room / f"copy.db{it}").write_bytes(b"left")
    Copy(t, address(leader.port), signing=signing).is_like(t.control())
    t.same(sorted(it.name for it in t.room.glob("copy.db*")), ["copy.db", "copy.db-wal"], "files of the copy")


@test(seconds=15)
def a_new_copy_of_no_rows_that_has_no_memory_says_so(t):
    """An operator who is told of another issuer would look for another CA at the leader's address. The page has its issuer and no row, so two of these
    allocations are the issuer's name and key."""
    t.register()
    t.clock(CLOCK)
    leader = t.open()
    other = lambda body: body[:-2] + (b"1" if body[-2:-1] == b"0" else b"0") + b"\n"
    server = t.enter_context(Server(lambda target: (200, other(parted(leader.ask("GET", target))[2]))))
    words = ["follow", "copy.db", "--from", address(server.port), "--port", program.free_port(), "--unsigned"]
    whole, count = faults.run(t, words)
    t.same((whole.status, whole.err_lines), (1, ["follow: broken page: positions other-positions", "broken-feed"]), "its end without a fault")
    last = count["alloc"]
    for at in range(last - 640, last - 320, 2):
        ran, count = faults.run(t, words, fail=f"alloc:{at}+")
        t.same((ran.status, ran.err), (1, b"F1 memory\n"), f"allocation {at} of {last}")


@test(seconds=10)
def a_new_copy_that_has_no_memory_to_fetch_a_page_says_so(t):
    """One that asks again, says that its leader is out of reach, or names the page, the store or a read would be looked for at the wrong place."""
    t.register()
    t.clock(CLOCK)
    leader = t.open()
    server = t.enter_context(Server(lambda target: (200, parted(leader.ask("GET", target))[2][:-2] + b"9\n")))
    words = ["follow", "copy.db", "--from", address(server.port), "--port", program.free_port(), "--unsigned"]
    # The program's own start takes the first 165, and its register has more than 300.
    for at in range(180, 300):
        ran, count = faults.run(t, words, fail=f"alloc:{at}+")
        t.same((ran.status, ran.err), (1, b"F1 memory\n"), f"allocation {at}")
    t.true(server.answered > 50, f"only {server.answered} of them got the page")


# One row of each kind, and a CRL.
FEW = "".join(
    f"{it}\n"
    for it in (
        f"{DAY} subscriber acme", f"{DAY} order 1 398", f"{DAY} order 1 398", f"{DAY} register 1 05 {DAY} 2026-01-10T00:00:00Z",
        f"{DAY} register 2 06 {DAY} 2026-01-10T00:00:00Z", "2026-01-02T00:00:00Z request 05 asked", "2026-01-02T00:00:00Z request 06 misuse",
        "2026-01-02T08:00:00Z decline 1", "2026-01-02T09:00:00Z revoke 2", "2026-01-02T10:00:00Z crl",
    )
)  # fmt: skip
# How far from the end the allocations are that are tried. The first part begins before the transaction, and the last one ends after its commit. BEGIN
# takes only one, and on a busy machine a run may take one more before it: so those near it are tried three times.
ENTERING = {
    "head": [*[*range(5_078, 5_070, -1)] * 2, *range(5_084, 5_060, -1), *range(5_060, 4_800, -26)],
    "rows": [*range(4_800, 2_600, -60)],
    "CRL": [*range(2_600, 2_270, -26)],
    "end": [*range(2_270, 2_060, -26), *range(2_060, 2_036, -4)],
}


@each(ENTERING, seconds=4)
def a_new_copy_that_has_no_memory_to_enter_its_rows_says_so(t, places):
    """From some allocation on there is none. An operator who is told of the store would look at the disk. A folder is in the way of the last step,
    after all rows are entered."""
    t.register(lines=FEW)
    t.done("schedule", "ca.db", "1970-01-01T00:00:00Z=398", "2026-03-15T00:00:00Z=200")
    t.clock(CLOCK)
    leader, pages = t.open(), {}

    def answer(target):
        if target not in pages:
            pages[target] = parted(leader.ask("GET", target))[2]
        return 200, pages[target]

    server = t.enter_context(Server(answer))
    (t.room / "copy.db.part").mkdir()
    words = ["follow", "copy.db", "--from", address(server.port), "--port", program.free_port(), "--unsigned"]
    whole, count = faults.run(t, words)
    t.same((whole.status, whole.err_lines), (1, ["F2 store"]), "its end without a fault")
    last = count["alloc"]
    for at in places:
        ran, _ = faults.run(t, words, fail=f"alloc:{last - at}+")
        t.same((ran.status, ran.err), (1, b"F1 memory\n"), f"allocation {last - at} of {last}")


@test(seconds=3)
def a_follower_that_has_no_memory_to_begin_says_so(t):
    """It has a register. An operator who is told of the store would look at the disk."""
    base = t.register("base.db")
    words = ["follow", "copy.db", "--from", address(program.free_port()), "--unsigned"]

    def run(fail=None):
        """The count of allocations when it listens, or None; and how it ends."""
        faults.copy(base, t.room / "copy.db")
        env = faults.environment(count=t.room / "count", same=1, fail=fail)
        with program.Opened(words, cwd=t.room, faults=env) as desk:
            count = faults.counted(t.room / "count")["alloc"] if desk.listens else None
            ended = desk.end() if desk.listens else desk.wait()
            return count, (ended.status, ended.err)

    last, _ = run()
    for at in range(last - 100, last - 20, 4):
        t.same(run(f"alloc:{at}+"), (None, (1, b"F1 memory\n")), f"allocation {at} of {last}")


@test(seconds=8)
def a_follower_that_has_no_memory_for_a_page_says_so(t):
    """One allocation fails. An operator who is told of a malformed page would look at the leader."""
    base = t.register("base.db", lines=LINES)
    t.done("schedule", "base.db", "1970-01-01T00:00:00Z=398", "2026-03-15T00:00:00Z=200")
    faults.copy(base, t.room / "ca.db")
    t.clock(CLOCK)
    leader = t.open()
    silent = t.enter_context(Server(None))
    server = t.enter_context(Server(lambda target: (200, parted(leader.ask("GET", target))[2])))

    def run(it, is_over, fail=None):
        """The count of allocations when this is over, and standard error."""
        faults.copy(base, t.room / "copy.db")
        env = faults.environment(count=t.room / "count", same=1, fail=fail)
        with program.Opened(["follow", "copy.db", "--from", address(it.port), "--unsigned"], cwd=t.room, faults=env) as desk:
            until(is_over, f"the end of {fail}")
            count = faults.counted(t.room / "count")["alloc"]
            desk.ask("GET", "/health")
            return count, desk.end().err

    first, _ = run(silent, lambda: silent.targets)
    ends = []
    for at in range(first + 1, first + 81):
        _, told = run(server, lambda: faults.counted(t.room / "count")["met"], f"alloc:{at}")
        ends.append(told.decode().strip())
    # Without memory to receive it, the leader counts as out of reach.
    received = [it for it in ends if it != "follow: leader unreachable"]
    t.same((set(received), len(received) > 40), ({"follow: F1 memory"}, True), f"what it reports: {ends}")


@test(seconds=2)
def a_follower_without_memory_for_a_line_writes_no_part_of_it(t):
    """It writes the line when its leader is out of reach. The line has three allocations, the last ones before it; one of them fails."""
    base = t.register("base.db")

    def run(fail=None):
        """The count of allocations at its end, and standard error."""
        faults.copy(base, t.room / "copy.db")
        told = faults.environment(count=t.room / "count", same=1, fail=fail)
        with program.Opened(["follow", "copy.db", "--from", address(program.free_port()), "--unsigned"], cwd=t.room, faults=told) as desk:
            until(lambda: desk.log or faults.counted(t.room / "count")["met"], "the line")
            last = faults.counted(t.room / "count")["alloc"]
            desk.ask("GET", "/counts")
            return last, desk.end().err

    last, told = run()
    t.same((told, [run(f"alloc:{at}")[1] for at in range(last - 2, last + 1)]), (b"follow: leader unreachable\n", [b""] * 3), "standard error")


@test(seconds=8)
def a_new_copy_that_had_no_memory_for_its_page_once_does_not_ask_again(t):
    """One allocation fails, and the next ones do not. One that asks again would do so for ever if a page is larger than its memory."""
    t.register()
    t.clock(CLOCK)
    leader = t.open()
    server = t.enter_context(Server(lambda target: (200, parted(leader.ask("GET", target))[2][:-2] + b"9\n")))
    words = ["follow", "copy.db", "--from", address(server.port), "--port", program.free_port(), "--unsigned"]
    # The program's own start takes the first 165 allocations. Without memory to receive its answer, the leader counts as out of reach, and is asked
    # again.
    unreachable, ends = b"follow: leader unreachable\nfollow: broken page: positions other-positions\nbroken-feed\n", []
    for at in range(180, 300):
        ran, _ = faults.run(t, words, fail=f"alloc:{at}")
        ends.append((ran.status, ran.err))
    read = [it for it in ends if it[1] != unreachable]
    t.same((set(read), len(read) > 100), ({(1, b"F1 memory\n")}, True), f"how each one ends: {ends}")
    t.true(server.answered > 50, f"only {server.answered} of them got the page")


@test(seconds=3)
def a_new_copy_asks_again_after_a_second(t):
    """It says each failure that differs from the one before. After 409 it begins anew."""
    times, failures = [], iter([(409, b""), (503, b""), (404, b"")])

    def answer(target, status, body):
        times.append(time.monotonic())
        return next(failures, None) or (status, body)

    leader, server = fills(t, answer)
    copy = Copy(t, address(server.port))
    for first, again in zip(times[:3], times[1:4]):
        t.true(0.9 < again - first < 8, f"it asked again after {again - first:.1f} seconds")
    t.same(copy.desk.log[:2], ["follow: leader answered 503", "follow: leader answered 404"], "what it says")


@each({"has no socket": "socket:1", "can't poll its connection": "watch:1"}, seconds=3)
def a_new_copy_asks_again_if_it(t, fail):
    """It says that the leader is out of reach, and not that a page is at fault. Other programs may soon free what it lacks."""
    leader, _ = fills(t, lambda target, status, body: (status, body))
    copy = Copy(t, address(leader.port), faults=faults.environment(count=t.room / "count", fail=fail))
    t.same((faults.counted(t.room / "count")["met"], copy.desk.log[:1]), (1, ["follow: leader unreachable"]), "injected faults, and what it says")
    copy.is_like(t.control())


@test
def a_new_copy_that_has_no_descriptor_to_poll_says_so(t):
    """It waits where it looks for what an earlier run left, until it may have no more descriptors. Its leader is not asked."""
    told = faults.environment(only="copy.db.fill", slow_open=t.room / "goes-on")
    words = ["follow", "copy.db", "--from", address(program.free_port()), "--port", str(program.free_port()), "--unsigned"]
    it = subprocess.Popen([program.program(), *words], cwd=t.room, stderr=subprocess.PIPE, env=program.environment(faults=told))
    t.callback(end, it)
    until((t.room / "goes-on.waits").exists, "that it waits")
    t.tool("prlimit", "--pid", it.pid, "--nofile=3:3")
    (t.room / "goes-on").touch()
    t.same((it.wait(program.LONGEST), it.stderr.read()), (1, b"F4 read\n"))


@test(seconds=3)
def a_new_copy_asks_however_often_its_leader_fails(t):
    """Each pause has the same length, here a hundredth of a second: pauses that grow would soon take hours."""
    failures = iter([(503, b"")] * 100)
    leader, server = fills(t, lambda target, status, body: next(failures, None) or (status, body))
    copy = Copy(t, address(server.port), faults=faults.environment(hurry=100))
    t.same(server.targets[:101], ["/changes"] * 101, "what it asked for")
    copy.is_like(t.control())


@test(seconds=3)
def a_new_copy_that_waits_for_a_page_is_not_busy(t):
    server = t.enter_context(Server(lambda target: None))
    words = ["follow", "new.db", "--from", address(server.port), "--port", str(program.free_port()), "--unsigned"]
    env = program.environment(faults=faults.environment(count=t.room / "count"))
    t.callback(end, subprocess.Popen([program.program(), *words], cwd=t.room, stdin=subprocess.DEVNULL, stderr=subprocess.DEVNULL, env=env))
    until(lambda: server.targets, "its request")
    time.sleep(1)
    polls = faults.counted(t.room / "count")["poll"]
    t.true(polls < 100, f"{polls} calls of epoll_wait(2) in a second")


@test(seconds=3)
def a_leader_whose_queue_is_full_holds_up_no_client(t):
    """Its socket is that of ssh, which has stopped. The copy tries once a second and answers meanwhile. It follows once there is room."""
    leader, control, copy = led(t)
    copy.is_like(control)
    copy.desk.end()
    with full_queue(t, "lead"):
        copy = Copy(t, "lead", faults=faults.environment(count=t.room / "count"))
        until(lambda: copy.leader["failure"] == "leader unreachable", "that it does not follow")
        tried = faults.counted(t.room / "count")["connect"]
        t.true(tried < 60, f"it has tried {tried} times")
    (t.room / "lead").unlink()
    t.enter_context(Forward(t.room / "lead", leader.port))
    copy.is_like(control)


@test(seconds=8)
def a_page_of_megabytes_takes_few_reads_and_a_request_few_writes(t):
    copy, tables, octets, leader = faked(t)
    copy.desk.end()
    der = b"x" * 8_000_000
    page = 200, paged(tables, [f"crl 4 {LATER} {len(der)}"], octets=der + b"\n")
    answers = iter([page])
    copy = Copy(t, address(leader.server.getsockname()[1]), "--lag", "3600", faults=faults.environment(count=t.room / "count", only="socket"))
    until(lambda: copy.leader["failure"] == "leader answered 500", "that it asks")
    before, asked_before = faults.counted(t.room / "count"), leader.asked
    leader.answer = lambda request: next(answers, (500, b""))
    until(lambda: leader.asked > asked_before + 2, "the page, and two more requests", seconds=60)
    after, requests = faults.counted(t.room / "count"), leader.asked - asked_before
    reads, writes = (after[it] - before[it] for it in ("read", "write"))
    t.true(100 < reads < 4_000, f"{reads} reads")
    t.true(writes <= 5 * requests, f"{writes} writes of {requests} requests")


@test(seconds=3)
def a_refused_line_has_its_time_in_the_log(t):
    """The metrics have it, too. Each reading of the elapsed time is seven milliseconds later than the one before."""
    leader, control, copy = led(t)
    copy.is_like(control)
    copy.desk.end()
    copy = Copy(t, address(leader.port), "--log", faults=faults.environment(tick=7))
    for line in ("crl", "revoke 4"):
        t.same(copy.lines.ask(line), "follower", line)
    micros = [it.rsplit(" ", 1)[1] for it in copy.desk.log if '" "follower" ' in it]
    t.same(micros, ["7000"] * 2, "microseconds in the log")
    told = dict(it.rsplit(" ", 1) for it in program.parted(copy.desk.ask("GET", "/metrics"))[2].decode().splitlines())
    t.same([told[f"desk_exchange_seconds_{it}"] for it in ("sum", "count")], ["0.014000", "2"], "seconds and lines in the metrics")


@test(seconds=3)
def twelve_requests_wait_at_once(t):
    """Each is answered after a second."""
    t.register(lines=LINES)
    t.clock(CLOCK)
    it, control = Passing(t), t.control()
    positions = Tables(taken(t, control)).positions()
    t.same(asked(t, it.desk, positions)[1:4], ([], {}, True), "a page without rows")
    clients = [waits(it, positions) for _ in range(12)]
    it.advance(1_000)
    t.same([page_for(t, client) for client in clients], [([], {}, True)] * 12, "pages after a second")


@test(seconds=8)
def requests_that_wait_cost_a_desk_no_more_with_each_line(t):
    """No time passes, so 200 requests wait until the test ends. The desk looks at them after each line."""
    t.register(lines=LINES)
    t.clock(CLOCK)
    it, control = Passing(t), t.control()
    positions = Tables(taken(t, control)).positions()
    t.same(asked(t, it.desk, positions)[1:4], ([], {}, True), "a page without rows")
    for _ in range(200):
        t.enter_context(it.desk.connect()).sendall(waiting_for(positions))
    took = []
    for _ in range(3):
        begun = seconds_of(it.desk)
        for _ in range(250):
            t.same(control.ask("counts"), "good 2 revoked 2 expired 0")
        took.append(seconds_of(it.desk) - begun)
    t.true(took[2] < 2 * took[0] + 0.2, f"seconds of the processor: {took}")


@test(seconds=3)
def a_request_waits_at_a_desk_whose_numbers_are_long(t):
    """The file has only the last rows, whose numbers are those of full tables."""
    most = 999_999
    t.register(lines=LINES)
    for statement in (
        f"INSERT INTO subscriber VALUES ({most}, 'last')",
        f"INSERT INTO orders VALUES ({most}, {most}, 398)",
        f"INSERT INTO request SELECT {most}, serial, ground, received, 1 FROM request WHERE id = 2",
    ):
        t.sql("ca.db", statement)
    t.clock(CLOCK)
    leader, control = t.open(), t.control()
    tables = Tables(taken(t, control))
    counts = tables.counts() | {"subscriber": most, "order": most, "request": most}
    for kind in ("subscriber", "order", "request"):
        tables.lines[kind] = tables.lines[kind][-1:]
    positions = tables.positions(counts, ["2", f"{most}"])
    t.true(len(positions) > 96, f"the positions have only {len(positions)} characters")
    t.same(asked(t, leader, positions)[1:4], ([], {}, True), "a page without rows")
    took, page = timed(lambda: asked(t, leader, f"{positions}&wait=1"))
    t.true(0.9 < took < 4 * program.PATIENCE, f"{took} seconds without news")


@each({"usually": None, "though a signal comes": "write:2=EINTR"}, seconds=4)
def a_leader_whose_queue_at_a_port_was_full_is_asked_as_soon_as_it_is_connected(t, fail):
    """At the latest in the third of three tries. The system connects again after a second. The first write(2) is that before the connection."""
    took, told = [], faults.environment(only="socket", fail=fail)
    with socket.socket() as server:
        server.bind(("127.0.0.1", 0))
        # There is room for one connection.
        server.listen(0)
        port = server.getsockname()[1]
        for turn in range(3):
            filled = socket.create_connection(("127.0.0.1", port))
            words = ("follow", f"{turn}.db", "--from", address(port), "--port", str(program.free_port()), "--control", "copy", "--unsigned")
            process = subprocess.Popen([program.program(), *words], cwd=t.room, stderr=subprocess.PIPE, env=program.environment(faults=told))
            t.callback(end, process)
            # State 02: the connection is requested.
            until(lambda: f":{port:04X} 02 " in open("/proc/net/tcp").read(), "a new copy to connect")
            server.accept()[0].close()
            filled.close()
            client, begun = server.accept()[0], time.monotonic()
            with client:
                t.has(client.recv(65_536).decode(), "GET /changes HTTP/1.1\r\n")
                took.append(time.monotonic() - begun)
            process.kill()
            if took[-1] < 1:
                break
    t.true(min(took) < 1, f"seconds from the connection to the request: {took}")


class Held(Server):
    """A leader of the test whose connections stay open after its answers."""

    def serve(self):
        with contextlib.suppress(OSError):
            while True:
                client, _ = self.server.accept()
                self.silent.append(client)
                status, body = self.answer(client.recv(65536).decode("latin-1").partition(" HTTP")[0].partition(" ")[2])
                client.sendall(f"HTTP/1.1 {status} X\r\nContent-Length: {len(body)}\r\n\r\n".encode() + body)
                self.answered += 1


@test(seconds=11)
def a_signal_while_it_reads_an_answer_of_its_leader_costs_no_time(t):
    """Each of the first reads is interrupted in a run. The leader has sent its whole answer by then, and nothing else wakes the follower: after five
    seconds it would look again."""
    leader, _ = fills(t, lambda target, status, body: (status, body))
    server = t.enter_context(Held(lambda target: parted(leader.ask("GET", target))[::2]))

    def starts(at):
        told = faults.environment(count=t.room / "count", only="socket", fail=f"read:{at}=EINTR")
        copy = Copy(t, address(server.port), file=f"copy{at}.db", faults=told)
        until(lambda: copy.leader["current"], f"the leader, if read {at} is interrupted")
        copy.desk.end()

    for at in range(1, 9):
        took, _ = timed(lambda: starts(at))
        t.same(faults.counted(t.room / "count")["met"], 1, f"read {at}: injected faults")
        t.true(took < 4 * program.PATIENCE, f"{took} seconds until it has the leader's records, if read {at} is interrupted")
