"""Monitoring of an open register: /health, /metrics in the text format of Prometheus, and the alerts of examples/alerts.yml."""

import contextlib
import json
import re
import signal
import subprocess
import threading
import time
import urllib.parse
import urllib.request
from concurrent.futures import ThreadPoolExecutor

from lib import authority, faults, program
from lib.passing import Passing
from lib.program import ANY_SIGNATURE, Signers, parted
from lib.trial import Failed, each, need, test
from model import der

DAY = "2026-01-01T00:00:00Z"
FIRST = program.seconds_of(DAY)
SIGNING = ("--signer", "ca.sign", "--algorithm", "ecdsa-sha256")
ALERTS = program.TOP / "examples/alerts.yml"
# A request for revocation that is overdue after a day.
LINES = ["subscriber acme", "order 1 90", "register 1 05 2026-01-01T00:00:00Z 2026-02-01T00:00:00Z", "request 05 key-compromise"]
# An OCSP request for a certificate of another issuer, in the form of RFC 6960 4.1.1.
OCSP = bytes.fromhex("30423040303E303C303A300906052B0E03021A05000414" + "00" * 20 + "0414" + "00" * 20 + "020105")
ENDS = ("0.0001", "0.0003", "0.001", "0.003", "0.01", "0.03", "0.1", "0.3", "1", "3", "10", "+Inf")

ROUTES = ("/ocsp", "/ocsp/{request}", "/crl", "/crl/{number}", "/status/{serial}", "/counts", "/requests", "/list/{word}", "/health", "/metrics", "/changes", "other")


def opened(t, *words, clock=DAY, key=program.KEY):
    t.register(key=key)
    t.clock(clock)
    return t.open("ca.db", *words)


def asked(t, desk, path):
    """The status, the type and the body of an answer."""
    status, fields, body = parted(desk.ask("GET", path))
    (kind,) = [it.removeprefix("Content-Type: ") for it in fields if it.startswith("Content-Type: ")]
    return status, kind, body


def metrics(t, desk):
    """Each sample of /metrics, by its series. Checks their form (Prometheus, "Text-based format", version 0.0.4)."""
    status, kind, body = asked(t, desk, "/metrics")
    t.same((status, kind), (200, "text/plain; version=0.0.4; charset=utf-8"))
    t.true(body.endswith(b"\n"), "the body has no line end at its end")
    found, families, family = {}, [], ""
    for line in body.decode().splitlines():
        if told := re.fullmatch(r"# (HELP|TYPE) ([a-z_]+) (.+)", line):
            if told[1] == "HELP":
                family = told[2]
                families.append(family)
            t.same(told[2], family, "the family of a HELP or TYPE line")
            if told[1] == "TYPE":
                t.same(told[3] == "counter", family.endswith("_total"), f"whether {family} is a counter: its type is {told[3]}")
            continue
        one = re.fullmatch(r"([a-z_]+)(\{[a-z_]+=\"[^\"]*\"(?:,[a-z_]+=\"[^\"]*\")*\})? (\d+(?:\.\d+)?)", line)
        t.true(one and re.fullmatch(re.escape(family) + "(_bucket|_sum|_count)?", one[1]), f"not a sample of {family}: {line!r}")
        series = one[1] + (one[2] or "")
        t.true(series not in found, f"{series} occurs twice")
        found[series] = float(one[3])
    t.same(len(families), len(set(families)), "the number of families, and of different ones")
    return found


def of(found, start):
    """The samples whose series begin with this prefix, by the rest of the name."""
    return {series.removeprefix(start): value for series, value in found.items() if series.startswith(start)}


def health(t, desk):
    status, kind, body = asked(t, desk, "/health")
    told = json.loads(body)
    t.same((kind, told.pop("status")), ("application/json", "ok" if status == 200 else "failing"))
    return status, {name: since for name, since in told.items() if since is not None}


@test
def a_register_that_was_just_made(t):
    found = metrics(t, opened(t))
    t.same(of(found, "desk_crl"), {"_number": 0, "_due_timestamp_seconds": 0})
    t.same({value for series, value in found.items() if series.startswith(("desk_certificates", "desk_requests_o", "desk_sign", "desk_lines", "desk_store"))}, {0})
    t.same(found["desk_register_readable"], 1)
    t.same(of(found, "desk_http_responses_total"), {}, "answers by route: an answer is counted once it is made, so this one is not")
    version = t.done("--version").split()[-1]
    t.same(of(found, "desk_build_info"), {f'{{version="{version}"}}': 1})
    t.same(of(found, "desk_ocsp_internal_errors_total"), {'{cause="signer"}': 0, '{cause="store"}': 0})
    t.same(of(found, "desk_http_response_seconds"), {f'_{part}{{route="{it}"}}': 0 for it in ROUTES for part in ("sum", "count")})
    t.same(of(found, "desk_connections"), {'{at="port"}': 1, '{at="counter"}': 0, "_accepted_total": 1, **{f'_lost_total{{why="{it}"}}': 0 for it in ("broken", "late", "crowded", "memory")}})
    t.same(of(found, "desk_exchange_seconds"), {**{f'_bucket{{le="{it}"}}': 0 for it in ENDS}, "_sum": 0, "_count": 0})


@test
def the_numbers_of_a_register(t):
    desk = opened(t)
    t.done("at", "control", given="".join(f"{it}\n" for it in [*LINES, "order 1 30", "register 2 06 2026-01-01T00:00:00Z 2026-01-10T00:00:00Z", "order 1 90",
           "register 3 07 2026-01-01T00:00:00Z 2026-02-01T00:00:00Z", "request 07 superseded", "revoke 2", "crl"]))
    t.clock("2026-01-03T00:00:00Z")
    found = metrics(t, desk)
    now = FIRST + 2 * 86_400
    t.same(of(found, "desk_certificates"), {'{status="good"}': 2, '{status="revoked"}': 1, '{status="expired"}': 0})
    t.same(of(found, "desk_crl_"), {"number": 1, "this_update_timestamp_seconds": FIRST, "next_update_timestamp_seconds": FIRST + 8 * 86_400, "age_seconds": 2 * 86_400,
           "due_timestamp_seconds": FIRST + 7 * 86_400})
    t.same(of(found, "desk_requests_"), {"open": 1, "overdue": 1, "counted_timestamp_seconds": now})
    t.same((found["desk_clock_timestamp_seconds"], found["desk_clock_behind_seconds"], found["desk_last_command_timestamp_seconds"]), (now, 0, FIRST))
    t.clock("2026-01-10T00:00:01Z")
    t.same(of(metrics(t, desk), "desk_certificates"), {'{status="good"}': 1, '{status="revoked"}': 1, '{status="expired"}': 1})


@test
def requests_are_counted_once_a_minute(t):
    desk = opened(t)
    told = lambda: of(metrics(t, desk), "desk_requests_")
    t.same(told(), {"open": 0, "overdue": 0, "counted_timestamp_seconds": FIRST})
    t.done("at", "control", given="".join(f"{it}\n" for it in LINES))
    t.clock(program.moment_of(FIRST + 59))
    t.same(told(), {"open": 0, "overdue": 0, "counted_timestamp_seconds": FIRST}, "59 seconds later")
    t.clock(program.moment_of(FIRST + 60))
    t.same(told(), {"open": 1, "overdue": 0, "counted_timestamp_seconds": FIRST + 60}, "a minute later")
    t.done("at", "control", given="revoke 1\n")
    t.clock(program.moment_of(FIRST + 120))
    t.same(told()["open"], 0, "open requests after the only one was granted")


@test
def the_cap_is_set_by_the_option_that_its_metric_names(t):
    (option,) = re.findall(r"^# HELP desk_rows_cap .*\(desk init (--[a-z-]+)\)", asked(t, opened(t), "/metrics")[2].decode(), re.MULTILINE)
    t.register("other.db", options=(option, "7"))
    t.same(metrics(t, t.open("other.db", "--control", "other"))["desk_rows_cap"], 7, f"the cap of a register made with {option} 7")


@test
def a_clock_that_is_set_back(t):
    desk = opened(t)
    t.done("at", "control", given="subscriber acme\n")
    t.clock(program.moment_of(FIRST - 90))
    found = metrics(t, desk)
    t.same((found["desk_clock_behind_seconds"], found["desk_register_readable"]), (90, 0))
    t.same([it for it in found if it.startswith(("desk_certificates", "desk_crl", "desk_last"))], [], "metrics of the register, which are left out")


@test
def answers_by_route_and_status(t):
    desk = opened(t)
    for method, path, body in (("GET", "/counts", None), ("GET", "/counts?x", None), ("GET", "/crl", None), ("GET", "/crl/1", None), ("GET", "/status/05", None), ("GET", "/status/x", None),
                               ("POST", "/ocsp", OCSP), ("GET", "/ocsp/AAAA", None), ("DELETE", "/crl", None), ("POST", "/requests", '{"serial":"05","ground":"asked"}'),
                               ("GET", "/list/subscribers", None), ("GET", "/nowhere", None), ("GET", "/health", None), ("POST", "/metrics", "x")):
        desk.ask(method, path, body)
    desk.send(b"nonsense\r\n\r\n")
    desk.send(b"POST /ocsp HTTP/1.1\r\nContent-Length: 65537\r\n\r\n")
    desk.send(b"POST /ocsp HTTP/1.1\r\n\r\n")
    desk.send(b"GET /crl HTTP/1.1\r\n" + b"a: b\r\n" * 2_000)
    t.same(of(metrics(t, desk), "desk_http_responses_total"), {
        '{route="/ocsp",code="200"}': 1, '{route="/ocsp",code="411"}': 1, '{route="/ocsp",code="413"}': 1, '{route="/ocsp/{request}",code="200"}': 1,
        '{route="/crl",code="404"}': 1, '{route="/crl",code="405"}': 1, '{route="/crl",code="431"}': 1, '{route="/crl/{number}",code="404"}': 1,
        '{route="/status/{serial}",code="200"}': 1, '{route="/status/{serial}",code="400"}': 1, '{route="/counts",code="200"}': 2, '{route="/requests",code="409"}': 1,
        '{route="/list/{word}",code="200"}': 1, '{route="/health",code="503"}': 1, '{route="/metrics",code="405"}': 1, '{route="other",code="400"}': 1, '{route="other",code="404"}': 1,
    })
    t.same(metrics(t, desk)['desk_http_responses_total{route="/metrics",code="200"}'], 1)


@test
def answers_of_each_status_at_each_route(t):
    """The text then has some 140 samples more than that of a desk that has just begun."""
    desk, many, long = opened(t), "a: b\r\n" * 65, "Content-Length: 65537\r\n"
    for path in ROUTES:
        path = "/nowhere" if path == "other" else path.format(request="AAAA", number=1, serial="05", word="subscribers")
        for first, fields in (("GET", ""), ("GET", many), ("DELETE", ""), ("POST", ""), ("POST", long)):
            desk.send(f"{first} {path} HTTP/1.1\r\n{fields}\r\n".encode())
        desk.send(f"GET {path} HTTP/2.0\r\n\r\n".encode())
    text = asked(t, desk, "/metrics")[2]
    t.true(len(text) > 10_000, f"the text has only {len(text)} bytes")
    t.same(sum(of(metrics(t, desk), "desk_http_responses_total").values()), 6 * len(ROUTES) + 1, "answers in all, with the text before")


def with_long_crl(t, count):
    """A register whose latest CRL has a signature of so many octets. The desk reads that CRL to find out whether it has a placeholder digest."""
    t.register(key=program.P256_KEY)
    t.signer()
    t.done("script", "ca.db", *SIGNING, given=f"{DAY} crl\n")
    [(crl,)] = t.sql("ca.db", "SELECT der FROM crl")
    part, algorithm, _ = authority.values_of(authority.inside(crl)[1])
    t.sql("ca.db", "UPDATE crl SET der = ?", der.value(0x30, part[2], algorithm[2], der.value(0x03, bytes(count))))
    t.clock(DAY)
    return t.open("ca.db", *SIGNING)


@test
def a_long_crl_is_read_for_the_metrics(t):
    """The desk reads the latest CRL to find out whether it has a placeholder digest, in place of which a signer would issue a new one at once."""
    desk = with_long_crl(t, 2_000_000)
    found = metrics(t, desk)
    t.same((found["desk_register_readable"], found["desk_crl_number"], found["desk_crl_due_timestamp_seconds"]), (1, 1, FIRST + 7 * 86_400))
    t.same(health(t, desk), (200, {}))


@test(seconds=2)
def the_latest_crl_is_read_once_for_the_metrics(t):
    """After the first /metrics, the desk has memory for short answers only. It keeps whether that CRL has a placeholder digest."""
    desk = with_long_crl(t, 40_000_000)
    t.same(metrics(t, desk)["desk_register_readable"], 1)
    (kilobytes,) = re.findall(r"^VmSize:\s+(\d+) kB$", open(f"/proc/{desk.process.pid}/status").read(), re.MULTILINE)
    t.tool("prlimit", "--pid", desk.process.pid, f"--as={1_024 * int(kilobytes) + 8_000_000}")
    for _ in range(2):
        t.same(metrics(t, desk)["desk_register_readable"], 1, "later")
        t.same(health(t, desk), (200, {}))


@test
def lines_connections_and_seconds(t):
    desk = opened(t)
    with t.control() as control:
        for line in ("subscriber acme", "counts", "revoke 1", "x"):
            control.ask(line)
        desk.ask("GET", "/counts")
        found = metrics(t, desk)
    t.same(of(found, "desk_lines_total"), {'{reply="accepted"}': 2, '{reply="refused"}': 2, '{reply="fault"}': 0})
    t.same((found['desk_connections{at="port"}'], found['desk_connections{at="counter"}'], found["desk_connections_accepted_total"]), (1, 1, 2))
    seconds = of(found, "desk_exchange_seconds")
    ranges = [seconds[f'_bucket{{le="{it}"}}'] for it in ENDS]
    t.same(ranges, sorted(ranges), "the buckets, each of which includes those below it")
    t.same((ranges[-1], seconds["_count"]), (5, 5), "exchanges: four lines and one answer")
    t.true(0 < seconds["_sum"] < 60, f"the sum of their seconds: {seconds['_sum']}")
    by_route = of(found, "desk_http_response_seconds")
    t.same({it: value for it, value in by_route.items() if it.startswith("_count") and value}, {'_count{route="/counts"}': 1})
    t.true(0 < by_route['_sum{route="/counts"}'] < seconds["_sum"], f"the seconds of /counts, and of other routes: {by_route}")
    for path in ("/counts", "/nowhere"):
        desk.ask("GET", path)
    by_route = of(metrics(t, desk), "desk_http_response_seconds")
    t.same({it: value for it, value in by_route.items() if it.startswith("_count") and value},
           {'_count{route="/counts"}': 2, '_count{route="/metrics"}': 1, '_count{route="other"}': 1})
    t.same([it for it, value in by_route.items() if it.startswith("_sum") and not value], [f'_sum{{route="{it}"}}' for it in ROUTES if it not in ("/counts", "/metrics", "other")])


@test
def the_connection_of_a_scrape_is_counted(t):
    """The connection and its request come together, while the desk is stopped."""
    desk = opened(t)
    program.hold(desk.process)
    with desk.connect() as client:
        client.sendall(b"GET /metrics HTTP/1.1\r\n\r\n")
        desk.process.send_signal(signal.SIGCONT)
        lines = parted(program.read_all(client))[2].decode().splitlines()
    t.same([it for it in lines if it.startswith(("desk_connections{", "desk_connections_acc"))], [
        'desk_connections{at="port"} 1', 'desk_connections{at="counter"} 0', "desk_connections_accepted_total 1",
    ])


@test
def a_client_whose_line_waits_for_a_signature_is_counted(t):
    release = threading.Event()
    t.callback(release.set)
    signers = t.enter_context(Signers(t.room / "ca.sign", lambda message: (release.wait(60), ANY_SIGNATURE)[1]))
    desk = opened(t, *SIGNING, key=program.P256_KEY)
    with ThreadPoolExecutor(1) as pool, t.control() as control:
        waits = pool.submit(control.ask, "crl")
        t.true(signers.until(1), "no signature is requested")
        t.same(metrics(t, desk)['desk_connections{at="counter"}'], 1, "connections at the control socket")
        release.set()
        t.same(waits.result(), "crl 1 entries 0")


@test(seconds=2)
def a_reset_connection_is_counted_as_lost(t):
    desk = opened(t)
    with desk.connect() as client:
        client.sendall(b"GET /counts")
        authority.until(lambda: program.is_read(client), "the desk to read it")
        # With this option, close(2) sends a reset.
        client.setsockopt(1, 13, b"\1\0\0\0\0\0\0\0")
    wanted = {'{why="broken"}': 1, '{why="late"}': 0, '{why="crowded"}': 0, '{why="memory"}': 0}
    authority.until(lambda: of(metrics(t, desk), "desk_connections_lost_total") == wanted, "the lost connection")


@test(seconds=2)
def an_ocsp_answer_is_counted_that_the_store_failed(t):
    """After a failed sync the desk closes the register. From then on each OCSP answer is internalError."""
    t.register()
    t.clock(DAY)
    t.open("ca.db", faults=faults.environment(count=t.room / "usual")).end()
    before = faults.counted(t.room / "usual")["sync"]
    desk = t.open("ca.db", faults=faults.environment(count=t.room / "count", fail=f"sync:{before + 1}+"))
    t.same(t.desk("at", "control", given="subscriber acme\n").lines, ["F2 store"])
    t.same(parted(desk.ask("POST", "/ocsp", OCSP))[2], b"0\x03\n\x01\x02", "internalError")
    t.same(of(metrics(t, desk), "desk_ocsp_internal_errors_total"), {'{cause="signer"}': 0, '{cause="store"}': 1})


@test(seconds=2)
def signatures_and_failures(t):
    """The metrics count signatures and failures of CRLs and of OCSP answers separately. They also say since when each kind has failed."""
    fails = set()
    t.signer(answer=lambda message, call: None if call in fails else ANY_SIGNATURE)
    desk = opened(t, *SIGNING, key=program.P256_KEY)
    signs = lambda: [of(metrics(t, desk), f"desk_sign{it}") for it in ("atures_total", "ature_failures_total", "ature_timestamp_seconds", "ature_failure_timestamp_seconds", "er_failing_since_timestamp_seconds")]
    both = lambda crl, ocsp: {'{of="crl"}': crl, '{of="ocsp"}': ocsp}
    fails.update({1, 4, 5})
    desk.ask("POST", "/ocsp", OCSP)
    t.same(signs(), [both(0, 0), both(0, 1), both(0, 0), both(0, FIRST), both(0, FIRST)], "after an answer without a signature")
    t.same(health(t, desk), (503, {"crl": "at-once", "ocsp_signer": DAY}))
    t.same(of(metrics(t, desk), "desk_ocsp_internal_errors_total"), {'{cause="signer"}': 1, '{cause="store"}': 0})
    t.clock(program.moment_of(FIRST + 1))
    t.done("at", "control", given="crl\n")
    t.same(signs(), [both(1, 0), both(0, 1), both(FIRST + 1, 0), both(0, FIRST), both(0, FIRST)], "after a signed CRL")
    desk.ask("POST", "/ocsp", OCSP)
    desk.ask("POST", "/ocsp", b"abc")
    t.same(signs(), [both(1, 1), both(0, 1), both(FIRST + 1, FIRST + 1), both(0, FIRST), both(0, 0)], "after a signed answer and a malformedRequest")
    t.same(health(t, desk), (200, {}))
    t.same(of(metrics(t, desk), "desk_ocsp_internal_errors_total"), {'{cause="signer"}': 1, '{cause="store"}': 0}, "no further internalError")
    for later in (2, 3):
        t.clock(program.moment_of(FIRST + later))
        t.same(t.desk("at", "control", given="crl\n").lines, ["F3 signer"])
    t.same(signs(), [both(1, 1), both(2, 1), both(FIRST + 1, FIRST + 1), both(FIRST + 3, FIRST), both(FIRST + 2, 0)], "after two CRLs failed")
    t.same(health(t, desk), (503, {"crl_signer": program.moment_of(FIRST + 2)}))


@test
def a_crl_with_a_placeholder_digest_and_a_new_signer(t):
    """If the latest CRL has a placeholder digest, the next one is due at once for a desk with a signer, and not for one without."""
    t.register(lines=f"{DAY} subscriber acme\n{DAY} crl\n", key=program.P256_KEY)
    signer = t.signer()
    why = "why CRL 1 has a placeholder digest: the next one is due at once"
    for words, due, found, told in (((), program.moment_of(FIRST + 7 * 86_400), (200, {}), "why nothing"), (SIGNING, None, (503, {"crl": "at-once"}), why)):
        t.clock(program.moment_of(FIRST + 60))
        desk = t.open("ca.db", *words)
        for _ in range(2):
            t.same(health(t, desk), found)
            t.same(metrics(t, desk)["desk_crl_due_timestamp_seconds"], program.seconds_of(due) if due else 0)
        with t.control() as control:
            t.same([control.ask(line) for line in ("next-crl", "why")], [f"next-crl {program.moment_of(FIRST + 7 * 86_400)}", told])
            if words:
                t.same([control.ask(line) for line in ("revoke 9", "why", "next-crl", "why")], ["E17 no-request", "why E17 no-request", f"next-crl {program.moment_of(FIRST + 7 * 86_400)}", why])
                t.same(control.ask("crl"), "crl 2 entries 0")
                t.same([control.ask(line) for line in ("revoke 9", "next-crl", "why")], ["E17 no-request", f"next-crl {program.moment_of(FIRST + 60 + 7 * 86_400)}", "why E17 no-request"])
        if words:
            t.same(health(t, desk), (200, {}))
            t.same(metrics(t, desk)["desk_crl_due_timestamp_seconds"], FIRST + 60 + 7 * 86_400)
        desk.end()
    t.same(len(signer.asked), 1, "signatures")
    desk = t.open("ca.db", *SIGNING)
    t.same(health(t, desk), (200, {}), "opened again, now that the latest CRL is signed")


@test
def an_ocsp_line_at_the_control_socket_is_signed_too(t):
    t.signer(answer=lambda message, call: None if call == 2 else ANY_SIGNATURE)
    desk = opened(t, *SIGNING, key=program.P256_KEY)
    with t.control() as control:
        t.true(len(control.ask(f"ocsp {OCSP.hex()}")) > 100, "the reply has no signature")
        t.same(control.ask(f"ocsp {OCSP.hex()}"), "ocsp 30030a0102", "internalError, since the signer fails")
        t.same(control.ask("ocsp 00"), "ocsp 30030a0101", "malformedRequest, which is not signed")
    found = metrics(t, desk)
    t.same((found['desk_signatures_total{of="ocsp"}'], found['desk_signature_failures_total{of="ocsp"}'], found['desk_signature_failures_total{of="crl"}']), (1, 1, 0))


@test(seconds=3)
def an_answer_that_waits_for_its_signature(t):
    """The answer is counted once it is made, under the route of its request, and with all the time that it took."""
    release = threading.Event()
    t.callback(release.set)
    signers = t.enter_context(Signers(t.room / "ca.sign", lambda message: (release.wait(60), ANY_SIGNATURE)[1]))
    desk = opened(t, *SIGNING, key=program.P256_KEY)
    begun = time.monotonic()
    with ThreadPoolExecutor(1) as pool:
        waits = pool.submit(desk.ask, "POST", "/ocsp", OCSP)
        t.true(signers.until(1), "no signature is requested")
        time.sleep(0.4)
        found = metrics(t, desk)
        t.same((of(found, "desk_http_responses_total"), found["desk_exchange_seconds_count"]), ({}, 0), "while the answer waits")
        release.set()
        waits.result()
    found = metrics(t, desk)
    t.same(of(found, "desk_http_responses_total"), {'{route="/ocsp",code="200"}': 1, '{route="/metrics",code="200"}': 1})
    t.same((found['desk_signatures_total{of="ocsp"}'], found['desk_signature_failures_total{of="ocsp"}']), (1, 0))
    t.true(0.4 <= found["desk_exchange_seconds_sum"] <= 2 * (time.monotonic() - begun), f"seconds of both: {found['desk_exchange_seconds_sum']}")


@each({"a command": ("subscriber acme", "subscriber 1"), "a schedule": ("schedule 1970-01-01T00:00:00Z=100", "schedule set")})
def a_disk_that_fails(t, line, reply):
    """/health reports the failing store until a command is entered or a schedule is set. A query does not end this, since it writes nothing."""
    base, files = t.register("base.db"), "ca.db-wal,ca.db"
    t.clock(DAY)
    faults.copy(base, t.room / "ca.db")
    t.open("ca.db", faults=faults.environment(count=t.room / "count", only=files)).end()
    (t.room / "control").unlink(missing_ok=True)
    faults.copy(base, t.room / "ca.db")
    # The first write after those of the opening fails.
    desk = t.open("ca.db", faults=faults.environment(only=files, fail=f"write:{faults.counted(t.room / 'count')['write'] + 1}"))
    with t.control() as control:
        t.same(control.ask(line), "F2 store")
        t.same(health(t, desk), (503, {"crl": "at-once", "store": DAY}))
        t.clock(program.moment_of(FIRST + 5))
        t.same(control.ask("counts"), "good 0 revoked 0 expired 0")
        t.same(health(t, desk), (503, {"crl": "at-once", "store": DAY}), "after a query")
        t.same(metrics(t, desk)["desk_store_failing_since_timestamp_seconds"], FIRST)
        t.same(control.ask(line), reply)
    t.same(health(t, desk), (503, {"crl": "at-once"}), f"after {line!r}")


@test
def health_names_all_that_fails_together(t):
    """No signer listens, a table is nearly full, the first CRL is due, a write to the disk failed, and then the clock is too far ahead."""
    lines, files = "".join(f"{DAY} subscriber name{at}\n" for at in range(9)), "ca.db-wal,ca.db"
    base = t.register("base.db", lines=lines, key=program.P256_KEY, options=("--cap", "10"))
    t.clock(DAY)
    faults.copy(base, t.room / "ca.db")
    t.open("ca.db", *SIGNING, faults=faults.environment(count=t.room / "count", only=files)).end()
    (t.room / "control").unlink(missing_ok=True)
    faults.copy(base, t.room / "ca.db")
    # The first write after those of the opening fails.
    desk = t.open("ca.db", *SIGNING, faults=faults.environment(only=files, fail=f"write:{faults.counted(t.room / 'count')['write'] + 1}"))
    with t.control() as control:
        t.same((control.ask("crl"), control.ask("subscriber last")), ("F3 signer", "F2 store"))
    t.same(parted(desk.ask("POST", "/ocsp", OCSP))[2], authority.INTERNAL, "an OCSP response without a signer")
    later = program.moment_of(FIRST + 31 * 86_400)
    t.clock(later)
    t.same(health(t, desk), (503, {"clock": later, "crl": "at-once", "crl_signer": DAY, "ocsp_signer": DAY, "rows": later, "store": DAY}))


@test
def a_copy_that_fails_is_no_failure_of_the_store(t):
    desk = opened(t)
    with t.control() as control:
        control.ask("crl")
        t.same(control.ask("copy nowhere/ca.db"), "F2 store")
        t.same(health(t, desk), (200, {}))
        t.same((metrics(t, desk)['desk_lines_total{reply="fault"}'], metrics(t, desk)["desk_store_failing_since_timestamp_seconds"]), (1, 0))


@test
def it_changes_nothing(t):
    desk = opened(t)
    t.done("at", "control", given="subscriber acme\n")
    t.clock("2026-01-03T00:00:00Z")
    for path in ("/metrics", "/health"):
        asked(t, desk, path)
    t.clock("2026-01-02T00:00:00Z")
    t.same(t.done("at", "control", given="order 1 90\n"), "order 1\n", "a command at an earlier moment than that of the two requests")


# ---- what is seldom so

# For each row: lines, the moment of the clock at which the desk is asked, and samples of /metrics at that moment.
CERTIFICATE = ["subscriber acme", "order 1 30", f"register 1 05 {DAY} 2026-01-20T00:00:00Z"]
SELDOM = {
    "each certificate has ended": (
        CERTIFICATE, "2026-01-21T00:00:00Z", {'desk_certificates{status="good"}': 0, 'desk_certificates{status="expired"}': 1}),
    "two requests are overdue": (
        [*CERTIFICATE, *["request 05 asked"] * 2], "2026-01-03T00:00:00Z", {"desk_requests_open": 2, "desk_requests_overdue": 2}),
    "a table is full": (
        ["subscriber acme", *["order 1 30"] * 3, *(f"register {it} 0{it} {DAY} 2026-01-20T00:00:00Z" for it in (1, 2, 3))], DAY,
        {'desk_rows{table="certificates"}': 3, "desk_rows_cap": 3}),
    "the seconds since 1970 have more than 32 bits": ([], 2**32 + 1, {"desk_clock_timestamp_seconds": 2**32 + 1}),
}


@each(SELDOM)
def the_metrics_are_whole(t, lines, moment, wanted):
    """None of this is a failure of the store."""
    t.register(lines="".join(f"{DAY} {it}\n" for it in lines), options=("--cap", "3"))
    t.clock(moment)
    desk = t.open()
    found = metrics(t, desk)
    t.same({it: found.get(it) for it in (*wanted, "desk_register_readable")}, {**wanted, "desk_register_readable": 1})
    t.same(health(t, desk)[1].get("store"), None, "since when the store fails")


@test(seconds=2)
def answers_that_take_more_than_ten_seconds(t):
    """No signature comes in time, so each of seven OCSP clients gets its answer ten seconds and a millisecond after its request."""
    release = threading.Event()
    t.callback(release.set)
    signers = t.enter_context(Signers(t.room / "ca.sign", lambda message: (release.wait(60), ANY_SIGNATURE)[1]))
    t.register(key=program.P256_KEY)
    desk = Passing(t, *SIGNING)
    with ThreadPoolExecutor(7) as pool:
        waits = [pool.submit(desk.desk.ask, "POST", "/ocsp", OCSP) for _ in range(7)]
        t.true(signers.until(7), "fewer than seven signatures are requested")
        # Two other clients are answered meanwhile.
        desk.advance(10_001)
        t.same({parted(it.result())[2] for it in waits}, {authority.INTERNAL}, "the answers")
    found = metrics(t, desk.desk)
    seconds = of(found, "desk_exchange_seconds")
    t.same((seconds['_bucket{le="10"}'], seconds['_bucket{le="+Inf"}'], seconds["_sum"]), (2, 9, 70.007), "two buckets, and the sum of the seconds")
    by_route = of(found, "desk_http_response_seconds")
    t.same((by_route['_count{route="/ocsp"}'], by_route['_sum{route="/ocsp"}']), (7, 70.007), "answers of /ocsp, and their seconds")


@test
def a_scrape_beside_a_hundred_connections(t):
    desk = opened(t)
    with contextlib.ExitStack() as clients:
        for _ in range(101):
            clients.enter_context(desk.connect())
        authority.until(lambda: metrics(t, desk)['desk_connections{at="port"}'] == 102, "all connections, and that of /metrics")


@test
def why_a_later_crl_is_due_at_once(t):
    t.register(lines=f"{DAY} crl\n" * 2, key=program.P256_KEY)
    t.signer()
    t.clock(DAY)
    t.open("ca.db", *SIGNING)
    with t.control() as control:
        why = "why CRL 2 has a placeholder digest: the next one is due at once"
        t.same([control.ask(it) for it in ("next-crl", "why")], ["next-crl 2026-01-08T00:00:00Z", why])


# ---- Prometheus


@test
def promtool_takes_the_metrics_and_the_alerts(t):
    need("promtool")
    desk = opened(t)
    t.done("at", "control", given="".join(f"{it}\n" for it in [*LINES, "crl"]))
    desk.ask("GET", "/crl")
    t.same(t.tool("promtool", "check", "metrics", given=asked(t, desk, "/metrics")[2]), b"", "what promtool finds wrong with /metrics")
    t.has(t.tool("promtool", "check", "rules", ALERTS).decode(), "SUCCESS: 13 rules found")


RULES = """
rule_files: [{rules}]
evaluation_interval: 1m
tests:
"""
# Series with a value for each minute, and the alerts that fire after nine minutes, and still after 59 (or only at the given moments).
CASES = {
    "all is well": (["desk_requests_overdue{job='desk'} 0x60", "up{job='desk'} 1x60", "desk_clock_behind_seconds 0x60", "desk_signer_failing_since_timestamp_seconds{of='crl'} 0x60",
                     "desk_clock_timestamp_seconds 0+60x60", "desk_crl_due_timestamp_seconds 604800x60"], []),
    "nobody answers": (["up{job='desk'} 0x60"], ["DeskAway"]),
    "a follower that reaches its leader": (
        ["desk_follower_current 1x60", "desk_follower_diverged 0x60", "desk_follower_pages_total{result='entered'} 1+9x60", "desk_follower_pages_total{result='refused'} 2x60"], []),
    "a follower that is behind": (["desk_follower_current 0x60", "desk_follower_diverged 0x60"], ["DeskFollowerBehind"]),
    "a follower that has diverged": (["desk_follower_current 1x60", "desk_follower_diverged 1x60"], ["DeskFollowerRefuses"]),
    "a leader whose pages are refused": (["desk_follower_current 1x60", "desk_follower_pages_total{result='refused'} 1+9x60"], ["DeskFollowerRefuses"]),
    "a CRL that is late": (["desk_clock_timestamp_seconds 0+60x60", "desk_crl_due_timestamp_seconds -7200x60"], ["DeskCrlLate"]),
    "a CRL that is due": (["desk_clock_timestamp_seconds 0+60x60", "desk_crl_due_timestamp_seconds -3600x60"], []),
    "a signer that fails": (["desk_signer_failing_since_timestamp_seconds{of='ocsp'} 5x60"], ["DeskSignerFailing"]),
    "a store that fails": (["desk_store_failing_since_timestamp_seconds 5x60"], ["DeskStoreFailing"]),
    "a register that can't be read": (["desk_register_readable{job='desk'} 0x60", "desk_clock_behind_seconds{job='desk'} 0x60"], ["DeskRegisterUnreadable"]),
    "a register that refuses for its clock": (["desk_register_readable{job='desk'} 0x60", "desk_clock_behind_seconds{job='desk'} 9x60"], ["DeskClock"]),
    "no CRL yet": (["desk_clock_timestamp_seconds 1790000000+60x60", "desk_crl_due_timestamp_seconds 0x60"], ["DeskCrlLate", "DeskClock"]),
    "a responder's certificate that ends": (["desk_responder_certificate_not_after_timestamp_seconds 604800x60", "desk_clock_timestamp_seconds 0+60x60"], ["DeskResponderEnds"]),
    "a responder's certificate that does not end yet": (["desk_responder_certificate_not_after_timestamp_seconds 610000x60", "desk_clock_timestamp_seconds 0+60x60"], []),
    "a request that is overdue": (["desk_requests_overdue 2x60"], ["DeskRequestOverdue"]),
    "a flood that was refused": (["desk_http_responses_total{route='/requests',code='429'} 1+1x60"], ["DeskFlooded"]),
    "a flood that found little room": (["desk_http_responses_total{route='/requests',code='503'} 1+1x60", "desk_http_responses_total{route='/health',code='503'} 1+1x60"], ["DeskFlooded"]),
    "a first flood within a minute": (["desk_http_responses_total{route='/requests',code='429'} _x49 100x60"], ["DeskFlooded"], "50m", "63m"),
    "a flood that was over long ago": (["desk_http_responses_total{route='/requests',code='429'} 1+9x3 37x60"], [], "19m", "59m"),
    "tables with room": (["desk_rows{table='requests'} 800000x60", "desk_rows{table='crls'} 10x60", "desk_rows_cap 1000000x60"], []),
    "a table that fills up": (["desk_rows{table='requests'} 800001x60", "desk_rows{table='crls'} 10x60", "desk_rows_cap 1000000x60"], ["DeskTableFilling"]),
    "a disk that fills up": (["node_filesystem_avail_bytes{mountpoint='/var'} 9x60", "node_filesystem_size_bytes{mountpoint='/var'} 100x60"], ["DeskDiskFilling"]),
    "a file system that is always full": (
        [f"node_filesystem_{what}_bytes{{mountpoint='/snap',fstype='squashfs'}} {value}x60" for what, value in (("avail", 0), ("size", 100))], []),
    "a clock that is behind": (["desk_clock_behind_seconds 3x60"], ["DeskClock"]),
    "a clock of its own": (["desk_clock_timestamp_seconds 90+60x60"], ["DeskClock"]),
    "a clock that is behind that of Prometheus": (["desk_clock_timestamp_seconds -90+60x60"], ["DeskClock"]),
}


@each(CASES)
def each_alert_fires_and_no_other(t, series, fires, *moments):
    need("promtool")
    names = re.findall(r"- alert: (\w+)", ALERTS.read_text())
    case = RULES.format(rules=ALERTS) + "  - interval: 1m\n    input_series:\n"
    for one in series:
        name, values = one.rsplit(" ", 1)
        case += f'      - series: "{name}"\n        values: "{values}"\n'
    case += "    promql_expr_test:\n"
    for name in names:
        wanted = "\n        exp_samples: [{labels: '{}', value: 1}]" if name in fires else "\n        exp_samples: []"
        for moment in moments or ("9m", "59m"):
            case += f"""      - expr: count(ALERTS{{alertname="{name}",alertstate="firing"}})\n        eval_time: {moment}{wanted}\n"""
    (t.room / "case.yml").write_text(case)
    t.tool("promtool", "test", "rules", "case.yml")


# The clock, when the next CRL is due, and what the alert says an hour later.
LATE = {"none yet": (1_790_000_000, 0, "no signed CRL was issued yet"), "late": (1_790_000_000, 1_789_990_000, "the next CRL is due since 3h 46m 40s")}


@each(LATE)
def a_late_crl_is_described(t, clock, due, wanted):
    need("promtool")
    case = RULES.format(rules=ALERTS) + f"""  - interval: 1m
    input_series:
      - {{series: "desk_clock_timestamp_seconds{{instance='ca'}}", values: "{clock}+60x60"}}
      - {{series: "desk_crl_due_timestamp_seconds{{instance='ca'}}", values: "{due}x60"}}
    alert_rule_test:
      - {{eval_time: 1h, alertname: DeskCrlLate, exp_alerts: [{{exp_labels: {{severity: page, instance: ca}}, exp_annotations: {{summary: "ca: {wanted}"}}}}]}}
"""
    (t.room / "case.yml").write_text(case)
    t.tool("promtool", "test", "rules", "case.yml")


# For each other alert its severity, series by which it fires, its labels besides the instance and the severity, and what it says after nine minutes.
SAID = {
    "DeskAway": ("page", ["up{job='desk'} 0x60"], "job: desk", "the desk does not answer"),
    "DeskSignerFailing": ("page", ["desk_signer_failing_since_timestamp_seconds{of='ocsp'} 5x60"], "of: ocsp", "signatures of ocsp fail"),
    "DeskResponderEnds": ("ticket", ["desk_responder_certificate_not_after_timestamp_seconds{} 266940x60", "desk_clock_timestamp_seconds{} 0+60x60"],
                          "", "the responder's certificate ends in 3d 2h 0m 0s"),
    "DeskStoreFailing": ("page", ["desk_store_failing_since_timestamp_seconds{} 5x60"], "", "the store fails, and no command is entered"),
    "DeskRegisterUnreadable": ("page", ["desk_register_readable{} 0x60"], "", "the register can't be read"),
    "DeskRequestOverdue": ("ticket", ["desk_requests_overdue{} 2x60"], "", "2 requests for revocation are overdue"),
    "DeskFlooded": ("ticket", ["desk_http_responses_total{route='/requests',code='429'} 5x60"], "route: /requests, code: 429",
                    "5 requests for revocation were refused with 429 in 15 minutes"),
    "DeskTableFilling": ("page", ["desk_rows{table='orders'} 800001x60", "desk_rows_cap{} 1000000x60"], "table: orders",
                         "the table of orders has 800001 rows, over four fifths of its cap"),
    "DeskDiskFilling": ("page", [f"node_filesystem_{it}_bytes{{mountpoint='/var'}} {value}x60" for it, value in (("avail", 9), ("size", 100))],
                        "mountpoint: /var", "9% of the disk at /var is left"),
    "DeskClock": ("page", ["desk_clock_behind_seconds{} 100x60"], "", "the desk's clock is wrong by 1m 40s"),
    "DeskFollowerBehind": ("page", ["desk_follower_current{} 0x60"], "", "the follower answers nothing, because it does not reach its leader"),
    "DeskFollowerRefuses": ("page", ["desk_follower_diverged{} 1x60"], "", "the follower refuses what its leader sends"),
}


@each({name: (name, *it) for name, it in SAID.items()})
def what_each_alert_says(t, alert, severity, series, labels, wanted):
    """A page wakes somebody up, and a ticket waits until the morning."""
    need("promtool")
    case = RULES.format(rules=ALERTS) + "  - interval: 1m\n    input_series:\n"
    for one in series:
        name, values = one.rsplit(" ", 1)
        name = name.replace("{", "{instance='ca',").replace(",}", "}")
        case += f'      - {{series: "{name}", values: "{values}"}}\n'
    label = f"{{severity: {severity}, instance: ca{', ' * bool(labels)}{labels}}}"
    case += f"""    alert_rule_test:
      - {{eval_time: 9m, alertname: {alert}, exp_alerts: [{{exp_labels: {label}, exp_annotations: {{summary: "ca: {wanted}"}}}}]}}
"""
    (t.room / "case.yml").write_text(case)
    t.tool("promtool", "test", "rules", "case.yml")


@test
def each_alert_is_described(t):
    t.same(sorted({*SAID, "DeskCrlLate"}), sorted(re.findall(r"- alert: (\w+)", ALERTS.read_text())))


@test(seconds=15)
def a_real_prometheus_scrapes_it(t):
    need("prometheus")
    t.register()
    desk = t.open("ca.db")
    t.done("at", "control", given="subscriber acme\n")
    port = program.free_port()
    (t.room / "prometheus.yml").write_text(
        f"global: {{scrape_interval: 1s, evaluation_interval: 1s}}\nrule_files: ['{ALERTS}']\n"
        f"scrape_configs:\n  - job_name: desk\n    static_configs: [{{targets: ['127.0.0.1:{desk.port}']}}]\n"
    )
    with contextlib.ExitStack() as stack:
        told = stack.enter_context(open(t.room / "prometheus.log", "wb"))
        words = ["prometheus", "--config.file=prometheus.yml", f"--web.listen-address=127.0.0.1:{port}", "--storage.tsdb.path=data"]
        process = subprocess.Popen(words, cwd=t.room, stdout=told, stderr=told)
        stack.callback(process.wait)
        stack.callback(process.kill)
        wanted = {"up": "1", "desk_clock_behind_seconds": "0", "desk_register_readable": "1", 'desk_lines_total{reply="accepted"}': "1", "desk_crl_number": "0"}
        got = {}

        def has_scraped():
            with contextlib.suppress(OSError, KeyError, IndexError):
                got.update({it: value_of(port, it) for it in wanted})
            return got == wanted

        with contextlib.suppress(Failed):
            authority.until(has_scraped, "a scrape")
        t.same(got, wanted, f"what it has after a scrape; it said {(t.room / 'prometheus.log').read_text()[-1000:]}")
        t.true(abs(float(value_of(port, "desk_clock_timestamp_seconds - timestamp(desk_clock_timestamp_seconds)"))) < 10, "the two clocks differ")
        t.same(value_of(port, 'count({__name__=~"desk_.+"}) > bool 40'), "1", "whether it has more than 40 series")


def value_of(port, query):
    """The value that Prometheus has for a query."""
    with urllib.request.urlopen(f"http://127.0.0.1:{port}/api/v1/query?" + urllib.parse.urlencode({"query": query}), timeout=60) as it:
        return json.load(it)["data"]["result"][0]["value"][1]
