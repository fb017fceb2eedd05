"""Commands that have arrived together at the control socket, or stand together in a script over memory, run in one transaction. Each reply is what it is
if the lines come one by one."""

import contextlib
import os
import random
import signal
import subprocess

from lib import faults, program
from lib.program import Control, parted
from lib.trial import each, test

DAY = "2026-01-01T00:00:00Z"
END = "2026-12-31T00:00:00Z"
LATER = "2026-01-02T00:00:00Z"


def send_together(desk, control, lines):
    """Sends lines to a desk that is stopped meanwhile, so that it finds all of them at once. Returns a reply for each, up to the end of the connection."""
    # A desk that leaves out a reply would keep the test waiting.
    control.stream.settimeout(20 * program.PATIENCE)
    program.hold(desk.process)
    try:
        control.stream.sendall("".join(f"{line}\n" for line in lines).encode())
    finally:
        os.kill(desk.process.pid, signal.SIGCONT)
    return read_replies(control, len(lines))


def read_replies(control, count):
    replies = []
    with contextlib.suppress(ConnectionResetError):
        while len(replies) < count and (reply := control.file.readline()):
            replies.append(reply.decode("latin-1").rstrip("\n"))
    return replies


def mixed_lines(count):
    """Commands that are accepted or refused, and now and then another line."""
    chosen, lines = random.Random(count), []
    for at in range(count):
        serial = f"{chosen.randrange(1, 40):02x}"
        lines.append(chosen.choice([
            f"subscriber name{at}", "subscriber name0", "order 1 398", "order 77 398", f"register {at + 1} {serial} {DAY} {END}",
            f"register 1 {serial} {DAY} {END}", f"request {serial} superseded", f"revoke {chosen.randrange(1, 9)}", f"decline {chosen.randrange(1, 9)}",
            f"revoke 1 {serial}",
        ] + ["counts", "why", f"status {serial}", "not a line", "", "crl"][at % 6:at % 6 + 1]))
    return lines


def contents(t, file):
    return [t.done("list", file, word) for word in ("subscribers", "orders", "certificates", "requests", "revoked")]


@each({str(count): count for count in (1, 2, 10, 255, 256, 257, 300, 700)}, seconds=2)
def replies_are_those_of_lines_one_by_one(t, count):
    lines = mixed_lines(count)
    told = {}
    for name in ("together", "alone"):
        t.register(f"{name}.db", f"{DAY} subscriber acme\n{DAY} order 1 398\n{DAY} register 1 01 {DAY} {END}\n{DAY} request 01 misuse\n")
        t.clock(LATER)
        desk = t.open(f"{name}.db", "--control", name, "--log-file", f"{name}.log")
        with t.control(name) as control:
            told[name] = send_together(desk, control, lines) if name == "together" else [control.ask(line) for line in lines]
        desk.end()
    t.same(told["together"], told["alone"], "the replies")
    t.same(contents(t, "together.db"), contents(t, "alone.db"), "the records")
    logs = [[line.split('"')[1::2] for line in (t.room / f"{name}.log").read_text().splitlines()] for name in ("together", "alone")]
    t.same(logs[0], logs[1], "the lines in the log")
    t.same(t.desk("audit", "together.db").status, 0, "status of an audit")


def subscribers(count):
    return [f"subscriber name{at}" for at in range(count)]


@test(seconds=2)
def two_hundred_and_fifty_six_commands_are_synced_once(t):
    t.register()
    t.clock(DAY)
    desk = t.open("ca.db", faults=faults.environment(count=t.room / "count"))
    with t.control() as control:
        t.same(control.ask("subscriber first"), "subscriber 1", "the line before them")
        before = faults.counted(t.room / "count")["sync"]
        t.same(control.ask("subscriber second"), "subscriber 2", "one line alone")
        once = faults.counted(t.room / "count")["sync"] - before
        t.true(once > 0, "a line alone was not synced")
        before = faults.counted(t.room / "count")["sync"]
        t.same(send_together(desk, control, subscribers(256)), [f"subscriber {at + 3}" for at in range(256)], "the replies")
        t.same(faults.counted(t.room / "count")["sync"] - before, once, "syncs for 256 lines")
        before = faults.counted(t.room / "count")["sync"]
        send_together(desk, control, [f"subscriber more{at}" for at in range(512)])
        t.same(faults.counted(t.room / "count")["sync"] - before, 2 * once, "syncs for 512 lines")


# For each row: the lines that come together, the first words of their replies, and the moment of the clock. The last accepted moment is DAY.
SYNCED_ONCE = {
    "registrations": (lambda at: f"register {at + 1} {at + 1:x} {DAY} {END}", {"registered"}, DAY),
    "refusals among them": (lambda at: f"subscriber name{at}" if at % 2 else "order 777 398", {"subscriber", "E06"}, DAY),
    "commands at a moment that the operator accepted": (lambda at: f"subscriber name{at}", {"subscriber"}, "2026-03-01T00:00:00Z"),
    "a query behind them": (lambda at: "counts" if at == 255 else f"subscriber name{at}", {"subscriber", "good"}, DAY),
    "a CRL among them": (lambda at: "crl" if at == 200 else f"subscriber name{at}", {"subscriber", "crl"}, DAY),
}


@each(SYNCED_ONCE, seconds=2)
def lines_of_each_kind_are_synced_once(t, line, words, moment):
    t.register(lines=f"{DAY} subscriber acme\n" + f"{DAY} order 1 398\n" * 256)
    t.clock(moment)
    desk = t.open("ca.db", faults=faults.environment(count=t.room / "count"))
    with t.control() as control:
        if moment != DAY:
            t.same(control.ask(f"accept-clock {moment}"), "clock accepted")
        synced = lambda: faults.counted(t.room / "count")["sync"]
        before = synced()
        t.same(control.ask("subscriber first"), "subscriber 2", "one line alone")
        once, before = synced() - before, synced()
        t.same({it.split()[0] for it in send_together(desk, control, [line(at) for at in range(256)])}, words, "the first words of the replies")
        count = synced() - before
        t.true(count < once + 8, f"{count} syncs for 256 lines, and {once} for a line alone")


# For each row: the lines that come together, and the first word of their replies.
OF_REQUESTS = {
    "requests for revocation": (lambda at: f"request {at + 9:x} superseded", "request"),
    "revocations": (lambda at: f"revoke {at + 1}", "revoked"),
    "declines": (lambda at: f"decline {at + 1}", "declined"),
}


@each(OF_REQUESTS, seconds=2)
def requests_and_decisions_are_synced_once(t, line, word):
    """Eight lines of a kind come together. The first eight of 16 certificates have a request for revocation."""
    orders = [text for at in range(1, 17) for text in ("order 1 398", f"register {at} {at:x} {DAY} {END}")]
    lines = ["subscriber acme", *orders, *(f"request {at:x} superseded" for at in range(1, 9))]
    t.register(lines="".join(f"{DAY} {it}\n" for it in lines))
    t.clock(DAY)
    desk = t.open("ca.db", faults=faults.environment(count=t.room / "count"))
    with t.control() as control:
        synced = lambda: faults.counted(t.room / "count")["sync"]
        t.same(control.ask("subscriber second"), "subscriber 2", "the line before them")
        before = synced()
        t.same(control.ask("subscriber third"), "subscriber 3", "one line alone")
        once, before = synced() - before, synced()
        replies = send_together(desk, control, [line(at) for at in range(8)])
        t.same({it.split()[0] for it in replies}, {word}, "the first words of the replies")
        t.same(synced() - before, once, "syncs for eight lines")


@test
def each_of_256_lines_is_counted_and_logged(t):
    t.register()
    t.clock(DAY)
    desk = t.open("ca.db", "--log")
    with t.control() as control:
        replies = send_together(desk, control, subscribers(256))
    t.same(replies, [f"subscriber {at + 1}" for at in range(256)], "the replies")
    t.has(parted(desk.ask("GET", "/metrics"))[2].decode(), '\ndesk_lines_total{reply="accepted"} 256\n')
    logged = [it.split('"')[1::2] for it in desk.end().err_lines if " control " in it]
    t.same(logged, [[line, reply] for line, reply in zip(subscribers(256), replies)], "the lines in the log, and their replies")


@test
def the_log_has_the_requests_and_the_times_of_lines_that_came_together(t):
    """Each reading of the elapsed time is seven milliseconds later than the one before: the first when the desk begins, and one for each line."""
    t.register(lines=f"{DAY} subscriber acme\n" + "".join(f"{DAY} order 1 398\n{DAY} register {at} 0{at} {DAY} {END}\n" for at in (1, 2)))
    t.clock(DAY)
    desk = t.open("ca.db", "--log", faults=faults.environment(tick=7))
    lines = ["request 01 superseded", "revoke 1", "request 02 misuse", "decline 2", "revoke 2"]
    with t.control() as control:
        replies = send_together(desk, control, lines)
    t.same([it.split()[0] for it in replies], ["request", "revoked", "request", "declined", "E18"], "the first words of the replies")
    named = [f" request 1 {1:040x} superseded", f" request 1 {1:040x}", f" request 2 {2:040x} misuse", f" request 2 {2:040x}", ""]
    wanted = [f" {len(reply) + 1} {7_000 * at}{end}" for at, (reply, end) in enumerate(zip(replies, named), 1)]
    # 7, 14, 21, 28 and 35 milliseconds.
    t.has(parted(desk.ask("GET", "/metrics"))[2].decode(), "\ndesk_exchange_seconds_sum 0.105000\n", "the metrics")
    told = [it.rsplit('"', 1)[1] for it in desk.end().err_lines if " control " in it]
    t.same(told, wanted, "the bytes, the microseconds and the request of each line in the log")


@test
def why_explains_a_line_that_came_together_with_others(t):
    t.register(lines=f"{DAY} subscriber acme\n{DAY} order 1 30\n")
    t.clock(DAY)
    desk = t.open()
    with t.control() as control:
        replies = send_together(desk, control, ["subscriber other", f"register 1 05 {DAY} {END}", "why"])
    t.same(replies, ["subscriber 2", "E12 too-long", "why notAfter at most 2026-01-30T23:59:59Z"])


@test(seconds=2)
def none_has_happened_if_the_commit_fails(t):
    t.register()
    t.clock(DAY)
    desk = t.open("ca.db", faults=faults.environment(count=t.room / "usual"))
    with t.control() as control:
        control.ask("counts")
        before = faults.counted(t.room / "usual")["sync"]
    desk.end()
    desk = t.open("ca.db", "--control", "second", faults=faults.environment(count=t.room / "count", fail=f"sync:{before + 1}+"))
    with t.control("second") as control:
        t.same(send_together(desk, control, subscribers(20)), ["F2 store"] * 20, "the replies")
    t.true(faults.counted(t.room / "count")["met"] > 0, "no sync failed")
    desk.end(signal.SIGKILL)
    t.same(t.done("list", "ca.db", "subscribers").splitlines()[1:], [], "the subscribers after a restart")
    t.same(t.desk("audit", "ca.db").status, 0, "status of an audit")


@test(seconds=20)
def a_stop_leaves_all_of_them_or_none(t):
    """The desk is killed in place of each of its steps. If a reply has come, all commands of the transaction are in the register."""
    base = t.register("base.db")
    found = set()
    for stop in range(1, 1000):
        faults.copy(base, t.room / "ca.db")
        env = faults.environment(count=t.room / "count", stop=stop, lose=stop)
        with program.Opened(["open", "ca.db", "--control", "control", "--unsigned"], cwd=t.room, faults=env, clock=DAY) as desk:
            replies = []
            if desk.listens:
                with contextlib.suppress(ConnectionError, FileNotFoundError), Control(t.room / "control") as control:
                    with contextlib.suppress(ProcessLookupError, BrokenPipeError):
                        replies = send_together(desk, control, subscribers(10))
            is_stopped = desk.process.poll() is not None or len(replies) < 10
            desk.process.kill()
        with contextlib.suppress(FileNotFoundError):
            os.remove(t.room / "control")
        kept = len(t.done("list", "ca.db", "subscribers").splitlines()[1:])
        t.true(kept in (0, 10) and kept >= len(replies), f"step {stop}: {kept} subscribers are in the register after {len(replies)} replies")
        found.add((kept, len(replies)))
        if not is_stopped:
            break
    t.true((0, 0) in found and (10, 10) in found, f"the stops left only {found}")


# A script over a register in memory


def mixed_script(count):
    """Lines of a script: those of `mixed_lines` and requests for OCSP answers, with several moments, a CR before the LF, no moment; the last has no LF."""
    chosen, told = random.Random(count), []
    for at, line in enumerate(mixed_lines(count)):
        moment = chosen.choice([DAY] * 20 + [LATER] * (at > count // 2) + ["2025-12-31T23:59:59Z", "2026-02-30T00:00:00Z"])
        told.append(chosen.choice([f"{moment} {line}\n"] * 30 + [f"{moment} {line}\r\n", f"{line}\n", f"{moment} ocsp {faults.OCSP_REQUEST}\n"]))
    begin = ("subscriber acme", "order 1 398", f"register 1 01 {DAY} {END}", "request 01 superseded", "revoke 1")
    return "".join(f"{DAY} {line}\n" for line in begin) + "".join(told) + f"{LATER} counts"


@each({"at once": None, "997 bytes at a time": 997, "a byte at a time": 1}, seconds=2)
def a_script_over_memory_replies_as_one_over_a_file(t, size):
    """Over a file, each line runs alone. Both registers have the same issuer and policy."""
    t.register()
    text = mixed_script(1_000)
    alone = t.desk("script", "ca.db", given=text)
    ran, _ = faults.run(t, ["script"], text, only="stdin", **({"short": size} if size else {}))
    t.same((ran.status, ran.lines), (0, alone.lines), "the replies")
    words = {line.split()[0] for line in alone.lines}
    t.true({"registered", "revoked", "crl", "ocsp", "E01", "E19", "E22", "order"} <= words, f"the script has only replies with {sorted(words)}")


@test
def a_script_over_memory_replies_before_more_lines_come(t):
    """The program that writes the lines may need the reply to one for the next."""
    with subprocess.Popen([program.program(), "script"], stdin=subprocess.PIPE, stdout=subprocess.PIPE, env=program.environment()) as script:
        t.callback(script.kill)
        for lines in (1, 2, 3, 256, 1):
            with t.at_once(f"{lines} replies"):
                script.stdin.write(f"{DAY} subscriber name{lines}\n".encode() + f"{DAY} order 1 398\n".encode() * (lines - 1))
                script.stdin.flush()
                replies = [script.stdout.readline().split()[0] for _ in range(lines)]
            t.same(replies[1:], [b"order"] * (lines - 1), "the first words of the replies")
        script.stdin.close()
        t.same((script.stdout.read(), script.wait()), (b"", 0), "what is left of the output, and the status")
