#!/usr/bin/env python3
"""Measures the built program from outside, over registers in files of any size: opening; each kind of line, in microseconds a line (from the first of many lines to
the reply to the last, in a script that has the register open), with its memory; a CRL of so many entries; an audit; and the migration of registers of versions 1 and 2.
It prints tables like those of docs/PERFORMANCE.md.

Usage: bench/desk.py [NUMBER OF CERTIFICATES ..]     (if left out: 1000 10000 100000; DESK names another program)
       bench/desk.py --crl [NUMBER OF ENTRIES ..]    only CRLs, of registers whose certificates are all revoked
       bench/desk.py --lists [NUMBER OF CERTIFICATES ..]    lists: of a closed register, and the pages of an open one
       bench/desk.py --overdue [NUMBER OF CERTIFICATES ..]    `overdue`, and an open desk's `/metrics`: a quarter as many requests, a fifth open
The files are in the folder that DESK_BENCH_FOLDER names, or in the system's temporary folder; /dev/shm keeps them in memory.
"""
import json
import os
import shutil
import signal
import socket
import statistics
import subprocess
import sys
import tempfile
import threading
import time
import urllib.request

TOP = os.path.dirname(os.path.dirname(os.path.abspath(__file__)))
sys.path.insert(0, f"{TOP}/tests")
sys.dont_write_bytecode = True

from lib import registers  # noqa: E402

DESK = os.path.abspath(os.environ.get("DESK", f"{TOP}/crates/reg_desk/out/reg_desk"))
NAME, KEY = "300D310B300906035504030C024341", "616263"
DAY, END = "2026-01-01T00:00:00Z", "2026-12-31T23:59:59Z"
LINES, ROUNDS = 2_000, 3
# A fifth of the certificates are revoked.
REVOKED = 5
LISTS = ("certificates", "revoked", "orders", "subscribers", "crls", "open-requests", "overdue")
# At most this many pages of a list are timed.
PAGES = 400


def serial(place):
    """A serial number of 20 octets for an index, spread by a multiplicative hash, because a CA draws random ones."""
    return f"40000000{place * 0x9E37_79B9_7F4A_7C15 % 2**64:016x}{0:016x}"


def script(path, lines):
    """The seconds of a script over a register's file, and its last reply."""
    began = time.perf_counter()
    ran = subprocess.run([DESK, "script", path], input="".join(f"{DAY} {it}\n" for it in lines), capture_output=True, text=True, check=True)
    took = time.perf_counter() - began
    told = ran.stdout.splitlines()
    wrong = [it for it in told if it[0] in "EF"]
    if wrong:
        raise SystemExit(f"bench/desk.py: {wrong[0]}")
    return took, told[-1] if told else ""


def make(path, size, revoked=REVOKED):
    """A register with so many certificates, an order each, a fraction of them revoked, and a CRL."""
    subprocess.run([DESK, "init", path, "--name", NAME, "--key", KEY], check=True, stdout=subprocess.DEVNULL)
    script(path, ["subscriber acme"])
    for first in range(1, size + 1, 100_000):
        places = range(first, min(first + 100_000, size + 1))
        script(path, [line for at in places for line in ("order 1 398", f"register {at} {serial(at)} {DAY} {END}")])
    gone = range(1, size + 1, revoked)
    script(path, [line for request, at in enumerate(gone, 1) for line in (f"request {serial(at)} superseded", f"revoke {request}")])
    script(path, ["crl"])
    return len(gone)


def kinds(size, requests):
    """For each kind of line: the lines that must be entered first, and the lines that are timed, which all do the same work."""
    good = [at for at in range(1, size + 1) if at % REVOKED != 1]
    spread = [good[it * 7_919 % len(good)] for it in range(LINES)]
    some = [good[it * len(good) // min(LINES, len(good))] for it in range(min(LINES, len(good)))]
    new = range(size + 1, size + 1 + LINES)
    return {
        "`status`": ([], [f"status {serial(it)}" for it in spread]),
        "`listing`": ([], [f"listing {serial(it)}" for it in spread]),
        "`counts`": ([], ["counts"] * LINES),
        "`order`": ([], ["order 1 398"] * LINES),
        "`register`": (["order 1 398"] * LINES, [f"register {it} {serial(it)} {DAY} {END}" for it in new]),
        "`request`": ([], [f"request {serial(it)} asked" for it in some]),
        "`revoke`": ([f"request {serial(it)} asked" for it in some], [f"revoke {requests + it}" for it in range(1, len(some) + 1)]),
        "`next-crl`": ([], ["next-crl"] * 200),
        "`overdue`": ([], ["overdue"] * 20),
        "`crl`": ([], ["crl"] * 20),
    }


def copied(path, folder):
    other = f"{folder}/copy.db"
    for end in ("", "-wal"):
        if os.path.exists(path + end):
            shutil.copyfile(path + end, other + end)
    return other


class Script:
    """`desk script` over a register's file, at one moment. The register is open once this exists."""

    def __init__(self, path, moment=DAY):
        self.moment = moment
        self.process = subprocess.Popen([DESK, "script", path], stdin=subprocess.PIPE, stdout=subprocess.PIPE)
        self.ask(["counts"])

    def ask(self, lines):
        """The seconds until all of these lines are answered."""
        text = "".join(f"{self.moment} {it}\n" for it in lines).encode()
        feeder = threading.Thread(target=self.feed, args=(text,))
        began = time.perf_counter()
        feeder.start()
        for line in lines:
            reply = self.process.stdout.readline()
            if reply[:1] in (b"E", b"F", b""):
                raise SystemExit(f"bench/desk.py: {line}: {reply.decode()!r}")
        took = time.perf_counter() - began
        feeder.join()
        return took

    def feed(self, text):
        self.process.stdin.write(text)
        self.process.stdin.flush()

    def peak(self):
        """Its peak memory so far, in MiB."""
        with open(f"/proc/{self.process.pid}/status") as lines:
            return next(int(it.split()[1]) for it in lines if it.startswith("VmHWM")) / 1024

    def __enter__(self):
        return self

    def __exit__(self, *_):
        self.process.stdin.close()
        self.process.wait()
        self.process.stdout.close()


def measured(path, folder, before, lines):
    """The microseconds of a line in the fastest of ROUNDS runs, each over a copy of the register, and the peak memory in MiB."""
    took, peak = [], 0
    for _ in range(ROUNDS):
        with Script(copied(path, folder)) as desk:
            if before:
                desk.ask(before)
            took.append(desk.ask(lines) / len(lines) * 1e6)
            peak = max(peak, desk.peak())
    return min(took), peak


def audited(path):
    """The seconds of an audit, which finds the register sound."""
    began = time.perf_counter()
    subprocess.run([DESK, "audit", path], check=True, stdout=subprocess.DEVNULL)
    return time.perf_counter() - began


def made_newer(folder, records, version):
    """The seconds of the first opening of a register of an older version."""
    path = f"{folder}/older.db"
    registers.make(path, records, version)
    took = script(path, [])[0]
    for end in ("", "-wal"):
        if os.path.exists(path + end):
            os.remove(path + end)
    return took


def crls(sizes):
    """Prints the time to build, digest and store a CRL, its bytes, and the peak memory of the desk."""
    print("| Entries | Bytes | `crl`, ms | Most memory, MiB |\n|---|---|---|---|")
    with tempfile.TemporaryDirectory(prefix="desk-bench-", dir=os.environ.get("DESK_BENCH_FOLDER")) as folder:
        for size in sizes:
            path = f"{folder}/{size}.db"
            make(path, size, 1)
            took, peak = measured(path, folder, [], ["crl"] * 5)
            der = subprocess.run([DESK, "crl", path], capture_output=True, check=True).stdout
            print(f"| {size:,} | {len(der):,} | {took / 1e3:,.1f} | {peak:.0f} |", flush=True)
            os.remove(path)


def pages(port, word):
    """The milliseconds of each page of a list of an open desk: at most PAGES pages, of at most 250 rows each."""
    took, key = [], ""
    while len(took) < PAGES:
        began = time.perf_counter()
        with urllib.request.urlopen(f"http://127.0.0.1:{port}/list/{word}?limit=1000{key}") as answer:
            body = answer.read()
        took.append((time.perf_counter() - began) * 1e3)
        after = json.loads(body)["next"]
        if after is None:
            break
        key = f"&after={after}"
    return took


def lists(sizes):
    """Prints the times of each list of a closed register, and of the list's pages of an open one."""
    print("| Certificates | List | Rows | `desk list`, s | Rows a second | Pages | A page of an open desk, ms: median | slowest |\n|---|---|---|---|---|---|---|---|")
    with tempfile.TemporaryDirectory(prefix="desk-bench-", dir=os.environ.get("DESK_BENCH_FOLDER")) as folder:
        for size in sizes:
            path = f"{folder}/{size}.db"
            make(path, size)
            opening = min(script(path, [])[0] for _ in range(ROUNDS))
            closed = {}
            for word in LISTS:
                began = time.perf_counter()
                told = subprocess.run([DESK, "list", path, *word.split(), "--now", DAY], capture_output=True, check=True).stdout
                closed[word] = told.count(b"\n") - 1, time.perf_counter() - began - opening
            with socket.create_server(("127.0.0.1", 0)) as free:
                port = free.getsockname()[1]
            words = [DESK, "open", path, "--port", str(port), "--control", f"{folder}/control", "--unsigned"]
            with subprocess.Popen(words, stdout=subprocess.PIPE) as desk:
                desk.stdout.readline()
                for word in LISTS:
                    rows, took = closed[word]
                    asked = word.replace(" --before ", "?before=").split("?")
                    each = pages(port, asked[0] if len(asked) == 1 else f"{asked[0]}?{asked[1]}")
                    told = f"| {size:,} | `{word}` | {rows:,} | {took:.2f} | {rows / max(took, 0.001):,.0f} | {len(each):,} | {statistics.median(each):.2f} | {max(each):.2f} |"
                    print(told, flush=True)
                desk.send_signal(signal.SIGTERM)
            os.remove(path)


def overdue(sizes):
    """Prints the time of the first `overdue` of a desk, which reads all requests, of later ones, also after two revocations each, and of `/metrics`."""
    print("| Certificates | Requests | Open | First `overdue`, ms | Later, ms | After two revocations, ms | First `/metrics`, ms | Later, ms |")
    print("|---|---|---|---|---|---|---|---|")
    # The registers begin yesterday, because `/metrics` counts what has expired since the last command.
    registers.START = (int(time.time()) // registers.DAY - 1) * registers.DAY
    with tempfile.TemporaryDirectory(prefix="desk-bench-", dir=os.environ.get("DESK_BENCH_FOLDER")) as folder:
        for size in sizes:
            path, records = f"{folder}/{size}.db", registers.Records(size, crls=1)
            decided = len(records.requests)
            gone = {row[0] for row in records.revocations}
            good = [cert[0] for cert in records.certs if cert[0] not in gone and cert[3] > records.last + registers.DAY][: size // 20]
            records.requests += [(decided + it, serial, 6, records.last, 0) for it, serial in enumerate(good, 1)]
            registers.make(path, records, 3)
            with Script(path, time.strftime("%Y-%m-%dT%H:%M:%SZ", time.gmtime(records.last + 1))) as desk:
                first, later, after = desk.ask(["overdue"]), desk.ask(["overdue"] * 20) / 20, []
                for it in range(ROUNDS):
                    desk.ask([f"revoke {decided + 2 * it + 1}", f"revoke {decided + 2 * it + 2}"])
                    after.append(desk.ask(["overdue"]))
            found = [first, later, statistics.median(after), *metrics(path, folder)]
            print(f"| {size:,} | {len(records.requests):,} | {len(good):,} | " + " | ".join(f"{it * 1e3:,.2f}" for it in found) + " |", flush=True)
            os.remove(path)


def metrics(path, folder):
    """The seconds of the first `/metrics` of an open desk, and the median of the next ones."""
    with socket.create_server(("127.0.0.1", 0)) as free:
        port = free.getsockname()[1]
    with subprocess.Popen([DESK, "open", path, "--port", str(port), "--control", f"{folder}/control", "--unsigned"], stdout=subprocess.PIPE) as desk:
        desk.stdout.readline()
        took = []
        for _ in range(21):
            began = time.perf_counter()
            with urllib.request.urlopen(f"http://127.0.0.1:{port}/metrics") as answer:
                answer.read()
            took.append(time.perf_counter() - began)
        desk.send_signal(signal.SIGTERM)
    return took[0], statistics.median(took[1:])


def main():
    words = sys.argv[1:]
    sizes = [int(it) for it in words if not it.startswith("--")] or [1_000, 10_000, 100_000]
    if "--crl" in words:
        crls(sizes)
        return
    if "--lists" in words:
        lists(sizes)
        return
    if "--overdue" in words:
        overdue(sizes)
        return
    found, peaks = {}, []
    with tempfile.TemporaryDirectory(prefix="desk-bench-", dir=os.environ.get("DESK_BENCH_FOLDER")) as folder:
        for size in sizes:
            path = f"{folder}/{size}.db"
            requests, most = make(path, size), 0
            found.setdefault("opening, ms", []).append(min(script(path, [])[0] for _ in range(ROUNDS)) * 1e3)
            for kind, (before, lines) in kinds(size, requests).items():
                took, peak = measured(path, folder, before, lines)
                found.setdefault(kind, []).append(took)
                most = max(most, peak)
            der = subprocess.run([DESK, "crl", path], capture_output=True, check=True).stdout
            found.setdefault("bytes of the CRL", []).append(len(der))
            found.setdefault("`audit`, ms", []).append(min(audited(path) for _ in range(ROUNDS)) * 1e3)
            records = registers.Records(size)
            for version in (1, 2):
                found.setdefault(f"version {version} made newer, ms", []).append(made_newer(folder, records, version) * 1e3)
            peaks.append(most)
            os.remove(path)
    print("| Microseconds a line | " + " | ".join(f"{it:,}" for it in sizes) + " |")
    print("|---|" + "---|" * len(sizes))
    for kind, row in found.items():
        print(f"| {kind} | " + " | ".join(f"{it:,.0f}" if it >= 10 else f"{it:.1f}" for it in row) + " |")
    print("| most memory of a script, MiB | " + " | ".join(f"{it:.0f}" for it in peaks) + " |")


if __name__ == "__main__":
    main()
