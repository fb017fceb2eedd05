#!/usr/bin/env python3
"""Measures followers (`desk follow`) beside their leader, on one machine: commands a second at the leader; after how many milliseconds a follower
has a command; how long a new follower takes, from nothing and from a copy; and OCSP answers a second of one desk and of a leader with two followers
(needs wrk). Prints tables for docs/PERFORMANCE.md.

Usage: bench/follow.py [--seconds N] [--only commands,lag,new,ocsp] [NUMBER OF CERTIFICATES]
       (5 seconds a row, 100000 certificates; DESK names another program than the built one)
The files are in the folder that DESK_BENCH_FOLDER names, or in the system's temporary folder. DESK_BENCH_REGISTER names a file that `made` of this
program made before for so many certificates.
"""
import argparse
import contextlib
import hashlib
import json
import os
import re
import shutil
import socket
import statistics
import subprocess
import sys
import tempfile
import threading
import time
import urllib.error
import urllib.request

TOP = os.path.dirname(os.path.dirname(os.path.abspath(__file__)))
sys.path.insert(0, f"{TOP}/tests")
sys.dont_write_bytecode = True

from lib import registers  # noqa: E402

DESK = os.path.abspath(os.environ.get("DESK", f"{TOP}/crates/reg_desk/out/reg_desk"))
NAME, KEY = "300D310B300906035504030C024341", "616263"
WINDOW = 256
POLL_SECONDS = 0.002


def free_port():
    with socket.create_server(("127.0.0.1", 0)) as it:
        return it.getsockname()[1]


class Desk:
    """A running `desk open` or `desk follow` over a file, until the block ends."""

    def __init__(self, command, file, *words):
        self.port, self.control = free_port(), f"{file}.control"
        line = [DESK, command, file, "--port", str(self.port), "--control", self.control, "--unsigned", *words]
        self.process = subprocess.Popen(line, stdout=subprocess.PIPE)
        if not self.process.stdout.readline().startswith(b"listening"):
            raise SystemExit(f"bench/follow.py: {' '.join(line)} did not start")

    def get(self, path):
        """The body of a response, also of one with another status than 200."""
        try:
            with urllib.request.urlopen(f"http://127.0.0.1:{self.port}{path}") as answer:
                return answer.read()
        except urllib.error.HTTPError as answer:
            return answer.read()

    def leader(self):
        return json.loads(self.get("/health"))["leader"]

    def subscribers(self):
        return int(self.leader()["positions"].split(".")[0])

    def until(self, holds):
        while not holds(self.leader()):
            time.sleep(POLL_SECONDS)

    def __enter__(self):
        return self

    def __exit__(self, *_):
        self.process.terminate()
        self.process.wait()
        self.process.stdout.close()


def follower(leader, file):
    return Desk("follow", file, "--from", f"127.0.0.1:{leader.port}")


def created(path):
    subprocess.run([DESK, "init", path, "--name", NAME, "--key", KEY], check=True, stdout=subprocess.DEVNULL)
    return path


class Lines:
    """A control connection. Each line is a `subscriber` with a new name, so the counts of rows say which lines a follower has."""

    def __init__(self, desk):
        self.connection, self.sent, self.replied = socket.socket(socket.AF_UNIX), 0, []
        self.connection.connect(desk.control)
        self.replies = self.connection.makefile("rb")

    def send(self, count):
        """Sends so many lines at once, and keeps when each reply came."""
        self.connection.sendall("".join(f"subscriber s{self.sent + it}\n" for it in range(count)).encode())
        self.sent += count
        for _ in range(count):
            reply = self.replies.readline()
            if not reply.startswith(b"subscriber "):
                raise SystemExit(f"bench/follow.py: {reply!r}")
            self.replied.append(time.monotonic())

    def ask(self, line):
        self.connection.sendall(f"{line}\n".encode())
        return self.replies.readline().decode()


def commands(folder, seconds):
    print("| Commands a second | 256 in flight | one |\n|---|---|---|")
    for name, words, followers in (("no follower", (), 0), ("one follower", (), 1), ("`--confirm-by 1`", ("--confirm-by", "1"), 1)):
        found = []
        for window in (WINDOW, 1):
            with contextlib.ExitStack() as stack:
                place = tempfile.mkdtemp(dir=folder)
                leader = stack.enter_context(Desk("open", created(f"{place}/ca.db"), *words))
                for it in range(followers):
                    stack.enter_context(follower(leader, f"{place}/copy-{it}.db")).until(lambda it: it["current"])
                lines, began = Lines(leader), time.monotonic()
                while time.monotonic() < began + seconds:
                    lines.send(window)
                found.append(lines.sent / (time.monotonic() - began))
        print(f"| {name} | {found[0]:,.0f} | {found[1]:,.0f} |", flush=True)


def lag(folder, seconds):
    """After how many milliseconds a follower has a command, from the reply at the leader on. It is asked for its positions every two milliseconds."""
    print("| Commands a second | Median, ms | 99 %, ms | Most, ms |\n|---|---|---|---|")
    for rate in (10, 1_000, None):
        place = tempfile.mkdtemp(dir=folder)
        with Desk("open", created(f"{place}/ca.db")) as leader, follower(leader, f"{place}/copy.db") as copy:
            copy.until(lambda it: it["current"])
            lines, seen, ended = Lines(leader), [], threading.Event()

            def sample():
                while not ended.is_set() or seen[-1][1] < lines.sent:
                    seen.append((time.monotonic(), copy.subscribers()))
                    time.sleep(POLL_SECONDS)

            sampler = threading.Thread(target=sample)
            sampler.start()
            began = time.monotonic()
            while time.monotonic() < began + seconds:
                if rate is None:
                    lines.send(WINDOW)
                else:
                    lines.send(1)
                    time.sleep(max(0.0, began + lines.sent / rate - time.monotonic()))
            ended.set()
            sampler.join()
        took, at = [], 0
        for number, replied in enumerate(lines.replied, 1):
            while seen[at][1] < number:
                at += 1
            took.append(max(0.0, seen[at][0] - replied) * 1e3)
        took.sort()
        name = f"{rate:,}" if rate else f"at most ({lines.sent / seconds:,.0f})"
        print(f"| {name} | {statistics.median(took):.1f} | {took[len(took) * 99 // 100]:.1f} | {took[-1]:.1f} |", flush=True)


def made(folder, count):
    path = f"{folder}/ca.db"
    if "DESK_BENCH_REGISTER" in os.environ:
        shutil.copyfile(os.environ["DESK_BENCH_REGISTER"], path)
    else:
        registers.make(path, registers.Records(count, crls=20), 3)
    return path


def new(folder, count):
    print("| Certificates | From nothing, s | MiB | `copy`, s | From the copy, s | MiB |\n|---|---|---|---|---|---|")
    path = made(folder, count)
    with Desk("open", path) as leader:
        began = time.monotonic()
        with follower(leader, f"{folder}/copy.db") as copy:
            copy.until(lambda it: it["current"])
            nothing, first = time.monotonic() - began, peak(copy)
        began = time.monotonic()
        reply = Lines(leader).ask(f"copy {folder}/other.db")
        copying = time.monotonic() - began
        if not reply.startswith("copied"):
            raise SystemExit(f"bench/follow.py: {reply!r}")
        began = time.monotonic()
        with follower(leader, f"{folder}/other.db") as copy:
            copy.until(lambda it: it["current"])
            other, second = time.monotonic() - began, peak(copy)
    print(f"| {count:,} | {nothing:.1f} | {first:,} | {copying:.1f} | {other:.1f} | {second:,} |", flush=True)


def peak(desk):
    """The most memory that a desk had so far, in MiB."""
    with open(f"/proc/{desk.process.pid}/status") as lines:
        return next(int(it.split()[1]) for it in lines if it.startswith("VmHWM")) // 1024


def request(serial):
    """An OCSP request for a serial number of the issuer (RFC 6960 4.1.1), without a nonce."""
    tlv = lambda tag, body: bytes([tag, len(body)]) + body
    hashed = [tlv(4, hashlib.sha1(bytes.fromhex(it)).digest()) for it in (NAME, KEY)]
    cert = tlv(48, bytes.fromhex("300906052B0E03021A0500") + b"".join(hashed) + tlv(2, serial))
    return tlv(48, tlv(48, tlv(48, tlv(48, cert))))


def ocsp(folder, count, seconds):
    if not shutil.which("wrk"):
        print("OCSP answers a second: wrk is not installed")
        return
    path, files = made(folder, count), []
    for at, (serial, *_) in enumerate(registers.Records(count, crls=20).certs[:8]):
        files.append(f"{folder}/{at}.der")
        with open(files[-1], "wb") as it:
            it.write(request(serial.lstrip(b"\0") or b"\0"))

    def answers(desks):
        line = lambda desk: ["wrk", "-t", "1", "-c", "16", "-d", f"{seconds}s", "-s", f"{TOP}/bench/ocsp.lua", f"http://127.0.0.1:{desk.port}/ocsp"]
        env = dict(os.environ, OCSP_REQUESTS=" ".join(files))
        running = [subprocess.Popen(line(it), env=env, stdout=subprocess.PIPE, text=True) for it in desks]
        return sum(int(re.search(r"(\d+) answers a second", it.communicate()[0])[1]) for it in running)

    print("| OCSP answers a second | |\n|---|---|")
    with Desk("open", path) as leader:
        print(f"| one desk | {answers([leader]):,.0f} |", flush=True)
        with follower(leader, f"{folder}/copy-1.db") as first, follower(leader, f"{folder}/copy-2.db") as second:
            for it in (first, second):
                it.until(lambda it: it["current"])
            print(f"| a leader with two followers | {answers([leader, first, second]):,.0f} |", flush=True)


def main():
    parser = argparse.ArgumentParser(usage=__doc__.partition("Usage: ")[2])
    parser.add_argument("--seconds", type=int, default=5)
    parser.add_argument("--only", default="commands,lag,new,ocsp")
    parser.add_argument("certificates", type=int, nargs="?", default=100_000)
    given = parser.parse_args()
    kinds = {
        "commands": lambda folder: commands(folder, given.seconds),
        "lag": lambda folder: lag(folder, given.seconds),
        "new": lambda folder: new(folder, given.certificates),
        "ocsp": lambda folder: ocsp(folder, given.certificates, given.seconds),
    }
    for kind in given.only.split(","):
        with tempfile.TemporaryDirectory(prefix="desk-bench-", dir=os.environ.get("DESK_BENCH_FOLDER")) as folder:
            kinds[kind](folder)


if __name__ == "__main__":
    main()
