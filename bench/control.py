#!/usr/bin/env python3
"""Measures how many lines a second an open desk answers at the control socket: an `order` and a `register` line for each certificate.

With a window of 256, so many lines are in flight, and the desk runs them in one transaction; with a window of 1, each line waits for the reply to the
line before. With --sync-ms N, each sync of the disk takes N milliseconds longer. --sqlite measures C SQLite instead, by Python: the same rows of the
same tables, with a transaction for as many lines as the window has.

Usage: bench/control.py [--window N] [--sync-ms N] [--sqlite] CERTIFICATES        DESK=PROGRAM measures another program than ./desk
"""
import argparse
import os
import socket
import sqlite3
import subprocess
import sys
import tempfile
import time
from pathlib import Path

TOP = Path(__file__).resolve().parent.parent
sys.path.insert(0, str(TOP / "tests"))
sys.dont_write_bytecode = True

from lib import registers  # noqa: E402

SLOW = """
#define _GNU_SOURCE
#include <dlfcn.h>
#include <unistd.h>
int fsync(int file) { usleep(MICROS); return ((int (*)(int))dlsym(RTLD_NEXT, "fsync"))(file); }
int fdatasync(int file) { usleep(MICROS); return ((int (*)(int))dlsym(RTLD_NEXT, "fdatasync"))(file); }
"""


def slow_syncs(room, millis):
    """The environment in which each sync takes this much longer."""
    if not millis:
        return dict(os.environ)
    words = ["cc", "-shared", "-fPIC", "-O2", f"-DMICROS={millis * 1000}", "-x", "c", "-", "-o", f"{os.path.abspath(room)}/slow.so", "-ldl"]
    subprocess.run(words, input=SLOW.encode(), check=True)
    return dict(os.environ, LD_PRELOAD=f"{os.path.abspath(room)}/slow.so")


def free_port():
    with socket.create_server(("127.0.0.1", 0)) as it:
        return str(it.getsockname()[1])


def exchange(path, lines, window):
    """Sends the lines with at most `window` in flight; returns the seconds, and the last refusal, if any."""
    with socket.socket(socket.AF_UNIX) as connection:
        connection.connect(path)
        replies, sent, refusal = connection.makefile("rb"), 0, None
        begun = time.monotonic()
        while sent < len(lines):
            piece = lines[sent:sent + window]
            connection.sendall("".join(piece).encode())
            for _ in piece:
                reply = replies.readline()
                refusal = reply if reply[:1] in (b"E", b"F", b"") else refusal
            sent += len(piece)
        return time.monotonic() - begun, refusal


def sqlite(path, certificates, window):
    """Enters the rows of so many `order` and `register` lines, and reads those that a decision needs; returns the seconds."""
    with sqlite3.connect(path) as db:
        db.executescript(registers.FIRST + registers.SECOND + registers.THIRD)
        db.executescript("PRAGMA journal_mode = WAL; PRAGMA synchronous = FULL; PRAGMA cache_size = -200000; PRAGMA foreign_keys = OFF")
        db.execute("INSERT INTO office VALUES (1, 3, x'', x'', 398, 691200, 345600, 1000000, 0)")
        db.execute("INSERT INTO kept VALUES (1, 0, 0, 0)")
        db.execute("INSERT INTO subscriber VALUES (1, 'acme')")
    db.isolation_level = None
    begun = time.monotonic()
    for line in range(2 * certificates):
        order, registers_it = line // 2 + 1, line % 2 == 1
        serial = order.to_bytes(20, "big")
        if line % window == 0:
            db.execute("BEGIN")
        db.execute("SELECT last_at, days, cap FROM office").fetchone()
        if registers_it:
            db.execute("SELECT * FROM orders WHERE id = ?", (order,)).fetchone()
            db.execute("SELECT * FROM cert WHERE order_id = ?", (order,)).fetchone()
            db.execute("SELECT * FROM cert WHERE serial = ?", (serial,)).fetchone()
            db.execute("INSERT INTO cert VALUES (?, ?, ?, ?)", (serial, order, 0, 90 * 86_400))
            db.execute("INSERT INTO standing VALUES (?, ?, 'G')", (serial, 90 * 86_400))
            db.execute("UPDATE kept SET n_good = n_good + 1")
        else:
            db.execute("SELECT id FROM subscriber WHERE id = 1").fetchone()
            db.execute("INSERT INTO orders VALUES (?, 1, 398)", (order,))
        db.execute("UPDATE office SET last_at = ?", (line,))
        if (line + 1) % window == 0 or line + 1 == 2 * certificates:
            db.execute("COMMIT")
    took = time.monotonic() - begun
    db.close()
    return took


def main():
    parser = argparse.ArgumentParser(usage=__doc__.partition("Usage: ")[2])
    parser.add_argument("--window", type=int, default=256)
    parser.add_argument("--sync-ms", type=int, default=0)
    parser.add_argument("--sqlite", action="store_true")
    parser.add_argument("--here", help=argparse.SUPPRESS)
    parser.add_argument("certificates", type=int)
    given = parser.parse_args()
    if given.here:
        lines, seconds = 2 * given.certificates, sqlite(given.here, given.certificates, given.window)
        print(f"C SQLite {sqlite3.sqlite_version}: {lines} lines in {seconds:.2f} s: {lines / seconds:.0f} a second")
        return
    if given.sqlite:
        # In another process, because a preloaded library makes its syncs slow.
        with tempfile.TemporaryDirectory(dir=".") as room:
            words = [sys.executable, __file__, "--here", f"{room}/peer.db", "--window", str(given.window), str(given.certificates)]
            subprocess.run(words, env=slow_syncs(room, given.sync_ms), check=True)
        return
    desk = os.environ.get("DESK", str(TOP / "desk"))
    begins, ends = (time.strftime("%Y-%m-%dT00:00:00Z", time.gmtime(time.time() + days * 86_400)) for days in (0, 90))
    lines = ["subscriber acme\n"]
    for order in range(1, given.certificates + 1):
        lines += ["order 1 398\n", f"register {order} {order:08x} {begins} {ends}\n"]
    with tempfile.TemporaryDirectory(dir=".") as room:
        init = [desk, "init", "ca.db", "--name", "300D310B300906035504030C024341", "--key", "616263", "--cap", "1000000"]
        subprocess.run(init, cwd=room, check=True, stdout=subprocess.DEVNULL)
        words = [desk, "open", "ca.db", "--control", "control", "--port", free_port(), "--unsigned"]
        opened = subprocess.Popen(words, cwd=room, env=slow_syncs(room, given.sync_ms), stdout=subprocess.PIPE, stderr=subprocess.DEVNULL)
        opened.stdout.readline()
        seconds, refusal = exchange(f"{room}/control", lines, given.window)
        opened.kill()
        opened.wait()
    print(f"{len(lines)} lines in {seconds:.2f} s: {len(lines) / seconds:.0f} a second" + (f", refused: {refusal!r}" if refusal else ""))


main()
