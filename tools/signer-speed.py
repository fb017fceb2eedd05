#!/usr/bin/env python3
"""Measures signers with requests like the desk's: a message as long as that of an OCSP answer, one by one or N at once. A signer that announces
persistent connections gets all messages over N of them, and any other one gets a connection for each.

    tools/signer-speed.py 'signer/desk-signer --persistent ca.key' 'signer/desk-signer ca.key' 'examples/signer.py ca.key'

Each COMMAND is started with a socket's path as its last word. The commands take turns, --runs times; each median is printed: signatures a second, and
the processor time that the signer takes for one, in µs. With --only-ours the message is an OCSP answer of that CA, which a guarded signer accepts. A
signer that listens already is measured by the path of its socket in place of a COMMAND, without its processor time.

Usage: tools/signer-speed.py [--only-ours CA.pem] [--at-once N] [--runs N] [--seconds S] COMMAND|SOCKET ..
"""
import argparse
import contextlib
import os
import shlex
import socket
import stat
import statistics
import subprocess
import sys
import tempfile
import time
from pathlib import Path

# Nothing is written beside the module that is read.
sys.dont_write_bytecode = True
sys.path.insert(0, str(Path(__file__).resolve().parent.parent / "examples"))
from only_ours import OCTETS, SEQUENCE, read_certificate  # noqa: E402

ANNOUNCEMENT = b"desk-signer/1 \r\n"
# About as long as the signed part of an OCSP answer for one certificate.
MESSAGE = b"0" * 150
MOMENT = b"\x18\x0F20260101000000Z"


def value(tag, *parts):
    contents = b"".join(parts)
    return bytes([tag]) + (bytes([len(contents)]) if len(contents) < 128 else bytes([0x81, len(contents)])) + contents


def answer_of(issuer):
    """A ResponseData (RFC 6960 4.2.1): a certificate of the issuer is good."""
    asked = value(SEQUENCE, issuer.cert_ids[1], b"\x02\x01\x05")
    single = value(SEQUENCE, asked, b"\x80\0", MOMENT, value(0xA0, MOMENT))
    return value(SEQUENCE, value(0xA2, value(OCTETS, issuer.key_hash)), MOMENT, value(SEQUENCE, single))


def asked(path, message):
    connection = socket.socket(socket.AF_UNIX)
    connection.connect(path)
    connection.sendall(message)
    connection.shutdown(socket.SHUT_WR)
    return connection


def signatures(path, message, count):
    """Requests `count` signatures, and only then reads the first. Returns the last one."""
    for connection in [asked(path, message) for _ in range(count)]:
        with connection:
            answer = b""
            while part := connection.recv(4096):
                answer += part
            if not answer:
                sys.exit(f"{path}: no signature")
    return answer


def persistent_signatures(connections, message):
    """Requests a signature over each persistent connection, and only then reads the first."""
    for connection in connections:
        connection.sendall(message)
    for connection in connections:
        answer = connection.recv(8192)
        while answer and len(answer) < 4 + int.from_bytes(answer[:4], "big"):
            answer += connection.recv(8192)
        if len(answer) < 5:
            sys.exit("no signature on a persistent connection")


def connected(path, stack):
    connection = stack.enter_context(socket.socket(socket.AF_UNIX))
    connection.connect(path)
    return connection


def processor_time(process):
    """Nanoseconds that a process and its children have run."""
    children = Path(f"/proc/{process}/task/{process}/children").read_text().split()
    return sum(int(Path(f"/proc/{it}/schedstat").read_text().split()[0]) for it in (process, *children))


def measured(path, message, words, process=None):
    """Signatures a second, and the signer's µs for one."""
    with contextlib.ExitStack() as stack:
        request = lambda: signatures(path, message, words.at_once)
        if request().startswith(ANNOUNCEMENT):
            connections, framed = [], len(message).to_bytes(4, "big") + message
            for _ in range(words.at_once):
                connections.append(connected(path, stack))
                # The signer's processes share the connections evenly, if each one's first message comes before the next one.
                persistent_signatures(connections[-1:], framed)
            request = lambda: persistent_signatures(connections, framed)
        count, start, before = 0, time.perf_counter(), processor_time(process) if process else 0
        while time.perf_counter() - start < words.seconds:
            request()
            count += words.at_once
        taken = time.perf_counter() - start
    return count / taken, (processor_time(process) - before) / count / 1000 if process else float("nan")


@contextlib.contextmanager
def started(command, folder):
    path = f"{folder}/sign"
    process = subprocess.Popen([*shlex.split(command), path], stdout=subprocess.DEVNULL)
    try:
        while not os.path.exists(path):
            if process.poll() is not None:
                sys.exit(f"{command} has ended with status {process.returncode}")
            time.sleep(0.05)
        time.sleep(0.2)
        yield path, process.pid
    finally:
        process.terminate()
        process.wait()
        with contextlib.suppress(FileNotFoundError):
            os.remove(path)


def is_socket(path):
    return os.path.exists(path) and stat.S_ISSOCK(os.stat(path).st_mode)


def run(what, words, message, folder):
    if is_socket(what):
        return measured(what, message, words)
    with started(what, folder) as (path, process):
        return measured(path, message, words, process)


def main():
    parser = argparse.ArgumentParser(usage=__doc__.partition("Usage: ")[2])
    parser.add_argument("--only-ours", metavar="CA.pem")
    parser.add_argument("--at-once", type=int, default=1)
    parser.add_argument("--runs", type=int, default=5)
    parser.add_argument("--seconds", type=float, default=3.0)
    parser.add_argument("commands", nargs="+", metavar="COMMAND")
    words = parser.parse_args()
    message = answer_of(read_certificate(words.only_ours)) if words.only_ours else MESSAGE
    runs = {it: [] for it in words.commands}
    with tempfile.TemporaryDirectory(prefix="signer-") as folder:
        for _ in range(words.runs):
            for it, told in runs.items():
                told.append(run(it, words, message, folder))
    for it, told in runs.items():
        a_second, taken = (statistics.median(values) for values in zip(*told))
        print(f"{a_second:8.0f} signatures a second, {taken:5.0f} µs of processor time each: {it}")


main()
