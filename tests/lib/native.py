"""The native signer (signer/), built once for all tests, and connections to it."""

import fcntl
import os
import select
import socket
import struct
import subprocess
from pathlib import Path

from . import authority, program
from .program import TOP
from .trial import Failed, Skipped, need

SOURCES = TOP / "signer"
# The prefix of each line that the signer prints on standard error.
NAME = "desk-signer: "
# The beginning of each signature of a signer with --persistent, except on a persistent connection.
ANNOUNCEMENT = b"desk-signer/1 \r\n"


def has_libcrypto():
    return subprocess.run(["cc", "-E", "-x", "c", "-"], input=b"#include <openssl/evp.h>\n", capture_output=True).returncode == 0


def need_libcrypto():
    """Skips the test if no C program can be built on libcrypto."""
    need("cc", "make")
    if not has_libcrypto():
        raise Skipped("no openssl/evp.h here: apt install libssl-dev")


def made(name, *words):
    """Builds a program once for all tests, and returns its path, which is appended to the last word of the command."""
    path = Path(os.environ["DESK_TESTS_FOLDER"]) / name
    with open(f"{path}.lock", "w", encoding="utf-8") as lock:
        fcntl.flock(lock, fcntl.LOCK_EX)
        if not path.exists():
            ran = subprocess.run([*map(str, words[:-1]), f"{words[-1]}{path}"], capture_output=True)
            if ran.returncode:
                raise AssertionError(f"{name} can't be built: {ran.stderr.decode()}")
    return path


def signer():
    need_libcrypto()
    return made("desk-signer", "make", "-s", "-C", SOURCES, "OUT=")


def started(t, *words, path="ca.sign", before=()):
    """Starts the native signer at a socket until the test ends, and waits for the line that it prints once it serves."""
    words = [*map(str, before), str(signer()), *map(str, words), path]
    t.note(" ".join(words))
    process = subprocess.Popen(words, cwd=t.room, stdin=subprocess.DEVNULL, stdout=subprocess.PIPE, stderr=subprocess.PIPE)
    t.callback(authority.end, process)
    with process.stdout:
        is_told = select.select([process.stdout], [], [], program.LONGEST)[0]
        line = process.stdout.readline() if is_told else b""
    if not line.endswith(f" at {path}\n".encode()):
        process.kill()
        raise Failed(f"{words[0]} does not serve: {line!r}, {process.stderr.read()!r}")
    return process


def connected(path):
    it = socket.socket(socket.AF_UNIX)
    it.settimeout(program.LONGEST)
    it.connect(str(path))
    return it


def signature(path, message):
    """The signer's reply to a message; empty if the signer refuses the message, or closes before it has read all of it."""
    with connected(path) as it:
        try:
            it.sendall(message)
            it.shutdown(socket.SHUT_WR)
        except (BrokenPipeError, ConnectionResetError):
            return b""
        return program.read_all(it)


def frame(message):
    """A message as a client sends it over a persistent connection."""
    return struct.pack(">I", len(message)) + message


def answer(client):
    """The signer's next answer on a persistent connection; None if the signer closes it."""
    head = exactly(client, 4)
    return None if head is None else exactly(client, struct.unpack(">I", head)[0])


def exactly(client, count):
    """So many octets; None if the signer closes the connection first."""
    got = b""
    while len(got) < count:
        try:
            part = client.recv(count - len(got))
        except ConnectionResetError:
            part = b""
        if not part:
            return None
        got += part
    return got


def asked(client, message):
    """The signer's answer to a message on a persistent connection; None if the signer closes it."""
    try:
        client.sendall(frame(message))
    except (BrokenPipeError, ConnectionResetError):
        return None
    return answer(client)


def ended(process):
    """Ends a signer; returns its exit status, and its lines on standard error."""
    process.terminate()
    status = process.wait(program.LONGEST)
    return status, process.stderr.read().decode().splitlines()


def children(process):
    return [int(it) for it in Path(f"/proc/{process.pid}/task/{process.pid}/children").read_text().split()]


def is_there(number):
    """Whether a process runs."""
    try:
        return Path(f"/proc/{number}/stat").read_text().rpartition(")")[2].split()[0] != "Z"
    except FileNotFoundError:
        return False

