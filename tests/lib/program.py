"""The program `desk` from outside: run once with a command line and an input, or kept open for requests over HTTP and lines at its control socket."""

import contextlib
import fcntl
import os
import random
import re
import shlex
import signal
import socket
import struct
import subprocess
import tempfile
import termios
import threading
import time
from dataclasses import dataclass, field
from pathlib import Path

TESTS = Path(__file__).resolve().parent.parent
TOP = TESTS.parent
BUILT = TOP / "crates/reg_desk/out/reg_desk"
# The issuer of the worked examples: common name CA, a key of three bytes.
NAME = "300D310B300906035504030C024341"
KEY = "616263"
# A P-256 key's bits, for registers whose CRLs a signer signs: the curve's own generator (SEC 2, 2.4.2).
P256_KEY = (
    "046B17D1F2E12C4247F8BCE6E563A440F277037D812DEB33A0F4A13945D898C296"
    "4FE342E2FE1A7F9B8EE7EB4A7C0F9E162BCE33576B315ECECBB6406837BF51F5"
)
# This has the form of an ECDSA signature (RFC 5480 appendix A), but is not valid: r = s = 1.
ANY_SIGNATURE = bytes.fromhex("3006020101020101")
# The warning about the first CRL of a register that has a placeholder digest.
SEALED = b"warning: CRL 1 has a placeholder digest instead of a signature, which no client accepts; to sign the next one: --signer SOCKET --algorithm NAME\n"
# Timeouts are multiplied by this, for a slow machine or a slow build.
PATIENCE = float(os.environ.get("DESK_PATIENCE", "1"))
# A program that runs for more seconds than this has hung: even on a slow machine none takes nearly as long.
LONGEST = 200


def program():
    """The tested program: the one that DESK names, or the one that this checkout built."""
    return os.environ.get("DESK") or str(BUILT)


@dataclass
class Ran:
    """The result of a run of the program. `is_warned` says whether it printed the warning about a placeholder digest, which `err` lacks."""

    status: int
    out: bytes
    err: bytes
    words: list = field(default_factory=list)
    is_warned: bool = False

    @property
    def lines(self):
        return self.out.decode("latin-1").splitlines()

    @property
    def err_lines(self):
        return self.err.decode("latin-1").splitlines()


def environment(clock=None, faults=None, more=None):
    """The environment of the program: only PATH, and the variables that inject faults (tests/faults.c)."""
    env = {"PATH": os.environ.get("PATH", ""), "LANG": "C.UTF-8"}
    if clock is not None or faults:
        env["LD_PRELOAD"] = os.environ["DESK_FAULTS_LIBRARY"]
    if clock is not None:
        env["FAULTS_CLOCK"] = str(clock)
    env.update(faults or {})
    env.update(more or {})
    return env


def make_faults(folder):
    """Builds the library that injects faults, for later runs."""
    made = f"{folder}/faults.so"
    subprocess.run(["cc", "-shared", "-fPIC", "-O2", "-Wall", "-o", made, str(TESTS / "faults.c"), "-ldl", "-lpthread"], check=True)
    os.environ["DESK_FAULTS_LIBRARY"] = made


def can_seal(words):
    """Whether the words are a script over a register in a file. Only for such a script does the program warn about a placeholder digest."""
    words = [it for it in words if not it.startswith("--")]
    return words[:1] == ["script"] and len(words) > 1


def without_warning(words, told):
    """Standard error without the warning about a placeholder digest, if that is its first line, and whether it was."""
    if "--signer" not in words and can_seal(words) and told.startswith(SEALED):
        return told[len(SEALED) :], True
    return told, False


def run(words, given=b"", cwd=None, timeout=LONGEST, **how):
    """Runs the program once, to its end."""
    words = [str(it) for it in words]
    if isinstance(given, str):
        given = given.encode()
    ran = subprocess.run(
        [program(), *words], input=given, capture_output=True, cwd=cwd, timeout=timeout * PATIENCE, env=environment(**how)
    )
    told, is_warned = without_warning(words, ran.stderr)
    return Ran(ran.returncode, ran.stdout, told, words, is_warned)


# The first port that tests use, and how many they use. All are below those that the system gives to clients.
FIRST_PORT, PORTS = 10_240, 22_000


def next_port():
    """A port that no other test got: all tests count in one file."""
    path = Path(os.environ.get("DESK_TESTS_FOLDER") or tempfile.gettempdir()) / "ports"
    with open(path, "a+") as it:
        fcntl.flock(it, fcntl.LOCK_EX)
        it.seek(0)
        at = int(it.read() or random.randrange(PORTS)) + 1
        it.seek(0)
        it.truncate()
        it.write(str(at))
    return FIRST_PORT + at % PORTS


def free_port():
    """A port of 127.0.0.1 at which no program listens; each call returns a new one."""
    while True:
        port = next_port()
        with socket.socket() as it, contextlib.suppress(OSError):
            it.bind(("127.0.0.1", port))
            return port


class Opened:
    """`desk open` or `desk serve`, started and listening until the `with` block ends. `before` are the words of a program that starts it."""

    def __init__(self, words, cwd=None, before=(), **how):
        self.cwd, self.words = cwd, [str(it) for it in words]
        if "--port" in self.words:
            self.port = int(self.words[self.words.index("--port") + 1])
        else:
            self.port = free_port()
            self.words += ["--port", str(self.port)]
        self.stderr = open(os.path.join(cwd or ".", f"stderr-{self.port}"), "w+b")
        self.process = subprocess.Popen(
            [*before, program(), *self.words], cwd=cwd, stdin=subprocess.DEVNULL, stdout=subprocess.PIPE, stderr=self.stderr, env=environment(**how)
        )
        # Its first line says that it listens. It is empty if the program ends before.
        self.first = self.process.stdout.readline()

    @property
    def listens(self):
        return self.first == b"listening %d\n" % self.port

    @property
    def log(self):
        """The whole lines that it has written to standard error so far."""
        return Path(self.stderr.name).read_text("latin-1").split("\n")[:-1]

    def connect(self, timeout=LONGEST):
        return socket.create_connection(("127.0.0.1", self.port), timeout * PATIENCE)

    def send(self, asked, timeout=LONGEST):
        """Sends these bytes, and returns all that the desk sends until it closes."""
        with self.connect(timeout) as client:
            # The desk may close before it has read all.
            with contextlib.suppress(BrokenPipeError, ConnectionResetError):
                client.sendall(asked)
            return read_all(client)

    def ask(self, method, target, body=None, headers=(), timeout=LONGEST):
        """One request of HTTP/1.1 and its response, byte for byte."""
        if isinstance(body, str):
            body = body.encode()
        lines = [f"{method} {target} HTTP/1.1", "Host: ca.example", *headers]
        if body is not None:
            lines.append(f"Content-Length: {len(body)}")
        return self.send("\r\n".join([*lines, "", ""]).encode("latin-1") + (body or b""), timeout)

    def end(self, how=signal.SIGTERM, timeout=LONGEST):
        """Ends it by a signal if it still runs: its status, its output after the first line, and standard error."""
        if self.process.poll() is None:
            self.process.send_signal(how)
        return self.wait(timeout)

    def wait(self, timeout=LONGEST):
        rest = self.process.stdout.read() if not self.process.stdout.closed else b""
        status = self.process.wait(timeout * PATIENCE)
        self.process.stdout.close()
        self.stderr.seek(0)
        return Ran(status, rest, self.stderr.read(), self.words)

    def __enter__(self):
        return self

    def __exit__(self, *_):
        if self.process.poll() is None:
            self.process.kill()
        self.process.wait()
        self.process.stdout.close()
        self.stderr.close()


def read_all(stream):
    got = bytearray()
    with contextlib.suppress(ConnectionResetError):
        while piece := stream.recv(65536):
            got += piece
    return bytes(got)


def is_read(client):
    """Whether the desk has read all that the client sent on this connection. Over TCP, this means that it has accepted the connection too."""
    if client.family == socket.AF_UNIX:
        return fcntl.ioctl(client, termios.TIOCOUTQ, bytes(4)) == bytes(4)
    here, there = map(socket_name, (client.getsockname(), client.getpeername()))
    with open("/proc/net/tcp") as table:
        rows = {tuple(row[1:3]): row for row in map(str.split, table)}
    sent, received = rows.get((here, there)), rows.get((there, here))
    # The column of both queues: bytes that are not acknowledged yet, and bytes that are not read yet. A connection that is not accepted has no inode.
    return bool(sent and received) and sent[4].startswith("00000000:") and received[4].endswith(":00000000") and received[9] != "0"


def hold(process):
    """Stops a process, and returns once it has stopped. SIGCONT continues it."""
    process.send_signal(signal.SIGSTOP)
    while process.poll() is None:
        with open(f"/proc/{process.pid}/stat") as status:
            if status.read().rpartition(")")[2].split()[0] == "T":
                return
        time.sleep(0.001)


def socket_name(address):
    """An address of IPv4 and its port, as /proc/net/tcp writes them."""
    return "%08X:%04X" % (struct.unpack("=I", socket.inet_aton(address[0]))[0], address[1])


def parted(response):
    """A response's status, its header lines and its body; 0 and nothing if there is no response."""
    head, _, body = response.partition(b"\r\n\r\n")
    first, *lines = head.decode("latin-1").split("\r\n")
    return int(first.split()[1]) if " " in first else 0, lines, body


class Control:
    """A connection to the control socket of an open desk."""

    def __init__(self, path, timeout=LONGEST):
        self.stream = socket.socket(socket.AF_UNIX)
        self.stream.settimeout(timeout * PATIENCE)
        self.stream.connect(str(path))
        self.file = self.stream.makefile("rb")

    def ask(self, line):
        """Sends one line, and reads its reply, without its end."""
        self.stream.sendall(line.encode() + b"\n")
        return self.file.readline().decode("latin-1").rstrip("\n")

    def __enter__(self):
        return self

    def __exit__(self, *_):
        self.file.close()
        self.stream.close()


class Signer:
    """A signer at a Unix socket, which reads a message to its end and answers it. `answer(message, call)` returns a signature, or None to close
    without one, or the text "hang" to keep the desk waiting."""

    def __init__(self, path, answer=lambda message, call: ANY_SIGNATURE):
        self.path, self.answer, self.asked = str(path), answer, []
        self.server = socket.socket(socket.AF_UNIX)
        self.server.bind(self.path)
        self.server.listen(64)
        self.ended = threading.Event()
        self.thread = threading.Thread(target=self.serve, daemon=True)
        self.thread.start()

    def serve(self):
        while not self.ended.is_set():
            try:
                client, _ = self.server.accept()
            except OSError:
                return
            with client, contextlib.suppress(OSError):
                message = read_all(client)
                self.asked.append(message)
                signature = self.answer(message, len(self.asked))
                if signature == "hang":
                    self.ended.wait(30)
                elif signature is not None:
                    client.sendall(signature)

    def __enter__(self):
        return self

    def __exit__(self, *_):
        """Ends it, and removes its socket, so that another signer can listen there. It may have ended before."""
        if self.ended.is_set():
            return
        self.ended.set()
        # Wakes the thread that accepts.
        with contextlib.suppress(OSError):
            self.server.shutdown(socket.SHUT_RDWR)
        self.server.close()
        with contextlib.suppress(OSError):
            os.unlink(self.path)


class Signers:
    """A signer that answers all connections at once, each on its own thread. `answer(message)` returns a signature, or None. `now` counts the requests
    that are being answered, `most` is the highest count so far, and `clients` has all connections."""

    def __init__(self, path, answer=lambda message: ANY_SIGNATURE):
        self.path, self.answer, self.asked, self.now, self.most, self.clients = str(path), answer, [], 0, 0, []
        self.lock = threading.Lock()
        self.server = socket.socket(socket.AF_UNIX)
        self.server.bind(self.path)
        self.server.listen(128)
        threading.Thread(target=self.serve, daemon=True).start()

    def serve(self):
        with contextlib.suppress(OSError):
            while True:
                client, _ = self.server.accept()
                self.clients.append(client)
                threading.Thread(target=self.sign, args=(client,), daemon=True).start()

    def sign(self, client):
        with client, contextlib.suppress(OSError):
            message = read_all(client)
            with self.lock:
                self.asked.append(message)
                self.now += 1
                self.most = max(self.most, self.now)
            signature = self.answer(message)
            with self.lock:
                self.now -= 1
            if signature is not None:
                client.sendall(signature)

    def until(self, count, seconds=60):
        """Waits until `count` requests are being answered at once; returns whether they are."""
        ends = time.monotonic() + seconds * PATIENCE
        while self.now < count and time.monotonic() < ends:
            time.sleep(0.005)
        return self.now >= count

    def __enter__(self):
        return self

    def __exit__(self, *_):
        # Wakes the thread that accepts.
        with contextlib.suppress(OSError):
            self.server.shutdown(socket.SHUT_RDWR)
        self.server.close()
        with contextlib.suppress(OSError):
            os.unlink(self.path)


def seconds_of(moment):
    """The seconds since 1970 of a moment in text."""
    import datetime

    parts = re.fullmatch(r"(\d{4})-(\d\d)-(\d\d)T(\d\d):(\d\d):(\d\d)Z", moment)
    at = datetime.datetime(*map(int, parts.groups()), tzinfo=datetime.timezone.utc)
    return int((at - datetime.datetime(1970, 1, 1, tzinfo=datetime.timezone.utc)).total_seconds())


def moment_of(seconds):
    """The text of a moment."""
    return time.strftime("%Y-%m-%dT%H:%M:%SZ", time.gmtime(seconds))


def shown(words):
    return shlex.join(["desk", *map(str, words)])
