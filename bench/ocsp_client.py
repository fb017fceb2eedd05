#!/usr/bin/env python3
"""The inputs and the client of bench/ocsp.sh: orders, rows and index write inputs; ask, commands, slow and hung measure; sign is a signer."""
import collections
import contextlib
import multiprocessing
import socket
import subprocess
import sys
import threading
import time

FIRST = 0x1000
ROUNDS = 5
AT_ONCE = 32
PROCESSES = 4
SILENT = 200
OTHERS = 4096


def orders(count, now):
    print(f"{now} subscriber acme")
    for _ in range(count):
        print(f"{now} order 1 398")


def rows(count, start, end):
    print("order,serial,notBefore,notAfter")
    for at in range(count):
        print(f"{at + 1},{FIRST + at:06x},{start},{end}")


def index(count, end):
    for at in range(count):
        print(f"V\t{end}\t\t{FIRST + at:06X}\tunknown\t/CN=c{at}")


def whole(request):
    """A whole HTTP request that carries an OCSP request (RFC 6960 A.1)."""
    head = f"POST /ocsp HTTP/1.0\r\nContent-Type: application/ocsp-request\r\nContent-Length: {len(request)}\r\n\r\n"
    return head.encode() + request


def ask_one(address, request):
    """Sends a request on a new connection, and returns the connection."""
    client = socket.SocketType(socket.AF_INET, socket.SOCK_STREAM)
    client.connect(address)
    client.sendall(request)
    return client


def is_answered(client, room, view):
    """Reads to the end, and returns whether a successful response came (RFC 6960 4.2.1)."""
    length = 0
    while part := client.recv_into(view[length:]):
        length += part
    client.close()
    body = room.find(b"\r\n\r\n", 0, length) + 4
    return room.find(b"\x0a\x01\x00", body, min(body + 12, length)) > 0


def one_client(port, requests, count, at_once, ready, told):
    """Sends so many requests, so many at once, once all clients are ready. Reads the oldest request's answer first, and then sends the
    next one. Reports when it began, when it ended, and how long each answer took."""
    address = ("127.0.0.1", port)
    room = bytearray(65536)
    view = memoryview(room)
    asked = collections.deque()
    took = []
    ready.wait()
    began = now = time.perf_counter()
    for at in range(count + at_once):
        if at >= at_once:
            client, before = asked.popleft()
            if not is_answered(client, room, view):
                raise SystemExit(f"no answer at {port}")
            now = time.perf_counter()
            took.append(now - before)
        if at < count:
            asked.append((ask_one(address, requests[at % len(requests)]), now))
    told.send((began, now, took))


def clients(port, requests, count, at_once):
    """Answers a second, and the seconds of each answer, for so many connections at once, spread over at most PROCESSES processes."""
    fork = multiprocessing.get_context("fork")
    processes = min(at_once, PROCESSES)
    ready = fork.Barrier(processes)
    pipes = [fork.Pipe(duplex=False) for _ in range(processes)]
    # Each begins at another certificate, so that no two request the same one at a time if there are many.
    parts = [len(requests) * at // processes for at in range(processes)]
    running = [
        fork.Process(target=one_client, args=(port, requests[part:] + requests[:part], count // processes, at_once // processes, ready, there))
        for part, (_, there) in zip(parts, pipes)
    ]
    for client in running:
        client.start()
    told = [here.recv() for here, _ in pipes]
    for client in running:
        client.join()
    took = [each for _, _, part in told for each in part]
    return len(took) / (max(end for _, end, _ in told) - min(began for began, _, _ in told)), took


class Measure:
    """The best rate of several rounds, and the latencies of all of them, beside `silent` idle connections."""

    def __init__(self, port, requests, at_once, silent):
        self.port, self.requests, self.at_once, self.silent = port, requests, at_once, silent
        self.best = 0.0
        self.took = []

    def round(self, count):
        held = [socket.create_connection(("127.0.0.1", self.port)) for _ in range(self.silent)]
        rate, took = clients(self.port, self.requests, count, self.at_once)
        for client in held:
            client.close()
        self.best = max(self.best, rate)
        self.took += took

    def texts(self):
        took = sorted(self.took)
        return f"{self.best:,.0f} | {took[len(took) // 2] * 1e6:,.0f} µs | {took[len(took) * 99 // 100] * 1e6:,.0f} µs"


def others(request):
    """OTHERS requests, each for another certificate: a request ends with the serial number (RFC 6960 4.1.1)."""
    return [request[:-2] + (FIRST + at).to_bytes(2, "big") for at in range(OTHERS)]


def ask(count, theirs, ours, files):
    few = [open(name, "rb").read() for name in files]
    many = [whole(request) for request in others(few[0])]
    few = [whole(request) for request in few]
    # An idle connection would block openssl forever.
    kinds = [
        ("", few, 0, (theirs, ours)),
        (f", {OTHERS:,} certificates", many, 0, (theirs, ours)),
        (f", {SILENT} silent clients", few, SILENT, (ours,)),
    ]
    rows_of = [(f"{name}{beside}", [Measure(port, requests, at_once, silent) for port in ports])
               for beside, requests, silent, ports in kinds
               for name, at_once in [("one client in turn", 1), (f"{AT_ONCE} at once", AT_ONCE)]]
    for _ in range(ROUNDS):
        for _, measures in rows_of:
            for measure in measures:
                measure.round(count)
    print("| Asked by | Who answers | Answers a second | Median | One in a hundred is slower | Ratio |\n|---|---|---|---|---|---|")
    first = {measures[0].at_once: measures[0].best for name, measures in rows_of[:2]}
    for name, measures in rows_of:
        base = {measures[0].at_once: measures[0].best} if len(measures) == 2 else first
        for measure in measures:
            server = "`desk open`" if measure.port == ours else "`openssl ocsp -port`"
            print(f"| {name} | {server} | {measure.texts()} | {measure.best / base[measure.at_once]:.2f} |")


def timed(lines, words):
    """The seconds that a program takes for these lines, all of which it has to accept."""
    start = time.perf_counter()
    ran = subprocess.run(words, input="".join(lines).encode(), capture_output=True, check=True)
    took = time.perf_counter() - start
    if ran.stdout.count(b"subscriber ") != len(lines):
        raise SystemExit(f"not all were accepted: {ran.stdout[:80]}")
    return took


def commands(count, kind, words):
    """Prints the times of many commands to one program, and of one alone. A script has a moment before each command, the control socket none."""
    moment = "" if kind == "control" else time.strftime("%Y-%m-%dT%H:%M:%SZ ", time.gmtime())
    many = timed([f"{moment}subscriber {kind}{at}\n" for at in range(count)], words)
    alone = min(timed([f"{moment}subscriber {kind}-{at}\n"], words) for at in range(ROUNDS))
    print(f"{kind}: {count} commands in {many:.2f} s, {count / many:,.0f} a second; one alone {alone * 1e3:.0f} ms")


# The form of an ECDSA signature, r = s = 1 (RFC 5480 appendix A).
ANY_SIGNATURE = bytes.fromhex("3006020101020101")


def sign_one(client, millis):
    """Reads a message, and returns bytes in the form of a signature so many milliseconds later; never, if the number is negative."""
    with client:
        while client.recv(65536):
            pass
        if millis < 0:
            threading.Event().wait()
        time.sleep(millis / 1000)
        client.sendall(ANY_SIGNATURE)


def sign(path, millis):
    """A signer at a socket, for any number of connections at once."""
    with socket.socket(socket.AF_UNIX) as server:
        server.bind(path)
        server.listen(128)
        while True:
            client, _ = server.accept()
            threading.Thread(target=sign_one, args=(client, millis), daemon=True).start()


def slow(count, port, files):
    """Prints the answers a second with a slow signer: one after the other, and AT_ONCE at once."""
    few = [whole(open(name, "rb").read()) for name in files]
    rates = [max(clients(port, few, count, at_once)[0] for _ in range(ROUNDS)) for at_once in (1, AT_ONCE)]
    print(f"a signer that takes 5 ms: {rates[0]:,.0f} answers a second in turn, {rates[1]:,.0f} at {AT_ONCE} at once, {rates[1] / rates[0]:.1f} times")


def hung(port, control, files):
    """Prints the longest wait of requests that need no signature, while OCSP answers wait for a signer that hangs."""
    few = [whole(open(name, "rb").read()) for name in files]
    waiting, took = [], {"GET /counts": [], "a line at the control socket": []}
    with socket.socket(socket.AF_UNIX) as teller:
        teller.connect(control)
        for at in range(10 * ROUNDS):
            waiting.append(ask_one(("127.0.0.1", port), few[at % len(few)]))
            start = time.perf_counter()
            with contextlib.closing(ask_one(("127.0.0.1", port), b"GET /counts HTTP/1.0\r\n\r\n")) as client:
                while client.recv(65536):
                    pass
            took["GET /counts"].append(time.perf_counter() - start)
            start = time.perf_counter()
            teller.sendall(b"subscriber hung%d\n" % at)
            teller.recv(65536)
            took["a line at the control socket"].append(time.perf_counter() - start)
    for client in waiting:
        client.close()
    told = ", ".join(f"{name} {max(times) * 1e3:.1f} ms at the longest" for name, times in took.items())
    print(f"a signer that hangs, and {len(waiting)} who wait for it: {told}")


def main():
    job, *words = sys.argv[1:]
    if job == "orders":
        orders(int(words[0]), words[1])
    elif job == "rows":
        rows(int(words[0]), words[1], words[2])
    elif job == "index":
        index(int(words[0]), words[1])
    elif job == "sign":
        sign(words[0], float(words[1]))
    elif job == "slow":
        slow(int(words[0]), int(words[1]), words[2:])
    elif job == "hung":
        hung(int(words[0]), words[1], words[2:])
    elif job == "commands":
        commands(int(words[0]), words[1], words[2:])
    else:
        ask(int(words[0]), int(words[1]), int(words[2]), words[3:])


main()
