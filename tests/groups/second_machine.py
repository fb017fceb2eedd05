"""A leader and a follower as two machines: keepalived moves an address between them, both are killed at random moments, and commands come fast.

DESK_LONG=FILE makes two tests longer (200 rounds of kills; 2,000 commands a second for a minute). All append to FILE what they measured.
"""

import contextlib
import json
import os
import subprocess
import threading
import time
from collections import Counter
from random import Random

from groups.follow import CLOCK, DAY, Copy, address, inside_of, nginx, ran
from groups.responder import Responder
from lib import faults, program
from lib.authority import EXAMPLES, Authority, end, first_day, now, until
from lib.program import parted
from lib.trial import Skipped, need, test

LONG = os.environ.get("DESK_LONG")


def measured(text):
    """Appends a line to the file that DESK_LONG names."""
    if LONG:
        with open(LONG, "a") as it:
            it.write(f"{time.strftime('%H:%M:%S')} {text}\n")


# ---- keepalived

# That of examples/keepalived.conf. The desks' port, 8080, and the interface, eth0, are those of the example, too.
ADDRESS = "192.0.2.10"
SITE = """server {
    listen 80;
    location / { proxy_pass http://127.0.0.1:8080; }
}
"""


class Machine:
    """A machine at a switch: a network namespace with the interface eth0, a folder, and nginx in front of the port of its desk."""

    def __init__(self, t, name, number, switch):
        self.t, self.host, self.folder, self.own = t, f"{switch}-{name}", t.room / name, f"192.0.2.{number}"
        self.folder.mkdir()
        namespace(t, self.host)
        steps = [
            ("ip", "link", "add", "eth0", "netns", self.host, "type", "veth", "peer", "name", f"to-{name}", "netns", switch),
            ("ip", "-n", self.host, "addr", "add", f"{self.own}/24", "dev", "eth0"), ("ip", "-n", self.host, "link", "set", "eth0", "up"),
            ("ip", "-n", switch, "link", "set", f"to-{name}", "master", "switch", "up"),
        ]  # fmt: skip
        t.same([it for it in steps if ran(*it)], [], "steps that failed")
        nginx(t, f"nginx-{name}", SITE, inside_of(self.host))

    def runs(self, *words):
        """Runs the program in its folder, at the port of the example."""
        self.t.note(f"{self.host}: {program.shown(words)}")
        how = {"cwd": self.folder, "before": inside_of(self.host)}
        desk = self.t.enter_context(program.Opened([*words, "--port", "8080", "--control", "control"], **how))
        self.t.true(desk.listens, f"{self.host} does not listen: {desk.log}")
        return desk

    def keepalived(self):
        """Runs keepalived with the example as it is, until the test ends."""
        files = ("-f", EXAMPLES / "keepalived.conf", "-p", self.folder / "keepalived.pid", "-r", self.folder / "vrrp.pid")
        words = list(map(str, (*inside_of(self.host), "keepalived", "--dont-fork", "--log-console", "--vrrp", *files)))
        self.t.note(" ".join(words))
        log = self.t.enter_context(open(self.folder / "keepalived.log", "wb"))
        environment = program.environment()
        process = subprocess.Popen(words, cwd=self.folder, stdin=subprocess.DEVNULL, stdout=log, stderr=subprocess.STDOUT, env=environment)
        self.t.callback(end, process)

    @property
    def log(self):
        """What its keepalived has printed."""
        return (self.folder / "keepalived.log").read_text().splitlines()

    @property
    def state(self):
        """The last state of its keepalived."""
        return next((line.split()[-2] for line in reversed(self.log) if line.endswith(" STATE")), None)

    @property
    def has_address(self):
        shown = subprocess.run(["ip", "-n", self.host, "-4", "-o", "addr", "show", "eth0"], capture_output=True, text=True, check=True)
        return f"inet {ADDRESS}/" in shown.stdout

    @property
    def status(self):
        """The status of GET /counts of its desk, as the script of keepalived asks for it."""
        return asks(self.host, "http://127.0.0.1:8080/counts")[0]


def namespace(t, name):
    if os.geteuid() != 0 or ran("ip", "netns", "add", name):
        raise Skipped("no network namespaces here")
    t.callback(ran, "ip", "netns", "del", name)
    t.same(ran("ip", "-n", name, "link", "set", "lo", "up"), 0, "the loopback interface")


def asks(host, url):
    """The status (0 if there is none) and the body of a response that curl gets in a namespace."""
    words = [*inside_of(host), "curl", "-s", "-m", "3", "-w", "\n%{http_code}", url]
    told = subprocess.run(words, capture_output=True, env=program.environment(), check=False).stdout
    body, _, status = told.rpartition(b"\n")
    return int(status), body


class Tunnel:
    """Leads from the Unix socket `lead` of a follower's machine to the port of the leader's."""

    def __init__(self, t, follower, leader):
        self.socket, self.ends = follower.folder / "lead", []
        for words in (
            (*inside_of(leader.host), "socat", "TCP-LISTEN:9000,fork,reuseaddr", "TCP:127.0.0.1:8080"),
            (*inside_of(follower.host), "socat", f"UNIX-LISTEN:{self.socket},fork,unlink-early", f"TCP:{leader.own}:9000,connect-timeout=5"),
        ):
            self.ends.append(subprocess.Popen(list(words), stdin=subprocess.DEVNULL, stderr=subprocess.DEVNULL))
            t.callback(end, self.ends[-1])
        until(self.socket.exists, "the forwarder")

    def cut(self):
        for it in self.ends:
            end(it)


@test(seconds=90)
def keepalived_moves_an_address(t):
    """The address is where a desk answers: at the leader; once that is killed, at the follower, until its lag is over; then nowhere, until
    an operator opens the follower's file. The old leader that follows leaves the address there, and doesn't get it once its lag is over."""
    need("ip", "keepalived", "nginx", "socat", "curl")
    ca = Authority(t)
    responder = Responder(ca)
    ca.signer()
    responder.signer()
    switch = f"desk-{os.getpid()}-{program.next_port()}"
    namespace(t, switch)
    for words in (("link", "add", "switch", "type", "bridge"), ("addr", "add", "192.0.2.3/24", "dev", "switch"), ("link", "set", "switch", "up")):
        t.same(ran("ip", "-n", switch, *words), 0, f"ip {' '.join(words)}")
    first, second = Machine(t, "a", 1, switch), Machine(t, "b", 2, switch)
    machines = (first, second)
    signer = ("--signer", t.room / "ca.sign", "--algorithm", ca.algorithm)
    answers = ("--responder", t.room / "responder.der", "--responder-signer", t.room / "responder.sign", "--responder-algorithm", responder.algorithm)
    ca.register("a/ca.db")
    t.done("script", "a/ca.db", *ca.signing(), given=first_day(now() - 3600))

    def is_at(*owners):
        until(lambda: [it.has_address for it in machines] == [it in owners for it in machines], f"the address at {[it.host for it in owners]}")

    def openssl_reads(serial):
        """The status that openssl gets at the address, from the switch."""
        words = ("openssl", "ocsp", "-issuer", ca.pem, "-CAfile", ca.pem, "-serial", f"0x{serial}", "-url", f"http://{ADDRESS}/ocsp")
        told = t.tool(*inside_of(switch), *words, env=program.environment()).decode()
        t.has(told, "Response verify OK", f"the response for serial number {serial}")
        return told.split(f"0x{serial}: ")[1].split()[0]

    def client_is_answered(*wanted):
        until(lambda: asks(switch, f"http://{ADDRESS}/crl")[0] == 200, "an answer at the address")
        t.same([openssl_reads(serial) for serial in ("05", "06", "07")], list(wanted), "the statuses at the address")

    leader = first.runs("open", "ca.db", "--confirm-by", "1", *signer)
    first.keepalived()
    is_at(first)
    Tunnel(t, second, first)
    copy = second.runs("follow", "ca.db", "--from", "lead", "--lag", str(int(15 * program.PATIENCE)), *answers)
    until(lambda: second.status == 200, "the follower")
    second.keepalived()
    until(lambda: second.state == "BACKUP", "keepalived of the second machine")
    client_is_answered("revoked", "good", "unknown")
    with program.Control(first.folder / "control") as lines:
        t.same([lines.ask(line).split()[0] for line in ("request 06 superseded", "revoke 2")], ["request", "revoked"], "a revocation")
    is_at(first)
    # The leader dies. Its follower answers for it, also for what it was told last.
    leader.process.kill()
    began = time.monotonic()
    is_at(second)
    client_is_answered("revoked", "revoked", "unknown")
    measured(f"{time.monotonic() - began:.1f} s after its desk was killed, three clients were answered at the address again")
    # Once the lag is over, no machine has the address.
    until(lambda: second.status == 503, "the end of the lag")
    is_at()
    t.same((second.state, asks(switch, f"http://{ADDRESS}/crl")[0]), ("FAULT", 0), "keepalived of the follower, and an answer at the address")
    # An operator opens the follower's file.
    copy.end()
    taken_over = second.runs("open", "ca.db", *signer, *answers)
    is_at(second)
    with program.Control(second.folder / "control") as lines:
        t.same(lines.ask("crl"), "crl 2 entries 2")
    client_is_answered("revoked", "revoked", "unknown")
    ca.verifies(asks(switch, f"http://{ADDRESS}/crl/2")[1])
    # The first machine returns as a follower, and the address stays where it is.
    tunnel = Tunnel(t, first, second)
    first.runs("follow", "ca.db", "--from", "lead", "--lag", "4", *answers)
    until(lambda: first.status == 200 and first.state == "BACKUP", "the first machine as a follower")
    is_at(second)
    # It does not reach its leader any more: then it does not get the address when the leader dies, nor does it answer.
    tunnel.cut()
    until(lambda: first.status == 503 and first.state == "FAULT", "the end of its lag")
    is_at(second)
    taken_over.process.kill()
    is_at()
    # A machine that may take the address does so within four seconds: three advertisements of a second, and the skew.
    time.sleep(5)
    t.same(([it.has_address for it in machines], asks(switch, f"http://{ADDRESS}/crl")[0]), ([False] * 2, 0), "the address, and an answer there")
    second.runs("open", "ca.db", *signer, *answers)
    is_at(second)
    client_is_answered("revoked", "revoked", "unknown")
    t.same([it for machine in machines for it in machine.log if "SECURITY" in it or "error" in it.lower()], [], "complaints of keepalived")


# ---- both are killed


class Acknowledged:
    """The rows that the replies to commands have promised, and replies that no command may get."""

    def __init__(self):
        self.rows, self.wrong, self.count, self.lock = {}, [], 0, threading.Lock()

    def add(self, table, row):
        with self.lock:
            self.rows.setdefault(table, set()).add(row)
            self.count += 1

    def lacking(self, path):
        """The promised rows that a closed register lacks. Only copies of its files are read."""
        tables = faults.tables(path) or {}
        rows = lambda name, *columns: {tuple(row[at] for at in columns) for row in tables.get(name, [])}
        there = {
            "subscriber": rows("subscriber", 0, 1), "order": rows("orders", 0, 1, 2), "certificate": rows("cert", 0, 1),
            "request": rows("request", 0, 1, 2), "declined": {row[:1] for row in rows("request", 0, 4) if row[1]},
            "revocation": rows("revocation", 0, 3), "crl": rows("crl", 0),
        }  # fmt: skip
        with self.lock:
            return sorted((table, row) for table, wanted in self.rows.items() for row in wanted - there[table])


class Sender(threading.Thread):
    """A client that sends one command after another, each of them about rows that it added itself, and connects again when the desk has died. It
    never repeats a command whose reply did not come."""

    def __init__(self, t, number, acknowledged):
        super().__init__(daemon=True)
        self.path, self.number, self.acknowledged, self.random = t.room / "control", number, acknowledged, Random(number)
        self.names, self.serial, self.ended = 0, number << 32, False
        self.subscribers, self.orders, self.certs, self.requests = [], [], [], []
        self.start()

    def run(self):
        while not self.ended:
            with contextlib.suppress(OSError), program.Control(self.path) as lines:
                while not self.ended and self.sends(lines):
                    pass
            time.sleep(0.005)

    def sends(self, lines):
        """Sends the next command; returns whether its reply came."""
        kind, line, row = self.next()
        lines.stream.sendall(line.encode() + b"\n")
        reply = lines.file.readline().decode()
        if not reply.endswith("\n"):
            return False
        words = reply.split()
        if words[0] != {"register": "registered", "revoke": "revoked", "decline": "declined"}.get(kind, kind):
            self.acknowledged.wrong.append((line, reply))
        else:
            self.keeps(kind, row, int(words[1]) if words[1:] else None)
        return True

    def pick(self, items):
        """One of these rows, which is removed from them."""
        return items.pop(self.random.randrange(len(items)))

    def next(self):
        """The kind of the next command, its line, and its row as far as it is known."""
        may = [("subscriber", 1), ("crl", 0.2)]
        may += [("order", 4)] * bool(self.subscribers) + [("register", 4)] * bool(self.orders) + [("request", 2)] * bool(self.certs)
        may += [("revoke", 1), ("decline", 0.5)] * bool(self.requests)
        kind = self.random.choices([it for it, _ in may], [weight for _, weight in may])[0]
        if kind == "subscriber":
            self.names += 1
            return kind, f"subscriber s{self.number}-{self.names}", (f"s{self.number}-{self.names}",)
        if kind == "order":
            subscriber, days = self.random.choice(self.subscribers), self.random.randrange(1, 399)
            return kind, f"order {subscriber} {days}", (subscriber, days)
        if kind == "register":
            self.serial += 1
            order = self.pick(self.orders)
            return kind, f"register {order} {self.serial:x} {CLOCK} 2026-01-03T12:00:00Z", (self.serial.to_bytes(20, "big"), order)
        if kind == "request":
            serial = self.pick(self.certs)
            return kind, f"request {serial.hex()} superseded", (serial, 6)
        if kind == "crl":
            return kind, "crl", ()
        request, serial = self.pick(self.requests)
        return kind, f"{kind} {request}", (request,) if kind == "decline" else (serial, request)

    def keeps(self, kind, row, number):
        """Notes what a reply promised, so that later commands can name it."""
        if number is not None:
            row = (number, *row)
        if kind == "subscriber":
            self.subscribers = [*self.subscribers[-9:], number]
        elif kind == "order":
            self.orders.append(number)
        elif kind == "register":
            self.certs.append(row[0])
        elif kind == "request":
            self.requests.append((number, row[1]))
        table = {"register": "certificate", "revoke": "revocation", "decline": "declined"}.get(kind, kind)
        self.acknowledged.add(table, row)


class Pair:
    """A leader and its follower, each a file and a process, which may be dead."""

    def __init__(self, t, *words):
        self.t, self.words, self.ports = t, words, [program.free_port(), program.free_port()]
        self.files, self.processes, self.made = ["ca.db", "copy-0.db"], [None, None], 0

    def starts(self, it, stop=None, seed=0):
        """Starts the leader (0) or the follower (1). With `stop` it dies at this write or sync, and loses writes that it has not synced."""
        leads, follows = ("open", self.files[0], "--control", "control", *self.words), ("follow", self.files[1], "--from", address(self.ports[0]))
        env = program.environment(self.t._clock, faults.environment(stop=stop, lose=seed if stop else None, torn=seed % 2 if stop else None))
        words = [program.program(), *(follows if it else leads), "--unsigned", "--port", str(self.ports[it])]
        with open(self.t.room / f"stderr-{it}", "ab") as said:
            how = {"stdin": subprocess.DEVNULL, "stdout": subprocess.DEVNULL, "stderr": said}
            self.processes[it] = subprocess.Popen(words, cwd=self.t.room, env=env, **how)

    def dies(self, it):
        self.processes[it].kill()
        self.ends(it)

    def ends(self, it):
        self.processes[it].wait()
        said = (self.t.room / f"stderr-{it}").read_text()[-300:]
        self.t.same(self.processes[it].returncode, -9, f"how {('the leader', 'the follower')[it]} ended, which had printed {said!r}")
        self.processes[it] = None

    def takes_over(self):
        """The leader's file is destroyed. That of the follower becomes the leader's, and a new follower begins without a file."""
        faults.copy(None, self.t.room / self.files[0])
        self.made += 1
        self.files = [self.files[1], f"copy-{self.made}.db"]

    def audits(self, it):
        faults.copy(self.t.room / self.files[it], self.t.room / "audited.db")
        told = self.t.desk("audit", "audited.db")
        self.t.true(told.out.startswith(b"sound"), f"desk audit of {self.files[it]}: {told.out} {told.err}")


@test(seconds=80)
def leader_and_follower_are_killed(t):
    """Each round the leader, the follower or both are killed at a random moment, or die at a write and lose what they have not synced. With
    --confirm-by 1 the follower's file has each acknowledged command, also when it takes over after the leader's file was destroyed."""
    plays(t, 200 if LONG else 100, "--confirm-by", "1")


def plays(t, rounds, *words, over=20, seed=58):
    """So many rounds, and after each `over` of them the follower takes over."""
    random, both = Random(seed), (0, 1)
    t.register()
    t.clock(CLOCK)
    pair, acknowledged, began = Pair(t, *words), Acknowledged(), time.monotonic()
    t.callback(lambda: [it.kill() for it in pair.processes if it])
    senders = [Sender(t, number, acknowledged) for number in range(1, 4)]
    # How many commands were acknowledged when the present follower began.
    before, checks, stops = 0, 0, Counter()
    has_ended = lambda it: pair.processes[it].poll() is not None
    for turn in range(1, rounds + 1):
        victims = random.choice(((0,), (1,), both))
        # Whichever died in the last round is started again. A victim of this round may be told at which write to die.
        told = set()
        for it in random.sample(both, 2):
            if pair.processes[it] is None:
                stop = random.randrange(1, 60) if it in victims and random.random() < 0.5 else None
                pair.starts(it, stop, turn + 1)
                told |= {it} if stop else set()
        if random.random() < 0.25:
            time.sleep(random.uniform(0, 0.15) * program.PATIENCE)
        else:
            reached = acknowledged.count + random.randrange(40)
            until(lambda: acknowledged.count >= reached or acknowledged.wrong or any(map(has_ended, both)), f"commands in round {turn}")
            time.sleep(random.uniform(0, 0.01))
        stops.update(filter(has_ended, told))
        for it in victims:
            pair.dies(it)
        t.same([it for it in both if pair.processes[it] and has_ended(it)], [], f"processes that have ended by themselves in round {turn}")
        t.same(acknowledged.wrong, [], f"replies in round {turn}")
        if turn % over == 0:
            if acknowledged.count == before:
                # The present follower has confirmed nothing yet, so its file may lack rows that another one has confirmed.
                for it in victims:
                    pair.starts(it)
                until(lambda: acknowledged.count > before, f"a command that the follower confirms in round {turn}")
            for it in both:
                if pair.processes[it]:
                    pair.dies(it)
        if pair.processes == [None, None] and acknowledged.count > before:
            checks += 1
            t.same(acknowledged.lacking(t.room / pair.files[1]), [], f"acknowledged rows that the follower's file lacks in round {turn}")
            if turn % over == 0:
                for it in both:
                    pair.audits(it)
                pair.takes_over()
                before = acknowledged.count
    for it in both:
        if pair.processes[it] is None:
            pair.starts(it)
    until(lambda: acknowledged.count > before + 20, "commands after the last round")
    for it in senders:
        it.ended = True
    for it in both:
        pair.dies(it)
    for it in senders:
        it.join(60 * program.PATIENCE)
    t.same(acknowledged.lacking(t.room / pair.files[1]), [], "acknowledged rows that the follower's file lacks in the end")
    leader = t.open(pair.files[0], "--port", str(pair.ports[0]), "--control", "last")
    copy = Copy(t, address(leader.port), file=pair.files[1])
    copy.is_like(t.control("last"))
    leader.end()
    copy.desk.end()
    for it in both:
        pair.audits(it)
    counts = {table: len(rows) for table, rows in acknowledged.rows.items()}
    measured(f"{rounds} rounds in {time.monotonic() - began:.0f} s, {pair.made} followers took over; {acknowledged.count} acknowledged: {counts}; "
             f"{checks} checks of the follower's file; died at a write: the leader {stops[0]}, the follower {stops[1]}")  # fmt: skip
    t.true(checks > rounds // 6 and sum(stops.values()) > rounds // 20, f"{checks} checks, {stops} deaths at a write")


# ---- commands that come fast

# Ten lines: four orders, a certificate for each, a request for revocation, and the revocation.
BLOCK = ("order",) * 4 + ("registered",) * 4 + ("request", "revoked")


def lines_of(block):
    """The lines of the block with this number, from 0, over a register with one subscriber. Ids are known before their replies."""
    ids = range(4 * block + 1, 4 * block + 5)
    lines = ["order 1 30"] * 4 + [f"register {id} {id:x} {CLOCK} 2026-01-20T00:00:00Z" for id in ids]
    return "".join(f"{line}\n" for line in [*lines, f"request {ids[0]:x} superseded", f"revoke {block + 1}"])


def used(desk):
    """The seconds of a processor that a desk has used."""
    with open(f"/proc/{desk.process.pid}/stat") as it:
        return sum(map(int, it.read().rpartition(")")[2].split()[11:13])) / os.sysconf("SC_CLK_TCK")


@test(seconds=25)
def commands_come_fast(t):
    """A client sends lines at this rate without waiting for replies. The follower answers all the time, reaches the leader, and has its rows."""
    rate, seconds = (2_000, 60) if LONG else (500, 10)
    t.register(lines=f"{DAY} subscriber acme\n")
    t.clock(CLOCK)
    leader, control = t.open(), t.control()
    copy = Copy(t, address(leader.port))
    until(lambda: copy.leader["current"], "the leader")
    blocks = rate * seconds // len(BLOCK)
    began, lines, replies, moments = time.monotonic(), t.control(), Counter(), []

    def send():
        for at in range(blocks):
            time.sleep(max(0, began + at * len(BLOCK) / rate - time.monotonic()))
            lines.stream.sendall(lines_of(at).encode())

    def receive():
        for _ in range(blocks * len(BLOCK)):
            replies[lines.file.readline().decode().split()[0]] += 1
            moments.append(time.monotonic() - began)

    threads = [threading.Thread(target=it, daemon=True) for it in (send, receive)]
    for it in threads:
        it.start()
    told = []
    while threads[1].is_alive():
        count, it = len(moments), copy.leader
        # How many rows it lacks of those whose commands had their replies before this answer.
        lacks = count + 1 - sum(map(int, it["positions"].split(".")[:6]))
        told.append((it["current"], it["failure"], it["refused"], it["lag"], lacks, parted(copy.desk.ask("GET", "/counts"))[0]))
        threads[1].join(0.25)
    t.same(dict(replies), {word: blocks * BLOCK.count(word) for word in BLOCK}, "the replies")
    copy.follows(leader)
    took, caught_up = moments[-1], time.monotonic() - began - moments[-1]
    lag, lacks = (max(it[at] for it in told) for at in (3, 4))
    measured(f"{len(moments)} lines, sent at {rate} a second; the last reply after {took:.2f} s: {len(moments) / took:.0f} a second; the follower "
             f"had its row {caught_up:.1f} s later; lag at most {lag} s, rows behind at most {lacks}, in {len(told)} answers; seconds of a "
             f"processor: leader {used(leader)}, follower {used(copy.desk)}; load {os.getloadavg()[0]:.1f}")  # fmt: skip
    t.same({(*it[:3], it[5]) for it in told}, {(True, None, 0, 200)}, "whether it was current, failed or refused a page; status of GET /counts")
    # A request that waits a second for news makes a lag of two seconds at most.
    until(lambda: copy.leader["lag"] <= 2, "the end of the lag")
    t.same(control.ask("crl"), f"crl 1 entries {blocks}")
    copy.is_like(control)
    copy.is_sound()
    if LONG:
        t.true(len(moments) / took > rate * 0.98, f"{len(moments) / took:.0f} lines a second")
