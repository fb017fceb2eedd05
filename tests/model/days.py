"""A day of a plan: its steps, drawn from a seed, and the expected answer to each.

A step is a word and its arguments. Each step is complete by itself, so that steps can be left out:
    script LINE                               a line of a script
    import NOW TEXT, schedule STEPS           these commands, on a closed register
    key-id HEX                                likewise
    crl NUMBER, audit                         likewise; the latest CRL if NUMBER is None
    http NOW METHOD TARGET FIELDS BODY        a request to an open desk, at a moment of the clock
    tell NOW LINE                             a line at the control socket of an open desk
    at NOW LINES                              lines that `desk at` sends to it
"""

import random
import re
from collections import Counter

from . import crls, http, lines, moments, ocsp
from .draws import Draws
from .moments import DAY, text_of
from .register import GROUNDS, Policy, Register

# The forms of a reply.
FORMS = {
    name: re.compile(form)
    for name, form in {
        "subscriber": r"subscriber \d+", "order": r"order \d+", "registered": "registered", "same": "same", "request": r"request \d+ due .*",
        "declined": "declined", "revoked": "revoked", "revoked late": "revoked late", "crl": r"crl \d+ entries \d+", "unknown": "unknown",
        "good": "good", "expired": "expired", "status revoked": r"revoked .* reason \d", "counts": r"good \d+ revoked \d+ expired \d+",
        "listing none": "listing none", "bad-clock": "bad-clock", "clock accepted": "clock accepted",
        "listing first": r"listing first \d+", "listing last": r"listing first \d+ last \d+", "overdue none": "overdue 0",
        "overdue": r"overdue \d+ first \d+", "next-crl": r"next-crl \d.*", "next-crl at once": "next-crl at-once", "ocsp": "ocsp [0-9a-f]+",
    }.items()
}
# Parts of OCSP responses: a refusal, a status of a certificate, and the longest nonce that is repeated.
OCSP = {
    "malformed": ocsp.MALFORMED, "try later": ocsp.TRY_LATER, "good": b"\x80\x00\x18\x0f", "unknown": b"\x82\x00\x18\x0f",
    "revoked": b"\xa1\x11\x18\x0f", "revoked for a reason": b"\xa1\x16\x18\x0f", "nonce": ocsp.value(0x06, ocsp.NONCE),
    "longest nonce": ocsp.value(0x06, ocsp.NONCE) + b"\x04\x81\x83",
}
# The steps of an open register. Any other step closes it, and then the desk forgets its recent requests and the clock that the operator accepted.
OPEN = ("http", "tell", "at")


def policy_of(plan):
    return Policy(plan.schedules[0], plan.crl_life, plan.ocsp_life, plan.cap)


def answer(register, step):
    """The expected answer to a step, in bytes. Changes the register of the model as the step does."""
    word, *given = step
    if word not in OPEN:
        register.closed()
    if word == "script":
        return lines.reply(register, given[0]).encode()
    if word == "tell":
        return lines.told_now(register, *given).encode()
    if word == "at":
        return b"\n".join(lines.told_now(register, given[0], it).encode() for it in given[1])
    if word == "import":
        return "".join(f"{it}\n" for it in lines.imported(register, *given)).encode()
    if word == "http":
        return http.answer(register, *given)
    if word == "schedule":
        register.policy.schedule = given[0]
        return b"schedule set\n"
    if word == "key-id":
        register.identify(bytes.fromhex(given[0]))
        return b"key-id set\n"
    if word == "crl":
        number = given[0] if given[0] is not None else len(register.crls)
        return crls.crl(register, number) if 1 <= number <= len(register.crls) else b"E21 no-crl"
    return f"sound, {len(register.certificates)} certificates, {len(register.revocations)} revoked, {len(register.crls)} CRLs\n".encode()


def commands_of(step, told):
    """How many commands a step has, refused ones too."""
    word, *given = step
    if word == "import":
        return told.count(b"\n")
    words = {"script": lambda: [given[0].partition(b" ")[2]], "tell": lambda: given[1:], "at": lambda: given[1]}.get(word, list)()
    return sum(it.partition(b" ")[0] in lines.COMMANDS for it in words)


def answers(plan, steps):
    register = Register(policy_of(plan))
    return [answer(register, it) for it in steps]


class Day:
    """Draws a plan's steps from a seed: `steps`, their expected answers `wanted`, and how often each kind of answer occurs."""

    def __init__(self, plan, seed):
        self.plan, self.draws = plan, Draws(seed, plan)
        # These have their own generators, so that all other draws are the same without key identifiers and accepted clocks.
        self.identifiers = random.Random(f"key identifiers {seed}")
        self.clocks = random.Random(f"accepted clocks {seed}")
        self.register = Register(policy_of(plan))
        self.steps, self.wanted = [], []
        # How often each refusal and each form of a reply occurs, and the greatest value of each count and size.
        self.came, self.most = Counter(), Counter()
        self.draw()

    def draw(self):
        self.more("schedule", len(self.plan.schedules[0]))
        self.line(self.plan.start, "next-crl")
        for part in range(1 if self.plan.in_memory else self.plan.parts):
            for _ in range(self.plan.lines):
                self.some_lines()
            if not self.plan.in_memory:
                self.between(part)
        if not self.plan.in_memory:
            self.look_at_all()

    def take(self, *step):
        """Takes a step, and counts its effects."""
        before, last = self.ending(), self.register.last
        told = answer(self.register, step)
        self.steps.append(step)
        self.wanted.append(told)
        self.count(step, told)
        if self.register.last > last:
            self.more("ended", sum(it < self.register.last for it in before))
        return told

    def ending(self):
        """The ends of the good certificates, if the plan does not revoke the certificates that it registers."""
        if self.plan.are_revoked:
            return []
        at = self.register.last
        return [it.not_after for it in self.register.certificates.values() if it.not_after >= at and it.serial not in self.register.revocations]

    def count(self, step, told):
        word, *given = step
        self.came[word] += 1
        self.came["commands"] += commands_of(step, told)
        if word == "http":
            self.count_http(*given[1:3], told)
        elif word == "crl":
            self.count_crl(told)
        elif word == "schedule":
            self.more("schedule", len(given[0]))
        elif word not in ("audit", "key-id"):
            for line in filter(None, told.decode().split("\n")):
                self.count_line(line)
        it = self.register
        for what, many in (("rows", it.most_rows()), ("subscribers", len(it.subscribers)), ("CRLs", len(it.crls)), ("last", it.last)):
            self.more(what, many)

    def more(self, what, many):
        self.most[what] = max(self.most[what], many)

    def count_line(self, line):
        self.came["commands and queries"] += 1
        if line[0] == "E":
            self.came[line[:3]] += 1
            return
        self.came[next(name for name, form in FORMS.items() if form.fullmatch(line))] += 1
        words = line.split()
        if words[0] == "ocsp":
            self.count_ocsp("line", bytes.fromhex(words[1]))
        for what, word, at in (("entries", "crl", 3), ("expired", "good", 5), ("overdue", "overdue", 1)):
            if words[0] == word and len(words) > at:
                self.more(what, int(words[at]))

    def count_http(self, method, target, told):
        self.came["commands and queries"] += 1
        head, _, body = told.partition(b"\r\n\r\n")
        self.came[f"status {told[9:12].decode()}"] += 1
        if b"ocsp-response" in head:
            self.count_ocsp(method, body)
        if b"pkix-crl" in head or b"E21" in body:
            self.count_crl(b"E21 no-crl" if b"E21" in body else body)
        if body.startswith(b'{"error":"E'):
            self.came[f"HTTP {body[10:13].decode()}"] += 1
        if method == "GET":
            self.more("GET bytes", len(target))

    def count_crl(self, told):
        if told == b"E21 no-crl":
            self.came["E21"] += 1
        else:
            self.more("CRL bytes", len(told))

    def count_ocsp(self, by, told):
        self.came[f"ocsp by {by}"] += 1
        self.more("OCSP bytes", len(told))
        for name, part in OCSP.items():
            if part in told:
                self.came[f"ocsp {name}"] += 1

    # A script's lines

    def line(self, now, words):
        self.take("script", f"{text_of(now)} {words}".encode())

    def some_lines(self):
        if self.draws.one_in(self.plan.lives):
            return self.lives()
        self.take("script", self.draws.line(self.register))
        if self.draws.one_in(6):
            self.line(min(self.register.last + self.draws.below(self.plan.pace), moments.LAST_SECOND), "counts")

    def lives(self):
        """Up to twelve certificates of the plan's short life, from their orders to their registrations or their revocations."""
        now = min(max(self.register.last, self.plan.start) + self.draws.below(self.plan.pace), moments.LAST_SECOND)
        self.line(now, self.draws.subscriber(self.register))
        for _ in range(self.draws.below(13)):
            serial = self.draws.serial(self.draws.new_serial())
            self.line(now, f"order 1 {-(-self.plan.lasts // DAY)}")
            lasts = self.plan.lasts - 1 if self.plan.are_revoked else self.draws.below(self.plan.lasts)
            until = text_of(min(now + lasts, moments.LAST_SECOND))
            self.line(now, f"register {len(self.register.orders)} {serial} {text_of(now)} {until}")
            if self.plan.are_revoked:
                self.line(now, f"request {serial} {self.draws.any(list(GROUNDS)).decode()}")
                self.line(now, f"revoke {len(self.register.requests)}")

    # Steps between two scripts

    def between(self, part):
        now = self.draws.moment(self.register)
        self.take("import", min(now, moments.LAST_SECOND), self.draws.imported(self.register, now))
        if len(self.plan.schedules) > 1:
            self.take("schedule", self.plan.schedules[(part + 1) % len(self.plan.schedules)])
        for _ in range(self.identifiers.choice((0, 1, 1, 2))):
            self.take("key-id", self.identifiers.randbytes(self.identifiers.choice((1, 20, 64))).hex())
        crl_numbers = (None, self.draws.below(len(self.register.crls) + 2))
        self.take("crl", crl_numbers[part % 2])
        for _ in range(self.plan.exchanges):
            self.exchange()

    def exchange(self):
        now = self.draws.moment(self.register)
        if self.register.is_ahead(now):
            self.far_ahead(now)
        case = self.draws.below(12)
        if case < 7:
            self.take("http", now, *self.draws.http(self.register, now))
        elif case < 11:
            self.take("tell", now, self.told(now))
        else:
            self.take("at", now, tuple(self.told(now) for _ in range(1 + self.draws.below(4))))

    def far_ahead(self, now):
        """A request for revocation, refused as the clock is far ahead, and half the time the line that accepts the clock."""
        serial = self.clocks.choice([*self.register.certificates] or [5])
        self.take("http", now, *self.draws.post("/requests", f'{{"serial":"{serial:x}","ground":"asked"}}'.encode()))
        if self.clocks.random() < 0.5:
            self.take("tell", now, f"accept-clock {text_of(min(now, moments.LAST_SECOND))}".encode())

    def told(self, now):
        # The words have no LF, which would make two lines of them.
        return self.draws.words(self.register, now).encode()

    # At the end of the day

    def too_many(self, now):
        """Four requests over HTTP for a good certificate: a fourth open one is refused."""
        good = [it for it in self.register.certificates if self.register.status_of(now, it) == "good"]
        for serial in good[:1] * 4:
            body = f'{{"serial":"{serial:x}","ground":"asked"}}'.encode()
            self.take("http", now, "POST", "/requests", (f"Content-Length: {len(body)}",), body)

    def look_at_all(self):
        """Takes steps for each CRL, for each serial number's status, listing and OCSP response, and for an audit."""
        now = min(max(self.register.last, self.plan.start) + self.draws.below(self.plan.pace), moments.CLOCK_END - 1)
        self.too_many(now)
        for number in range(len(self.register.crls) + 2):
            self.take("http", now, "GET", f"/crl/{number}", (), b"")
        serials = [*self.register.certificates, *(self.draws.new_serial() for _ in range(4))]
        for at in range(0, len(serials), 64):
            self.take("http", now, *self.draws.post("/ocsp", ocsp.plain_request(serials[at : at + 64])))
        for serial in serials:
            self.line(now, f"status {serial:x}")
            self.line(now, f"listing {serial:x}")
        self.line(now, "overdue")
        self.take("audit")
