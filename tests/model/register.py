"""The register's records as lists, and the office's rules. Nothing is kept that follows from the records: counts, listings and the contents of
CRLs are computed from the rows each time. A moment is a number of seconds since 1970; ids and CRL numbers are places in a list, counted from 1."""

import re
from dataclasses import dataclass, field

from .moments import CLOCK_END, DAY, text_of

# For each ground the seconds within which a request must be decided, and the reasonCode.
GROUNDS = {
    b"asked": (DAY, 0),
    b"unauthorized": (DAY, 9),
    b"key-compromise": (DAY, 1),
    b"control-lost": (DAY, 4),
    b"affiliation": (DAY, 3),
    b"superseded": (DAY, 4),
    b"cessation": (DAY, 5),
    b"misuse": (5 * DAY, 9),
    b"name-not-permitted": (5 * DAY, 5),
    b"nonconforming": (5 * DAY, 4),
    b"inaccurate": (5 * DAY, 9),
}
MOST_AHEAD = 30 * DAY
NAME = re.compile(rb"[A-Za-z0-9._-]{1,64}")


class Refused(Exception):
    """A refusal, with its line."""


def refuse(case, line):
    if case:
        raise Refused(line)


@dataclass
class Policy:
    """The longest validities, in days by the moments from which they apply; the lives of CRLs and OCSP responses; and the row limit."""

    schedule: tuple = ((0, 398),)
    crl_life: int = 691_200
    ocsp_life: int = 345_600
    cap: int = 1_000_000


@dataclass
class Order:
    subscriber: int
    days: int


@dataclass(frozen=True)
class Certificate:
    serial: int
    order: int
    not_before: int
    not_after: int


@dataclass
class Request:
    serial: int
    ground: bytes
    received: int
    declined: bool = False

    @property
    def due(self):
        return self.received + GROUNDS[self.ground][0]


@dataclass
class Revocation:
    serial: int
    at: int
    reason: int
    first: int
    # The id of the request that led to it.
    request: int


@dataclass
class Register:
    policy: Policy = field(default_factory=Policy)
    last: int = 0
    # Subscribers by name, and below certificates and revocations by serial number.
    subscribers: dict = field(default_factory=dict)
    orders: list = field(default_factory=list)
    certificates: dict = field(default_factory=dict)
    filled: set = field(default_factory=set)
    requests: list = field(default_factory=list)
    revocations: dict = field(default_factory=dict)
    # thisUpdate of each CRL.
    crls: list = field(default_factory=list)
    # The issuer's own key identifiers in the order in which they were set, each with the number of the first CRL that has it.
    identifiers: list = field(default_factory=list)
    # When requests came over HTTP since the register was opened, and the moment that the operator accepted by `accept-clock`.
    recent: list = field(default_factory=list)
    accepted: int | None = None

    def closed(self):
        """Closes an open desk, which forgets `recent` and `accepted`."""
        self.recent, self.accepted = [], None

    def is_ahead(self, now):
        """Whether the clock is over 30 days after the last accepted moment and the one that the operator accepted. A desk then refuses commands."""
        return self.last != 0 and now - self.last > MOST_AHEAD and (self.accepted is None or now - self.accepted > MOST_AHEAD)

    def identify(self, octets):
        self.identifiers.append((len(self.crls) + 1, octets))

    def identifier(self, number):
        """The issuer's own key identifier that a CRL has; None if it has none."""
        return next((octets for first, octets in reversed(self.identifiers) if first <= number), None)

    def clock(self, now):
        refuse(now >= CLOCK_END, "E02 clock-end")
        refuse(now < self.last, f"E01 clock-back {text_of(self.last)}")

    def room(self, rows):
        refuse(len(rows) >= self.policy.cap, "E03 full")

    # Commands: `run` calls each after it has checked the clock, and each returns its reply.

    def subscriber(self, now, name):
        refuse(not NAME.fullmatch(name), "E04 bad-name")
        refuse(name in self.subscribers, f"E05 name-taken {self.subscribers.get(name)}")
        self.room(self.subscribers)
        self.subscribers[name] = len(self.subscribers) + 1
        return f"subscriber {len(self.subscribers)}"

    def order(self, now, subscriber, days):
        refuse(not 1 <= subscriber <= len(self.subscribers), "E06 no-subscriber")
        most = max(it for _, it in self.policy.schedule)
        refuse(not 1 <= days <= most, f"E07 bad-days {most}")
        self.room(self.orders)
        self.orders.append(Order(subscriber, days))
        return f"order {len(self.orders)}"

    def register(self, now, order, serial, not_before, not_after):
        wanted = Certificate(serial, order, not_before, not_after)
        if self.certificates.get(serial) == wanted:
            return "same"
        refuse(not 1 <= order <= len(self.orders), "E08 no-order")
        refuse(order in self.filled, "E09 order-filled")
        refuse(serial in self.certificates, "E10 serial-taken")
        refuse(not_after < not_before, "E11 bad-validity")
        longest = [days for since, days in self.policy.schedule if since <= not_before][-1]
        refuse(not_after - not_before + 1 > DAY * min(self.orders[order - 1].days, longest), "E12 too-long")
        refuse(not_after < now, "E13 ended")
        self.room(self.certificates)
        self.certificates[serial] = wanted
        self.filled.add(order)
        return "registered"

    def undecided(self, now, serial):
        if serial in self.revocations:
            raise Refused(f"E19 revoked-before {text_of(self.revocations[serial].at)}")
        refuse(now > self.certificates[serial].not_after, "E20 expired")

    def request(self, now, serial, ground):
        refuse(serial not in self.certificates, "E14 unknown-serial")
        refuse(ground == b"hold", "E15 no-hold")
        refuse(ground not in GROUNDS, "E16 bad-ground")
        self.undecided(now, serial)
        self.room(self.requests)
        self.requests.append(Request(serial, ground, now))
        return f"request {len(self.requests)} due {text_of(self.requests[-1].due)}"

    def limit_over_http(self, now, serial):
        """The status by which an open desk refuses a request over HTTP before the register decides, or None."""
        left = max(0, self.policy.cap - len(self.requests))
        if len(self.recent) >= 100 and self.recent[-100] <= now < self.recent[-100] + 60:
            return 429
        self.recent.append(now)
        if self.is_ahead(now) or left < self.policy.cap // 10:
            return 503
        waiting = [it for it in self.requests if it.serial == serial and not it.declined]
        return 429 if len(waiting) >= 3 and self.status_of(now, serial) == "good" else None

    def open_request(self, now, number):
        refuse(not 1 <= number <= len(self.requests), "E17 no-request")
        request = self.requests[number - 1]
        refuse(request.declined, "E18 declined-before")
        self.undecided(now, request.serial)
        return request

    def decline(self, now, number):
        self.open_request(now, number).declined = True
        return "declined"

    def revoke(self, now, number):
        request = self.open_request(now, number)
        self.revocations[request.serial] = Revocation(request.serial, now, GROUNDS[request.ground][1], len(self.crls) + 1, number)
        return "revoked late" if now > request.due else "revoked"

    def crl(self, now):
        self.room(self.crls)
        self.crls.append(now)
        return f"crl {len(self.crls)} entries {len(self.entries(len(self.crls)))}"

    # CRLs

    def is_on(self, row, number):
        """Whether the CRL of this number lists a revocation: from its first CRL up to the first one that was issued after the certificate's end."""
        if row.first > number:
            return False
        return max(self.crls[row.first - 1 : number - 1], default=0) <= self.certificates[row.serial].not_after

    def entries(self, number):
        return [row for row in self.revocations.values() if self.is_on(row, number)]

    def last_listing(self, row):
        """The number of the last CRL that lists a revocation: the first one after the certificate's end. None if there is none yet."""
        end = self.certificates[row.serial].not_after
        return next((i + 1 for i in range(row.first - 1, len(self.crls)) if self.crls[i] > end), None)

    # Queries: `ask` calls each after it has checked the clock.

    def status_of(self, now, serial):
        if serial not in self.certificates:
            return "unknown"
        if serial in self.revocations:
            return "revoked"
        return "expired" if now > self.certificates[serial].not_after else "good"

    def status(self, now, serial):
        told = self.status_of(now, serial)
        if told != "revoked":
            return told
        row = self.revocations[serial]
        return f"revoked {text_of(row.at)} reason {row.reason}"

    def counted(self, now):
        told = [self.status_of(now, it) for it in self.certificates]
        return [told.count(it) for it in ("good", "revoked", "expired")]

    def counts(self, now):
        return "good {} revoked {} expired {}".format(*self.counted(now))

    def listing(self, now, serial):
        refuse(serial not in self.certificates, "E14 unknown-serial")
        if serial not in self.revocations:
            return "listing none"
        row = self.revocations[serial]
        last = self.last_listing(row)
        return f"listing first {row.first}" + (f" last {last}" if last else "")

    def overdue(self, now):
        late = [i + 1 for i, it in enumerate(self.requests) if not it.declined and now > it.due and self.status_of(now, it.serial) == "good"]
        return f"overdue {len(late)} first {late[0]}" if late else "overdue 0"

    def next_crl(self, now):
        if not self.crls:
            return "next-crl at-once"
        dues = [self.crls[-1] + 7 * DAY, self.crls[-1] + self.policy.crl_life]
        dues += [it.at + DAY for it in self.revocations.values() if it.first > len(self.crls)]
        return f"next-crl {text_of(min(dues))}"

    # Commands and queries

    def run(self, now, command, *given):
        """A command's reply at a moment; an accepted one sets the last accepted moment."""
        self.clock(now)
        told = getattr(self, command)(now, *given)
        self.last = now
        return told

    def ask(self, now, query, *given):
        self.clock(now)
        return getattr(self, query)(now, *given)

    def most_rows(self):
        return max(map(len, (self.subscribers, self.orders, self.certificates, self.requests, self.revocations, self.crls)))
