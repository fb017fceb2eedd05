"""Draws moments, lines, imports and requests that fit the rows of the register, so that each rule is tested."""

import base64
import hashlib
import json
import random
from urllib.parse import quote

from . import ocsp
from .der import KEY, NAME, value
from .moments import CLOCK_END, DAY, LAST_SECOND, YEAR_2050, text_of
from .register import GROUNDS

SERIAL_END = 2**159
# The least and the greatest serial number, and serial numbers at which the length in bytes changes.
BOUNDS = (1, 0x7F, 0x80, 0xFF, 0x100, 0x7FFF, 0x8000, 2**127, 2**158, SERIAL_END - 1)
LETTERS = "abcdefghijklmnopqrstuvwxyz"
WORDS = ("subscriber", "order", "register", "request", "decline", "revoke", "crl")
BAD_MOMENTS = (
    "2026-13-01T00:00:00Z", "2026-02-30T00:00:00Z", "2026-01-01T00:00:60Z", "2026-01-01T24:00:00Z", "2026-01-01t00:00:00Z", "2026-01-01T00:00:00",
    "1969-12-31T23:59:59Z", "2100-02-29T00:00:00Z", "2026-1-1T00:00:00Z", "2026-01-01 00:00:00Z", "2026-00-01T00:00:00Z", "+026-01-01T00:00:00Z", "0",
)
BAD_NUMBERS = ("-1", "+1", "0000000000000000001", "1a", "", "1.0", "0x1", "99999999999999999999")
BAD_SERIALS = ("0", "00", "g5", "", "0x05", "8" + "0" * 39, "f" * 40, "0" * 40 + "1", "-5", "05:06")
BAD_LINES = (
    "", " ", "counts now", "CRL", "Crl", "next-crl at-once", "nextcrl", "import", "crl ", " crl", "order 1", "order 1 2 3", "register 1 05",
    "decline", "revoke ",
)
OTHER_METHODS = {"/ocsp": "GET", "/ocsp/MAA=": "POST", "/crl": "POST", "/crl/1": "HEAD", "/status/05": "POST", "/counts": "PUT", "/requests": "GET"}
NOWHERE = ("/", "/crl/", "/crl/1/2", "/status", "/status/", "/Counts", "/counts/", "/ocsp/", "//counts", "/requests/1", "/index.html")


class Draws:
    def __init__(self, seed, plan):
        self.random, self.plan, self.at_bound = random.Random(seed), plan, False

    def below(self, end):
        return self.random.randrange(end) if end > 0 else 0

    def one_in(self, cases):
        return self.below(cases) == 0

    def any(self, rows):
        return self.random.choice(rows)

    # Moments

    def moment(self, register):
        """A moment: mostly soon; sometimes the next bound or a second after it; sometimes one that is refused."""
        last, self.at_bound = max(register.last, self.plan.start), False
        if self.one_in(self.plan.leaps):
            return min(last + self.below(self.plan.leap), LAST_SECOND)
        if self.one_in(self.plan.bounds):
            self.at_bound = True
            return min(next_bound(register, last) + self.below(2), LAST_SECOND)
        case = self.below(46)
        if case < 20:
            it = last
        elif case < 28:
            it = last + 1
        elif case < 44:
            it = last + self.below(self.plan.pace)
        elif case == 44:
            it = max(last - 1 - self.below(9), 0)
        else:
            it = CLOCK_END + self.below(3)
        return min(it, LAST_SECOND)

    # Values as text

    def id(self, rows):
        """An id: mostly one of the last of so many rows; sometimes any one, or one that no row has."""
        case = self.below(12)
        if case == 0:
            return self.below(rows + 3)
        return 1 + self.below(rows) if case < 3 else max(rows - self.below(4), 0)

    def number(self, number):
        return str(number).zfill(self.any((1, 1, 1, 1, 6, 18)))

    def new_serial(self):
        if self.one_in(25):
            return self.any(BOUNDS)
        return max(self.random.getrandbits(8 * (1 + self.below(20))) % SERIAL_END, 1)

    def known_serial(self, register):
        return self.any(list(register.certificates)) if register.certificates and not self.one_in(8) else self.new_serial()

    def serial(self, number):
        """A serial number in one of its spellings: with capital or small letters, with or without leading zeros."""
        text = f"{number:x}"
        text = text.zfill(self.any((1, len(text) + len(text) % 2, 40, len(text) + 1)))[-40:]
        return text.upper() if self.one_in(3) else text

    # Commands, as the words after the moment

    def command(self, register, now):
        word = self.random.choices(WORDS, self.plan.weights)[0]
        return getattr(self, word)(register, now)

    def subscriber(self, register, now=None):
        if self.one_in(8) and register.subscribers:
            return f"subscriber {self.any(list(register.subscribers)).decode()}"
        name = "".join(self.random.choices(LETTERS + LETTERS.upper() + "0123456789.-_", k=self.any((1, 12, 12, 12, 12, 63, 64))))
        if self.one_in(12):
            name = self.any("!/\\,:\"'*\x01\x7f\u00e9@") + name[1:]
        return f"subscriber {name}"

    def order(self, register, now):
        days = self.any((0, 399, 398, 1, *(1 + self.below(60) for _ in range(8))))
        if len(register.policy.schedule) > 1 and self.one_in(3):
            days = self.any(register.policy.schedule)[1]
        return f"order {self.number(self.id(len(register.subscribers)))} {self.number(days)}"

    def row(self, register, now):
        """A certificate of a recent order; sometimes one that is already registered, or one with a mistake."""
        if self.one_in(16) and register.certificates:
            it = self.any(list(register.certificates.values()))
            return it.order, it.serial, it.not_before, it.not_after
        order = self.id(len(register.orders))
        serial = self.known_serial(register) if self.one_in(10) else self.new_serial()
        since = self.not_before(register, now)
        left = [i + 1 for i in range(len(register.orders)) if i + 1 not in register.filled]
        if self.at_step and left:
            order = max(left, key=lambda it: register.orders[it - 1].days)
        longest = DAY * self.longest(register, order, since)
        # Where a step of the schedule begins, the validity is mostly as long as the step allows, or a second longer.
        case = self.any((1, 2, 5)) if self.at_step else self.below(12)
        ends = {0: since - 1, 1: since + longest, 2: since + longest - 1, 3: now - 1, 4: now}
        until = ends[case] if case in ends else since + self.below(longest)
        return order, serial, since, min(max(until, 0), LAST_SECOND)

    def longest(self, register, order, since):
        """The days of the order, or of the schedule at a moment or just before it."""
        steps = [days for start, days in register.policy.schedule if start <= since - self.below(2)]
        if 1 <= order <= len(register.orders):
            days = register.orders[order - 1].days
            return min(days, steps[-1]) if steps and self.one_in(2) else days
        return 398

    def not_before(self, register, now):
        """A notBefore: now, soon, recently, or where a step of the schedule begins."""
        case = self.below(9)
        since, self.at_step = now, False
        if case == 0:
            since = now + self.below(40 * DAY)
        elif case == 1:
            since = now - self.below(40 * DAY)
        elif case < 4:
            near = [start for start, _ in register.policy.schedule[1:] if abs(start - now) < 400 * DAY]
            since = self.any(near or [0]) - self.below(2)
            self.at_step = bool(near)
        return min(max(since, 0), LAST_SECOND)

    def register(self, register, now):
        order, serial, since, until = self.row(register, now)
        return f"register {self.number(order)} {self.serial(serial)} {text_of(since)} {text_of(until)}"

    def wanted(self, register):
        """The serial number of a recent certificate, sometimes of any or of none; and a ground, sometimes one that is refused."""
        rows = list(register.certificates)
        place = self.id(len(rows))
        serial = rows[place - 1] if 1 <= place <= len(rows) else self.new_serial()
        ground = self.any(("hold", "Asked", "x" * 64)) if self.one_in(8) else self.any(list(GROUNDS)).decode()
        return serial, ground

    def request(self, register, now):
        serial, ground = self.wanted(register)
        return f"request {self.serial(serial)} {ground}"

    def decline(self, register, now):
        return f"decline {self.number(self.decided(register))}"

    def revoke(self, register, now):
        return f"revoke {self.number(self.decided(register))}"

    def decided(self, register):
        """The number of a request to decide, sometimes of one that is already declined."""
        declined = [i + 1 for i, it in enumerate(register.requests) if it.declined] if self.one_in(8) else []
        return self.any(declined) if declined else self.id(len(register.requests))

    def crl(self, register, now):
        return "crl"

    def query(self, register):
        case = self.below(7)
        if case < 4:
            return f"{('status', 'listing')[case % 2]} {self.serial(self.known_serial(register))}"
        return ("overdue", "next-crl", "counts")[case - 4]

    def words(self, register, now):
        """A command, a query or an OCSP request, or sometimes words that can't be read."""
        if self.at_bound and not self.one_in(3):
            return self.bound_words(register, now)
        if self.one_in(self.plan.bad):
            return self.bad_words(register, now)
        if self.one_in(self.plan.queries):
            return self.query(register)
        if self.one_in(self.plan.ocsp):
            request = self.ocsp_request(register)[:4000].hex()
            return f"ocsp {request.upper() if self.one_in(4) else request}"
        return self.command(register, now)

    def bound_words(self, register, now):
        """Words about a certificate or a deadline that ends at this moment, or ended a second ago."""
        ends = [it.serial for it in register.certificates.values() if now - it.not_after in (0, 1) and it.serial not in register.revocations]
        serials = [f"{it:x}" for it in ends]
        late = [i + 1 for i, it in enumerate(register.requests) if now - it.due in (0, 1) or it.serial in ends]
        words = ["crl", self.any(("next-crl", "overdue"))]
        words += [f"request {self.any(serials)} asked", f"status {self.any(serials)}"] if serials else []
        words += [f"revoke {self.any(late)}", f"revoke {late[-1]}", f"decline {self.any(late)}"] if late else []
        return self.any(words)

    def bad_words(self, register, now):
        """Words that mostly can't be read, each because of one mistake."""
        case = self.below(9)
        words = self.command(register, now).split(" ")
        if case == 0:
            return self.any(BAD_LINES)
        if case == 1:
            return f"order {self.any(BAD_NUMBERS)} {self.any(BAD_NUMBERS)}"
        if case == 2:
            return f"{self.any(('status', 'listing', 'request'))} {self.any(BAD_SERIALS)}" + " asked" * self.one_in(2)
        if case == 3:
            return self.any(("subscriber ", "request 05 ")) + "x" * self.any((0, 65, 200))
        if case == 4:
            return self.any(("ocsp", "ocsp ", "ocsp 0", "ocsp 3g", "ocsp 30 00", "ocsp 30030a01", "OCSP 3000"))
        if case == 5:
            return f"register 1 {self.serial(self.new_serial())} {self.any(BAD_MOMENTS)} {text_of(now)}"
        if case == 6:
            return " ".join(words) + self.any((" ", "\t", "\r", " x", "\0"))
        if case == 7:
            return "  ".join(words) if len(words) > 1 else " crl"
        return " ".join(words[:-1])

    def line(self, register):
        """A script's line."""
        now = self.moment(register)
        moment = text_of(now)
        if self.one_in(self.plan.bad * 4):
            moment = self.any((*BAD_MOMENTS, "", moment.lower()))
        text = f"{moment} {self.words(register, now)}"
        if self.one_in(self.plan.bad * 8):
            text = self.any(("", " ", moment, "crl", text[1:], "\ufeff" + text))
        return text.encode() + b"\r" * self.one_in(30)

    # Imports

    def imported(self, register, now):
        rows = [["order", "serial", "notBefore", "notAfter"]] * (not self.one_in(4))
        for _ in range(self.below(9)):
            order, serial, since, until = self.row(register, now)
            row = [self.number(order), self.serial(serial), text_of(since), text_of(until)]
            if self.one_in(10):
                bad = (row[:3], [*row, ""], ["x", *row[1:]], [row[0], "0", *row[2:]], [*row[:3], self.any(BAD_MOMENTS)], [" " + row[0], *row[1:]])
                row = self.any(bad)
            rows.append([f'"{it}"' if self.one_in(12) else it for it in row])
            if self.one_in(20):
                rows.append([""])
        end = self.any(("\n", "\n", "\r\n"))
        text = end.join(",".join(row) for row in rows)
        return (text + end * (not self.one_in(5))).encode() if rows else b""

    # OCSP

    def cert_id(self, register):
        serial = self.known_serial(register)
        hashed, named = self.any((("sha1", ocsp.SHA1_NAMED), ("sha256", ocsp.SHA256_NAMED)))
        algorithm = self.any(ocsp.algorithms(named))
        issuer = [NAME, KEY]
        case = self.below(24)
        if case == 0:
            issuer[self.below(2)] = b"abd"
        elif case == 1:
            hashed = "sha512"
        elif case == 2:
            algorithm = value(0x30, value(0x06, self.any((b"\x2b\x0e\x03\x02\x1b", named + b"\x01", b"\x2a"))))
        elif case == 3:
            algorithm = value(0x30, value(0x06, named), self.any((value(0x04), value(0x05, b"\0"), value(0x30, value(0x05)))))
        name, key = (hashlib.new(hashed, it).digest() for it in issuer)
        return value(0x30, algorithm, value(0x04, name), value(0x04, key), value(0x02, self.octets(serial)))

    def octets(self, serial):
        """The octets of a serial number; sometimes of one that no certificate can have, or octets that are no INTEGER in DER."""
        case = self.below(30)
        if case == 0:
            return self.any((b"\0", b"\xff", b"\x80", b"\xff\x7f", b"\x80" + bytes(19), bytes(1) + b"\x80" + bytes(19), b"\x01" * 21, b"\x05" * 40))
        if case == 1:
            return self.any((b"", b"\0\x05", b"\xff\xff", b"\0\0"))
        return serial.to_bytes(serial.bit_length() // 8 + 1, "big")

    def extension(self):
        case = self.below(12)
        critical = self.any((b"", b"", b"", value(0x01, b"\0"), value(0x01, b"\xff")))
        if case < 9:
            return ocsp.extension(ocsp.NONCE, self.random.randbytes(self.any((0, 1, 16, 32, 130, 131, 132, 140, self.below(141)))), critical)
        if case < 11:
            known = bytes.fromhex("2B0601050507300104")
            return ocsp.extension(known, b"\x30\0", critical if self.one_in(4) else b"")
        odd = [ocsp.extension(b"\x2a", b"", value(0x01, it)) for it in (b"", b"\x01", b"\xff\xff")]
        return self.any((ocsp.extension(b"", b""), value(0x30), *odd))

    def extensions(self, tag):
        return value(tag, value(0x30, *(self.extension() for _ in range(self.any((0, 1, 1, 1, 1, 2))))))

    def ocsp_request(self, register):
        singles = []
        for _ in range(self.any((1, 1, 1, 2, 3, 3, 12)) if not self.one_in(40) else 0):
            more = self.extensions(0xA0) if self.one_in(12) else b""
            singles.append(value(0x30, self.cert_id(register), more))
        version = value(0xA0, value(0x02, self.any((b"\0", b"\0", b"\x01")))) if self.one_in(10) else b""
        requestor = value(0xA1, self.random.randbytes(self.below(9))) if self.one_in(12) else b""
        extensions = self.extensions(0xA2) if self.one_in(2) else b""
        signature = value(0xA0, self.random.randbytes(self.below(9))) if self.one_in(12) else b""
        made = value(0x30, value(0x30, version, requestor, value(0x30, *singles), extensions), signature)
        return self.broken(made) if self.one_in(8) else made

    def broken(self, made):
        case = self.below(5)
        at = self.below(len(made))
        if case == 0:
            return made[: max(at, 1)]
        if case == 1:
            return made + self.any((b"\0", b"\x05\0", made))
        if case == 2:
            return self.random.randbytes(1 + self.below(40))
        return made[:at] + bytes([made[at] ^ (1 << self.below(8))]) + made[at + 1 :]

    # HTTP: method, target, fields and body

    def http(self, register, now):
        case = self.below(20)
        if case < 5:
            return self.post("/ocsp", self.ocsp_request(register))
        if case < 8:
            # A head is at most 8,192 bytes.
            return "GET", f"/ocsp/{self.in_path(self.ocsp_request(register)[:2500])}", (), b""
        if case < 11:
            return "GET", f"/crl{self.any(('', '/' + self.number(self.id(len(register.crls)))))}" + "?x=/y" * self.one_in(5), (), b""
        if case < 13:
            return "GET", f"/status/{self.serial(self.known_serial(register))}", (), b""
        if case == 13:
            return "GET", "/counts", ("Host: ca.example", "Accept: */*"), b""
        if case < 17:
            return self.post("/requests", self.json(register))
        return self.refused_http(register)

    def post(self, target, body, *fields):
        return "POST", target, (*fields, f"Content-Length: {len(body)}"), body

    def in_path(self, request):
        text = base64.b64encode(request).decode()
        if self.one_in(10):
            text = self.any((text.rstrip("="), text[:-1], text + "=", "!" + text, text.replace("M", "-", 1), "%", "%4", "%zz"))
        return self.any((quote(text, safe=""), text))

    def json(self, register):
        serial, ground = self.wanted(register)
        told = {"serial": self.serial(serial), "ground": ground}
        case = self.below(24)
        if case == 0:
            told["more"] = [1, {"a": None}]
        elif case == 1:
            told = {"ground": ground, "serial": told["serial"]}
        elif case == 2:
            del told[self.any(("serial", "ground"))]
        elif case == 3:
            told["serial"] = self.any((5, None, ["05"], *BAD_SERIALS))
        elif case == 4:
            told["ground"] = self.any((5, None, "", "x" * 65))
        elif case == 5:
            return self.any((b"", b"{", b"[]", b"\"05\"", b"null", b"{\"serial\":\"05\",\"ground\":\"asked\"}x", b"{'serial':'05'}", b"\xff"))
        return json.dumps(told, indent=self.any((None, None, 1))).encode()

    def refused_http(self, register):
        case = self.below(9)
        if case == 0:
            return "GET", self.any(NOWHERE), (), b""
        if case == 1:
            target = self.any(list(OTHER_METHODS))
            method = OTHER_METHODS[target]
            return (method, target, ("Content-Length: 0",) if method == "POST" else (), b"")
        if case == 2:
            return "GET", self.any(("counts", "*", "http://ca.example/counts")), (), b""
        if case == 3:
            return "GET", f"/crl/{self.any(('x', '0', '1a', '1' * 19, '%31'))}", (), b""
        if case == 4:
            return "GET", f"/status/{self.any(('g', '0', '1' * 41, '0x05', '%30'))}", (), b""
        if case == 5:
            return "POST", "/ocsp", (self.any(("Transfer-Encoding: chunked", "Host: ca.example")),), b""
        if case == 6:
            lengths = self.any((("5", "5"), ("0" * 19,), ("-5",), ("5x",)))
            return "POST", "/ocsp", tuple(f"Content-Length: {it}" for it in lengths), b""
        if case == 7:
            return "POST", "/ocsp", (f"Content-Length: {self.any((65_537, 10**17))}",), b""
        return "GET", "/counts", self.any((tuple(f"X-{i}: 1" for i in range(65)), ("No-Colon",), ("A B: 1",))), b""


def next_bound(register, last):
    """The first bound from `last` on: a certificate's notAfter, a request's deadline or the latest CRL's nextUpdate."""
    bounds = [it.not_after for it in register.certificates.values()] + [it.due for it in register.requests]
    bounds += [register.crls[-1] + register.policy.crl_life] if register.crls else []
    # Less than a day before them: the moment at which times in CRLs get another form, and the last moment before the clock's end.
    bounds += [it for it in (YEAR_2050, CLOCK_END - 1) if it - last < DAY]
    return min((it for it in bounds if it >= last), default=last)
