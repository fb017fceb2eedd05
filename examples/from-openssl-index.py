#!/usr/bin/env python3
"""Reads the index.txt of `openssl ca`, and writes the script that enters its certificates and revocations into a new register.

    examples/from-openssl-index.py demoCA/index.txt --certs demoCA/newcerts > moved.txt
    desk init ca.db --name HEX --key HEX
    desk script ca.db --signer SOCKET --algorithm NAME < moved.txt

With --crlnumber the script issues CRLs. Give it a signer: otherwise they have a placeholder digest, which no client accepts (docs/OPERATIONS.md).

The script is for a new register: it counts ids from 1, and has the events in order, each with its own moment. So the register shows a
revocation of last year with last year's moment. Standard error has a line for each thing that the script can't enter.

A line of an index has no notBefore. With --certs the script reads it from the certificates (DIR/SERIAL.pem, as `openssl ca` leaves them; a folder
of 10,000 takes about a minute). With --days N it is N days before notAfter, as `openssl ca -days N` makes it. If that is in the future, the
certificate was made for more than N days, and its notBefore is unknown: the script leaves it out, and standard error says so.

If a revocation of the index would be lost, such as that of a certificate of 731 days, nothing is written, unless --leave-out FILE lists its serial
number: one in hexadecimal per line, with a comment after it if you like. Standard error says how many revocations were read, entered and left out.
With --old-crl CRL, the latest CRL that openssl issued (PEM or DER), the script names each of its entries that the register's first CRL would lack;
these have to be listed too.

A register has no hold. --hold says whether a certificate on hold becomes good or revoked. Without --hold nothing is written if the index has one.

Exit status: 0 if the script was written, 1 if nothing was written, 2 if the command line is wrong.
"""
import argparse
import datetime
import hashlib
import os
import re
import subprocess
import sys
from collections import namedtuple

# The reasons of openssl's index (apps/ca.c), each with the ground that has this reason (docs/RULES.md). None: no ground has it.
GROUNDS = {
    "": "asked",
    "unspecified": "asked",
    "keycompromise": "key-compromise",
    "keytime": "key-compromise",
    "cacompromise": None,
    "cakeytime": None,
    "affiliationchanged": "affiliation",
    "superseded": "superseded",
    "cessationofoperation": "cessation",
}
HOLDS = {"certificatehold", "holdinstruction", "removefromcrl"}

DAY = 86400
LONGEST_DAYS = 398
GREATEST_SERIAL = 2**159 - 1
LAST_MOMENT = 253401436799  # 9999-12-21T23:59:59Z
MOST_ROWS = 1_000_000

Line = namedtuple("Line", "number state not_after revoked reason serial subject")
Cert = namedtuple("Cert", "line not_before registered")
# An entry of a CRL, with its moment as openssl prints it.
Entry = namedtuple("Entry", "serial revoked")


class Unreadable(Exception):
    """A file, or a line of one, can't be read; the text names it."""


def seconds(text):
    """The moment of an ASN.1 time, YYMMDDHHMMSSZ or YYYYMMDDHHMMSSZ (RFC 5280 4.1.2.5), in seconds since 1970."""
    if not re.fullmatch(r"(\d{2})?\d{12}Z", text):
        raise Unreadable(f"'{text}' is no time")
    if len(text) == 13:
        text = ("19" if text[0] >= "5" else "20") + text
    try:
        at = datetime.datetime.strptime(text, "%Y%m%d%H%M%SZ").replace(tzinfo=datetime.timezone.utc)
    except ValueError as fault:
        raise Unreadable(f"'{text}' is no time") from fault
    return int(at.timestamp())


def moment(at):
    """The text of a moment, as a script has it."""
    return (datetime.datetime(1970, 1, 1) + datetime.timedelta(seconds=at)).strftime("%Y-%m-%dT%H:%M:%SZ")


def read_line(number, text):
    """One line of an index: state, notAfter, moment and reason of revocation, serial number, file, subject, separated by tabs."""
    fields = text.rstrip("\r\n").split("\t")
    if len(fields) != 6 or fields[0] not in ("V", "R", "E") or not re.fullmatch(r"[0-9A-Fa-f]+", fields[3]):
        raise Unreadable("no line of an index")
    revoked, _, reason = fields[2].partition(",")
    if (fields[0] == "R") != bool(revoked):
        raise Unreadable("a revoked line has a moment of revocation, and no other has")
    return Line(number, fields[0], seconds(fields[1]), seconds(revoked) if revoked else None, reason, fields[3], fields[5])


def read_index(path):
    lines = []
    with open(path, encoding="utf-8", errors="replace") as file:
        for number, text in enumerate(file, 1):
            if text.startswith("#"):
                continue
            try:
                lines.append(read_line(number, text))
            except Unreadable as fault:
                raise Unreadable(f"{path}:{number}: {fault}") from fault
    return lines


def started(folder, serial):
    """notBefore of the certificate that `openssl ca` wrote into the folder."""
    path = os.path.join(folder, f"{serial}.pem")
    got = subprocess.run(["openssl", "x509", "-in", path, "-noout", "-startdate"], capture_output=True, text=True, check=False)
    if got.returncode != 0 or not got.stdout.startswith("notBefore="):
        raise Unreadable(f"openssl can't read {path}")
    at = datetime.datetime.strptime(got.stdout.strip(), "notBefore=%b %d %H:%M:%S %Y GMT")
    return int(at.replace(tzinfo=datetime.timezone.utc).timestamp())


def common_name(subject):
    """The octets of the first common name of a subject, or of the subject if it has none. openssl writes non-ASCII octets as \\xHH."""
    found = re.search(r"/CN=((?:[^/\\]|\\.)*)", subject)
    text = (found[1] if found else subject).encode()
    return re.sub(rb"\\x([0-9A-F]{2})", lambda it: bytes.fromhex(it[1].decode()), text)


def name_of(subject, taken):
    """A subscriber's name for a subject: that of its common name by the rule of register-pem.sh, with a number if another subject has that name."""
    common = common_name(subject)
    if re.fullmatch(rb"[A-Za-z0-9._-]{1,64}", common) and not re.search(rb"\.[0-9a-f]{16}$", common):
        base = common.decode()
    else:
        letters = re.sub(rb"[^A-Za-z0-9._-]+", b"-", common).strip(b"-")[:47].decode()
        base = f"{letters}.{hashlib.sha256(common).hexdigest()[:16]}"
    name = base
    while name in taken:
        taken[base] += 1
        name = f"{base[:63 - len(str(taken[base]))]}.{taken[base]}"
    taken[name] = 1
    return name


def is_hold(line):
    return line.reason.partition(",")[0].lower() in HOLDS


class Mover:
    """Decides what the script enters, and collects the messages about it."""

    def __init__(self, words):
        self.words = words
        self.messages = []

    def report(self, line, text):
        self.messages.append((line.number, f"line {line.number}, serial number {line.serial}: {text}"))

    def leave_out(self, line, why):
        """Reports why a certificate is not registered, and that its revocation would be lost with it."""
        self.report(line, f"left out: {why}" + ("" if line.revoked is None else "; its revocation would be lost"))

    def cert_of(self, line, seen):
        """The certificate of a line, or None and a message with the reason."""
        serial = int(line.serial, 16)
        if not 1 <= serial <= GREATEST_SERIAL:
            return self.leave_out(line, "serial numbers are 1 to 2^159 - 1")
        if serial in seen:
            return self.leave_out(line, "another line has the serial number")
        not_before = started(self.words.certs, line.serial) if self.words.certs else line.not_after - self.words.days * DAY
        days = (line.not_after - not_before) // DAY + 1
        if not self.words.certs and not_before > self.words.now:
            return self.leave_out(line, self.begins_unknown(not_before))
        if not_before > line.not_after:
            return self.leave_out(line, "it ends before it begins")
        if days > LONGEST_DAYS:
            return self.leave_out(line, f"valid for {days} days, both ends counted, and no register takes more than {LONGEST_DAYS}")
        if not_before < 0 or line.not_after > LAST_MOMENT:
            return self.leave_out(line, "it begins before 1970, or ends after 9999-12-21")
        seen.add(serial)
        # Registered at its notBefore, or earlier if it was revoked before or if notBefore is in the future.
        at = min(not_before, self.words.now) if line.revoked is None else min(not_before, self.words.now, max(line.revoked, 0))
        return Cert(line, not_before, at)

    def begins_unknown(self, not_before):
        """The message about a certificate that was made for more days than --days says."""
        begins = f"{self.words.days} days before its end are {moment(not_before)}, which is still to come"
        return f"its notBefore is not known, {begins}: say --certs, or the days that it was made for"

    def revocation_of(self, cert):
        """The moment and the ground of a certificate's revocation, or None."""
        line = cert.line
        if line.state != "R":
            return None
        word = line.reason.partition(",")[0].lower()
        at, ground = max(line.revoked, 0), GROUNDS.get(word)
        if min(at, self.words.now) > line.not_after:
            return self.report(line, "not revoked: it had ended before, and what has ended is revoked no more")
        if is_hold(line):
            if self.words.hold == "good":
                return self.report(line, "it was on hold, and is good in the register")
            self.report(line, "it was on hold, and is revoked for good in the register, with no reason")
            ground = "asked"
        elif ground is None:
            self.report(line, f"revoked with reason 1, keyCompromise: no ground has the reason '{line.reason}'")
            ground = "key-compromise"
        elif word == "keytime":
            self.report(line, "revoked without the time at which its key was compromised: a register has no invalidity dates")
        if at > self.words.now:
            self.report(line, f"revoked at {moment(self.words.now)}: the index has {moment(at)}, which is still to come")
            at = self.words.now
        return at, ground

    def events(self, lines):
        """The events in order, each as moment, kind, line number, certificate and ground."""
        seen, events = set(), []
        for line in lines:
            cert = self.cert_of(line, seen)
            if cert is None:
                continue
            events.append((cert.registered, 0, line.number, cert, None))
            revoked = self.revocation_of(cert)
            if revoked is not None:
                events.append((revoked[0], 1, line.number, cert, revoked[1]))
        events.sort(key=lambda event: event[:3])
        return events


class Revocations:
    """The revocations that were read, by serial number, and which of them the script enters."""

    def __init__(self, lines, events, entries, words):
        self.read = {int(line.serial, 16): line for line in reversed(lines) if line.revoked is not None}
        self.entered = {int(event[3].line.serial, 16) for event in events if event[1] == 1}
        self.lacking = [entry for entry in entries if entry.serial not in self.entered]
        # The operator leaves these out, by --leave-out or --hold good.
        self.chosen = set(words.leave_out) | {serial for serial, line in self.read.items() if is_hold(line) and words.hold == "good"}

    def lost(self):
        """The serial numbers of revocations that are neither entered nor left out by the operator."""
        return sorted({*self.read, *(entry.serial for entry in self.lacking)} - self.entered - self.chosen)

    def lines(self):
        """A line for each entry that the register's first CRL would lack, and one with the number of revocations."""
        for entry in self.lacking:
            unknown = "" if entry.serial in self.read else "; the index has no revocation of it"
            yield f"serial number {entry.serial:X}, revoked {entry.revoked}: on the old CRL, and missing from the first new one{unknown}"
        for serial in sorted(self.chosen & self.entered):
            yield f"serial number {serial:X}: entered, although --leave-out lists it"
        yield f"{len(self.read)} revocations read, {len(self.read.keys() & self.entered)} entered, {len(self.read.keys() - self.entered)} left out"


def script(events, crls, now):
    """The lines of the script. Ids are counted as the register counts them, so it refuses none of these lines."""
    subscribers, names, orders, requests = {}, {}, 0, 0
    for _ in range(crls):
        yield f"{moment(events[0][0] if events else now)} crl"
    for at, kind, _, cert, ground in events:
        line, when = cert.line, moment(at)
        if kind == 0:
            if line.subject not in subscribers:
                subscribers[line.subject] = len(subscribers) + 1
                yield f"{when} subscriber {name_of(line.subject, names)}"
            orders += 1
            days = (line.not_after - cert.not_before) // DAY + 1
            yield f"{when} order {subscribers[line.subject]} {days}"
            yield f"{when} register {orders} {line.serial} {moment(cert.not_before)} {moment(line.not_after)}"
        else:
            requests += 1
            yield f"{when} request {line.serial} {ground}"
            yield f"{when} revoke {requests}"


def read_words():
    parser = argparse.ArgumentParser(description="Writes the script that makes a new register say what an index of openssl ca says.")
    parser.add_argument("index", help="index.txt of `openssl ca`")
    start = parser.add_mutually_exclusive_group(required=True)
    start.add_argument("--certs", metavar="DIR", help="the folder of certificates, SERIAL.pem each, for notBefore")
    start.add_argument("--days", type=int, metavar="N", help="each certificate was made for N days (1 to 397)")
    parser.add_argument("--hold", choices=["revoke", "good"], help="what becomes of a certificate on hold")
    parser.add_argument("--crlnumber", metavar="FILE", help="openssl's file of the next CRL number: the register's next CRL gets that number")
    parser.add_argument("--leave-out", metavar="FILE", help="serial numbers of revocations that are lost on purpose, one a line")
    parser.add_argument("--old-crl", metavar="CRL", help="openssl's latest CRL: names each entry that the register's first CRL would lack")
    parser.add_argument("--now", metavar="MOMENT", help="no line is later than this (the machine's clock)")
    words = parser.parse_args()
    if words.days is not None and not 1 <= words.days < LONGEST_DAYS:
        parser.error("--days is 1 to 397")
    if words.now is None:
        words.now = int(datetime.datetime.now(datetime.timezone.utc).timestamp())
    else:
        try:
            words.now = seconds(re.sub("[-:T]", "", words.now))
        except Unreadable:
            parser.error("--now is a moment, as 2026-01-01T00:00:00Z")
    return words


def read_leave_out(path):
    """The serial numbers of a file of --leave-out."""
    serials = []
    with open(path, encoding="utf-8") as file:
        for number, text in enumerate(file, 1):
            word = (text.split() or ["#"])[0]
            if word.startswith("#"):
                continue
            if not re.fullmatch(r"[0-9A-Fa-f]+", word):
                raise Unreadable(f"{path}:{number}: '{word}' is no serial number")
            serials.append(int(word, 16))
    return serials


def read_crl(path):
    """The number of a CRL, or None if it has none, and its entries, as openssl prints them."""
    for form in ("PEM", "DER"):
        got = subprocess.run(["openssl", "crl", "-inform", form, "-in", path, "-noout", "-text"], capture_output=True, text=True, check=False)
        if got.returncode == 0:
            break
    else:
        raise Unreadable(f"openssl can't read the CRL {path}")
    number = re.search(r"X509v3 CRL Number: \n\s*(0x[0-9A-F]+|\d+)", got.stdout)
    found = re.findall(r"^ *Serial Number: ([0-9A-F]+)\n *Revocation Date: (.*)$", got.stdout, re.MULTILINE)
    return int(number[1], 0) if number else None, [Entry(int(serial, 16), date) for serial, date in found]


def earlier_crls(path):
    """How many CRLs openssl has issued, from its file with the next number."""
    with open(path, encoding="ascii") as file:
        issued = int(file.read().strip(), 16) - 1
    if not 0 <= issued < MOST_ROWS:
        raise Unreadable(f"{path}: a register has 1,000,000 CRLs at most")
    return issued


def read_all(words):
    """The lines of the index, how many CRLs the script issues first, and the number and the entries of the old CRL."""
    lines = read_index(words.index)
    words.leave_out = read_leave_out(words.leave_out) if words.leave_out else []
    crls = earlier_crls(words.crlnumber) if words.crlnumber else 0
    held = [line for line in lines if is_hold(line)]
    if held and words.hold is None:
        raise Unreadable(f"{len(held)} certificates are on hold, the first at line {held[0].number}: say --hold revoke or --hold good")
    odd = [line for line in lines if not is_hold(line) and line.reason.partition(",")[0].lower() not in GROUNDS]
    if odd:
        raise Unreadable(f"{words.index}:{odd[0].number}: the reason '{odd[0].reason}' is none of openssl's")
    if len(lines) > MOST_ROWS:
        raise Unreadable(f"{words.index}: a register has 1,000,000 certificates at most")
    return lines, crls, *(read_crl(words.old_crl) if words.old_crl else (None, []))


def report(texts):
    for text in texts:
        print(text, file=sys.stderr)


def main():
    words = read_words()
    mover = Mover(words)
    try:
        lines, crls, number, entries = read_all(words)
        events = mover.events(lines)
    except (OSError, ValueError, Unreadable) as fault:
        sys.exit(f"from-openssl-index: {fault}; nothing was written")
    report(text for _, text in sorted(mover.messages))
    if number is not None and number > crls:
        report([f"the old CRL has number {number}, and the first new one would have {crls + 1}: say --crlnumber"])
    revocations = Revocations(lines, events, entries, words)
    report(revocations.lines())
    if lost := revocations.lost():
        serials = "".join(f"\n{serial:X}" for serial in lost)
        sys.exit(f"from-openssl-index: {len(lost)} revocations would be lost; nothing was written. To lose them, list them in a file of --leave-out:{serials}")
    written = 0
    for text in script(events, crls, words.now):
        print(text)
        written += 1
    carried = sum(1 for event in events if event[1] == 0)
    report([f"{len(lines)} lines of the index, {carried} certificates, {len(events) - carried} revocations, {written} lines of the script"])
    if written > MOST_ROWS:
        report(["a script has 1,000,000 lines at most: split it, and run its parts one after the other"])


main()
