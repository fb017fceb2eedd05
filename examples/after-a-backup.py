#!/usr/bin/env python3
"""Builds the script that enters again the changes that a register lost when it was restored from a backup, with the original moments.

    examples/after-a-backup.py ca.db --published ca.crl --log ca.log > again.txt
    desk script ca.db --strict --signer SOCKET --algorithm NAME < again.txt
    desk open ca.db --published ca.crl --signer SOCKET --algorithm NAME ..

The register is the restored one, and no program may have it open. The log is that of `desk open` (docs/OPERATIONS.md, "The log"), as it was when the
register was lost. Repeat --log for a log that was rotated. The CRL is the latest published one, in DER or PEM. You need at least one of the two.

The script has each accepted command of the log that the register lacks: subscribers, orders, certificates, requests (also those over HTTP), decisions and
CRLs. It also has each revocation that only the CRL has, as a request on a ground with the entry's reason, and as many CRLs as the register lacks up to the
CRL's number. Where lines were inserted, requests get other numbers, and the script decides each under its new number. So you can build the script again
after a part of it ran. Moments never go back: a line that is earlier than the register's last command gets the moment of that command.

Standard error names each line that the script can't have. Nothing is printed if the script would revoke a certificate that neither the register nor the log
has, or request its revocation: register it first, with a moment before that (docs/OPERATIONS.md, "Go back to a backup").

Exit status: 0 if the script was printed, even without lines; 1 if nothing was printed; 2 if the command line is wrong.
"""
import argparse
import datetime
import json
import os
import re
import subprocess
import sys
from collections import Counter, defaultdict, namedtuple

# The ground for each reason that openssl names (docs/RULES.md), of several the one with the shortest time to decide.
GROUNDS = {
    None: "asked",
    "Unspecified": "asked",
    "Key Compromise": "key-compromise",
    "Affiliation Changed": "affiliation",
    "Superseded": "superseded",
    "Cessation Of Operation": "cessation",
    "Privilege Withdrawn": "unauthorized",
}
# The other grounds, each with the one above that has its reason.
LIKE = {"control-lost": "superseded", "nonconforming": "superseded", "name-not-permitted": "cessation", "misuse": "unauthorized", "inaccurate": "unauthorized"}

# A line of the log: the moment, the client, the request and its answer, and the request for revocation that the line names.
LINE = re.compile(
    r'(\d{4}-\d\d-\d\dT\d\d:\d\d:\d\dZ) (\S+) "([^"]*)" "([^"]*)" \d+ \d+(?: request (\d+) ([0-9a-f]{40})(?: ([a-z-]+))?)?(?: signer)?'
)
LOST = re.compile(r"\S+ \S+ lost \w+")
# The log's names of the control socket: older desks write the second.
CONTROL = ("control", "counter")
# The commands at the control socket, with their accepted replies.
COMMANDS = {
    "subscriber": re.compile(r"subscriber (\d+)"),
    "order": re.compile(r"order (\d+)"),
    "register": re.compile(r"registered|same"),
    "request": re.compile(r"request (\d+) due \S+"),
    "decline": re.compile(r"declined"),
    "revoke": re.compile(r"revoked(?: late)?"),
    "crl": re.compile(r"crl (\d+) entries \d+"),
    "schedule": re.compile(r"schedule set"),
}

# A command: its moment, its position in the logs, the line of the log, its words, and the number that its reply gave or that it decides.
Event = namedtuple("Event", "moment place source words number")
Entry = namedtuple("Entry", "serial moment ground")
Crl = namedtuple("Crl", "path number moment entries")


class Unreadable(Exception):
    """A file or a register can't be read; the text names it."""


def report(text):
    print(text, file=sys.stderr)


class Register:
    """The rows of the restored register."""

    def __init__(self, desk, path):
        self.desk, self.path = desk, path
        self.last = self.last_moment()
        self.subscribers = {row["name"]: row["subscriber"] for row in self.rows("subscribers")}
        self.orders = {row["order"]: row for row in self.rows("orders")}
        self.certificates = {int(row["serial"], 16) for row in self.rows("certificates")}
        self.requests = {row["request"]: row for row in self.rows("requests")}
        self.revoked = {int(row["serial"], 16) for row in self.rows("revoked")}
        self.crl = max((row["crl"] for row in self.rows("crls")), default=0)

    def listed(self, *words):
        try:
            return subprocess.run([self.desk, "list", self.path, *words, "--json", "--why"], capture_output=True, text=True, check=False)
        except OSError as fault:
            raise Unreadable(f"{self.desk}: {fault.strerror}") from fault

    def rows(self, word):
        ran = self.listed(word)
        if ran.returncode != 0:
            raise Unreadable(f"{self.path}: {' '.join(ran.stderr.split())}")
        return [json.loads(line) for line in ran.stdout.splitlines()]

    def last_moment(self):
        """The moment of the register's last command, before which nothing is accepted."""
        refusal = re.match(r"E01 clock-back (\S+)", self.listed("subscribers", "--now", "1970-01-01T00:00:00Z").stderr)
        return refusal[1] if refusal else "1970-01-01T00:00:00Z"


def read_logs(paths):
    """The accepted commands of logs."""
    events = []
    for path in paths:
        with open(path, encoding="ascii", errors="replace") as file:
            for number, text in enumerate(file, 1):
                event = read_line(len(events), f"{path}:{number}", text.rstrip("\n"))
                if event:
                    events.append(event)
    return events


def read_line(place, source, text):
    found = LINE.fullmatch(text)
    if not found:
        if not LOST.fullmatch(text):
            report(f"{source}: no line of a log")
        return None
    moment, client, asked, answered, request, serial, ground = found.groups()
    if client not in CONTROL and not ground:
        if asked.startswith("POST /requests") and answered.startswith("HTTP/1.1 200 "):
            report(f"{source}: left out: the log does not name the request")
        return None
    words = asked.split(" ")
    if ground:
        return Event(moment, place, source, ["request", serial, ground], int(request))
    accepted = COMMANDS[words[0]].fullmatch(answered) if words[0] in COMMANDS else None
    if not accepted:
        if words[0] in COMMANDS and answered == "F2 store":
            report(f"{source}: left out: the reply to '{asked}' was F2 store, and it may stand or not")
        return None
    if words[0] in ("decline", "revoke"):
        return Event(moment, place, source, [words[0], serial], int(words[1]))
    if words[0] == "schedule":
        report(f"{source}: not in the script: set the schedule first, by desk schedule REGISTER {' '.join(words[1:])}")
        return None
    return Event(moment, place, source, words, int(accepted[1]) if accepted.groups() else None)


def openssl_moment(text):
    at = datetime.datetime.strptime(" ".join(text.split()), "%b %d %H:%M:%S %Y GMT")
    return at.strftime("%Y-%m-%dT%H:%M:%SZ")


def read_crl(path):
    """The CRL in a file, as openssl prints it."""
    for form in ("DER", "PEM"):
        got = subprocess.run(["openssl", "crl", "-inform", form, "-in", path, "-noout", "-text"], capture_output=True, text=True, check=False)
        if got.returncode == 0:
            break
    else:
        raise Unreadable(f"{path}: openssl reads no CRL")
    number = re.search(r"X509v3 CRL Number: \n\s*(0x[0-9A-F]+|\d+)", got.stdout)
    if not number:
        raise Unreadable(f"{path}: the CRL has no number")
    issued = re.search(r"^ *Last Update: (.*)$", got.stdout, re.MULTILINE)
    entries = []
    for part in re.split(r"^ *Serial Number: ", got.stdout, flags=re.MULTILINE)[1:]:
        serial, date = re.match(r"([0-9A-F]+)\n *Revocation Date: (.*)", part).groups()
        reason = re.search(r"X509v3 CRL Reason Code: \n\s*(.*)", part)
        entries.append(Entry(int(serial, 16), openssl_moment(date), ground_of(serial, reason and reason[1])))
    return Crl(path, int(number[1], 0), openssl_moment(issued[1]), entries)


def ground_of(serial, reason):
    if reason not in GROUNDS:
        report(f"serial number {serial:X}: no ground has the reason '{reason}': asked, if the script requests it")
    return GROUNDS.get(reason, "asked")


def asked_in(event):
    """The serial number and ground of a request of the log."""
    return int(event.words[1], 16), event.words[2]


class Numbers:
    """The register's number for each number in the log. A number that no line of the log enters is from before the log began. Such a number is the same
    in both, up to the first number at which the two differ."""

    def __init__(self, count, pairs):
        self.given = {}
        self.same = min((ours - 1 for theirs, ours in pairs if theirs != ours), default=count)

    def __setitem__(self, theirs, ours):
        self.given[theirs] = ours

    def get(self, theirs):
        return self.given.get(theirs, theirs if theirs <= self.same else None)


class Script:
    """The lines of the script, and what the register has after them."""

    def __init__(self, register, events, crl):
        self.register, self.lines, self.problems = register, [], []
        self.reasons = {entry.serial: entry.ground for entry in crl.entries} if crl else {}
        self.names, self.certificates, self.revoked = dict(register.subscribers), set(register.certificates), set(register.revoked)
        self.order_count, self.crl_number = len(register.orders), register.crl
        # The serial number and ground of each request, the numbers of those for a serial number, and those that were declined.
        self.asked, self.numbers, self.declined = {}, defaultdict(list), set()
        for number, row in sorted(register.requests.items()):
            self.keep(number, int(row["serial"], 16), row["ground"])
            if row["state"] == "declined":
                self.declined.add(number)
        self.filled = {int(event.words[1]): int(event.words[2], 16) for event in events if event.words[0] == "register"}
        # For each entry of the log that the register has, by its position in the log, the register's number.
        self.had = self.matches(events)
        self.subscribers, self.orders, self.requests = (Numbers(*it) for it in self.numbers_in_both(events))
        commands = {
            "subscriber": self.subscriber, "order": self.order, "register": self.certificate, "request": self.request, "decline": self.decline,
            "revoke": self.revoke, "crl": self.crl, "listed": self.listed,
        }
        for event in self.in_order(events, crl):
            commands[event.words[0]](event)

    def matches(self, events):
        """Matches subscribers by their names, orders by their certificates, and requests by their moments, serial numbers and grounds."""
        order_of = {int(row["serial"], 16): number for number, row in self.register.orders.items() if row["serial"]}
        requests, found = defaultdict(list), {}
        for number, row in sorted(self.register.requests.items()):
            requests[row["received"], self.asked[number]].append(number)
        for event in events:
            if event.words[0] == "subscriber":
                found[event.place] = self.names.get(event.words[1])
            elif event.words[0] == "order":
                found[event.place] = order_of.get(self.filled.get(event.number))
            elif event.words[0] == "request":
                numbers = requests[event.moment, asked_in(event)]
                found[event.place] = numbers.pop(0) if numbers else None
        return found

    def numbers_in_both(self, events):
        """For subscribers, orders and requests: how many the register has, and for each that the log has too, its number in the log and in the register."""
        for word, rows in ("subscriber", self.register.subscribers), ("order", self.register.orders), ("request", self.register.requests):
            yield len(rows), [(event.number, self.had[event.place]) for event in events if event.words[0] == word and self.had[event.place]]

    def in_order(self, events, crl):
        """The commands of the log, and the revocations that only the CRL has, in the order of their moments."""
        asked = {number: serial for number, (serial, _) in self.asked.items()}
        asked.update((event.number, int(event.words[1], 16)) for event in events if event.words[0] == "request")
        in_log, registered = set(), {}
        for event in events:
            if event.words[0] == "revoke":
                in_log.add(int(event.words[1], 16) if event.words[1] else asked.get(event.number))
            elif event.words[0] == "register":
                registered[int(event.words[2], 16)] = (event.moment, event.place + 0.5)
        found, known = list(events), self.revoked | in_log
        for entry in crl.entries if crl else ():
            if entry.serial not in known:
                at = max((entry.moment, -1), registered.get(entry.serial, ("", 0)))
                found.append(Event(*at, crl.path, ["listed", entry], None))
        if crl:
            found.append(Event(crl.moment, len(events), crl.path, ["crl"], crl.number))
        return sorted(found, key=lambda event: event[:2])

    def keep(self, number, serial, ground):
        self.asked[number] = (serial, ground)
        self.numbers[serial].append(number)

    def say(self, event, *words):
        """A line of the script."""
        moment = max(event.moment, self.register.last)
        if moment != event.moment:
            report(f"{event.source}: '{' '.join(map(str, words))}' is of {event.moment}, and gets {moment}, the moment of the register's last command")
        self.lines.append(" ".join(map(str, (moment, *words))))

    def leave_out(self, event, why):
        report(f"{event.source}: left out: {why}")

    def lacks(self, event, serial):
        """Returns whether neither the register nor the script so far has a certificate. If so, no script is printed."""
        if serial not in self.certificates:
            why = f"neither the register nor the log has its certificate: register it first, as of {self.register.last}"
            self.problems.append(f"{event.source}: serial number {serial:X}, {event.moment}: {why}")
        return serial not in self.certificates

    def subscriber(self, event):
        name = event.words[1]
        if name not in self.names:
            self.names[name] = len(self.names) + 1
            self.say(event, "subscriber", name)
        self.subscribers[event.number] = self.names[name]

    def order(self, event):
        subscriber, number = self.subscribers.get(int(event.words[1])), self.orders.get(event.number)
        row = self.register.orders.get(number)
        if self.had[event.place]:
            self.orders[event.number] = self.had[event.place]
        elif row and (row["subscriber"], row["days"], row["serial"]) == (subscriber, int(event.words[2]), None):
            self.orders[event.number] = number
        elif subscriber is None:
            self.leave_out(event, f"neither the register nor the log has subscriber {event.words[1]}")
        else:
            self.order_count += 1
            self.orders[event.number] = self.order_count
            self.say(event, "order", subscriber, event.words[2])

    def certificate(self, event):
        number, serial = int(event.words[1]), int(event.words[2], 16)
        if serial in self.certificates:
            return
        order = self.orders.get(number)
        if order is None:
            self.leave_out(event, f"neither the register nor the log has order {number}, under which serial number {serial:X} was registered")
            return
        self.certificates.add(serial)
        self.say(event, "register", order, *event.words[2:])

    def request(self, event):
        asked = asked_in(event)
        if self.had[event.place]:
            self.requests[event.number] = self.had[event.place]
        elif asked[0] in self.revoked:
            self.leave_out(event, f"serial number {asked[0]:X} is revoked in the register")
        elif not self.lacks(event, asked[0]):
            self.requests[event.number] = self.ask(event, *asked)

    def ask(self, event, serial, ground):
        """Enters a request, and returns its number."""
        number = len(self.asked) + 1
        self.keep(number, serial, ground)
        self.say(event, "request", f"{serial:X}", ground)
        return number

    def number_of(self, event):
        """The register's number of the request that a line of the log decides (or None), and its serial number."""
        number = self.requests.get(event.number)
        asked = self.asked[number][0] if number else None
        serial = int(event.words[1], 16) if event.words[1] else asked
        return (number if asked == serial else None), serial

    def decline(self, event):
        number, serial = self.number_of(event)
        if number is None or serial is None:
            self.leave_out(event, f"neither the register nor the log has request {event.number}")
        elif number not in self.declined and serial not in self.revoked:
            self.declined.add(number)
            self.say(event, "decline", number)

    def revoke(self, event):
        number, serial = self.number_of(event)
        if serial is None:
            self.leave_out(event, f"neither the register nor the log has request {event.number}, which was revoked")
        elif serial not in self.revoked and not self.lacks(event, serial):
            if number is None:
                ground = self.reasons.get(serial, "asked")
                report(f"{event.source}: neither the register nor the log has request {event.number}: requested as {ground}")
                number = self.ask(event, serial, ground)
            self.revoked.add(serial)
            self.say(event, "revoke", number)

    def listed(self, event):
        entry = event.words[1]
        if entry.serial not in self.revoked and not self.lacks(event, entry.serial):
            self.revoked.add(entry.serial)
            self.say(event, "revoke", self.open_request(entry) or self.ask(event, entry.serial, entry.ground))

    def open_request(self, entry):
        """The first open request of the register whose ground has the entry's reason."""
        for number in self.numbers[entry.serial]:
            ground = self.asked[number][1]
            if LIKE.get(ground, ground) == entry.ground and number not in self.declined:
                return number
        return None

    def crl(self, event):
        for _ in range(self.crl_number, event.number):
            self.say(event, "crl")
        self.crl_number = max(self.crl_number, event.number)


def read_words():
    parser = argparse.ArgumentParser(description="Builds the script that enters again what a register lost that was restored from a backup.")
    parser.add_argument("register", metavar="REGISTER", help="the restored register; no program may have it open")
    parser.add_argument("--published", metavar="CRL", help="the latest CRL that was published, in DER or PEM")
    parser.add_argument("--log", metavar="LOG", action="append", default=[], help="the log of `desk open`; repeat it for several logs, the oldest first")
    parser.add_argument("--desk", metavar="PROGRAM", default=os.environ.get("DESK", "desk"), help="the program, if it is not the `desk` of PATH")
    words = parser.parse_args()
    if not words.published and not words.log:
        parser.error("--published or --log is needed")
    return words


def main():
    words = read_words()
    try:
        crl = read_crl(words.published) if words.published else None
        script = Script(Register(words.desk, words.register), read_logs(words.log), crl)
    except (Unreadable, OSError) as fault:
        report(f"after-a-backup: {fault}")
        return 1
    if script.problems:
        report("\n".join(script.problems))
        return 1
    for line in script.lines:
        print(line)
    counts = Counter(line.split(" ")[1] for line in script.lines)
    report(f"{len(script.lines)} lines" + "".join(f", {count} {word}" for word, count in counts.items()))
    return 0


if __name__ == "__main__":
    sys.exit(main())
