#!/usr/bin/env python3
"""Writes a report for an auditor about the time from FROM up to, but not including, TO: an HTML page, and its tables as CSV.

    examples/audit-report.py 2026-01-01 2026-04-01                       # of an open desk, at http://127.0.0.1:8080
    examples/audit-report.py --register ca.copy 2026-01-01 2026-04-01    # of a register that no program has open, or a copy

It writes these files into the folder audit-FROM-TO, or the one that --folder names, and prints its findings:

    report.html        findings, figures, and the first 1,000 rows of each table below
    certificates.csv   the certificates whose notBefore is in the time
    revocations.csv    the revocations of the time, each with the first CRL that lists it and that CRL's moment, and with its request and how late that was decided
    requests.csv       the requests that were received or decided in the time, or whose certificate ended undecided in it, and the open ones that were
                       received before TO: with their state, and by how much each missed its deadline
    crls.csv           the CRLs of the time, with their entries and bytes, when each was due, how late it was, and how long no CRL was valid before it

The script reads the lists and the CRLs of the desk when it makes the report (docs/RULES.md, "Lists" and "CRLs"). The register has no moment of a
registration or of a decline. So the script selects certificates by their notBefore and declined requests by their receipt, and does not say whether a decline was in time.

FROM and TO are days, as 2026-01-01, or moments, as 2026-01-01T12:00:00Z, in UTC. DESK names the program, if it is not the `desk` of PATH. The exit status is 0 if
the report was written, 1 if the desk or a file could not be read or written, and 2 if the command line is wrong.
"""
import argparse
import csv
import datetime
import html
import json
import os
import re
import subprocess
import sys
import time
import urllib.error
import urllib.parse
import urllib.request
from collections import Counter

DAY = 86400
# A CRL is due this many seconds after the one before it, or after a revocation that no CRL lists (docs/RULES.md, "CRLs").
CRL_EVERY, CRL_AFTER_REVOCATION = 7 * DAY, DAY
# The timer that issues CRLs runs every few minutes. A CRL that is more than this many seconds late is a finding, as it is an alert in alerts.yml.
LATE = 2 * 3600
REASONS = {0: "unspecified", 1: "keyCompromise", 3: "affiliationChanged", 4: "superseded", 5: "cessationOfOperation", 9: "privilegeWithdrawn"}
MOST_ROWS = 1_000


class Unreadable(Exception):
    """Something could not be read; the text is a line about it."""


def seconds_of(text):
    """The seconds since 1970 of a day or a moment."""
    form = "%Y-%m-%d" if re.fullmatch(r"\d{4}-\d\d-\d\d", text) else "%Y-%m-%dT%H:%M:%SZ"
    return int(datetime.datetime.strptime(text, form).replace(tzinfo=datetime.timezone.utc).timestamp())


def moment_of(seconds):
    return time.strftime("%Y-%m-%dT%H:%M:%SZ", time.gmtime(seconds))


# Where rows and CRLs come from


class OpenDesk:
    """An open desk, over HTTP."""

    def __init__(self, url):
        self.url = url.rstrip("/")

    def ask(self, path):
        try:
            # The desk is on this machine, so no proxy is used.
            with urllib.request.build_opener(urllib.request.ProxyHandler({})).open(self.url + path, timeout=60) as answer:
                return answer.read()
        except urllib.error.HTTPError as fault:
            raise Unreadable(f"{self.url}{path}: {fault.code} {fault.read(200).decode('latin-1')}") from None
        except (OSError, urllib.error.URLError) as fault:
            raise Unreadable(f"{self.url}{path}: {getattr(fault, 'reason', fault)}") from None

    def rows(self, word):
        after = ""
        while after is not None:
            page = json.loads(self.ask(f"/list/{word}?limit=250" + (f"&after={urllib.parse.quote(str(after))}" if after else "")))
            yield from page["rows"]
            after = page["next"]

    def crl(self, number):
        return self.ask(f"/crl/{number}")


class ClosedRegister:
    """A register in a file that no program has open."""

    def __init__(self, path):
        self.path, self.desk = path, os.environ.get("DESK", "desk")

    def run(self, *words):
        try:
            ran = subprocess.run([self.desk, *words], capture_output=True, check=False)
        except OSError as fault:
            raise Unreadable(f"{self.desk}: {fault.strerror}") from None
        if ran.returncode:
            raise Unreadable(f"{self.path}: {' '.join(ran.stderr.decode('latin-1').split())}")
        return ran.stdout

    def rows(self, word):
        return map(json.loads, self.run("list", self.path, word, "--json", "--why").splitlines())

    def crl(self, number):
        return self.run("crl", self.path, "--number", str(number), "--why")


# CRLs (RFC 5280 5.1), in DER (X.690)


def value_at(data, at):
    """The tag of the value that begins here, and where its contents begin and end."""
    length, begin = data[at + 1], at + 2
    if length > 127:
        begin += length - 128
        length = int.from_bytes(data[at + 2 : begin], "big")
    return data[at], begin, begin + length


def within(data, begin, end):
    while begin < end:
        value = value_at(data, begin)
        yield value
        begin = value[2]


def time_in(data, value):
    """UTCTime, whose years 50 to 99 are of the 20th century, or GeneralizedTime."""
    text = data[value[1] : value[2]].decode("ascii")
    if value[0] == 0x17:
        text = ("20" if text < "5" else "19") + text
    return seconds_of(f"{text[:4]}-{text[4:6]}-{text[6:8]}T{text[8:10]}:{text[10:12]}:{text[12:14]}Z")


def read_crl(data):
    """A CRL's thisUpdate, nextUpdate, how many entries and bytes it has, and the issuer's common name."""
    whole = value_at(data, 0)
    if whole[2] != len(data):
        raise Unreadable("a CRL is cut short")
    tbs = next(within(data, *whole[1:]))
    _, _, issuer, begins, ends, *rest = within(data, *tbs[1:])
    entries = next((sum(1 for _ in within(data, *it[1:])) for it in rest if it[0] == 0x30), 0)
    name = ""
    for part in within(data, *issuer[1:]):
        for pair in within(data, *part[1:]):
            kind, value = within(data, *pair[1:])
            if data[kind[1] : kind[2]] == b"\x55\x04\x03":
                name = data[value[1] : value[2]].decode("utf-8", "replace")
    return {"thisUpdate": time_in(data, begins), "nextUpdate": time_in(data, ends), "entries": entries, "bytes": len(data), "issuer": name}


# The tables


class Report:
    """The tables of a source for a time: each a list of rows by the names of their columns, with moments as seconds."""

    def __init__(self, source, begin, end):
        self.begin, self.end, self.began = begin, end, int(time.time())
        # Moments sort as texts.
        is_inside = lambda text: moment_of(begin) <= text < moment_of(end)
        self.issued = [seconds_of(row["thisUpdate"]) for row in source.rows("crls")]
        revoked = list(source.rows("revoked"))
        self.statuses, self.certificates = Counter(), []
        for row in source.rows("certificates"):
            self.statuses[row["status"]] += 1
            if is_inside(row["notBefore"]):
                self.certificates.append({name: row[name] for name in ("serial", "subscriber", "name", "order", "notBefore", "notAfter", "status")})
        self.revocations = [self.revocation(row) for row in revoked if is_inside(row["revokedAt"])]
        ended = lambda row: row["notAfter"] if row["state"] == "expired" else row["decided"]
        is_of_time = lambda row: row["state"] == "open" or is_inside(row["received"]) or is_inside(ended(row) or "")
        self.requests = [self.request(row) for row in source.rows("requests") if row["received"] < moment_of(end) and is_of_time(row)]
        self.crls, self.issuer = self.series(source, revoked)
        self.read = int(time.time())

    def revocation(self, row):
        at, first = seconds_of(row["revokedAt"]), row["firstCrl"]
        listed = self.issued[first - 1] if first <= len(self.issued) else None
        return {
            "serial": row["serial"], "subscriber": row["subscriber"], "name": row["name"], "order": row["order"], "revokedAt": row["revokedAt"],
            "reason": row["reason"], "firstCrl": first if listed is not None else None, "listedAt": listed and moment_of(listed),
            "listedAfterSeconds": None if listed is None else listed - at,
            "request": row["request"], "ground": row["ground"], "received": row["received"], "due": row["due"], "lateSeconds": row["lateness"],
        }  # fmt: skip

    def request(self, row):
        told = {name: row[name] for name in ("request", "serial", "ground", "received", "due", "subscriber", "name", "state", "decided")}
        return {**told, "lateSeconds": row["lateness"]}

    def series(self, source, revoked):
        """The CRLs of the time. When each was due follows from the one before it and from the revocations that it lists first."""
        first_listed = {}
        for row in revoked:
            at = seconds_of(row["revokedAt"])
            first_listed[row["firstCrl"]] = min(at, first_listed.get(row["firstCrl"], at))
        rows, issuer, before = [], "", None
        for number, at in enumerate(self.issued, 1):
            is_last_before = at < self.begin and (number == len(self.issued) or self.issued[number] >= self.begin)
            if at >= self.end or at < self.begin and not is_last_before:
                continue
            crl = read_crl(source.crl(number))
            if crl["thisUpdate"] != at:
                raise Unreadable(f"CRL {number} is of another moment than the list of CRLs says")
            issuer = crl["issuer"]
            if not is_last_before:
                dues = [before["thisUpdate"] + CRL_EVERY, before["nextUpdate"]] if before else []
                dues += [first_listed[number] + CRL_AFTER_REVOCATION] if before and number in first_listed else []
                due = min(dues, default=None)
                rows.append({
                    "crl": number, "thisUpdate": moment_of(at), "nextUpdate": moment_of(crl["nextUpdate"]), "entries": crl["entries"], "bytes": crl["bytes"],
                    "due": due and moment_of(due), "lateSeconds": max(0, at - due) if due else 0, "gapSeconds": max(0, at - max(before["nextUpdate"], self.begin)) if before else 0,
                })  # fmt: skip
            before = crl
        # Perhaps no CRL was valid at the end of the time, which is in the future if TO is.
        self.gap_at_end = max(0, min(self.end, self.began) - max(before["nextUpdate"], self.begin)) if before else 0
        return rows, issuer

    def findings(self):
        """The findings, a sentence each."""
        for row in self.requests:
            if is_finding(row):
                ended = {"open": "is open", "revoked": f"was decided at {row['decided']}", "expired": "was not decided before its certificate ended"}[row["state"]]
                late = "overdue" if row["state"] == "open" else "late"
                yield f"Request {row['request']} for {short(row['serial'])} ({row['ground']}) of {row['received']} was due at {row['due']} and {ended}: {span(row['lateSeconds'])} {late}."
        for row in self.crls:
            if is_finding(row):
                gap = f", and no CRL was valid for {span(row['gapSeconds'])} before it" if row["gapSeconds"] else ""
                yield f"CRL {row['crl']} of {row['thisUpdate']} was due at {row['due']}: {span(row['lateSeconds'])} late{gap}."
        if self.gap_at_end:
            yield f"No CRL was valid for {span(self.gap_at_end)} before {moment_of(min(self.end, self.began))}."
        for row in self.revocations:
            if row["listedAfterSeconds"] is None and self.began - seconds_of(row["revokedAt"]) > CRL_AFTER_REVOCATION:
                yield f"The revocation of {short(row['serial'])} at {row['revokedAt']} is on no CRL yet."

    def figures(self):
        """The figures of the report, by name."""
        grounds = Counter(row["ground"] for row in self.revocations)
        states = Counter(row["state"] for row in self.requests)
        late = Counter(row["state"] for row in self.requests if row["lateSeconds"])
        listed = [row["listedAfterSeconds"] for row in self.revocations if row["listedAfterSeconds"] is not None]
        return [
            ("Certificates whose notBefore is in the time", len(self.certificates)),
            ("Revocations", len(self.revocations)),
            *((f"  {ground}", grounds[ground]) for ground in sorted(grounds)),
            ("  later than their deadline", sum(row["lateSeconds"] > 0 for row in self.revocations)),
            ("  longest time from a revocation to its first CRL", span(max(listed)) if listed else "–"),
            ("Requests that are open, received before the end of the time", states["open"]),
            ("  of them overdue", late["open"]),
            ("Requests that led to a revocation, received or decided in the time", states["revoked"]),
            ("  of them late", late["revoked"]),
            ("Requests whose certificate ended undecided, received or ended in the time", states["expired"]),
            ("  of them late", late["expired"]),
            ("Requests that were declined, received in the time", states["declined"]),
            ("CRLs", len(self.crls)),
            ("  of them over two hours late", sum(row["lateSeconds"] > LATE for row in self.crls)),
            ("Times in which no CRL was valid", sum(row["gapSeconds"] > 0 for row in self.crls) + bool(self.gap_at_end)),
            ("In the whole register, when this was read: good certificates", self.statuses["good"]),
            ("  revoked", self.statuses["revoked"]),
            ("  expired", self.statuses["expired"]),
        ]

    def tables(self):
        return {"crls": self.crls, "requests": self.requests, "revocations": self.revocations, "certificates": self.certificates}


COLUMNS = {
    "crls": ["crl", "thisUpdate", "nextUpdate", "entries", "bytes", "due", "lateSeconds", "gapSeconds"],
    "requests": ["request", "serial", "ground", "received", "due", "subscriber", "name", "state", "decided", "lateSeconds"],
    "revocations": ["serial", "subscriber", "name", "order", "revokedAt", "reason", "firstCrl", "listedAt", "listedAfterSeconds", "request", "ground", "received", "due", "lateSeconds"],
    "certificates": ["serial", "subscriber", "name", "order", "notBefore", "notAfter", "status"],
}
# The columns of a table of the page, if it has fewer than the CSV.
SHOWN = {
    "requests": ["request", "serial", "ground", "state", "received", "due", "decided", "lateSeconds", "name"],
    "revocations": ["serial", "ground", "request", "due", "revokedAt", "lateSeconds", "firstCrl", "listedAfterSeconds", "name"],
}
HEADINGS = {"crls": "CRLs", "requests": "Requests", "revocations": "Revocations", "certificates": "Certificates whose notBefore is in the time"}
# The names of columns on the page, if they differ from those in the CSV.
NAMES = {"crl": "CRL", "lateSeconds": "late by", "gapSeconds": "none valid before, for", "listedAfterSeconds": "listed after", "firstCrl": "first CRL",
         "listedAt": "listed at", "revokedAt": "revoked at", "serial": "serial number", "subscriber": "no.", "name": "subscriber"}


def is_finding(row):
    """Whether a row is a finding: a request or a revocation after its deadline, or a CRL that is late or came after a time without a valid CRL."""
    return bool(row.get("gapSeconds") or (row.get("lateSeconds") or 0) > (LATE if "crl" in row else 0))


def short(serial):
    return serial.lstrip("0") or "0"


def span(seconds):
    days, hours, minutes = seconds // DAY, seconds // 3600 % 24, seconds // 60 % 60
    return f"{days} d {hours} h" if days else f"{hours} h {minutes} min" if hours else f"{minutes} min {seconds % 60} s"


# Writing

STYLE = """
body { font: 14px/1.45 system-ui, sans-serif; margin: 0 auto; padding: 1.5rem; max-width: 70rem; color: #1b2028 }
h1 { font-size: 1.4rem; margin: 0 } h2 { font-size: 1.05rem; margin: 1.8rem 0 .5rem } p { margin: .4rem 0 } .soft { color: #5a6473 }
table { border-collapse: collapse; font-variant-numeric: tabular-nums } th, td { text-align: left; padding: .2rem 1.1rem .2rem 0; vertical-align: top; white-space: nowrap }
th { color: #5a6473; font-weight: normal; border-bottom: 1px solid #b9bfca } td { border-bottom: 1px solid #eceef2 } .n { text-align: right } tr.late td { background: #fbeae9; color: #a3221c }
.figures td:first-child { white-space: pre; min-width: 27rem } .serial { font-family: ui-monospace, monospace; font-size: .93em } ul { margin: 0; padding-left: 1.2rem } li { color: #a3221c }
@media print { body { max-width: none; padding: 0; font-size: 9px } tr { break-inside: avoid } }
"""
NUMBERS = {"crl", "entries", "bytes", "lateSeconds", "gapSeconds", "request", "subscriber", "order", "reason", "firstCrl", "listedAfterSeconds"}


def cell(name, value):
    if name.endswith("Seconds"):
        value = "–" if not value and name != "listedAfterSeconds" else "no CRL yet" if value is None else span(value)
    elif name == "reason":
        value = f"{value} {REASONS.get(value, '')}"
    elif name == "serial":
        value = short(value)
    elif value is None:
        value = "–"
    elif isinstance(value, int):
        value = f"{value:,}" if name in ("entries", "bytes") else value
    elif re.fullmatch(r"\d{4}-\d\d-\d\dT\d\d:\d\d:\d\dZ", value):
        value = value[:-1].replace("T", " ")
    kind = "serial" if name == "serial" else "n" if name in NUMBERS and name != "reason" else ""
    return f'<td class="{kind}">{html.escape(str(value))}</td>' if kind else f"<td>{html.escape(str(value))}</td>"


def table_of(word, rows):
    columns = SHOWN.get(word, COLUMNS[word])
    yield f"<h2>{html.escape(HEADINGS[word])} <span class=soft>{len(rows):,}</span></h2>"
    if not rows:
        yield "<p class=soft>None.</p>"
        return
    head = "".join(f'<th{" class=n" if name in NUMBERS and name != "reason" else ""}>{html.escape(NAMES.get(name, name))}</th>' for name in columns)
    yield f"<table><thead><tr>{head}</tr></thead><tbody>"
    for row in rows[:MOST_ROWS]:
        yield f"<tr{' class=late' if is_finding(row) else ''}>{''.join(cell(name, row[name]) for name in columns)}</tr>"
    yield "</tbody></table>"
    if len(rows) > MOST_ROWS:
        yield f"<p class=soft>The first {MOST_ROWS:,} rows. All of them are in {word}.csv.</p>"


def page_of(report):
    times = f"from {moment_of(report.begin)} to {moment_of(report.end)}"
    title = f"Audit report: {report.issuer or 'certificate register'}"
    yield f'<!DOCTYPE html>\n<html lang="en"><head><meta charset="utf-8"><meta http-equiv="Content-Security-Policy" content="default-src \'none\'; style-src \'unsafe-inline\'">'
    yield f"<title>{html.escape(title)}, {times}</title><style>{STYLE}</style></head><body>"
    yield f"<h1>{html.escape(title)}</h1><p>{html.escape(times)}, in UTC. <span class=soft>Read from the register at {moment_of(report.began)} to {moment_of(report.read)}.</span></p>"
    found = list(report.findings())
    yield f"<h2>Findings <span class=soft>{len(found):,}</span></h2>"
    yield "<p>None: no request is overdue or was decided late, no CRL was more than two hours late, and one was valid at any time since the first.</p>" if not found else ""
    yield "<ul>" + "".join(f"<li>{html.escape(it)}</li>" for it in found[:MOST_ROWS]) + "</ul>" if found else ""
    yield f"<p class=soft>The first {MOST_ROWS:,} of {len(found):,}.</p>" if len(found) > MOST_ROWS else ""
    rows = "".join(f"<tr><td>{html.escape(name)}</td><td class=n>{f'{value:,}' if isinstance(value, int) else html.escape(value)}</td></tr>" for name, value in report.figures())
    yield f'<h2>Figures</h2><table class="figures"><tbody>{rows}</tbody></table>'
    for word, rows in report.tables().items():
        yield from table_of(word, rows)
    yield "<h2>What this report can't tell</h2><p>The register keeps no moment of a registration, so certificates are taken by their notBefore. It keeps none of a decline: so declined requests are taken by"
    yield "their receipt alone, and whether they were declined in time is not told. CRLs were not verified: <code>openssl crl -verify</code> does.</p>"
    yield "<p class=soft>A CRL is due seven days after the one before it, when that one ends, or a day after a revocation that no CRL lists, whichever comes first.</p></body></html>"


def write(report, folder):
    os.makedirs(folder, exist_ok=True)
    for word, rows in report.tables().items():
        with open(f"{folder}/{word}.csv", "w", encoding="utf-8", newline="") as file:
            table = csv.DictWriter(file, COLUMNS[word], lineterminator="\n")
            table.writeheader()
            table.writerows(rows)
    with open(f"{folder}/report.html", "w", encoding="utf-8") as file:
        file.writelines(f"{it}\n" for it in page_of(report) if it)


def main():
    words = argparse.ArgumentParser(description=__doc__, formatter_class=argparse.RawDescriptionHelpFormatter)
    source = words.add_mutually_exclusive_group()
    source.add_argument("--url", default="http://127.0.0.1:8080", help="an open desk (%(default)s)")
    source.add_argument("--register", metavar="FILE", help="a register that no program has open")
    words.add_argument("--folder", help="where the files are written (audit-FROM-TO)")
    words.add_argument("begin", metavar="FROM")
    words.add_argument("end", metavar="TO")
    told = words.parse_args()
    try:
        begin, end = seconds_of(told.begin), seconds_of(told.end)
    except ValueError:
        words.error("FROM and TO are days, as 2026-01-01, or moments, as 2026-01-01T12:00:00Z")
    if begin >= end:
        words.error("FROM must be before TO")
    folder = told.folder or f"audit-{told.begin}-{told.end}".replace(":", "")
    try:
        report = Report(ClosedRegister(told.register) if told.register else OpenDesk(told.url), begin, end)
        write(report, folder)
    except (Unreadable, OSError) as fault:
        print(f"audit-report: {fault}", file=sys.stderr)
        return 1
    for it in report.findings():
        print(it)
    counts = {"certificate": report.certificates, "revocation": report.revocations, "request": report.requests, "CRL": report.crls, "finding": list(report.findings())}
    print(f"{folder}/report.html: " + ", ".join(f"{len(rows)} {name}{'s' * (len(rows) != 1)}" for name, rows in counts.items()))
    return 0


if __name__ == "__main__":
    sys.exit(main())
