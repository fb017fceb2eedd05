"""The tables and figures of examples/audit-report.py agree with the desk's own lists, counts, `overdue`, `next-crl` and CRLs, for a register of some
hundred entries."""

import csv
import heapq
import json
import random
import re
import socket
from html.parser import HTMLParser

from lib import authority, program, registers
from lib.authority import DAY, EXAMPLES, moment_of
from lib.program import parted
from lib.trial import each, test
from model import lines as model_lines
from model.register import Register

GROUNDS = ("asked", "unauthorized", "key-compromise", "control-lost", "affiliation", "superseded", "cessation", "misuse", "name-not-permitted", "nonconforming", "inaccurate")
HOUR = 3600


class Made:
    """A register with entries of 300 days, up to half an hour ago. `crls` has the desk's replies about each CRL."""

    def __init__(self, t, file="ca.db", seed=7):
        draw = random.Random(seed)
        self.now = authority.now()
        self.begun = self.now - 300 * DAY - HOUR // 2
        rows = [(0, f"subscriber {name}") for name in ("acme", "north-mill", "harbour.example", "city-library")]
        for at in range(1, 161):
            begins = draw.randrange(250 * DAY)
            ends = self.begun + begins + draw.choice((40, 90, 200, 397)) * DAY
            rows += [(begins, f"order {draw.randrange(4) + 1} 398"), (begins, f"register {at} {at * 65537:x} {moment_of(self.begun + begins)} {moment_of(ends)}")]
        # The desk numbers orders in the order of their moments; each `register` names the order just before it.
        rows.sort(key=lambda it: it[0])
        order, told = 0, []
        for when, line in rows:
            order += line.startswith("order")
            told.append((when, re.sub(r"^register \d+", f"register {order}", line)))
        # Requests come at random moments of the last 100 days. `run` decides each in time, late, or never.
        requests = sorted(draw.sample(range(200 * DAY, 300 * DAY), 90))
        for when in requests:
            told.append((when, f"request {draw.randrange(1, 161) * 65537:x} {draw.choice(GROUNDS)}"))
        told += [(300 * DAY - hours * HOUR, f"request {serial * 65537:x} misuse") for hours, serial in ((20, 161 - 1), (5, 159), (1, 158))]
        # A CRL comes 2 to 14 days after the one before it, so some are late. Before each, `next-crl` asks when it is due.
        when = 30 * DAY
        while when < 299 * DAY:
            told += [(when, "next-crl"), (when, "crl")]
            when += draw.choice((2, 5, 6, 7, 8, 8, 9, 14)) * DAY + draw.randrange(HOUR)
        told.sort(key=lambda it: it[0])
        self.file, self.crls = t.register(file), {}
        self.run(t, "".join(f"{moment_of(self.begun + when)} {line}\n" for when, line in told), draw)

    def run(self, t, lines, draw):
        """Runs the lines in the order of their moments. If the model (tests/model) accepts a request, a line that decides it later may be added."""
        plain, left, told = Register(), [(line.split()[0], at, line) for at, line in enumerate(lines.splitlines())], []
        heapq.heapify(left)
        while left:
            when, _, line = heapq.heappop(left)
            told.append(line)
            found = re.match(r"request (\d+) due", model_lines.reply(plain, line.encode()))
            at = program.seconds_of(when) + int(draw.choice((0, 0.2, 0.8, 3, 20)) * DAY)
            if found and program.seconds_of(when) < at < self.now - 2 * HOUR:
                heapq.heappush(left, (moment_of(at), len(told) + 10_000, f"{moment_of(at)} {draw.choice(('revoke', 'revoke', 'revoke', 'decline'))} {found[1]}"))
        replies = t.desk("script", str(self.file), given="\n".join(told) + "\n").lines
        due = None
        for line, reply in zip(told, replies):
            if line.endswith(" next-crl"):
                due = reply.removeprefix("next-crl ")
            elif found := re.fullmatch(r"crl (\d+) entries (\d+)", reply):
                self.crls[int(found[1])] = {"thisUpdate": line.split()[0], "due": "" if due == "at-once" else due, "entries": found[2]}


def listed(t, file, word):
    return [json.loads(it) for it in t.done("list", file, word, "--json").splitlines()]


def report(t, *words, status=0):
    """Runs the script, which must end with this status; returns its output. The script must not use the proxy or the time zone of the environment."""
    env = program.environment(more={**authority.NO_PROXY, "TZ": "America/New_York", "DESK": program.program()})
    ran = t.tried("python3", EXAMPLES / "audit-report.py", *words, env=env)
    t.same(ran.returncode, status, f"status; it printed {ran.stdout + ran.stderr!r}")
    return (ran.stdout + ran.stderr).decode()


def table(t, folder, word):
    with open(t.room / folder / f"{word}.csv", encoding="utf-8", newline="") as file:
        return list(csv.DictReader(file))


def columns(rows, *names):
    """These columns of each row of a list or of a CSV, as text."""
    return [tuple("" if row[name] is None else str(row[name]) for name in names) for row in rows]


class Page(HTMLParser):
    """The cells of a page's tables, by the heading before each table, and its list items, which are the findings."""

    def __init__(self, text):
        super().__init__()
        self.rows, self.stack, self.heading, self.findings = {}, [], "", []
        self.feed(text)

    def handle_starttag(self, tag, _):
        if tag in ("meta", "link"):
            return
        self.stack.append(tag)
        if tag == "h2":
            self.heading = ""
        if tag == "tr":
            self.rows.setdefault(self.heading, []).append([])
        if tag in ("td", "th"):
            self.rows[self.heading][-1].append("")
        if tag == "li":
            self.findings.append("")

    def handle_endtag(self, tag):
        while self.stack and self.stack.pop() != tag:
            pass

    def handle_data(self, data):
        if "h2" in self.stack and "span" not in self.stack:
            self.heading += data.strip()
        elif {"td", "th"} & {*self.stack}:
            self.rows[self.heading][-1][-1] += data
        elif "li" in self.stack:
            self.findings[-1] += data


@test(seconds=15)
def its_figures_are_those_of_the_desk(t):
    made = Made(t)
    lists = {word: listed(t, "ca.db", word) for word in ("certificates", "revoked", "requests", "overdue", "crls")}
    t.true(len(made.crls) > 20 and len(lists["revoked"]) > 20 and lists["overdue"] and {it["state"] for it in lists["requests"]} == {"open", "declined", "revoked", "expired"}, f"the register lacks some kind of row: {[(word, len(it)) for word, it in lists.items()]}")
    desk = t.open("ca.db")
    url = f"http://127.0.0.1:{desk.port}"
    told = report(t, "--url", url, "--folder", "all", moment_of(made.begun), moment_of(made.now + DAY))
    # Certificates and their statuses.
    names = ("serial", "subscriber", "name", "order", "notBefore", "notAfter", "status")
    certificates = table(t, "all", "certificates")
    t.same(columns(certificates, *names), columns(lists["certificates"], *names), "certificates")
    counts = json.loads(parted(desk.ask("GET", "/counts"))[2])
    t.same({status: sum(row["status"] == status for row in certificates) for status in counts}, counts, "statuses, compared with /counts")
    # Revocations.
    names = ("serial", "subscriber", "name", "order", "revokedAt", "reason", "request", "ground", "received", "due")
    revocations = table(t, "all", "revocations")
    t.same(columns(revocations, *names), columns(lists["revoked"], *names), "revocations")
    for row, of_list in zip(revocations, lists["revoked"]):
        first = of_list["firstCrl"]
        at = made.crls[first]["thisUpdate"] if first in made.crls else ""
        after = str(program.seconds_of(at) - program.seconds_of(row["revokedAt"])) if at else ""
        t.same((row["firstCrl"], row["listedAt"], row["listedAfterSeconds"]), (str(first) if at else "", at, after), f"first CRL of {row['serial']}")
        t.same(row["lateSeconds"], str(max(0, program.seconds_of(row["revokedAt"]) - program.seconds_of(row["due"]))), f"how late {row['serial']} was revoked")
    # Requests.
    names = ("request", "serial", "ground", "received", "due", "subscriber", "name", "state", "decided")
    requests = table(t, "all", "requests")
    t.same(columns(requests, *names), columns(lists["requests"], *names), "requests")
    revoked = {row["request"]: row for row in revocations}
    for row in requests:
        if row["request"] in revoked:
            t.same((row["decided"], row["lateSeconds"]), (revoked[row["request"]]["revokedAt"], revoked[row["request"]]["lateSeconds"]), f"request {row['request']} and its revocation")
        if row["state"] == "declined":
            t.same((row["decided"], row["lateSeconds"]), ("", ""), "a declined request: the register does not have its moment")
    overdue = [row["request"] for row in requests if row["state"] == "open" and row["lateSeconds"] != "0"]
    t.same(overdue, [str(row["request"]) for row in lists["overdue"]], "overdue requests, compared with `desk list overdue`")
    t.same(t.control().ask("overdue"), f"overdue {len(overdue)} first {overdue[0]}", "the reply to the query `overdue`")
    # CRLs: the desk replied `entries` to `crl`, and `due` to `next-crl` before it; `bytes` is the length of the CRL that it serves.
    crls = table(t, "all", "crls")
    t.same(columns(crls, "crl", "thisUpdate"), columns(lists["crls"], "crl", "thisUpdate"), "CRLs")
    before = None
    for row in crls:
        wanted, at = made.crls[int(row["crl"])], program.seconds_of(row["thisUpdate"])
        t.same((row["thisUpdate"], row["entries"], row["due"]), (wanted["thisUpdate"], wanted["entries"], wanted["due"]), f"CRL {row['crl']}")
        t.same(row["bytes"], str(len(parted(desk.ask("GET", f"/crl/{row['crl']}"))[2])), f"bytes of CRL {row['crl']}")
        t.same(row["lateSeconds"], str(max(0, at - program.seconds_of(row["due"])) if row["due"] else 0), f"how late CRL {row['crl']} is")
        t.same(program.seconds_of(row["nextUpdate"]), at + 8 * DAY, "nextUpdate")
        t.same(row["gapSeconds"], str(max(0, at - before - 8 * DAY) if before else 0), f"the gap before CRL {row['crl']}")
        before = at
    the_page(t, told, certificates, revocations, requests, crls)
    a_part_of_the_time(t, made, url, desk, crls)


def the_page(t, told, certificates, revocations, requests, crls):
    """The page has the rows of the tables, and its findings are those that the script printed."""
    page = Page((t.room / "all/report.html").read_text(encoding="utf-8"))
    for heading, rows in (("CRLs", crls), ("Requests", requests), ("Revocations", revocations), ("Certificates whose notBefore is in the time", certificates)):
        t.same(len(page.rows[heading]), len(rows) + 1, f"rows of {heading}")
    short = lambda serial: serial.lstrip("0")
    t.same([row[0] for row in page.rows["Revocations"][1:]], [short(row["serial"]) for row in revocations], "serial numbers")
    figures = {name.strip(): value for name, value in page.rows["Figures"]}
    late, gaps = sum(int(row["lateSeconds"]) > 2 * HOUR for row in crls), sum(row["gapSeconds"] != "0" for row in crls)
    behind = [row for row in requests if row["lateSeconds"] not in ("", "0")]
    overdue = sum(row["state"] == "open" for row in behind)
    t.same({row["state"] for row in behind}, {"open", "revoked", "expired"}, "states of late requests")
    t.true(late > 2 and gaps > 2, f"too few late CRLs or gaps between CRLs: {late}, {gaps}")
    wanted = {"Revocations": len(revocations), "CRLs": len(crls), "of them over two hours late": late, "of them overdue": overdue, "Times in which no CRL was valid": gaps,
              "Certificates whose notBefore is in the time": len(certificates), "Requests that are open, received before the end of the time": sum(row["state"] == "open" for row in requests),
              "later than their deadline": sum(row["lateSeconds"] != "0" for row in revocations), "Requests that were declined, received in the time": sum(row["state"] == "declined" for row in requests)}
    t.same({name: figures[name] for name in wanted}, {name: str(number) for name, number in wanted.items()}, "figures")
    t.same(page.findings, told.splitlines()[:-1], "findings of the page, compared with the printed ones")
    t.same([it.split()[1] for it in page.findings if it.startswith("CRL ")], [row["crl"] for row in crls if int(row["lateSeconds"]) > 2 * HOUR or row["gapSeconds"] != "0"], "CRLs that are findings")
    t.same([it.split()[1] for it in page.findings if it.startswith("Request ")], [row["request"] for row in behind], "requests that are findings")
    t.true(f"{len(page.findings)} findings" in told.splitlines()[-1], f"the last line has another number of findings: {told.splitlines()[-1]}")


def a_part_of_the_time(t, made, url, desk, crls):
    """A report about 61 days has the rows of these days. It counts a gap that began before FROM from FROM on. A closed register gives the same
    certificates, revocations and CRLs."""
    day = lambda at: moment_of(at)[:10]
    gap = next(row for row in crls if int(row["gapSeconds"]) > 2 * DAY)
    begin = day(program.seconds_of(gap["thisUpdate"]) - DAY)
    end = day(program.seconds_of(gap["thisUpdate"]) + 60 * DAY)
    report(t, "--url", url, "--folder", "part", begin, end)
    is_inside = lambda text: begin <= text[:10] < end
    for word, moment in (("certificates", "notBefore"), ("revocations", "revokedAt")):
        t.same(table(t, "part", word), [row for row in table(t, "all", word) if is_inside(row[moment])], word)
    inside = [dict(row) for row in crls if is_inside(row["thisUpdate"])]
    inside[0]["gapSeconds"] = str(program.seconds_of(gap["thisUpdate"]) - program.seconds_of(f"{begin}T00:00:00Z"))
    t.same(table(t, "part", "crls"), inside, "CRLs")
    ended = {row["serial"]: row["notAfter"] for row in table(t, "all", "certificates")}
    is_of_time = lambda row: row["state"] == "open" or is_inside(row["received"]) or is_inside(ended[row["serial"]] if row["state"] == "expired" else row["decided"])
    of_part = [row["request"] for row in table(t, "all", "requests") if row["received"][:10] < end and is_of_time(row)]
    t.same([row["request"] for row in table(t, "part", "requests")], of_part, "requests")
    t.true(len(of_part) < len(table(t, "all", "requests")), "all requests are of the 61 days")
    desk.end()
    report(t, "--register", "ca.db", "--folder", "closed", begin, end)
    for word in ("certificates", "revocations", "crls"):
        t.same(table(t, "closed", word), table(t, "part", word), f"{word} of a closed register")


@test(seconds=2)
def a_second_between_two_times_is_in_the_later_one(t):
    """A certificate, its request, its revocation and a CRL have one moment. It ends a report and begins the next one, which alone has them."""
    begins, between, ends = "2026-01-01", "2026-02-01T00:00:00Z", "2026-03-01"
    lines = ("subscriber acme", "order 1 398", f"register 1 05 {between} 2026-12-31T00:00:00Z", "request 05 superseded", "revoke 1", "crl")
    t.register(lines="".join(f"{between} {line}\n" for line in lines))
    for begin, end, count in ((begins, between, 0), (between, ends, 1)):
        report(t, "--register", "ca.db", "--folder", "part", begin, end)
        t.same({word: len(table(t, "part", word)) for word in ("certificates", "requests", "revocations", "crls")},
               dict.fromkeys(("certificates", "requests", "revocations", "crls"), count), f"rows from {begin} to {end}")


@test(seconds=4)
def lists_of_several_pages(t):
    """The table has all 1,100 certificates, and the page the first thousand. One CRL has more than 65,536 octets."""
    records = registers.Records(1_100)
    registers.make(t.room / "ca.db", records, 3)
    number, update = records.updates[19]
    crl = registers.sealed(number, update, [(at.to_bytes(20, "big"), update, 4) for at in range(1, 2_001)])
    t.sql("ca.db", "UPDATE crl SET der = ? WHERE number = ?", crl, number)
    t.clock(records.last)
    desk = t.open()
    told = report(t, "--url", f"http://127.0.0.1:{desk.port}", "--folder", "it", "2026-01-01", "2027-01-01")
    t.has(told, "it/report.html: 1100 certificates, 220 revocations, 220 requests, 40 CRLs, ")
    t.same({row["serial"] for row in table(t, "it", "certificates")}, {cert[0].hex() for cert in records.certs}, "serial numbers")
    t.same([(row["entries"], row["bytes"]) for row in table(t, "it", "crls") if row["crl"] == str(number)], [("2000", str(len(crl)))], "entries and octets of the CRL")
    t.true(len(crl) > 65_536, f"the CRL has only {len(crl)} octets")
    page = (t.room / "it/report.html").read_text(encoding="utf-8")
    t.same(len(Page(page).rows["Certificates whose notBefore is in the time"]), 1 + 1_000, "rows, one of them of headings")
    t.has(page, "The first 1,000 rows. All of them are in certificates.csv.")


@test(seconds=3)
def each_figure_and_each_finding(t):
    """A CRL that is two hours late is no finding, and one that is a second later is. A revocation that no CRL lists is one after a day. An
    hour after its deadline, a revocation is late. The longest time to a first CRL is that of 01: twelve hours."""
    begun = authority.now() - 20 * DAY
    at = lambda days, seconds=0: moment_of(begun + round(days * DAY) + seconds)
    ends = {"05": at(8), "06": at(9)}
    days = [(at(0), ["subscriber acme", *(line for order in range(1, 8) for line in ("order 1 398", f"register {order} 0{order} {at(0)} {ends.get(f'0{order}', at(90))}")), "crl"]),
            (at(3), ["request 05 key-compromise", "request 06 key-compromise"]), (at(5), ["request 02 key-compromise"]), (at(7, 2 * HOUR), ["crl"]), (at(14, 4 * HOUR + 1), ["crl"]),
            (at(14.2), ["request 01 superseded", "revoke 4"]), (at(14.7), ["crl"]), (at(15), ["revoke 3"]), (at(15.25), ["crl"]), (at(17), ["request 03 superseded", "revoke 5"]),
            (at(17.5), ["request 07 key-compromise"]), (at(18.5, HOUR), ["revoke 6"]), (at(20, -23 * HOUR), ["request 04 superseded", "revoke 7"])]
    t.register(lines="".join(f"{moment} {line}\n" for moment, lines in days for line in lines))
    told = report(t, "--register", "ca.db", "--folder", "it", at(0), at(21)).splitlines()
    late = lambda number, serial, of, due, ended: f"Request {number} for {serial} (key-compromise) of {at(of)} was due at {at(due)} and {ended} late."
    t.same(told, [
        late(1, 5, 3, 4, "was not decided before its certificate ended: 4 d 0 h"), late(2, 6, 3, 4, "was not decided before its certificate ended: 5 d 0 h"),
        late(3, 2, 5, 6, f"was decided at {at(15)}: 9 d 0 h"), late(6, 7, 17.5, 18.5, f"was decided at {at(18.5, HOUR)}: 1 h 0 min"),
        f"CRL 3 of {at(14, 4 * HOUR + 1)} was due at {at(14, 2 * HOUR)}: 2 h 0 min late.",
        f"The revocation of 3 at {at(17)} is on no CRL yet.", f"The revocation of 7 at {at(18.5, HOUR)} is on no CRL yet.",
        "it/report.html: 7 certificates, 5 revocations, 7 requests, 5 CRLs, 7 findings",
    ])
    figures = Page((t.room / "it/report.html").read_text(encoding="utf-8")).rows["Figures"]
    t.same([(name.strip(), value) for name, value in figures], [
        ("Certificates whose notBefore is in the time", "7"), ("Revocations", "5"), ("key-compromise", "2"), ("superseded", "3"),
        ("later than their deadline", "2"),
        ("longest time from a revocation to its first CRL", "12 h 0 min"), ("Requests that are open, received before the end of the time", "0"), ("of them overdue", "0"),
        ("Requests that led to a revocation, received or decided in the time", "5"), ("of them late", "2"),
        ("Requests whose certificate ended undecided, received or ended in the time", "2"), ("of them late", "2"), ("Requests that were declined, received in the time", "0"),
        ("CRLs", "5"), ("of them over two hours late", "1"), ("Times in which no CRL was valid", "0"),
        ("In the whole register, when this was read: good certificates", "0"), ("revoked", "5"), ("expired", "2"),
    ])  # fmt: skip


@test(seconds=3)
def a_register_with_nothing_in_it(t):
    t.register()
    told = report(t, "--register", "ca.db", "2026-01-01", "2026-02-01")
    t.same(told, "audit-2026-01-01-2026-02-01/report.html: 0 certificates, 0 revocations, 0 requests, 0 CRLs, 0 findings\n")
    t.same(Page((t.room / "audit-2026-01-01-2026-02-01/report.html").read_text()).findings, [], "findings")
    for word in ("certificates", "revocations", "requests", "crls"):
        t.same(table(t, "audit-2026-01-01-2026-02-01", word), [], word)


@test(seconds=2)
def an_issuer_with_signs_of_html_in_its_name(t):
    """The Name has one common name (RFC 5280 4.1.2.4), of twelve octets."""
    t.register(lines="2026-01-01T00:00:00Z crl\n", name=f"30173115301306035504030C0C{b'A & B <b>CA>'.hex()}")
    report(t, "--register", "ca.db", "--folder", "it", "2026-01-01", "2026-02-01")
    page = (t.room / "it/report.html").read_text(encoding="utf-8")
    t.same((page.count("A &amp; B &lt;b&gt;CA&gt;"), "<b>" in page), (2, False), "how often the escaped name is in the page, and whether `<b>` is")


@test(seconds=3)
def a_time_with_no_crl_and_one_that_ended(t):
    """No CRL is from the time of the report. The CRL before it expired within that time, and none followed."""
    begun = authority.now() - 40 * DAY
    t.register(lines=f"{moment_of(begun)} crl\n")
    day = lambda days: moment_of(begun + days * DAY)
    told = report(t, "--register", "ca.db", "--folder", "it", day(5), day(20))
    t.same(told.splitlines()[0], f"No CRL was valid for 12 d 0 h before {day(20)}.")
    t.same(table(t, "it", "crls"), [])
    figures = {name.strip(): value for name, value in Page((t.room / "it/report.html").read_text(encoding="utf-8")).rows["Figures"]}
    t.same((figures["CRLs"], figures["Times in which no CRL was valid"]), ("0", "1"), "figures")


@test(seconds=2)
def a_desk_that_does_not_answer_is_waited_for_a_minute(t):
    """The script's timeouts are a sixtieth of their length here."""
    (t.room / "sitecustomize.py").write_text("import socket\nsocket.socket.settimeout = lambda self, seconds, real=socket.socket.settimeout: real(self, seconds / 60)\n")
    with socket.create_server(("127.0.0.1", 0)) as server:
        url = f"http://127.0.0.1:{server.getsockname()[1]}"
        words = ("env", f"PYTHONPATH={t.room}", "timeout", 30, "python3", EXAMPLES / "audit-report.py", "--url", url, "2026-01-01", "2026-02-01")
        ran = t.tried(*words)
    t.same((ran.returncode, ran.stdout, ran.stderr.decode()), (1, b"", f"audit-report: {url}/list/crls?limit=250: timed out\n"), "status and output")


@each({
    "nobody at the port": (("--url", "http://127.0.0.1:1", "2026-01-01", "2026-02-01"), 1, "audit-report: http://127.0.0.1:1/list/crls?limit=250: "),
    "no such register": (("--register", "none.db", "2026-01-01", "2026-02-01"), 1, "audit-report: none.db: F2 store no such file (FILE)"),
    "no moment": (("2026-01-01", "soon"), 2, "FROM and TO are days"), "no such day": (("2026-02-30", "2026-03-01"), 2, "FROM and TO are days"),
    "backwards": (("2026-02-01", "2026-02-01"), 2, "FROM must be before TO"),
}, seconds=2)  # fmt: skip
def what_it_refuses(t, words, status, why):
    t.has(report(t, *words, status=status), why)
    t.same([it.name for it in t.room.iterdir()], [], "files that the script wrote")
