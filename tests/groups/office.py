"""examples/office/index.html in Debian's headless Chromium. nginx serves it with examples/nginx.conf, in front of an open desk, to a browser with a client
certificate of the office. The tests compare the page with the lines that made the register. OFFICE_PICTURE=FILE.png keeps a picture of it."""

import json
import os
import time

from groups.board import Browser, span, spans
from lib import authority, faults
from lib.authority import DAY, Authority, moment_of
from lib.trial import need, test
from lib.web_server import Front, certificates

HOUR = 3600


def shown(at):
    return time.strftime("%Y-%m-%d %H:%M", time.gmtime(at))


def give_certificate(t, front, name):
    """Puts a client certificate into the browser's database. Its settings choose the certificate without a question."""
    words = ("-inkey", f"{name}.key", "-name", name, "-passout", "pass:it", "-out", f"{name}.p12")
    t.tool("openssl", "pkcs12", "-export", "-in", f"{name}.pem", *words)
    for folder in (".pki/nssdb", ".local/share/pki/nssdb"):
        database = t.room / folder
        database.mkdir(parents=True, exist_ok=True)
        t.tool("certutil", "-d", f"sql:{database}", "-N", "--empty-password")
        t.tool("pk12util", "-d", f"sql:{database}", "-i", f"{name}.p12", "-W", "it")
    settings = t.room / "chromium/Default/Preferences"
    settings.parent.mkdir(parents=True, exist_ok=True)
    chosen = json.dumps({"pattern": f"https://127.0.0.1:{front.tls_port}", "filter": {}})
    settings.write_text(json.dumps({"profile": {"managed_auto_select_certificate_for_urls": [chosen]}}))


def opened(t, lines="", name="clerk", **how):
    """A CA with a register of these lines, an open desk, nginx in front of it, and a browser with a clerk's certificate."""
    need("chromium", "nginx", "certutil")
    it = Authority(t, subject="/O=Example/CN=Example CA")
    certificates(t)
    it.register()
    if lines:
        told = t.done("script", "ca.db", given=lines).splitlines()
        t.same([reply for reply in told if reply[:1] in "EF"], [], "refusals")
    desk = t.open("ca.db")
    front = Front(t, desk.port, seconds=1)
    give_certificate(t, front, name)
    browser = Browser(t)
    browser.ask("Emulation.setDeviceMetricsOverride", width=1120, height=900, deviceScaleFactor=1, mobile=False)
    return it, desk, front, browser


def load(browser, front):
    browser.ask("Page.navigate", url=front.url("/office/", tls=True))
    rounds(browser, 1)


def rounds(browser, count):
    """Waits until the page has loaded all its parts `count` times."""
    browser.until(f"document.readyState === 'complete' && document.body && Number(document.body.dataset.rounds) >= {count}")


def again(browser):
    """Presses Reload, and waits until the page has loaded all its parts."""
    was = browser.value("Number(document.body.dataset.rounds)")
    browser.press("#again")
    rounds(browser, was + 1)


def rows(browser, name):
    """The rows of a table, each as its cells' text, with `!` before one that is shown in red."""
    return browser.value(f"Array.from(document.querySelectorAll('#{name} tr'), row => (row.className === 'bad' ? '!' : '') + Array.from(row.cells, it => it.innerText).join('|'))")


def texts(browser, *names):
    return [browser.text_of(name) for name in names]


class Year:
    """A register of some months: certificates, requests of all states, revocations, and CRLs of which two came too late."""

    GROUNDS = ("key-compromise", "superseded", "misuse", "cessation", "affiliation", "asked", "control-lost", "unauthorized")

    def __init__(self, certificates=60, requests=40):
        self.now = authority.now()
        self.begun = self.now - 200 * DAY
        rows, self.ends, self.revoked, self.open = [], {}, [], []
        names = ["acme", "north-mill", "harbour.example", "city-library", "east-works"]
        rows += [(0, f"subscriber {name}") for name in names]
        for at in range(certificates):
            end = self.begun + int((150 + 3.6 * at) * DAY) + at
            serial = 0x4100 + 0x1000D * at
            self.ends[serial] = (end, names[at % 5], at + 1)
            rows += [(0, f"order {at % 5 + 1} 398"), (0, f"register {at + 1} {serial:x} {moment_of(self.begun)} {moment_of(end)}")]
        serials, number = sorted(self.ends), 0
        # One request every 4.6 days. One in seven is declined after 0.3 days, the others are revoked after half a day. Six open requests follow.
        for at in range(requests):
            serial, ground = serials[-1 - at], self.GROUNDS[at % 8]
            day = 6 + 4.6 * at
            number += 1
            rows.append((day, f"request {serial:x} {ground}"))
            if at % 7 == 3:
                rows.append((day + 0.3, f"decline {number}"))
            else:
                rows.append((day + 0.5, f"revoke {number}"))
                self.revoked.append((self.begun + int((day + 0.5) * DAY), ground))
        for at, (days, ground) in enumerate([(3.2, "inaccurate"), (1.7, "asked"), (0.9, "superseded"), (0.4, "key-compromise"), (0.1, "control-lost"), (0.02, "misuse")]):
            serial, number = serials[-1 - requests - at], number + 1
            received = self.begun + round((200 - days) * DAY)
            rows.append((200 - days, f"request {serial:x} {ground}"))
            self.open.append((received + (5 if ground in ("misuse", "inaccurate") else 1) * DAY, number, ground, self.ends[serial][1], serial, received))
        # A CRL each week, except for three weeks, which make two gaps. The next one was due some hours ago.
        self.crls = [3.6 + 7 * week for week in range(28) if week not in (9, 10, 21)]
        rows += [(day, "crl") for day in self.crls]
        at = lambda day: self.begun + round(day * DAY)
        self.lines = "".join(f"{moment_of(at(day))} {line}\n" for day, line in sorted(rows, key=lambda it: it[0]))


@test(seconds=25)
def the_office_view_shows_what_the_desk_says(t):
    year = Year()
    it, desk, front, browser = opened(t, year.lines)
    load(browser, front)
    counts = json.loads(desk.ask("GET", "/counts").split(b"\r\n\r\n")[1])
    soon = sorted((end, serial) for serial, (end, *_) in year.ends.items() if year.now <= end < year.now + 30 * DAY and status(desk, serial) == "good")
    overdue = [row for row in year.open if row[0] < year.now]
    wanted = [str(counts[name]) for name in ("good", "revoked", "expired")] + [str(len(year.open)), str(len(overdue)), str(len(soon))]
    t.same(texts(browser, "good", "revoked", "expired", "open", "overdue", "ending"), wanted, "counts")
    t.true(len(overdue) == 1 and len(soon) > 3, f"the test needs one overdue request and four certificates that end soon: {overdue}, {soon}")
    # Requests by deadline, the overdue one in red.
    cells = [row.split("|") for row in rows(browser, "requestrows")]
    told = [("!" * (due < year.now) + shown(due), str(number), ground, name, f"{serial:x}", shown(received)) for due, number, ground, name, serial, received in sorted(year.open)]
    t.same([(row[0], *row[2:]) for row in cells], told, "open requests")
    for row, (due, *_) in zip(cells, sorted(year.open)):
        t.has({f"overdue {it}" if due < year.now else it for it in spans(due, year.now)}, row[1], "the time that is left for a request")
    expiring = [row.split("|") for row in rows(browser, "endingrows")]
    t.same([(row[0], row[3]) for row in expiring], [(shown(end), f"{serial:x}") for end, serial in soon], "certificates that end soon")
    for row, (end, _) in zip(expiring, soon):
        t.has(spans(end, year.now), row[1], "the time that is left for a certificate")
    recent(t, desk, browser)
    gaps_and_plot(t, year, browser)
    months(t, year, browser)
    t.same(texts(browser, "health", "fault", "issuer"), ["failing", "", "Example CA"], "health; no fault; the issuer")
    t.same([row.split("|")[1] for row in rows(browser, "healthrows") if row.split("|")[0] not in ("CRL",)], ["ok"] * 5)
    t.has([row for row in rows(browser, "healthrows") if row.startswith("CRL|")][0], "the next CRL is due", "why it is failing")
    if "OFFICE_PICTURE" in os.environ:
        browser.picture(os.environ["OFFICE_PICTURE"])
    t.same(complaints(browser), [], "errors in the browser's log")
    later(t, year, desk, browser, len(overdue))


def complaints(browser):
    """The errors in the browser's log, without those for /health with status 503 and for a desk that does not run."""
    return [it for it in browser.complaints if "status of 50" not in it]


def status(desk, serial):
    return json.loads(desk.ask("GET", f"/status/{serial:x}").split(b"\r\n\r\n")[1])["status"]


def gaps_and_plot(t, year, browser):
    at = lambda day: year.begun + round(day * DAY)
    found = [(number, at(day) + 8 * DAY, at(later)) for number, (day, later) in enumerate(zip(year.crls, year.crls[1:]), 1) if later - day > 8]
    told = []
    for number, ended, came in found:
        told.append((f"No valid CRL for {span(came - ended)}", f"from {shown(ended)}, when CRL {number} ended,",
                     f"to {shown(came)}, when CRL {number + 1} was issued"))
    points = "document.querySelectorAll('#plot circle').length"
    late = sum(at(day) >= year.now - 90 * DAY for day in year.crls)
    t.same(browser.value(points), 2 * (late + 1), "points for the CRLs of 90 days, and for the one that was valid before")
    browser.value("document.getElementById('window').value = '0'; document.getElementById('window').dispatchEvent(new Event('change'))")
    browser.until(f"{points} === {2 * len(year.crls)}")
    t.same([tuple(row.removeprefix("!").split("|")) for row in rows(browser, "gaprows")], told[::-1], "gaps between CRLs")
    t.same(browser.value("document.querySelectorAll('#plot rect').length"), len(found), "gaps in the plot")
    # The plot shows the bytes and entries of the latest CRL.
    latest = t.tool("curl", "-sk", "-o", "latest.crl", "-w", "%{size_download}", browser.value("location.origin") + "/crl").decode()
    entries = t.tool("openssl", "crl", "-inform", "DER", "-in", "latest.crl", "-noout", "-text").decode().count("Serial Number: ")
    last = browser.value("Array.from(document.querySelectorAll('#plot circle title'), it => it.textContent).pop()")
    t.same(last, f"CRL {len(year.crls)} of {shown(at(year.crls[-1]))}: {entries} entries, {latest} bytes", "the latest CRL in the plot")


def months(t, year, browser):
    """Checks each month's revocations by ground. Each ground that occurs has a column."""
    columns = ["key-compromise", "control-lost", "superseded", "unauthorized", "misuse", "cessation", "affiliation", "asked"]
    t.same(browser.value("Array.from(document.querySelectorAll('#monthshead th'), it => it.innerText.trim().replaceAll('\\n', '')).slice(3)"), columns, "the columns")
    wanted = {}
    for at, ground in year.revoked:
        month = wanted.setdefault(time.strftime("%Y-%m", time.gmtime(at)), [0] * len(columns))
        month[columns.index(ground)] += 1
    got = {cells[0]: cells[2:] for cells in (row.split("|") for row in rows(browser, "monthrows"))}
    t.same(max(wanted) in got and min(wanted) == list(got)[-1], True, f"whether the months go back to the first revocation: {list(got)}")
    t.same({month: cells for month, cells in got.items() if cells[0] != "0"}, {month: [str(sum(it)), *(str(n) if n else "·" for n in it)] for month, it in wanted.items()}, "revocations by month")
    # An hour before February, where it is February already. The months are those of UTC.
    browser.ask("Emulation.setTimezoneOverride", timezoneId="Pacific/Kiritimati")
    soon = "ahead = Date.UTC(2027, 1, 1) - 3600000 - Date.now(); showMonths(); ahead = was; return at('monthrows').rows[0].cells[0].innerText"
    t.same(browser.value(f"(() => {{ const was = ahead; {soon}; }})()"), "2027-01", "the last month in another time zone")
    browser.ask("Emulation.setTimezoneOverride", timezoneId="")


def recent(t, desk, browser):
    """Checks the requests of the last 30 days, the latest first. They have the data of the list of all requests."""
    listed = json.loads(desk.ask("GET", "/list/requests").split(b"\r\n\r\n")[1])["rows"]
    of_days = [it for it in reversed(listed) if it["received"] >= moment_of(authority.now() - 30 * DAY)]
    t.same({it["state"] for it in of_days} >= {"open", "revoked", "declined"}, True, "whether the requests are in all three states")
    cells = [row.split("|") for row in rows(browser, "recentrows")]
    when = lambda text: text[:16].replace("T", " ") if text else "–"
    told = [["!" * bool(it["lateness"]) + when(it["received"]), str(it["request"]), it["ground"], it["name"], it["serial"].lstrip("0"), it["state"], when(it["decided"])] for it in of_days]
    t.same([row[:7] for row in cells], told, "requests of the last 30 days")
    late = [span(it["lateness"]) if it["lateness"] else "–" for it in of_days if it["state"] != "open"]
    t.same([row[7] for row in cells if row[5] != "open"], late, "how late the decisions were")
    t.same([row[7] != "–" for row in cells], [bool(it["lateness"]) for it in of_days], "which of these requests were late")


def later(t, year, desk, browser, overdue):
    """Each minute the page reads all again. After Reload it shows new entries. If no desk runs, it reports that and keeps its old contents."""
    numbers = [row.split("|")[2] for row in rows(browser, "requestrows")]
    browser.value("PARTS.forEach(part => part.next = 0), round()")
    later_numbers = [row.split("|")[2] for row in rows(browser, "requestrows")]
    t.same((later_numbers, browser.text_of("open")), (numbers, str(len(year.open))), "open requests a minute later")
    control = t.control()
    first = sorted(year.open)[0][1]
    t.same(control.ask(f"revoke {first}"), "revoked late")
    t.same(control.ask("crl").split(" ")[0], "crl")
    again(browser)
    t.same(texts(browser, "open", "overdue", "health"), [str(len(year.open) - 1), str(overdue - 1), "all is well"],
           "after the overdue request was decided and a CRL was issued")
    t.same(browser.text_of("crlsnote").split(";")[0], str(len(year.crls) + 1), "the number of CRLs, with one more")
    before = rows(browser, "requestrows")
    desk.end()
    again(browser)
    t.has(browser.text_of("fault"), "The desk does not answer (502)", "the fault while no desk runs")
    t.has(browser.text_of("fault"), "What is shown was read at", "the fault while no desk runs")
    t.same((rows(browser, "requestrows"), browser.text_of("open")), (before, str(len(year.open) - 1)), "the old contents while no desk runs")
    t.same((browser.text_of("health"), rows(browser, "healthrows")), ("could not be read", []), "the health while no desk runs")
    t.open("ca.db", "--port", desk.port, "--control", "second")
    again(browser)
    t.same(texts(browser, "fault", "health"), ["", "all is well"], "once a desk runs again")


@test(seconds=15)
def a_register_that_was_left_alone(t):
    """Its latest CRL has ended, and it has revocations of more than a year ago, which are in one row. The browser's clock is two days ahead, so the
    page takes the clock from the answers."""
    now = authority.now()
    ago = lambda days: moment_of(now - days * DAY)
    days = [(480, "subscriber acme"), *[(480, "order 1 398")] * 2, *[(480, f"register {at} 0{at} {ago(480)} {ago(90)}") for at in (1, 2)],
            (450, "request 01 key-compromise"), (450, "revoke 1"), (410, "request 02 superseded"), (410, "revoke 2"),
            *[(200, "order 1 398")] * 2, *[(200, f"register {at} 0{at} {ago(200)} {ago(-190)}") for at in (3, 4)],
            (100, "request 03 asked"), (100, "revoke 3"), (20, "crl"), (0, "request 04 asked")]
    _, _, front, browser = opened(t, "".join(f"{ago(day)} {line}\n" for day, line in days))
    browser.ask("Page.addScriptToEvaluateOnNewDocument", source=f"Date.now = (now => () => now() + {2 * DAY} * 1000)(Date.now)")
    load(browser, front)
    [gap] = [row.removeprefix("!").split("|") for row in rows(browser, "gaprows")]
    since = spans(now - 12 * DAY, now)
    t.has([f"No valid CRL for {it}" for it in since], gap[0], "the gap")
    t.same(gap[1:], [f"from {shown(now - 12 * DAY)}, when CRL 1 ended,", "until now"], "its ends")
    t.has([f"ended {it} ago" for it in since], browser.value("document.querySelector('#crlsnote span').innerText"), "the latest CRL")
    t.same(rows(browser, "monthrows")[-1].split("|"), ["before", "", "2", "1", "1", "·"], "revocations of more than a year ago")
    t.same(texts(browser, "open", "overdue"), ["1", "0"], "open and overdue requests")
    t.has({f"read at {shown(at)} UTC" for at in range(now, authority.now() + 1)}, browser.text_of("asof"), "when the page was read")


@test(seconds=20)
def a_register_that_was_restored(t):
    """The register is replaced by one with fewer requests and CRLs. After Reload, the page shows its numbers, and none of before."""
    now = authority.now()
    first, more = f"{moment_of(now - 2 * DAY)} ", f"{moment_of(now - DAY)} "
    registered = f"register 1 05 {moment_of(now)} {moment_of(now + 90 * DAY)}"
    begun = [first + it for it in ("subscriber acme", "order 1 398", registered, "crl", "request 05 asked")]
    later = [more + it for it in ("request 05 misuse", "decline 1", "crl", "crl")]
    it, desk, front, browser = opened(t, "".join(f"{line}\n" for line in (*begun, *later)))
    load(browser, front)
    numbers = lambda: ([row.split("|")[2] for row in rows(browser, "requestrows")], browser.text_of("crlsnote").split(";")[0])
    t.same(numbers(), (["2"], "3"), "open requests, and how many CRLs there are")
    # A minute later the page reads the requests from the first open one on.
    browser.value("PARTS.forEach(part => part.next = 0), round()")
    lists = browser.value("performance.getEntriesByType('resource').map(it => it.name.split('/list/')[1] || '')")
    asked = [it for it in lists if it.startswith("open-requests")]
    t.same(asked, ["open-requests?limit=250", "open-requests?limit=250&after=1"], "what the page asked for open requests")
    desk.end()
    it.register("older.db")
    t.done("script", "older.db", given="".join(f"{line}\n" for line in begun))
    t.open("older.db", "--port", desk.port, "--control", "second")
    again(browser)
    t.same((numbers(), browser.text_of("fault")), ((["1"], "1"), ""), "open requests, and how many CRLs there are, after the restore; no fault")


@test(seconds=20)
def how_much_the_page_asks_of_the_desk(t):
    """It reads at most 120 of the CRLs that it plots, the first and the last among them. A part whose reading took half a minute is read again after
    five minutes, and not in the next one."""
    begun = authority.now() - 130 * HOUR
    _, _, front, browser = opened(t, "".join(f"{moment_of(begun + at * HOUR)} crl\n" for at in range(130)))
    load(browser, front)
    titles = browser.value("Array.from(document.querySelectorAll('#plot circle title'), it => it.textContent.split(' ')[1])")
    t.same((len(titles), titles[0], titles[-1]), (240, "1", "130"), "points in both plots, the first CRL, and the last one")
    t.has(browser.text_of("gapsnote"), "Entries and bytes are of 120 of the 130 CRLs in this time")
    # While the page reads the open requests, half a minute passes.
    browser.value("""
        var passed = 0, real = fetch, clock = Date.now;
        Date.now = () => clock() + passed;
        fetch = (path, ...more) => { if (path.includes("open-requests")) passed += 30000; return real(path, ...more); };""")
    again(browser)
    waits = browser.value("PARTS.filter(part => part.note === 'requestsnote').map(part => part.next - Date.now())[0]")
    t.true(250_000 < waits <= 400_000, f"the open requests are read again after {waits} ms")


@test(seconds=15)
def a_crl_of_2050(t):
    """From 2050 on, the moments of a CRL are GeneralizedTime, and no UTCTime (RFC 5280 5.1.2.4)."""
    t.clock("2050-01-02T03:04:05Z")
    _, _, front, browser = opened(t, "2049-12-30T00:00:00Z crl\n2050-01-02T03:04:05Z crl\n")
    load(browser, front)
    t.has(browser.text_of("crlsnote"), "2; the latest, of 2050-01-02 03:04 with 0 entries and ", "the latest CRL")


@test(seconds=15)
def a_new_register(t):
    _, _, front, browser = opened(t)
    load(browser, front)
    t.same(texts(browser, "good", "open", "overdue", "ending", "requestsnote", "recentnote", "endingnote", "crlsnote", "monthsnote", "health", "fault"),
           ["0", "0", "0", "0", "none", "none", "none", "none was issued yet", "none", "failing", ""], "what is shown")  # fmt: skip
    t.has("\n".join(rows(browser, "healthrows")), "no CRL was issued yet", "the cause of failing health")
    t.same([rows(browser, name) for name in ("requestrows", "recentrows", "endingrows", "gaprows", "monthrows")], [[]] * 5, "rows of the tables")
    t.same(complaints(browser), [], "errors in the browser's log")


@test(seconds=25)
def a_desk_that_is_away_or_refuses_or_fails(t):
    _, desk, front, browser = opened(t, f"{moment_of(authority.now() - DAY)} subscriber acme\n")
    desk.end()
    load(browser, front)
    t.same(browser.text_of("fault"), "The desk does not answer (502).", "the fault if no desk runs when the page is loaded")
    t.same(texts(browser, "good", "open", "requestsnote", "crlsnote"), ["–", "–", "could not be read", "could not be read"], "what is shown")
    t.clock(authority.now() - 2 * DAY)
    behind = t.open("ca.db", "--port", desk.port, "--control", "second")
    again(browser)
    t.has(browser.text_of("fault"), "The desk's clock is before its last command, and it refuses all until then (E01 clock-back",
          "the fault if the desk's clock is behind")
    t.has("\n".join(rows(browser, "healthrows")), "Clock|is before the last command", "health")
    behind.end()


@test(seconds=15)
def a_store_that_fails(t):
    """If the disk refuses a write, the page goes on with all that can be read. It shows since when the store fails, and what to check."""
    _, desk, front, browser = opened(t)
    desk.end()
    base, files = t.register("base.db"), "ca.db-wal,ca.db"
    for fails in (None, "write"):
        for it in ("ca.db", "ca.db-wal", "second"):
            (t.room / it).unlink(missing_ok=True)
        faults.copy(base, t.room / "ca.db")
        # The first run counts the writes of the opening. In the second run the next write fails.
        how = {"fail": f"write:{faults.counted(t.room / 'count')['write'] + 1}"} if fails else {"count": t.room / "count"}
        desk = t.open("ca.db", "--port", desk.port, "--control", "second", faults=faults.environment(only=files, **how))
        if not fails:
            desk.end()
    t.same(t.control("second").ask("subscriber acme"), "F2 store")
    load(browser, front)
    t.same(texts(browser, "health", "fault", "good"), ["failing", "", "0"], "what is shown")
    [row] = [row for row in rows(browser, "healthrows") if row.startswith("Store|")]
    t.has(row, "Store|since ", "since when")
    t.has(row, "the register could not be read or written. Look at the disk.", "what to do")


@test(seconds=60)
def thousands_of_rows(t):
    """The desk sends lists of thousands of rows in pages. The office view counts all rows, and shows the first ones by deadline."""
    now, most = authority.now(), 3_000
    begun = now - 3 * DAY
    lines = ["subscriber acme"]
    for at in range(1, most + 1):
        lines += ["order 1 398", f"register {at} {at:x} {moment_of(begun)} {moment_of(now + 3 * DAY + (most - at))}"]
    lines = [f"{moment_of(begun)} {it}" for it in lines]
    # A third of the certificates have a request for revocation, over two days. Half of these requests are carried out.
    asked = [(begun + at * 61, at) for at in range(3, most + 1, 3)]
    lines += [f"{moment_of(when)} request {at:x} {'misuse' if at % 2 else 'asked'}" for when, at in asked]
    lines += [f"{moment_of(now - HOUR)} revoke {number}" for number, (_, at) in enumerate(asked, 1) if number % 2]
    folder = authority.in_memory(t)
    _, desk, front, browser = opened(t)
    t.same(t.done("init", folder / "large.db", "--name", "300D310B300906035504030C024341", "--key", "616263"), "created\n")
    told = t.done("script", folder / "large.db", given="\n".join(lines) + "\n").splitlines()
    t.same([it for it in told if it[:1] in "EF"], [], "refusals")
    desk.end()
    t.open(folder / "large.db", "--port", desk.port, "--control", "second")
    load(browser, front)
    left = [(when + (5 if at % 2 else 1) * DAY, number) for number, (when, at) in enumerate(asked, 1) if not number % 2]
    overdue = sum(due < now for due, _ in left)
    t.same(texts(browser, "open", "overdue", "ending"), [f"{it:,}" for it in (len(left), overdue, most - (len(asked) - len(left)))], "counts")
    numbers = lambda: [int(row.split("|")[2]) for row in rows(browser, "requestrows")]
    t.same(numbers(), [number for _, number in sorted(left)][:25], "the first 25 by deadline")
    browser.value("document.getElementById('requestsmore').click()")
    t.same(numbers(), [number for _, number in sorted(left)][:225], "200 more after a click")
    t.same(browser.text_of("endingmore"), "Show 200 more")
    t.same(sum(int(row.split("|")[2]) for row in rows(browser, "monthrows")), len(asked) - len(left), "revocations of all months")
    t.same(complaints(browser), [], "errors in the browser's log")


@test(seconds=15)
def more_rows_than_the_page_keeps(t):
    """It counts 5,010 open requests, which are overdue, and as many certificates that end soon. It can show 5,000 of each."""
    now, count = authority.now(), 5_010
    _, desk, front, browser = opened(t, f"{moment_of(now - HOUR)} subscriber acme\n")
    desk.end()
    numbers, serial = "WITH RECURSIVE row (id) AS (SELECT 1 UNION ALL SELECT id + 1 FROM row WHERE id < ?)", "CAST(printf('%020d', id) AS BLOB)"
    for table, columns in {
        "orders": "id, 1, 398", "cert": f"{serial}, id, {now - 20 * DAY}, {now + 20 * DAY}", "standing": f"{serial}, {now + 20 * DAY}, 'G'",
        "request": f"id, {serial}, 8, {now - 10 * DAY}, 0",
    }.items():  # fmt: skip
        t.sql("ca.db", f"INSERT INTO {table} {numbers} SELECT {columns} FROM row", count)
    t.sql("ca.db", f"UPDATE kept SET n_good = {count}")
    t.open("ca.db", "--port", desk.port, "--control", "second")
    load(browser, front)
    t.same(texts(browser, "good", "open", "overdue", "ending"), ["5,010"] * 4, "counts")
    told = ["5,010, 5,010 overdue; the first 5,000 can be shown", "5,010; the latest 5,000 can be shown", "5,010; the first 5,000 can be shown"]
    t.same(texts(browser, "requestsnote", "recentnote", "endingnote"), told, "open requests, those of 30 days, and certificates that end soon")
    t.same(complaints(browser), [], "errors in the browser's log")


@test(seconds=8)
def the_office_view_is_for_the_office_alone(t):
    need("nginx")
    desk, front = plain(t)
    shows = lambda name: ("--cert", f"{name}.pem", "--key", f"{name}.key")
    paths = ("/office/", "/office/index.html", "/office/list/open-requests", "/office/list/ending?before=2030-01-01T00:00:00Z", "/office/health")
    for path in paths:
        t.same(front.ask(path)[0], 403, f"{path} by plain http")
        t.same(front.ask(path, tls=True)[0], 403, f"{path} without a certificate")
        t.same([front.ask(path, *shows(name), tls=True)[0] for name in ("stranger", "former")], [400, 400],
               f"{path} with a stranger's certificate, and with a revoked one")
        got, fields, _ = front.ask(path, *shows("clerk"), tls=True)
        t.same((got in (200, 503), fields["Cache-Control"]), (True, "no-store"), f"{path} with a clerk's certificate: {got}")
    for path in ("/list/open-requests", "/health", "/metrics", "/office/metrics", "/office/counts"):
        t.same(front.ask(path, *shows("clerk"), tls=True)[0], 404, f"{path} with a clerk's certificate")
    t.same(front.ask("/office/list/nothing", *shows("clerk"), tls=True)[2], b'{"error":"E22 syntax"}', "the desk's own refusal")
    desk.end()
    got, fields, _ = front.ask("/office/health", *shows("clerk"), tls=True)
    t.same((got, fields.get("Cache-Control")), (502, "no-store"), "/office/health while no desk runs")


def plain(t):
    it = Authority(t)
    certificates(t)
    it.register()
    t.done("script", "ca.db", given=authority.first_day(authority.now()))
    desk = t.open("ca.db")
    return desk, Front(t, desk.port)
