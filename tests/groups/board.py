"""Debian's headless Chromium shows examples/board/index.html. nginx serves it with examples/nginx.conf, in front of a desk whose register has
good, revoked and expired certificates and CRLs of forty days. The test types serial numbers, presses the buttons, and compares the
contents of the page. BOARD_PICTURE=FILE.png keeps a picture of it."""

import base64
import json
import os
import subprocess
import time

from lib import authority
from lib.authority import DAY, Authority, moment_of
from lib.trial import Failed, each, need, test
from lib.web_server import Front, certificates


def span(seconds):
    """A duration, as the pages show it."""
    minutes = int(abs(seconds)) // 60
    days, hours = minutes // 1440, minutes // 60 % 24
    return f"{days} d {hours} h" if days else f"{hours} h {minutes % 60} min" if hours else f"{minutes} min"


def spans(moment, since):
    """The durations between a moment and any second since another one, until now."""
    return {span(moment - at) for at in range(since - 1, authority.now() + 2)}


def shown(at):
    return time.strftime("%Y-%m-%d %H:%M:%S UTC", time.gmtime(at))


class Browser:
    """Chromium, controlled over a pipe by the Chrome DevTools Protocol."""

    def __init__(self, t):
        theirs_in, self.out = os.pipe()
        self.read, theirs_out = os.pipe()
        for it in (theirs_in, theirs_out):
            os.set_inheritable(it, True)
        words = ["chromium", "--headless=new", "--no-sandbox", "--disable-gpu", "--hide-scrollbars", "--ignore-certificate-errors", "--remote-debugging-pipe",
                 f"--user-data-dir={t.room}/chromium", "about:blank"]
        self.chromium = subprocess.Popen(
            ["bash", "-c", f'exec "$@" 3<&{theirs_in} 4>&{theirs_out}', "bash", *words], close_fds=False, stdin=subprocess.DEVNULL,
            stdout=subprocess.DEVNULL, stderr=subprocess.DEVNULL, env=dict(os.environ, HOME=str(t.room)),
        )
        t.callback(self.end)
        os.close(theirs_in)
        os.close(theirs_out)
        self.held, self.number, self.session, self.complaints = b"", 0, None, []
        target = self.ask("Target.createTarget", url="about:blank")["targetId"]
        self.session = self.ask("Target.attachToTarget", targetId=target, flatten=True)["sessionId"]
        for part in ("Page", "Runtime", "Log"):
            self.ask(f"{part}.enable")
        self.ask("Emulation.setDeviceMetricsOverride", width=820, height=650, deviceScaleFactor=1, mobile=False)

    def message(self):
        while b"\0" not in self.held:
            got = os.read(self.read, 1 << 20)
            if not got:
                raise Failed("chromium ended")
            self.held += got
        text, _, self.held = self.held.partition(b"\0")
        return json.loads(text)

    def ask(self, method, **words):
        self.number += 1
        asked = {"id": self.number, "method": method, "params": words}
        if self.session:
            asked["sessionId"] = self.session
        os.write(self.out, json.dumps(asked).encode() + b"\0")
        while True:
            got = self.message()
            if got.get("method") in ("Runtime.exceptionThrown", "Log.entryAdded"):
                self.complaints.append(json.dumps(got["params"])[:300])
            if got.get("id") == self.number:
                if "error" in got:
                    raise Failed(f"{method}: {got['error']}")
                return got["result"]

    def value(self, text):
        return self.ask("Runtime.evaluate", expression=text, awaitPromise=True, returnByValue=True)["result"].get("value")

    def text_of(self, name):
        return self.value(f"document.getElementById('{name}').innerText")

    def until(self, text):
        authority.until(lambda: self.value(text), text)

    def press(self, selector):
        box = f"document.querySelector('{selector}').getBoundingClientRect()"
        place = self.value(f"(() => {{ const it = {box}; return [it.x + it.width / 2, it.y + it.height / 2]; }})()")
        for kind in ("mousePressed", "mouseReleased"):
            self.ask("Input.dispatchMouseEvent", type=kind, x=place[0], y=place[1], button="left", clickCount=1)

    def picture(self, path):
        with open(path, "wb") as file:
            file.write(base64.b64decode(self.ask("Page.captureScreenshot", captureBeyondViewport=True)["data"]))

    def end(self):
        self.chromium.terminate()
        try:
            self.chromium.wait(10)
        except subprocess.TimeoutExpired:
            self.chromium.kill()
            self.chromium.wait()
        os.close(self.out)
        os.close(self.read)


class Days:
    """The script of forty days, and what the page must say of each serial number. 0b is revoked in the same second as CRL 2, but after it. 07 expires
    on day 10. 08 is revoked after the latest CRL. 09 expired unrevoked."""

    def __init__(self):
        self.begun = authority.now() - 40 * DAY
        text = lambda day: moment_of(self.after(day))
        ends = {"05": 90, "06": 90, "07": 10, "08": 90, "09": 5, "0b": 90}
        rows = [(0, "subscriber acme"), *[(0, "order 1 398")] * 6]
        rows += [(0, f"register {order} {serial} {text(0)} {text(day)}") for order, (serial, day) in enumerate(ends.items(), 1)]
        rows += [(0, "crl"), (1, "request 05 key-compromise"), (1, "revoke 1"), (1, "crl"), (1, "request 0b superseded"), (1, "revoke 2")]
        rows += [(2, "request 07 cessation"), (2, "revoke 3"), *((day, "crl") for day in (3, 12, 13, 20, 27, 34, 39))]
        rows += [(39.5, "request 08 misuse"), (39.5, "revoke 4")]
        self.lines = "".join(f"{text(day)} {line}\n" for day, line in rows)
        at = lambda day: shown(self.after(day))
        self.told = {
            "05": f"revoked on {at(1)}, reason 1 keyCompromise\nFirst listed by CRL 2 of {at(1)}, and by each one since.",
            "00:0B": f"revoked on {at(1)}, reason 4 superseded\nFirst listed by CRL 3 of {at(3)}, and by each one since.",
            "07": f"revoked on {at(2)}, reason 5 cessationOfOperation\nFirst listed by CRL 3 of {at(3)}, last by CRL 4 of {at(12)}.",
            "0x08": f"revoked on {at(39.5)}, reason 9 privilegeWithdrawn\nNo CRL lists it yet.",
            "09": "expired", "06": "good", "99": "unknown", "zz": "A serial number is 1 to 40 hexadecimal digits.",
        }

    def after(self, days):
        return self.begun + int(days * DAY)


def loaded(browser):
    number = "document.getElementById('number')"
    browser.until(f"document.readyState === 'complete' && {number} !== null && {number}.innerText !== '–'")


@test(seconds=20)
def the_board_shows_what_the_desk_says(t):
    need("chromium", "nginx")
    it, days = Authority(t, subject="/O=Example/CN=Example CA"), Days()
    certificates(t)
    it.register()
    replies = t.done("script", "ca.db", given=days.lines).splitlines()
    t.same([reply for reply in replies if reply[0] in "EF"], [], "refusals")
    crl = t.done("crl", "ca.db").encode("latin-1")
    desk = t.open("ca.db", "--requests", "1000", command="serve")
    front = Front(t, desk.port, seconds=1)
    browser = Browser(t)
    browser.ask("Page.navigate", url=front.url("/board/", tls=True))
    before = authority.now()
    loaded(browser)
    wanted = {"good": "1", "revoked": "4", "expired": "1", "issuer": "Example CA", "number": "9", "entries": "2",
              "this": shown(days.after(39)), "next": shown(days.after(47))}
    t.same({name: browser.text_of(name) for name in wanted}, wanted, "what the page shows")
    t.has(spans(days.after(47), before), browser.text_of("holds"), "for how long the CRL is still valid")
    for serial, told in days.told.items():
        browser.value("document.getElementById('serial').value = ''; document.getElementById('said').innerText = ''")
        browser.press("#serial")
        browser.ask("Input.insertText", text=serial)
        browser.press("#ask button")
        browser.until("!['', '…'].includes(document.getElementById('said').innerText)")
        t.same(browser.text_of("said"), told, f"serial number {serial}")
        if serial == "07" and "BOARD_PICTURE" in os.environ:
            browser.picture(os.environ["BOARD_PICTURE"])
    browser.ask("Browser.setDownloadBehavior", behavior="allow", downloadPath=f"{t.room}/fetched")
    browser.press("#fetch")
    fetched = t.room / "fetched/latest.crl"
    authority.until(fetched.exists, "the CRL that the button fetches")
    t.same(fetched.read_bytes() == crl, True, "whether the fetched CRL is that of `desk crl`")
    t.same(browser.complaints, [], "exceptions and log entries of the page")
    little(t, it, desk, browser)


def asked_for(browser, serial):
    """Types a serial number, and presses the button."""
    browser.value("document.getElementById('serial').value = ''")
    browser.press("#serial")
    browser.ask("Input.insertText", text=serial)
    browser.press("#ask button")


@test(seconds=15)
def answers_that_come_late_or_fail(t):
    """The answer about the first of two serial numbers comes last, and is not shown. If a CRL can't be fetched, the board fetches it again for the
    next answer."""
    need("chromium", "nginx")
    it = Authority(t, subject="/O=Example/CN=Example CA")
    certificates(t)
    it.register()
    t.done("script", "ca.db", given=authority.first_day(authority.now()))
    desk = t.open("ca.db", "--requests", "1000", command="serve")
    browser = Browser(t)
    browser.ask("Page.navigate", url=Front(t, desk.port, seconds=1).url("/board/", tls=True))
    loaded(browser)
    # The page gets the status of 05 once the test says so.
    browser.value("""
        var release, fetched = 0, real = fetch;
        const held = new Promise(done => { release = done; });
        fetch = async (path, ...more) => {
          const answer = await real(path, ...more);
          if (path === "/status/5") await held;
          if (path === "/crl/1") fetched++;
          return answer;
        };""")
    for serial in ("05", "06"):
        asked_for(browser, serial)
    browser.until("document.getElementById('said').innerText === 'good'")
    browser.value("release()")
    browser.until("fetched === 1")
    # In this time the page would show what it knows of 05 now.
    time.sleep(0.5)
    t.same(browser.text_of("said"), "good", "what is shown of 06")
    browser.ask("Page.reload")
    loaded(browser)
    browser.value("""
        var fails = 1, real = fetch;
        fetch = async (path, ...more) => {
          if (path === "/crl/1" && fails-- > 0) throw new Error("away");
          return real(path, ...more);
        };""")
    for told in ("The desk answers: away", "First listed by CRL 1 of "):
        asked_for(browser, "05")
        browser.until(f"document.getElementById('said').innerText.includes('{told}')")


@test(seconds=15)
def few_crls_are_fetched(t):
    """The board finds the first and the last of 200 CRLs that list a serial number, and fetches few of them."""
    need("chromium", "nginx")
    it = Authority(t, subject="/O=Example/CN=Example CA")
    certificates(t)
    it.register()
    begun = authority.now() - 200 * 3600
    at = lambda hours: moment_of(begun + hours * 3600)
    lines = [f"{at(0)} {it}" for it in ("subscriber acme", "order 1 398", f"register 1 05 {at(0)} {at(150)}", "request 05 asked")]
    for hours in range(1, 200):
        lines += [f"{at(hours)} revoke 1"] * (hours == 60) + [f"{at(hours)} crl"]
    t.done("script", "ca.db", given="".join(f"{line}\n" for line in lines))
    desk = t.open("ca.db", "--requests", "1000", command="serve")
    browser = Browser(t)
    browser.ask("Page.navigate", url=Front(t, desk.port, seconds=1).url("/board/", tls=True))
    loaded(browser)
    asked_for(browser, "05")
    browser.until("document.getElementById('said').innerText.includes('First listed')")
    t.has(browser.text_of("said"), f"First listed by CRL 60 of {shown(begun + 60 * 3600)}, last by CRL 151 of {shown(begun + 151 * 3600)}.")
    count = browser.value("performance.getEntriesByType('resource').filter(it => it.name.includes('/crl/')).length")
    t.true(count <= 20, f"{count} CRLs were fetched")


@test(seconds=15)
def a_browser_whose_clock_is_ahead(t):
    """The browser's clock is ten days ahead, and the latest CRL is valid for eight days."""
    need("chromium", "nginx")
    it = Authority(t, subject="/O=Example/CN=Example CA")
    certificates(t)
    it.register()
    issued = authority.now()
    t.done("script", "ca.db", given=f"{moment_of(issued)} crl\n")
    desk = t.open("ca.db", "--requests", "1000", command="serve")
    browser = Browser(t)
    browser.ask("Page.addScriptToEvaluateOnNewDocument", source=f"Date.now = (now => () => now() + {10 * DAY} * 1000)(Date.now)")
    before = authority.now()
    browser.ask("Page.navigate", url=Front(t, desk.port, seconds=1).url("/board/", tls=True))
    loaded(browser)
    browser.until("document.getElementById('holds').innerText !== '–'")
    t.has(spans(issued + 8 * DAY, before), browser.text_of("holds"), "for how long the CRL is still valid")


@test(seconds=15)
def a_crl_of_2050(t):
    """From 2050 on, the moments of a CRL are GeneralizedTime, and no UTCTime (RFC 5280 5.1.2.4)."""
    need("chromium", "nginx")
    it = Authority(t, subject="/O=Example/CN=Example CA")
    certificates(t)
    it.register()
    t.done("script", "ca.db", given="2049-12-30T00:00:00Z crl\n2050-01-02T03:04:05Z crl\n")
    t.clock("2050-01-02T03:04:05Z")
    desk = t.open("ca.db", "--requests", "1000", command="serve")
    browser = Browser(t)
    browser.ask("Page.navigate", url=Front(t, desk.port, seconds=1).url("/board/", tls=True))
    loaded(browser)
    wanted = {"number": "2", "this": "2050-01-02 03:04:05 UTC", "next": "2050-01-10 03:04:05 UTC", "fault": ""}
    t.same({name: browser.text_of(name) for name in wanted}, wanted, "what the page shows")


# What a script in a page might do to send what the page shows to another server, and the directive of the page's policy that forbids it.
SENDS = {
    "img-src": "new Image().src = url", "connect-src": "fetch(url).catch(() => {})", "frame-src": "add('iframe', { src: url })",
    "script-src-elem": "add('script', { src: url })", "style-src-elem": "add('link', { rel: 'stylesheet', href: url })",
    "media-src": "add('video', { src: url })",
}


@each({name: name for name in ("board", "office")}, seconds=5)
def a_page_requests_nothing_of_another_server(t, name):
    """The pages show what others chose, such as the names of subscribers. Their policy (Content Security Policy) allows requests to their own server
    alone."""
    need("chromium")
    browser = Browser(t)
    browser.ask("Page.navigate", url=f"file://{authority.EXAMPLES / name / 'index.html'}")
    browser.until("document.readyState === 'complete'")
    found = {directive: browser.value(f"""new Promise(done => {{
        const url = "http://127.0.0.1:1/", add = (kind, words) => document.body.append(Object.assign(document.createElement(kind), words));
        document.addEventListener("securitypolicyviolation", it => it.blockedURI.startsWith(url.slice(0, -1)) && done(it.effectiveDirective));
        setTimeout(() => done("nothing"), 5000);
        {script};
    }})""") for directive, script in SENDS.items()}
    t.same(found, {it: it for it in SENDS}, "the directives that forbid requests to another server")


def little(t, it, desk, browser):
    """The page shows an empty register. Once no desk runs, it shows an error."""
    desk.end()
    it.register("new.db")
    second = t.open("new.db", "--requests", "1000", "--port", desk.port, command="serve")
    # The answers that nginx cached for a second have expired; nginx counts whole seconds.
    time.sleep(2.1)
    browser.ask("Page.reload")
    loaded(browser)
    t.same([browser.text_of(name) for name in ("good", "number", "holds", "fault")], ["0", "none was issued yet", "–", ""], "a new register")
    second.end()
    browser.ask("Page.reload")
    browser.until("document.getElementById('fault') !== null && document.getElementById('fault').innerText !== ''")
    t.same(browser.text_of("fault"), "The desk answers: 502", "the error without a desk")
