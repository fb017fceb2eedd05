"""examples/nginx.conf in Debian's nginx, in front of one desk: the answers, the clients that may post requests for revocation, the cached answers and for
how long, and the greatest age of an answer after a revocation."""

import re
import signal
import subprocess
import time
from concurrent.futures import ThreadPoolExecutor

from lib import authority
from lib.authority import Authority, first_day, path_of
from lib.trial import each, need, test
from lib.web_server import Front, certificates, revoke

# nginx caches an answer for KEPT seconds in tests that wait until it expires, and for LONG seconds in all others.
KEPT, LONG = 4, 60
ASK = '{"serial":"06","ground":"superseded"}'


def opened(t, *names, seconds=LONG):
    """Makes a CA, an open desk, and nginx servers in front of it. In the register 05 is revoked and 06 is good."""
    need("nginx")
    it = Authority(t)
    certificates(t)
    it.register()
    t.done("script", "ca.db", given=first_day(authority.now()))
    desk = t.open("ca.db", "--control", "control")
    return it, desk, [Front(t, desk.port, name, seconds) for name in names]


def setting(name):
    """The words of a setting in examples/nginx.conf, which has it once."""
    [found] = re.findall(rf"^ *{name} +(.*);$", (authority.EXAMPLES / "nginx.conf").read_text(), re.MULTILINE)
    return found.split()


@test
def its_cache_takes_at_most_256_mb(t):
    """A client can request any number of OCSP answers, each at a path of its own. Without the limit they would fill the disk."""
    t.has(setting("proxy_cache_path"), "max_size=256m")


@test
def clients_connect_by_tls_1_2_or_1_3(t):
    """Older versions are broken (RFC 8996)."""
    t.same(setting("ssl_protocols"), ["TLSv1.2", "TLSv1.3"])


@test(seconds=6)
def what_is_answered(t):
    it, _, [front] = opened(t, "front")
    for serial, told in (("05", "revoked"), ("06", "good"), ("07", "unknown")):
        t.same(it.asked_by_openssl(serial, front.url("/ocsp")), told, f"{serial} by POST, with a nonce")
        for way, path in (("", path_of(it.asks(serial))), (", slashes and all as they are", path_of(it.asks(serial), quoted=False))):
            status, fields, body = front.ask(path)
            got = (status, fields["Content-Type"], it.reads(serial, body, verify=False))
            t.same(got, (200, "application/ocsp-response", told), f"{serial} by GET{way}")
    for path in ("/crl", "/crl/1"):
        status, fields, body = front.ask(path)
        t.same((status, fields["Content-Type"], list(authority.listed(t, body))), (200, "application/pkix-crl", [5]), path)
    t.same(front.ask("/crl/2")[::2], (404, b'{"error":"E21 no-crl"}'), "a CRL that the desk has not issued")
    t.same(front.ask("/status/06", tls=True)[::2], (200, b'{"status":"good"}'), "a status by https")
    t.same([front.ask(path)[0] for path in ("/status/06", "/counts", "/board/")], [404] * 3, "status, counts and board over plain http")
    t.same(front.ask("/counts", tls=True)[::2], (200, b'{"expired":0,"good":1,"revoked":1}'))
    status, fields, body = front.ask("/board/", tls=True)
    t.same((status, fields["Content-Type"], b"One certificate" in body), (200, "text/html", True), "the board")
    t.same(front.ask("/nowhere")[0], 404, "a path without a route")
    t.same(front.ask("/ocsp", "--data-binary", "@-", given=b"\0" * 65_537)[0], 413, "a body of 65,537 bytes")


# The path of the OCSP URL in certificates from before this desk.
OLD_URLS = {"with a slash": "/", "with none": ""}


@each(OLD_URLS, seconds=5)
def ocsp_at_the_url_of_an_older_certificate(t, end):
    it, _, [front] = opened(t, "front")
    for serial, told in (("05", "revoked"), ("06", "good"), ("07", "unknown")):
        t.same(it.asked_by_openssl(serial, f"http://127.0.0.1:{front.port}{end}"), told, f"{serial} by POST, with a nonce")
        # A client appends a slash and the base64 to the URL (RFC 6960 A.1). If the URL ends with a slash, there are two.
        for way, path in (("quoted", path_of(it.asks(serial))), ("as it is", path_of(it.asks(serial), quoted=False))):
            status, fields, body = front.ask(end + path.removeprefix("/ocsp"))
            t.same((status, fields["Content-Type"], it.reads(serial, body, verify=False)), (200, "application/ocsp-response", told), f"{serial} by GET, {way}")


@test(seconds=5)
def the_urls_of_older_certificates(t):
    it, desk, [front] = opened(t, "front")
    status, fields, crl = front.ask("/ca.crl")
    t.same((status, fields["Content-Type"], list(authority.listed(t, crl))), (200, "application/pkix-crl", [5]), "the CRL at its file name")
    t.same(fields["Cache-Control"], f"public, max-age={LONG}, must-revalidate", "Cache-Control of the CRL at its file name")
    t.same(front.state("/crl"), "HIT", "/crl, which is the same cache entry as /ca.crl")
    # A request whose base64 has both `/` and `+`.
    path = next(path for path in (path_of(it.asks(f"{serial:x}"), quoted=False) for serial in range(0xFFF0, 0xFFFFF)) if "/" in path[6:] and "+" in path)
    old = path.removeprefix("/ocsp")
    states = [front.state(one) for one in (old, old, "/" + old, path, old + "?x=1")]
    t.same(states, ["MISS", "HIT", "HIT", "HIT", "HIT"], f"cache states: {old} twice, with two slashes, under /ocsp, with a query")
    t.same(front.ask(old)[1]["Cache-Control"], f"public, max-age={LONG}, no-transform, must-revalidate")
    t.same([front.ask("/MAAA")[2].hex(), front.state("/MAAA"), front.ask("/MAAA")[1]["Cache-Control"]], ["30030a0101", "MISS", "no-store"],
           "a refusal: its bytes, cache state and Cache-Control")
    for path in ("/", "/%4DFQ", "/ca.pem", "/mfQ", "/ca.crl/1"):
        t.same(front.ask(path)[0], 404, f"GET {path}")
    t.same(front.ask("/", "--data-binary", "@-", given=b"\0" * 65_537)[0], 413, "a body of 65,537 bytes")
    t.same(front.ask("/ca.crl", "-d", "x")[0], 405, "POST of the CRL")
    t.same(front.ask("/ca.crl.pem")[0], 404, "the PEM before one is published")
    (front.folder / "share/ca.crl.pem").write_bytes(t.tool("openssl", "crl", "-inform", "DER", given=crl))
    status, fields, pem = front.ask("/ca.crl.pem")
    t.same((status, fields["Content-Type"], t.tool("openssl", "crl", "-outform", "DER", given=pem) == crl), (200, "application/x-pem-file", True))
    t.same(fields["Cache-Control"], f"public, max-age={LONG}, must-revalidate", "Cache-Control of the PEM")
    desk.end()
    t.same((front.ask("/ca.crl.pem")[0], front.ask("/", "--data-binary", "@-", given=it.asks("06"))[0]), (200, 502),
           "the PEM, and OCSP by POST, while no desk runs")


@test(seconds=5)
def users_that_may_post_requests(t):
    _, _, [front] = opened(t, "front")
    shows = lambda name: ("--cert", f"{name}.pem", "--key", f"{name}.key")
    control = t.control()
    t.same(front.ask("/requests", "-d", ASK)[0], 403, "a POST by plain http")
    t.same(front.ask("/requests", "-d", ASK, tls=True)[0], 403, "a POST without a client certificate")
    t.same(front.ask("/requests", *shows("stranger"), "-d", ASK, tls=True)[0], 400, "a POST with a stranger's certificate")
    t.same(front.ask("/requests", *shows("former"), "-d", ASK, tls=True)[0], 400, "a POST with a certificate that the office revoked")
    t.same(front.ask("/requests", *shows("clerk"), tls=True)[0], 403, "a clerk's GET")
    # None of these reached the desk, so the next request for revocation has number 2.
    status, _, body = front.ask("/requests", *shows("clerk"), "-d", ASK, tls=True)
    t.same((status, b'"request":2' in body), (200, True), f"a clerk's POST, with the response {body!r}")
    t.same(control.ask("revoke 2"), "revoked", "the decision on the clerk's request")
    told = [line.split('"')[1::2] for line in (front.folder / "desk.log").read_text().splitlines() if "POST /requests" in line]
    wanted = ["-", "-", "CN=stranger", "CN=former,O=The Office", "CN=clerk,O=The Office"]
    t.same(told, [[user, "POST /requests HTTP/1.1"] for user in wanted], "the client certificates and requests in nginx's log")


@test(seconds=6)
def a_client_certificate_that_is_revoked(t):
    """nginx accepts a revoked client certificate until it is reloaded, and then reads the CRL that lists it. Other clients are not affected."""
    _, _, [front] = opened(t, "front")
    posts = lambda: front.ask("/requests", "--cert", "clerk.pem", "--key", "clerk.key", "-d", ASK, tls=True)[0]
    t.same(posts(), 200, "a clerk's POST before the revocation")
    revoke(t, "clerk")
    (front.folder / "office.crl").write_bytes((t.room / "office.crl").read_bytes())
    t.same(posts(), 200, "a clerk's POST while nginx has the CRL from its start")
    front.process.send_signal(signal.SIGHUP)
    authority.until(lambda: posts() == 400, "the reloaded nginx to refuse the revoked certificate")
    t.same(front.ask("/counts", tls=True)[0], 200, "a client without a certificate")


@test(seconds=12)
def what_is_cached_and_for_how_long(t):
    it, desk, [front, other] = opened(t, "front", "other")
    path = path_of(it.asks("06"))
    t.same([front.state(path), front.state(path)], ["MISS", "HIT"], "OCSP by GET")
    t.same(front.state(path + "?x=1"), "HIT", "the same path with a query")
    t.same(other.state(path), "MISS", "the first request to the other server")
    t.same([front.state("/ocsp/AAAA"), front.state("/ocsp/AAAA")], ["MISS", "MISS"], "a refusal, which is not cached")
    t.same(front.ask("/ocsp/AAAA")[1]["Cache-Control"], "no-store", "Cache-Control of a refusal")
    t.same(front.ask(path)[1]["Cache-Control"], f"public, max-age={LONG}, no-transform, must-revalidate", "Cache-Control of an OCSP answer")
    t.same([front.state("/crl/1"), front.state("/crl/1")], ["MISS", "HIT"], "a CRL by number")
    t.same(front.ask("/crl/1")[1]["Cache-Control"], "public, max-age=3600", "Cache-Control of a CRL by number")
    t.same([front.state("/crl"), front.state("/crl")], ["MISS", "HIT"], "the latest CRL")
    t.same(front.ask("/crl")[1]["Cache-Control"], f"public, max-age={LONG}, must-revalidate", "Cache-Control of the latest CRL")
    before = front.asked_of_desk()
    t.same([front.ask("/crl/2")[0], front.ask("/crl/2")[0]], [404, 404], "a CRL that the desk has not issued")
    # nginx writes to its log after it has answered.
    authority.until(lambda: front.asked_of_desk() == before + 2, "two requests to the desk")
    for route in ("/status/06", "/counts"):
        t.same(front.ask(route, tls=True)[1]["Cache-Control"], "no-store", route)
    # Two OCSP requests may differ only in a slash, since base64 has slashes.
    t.same([front.state("/ocsp/a//b"), front.state("/ocsp/a/b")], ["MISS", "MISS"], "two paths that differ only in a slash")
    brief = Front(t, desk.port, "brief", KEPT)
    t.same([brief.state(path), brief.state("/crl/1")], ["MISS", "MISS"], f"a server that caches answers for {KEPT} s")
    time.sleep(KEPT + 1)
    t.same(brief.state(path), "EXPIRED", "OCSP by GET once the cached answer expired")
    t.same(brief.state("/crl/1"), "HIT", "a CRL by number, which is cached for an hour")


@test(seconds=12)
def how_old_an_answer_can_be(t):
    it, _, [front] = opened(t, "front", seconds=KEPT)
    path, control = path_of(it.asks("06")), t.control()
    front.state("/crl")
    told = lambda: it.reads("06", front.ask(path)[2], verify=False)
    # nginx caches the answer between these two moments.
    before = time.monotonic()
    t.same(told(), "good")
    made = time.monotonic()
    t.same([control.ask("request 06 superseded").split()[0], control.ask("revoke 2"), control.ask("crl")], ["request", "revoked", "crl 2 entries 2"])
    status, fields, body = front.ask(path)
    # On a slow machine the cached answer may have expired.
    if time.monotonic() - before < KEPT:
        t.same((fields["X-Cache-Status"], it.reads("06", body, verify=False)), ("HIT", "good"), "a cached answer right after the revocation")
    t.same(it.asked_by_openssl("06", front.url("/ocsp")), "revoked", "OCSP by POST, which is never cached")
    # `last` is when the last old answer was requested: the moment of its arrival depends on the load of the machine too. nginx counts whole seconds.
    last = made
    while time.monotonic() < made + 120:
        at = time.monotonic()
        if told() != "good":
            break
        last = at
        time.sleep(0.1)
    t.true(last - made <= KEPT + 1.5, f"nginx sent an answer that was {last - made:.1f} s old, and caches answers for {KEPT} s")
    t.same(told(), "revoked", "OCSP by GET once the cached answer expired")
    authority.until(lambda: 6 in authority.listed(t, front.ask("/crl")[2]), "the latest CRL to list 06")


@test(seconds=12)
def an_old_answer_is_never_sent_while_the_desk_is_away(t):
    it, desk, [front] = opened(t, "front", seconds=KEPT)
    path = path_of(it.asks("06"))
    t.same(front.state(path), "MISS")
    desk.end()
    t.same(front.ask("/ocsp", "--data-binary", "@-", given=it.asks("06"))[0], 502, "OCSP by POST")
    time.sleep(KEPT + 1)
    t.same(front.ask(path)[0], 502, "OCSP by GET once the cached answer expired")
    t.open("ca.db", "--control", "control", "--port", desk.port)
    t.same((front.ask(path)[0], it.asked_by_openssl("06", front.url("/ocsp"))), (200, "good"), "once a desk runs again")


def asked_by_curl(url):
    """The status and the body of a response."""
    told = subprocess.run(["curl", "-s", "-w", "%{http_code}", url], capture_output=True, check=True).stdout
    return int(told[-3:]), told[:-3]


@test(seconds=5)
def of_many_readers_one_goes_to_the_desk(t):
    it, _, [front] = opened(t, "front")
    before, path = front.asked_of_desk(), path_of(it.asks("06"))

    with ThreadPoolExecutor(16) as pool:
        got = set(pool.map(lambda _: asked_by_curl(front.url(path))[1], range(48)))
    t.same(len(got), 1, "how many different answers came")
    t.same(it.reads("06", got.pop(), verify=False), "good")
    authority.until(lambda: front.asked_of_desk() > before, "a request to the desk")
    t.same(front.asked_of_desk() - before, 1, "requests that nginx sent to the desk")


@test(seconds=12)
def readers_of_an_answer_that_takes_seconds_wait_for_it(t):
    """The signer takes more than six seconds for the answer. One of the readers goes to the desk, and the others get the same answer."""
    need("nginx")
    it = Authority(t)
    certificates(t)
    it.register()
    t.signer(answer=lambda message, call: time.sleep(6.5) or it.sign(message))
    front = Front(t, t.open("ca.db", *it.signing()).port)
    path = path_of(it.asks("06"))
    with ThreadPoolExecutor(8) as pool:
        got = list(pool.map(lambda _: asked_by_curl(front.url(path)), range(8)))
    t.same((len(set(got)), got[0][0]), (1, 200), "how many different answers came, and the status of the first")
    t.same(it.reads("06", got[0][1]), "unknown")
    authority.until(front.asked_of_desk, "a request to the desk")
    t.same(front.asked_of_desk(), 1, "requests that nginx sent to the desk")


@test(seconds=6)
def two_servers_answer_as_many_as_wrk_asks(t):
    need("wrk")
    it, _, fronts = opened(t, "front", "other")
    before, path = [front.asked_of_desk() for front in fronts], path_of(it.asks("06"))
    asks = lambda front: t.tool("wrk", "-t", 1, "-c", 16, "-d", 1, front.url(path)).decode()
    with ThreadPoolExecutor(2) as pool:
        for told in pool.map(asks, fronts):
            t.true(not re.search("Non-2xx|Socket errors", told), told)
            t.true(float(re.search(r"Requests/sec:\s+([0-9.]+)", told)[1]) > 100, told)
    asked = lambda: [front.asked_of_desk() - first for front, first in zip(fronts, before)]
    authority.until(lambda: 0 not in asked(), "a request of each nginx to the desk")
    t.same(asked(), [1, 1], "requests that each nginx sent to the desk")
