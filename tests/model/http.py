"""HTTP requests, made from their parts, and the responses that they must have (RFC 9110, RFC 9112)."""

import base64
import json
import re
from urllib.parse import unquote_to_bytes

from . import crls, lines, moments, ocsp
from .register import GROUNDS, Refused, refuse

# 413 has its older phrase (RFC 7231 6.5.11).
PHRASES = {
    200: "OK", 400: "Bad Request", 404: "Not Found", 405: "Method Not Allowed", 409: "Conflict", 411: "Length Required", 413: "Payload Too Large",
    429: "Too Many Requests", 431: "Request Header Fields Too Large", 503: "Service Unavailable",
}
BASE64 = re.compile(rb"[A-Za-z0-9+/]*={0,2}")
LONGEST_BODY = 65_536


def request(method, target, fields=(), body=b""):
    """The bytes of a request. Its Content-Length must be one of `fields`."""
    head = [f"{method} {target} HTTP/1.1", *fields, "", ""]
    return "\r\n".join(head).encode("latin-1") + body


def response(now, status, body, kind="application/json", allow=None):
    head = [f"HTTP/1.1 {status} {PHRASES[status]}", f"Date: {moments.http_date(now)}"]
    head += [f"Allow: {allow}"] * bool(allow) + ["Retry-After: 60"] * (status == 429)
    head += [f"Content-Type: {kind}", f"Content-Length: {len(body)}", "Connection: close", "", ""]
    return "\r\n".join(head).encode() + body


def error(now, status, line, **more):
    return response(now, status, f'{{"error":"{line}"}}'.encode(), **more)


def refused_head(method, target, fields):
    """The status of a head that is refused, or None."""
    names = [it.partition(":") for it in fields]
    if len(fields) > 64:
        return 431
    if any(not colon or not re.fullmatch(r"[A-Za-z0-9!#$%&'*+.^_`|~-]+", name) for name, colon, _ in names):
        return 400
    if method != "POST":
        return None
    if any(name.lower() == "transfer-encoding" for name, _, _ in names):
        return 411
    lengths = [value.strip(" \t") for name, _, value in names if name.lower() == "content-length"]
    if not lengths:
        return 411
    if len(lengths) > 1 or not re.fullmatch("[0-9]{1,18}", lengths[0]):
        return 400
    return 413 if int(lengths[0]) > LONGEST_BODY else None


def answer(register, now, method, target, fields=(), body=b""):
    """The bytes of the response to a request of these parts."""
    status = refused_head(method, target, fields) or (None if target.startswith("/") else 400)
    if status:
        return error(now, status, status)
    has, work = route(target.partition("?")[0])
    if has is None:
        return error(now, 404, 404)
    if has != method:
        return error(now, 405, 405, allow=has)
    try:
        return work(register, now, body)
    except Refused as refused:
        line = str(refused)
        return error(now, {"E22": 400, "E21": 404}.get(line[:3], 409), line)


def route(path):
    """The method that the path's route has, and the function that answers there."""
    _, first, *rest = path.split("/", 2)
    one = rest[0] if rest and rest[0] and "/" not in rest[0] else None
    if first == "ocsp" and rest and rest[0]:
        return "GET", lambda register, now, body: ocsp_by_get(register, now, rest[0])
    if first in ("crl", "status") and one:
        return "GET", lambda register, now, body: {"crl": crl_of, "status": status_of}[first](register, now, one.encode("latin-1"))
    latest = lambda register, now, body: crl_of(register, now, None)
    plain = {"ocsp": ("POST", answered), "crl": ("GET", latest), "counts": ("GET", counts), "requests": ("POST", requested)}
    return plain.get(first, (None, None)) if not rest else (None, None)


def answered(register, now, body):
    return response(now, 200, ocsp.answer(register, now, body), kind="application/ocsp-response")


def ocsp_by_get(register, now, text):
    """The response to a text that is percent-decoded, and then must be base64 with padding (RFC 6960 A.1, RFC 4648 4)."""
    decoded = unquote_to_bytes(text)
    given = None
    if BASE64.fullmatch(decoded) and len(decoded) % 4 == 0:
        given = base64.b64decode(decoded)
        # The bits after the last byte must be zero.
        given = given if base64.b64encode(given) == decoded else None
    if given is None:
        return response(now, 200, ocsp.MALFORMED, kind="application/ocsp-response")
    return answered(register, now, given)


def crl_of(register, now, text):
    number = len(register.crls) if text is None else lines.number(text)
    refuse(not 1 <= number <= len(register.crls), "E21 no-crl")
    return response(now, 200, crls.crl(register, number), kind="application/pkix-crl")


def as_json(now, value):
    return response(now, 200, json.dumps(value, sort_keys=True, separators=(",", ":")).encode())


def status_of(register, now, text):
    told = register.ask(now, "status", lines.serial(text))
    if not told.startswith("revoked"):
        return as_json(now, {"status": told})
    _, at, _, reason = told.split()
    return as_json(now, {"status": "revoked", "at": at, "reason": int(reason)})


def counts(register, now, body):
    words = register.ask(now, "counts").split()
    return as_json(now, {words[i]: int(words[i + 1]) for i in (0, 2, 4)})


def requested(register, now, body):
    try:
        value = json.loads(body.decode())
    except ValueError:
        value = None
    texts = [value.get(it) for it in ("serial", "ground")] if isinstance(value, dict) else [None]
    refuse(not all(isinstance(it, str) for it in texts), lines.SYNTAX)
    serial, ground = lines.serial(texts[0].encode()), lines.word(texts[1].encode())
    # The register refuses a request on an unknown ground.
    status = register.limit_over_http(now, serial) if ground in GROUNDS else None
    if status:
        return error(now, status, status)
    _, number, _, due = register.run(now, "request", serial, ground).split()
    return as_json(now, {"due": due, "request": int(number)})
