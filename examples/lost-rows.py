#!/usr/bin/env python3
"""Lists the rows of a closed register that another desk lacks, so that an operator can enter them there: after `desk follow` has ended with `diverged`.

    examples/lost-rows.py ca.db --from 127.0.0.1:8080
    examples/lost-rows.py ca.db --from /run/durshavon/leader

ADDRESS is that of the other desk, as for `desk follow`: the port of an open desk on this machine, or a Unix socket that leads to it. Its rows come from
`GET /changes`, and those of the register from `desk list`, so no program may have the register open.

Each line is a row as in the changes feed (crates/reg_core_lists/README.md), with all its fields: `subscriber`, `order`, `certificate`, `request`, `declined`,
`revocation` or `crl` (without its length). The register's numbers may stand for other rows at the other desk: enter a certificate by its subscriber's name,
and a request by its serial number and ground.

Exit status: 0 if the other desk has each row; 3 if rows were printed; 1 if the register or the other desk can't be read; 2 if the command line is wrong.
"""
import argparse
import http.client
import json
import os
import re
import socket
import subprocess
import sys

KINDS = ("subscriber", "order", "certificate", "request", "declined", "revocation", "crl")


class Unreadable(Exception):
    """The register or the other desk can't be read; the text names it."""


class SocketConnection(http.client.HTTPConnection):
    """A connection over a Unix socket."""

    def __init__(self, path):
        super().__init__("localhost", timeout=60)
        self.path = path

    def connect(self):
        self.sock = socket.socket(socket.AF_UNIX)
        self.sock.settimeout(self.timeout)
        self.sock.connect(self.path)


def connection(address):
    found = re.fullmatch(r"127\.0\.0\.1:(\d{1,5})", address)
    return http.client.HTTPConnection("127.0.0.1", int(found[1]), timeout=60) if found else SocketConnection(address)


def page(address, after):
    try:
        it = connection(address)
        it.request("GET", "/changes" + (f"?after={after}" if after else ""))
        answer = it.getresponse()
        body = answer.read()
    except (OSError, http.client.HTTPException) as fault:
        raise Unreadable(f"{address}: {fault}") from fault
    if answer.status != 200:
        raise Unreadable(f"{address}: GET /changes has status {answer.status}")
    if not body.startswith(b"changes 1\n"):
        raise Unreadable(f"{address}: not a page of the changes feed, version 1")
    return body


def rows_of(body):
    """The rows of a page, whether it is the last one, and the positions after it."""
    at = 0
    for _ in range(5):
        at = body.index(b"\n", at) + 1
    rows = set()
    while True:
        end = body.index(b"\n", at)
        kind, _, line = body[at:end].decode().partition(" ")
        at = end + 1
        if kind in ("more", "end"):
            return rows, kind == "end", line
        if kind == "crl":
            line, _, length = line.rpartition(" ")
            at += int(length) + 1
        rows.add((kind, line))


def rows_of_desk(address):
    """The rows of the other desk."""
    rows, after, ends = set(), None, False
    while not ends:
        more, ends, after = rows_of(page(address, after))
        rows |= more
    return rows


def listed(desk, path, word):
    try:
        ran = subprocess.run([desk, "list", path, word, "--json", "--why"], capture_output=True, text=True, check=False)
    except OSError as fault:
        raise Unreadable(f"{desk}: {fault.strerror}") from fault
    if ran.returncode != 0:
        raise Unreadable(f"{path}: {' '.join(ran.stderr.split())}")
    return [json.loads(line) for line in ran.stdout.splitlines()]


def rows_of_register(desk, path):
    """The rows of the register, each kind in the order of its list."""
    requests = listed(desk, path, "requests")
    rows = [("subscriber", f"{it['subscriber']} {it['name']}") for it in listed(desk, path, "subscribers")]
    rows += [("order", f"{it['order']} {it['subscriber']} {it['days']}") for it in listed(desk, path, "orders")]
    rows += [("certificate", f"{it['serial']} {it['order']} {it['notBefore']} {it['notAfter']}") for it in listed(desk, path, "certificates")]
    rows += [("request", f"{it['request']} {it['serial']} {it['ground']} {it['received']}") for it in requests]
    rows += [("declined", f"{it['request']}") for it in requests if it["state"] == "declined"]
    rows += [("revocation", f"{it['serial']} {it['revokedAt']} {it['reason']} {it['request']} {it['firstCrl']}") for it in listed(desk, path, "revoked")]
    rows += [("crl", f"{it['crl']} {it['thisUpdate']}") for it in listed(desk, path, "crls")]
    return rows


def main():
    words = argparse.ArgumentParser(description=__doc__, formatter_class=argparse.RawDescriptionHelpFormatter)
    words.add_argument("register", metavar="FILE")
    words.add_argument("--from", dest="address", metavar="ADDRESS", required=True)
    words.add_argument("--desk", default=os.environ.get("DESK", "desk"), help="the program [default: $DESK, or desk]")
    given = words.parse_args()
    try:
        kept = rows_of_desk(given.address)
        lost = [row for row in rows_of_register(given.desk, given.register) if row not in kept]
    except Unreadable as fault:
        print(fault, file=sys.stderr)
        return 1
    for kind in KINDS:
        for row in lost:
            if row[0] == kind:
                print(f"{kind} {row[1]}")
    return 3 if lost else 0


if __name__ == "__main__":
    sys.exit(main())
