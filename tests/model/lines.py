"""The lines of scripts, of the control socket and of imports, and their replies."""

import csv
import io
import re

from . import moments, ocsp
from .register import Refused, refuse

NUMBER = re.compile(rb"[0-9]{1,18}")
SERIAL = re.compile(rb"[0-9A-Fa-f]{1,40}")
HEX = re.compile(rb"([0-9A-Fa-f]{2})+")
SYNTAX = "E22 syntax"


def readable(value):
    refuse(value is None, SYNTAX)
    return value


def number(text):
    return readable(int(text) if NUMBER.fullmatch(text) else None)


def serial(text):
    value = int(text, 16) if SERIAL.fullmatch(text) else 0
    return readable(value if 1 <= value < 2**159 else None)


def moment(text):
    return readable(moments.read(text))


def word(text):
    return readable(text if 1 <= len(text) <= 64 else None)


def bytes_of(text):
    return readable(bytes.fromhex(text.decode()) if HEX.fullmatch(text) else None)


COMMANDS = {
    b"subscriber": (word,),
    b"order": (number, number),
    b"register": (number, serial, moment, moment),
    b"request": (serial, word),
    b"decline": (number,),
    b"revoke": (number,),
    b"crl": (),
}
QUERIES = {b"status": (serial,), b"counts": (), b"listing": (serial,), b"overdue": (), b"next-crl": ()}


def reply(register, line):
    """The reply to a script's line."""
    text = line[:-1] if line.endswith(b"\r") else line
    try:
        now, _, rest = text.partition(b" ")
        return told(register, moment(now), rest.split(b" "))
    except Refused as refused:
        return str(refused)


def told_now(register, now, line):
    """The reply to a line that has no moment."""
    text = line[:-1] if line.endswith(b"\r") else line
    word, _, given = text.partition(b" ")
    try:
        if word == b"accept-clock":
            register.accepted = moment(given)
            return "clock accepted"
        return told(register, now, text.split(b" "), is_open=True)
    except Refused as refused:
        return str(refused)


def told(register, now, fields, is_open=False):
    name, *given = fields
    if name == b"ocsp":
        refuse(len(given) != 1, SYNTAX)
        return "ocsp " + ocsp.answer(register, now, bytes_of(given[0])).hex()
    forms = COMMANDS.get(name, QUERIES.get(name))
    refuse(forms is None or len(forms) != len(given), SYNTAX)
    values = [form(text) for form, text in zip(forms, given)]
    if is_open and name in COMMANDS and register.is_ahead(now):
        return "bad-clock"
    call = register.run if name in COMMANDS else register.ask
    return call(now, name.decode().replace("-", "_"), *values)


def imported(register, now, text):
    """The reply lines of an import (RFC 4180, by Python's csv)."""
    rows = [row for row in csv.reader(io.StringIO(text.decode("latin-1"), newline="")) if row]
    if rows and rows[0] == ["order", "serial", "notBefore", "notAfter"]:
        rows = rows[1:]
    return [told_row(register, now, [it.encode("latin-1") for it in row]) for row in rows]


def told_row(register, now, row):
    try:
        return told(register, now, [b"register", *row])
    except Refused as refused:
        return str(refused)
