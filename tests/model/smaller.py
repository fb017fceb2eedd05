"""Shortens a list of steps, as long as a condition still holds for it."""

import re
import time

from . import days

# The replies that give a number, and the commands whose first field is such a number.
MADE = re.compile(rb"(subscriber|order|request|crl) (\d+)(?: .*)?")
NAMED_BY = {b"order": b"subscriber", b"register": b"order", b"decline": b"request", b"revoke": b"request"}


def smaller(plan, steps, still, seconds=None, tell=lambda text: None):
    """Leaves out half of the steps, then fewer, down to single ones, while `still(steps)` holds. Returns the steps that are left, after so many
    seconds at the latest."""
    end = time.monotonic() + (seconds or 1e9)
    size = max(len(steps) // 2, 1)
    while True:
        at, before = 0, len(steps)
        while at < len(steps):
            if time.monotonic() > end:
                return steps
            left = next((it for it in without(plan, steps, at, size) if it and still(it)), None)
            at, steps = (at + size, steps) if left is None else (at, left)
            tell(f"{len(steps)} steps")
        if size == 1 and len(steps) == before:
            return steps
        size = max(size // 2, 1)


def without(plan, steps, at, size):
    """The steps without some: first with the numbers in later steps adapted, then with the later steps as they are."""
    before, after = steps[:at], steps[at + size :]
    made = made_by(days.answers(plan, steps[: at + size])[at:], steps[at : at + size])
    if any(made.values()):
        yield before + [renumbered(it, made) for it in after]
    yield before + after


def made_by(told, steps):
    made = {b"subscriber": [], b"order": [], b"request": [], b"crl": []}
    for reply, step in zip(told, steps):
        for line in reply.split(b"\n") if step[0] in ("script", "tell", "at") else ():
            if it := MADE.fullmatch(line):
                made[it[1]].append(int(it[2]))
    return made


def renumbered(step, made):
    """A step with each number reduced by how many lower numbers the omitted steps made."""
    less = lambda kind, number: number - sum(1 for it in made[kind] if it < number)

    def line(text, place):
        fields = text.split(b" ")
        kind = NAMED_BY.get(fields[place]) if len(fields) > place + 1 else None
        if kind and re.fullmatch(rb"\d{1,18}", fields[place + 1]):
            fields[place + 1] = b"%d" % less(kind, int(fields[place + 1]))
        return b" ".join(fields)

    word, *given = step
    if word == "script":
        return word, line(given[0], 1)
    if word == "tell":
        return word, given[0], line(given[1], 0)
    if word == "at":
        return word, given[0], tuple(line(it, 0) for it in given[1])
    if word == "crl" and given[0]:
        return word, less(b"crl", given[0])
    if word == "http" and (it := re.fullmatch(r"/crl/(\d{1,18})", given[2])):
        return word, *given[:2], f"/crl/{less(b'crl', int(it[1]))}", *given[3:]
    return step
