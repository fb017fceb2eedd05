"""Plays random days on the program, and compares each reply and each byte of CRLs, OCSP and HTTP with a model of the register (tests/model).

Seed 1 gives one day for each plan of tests/model/plans.py. The day must contain the cases that the plan is for. tests/random runs other seeds."""

import os
from dataclasses import replace
from functools import cache

from lib.trial import each, test
from model import days, play
from model.moments import CLOCK_END, YEAR_2050
from model.plans import PLANS, YEAR_2106
from model.register import GROUNDS
from model.smaller import smaller

SEED = 1
# The test shortens a day with a difference for at most this many seconds; tests/random has no limit.
SECONDS = 40
REFUSALS = {f"E{it:02}" for it in range(1, 23)}
# Replies that only an open register gives: to a command under a clock that is far ahead, and to `accept-clock`.
OPEN_FORMS = {"bad-clock", "clock accepted"}
FORMS = set(days.FORMS) - OPEN_FORMS
# For each plan: the least maximum that each quantity must reach in its day (MOST), and how often each case must occur at least (CAME).
MOST = {
    "usual": {"rows": 151, "CRLs": 11, "OCSP bytes": 1000, "GET bytes": 401, "overdue": 2, "expired": 10},
    "in-memory": {"rows": 251, "CRLs": 50},
    "bad-lines": {"rows": 50},
    "many-requests": {"rows": 80, "overdue": 2},
    "ocsp": {"rows": 120, "OCSP bytes": 1500},
    "cap-of-1": {"rows": 1, "CRLs": 1},
    "cap-of-3": {"rows": 3, "CRLs": 3, "schedule": 2},
    "cap-of-250": {"rows": 250, "CRLs": 100},
    "same-second": {"CRLs": 11, "schedule": 3},
    "months": {"last": 1_850_000_000},
    "centuries": {"last": 30_000_000_000},
    "seconds-of-2050": {"CRLs": 11, "last": YEAR_2050 + 1},
    "short-lives": {"CRLs": 20, "CRL bytes": 1000},
    "after-2106": {"last": YEAR_2106 + 5_000_000, "schedule": 16},
    "the-clocks-end": {"last": CLOCK_END - 100, "CRLs": 11},
    "many-entries": {"entries": 1002, "CRL bytes": 40_000},
    "many-ends": {"ended": 102, "expired": 102},
    "many-rows": {"subscribers": 252, "CRLs": 252, "CRL bytes": 4_097},
}
CAME = {
    "usual": {it: 1 for it in (REFUSALS | FORMS) - {"E03"}} | {
        "ocsp by GET": 10, "ocsp by POST": 20, "tell": 30, "at": 5, "http": 80, "commands and queries": 1500,
    },
    "in-memory": {it: 1 for it in (REFUSALS | FORMS) - {"E03", "E21"}} | {"commands and queries": 3000, "ocsp by line": 300},
    "bad-lines": {"E22": 400, "E04": 1},
    "many-requests": {it: 1 for it in REFUSALS - {"E03"}} | {"request": 50, "E19": 100, "E14": 10},
    "ocsp": {
        "ocsp by line": 700, "ocsp malformed": 100, "ocsp good": 50, "ocsp unknown": 100, "ocsp revoked": 5, "ocsp nonce": 50,
        "ocsp longest nonce": 10,
    },
    "cap-of-1": {"E03": 11, "commands and queries": 700},
    "cap-of-3": {"E03": 11, "commands and queries": 700},
    "cap-of-250": {"E03": 11, "commands and queries": 2500},
    "same-second": {it: 1 for it in REFUSALS - {"E03"}},
    "centuries": {"commands and queries": 700, "E20": 1, "bad-clock": 1, "clock accepted": 1},
    "seconds-of-2050": {"commands and queries": 400, "crl": 11},
    "after-2106": {it: 1 for it in REFUSALS - {"E03", "E05", "E12"}},
    "the-clocks-end": {"E02": 20, "ocsp try later": 3, "HTTP E02": 1},
    "many-entries": {"status revoked": 1000, "ocsp revoked for a reason": 10, "commands and queries": 4500},
    "many-ends": {"expired": 100, "registered": 700},
    "many-rows": {"commands and queries": 3000},
}
# A day must have more commands than this (refused ones count), and at least this many kinds of refusals.
COMMANDS = {
    "usual": 1_500, "cap-of-1": 700, "cap-of-3": 700, "cap-of-250": 2_000, "same-second": 1_200, "months": 650, "centuries": 650,
    "seconds-of-2050": 300, "after-2106": 800, "the-clocks-end": 500, "many-entries": 4_000, "many-ends": 1_000, "many-rows": 1_200,
}
KINDS = {"usual": 20, "same-second": 20, "months": 13, "after-2106": 20, "the-clocks-end": 18}
STATUSES = [f"status {it}" for it in (200, 400, 404, 405, 409, 411, 413, 429, 431, 503)]
OCSP = [f"ocsp {it}" for it in days.OCSP]


@cache
def day_of(name):
    return days.Day(PLANS[name], SEED)


def missing(found, least):
    return {it: f"{found[it]} in place of {many} at least" for it, many in least.items() if found[it] < many}


@each({name: name for name in PLANS}, seconds=8)
def plays(t, name):
    plan, day = PLANS[name], day_of(name)
    t.same({**missing(day.most, MOST[name]), **missing(day.came, CAME.get(name, {}))}, {}, "cases that are too rare in the day")
    t.true(day.came["commands"] > COMMANDS.get(name, 0), f"only {day.came['commands']} commands")
    kinds = [it for it in REFUSALS if day.came[it]]
    t.true(len(kinds) >= KINDS.get(name, 0), f"only {len(kinds)} kinds of refusals")
    if plan.cap < 1000:
        t.same(day.most["rows"], plan.cap, "rows of the largest table")
    if name == "seconds-of-2050":
        moments = {it.at for it in day.register.revocations.values()} | {*day.register.crls}
        t.true(YEAR_2050 in moments, "no revocation or CRL in the first second of 2050")
        t.true(min(moments) < YEAR_2050 <= max(moments), "all revocations and CRLs are on one side of the turn of the year")
    again = f"tests/random --seed {SEED} --count 1 --plan {name}"
    t.note(again)
    place = play.difference(day.wanted, play.Player(plan, t.room).answers(day.steps))
    if place is not None:
        few = play.fewest(plan, day.steps[: place + 1], SECONDS)
        t.true(False, f"the answer to step {place + 1} of {len(day.steps)} differs; the shortened day:\n{play.report(plan, few, again)}")


@test(seconds=7)
def all_that_there_is_comes_in_the_days(t):
    all_days = [day_of(it) for it in PLANS]
    came = {it for day in all_days for it, many in day.came.items() if many}
    t.same(sorted((REFUSALS | FORMS | OPEN_FORMS | {*STATUSES, *OCSP, "import", "schedule", "key-id", "crl", "audit", "tell", "at"}) - came), [], "cases in no day")
    t.same({it.ground for day in all_days for it in day.register.requests}, set(GROUNDS), "grounds of the requests")
    t.same({it.reason for day in all_days for it in day.register.revocations.values()}, {reason for _, reason in GROUNDS.values()}, "their reasons")
    t.true(sum(day.came["commands and queries"] for day in all_days) > 20_000, "only 20,000 commands and queries or fewer")


@test(seconds=7)
def a_difference_is_made_smaller_and_shown(t):
    # This program replies `refused` to `decline`, in place of `declined`.
    other = t.room / "other"
    other.write_text(f"#!/bin/sh\n{play.program.program()} \"$@\" | sed 's/^declined$/refused/'\n")
    other.chmod(0o755)
    plan = replace(PLANS["in-memory"], lines=400, weights=(8, 20, 22, 20, 30, 2, 2))
    was = os.environ.get("DESK")
    os.environ["DESK"] = str(other)
    try:
        told = play.look(plan, "in-memory", 3)[1]
    finally:
        os.environ.pop("DESK")
        if was is not None:
            os.environ["DESK"] = was
    t.true(told is not None, "no difference was found")
    lines = told.splitlines()
    steps = [it for it in lines if it.startswith("  script")]
    # To decline a request, a script needs only these five commands.
    t.same([it.split()[2] for it in steps], ["subscriber", "order", "register", "request", "decline"], "the commands of the shortened day")
    t.same(lines[-3:], ["  wanted  declined", "  got     refused", "  again   tests/random --seed 3 --count 1 --plan in-memory"], "the report")


@test
def a_smallest_day_is_found(t):
    steps = [("script", b"%d" % it) for it in range(300)]
    needed = {steps[7], steps[150], steps[299]}
    few = smaller(PLANS["usual"], steps, lambda some: needed <= set(some))
    t.same(few, [steps[7], steps[150], steps[299]])
