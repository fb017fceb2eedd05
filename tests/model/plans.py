"""The plans of the days: each tests rules, bounds or sizes that the others do not reach."""

from dataclasses import dataclass, replace

from .moments import CLOCK_END, DAY, YEAR_2050

YEAR_2026 = 1_767_225_600
# The first moment that does not fit into 32 bits.
YEAR_2106 = 2**32


@dataclass(frozen=True)
class Plan:
    # The number of parts, each with `lines` lines of a script, an import, and `exchanges` exchanges with an open desk; in memory one script only.
    parts: int = 4
    lines: int = 480
    exchanges: int = 40
    in_memory: bool = False
    # The first moment; the most seconds that usually pass. One moment in `leaps` comes after a leap of at most `leap` seconds.
    start: int = YEAR_2026
    pace: int = DAY
    leaps: int = 60
    leap: int = 60 * DAY
    # One moment in `bounds` is one at which something ends, or the second after it, and sometimes has a CRL.
    bounds: int = 24
    # One step in `lives` orders and registers certificates that last at most `lasts` seconds, and also revokes them if `are_revoked`.
    lives: int = 100
    lasts: int = 30 * DAY
    are_revoked: bool = True
    # The relative frequencies of subscriber, order, register, request, decline, revoke and crl.
    weights: tuple = (8, 20, 22, 14, 8, 14, 6)
    # One line in `bad` can't be read; one in `queries` is a query; one in `ocsp` is an OCSP request.
    bad: int = 40
    queries: int = 3
    ocsp: int = 8
    # The schedules of longest validities, in days by the moments from which they apply: the first one, and those that are set later.
    schedules: tuple = (((0, 398),), ((0, 47),))
    crl_life: int = 691_200
    ocsp_life: int = 345_600
    cap: int = 1_000_000


USUAL = Plan()
CAP_OF_1 = replace(USUAL, parts=3, lines=300, exchanges=20, cap=1, crl_life=1, weights=(6, 10, 20, 14, 3, 3, 4))
# A schedule whose steps begin in the first 60 days of 1970.
STEPS = ((0, 30), (20 * DAY, 398), (60 * DAY, 15))

PLANS = {
    "usual": USUAL,
    "in-memory": replace(USUAL, in_memory=True, lines=2600, ocsp=4),
    "bad-lines": replace(USUAL, in_memory=True, lines=1200, bad=2),
    "many-requests": replace(USUAL, parts=2, lines=500, leaps=30, leap=4 * DAY, weights=(4, 12, 14, 60, 12, 6, 2)),
    "ocsp": replace(USUAL, in_memory=True, lines=1500, queries=100, ocsp=2),
    "cap-of-1": CAP_OF_1,
    "cap-of-3": replace(CAP_OF_1, lines=300, cap=3, schedules=(((0, 100), (YEAR_2026 + 30 * DAY, 20)), ((0, 1),), ((0, 398),))),
    "cap-of-250": replace(USUAL, parts=2, lines=800, cap=250, pace=3_600, lives=24, weights=(24, 24, 24, 24, 4, 4, 20)),
    "same-second": replace(
        USUAL, parts=3, lines=520, start=0, pace=2, leaps=40, leap=20 * DAY, schedules=(STEPS, ((0, 398),), STEPS), crl_life=1, ocsp_life=28_800
    ),
    "months": replace(USUAL, parts=2, lines=300, leaps=2, lives=12, crl_life=863_999, ocsp_life=863_999),
    "centuries": replace(USUAL, parts=2, lines=470, start=0, leaps=5, leap=36_525 * DAY),
    "seconds-of-2050": replace(
        USUAL, parts=2, lines=220, start=YEAR_2050 - 60, pace=3, leaps=1_000_000, bounds=1_000_000, lives=12, weights=(8, 20, 22, 14, 8, 20, 40)
    ),
    "short-lives": replace(USUAL, parts=2, lines=350, pace=600, leaps=200, leap=DAY, bounds=5, lives=20, lasts=20_000),
    "after-2106": replace(
        USUAL, parts=2, lines=640, start=YEAR_2106 - 60, pace=3, leaps=20, leap=30 * DAY,
        schedules=(((0, 398), *((YEAR_2106 + i * 30 * DAY, 64 - 4 * i) for i in range(15))),),
    ),
    "the-clocks-end": replace(USUAL, parts=3, lines=230, start=CLOCK_END - 150, pace=3, leaps=1_000_000, bounds=12),
    "many-entries": replace(
        USUAL, parts=1, lines=400, exchanges=20, pace=600, leaps=1_000_000, bounds=1_000_000, lives=2, weights=(1, 1, 1, 1, 1, 1, 10), ocsp=30
    ),
    "many-ends": replace(
        USUAL, parts=2, lines=200, exchanges=20, pace=60, leaps=100, leap=365 * DAY, bounds=1_000_000, lives=3, are_revoked=False,
        weights=(1, 40, 40, 2, 1, 1, 4),
    ),
    "many-rows": replace(USUAL, parts=2, lines=780, exchanges=20, pace=1_800, lives=24, weights=(36, 8, 8, 10, 6, 2, 36)),
}
