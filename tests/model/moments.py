"""Moments as seconds since 1970, and their texts, by Python's own calendar."""

import datetime
import re

DAY = 86_400
# 9999-12-22T00:00:00Z, the first moment that is refused, and the last second that has a text.
CLOCK_END = 253_401_436_800
LAST_SECOND = 253_402_300_799
YEAR_2050 = 2_524_608_000
EPOCH = datetime.datetime(1970, 1, 1)
FORM = re.compile(rb"(\d{4})-(\d\d)-(\d\d)T(\d\d):(\d\d):(\d\d)Z")
DAYS = ("Mon", "Tue", "Wed", "Thu", "Fri", "Sat", "Sun")
MONTHS = ("Jan", "Feb", "Mar", "Apr", "May", "Jun", "Jul", "Aug", "Sep", "Oct", "Nov", "Dec")


def date_of(seconds):
    return EPOCH + datetime.timedelta(seconds=seconds)


def text_of(seconds):
    it = date_of(seconds)
    return f"{it.year:04}-{it.month:02}-{it.day:02}T{it.hour:02}:{it.minute:02}:{it.second:02}Z"


def read(text):
    """The seconds of a moment's text (bytes); None if the text is not a moment."""
    parts = FORM.fullmatch(text)
    if not parts:
        return None
    try:
        seconds = (datetime.datetime(*map(int, parts.groups())) - EPOCH).total_seconds()
    except ValueError:
        return None
    return int(seconds) if seconds >= 0 else None


def http_date(seconds):
    """The text of a moment in a Date field (RFC 9110 5.6.7)."""
    it = date_of(seconds)
    return f"{DAYS[it.weekday()]}, {it.day:02} {MONTHS[it.month - 1]} {it.year:04} {it.hour:02}:{it.minute:02}:{it.second:02} GMT"
