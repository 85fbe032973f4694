"""The times of requests, as logs write them."""

import argparse
import contextlib
import datetime
import math
import re

from cache import Cache
from command import shown

# A time of ISO 8601 as a wall clock shows it.
WALL = r"(\d{4})-(\d\d)-(\d\d)(?:[T ](\d\d):(\d\d)(?::(\d\d)(?:[.,](\d+))?)?)?"

# A web server's time, such as 27/Nov/2026:09:00:01 +0000, and one of ISO 8601, such as 2026-11-27T09:00:01.250Z, whose
# offset may have hours alone, as PostgreSQL writes it.
SERVER = re.compile(r"(\d\d)/([A-Z][a-z]{2})/(\d{4}):(\d\d):(\d\d):(\d\d)(\.\d+)?(?: ?([+-]\d\d):?(\d\d))?")
ISO = re.compile(WALL + r" ?(?:Z|UTC|([+-]\d\d)(?::?(\d\d))?)?")
# A time of a spreadsheet, such as 27.11.2026 09:00.
DOTTED = re.compile(r"(\d\d?)\.(\d\d?)\.(\d{4})(?: (\d\d?):(\d\d)(?::(\d\d))?)?")
MONTHS = "Jan Feb Mar Apr May Jun Jul Aug Sep Oct Nov Dec".split()

# Seconds since 1970, and from when on they are thousandths, millionths or billionths: as seconds, past the year 5000.
NUMBER = re.compile(r"\d{9,19}(?:\.\d+)?")
PAST = 1e11

EPOCH = datetime.datetime(1970, 1, 1)

# How much of a wall clock's time a day and an hour have.
PERIODS = {"day": "%Y-%m-%d", "hour": "%Y-%m-%dT%H"}


def seconds_of(day, clock, part, zone):
    """The seconds since 1970, and those that the wall clock shows."""
    hour, minute, second = (int(text or 0) for text in clock)
    wall = (datetime.datetime(*map(int, day), hour, minute, min(second, 59)) - EPOCH).total_seconds()
    wall += float(f"0.{(part or '0')[:6]}")  # a smaller part may round up to the next second
    hours, minutes = (float(text or 0) for text in zone)  # -00 has a sign
    return wall - 3600 * hours - math.copysign(60 * minutes, hours), wall


def read(text):
    """The seconds since 1970 of a time, and those that the wall clock shows, or none if it can't be read."""
    try:
        if found := SERVER.fullmatch(text):
            day, month, year, *clock, part, hours, minutes = found.groups()
            return seconds_of((year, MONTHS.index(month) + 1, day), clock, (part or "")[1:], (hours, minutes))
        found = ISO.fullmatch(text)
        if found and (found[4] or found[9] or not found[8]):  # behind a day alone, -09 may be an hour
            return seconds_of(found.groups()[:3], found.groups()[3:6], found[7], found.groups()[7:])
        if found := DOTTED.fullmatch(text):
            day, month, year, *clock = found.groups()
            return seconds_of((year, month, day), clock, None, (None, None))
        if NUMBER.fullmatch(text):
            seconds = float(text)
            while seconds >= PAST:
                seconds /= 1000
            return seconds, seconds
    except ValueError:
        pass
    return None


class Stamps(Cache):
    """Times by their text: the seconds since 1970, those that the wall clock shows, and the day or hour. Of a text that
    is no time, these are before all others, and none."""

    def __init__(self, by):
        super().__init__()
        self.form = PERIODS.get(by, "")

    def __missing__(self, text):
        self[text] = self.known(text) or (-math.inf, None, None)
        return self[text]

    def known(self, text):
        """These of a time, or none. Its fraction may round up to the year 10000."""
        found = read(text)
        with contextlib.suppress(OverflowError):
            return found and (*found, (EPOCH + datetime.timedelta(seconds=found[1])).strftime(self.form))


def moment(text):
    """A type for argparse: a time as the log's wall clock shows it."""
    found = read(text) if re.fullmatch(WALL, text) else None
    if found is None:
        such = "2026-11-27 or 2026-11-27T09:00, without a zone"
        raise argparse.ArgumentTypeError(f"{shown(text)} is not a time such as {such}")
    return found[1]
