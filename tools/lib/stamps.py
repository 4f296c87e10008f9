"""Time stamps that loggers write before a sentence, in whole microseconds.

A stamp is of one of three kinds:

- DATED: a date and a time, or seconds since 1970: microseconds since 1970, UTC;
- DAY: a time of day without a date: microseconds since midnight;
- ZERO: seconds since the logger was started.
"""
import calendar
import re

DATED, DAY, ZERO = "dated", "day", "zero"
SECOND = 1000000
DAY_LENGTH = 86400 * SECOND
FIRST_UNIX = 10 ** 8      # seconds: fewer are counted from the logger's start

# What may stand round a stamp.
AROUND = b" \t\r\n[](){}<>,;:|\"'"

MONTHS = {name: number + 1 for number, name in enumerate(b"Jan Feb Mar Apr May Jun Jul Aug Sep Oct Nov Dec".split())}

NUMBER = re.compile(rb"(\d{1,19})(?:\.(\d+))?")
DATE_AND_TIME = re.compile(rb"(\d{4})[-/.]?(\d\d)[-/.]?(\d\d)[T _](\d\d):?(\d\d):?(\d\d)(?:[.,](\d+))?\s*(Z|UTC|[+-]\d\d(?::?\d\d)?)?"
                           rb"(?:\s+(\d{9,10})\.(\d+))?")
AFTER_SECOND = re.compile(rb"(?:[.,](\d+))?(Z)?")
TIME_OF_DAY = re.compile(rb"(\d\d):(\d\d):(\d\d)(?:[.,](\d+))?(?:\s*(?:Z|UTC))?")
C_TIME = re.compile(rb"[A-Z][a-z][a-z] +([A-Z][a-z][a-z]) +(\d\d?) (\d\d):(\d\d):(\d\d)(?:\.(\d+))? (\d{4})")
TAG_BLOCK = re.compile(rb".*\\(?:[^\\]*,)?c:(\d+)[,*][^\\]*\\", re.DOTALL)      # its sum is checked where the line is read
UTC_FIELD = re.compile(rb"(\d\d)(\d\d)(\d\d)(?:\.(\d*))?")


def fraction(digits):
    """The microseconds of the digits after a point, or of none."""
    return int((digits + b"000000")[:6]) if digits else 0


def clock(hours, minutes, seconds, digits):
    """Microseconds since midnight, or None past the end of a day (a leap second is the next minute's first)."""
    hours, minutes, seconds = int(hours), int(minutes), int(seconds)
    if hours > 23 or minutes > 59 or seconds > 60:
        return None
    return (hours * 3600 + minutes * 60 + seconds) * SECOND + fraction(digits)


class Stamps:
    """Reads stamps. `zone` is what a stamp without a zone is ahead of UTC, in minutes."""

    def __init__(self, zone=0):
        self.zone = zone
        self.days = {}
        self.second = None, 0      # the text of the last date and time to the second, and its time in UTC

    def read(self, text):
        """The kind and the time of the stamp in the text before a sentence, or None."""
        text = text.strip(AROUND)
        if text[:19] == self.second[0]:
            found = AFTER_SECOND.fullmatch(text, 19)
            if found:
                return DATED, self.second[1] + fraction(found[1]) - (0 if found[2] else self.zone * 60 * SECOND)
        found = NUMBER.fullmatch(text)
        if found:
            return number(found)
        found = DATE_AND_TIME.fullmatch(text)
        if found:
            return self.dated(found)
        found = TIME_OF_DAY.fullmatch(text)
        if found:
            time = clock(*found.groups())
            return None if time is None else (DAY, time)
        found = C_TIME.fullmatch(text)
        if found:
            return self.c_time(found)
        found = TAG_BLOCK.fullmatch(text)
        return number(found) if found else None

    def dated(self, found):
        if found[9]:      # seconds since 1970 stand beside it
            return DATED, int(found[9]) * SECOND + fraction(found[10])
        date = found[1], found[2], found[3]
        if found.end(6) == 19:
            whole = self.at(*date, clock(found[4], found[5], found[6], None), b"Z")
            self.second = (found.string[:19], whole[1]) if whole else (None, 0)
        return self.at(*date, clock(found[4], found[5], found[6], found[7]), found[8])

    def c_time(self, found):
        month = MONTHS.get(found[1])
        return None if month is None else self.at(found[7], month, found[2], clock(found[3], found[4], found[5], found[6]), None)

    def at(self, year, month, day, time, zone):
        midnight = self.midnight(int(year), int(month), int(day))
        if midnight is None or time is None:
            return None
        return DATED, midnight + time - self.ahead(zone) * 60 * SECOND

    def midnight(self, year, month, day):
        key = (year, month, day)
        if key not in self.days:
            good = year >= 1970 and 1 <= month <= 12 and 1 <= day <= calendar.monthrange(year, month)[1]
            self.days[key] = calendar.timegm((year, month, day, 0, 0, 0)) * SECOND if good else None
        return self.days[key]

    def ahead(self, zone):
        """Minutes that a zone such as +01:00 is ahead of UTC."""
        if zone is None:
            return self.zone
        if zone in (b"Z", b"UTC"):
            return 0
        digits = zone[1:].replace(b":", b"")
        minutes = int(digits[:2]) * 60 + int(digits[2:] or 0)
        return -minutes if zone[:1] == b"-" else minutes


def number(found):
    """Seconds, or with 12 digits and more milli-, micro- or nanoseconds since 1970."""
    digits = found[1]
    value = int(digits)
    after = found[2] if found.re is NUMBER else None
    if len(digits) < 12 or after:
        time = value * SECOND + fraction(after)
        return (DATED if value >= FIRST_UNIX else ZERO), time
    if len(digits) < 15:
        return DATED, value * 1000
    return DATED, value if len(digits) < 18 else value // 1000


def utc_field(field):
    """The time of day of the UTC field of a sentence (hhmmss or hhmmss.ss), or None."""
    found = UTC_FIELD.fullmatch(field)
    return clock(*found.groups()) if found else None


def nearest_day(time, to):
    """The time of day on the day that brings it nearest to another time."""
    days = (to - time + DAY_LENGTH // 2) // DAY_LENGTH
    return time + days * DAY_LENGTH


def shown(kind, time):
    """A time in words."""
    millis = time // 1000
    if kind == ZERO:
        return "%d.%03d s" % divmod(millis, 1000)
    seconds = millis // 1000
    text = "%02d:%02d:%02d.%03d" % (seconds // 3600 % 24, seconds // 60 % 60, seconds % 60, millis % 1000)
    if kind == DAY:
        return text
    days = seconds // 86400
    year, month, day = date_of(days)
    return "%04d-%02d-%02dT%sZ" % (year, month, day, text)


def date_of(days):
    """The date that comes so many days after 1970-01-01."""
    import datetime
    date = datetime.date(1970, 1, 1) + datetime.timedelta(days=days)
    return date.year, date.month, date.day
