"""Time stamps of a form that the user gives, in the signs of strftime."""
import calendar
import re

import stamps

# What each sign stands for: its name in the expression, and what it matches.
SIGNS = {"Y": r"(?P<Y>\d{4})", "y": r"(?P<y>\d\d)", "m": r"(?P<m>\d\d?)", "d": r"(?P<d>\d\d?)", "b": r"(?P<b>[A-Za-z]{3})", "j": r"(?P<j>\d{3})",
         "H": r"(?P<H>\d\d?)", "I": r"(?P<I>\d\d?)", "p": r"(?P<p>[AaPp][Mm])", "M": r"(?P<M>\d\d)", "S": r"(?P<S>\d\d)", "f": r"(?P<f>\d{1,9})",
         "s": r"(?P<s>\d{1,11})", "z": r"(?P<z>Z|[+-]\d\d:?\d\d)", "%": "%"}


class BadForm(ValueError):
    """The form can't be read."""


def expression(form):
    """The regular expression of a form such as %d.%m.%Y %H:%M:%S.%f; spaces stand for any number of blanks."""
    parts, seen = [], set()
    for literal, sign in re.findall(r"([^%]+)|%(.?)", form):
        if literal:
            parts.append(r"\s+".join(re.escape(word) for word in re.split(r"\s+", literal)))
        elif sign not in SIGNS or (sign in seen and sign != "%"):
            raise BadForm("%%%s in %r is %s" % (sign, form, "there twice" if sign in seen else "no sign: %s" % " ".join("%" + one for one in SIGNS)))
        else:
            seen.add(sign)
            parts.append(SIGNS[sign])
    whole = "s" in seen or {"H", "M"} <= seen or {"I", "p", "M"} <= seen
    date = "s" in seen or ({"m", "d"} <= seen or {"b", "d"} <= seen or "j" in seen) and seen & {"Y", "y"}
    if not whole and seen - {"%"} not in ({"S"}, {"S", "f"}):
        raise BadForm("%r has no time: %%H and %%M, or %%s" % form)
    if not date and seen & {"Y", "y", "m", "d", "b", "j"}:
        raise BadForm("%r has a part of a date alone" % form)
    return re.compile((r"(?<!\d)" + "".join(parts) + r"(?!\d)").encode())


class Form:
    """Reads the stamps of one form, wherever they stand in a text. `zone` is what a stamp without %z is ahead of UTC, in minutes."""

    def __init__(self, form, zone=0):
        self.pattern, self.zone, self.midnights = expression(form), zone, {}

    def read(self, text):
        """The kind and the time of the stamp in a text, or None."""
        found = self.pattern.search(text)
        if not found:
            return None
        parts = found.groupdict()
        after = stamps.fraction(parts.get("f"))
        if parts.get("s"):
            return stamps.DATED, int(parts["s"]) * stamps.SECOND + after
        time = stamps.clock(self.hour(parts), parts.get("M") or 0, parts.get("S") or 0, None)
        if time is None:
            return None
        if not parts.get("M"):
            return stamps.ZERO, time + after
        if not (parts.get("d") or parts.get("j")):
            return stamps.DAY, time + after
        midnight = self.midnight(parts)
        return None if midnight is None else (stamps.DATED, midnight + time + after - self.ahead(parts.get("z")) * 60 * stamps.SECOND)

    def hour(self, parts):
        if not parts.get("I"):
            return parts.get("H") or 0
        return int(parts["I"]) % 12 + (12 if parts["p"].lower() == b"pm" else 0)

    def midnight(self, parts):
        key = tuple(parts.get(sign) for sign in "Yymdbj")
        if key not in self.midnights:
            year = int(parts.get("Y") or 2000 + int(parts.get("y") or 0))
            if parts.get("j"):
                days = int(parts["j"])
                good = 1 <= days <= 365 + calendar.isleap(year)
                self.midnights[key] = calendar.timegm((year, 1, 1, 0, 0, 0)) * stamps.SECOND + (days - 1) * stamps.DAY_LENGTH if good else None
            else:
                month = stamps.MONTHS.get(parts["b"].title()) if parts.get("b") else int(parts["m"])
                self.midnights[key] = stamps.Stamps().midnight(year, month or 0, int(parts["d"]))
        return self.midnights[key]

    def ahead(self, zone):
        return stamps.Stamps(self.zone).ahead(zone)
