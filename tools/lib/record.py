"""The lines of a record, as docs/FORMATS.md has them, for drawing: what each wire says in each cycle."""
import re

import sentences
import stamps
from local import Origin

LINE = re.compile(rb"([0-9]{1,15}) ([^ ]+)(?: (.*))?", re.DOTALL)
PLACE = re.compile(rb"L (-?[0-9]{1,18}) (-?[0-9]{1,18})")
DECIMAL = re.compile(rb"([0-9]+)(?:\.([0-9]*))?")
LATITUDE = re.compile(rb"([0-9]{2})([0-5][0-9])(?:\.([0-9]*))?")
LONGITUDE = re.compile(rb"([0-9]{3})([0-5][0-9])(?:\.([0-9]*))?")
MOST = 8796093             # mm: how far a plain place may be
MOST_CYCLES = 2 ** 20
UNITS = {b"M": (1, 1), b"N": (1852, 3600), b"K": (1000, 3600)}


def digits(text, count):
    """So many digits, the rest cut and what is missing zero."""
    return int(((text or b"") + b"0" * count)[:count])


def angle(found, sign, most):
    """Latitude or longitude in 10^-7 minutes, or None."""
    if not found or len(found[1]) + len(found[2]) + len(found[3] or b"") > 20:
        return None
    value = (int(found[1]) * 60 + int(found[2])) * 10 ** 7 + digits(found[3], 7)
    return None if value > most * 600000000 else value * sign


def decimal(text, places):
    found = DECIMAL.fullmatch(text)
    if not found or len(found[1]) + len(found[2] or b"") > 20:
        return None
    return int(found[1]) * 10 ** places + digits(found[2], places)


def heading(text):
    value = decimal(text, 2)
    return None if value is None or value > 36000 else value % 36000


def fix(fields, origin):
    """The place in nm of a GGA's fields, or None."""
    if len(fields) < 7 or fields[6] not in (b"1", b"2", b"3", b"4", b"5") or fields[3] not in (b"N", b"S") or fields[5] not in (b"E", b"W"):
        return None
    lat = angle(LATITUDE.fullmatch(fields[2]), 1 if fields[3] == b"N" else -1, 90)
    lon = angle(LONGITUDE.fullmatch(fields[4]), 1 if fields[5] == b"E" else -1, 180)
    return None if lat is None or lon is None else origin.local(lat, lon)


def wind(fields):
    """The angle in hundredths of a degree and the speed in mm/s of an MWV's fields, or None."""
    if len(fields) < 6 or fields[5] != b"A" or fields[2] != b"R" or fields[4] not in UNITS:
        return None
    turn, speed = heading(fields[1]), decimal(fields[3], 3)
    if turn is None or speed is None:
        return None
    over, under = UNITS[fields[4]]
    speed = speed * over // under
    return None if speed >= 100000 else (turn, speed)


def sentence(kind, text, origin):
    """What a sound sentence says on a kind of wire, or None."""
    fields = text[1:-3].split(b",")
    name = sentences.formatter(text)
    if kind == "pos" and name == b"GGA":
        return fix(fields, origin)
    if kind == "gyro" and name == b"HDT":
        return heading(fields[1]) if len(fields) > 2 and fields[2] == b"T" else None
    if kind == "gyro" and name == b"THS":
        return heading(fields[1]) if len(fields) > 2 and fields[2] == b"A" else None
    if kind == "wind" and name == b"MWV":
        return wind(fields)
    return None


def plain(kind, text):
    """What a plain form says on a kind of wire, or None."""
    if kind == "grp":
        return {b"G 1": True, b"G 0": False}.get(text)
    found = PLACE.fullmatch(text) if kind == "pos" else None
    if not found:
        return None
    place = int(found[1]), int(found[2])
    return None if max(map(abs, place)) > MOST else (place[0] * 10 ** 6, place[1] * 10 ** 6)


def says(kind, rest, origin):
    """What a line's rest says on a kind of wire, or None for damage and what is skipped."""
    if rest[:1] in (b"L", b"G"):
        return plain(kind, rest)
    return sentence(kind, rest, origin) if sentences.is_sound(rest) else None


class Record:
    """Reads a record for a plant. `refusal` is the line that ends it before its end, or None; `cycles` is how many cycles a replay plays of it, and
    `utc` what the first sound GGA with a time says: its time in the record in ms, and its time of day in microseconds."""

    def __init__(self, plant):
        self.origin = Origin(*plant["plant"]["origin"])
        self.cycle_ms = plant["plant"]["cycle_ms"]
        self.kinds = {wire.encode(): (wire, sentences.kind_of(wire)) for wire in sentences.WIRES[:9 + plant["plant"]["groups"]]}
        self.line = self.cycles = 0
        self.refusal = self.utc = None

    def frames(self, lines):
        """Each cycle that has lines, in order, with the last reading of each wire that has one."""
        cycle, frame, before = None, {}, 0
        for line in lines:
            self.line += 1
            text = line[:-2] if line.endswith(b"\r\n") else line[:-1] if line.endswith(b"\n") else line
            if not text:
                continue
            found = LINE.fullmatch(text) if len(text) <= 192 else None
            known = self.kinds.get(found[2]) if found else None
            if known is None or int(found[1]) < before or int(found[1]) // self.cycle_ms >= MOST_CYCLES:
                self.refusal = self.line
                break
            before = int(found[1])
            if before // self.cycle_ms != cycle:
                if cycle is not None:
                    yield cycle, frame
                cycle, frame = before // self.cycle_ms, {}
            reading = says(known[1], found[3] or b"", self.origin)
            if reading is not None:
                frame[known[0]] = reading
                if self.utc is None and known[1] == "pos" and found[3][:1] == b"$":
                    self.hear(before, found[3])
        if cycle is not None:
            self.cycles = cycle + (self.refusal is None)
            yield cycle, frame

    def hear(self, time, rest):
        """Takes the time of a GGA, if it has one."""
        day = stamps.utc_field(rest.split(b",", 2)[1])
        self.utc = None if day is None else (time, day)
