"""What the alarm lines of a replay mean. A test holds these words beside the table of docs/FORMATS.md."""
import re

# The line, with what stands for its parts; what it means; what to look at.
MEANINGS = [
    ("ref I silent", "position reference I (pos0, pos1, pos2) has given no fix yet", "is it on, is its line connected?"),
    ("ref I stale", "its newest fix is too old", "antenna, interrogator, line; a damaged line counts as none"),
    ("ref I frozen", "its window is full of one and the same fix", "a receiver that repeats itself. A perfect record looks the same"),
    ("ref I jumped", "two fixes in a row are too far apart", "multipath, a reflection, a lost baseline"),
    ("ref I noisy", "its fixes scatter too far", "its geometry, the weather; it comes back by itself"),
    ("damage WIRE", "a damaged line came on this wire in this cycle", "cable, baud rate, a sender that cuts its sentences"),
    ("blind", "no reference is usable: the estimate of the place is held", "the alarms of the three references. Nothing measures the place now"),
    ("gyro", "no heading was read in this cycle: yaw is held", "the gyros"),
    ("wind", "no wind was read in this cycle: no wind is fed forward", "the wind sensors"),
    ("limit AXIS", "the demand on surge, sway or yaw was cut to what the thrusters can give",
     "the vessel may drift off: weather, heading, lost thrusters"),
    ("nocase", "the plant has no case for the groups that are lost: all forces are zero", "power; position is not being kept"),
    ("consequence G", "the vessel could not hold what it holds now, on average over the last 60 cycles, if group G were lost too",
     "the operation: this is the consequence analysis. Be ready to break off"),
    ("unknown", "fewer than two computers have issued anything for this cycle, so no alarm can be agreed on", "the computers"),
]

PARTS = {"I": "[0-9]+", "WIRE": "[a-z]+[0-9]", "AXIS": "(?:surge|sway|yaw)", "G": "[0-9]+"}
PATTERNS = [re.compile(" ".join(PARTS.get(part, part) for part in form.split(" "))) for form, _, _ in MEANINGS]


def place_of(alarm):
    """The place of an alarm line's form in the table, or None. The line is without its first word."""
    for place, pattern in enumerate(PATTERNS):
        if pattern.fullmatch(alarm):
            return place
    return None


def order(alarm):
    """Sorts alarm lines as the table has them, references one after another."""
    place = place_of(alarm)
    return (len(MEANINGS) if place is None else 0 if alarm.startswith("ref ") else place), alarm[:5], place or 0, alarm


def meaning(alarm):
    """What an alarm line means, and what to look at, with its own numbers."""
    place = place_of(alarm)
    if place is None:
        return "", ""
    which = alarm.split(" ")[1] if " " in alarm else ""
    means = MEANINGS[place][1].replace("reference I (pos0, pos1, pos2)", "reference %s (pos%s)" % (which, which)).replace("group G", "group " + which)
    return means, MEANINGS[place][2]
