"""The keys of a plant file with their ranges and units, as docs/FORMATS.md tables them, and what an acceleration is worth in kilonewtons."""
import re

Q = 1 << 30
FAR, TURN = (-8796093, 8796093), (0, 35999)
MASS, LEVER, SHARE, PUSH, PART = (0, 1 << 40), (-500000, 500000), (-(1 << 31), 1 << 31), (-(1 << 24), 1 << 24), (-(1 << 40), 1 << 40)
GAIN = (0, Q)
AXES = ("surge", "sway", "yaw")

# Each key: the range of each part of its array, or the one range of a number; its unit. Rows of an array of rows have the ranges of one row.
KEYS = {
    "plant.version": ((1, 2), ""), "plant.cycle_ms": ((100, 10000), "ms"),
    "plant.origin": ([(-53400000000, 53400000000), (-108000000000, 108000000000)], "10^-7 minutes"),
    "plant.start": ([FAR, FAR, TURN], "mm, mm, 0.01 degrees"), "plant.setpoint": ([FAR, FAR, TURN], "mm, mm, 0.01 degrees"),
    "plant.groups": ((1, 8), "groups"), "plant.mass": ([MASS] * 3, "2^-20 N per unit of acceleration"),
    "plant.tol": ([MASS] * 3, "2^-20 N per unit of acceleration"), "ref": (3, "tables"),
    "ref.N.window": ((4, 32), "samples"), "ref.N.jump_mm": ((0, 1000000), "mm"), "ref.N.noise_mm2": ((0, 10 ** 12), "mm²"),
    "ref.N.age": ((0, 60), "cycles"), "ref.N.lever": ([LEVER] * 2, "mm"), "wind.push": ([PUSH] * 3, "12 rows"),
    "thruster": (12, "tables"), "thruster.N.group": ((0, None), "groups"), "thruster.N.at": ([LEVER] * 2, "mm"),
    "thruster.N.azimuth": (TURN, "0.01 degrees"), "thruster.N.min": ((-(1 << 31), 0), "N"), "thruster.N.max": ((0, 1 << 31), "N"),
    "case": (32, "tables"), "case.N.lost": ((0, None), "lost groups"),
    "case.N.lo": ([(-(1 << 31), 0)] * 2 + [(-(1 << 38), 0)], "acceleration"), "case.N.hi": ([(0, 1 << 31)] * 2 + [(0, 1 << 38)], "acceleration"),
    "case.N.b": ([SHARE] * 3, "rows, one for each thruster"),
    "gains.k2": (GAIN, ""), "gains.k3": (GAIN, ""), "gains.k4": (GAIN, ""), "gains.leak": (GAIN, ""), "gains.damp": (GAIN, ""),
    "gains.kp": ([GAIN] * 2, ""), "gains.kd": ([GAIN] * 2, ""), "gains.bias": ([(0, 1 << 31)] * 2, "acceleration"),
    "gains.wave": ([(-Q, Q)] * 4, ""), "gains.k1": ([(-Q, Q)] * 2, ""),
    "yaw.k2": (GAIN, ""), "yaw.kp": (GAIN, ""), "yaw.kd": (GAIN, ""), "yaw.k3": ((0, 1 << 17), ""), "yaw.k4": ((0, 1 << 24), ""),
    "yaw.leak": ((1 << 17, Q), ""), "yaw.damp": ((1 << 17, Q), ""), "yaw.bias": ((0, 1 << 38), "acceleration"),
    "cert.rho": (GAIN, ""), "cert.b": ((0, 1 << 50), ""), "cert.r": ((0, 1 << 40), ""), "cert.g": ([(0, 1 << 40)] * 2, ""),
    "cert.p": (PART, "entries"), "cert.span": ((0, 1 << 40), "entries"),
    "guide.rate": ([(1, 1 << 31)] * 3, "nm and nanodegrees per cycle"), "guide.accel": ([(1, 1 << 31)] * 3, "nm and nanodegrees per cycle²"),
}


def pattern_of(key):
    """thruster.0.max as thruster.N.max."""
    return re.sub(r"\.[0-9]+(?=\.)", ".N", key)


def value_at(document, key):
    """What stands at a key, or None."""
    for part in key.split("."):
        if isinstance(document, dict):
            document = document.get(part)
        elif isinstance(document, list) and part.isdigit() and int(part) < len(document):
            document = document[int(part)]
        else:
            return None
    return document


def range_of(document, key, part):
    """The least and the greatest number that may stand there."""
    pattern = pattern_of(key)
    groups = value_at(document, "plant.groups") or 0
    if pattern in ("thruster.N.group", "case.N.lost"):
        return 0, groups - 1 if pattern == "thruster.N.group" else 2 ** groups - 1
    if pattern not in KEYS:                     # a list of squares: d, then l
        return (0, 1 << 40) if part == 0 else PART
    ranges = KEYS[pattern][0]
    return ranges if isinstance(ranges, tuple) else ranges[part]


def unit_of(key):
    return KEYS.get(pattern_of(key), (None, ""))[1]


def axis_of(key, part):
    """The axis of an acceleration."""
    return 2 if key == "yaw.bias" else part or 0


def numbers_in(value, at=()):
    """Each whole number of a value with its indices."""
    if isinstance(value, list):
        for number, one in enumerate(value):
            yield from numbers_in(one, at + (number,))
    elif isinstance(value, int) and not isinstance(value, bool):
        yield at, value


def plain(number):
    """Four digits, and no power of ten."""
    return "%.0f" % number if abs(number) >= 1000 else "%.4g" % number


def force(document, axis, acceleration):
    """An acceleration on an axis as kN, for yaw as kN m, in words."""
    mass = value_at(document, "plant.mass")
    newtons = acceleration * mass[axis] / (1 << 20)
    return plain(newtons / 1e6) + " kN m" if axis == 2 else plain(newtons / 1e3) + " kN"
