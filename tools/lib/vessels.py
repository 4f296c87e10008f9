"""A vessel as its owner describes it: what is read of a description, and what is refused, by key."""
import math
import tomllib

DEFAULTS = {"name": "", "cycle_s": 1.0, "time_constant_s": 60.0, "damping": 0.8, "observer": [2.3, 7.7, 4.4], "leak": 0.1, "heading": 0.0,
            "origin": [0.0, 0.0], "added": [0.05, 0.8, 0.7]}

# Each number: its least and greatest value, and the unit that they are in.
RANGES = {"length_m": (10, 450, "m"), "mass_t": (20, 600000, "t"), "gyration_m": (2, 150, "m"), "cycle_s": (0.1, 10, "s"), "time_constant_s": (5, 600, "s"),
          "damping": (0.3, 3, ""), "leak": (0.001, 1, ""), "wave_period_s": (2, 30, "s"), "heading": (0, 359.99, "degrees")}
ANTENNA = {"x": (-500, 500, "m"), "y": (-500, 500, "m"), "window": (4, 32, "cycles"), "jump_m": (0, 1000, "m"), "noise_m": (0, 1000, "m"), "age": (0, 60, "cycles")}
WIND = {"front_m2": (5, 20000, "m²"), "side_m2": (10, 40000, "m²"), "cx": (0.1, 2, ""), "cy": (0.1, 2, ""), "cn": (0, 0.5, "")}
THRUSTER = {"group": (0, 7, ""), "x": (-500, 500, "m"), "y": (-500, 500, "m"), "direction": (0, 359.99, "degrees"), "ahead_kN": (0, 2000, "kN"), "astern_kN": (0, 2000, "kN")}
ANTENNA_DEFAULTS = {"window": 8, "jump_m": 5, "noise_m": 2, "age": 3}


class Refused(Exception):
    """A description can't be used: its key, and what is wrong."""


def refuse(key, text):
    raise Refused("%s: %s" % (key, text))


def number(key, value, least, most, unit):
    if isinstance(value, bool) or not isinstance(value, (int, float)) or not math.isfinite(value):
        refuse(key, "wanted is a number%s" % (" of %s" % unit if unit else ""))
    if not least <= value <= most:
        hint = ""
        for factor, text in ((1000, "a thousand times too large"), (1 / 1000, "a thousand times too small")):
            if least <= value / factor <= most and value:
                hint = ": is it %s, in another unit than %s?" % (text, unit or "this one")
                break
        refuse(key, "%s is outside %s to %s%s%s" % (value, least, most, " " + unit if unit else "", hint))
    return value


def numbers(key, value, count, least, most, unit=""):
    if not isinstance(value, list) or len(value) != count:
        refuse(key, "wanted are %d numbers" % count)
    return [number("%s[%d]" % (key, i), x, least, most, unit) for i, x in enumerate(value)]


def table(key, value, ranges, defaults, words=()):
    """One table with just these keys."""
    if not isinstance(value, dict):
        refuse(key, "wanted is a table")
    for name in value:
        if name not in ranges and name not in words:
            refuse("%s.%s" % (key, name), "no such key; there are %s" % ", ".join([*words, *ranges]))
    found = {name: value.get(name, "") for name in words}
    for name, (least, most, unit) in ranges.items():
        if name not in value and name not in defaults:
            refuse("%s.%s" % (key, name), "it is missing")
        found[name] = number("%s.%s" % (key, name), value.get(name, defaults.get(name)), least, most, unit)
    return found


def tables(key, value, fewest, most, ranges, defaults, words=()):
    if not isinstance(value, list) or not fewest <= len(value) <= most:
        refuse(key, "wanted are %s tables" % (fewest if fewest == most else "%d to %d" % (fewest, most)))
    return [table("%s %d" % (key, i), one, ranges, defaults, words) for i, one in enumerate(value)]


def read(name):
    """The description in a file, with its defaults filled in."""
    try:
        with open(name, "rb") as file:
            said = tomllib.load(file)
    except OSError as error:
        raise Refused("%s: %s" % (name, error.strerror)) from None
    except (tomllib.TOMLDecodeError, UnicodeDecodeError) as error:
        raise Refused("%s is no TOML document: %s" % (name, error)) from None
    return described(said)


def described(said):
    known = [*DEFAULTS, *RANGES, "antenna", "wind", "thruster"]
    for key in said:
        if key not in known:
            refuse(key, "no such key; there are %s" % ", ".join(sorted(set(known))))
    vessel = {**DEFAULTS, **said}
    for key, (least, most, unit) in RANGES.items():
        if key in vessel:
            number(key, vessel[key], least, most, unit)
        elif key not in ("wave_period_s", "gyration_m"):
            refuse(key, "it is missing")
    vessel.setdefault("gyration_m", 0.25 * vessel["length_m"])
    vessel["added"] = numbers("added", vessel["added"], 3, 0, 3)
    vessel["observer"] = numbers("observer", vessel["observer"], 3, 0.01, 50)
    vessel["origin"] = numbers("origin", vessel["origin"], 2, -180, 180, "degrees")
    if abs(vessel["origin"][0]) > 89:
        refuse("origin[0]", "the latitude %s is outside -89 to 89 degrees" % vessel["origin"][0])
    for key in ("antenna", "wind", "thruster"):
        if key not in said:
            refuse(key, "it is missing")
    vessel["antenna"] = tables("antenna", said["antenna"], 3, 3, ANTENNA, ANTENNA_DEFAULTS, ("name",))
    vessel["wind"] = table("wind", said["wind"], WIND, {})
    vessel["thruster"] = tables("thruster", said["thruster"], 1, 12, THRUSTER, {}, ("name",))
    judge(vessel)
    return vessel


def judge(vessel):
    """What no single number shows."""
    length = vessel["length_m"]
    fill = vessel["mass_t"] / length ** 3
    if not 0.0004 <= fill <= 0.08:
        refuse("mass_t", "%s t at a length of %s m is %s than any hull: is it in kg, or the length in feet?" % (vessel["mass_t"], length, "heavier" if fill > 0.08 else "lighter"))
    if not 0.1 <= vessel["gyration_m"] / length <= 0.5:
        refuse("gyration_m", "a radius of gyration of %s m is outside 0.1 to 0.5 of the length" % vessel["gyration_m"])
    for kind in ("antenna", "thruster"):
        for i, one in enumerate(vessel[kind]):
            for key in ("x", "y"):
                if abs(one[key]) > 0.75 * length:
                    refuse("%s %d.%s" % (kind, i, key), "%s m is outside the hull: from amidships, ahead and to starboard, in metres" % one[key])
    for i, one in enumerate(vessel["thruster"]):
        if isinstance(one["group"], float):
            refuse("thruster %d.group" % i, "wanted is a whole number")
        if max(one["ahead_kN"], one["astern_kN"]) <= 0 or min(one["ahead_kN"], one["astern_kN"]) <= 0:
            refuse("thruster %d.%s" % (i, "astern_kN" if one["astern_kN"] <= 0 else "ahead_kN"), "a thruster that gives nothing one way can't be shared in; leave it out or give both")
    push = sum(one["ahead_kN"] for one in vessel["thruster"]) / vessel["mass_t"]
    if not 0.002 <= push <= 2:
        refuse("thruster", "all thrusters together give %.3g kN for each tonne: is `ahead_kN` in newtons or in tonnes of force?" % push)
    groups = sorted({one["group"] for one in vessel["thruster"]})
    if groups != list(range(len(groups))):
        refuse("thruster", "the groups are %s; they are numbered from 0 on, without a gap" % groups)
    vessel["groups"] = len(groups)
    if vessel["time_constant_s"] < 5 * vessel["cycle_s"]:
        refuse("time_constant_s", "%s s is less than five cycles" % vessel["time_constant_s"])
