"""The text of a plant file that a design gives, with comments; and a file whose certificate is replaced, the rest as it stands."""
import certificates
from tuning import keys_in_order


def text_of(vessel, mass, tol, cases, plane, yaw, wind, cert):
    """A whole plant file."""
    version = 2 if "wave" in plane else 1
    heading = round(vessel["heading"] * 100)
    lines = ["# %s" % (vessel["name"] or "A vessel"), "#",
             "# Made by tools/design. Q stands for 2^30, the number that means 1 in gains; a cycle is %s s." % vessel["cycle_s"], "",
             "[plant]", "# 1: without a wave filter; 2: with one", "version = %d" % version, "# milliseconds", "cycle_ms = %d" % round(vessel["cycle_s"] * 1000),
             "# latitude and longitude of the origin, in 10^-7 minute", "origin = %s" % [round(x * 6e8) for x in vessel["origin"]],
             "# north and east in mm, heading in hundredths of a degree", "start = [0, 0, %d]" % heading, "setpoint = [0, 0, %d]" % heading,
             "# how many groups fail together", "groups = %d" % vessel["groups"],
             "# N (yaw: N mm) for a nm (nanodegree) per cycle², over 2^20, and by how much the shares may miss it", "mass = %s" % mass, "tol = %s" % tol, ""]
    for one in vessel["antenna"]:
        lines += ["# position reference%s" % (": " + one["name"] if one["name"] else ""), "[[ref]]", "window = %d" % one["window"], "jump_mm = %d" % round(one["jump_m"] * 1000),
                  "noise_mm2 = %d" % round((one["noise_m"] * 1000) ** 2), "age = %d" % one["age"], "lever = %s" % [round(one["x"] * 1000), round(one["y"] * 1000)], ""]
    lines += ["# the wind's push from each 30 degrees over the bow: surge, sway, yaw, over 2^20, for a mm²/s²", "[wind]", "push = ["]
    lines += ["  %s," % row for row in wind] + ["]", ""]
    for i, one in enumerate(vessel["thruster"]):
        lines += ["# t%d%s" % (i, ": " + one["name"] if one["name"] else ""), "[[thruster]]", "group = %d" % one["group"], "at = %s" % [round(one["x"] * 1000), round(one["y"] * 1000)],
                  "azimuth = %d" % (round(one["direction"] * 100) % 36000), "min = %d" % -round(one["astern_kN"] * 1000), "max = %d" % round(one["ahead_kN"] * 1000), ""]
    for case in cases:
        lines += ["# lost groups as a mask, the box of demands that can be met, and each thruster's share, over 2^20", "[[case]]"]
        lines += ["%s = %s" % (key, case[key]) for key in ("lost", "lo", "hi", "b")] + [""]
    lines += ["# surge and sway, over Q, in accelerations", "[gains]"] + ["%s = %s" % (key, plane[key]) for key in keys_in_order(plane)] + [""]
    lines += ["# yaw, over Q", "[yaw]"] + ["%s = %s" % pair for pair in yaw.items()] + [""]
    lines += ["# what shows that these gains are safe against a replaced reference; see docs/CONTROL.md"] + certificates.section(cert)
    return "\n".join(lines) + "\n"


def with_certificate(text, cert):
    """The text of a plant file with another certificate; all else stays byte by byte, comments within the section too."""
    lines = text.split("\n")
    heads = [i for i, line in enumerate(lines) if line.split("#")[0].strip() == "[cert]"]
    if len(heads) != 1:
        raise ValueError("there is no table [cert] that stands by itself")
    start = heads[0] + 1
    end = next((i for i in range(start, len(lines)) if lines[i].startswith("[")), len(lines))
    fresh = dict(line.split(" = ", 1) for line in certificates.section(cert)[1:])
    kept, depth = [], 0
    for line in lines[start:end]:
        bare = line.split("#")[0]
        key = bare.split("=")[0].strip()
        if depth == 0 and "=" in bare and key in fresh:
            kept.append("%s = %s" % (key, fresh.pop(key)))
            depth = bare.count("[") - bare.count("]")
        elif depth > 0:
            depth += bare.count("[") - bare.count("]")
        else:
            kept.append(line)
    while kept and not kept[-1].strip():
        kept.pop()
    kept += ["%s = %s" % pair for pair in fresh.items()]
    tail = lines[end:] if end < len(lines) else [""]
    return "\n".join(lines[:start] + kept + ([""] if end < len(lines) else []) + tail)
