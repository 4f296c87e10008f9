"""Mass numbers, shares and boxes of a vessel's thrusters, case by case: by a weighted pseudo-inverse."""
import itertools
import math

from vessels import refuse

UNIT = 1 << 20          # shares are over 2^20
MOST_CASES = 32
AXES = ("surge", "sway", "yaw")
ARM = 20000.0           # mm: makes yaw like the other axes in the weights
SHARE, YAW = 1 << 31, 1 << 38       # ranges of a box


def acceleration(vessel):
    """What nm per cycle² are in m/s²."""
    return 1e-9 / vessel["cycle_s"] ** 2


def inertia(vessel):
    """Mass ahead and across in kg, and the moment of inertia in kg·m², each with the water that moves along."""
    kg = vessel["mass_t"] * 1000
    return [kg * (1 + vessel["added"][0]), kg * (1 + vessel["added"][1]), kg * vessel["gyration_m"] ** 2 * (1 + vessel["added"][2])]


def masses(vessel):
    """Newtons for a nm per cycle², and newton-millimetres for a nanodegree per cycle², over 2^20."""
    surge, sway, yaw = inertia(vessel)
    unit = acceleration(vessel) * UNIT
    return [round(surge * unit), round(sway * unit), round(yaw * math.pi / 180 * unit * 1000)]


def effects(vessel):
    """What a newton of each thruster gives: surge, sway, and the turning moment in newton-millimetres."""
    found = []
    for one in vessel["thruster"]:
        c, s = math.cos(math.radians(one["direction"])), math.sin(math.radians(one["direction"]))
        found.append([c, s, (one["x"] * s - one["y"] * c) * 1000])
    return found


def solved(matrix, right):
    """The solution of three linear equations, or None where they leave something open."""
    rows = [list(row) + [x] for row, x in zip(matrix, right)]
    for i in range(3):
        best = max(range(i, 3), key=lambda k: abs(rows[k][i]))
        rows[i], rows[best] = rows[best], rows[i]
        if abs(rows[i][i]) < 1e-9:
            return None
        rows[i] = [x / rows[i][i] for x in rows[i]]
        for k in range(3):
            if k != i:
                rows[k] = [x - rows[k][i] * y for x, y in zip(rows[k], rows[i])]
    return [row[3] for row in rows]


def is_ready(one, lost):
    return not lost >> one["group"] & 1


def shares(vessel, lost):
    """Each thruster's row while these groups are lost; None where they can't be balanced."""
    mass, pushes = masses(vessel), effects(vessel)
    weights = [min(one["ahead_kN"], one["astern_kN"]) ** 2 if is_ready(one, lost) else 0.0 for one in vessel["thruster"]]
    if max(weights) <= 0:
        return None
    weights = [w / max(weights) for w in weights]
    size = (1, 1, ARM)
    matrix = [[sum(w * push[i] * push[j] / size[i] / size[j] for w, push in zip(weights, pushes)) for j in range(3)] for i in range(3)]
    rows = [[0, 0, 0] for _ in pushes]
    for axis in range(3):
        wanted = [mass[axis] / size[axis] if i == axis else 0.0 for i in range(3)]
        parts = solved(matrix, wanted)
        if parts is None:
            return None
        for row, w, push in zip(rows, weights, pushes):
            row[axis] = round(w * sum(push[i] * parts[i] / size[i] for i in range(3)))
    return rows if all(abs(x) < SHARE for row in rows for x in row) else None


def corner(row, low, high, sign):
    """The most that a row gives at the corners of a box, ahead or (with -1) astern, over 2^20."""
    return sum(max(sign * x * lo, sign * x * hi) for x, lo, hi in zip(row, low, high))


def limits(vessel, lost):
    """The most of each thruster ahead and astern in newtons over 2^20, less one newton for the floor."""
    return [((round(one["ahead_kN"] * 1000) - 1) * UNIT, (round(one["astern_kN"] * 1000) - 1) * UNIT) if is_ready(one, lost) else (0, 0) for one in vessel["thruster"]]


def box(vessel, rows, lost):
    """The largest box of this shape that the thrusters give: each axis alone, a common share of these, then each side as far as it goes."""
    most = limits(vessel, lost)
    alone = []
    for axis in range(3):
        parts = [min(pair) / abs(row[axis]) for pair, row in zip(most, rows) if row[axis]]
        if not parts:
            return None
        alone.append(min(parts))
    share = min((min(pair) / sum(abs(x) * a for x, a in zip(row, alone)) for pair, row in zip(most, rows) if any(row)), default=0)
    top = (SHARE, SHARE, YAW)
    high = [int(min(a * min(share, 1), t)) for a, t in zip(alone, top)]
    low = [-x for x in high]
    for axis in range(3):
        for side, sign in ((high, 1), (low, -1)):
            side[axis] = sign * int(min(top[axis], furthest(most, rows, low, high, axis, sign)))
    return low, high


def furthest(most, rows, low, high, axis, sign):
    """How far a side of the box can go while the others stay."""
    found = math.inf
    for (ahead, astern), row in zip(most, rows):
        if not row[axis]:
            continue
        for limit, way in ((ahead, 1), (astern, -1)):
            if way * sign * row[axis] > 0:
                rest = corner(row, low, high, way) - max(way * row[axis] * low[axis], way * row[axis] * high[axis])
                found = min(found, (limit - rest) // abs(row[axis]))
    return max(found, 0)


def missing_axis(vessel, lost):
    """The first axis on which the thrusters that are left give nothing of their own, by name."""
    pushes = [push for push, one in zip(effects(vessel), vessel["thruster"]) if is_ready(one, lost)]
    for axis, least in ((0, 0.05), (1, 0.05)):
        if all(abs(push[axis]) < least for push in pushes):
            return AXES[axis]
    return "yaw beside surge and sway"


def cases(vessel):
    """The case without a loss, of each lost group, and of each pair that can still be balanced; refused where one of the first two kinds can't."""
    groups = vessel["groups"]
    singles = [0] + [1 << group for group in range(groups)]
    pairs = [1 << a | 1 << b for a, b in itertools.combinations(range(groups), 2)]
    found = []
    for lost in singles + pairs:
        rows = shares(vessel, lost)
        sides = box(vessel, rows, lost) if rows else None
        if sides and min(sides[1][:2]) > 0 and len(found) < MOST_CASES:
            found.append({"lost": lost, "lo": sides[0], "hi": sides[1], "b": rows})
        elif lost in singles:
            if lost == 0:
                refuse("thruster", "together they give no %s" % missing_axis(vessel, lost))
            refuse("thruster", "without group %d nothing gives %s, so its loss can't be survived" % (lost.bit_length() - 1, missing_axis(vessel, lost)))
    return found


def tolerances(vessel, found):
    """By how much the rounded shares miss each axis, rounded up, with room for the sine table's own rounding."""
    mass, pushes = masses(vessel), effects(vessel)
    tol = [0, 0, 0]
    for case in found:
        for i in range(3):
            for j in range(3):
                given = sum(push[i] * row[j] for push, row in zip(pushes, case["b"]))
                slack = 1e-8 * sum(abs(push[i] * row[j]) for push, row in zip(pushes, case["b"])) + 0.001
                error = abs(given - (mass[i] if i == j else 0))
                if error > 1e-9:
                    tol[i] = max(tol[i], math.ceil(error + slack))
    return tol
