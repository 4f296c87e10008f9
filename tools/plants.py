"""Random plant files for compare.py, as text: sound ones, ones with a fault, and certificates that are varied or hurt.

Each begins with a sample plant of ../plants. A sound one differs in all that may differ freely: cycle, origin, start, setpoint, limits of
references, levers, wind, thrusters, groups and cases; its gains stay, since their certificate has to hold.
"""
import copy
import os
import tomllib

HERE = os.path.dirname(os.path.abspath(__file__))
Q = 1 << 30


def one_in(rng, n):
    return rng.randrange(n) == 0


def sample(version):
    with open(os.path.join(HERE, "..", "plants", "S%d.toml" % version), "rb") as file:
        return tomllib.load(file)


# ---- text ----

def value_text(value):
    if isinstance(value, bool):
        return "true" if value else "false"
    if isinstance(value, list):
        return "[" + ", ".join(value_text(one) for one in value) + "]"
    if isinstance(value, str):
        return '"%s"' % value
    return repr(value)


def text_of(plant):
    """The plant as a TOML document, or a text as it stands."""
    if isinstance(plant, str):
        return plant
    lines = []
    for name, table in plant.items():
        if isinstance(table, dict):
            lines += ["[%s]" % name] + ["%s = %s" % pair for pair in shown(table)] + [""]
        elif isinstance(table, list) and table and all(isinstance(one, dict) for one in table):
            for one in table:
                lines += ["[[%s]]" % name] + ["%s = %s" % pair for pair in shown(one)] + [""]
        else:
            lines.insert(0, "%s = %s" % (name, value_text(table)))
    return "\n".join(lines) + "\n"


def shown(table):
    return [(key, value_text(value)) for key, value in table.items()]


# ---- sound plants ----

def share_rows(rng, thrusters, lost, groups):
    """Rows of shares; none for a thruster of a lost group."""
    rows = []
    for thruster in thrusters:
        gone = lost >> thruster["group"] & 1
        rows.append([0, 0, 0] if gone else [rng.randrange(-6000, 6001), rng.randrange(-6000, 6001), rng.choice([0, rng.randrange(-900, 901)])])
    return rows


def free_cases(rng, plant):
    """Other thrusters, groups and cases, with a tolerance that lets them stand."""
    groups = rng.choice([1, 2, 2, 3, 8])
    plant["plant"]["groups"] = groups
    plant["thruster"] = [{"group": rng.randrange(groups), "at": [rng.randrange(-500000, 500001), rng.randrange(-500000, 500001)],
                          "azimuth": rng.randrange(36000), "min": -rng.choice([0, 400000, 1 << 31]), "max": rng.choice([0, 400000, 1 << 31])}
                         for _ in range(rng.choice([1, 2, 3, 6, 12]))]
    for thruster in plant["thruster"]:
        if not one_in(rng, 10):
            thruster["min"], thruster["max"] = -400000 - rng.randrange(1000000), 400000 + rng.randrange(1000000)
    masks = [0] + [1 << g for g in range(groups)]
    for _ in range(rng.choice([0, 0, 1, 3])):
        mask = rng.randrange(1 << groups)
        if mask not in masks:
            masks.append(mask)
    rng.shuffle(masks)
    plant["case"] = []
    for mask in masks:
        most = [rng.choice([0, 1000000, 20000000]), rng.choice([1000000, 20000000]), rng.choice([0, 50000000])]
        plant["case"].append({"lost": mask, "lo": [-one for one in most], "hi": [one + rng.randrange(3) for one in most],
                              "b": share_rows(rng, plant["thruster"], mask, groups)})
    plant["plant"]["mass"] = [rng.randrange(1 << 20) for _ in range(3)]
    plant["plant"]["tol"] = [1 << 40] * 3


def sound(rng, version=1):
    plant = copy.deepcopy(sample(version))
    head = plant["plant"]
    if one_in(rng, 2):
        head["cycle_ms"] = rng.choice([100, 500, 999, 1000, 2500, 10000])
    if one_in(rng, 3):
        head["start"] = [rng.randrange(-20000, 20001), rng.randrange(-20000, 20001), rng.randrange(36000)]
    if one_in(rng, 3):
        head["setpoint"] = [rng.randrange(-20000, 20001), rng.randrange(-20000, 20001), rng.randrange(36000)]
    if one_in(rng, 6):
        head["origin"] = [28870380000 + rng.randrange(-10 ** 6, 10 ** 6), 6910000000 + rng.randrange(-10 ** 6, 10 ** 6)]
    for ref in plant["ref"]:
        if one_in(rng, 2):
            ref.update(window=rng.choice([4, 5, 8, 32]), jump_mm=rng.choice([0, 300, 5000, 1000000]), noise_mm2=rng.choice([0, 10000, 4000000, 10 ** 12]),
                       age=rng.choice([0, 1, 3, 60]), lever=[rng.randrange(-500000, 500001), rng.randrange(-500000, 500001)])
    if one_in(rng, 3):
        plant["wind"]["push"] = [[rng.randrange(-(1 << 24), (1 << 24) + 1) if one_in(rng, 4) else rng.randrange(-300000, 300001) for _ in range(3)]
                                 for _ in range(12)]
    if one_in(rng, 2):
        free_cases(rng, plant)
    return plant


# ---- hurt plants ----

def paths(value, path=()):
    """The way to each value of a document."""
    found = []
    for key, one in value.items() if isinstance(value, dict) else enumerate(value):
        found.append(path + (key,))
        if isinstance(one, (dict, list)):
            found += paths(one, path + (key,))
    return found


def at(plant, path):
    for key in path:
        plant = plant[key]
    return plant


def hurt(rng, plant):
    """A plant file with something wrong in it, mostly."""
    plant = copy.deepcopy(plant)
    kind = rng.randrange(12)
    if kind == 0:
        text = text_of(plant)
        place = rng.randrange(len(text))
        return rng.choice([text[:place] + text[place + 1:], text[:place], text[:place] + rng.choice("=[\"#x\n\xe9") + text[place:], "a =", "", "\n"])
    for _ in range(rng.choice([1, 1, 1, 2])):
        path = rng.choice(paths(plant))
        holder, key = at(plant, path[:-1]), path[-1]
        old = holder[key]
        if kind < 4:
            del holder[key]
        elif kind < 6:
            holder[key] = rng.choice([1.5, "x", True, [], [1], {"a": 1}, [[1, 2, 3]], 0])
        elif kind < 8 and isinstance(old, list):
            holder[key] = rng.choice([old[:-1], old + old[-1:], old * 2, []])
        elif isinstance(old, int):
            holder[key] = rng.choice([old + 1, old - 1, -old, 0, -1, 1 << 31, -(1 << 31), (1 << 31) + 1, 1 << 40, (1 << 40) + 1, 1 << 62,
                                      -(1 << 63), 8796094, 36000, 500001, 33, 9, 61])
    return plant


# ---- certificates ----

def certificate(rng, version):
    """A sample plant whose gains or certificate are varied, so that it is accepted or a condition fails."""
    plant = copy.deepcopy(sample(version))
    cert, gains, yaw = plant["cert"], plant["gains"], plant["yaw"]
    for _ in range(rng.choice([0, 1, 1, 1, 2])):
        kind = rng.randrange(10)
        if kind == 0:
            cert["rho"] = rng.choice([cert["rho"] + 1, cert["rho"] - 1, cert["rho"] + rng.randrange(400000), Q - 1, Q, Q + 1, 0, -1])
        elif kind == 1:
            cert["b"] = rng.choice([cert["b"] + rng.randrange(10 ** 9), cert["b"] - rng.randrange(10 ** 9), 1 << 50, (1 << 50) + 1, 0])
        elif kind == 2:
            cert["r"] = rng.choice([27129, 27130, 27131, cert["r"] + rng.randrange(10 ** 6), 1 << 40, (1 << 40) + 1, 0])
        elif kind == 3:
            cert["g"][rng.randrange(2)] = rng.choice([160000, 159000, 100000, 200000, 1 << 40, (1 << 40) + 1, 0])
        elif kind == 4:
            place = rng.randrange(len(cert["p"]))
            cert["p"][place] += rng.choice([1, -1, 1000, -1000, cert["p"][place], 1 << 40])
        elif kind == 5:
            place = rng.randrange(len(cert["span"]))
            cert["span"][place] = rng.choice([cert["span"][place] * 2, cert["span"][place] // 2, 1 << 40, 0, cert["span"][place] + 1])
        elif kind == 6:
            name = rng.choice([key for key in gains if isinstance(gains[key], int)])
            gains[name] = rng.choice([gains[name] + rng.randrange(-3, 4), gains[name] * 2, 0, Q, Q + 1, -1])
        elif kind == 7:
            name = rng.choice([key for key in gains if isinstance(gains[key], list)])
            place = rng.randrange(len(gains[name]))
            gains[name][place] = rng.choice([gains[name][place] + rng.randrange(-3, 4), gains[name][place] * 2, 0, Q, Q + 1, -1, -Q, -Q - 1])
        elif kind == 8:
            name = rng.choice(list(yaw))
            yaw[name] = rng.choice([yaw[name] + 1, 0, 1 << 17, (1 << 17) - 1, (1 << 17) + 1, 1 << 24, (1 << 24) + 1, Q, Q + 1, 1 << 38, (1 << 38) + 1, -1])
        else:
            squares = cert[rng.choice([key for key in cert if isinstance(cert[key], list) and cert[key] and isinstance(cert[key][0], list)])]
            row = rng.choice(squares)
            change = rng.randrange(4)
            if change == 0:
                squares.remove(row)
            elif change == 1:
                squares.append(list(row))
            else:
                place = rng.randrange(len(row))
                row[place] += rng.choice([1, -1, row[place], 1000, -1000, 1 << 40])
    return plant


def bare_certificate(rng, version):
    """The same with lists left out, in part or all, and other roots: what `squares` makes anew."""
    plant = certificate(rng, version)
    cert = plant["cert"]
    kind = rng.randrange(4)
    for key, value in cert.items():
        if isinstance(value, list) and (not value or isinstance(value[0], list)) and key != "form" and (kind == 0 or kind == 1 and one_in(rng, 2)):
            cert[key] = []
    if kind < 2:
        cert["b"], cert["r"] = rng.choice([0, cert["b"]]), rng.choice([0, cert["r"]])
    return plant


def guided(rng):
    """A sound plant with the limits of a setpoint that moves, good and faulty."""
    plant = sound(rng, rng.choice([1, 1, 2]))
    most = rng.choice([10 ** 6, 10 ** 8, 10 ** 9, 1 << 31])
    plant["guide"] = {"rate": [rng.randrange(1, most + 1) for _ in range(3)], "accel": [rng.randrange(1, most + 1) for _ in range(3)]}
    if one_in(rng, 8):
        key = rng.choice(["rate", "accel"])
        kind = rng.randrange(4)
        if kind == 0:
            del plant["guide"][key]
        else:
            plant["guide"][key] = rng.choice([[0, 1, 1], [1, 1, (1 << 31) + 1], [1, 1], "x", 5, [1.5, 1, 1], [1, -1, 1]])
    return plant
