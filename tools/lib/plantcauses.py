"""What is behind a fault of a plant file's keys, cases and gains, in words: where it stands, in kilonewtons, and by how much it is short."""
import tomllib

import certificates
import plantkeys
from faultplaces import Places

STATES = ("place", "bias", "velocity", "wave state p", "wave state q")
VERTICES = ("thrust at its limit", "the bias at its limit", "neither at a limit")
OUTPUTS = ("with the bias", "with the bias at its limit")
STEPS = 40                  # halvings in the search for a number that would do


class Plant:
    """A plant file: its text, its document where it is one, and where its keys stand."""

    def __init__(self, name, data):
        self.name, self.data = name, data
        self.text = data.decode("utf-8", "replace")
        self.document, self.error = None, None
        try:
            self.document = tomllib.loads(data.decode("utf-8").replace("\r\n", "\n"))
        except (ValueError, RecursionError) as error:
            self.error = error
        self.places = Places(self.text)

    def at(self, key):
        return plantkeys.value_at(self.document, key)

    def where(self, key):
        """The line of a key, for a reader."""
        shown = self.places.shown(key)
        return "%s: there is no %s" % (self.name, key) if shown is None else "%s %d: %s" % (self.name, shown[0], cut(shown[1]))


def cut(text, most=100):
    return text if len(text) <= most else text[:most - 2] + ".."


def part_of(part, whole):
    """A part of a size, in words."""
    return "more than all of its size" if whole <= 0 else "%.0f times its size" % (part / whole) if part > 10 * whole else "%.3g %% of its size" % (100 * part / whole)


# ---- keys

def toml(plant, _):
    """No document: the place at which a reader stops."""
    if isinstance(plant.error, UnicodeDecodeError):
        line = plant.data[:plant.error.start].count(b"\n") + 1
        return ["%s %d: the byte %d of the file is no UTF-8: save it as UTF-8" % (plant.name, line, plant.error.start)]
    if plant.error:
        return ["%s: %s" % (plant.name, plant.error)]
    for at, number in long_numbers(plant.document):
        return [plant.where(at), "%d doesn't fit 64 bits" % number]
    return ["%s: Python takes it as a document; what the program doesn't take is newer than TOML 1.0, or nested too deep" % plant.name]


def long_numbers(value, path=""):
    if isinstance(value, (dict, list)):
        for key, one in value.items() if isinstance(value, dict) else enumerate(value):
            yield from long_numbers(one, "%s.%s" % (path, key) if path else str(key))
    elif isinstance(value, int) and not -(1 << 63) <= value < 1 << 63:
        yield path, value


def missing(plant, found):
    key = found["KEY"]
    if key == "case":
        groups, there = plant.at("plant.groups"), [case["lost"] for case in plant.at("case") or []]
        wanted = [mask for mask in [0] + [1 << group for group in range(groups)] if mask not in there]
        if plant.at("case") is not None:
            return [plant.where("case"), "there is no [[case]] with lost = %s: a case is wanted for no lost group (0), and for each single one" % " or ".join(map(str, wanted))]
    table, _, name = key.rpartition(".")
    there = table and plant.at(table) is not None
    return [plant.where(table), "this table has no %s" % name] if there else ["%s: there is no %s" % (plant.name, "[%s]" % table if table else key)]


def kind(plant, found):
    key = found["KEY"]
    value = plant.at(key)
    is_row = isinstance(value, list)
    wanted = plantkeys.KEYS.get(plantkeys.pattern_of(key), ([], "rows of a square, at most 8"))
    if isinstance(wanted[0], list) or key.startswith("cert."):
        asked = "an array of %s whole numbers" % len(wanted[0]) if wanted[0] and wanted[1] not in ("12 rows", "rows, one for each thruster") else "an array: %s, of whole numbers" % wanted[1]
    else:
        asked = "%s tables" % (wanted[0] if key == "ref" else "1 to %d" % wanted[0]) if key in ("ref", "thruster", "case") else "a whole number"
    has = "an array of %d" % len(value) if is_row else {bool: "true or false", str: "text", float: "a number with a point", dict: "a table"}.get(type(value), type(value).__name__)
    return [plant.where(key), "wanted is %s; here stands %s" % (asked, has)]


def out_of_range(plant, found):
    """The first part outside its range."""
    key = found["KEY"]
    value = plant.at(key)
    for at, number in plantkeys.numbers_in(value):
        part = at[-1] if at else None
        least, most = plantkeys.range_of(plant.document, key, part)
        if least <= number <= most:
            continue
        path = ".".join([key, *map(str, at)])
        named = key if not at else "entry %s of %s" % (" of row ".join(map(str, reversed(at))), key)
        told = [plant.where(path), "%s is %d; it may be %d to %d%s" % (named, number, least, most, unit_after(key))]
        if plantkeys.unit_of(key) == "acceleration" and plant.at("plant.mass"):
            axis = plantkeys.axis_of(key, part)
            told.append("that is %s on %s, and %s to %s are allowed" % (plantkeys.force(plant.document, axis, number), plantkeys.AXES[axis],
                                                                       plantkeys.force(plant.document, axis, least), plantkeys.force(plant.document, axis, most)))
        return told
    if key.endswith(".lost"):
        others = [number for number, case in enumerate(plant.at("case")) if case.get("lost") == value and "case.%d.lost" % number != key]
        return [plant.where(key), "an earlier case has the same lost groups, at %s" % plant.where("case.%d.lost" % others[0])]
    return [plant.where(key)]


def unit_after(key):
    unit = plantkeys.unit_of(key)
    return "" if unit in ("", "entries", "12 rows", "rows, one for each thruster") else " (%s)" % ("nm per cycle²" if unit == "acceleration" else unit)


# ---- cases

def case_of(plant, mask):
    return next((number, case) for number, case in enumerate(plant.at("case")) if case["lost"] == int(mask))


def lost_words(mask):
    groups = [str(group) for group in range(8) if int(mask) >> group & 1]
    return "no group lost" if not groups else "group %s lost" % groups[0] if len(groups) == 1 else "groups %s lost" % " and ".join(groups)


def corner(plant, found):
    """Which corner asks too much of which thruster, and how much smaller the box would have to be."""
    number, case = case_of(plant, found["MASK"])
    which, need, limit = int(found["THRUSTER"]), int(found["NEED"]), int(found["LIMIT"])
    row = case["b"][which]
    ends = [case["hi" if (share > 0) == (need > limit) else "lo"][axis] for axis, share in enumerate(row)]
    asked = ", ".join("%s on %s" % (plantkeys.force(plant.document, axis, end), plantkeys.AXES[axis]) for axis, end in enumerate(ends) if row[axis])
    told = [plant.where("case.%d.b.%d" % (number, which)),
            "with %s, this row asks %s kN of t%d for %s, and its limit is %s kN: %s kN too much" % (
                lost_words(found["MASK"]), plantkeys.plain(need / 1e3), which, asked or "no demand", plantkeys.plain(limit / 1e3), plantkeys.plain(abs(need - limit) / 1e3))]
    group = plant.at("thruster.%d.group" % which)
    if int(found["MASK"]) >> group & 1:
        return told + ["t%d is of group %d, which is lost in this case: its row is to be [0, 0, 0]" % (which, group)]
    told.append(plant.where("thruster.%d.%s" % (which, "max" if need > limit else "min")))
    if limit:
        told += [plant.where("case.%d.%s" % (number, end)) for end in ("lo", "hi")]
        told.append("a box of %.3g %% of this size would fit the thruster" % (int(100000 * limit / need) / 1000))
    return told


def demand(plant, found):
    """How far the thrusters together miss what is demanded, at the largest demand of the box."""
    number, case = case_of(plant, found["MASK"])
    axis, column, error = int(found["AXIS"]), int(found["COLUMN"]), int(found["ERROR"])
    most = max(case["hi"][column], -case["lo"][column])
    missed = error * most / (1 << 50)
    unit, scale = ("kN m", 1e6) if axis == 2 else ("kN", 1e3)
    enough = -(-error // plantkeys.Q)
    whole = plant.at("plant.mass")[axis] * plantkeys.Q
    told = [plant.where("case.%d.b" % number),
            "with %s, for the largest demand of the box on %s (%s) the thrusters together are %s %s off on %s" % (
                lost_words(found["MASK"]), plantkeys.AXES[column], plantkeys.force(plant.document, column, most), plantkeys.plain(missed / scale), unit, plantkeys.AXES[axis]),
            plant.where("plant.tol"), "that allows %s %s" % (plantkeys.plain(plant.at("plant.tol")[axis] * most / (1 << 20) / scale), unit)]
    if axis == column:
        told.append("that is %s of the mass on %s" % ("%.3g %%" % (100 * error / whole) if whole else "all", plantkeys.AXES[axis]))
    told.append("a tol of %d on %s would do; where that is more than roundings, the shares, the azimuths or the places are wrong" % (enough, plantkeys.AXES[axis]))
    return told


# ---- gains

def matrix_of(plant, name):
    """The matrix that the list of a certificate's key has to show."""
    gains, cert = plant.at("gains"), plant.at("cert")
    size = 5 if plant.at("plant.version") == 2 else 3
    gains = gains if size == 5 else {key: value for key, value in gains.items() if key not in ("wave", "k1")}
    p = certificates.unpacked(cert["p"], size)
    which = int(name[-1]) if name[-1].isdigit() else 0
    if name == "form":
        return p
    if name.startswith("span"):
        return certificates.margin(p, certificates.unit(size, which), cert["span"][which])
    axis = 0 if "surge" in name else 1
    if name.startswith("out"):
        return certificates.margin(p, certificates.outputs(gains, axis)[which], cert["g"][axis])
    return certificates.contraction(p, certificates.vertices(gains, axis)[which], cert["rho"])


def short_of(plant, name, found, key, part=None):
    """A list of squares that doesn't show its matrix: how much is short, and which squares or which number of `key` would do."""
    row, short = int(found["ROW"]), int(found["SHORT"])
    matrix = matrix_of(plant, name)
    size = matrix[row][row]
    told = [plant.where("cert." + name), "the row of the %s is short by %d, which is %s (%d)" % (STATES[row], short, part_of(short, size), size)]
    squares = certificates.squares_of(matrix)
    if squares:
        return told + ["only the squares are short; these show it (`dp squares %s` and `tools/design --certificate %s` make all lists anew):" % (plant.name, plant.name),
                       "    %s = %s" % (name, squares)]
    told.append("no squares were found that show it" + (": a size below 0 can't be shown" if size < 0 else ""))
    return told + ([] if key is None else least_that_does(plant, name, key, part))


def least_that_does(plant, name, key, part):
    """The least number at a key of the certificate, by halving, with which squares are found."""
    cert = plant.at("cert")
    before = cert[key] if part is None else cert[key][part]
    most = certificates.Q - 1 if key == "rho" else 1 << 40

    def does(number):
        if part is None:
            cert[key] = number
        else:
            cert[key][part] = number
        return certificates.squares_of(matrix_of(plant, name)) is not None

    low, high = before, most
    good = high > low and does(high)
    for _ in range(STEPS):
        if not good or high - low < 2:
            break
        middle = (low + high) // 2
        low, high = (low, middle) if does(middle) else (middle, high)
    does(before)
    where = plant.where("cert.%s" % key if part is None else "cert.%s.%d" % (key, part))
    if not good:
        return ["no %s would do: the gains themselves don't pass here, or the form is another's" % key]
    return [where, "%s = %d would do, where %d stands, with other squares: `tools/design --certificate %s` makes a whole certificate anew" % (key, high, before, plant.name)]


def vertex(plant, found):
    axis, which = int(found["AXIS"]), int(found["VERTEX"])
    told = short_of(plant, "%s%d" % (certificates.AXES[axis], which), found, "rho")
    zeros = [key for key in ("leak", "damp") if plant.at("gains.%s" % key) == 0]
    return ["%s, %s: a cycle isn't shown to shrink the form" % (certificates.AXES[axis], VERTICES[which])] + told + [
        "%s: a %s of 0 is never enough" % (plant.where("gains.%s" % key), key) for key in zeros]


def output(plant, found):
    axis, which = int(found["AXIS"]), int(found["WHICH"])
    return ["%s, %s: the greatest demand isn't shown" % (certificates.AXES[axis], OUTPUTS[which])] + short_of(
        plant, "out_%s%d" % (certificates.AXES[axis], which), found, "g", axis)


def span(plant, found):
    which = int(found["COORDINATE"])
    return ["the greatest size of the %s isn't shown" % STATES[which]] + short_of(plant, "span%d" % which, found, "span", which)


def form(plant, found):
    return ["the form isn't shown to be nowhere below 0"] + short_of(plant, "form", found, None)


def rate(plant, _):
    return [plant.where("cert.rho"), "rho stands for %.6g; it has to be below 1 (%d)" % (plant.at("cert.rho") / certificates.Q, certificates.Q)]


def root(plant, key, number):
    least, has = certificates.root_up(number), plant.at("cert." + key)
    return [plant.where("cert." + key), "%s is %d, and has to be %d at least: it is short by %d, %.3g %% of what is wanted" % (key, has, least, least - has, 100 * (least - has) / least),
            "`dp squares %s` and `tools/design --certificate %s` give the least one" % (plant.name, plant.name)]


def sized(plant):
    size = 5 if plant.at("plant.version") == 2 else 3
    gains = {key: value for key, value in plant.at("gains").items() if size == 5 or key not in ("wave", "k1")}
    return gains, certificates.unpacked(plant.at("cert.p"), size)


def input_short(plant, _):
    return root(plant, "b", certificates.input_root(*sized(plant)))


def round_short(plant, _):
    return root(plant, "r", certificates.rounding_root(sized(plant)[1]))


def wide(plant, found):
    which = int(found["COORDINATE"])
    cert, (_, p) = plant.at("cert"), sized(plant)
    widths = certificates.largest_state(cert, p)[1]
    told = [plant.where("cert.span.%d" % which)]
    if widths[which] > 1 << 56:
        told.append("the %s could come to %d, which is %.3g times 2^56" % (STATES[which], widths[which], widths[which] / (1 << 56)))
    else:
        worst = max(abs(x) * widths[which] * widths[j] for j, x in enumerate(p[which]))
        told.append("the %s's part of the form could come to %.3g times 2^120" % (STATES[which], worst / (1 << 120)))
    return told + [plant.where("cert.rho"), plant.where("cert.b"), "a smaller rho (now %.9f) or b makes it less" % (cert["rho"] / certificates.Q)]


CAUSES = {
    "fault-plant-toml": toml, "fault-plant-missing": missing, "fault-plant-kind": kind, "fault-plant-range": out_of_range,
    "fault-plant-corner": corner, "fault-plant-demand": demand, "fault-gains-range": out_of_range, "fault-gains-rate": rate, "fault-gains-form": form,
    "fault-gains-vertex": vertex, "fault-gains-input": input_short, "fault-gains-round": round_short, "fault-gains-output": output,
    "fault-gains-span": span, "fault-gains-wide": wide,
}
