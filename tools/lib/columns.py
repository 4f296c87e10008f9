"""A replay as columns of numbers, one a cycle, packed for the page that draws it."""
import base64
import zlib

import alarms

MODES = {"L": 0, "A": 1, "O": 2}
BALLOTS = {"F": 0, "H": 1, "Z": 2}
TENTH = 100000      # nm in the tenth of a mm that places are drawn by


def tenths(place):
    """A coordinate in nm, in tenths of a mm."""
    return (place + TENTH // 2) // TENTH


class Column:
    """Whole numbers, or None, by cycle: each written as what it differs from the last number by, in groups of seven bits."""

    def __init__(self):
        self.bytes, self.last, self.count = bytearray(), 0, 0

    def add(self, value):
        """Appends a number or None."""
        self.count += 1
        if value is None:
            self.bytes.append(0)
            return
        change = value - self.last
        if change == 0:
            self.bytes.append(1)
            return
        self.last = value
        code = (change * 2 if change >= 0 else -change * 2 - 1) + 1
        while code > 127:
            self.bytes.append(code & 127 | 128)
            code >>= 7
        self.bytes.append(code)

    def fill(self, count):
        """Appends None up to so many cycles."""
        if count > self.count:
            self.bytes += bytes(count - self.count)
            self.count = count


class Columns:
    """All columns of a run, by name in their order."""

    def __init__(self):
        self.columns = {}

    def named(self, name):
        if name not in self.columns:
            self.columns[name] = Column()
        return self.columns[name]

    def packed(self, cycles):
        """The names, and all columns as text."""
        for column in self.columns.values():
            column.fill(cycles)
        data = b"".join(bytes(column.bytes) for column in self.columns.values())
        return list(self.columns), base64.b64encode(zlib.compress(data, 6)).decode()


def thruster_columns(columns, thruster):
    """What adds to the columns of a thruster: ballot, force, and the orders less the force."""
    names = ["ballot%d", "force%d", "order%d_0", "order%d_1", "order%d_2"]
    return [columns.named(name % thruster).add for name in names]


def take_output(columns, output, stopped):
    """Takes the blocks; gives the number of cycles, how many ballots were of each kind, and the alarms in order. `stopped` has for a cycle the
    computers that the script stops in it for good: where one of them goes on, the script is another replay's."""
    counts, found, cycles = {"F": 0, "H": 0, "Z": 0}, {}, 0
    modes = [columns.named("mode%d" % computer).add for computer in range(3)]
    thrusters = []
    for block in output.blocks():
        cycles += 1
        for add, mode in zip(modes, block.modes):
            add(MODES[mode])
        for computer in stopped.get(block.cycle, ()):
            if block.modes[computer] != "O":
                output.refuse("computer %d isn't off at the end of cycle %d, and the script stops it there: they aren't of one replay"
                              % (computer, block.cycle))
        while len(thrusters) < len(block.thrusters):
            thrusters.append(thruster_columns(columns, len(thrusters)))
        for (add_ballot, add_force, *add_orders), (ballot, force, orders) in zip(thrusters, block.thrusters):
            counts[ballot] += 1
            add_ballot(BALLOTS[ballot])
            add_force(force)
            for add, order in zip(add_orders, orders):
                add(None if order is None else order - force)
        for alarm in block.alarms:
            found.setdefault(alarm, []).append(block.cycle)
    names = sorted(found, key=alarms.order)
    for number, name in enumerate(names):
        take_cycles(columns.named("alarm%d" % number), found[name])
    return cycles, counts, names


def take_cycles(column, raised):
    """A 1 in each of the cycles, and None in the others."""
    for cycle in raised:
        column.fill(cycle)
        column.add(1)


def wire_columns(columns, wire):
    """The columns of what a wire says, each with what makes its number of a reading."""
    number = wire[-1]
    if wire.startswith("pos"):
        return [(columns.named("north" + number), lambda place: tenths(place[0])), (columns.named("east" + number), lambda place: tenths(place[1]))]
    if wire.startswith("wind"):
        return [(columns.named("angle" + number), lambda wind: wind[0]), (columns.named("speed" + number), lambda wind: wind[1])]
    return [(columns.named("turn" + number), lambda turn: turn)]


def take_record(columns, record, lines, cycles):
    """Takes what the wires say in the cycles of the output; gives the changes of thruster groups."""
    changes, wires = [], {}
    for cycle, frame in record.frames(lines):
        if cycle >= cycles:
            continue
        for wire, reading in frame.items():
            if wire.startswith("grp"):
                changes.append([cycle, int(wire[3:]), reading])
                continue
            if wire not in wires:
                wires[wire] = wire_columns(columns, wire)
            for column, number in wires[wire]:
                column.fill(cycle)
                column.add(number(reading))
    return changes


def take_guide(columns, output, masses):
    """Takes the lines of a guide: setpoints in tenths of a mm and hundredths of a degree, demands in N and N m; gives the number of cycles."""
    adds = [columns.named(name).add for name in ("set_north", "set_east", "set_heading", "demand0", "demand1", "demand2")]
    cycles = 0
    for north, east, heading, *demands in output.cycles():
        cycles += 1
        forces = [demand * mass // 2 ** 20 for demand, mass in zip(demands, masses)]
        for add, number in zip(adds, (tenths(north), tenths(east), heading // 10 ** 7, forces[0], forces[1], forces[2] // 1000)):
            add(number)
    return cycles
