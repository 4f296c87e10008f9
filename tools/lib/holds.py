"""The cycles of a record in which a wire has no reading: counted, and where the user says so filled with the reading before."""
import sentences

FEW = 3      # cycles: a gap that is no longer is of a wire that misses a cycle now and then


def place_is_told(rest):
    """Whether a sound line of a position wire brings a place, as far as its quality tells."""
    if rest[:1] == b"L":
        return True
    fields = rest.split(b",", 7)
    return rest[3:6] == b"GGA" and len(fields) > 6 and fields[6] in (b"1", b"2", b"3", b"4", b"5")


def heading_is_told(rest):
    return rest[3:6] == b"HDT" or (rest[3:6] == b"THS" and rest[-5:-3] == b",A")


def wind_is_told(rest):
    return rest[3:6] == b"MWV" and rest[-5:-3] == b",A" and b",R," in rest


TELLS = {"pos": place_is_told, "gyro": heading_is_told, "wind": wind_is_told, "grp": lambda rest: False}


class Wire:
    """One wire's cycles: the last reading and its cycle, how many cycles had none, and of them how many in gaps of few."""

    def __init__(self, name):
        self.tells = TELLS[sentences.kind_of(name)]
        self.rest = self.cycle = None
        self.none = self.few = self.longest_few = self.repeated = 0

    def missed(self, gap):
        """Counts a gap, which is over."""
        self.none += gap
        if gap <= FEW:
            self.few += gap
            self.longest_few = max(self.longest_few, gap)


class Cycles:
    """Passes lines on, in their order, and at each cycle's end repeats what `most` lets it: for a wire the number of cycles in a row."""

    def __init__(self, length, most):
        self.length, self.most = length, most
        self.wires, self.cycle = {}, None

    def passed(self, time, wire, rest, sound):
        """The lines, as time, wire and rest, that come before this one because a cycle is over; this line is taken note of."""
        cycle, before = time // self.length, ()
        if cycle != self.cycle:
            if self.most:
                before = self.filled(cycle)
            self.cycle = cycle
        one = self.wires.get(wire)
        if one is None:
            one = self.wires[wire] = Wire(wire)
        if sound and one.tells(rest):
            if one.cycle is not None and cycle > one.cycle + 1:
                one.missed(cycle - one.cycle - 1)
            one.rest, one.cycle = rest, cycle
        return before

    def filled(self, cycle):
        """What is repeated into the cycles from the last one up to this one, which begins."""
        found = []
        for over in range(self.cycle if self.cycle is not None else cycle, cycle):
            for wire, most in self.most.items():
                one = self.wires.get(wire)
                if one and one.rest is not None and 0 < over - one.cycle <= most:
                    found.append(((over + 1) * self.length - 1, wire, one.rest))
                    one.repeated += 1
            if over - self.cycle > max(self.most.values()):
                break
        return found

    def summary(self):
        """What was repeated, and what could be, in lines."""
        lines, cycle = [], "cycles of %g s" % (self.length / 1000)
        for wire, one in sorted(self.wires.items()):
            if one.repeated:
                lines.append("%s: the reading before was repeated into %d %s without one" % (wire, one.repeated, cycle))
            elif one.few:
                lines.append("%s: %d %s had no reading, %d of them in gaps of at most %d: --hold %s=%d repeats the one before into those"
                             % (wire, one.none, cycle, one.few, one.longest_few, wire, one.longest_few))
        return lines
