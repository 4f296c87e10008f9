"""The outputs of `dp check`, `dp drift`, `dp compare` and `dp guide`, read line by line. docs/FORMATS.md has their lines."""
import re

import blocks

BOUND = re.compile(r"t([0-9]+) C ([0-9]+) R ([0-9]+)")
CASE = re.compile(r"case ([0-9]+)")
GROUP = re.compile(r"group ([0-9]+) (nocase|held|past ([0-9]+)|within (-?[0-9]+) (-?[0-9]+))")
MOVED = re.compile(r"t([0-9]+) moved ([0-9]+) at (-|[0-9]+) bound (-|[0-9]+)")
COUNT = re.compile(r"(twin|spread) ([0-9]+)")
GUIDED = re.compile(r"cycle ([0-9]+) set (-?[0-9]+) (-?[0-9]+) ([0-9]+) demand (-?[0-9]+) (-?[0-9]+) (-?[0-9]+)")


class Lines:
    """The lines of a short output, one after another: each has to be of the form that is asked for."""

    def __init__(self, name):
        self.name, self.at = name, 0
        with blocks.opened(name) as file:
            self.lines = file.read(1 << 20).split("\n")
        self.cut = self.lines.pop() != "" or not self.lines

    def refuse(self, why):
        raise blocks.Refused("%s %d: %s" % (self.name, self.at + 1, why))

    def next(self):
        """The next line, or None where the output is over."""
        if self.at >= len(self.lines):
            return None
        return self.lines[self.at].rstrip("\r")

    def take(self, pattern):
        """The parts of the next line, which has to be of this form."""
        line = self.next()
        found = pattern.fullmatch(line or "")
        if line is None:
            self.refuse("the output is cut: it has no last line `end N`")
        if line.startswith("fault"):
            self.refuse("%r: the command was refused, and there is nothing to draw" % line)
        if not found:
            self.refuse("%r isn't the line that should come here" % line[:80])
        self.at += 1
        return found

    def end(self, count):
        """Takes the last line, which says `count`."""
        found = self.take(re.compile("end ([0-9]+)"))
        if int(found[1]) != count:
            self.at -= 1
            self.refuse("%r after %d" % (found[0], count))
        if self.at < len(self.lines):
            self.refuse("a line after the last one")


def check_of(name, plant):
    """The cases of a check: each the mask of lost groups, and C and R for each thruster."""
    lines, cases = Lines(name), []
    lines.take(re.compile("accepted"))
    for case in plant["case"]:
        found = lines.take(CASE)
        if int(found[1]) != case["lost"]:
            lines.refuse("case %s, where the plant's next case is %d: is it this plant's check?" % (found[1], case["lost"]))
        cases.append((case["lost"], [tuple(map(int, one.groups()[1:])) for one in [lines.take(BOUND) for _ in plant["thruster"]]]))
    lines.end(len(cases))
    return cases


def drift_of(name):
    """The groups of a drift: each its number and `nocase`, `held`, the cycle of `past`, or the two ways of `within` in nm."""
    lines, groups = Lines(name), []
    while (lines.next() or "").startswith("group "):
        found = lines.take(GROUP)
        what = int(found[3]) if found[3] else (int(found[4]), int(found[5])) if found[4] else found[2]
        groups.append((int(found[1]), what))
    lines.end(len(groups))
    return groups


def compare_of(name, plant):
    """The twin cycles, the spread in nm, for each thruster how far it moved, in which cycle, and the bound; and the longer length."""
    lines = Lines(name)
    twin, spread = (int(lines.take(COUNT)[2]) for _ in range(2))
    found = [lines.take(MOVED) for _ in plant["thruster"]]
    moves = [(int(one[2]), *(None if one[part] == "-" else int(one[part]) for part in (3, 4))) for one in found]
    last = lines.take(re.compile("end ([0-9]+)"))
    return twin, spread, moves, int(last[1])


class Guided:
    """Reads the lines of a guide. `last` is as in an output of a replay."""

    def __init__(self, name, lines):
        self.name, self.lines, self.last, self.number, self.thrusters = name, lines, None, 0, None

    def refuse(self, why):
        raise blocks.Refused("%s %d: %s" % (self.name, self.number, why))

    def cycles(self):
        """Each cycle's setpoint and demand, six numbers."""
        count = 0
        for line in self.lines:
            self.number += 1
            if self.last is not None:
                self.refuse("a line after the last one, %r" % self.last)
            if not line.endswith("\n"):
                return
            line = line.rstrip("\r\n")
            found = GUIDED.fullmatch(line)
            if found and int(found[1]) == count:
                count += 1
                yield tuple(map(int, found.groups()[1:]))
            elif blocks.LAST.fullmatch(line):
                self.last = line
            else:
                self.refuse("%r is no line of a guide's output here" % line[:80])


def moves_of(name):
    """The moves of a file, as cycle and words."""
    found = []
    with blocks.opened(name) as file:
        for number, line in enumerate(file, 1):
            line = line.rstrip("\r\n")
            if not line or line.startswith("#"):
                continue
            parts = line.split(" ")
            if len(parts) != 4 or not all(re.fullmatch("-?[0-9]{1,18}", part) for part in parts) or parts[0].startswith("-"):
                raise blocks.Refused("%s %d: %r is no move: CYCLE NORTH EAST HEADING" % (name, number, line[:80]))
            found.append([int(parts[0]), "to %g m north, %g m east, %g°" % (int(parts[1]) / 1000, int(parts[2]) / 1000, int(parts[3]) / 100)])
    return found
