"""The output of `dp replay`, read block by block. docs/FORMATS.md has its lines."""
import re

CYCLE = re.compile(r"cycle ([0-9]+) ([LAO]{3})")
THRUSTER = re.compile(r"t([0-9]+) ([FHZ]) (-?[0-9]+) (-|-?[0-9]+) (-|-?[0-9]+) (-|-?[0-9]+)")
LAST = re.compile(r"end [0-9]+|fault .*")


class Refused(Exception):
    """The text isn't the output of a replay; the message names file and line."""


class Block:
    """One cycle: `modes` is three letters, `thrusters` have ballot, force and three orders (None for none), `alarms` the lines' rests."""

    __slots__ = ("cycle", "modes", "thrusters", "alarms")

    def __init__(self, cycle, modes):
        self.cycle, self.modes, self.thrusters, self.alarms = cycle, modes, [], []


class Output:
    """Reads the blocks of a file's lines. `last` is the last line once all blocks were read, or None where the output is cut: then its last block
    is left out, since nothing tells that it is whole. A last line without its end is cut too, and dropped with its block."""

    def __init__(self, name, lines):
        self.name, self.lines, self.number, self.last = name, lines, 0, None
        self.thrusters = None      # how many there are

    def refuse(self, why):
        raise Refused("%s %d: %s" % (self.name, self.number, why))

    def blocks(self):
        block = None
        for line in self.lines:
            self.number += 1
            if self.last is not None:
                self.refuse("a line after the last one, %r" % self.last)
            if not line.endswith("\n"):
                return
            line = line.rstrip("\r\n")
            if line.startswith("t"):
                self.thruster(block, line)
            elif line.startswith("alarm "):
                if block is None:
                    self.refuse("an alarm before the first cycle")
                block.alarms.append(line[6:])
            elif line.startswith("cycle "):
                if block:
                    yield self.whole(block)
                block = self.begun(block, line)
            elif LAST.fullmatch(line):
                self.last = line
            else:
                self.refuse("%r is no line of a replay's output" % line[:80])
        if block and self.last is not None:
            yield self.whole(block)

    def begun(self, before, line):
        found = CYCLE.fullmatch(line)
        if not found:
            self.refuse("%r is no line of a replay's output" % line[:80])
        cycle = int(found[1])
        if cycle != (before.cycle + 1 if before else 0):
            self.refuse("cycle %d, where cycle %d should come" % (cycle, before.cycle + 1 if before else 0))
        return Block(cycle, found[2])

    def thruster(self, block, line):
        found = THRUSTER.fullmatch(line)
        if not found or block is None or int(found[1]) != len(block.thrusters):
            self.refuse("%r is no line of a replay's output here" % line[:80])
        orders = [None if order == "-" else int(order) for order in found.groups()[3:]]
        block.thrusters.append((found[2], int(found[3]), orders))

    def whole(self, block):
        if self.thrusters is None:
            self.thrusters = len(block.thrusters)
        if len(block.thrusters) != self.thrusters:
            self.refuse("cycle %d has %d thrusters, and the first had %d" % (block.cycle, len(block.thrusters), self.thrusters))
        return block


def opened(name):
    """A text file for reading, whatever its bytes are."""
    try:
        return open(name, encoding="latin-1", newline="\n")
    except OSError as error:
        raise Refused("%s: %s" % (name, error.strerror)) from error
