#!/usr/bin/env python3
"""Tries the two-run bound: a program against itself, over pairs of records that differ in what one position reference tells.

    tools/replaced.py CASES SEED PROGRAM...

PROGRAM is the built program, or another command that answers the same words. Each case is a random sound plant, of either version in turn, and
two records of it. The headings of the gyros, the groups that are lost and come back, and what two references tell are the same in both; the third
is silent, damaged, true, far off, jumping or drifting in each. The other two stay usable. Each fresh force of the one has to be within
(C s + R) / 2^20 newtons of the other's, with the numbers that `check` prints for its thruster in the case of that cycle; s is what the other two
differ by, less their lever arms, and a millimetre besides, since the arms are worked out in floating point here. It prints how near to the bound
they come. Nothing here is part of the gate.
"""
import math
import os
import random
import subprocess
import sys
import tempfile

sys.dont_write_bytecode = True
import plants  # noqa: E402

FAR = 8796093


def answer(command, words):
    done = subprocess.run(command + words, stdout=subprocess.PIPE, check=False)
    return done.returncode, done.stdout.decode("latin-1").splitlines()


def plant_for(program, name, rng, version, replaced):
    """An accepted plant whose other two references may tell any places, written to a file, and what `check` prints of it."""
    while True:
        plant = plants.sound(rng, version)
        for i, ref in enumerate(plant["ref"]):
            if i != replaced:
                ref.update(jump_mm=1000000, noise_mm2=10 ** 12, lever=[rng.randrange(-100000, 100001), rng.randrange(-100000, 100001)])
        with open(name, "w") as file:
            file.write(plants.text_of(plant))
        status, lines = answer(program, ["check", name])
        if status == 0:
            return plant, bounds(lines)


def arm(lever, heading):
    """How far north and east of the vessel's origin an antenna is, in mm."""
    turn = math.radians(heading / 100)
    ahead, abeam = lever
    return ahead * math.cos(turn) - abeam * math.sin(turn), ahead * math.sin(turn) + abeam * math.cos(turn)


def told(rng, kind, cycle, centre):
    """What the replaced reference tells in a cycle."""
    if kind == "silent":
        return None
    if kind == "damaged":
        return "$GPGGA,1*00"
    if kind == "true":
        return "L %d %d" % (centre[0] + rng.randrange(-50, 51), centre[1] + rng.randrange(-50, 51))
    if kind in ["far", "opposite"]:
        side = FAR if kind == "far" else -FAR
        return "L %d %d" % (side - cycle % 3, -side + cycle % 2)
    if kind == "jumping":
        return "L %d %d" % (rng.randrange(-FAR, FAR + 1), rng.randrange(-FAR, FAR + 1))
    return "L %d %d" % (centre[0] + 40 * cycle + cycle % 2, centre[1] - 25 * cycle)


KINDS = ["silent", "damaged", "true", "far", "opposite", "jumping", "drifting"]


def records(rng, plant, replaced):
    """Two records, the lost groups of each cycle, and the spread in nm."""
    head = plant["plant"]
    kinds = rng.sample(KINDS, 2)
    spread, lost, masks = 0.0, 0, []
    texts = [[], []]
    apart = rng.choice([1, 10, 100, 1000, 20000])
    centre = [head["setpoint"][0] + rng.randrange(-3000, 3001), head["setpoint"][1] + rng.randrange(-3000, 3001)]
    heading = rng.randrange(36000)
    for cycle in range(rng.choice([2, 20, 60, 150])):
        time = cycle * head["cycle_ms"]
        shared = []
        heading = (heading + rng.randrange(-200, 201)) % 36000
        shared += ["%d gyro%d $HEHDT,%d.%02d,T" % (time, g, heading // 100, heading % 100) for g in range(3)]
        if rng.randrange(30) == 0:
            group = rng.randrange(head["groups"])
            gone = rng.randrange(2)
            lost = lost & ~(1 << group) | gone << group
            shared.append("%d grp%d G %d" % (time, group, 1 - gone))
        masks.append(lost)
        places = []
        for i, ref in enumerate(plant["ref"]):
            if i != replaced:
                north, east = arm(ref["lever"], heading)
                place = [round(centre[0] + north) + rng.randrange(-apart, apart + 1) + cycle % 2, round(centre[1] + east) + rng.randrange(-apart, apart + 1)]
                shared.append("%d pos%d L %d %d" % (time, i, *place))
                places.append((place[0] - north, place[1] - east))
        spread = max(spread, abs(places[0][0] - places[1][0]), abs(places[0][1] - places[1][1]))
        for text, kind in zip(texts, kinds):
            own = told(rng, kind, cycle, centre)
            text += shared + ([] if own is None else ["%d pos%d %s" % (time, replaced, own)])
    return ["\n".join(checked(line) for line in text) + "\n" for text in texts], masks, int(spread * 1000000) + 1000000


def checked(line):
    """The line, with the check field of its heading's sentence."""
    if "$HEHDT" not in line:
        return line
    body = line[line.index("$") + 1:]
    total = 0
    for byte in body.encode():
        total ^= byte
    return "%s*%02X" % (line, total)


def bounds(lines):
    """The two numbers of each case and thruster, as `check` prints them."""
    found, case = {}, None
    for line in lines:
        words = line.split()
        if words[0] == "case":
            case = int(words[1])
        elif words[0].startswith("t") and words[1] == "C":
            found[case, int(words[0][1:])] = int(words[2]), int(words[4])
    return found


def forces(lines):
    """The fresh force of each cycle and thruster."""
    found, cycle = {}, None
    for line in lines:
        words = line.split()
        if words[0] == "cycle":
            cycle = int(words[1])
        elif words[0].startswith("t") and words[0][1:].isdigit() and words[1] == "F":
            found[cycle, int(words[0][1:])] = int(words[2])
    return found


def tried(program, folder, rng, number):
    """How near a pair comes to its bound, and by how much its forces differ at most."""
    replaced = rng.randrange(3)
    names = [os.path.join(folder, name) for name in ["plant", "one", "other", "script"]]
    plant, allowed = plant_for(program, names[0], rng, 1 + number % 2, replaced)
    texts, masks, spread = records(rng, plant, replaced)
    for name, text in zip(names[1:], texts + [""]):
        with open(name, "w") as file:
            file.write(text)
    (status, first), (same, second) = (answer(program, ["replay", names[0], name, names[3]]) for name in names[1:3])
    assert status == same == 0, (number, first[-1], second[-1])
    one, other = forces(first), forces(second)
    assert one and one.keys() == other.keys(), (number, len(one), len(other))
    nearest, most = 0.0, 0
    for (cycle, k), force in one.items():
        difference = abs(force - other[cycle, k])
        if (masks[cycle], k) not in allowed:
            assert force == other[cycle, k] == 0, (number, cycle, k)
            continue
        slope, rest = allowed[masks[cycle], k]
        bound = slope * spread + rest
        assert difference << 20 <= bound, (number, cycle, k, force, other[cycle, k], bound)
        nearest, most = max(nearest, (difference << 20) / bound), max(most, difference)
    return nearest, most


def main():
    if len(sys.argv) < 4:
        sys.exit(__doc__)
    count, rng = int(sys.argv[1]), random.Random(int(sys.argv[2]))
    with tempfile.TemporaryDirectory() as folder:
        found = [tried(sys.argv[3:], folder, rng, number) for number in range(count)]
    near = sorted((nearest for nearest, most in found), reverse=True)
    print("%d pairs within the bound; %d with forces that differ, by %d N at most" % (count, sum(most > 0 for nearest, most in found),
                                                                                   max(most for nearest, most in found)))
    print("nearest: %s of the bound" % ", ".join("%.4f" % one for one in near[:5]))


if __name__ == "__main__":
    main()
