#!/usr/bin/env python3
"""Writes the raw logs of samples/log, and the records and scripts of samples/failures.

    tools/samples.py FOLDER

FOLDER is the folder of the samples. What is written is the same each time. The vessel isn't simulated: it moves as a record says, whatever the
thrusters do. The outputs of samples/failures are not written here: they come from a program that knows nothing of this one.
"""
import math
import os
import random
import sys

sys.dont_write_bytecode = True
sys.path.insert(0, os.path.join(os.path.dirname(os.path.realpath(__file__)), "lib"))
import sentences  # noqa: E402
import stamps  # noqa: E402

LAT, LON = 28870380000, 6910000000      # the sample plants' origin, in 10^-7 minutes
COSINE = math.cos(math.radians(LAT / 6e8))
START = 1796042100                      # 2026-11-30T12:35:00Z, in seconds since 1970


def sentence(text):
    return sentences.checked(text.encode()).decode()


def motion(second):
    """Where the vessel is, in mm north and east, and its heading in degrees."""
    north = 700 * math.sin(second / 31) + 350 * math.sin(second / 9.7 + 1)
    east = 900 * math.sin(second / 43 + 2) + 250 * math.sin(second / 11.3)
    return north, east, (1.4 * math.sin(second / 27)) % 360


# ---- raw logs ----

LENGTH = 300      # seconds


def angle(units, digits):
    degrees, minutes = divmod(abs(units), 60 * 10 ** 7)
    return "%0*d%02d.%05d" % (digits, degrees, minutes // 10 ** 7, minutes % 10 ** 7 // 100)


def gga(talker, utc, north, east):
    """A GGA sentence of a place in mm."""
    lat = LAT + round(north / 0.1852)
    lon = LON + round(east / 0.1852 / COSINE)
    clock = "%02d%02d%05.2f" % (utc // 3600 % 24, utc // 60 % 60, utc % 60)
    return sentence("%sGGA,%s,%s,N,%s,E,4,17,0.7,21.3,M,46.9,M,1.0,0031" % (talker, clock, angle(lat, 2), angle(lon, 3)))


def iso(second):
    return stamps.shown(stamps.DATED, round(second * 1000) * 1000)


def hurt(rng, text):
    """A sentence as a bad line brings it now and then."""
    place = rng.randrange(8, len(text) - 4)
    return text[:place] if rng.random() < 0.5 else text[:place] + chr(ord(text[place]) ^ 4) + text[place + 1:]


def pos0(rng):
    """A receiver behind gpsd, as `gpspipe -r -t -u` writes it."""
    yield "%s: %s" % (iso(START - 0.81)[:-1].replace("T", " ") + "412", '{"class":"VERSION","release":"3.22","rev":"3.22","proto_major":3,"proto_minor":14}')
    for second in range(LENGTH):
        north, east, _ = motion(second)
        place = gga("GN", START + second, north + rng.gauss(0, 40), east + rng.gauss(0, 40))
        stamp = iso(START + second + 0.2 + rng.random() / 50)[:-1].replace("T", " ") + "%03d" % rng.randrange(1000)
        yield "%s: %s" % (stamp, hurt(rng, place) if second in (41, 42, 190) else place)
        yield "%s: %s" % (stamp, sentence("GNVTG,,T,,M,0.12,N,0.22,K,D"))


def pos1(rng):
    """A receiver behind a serial logger that writes seconds since 1970. It repeats itself for 20 seconds."""
    for second in range(LENGTH):
        frozen = 170 if 170 <= second < 190 else second
        if second == frozen:
            north, east, _ = motion(second)
            place = north + rng.gauss(0, 60), east + rng.gauss(0, 60)
        yield "%.3f %s" % (START + second + 0.3 + rng.random() / 20, gga("GP", START + second, *place))


def pos2(rng):
    """Bare sentences without stamps. The receiver is silent for 12 seconds, and later is led astray by a reflection."""
    for second in range(LENGTH):
        if 88 <= second < 100:
            continue
        north, east, _ = motion(second)
        astray = 9000 if 225 <= second < 229 else 0
        yield gga("GP", START + second, north + rng.gauss(0, 90) + astray, east + rng.gauss(0, 90) - astray)
        yield sentence("GPGST,%06d.00,,,,,0.09,0.08,0.15" % (START % 86400 // 3600 * 10000 + START % 3600 // 60 * 100 + second % 60))


def gyro0(rng):
    for second in range(LENGTH):
        turn = "%.1f" % ((motion(second)[2] + rng.gauss(0, 0.1)) % 360)
        yield "%.3f %s" % (START + second + 0.05, sentence("HEHDT,%s,T" % ("0.0" if turn == "360.0" else turn)))
        yield "%.3f %s" % (START + second + 0.06, sentence("HEROT,%.1f,A" % rng.gauss(0, 2)))


def gyro1(rng):
    for second in range(LENGTH):
        turn = (motion(second)[2] + 0.3 + rng.gauss(0, 0.1)) % 360
        yield "[%s] %s" % (iso(START + second + 0.11), sentence("HETHS,%.2f,%s" % (turn % 359.995, "E" if 140 <= second < 150 else "A")))


def wind0(rng):
    for second in range(LENGTH):
        if 250 <= second < 262:
            continue
        speed = 8 + 3 * math.sin(second / 37) + rng.gauss(0, 0.4)
        yield "%s,%s" % (iso(START + second + 0.4), sentence("WIMWV,%05.1f,R,%.1f,M,A" % (38 + 6 * math.sin(second / 50), speed)))


def grp1(rng):
    """What the power plant tells of thruster group 1."""
    yield "%s G 1" % iso(START + 0.5)
    yield "%s G 0" % iso(START + 205.5)
    yield "%s G 1" % iso(START + 240.5)


def write_lines(name, lines):
    with open(name, "w", encoding="ascii", newline="\n") as file:
        file.writelines(line + "\n" for line in lines)


def write_logs(folder):
    os.makedirs(folder, exist_ok=True)
    for number, log in enumerate([pos0, pos1, pos2, gyro0, gyro1, wind0, grp1]):
        write_lines(os.path.join(folder, log.__name__ + ".log"), log(random.Random(number)))


# ---- failures ----

CYCLES = 28
FROM, TO = 8, 18      # the cycles in which something is wrong


def watch(change=None):
    """A quiet watch with all sensors, a line each and cycle, with what a change makes of a wire's rest."""
    rng, other = random.Random(27), random.Random(28)
    for cycle in range(CYCLES):
        north, east, turn = motion(cycle)
        rests = [("pos%d" % number, "L %d %d" % (north + rng.gauss(0, 40), east + rng.gauss(0, 40))) for number in range(3)]
        rests += [("gyro%d" % number, sentence("HEHDT,%.1f,T" % (turn + number / 10))) for number in range(3)]
        rests += [("wind%d" % number, sentence("WIMWV,%05.1f,R,%.1f,M,A" % (40 + number, 7 + rng.random()))) for number in range(3)]
        for at, (wire, rest) in enumerate(rests):
            rest = change(cycle, wire, rest, other) if change else rest
            if rest is not None:
                yield "%d %s %s" % (cycle * 1000 + at * 50 + 100, wire, rest)


def wrong(wires, change):
    """The change of some wires in the cycles in which something is wrong."""
    def changed(cycle, wire, rest, rng):
        return change(cycle, rest, rng) if wire in wires and FROM <= cycle < TO else rest
    return changed


def moved(rest, north, east):
    _, was_north, was_east = rest.split(" ")
    return "L %d %d" % (int(was_north) + north, int(was_east) + east)


def groups_lost(cycle_of_group):
    """Tells that a group is lost in a cycle."""
    def lines():
        told = [(cycle * 1000 + 600, "%d grp%d G 0" % (cycle * 1000 + 600, group)) for group, cycle in cycle_of_group.items()]
        told += [(int(line.split(" ")[0]), line) for line in watch()]
        return (line for _, line in sorted(told))
    return lines()


def told_and_back(group, first, last):
    """Tells that a group is lost in a cycle, and that it is ready again in another."""
    told = [(cycle * 1000 + 600, "%d grp%d G %d" % (cycle * 1000 + 600, group, ready)) for cycle, ready in ((first, 0), (last, 1))]
    told += [(int(line.split(" ")[0]), line) for line in watch()]
    return (line for _, line in sorted(told))


def told_late(group, first, sound):
    """Tells that a group is lost: by a cut line in a cycle, and by a sound one in a later cycle."""
    told = [(cycle * 1000 + 600, "%d grp%d %s" % (cycle * 1000 + 600, group, rest)) for cycle, rest in ((first, "0"), (sound, "G 0"))]
    told += [(int(line.split(" ")[0]), line) for line in watch()]
    return (line for _, line in sorted(told))


def driven(ahead, starboard):
    """The change of the places of a vessel that is driven off from cycle 8 on, by so many tenths of mm/s²; she points north."""
    def changed(cycle, wire, rest, rng):
        way = (cycle - FROM) ** 2
        return moved(rest, ahead * way // 20, starboard * way // 20) if wire in POSITIONS and cycle >= FROM else rest
    return changed


def later(cycle, jump):
    """The watch with a clock that jumps ahead in a cycle, up to the same last cycle."""
    for line in watch():
        time, rest = line.split(" ", 1)
        time = int(time) + (jump if int(time) >= cycle * 1000 else 0)
        if time < CYCLES * 1000:
            yield "%d %s" % (time, rest)


def silent(cycle, rest, rng):
    return None


POSITIONS, GYROS, WINDS = (["%s%d" % (kind, number) for number in range(3)] for kind in ("pos", "gyro", "wind"))


def each(first, last, *acts):
    return ["%d %s" % (cycle, act) for cycle in range(first, last) for act in acts]


RUNS = ["run 0", "run 1", "run 2"]

# Each failure: its record, and its script with a remark in front.
FAILURES = {
    "none": (watch(), "No fault, and a record in which nothing fails: what the others are held beside.", []),
    "computer_lost": (watch(), "Computer 2 stops in cycle 8.", ["8 stop 2", "8 usual"]),
    "computer_skewed": (watch(), "Computer 1 goes on from a place 20 m off.", ["8 skew 1 20000000000 0", "8 usual"]),
    "computer_false_orders": (watch(), "Computer 1 says full force to each thruster, before its own orders come, for ten cycles.",
                              each(FROM, TO, "say 1 0 250000", "say 1 1 250000", "say 1 2 -150000", "say 1 3 -150000", "say 1 4 150000",
                                   "say 1 5 150000", "usual")),
    "computer_overrun": (watch(), "Computer 2 hears and doesn't run, from cycle 4 on: 16 frames wait in cycle 19, and the next is one too many.",
                         each(4, CYCLES, "run 0", "run 1", "orders 0", "orders 1")),
    "computer_late": (watch(), "Computer 2 runs each second cycle alone, and then twice.",
                      [line for cycle in range(FROM, TO, 2) for line in
                       each(cycle, cycle + 1, "run 0", "run 1", "orders 0", "orders 1", "orders 2")
                       + each(cycle + 1, cycle + 2, *RUNS, "run 2", "orders 0", "orders 1", "orders 2")]),
    "computer_rejoins": (watch(), "Computer 2 stops in cycle 8, starts again in cycle 12, and is told the states of the others in cycle 13.",
                         ["8 stop 2", "8 usual", "12 restart 2", "12 usual", "13 usual", "13 tell 0 2", "13 tell 1 2"]),
    "rejoining_computer_lied_to": (watch(), "Computer 2 starts again in cycle 8. Computer 1 lies to it about the place in cycles 9 to 12, and tells true in 13.",
                                   ["8 restart 2", "8 usual"] + each(9, 13, "usual", "tell 0 2", "lie 1 2 20000000000 0")
                                   + ["13 usual", "13 tell 0 2", "13 tell 1 2"]),
    "rejoining_computer_sent_junk": (watch(), "Computer 2 starts again in cycle 8, and is sent bytes that spell no state before the two true states.",
                                     ["8 restart 2", "8 usual", "9 usual", "9 tell 0 2", "9 junk 1 2 4450533100000000000000", "9 tell 0 2",
                                      "10 usual", "10 junk 1 2 00", "10 tell 0 2", "10 tell 1 2"]),
    "two_faulty_in_turn": (watch(), "Computer 1 says false forces in cycle 8, starts again in cycle 9 and rejoins; computer 2 is skewed in cycle 10.",
                           ["8 say 1 0 100000", "8 usual", "9 restart 1", "9 run 0", "9 run 2", "9 tell 0 1", "9 tell 2 1", "9 orders 0", "9 orders 2",
                            "10 skew 2 20000000000 0", "10 usual"]),
    "all_restarted": (watch(), "All three computers start again in cycle 8.", ["8 restart 0", "8 restart 1", "8 restart 2", "8 usual"]),
    "software_upgraded": (watch(), "Software 2 is put on computers 2, 1 and 0, one after another; each rejoins before the next leaves.",
                          [line for cycle, one, others in ((8, 2, (0, 1)), (12, 1, (0, 2)), (16, 0, (1, 2)))
                           for line in ["%d upgrade %d" % (cycle, one), "%d usual" % cycle, "%d usual" % (cycle + 1)]
                           + ["%d tell %d %d" % (cycle + 1, other, one) for other in others]]),
    "link_lost": (watch(), "The orders of computer 0 don't reach the voters of t0 and t2.",
                  each(FROM, TO, *RUNS, "order 0 1", "order 0 3", "order 0 4", "order 0 5", "orders 1", "orders 2")),
    "voter_deaf": (watch(), "No order reaches the voter of t0.",
                   each(FROM, TO, *RUNS, *["order %d %d" % (computer, thruster) for computer in range(3) for thruster in range(1, 6)])),
    "two_computers_lost": (watch(), "Computer 2 stops in cycle 8, and computer 1 in cycle 12.", ["8 stop 2", "8 usual", "12 stop 1", "12 usual"]),
    "computer_lost_and_one_false": (watch(), "Computer 2 stops in cycle 8. From cycle 12 on computer 1 says a false force to t0, before its own.",
                                    ["8 stop 2", "8 usual"] + each(12, 20, "say 1 0 100000", "usual")),
    "two_computers_false": (watch(), "Computers 1 and 2 say the same false force to t0: two faulty computers in one cycle.",
                            each(FROM, TO, "say 1 0 100000", "say 2 0 100000", "usual")),
    "reference_silent": (watch(lambda cycle, wire, rest, rng: None if wire == "pos2" else rest), "No fault: pos2 brings nothing from the start.", []),
    "reference_stale": (watch(wrong(["pos2"], silent)), "No fault: pos2 is silent from cycle 8 to 17.", []),
    "reference_frozen": (watch(wrong(["pos2"], lambda cycle, rest, rng: "L 300 400")), "No fault: pos2 says one and the same place from cycle 8 to 17.", []),
    "reference_jumping": (watch(wrong(["pos2"], lambda cycle, rest, rng: moved(rest, 9000, -4000))), "No fault: pos2 is 10 m off from cycle 8 to 17.", []),
    "reference_noisy": (watch(wrong(["pos2"], lambda cycle, rest, rng: moved(rest, rng.choice([-2400, 2400]), rng.choice([-2400, 2400])))),
                        "No fault: pos2 scatters by some metres from cycle 8 to 17.", []),
    "reference_drifting": (watch(wrong(["pos2"], lambda cycle, rest, rng: moved(rest, 500 * (cycle - FROM), 0))),
                           "No fault: pos2 drifts off by half a metre a cycle, from cycle 8 to 17, and comes back at once.", []),
    "reference_damaged": (watch(wrong(["pos1"], lambda cycle, rest, rng: "$GPGGA,123519,4807.0?85,N,01131.000,E,1,08*40")),
                          "No fault: each line of pos1 is damaged from cycle 8 to 17.", []),
    "references_drifting_alike": (watch(wrong(["pos1", "pos2"], lambda cycle, rest, rng: moved(rest, 0, 400 * (cycle - FROM + 1)))),
                                  "No fault: pos1 and pos2 drift off alike, by 0.4 m a cycle, from cycle 8 to 17.", []),
    "references_lost": (watch(wrong(POSITIONS, silent)), "No fault: all references are silent from cycle 8 to 17.", []),
    "gyro_false": (watch(wrong(["gyro1"], lambda cycle, rest, rng: sentence("HEHDT,90.0,T"))), "No fault: gyro1 says 90 degrees from cycle 8 to 17.", []),
    "gyros_false_alike": (watch(wrong(["gyro1", "gyro2"], lambda cycle, rest, rng: sentence("HEHDT,60.0,T"))),
                          "No fault: gyro1 and gyro2 say 60 degrees from cycle 8 to 17.", []),
    "heading_lost": (watch(wrong(GYROS, silent)), "No fault: all gyros are silent from cycle 8 to 17.", []),
    "wind_lost": (watch(wrong(WINDS, silent)), "No fault: all wind sensors are silent from cycle 8 to 17.", []),
    "group_falsely_lost": (told_and_back(1, FROM, TO), "No fault: thruster group 1 is told lost in cycle 8, though it works, and ready in cycle 18.", []),
    "group_line_damaged": (told_late(1, FROM, 12), "No fault: the line that tells of the loss of group 1 is cut in cycle 8, and comes sound in cycle 12.", []),
    "group_loss_unreported": (watch(driven(-34, -37)),
                              "No fault: group 1 is lost in cycle 8 and its line is silent; the vessel is driven off by the thrust that is missing.", []),
    "thruster_full": (watch(driven(466, 0)),
                      "No fault: the vessel runs off ahead from cycle 8 on, as one stern thruster at full force would drive her.", []),
    "clock_jumps": (later(12, 6000), "No fault: the record's clock jumps by six seconds in cycle 12.", []),
    "group_lost": (groups_lost({1: 8}), "No fault: thruster group 1 is told lost in cycle 8.", []),
    "groups_lost": (groups_lost({1: 8, 0: 14}), "No fault: thruster group 1 is told lost in cycle 8, and group 0 in cycle 14.", []),
}


def write_failures(folder):
    for name, (record, remark, acts) in FAILURES.items():
        place = os.path.join(folder, name)
        os.makedirs(place, exist_ok=True)
        write_lines(os.path.join(place, "record.txt"), record)
        write_lines(os.path.join(place, "faults.script"), ["# " + remark] + acts)


def main(words):
    if words in (["--help"], ["-h"]):
        print(__doc__.strip())
        return
    if len(words) != 1 or words[0].startswith("-"):
        print("samples.py: wanted is FOLDER; --help says more", file=sys.stderr)
        sys.exit(2)
    write_logs(os.path.join(words[0], "log"))
    write_failures(os.path.join(words[0], "failures"))


main(sys.argv[1:])
