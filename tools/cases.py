"""Random cases for compare.py: a record and a script of acts, as text (one character a byte).

Records come in three kinds: plain local lines of the position wires alone; lines of every wire with sentences and plain forms, good and bad;
and watches, in which each sensor reports in nearly every cycle, with noise, jumps, frozen and silent references, headings round north and south
and winds at the edge of what counts.
"""

MOST = 8796093        # mm: how far a plain place may be
LAT, LON = 28870380000, 6910000000    # the sample plants' origin, in 10^-7 minutes
PLAIN_WIRES = ["pos0", "pos1", "pos2"]
WIRES = PLAIN_WIRES + ["gyro0", "gyro1", "gyro2", "wind0", "wind1", "wind2"] + ["grp%d" % g for g in range(8)]


def one_in(rng, n):
    return rng.randrange(n) == 0


# ---- sentences ----

def checked(body):
    total = 0
    for letter in body:
        total ^= ord(letter)
    return "$%s*%02X" % (body, total)


def decimals(rng, whole, part, places):
    """A number of so many decimals, some of them cut, or more digits after them, or no point."""
    text = "%0*d" % (places, part)
    kind = rng.randrange(6)
    if kind == 0:
        return whole if part == 0 else whole + "." + text[: rng.randrange(places + 1)]
    if kind == 1:
        return whole + "." + text + str(rng.randrange(1000))
    return whole + "." + text


def angle(rng, degrees, digits):
    """ddmm.mmmmmmm or dddmm.mmmmmmm of an angle in 10^-7 minutes."""
    whole, minutes = divmod(abs(degrees), 60 * 10 ** 7)
    return decimals(rng, "%0*d%02d" % (digits, whole, minutes // 10 ** 7), minutes % 10 ** 7, 7)


def gga(rng):
    lat, lon = LAT + rng.randrange(-100000, 100001), LON + rng.randrange(-100000, 100001)
    if one_in(rng, 6):      # near the frame's edge, or far outside of it
        lat += rng.choice([0, 47495102, 47495103, -47495102, -47495103, 50000000, -57000000000])
        lon += rng.choice([0, 71132137, 71132138, -71132137, -71132138, 10 ** 9, -13900000000])
    fields = ["GPGGA", "123519", angle(rng, lat, 2), "N" if lat >= 0 else "S", angle(rng, lon, 3), "E" if lon >= 0 else "W",
              rng.choice("11112345"), "08", "0.9", "545.4", "M", "46.9", "M", "", ""]
    if one_in(rng, 5):
        wrong_field(rng, fields)
    return fields


def wrong_field(rng, fields):
    """Makes one field of a GGA wrong, or another good one."""
    changes = [(6, ["0", "6", "7", "8", "9", "", "12", "x"]),
               (2, ["", "4807", "807.038", "04807.038", "4860.0", "4859.9999999", "9000.0", "9000.0000001", "9000.00000001", "48o7.0",
                    ".", "4807.", "4807.0123456789012345", "4807.01234567890123456", "+807.0"]),
               (3, ["S", "", "n", "NN"]),
               (4, ["", "1131", "1131.0", "01160.0", "18000.0", "18000.0000001", "18000.00000001", "-1131.0", "01131.0.0"]),
               (5, ["W", "", "e"]),
               (0, ["GNGGA", "PGRME", "GPGLL", "GPGG", "GPGGAX", "", "BDGGA"])]
    index, texts = rng.choice(changes)
    fields[index] = rng.choice(texts)
    if one_in(rng, 4):
        del fields[rng.randrange(1, len(fields)):]
    elif one_in(rng, 6):
        fields += [""] * rng.choice([9, 10, 11, 12])


def heading(rng):
    hundredths = rng.choice([rng.randrange(36000), rng.randrange(36000), rng.randrange(200),
                             rng.choice([0, 1, 8999, 9000, 17999, 18000, 18001, 27000, 35999]), 36000, 36001, 99999])
    text = decimals(rng, str(hundredths // 100), hundredths % 100, 2)
    if one_in(rng, 2):
        return ["HEHDT", text, rng.choice("TTTTTM")]
    return ["HETHS", text, rng.choice("AAAAAEMSVx")]


def wind(rng):
    angle_text = decimals(rng, "%03d" % rng.randrange(361), rng.randrange(100), 2)
    if one_in(rng, 8):      # the last speed that counts in each unit, and the first that doesn't
        edge = rng.choice([("99.999", "M"), ("100.000", "M"), ("194.383", "N"), ("194.384", "N"), ("194.385", "N"), ("359.999", "K"), ("360.000", "K")])
        return ["WIMWV", angle_text, "R", edge[0], edge[1], "A"]
    speed = decimals(rng, str(rng.choice([0, 3, 10, 25, 99, 100, 194, 360])), rng.randrange(1000), 3)
    return ["WIMWV", angle_text, rng.choice("RRRRRTx"), speed, rng.choice("MMNKx"), rng.choice("AAAAAV")]


def sentence(rng, wire):
    kind = rng.randrange(12)
    if kind == 0:
        fields = rng.choice([["GPVTG", "1", "T"], ["GPZDA"], ["GPGLL", "4807.038", "N"], ["PXYZ", "1"], [""], ["GPGSV"] + ["7"] * 24,
                             ["GPGSV"] + ["7"] * 25])
    elif kind == 1:
        fields = rng.choice([gga, heading, wind])(rng)
    elif wire.startswith("gyro"):
        fields = heading(rng)
    elif wire.startswith("wind"):
        fields = wind(rng)
    else:
        fields = gga(rng)
    body = ",".join(fields)
    if one_in(rng, 12):      # as long as a sentence may be, and one byte longer
        body += "," + "7" * max(0, rng.choice([155, 156]) - len(body))
    return checked(body)


def damaged(rng, text):
    place = rng.randrange(len(text))
    return rng.choice([
        text[:-1] + rng.choice("0123456789ABCDEFabcdefg"),
        text[:-2] + text[-2:].lower(),
        text[:-3],
        text[:place],
        text[:place] + rng.choice("\x00\x1f\x7f\xe9 ~9") + text[place:],
        text[:place] + chr(ord(text[place]) ^ 1 << rng.randrange(7)) + text[place + 1:],
        text[1:],
        "!" + text[1:],
        " " + text,
        text + " ",
        text + rng.choice("\x00\r\r*"),
        "$*00", "$GPGGA,1", "$", "", "$*", "*00",
    ]).replace("\n", "?")


# ---- plain forms ----

def number(rng):
    kind = rng.randrange(12)
    if kind == 0:
        return str(rng.choice([MOST, -MOST, MOST + 1, -MOST - 1]))
    if kind == 1:
        return rng.choice(["", "-", "-0", "+1", "1.5", "0x", "00012", "9" * 18, "9" * 19, "-" + "0" * 18, "-" + "0" * 19])
    return str(rng.randrange(-20000, 20001))


def place(rng, far):
    spread = MOST if far else 20000
    return "L %d %d" % (rng.randrange(-spread, spread + 1), rng.randrange(-spread, spread + 1))


def plain_form(rng, wire):
    kind = rng.randrange(20)
    if kind == 0:
        return rng.choice(["L", "L ", "L 1", "L 1 ", "L 1 2 3", "L 1 2 ", "L  1 2", "Lx 1 2", "L1 2", "l 1 2", "G", "G ", "G 2", "G 1 ", "G1", "Gx"])
    if kind == 1:
        return "L %s %s" % (number(rng), number(rng))
    if wire.startswith("grp") or kind == 2:
        return rng.choice(["G 1", "G 0"])
    return place(rng, kind == 3)


# ---- record lines ----

def faulty_line(rng, time):
    return rng.choice([
        "x", " ", "-1 pos0 L 0 0", "%d" % time, "%d\tpos0 L 0 0" % time, "%d " % time, "%d  pos0 L 0 0" % time,
        "%016d pos0 L 0 0" % time, "1" * 15 + " pos0 L 0 0", "%dpos0 L 0 0" % time, "%d pos3 L 0 0" % time, "%d POS0 L 0 0" % time,
        "%d pos0\tL 0 0" % time, "%d grp8 G 1" % time, "%d grp2 G 1" % time, "%d gyro $HEHDT,90.0,T*16" % time,
        "%d pos0 %s" % (time, "7" * (187 - len(str(time)))), "1048576000 pos0 L 0 0", "1048576000 pos9 L 0 0", "%d pos0" % (1 << 40),
    ])


def rich_line(rng, time):
    """A line of any wire."""
    if one_in(rng, 150):
        return faulty_line(rng, time)
    wire = rng.choice(WIRES[:11]) if one_in(rng, 2) else rng.choice(PLAIN_WIRES)
    stamp = "%d" % time if not one_in(rng, 12) else "%015d" % time
    kind = rng.randrange(16)
    if kind == 0:
        return rng.choice([stamp + " " + wire, stamp + " " + wire + " "])
    if kind == 1:
        start = stamp + " " + wire + " "
        return start + "7" * (192 - len(start)) if one_in(rng, 2) else start + place(rng, False)
    if kind < 6 or wire.startswith("grp"):
        return "%s %s %s" % (stamp, wire, plain_form(rng, wire))
    text = sentence(rng, wire)
    return "%s %s %s" % (stamp, wire, damaged(rng, text) if one_in(rng, 5) else text)


def plain_line(rng, time):
    """A local line of a position wire, or a faulty one."""
    kind = rng.randrange(500)
    if kind == 0:
        return faulty_line(rng, time)
    if kind == 1:
        return rng.choice(["%d pos0 L 1 2 3" % time, "%d pos0 G 1" % time, "%d gyro0 $HEHDT,90.0,T*16" % time, "%d pos0 L 1" % time])
    wire = rng.choice(PLAIN_WIRES)
    if kind < 8:
        return "%d %s L %s %s" % (time, wire, number(rng), number(rng))
    return "%d %s %s" % (time, wire, place(rng, kind < 40))


def ended(rng, lines):
    """The lines as one text: ends of either kind, the last one with or without."""
    usual = rng.choice(["\n", "\n", "\r\n"])
    ends = [rng.choice(["\n", "\r\n"]) if one_in(rng, 20) else usual for _ in lines]
    text = "".join(line + end for line, end in zip(lines, ends))
    kind = rng.randrange(8)
    if kind == 0 and lines:
        return text[: -len(ends[-1])]
    if kind == 1 and lines:
        return text[: -len(ends[-1])] + "\r"
    return text


def record(rng, line):
    """A record of such lines."""
    lines, time = [], rng.choice([0, 0, 0, 999, 2500])
    calm = one_in(rng, 3)       # a few lines a cycle, so that there are many cycles
    for _ in range(rng.choice([0, 3, 20, 60, 90])):
        time += rng.choice([0, 400, 1000, 1000, 3500] if calm else [0, 0, 0, 0, 1, 300, 1000])
        if one_in(rng, 100):
            time += rng.randrange(25000)
        if one_in(rng, 300):
            time = max(0, time - rng.randrange(2000))
        if one_in(rng, 30):
            lines.append("")
        lines.append(line(rng, time))
    return ended(rng, lines)


# ---- watches ----

def noisy(rng, centre, spread):
    return centre + rng.randrange(-spread, spread + 1)


def watch(rng):
    """A record in which each sensor reports in nearly every cycle."""
    lines, time = [], 0
    place = [rng.randrange(-30000, 30001), rng.randrange(-30000, 30001)]
    course = rng.choice([0, 9000, 17990, 18000, 27000, 35990, rng.randrange(36000)])
    gust = [rng.choice([0, 17990, 35990, rng.randrange(36000)]), rng.randrange(100000)]
    states = ["good"] * 3
    spread = rng.choice([0, 5, 300, 1500, 2500])
    for _ in range(rng.choice([6, 20, 45])):
        place = [noisy(rng, place[0], 400), noisy(rng, place[1], 400)]
        course = noisy(rng, course, 40) % 36000
        gust = [noisy(rng, gust[0], 60) % 36000, min(99999, max(0, noisy(rng, gust[1], 3000)))]
        for wire in range(3):
            if one_in(rng, 12):
                states[wire] = rng.choice(["good", "good", "frozen", "silent", "jumping", "far"])
            if states[wire] == "silent":
                continue
            at = [noisy(rng, place[0], spread), noisy(rng, place[1], spread)]
            if states[wire] == "frozen":
                at = [1234, -987]
            if states[wire] == "jumping" and one_in(rng, 3):
                at[0] += rng.choice([5000, 5001, 6000, -7000])
            if states[wire] == "far":
                at = [at[0] + 200000, at[1] - 150000]
            lines.append("%d pos%d L %d %d" % (time, wire, at[0], at[1]))
        for wire in range(3):
            if not one_in(rng, 7):
                hundredths = rng.choice([course, noisy(rng, course, 30) % 36000])
                lines.append("%d gyro%d %s" % (time, wire, checked("HEHDT,%d.%02d,T" % (hundredths // 100, hundredths % 100))))
        for wire in range(3):
            if not one_in(rng, 5):
                angle_now, speed = noisy(rng, gust[0], 90) % 36000, min(99999, max(0, noisy(rng, gust[1], 900)))
                lines.append("%d wind%d %s" % (time, wire, checked("WIMWV,%d.%02d,R,%d.%03d,M,A" % (
                    angle_now // 100, angle_now % 100, speed // 1000, speed % 1000))))
        if one_in(rng, 10):
            lines.append("%d grp%d G %d" % (time, rng.randrange(2), rng.randrange(2)))
        time += 1000 * (1 if not one_in(rng, 15) else rng.randrange(1, 9))
    return "".join(line + "\n" for line in lines)


# ---- scripts ----

def computer(rng):
    return rng.randrange(3)


def coordinate(rng):
    return rng.choice([rng.randrange(-10 ** 10, 10 ** 10 + 1), 0, 1 << 43, -(1 << 43)])


def force(rng):
    return rng.choice([rng.randrange(-100000, 100001), 0, 250000, 250001, -150000, -150001, 60000000, 10 ** 18 - 1, 1 - 10 ** 18])


def two(rng):
    """Two different computers."""
    return "%d %d" % tuple(rng.sample(range(3), 2))


def junk(rng):
    """Bytes that are offered as a state: any, or such as a spelling begins with."""
    text = bytes(rng.randrange(256) for _ in range(rng.choice([1, 2, 8, 63, 64])))
    if one_in(rng, 3):
        text = rng.choice([b"DPS1", b"DPS2"]) + rng.choice([b"", b"\x00\x00\x00", b"\x00\x00\x00\x0d", b"\x00\x00\x00\xe5" + text[:48]])
    return text.hex()


def act(rng):
    """A verb and its arguments."""
    if one_in(rng, 3):
        return rng.choice([
            lambda: "tell %s" % two(rng),
            lambda: "tell %s" % two(rng),
            lambda: "lie %s %d %d" % (two(rng), coordinate(rng), coordinate(rng)),
            lambda: "junk %s %s" % (two(rng), junk(rng)),
            lambda: "restart %d" % computer(rng),
            lambda: "upgrade %d" % computer(rng),
        ])()
    return rng.choice([
        lambda: "usual",
        lambda: "run %d" % computer(rng),
        lambda: "run %d" % computer(rng),
        lambda: "order %d %d" % (computer(rng), rng.choice([0, 1, 2, 2, 3, 11])),
        lambda: "orders %d" % computer(rng),
        lambda: "orders %d" % computer(rng),
        lambda: "skew %d %d %d" % (computer(rng), coordinate(rng), coordinate(rng)),
        lambda: "say %d %d %d" % (computer(rng), rng.choice([0, 1, 2, 5]), force(rng)),
        lambda: "stop %d" % computer(rng),
    ])()


def faulty_act(rng, cycle):
    """A script's line with a fault of each kind; some are of none."""
    return rng.choice([
        # verb
        "%d" % cycle, "%d " % cycle, "usual", "%d Usual" % cycle, "%d usual 0" % cycle, "%d run" % cycle, "%d run 0 1" % cycle,
        "%d orders 0 " % cycle, "%d  run 0" % cycle, " %d run 0" % cycle, "%d order 0" % cycle, "%d skew 0 1" % cycle, "%d tell 0" % cycle,
        "%d tell 0 1 2" % cycle, "%d lie 0 1 0" % cycle, "%d junk 0 1" % cycle, "%d junk 0 1 00 00" % cycle, "%d restart" % cycle, "%d upgrade 0 0" % cycle,
        "%d usual%s" % (cycle, " " * 190), "\t", " #",
        # number
        "x usual", "-1 usual", "+1 run 0", "%d run x" % cycle, "%d run " % cycle, "%d run -1" % cycle, "%d orders +1" % cycle,
        "%d skew 0 1.0 0" % cycle, "%d skew 0 - 0" % cycle, "%d say 0 0 %d" % (cycle, 1 << 62), "%s usual" % ("9" * 19), "%d order 0 -0" % cycle,
        "%d junk 0 1 0g" % cycle, "%d junk 0 1 AB" % cycle, "%d junk 0 0 zz" % cycle, "%d junk 0 1 +0" % cycle, "%d junk 0 1 %sG" % (cycle, "0" * 130),
        "%d tell 0 x" % cycle, "%d lie 0 0 1.0 0" % cycle, "%d restart -0" % cycle, "%d upgrade +1" % cycle,
        # range
        "%d run 3" % cycle, "%d orders 9" % cycle, "%d order 0 12" % cycle, "%d skew 0 %d 0" % (cycle, (1 << 43) + 1),
        "%d skew 0 0 %d" % (cycle, -(1 << 43) - 1), "%d stop %s" % (cycle, "9" * 18), "1048576 usual",
        "%d tell 1 1" % cycle, "%d tell 0 3" % cycle, "%d lie 2 2 0 0" % cycle, "%d lie 0 1 0 %d" % (cycle, -(1 << 43) - 1), "%d junk 0 1 " % cycle,
        "%d junk 0 1 0" % cycle, "%d junk 0 1 000" % cycle, "%d junk 0 1 %s" % (cycle, "0" * 130), "%d junk 1 1 00" % cycle, "%d restart 3" % cycle,
        "%d upgrade 9" % cycle,
        # order, and good lines
        "%d usual" % max(0, cycle - 1), "%d usual" % (cycle // 2), "0 usual", "1048575 usual", "%018d usual" % cycle, "%d skew 00 -0 000" % cycle, "%d usual" % cycle,
        "%d tell 00 02" % cycle, "%d lie 0 1 -0 %d" % (cycle, 1 << 43), "%d junk 2 0 %s" % (cycle, "5a" * 64), "%d restart 002" % cycle, "%d upgrade 0" % cycle,
    ])


def acts_of_cycle(rng, plan):
    """What happens in a cycle under a plan."""
    if plan == "asleep":        # one computer never runs, so that it is overrun
        return ["run 0", "run 1", "orders 0", "orders 1"]
    if plan == "skewed":
        return ["skew 1 %d %d" % (coordinate(rng), coordinate(rng)), "usual"]
    if plan == "lying":
        return ["say 2 %d %d" % (rng.randrange(3), force(rng)), "usual"]
    if plan == "alone":         # one order alone is voted on, or two that may differ
        return ["run 0", "run 1", "orders 0"] + (["orders 1"] if one_in(rng, 3) else [])
    if plan == "late":          # frames wait, and are run all together
        return rng.choice([["run 0", "run 1"], ["run 2", "run 2", "run 2", "usual"], ["orders 2", "usual"]])
    if plan == "rejoin":        # a computer is started again, and the other two tell it their states
        return rejoining(rng, computer(rng))
    if plan == "deceived":      # one of the two that tell it lies
        acts = rejoining(rng, 2)
        acts.insert(rng.randrange(len(acts) + 1), "lie 1 2 %d %d" % (coordinate(rng), coordinate(rng)))
        return acts
    return [act(rng) for _ in range(rng.randrange(1, 7))]


def rejoining(rng, c):
    others = [a for a in range(3) if a != c]
    rng.shuffle(others)
    acts = ["usual"] + ["tell %d %d" % (a, c) for a in others]
    if one_in(rng, 4):
        acts.insert(rng.randrange(len(acts) + 1), "%s %d" % (rng.choice(["restart", "restart", "upgrade", "stop"]), c))
    if one_in(rng, 6):
        acts.insert(rng.randrange(len(acts) + 1), act(rng))
    return acts


def script(rng):
    if one_in(rng, 8):
        return rng.choice(["", "\n", "# nothing\n", "# nothing", "\r\n"])
    if one_in(rng, 250):        # as many lines as a script may have, or one more
        return "# many\n" + "0 stop 2\n" * rng.choice([1 << 16, (1 << 16) + 1])
    plan = rng.choice(["asleep", "skewed", "lying", "alone", "late", "rejoin", "rejoin", "deceived", "any", "any", "any"])
    skip = rng.choice([1, 1, 1, 2, 5])
    faulty = one_in(rng, 4)
    lines, cycle = [], rng.choice([0, 0, 1, 3])
    for _ in range(rng.choice([1, 4, 10, 24, 40])):
        if one_in(rng, 12):
            lines.append(rng.choice(["", "#", "# a remark", "#" * 300]))
        chosen = [act(rng)] if one_in(rng, 20) else acts_of_cycle(rng, plan)
        lines += ["%d %s" % (cycle, one) for one in chosen]
        if one_in(rng, 40):
            lines.append("%d stop %d" % (cycle, computer(rng)))
        if faulty and one_in(rng, 15):
            lines.append(faulty_act(rng, cycle))
        cycle += 1 if skip == 1 else rng.randrange(skip + 1)
    return ended(rng, lines)


def case(rng):
    """A record and a script."""
    kind = rng.randrange(6)
    text = watch(rng) if kind < 2 else record(rng, plain_line if kind == 2 else rich_line)
    return text, script(rng)


def replaced(rng, text):
    """A record, and another that differs in what one position reference tells: dropped, moved, frozen or damaged lines of it, or also other
    lines, now and then."""
    wire = "pos%d" % rng.randrange(3)
    kind = rng.choice(["dropped", "moved", "some", "damaged", "same", "other"])
    far = rng.choice([1, 100, 5000, 1000000])
    lines = []
    for line in text.splitlines(keepends=True):
        parts = line.split(" ")
        if len(parts) < 3 or (parts[1] != wire and not (kind == "other" and one_in(rng, 20))):
            lines.append(line)
            continue
        if kind == "dropped" or kind == "other" or kind == "some" and one_in(rng, 2):
            continue
        if kind == "damaged":
            lines.append(" ".join(parts[:2]) + " x\n")
        elif kind == "moved" and parts[2] == "L" and len(parts) == 5:
            lines.append(" ".join(parts[:3]) + " %d %d\n" % (rng.randrange(-far, far + 1), rng.randrange(-far, far + 1)))
        else:
            lines.append(line)
    second = "".join(lines)
    if one_in(rng, 6):
        second = second[: rng.randrange(len(second) + 1)]
    return [text, second] if one_in(rng, 2) else [second, text]


def moves(rng):
    """A list of moves of the setpoint, good and faulty."""
    if one_in(rng, 10):
        return rng.choice(["", "\n", "# none\n", "\r\n"])
    lines, cycle = [], rng.choice([0, 0, 0, 1, 5])
    faulty = one_in(rng, 4)
    far = rng.choice([10, 1000, 100000, 8796093])
    for _ in range(rng.choice([1, 1, 2, 3, 8])):
        if one_in(rng, 10):
            lines.append(rng.choice(["", "#", "# a remark", "#" * 300]))
        place = [rng.randrange(-far, far + 1) if not one_in(rng, 3) else 0 for _ in range(2)]
        lines.append("%d %d %d %d" % (cycle, place[0], place[1], rng.choice([0, 0, 9000, 18000, 35999, rng.randrange(36000)])))
        if faulty and one_in(rng, 3):
            lines.append(rng.choice(["%d 0 0" % cycle, "%d 0 0 0 0" % cycle, "x 0 0 0", "%d 8796094 0 0" % cycle, "%d 0 0 36000" % cycle, "%d 0 0 -1" % cycle,
                                     "1048576 0 0 0", "0 0 0 0", "%d  0 0 0" % cycle, "%d 1.5 0 0" % cycle, "%d 0 0 0%s" % (cycle, " " * 200), "99999999999 0 0 0"]))
        cycle += rng.choice([0, 1, 2, 10])
    return ended(rng, lines)
