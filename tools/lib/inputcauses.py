"""What is behind a fault of a script, of moves or of a record, in words: the line and what is wrong with it; and raw logs that are given as a record."""
import difflib
import re

VERBS = {"usual": "", "run": "C", "order": "CK", "orders": "C", "tell": "AB", "skew": "CPP", "say": "CKF", "lie": "ABPP", "junk": "ABH", "stop": "C", "restart": "C", "upgrade": "C"}
NAMES = {"A": "computer", "B": "computer", "C": "computer", "K": "voter", "P": "place", "F": "force", "H": "HEX"}
RANGES = {"A": (0, 2), "B": (0, 2), "C": (0, 2), "K": (0, 11), "P": (-(1 << 43), 1 << 43), "F": (-(1 << 62), 1 << 62)}
MOST_CYCLES, MOST_LINE, MOST_ACTS = 1 << 20, 192, 1 << 16
MOVES = [("CYCLE", 0, MOST_CYCLES - 1, ""), ("NORTH", -8796093, 8796093, " mm"), ("EAST", -8796093, 8796093, " mm"), ("HEADING", 0, 35999, " hundredths of a degree")]
FORMATTERS = {b"GGA": "pos0", b"HDT": "gyro0", b"THS": "gyro0", b"MWV": "wind0"}
SENTENCE = re.compile(rb"[$!][A-Z]{2}([A-Z]{3}),")
MARKS = [(b"\x1f\x8b", "is packed by gzip: zcat %s | dp replay PLANT /dev/stdin SCRIPT"), (b"\xfd7zXZ", "is packed by xz: xzcat %s | dp replay PLANT /dev/stdin SCRIPT"),
         (b"PK\x03\x04", "is a zip archive: unpack %s first"), (b"\xff\xfe", "is UTF-16: iconv -f UTF-16 -t ASCII %s > record.txt"),
         (b"\xfe\xff", "is UTF-16: iconv -f UTF-16 -t ASCII %s > record.txt"), (b"\xef\xbb\xbf", "begins with a byte order mark: tail -c +4 %s > record.txt")]


def shown(line):
    """A line of any bytes, for a reader."""
    text = repr(line[:120].decode("latin-1"))
    return text if len(line) <= 120 else "%s.. (%d bytes)" % (text, len(line))


def line_of(name, number):
    """A line of a file, and the last line before it that isn't empty, with its number."""
    before = (0, b"")
    with open(name, "rb") as file:
        for at, line in enumerate(file, 1):
            line = line[:-2] if line.endswith(b"\r\n") else line.rstrip(b"\n")
            if at == number:
                return line, before
            if line:
                before = at, line
    return b"", before


def is_number(text, signed):
    return re.fullmatch(b"-?[0-9]{1,18}" if signed else b"[0-9]{1,18}", text) is not None


# ---- script

def script(name, found, kind):
    line, _ = line_of(name, int(found["LINE"]))
    told = ["%s %s: %s" % (name, found["LINE"], shown(line))]
    parts = line.split(b" ")
    verb = parts[1].decode("latin-1") if len(parts) > 1 else ""
    return told + {"verb": verb_told, "number": number_told, "range": range_told, "order": order_told}[kind](name, int(found["LINE"]), parts, verb)


def verb_told(_, __, parts, verb):
    if sum(map(len, parts)) + len(parts) - 1 > MOST_LINE:
        return ["the line has more than 192 bytes"]
    if verb not in VERBS:
        near = difflib.get_close_matches(verb, VERBS, 1)
        return ["%r is no verb%s: %s" % (verb, ", perhaps %s is meant" % near[0] if near else "", " ".join(VERBS))]
    wanted = [NAMES[letter] for letter in VERBS[verb]]
    return ["%s wants %d part%s behind it%s, one space apart; here are %d" % (
        verb, len(wanted), "" if len(wanted) == 1 else "s", " (%s)" % ", ".join(wanted) if wanted else "", len(parts) - 2)]


def number_told(_, __, parts, verb):
    if not is_number(parts[0], False):
        return ["the cycle %s is no number of 1 to 18 digits" % shown(parts[0])]
    for letter, part in zip(VERBS[verb], parts[2:]):
        good = re.fullmatch(b"[0-9a-f]*", part) if letter == "H" else is_number(part, letter in "PF")
        if not good:
            return ["the %s %s is no %s" % (NAMES[letter], shown(part), "digits in lower case" if letter == "H" else "number of 1 to 18 digits")]
    return []


def range_told(name, number, parts, verb):
    if int(parts[0]) >= MOST_CYCLES:
        return ["the cycle is to be below 2^20 (1048576)"]
    with open(name, "rb") as file:
        acts = sum(1 for at, line in enumerate(file, 1) if at <= number and line.strip(b"\r\n") and not line.startswith(b"#"))
    if acts > MOST_ACTS:
        return ["it is the line %d that says something, and 65536 may" % acts]
    for letter, part in zip(VERBS[verb], parts[2:]):
        if letter == "H":
            if len(part) % 2 or not 2 <= len(part) <= 128:
                return ["HEX has %d digits; 2 to 128 are wanted, an even number" % len(part)]
        elif not RANGES[letter][0] <= int(part) <= RANGES[letter][1]:
            return ["the %s %d isn't within %d to %d%s" % (NAMES[letter], int(part), *RANGES[letter], {"P": " nm", "F": " N"}.get(letter, ""))]
    return ["the two computers are one"]


def order_told(name, number, parts, _):
    last = None
    with open(name, "rb") as file:
        for at, line in enumerate(file, 1):
            if at == number:
                break
            if line.strip(b"\r\n") and not line.startswith(b"#"):
                last = at, line
    return ["its cycle %d is before that of line %d: %s" % (int(parts[0]), last[0], shown(last[1].rstrip(b"\r\n"))), "`sort -ns -k1,1` puts the lines in order"]


# ---- moves

def moves(name, found, kind):
    line, _ = line_of(name, int(found["LINE"]))
    told, parts = ["%s %s: %s" % (name, found["LINE"], shown(line))], line.split(b" ")
    if kind == "order":
        return told + order_told(name, int(found["LINE"]), parts, "")
    if len(parts) != 4:
        return told + ["wanted are CYCLE NORTH EAST HEADING, one space apart; here are %d parts" % len(parts)]
    for part, (what, least, most, unit) in zip(parts, MOVES):
        if not is_number(part, least < 0):
            return told + ["%s %s is no number" % (what, shown(part))]
        if kind == "range" and not least <= int(part) <= most:
            return told + ["%s %d isn't within %d to %d%s" % (what, int(part), least, most, unit)]
    return told + ["it has more than 192 bytes" if kind == "number" else "it is past the 65536th move"]


# ---- record

def record(name, found, kind, plant):
    line, before = line_of(name, int(found["LINE"]))
    told = ["%s %s: %s" % (name, found["LINE"], shown(line))]
    if kind == "back":
        by = int(found["BEFORE"]) - int(found["NOW"])
        told += ["%s %d: %s" % (name, before[0], shown(before[1])), "its time is %d ms (%.3f s) before that of the line above" % (by, by / 1000),
                 "`sort -ns -k1,1 %s` puts the lines in order" % name]
    elif kind == "long":
        told.append("it has %d bytes, and 192 may stand in a line" % len(line))
    elif kind == "unknown":
        told += wire_told(line, plant)
    elif kind == "nowire":
        told.append("after the time one space and the name of a wire are wanted")
    elif kind == "badtime" and re.match(rb"[0-9]+\.[0-9]", line):
        told.append("a time is whole milliseconds, without a point")
    return told + raw_log(name)


def wire_told(line, plant):
    wire = line.split(b" ")[1].decode("latin-1")
    groups = plant.at("plant.groups") or 0
    wires = [kind + str(number) for kind in ("pos", "gyro", "wind") for number in range(3)] + ["grp%d" % number for number in range(groups)]
    if re.fullmatch("grp[0-7]", wire):
        return ["%s has %d groups, so its wires end at grp%d" % (plant.name, groups, groups - 1)]
    near = difflib.get_close_matches(wire.lower(), wires, 1)
    return ["%r is no wire%s; there are %s" % (wire, ", perhaps %s is meant" % near[0] if near else "", " ".join(wires))]


def late(name, found, plant):
    """A line of a cycle past the last one."""
    cycle_ms = plant.at("plant.cycle_ms")
    with open(name, "rb") as file:
        for at, line in enumerate(file, 1):
            digits = re.match(rb"[0-9]{1,15}", line)
            if digits and int(digits[0]) // cycle_ms == int(found["CYCLE"]):
                told = ["%s %d: %s" % (name, at, shown(line.rstrip(b"\r\n")))]
                if int(digits[0]) > 10 ** 11:
                    told.append("this time seems to count from 1970; it is to count from the record's start, as `tools/log2record` makes it")
                else:
                    told.append("a run ends with cycle 1048575, after %.1f hours of %d ms a cycle: make two records of it" % (MOST_CYCLES * cycle_ms / 3.6e6, cycle_ms))
                return told
    return []


def raw_log(name):
    """What to do with a file that is no record at all."""
    with open(name, "rb") as file:
        begin = file.read(1 << 16)
    for mark, words in MARKS:
        if begin.startswith(mark):
            return ["the file " + words % name]
    lines = [line for line in begin.splitlines() if line.strip()]
    raw = [SENTENCE.search(line) for line in lines if SENTENCE.search(line) and not re.match(rb"[0-9]+ (pos|gyro|wind|grp)[0-9] ", line)]
    if not raw or len(raw) * 2 < len(lines):
        return []
    wires = sorted({FORMATTERS[one[1]] for one in raw if one[1] in FORMATTERS})
    return ["this is a raw log, and no record: sentences without a wire, with stamps of another shape or none. tools/log2record makes one:",
            "    tools/log2record %s > record.txt" % " ".join("%s=%s" % (wire, name) for wire in wires or ["WIRE"])]
