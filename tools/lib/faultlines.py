"""Every fault line of every command, in the order of the checks: what it looks like, its exit status, its cause and what to do about it.

    python3 tools/lib/faultlines.py [--write FILE]

Prints the table of docs/FORMATS.md; with --write it puts it between the two marks of FILE. The tests compare both, and tools/explain tells the
same words, so this is the one place where they stand.
"""
import re
import sys

EVERY = "replay check make trial drift".split()      # the commands that the program has
PLANT = [name for name in EVERY if name != "make"]                          # those that read a plant file and judge its gains
RECORD = ["replay", "drift", "guide"]                                       # those that read one record
RECORD_KINDS = RECORD + ["compare"]                                         # those that can refuse a line of a record
BEGIN, END = "<!-- fault lines: made by tools/lib/faultlines.py -->", "<!-- end of fault lines -->"
PARTS = {"KEY": r"[a-z0-9_]+(?:\.[a-z0-9_]+)*", "WHICH": "[01]", "AXIS": "[012]", "VERTEX": "[012]", "COLUMN": "[012]", "COORDINATE": "[0-4]",
         "ROW": "[0-4]", "RECORD": "record|first|second"}


class FaultLine:
    """One kind of line. Words in capitals are what changes; `anchor` is its place in docs/FORMATS.md."""

    def __init__(self, line, status, commands, cause, remedy):
        self.line, self.status, self.cause, self.remedy = line, status, cause, remedy
        self.commands = [name for name in commands if name in EVERY]
        kept = [word.lower() for word in line.split(" ") if word.islower() or word in ("RECORD", "GUIDE")]
        self.anchor = "-".join(kept)
        parts = [("(?P<%s>%s)" % (word, PARTS.get(word, "-?[0-9]+")) if word.isupper() else re.escape(word)) for word in line.split(" ")]
        self.pattern = re.compile(" ".join(parts))


def row(line, status, commands, cause, remedy):
    return FaultLine(line, status, commands, cause, remedy)


def file_rows(word, limit, commands, what):
    """A file that can't be read, and one that is too long."""
    return [row("fault read %s" % word, 3, commands, "%s can't be read" % what, "look at its name, its folder and its rights; a folder is no file"),
            row("fault long %s" % word, 10, commands, "%s has more than %s bytes" % (what, limit), "cut it, or look whether it is the file that is meant")]


WORDS = [row("fault usage", 2, EVERY, "the words are no command, or a number is out of its range",
             "see [Command line](#command-line); a word that begins with `-` is never a file")]

KEYS = [
    row("fault plant toml", 5, PLANT, "the plant file is no TOML document in UTF-8, or has a number outside 64 bits",
        "the first place that a TOML reader stumbles over has the mistake; text stands in quotes, and a key stands once"),
    row("fault plant missing KEY", 5, PLANT, "KEY isn't there; `case` where a case for no lost group or for a single one is missing",
        "put it in: `plants/S1.toml` has each key with a comment"),
    row("fault plant kind KEY", 5, PLANT, "KEY isn't a whole number, or isn't an array or table of the right count",
        "a number has no point and no quotes; count the parts"),
    row("fault plant range KEY", 5, PLANT, "KEY, or one of its parts, is outside its range; a second case of the same lost groups",
        "see its range in [Plant file](#plant-file)"),
]

CASES = [
    row("fault plant corner MASK THRUSTER NEED LIMIT", 5, PLANT,
        "with the groups of MASK lost, a corner of the case's box asks this thruster for NEED newtons, past its LIMIT (0 for a lost one)",
        "make the box smaller (`lo`, `hi`), or the thruster's share in `b`; the share of a lost one is 0"),
    row("fault plant demand MASK AXIS COLUMN ERROR", 5, PLANT,
        "in the case of MASK the thrusters together miss the mass of AXIS (0 surge, 1 sway, 2 yaw), for a demand on COLUMN, by ERROR over 2^50, "
        "which is more than `tol`",
        "put the shares right (`b`); where only roundings are left, `tol` of the axis is to be ERROR over 2^30, rounded up"),
]

GAINS = [
    row("fault gains range KEY", 6, PLANT, "KEY of the gains, of yaw or of the certificate is outside its range", "see its range in [Plant file](#plant-file)"),
    row("fault gains rate", 6, PLANT, "`rho` stands for 1 or more: the loop doesn't forget", "a `rho` below 2^30, by a new certificate"),
    row("fault gains form ROW SHORT", 6, PLANT, "the squares of `form` don't show the form's matrix: ROW is short by SHORT", "other squares, or another form"),
    row("fault gains vertex AXIS VERTEX ROW SHORT", 6, PLANT,
        "at this vertex (0 thrust at its limit, 1 the bias at its limit, 2 neither) of AXIS (0 surge, 1 sway) a cycle isn't shown to shrink the form: "
        "ROW of what is left is short by SHORT", "other squares, then a larger `rho`, then other gains; a `leak` or `damp` of 0 is never enough"),
    row("fault gains input", 6, PLANT, "`b` is too small", "`b` is to be the root of 2·KᵀPK, rounded up"),
    row("fault gains round", 6, PLANT, "`r` is too small", "`r` is to be the root of twice the sum of the form's entries with their roundings, rounded up"),
    row("fault gains output AXIS WHICH ROW SHORT", 6, PLANT,
        "the greatest demand on AXIS isn't shown (0 with the bias, 1 with the bias at its limit): ROW is short by SHORT", "other squares, or a larger `g` of the axis"),
    row("fault gains span COORDINATE ROW SHORT", 6, PLANT,
        "the greatest size of COORDINATE (0 place, 1 bias, 2 velocity, 3 and 4 waves) isn't shown: ROW is short by SHORT", "other squares, or a larger `span` of it"),
    row("fault gains wide COORDINATE", 6, PLANT, "the loop is so slow to forget that COORDINATE could outgrow 64 bits", "a smaller `rho` or `b`"),
]

GUIDED = [
    row("fault plant missing GUIDE", 5, ["guide"], "GUIDE, which is `guide.rate` or `guide.accel`, isn't there; judged after the gains", "put it in: three numbers for north, east and heading"),
    row("fault plant kind GUIDE", 5, ["guide"], "GUIDE isn't an array of three whole numbers", "count its parts"),
    row("fault plant range GUIDE", 5, ["guide"], "a part of GUIDE is outside 1 to 2^31", "nm and nanodegrees per cycle, and per cycle²"),
]

SCRIPT = file_rows("script", "2^24", ["replay"], "the script") + [
    row("fault script LINE verb", 8, ["replay"], "the line has no verb of the table, a wrong number of parts, or more than 192 bytes", "see [Script](#script); parts stand one space apart"),
    row("fault script LINE number", 8, ["replay"], "a part isn't a number, or HEX has a byte that is no digit in lower case", "1 to 18 digits; `-` only before a place or a force"),
    row("fault script LINE range", 8, ["replay"],
        "a cycle is 2^20 or more, a computer isn't 0 to 2, a voter not 0 to 11, a place outside ±2^43, a force outside ±2^62, the two computers are one, "
        "HEX has a wrong length, or more than 2^16 lines say something", "a place is in nm, a force in N"),
    row("fault script LINE order", 8, ["replay"], "its cycle is less than that of the last line before it that wasn't skipped", "sort the lines by cycle, keeping the order within one"),
]

MOVES = file_rows("moves", "2^24", ["guide"], "the file of moves") + [
    row("fault moves LINE number", 11, ["guide"], "the line has more than 192 bytes, not four parts, or a part that is no number", "`CYCLE NORTH EAST HEADING`, one space apart"),
    row("fault moves LINE range", 11, ["guide"], "a cycle is 2^20 or more, a place is outside ±8796093, a heading isn't 0 to 35999, or it is past the 2^16th move", "mm, mm and 0.01 degrees"),
    row("fault moves LINE order", 11, ["guide"], "its cycle is less than that of the move before", "sort the lines by cycle"),
]

RECORDS = [
    row("fault read record", 3, RECORD, "the record can't be read; where that comes in its midst, the cycles before were played", "look at its name, its folder and its rights"),
    row("fault read first", 3, ["compare"], "the first record can't be read", "as above"),
    row("fault read second", 3, ["compare"], "the second record can't be read", "as above"),
    row("fault RECORD LINE long", 7, RECORD_KINDS, "the line has more than 192 bytes, without its end", "no sensor's line is that long: look for a lost line end"),
    row("fault RECORD LINE notime", 7, RECORD_KINDS, "it doesn't begin with a digit", "a raw log goes through `tools/log2record` first"),
    row("fault RECORD LINE badtime", 7, RECORD_KINDS, "it begins with more than 15 digits, or with digits that no space follows", "a time is whole milliseconds; a raw log goes through `tools/log2record` first"),
    row("fault RECORD LINE back BEFORE NOW", 7, RECORD_KINDS, "its time NOW is before that of the last line before it that isn't empty, BEFORE",
        "sort the lines by time (`sort -ns -k1,1`), or look where the clock was set back"),
    row("fault RECORD LINE nowire", 7, RECORD_KINDS, "after the space behind the time stands nothing, or another space", "the name of a wire follows one space"),
    row("fault RECORD LINE unknown", 7, RECORD_KINDS, "up to the next space or its end it names no wire of the plant", "see [Record](#record); `grpN` only for the groups of the plant"),
    row("fault long cycles CYCLE", 10, RECORD_KINDS, "the line has none of these faults, and is of a cycle that is 2^20 or more",
        "times count from the record's start, and not from 1970; a longer run is two records"),
    row("fault long record", 10, RECORD, "the record has more than 2^36 bytes, and no line that ends within them is refused", "cut it"),
    row("fault long first", 10, ["compare"], "the first record has more than 2^36 bytes", "cut it"),
    row("fault long second", 10, ["compare"], "the second record has more than 2^36 bytes", "cut it"),
]

MEMORY = [row("fault memory", 9, EVERY, "memory was wanted; it comes where it is first wanted on the way, after blocks too where the output wants it", "free some; FAULTS.md says what is needed")]

ROWS = WORDS + file_rows("plant", "2^20", PLANT, "the plant file") + KEYS + CASES + GAINS + GUIDED + SCRIPT + MOVES + RECORDS + MEMORY
LINES = [one for one in ROWS if one.commands]

# GUIDE stands in the table only: its keys are found as those of the others.
FOUND = [one for one in LINES if "GUIDE" not in one.line]


def found(text):
    """The kind of a fault line and what stands in it, or None where it is none."""
    for one in FOUND:
        match = one.pattern.fullmatch(text)
        if match:
            return one, match.groupdict()
    return None


def names_of(commands):
    """How the table names commands."""
    if commands == EVERY:
        return "all"
    if commands == PLANT:
        return "all but make"
    return ", ".join(commands)


def table():
    """The table, as Markdown."""
    lines = ["| Line | Status | Commands | Cause | What to do |", "|---|---|---|---|---|"]
    for one in LINES:
        lines.append('| <a id="%s"></a>`%s` | %d | %s | %s | %s |' % (one.anchor, one.line, one.status, names_of(one.commands), one.cause, one.remedy))
    return "\n".join(lines)


def main(words):
    if words and (len(words) != 2 or words[0] != "--write"):
        sys.exit(__doc__.strip())
    if not words:
        print(table())
        return
    with open(words[1], encoding="utf-8") as file:
        text = file.read()
    before, _, rest = text.partition(BEGIN + "\n")
    _, mark, after = rest.partition(END)
    if not mark:
        sys.exit("faultlines: %s: the two marks aren't there" % words[1])
    with open(words[1], "w", encoding="utf-8") as file:
        file.write(before + BEGIN + "\n" + table() + "\n" + END + after)


if __name__ == "__main__":
    main(sys.argv[1:])
