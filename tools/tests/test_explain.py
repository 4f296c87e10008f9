"""explain, the places of keys in a plant file, and what is said of each kind of fault."""
import gzip
import tomllib
import unittest

import faultlines
import plantcauses
import plantkeys
from faultplaces import Places
from support import ToolTest, at_root, program, text_of

S1 = text_of("plants", "S1.toml")
TOML = '''# a comment with [brackets] = 1
[a] # [x]
one = 1
"two words" = "a # b"
many = [
  1, # first

  [2, 3],
]
text = """
[not.a.table]
"""
inline = { x = 1, y = [4, 5] }
dotted.key = 7
[[t]]
v = 1
[[t]]
v = 2
[t.sub]
w = 3
'''
# An edit of S1, the fault line that the program answers, and words of what is said of it.
PLANTS = [
    (("cycle_ms = 1000", "cycle_ms = "), "fault plant toml", ["line 13"]),
    (("mass = [5243,", "mass = [99999999999999999999,"), "fault plant toml", ["plant 24: mass", "doesn't fit 64 bits"]),
    (("cycle_ms = 1000\n", ""), "fault plant missing plant.cycle_ms", ["plant 9: [plant]", "has no cycle_ms"]),
    (("[gains]", "[gain]"), "fault plant missing gains.k2", ["there is no [gains]"]),
    (("groups = 2", "groups = 3"), "fault plant missing case", ["lost = 4"]),
    (("cycle_ms = 1000", "cycle_ms = 1.5"), "fault plant kind plant.cycle_ms", ["plant 13: cycle_ms = 1.5", "a whole number; here stands a number with a point"]),
    (("start = [0, 0, 0]", "start = [0, 0]"), "fault plant kind plant.start", ["an array of 3 whole numbers; here stands an array of 2"]),
    (("cycle_ms = 1000", "cycle_ms = 1"), "fault plant range plant.cycle_ms", ["plant.cycle_ms is 1; it may be 100 to 10000 (ms)"]),
    (("hi = [50000000, 30000000,", "hi = [50000000, 3000000000,"), "fault plant range case.0.hi", ["plant 128: hi", "entry 1 of case.0.hi is 3000000000", "23998 kN on sway"]),
    (("lost = 2", "lost = 1"), "fault plant range case.2.lost", ["an earlier case has the same lost groups, at plant 133: lost = 1"]),
    (("max = 250000", "max = 100"), "fault plant corner 0 0 125026 100", ["plant 130: b", "125 kN of t0", "its limit is 0.1 kN: 124.9 kN too much", "plant 83: max = 100"]),
    (("b = [[0, 0, 0], [5243", "b = [[7, 0, 0], [5243"), "fault plant corner 1 0 300 0", ["with group 0 lost", "t0 is of group 0, which is lost in this case"]),
    (("mass = [5243", "mass = [5263"), "fault plant demand 0 0 0 21474836480", ["0.9537 kN off on surge", "plant 26: tol", "0.38 % of the mass", "a tol of 20 on surge"]),
    (("k2 = 67108864", "k2 = -1"), "fault gains range gains.k2", ["gains.k2 is -1"]),
    (("form = [[8,", "form = [[-8,"), "fault gains range cert.form", ["entry 0 of row 0 of cert.form is -8"]),
    (("rho = 1073217536", "rho = 1073741824"), "fault gains rate", ["plant 178: rho", "rho stands for 1"]),
    (("form = [[8,", "form = [[7,"), "fault gains form 0 6645", ["the row of the place is short by 6645, which is 42 times its size (158)"]),
    (("rho = 1073217536", "rho = 1073000000"), "fault gains vertex 0 0 0 23034548685135177680", ["surge, thrust at its limit", "plant 192: surge0", "130 % of its size", "these show it"]),
    (("leak = 1342177", "leak = 0"), "fault gains vertex 0 0 0 75152154165916840304", ["a leak of 0 is never enough"]),
    (("b = 1200000000", "b = 1000000000"), "fault gains input", ["b is 1000000000, and has to be 1162558252 at least: it is short by 162558252, 14 %"]),
    (("r = 27130", "r = 27129"), "fault gains round", ["r is 27129, and has to be 27130 at least: it is short by 1,"]),
    (("g = [160000,", "g = [100000,"), "fault gains output 0 0 0 840179525893344", ["surge, with the bias", "541 times its size", "g = 156663 would do, where 100000 stands"]),
    (("span = [100000000,", "span = [1000000,"), "fault gains span 0 0 538559035504606846976", ["span = 90747758 would do", "a size below 0 can't be shown"]),
    (("b = 1200000000", "b = 1125899906842624"), "fault gains wide 0", ["the place could come to", "times 2^56", "rho (now 0.999511719)"]),
]
RECORDS = [
    ("0 pos0 L 0 0\n1000 pos0 L 0 0\n\n500 pos1 L 0 0\n", "fault record 4 back 1000 500", ["record 4: '500 pos1", "record 2: '1000 pos0", "500 ms (0.500 s) before"]),
    ("0 gps0 L 0 0\n", "fault record 1 unknown", ["'gps0' is no wire, perhaps pos0 is meant"]),
    ("0 grp5 G 0\n", "fault record 1 unknown", ["plant has 2 groups, so its wires end at grp1"]),
    ("1000.5 pos0 L 0 0\n", "fault record 1 badtime", ["whole milliseconds"]),
    ("0  pos0\n", "fault record 1 nowire", ["one space"]),
    ("0 pos0 " + "x" * 200 + "\n", "fault record 1 long", ["it has 207 bytes"]),
    ("1764506119250 pos0 L 0 0\n", "fault long cycles 1764506119", ["seems to count from 1970"]),
    ("1048576000 pos0 L 0 0\n", "fault long cycles 1048576", ["291.3 hours"]),
    ("$GPGGA,123519,4807.038,N,01131.000,E,1,08,0.9,545.4,M,46.9,M,,*47\n$GPHDT,90.0,T*16\n", "fault record 1 notime",
     ["this is a raw log", "log2record gyro0=record pos0=record > record.txt"]),
    ("2026-11-30 12:35:00.1: $GPGGA,1,2*00\n", "fault record 1 badtime", ["this is a raw log", "log2record pos0=record"]),
    (gzip.compress(b"0 pos0 L 0 0\n", mtime=0), "fault record 1 notime", ["is packed by gzip: zcat record |"]),
    ("0 pos0 L 0 0\n".encode("utf-16"), "fault record 1 notime", ["is UTF-16"]),
]
SCRIPTS = [
    ("3 usual\n# no\n2 usual\n", "fault script 3 order", ["script 3: '2 usual'", "before that of line 1: '3 usual'"]),
    ("1 stp 0\n", "fault script 1 verb", ["perhaps stop is meant"]), ("1 run\n", "fault script 1 verb", ["run wants 1 part behind it (computer)"]),
    ("1 run 4\n", "fault script 1 range", ["the computer 4 isn't within 0 to 2"]), ("1 tell 1 1\n", "fault script 1 range", ["the two computers are one"]),
    ("1 junk 0 1 abc\n", "fault script 1 range", ["HEX has 3 digits"]), ("1 junk 0 1 AB\n", "fault script 1 number", ["the HEX 'AB'"]),
    ("x run 0\n", "fault script 1 number", ["the cycle 'x'"]), ("1 run x\n", "fault script 1 number", ["the computer 'x'"]),
    ("0 run 0\n" * 65536 + "0 run 0\n", "fault script 65537 range", ["it is the line 65537 that says something"]),
]
MOVES = [("5 0 0 0\n4 0 0 0\n", "fault moves 2 order", ["before that of line 1"]), ("5 0 0\n", "fault moves 1 number", ["here are 3 parts"]),
         ("5 0 0 36000\n", "fault moves 1 range", ["HEADING 36000 isn't within 0 to 35999"])]
STATUS = {one.anchor: one.status for one in faultlines.LINES}


def edited(edit):
    old, new = edit
    assert old in S1, old
    return S1.replace(old, new, 1)


class KeyPlaces(unittest.TestCase):
    def test_lines(self):
        tomllib.loads(TOML)
        places = Places(TOML)
        for path, line in [("a", 2), ("a.one", 3), ("a.two words", 4), ("a.many", 5), ("a.many.0", 6), ("a.many.1", 8), ("a.many.1.1", 8), ("a.text", 10), ("a.inline.y.1", 13),
                           ("a.dotted.key", 14), ("t", 15), ("t.0.v", 16), ("t.1.v", 18), ("t.1.sub.w", 20), ("t.1.gone", 17), ("gone", None)]:
            self.assertEqual(line, places.line(path), path)

    def test_every_key_of_the_samples(self):
        for name in ("S1", "S2", "osv90"):
            text = text_of("plants", name + ".toml")
            document, places, lines = tomllib.loads(text), Places(text), text.split("\n")
            for at, _ in plantkeys.numbers_in(list(document["case"])):
                path = ".".join(map(str, ("case", *at)))
                self.assertIn(path, places.lines)
            for table in ("plant", "gains", "yaw", "cert"):
                for key in document[table]:
                    self.assertTrue(lines[places.lines["%s.%s" % (table, key)] - 1].startswith(key + " ="), key)

    def test_text_that_is_no_toml(self):
        for text in ("a = ", "[a", "= 3", "a = [1, ", "a = \"x", "\"", "a.b.", "[[a]]\n]"):
            Places(text)


class Ranges(unittest.TestCase):
    def test_keys_are_those_of_the_formats(self):
        """Each key of the table has a range here, and stands in the formats' table of keys."""
        table = text_of("docs", "FORMATS.md").split("## Plant file")[1].split("## State spelling")[0]
        for key in plantkeys.KEYS:
            if not key.startswith("guide"):
                self.assertIn("`%s`" % key.rsplit(".", 1)[-1] if key.startswith(("gains", "yaw", "cert")) else "`%s`" % key, table.replace("gains.", "").replace("yaw.", "").replace("cert.", ""))

    def test_samples_are_within(self):
        for name in ("S1", "S2", "osv90", "catamaran"):
            document = tomllib.loads(text_of("plants", name + ".toml"))
            for path, number in leaves(document):
                at = path.split(".")
                while at and at[-1].isdigit() and plantkeys.pattern_of(".".join(at)) not in plantkeys.KEYS:
                    at.pop()
                key, part = ".".join(at), path[len(".".join(at)):].rpartition(".")[2]
                least, most = plantkeys.range_of(document, key, int(part) if part else None)
                self.assertTrue(least <= number <= most, path)


def leaves(value, path=""):
    if isinstance(value, (dict, list)):
        for key, one in value.items() if isinstance(value, dict) else enumerate(value):
            yield from leaves(one, "%s.%s" % (path, key) if path else str(key))
    else:
        yield path, value


class Explained(ToolTest):
    """The program is stood in for by one that answers the known line; with --program the program itself has to answer just that."""

    def explained(self, line, wanted, *files):
        kind, _ = faultlines.found(line)
        self.file("answer", "echo '%s'; exit %d" % (line, kind.status))
        told, _ = self.tool("explain", "--program", "sh answer", "plant", *files, status=1)
        self.assertEqual(line, told.split("\n")[0])
        self.assertEqual("more: docs/FORMATS.md#" + kind.anchor, told.split("\n")[-2])
        for words in wanted:
            self.assertIn(words, told.encode("latin-1").decode())

    def test_plants(self):
        for edit, line, wanted in PLANTS:
            with self.subTest(line):
                self.file("plant", edited(edit))
                self.explained(line, wanted)

    def test_records(self):
        self.file("plant", S1)
        for text, line, wanted in RECORDS:
            with self.subTest(line):
                self.explained(line, wanted, "--record", self.file("record", text))

    def test_scripts(self):
        self.file("plant", S1)
        for text, line, wanted in SCRIPTS:
            with self.subTest(line):
                self.explained(line, wanted, "--script", self.file("script", text))

    @unittest.skipUnless("guide" in faultlines.EVERY, "the program has no command guide yet")
    def test_moves(self):
        self.file("plant", S1)
        for text, line, wanted in MOVES:
            with self.subTest(line):
                self.explained(line, wanted, "--moves", self.file("moves", text))

    def test_files(self):
        self.file("plant", S1)
        self.explained("fault read script", ["gone: No such file or directory"], "--script", "gone")
        self.explained("fault long plant", ["plant: %d bytes" % len(S1.encode())])
        self.explained("fault memory", ["memory was wanted"])
        self.explained("fault plant missing guide.rate", ["there is no [guide]"], "--moves", "/dev/null")

    def test_each_fault_of_a_plant_has_its_words(self):
        for one in faultlines.FOUND:
            if one.anchor.startswith(("fault-plant", "fault-gains")):
                self.assertIn(one.anchor, plantcauses.CAUSES)

    def test_no_fault_and_no_answer(self):
        self.file("plant", S1)
        self.file("answer", "echo end 3")
        self.assertIn("no fault", self.tool("explain", "--program", "sh answer", "plant")[0])
        self.file("answer", "echo end 3; exit 4")
        self.assertIn("no fault line", self.tool("explain", "--program", "sh answer", "plant", status=3)[1])
        self.assertIn("No such file", self.tool("explain", "--program", "./gone", "plant", status=3)[1])
        self.tool("explain", status=2)
        self.tool("explain", "plant", "--moves", "m", "--script", "s", status=2)
        self.assertIn("--record FILE", self.tool("explain", "--help")[0])


class Program(ToolTest):
    """The program answers the lines that the tests above explain."""

    def answered(self, line, *words):
        told, _ = self.tool("explain", "--program", " ".join(program()), "plant", *words, status=1)
        self.assertEqual(line, told.split("\n")[0])

    def test_lines(self):
        program()
        for edit, line, _ in PLANTS:
            with self.subTest(line):
                self.file("plant", edited(edit))
                self.answered(line)
        self.file("plant", S1)
        for option, rows in (("--record", RECORDS), ("--script", SCRIPTS)):
            for text, line, _ in rows:
                with self.subTest(line):
                    self.answered(line, option, self.file("input", text))

    def test_samples(self):
        words = ["--script", at_root("samples", "faults.script"), "--record", at_root("samples", "station.txt")]
        self.assertEqual("no fault: the program ends with `end 12`\n", self.tool("explain", "--program", " ".join(program()), at_root("plants", "S1.toml"), *words)[0])
