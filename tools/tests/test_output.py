"""The readers of a replay's output and of a record, blocks2csv, and the order of the alarms."""
import io
import tomllib
import unittest

import alarms
import blocks
import columns
from local import Origin
from record import Record
from support import ToolTest, at_root

OUTPUT = """cycle 0 LLL
t0 F 12 12 -7 12
t1 Z 0 3 - -
alarm ref 2 stale
alarm gyro
cycle 1 LAO
t0 H -5 - - 1
t1 F 0 0 0 0
end 2
"""


def all_blocks(text):
    return list(blocks.Output("out", io.StringIO(text)).blocks())


class Blocks(unittest.TestCase):
    def test_blocks(self):
        one, two = all_blocks(OUTPUT)
        self.assertEqual((0, "LLL", ["ref 2 stale", "gyro"]), (one.cycle, one.modes, one.alarms))
        self.assertEqual([("F", 12, [12, -7, 12]), ("Z", 0, [3, None, None])], one.thrusters)
        self.assertEqual((1, "LAO", []), (two.cycle, two.modes, two.alarms))

    def test_cut_outputs(self):
        lines = OUTPUT.splitlines(keepends=True)
        for count in range(len(lines)):
            self.assertEqual(1 if count > 5 else 0, len(all_blocks("".join(lines[:count]))))

    def test_a_line_without_its_end_is_dropped_with_its_block(self):
        for place in range(len(OUTPUT)):
            output = blocks.Output("out", io.StringIO(OUTPUT[:place]))
            self.assertEqual((1 if place >= OUTPUT.index("cycle 1") + 12 else 0, None), (len(list(output.blocks())), output.last), place)

    def test_fault_line(self):
        output = blocks.Output("out", io.StringIO(OUTPUT.replace("end 2", "fault record 7 back 5000 4000")))
        self.assertEqual(2, len(list(output.blocks())))
        self.assertEqual("fault record 7 back 5000 4000", output.last)

    def test_refusals(self):
        for number, bad in [(1, "x\n"), (2, "cycle 0 LLL\nt1 F 0 0 0 0\n"), (1, "alarm gyro\n"), (1, "cycle 1 LLL\n"), (2, "end 0\nend 0\n"),
                            (3, "cycle 0 LLL\nt0 F 0 0 0 0\ncycle 2 LLL\n"), (4, "cycle 0 LLL\nt0 F 0 0 0 0\ncycle 1 LLL\nend 2\n"),
                            (2, "cycle 0 LLL\nt0 F 0 0 0\n"), (1, "t0 F 0 0 0 0\n")]:
            with self.subTest(bad), self.assertRaisesRegex(blocks.Refused, "^out %d: " % number):
                all_blocks(bad)


class Tables(ToolTest):
    def test_tables(self):
        self.file("out", OUTPUT)
        _, told = self.tool("blocks2csv", "out", "run")
        self.assertEqual("2 cycles; the last line is end 2\n", told)
        self.assertEqual("cycle,thruster,ballot,force,order0,order1,order2\n0,0,F,12,12,-7,12\n0,1,Z,0,3,,\n1,0,H,-5,,,1\n1,1,F,0,0,0,0\n",
                         self.content("run-ballots.csv"))
        self.assertEqual("cycle,computer0,computer1,computer2\n0,L,L,L\n1,L,A,O\n", self.content("run-modes.csv"))
        self.assertEqual("cycle,alarm,which,cause\n0,ref,2,stale\n0,gyro,,\n", self.content("run-alarms.csv"))

    def test_refusals(self):
        self.file("out", OUTPUT + "more\n")
        self.assertTrue(self.tool("blocks2csv", "out", "run", status=1)[1].startswith("blocks2csv: out 10: "))
        self.assertTrue(self.tool("blocks2csv", "gone", "run", status=1)[1].startswith("blocks2csv: gone: No such file"))
        self.file("out", OUTPUT)
        self.assertIn("no/run-ballots.csv: No such file", self.tool("blocks2csv", "out", "no/run", status=1)[1])
        for place in range(0, len(OUTPUT), 9):
            self.file("cut", OUTPUT[:place])
            self.assertIn("the last line is missing: the output is cut", self.tool("blocks2csv", "cut", "run")[1])
        self.tool("blocks2csv", status=2)
        self.assertIn("PREFIX-ballots.csv", self.tool("blocks2csv", "--help")[0])


class Records(unittest.TestCase):
    def setUp(self):
        with open(at_root("plants", "S1.toml"), "rb") as file:
            self.record = Record(tomllib.load(file))

    def frames(self, text):
        return dict(self.record.frames(io.BytesIO(text.encode())))

    def test_readings(self):
        text = ("0 pos0 $GPGGA,123519,4807.038,N,01131.000,E,1,08,0.9,545.4,M,46.9,M,,*47\n10 pos1 L 1000 -250\n20 gyro0 $HEHDT,90.0,T*16\n"
                "30 wind0 $WIMWV,045.0,R,10.0,N,A*13\n40 grp1 G 0\n\n50 pos2 $GPGGA,123519,4807.038,N,01131.000,E,1,08*00\n2000 pos2 L 8796094 0\n")
        self.assertEqual({0: {"pos0": (0, 0), "pos1": (1000000000, -250000000), "gyro0": 9000, "wind0": (4500, 5144), "grp1": False}, 2: {}},
                         self.frames(text))
        self.assertIsNone(self.record.refusal)

    def test_refused_line(self):
        self.assertEqual({0: {"pos0": (0, 0)}}, self.frames("0 pos0 L 0 0\n500 grp2 G 1\n600 pos1 L 0 0\n"))
        self.assertEqual(2, self.record.refusal)

    def test_local_frame(self):
        origin = Origin(28870380000, 6910000000)
        self.assertEqual((1852000000000, 0), origin.local(28870380000 + 10 ** 7, 6910000000))
        self.assertIsNone(origin.local(28870380000 + 5 * 10 ** 7, 6910000000))
        self.assertEqual((185200, -185200), Origin(0, 0).local(1, -1))


class Alarms(unittest.TestCase):
    def test_order_and_meaning(self):
        names = ["wind", "ref 1 stale", "ref 0 noisy", "consequence 1", "damage grp0", "unknown", "limit yaw", "ref 0 frozen"]
        self.assertEqual(["ref 0 frozen", "ref 0 noisy", "ref 1 stale", "damage grp0", "wind", "limit yaw", "consequence 1", "unknown"],
                         sorted(names, key=alarms.order))
        self.assertEqual("the wind sensors", alarms.meaning("wind")[1])
        self.assertEqual("position reference 2 (pos2) has given no fix yet", alarms.meaning("ref 2 silent")[0])
        self.assertIn("if group 1 were lost too", alarms.meaning("consequence 1")[0])
        self.assertTrue(all(alarms.meaning(name)[0] for name in names))


class Columns(unittest.TestCase):
    def test_numbers_come_back(self):
        given = [0, None, 5, 5, -2 ** 31, 2 ** 31, None, None, -1]
        column = columns.Column()
        for number in given:
            column.add(number)
        column.fill(12)
        self.assertEqual(given + [None] * 3, numbers(bytes(column.bytes)))


def numbers(data):
    """What a column's bytes say, read as the page reads them."""
    found, last, code, unit = [], 0, 0, 1
    for byte in data:
        code += (byte & 127) * unit
        unit *= 128
        if byte > 127:
            continue
        if code:
            last += -(code // 2) if (code - 1) % 2 else (code - 1) // 2
        found.append(last if code else None)
        code, unit = 0, 1
    return found
