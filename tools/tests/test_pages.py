"""look: the pages of checks, drifts, comparisons and guides."""
import os
import re
import subprocess

import sheets
from chrome import Chrome
from support import ToolTest, at_root, browser, program

PLANT = at_root("plants", "S1.toml")
NONE = at_root("samples", "failures", "none", "record.txt")
DRIFTING = at_root("samples", "failures", "reference_drifting", "record.txt")

CHECK = ("accepted\ncase 0\nt0 C 895 R 22759835\nt1 C 894 R 22751555\nt2 C 716 R 18412615\nt3 C 716 R 18412615\nt4 C 716 R 18412615\nt5 C 716 R 18412615\n"
         "case 1\nt0 C 0 R 1048576\nt1 C 1789 R 44462814\nt2 C 0 R 1048576\nt3 C 1431 R 35776654\nt4 C 0 R 1048576\nt5 C 1431 R 35776654\n"
         "case 2\nt0 C 1789 R 44462814\nt1 C 0 R 1048576\nt2 C 1431 R 35776654\nt3 C 0 R 1048576\nt4 C 1431 R 35776654\nt5 C 0 R 1048576\nend 3\n")
COMPARE = ("twin 28\nspread 155000000\nt0 moved 24 at 16 bound 132320\nt1 moved 24 at 16 bound 132172\nt2 moved 1 at 17 bound 105856\nt3 moved 1 at 17 bound 105856\n"
           "t4 moved 1 at 12 bound 105856\nt5 moved 1 at 12 bound 105856\nend 28\n")
GUIDE = "cycle 0 set 0 0 0 demand 6789017 8355713 0\ncycle 1 set 10000000 -10000000 359990000000 demand 6562485 8022002 -12163\nend 2\n"


class Pages(ToolTest):
    def page(self, *words):
        page, _ = self.tool("look", *words)
        self.assertEqual([], re.findall(r"(?:https?:|\ssrc=|\shref=|@import|url\((?!#))", page))
        return page

    def refused(self, said, *words):
        self.assertIn("look: " + said, self.tool("look", *words, status=1)[1])

    def test_check(self):
        self.file("out", CHECK)
        page = self.page("check", PLANT, "out")
        self.assertIn("<tr><td>t0<td>0<td>250.0<td>853.5<td>0.0217<td>0.29 m", page)
        self.assertIn("<h2>group 1 lost</h2>", page)
        for cut in (0, 5, 30, len(CHECK) - 1):
            self.file("out", CHECK[:cut])
            self.refused("out ", "check", PLANT, "out")
        self.file("out", "fault gains rate\n")
        self.refused("out 1: 'fault gains rate': the command was refused", "check", PLANT, "out")
        self.file("out", CHECK.replace("case 1", "case 2", 1))
        self.refused("out 10: case 2, where the plant's next case is 1", "check", PLANT, "out")

    def test_drift(self):
        self.file("out", "group 0 held\ngroup 1 past 76\nend 2\n")
        page = self.page("drift", PLANT, NONE, "5000", "600", "out")
        for wanted in ("past 5 m in cycle 76, after 76 s", "Held, and so not drawn: group 0.", "limit 5 m"):
            self.assertIn(wanted, page)
        self.file("out", "group 0 nocase\ngroup 1 within -2998751 0\nend 2\n")
        self.assertIn("-0.003 m ahead and 0.000 m to starboard after all cycles", self.page("drift", PLANT, NONE, "5000", "2", "out"))
        self.file("out", "end 0\n")
        self.page("drift", PLANT, NONE, "5000", "2", "out")
        self.file("out", "group 0 held\nend 2\n")
        self.refused("out 2: 'end 2' after 1", "drift", PLANT, NONE, "5000", "600", "out")
        self.refused("'x' is no LIMIT of the command", "drift", PLANT, NONE, "x", "600", "out")

    def test_ways_are_the_commands_own(self):
        """The way of an acceleration of 1000000 nm a cycle², with the sample plant's damping, in its first cycles."""
        for cycle, way in enumerate((1000000, 2998751, 5995004), 1):
            self.assertAlmostEqual(way, 1000000 * sheets.unit_way(1342177, cycle), delta=5)
        self.assertEqual(10, sheets.unit_way(0, 4))

    def test_compare(self):
        self.file("out", COMPARE)
        page = self.page("compare", PLANT, NONE, DRIFTING, "2", "out")
        for wanted in ("differ on pos2 alone", "<b>0.155 m</b>", "<tr><td>t0<td>24 N<td>16<td>132.3 kN<td>0.0181 %", "No force moved by more than its bound"):
            self.assertIn(wanted, page)
        self.file("out", COMPARE.replace("moved 24 at 16 bound 132172", "moved 132173 at 16 bound 132172"))
        self.assertIn("t1 moved by more than the bound", self.page("compare", PLANT, NONE, DRIFTING, "2", "out"))
        self.file("out", "twin 0\nspread 0\n" + "".join("t%d moved 0 at - bound -\n" % k for k in range(6)) + "end 28\n")
        self.assertIn("nothing is compared", self.page("compare", PLANT, NONE, DRIFTING, "2", "out"))
        self.file("out", COMPARE[:-3])
        self.refused("out 9: the output is cut", "compare", PLANT, NONE, DRIFTING, "2", "out")

    def test_guide(self):
        self.file("moves", "# go\n1 1000 -2000 500\n")
        self.file("record", "0 pos0 L 0 0\n0 pos1 L 10 0\n0 pos2 L 0 10\n1000 pos0 L 0 0\n")
        self.file("out", GUIDE)
        page = self.page("guide", PLANT, "moves", "record", "out")
        self.assertIn('[[1,"to 1 m north, -2 m east, 5\\u00b0"]]', page)
        self.file("out", GUIDE[:-1])
        self.assertIn('"cycles":2,', self.page("guide", PLANT, "moves", "record", "out"))
        self.file("out", GUIDE[:60])
        self.assertIn('"cycles":1,', self.page("guide", PLANT, "moves", "record", "out"))
        self.file("long", "0 pos0 L 0 0\n2000 pos0 L 0 0\n")
        self.file("out", GUIDE)
        self.refused("long has 3 cycles, and out 2", "guide", PLANT, "moves", "long", "out")
        self.refused("record 1: '0 pos0 L 0 0' is no move", "guide", PLANT, "record", "moves", "out")
        self.tool("look", "guide", PLANT, "out", status=2)

    def test_the_programs_own_outputs(self):
        """What the program prints now is read: a check, and a drift."""
        for words in (["check", PLANT], ["drift", PLANT, NONE, "5000", "600"]):
            self.file("out", subprocess.run(program() + words, capture_output=True, check=True).stdout)
            self.page(*words, "out")


class Shown(ToolTest):
    def test_pages_in_a_browser(self):
        """Narrow and wide, light and dark, nothing goes past the screen's edge, and no script fails."""
        self.file("check", CHECK)
        self.file("drift", "group 0 within 10000000 -20000000\ngroup 1 past 76\nend 2\n")
        self.file("compare", COMPARE)
        self.file("moves", "1 1000 -2000 500\n")
        self.file("record", "0 pos0 L 0 0\n0 pos1 L 10 0\n0 pos2 L 0 10\n0 gyro0 $HEHDT,90.0,T*16\n1000 pos0 L 0 0\n")
        self.file("guide", GUIDE)
        chrome = Chrome(browser(), os.path.join(self.folder, "profile"))
        self.addCleanup(chrome.close)
        for words in (["check", PLANT], ["drift", PLANT, NONE, "5000", "600"], ["compare", PLANT, NONE, DRIFTING, "2"], ["guide", PLANT, "moves", "record"]):
            page, _ = self.tool("look", *words, words[0])
            self.file("page.html", page.encode("latin-1"))
            chrome.open("file://" + os.path.join(self.folder, "page.html"))
            for width in (380, 1200):
                chrome.size(width, 900)
                self.assertLessEqual(chrome.value("document.documentElement.scrollWidth"), width, words)
            self.assertIsNone(chrome.value("document.documentElement.dataset.failed || null"))
        chrome.value("go(1)")
        text = chrome.value("document.getElementById('reading').innerText.replace(/\\s+/g, ' ')")
        self.assertIn("setpoint 0.010 m north, -0.010 m east, 359.99°", text)
        self.assertIn("surge 32.813 kN 13", text)
        self.assertEqual([], chrome.errors)
