"""look: the page of a replay, and how a browser shows it."""
import base64
import itertools
import json
import os
import re
import shutil
import subprocess
import unittest

import sight
from chrome import Chrome
from support import ToolTest, at_root, browser, text_of

PLANT = at_root("plants", "S1.toml")


def sample(name):
    return [PLANT] + [at_root("samples", "failures", name, file) for file in ("record.txt", "faults.script", "output.txt")]


class Pages(ToolTest):
    def test_page(self):
        page, _ = self.tool("look", *sample("computer_lost"))
        told = json.loads(re.search('id="told">(.*?)</script>', page)[1])
        self.assertEqual((28, 1000, {"F": 168, "H": 0, "Z": 0}, "end 28", [[8, "stop 2"]]),
                         (told["cycles"], told["cycleMs"], told["counts"], told["last"], told["acts"]))
        self.assertIn("antenna, interrogator, line; a damaged line counts as none", page)
        self.assertNotIn("@@", page)

    def test_no_outside_links(self):
        page, _ = self.tool("look", *sample("none"))
        self.assertEqual([], re.findall(r"(?:https?:|//[a-z]+\.|\ssrc=|\shref=|@import|url\((?!#))", page))

    def test_names_are_no_markup(self):
        self.file("x<b>.script", "0 junk 0 1 <script>alert(1)</script>\n0 usual\n")
        words = sample("none")
        page, _ = self.tool("look", words[0], words[1], "x<b>.script", words[3])
        self.assertNotIn("<b>.script", page)
        self.assertNotIn("<script>alert", page)

    def test_refusals(self):
        words = sample("none")
        self.file("odd", "x\n")
        for place, said in [(0, "odd: no TOML document: "), (2, "odd 1: 'x' is no line of a script"), (3, "odd 1: 'x' is no line of a replay's output")]:
            tried = words[:place] + ["odd"] + words[place + 1:]
            self.assertTrue(self.tool("look", *tried, status=1)[1].startswith("look: " + said))
        for place in range(4):
            tried = words[:place] + ["gone"] + words[place + 1:]
            self.assertEqual("look: gone: No such file or directory\n", self.tool("look", *tried, status=1)[1])
        self.file("plant", "[plant]\n")
        self.assertIn("plant: no plant file", self.tool("look", "plant", *words[1:], status=1)[1])
        self.file("few", "cycle 0 LLL\nt0 F 0 0 0 0\nend 1\n")
        self.assertIn("few: has 1 thrusters", self.tool("look", *words[:3], "few", status=1)[1])
        self.tool("look", status=2)

    def test_each_cut_of_an_output_is_drawn(self):
        """A last line without its end is dropped with its block."""
        words, text = sample("none"), text_of("samples", "failures", "none", "output.txt")
        for place in [*range(0, 60, 7), 130, 131, 132, 133, len(text) - 7, len(text) - 1]:
            self.file("cut", text[:place])
            told = self.told(*words[:3], "cut")
            whole = text[:place].count("\ncycle ") if place > 12 and "\n" in text[:place].split("cycle ")[-1] else max(0, text[:place].count("cycle ") - 1)
            self.assertEqual((whole, None), (told["cycles"], told["last"]), place)

    def told(self, *words):
        page, _ = self.tool("look", *words)
        return json.loads(re.search('id="told">(.*?)</script>', page)[1])

    def refused(self, said, *words):
        told = self.tool("look", *words, status=1)[1]
        self.assertTrue(told.startswith("look: " + said), told)

    def test_files_of_different_replays(self):
        words = sample("computer_lost")
        plant, record, script, output = words
        self.refused(record + " 1: '100 pos0 L ", plant, script, record, output)
        self.file("empty", "")
        self.refused("%s 1: no replay of this plant takes this line" % script, plant, script, "empty", output)
        lines = text_of("samples", "failures", "computer_lost", "record.txt").splitlines(keepends=True)
        self.file("longer", "".join(lines) + "28000 pos0 L 0 0\n")
        self.refused("longer has 29 cycles, and %s 28" % output, plant, "longer", script, output)
        self.file("shorter", "".join(lines[:200]))
        self.refused("shorter has 23 cycles, and %s 28" % output, plant, "shorter", script, output)
        self.file("cut", text_of("samples", "failures", "computer_lost", "output.txt")[:-4])
        self.refused("shorter has 23 cycles, and cut 27", plant, "shorter", script, "cut")
        self.file("miscounted", text_of("samples", "failures", "computer_lost", "output.txt").replace("end 28", "end 27"))
        self.refused("miscounted: ends with 'end 27' after 28 cycles", plant, record, script, "miscounted")
        for fault in ("fault usage", "fault plant toml", "fault record 1 notime"):
            self.file("fault", fault + "\n")
            self.refused("fault: has no cycle, only %r" % fault, plant, record, script, "fault")
        self.refused(sample("none")[3] + " 64: computer 2 isn't off at the end of cycle 8, and the script stops it there", plant, record, script, sample("none")[3])
        self.file("back", "8 stop 2\n7 usual\n")
        self.refused("back 2: cycle 7 comes after cycle 8", plant, record, "back", output)

    def test_refused_records_are_drawn_as_far_as_they_were_played(self):
        plant, record, script, output = sample("none")
        self.file("refused", "".join(text_of("samples", "failures", "none", "record.txt").splitlines(keepends=True)[:100]) + "x\n")
        blocks = text_of("samples", "failures", "none", "output.txt").split("cycle ")
        self.file("out", "cycle ".join(blocks[:12]) + "fault record 101 notime\n")
        self.assertEqual((11, "fault record 101 notime"), tuple(self.told(plant, "refused", script, "out")[key] for key in ("cycles", "last")))
        self.file("other", "cycle ".join(blocks[:12]) + "fault record 100 notime\n")
        self.refused("other: ends with 'fault record 100 notime', and refused can be taken there", plant, "refused", script, "other")

    def test_time_of_day(self):
        words = sample("none")
        self.assertIsNone(self.told(*words)["start"])
        self.assertEqual({"ms": 1764506100000, "dated": True, "by": "--start"}, self.told("--start", "2025-11-30T12:35:00Z", *words)["start"])
        self.assertEqual({"ms": 45300000, "dated": False, "by": "--start"}, self.told("--start", "12:35:00", *words)["start"])
        self.file("report", "pos0 from log ..\nrecord: 5 lines over 2.500 s, from 2025-11-30T12:35:00.000Z on\n")
        self.assertEqual({"ms": 1764506100000, "dated": True, "by": "the log's stamps"}, self.told("--start", "report", *words)["start"])
        self.file("none", "record: 5 lines over 2.500 s, from 0.000 s on\n")
        self.refused("none: tells of no record that begins at a time of day", "--start", "none", *words)
        self.refused("--start noon: no time such as", "--start", "noon", *words)
        record = text_of("samples", "failures", "none", "record.txt").splitlines(keepends=True)
        self.file("gga", "210 pos0 $GPGGA,123519,4807.038,N,01131.000,E,1,08,0.9,545.4,M,46.9,M,,*47\n" + "".join(record[3:]))
        self.assertEqual({"ms": 45319000, "dated": False, "by": "the first GGA, to the second"}, self.told(words[0], "gga", *words[2:])["start"])

    def test_an_empty_record(self):
        self.file("empty", "")
        self.file("out", "end 0\n")
        self.assertEqual(0, self.told(PLANT, "empty", "empty", "out")["cycles"])


class Colours(unittest.TestCase):
    """The page's colours, light and dark."""

    def schemes(self):
        found = re.findall(r"(--[a-z0-9]+): (#[0-9a-f]{6});", text_of("tools", "lib", "page.css"))
        half = len(found) // 2
        self.assertEqual([name for name, _ in found[:half]], [name for name, _ in found[half:]])
        return dict(found[:half]), dict(found[half:])

    def test_contrast(self):
        for scheme in self.schemes():
            for name in ("ink", "soft", "one0", "one1", "one2", "held", "zero", "alarm", "watch"):
                for ground in ("lane", "page"):
                    self.assertGreaterEqual(sight.contrast(scheme["--" + name], scheme["--" + ground]), 4.5, (name, ground))

    def test_colours_that_stand_side_by_side_are_apart_for_every_eye(self):
        for scheme in self.schemes():
            for names in (("ink", "one0", "one1", "one2"), ("held", "zero", "alarm", "watch")):
                for one, other in itertools.combinations(names, 2):
                    for eye in sight.EYES:
                        self.assertGreater(sight.apart(scheme["--" + one], scheme["--" + other], eye), 20, (one, other, eye))


class Shown(ToolTest):
    """What a browser makes of the page."""

    TEXT = "document.getElementById(%r).innerText.replace(/\\s+/g, ' ')"

    def opened(self, words, at=""):
        """The page in a browser, 1200 by 900."""
        self.profiles = getattr(self, "profiles", 0) + 1
        chrome = Chrome(browser(), os.path.join(self.folder, "profile%d" % self.profiles))
        self.addCleanup(chrome.close)
        chrome.size(1200, 900)
        page, _ = self.tool("look", *words)
        self.file("page.html", page.encode("latin-1"))
        chrome.open("file://%s%s" % (os.path.join(self.folder, "page.html"), at))
        return chrome

    def inside(self, chrome, lane, part):
        """A point in a lane, at a part of its width."""
        box = chrome.value("(() => { const box = document.querySelectorAll('.lane svg')[%d].getBoundingClientRect();"
                           " return [box.left, box.width, box.top + box.height / 2]; })()" % lane)
        return box[0] + box[1] * part, box[2]

    def test_drawn(self):
        chrome = self.opened(sample("computer_lost"))
        self.assertIn("28 cycles of 1 s, 6 thrusters", chrome.value("document.getElementById('facts').textContent"))
        self.assertEqual("17", chrome.value("document.documentElement.dataset.drawn"))
        self.assertEqual([], chrome.errors)

    def test_a_cycle_is_read(self):
        chrome = self.opened(sample("two_computers_lost"), "#cycle=17&from=10&to=20")
        text = " ".join(chrome.value("document.getElementById('reading').innerText").split())
        self.assertIn("cycle 17", text)
        self.assertIn("computers: 0 live, 1 off, 2 off", text)
        self.assertIn("t0 Z 0 0 16662 - -", text)
        self.assertIn("6 of 6 voters give zero", text)
        self.assertIn("computer 2 is off", text)
        self.assertIn("fewer than two computers have issued anything for this cycle", text)
        self.assertEqual("cycles 10 to 19", chrome.value("document.getElementById('span').textContent"))
        letters = chrome.value("[...document.querySelectorAll('.letter')].map((one) => one.textContent).join('')")
        self.assertEqual("HHHHHZZZ" * 6, letters)      # cycles 12 to 19 of six thrusters

    def test_pointer_and_keys(self):
        chrome = self.opened(sample("computer_lost"))
        span, cycle = "document.getElementById('span').textContent", "Number(document.getElementById('cycle').value)"
        left, top = self.inside(chrome, 8, 0.5)
        chrome.click(left, top)
        self.assertEqual(14, chrome.value(cycle))
        for key, wanted in [("ArrowRight", 15), ("p", 8), ("p", 8), ("ArrowLeft", 7), ("n", 8), ("End", 27), ("Home", 0)]:
            chrome.key(key)
            self.assertEqual(wanted, chrome.value(cycle), key)
        start, top = self.inside(chrome, 0, 0.26)
        end, _ = self.inside(chrome, 0, 0.74)
        chrome.drag(start, end, top)
        self.assertEqual("cycles 7 to 20", chrome.value(span))
        start, top = self.inside(chrome, 8, 0.5)
        end, _ = self.inside(chrome, 8, 0.9)
        chrome.drag(start, end, top)
        self.assertEqual("cycles 1 to 15", chrome.value(span))
        chrome.mouse("mouseWheel", start, top, deltaX=0, deltaY=-200, modifiers=2)
        chrome.settle()
        self.assertEqual("cycles 5 to 12", chrome.value(span))
        chrome.key("0")
        self.assertEqual("cycles 0 to 27", chrome.value(span))
        self.assertEqual([], chrome.errors)

    def test_narrow_and_wide_light_and_dark(self):
        chrome = self.opened(sample("group_lost"))
        pages = set()
        for width in (360, 800, 1600):
            for scheme in ("light", "dark"):
                chrome.scheme(scheme)
                chrome.size(width, 900)
                self.assertLessEqual(chrome.value("document.documentElement.scrollWidth"), width)
                self.assertEqual(chrome.value("lanes[0].svg.clientWidth"), chrome.value("width"))
                pages.add(chrome.value("getComputedStyle(document.body).backgroundColor"))
        self.assertEqual(2, len(pages))
        self.assertEqual([], chrome.errors)

    def test_many_cycles(self):
        """Of 100,000 cycles only so much is drawn as there are pixels, at any zoom."""
        block = "".join("t%d F 100 100 100 %d\n" % (thruster, 100 + thruster % 2) for thruster in range(6)) + "alarm gyro\n"
        with open(os.path.join(self.folder, "many"), "w", encoding="ascii") as file:
            for cycle in range(100000):
                file.write("cycle %d LLL\n%s" % (cycle, block if cycle % 3 else block[:-11]))
            file.write("end 100000\n")
        with open(os.path.join(self.folder, "record"), "w", encoding="ascii") as file:
            file.writelines("%d pos%d L %d 0\n" % (1000 * cycle, i, cycle % 89 * (i + 1)) for cycle in range(100000) for i in range(3))
        chrome = self.opened([PLANT, "record", sample("none")[2], "many"])
        for span in (100000, 10000, 1000, 50):
            drawn = chrome.value("view.from = 7; view.to = 7 + %d; draw(); document.getElementById('lanes').innerHTML.length" % span)
            self.assertLess(drawn, 2000000, span)
        self.assertEqual([], chrome.errors)

    def test_watch(self):
        """What no alarm says is told in words, in lanes of its own, in the overview and in the panel."""
        chrome = self.opened(sample("two_computers_lost"), "#cycle=13")
        self.assertIn("voters give zero in 11 cycles, the first 17; voters hold in 5 cycles, the first 12; computer 1 off in 16 cycles, the first 12",
                      chrome.value(self.TEXT % "watched"))
        self.assertIn("6 of 6 voters hold", chrome.value(self.TEXT % "reading"))
        labels = chrome.value("[...document.querySelectorAll('.lane h2')].map((one) => one.innerText)")
        self.assertEqual(["the whole run", "watch voters give zero", "watch voters hold", "watch computer 1 off", "watch computer 2 off", "alarm unknown", "cycle"], labels[:7])
        self.assertGreater(chrome.value("document.querySelector('.overview .sw').getAttribute('d').length"), 0)
        chrome.value("document.querySelector('.jump').click()")
        self.assertEqual(17, chrome.value("cursor"))

    def test_watch_of_an_outvoted_computer(self):
        chrome = self.opened(sample("computer_false_orders"), "#cycle=10")
        text = chrome.value(self.TEXT % "reading")
        self.assertRegex(text, r"computer 1 differs from the others by up to [0-9.]+ kN")
        self.assertIn("no alarm, but see watch", text)

    def test_watch_of_references_that_drift_together(self):
        chrome = self.opened(sample("references_drifting_alike"), "#cycle=16")
        self.assertIn("pos0 is 3.5 m off the middle one", chrome.value(self.TEXT % "reading"))
        self.assertEqual(["pos0 off the middle"], chrome.value("watches.map((watch) => watch.name)"))
        chrome = self.opened(["--off", "5", *sample("references_drifting_alike")])
        self.assertEqual([], chrome.value("watches.map((watch) => watch.name)"))
        self.assertEqual([], chrome.errors)

    def test_levers_are_taken_off(self):
        plant = text_of("plants", "S1.toml").split("lever = [0, 0]")
        self.file("plant", "lever = [0, 0]".join(plant[:2]) + "lever = [30000, 10000]" + "lever = [0, 0]".join(plant[2:]))
        self.assertEqual(3, len(plant) - 1)
        self.file("record", "".join("%d pos%d L %d %d\n%d gyro0 $HEHDT,90.0,T*16\n" % (1000 * cycle, i, *((-10000, 30000) if i == 1 else (0, 0)), 1000 * cycle)
                                    for cycle in range(4) for i in range(3)))
        self.file("script", "")
        self.file("out", "".join("cycle %d LLL\n%s" % (cycle, "".join("t%d F 0 0 0 0\n" % k for k in range(6))) for cycle in range(4)) + "end 4\n")
        chrome = self.opened(["plant", "record", "script", "out"])
        self.assertEqual([0, 0, 0], chrome.value("COMPUTERS.map((i) => Math.round(column(`apart${i}`)[2]))"))

    def test_thrusters(self):
        """Zero line, limits, the part of the limit, and shading where the group is lost."""
        chrome = self.opened(sample("group_lost"), "#cycle=10")
        lane = "lanes.find((one) => one.words === 't1 group 1').svg.innerHTML"
        self.assertIn('class="nought"', chrome.value(lane))
        self.assertIn('class="gonefill"', chrome.value(lane))
        self.assertNotIn('class="limit"', chrome.value(lane))
        self.assertRegex(chrome.value(lane), "[0-9]+ % of its limit")
        chrome.value("document.getElementById('limits').click()")
        chrome.settle()
        self.assertEqual(2, chrome.value(lane).count('class="limit"'))
        self.assertIn("t0 F 33318 13 33318 33318 33318", chrome.value("go(17)") or chrome.value(self.TEXT % "reading"))

    def test_wind_and_plan(self):
        chrome = self.opened(sample("none"), "#cycle=10")
        self.assertIn("wind from, off the bow", chrome.value("lanes.map((one) => one.words)"))
        self.assertEqual(["ahead", "90° stb", "90° port", "180° port"], chrome.value("[0, 9000, 27000, 18000].map(offBow)"))
        self.assertRegex(chrome.value("document.querySelector('.plan').getAttribute('aria-label')"), "From the setpoint: pos0 [-0-9.]+ m north, [-0-9.]+ m east; pos1 ")
        self.assertEqual(1, chrome.value("document.querySelectorAll('.plan .blow').length"))

    def test_time_of_day_is_shown(self):
        chrome = self.opened(["--start", "2025-11-30T23:59:50Z", *sample("none")], "#cycle=15")
        self.assertIn("cycle 15 2025-12-01 00:00:05", chrome.value(self.TEXT % "reading"))
        self.assertIn("23:59:50", chrome.value("document.querySelector('.axis svg').textContent"))
        self.assertEqual("cycles 0 to 27, 23:59:50 to 00:00:17", chrome.value(self.TEXT % "span"))

    def test_panel_is_near_the_finger(self):
        chrome = self.opened(sample("group_lost"))
        chrome.size(390, 844)
        for top in (200, 700):
            chrome.value("window.scrollTo(0, 150)")
            chrome.click(200, top)
            box = chrome.value("(() => { const box = document.getElementById('reading').getBoundingClientRect(); return [box.top, box.bottom]; })()")
            self.assertTrue(0 <= box[0] and box[1] <= 844, box)
            self.assertFalse(box[0] <= top <= box[1], (box, top))
            chrome.key("Escape")
        self.assertEqual("static", chrome.value("getComputedStyle(document.getElementById('reading')).position"))

    def test_words_for_whoever_hears_the_page(self):
        chrome = self.opened(sample("two_computers_lost"), "#cycle=17")
        chrome.value("new Promise((done) => setTimeout(done, 700))")
        said = chrome.value("document.getElementById('said').textContent")
        self.assertIn("cycle 17, from 17 s. computer 0 live, computer 1 off, computer 2 off. watch: 6 of 6 voters give zero", said)
        labels = chrome.value("[...document.querySelectorAll('.lane svg')].map((one) => one.getAttribute('aria-label'))")
        self.assertTrue(any(re.fullmatch(r"t0 group 0: from 0 to [0-9.]+ kN in what is shown, up to [0-9]+ % of its limit; held in 5 cycles, the first 12; zero in 11 cycles, the first 17", one)
                            for one in labels), labels)
        self.assertEqual(0, chrome.value("[...document.querySelectorAll('button, input')].filter((one) => !(one.getAttribute('aria-label') || one.innerText || one.closest('label'))).length"))
        for _ in range(30):
            chrome.ask("Input.dispatchKeyEvent", type="keyDown", key="Tab", code="Tab", windowsVirtualKeyCode=9)
            chrome.ask("Input.dispatchKeyEvent", type="keyUp", key="Tab", code="Tab", windowsVirtualKeyCode=9)
            if chrome.value("document.activeElement.className") == "jump":
                break
        self.assertEqual("solid", chrome.value("getComputedStyle(document.activeElement).outlineStyle"))

    def test_paper(self):
        """On A4, upright and across, the whole run, the alarms and the legend are on the pages."""
        if not shutil.which("pdftotext"):
            self.skipTest("it wants pdftotext")
        chrome = self.opened(sample("two_computers_lost"), "#cycle=17")
        for across in (False, True):
            answer = chrome.ask("Page.printToPDF", landscape=across, paperWidth=8.27, paperHeight=11.69, marginTop=0.47, marginBottom=0.47, marginLeft=0.47, marginRight=0.47)
            self.file("page.pdf", base64.b64decode(answer["data"]))
            text = subprocess.run(["pdftotext", "-layout", "page.pdf", "-"], cwd=self.folder, capture_output=True, check=True).stdout.decode()
            for wanted in ("alarm unknown", "watch voters give zero", "t5 group 1", "held ballot", "Comes in", "computer aligning", "cycles 0 to 27", "16662"):
                self.assertIn(wanted, text)
            boxes = subprocess.run(["pdftotext", "-bbox", "page.pdf", "-"], cwd=self.folder, capture_output=True, check=True).stdout.decode()
            page = [float(part) for part in re.search('page width="([0-9.]+)" height="([0-9.]+)"', boxes).groups()]
            self.assertEqual(across, page[0] > page[1])
            words = [(float(left), float(right), word) for left, right, word in re.findall('xMin="([0-9.-]+)".*? xMax="([0-9.-]+)".*?>([^<]*)<', boxes)]
            self.assertLess(max(right for _, right, _ in words), page[0] - 20)
            last = max(right for _, right, word in words if word == "Z")      # the last cycle's letters are near the paper's right edge
            self.assertGreater(last, page[0] - 70)
        self.assertEqual("", chrome.value("document.getElementById('paper').innerHTML"))
        self.assertEqual([], chrome.errors)
