"""The fault lines: one source for docs/FORMATS.md and tools/explain, with each line that the program's own tests and the samples know."""
import os
import re
import unittest

import faultlines
from support import at_root, text_of

LINE = re.compile(r"(?<=[~n\"])(fault [a-z][a-z0-9_. -]*)\\n\"|[0-9]~(fault [a-z][a-z0-9_. -]*)(?=\"|~)")


def known_lines():
    """The fault lines that the tests of the crates expect."""
    for folder, _, names in os.walk(at_root("crates")):
        for name in names:
            if name.endswith(".rt") and "test" in os.path.join(folder, name):
                with open(os.path.join(folder, name), encoding="utf-8") as file:
                    yield from (one or other for one, other in LINE.findall(file.read()))


class Table(unittest.TestCase):
    def test_the_formats_have_the_table(self):
        text = text_of("docs", "FORMATS.md")
        self.assertEqual(1, text.count(faultlines.BEGIN))
        self.assertEqual(faultlines.table(), text.split(faultlines.BEGIN)[1].split(faultlines.END)[0].strip())

    def test_anchors(self):
        anchors = [one.anchor for one in faultlines.LINES]
        self.assertEqual(sorted(set(anchors)), sorted(anchors))
        for name in ("README.md", "CHANGELOG.md", "CONTRIBUTING.md", "SECURITY.md", *("docs/" + name for name in os.listdir(at_root("docs")) if name.endswith(".md"))):
            if os.path.exists(at_root(name)):
                for anchor in re.findall(r"(?:FORMATS\.md|\()#(fault-[a-z-]+)", text_of(name)):
                    self.assertIn(anchor, [*anchors, "fault-lines"], name)

    def test_known_lines_are_found(self):
        lines = set(known_lines())
        self.assertGreater(len(lines), 20)
        for line in sorted(lines):
            with self.subTest(line):
                self.assertIsNotNone(faultlines.found(line))

    def test_parts(self):
        for line, anchor, parts in [
                ("fault record 7 back 5000 4000", "fault-record-back", {"RECORD": "record", "LINE": "7", "BEFORE": "5000", "NOW": "4000"}),
                ("fault record 3 long", "fault-record-long", {"RECORD": "record", "LINE": "3"}),
                ("fault long script", "fault-long-script", {}), ("fault long cycles 1048576", "fault-long-cycles", {"CYCLE": "1048576"}),
                ("fault plant missing case", "fault-plant-missing", {"KEY": "case"}),
                ("fault gains vertex 1 0 2 77", "fault-gains-vertex", {"AXIS": "1", "VERTEX": "0", "ROW": "2", "SHORT": "77"})]:
            found, given = faultlines.found(line)
            self.assertEqual((anchor, parts), (found.anchor, given))
        for line in ("fault", "fault plant", "fault record 7", "fault record 7 long ", "end 12", "fault gains vertex 3 0 0 1"):
            self.assertIsNone(faultlines.found(line), line)

    def test_statuses(self):
        of = {one.anchor: one.status for one in faultlines.LINES}
        for anchor, status in [("fault-usage", 2), ("fault-read-script", 3), ("fault-plant-toml", 5), ("fault-gains-wide", 6), ("fault-record-unknown", 7),
                               ("fault-script-order", 8), ("fault-memory", 9), ("fault-long-cycles", 10)]:
            self.assertEqual(status, of[anchor])
