"""samples/failures and docs/FMEA.md: what the program prints for each failure, and what the document says of it."""
import os
import re
import subprocess
import unittest

import blocks
from support import at_root, program, text_of

FOLDER = at_root("samples", "failures")
NAMES = sorted(os.listdir(FOLDER))
ENTRY = re.compile(r"^### [^\n]* \(`([a-z_]+)`\)\n(.*?)(?=^##|\Z)", re.MULTILINE | re.DOTALL)
PARTS = ["- **Crew sees**: ", "- **Forces**: off by ", "- **Covered by**: "]


def path(name, file):
    return os.path.join(FOLDER, name, file)


def read(name):
    with blocks.opened(path(name, "output.txt")) as text:
        return list(blocks.Output(name, text).blocks())


def off(name):
    """How far a force is at most off the one without the failure."""
    return max(abs(ours[1] - theirs[1]) for one, other in zip(read(name), read("none")) for ours, theirs in zip(one.thrusters, other.thrusters))


class Document(unittest.TestCase):
    """docs/FMEA.md says what the outputs are."""

    def setUp(self):
        self.entries = dict(ENTRY.findall(text_of("docs", "FMEA.md")))

    def test_each_failure_has_an_entry(self):
        self.assertEqual(NAMES, sorted(self.entries))
        for name in NAMES:
            self.assertEqual(["faults.script", "output.txt", "record.txt"], sorted(os.listdir(os.path.join(FOLDER, name))))

    def test_entries_quote_the_outputs(self):
        for name, entry in self.entries.items():
            with self.subTest(name):
                quoted = re.findall("^    (.*)$", entry, re.MULTILINE)
                lines = iter(text_of("samples", "failures", name, "output.txt").splitlines())
                self.assertTrue(quoted)
                for line in quoted:
                    self.assertIn(line, lines)      # in order, each after the one before

    def test_entries_measure_the_forces(self):
        for name, entry in self.entries.items():
            with self.subTest(name):
                self.assertIn("- **Forces**: off by %d N." % off(name), entry)
                for part in PARTS:
                    self.assertEqual(1, entry.count(part))

    def test_each_failure_stands_in_the_table(self):
        """One row a failure, in the entries' order, and none that is empty where it says what detects it and whether it can stay hidden."""
        rows = re.findall(r"^\| \[[^|]*\(`([a-z_]+)`\) \| ([^|]+) \| ([^|]+) \|", text_of("docs", "FMEA.md"), re.MULTILINE)
        self.assertEqual([name for name in self.entries if name != "none"], [row[0] for row in rows])
        for name, *cells in rows:
            self.assertTrue(all(cell.strip() for cell in cells), name)

    def test_clauses_are_in_the_guarantees(self):
        guarantees = text_of("docs", "GUARANTEES.md") + text_of("docs", "CLAUSES.md")
        for name, entry in self.entries.items():
            with self.subTest(name):
                covered = entry[entry.index(PARTS[2]):]
                clauses = re.findall("`([a-z_:A-Z]+)`", covered)
                self.assertTrue(clauses or "as above" in covered or "not promised" in covered)
                for clause in clauses:
                    self.assertTrue(clause.split("::")[-1] in guarantees, clause)


class Program(unittest.TestCase):
    """The program prints what the samples say."""

    def test_failures(self):
        words = program()
        for name in NAMES:
            with self.subTest(name):
                done = subprocess.run(words + ["replay", at_root("plants", "S1.toml"), path(name, "record.txt"), path(name, "faults.script")],
                                      capture_output=True, check=False)
                self.assertEqual(0, done.returncode)
                self.assertEqual(text_of("samples", "failures", name, "output.txt"), done.stdout.decode())
