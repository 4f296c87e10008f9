"""bench.py: its records, and its table with a small program that stands in for dp."""
import io
import os
import re
import shutil
import subprocess
import tomllib
import unittest

import benchrecords
from record import Record
from support import ToolTest, program, text_of

# Plays a record: a block for each line; much memory where the script has many lines, and more work where a letter is asked for.
STAND_IN = r"""
#include <stdio.h>
#include <stdlib.h>
#include <string.h>
int main(int count, char **words) {
    static char line[4096];
    volatile unsigned long total = 0; unsigned long lines = 0;
    if (count < 3) return 2;
    if (strcmp(words[1], "replay")) { for (int i = 0; i < 1000 WORK; i++) total += i * total + 1; printf("end %lu\n", total & 0); return 0; }
    FILE *script = fopen(words[4], "r"), *record = fopen(words[3], "r");
    while (fgets(line, sizeof line, script)) memset(calloc(1, 64), 1, 64);
    while (fgets(line, sizeof line, record)) { for (char *at = line; *at; at++) for (int i = 0; i < 10 WORK; i++) total += *at * (total + i); lines++; }
    printf("end %lu %lu\n", lines, total & 0);
    return 0;
}
"""


class Records(unittest.TestCase):
    def test_each_line_is_a_reading(self):
        """Nine lines a cycle, each with a reading, places that change from each cycle to the next."""
        plant = tomllib.loads(text_of("plants", "S1.toml"))
        for kind, wires in ((benchrecords.three_gga, 3), (benchrecords.nine_lines, 9), (benchrecords.plain_places, 9)):
            text = b"".join(kind(0, 250))
            self.assertEqual(250 * wires, text.count(b"\n"))
            record = Record(plant)
            frames = list(record.frames(io.BytesIO(text)))
            self.assertIsNone(record.refusal)
            self.assertEqual(list(range(250)), [cycle for cycle, _ in frames])
            self.assertEqual({wires}, {len(frame) for _, frame in frames})
            self.assertFalse(any(one["pos0"] == other["pos0"] for (_, one), (_, other) in zip(frames, frames[1:])))


class Bench(ToolTest):
    SHORT = ["--repeat", "2", "--cycles", "20,60", "--sentences", "900,2700"]

    def wanted(self):
        for name in ("valgrind", "cc"):
            if not shutil.which(name):
                self.skipTest("it wants %s" % name)

    def built(self, name, work):
        self.file(name + ".c", STAND_IN.replace("WORK", work))
        subprocess.run(["cc", "-O1", "-w", "-o", name, name + ".c"], cwd=self.folder, check=True)
        return name

    def test_table(self):
        self.wanted()
        self.built("fast", "* 1")
        self.built("slow", "* 3")
        told, _ = self.tool("bench.py", *self.SHORT, "--goals", "fast", "slow", status=1)
        rows = [[cell.strip() for cell in line.strip("|").split("|")] for line in told.splitlines()]
        self.assertEqual(["Measured", "program", "second", "ratio", "wanted"], rows[0])
        self.assertEqual(2 + 4 + 1 + 3 + 4, len(rows))
        for row in rows[2:5]:
            self.assertLess(float(row[3]), 0.8)
            self.assertEqual("at most 0.80", row[4])
        self.assertRegex(rows[5][4], "at most 1.1 of the unscripted [0-9]+; it is [0-9.]+")
        memory = rows[6]
        self.assertIn("65536 lines", memory[0])
        self.assertTrue(4000 < int(memory[1]) < 12000, memory)
        self.assertIn("NOT REACHED", told)

    def test_the_same_twice(self):
        """The count of instructions is the same for the same program."""
        self.wanted()
        self.built("fast", "* 1")
        told, _ = self.tool("bench.py", *self.SHORT, "fast", "fast")
        self.assertEqual(["1.000"] * 4, [line.split("|")[4].strip() for line in told.splitlines()[2:6]])
        self.assertNotIn("wanted", told)

    def test_refusals(self):
        self.wanted()
        self.built("fast", "* 1")
        self.built("other", "+ 0 * puts(\"\")")
        self.assertIn("answer differently", self.tool("bench.py", *self.SHORT, "fast", "other", status=1)[1])
        self.assertIn("gone isn't there", self.tool("bench.py", "fast", "gone", status=1)[1])
        self.tool("bench.py", "--cycles", "30,20", "fast", "fast", status=2)
        self.tool("bench.py", "fast", status=2)
        self.assertIn("callgrind", self.tool("bench.py", "--help")[0])


class Program(ToolTest):
    def test_program(self):
        """The program beside itself, on short records."""
        words = program()
        if len(words) != 1 or not os.path.isfile(words[0]) or not shutil.which("valgrind"):
            self.skipTest("it wants valgrind, and the program as one file")
        with open(words[0], "rb") as file:
            if file.read(4) != b"\x7fELF":
                self.skipTest("it wants valgrind, and the program as one file")
        name = os.path.abspath(words[0])
        told, _ = self.tool("bench.py", *Bench.SHORT, name, name)
        self.assertTrue(all(re.search(r"\| 1\.000 \|$", line) for line in told.splitlines()[2:6]), told)
