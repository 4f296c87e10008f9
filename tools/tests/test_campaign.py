"""campaign: its table and page, going on where it was cut off, parts, other programs; and with the program itself, made records."""
import csv
import gzip
import os
import shutil
import unittest
import unittest.mock

from support import ToolTest, program, text_of

ODD = "c d'$(touch ran);\"`touch ran`.record"      # a name is never read as words
# Stands in for dp: the record's first line says how many cycles, and what else happens.
STAND_IN = """
plant=$2 record=$3 script=$4
read cycles what < "$record"
n=0
while [ "$n" -lt "$cycles" ]; do
  x=F; [ "$what" = held ] && [ "$n" -gt 1 ] && x=H
  echo "cycle $n LLL"; echo "t0 $x $((n * n * 1000)) 1 1 1"
  [ "$what" = held ] && echo "alarm gyro"
  n=$((n + 1))
done
if [ "$what" = slow ] && [ ! -e slow ]; then touch slow; kill -9 $$; fi
if [ "$what" = bad ]; then echo "fault record 2 notime"; exit 7; fi
echo "end $n"
"""


# Stands in for ssh: runs the words here, in the other machine's shell, and notes the machine.
SSH = """#!/bin/bash
while [ "${1#-}" != "$1" ]; do case $1 in --) shift; break;; -o|-l|-p|-i) shift 2;; *) shift;; esac; done
echo "$1" >> ssh.log; shift; [ "$1" = -- ] && shift
exec bash -c "$*"
"""


class Campaigns(ToolTest):
    def setUp(self):
        super().setUp()
        self.file("dp", STAND_IN)
        os.mkdir(os.path.join(self.folder, "all"))
        self.file("all/S1.toml", text_of("plants", "S1.toml"))

    def campaign(self, *words, status=0):
        return self.tool("campaign", "--program", "sh %s/dp" % self.folder, *words, "all", status=status)

    def rows(self):
        with open(os.path.join(self.folder, "all", "campaign", "table.csv"), encoding="utf-8", newline="") as file:
            return list(csv.DictReader(file))

    def parallel(self):
        if not shutil.which("parallel"):
            raise unittest.SkipTest("it wants GNU parallel")

    def test_table_and_page(self):
        self.parallel()
        self.file("all/a.txt", "3 good\n")
        self.file("all/b.txt", "4 held\n")
        self.file("all/" + ODD, "2 bad\n")
        self.file("all/e.txt.gz", gzip.compress(b"5 good\n"))
        self.file("all/x.script", "")
        self.file("all/y.script", "")
        told, _ = self.campaign(status=1)
        self.assertIn("8 runs, 2 refused, 0 lost", told)
        rows = self.rows()
        self.assertEqual([ODD] * 2 + ["b.txt"] * 2 + ["e.txt.gz"] * 2 + ["a.txt"] * 2, [row["record"] for row in rows])
        self.assertEqual({"plant": "S1.toml", "record": "b.txt", "script": "x.script", "status": "0", "last": "end 4", "cycles": "4", "fresh": "2", "held": "2", "zero": "0",
                          "first_alarm": "0", "alarm": "gyro", "alarm_cycles": "4", "step": "5000", "step_thruster": "0", "step_cycle": "3"}, rows[2])
        self.assertEqual(("7", "fault record 2 notime", "2"), (rows[0]["status"], rows[0]["last"], rows[0]["cycles"]))
        page = self.content("all/campaign/page.html")
        self.assertLess(page.index("touch"), page.index("b.txt"))
        self.assertIn("5.0 kN, t0 in cycle 3", page)
        self.assertFalse(os.path.exists(os.path.join(self.folder, "ran")))
        self.assertNotIn("http", page.replace("<!DOCTYPE html>", ""))

    def test_a_lost_worker(self):
        """A run whose worker is killed is played again at once by parallel, and else by the next call."""
        self.parallel()
        self.file("all/a.txt", "3 good\n")
        self.file("all/b.txt", "3 slow\n")
        self.campaign("--jobs", "1")
        self.assertTrue(os.path.exists(os.path.join(self.folder, "slow")))
        self.assertEqual(["0", "0"], [row["status"] for row in self.rows()])

    def test_other_machines(self):
        self.parallel()
        self.file("all/" + ODD, "3 good\n")
        self.file("all/b.txt", "3 good\n")
        self.file("ssh", SSH)
        os.chmod(os.path.join(self.folder, "ssh"), 0o755)
        with unittest.mock.patch.dict(os.environ, {"PARALLEL_SSH": os.path.join(self.folder, "ssh")}):
            self.assertIn("2 runs, 0 refused, 0 lost", self.campaign("--sshlogin", "2/node1")[0])
        self.assertIn("node1", self.content("ssh.log"))
        self.assertFalse(os.path.exists(os.path.join(self.folder, "ran")))

    def test_goes_on(self):
        self.parallel()
        for number in range(6):
            self.file("all/%d.txt" % number, "3 good\n")
        self.campaign()
        rows = os.path.join(self.folder, "all", "campaign", "rows")
        stamps = {name: os.stat(os.path.join(rows, name)).st_mtime_ns for name in sorted(os.listdir(rows))}
        lost = os.path.join(rows, "003", "3.csv")
        os.remove(lost)
        self.file("all/6.txt", "2 good\n")
        self.assertIn("6 runs, 0 refused, 1 lost", self.campaign("--collect", status=1)[0])
        self.assertIn("7 runs, 0 refused, 0 lost", self.campaign()[0])
        for name, stamp in stamps.items():
            if name != "003":
                self.assertEqual(stamp, os.stat(os.path.join(rows, name)).st_mtime_ns, name)
        self.file("other", STAND_IN)
        self.assertIn("begun with another program", self.tool("campaign", "--program", "sh %s/other" % self.folder, "all", status=1)[1])
        self.assertIn("7 runs", self.tool("campaign", "--program", "sh %s/other" % self.folder, "--fresh", "all")[0])

    def test_parts(self):
        for number in range(5):
            self.file("all/%d.txt" % number, "%d good\n" % (number + 1))
        self.campaign("--part", "1/2")
        self.assertIn("5 runs, 0 refused, 2 lost", self.tool("campaign", "--collect", "all", status=1)[0])
        self.assertEqual(["lost", "lost", "0", "0", "0"], [row["status"] for row in self.rows()])
        self.campaign("--part", "2/2")
        self.assertIn("5 runs, 0 refused, 0 lost", self.tool("campaign", "--collect", "all")[0])

    def test_refusals(self):
        self.assertIn("all has no record", self.campaign(status=1)[1])
        self.assertIn("has no campaign", self.tool("campaign", "--collect", "all", status=1)[1])
        self.assertIn("gone", self.tool("campaign", "gone", "--program", "sh", status=1)[1])
        self.campaign("--part", "3/2", status=2)
        help_page = self.tool("campaign", "--help")[0]
        for word in ("--sshlogin", "--part K/N", "SLURM_ARRAY_TASK_ID", "--resume", "--joblog"):
            self.assertIn(word, help_page)


class Program(ToolTest):
    def test_samples(self):
        """Two samples on two plants, counted as their outputs are."""
        words = program()
        os.mkdir(os.path.join(self.folder, "all"))
        for name in ("S1", "S1_tight"):
            self.file("all/%s.toml" % name, text_of("plants", name + ".toml"))
        for name in ("station.txt", "faults.script"):
            self.file("all/" + name, text_of("samples", name))
        for part in ("1/2", "2/2"):
            self.tool("campaign", "--program", " ".join(words), "--part", part, "all")
        self.assertIn("2 runs, 0 refused, 0 lost", self.tool("campaign", "--collect", "all")[0])
        with open(os.path.join(self.folder, "all", "campaign", "table.csv"), encoding="utf-8", newline="") as file:
            rows = list(csv.DictReader(file))
        self.assertEqual(["end 12", "end 12"], [row["last"] for row in rows])
        self.assertEqual("S1.toml", max(rows, key=lambda row: row["plant"] == "S1.toml")["plant"])
        self.assertEqual(72, sum(int(rows[0][key]) for key in ("fresh", "held", "zero")))
