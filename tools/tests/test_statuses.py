"""The built program: each exit status with its last line, and a record of some megabytes from a file, from a pipe and from memory."""
import os
import subprocess

import blocks
from support import ToolTest, at_root, program, text_of


class Statuses(ToolTest):
    def ran(self, *words, stdin=None, stdout=subprocess.PIPE):
        return subprocess.run(program() + list(words), cwd=self.folder, stdin=stdin, stdout=stdout, stderr=subprocess.DEVNULL, check=False)

    def test_each_status(self):
        plant = self.file("plant", text_of("plants", "S1.toml"))
        record, script = self.file("record", "0 pos0 L 0 0\n"), self.file("script", "0 usual\n")
        broken = self.file("broken", text_of("plants", "S1.toml").replace("cycle_ms = 1000", "cycle_ms = 1"))
        loose = self.file("loose", text_of("plants", "S1.toml").replace("rho = 1073217536", "rho = 1073741824"))
        long_one = self.file("long", text_of("plants", "S1.toml") + "\n" * (1 << 20))
        bad = self.file("bad", "fly\n")
        rows = [(["check", plant], 0, "end 3"), (["replay", plant, record, script], 0, "end 1"), (["make", "7"], 0, None), (["trial", plant, "7"], 0, None),
                ([], 2, "fault usage"), (["fly"], 2, "fault usage"), (["check", "nowhere"], 3, "fault read plant"),
                (["replay", plant, "nowhere", script], 3, "fault read record"), (["replay", plant, record, "nowhere"], 3, "fault read script"),
                (["check", broken], 5, "fault plant range plant.cycle_ms"), (["check", loose], 6, "fault gains rate"),
                (["replay", plant, bad, script], 7, "fault record 1 notime"), (["replay", plant, record, bad], 8, "fault script 1 verb"),
                (["check", long_one], 10, "fault long plant"), (["replay", plant, self.file("late", "1048576000 pos0 L 0 0\n"), script], 10, "fault long cycles 1048576")]
        for words, status, last in rows:
            with self.subTest(" ".join(words)):
                done = self.ran(*words)
                self.assertEqual(status, done.returncode)
                if last:
                    self.assertEqual(last, done.stdout.decode().splitlines()[-1])

    def test_output_that_is_full(self):
        if not os.path.exists("/dev/full"):
            self.skipTest("it wants /dev/full")
        with open("/dev/full", "wb") as full:
            self.assertEqual(4, self.ran("make", "7", stdout=full).returncode)

    def test_a_record_of_megabytes(self):
        """The made record as a file of some megabytes, through a pipe, and from memory (a trial): all count the same."""
        made = self.ran("make", "7").stdout
        self.assertGreater(len(made), 1000000)
        record, plant, script = self.file("record", made), at_root("plants", "S1.toml"), self.file("script", "")
        whole = self.ran("replay", plant, record, script).stdout
        with open(os.path.join(self.folder, record), "rb") as file:
            piped = subprocess.run(["sh", "-c", "cat | exec \"$0\" \"$@\"", *program(), "replay", plant, "/dev/stdin", script],
                                   cwd=self.folder, stdin=file, stdout=subprocess.PIPE, check=True).stdout
        self.assertEqual(whole, piped)
        self.file("output", whole)
        counts = {"cycles": 0, "fresh": 0, "held": 0, "zero": 0, "sum": 0}
        with blocks.opened(os.path.join(self.folder, "output")) as text:
            for block in blocks.Output("output", text).blocks():
                counts["cycles"] += 1
                for ballot, force, _ in block.thrusters:
                    counts[{"F": "fresh", "H": "held", "Z": "zero"}[ballot]] += 1
                    counts["sum"] += force
        told = dict(line.split(" ") for line in self.ran("trial", plant, "7").stdout.decode().splitlines())
        self.assertEqual({key: str(value) for key, value in counts.items()}, told)

    def test_a_longer_record(self):
        """Every cycle of four megabytes is played, from a file and from a pipe alike."""
        text = "".join("%d pos%d L %d %d\n" % (1000 * n, i, n % 97 * 100 + i, -n % 89) for n in range(60000) for i in range(3))
        self.assertGreater(len(text), 3 << 20)
        record, plant, script = self.file("record", text), at_root("plants", "S1.toml"), self.file("script", "")
        whole = self.ran("replay", plant, record, script).stdout
        self.assertEqual(b"end 60000", whole.splitlines()[-1])
        self.assertEqual(60000, whole.count(b"\ncycle ") + 1)
        with open(os.path.join(self.folder, record), "rb") as file:
            piped = subprocess.run(["sh", "-c", "cat | exec \"$0\" \"$@\"", *program(), "replay", plant, "/dev/stdin", script],
                                   cwd=self.folder, stdin=file, stdout=subprocess.PIPE, check=True).stdout
        self.assertEqual(whole, piped)
