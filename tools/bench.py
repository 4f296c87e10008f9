#!/usr/bin/env python3
"""Measures the built program beside a second one, on every kind of record. Builds nothing.

    tools/bench.py [--goals] [--repeat N] [--cycles A,B] [--sentences A,B,..] PROGRAM SECOND

PROGRAM and SECOND are built programs that answer the words of dp: this tree's, and one from before a change, or a plain one that does the same.
Both have to answer alike. Told are, as a table with both and their ratio,

- instructions a cycle, counted by callgrind: with three GGA, with nine lines, with nine lines of which the places are plain, and with nine lines and a
  script that says `n usual` in each cycle. What a run costs at its start isn't in it: it is the difference of two runs of A and B cycles;
- memory with a script of 65,536 lines `n usual`: the most that was resident while the record is still open;
- the time of `check`, `make` and `trial`, the best of N runs of each program by turns (40);
- time for a sentence and memory of records of A, B, .. sentences (20000,200000,2000000): a program that is linear takes the same for each.

With --goals each line says too what is wanted, where SECOND is the program from before the change, and the exit status is 1 where one isn't reached.
valgrind is wanted (Debian: apt install valgrind). It takes some ten minutes; numbers of time want an idle machine.

Exit status: 0; 1 if the two answer differently, a goal isn't reached or a run fails; 2 if the words are wrong.
"""
import argparse
import hashlib
import os
import re
import shutil
import subprocess
import sys
import tempfile
import time

sys.dont_write_bytecode = True
sys.path.insert(0, os.path.join(os.path.dirname(os.path.realpath(__file__)), "lib"))
import benchrecords  # noqa: E402

TOP = os.path.dirname(os.path.dirname(os.path.realpath(__file__)))
PLANT = os.path.join(TOP, "plants", "S1.toml")
KINDS = [("three GGA", benchrecords.three_gga), ("nine lines", benchrecords.nine_lines), ("nine lines, plain places", benchrecords.plain_places)]
ACTS = 65536
SHORTER, EACH_SCRIPTED, MOST_KIB, SAME = 0.80, 1.1, 12 * 1024, 1.15
FASTER = {"check": 0.6, "make": 0.5, "trial": 0.5}


class Failed(Exception):
    """A run didn't end as it should."""


class Table:
    """The lines that are told, and the goals that aren't reached."""

    def __init__(self, with_goals):
        self.with_goals, self.missed = with_goals, 0
        self.say("| Measured | program | second | ratio |%s" % (" wanted |" if with_goals else ""))
        self.say("|---|---|---|---|%s" % ("---|" if with_goals else ""))

    def say(self, text):
        print(text, flush=True)

    def row(self, name, both, text, wanted="", is_good=True):
        """A line: the numbers of both programs in a text's shape, their ratio, and what is wanted."""
        ratio = "%.3f" % (both[0] / both[1]) if both[1] else "-"
        line = "| %s | %s | %s | %s |" % (name, text % both[0], text % both[1], ratio)
        if self.with_goals:
            line += " %s%s |" % (wanted, "" if is_good else ": NOT REACHED")
            self.missed += not is_good
        self.say(line)


class Bench:
    """The two programs, and a folder for records and scripts."""

    def __init__(self, said, folder):
        self.programs, self.said, self.folder = [os.path.abspath(said.program), os.path.abspath(said.second)], said, folder
        self.table = Table(said.goals)

    def file(self, name, pieces):
        path = os.path.join(self.folder, name)
        with open(path, "wb") as file:
            for piece in pieces:
                file.write(piece)
        return path

    def run(self, words, **how):
        done = subprocess.run(words, stdin=subprocess.DEVNULL, check=False, **how)
        if done.returncode:
            raise Failed("%s: status %d" % (" ".join(words), done.returncode))
        return done

    # ---- both answer alike

    def compare(self):
        script = self.file("some.script", [b"3 skew 1 1000000000 0\n5 stop 2\n"])
        for name, kind in KINDS:
            record = self.file("record", kind(0, 40))
            for words in (["replay", PLANT, record, script], ["check", PLANT]):
                marks = {hashlib.sha256(self.run([program] + words, stdout=subprocess.PIPE).stdout).digest() for program in self.programs}
                if len(marks) > 1:
                    raise Failed("the two programs answer differently: %s of %s" % (words[0], name))

    # ---- instructions

    def count(self, program, record, script):
        """The instructions of a replay, by callgrind."""
        words = ["valgrind", "--tool=callgrind", "--callgrind-out-file=/dev/null", program, "replay", PLANT, record, script]
        done = self.run(words, stdout=subprocess.DEVNULL, stderr=subprocess.PIPE)
        found = re.search(rb"Collected : ([0-9]+)", done.stderr)
        if not found:
            raise Failed("valgrind counted nothing: %s" % done.stderr[-200:].decode("latin-1"))
        return int(found[1])

    def a_cycle(self, program, kind, scripted):
        """The instructions that a cycle more costs."""
        short, long = self.said.cycles
        counts = []
        for cycles in (short, long):
            script = self.file("usual.script", (b"%d usual\n" % cycle for cycle in range(cycles))) if scripted else "/dev/null"
            counts.append(self.count(program, self.file("record", kind(0, cycles)), script))
        return (counts[1] - counts[0]) / (long - short)

    def instructions(self):
        nine = None
        for name, kind in KINDS:
            both = [self.a_cycle(program, kind, False) for program in self.programs]
            nine = both if kind is benchrecords.nine_lines else nine
            self.table.row("instructions a cycle, %s" % name, both, "%.0f", "at most %.2f" % SHORTER, both[0] <= SHORTER * both[1])
        both = [self.a_cycle(program, benchrecords.nine_lines, True) for program in self.programs]
        part = both[0] / nine[0]
        self.table.row("the same, nine lines, `n usual` in each cycle", both, "%.0f", "at most %.1f of the unscripted %.0f; it is %.3f" % (EACH_SCRIPTED, nine[0], part), part <= EACH_SCRIPTED)

    # ---- memory

    def resident(self, program, script, pieces):
        """The most memory, in KiB, that was resident when all of a record was read and it is still open."""
        process = subprocess.Popen([program, "replay", PLANT, "/dev/stdin", script], stdin=subprocess.PIPE, stdout=subprocess.DEVNULL)
        try:
            for piece in pieces:
                process.stdin.write(piece)
            process.stdin.flush()
            most = self.settled(process)
        finally:
            process.stdin.close()
        if process.wait():
            raise Failed("%s: status %d" % (program, process.returncode))
        return most

    @staticmethod
    def settled(process):
        """The high-water mark, once the process waits for more to read."""
        rests = 0
        for _ in range(6000):
            with open("/proc/%d/status" % process.pid, encoding="utf-8") as file:
                status = file.read()
            rests = rests + 1 if re.search(r"^State:\s+S", status, re.MULTILINE) else 0
            if rests == 3:
                return int(re.search(r"^VmHWM:\s+([0-9]+)", status, re.MULTILINE)[1])
            time.sleep(0.01)
        raise Failed("the process doesn't come to rest within a minute")

    def memory(self):
        script = self.file("many.script", (b"%d usual\n" % cycle for cycle in range(ACTS)))
        both = [self.resident(program, script, benchrecords.nine_lines(0, 100)) for program in self.programs]
        self.table.row("KiB resident with %d lines `n usual`" % ACTS, both, "%d", "below %d" % MOST_KIB, both[0] < MOST_KIB)

    # ---- time

    def took(self, program, words):
        """Seconds from start to end, the output going nowhere."""
        begin = time.perf_counter()
        self.run([program] + words, stdout=subprocess.DEVNULL)
        return time.perf_counter() - begin

    def best(self, words, repeat):
        """The best time of each program, by turns."""
        times = [[self.took(program, words) for program in self.programs] for _ in range(repeat)]
        return [min(column) for column in zip(*times)]

    def times(self):
        for words in (["check", PLANT], ["make", "0"], ["trial", PLANT, "0"]):
            both = [1000 * seconds for seconds in self.best(words, self.said.repeat)]
            wanted = FASTER[words[0]]
            self.table.row("ms of `%s`, best of %d" % (words[0], self.said.repeat), both, "%.3f", "below %.1f" % wanted, both[0] < wanted * both[1])

    def lengths(self):
        """Time for a sentence and memory, record by record: neither may grow."""
        before = None
        for sentences in self.said.sentences:
            cycles = -(-sentences // 9)
            record = self.file("record", benchrecords.nine_lines(0, cycles))
            repeat = max(1, min(5, 400000 // sentences))
            both = [1e9 * seconds / (9 * cycles) for seconds in self.best(["replay", PLANT, record, "/dev/null"], repeat)]
            kib = [self.resident(program, "/dev/null", benchrecords.nine_lines(0, cycles)) for program in self.programs]
            good = before is None or both[0] <= SAME * before[0]
            self.table.row("ns a sentence, %d sentences" % (9 * cycles), both, "%.0f", "not above %.2f of the record before" % SAME, good)
            self.table.row("KiB resident, %d sentences" % (9 * cycles), kib, "%d", "the same within a twentieth", before is None or abs(kib[0] - before[1]) <= before[1] / 20)
            before = both[0], kib[0]


def numbers_of(least):
    def read(text):
        parts = text.split(",")
        if not all(re.fullmatch("[1-9][0-9]{0,9}", part) for part in parts) or len(parts) < least or sorted(map(int, parts)) != list(map(int, parts)):
            raise argparse.ArgumentTypeError("%r is no list of rising numbers" % text)
        return list(map(int, parts))
    return read


def main():
    parser = argparse.ArgumentParser(prog="bench.py", description=__doc__, formatter_class=argparse.RawDescriptionHelpFormatter)
    parser.add_argument("--goals", action="store_true", help="judge too")
    parser.add_argument("--repeat", type=int, default=40, metavar="N", help="runs of each command that is timed (40)")
    parser.add_argument("--cycles", type=numbers_of(2), default=[1000, 3000], metavar="A,B", help="the cycles of the two runs that are counted (1000,3000)")
    parser.add_argument("--sentences", type=numbers_of(1), default=[20000, 200000, 2000000], metavar="A,B,..", help="the lengths of records (20000,200000,2000000)")
    parser.add_argument("program", metavar="PROGRAM")
    parser.add_argument("second", metavar="SECOND")
    said = parser.parse_args()
    if len(said.cycles) != 2 or said.repeat < 1:
        parser.error("--cycles wants two numbers, --repeat one from 1 on")
    for name in (said.program, said.second):
        if not os.path.isfile(name):
            sys.exit("bench.py: %s isn't there" % name)
    if not shutil.which("valgrind"):
        sys.exit("bench.py: valgrind isn't there (Debian: apt install valgrind)")
    with tempfile.TemporaryDirectory() as folder:
        try:
            bench = Bench(said, folder)
            bench.compare()
            bench.instructions()
            bench.memory()
            bench.times()
            bench.lengths()
        except (Failed, OSError) as refusal:
            sys.exit("bench.py: %s" % refusal)
    sys.exit(1 if bench.table.missed else 0)


if __name__ == "__main__":
    main()
