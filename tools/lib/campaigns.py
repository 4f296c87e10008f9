"""A campaign: a list of runs, a row for each that was played, and the table and the page of all of them."""
import csv
import gzip
import hashlib
import html
import os
import shutil
import subprocess

import blocks
import programs

LOST = "lost"
HEAD = ["plant", "record", "script", "status", "last", "cycles", "fresh", "held", "zero", "first_alarm", "alarm", "alarm_cycles", "step", "step_thruster", "step_cycle"]
MOST_SHOWN = 5000
COUNTS = {"F": "fresh", "H": "held", "Z": "zero"}
STYLE = """body{font:15px/1.45 system-ui,sans-serif;margin:2rem;color:#111;background:#fff}table{border-collapse:collapse}
th,td{padding:.2rem .6rem;border-bottom:1px solid #bbb;text-align:right}th{position:sticky;top:0;background:#fff}
.t{text-align:left}.bad td{background:#fde8e4}.held td{background:#fff6dc}"""


class Refused(Exception):
    """The campaign can't be played as it is."""


class Campaign:
    """The folder that a campaign's list, rows, table and page are in."""

    def __init__(self, out):
        self.out = out

    def path(self, *parts):
        return os.path.join(self.out, *parts)

    def forget(self):
        for name in ("runs.tsv", "joblog", "program"):
            if os.path.exists(self.path(name)):
                os.remove(self.path(name))
        shutil.rmtree(self.path("rows"), ignore_errors=True)

    def begin(self, files, program):
        """Writes the list of runs; one that is there is gone on with, and grows by the runs that are new."""
        os.makedirs(self.path("rows"), exist_ok=True)
        mark = mark_of(program)
        if os.path.exists(self.path("program")):
            with open(self.path("program"), encoding="utf-8") as file:
                if file.read().strip() != mark:
                    raise Refused("%s was begun with another program; --fresh begins anew" % self.out)
        write(self.path("program"), mark + "\n")
        known = self.runs()
        there = {run[1:] for run in known}
        wanted = [(plant, record, script) for plant in files["plant"] for record in files["record"] for script in files["script"]]
        for name in {name for run in wanted for name in run}:
            if "\t" in name or "\n" in name:
                raise Refused("%r: no tab and no line end may stand in a name" % name)
        for run in wanted:
            if run not in there:
                known.append((str(len(known) + 1), *run))
        write(self.path("runs.tsv"), "".join("\t".join(run) + "\n" for run in known))

    def runs(self):
        """All runs: number, plant, record, script."""
        if not os.path.exists(self.path("runs.tsv")):
            return []
        with open(self.path("runs.tsv"), encoding="utf-8") as file:
            return [tuple(line.rstrip("\n").split("\t")) for line in file]

    def row(self, number):
        """The row of a run, or None where it wasn't played to its end."""
        try:
            with open(row_name(self.out, number), encoding="utf-8", newline="") as file:
                return next(csv.DictReader(file, HEAD))
        except FileNotFoundError:
            return None

    def missing(self, part, parts):
        """The runs of a part that have no row yet."""
        return [run for run in self.runs() if int(run[0]) % parts == part % parts and not os.path.exists(row_name(self.out, run[0]))]

    def mend_joblog(self):
        """Leaves in parallel's log what has a row, so that a run that a lost worker left is played again."""
        if not os.path.exists(self.path("joblog")):
            return
        with open(self.path("joblog"), encoding="utf-8", errors="replace") as file:
            lines = file.read().splitlines()
        kept = [line for line in lines[1:] if line.split("\t")[0].isdigit() and os.path.exists(row_name(self.out, line.split("\t")[0]))]
        write(self.path("joblog"), "".join(line + "\n" for line in lines[:1] + kept))

    def collected(self):
        """The rows of all runs, the worst first, and how many are lost."""
        runs = self.runs()
        if not runs:
            raise Refused("%s has no campaign" % self.out)
        rows = [self.row(run[0]) or lost_row(run) for run in runs]
        rows.sort(key=badness)
        return rows, sum(row["status"] == LOST for row in rows)


def mark_of(program):
    """What tells a program from another: its words, and the checksum of the file."""
    name = shutil.which(program[0]) or program[0]
    try:
        with open(name, "rb") as file:
            return "%s  %s" % (hashlib.sha256(file.read()).hexdigest(), " ".join(program))
    except OSError as error:
        raise programs.NoProgram("%s: %s" % (name, error.strerror)) from error


def write(name, text):
    """A whole file, or the old one."""
    fresh = "%s.%d" % (name, os.getpid())
    with open(fresh, "w", encoding="utf-8") as file:
        file.write(text)
    os.replace(fresh, name)


def row_name(out, number):
    return os.path.join(out, "rows", "%03d" % (int(number) % 1000), "%s.csv" % number)


def lost_row(run):
    return dict.fromkeys(HEAD, "") | dict(zip(("plant", "record", "script"), map(short, run[1:])), status=LOST)


def short(name):
    """How the table names a file."""
    return "none" if name == "/dev/null" else os.path.basename(name)


def badness(row):
    """What the worst have least of."""
    def number(key):
        return int(row[key] or 0)
    lost = 0 if row["status"] == LOST else 1 if row["status"] != "0" else 2
    return lost, -number("zero"), -number("held"), -number("step"), int(row["first_alarm"] or 1 << 30), row["plant"], row["record"], row["script"]


# ---- one run

def summed(output):
    """What a replay's blocks come to."""
    told = {"cycles": 0, "fresh": 0, "held": 0, "zero": 0, "first_alarm": "", "alarm": "", "alarm_cycles": 0, "step": 0, "step_thruster": "", "step_cycle": ""}
    before = None
    for block in output.blocks():
        told["cycles"] += 1
        for ballot, _, _ in block.thrusters:
            told[COUNTS[ballot]] += 1
        if block.alarms:
            told["alarm_cycles"] += 1
            if told["alarm"] == "":
                told["first_alarm"], told["alarm"] = block.cycle, block.alarms[0]
        forces = [force for _, force, _ in block.thrusters]
        for thruster, (force, last) in enumerate(zip(forces, before or [])):
            if abs(force - last) > told["step"]:
                told.update(step=abs(force - last), step_thruster=thruster, step_cycle=block.cycle)
        before = forces
    return told


def play(out, program, number, plant, record, script):
    """Plays a run, and writes its row when it is over."""
    unpack = subprocess.Popen(["gzip", "-dc", record], stdout=subprocess.PIPE) if record.endswith(".gz") else None
    words = program + ["replay", plant, "/dev/stdin" if unpack else record, script]
    with subprocess.Popen(words, stdin=unpack.stdout if unpack else subprocess.DEVNULL, stdout=subprocess.PIPE, encoding="latin-1") as run:
        if unpack:
            unpack.stdout.close()
        output = blocks.Output("output of %s" % " ".join(words), run.stdout)
        try:
            told = summed(output)
        except blocks.Refused as refusal:
            raise Refused(str(refusal)) from refusal
    if unpack and unpack.wait() not in (0, -13):
        raise Refused("%s: gzip can't unpack it" % record)
    if run.returncode < 0 or output.last is None and run.returncode == 0:
        raise Refused("run %s: the program was ended by signal %d" % (number, -run.returncode))
    row = {"plant": short(plant), "record": short(record), "script": short(script), "status": run.returncode, "last": output.last or "", **told}
    name = row_name(out, number)
    os.makedirs(os.path.dirname(name), exist_ok=True)
    write(name, ",".join(quoted(row[key]) for key in HEAD) + "\n")


def quoted(value):
    text = str(value)
    return '"%s"' % text.replace('"', '""') if any(one in text for one in ',"\n') else text


# ---- table and page

def write_table(name, rows):
    write(name, ",".join(HEAD) + "\n" + "".join(",".join(quoted(row[key]) for key in HEAD) + "\n" for row in rows))


def shown(row):
    """A line of the page's table."""
    kind = "bad" if row["status"] != "0" or row["zero"] not in ("", "0") else "held" if row["held"] not in ("", "0") else ""
    alarm = "%s in cycle %s, alarms in %s" % (row["alarm"], row["first_alarm"], row["alarm_cycles"]) if row["alarm"] else ""
    step = "%.1f kN, t%s in cycle %s" % (int(row["step"]) / 1000, row["step_thruster"], row["step_cycle"]) if row["step"] not in ("", "0") else ""
    texts = [row["plant"], row["record"], row["script"], row["status"] if row["status"] in ("0", LOST) else "%s: %s" % (row["status"], row["last"])]
    cells = ["<td class=t>%s" % html.escape(text) for text in texts] + ["<td>%s" % row[key] for key in ("cycles", "fresh", "held", "zero")]
    return "<tr class=\"%s\">%s<td class=t>%s<td class=t>%s" % (kind, "".join(cells), html.escape(alarm), step)


def write_page(name, rows, title):
    heads = "".join("<th class=t>%s" % head for head in ("plant", "record", "script", "status"))
    heads += "".join("<th>%s" % head for head in ("cycles", "fresh", "held", "zero")) + "<th class=t>first alarm, cycles with any<th class=t>largest force step"
    more = "<p>The %d runs after these are in table.csv." % (len(rows) - MOST_SHOWN) if len(rows) > MOST_SHOWN else ""
    bad = sum(row["status"] != "0" for row in rows)
    held = sum(row["status"] == "0" and (row["held"], row["zero"]) != ("0", "0") for row in rows)
    begin = "<!DOCTYPE html><html lang=en><meta charset=utf-8><meta name=viewport content=\"width=device-width\"><title>Campaign %s</title><style>%s</style>" % (html.escape(title), STYLE)
    told = "<h1>Campaign %s</h1><p>%d runs, the worst first: %d lost or refused, %d with held or zero ballots." % (html.escape(title), len(rows), bad, held)
    write(name, "%s%s%s<table><thead><tr>%s<tbody>%s</table></html>\n" % (begin, told, more, heads, "\n".join(map(shown, rows[:MOST_SHOWN]))))
