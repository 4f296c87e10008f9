"""The runs that faults.py makes: the program that it tries, with files for it and faults that are ordered of its calls, and the count of what came."""
import collections
import fcntl
import os
import resource
import subprocess
import tempfile

HERE = os.path.dirname(os.path.abspath(__file__))
TOP = os.path.dirname(HERE)
PAGE = 4096
# The most that a run may take, in seconds: a busy machine is no fault.
LIMIT = 1800


class Off(Exception):
    """A run was not as it should be."""


class Run:
    """What a run came to: its status, what it wrote, and, where it was watched, whether main began and with how much of a stack, and its calls."""

    def __init__(self, status, out, told=None):
        lines = (told or b"").split(b"\n")
        self.status, self.out = status, out
        self.began, self.grew = b"start" in lines, b"grown" in lines
        self.is_not_begun = status in (126, 127) or told is not None and not self.began
        counts = [line for line in lines if line[:1].isdigit()]
        self.calls = dict(zip(["memory", "reads", "writes", "opens"], map(int, counts[0].split()))) if counts else {}


class Bench:
    """The program, a folder with files for it, and what was tried."""

    def __init__(self, program, folder):
        self.program, self.folder = program, folder
        self.faults = os.path.join(folder, "faults.so")
        self.counts, self.offs, self.notes = collections.Counter(), [], []
        self.rights = {}
        os.chmod(folder, 0o755)
        compiler = os.environ.get("CC", "cc")
        subprocess.run([compiler, "-O1", "-shared", "-fPIC", "-o", self.faults, os.path.join(HERE, "faults.c")], check=True)
        self.s1, self.s2 = os.path.join(TOP, "plants/S1.toml"), os.path.join(TOP, "plants/S2.toml")
        self.three, self.station, self.acts = (
            os.path.join(TOP, "samples", name) for name in ["three_cycles.txt", "station.txt", "faults.script"])
        self.empty = self.file("empty.script", b"")
        self.made = self.file("made.txt", self.start(["make", "0"]).communicate()[0])
        self.rows = {
            "replay of three cycles": ["replay", self.s1, self.three, self.empty],
            "replay of the sample": ["replay", self.s1, self.station, self.acts],
            "check": ["check", self.s1],
            "check with a wave filter": ["check", self.s2],
            "trial": ["trial", self.s1, "0"],
        }

    def file(self, name, text):
        path = os.path.join(self.folder, name)
        with open(path, "wb") as file:
            file.write(text)
        return path

    # ---- running

    def start(self, words, faults=None, before=None, **how):
        """Starts the program, with these faults ordered of its calls and these limits set before it begins."""
        env = {"FAULTS_" + name: str(value) for name, value in (faults or {}).items()}
        if faults is not None:
            env["LD_PRELOAD"] = self.faults
        how = {"stdin": subprocess.DEVNULL, "stdout": subprocess.PIPE, "stderr": subprocess.DEVNULL, **how}
        return subprocess.Popen([self.program] + words, env=env, preexec_fn=before, **how)

    def start_narrow(self, words, faults=None, **how):
        """Starts the program with an output that holds a page until it is read: it has to wait in the midst of a long text."""
        reader, writer = os.pipe()
        fcntl.fcntl(writer, fcntl.F_SETPIPE_SZ, PAGE)
        process = self.start(words, faults, stdout=writer, **how)
        os.close(writer)
        process.stdout = os.fdopen(reader, "rb")
        return process

    def run(self, words, faults=None, before=None, **how):
        """A run to its end."""
        told = None
        if faults is not None:
            told = tempfile.TemporaryFile(dir=self.folder)
            faults = {"TELL": told.fileno(), **faults}
            how["pass_fds"] = (*how.get("pass_fds", ()), told.fileno())
        try:
            process = self.start(words, faults, before, **how)
        except OSError:
            return Run(126, b"")
        try:
            out = process.communicate(timeout=LIMIT)[0]
        except subprocess.TimeoutExpired:
            process.kill()
            process.communicate()
            raise Off("no end within %d seconds: %s" % (LIMIT, shown(words)))
        if told is None:
            return Run(process.returncode, out)
        with told:
            told.seek(0)
            return Run(process.returncode, out, told.read())

    def stack(self, words):
        """The stack that the program needs, in bytes: up to 24 KiB too much, since where a stack begins is random."""
        low, high = 0, 8 * 2 ** 20
        while high - low > 2 * PAGE:
            middle = (low + high) // 2 // PAGE * PAGE
            if self.run(words, None, bound(resource.RLIMIT_STACK, middle)).status == 0:
                high = middle
            else:
                low = middle
        return high + 4 * PAGE

    def right(self, words, texts=()):
        """The status and text of a run without faults, over files with these texts behind the words."""
        key = (tuple(words), tuple(texts))
        if key in self.rights:
            return self.rights[key]
        names = [self.file("right%d" % at, text) for at, text in enumerate(texts)]
        run = self.run(words + names)
        if sum(map(len, texts)) < 10000:
            self.rights[key] = run.status, run.out
        return run.status, run.out

    def right_of_record(self, text, script=b""):
        return self.right(["replay", self.s1], [text, script])

    # ---- judging

    def count(self, run, is_good, what):
        self.counts["not begun" if run.is_not_begun else run.status] += 1
        if not is_good:
            self.offs.append("%s: status %d, %d bytes, at the end %r" % (what, run.status, len(run.out or b""), (run.out or b"")[-60:]))

    def must(self, run, status, text, what):
        self.count(run, run.status == status and run.out == text, what)


def shown(words):
    return " ".join(os.path.basename(word) for word in words)


def bound(limit, value):
    return lambda: resource.setrlimit(limit, (value, value))


def begins(text, whole):
    return whole[: len(text)] == text
