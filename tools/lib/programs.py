"""Where the built program is, and what it answers."""
import os
import shlex
import shutil
import subprocess

TOP = os.path.dirname(os.path.dirname(os.path.dirname(os.path.realpath(__file__))))
BUILT = os.path.join(TOP, "crates", "dp_app", "out", "dp_app")


class NoProgram(Exception):
    """There is no program, or it can't be run."""


def words_of(said):
    """The words that stand for `dp`: what is said, else what `rt ci` built, else what was installed beside these tools, else the `dp` on the path."""
    if said:
        return shlex.split(said)
    for place in (BUILT, os.path.join(os.path.dirname(os.path.dirname(TOP)), "bin", "dp")):
        if os.path.isfile(place):
            return [place]
    if shutil.which("dp"):
        return ["dp"]
    raise NoProgram("%s isn't there: `rt ci` proves and builds it, or --program names another" % BUILT)


def started(words, **how):
    try:
        return subprocess.Popen(words, stdin=subprocess.DEVNULL, stdout=subprocess.PIPE, **how)
    except OSError as error:
        raise NoProgram("%s: %s" % (words[0], error.strerror)) from error


def last_line(words):
    """The exit status of a run and the last line that it prints, whatever comes before."""
    with started(words) as run:
        last = b""
        for line in run.stdout:
            last = line
    return run.returncode, last.decode("latin-1").rstrip("\n")
