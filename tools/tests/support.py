"""What the tests share: the tools as a user calls them, a folder of one's own, the program and the browser if there are any."""
import os
import shlex
import shutil
import subprocess
import tempfile
import unittest

ROOT = os.path.dirname(os.path.dirname(os.path.dirname(os.path.realpath(__file__))))
BROWSERS = ["chromium", "chromium-browser", "google-chrome", "google-chrome-stable"]


def at_root(*parts):
    return os.path.join(ROOT, *parts)


def text_of(*parts):
    with open(at_root(*parts), encoding="utf-8") as file:
        return file.read()


def program():
    """The words that stand for `dp`, or a skipped test."""
    if "DP_PROGRAM" not in os.environ:
        raise unittest.SkipTest("it wants the program: --program COMMAND")
    return shlex.split(os.environ["DP_PROGRAM"])


def browser():
    """A browser, or a skipped test."""
    for name in [os.environ["DP_BROWSER"]] if "DP_BROWSER" in os.environ else BROWSERS:
        if shutil.which(name):
            return name
    raise unittest.SkipTest("it wants a browser: --browser FILE")


class ToolTest(unittest.TestCase):
    """A test with a folder of its own, which the tools run in."""

    def setUp(self):
        folder = tempfile.TemporaryDirectory()
        self.addCleanup(folder.cleanup)
        self.folder = folder.name

    def file(self, name, content):
        """Writes a file; gives its name."""
        with open(os.path.join(self.folder, name), "wb") as file:
            file.write(content if isinstance(content, bytes) else content.encode())
        return name

    def content(self, name):
        with open(os.path.join(self.folder, name), encoding="utf-8") as file:
            return file.read()

    def tool(self, *words, status=0):
        """Runs a tool; gives what it writes to output and to the error channel."""
        done = subprocess.run([at_root("tools", words[0]), *words[1:]], cwd=self.folder, capture_output=True, check=False)
        self.assertEqual(status, done.returncode, done.stderr.decode())
        return done.stdout.decode("latin-1"), done.stderr.decode()
