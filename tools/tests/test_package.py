"""package and install: the same bytes each time, installed and removed, and what belongs to a version."""
import os
import re
import shutil
import subprocess
import unittest

import faultlines
import placing
from support import ROOT, ToolTest, at_root, text_of


def wants(name):
    if not shutil.which(name):
        raise unittest.SkipTest("it wants %s" % name)


def is_built(name):
    """Whether a name is a program's file."""
    if not os.path.isfile(name):
        return False
    with open(name, "rb") as file:
        return file.read(4) == b"\x7fELF"


class Packages(ToolTest):
    def setUp(self):
        super().setUp()
        wants("dpkg-deb")
        self.program = self.file("program", "#!/bin/sh\necho here\n")

    def package(self, folder, status=0, **env):
        done = subprocess.run([at_root("tools", "package"), "--program", self.program, folder], cwd=self.folder, capture_output=True, check=False, env={**os.environ, **env})
        self.assertEqual(status, done.returncode, done.stderr.decode())
        return done.stdout.decode()

    def made(self, folder):
        return sorted(os.listdir(os.path.join(self.folder, folder)))

    def test_the_same_twice(self):
        before = os.umask(0o077)
        try:
            one = self.package("one", TZ="Asia/Tokyo")
        finally:
            os.umask(before)
        two = self.package("two", TZ="UTC", LC_ALL="C")
        self.assertEqual(one.replace("one/", "two/"), two)
        version = text_of("VERSION").strip()
        self.assertEqual(["dp-%s-all.tar.gz" % version, "dp_%s_all.deb" % version], self.made("one"))
        for name in self.made("one"):
            with open(os.path.join(self.folder, "one", name), "rb") as first, open(os.path.join(self.folder, "two", name), "rb") as second:
                self.assertEqual(first.read(), second.read())
        self.assertNotEqual(two, self.package("three", SOURCE_DATE_EPOCH="1").replace("three/", "two/"))

    def test_tarball(self):
        self.package("one")
        name = next(name for name in self.made("one") if name.endswith(".tar.gz"))
        subprocess.run(["tar", "xzf", os.path.join("one", name)], cwd=self.folder, check=True)
        top = os.path.join(self.folder, "dp-" + text_of("VERSION").strip())
        self.assertEqual(b"here\n", subprocess.run([os.path.join(top, "bin", "dp")], capture_output=True, check=True).stdout)
        for tool in placing.TOOLS:
            subprocess.run([os.path.join(top, "bin", "dp-" + tool), "--help"], capture_output=True, check=True)
        with open(os.path.join(top, "share", "dp", "VERSION"), encoding="utf-8") as file:
            self.assertEqual("dp %s\n%s  bin/dp\n" % (text_of("VERSION").strip(), placing.checksum(os.path.join(top, "bin", "dp"))), file.read())

    def test_installed_and_removed(self):
        if os.geteuid() or not shutil.which("dpkg"):
            self.skipTest("it wants dpkg, as root")
        self.package("one")
        root = os.path.join(self.folder, "root")
        for folder in ("var/lib/dpkg/info", "var/lib/dpkg/updates", "var/log"):
            os.makedirs(os.path.join(root, folder))
        open(os.path.join(root, "var/lib/dpkg/status"), "w", encoding="utf-8").close()
        deb = os.path.join(self.folder, "one", next(name for name in self.made("one") if name.endswith(".deb")))
        words = ["dpkg", "--root=" + root, "--force-depends", "--log=" + os.path.join(self.folder, "log")]
        subprocess.run(words + ["-i", deb], capture_output=True, check=True)
        self.assertEqual(b"here\n", subprocess.run([os.path.join(root, "usr", "bin", "dp")], capture_output=True, check=True).stdout)
        self.assertIn(b"wanted are", subprocess.run([os.path.join(root, "usr", "bin", "dp-look")], capture_output=True, check=False).stderr)
        for name in ("man/man1/dp.1.gz", "man/man1/dp-look.1.gz", "bash-completion/completions/dp", "doc/dp/changelog.gz", "doc/dp/copyright", "dp/samples/station.txt", "dp/docs/FORMATS.md"):
            self.assertTrue(os.path.isfile(os.path.join(root, "usr", "share", name)), name)
        subprocess.run(words + ["--verify", "dp"], capture_output=True, check=True)
        subprocess.run(words + ["--purge", "dp"], capture_output=True, check=True)
        self.assertFalse(os.path.exists(os.path.join(root, "usr")))

    def test_lintian(self):
        """No error and no warning with a stand-in; no error with the program, where one file is given as it."""
        wants("lintian")
        given = os.environ.get("DP_PROGRAM", "")
        for program, fatal in [(self.program, "error,warning")] + ([(os.path.abspath(given), "error")] if is_built(given) else []):
            self.program = program
            shutil.rmtree(os.path.join(self.folder, "one"), ignore_errors=True)
            self.package("one")
            deb = next(name for name in self.made("one") if name.endswith(".deb"))
            done = subprocess.run(["lintian", "--allow-root", "--fail-on", fatal, os.path.join("one", deb)], cwd=self.folder, capture_output=True, check=False)
            self.assertEqual(0, done.returncode, done.stdout.decode())

    def test_refusals(self):
        self.assertIn("gone isn't there", self.tool("package", "--program", "gone", status=1)[1])
        self.tool("package", "--what", status=2)
        self.assertIn("SOURCE_DATE_EPOCH", self.tool("package", "--help")[0])


class Versions(ToolTest):
    def test_one_version(self):
        version = text_of("VERSION").strip()
        self.assertRegex(version, r"^[0-9]+\.[0-9]+\.[0-9]+$")
        self.assertEqual(version, re.search(r"^## ([0-9.]+),", text_of("CHANGELOG.md"), re.MULTILINE)[1])
        self.assertIn("\nThis page is of version %s.\n" % version, text_of("man", "dp.1"))
        self.assertEqual("dp %s\n" % version, self.tool("install", "--version")[0])

    def test_install_says_the_checksum(self):
        program = self.file("program", "#!/bin/sh\n")
        told, _ = self.tool("install", "--program", program, "place")
        self.assertIn("dp %s, SHA-256 of the program %s\n" % (text_of("VERSION").strip(), placing.checksum(os.path.join(self.folder, program))), told)

    def test_documents_for_those_who_change_it(self):
        for name in ("CONTRIBUTING.md", "SECURITY.md"):
            self.assertGreater(len(text_of(name)), 1000)
        self.assertFalse([name for name in os.listdir(ROOT) if name.upper().startswith(("LICENSE", "LICENCE", "COPYING"))], "the README says that there is none")


class Completion(unittest.TestCase):
    def completed(self, *words):
        wants("bash")
        text = "source %s; COMP_WORDS=(%s); COMP_CWORD=%d; _dp; printf '%%s\\n' \"${COMPREPLY[@]}\"" % (
            at_root("tools", "completion.bash"), " ".join("'%s'" % word for word in words), len(words) - 1)
        done = subprocess.run(["bash", "-c", text], cwd=ROOT, capture_output=True, check=True)
        self.assertEqual(b"", done.stderr)
        return done.stdout.decode().split()

    def test_commands_and_files(self):
        self.assertEqual(sorted(faultlines.EVERY), sorted(self.completed("dp", "")))
        self.assertEqual(["check"], sorted(self.completed("dp", "c")))
        self.assertIn("plants/S1.toml", self.completed("dp", "check", "plants/"))
        self.assertIn("samples/faults.script", self.completed("dp", "replay", "plants/S1.toml", "samples/station.txt", "samples/"))
        self.assertNotIn("samples/station.txt", self.completed("dp", "replay", "plants/S1.toml", "samples/station.txt", "samples/"))
        self.assertIn("samples/station.txt", self.completed("dp", "drift", "plants/S1.toml", "samples/"))
        self.assertEqual([], self.completed("dp", "make", ""))
