"""install, the manual page, the samples, and the way from a log to a page that the README shows."""
import filecmp
import os
import re
import shutil
import subprocess

import placing
from support import ToolTest, at_root, program, text_of


class Install(ToolTest):
    def test_install(self):
        stand_in = self.file("program", "#!/bin/sh\necho here\n")
        for _ in range(2):      # over what is there, too
            self.tool("install", "--program", stand_in, "place")
        place = os.path.join(self.folder, "place")
        self.assertEqual("here\n", subprocess.run([os.path.join(place, "bin", "dp")], capture_output=True, check=True).stdout.decode())
        for tool in placing.TOOLS:
            subprocess.run([os.path.join(place, "bin", "dp-" + tool), "--help"], capture_output=True, check=True)
        explained = subprocess.run([os.path.join(place, "bin", "dp-explain"), "plant"], capture_output=True, check=True).stdout.decode()
        self.assertEqual("no fault: the program ends with `here`\n", explained)      # it finds the program beside it
        for file in ("share/man/man1/dp.1", "share/man/man1/dp-explain.1", "share/bash-completion/completions/dp", "share/dp/VERSION", "share/dp/SECURITY.md", "share/dp/vessels/osv90.toml", "share/dp/plants/S1.toml", "share/dp/samples/log/pos0.log", "share/dp/docs/FORMATS.md"):
            self.assertTrue(os.path.isfile(os.path.join(place, file)), file)

    def test_refusals(self):
        self.assertIn("gone isn't there", self.tool("install", "--program", "gone", "place", status=1)[1])
        self.file("place", "a file")
        self.assertIn("place", self.tool("install", "--program", "place", "place", status=1)[1])
        self.tool("install", status=2)


class Manual(ToolTest):
    def test_status_codes(self):
        """The page has the status codes of the README, in the same words."""
        table = re.findall(r"^\| (\d+) \|([^|]*)\| [^|]* \|$", text_of("README.md"), re.MULTILINE)
        page = text_of("man", "dp.1")
        self.assertEqual([str(status) for status in range(11) if status != 1], [status for status, _ in table])
        for status, line in table:
            self.assertIn("\n.It %s\n" % status, page)
            if line.strip() and status != "0":
                self.assertIn(".Ql %s :" % line.strip(" `"), page)

    def test_layout(self):
        if not shutil.which("groff"):
            self.skipTest("it wants groff")
        for page in sorted(os.listdir(at_root("man"))):
            done = subprocess.run(["groff", "-mdoc", "-ww", "-Tascii", "-z", at_root("man", page)], capture_output=True, check=True)
            self.assertEqual(b"", done.stderr, page)


class Samples(ToolTest):
    def test_samples_are_what_is_written(self):
        self.tool("samples.py", "made")
        for top, _, names in os.walk(os.path.join(self.folder, "made")):
            for name in names:
                made = os.path.join(top, name)
                self.assertTrue(filecmp.cmp(made, at_root("samples", os.path.relpath(made, os.path.join(self.folder, "made"))), False), made)


class Readme(ToolTest):
    def test_from_a_log_to_a_page(self):
        """The commands of the README, with the program that is given."""
        commands = re.search(r"\n((?:    .*\n)*    tools/log2record .*\n(?:    .*\n)*)", text_of("README.md"))[1]
        commands = commands.replace("/tmp/", self.folder + "/").replace("crates/dp_app/out/dp_app", " ".join(program()))
        subprocess.run(["sh", "-ec", commands], cwd=at_root(), capture_output=True, check=True)
        self.assertIn("end 300", self.content("page.html"))
