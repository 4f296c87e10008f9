"""The manual pages of the tools: each tool has one that says each option, in what mandoc takes without a word."""
import os
import shutil
import subprocess
import unittest

import manpages
import placing
from support import at_root, text_of

NOT_THERE = "referenced manual not found"      # the pages refer to each other, and aren't installed while they are judged


class Pages(unittest.TestCase):
    def test_each_tool_has_one(self):
        self.assertIn("look", manpages.tools())
        for tool in manpages.tools():
            self.assertTrue(os.path.isfile(at_root("man", "dp-%s.1" % tool)), tool)
        for page in os.listdir(at_root("man")):
            self.assertIn(page.removeprefix("dp-").removesuffix(".1"), [*manpages.tools(), "dp"])

    def test_pages_say_what_the_tools_say(self):
        """A made page is made anew by `python3 tools/lib/manpages.py`; one that was written by hand has each option."""
        for tool in manpages.tools():
            with self.subTest(tool):
                text = text_of("man", "dp-%s.1" % tool)
                if text.startswith(manpages.MARK % tool):
                    self.assertEqual(manpages.page(tool), text)
                for names, _ in manpages.help_of(tool)[1]:
                    name = names.split(", ")[-1].split(" ")[0].lstrip("-")
                    self.assertRegex(text, r"Fl \\?-%s\b" % name)

    def test_installed_tools_are_named_as_installed(self):
        for tool in placing.TOOLS:
            self.assertNotIn("tools/%s " % tool, text_of("man", "dp-%s.1" % tool).removeprefix(manpages.MARK % tool))

    def test_layout(self):
        if not shutil.which("mandoc"):
            self.skipTest("it wants mandoc")
        for page in sorted(os.listdir(at_root("man"))):
            done = subprocess.run(["mandoc", "-T", "lint", at_root("man", page)], capture_output=True, check=False)
            self.assertEqual([], [line for line in done.stdout.decode().splitlines() if NOT_THERE not in line], page)
