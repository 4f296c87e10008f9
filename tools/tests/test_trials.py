"""trials: the form has each failure of the document, with what is done, what is expected, and room for what was seen."""
import html.parser
import os

import failures
from support import ToolTest, at_root, text_of


class Tags(html.parser.HTMLParser):
    """Whether a page's tags are closed in order; and its cells."""

    OPEN = {"meta"}

    def __init__(self):
        super().__init__()
        self.open, self.wrong, self.count = [], [], {}

    def handle_starttag(self, tag, attrs):
        self.count[tag] = self.count.get(tag, 0) + 1
        if tag not in self.OPEN:
            self.open.append(tag)

    def handle_endtag(self, tag):
        if not self.open or self.open.pop() != tag:
            self.wrong.append(tag)


class Trials(ToolTest):
    def test_each_failure_has_a_sheet(self):
        page, _ = self.tool("trials")
        found = failures.read(text_of("docs", "FMEA.md"))
        names = sorted(name for name in os.listdir(at_root("samples", "failures")) if name != "none")
        self.assertEqual(names, sorted(one.name for one in found if one.name))
        self.assertGreater(len(found), len(names))      # those without a sample too
        tags = Tags()
        tags.feed(page)
        self.assertEqual(([], []), (tags.open, tags.wrong))
        self.assertEqual(len(found) + 1, tags.count["table"])
        for one in found:
            for part in (one.title, one.done, one.seen, one.detected, one.hidden, one.promised):
                self.assertTrue(part, one.title)
            if one.name:
                self.assertIn("<code>%s</code>" % one.name, page)
                self.assertTrue(one.lines, one.name)
        for room in ("What is done", "What is expected", "What was seen", "Signed, date"):
            self.assertEqual(len(found), page.count(room))

    def test_another_document(self):
        self.file("own.md", "# Own\n\n## At a glance\n\n| Failure | Detected by | Hidden | Common cause | Promised |\n|---|---|---|---|---|\n| [A](#a) (`one`) | `alarm wind` | no | ice | bound |\n\n"
                  "## Wind\n\n### A <wind> fails (`one`)\n\nIt is [cut](x.md) off.\n\n    cycle 1 LLL\n\n- **Crew sees**: `alarm wind`.\n- **Forces**: off by 0 N.\n- **Covered by**: x.\n\n"
                  "## Failures that the record can't show\n\n| F | W | D | H | C |\n|---|---|---|---|---|\n| a & b | goes | nothing | yes | |\n")
        page, _ = self.tool("trials", "--plant", "osv <90>", "own.md")
        for part in ("A &lt;wind&gt; fails", "It is cut off.", "a &amp; b", "osv &lt;90&gt;", "Common cause to look at: ice.", "Promised: each force is off"):
            self.assertIn(part, page)

    def test_refusals(self):
        self.assertIn("gone", self.tool("trials", "gone", status=1)[1])
        self.file("no.md", "# No\n")
        self.assertIn("no.md is no document of failures", self.tool("trials", "no.md", status=1)[1])
        self.tool("trials", "--fly", status=2)
