"""README.md, docs, man and crates.txt: what they name is there, and what is there is named. Whoever adds a command, a tool, an alarm or a page
without its row finds it here."""
import functools
import os
import re
import unittest

import alarms
from support import ROOT, at_root, text_of

DOCS = sorted(name for name in os.listdir(at_root("docs")) if name.endswith(".md"))
PAGES = sorted(name for name in os.listdir(ROOT) if name.endswith(".md")) + ["docs/" + name for name in DOCS]
CRATES = sorted(name for name in os.listdir(at_root("crates")) if name.startswith("dp_"))
LINK = re.compile(r"\[[^\]]*\]\(([^)\s]+)\)")
SPAN = re.compile(r"`([^`\n]+)`")
CELL = re.compile(r"(?<!\\)\|")
WIDEST = 300            # characters of a table's cell
SURVEYORS = 2100        # words of three printed pages


@functools.lru_cache(maxsize=None)
def page(name):
    return text_of(*name.split("/"))


def prose(name):
    """The page without its blocks of code."""
    return "\n".join(line for line in re.sub(r"(?ms)^```.*?^```$", "", page(name)).splitlines() if not line.startswith("    "))


def slug(heading):
    """The anchor of a heading."""
    return re.sub(r"[^\w\- ]", "", re.sub(r"\[([^\]]*)\]\([^)]*\)", r"\1", heading).strip().lower()).replace(" ", "-")


@functools.lru_cache(maxsize=None)
def anchors(name):
    return {slug(heading) for heading in re.findall(r"^#+ (.*)$", page(name), re.MULTILINE)} | set(re.findall(r'<a id="([^"]+)">', page(name)))


@functools.lru_cache(maxsize=None)
def sources(*parts):
    """All text of sources and definitions below a folder of the tree."""
    texts = []
    for folder, _, names in os.walk(at_root(*parts)):
        if os.sep + "out" not in folder:
            texts += [text_of(os.path.relpath(os.path.join(folder, name), ROOT)) for name in sorted(names) if name.endswith((".rt", ".antt"))]
    return "\n".join(texts)


@functools.lru_cache(maxsize=None)
def words_of(*parts):
    """The words of a crate's code and definitions, and of its edits."""
    found = set(re.findall(r"\w+", sources(*parts)))
    for folder, folders, names in os.walk(at_root(*parts)):
        found |= {name.split(".")[0] for name in folders + names}
    return found


@functools.lru_cache(maxsize=None)
def promised():
    """The names of clauses and of public functions of each crate."""
    return {crate: set(re.findall(r"\bensures (\w+)|\bfn (\w+)|^\s*(?:abbrev |unfoldable )?(?:pub )?(\w+) :", sources("crates", crate), re.MULTILINE)) for crate in CRATES}


def causes():
    """Why a reference isn't usable, as its alarm says it."""
    body = re.search(r"pub enum Cause \{(.*?)\n\}", text_of("crates", "dp_plant", "src", "alarms.rt"), re.DOTALL)[1]
    return [word.lower() for word in re.findall(r"^    ([A-Z]\w+),", body, re.MULTILINE) if word != "Good"]


def verbs():
    """The commands of the program, by its own table of words."""
    return re.findall(r'verb(?:\.now)? == "([a-z]+)"', text_of("crates", "dp_app", "src", "words.rt"))


def forms_of_commands():
    """The rows of the commands in FORMATS: each command and its words."""
    return re.findall(r"^\| `dp ([a-z]+)((?: [A-Z]+)*)` \|", page("docs/FORMATS.md"), re.MULTILINE)


class Short(unittest.TestCase):
    """Failures are told in a line each, and not by the page that they are of."""

    longMessage = False

    def none(self, found, what):
        found = list(found)
        self.assertFalse(found, "%s (%d): %s" % (what, len(found), "; ".join(str(one)[:90] for one in found[:12])))


class Links(Short):
    def test_links_lead_somewhere(self):
        lost = []
        for name in PAGES:
            for link in LINK.findall(prose(name)):
                if "://" in link:
                    lost.append("%s: %s leads out of the repository" % (name, link))
                    continue
                file, _, anchor = link.partition("#")
                target = os.path.normpath(os.path.join(os.path.dirname(name), file)) if file else name
                if not os.path.exists(at_root(target)):
                    lost.append("%s: %s" % (name, link))
                elif anchor and anchor not in anchors(target):
                    lost.append("%s: no heading #%s" % (name, anchor))
        self.none(lost, "links")

    def test_named_files_are_there(self):
        """A span that begins with a folder of the repository names what is there."""
        tops = "docs|plants|samples|tools|vessels|man"
        named = re.compile(r"(?:%s)/[\w./-]+" % tops)
        self.none(("%s: %s" % (name, span) for name in PAGES for text in SPAN.findall(prose(name)) for span in named.findall(text)
                   if re.match(named, text) and "NAME" not in span and not os.path.exists(at_root(span.rstrip(".")))), "files that aren't there")

    def test_readme_links_each_page(self):
        self.none((name for name in DOCS if "(docs/%s)" % name not in page("README.md")), "pages of docs without a link in README")

    def test_readme_has_each_tool(self):
        names = [name for name in os.listdir(at_root("tools")) if os.path.isfile(at_root("tools", name))]
        self.none((name for name in sorted(names) if "`tools/%s`" % name not in page("README.md")), "tools without a row in README")

    def test_readme_has_each_crate(self):
        tests = ["dp_tests_inputs", "dp_tests_control"]
        rows = re.findall(r"^\|([^|]*)\|", page("README.md"), re.MULTILINE)
        self.none((crate for crate in CRATES if crate not in tests + ["dp_test_rows"] and not any("`%s`" % crate in row for row in rows)), "crates without a row in README")
        self.none((crate for crate in CRATES if "| `%s` |" % crate not in page("docs/ARCHITECTURE.md")), "crates without a row in ARCHITECTURE")


class Clauses(Short):
    """What the pages of promises name is in the tree."""

    NAMED = ["docs/GUARANTEES.md", "docs/CLAUSES.md", "docs/GUIDELINE.md", "docs/FMEA.md"]

    def test_paths_are_in_their_crate(self):
        """`dp_core::laws::two_heard_are_fresh`, `dp_app/specs/Outcome`: each part is a word of that crate."""
        lost = []
        for name in self.NAMED + ["docs/ARCHITECTURE.md", "docs/CONTROL.md", "docs/DECISIONS.md", "README.md"]:
            for path in SPAN.findall(prose(name)):
                if re.fullmatch(r"dp_\w+(?:(?:::|/)\w+)+", path):
                    crate, *parts = re.split("::|/", path)
                    lost += ["%s: %s" % (name, path)] if crate not in CRATES or not set(parts) <= words_of("crates", crate) else []
        self.none(lost, "paths into no crate")

    def test_names_are_in_the_tree(self):
        """Each other name in code is a word of some crate, or of a crate or a tool."""
        known = words_of("crates") | set(CRATES) | set(os.listdir(at_root("samples", "failures"))) | {"main"}
        lost = []
        for name in self.NAMED:
            for span in SPAN.findall(prose(name)):
                if re.fullmatch(r"[A-Za-z]\w{2,}(?:::\w+)*", span) and not span[0].isdigit():
                    lost += ["%s: %s" % (name, span)] if not set(span.split("::")) <= known else []
        self.none(lost, "names that no crate has")

    def test_clauses_are_clauses(self):
        """In the tables of clauses the first column names clauses or functions, and no other words."""
        every = {word for crate in CRATES for words in promised()[crate] for word in words}
        lost = []
        for head, rows in re.findall(r"^\| Clause[^|]*\|[^\n]*\n\|[-|]+\n((\|[^\n]*\n)+)", page("docs/CLAUSES.md"), re.MULTILINE):
            for row in head.splitlines():
                lost += [span for span in SPAN.findall(CELL.split(row)[1]) if re.split("::", span)[-1] not in every]
        self.none(lost, "no clauses")

    def test_every_clause_of_run_is_listed(self):
        text = text_of("crates", "dp_app", "src", "program.rt")
        run = text[text.index("pub fn run<"):]
        clauses = re.findall(r"^    ensures (\w+) \{", run[:run.index("\n{\n")], re.MULTILINE)
        self.assertTrue(clauses, "run has no clauses")
        for name in ("docs/CLAUSES.md",):
            self.none((clause for clause in clauses if "`%s`" % clause not in page(name)), "clauses of run that %s lacks" % name)

    def test_every_edit_of_the_table_is_there(self):
        """The edits that the table of wrong programs names, each in the crate of its row."""
        lost = []
        for row in page("docs/CLAUSES.md").split("## Wrong programs that are refused")[1].splitlines():
            if row.startswith("| ") and not row.startswith("| Wrong"):
                crate = None
                for span in SPAN.findall(CELL.split(row)[2]):
                    crate, edit = span.split("/") if "/" in span else (crate, span)
                    lost += [span] if not os.path.isfile(at_root("crates", crate, "must-fail", edit + ".edit")) else []
        self.none(lost, "edits that aren't there")


class Map(Short):
    """The tables of ARCHITECTURE lead to files that are there."""

    def rows(self, heading):
        part = re.split(r"^## ", page("docs/ARCHITECTURE.md").split("\n## %s\n" % heading)[1], maxsplit=1, flags=re.MULTILINE)[0]
        return [CELL.split(line)[1:-1] for line in part.splitlines() if line.startswith("| ")][1:]

    def files(self, crates, folder):
        """The names of files in a folder of these crates, without their ends."""
        return {name.split(".")[0] for crate in crates if os.path.isdir(at_root("crates", crate, folder)) for name in os.listdir(at_root("crates", crate, folder))}

    def test_definitions(self):
        lost = []
        for what, where in self.rows("Where a definition stands"):
            known = self.files(re.findall(r"`(dp_\w+)", where), "specs")
            lost += [span for span in SPAN.findall(where) if re.fullmatch("[A-Z]\\w+", span) and span not in known]
        self.none(lost, "definitions that stand elsewhere")

    def test_rules(self):
        lost = []
        for line, specs, code in self.rows("From a line of the output to its rule"):
            crates = re.findall(r"dp_\w+", specs + code)
            known = self.files(crates, "specs")
            lost += [span for span in SPAN.findall(specs) if re.fullmatch("[A-Z]\\w+", span) and span not in known]
            known = self.files(crates, "src")
            lost += [span for span in SPAN.findall(code) if re.fullmatch("\\w+(\\.rt|/)", span) and re.split(r"[./]", span)[0] not in known]
        self.none(lost, "rules that stand elsewhere")

    def test_files_of_crates(self):
        lost = []
        for crates, files in self.rows("The crates"):
            if "src" not in crates and files.lstrip().startswith("`"):
                known = self.files(re.findall(r"dp_\w+", crates), "src")
                lost += ["%s: %s" % (crates.strip(), span) for span in SPAN.findall(files) if re.fullmatch("[a-z_]+", span) and span not in known]
        self.none(lost, "files that no crate has")


class Lines(Short):
    """Each line that the program can write stands in FORMATS."""

    def test_fault_lines(self):
        """The words of each fault line, by the definitions and the code that spell them."""
        told = page("docs/FORMATS.md") + page("docs/CONTROL.md")
        spelled = set()
        for crate in CRATES:
            if os.path.isdir(at_root("crates", crate, "specs")):
                spelled |= set(re.findall(r'"(fault [^"\\]*)', sources("crates", crate, "specs")))
                spelled |= set(re.findall(r'"(fault [^"\\]*)', re.sub(r"(?s)mod tests.*", "", "".join(
                    text_of("crates", crate, "src", name) for name in sorted(os.listdir(at_root("crates", crate, "src"))) if name.endswith(".rt") and name != "tests.rt"))))
        self.assertTrue(spelled, "no fault lines were found")
        self.none((line for line in sorted(spelled) if " ".join(line.split()[:3]).strip() not in told and "`%s" % line.strip() not in told), "fault lines that FORMATS lacks")

    def test_kinds_of_faulty_lines(self):
        """Each kind of fault of a script's or record's line: `fault record LINE long`, or `verb` among the kinds."""
        kinds = re.findall(r'kind_word \(?[\w.]+[^=\n]*\)? =\s*codes "([a-z]+)', text_of("crates", "dp_app", "specs", "FaultLines.antt"))
        self.assertTrue(len(kinds) >= 10, "kinds: %s" % kinds)
        self.none((kind for kind in kinds if not re.search("`%s`|LINE %s\\b" % (kind, kind), page("docs/FORMATS.md"))), "kinds that FORMATS lacks")

    def test_alarms(self):
        """The alarms of tools/lib/alarms.py are those of FORMATS, in words too, and those that the program can write."""
        rows = re.findall(r"^\| `alarm ([^`]+)` \| ([^|]*) \| ([^|]*) \|", page("docs/FORMATS.md"), re.MULTILINE)
        plain = [(form, means.replace("`", ""), look) for form, means, look in rows]
        self.none((row[0] for row in plain if row not in alarms.MEANINGS), "alarms whose words differ from tools/lib/alarms.py")
        self.none((form for form, _, _ in alarms.MEANINGS if "`alarm %s`" % form not in page("docs/FORMATS.md")), "alarms that FORMATS lacks")
        spelled = re.findall(r'codes "(?:alarm )?([a-z]+)', text_of("crates", "dp_report", "specs", "Alarms.antt"))
        written = set(spelled) - set(causes()) - {"alarm"}
        self.assertEqual(written, {form.split(" ")[0] for form, _, _ in alarms.MEANINGS}, "alarms of dp_report: %s" % sorted(written))

    def test_causes(self):
        """The verdicts on a reference, and no others, are alarms of it."""
        self.assertEqual(causes(), [form.split(" ")[2] for form, _, _ in alarms.MEANINGS if form.startswith("ref ")], "causes: %s" % causes())

    def test_tables_of_the_code(self):
        """What the first pages of dp_report and dp_script list is what FORMATS lists: each alarm, and each verb with its words."""
        listed = " ".join(re.findall(r"^//! \|([^|]*)\|", text_of("crates", "dp_report", "src", "lib.rt"), re.MULTILINE))
        self.none((form for form, _, _ in alarms.MEANINGS if form != "unknown" and "`%s" % form.split(" ")[0] not in listed), "alarms that dp_report's page lacks")
        rows = re.compile(r"^(?://! )?\| `(7 [^`]*)` \|", re.MULTILINE)
        here, there = (rows.findall(text) for text in (page("docs/FORMATS.md"), text_of("crates", "dp_script", "src", "lib.rt")))
        self.assertEqual(here, there, "lines of a script: %s" % sorted(set(here) ^ set(there)))

    def test_verbs_of_the_script(self):
        shown = set(re.findall(r"^\| `7 ([a-z]+)", page("docs/FORMATS.md"), re.MULTILINE))
        self.none((verb for verb in shown if ".Cm %s" % verb not in page("man/dp.1")), "verbs that the manual page lacks")


class Commands(Short):
    """Each command of the program is in FORMATS, README and the manual page."""

    def test_commands_have_rows(self):
        rows = dict(forms_of_commands())
        self.assertTrue(verbs(), "no commands were found in words.rt")
        self.none((verb for verb in verbs() if verb not in rows), "commands without a row in FORMATS")
        self.none((verb for verb in rows if verb not in verbs()), "rows of commands that the program hasn't")

    def test_readme_and_manual_have_them(self):
        for verb, words in forms_of_commands():
            self.assertIn("| `dp %s%s` |" % (verb, words), page("README.md"), "README lacks a row of dp %s%s" % (verb, words))
            item = ".It Cm %s%s" % (verb, " Ar" + words.lower() if words else "")
            self.assertTrue(item + "\n" in page("man/dp.1"), "the manual page lacks " + item)
            use = ".Cm %s\n" % verb + (".Ar%s\n" % words.lower() if words else "")
            self.assertTrue(use in page("man/dp.1"), "the manual page's synopsis lacks %s" % verb)


class Forms(Short):
    def test_cells_are_narrow(self):
        """No cell of a table is longer than can be read in a look."""
        lost = []
        for name in ("docs/GUARANTEES.md", "docs/CLAUSES.md"):
            for line in page(name).splitlines():
                if line.startswith("|"):
                    lost += ["%s: %s.." % (name, cell.strip()[:40]) for cell in CELL.split(line) if len(cell.strip()) > WIDEST]
        self.none(lost, "cells of more than %d characters" % WIDEST)

    def test_tables_are_whole(self):
        """Each row of a table has as many cells as its head."""
        lost = []
        for name in PAGES:
            width = None
            for line in prose(name).splitlines():
                cells = len(CELL.split(line)) if line.startswith("|") else None
                lost += ["%s: %s.." % (name, line[:40])] if cells and width and cells != width else []
                width = (width or cells) if cells else None
        self.none(lost, "rows with another number of cells")

    def test_the_surveyors_page_is_short(self):
        words = len(page("docs/GUARANTEES.md").split())
        self.assertTrue(words <= SURVEYORS, "GUARANTEES.md has %d words, more than %d: move what is a list to CLAUSES.md" % (words, SURVEYORS))

    def test_words_are_defined_where_they_first_stand(self):
        """On the surveyor's page."""
        text = page("docs/GUARANTEES.md")
        for word in ("shelf", "sink", "outcome", "reference run", "frame", "fresh"):
            self.assertTrue("**%s**" % word in text, "GUARANTEES.md doesn't define %s" % word)
        body = text[text.index("## What the program answers"):]
        for word in ("shelf", "sink", "outcome"):
            self.assertTrue(body.index(word) > body.index("**%s**" % word) or word not in text[:text.index("**%s**" % word)], "%s stands before its definition" % word)

    def test_pages_stand_alone(self):
        """Nothing is cited by a number that only its writers know, and no machine is named."""
        bad = re.compile(r"\bissue #?\d|\brequest #?\d|\bR\d{1,2}\b(?!\w)|\btheorem \d|\bpaper \d|/work/|/home/|https?://", re.IGNORECASE)
        lost = ["%s: %s" % (name, match[0]) for name in PAGES + ["man/" + one for one in sorted(os.listdir(at_root("man")))]
                for match in bad.finditer(prose(name) if name.endswith(".md") else page(name))]
        self.none(lost, "citations by number, and paths")

    def test_dependencies_stand_once(self):
        """Which crates a crate stands on is in crates.txt: no table of a page has a column of it."""
        lost = []
        for name in PAGES:
            for line in prose(name).splitlines():
                if line.startswith("| `dp_"):
                    first, *rest = CELL.split(line)[1:-1]
                    lost += ["%s: %s" % (name, first.strip()) for cell in rest if len(re.findall(r"dp_\w+", cell)) > 2
                             and re.fullmatch(r"[\s`,\w]+", cell)]
        self.none(lost, "columns of dependencies")

    def test_crates_are_listed(self):
        """crates.txt has a line for each crate, and each stands on crates that come before it."""
        lines = [line.partition(":") for line in text_of("crates.txt").splitlines() if ":" in line and not line.startswith("#")]
        self.assertEqual(CRATES, sorted(name for name, _, _ in lines), "crates.txt and the folder of crates differ")
        self.none(("%s: %s" % (name, other) for name, _, others in lines for other in others.split() if other.startswith("dp_") and other not in CRATES), "dependencies that aren't there")


if __name__ == "__main__":
    unittest.main()
