"""The failures of docs/FMEA.md: each entry with its row of the table, and the failures that a record can't show."""
import html
import re
from collections import namedtuple

# An entry: its heading, the sample's name ("" where there is none), what is done, the lines of the output that are quoted, what the crew
# sees, and from the table what detects it, whether it can stay hidden, its common cause, and what is promised, in a word.
Failure = namedtuple("Failure", "part title name done lines seen detected hidden cause promised")

ENTRY = re.compile(r"^### ([^\n]*) \(`([a-z_]+)`\)\n(.*?)(?=^##|\Z)", re.MULTILINE | re.DOTALL)
SEEN = re.compile(r"^- \*\*Crew sees\*\*: (.*?)(?=^- )", re.MULTILINE | re.DOTALL)
CELL = re.compile(r"(?<!\\)\|")


def cells_of(line):
    """The cells of a table's row."""
    return [cell.strip() for cell in CELL.split(line)[1:-1]]


def table(text, heading):
    """The rows of the first table after a heading, without its head."""
    lines = text[text.index("\n## %s\n" % heading):].splitlines()[2:]
    rows = []
    for line in lines:
        if line.startswith("|"):
            rows.append(cells_of(line))
        elif rows:
            break
    return rows[2:]


def part_of(text, at):
    """The heading of the part that a place of the text stands in."""
    return re.findall(r"^## ([^\n]*)$", text[:at], re.MULTILINE)[-1]


def read(text):
    """All failures of the document, those that leave no trace in a record last."""
    rows = {re.search("`([a-z_]+)`", row[0])[1]: row[1:] for row in table(text, "At a glance")}
    found = []
    for entry in ENTRY.finditer(text):
        title, name, body = entry.groups()
        if name in rows:
            done = body.split("\n    ", 1)[0].split("\n\n- **", 1)[0]
            found.append(Failure(part_of(text, entry.start()), title, name, " ".join(done.split()), re.findall("^    (.*)$", body, re.MULTILINE),
                                 " ".join(SEEN.search(body)[1].split()), *rows[name]))
    last = "Failures that the record can't show"
    for title, done, detected, hidden, cause in table(text, last):
        found.append(Failure(last, title, "", done, [], detected, detected, hidden, cause, "no"))
    return found


def html_of(text):
    """A line of the document as HTML: code and bold stay, of a link its words."""
    shown = html.escape(re.sub(r"\[([^]]*)\]\([^)]*\)", r"\1", text.replace("\\|", "|")), quote=False)
    return re.sub(r"\*\*([^*]+)\*\*", r"<b>\1</b>", re.sub("`([^`]+)`", r"<code>\1</code>", shown))
