"""Where each key of a TOML document stands: its line, for a document that a TOML reader takes."""
import re

BARE = re.compile(r"[^\s,\]}#]+(?: [0-9:.Z+-]+)?")
NAME = re.compile(r"[A-Za-z0-9_-]+")
STRINGS = [('"""', re.compile(r'(?:\\.|[^\\])*?"{3,5}(?!")', re.DOTALL)), ("'''", re.compile(r".*?'{3,5}(?!')", re.DOTALL)),
           ('"', re.compile(r'(?:\\.|[^"\\\n])*"')), ("'", re.compile(r"[^'\n]*'"))]


class Places:
    """`lines` has the line of each key, counted from 1. Keys are paths as a fault line has them: tables of an array, and entries of an array,
    are numbered from 0, as in thruster.0.max and case.1.b.4. Text that is no TOML ends the reading where it stands."""

    def __init__(self, text):
        self.text, self.at, self.lines, self.counts = text, 0, {}, {}
        self.breaks = [found.start() for found in re.finditer("\n", text)]
        self.table = ""
        try:
            while self.skipped():
                self.header() if self.text[self.at] == "[" else self.pair(self.table)
        except (IndexError, AttributeError, TypeError, RecursionError):
            pass

    def line(self, path):
        """The line of a key, or of what it stands in; None where neither is there."""
        while path:
            if path in self.lines:
                return self.lines[path]
            path = path.rpartition(".")[0]
        return None

    def shown(self, path):
        """The line of a key with its text, for a reader."""
        number = self.line(path)
        if number is None:
            return None
        return number, self.text.split("\n")[number - 1].strip()

    # ---- reading

    def here(self):
        low, high = 0, len(self.breaks)
        while low < high:
            middle = (low + high) // 2
            low, high = (middle + 1, high) if self.breaks[middle] < self.at else (low, middle)
        return low + 1

    def skipped(self):
        """Past spaces, line ends and comments; whether something follows."""
        self.at = re.compile(r"(?:\s|#[^\n]*)*").match(self.text, self.at).end()
        return self.at < len(self.text)

    def names(self):
        """A key of one part or more, and what stands behind it."""
        parts = []
        while True:
            self.skipped()
            if self.text[self.at] in "\"'":
                quoted = STRINGS[2 if self.text[self.at] == '"' else 3][1].match(self.text, self.at + 1)
                parts.append(quoted[0][:-1])
            else:
                quoted = NAME.match(self.text, self.at)
                parts.append(quoted[0])
            self.at = quoted.end()
            self.skipped()
            if self.text[self.at] != ".":
                return parts
            self.at += 1

    def header(self):
        """[a.b] or [[a.b]]."""
        line, is_array = self.here(), self.text.startswith("[[", self.at)
        self.at += 2 if is_array else 1
        path, parts = "", self.names()
        for number, part in enumerate(parts):
            path = part if not path else path + "." + part
            if is_array and number == len(parts) - 1:
                self.counts[path] = self.counts.get(path, 0) + 1
                self.lines.setdefault(path, line)
            if path in self.counts:
                path += ".%d" % (self.counts[path] - 1)
            self.lines.setdefault(path, line)
        self.table = path
        self.at += 2 if is_array else 1

    def pair(self, table):
        """name = value."""
        line, path = self.here(), table
        for part in self.names():
            path = part if not path else path + "." + part
            self.lines.setdefault(path, line)
        self.at += 1
        self.value(path)

    def value(self, path):
        self.skipped()
        self.lines.setdefault(path, self.here())
        letter = self.text[self.at]
        if letter == "[":
            self.parts(path, "]")
        elif letter == "{":
            self.parts(path, "}")
        else:
            for quote, rest in STRINGS:
                if self.text.startswith(quote, self.at):
                    self.at = rest.match(self.text, self.at + len(quote)).end()
                    return
            self.at = BARE.match(self.text, self.at).end()

    def parts(self, path, end):
        """The entries of an array, or the pairs of a table that stands in a line."""
        self.at += 1
        count = 0
        while self.skipped() and self.text[self.at] != end:
            if end == "]":
                self.value("%s.%d" % (path, count))
            else:
                self.pair(path)
            count += 1
            self.skipped()
            if self.text[self.at] == ",":
                self.at += 1
        self.at += 1
