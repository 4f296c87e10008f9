"""The manual pages of the tools, made of what each says with --help.

    python3 tools/lib/manpages.py [NAME..]

Writes man/dp-NAME.1 for these tools, or for each whose page was made so. A page that was written by hand is left alone: it doesn't begin with the mark.
"""
import os
import re
import subprocess
import sys
import textwrap
import time

import packing
import placing

WIDTH = 76
MARK = '.\\" Made of what tools/%s says with --help, by tools/lib/manpages.py.\n'
HERE_ONLY = ("install", "package", "test")      # tools of the repository, which aren't installed
SEE = {"look": "blocks2csv", "blocks2csv": "look", "log2record": "look", "explain": "design", "campaign": "look", "trials": "campaign"}


def tools():
    """The tools of the repository: what can be run, without an ending."""
    folder = os.path.join(placing.ROOT, "tools")
    return sorted(name for name in os.listdir(folder) if "." not in name and os.path.isfile(os.path.join(folder, name)))


def page_name(tool):
    return os.path.join(placing.ROOT, "man", "dp-%s.1" % tool)


def help_of(tool):
    """What a tool says with --help: its text, and its options with theirs."""
    done = subprocess.run([os.path.join(placing.ROOT, "tools", tool), "--help"], capture_output=True, check=True, env={**os.environ, "COLUMNS": "1000"})
    text = done.stdout.decode()
    if text.startswith("usage:"):
        text = text.split("\n\n", 1)[1]
    text, _, options = text.partition("\noptions:\n")
    text = text.split("\npositional arguments:\n")[0]
    found = []
    for line in options.splitlines():
        parts = re.split(r"  +", line.strip(), maxsplit=1)
        if line.startswith("  -") and "--help" not in parts[0]:
            found.append((parts[0], parts[1] if len(parts) > 1 else ""))
        elif line.startswith("      ") and found and line.strip():
            found[-1] = (found[-1][0], (found[-1][1] + " " + line.strip()).strip())
    return text.strip("\n"), found


def escaped(text):
    text = text.replace("\\", "\\e").replace("`", "").replace("--", "\\-\\-")
    return "\\&" + text if text[:1] in (".", "'") else text


def sentences(text):
    """Text as lines, a new one for each sentence."""
    lines = re.split(r"(?<=[.!?:;)]) +(?=[A-Z`-])", " ".join(text.split()))
    return [escaped(row) for line in lines for row in textwrap.wrap(line, WIDTH, break_long_words=False, break_on_hyphens=False)]


def named(text):
    """Installed tools by the names that they are installed under."""
    return re.sub(r"\btools/(%s)\b" % "|".join(placing.TOOLS), r"dp-\1", text)


def argument(word):
    """A word of use as mdoc: an option, a word to be said as it stands, or what is put in its place."""
    if word.startswith("--"):
        return "Fl \\-%s" % word[2:]
    return "%s %s" % ("Cm" if word.islower() and word.isalpha() else "Ar", escaped(word))


def synopsis(block):
    """The lines of use: what stands in capitals is an argument."""
    lines = []
    for line in block:
        words = re.split(r"  +", line.strip())[0].split(" ")[1:]
        lines.append(".Nm")
        for part in re.findall(r"\[[^]]*\]|[>|]|--[a-z0-9]+|[^ \[\]>|]+", " ".join(words)):
            if part in (">", "|"):
                lines.append(".No \\&%s" % part)
            else:
                lines.append("%s%s" % (".Op " if part.startswith("[") else ".", " ".join(map(argument, part.strip("[]").split(" ")))))
    return lines


def body(text):
    """Paragraphs, lists and samples."""
    lines, blocks = [], re.split(r"\n\s*\n", text)
    for number, block in enumerate(blocks):
        rows = block.split("\n")
        if rows[0].startswith("    "):
            lines += [".Bd -literal -offset indent"] + [escaped(row[4:].rstrip()) for row in rows] + [".Ed"]
        elif rows[0].startswith("- "):
            items = re.split(r"(?:^|\n)- ", block)[1:]
            lines += [".Bl -bullet"] + [line for item in items for line in [".It", *sentences(item)]] + [".El"]
        else:
            start = next((at for at, row in enumerate(rows) if row.startswith("    ")), len(rows))
            lines += ([".Pp"] if number and lines and lines[-1] != ".Pp" else []) + sentences(" ".join(rows[:start]))
            if start < len(rows):
                lines += [".Bd -literal -offset indent"] + [escaped(row[4:].rstrip()) for row in rows[start:]] + [".Ed"]
    return lines


def options_of(options):
    lines = [".Pp", "The options are:", ".Bl -tag -width Ds"]
    for names, told in options:
        words = names.split(", ")[-1].split(" ")
        lines.append(".It Fl \\-%s%s" % (words[0].lstrip("-"), "".join(" Ar %s" % escaped(word) for word in words[1:])))
        lines += sentences(told[:1].upper() + told[1:] + ("" if told.endswith(".") else ".")) if told else []
    return lines + [".El"]


def page(tool):
    """The page of a tool."""
    text, options = help_of(tool)
    text, _, status = named(text).partition("\nExit status:")
    first = text.split("\n\n")[0]
    summary = re.split(r"[.:](?:\s|$)", first.replace("\n", " "))[0]
    use = next(block for block in text.split("\n\n") if block.startswith("    ")).split("\n")
    text = text.replace("\n".join(use), "", 1)
    day = time.strftime("%B %-d, %Y", time.strptime(packing.newest()[0], "%Y-%m-%d"))
    lines = [".Dd %s" % day, ".Dt DP-%s 1" % tool.upper(), ".Os", ".Sh NAME", ".Nm dp-%s" % tool,
             ".Nd %s" % escaped(summary[0].lower() + summary[1:]), ".Sh SYNOPSIS", *synopsis(use), ".Sh DESCRIPTION", *body(text.strip("\n"))]
    if tool in HERE_ONLY:
        lines += [".Pp", "It isn't installed, and is called in the repository as", ".Pa tools/%s ." % tool]
    if options:
        lines += options_of(options)
    lines += [".Sh EXIT STATUS", *sentences(status or "0; 1 if something is wrong, which is told.")]
    see = [".Xr dp 1"] + ([".Xr dp-%s 1" % SEE[tool]] if SEE.get(tool) in placing.TOOLS else [])
    return MARK % tool + "\n".join(lines + [".Sh SEE ALSO"] + [line + " ," for line in see[:-1]] + see[-1:]) + "\n"


def is_made(tool):
    """Whether the page of a tool is made, or isn't there yet."""
    if not os.path.exists(page_name(tool)):
        return True
    with open(page_name(tool), encoding="utf-8") as file:
        return file.readline() == MARK % tool


def main(names):
    for tool in names or tools():
        if is_made(tool):
            placing.put_text(page(tool), page_name(tool))


if __name__ == "__main__":
    main(sys.argv[1:])
