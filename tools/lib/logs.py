"""A raw log of sentences, read for one wire of a record: which of its lines are taken, and when each of them came."""
import re

import kinds
import sentences
import stamps
import timeforms

LONGEST_LINE = 65536      # bytes: what is longer is read as several lines
LONGEST_REST = 170        # bytes of a record line's rest: a longer one is cut, and stays damage
PLAIN_FORM = re.compile(rb"(?:^|[ \t,;:\]])([LG](?: -?\d+)+)[ \t\r\n]*$")
AFTER = b" \t\r\n\"',;"
BEHIND = re.compile(rb"(\$[^*]{0,200}\*[0-9A-Fa-f]{2})([ \t\r\n\[\](){}<>,;:|\"'!\\].*)", re.DOTALL)      # a sentence, and what stands behind it
BREAKS = b" \t,;|"
TALKER = re.compile(r"(.+)@(s:[^@]{1,15}|[A-Z][A-Z0-9])", re.DOTALL)

STAMP, BEHIND_STAMP, UTC, EVERY, ARRIVAL = "time stamps", "time stamps behind", "the UTC of GGA", "a period", "arrival"


class Refused(Exception):
    """The log can't be taken; the text names file and line."""


class Settings:
    """What holds for all logs of a record. `form` is the form of the stamps, for all wires (the key None) or for one."""

    def __init__(self, zone=0, back="refuse", gap=5 * stamps.SECOND, all_formatters=False, forms=None):
        self.zone, self.back, self.gap, self.all_formatters, self.forms = zone, back, gap, all_formatters, forms or {}

    def reader(self, wire):
        form = self.forms.get(wire, self.forms.get(None))
        return stamps.Stamps(self.zone) if form is None else timeforms.Form(form, self.zone)


def source_of(text, is_file):
    """The name of a file, and whose sentences are wanted: FILE@GP, FILE@s:NAME or FILE alone."""
    found = TALKER.fullmatch(text)
    return (found[1], found[2].encode()) if found and not is_file(text) else (text, None)


class Log:
    """One file, read for one wire. `timing` is one of the five, or None to find out by its first sentence; `whose` is a talker, or a TAG block's
    source as s:NAME, or None for all."""

    def __init__(self, wire, name, settings, timing=None, period=None, whose=None):
        self.wire, self.name, self.settings, self.timing, self.period = wire, name, settings, timing, period
        self.talker, self.source = (None, whose[2:]) if whose and whose[:2] == b"s:" else (whose, None)
        self.formatters = sentences.FORMATTERS[sentences.kind_of(wire)]
        self.reader = settings.reader(wire)
        self.clock = None          # the kind of its times
        self.line = 0
        self.now = None            # the last time that is known
        self.passed = 0            # days that a time of day has passed
        self.taken = self.damaged = self.cut = self.steps = 0
        self.left_out = {}         # why: how many, and the line of the first
        self.first = self.last = None
        self.gaps, self.longest = 0, []

    def where(self):
        return "%s %d" % (self.name, self.line)

    def readings(self):
        """The time and the sentence of each line that is taken, and whether it is sound."""
        try:
            file = open(self.name, "rb")
        except OSError as error:
            raise Refused("%s: %s" % (self.name, error.strerror)) from error
        with file:
            what = kinds.what_is(file.peek(64)[:64])
            if what:
                raise Refused("%s: %s" % (self.name, what.replace("FILE", self.name)))
            for line in self.lines(file):
                self.line += 1
                if b"\0" in line:
                    raise Refused("%s: %s" % (self.where(), kinds.NULS.replace("FILE", self.name)))
                at = line.find(b"$")
                rest = line[at:].rstrip(AFTER)
                if at >= 0 and rest[-3:-2] == b"*" and len(rest) < 200 and line.find(b"$", at + 1) < 0:
                    reading = self.reading(line[:at], rest, b"")
                    if reading:
                        yield reading
                else:
                    yield from self.of_line(line)
        if self.taken == 0 and self.timing == UTC and self.now is None and self.left_out:
            raise Refused("%s %d: no time stamps, and no sound GGA with a time: say how often its sentences come, --every %s=MS"
                          % (self.name, self.left_out.get("before the first time", (0, self.line))[1], self.wire))

    def lines(self, file):
        try:
            yield from iter(lambda: file.readline(LONGEST_LINE), b"")
        except OSError as error:
            raise Refused("%s: %s" % (self.where(), error.strerror)) from error

    def of_line(self, line):
        """The time, the sentence and its soundness, of each sentence of a line that is taken."""
        at = line.find(b"$")
        if at < 0:
            found = PLAIN_FORM.search(line)
            if not found:
                self.leave("no sentence")
                return ()
            reading = self.reading(line[:found.start(1)], found[1], b"")
        elif line.find(b"$", at + 1) < 0:
            reading = self.reading(line[:at], *self.parted(line[at:]))
        else:
            return self.several(line[:at], line[at + 1:])
        return (reading,) if reading else ()

    def several(self, before, rest):
        """The readings of a line with more than one sentence: each has the last stamp that stands before it, or else behind it."""
        parts, found = [], []
        for piece in rest.split(b"$"):
            sentence, behind = self.parted(b"$" + piece)
            parts.append([before, sentence, behind])
            if behind.strip(stamps.AROUND) and self.reader.read(behind):
                before = behind
        for number in range(len(parts) - 2, -1, -1):
            if not parts[number][2].strip(stamps.AROUND):
                parts[number][2] = parts[number + 1][2]
        for part in parts:
            reading = self.reading(*part)
            if reading:
                found.append(reading)
        return found

    def parted(self, text):
        """A sentence, and what stands behind it on its line."""
        rest = text.rstrip(AFTER)
        if rest[-3:-2] == b"*" and len(rest) < 200:
            return rest, b""
        found = BEHIND.fullmatch(rest)
        if found:
            return found[1], found[2]
        if self.timing == BEHIND_STAMP:
            for at, byte in enumerate(rest):
                if byte in BREAKS:
                    read = self.reader.read(rest[at:])
                    if read and read[0] == self.clock:
                        return rest[:at], rest[at:]
        return rest, b""

    def reading(self, before, rest, behind):
        """The time, the sentence and its soundness, or None where it is left out."""
        tag = sentences.tag_block(before) if b"\\" in before else None
        if tag is False:
            return self.leave("a damaged TAG block")
        if tag is not None and b"c" not in tag:
            before = before[:before.find(b"\\")]
        if self.timing is None:
            self.timing = self.found_timing(before, behind)
        sound = sentences.is_sound(rest) if rest[:1] == b"$" else True
        kind = sentences.formatter(rest) if rest[:1] == b"$" else None
        if self.timing == UTC and sound and kind == b"GGA":
            self.hear(rest)
        if kind is not None and kind not in self.formatters and not self.settings.all_formatters:
            return self.leave("another formatter")
        if self.talker is not None and rest[1:3] != self.talker:
            return self.leave("another talker")
        if self.source is not None and (tag or {}).get(b"s") != self.source:
            return self.leave("another source")
        time = self.time(behind if self.timing == BEHIND_STAMP else before)
        if time is None:
            return None
        if not self.settle(time):
            return None
        return self.take(rest, sound)

    def found_timing(self, before, behind):
        """How the sentences of this file are timed, by what stands round its first one."""
        if before.strip(stamps.AROUND) and self.reader.read(before) is not None:
            return STAMP
        if behind.strip(stamps.AROUND) and self.reader.read(behind) is not None:
            return BEHIND_STAMP
        if not before.strip(stamps.AROUND):
            return UTC
        raise Refused("%s: no time that can be read stands before the sentence: %r (--time FORMAT says what it is like)" % (self.where(), before.decode("latin-1")))

    def hear(self, rest):
        """Takes the time of a sound GGA. A time of day that falls by more than half a day is of the next day."""
        time = stamps.utc_field(rest.split(b",", 2)[1])
        if time is None:
            return
        time += self.passed
        if self.now is not None and time < self.now - stamps.DAY_LENGTH // 2:
            self.passed += stamps.DAY_LENGTH
            time += stamps.DAY_LENGTH
        self.clock, self.now = stamps.DAY, time

    def time(self, before):
        """The time of this line by the file's clock, or None where it has none: then the line is left out."""
        if self.timing == EVERY:
            self.clock = stamps.ZERO
            time, self.steps = self.steps * self.period, self.steps + 1
            return time
        if self.timing == ARRIVAL:
            self.clock = stamps.ZERO
            return self.now
        if self.timing == UTC:
            return self.now if self.now is not None else self.leave("before the first time")
        read = self.reader.read(before)
        if read is None:
            return self.leave("no time")
        kind, time = read
        self.clock = self.clock or kind
        if kind != self.clock:
            return self.leave("a time of another kind")
        if kind == stamps.DAY:
            time += self.passed
            if self.last is not None and time < self.last - stamps.DAY_LENGTH // 2:
                self.passed += stamps.DAY_LENGTH
                time += stamps.DAY_LENGTH
        return time

    def settle(self, time):
        """Whether the line is taken at this time, which is before the last one only where the settings allow it."""
        if self.last is not None and time < self.last:
            if self.settings.back == "refuse":
                raise Refused("%s: the time falls, from %s to %s (sort the file, or see --back)"
                              % (self.where(), stamps.shown(self.clock, self.last), stamps.shown(self.clock, time)))
            if self.settings.back == "leave":
                self.leave("the time falls")
                return False
            time = self.last
        if self.last is not None and time - self.last > self.settings.gap and self.formatters:
            self.gaps += 1
            self.longest = sorted(self.longest + [(time - self.last, self.line)], reverse=True)[:3]
        self.first = time if self.first is None else self.first
        self.last = time
        return True

    def take(self, rest, sound):
        self.taken += 1
        self.damaged += not sound
        if len(rest) > LONGEST_REST:
            self.cut += 1
            rest = rest[:LONGEST_REST]
        return self.last, rest, sound

    def leave(self, why):
        count, first = self.left_out.get(why, (0, self.line))
        self.left_out[why] = (count + 1, first)

    def summary(self):
        """What was taken, what was left out and why, and the gaps, in lines."""
        damaged = " (%d damaged)" % self.damaged if self.damaged else ""
        lines = ["%s from %s, by %s: %d taken%s, %d left out"
                 % (self.wire, self.name, self.timing or "nothing", self.taken, damaged, sum(count for count, _ in self.left_out.values()))]
        if self.taken:
            lines.append("  %s to %s" % (stamps.shown(self.clock, self.first), stamps.shown(self.clock, self.last)))
        for why, (count, first) in sorted(self.left_out.items()):
            lines.append("  left out, %s: %d, the first in line %d" % (why, count, first))
        if self.cut:
            lines.append("  cut to %d bytes, as damage: %d" % (LONGEST_REST, self.cut))
        if self.gaps:
            longest = ", ".join("%.1f s before line %d" % (length / stamps.SECOND, line) for length, line in self.longest)
            lines.append("  gaps of more than %g s: %d, the longest %s" % (self.settings.gap / stamps.SECOND, self.gaps, longest))
        return lines
