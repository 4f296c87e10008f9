#!/usr/bin/env python3
"""Compares the built program with a reference program on generated files.

    tools/compare.py KIND CASES SEED PROGRAM -- REFERENCE...

PROGRAM is the built program (crates/dp_app/out/dp_app after `rt ci`), REFERENCE a command that answers the same words. KIND is

- `replay`: random plants that are sound, records and scripts (plants.py, cases.py): records of all wires with sentences and plain forms, watches
  with every sensor at work in each cycle, groups that are lost and come back, scripts of every verb; good and faulty lines, gaps of cycles,
  either line end, a missing last line feed; now and then a file isn't there or the words are odd. With `replay2` the plants have a wave filter.
- `hurt`: plant files with a key missing, of a wrong kind or out of range, and texts that are no TOML, by `check`.
- `cert1`, `cert2`: gains and certificates of either version that are varied, by `check`.
- `trial`, `trial2`: random plants that are sound, by `trial` of a random number.
- `make`: random numbers, and words that are none, by `make`; the whole record is compared.
- `squares1`, `squares2`: gains and certificates of either version, varied and with lists left out, by `squares`.
- `compare`: random plants, a record and another that differs in one reference, mostly, by `compare` of a random wire.
- `drift`: random plants and records, by `drift` with a random limit and number of cycles.
- `guide`: random plants with limits of a moving setpoint, lists of moves and records, by `guide`.

Output and exit status have to be equal. A case that differs is made smaller, line by line, and printed. Nothing here is part of the gate.
"""
import os
import random
import subprocess
import sys
import tempfile

sys.dont_write_bytecode = True
import cases  # noqa: E402
from cases import one_in  # noqa: E402
import plants  # noqa: E402

KINDS = {
    "replay": lambda rng: [plants.text_of(plants.sound(rng))] + list(cases.case(rng)),
    "replay2": lambda rng: [plants.text_of(plants.sound(rng, 2))] + list(cases.case(rng)),
    "hurt": lambda rng: [plants.text_of(plants.hurt(rng, plants.sound(rng, rng.choice([1, 1, 2]))))],
    "cert1": lambda rng: [plants.text_of(plants.certificate(rng, 1))],
    "cert2": lambda rng: [plants.text_of(plants.certificate(rng, 2))],
    "trial": lambda rng: [plants.text_of(plants.sound(rng))],
    "trial2": lambda rng: [plants.text_of(plants.sound(rng, 2))],
    "make": lambda rng: [],
    "squares1": lambda rng: [plants.text_of(plants.bare_certificate(rng, 1))],
    "squares2": lambda rng: [plants.text_of(plants.bare_certificate(rng, 2))],
    "compare": lambda rng: [plants.text_of(plants.sound(rng, rng.choice([1, 1, 2])))] + cases.replaced(rng, cases.case(rng)[0]),
    "drift": lambda rng: [plants.text_of(plants.sound(rng, rng.choice([1, 1, 2]))), cases.case(rng)[0]],
    "guide": lambda rng: [plants.text_of(plants.guided(rng)), cases.moves(rng), cases.case(rng)[0]],
}

# What comes before and after the names of the files.
COMMANDS = {
    "replay": (["replay"], False),
    "replay2": (["replay"], False),
    "hurt": (["check"], False),
    "cert1": (["check"], False),
    "cert2": (["check"], False),
    "trial": (["trial"], True),
    "trial2": (["trial"], True),
    "make": (["make"], True),
    "squares1": (["squares"], False),
    "squares2": (["squares"], False),
    "compare": (["compare"], True),
    "drift": (["drift"], True),
    "guide": (["guide"], False),
}


def last_words(rng, kind):
    """The words behind the names of the files."""
    if kind == "compare":
        return [rng.choice(["0", "1", "2", "0", "1", "2", "0", "1", "2", "3", "", "00", "x", "-1"])]
    if kind == "drift":
        limit = rng.choice(["0", "1", "1000", "50000", "1000000000"]) if not one_in(rng, 12) else rng.choice(["1000000001", "00000000001", "x", "", "-1", "99999999999"])
        count = rng.choice(["1", "60", "600", "100000"]) if not one_in(rng, 12) else rng.choice(["0", "1048576", "1048577", "00000001", "x", "", "-1"])
        return [limit, count]
    return [number_word(rng)]


def number_word(rng):
    """The number of a record, and now and then a word that is none."""
    if cases.one_in(rng, 8):
        return rng.choice(["", "4294967296", "00000000001", "0000000001", "+1", "-1", "1.0", "0x1", "9999999999", "12345678901", "x", "4294967295", "0"])
    return str(rng.choice([rng.randrange(10), rng.randrange(2**32), 2**32 - 1 - rng.randrange(10)]))


def answer(command, words):
    done = subprocess.run(command + words, stdout=subprocess.PIPE, check=False)
    return done.returncode, done.stdout


class Pair:
    """The two programs, and a folder for the files of a case: a plant, and two more as the command names them."""

    def __init__(self, ours, theirs, folder, command):
        self.ours, self.theirs, self.command = ours, theirs, command
        self.after = []
        self.names = [os.path.join(folder, name) for name in ["plant", "second", "third"]]

    def answers(self, texts, words=None):
        for name, text in zip(self.names, texts):
            with open(name, "wb") as file:
                file.write(text.encode("latin-1"))
        if words is None:
            words = self.command + self.names[: len(texts)] + self.after
        return answer(self.ours, words), answer(self.theirs, words)

    def differ(self, texts):
        ours, theirs = self.answers(texts)
        return ours != theirs


def odd_words(rng, names):
    """Words that are no command line, or name a file that isn't there."""
    gone = names[0] + ".gone"
    plant = names[0]
    return rng.choice([[], ["replay"], ["check"], ["check", gone], ["check", plant, plant], ["replay", plant, gone], ["replay", plant, gone, gone],
                       ["replay", gone] + names[1:], ["replay", plant, gone] + names[2:], ["replay"] + names[:2] + [gone], ["play"] + names,
                       ["replay"] + names + [plant], ["replay"] + [plant] * 3, ["check", "-x"], ["--help"], ["-h"], ["check", "--help"],
                       ["check", "--", plant], ["--", "check", plant], ["check", "-"], ["-"], ["check", "-5"], ["make"], ["make", plant],
                       ["make", "1", "2"], ["trial", plant], ["trial", gone, "1"], ["trial", plant, "1", "1"], ["trial", "1", plant]])


def smaller(pair, texts):
    """The texts without each line that the difference doesn't need."""
    for which in range(len(texts)):
        lines = texts[which].splitlines(keepends=True)
        place = 0
        while place < len(lines) and len(lines) < 1000:
            fewer = lines[:place] + lines[place + 1:]
            tried = texts[:which] + ["".join(fewer)] + texts[which + 1:]
            if pair.differ(tried):
                lines, texts = fewer, tried
            else:
                place += 1
    return texts


def report(texts, ours, theirs):
    print(*("%s %r" % one for one in zip(["plant", "second", "third"], texts)), sep="\n")
    print("ours   %r" % (ours,), "theirs %r" % (theirs,), sep="\n")
    sys.exit(1)


def main():
    words = sys.argv[1:]
    if len(words) < 6 or words[0] not in KINDS or words[4] != "--":
        sys.exit(__doc__)
    count, seed = (int(word) for word in words[1:3])
    rng = random.Random(seed)
    statuses = {}
    with tempfile.TemporaryDirectory() as folder:
        command, has_number = COMMANDS[words[0]]
        pair = Pair([words[3]], words[5:], folder, command)
        for number in range(count):
            texts = KINDS[words[0]](rng)
            pair.after = last_words(rng, words[0]) if has_number else []
            odd = odd_words(rng, pair.names) if cases.one_in(rng, 40) else None
            ours, theirs = pair.answers(texts, odd)
            statuses[ours[0]] = statuses.get(ours[0], 0) + 1
            if ours != theirs:
                print("case %d of seed %d differs" % (number, seed), "" if odd is None else odd)
                if odd is None:
                    texts = smaller(pair, texts)
                report(texts, *pair.answers(texts, odd))
    print("%d cases agree; by exit status %s" % (count, sorted(statuses.items())))


if __name__ == "__main__":
    main()
