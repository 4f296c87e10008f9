#!/usr/bin/env python3
"""Tells the length and the hash of made records.

    tools/made.py NUMBER... -- PROGRAM...

PROGRAM is a command that answers `make NUMBER`: the built program, or a reference program. The hash is FNV-1a of 64 bits, which the tests
of dp_script have for the records of 0, 1 and 2^32 - 1. Nothing here is part of the gate.
"""
import subprocess
import sys


def hashed(text):
    value = 0xCBF29CE484222325
    for byte in text:
        value = (value ^ byte) * 0x100000001B3 % 2**64
    return value


def main(words):
    if "--" not in words:
        sys.exit(__doc__)
    at = words.index("--")
    for number in words[:at]:
        text = subprocess.run(words[at + 1 :] + ["make", number], stdout=subprocess.PIPE, check=True).stdout
        print(number, len(text), hashed(text))


main(sys.argv[1:])
