"""Whether the files of a replay belong together: what an output says of its record, held beside that record."""
import re

import blocks

RECORD_FAULT = re.compile(r"fault record ([0-9]+) .*")


def refuse(words, *parts):
    raise blocks.Refused(words % parts)


def held_together(record_name, record, output, cycles):
    """Refuses a record and an output that aren't of one replay. `cycles` is how many blocks the output has."""
    last = output.last
    if last is not None and last.startswith("fault") and cycles == 0:
        refuse("%s: has no cycle, only %r: the replay was refused, and there is nothing to draw", output.name, last)
    if last is not None and last.startswith("end ") and int(last[4:]) != cycles:
        refuse("%s: ends with %r after %d cycles", output.name, last, cycles)
    ends = last is not None and last.startswith("end ")
    if record.refusal is not None and (ends or cycles > record.cycles):
        refuse("%s %d: no replay of this plant takes this line, and %s goes on: they aren't of one replay", record_name, record.refusal, output.name)
    fault = RECORD_FAULT.fullmatch(last or "")
    if fault and record.refusal != int(fault[1]):
        refuse("%s: ends with %r, and %s can be taken there: they aren't of one replay", output.name, last, record_name)
    whole = ends or fault is not None or (last or "").startswith("fault long cycles")
    if cycles > record.cycles or (whole and cycles != record.cycles):
        refuse("%s has %d cycles, and %s %d: they aren't of one replay", record_name, record.cycles, output.name, cycles)
