"""When a record begins, by the clock: from the words, from the report of log2record, or from the record's own GGA."""
import os
import re

import blocks
import stamps

REPORT = re.compile(r"record: .*, from (.+) on\s*")
SECOND = stamps.SECOND


def told(read, source):
    """What the page is told of a start: microseconds as a stamp gave them."""
    kind, time = read
    return {"ms": time // 1000, "dated": kind == stamps.DATED, "by": source}


def start_of(text):
    """The start that the words name: a time, or the file of what log2record told."""
    read = stamps.Stamps().read(text.encode())
    if read is not None and read[0] != stamps.ZERO:
        return told(read, "--start")
    if not os.path.exists(text):
        raise blocks.Refused("--start %s: no time such as 2026-11-30T12:35:00Z or 12:35:00, and no file" % text)
    with blocks.opened(text) as file:
        found = [match for match in map(REPORT.fullmatch, file) if match]
    read = stamps.Stamps().read(found[-1][1].encode()) if found else None
    if read is None or read[0] == stamps.ZERO:
        raise blocks.Refused("%s: tells of no record that begins at a time of day; log2record tells it on its error channel" % text)
    return told(read, "the log's stamps")


def start_by_record(record):
    """The start by the first GGA that has a time, to the nearest second, or None."""
    if record.utc is None:
        return None
    time, day = record.utc
    start = (day - time * 1000 + SECOND // 2) // SECOND * SECOND
    return told((stamps.DAY, start % stamps.DAY_LENGTH), "the first GGA, to the second")
