"""What the tools ask of a sentence of IEC 61162-1, and the wires of a record. docs/FORMATS.md has the rules."""

FORMATTERS = {"pos": (b"GGA",), "gyro": (b"HDT", b"THS"), "wind": (b"MWV",), "grp": ()}
WIRES = ["%s%d" % (kind, number) for kind in ("pos", "gyro", "wind") for number in range(3)] + ["grp%d" % number for number in range(8)]
MOST = 160      # bytes of a sentence
PRINTABLE = bytes(range(32, 127))
HEXADECIMAL = b"0123456789ABCDEFabcdef"
DIGITS = {bytes([high, low]): int(bytes([high, low]), 16) for high in HEXADECIMAL for low in HEXADECIMAL}


def kind_of(wire):
    """The kind of a wire: pos, gyro, wind or grp."""
    return wire.rstrip("0123456789")


def sum_of(body):
    """The exclusive-or of the bytes, of at most 256."""
    total = int.from_bytes(body, "little")
    for half in (1024, 512, 256, 128, 64, 32, 16, 8):
        total ^= total >> half
    return total & 255


def is_sound(text):
    """Whether the bytes are a sentence, and no damage."""
    if not 4 <= len(text) <= MOST or text[:1] != b"$" or text[-3:-2] != b"*":
        return False
    body = text[1:-3]
    return DIGITS.get(text[-2:]) == sum_of(body) and body.count(b",") <= 24 and not text.translate(None, PRINTABLE)


def formatter(text):
    """The formatter of a sentence or of what is left of one; None where its address can't be read as a talker and a formatter."""
    address = text[1:6]
    if text[6:7] in (b",", b"") and len(address) == 5 and address.isalnum() and address.isupper() and address[:1] != b"P":
        return address[2:]
    return None


def checked(body):
    """The sentence of a body, with its two digits."""
    return b"$%s*%02X" % (body, sum_of(body))


def tag_block(text):
    """What the TAG block at the end of a text says, by its letters: a table, None where there is no block, or False where its sum is wrong."""
    end = text.rfind(b"\\")
    start = text.rfind(b"\\", 0, end)
    if end < 0 or start < 0 or text[end + 1:].strip():
        return None if end < 0 else False
    block = text[start + 1:end]
    if block[-3:-2] != b"*" or DIGITS.get(block[-2:]) != sum_of(block[:-3]):
        return False
    return dict(part.split(b":", 1) for part in block[:-3].split(b",") if b":" in part)
