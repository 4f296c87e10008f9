"""Records for measuring: each kind of line, in each cycle of a second, with places that wander so that no reference seems frozen."""
import sentences

LAT, LON = 28870380000, 6910000000      # the origin of the sample plants, in 10^-7 minutes
HUNDRED = 100                           # cycles in a piece


def wander(cycle, wire):
    """Where a reference says the vessel is, in mm north and east: within a metre, and different in each cycle."""
    return (cycle * 37 + wire * 11) % 1001 - 500, (cycle * 53 + wire * 7) % 1001 - 500


def angle(units, digits):
    degrees, minutes = divmod(units, 60 * 10 ** 7)
    return "%0*d%02d.%07d" % (digits, degrees, minutes // 10 ** 7, minutes % 10 ** 7)


def gga(cycle, wire):
    north, east = wander(cycle, wire)
    clock = "%02d%02d%02d" % (cycle // 3600 % 24, cycle // 60 % 60, cycle % 60)
    text = "GPGGA,%s,%s,N,%s,E,4,12,0.8,21.3,M,46.9,M,," % (clock, angle(LAT + round(north / 0.1852), 2), angle(LON + round(east / 0.1237), 3))
    return b"%d pos%d %s\n" % (1000 * cycle, wire, sentences.checked(text.encode()))


def plain(cycle, wire):
    return b"%d pos%d L %d %d\n" % (1000 * cycle, wire, *wander(cycle, wire))


def heading(cycle, wire):
    return b"%d gyro%d %s\n" % (1000 * cycle, wire, sentences.checked(b"HEHDT,%03d.%d,T" % (0, (cycle + wire) % 10)))


def wind(cycle, wire):
    return b"%d wind%d %s\n" % (1000 * cycle, wire, sentences.checked(b"WIMWV,045.0,R,%02d.0,M,A" % ((cycle + wire) % 10)))


def pieces(begin, end, kinds):
    """Text of some hundred cycles at a time, three wires of each kind."""
    for first in range(begin, end, HUNDRED):
        yield b"".join(kind(cycle, wire) for cycle in range(first, min(end, first + HUNDRED)) for kind in kinds for wire in range(3))


def three_gga(begin, end):
    return pieces(begin, end, [gga])


def nine_lines(begin, end):
    return pieces(begin, end, [gga, heading, wind])


def plain_places(begin, end):
    return pieces(begin, end, [plain, heading, wind])
