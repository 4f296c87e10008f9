"""The local frame of a plant: the place of a latitude and a longitude. docs/CONTROL.md has the rules, which are exact."""

Q = 2 ** 30
FARTHEST = 2 ** 43
HALF_TURN = 108000000000      # 180 degrees in 10^-7 minutes


def cut(value):
    """The quotient by Q, toward zero."""
    return value // Q if value >= 0 else -(-value // Q)


def rotation(one, other):
    return cut(one[0] * other[0] - one[1] * other[1]), cut(one[1] * other[0] + one[0] * other[1])


def power(base, times):
    pair = (Q, 0)
    for _ in range(times):
        pair = rotation(pair, base)
    return pair


def cosine(hundredths):
    """The cosine of an angle of at most 90 degrees, over Q."""
    flipped = hundredths > 4500
    within = 9000 - hundredths if flipped else hundredths
    pair = rotation(power((1073578287, 18739378), within // 100), power((1073741807, 187403), within % 100))
    return pair[1 if flipped else 0]


class Origin:
    """The origin of a local frame, in 10^-7 minutes."""

    def __init__(self, lat, lon):
        self.lat, self.lon = lat, lon
        self.cosine = cosine(abs(lat) // 6000000)

    def local(self, lat, lon):
        """The place in nm north and east of the origin, or None where it is too far."""
        north = 185200 * (lat - self.lat)
        turn = (lon - self.lon + HALF_TURN) % (2 * HALF_TURN) - HALF_TURN
        east = self.cosine * 185200 * turn // Q
        return None if max(abs(north), abs(east)) > FARTHEST else (north, east)
