"""How colours are told apart: the contrast of two, and how far two are from each other for eyes that don't tell red from green."""

# What the cones of an eye without those for red, or for green, make of linear red, green and blue (Machado, Oliveira and Fernandes, severity 1).
EYES = {
    "all": ((1, 0, 0), (0, 1, 0), (0, 0, 1)),
    "no red": ((0.152286, 1.052583, -0.204868), (0.114503, 0.786281, 0.099216), (-0.003882, -0.048116, 1.051998)),
    "no green": ((0.367322, 0.860646, -0.227968), (0.280085, 0.672501, 0.047413), (-0.011820, 0.042940, 0.968881)),
}


def linear(colour):
    """The three parts of a colour such as #0067a8, from 0 to 1, as light."""
    parts = [int(colour[at:at + 2], 16) / 255 for at in (1, 3, 5)]
    return [part / 12.92 if part <= 0.04045 else ((part + 0.055) / 1.055) ** 2.4 for part in parts]


def light(parts):
    return 0.2126 * parts[0] + 0.7152 * parts[1] + 0.0722 * parts[2]


def contrast(one, other):
    """The contrast of two colours, from 1 to 21."""
    low, high = sorted(light(linear(colour)) for colour in (one, other))
    return (high + 0.05) / (low + 0.05)


def lab(parts):
    """Lightness and two hues (CIE L*a*b*) of linear red, green and blue."""
    red, green, blue = (min(1, max(0, part)) for part in parts)
    tristimulus = ((0.4124564 * red + 0.3575761 * green + 0.1804375 * blue) / 0.95047, 0.2126729 * red + 0.7151522 * green + 0.0721750 * blue,
                   (0.0193339 * red + 0.1191920 * green + 0.9503041 * blue) / 1.08883)
    root = [part ** (1 / 3) if part > 216 / 24389 else (24389 / 27 * part + 16) / 116 for part in tristimulus]
    return 116 * root[1] - 16, 500 * (root[0] - root[1]), 200 * (root[1] - root[2])


def apart(one, other, eye="all"):
    """How far two colours are from each other for an eye; 10 is clear."""
    def seen(colour):
        parts = linear(colour)
        return lab([sum(share * part for share, part in zip(row, parts)) for row in EYES[eye]])
    return sum((a - b) ** 2 for a, b in zip(seen(one), seen(other))) ** 0.5
