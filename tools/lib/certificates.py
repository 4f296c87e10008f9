"""Certificates of gains, in whole numbers: their conditions as `dp check` judges them, the squares that show a matrix, and the bounds C and R.

All is exact. Matrices are lists of rows; a square is d, l0, l1, .. and stands for d times l times l transposed. See docs/CONTROL.md.
"""
import math

Q = 1 << 30                 # the number that means 1 in gains
LARGEST = 1 << 40           # of an entry of the form and of a part of a square
MOST = 8                    # squares in a list
AXES = ("surge", "sway")
PLACE, PUSH = 1 << 43, 1 << 32      # nm of a place; nm per cycle² of an acceleration


class NotShown(Exception):
    """No list of squares was found for this matrix, or a condition fails; the text says which."""


def root_up(number):
    """The least whole number from 0 on whose square is at least this one."""
    root = math.isqrt(number) if number > 0 else 0
    return root if root * root >= number else root + 1


def ceiling(number, divisor):
    return -(-number // divisor)


def product(a, b):
    columns = list(zip(*b))
    return [[sum(x * y for x, y in zip(row, column)) for column in columns] for row in a]


def transposed(a):
    return [list(row) for row in zip(*a)]


def form_of(p, left, right):
    return sum(left[i] * p[i][j] * right[j] for i in range(len(p)) for j in range(len(p)))


# ---- squares

def residual(matrix, squares):
    """What is left of a matrix once its squares are taken off."""
    size = len(matrix)
    left = [list(row) for row in matrix]
    for d, *l in squares:
        for i in range(size):
            for j in range(size):
                left[i][j] -= d * l[i] * l[j]
    return left


def is_shown(matrix, squares):
    """In each row of what is left the diagonal entry is at least the sum of the others' sizes."""
    left = residual(matrix, squares)
    return all(left[i][i] >= sum(abs(x) for j, x in enumerate(row) if j != i) for i, row in enumerate(left))


def fits(square):
    return 0 <= square[0] <= LARGEST and all(abs(x) <= LARGEST for x in square[1:])


def plain_squares(matrix):
    """The squares that `dp squares` makes: of each pivot all but a 256th part."""
    size = len(matrix)
    squares, left = [], [list(row) for row in matrix]
    for i in range(size - 1):
        if left[i][i] < 1:
            continue
        most = left[i][i] - left[i][i] // 256
        shift = 0
        while shift < 40 and most // 4 ** (shift + 1) >= 256:
            shift += 1
        d = most // 4 ** shift
        step = d << shift
        square = [d] + [0] * i + [1 << shift] + [(left[i][j] + step // 2) // step for j in range(i + 1, size)]
        if fits(square):
            squares.append(square)
            left = residual(left, [square])
    return squares


def fine_squares(matrix, bits, smallest):
    """Pivot by pivot: of each all but 2^-bits of it, and a second square for what rounding left beside it."""
    size = len(matrix)
    squares, left, rest = [], [list(row) for row in matrix], list(range(size))
    while len(rest) > 1:
        i = min(rest, key=lambda k: left[k][k]) if smallest else rest[0]
        rest.remove(i)
        for second in (False, True):
            pivot = left[i][i]
            most = pivot * 2 // 3 if second else pivot - max(1, pivot >> bits)
            if most < 1:
                break
            shift = 0
            while shift < 40 and (most >> 2 * shift >= LARGEST or most >> 2 * shift > 1 << shift + 4):
                shift += 1
            d = most >> 2 * shift
            if d < 1:
                break
            square = [d] + [0] * size
            square[1 + i] = 1 << shift
            for j in rest:
                square[1 + j] = (2 * left[i][j] + (d << shift)) // (2 * d << shift)
            if not fits(square):
                break
            squares.append(square)
            left = residual(left, [square])
            if left[i][i] >= 2 * sum(abs(x) for j, x in enumerate(left[i]) if j != i):
                break
    return squares


def squares_of(matrix):
    """At most eight squares that show a matrix, by the plain rule where that does, else by a finer one; None where none was found."""
    if any(matrix[i][i] < 0 for i in range(len(matrix))):
        return None
    found = plain_squares(matrix)
    if is_shown(matrix, found):
        return found
    for smallest in (False, True):
        for bits in (20, 16, 13, 11, 9, 7, 5):
            found = fine_squares(matrix, bits, smallest)
            if len(found) <= MOST and is_shown(matrix, found):
                return found
    return None


# ---- the matrices of gains

def size_of(gains):
    """How many states an axis has: three, or five with a wave filter."""
    return 5 if "wave" in gains else 3


def vertices(gains, axis):
    """The three linear steps that an axis mixes, over Q: thrust at its limit, the bias at its limit, neither."""
    k2, k3, k4, leak, damp = (gains[key] for key in ("k2", "k3", "k4", "leak", "damp"))
    kp, kd = gains["kp"][axis], gains["kd"][axis]
    above = [[Q - k2, 0, Q], [-k3, Q - leak, 0]]
    speeds = [[-k4, Q, Q - damp], [-k4 - kp, Q, Q - damp - kd], [-k4 - kp, 0, Q - damp - kd]]
    steps = [above + [speed] for speed in speeds]
    if size_of(gains) == 3:
        return steps
    w, (k10, k11) = gains["wave"], gains["k1"]
    waves = [[-k10, 0, 0, w[0], w[1] - k10], [-k11, 0, 0, w[2], w[3] - k11]]
    return [[row + [0, -k] for row, k in zip(step, (k2, k3, k4))] + waves for step in steps]


def corrections(gains):
    """What the error of a measured place corrects in each state."""
    return [gains["k2"], gains["k3"], gains["k4"]] + (list(gains["k1"]) if size_of(gains) == 5 else [])


def outputs(gains, axis):
    """What the demand of an axis is made of, over Q: with the bias, and without it where it is at its limit."""
    size = size_of(gains)
    return [([gains["kp"][axis], bias, gains["kd"][axis], 0, 0])[:size] for bias in (Q, 0)]


def contraction(p, step, rho):
    moved = product(transposed(step), product(p, step))
    return [[rho * rho * x - y for x, y in zip(row, other)] for row, other in zip(p, moved)]


def margin(p, vector, factor):
    """factor² times the form, less the square of what the vector gives."""
    return [[factor * factor * x - vector[i] * vector[j] for j, x in enumerate(row)] for i, row in enumerate(p)]


def unit(size, i):
    return [Q if j == i else 0 for j in range(size)]


def packed(p):
    return [p[i][j] for i in range(len(p)) for j in range(i, len(p))]


def unpacked(numbers, size):
    p, rest = [[0] * size for _ in range(size)], iter(numbers)
    for i in range(size):
        for j in range(i, size):
            p[i][j] = p[j][i] = next(rest)
    return p


# ---- conditions

def input_root(gains, p):
    k = corrections(gains)
    return 2 * form_of(p, k, k)


def rounding_root(p):
    m = [1, 1, 3, 1, 1][:len(p)]
    return 2 * sum(abs(p[i][j]) * m[i] * m[j] for i in range(len(p)) for j in range(len(p)))


def largest_state(cert, p):
    """N, and the width of each state of the certified set."""
    t, u = root_up(2 * p[2][2]), root_up(2 * p[0][0])
    n = max(u * PLACE, ceiling(cert["b"] * 2 * PLACE + Q * (t * PUSH + 2 * cert["r"]), Q - cert["rho"]))
    return n, [ceiling(h * n, Q) for h in cert["span"]]


def first_fault(gains, cert):
    """The first condition of a certificate that fails, as `dp check` names it, or None."""
    size = size_of(gains)
    p = unpacked(cert["p"], size)
    for key, most in (("rho", Q), ("b", 1 << 50), ("r", LARGEST)):
        if not 0 <= cert[key] <= most:
            return "range cert.%s" % key
    if cert["rho"] == Q:
        return "rate"
    if not is_shown(p, cert["form"]):
        return "form"
    for axis, name in enumerate(AXES):
        for which, step in enumerate(vertices(gains, axis)):
            if not is_shown(contraction(p, step, cert["rho"]), cert["%s%d" % (name, which)]):
                return "vertex %d %d" % (axis, which)
    if cert["b"] ** 2 < input_root(gains, p):
        return "input"
    if cert["r"] ** 2 < rounding_root(p):
        return "round"
    for axis, name in enumerate(AXES):
        for which, vector in enumerate(outputs(gains, axis)):
            if not is_shown(margin(p, vector, cert["g"][axis]), cert["out_%s%d" % (name, which)]):
                return "output %d %d" % (axis, which)
    for i in range(size):
        if not is_shown(margin(p, unit(size, i), cert["span"][i]), cert["span%d" % i]):
            return "span %d" % i
    return width_fault(cert, p)


def width_fault(cert, p):
    widths = largest_state(cert, p)[1]
    for i, width in enumerate(widths):
        if width > 1 << 56:
            return "wide %d" % i
    for i, row in enumerate(p):
        if any(abs(x) * widths[i] * widths[j] > 1 << 120 for j, x in enumerate(row)):
            return "wide %d" % i
    return None


def with_squares(matrices, start):
    """The least factor, tried upward from a start, with which every one of some matrices is shown, and their squares."""
    factor = start
    for _ in range(2000):
        lists = [squares_of(matrix) for matrix in matrices(factor)]
        if all(squares is not None for squares in lists):
            return factor, lists
        factor += max(1, factor // 2000)
    raise NotShown("no squares for an output or a span")


def certificate_of(gains, p, rho, inverse):
    """A whole certificate with this form and rate. `inverse` is the form's inverse in floating point, for where to begin. NotShown where
    squares for a matrix aren't found or the width doesn't hold."""
    size = size_of(gains)
    cert = {"rho": rho, "b": root_up(input_root(gains, p)), "r": root_up(rounding_root(p)), "g": [], "p": packed(p), "span": []}
    lists = {"form": squares_of(p)}
    for axis, name in enumerate(AXES):
        for which, step in enumerate(vertices(gains, axis)):
            lists["%s%d" % (name, which)] = squares_of(contraction(p, step, rho))
    for name, squares in lists.items():
        if squares is None:
            raise NotShown("no squares for %s" % name)
    for axis, name in enumerate(AXES):
        rows = outputs(gains, axis)
        start = math.ceil(max(math.sqrt(max(0, form_of(inverse, row, row))) for row in rows))
        factor, found = with_squares(lambda x: [margin(p, row, x) for row in rows], start)
        cert["g"].append(factor)
        lists.update({"out_%s%d" % (name, which): squares for which, squares in enumerate(found)})
    for i in range(size):
        start = math.ceil(Q * math.sqrt(max(0, inverse[i][i])))
        factor, found = with_squares(lambda x: [margin(p, unit(size, i), x)], start)
        cert["span"].append(factor)
        lists["span%d" % i] = found[0]
    cert.update(lists)
    fault = first_fault(gains, cert)
    if fault:
        raise NotShown(fault)
    return cert


# ---- bounds

def bounds(cert, case):
    """C and R of each thruster in a case: 2^20 times the move of its force, in newtons, is at most C·s + R for a spread of s nm."""
    found = []
    whole = Q * (Q - cert["rho"])
    for row in case["b"]:
        gain = sum(abs(row[j]) * cert["g"][j] for j in (0, 1))
        shares = abs(row[0]) + abs(row[1])
        found.append((ceiling(gain * cert["b"], whole), shares + (1 << 20) + ceiling(gain * (Q * cert["r"] + Q - cert["rho"]), whole)))
    return found


def moved(bound, spread):
    """By how many newtons a thruster can be moved by a spread of so many nm."""
    return (bound[0] * spread + bound[1]) / (1 << 20)


# ---- text

def key_order(size):
    """The keys of [cert], in the order in which they are read."""
    order = ["rho", "b", "r", "g", "p", "span", "form"]
    order += ["%s%d" % (name, which) for name in AXES for which in range(3)]
    order += ["out_%s%d" % (name, which) for name in AXES for which in range(2)]
    return order + ["span%d" % i for i in range(size)]


def section(cert):
    """The lines of [cert]."""
    return ["[cert]"] + ["%s = %s" % (key, cert[key]) for key in key_order(len(cert["span"]))]
