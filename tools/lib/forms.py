"""The form and the rate of a certificate: a semidefinite problem, solved in floating point, then rounded and judged in whole numbers.

Wanted is a form V(x) = xᵀPx that each step of the loop shrinks: rate²·P - AᵀPA is positive for every vertex matrix A of both axes. With
KᵀPK at most 1, where K is what a measured place corrects, a reference that is s off keeps the two runs within a multiple of s, and the
demand g moves by the root of gᵀP⁻¹g at most. So the least gᵀP⁻¹g is sought, for several rates, and the pair with the least product is
taken. The solver is cvxopt (Debian: python3-cvxopt).
"""
import math

from certificates import LARGEST, NotShown, Q, certificate_of, corrections, outputs, size_of, vertices

PARTS = (0.999, 0.995, 0.99, 0.98, 0.965, 0.95, 0.92, 0.88, 0.82, 0.75, 0.66, 0.5, 0.35)      # of the greatest rate
ROOMS = (0.002, 0.004, 0.01, 0.03, 0.08)      # between the rate of the form and the certified one, for rounding
BITS = {3: (39.9, 39, 36, 33, 30), 5: (39.9, 39, 37, 35, 33, 30)}      # of the largest entry


class NoForm(Exception):
    """No certificate was found; the text says what stands against it."""


class NoSolver(Exception):
    """The library for semidefinite problems is missing."""


def solver():
    try:
        import cvxopt
        import cvxopt.solvers
    except ImportError:
        raise NoSolver("it wants the Python library cvxopt: apt install python3-cvxopt") from None
    cvxopt.solvers.options.update(show_progress=False, maxiters=200, abstol=1e-9, reltol=1e-8, feastol=1e-9)
    return cvxopt


class Loop:
    """The loop of both axes in scaled states, so that numbers are near 1: places by 1, velocities by the natural frequency w, biases by w²."""

    def __init__(self, gains):
        self.gains, self.size = gains, size_of(gains)
        w = math.sqrt(max(gains["kp"]) / Q) or 1e-6
        self.scale = [1, w * w, w, 1, 1][:self.size]
        self.steps, self.demands = [], []
        for axis in (0, 1):
            if axis == 1 and all(gains[key][0] == gains[key][1] for key in ("kp", "kd")):
                break
            self.steps += [self.scaled(step) for step in vertices(gains, axis)]
            self.demands += [[x / Q * d / (w * w) for x, d in zip(row, self.scale)] for row in outputs(gains, axis)]
        self.error = [x / Q / d for x, d in zip(corrections(gains), self.scale)]

    def scaled(self, step):
        return [[step[i][j] / Q * self.scale[j] / self.scale[i] for j in range(self.size)] for i in range(self.size)]

    def plain(self, p):
        """A form over the states as they are."""
        return [[p[i][j] / self.scale[i] / self.scale[j] for j in range(self.size)] for i in range(self.size)]


def basis(size):
    for i in range(size):
        for j in range(i, size):
            yield [[1.0 if (a, b) in ((i, j), (j, i)) else 0.0 for b in range(size)] for a in range(size)]


def shrink(step, rate, e):
    size = len(e)
    moved = [[sum(step[a][i] * e[a][b] * step[b][j] for a in range(size) for b in range(size)) for j in range(size)] for i in range(size)]
    return [[rate * rate * e[i][j] - moved[i][j] for j in range(size)] for i in range(size)]


def column(matrix):
    return [x for one in zip(*matrix) for x in one]


def best_form(cvxopt, loop, rate):
    """The form that this rate shrinks by, with the least demand, and that demand's square; None where there is no form."""
    size, elements = loop.size, list(basis(loop.size))
    number = len(elements) + 1      # the last one is the square of the demand
    blocks, offsets = [], []

    def at_least(of_elements, of_last, constant):
        blocks.append(cvxopt.matrix([[-x for x in column(m)] for m in of_elements + [of_last]]))
        offsets.append(cvxopt.matrix(constant))

    zero = [[0.0] * size for _ in range(size)]
    for step in loop.steps:
        at_least([shrink(step, rate, e) for e in elements], zero, zero)
    for demand in loop.demands:
        wide = [[row + [0.0] for row in e] + [[0.0] * (size + 1)] for e in elements]
        last = [[0.0] * (size + 1) for _ in range(size)] + [[0.0] * size + [1.0]]
        fixed = [[0.0] * size + [x] for x in demand] + [list(demand) + [0.0]]
        at_least(wide, last, fixed)
    k = loop.error
    most = cvxopt.matrix([[sum(k[i] * e[i][j] * k[j] for i in range(size) for j in range(size))] for e in elements] + [[0.0]])
    goal = cvxopt.matrix([0.0] * (number - 1) + [1.0])
    try:
        found = cvxopt.solvers.sdp(goal, Gl=most, hl=cvxopt.matrix([1.0]), Gs=blocks, hs=offsets)
    except (ArithmeticError, ValueError):
        return None
    if found["x"] is None or found["status"] != "optimal" and (found["gap"] is None or found["primal infeasibility"] is None or found["primal infeasibility"] > 1e-7):
        return None
    x = list(found["x"])
    p = [[sum(v * e[i][j] for v, e in zip(x, elements)) for j in range(size)] for i in range(size)]
    return (p, x[-1]) if is_positive(p) and all(is_positive(sum_of(p, step, rate), 1e-13) for step in loop.steps) else None


def sum_of(p, step, rate):
    return shrink(step, rate, p)


def is_positive(matrix, slack=0.0):
    """A Cholesky decomposition exists, but for a slack in parts of the diagonal."""
    size = len(matrix)
    lower = [[0.0] * size for _ in range(size)]
    for i in range(size):
        for j in range(i + 1):
            rest = matrix[i][j] - sum(lower[i][k] * lower[j][k] for k in range(j))
            if i == j:
                rest += slack * abs(matrix[i][i])
                if rest <= 0:
                    return False
                lower[i][i] = math.sqrt(rest)
            else:
                lower[i][j] = rest / lower[j][j]
    return True


def inverse(matrix):
    """By Gauss and Jordan, with the largest pivot."""
    size = len(matrix)
    rows = [[float(x) for x in row] + [1.0 if i == j else 0.0 for j in range(size)] for i, row in enumerate(matrix)]
    for i in range(size):
        best = max(range(i, size), key=lambda k: abs(rows[k][i]))
        rows[i], rows[best] = rows[best], rows[i]
        if rows[i][i] == 0:
            raise NotShown("the form has no inverse")
        rows[i] = [x / rows[i][i] for x in rows[i]]
        for k in range(size):
            if k != i and rows[k][i]:
                rows[k] = [x - rows[k][i] * y for x, y in zip(rows[k], rows[i])]
    return [row[size:] for row in rows]


def greatest_rate(cvxopt, loop):
    """The most that every step shrinks some form by, in parts of it a cycle, by bisection."""
    def has_form(rate):
        return best_form(cvxopt, loop, 1 - rate) is not None

    low = 0.0
    for start in (0.05, 0.01, 0.002, 0.0004, 0.0001, 0.00002):
        if has_form(start):
            low = start
            break
    if not low:
        raise NoForm("no form is common to the three steps of the loop: the leak is too small beside the gains, or damping is too small")
    high = low
    while high < 0.9 and has_form(min(high * 1.5, 0.95)):
        high *= 1.5
    low, high = high, min(high * 1.5, 0.95)
    for _ in range(10):
        middle = (low + high) / 2
        low, high = (middle, high) if has_form(middle) else (low, middle)
    return low


def cost(cert):
    """What C goes by."""
    return max(cert["g"]) * cert["b"] / (Q - cert["rho"])


def best_certificate(gains, say=lambda text: None):
    """The certificate of these gains with the least C that was found. NoForm where there is none."""
    cvxopt = solver()
    loop = Loop(gains)
    most = greatest_rate(cvxopt, loop)
    say("the loop's common rate is %.3g of a form a cycle" % most)
    tried = []
    for part in PARTS:
        found = best_form(cvxopt, loop, 1 - most * part)
        if found:
            tried.append((math.sqrt(max(found[1], 0)) / (most * part), part, found[0]))
    tried.sort(key=lambda one: one[0])
    best, reasons = None, []
    for about, part, p in tried:
        if best and about > best[0] * 1.02:
            break
        cert = rounded(loop, p, most * part, reasons)
        if cert:
            about = math.sqrt(1) * cost(cert)
            if best is None or about < best[1]:
                best = (tried[0][0] if best is None else best[0], about, cert)
    if best is None:
        raise NoForm(reason_of(gains, reasons))
    return best[2]


def rounded(loop, p, rate, reasons):
    """A certificate with this form in whole numbers, as large as they can be, or None."""
    raw = loop.plain(p)
    largest = max(abs(x) for row in raw for x in row)
    for room in ROOMS:
        rho = Q - math.floor(rate / (1 + room) * Q)
        for bits in BITS[loop.size]:
            scale = 2 ** bits / largest
            whole = [[round(x * scale) for x in row] for row in raw]
            if any(abs(x) > LARGEST for row in whole for x in row):
                continue
            try:
                return certificate_of(loop.gains, whole, rho, inverse(whole))
            except NotShown as fault:
                reasons.append((bits, whole[0][0], str(fault)))
    return None


def reason_of(gains, reasons):
    """What stands against a certificate, and what to change."""
    if not reasons:
        return "no form was found; a larger leak or a shorter time constant gives the loop more room"
    bits, first, last = reasons[-1]
    cycles = math.sqrt(Q / max(max(gains["kp"]), 1))
    if cycles >= 350 or first < 16:
        return ("a time constant of %.0f cycles is too long beside the range of `p` (its entries end at 2^40, and that of places comes to %d): a longer cycle or a "
                "shorter time constant") % (cycles, first)
    if "wide" in last:
        return "the certified set is too wide (%s): a larger leak or a shorter time constant makes it narrower" % last
    return "%s, at every rounding that was tried: a larger leak gives the matrices more room" % last
