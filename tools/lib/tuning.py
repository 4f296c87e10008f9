"""Gains from a time constant, and what they come to: period, damping, and the offset under a force that nothing measures."""
import math

from certificates import Q
from allocation import acceleration, inertia

# Ranges of the plant file.
YAW_K3, YAW_K4, YAW_LEAST = 1 << 17, 1 << 24, 1 << 17


def over_q(value):
    return max(0, min(Q, round(value * Q)))


def gains_of(vessel):
    """The gains of surge and sway, and those of yaw: places in nm, times in cycles. All of it in accelerations, so that it holds for any
    vessel of the same cycle."""
    t = vessel["time_constant_s"] / vessel["cycle_s"]
    a, b, c = vessel["observer"]
    leak = over_q(vessel["leak"] / t)
    plane = {"k2": over_q(a / t), "k3": over_q(b / t ** 3), "k4": over_q(c / t ** 2), "leak": leak, "damp": leak,
             "kp": [over_q(1 / t ** 2)] * 2, "kd": [over_q(2 * vessel["damping"] / t)] * 2}
    yaw = {"k2": plane["k2"], "k3": min(YAW_K3, plane["k3"]), "k4": min(YAW_K4, plane["k4"]), "kp": plane["kp"][0], "kd": plane["kd"][0],
           "leak": max(YAW_LEAST, leak), "damp": max(YAW_LEAST, leak)}
    return plane, yaw


def wave_filter(vessel):
    """The matrix of the two wave states and what a place corrects in them: an oscillator of this period with a tenth of its critical
    damping, over one cycle."""
    turn = 2 * math.pi * vessel["cycle_s"] / vessel["wave_period_s"]
    left = math.exp(-0.1 * turn)
    c, s = (round(Q * left * f(turn)) for f in (math.cos, math.sin))
    return [c, s, -s, c], [round(-0.05 * Q), round(0.15 * Q)]


def with_bias(plane, yaw, found):
    """The most of a bias that is held against: 0.7 of the smallest box."""
    least = [min(min(case["hi"][j], -case["lo"][j]) for case in found) for j in range(3)]
    plane["bias"], yaw["bias"] = [int(0.7 * least[0]), int(0.7 * least[1])], int(0.7 * least[2])


def keys_in_order(plane):
    return [key for key in ("k2", "k3", "k4", "leak", "damp", "kp", "kd", "bias", "wave", "k1") if key in plane]


def offset(gains, kp, kd, bias, force):
    """How far off a steady force that nothing measures holds her (in the force's unit times cycle²), since the leak makes the bias no true
    integral: the error of the estimate, and of the estimate from the setpoint."""
    k2, k3, k4, leak, damp = (gains[key] / Q for key in ("k2", "k3", "k4", "leak", "damp"))
    if leak == 0 or kp == 0:
        return math.inf
    estimate = force / (k3 / leak + k4 + damp * k2)
    answered = max(-bias, min(bias, k3 / leak * estimate))
    return estimate + (force - answered + kd / Q * k2 * estimate) / (kp / Q)


def offsets(vessel, plane, yaw, found):
    """For each axis: a tenth of what the intact thrusters hold, in kN or kN·m, and the offset that it gives, in m or degrees."""
    intact, rows = found[0], []
    for axis in range(3):
        force = min(intact["hi"][axis], -intact["lo"][axis]) / 10
        gains, kp, kd, bias = (plane, plane["kp"][axis], plane["kd"][axis], plane["bias"][axis]) if axis < 2 else (yaw, yaw["kp"], yaw["kd"], yaw["bias"])
        turn = math.pi / 180 if axis == 2 else 1
        newtons = force * acceleration(vessel) * turn * inertia(vessel)[axis]
        rows.append((newtons / 1000, offset(gains, kp, kd, bias, force) * 1e-9))
    return rows


def wind_rows(vessel):
    """The wind table: what a wind of 1 m/s from the middle of each 30 degrees pushes, in accelerations, over 2^20 for a mm²/s²."""
    wind, mass = vessel["wind"], inertia(vessel)
    unit = 1e9 * vessel["cycle_s"] ** 2 / 1e6 * (1 << 20)
    pressure, rows = 0.5 * 1.225, []
    for row in range(12):
        angle = math.radians(30 * row + 15)
        surge = -pressure * wind["cx"] * wind["front_m2"] * math.cos(angle)
        sway = -pressure * wind["cy"] * wind["side_m2"] * math.sin(angle)
        turn = -pressure * wind["cn"] * wind["side_m2"] * vessel["length_m"] * math.sin(2 * angle)
        rows.append([round(surge / mass[0] * unit), round(sway / mass[1] * unit), round(turn / mass[2] * 180 / math.pi * unit)])
    return rows
