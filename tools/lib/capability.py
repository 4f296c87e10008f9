"""What wind a plant holds, by direction, intact and after a loss, and how far she goes where she can't hold it.

All of it by the plant file's own boxes and wind table: a static balance of the mean wind, with no waves, no current and no dynamics.
"""
import html
import math

from certificates import Q

FASTEST = 60.0          # m/s: the outermost ring
COLOURS = ["#1a1a1a", "#0060a0", "#a34f00", "#00704a", "#8d2a66", "#5b5b5b", "#6b6b00", "#b00020"]


def held_wind(case, row):
    """The greatest wind in m/s from a sector that a case's box holds against."""
    most = math.inf
    for axis, push in enumerate(row):
        if push:
            side = case["hi"][axis] if push < 0 else -case["lo"][axis]
            most = min(most, side * (1 << 20) / abs(push))
    return math.sqrt(most) / 1000


def table_of(plant):
    """For each case its lost groups and the wind that it holds from each of the twelve sectors."""
    return [(case["lost"], [held_wind(case, row) for row in plant["wind"]["push"]]) for case in plant["case"]]


def name_of(lost):
    groups = [str(g) for g in range(8) if lost >> g & 1]
    return "intact" if not groups else "group %s lost" % groups[0] if len(groups) == 1 else "groups %s lost" % " and ".join(groups)


def drift(mean, case, damp, cycles):
    """How far a mean demand that a box doesn't give lets her go in so many cycles, in nm, ahead and to starboard."""
    ways = []
    for axis in (0, 1):
        lacking = max(case["lo"][axis], min(case["hi"][axis], mean[axis])) - mean[axis]
        speed = way = 0
        for _ in range(cycles):
            speed = ((Q - damp) * speed + Q * lacking) // Q
            way += speed
        ways.append(way)
    return ways


def demand_of(row, speed):
    """The mean demand that a wind of so many m/s from a sector asks for."""
    return [-max(-(1 << 31), min(1 << 31, push * round(speed * 1000) ** 2 >> 20)) for push in row]


def footprint(plant, lost, seconds=60):
    """The worst sector of a wind that is just held intact, that wind, and how far the loss lets her go in so many seconds, in m."""
    cases = {case["lost"]: case for case in plant["case"]}
    cycles = max(1, round(seconds * 1000 / plant["plant"]["cycle_ms"]))
    worst = (0.0, 0, 0.0)
    for sector, row in enumerate(plant["wind"]["push"]):
        speed = min(held_wind(cases[0], row), FASTEST)
        way = drift(demand_of(row, speed), cases[lost], plant["gains"]["damp"], cycles)
        far = math.hypot(*way) * 1e-9
        if far > worst[0]:
            worst = (far, sector, speed)
    return worst


def point(speed, degrees):
    reach = 250 * min(speed, FASTEST) / FASTEST
    return "%.1f,%.1f" % (300 + reach * math.sin(math.radians(degrees)), 290 - reach * math.cos(math.radians(degrees)))


def plot(plant):
    """A polar plot as SVG: the direction that the wind comes from over the bow, and its speed in m/s."""
    out = ['<svg xmlns="http://www.w3.org/2000/svg" viewBox="0 0 600 %d" font-family="sans-serif" font-size="12" role="img" aria-label="capability plot">'
           % (600 + 18 * len(plant["case"]))]
    for speed in range(10, int(FASTEST) + 1, 10):
        out.append('<circle cx="300" cy="290" r="%.1f" fill="none" stroke="#bbb"/><text x="304" y="%.1f" fill="#444">%d m/s</text>'
                   % (250 * speed / FASTEST, 290 - 250 * speed / FASTEST + 13, speed))
    for degrees in range(0, 360, 30):
        out.append('<line x1="300" y1="290" x2="%s" y2="%s" stroke="#ddd"/>' % tuple(point(FASTEST, degrees).split(",")))
    for words, degrees in (("from ahead", 0), ("from starboard", 90), ("from astern", 180), ("from port", 270)):
        x, y = (float(v) for v in point(FASTEST, degrees).split(","))
        out.append('<text x="%.0f" y="%.0f" text-anchor="middle">%s</text>' % (min(max(x, 45), 555), y + (-6 if degrees == 0 else 16), words))
    for i, (lost, speeds) in enumerate(table_of(plant)):
        ring = " ".join(point(speed, degrees) for sector, speed in enumerate(speeds) for degrees in range(30 * sector, 30 * sector + 31, 5))
        colour, dash = COLOURS[i % len(COLOURS)], "" if i < len(COLOURS) else ' stroke-dasharray="5 3"'
        out.append('<polygon points="%s" fill="none" stroke="%s" stroke-width="2"%s/>' % (ring, colour, dash))
        y = 590 + 18 * i
        out.append('<line x1="30" y1="%d" x2="60" y2="%d" stroke="%s" stroke-width="3"%s/><text x="70" y="%d">%s</text>' % (y, y, colour, dash, y + 4, name_of(lost)))
    return "\n".join(out + ["</svg>"])


def rows_of(plant):
    """The table as lists of words: sectors down, cases across."""
    found = table_of(plant)
    yield ["wind from, degrees over the bow"] + [name_of(lost) for lost, _ in found]
    for sector in range(12):
        yield ["%d to %d" % (30 * sector, 30 * sector + 30)] + ["over %d" % FASTEST if speeds[sector] > FASTEST else "%.1f" % speeds[sector] for _, speeds in found]


def html_table(rows):
    rows = list(rows)
    head = "".join("<th>%s</th>" % html.escape(word) for word in rows[0])
    body = "".join("<tr>%s</tr>" % "".join("<td>%s</td>" % html.escape(word) for word in row) for row in rows[1:])
    return "<table><thead><tr>%s</tr></thead><tbody>%s</tbody></table>" % (head, body)


def page(title, parts):
    """A whole page: headings, each with HTML."""
    style = ("body{font:16px/1.5 sans-serif;max-width:60em;margin:2em auto;padding:0 1em;color:#1a1a1a;background:#fff}table{border-collapse:collapse;margin:1em 0}"
             "td,th{border:1px solid #999;padding:.2em .6em;text-align:right}th{background:#eee}td:first-child,th:first-child{text-align:left}svg{max-width:100%}"
             "@media print{body{margin:0;font-size:11pt}h2{break-after:avoid}table,svg{break-inside:avoid}}")
    body = "".join("<h2>%s</h2>%s" % (html.escape(heading), content) for heading, content in parts)
    return ('<!DOCTYPE html><html lang="en"><head><meta charset="utf-8"><meta name="viewport" content="width=device-width"><title>%s</title><style>%s</style></head>'
            "<body><h1>%s</h1>%s</body></html>\n") % (html.escape(title), style, html.escape(title), body)
