"""Pages of the short outputs: what a check, a drift and a comparison say, as drawings and tables that need no script."""
import html
import math
import os

Q = 2 ** 30
WIDE, HIGH = 760, 300
STROKES = ["s0", "s1", "s2", "sf", "sa", "sw", "s3", "s4"]


def newtons(count):
    """Newtons in words, in kN where they are many."""
    return "%.1f kN" % (count / 1000) if abs(count) >= 1000 else "%.3g N" % count


def named(mask, groups):
    """The groups of a mask in words."""
    lost = [str(group) for group in range(groups) if mask >> group & 1]
    return "no group lost" if not lost else "group%s %s lost" % ("s" if len(lost) > 1 else "", ", ".join(lost))


def table(heads, rows):
    cells = "".join("<tr>%s" % "".join("<td>%s" % html.escape(str(cell)) for cell in row) for row in rows)
    return '<div class="wide"><table class="figures"><thead><tr>%s</thead><tbody>%s</tbody></table></div>' % ("".join("<th>%s" % html.escape(head) for head in heads), cells)


def bar(left, top, width, look):
    return '<rect class="%s" x="%g" y="%g" width="%.1f" height="9"/>' % (look, left, top, max(1, width))


def text(left, top, words, look=""):
    return '<text x="%g" y="%g"%s>%s</text>' % (left, top, ' class="%s"' % look if look else "", html.escape(words))


def drawing(height, label, content):
    return '<svg class="sheetdrawing" viewBox="0 0 %d %d" role="img" aria-label="%s">%s</svg>' % (WIDE, height, html.escape(label), content)


# ---- check ----

def check(plant, cases):
    """C and R of each case and thruster, in kN for a metre between the other two references, and in kN."""
    parts = ["<p>Replacing any one position reference, the other two within <i>s</i> metres of each other, moves a thruster's force by at most "
             "<b>C s + R</b>. As long as that is small beside the thruster's limit, a false reference can't do much.</p>"]
    most = max([c for _, rows in cases for c, _ in rows] + [1]) * 1e9 / 2 ** 20
    for mask, rows in cases:
        lines, drawn = [], []
        for k, (c, r) in enumerate(rows):
            thruster = plant["thruster"][k]
            slope, rest, limit = c * 1e9 / 2 ** 20, r / 2 ** 20, max(-thruster["min"], thruster["max"])
            reach = "-" if c == 0 else "%.2f m" % max(0, (limit - rest) / slope)
            lines.append(("t%d" % k, thruster["group"], "%.1f" % (limit / 1000), "%.1f" % (slope / 1000), "%.4f" % (rest / 1000), reach))
            drawn.append(text(4, 16 + 16 * k, "t%d" % k) + bar(40, 8 + 16 * k, slope / most * 560, "fill0") + text(46 + slope / most * 560, 16 + 16 * k, "%.1f kN/m" % (slope / 1000)))
        words = named(mask, plant["plant"]["groups"])
        parts.append("<h2>%s</h2>" % words + drawing(16 * len(rows) + 10, "C of each thruster with %s, in kN for a metre" % words, "".join(drawn))
                     + table(["thruster", "group", "limit kN", "C kN/m", "R kN", "C s + R is the limit at s ="], lines))
    return "".join(parts)


# ---- drift ----

def unit_way(damp, cycle):
    """How far an acceleration of 1 a cycle² carries in so many cycles, with this damping."""
    keeps = 1 - damp / Q
    if damp == 0:
        return cycle * (cycle + 1) / 2
    return (cycle - keeps * (1 - keeps ** cycle) / (1 - keeps)) / (1 - keeps)


def farther(what, limit, cycles, damp):
    """The way in metres after a unit's way of 1, on the axis that goes farther, and up to which cycle the output tells it."""
    if isinstance(what, int):
        before, at = unit_way(damp, what - 1), unit_way(damp, what)
        return limit / (math.sqrt(before * at) if before else at), what
    return max(map(abs, what)) / 1e9 / unit_way(damp, cycles), cycles


def in_words(what, limit, cycle_ms):
    if what == "nocase":
        return "the plant has no case for it: nothing is known"
    if what == "held":
        return "held: the thrusters that are left give the mean demand"
    if isinstance(what, int):
        return "past %g m in cycle %d, after %g s" % (limit, what, what * cycle_ms / 1000)
    return "%.3f m ahead and %.3f m to starboard after all cycles" % (what[0] / 1e9, what[1] / 1e9)


def drift(plant, groups, limit_mm, cycles):
    """The ways over cycles, were one more group lost, and what is said of each group."""
    limit, damp, cycle_ms = limit_mm / 1000, plant["gains"]["damp"], plant["plant"]["cycle_ms"]
    going = [(group, what, *farther(what, limit, cycles, damp)) for group, what in groups if what not in ("nocase", "held")]
    last = min(cycles, max([2 * what if isinstance(what, int) else cycles for _, what, *_ in going] + [1])) if going else cycles
    top = max([limit * 1.15, 0.001] + [size * unit_way(damp, until) * 1.05 for _, _, size, until in going])
    left, right, bottom = 60, WIDE - 90, HIGH - 30

    def at(cycle, way):
        return "%.1f %.1f" % (left + (right - left) * cycle / last, bottom - (bottom - 12) * min(way, top) / top)
    content = '<path class="frame" d="M%d 12H%dV%dH%dZ"/>' % (left, right, bottom, left)
    content += '<path class="limit" d="M%sL%s"/>' % (at(0, limit), at(last, limit)) + text(right + 5, float(at(0, limit).split(" ")[1]) + 4, "limit %g m" % limit)
    content += text(4, 18, "%.3g m" % top) + text(4, bottom, "0 m") + text(left, HIGH - 12, "cycle 0") + text(right - 70, HIGH - 12, "cycle %d (%g s)" % (last, last * cycle_ms / 1000))
    for number, (group, what, size, until) in enumerate(going):
        steps = sorted({round(until * step / 200) for step in range(201)})
        path = "L".join(at(cycle, size * unit_way(damp, cycle)) for cycle in steps)
        content += '<path class="trace %s" d="M%s"/>' % (STROKES[group], path)
        after = [until + (last - until) * step / 50 for step in range(51)] if until < last else []
        after = [cycle for cycle in after if size * unit_way(damp, cycle) <= top]
        if after:
            content += '<path class="trace guessed %s" d="M%s"/>' % (STROKES[group], "L".join(at(cycle, size * unit_way(damp, cycle)) for cycle in after))
        end = at(until, size * unit_way(damp, until)).split(" ")
        content += text(min(float(end[0]) + 14, right - 60), max(22, float(end[1])) + 16 + 14 * number, "group %d" % group)
    held = [str(group) for group, what in groups if what == "held"]
    words = "; ".join("group %d %s" % (group, in_words(what, limit, cycle_ms)) for group, what in groups)
    return ("<p>Were one more thruster group lost after the record, and the mean demand of its last 60 cycles went on: open-loop arithmetic; no controller, sensor or "
            "sea is simulated. The ways are drawn by the plant's damping through what is printed, on the axis that goes farther; past the limit, dotted, only its course is known.</p>"
            + drawing(HIGH, "Ways over cycles: %s" % words, content) + ("<p>Held, and so not drawn: group %s.</p>" % ", ".join(held) if held else "")
            + table(["were this group lost too", "the vessel"], [("group %d" % group, in_words(what, limit, cycle_ms)) for group, what in groups]))


# ---- compare ----

def compare(plant, wire, found):
    """How far each thruster moved, beside the bound that is proved."""
    twin, spread, moves, length = found
    parts = ["<p>Two records that differ on pos%s alone, in <b>%d</b> of %d cycles from the first on; in them the other two references were up to <b>%.3f m</b> apart. "
             % (wire, twin, length, spread / 1e9)]
    past = ["t%d" % k for k, (moved, _, bound) in enumerate(moves) if bound is not None and moved > bound]
    parts[0] += "<b class=\"Z\">%s moved by more than the bound, which no output of the proved program says.</b></p>" % ", ".join(past) if past \
        else "No force moved by more than its bound.</p>"
    if twin == 0:
        return parts[0] + "<p>The first cycle differs elsewhere too, or hasn't two usable references beside it: nothing is compared.</p>"
    most = max([bound for _, _, bound in moves] + [10])

    def along(force):
        return 0 if force < 1 else 520 * math.log10(force) / math.log10(most)
    drawn, lines = [], []
    for k, (moved, at, bound) in enumerate(moves):
        top, limit = 30 * k + 24, max(-plant["thruster"][k]["min"], plant["thruster"][k]["max"])
        drawn.append(text(4, top + 14, "t%d" % k) + bar(40, top, along(moved), "fill1") + bar(40, top + 11, along(bound), "fill0")
                     + text(46 + along(moved), top + 8, newtons(moved)) + text(46 + along(bound), top + 20, newtons(bound)))
        lines.append(("t%d" % k, newtons(moved), at, newtons(bound), "%.3g %%" % (100 * moved / bound) if bound else "-", newtons(limit), "%.3g %%" % (100 * moved / limit) if limit else "-"))
    scale = "".join('<path class="grid" d="M%.1f 16V%d"/>' % (40 + along(10 ** power), 30 * len(moves) + 24) + text(40 + along(10 ** power) - 6, 12, newtons(10 ** power))
                    for power in range(0, int(math.log10(most)) + 1))
    label = "; ".join("t%s moved %s, bound %s" % (row[0][1:], row[1], row[3]) for row in lines)
    key = '<ul class="legend"><li><i class="key one1"></i>moved <li><i class="key one0"></i>bound</ul><p>Each mark is ten times the one before.</p>'
    return parts[0] + key + drawing(30 * len(moves) + 30, label, scale + "".join(drawn)) + table(["thruster", "moved", "in cycle", "bound", "of the bound", "limit", "of the limit"], lines)


STYLE = """
.sheetdrawing { display: block; width: 100%; max-width: 900px; background: var(--lane); border: 1px solid var(--line); border-radius: 6px; margin: 8px 0; }
.figures { border-collapse: collapse; font-variant-numeric: tabular-nums; } .figures td, .figures th { text-align: right; padding: 3px 12px 3px 0; border-bottom: 1px solid var(--line); }
.figures td:first-child, .figures th:first-child { text-align: left; } .figures th { color: var(--soft); font-weight: 600; } h2 { font-size: 15px; margin: 18px 0 4px; }
.fill0 { fill: var(--one0); } .fill1 { fill: var(--one1); } .s3 { stroke: var(--held); } .s4 { stroke: var(--zero); } .guessed { stroke-dasharray: 2 5; } body { max-width: 1000px; }
@media print { .sheetdrawing, tr { break-inside: avoid; } h2 { break-after: avoid; } }
"""


def sheet(style, words, content):
    """A whole page of a command's words and what was drawn of its output."""
    title = html.escape(" ".join(["dp", words[0], *map(os.path.basename, words[1:])]))
    return ('<!doctype html>\n<html lang="en" data-drawn="1">\n<meta charset="utf-8">\n<meta name="viewport" content="width=device-width, initial-scale=1">\n'
            '<meta name="color-scheme" content="light dark">\n<title>%s</title>\n<style>%s%s</style>\n<header><h1>%s</h1></header>\n<main class="sheet">%s</main>\n</html>\n'
            % (title, style, STYLE.replace("body {", "main { display: block; } body {"), title, content))
