"""The acts of a script, as far as a page shows them. docs/FORMATS.md has the rules."""
import blocks

# How many parts follow each verb.
VERBS = {"usual": 0, "run": 1, "order": 2, "orders": 1, "tell": 2, "skew": 3, "say": 3, "lie": 4, "junk": 3, "stop": 1, "restart": 1, "upgrade": 1}


def acts_of(name):
    """All acts, as cycle and words, but for the usual ones."""
    found, before = [], 0
    with blocks.opened(name) as file:
        for number, line in enumerate(file, 1):
            line = line.rstrip("\r\n")
            if not line or line.startswith("#"):
                continue
            cycle, _, act = line.partition(" ")
            verb, *parts = act.split(" ")
            if not cycle.isdigit() or VERBS.get(verb) != len(parts):
                raise blocks.Refused("%s %d: %r is no line of a script" % (name, number, line[:80]))
            if int(cycle) < before:
                raise blocks.Refused("%s %d: cycle %s comes after cycle %d, which no script has" % (name, number, cycle, before))
            before = int(cycle)
            if act != "usual":
                found.append([before, act])
    return found


def stopped(acts):
    """For each cycle the computers that are stopped in it, and not started again in it."""
    found = {}
    for cycle, act in acts:
        verb, *parts = act.split(" ")
        if verb == "stop" and parts[0] in ("0", "1", "2"):
            found.setdefault(cycle, set()).add(int(parts[0]))
        elif verb in ("restart", "upgrade") and parts[0] in ("0", "1", "2"):
            found.get(cycle, set()).discard(int(parts[0]))
    return found
