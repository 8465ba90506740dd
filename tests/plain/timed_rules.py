"""When a plan keeps its times: the rules beside the four, also in parts of a minute.

Document 02, §5: "a right plan in which no row begins before its job's ready minute
or its processor's opening, nor has a `to` above that processor's closing". Where
each minute is cut into p parts, a minute named here is p times as many parts, as
document 01 has it of an end and a time.

Each rule gives None where it holds, else words that say where it does not. They are
asked only of right plans.
"""

import plan_rules


def after_ready(given, rows, parts):
    for number, (job, _, begin, _) in enumerate(rows, 1):
        ready = parts * given.ready[job - 1]
        if begin < ready:
            return f"row {number}: from {begin} is before {ready}, job {job} ready"
    return None


def after_opening(given, rows, parts):
    for number, (_, processor, begin, _) in enumerate(rows, 1):
        opening = parts * given.windows[processor - 1][0]
        if begin < opening:
            return f"row {number}: from {begin} is before the opening {opening}"
    return None


def by_closing(given, rows, parts):
    for number, (_, processor, _, to) in enumerate(rows, 1):
        closing = parts * given.windows[processor - 1][1]
        if to > closing:
            return f"row {number}: to {to} is above the closing {closing}"
    return None


RULES = [after_ready, after_opening, by_closing]


def broken_rule(order, bound, given, rows, parts=1):
    """None if the plan is right and keeps the times, else the first rule that it
    breaks."""
    said = plan_rules.broken_rule(order, bound, rows, parts)
    if said:
        return said
    for rule in RULES:
        said = rule(given, rows, parts)
        if said:
            return said
    return None


def right(order, bound, given, rows, parts=1):
    return broken_rule(order, bound, given, rows, parts) is None
