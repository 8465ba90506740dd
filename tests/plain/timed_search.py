"""Does a plan that keeps the times meet a whole number? By search, minute by minute.

Document 02, §5: "no row begins before its job's ready minute or its processor's
opening, nor has a `to` above that processor's closing". So in each minute, or part
of one, the jobs that are ready run on the processors that are open; all else is as
in search.py. No stretch and no flow comes into it.
"""

import search


def open_in(given, minute, parts):
    """The processors (from 0) that are open in this part of a minute."""
    return tuple(place for place, (opening, closing) in enumerate(given.windows)
                 if parts * opening <= minute and minute + 1 <= parts * closing)


def runs_in(order, given, parts):
    """Gives the sets of jobs that can run in a part of a minute."""
    known = {}

    def runs(minute):
        processors = open_in(given, minute, parts)
        ready = tuple(parts * one <= minute for one in given.ready)
        if (processors, ready) not in known:
            known[processors, ready] = [
                run for run in search.runs_together(order, processors)
                if all(ready[job] for job in run)]
        return known[processors, ready]
    return runs


def plan(order, bound, given, parts=1):
    """A right plan that keeps the times, or None if there is none."""
    return search.plan_of(order, bound, parts, runs_in(order, given, parts))


def meets(order, bound, given, parts=1):
    return plan(order, bound, given, parts) is not None
