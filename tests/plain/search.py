"""Does a right plan meet a whole number? Every plan of a tiny order is tried.

Document 01: "A plan here is any finite list of rows, of any length and by any
maker. It meets a whole number, in the bound's range or not, if it is right for
the order with that number as the bound."

By the four rules a right plan says, for each minute (or part of one), which
jobs run and on which processors: a set of jobs, each on a processor of its own
that it fits, none at or after its end, each in all for exactly its time. So
the search goes minute by minute and tries every such set, the empty one too.
Preemption is free: nothing ties one minute to the next but the time left.
"""

import itertools

import orders


def runs_together(order, on_hand=None):
    """Every set of jobs that can run in one minute, each as a dict from job to
    processor (both from 0), larger sets first. `on_hand` are the processors that
    are on hand, all where none are named."""
    if on_hand is None:
        on_hand = range(order.m)
    found = {}
    for picks in itertools.product([None, *range(order.n)], repeat=len(on_hand)):
        run = {job: processor for processor, job in zip(on_hand, picks)
               if job is not None}
        busy = sum(job is not None for job in picks)
        if len(run) == busy and all(
                orders.fits(order.jobs[job], order.memories[processor])
                for job, processor in run.items()):
            found.setdefault(frozenset(run), run)
    return sorted(found.values(), key=len, reverse=True)


def from_minute(minute, left, ends, runs_in, dead):
    """Rows from this minute on that give each job what is left of its time, or
    None if there are none. `runs_in` gives the sets that can run in a minute;
    `dead` holds the states known to have none."""
    if not any(left):
        return []
    if (minute, left) in dead:
        return None
    if all(not rest or rest <= end - minute for rest, end in zip(left, ends)):
        for run in runs_in(minute):
            if all(left[job] for job in run):
                after = tuple(rest - (job in run)
                              for job, rest in enumerate(left))
                rows = from_minute(minute + 1, after, ends, runs_in, dead)
                if rows is not None:
                    return [(job + 1, processor + 1, minute, minute + 1)
                            for job, processor in run.items()] + rows
    dead.add((minute, left))
    return None


def plan_of(order, bound, parts, runs_in):
    """A right plan of the sets that `runs_in` gives for each part of a minute, or
    None if there is none. Each row is one part long."""
    ends = [orders.end(job, bound, parts) for job in order.jobs]
    times = tuple(parts * job.time for job in order.jobs)
    return from_minute(0, times, ends, runs_in, set())


def plan(order, bound, parts=1):
    """A right plan in so many parts a minute, or None if there is none."""
    runs = runs_together(order)
    return plan_of(order, bound, parts, lambda minute: runs)


def meets(order, bound, parts=1):
    return plan(order, bound, parts) is not None
