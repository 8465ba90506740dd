"""Ready minutes and windows: refusals 15 and 16, the times at which something
changes, and the rows asked for.

Document 02, §5: "A new planner beside the old one takes a ready minute (0 to
1,000,000) for each job and one window, opening to closing minute in the same
range, for each processor." "Its buffer needs E × (n + m - 1) rows, E being the
distinct ready minutes, ends, openings and closings". "A ready minute out of range
is 15 and a window out of range or not closing after it opens is 16, both directly
before 8." Document 01: a refusal whose condition is about a single job carries
"the first such job; about a single processor: the first such processor".

The times stand beside the order: a ready minute for each job and a window,
(opening, closing), for each processor, in input order.
"""

from collections import namedtuple

import orders

MINUTE_LEAST, MINUTE_MOST = 0, 1000000

Times = namedtuple("Times", "ready windows")


def times(ready, windows):
    return Times(tuple(ready), tuple(tuple(window) for window in windows))


def in_range(minute):
    return MINUTE_LEAST <= minute <= MINUTE_MOST


def first(items, holds):
    """The number of the first of these for which this holds, else None."""
    return next((number for number, item in enumerate(items, 1) if holds(item)), None)


def ready_not_in_range(given):
    return first(given.ready, lambda minute: not in_range(minute))


def window_not_good(given):
    # "a window out of range or not closing after it opens"
    return first(given.windows, lambda window: not (
        in_range(window[0]) and in_range(window[1]) and window[0] < window[1]))


# The rows of the refusal table that are about times, each with its condition, in
# the order in which they are judged. A condition gives the number that the refusal
# carries, a job's or a processor's, or None.
ROWS = ((15, ready_not_in_range), (16, window_not_good))


def refusal_of_times(given):
    for number, condition in ROWS:
        carried = condition(given)
        if carried is not None:
            return orders.Refusal(number, carried)
    return None


def refusal(order, bound, given, limits=orders.DOCK):
    """Rows 1 to 7 and 13, then 15 and 16, "directly before 8", then 8."""
    refused = orders.refusal(order, limits) or refusal_of_times(given)
    if refused:
        return refused
    if not orders.bound_in_range(bound):
        return orders.Refusal(8, 0)
    return None


def changes(order, bound, given):
    """The distinct whole numbers at which something changes; an end may be below
    0. E is how many there are."""
    ends = {orders.end(job, bound) for job in order.jobs}
    return ends | set(given.ready) | {minute for window in given.windows
                                      for minute in window}


def rows_asked(order, bound, given):
    # "E × (n + m - 1) rows"
    return len(changes(order, bound, given)) * (order.n + order.m - 1)
