"""Times known only between a low and a high, the orders met between them, refusal 19.

Document 02, §9: "Before a session is read its working time is an estimate: a low and a
high. Makers want the least lateness at all lows and at all highs, with the assurance
that any order with times between has its least lateness between these two, and that
each whole number between them is reached by some such order, which is to be produced
on request: the first met when job 1, then job 2 and so on, goes minute by minute from
low to high. A number outside the two yields no order. A low above its high is 19, after
6 and 13, and both ends must be in the time's range or 5 is given."

An estimate is an order, whose times are the lows, and its highs, one to a job in input
order. The path is the orders met, the first with all lows, the last with all highs. Row
5 is one row for both ends: it carries the first job of which either is out of range. A
number is any signed 32-bit number. Where an order is produced its file goes into a lent
buffer, which may be too short for it: 9, last of all.
"""

from collections import namedtuple

import answers
import least
import order_file
import orders
import reason
import reason_large

# A path of up to so many minutes is walked.
STEPS_MOST = 200

Estimate = namedtuple("Estimate", "order highs")


def estimate(order, highs):
    return Estimate(order, tuple(highs))


def in_range(time):
    return orders.TIME_LEAST <= time <= orders.TIME_MOST


def first(given, holds):
    """The number of the first job for whose low and high this holds, else None."""
    ends = zip(lows(given), given.highs)
    return next((number for number, (low, high) in enumerate(ends, 1)
                 if holds(low, high)), None)


def end_not_in_range(given):
    # "both ends must be in the time's range"
    return first(given, lambda low, high: not (in_range(low) and in_range(high)))


def low_above_high(given):
    return first(given, lambda low, high: low > high)


def of_order(condition):
    """A condition on the order alone."""
    return lambda given: condition(given.order)


def rows(limits):
    """The rows of the refusal table that are about an estimate, each with its
    condition, in the order in which they are judged: 19 stands "after 6 and 13". A
    condition gives the number that the refusal carries (a job's, else 0), or None."""
    return (
        (1, of_order(orders.no_processor)),
        (limits.over_processors, of_order(orders.over_processors(limits))),
        (3, of_order(orders.no_job)),
        (limits.over_jobs, of_order(orders.over_jobs(limits))),
        (5, end_not_in_range),
        (6, of_order(orders.due_not_in_range)),
        (13, of_order(orders.maker_not_in_range)),
        (19, low_above_high),
        (7, of_order(orders.fits_no_processor)),
    )


def refusal(given, limits=orders.DOCK):
    """None if the estimate is accepted from a caller of these limits, else the first
    row that applies."""
    for number, condition in rows(limits):
        carried = condition(given)
        if carried is not None:
            return orders.Refusal(number, carried)
    return None


def lows(given):
    return tuple(job.time for job in given.order.jobs)


def with_times(order, times):
    """The order with these times in place of its own."""
    return order._replace(jobs=tuple(
        job._replace(time=time) for job, time in zip(order.jobs, times)))


def path(given):
    """The orders met when "job 1, then job 2 and so on, goes minute by minute from low
    to high"."""
    times = list(lows(given))
    yield with_times(given.order, times)
    for place, high in enumerate(given.highs):
        while times[place] < high:
            times[place] += 1
            yield with_times(given.order, times)


def meets(order, bound):
    """By the staircases, which are quick in large orders."""
    return reason.reason(order, bound, reason_large.first_overfull) is None


def least_lateness(order):
    """The least lateness of an accepted order, of many minutes by the staircases."""
    if sum(job.time for job in order.jobs) <= least.STEPS_MOST:
        return least.least(order)
    return least.by_halving(order, meets)


def leasts(given):
    # "the least lateness at all lows and at all highs"
    return tuple(least_lateness(with_times(given.order, times))
                 for times in (lows(given), given.highs))


def walked(given, number):
    """The first order of the path that has this least lateness, else None."""
    return next((order for order in path(given) if least_lateness(order) == number),
                None)


def minutes(given):
    """How many minutes the path takes."""
    return sum(given.highs) - sum(lows(given))


def order_at(given, minute):
    """The order met so many minutes along the path."""
    times = []
    for low, high in zip(lows(given), given.highs):
        times.append(min(low + minute, high))
        minute -= times[-1] - low
    return with_times(given.order, times)


def halved(given, number):
    """The same on a path too long to be walked: from minute to minute the least
    lateness stays or grows by one. It is looked at where it is found, and a minute
    before."""
    below, above = leasts(given)
    if not below <= number <= above:
        return None
    short, enough = -1, minutes(given)
    while enough - short > 1:
        middle = (short + enough) // 2
        if meets(order_at(given, middle), number - 1):
            short = middle
        else:
            enough = middle
    found = [least_lateness(order_at(given, minute))
             for minute in (enough - 1, enough) if minute >= 0]
    if found != [number - 1, number][-len(found):]:
        raise AssertionError(f"{number} is not first met after {enough} minutes")
    return order_at(given, enough)


def met(given, number):
    """The order to be produced for this number, else None."""
    if minutes(given) <= STEPS_MOST:
        return walked(given, number)
    return halved(given, number)


def least_between(given, limits=orders.DOCK):
    """A refusal, or the two numbers."""
    return refusal(given, limits) or leasts(given)


def order_between(given, number, limits=orders.DOCK):
    """A refusal, the order met, or None where "a number outside the two yields no
    order"."""
    return refusal(given, limits) or met(given, number)


def written(given, number, buffer):
    """The answer, and the lent buffer of bytes after it: the file of the order met from
    its first byte on. Where none is met no buffer is too short."""
    found = order_between(given, number)
    if isinstance(found, orders.Order):
        found = order_file.write(found, len(buffer))
    if isinstance(found, bytes):
        return found, found + buffer[len(found):]
    return found, buffer


def told_leasts(given, limits=orders.DOCK):
    found = least_between(given, limits)
    if isinstance(found, orders.Refusal):
        return answers.refused(found)
    return ["between {} {}".format(*found)]


def told_order(given, number, limits=orders.DOCK):
    found = order_between(given, number, limits)
    if isinstance(found, orders.Refusal):
        return answers.refused(found)
    return ["nowhere"] if found is None else answers.order_lines(found)


def told(order, highs, number, limits=orders.DOCK):
    """The lines of the expected outputs: the two numbers, then the order met."""
    given = estimate(order, highs)
    return told_leasts(given, limits) + told_order(given, number, limits)
