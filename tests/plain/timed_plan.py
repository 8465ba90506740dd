"""Planning with times: the stretches, the flow through them, and its layout.

Document 02, §5: "Document 001 shows the way by flow between times at which
something changes." "Its stretches lie between those times, laid out on the open
processors as in document 01 and joined as in §2." Document 001: "Let e_l be the
time instant at which the l th event takes place"; "Nodes representing tasks which
can be executed in the interval [..] are connected with nodes" of the interval.

No row begins before minute 0, so times below it are cut off at 0. Between two
neighbours nothing changes: a processor is open from the first to the second or at
no minute between, and so a job may run or may not.
"""

import flow
import join
import orders
import timed
import wrap


def stretches(order, bound, given, parts=1):
    """The stretches as (begin, end)."""
    marks = sorted({parts * max(0, minute)
                    for minute in timed.changes(order, bound, given)})
    return list(zip(marks, marks[1:]))


def is_open(window, begin, end, parts):
    opening, closing = window
    return parts * opening <= begin and end <= parts * closing


def open_processors(order, given, begin, end, parts=1):
    """The numbers of the processors open in a stretch, in the wrap's order."""
    return [number for number in wrap.processor_order(order)
            if is_open(given.windows[number - 1], begin, end, parts)]


def may_run(order, bound, given, job, begin, end, parts=1):
    """May a job (from 0) get minutes of this stretch?"""
    return (parts * given.ready[job] <= begin
            and end <= orders.end(order.jobs[job], bound, parts))


def on_hand(order, bound, given, parts):
    """The stretches of the flow, each with the memories open in it."""
    return [flow.Stretch(begin, end, [
        order.memories[number - 1]
        for number in open_processors(order, given, begin, end, parts)])
            for begin, end in stretches(order, bound, given, parts)]


def amounts(order, bound, given, parts=1):
    """What each job gets in each stretch, as flow.py has it; None if no plan that
    keeps the times meets the bound."""
    return flow.arriving(
        order, on_hand(order, bound, given, parts),
        lambda job, stretch: may_run(order, bound, given, job, stretch.begin,
                                     stretch.end, parts), parts)


def meets(order, bound, given, parts=1):
    return amounts(order, bound, given, parts) is not None


def by_stretch(order, bound, given, shares, parts=1):
    """The rows of each stretch, on the processors open in it."""
    return [wrap.layout(order, begin, end, wrap.given_in(place, shares),
                        open_processors(order, given, begin, end, parts))
            for place, (begin, end) in enumerate(stretches(order, bound, given, parts))]


def plan(order, bound, given, shares, parts=1):
    """The rows of a plan: the amounts laid out, stretch by stretch, and joined."""
    return join.joined(stretches(order, bound, given, parts),
                       by_stretch(order, bound, given, shares, parts))
