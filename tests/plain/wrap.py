"""McNaughton's wrap: the layout of amounts in stretches.

Document 01: "The planner cuts time at the distinct ends into stretches, the
first from minute 0. Inside a stretch the jobs' amounts are laid out by
McNaughton's wrap [..]: processors by falling memory, jobs with an amount by
falling need, ties in input order; fill a processor to the stretch's end, then
go on at the next one's beginning. Rows stand by stretch, then by that processor
order, then by `from`."
"""

import orders


def stretches(order, bound):
    """The stretches as (begin, end)."""
    cuts = sorted({orders.end(job, bound) for job in order.jobs})
    return list(zip([0] + cuts, cuts))


def processor_order(order):
    """Processor numbers by falling memory, ties in input order."""
    return sorted(range(1, order.m + 1),
                  key=lambda number: (-order.memories[number - 1], number))


def job_order(order):
    """Job numbers by falling need, ties in input order."""
    return sorted(range(1, order.n + 1),
                  key=lambda number: (-order.jobs[number - 1].need, number))


def layout(order, begin, end, given, processors=None):
    """The rows of one stretch; `given` is {job number: amount}, `processors` are
    filled in their order, all where none are named. Runs over the last processor
    where the amounts exceed the stretch (IndexError)."""
    if processors is None:
        processors = processor_order(order)
    rows, place, minute = [], 0, begin
    for job in job_order(order):
        amount = given.get(job, 0)
        while amount:
            piece = min(amount, end - minute)
            rows.append((job, processors[place], minute, minute + piece))
            amount -= piece
            minute += piece
            if minute == end:
                place, minute = place + 1, begin
    return rows


def given_in(stretch, amounts):
    """The amounts of one stretch by job number; `amounts` as the flow gives them."""
    return {job + 1: amount for (job, at), amount in amounts.items() if at == stretch}


def by_stretch(order, bound, amounts):
    """The rows of each stretch; `amounts` as the flow gives them."""
    return [layout(order, begin, end, given_in(stretch, amounts))
            for stretch, (begin, end) in enumerate(stretches(order, bound))]


def plan(order, bound, amounts):
    """The rows of all stretches, each of them cut at the ends."""
    return [row for rows in by_stretch(order, bound, amounts) for row in rows]
