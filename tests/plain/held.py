"""The jobs held by class, and what is found along them.

Document 02, §8: "However planning walks the jobs now, they shall lie in memory by
falling need, ties in input order, each job once, with the input number kept beside
each. For every order the least lateness, reasons, refusals and rows are equal to
those of the input-order table."

The table has the jobs as they lie, each with its number; its places count from 0.
The jobs of a class lie side by side in it, those of class 1 first. Refusals, reason,
least lateness and rows are found here along the table; the other files find them
from the jobs in input order.
"""

from collections import namedtuple

import flow
import join
import least
import orders
import reason
import reason_large
import sentence
import timed_plan
import wrap

Held = namedtuple("Held", "number job")


def table(order):
    """The jobs need by need downwards, those of one need in input order."""
    needs = sorted({job.need for job in order.jobs}, reverse=True)
    return [Held(number, job) for need in needs
            for number, job in enumerate(order.jobs, 1) if job.need == need]


def each_once(order, held):
    if sorted(one.number for one in held) != list(range(1, len(order.jobs) + 1)):
        return "not each job once"
    return None


def numbers_beside(order, held):
    for place, one in enumerate(held):
        if one.job != order.jobs[one.number - 1]:
            return f"place {place}: not job {one.number}"
    return None


def falling_need(order, held):
    for place, (one, next_one) in enumerate(zip(held, held[1:])):
        if one.job.need < next_one.job.need:
            return f"place {place + 1}: the need rises"
    return None


def ties_in_input_order(order, held):
    for place, (one, next_one) in enumerate(zip(held, held[1:])):
        if one.job.need == next_one.job.need and one.number > next_one.number:
            return f"place {place + 1}: a tie against input order"
    return None


# Each gives None where it holds, else words that say where it does not. The later
# ones are asked only where the first one holds.
RULES = [each_once, numbers_beside, falling_need, ties_in_input_order]


def broken(order, held):
    """None if these are the jobs of the order as they shall lie."""
    for rule in RULES:
        said = rule(order, held)
        if said:
            return said
    return None


def first(held, holds):
    """The first in input order of the jobs for which this holds, wherever it lies;
    None if there is none."""
    return min((one for one in held if holds(one.job)),
               key=lambda one: one.number, default=None)


def refusal(order, limits=orders.DOCK):
    """None if the order is accepted from a caller of these limits, else the first row
    that applies. A row is about counts, or about a job by itself."""
    held = table(order)
    for number, condition in orders.rows(limits):
        if condition(order._replace(jobs=())) is not None:
            return orders.Refusal(number, 0)
        bad = first(held, lambda job: condition(
            order._replace(jobs=(job,))) is not None)
        if bad:
            return orders.Refusal(number, bad.number)
    return None


def late(held, bound):
    """The first job in input order whose time exceeds its end, else None."""
    return first(held, lambda job: job.time > orders.end(job, bound))


def by_class(order, held):
    """The part of the table that each class has: it ends where a smaller memory
    suffices."""
    parts, begin = [], 0
    for smaller in [*reason.class_memories(order)[1:], -1]:
        end = begin
        while end < len(held) and held[end].job.need > smaller:
            end += 1
        parts.append(held[begin:end])
        begin = end
    return parts


def excess(order, held, bound, times):
    """For each class and each time: minutes owed less minutes on hand."""
    memories = reason.class_memories(order)
    return [[sum(reason.owed(one.job, bound, time) for one in part)
             - time * order.memories.count(memory) for time in times]
            for memory, part in zip(memories, by_class(order, held))]


def stairs(order, held, bound):
    """The due times of the first overfull staircase, else None."""
    times = sorted({orders.end(one.job, bound) for one in held})
    gains = excess(order, held, bound, times)
    for k in range(1, len(gains) + 1):
        places = reason_large.earliest(gains, k)
        if places:
            return tuple(orders.due_at(times[place], bound) for place in places)
    return None


def told(order, held, bound):
    """The reason as the planner tells it, the job with its time; None if there is
    none."""
    one = late(held, bound)
    if one:
        return sentence.Handed(sentence.JOB, one.number, one.job.time,
                               (0,) * sentence.DUES)
    dues = stairs(order, held, bound)
    if dues is None:
        return None
    return sentence.Handed(sentence.STAIRS, len(dues), 0,
                           dues + (0,) * (sentence.DUES - len(dues)))


def line(order, bound):
    """The line of planning at a bound that is not refused, as answers.py has it."""
    why = told(order, table(order), bound)
    if why is None:
        return "meets"
    if why.kind == sentence.JOB:
        return f"tight job {why.which}"
    return " ".join(map(str, ("tight stairs", *why.dues[:why.which])))


def least_lateness(order):
    """The smallest whole number without a reason along the table."""
    held = table(order)
    return least.by_halving(
        order, lambda order, bound: told(order, held, bound) is None)


def as_they_lie(order, held):
    """The order that has the table's jobs for its input order."""
    return orders.order(order.memories, [one.job for one in held])


def times_as_they_lie(given, held):
    """Ready minutes and windows, each job's ready minute at its place."""
    return given._replace(ready=tuple(given.ready[one.number - 1] for one in held))


def amounts(order, held, bound, given=None):
    """What the job at each place gets in each stretch, as the flow gives it, with
    times if some are given; None if there is no plan."""
    lying = as_they_lie(order, held)
    if given is None:
        return flow.amounts(lying, bound)
    return timed_plan.amounts(lying, bound, times_as_they_lie(given, held))


def by_number(held, shares):
    """Amounts of places as amounts of the jobs that lie there."""
    return {(held[place].number - 1, stretch): amount
            for (place, stretch), amount in shares.items()}


def layout(held, processors, begin, end, shares):
    """The rows of one stretch; `shares` is {place: amount}. The amounts follow one
    another as the jobs lie, on one processor after the other."""
    rows, before, length = [], 0, end - begin
    for place, one in enumerate(held):
        upto = before + shares.get(place, 0)
        while before < upto:
            processor, minute = divmod(before, length)
            piece = min(upto - before, length - minute)
            rows.append((one.number, processors[processor], begin + minute,
                         begin + minute + piece))
            before += piece
    return rows


def plan(order, held, bound, shares, given=None):
    """The rows of a plan, laid out along the table and joined; with times on the
    processors that are open."""
    if given is None:
        stretches = wrap.stretches(order, bound)
        on_hand = [wrap.processor_order(order)] * len(stretches)
    else:
        stretches = timed_plan.stretches(order, bound, given)
        on_hand = [timed_plan.open_processors(order, given, *stretch)
                   for stretch in stretches]
    return join.joined(stretches, [
        layout(held, processors, *stretch, {
            job: amount for (job, at), amount in shares.items() if at == number})
        for number, (stretch, processors) in enumerate(zip(stretches, on_hand))])
