"""The reason as a sentence.

Document 02, §1: "the reason shall be one English line: the job with its time and
its end, or each class's memory with its due time, then minutes owed and minutes
on hand." "Negative numbers carry a minus sign; 1 to 8 apply, and a line longer
than its buffer is 9". "Reasons here are every job over its end or, with none
such, every overfull staircase; anything else composes to an empty line. Each
line composed for a reason reads back to that reason alone at a given order and
bound, any other line to none."
Document 01: "the job number with its time, or a staircase with its class count;
the due times stand beside it in an array". "Due times beyond k read 0."
"""

import re
from collections import namedtuple

import orders
import reason
from reason import Reason

JOB, STAIRS = 1, 2
# One due time for each class that there can be.
DUES = orders.PROCESSORS_MOST

# A reason as anybody may hand it in, 16 due times beside it. `which` is a job's
# number or a staircase's count; a staircase has no time, so none is looked at. A
# kind that is neither of the two is no reason.
Handed = namedtuple("Handed", "kind which time dues")


def late_jobs(order, bound):
    """The numbers of every job over its end."""
    return [number for number, job in enumerate(order.jobs, 1)
            if job.time > orders.end(job, bound)]


def overfull_stairs(order, bound):
    """The due times of every overfull staircase, in ranking order."""
    return [tuple(orders.due_at(time, bound) for time in staircase)
            for staircase in reason.staircases(order, bound)
            if reason.overfull(order, bound, staircase)]


def standing(order, bound):
    """Every reason that stands at an order and a bound, document 01's first."""
    late = late_jobs(order, bound)
    if late:
        return [Reason("job", number) for number in late]
    return [Reason("stairs", dues) for dues in overfull_stairs(order, bound)]


def is_staircase(order, dues):
    """Due times of one class or more that never rise, each that of some job."""
    return (1 <= len(dues) <= len(reason.class_memories(order))
            and all(one >= next_one for one, next_one in zip(dues, dues[1:]))
            and all(any(job.due == due for job in order.jobs) for due in dues))


def stands(order, bound, why):
    """Does this one reason stand? For orders of too many staircases to try each."""
    late = late_jobs(order, bound)
    if why.kind == "job":
        return why.values in late
    return (not late and is_staircase(order, why.values)
            and reason.overfull(order, bound, [orders.end_at(due, bound)
                                               for due in why.values]))


def line(order, bound, why):
    """The line of a reason."""
    owed, hand = reason.on_hand(order, bound, why)
    if why.kind == "job":
        job = order.jobs[why.values - 1]
        told = f"job {why.values}: time {job.time}, end {orders.end(job, bound)}"
    else:
        told = ", ".join(f"memory {memory} due {due}" for memory, due in zip(
            reason.class_memories(order), why.values))
    return f"{told}: owed {owed}, on hand {hand}"


def handed(order, why):
    """A reason as the planner tells it."""
    if why.kind == "job":
        time = order.jobs[why.values - 1].time
        return Handed(JOB, why.values, time, (0,) * DUES)
    count = len(why.values)
    return Handed(STAIRS, count, 0, tuple(why.values) + (0,) * (DUES - count))


def meant(order, given):
    """The reason that is told by what is handed in, standing or not; else None."""
    if given.kind == JOB:
        right = (1 <= given.which <= order.n
                 and given.time == order.jobs[given.which - 1].time
                 and not any(given.dues))
        return Reason("job", given.which) if right else None
    if given.kind == STAIRS:
        right = given.which <= DUES and not any(given.dues[given.which:])
        return Reason("stairs", tuple(given.dues[:given.which])) if right else None
    return None


def composed(order, bound, given):
    """The line of a reason that stands, the empty line for anything else."""
    why = meant(order, given)
    if why is None or not stands(order, bound, why):
        return ""
    return line(order, bound, why)


def refusal(order, bound, limits=orders.DOCK):
    """Rows 1 to 7 and 13, then 8."""
    refused = orders.refusal(order, limits)
    if refused:
        return refused
    return None if orders.bound_in_range(bound) else orders.Refusal(8, 0)


def too_long(text, room):
    """Row 9: "a line longer than its buffer"."""
    return len(text) > room


def compose(order, bound, given, room, limits=orders.DOCK):
    """A refusal, or the line written to a lent buffer of so many bytes."""
    refused = refusal(order, bound, limits)
    if refused:
        return refused
    text = composed(order, bound, given)
    return orders.Refusal(9, 0) if too_long(text, room) else text


# No number of a line has more than 10 digits.
NUMBER = rb"(?:0|-?[1-9][0-9]{0,9})"
SUMS = rb": owed %b, on hand %b" % (NUMBER, NUMBER)
CLASS = rb"memory %b due (%b)" % (NUMBER, NUMBER)
STAIRS_LINE = re.compile(rb"%b(?:, %b)*%b" % (CLASS, CLASS, SUMS))


def named(data):
    """The staircase that a line of the right form names, else None."""
    if not STAIRS_LINE.fullmatch(data):
        return None
    return Reason("stairs", tuple(map(int, re.findall(CLASS, data))))


def candidates(order, bound, data):
    """The reasons that stand and may have this line: all, where they are few."""
    if late_jobs(order, bound) or reason.few_staircases(order):
        return standing(order, bound)
    why = named(data)
    return [why] if why and stands(order, bound, why) else []


def same(text, data):
    """Are these bytes the line, no byte more and no byte less?"""
    return text.encode() == data


def read_back(order, bound, data, limits=orders.DOCK):
    """A refusal, or the one reason whose line these bytes are, or None."""
    refused = refusal(order, bound, limits)
    if refused:
        return refused
    for why in candidates(order, bound, data):
        if same(line(order, bound, why), data):
            return why
    return None
