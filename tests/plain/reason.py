"""Why a bound is too tight.

Document 01: "Sort the distinct memories downwards: class 1 is the largest. A job
belongs to the last class whose memory still suffices. For a time T, the minutes
owed by a job are its whole time if its end is at most T, else its time less
(end - T), and 0 if that is negative."
"A reason is one of two kinds:
- a job whose time exceeds its end, the first such in input order;
- if there is none, a staircase: a count k and, for classes 1 to k, times that
  never rise, each the end of some job, such that the minutes owed by the jobs
  of each class at that class's time, summed, exceed the sum over the classes of
  (processors in class × time). The due times are reported, not the ends."
"Of several staircases the reason has the fewest classes, then the earliest time
for class 1, then for class 2, and so on".
"""

from collections import namedtuple

import orders

# kind "job": values is the job's number. kind "stairs": the due times of
# classes 1 to k.
Reason = namedtuple("Reason", "kind values")


def class_memories(order):
    """The distinct memories downwards; class 1 stands at place 0."""
    return sorted(set(order.memories), reverse=True)


def class_of(order, job):
    """The place of the last class whose memory still suffices."""
    suffice = [place for place, memory in enumerate(class_memories(order))
               if memory >= job.need]
    return suffice[-1]


def owed(job, bound, time):
    """The minutes owed by a job for a time."""
    end = orders.end(job, bound)
    if end <= time:
        return job.time
    return max(0, job.time - (end - time))


def first_late_job(order, bound):
    """The first job whose time exceeds its end, else None."""
    return orders.first_job(
        order, lambda job: job.time > orders.end(job, bound))


def never_rising(times, k):
    """All k times out of these (sorted upwards) that never rise: the earliest
    time for class 1 first, then for class 2, and so on."""
    if k == 0:
        yield ()
        return
    for place, time in enumerate(times):
        for rest in never_rising(times[:place + 1], k - 1):
            yield (time,) + rest


def staircases(order, bound):
    """All staircases in ranking order: the fewest classes first."""
    times = sorted({orders.end(job, bound) for job in order.jobs})
    for k in range(1, len(class_memories(order)) + 1):
        yield from never_rising(times, k)


def few_staircases(order):
    """Can all staircases be gone through in no time?"""
    return (len(class_memories(order)) <= 4
            and len({job.due for job in order.jobs}) <= 8)


def sums(order, bound, staircase):
    """Minutes owed and minutes on hand of a staircase."""
    owing = hand = 0
    for place, time in enumerate(staircase):
        memory = class_memories(order)[place]
        owing += sum(owed(job, bound, time) for job in order.jobs
                     if class_of(order, job) == place)
        hand += time * order.memories.count(memory)
    return owing, hand


def overfull(order, bound, staircase):
    owing, hand = sums(order, bound, staircase)
    return owing > hand


def first_overfull(order, bound):
    """The due times of the first overfull staircase, else None: "in that order
    the search stops at the first overfull staircase"."""
    for staircase in staircases(order, bound):
        if overfull(order, bound, staircase):
            return tuple(orders.due_at(time, bound) for time in staircase)
    return None


def reason(order, bound, stairs=None):
    """The reason why the bound is too tight, or None if there is none."""
    job = first_late_job(order, bound)
    if job:
        return Reason("job", job)
    found = (stairs or first_overfull)(order, bound)
    return Reason("stairs", found) if found else None


def on_hand(order, bound, why):
    """Minutes owed and on hand of a reason: for a job its time and its end, for
    a staircase its two sums."""
    if why.kind == "job":
        job = order.jobs[why.values - 1]
        return job.time, orders.end(job, bound)
    return sums(order, bound, [orders.end_at(due, bound) for due in why.values])
