"""An order, its limits, the end of a job, and refusals 1 to 7, 13, 20 and 21.

Document 01: "A processor has a memory, 0 to 4,294,967,295. There are 1 to 16."
"A job has a time of 1 to 100,000, a due time of -1,000,000 to 1,000,000 and a
need of 0 to 4,294,967,295. There are 1 to 48. A job fits a processor whose
memory is at least its need." "A bound is a whole number of -10,000,000 to
10,000,000." "Jobs and processors carry numbers from 1 in input order."
Document 02, §3: "The due minute is included." "A job's end is due time plus
bound plus 1 from here on, in plans, checks and staircases alike."
Document 02, §4: "Each job gains a maker number, 1 to 16, in the record". "In
document 01's cases the maker is 1. A maker number out of range is 13, right
after 6 in the order".
Document 02, §10: "A screen in boathouses calls the same planner and holds 12 jobs and
4 processors." "the limit belongs to the call". "A screen order over 12 jobs is 20 and
over 4 processors is 21, given in place of 4 and 2 and where those stand."
"""

from collections import namedtuple

WORD_MOST = 4294967295
PROCESSORS_MOST = 16
JOBS_MOST = 48
TIME_LEAST, TIME_MOST = 1, 100000
DUE_LEAST, DUE_MOST = -1000000, 1000000
BOUND_LEAST, BOUND_MOST = -10000000, 10000000
MAKER_LEAST, MAKER_MOST = 1, 16
# "In document 01's cases the maker is 1": so it is of a job given as (time, due,
# need).
MAKER_OF_DOCUMENT_01 = 1

Job = namedtuple("Job", "time due need maker",
                 defaults=(MAKER_OF_DOCUMENT_01,))
Order = namedtuple("Order", "memories jobs m n")
Refusal = namedtuple("Refusal", "number carried")

# The most processors and jobs that a caller's order may have, and the number of the
# refusal for more of either.
Limits = namedtuple("Limits", "processors jobs over_processors over_jobs")
DOCK = Limits(PROCESSORS_MOST, JOBS_MOST, 2, 4)
SCREEN = Limits(4, 12, 21, 20)


def order(memories, jobs, m=None, n=None):
    """An order of these lists. A count m or n beyond the list given stands for
    the list of that many: the given ones, then zeros."""
    memories = tuple(memories)
    jobs = tuple(Job(*job) for job in jobs)
    return Order(memories, jobs,
                 len(memories) if m is None else m,
                 len(jobs) if n is None else n)


def fits(job, memory):
    # "A job fits a processor whose memory is at least its need."
    return memory >= job.need


def end_at(due, bound):
    # "A job's end is due time plus bound plus 1".
    return due + bound + 1


def due_at(end, bound):
    """The due time that has this end."""
    return end - end_at(0, bound)


def end(job, bound, parts=1):
    """The end of a job, counted in so many parts a minute."""
    return parts * end_at(job.due, bound)


def first_job(an_order, holds):
    """The number of the first job for which this holds, else None."""
    for number, job in enumerate(an_order.jobs, 1):
        if holds(job):
            return number
    return None


def no_processor(an_order):
    return 0 if an_order.m == 0 else None


def over_processors(limits):
    return lambda an_order: 0 if an_order.m > limits.processors else None


def no_job(an_order):
    return 0 if an_order.n == 0 else None


def over_jobs(limits):
    return lambda an_order: 0 if an_order.n > limits.jobs else None


def time_not_in_range(an_order):
    return first_job(
        an_order, lambda job: not TIME_LEAST <= job.time <= TIME_MOST)


def due_not_in_range(an_order):
    return first_job(
        an_order, lambda job: not DUE_LEAST <= job.due <= DUE_MOST)


def maker_not_in_range(an_order):
    return first_job(
        an_order, lambda job: not MAKER_LEAST <= job.maker <= MAKER_MOST)


def fits_no_processor(an_order):
    return first_job(an_order, lambda job: not any(
        fits(job, memory) for memory in an_order.memories))


def rows(limits):
    """The rows of the refusal table that are about an order, each with its condition,
    in the order in which they are judged: 13 stands "right after 6", 20 and 21 where 4
    and 2 stand. A condition gives the number that the refusal carries (a job's, else
    0), or None."""
    return (
        (1, no_processor),
        (limits.over_processors, over_processors(limits)),
        (3, no_job),
        (limits.over_jobs, over_jobs(limits)),
        (5, time_not_in_range),
        (6, due_not_in_range),
        (13, maker_not_in_range),
        (7, fits_no_processor),
    )


def refusal(an_order, limits=DOCK):
    """None if the order is accepted from a caller of these limits, else the first row
    that applies."""
    for number, condition in rows(limits):
        carried = condition(an_order)
        if carried is not None:
            return Refusal(number, carried)
    return None


def bound_in_range(bound):
    return BOUND_LEAST <= bound <= BOUND_MOST


def rows_needed(an_order):
    # "With q distinct due times, n jobs and m processors there are at most
    # q × (n + m - 1) rows."
    distinct = len({job.due for job in an_order.jobs})
    return distinct * (an_order.n + an_order.m - 1)
