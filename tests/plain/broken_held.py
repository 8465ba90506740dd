"""What document 02, §8, invites to get wrong: jobs that lie in another order.

"by falling need, ties in input order, each job once, with the input number kept
beside each." Each variant is as in broken.py: what is broken, where, by what, and the
test that catches it.
"""

import draw
import held
import orders
import reason
import sentence

LYING = "test_held.Table.test_worked"
TRIED = "test_held.Table.test_by_trying_all"
REARRANGED = "test_held.Table.test_rearranged"
BY_CLASS = "test_held.Table.test_by_class"
LATE = "test_held.Found.test_worked"
STAIRS = "test_held.Found.test_worked_stairs"
EACH_TOLD = "test_held.Found.test_each_job_told_once"
REASONS = "test_held.Found.test_reasons"
LEAST = "test_held.Found.test_least_lateness"
REFUSALS = "test_held.Found.test_refusals"
ROWS = "test_held.Rows.test_worked"
DRAWN_ROWS = "test_held.Rows.test_rows"
MET = "test_held.Rows.test_met_or_not"
TIMED = "test_held.Rows.test_worked_with_times"
DRAWN_TIMED = "test_held.Rows.test_rows_with_times"
STORED = "test_streams.Stored.test_along_the_jobs_held"

right_table = held.table
right_told = held.told
right_layout = held.layout
right_lying = held.as_they_lie


def numbered(order):
    return [held.Held(number, job) for number, job in enumerate(order.jobs, 1)]


def by(key):
    """The jobs by something else."""
    return lambda order: sorted(numbered(order), key=key)


def by_class_only(order):
    """Ties among jobs of one class, not of one need."""
    return sorted(numbered(order), key=lambda one: reason.class_of(order, one.job))


def signed(number):
    return number - 4294967296 if number > 2147483647 else number


def changed(change):
    """The table with a change of its list."""
    return lambda order: change(right_table(order))


def each_need_once(order):
    """Of jobs of one need the last alone is kept."""
    return list({one.job.need: one for one in right_table(order)}.values())


def places_beside(order):
    return [one._replace(number=place)
            for place, one in enumerate(right_table(order), 1)]


def needs_alone(order):
    """The needs as they shall lie; times and due times stay in input order."""
    return [held.Held(one.number, job._replace(need=one.job.need))
            for one, job in zip(right_table(order), order.jobs)]


TABLES = [
    ("ties turned", held, "table", by(lambda one: (-one.job.need, -one.number)), LYING),
    ("ties by due time", held, "table", by(lambda one: (-one.job.need, one.job.due)),
     REARRANGED),
    ("ties by time, the longest first", held, "table",
     by(lambda one: (-one.job.need, -one.job.time)), LYING),
    ("by rising need", held, "table", by(lambda one: one.job.need), LYING),
    ("in input order", held, "table", numbered, LYING),
    ("by class, not by need", held, "table", by_class_only, LYING),
    ("needs as signed numbers", held, "table",
     by(lambda one: -signed(one.job.need)), LYING),
    ("needs in 16 bits", held, "table", by(lambda one: -(one.job.need % 65536)), LYING),
    ("a job held twice, another left out", held, "table",
     changed(lambda lying: lying[:-1] + lying[:1]), REARRANGED),
    ("a job held twice, another left out, by reasons", held, "table",
     changed(lambda lying: lying[:-1] + lying[:1]), EACH_TOLD),
    ("a job held twice beside all others", held, "table",
     changed(lambda lying: lying + lying[-1:]), REARRANGED),
    ("a job held twice beside all others, by the least lateness", held, "table",
     changed(lambda lying: lying + lying[-1:]), LEAST),
    ("the last job left out", held, "table", changed(lambda lying: lying[:-1]),
     REARRANGED),
    ("the last job left out, by the least lateness", held, "table",
     changed(lambda lying: lying[:-1]), LEAST),
    ("jobs of one need held once", held, "table", each_need_once, LYING),
    ("the place kept beside", held, "table", places_beside, LYING),
    ("the place kept beside, by reasons", held, "table", places_beside, LATE),
    ("the place kept beside, by rows", held, "table", places_beside, ROWS),
    ("numbers from 0 kept beside", held, "table", changed(
        lambda lying: [one._replace(number=one.number - 1) for one in lying]), LYING),
    ("needs held, times and due times in input order", held, "table", needs_alone,
     REARRANGED),
    ("needs held, times and due times in input order, by reasons", held, "table",
     needs_alone, STAIRS),
    ("needs held, times and due times in input order, by the least lateness", held,
     "table", needs_alone, LEAST),
]


def without(rule):
    return [one for one in held.RULES if one is not rule]


def as_many(order, held_jobs):
    return None if len(held_jobs) == len(order.jobs) else "not as many"


RULES = [
    ("a table of the right length", held, "RULES",
     [as_many, *without(held.each_once)], TRIED),
    ("a table without the numbers", held, "RULES", without(held.numbers_beside), TRIED),
    ("a table that may rise", held, "RULES", without(held.falling_need), TRIED),
    ("a table with ties in any order", held, "RULES",
     without(held.ties_in_input_order), TRIED),
    ("needs that fall without a tie", held, "RULES", [
        *held.RULES, lambda order, lying: len({
            one.job.need for one in lying}) < len(lying) and "a tie"], TRIED),
    ("draws in which a job lies at its place", draw, "apart",
     lambda draw, jobs: jobs, "test_held.Table.test_place_and_number_differ"),
]


def first_place(lying, holds):
    return next((one for one in lying if holds(one.job)), None)


def place_told(lying, holds):
    """The first in input order, by its place."""
    one = right_first(lying, holds)
    return one and one._replace(number=lying.index(one) + 1)


def place_of_first_place(lying, holds):
    one = first_place(lying, holds)
    return one and one._replace(number=lying.index(one) + 1)


def last_number(lying, holds):
    return max((one for one in lying if holds(one.job)),
               key=lambda one: one.number, default=None)


def with_time(time):
    """The reason with another time beside its job."""
    def told(order, lying, bound):
        why = right_told(order, lying, bound)
        if why and why.kind == sentence.JOB:
            return why._replace(time=time(lying, bound, why.which))
        return why
    return told


def time_at_place(lying, bound, number):
    """The time at the place of the number."""
    return lying[number - 1].job.time


def time_of_first_place(lying, bound, number):
    return next(one.job.time for one in lying
                if one.job.time > orders.end(one.job, bound))


def class_with_its_edge(order, lying):
    """A need that is just the smaller memory left in the class before."""
    lower = order._replace(memories=tuple(memory - 1 for memory in order.memories))
    return right_by_class(lower, lying)


def class_of_numbers(order, lying):
    """The jobs whose numbers are the places of a class."""
    parts, jobs = [], numbered(order)
    for part in right_by_class(order, lying):
        parts.append(jobs[:len(part)])
        jobs = jobs[len(part):]
    return parts


def first_of_table(order, holds):
    """The first job as they lie, by its number."""
    one = first_place(right_table(order), holds)
    return one and one.number


def place_of_first_job(order, holds):
    """The first job in input order, by its place."""
    one = place_told(right_table(order), holds)
    return one and one.number


right_first = held.first
right_by_class = held.by_class

FOUND = [
    ("the first place over its end told", held, "first", first_place, LATE),
    ("the first place over its end told, drawn", held, "first", first_place, REASONS),
    ("the place told as the job", held, "first", place_told, LATE),
    ("the place told as the job, each in turn", held, "first", place_told, EACH_TOLD),
    ("the first place told by its place", held, "first", place_of_first_place, LATE),
    ("the first place over its end told, in the stream", held, "first", first_place,
     STORED),
    ("the last job over its end told", held, "first", last_number, LATE),
    ("a refusal of the first place", held, "first", first_place, REFUSALS),
    ("a refusal that carries the place", held, "first", place_told, REFUSALS),
    ("the time at the place of the number", held, "told", with_time(time_at_place),
     LATE),
    ("the time of the first place over its end", held, "told",
     with_time(time_of_first_place), LATE),
    ("the time at the place of the number, drawn", held, "told",
     with_time(time_at_place), REASONS),
    ("a need that is a memory in the class before", held, "by_class",
     class_with_its_edge, BY_CLASS),
    ("a need that is a memory in the class before, by reasons", held, "by_class",
     class_with_its_edge, STAIRS),
    ("the places of a class taken for numbers", held, "by_class", class_of_numbers,
     BY_CLASS),
    ("the places of a class taken for numbers, by reasons", held, "by_class",
     class_of_numbers, STAIRS),
    ("the places of a class taken for numbers, by the least lateness", held,
     "by_class", class_of_numbers, LEAST),
    ("the places of a class taken for numbers, in the stream", held, "by_class",
     class_of_numbers, STORED),
    ("in input order, the first place over its end told", orders, "first_job",
     first_of_table, LATE),
    ("in input order, the place told as the job", orders, "first_job",
     place_of_first_job, LATE),
    ("in input order, a refusal of the first place", orders, "first_job",
     first_of_table, REFUSALS),
    ("in input order, a refusal that carries the place", orders, "first_job",
     place_of_first_job, REFUSALS),
]


def places_named(lying, *rest):
    return right_layout([one._replace(number=place)
                         for place, one in enumerate(lying, 1)], *rest)


def along(key):
    """The amounts laid out along the jobs in another order."""
    def layout(lying, processors, begin, end, shares):
        ranked = sorted(range(len(lying)), key=lambda place: key(lying[place]))
        return right_layout(
            [lying[place] for place in ranked], processors, begin, end,
            {at: shares.get(place, 0) for at, place in enumerate(ranked)})
    return layout


def column_left(name):
    """A column of the jobs left in input order."""
    def lying(order, table):
        jobs = [one.job._replace(**{name: getattr(job, name)})
                for one, job in zip(table, order.jobs)]
        return orders.order(order.memories, jobs)
    return lying


def ready_at_numbers(given, lying):
    """Each ready minute at the place that its number is, the other way round."""
    ready = [None] * len(lying)
    for place, one in enumerate(lying):
        ready[one.number - 1] = given.ready[place]
    return given._replace(ready=tuple(ready))


def ready_by_falling_minute(given, lying):
    return given._replace(ready=tuple(sorted(given.ready, reverse=True)))


LAID = [
    ("rows name places", held, "layout", places_named, ROWS),
    ("rows name places, drawn", held, "layout", places_named, DRAWN_ROWS),
    ("rows name places, with times", held, "layout", places_named, TIMED),
    ("laid out in input order", held, "layout", along(lambda one: one.number), ROWS),
    ("laid out by rising need", held, "layout", along(lambda one: one.job.need), ROWS),
    ("equal needs laid out from the last", held, "layout",
     along(lambda one: (-one.job.need, -one.number)), ROWS),
    ("equal needs laid out from the last, drawn", held, "layout",
     along(lambda one: (-one.job.need, -one.number)), DRAWN_ROWS),
    ("equal needs laid out from the last, with times", held, "layout",
     along(lambda one: (-one.job.need, -one.number)), TIMED),
    ("amounts of places given to numbers", held, "by_number",
     lambda lying, shares: shares, DRAWN_ROWS),
    ("amounts of places given to numbers, with times", held, "by_number",
     lambda lying, shares: shares, DRAWN_TIMED),
    ("amounts of numbers given to places", held, "as_they_lie",
     lambda order, lying: order, ROWS),
    ("times left in input order", held, "as_they_lie", column_left("time"), ROWS),
    ("ends left in input order", held, "as_they_lie", column_left("due"), MET),
    ("ends left in input order, with times", held, "as_they_lie", column_left("due"),
     DRAWN_TIMED),
    ("needs left in input order", held, "as_they_lie", column_left("need"), MET),
    ("ready minutes left in input order", held, "times_as_they_lie",
     lambda given, lying: given, TIMED),
    ("ready minutes left in input order, drawn", held, "times_as_they_lie",
     lambda given, lying: given, DRAWN_TIMED),
    ("ready minutes at the places of numbers", held, "times_as_they_lie",
     ready_at_numbers, TIMED),
    ("ready minutes sorted by themselves", held, "times_as_they_lie",
     ready_by_falling_minute, TIMED),
]

VARIANTS = TABLES + RULES + FOUND + LAID
