"""Cases of jobs that lie in another order than they are given in.

Document 02, §8: "they shall lie in memory by falling need, ties in input order, each
job once, with the input number kept beside each. For every order the least lateness,
reasons, refusals and rows are equal to those of the input-order table." Each case is
(what it shows, record).
"""

import book
import cases_book
import cases_check
import cases_sentence
import cases_timed
import draw
import held
import known_held
import least
import order_file
import orders
import sentence
import timed
from cases_planner import least_case, plan_case
from reason import Reason
from stream_form import LEAST, PLAN, Record


def late_as_they_lie(order, bound):
    """The numbers of the jobs over their ends, in the order in which they lie."""
    over = sentence.late_jobs(order, bound)
    return [one.number for one in held.table(order) if one.number in over]


def told_apart(order):
    """The highest bounds at which some job is late, where several are and the one told
    does not lie first."""
    highest = sorted({job.time - orders.end(job, 1) for job in order.jobs})
    lying = [late_as_they_lie(order, bound) for bound in highest]
    return [bound for bound, late in zip(highest, lying) if late[0] != min(late)]


def by_place(order, rows):
    """The rows with the place of each job, from 1, for its number."""
    lying = [one.number for one in held.table(order)]
    return [(lying.index(job) + 1, *rest) for job, *rest in rows]


def lying():
    """Each job of few, and one of many, once the first that is late: job k takes k
    minutes."""
    for story, order, _ in known_held.LYING:
        for time in range(order.n) if order.n < 48 else (28,):
            yield plan_case(f"{story}, jobs over {time} minutes late", order,
                            time - orders.end(order.jobs[0], 0))


def handed(order, number):
    """Reasons as they may be handed in: the job, its place for its number, and with
    the time of the job at the place of its number."""
    table = held.table(order)
    time = order.jobs[number - 1].time
    place = [one.number for one in table].index(number) + 1
    return (cases_sentence.job(number, time), cases_sentence.job(place, time),
            cases_sentence.job(number, table[number - 1].job.time))


def late():
    for story, order, number, _ in known_held.LATE:
        yield plan_case(story, order, -1)
        for given in handed(order, number):
            yield cases_sentence.compose_case(story, order, -1, given)
        line = sentence.line(order, -1, Reason("job", number))
        yield cases_sentence.parse_case(story, order, -1, line.encode())


def stairs():
    for story, order, dues in known_held.STAIRS:
        yield least_case(story, order)
        for bound in (-2, -1, least.least(order)):
            yield plan_case(story, order, bound)
        yield cases_sentence.compose_case(story, order, -1,
                                          cases_sentence.stairs(*dues))


def rows():
    for story, order, written in known_held.ROWS:
        yield least_case(story, order)
        yield plan_case(story, order, -1)
        yield plan_case(story, order, -2)
        for name, given in (("its rows", written),
                            ("places for jobs", by_place(order, written))):
            yield cases_check.case(f"{story} at -1, {name}", order, -1,
                                   cases_check.numbers(given))


def refused():
    for story, jobs, _, _ in known_held.REFUSED:
        order = orders.order([8], jobs)
        yield f"refusal {story}", Record("read", (order_file.encode(order),))
        yield least_case(f"refusal {story}", order, 100)
        yield plan_case(f"refusal {story}", order, -1, 100)
        yield cases_timed.timed_case(f"refusal {story}", order, -1,
                                     draw.wide_open(order), 100)


def with_times():
    for story, order, bound, given, written in known_held.TIMED:
        yield cases_timed.timed_case(story, order, bound, given)
        yield cases_timed.timed_case(story, order, bound - 1, given)
        for name, lent in (("its rows", written),
                           ("places for jobs", by_place(order, written))):
            yield cases_timed.watch_case(f"{story}, {name}", order, bound, given,
                                         cases_check.numbers(lent))
    four = orders.order([8], [(1, 9, need) for need in (4, 2, 8, 8)])
    for places in ((2, 4), (1, 3), (4,)):
        given = cases_timed.with_ready(draw.wide_open(four), {
            place: timed.MINUTE_MOST + 1 for place in places})
        yield from cases_timed.each_call(
            f"15 tells the first of jobs {places}", four, 0, given, 400)


def about(of, story, order):
    """The least lateness, a plan at it, the reasons below, also with several jobs
    late; a line, times or a book."""
    bound, several = least.least(order), of.one_of(told_apart(order))
    yield least_case(story, order)
    yield plan_case(story, order, bound)
    yield plan_case(story, order, bound - 1)
    yield plan_case(f"{story}, several late", order, several)
    turn = of.below(4)
    if turn == 0:
        number = of.one_of(sentence.late_jobs(order, several))
        yield cases_sentence.compose_case(story, order, several, of.one_of(
            handed(order, number)))
    elif turn == 1:
        why = Reason("job", of.one_of(sentence.late_jobs(order, several)))
        yield cases_sentence.parse_case(
            story, order, several, sentence.line(order, several, why).encode())
    elif turn == 2:
        yield from cases_timed.around(of, story, order, draw.times(of, order))
    else:
        yield cases_book.case(
            f"{story}, several late between two plans", book.OPENED,
            cases_book.call(PLAN, order, bound),
            cases_book.call(PLAN, order, several), cases_book.call(LEAST, order))


def drawn(seed, count, story, family):
    """Every other order decided by a staircase."""
    of = draw.Draw(seed)
    for number in range(count):
        order = family(of)
        while not told_apart(order) or (
                number % 2 and least.least(order) == least.floor(order)):
            order = family(of)
        yield from about(of, f"{story} {number}", order)


def cases():
    for part in (lying(), late(), stairs(), rows(), refused(), with_times(),
                 drawn(551, 24, "drawn needs", draw.mixed_tiny),
                 drawn(552, 6, "drawn needs of a larger order", draw.mixed_more)):
        yield from part
