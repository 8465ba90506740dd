"""Cases of the check of plans with times.

Document 02, §5: "no row begins before its job's ready minute or its processor's
opening, nor has a `to` above that processor's closing"; "its check asks the same of
up to 8,064 rows, more is 11." Each case is (what it shows, record).
"""

import cases_check
import draw
import flow
import known_orders
import known_timed
import least
import orders
import timed
import timed_plan
import timed_search
import wrap
from cases_check import numbers
from cases_timed import met_first, watch_case, with_ready, with_windows
from known_orders import C

TOP = orders.WORD_MOST


def worked():
    for story, order, bound, given, _, rows in known_timed.WORKED:
        if rows:
            yield watch_case(story, order, bound, given, numbers(rows))
            yield watch_case(f"{story}, one row left out", order, bound, given,
                             numbers(rows[1:]))


def one_row():
    """C's row, one minute about each time: ready, opening, closing and end."""
    given = timed.times([3], [(2, 9)])
    for begin in range(0, 8):
        yield watch_case(f"C ready at 3, window 2-9, row from {begin}", C, -1, given,
                         (1, 1, begin, begin + 3))
        yield watch_case(f"C ready at 2, window 3-8, row from {begin}", C, -1,
                         timed.times([2], [(3, 8)]), (1, 1, begin, begin + 3))
    for bound in (-3, -2, -1):
        yield watch_case("C ready at 3, window 2-9, row 6-9", C, bound, given,
                         (1, 1, 6, 9))
    late = timed.times([999997], [(0, 1000000)])
    for begin in (999996, 999997, 999998):
        yield watch_case(f"the latest minutes, row from {begin}", C, 1000000, late,
                         (1, 1, begin, begin + 3))
    for row in ((0, 1, 4, 7), (2, 1, 4, 7), (1, 0, 4, 7), (1, 2, 4, 7), (1, 1, 7, 4),
                (1, 1, 4, 4), (TOP, 1, 4, 7), (1, TOP, 4, 7), (1, 1, TOP, 2),
                (1, 1, 4, 8), (1, 1, 4, 6), (1, 1, TOP - 3, TOP), (257, 1, 4, 7),
                (49, 1, 4, 7), (1, 17, 4, 7)):
        yield watch_case(f"C with times, only the row {row}", C, -1, given, row)
        yield watch_case(f"C with times, a right plan and the row {row}", C, -1, given,
                         (1, 1, 4, 7, *row))


def left_over():
    given = timed.times([3], [(2, 9)])
    good = (1, 1, 4, 7)
    yield watch_case("C with times, no rows", C, -1, given, [])
    for count in (1, 2, 3):
        yield watch_case(f"C with times, {count} numbers left over", C, -1, given,
                         good + (1, 1, 7)[:count])
        yield watch_case(f"C with times, {count} zeros left over", C, -1, given,
                         good + (0,) * count)
        yield watch_case(f"C with times, only {count} numbers", C, -1, given,
                         good[:count])
    for middle in (5, 6):
        rows = [(1, 1, middle, 7), (1, 1, 4, middle)]
        yield watch_case(f"C with times, in two rows cut at {middle}", C, -1, given,
                         numbers(rows))
    yield watch_case("C with times, only its first row too early", C, -1, given,
                     numbers([(1, 1, 2, 3), (1, 1, 5, 7)]))
    yield watch_case("C with times, only its last row too late", C, 5, given,
                     numbers([(1, 1, 4, 6), (1, 1, 9, 10)]))


def other_ones():
    """Each row is judged by its own job's and its own processor's times."""
    order = orders.order([4, 4, 4], [(1, 9, 4)] * 3)
    given = timed.times([1, 3, 5], [(5, 7), (1, 3), (3, 5)])
    for ones in ((2, 3, 1), (3, 1, 2), (1, 2, 3), (2, 1, 3), (3, 2, 1), (1, 3, 2)):
        rows = [(job, processor, begin, begin + 1)
                for job, processor, begin in zip((1, 2, 3), ones, (1, 3, 5))]
        yield watch_case(f"rows at the ready minutes, on processors {ones}", order, -1,
                         given, numbers(rows))
    for ones in ((2, 1, 3), (1, 3, 2), (3, 2, 1), (2, 3, 1)):
        rows = [(job, processor, begin, begin + 1)
                for job, processor, begin in zip(ones, (2, 3, 1), (1, 3, 5))]
        yield watch_case(f"rows in their windows, of jobs {ones}", order, -1, given,
                         numbers(rows))
    for job in (1, 2, 3):
        for ready in (given.ready[job - 1] + 1, given.ready[job - 1]):
            yield watch_case(f"job {job} ready at {ready}", order, -1,
                             with_ready(given, {job: ready}),
                             numbers([(1, 2, 1, 2), (2, 3, 3, 4), (3, 1, 5, 6)]))


def earliest(rows, column, number):
    return min(row[2] for row in rows if row[column] == number)


def latest(rows, number):
    return max(row[3] for row in rows if row[1] == number)


def sharpened(of, given, rows):
    """The times as sharp as the plan allows in one thing, and one minute sharper:
    (what is sharpened, the times)."""
    job, processor = of.one_of(rows)[:2]
    opening, closing = given.windows[processor - 1]
    ready = earliest(rows, 0, job)
    first, last = earliest(rows, 1, processor), latest(rows, processor)
    return (("a job ready at its first row",
             with_ready(given, {job: ready})),
            ("a job ready one minute after its first row begins",
             with_ready(given, {job: ready + 1})),
            ("a window opens at its first row",
             with_windows(given, {processor: (first, closing)})),
            ("a window opens one minute after its first row begins",
             with_windows(given, {processor: (first + 1, closing)})),
            ("a window closes at the end of its last row",
             with_windows(given, {processor: (opening, last)})),
            ("a window closes one minute before the end of its last row",
             with_windows(given, {processor: (opening, last - 1)})))


def cut_in_two(of, rows):
    """Each row cut at a minute of its own, where it has one inside."""
    cut = []
    for job, processor, begin, to in rows:
        middle = of.between(begin, to)
        cut += [(job, processor, *span) for span in ((begin, middle), (middle, to))
                if span[0] < span[1]]
    return cut


def made(of, order, bound, given):
    """A plan that keeps the times in one of three forms, and the form's name."""
    form = of.below(3)
    if form == 0:
        return "one row a minute", timed_search.plan(order, bound, given)
    rows = timed_plan.plan(order, bound, given, timed_plan.amounts(order, bound, given))
    if form == 1:
        return "the wrap, joined", rows
    return "split rows", cut_in_two(of, rows)


def with_plan(of):
    """A drawn order, times, and a bound that is met with them."""
    while True:
        order = of.one_of((draw.tiny, draw.crowded, draw.stepped))(of)
        given = draw.times(of, order)
        bound = met_first(order, given)
        if bound is not None:
            return order, bound + of.one_of((0, 0, 1, 4)), given


def drawn(count):
    """Plans that keep the times, and such with one change."""
    of = draw.Draw(531)
    for number in range(count):
        order, bound, given = with_plan(of)
        form, rows = made(of, order, bound, given)
        name, at, lent = cases_check.changed(of, order, bound, rows)
        yield watch_case(f"drawn plan {number}, {form}: {name}", order, at, given, lent)
        sharp, times = of.one_of(sharpened(of, given, rows))
        yield watch_case(f"drawn plan {number}, {form}: {sharp}", order, bound, times,
                         numbers(of.shuffled(rows)))


def without_times(count):
    """Plans that are right without times, and may not keep them."""
    of = draw.Draw(532)
    for number in range(count):
        order = of.one_of((draw.tiny, draw.crowded, draw.stepped))(of)
        bound = least.least(order) + of.below(3)
        rows = wrap.plan(order, bound, flow.amounts(order, bound))
        yield watch_case(f"a plan without times {number}", order, bound,
                         draw.times(of, order), numbers(rows))
        yield watch_case(f"a plan without times {number}, windows wide open", order,
                         bound, draw.wide_open(order), numbers(rows))


def full():
    of = draw.Draw(533)
    order, bound, given = known_orders.FULL, known_timed.FULL_AT, known_timed.FULL_TIMES
    rows = timed_plan.plan(order, bound, given, timed_plan.amounts(order, bound, given))
    yield watch_case(f"full with times, {len(rows)} rows in any order", order, bound,
                     given, numbers(of.shuffled(rows)))
    for story, times in sharpened(of, given, rows):
        yield watch_case(f"full, {story}", order, bound, times, numbers(rows))
    yield watch_case("full with times, the bound one less", order, bound - 1, given,
                     numbers(rows))


def large():
    """8,064 rows of one minute each, from the ready minute to the end; then one
    number more, which is one row more."""
    of = draw.Draw(534)
    order = orders.order([4], [(8064, 8067, 4)])
    given = timed.times([3], [(3, 8067)])
    rows = of.shuffled([(1, 1, minute, minute + 1) for minute in range(3, 8067)])
    yield watch_case("8,064 rows in any order", order, -1, given, numbers(rows))
    yield watch_case("8,064 rows and 1 number left over", order, -1, given,
                     numbers(rows) + [1])


def cases():
    for part in (worked(), one_row(), left_over(), other_ones(), drawn(420),
                 without_times(90), full(), large()):
        yield from part
