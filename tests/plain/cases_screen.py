"""Cases of a screen's calls, and of a dock's beside them.

Document 02, §10: "An order within the screen's limits gets the dock's own reply from
either caller". "A screen order over 12 jobs is 20 and over 4 processors is 21, given in
place of 4 and 2 and where those stand." Each case is (what it shows, record). Of most
of the screen's cases within the limits the dock's stands in the stream as well, here or
in the other files.
"""

import book
import cases_book
import cases_check
import cases_estimate
import cases_planner
import cases_read
import cases_sentence
import cases_timed
import cases_timed_check
import cases_write
import draw
import estimate
import known_screen
import order_file
import orders
import timed
from known_screen import counted
from stream_form import LEAST, PLAN, Call, Record

# A job of which 5, 6, 13 and 7 hold.
BAD = (0, 1000001, 9, 17)
ROW = [1, 1, 0, 1]
TOO_FAR = 10000001


def screens(story, kind, values):
    return story, Record(kind, values, orders.SCREEN)


def both(story, kind, values):
    """The dock's case and the screen's."""
    yield story, Record(kind, values)
    yield screens(story, kind, values)


def told(m, n):
    return f"{m} processors, {n} jobs"


def good(order):
    """The values of a case of each kind with a good bound, room and times."""
    given = draw.wide_open(order)
    calls = Call(LEAST, order, 0, 400), Call(PLAN, order, 0, 400)
    return {"read": (order_file.encode(order),), "check": (order, 0, ROW),
            "least": (order, 400), "plan": (order, 0, 400), "write": (order, 900),
            "compose": (order, 0, 0, 0, 0, known_screen.NO_DUES, 900),
            "parse": (order, 0, b""), "book": (book.OPENED, calls),
            "asked": (order, 0, given), "timed": (order, 0, given, 900),
            "watch": (order, 0, given, ROW),
            "between": (order, tuple(job.time for job in order.jobs), 0)}


def late(order):
    """The values of a case of each kind of which all of 8, 9, 14, 15, 16 and 19 hold
    that the kind has; in that of 19 all times are in range."""
    given = draw.wide_open(order)
    bad = timed.times([1000001] * len(given.ready), [(7, 7)] * len(given.windows))
    calls = Call(LEAST, order, TOO_FAR, 0), Call(PLAN, order, TOO_FAR, 0)
    low = estimate.with_times(order, [2] * len(order.jobs))
    return {"read": (order_file.encode(order),), "check": (order, TOO_FAR, ROW),
            "least": (order, 0), "plan": (order, TOO_FAR, 0), "write": (order, 0),
            "compose": (order, TOO_FAR, 1, 1, 1, known_screen.NO_DUES, 0),
            "parse": (order, -TOO_FAR, b""), "book": (cases_book.FULL_BOOK, calls),
            "asked": (order, TOO_FAR, bad), "timed": (order, TOO_FAR, bad, 0),
            "watch": (order, TOO_FAR, bad, ROW),
            "between": (low, (1,) * len(low.jobs), 0)}


def known():
    for story, kind, values, _ in known_screen.WITHIN:
        yield from both(story, kind, values)
    for story, kind, values, _, _ in known_screen.OVER:
        yield from both(story, kind, values)
    for story, data, _, _ in known_screen.FILES:
        yield screens(story, "read", (data,))


def worked():
    """The worked counts that are refused, and nothing else in order: those of few jobs
    and one of 13 by every kind, the others by three."""
    for m, n, _, by_screen in known_screen.WORKED:
        for kind, values in late(counted(m, n, {1: BAD})).items():
            story = f"{told(m, n)}, all else out of order"
            if n < 2:
                yield from both(story, kind, values)
            elif by_screen and (m == 4 or kind in ("check", "plan", "between")):
                yield screens(story, kind, values)


def counts():
    """Every two counts, by value and as a file."""
    for m in known_screen.PROCESSORS:
        for n in known_screen.JOBS:
            values = good(counted(m, n))
            for kind in ("least", "read"):
                yield screens(told(m, n), kind, values[kind])
    for place, (m, n, _, _) in enumerate(known_screen.FAR_COUNTS):
        order = counted(m, n)
        kind, values = (("least", (order, 400)), ("check", (order, 0, ROW)),
                        ("write", (order, 900)))[place % 3]
        yield screens(told(m, n), kind, values)


def faults_in(m, n):
    """The faults that are put into an order of these counts: each about the screen's
    limits, else one."""
    turn = known_screen.PROCESSORS.index(m) + known_screen.JOBS.index(n)
    if n < 48 and m in (1, 4):
        return known_screen.FAULTS
    return known_screen.FAULTS[turn % 4:][:1] if n < 48 or m == 4 else []


def faults():
    """One fault in a job, the first or the last, by two counts and by each kind."""
    put = [(m, n, *fault) for m in known_screen.PROCESSORS
           for n in known_screen.JOBS[1:] for fault in faults_in(m, n)]
    for turn, (m, n, story, job, _) in enumerate(put):
        place = (1, min(n, 48))[turn % 2]
        kind = ("read", "plan", "write", "check", "least")[turn % 5]
        values = good(counted(m, n, {place: job}))[kind]
        yield screens(f"{told(m, n)}, {story} at job {place}", kind, values)
    for story, job, _ in known_screen.FAULTS:
        for kind, values in good(counted(2, 2, {2: job})).items():
            yield screens(f"{story} at job 2", kind, values)


def orders_of(record):
    """The orders that a case is about; a file of which 12 holds has none."""
    if record.kind == "read":
        order = order_file.lists(*record.values)
        return [order] if order else []
    if record.kind == "book":
        return [call.order for call in record.values[1]]
    return [record.values[0]]


def within(record):
    """Are all orders of a case within the screen's limits?"""
    return all(order.m <= 4 and order.n <= 12 for order in orders_of(record))


# Cases of the other files, and how many of each are the screen's as well.
OTHERS = (
    (cases_read.good_files, 5), (cases_read.refused_orders, 9), (cases_read.places, 6),
    (cases_check.of_document, 12), (cases_check.malformed, 8),
    (cases_check.two_processors, 5), (cases_write.cases, 9),
    (cases_planner.of_document, 10), (cases_planner.refused, 7),
    (cases_planner.rooms, 12), (cases_planner.limits, 6), (cases_planner.telling, 8),
    (cases_sentence.of_document, 8), (cases_sentence.rooms, 5),
    (cases_sentence.refused, 15), (cases_sentence.anything_else, 4),
    (cases_sentence.elsewhere, 4), (cases_book.of_request, 5),
    (cases_book.precedence, 6), (cases_timed.worked, 19), (cases_timed.ranges, 19),
    (cases_timed.precedence, 14), (cases_timed_check.worked, 5),
    (cases_timed_check.one_row, 5), (cases_estimate.worked, 9),
    (cases_estimate.refused, 15), (cases_estimate.limits, 3),
)


def evenly(items, count):
    items = list(items)
    return [items[len(items) * place // count] for place in range(count)]


def of_the_others():
    """Cases within the limits that the dock has in the other files."""
    for part, count in OTHERS:
        found = [case for case in part() if within(case[1])]
        for story, record in evenly(found, count):
            yield screens(story, record.kind, record.values)


def rows():
    """3,024 rows and 3,025."""
    for story, record in list(cases_check.large())[:2]:
        yield screens(story, record.kind, record.values)


def cases():
    for part in (known(), worked(), counts(), faults(), of_the_others(), rows()):
        yield from part
