"""What document 02, §9, invites to get wrong: times known between two numbers.

"the first met when job 1, then job 2 and so on, goes minute by minute from low to
high"; "A low above its high is 19, after 6 and 13, and both ends must be in the time's
range or 5 is given." Each variant is as in broken.py: what is broken, where, by what,
and the test that catches it.
"""

import estimate
import least
import order_file
import orders
import stream_form

TABLE = "test_estimate.Refusals.test_table"
PAIRS = "test_estimate.Refusals.test_pairs"
ACCEPTED = "test_estimate.Refusals.test_accepted"
EITHER_END = "test_estimate.Refusals.test_either_end_out_of_range"
SMALL_ENDS = "test_estimate.Refusals.test_every_small_low_and_high"
ROWS = estimate.rows(orders.DOCK)


def in_order(*numbers):
    """The rows of these numbers alone, in this order."""
    rows = dict(ROWS)
    return lambda limits: tuple((number, rows[number]) for number in numbers)


def with_row(number, condition, *behind):
    """The rows with another condition for this number, and others behind them."""
    return lambda limits: (*((row, condition if row == number else right)
                             for row, right in ROWS), *behind)


def ends_where(holds, told=lambda numbers: numbers[0]):
    """A condition on low and high, and what it tells of the jobs found."""
    def condition(given):
        found = [number for number, (low, high) in enumerate(
            zip(estimate.lows(given), given.highs), 1) if holds(low, high)]
        return told(found) if found else None
    return condition


def bad(low, high):
    return not (estimate.in_range(low) and estimate.in_range(high))


def above(low, high):
    return low > high


low_bad = ends_where(lambda low, high: not estimate.in_range(low))
high_bad = ends_where(lambda low, high: not estimate.in_range(high))


def one_then_other(one, other):
    """The first job by one condition, or else by the other."""
    def condition(given):
        found = one(given)
        return other(given) if found is None else found
    return condition


REFUSALS = [
    ("no 19", estimate, "rows", in_order(1, 2, 3, 4, 5, 6, 13, 7), TABLE),
    ("19 at equal", estimate, "rows",
     with_row(19, ends_where(lambda low, high: low >= high)), ACCEPTED),
    ("19 behind 7", estimate, "rows", in_order(1, 2, 3, 4, 5, 6, 13, 7, 19), PAIRS),
    ("19 before 13", estimate, "rows", in_order(1, 2, 3, 4, 5, 6, 19, 13, 7), PAIRS),
    ("19 before 6", estimate, "rows", in_order(1, 2, 3, 4, 5, 19, 6, 13, 7), PAIRS),
    ("19 before 5", estimate, "rows", in_order(1, 2, 3, 4, 19, 5, 6, 13, 7), PAIRS),
    ("19 before 1 to 4", estimate, "rows",
     in_order(19, 1, 2, 3, 4, 5, 6, 13, 7), TABLE),
    ("19 tells the last such job", estimate, "rows",
     with_row(19, ends_where(above, max)), SMALL_ENDS),
    ("19 without the job", estimate, "rows",
     with_row(19, ends_where(above, lambda numbers: 0)), TABLE),
    ("19 judged in 16 bits", estimate, "rows",
     with_row(19, ends_where(lambda low, high: low % 65536 > high % 65536)), TABLE),
    ("a low above its high let through in 16 bits", estimate, "rows",
     with_row(19, ends_where(lambda low, high: low % 65536 > high % 65536)), ACCEPTED),
    ("5 of lows only", estimate, "rows", with_row(5, low_bad), EITHER_END),
    ("5 of highs only", estimate, "rows", with_row(5, high_bad), EITHER_END),
    ("5 where both ends are bad only", estimate, "rows",
     with_row(5, ends_where(lambda low, high: not (
         estimate.in_range(low) or estimate.in_range(high)))), EITHER_END),
    ("5 tells a bad low before a bad high of an earlier job", estimate, "rows",
     with_row(5, one_then_other(low_bad, high_bad)), TABLE),
    ("5 tells a bad high before a bad low of an earlier job", estimate, "rows",
     with_row(5, one_then_other(high_bad, low_bad)), PAIRS),
    ("5 tells the last such job", estimate, "rows",
     with_row(5, ends_where(bad, max)), SMALL_ENDS),
    ("5 of highs behind all others", estimate, "rows",
     with_row(5, low_bad, (5, high_bad)), PAIRS),
    ("highs up to 99,999", estimate, "in_range", lambda time: 1 <= time <= 99999,
     ACCEPTED),
    ("a high of 0 let through", estimate, "in_range", lambda time: time <= 100000,
     TABLE),
]


def ranked(key):
    """The jobs go in another order; `key` is given a job and its place."""
    def path(given):
        jobs = given.order.jobs
        times = list(estimate.lows(given))
        yield given.order
        for place in sorted(range(len(jobs)), key=lambda at: key(jobs[at], at)):
            while times[place] < given.highs[place]:
                times[place] += 1
                yield estimate.with_times(given.order, times)
    return path


def in_turn(given):
    """Each job goes a minute, then the next."""
    times = list(estimate.lows(given))
    yield given.order
    while times != list(given.highs):
        for place, high in enumerate(given.highs):
            if times[place] < high:
                times[place] += 1
                yield estimate.with_times(given.order, times)


def one_at_a_time(given):
    """Each job goes back to its low as the next one goes."""
    lows = estimate.lows(given)
    yield given.order
    for place, (low, high) in enumerate(zip(lows, given.highs)):
        for time in range(low + 1, high + 1):
            yield estimate.with_times(
                given.order, lows[:place] + (time,) + lows[place + 1:])


def till_one_stays(given):
    """The path ends at the first job whose low is its high."""
    stays = next((place for place, (low, high) in enumerate(
        zip(estimate.lows(given), given.highs)) if low == high), given.order.n)
    yield from right_path(given._replace(
        highs=given.highs[:stays] + estimate.lows(given)[stays:]))


def at_once(given):
    """Each job goes to its high at once."""
    lows = estimate.lows(given)
    for count in range(len(lows) + 1):
        yield estimate.with_times(given.order, given.highs[:count] + lows[count:])


def part_of(chosen):
    """Some of the path's orders."""
    return lambda given: iter(chosen(list(right_path(given))))


right_path = estimate.path
right_with_times = estimate.with_times
ALONG = "test_estimate.Path.test_worked"
AS_THEY_GO = "test_estimate.Path.test_as_the_jobs_go"
ONE_MINUTE = "test_estimate.Path.test_one_minute_of_one_job"
STAYS = "test_estimate.Path.test_all_else_stays"
MET = "test_estimate.Met.test_worked"
EVERY = "test_estimate.Met.test_every_number"
REACHED = "test_estimate.Met.test_each_number_between_is_reached"
SEARCHED = "test_estimate.Met.test_by_search_over_all_plans"

PATHS = [
    ("a path by falling need", estimate, "path",
     ranked(lambda job, place: (-job.need, place)), MET),
    ("a path by due time", estimate, "path",
     ranked(lambda job, place: (job.due, place)), MET),
    ("a path by falling low", estimate, "path",
     ranked(lambda job, place: (-job.time, place)), MET),
    ("a path from the last job", estimate, "path", ranked(lambda job, place: -place),
     ALONG),
    ("a path from the last job, by search", estimate, "path",
     ranked(lambda job, place: -place), SEARCHED),
    ("a minute of each job in turn", estimate, "path", in_turn, ALONG),
    ("a minute of each job in turn, at each number", estimate, "path", in_turn, EVERY),
    ("one job at a time", estimate, "path", one_at_a_time, ONE_MINUTE),
    ("each job at once", estimate, "path", at_once, ONE_MINUTE),
    ("a path that ends where a low is its high", estimate, "path", till_one_stays,
     MET),
    ("steps of two minutes", estimate, "path",
     part_of(lambda whole: whole[::2]), AS_THEY_GO),
    ("steps of two minutes, by what is reached", estimate, "path",
     part_of(lambda whole: whole[::2]), REACHED),
    ("the order of the lows left out", estimate, "path",
     part_of(lambda whole: whole[1:]), MET),
    ("a path that ends a minute short", estimate, "path",
     part_of(lambda whole: whole[:-1]), MET),
    ("a path from the highs down", estimate, "path",
     part_of(lambda whole: whole[::-1]), EVERY),
    ("makers lost on the path", estimate, "with_times", lambda order, times:
     orders.order(order.memories, [(time, job.due, job.need)
                                   for job, time in zip(order.jobs, times)]), STAYS),
    ("due times that go along", estimate, "with_times", lambda order, times:
     order._replace(jobs=tuple(job._replace(time=time, due=job.due + time - job.time)
                               for job, time in zip(order.jobs, times))), STAYS),
]


def last_met(given, number):
    """The last order of the path with this number."""
    return next((order for order in reversed(list(right_path(given)))
                 if least.least(order) == number), None)


def nearest(given, number):
    """A number outside has the order of the nearest number."""
    lower, upper = right_leasts(given)
    return right_walked(given, min(max(number, lower), upper))


def reaching(given, number):
    """The first order of at least this number."""
    return next((order for order in right_path(given)
                 if least.least(order) >= number), None)


def not_at(which):
    """None for one of the two numbers themselves."""
    return lambda given, number: (
        None if number == right_leasts(given)[which] else right_walked(given, number))


def at_the_spans(given):
    """The highs taken for minutes above the lows."""
    return tuple(least.least(estimate.with_times(given.order, times)) for times in (
        estimate.lows(given), map(sum, zip(estimate.lows(given), given.highs))))


right_leasts = estimate.leasts
right_walked = estimate.walked
right_halved = estimate.halved
right_order_at = estimate.order_at
LEASTS = "test_estimate.Leasts.test_worked"
BETWEEN = "test_estimate.Leasts.test_times_between"
OUTSIDE = "test_estimate.Met.test_worked_outside"
HALVED = "test_estimate.Met.test_halving"
LONG = "test_estimate.Met.test_worked_on_long_paths"

NUMBERS = [
    ("the two numbers exchanged", estimate, "leasts",
     lambda given: right_leasts(given)[::-1], LEASTS),
    ("the highs taken as lows", estimate, "leasts",
     lambda given: right_leasts(given)[1:] * 2, LEASTS),
    ("the highs taken as lows, by times between", estimate, "leasts",
     lambda given: right_leasts(given)[1:] * 2, BETWEEN),
    ("the lows taken as highs", estimate, "leasts",
     lambda given: right_leasts(given)[:1] * 2, BETWEEN),
    ("the highs counted from the lows", estimate, "leasts", at_the_spans, LEASTS),
    ("the last order met told", estimate, "walked", last_met, MET),
    ("the last order met told, at each number", estimate, "walked", last_met, EVERY),
    ("the last order met told, by search", estimate, "walked", last_met, SEARCHED),
    ("outside, the order of the nearest number", estimate, "walked", nearest, OUTSIDE),
    ("below, the order of the lows", estimate, "walked", reaching, OUTSIDE),
    ("no order at the lower number", estimate, "walked", not_at(0), MET),
    ("no order at the upper number", estimate, "walked", not_at(1), REACHED),
    ("the last minute of a number by halving", estimate, "meets",
     lambda order, bound: estimate.least_lateness(order) <= bound + 1, HALVED),
    ("outside, an order by halving", estimate, "halved", lambda given, number:
     right_halved(given, min(max(number, right_leasts(given)[0]),
                             right_leasts(given)[1])), LONG),
    ("a minute late by halving", estimate, "order_at",
     lambda given, minute: right_order_at(given, minute + 1),
     "test_estimate.Path.test_minute_by_minute"),
    ("paths of two jobs at most by halving", estimate, "order_at",
     lambda given, minute: right_order_at(given._replace(
         highs=given.highs[:2] + estimate.lows(given)[2:]), minute), LONG),
]


def nothing_short(given, number, buffer):
    """9 also where there is no order to write."""
    found, after = right_written(given, number, buffer)
    if found is None and len(buffer) < order_file.length(given.order):
        found = orders.Refusal(9, 0)
    return found, after


def short_first(given, number, buffer):
    """9 before all others."""
    if len(buffer) < order_file.length(given.order):
        return orders.Refusal(9, 0), buffer
    return right_written(given, number, buffer)


def whole_buffer(given, number, buffer):
    """Zeros beyond the file."""
    found, after = right_written(given, number, buffer)
    if isinstance(found, bytes):
        after = found + bytes(len(buffer) - len(found))
    return found, after


def part_written(given, number, buffer):
    """As much of the file as there is room for."""
    found, after = right_written(given, number, buffer)
    if found == (9, 0):
        after = order_file.encode(estimate.met(given, number))[:len(buffer)]
    return found, after


def lows_written(given, number, buffer):
    """The file of the lows."""
    found, after = right_written(given, number, buffer)
    if isinstance(found, bytes):
        found = order_file.encode(given.order)
        after = found + buffer[len(found):]
    return found, after


def words_of(form):
    """A record of times between two numbers of another form behind its order."""
    def pack(record):
        if record.kind != "between":
            return right_pack(record)
        order, highs, number = record.values
        return (stream_form.words(14) + stream_form.pack_order(order)
                + stream_form.words(*form(order, highs, number)))
    return pack


right_written = estimate.written
right_told = estimate.told
right_pack = stream_form.pack
WRITTEN = "test_estimate.Buffer.test_written"
NOTHING = "test_estimate.Buffer.test_nothing_to_write"
SHORT = "test_estimate.Buffer.test_too_short"
TOLD = "test_estimate.Answers.test_lines"
FORM = "test_streams.Form.test_between_by_hand"

ANSWERS = [
    ("9 where nothing is written", estimate, "written", nothing_short, NOTHING),
    ("9 before all others", estimate, "written", short_first,
     "test_estimate.Buffer.test_refused"),
    ("zeros beyond the file", estimate, "written", whole_buffer, WRITTEN),
    ("a part of the file written", estimate, "written", part_written, SHORT),
    ("the file of the lows written", estimate, "written", lows_written, WRITTEN),
    ("the two numbers not told where none is met", estimate, "told",
     lambda *given: [line for line in right_told(*given)
                     if right_told(*given)[1:] != ["nowhere"] or line == "nowhere"],
     TOLD),
    ("a number outside refused", estimate, "told",
     lambda *given: [line.replace("nowhere", "refused 8 0")
                     for line in right_told(*given)], TOLD),
    ("a refusal told once", estimate, "told",
     lambda *given: list(dict.fromkeys(right_told(*given))),
     "test_estimate.Answers.test_refused_twice"),
    ("the number before the highs", stream_form, "pack", words_of(
        lambda order, highs, number: (number, *highs)), FORM),
    ("the highs counted", stream_form, "pack", words_of(
        lambda order, highs, number: (len(highs), *highs, number)), FORM),
    ("48 highs always", stream_form, "pack", words_of(
        lambda order, highs, number: (*highs, *[0] * (48 - len(highs)), number)), FORM),
    ("times between of another kind", stream_form, "KINDS",
     {**stream_form.KINDS, "between": 15}, FORM),
]

VARIANTS = REFUSALS + PATHS + NUMBERS + ANSWERS
