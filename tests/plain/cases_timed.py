"""Cases of the planner with times, and of how many rows to lend to it.

Document 02, §5: "It answers a right plan in which no row begins before its job's
ready minute or its processor's opening, nor has a `to` above that processor's
closing, or too tight where there is none, without a reason." "Its buffer needs
E × (n + m - 1) rows". Each case is (what it shows, record).
"""

import cases_planner
import draw
import known_orders
import known_timed
import least
import orders
import timed
import timed_plan
from known_orders import A, C, D
from known_timed import FULL_AT, FULL_TIMES
from stream_form import Record

ROOM_MOST = 32264
WORD_MOST = orders.WORD_MOST
FAR = (10000000, -10000000)
TOO_FAR = (10000001, -10000001, 2147483647, -2147483648)


def asked_case(story, order, bound, given):
    return f"{story} at {bound}", Record("asked", (order, bound, given))


def timed_case(story, order, bound, given, room=None):
    if room is None:
        room = 4 * timed.rows_asked(order, bound, given)
    return (f"{story} at {bound}, room for {room} numbers",
            Record("timed", (order, bound, given, room)))


def watch_case(story, order, bound, given, lent):
    return f"{story} at {bound}", Record("watch", (order, bound, given, list(lent)))


def each_call(story, order, bound, given, room=40, lent=(1, 1, 0, 1)):
    """The same by all three, with one row to check."""
    yield asked_case(story, order, bound, given)
    yield timed_case(story, order, bound, given, room)
    yield watch_case(story, order, bound, given, lent)


def with_ready(given, places):
    """The times with these ready minutes, as {job: minute}."""
    return given._replace(ready=tuple(
        places.get(number, minute) for number, minute in enumerate(given.ready, 1)))


def with_windows(given, places):
    """The times with these windows, as {processor: window}."""
    return given._replace(windows=tuple(
        places.get(number, window) for number, window in enumerate(given.windows, 1)))


def worked():
    for story, order, bound, given, marks, rows in known_timed.WORKED:
        needed = 4 * timed.rows_asked(order, bound, given)
        yield asked_case(story, order, bound, given)
        yield timed_case(story, order, bound, given)
        yield timed_case(f"9, even if {story}", order, bound, given, needed - 1)
        if rows:
            yield timed_case(f"{story}, as many rows as are written", order, bound,
                             given, 4 * len(rows))
    yield timed_case("room for 4 rows is 9 and not 10: ends below minute 0",
                     known_timed.TWO_DUE, -20, timed.times([0, 0], [(0, 7)]), 16)


def refused_orders():
    """Refusals 1 to 7 and 13, before all that times, bound and room could give."""
    for story, order, number, _ in known_orders.REFUSED + known_orders.REFUSED_COUNTS:
        given = draw.wide_open(order)
        if len(order.jobs) < 48 or number == 4:
            yield from each_call(story, order, -1, given)
        if len(order.jobs) < 10:
            bad = timed.times([1000001] * len(given.ready),
                              [(7, 7)] * len(given.windows))
            yield from each_call(f"{story}, before 15, 16, 8 and 9", order, 10000001,
                                 bad, 0)


READY = (0, 1, 999997, 999999, 1000000, 1000001, 1000002, 1048576, 2147483647,
         2147483648, 4293967296, WORD_MOST)
WINDOWS = ((0, 0), (0, 1), (7, 7), (7, 8), (8, 7), (1, 0), (999999, 1000000),
           (1000000, 1000000), (999997, 1000000), (999998, 1000000), (0, 1000000),
           (0, 1000001), (1000000, 1000001), (1000001, 1000002), (1000001, 5),
           (5, WORD_MOST), (WORD_MOST, 5), (WORD_MOST, WORD_MOST), (WORD_MOST, 0),
           (0, 2147483648), (2147483648, 2147483649), (2147483648, 7),
           (4293967296, 7), (1000001, 1000001))


def c_from(minute):
    """The row of C from this minute, as a number of 32 bits."""
    return 1, 1, minute, (minute + 3) % (WORD_MOST + 1)


def ranges():
    """Each number at its limits and beyond, at a bound that leaves room."""
    for minute in READY:
        yield from each_call(f"C ready at {minute}", C, 1000000,
                             timed.times([minute], [(0, 1000000)]), lent=c_from(minute))
    for window in WINDOWS:
        yield from each_call(f"C, window {window[0]}-{window[1]}", C, 1000000,
                             timed.times([0], [window]), lent=c_from(window[0]))
    for bound in (*FAR, *TOO_FAR):
        yield from each_call("C", C, bound, draw.wide_open(C))
    for due in (-1000000, 1000000):
        order = orders.order([4], [(1, due, 4)])
        for bound in FAR:
            yield asked_case(f"due {due}", order, bound, draw.wide_open(order))
            yield timed_case(f"due {due}", order, bound, draw.wide_open(order))
    for end in (999999, 1000000, 1000001):
        given = timed.times([999999], [(0, 1000000)])
        order = orders.order([4], [(1, 10, 4)])
        yield asked_case(f"end {end}", order, end - 11, given)
        yield timed_case(f"end {end}", order, end - 11, given)


def first_ones():
    """15 carries the first job, 16 the first processor."""
    five = orders.order([4] * 5, [(1, 9, 4)] * 5)
    good = draw.wide_open(five)
    for places in ((1,), (5,), (2, 4), (3, 4, 5), (1, 5)):
        name = " and ".join(map(str, places))
        yield from each_call(f"jobs {name} ready too late", five, -1, with_ready(
            good, {place: 1000001 for place in places}), 400)
        yield from each_call(f"windows {name} empty", five, -1, with_windows(
            good, {place: (7, 7) for place in places}), 400)
    kinds = ((7, 7), (0, 1000001), (1000001, 7))
    for shift in range(3):
        bad = {2 + place: kinds[(place + shift) % 3] for place in range(3)}
        yield from each_call("windows 2 to 4, each bad by another thing", five, -1,
                             with_windows(good, bad), 400)
    apart = orders.order([8, 1], [(1, 9, 8)])
    for window in ((3, 3), (0, 1000001), (3, 4)):
        yield from each_call(f"a processor that the job does not fit, window {window}",
                             apart, -1, timed.times([0], [(0, 9), window]))
    full = known_orders.FULL_EQUAL
    wide = draw.wide_open(full)
    yield from each_call("job 48 ready too late", full, -1,
                         with_ready(wide, {48: 1000001}), ROOM_MOST)
    yield from each_call("window 16 empty", full, -1,
                         with_windows(wide, {16: (9, 9)}), ROOM_MOST)


def precedence():
    """Each refusal against its neighbours; 15 carries a job, 16 a processor."""
    no_fit = orders.order([8, 8], [(1, 5, 1), (1, 5, 9)])
    three = orders.order([8, 8], [(1, 5, 1)] * 3)
    good = draw.wide_open(three)
    late = with_ready(good, {3: 1000001})
    empty = with_windows(good, {2: (7, 7)})
    both = with_windows(late, {2: (7, 7), 1: (8, 7)})
    bad = timed.times([WORD_MOST] * 2, [(1, 0)] * 2)
    yield from each_call("7 precedes 15", no_fit, -1, bad)
    yield from each_call("15 precedes 16", three, -1, both, 400)
    for bound in TOO_FAR:
        yield from each_call("15 precedes 8", three, bound, late, 400)
        yield from each_call("16 precedes 8", three, bound, empty, 400)
        yield from each_call("15 precedes 16 and 8", three, bound, both, 0)
        yield timed_case("8 precedes 9", three, bound, good, 0)
    for room in (0, 3):
        yield timed_case("15 precedes 9", three, -1, late, room)
        yield timed_case("16 precedes 9", three, -1, empty, room)
    yield timed_case("9 precedes 10", C, -9, draw.wide_open(C), 11)
    yield timed_case("10, not 9", C, -9, draw.wide_open(C), 12)
    yield timed_case("15 precedes 10", C, -9, timed.times([1000001], [(0, 9)]))
    yield timed_case("16 precedes 10", C, -9, timed.times([0], [(9, 9)]))
    for bound in TOO_FAR:
        yield watch_case("8, no rows", three, bound, good, [])
        yield watch_case("15, no rows", three, bound, late, [])
        yield watch_case("16, no rows", three, bound, empty, [])


# What each shows, and the times of A: its ends at 0 are 4, 4 and 5.
COINCIDE = [
    ("all ready at 0, windows from 0", [0, 0, 0], [(0, 4), (0, 5)]),
    ("all times apart", [1, 2, 3], [(6, 10), (7, 20)]),
    ("ready minutes equal", [3, 3, 3], [(0, 8), (1, 9)]),
    ("two ready minutes equal", [1, 3, 1], [(0, 8), (2, 9)]),
    ("ready at ends", [4, 5, 4], [(0, 8), (1, 9)]),
    ("ready at openings", [1, 2, 1], [(1, 8), (2, 9)]),
    ("ready at closings", [8, 9, 8], [(1, 8), (2, 9)]),
    ("openings equal", [0, 0, 0], [(2, 8), (2, 9)]),
    ("closings equal", [0, 0, 0], [(2, 8), (3, 8)]),
    ("windows equal", [0, 0, 0], [(2, 8), (2, 8)]),
    ("windows touch", [0, 0, 0], [(0, 3), (3, 8)]),
    ("windows touch, the later one first", [0, 0, 0], [(3, 8), (0, 3)]),
    ("openings at ends", [0, 0, 0], [(4, 8), (5, 9)]),
    ("closings at ends", [0, 0, 0], [(0, 4), (1, 5)]),
    ("one minute in all", [4, 4, 4], [(4, 5), (4, 5)]),
    ("windows apart", [0, 0, 0], [(0, 2), (6, 8)]),
    ("the latest minutes", [1000000] * 3, [(999999, 1000000), (0, 1000000)]),
]


def coincidences():
    """E counts distinct times, whatever they are the times of; ends below minute 0
    count as themselves."""
    for story, ready, windows in COINCIDE:
        given = timed.times(ready, windows)
        for bound in (-6, -5, -4, -1, 0, 4, 1000000):
            yield asked_case(f"A, {story}", A, bound, given)
            yield timed_case(f"A, {story}", A, bound, given)
        for less in (1, 4):
            yield timed_case(f"A, {story}", A, 0, given,
                             4 * timed.rows_asked(A, 0, given) - less)
        yield timed_case(f"A, {story}", A, 0, given,
                         4 * timed.rows_asked(A, 0, given) + 3)
    steps = orders.order([4, 4], [(1, due, 4) for due in (3, 2, 1, 0, 3)])
    for bound in (-6, -5, -4, -3, -2, -1, 0, 1):
        given = timed.times([0, 1, 0, 2, 0], [(0, 3), (1, 4)])
        yield asked_case("dues 3, 2, 1, 0 and 3", steps, bound, given)
        yield timed_case("dues 3, 2, 1, 0 and 3", steps, bound, given)


def window_by_window():
    """C and D in every window up to a few minutes, about their ends."""
    for opening in range(0, 6):
        for closing in range(opening + 1, 9):
            given = timed.times([opening // 2], [(opening, closing)])
            yield timed_case(f"C, window {opening}-{closing}", C, -5, given)
    for middle in range(1, 6):
        for ready in range(3):
            for windows in ([(0, middle), (middle, 6)], [(middle, 6), (0, middle)],
                            [(0, middle), (middle + 1, 6)]):
                yield timed_case(f"D ready at {ready}, windows about {middle}", D, -1,
                                 timed.times([ready, 0, ready], windows))


def met_first(order, given, low=-30, high=60):
    """The lowest bound from low on that is met with these times, None if none is up
    to high: a plan that meets a bound meets every larger one."""
    if not timed_plan.meets(order, high, given):
        return None
    while high - low > 1:
        middle = (low + high) // 2
        if timed_plan.meets(order, middle, given):
            high = middle
        else:
            low = middle
    return high


def alone(order, given):
    """The bound that each job needs by itself, if its processors never close."""
    return max(job.time + ready - orders.end(job, 0)
               for job, ready in zip(order.jobs, given.ready))


def around(of, story, order, given):
    """About the lowest bound that is met, or about none."""
    bound = met_first(order, given)
    if bound is None:
        yield timed_case(f"{story}, no bound", order, of.one_of((0, 3, 60, 10000000)),
                         given)
        return
    over = of.below(4)
    needed = 4 * timed.rows_asked(order, bound, given)
    yield timed_case(story, order, bound, given, needed + over)
    yield timed_case(story, order, bound - 1, given)
    turn = of.below(5)
    if turn == 0:
        yield asked_case(story, order, bound + of.between(-9, 3), given)
    elif turn == 1:
        yield timed_case(story, order, bound + of.one_of((-6, -3, 1, 2, 9)), given)
    elif turn == 2:
        yield timed_case(story, order, bound - of.below(2), given,
                         needed - of.between(1, 4))


def drawn(count):
    """Drawn orders and times, two of three decided by more than one job."""
    of = draw.Draw(521)
    for number in range(count):
        while True:
            order = of.one_of((draw.tiny, draw.crowded, draw.stepped))(of)
            given = draw.times(of, order)
            bound = met_first(order, given)
            if number % 3 == 0 or (bound is not None and bound > alone(order, given)):
                break
        yield from around(of, f"drawn times {number}", order, given)


def drawn_larger(count):
    """Larger orders, most of them with a bound that is met."""
    of = draw.Draw(522)
    for number in range(count):
        while True:
            order = of.one_of((draw.middle, draw.steep))(of)
            given = draw.times(of, order, 30)
            if number % 6 == 0 or met_first(order, given) is not None:
                break
        yield from around(of, f"drawn larger times {number}", order, given)


def drawn_wide():
    """Times over the whole range, up to 48 jobs and 16 processors."""
    of = draw.Draw(524)
    for m, n, time, due in ((2, 5, 100000, 100000), (3, 7, 100000, 1000000),
                            (8, 20, 100000, 300000), (16, 48, 100000, 200000),
                            (16, 48, 40, 60), (4, 12, 1000, 3000)):
        order = draw.wide(of, m, n, time, due)
        last = max(10, 8 * time * n // m)
        given = timed.times([of.below(last // 4) for _ in range(n)], [
            (of.below(last // 4), min(1000000, last)) for _ in range(m)])
        bound = met_first(order, given, -2000000, 10000000)
        story = f"wide times of {m} processors, {n} jobs"
        for at in (bound, bound - 1):
            yield asked_case(story, order, at, given)
            yield timed_case(story, order, at, given)


def as_the_base(count):
    """Windows wide open: met or not as without times."""
    of = draw.Draw(523)
    drawn_ones = [(f"drawn order {number}", of.one_of((draw.crowded, draw.steep))(of))
                  for number in range(count)]
    for story, order in cases_planner.TELLING[:9] + drawn_ones:
        bound = least.least(order)
        for at in (bound, bound - 1):
            yield timed_case(f"{story}, windows wide open", order, at,
                             draw.wide_open(order))


def full():
    """48 jobs, 16 processors and 128 times."""
    order = known_orders.FULL
    for bound in (FULL_AT, FULL_AT - 1):
        yield asked_case("full", order, bound, FULL_TIMES)
        yield timed_case("full", order, bound, FULL_TIMES)
    for room in (32255, 32252):
        yield timed_case("full", order, FULL_AT, FULL_TIMES, room)
    yield timed_case("full", order, FULL_AT, FULL_TIMES, ROOM_MOST)
    yield timed_case("full, windows wide open", order, least.least(order),
                     draw.wide_open(order))


def cases():
    for part in (worked(), refused_orders(), ranges(), first_ones(), precedence(),
                 coincidences(), window_by_window(), drawn(420), drawn_larger(90),
                 drawn_wide(), as_the_base(60), full()):
        yield from part
