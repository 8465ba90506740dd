"""Estimates and the orders met in them, worked out by hand.

Document 02, §9: "the first met when job 1, then job 2 and so on, goes minute by minute
from low to high." On one processor jobs that are due together have the sum of their
times less their due time less 1 for their least lateness; a job that has a processor
for itself has its time less its due time less 1.
"""

import known_orders
from estimate import estimate, with_times
from orders import order


def of_jobs(memories, *jobs):
    """A job is low, high, due time and need, and its maker where that is not 1."""
    return estimate(order(memories, [(low, *rest) for low, _, *rest in jobs]),
                    [high for _, high, *_ in jobs])


def of_order(an_order, lows, highs):
    """The order with other times: these lows and highs."""
    return estimate(with_times(an_order, lows), highs)


def together(memories, due, *ends):
    """Jobs of need 4 that are due together, each with its low and high."""
    return of_jobs(memories, *((*low_and_high, due, 4) for low_and_high in ends))


# What each shows, the estimate, the least lateness of each order of its path, and the
# times of the first order met at each number from the lower to the upper.
WORKED = [
    ("A from 1 1 1 to 3 3 2", of_order(known_orders.A, (1, 1, 1), (3, 3, 2)),
     [-3, -2, -1, -1, -1, 0], [(1, 1, 1), (2, 1, 1), (3, 1, 1), (3, 3, 2)]),
    ("A from 1 2 1 to 3 6 2", of_order(known_orders.A, (1, 2, 1), (3, 6, 2)),
     [-2, -2, -1, -1, 0, 1, 2, 2],
     [(1, 2, 1), (3, 2, 1), (3, 4, 1), (3, 5, 1), (3, 6, 1)]),
    ("B from 1 to 3 each", of_order(known_orders.B, (1, 1, 1, 1), (3, 3, 3, 3)),
     [-2, -1, -1, 0, 1, 1, 1, 2, 2],
     [(1, 1, 1, 1), (2, 1, 1, 1), (3, 2, 1, 1), (3, 3, 1, 1), (3, 3, 3, 2)]),
    ("C, no minute between", of_order(known_orders.C, (3,), (3,)), [-8], [(3,)]),
    ("C from 1 to 5", of_order(known_orders.C, (1,), (5,)), [-10, -9, -8, -7, -6],
     [(1,), (2,), (3,), (4,), (5,)]),
    ("D from 1 to 4 each", of_order(known_orders.D, (1, 1, 1), (4, 4, 4)),
     [-3, -3, -2, -1, -1, -1, 0, 0, 1, 1],
     [(1, 1, 1), (3, 1, 1), (4, 1, 1), (4, 4, 1), (4, 4, 3)]),
    ("nine orders at the lower number", of_jobs([4], (1, 12, 9, 0), (2, 4, 0, 0)),
     [1] * 9 + [2, 3, 4, 5, 6],
     [(1, 2), (10, 2), (11, 2), (12, 2), (12, 3), (12, 4)]),
    ("A, no minute between", of_order(known_orders.A, (3, 3, 2), (3, 3, 2)), [0],
     [(3, 3, 2)]),
    ("each minute one", together([4], 5, (2, 4), (3, 5)), [-1, 0, 1, 2, 3],
     [(2, 3), (3, 3), (4, 3), (4, 4), (4, 5)]),
    ("low and high of the first job equal", together([4], 3, (2, 2), (1, 3)),
     [-1, 0, 1], [(2, 1), (2, 2), (2, 3)]),
    ("low and high of the middle job equal", together([4], 5, (1, 2), (2, 2), (1, 3)),
     [-2, -1, 0, 1], [(1, 2, 1), (2, 2, 1), (2, 2, 2), (2, 2, 3)]),
    ("low and high of the last job equal", together([4], 5, (1, 2), (1, 3), (4, 4)),
     [0, 1, 2, 3], [(1, 1, 4), (2, 1, 4), (2, 2, 4), (2, 3, 4)]),
    ("needs that rise", of_jobs([8], (1, 3, 3, 0), (1, 3, 3, 8)), [-2, -1, 0, 1, 2],
     [(1, 1), (2, 1), (3, 1), (3, 2), (3, 3)]),
    ("the last job alone tells", of_jobs([4] * 3, (1, 3, 9, 4), (1, 3, 9, 4),
                                         (1, 3, 0, 4)),
     [0, 0, 0, 0, 0, 1, 2], [(1, 1, 1), (3, 3, 2), (3, 3, 3)]),
    ("the first job alone tells", of_jobs([4] * 3, (1, 3, 0, 4), (1, 3, 9, 4),
                                          (1, 3, 9, 4)),
     [0, 1, 2, 2, 2, 2, 2], [(1, 1, 1), (2, 1, 1), (3, 1, 1)]),
    ("halves rounded up", together([4, 4], 0, (1, 2), (1, 2), (1, 2)), [1, 1, 2, 2],
     [(1, 1, 1), (2, 2, 1)]),
    ("a longer low behind a shorter one", together([4], 9, (1, 2), (7, 8), (3, 4)),
     [1, 2, 3, 4], [(1, 7, 3), (2, 7, 3), (2, 8, 3), (2, 8, 4)]),
    ("an earlier due time behind a later one",
     of_jobs([4], (1, 3, 7, 4), (1, 3, 1, 4)), [-1, -1, -1, 0, 1],
     [(1, 1), (3, 2), (3, 3)]),
    ("makers 16 and 2", of_jobs([4], (1, 2, 1, 4, 16), (1, 2, 1, 4, 2)), [0, 1, 2],
     [(1, 1), (2, 1), (2, 2)]),
]

# 48 jobs from 1 to 100,000: on one processor each minute tells; on 16 equal ones the
# longest job does, then a sixteenth of the sum.
WIDEST = [(1, 100000)] * 48
OF_16 = together([4] * 16, 0, *WIDEST)
TOP = 100000

# What each shows, an estimate whose path is too long to be walked, the two numbers, and
# times of the first order met, beside the number.
LONG = [
    ("one job", together([4], 0, (1, TOP)), (0, 99999),
     [(0, (1,)), (1, (2,)), (50000, (50001,)), (65535, (65536,)), (99998, (99999,)),
      (99999, (TOP,))]),
    ("one job, due as late as may be", together([4], 1000000, (1, TOP)),
     (-1000000, -900001),
     [(-1000000, (1,)), (-999999, (2,)), (-900002, (99999,)), (-900001, (TOP,))]),
    ("48 jobs, one processor", together([4], 0, *WIDEST), (47, 4799999),
     [(47, (1,) * 48), (48, (2,) + (1,) * 47), (100045, (99999,) + (1,) * 47),
      (100046, (TOP,) + (1,) * 47), (100047, (TOP, 2) + (1,) * 46),
      (2400023, (TOP,) * 24 + (1,) * 24), (2400024, (TOP,) * 24 + (2,) + (1,) * 23),
      (4799998, (TOP,) * 47 + (99999,)), (4799999, (TOP,) * 48)]),
    ("48 jobs, due as early as may be", together([4], -1000000, *WIDEST),
     (1000047, 5799999),
     [(1000047, (1,) * 48), (3400024, (TOP,) * 24 + (2,) + (1,) * 23),
      (5799998, (TOP,) * 47 + (99999,)), (5799999, (TOP,) * 48)]),
    ("48 jobs, 16 processors", OF_16, (2, 299999),
     [(2, (1,) * 48), (3, (2,) + (1,) * 47), (4, (5,) + (1,) * 47),
      (99999, (TOP,) + (1,) * 47), (100000, (TOP,) * 15 + (99969,) + (1,) * 32),
      (299998, (TOP,) * 47 + (99969,)), (299999, (TOP,) * 47 + (99985,))]),
]
# Numbers of 32 bits that lie outside of all of these.
FAR = (-2147483648, -10000001, -1000001, 5800000, 10000001, 2147483647)

GOOD = 1, 2, 5, 1
BAD_LOW, BAD_HIGH = (0, 2, 5, 1), (1, 100001, 5, 1)
BAD_DUE, BAD_MAKER = (1, 2, 1000001, 1), (1, 2, 5, 1, 17)
TURNED, BAD_NEED = (2, 1, 5, 1), (1, 2, 5, 9)
# The rows about a job as they are judged, each with a job of it.
ROWS = ((5, BAD_LOW), (5, BAD_HIGH), (6, BAD_DUE), (13, BAD_MAKER), (19, TURNED),
        (7, BAD_NEED))


def at(places, count=9):
    """An estimate of so many good jobs, with others at the places (from 1) named."""
    return of_jobs([8], *(places.get(place, GOOD) for place in range(1, count + 1)))


def pairs():
    """Two jobs, each bad by one row, either of them first: the row that is judged first
    is told with its job, of one row job 1."""
    for rank, (number, bad) in enumerate(ROWS):
        for later, other in ROWS[rank + 1:]:
            yield (f"{number} at job 1 and {later} at job 2", of_jobs([8], bad, other),
                   number, 1)
            yield (f"{later} at job 1 and {number} at job 2", of_jobs([8], other, bad),
                   number, 1 if number == later else 2)


# What each shows, the estimate, and the refusal's number and job.
REFUSED = [
    ("a low above its high, which fits nowhere", of_jobs([8], (5, 4, 5, 9)), 19, 1),
    ("low and high good, which fits nowhere", of_jobs([8], (4, 5, 5, 9)), 7, 1),
    ("low and high equal, which fits nowhere", at({9: (4, 4, 5, 9)}), 7, 9),
    ("a low of 200000 above its high", of_jobs([8], (200000, 5, 5, 1)), 5, 1),
    ("low 100000, high 99999", of_jobs([8], (100000, 99999, 5, 1)), 19, 1),
    ("low 100000, high 1", of_jobs([8], (100000, 1, 5, 1)), 19, 1),
    ("16 bits would turn them round", of_jobs([8], (65537, 9, 5, 1)), 19, 1),
    ("low 0, high 0", of_jobs([8], (0, 0, 5, 1)), 5, 1),
    ("low 1, high 0", of_jobs([8], (1, 0, 5, 1)), 5, 1),
    ("low 0, high 100000", of_jobs([8], (0, 100000, 5, 1)), 5, 1),
    ("low 100001, high 100000", of_jobs([8], (100001, 100000, 5, 1)), 5, 1),
    ("low 100001, high 100001", of_jobs([8], (100001, 100001, 5, 1)), 5, 1),
    ("low 100000, high 100001", of_jobs([8], (100000, 100001, 5, 1)), 5, 1),
    ("high 2147483648", of_jobs([8], (1, 2147483648, 5, 1)), 5, 1),
    ("high 4294967295 is no -1", of_jobs([8], (1, 4294967295, 5, 1)), 5, 1),
    ("low 4294967295 is no -1", of_jobs([8], (4294967295, 5, 5, 1)), 5, 1),
    ("low 65536 + 100000", of_jobs([8], (165536, 165536, 5, 1)), 5, 1),
    ("a bad high of job 1 and a bad low of job 3", at({1: BAD_HIGH, 3: BAD_LOW}), 5, 1),
    ("a bad low of job 1 and a bad high of job 3", at({1: BAD_LOW, 3: BAD_HIGH}), 5, 1),
    ("bad highs of jobs 3 and 7", at({3: BAD_HIGH, 7: BAD_HIGH}), 5, 3),
    ("bad lows of jobs 3 and 7", at({3: BAD_LOW, 7: BAD_LOW}), 5, 3),
    ("lows above highs of jobs 3 and 7", at({3: TURNED, 7: TURNED}), 19, 3),
    ("a bad high of job 48", at({48: BAD_HIGH}, 48), 5, 48),
    ("a low above its high of job 48", at({48: TURNED}, 48), 19, 48),
    ("5 at job 3 precedes 19 at job 1", at({1: TURNED, 3: BAD_HIGH}), 5, 3),
    ("6 at job 9 precedes 19 at job 1", at({1: TURNED, 9: BAD_DUE}), 6, 9),
    ("13 at job 2 precedes 19 at job 1", at({1: TURNED, 2: BAD_MAKER}), 13, 2),
    ("19 at job 9 precedes 7 at job 1", at({1: BAD_NEED, 9: TURNED}), 19, 9),
    ("all rows about a job, 5 by a high last", at({
        1: BAD_NEED, 2: TURNED, 3: BAD_MAKER, 4: BAD_DUE, 5: BAD_HIGH}), 5, 5),
    ("all of them but 5", at({1: BAD_NEED, 2: TURNED, 3: BAD_MAKER, 4: BAD_DUE}), 6, 4),
    ("5 and 6 in one job", of_jobs([8], (1, 100001, 1000001, 1)), 5, 1),
    ("5 and 13 in one job", of_jobs([8], (1, 100001, 5, 1, 0)), 5, 1),
    ("5 and 7 in one job", of_jobs([8], (1, 100001, 5, 9)), 5, 1),
    ("6 and 19 in one job", of_jobs([8], (2, 1, -1000001, 1)), 6, 1),
    ("13 and 19 in one job", of_jobs([8], (2, 1, 5, 1, 0)), 13, 1),
    ("6, 13, 19 and 7 in one job", of_jobs([8], (2, 1, 1000001, 9, 17)), 6, 1),
    ("13, 19 and 7 in one job", of_jobs([8], (2, 1, 5, 9, 17)), 13, 1),
    ("1 precedes 19", of_jobs([], TURNED), 1, 0),
    ("1 precedes 5 by a high", of_jobs([], BAD_HIGH), 1, 0),
    ("2 precedes 19", of_jobs([8] * 17, TURNED), 2, 0),
    ("2 precedes 5 by a high", of_jobs([8] * 17, BAD_HIGH), 2, 0),
    ("3: no job, no high", of_jobs([8]), 3, 0),
    ("4 precedes 19 at job 1", at({1: TURNED}, 49), 4, 0),
    ("4 precedes 5 by a high at job 1", at({1: BAD_HIGH}, 49), 4, 0),
]

# Accepted estimates at the limits: what each shows, and the estimate.
LIMITS = [
    ("low and high 1", of_jobs([8], (1, 1, 5, 1))),
    ("low and high 100000", of_jobs([8], (TOP, TOP, 5, 1))),
    ("low 1, high 100000", of_jobs([8], (1, TOP, 5, 1))),
    ("low 99999, high 100000", of_jobs([8], (99999, TOP, 5, 1))),
    ("16 bits would turn them round", of_jobs([8], (9, 65537, 5, 1))),
    ("48 jobs, low and high equal", at({}, 48)._replace(highs=(1,) * 48)),
    ("the last of three processors fits", of_jobs([3, 5, 9], (1, 2, 5, 9))),
]
