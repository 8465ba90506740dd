"""Orders with ready minutes and windows whose answers are worked out by hand.

Document 02, §5. The orders A, C and D are those of document 01, their ends those of
§3. `rows` are those of one right answer, None where the bound is too tight; `marks`
is E.
"""

from collections import namedtuple

import timed
from known_orders import A, C, D, OVER_THREE, OVER_TWO
from orders import order

Worked = namedtuple("Worked", "story order bound times marks rows")

TWO_DUE = order([4], [(1, 10, 4), (1, 11, 4)])
LONG_WINDOW = [(0, 1000000)]


def worked(story, an_order, bound, ready, windows, marks, rows):
    return Worked(story, an_order, bound, timed.times(ready, windows), marks, rows)


def long_jobs(count):
    """So many jobs of the greatest time on one processor."""
    return order([4], [(100000, 1000000, 4)] * count)


def one_after_another(count):
    return [(job + 1, 1, 100000 * job, 100000 * (job + 1)) for job in range(count)]


WORKED = [
    worked("C ready at 5, one minute short", C, -4, [5], [(0, 100)], 4, None),
    worked("C ready at 5", C, -3, [5], [(0, 100)], 4, [(1, 1, 5, 8)]),
    worked("C in a window of two minutes", C, -4, [0], [(4, 6)], 4, None),
    worked("C in a window of two minutes, the latest bound", C, 10000000, [0],
           [(4, 6)], 4, None),
    worked("C in a window of three minutes", C, -4, [0], [(4, 7)], 3, [(1, 1, 4, 7)]),
    worked("C, its window opens after its end", C, -4, [0], [(8, 20)], 4, None),
    worked("C, its window opens at its end", C, -4, [0], [(7, 20)], 3, None),
    worked("C ready at its end", C, -4, [7], [(0, 20)], 3, None),
    worked("C ready after its end", C, -4, [8], [(0, 20)], 4, None),
    worked("C ready as its window closes", C, -1, [5], [(0, 5)], 3, None),
    worked("C ready after its window closes", C, -1, [6], [(0, 5)], 4, None),
    worked("C ready as its window opens, which closes at its end", C, -1, [7],
           [(7, 10)], 2, [(1, 1, 7, 10)]),
    worked("D, a window opens as the other closes", D, -2, [0, 0, 0],
           [(0, 2), (2, 9)], 4, [(1, 1, 0, 1), (2, 1, 1, 2), (3, 2, 2, 3)]),
    worked("D, a window opens as the other closes, one minute short", D, -3, [0, 0, 0],
           [(0, 2), (2, 9)], 3, None),
    worked("A, job 3 ready at 1", A, 0, [0, 0, 1], [(0, 4), (1, 6)], 5,
           [(1, 1, 0, 3), (2, 1, 3, 4), (2, 2, 1, 3), (3, 2, 3, 5)]),
    worked("A, job 3 ready at 1, one minute short", A, -1, [0, 0, 1], [(0, 4), (1, 6)],
           5, None),
    worked("job 2 ready at 1", OVER_TWO, 0, [0, 1], [(0, 9), (0, 9)], 5,
           [(1, 1, 0, 4), (2, 2, 1, 3)]),
    worked("ends below minute 0 each count", TWO_DUE, -20, [0, 0], [(0, 7)], 4, None),
    worked("one end below minute 0, one at it", TWO_DUE, -12, [0, 0], [(0, 7)], 3,
           None),
    worked("ready in the order of their ends", TWO_DUE, -10, [0, 1], [(0, 7)], 4,
           [(1, 1, 0, 1), (2, 1, 1, 2)]),
    worked("the larger memory opens at the end", order([8, 4], [(1, 9, 8), (2, 9, 4)]),
           -6, [0, 0], [(4, 9), (0, 9)], 3, None),
    worked("the larger memory opens one minute before the end",
           order([8, 4], [(1, 9, 8), (4, 9, 4)]), -5, [0, 1], [(4, 9), (0, 9)], 5,
           [(2, 2, 1, 5), (1, 1, 4, 5)]),
    worked("each processor by itself in its window", order([4, 4], [(2, 9, 4)]), -1,
           [0], [(3, 4), (6, 7)], 6, [(1, 1, 3, 4), (1, 2, 6, 7)]),
    worked("a smaller memory alone in the window",
           order([8, 4], [(2, 9, 8), (2, 9, 0)]), -7, [0, 0], [(1, 3), (0, 2)], 4,
           [(2, 2, 0, 2), (1, 1, 1, 3)]),
    worked("a larger memory opens too late", order([8, 4], [(2, 9, 8), (2, 9, 0)]),
           -7, [0, 0], [(2, 4), (0, 2)], 4, None),
    worked("one row over three stretches", OVER_THREE, -1, [0, 0, 2],
           [(0, 9), (0, 9)], 5, [(1, 1, 0, 6), (2, 2, 0, 2), (3, 2, 2, 4)]),
    worked("a row goes on as another processor closes", OVER_TWO, -1, [0, 0],
           [(0, 9), (0, 2)], 4, [(1, 1, 0, 4), (2, 2, 0, 2)]),
    worked("a row goes on as another processor opens", OVER_TWO, 0, [0, 0],
           [(0, 9), (1, 9)], 5, [(1, 1, 0, 4), (2, 2, 1, 3)]),
    worked("a job goes on at another processor as its own closes",
           order([8, 4], [(4, 9, 4)]), -6, [0], [(0, 2), (0, 9)], 4,
           [(1, 1, 0, 2), (1, 2, 2, 4)]),
    worked("an end at an opening, a ready minute at a closing",
           order([4, 4], [(2, 2, 4), (2, 5, 4)]), -1, [0, 2], [(0, 2), (2, 5)], 3,
           [(1, 1, 0, 2), (2, 2, 2, 4)]),
    worked("10 jobs of the greatest time fill the longest window", long_jobs(10),
           10000000, [0] * 10, LONG_WINDOW, 3, one_after_another(10)),
    worked("11 jobs of the greatest time", long_jobs(11), 10000000, [0] * 11,
           LONG_WINDOW, 3, None),
    worked("20 jobs of the greatest time", long_jobs(20), 10000000, [0] * 20,
           LONG_WINDOW, 3, None),
]

# Of FULL: 48 ready minutes, 48 ends, 16 openings and 16 closings, all distinct: E is
# 128 and 128 × 63 = 8,064. 176 is the lowest bound that is met.
FULL_TIMES = timed.times([2 * (29 * i % 48) for i in range(48)],
                         [(1 + 4 * (7 * i % 16), 345 + 4 * (5 * i % 16))
                          for i in range(16)])
FULL_AT = 176
