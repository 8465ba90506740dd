"""Jobs as they lie by falling need, and what is told of them, worked out by hand.

Document 02, §8: "by falling need, ties in input order, each job once, with the input
number kept beside each". Document 01: "a job whose time exceeds its end, the first
such in input order". At bound -1 a job's end is its due time.
"""

from orders import WORD_MOST, order
from timed import times

HALF = 2147483648


def of_needs(*needs):
    """An order of jobs with these needs, their times 1, 2 and so on."""
    return order([max(needs)], [(time, 99, need) for time, need in enumerate(needs, 1)])


# What each shows, the order, and the numbers of its jobs as they lie.
LYING = [
    ("one job", of_needs(4), [1]),
    ("falling needs", of_needs(8, 4, 2), [1, 2, 3]),
    ("rising needs", of_needs(2, 4, 8), [3, 2, 1]),
    ("equal needs", of_needs(4, 4, 4), [1, 2, 3]),
    ("the largest need last", of_needs(4, 2, 8), [3, 1, 2]),
    ("the smallest need first", of_needs(2, 8, 4), [2, 3, 1]),
    ("a tie of the largest need", of_needs(8, 4, 8), [1, 3, 2]),
    ("a tie of the smallest need", of_needs(4, 8, 4), [2, 1, 3]),
    ("a tie, its jobs side by side", of_needs(4, 4, 8), [3, 1, 2]),
    ("two ties, one within the other", of_needs(4, 8, 8, 4), [2, 3, 1, 4]),
    ("two ties, in turn", of_needs(4, 8, 4, 8), [2, 4, 1, 3]),
    ("three ties of two", of_needs(2, 4, 8, 2, 4, 8), [3, 6, 2, 5, 1, 4]),
    ("needs 0 and 4294967295", of_needs(0, WORD_MOST, 0, WORD_MOST), [2, 4, 1, 3]),
    ("two's complement would turn them", of_needs(HALF - 1, HALF), [2, 1]),
    ("16 bits would make them equal", of_needs(4, 65540), [2, 1]),
    ("digits would turn them", of_needs(9, 10), [2, 1]),
    ("two needs of one class", order([8, 2], [(1, 9, 3), (2, 9, 7), (3, 9, 2)]),
     [2, 1, 3]),
    ("a need beside a memory", order([8, 4], [(1, 9, 4), (2, 9, 5), (3, 9, 4)]),
     [2, 1, 3]),
    ("48 rising needs", of_needs(*range(48)), list(range(48, 0, -1))),
    ("48 equal needs", of_needs(*[4] * 48), list(range(1, 49))),
    ("48 needs of two, in turn", of_needs(*[4, 8] * 24),
     [*range(2, 49, 2), *range(1, 49, 2)]),
]

# What each shows, an order with one or more jobs over their ends at -1, and the job
# told with its time. No job of these orders lies at the place of its number.
LATE = [
    ("the first has the smallest need",
     order([8], [(3, 1, 2), (5, 2, 8), (1, 9, 4)]), 1, 3),
    ("the first has the smallest need, all are late",
     order([8], [(3, 1, 0), (6, 1, 4), (5, 2, 8), (4, 3, 8)]), 1, 3),
    ("the first has a need between those of two others",
     order([8, 4], [(9, 9, 0), (3, 1, 4), (5, 2, 8), (2, 9, 8), (2, 1, 2)]), 2, 3),
    ("the first has the largest need",
     order([8], [(1, 9, 0), (5, 2, 8), (3, 1, 4), (2, 1, 2)]), 2, 5),
    ("the first two have one need",
     order([8], [(1, 9, 2), (4, 3, 4), (5, 3, 4), (6, 3, 8), (2, 9, 8)]), 2, 4),
    ("three of one need, the first of them in time",
     order([8], [(2, 9, 4), (7, 6, 4), (8, 6, 4), (9, 9, 8)]), 2, 7),
    ("one is late, of the smallest need",
     order([8], [(2, 1, 2), (3, 9, 4), (4, 9, 8), (5, 9, 8)]), 1, 2),
    ("one is late, of the largest need",
     order([8], [(2, 9, 4), (3, 9, 4), (4, 9, 2), (5, 4, 8)]), 4, 5),
    ("two jobs, both late", order([8, 8], [(2, 1, 2), (7, 1, 8)]), 1, 2),
]

# What each shows, an order with no job over its end at -1, and the due times of its
# first overfull staircase there. No job of these orders lies at the place of its
# number.
STAIRS = [
    ("B, its jobs by rising need",
     order([8, 4], [(2, 2, 4), (2, 2, 4), (2, 4, 8), (2, 4, 8)]), (4, 2)),
    ("several needs in one class",
     order([8, 4], [(1, 2, 3), (2, 2, 8), (1, 2, 6)]), (2,)),
    ("a need that is a memory, and one beside it",
     order([8, 4], [(2, 2, 4), (2, 2, 4), (1, 2, 5)]), (2, 2)),
]

# Equal due times: one stretch, and each job's amount is its time. What each shows,
# the order, and its rows at -1. But for equal needs no job of these orders lies at
# the place of its number.
ROWS = [
    ("rising needs, one processor",
     order([4], [(1, 8, 0), (2, 8, 1), (3, 8, 2), (2, 8, 4)]),
     [(4, 1, 0, 2), (3, 1, 2, 5), (2, 1, 5, 7), (1, 1, 7, 8)]),
    ("ties in input order", order([4], [(1, 6, 2), (2, 6, 4), (1, 6, 2), (2, 6, 4)]),
     [(2, 1, 0, 2), (4, 1, 2, 4), (1, 1, 4, 5), (3, 1, 5, 6)]),
    ("ties in input order over two processors",
     order([4, 4], [(2, 3, 2), (2, 3, 4), (1, 3, 2), (1, 3, 4)]),
     [(2, 1, 0, 2), (4, 1, 2, 3), (1, 2, 0, 2), (3, 2, 2, 3)]),
    ("a job that wraps, of a need between",
     order([4, 8], [(1, 4, 2), (2, 4, 3), (2, 4, 8), (3, 4, 4)]),
     [(3, 2, 0, 2), (4, 2, 2, 4), (4, 1, 0, 1), (2, 1, 1, 3), (1, 1, 3, 4)]),
    ("two needs of one class", order([8, 2], [(2, 4, 1), (3, 4, 7), (1, 4, 3)]),
     [(2, 1, 0, 3), (3, 1, 3, 4), (1, 2, 0, 2)]),
    ("equal needs", order([4, 4], [(2, 4, 4), (3, 4, 4), (3, 4, 4)]),
     [(1, 1, 0, 2), (2, 1, 2, 4), (2, 2, 0, 1), (3, 2, 1, 4)]),
]

# What each shows, the jobs of an order of memory 8, and the refusal: of several bad
# jobs the first, though another of them has the larger need.
REFUSED = [
    ("5", [(1, 5, 4), (0, 5, 2), (100001, 5, 8)], 5, 2),
    ("5, the first has the smallest need", [(0, 5, 0), (0, 5, 4), (0, 5, 8)], 5, 1),
    ("6", [(1, 5, 4), (1, 1000001, 2), (1, -1000001, 8)], 6, 2),
    ("13", [(1, 5, 4), (1, 5, 2, 17), (1, 5, 8, 0)], 13, 2),
    ("7", [(1, 5, 4), (1, 5, 9), (1, 5, 12)], 7, 2),
    ("7, the last has the largest need", [(1, 5, 9), (1, 5, 8), (1, 5, 10)], 7, 1),
    ("5 precedes 7, which has the larger need",
     [(1, 5, 2), (1, 5, 9), (0, 5, 4), (0, 5, 8)], 5, 3),
]

# What each shows, an order, a bound, its times, and its rows: each job's ready minute
# and end are its own.
TIMED = [
    ("the smaller need is ready first", order([8], [(2, 9, 2), (2, 9, 8)]), -6,
     times([0, 2], [(0, 4)]), [(1, 1, 0, 2), (2, 1, 2, 4)]),
    ("the larger need is ready first", order([8], [(2, 9, 2), (2, 9, 8)]), -6,
     times([2, 0], [(0, 4)]), [(2, 1, 0, 2), (1, 1, 2, 4)]),
    ("three needs, each ready as another ends",
     order([8], [(1, 1, 2), (2, 3, 8), (3, 6, 4)]), -1, times([0, 1, 3], [(0, 6)]),
     [(1, 1, 0, 1), (2, 1, 1, 3), (3, 1, 3, 6)]),
    ("equal needs, ready together", order([8], [(1, 9, 2), (1, 9, 8), (1, 9, 8)]), -4,
     times([3, 3, 3], [(0, 6)]), [(2, 1, 3, 4), (3, 1, 4, 5), (1, 1, 5, 6)]),
]
