"""The orders that document 01 names, small orders for each refusal, and orders for
the lines of document 02, §1, for its joined rows, §2, and for its makers, §4.

Document 01, "Orders to try": "Jobs are (time, due, need)." And the refusal
table's column "Small example". Document 02, §4: "In document 01's cases the maker
is 1." So a job of three numbers is of maker 1; a fourth number is its maker.
"""

from orders import order

A = order([8, 4], [(3, 3, 8), (3, 3, 4), (2, 4, 2)])
B = order([8, 4], [(2, 4, 8), (2, 4, 8), (2, 2, 4), (2, 2, 4)])
C = order([4], [(3, 10, 4)])
D = order([8, 8], [(1, 4, 1), (1, 4, 1), (1, 4, 1)])
NEED_0 = order([4], [(1, 1, 0)])
DUE_MINUS_5 = order([1], [(1, -5, 1)])
ONE = order([4], [(1, 1, 4)])

# 16 processors, 48 jobs, 48 distinct due times: 48 × 63 = 3,024 rows.
FULL = order(
    [64, 64, 96, 128, 128, 192, 256, 256, 384, 512, 512, 768, 1024, 1024, 2048,
     4096],
    [(20 + 37 * i % 90, 30 + 31 * i % 48 * 4, 4096 >> 29 * i % 8)
     for i in range(48)])
FULL_EQUAL = order([4] * 16, [(1, 99, 0)] * 48)
# Jobs of makers 1, 2, 2 and 16: 3, 4 and 1 minutes.
MAKERS = order([8, 4], [(3, 4, 8, 1), (2, 2, 4, 2), (2, 4, 4, 2), (1, 4, 8, 16)])


def long_stairs(count):
    """So many classes of one processor each, each filled exactly by two jobs up
    to a due time of its own, the last by one minute too many: at -1 the only
    overfull staircase has all classes and goes down 2 minutes a step."""
    jobs = []
    for need in range(count, 1, -1):
        jobs += [(need, 2 * need, need)] * 2
    return order(range(1, count + 1), jobs + [(1, 2, 1)] * 3)


# Two jobs over their ends at -1.
SEVERAL_LATE = order([4], [(3, 1, 0), (1, 9, 0), (5, 2, 0)])
# Four overfull staircases at -1.
FOUR_STAIRS = order([8, 4], [(2, 2, 8), (1, 1, 8), (1, 1, 4)])
# The longest lines of a reason: 16 classes, and job 48.
LONGEST_AT = 1099999
LONGEST_STAIRS = order([4294967295 - i for i in range(16)],
                       [(100000, -1000000, 0)] * 48)
LONGEST_JOB_AT = -10000000
LONGEST_JOB = order([4], [(100000, -1000000, 4)] * 48)

# Job 1 runs on processor 1 from the first minute to the last.
OVER_TWO = order([8, 4], [(4, 4, 8), (2, 2, 4)])
OVER_THREE = order([8, 4], [(6, 6, 8), (2, 2, 4), (2, 4, 4)])
# Orders whose amounts at -1 are forced: what each shows, the order, the rows of
# its stretches, and these joined.
JOINED = [
    ("one row over two stretches", OVER_TWO,
     [[(1, 1, 0, 2), (2, 2, 0, 2)], [(1, 1, 2, 4)]],
     [(1, 1, 0, 4), (2, 2, 0, 2)]),
    ("one row over three stretches", OVER_THREE,
     [[(1, 1, 0, 2), (2, 2, 0, 2)], [(1, 1, 2, 4), (3, 2, 2, 4)], [(1, 1, 4, 6)]],
     [(1, 1, 0, 6), (2, 2, 0, 2), (3, 2, 2, 4)]),
    ("a job that wraps in the next stretch",
     order([8, 4], [(2, 2, 8), (6, 6, 4), (2, 6, 8)]),
     [[(1, 1, 0, 2), (2, 2, 0, 2)], [(3, 1, 2, 4), (2, 1, 4, 6), (2, 2, 2, 4)]],
     [(1, 1, 0, 2), (2, 2, 0, 4), (3, 1, 2, 4), (2, 1, 4, 6)]),
    ("a joined row from inside a stretch", order([4], [(1, 2, 4), (3, 4, 4)]),
     [[(1, 1, 0, 1), (2, 1, 1, 2)], [(2, 1, 2, 4)]],
     [(1, 1, 0, 1), (2, 1, 1, 4)]),
    ("a job that stopped before the stretch's end",
     order([4], [(3, 4, 4), (1, 2, 4)]),
     [[(1, 1, 0, 1), (2, 1, 1, 2)], [(1, 1, 2, 4)]],
     [(1, 1, 0, 1), (2, 1, 1, 2), (1, 1, 2, 4)]),
    ("a job that goes on at another processor",
     order([8, 4], [(4, 4, 4), (2, 2, 0), (2, 4, 8)]),
     [[(1, 1, 0, 2), (2, 2, 0, 2)], [(3, 1, 2, 4), (1, 2, 2, 4)]],
     [(1, 1, 0, 2), (2, 2, 0, 2), (3, 1, 2, 4), (1, 2, 2, 4)]),
    ("a job that comes back to its processor later",
     order([8, 4], [(6, 6, 4), (2, 2, 0), (2, 6, 8)]),
     [[(1, 1, 0, 2), (2, 2, 0, 2)], [(3, 1, 2, 4), (1, 1, 4, 6), (1, 2, 2, 4)]],
     [(1, 1, 0, 2), (2, 2, 0, 2), (3, 1, 2, 4), (1, 1, 4, 6), (1, 2, 2, 4)]),
    ("a joined row on each of two processors",
     order([4, 8], [(4, 4, 8), (1, 2, 4), (3, 4, 4)]),
     [[(1, 2, 0, 2), (2, 1, 0, 1), (3, 1, 1, 2)], [(1, 2, 2, 4), (3, 1, 2, 4)]],
     [(1, 2, 0, 4), (2, 1, 0, 1), (3, 1, 1, 4)]),
]

NAMED = {"A": A, "B": B, "C": C, "D": D, "full": FULL, "makers": MAKERS}

GOOD = (1, 5, 1)
BAD_TIME, BAD_DUE, BAD_NEED = (0, 5, 1), (1, 1000001, 1), (1, 5, 9)
BAD_MAKER, HIGH_MAKER = (1, 5, 1, 0), (1, 5, 1, 17)


def at(places, count=9):
    """So many good jobs, with others at the places (from 1) named."""
    return [places.get(number, GOOD) for number in range(1, count + 1)]


# What each shows, its order, and the refusal's number and job.
REFUSED = [
    ("row 1's example", order([], [(1, 1, 0)]), 1, 0),
    ("row 2's example", order([4] * 17, [(1, 1, 0)]), 2, 0),
    ("row 3's example", order([4], []), 3, 0),
    ("row 4's example", order([4], [(1, 99, 0)] * 49), 4, 0),
    ("row 5's example", order([8], [BAD_TIME]), 5, 1),
    ("row 6's example", order([8], [BAD_DUE]), 6, 1),
    ("row 7's example", order([8], [BAD_NEED]), 7, 1),
    ("1 precedes 3", order([], []), 1, 0),
    ("1 precedes 4", order([], [(1, 99, 0)] * 49), 1, 0),
    ("1 precedes 5", order([], [BAD_TIME]), 1, 0),
    ("1 precedes 7: no memory, need 9", order([], [BAD_NEED]), 1, 0),
    ("2 precedes 3", order([4] * 17, []), 2, 0),
    ("2 precedes 5", order([4] * 17, [BAD_TIME]), 2, 0),
    ("2 precedes 7", order([4] * 17, [BAD_NEED]), 2, 0),
    ("4 precedes 5 at job 1", order([4], at({1: BAD_TIME}, 49)), 4, 0),
    ("4 precedes 6 and 7", order([4], at({1: BAD_DUE, 2: BAD_NEED}, 49)), 4, 0),
    ("5 at job 9 precedes 6 at job 1", order([8], at({1: BAD_DUE, 9: BAD_TIME})), 5, 9),
    ("5 at job 9 precedes 7 at job 1", order([8], at({1: BAD_NEED, 9: BAD_TIME})), 5, 9),
    ("6 at job 9 precedes 7 at job 1", order([8], at({1: BAD_NEED, 9: BAD_DUE})), 6, 9),
    ("5, 6 and 7 in one job", order([8], at({4: (0, 1000001, 9)})), 5, 4),
    ("the first of two jobs in 5", order([8], at({3: BAD_TIME, 7: BAD_TIME})), 5, 3),
    ("the first of two jobs in 6", order([8], at({3: BAD_DUE, 7: BAD_DUE})), 6, 3),
    ("the first of two jobs in 7", order([8], at({3: BAD_NEED, 7: BAD_NEED})), 7, 3),
    ("the last of 48 jobs in 5", order([8], at({48: BAD_TIME}, 48)), 5, 48),
    ("the last of 48 jobs in 6", order([8], at({48: BAD_DUE}, 48)), 6, 48),
    ("the last of 48 jobs in 7", order([8], at({48: BAD_NEED}, 48)), 7, 48),
    ("time 100001", order([8], [(100001, 5, 1)]), 5, 1),
    ("time 2147483648", order([8], [(2147483648, 5, 1)]), 5, 1),
    ("time 4294967295 is no -1", order([8], [(4294967295, 5, 1)]), 5, 1),
    ("due -1000001", order([8], [(1, -1000001, 1)]), 6, 1),
    ("due -2147483648", order([8], [(1, -2147483648, 1)]), 6, 1),
    ("due 2147483647", order([8], [(1, 2147483647, 1)]), 6, 1),
    ("need 1 more than the largest of 3", order([3, 8, 5], [(1, 5, 9)]), 7, 1),
    ("need 4294967295, memory 4294967294",
     order([4294967294], [(1, 5, 4294967295)]), 7, 1),
    ("memory 0, need 1", order([0], [(1, 5, 1)]), 7, 1),
    ("row 13: maker 0", order([8], [BAD_MAKER]), 13, 1),
    ("row 13: maker 17", order([8], [HIGH_MAKER]), 13, 1),
    ("maker 257", order([8], [(1, 5, 1, 257)]), 13, 1),
    ("maker 65537", order([8], [(1, 5, 1, 65537)]), 13, 1),
    ("maker 2147483649", order([8], [(1, 5, 1, 2147483649)]), 13, 1),
    ("maker 4294967295 is no -1", order([8], [(1, 5, 1, 4294967295)]), 13, 1),
    ("1 precedes 13", order([], [BAD_MAKER]), 1, 0),
    ("2 precedes 13", order([4] * 17, [BAD_MAKER]), 2, 0),
    ("4 precedes 13 at job 1", order([4], at({1: HIGH_MAKER}, 49)), 4, 0),
    ("5 at job 9 precedes 13 at job 1",
     order([8], at({1: BAD_MAKER, 9: BAD_TIME})), 5, 9),
    ("6 at job 9 precedes 13 at job 1",
     order([8], at({1: BAD_MAKER, 9: BAD_DUE})), 6, 9),
    ("13 at job 9 precedes 7 at job 1",
     order([8], at({1: BAD_NEED, 9: BAD_MAKER})), 13, 9),
    ("6, 13 and 7 in one job", order([8], at({4: (1, 1000001, 9, 17)})), 6, 4),
    ("13 and 7 in one job", order([8], at({4: (1, 5, 9, 17)})), 13, 4),
    ("the first of two jobs in 13, maker 0 and 17",
     order([8], at({3: BAD_MAKER, 7: HIGH_MAKER})), 13, 3),
    ("the first of two jobs in 13, maker 17 and 0",
     order([8], at({3: HIGH_MAKER, 7: BAD_MAKER})), 13, 3),
    ("the last of 48 jobs in 13", order([8], at({48: HIGH_MAKER}, 48)), 13, 48),
    ("13 at job 9 among jobs of makers 2 to 16",
     order([8], [(1, 5, 1, 2 * i if i < 9 else 0) for i in range(1, 10)]), 13, 9),
]

# Counts beyond the arrays, which no file can hold.
REFUSED_COUNTS = [
    ("17 processors by count", order([4] * 16, [GOOD], m=17), 2, 0),
    ("65535 processors", order([4] * 16, [GOOD], m=65535), 2, 0),
    ("65536 processors", order([4] * 16, [GOOD], m=65536), 2, 0),
    ("4294967295 processors", order([4] * 16, [GOOD], m=4294967295), 2, 0),
    ("49 jobs by count", order([4], [GOOD] * 48, n=49), 4, 0),
    ("65535 jobs", order([4], [GOOD] * 48, n=65535), 4, 0),
    ("65537 jobs", order([4], [GOOD] * 48, n=65537), 4, 0),
    ("4294967295 jobs", order([4], [GOOD] * 48, n=4294967295), 4, 0),
    ("4294967295 of both", order([4] * 16, [GOOD] * 48, 4294967295, 4294967295), 2, 0),
    ("no processor, 4294967295 jobs", order([], [GOOD] * 48, n=4294967295), 1, 0),
    ("4294967295 processors, no job", order([4] * 16, [], m=4294967295), 2, 0),
]

# Accepted orders at the limits.
LIMITS = [
    ("time 100000", order([8], [(100000, 5, 1)])),
    ("due 1000000", order([8], [(1, 1000000, 1)])),
    ("due -1000000", order([8], [(1, -1000000, 1)])),
    ("memory and need 4294967295", order([4294967295], [(1, 5, 4294967295)])),
    ("memory and need 0", order([0], [(1, 5, 0)])),
    ("memory 4294967295, need 0", order([4294967295], [(1, 5, 0)])),
    ("the last of 3 processors fits", order([3, 5, 9], [(1, 5, 9)])),
    ("16 processors, 1 job", order([4] * 16, [(1, 5, 4)])),
    ("1 processor, 48 jobs", order([4], [(1, 99, 0)] * 48)),
    ("16 processors, 48 jobs: accepted", FULL_EQUAL),
    ("16 processors, 48 jobs, 48 due times", FULL),
    ("48 jobs of the greatest time, due time earliest",
     order([4], [(100000, -1000000, 4)] * 48)),
    ("maker 16", order([8], [(1, 5, 1, 16)])),
    ("a job of each maker", order([8], [(1, 5, 1, i) for i in range(1, 17)])),
]
