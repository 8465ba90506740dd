"""Memories of processors, and their classes worked out by hand.

Document 02, §6: "After each processor passed, classes and counts are those of the
processors passed so far." A class is (memory, processors).
"""

from known_orders import BAD_DUE, BAD_MAKER, BAD_NEED, BAD_TIME, GOOD, HIGH_MAKER

TOP = 4294967295
# Four processors and three classes, and a job that fits all.
FOUR = (4, 8, 4, 2)
SMALL = (1, 9, 0)

# What each shows, the memories in input order, and the classes after each processor
# passed of the sorted list; the last are those of all.
PASSED = [
    ("a class of two between two of one", FOUR,
     [[(8, 1)], [(8, 1), (4, 1)], [(8, 1), (4, 2)], [(8, 1), (4, 2), (2, 1)]]),
    ("one processor", [8], [[(8, 1)]]),
    ("two classes", [8, 4], [[(8, 1)], [(8, 1), (4, 1)]]),
    ("two classes, the smaller memory first", [4, 8], [[(8, 1)], [(8, 1), (4, 1)]]),
    ("a tie at the end", [8, 4, 4], [[(8, 1)], [(8, 1), (4, 1)], [(8, 1), (4, 2)]]),
    ("a tie at the beginning", [8, 8, 4], [[(8, 1)], [(8, 2)], [(8, 2), (4, 1)]]),
    ("a tie parted in input order", [8, 4, 8], [[(8, 1)], [(8, 2)], [(8, 2), (4, 1)]]),
    ("the classes sorted already", [8, 4, 4, 2],
     [[(8, 1)], [(8, 1), (4, 1)], [(8, 1), (4, 2)], [(8, 1), (4, 2), (2, 1)]]),
    ("two ties", [5, 9, 5, 9],
     [[(9, 1)], [(9, 2)], [(9, 2), (5, 1)], [(9, 2), (5, 2)]]),
    ("three classes of three, one and two", [1, 3, 3, 2, 1, 3],
     [[(3, 1)], [(3, 2)], [(3, 3)], [(3, 3), (2, 1)], [(3, 3), (2, 1), (1, 1)],
      [(3, 3), (2, 1), (1, 2)]]),
    ("memory 0", [0], [[(0, 1)]]),
    ("memory 0 twice", [0, 0], [[(0, 1)], [(0, 2)]]),
    ("memory 4294967295", [TOP], [[(TOP, 1)]]),
    ("memories 0 and 4294967295", [0, TOP], [[(TOP, 1)], [(TOP, 1), (0, 1)]]),
    ("memories 0 and 4294967295 twice", [0, TOP, TOP, 0],
     [[(TOP, 1)], [(TOP, 2)], [(TOP, 2), (0, 1)], [(TOP, 2), (0, 2)]]),
    ("neighbours at both ends", [1, TOP - 1, 0, TOP],
     [[(TOP, 1)], [(TOP, 1), (TOP - 1, 1)], [(TOP, 1), (TOP - 1, 1), (1, 1)],
      [(TOP, 1), (TOP - 1, 1), (1, 1), (0, 1)]]),
    ("two's complement would turn them", [2147483647, 2147483648],
     [[(2147483648, 1)], [(2147483648, 1), (2147483647, 1)]]),
    ("16 bits would make them equal", [4, 65540], [[(65540, 1)], [(65540, 1), (4, 1)]]),
    ("8 bits would make them equal", [260, 4], [[(260, 1)], [(260, 1), (4, 1)]]),
    ("digits would turn them", [9, 10], [[(10, 1)], [(10, 1), (9, 1)]]),
    ("16 equal memories", [4] * 16, [[(4, count)] for count in range(1, 17)]),
    ("16 memories of 0", [0] * 16, [[(0, count)] for count in range(1, 17)]),
    ("16 memories of 4294967295", [TOP] * 16,
     [[(TOP, count)] for count in range(1, 17)]),
    ("16 distinct memories, rising", range(1, 17),
     [[(16 - place, 1) for place in range(count)] for count in range(1, 17)]),
    ("16 distinct memories, falling", range(16, 0, -1),
     [[(16 - place, 1) for place in range(count)] for count in range(1, 17)]),
]

# What each shows, the memories, and their classes.
LISTED = [(story, tuple(memories), listings[-1])
          for story, memories, listings in PASSED]

# What each shows, the jobs of an order of the four processors, and the refusal's
# number and job.
BAD_JOBS = [
    ("3: no job", [], 3, 0),
    ("4: 49 jobs", [GOOD] * 49, 4, 0),
    ("5 at job 2", [GOOD, BAD_TIME], 5, 2),
    ("6 at job 2", [GOOD, BAD_DUE], 6, 2),
    ("13 at job 2, maker 0", [GOOD, BAD_MAKER], 13, 2),
    ("13 at job 2, maker 17", [GOOD, HIGH_MAKER], 13, 2),
    ("7 at job 2: a need above class 1", [GOOD, BAD_NEED], 7, 2),
    ("7 at jobs 1 and 2", [BAD_NEED, BAD_NEED], 7, 1),
    ("13 at job 2 before 7 at job 1", [BAD_NEED, HIGH_MAKER], 13, 2),
    ("6 at job 3 before 13 and 7", [BAD_NEED, HIGH_MAKER, BAD_DUE], 6, 3),
    ("5 at job 4 before 6, 13 and 7",
     [BAD_NEED, HIGH_MAKER, BAD_DUE, BAD_TIME], 5, 4),
    ("4 before 5, 6, 13 and 7",
     [BAD_NEED, HIGH_MAKER, BAD_DUE, BAD_TIME] + [GOOD] * 45, 4, 0),
]
