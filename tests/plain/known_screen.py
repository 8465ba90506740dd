"""What the dock and the screen say to an order, written out by hand.

Document 02, §10: "An order within the screen's limits gets the dock's own reply from
either caller". "A screen order over 12 jobs is 20 and over 4 processors is 21, given in
place of 4 and 2 and where those stand": the screen judges 12, 1, 21, 3, 20, 5, 6, 13,
19 and 7, in this order. 20 and 21 are about no single job and carry 0.
"""

import book
import known_orders
import order_file
import timed
from known_orders import A, B, C, D, DUE_MINUS_5, NEED_0
from orders import order
from stream_form import LEAST, PLAN, Call

# Counts of processors and of jobs about each caller's limits.
PROCESSORS = (0, 1, 3, 4, 5, 16, 17)
JOBS = (0, 1, 11, 12, 13, 48, 49)
# Beside each count of processors the refusal told at each of these counts of jobs, 0
# where the order is accepted: by the dock, then by the screen.
BY_DOCK = {
    0: (1, 1, 1, 1, 1, 1, 1),
    1: (3, 0, 0, 0, 0, 0, 4),
    3: (3, 0, 0, 0, 0, 0, 4),
    4: (3, 0, 0, 0, 0, 0, 4),
    5: (3, 0, 0, 0, 0, 0, 4),
    16: (3, 0, 0, 0, 0, 0, 4),
    17: (2, 2, 2, 2, 2, 2, 2),
}
BY_SCREEN = {
    0: (1, 1, 1, 1, 1, 1, 1),
    1: (3, 0, 0, 0, 20, 20, 20),
    3: (3, 0, 0, 0, 20, 20, 20),
    4: (3, 0, 0, 0, 20, 20, 20),
    5: (21, 21, 21, 21, 21, 21, 21),
    16: (21, 21, 21, 21, 21, 21, 21),
    17: (21, 21, 21, 21, 21, 21, 21),
}
# Of these the file has over 844 bytes: 860, 848 and 864.
TOO_LONG = ((16, 49), (17, 48), (17, 49))

# Processors, jobs, and what the dock and the screen tell, 0 for accepted.
WORKED = [
    (4, 12, 0, 0), (5, 0, 3, 21), (5, 13, 0, 21), (4, 13, 0, 20), (1, 13, 0, 20),
    (17, 1, 2, 21), (16, 49, 4, 21), (0, 13, 1, 1), (4, 0, 3, 3), (0, 0, 1, 1),
]

# Counts that are within the screen's limits in 8, 16 or 31 bits only, or below 0 in
# two's complement; then what the dock and the screen tell.
FAR_COUNTS = [
    (257, 1, 2, 21), (260, 12, 2, 21), (65537, 1, 2, 21), (2147483649, 1, 2, 21),
    (4294967295, 1, 2, 21), (4294967295, 0, 2, 21), (1, 65548, 4, 20),
    (4, 2147483660, 4, 20), (1, 4294967295, 4, 20),
]

# A fault of one job, and the refusal for it.
FAULTS = [
    ("a time of 0", known_orders.BAD_TIME, 5),
    ("a due time of 1000001", known_orders.BAD_DUE, 6),
    ("maker 17", known_orders.HIGH_MAKER, 13),
    ("a need of 9", known_orders.BAD_NEED, 7),
]


def counted(m, n, places=()):
    """So many processors of memory 8 and so many jobs of one minute, due 5 and of need
    1, with others at the places (from 1) named. Of a count beyond these tables no more
    are given than 17 and 49."""
    return order([8] * min(m, 17), known_orders.at(dict(places), min(n, 49)), m, n)


def refused(number):
    return [f"refused {number} 0"]


def books(*counts):
    """The lines of books in which maker 1 has these counts, and no other maker any."""
    return [f"book {count}" + " 0" * 15 for count in counts]


# 12 jobs on 4 processors take 3 minutes, 13 jobs on one 13, one job 1. An end is at
# minute 6 + bound.
MOST, JOBS_13, PROCESSORS_5 = counted(4, 12), counted(1, 13), counted(5, 1)
JOB = "job 1 5 1 1"
JOB_BYTES = "01000000" "05000000" "01000000" "01000000"
NO_DUES = (0,) * 16
DUE_5 = (5,) + (0,) * 15
OPEN_4 = timed.times([0] * 12, [(0, 9)] * 4)
OPEN_1 = timed.times([0] * 13, [(0, 99)])
OPEN_5 = timed.times([0], [(0, 9)] * 5)
ROWS_OF_12 = [number for job in range(12)
              for number in (job + 1, job % 4 + 1, job // 4, job // 4 + 1)]
ROWS_OF_13 = [number for job in range(13) for number in (job + 1, 1, job, job + 1)]
LINE_OF_12 = "memory 8 due 5: owed 12, on hand 8"
LINE_OF_13 = "memory 8 due 5: owed 13, on hand 12"
LINE_OF_1 = "job 1: time 1, end 0: owed 1, on hand 0"

# Within the screen's limits: what each shows, kind and values of its case, and the
# lines of either caller.
WITHIN = [
    ("4 processors, 12 jobs, 220 bytes", "read", (order_file.encode(MOST),),
     ["order 4 12", *["processor 8"] * 4, *[JOB] * 12]),
    ("12 jobs by minute 3", "check", (MOST, -3, ROWS_OF_12), ["yes"]),
    ("12 jobs by minute 2", "check", (MOST, -4, ROWS_OF_12), ["no"]),
    ("12 jobs, room for 15 rows", "least", (MOST, 60), ["least -3"]),
    ("12 jobs, room for 14 rows", "least", (MOST, 59), refused(9)),
    ("12 jobs by minute 3", "plan", (MOST, -3, 60), ["meets"]),
    ("12 jobs by minute 2", "plan", (MOST, -4, 60), ["tight stairs 5"]),
    ("12 jobs, bound 10000001", "plan", (MOST, 10000001, 0), refused(8)),
    ("12 jobs, room for 14 rows", "plan", (MOST, -4, 59), refused(9)),
    ("12 jobs, room for 220 bytes", "write", (MOST, 220), [
        "file 220 " + "08000000" * 4 + JOB_BYTES * 12
        + "00000000" "10000000" "0400" "0c00"]),
    ("12 jobs, room for 219 bytes", "write", (MOST, 219), refused(9)),
    ("12 jobs by minute 2", "compose", (MOST, -4, 2, 1, 0, DUE_5, 34),
     [f"line 34 {LINE_OF_12}"]),
    ("12 jobs by minute 2, room for 33 bytes", "compose",
     (MOST, -4, 2, 1, 0, DUE_5, 33), refused(9)),
    ("12 jobs by minute 2", "parse", (MOST, -4, LINE_OF_12.encode()), ["stairs 5"]),
    ("12 jobs by minute 3", "parse", (MOST, -3, LINE_OF_12.encode()), ["none"]),
    ("12 jobs, at the least lateness, then by minute 2", "book",
     (book.OPENED, (Call(LEAST, MOST, 0, 60), Call(PLAN, MOST, -4, 60))),
     ["least -3", *books(12), "tight stairs 5", *books(12)]),
    ("12 jobs, a book with room for 11 minutes", "book",
     ((3999999989,) + (0,) * 15, (Call(PLAN, MOST, -3, 60),)),
     [*refused(14), *books(3999999989)]),
    ("12 jobs by minute 3", "asked", (MOST, -3, OPEN_4), ["asked 45"]),
    ("12 jobs by minute 3", "timed", (MOST, -3, OPEN_4, 180), ["meets", "yes"]),
    ("12 jobs by minute 2", "timed", (MOST, -4, OPEN_4, 180), ["tight"]),
    ("12 jobs, room for 44 rows", "timed", (MOST, -3, OPEN_4, 179), refused(9)),
    ("12 jobs, bound 10000001", "timed", (MOST, 10000001, OPEN_4, 0), refused(8)),
    ("12 jobs by minute 3", "watch", (MOST, -3, OPEN_4, ROWS_OF_12), ["yes"]),
    ("12 jobs, the last from 1 to 2 minutes", "between",
     (MOST, (1,) * 11 + (2,), -2),
     ["between -3 -2", "order 4 12", *["processor 8"] * 4, *[JOB] * 11, "job 2 5 1 1"]),
    ("12 jobs, no minute between", "between", (MOST, (1,) * 12, -2),
     ["between -3 -3", "nowhere"]),
    ("A", "least", (A, 32), ["least 0"]),
    ("A", "plan", (A, -1, 32), ["tight stairs 3 3"]),
    ("B", "least", (B, 40), ["least 0"]),
    ("B", "plan", (B, -1, 40), ["tight stairs 4 2"]),
    ("C", "least", (C, 4), ["least -8"]),
    ("C", "plan", (C, -9, 4), ["tight job 1"]),
    ("D", "least", (D, 16), ["least -3"]),
    ("memory 4, job (1, 1, 0)", "least", (NEED_0, 4), ["least -1"]),
    ("memory 1, job (1, -5, 1)", "least", (DUE_MINUS_5, 4), ["least 5"]),
]

# Over the screen's limits and within the dock's: what each shows, kind and values of
# its case, the dock's lines and the screen's.
OVER = [
    ("1 processor, 13 jobs, 224 bytes", "read", (order_file.encode(JOBS_13),),
     ["order 1 13", "processor 8", *[JOB] * 13], refused(20)),
    ("13 jobs by minute 13", "check", (JOBS_13, 7, ROWS_OF_13), ["yes"], refused(20)),
    ("13 jobs", "least", (JOBS_13, 52), ["least 7"], refused(20)),
    ("13 jobs by minute 13", "plan", (JOBS_13, 7, 52), ["meets"], refused(20)),
    ("13 jobs by minute 12", "plan", (JOBS_13, 6, 52), ["tight stairs 5"], refused(20)),
    ("13 jobs", "write", (JOBS_13, 224), [
        "file 224 " + "08000000" + JOB_BYTES * 13
        + "00000000" "04000000" "0100" "0d00"], refused(20)),
    ("13 jobs by minute 12", "compose", (JOBS_13, 6, 2, 1, 0, DUE_5, 35),
     [f"line 35 {LINE_OF_13}"], refused(20)),
    ("13 jobs by minute 12", "parse", (JOBS_13, 6, LINE_OF_13.encode()), ["stairs 5"],
     refused(20)),
    ("12 jobs, 13 jobs, 12 jobs", "book",
     (book.OPENED, (Call(LEAST, MOST, 0, 60), Call(LEAST, JOBS_13, 0, 52),
                    Call(PLAN, MOST, -3, 60))),
     ["least -3", *books(12), "least 7", *books(25), "meets", *books(37)],
     ["least -3", *books(12), *refused(20), *books(12), "meets", *books(24)]),
    ("13 jobs by minute 13", "asked", (JOBS_13, 7, OPEN_1), ["asked 39"], refused(20)),
    ("13 jobs by minute 13", "timed", (JOBS_13, 7, OPEN_1, 156), ["meets", "yes"],
     refused(20)),
    ("13 jobs by minute 13", "watch", (JOBS_13, 7, OPEN_1, ROWS_OF_13), ["yes"],
     refused(20)),
    ("13 jobs, no minute between", "between", (JOBS_13, (1,) * 13, 7),
     ["between 7 7", "order 1 13", "processor 8", *[JOB] * 13], refused(20) * 2),
    ("5 processors, 1 job, 48 bytes", "read", (order_file.encode(PROCESSORS_5),),
     ["order 5 1", *["processor 8"] * 5, JOB], refused(21)),
    ("a row of the 5th processor", "check", (PROCESSORS_5, -5, [1, 5, 0, 1]), ["yes"],
     refused(21)),
    ("5 processors", "least", (PROCESSORS_5, 20), ["least -5"], refused(21)),
    ("5 processors", "plan", (PROCESSORS_5, -5, 20), ["meets"], refused(21)),
    ("5 processors", "plan", (PROCESSORS_5, -6, 20), ["tight job 1"], refused(21)),
    ("5 processors", "write", (PROCESSORS_5, 48), [
        "file 48 " + "08000000" * 5 + JOB_BYTES + "00000000" "14000000" "0500" "0100"],
     refused(21)),
    ("5 processors", "compose", (PROCESSORS_5, -6, 1, 1, 1, NO_DUES, 39),
     [f"line 39 {LINE_OF_1}"], refused(21)),
    ("5 processors", "parse", (PROCESSORS_5, -6, LINE_OF_1.encode()), ["job 1 1"],
     refused(21)),
    ("5 processors, by each call", "book",
     (book.OPENED, (Call(LEAST, PROCESSORS_5, 0, 20),
                    Call(PLAN, PROCESSORS_5, -5, 20))),
     ["least -5", *books(1), "meets", *books(2)],
     [*refused(21), *books(0), *refused(21), *books(0)]),
    ("5 processors", "asked", (PROCESSORS_5, -5, OPEN_5), ["asked 15"], refused(21)),
    ("5 processors", "timed", (PROCESSORS_5, -5, OPEN_5, 60), ["meets", "yes"],
     refused(21)),
    ("a row of the 5th processor", "watch", (PROCESSORS_5, -5, OPEN_5, [1, 5, 0, 1]),
     ["yes"], refused(21)),
    ("5 processors, from 1 to 2 minutes", "between", (PROCESSORS_5, (2,), -4),
     ["between -5 -4", "order 5 1", *["processor 8"] * 5, "job 2 5 1 1"],
     refused(21) * 2),
]

# Files: what each shows, its bytes, and the refusal that the dock and the screen tell,
# 0 for an order. 12 is judged first, and with 844 bytes at most from either caller.
FILES = [
    ("4 processors, 13 jobs, 236 bytes", order_file.encode(counted(4, 13)), 0, 20),
    ("5 processors, no job, 32 bytes", order_file.encode(counted(5, 0)), 3, 21),
    ("5 processors, 12 jobs, 224 bytes, jobs first",
     order_file.encode(counted(5, 12), True), 0, 21),
    ("1 processor, 13 jobs, jobs first", order_file.encode(JOBS_13, True), 0, 20),
    ("208 processors, no job, 844 bytes", order_file.encode(order([8] * 208, [])), 2,
     21),
    ("no processor, 52 jobs, 844 bytes",
     order_file.encode(order([], [known_orders.GOOD] * 52)), 1, 1),
    ("3 processors, 51 jobs, 840 bytes",
     order_file.encode(order([8] * 3, [known_orders.GOOD] * 51)), 4, 20),
    ("13 jobs, a byte too many", bytes(1) + order_file.encode(JOBS_13), 12, 12),
    ("13 jobs, the first byte left out", order_file.encode(JOBS_13)[1:], 12, 12),
    ("5 processors, a byte too many", bytes(1) + order_file.encode(PROCESSORS_5), 12,
     12),
    ("13 jobs counted, 12 in the file", order_file.encode(counted(1, 12))[:-2]
     + bytes.fromhex("0d00"), 12, 12),
    ("5 processors counted, 4 in the file", order_file.encode(counted(4, 1))[:-4]
     + bytes.fromhex("05000100"), 12, 12),
    ("a trailer of 65535 processors and jobs", bytes(8) + b"\xff" * 4, 12, 12),
]
