"""What a register block shows after what is written to it, written out by hand.

Document 02, §11: "From a cleared block any sequence of reads and writes sees what this
table says, refused commands too". A sequence is a list of steps: accesses, and the
lines that they tell.
"""

import known_orders
import order_file
import orders
from known_orders import A, C
from stream_form import LOAD, READ, ROWS, WRITE

RUN_PLAN, RUN_LEAST, RUN_CLEAR = (WRITE, 0, 1), (WRITE, 0, 2), (WRITE, 0, 3)
ALLOW, FORBID = (WRITE, 3, 1), (WRITE, 3, 0)
# What is read: all before the row, the row, both, all bytes; and the rows by the check.
HEAD, ROW, TABLE, ALL = (READ, 0, 15), (READ, 16, 31), (READ, 0, 31), (READ, 0, 255)
CHECK = (ROWS,)


def run(value):
    return WRITE, 0, value


def little(address, count, number):
    """The bytes of a number, written from this address on."""
    data = (number % 256 ** count).to_bytes(count, "little")
    return [(WRITE, address + place, value) for place, value in enumerate(data)]


def bound(number):
    return little(4, 4, number)


def length(number):
    return little(8, 2, number)


def row_number(number):
    return little(10, 2, number)


def given(file):
    """A file and its length."""
    return [(LOAD, file), *length(len(file))]


def line(text, count=None):
    """The line of bytes that begin so; 0 from there up to this count."""
    data = bytes.fromhex(text)
    return ["bytes " + data.ljust(count or len(data), b"\0").hex()]


def zeros(count):
    return line("", count)


FILE_C = bytes.fromhex("04000000 03000000 0A000000 04000000 01000000"
                       "00000000 04000000 0100 0100")
JOBS_FIRST_C = bytes.fromhex("03000000 0A000000 04000000 01000000 04000000"
                             "10000000 00000000 0100 0100")
# Five processors of 4, and C's job.
FIVE = bytes.fromhex("04000000 04000000 04000000 04000000 04000000"
                     "03000000 0A000000 04000000 01000000"
                     "00000000 14000000 0500 0100")
ROW_C = "01000000 01000000 00000000 03000000"

# 4 processors, 12 jobs, 220 bytes, 180 rows asked for; least 6.
FULL = orders.order([8, 4, 2, 1], [(5, i, (8, 4, 2, 1)[i % 4]) for i in range(12)])
# One stretch: the jobs by falling need, one after the other, wrapped at minute 4. The
# memories are of processors 2, 4, 3 and 1.
TWELVE = orders.order([1, 8, 2, 4], [
    (2, 3, 1), (1, 3, 2), (2, 3, 4), (1, 3, 8), (1, 3, 1), (1, 3, 2), (2, 3, 4),
    (1, 3, 8), (1, 3, 1), (1, 3, 2), (1, 3, 4), (1, 3, 8)])
ROWS_TWELVE = [(4, 2, 0, 1), (8, 2, 1, 2), (12, 2, 2, 3), (3, 2, 3, 4), (3, 4, 0, 1),
               (7, 4, 1, 3), (11, 4, 3, 4), (2, 3, 0, 1), (6, 3, 1, 2), (10, 3, 2, 3),
               (1, 3, 3, 4), (1, 1, 0, 1), (5, 1, 1, 2), (9, 1, 2, 3)]
# Two jobs of the longest time on one processor: numbers of three bytes.
LONG = orders.order([4294967295], [(100000, -1000000, 7),
                                   (100000, -1000000, 4294967295)])
ROWS_LONG = [(2, 1, 0, 100000), (1, 1, 100000, 200000)]
# Three jobs run from the first minute to the last, 23 at bound 0. Of the minutes left
# two jobs have five, the next two the next five, and so on up to minute 20; one job has
# the rest. No minute is free, and the first of two jobs is due before the second: the
# amounts are forced. There are 43 rows.
MANY = orders.order([9] * 4, [(23, 22, 5)] * 3 + [
    job for k in range(4)
    for job in ((1 + k % 2, 5 * k + 2, 1), (4 - k % 2, 5 * k + 4, 9))] + [(3, 22, 1)])

# What each shows, its order, the bound at which its amounts are forced, and its rows.
PLANS = [
    ("C", C, -8, [(1, 1, 0, 3)]),
    ("12 jobs in one stretch", TWELVE, 0, ROWS_TWELVE),
    ("two jobs of 100000 minutes", LONG, 1199999, ROWS_LONG),
    *((story, order, -1, rows) for story, order, _, rows in known_orders.JOINED),
]

OF_C = [
    ([ALL, RUN_PLAN, TABLE], [*zeros(256), *line("00020C", 32)]),
    ([run(7), TABLE], line("0002", 32)),
    ([*given(FILE_C), (READ, 32, 63), (READ, 8, 9)],
     [*line(FILE_C.hex()), *line("2000")]),
    ([(WRITE, 3, 255), (READ, 3, 3)], line("01")),
    ([RUN_LEAST, TABLE], line("00050001 00000000 2000 0000 F8FFFFFF", 32)),
    ([(WRITE, 10, 1), ROW, CHECK], [*line(ROW_C), "rows yes"]),
    ([(WRITE, 1, 1), TABLE],
     line("00040001 00000000 2000 0100 F8FFFFFF" + ROW_C)),
    ([*bound(-9), FORBID, RUN_PLAN, TABLE], line("00060A00 F7FFFFFF 2000 0100", 32)),
    ([(WRITE, 1, 0), HEAD], line("00060A00 F7FFFFFF 2000 0100", 16)),
    ([(WRITE, 1, 6), HEAD], line("00000A00 F7FFFFFF 2000 0100", 16)),
    ([*bound(-8), RUN_PLAN, TABLE],
     line("00010000 F8FFFFFF 2000 0100 F8FFFFFF" + ROW_C)),
    ([*bound(5), (WRITE, 32, 9), (WRITE, 8, 0), TABLE],
     line("00010000 05000000 0000 0100 F8FFFFFF" + ROW_C)),
    ([run(0), TABLE], line("00020000 05000000 0000 0100", 32)),
    ([*given(FIVE), RUN_LEAST, TABLE], line("00021500 05000000 3000 0100", 32)),
    ([*length(221), RUN_PLAN, TABLE], line("00020C00 05000000 DD00 0100", 32)),
    ([RUN_CLEAR, ALL], zeros(256)),
]

OF_A = [
    ([*given(order_file.encode(A)), ALLOW, RUN_LEAST, HEAD, CHECK],
     [*line("00050001 00000000 4400", 16), "rows yes"]),
    ([*row_number(9), ROW], zeros(16)),
    ([*bound(-1), RUN_PLAN, HEAD, CHECK],
     [*line("00060A01 FFFFFFFF 4400 0900", 16), "rows no"]),
    ([*bound(10000001), RUN_PLAN, HEAD], line("00060801 81969800 4400 0900", 16)),
    ([RUN_LEAST, HEAD, CHECK],
     [*line("00050001 81969800 4400 0900", 16), "rows yes"]),
    ([*length(221), RUN_PLAN, HEAD, CHECK],
     [*line("00060C01 81969800 DD00 0900", 16), "rows refused 12 0"]),
    ([RUN_CLEAR, ALL, *row_number(1), ROW], [*zeros(256), *zeros(16)]),
]

OF_FULL = [
    ([*given(order_file.encode(FULL)), (READ, 8, 9), RUN_LEAST, HEAD, CHECK],
     [*line("DC00"), *line("00010000 00000000 DC00 0000 06000000"), "rows yes"]),
    ([*bound(5), RUN_PLAN, HEAD], line("00020A00 05000000 DC00", 16)),
    ([*bound(6), RUN_PLAN, HEAD, CHECK],
     [*line("00010000 06000000 DC00 0000 06000000"), "rows yes"]),
    ([*bound(7), RUN_PLAN, HEAD, CHECK],
     [*line("00010000 07000000 DC00 0000 07000000"), "rows yes"]),
    ([*length(219), RUN_PLAN, HEAD], line("00020C00 07000000 DB00", 16)),
    ([*length(221), RUN_PLAN, HEAD], line("00020C00 07000000 DD00", 16)),
]

# Interrupts: allowed and forbidden before and after a command.
OF_INTERRUPTS = [
    ([*given(FILE_C), RUN_LEAST, ALLOW, HEAD],
     line("00010001 00000000 2000 0000 F8FFFFFF")),
    ([RUN_LEAST, HEAD], line("00050001 00000000 2000 0000 F8FFFFFF")),
    ([FORBID, HEAD], line("00050000 00000000 2000 0000 F8FFFFFF")),
    ([RUN_LEAST, HEAD], line("00050000 00000000 2000 0000 F8FFFFFF")),
    ([run(9), HEAD], line("00060000 00000000 2000", 16)),
    ([(WRITE, 1, 4), HEAD], line("00020000 00000000 2000", 16)),
    ([run(9), HEAD], line("00020000 00000000 2000", 16)),
    ([(WRITE, 3, 254), run(9), HEAD], line("00020000 00000000 2000", 16)),
    ([(WRITE, 3, 3), run(9), HEAD], line("00060001 00000000 2000", 16)),
    ([(WRITE, 1, 2), run(3), HEAD], zeros(16)),
]

# The block zeroed byte by byte: the first of these is a command.
OF_ZEROS = [
    ([*given(FILE_C), ALLOW, (WRITE, 10, 1), RUN_LEAST, TABLE],
     line("00050001 00000000 2000 0100 F8FFFFFF" + ROW_C)),
    ([(WRITE, address, 0) for address in range(256)] + [ALL], line("0006", 256)),
]

SEQUENCES = [("C", OF_C), ("A", OF_A), ("4 processors, 12 jobs, 220 bytes", OF_FULL),
             ("interrupts allowed and forbidden", OF_INTERRUPTS),
             ("zeroed byte by byte", OF_ZEROS)]

# Flags that can stand in byte 1, what is written to it, and what it then reads.
FLAGS = [
    (0, 7, 0), (0, 255, 0), (0, 248, 0),
    (1, 0, 1), (1, 1, 0), (1, 2, 1), (1, 4, 1), (1, 6, 1), (1, 254, 1), (1, 255, 0),
    (2, 0, 2), (2, 1, 2), (2, 2, 0), (2, 4, 2), (2, 5, 2), (2, 253, 2), (2, 10, 0),
    (4, 0, 4), (4, 3, 4), (4, 4, 0), (4, 5, 0), (4, 251, 4), (4, 128, 4), (4, 7, 0),
    (5, 0, 5), (5, 1, 4), (5, 2, 5), (5, 3, 4), (5, 4, 1), (5, 5, 0), (5, 6, 1),
    (5, 7, 0), (5, 8, 5), (5, 248, 5), (5, 255, 0),
    (6, 0, 6), (6, 1, 6), (6, 2, 4), (6, 3, 4), (6, 4, 2), (6, 5, 2), (6, 6, 0),
    (6, 7, 0), (6, 16, 6), (6, 249, 6), (6, 255, 0),
]

# File lengths beside a file of 220 bytes, and the number told; None where it is done.
LENGTHS = [
    (0, 12), (1, 12), (11, 12), (12, 12), (13, 12), (128, 12), (208, 12), (219, 12),
    (220, None), (221, 12), (222, 12), (232, 12), (255, 12), (256, 12), (257, 12),
    (476, 12), (844, 12), (845, 12), (32768, 12), (32988, 12), (56320, 12), (65535, 12),
]

MOST_PROCESSORS = order_file.encode(orders.order([4] * 52, []))
MOST_JOBS = order_file.encode(orders.order([], [known_orders.GOOD] * 13))


def of_job(job, memories=(8,)):
    return order_file.encode(orders.order(memories, [known_orders.GOOD, job]))


# Files: what each shows, its bytes, and what commands 1 and 2 tell at bound 0, at bound
# -100 and at bound 10000001: a number, None where they are done.
FILES = [
    ("C", FILE_C, (None, None), (10, None), (8, None)),
    ("C, jobs first", JOBS_FIRST_C, (None, None), (10, None), (8, None)),
    ("no processor", order_file.encode(orders.order([], [known_orders.GOOD])),
     (1, 1), (1, 1), (1, 1)),
    ("no processor, 13 jobs, 220 bytes", MOST_JOBS, (1, 1), (1, 1), (1, 1)),
    ("neither processors nor jobs", order_file.encode(orders.order([], [])),
     (1, 1), (1, 1), (1, 1)),
    ("5 processors", FIVE, (21, 21), (21, 21), (21, 21)),
    ("5 processors, no job", order_file.encode(orders.order([4] * 5, [])),
     (21, 21), (21, 21), (21, 21)),
    ("52 processors, no job, 220 bytes", MOST_PROCESSORS, (21, 21), (21, 21), (21, 21)),
    ("17 processors and a bad time", order_file.encode(orders.order(
        [4] * 17, [known_orders.BAD_TIME])), (21, 21), (21, 21), (21, 21)),
    ("no job", order_file.encode(orders.order([4], [])), (3, 3), (3, 3), (3, 3)),
    ("4 processors, no job", order_file.encode(orders.order([4] * 4, [])),
     (3, 3), (3, 3), (3, 3)),
    ("a time of 0", of_job(known_orders.BAD_TIME), (5, 5), (5, 5), (5, 5)),
    ("a due time of 1000001", of_job(known_orders.BAD_DUE), (6, 6), (6, 6), (6, 6)),
    ("maker 0", of_job(known_orders.BAD_MAKER), (13, 13), (13, 13), (13, 13)),
    ("maker 17", of_job(known_orders.HIGH_MAKER), (13, 13), (13, 13), (13, 13)),
    ("a need of 9", of_job(known_orders.BAD_NEED), (7, 7), (7, 7), (7, 7)),
    ("13 and 7 in one job", of_job((1, 5, 9, 17)), (13, 13), (13, 13), (13, 13)),
    ("7 before 8 and 10", of_job((9, 5, 9)), (7, 7), (7, 7), (7, 7)),
    ("a trailer alone, of one processor", bytes(8) + bytes.fromhex("01000000"),
     (12, 12), (12, 12), (12, 12)),
    ("a trailer of zeros", bytes(12), (1, 1), (1, 1), (1, 1)),
    ("11 bytes of 0", bytes(11), (12, 12), (12, 12), (12, 12)),
    ("C, the job list's place one byte too far",
     FILE_C[:24] + bytes.fromhex("05") + FILE_C[25:], (12, 12), (12, 12), (12, 12)),
    ("C with jobs of 12 bytes, as document 01 has it", bytes.fromhex(
        "04000000 03000000 0A000000 04000000 00000000 04000000 0100 0100"),
     (12, 12), (12, 12), (12, 12)),
    ("4 processors, 12 jobs, 220 bytes", order_file.encode(FULL),
     (10, None), (10, None), (8, None)),
    ("4 processors, 12 jobs, jobs first", order_file.encode(FULL, True),
     (10, None), (10, None), (8, None)),
]

# Files of 220 bytes that are refused at this length with another number.
OF_220 = [
    ("no processor, 13 jobs", MOST_JOBS, 1),
    ("52 processors, no job", MOST_PROCESSORS, 21),
    ("4 processors, 12 jobs, a time of 0", order_file.encode(orders.order(
        [8] * 4, known_orders.at({12: known_orders.BAD_TIME}, 12))), 5),
]

# Bounds of C: the number that command 1 tells, None where it is done.
BOUNDS = [
    (-9, 10), (-8, None), (-7, None), (-1, None), (0, None), (255, None), (256, None),
    (65536, None), (10000000, None), (10000001, 8), (16777216, 8), (2147483647, 8),
    (-10000000, 10), (-10000001, 8), (-2147483648, 8), (-256, 10), (-65536, 10),
]
