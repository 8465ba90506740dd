"""The order file, encoded and decoded, with refusal 12.

Document 01: "The order file ends in a trailer of 12 bytes that points back:
place of the processor list (4 bytes), place of the job list (4), processor
count (2), job count (2). A processor is 4 bytes; a job is [..] time, due time,
need, 4 bytes each. All are little-endian; the due time is two's complement.
Places count from byte 0. The two lists lie in either order, the first from
byte 0, the second from where the first ends up to the trailer exactly; this
holds for an empty list too." "The writer puts processors first".
Document 02, §4: "Each job gains a maker number, 1 to 16, in the record and as 4
further bytes at the end of each job in the file, whose longest length becomes
844." So a job is 16 bytes, and row 12 is: file under 12 or over 844 bytes, "or
lists and trailer disagree".
"""

import struct

import orders

TRAILER = struct.Struct("<IIHH")
PROCESSOR = struct.Struct("<I")
# Time, due time, need, maker.
JOB = struct.Struct("<IiII")
FILE_LEAST, FILE_MOST = 12, 844
REFUSED_12 = orders.Refusal(12, 0)


def length(order):
    """The file's length."""
    return (PROCESSOR.size * order.m + JOB.size * order.n + TRAILER.size)


def encode(order, jobs_first=False):
    """The file of an order, accepted or not, if only its numbers fit the bytes."""
    processors = b"".join(PROCESSOR.pack(memory) for memory in order.memories)
    jobs = b"".join(JOB.pack(*job) for job in order.jobs)
    if jobs_first:
        lists, places = jobs + processors, (len(jobs), 0)
    else:
        lists, places = processors + jobs, (0, len(processors))
    return lists + TRAILER.pack(*places, order.m, order.n)


def of_a_length(count):
    """Can a file have so many bytes?"""
    return FILE_LEAST <= count <= FILE_MOST


def agree(data):
    """Do lists and trailer agree?"""
    processors_at, jobs_at, m, n = TRAILER.unpack(data[-TRAILER.size:])
    lists = len(data) - TRAILER.size
    if lists != PROCESSOR.size * m + JOB.size * n:
        return False
    processors_first = processors_at == 0 and jobs_at == PROCESSOR.size * m
    jobs_first = jobs_at == 0 and processors_at == JOB.size * n
    return processors_first or jobs_first


def lists(data):
    """The order that a file holds, accepted or not, or None where row 12 holds."""
    if not of_a_length(len(data)) or not agree(data):
        return None
    processors_at, jobs_at, m, n = TRAILER.unpack(data[-TRAILER.size:])
    memories = [PROCESSOR.unpack_from(data, processors_at + PROCESSOR.size * i)[0]
                for i in range(m)]
    jobs = [JOB.unpack_from(data, jobs_at + JOB.size * i) for i in range(n)]
    return orders.order(memories, jobs)


def read(data, limits=orders.DOCK):
    """The reader: an order or a refusal; "12 precedes all", whoever calls."""
    order = lists(data)
    if order is None:
        return REFUSED_12
    return orders.refusal(order, limits) or order


def write(order, room, limits=orders.DOCK):
    """The writer with a lent buffer of so many bytes: a file or a refusal.
    It uses rows 1 to 7, 13 and 9; row 9: below "the file's length"."""
    refused = orders.refusal(order, limits)
    if refused:
        return refused
    if room < length(order):
        return orders.Refusal(9, 0)
    return encode(order)
