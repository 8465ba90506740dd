"""Cases of the reader, refusal 12 above all.

Document 01: "The two lists lie in either order, the first from byte 0, the
second from where the first ends up to the trailer exactly; this holds for an
empty list too." Row 12: "lists and trailer disagree". Document 02, §4: a maker
number "as 4 further bytes at the end of each job in the file, whose longest length
becomes 844". Each case is (what it shows, record).
"""

import draw
import known_orders
import order_file
from stream_form import Record

TOP = 4294967296


def case(story, data):
    return story, Record("read", (data,))


def with_trailer(order, places, counts=None):
    """An order's lists with another trailer."""
    body = order_file.encode(order)[:-12]
    return body + order_file.TRAILER.pack(*places, *(counts or (order.m, order.n)))


def good_files():
    yield case("C as document 01 prints it, with its maker", bytes.fromhex(
        "04000000" "03000000" "0a000000" "04000000" "01000000"
        "00000000" "04000000" "0100" "0100"))
    for name, order in known_orders.NAMED.items():
        yield case(f"{name}, processors first", order_file.encode(order))
        yield case(f"{name}, jobs first", order_file.encode(order, True))
    for story, order in known_orders.LIMITS:
        yield case(story, order_file.encode(order))


def refused_orders():
    for story, order, _, _ in known_orders.REFUSED:
        yield case(story, order_file.encode(order))
        if order.n < 48:
            yield case(f"{story}, jobs first", order_file.encode(order, True))
    for m, n in ((208, 0), (204, 1), (1, 51), (0, 52), (17, 47), (4, 51)):
        order = known_orders.order([4] * m, [known_orders.GOOD] * n)
        yield case(f"{m} processors, {n} jobs, {order_file.length(order)} bytes",
                   order_file.encode(order))
    bad = with_trailer(known_orders.order([8], [known_orders.BAD_TIME]), (0, 5))
    yield case("12 precedes 5", bad)
    yield case("12 precedes 1", with_trailer(
        known_orders.order([], [known_orders.GOOD]), (0, 1)))


def makers():
    """Maker numbers in the file, in and out of range, and 12 before 13."""
    for maker in (1, 2, 15, 16, 0, 17, 256, 272, 4096, 65536, 16777216, 4294967295):
        order = known_orders.order([8], [known_orders.GOOD, (1, 5, 1, maker)])
        for jobs_first in (False, True):
            yield case(f"maker {maker} of job 2" + ", jobs first" * jobs_first,
                       order_file.encode(order, jobs_first))
    for place in (1, 2, 5, 15, 16):
        order = known_orders.order([8] * 2, known_orders.at(
            {place: known_orders.HIGH_MAKER}, 16))
        yield case(f"maker 17 of job {place} of 16", order_file.encode(order))
    # A 0 or a 17 in another field is no maker number.
    for job in ((17, 5, 1, 1), (1, 17, 1, 1), (1, 5, 17, 1), (1, 0, 0, 1),
                (17, 17, 17, 16), (16, 16, 16, 17), (1, 1, 1, 0)):
        order = known_orders.order([17], [job])
        yield case(f"the job {job}", order_file.encode(order))
    bad = with_trailer(known_orders.order([8], [known_orders.BAD_MAKER]), (0, 5))
    yield case("12 precedes 13", bad)
    of = draw.Draw(512)
    for number in range(30):
        order = draw.out_of_range(of, draw.tiny(of))
        yield case(f"drawn order {number} with a maker out of range",
                   order_file.encode(order, of.below(2) == 1))


def without_makers(order, jobs_first=False):
    """The file of an order in document 01's form, 12 bytes a job."""
    processors = b"".join(order_file.PROCESSOR.pack(memory)
                          for memory in order.memories)
    jobs = b"".join(order_file.JOB.pack(*job)[:12] for job in order.jobs)
    lists = (jobs, processors) if jobs_first else (processors, jobs)
    places = (len(jobs), 0) if jobs_first else (0, len(processors))
    return b"".join(lists) + order_file.TRAILER.pack(*places, order.m, order.n)


def old_files():
    for name, order in known_orders.NAMED.items():
        for jobs_first in (False, True):
            yield case(f"{name} at 12 bytes a job" + ", jobs first" * jobs_first,
                       without_makers(order, jobs_first))


def of_length(length):
    """A file of this length: as many jobs as fit, up to 48, then processors, a
    trailer for them, and what is left over of four bytes before the trailer."""
    rest = max(length - 12, 0)
    n = min(rest // order_file.JOB.size, 48)
    m, over = divmod(rest - order_file.JOB.size * n, 4)
    order = known_orders.order([8] * m, [(1, 5, 8)] * n)
    data = order_file.encode(order, jobs_first=True)
    return (data[:-12] + bytes(over) + data[-12:])[-length:] if length else b""


def lengths():
    for length in range(21):
        yield case(f"{length} bytes of 0", bytes(length))
        yield case(f"{length} bytes of 255", b"\xff" * length)
    for length in (*range(12, 61), 652, 653, 656, *range(832, 862), 868, 880, 896,
                   900):
        yield case(f"{length} bytes, lists and trailer as near as can be",
                   of_length(length))
    for m, n in ((17, 48), (209, 0), (2, 52)):
        order = known_orders.order([4] * m, [known_orders.GOOD] * n)
        yield case(f"{order_file.length(order)} bytes that agree, {m} "
                   f"processors and {n} jobs", order_file.encode(order))
    whole = order_file.encode(known_orders.C)
    for length in range(len(whole)):
        yield case(f"the first {length} bytes of C", whole[:length])
        yield case(f"the last {length} bytes of C", whole[-length or len(whole):])
    yield case("C with a byte more at the end", whole + b"\0")
    yield case("C with a byte more at the start", b"\0" + whole)


def empty_lists():
    near = (0, 1, 4, 8, 12, 16, 24, 32, TOP - 12, TOP - 4, TOP - 1)
    for memories, jobs in (([], [known_orders.GOOD]), ([4], []), ([], []),
                           ([], [known_orders.GOOD] * 2), ([4, 4], [])):
        order = known_orders.order(memories, jobs)
        for processors_at in near:
            for jobs_at in near:
                if 0 in (processors_at, jobs_at) or processors_at == jobs_at:
                    yield case(
                        f"{order.m} processors at {processors_at}, "
                        f"{order.n} jobs at {jobs_at}",
                        with_trailer(order, (processors_at, jobs_at)))


def places():
    one, two = known_orders.C, known_orders.A
    pairs = ((0, 4), (16, 0), (4, 0), (0, 16), (0, 0), (4, 20), (16, 4), (1, 5),
             (0, 3), (0, 5), (15, 0), (17, 0), (16, 16), (4, 4), (20, 0), (0, 20),
             (12, 0), (0, 12), (12, 4), (12, 12), (4, 16), (TOP - 16, 0),
             (0, TOP - 16), (0, TOP - 12), (0, TOP - 8), (0, TOP - 4), (TOP - 4, 0),
             (TOP - 12, 0), (TOP - 1, 4), (TOP - 4, 4), (16, TOP - 16),
             (TOP - 16, TOP - 16), (0, 4 + 65536), (16 + 65536, 0), (32, 0),
             (0, 32), (2147483648, 4), (0, 2147483652))
    for pair in pairs:
        yield case(f"C, places {pair[0]} and {pair[1]}", with_trailer(one, pair))
    for pair in ((0, 8), (48, 0), (8, 0), (0, 48), (0, 7), (0, 9), (47, 0),
                 (49, 0), (0, 4), (16, 0), (4, 8), (48, 56), (36, 0), (0, 36)):
        yield case(f"A, places {pair[0]} and {pair[1]}", with_trailer(two, pair))


def counts():
    # C's lists have 20 bytes; so have, modulo 65536, 16385 processors and 1 job, 5
    # processors and 4096 jobs, 1 processor and 4097 jobs.
    tries = (((0, 4), (65535, 65535)), ((0, 4), (1, 65535)), ((16, 0), (65535, 1)),
             ((0, 4), (2, 1)), ((0, 8), (2, 1)), ((0, 4), (1, 2)), ((0, 4), (1, 0)),
             ((0, 4), (0, 1)), ((0, 0), (0, 1)), ((0, 20), (5, 0)), ((0, 0), (5, 0)),
             ((0, 4), (5, 0)), ((0, 4), (16385, 1)), ((0, 65540), (16385, 1)),
             ((0, 20), (5, 4096)), ((65536, 0), (5, 4096)), ((0, 0), (5, 4096)),
             ((0, 4), (1, 4097)), ((65552, 0), (1, 4097)), ((0, 4), (256, 256)))
    for pair, count in tries:
        yield case(f"C's lists, places {pair[0]} and {pair[1]}, counts "
                   f"{count[0]} and {count[1]}",
                   with_trailer(known_orders.C, pair, count))


def drawn(count):
    """Drawn orders as files: whole, with one byte changed, or of another length."""
    of = draw.Draw(501)
    for number in range(count):
        order = draw.tiny(of)
        data = bytearray(order_file.encode(order, of.below(2) == 1))
        turn = of.below(5)
        story = "whole"
        if turn == 0:
            place = of.below(12)
            data[len(data) - 12 + place] ^= 1 << of.below(8)
            story = f"byte {place} of the trailer changed"
        elif turn == 1:
            place = of.below(len(data) - 12)
            data[place] ^= 1 << of.below(8)
            story = f"byte {place} changed"
        elif turn == 2:
            place = of.below(len(data))
            data[place:place + of.below(2)] = bytes(of.below(3))
            story = f"cut or stretched at byte {place}"
        yield case(f"drawn order {number}, {story}", bytes(data))


def cases():
    for part in (good_files(), refused_orders(), makers(), old_files(), lengths(),
                 empty_lists(), places(), counts(), drawn(250)):
        yield from part
