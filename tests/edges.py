"""Input at the edges of what the two programs take: the shortest and the longest files, bounds and makers at the ends of their
ranges, and orders of full size whose plans have very many rows."""

import order_file
import orders

ROWS_OF_A_LONG_PLAN = 500
BOUNDS = (orders.BOUND_LEAST - 1, orders.BOUND_LEAST, orders.BOUND_MOST, orders.BOUND_MOST + 1)


def full(draw, times, dues, need_most):
    """16 processors of 16 classes, 48 jobs of 48 distinct due times, three of each maker."""
    memories = draw.shuffled(range(1000, 17000, 1000))
    distinct = set()
    while len(distinct) < orders.JOBS_MOST:
        distinct.add(draw.between(*dues))
    return orders.order(memories, [
        (draw.between(*times), due, draw.between(0, need_most), 1 + place % orders.MAKER_MOST)
        for place, due in enumerate(draw.shuffled(sorted(distinct)))])


def full_orders(draw, each):
    """Needs over all classes, and nearly none; much work in little time, and long jobs."""
    for number in range(each):
        for shape in (((1, 1000), (0, 2000), 16000), ((500, 1000), (0, 750), 16000), ((900, 1000), (1000, 3000), 3000),
                      ((500, 1000), (0, 2000), 0), ((90000, 100000), (-200000, 200000), 16000)):
            yield order_file.encode(full(draw, *shape), jobs_first=number % 2 == 1)


def files(longest):
    """Files at the edge of the sizes, from the longest file that there is; makers at the edge of their range; and document 01's
    file of C, at 12 bytes a job."""
    yield from (bytes(count) for count in (0, 1, 11, 12, 13, 652, 653, 844, 845, 846, 900))
    yield from (longest, longest + b"\0", b"\0" + longest, longest + longest[:56], longest[:-1], longest[1:], longest * 200)
    for maker in (0, 1, 16, 17, orders.WORD_MOST):
        order = orders.order((4,), ((3, 10, 4), (3, 10, 4, maker)))
        yield from (order_file.encode(order, jobs_first) for jobs_first in (False, True))
    yield bytes.fromhex("04000000 03000000 0A000000 04000000 00000000 04000000 0100 0100")


def tries(longest, broken):
    """Files to try each bound at: good ones, bad ones, and orders that are refused."""
    good = (orders.order((4,), ((3, due, 4),)) for due in (orders.DUE_LEAST, 10, orders.DUE_MOST))
    refused = (orders.order((), ((1, 1, 0),)), orders.order((4,), ()), orders.order((4,), ((0, 5, 1),)),
               orders.order((4,), ((1, 1000001, 1),)), orders.order((8,), ((1, 5, 9),)), orders.order((8,), ((1, 5, 1, 0),)),
               orders.order((8,), ((1, 5, 9), (1, 5, 1, 17))))
    yield from (order_file.encode(order) for order in (*good, *refused))
    yield from (longest, broken, b"", bytes(11), bytes(12), longest + b"\0")
