"""Cases of the writer.

Document 01: "The writer puts processors first and leaves its buffer beyond the
file unchanged." Row 9: "lent buffer too short: below [..] the file's length", which
by document 02, §4, is at most 844. Each case is (what it shows, record).
"""

import draw
import known_orders
import order_file
from stream_form import Record

ROOM_MOST = 900


def case(story, order, room):
    return f"{story}, room for {room} bytes", Record("write", (order, room))


def cases():
    for name, order in known_orders.NAMED.items():
        length = order_file.length(order)
        for room in (0, 12, length - 12, length - 4, length - 1, length,
                     length + 1, ROOM_MOST):
            yield case(name, order, room)
    for story, order in known_orders.LIMITS:
        length = order_file.length(order)
        for room in (length - 1, length):
            yield case(story, order, room)
    for story, order, number, _ in known_orders.REFUSED + known_orders.REFUSED_COUNTS:
        yield case(story, order, ROOM_MOST)
        if number >= 4 and len(order.jobs) < 48:
            yield case(f"{number} precedes 9: {story}", order, 0)
    of = draw.Draw(502)
    for number in range(120):
        order = draw.tiny(of)
        room = order_file.length(order) + of.one_of((-2, -1, 0, 0, 0, 1, 2, 40))
        yield case(f"drawn order {number}", order, room)
