"""Cases of the least lateness and of the planner at a given bound.

Document 01: "The least lateness is signed and may be negative." "Demand 3 is
due whole with the first delivery in which the least lateness and the planner
at a given bound both run." Each case is (what it shows, record).
"""

import draw
import known_orders
import least
import orders
import reason
from stream_form import Record

ROOM_MOST = 12104
EXTREMES = (-10000000, 10000000, -10000001, 10000001)


def least_case(story, order, room=None):
    if room is None:
        room = 4 * orders.rows_needed(order)
    return f"{story}, room for {room} numbers", Record("least", (order, room))


def plan_case(story, order, bound, room=None):
    if room is None:
        room = 4 * orders.rows_needed(order)
    return (f"{story} at {bound}, room for {room} numbers",
            Record("plan", (order, bound, room)))


def of_document():
    for name, order in (("A", known_orders.A), ("B", known_orders.B),
                        ("C", known_orders.C), ("D", known_orders.D),
                        ("memory 4, job (1, 1, 0)", known_orders.NEED_0),
                        ("memory 1, job (1, -5, 1)", known_orders.DUE_MINUS_5)):
        yield least_case(f"● {name}", order)
        for more in (-2, -1, 0, 1):
            yield plan_case(name, order, least.least(order) + more)
    yield plan_case("● A", known_orders.A, -1)
    yield plan_case("● B", known_orders.B, -1)
    yield plan_case("● C", known_orders.C, -9)
    yield plan_case("row 8's example: C", known_orders.C, 10000001)
    yield plan_case("row 10's example: A", known_orders.A, -1)
    yield least_case("C with room for 1 row: accepted", known_orders.C, 4)
    yield plan_case("C with room for 1 row: accepted", known_orders.C, -1, 4)


def refused():
    for story, order, _, _ in known_orders.REFUSED + known_orders.REFUSED_COUNTS:
        yield least_case(story, order, ROOM_MOST)
        yield plan_case(story, order, -1, ROOM_MOST)
        if len(order.jobs) < 48:
            yield least_case(f"{story}, before 9", order, 0)
            yield plan_case(f"{story}, before 8 and 9", order, 10000001, 0)


def rooms():
    for name, order in known_orders.NAMED.items():
        needed = 4 * orders.rows_needed(order)
        bound = least.least(order)
        for room in sorted({0, 1, 3, 4, needed - 5, needed - 4, needed - 3,
                            needed - 1, needed, needed + 1, needed + 3,
                            needed + 4, ROOM_MOST}):
            if 0 <= room <= ROOM_MOST:
                yield least_case(name, order, room)
                yield plan_case(name, order, bound, room)
        yield plan_case(f"8 precedes 9: {name}", order, 10000001, 0)
        yield plan_case(f"8 precedes 9 and 10: {name}", order, -10000001, 0)
        yield plan_case(f"9 precedes 10: {name}", order, bound - 1, needed - 1)
        yield plan_case(f"10: {name}", order, bound - 1, needed)
    equal = known_orders.FULL_EQUAL
    for room in (0, 251, 252, 255):
        yield least_case("all 48 due times equal: 63 rows", equal, room)
    yield least_case("row 9's example: one job, one processor", known_orders.ONE, 0)
    yield plan_case("row 9's example: one job, one processor", known_orders.ONE, -1, 0)


def limits():
    for story, order in known_orders.LIMITS:
        bound = least.least(order)
        yield least_case(story, order)
        for at in (bound - 1, bound, *EXTREMES):
            yield plan_case(story, order, at)
    for bound in (2147483647, -2147483648, -1, 0, -2):
        yield plan_case("C", known_orders.C, bound)


# Orders in which one thing decides.
TELLING = [
    ("memories in rising order", orders.order(
        [1, 2, 3], [(2, 2, 3), (2, 2, 2), (2, 2, 1), (1, 2, 3)])),
    ("a need between two memories", orders.order(
        [8, 4], [(2, 2, 5), (2, 2, 4), (1, 2, 5)])),
    ("a time of no job of the class", orders.order(
        [8, 4], [(1, 5, 8), (5, 5, 4), (5, 6, 4), (3, 7, 0)])),
    ("class 1 empty of jobs", orders.order(
        [8, 4, 4], [(3, 3, 4), (3, 3, 4), (3, 3, 4), (2, 3, 4)])),
    ("class 2 empty of jobs", orders.order(
        [8, 4, 2], [(2, 2, 8), (2, 2, 2), (2, 2, 1), (1, 2, 0)])),
    ("three classes, falling times", orders.order(
        [3, 2, 1], [(2, 6, 3), (2, 6, 3), (3, 6, 3), (2, 4, 2), (3, 4, 2),
                    (2, 2, 1), (2, 2, 1)])),
    ("two staircases of one class", orders.order(
        [4], [(2, 2, 4), (2, 3, 4), (2, 4, 4), (2, 9, 4)])),
    ("an overfull early time after an overfull late one", orders.order(
        [4, 4], [(9, 9, 4), (9, 9, 4), (9, 10, 4), (2, 2, 4), (2, 2, 4), (1, 2, 4)])),
    ("the latest due time for all classes is not overfull", orders.order(
        [8, 4], [(2, 4, 8), (2, 4, 8), (2, 2, 4), (2, 2, 4), (1, 40, 0)])),
    ("stairs of four classes", known_orders.long_stairs(4)),
    ("stairs of sixteen classes", known_orders.long_stairs(16)),
    ("fraction below zero", orders.order([8, 8, 8], [(1, 9, 1)] * 4)),
    ("fraction above zero", orders.order([8, 8, 8], [(2, 0, 1)] * 4)),
]


def telling():
    for story, order in TELLING:
        bound = least.least(order)
        yield least_case(story, order)
        for at in range(bound - 3, bound + 2):
            yield plan_case(story, order, at)


def around(of, story, order):
    """The least lateness, and the planner at it, below it, and elsewhere."""
    bound = least.least(order)
    over = of.below(4)
    needed = 4 * orders.rows_needed(order)
    yield least_case(story, order, needed + over)
    yield plan_case(story, order, bound, needed + of.below(4))
    yield plan_case(story, order, bound - 1, needed)
    where = of.below(6)
    if where == 0:
        yield plan_case(story, order, of.one_of(EXTREMES))
    elif where == 1:
        yield plan_case(story, order, bound + of.one_of((-3, -2, 1, 2)))
    elif where == 2:
        yield plan_case(story, order, of.one_of((bound, bound - 1, 10000001)),
                        needed - of.between(1, 4))


def decided_by_stairs(order):
    return least.least(order) > least.floor(order)


def drawn(count):
    """Drawn orders, every other one decided by a staircase."""
    of = draw.Draw(505)
    for number in range(count):
        order = of.one_of((draw.tiny, draw.crowded))(of)
        while number % 2 and not decided_by_stairs(order):
            order = of.one_of((draw.crowded, draw.stepped))(of)
        yield from around(of, f"drawn order {number}", order)


def drawn_steep(seed, count, story, family, wanted):
    """Drawn orders with a wanted first staircase at one below the least."""
    of = draw.Draw(seed)
    for number in range(count):
        while True:
            order = family(of)
            why = reason.reason(order, least.least(order) - 1)
            if why.kind == "stairs" and wanted(why.values):
                break
        yield from around(of, f"drawn order {number}, {story}", order)


def drawn_larger():
    of = draw.Draw(506)
    for number in range(90):
        order = draw.middle(of)
        while number % 3 and not decided_by_stairs(order):
            order = draw.middle(of)
        yield from around(of, f"drawn larger order {number}", order)
    for number, (m, n, time, due) in enumerate((
            (3, 7, 100000, 100000), (3, 7, 100000, 1000000), (5, 9, 100000, 50000),
            (4, 12, 1000, 3000), (8, 20, 100000, 90000), (8, 20, 10, 20),
            (16, 48, 100000, 1000000), (16, 48, 100000, 100000),
            (16, 48, 100000, 20000), (16, 48, 100000, 0), (16, 48, 9, 9),
            (2, 48, 100000, 1000000), (16, 20, 40, 20), (16, 48, 40, 60)), 1):
        order = draw.wide(of, m, n, time, due)
        yield from around(of, f"wide order {number}: {m} processors, {n} jobs", order)


def cases():
    for part in (of_document(), refused(), rooms(), limits(), telling(),
                 drawn(450),
                 drawn_steep(507, 60, "three classes or more", draw.steep,
                             lambda stairs: len(stairs) > 2),
                 drawn_steep(508, 80, "times that differ", draw.stepped,
                             lambda stairs: len(set(stairs)) > 1),
                 drawn_larger()):
        yield from part
