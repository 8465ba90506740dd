"""Cases of the booked calls: the book handed on, and refusal 14.

Document 02, §4: "each call being given the book that the last one gave back, each
count equals the times of that maker's jobs in all plans written with it".
"a refused plan books nothing." "a count that would then be over 4,000,000,000,
handed in so or not, is 14, last of all". Each case is (what it shows, record).
"""

import book
import draw
import known_orders
import least
import orders
from known_orders import A, B, C, MAKERS
from stream_form import LEAST, PLAN, Call, Record

WORD_MOST = orders.WORD_MOST
FULL_BOOK = (WORD_MOST,) * len(book.MAKERS)
WHICH = {LEAST: "least lateness", PLAN: "planning at a bound"}


def call(which, order, bound=None, room=None):
    """With a bound that is met and room for all rows, where none are named."""
    if bound is None:
        bound = least.least(order)
    if room is None:
        room = 4 * orders.rows_needed(order)
    return Call(which, order, bound, room)


def case(story, given, *calls):
    return story, Record("book", (given, calls))


def both(story, given, order, bound=None, room=None):
    """The same by the least lateness and by planning at a bound."""
    for which, name in WHICH.items():
        yield case(f"{name}, {story}", given, call(which, order, bound, room))


def counts(given, base=book.OPENED):
    """A book with these counts, as {maker: count}, the others as they are."""
    return tuple(given.get(maker, count) for maker, count in zip(book.MAKERS, base))


def by(maker, time=3):
    """C's job, by this maker and of this time."""
    return orders.order([4], [(time, 10, 4, maker)])


def of_request():
    for name, order in (("A", A), ("B", B), ("C", C), ("D", known_orders.D),
                        ("memory 4, job (1, 1, 0)", known_orders.NEED_0),
                        ("memory 1, job (1, -5, 1)", known_orders.DUE_MINUS_5),
                        ("jobs of makers 1, 2, 2 and 16", MAKERS)):
        yield from both(f"a book just opened, {name}", book.OPENED, order)
    for count in (3999999996, 3999999997, 3999999998, 3999999999, 4000000000):
        yield from both(f"maker 1 at {count}, C", counts({1: count}), C)
    for count in (4000000000, 4000000001):
        yield from both(f"maker 16 at {count}, C", counts({16: count}), C)
    yield from both("all counts 4294967295, C", FULL_BOOK, C)
    yield case("all counts 4294967295, C at -9, which is too tight", FULL_BOOK,
               call(PLAN, C, -9))
    for maker in (0, 17):
        yield from both(f"maker {maker}", book.OPENED, by(maker), -1, 4)
        yield from both(f"maker {maker}, all counts 4294967295", FULL_BOOK,
                        by(maker), -1, 4)


def each_maker():
    """Every maker's minutes go to its own count, and to no other."""
    apart = tuple(1000000 * maker + maker for maker in book.MAKERS)
    for maker in book.MAKERS:
        yield case(f"a job of maker {maker}, by each call", apart,
                   call(LEAST, by(maker)), call(PLAN, by(maker, 5)))
    for maker in (1, 2, 8, 15, 16):
        others = orders.order([4], [(2 ** (other - 1), 100000, 4, other)
                                    for other in book.MAKERS if other != maker])
        yield case(f"jobs of all makers but {maker}", book.OPENED, call(LEAST, others))


def at_the_limit():
    """Counts that would then be one under, at and one over the limit."""
    most = book.COUNT_MOST
    for maker in book.MAKERS:
        other = maker % len(book.MAKERS) + 1
        order = orders.order([4, 4], [(2, 10, 4, other), (3, 10, 4, maker)])
        for more in (-1, 0, 1):
            yield case(f"maker {maker} of a job would be at {most + more}",
                       counts({maker: most - 3 + more}),
                       call((LEAST, PLAN)[(maker + more) % 2], order))
            yield case(f"maker {maker} without a job is at {most + more}",
                       counts({maker: most + more}),
                       call((LEAST, PLAN)[(maker + more + 1) % 2], by(other)))


def wrapping():
    """Sums beyond 32 bits, and counts that are no negative numbers."""
    for time in (1, 3, 100000):
        for count in sorted({WORD_MOST - time, WORD_MOST + 1 - time, WORD_MOST}):
            yield case(f"maker 2 at {count}, a job of {time}", counts({2: count}),
                       call(LEAST, by(2, time)))
    for count in (2147483645, 2147483647, 2147483648, 3000000000):
        yield from both(f"maker 3 at {count}", counts({3: count}), by(3))
    for maker in (1, 8, 16):
        yield case(f"maker {maker} at 4294967295, no job of it",
                   counts({maker: WORD_MOST}), call(PLAN, by(2)))


def several_makers():
    """It is each count by itself, after all jobs of its maker."""
    most = book.COUNT_MOST
    two = orders.order([4, 4], [(2, 10, 4, 5), (3, 10, 4, 9)])
    for five, nine in ((most - 2, most - 3), (most - 1, most - 3), (most - 2, most - 2),
                       (most - 1, 0), (0, most - 2), (most - 2, 0), (0, most - 3)):
        yield from both(f"makers 5 and 9 at {five} and {nine}, jobs of 2 and 3",
                        counts({5: five, 9: nine}), two)
    same = orders.order([4, 4], [(1, 10, 4, 7), (2, 10, 4, 3), (1, 10, 4, 7)])
    for count in (most - 2, most - 1):
        yield from both(f"maker 7 at {count}, two jobs of 1", counts({7: count}), same)
    for more in (0, 1):
        given = tuple(most - 1 + more * (maker == 11) for maker in book.MAKERS)
        every = orders.order([4], [(1, 20, 4, maker) for maker in book.MAKERS])
        yield from both("a job of 1 by each, all counts one below"
                        + ", but one" * more, given, every)


def largest():
    """48 jobs of the greatest time, of one maker and of several."""
    most = book.COUNT_MOST
    one = orders.order([4], [(100000, 1000000, 4, 6)] * 48)
    for count in (most - 4800000, most - 4799999):
        yield case(f"maker 6 at {count}, 48 jobs of 100000", counts({6: count}),
                   call(LEAST, one))
    several = known_orders.FULL._replace(jobs=tuple(
        job._replace(maker=1 + 7 * place % 16)
        for place, job in enumerate(known_orders.FULL.jobs)))
    yield case("full, each maker three jobs", book.OPENED, call(LEAST, several))


def of_table():
    """The first known order of each refusal about an order, as they are judged."""
    known = {number: order for _, order, number, _ in reversed(known_orders.REFUSED)}
    return {number: known[number] for number, _ in orders.rows(orders.DOCK)}


def precedence():
    """14 is last of all: each other refusal, and 10, with a book that is full."""
    for number, order in of_table().items():
        yield from both(f"{number} precedes 14", FULL_BOOK, order, -1, 40)
    for given, name in ((FULL_BOOK, "all counts 4294967295"),
                        (counts({1: book.COUNT_MOST - 2}), "maker 1 at 3999999998"),
                        (counts({16: book.COUNT_MOST + 1}), "maker 16 at 4000000001")):
        for bound in (10000001, -10000001):
            yield case(f"8 precedes 14: {name}, C at {bound}", given,
                       call(PLAN, C, bound, 0))
        for room in (0, 3):
            yield from both(f"9 precedes 14: {name}, C, room for {room} numbers",
                            given, C, -9, room)
        for room in (4, 7):
            yield from both(f"14, not 9: {name}, C, room for {room} numbers",
                            given, C, -8, room)
        yield case(f"10 precedes 14: {name}", given, call(PLAN, C, -9),
                   call(PLAN, C, -10000000), call(PLAN, A, -1), call(PLAN, B, -1))
        yield case(f"14, but no 10: {name}", given, call(PLAN, C, -8),
                   call(PLAN, C, 10000000), call(PLAN, A, 0), call(LEAST, B, 10000001))


def between_good_calls(which):
    """Calls refused 1 to 6, 13, 7 to 10 and 14, each behind a good one of C, which
    books 3 minutes; a least lateness has no 8 and 10. At the end the count is so
    near to the limit that C is good and 97 minutes more are not."""
    for order in of_table().values():
        yield from (call(which, C), call(which, order, -1, 40))
    if which == PLAN:
        yield from (call(which, C), call(which, C, 10000001))
    yield from (call(which, C), call(which, C, -8, 3))
    if which == PLAN:
        yield from (call(which, C), call(which, C, -9))
    yield from (call(which, C), call(which, by(1, 97)), call(which, C))


def handed_on():
    """Books handed on through calls that are accepted and refused."""
    near = counts({1: 3999999990, 2: 7})
    yield case("C until 14, then less of maker 1, then maker 2", near,
               *[call(LEAST, C)] * 4, call(PLAN, by(1)), call(PLAN, by(1, 1)),
               call(LEAST, by(1, 1)), call(LEAST, by(2)), call(PLAN, by(2)))
    yield case("a refused call between two good ones", book.OPENED, call(LEAST, MAKERS),
               call(PLAN, MAKERS, -2), call(PLAN, MAKERS))
    for which, name in WHICH.items():
        yield case(f"{name}, each refusal, a good call between each two",
                   counts({1: 3999999900}), *between_good_calls(which))
    yield case("the bound of a least lateness is not looked at", book.OPENED,
               *[call(LEAST, C, bound) for bound in (
                   0, -9, 10000001, -10000001, 2147483647, -2147483648)])
    yield case("the same call over and over", book.OPENED, *[call(PLAN, A)] * 9)


def small_refused():
    """Small orders of each refusal about an order."""
    return [order for _, order, _, _ in known_orders.REFUSED
            if order.m <= 17 and len(order.jobs) < 10]


def drawn_call(of, order):
    """A call that is good, or that one thing refuses."""
    which = of.one_of((LEAST, PLAN))
    bound = least.least(order)
    room = 4 * orders.rows_needed(order)
    turn = of.below(9)
    if turn == 0:
        return call(which, of.one_of(small_refused()), bound, 40)
    if turn == 1:
        return call(PLAN, order, bound - of.between(1, 3))
    if turn == 2:
        return call(which, order, bound - of.below(2), room - of.between(1, 4))
    if turn == 3:
        return call(which, order, of.one_of((10000001, -10000001)), room)
    if turn == 4:
        return call(which, draw.out_of_range(of, order), bound, room)
    return call(which, order, bound + of.below(3), room + of.below(4))


def drawn_book(of, turn):
    """A book just opened, one near the limit, or any sixteen 32-bit numbers."""
    if turn < 5:
        return "just opened", book.OPENED
    if turn < 9:
        return "near the limit", tuple(
            book.COUNT_MOST - of.between(0, 18) for _ in book.MAKERS)
    return "of any numbers", tuple(of.below(2 ** 32) for _ in book.MAKERS)


def drawn(count):
    of = draw.Draw(513)
    for number in range(count):
        name, given = drawn_book(of, number % 10)
        calls = [drawn_call(of, of.one_of((draw.tiny, draw.crowded, draw.stepped))(of))
                 for _ in range(of.between(2, 6))]
        yield case(f"drawn calls {number}, a book {name}", given, *calls)


def cases():
    for part in (of_request(), each_maker(), at_the_limit(), wrapping(),
                 several_makers(), largest(), precedence(), handed_on(), drawn(75)):
        yield from part
