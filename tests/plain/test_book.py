"""The book: the counts worked out from the orders, and when a call is refused 14."""

import unittest

import answers
import book
import cases_book
import draw
import flow
import join
import known_orders
import least
import orders
from cases_book import FULL_BOOK, by, counts
from known_orders import A, B, C, MAKERS

TOP = 4294967295


def both(order, given, bound=None, room=None):
    """What both calls answer, with a bound that is met where none is named."""
    bound = least.least(order) if bound is None else bound
    room = 4 * orders.rows_needed(order) if room is None else room
    return (book.least_lateness(order, room, given),
            book.plan(order, bound, room, given))


class Book(unittest.TestCase):
    def accepted(self, order, given, wanted, **named):
        lines = [f"least {least.least(order)}"], ["meets"]
        self.assertEqual(both(order, given, **named),
                         tuple((line, wanted) for line in lines))

    def refused(self, order, given, number, carried=0, **named):
        """By both calls, and the book stays as it was handed in."""
        line = [f"refused {number} {carried}"]
        self.assertEqual(both(order, given, **named), ((line, given),) * 2)

    def test_opened(self):
        self.assertEqual(book.OPENED, (0,) * 16)
        self.accepted(C, book.OPENED, (3,) + (0,) * 15)

    def test_worked(self):
        self.accepted(C, counts({1: 3999999997}), counts({1: 4000000000}))
        self.refused(C, counts({1: 3999999998}), 14)
        self.refused(C, counts({16: 4000000001}), 14)
        self.refused(C, FULL_BOOK, 14)
        self.assertEqual(book.plan(C, -9, 4, FULL_BOOK), (["tight job 1"], FULL_BOOK))
        for maker in (0, 17):
            self.refused(by(maker), book.OPENED, 13, 1, bound=-1, room=4)

    def test_minutes(self):
        self.assertEqual(book.minutes(MAKERS), counts({1: 3, 2: 4, 16: 1}))
        self.assertEqual(book.minutes(A), counts({1: 8}))
        self.assertEqual(book.minutes(known_orders.LONGEST_JOB), counts({1: 4800000}))
        for maker in range(1, 17):
            self.assertEqual(book.minutes(by(maker, 7)), counts({maker: 7}))

    def test_both_calls_book(self):
        given = counts({1: 5, 2: 70, 3: 900})
        self.accepted(MAKERS, given, counts({1: 8, 2: 74, 3: 900, 16: 1}))

    def test_counts_by_the_rows(self):
        # The minutes of a maker's rows, of a plan that is written, are what is booked.
        of = draw.Draw(82)
        for _ in range(300):
            order = of.one_of((draw.tiny, draw.crowded, draw.stepped, draw.middle))(of)
            given = tuple(of.below(1000) for _ in range(16))
            bound = least.least(order) + of.below(3)
            rows = join.plan(order, bound, flow.amounts(order, bound))
            wanted = list(given)
            for job, _, begin, to in rows:
                wanted[order.jobs[job - 1].maker - 1] += to - begin
            self.accepted(order, given, tuple(wanted), bound=bound)

    def test_each_count_at_the_limit(self):
        for maker in range(1, 17):
            other = maker % 16 + 1
            order = orders.order([4, 4], [(2, 9, 4, other), (1, 9, 4, maker),
                                          (2, 9, 4, maker)])
            for count in (3999999996, 3999999997):
                self.accepted(order, counts({maker: count}),
                              counts({maker: count + 3, other: 2}))
            for count in (3999999998, 3999999999, 4000000000, 4000000001):
                self.refused(order, counts({maker: count}), 14)

    def test_makers_without_a_job(self):
        for maker in range(2, 17):
            for count in (3999999999, 4000000000):
                self.accepted(C, counts({maker: count}), counts({1: 3, maker: count}))
            for count in (4000000001, 4000000002, TOP):
                self.refused(C, counts({maker: count}), 14)

    def test_no_sum_wraps(self):
        for time in (1, 3, 100000):
            for count in (TOP, TOP + 1 - time, TOP - time):
                self.refused(by(2, time), counts({2: count}), 14)
        for count in (2147483647, 2147483648, 3000000000):
            self.accepted(by(2), counts({2: count}), counts({2: count + 3}))

    def test_one_of_two_makers(self):
        most = 4000000000
        two = orders.order([4, 4], [(2, 10, 4, 5), (3, 10, 4, 9)])
        self.accepted(two, counts({5: most - 2, 9: most - 3}),
                      counts({5: most, 9: most}))
        for five, nine in ((most - 1, most - 3), (most - 2, most - 2), (most - 1, 0),
                           (0, most - 2)):
            self.refused(two, counts({5: five, 9: nine}), 14)
        self.accepted(two, (most - 3,) * 16, counts({5: most - 1, 9: most},
                                                    (most - 3,) * 16))

    def test_14_is_last_of_all(self):
        for given in (FULL_BOOK, counts({1: 3999999998}), counts({16: 4000000001})):
            for _, order, number, carried in known_orders.REFUSED:
                self.refused(order, given, number, carried, bound=10000001, room=0)
            self.refused(C, given, 9, bound=-8, room=3)
            self.refused(C, given, 14, bound=-8, room=4)
            for order, bound, room, line in (
                    (C, 10000001, 0, "refused 8 0"), (C, -10000001, 4, "refused 8 0"),
                    (C, -9, 3, "refused 9 0"), (C, -9, 4, "tight job 1"),
                    (A, -1, 32, "tight stairs 3 3"), (B, -1, 40, "tight stairs 4 2"),
                    (A, 0, 32, "refused 14 0")):
                self.assertEqual(book.plan(order, bound, room, given), ([line], given))

    def test_refused_calls_book_nothing(self):
        given = tuple(range(100, 116))
        for _, order, number, carried in (known_orders.REFUSED
                                          + known_orders.REFUSED_COUNTS):
            self.refused(order, given, number, carried, bound=-1, room=12096)
        self.refused(MAKERS, given, 9, room=39)
        self.refused(MAKERS, counts({2: 3999999997}, given), 14)
        for bound, line in ((-2, "tight job 2"), (10000001, "refused 8 0")):
            self.assertEqual(book.plan(MAKERS, bound, 40, given), ([line], given))

    def test_handed_on_from_opening(self):
        # "each count equals the times of that maker's jobs in all plans written
        # with it", "The sum of the sixteen counts equals the times of all their jobs"
        of, kinds = draw.Draw(83), set()
        for _ in range(60):
            given, written = book.OPENED, []
            for _ in range(of.between(1, 9)):
                order = of.one_of((draw.tiny, draw.crowded))(of)
                call = cases_book.drawn_call(of, order)
                (line,), given = book.call(call, given)
                kinds.add(line.split()[0])
                if line == "meets" or line.startswith("least"):
                    written += call.order.jobs
                self.assertEqual(sum(given), sum(job.time for job in written))
                for maker in range(1, 17):
                    self.assertEqual(given[maker - 1], sum(
                        job.time for job in written if job.maker == maker))
        self.assertEqual(kinds, {"least", "meets", "tight", "refused"})

    def test_answers_as_without_a_book(self):
        of = draw.Draw(84)
        for _ in range(200):
            call = cases_book.drawn_call(of, draw.tiny(of))
            plain = (answers.least_lateness(call.order, call.room)
                     if call.which == cases_book.LEAST
                     else answers.plan(call.order, call.bound, call.room))
            self.assertEqual(book.call(call, book.OPENED)[0], plain)

    def test_lines(self):
        zeros = " 0" * 14
        calls = (cases_book.call(cases_book.LEAST, C),
                 cases_book.call(cases_book.PLAN, A, -1),
                 cases_book.call(cases_book.PLAN, by(2)),
                 cases_book.call(cases_book.LEAST, C, 10000001, 3))
        self.assertEqual(book.told(book.OPENED, calls), [
            "least -8", "book 3 0" + zeros, "tight stairs 3 3", "book 3 0" + zeros,
            "meets", "book 3 3" + zeros, "refused 9 0", "book 3 3" + zeros])
        near = (4000000000 - 4,) + (0,) * 15
        calls = (cases_book.call(cases_book.PLAN, C),) * 2
        self.assertEqual(book.told(near, calls), [
            "meets", "book 3999999999 0" + zeros, "refused 14 0",
            "book 3999999999 0" + zeros])
