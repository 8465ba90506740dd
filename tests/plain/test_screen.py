"""The screen's calls: its counts, where 20 and 21 stand, and within the limits the
dock's own lines, either caller's made by its own table."""

import itertools
import unittest
from unittest import mock

import book
import broken_screen
import cases
import cases_screen
import draw
import estimate
import held
import known_orders
import known_screen
import least
import order_file
import orders
import plan_check
import timed
from known_screen import counted
from orders import DOCK, SCREEN
from stream_form import Record
from test_streams import stored

KINDS = tuple(cases_screen.good(known_orders.C))
CALLERS = ((DOCK, known_screen.BY_DOCK), (SCREEN, known_screen.BY_SCREEN))


def lines(kind, values, limits):
    return cases.answered(Record(kind, values, limits))


def numbers(told):
    """The numbers of the refusals among these lines."""
    return {int(line.split()[1]) for line in told if line.startswith("refused")}


def is_refused(told):
    """Is there nothing but refusals in these lines, and books beside them?"""
    return {line.split()[0] for line in told} <= {"refused", "book"}


def every_count():
    """Every caller's limits, two counts, and the refusal told of them, else 0."""
    for limits, table in CALLERS:
        for m in known_screen.PROCESSORS:
            for n, number in zip(known_screen.JOBS, table[m], strict=True):
                yield limits, m, n, number


class Counts(unittest.TestCase):
    def test_every_count(self):
        for limits, m, n, number in every_count():
            with self.subTest(limits=limits, m=m, n=n):
                self.assertEqual(orders.refusal(counted(m, n), limits),
                                 (number, 0) if number else None)

    def test_every_count_with_a_fault(self):
        # The counts are judged before any job, and a job's fault as by the dock.
        for limits, m, n, number in every_count():
            for place in {1, (n + 1) // 2, n} - {0}:
                for story, job, fault in known_screen.FAULTS:
                    found = orders.refusal(counted(m, n, {place: job}), limits)
                    wanted = (number, 0) if number else (fault, place)
                    with self.subTest(story, limits=limits, m=m, n=n, place=place):
                        self.assertEqual(found, wanted)

    def test_every_count_as_a_file(self):
        for limits, m, n, number in every_count():
            for jobs_first in (False, True):
                told = lines("read", (order_file.encode(counted(m, n), jobs_first),),
                             limits)
                wanted = 12 if (m, n) in known_screen.TOO_LONG else number
                with self.subTest(limits=limits, m=m, n=n):
                    self.assertEqual(told[0], f"refused {wanted} 0" if wanted
                                     else f"order {m} {n}")

    def test_every_count_with_a_fault_as_a_file(self):
        for limits, m, n, number in every_count():
            for story, job, fault in known_screen.FAULTS:
                if n and (m, n) not in known_screen.TOO_LONG:
                    data = order_file.encode(counted(m, n, {n: job}))
                    wanted = f"refused {number} 0" if number else f"refused {fault} {n}"
                    with self.subTest(story, limits=limits, m=m, n=n):
                        self.assertEqual(lines("read", (data,), limits), [wanted])

    def test_far_counts(self):
        for m, n, by_dock, by_screen in known_screen.FAR_COUNTS:
            for limits, number in ((DOCK, by_dock), (SCREEN, by_screen)):
                with self.subTest(limits=limits, m=m, n=n):
                    self.assertEqual(orders.refusal(counted(m, n), limits), (number, 0))

    def test_worked_by_every_kind(self):
        for m, n, by_dock, by_screen in known_screen.WORKED:
            for kind, values in cases_screen.good(counted(m, n)).items():
                for limits, number in ((DOCK, by_dock), (SCREEN, by_screen)):
                    if kind == "read" and (m, n) in known_screen.TOO_LONG:
                        number = 12
                    told = lines(kind, values, limits)
                    with self.subTest(kind, limits=limits, m=m, n=n):
                        self.assertEqual(numbers(told), {number} - {0})
                        self.assertTrue(number == 0 or is_refused(told))

    def test_rows_in_their_order(self):
        self.assertEqual([number for number, _ in orders.rows(SCREEN)],
                         [1, 21, 3, 20, 5, 6, 13, 7])
        self.assertEqual([number for number, _ in estimate.rows(SCREEN)],
                         [1, 21, 3, 20, 5, 6, 13, 19, 7])
        self.assertEqual([number for number, _ in orders.rows(DOCK)],
                         [1, 2, 3, 4, 5, 6, 13, 7])


class Later(unittest.TestCase):
    def test_before_all_later_ones(self):
        # 20 and 21 with a bad bound, no room, bad times, a full book and bad jobs.
        for m, n, _, number in known_screen.WORKED:
            order = counted(m, n, {1: cases_screen.BAD})
            for kind, values in cases_screen.late(order).items():
                told = lines(kind, values, SCREEN)
                wanted = (f"refused {number} 0" if number else "refused 5 1"
                          if kind != "between" else "refused 6 1")
                if kind == "read" and (m, n) in known_screen.TOO_LONG:
                    wanted = "refused 12 0"
                with self.subTest(kind, m=m, n=n):
                    self.assertEqual({line for line in told
                                      if not line.startswith("book")}, {wanted})

    def test_before_11(self):
        lent = [1, 1, 0, 1] * (plan_check.ROWS_MOST + 1)
        for m, n, number in ((4, 13, 20), (5, 1, 21), (4, 12, 11)):
            self.assertEqual(lines("check", (counted(m, n), 0, lent), SCREEN),
                             [f"refused {number} 0"])

    def test_19_and_its_neighbours(self):
        for m, n, number in ((4, 13, 20), (5, 1, 21), (4, 12, 19), (5, 13, 21)):
            order = estimate.with_times(counted(m, n), [2] * n)
            self.assertEqual(lines("between", (order, (1,) * n, 0), SCREEN),
                             [f"refused {number} {int(number == 19)}"] * 2)

    def test_files(self):
        for story, data, by_dock, by_screen in known_screen.FILES:
            for limits, number in ((DOCK, by_dock), (SCREEN, by_screen)):
                told = lines("read", (data,), limits)
                with self.subTest(story, limits=limits):
                    self.assertEqual(numbers(told[:1]), {number} - {0})

    def test_lengths_of_a_file(self):
        # 220 bytes are the longest that a screen accepts; a longer one is no 12.
        told = {}
        for m, n in itertools.product(range(8), range(50)):
            data = order_file.encode(counted(m, n))
            answer = lines("read", (data,), SCREEN)
            self.assertEqual(numbers(answer) == {12}, len(data) > 844)
            told.setdefault(answer[0].split()[0] == "order", []).append(len(data))
        self.assertEqual(max(told[True]), 220)
        self.assertEqual(min(told[False]), 12)


class Within(unittest.TestCase):
    def test_known(self):
        for story, kind, values, wanted in known_screen.WITHIN:
            for limits in (DOCK, SCREEN):
                with self.subTest(story, kind=kind, limits=limits):
                    self.assertEqual(lines(kind, values, limits), wanted)

    def test_over(self):
        for story, kind, values, by_dock, by_screen in known_screen.OVER:
            for limits, wanted in ((DOCK, by_dock), (SCREEN, by_screen)):
                with self.subTest(story, kind=kind, limits=limits):
                    self.assertEqual(lines(kind, values, limits), wanted)

    def test_rows_to_check(self):
        order = orders.order([4], [(3024, 3024, 4)])
        minutes = [number for minute in range(3025)
                   for number in (1, 1, minute, minute + 1)]
        for limits in (DOCK, SCREEN):
            for count, bound, wanted in ((3024, -1, "yes"), (3024, -2, "no"),
                                         (181, -1, "no"), (3025, -1, "refused 11 0")):
                self.assertEqual(lines("check", (order, bound, minutes[:4 * count]),
                                       limits), [wanted])

    def test_refused_orders(self):
        for story, order, _, _ in known_orders.REFUSED:
            if order.m <= 4 and order.n <= 12:
                for kind, values in cases_screen.good(order).items():
                    with self.subTest(story, kind=kind):
                        self.assertEqual(lines(kind, values, SCREEN),
                                         lines(kind, values, DOCK))

    def test_drawn(self):
        # Bounds about the least lateness, and rooms about those asked for.
        of, told = draw.Draw(321), set()
        for _ in range(150):
            order = of.one_of((draw.tiny, draw.crowded, draw.stepped, draw.steep))(of)
            for kind, values in self.about(of, order).items():
                found = lines(kind, values, SCREEN)
                self.assertEqual(found, lines(kind, values, DOCK))
                told |= {" ".join(line.split()[:2]) for line in found}
        self.assertLessEqual(
            {*(f"refused {number}" for number in (8, 9, 14, 15, 16)), "tight job",
             "tight stairs", "meets", "yes", "no", "nowhere"}, told)

    def about(self, of, order):
        """The values of each kind, some of them refused."""
        bound = of.one_of((least.least(order), least.least(order) - 1, 10000001))
        room = 4 * orders.rows_needed(order) - of.below(2)
        given = draw.times(of, order)
        turn = of.below(6)
        if turn == 0:
            given = timed.times([1000001] * order.n, given.windows)
        elif turn == 1:
            given = timed.times(given.ready, [(5, 5)] * order.m)
        counts = of.one_of((book.OPENED, (book.COUNT_MOST,) * 16))
        call = cases_screen.Call(cases_screen.PLAN, order, bound, room)
        return {**cases_screen.good(order),
                "check": (order, bound, [1, 1, 0, of.between(1, 3)]),
                "least": (order, room), "plan": (order, bound, room),
                "write": (order, order_file.length(order) - of.below(2)),
                "book": (counts, (call, call)), "asked": (order, bound, given),
                "timed": (order, bound, given, 900),
                "watch": (order, bound, given, [1, 1, 0, 1]),
                "between": (order, draw.highs(of, order, 3), bound)}

    def test_by_falling_need(self):
        # Along the jobs as they lie, by either table.
        for limits, m, n, _ in every_count():
            for _, job, _ in known_screen.FAULTS:
                order = counted(m, min(n, 48), {1: job} if n else {})
                self.assertEqual(held.refusal(order, limits),
                                 orders.refusal(order, limits))


class Stored(unittest.TestCase):
    def screens(self):
        return [(record, told) for record, told in stored() if record.limits == SCREEN]

    def test_within_as_by_the_dock(self):
        # "An order within the screen's limits gets the dock's own reply".
        count = 0
        for record, told in self.screens():
            if cases_screen.within(record):
                self.assertEqual(told, lines(record.kind, record.values, DOCK))
                count += 1
        self.assertGreater(count, 350)

    def test_beside_the_dock(self):
        # The lines stored for the same case of each caller.
        by_dock = {repr(record[:2]): told for record, told in stored()
                   if record.limits == DOCK}
        found = {kind: 0 for kind in KINDS}
        for record, told in self.screens():
            if cases_screen.within(record) and repr(record[:2]) in by_dock:
                self.assertEqual(told, by_dock[repr(record[:2])])
                found[record.kind] += 1
        self.assertGreater(min(found.values()), 10)

    def test_over_the_limits(self):
        # By the counts alone: 1, 21, 3 and 20, in this order.
        count = 0
        for record, told in self.screens():
            for order, line in zip(cases_screen.orders_of(record), told[::2]):
                if order.m > 4 or order.n > 12:
                    self.assertEqual(line, "refused 1 0" if order.m == 0 else
                                     "refused 21 0" if order.m > 4 else "refused 20 0")
                    count += 1
        self.assertGreater(count, 150)

    def test_whose_numbers(self):
        # A screen never says 2 or 4, a dock never 20 or 21.
        told = {DOCK: set(), SCREEN: set()}
        for record, said in stored():
            told[record.limits] |= numbers(said)
        self.assertEqual(told[DOCK] & {2, 4, 20, 21}, {2, 4})
        self.assertEqual(told[SCREEN] & {2, 4, 20, 21}, {20, 21})

    def test_broken_ones_show(self):
        # Each broken variant of an answer changes the lines of a case of the stream.
        right = [(record, cases.answered(record)) for _, record in cases_screen.cases()]
        for story, module, name, replacement, _ in broken_screen.ANSWERS:
            with self.subTest(story), mock.patch.object(module, name, replacement):
                self.assertTrue(any(cases.answered(record) != told
                                    for record, told in right))


if __name__ == "__main__":
    unittest.main()
