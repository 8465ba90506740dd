"""The least lateness: search over all plans, flow and staircases compared."""

import unittest

import draw
import flow
import known_orders
import least
import orders
import plan_rules
import reason
import search
import wrap

# Document 02, §3: "A 0, B 0, C -8, D -3, need 0 gives -1, the overdue job gives 5."
WORKED = [
    (known_orders.A, 0), (known_orders.B, 0), (known_orders.C, -8),
    (known_orders.D, -3), (known_orders.NEED_0, -1), (known_orders.DUE_MINUS_5, 5)]


def tiny_orders(seed, count):
    of = draw.Draw(seed)
    for _ in range(count):
        yield of.one_of((draw.tiny, draw.crowded, draw.stepped))(of)


class Least(unittest.TestCase):
    def test_worked(self):
        for order, number in WORKED:
            self.assertEqual(least.least(order), number)

    def test_of_one_job(self):
        # At 0 a job can have minutes 0 to `due`, one more than `due`.
        for due in (0, 1, 10):
            self.assertEqual(least.least(orders.order([4], [(due + 1, due, 4)])), 0)
            self.assertEqual(least.least(orders.order([4], [(due + 2, due, 4)])), 1)

    def test_by_search_over_all_plans(self):
        for order in tiny_orders(41, 2500):
            number = least.least(order)
            rows = search.plan(order, number)
            self.assertIsNotNone(rows)
            self.assertTrue(plan_rules.right(order, number, rows))
            for less in (1, 2):
                self.assertFalse(search.meets(order, number - less))
            self.assertIsNone(reason.reason(order, number))
            self.assertIsNotNone(reason.reason(order, number - 1))

    def test_all_whole_numbers_in_reach(self):
        for order in tiny_orders(42, 300):
            number = least.least(order)
            for at in range(number - 5, number + 4):
                met = search.meets(order, at)
                self.assertEqual(met, at >= number)
                self.assertEqual(met, flow.meets(order, at))
                self.assertEqual(met, reason.reason(order, at) is None)

    def test_halving(self):
        for order in tiny_orders(43, 500):
            self.assertEqual(least.by_halving(order, flow.meets),
                             least.upwards(order, flow.meets))

    def test_need_0_and_largest(self):
        for memory in (0, 1, 4294967295):
            for need in {0, memory}:
                order = orders.order([memory], [(2, 1, need), (1, 1, need)])
                self.assertEqual(least.least(order), 1)

    def test_fractions_are_rounded_up(self):
        # k jobs of time t on m processors, all due at d: k × t / m - d - 1.
        for m in (1, 2, 3):
            for k in (1, 2, 3, 4):
                for due in (-2, 0, 9):
                    order = orders.order([4] * m, [(1, due, 4)] * k)
                    exact = max(-(-k // m), 1) - due - 1
                    self.assertEqual(least.least(order), exact)


class Parts(unittest.TestCase):
    """Document 00: "Whatever whole number of equal parts, from 1, each minute is
    cut into, no right plan in such parts meets any whole number below the least
    lateness." """

    def compare(self, parts, seed, count):
        for order in tiny_orders(seed, count):
            number = least.least(order)
            for at in (number - 1, number):
                rows = search.plan(order, at, parts)
                self.assertEqual(rows is not None, at >= number)
                self.assertEqual(flow.meets(order, at, parts), at >= number)
                if rows is not None:
                    self.assertTrue(plan_rules.right(order, at, rows, parts))

    def test_halves(self):
        self.compare(2, 44, 600)

    def test_thirds(self):
        self.compare(3, 45, 150)

    def test_parts_by_flow(self):
        for order in tiny_orders(46, 300):
            number = least.least(order)
            for parts in (1, 2, 3, 5, 12):
                self.assertFalse(flow.meets(order, number - 1, parts))
                self.assertTrue(flow.meets(order, number, parts))


class Flow(unittest.TestCase):
    def test_its_amounts_wrap_into_a_right_plan(self):
        of = draw.Draw(47)
        for _ in range(600):
            order = of.one_of((draw.tiny, draw.middle, draw.steep))(of)
            bound = least.least(order) + of.one_of((0, 0, 1, 7))
            rows = wrap.plan(order, bound, flow.amounts(order, bound))
            self.assertIsNone(plan_rules.broken_rule(order, bound, rows))
            self.assertLessEqual(len(rows), orders.rows_needed(order))

    def test_staircases_in_larger_orders(self):
        of = draw.Draw(48)
        for _ in range(300):
            order = of.one_of((draw.middle, draw.steep))(of)
            number = least.least(order)
            self.assertIsNone(reason.reason(order, number))
            self.assertIsNotNone(reason.reason(order, number - 1))
