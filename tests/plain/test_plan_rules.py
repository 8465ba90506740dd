"""The four rules, also in parts, compared with a count minute by minute."""

import unittest

import draw
import known_orders
import orders
import plan_check
import plan_rules

C = known_orders.C


def cell_by_cell(order, bound, rows, parts):
    """Is the plan right? Every row is laid into cells of one part each."""
    cells = []
    for job, processor, begin, to in rows:
        if not (1 <= job <= order.n and 1 <= processor <= order.m and begin < to):
            return False
        if order.jobs[job - 1].need > order.memories[processor - 1]:
            return False
        cells += [(job, processor, part) for part in range(begin, to)]
    by_job = [(job, part) for job, _, part in cells]
    by_processor = [(processor, part) for _, processor, part in cells]
    return (len(set(by_job)) == len(by_job)
            and len(set(by_processor)) == len(by_processor)
            and all(part < parts * (order.jobs[job - 1].due + bound + 1)
                    for job, part in by_job)
            and all(sum(job == number for job, _ in by_job) == parts * of.time
                    for number, of in enumerate(order.jobs, 1)))


def drawn_rows(of, order, parts):
    """Rows that are often near a right plan."""
    rows, minute = [], 0
    for number, job in enumerate(order.jobs, 1):
        processor = of.between(1, order.m)
        left = parts * job.time + of.one_of((0, 0, 0, 0, 1, -1))
        while left > 0:
            length = min(left, of.between(1, 3))
            begin = max(0, minute + of.one_of((0, 0, 0, 0, 1, -1)))
            rows.append((number, processor, begin, begin + length))
            minute, left = begin + length, left - length
    return of.shuffled(rows)


class Rules(unittest.TestCase):
    def says(self, expected, bound, *rows, order=C):
        self.assertEqual(plan_rules.right(order, bound, rows), expected, rows)

    def test_documents(self):
        self.says(True, -1, (1, 1, 0, 1), (1, 1, 1, 3))
        self.says(False, -1, (1, 1, 0, 2), (1, 1, 1, 2))

    def test_due_minute_is_included(self):
        # Document 02, §3: "done by the close of minute 10".
        self.says(True, 0, (1, 1, 8, 11))
        self.says(False, 0, (1, 1, 9, 12))

    def test_each_rule(self):
        self.says(True, -8, (1, 1, 0, 3))
        self.says(False, -9, (1, 1, 0, 3))
        for row in ((0, 1, 0, 3), (2, 1, 0, 3), (1, 0, 0, 3), (1, 2, 0, 3),
                    (1, 1, 0, 2), (1, 1, 0, 4), (1, 1, 3, 0), (1, 1, 8, 11)):
            self.says(False, -1, row)
        self.says(False, -1)
        self.says(False, -1, (1, 1, 0, 3), (1, 1, 5, 5))
        self.says(False, -1, (1, 1, 0, 5), (1, 1, 7, 5))
        self.says(False, -1, (1, 1, 0))

    def test_overlaps(self):
        two = orders.order([4, 4], [(2, 9, 4), (2, 9, 4)])
        self.says(True, -1, (1, 1, 0, 2), (2, 2, 0, 2), order=two)
        self.says(True, -1, (1, 1, 0, 1), (1, 2, 1, 2), (2, 1, 1, 3), order=two)
        self.says(False, -1, (1, 1, 0, 2), (2, 1, 1, 3), order=two)
        self.says(False, -1, (1, 1, 0, 1), (1, 2, 0, 1), (2, 1, 1, 3), order=two)

    def test_fit(self):
        order = orders.order([8, 4], [(1, 9, 5)])
        self.says(True, -1, (1, 1, 0, 1), order=order)
        self.says(False, -1, (1, 2, 0, 1), order=order)

    def test_parts(self):
        for parts in (1, 2, 3, 7):
            whole = [(1, 1, 0, 3 * parts)]
            self.assertTrue(plan_rules.right(C, -8, whole, parts))
            late = [(1, 1, 1, 3 * parts + 1)]
            self.assertFalse(plan_rules.right(C, -8, late, parts))
            self.assertFalse(plan_rules.right(C, -8, [(1, 1, 0, 2)], parts))
        half = [(1, 1, 0, 1), (1, 1, 1, 6)]
        self.assertTrue(plan_rules.right(C, -8, half, 2))

    def test_cell_by_cell(self):
        of, seen = draw.Draw(31), {True: 0, False: 0}
        for _ in range(4000):
            order, parts = draw.tiny(of), of.between(1, 3)
            rows = drawn_rows(of, order, parts)
            bound = of.between(-1, 13)
            expected = cell_by_cell(order, bound, rows, parts)
            seen[expected] += 1
            self.assertEqual(plan_rules.right(order, bound, rows, parts), expected)
        self.assertGreater(min(seen.values()), 300)


class Check(unittest.TestCase):
    def test_left_over(self):
        self.assertEqual(plan_check.answer(C, -1, [1, 1, 0, 3]), True)
        for over in (1, 2, 3):
            self.assertEqual(
                plan_check.answer(C, -1, [1, 1, 0, 3] + [1] * over), False)
        self.assertEqual(plan_check.answer(C, -1, []), False)

    def test_3024_rows(self):
        long = orders.order([4], [(3024, 3024, 4)])
        numbers = [x for t in range(3024) for x in (1, 1, t, t + 1)]
        self.assertEqual(plan_check.answer(long, -1, numbers), True)
        self.assertEqual(plan_check.answer(long, -1, numbers[:-1]), False)
        for over in (1, 2, 3, 4):
            self.assertEqual(
                plan_check.answer(long, -1, numbers + [1] * over), (11, 0))

    def test_refusals(self):
        many = [1, 1, 0, 1] * 3025
        self.assertEqual(plan_check.answer(C, 10000001, many), (8, 0))
        self.assertEqual(plan_check.answer(C, 10000000, many), (11, 0))
        bad = orders.order([8], [known_orders.BAD_NEED])
        self.assertEqual(plan_check.answer(bad, 10000001, many), (7, 1))
