"""A job's end, and refusals 1 to 7 and 13: "The lowest applicable number is
given", but 13 stands "right after 6 in the order".
"""

import unittest

import known_orders
import orders


class End(unittest.TestCase):
    def test_known(self):
        for due, bound, end in ((10, 0, 11), (10, -1, 10), (-5, 5, 1), (0, -1, 0),
                                (1000000, 10000000, 11000001),
                                (-1000000, -10000000, -10999999)):
            self.assertEqual(orders.end_at(due, bound), end)
            self.assertEqual(orders.due_at(end, bound), due)
            for parts in (1, 2, 7):
                job = orders.Job(1, due, 0)
                self.assertEqual(orders.end(job, bound, parts), parts * end)


class Refusals(unittest.TestCase):
    def test_table(self):
        for story, order, number, carried in (
                known_orders.REFUSED + known_orders.REFUSED_COUNTS):
            with self.subTest(story):
                self.assertEqual(orders.refusal(order), (number, carried))

    def test_makers(self):
        for maker in range(1, 17):
            order = orders.order([8], [(1, 5, 1), (1, 5, 1, maker)])
            self.assertIsNone(orders.refusal(order))
        for maker in (0, 17, 18, 255, 256, 257, 272, 65537, 4294967295):
            order = orders.order([8], [(1, 5, 1), (1, 5, 1, maker)])
            self.assertEqual(orders.refusal(order), (13, 2))

    def test_maker_of_document_01(self):
        # "In document 01's cases the maker is 1."
        for order in (known_orders.A, known_orders.B, known_orders.C,
                      known_orders.D, known_orders.NEED_0,
                      known_orders.DUE_MINUS_5, known_orders.FULL):
            self.assertEqual({job.maker for job in order.jobs}, {1})

    def test_rows_in_their_order(self):
        self.assertEqual([number for number, _ in orders.rows(orders.DOCK)],
                         [1, 2, 3, 4, 5, 6, 13, 7])
        jobs = [(1, 5, 9), (1, 5, 1, 17), (1, 1000001, 1), (0, 5, 1)]
        for count, number in enumerate((7, 13, 6, 5), 1):
            order = orders.order([8], jobs[:count])
            self.assertEqual(orders.refusal(order), (number, count))

    def test_accepted(self):
        for story, order in known_orders.LIMITS + list(known_orders.NAMED.items()):
            with self.subTest(story):
                self.assertIsNone(orders.refusal(order))

    def test_bound(self):
        for bound in (-10000000, 0, 10000000):
            self.assertTrue(orders.bound_in_range(bound))
        for bound in (-10000001, 10000001, 2147483647, -2147483648):
            self.assertFalse(orders.bound_in_range(bound))

    def test_rows_needed(self):
        self.assertEqual(orders.rows_needed(known_orders.A), 2 * (3 + 2 - 1))
        self.assertEqual(orders.rows_needed(known_orders.C), 1)
        self.assertEqual(orders.rows_needed(known_orders.FULL), 3024)
        self.assertEqual(orders.rows_needed(known_orders.FULL_EQUAL), 63)
