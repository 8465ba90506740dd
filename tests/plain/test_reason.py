"""The reason: documents' cases, the ranking, and the sums added up by hand."""

import itertools
import unittest

import draw
import flow
import known_orders
import least
import orders
import reason
import reason_large


def every_staircase(order, bound):
    """All staircases, in no order that is meant."""
    times = {orders.end(job, bound) for job in order.jobs}
    for k in range(1, len(set(order.memories)) + 1):
        for staircase in itertools.product(times, repeat=k):
            if all(a >= b for a, b in zip(staircase, staircase[1:])):
                yield staircase


def minutes_inside(job, bound, time):
    """The minutes owed, counted one by one: those of the job's time that stay
    if it runs as much as it can from `time` up to its end."""
    after = sum(1 for minute in range(time, job.due + bound + 1))
    return sum(1 for _ in range(after, job.time))


class Reasons(unittest.TestCase):
    def test_documents(self):
        for order, bound, why, sums in (
                (known_orders.A, -1, ("stairs", (3, 3)), (7, 6)),
                (known_orders.B, -1, ("stairs", (4, 2)), (8, 6)),
                (known_orders.C, -9, ("job", 1), (3, 2))):
            self.assertEqual(reason.reason(order, bound), why)
            self.assertEqual(
                reason.on_hand(order, bound, reason.reason(order, bound)), sums)

    def test_no_common_time_is_overfull_in_b(self):
        for time in (2, 4):
            for k in (1, 2):
                self.assertFalse(
                    reason.overfull(known_orders.B, -1, (time,) * k))

    def test_first_job(self):
        order = orders.order([4], [(1, 9, 4), (5, 4, 4), (1, 0, 4)])
        self.assertEqual(reason.reason(order, -1), ("job", 2))
        self.assertEqual(reason.reason(order, -10000000), ("job", 1))

    def test_owed(self):
        job = orders.Job(3, 10, 0)
        self.assertEqual([reason.owed(job, -1, time) for time in range(5, 13)],
                         [0, 0, 0, 1, 2, 3, 3, 3])
        for time in range(14):
            for bound in (-4, -1, 1):
                self.assertEqual(reason.owed(job, bound, time),
                                 minutes_inside(job, bound, time))

    def test_classes(self):
        order = orders.order([4, 8, 4, 2], [(1, 1, need) for need in (8, 5, 4, 3, 2, 0)])
        self.assertEqual(reason.class_memories(order), [8, 4, 2])
        self.assertEqual([reason.class_of(order, job) for job in order.jobs],
                         [0, 0, 1, 1, 2, 2])

    def test_need_0(self):
        order = orders.order([8, 4], [(2, 2, 0)] * 3)
        self.assertEqual(reason.reason(order, -1), ("stairs", (2, 2)))

    def test_times_of_any_job(self):
        # The jobs of class 2 are due at 4; the time of class 2 in the reason is
        # 3, the due time of the job of class 1.
        order = orders.order([8, 4], [(3, 3, 8), (4, 4, 4), (2, 4, 4)])
        self.assertEqual(reason.reason(order, -1), ("stairs", (3, 3)))

    def test_long_stairs(self):
        for count in (2, 3, 4):
            order = known_orders.long_stairs(count)
            stairs = tuple(range(2 * count, 0, -2))
            self.assertEqual(reason.reason(order, -1), ("stairs", stairs))
            self.assertEqual(
                [one for one in every_staircase(order, -1)
                 if reason.overfull(order, -1, one)], [stairs])
        order = known_orders.long_stairs(16)
        self.assertEqual(reason_large.first_overfull(order, -1),
                         tuple(range(32, 0, -2)))

    def test_ranking(self):
        of, several = draw.Draw(51), 0
        for _ in range(1500):
            order = of.one_of((draw.crowded, draw.steep, draw.stepped))(of)
            bound = least.least(order) - of.one_of((1, 1, 2, 3))
            if reason.first_late_job(order, bound):
                continue
            found = [staircase for staircase in every_staircase(order, bound)
                     if reason.overfull(order, bound, staircase)]
            first = min(found, key=lambda staircase: (len(staircase), staircase))
            several += len(found) > 1
            self.assertEqual(reason.reason(order, bound),
                             ("stairs", tuple(time - bound - 1 for time in first)))
        self.assertGreater(several, 100)

    def test_owed_exceed_on_hand(self):
        of, kinds = draw.Draw(52), {"job": 0, "stairs": 0}
        for _ in range(1500):
            order = of.one_of((draw.crowded, draw.middle, draw.stepped))(of)
            bound = least.least(order) - of.one_of((1, 1, 2, 5))
            why = reason.reason(order, bound)
            owed, hand = reason.on_hand(order, bound, why)
            self.assertGreater(owed, hand)
            kinds[why.kind] += 1
        self.assertGreater(min(kinds.values()), 200)

    def test_large_is_the_same(self):
        of, deep = draw.Draw(53), 0
        for _ in range(1200):
            order = of.one_of((draw.crowded, draw.steep, draw.middle))(of)
            bound = least.least(order) - of.one_of((0, 1, 1, 2, 3))
            found = reason.first_overfull(order, bound)
            self.assertEqual(reason_large.first_overfull(order, bound), found)
            deep += found is not None and len(found) > 1
        self.assertGreater(deep, 200)

    def test_large_orders(self):
        of = draw.Draw(54)
        for due in (0, 20000, 100000):
            order = draw.wide(of, 16, 48, 100000, due)
            bound = least.least(order) - 1
            why = reason.reason(order, bound, reason_large.first_overfull)
            owed, hand = reason.on_hand(order, bound, why)
            self.assertGreater(owed, hand)
            self.assertFalse(flow.meets(order, bound))
