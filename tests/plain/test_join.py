"""Joining the rows of stretches that follow one another."""

import itertools
import unittest

import draw
import flow
import join
import judge
import known_orders
import least
import orders
import plan_rules
import search
import wrap


def shares(time, lengths):
    """Every way to give so many minutes to stretches of these lengths."""
    if not lengths:
        return [()] if time == 0 else []
    return [(amount,) + rest for amount in range(min(time, lengths[0]) + 1)
            for rest in shares(time - amount, lengths[1:])]


def shares_of(job, order, bound):
    """Every way to give a job its time in the stretches up to its end."""
    lengths = [end - begin for begin, end in wrap.stretches(order, bound)
               if end <= orders.end(job, bound)]
    return shares(job.time, lengths)


def amounts_of(given):
    """Amounts as the flow gives them, of one tuple of shares a job."""
    return {(job, stretch): amount for job, one in enumerate(given)
            for stretch, amount in enumerate(one) if amount}


def lays_out(order, bound, amounts):
    """Is the layout of these amounts a right plan?"""
    try:
        rows = wrap.plan(order, bound, amounts)
    except IndexError:
        return False
    return plan_rules.right(order, bound, rows)


def all_amounts(order, bound):
    """Every choice of amounts whose layout is a right plan."""
    every = itertools.product(*(shares_of(job, order, bound) for job in order.jobs))
    return [amounts for amounts in map(amounts_of, every)
            if lays_out(order, bound, amounts)]


def drawn_amounts(of, order, bound):
    """Amounts by the draw, by the flow or, for a tiny order, by the search."""
    for _ in range(5):
        amounts = amounts_of([of.one_of(shares_of(job, order, bound))
                              for job in order.jobs])
        if lays_out(order, bound, amounts):
            yield amounts
    yield flow.amounts(order, bound)
    if order.m <= 3 and order.n <= 4 and max(job.time for job in order.jobs) <= 3:
        yield judge.own_amounts(order, bound, search.plan(order, bound))


def drawn_plans(seed, count):
    """Orders, bounds and amounts."""
    of = draw.Draw(seed)
    for _ in range(count):
        order = of.one_of((draw.tiny, draw.crowded, draw.stepped, draw.steep))(of)
        bound = least.least(order) + of.one_of((0, 0, 1, 2, 5))
        for amounts in drawn_amounts(of, order, bound):
            yield order, bound, amounts


def minute_by_minute(rows):
    """Which job each processor runs in each minute."""
    return {(processor, minute): job for job, processor, begin, to in rows
            for minute in range(begin, to)}


class EndsWith(unittest.TestCase):
    def test_by_hand(self):
        # The wrap's rows of a stretch 10-14: processor 2 is filled first, then
        # processor 1, and processor 3 rests from minute 12.
        rows = [(3, 2, 10, 13), (1, 2, 13, 14), (1, 1, 10, 12), (4, 1, 12, 14),
                (4, 3, 10, 12)]
        self.assertEqual(join.ends_with(rows, 14), {2: 1, 1: 4})

    def test_known(self):
        # In each of these orders the first stretch is 0-2 and full.
        for _, _, (first, *_), _ in known_orders.JOINED:
            last_of_each = {processor: job for job, processor, _, _ in first}
            self.assertEqual(join.ends_with(first, 2), last_of_each)

    def test_nothing(self):
        self.assertEqual(join.ends_with([], 4), {})
        self.assertEqual(join.ends_with([(1, 1, 0, 3)], 4), {})


class Known(unittest.TestCase):
    def test_amounts_are_forced(self):
        for story, order, parts, _ in known_orders.JOINED:
            amounts, = all_amounts(order, -1)
            self.assertEqual(wrap.by_stretch(order, -1, amounts), parts, story)

    def test_joined(self):
        for story, order, parts, rows in known_orders.JOINED:
            stretches = wrap.stretches(order, -1)
            self.assertEqual(join.joined(stretches, parts), rows, story)
            self.assertEqual(join.plan(order, -1, flow.amounts(order, -1)), rows, story)

    def test_rest_before_the_end(self):
        parts = [[(1, 1, 0, 1)], [(1, 1, 2, 4)]]
        self.assertEqual(join.joined([(0, 2), (2, 4)], parts), sum(parts, []))

    def test_a_stretch_between(self):
        # The processor rests, or another job runs, in the stretch between.
        stretches = [(0, 2), (2, 4), (4, 6)]
        for parts in ([[(1, 1, 0, 2)], [], [(1, 1, 4, 6)]],
                      [[(1, 1, 0, 2)], [(2, 1, 2, 4)], [(1, 1, 4, 6)]],
                      [[(1, 1, 0, 2)], [(2, 2, 2, 4)], [(1, 1, 4, 6)]]):
            self.assertEqual(join.joined(stretches, parts), sum(parts, []))

    def test_two_chains_behind_each_other(self):
        stretches = [(0, 2), (2, 4), (4, 6), (6, 7)]
        parts = [[(1, 1, 0, 2)], [(1, 1, 2, 3), (2, 1, 3, 4)],
                 [(2, 1, 4, 6), (1, 2, 4, 5)], [(2, 1, 6, 7)]]
        self.assertEqual(join.joined(stretches, parts),
                         [(1, 1, 0, 3), (2, 1, 3, 7), (1, 2, 4, 5)])

    def test_left_to_join(self):
        for _, _, parts, rows in known_orders.JOINED:
            laid = sum(parts, [])
            self.assertIsNone(join.left_to_join(rows))
            self.assertEqual(join.left_to_join(laid) is None, laid == rows)
        self.assertEqual(join.left_to_join([(1, 1, 2, 4), (2, 2, 0, 2), (1, 1, 0, 2)]),
                         (3, 1))
        for other in ((1, 2, 2, 4), (2, 1, 2, 4), (1, 1, 3, 4)):
            self.assertIsNone(join.left_to_join([(1, 1, 0, 2), other]))


class Drawn(unittest.TestCase):
    def test_joined_plans(self):
        shorter = same = 0
        for order, bound, amounts in drawn_plans(71, 700):
            laid = wrap.plan(order, bound, amounts)
            rows = join.plan(order, bound, amounts)
            # "Joined plans are still right plans"
            self.assertIsNone(plan_rules.broken_rule(order, bound, rows))
            self.assertEqual(minute_by_minute(rows), minute_by_minute(laid))
            self.assertEqual(judge.own_amounts(order, bound, rows), amounts)
            # "Row counts never grow"
            self.assertLessEqual(len(rows), len(laid))
            self.assertLessEqual(len(laid), orders.rows_needed(order))
            self.assertEqual(len(rows) == len(laid), rows == laid)
            shorter, same = shorter + (rows != laid), same + (rows == laid)
        self.assertGreater(min(shorter, same), 500)

    def test_a_second_joining(self):
        # "a second joining finds nothing to join"
        for order, bound, amounts in drawn_plans(72, 400):
            stretches = wrap.stretches(order, bound)
            rows = join.plan(order, bound, amounts)
            parts = [[row for row in rows if judge.begins_in(row, stretches) == place]
                     for place in range(len(stretches))]
            self.assertEqual(join.joined(stretches, parts), rows)
            self.assertIsNone(join.left_to_join(rows))

    def test_where_joined_rows_stand(self):
        # "A joined row stands where its earliest part stood.": the earliest parts
        # are the parts that are left when those that go on are taken out.
        for order, bound, amounts in drawn_plans(73, 400):
            laid = wrap.plan(order, bound, amounts)
            ends = {(job, processor, to) for job, processor, _, to in laid}
            self.assertEqual(
                [row[:3] for row in join.plan(order, bound, amounts)],
                [row[:3] for row in laid if row[:3] not in ends])

    def test_judged(self):
        for order, bound, amounts in drawn_plans(74, 400):
            laid = wrap.plan(order, bound, amounts)
            rows = join.plan(order, bound, amounts)
            self.assertIsNone(judge.broken(order, bound, rows, len(rows)))
            self.assertEqual(judge.broken(order, bound, laid, len(laid)) is None,
                             laid == rows)

    def test_all_amounts_of_tiny_orders(self):
        of, seen = draw.Draw(75), 0
        for _ in range(60):
            order = of.one_of((draw.crowded, draw.stepped))(of)
            bound = least.least(order)
            for amounts in all_amounts(order, bound):
                rows = join.plan(order, bound, amounts)
                self.assertIsNone(judge.broken(order, bound, rows, len(rows)))
                seen += 1
        self.assertGreater(seen, 500)


if __name__ == "__main__":
    unittest.main()
