"""Jobs held by falling need: how they lie, and that all that is found along them is
what is found in input order."""

import itertools
import unittest

import cases_held
import cases_timed
import draw
import flow
import held
import join
import judge
import known_held
import known_orders
import least
import orders
import reason
import reason_large
import sentence
import timed_judge
import timed_plan

FAMILIES = (draw.mixed_tiny, draw.mixed_more, draw.steep, draw.middle)


def drawn(seed, count, families=FAMILIES):
    of = draw.Draw(seed)
    for _ in range(count):
        yield of, of.one_of(families)(of)


def bounds(order):
    """About the least lateness, and where one job more is late."""
    found = least.least(order)
    late = {job.time - orders.end(job, 1) for job in order.jobs}
    return sorted({found - 1, found, found + 1, *late})


def in_input_order(order, bound):
    """The reason as the planner tells it, from the jobs in input order."""
    why = reason.reason(order, bound, reason_large.first_overfull)
    return why and sentence.handed(order, why)


class Table(unittest.TestCase):
    def test_worked(self):
        for story, order, numbers in known_held.LYING:
            with self.subTest(story):
                self.assertEqual([one.number for one in held.table(order)], numbers)

    def test_by_trying_all(self):
        # Of all lists of held jobs as long as the order one alone is right.
        for needs in itertools.product((8, 4, 0), repeat=3):
            order = known_held.of_needs(*needs)
            every = [held.Held(number, job) for number in (1, 2, 3)
                     for job in order.jobs]
            right = [list(one) for one in itertools.product(every, repeat=3)
                     if held.broken(order, one) is None]
            self.assertEqual(right, [held.table(order)])

    def test_rearranged(self):
        for _, order in drawn(121, 300):
            lying = held.table(order)
            self.assertIsNone(held.broken(order, lying))
            self.assertEqual(sorted(lying, key=lambda one: one.number), [
                held.Held(number, job) for number, job in enumerate(order.jobs, 1)])

    def test_place_and_number_differ(self):
        for _, order in drawn(122, 300, (draw.mixed_tiny, draw.mixed_more)):
            for place, one in enumerate(held.table(order), 1):
                self.assertNotEqual(place, one.number)

    def test_what_is_broken(self):
        order = known_held.of_needs(4, 8, 4)
        one, two, three = (held.Held(number, job)
                           for number, job in enumerate(order.jobs, 1))
        for lying, said in (
                ([two, one, three], "None"), ([two, three, one], "a tie against"),
                ([one, two, three], "the need rises"), ([two, one], "not each"),
                ([two, two, one], "not each"), ([two, one, three, three], "not each"),
                ([two._replace(number=1), one._replace(number=2), three], "not job 1"),
                ([two, one._replace(number=4), three], "not each"), ([], "not each")):
            self.assertIn(said, str(held.broken(order, lying)))

    def test_by_class(self):
        # The jobs of a class lie side by side, and none is in two classes.
        for _, order in drawn(123, 300):
            lying = held.table(order)
            parts = held.by_class(order, lying)
            self.assertEqual(sum(parts, []), lying)
            for place, part in enumerate(parts):
                for one in part:
                    self.assertEqual(reason.class_of(order, one.job), place)


class Found(unittest.TestCase):
    def test_worked(self):
        for story, order, number, time in known_held.LATE:
            with self.subTest(story):
                self.assertEqual(held.told(order, held.table(order), -1),
                                 (sentence.JOB, number, time, (0,) * 16))
                self.assertEqual(reason.reason(order, -1), ("job", number))

    def test_worked_stairs(self):
        for story, order, dues in known_held.STAIRS:
            with self.subTest(story):
                self.assertEqual(
                    held.told(order, held.table(order), -1),
                    (sentence.STAIRS, len(dues), 0, dues + (0,) * (16 - len(dues))))
                self.assertEqual(reason.reason(order, -1), ("stairs", dues))

    def test_each_job_told_once(self):
        # Job k takes k minutes and all are due together.
        for story, order, _ in known_held.LYING[:16]:
            for number in range(1, order.n + 1):
                why = held.told(order, held.table(order), number - 101)
                self.assertEqual((why.which, why.time), (number, number), story)

    def test_reasons(self):
        apart = stairs = none = 0
        for _, order in drawn(124, 200):
            lying = held.table(order)
            for bound in bounds(order):
                why = held.told(order, lying, bound)
                self.assertEqual(why, in_input_order(order, bound))
                none += why is None
                stairs += why is not None and why.kind == sentence.STAIRS
                late = cases_held.late_as_they_lie(order, bound)
                apart += late != [] and late[0] != why.which
        self.assertGreater(min(apart, stairs, none), 80)

    def test_least_lateness(self):
        of_stairs = 0
        for _, order in drawn(125, 150):
            found = held.least_lateness(order)
            self.assertEqual(found, least.least(order))
            of_stairs += found > least.floor(order)
        self.assertGreater(of_stairs, 40)

    def test_refusals(self):
        for story, jobs, number, carried in known_held.REFUSED:
            order = orders.order([8], jobs)
            with self.subTest(story):
                self.assertEqual(held.refusal(order), (number, carried))
                self.assertEqual(orders.refusal(order), (number, carried))
        for story, order, number, carried in (known_orders.REFUSED
                                              + known_orders.REFUSED_COUNTS):
            self.assertEqual(held.refusal(order), (number, carried), story)
        for of, order in drawn(126, 200):
            self.assertIsNone(held.refusal(order))
            bad = draw.out_of_range(of, order)
            self.assertEqual(held.refusal(bad), orders.refusal(bad))


class Rows(unittest.TestCase):
    def test_worked(self):
        for story, order, rows in known_held.ROWS:
            lying = held.table(order)
            shares = held.amounts(order, lying, -1)
            with self.subTest(story):
                self.assertEqual(held.plan(order, lying, -1, shares), rows)
                self.assertEqual(join.plan(order, -1, flow.amounts(order, -1)), rows)

    def test_rows(self):
        # With the same amounts the rows are equal, and they are a right plan's.
        for of, order in drawn(127, 150):
            bound = least.least(order) + of.one_of((0, 0, 1, 5))
            lying = held.table(order)
            shares = held.amounts(order, lying, bound)
            rows = held.plan(order, lying, bound, shares)
            self.assertEqual(
                rows, join.plan(order, bound, held.by_number(lying, shares)))
            self.assertIsNone(judge.broken(order, bound, rows, len(rows)))

    def test_met_or_not(self):
        for _, order in drawn(128, 60):
            for bound in bounds(order):
                self.assertEqual(held.amounts(order, held.table(order), bound) is None,
                                 not flow.meets(order, bound))

    def test_worked_with_times(self):
        for story, order, bound, given, rows in known_held.TIMED:
            lying = held.table(order)
            shares = held.amounts(order, lying, bound, given)
            with self.subTest(story):
                self.assertIsNotNone(shares)
                self.assertEqual(held.plan(order, lying, bound, shares, given), rows)
                self.assertIsNone(timed_judge.broken(
                    order, bound, given, rows, len(rows)))

    def test_rows_with_times(self):
        met = tight = 0
        for of, order in drawn(129, 150):
            given = draw.times(of, order, 12)
            bound = (cases_timed.met_first(order, given) or 0) + of.one_of((-1, 0, 2))
            lying = held.table(order)
            shares = held.amounts(order, lying, bound, given)
            self.assertEqual(shares is None,
                             not timed_plan.meets(order, bound, given))
            met, tight = met + (shares is not None), tight + (shares is None)
            if shares is not None:
                rows = held.plan(order, lying, bound, shares, given)
                self.assertEqual(rows, timed_plan.plan(
                    order, bound, given, held.by_number(lying, shares)))
                self.assertIsNone(timed_judge.broken(
                    order, bound, given, rows, len(rows)))
        self.assertGreater(min(met, tight), 20)


if __name__ == "__main__":
    unittest.main()
