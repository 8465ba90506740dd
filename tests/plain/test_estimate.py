"""Times known between a low and a high: refusals, the path, the two numbers, and the
first order met at each number, by walking, by halving and by search over all plans."""

import itertools
import unittest

import draw
import estimate
import flow
import known_estimate
import known_orders
import least
import order_file
import orders
import search
from known_estimate import BAD_DUE, BAD_MAKER, BAD_NEED, GOOD, TURNED, of_jobs

FAMILIES = (draw.tiny, draw.crowded, draw.stepped, draw.mixed_tiny)


def drawn(seed, count, families=FAMILIES, most=4):
    of = draw.Draw(seed)
    for _ in range(count):
        order = of.one_of(families)(of)
        yield of, estimate.estimate(order, draw.highs(of, order, most))


def times(order):
    return order and tuple(job.time for job in order.jobs)


def steps(given):
    """The times along the path: the jobs before the one that goes are at their highs,
    those behind it at their lows."""
    lows, highs = times(given.order), given.highs
    found = [lows]
    for place, (low, high) in enumerate(zip(lows, highs)):
        found += [highs[:place] + (time,) + lows[place + 1:]
                  for time in range(low + 1, high + 1)]
    return found


def with_leasts(given):
    """The least lateness of each order of the path, with its times."""
    return [(least.least(estimate.with_times(given.order, one)), one)
            for one in steps(given)]


class Refusals(unittest.TestCase):
    def test_table(self):
        for story, given, number, carried in known_estimate.REFUSED:
            with self.subTest(story):
                self.assertEqual(estimate.refusal(given), (number, carried))

    def test_pairs(self):
        for story, given, number, carried in known_estimate.pairs():
            with self.subTest(story):
                self.assertEqual(estimate.refusal(given), (number, carried))

    def test_rows_in_their_order(self):
        self.assertEqual([number for number, _ in estimate.rows(orders.DOCK)],
                         [1, 2, 3, 4, 5, 6, 13, 19, 7])
        jobs = BAD_NEED, TURNED, BAD_MAKER, BAD_DUE, (1, 100001, 5, 1)
        for count, number in enumerate((7, 19, 13, 6, 5), 1):
            self.assertEqual(estimate.refusal(of_jobs([8], *jobs[:count])),
                             (number, count))

    def test_accepted(self):
        for story, given in known_estimate.LIMITS:
            with self.subTest(story):
                self.assertIsNone(estimate.refusal(given))
        for _, given, *_ in known_estimate.WORKED + known_estimate.LONG:
            self.assertIsNone(estimate.refusal(given))

    def test_as_of_the_order(self):
        # Where each high is the low, an estimate is refused as its order is.
        for story, order, number, carried in (known_orders.REFUSED
                                              + known_orders.REFUSED_COUNTS):
            given = estimate.estimate(order, times(order))
            with self.subTest(story):
                self.assertEqual(estimate.refusal(given), (number, carried))
        for _, order in known_orders.LIMITS:
            given = estimate.estimate(order, times(order))
            self.assertIsNone(estimate.refusal(given))

    def test_either_end_out_of_range(self):
        for bad in (0, 100001, 131072, 2147483648, 4294967295):
            for place in range(5):
                for low, high in ((bad, 7), (7, bad), (bad, bad)):
                    jobs = [GOOD] * place + [(low, high, 5, 1)] + [GOOD] * (4 - place)
                    self.assertEqual(estimate.refusal(of_jobs([8], *jobs)),
                                     (5, place + 1))

    def test_every_small_low_and_high(self):
        # Of three jobs every low and every high from 0 to 2, each by itself.
        told = {}
        for ends in itertools.product(range(3), repeat=6):
            pairs = list(zip(ends[::2], ends[1::2]))
            found = estimate.refusal(of_jobs([8], *((*pair, 5, 1) for pair in pairs)))
            bad = [number for number, pair in enumerate(pairs, 1) if 0 in pair]
            turned = [number for number, pair in enumerate(pairs, 1) if pair == (2, 1)]
            wanted = ((5, bad[0]) if bad else (19, turned[0]) if turned else None)
            self.assertEqual(found, wanted)
            told[wanted] = told.get(wanted, 0) + 1
        self.assertEqual(set(told), {None, *itertools.product((5, 19), (1, 2, 3))})


class Path(unittest.TestCase):
    def test_worked(self):
        for highs, wanted in (
                ((3, 3, 2), [(1, 1, 1), (2, 1, 1), (3, 1, 1), (3, 2, 1), (3, 3, 1),
                             (3, 3, 2)]),
                ((1, 1, 1), [(1, 1, 1)]), ((1, 2, 1), [(1, 1, 1), (1, 2, 1)]),
                ((1, 1, 3), [(1, 1, 1), (1, 1, 2), (1, 1, 3)]),
                ((2, 1, 2), [(1, 1, 1), (2, 1, 1), (2, 1, 2)])):
            given = known_estimate.of_order(known_orders.A, (1, 1, 1), highs)
            self.assertEqual([times(order) for order in estimate.path(given)], wanted)

    def test_as_the_jobs_go(self):
        for _, given in drawn(301, 300):
            self.assertEqual([times(order) for order in estimate.path(given)],
                             steps(given))

    def test_one_minute_of_one_job(self):
        for _, given in drawn(302, 300):
            whole = [times(order) for order in estimate.path(given)]
            self.assertEqual((whole[0], whole[-1]), (times(given.order), given.highs))
            went = []
            for before, after in zip(whole, whole[1:]):
                more = [now - then for then, now in zip(before, after)]
                self.assertEqual(sorted(more), [0] * (len(more) - 1) + [1])
                went.append(more.index(1))
            self.assertEqual(went, sorted(went))

    def test_all_else_stays(self):
        for _, given in drawn(303, 100):
            for order in estimate.path(given):
                self.assertEqual(order[:1] + order[2:],
                                 given.order[:1] + given.order[2:])
                self.assertEqual([job[1:] for job in order.jobs],
                                 [job[1:] for job in given.order.jobs])

    def test_minute_by_minute(self):
        for _, given in drawn(304, 300):
            whole = list(estimate.path(given))
            self.assertEqual(estimate.minutes(given), len(whole) - 1)
            self.assertEqual(whole, [estimate.order_at(given, minute)
                                     for minute in range(len(whole))])


class Leasts(unittest.TestCase):
    def test_worked(self):
        for story, given, along, _ in known_estimate.WORKED:
            with self.subTest(story):
                self.assertEqual(estimate.leasts(given), (along[0], along[-1]))

    def test_worked_along_the_path(self):
        for story, given, along, _ in known_estimate.WORKED:
            with self.subTest(story):
                self.assertEqual([estimate.least_lateness(order)
                                  for order in estimate.path(given)], along)

    def test_worked_on_long_paths(self):
        for story, given, wanted, _ in known_estimate.LONG:
            with self.subTest(story):
                self.assertEqual(estimate.leasts(given), wanted)

    def test_times_between(self):
        # "any order with times between has its least lateness between these two"
        inside = 0
        for of, given in drawn(305, 250):
            below, above = estimate.leasts(given)
            for _ in range(4):
                order = estimate.with_times(given.order, [
                    of.between(low, high)
                    for low, high in zip(times(given.order), given.highs)])
                found = least.least(order)
                self.assertTrue(below <= found <= above)
                inside += below < found < above
        self.assertGreater(inside, 100)

    def test_a_minute_adds_one_at_most(self):
        # Of any job, from any times between.
        stayed = grew = 0
        for of, given in drawn(306, 250):
            some = [of.between(low, high)
                    for low, high in zip(times(given.order), given.highs)]
            before = least.least(estimate.with_times(given.order, some))
            for place in range(given.order.n):
                more = some[:place] + [some[place] + 1] + some[place + 1:]
                found = least.least(estimate.with_times(given.order, more))
                self.assertIn(found, (before, before + 1))
                stayed, grew = stayed + (found == before), grew + (found > before)
        self.assertGreater(min(stayed, grew), 100)

    def test_by_search_over_all_plans(self):
        for _, given in drawn(307, 120, (draw.tiny, draw.crowded), 2):
            for number, one in zip(estimate.leasts(given),
                                   (times(given.order), given.highs)):
                order = estimate.with_times(given.order, one)
                self.assertTrue(search.meets(order, number))
                self.assertFalse(search.meets(order, number - 1))

    def test_large_orders_by_flow(self):
        of = draw.Draw(308)
        for m, n, most in ((16, 48, 100000), (3, 48, 100000), (16, 20, 9), (8, 30, 50)):
            order = draw.wide(of, m, n, most, most)
            number = estimate.least_lateness(order)
            self.assertTrue(flow.meets(order, number))
            self.assertFalse(flow.meets(order, number - 1))


class Met(unittest.TestCase):
    def test_worked(self):
        for story, given, along, wanted in known_estimate.WORKED:
            numbers = range(along[0], along[-1] + 1)
            with self.subTest(story):
                self.assertEqual([times(estimate.met(given, number))
                                  for number in numbers], wanted)

    def test_worked_outside(self):
        for story, given, along, _ in known_estimate.WORKED:
            for number in (along[0] - 2, along[0] - 1, along[-1] + 1, along[-1] + 2,
                           *known_estimate.FAR):
                with self.subTest(story, number=number):
                    self.assertIsNone(estimate.met(given, number))

    def test_worked_on_long_paths(self):
        for story, given, (below, above), found in known_estimate.LONG:
            for number, wanted in found:
                with self.subTest(story, number=number):
                    self.assertEqual(times(estimate.met(given, number)), wanted)
            for number in (below - 1, above + 1, *known_estimate.FAR):
                with self.subTest(story, number=number):
                    self.assertIsNone(estimate.met(given, number))

    def test_every_number(self):
        # From two below the lower to two above the upper: the first of the path that
        # has it, and none of those before it.
        met = none = plateaus = 0
        for _, given in drawn(309, 250):
            whole = with_leasts(given)
            below, above = whole[0][0], whole[-1][0]
            for number in range(below - 2, above + 3):
                having = [one for found, one in whole if found == number]
                self.assertEqual(having != [], below <= number <= above)
                found = times(estimate.met(given, number))
                self.assertEqual(found, having[0] if having else None)
                before = itertools.takewhile(lambda pair: pair[1] != found, whole)
                self.assertNotIn(number, [least_there for least_there, _ in before])
                met, none = met + (having != []), none + (having == [])
                plateaus += len(having) > 1
        self.assertGreater(min(met, none, plateaus), 300)

    def test_each_number_between_is_reached(self):
        several = 0
        for _, given in drawn(310, 200):
            below, above = estimate.leasts(given)
            for number in range(below, above + 1):
                order = estimate.met(given, number)
                self.assertIsNotNone(order)
                self.assertEqual(least.least(order), number)
                for low, time, high in zip(times(given.order), times(order),
                                           given.highs):
                    self.assertTrue(low <= time <= high)
            several += above - below > 2
        self.assertGreater(several, 60)

    def test_by_search_over_all_plans(self):
        # No order before the one met has the number, and that one has it.
        for of, given in drawn(311, 60, (draw.tiny, draw.crowded), 2):
            number = of.between(*estimate.leasts(given))
            wanted = times(estimate.met(given, number))
            for one in steps(given):
                order = estimate.with_times(given.order, one)
                found = (search.meets(order, number)
                         and not search.meets(order, number - 1))
                self.assertEqual(found, one == wanted)
                if found:
                    break

    def test_halving(self):
        for _, given in drawn(312, 150):
            below, above = estimate.leasts(given)
            for number in range(below - 2, above + 3):
                self.assertEqual(estimate.halved(given, number),
                                 estimate.walked(given, number))

    def test_halving_of_larger_orders(self):
        for of, given in drawn(313, 12, (draw.middle, draw.steep), 12):
            below, above = estimate.leasts(given)
            for number in (below, above, of.between(below, above)):
                self.assertEqual(estimate.halved(given, number),
                                 estimate.walked(given, number))

    def test_low_and_high_equal(self):
        for _, given in drawn(314, 60):
            order = given.order
            alone = estimate.estimate(order, times(order))
            number = least.least(order)
            self.assertEqual(estimate.leasts(alone), (number, number))
            self.assertEqual(estimate.met(alone, number), order)
            for outside in (number - 1, number + 1):
                self.assertIsNone(estimate.met(alone, outside))


class Buffer(unittest.TestCase):
    GIVEN = known_estimate.of_order(known_orders.C, (1,), (5,))

    def test_written(self):
        for number, time in ((-10, 1), (-8, 3), (-6, 5)):
            file = order_file.encode(orders.order([4], [(time, 10, 4)]))
            self.assertEqual(len(file), 32)
            for more in (0, 1, 9):
                found = estimate.written(self.GIVEN, number, b"\xaa" * (32 + more))
                self.assertEqual(found, (file, file + b"\xaa" * more))

    def test_too_short(self):
        for room in (0, 1, 31):
            self.assertEqual(estimate.written(self.GIVEN, -8, b"\xaa" * room),
                             ((9, 0), b"\xaa" * room))

    def test_nothing_to_write(self):
        for number in (-11, -5, *known_estimate.FAR):
            for room in (0, 31, 32, 40):
                self.assertEqual(estimate.written(self.GIVEN, number, b"\xaa" * room),
                                 (None, b"\xaa" * room))

    def test_refused(self):
        # 9 is last of all, and a refusal leaves the buffer as it was.
        for story, given, number, carried in known_estimate.REFUSED:
            for room in (0, 900):
                with self.subTest(story, room=room):
                    self.assertEqual(
                        estimate.written(given, 0, b"\xaa" * room),
                        ((number, carried), b"\xaa" * room))


class Answers(unittest.TestCase):
    def test_lines(self):
        given = of_jobs([8, 4], (1, 3, 9, 4, 16), (2, 5, -1, 8, 2))
        for number, wanted in (
                (2, ["order 2 2", "processor 8", "processor 4", "job 1 9 4 16",
                     "job 2 -1 8 2"]),
                (4, ["order 2 2", "processor 8", "processor 4", "job 3 9 4 16",
                     "job 4 -1 8 2"]),
                (1, ["nowhere"]), (6, ["nowhere"]), (-2147483648, ["nowhere"])):
            self.assertEqual(estimate.told(*given, number), ["between 2 5", *wanted])

    def test_below_zero(self):
        given = Buffer.GIVEN
        self.assertEqual(estimate.told(*given, -7), [
            "between -10 -6", "order 1 1", "processor 4", "job 4 10 4 1"])

    def test_refused_twice(self):
        for story, given, number, carried in known_estimate.REFUSED:
            with self.subTest(story):
                self.assertEqual(estimate.told(*given, 0),
                                 [f"refused {number} {carried}"] * 2)


if __name__ == "__main__":
    unittest.main()
