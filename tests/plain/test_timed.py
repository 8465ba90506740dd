"""Ready minutes and windows: refusals, times that count, rules, planner and judge."""

import unittest

import cases_timed
import cases_timed_check
import draw
import flow
import known_orders
import known_timed
import least
import orders
import plan_rules
import timed
import timed_answers
import timed_check
import timed_judge
import timed_plan
import timed_rules
import timed_search
import wrap
from cases_check import numbers
from cases_timed import with_ready, with_windows
from known_orders import A, C, D
from timed import times

TOP = 4294967295
FIVE = orders.order([4] * 5, [(1, 9, 4)] * 5)
BAD_WINDOWS = ((0, 0), (7, 7), (8, 7), (1000000, 1000000), (0, 1000001),
               (1000000, 1000001), (1000001, 1000002), (1000001, 5), (5, TOP), (TOP, 5),
               (TOP, TOP), (0, 2147483648), (2147483648, 7))
GOOD_WINDOWS = ((0, 1), (7, 8), (0, 1000000), (999999, 1000000), (5, 9))


def each_answer(order, bound, given, room=4000, lent=(1, 1, 0, 1)):
    """The first line of each of the three answers."""
    return [timed_answers.asked(order, bound, given)[0],
            timed_answers.planned(order, bound, given, room)[0],
            timed_answers.checked(order, bound, given, list(lent))[0]]


def written(order, bound, given):
    return timed_plan.plan(order, bound, given, timed_plan.amounts(order, bound, given))


def drawn_times(seed, count):
    """Drawn orders and times with bounds about the lowest that is met."""
    of = draw.Draw(seed)
    for _ in range(count):
        order = of.one_of((draw.tiny, draw.crowded, draw.stepped))(of)
        given = draw.times(of, order)
        bound = cases_timed.met_first(order, given) or 0
        yield order, bound + of.one_of((-1, -1, 0, 0, 2)), given


def met_minute_by_minute(order, bound, given):
    """By a flow in which each minute of each job and of each processor is a node of
    its own: no stretch, no ranking of memories and no wrap comes into it."""
    last = max(0, *(orders.end(job, bound) for job in order.jobs))
    width = order.n + order.m
    network = flow.Network(2 + order.n + last * width)
    for job, one in enumerate(order.jobs):
        network.add(0, 2 + job, one.time)
        for minute in range(given.ready[job], orders.end(one, bound)):
            at = 2 + order.n + minute * width
            network.add(2 + job, at + job, 1)
            for place, (opening, closing) in enumerate(given.windows):
                if opening <= minute < closing and order.memories[place] >= one.need:
                    network.add(at + job, at + order.n + place, 1)
    for minute in range(last):
        for place in range(order.m):
            network.add(2 + order.n + minute * width + order.n + place, 1, 1)
    return network.most(0, 1) == sum(job.time for job in order.jobs)


class Refusals(unittest.TestCase):
    def refused(self, number, carried, *arguments, **named):
        """By all three."""
        self.assertEqual(each_answer(*arguments, **named),
                         [f"refused {number} {carried}"] * 3)

    def accepted(self, *arguments):
        for line in each_answer(*arguments):
            self.assertFalse(line.startswith("refused"), (line, *arguments))

    def test_ready_minutes(self):
        for minute in (0, 1, 999999, 1000000):
            self.accepted(C, 0, times([minute], [(0, 9)]))
        for minute in (1000001, 1000002, 2147483647, 2147483648, TOP):
            self.refused(15, 1, C, 0, times([minute], [(0, 9)]))

    def test_windows(self):
        for window in GOOD_WINDOWS:
            self.accepted(C, 0, times([0], [window]))
        for window in BAD_WINDOWS:
            self.refused(16, 1, C, 0, times([0], [window]))

    def test_first_ones(self):
        good = draw.wide_open(FIVE)
        for places in ((1,), (5,), (2, 4), (3, 4, 5)):
            self.refused(15, places[0], FIVE, 0, with_ready(
                good, {place: 1000001 for place in places}))
            self.refused(16, places[0], FIVE, 0, with_windows(
                good, {place: (7, 7) for place in places}))
        for kinds in (((7, 7), (0, TOP)), ((0, TOP), (8, 7))):
            self.refused(16, 2, FIVE, 0, with_windows(
                good, dict(zip((2, 3), kinds))))

    def test_processor_without_a_job(self):
        # The window of a processor that no job fits is judged as well.
        order = orders.order([8, 1], [(1, 9, 8)])
        self.refused(16, 2, order, 0, times([0], [(0, 9), (3, 3)]))

    def test_after_those_of_the_order(self):
        for _, order, number, carried in (known_orders.REFUSED
                                          + known_orders.REFUSED_COUNTS):
            given = draw.wide_open(order)
            bad = times([TOP] * len(given.ready), [(1, 0)] * len(given.windows))
            self.refused(number, carried, order, 10000001, bad, room=0)

    def test_before_8(self):
        good = draw.wide_open(FIVE)
        late = with_ready(good, {3: TOP})
        empty = with_windows(good, {2: (7, 7)})
        for bound in (0, 10000001, -10000001):
            self.refused(15, 3, FIVE, bound, late, room=0)
            self.refused(16, 2, FIVE, bound, empty, room=0)
            self.refused(15, 3, FIVE, bound, with_windows(late, {1: (8, 7)}))

    def test_8(self):
        for bound in (10000001, -10000001):
            self.refused(8, 0, FIVE, bound, draw.wide_open(FIVE), room=0)
        for bound in (10000000, -10000000):
            self.accepted(FIVE, bound, draw.wide_open(FIVE))

    def test_9_and_10(self):
        wide = draw.wide_open(C)
        for order, bound, given in ((C, -8, wide), (C, -9, wide),
                                    (A, 0, times([0, 0, 1], [(0, 4), (1, 6)]))):
            needed = 4 * timed.rows_asked(order, bound, given)
            told = "meets" if timed_search.meets(order, bound, given) else "tight"
            for room in (0, needed - 4, needed - 3, needed - 1):
                self.assertEqual(timed_answers.planned(order, bound, given, room),
                                 ["refused 9 0"])
            for room in (needed, needed + 1, needed + 3):
                self.assertEqual(timed_answers.planned(order, bound, given, room)[0],
                                 told)


class Marks(unittest.TestCase):
    def test_worked(self):
        for story, order, bound, given, marks, _ in known_timed.WORKED:
            self.assertEqual(len(timed.changes(order, bound, given)), marks, story)
            self.assertEqual(timed_answers.asked(order, bound, given),
                             [f"asked {marks * (order.n + order.m - 1)}"], story)

    def test_ends_below_0(self):
        given = times([0, 0], [(0, 7)])
        self.assertEqual(timed_answers.planned(known_timed.TWO_DUE, -20, given, 16),
                         ["refused 9 0"])
        self.assertEqual(timed_answers.planned(known_timed.TWO_DUE, -20, given, 32),
                         ["tight"])

    def test_one_thing_of_each_kind(self):
        # A's ends at 0 are 4, 4 and 5; each list is one of its distinct times more.
        for ready, windows, marks in (
                ([0, 0, 0], [(0, 4), (0, 5)], 3), ([1, 0, 0], [(0, 4), (0, 5)], 4),
                ([0, 0, 0], [(1, 4), (0, 5)], 4), ([0, 0, 0], [(0, 4), (0, 6)], 4),
                ([4, 5, 4], [(4, 5), (4, 5)], 2), ([8, 9, 8], [(1, 8), (2, 9)], 6),
                ([1, 2, 3], [(6, 10), (7, 20)], 9), ([6, 6, 6], [(6, 7), (6, 8)], 5)):
            self.assertEqual(timed_answers.asked(A, 0, times(ready, windows)),
                             [f"asked {4 * marks}"])

    def test_processor_without_a_job(self):
        # Times count whether a job fits their processor or not.
        order = orders.order([8, 1], [(1, 9, 8)])
        self.assertEqual(timed_answers.asked(order, -1, times([0], [(0, 9), (3, 4)])),
                         ["asked 8"])

    def test_full(self):
        self.assertEqual(timed_answers.asked(
            known_orders.FULL, known_timed.FULL_AT, known_timed.FULL_TIMES),
            ["asked 8064"])
        self.assertEqual(timed_check.ROWS_MOST, 128 * 63)

    def test_stretches(self):
        given = times([0, 0, 1], [(0, 4), (1, 6)])
        self.assertEqual(timed_plan.stretches(A, 0, given),
                         [(0, 1), (1, 4), (4, 5), (5, 6)])
        self.assertEqual(timed_plan.stretches(A, 0, given, 3),
                         [(0, 3), (3, 12), (12, 15), (15, 18)])
        given = times([2, 2, 3], [(2, 4), (3, 6)])
        self.assertEqual(timed_plan.stretches(A, -7, given),
                         [(0, 2), (2, 3), (3, 4), (4, 6)])
        self.assertEqual(timed_plan.stretches(C, -8, times([2], [(5, 6)])),
                         [(2, 3), (3, 5), (5, 6)])

    def test_open_processors(self):
        order = orders.order([4, 8, 4, 9], [(1, 9, 4)])
        given = times([0], [(0, 4), (2, 6), (2, 4), (3, 4)])
        for begin, end, wanted in ((0, 2, [1]), (2, 3, [2, 1, 3]), (3, 4, [4, 2, 1, 3]),
                                   (4, 6, [2]), (6, 9, [])):
            self.assertEqual(timed_plan.open_processors(order, given, begin, end),
                             wanted)
        self.assertEqual(timed_plan.open_processors(order, given, 6, 9, 3), [2, 1, 3])


class Rules(unittest.TestCase):
    def test_one_minute(self):
        # C, a row of its three minutes; ready at 3 and open from 2, then the other way.
        for given, begins in ((times([3], [(2, 9)]), {3, 4, 5, 6}),
                              (times([2], [(3, 9)]), {3, 4, 5, 6}),
                              (times([0], [(0, 5)]), {0, 1, 2}),
                              (times([4], [(4, 7)]), {4}),
                              (times([5], [(4, 7)]), set())):
            for begin in range(9):
                self.assertEqual(timed_rules.right(C, -1, given, [
                    (1, 1, begin, begin + 3)]), begin in begins, (given, begin))

    def test_own_times(self):
        order = orders.order([4, 4, 4], [(1, 9, 4)] * 3)
        given = times([1, 3, 5], [(5, 7), (1, 3), (3, 5)])
        for ones in ((2, 3, 1), (3, 1, 2), (1, 2, 3), (2, 1, 3), (3, 2, 1), (1, 3, 2)):
            rows = [(job, processor, begin, begin + 1)
                    for job, processor, begin in zip((1, 2, 3), ones, (1, 3, 5))]
            self.assertEqual(timed_rules.right(order, -1, given, rows),
                             ones == (2, 3, 1))
        for ones in ((1, 2, 3), (2, 1, 3), (1, 3, 2)):
            rows = [(job, processor, begin, begin + 1)
                    for job, processor, begin in zip(ones, (2, 3, 1), (1, 3, 5))]
            self.assertEqual(timed_rules.right(order, -1, given, rows),
                             ones == (1, 2, 3))

    def test_every_row(self):
        given = times([3], [(2, 9)])
        for rows in ([(1, 1, 2, 3), (1, 1, 5, 7)], [(1, 1, 5, 7), (1, 1, 2, 3)],
                     [(1, 1, 4, 6), (1, 1, 9, 10)], [(1, 1, 9, 10), (1, 1, 4, 6)]):
            self.assertFalse(timed_rules.right(C, 5, given, rows))
            self.assertTrue(timed_rules.right(C, 5, draw.wide_open(C), rows))

    def test_the_four_rules_too(self):
        wide = draw.wide_open(C)
        for rows in ([], [(1, 1, 0, 2)], [(1, 1, 8, 11)], [(2, 1, 0, 3)], [(1, 1, 0)],
                     [(1, 1, 0, 2), (1, 1, 1, 2)], [(1, 1, 3, 0)]):
            self.assertFalse(timed_rules.right(C, -1, wide, rows))

    def test_parts(self):
        given = times([3], [(4, 7)])
        for parts in (1, 2, 3):
            for begin in range(3 * parts, 6 * parts):
                self.assertEqual(
                    timed_rules.right(C, -1, given, [(1, 1, begin, begin + 3 * parts)],
                                      parts), begin == 4 * parts)
            ready = times([5], [(4, 9)])
            for begin in range(4 * parts, 7 * parts):
                self.assertEqual(
                    timed_rules.right(C, -1, ready, [(1, 1, begin, begin + 3 * parts)],
                                      parts), 5 * parts <= begin <= 6 * parts)

    def test_minute_by_minute(self):
        # Each minute of each row by itself: its job ready, its processor open.
        of, seen = draw.Draw(91), {True: 0, False: 0}
        for _ in range(250):
            order = of.one_of((draw.tiny, draw.crowded, draw.stepped))(of)
            bound = least.least(order) + of.below(4)
            rows = wrap.plan(order, bound, flow.amounts(order, bound))
            given = times([of.one_of((0, 0, 0, 1)) for _ in order.jobs],
                          [of.one_of(((0, 9), (0, 9), (0, 4), (0, 2), (1, 5)))
                           for _ in order.memories])
            kept = all(given.ready[job - 1] <= minute
                       and given.windows[processor - 1][0] <= minute
                       < given.windows[processor - 1][1]
                       for job, processor, begin, to in rows
                       for minute in range(begin, to))
            self.assertEqual(timed_rules.right(order, bound, given, rows), kept)
            self.assertTrue(plan_rules.right(order, bound, rows))
            seen[kept] += 1
        self.assertGreater(min(seen.values()), 30)

    def test_sharpened(self):
        # As sharp as the plan allows is yes, one minute more is no.
        of = draw.Draw(92)
        for _ in range(40):
            order, bound, given = cases_timed_check.with_plan(of)
            _, rows = cases_timed_check.made(of, order, bound, given)
            for story, sharp in cases_timed_check.sharpened(of, given, rows):
                if timed.refusal_of_times(sharp) is None:
                    self.assertEqual(timed_rules.right(order, bound, sharp, rows),
                                     "one minute" not in story, story)


class Check(unittest.TestCase):
    LONG = orders.order([4], [(8064, 8067, 4)])
    GIVEN = times([3], [(3, 8067)])
    ROWS = numbers((1, 1, minute, minute + 1) for minute in range(3, 8067))

    def told(self, lent, order=LONG, bound=-1, given=GIVEN):
        line, = timed_answers.checked(order, bound, given, lent)
        return line

    def test_8064_rows(self):
        self.assertEqual(self.told(self.ROWS), "yes")
        self.assertEqual(self.told(self.ROWS[:-4]), "no")
        self.assertEqual(self.told(self.ROWS[:-1]), "no")

    def test_8065_rows(self):
        for over in ([1, 1, 0, 1], [1], [1, 1], [1, 1, 0]):
            self.assertEqual(self.told(self.ROWS + over), "refused 11 0")

    def test_11_is_last(self):
        many = self.ROWS + [1]
        self.assertEqual(self.told(many, bound=10000001), "refused 8 0")
        self.assertEqual(self.told(many, given=times([TOP], [(0, 9)])), "refused 15 1")
        self.assertEqual(self.told(many, given=times([0], [(9, 9)])), "refused 16 1")

    def test_left_over(self):
        given = times([3], [(2, 9)])
        self.assertEqual(self.told([1, 1, 4, 7], C, -1, given), "yes")
        for lent in ([], [1], [1, 1], [1, 1, 4], [1, 1, 4, 7, 1], [1, 1, 4, 7, 1, 1],
                     [1, 1, 4, 7, 1, 1, 7]):
            self.assertEqual(self.told(lent, C, -1, given), "no")

    def test_any_order(self):
        given = times([3], [(2, 9)])
        self.assertEqual(self.told([1, 1, 5, 7, 1, 1, 4, 5], C, -1, given), "yes")


class Planner(unittest.TestCase):
    def test_worked(self):
        for story, order, bound, given, _, rows in known_timed.WORKED:
            room = 4 * timed.rows_asked(order, bound, given)
            self.assertEqual(timed_answers.planned(order, bound, given, room),
                             ["tight"] if rows is None else ["meets", "yes"], story)

    def test_worked_rows(self):
        for story, order, bound, given, _, rows in known_timed.WORKED:
            if rows:
                self.assertIsNone(
                    timed_judge.broken(order, bound, given, rows, len(rows)), story)

    def test_rows_by_hand(self):
        # Forced by the times, or one of the right answers, which the flow gives.
        for story, order, bound, given, _, rows in known_timed.WORKED:
            if rows and order.n < 10:
                self.assertEqual(written(order, bound, given), rows, story)

    def test_by_search(self):
        told = {True: 0, False: 0}
        for order, bound, given in drawn_times(93, 450):
            meets = timed_search.meets(order, bound, given)
            self.assertEqual(timed_plan.meets(order, bound, given), meets,
                             (order, bound, given))
            told[meets] += 1
        self.assertGreater(min(told.values()), 150)

    def test_larger_minute_by_minute(self):
        told = {True: 0, False: 0}
        for _, record in cases_timed.drawn_larger(60):
            if record.kind == "timed" and abs(record.values[1]) < 100:
                order, bound, given, _ = record.values
                meets = met_minute_by_minute(order, bound, given)
                self.assertEqual(timed_plan.meets(order, bound, given), meets)
                told[meets] += 1
        self.assertGreater(min(told.values()), 50)

    def test_parts(self):
        # No plan in parts of a minute meets what none in minutes does, and each
        # plan in minutes is one in parts.
        for order, bound, given in drawn_times(94, 60):
            meets = timed_plan.meets(order, bound, given)
            for parts in (2, 3):
                self.assertEqual(timed_plan.meets(order, bound, given, parts), meets)
                if sum(job.time for job in order.jobs) < 7:
                    self.assertEqual(timed_search.meets(order, bound, given, parts),
                                     meets)

    def test_plans_keep_their_times(self):
        seen = 0
        for order, bound, given in drawn_times(95, 250):
            for parts in (1, 2):
                shares = timed_plan.amounts(order, bound, given, parts)
                if shares is not None:
                    rows = timed_plan.plan(order, bound, given, shares, parts)
                    self.assertIsNone(timed_rules.broken_rule(
                        order, bound, given, rows, parts))
                    seen += 1
        self.assertGreater(seen, 150)

    def test_searched_plans_are_right(self):
        for order, bound, given in drawn_times(96, 100):
            for parts in (1, 2):
                rows = timed_search.plan(order, bound, given, parts)
                if rows is not None:
                    self.assertTrue(timed_rules.right(order, bound, given, rows, parts))

    def test_wide_open_as_the_base(self):
        of = draw.Draw(97)
        for _ in range(150):
            order = of.one_of((draw.tiny, draw.crowded, draw.steep))(of)
            for bound in (least.least(order), least.least(order) - 1):
                self.assertEqual(timed_plan.meets(order, bound, draw.wide_open(order)),
                                 flow.meets(order, bound))

    def test_not_the_base(self):
        # Windows end at 1,000,000, ends reach further.
        for count in (11, 20):
            order = known_timed.long_jobs(count)
            self.assertEqual(least.least(order), 100000 * (count - 10) - 1)
            self.assertFalse(timed_plan.meets(order, 10000000, draw.wide_open(order)))

    def test_no_bound(self):
        for order, given in ((C, times([0], [(4, 6)])), (C, times([5], [(0, 7)])),
                             (D, times([0] * 3, [(0, 1), (4, 5)])),
                             (C, times([1000000], [(0, 1000000)]))):
            for bound in (-4, 0, 100, 10000000):
                self.assertFalse(timed_plan.meets(order, bound, given))

    def test_full(self):
        order, given = known_orders.FULL, known_timed.FULL_TIMES
        at = known_timed.FULL_AT
        self.assertEqual(timed_answers.planned(order, at, given, 32256),
                         ["meets", "yes"])
        self.assertEqual(timed_answers.planned(order, at - 1, given, 32256), ["tight"])
        self.assertEqual(timed_answers.planned(order, at, given, 32255),
                         ["refused 9 0"])


class Judge(unittest.TestCase):
    def broken(self, order, bound, given, rows, count=None):
        return timed_judge.broken(order, bound, given, rows,
                                  len(rows) if count is None else count)

    def test_drawn(self):
        for order, bound, given in drawn_times(98, 250):
            if timed_plan.meets(order, bound, given):
                self.assertIsNone(self.broken(order, bound, given,
                                              written(order, bound, given)))

    def test_wrong(self):
        order, given = A, times([0, 0, 1], [(0, 4), (1, 6)])
        right = [(1, 1, 0, 3), (2, 1, 3, 4), (2, 2, 1, 3), (3, 2, 3, 5)]
        self.assertIsNone(self.broken(order, 0, given, right))
        self.assertIn("count", self.broken(order, 0, given, right, 3))
        self.assertIn("ready", self.broken(order, 0, with_ready(given, {3: 4}),
                                           right))
        self.assertIn("opening", self.broken(order, 0, with_windows(
            given, {2: (2, 6)}), right))
        self.assertIn("closing", self.broken(order, 0, with_windows(
            given, {1: (0, 3)}), right))
        self.assertIn("place", self.broken(order, 0, given, right[1:] + right[:1]))
        self.assertIn("joined", self.broken(
            order, 0, given, [(1, 1, 0, 1), (1, 1, 1, 3)] + right[1:]))
        # Right, and kept within the times, but laid out in another way.
        other = [(1, 1, 0, 3), (2, 1, 3, 4), (2, 2, 1, 2), (3, 2, 2, 3), (2, 2, 3, 4),
                 (3, 2, 4, 5)]
        self.assertIsNotNone(self.broken(order, 0, given, other))

    def test_cut_at_every_time(self):
        # One job of 0 to 4 on one processor; another processor's window cuts it.
        order = orders.order([8, 4], [(4, 3, 4), (1, 3, 4)])
        given = times([0, 0], [(0, 4), (2, 3)])
        self.assertIsNone(self.broken(order, 0, given, [(1, 1, 0, 4), (2, 2, 2, 3)]))
        self.assertEqual(written(order, 0, given), [(1, 1, 0, 4), (2, 2, 2, 3)])


if __name__ == "__main__":
    unittest.main()
