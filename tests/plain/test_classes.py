"""Classes and their processors: by hand, by trying all listings, after each one
passed, and as the reason has them."""

import itertools
import unittest

import classes
import draw
import known_classes
import known_orders
import orders
import reason
from known_classes import FOUR, SMALL

TOP = orders.WORD_MOST
VALUES = (TOP, 8, 0)


def every_list(values, most):
    """Every list of up to so many of these memories, in every input order."""
    for count in range(1, most + 1):
        yield from itertools.product(values, repeat=count)


def every_listing(values, most):
    """Every list of classes, their memories falling, of up to so many processors
    each."""
    for kept in itertools.product(range(most + 1), repeat=len(values)):
        yield [(memory, count) for memory, count in zip(values, kept) if count]


def spelled_out(listing):
    """The memory of each processor of each class."""
    return [memory for memory, count in listing for _ in range(count)]


def drawn(seed, count):
    of = draw.Draw(seed)
    for _ in range(count):
        yield of.one_of((draw.few_memories, draw.middle, draw.steep))(of)


class Listing(unittest.TestCase):
    def test_worked(self):
        for story, memories, listed in known_classes.LISTED:
            with self.subTest(story):
                self.assertEqual(classes.listing(memories), listed)

    def test_by_trying_all(self):
        # Of all listings one alone has the very processors of the list.
        listings = {}
        for listed in every_listing(VALUES, 5):
            listings.setdefault(tuple(sorted(spelled_out(listed))), []).append(listed)
        for memories in every_list(VALUES, 5):
            self.assertEqual(listings[tuple(sorted(memories))],
                             [classes.listing(memories)])

    def test_memories_fall(self):
        for order in drawn(101, 300):
            found = [memory for memory, _ in classes.listing(order.memories)]
            for larger, smaller in zip(found, found[1:]):
                self.assertGreater(larger, smaller)
            self.assertEqual(set(found), set(order.memories))

    def test_each_counted_once(self):
        for order in drawn(102, 300):
            counts = [count for _, count in classes.listing(order.memories)]
            self.assertGreaterEqual(min(counts), 1)
            self.assertEqual(sum(counts), order.m)

    def test_input_order(self):
        of = draw.Draw(103)
        for order in drawn(104, 300):
            self.assertEqual(classes.listing(of.shuffled(order.memories)),
                             classes.listing(order.memories))
        for memories in itertools.permutations(FOUR):
            self.assertEqual(classes.listing(memories), [(8, 1), (4, 2), (2, 1)])

    def test_as_the_reason_has_them(self):
        # With a time of 1 for classes 1 to k, the minutes on hand are the processors
        # of these classes.
        several = 0
        for order in drawn(105, 300):
            found = classes.listing(order.memories)
            self.assertEqual([memory for memory, _ in found],
                             reason.class_memories(order))
            for k in range(1, len(found) + 1):
                _, hand = reason.sums(order, 0, (1,) * k)
                self.assertEqual(hand, sum(count for _, count in found[:k]))
            several += len(found) > 1
        self.assertGreater(several, 150)


class Passing(unittest.TestCase):
    def test_worked(self):
        for story, memories, listings in known_classes.PASSED:
            with self.subTest(story):
                self.assertEqual(classes.listings(memories), listings)

    def test_the_last_is_the_former_one(self):
        for order in drawn(106, 300):
            self.assertEqual(classes.listings(order.memories)[-1],
                             classes.listing(order.memories))

    def test_one_for_each_processor(self):
        for order in drawn(107, 300):
            counts = [sum(count for _, count in listed)
                      for listed in classes.listings(order.memories)]
            self.assertEqual(counts, list(range(1, order.m + 1)))

    def test_as_orders_of_their_own(self):
        for memories in every_list(VALUES, 4):
            falling = sorted(memories)[::-1]
            self.assertEqual(
                classes.listings(memories),
                [classes.answer(orders.order(falling[:count], [SMALL]))
                 for count in range(1, len(falling) + 1)])

    def test_one_step_each(self):
        # One processor passed adds one to the last class or begins a class of one
        # behind it, whether its memory is that of its neighbour before or not.
        raised = begun = 0
        for order in drawn(108, 300):
            listings = classes.listings(order.memories)
            falling = sorted(order.memories)[::-1]
            self.assertEqual(listings[0], [(falling[0], 1)])
            for place in range(1, order.m):
                before, after = listings[place - 1], listings[place]
                if falling[place] == falling[place - 1]:
                    memory, count = before[-1]
                    self.assertEqual(after, before[:-1] + [(memory, count + 1)])
                    raised += 1
                else:
                    self.assertEqual(after, before + [(falling[place], 1)])
                    begun += 1
        self.assertGreater(min(raised, begun), 300)

    def test_input_order(self):
        of = draw.Draw(109)
        for order in drawn(110, 300):
            self.assertEqual(classes.listings(of.shuffled(order.memories)),
                             classes.listings(order.memories))


class Answers(unittest.TestCase):
    def test_lines(self):
        for memories, line in (
                ((4, 8, 4, 2), "classes 8 1 4 2 2 1"), ((8,), "classes 8 1"),
                ((8, 4), "classes 8 1 4 1"), ((8, 4, 4), "classes 8 1 4 2"),
                ((8, 4, 4, 2), "classes 8 1 4 2 2 1"), ((0,), "classes 0 1"),
                ((0, TOP), "classes 4294967295 1 0 1"), ((4,) * 16, "classes 4 16")):
            self.assertEqual(classes.told(orders.order(memories, [SMALL])), [line])

    def test_refusals(self):
        for story, order, number, carried in (known_orders.REFUSED
                                              + known_orders.REFUSED_COUNTS):
            with self.subTest(story):
                self.assertEqual(classes.told(order), [f"refused {number} {carried}"])

    def test_refusals_of_several_classes(self):
        for story, jobs, number, carried in known_classes.BAD_JOBS:
            for memories, refusal in ((FOUR, (number, carried)), ([], (1, 0)),
                                      (range(17), (2, 0))):
                with self.subTest(story, memories=memories):
                    self.assertEqual(classes.answer(orders.order(memories, jobs)),
                                     refusal)

    def test_any_jobs(self):
        # Classes without a job are listed, and jobs are not counted.
        for count in range(1, 4):
            for needs in itertools.product((0, 2, 3, 4, 8), repeat=count):
                order = orders.order(FOUR, [(1, 9, need) for need in needs])
                self.assertEqual(classes.told(order), ["classes 8 1 4 2 2 1"])

    def test_accepted(self):
        for story, order in known_orders.LIMITS + list(known_orders.NAMED.items()):
            with self.subTest(story):
                self.assertEqual(classes.answer(order), classes.listing(order.memories))
        self.assertEqual(classes.told(known_orders.FULL), [
            "classes 4096 1 2048 1 1024 2 768 1 512 2 384 1 256 2 192 1 128 2 96 1 "
            "64 2"])


if __name__ == "__main__":
    unittest.main()
