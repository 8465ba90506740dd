"""Needs from a table: by hand, length by length, by the ends of its lines, with lines
in any order, and the buffer that is lent for them."""

import itertools
import unittest
from unittest import mock

import draw
import draw_needs
import known_needs
import needs
import orders
from known_needs import FULL, GAP, TOP, TWICE, TWO, numbers

MOST = 100000


def rows(table, count=32):
    """The lines that count, taken from the numbers one by one."""
    left = list(table)
    while len(left) > 2 and count:
        yield left[0], left[1], left[2]
        del left[:3]
        count -= 1


def by_length(table, lines=32, most=MOST):
    """Each length up to this one looked at by itself, where so many lines count: a
    refusal, or the need of each length."""
    kept = list(rows(table, lines))
    meeting = [[need for first, last, need in kept
                if 1 <= first <= length <= last <= most]
               for length in range(1, most + 1)]
    for number, wrong in ((17, lambda found: not found), (18, lambda found: found[1:])):
        for length, found in enumerate(meeting, 1):
            if wrong(found):
                return number, length
    return [need for need, in meeting]


def by_ends(table):
    """The refusal of a table by the ends of its lines alone: the smallest length that
    none meets is 1 or follows one's end, the smallest that two meet begins one."""
    kept = [(first, last) for first, last, _ in rows(table)
            if 1 <= first <= last <= MOST]
    follow = {1, *(last + 1 for _, last in kept)} - {MOST + 1}
    begin = {first for first, _ in kept}
    for number, tried, wrong in ((17, follow, lambda count: count == 0),
                                 (18, begin, lambda count: count > 1)):
        found = [length for length in tried if wrong(
            sum(first <= length <= last for first, last in kept))]
        if found:
            return number, min(found)
    return None


def drawn(seed, count, faults=2):
    of = draw.Draw(seed)
    for _ in range(count):
        yield draw_needs.table(of, faults)[1]


class Tables(unittest.TestCase):
    def test_accepted(self):
        for story, table in known_needs.ACCEPTED:
            with self.subTest(story):
                self.assertIsNone(needs.refusal(table, [], 0))

    def test_refused(self):
        for story, table, number, length in known_needs.REFUSED:
            with self.subTest(story):
                self.assertEqual(needs.refusal(table, [], 0), (number, length))

    def test_lines_that_meet_nothing(self):
        for first, last in known_needs.NOTHING:
            for lines, wanted in (([(first, last, 9)], (17, 1)),
                                  ([(first, last, 9), *known_needs.WHOLE], None)):
                with self.subTest(f"{first} to {last}", count=len(lines)):
                    self.assertEqual(needs.refusal(numbers(lines), [], 0), wanted)

    def test_every_small_table(self):
        # Of lengths 1 to 3 and the two first lines every table of up to three lines,
        # its numbers from 0 to 4, a line's need its place.
        told = {}
        with (mock.patch.object(needs, "LENGTH_MOST", 3),
              mock.patch.object(needs, "LINES_MOST", 2)):
            for count in range(4):
                for ends in itertools.product(range(5), repeat=2 * count):
                    table = numbers((ends[at], ends[at + 1], at // 2 + 1)
                                    for at in range(0, 2 * count, 2))
                    found = needs.answer(table, [1, 2, 3], 3)
                    self.assertEqual(found, by_length(table, 2, 3), table)
                    kind = tuple(found)
                    told[kind] = told.get(kind, 0) + 1
        self.assertEqual(set(told), {
            (17, 1), (17, 2), (17, 3), (18, 1), (18, 2), (18, 3),
            (1, 1, 1), (2, 2, 2), (1, 1, 2), (1, 2, 2),
            (2, 1, 1), (2, 2, 1)})

    def test_each_length_by_itself(self):
        for table in (*drawn(201, 5), numbers(TWO), numbers(GAP), numbers(TWICE)):
            wanted, lengths = by_length(table), [*range(1, MOST, 997), MOST]
            if isinstance(wanted, list):
                wanted = [wanted[length - 1] for length in lengths]
            self.assertEqual(needs.answer(table, lengths, MOST), wanted)

    def test_by_the_ends_of_lines(self):
        told = {}
        for table in drawn(202, 150):
            found = needs.refusal(table, [], 0)
            self.assertEqual(found, by_ends(table), table)
            told.setdefault(found and found.number, set()).add(found)
        self.assertEqual(set(told), {None, 17, 18})
        self.assertGreater(min(len(told[17]), len(told[18])), 15)

    def test_lines_in_any_order(self):
        of = draw.Draw(203)
        for table in drawn(204, 40):
            lines = list(rows(table))
            lengths = [1, MOST, *(of.between(1, MOST) for _ in range(5))]
            self.assertEqual(
                needs.answer(numbers(of.shuffled(lines)), lengths, 7),
                needs.answer(numbers(lines), lengths, 7))

    def test_lines_of_accepted_tables_follow_one_another(self):
        accepted = 0
        for table in drawn(205, 60):
            if needs.refusal(table, [], 0) is None:
                kept = sorted(line[:2] for line in rows(table)
                              if 1 <= line[0] <= line[1] <= MOST)
                self.assertEqual([1, *(last + 1 for _, last in kept)],
                                 [*(first for first, _ in kept), MOST + 1])
                accepted += 1
        self.assertGreater(accepted, 20)

    def test_further_lines(self):
        # Any lines behind 32 change nothing.
        of = draw.Draw(206)
        for table in drawn(207, 20):
            full = numbers(draw_needs.full(of, list(rows(table))))
            for more in (FULL, GAP, TWICE, [(1, MOST, 9)]):
                self.assertEqual(needs.answer(full + numbers(more), [1, MOST], 2),
                                 needs.answer(full, [1, MOST], 2))


class Lists(unittest.TestCase):
    def test_filled(self):
        for story, table, lengths, wanted in known_needs.FILLED:
            with self.subTest(story):
                self.assertEqual(needs.answer(table, lengths, len(lengths)), wanted)

    def test_out_of_range(self):
        for story, lengths, place in known_needs.LISTED_WRONG:
            with self.subTest(story):
                self.assertEqual(needs.answer(numbers(TWO), lengths, len(lengths)),
                                 (5, place))

    def test_rooms(self):
        for count, room, name in known_needs.ROOMS:
            lengths = [30001 - place for place in range(count)]
            wanted = [8, *[4] * count][:count]
            with self.subTest(f"{count} lengths, room for {room}"):
                self.assertEqual(needs.answer(numbers(TWO), lengths, room),
                                 (9, 0) if name == "short" else wanted)

    def test_at_once(self):
        for story, table, lengths, room, number, carried in known_needs.AT_ONCE:
            with self.subTest(story):
                self.assertEqual(needs.answer(table, lengths, room), (number, carried))

    def test_needs_of_the_lines(self):
        # A line's need is that of its first length, its last and one between.
        for table in drawn(208, 25, 0):
            for first, last, need in rows(table):
                listed = [last, (first + last) // 2, first]
                self.assertEqual([needs.need(table, length) for length in listed],
                                 [need] * 3)

    def test_each_by_itself(self):
        # The list's order is the needs' order, and no length changes another's need.
        of = draw.Draw(209)
        for table in drawn(210, 12, 0):
            lengths = draw_needs.lengths(of, table, 0)[:9]
            self.assertEqual(
                needs.answer(table, lengths, 9),
                [need for length in lengths
                 for need in needs.answer(table, [length], 1)])

    def test_refusals_of_drawn_lists(self):
        told = {}
        of = draw.Draw(211)
        for table in drawn(212, 80, 0):
            lengths = draw_needs.lengths(of, table)
            room = draw_needs.room(of, len(lengths))
            found = needs.answer(table, lengths, room)
            bad = [place for place, length in enumerate(lengths, 1)
                   if length not in range(1, MOST + 1)]
            if bad:
                wanted = 5, bad[0]
            elif room < len(lengths):
                wanted = 9, 0
            else:
                wanted = [need for length in lengths
                          for first, last, need in rows(table)
                          if first <= length <= last]
            self.assertEqual(found, wanted)
            kind = found.number if isinstance(found, orders.Refusal) else None
            told[kind] = told.get(kind, 0) + 1
        self.assertGreater(min(told[kind] for kind in (None, 5, 9)), 5)


class Buffer(unittest.TestCase):
    def test_kept_where_refused(self):
        held = [11, 12, 13]
        for table, lengths, refused in (
                (GAP, [1], (17, 11)), (TWICE, [1], (18, 10)), (TWO, [1, 0, 2], (5, 2)),
                (TWO, [1, 2, 3, 100001], (5, 4)), (TWO, [1, 2, 3, 4], (9, 0))):
            self.assertEqual(needs.filled(numbers(table), lengths, held),
                             (refused, [11, 12, 13]))

    def test_kept_beyond_the_needs(self):
        for lengths, after in (([], [11, 12, 13]), ([1], [4, 12, 13]),
                               ([30001, 1], [8, 4, 13]), ([1, 30001, 2], [4, 8, 4])):
            found, buffer = needs.filled(numbers(TWO), lengths, [11, 12, 13])
            self.assertEqual((found, buffer), (after[:len(lengths)], after))


class Answers(unittest.TestCase):
    def test_lines(self):
        for lines, lengths, room, line in (
                (TWO, [30000, 30001], 2, "needs 4 8"), (TWO, [], 0, "needs"),
                (TWO, [], 5, "needs"), (TWO, [100000], 9, "needs 8"),
                ([(1, 7, 0), (8, 100000, TOP)], [8, 7, 8], 3,
                 "needs 4294967295 0 4294967295"),
                (GAP, [1], 1, "refused 17 11"), (TWICE, [1], 1, "refused 18 10"),
                ([], [], 0, "refused 17 1"), (TWO, [1, 0], 2, "refused 5 2"),
                (TWO, [1, 1], 1, "refused 9 0")):
            self.assertEqual(needs.told(numbers(lines), lengths, room), [line])

    def test_changed(self):
        # A call that fills in more than it answers is told.
        with mock.patch.object(needs, "filled", lambda table, lengths, buffer: (
                [4], [4, 7, 8, 7, 0])):
            self.assertEqual(needs.told([], [1], 5), ["needs 4", "changed", "changed"])
        with mock.patch.object(needs, "filled", lambda table, lengths, buffer: (
                orders.Refusal(9, 0), [4, 7])):
            self.assertEqual(needs.told([], [1, 2, 3], 2), ["refused 9 0", "changed"])


if __name__ == "__main__":
    unittest.main()
