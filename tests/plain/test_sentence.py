"""The reason as a sentence: document 02's lines, and lines there and back."""

import itertools
import unittest

import cases_sentence
import draw
import known_orders
import least
import orders
import reason
import sentence
from cases_sentence import NONE, job, stairs
from known_orders import A, B, C, FOUR_STAIRS, LONGEST_AT, LONGEST_STAIRS, SEVERAL_LATE
from reason import Reason

BAD = orders.order([8], [known_orders.BAD_NEED])
FAMILIES = (*cases_sentence.FAMILIES, draw.middle)
MEMORIES_RISE = orders.order([4, 8, 4], [(2, 2, 4)] * 3 + [(2, 2, 0)])

# Order, bound, and each reason that stands with its line.
KNOWN = [
    (A, -1, [
        (("stairs", (3, 3)), "memory 8 due 3, memory 4 due 3: owed 7, on hand 6")]),
    (B, -1, [
        (("stairs", (4, 2)), "memory 8 due 4, memory 4 due 2: owed 8, on hand 6")]),
    (C, -9, [(("job", 1), "job 1: time 3, end 2: owed 3, on hand 2")]),
    (C, -11, [(("job", 1), "job 1: time 3, end 0: owed 3, on hand 0")]),
    (C, -21, [(("job", 1), "job 1: time 3, end -10: owed 3, on hand -10")]),
    (SEVERAL_LATE, -1, [(("job", 1), "job 1: time 3, end 1: owed 3, on hand 1"),
                        (("job", 3), "job 3: time 5, end 2: owed 5, on hand 2")]),
    (FOUR_STAIRS, -1, [
        (("stairs", (1,)), "memory 8 due 1: owed 2, on hand 1"),
        (("stairs", (2,)), "memory 8 due 2: owed 3, on hand 2"),
        (("stairs", (1, 1)), "memory 8 due 1, memory 4 due 1: owed 3, on hand 2"),
        (("stairs", (2, 1)), "memory 8 due 2, memory 4 due 1: owed 4, on hand 3")]),
    (MEMORIES_RISE, -1, [
        (("stairs", (2, 2)), "memory 8 due 2, memory 4 due 2: owed 8, on hand 6")]),
    (cases_sentence.DUE_BELOW_0, 4, [
        (("stairs", (-4,)), "memory 8 due -4: owed 2, on hand 1"),
        (("stairs", (-3,)), "memory 8 due -3: owed 3, on hand 2"),
        (("stairs", (-4, -4)), "memory 8 due -4, memory 4 due -4: owed 3, on hand 2"),
        (("stairs", (-3, -4)), "memory 8 due -3, memory 4 due -4: owed 4, on hand 3")]),
    (A, 0, []),
    (C, -8, []),
]


def tight(seed, count):
    """Drawn orders and bounds that are too tight, two of three by a staircase."""
    of = draw.Draw(seed)
    for number in range(count):
        while True:
            order = of.one_of(FAMILIES)(of)
            bound = least.least(order) - of.one_of((1, 1, 1, 2, 3, 9))
            if number % 3 == 0 or not sentence.late_jobs(order, bound):
                break
        yield of, order, bound


def every_reason(order):
    """All that could be a reason, standing or not: job numbers, and due times in
    any order, with one of no job, of up to a class too many."""
    for number in range(order.n + 2):
        yield Reason("job", number)
    dues = sorted({job.due for job in order.jobs})
    for k in range(len(set(order.memories)) + 2):
        for some in itertools.product((dues[-1] + 1, *dues), repeat=k):
            yield Reason("stairs", some)


class Lines(unittest.TestCase):
    def test_known(self):
        for order, bound, known in KNOWN:
            self.assertEqual([(why, sentence.line(order, bound, why))
                              for why in sentence.standing(order, bound)], known)

    def test_longest(self):
        why = reason.reason(LONGEST_STAIRS, LONGEST_AT)
        self.assertTrue(sentence.stands(LONGEST_STAIRS, LONGEST_AT, why))
        text = sentence.line(LONGEST_STAIRS, LONGEST_AT, why)
        self.assertEqual(len(text), 541)
        self.assertTrue(text.startswith(
            "memory 4294967295 due -1000000, memory 4294967294 due -1000000, "))
        self.assertTrue(text.endswith(
            "memory 4294967280 due -1000000: owed 4800000, on hand 1600000"))
        # No number is longer: 16 classes, and no staircase owes more than all jobs
        # take or has more on hand than it owes.
        class_most = len(f"memory {orders.WORD_MOST} due {orders.DUE_LEAST}")
        owed_most = orders.JOBS_MOST * orders.TIME_MOST
        self.assertEqual(16 * class_most + 15 * len(", ") + len(
            f": owed {owed_most}, on hand {owed_most - 1}"), 541)

    def test_longest_of_a_job(self):
        order, bound = known_orders.LONGEST_JOB, known_orders.LONGEST_JOB_AT
        self.assertEqual(sentence.line(order, bound, Reason("job", 48)), (
            "job 48: time 100000, end -10999999: owed 100000, on hand -10999999"))
        self.assertEqual(max(len(sentence.line(order, bound, why))
                             for why in sentence.standing(order, bound)), 66)

    def test_document_01s_reason_is_the_first(self):
        for _, order, bound in tight(61, 500):
            self.assertEqual(sentence.standing(order, bound)[0],
                             reason.reason(order, bound))

    def test_none_where_the_bound_is_met(self):
        for _, order, bound in tight(62, 200):
            self.assertEqual(sentence.standing(order, least.least(order)), [])

    def test_each_by_itself(self):
        kinds = {"job": 0, "stairs": 0}
        for _, order, bound in tight(63, 300):
            if order.n > 4:
                continue
            standing = sentence.standing(order, bound)
            for why in every_reason(order):
                self.assertEqual(sentence.stands(order, bound, why), why in standing)
            self.assertEqual(len(set(standing)), len(standing))
            for why in standing:
                kinds[why.kind] += 1
        self.assertGreater(min(kinds.values()), 100)


class Composing(unittest.TestCase):
    def test_known(self):
        for order, bound, known in KNOWN:
            for why, text in known:
                given = sentence.handed(order, Reason(*why))
                self.assertEqual(sentence.compose(order, bound, given, 541), text)

    def test_handed(self):
        self.assertEqual(sentence.handed(C, Reason("job", 1)), (1, 1, 3, (0,) * 16))
        self.assertEqual(sentence.handed(B, Reason("stairs", (4, 2))),
                         (2, 2, 0, (4, 2) + (0,) * 14))
        self.assertEqual(sentence.handed(
            LONGEST_STAIRS, Reason("stairs", tuple(range(16)))),
            (2, 16, 0, tuple(range(16))))

    def test_room(self):
        for order, bound, known in KNOWN:
            for why, text in known:
                given = sentence.handed(order, Reason(*why))
                for room, wanted in ((0, (9, 0)), (1, (9, 0)), (len(text) - 1, (9, 0)),
                                     (len(text), text), (len(text) + 1, text)):
                    answer = sentence.compose(order, bound, given, room)
                    self.assertEqual(answer, wanted)
        for order, bound, given in ((C, -9, NONE), (C, -8, job(1, 3)),
                                    (B, -1, stairs(4))):
            for room in (0, 1, 900):
                self.assertEqual(sentence.compose(order, bound, given, room), "")

    def test_refusals(self):
        for _, order, number, carried in (known_orders.REFUSED
                                          + known_orders.REFUSED_COUNTS):
            for bound, room in ((-1, 900), (10000001, 0)):
                for given in (NONE, job(1, 1), stairs(5)):
                    self.assertEqual(sentence.compose(order, bound, given, room),
                                     (number, carried))
        for bound in (10000001, -10000001):
            for given in (NONE, job(1, 3)):
                self.assertEqual(sentence.compose(C, bound, given, 0), (8, 0))
        self.assertEqual(sentence.compose(C, -10000000, job(1, 3), 0), (9, 0))
        self.assertEqual(sentence.compose(C, 10000000, job(1, 3), 0), "")

    def test_anything_else(self):
        with_due = cases_sentence.with_due
        for order, bound, nothing in (
                (C, -8, (job(1, 3), stairs(10), NONE)),
                (C, -9, (job(0, 3), job(2, 3), job(1, 2), job(1, 4), job(1, 0),
                         job(1, 3, 10), with_due(job(1, 3), 15, 1), stairs(10),
                         job(1, 3)._replace(kind=0), job(1, 3)._replace(kind=3))),
                (B, -1, (stairs(4), stairs(2), stairs(4, 4), stairs(2, 2), stairs(2, 4),
                         stairs(4, 3), stairs(4, 2, 2), stairs(4, 2, count=1),
                         stairs(4, 2, count=0), stairs(4, 2, count=16),
                         stairs(4, 2, count=17), stairs(4, 2, 0, 1, count=2),
                         with_due(stairs(4, 2), 15, 2), job(1, 2))),
                (B, 0, (stairs(4, 2),)),
                (SEVERAL_LATE, -1, (job(2, 1), job(1, 5), job(3, 3), stairs(1),
                                    stairs(2), stairs(9), stairs(2, 1))),
                (FOUR_STAIRS, -1, (stairs(2, 2), stairs(1, 2), stairs(1, 1, 1))),
                (cases_sentence.RISING, -1, (stairs(1, 2),)),
                (cases_sentence.NO_JOBS_DUE, -1, (stairs(3), stairs(4), stairs(2, 2))),
                (cases_sentence.ONE_CLASS, -1, (stairs(2, 2),)),
                (cases_sentence.DUE_0, 1, (stairs(count=0), stairs(count=3)))):
            for given in nothing:
                self.assertEqual(sentence.compose(order, bound, given, 0), "", given)

    def test_sums_alone_do_not_make_a_staircase(self):
        rising, none = cases_sentence.RISING, cases_sentence.NO_JOBS_DUE
        self.assertTrue(reason.overfull(rising, -1, (1, 2)))
        self.assertTrue(reason.overfull(none, -1, (3,)))
        self.assertTrue(reason.overfull(SEVERAL_LATE, -1, (2,)))

    def test_the_count_tells_due_times_of_0_apart(self):
        for count, text in ((1, "memory 8 due 0: owed 4, on hand 2"),
                            (2, "memory 8 due 0, memory 4 due 0: owed 5, on hand 4")):
            self.assertEqual(sentence.compose(
                cases_sentence.DUE_0, 1, stairs(count=count), 541), text)

    def test_near_reasons(self):
        composed = empty = 0
        for of, order, bound in tight(64, 150):
            told = {sentence.handed(order, why): sentence.line(order, bound, why)
                    for why in sentence.standing(order, bound)}
            given = of.one_of(list(told))
            for near in cases_sentence.near_reasons(given):
                text = sentence.compose(order, bound, near, 541)
                self.assertEqual(text, told.get(near, ""))
                composed, empty = composed + (text != ""), empty + (text == "")
        self.assertGreater(min(composed, empty), 300)


def read(order, bound, text):
    data = text if isinstance(text, bytes) else text.encode()
    return sentence.read_back(order, bound, data)


def read_by_form(order, bound, data):
    """Read without going through the reasons."""
    why = sentence.named(data)
    if why is None or not sentence.stands(order, bound, why):
        return None
    return why if sentence.line(order, bound, why).encode() == data else None


class ReadingBack(unittest.TestCase):
    def test_known(self):
        for order, bound, known in KNOWN:
            for why, text in known:
                self.assertEqual(read(order, bound, text), why)

    def test_there_and_back(self):
        for _, order, bound in tight(65, 120):
            for why in sentence.standing(order, bound)[:20]:
                text = sentence.compose(order, bound, sentence.handed(order, why), 541)
                self.assertEqual(read(order, bound, text), why)

    def test_one_line_one_reason(self):
        several = 0
        for _, order, bound in tight(66, 500):
            standing = sentence.standing(order, bound)
            lines = {sentence.line(order, bound, why) for why in standing}
            self.assertEqual(len(lines), len(standing))
            several += len(lines) > 1
        self.assertGreater(several, 100)

    def test_other_lines(self):
        for order, bound, text in (
                (C, -9, ""), (C, -9, "\n"), (C, -9, "job 1"), (C, -9, b"\xff"),
                (C, -9, "job 1: time 3, end 2: owed 3, on hand 2\n"),
                (C, -9, "job 01: time 3, end 2: owed 3, on hand 2"),
                (C, -9, "job +1: time 3, end 2: owed 3, on hand 2"),
                (C, -9, "Job 1: time 3, end 2: owed 3, on hand 2"),
                (C, -9, "job 1: time 3, end 2: owed 3, on hand 3"),
                (C, -9, "job 1: time 3, end 2: owed 3, on hand"),
                (C, -9, "ob 1: time 3, end 2: owed 3, on hand 2"),
                (C, -10, "job 1: time 3, end 2: owed 3, on hand 2"),
                (C, -8, "job 1: time 3, end 3: owed 3, on hand 3"),
                (C, -11, "job 1: time 3, end -0: owed 3, on hand 0"),
                (C, -11, "job 1: time 3, end 0: owed 3, on hand -0"),
                (C, -21, "job 1: time 3, end 10: owed 3, on hand 10"),
                (B, -1, "memory 8 due 4, memory 4 due 2: owed 8, on hand 6\n"),
                (B, -1, "memory 8 due 4, memory 4 due 02: owed 8, on hand 6"),
                (B, -1, "memory 8 due 4, memory 4 due 2: owed 8, on hand 7"),
                (B, -1, "memory 8 due 4: owed 4, on hand 4"),
                (B, -1, "memory 8 due 3, memory 4 due 3: owed 7, on hand 6"),
                (B, 0, "memory 8 due 4, memory 4 due 2: owed 8, on hand 6"),
                (A, -1, "memory 8 due 4, memory 4 due 2: owed 8, on hand 6"),
                (SEVERAL_LATE, -1, "job 2: time 1, end 9: owed 1, on hand 9"),
                (SEVERAL_LATE, -1, "memory 4 due 2: owed 8, on hand 2"),
                (cases_sentence.RISING, -1,
                 "memory 8 due 1, memory 4 due 2: owed 5, on hand 3"),
                (cases_sentence.NO_JOBS_DUE, -1, "memory 4 due 3: owed 4, on hand 3")):
            self.assertIsNone(read(order, bound, text), text)

    def test_near_lines(self):
        none = 0
        for of, order, bound in tight(67, 60):
            told = {sentence.line(order, bound, why).encode(): why
                    for why in sentence.standing(order, bound)}
            data = of.one_of(list(told))
            for _, near in of.shuffled(cases_sentence.near_lines(data))[:60]:
                self.assertNotEqual(near, data)
                why = read(order, bound, near)
                self.assertEqual(why, told.get(near))
                none += why is None
        self.assertGreater(none, 3000)

    def test_by_the_form_alone(self):
        lines = 0
        for of, order, bound in tight(68, 150):
            standing = sentence.standing(order, bound)
            if standing[0].kind == "job":
                continue
            for why in standing[:20]:
                data = sentence.line(order, bound, why).encode()
                self.assertEqual(read_by_form(order, bound, data), why)
                lines += 1
            for _, near in of.shuffled(cases_sentence.near_lines(data))[:20]:
                self.assertEqual(read_by_form(order, bound, near),
                                 read(order, bound, near))
        self.assertGreater(lines, 200)

    def test_larger_orders(self):
        steps = known_orders.long_stairs(16)
        for order, bound, why in (
                (LONGEST_STAIRS, LONGEST_AT, Reason("stairs", (-1000000,) * 16)),
                (steps, -1, Reason("stairs", tuple(range(32, 0, -2))))):
            data = sentence.line(order, bound, why).encode()
            self.assertEqual(read(order, bound, data), why)
            for _, near in list(cases_sentence.near_lines(data))[::40]:
                self.assertIsNone(read(order, bound, near))

    def test_refusals(self):
        text = "job 1: time 3, end 2: owed 3, on hand 2"
        for _, order, number, carried in (known_orders.REFUSED
                                          + known_orders.REFUSED_COUNTS):
            for bound in (-1, 10000001):
                self.assertEqual(read(order, bound, text), (number, carried))
        for bound in (10000001, -10000001):
            self.assertEqual(read(C, bound, text), (8, 0))
        self.assertIsNone(read(C, 10000000, text))
