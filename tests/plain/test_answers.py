"""The lines of each entry point, and which refusal precedes which."""

import unittest

import answers
import draw
import flow
import join
import known_orders
import least
import order_file
import orders

A, B, C = known_orders.A, known_orders.B, known_orders.C
BAD = orders.order([8], [known_orders.BAD_NEED])
# 13 at job 2, and 7 at job 1.
NO_MAKER = orders.order([8], [known_orders.BAD_NEED, known_orders.HIGH_MAKER])


class Answers(unittest.TestCase):
    def test_planner_at_a_bound(self):
        for order, bound, line in ((A, 0, "meets"), (A, -1, "tight stairs 3 3"),
                                   (B, -1, "tight stairs 4 2"),
                                   (C, -8, "meets"), (C, -9, "tight job 1"),
                                   (C, 10000000, "meets"),
                                   (C, -10000000, "tight job 1")):
            self.assertEqual(answers.plan(order, bound, 40), [line])

    def test_least(self):
        self.assertEqual(answers.least_lateness(C, 4), ["least -8"])
        self.assertEqual(answers.least_lateness(A, 32), ["least 0"])

    def test_room(self):
        for room in (0, 1, 3):
            self.assertEqual(answers.least_lateness(C, room), ["refused 9 0"])
        for room in (4, 5, 7, 8):
            self.assertEqual(answers.least_lateness(C, room), ["least -8"])
        for room in (28, 31):
            self.assertEqual(answers.plan(A, 0, room), ["refused 9 0"])
        for room in (32, 35):
            self.assertEqual(answers.plan(A, 0, room), ["meets"])

    def test_room_of_joined_rows(self):
        # Document 02, §2: "the buffer asked for stays q × (n + m - 1) rows", here
        # 2 × 3; the joined rows are two.
        order = known_orders.OVER_TWO
        for room in (8, 12, 23):
            self.assertEqual(answers.plan(order, -1, room), ["refused 9 0"])
            self.assertEqual(answers.least_lateness(order, room), ["refused 9 0"])
        self.assertEqual(answers.plan(order, -1, 24), ["meets"])
        self.assertEqual(answers.least_lateness(order, 24), ["least -1"])

    def test_precedence(self):
        self.assertEqual(answers.plan(BAD, 10000001, 0), ["refused 7 1"])
        self.assertEqual(answers.plan(A, 10000001, 0), ["refused 8 0"])
        self.assertEqual(answers.plan(A, -10000001, 32), ["refused 8 0"])
        self.assertEqual(answers.plan(A, -1, 31), ["refused 9 0"])
        self.assertEqual(answers.plan(A, -1, 32), ["tight stairs 3 3"])
        self.assertEqual(answers.least_lateness(BAD, 0), ["refused 7 1"])
        self.assertEqual(answers.write(BAD, 0), ["refused 7 1"])
        self.assertEqual(answers.read(bytes(11)), ["refused 12 0"])

    def test_forms(self):
        self.assertEqual(answers.check(C, -1, [1, 1, 0, 3]), ["yes"])
        self.assertEqual(answers.check(C, -1, []), ["no"])
        self.assertEqual(answers.write(C, 31), ["refused 9 0"])
        self.assertEqual(answers.write(C, 32), [
            "file 32 04000000030000000a0000000400000001000000"
            "000000000400000001000100"])
        self.assertEqual(answers.read(bytes.fromhex(answers.write(C, 32)[0][8:])),
                         ["order 1 1", "processor 4", "job 3 10 4 1"])
        data = bytes.fromhex(answers.write(known_orders.MAKERS, 84)[0][8:])
        self.assertEqual(answers.read(data), [
            "order 2 4", "processor 8", "processor 4", "job 3 4 8 1", "job 2 2 4 2",
            "job 2 4 4 2", "job 1 4 8 16"])

    def test_13_by_every_entry_point(self):
        data = order_file.encode(NO_MAKER)
        for lines in (answers.read(data), answers.check(NO_MAKER, -1, [1, 1, 0, 1]),
                      answers.write(NO_MAKER, 900), answers.write(NO_MAKER, 0),
                      answers.least_lateness(NO_MAKER, 40),
                      answers.least_lateness(NO_MAKER, 0),
                      answers.plan(NO_MAKER, 5, 40),
                      answers.plan(NO_MAKER, 10000001, 0),
                      answers.try_bound(NO_MAKER, 5),
                      answers.compose(NO_MAKER, 5, 0, 0, 0, (0,) * 16, 0),
                      answers.parse(NO_MAKER, 5, b"")):
            self.assertEqual(lines, ["refused 13 2"])

    def test_makers_change_no_plan(self):
        of = draw.Draw(81)
        for _ in range(200):
            order = of.one_of((draw.tiny, draw.crowded, draw.stepped))(of)
            other = orders.order(order.memories, [
                job._replace(maker=of.between(1, 16)) for job in order.jobs])
            bound = least.least(order) - of.below(2)
            self.assertEqual(answers.least_lateness(other, 400),
                             answers.least_lateness(order, 400))
            self.assertEqual(answers.try_bound(other, bound),
                             answers.try_bound(order, bound))
            if flow.meets(order, bound):
                self.assertEqual(join.plan(other, bound, flow.amounts(other, bound)),
                                 join.plan(order, bound, flow.amounts(order, bound)))

    def test_try_bound(self):
        for order, bound, lines in (
                (A, 0, ["meets"]), (C, -8, ["meets"]), (BAD, -1, ["refused 7 1"]),
                (BAD, 10000001, ["refused 7 1"]), (C, 10000001, ["refused 8 0"]),
                (A, -1, ["tight stairs 3 3",
                         "memory 8 due 3, memory 4 due 3: owed 7, on hand 6"]),
                (C, -9, ["tight job 1", "job 1: time 3, end 2: owed 3, on hand 2"]),
                (known_orders.FOUR_STAIRS, -1, ["tight stairs 1",
                                                "memory 8 due 1: owed 2, on hand 1"]),
                (known_orders.SEVERAL_LATE, -1, [
                    "tight job 1", "job 1: time 3, end 1: owed 3, on hand 1"])):
            self.assertEqual(answers.try_bound(order, bound), lines)
        for _, order, number, carried in known_orders.REFUSED:
            self.assertEqual(answers.try_bound(order, -1),
                             [f"refused {number} {carried}"])

    def test_forms_of_sentences(self):
        text, none = "memory 8 due 4, memory 4 due 2: owed 8, on hand 6", (0,) * 14
        for kind, room, line in ((2, 49, f"line 49 {text}"), (2, 48, "refused 9 0"),
                                 (0, 0, "line 0"), (1, 49, "line 0")):
            self.assertEqual(
                answers.compose(B, -1, kind, 2, 0, (4, 2) + none, room), [line])
        for order, bound, data, line in (
                (B, -1, text, "stairs 4 2"), (B, 0, text, "none"),
                (C, -9, "job 1: time 3, end 2: owed 3, on hand 2", "job 1 3"),
                (BAD, -1, text, "refused 7 1"), (C, 10000001, "", "refused 8 0")):
            self.assertEqual(answers.parse(order, bound, data.encode()), [line])
