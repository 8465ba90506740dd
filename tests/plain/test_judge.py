"""McNaughton's wrap and the judge of written plans."""

import itertools
import os
import pathlib
import subprocess
import tempfile
import unittest

import draw
import flow
import join
import judge
import known_orders
import least
import order_text
import orders
import wrap

PROGRAM = pathlib.Path(__file__).resolve().parent / "judge"


def written(order, bound):
    return join.plan(order, bound, flow.amounts(order, bound))


def run(order, text, *arguments):
    with tempfile.NamedTemporaryFile() as file:
        file.write(order_text.text(order).encode())
        file.flush()
        done = subprocess.run(
            [PROGRAM, file.name, *arguments], input=text.encode(),
            capture_output=True, env={**os.environ, "PYTHONDONTWRITEBYTECODE": "1"})
    return done.returncode, done.stdout.decode()


class Wrap(unittest.TestCase):
    def test_by_hand(self):
        # Processors 2 (memory 8), 1 and 3 (memory 4); jobs by need 3, then 1
        # and 4 in input order, then 2, which has no amount.
        order = orders.order([4, 8, 4], [(3, 4, 4), (2, 4, 1), (3, 4, 7), (4, 4, 4)])
        self.assertEqual(wrap.layout(order, 10, 14, {1: 3, 3: 3, 4: 4}), [
            (3, 2, 10, 13), (1, 2, 13, 14), (1, 1, 10, 12), (4, 1, 12, 14),
            (4, 3, 10, 12)])

    def test_ties_in_input_order(self):
        order = orders.order([4, 4], [(1, 4, 2, 3), (1, 4, 3, 2), (1, 4, 3, 1),
                                      (1, 4, 2, 1)])
        self.assertEqual(
            wrap.layout(order, 0, 2, {1: 1, 2: 1, 3: 1, 4: 1}),
            [(2, 1, 0, 1), (3, 1, 1, 2), (1, 2, 0, 1), (4, 2, 1, 2)])

    def test_exactly_full(self):
        order = orders.order([4, 4], [(2, 2, 4), (2, 2, 4)])
        self.assertEqual(wrap.layout(order, 0, 2, {1: 2, 2: 2}),
                         [(1, 1, 0, 2), (2, 2, 0, 2)])

    def test_stretches(self):
        self.assertEqual(wrap.stretches(known_orders.A, 0), [(0, 4), (4, 5)])
        self.assertEqual(wrap.stretches(known_orders.D, -3), [(0, 2)])


class Judge(unittest.TestCase):
    A0 = [(1, 1, 0, 3), (2, 1, 3, 4), (2, 2, 0, 2), (3, 2, 2, 4)]

    def names(self, word, rows, order=known_orders.A, bound=0, count=None):
        said = judge.broken(order, bound, rows,
                            len(rows) if count is None else count)
        self.assertIn(word, str(said), rows)

    def test_right(self):
        self.names("None", self.A0)
        self.names("None", [(1, 1, 0, 3)], known_orders.C, -8)

    def test_other_amounts_are_right_too(self):
        self.names("None", [(1, 1, 0, 3), (2, 1, 3, 4), (2, 2, 0, 2),
                            (3, 2, 2, 3), (3, 1, 4, 5)])

    def test_wrong(self):
        a0 = self.A0
        self.names("the count is 3", a0, count=3)
        self.names("the count is 5", a0, count=5)
        self.names("job 3: gets 0", a0[:3])
        self.names("stands in a wrong place", [a0[0], a0[2], a0[1], a0[3]])
        self.names("is not below", a0 + [(3, 1, 4, 4)])
        self.names("after the end", a0, bound=-1)
        self.names("does not fit", [(1, 2, 0, 3)] + a0[1:])

    def test_wrong_layout_of_right_plans(self):
        a = known_orders
        self.names("is not the wrap's", [
            (1, 1, 0, 3), (3, 1, 3, 5), (2, 2, 0, 3)])
        self.names("is not the wrap's", [
            (1, 1, 0, 3), (2, 2, 0, 3), (3, 1, 4, 5), (3, 2, 4, 5)][:2]
            + [(3, 2, 3, 4), (3, 1, 4, 5)])
        self.names("is not the wrap's", [(1, 1, 1, 4)], a.C, -7)
        self.names("over 1 rows", [(1, 1, 0, 1), (1, 1, 1, 3)], a.C, -1)
        self.names("is not the wrap's", [
            (2, 1, 0, 1), (1, 1, 1, 2), (3, 2, 0, 1)], a.D, -3)

    def test_split_row(self):
        order = orders.order([4], [(3, 3, 4), (1, 9, 4)])
        self.names("None", [(1, 1, 0, 3), (2, 1, 3, 4)], order, -1)
        self.names("rows 1 and 2 are not joined",
                   [(1, 1, 0, 2), (1, 1, 2, 3), (2, 1, 3, 4)], order, -1)

    def test_joined(self):
        for _, order, _, rows in known_orders.JOINED:
            self.names("None", rows, order, -1)

    def test_not_joined(self):
        for _, order, parts, rows in known_orders.JOINED:
            laid = sum(parts, [])
            if laid != rows:
                self.names("are not joined", laid, order, -1)

    def test_joined_once_of_two_times(self):
        order = known_orders.OVER_THREE
        self.names("rows 1 and 4 are not joined", [
            (1, 1, 0, 4), (2, 2, 0, 2), (3, 2, 2, 4), (1, 1, 4, 6)], order, -1)
        self.names("rows 1 and 3 are not joined", [
            (1, 1, 0, 2), (2, 2, 0, 2), (1, 1, 2, 6), (3, 2, 2, 4)], order, -1)

    def test_where_a_joined_row_stands(self):
        # Every other order of the rows is wrong, that by `from` alone and that by
        # the stretch in which a row ends too.
        for _, order, _, rows in known_orders.JOINED:
            for other in itertools.permutations(rows):
                if list(other) != rows:
                    self.names("stands in a wrong place", list(other), order, -1)

    def test_rows_over_an_end_that_are_no_joined_rows(self):
        # By the wrap job 2 is on processor 2 in the first stretch and on processor
        # 1 in the second: a row of processor 2 over the end is right, but no layout.
        order = orders.order([8, 4], [(2, 2, 8), (3, 4, 4)])
        self.names("None", [(1, 1, 0, 2), (2, 2, 0, 1), (2, 1, 2, 4)], order, -1)
        self.names("None", [(1, 1, 0, 2), (2, 2, 0, 2), (2, 1, 2, 3)], order, -1)
        self.names("is not the wrap's", [(1, 1, 0, 2), (2, 2, 0, 3)], order, -1)
        self.names("is not the wrap's", [(1, 1, 0, 2), (2, 2, 1, 4)], order, -1)

    def test_buffer(self):
        before = [7] * 22
        rows = [x for row in self.A0 for x in row]
        after = rows + before[16:]
        told = judge.broken_buffer
        self.assertIsNone(told(known_orders.A, 0, before, after, 4))
        for place in (16, 19, 20, 21):
            changed = list(after)
            changed[place] = 0
            self.assertIn("beyond the rows is changed",
                          str(told(known_orders.A, 0, before, changed, 4)))
        self.assertIsNotNone(told(known_orders.A, 0, before, after, 3))
        self.assertIsNotNone(told(known_orders.A, 0, before, after, 5))
        self.assertIsNotNone(told(known_orders.A, 0, before, after, 6))

    def test_plans_of_the_flow(self):
        of = draw.Draw(61)
        for _ in range(500):
            order = of.one_of((draw.tiny, draw.middle, draw.steep))(of)
            bound = least.least(order) + of.one_of((0, 1, 5))
            rows = written(order, bound)
            self.assertIsNone(judge.broken(order, bound, rows, len(rows)))

    def test_every_change_of_one_number_is_caught_or_right(self):
        # Of one changed number the amounts may still be right; then the wrap of
        # the new amounts has to be these rows.
        of, caught = draw.Draw(62), 0
        for _ in range(800):
            order = draw.middle(of)
            bound = least.least(order)
            rows = written(order, bound)
            place, column = of.below(len(rows)), of.below(4)
            row = list(rows[place])
            row[column] += of.one_of((-1, 1))
            rows[place] = tuple(row)
            caught += judge.broken(order, bound, rows, len(rows)) is not None
        self.assertGreater(caught, 790)


class Program(unittest.TestCase):
    def test_right(self):
        text = "least -8\npiece 1 1 0 3\nend 1\n"
        self.assertEqual(run(known_orders.C, text), (0, "right\n"))
        self.assertEqual(run(known_orders.C, text, "-8"), (0, "right\n"))
        text = "piece 1 1 0 3\nend 1\n"
        self.assertEqual(run(known_orders.C, text, "-1"), (0, "right\n"))
        text = "least -1\npiece 1 1 0 4\npiece 2 2 0 2\nend 2\n"
        self.assertEqual(run(known_orders.OVER_TWO, text), (0, "right\n"))
        bad = orders.order([8], [known_orders.BAD_NEED])
        self.assertEqual(run(bad, "refused 7 1\n"), (0, "right\n"))

    def test_wrong(self):
        for order, text, arguments, said in (
                (known_orders.C, "least -7\npiece 1 1 0 3\nend 1\n", (),
                 "the least lateness is -8, not -7\n"),
                (known_orders.C, "piece 1 1 0 3\nend 2\n", ("-1",),
                 "the count is 2, but 1 rows are written\n"),
                (known_orders.OVER_TWO, "least -1\npiece 1 1 0 2\npiece 2 2 0 2\n"
                 "piece 1 1 2 4\nend 3\n", (), "rows 1 and 3 are not joined\n"),
                (known_orders.C, "refused 9 0\n", (),
                 "'refused 9 0', but the order is accepted\n"),
                (known_orders.C, "piece 1 1 0 3\n", ("-1",), ""),
                (known_orders.C, "piece 1 1 0\nend 1\n", ("-1",), "")):
            self.assertEqual(run(order, text, *arguments), (1, said))
