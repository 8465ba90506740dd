"""Tables as text, orders that leave needs to them, and order-file with a table."""

import os
import pathlib
import subprocess
import tempfile
import unittest

import answers
import examples
import known_needs
import least
import needs_text
import order_file
import order_text
from known_needs import GAP, SESSIONS, THREE, TWICE, numbers

PROGRAM = pathlib.Path(__file__).resolve().parent / "order-file"
TABLE = examples.FOLDER / "sessions.needs"
TEXT = examples.FOLDER / "sessions.order"


def text_of(lines):
    return "".join(f"line {first} {last} {need}\n" for first, last, need in lines)


def run(data, *arguments):
    done = subprocess.run([PROGRAM, *arguments], input=data, capture_output=True,
                          env={**os.environ, "PYTHONDONTWRITEBYTECODE": "1"})
    return done.returncode, done.stdout, done.stderr.decode()


def pack(data, table, *more):
    """What order-file does with a table of this text, named `table` here."""
    with tempfile.NamedTemporaryFile(suffix=".needs") as file:
        file.write(table)
        file.flush()
        code, out, said = run(data, "pack", "--needs", file.name, *more)
        return code, out, said.replace(file.name, "table")


class Text(unittest.TestCase):
    def test_lines(self):
        text = "# lengths\n\nline 91 100000 8 # long\n  line 1 30 2\r\nline 31 90 4"
        self.assertEqual(needs_text.parse(text), [91, 100000, 8, 1, 30, 2, 31, 90, 4])
        self.assertEqual(needs_text.parse("# nothing\n"), [])
        for _, table in known_needs.ACCEPTED:
            lines = list(zip(table[::3], table[1::3], table[2::3]))
            self.assertEqual(needs_text.parse(text_of(lines)), numbers(lines))

    def test_any_numbers(self):
        self.assertEqual(needs_text.parse("line 0 4294967295 0"), [0, 4294967295, 0])
        self.assertEqual(needs_text.parse("line 9 8 7\n" * 40), [9, 8, 7] * 40)

    def test_malformed(self):
        for text, said in (
                ("job 1 2 3", "line 1: a line begins with 'line', not 'job'"),
                ("1 30 2", "line 1: a line begins with 'line', not '1'"),
                ("line 1 30", "line 1: after 'line' stand 3 (from, to, need), not 2"),
                ("\nline 1 2 3 4", "line 2: after 'line' stand 3 (from, to, need)"),
                ("line 1 30 -", "line 1: need '-' is not a whole number"),
                ("line one 30 2", "line 1: from 'one' is not a whole number"),
                ("line 1 -30 2", "line 1: to -30 does not fit"),
                ("line 1 30 4294967296", "line 1: need 4294967296 does not fit")):
            with self.subTest(text):
                with self.assertRaises(order_text.TextError) as caught:
                    needs_text.parse(text)
                self.assertTrue(str(caught.exception).startswith(said),
                                str(caught.exception))


class Orders(unittest.TestCase):
    def test_filled_by_the_time(self):
        text = ("job 90 31 - 2\njob 91 1 5\nprocessor 8\njob 31 100000 -\n"
                "job 1 91 -\njob 100000 -5 - 16\n")
        order = needs_text.order(text, numbers(THREE))
        self.assertEqual(order.jobs, ((90, 31, 4, 2), (91, 1, 5, 1),
                                      (31, 100000, 4, 1), (1, 91, 2, 1),
                                      (100000, -5, 8, 16)))
        self.assertEqual(order.memories, (8,))

    def test_nothing_left(self):
        text = order_text.text(SESSIONS)
        self.assertEqual(needs_text.order(text, numbers(THREE)), SESSIONS)
        # A time out of range of a job with a need of its own is not listed.
        order = needs_text.order("job 0 5 1\njob 30 5 -\n", numbers(THREE))
        self.assertEqual(order.jobs, ((0, 5, 1, 1), (30, 5, 2, 1)))

    def test_refused(self):
        for lines, text, said in (
                (GAP, "job 1 5 -", "refused 17 11: no line meets length 11"),
                (TWICE, "job 1 5 -", "refused 18 10: two lines meet length 10"),
                ([], "", "refused 17 1: no line meets length 1"),
                (GAP, "job 0 5 -", "refused 17 11: no line meets length 11"),
                (THREE, "job 0 5 -", "refused 5 1: job 1: time 0 is not 1 to 100000"),
                (THREE, "job 1 5 3\njob 1 5 -\nprocessor 8\njob 100001 5 -",
                 "refused 5 2: job 3: time 100001 is not 1 to 100000")):
            with self.subTest(text, lines=lines):
                with self.assertRaises(needs_text.RefusedError) as caught:
                    needs_text.order(text, numbers(lines))
                self.assertEqual(str(caught.exception), said)

    def test_without_a_table(self):
        for text, job in (("job 1 5 -", 1), ("job 1 5 2\njob 1 5 - 3", 2)):
            with self.assertRaises(order_text.TextError) as caught:
                order_text.parse(text)
            self.assertIn(f"job {job}: its need is left to a table, and none is given",
                          str(caught.exception))
        for text in ("job - 5 1", "job 1 - 1", "job 1 5 1 -", "processor -",
                     "job 1 5 --"):
            with self.assertRaises(order_text.TextError) as caught:
                order_text.lists(text)
            self.assertIn("is not a whole number", str(caught.exception))


class Program(unittest.TestCase):
    def test_pack(self):
        text = TEXT.read_bytes()
        for more, jobs_first in (((), False), (("--jobs-first",), True)):
            wanted = 0, order_file.encode(SESSIONS, jobs_first), ""
            self.assertEqual(run(text, "pack", *more, "--needs", TABLE), wanted)
            self.assertEqual(run(text, "pack", "--needs", TABLE, *more), wanted)
        self.assertEqual(run(wanted[1], "unpack"),
                         (0, order_text.text(SESSIONS).encode(), ""))

    def test_refused(self):
        for data, table, said in (
                (b"job 1 5 -", b"line 1 50 2\nline 52 100000 4\n",
                 "order-file: table: refused 17 51: no line meets length 51\n"),
                (b"job 1 5 4", b"line 1 10 2\nline 10 100000 4\n",
                 "order-file: table: refused 18 10: two lines meet length 10\n"),
                (b"job 1 5 4\njob 0 5 -", b"line 1 100000 4\n",
                 "order-file: table: refused 5 1: job 2: time 0 is not 1 to 100000\n"),
                (b"job 1 5 -", b"line 1 100000\n",
                 "order-file: table: line 1: after 'line' stand 3 (from, to, need), "
                 "not 2\n"),
                (b"job 1 5 -", b"line \xff", "order-file: table is no text\n"),
                (b"job 1 5", b"line 1 100000 4\n",
                 "order-file: line 1: after 'job' stand 3 or 4 (time, due time, need, "
                 "maker), not 2\n")):
            with self.subTest(said):
                self.assertEqual(pack(data, table), (1, b"", said))

    def test_no_table(self):
        code, data, said = run(b"processor 8\njob 1 5 -\n", "pack")
        self.assertEqual((code, data), (1, b""))
        self.assertEqual(said, "order-file: job 1: its need is left to a table, and "
                         "none is given (order-file pack --needs TABLE)\n")
        code, data, said = run(b"", "pack", "--needs", "/nowhere/a.needs")
        self.assertEqual((code, data), (1, b""))
        self.assertIn("/nowhere/a.needs", said)
        for arguments in (("pack", "--needs"), ("unpack", "--needs", TABLE)):
            code, data, said = run(b"", *arguments)
            self.assertEqual((code, data), (1, b""))
            self.assertTrue(said.startswith("usage:"))

    def test_note(self):
        # An order that a reader refuses is packed all the same.
        code, data, said = pack(b"processor 8\njob 91 5 -\n", b"line 1 100000 9\n")
        self.assertEqual((code, order_file.read(data)), (0, (7, 1)))
        self.assertIn("refused 7 1", said)


class Example(unittest.TestCase):
    def test_sessions(self):
        self.assertEqual(least.least(SESSIONS), 0)
        self.assertEqual(answers.try_bound(SESSIONS, 0), ["meets"])
        self.assertEqual(answers.try_bound(SESSIONS, -1), [
            "tight stairs 190", "memory 8 due 190: owed 191, on hand 190"])
        # All sessions on either processor would be in time.
        freely = [job._replace(need=4) for job in SESSIONS.jobs]
        self.assertLess(least.least(SESSIONS._replace(jobs=tuple(freely))), 0)


if __name__ == "__main__":
    unittest.main()
