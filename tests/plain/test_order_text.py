"""Orders as text, and the program order-file."""

import os
import pathlib
import subprocess
import unittest

import draw
import known_orders
import order_file
import order_text

PROGRAM = pathlib.Path(__file__).resolve().parent / "order-file"


def run(data, *arguments):
    done = subprocess.run([PROGRAM, *arguments], input=data, capture_output=True,
                          env={**os.environ, "PYTHONDONTWRITEBYTECODE": "1"})
    return done.returncode, done.stdout, done.stderr.decode()


class Text(unittest.TestCase):
    def test_there_and_back(self):
        of = draw.Draw(21)
        for _ in range(200):
            order = draw.tiny(of)
            self.assertEqual(order_text.parse(order_text.text(order)), order)

    def test_lines_in_any_order_and_comments(self):
        text = "# first\n\njob 3 3 8 # a job\nprocessor 8\n  job 3 3 4\r\n" \
               "processor 4\njob 2 4 2"
        self.assertEqual(order_text.parse(text), known_orders.A)

    def test_makers(self):
        for more, maker in (("", 1), (" # 7", 1), (" 1", 1), (" 2", 2), (" 16", 16),
                            (" 0", 0), (" 17", 17), (" 4294967295", 4294967295)):
            order = order_text.parse("job 3 10 4" + more)
            self.assertEqual(order.jobs, ((3, 10, 4, maker),))

    def test_maker_1_is_left_out(self):
        # The texts of document 01's cases have none.
        self.assertEqual(order_text.text(known_orders.C),
                         "processor 4\njob 3 10 4\n")
        self.assertEqual(order_text.text(known_orders.MAKERS), (
            "processor 8\nprocessor 4\njob 3 4 8\njob 2 2 4 2\njob 2 4 4 2\n"
            "job 1 4 8 16\n"))
        for maker in (0, 2, 16, 17, 4294967295):
            order = known_orders.order([4], [(3, 10, 4, maker)])
            self.assertEqual(order_text.text(order),
                             f"processor 4\njob 3 10 4 {maker}\n")

    def test_malformed(self):
        for text, said in (
                ("memory 4", "line 1: a line begins with"),
                ("processor", "line 1: after 'processor' stand 1 (memory), not 0"),
                ("processor 4\njob 3 10", "line 2: after 'job' stand 3 or 4 "
                 "(time, due time, need, maker), not 2"),
                ("job 3 10 4 1 1", "line 1: after 'job' stand 3 or 4"),
                ("job 3 10 4 one", "line 1: maker 'one' is not a whole number"),
                ("job 3 10 4 -1", "line 1: maker -1 does not fit"),
                ("job 3 10 4 4294967296", "line 1: maker 4294967296 does not fit"),
                ("processor 1 2", "line 1: after 'processor' stand 1"),
                ("processor four", "line 1: memory 'four' is not a whole number"),
                ("processor 1_0", "line 1: memory '1_0' is not"),
                ("processor +1", "line 1: memory '+1' is not"),
                ("processor 1.5", "line 1: memory '1.5' is not"),
                ("processor -1", "line 1: memory -1 does not fit"),
                ("processor 4294967296", "line 1: memory 4294967296 does not fit"),
                ("job 1 2147483648 0", "line 1: due time 2147483648 does not fit"),
                ("job 1 -2147483649 0", "line 1: due time -2147483649 does not"),
                ("job 4294967296 0 0", "line 1: time 4294967296 does not fit"),
                ("processor 1\n" * 65536, "65536 processors do not fit")):
            with self.subTest(text[:20]):
                with self.assertRaises(order_text.TextError) as caught:
                    order_text.parse(text)
                self.assertTrue(str(caught.exception).startswith(said),
                                str(caught.exception))

    def test_program(self):
        for order in (known_orders.A, known_orders.MAKERS):
            text = order_text.text(order).encode()
            for arguments, jobs_first in ((["pack"], False),
                                          (["pack", "--jobs-first"], True)):
                code, data, said = run(text, *arguments)
                self.assertEqual((code, said), (0, ""))
                self.assertEqual(data, order_file.encode(order, jobs_first))
                self.assertEqual(run(data, "unpack"), (0, text, ""))

    def test_program_with_refused_orders(self):
        code, data, said = run(b"processor 8\njob 0 5 1\n", "pack")
        self.assertEqual((code, order_file.read(data)), (0, (5, 1)))
        self.assertIn("refused 5 1", said)
        code, data, said = run(data, "unpack")
        self.assertEqual((code, data), (0, b"processor 8\njob 0 5 1\n"))
        for maker in (0, 17):
            text = b"processor 8\njob 1 5 1 %d\n" % maker
            code, data, said = run(text, "pack")
            self.assertEqual((code, order_file.read(data)), (0, (13, 1)))
            self.assertIn("refused 13 1", said)
            self.assertEqual(run(data, "unpack")[:2], (0, text))
        code, data, said = run(bytes(11), "unpack")
        self.assertEqual((code, data), (1, b""))
        self.assertIn("refused 12 0", said)
        code, data, said = run(b"job 1 1\n", "pack")
        self.assertEqual((code, data), (1, b""))
        self.assertIn("line 1: after 'job' stand 3", said)
        self.assertEqual(run(b"", "turn")[0], 1)
