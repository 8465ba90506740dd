"""The order file: places, counts, lengths, and "Reading a written order yields
the same order."
"""

import struct
import unittest

import cases_read
import draw
import known_orders
import order_file

C_FILE = bytes.fromhex(
    "04000000" "03000000" "0A000000" "04000000" "01000000" "00000000" "04000000"
    "0100" "0100")
# As document 01 prints it: without a maker.
C_OF_DOCUMENT_01 = C_FILE[:16] + C_FILE[20:]


def trailer(processors_at, jobs_at, m, n):
    return struct.pack("<IIHH", processors_at, jobs_at, m, n)


class File(unittest.TestCase):
    def refused(self, data, number, carried=0):
        self.assertEqual(order_file.read(data), (number, carried), data.hex())

    def test_c_as_printed(self):
        self.assertEqual(order_file.encode(known_orders.C), C_FILE)
        self.assertEqual(order_file.read(C_FILE), known_orders.C)

    def test_12_bytes_a_job(self):
        self.refused(C_OF_DOCUMENT_01, 12)
        old = cases_read.without_makers
        self.assertEqual(old(known_orders.C), C_OF_DOCUMENT_01)
        for order in known_orders.NAMED.values():
            for jobs_first in (False, True):
                self.refused(old(order, jobs_first), 12)

    def test_where_the_maker_stands(self):
        # "as 4 further bytes at the end of each job in the file"
        order = known_orders.order([9], [(1, 2, 3, 4), (5, 6, 7, 8)])
        lists = [9, 1, 2, 3, 4, 5, 6, 7, 8]
        self.assertEqual(order_file.encode(order),
                         struct.pack("<9I", *lists) + trailer(0, 4, 1, 2))
        self.assertEqual(order_file.encode(order, True),
                         struct.pack("<9I", *lists[1:], 9) + trailer(32, 0, 1, 2))
        for jobs_first in (False, True):
            self.assertEqual(order_file.read(order_file.encode(order, jobs_first)),
                             order)

    def test_maker_is_unsigned(self):
        for maker in (0, 17, 4294967295, 2147483649):
            data = struct.pack("<IIiII", 8, 1, 5, 1, maker) + trailer(0, 4, 1, 1)
            self.refused(data, 13, 1)
            self.assertEqual(order_file.lists(data).jobs[0].maker, maker)

    def test_round_trip(self):
        of = draw.Draw(11)
        for _ in range(500):
            order = draw.tiny(of)
            for jobs_first in (False, True):
                data = order_file.encode(order, jobs_first)
                self.assertEqual(len(data), order_file.length(order))
                self.assertEqual(order_file.read(data), order)

    def test_due_is_twos_complement(self):
        data = bytes.fromhex("01000000" "01000000" "fbffffff" "01000000" "01000000")
        order = order_file.read(data + trailer(0, 4, 1, 1))
        self.assertEqual(order, known_orders.DUE_MINUS_5)

    def test_time_is_unsigned(self):
        data = bytes.fromhex("01000000" "ffffffff" "01000000" "01000000" "01000000")
        self.refused(data + trailer(0, 4, 1, 1), 5, 1)

    def test_refused_orders(self):
        for story, order, number, carried in known_orders.REFUSED:
            for jobs_first in (False, True):
                with self.subTest(story):
                    self.refused(order_file.encode(order, jobs_first),
                                 number, carried)

    def test_lengths(self):
        for length in range(12):
            self.refused(bytes(length), 12)
        self.refused(bytes(12), 1)
        for length in range(13, 21):
            self.refused(bytes(length), 12)
        for length in range(784, 901):
            answer = order_file.read(cases_read.of_length(length))
            if length % 4 == 0 and length <= 844:
                self.assertEqual(answer[2:], ((length - 780) // 4, 48))
            else:
                self.assertEqual(answer, (12, 0))

    def test_longest_and_shortest(self):
        # A file of 845 to 847 bytes has no lists that agree, so of these lengths
        # the length alone is asked.
        self.assertEqual([count for count in range(1000)
                          if order_file.of_a_length(count)], list(range(12, 845)))
        self.assertEqual(order_file.length(known_orders.FULL), 844)

    def test_848_bytes_that_agree(self):
        order = known_orders.order([4] * 17, [known_orders.GOOD] * 48)
        data = order_file.encode(order)
        self.assertEqual(len(data), 848)
        self.assertTrue(order_file.agree(data))
        self.refused(data, 12)

    def test_empty_lists(self):
        job, memory = struct.pack("<4I", 1, 5, 1, 1), bytes(4)
        for places in ((0, 0), (16, 0)):
            self.refused(job + trailer(*places, 0, 1), 1)
        for places in ((4, 0), (12, 12), (12, 0), (0, 12), (0, 16), (16, 16),
                       (1, 0), (4294967295, 0), (32, 0)):
            self.refused(job + trailer(*places, 0, 1), 12)
        for places in ((0, 4), (0, 0)):
            self.refused(memory + trailer(*places, 1, 0), 3)
        for places in ((4, 0), (4, 4), (0, 8), (0, 1), (0, 4294967295)):
            self.refused(memory + trailer(*places, 1, 0), 12)
        self.refused(trailer(0, 0, 0, 0), 1)
        for places in ((0, 12), (12, 0), (0, 4294967295), (1, 1)):
            self.refused(trailer(*places, 0, 0), 12)

    def test_12_precedes_all(self):
        self.refused(cases_read.with_trailer(
            known_orders.order([8], [known_orders.BAD_TIME]), (0, 5)), 12)
        self.refused(cases_read.with_trailer(
            known_orders.order([], [known_orders.GOOD]), (4, 0)), 12)
        self.refused(cases_read.with_trailer(
            known_orders.order([8], [known_orders.BAD_MAKER]), (0, 5)), 12)
        self.refused(trailer(0, 0, 17, 0), 12)

    def test_writer(self):
        for name, order in known_orders.NAMED.items():
            length = order_file.length(order)
            self.assertEqual(order_file.write(order, length - 1), (9, 0))
            for room in (length, length + 1, 900):
                data = order_file.write(order, room)
                self.assertEqual(len(data), length)
                self.assertEqual(order_file.read(data), order)
        bad = known_orders.order([8], [known_orders.BAD_NEED])
        self.assertEqual(order_file.write(bad, 0), (7, 1))
        bad = known_orders.order([8], [known_orders.HIGH_MAKER])
        self.assertEqual(order_file.write(bad, 0), (13, 1))
