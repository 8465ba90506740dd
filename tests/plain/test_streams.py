"""The stored streams: their form, and their tiny cases by search over all plans."""

import functools
import itertools
import unittest

import cases
import estimate
import held
import least
import orders
import search
import stream_form
import timed
import timed_search

BOUNDS_NEAR = 60


def of_answer(first):
    """How many lines an answer has, by its first line."""
    if first.startswith("order "):
        return 1 + sum(map(int, first.split()[1:]))
    return 1


def lines_told(record, first, *second):
    """How many lines a case tells, by its first two lines."""
    if record.kind == "between":
        return 1 + of_answer(*second)
    if record.kind == "book":
        return 2 * len(record.values[1])
    if record.kind == "block":
        return sum(access[0] in (stream_form.READ, stream_form.ROWS)
                   for access in record.values[0])
    if record.kind == "timed" and first == "meets":
        return 2
    return of_answer(first)


@functools.cache
def stored():
    """The records of the stored stream with the expected lines of each."""
    data = cases.STORED["stdin"].read_bytes()
    lines = cases.STORED["stdout"].read_text().splitlines()
    told, at = [], 0
    for record in stream_form.unpack(data):
        count = lines_told(record, *lines[at:at + 2])
        told.append((record, lines[at:at + count]))
        at += count
    assert at == len(lines)
    return told


def first_gap(lines):
    """The first length from 1 on that none of these lines meets."""
    gap = 1
    for first, last, _ in sorted(lines):
        if first <= gap:
            gap = max(gap, last + 1)
    return gap


def first_met_twice(lines):
    """The first length that two of these lines meet: one of them begins there."""
    return min((begin for begin, _, _ in lines
                if sum(first <= begin <= last for first, last, _ in lines) > 1),
               default=100001)


def a_minute_before(lows, times):
    """The times one minute before these on the path, None at its beginning: the last
    job above its low goes back."""
    above = [place for place, low in enumerate(lows) if times[place] > low]
    if not above:
        return None
    return [time - (place == above[-1]) for place, time in enumerate(times)]


def small(order):
    return order.m <= 3 and order.n <= 4 and all(
        job.time <= 3 for job in order.jobs)


class Form(unittest.TestCase):
    def test_there_and_back(self):
        data = cases.STORED["stdin"].read_bytes()
        self.assertEqual(stream_form.stream(stream_form.unpack(data)), data)

    def test_by_hand(self):
        order = orders.order([8, 4], [(3, -1, 8, 16)])
        record = stream_form.Record("check", (order, -2, [1, 1, 0]))
        self.assertEqual(stream_form.stream([record]).hex(" ", 4), (
            "02000000 02000000 01000000 08000000 04000000 03000000 ffffffff 08000000 "
            "10000000 feffffff 03000000 01000000 01000000 00000000 00000000"))
        record = stream_form.Record("read", (b"\x01\x02\x03",))
        self.assertEqual(stream_form.stream([record]).hex(),
                         "01000000" "03000000" "010203" "00000000")
        many = orders.order([4] * 17, [], m=4294967295)
        record = stream_form.Record("write", (many, 900))
        self.assertEqual(stream_form.pack(record).hex(),
                         "05000000" "ffffffff" "00000000" + "04000000" * 16
                         + "84030000")
        record = stream_form.Record("least", (orders.order([], []), 4))
        self.assertEqual(stream_form.pack(record).hex(" ", 4),
                         "03000000 00000000 00000000 04000000")
        record = stream_form.Record("plan", (orders.order([], []), -1, 4))
        self.assertEqual(stream_form.pack(record).hex(" ", 4),
                         "04000000 00000000 00000000 ffffffff 04000000")
        record = stream_form.Record(
            "compose", (orders.order([], []), -1, 2, 1, 0, (-5,) + (0,) * 15, 900))
        self.assertEqual(stream_form.pack(record).hex(" ", 4), (
            "06000000 00000000 00000000 ffffffff 02000000 01000000 00000000 "
            "fbffffff " + "00000000 " * 15 + "84030000"))
        record = stream_form.Record("parse", (orders.order([], []), -1, b"job"))
        self.assertEqual(stream_form.pack(record).hex(), (
            "07000000" "00000000" "00000000" "ffffffff" "03000000" "6a6f62"))

    def test_book_by_hand(self):
        order = orders.order([8], [(3, -1, 8, 16)])
        calls = (stream_form.Call(stream_form.LEAST, order, -2, 4),
                 stream_form.Call(stream_form.PLAN, orders.order([], []), 5, 0))
        record = stream_form.Record("book", (tuple(range(16, 0, -1)), calls))
        self.assertEqual(stream_form.pack(record).hex(" ", 4), (
            "08000000 10000000 0f000000 0e000000 0d000000 0c000000 0b000000 0a000000 "
            "09000000 08000000 07000000 06000000 05000000 04000000 03000000 02000000 "
            "01000000 02000000 01000000 01000000 01000000 08000000 03000000 ffffffff "
            "08000000 10000000 feffffff 04000000 02000000 00000000 00000000 05000000 "
            "00000000"))

    def test_times_by_hand(self):
        order = orders.order([8, 4], [(3, -1, 8, 16)])
        given = timed.times([7], [(1, 2), (3, 4294967295)])
        begin = ("02000000 01000000 08000000 04000000 03000000 ffffffff 08000000 "
                 "10000000 feffffff 07000000 01000000 02000000 03000000 ffffffff")
        for kind, rest, wanted in (
                ("asked", (), "09000000 " + begin),
                ("timed", (12,), "0a000000 " + begin + " 0c000000"),
                ("watch", ([],), "0b000000 " + begin + " 00000000"),
                ("watch", ([5, 6],), "0b000000 " + begin
                 + " 02000000 05000000 06000000")):
            record = stream_form.Record(kind, (order, -2, given, *rest))
            data = stream_form.pack(record)
            self.assertEqual(data.hex(" ", 4), wanted)
            self.assertEqual(stream_form.unpack(data + bytes(4)), [record])

    def test_times_beyond_the_arrays(self):
        many = orders.order([4] * 17, [(1, 1, 1)] * 49, 17, 49)
        given = timed.times(range(48), [(place, 99) for place in range(16)])
        data = stream_form.pack(stream_form.Record("asked", (many, 0, given)))
        self.assertEqual(len(data), 4 * (3 + 16 + 4 * 48 + 1 + 48 + 2 * 16))

    def test_classes_by_hand(self):
        order = orders.order([4, 8, 4, 2], [(3, -1, 8, 16)])
        record = stream_form.Record("classes", (order,))
        data = stream_form.pack(record)
        self.assertEqual(data.hex(" ", 4), (
            "0c000000 04000000 01000000 04000000 08000000 04000000 02000000 03000000 "
            "ffffffff 08000000 10000000"))
        self.assertEqual(stream_form.unpack(data + bytes(4)), [record])

    def test_needs_by_hand(self):
        for values, wanted in (
                (([1, 10, 4294967295, 11, 100000], [30000, 0, 100001], 80), (
                    "0d000000 05000000 01000000 0a000000 ffffffff 0b000000 a0860100 "
                    "03000000 30750000 00000000 a1860100 50000000")),
                (([], [], 0), "0d000000 00000000 00000000 00000000"),
                (([], [7], 2), "0d000000 00000000 01000000 07000000 02000000")):
            record = stream_form.Record("needs", values)
            data = stream_form.pack(record)
            self.assertEqual(data.hex(" ", 4), wanted)
            self.assertEqual(stream_form.unpack(data + bytes(4)), [record])

    def test_between_by_hand(self):
        order = orders.order([8, 4], [(3, -1, 8, 16), (1, 5, 0)])
        for values, wanted in (
                ((order, (7, 4294967295), -2), (
                    "0e000000 02000000 02000000 08000000 04000000 03000000 ffffffff "
                    "08000000 10000000 01000000 05000000 00000000 01000000 07000000 "
                    "ffffffff feffffff")),
                ((orders.order([], []), (), 2147483647),
                 "0e000000 00000000 00000000 ffffff7f")):
            record = stream_form.Record("between", values)
            data = stream_form.pack(record)
            self.assertEqual(data.hex(" ", 4), wanted)
            self.assertEqual(stream_form.unpack(data + bytes(4)), [record])

    def test_highs_beyond_the_array(self):
        many = orders.order([4] * 16, [(1, 1, 1)] * 48, 16, 65537)
        for count in (48, 49):
            data = stream_form.pack(stream_form.Record(
                "between", (many, (5,) * count, 0)))
            self.assertEqual(len(data), 4 * (3 + 16 + 4 * 48 + 48 + 1))

    def test_screens_by_hand(self):
        order = orders.order([8], [(3, -1, 8, 16)])
        words = "01000000 01000000 08000000 03000000 ffffffff 08000000 10000000"
        for kind, rest, wanted in (
                ("least", (4,), f"03000000 {words} 04000000"),
                ("plan", (-2, 4), f"04000000 {words} feffffff 04000000"),
                ("between", ((5,), -2), f"0e000000 {words} 05000000 feffffff")):
            for limits, head in ((orders.DOCK, ""), (orders.SCREEN, "0f000000 ")):
                record = stream_form.Record(kind, (order, *rest), limits)
                data = stream_form.pack(record)
                self.assertEqual(data.hex(" ", 4), head + wanted)
                self.assertEqual(stream_form.unpack(data + bytes(4)), [record])
        for kind, values in (("classes", (order,)), ("needs", ([], [], 0))):
            with self.assertRaises(AssertionError):
                stream_form.pack(stream_form.Record(kind, values, orders.SCREEN))

    def test_blocks_by_hand(self):
        write, load, read, rows = (stream_form.WRITE, stream_form.LOAD,
                                   stream_form.READ, stream_form.ROWS)
        for accesses, wanted in (
                ((), "10000000" "00000000"),
                (((write, 0, 2),), "10000000" "01000000" "01000200"),
                (((write, 251, 255), (load, b"\x01\x02\x03"), (read, 16, 31), (rows,),
                  (load, b""), (read, 0, 255)),
                 "10000000" "06000000" "01fbff00" "02000000" "03000000" "010203"
                 "03101f00" "04000000" "02000000" "00000000" "0300ff00")):
            record = stream_form.Record("block", (accesses,))
            data = stream_form.pack(record)
            self.assertEqual(data.hex(), wanted)
            self.assertEqual(stream_form.unpack(data + bytes(4)), [record])
        with self.assertRaises(AssertionError):
            stream_form.pack(stream_form.Record("block", ((),), orders.SCREEN))

    def test_sizes(self):
        data = cases.STORED["stdin"].read_bytes()
        self.assertLess(len(data), cases.BYTES_MOST)
        records = stream_form.unpack(data)
        self.assertEqual({record.kind for record in records}, set(stream_form.KINDS))
        self.assertEqual({record.kind for record in records
                          if record.limits == orders.SCREEN},
                         set(stream_form.KINDS) - set(stream_form.OF_NO_CALLER))
        listed = cases.STORED["list"].read_text().splitlines()
        self.assertEqual(len(listed), len(records))


class Stored(unittest.TestCase):
    def test_every_refusal_occurs(self):
        told = {limits: {} for limits in (orders.DOCK, orders.SCREEN)}
        for record, lines in stored():
            told[record.limits].setdefault(record.kind, set()).update(
                int(line.split()[1]) for line in lines if line.startswith("refused"))
        of_order, later = {*range(1, 8), 13}, {
            "read": {12}, "check": {8, 11}, "write": {9}, "least": {9}, "plan": {8, 9},
            "compose": {8, 9}, "parse": {8}, "book": {8, 9, 14}, "asked": {8, 15, 16},
            "timed": {8, 9, 15, 16}, "watch": {8, 11, 15, 16}, "between": {19}}
        self.assertEqual(told[orders.DOCK], {
            **{kind: of_order | numbers for kind, numbers in later.items()},
            "classes": of_order, "needs": {17, 18, 5, 9}, "block": set()})
        # 11 of a check with times has over 8,064 rows, for which no screen's case is.
        later["watch"].remove(11)
        self.assertEqual(told[orders.SCREEN], {
            kind: {1, 21, 3, 20, 5, 6, 13, 7} | numbers
            for kind, numbers in later.items()})

    def test_a_file_of_over_844_bytes(self):
        lengths = {len(record.values[0]) for record, _ in stored()
                   if record.kind == "read"}
        self.assertTrue({652, 653, 844, 845, 846, 848, 900} <= lengths)

    def test_tiny_cases_by_search(self):
        seen = {"least": 0, "plan": 0}
        for record, (line, *_) in stored():
            order = record.values[0]
            if (record.kind not in seen or line.startswith("refused")
                    or not small(order)):
                continue
            if record.kind == "least":
                number = int(line.split()[1])
                self.assertTrue(search.meets(order, number))
                self.assertFalse(search.meets(order, number - 1))
            elif abs(record.values[1]) < BOUNDS_NEAR:
                self.assertEqual(search.meets(order, record.values[1]),
                                 line == "meets", order)
            else:
                continue
            seen[record.kind] += 1
        self.assertGreater(min(seen.values()), 400)

    def test_late_jobs(self):
        # The job told is the first over its end, whatever the needs of the others.
        told = larger = 0
        for record, (line, *_) in stored():
            if record.kind == "plan" and line.startswith("tight job "):
                order, bound, _ = record.values
                over = [number for number, job in enumerate(order.jobs, 1)
                        if job.time > job.due + bound + 1]
                self.assertEqual(line, f"tight job {over[0]}")
                needs = [order.jobs[number - 1].need for number in over]
                told, larger = told + 1, larger + (max(needs) > needs[0])
        self.assertGreater(told, 300)
        self.assertGreater(larger, 80)

    def test_along_the_jobs_held(self):
        # Refusals, reasons and the least lateness of few minutes, each found along the
        # jobs as they lie by falling need.
        told = {"refused": 0, "tight": 0, "meets": 0, "least": 0}
        for record, (line, *_) in stored():
            if record.kind not in ("least", "plan"):
                continue
            order, word = record.values[0], line.split()[0]
            refused = held.refusal(order, record.limits)
            if refused:
                self.assertEqual(line, f"refused {refused.number} {refused.carried}")
            elif word in ("tight", "meets"):
                self.assertEqual(line, held.line(order, record.values[1]))
            elif sum(job.time for job in order.jobs) > least.STEPS_MOST:
                continue
            elif word == "least":
                self.assertEqual(line, f"least {held.least_lateness(order)}")
            told[word] += 1
        self.assertGreater(min(told.values()), 300)

    def test_tiny_cases_with_times_by_search(self):
        told = {"meets": 0, "tight": 0}
        for record, lines in stored():
            if (record.kind == "timed" and lines[0] in told
                    and small(record.values[0])
                    and abs(record.values[1]) < BOUNDS_NEAR):
                order, bound, given, _ = record.values
                self.assertEqual(timed_search.meets(order, bound, given),
                                 lines[0] == "meets", (order, bound, given))
                self.assertEqual(lines[1:], ["yes"] * (lines[0] == "meets"))
                told[lines[0]] += 1
        self.assertGreater(min(told.values()), 400)

    def test_checks_with_times(self):
        told = {kind: [lines[0] for record, lines in stored() if record.kind == kind]
                for kind in ("watch", "timed")}
        for answer in ("yes", "no"):
            self.assertGreater(told["watch"].count(answer), 400)
        self.assertEqual(told["watch"].count("refused 11 0"), 1)
        self.assertGreater(told["timed"].count("refused 9 0"), 100)

    def test_round_trip(self):
        for record, lines in stored():
            if record.kind == "write" and lines[0].startswith("file"):
                _, length, text = lines[0].split()
                data = bytes.fromhex(text)
                self.assertEqual(len(data), int(length))
                self.assertLessEqual(len(data), record.values[1])
                order = record.values[0]
                self.assertEqual(cases.answers.read(data)[0],
                                 f"order {order.m} {order.n}")

    def test_lines_there_and_back(self):
        composed = empty = read = other = 0
        for record, (line, *_) in stored():
            if record.kind == "compose" and line.startswith("line "):
                _, length, *text = line.split(" ", 2)
                text = "".join(text)
                self.assertEqual(len(text), int(length))
                self.assertLessEqual(len(text), record.values[-1])
                order, bound, kind, which, time, dues, _ = record.values
                told = {1: f"job {which} {time}",
                        2: " ".join(map(str, ("stairs", *dues[:which])))}
                self.assertEqual(cases.answers.parse(order, bound, text.encode()),
                                 [told[kind] if text else "none"])
                composed, empty = composed + (text != ""), empty + (text == "")
            elif record.kind == "parse" and not line.startswith("refused"):
                read, other = read + (line != "none"), other + (line == "none")
        self.assertGreater(min(composed, empty, read, other), 90)

    def test_books(self):
        # Each count by itself: what was handed in, and the times of all jobs of the
        # maker in the orders of which a plan was written.
        accepted = refused = 0
        for record, lines in stored():
            if record.kind != "book":
                continue
            given, calls = record.values
            written = []
            for call, line, book in zip(calls, lines[::2], lines[1::2]):
                if line.split()[0] in ("least", "meets"):
                    written += call.order.jobs
                    accepted += 1
                else:
                    refused += 1
                counts = [int(word) for word in book.split()[1:]]
                self.assertEqual(len(counts), 16)
                for maker, count in enumerate(counts, 1):
                    self.assertEqual(count, given[maker - 1] + sum(
                        job.time for job in written if job.maker == maker))
                self.assertEqual(sum(counts) - sum(given),
                                 sum(job.time for job in written))
                if line.startswith("refused 14"):
                    self.assertEqual(line, "refused 14 0")
        self.assertGreater(min(accepted, refused), 200)

    def test_classes(self):
        # Each processor of each class crossed off by itself: none is left.
        counts = {}
        for record, (line, *_) in stored():
            if record.kind != "classes" or line.startswith("refused"):
                continue
            word, *numbers = line.split()
            self.assertEqual(word, "classes")
            found = list(zip(map(int, numbers[::2]), map(int, numbers[1::2]),
                             strict=True))
            for (larger, _), (smaller, _) in zip(found, found[1:]):
                self.assertGreater(larger, smaller)
            left = list(record.values[0].memories)
            for memory, count in found:
                self.assertGreater(count, 0)
                for _ in range(count):
                    left.remove(memory)
            self.assertEqual(left, [])
            counts[len(found)] = counts.get(len(found), 0) + 1
        self.assertGreater(min(counts[k] for k in (1, 2, 3, 4)), 20)
        self.assertEqual(max(counts), 16)

    def test_needs(self):
        # Each answer by the lines that can meet a length, and what it says of them.
        told = {"needs": 0, 17: 0, 18: 0, 5: 0, 9: 0}
        for record, (line, *_) in stored():
            if record.kind != "needs":
                continue
            table, lengths, room = record.values
            lines = [line for line in list(zip(*[iter(table)] * 3))[:32]
                     if 1 <= line[0] <= line[1] <= 100000]
            word, *numbers = line.split()
            numbers = [int(number) for number in numbers]
            kind = word if word == "needs" else numbers[0]
            self.assertEqual(first_gap(lines), numbers[1] if kind == 17 else 100001)
            if kind != 17:
                self.assertEqual(first_met_twice(lines),
                                 numbers[1] if kind == 18 else 100001)
            if kind not in (17, 18):
                self.list_is(kind, lines, lengths, room, numbers)
            told[kind] += 1
        self.assertGreater(min(told.values()), 25)

    def list_is(self, kind, lines, lengths, room, numbers):
        bad = [place for place, length in enumerate(lengths, 1)
               if length < 1 or length > 100000]
        if bad:
            self.assertEqual(numbers, [5, bad[0]])
        elif room < len(lengths):
            self.assertEqual(numbers, [9, 0])
        else:
            self.assertEqual(kind, "needs")
            self.assertEqual([[number] for number in numbers], [
                [need for first, last, need in lines if first <= length <= last]
                for length in lengths])

    def test_between(self):
        # Both answers refuse alike; an order is met just where the number lies between.
        told = {"order": 0, "nowhere": 0, "refused": 0}
        for record, (first, *rest) in stored():
            if record.kind == "between":
                word = rest[0].split()[0]
                if word == "refused":
                    self.assertEqual(rest, [first])
                else:
                    below, above = map(int, first.split()[1:])
                    self.assertEqual(word == "order",
                                     below <= record.values[2] <= above)
                if word == "order":
                    self.is_first_met(*record.values, below, rest)
                told[word] += 1
        self.assertGreater(min(told.values()), 80)

    def is_first_met(self, order, highs, number, below, lines):
        """It is one of the path, and a minute before the least lateness is one less."""
        lows = [job.time for job in order.jobs]
        times = [int(line.split()[1]) for line in lines[1 + order.m:]]
        self.assertEqual(lines, cases.answers.order_lines(
            estimate.with_times(order, times)))
        behind = list(itertools.dropwhile(lambda ends: ends[1] == ends[2],
                                          zip(lows, times, highs)))
        for low, time, high in behind[:1]:
            self.assertTrue(low <= time < high)
        for low, time, _ in behind[1:]:
            self.assertEqual(time, low)
        before = a_minute_before(lows, times)
        self.assertEqual(before is None, number == below)
        for at, wanted in ((times, number), (before, number - 1)):
            if at:
                self.assertEqual(wanted, held.least_lateness(
                    estimate.with_times(order, at)))

    def test_rooms_and_lengths_in_reach(self):
        for record, _ in stored():
            if record.kind in ("read", "parse"):
                self.assertLessEqual(len(record.values[-1]), 900)
            elif record.kind in ("write", "compose"):
                self.assertLessEqual(record.values[-1], 900)
            elif record.kind == "book":
                for call in record.values[1]:
                    self.assertLessEqual(call.room, 12104)
                    self.assertGreaterEqual(call.room, 0)
            elif record.kind == "check":
                self.assertLessEqual(len(record.values[2]), 12104)
            elif record.kind == "watch":
                self.assertLessEqual(len(record.values[3]), 32264)
            elif record.kind == "timed":
                self.assertTrue(0 <= record.values[3] <= 32264)
            elif record.kind == "needs":
                table, lengths, room = record.values
                self.assertLessEqual(len(table), 120)
                self.assertLessEqual(len(lengths), 80)
                self.assertTrue(0 <= room <= 80)
            elif record.kind == "block":
                for which, *values in record.values[0]:
                    if which == stream_form.LOAD:
                        self.assertLessEqual(len(*values), 220)
            elif record.kind in ("asked", "classes", "between"):
                continue
            else:
                self.assertLessEqual(record.values[-1], 12104)
                self.assertGreaterEqual(record.values[-1], 0)


if __name__ == "__main__":
    unittest.main()
