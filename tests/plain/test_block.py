"""The register block: worked sequences, each byte and command, and the stored cases
looked up in what was written before each read."""

import functools
import unittest
from unittest import mock

import answers
import block
import block_answers
import broken_block
import cases_block
import draw
import flow
import forced
import judge
import known_block
import known_orders
import order_file
import orders
from known_block import (ALL, ALLOW, CHECK, FILE_C, FORBID, HEAD, ROW, RUN_CLEAR,
                         RUN_LEAST, RUN_PLAN, TABLE, bound, given, length, line,
                         row_number, run)
from orders import SCREEN
from stream_form import LOAD, READ, ROWS, WRITE
from test_join import all_amounts
from test_streams import stored

OF_C = [*given(FILE_C), *row_number(1)]


def after(*accesses):
    """The block that these accesses lead to from a cleared one."""
    held = block.CLEARED
    for access in accesses:
        held, _ = block_answers.step(held, access)
    return held


def told(*accesses):
    return block_answers.told(accesses)


def number_told(*accesses):
    """The number of the refusal, None where it is done."""
    flags, number = block.seen(after(*accesses))[1:3]
    assert flags % 4 in (1, 2) and (flags % 4 == 2 or number == 0)
    return number if flags % 4 == 2 else None


class Known(unittest.TestCase):
    def test_sequences(self):
        for story, steps in known_block.SEQUENCES:
            held = block.CLEARED
            for accesses, wanted in steps:
                found = []
                for access in accesses:
                    held, lines = block_answers.step(held, access)
                    found += lines
                with self.subTest(story, accesses=accesses):
                    self.assertEqual(found, wanted)

    def test_files_by_hand(self):
        self.assertEqual(order_file.encode(known_orders.C), FILE_C)
        self.assertEqual(order_file.encode(known_orders.C, True),
                         known_block.JOBS_FIRST_C)
        full = known_block.FULL
        self.assertEqual((len(order_file.encode(full)), orders.rows_needed(full)),
                         (220, 180))

    def test_plans(self):
        for story, order, at, rows in known_block.PLANS:
            held = after(*given(order_file.encode(order)), *bound(at), RUN_PLAN)
            self.assertTrue(forced.forced(order, at), story)
            for number in (*range(len(rows) + 2), *cases_block.NO_ROWS):
                shown = rows[number - 1] if 1 <= number <= len(rows) else (0, 0, 0, 0)
                wanted = b"".join(part.to_bytes(4, "little") for part in shown)
                for access in row_number(number):
                    held, _ = block_answers.step(held, access)
                with self.subTest(story, number=number):
                    self.assertEqual(block.seen(held)[16:32], wanted)

    def test_many_rows(self):
        order = known_block.MANY
        held = after(*given(order_file.encode(order)), RUN_PLAN)
        numbers = block_answers.rows_read(held)
        rows = list(zip(*[iter(numbers)] * 4))
        self.assertEqual(len(rows), 43)
        self.assertIsNone(judge.broken(order, 0, rows, 43))
        self.assertTrue(forced.forced(order, 0))

    def test_flags(self):
        for before, value, wanted in known_block.FLAGS:
            held = after(*OF_C, *cases_block.FLAGS_BY[before])
            with self.subTest(before=before, value=value):
                self.assertEqual(block.seen(held)[1], before)
                found = block.write(held, 1, value)
                self.assertEqual(block.seen(found)[1], wanted)
                # Nothing else changes.
                self.assertEqual(block.seen(found)[2:], block.seen(held)[2:])
                self.assertEqual(found.rows, held.rows)

    def test_lengths(self):
        data = order_file.encode(known_block.FULL)
        for count, wanted in known_block.LENGTHS:
            for value in (1, 2):
                with self.subTest(count=count, command=value):
                    self.assertEqual(wanted, number_told(
                        *given(data), *bound(6), *length(count), run(value)))

    def test_a_length_over_220(self):
        # 12 before all.
        for story, data, number in known_block.OF_220:
            self.assertEqual(len(data), 220)
            for count, wanted in ((220, number), (221, 12), (476, 12), (65535, 12)):
                for value in (1, 2):
                    with self.subTest(story, count=count, command=value):
                        self.assertEqual(wanted, number_told(
                            *given(data), *length(count), *bound(10000001), run(value)))

    def test_files(self):
        for story, data, *wanted in known_block.FILES:
            for at, numbers in zip((0, -100, 10000001), wanted, strict=True):
                with self.subTest(story, at=at):
                    self.assertEqual(numbers, tuple(
                        number_told(*given(data), *bound(at), run(value))
                        for value in (1, 2)))

    def test_bounds(self):
        for at, wanted in known_block.BOUNDS:
            with self.subTest(at=at):
                self.assertEqual(wanted, number_told(*OF_C, *bound(at), RUN_PLAN))
                self.assertIsNone(number_told(*OF_C, *bound(at), RUN_LEAST))


class Table(unittest.TestCase):
    def test_what_keeps_a_write(self):
        for story, begin in cases_block.STATES:
            held = after(*begin)
            before = block.seen(held)
            for address in range(1, 256):
                for value in (0, 1, 90, 255):
                    found = block.seen(block.write(held, address, value))
                    if 4 <= address <= 9 or 32 <= address <= 251:
                        wanted = {address: value}
                    elif address in (10, 11):
                        row = b"".join(
                            part.to_bytes(4, "little") for part in (
                                block.rows(known_orders.C, -8)[0] if
                                (address, value) in ((10, 1), (11, 0))
                                and held.rows else (0, 0, 0, 0)))
                        wanted = {address: value, **dict(enumerate(row, 16))}
                    elif address == 3:
                        wanted = {3: value & 1}
                    elif address == 1:
                        wanted = {1: before[1] & ~value}
                    else:
                        wanted = {}
                    with self.subTest(story, address=address, value=value):
                        self.assertEqual(found, bytes(
                            wanted.get(place, byte)
                            for place, byte in enumerate(before)))

    def test_other_commands(self):
        # From each state, allowed or not: refused, number 0, no lateness, no row.
        for story, begin in cases_block.STATES:
            for allowed in (ALLOW, FORBID):
                held = after(*begin, allowed)
                before = block.seen(held)
                for value in {*range(256)} - {1, 2, 3}:
                    found = block.write(held, 0, value)
                    flag = 2 | before[1] & 4 | 4 * before[3]
                    with self.subTest(story, value=value):
                        self.assertEqual(block.seen(found), bytes([0, flag, 0])
                                         + before[3:12] + bytes(20) + before[32:])
                        self.assertEqual(found.rows, ())

    def test_clear(self):
        for story, begin in cases_block.STATES:
            held = after(*begin, (WRITE, 251, 9), RUN_CLEAR)
            with self.subTest(story):
                self.assertEqual(block.seen(held), bytes(256))
                for number in (1, 2, 180):
                    asked = after(*begin, RUN_CLEAR, *row_number(number))
                    self.assertEqual(block.seen(asked)[16:32], bytes(16))

    def test_rows_stay(self):
        # "rows then stay until the next command": whatever else is written.
        held = after(*OF_C, run(9), RUN_LEAST)
        self.assertEqual(block.seen(held)[1], 1)
        for address in {*range(1, 256)} - {10, 11}:
            for value in (0, 255):
                with self.subTest(address=address, value=value):
                    found = block.seen(block.write(held, address, value))
                    self.assertEqual(found[12:32], block.seen(held)[12:32])
        self.assertEqual(block.seen(held)[12:32],
                         bytes.fromhex("F8FFFFFF" + known_block.ROW_C))

    def test_allowed_or_not(self):
        # Finished and refused, the interrupt allowed or not, set before or not.
        for value, flag in ((1, 1), (2, 1), (9, 2)):
            for allowed, is_set in cases_block.INTERRUPTS:
                held = after(*cases_block.with_interrupt(allowed, is_set), run(value))
                with self.subTest(value=value, allowed=allowed, is_set=is_set):
                    self.assertEqual(block.seen(held)[1],
                                     flag + 4 * (allowed or is_set))

    def test_reads_change_nothing(self):
        for _, begin in cases_block.STATES:
            self.assertEqual(told(*begin, ALL),
                             told(*begin, ALL, HEAD, CHECK, ALL)[-1:])
            held = after(*begin)
            self.assertEqual(after(*begin, ALL, TABLE, ROW, CHECK), held)
            self.assertEqual(bytes(block.read(held, address)
                                   for address in range(256)), block.seen(held))

    def test_row_number_half_written(self):
        held = after(*OF_C, RUN_PLAN)
        for access, wanted in (((WRITE, 11, 1), bytes(16)),
                               ((WRITE, 10, 0), bytes(16)),
                               ((WRITE, 11, 0), bytes(16)),
                               ((WRITE, 10, 1), bytes.fromhex(known_block.ROW_C))):
            held, _ = block_answers.step(held, access)
            self.assertEqual(block.seen(held)[16:32], wanted)

    def test_bytes_behind_the_length(self):
        for more in (bytes(10), b"\xff" * 188):
            self.assertEqual(told((LOAD, FILE_C + more), *length(32), RUN_LEAST, HEAD),
                             line("00010000 00000000 2000 0000 F8FFFFFF"))


class Forced(unittest.TestCase):
    def test_by_all_amounts(self):
        of, seen = draw.Draw(602), {True: 0, False: 0}
        for _ in range(700):
            order = of.one_of((draw.tiny, draw.crowded, draw.stepped))(of)
            at = answers.least.least(order) + of.below(2)
            is_forced = forced.forced(order, at)
            self.assertEqual(is_forced, len(all_amounts(order, at)) == 1)
            if is_forced:
                amounts, = all_amounts(order, at)
                self.assertEqual(flow.amounts(order, at), amounts)
            seen[is_forced] += len({job.due for job in order.jobs}) > 1
        self.assertGreater(min(seen.values()), 30)

    def test_known(self):
        for order, at, wanted in (
                (known_orders.A, 0, False), (known_orders.C, -8, True),
                (known_orders.C, 9, True), (known_block.FULL, 6, False),
                (known_orders.D, -3, True)):
            self.assertEqual(forced.forced(order, at), wanted)


class History:
    """What a byte reads, looked up in the accesses before it: no block is kept."""

    def __init__(self, accesses):
        writes = []
        for which, *values in accesses:
            if which == WRITE:
                writes.append(tuple(values))
            elif which == LOAD:
                writes += enumerate(*values, 32)
        # All before the last clear is forgotten.
        clears = [place for place, one in enumerate(writes) if one == (0, block.CLEAR)]
        self.writes = writes[clears[-1] + 1:] if clears else writes

    def stored(self, first, last, before=None):
        """The last value written to each of these, 0 where there is none."""
        values = dict(self.writes[:before])
        return bytes(values.get(address, 0) for address in range(first, last + 1))

    def is_allowed(self, before=None):
        return self.stored(3, 3, before)[0] % 2

    def commands(self):
        """The places of all commands."""
        return [place for place, (at, _) in enumerate(self.writes) if at == 0]

    def cleared(self, place, bit):
        """Is a 1 written to this flag after this place?"""
        return any(at == 1 and value >> bit & 1 for at, value in self.writes[place:])

    def outcome(self, place):
        """The number of a refusal, or the lateness used and the order."""
        value = self.writes[place][1]
        count = int.from_bytes(self.stored(8, 9, place), "little")
        if value not in (block.PLAN, block.LEAST):
            return 0
        return outcome(value, self.stored(32, 251, place)[:count], count,
                       self.stored(4, 7, place))

    def flags(self):
        commands = self.commands()
        if not commands:
            return 0
        flag = int(isinstance(self.outcome(commands[-1]), int))
        raised = any(self.is_allowed(place) and not self.cleared(place, 2)
                     for place in commands)
        return (0 if self.cleared(commands[-1], flag) else 1 << flag) + 4 * raised

    def seen(self):
        last = self.commands()[-1:]
        found = self.outcome(*last) if last else 0
        number, used, row = found, 0, bytes(16)
        if not isinstance(found, int):
            number, (used, order) = 0, found
            place = int.from_bytes(self.stored(10, 11), "little") - 1
            rows = block.rows(order, used)
            if 0 <= place < len(rows):
                row = b"".join(part.to_bytes(4, "little") for part in rows[place])
        return (bytes([0, self.flags(), number, self.is_allowed()]) + self.stored(4, 11)
                + used.to_bytes(4, "little", signed=True) + row + self.stored(32, 251)
                + bytes(4))


@functools.cache
def outcome(value, data, count, bound):
    """What the screen's own calls answer, each after the reader's 12."""
    at = int.from_bytes(bound, "little", signed=True)
    if count > 220:
        return 12
    order = order_file.read(data, SCREEN)
    if isinstance(order, orders.Refusal):
        return order.number
    lines = (answers.plan(order, at, 720, SCREEN) if value == block.PLAN
             else answers.least_lateness(order, 720, SCREEN))
    word, *words = lines[0].split()
    if word == "refused":
        return int(words[0])
    if word == "tight":
        return 10
    return (at if word == "meets" else int(words[0])), order


class Stored(unittest.TestCase):
    def blocks(self):
        return [(record.values[0], lines) for record, lines in stored()
                if record.kind == "block"]

    def test_by_history(self):
        # Where a read tells more than two bytes, by looking back.
        count = 0
        for accesses, lines in self.blocks():
            lines = iter(lines)
            for place, (which, *values) in enumerate(accesses):
                said = next(lines) if which in (READ, ROWS) else None
                if which == READ and values[1] - values[0] > 2:
                    first, last = values
                    self.assertEqual(said, "bytes " + History(
                        accesses[:place]).seen()[first:last + 1].hex())
                    count += 1
        self.assertGreater(count, 1000)

    def test_nothing_free_is_told(self):
        # Rows where there is one choice of amounts alone.
        rows = 0
        for accesses, lines in self.blocks():
            walk = cases_block.Walk()
            for access in accesses:
                self.assertTrue(walk.is_settled(access))
                walk.add(access)
                rows += (access[0] == READ and access[1] <= 16 and 31 <= access[2]
                         and walk.held.rows != () and any(block.row(walk.held)))
        self.assertGreater(rows, 300)

    def test_every_outcome(self):
        # Of each command, the interrupt set and not.
        seen = {}
        for accesses, _ in self.blocks():
            held = block.CLEARED
            for access in accesses:
                held, _ = block_answers.step(held, access)
                if access[:2] == (WRITE, 0) and access[2] != block.CLEAR:
                    told = held.number if held.refused else None
                    key = access[2] if access[2] in (1, 2) else 0
                    seen.setdefault(key, set()).add((told, held.interrupt))
        of_order = {1, 3, 5, 6, 7, 12, 13, 21, None}
        self.assertEqual(seen, {
            key: {(number, is_set) for number in numbers for is_set in (False, True)}
            for key, numbers in ((0, {0}), (1, of_order | {8, 10}), (2, of_order))})

    def test_checked_rows(self):
        told = [line for _, lines in self.blocks() for line in lines
                if line.startswith("rows")]
        self.assertGreater(told.count("rows yes"), 100)
        self.assertGreater(told.count("rows no"), 20)

    def test_all_that_is_written(self):
        # Every address is written and read, every command byte and value of 1 and 3.
        written = {access[1:] for accesses, _ in self.blocks() for access in accesses
                   if access[0] == WRITE}
        for address in (0, 1, 3):
            self.assertLessEqual({(address, value) for value in range(256)}, written)
        self.assertEqual({address for address, _ in written}, set(range(256)))

    def test_broken_ones_show(self):
        # Each broken variant of an answer changes the lines of a case of the stream.
        blocks = self.blocks()
        for story, module, name, replacement, _ in broken_block.ANSWERS:
            with self.subTest(story), mock.patch.object(module, name, replacement):
                self.assertTrue(any(block_answers.told(accesses) != lines
                                    for accesses, lines in blocks))


if __name__ == "__main__":
    unittest.main()
