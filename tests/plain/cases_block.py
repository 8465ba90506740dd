"""Cases of the register block: sequences of accesses from a cleared one.

Document 02, §11: "From a cleared block any sequence of reads and writes sees what this
table says, refused commands too". Which amounts a job gets is free, so a row is read
where there is one choice alone (forced.py) or no row of that number can be; the rows of
other plans go through the check. Each case is (what it shows, record).
"""

import block
import block_answers
import draw
import forced
import known_block
import known_orders
import least
import order_file
import orders
from known_block import (ALL, ALLOW, CHECK, FILE_C, FORBID, HEAD, ROW, RUN_CLEAR,
                         RUN_LEAST, RUN_PLAN, TABLE, bound, given, length, row_number,
                         run)
from stream_form import LOAD, READ, ROWS, WRITE, Record

# Where the parts of the block begin and end.
EDGES = (1, 2, 3, 4, 5, 7, 8, 9, 10, 11, 12, 15, 16, 19, 28, 31, 32, 33, 63, 128, 250,
         251, 252, 253, 254, 255)
# Row numbers that no plan has, beside 0.
NO_ROWS = (180, 181, 255, 256, 257, 512, 513, 32769, 65281, 65535)
# Command bytes that are near 1, 2 and 3 in some bits, or far.
FEW_COMMANDS = (0, 1, 2, 3, 4, 5, 7, 8, 16, 127, 128, 129, 130, 131, 253, 254, 255)


def case(story, accesses):
    return story, Record("block", (tuple(accesses),))


def planned_by(held, access):
    """The order that a command plans, where it is finished; False for any other
    access, None for a command that leaves no rows."""
    if access[:2] != (WRITE, 0):
        return False
    return block.order_of(held) if block.write(held, *access[1:]).done else None


def settled(held, planned, access):
    """Do the papers settle what the access tells, the rows held being of this order?"""
    if planned is None or forced.forced(planned, held.used):
        return True
    which, *values = access
    if which == READ:
        first, last = values
        return (last < 16 or 31 < first or not
                1 <= block.row_number(held) <= orders.rows_needed(planned))
    read = block_answers.order_read(held)
    return which != ROWS or read == planned or isinstance(read, orders.Refusal)


class Walk:
    """Accesses one after the other, with the block that they lead to and the order of
    the rows held."""

    def __init__(self, *accesses):
        self.accesses, self.held, self.planned = [], block.CLEARED, None
        self.add(*accesses)

    def add(self, *accesses):
        for access in accesses:
            assert self.is_settled(access), access
            planned = planned_by(self.held, access)
            self.held, _ = block_answers.step(self.held, access)
            self.planned = self.planned if planned is False else planned
            self.accesses.append(access)

    def look(self):
        """All before the file where the row is settled; else all before the row, and
        the check's word on the rows where that is."""
        for access in (TABLE,) if self.is_settled(TABLE) else (HEAD, CHECK):
            if self.is_settled(access):
                self.add(access)

    def is_settled(self, access):
        return settled(self.held, self.planned, access)

    def case(self, story):
        return case(story, self.accesses)


def known():
    for story, steps in known_block.SEQUENCES:
        yield case(story, [access for accesses, _ in steps for access in accesses])


def plans():
    """Every row, the numbers beside, and numbers that no plan has."""
    many = "43 rows", known_block.MANY, 0, block.rows(known_block.MANY, 0)
    for story, order, at, rows in (*known_block.PLANS, many):
        for jobs_first in (False, True):
            walk = Walk(*given(order_file.encode(order, jobs_first)), *bound(at), ALLOW,
                        RUN_PLAN, HEAD, CHECK)
            for number in (*range(len(rows) + 2), *NO_ROWS):
                walk.add(*row_number(number), ROW)
            walk.add(*row_number(len(rows)), RUN_LEAST)
            walk.look()
            walk.add(*bound(at - 1000000), RUN_PLAN, TABLE, CHECK)
            yield walk.case(f"{story}{', jobs first' * jobs_first}, every row")


def done():
    """C planned, with all that can be read beside."""
    return [(LOAD, FILE_C + bytes(range(33, 221))), *length(32), *bound(-8),
            *row_number(1), ALLOW, RUN_PLAN]


def refused():
    return [*done(), *bound(-9), RUN_PLAN]


# From what is written to each address.
STATES = (("cleared", []), ("a plan held", done()), ("refused", refused()))


def addresses():
    """Every address but 0 written, each read after it; then all."""
    for story, begin in STATES:
        for value in (0, 90, 165, 255):
            walk = Walk(*begin, ALL)
            for address in range(1, 256):
                walk.add((WRITE, address, value), (READ, address, address))
            yield walk.case(f"{story}, {value} written to each address")
        walk = Walk(*begin)
        walk.add(*((WRITE, address, (7 * address + 3) % 256)
                   for address in range(255, 0, -1)), ALL, ALL)
        yield walk.case(f"{story}, another value written to each address")


def edges():
    """All bytes after one is written."""
    for story, begin in STATES:
        walk = Walk(*begin)
        for address in EDGES:
            walk.add((WRITE, address, 255 - address), ALL)
        yield walk.case(f"{story}, written where a part begins or ends")


# Whether the interrupt is allowed, and whether it is set.
INTERRUPTS = ((False, False), (False, True), (True, False), (True, True))


def with_interrupt(allowed, is_set):
    """C planned, the interrupt allowed or not and set or not."""
    begin = [*given(FILE_C), *row_number(1), (WRITE, 3, int(is_set)), RUN_LEAST]
    return [*begin, (WRITE, 3, int(allowed))]


def told(allowed, is_set):
    return (f"interrupt {'' if allowed else 'not '}allowed, "
            f"{'' if is_set else 'not '}set")


def commands():
    """Every command byte from a plan held; the first without an interrupt by all."""
    for allowed, is_set in INTERRUPTS:
        begin = with_interrupt(allowed, is_set)
        values = range(256) if allowed != is_set else FEW_COMMANDS
        walk = Walk(*begin)
        for value in values:
            walk.add(run(value), TABLE)
            again = begin if value == block.CLEAR else [(WRITE, 1, 4), *begin[-3:]]
            walk.add(*again)
        yield walk.case(f"every command byte, {told(allowed, is_set)}"
                        if len(values) == 256 else
                        f"command bytes, {told(allowed, is_set)}")


def one_after_another():
    """Every two of some commands, from a cleared block and after C is given."""
    with_c = [*given(FILE_C), *row_number(1)]
    for story, begin in (("cleared", []), ("C given", with_c)):
        for allowed in (ALLOW, FORBID):
            walk = Walk()
            for first in (0, 1, 2, 3, 4, 255):
                for second in (0, 1, 2, 3, 4, 255):
                    walk.add(RUN_CLEAR, *begin, allowed, run(first), HEAD, run(second))
                    walk.look()
            yield walk.case(f"{story}, two commands, byte 3 {allowed[2]}")


# How each of the flags that can stand in byte 1 comes about, C being given.
FLAGS_BY = {0: [RUN_LEAST, (WRITE, 1, 7)], 1: [(WRITE, 1, 4), FORBID, RUN_LEAST],
            2: [(WRITE, 1, 4), FORBID, run(9)], 4: [ALLOW, RUN_LEAST, (WRITE, 1, 1)],
            5: [ALLOW, RUN_LEAST], 6: [ALLOW, *bound(-9), RUN_PLAN]}


def flags():
    walk = Walk(*given(FILE_C), *row_number(1))
    for before, value, _ in known_block.FLAGS:
        walk.add(*FLAGS_BY[before], (READ, 1, 1), (WRITE, 1, value), TABLE)
    yield walk.case("each flag written")
    walk = Walk(*given(FILE_C), *row_number(1), ALLOW)
    for value in range(256):
        walk.add(run((2, 1)[value % 2]), (WRITE, 1, value), (READ, 1, 3))
    yield walk.case("each value written to the flags")


def allowing():
    """Every value of byte 3, and the command that follows it."""
    walk = Walk(*given(FILE_C))
    for value in range(256):
        walk.add((WRITE, 1, 7), (WRITE, 3, value), (READ, 3, 3), run((2, 9)[value % 2]),
                 (READ, 1, 3))
    yield walk.case("each value written to byte 3")


def lengths():
    data = order_file.encode(known_block.FULL)
    walk = Walk(*given(data), *bound(6))
    for count, _ in known_block.LENGTHS:
        for value in (1, 2):
            walk.add(RUN_LEAST, *length(count), run(value), HEAD, *length(220))
    yield walk.case("220 bytes, each length")
    walk = Walk(*given(FILE_C), *row_number(1), ALLOW)
    for count in (32, 31, 33, 0, 12, 44, 220, 221, 288, 8192, 8224):
        for value in (1, 2):
            walk.add(RUN_LEAST, *length(count), run(value), TABLE, *length(32))
    yield walk.case("C, each length")
    for story, data, _ in known_block.OF_220:
        walk = Walk(*given(data), *bound(10000001))
        for count in (220, 221, 476, 65535):
            walk.add(*length(count), RUN_PLAN, HEAD, RUN_LEAST, HEAD)
        yield walk.case(f"12 before all: {story}")
    for count in (12, 220, 221):
        walk = Walk(*length(count), RUN_PLAN, TABLE, RUN_LEAST, TABLE, CHECK)
        yield walk.case(f"{count} bytes of 0")


def files():
    """Each file after C's plan is held."""
    for place, (story, data, *_) in enumerate(known_block.FILES):
        walk = Walk((WRITE, 3, place % 2), *row_number(1))
        for at in (0, -100, 10000001):
            for value in (1, 2):
                walk.add(*given(FILE_C), RUN_LEAST, *bound(at), *given(data),
                         run(value))
                walk.look()
        walk.add(CHECK)
        yield walk.case(f"file: {story}")
    for story, order, _, _ in known_orders.REFUSED:
        data = order_file.encode(order)
        if len(data) <= block.FILE_MOST:
            walk = Walk(*given(data), RUN_PLAN, HEAD, *bound(10000001), RUN_LEAST,
                        HEAD, RUN_PLAN, HEAD)
            yield walk.case(f"refused: {story}")


def bounds():
    walk = Walk(*given(FILE_C), *row_number(1))
    for at, _ in known_block.BOUNDS:
        walk.add(*bound(at), RUN_PLAN, TABLE, *bound(7), TABLE, *bound(at), RUN_LEAST,
                 TABLE)
    yield walk.case("C, each bound, another one written after the command")
    walk = Walk(*given(FILE_C), *row_number(1), *bound(-8), RUN_PLAN)
    for address in (4, 5, 6, 7):
        walk.add((WRITE, address, 0), TABLE)
    walk.add(RUN_PLAN, TABLE)
    yield walk.case("the bound's bytes, one after the other, behind a command")


def later():
    """What is written after a command changes nothing that is held."""
    order, rows = known_block.TWELVE, known_block.ROWS_TWELVE
    walk = Walk(*given(order_file.encode(order)), RUN_PLAN)
    for number in range(1, len(rows) + 1):
        walk.add(*row_number(number), ROW, (LOAD, bytes([number] * 16 * number)[:220]),
                 *length(number), *bound(-number), (WRITE, 1, 7), HEAD)
    walk.add(run(200), HEAD, *row_number(1), ROW)
    yield walk.case("another file, length and bound beside the rows held")
    walk = Walk(*done())
    for value in (255, 0):
        for address in range(2, 256):
            if address not in (10, 11):
                walk.add((WRITE, address, value))
        walk.add((WRITE, 1, 7 * (value > 0)), TABLE)
    yield walk.case("each byte but the row number written beside the row held")
    walk = Walk(*done(), ALL, ALL, RUN_CLEAR, ALL, *row_number(1), ROW,
                *given(FILE_C), TABLE, CHECK)
    yield walk.case("cleared with a plan held")
    walk = Walk()
    for data, at in ((FILE_C, -8), (known_block.FIVE, 0), (FILE_C, -9)):
        walk.add(*given(data), *bound(at), ALLOW, *row_number(1), RUN_PLAN, RUN_CLEAR,
                 ALL, RUN_PLAN, TABLE)
    yield walk.case("cleared after each outcome")


def full():
    """The order of the most rows that can be asked for, at bounds about the least."""
    for jobs_first in (False, True):
        walk = Walk(*given(order_file.encode(known_block.FULL, jobs_first)), ALLOW)
        first = ", jobs first" * jobs_first
        for at in (*range(3, 12), 100, 10000000, 10000001):
            walk.add(*bound(at), RUN_PLAN, HEAD, CHECK)
        walk.add(RUN_LEAST, HEAD, CHECK)
        for number in (0, 181, 255, 256, 257, 436, 65535):
            walk.add(*row_number(number), ROW)
        yield walk.case(f"4 processors, 12 jobs, 220 bytes{first}, each bound")


def one_due(of):
    """An order of one due time: all amounts are forced."""
    return draw.wide(of, of.between(1, 4), of.between(1, 12),
                     of.one_of((3, 9, 99999)), 0)


def small_file(of):
    """The file of a drawn order, now and then damaged."""
    order = of.one_of((one_due, one_due, draw.tiny, draw.crowded, draw.stepped,
                       draw.steep))(of)
    turn = of.below(9)
    if turn == 0:
        order = draw.out_of_range(of, order)
    data = bytearray(order_file.encode(order, bool(of.below(2))))
    if turn == 1:
        data[of.below(len(data))] ^= 1 << of.below(8)
    elif turn == 2:
        data[-of.between(1, 12)] ^= 1
    return bytes(data)


def near_bound(of, held):
    """A bound about the least lateness of the file held, or far from it."""
    order = block.order_of(held)
    at = 0 if isinstance(order, orders.Refusal) else least.least(order)
    return of.one_of((at, at, at - 1, at + 1, at + of.below(300), -at, 10000000,
                      10000001, -10000001, of.below(4294967296)))


def near_length(of, held):
    """A length about that of the file held."""
    count = block.file_length(held)
    return of.one_of((count + 1, count - 1, 220, 221, count + 256, of.below(65536)))


def drawn_writes(of, held):
    """Some accesses that write."""
    turn = of.below(24)
    if turn < 3:
        return given(small_file(of))
    if turn < 6:
        return bound(near_bound(of, held))
    if turn < 10:
        return [RUN_PLAN]
    if turn < 13:
        return [RUN_LEAST]
    if turn < 15:
        return [(WRITE, 1, of.one_of((1, 2, 3, 4, 5, 6, 7, of.below(256))))]
    if turn < 18:
        return [(WRITE, 3, of.one_of((0, 1, 1, of.below(256))))]
    if turn < 20:
        return row_number(of.one_of((of.between(1, len(held.rows) + 1), of.below(18),
                                     of.below(65536))))
    if turn == 20:
        return length(near_length(of, held))
    if turn == 21:
        return [run(of.one_of((0, 3, 4, of.below(256))))]
    if turn == 22:
        address = of.one_of((2, of.between(12, 31), of.between(252, 255)))
        return [(WRITE, address, of.below(256))]
    return [(WRITE, of.between(4, 251), of.below(256))]


def drawn(seed, count, steps):
    of = draw.Draw(seed)
    for number in range(count):
        walk = Walk(*given(small_file(of)), *row_number(1))
        for _ in range(steps):
            walk.add(*drawn_writes(of, walk.held))
            if of.below(3) == 0:
                walk.look()
            elif of.below(40) == 0 and walk.is_settled(ALL):
                walk.add(ALL)
        yield walk.case(f"drawn sequence {number}")


def cases():
    for part in (known(), plans(), addresses(), edges(), commands(),
                 one_after_another(), flags(), allowing(), lengths(), files(), bounds(),
                 later(), full(), drawn(601, 90, 40)):
        yield from part
