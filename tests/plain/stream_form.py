"""The form of a stream of cases, as the test programs read it.

A stream is a sequence of records; every number takes 4 bytes, little-endian
(bounds and due times two's complement). A record begins with its kind:

    0  end of the stream
    1  read     F, then the F bytes of a file
    2  check    ORDER, bound, R, then R numbers (the lent rows)
    3  least    ORDER, room (numbers that the lent row buffer holds)
    4  plan     ORDER, bound, room (numbers)
    5  write    ORDER, room (bytes of the lent buffer)
    6  compose  ORDER, bound, REASON, room (bytes of the lent buffer)
    7  parse    ORDER, bound, F, then the F bytes of a line
    8  book     BOOK, K (from 1), then K calls
    9  asked    ORDER, bound, TIMES
    10 timed    ORDER, bound, TIMES, room (numbers)
    11 watch    ORDER, bound, TIMES, R, then R numbers (the lent rows)
    12 classes  ORDER
    13 needs    T, then T numbers (the table), L, then L lengths, room (needs)
    14 between  ORDER, HIGHS, number (two's complement)
    15 a screen's case: the kind of a case, then what such a case has behind its kind
    16 block    K, then K accesses

Every other case is a dock's. Classes, needs and blocks are no caller's: none of these
kinds stands behind 15. Document 02, §10: "the limit belongs to the call".

ORDER is m, n, then min(m, 16) memories, then min(n, 48) jobs as time, due, need,
maker. A count beyond its array stands for the list of that many: the given ones,
then zeros. Document 01: "All are little-endian; the due time is two's
complement."

REASON is kind, which, time, then 16 due times. Kind 1 is a job (which is its
number, time its time), 2 a staircase (which is its count, time is not looked at),
any other none.

BOOK is sixteen numbers, the counts of makers 1 to 16. A call is which (1 least
lateness, 2 planning at a bound), ORDER, bound (not looked at by the least
lateness), room (numbers). Document 02, §4: "each call being given the book that
the last one gave back"; the first is given BOOK.

TIMES is min(n, 48) ready minutes, then min(m, 16) windows, each its opening and its
closing. Document 02, §5: "a ready minute [..] for each job and one window, opening
to closing minute in the same range, for each processor"; they are unsigned.

A table has three numbers to a line. Document 02, §7: "from length, to length (both
included, in minutes), need". Every number of the buffer that is lent for the needs is
7 before the call.

HIGHS is min(n, 48) numbers, unsigned; the order's times are the lows. Document 02, §9:
"its working time is an estimate: a low and a high".

An access begins with a number of four parts, one byte each: which it is, an address, a
value, 0. What is not named below is 0.

    1  write    the value is written at the address
    2  load     F, then F bytes: they are written from byte 32 on, one after the other
    3  read     what is read from the address to the one that stands for the value
    4  rows     what the plan check says to the rows held

The first access is given a cleared block, each other one the block that the last one
gave back. Document 02, §11: "From a cleared block any sequence of reads and writes sees
what this table says".
"""

import struct
from collections import namedtuple

import orders
import timed

KINDS = {"read": 1, "check": 2, "least": 3, "plan": 4, "write": 5, "compose": 6,
         "parse": 7, "book": 8, "asked": 9, "timed": 10, "watch": 11, "classes": 12,
         "needs": 13, "between": 14, "block": 16}
# The case behind this number is a screen's.
OF_A_SCREEN = 15
# The kinds that are no caller's.
OF_NO_CALLER = ("classes", "needs", "block")
# The kinds that are given times.
TIMED = ("asked", "timed", "watch")
# One for each class that there can be.
DUES = orders.PROCESSORS_MOST
# One count for each maker.
COUNTS = orders.MAKER_MOST
WORD_COUNT = 4294967296

# `values` are the arguments of the entry point, as answers.py takes them; of
# `book` they are the book and its calls, as book.told takes them, of `needs` the
# table, the lengths and the room, as needs.told takes them, of `between` the order, the
# highs and the number, as estimate.told takes them, of `block` the accesses, as
# block_answers.told takes them. `limits` are the caller's.
Record = namedtuple("Record", "kind values limits", defaults=(orders.DOCK,))
Call = namedtuple("Call", "which order bound room")
LEAST, PLAN = 1, 2
# An access is (WRITE, address, value), (LOAD, bytes), (READ, first, last) or (ROWS,).
WRITE, LOAD, READ, ROWS = 1, 2, 3, 4


def words(*numbers):
    return struct.pack(f"<{len(numbers)}I",
                       *(number % WORD_COUNT for number in numbers))


def pack_order(order):
    memories = order.memories[:orders.PROCESSORS_MOST]
    jobs = order.jobs[:orders.JOBS_MOST]
    assert len(memories) == min(order.m, orders.PROCESSORS_MOST)
    assert len(jobs) == min(order.n, orders.JOBS_MOST)
    return words(order.m, order.n, *memories, *(x for job in jobs for x in job))


def pack_times(order, given):
    assert len(given.ready) == min(order.n, orders.JOBS_MOST)
    assert len(given.windows) == min(order.m, orders.PROCESSORS_MOST)
    return words(*given.ready, *(x for window in given.windows for x in window))


def pack_highs(order, highs):
    highs = highs[:orders.JOBS_MOST]
    assert len(highs) == min(order.n, orders.JOBS_MOST)
    return words(*highs)


def pack_timed(order, bound, given, *rest):
    """What a record with times has behind its kind. The rest is nothing, a room or
    the lent rows."""
    if rest and not isinstance(rest[0], int):
        rest = len(rest[0]), *rest[0]
    return pack_order(order) + words(bound) + pack_times(order, given) + words(*rest)


def pack_call(call):
    assert call.which in (LEAST, PLAN)
    return (words(call.which) + pack_order(call.order)
            + words(call.bound, call.room))


def pack_access(access):
    which, *values = access
    if which == LOAD:
        data, = values
        return words(which, len(data)) + data
    assert which in (WRITE, READ) and len(values) == 2 or access == (ROWS,)
    return bytes([which, *values]).ljust(4, b"\0")


def pack_kind(record):
    """What a record has before the numbers of its case."""
    if record.limits == orders.DOCK:
        return words(KINDS[record.kind])
    assert record.limits == orders.SCREEN and record.kind not in OF_NO_CALLER
    return words(OF_A_SCREEN, KINDS[record.kind])


def pack(record):
    """The bytes of one record."""
    head = pack_kind(record)
    if record.kind == "read":
        data, = record.values
        return head + words(len(data)) + data
    if record.kind == "book":
        book, calls = record.values
        assert len(book) == COUNTS and calls
        return (head + words(*book, len(calls))
                + b"".join(pack_call(call) for call in calls))
    if record.kind in TIMED:
        return head + pack_timed(*record.values)
    if record.kind == "needs":
        table, lengths, room = record.values
        return head + words(len(table), *table, len(lengths), *lengths, room)
    if record.kind == "block":
        accesses, = record.values
        return head + words(len(accesses)) + b"".join(map(pack_access, accesses))
    order, *numbers = record.values
    if record.kind == "check":
        bound, rows = numbers
        numbers = [bound, len(rows), *rows]
    elif record.kind == "compose":
        *numbers, dues, room = numbers
        assert len(dues) == DUES
        numbers += [*dues, room]
    elif record.kind == "parse":
        bound, data = numbers
        return head + pack_order(order) + words(bound, len(data)) + data
    elif record.kind == "between":
        highs, number = numbers
        return head + pack_order(order) + pack_highs(order, highs) + words(number)
    return head + pack_order(order) + words(*numbers)


def stream(records):
    return b"".join(map(pack, records)) + words(0)


class Source:
    """Takes a stream apart again."""

    def __init__(self, data):
        self.data, self.at = data, 0

    def word(self):
        value, = struct.unpack_from("<I", self.data, self.at)
        self.at += 4
        return value

    def signed(self):
        value, = struct.unpack_from("<i", self.data, self.at)
        self.at += 4
        return value

    def order(self):
        m, n = self.word(), self.word()
        memories = [self.word() for _ in range(min(m, orders.PROCESSORS_MOST))]
        jobs = [(self.word(), self.signed(), self.word(), self.word())
                for _ in range(min(n, orders.JOBS_MOST))]
        return orders.order(memories, jobs, m, n)

    def call(self):
        return Call(self.word(), self.order(), self.signed(), self.word())

    def access(self):
        which, address, value, _ = struct.unpack("4B", words(self.word()))
        if which == LOAD:
            return which, self.data_of_length()
        return (which,) if which == ROWS else (which, address, value)

    def times(self, order):
        ready = [self.word() for _ in order.jobs]
        return timed.times(ready, [(self.word(), self.word())
                                   for _ in order.memories])

    def numbers(self):
        return [self.word() for _ in range(self.word())]

    def timed(self, kind):
        order, bound = self.order(), self.signed()
        given = self.times(order)
        rest = {"asked": lambda: (), "timed": lambda: (self.word(),),
                "watch": lambda: (self.numbers(),)}
        return order, bound, given, *rest[kind]()

    def data_of_length(self):
        length = self.word()
        self.at += length
        return self.data[self.at - length:self.at]

    def values(self, kind):
        if kind == "read":
            return (self.data_of_length(),)
        if kind == "book":
            book = tuple(self.word() for _ in range(COUNTS))
            return book, tuple(self.call() for _ in range(self.word()))
        if kind in TIMED:
            return self.timed(kind)
        if kind == "needs":
            return self.numbers(), self.numbers(), self.word()
        if kind == "block":
            return (tuple(self.access() for _ in range(self.word())),)
        order = self.order()
        if kind == "classes":
            return (order,)
        if kind == "check":
            return order, self.signed(), self.numbers()
        if kind == "plan":
            return order, self.signed(), self.word()
        if kind == "compose":
            bound, kind, which, time = (
                self.signed(), self.word(), self.word(), self.word())
            dues = tuple(self.signed() for _ in range(DUES))
            return order, bound, kind, which, time, dues, self.word()
        if kind == "parse":
            return order, self.signed(), self.data_of_length()
        if kind == "between":
            return order, tuple(self.word() for _ in order.jobs), self.signed()
        return order, self.word()


def unpack(data):
    """The records of a stream."""
    names = {number: name for name, number in KINDS.items()}
    source, records = Source(data), []
    while True:
        number, limits = source.word(), orders.DOCK
        if number == 0:
            assert source.at == len(data)
            return records
        if number == OF_A_SCREEN:
            number, limits = source.word(), orders.SCREEN
        kind = names[number]
        records.append(Record(kind, source.values(kind), limits))
