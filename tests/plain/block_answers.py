"""What a sequence of accesses to a register block tells, as lines.

Document 02, §11: "From a cleared block any sequence of reads and writes sees what this
table says, refused commands too". An access writes a byte, writes a file from byte 32
on, reads from one address to another, or asks what the plan check says to the rows
held; the last two tell a line each. The rows are read one after the other, until a
row's job is 0; the check is given the order in the file and the lateness used, both as
they read.
"""

import answers
import block
import order_file
import orders
from stream_form import LOAD, READ, ROWS, WRITE

FILE_AT = 32
ROWS_MOST = 180


def load(held, data):
    for address, value in enumerate(data, FILE_AT):
        held = block.write(held, address, value)
    return held


def bytes_line(held, first, last):
    return "bytes " + block.seen(held)[first:last + 1].hex()


def row_at(held, number):
    """The row that is read at this number, below 256."""
    asked = block.write(block.write(held, 10, number), 11, 0)
    return block.ROW.unpack(block.seen(asked)[16:32])


def rows_read(held):
    numbers = []
    for number in range(1, ROWS_MOST + 1):
        row = row_at(held, number)
        if row[0] == 0:
            break
        numbers += row
    return numbers


def order_read(held):
    """The order in the file, as it reads, or its refusal."""
    data = block.seen(held)
    length = int.from_bytes(data[8:10], "little")
    if length > block.FILE_MOST:
        return order_file.REFUSED_12
    return order_file.read(data[FILE_AT:FILE_AT + length], orders.SCREEN)


def rows_line(held):
    order = order_read(held)
    if isinstance(order, orders.Refusal):
        said, = answers.refused(order)
    else:
        used, = block.LATENESS.unpack(block.seen(held)[12:16])
        said, = answers.check(order, used, rows_read(held), orders.SCREEN)
    return f"rows {said}"


def step(held, access):
    """The block after an access, and the lines that it tells."""
    which, *values = access
    if which == WRITE:
        return block.write(held, *values), []
    if which == LOAD:
        return load(held, *values), []
    if which == READ:
        return held, [bytes_line(held, *values)]
    assert which == ROWS
    return held, [rows_line(held)]


def told(accesses):
    held, lines = block.CLEARED, []
    for access in accesses:
        held, more = step(held, access)
        lines += more
    return lines
