"""The register block: 256 bytes that are read and written, and what its commands do.

Document 02, §11: "Byte 0 takes a command: 1 plan at the bound, 2 plan at least
lateness, 3 clear; others set refused with number 0. Byte 1 holds flags: bit 0 done, bit
1 refused, bit 2 interrupt; writing a 1 clears that bit. Byte 2 is the refusal number,
byte 3 bit 0 allows the interrupt. Byte 0, bytes 252 to 255 and unnamed bits read 0;
numbers are little-endian. Bytes 4 to 7 are the bound, 8 and 9 the file length, 10 and
11 a row number from 1, 12 to 15 the lateness used (0 after a refusal), 16 to 31 that
row or zeros, 32 to 251 the order file at the screen's limits, judged as a screen order.
A file length over 220 gives 12. Writes to bytes 2, 12 to 31 and 252 to 255 do nothing.
Every command first clears bits 0 and 1, bytes 2 and 12 to 15 and the rows held; rows
then stay until the next command. Finished or refused, a command but 3 sets its flag,
and bit 2 if allowed. Clear makes all bytes 0. From a cleared block any sequence of
reads and writes sees what this table says, refused commands too".

The lateness used is the bound, or the least lateness; a bound and a lateness are two's
complement, as in the file. Which amounts a job gets is free, so of a plan with several
choices (forced.py) the rows held here are one of them.
"""

import struct
from collections import namedtuple

import answers
import flow
import join
import least
import order_file
import orders
from orders import Refusal

BYTES = 256
PLAN, LEAST, CLEAR = 1, 2, 3
FILE_MOST = 220
# "judged as a screen order"
LIMITS = orders.SCREEN
# Numbers of the rows that can be held: four to a row, 12 × (12 + 4 - 1) rows.
ROOM = 720
NO_ROW = 0, 0, 0, 0
LATENESS = struct.Struct("<i")
ROW = struct.Struct("<4I")

# `stored` are all 256 bytes, of which 4 to 11 and 32 to 251 keep what is written.
Block = namedtuple("Block", "done refused interrupt allowed number used stored rows")
# "Clear makes all bytes 0."
CLEARED = Block(False, False, False, 0, 0, 0, bytes(BYTES), ())


def bound(block):
    return LATENESS.unpack(block.stored[4:8])[0]


def file_length(block):
    return int.from_bytes(block.stored[8:10], "little")


def row_number(block):
    return int.from_bytes(block.stored[10:12], "little")


def file(block):
    return block.stored[32:32 + file_length(block)]


def row(block):
    # "a row number from 1", "that row or zeros".
    number = row_number(block)
    return block.rows[number - 1] if 1 <= number <= len(block.rows) else NO_ROW


def flags(block):
    return block.done + 2 * block.refused + 4 * block.interrupt


def is_stored(address):
    return 4 <= address <= 11 or 32 <= address <= 251


def kept(block, first, last):
    """What is stored from one address to another; 0 where nothing is."""
    return bytes(block.stored[address] if is_stored(address) else 0
                 for address in range(first, last + 1))


def seen(block):
    """What each of the 256 bytes reads."""
    return (bytes([0, flags(block), block.number, block.allowed]) + kept(block, 4, 11)
            + LATENESS.pack(block.used) + ROW.pack(*row(block)) + kept(block, 32, 255))


def read(block, address):
    return seen(block)[address]


def order_of(block):
    """The order in the file, or its refusal."""
    # "A file length over 220 gives 12."
    if file_length(block) > FILE_MOST:
        return order_file.REFUSED_12
    return order_file.read(file(block), LIMITS)


def rows(order, at):
    """The rows of a plan at this bound, None where there is none."""
    amounts = flow.amounts(order, at)
    return None if amounts is None else tuple(join.plan(order, at, amounts))


def plan_at_bound(block):
    """The lateness used and the rows, or the refusal."""
    order, at = order_of(block), bound(block)
    if isinstance(order, Refusal):
        return order
    refusal = answers.planner_refusal(order, ROOM, at, LIMITS)
    if refusal:
        return refusal
    planned = rows(order, at)
    return Refusal(10, 0) if planned is None else (at, planned)


def plan_at_least(block):
    """The lateness used and the rows, or the refusal; no bound is looked at."""
    order = order_of(block)
    if isinstance(order, Refusal):
        return order
    refusal = answers.planner_refusal(order, ROOM, limits=LIMITS)
    if refusal:
        return refusal
    at = least.least(order)
    return at, rows(order, at)


def unknown(block):
    # "others set refused with number 0"
    return Refusal(0, 0)


COMMANDS = {PLAN: plan_at_bound, LEAST: plan_at_least}


def begun(block):
    # "Every command first clears bits 0 and 1, bytes 2 and 12 to 15 and the rows held".
    return block._replace(done=False, refused=False, number=0, used=0, rows=())


def interrupted(block):
    # "and bit 2 if allowed"
    return block._replace(interrupt=block.interrupt or block.allowed == 1)


def command(block, value):
    if value == CLEAR:
        return CLEARED
    outcome = COMMANDS.get(value, unknown)(block)
    # "Finished or refused, a command but 3 sets its flag".
    after = interrupted(begun(block))
    if isinstance(outcome, Refusal):
        return after._replace(refused=True, number=outcome.number)
    used, planned = outcome
    return after._replace(done=True, used=used, rows=planned)


def write_flags(block, value):
    # "writing a 1 clears that bit"
    return block._replace(done=block.done and not value & 1,
                          refused=block.refused and not value & 2,
                          interrupt=block.interrupt and not value & 4)


def allow(block, value):
    # "byte 3 bit 0 allows the interrupt"
    return block._replace(allowed=value % 2)


def store(block, address, value):
    data = bytearray(block.stored)
    data[address] = value
    return block._replace(stored=bytes(data))


def write(block, address, value):
    if address == 0:
        return command(block, value)
    if address == 1:
        return write_flags(block, value)
    if address == 3:
        return allow(block, value)
    if is_stored(address):
        return store(block, address, value)
    # "Writes to bytes 2, 12 to 31 and 252 to 255 do nothing."
    return block
