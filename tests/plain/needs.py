"""Needs from a maker's table, with refusals 17, 18, 5 and 9.

Document 02, §7: "Makers know session lengths and no memory needs. They will edit a
table whose first 32 lines count, any further ones being passed over: from length, to
length (both included, in minutes), need. Lengths 1 to 100,000 must each be met by one
line, lines in any order. From an accepted table and a list of lengths the jobs' needs
are filled in, each from its own line; a listed length out of range is 5, else a buffer
for fewer needs is 9, and then none is filled in. A length that no line meets is 17,
carrying the smallest such length; one met by two lines is 18, likewise; the refusals
here are 17, 18, 5 and 9, in that order, and a line out of range or running backwards
meets no length."

A table is lent as numbers, three to a line; one or two numbers left over at its end
are no line. Any number of lengths may be listed; 5 carries the place of the first such
length in the list, counted from 1, and 9 carries 0. A need is any 32-bit number.
"""

from collections import namedtuple

import answers
import orders

LINES_MOST = 32
LENGTH_LEAST, LENGTH_MOST = 1, 100000
# What every number of the buffer that a stream's case lends is before the call.
BEFORE = 7

Line = namedtuple("Line", "first last need")


def lines(table):
    # "a table whose first 32 lines count, any further ones being passed over"
    whole = [Line(*table[at:at + 3]) for at in range(0, len(table) - 2, 3)]
    return whole[:LINES_MOST]


def in_range(length):
    return LENGTH_LEAST <= length <= LENGTH_MOST


def met(line):
    """The lengths that a line meets, "both included"."""
    # "a line out of range or running backwards meets no length"
    if not in_range(line.first) or not in_range(line.last) or line.last < line.first:
        return range(0)
    return range(line.first, line.last + 1)


def counts(table):
    """How many lines meet each length, which is the place of its count."""
    found = [0] * (LENGTH_MOST + 1)
    for line in lines(table):
        for length in met(line):
            found[length] += 1
    return found


def smallest(found, holds):
    """The smallest length for whose count this holds, else None."""
    return next((length for length in range(LENGTH_LEAST, LENGTH_MOST + 1)
                 if holds(found[length])), None)


def unmet(found, lengths, room):
    # "A length that no line meets"
    return smallest(found, lambda count: count == 0)


def met_twice(found, lengths, room):
    # "one met by two lines": or by more
    return smallest(found, lambda count: count >= 2)


def listed_out_of_range(found, lengths, room):
    return next((place for place, length in enumerate(lengths, 1)
                 if not in_range(length)), None)


def too_short(found, lengths, room):
    # "a buffer for fewer needs"
    return 0 if room < len(lengths) else None


# The rows of the refusal table, each with its condition, "in that order". A condition
# is given how many lines meet each length, the list and how many needs the buffer has
# room for; it gives the number that the refusal carries, or None.
ROWS = ((17, unmet), (18, met_twice), (5, listed_out_of_range), (9, too_short))


def refusal(table, lengths, room):
    """The first row that applies, else None."""
    found = counts(table)
    for number, condition in ROWS:
        carried = condition(found, lengths, room)
        if carried is not None:
            return orders.Refusal(number, carried)
    return None


def need(table, length):
    """The need of the one line that meets this length."""
    only, = [line for line in lines(table) if length in met(line)]
    return only.need


def answer(table, lengths, room):
    """A refusal, or the needs of the listed lengths."""
    refused = refusal(table, lengths, room)
    return refused or [need(table, length) for length in lengths]


def filled(table, lengths, buffer):
    """The answer, and the lent buffer of needs after it. A refusal leaves it as it
    was, "none is filled in"; beyond the needs it keeps what it held."""
    found = answer(table, lengths, len(buffer))
    if isinstance(found, orders.Refusal):
        return found, list(buffer)
    return found, found + list(buffer[len(found):])


def told(table, lengths, room):
    """The lines of the expected outputs: the answer, the needs taken from the buffer,
    and one for each number of the buffer beyond them that is changed."""
    found, buffer = filled(table, lengths, [BEFORE] * room)
    if isinstance(found, orders.Refusal):
        line, beyond = answers.refused(found), buffer
    else:
        given, beyond = buffer[:len(lengths)], buffer[len(lengths):]
        line = [" ".join(map(str, ("needs", *given)))]
    return line + ["changed" for number in beyond if number != BEFORE]
