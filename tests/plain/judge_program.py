"""Judges the lines that `plan-order` prints.

Document 01: "The lines are the least lateness; job, processor, from, to; the row
count. A refusal prints `refused` with number and job".

    least L
    piece JOB PROCESSOR FROM TO
    end N

Without a bound of its own the judge takes L as the bound, and L has to be the
least lateness.
"""

import re

import judge
import least
import order_file
import order_text
import orders


class LineError(Exception):
    """Lines that are no output of plan-order."""


def order_of(data):
    """What a reader answers to a file, or to the file of a text. An accepted
    file has bytes of 0 in its counts, a text has none."""
    if data and 0 not in data:
        data = order_file.encode(order_text.parse(data.decode("utf-8")))
    return order_file.read(data)


def fields(line, name, count):
    """The numbers of a line of this name, or None if it has another."""
    words = line.split(" ")
    if words[0] != name:
        return None
    if len(words) != count + 1 or not all(
            re.fullmatch("-?[0-9]+", word) for word in words[1:]):
        raise LineError(f"'{line}' is no line '{name}' with {count} numbers")
    return [int(word) for word in words[1:]]


def parts(lines):
    """The least lateness told (or None), the rows and the count."""
    lines = list(lines)
    told = fields(lines[0], "least", 1) if lines else None
    if told:
        lines = lines[1:]
    count = fields(lines[-1], "end", 1) if lines else None
    if not count:
        raise LineError("the last line is not 'end' with the count")
    rows = []
    for line in lines[:-1]:
        row = fields(line, "piece", 4)
        if row is None:
            raise LineError(f"'{line}' is no line 'piece'")
        rows.append(tuple(row))
    return told[0] if told else None, rows, count[0]


def broken(data, bound, text):
    """None if the lines are right for the order, else what is broken."""
    order = order_of(data)
    lines = text.split("\n")
    if lines.pop() != "":
        return "the last line does not end in a line feed"
    if isinstance(order, orders.Refusal):
        wanted = f"refused {order.number} {order.carried}"
        return None if lines == [wanted] else f"the order is {wanted}"
    if lines and lines[0].startswith("refused "):
        return f"'{lines[0]}', but the order is accepted"
    told, rows, count = parts(lines)
    if bound is None and told is None:
        raise LineError("no bound is given, neither as an argument nor as 'least'")
    if bound is None:
        bound = told
        known = least.least(order)
        if told != known:
            return f"the least lateness is {known}, not {told}"
    elif told not in (None, bound):
        return f"least {told} is told, but the bound is {bound}"
    return judge.broken(order, bound, rows, count)
