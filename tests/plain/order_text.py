"""An order as text written by a person: one line a processor, one a job.

    processor MEMORY
    job TIME DUE NEED [MAKER]

Blank lines, and everything from `#` to the end of a line, say nothing. A job
without MAKER has maker 1, and where the maker is 1 it is left out: document 02,
§4: "In document 01's cases the maker is 1." A NEED of `-` is left to a maker's
table (needs_text.py).
Document 01: "Jobs and processors carry numbers from 1 in input order." Numbers
may be out of the order's ranges, so that refused orders can be written too;
they have to fit the bytes of the order file. "Base ten is meant".
"""

import re

import orders

WORD = (0, orders.WORD_MOST)
SIGNED = (-2147483648, 2147483647)
FIELDS = {
    "processor": (("memory", WORD),),
    "job": (("time", WORD), ("due time", SIGNED), ("need", WORD),
            ("maker", WORD)),
}
# How many numbers a line may have: the maker of a job may be left out. Then it
# is the one named here.
COUNTS = {"processor": (1,), "job": (3, 4)}
MAKER_LEFT_OUT = orders.MAKER_OF_DOCUMENT_01
# The need of a job that is left to a table, and how it is written.
LEFT, LEFT_WORD = None, "-"
COUNT_MOST = 65535


class TextError(Exception):
    """Text that is no order, or no table; the message names the line or the job."""


def number(word, name, limits, line):
    """One number of a line, if it is one and fits its bytes in the file."""
    if not re.fullmatch("-?[0-9]+", word):
        raise TextError(f"line {line}: {name} '{word}' is not a whole number")
    value = int(word)
    if not limits[0] <= value <= limits[1]:
        raise TextError(f"line {line}: {name} {value} does not fit the file: "
                        f"{limits[0]} to {limits[1]}")
    return value


def is_left(kind, name, word):
    """Is this the need of a job, left to a table?"""
    return (kind, name, word) == ("job", "need", LEFT_WORD)


def numbers(words, line, fields, counts):
    """The numbers of a line that begins with one of these kinds."""
    kind, given = words[0], words[1:]
    if kind not in fields:
        known = " or ".join(f"'{one}'" for one in fields)
        raise TextError(f"line {line}: a line begins with {known}, not '{kind}'")
    if len(given) not in counts[kind]:
        wanted = ", ".join(name for name, _ in fields[kind])
        told = " or ".join(map(str, counts[kind]))
        raise TextError(f"line {line}: after '{kind}' stand {told} "
                        f"({wanted}), not {len(given)}")
    return [LEFT if is_left(kind, name, word) else number(word, name, limits, line)
            for word, (name, limits) in zip(given, fields[kind])]


def said(text, fields, counts):
    """What each line says: its kind and its numbers."""
    for line, content in enumerate(text.split("\n"), 1):
        words = content.split("#")[0].split()
        if words:
            yield words[0], numbers(words, line, fields, counts)


def job(time, due, need, maker=None):
    if maker is None:
        maker = MAKER_LEFT_OUT
    return orders.Job(time, due, need, maker)


def lists(text):
    """The memories and the jobs of a text, needs left to a table as they are."""
    memories, jobs = [], []
    for kind, values in said(text, FIELDS, COUNTS):
        if kind == "processor":
            memories.append(values[0])
        else:
            jobs.append(job(*values))
    for name, items in (("processors", memories), ("jobs", jobs)):
        if len(items) > COUNT_MOST:
            raise TextError(f"{len(items)} {name} do not fit the file: "
                            f"at most {COUNT_MOST}")
    return memories, jobs


def parse(text):
    """The order of a text that leaves no need to a table."""
    memories, jobs = lists(text)
    for place, one in enumerate(jobs, 1):
        if one.need is LEFT:
            raise TextError(f"job {place}: its need is left to a table, and none is "
                            "given (order-file pack --needs TABLE)")
    return orders.order(memories, jobs)


def job_line(one):
    numbers = one[:3] if one.maker == MAKER_LEFT_OUT else one
    return " ".join(map(str, ("job", *numbers)))


def lines(order):
    """The lines of an order, processors first."""
    return ([f"processor {memory}" for memory in order.memories]
            + [job_line(one) for one in order.jobs])


def text(order):
    return "".join(line + "\n" for line in lines(order))
