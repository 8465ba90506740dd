"""A maker's table as text written by a person, and orders that leave needs to it.

    line FROM TO NEED

Blank lines, and everything from `#` to the end of a line, say nothing, as in an order
as text. Document 02, §7: "They will edit a table [..]: from length, to length (both
included, in minutes), need." Numbers may be out of range, so that refused tables can
be written too; they have to fit the table's numbers of 4 bytes.

"Makers know session lengths and no memory needs." "From an accepted table and a list
of lengths the jobs' needs are filled in, each from its own line": a job's length is its
time, and the list has the jobs whose NEED is `-`, in their order.
"""

import needs
import order_text
import orders

FIELDS = {"line": (("from", order_text.WORD), ("to", order_text.WORD),
                   ("need", order_text.WORD))}
COUNTS = {"line": (3,)}


class RefusedError(Exception):
    """A table, or a length listed, that is refused; the message is the refusal."""


def parse(text):
    """The numbers of a table."""
    return [number for _, line in order_text.said(text, FIELDS, COUNTS)
            for number in line]


def in_words(refused, listed):
    """A refusal in words, where these jobs are listed, as {number: job}."""
    number, carried = refused
    if number == 17:
        words = f"no line meets length {carried}"
    elif number == 18:
        words = f"two lines meet length {carried}"
    else:
        job = list(listed)[carried - 1]
        words = (f"job {job}: time {listed[job].time} is not "
                 f"{needs.LENGTH_LEAST} to {needs.LENGTH_MOST}")
    return f"refused {number} {carried}: {words}"


def filled(jobs, table):
    """These jobs, the needs that are left to the table filled in."""
    listed = {number: job for number, job in enumerate(jobs, 1)
              if job.need is order_text.LEFT}
    found = needs.answer(table, [job.time for job in listed.values()], len(listed))
    if isinstance(found, orders.Refusal):
        raise RefusedError(in_words(found, listed))
    need_of = dict(zip(listed, found))
    return [job._replace(need=need_of.get(number, job.need))
            for number, job in enumerate(jobs, 1)]


def order(text, table):
    """The order of a text that may leave needs to this table."""
    memories, jobs = order_text.lists(text)
    return orders.order(memories, filled(jobs, table))
