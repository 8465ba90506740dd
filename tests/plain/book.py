"""The book of the minutes planned for each maker, refusal 14, and the booked calls.

Document 02, §4: "A book keeps the minutes planned for each maker since it was
opened. From opening on, each call being given the book that the last one gave
back, each count equals the times of that maker's jobs in all plans written with
it, worked out from the orders. The sum of the sixteen counts equals the times of
all their jobs; a refused plan books nothing." "a count that would then be over
4,000,000,000, handed in so or not, is 14, last of all and before any row is
written."

A book is sixteen counts, of makers 1 to 16, each any 32-bit number. The booked
calls are the least lateness and planning at a bound, each with a book.
"""

import answers
import orders
import stream_form

MAKERS = range(orders.MAKER_LEAST, orders.MAKER_MOST + 1)
COUNT_MOST = 4000000000
OPENED = (0,) * len(MAKERS)


def minutes(order):
    """What an order adds to each count: the times of that maker's jobs."""
    return tuple(sum(job.time for job in order.jobs if job.maker == maker)
                 for maker in MAKERS)


def booked(order, book):
    """The counts as they "would then be"; no sum wraps."""
    return tuple(count + more for count, more in zip(book, minutes(order)))


def refusal(order, book):
    """Row 14, of an accepted order: any of the sixteen counts, whether its maker
    has a job in the order or not. It is about no single job, so it carries 0."""
    if any(count > COUNT_MOST for count in booked(order, book)):
        return orders.Refusal(14, 0)
    return None


def is_written(lines):
    """Is a plan written with this answer of an unbooked call?"""
    return lines[0] == "meets" or lines[0].startswith("least ")


def after(lines, order, book):
    """What a booked call answers where the unbooked one answers these lines, and
    the book that it gives back."""
    if not is_written(lines):
        return lines, book
    refused = refusal(order, book)
    if refused:
        return answers.refused(refused), book
    return lines, booked(order, book)


def least_lateness(order, room, book, limits=orders.DOCK):
    return after(answers.least_lateness(order, room, limits), order, book)


def plan(order, bound, room, book, limits=orders.DOCK):
    return after(answers.plan(order, bound, room, limits), order, book)


def call(one, book, limits=orders.DOCK):
    """One call of a stream."""
    if one.which == stream_form.LEAST:
        return least_lateness(one.order, one.room, book, limits)
    return plan(one.order, one.bound, one.room, book, limits)


def told(book, calls, limits=orders.DOCK):
    """The lines of calls that hand the book on: what each answers, and the book
    that it gives back."""
    lines = []
    for one in calls:
        answer, book = call(one, book, limits)
        lines += [*answer, " ".join(map(str, ("book", *book)))]
    return lines
