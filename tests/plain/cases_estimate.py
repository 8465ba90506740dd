"""Cases of times known between a low and a high.

Document 02, §9: "each whole number between them is reached by some such order, which
is to be produced on request". "A number outside the two yields no order." Each case is
(what it shows, record).
"""

import draw
import estimate
import known_estimate
import known_orders
from stream_form import Record

LAST = 2147483647


def case(story, given, number):
    return (f"{story}, at {number}",
            Record("between", (given.order, given.highs, number)))


def each_number(story, given):
    """From one below the lower number to one above the upper."""
    below, above = estimate.leasts(given)
    for number in range(below - 1, above + 2):
        yield case(story, given, number)


def worked():
    for story, given, *_ in known_estimate.WORKED:
        yield from each_number(story, given)


def long_paths():
    for story, given, (below, above), found in known_estimate.LONG:
        for number, _ in found:
            yield case(story, given, number)
        yield case(story, given, below - 1)
        yield case(story, given, above + 1)


def far():
    for number in known_estimate.FAR:
        yield case("C from 1 to 5", known_estimate.WORKED[4][1], number)


def refused():
    for story, given, _, _ in known_estimate.REFUSED:
        yield case(story, given, 0)
    for story, given, _, _ in known_estimate.pairs():
        yield case(story, given, 0)
    for story, order, _, _ in known_orders.REFUSED_COUNTS:
        highs = [job.time for job in order.jobs]
        yield case(story, estimate.estimate(order, highs), 0)
    # No number is looked at before a refusal.
    for number in (-LAST - 1, LAST):
        yield case("a low above its high", known_estimate.REFUSED[0][1], number)


def limits():
    for story, given in known_estimate.LIMITS:
        for number in sorted(set(estimate.leasts(given))):
            yield case(story, given, number)


def drawn(seed, count, families, most):
    of = draw.Draw(seed)
    for number in range(count):
        order = of.one_of(families)(of)
        given = estimate.estimate(order, draw.highs(of, order, most))
        yield from each_number(f"drawn estimate {number}", given)


# Processors, jobs, the greatest low and the greatest due time.
SIZES = ((16, 48, 1000, 100000), (16, 48, 100000, 100000), (16, 48, 10, 1000000),
         (16, 48, 50000, 20000), (16, 48, 1, 0), (2, 48, 1000, 1000000),
         (8, 20, 100, 90000), (5, 9, 1000, 50000), (3, 7, 9, 100000),
         (1, 12, 100, 500000))


def wide():
    """Highs up to 100,000: two numbers between the two, and one of these or beside."""
    of = draw.Draw(562)
    for m, n, low_most, due_most in SIZES:
        order = draw.wide(of, m, n, low_most, due_most)
        given = estimate.estimate(order, [
            of.between(job.time, known_estimate.TOP) for job in order.jobs])
        below, above = estimate.leasts(given)
        for number in (of.between(below, above), of.between(below, above),
                       of.one_of((below - 1, below, above, above + 1))):
            yield case(f"{m} processors, {n} jobs, {estimate.minutes(given)} minutes "
                       f"between", given, number)


def cases():
    for part in (worked(), long_paths(), far(), refused(), limits(),
                 drawn(561, 13, (draw.tiny, draw.crowded, draw.stepped), 4),
                 drawn(563, 2, (draw.middle, draw.steep), 6), wide()):
        yield from part
