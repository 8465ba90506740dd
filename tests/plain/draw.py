"""Drawn orders, always the same for the same seed.

Document 01: "compared with a plain search over small orders". The orders have
equal memories, equal jobs, ties in need, needs of 0 and of 4,294,967,295,
negative due times and due times that are all equal. Document 02, §4: "Each job
gains a maker number, 1 to 16": they have jobs of one maker and of several. §5: "a
ready minute [..] for each job and one window [..] for each processor": times of small
orders, many of them equal, windows that touch and windows that are long. §6: "distinct
memories and the processors of each": up to 16 processors of few distinct memories. §8:
"by falling need, ties in input order": jobs of few needs, in an input order that is
another one. §9: "a low and a high": highs of small orders, some of them just the low.
"""

import orders
import timed

MEMORIES = ((4,), (0,), (4294967295,), (4, 8), (0, 4294967295), (1, 2, 3),
            (0, 1, 4294967295), (2, 4, 8), (4294967294, 4294967295))
MAKERS = ((1,), (1, 2), (1, 16), (2, 3), (15, 16), (5, 9, 12), tuple(range(1, 17)))
NO_MAKERS = (0, 17, 18, 32, 256, 257, 65537, 2147483649, 4294967295)
# The memories of an order, and needs that fit them.
FEW_NEEDS = (((8, 4), (8, 5, 4, 3)), ((4, 8, 2), (8, 4, 2, 1)), ((4,), (4, 2, 0)),
             ((4, 4), (4, 3)), ((0, 4294967295), (4294967295, 1, 0)))


class Draw:
    """Numbers from a seed: a linear congruence of 64 bits."""

    def __init__(self, seed):
        self.state = seed

    def below(self, count):
        self.state = (self.state * 6364136223846793005
                      + 1442695040888963407) % (1 << 64)
        return (self.state >> 20) % count

    def between(self, low, high):
        return low + self.below(high - low + 1)

    def one_of(self, items):
        return items[self.below(len(items))]

    def shuffled(self, items):
        items = list(items)
        for place in range(len(items) - 1, 0, -1):
            other = self.below(place + 1)
            items[place], items[other] = items[other], items[place]
        return items


def need(draw, memories):
    """A need that fits: a memory of the list, one beside it, or 0."""
    memory = draw.one_of(memories)
    near = draw.one_of((memory, memory, memory - 1, memory + 1, 0))
    return min(max(near, 0), max(memories))


def by_makers(draw, memories, jobs):
    """The order of these jobs, each with a drawn maker. Makers are drawn beside the
    rest: no other number, of this order or a later one, hangs on them."""
    beside = Draw(draw.state + 1)
    palette = beside.one_of(MAKERS)
    return orders.order(memories, [(*job, beside.one_of(palette)) for job in jobs])


def out_of_range(draw, order):
    """The order with one or two maker numbers out of range."""
    jobs = list(order.jobs)
    for _ in range(draw.between(1, 2)):
        place = draw.below(order.n)
        jobs[place] = jobs[place]._replace(maker=draw.one_of(NO_MAKERS))
    return orders.order(order.memories, jobs)


def accepted(draw, m, n, time_most, due_span):
    """An accepted order of m processors and n jobs."""
    palette = draw.one_of(MEMORIES)
    memories = [draw.one_of(palette) for _ in range(m)]
    first = draw.one_of((0, 0, 1, -3, 3, -due_span))
    span = draw.one_of((0, 1, 2, due_span))
    jobs = []
    for _ in range(n):
        if jobs and draw.below(4) == 0:
            jobs.append(draw.one_of(jobs))
            continue
        jobs.append((draw.between(1, time_most), first + draw.between(0, span),
                     need(draw, memories)))
    return by_makers(draw, memories, jobs)


def tiny(draw):
    """Up to 3 processors and 4 jobs of times up to 3."""
    return accepted(draw, draw.between(1, 3), draw.between(1, 4), 3, 5)


def crowded(draw):
    """Tiny with many jobs, so that staircases decide more often."""
    return accepted(draw, draw.between(2, 3), 4, 3, 3)


def stepped(draw):
    """Tiny, and a smaller need is due earlier: the times of the classes differ."""
    memories = draw.one_of(((8, 4), (4, 8), (8, 4, 4), (8, 8, 4), (2, 8, 4)))
    jobs = []
    for _ in range(4):
        memory = draw.one_of(memories)
        jobs.append((draw.between(1, 3), memory // 2 + draw.between(-1, 1), memory))
    return by_makers(draw, memories, jobs)


def middle(draw):
    """Up to 5 processors and 8 jobs of times up to 20."""
    return accepted(draw, draw.between(1, 5), draw.between(1, 8), 20, 25)


def steep(draw):
    """Three or four classes; the smaller the need, the earlier it is due."""
    count = draw.between(3, 4)
    memories = draw.shuffled(range(1, count + 1))
    needs = [draw.between(1, count) for _ in range(draw.between(count, 8))]
    return by_makers(draw, memories, [
        (draw.between(1, 6), 3 * need + draw.between(0, 2), need)
        for need in needs])


def wide(draw, m, n, time_most, due_most):
    """Memories, times and due times over a whole range."""
    memories = [draw.between(0, 4294967295) for _ in range(m)]
    jobs = [(draw.between(1, time_most), draw.between(-due_most, due_most),
             draw.between(0, max(memories))) for _ in range(n)]
    return by_makers(draw, memories, jobs)


def few_memories(draw):
    """Up to 16 processors of few distinct memories, and up to 3 jobs."""
    palette = draw.one_of(MEMORIES)
    if draw.below(2):
        palette = [draw.between(0, orders.WORD_MOST) for _ in range(draw.between(1, 5))]
    memories = [draw.one_of(palette) for _ in range(draw.between(1, 16))]
    return by_makers(draw, memories, [
        (draw.between(1, 9), draw.between(-3, 9), need(draw, memories))
        for _ in range(draw.between(1, 3))])


def apart(draw, jobs):
    """The jobs shuffled so that, by falling need and ties in input order, none lies at
    the place of its number. Their needs are not all equal."""
    while True:
        jobs = draw.shuffled(jobs)
        lying = sorted(range(len(jobs)), key=lambda number: (-jobs[number][2], number))
        if all(place != number for place, number in enumerate(lying)):
            return jobs


def mixed(draw, n, time_most):
    """An accepted order of n jobs, from 4 on, of two or three needs; place and number
    differ for every job."""
    memories, needs = draw.one_of(FEW_NEEDS)
    few = draw.shuffled(needs)[:draw.between(2, 3)]
    needs = few + [draw.one_of(few) for _ in range(n - len(few))]
    return by_makers(draw, memories, apart(draw, [
        (draw.between(1, time_most), draw.between(-2, time_most + 2), need)
        for need in needs]))


def mixed_tiny(draw):
    """Of 4 jobs of times up to 3."""
    return mixed(draw, 4, 3)


def mixed_more(draw):
    """Of 5 to 8 jobs of times up to 20."""
    return mixed(draw, draw.between(5, 8), 20)


def window(draw, last):
    """A window of minutes up to about this one."""
    opening = draw.one_of((0, 0, 1, 2, draw.below(last)))
    length = draw.one_of((1, 2, 3, last, draw.between(1, last), 1000000 - opening))
    return opening, opening + length


def times(draw, order, last=8):
    """Ready minutes and windows in which something changes up to about this minute."""
    latest = draw.one_of((0, 1, 2, last // 2, last))
    windows = [window(draw, last) for _ in order.memories]
    form = draw.below(6)
    if form == 0:
        windows = windows[:1] * order.m
    elif form == 1:
        middle = draw.between(1, last)
        windows = [draw.one_of(((0, middle), (middle, 2 * last))) for _ in windows]
    return timed.times([draw.between(0, latest) for _ in order.jobs], windows)


def wide_open(order):
    """Every job is ready at minute 0, every window as long as may be."""
    return timed.times([0] * len(order.jobs[:orders.JOBS_MOST]),
                       [(0, 1000000)] * len(order.memories[:orders.PROCESSORS_MOST]))


def highs(draw, order, most):
    """A high for each job, up to so many minutes above its time, which is the low."""
    form = draw.below(4)
    if form == 0:
        span = draw.between(1, most)
        return tuple(job.time + span for job in order.jobs)
    if form == 1:
        spans = (0, 0, 1, most)
    else:
        spans = range(most + 1)
    return tuple(job.time + draw.one_of(spans) for job in order.jobs)
