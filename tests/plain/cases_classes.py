"""Cases of the classes of an order with their processors.

Document 01: "Sort the distinct memories downwards: class 1 is the largest." Document
02, §6: "The listing of classes and their counts is the former one for every order."
Each case is (what it shows, record).
"""

import itertools

import draw
import known_classes
import known_orders
import orders
from known_classes import BAD_JOBS, FOUR, SMALL
from stream_form import Record


def case(story, order):
    return story, Record("classes", (order,))


def listed(story, memories, jobs=(SMALL,)):
    """With one small job, where none are named."""
    return case(story, orders.order(memories, jobs))


def text(memories):
    return " ".join(map(str, memories))


def worked():
    for story, memories, _ in known_classes.LISTED:
        few = len(memories) < 16
        yield listed(f"{story}: {text(memories)}" if few else story, memories)
    for count in range(1, len(FOUR) + 1):
        passed = sorted(FOUR, reverse=True)[:count]
        yield listed(f"{text(FOUR)}, {count} passed: {text(passed)}", passed)


def each_input_order():
    for memories in sorted(set(itertools.permutations(FOUR))):
        yield listed(f"in another input order: {text(memories)}", memories)
    for memories in itertools.product((0, 4, orders.WORD_MOST), repeat=3):
        yield listed(f"three processors: {text(memories)}", memories)


def ties():
    """Of five processors every choice of neighbours that are equal; of sixteen one
    tie, and one step, at each place."""
    of = draw.Draw(541)
    for steps in itertools.product((0, 1), repeat=4):
        memories = [9 - sum(steps[:place]) for place in range(5)]
        yield listed(f"steps {text(steps)}: {text(memories)}", memories)
        memories = of.shuffled(memories)
        yield listed(f"steps {text(steps)}, not sorted: {text(memories)}", memories)
    for place in range(1, 16):
        tie = [20 - other + (other > place) for other in range(1, 17)]
        step = [8] * place + [4] * (16 - place)
        for name, memories in (("a tie", tie), ("a step", step)):
            yield listed(f"{name} at place {place} of 16 processors", memories)
            yield listed(f"{name} at place {place} of 16 processors, not sorted",
                         of.shuffled(memories))


def any_jobs():
    """Needs and jobs of classes change nothing."""
    for needs in ((8,), (2,), (0,), (5,), (3, 3), (8, 8, 8), (4, 4, 2), (2, 4, 8),
                  (1, 6, 7, 0), (8, 4, 4, 2)):
        yield listed(f"{text(FOUR)}, needs {text(needs)}", FOUR,
                     [(1, 9, need) for need in needs])
    yield listed("48 jobs, four processors", FOUR,
                 [(1, 9, place % 9) for place in range(48)])
    for name, order in known_orders.NAMED.items():
        yield case(name, order)
    for story, order in known_orders.LIMITS:
        yield case(story, order)


def refused():
    for story, order, _, _ in known_orders.REFUSED + known_orders.REFUSED_COUNTS:
        yield case(story, order)
    for story, jobs, _, _ in BAD_JOBS:
        yield listed(f"{text(FOUR)}, {story}", FOUR, jobs)
        if len(jobs) < 48:
            yield listed(f"no processor and {story}", [], jobs)
            yield listed(f"17 distinct memories and {story}", range(17), jobs)
    yield listed("17 distinct memories", range(17))


def drawn(count):
    of = draw.Draw(542)
    for number in range(count):
        yield case(f"drawn memories {number}", draw.few_memories(of))


def drawn_refused(count):
    of = draw.Draw(543)
    for number in range(count):
        yield case(f"drawn memories {number}, a maker out of range",
                   draw.out_of_range(of, draw.few_memories(of)))


def cases():
    for part in (worked(), each_input_order(), ties(), any_jobs(), refused(),
                 drawn(210), drawn_refused(12)):
        yield from part
