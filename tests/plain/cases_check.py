"""Cases of the plan check.

Document 01: "The plan check takes rows in any order and answers yes or no; a
malformed row gives no. It judges a plan by whomever it was made." "It takes at
most 3,024 rows; an empty list is answered no." Each case is (what it shows,
record).
"""

import draw
import flow
import known_orders
import least
import orders
import search
import wrap
from stream_form import Record

C_ROWS = [(1, 1, 0, 1), (1, 1, 1, 3)]
WORD = 4294967296


def numbers(rows):
    return [number for row in rows for number in row]


def case(story, order, bound, lent):
    return story, Record("check", (order, bound, list(lent)))


def of_document():
    c = known_orders.C
    yield case("● C at -1, rows 0-1 and 1-3", c, -1, numbers(C_ROWS))
    yield case("● C at -1, rows 0-2 and 1-2", c, -1,
               numbers([(1, 1, 0, 2), (1, 1, 1, 2)]))
    for story, order, number, _ in known_orders.REFUSED + known_orders.REFUSED_COUNTS:
        if len(order.jobs) < 48 or number == 4 or "last" in story:
            yield case(story, order, -1, [1, 1, 0, 1])
    for bound in (10000001, -10000001, 2147483647, -2147483648):
        yield case(f"bound {bound}", c, bound, numbers(C_ROWS))
        yield case(f"7 precedes 8: bound {bound}",
                   orders.order([8], [known_orders.BAD_NEED]), bound, [])
    for bound in (10000000, -10000000, -8, -9, -11, -12):
        yield case(f"C at {bound}, rows 0-1 and 1-3", c, bound, numbers(C_ROWS))
    for story, order in known_orders.LIMITS:
        if order.n == 1:
            time = order.jobs[0].time
            yield case(f"one row, {story}", order, 999999 + time,
                       [1, order.m, 0, time])


def one_job(story, *rows, bound=-1, over=()):
    """C (memory 4, job (3, 10, 4)) with these rows, numbers left over."""
    return case(f"C at {bound}, {story}", known_orders.C, bound,
                numbers(rows) + list(over))


def malformed():
    good, top = (1, 1, 0, 3), WORD - 1
    yield one_job("the whole job in one row", good)
    yield one_job("the latest row", (1, 1, 7, 10))
    yield one_job("one minute late", (1, 1, 8, 11))
    yield one_job("the due minute is the last", (1, 1, 8, 11), bound=0)
    yield one_job("the minute after the due minute", (1, 1, 9, 12), bound=0)
    yield one_job("no rows")
    for count in (1, 2, 3):
        yield one_job(f"{count} numbers left over", good, over=[1, 1, 3][:count])
        yield one_job(f"{count} zeros left over", good, over=[0] * count)
        yield one_job(f"only {count} numbers", over=[1, 1, 0][:count])
    for row in ((0, 1, 3, 4), (2, 1, 3, 4), (top, 1, 3, 4), (1, 0, 3, 4),
                (1, 2, 3, 4), (1, top, 3, 4), (1, 1, 3, 3), (1, 1, 0, 0),
                (1, 1, 5, 4), (1, 1, top, 0), (0, 0, 0, 0), (1, 1, 3, 4),
                (1, 1, 2, 3), (1, 1, top, top), (1, 1, 9, top),
                (1, 1, 2147483648, 2147483649), (257, 1, 3, 4), (1, 257, 3, 4),
                (65537, 1, 3, 4)):
        yield one_job(f"a right plan and the row {row}", good, row)
        yield one_job(f"only the row {row}", row)
    for to in (1, 2, 4, 5, WORD - 1, 2147483651, 3 + 65536, 3 + 256):
        yield one_job(f"one row 0-{to}", (1, 1, 0, to))
    yield one_job("lengths 5 and -2, in all 3", (1, 1, 0, 5), (1, 1, 7, 5))
    yield one_job("row 10 to 7: length -3", (1, 1, 10, 7))
    yield one_job("from near 2^32 and a length of 3", (1, 1, WORD - 1, 2))
    yield one_job("row order backwards", (1, 1, 9, 10), (1, 1, 4, 5), (1, 1, 0, 1))
    yield one_job("one row doubled", (1, 1, 0, 2), (1, 1, 2, 3), (1, 1, 2, 3))


def two_processors():
    fit = orders.order([8, 4], [(1, 9, 5)])
    for processor in (1, 2):
        yield case(f"need 5 on processor {processor} of memories 8, 4", fit, -1,
                   [1, processor, 0, 1])
    two = orders.order([4, 4], [(2, 9, 4), (2, 9, 4)])
    for story, rows in (
            ("side by side", [(1, 1, 0, 2), (2, 2, 0, 2)]),
            ("touching, from one processor to the other",
             [(1, 1, 0, 1), (1, 2, 1, 2), (2, 1, 1, 3)]),
            ("a processor overlaps by one", [(1, 1, 0, 2), (2, 1, 1, 3)]),
            ("a job on both processors at once",
             [(1, 1, 0, 1), (1, 2, 0, 1), (2, 1, 1, 3)]),
            ("a row inside another of its processor",
             [(1, 1, 0, 1), (1, 1, 4, 5), (2, 1, 0, 2)]),
            ("job 2 has no row", [(1, 1, 0, 2)]),
            ("the minutes of both jobs in one", [(1, 1, 0, 4)]),
            ("too much for one, too little for the other",
             [(1, 1, 0, 3), (2, 2, 0, 1)])):
        yield case(f"two jobs, {story}", two, -1, numbers(rows))


def full_size():
    of = draw.Draw(509)
    for name, order in (("full", known_orders.FULL),
                        ("48 equal jobs", known_orders.FULL_EQUAL)):
        bound = least.least(order)
        rows = wrap.plan(order, bound, flow.amounts(order, bound))
        yield case(f"{name} at {bound}, {len(rows)} rows in any order", order,
                   bound, numbers(of.shuffled(rows)))


def ends():
    for due, bound in ((-5, -1), (-5, 4), (-5, 5), (0, -1), (0, 0), (-5, 6),
                       (-1000000, -10000000), (1000000, 10000000), (-3, 2)):
        order = orders.order([1], [(1, due, 1)])
        end = orders.end_at(due, bound)
        for to in (0, 1, 2, end, end + 1):
            if 0 <= to:
                yield case(f"end {end}, row to {to}", order, bound,
                           [1, 1, max(to - 1, 0), to])
    sums = orders.order([1], [(3, 1000000, 1)])
    count = 400
    each, rest = divmod(WORD + 3, count)
    yield case("400 rows over each other, their lengths 3 modulo 2^32", sums,
               10000000, [x for i in range(count)
                          for x in (1, 1, 0, each + (i < rest))])


def large():
    long = orders.order([4], [(3024, 3024, 4)])
    minutes = [(1, 1, t, t + 1) for t in range(3025)]
    of = draw.Draw(503)
    yield case("3,024 rows in any order", long, -1,
               numbers(of.shuffled(minutes[:3024])))
    yield case("3,025 rows", orders.order([4], [(3025, 3025, 4)]), -1,
               numbers(minutes))
    yield case("3,024 rows and 1 number left over", long, -1,
               numbers(minutes[:3024]) + [1])
    yield case("8 precedes 11: 3,026 rows", known_orders.C, 10000001,
               numbers(minutes) + [1, 1, 0, 1])


def joined(rows):
    """Touching rows of one job on one processor made one row."""
    found = []
    for row in sorted(rows, key=lambda row: (row[0], row[1], row[2])):
        if found and found[-1][:2] == row[:2] and found[-1][3] == row[2]:
            row = found.pop()[:3] + row[3:]
        found.append(row)
    return found


def made(of, order, bound):
    """A right plan in one of four forms, and the name of the form."""
    form = of.below(4)
    if form == 0:
        return "the wrap", wrap.plan(order, bound, flow.amounts(order, bound))
    minutes = search.plan(order, bound)
    if form == 1:
        return "one row a minute", minutes
    if form == 2:
        return "touching rows made one", joined(minutes)
    rows = []
    for job, processor, begin, to in wrap.plan(
            order, bound, flow.amounts(order, bound)):
        middle = of.between(begin, to)
        rows += [row for row in ((job, processor, begin, middle),
                                 (job, processor, middle, to)) if row[2] < row[3]]
    return "split rows", rows


def change_row(name, of, order, row):
    """One row changed in the way named."""
    job, processor, begin, to = row
    other = {
        "a minute earlier": (job, processor, max(begin - 1, 0), to),
        "a minute longer": (job, processor, begin, to + 1),
        "a minute shorter": (job, processor, begin, to - 1),
        "one minute later": (job, processor, begin + 1, to + 1),
        "another processor": (job, of.between(1, order.m), begin, to),
        "another job": (of.between(1, order.n), processor, begin, to),
        "job 0": (0, processor, begin, to),
        "job n + 1": (order.n + 1, processor, begin, to),
        "processor 0": (job, 0, begin, to),
        "processor m + 1": (job, order.m + 1, begin, to),
        "from = to": (job, processor, to, to),
        "from and to exchanged": (job, processor, to, begin),
    }
    return other[name]


ROW_CHANGES = ("a minute earlier", "a minute longer", "a minute shorter",
               "one minute later", "another processor", "another job", "job 0",
               "job n + 1", "processor 0", "processor m + 1", "from = to",
               "from and to exchanged")
WHOLE_CHANGES = ("a row dropped", "a row doubled", "numbers left over",
                 "numbers missing", "the bound one less", "no rows")


def changed(of, order, bound, rows):
    """A plan with one change: (its name, bound, numbers)."""
    name = of.one_of(("right",) * 9 + ROW_CHANGES + WHOLE_CHANGES)
    rows = of.shuffled(rows)
    if name in ROW_CHANGES:
        rows[0] = change_row(name, of, order, rows[0])
        rows = of.shuffled(rows)
    elif name == "a row dropped":
        rows = rows[1:]
    elif name == "a row doubled":
        rows = rows + rows[:1]
    elif name == "the bound one less":
        bound -= 1
    elif name == "no rows":
        rows = []
    lent = numbers(rows)
    if name == "numbers left over":
        lent += [of.below(3) for _ in range(of.between(1, 3))]
    elif name == "numbers missing":
        lent = lent[:-of.between(1, 3)]
    return name, bound, lent


def drawn(count):
    of = draw.Draw(504)
    for number in range(count):
        order = of.one_of((draw.tiny, draw.crowded, draw.stepped))(of)
        bound = least.least(order) + of.one_of((0, 0, 0, 1, 3))
        form, rows = made(of, order, bound)
        name, bound, lent = changed(of, order, bound, rows)
        yield case(f"drawn order {number} at {bound}, {form}: {name}",
                   order, bound, lent)


def cases():
    for part in (of_document(), malformed(), two_processors(), full_size(), ends(),
                 large(), drawn(390)):
        yield from part
