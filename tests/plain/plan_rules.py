"""When a plan is right: the four rules, also in parts of a minute.

Document 01: "A row is job, processor, from, to (four 32-bit unsigned numbers)
and occupies the minutes from `from` up to but not including `to`. A plan is
right for an order and a bound if:
- every row names an existing job and processor that fit, and `from` is below
  `to`;
- `to` is at most the job's end;
- two rows of one job never overlap, nor two rows of one processor; touching is
  no overlap;
- the lengths of a job's rows add up to its time exactly."
"Where each minute is cut into p equal parts, p a whole number from 1, `from`
and `to` count parts from 0 and may be of any size; a plan in such parts is
right if the four rules hold with p × end for the job's end and p × time for
its time."

Each rule gives None where it holds, else words that say where it does not.
The later rules are asked only where the first one holds.
"""

import orders


def names_that_fit(order, bound, rows, parts):
    """The first rule. A row of fewer than four numbers is malformed."""
    for number, row in enumerate(rows, 1):
        if len(row) != 4:
            return f"row {number}: malformed, {len(row)} numbers"
        job, processor, begin, to = row
        if not 1 <= job <= order.n:
            return f"row {number}: no job {job}"
        if not 1 <= processor <= order.m:
            return f"row {number}: no processor {processor}"
        if not orders.fits(order.jobs[job - 1], order.memories[processor - 1]):
            return f"row {number}: job {job} does not fit processor {processor}"
        if not 0 <= begin < to:
            return f"row {number}: from {begin} is not below to {to}"
    return None


def by_the_end(order, bound, rows, parts):
    """The second rule."""
    for number, (job, _, _, to) in enumerate(rows, 1):
        end = orders.end(order.jobs[job - 1], bound, parts)
        if to > end:
            return f"row {number}: to {to} is after the end {end} of job {job}"
    return None


def overlap(spans):
    """The first two of these spans that overlap, else None."""
    spans = sorted(spans)
    for earlier, later in zip(spans, spans[1:]):
        if later[0] < earlier[1]:
            return earlier, later
    return None


def no_overlap(order, bound, rows, parts):
    """The third rule."""
    for column, name in ((0, "job"), (1, "processor")):
        spans = {}
        for row in rows:
            spans.setdefault(row[column], []).append((row[2], row[3]))
        for number, of_one in sorted(spans.items()):
            both = overlap(of_one)
            if both:
                return (f"{name} {number}: rows {both[0][0]}-{both[0][1]} and "
                        f"{both[1][0]}-{both[1][1]} overlap")
    return None


def full_time(order, bound, rows, parts):
    """The fourth rule."""
    for number, job in enumerate(order.jobs, 1):
        given = sum(row[3] - row[2] for row in rows if row[0] == number)
        if given != parts * job.time:
            return f"job {number}: gets {given}, not its time {parts * job.time}"
    return None


RULES = [names_that_fit, by_the_end, no_overlap, full_time]


def broken_rule(order, bound, rows, parts=1):
    """None if the plan is right, else the first rule that it breaks."""
    for rule in RULES:
        said = rule(order, bound, rows, parts)
        if said:
            return said
    return None


def right(order, bound, rows, parts=1):
    return broken_rule(order, bound, rows, parts) is None
