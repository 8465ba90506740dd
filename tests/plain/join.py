"""Joining: the rows of stretches that follow one another.

Document 02, §2: "Where a job ends a stretch on a processor and opens the next
stretch on that processor, makers want one row, since each row costs them a
reload. The layout of a stretch must therefore say which job each processor ends
with. A joined row stands where its earliest part stood. Row counts never grow;
[..]. Joined plans are still right plans, and a second joining finds nothing to
join."
"""

import wrap


def ends_with(rows, end):
    """Which job each processor ends a stretch with, as {processor: job}. A
    processor that rests before the stretch's end ends it with no job."""
    return {processor: job for job, processor, _, to in rows if to == end}


def opens(part, begin, ended):
    """Does the part open its stretch, by the job with which its processor ended
    the stretch before?"""
    job, processor, start, _ = part
    return start == begin and ended.get(processor) == job


def lengthen(rows, part):
    """The row that the part goes on with takes it in, and stays where it stands."""
    job, processor, start, to = part
    for place, row in enumerate(rows):
        if (row[0], row[1], row[3]) == (job, processor, start):
            rows[place] = (job, processor, row[2], to)


def joined(stretches, parts):
    """The joined rows. `parts` has the rows of each stretch, in their order; a
    part that lengthens no row stands behind all rows so far. A stretch begins
    where the one before ends."""
    rows = []
    for (begin, _), of_stretch in zip(stretches, parts):
        ended = ends_with(rows, begin)
        for part in of_stretch:
            if opens(part, begin, ended):
                lengthen(rows, part)
            else:
                rows.append(part)
    return rows


def plan(order, bound, amounts):
    """The rows of a plan: the amounts laid out, stretch by stretch, and joined."""
    return joined(wrap.stretches(order, bound),
                  wrap.by_stretch(order, bound, amounts))


def left_to_join(rows):
    """Two rows (their numbers, from 1) of one job on one processor, the second
    from where the first ends; None if a joining finds nothing to join."""
    begins = {(job, processor, start): number
              for number, (job, processor, start, _) in enumerate(rows, 1)}
    for number, (job, processor, _, to) in enumerate(rows, 1):
        if (job, processor, to) in begins:
            return number, begins[job, processor, to]
    return None
