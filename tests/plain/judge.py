"""The judge of written plans, by documents 01 and 02 alone.

Document 01: "The row count answered is the number of rows written; the lent
buffer beyond them is unchanged. One freedom is granted: which amounts a job
gets in which stretch. Of them it holds that the rows written are their layout
and a right plan." Document 02, §2: "Where a job ends a stretch on a processor
and opens the next stretch on that processor, makers want one row". So a plan is
judged, never compared with one fixed plan: its own amounts are taken from its
rows, laid out anew and joined.

Each judge gives None where all is well, else words that name what is broken.
All but `broken` and `broken_buffer` are asked of right plans only.
"""

import join
import orders
import plan_rules
import wrap


def begins_in(row, stretches):
    """The place of the stretch in which a row begins."""
    for place, (begin, end) in enumerate(stretches):
        if begin <= row[2] < end:
            return place
    return None


def parts(row, stretches):
    """A row cut at the ends, as (place of the stretch, from, to)."""
    cut = [(place, max(begin, row[2]), min(end, row[3]))
           for place, (begin, end) in enumerate(stretches)]
    return [part for part in cut if part[1] < part[2]]


def amounts_in(stretches, rows):
    """What rows give each job in each of these stretches."""
    amounts = {}
    for row in rows:
        for place, begin, to in parts(row, stretches):
            key = row[0] - 1, place
            amounts[key] = amounts.get(key, 0) + to - begin
    return amounts


def own_amounts(order, bound, rows):
    """What the plan's own rows give each job in each stretch."""
    return amounts_in(wrap.stretches(order, bound), rows)


def in_place(order, stretches, rows):
    # "Rows stand by stretch, then by that processor order, then by `from`." "A
    # joined row stands where its earliest part stood."
    rank = {number: place
            for place, number in enumerate(wrap.processor_order(order))}
    keys = [(begins_in(row, stretches), rank[row[1]], row[2]) for row in rows]
    for number, (one, next_one) in enumerate(zip(keys, keys[1:]), 1):
        if one >= next_one:
            return f"row {number + 1} stands in a wrong place"
    return None


def row_order(order, bound, rows):
    return in_place(order, wrap.stretches(order, bound), rows)


def nothing_to_join(order, bound, rows):
    # "a second joining finds nothing to join"
    two = join.left_to_join(rows)
    if two:
        return f"rows {two[0]} and {two[1]} are not joined"
    return None


def as_wanted(rows, wanted):
    """Row by row, "the rows written are their layout", joined."""
    for number, (row, other) in enumerate(zip(rows, wanted), 1):
        if tuple(row) != other:
            return (f"row {number}: {' '.join(map(str, row))} is not the wrap's "
                    f"{' '.join(map(str, other))}")
    if len(rows) != len(wanted):
        return f"{len(rows)} rows, but the wrap, joined, has {len(wanted)}"
    return None


def laid_and_joined(order, bound, rows):
    return as_wanted(rows, join.plan(order, bound, own_amounts(order, bound, rows)))


def broken(order, bound, rows, count):
    """The judge of rows and the row count answered."""
    if count != len(rows):
        return f"the count is {count}, but {len(rows)} rows are written"
    rule = plan_rules.broken_rule(order, bound, rows)
    if rule:
        return rule
    if len(rows) > orders.rows_needed(order):
        return f"over {orders.rows_needed(order)} rows"
    for judge in (row_order, nothing_to_join, laid_and_joined):
        said = judge(order, bound, rows)
        if said:
            return said
    return None


def broken_buffer(order, bound, before, after, count):
    """The judge of a lent buffer of numbers, as it was before the call and as
    it is after it."""
    if len(before) != len(after) or 4 * count > len(after):
        return "the buffer does not hold the count"
    if before[4 * count:] != after[4 * count:]:
        return "the buffer beyond the rows is changed"
    rows = [tuple(after[i:i + 4]) for i in range(0, 4 * count, 4)]
    return broken(order, bound, rows, count)
