"""The judge of written plans with times.

Document 02, §5: "Its stretches lie between those times, laid out on the open
processors as in document 01 and joined as in §2." Which amounts a job gets in which
stretch is free, so a plan is judged by its own amounts, as in judge.py.
"""

import judge
import timed
import timed_plan
import timed_rules


def layout_broken(order, bound, given, rows):
    """Do the rows stand in their places, joined, as the wrap lays them out?"""
    stretches = timed_plan.stretches(order, bound, given)
    wanted = timed_plan.plan(order, bound, given, judge.amounts_in(stretches, rows))
    return (judge.in_place(order, stretches, rows)
            or judge.nothing_to_join(order, bound, rows)
            or judge.as_wanted(rows, wanted))


def broken(order, bound, given, rows, count):
    """None where all is well, else words that name what is broken."""
    if count != len(rows):
        return f"the count is {count}, but {len(rows)} rows are written"
    rule = timed_rules.broken_rule(order, bound, given, rows)
    if rule:
        return rule
    if len(rows) > timed.rows_asked(order, bound, given):
        return f"over {timed.rows_asked(order, bound, given)} rows"
    return layout_broken(order, bound, given, rows)
