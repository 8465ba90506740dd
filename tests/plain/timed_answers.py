"""What the three entry points with times answer, as lines of the expected outputs.

Document 02, §5: "It answers a right plan [..] or too tight where there is none,
without a reason." Row 9 as in document 01, with the rows asked for here: one to
three numbers left over are no further row of the buffer.
"""

import orders
import timed
import timed_check
import timed_plan
from answers import refused


def asked(order, bound, given, limits=orders.DOCK):
    """How many rows to lend."""
    refusal = timed.refusal(order, bound, given, limits)
    if refusal:
        return refused(refusal)
    return [f"asked {timed.rows_asked(order, bound, given)}"]


def planner_refusal(order, bound, given, room, limits=orders.DOCK):
    """Rows 1 to 7 and 13, then 15, 16 and 8, then 9."""
    refusal = timed.refusal(order, bound, given, limits)
    if refusal:
        return refusal
    if room // 4 < timed.rows_asked(order, bound, given):
        return orders.Refusal(9, 0)
    return None


def planned(order, bound, given, room, limits=orders.DOCK):
    """`meets` and what the check answers to the rows written, or `tight`."""
    refusal = planner_refusal(order, bound, given, room, limits)
    if refusal:
        return refused(refusal)
    shares = timed_plan.amounts(order, bound, given)
    if shares is None:
        return ["tight"]
    rows = timed_plan.plan(order, bound, given, shares)
    return ["meets", *checked(order, bound, given, [
        number for row in rows for number in row], limits)]


def checked(order, bound, given, numbers, limits=orders.DOCK):
    answer = timed_check.answer(order, bound, given, numbers, limits)
    if isinstance(answer, orders.Refusal):
        return refused(answer)
    return ["yes" if answer else "no"]
