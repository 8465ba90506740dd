"""The check of plans with times.

Document 02, §5: "its check asks the same of up to 8,064 rows, more is 11." As in
document 01's check an empty list is answered no, and one to three numbers left over
at the end are one more row and a malformed one.
"""

import orders
import plan_check
import timed
import timed_rules

ROWS_MOST = 8064


def refusal(order, bound, given, numbers, limits=orders.DOCK):
    """Rows 1 to 7 and 13, then 15, 16 and 8, then 11."""
    refused = timed.refusal(order, bound, given, limits)
    if refused:
        return refused
    if len(plan_check.rows(numbers)) > ROWS_MOST:
        return orders.Refusal(11, 0)
    return None


def answer(order, bound, given, numbers, limits=orders.DOCK):
    """A refusal, or True for yes and False for no."""
    refused = refusal(order, bound, given, numbers, limits)
    if refused:
        return refused
    return timed_rules.right(order, bound, given, plan_check.rows(numbers))
