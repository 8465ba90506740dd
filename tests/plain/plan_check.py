"""The plan check.

Document 01: "The plan check takes rows in any order and answers yes or no; a
malformed row gives no." "It takes at most 3,024 rows; an empty list is
answered no. Rows are lent as numbers, four to a row: one to three left over at
the end are, in the check, one more row and a malformed one". The check uses
rows 1 to 8 and 11 of the refusal table, with document 02's 13 right after 6.
"""

import orders
import plan_rules

ROWS_MOST = 3024


def rows(numbers):
    """The rows lent as numbers; what is left over is a row of its own."""
    return [tuple(numbers[i:i + 4]) for i in range(0, len(numbers), 4)]


def refusal(order, bound, numbers, limits=orders.DOCK):
    """Rows 1 to 7 and 13, then 8, then 11."""
    refused = orders.refusal(order, limits)
    if refused:
        return refused
    if not orders.bound_in_range(bound):
        return orders.Refusal(8, 0)
    if len(rows(numbers)) > ROWS_MOST:
        return orders.Refusal(11, 0)
    return None


def answer(order, bound, numbers, limits=orders.DOCK):
    """A refusal, or True for yes and False for no."""
    refused = refusal(order, bound, numbers, limits)
    if refused:
        return refused
    return plan_rules.right(order, bound, rows(numbers))
