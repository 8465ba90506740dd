"""Cases of orders whose rows are joined: planner and plan check.

Document 02, §2: "Row counts never grow; the buffer asked for stays q × (n + m - 1)
rows. Joined plans are still right plans". The amounts of these orders are forced
at -1, and with them the rows. Each case is (what it shows, record).
"""

import known_orders
from cases_check import case, numbers
from cases_planner import least_case, plan_case


def planned(story, order, rows):
    """A buffer for the rows that are written is too short."""
    yield least_case(story, order)
    yield plan_case(story, order, -1)
    yield plan_case(f"{story}, as many rows as are written", order, -1, 4 * len(rows))


def checked(story, order, parts, rows):
    laid = sum(parts, [])
    yield case(f"{story}, joined", order, -1, numbers(rows))
    if laid != rows:
        yield case(f"{story}, not joined", order, -1, numbers(laid))
    yield case(f"{story}, a part of the last stretch once more", order, -1,
               numbers(rows + parts[-1][:1]))


def cases():
    for story, order, parts, rows in known_orders.JOINED:
        yield from planned(story, order, rows)
        yield from checked(story, order, parts, rows)
