"""What each entry point answers, as the lines of the expected outputs.

Document 01: "The planner uses 1 to 10 (least lateness: not 8 and 10), the check
1 to 8 and 11, the reader 1 to 7 and 12, the writer 1 to 7 and 9." "The lowest
applicable number is given". Row 9 for the planner: "lent buffer too short:
below q × (n + m - 1) rows"; one to three numbers left over are "in the planner
no further row of the buffer".
Document 02, §4: "A maker number out of range is 13, right after 6 in the
order": 13 belongs to every entry point that is given an order.
Document 02, §1: "`try-bound` prints this line after its `tight` line".
Document 02, §10: "the limit belongs to the call": each is given its caller's limits,
the dock's where none are named.
"""

import least
import order_file
import orders
import plan_check
import reason
import reason_large
import sentence


def refused(refusal):
    return [f"refused {refusal.number} {refusal.carried}"]


def order_lines(order):
    return [f"order {order.m} {order.n}",
            *(f"processor {memory}" for memory in order.memories),
            *(f"job {job.time} {job.due} {job.need} {job.maker}"
              for job in order.jobs)]


def read(data, limits=orders.DOCK):
    answer = order_file.read(data, limits)
    if isinstance(answer, orders.Refusal):
        return refused(answer)
    return order_lines(answer)


def check(order, bound, numbers, limits=orders.DOCK):
    answer = plan_check.answer(order, bound, numbers, limits)
    if isinstance(answer, orders.Refusal):
        return refused(answer)
    return ["yes" if answer else "no"]


def write(order, room, limits=orders.DOCK):
    answer = order_file.write(order, room, limits)
    if isinstance(answer, orders.Refusal):
        return refused(answer)
    return [f"file {len(answer)} {answer.hex()}"]


def planner_refusal(order, room, bound=None, limits=orders.DOCK):
    """Rows 1 to 7 and 13, then 8 (if there is a bound), then 9."""
    refusal = orders.refusal(order, limits)
    if refusal:
        return refusal
    if bound is not None and not orders.bound_in_range(bound):
        return orders.Refusal(8, 0)
    if room // 4 < orders.rows_needed(order):
        return orders.Refusal(9, 0)
    return None


def least_lateness(order, room, limits=orders.DOCK):
    refusal = planner_refusal(order, room, limits=limits)
    if refusal:
        return refused(refusal)
    return [f"least {least.least(order)}"]


def why_tight(order, bound):
    """The reason, by going through all staircases where they are few."""
    if reason.few_staircases(order):
        return reason.reason(order, bound)
    return reason.reason(order, bound, reason_large.first_overfull)


def plan(order, bound, room, limits=orders.DOCK):
    refusal = planner_refusal(order, room, bound, limits)
    if refusal:
        return refused(refusal)
    why = why_tight(order, bound)
    if why is None:
        return ["meets"]
    if why.kind == "job":
        return [f"tight job {why.values}"]
    return ["tight stairs " + " ".join(map(str, why.values))]


def try_bound(order, bound):
    """What try-bound prints: room it has, and the line of the reason follows a
    `tight` line."""
    lines = plan(order, bound, 4 * orders.rows_needed(order))
    if lines[0].startswith("tight"):
        lines.append(sentence.line(order, bound, why_tight(order, bound)))
    return lines


def compose(order, bound, kind, which, time, dues, room, limits=orders.DOCK):
    handed = sentence.Handed(kind, which, time, dues)
    answer = sentence.compose(order, bound, handed, room, limits)
    if isinstance(answer, orders.Refusal):
        return refused(answer)
    return [f"line {len(answer)} {answer}" if answer else "line 0"]


def parse(order, bound, data, limits=orders.DOCK):
    answer = sentence.read_back(order, bound, data, limits)
    if isinstance(answer, orders.Refusal):
        return refused(answer)
    if answer is None:
        return ["none"]
    if answer.kind == "job":
        return [f"job {answer.values} {order.jobs[answer.values - 1].time}"]
    return ["stairs " + " ".join(map(str, answer.values))]
