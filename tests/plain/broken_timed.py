"""What document 02, §5, invites to get wrong: ready minutes and windows.

"A ready minute out of range is 15 and a window out of range or not closing after it
opens is 16, both directly before 8." "Its stretches lie between those times, laid out
on the open processors". Each variant is as in broken.py: what is broken, where, by
what, and the test that catches it.
"""

import answers
import draw
import flow
import judge
import orders
import plan_check
import plan_rules
import search
import stream_form
import timed
import timed_answers
import timed_check
import timed_judge
import timed_plan
import timed_rules
import timed_search
import wrap

READY = "test_timed.Refusals.test_ready_minutes"
WINDOWS = "test_timed.Refusals.test_windows"
FIRST = "test_timed.Refusals.test_first_ones"
BEFORE_8 = "test_timed.Refusals.test_before_8"
OF_ORDER = "test_timed.Refusals.test_after_those_of_the_order"
ROOM = "test_timed.Refusals.test_9_and_10"

right_refusal = timed.refusal
right_ready = timed.ready_not_in_range
right_window = timed.window_not_good


def rows(ready=right_ready, window=right_window):
    """The two rows with other conditions."""
    return (15, ready), (16, window)


def last(items, holds):
    return max((number for number, item in enumerate(items, 1) if holds(item)),
               default=None)


def late(minute):
    return minute > 1000000


def empty(window):
    return max(window) > 1000000 or window[1] <= window[0]


def told(condition, carried):
    """The condition, with another number carried."""
    return lambda given: None if condition(given) is None else carried(given)


def windows_where(holds):
    return lambda given: timed.first(given.windows, holds)


def signed(number):
    return number - 4294967296 if number > 2147483647 else number


def times_after_8(*numbers):
    """These of the two judged after 8, the other before it."""
    def refusal(order, bound, given, limits):
        refused = right_refusal(order, bound, given, limits)
        if refused and refused.number in numbers and not orders.bound_in_range(bound):
            return orders.Refusal(8, 0)
        return refused
    return refusal


def times_before(number):
    """The times judged before this row of the order."""
    def refusal(order, bound, given, limits):
        refused = right_refusal(order, bound, given, limits)
        if refused and refused.number == number:
            return timed.refusal_of_times(given) or refused
        return refused
    return refusal


def without_times(order, bound, given):
    return right_refusal(order, bound, draw.wide_open(order))


def asked_without_times(order, bound, given):
    refused = without_times(order, bound, given)
    if refused:
        return answers.refused(refused)
    return [f"asked {timed.rows_asked(order, bound, given)}"]


def planner_without_times(order, bound, given, room, limits):
    refused = right_planner_refusal(order, bound, given, room, limits)
    if refused and refused.number in (15, 16):
        return without_times(order, bound, given)
    return refused


def check_without_times(order, bound, given, lent, limits):
    return plan_check.refusal(order, bound, lent[:4], limits)


def nine_before(number):
    def refusal(order, bound, given, room, limits):
        refused = right_planner_refusal(order, bound, given, room, limits)
        if (refused and refused.number == number
                and room // 4 < timed.rows_asked(order, bound, given)):
            return orders.Refusal(9, 0)
        return refused
    return refusal


def tight_before_9(order, bound, given, room, limits):
    refused = right_planner_refusal(order, bound, given, room, limits)
    if refused and refused.number == 9 and not timed_plan.meets(order, bound, given):
        return None
    return refused


right_planner_refusal = timed_answers.planner_refusal

REFUSALS = [
    ("1,000,000 refused of a ready minute", timed, "ROWS",
     rows(ready=lambda given: timed.first(given.ready, lambda one: one >= 1000000)),
     READY),
    ("1,000,001 let through", timed, "MINUTE_MOST", 1000001, READY),
    ("1,000,001 let through of a closing", timed, "MINUTE_MOST", 1000001, WINDOWS),
    ("1,000,000 refused of a closing", timed, "ROWS",
     rows(window=windows_where(lambda one: empty(one) or one[1] == 1000000)), WINDOWS),
    ("ready minutes from 1", timed, "MINUTE_LEAST", 1, READY),
    ("openings from 1", timed, "MINUTE_LEAST", 1, WINDOWS),
    ("ready minutes not judged", timed, "ROWS", rows()[1:], READY),
    ("windows not judged", timed, "ROWS", rows()[:1], WINDOWS),
    ("ready minutes in two's complement", timed, "ROWS",
     rows(ready=lambda given: timed.first(
         given.ready, lambda one: signed(one) > 1000000)), READY),
    ("windows in two's complement", timed, "ROWS", rows(window=windows_where(
        lambda one: max(map(signed, one)) > 1000000 or one[1] <= one[0])), WINDOWS),
    ("a window that closes as it opens let through", timed, "ROWS",
     rows(window=windows_where(lambda one: max(one) > 1000000 or one[1] < one[0])),
     WINDOWS),
    ("a window of one minute refused", timed, "ROWS",
     rows(window=windows_where(lambda one: empty(one) or one[1] == one[0] + 1)),
     WINDOWS),
    ("a window that closes before it opens let through", timed, "ROWS",
     rows(window=windows_where(lambda one: max(one) > 1000000)), WINDOWS),
    ("closings of any size", timed, "ROWS", rows(window=windows_where(
        lambda one: one[0] > 1000000 or one[1] <= one[0])), WINDOWS),
    ("16 before 15", timed, "ROWS", rows()[::-1], BEFORE_8),
    ("15 and 16 after 8", timed, "refusal", times_after_8(15, 16), BEFORE_8),
    ("15 after 8", timed, "refusal", times_after_8(15), BEFORE_8),
    ("16 after 8", timed, "refusal", times_after_8(16), BEFORE_8),
    ("15 and 16 before 7", timed, "refusal", times_before(7), OF_ORDER),
    ("15 and 16 before 13", timed, "refusal", times_before(13), OF_ORDER),
    ("15 and 16 before 5", timed, "refusal", times_before(5), OF_ORDER),
    ("15 and 16 before 1", timed, "refusal", times_before(1), OF_ORDER),
    ("15 carries 0", timed, "ROWS", rows(ready=told(right_ready, lambda given: 0)),
     READY),
    ("16 carries 0", timed, "ROWS", rows(window=told(right_window, lambda given: 0)),
     WINDOWS),
    ("15 carries the last such job", timed, "ROWS",
     rows(ready=lambda given: last(given.ready, late)), FIRST),
    ("16 carries the last such processor", timed, "ROWS",
     rows(window=lambda given: last(given.windows, empty)), FIRST),
    ("15 carries the ready minute", timed, "ROWS", rows(ready=told(
        right_ready, lambda given: given.ready[right_ready(given) - 1])), READY),
    ("16 carries a job", timed, "ROWS",
     rows(window=told(right_window, lambda given: 1)), FIRST),
    ("jobs counted from 0 in 15", timed, "ROWS",
     rows(ready=told(right_ready, lambda given: right_ready(given) - 1)), READY),
    ("windows out of range before those that do not close", timed, "ROWS",
     rows(window=lambda given: windows_where(lambda one: max(one) > 1000000)(given)
          or right_window(given)), FIRST),
    ("windows that do not close before those out of range", timed, "ROWS",
     rows(window=lambda given: windows_where(lambda one: one[1] <= one[0])(given)
          or right_window(given)), FIRST),
    ("only as many windows judged as there are jobs", timed, "ROWS", rows(
        window=lambda given: timed.first(given.windows[:len(given.ready)], empty)),
     "test_timed.Refusals.test_processor_without_a_job"),
    ("how many rows to lend without 15 and 16", timed_answers, "asked",
     asked_without_times, READY),
    ("a planner without 15 and 16", timed_answers, "planner_refusal",
     planner_without_times, WINDOWS),
    ("a check without 15 and 16", timed_check, "refusal", check_without_times, WINDOWS),
    ("9 before 8", timed_answers, "planner_refusal", nine_before(8),
     "test_timed.Refusals.test_8"),
    ("9 before 15", timed_answers, "planner_refusal", nine_before(15), BEFORE_8),
    ("9 before 16", timed_answers, "planner_refusal", nine_before(16), BEFORE_8),
    ("10 before 9", timed_answers, "planner_refusal", tight_before_9, ROOM),
    ("numbers left over are a row of the buffer", timed_answers, "planner_refusal",
     lambda order, bound, given, room, limits: right_planner_refusal(
         order, bound, given, room + 3, limits), ROOM),
    ("room in numbers taken for room in rows", timed_answers, "planner_refusal",
     lambda order, bound, given, room, limits: right_planner_refusal(
         order, bound, given, 4 * room, limits), ROOM),
]


def ends(order, bound):
    return {orders.end(job, bound) for job in order.jobs}


def openings(given):
    return {opening for opening, _ in given.windows}


def closings(given):
    return {closing for _, closing in given.windows}


def counted(*parts):
    """E of other sets of times."""
    return lambda order, bound, given: set().union(
        *(part(order, bound, given) for part in parts))


def ends_of(order, bound, given):
    return ends(order, bound)


def ready_of(order, bound, given):
    return set(given.ready)


def openings_of(order, bound, given):
    return openings(given)


def closings_of(order, bound, given):
    return closings(given)


def ends_cut_off(order, bound, given):
    return {max(0, end) for end in ends(order, bound)}


def apart(order, bound, given):
    """Distinct among the times of one kind only."""
    return [minute for part in (ends_of, ready_of, openings_of, closings_of)
            for minute in part(order, bound, given)]


def repeated(order, bound, given):
    return [*(orders.end(job, bound) for job in order.jobs), *given.ready,
            *(minute for window in given.windows for minute in window)]


def asked_as(rows_asked):
    """Another count of rows asked for; E is right."""
    return lambda order, bound, given: rows_asked(
        len(right_changes(order, bound, given)), order.n, order.m)


right_changes = timed.changes
COUNTED = "test_timed.Marks.test_worked"
EACH_KIND = "test_timed.Marks.test_one_thing_of_each_kind"
BELOW_0 = "test_timed.Marks.test_ends_below_0"

MARKS = [
    ("E with ends cut off at 0", timed, "changes",
     counted(ends_cut_off, ready_of, openings_of, closings_of), BELOW_0),
    ("E without ends below 0", timed, "changes", counted(
        lambda order, bound, given: {end for end in ends(order, bound) if end >= 0},
        ready_of, openings_of, closings_of), BELOW_0),
    ("E without ends", timed, "changes", counted(ready_of, openings_of, closings_of),
     EACH_KIND),
    ("E without ready minutes", timed, "changes",
     counted(ends_of, openings_of, closings_of), EACH_KIND),
    ("E without openings", timed, "changes", counted(ends_of, ready_of, closings_of),
     EACH_KIND),
    ("E without closings", timed, "changes", counted(ends_of, ready_of, openings_of),
     EACH_KIND),
    ("E with repeats", timed, "changes", repeated, COUNTED),
    ("E of each kind apart", timed, "changes", apart, EACH_KIND),
    ("E with minute 0 always", timed, "changes", counted(
        ends_of, ready_of, openings_of, closings_of, lambda *_: {0}), EACH_KIND),
    ("E with due times for ends", timed, "changes", counted(
        lambda order, bound, given: {job.due for job in order.jobs},
        ready_of, openings_of, closings_of), EACH_KIND),
    ("E with ends at bound 0", timed, "changes", counted(
        lambda order, bound, given: ends(order, 0),
        ready_of, openings_of, closings_of), COUNTED),
    ("E with ends without the due minute", timed, "changes", counted(
        lambda order, bound, given: ends(order, bound - 1),
        ready_of, openings_of, closings_of), EACH_KIND),
    ("E without closings after the last end", timed, "changes", counted(
        ends_of, ready_of, openings_of, lambda order, bound, given: {
            closing for closing in closings(given)
            if closing <= max(ends(order, bound))}), EACH_KIND),
    ("E without windows that no job fits", timed, "changes", counted(
        ends_of, ready_of, lambda order, bound, given: {
            minute for memory, window in zip(order.memories, given.windows)
            if any(orders.fits(job, memory) for job in order.jobs)
            for minute in window}), "test_timed.Marks.test_processor_without_a_job"),
    ("E - 1 stretches asked for", timed, "rows_asked",
     asked_as(lambda marks, n, m: (marks - 1) * (n + m - 1)), COUNTED),
    ("E × (n + m) rows", timed, "rows_asked",
     asked_as(lambda marks, n, m: marks * (n + m)), COUNTED),
    ("the base's rows", timed, "rows_asked",
     lambda order, bound, given: orders.rows_needed(order), COUNTED),
    ("E × n rows", timed, "rows_asked", asked_as(lambda marks, n, m: marks * n),
     EACH_KIND),
    ("no E over 48", timed, "rows_asked",
     asked_as(lambda marks, n, m: min(marks, 48) * (n + m - 1)),
     "test_timed.Marks.test_full"),
]


def without(rule):
    return [one for one in timed_rules.RULES if one is not rule]


def by(judged):
    """A rule that is asked of each row alone."""
    def rule(given, rows, parts):
        return None if all(judged(given, row, parts) for row in rows) else "no"
    return rule


def ready(given, row, parts):
    return parts * given.ready[row[0] - 1]


def opening(given, row, parts):
    return parts * given.windows[row[1] - 1][0]


def closing(given, row, parts):
    return parts * given.windows[row[1] - 1][1]


def in_place_of(rule, judged):
    return without(rule) + [by(judged)]


def first_row_only(given, rows, parts):
    return next((said for said in (rule(given, rows[:1], parts) for rule in (
        AFTER_READY, AFTER_OPENING, BY_CLOSING)) if said), None)


def times_alone(order, bound, given, rows, parts=1):
    if plan_rules.names_that_fit(order, bound, rows, parts):
        return "no"
    return next((rule(given, rows, parts) for rule in timed_rules.RULES
                 if rule(given, rows, parts)), None)


def rows_before_8(order, bound, given, lent, limits):
    if len(plan_check.rows(lent)) > timed_check.ROWS_MOST:
        return orders.Refusal(11, 0)
    return right_check_refusal(order, bound, given, lent, limits)


def whole_rows_counted(order, bound, given, lent, limits):
    return right_check_refusal(order, bound, given, lent[:len(lent) // 4 * 4], limits)


def left_over_forgotten(order, bound, given, lent, *limits):
    return right_check(order, bound, given, lent[:len(lent) // 4 * 4], *limits)


right_check = timed_check.answer
right_check_refusal = timed_check.refusal
ONE_MINUTE = "test_timed.Rules.test_one_minute"
PARTS = "test_timed.Rules.test_parts"
OWN = "test_timed.Rules.test_own_times"
CELLS = "test_timed.Rules.test_minute_by_minute"
SHARP = "test_timed.Rules.test_sharpened"
AT_8064 = "test_timed.Check.test_8064_rows"
AT_8065 = "test_timed.Check.test_8065_rows"
LEFT_OVER = "test_timed.Check.test_left_over"
AFTER_READY, AFTER_OPENING, BY_CLOSING = timed_rules.RULES

RULES = [
    ("ready minutes not looked at", timed_rules, "RULES", without(AFTER_READY),
     ONE_MINUTE),
    ("openings not looked at", timed_rules, "RULES", without(AFTER_OPENING),
     ONE_MINUTE),
    ("closings not looked at", timed_rules, "RULES", without(BY_CLOSING), ONE_MINUTE),
    ("ready minutes not looked at, minute by minute", timed_rules, "RULES",
     without(AFTER_READY), CELLS),
    ("openings not looked at, minute by minute", timed_rules, "RULES",
     without(AFTER_OPENING), CELLS),
    ("closings not looked at, minute by minute", timed_rules, "RULES",
     without(BY_CLOSING), CELLS),
    ("the base check", timed_rules, "RULES", [], SHARP),
    ("ready compared with `to`", timed_rules, "RULES", in_place_of(
        AFTER_READY, lambda given, row, parts: row[3] >= ready(given, row, parts)),
     ONE_MINUTE),
    ("opening compared with `to`", timed_rules, "RULES", in_place_of(
        AFTER_OPENING, lambda given, row, parts: row[3] >= opening(given, row, parts)),
     ONE_MINUTE),
    ("closing compared with `from`", timed_rules, "RULES", in_place_of(
        BY_CLOSING, lambda given, row, parts: row[2] <= closing(given, row, parts)),
     ONE_MINUTE),
    ("`from` at the ready minute refused", timed_rules, "RULES", in_place_of(
        AFTER_READY, lambda given, row, parts: row[2] > ready(given, row, parts)),
     ONE_MINUTE),
    ("`from` at the opening refused", timed_rules, "RULES", in_place_of(
        AFTER_OPENING, lambda given, row, parts: row[2] > opening(given, row, parts)),
     ONE_MINUTE),
    ("`to` at the closing refused", timed_rules, "RULES", in_place_of(
        BY_CLOSING, lambda given, row, parts: row[3] < closing(given, row, parts)),
     ONE_MINUTE),
    ("one minute before the ready minute allowed", timed_rules, "RULES", in_place_of(
        AFTER_READY, lambda given, row, parts: row[2] >= ready(given, row, parts) - 1),
     SHARP),
    ("one minute before the opening allowed", timed_rules, "RULES", in_place_of(
        AFTER_OPENING, lambda given, row, parts:
        row[2] >= opening(given, row, parts) - 1), SHARP),
    ("the closing minute included", timed_rules, "RULES", in_place_of(
        BY_CLOSING, lambda given, row, parts: row[3] <= closing(given, row, parts) + 1),
     SHARP),
    ("the first job's ready minute for all", timed_rules, "RULES", in_place_of(
        AFTER_READY, lambda given, row, parts: row[2] >= parts * given.ready[0]), OWN),
    ("the latest ready minute for all", timed_rules, "RULES", in_place_of(
        AFTER_READY, lambda given, row, parts: row[2] >= parts * max(given.ready)),
     OWN),
    ("the first processor's window for all", timed_rules, "RULES",
     [AFTER_READY, by(lambda given, row, parts: parts * given.windows[0][0] <= row[2]
                      and row[3] <= parts * given.windows[0][1])], OWN),
    ("the window of the job's number", timed_rules, "RULES",
     [AFTER_READY, by(lambda given, row, parts: parts * given.windows[row[0] - 1][0]
                      <= row[2] and row[3] <= parts * given.windows[row[0] - 1][1])],
     OWN),
    ("the first row alone looked at", timed_rules, "RULES", [first_row_only],
     "test_timed.Rules.test_every_row"),
    ("ready minutes not cut into parts", timed_rules, "RULES", in_place_of(
        AFTER_READY, lambda given, row, parts: row[2] >= ready(given, row, 1)), PARTS),
    ("openings not cut into parts", timed_rules, "RULES", in_place_of(
        AFTER_OPENING, lambda given, row, parts: row[2] >= opening(given, row, 1)),
     PARTS),
    ("closings not cut into parts", timed_rules, "RULES", in_place_of(
        BY_CLOSING, lambda given, row, parts: row[3] <= closing(given, row, 1)), PARTS),
    ("the times without the four rules", timed_rules, "broken_rule", times_alone,
     "test_timed.Rules.test_the_four_rules_too"),
    ("3,024 rows for 8,064", timed_check, "ROWS_MOST", 3024, AT_8064),
    ("8,063 rows at most", timed_check, "ROWS_MOST", 8063, AT_8064),
    ("8,065 rows taken", timed_check, "ROWS_MOST", 8065, AT_8065),
    ("whole rows counted for 11", timed_check, "refusal", whole_rows_counted, AT_8065),
    ("numbers left over forgotten", timed_check, "answer", left_over_forgotten,
     LEFT_OVER),
    ("11 before 8, 15 and 16", timed_check, "refusal", rows_before_8,
     "test_timed.Check.test_11_is_last"),
    ("an empty list answered yes", timed_check, "answer",
     lambda order, bound, given, lent, *limits: right_check(
         order, bound, given, lent, *limits) if lent else True, LEFT_OVER),
    ("rows in the planner's order only", timed_check, "answer",
     lambda order, bound, given, lent, *limits: plan_check.rows(lent) == sorted(
         plan_check.rows(lent), key=lambda row: row[2:]) and right_check(
             order, bound, given, lent, *limits), "test_timed.Check.test_any_order"),
]


def cut_at(*parts):
    """Stretches between other times."""
    def stretches(order, bound, given, per_minute=1):
        marks = sorted({per_minute * max(0, minute)
                        for minute in counted(*parts)(order, bound, given)})
        return list(zip(marks, marks[1:]))
    return stretches


def marks_below_0(order, bound, given, parts=1):
    marks = sorted(parts * minute for minute in timed.changes(order, bound, given))
    return list(zip(marks, marks[1:]))


def closing_inside(order, bound, given, parts):
    """Not cut at closings; a processor that closes inside a stretch has it whole."""
    return [flow.Stretch(begin, end, sorted((
        memory for memory, (opens, closes) in zip(order.memories, given.windows)
        if parts * opens <= begin < parts * closes), reverse=True))
            for begin, end in cut_at(ends_of, ready_of, openings_of)(
                order, bound, given, parts)]


def opening_inside(order, bound, given, parts):
    """Not cut at openings; a processor that opens inside a stretch has it whole."""
    return [flow.Stretch(begin, end, sorted((
        memory for memory, (opens, closes) in zip(order.memories, given.windows)
        if parts * opens < end <= parts * closes), reverse=True))
            for begin, end in cut_at(ends_of, ready_of, closings_of)(
                order, bound, given, parts)]


def all_memories(order, bound, given, parts):
    """Closed processors counted as well."""
    return [stretch._replace(memories=order.memories)
            for stretch in right_on_hand(order, bound, given, parts)]


def as_many_of_the_largest(order, bound, given, parts):
    """The right number of processors, but the largest memories."""
    ranked = sorted(order.memories, reverse=True)
    return [stretch._replace(memories=ranked[:len(stretch.memories)])
            for stretch in right_on_hand(order, bound, given, parts)]


def ends_and_windows_only(order, bound, given, job, begin, end, parts=1):
    return end <= orders.end(order.jobs[job], bound, parts)


def ready_only(order, bound, given, job, begin, end, parts=1):
    return parts * given.ready[job] <= begin


def ready_a_stretch_late(order, bound, given, job, begin, end, parts=1):
    return parts * given.ready[job] < begin and right_may_run(
        order, bound, given, job, begin, end, parts)


def ends_a_stretch_early(order, bound, given, job, begin, end, parts=1):
    return end < orders.end(order.jobs[job], bound, parts) and right_may_run(
        order, bound, given, job, begin, end, parts)


def met_by_the_base(order, bound, given, parts=1):
    return flow.amounts(order, bound, parts)


def met_by_each_alone(order, bound, given, parts=1):
    """Each job has time between its ready minute and its end; no load."""
    return {} if all(ready + job.time <= orders.end(job, bound) for ready, job in zip(
        given.ready, order.jobs)) else None


def no_window_needed_beyond(order, bound, given, parts=1):
    """Ends reach beyond the latest closing: the base is asked instead."""
    if max(ends(order, bound)) > 1000000:
        return flow.amounts(order, bound, parts)
    return right_amounts(order, bound, given, parts)


def on_all_processors(order, given, begin, end, parts=1):
    return wrap.processor_order(order)


def open_in_input_order(order, given, begin, end, parts=1):
    return sorted(right_open(order, given, begin, end, parts))


def open_ties_backwards(order, given, begin, end, parts=1):
    return sorted(right_open(order, given, begin, end, parts),
                  key=lambda number: (-order.memories[number - 1], -number))


def not_joined(order, bound, given, shares, parts=1):
    return sum(timed_plan.by_stretch(order, bound, given, shares, parts), [])


right_stretches = timed_plan.stretches
right_on_hand = timed_plan.on_hand
right_may_run = timed_plan.may_run
right_amounts = timed_plan.amounts
right_open = timed_plan.open_processors
right_planned = timed_answers.planned
BY_SEARCH = "test_timed.Planner.test_by_search"
WORKED = "test_timed.Planner.test_worked"
BY_HAND = "test_timed.Planner.test_rows_by_hand"
STRETCHES = "test_timed.Marks.test_stretches"
OPEN = "test_timed.Marks.test_open_processors"
KEEP = "test_timed.Planner.test_plans_keep_their_times"

PLANNER = [
    ("stretches not cut at ready minutes", timed_plan, "stretches",
     cut_at(ends_of, openings_of, closings_of), BY_SEARCH),
    ("stretches not cut at ends", timed_plan, "stretches",
     cut_at(ready_of, openings_of, closings_of), BY_SEARCH),
    ("stretches not cut at openings", timed_plan, "stretches",
     cut_at(ends_of, ready_of, closings_of), BY_SEARCH),
    ("stretches not cut at closings", timed_plan, "stretches",
     cut_at(ends_of, ready_of, openings_of), BY_SEARCH),
    ("stretches below minute 0", timed_plan, "stretches", marks_below_0, STRETCHES),
    ("stretches not cut into parts", timed_plan, "stretches",
     lambda order, bound, given, parts=1: right_stretches(order, bound, given),
     "test_timed.Planner.test_parts"),
    ("a stretch given to a processor that closes inside it", timed_plan, "on_hand",
     closing_inside, BY_SEARCH),
    ("a stretch given to a processor that opens inside it", timed_plan, "on_hand",
     opening_inside, BY_SEARCH),
    ("room of closed processors counted", timed_plan, "on_hand", all_memories,
     BY_SEARCH),
    ("room of the largest memories, open or not", timed_plan, "on_hand",
     as_many_of_the_largest, BY_SEARCH),
    ("a processor that never closes", timed_plan, "is_open",
     lambda window, begin, end, parts: parts * window[0] <= begin, BY_SEARCH),
    ("a processor that is open from the first", timed_plan, "is_open",
     lambda window, begin, end, parts: end <= parts * window[1], BY_SEARCH),
    ("a processor that opens one stretch late", timed_plan, "is_open",
     lambda window, begin, end, parts: parts * window[0] < begin
     and end <= parts * window[1], BY_SEARCH),
    ("a processor that closes one stretch early", timed_plan, "is_open",
     lambda window, begin, end, parts: parts * window[0] <= begin
     and end < parts * window[1], BY_SEARCH),
    ("windows not cut into parts", timed_plan, "is_open",
     lambda window, begin, end, parts: window[0] <= begin and end <= window[1], OPEN),
    ("a job that runs before it is ready", timed_plan, "may_run", ends_and_windows_only,
     BY_SEARCH),
    ("a job that runs after its end", timed_plan, "may_run", ready_only, BY_SEARCH),
    ("a job that starts one stretch late", timed_plan, "may_run", ready_a_stretch_late,
     BY_SEARCH),
    ("a job that ends one stretch early", timed_plan, "may_run", ends_a_stretch_early,
     BY_SEARCH),
    ("met where the base meets", timed_plan, "amounts", met_by_the_base, BY_SEARCH),
    ("met where each job has time alone", timed_plan, "amounts", met_by_each_alone,
     BY_SEARCH),
    ("the base asked where ends are beyond all windows", timed_plan, "amounts",
     no_window_needed_beyond, "test_timed.Planner.test_not_the_base"),
    ("always too tight", timed_plan, "amounts", lambda *_: None, WORKED),
    ("never too tight", timed_plan, "amounts",
     lambda order, bound, given, parts=1: right_amounts(
         order, bound, given, parts) or {}, WORKED),
    ("too tight where the base is, by the check of its plan", timed_plan, "amounts",
     met_by_the_base, WORKED),
    ("laid out on closed processors", timed_plan, "open_processors", on_all_processors,
     KEEP),
    ("laid out on open processors in input order", timed_plan, "open_processors",
     open_in_input_order, OPEN),
    ("equal open processors backwards", timed_plan, "open_processors",
     open_ties_backwards, OPEN),
    ("a plan without its joining", timed_plan, "plan", not_joined, BY_HAND),
    ("an empty plan", timed_plan, "plan", lambda *_: [], WORKED),
    ("a reason behind `tight`", timed_answers, "planned",
     lambda *arguments: ["tight job 1"] if right_planned(*arguments) == ["tight"]
     else right_planned(*arguments), WORKED),
    ("no check behind `meets`", timed_answers, "planned",
     lambda *arguments: right_planned(*arguments)[:1], WORKED),
]


def open_to(closes):
    """A search that has other processors on hand."""
    return lambda given, minute, parts: tuple(
        place for place, window in enumerate(given.windows)
        if closes(window, minute, parts))


def of_all_processors(order, on_hand=None):
    """Sets that run together, whatever processors are on hand."""
    return right_runs(order)


right_runs = search.runs_together
SEARCHED = "test_timed.Planner.test_searched_plans_are_right"

SEARCHES = [
    ("a search without closings", timed_search, "open_in", open_to(
        lambda window, minute, parts: parts * window[0] <= minute), SEARCHED),
    ("a search without openings", timed_search, "open_in", open_to(
        lambda window, minute, parts: minute < parts * window[1]), SEARCHED),
    ("a search with the closing minute", timed_search, "open_in", open_to(
        lambda window, minute, parts: parts * window[0] <= minute <= parts * window[1]),
     SEARCHED),
    ("a search that opens a minute late", timed_search, "open_in", open_to(
        lambda window, minute, parts: parts * window[0] < minute < parts * window[1]),
     BY_SEARCH),
    ("a search with windows not cut into parts", timed_search, "open_in", open_to(
        lambda window, minute, parts: window[0] <= minute < window[1]), SEARCHED),
    ("a search on processors that are not on hand", search, "runs_together",
     of_all_processors, SEARCHED),
]


def windows_first(order, given):
    return stream_form.words(*(minute for window in given.windows for minute in window),
                             *given.ready)


def openings_then_closings(order, given):
    return stream_form.words(*given.ready, *(one for one, _ in given.windows),
                             *(one for _, one in given.windows))


def times_before_the_bound(order, bound, given, *rest):
    data = right_pack_timed(order, bound, given)
    at = len(stream_form.pack_order(order))
    return (data[:at] + data[at + 4:] + data[at:at + 4]
            + right_pack_timed(order, bound, given, *rest)[len(data):])


def room_for_every_kind(order, bound, given, *rest):
    return right_pack_timed(order, bound, given, *(rest or (0,)))


right_pack_timed = stream_form.pack_timed
FORM = "test_streams.Form.test_times_by_hand"
JUDGED = "test_timed.Judge.test_wrong"

FORMS = [
    ("a stream's windows before its ready minutes", stream_form, "pack_times",
     windows_first, FORM),
    ("a stream's openings before its closings", stream_form, "pack_times",
     openings_then_closings, FORM),
    ("a stream's times before the bound", stream_form, "pack_timed",
     times_before_the_bound, FORM),
    ("a room where none is looked at", stream_form, "pack_timed", room_for_every_kind,
     FORM),
    ("a judge without the layout on open processors", timed_judge, "layout_broken",
     lambda *_: None, JUDGED),
    ("a judge without the times", timed_rules, "RULES", [], JUDGED),
    ("a judge of the base's stretches", timed_plan, "stretches",
     lambda order, bound, given, parts=1: wrap.stretches(order, bound),
     "test_timed.Judge.test_cut_at_every_time"),
    ("a judge without the row order", judge, "in_place", lambda *_: None, JUDGED),
]

VARIANTS = REFUSALS + MARKS + RULES + PLANNER + SEARCHES + FORMS
