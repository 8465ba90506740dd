"""Shows that the tests can fail: each part is broken, and a named test catches it.

Document 01, "Errors that a planner of this kind invites", names many of these;
document 02's sentences of the reason give those of its lines, those of fewer
hand-overs those of joined rows, those of the due minute those of ends; makers and
the book stand in broken_makers.py, ready minutes and windows in broken_timed.py,
classes and their processors in broken_classes.py, needs from a table in
broken_needs.py, jobs held by falling need in broken_held.py, times between two numbers
in broken_estimate.py, the screen's limits in broken_screen.py, the register block in
broken_block.py. Each variant replaces one name of one module while one test runs.

    broken.py          runs all variants; exits 1 if one of them is not caught
"""

import fractions
import math
import re
import sys
import types
import unittest
from collections import namedtuple

import answers
import broken_block
import broken_classes
import broken_estimate
import broken_held
import broken_makers
import broken_needs
import broken_screen
import broken_timed
import flow
import join
import judge
import least
import order_file
import order_text
import orders
import plan_check
import plan_rules
import reason
import reason_large
import search
import sentence
import wrap

# What is broken, where, by what, and the test that catches it.
Variant = namedtuple("Variant", "story module name replacement test")

WORKED = "test_least.Least.test_worked"
BY_SEARCH = "test_least.Least.test_by_search_over_all_plans"
IN_REACH = "test_least.Least.test_all_whole_numbers_in_reach"

right_least = least.least
right_plan = wrap.plan
right_refusal = orders.refusal
right_planner_refusal = answers.planner_refusal
right_add = flow.Network.add
right_staircases = reason.staircases
right_class_of = reason.class_of
right_runs = search.runs_together
right_stretch_ends = flow.stretch_ends


def exact_least(order):
    """The least lateness as a fraction: in parts so small that it is whole. The
    ends at 0 are the same, counted in parts."""
    parts = math.lcm(*range(1, order.m + 1))
    fine = orders.order(order.memories, [
        (parts * job.time, orders.due_at(orders.end(job, 0, parts), 0), job.need)
        for job in order.jobs])
    return fractions.Fraction(least.by_halving(fine, flow.meets), parts)


def rounded_away_from_zero(order):
    """Right above zero, one too small below it."""
    exact = exact_least(order)
    return math.floor(exact) if exact < 0 else math.ceil(exact)


def rounded_toward_zero(order):
    """Right below zero, one too small above it."""
    return int(exact_least(order))


LATENESS = [
    Variant("least lateness one too large", least, "least",
            lambda order: right_least(order) + 1, WORKED),
    Variant("least lateness one too small", least, "least",
            lambda order: right_least(order) - 1, WORKED),
    Variant("least lateness one too large, by search", least, "least",
            lambda order: right_least(order) + 1, BY_SEARCH),
    Variant("least lateness one too small, by search", least, "least",
            lambda order: right_least(order) - 1, BY_SEARCH),
    Variant("one fixed lateness", least, "least", lambda order: 0, WORKED),
    Variant("rounded down below zero: D gives -4", least, "least",
            rounded_away_from_zero, WORKED),
    Variant("rounded toward zero above zero", least, "least", rounded_toward_zero,
            "test_least.Least.test_fractions_are_rounded_up"),
    Variant("never below zero", least, "least",
            lambda order: max(0, right_least(order)), WORKED),
    Variant("the time of each job alone, no load", least, "least", least.floor, WORKED),
]


def common_times(times, k):
    for time in times:
        yield (time,) * k


def latest_first(times, k):
    return reversed(list(right_never_rising(times, k)))


def last_class_first(times, k):
    return sorted(right_never_rising(times, k), key=lambda stairs: stairs[::-1])


def most_classes_first(order, bound):
    return sorted(right_staircases(order, bound),
                  key=lambda stairs: (-len(stairs), stairs))


def rising_too(times, k):
    if k == 0:
        yield ()
        return
    for time in times:
        for rest in rising_too(times, k - 1):
            yield (time,) + rest


def need_0_in_no_class(order, job):
    return None if job.need == 0 else right_class_of(order, job)


def all_classes_owe(order, bound, staircase):
    """Classes beyond k owe as well; "only the first k belong there"."""
    stairs = list(staircase)
    every = stairs + [stairs[-1]] * (len(set(order.memories)) - len(stairs))
    return right_sums(order, bound, every)[0], right_sums(order, bound, stairs)[1]


right_never_rising = reason.never_rising
right_sums = reason.sums
ONE_COMMON = "staircases at one common time for all classes"

REASONS = [
    Variant(ONE_COMMON, reason, "never_rising", common_times,
            "test_reason.Reasons.test_documents"),
    Variant(ONE_COMMON + ", against the search", reason, "never_rising",
            common_times, IN_REACH),
    Variant("ranking: the latest time first", reason, "never_rising", latest_first,
            "test_reason.Reasons.test_ranking"),
    Variant("ranking: the last class before class 1", reason, "never_rising",
            last_class_first, "test_reason.Reasons.test_ranking"),
    Variant("ranking: the most classes first", reason, "staircases",
            most_classes_first, "test_reason.Reasons.test_ranking"),
    Variant("times that rise", reason, "never_rising", rising_too, IN_REACH),
    Variant("need 0 in no class", reason, "class_of", need_0_in_no_class,
            "test_reason.Reasons.test_need_0"),
    Variant("the first class in place of the last", reason, "class_of",
            lambda order, job: 0, "test_reason.Reasons.test_classes"),
    Variant("all classes owe, not the first k", reason, "sums", all_classes_owe,
            IN_REACH),
    Variant("owed below 0", reason, "owed",
            lambda job, bound, time: job.time - max(0, orders.end(job, bound) - time),
            "test_reason.Reasons.test_owed"),
    Variant("owed: the whole time only", reason, "owed",
            lambda job, bound, time: job.time * (orders.end(job, bound) <= time),
            "test_reason.Reasons.test_owed"),
    Variant("the last late job", reason, "first_late_job",
            lambda order, bound: max((number for number, job in enumerate(
                order.jobs, 1) if job.time > orders.end(job, bound)), default=None),
            "test_reason.Reasons.test_first_job"),
    Variant("larger orders: each class's time by itself", reason_large, "best_from",
            lambda gains, k: gains[:k],
            "test_reason.Reasons.test_large_is_the_same"),
]


def job_by_job(order, limits=orders.DOCK):
    """Rows 5 to 7 judged job by job in place of row by row."""
    refused = right_refusal(order, limits)
    if refused is None or refused.number < 5:
        return refused
    for place, job in enumerate(order.jobs, 1):
        one = right_refusal(orders.order(order.memories, [job]), limits)
        if one:
            return orders.Refusal(one.number, place)
    return None


def rows_before_bound(order, bound, numbers, limits):
    if len(plan_check.rows(numbers)) > plan_check.ROWS_MOST:
        return orders.Refusal(11, 0)
    return right_check_refusal(order, bound, numbers, limits)


def room_first(order, room, bound=None, limits=orders.DOCK):
    if room // 4 < orders.rows_needed(order):
        return orders.Refusal(9, 0)
    return right_planner_refusal(order, room, bound, limits)


def tight_before_room(order, room, bound=None, limits=orders.DOCK):
    refused = right_planner_refusal(order, room, bound, limits)
    if refused and refused.number == 9 and bound is not None and reason.reason(
            order, bound):
        return None
    return refused


def room_rounded_up(order, room, bound=None, limits=orders.DOCK):
    return right_planner_refusal(order, room + 3, bound, limits)


def in_turn(*places):
    """The rows about an order judged as they stand at these places."""
    return lambda limits: tuple(right_rows(limits)[place] for place in places)


def of_processors(most):
    """So many processors at most."""
    return lambda limits: right_rows(limits._replace(processors=most))


right_rows = orders.rows
right_check_refusal = plan_check.refusal

REFUSALS = [
    Variant("refusals 5 to 7 job by job", orders, "refusal", job_by_job,
            "test_orders.Refusals.test_table"),
    Variant("refusal 3 before 1", orders, "rows", in_turn(2, 0, 1, 3, 4, 5, 6, 7),
            "test_orders.Refusals.test_table"),
    Variant("refusal 7 before 5", orders, "rows", in_turn(0, 1, 2, 3, 7, 4, 5, 6),
            "test_orders.Refusals.test_table"),
    Variant("every order refused", orders, "refusal",
            lambda order: orders.Refusal(1, 0),
            "test_orders.Refusals.test_accepted"),
    Variant("17 processors accepted", orders, "rows", of_processors(17),
            "test_orders.Refusals.test_table"),
    Variant("15 processors at most", orders, "rows", of_processors(15),
            "test_orders.Refusals.test_accepted"),
    Variant("11 before 8", plan_check, "refusal", rows_before_bound,
            "test_plan_rules.Check.test_refusals"),
    Variant("9 before 7 and 8", answers, "planner_refusal", room_first,
            "test_answers.Answers.test_precedence"),
    Variant("10 before 9", answers, "planner_refusal", tight_before_room,
            "test_answers.Answers.test_precedence"),
    Variant("numbers left over are a row of the planner's buffer", answers,
            "planner_refusal", room_rounded_up, "test_answers.Answers.test_room"),
    Variant("12 after 1 to 7", order_file, "agree", lambda data: True,
            "test_order_file.File.test_12_precedes_all"),
]


def without(rule):
    return [one for one in plan_rules.RULES if one is not rule]


def at_least_the_time(order, bound, rows, parts):
    for number, job in enumerate(order.jobs, 1):
        if sum(row[3] - row[2] for row in rows if row[0] == number) < job.time:
            return "too little"
    return None


def touching_overlaps(spans):
    spans = sorted(spans)
    for pair in zip(spans, spans[1:]):
        if pair[1][0] <= pair[0][1]:
            return pair
    return None


PLANS = [
    Variant("a check without the exact sum", plan_rules, "RULES",
            without(plan_rules.full_time), "test_plan_rules.Rules.test_each_rule"),
    Variant("a check that takes more than the time", plan_rules, "RULES",
            without(plan_rules.full_time) + [at_least_the_time],
            "test_plan_rules.Rules.test_each_rule"),
    Variant("a check without the ends", plan_rules, "RULES",
            without(plan_rules.by_the_end), "test_plan_rules.Rules.test_each_rule"),
    Variant("a check without overlaps", plan_rules, "RULES",
            without(plan_rules.no_overlap), "test_plan_rules.Rules.test_overlaps"),
    Variant("touching taken for overlap", plan_rules, "overlap", touching_overlaps,
            "test_plan_rules.Rules.test_documents"),
    Variant("a check that always says no", plan_rules, "broken_rule",
            lambda order, bound, rows, parts=1: "no",
            "test_plan_rules.Rules.test_documents"),
    Variant("a check without the fit", orders, "fits", lambda job, memory: True,
            "test_plan_rules.Rules.test_fit"),
    Variant("a fit that wants more than the need", orders, "fits",
            lambda job, memory: memory > job.need,
            "test_plan_rules.Rules.test_documents"),
    Variant("numbers left over forgotten in the check", plan_check, "rows",
            lambda numbers: [tuple(numbers[i:i + 4])
                             for i in range(0, len(numbers) - 3, 4)],
            "test_plan_rules.Check.test_left_over"),
    Variant("3,025 rows taken", plan_check, "ROWS_MOST", 3025,
            "test_plan_rules.Check.test_3024_rows"),
    Variant("3,023 rows at most", plan_check, "ROWS_MOST", 3023,
            "test_plan_rules.Check.test_3024_rows"),
]


def without_last_stretch(order, bound, amounts):
    last = wrap.stretches(order, bound)[-1][0]
    return [row for row in right_plan(order, bound, amounts) if row[2] < last]


def first_stretch_only(order, bound, amounts):
    first = wrap.stretches(order, bound)[0][1]
    return [row for row in right_plan(order, bound, amounts) if row[2] < first]


def ties_backwards(order):
    return sorted(range(1, order.n + 1),
                  key=lambda number: (-order.jobs[number - 1].need, -number))


def ties_by_class(order):
    """Ties among jobs of one class, not of one need."""
    return sorted(range(1, order.n + 1), key=lambda number: (
        reason.class_of(order, order.jobs[number - 1]), number))


def processor_ties_backwards(order):
    return sorted(range(1, order.m + 1),
                  key=lambda number: (-order.memories[number - 1], -number))


PLAN_OF_FLOW = "test_least.Flow.test_its_amounts_wrap_into_a_right_plan"
TIES = "test_judge.Wrap.test_ties_in_input_order"

LAYOUTS = [
    Variant("a plan without its last stretch", wrap, "plan", without_last_stretch,
            PLAN_OF_FLOW),
    Variant("a plan of the first stretch only", wrap, "plan", first_stretch_only,
            PLAN_OF_FLOW),
    Variant("an empty plan", wrap, "plan", lambda order, bound, amounts: [],
            PLAN_OF_FLOW),
    Variant("jobs of equal need backwards", wrap, "job_order", ties_backwards, TIES),
    Variant("ties among jobs of one class", wrap, "job_order", ties_by_class, TIES),
    Variant("equal processors backwards", wrap, "processor_order",
            processor_ties_backwards, TIES),
    Variant("processors in input order", wrap, "processor_order",
            lambda order: list(range(1, order.m + 1)),
            "test_judge.Wrap.test_by_hand"),
    Variant("jobs by rising need", wrap, "job_order",
            lambda order: right_job_order(order)[::-1],
            "test_judge.Wrap.test_by_hand"),
    Variant("a judge without the layout", judge, "laid_and_joined",
            lambda order, bound, rows: None,
            "test_judge.Judge.test_wrong_layout_of_right_plans"),
    Variant("a judge without the row order", judge, "row_order",
            lambda order, bound, rows: None, "test_judge.Judge.test_wrong"),
    Variant("a judge without the count", judge, "broken",
            lambda order, bound, rows, count: right_judge(
                order, bound, rows, len(rows)), "test_judge.Judge.test_wrong"),
    Variant("a judge without the buffer beyond", judge, "broken_buffer",
            lambda order, bound, before, after, count: right_judge(
                order, bound, plan_check.rows(after[:4 * count]), count),
            "test_judge.Judge.test_buffer"),
]

right_job_order = wrap.job_order
right_judge = judge.broken
right_row_order = judge.row_order


def joined_if(goes_on):
    """A joining in which a part lengthens the first row of the stretches before
    with which it goes on; `goes_on` is asked with the row, the part and the
    stretch that the part lies in."""
    def joined(stretches, parts):
        rows = []
        for stretch, of_stretch in zip(stretches, parts):
            before = len(rows)
            for part in of_stretch:
                place = next((place for place, row in enumerate(rows[:before])
                              if goes_on(row, part, stretch)), None)
                if place is None:
                    rows.append(part)
                else:
                    rows[place] = rows[place][:3] + part[3:]
        return rows
    return joined


def same_job(row, part):
    return row[0] == part[0]


def same_processor(row, part):
    return row[1] == part[1]


def touch(row, part):
    return row[3] == part[2]


def across(row, part, stretch):
    """The job goes on at the end of a stretch, on any processor."""
    return same_job(row, part) and touch(row, part)


def handed_over(row, part, stretch):
    """The processor goes on, with any job."""
    return same_processor(row, part) and touch(row, part)


def after_a_rest(row, part, stretch):
    """The job opens a stretch on its processor, at any time after its row."""
    return same_job(row, part) and same_processor(row, part) and part[2] == stretch[0]


def later_in_the_stretch(row, part, stretch):
    """The job ended the stretch before on the processor and comes back to it."""
    return same_job(row, part) and same_processor(row, part) and row[3] == stretch[0]


def goes_on(row, part, stretch):
    """As document 02 says it."""
    return (same_job(row, part) and same_processor(row, part) and touch(row, part)
            and part[2] == stretch[0])


def two_parts_at_most(stretches, parts):
    """A row that is joined already is lengthened no more."""
    laid = {part for of_stretch in parts for part in of_stretch}
    return joined_if(lambda row, part, stretch: row in laid and goes_on(
        row, part, stretch))(stretches, parts)


def first_end_only(stretches, parts):
    """Joined over the first end, over no later one."""
    return joined_if(lambda row, part, stretch: stretch == stretches[1] and goes_on(
        row, part, stretch))(stretches, parts)


def stands_where_its_last_part_stood(rows, part):
    right_lengthen(rows, part)
    row = next(row for row in rows if row[:2] + row[3:] == part[:2] + part[3:])
    rows.remove(row)
    rows.append(row)


def stands_first_of_all(rows, part):
    right_lengthen(rows, part)
    row = next(row for row in rows if row[:2] + row[3:] == part[:2] + part[3:])
    rows.remove(row)
    rows.insert(0, row)


def shifted(rows, part):
    """The later part's `from` for the row's own."""
    rows[:] = [part if row[:2] == part[:2] and touch(row, part) else row
               for row in rows]


def lengthened_and_kept(rows, part):
    right_lengthen(rows, part)
    rows.append(part)


def ends_or_rests(rows, end):
    """The job that a processor ran last, be it up to the end or not."""
    return {processor: job for job, processor, _, _ in rows}


def first_processor_only(stretches, parts):
    return joined_if(lambda row, part, stretch: part[1] == 1 and goes_on(
        row, part, stretch))(stretches, parts)


def joins_before_it_judges(order, bound, rows, count):
    """A judge that joins a right plan's rows before it judges them."""
    if plan_rules.broken_rule(order, bound, rows) is None:
        rows = join.plan(order, bound, judge.own_amounts(order, bound, rows))
        count = len(rows)
    return right_judge(order, bound, rows, count)


def cut_at_the_ends(order, bound, rows):
    """A judge of rows that lie in one stretch each."""
    for row in rows:
        if len(judge.parts(row, wrap.stretches(order, bound))) > 1:
            return "reaches over an end"
    return right_row_order(order, bound, rows)


def rows_in_any_order(order, bound, rows, count):
    """A judge that puts the rows into their order before it judges."""
    rank = wrap.processor_order(order).index
    stretches = wrap.stretches(order, bound)
    return right_judge(order, bound, sorted(rows, key=lambda row: (
        judge.begins_in(row, stretches), rank(row[1]), row[2])), count)


def whole_in_its_first_stretch(row, stretches):
    """A row that is not cut at the ends."""
    return [(judge.begins_in(row, stretches), row[2], row[3])]


def ends_in(row, stretches):
    return [begin < row[3] <= end for begin, end in stretches].index(True)


def room_for_the_joined_rows(order, room, bound=None, limits=orders.DOCK):
    """9 only where the buffer is too short for the rows that are written."""
    refused = right_planner_refusal(order, room, bound, limits)
    if refused and refused.number == 9:
        at = least.least(order) if bound is None else bound
        if flow.meets(order, at) and room // 4 >= len(
                join.plan(order, at, flow.amounts(order, at))):
            return None
    return refused


right_lengthen = join.lengthen
JOINED = "test_join.Known.test_joined"
DRAWN_JOINED = "test_join.Drawn.test_joined_plans"
WHERE = "test_join.Drawn.test_where_joined_rows_stand"
NOT_JOINED = "test_judge.Judge.test_not_joined"

JOININGS = [
    Variant("nothing is joined", join, "opens", lambda part, begin, ended: False,
            JOINED),
    Variant("joined on another processor", join, "joined", joined_if(across), JOINED),
    Variant("joined with another job", join, "joined", joined_if(handed_over), JOINED),
    Variant("joined though the job stopped before the stretch's end", join, "joined",
            joined_if(after_a_rest), JOINED),
    Variant("joined though the processor rested up to the stretch's end", join,
            "joined", joined_if(after_a_rest),
            "test_join.Known.test_rest_before_the_end"),
    Variant("joined over a stretch without the job", join, "joined",
            joined_if(after_a_rest), "test_join.Known.test_a_stretch_between"),
    Variant("joined though the job does not open the stretch", join, "joined",
            joined_if(later_in_the_stretch), JOINED),
    Variant("two parts joined, the third not", join, "joined", two_parts_at_most,
            JOINED),
    Variant("joined over the first end only", join, "joined", first_end_only, JOINED),
    Variant("joined on processor 1 only", join, "joined", first_processor_only, JOINED),
    Variant("the joined row stands where its last part stood", join, "lengthen",
            stands_where_its_last_part_stood, JOINED),
    Variant("the joined row stands where its last part stood, drawn", join,
            "lengthen", stands_where_its_last_part_stood, WHERE),
    Variant("the joined row stands before all", join, "lengthen", stands_first_of_all,
            JOINED),
    Variant("the first part's `to` kept", join, "lengthen", lambda rows, part: None,
            JOINED),
    Variant("the last part's `from` taken", join, "lengthen", shifted, JOINED),
    Variant("the part written once more", join, "lengthen", lengthened_and_kept,
            JOINED),
    Variant("the part written once more, drawn", join, "lengthen",
            lengthened_and_kept, DRAWN_JOINED),
    Variant("a processor that rests ends with its last job", join, "ends_with",
            ends_or_rests, "test_join.EndsWith.test_by_hand"),
    Variant("a second joining that finds nothing ever", join, "left_to_join",
            lambda rows: None, "test_join.Known.test_left_to_join"),
    Variant("a second joining that finds something, by two parts", join, "joined",
            two_parts_at_most, "test_join.Drawn.test_a_second_joining"),
    Variant("a judge that does not join", join, "plan", right_plan,
            "test_judge.Judge.test_joined"),
    Variant("a judge that takes an unjoined plan", judge, "broken",
            joins_before_it_judges, NOT_JOINED),
    Variant("a judge that does not say what is left to join", judge,
            "nothing_to_join", lambda order, bound, rows: None, NOT_JOINED),
    Variant("a judge that wants rows cut at the ends", judge, "row_order",
            cut_at_the_ends, "test_judge.Judge.test_joined"),
    Variant("a judge that takes a row's minutes for its first stretch", judge, "parts",
            whole_in_its_first_stretch, "test_judge.Judge.test_joined"),
    Variant("rows by the stretch in which they end", judge, "begins_in", ends_in,
            "test_judge.Judge.test_joined"),
    Variant("rows by `from` before their processors", judge, "begins_in",
            lambda row, stretches: row[2], "test_judge.Judge.test_right"),
    Variant("joined rows in any place", judge, "broken", rows_in_any_order,
            "test_judge.Judge.test_where_a_joined_row_stands"),
    Variant("room asked for the joined rows only", answers, "planner_refusal",
            room_for_the_joined_rows, "test_answers.Answers.test_room_of_joined_rows"),
]


def no_larger_memory(network, start, to, room):
    """A flow whose jobs stay at the smallest memory that they fit."""
    return right_add(network, start, to, 0 if room == flow.NO_LIMIT else room)


def one_job_a_minute(order):
    return [run for run in right_runs(order) if len(run) < 2]


def on_any_processor(order):
    return right_runs(orders.order([orders.WORD_MOST] * order.m, order.jobs))


SEARCHES = [
    Variant("a flow without the larger memories", flow.Network, "add",
            no_larger_memory, BY_SEARCH),
    Variant("a flow in stretches of one part", flow, "stretch_ends",
            lambda order, bound, parts: right_stretch_ends(order, bound, 1),
            "test_least.Parts.test_parts_by_flow"),
    Variant("a search with one job a minute", search, "runs_together",
            one_job_a_minute, BY_SEARCH),
    Variant("a search on any processor", search, "runs_together",
            on_any_processor, BY_SEARCH),
]


def any_place_for_an_empty_list(data):
    _, _, m, n = order_file.TRAILER.unpack(data[-12:])
    return right_agree(data) or (0 in (m, n) and len(data) == 4 * m + 16 * n + 12)


def places_only(data):
    """The lists' lengths in 32 bits: a place near 2^32 wraps round."""
    processors_at, jobs_at, m, n = order_file.TRAILER.unpack(data[-12:])
    return (len(data) == 4 * m + 16 * n + 12
            and (processors_at + 4 * m == jobs_at
                 or (jobs_at + 16 * n) % 4294967296 == processors_at))


right_agree = order_file.agree
EMPTY_LISTS = "test_order_file.File.test_empty_lists"

FILES = [
    Variant("an empty list anywhere", order_file, "agree",
            any_place_for_an_empty_list, EMPTY_LISTS),
    Variant("the first list not from byte 0", order_file, "agree", places_only,
            EMPTY_LISTS),
    Variant("files of processors first only", order_file, "agree",
            lambda data: right_agree(data) and data[-12:-8] == bytes(4),
            "test_order_file.File.test_round_trip"),
    Variant("a file of 848 bytes", order_file, "FILE_MOST", 848,
            "test_order_file.File.test_848_bytes_that_agree"),
    Variant("a writer that is content with one byte less", order_file, "length",
            lambda order: 4 * order.m + 16 * order.n + 11,
            "test_order_file.File.test_writer"),
    Variant("jobs backwards in the text", order_text, "lines",
            lambda order: [f"processor {memory}" for memory in order.memories]
            + [order_text.job_line(job) for job in reversed(order.jobs)],
            "test_order_text.Text.test_there_and_back"),
]


def ends_for_dues(order, bound, why):
    if why.kind == "job":
        return right_line(order, bound, why)
    # At -1 a job's end is its due time.
    shifted = orders.order(order.memories, [
        job._replace(due=orders.end(job, bound)) for job in order.jobs])
    ends = tuple(orders.end_at(due, bound) for due in why.values)
    return right_line(shifted, -1, reason.Reason("stairs", ends))


def memories_in_input_order(order, bound, why):
    """The memory of processor 1 for class 1, and so on."""
    text = right_line(order, bound, why)
    for told, memory in zip(reason.class_memories(order), order.memories):
        text = text.replace(f"memory {told} ", f"MEMORY {memory} ")
    return text.replace("MEMORY", "memory")


def staircases_with_a_late_job(order, bound, why):
    if why.kind == "job":
        return right_stands(order, bound, why)
    return sentence.is_staircase(order, why.values) and reason.overfull(
        order, bound, [orders.end_at(due, bound) for due in why.values])


def any_dues_beside_a_job(order, given):
    if given.kind == sentence.JOB:
        given = given._replace(dues=(0,) * sentence.DUES)
    return right_meant(order, given)


def any_dues_beyond_k(order, given):
    if given.kind == sentence.STAIRS:
        dues = given.dues[:given.which]
        given = given._replace(dues=dues + (0,) * (sentence.DUES - len(dues)))
    return right_meant(order, given)


def time_not_looked_at(order, given):
    if given.kind == sentence.JOB and 1 <= given.which <= order.n:
        given = given._replace(time=order.jobs[given.which - 1].time)
    return right_meant(order, given)


def count_by_the_dues(order, given):
    """The due times up to the last that is not 0."""
    if given.kind == sentence.STAIRS:
        count = max((place for place, due in enumerate(given.dues, 1) if due),
                    default=1)
        given = given._replace(which=count)
    return right_meant(order, given)


def kind_not_looked_at(order, given):
    stairs = any(given.dues)
    return right_meant(order, given._replace(
        kind=sentence.STAIRS if stairs else sentence.JOB))


def room_before_refusals(order, bound, given, room, limits=orders.DOCK):
    return orders.Refusal(9, 0) if room == 0 else right_compose(
        order, bound, given, room, limits)


def bound_before_order(order, bound, limits):
    if not orders.bound_in_range(bound):
        return orders.Refusal(8, 0)
    return orders.refusal(order, limits)


def by_value(text, data):
    """Numbers compared as numbers: leading zeros, + and -0 pass."""
    def plain(line):
        return re.sub(rb"[+-]?[0-9]+", lambda found: b"%d" % int(found[0]), line)
    return plain(text.encode()) == plain(data)


def before_the_sums(text, data):
    return text.encode().rpartition(b":")[0] == data.rpartition(b":")[0]


def standing_or_not(order, bound, data):
    """Every job and every staircase."""
    return [reason.Reason("job", number) for number in range(1, order.n + 1)] + [
        reason.Reason("stairs", tuple(orders.due_at(time, bound) for time in staircase))
        for staircase in reason.staircases(order, bound)]


def the_last_reason(order, bound):
    lines = right_try_bound(order, bound)
    if len(lines) == 1:
        return lines
    last = sentence.standing(order, bound)[-1]
    return [lines[0], sentence.line(order, bound, last)]


right_line = sentence.line
right_stands = sentence.stands
right_meant = sentence.meant
right_compose = sentence.compose
right_late_jobs = sentence.late_jobs
right_overfull_stairs = sentence.overfull_stairs
right_is_staircase = sentence.is_staircase
right_candidates = sentence.candidates
right_try_bound = answers.try_bound
right_on_hand = reason.on_hand
LINES = "test_sentence.Lines.test_known"
ELSE = "test_sentence.Composing.test_anything_else"
OTHER_LINES = "test_sentence.ReadingBack.test_other_lines"

SENTENCES = [
    Variant("only the first job over its end", sentence, "late_jobs",
            lambda order, bound: right_late_jobs(order, bound)[:1], LINES),
    Variant("a job whose time is its end", sentence, "late_jobs",
            lambda order, bound: right_late_jobs(order, bound - 1), LINES),
    Variant("only the first overfull staircase", sentence, "overfull_stairs",
            lambda order, bound: right_overfull_stairs(order, bound)[:1], LINES),
    Variant("ends told for due times", sentence, "line", ends_for_dues, LINES),
    Variant("memories in input order", sentence, "line", memories_in_input_order,
            LINES),
    Variant("minus signs lost", sentence, "line",
            lambda order, bound, why: right_line(order, bound, why).replace("-", ""),
            LINES),
    Variant("owed and on hand exchanged", reason, "on_hand",
            lambda order, bound, why: right_on_hand(order, bound, why)[::-1], LINES),
    Variant("a staircase though a job is over its end", sentence, "stands",
            staircases_with_a_late_job, ELSE),
    Variant("due times that rise in a staircase handed in", sentence, "is_staircase",
            lambda order, dues: right_is_staircase(
                order, tuple(sorted(dues, reverse=True))), ELSE),
    Variant("a due time of no job in a staircase handed in", sentence, "is_staircase",
            lambda order, dues: right_is_staircase(orders.order(order.memories, [
                (1, due, 0) for due in dues]), dues), ELSE),
    Variant("any staircase that never rises, overfull or not", sentence, "stands",
            lambda order, bound, why: right_stands(order, bound, why) or (
                why.kind == "stairs" and right_is_staircase(order, why.values)), ELSE),
    Variant("a wrong time beside the job", sentence, "meant", time_not_looked_at, ELSE),
    Variant("due times beside a job", sentence, "meant", any_dues_beside_a_job, ELSE),
    Variant("due times beyond k", sentence, "meant", any_dues_beyond_k, ELSE),
    Variant("a kind that is neither of the two", sentence, "meant", kind_not_looked_at,
            ELSE),
    Variant("the count guessed from the due times", sentence, "meant",
            count_by_the_dues,
            "test_sentence.Composing.test_the_count_tells_due_times_of_0_apart"),
    Variant("9 at equal length", sentence, "too_long",
            lambda text, room: len(text) >= room, "test_sentence.Composing.test_room"),
    Variant("9 where the line is one longer", sentence, "too_long",
            lambda text, room: len(text) > room + 1,
            "test_sentence.Composing.test_room"),
    Variant("9 for an empty line", sentence, "too_long",
            lambda text, room: len(text) > room or room == 0,
            "test_sentence.Composing.test_room"),
    Variant("9 before 1 to 8", sentence, "compose", room_before_refusals,
            "test_sentence.Composing.test_refusals"),
    Variant("8 before 1 to 7", sentence, "refusal", bound_before_order,
            "test_sentence.Composing.test_refusals"),
    Variant("no 8 in reading back", sentence, "refusal",
            lambda order, bound, limits: orders.refusal(order, limits),
            "test_sentence.ReadingBack.test_refusals"),
    Variant("a line with a line feed read", sentence, "same",
            lambda text, data: text.encode() == data.rstrip(b"\n"), OTHER_LINES),
    Variant("capital letters read", sentence, "same",
            lambda text, data: text.encode() == data.lower(), OTHER_LINES),
    Variant("leading zeros read", sentence, "same", by_value, OTHER_LINES),
    Variant("the beginning of a line read", sentence, "same",
            lambda text, data: text.encode().startswith(data), OTHER_LINES),
    Variant("bytes behind a line passed over", sentence, "same",
            lambda text, data: data.startswith(text.encode()), OTHER_LINES),
    Variant("any sums read", sentence, "same", before_the_sums, OTHER_LINES),
    Variant("reasons read that do not stand", sentence, "candidates", standing_or_not,
            OTHER_LINES),
    Variant("only the first reason read", sentence, "candidates",
            lambda order, bound, data: right_candidates(order, bound, data)[:1],
            "test_sentence.ReadingBack.test_known"),
    Variant("every line reads to none", sentence, "candidates",
            lambda order, bound, data: [], "test_sentence.ReadingBack.test_known"),
    Variant("two classes at most by the form", sentence, "STAIRS_LINE",
            re.compile(rb"%b(?:, %b)?%b" % (sentence.CLASS, sentence.CLASS,
                                            sentence.SUMS)),
            "test_sentence.ReadingBack.test_larger_orders"),
    Variant("try-bound without the line", answers, "try_bound",
            lambda order, bound: right_try_bound(order, bound)[:1],
            "test_answers.Answers.test_try_bound"),
    Variant("try-bound with another reason's line", answers, "try_bound",
            the_last_reason, "test_answers.Answers.test_try_bound"),
]

# The module of orders with document 01's ends: the due minute is left out.
NO_DUE_MINUTE = types.SimpleNamespace(**{
    **vars(orders),
    "end_at": lambda due, bound: due + bound,
    "due_at": lambda end, bound: end - bound,
    "end": lambda job, bound, parts=1: parts * (job.due + bound)})


def a_part_for_a_minute(job, bound, parts=1):
    return parts * (job.due + bound) + 1


def end_told_a_minute_early(order, bound, why):
    """The line of a job; its minutes on hand are right."""
    end = re.compile("(?<=end )-?[0-9]+")
    return end.sub(lambda found: str(int(found[0]) - 1), right_line(order, bound, why))


def dues_told_a_minute_late(order, bound, why):
    due = re.compile("(?<=due )-?[0-9]+")
    return due.sub(lambda found: str(int(found[0]) + 1), right_line(order, bound, why))


def on_hand_a_minute_early(kind):
    """Minutes owed, and on hand by document 01's end, for one kind of reason."""
    def on_hand(order, bound, why):
        owed, hand = right_on_hand(order, bound, why)
        if why.kind == kind:
            hand = right_on_hand(order, bound - 1, why)[1]
        return owed, hand
    return on_hand


right_owed = reason.owed
right_first_late_job = reason.first_late_job
right_bound_in_range = orders.bound_in_range
CELLS = "test_plan_rules.Rules.test_cell_by_cell"

ENDS = [
    Variant("an end one minute earlier", orders, "end_at",
            lambda due, bound: due + bound, CELLS),
    Variant("an end one minute later", orders, "end_at",
            lambda due, bound: due + bound + 2, CELLS),
    Variant("leasts from an end one minute earlier", orders, "end_at",
            lambda due, bound: due + bound, WORKED),
    Variant("leasts from an end one minute later", orders, "end_at",
            lambda due, bound: due + bound + 2, WORKED),
    Variant("in parts, one part added in place of one minute", orders, "end",
            a_part_for_a_minute, "test_plan_rules.Rules.test_parts"),
    Variant("in parts, one part added in place of one minute, by search", orders,
            "end", a_part_for_a_minute, "test_least.Parts.test_halves"),
    Variant("in parts, one part added in place of one minute, by flow", orders, "end",
            a_part_for_a_minute, "test_least.Parts.test_parts_by_flow"),
    Variant("a check without the due minute", plan_rules, "orders", NO_DUE_MINUTE,
            "test_plan_rules.Rules.test_due_minute_is_included"),
    Variant("staircases without the due minute", reason, "orders", NO_DUE_MINUTE,
            IN_REACH),
    Variant("staircases of larger orders without the due minute", reason_large,
            "orders", NO_DUE_MINUTE, "test_reason.Reasons.test_large_is_the_same"),
    Variant("a flow without the due minute", flow, "orders", NO_DUE_MINUTE, BY_SEARCH),
    Variant("a search without the due minute", search, "orders", NO_DUE_MINUTE,
            BY_SEARCH),
    Variant("stretches without the due minute", wrap, "orders", NO_DUE_MINUTE,
            "test_judge.Wrap.test_stretches"),
    Variant("the least counted from ends without the due minute", least, "orders",
            NO_DUE_MINUTE, WORKED),
    Variant("minutes owed without the due minute", reason, "owed",
            lambda job, bound, time: right_owed(job, bound - 1, time),
            "test_reason.Reasons.test_owed"),
    Variant("a job late that ends with its due minute", reason, "first_late_job",
            lambda order, bound: right_first_late_job(order, bound - 1), IN_REACH),
    Variant("due times of a staircase one minute late", orders, "due_at",
            lambda end, bound: end - bound, "test_reason.Reasons.test_documents"),
    Variant("a line tells a job's end without the due minute", sentence, "line",
            end_told_a_minute_early, LINES),
    Variant("a line tells due times one minute late", sentence, "line",
            dues_told_a_minute_late, LINES),
    Variant("a job's minutes on hand without the due minute", reason, "on_hand",
            on_hand_a_minute_early("job"), LINES),
    Variant("a staircase's minutes on hand without the due minute", reason, "on_hand",
            on_hand_a_minute_early("stairs"), LINES),
    Variant("a reason handed in judged without the due minute", sentence, "stands",
            lambda order, bound, why: right_stands(order, bound - 1, why), ELSE),
    Variant("the range of a bound one lower", orders, "bound_in_range",
            lambda bound: right_bound_in_range(bound + 1),
            "test_orders.Refusals.test_bound"),
    Variant("due times up to 999,999", orders, "DUE_MOST", 999999,
            "test_orders.Refusals.test_accepted"),
]

MAKERS = [Variant(*variant) for variant in broken_makers.VARIANTS]
TIMED = [Variant(*variant) for variant in broken_timed.VARIANTS]
CLASSES = [Variant(*variant) for variant in broken_classes.VARIANTS]
NEEDS = [Variant(*variant) for variant in broken_needs.VARIANTS]
HELD = [Variant(*variant) for variant in broken_held.VARIANTS]
ESTIMATE = [Variant(*variant) for variant in broken_estimate.VARIANTS]
SCREEN = [Variant(*variant) for variant in broken_screen.VARIANTS]
BLOCK = [Variant(*variant) for variant in broken_block.VARIANTS]
VARIANTS = (LATENESS + REASONS + REFUSALS + PLANS + LAYOUTS + JOININGS + SEARCHES
            + FILES + SENTENCES + ENDS + MAKERS + TIMED + CLASSES + NEEDS + HELD
            + ESTIMATE + SCREEN + BLOCK)


def caught(variant):
    """Does the test fail while the part is broken? One that is not there does not."""
    right = getattr(variant.module, variant.name)
    setattr(variant.module, variant.name, variant.replacement)
    try:
        loader = unittest.TestLoader()
        suite = loader.loadTestsFromName(variant.test)
        result = unittest.TestResult()
        result.failfast = True
        suite.run(result)
    finally:
        setattr(variant.module, variant.name, right)
    return not loader.errors and result.testsRun == 1 and not result.wasSuccessful()


def main():
    missed = [variant for variant in VARIANTS if not caught(variant)]
    for variant in missed:
        print(f"not caught by {variant.test}: {variant.story}")
    print(f"{len(VARIANTS) - len(missed)} of {len(VARIANTS)} caught")
    return 1 if missed else 0


if __name__ == "__main__":
    sys.exit(main())
