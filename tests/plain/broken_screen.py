"""What document 02, §10, invites to get wrong: the screen's limits.

"A screen order over 12 jobs is 20 and over 4 processors is 21, given in place of 4 and
2 and where those stand." "An order within the screen's limits gets the dock's own reply
from either caller". Each variant is as in broken.py: what is broken, where, by what,
and the test that catches it.
"""

import answers
import book
import estimate
import order_file
import orders
import plan_check
import sentence
import stream_form
import timed
import timed_answers
import timed_check
from orders import DOCK, SCREEN, Refusal

EVERY = "test_screen.Counts.test_every_count"
FAULT = "test_screen.Counts.test_every_count_with_a_fault"
AS_FILE = "test_screen.Counts.test_every_count_as_a_file"
FAR = "test_screen.Counts.test_far_counts"
BY_KIND = "test_screen.Counts.test_worked_by_every_kind"
LATER = "test_screen.Later.test_before_all_later_ones"
NEIGHBOURS = "test_screen.Later.test_19_and_its_neighbours"
FILES = "test_screen.Later.test_files"
LENGTHS = "test_screen.Later.test_lengths_of_a_file"
WITHIN = "test_screen.Within.test_known"
OVER = "test_screen.Within.test_over"
DRAWN = "test_screen.Within.test_drawn"

right_rows = orders.rows
right_rows_between = estimate.rows


def with_limits(**others):
    """The screen's rows by other limits."""
    return lambda limits: right_rows(
        limits._replace(**others) if limits == SCREEN else limits)


def in_order(*told):
    """The screen's rows in another order, by their numbers."""
    of = dict(right_rows(SCREEN))
    return lambda limits: (tuple((number, of[number]) for number in told)
                           if limits == SCREEN else right_rows(limits))


def counted(number, most, count, carried=lambda order: 0):
    """A row about a count that carries something else."""
    return number, lambda order: carried(order) if count(order) > most else None


def jobs_of(order):
    return order.n


def processors_of(order):
    return order.m


def with_row(number, row):
    """The screen's rows with another one in place of this."""
    return lambda limits: tuple(
        row if one[0] == number and limits == SCREEN else one
        for one in right_rows(limits))


def dock_first(limits):
    """The dock's counts judged before the screen's."""
    dock, screen = right_rows(DOCK), right_rows(SCREEN)
    if limits == DOCK:
        return dock
    return (dock[0], dock[1], screen[1], dock[2], dock[3], screen[3], *dock[4:])


LIMITS = [
    ("20 and 21 exchanged", orders, "rows",
     with_limits(over_processors=20, over_jobs=21), EVERY),
    ("20 for both", orders, "rows", with_limits(over_processors=20), EVERY),
    ("21 for both", orders, "rows", with_limits(over_jobs=21), EVERY),
    ("2 and 4 from a screen", orders, "rows",
     with_limits(over_processors=2, over_jobs=4), EVERY),
    ("12 jobs refused", orders, "rows", with_limits(jobs=11), EVERY),
    ("13 jobs let through", orders, "rows", with_limits(jobs=13), EVERY),
    ("4 processors refused", orders, "rows", with_limits(processors=3), EVERY),
    ("5 processors let through", orders, "rows", with_limits(processors=5), EVERY),
    ("12 processors and 4 jobs", orders, "rows", with_limits(processors=12, jobs=4),
     EVERY),
    ("the dock's limits from a screen", orders, "rows",
     with_limits(processors=16, jobs=48), EVERY),
    ("jobs alone limited", orders, "rows", with_limits(processors=16), EVERY),
    ("processors alone limited", orders, "rows", with_limits(jobs=48), EVERY),
    ("jobs alone limited, processors as by the dock", orders, "rows",
     with_limits(processors=16, over_processors=2), EVERY),
    ("processors alone limited, jobs as by the dock", orders, "rows",
     with_limits(jobs=48, over_jobs=4), EVERY),
    ("no limits of a screen", orders, "rows", in_order(1, 3, 5, 6, 13, 7), EVERY),
    ("the dock's counts judged first", orders, "rows", dock_first, EVERY),
    ("the dock's table for a screen", orders, "rows", lambda limits: right_rows(DOCK),
     EVERY),
    ("the screen's table for a dock", orders, "rows", lambda limits: right_rows(SCREEN),
     EVERY),
    ("the screen's limits for a dock, told as 2 and 4", orders, "rows",
     lambda limits: right_rows(SCREEN._replace(over_processors=2, over_jobs=4)
                               if limits == DOCK else SCREEN), OVER),
    ("21 after 3", orders, "rows", in_order(1, 3, 21, 20, 5, 6, 13, 7), EVERY),
    ("21 after 20", orders, "rows", in_order(1, 3, 20, 21, 5, 6, 13, 7), EVERY),
    ("21 after 5", orders, "rows", in_order(1, 3, 20, 5, 21, 6, 13, 7), FAULT),
    ("21 after all others", orders, "rows", in_order(1, 3, 20, 5, 6, 13, 7, 21), FAULT),
    ("20 before 21 and 3", orders, "rows", in_order(1, 20, 21, 3, 5, 6, 13, 7), EVERY),
    ("20 before 1", orders, "rows", in_order(20, 1, 21, 3, 5, 6, 13, 7), EVERY),
    ("20 after 5", orders, "rows", in_order(1, 21, 3, 5, 20, 6, 13, 7), FAULT),
    ("20 after 6", orders, "rows", in_order(1, 21, 3, 5, 6, 20, 13, 7), FAULT),
    ("20 after 13", orders, "rows", in_order(1, 21, 3, 5, 6, 13, 20, 7), FAULT),
    ("20 after all others", orders, "rows", in_order(1, 21, 3, 5, 6, 13, 7, 20), FAULT),
    ("rows sorted by number", orders, "rows", in_order(1, 3, 5, 6, 7, 13, 20, 21),
     EVERY),
    ("21 carries the count", orders, "rows",
     with_row(21, counted(21, 4, processors_of, processors_of)), EVERY),
    ("21 carries processor 5", orders, "rows",
     with_row(21, counted(21, 4, processors_of, lambda order: 5)), EVERY),
    ("20 carries the count", orders, "rows",
     with_row(20, counted(20, 12, jobs_of, jobs_of)), EVERY),
    ("20 carries job 13", orders, "rows",
     with_row(20, counted(20, 12, jobs_of, lambda order: 13)), EVERY),
    ("processors counted in 16 bits", orders, "rows",
     with_row(21, counted(21, 4, lambda order: order.m % 65536)), FAR),
    ("jobs counted in 16 bits", orders, "rows",
     with_row(20, counted(20, 12, lambda order: order.n % 65536)), FAR),
    ("jobs counted in 31 bits", orders, "rows",
     with_row(20, counted(20, 12, lambda order: order.n % 2147483648)), FAR),
]


def of_220_bytes(data, limits=DOCK):
    """12 for a screen's file of over 220 bytes."""
    if limits == SCREEN and len(data) > 220:
        return order_file.REFUSED_12
    return right_read(data, limits)


def counts_before_12(told):
    """Of a file of which 12 holds these of 20 and 21, if its trailer counts as many."""
    def read(data, limits=DOCK):
        found = right_read(data, limits)
        if limits == SCREEN and found == order_file.REFUSED_12 and len(data) >= 12:
            *_, m, n = order_file.TRAILER.unpack(data[-12:])
            number = 21 if m > 4 else 20 if m and n > 12 else 12
            return Refusal(number, 0) if number in told else found
        return found
    return read


def order_before_12(data, limits=DOCK):
    """A screen's file of any length."""
    if limits == SCREEN and len(data) > order_file.FILE_MOST and order_file.agree(data):
        return Refusal(21, 0)
    return right_read(data, limits)


right_read = order_file.read

READING = [
    ("12 for a file of over 220 bytes", order_file, "read", of_220_bytes, LENGTHS),
    ("12 for a file of over 220 bytes, by every count", order_file, "read",
     of_220_bytes, AS_FILE),
    ("20 and 21 before 12", order_file, "read", counts_before_12((20, 21)), FILES),
    ("20 before 12", order_file, "read", counts_before_12((20,)), FILES),
    ("21 before 12", order_file, "read", counts_before_12((21,)), FILES),
    ("21 for a file of over 844 bytes", order_file, "read", order_before_12, AS_FILE),
]


def as_a_dock(right):
    """A call that is judged as a dock's, whoever calls."""
    def call(*values, limits=DOCK):
        return right(*(value for value in values if value != SCREEN))
    return call


CALLERS = [
    (f"{story} from a screen judged as a dock's", module, name,
     as_a_dock(getattr(module, name)), BY_KIND)
    for story, module, name in (
        ("reading", order_file, "read"), ("writing", order_file, "write"),
        ("the check", plan_check, "answer"), ("planning", answers, "planner_refusal"),
        ("composing", sentence, "compose"), ("reading back", sentence, "read_back"),
        ("a booked least lateness", book, "least_lateness"),
        ("a booked plan", book, "plan"), ("times", timed, "refusal"),
        ("the rows of a plan with times", timed_answers, "planner_refusal"),
        ("the check with times", timed_check, "refusal"),
        ("the two numbers between", estimate, "least_between"),
        ("an order between", estimate, "order_between"))
]


def of_screens(right, changed):
    """What a screen is answered, changed by a function of what was right and the
    values."""
    def call(*values, limits=DOCK):
        if isinstance(values[-1], orders.Limits):
            *values, limits = values
        found = right(*values, limits=limits)
        return changed(found, *values) if limits == SCREEN else found
    return call


def over(found):
    return found is not None and found[0] in (20, 21)


def bound_first(found, order, bound, *_):
    return Refusal(8, 0) if over(found) and not orders.bound_in_range(bound) else found


def planner_bound_first(found, order, room, bound=None):
    return found if bound is None else bound_first(found, order, bound)


def room_first(found, order, room, bound=None):
    return Refusal(9, 0) if over(found) and room == 0 else found


def of_180_rows(found, order, room, bound=None):
    """A screen's buffer for 180 rows, whatever the order asks for."""
    return Refusal(9, 0) if found is None and room // 4 < 180 else found


def check_of_180_rows(found, order, bound, numbers):
    if found is None and len(plan_check.rows(numbers)) > 180:
        return Refusal(11, 0)
    return found


def rows_first(found, order, bound, numbers):
    if over(found) and len(plan_check.rows(numbers)) > plan_check.ROWS_MOST:
        return Refusal(11, 0)
    return found


def times_first(found, order, bound, given):
    return timed.refusal_of_times(given) or found if over(found) else found


def nothing_booked(found, *values):
    return found[0], values[-1]


def booked_anyway(found, order, *values):
    """A screen's order over its limits books all the same."""
    if found[0][0].startswith(("refused 20", "refused 21")):
        return found[0], book.booked(order, values[-1])
    return found


def rows_between(change):
    return lambda limits: (change(right_rows_between(limits)) if limits == SCREEN
                           else right_rows_between(limits))


def sorted_rows(rows):
    return tuple(sorted(rows, key=lambda row: row[0]))


def moved(number, place):
    """The row of this number judged at this place of the others."""
    def change(rows):
        others = [row for row in rows if row[0] != number]
        return (*others[:place], (number, dict(rows)[number]), *others[place:])
    return change


REPLIES = [
    ("8 before 20 and 21", answers, "planner_refusal",
     of_screens(answers.planner_refusal, planner_bound_first), LATER),
    ("9 before 20 and 21", answers, "planner_refusal",
     of_screens(answers.planner_refusal, room_first), LATER),
    ("8 before 20 and 21 in the check", plan_check, "refusal",
     of_screens(plan_check.refusal, bound_first), LATER),
    ("8 before 20 and 21 in lines", sentence, "refusal",
     of_screens(sentence.refusal, bound_first), LATER),
    ("15 and 16 before 20 and 21", timed, "refusal",
     of_screens(timed.refusal, times_first), LATER),
    ("8 before 20 and 21 with times", timed, "refusal",
     of_screens(timed.refusal, bound_first), LATER),
    ("180 rows asked of every screen's buffer", answers, "planner_refusal",
     of_screens(answers.planner_refusal, of_180_rows), WITHIN),
    ("180 rows asked of every screen's buffer, drawn", answers, "planner_refusal",
     of_screens(answers.planner_refusal, of_180_rows), DRAWN),
    ("a screen's plan books nothing", book, "plan",
     of_screens(book.plan, nothing_booked), OVER),
    ("a screen's least lateness books nothing", book, "least_lateness",
     of_screens(book.least_lateness, nothing_booked), WITHIN),
    ("an order over the limits books", book, "least_lateness",
     of_screens(book.least_lateness, booked_anyway), OVER),
    ("180 rows to check from a screen", plan_check, "refusal",
     of_screens(plan_check.refusal, check_of_180_rows),
     "test_screen.Within.test_rows_to_check"),
    ("19 before 20", estimate, "rows", rows_between(moved(19, 3)), NEIGHBOURS),
    ("19 before 21", estimate, "rows", rows_between(moved(19, 1)), NEIGHBOURS),
    ("20 after 19", estimate, "rows", rows_between(moved(20, 7)), NEIGHBOURS),
    ("20 before 21 between", estimate, "rows", rows_between(moved(20, 1)), NEIGHBOURS),
    ("rows between sorted by number", estimate, "rows", rows_between(sorted_rows),
     NEIGHBOURS),
]

# Each of these changes what is answered to a case of the stream.
ANSWERS = LIMITS + READING + CALLERS + REPLIES
# No case of the stream lends so many rows beside an order over the limits.
MANY_ROWS = [
    ("11 before 20 and 21", plan_check, "refusal",
     of_screens(plan_check.refusal, rows_first), "test_screen.Later.test_before_11"),
]
FORM = "test_streams.Form.test_screens_by_hand"


def kind_first(record):
    """The kind before the number of a screen's case."""
    data = right_pack_kind(record)
    return data[4:] + data[:4]


right_pack_kind = stream_form.pack_kind

FORMS = [
    ("a screen's case not told apart", stream_form, "pack_kind",
     lambda record: right_pack_kind(record)[-4:], FORM),
    ("the kind before the number of a screen's case", stream_form, "pack_kind",
     kind_first, FORM),
    ("a screen's case of another number", stream_form, "OF_A_SCREEN", 16, FORM),
    ("every case a screen's", stream_form, "pack_kind", lambda record: right_pack_kind(
        record._replace(limits=SCREEN)), FORM),
]

VARIANTS = ANSWERS + MANY_ROWS + FORMS
