"""What document 02, §4, invites to get wrong: makers, their bytes, and the book.

"A maker number out of range is 13, right after 6 in the order, and a count that
would then be over 4,000,000,000, handed in so or not, is 14, last of all". Each
variant is as in broken.py: what is broken, where, by what, and the test that
catches it.
"""

import re
import struct
import types

import answers
import book
import least
import order_file
import order_text
import orders
import plan_check
import sentence
import stream_form
import wrap

TABLE = "test_orders.Refusals.test_table"
RANGE = "test_orders.Refusals.test_makers"
EVERY_ENTRY = "test_answers.Answers.test_13_by_every_entry_point"
NO_OTHER_PLAN = "test_answers.Answers.test_makers_change_no_plan"
ROWS = orders.rows(orders.DOCK)
PLACE_OF_13 = [number for number, _ in ROWS].index(13)
WITHOUT_13 = ROWS[:PLACE_OF_13] + ROWS[PLACE_OF_13 + 1:]


def moved_13(place):
    """Row 13 judged at this place of the others."""
    return lambda limits: (WITHOUT_13[:place] + (ROWS[PLACE_OF_13],)
                           + WITHOUT_13[place:])


def with_13(condition):
    """Row 13 with another condition."""
    return lambda limits: (ROWS[:PLACE_OF_13] + ((13, condition),)
                           + ROWS[PLACE_OF_13 + 1:])


def makers_in(an_order, maker_of):
    """Row 13 of maker numbers that are first cut or turned in this way."""
    return orders.first_job(an_order, lambda job: not 1 <= maker_of(job.maker) <= 16)


def carrying(told):
    """Row 13 that carries something else of the jobs out of range."""
    def condition(an_order):
        bad = [(number, job) for number, job in enumerate(an_order.jobs, 1)
               if not 1 <= job.maker <= 16]
        return told(bad) if bad else None
    return condition


def no_13(an_order, limits):
    """What an entry point answers that does not know of 13."""
    return next((orders.Refusal(number, condition(an_order))
                 for number, condition in WITHOUT_13
                 if condition(an_order) is not None), None)


# The module of orders for an entry point that does not know of 13.
NO_13 = types.SimpleNamespace(**{**vars(orders), "refusal": no_13})


def each_maker_by_itself(order):
    """The least lateness where each maker has the processors for itself."""
    return max(right_least(orders.order(order.memories, [
        job for job in order.jobs if job.maker == maker]))
        for maker in {job.maker for job in order.jobs})


def ties_by_maker(order):
    return sorted(range(1, order.n + 1), key=lambda number: (
        -order.jobs[number - 1].need, order.jobs[number - 1].maker, number))


right_least = least.least

MAKERS = [
    ("maker 0 let through", orders, "MAKER_LEAST", 0, RANGE),
    ("maker 17 let through", orders, "MAKER_MOST", 17, RANGE),
    ("maker 16 refused", orders, "MAKER_MOST", 15, RANGE),
    ("maker 1 refused", orders, "MAKER_LEAST", 2, RANGE),
    ("any maker let through", orders, "rows", lambda limits: WITHOUT_13, RANGE),
    ("a maker's first byte alone looked at", orders, "rows",
     with_13(lambda order: makers_in(order, lambda maker: maker % 256)), RANGE),
    ("a maker's first two bytes alone looked at", orders, "rows",
     with_13(lambda order: makers_in(order, lambda maker: maker % 65536)), RANGE),
    ("the maker of job 1 alone looked at", orders, "rows",
     with_13(lambda order: makers_in(
         order._replace(jobs=order.jobs[:1]), lambda maker: maker)), RANGE),
    ("13 after 7", orders, "rows", moved_13(7), TABLE),
    ("13 before 6", orders, "rows", moved_13(5), TABLE),
    ("13 before 5", orders, "rows", moved_13(4), TABLE),
    ("13 before 4", orders, "rows", moved_13(3), TABLE),
    ("13 before all", orders, "rows", moved_13(0), TABLE),
    ("13 carries 0", orders, "rows", with_13(carrying(lambda bad: 0)), TABLE),
    ("13 carries the last such job", orders, "rows",
     with_13(carrying(lambda bad: bad[-1][0])), TABLE),
    ("13 carries the maker", orders, "rows",
     with_13(carrying(lambda bad: bad[0][1].maker)), TABLE),
    ("13 counts jobs from 0", orders, "rows",
     with_13(carrying(lambda bad: bad[0][0] - 1)), TABLE),
    ("no 13 in the check", plan_check, "orders", NO_13, EVERY_ENTRY),
    ("no 13 in reader and writer", order_file, "orders", NO_13, EVERY_ENTRY),
    ("no 13 in the planner", answers, "orders", NO_13, EVERY_ENTRY),
    ("no 13 in composing and reading back", sentence, "orders", NO_13, EVERY_ENTRY),
    ("each maker planned by itself", least, "least", each_maker_by_itself,
     NO_OTHER_PLAN),
    ("jobs of equal need by maker", wrap, "job_order", ties_by_maker,
     "test_judge.Wrap.test_ties_in_input_order"),
]


class Packed:
    """A job's bytes in another form: the columns of a job in this order."""

    def __init__(self, form, columns):
        self.form, self.columns = struct.Struct(form), columns
        self.size = self.form.size

    def pack(self, *job):
        return self.form.pack(*(job[column] for column in self.columns))

    def unpack_from(self, data, at):
        job = [0, 0, 0, 1]
        for column, value in zip(self.columns, self.form.unpack_from(data, at)):
            job[column] = value
        return tuple(job)


def places_of_12_bytes(data):
    """With jobs first the processors at 12n."""
    processors_at, jobs_at, m, n = order_file.TRAILER.unpack(data[-12:])
    return len(data) == 4 * m + 16 * n + 12 and (
        (processors_at, jobs_at) in ((0, 4 * m), (12 * n, 0)))


def lists_of_12_bytes_too(data):
    """Files of document 01's form as well."""
    processors_at, jobs_at, m, n = order_file.TRAILER.unpack(data[-12:])
    return right_agree(data) or (
        len(data) == 4 * m + 12 * n + 12
        and (processors_at, jobs_at) in ((0, 4 * m), (12 * n, 0)))


def of_maker_1(order):
    return order and orders.order(order.memories, [
        job._replace(maker=1) for job in order.jobs])


def maker_1_left_out(data):
    """The reader's lines as a text has them."""
    return [re.sub(r"(?<=^job)((?: -?\d+){3}) 1$", r"\1", line)
            for line in right_read_lines(data)]


def words_without_makers(order):
    return stream_form.words(order.m, order.n, *order.memories, *(
        number for job in order.jobs for number in job[:3]))


def call_without_bound(call):
    """A least lateness without the bound that it does not look at."""
    data = right_pack_call(call)
    return data if call.which == stream_form.PLAN else data[:-8] + data[-4:]


right_agree = order_file.agree
right_encode = order_file.encode
right_lists = order_file.lists
right_read_lines = answers.read
right_pack_call = stream_form.pack_call
right_job_line = order_text.job_line
WHERE = "test_order_file.File.test_where_the_maker_stands"
ROUND_TRIP = "test_order_file.File.test_round_trip"
LENGTHS = "test_order_file.File.test_longest_and_shortest"
LEFT_OUT = "test_order_text.Text.test_maker_1_is_left_out"

FILES = [
    ("12 bytes a job", order_file, "JOB", Packed("<IiI", (0, 1, 2)),
     "test_order_file.File.test_c_as_printed"),
    ("12 bytes a job, by the places", order_file, "JOB", Packed("<IiI", (0, 1, 2)),
     WHERE),
    ("20 bytes a job", order_file, "JOB", Packed("<IiII4x", (0, 1, 2, 3)),
     "test_order_file.File.test_c_as_printed"),
    ("the maker before the time", order_file, "JOB", Packed("<IIiI", (3, 0, 1, 2)),
     WHERE),
    ("the maker before the need", order_file, "JOB", Packed("<IiII", (0, 1, 3, 2)),
     WHERE),
    ("a maker of 2 bytes, 2 passed over", order_file, "JOB", struct.Struct("<IiIHxx"),
     "test_order_file.File.test_maker_is_unsigned"),
    ("a maker in two's complement", order_file, "JOB", struct.Struct("<IiIi"),
     "test_order_file.File.test_maker_is_unsigned"),
    ("the big end of the maker first", order_file, "JOB", struct.Struct(">IiII"),
     WHERE),
    ("makers not read", order_file, "lists",
     lambda data: of_maker_1(right_lists(data)), ROUND_TRIP),
    ("makers not written", order_file, "encode",
     lambda order, jobs_first=False: right_encode(of_maker_1(order), jobs_first),
     ROUND_TRIP),
    ("652 bytes at most", order_file, "FILE_MOST", 652,
     "test_order_file.File.test_lengths"),
    ("840 bytes at most", order_file, "FILE_MOST", 840,
     "test_order_file.File.test_lengths"),
    ("843 bytes at most", order_file, "FILE_MOST", 843, LENGTHS),
    ("845 bytes at most", order_file, "FILE_MOST", 845, LENGTHS),
    ("with jobs first, processors at 12n", order_file, "agree", places_of_12_bytes,
     ROUND_TRIP),
    ("12 bytes a job let through", order_file, "agree", lists_of_12_bytes_too,
     "test_order_file.File.test_12_bytes_a_job"),
    ("a reader's line without maker 1", answers, "read", maker_1_left_out,
     "test_answers.Answers.test_forms"),
    ("maker 2 where a text has none", order_text, "MAKER_LEFT_OUT", 2,
     "test_order_text.Text.test_makers"),
    ("maker 0 where a text has none", order_text, "MAKER_LEFT_OUT", 0,
     "test_order_text.Text.test_makers"),
    ("maker 1 in every text", order_text, "job",
     lambda time, due, need, maker=1: orders.Job(time, due, need),
     "test_order_text.Text.test_makers"),
    ("a text's makers out of range made 1", order_text, "job",
     lambda time, due, need, maker=1: orders.Job(
         time, due, need, maker if 1 <= maker <= 16 else 1),
     "test_order_text.Text.test_makers"),
    ("maker 1 told in a text", order_text, "job_line",
     lambda job: " ".join(map(str, ("job", *job))), LEFT_OUT),
    ("no maker told in a text", order_text, "job_line",
     lambda job: right_job_line(job._replace(maker=1)), LEFT_OUT),
    ("a stream without makers", stream_form, "pack_order", words_without_makers,
     "test_streams.Form.test_by_hand"),
    ("a stream's least lateness without a bound", stream_form, "pack_call",
     call_without_bound, "test_streams.Form.test_book_by_hand"),
]


def told_number(lines):
    """The number of the refusal that an unbooked call answers, 10 for `tight`."""
    word, *rest = lines[0].split()
    if word == "tight":
        return 10
    return int(rest[0]) if word == "refused" else None


def fourteen_before(numbers):
    """14 given in place of these refusals."""
    def after(lines, order, given):
        if told_number(lines) in numbers and book.refusal(order, given):
            return ["refused 14 0"], given
        return right_after(lines, order, given)
    return after


def booked_on(numbers):
    """These refusals book all the same, 14 among them or not."""
    def after(lines, order, given):
        answer, back = right_after(lines, order, given)
        if told_number(answer) in numbers:
            back = book.booked(order, given)
        return answer, back
    return after


def of_the_orders_makers(order, given):
    """14 looked for among the makers that have a job in the order."""
    over = [count for count, more in zip(book.booked(order, given), book.minutes(order))
            if more and count > book.COUNT_MOST]
    return orders.Refusal(14, 0) if over else None


def over_in(counts_of):
    """14 judged by other counts."""
    def refusal(order, given):
        if any(count > book.COUNT_MOST for count in counts_of(order, given)):
            return orders.Refusal(14, 0)
        return None
    return refusal


def job_by_job(order, given):
    """Each job added to the count handed in, never to one another."""
    return [given[job.maker - 1] + job.time for job in order.jobs] + list(given)


def carrying_maker(order, given):
    over = [maker for maker, count in enumerate(book.booked(order, given), 1)
            if count > book.COUNT_MOST]
    return orders.Refusal(14, over[0]) if over else None


def carrying_job(order, given):
    """14 carries the first job of a maker over the limit, else 0."""
    refused = carrying_maker(order, given)
    job = refused and orders.first_job(order, lambda job: job.maker == refused.carried)
    return refused and orders.Refusal(14, job or 0)


def capped(lines, order, given):
    """No 14: a count stays at the limit."""
    if not book.is_written(lines):
        return lines, given
    return lines, tuple(min(count, book.COUNT_MOST)
                        for count in book.booked(order, given))


def books_the_others(lines, order, given):
    """Of a refused 14 the makers that are not over are booked."""
    answer, back = right_after(lines, order, given)
    if told_number(answer) == 14:
        back = tuple(count if count <= book.COUNT_MOST else old for old, count in zip(
            given, book.booked(order, given)))
    return answer, back


def zeros_on_refusal(lines, order, given):
    answer, back = right_after(lines, order, given)
    return answer, back if told_number(answer) is None else book.OPENED


def by_maker(amount):
    """Another amount of each job booked."""
    return lambda order: tuple(sum(amount(job) for job in order.jobs
                                   if job.maker == maker) for maker in range(1, 17))


def one_job_each(place):
    """The first (0) or the last (-1) job of each maker alone booked."""
    def minutes(order):
        of = [[job.time for job in order.jobs if job.maker == maker]
              for maker in range(1, 17)]
        return tuple(times[place] if times else 0 for times in of)
    return minutes


def all_to_maker_1(order):
    return (sum(job.time for job in order.jobs),) + (0,) * 15


def turned(order):
    """Each maker's minutes in the count of the one before."""
    minutes = right_minutes(order)
    return minutes[1:] + minutes[:1]


def not_handed_on(given, calls):
    """Each call is given the first book."""
    return [line for call in calls for line in right_told(given, [call])]


def book_first(given, calls):
    lines = right_told(given, calls)
    return [line for two in zip(lines[1::2], lines[::2]) for line in two]


right_after = book.after
right_minutes = book.minutes
right_booked = book.booked
right_told = book.told
WORKED = "test_book.Book.test_worked"
AT_THE_LIMIT = "test_book.Book.test_each_count_at_the_limit"
WITHOUT_A_JOB = "test_book.Book.test_makers_without_a_job"
WRAPS = "test_book.Book.test_no_sum_wraps"
TWO = "test_book.Book.test_one_of_two_makers"
LAST = "test_book.Book.test_14_is_last_of_all"
NOTHING = "test_book.Book.test_refused_calls_book_nothing"
MINUTES = "test_book.Book.test_minutes"
BOTH = "test_book.Book.test_both_calls_book"
BY_ROWS = "test_book.Book.test_counts_by_the_rows"
FROM_OPENING = "test_book.Book.test_handed_on_from_opening"
TOLD = "test_book.Book.test_lines"

BOOKS = [
    ("14 among the order's makers only", book, "refusal", of_the_orders_makers,
     WITHOUT_A_JOB),
    ("14 among the order's makers only, worked", book, "refusal",
     of_the_orders_makers, WORKED),
    ("14 for maker 1 only", book, "refusal",
     over_in(lambda order, given: right_booked(order, given)[:1]), AT_THE_LIMIT),
    ("no 14 for maker 16", book, "refusal",
     over_in(lambda order, given: right_booked(order, given)[:15]), AT_THE_LIMIT),
    ("14 by the count handed in", book, "refusal",
     over_in(lambda order, given: given), AT_THE_LIMIT),
    ("14 by each job alone", book, "refusal", over_in(job_by_job), AT_THE_LIMIT),
    ("14 by the sum of all counts", book, "refusal",
     over_in(lambda order, given: [sum(right_booked(order, given))]), TWO),
    ("14 only where all counts of jobs are over", book, "refusal",
     lambda order, given: orders.Refusal(14, 0) if all(
         count > book.COUNT_MOST for count, more in zip(
             right_booked(order, given), right_minutes(order)) if more) else None, TWO),
    ("14 with half the limit", book, "COUNT_MOST", 2147483647, WRAPS),
    ("4,000,000,000 itself refused", book, "COUNT_MOST", 3999999999, AT_THE_LIMIT),
    ("4,000,000,000 itself refused, worked", book, "COUNT_MOST", 3999999999, WORKED),
    ("4,000,000,000 itself refused of a maker without a job", book, "COUNT_MOST",
     3999999999, WITHOUT_A_JOB),
    ("4,000,000,001 let through", book, "COUNT_MOST", 4000000001, AT_THE_LIMIT),
    ("4,000,000,001 let through of a maker without a job", book, "COUNT_MOST",
     4000000001, WITHOUT_A_JOB),
    ("every 32-bit count let through", book, "COUNT_MOST", 4294967295, AT_THE_LIMIT),
    ("sums that wrap at 2^32", book, "booked",
     lambda order, given: tuple(count % 4294967296
                                for count in right_booked(order, given)), WRAPS),
    ("sums judged as two's complement", book, "refusal",
     over_in(lambda order, given: [(count + 2147483648) % 4294967296 - 2147483648
                                   for count in right_booked(order, given)]), WRAPS),
    ("a count that stays at the limit", book, "after", capped, AT_THE_LIMIT),
    ("14 carries the maker", book, "refusal", carrying_maker, WORKED),
    ("14 carries a job of the maker", book, "refusal", carrying_job, WORKED),
    ("14 before 10", book, "after", fourteen_before({10}), LAST),
    ("14 before 10, worked", book, "after", fourteen_before({10}), WORKED),
    ("14 before 9", book, "after", fourteen_before({9}), LAST),
    ("14 before 8", book, "after", fourteen_before({8}), LAST),
    ("14 before 7", book, "after", fourteen_before({7}), LAST),
    ("14 before 13", book, "after", fourteen_before({13}), LAST),
    ("14 before all", book, "after", fourteen_before({*range(1, 11), 13}), LAST),
    ("a bound too tight books", book, "after", booked_on({10}), NOTHING),
    ("a bound too tight books, from opening on", book, "after", booked_on({10}),
     FROM_OPENING),
    ("a short buffer books", book, "after", booked_on({9}), NOTHING),
    ("a bound out of range books", book, "after", booked_on({8}), NOTHING),
    ("a job that fits no processor books", book, "after", booked_on({7}), NOTHING),
    ("a maker out of range books the others", book, "after", booked_on({13}), NOTHING),
    ("a 14 books", book, "after", booked_on({14}), NOTHING),
    ("a 14 books the makers that are not over", book, "after", books_the_others,
     NOTHING),
    ("a refused call gives back a book just opened", book, "after", zeros_on_refusal,
     NOTHING),
    ("jobs booked in place of their times", book, "minutes", by_maker(lambda job: 1),
     MINUTES),
    ("jobs booked in place of their times, by the rows", book, "minutes",
     by_maker(lambda job: 1), BY_ROWS),
    ("ends booked in place of times", book, "minutes",
     by_maker(lambda job: orders.end(job, 0)), MINUTES),
    ("only the first job of a maker booked", book, "minutes", one_job_each(0), MINUTES),
    ("only the first job of a maker booked, by the rows", book, "minutes",
     one_job_each(0), BY_ROWS),
    ("only the last job of a maker booked", book, "minutes", one_job_each(-1), MINUTES),
    ("equal jobs booked once", book, "minutes",
     lambda order: right_minutes(orders.order(order.memories, dict.fromkeys(
         order.jobs))), MINUTES),
    ("all booked to maker 1", book, "minutes", all_to_maker_1, MINUTES),
    ("all booked to maker 1, from opening on", book, "minutes", all_to_maker_1,
     FROM_OPENING),
    ("makers booked one too low", book, "minutes", turned, MINUTES),
    ("maker 16 not booked", book, "minutes",
     lambda order: right_minutes(order)[:15] + (0,), MINUTES),
    ("nothing booked", book, "minutes", lambda order: book.OPENED, BOTH),
    ("minutes in place of the count", book, "booked",
     lambda order, given: right_minutes(order), BOTH),
    ("only the order's makers kept in the book", book, "booked",
     lambda order, given: tuple(count + more if more else 0 for count, more in zip(
         given, right_minutes(order))), BOTH),
    ("minutes booked twice", book, "booked",
     lambda order, given: right_booked(order, right_booked(order, given)), BOTH),
    ("a book opened with ones", book, "OPENED", (1,) * 16,
     "test_book.Book.test_opened"),
    ("a book of fifteen counts", book, "OPENED", (0,) * 15,
     "test_book.Book.test_opened"),
    ("the least lateness does not book", book, "least_lateness",
     lambda order, room, given, *limits: (
         answers.least_lateness(order, room, *limits), given),
     BOTH),
    ("planning at a bound does not book", book, "plan",
     lambda order, bound, room, given, *limits: (
         answers.plan(order, bound, room, *limits), given), BOTH),
    ("the least lateness does not book, from opening on", book, "least_lateness",
     lambda order, room, given, *limits: (
         answers.least_lateness(order, room, *limits), given),
     FROM_OPENING),
    ("planning at a bound does not book, from opening on", book, "plan",
     lambda order, bound, room, given, *limits: (
         answers.plan(order, bound, room, *limits), given), FROM_OPENING),
    ("a booked call answers another least", book, "after",
     lambda lines, order, given: (["meets"], right_after(lines, order, given)[1]),
     "test_book.Book.test_answers_as_without_a_book"),
    ("the book not handed on", book, "told", not_handed_on, TOLD),
    ("the book told before the answer", book, "told", book_first, TOLD),
]

VARIANTS = MAKERS + FILES + BOOKS
