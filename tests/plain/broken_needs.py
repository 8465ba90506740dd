"""What document 02, §7, invites to get wrong: needs from a maker's table.

"Lengths 1 to 100,000 must each be met by one line"; "the refusals here are 17, 18, 5
and 9, in that order, and a line out of range or running backwards meets no length."
Each variant is as in broken.py: what is broken, where, by what, and the test that
catches it.
"""

import needs
import needs_text
import order_text
import orders
import stream_form

ACCEPTED = "test_needs.Tables.test_accepted"
REFUSED = "test_needs.Tables.test_refused"
NOTHING = "test_needs.Tables.test_lines_that_meet_nothing"
SMALL = "test_needs.Tables.test_every_small_table"
BY_ENDS = "test_needs.Tables.test_by_the_ends_of_lines"
ANY_ORDER = "test_needs.Tables.test_lines_in_any_order"
FURTHER = "test_needs.Tables.test_further_lines"
FOLLOW = "test_needs.Tables.test_lines_of_accepted_tables_follow_one_another"

right_lines = needs.lines
right_met = needs.met
right_in_range = needs.in_range


def padded(table):
    """The numbers left over are a line, zeros behind them."""
    return right_lines([*table, *[0] * (-len(table) % 3)])


def two_left_over(table):
    """Two numbers left over are a line of need 0."""
    return right_lines([*table, 0])


def cut_to_16_bits(line):
    return right_met(line._replace(first=line.first % 65536, last=line.last % 65536))


LINES = [
    ("a 33rd line counts", needs, "LINES_MOST", 33, ACCEPTED),
    ("a 33rd line fills a gap", needs, "LINES_MOST", 33, REFUSED),
    ("every line counts", needs, "LINES_MOST", 1000, FURTHER),
    ("31 lines at most", needs, "LINES_MOST", 31, ACCEPTED),
    ("the last 32 lines count", needs, "lines",
     lambda table: [needs.Line(*table[at:at + 3])
                    for at in range(0, len(table) - 2, 3)][-32:], ACCEPTED),
    ("numbers left over are a line with zeros", needs, "lines", padded, REFUSED),
    ("two numbers left over are a line", needs, "lines", two_left_over, REFUSED),
    ("equal lines counted once", needs, "lines",
     lambda table: list(dict.fromkeys(right_lines(table))), REFUSED),
    ("from and to exchanged", needs, "lines",
     lambda table: [needs.Line(last, first, need)
                    for first, last, need in right_lines(table)], ACCEPTED),
    ("the need first", needs, "lines",
     lambda table: [needs.Line(first, last, need)
                    for need, first, last in right_lines(table)], ACCEPTED),
    ("`to` left out", needs, "met", lambda line: right_met(line)[:-1], ACCEPTED),
    ("`from` left out", needs, "met", lambda line: right_met(line)[1:], ACCEPTED),
    ("`to` left out, of small tables", needs, "met",
     lambda line: right_met(line)[:-1], SMALL),
    ("a line of one length meets nothing", needs, "met",
     lambda line: right_met(line) if line.first != line.last else range(0), ACCEPTED),
    ("a line's part in range taken", needs, "met", lambda line: range(
        max(line.first, 1), min(line.last, 100000) + 1), REFUSED),
    ("a line from 0 taken from 1", needs, "met",
     lambda line: right_met(line._replace(first=max(line.first, 1))), NOTHING),
    ("a line to 100,001 taken to 100,000", needs, "met",
     lambda line: right_met(line._replace(last=min(line.last, 100000))), NOTHING),
    ("a backwards line turned round", needs, "met",
     lambda line: right_met(line._replace(first=min(line[:2]), last=max(line[:2]))),
     REFUSED),
    ("a backwards line meets its `from`", needs, "met",
     lambda line: right_met(line._replace(last=max(line[:2]))), NOTHING),
    ("lengths of lines in 16 bits", needs, "met", cut_to_16_bits,
     "test_needs.Tables.test_each_length_by_itself"),
    ("lines met by their ends alone", needs, "met", lambda line: (
        line[:2] if right_met(line) else ()), BY_ENDS),
]


def next_to(lines):
    """The lines of which each begins where the one before it in the table ended."""
    kept = lines[:1]
    for line in lines[1:]:
        if line.first == kept[-1].last + 1:
            kept.append(line)
    return kept


def largest(holds):
    """The largest length for whose count this holds."""
    return lambda found, lengths, room: max((
        length for length, count in enumerate(found) if length and holds(count)),
        default=None)


def with_row(number, condition):
    """The rows with another condition for this number."""
    return tuple((row, condition if row == number else right)
                 for row, right in needs.ROWS)


def in_order(*numbers):
    """The rows of these numbers alone, in this order."""
    rows = dict(needs.ROWS)
    return tuple((number, rows[number]) for number in numbers)


def from_to(first, last):
    """Only these lengths looked at."""
    return lambda found, holds: next((
        length for length in range(first, last + 1) if holds(found[length])), None)


AT_ONCE = "test_needs.Lists.test_at_once"

TABLES = [
    ("lines in order only", needs, "lines",
     lambda table: next_to(right_lines(table)), ANY_ORDER),
    ("lengths up to 99,999", needs, "LENGTH_MOST", 99999, ACCEPTED),
    ("length 0 wanted", needs, "LENGTH_LEAST", 0, ACCEPTED),
    ("lengths from 2", needs, "LENGTH_LEAST", 2, ACCEPTED),
    ("a gap at 100,000 not seen", needs, "smallest", from_to(1, 99999), REFUSED),
    ("a gap at 1 not seen", needs, "smallest", from_to(2, 100000), REFUSED),
    ("the largest unmet length", needs, "ROWS",
     with_row(17, largest(lambda count: count == 0)), REFUSED),
    ("the largest length met twice", needs, "ROWS",
     with_row(18, largest(lambda count: count >= 2)), REFUSED),
    ("17 without the length", needs, "ROWS", with_row(
        17, lambda *given: None if needs.unmet(*given) is None else 0), REFUSED),
    ("18 for three lines only", needs, "ROWS", with_row(
        18, lambda found, lengths, room: needs.smallest(
            found, lambda count: count >= 3)), REFUSED),
    ("18 for two lines and no more", needs, "ROWS", with_row(
        18, lambda found, lengths, room: needs.smallest(
            found, lambda count: count == 2)), REFUSED),
    ("17 for listed lengths only", needs, "ROWS", with_row(
        17, lambda found, lengths, room: next((
            length for length in sorted(lengths)
            if right_in_range(length) and not found[length]), None)), AT_ONCE),
    ("18 for listed lengths only", needs, "ROWS", with_row(
        18, lambda found, lengths, room: next((
            length for length in sorted(lengths)
            if right_in_range(length) and found[length] > 1), None)), AT_ONCE),
    ("no 17", needs, "ROWS", in_order(18, 5, 9), FOLLOW),
    ("no 18", needs, "ROWS", in_order(17, 5, 9), FOLLOW),
    ("18 before 17", needs, "ROWS", in_order(18, 17, 5, 9), REFUSED),
    ("5 before 17 and 18", needs, "ROWS", in_order(5, 17, 18, 9), AT_ONCE),
    ("9 before all", needs, "ROWS", in_order(9, 17, 18, 5), AT_ONCE),
    ("9 before 5", needs, "ROWS", in_order(17, 18, 9, 5), AT_ONCE),
]


def places(found, lengths, room):
    return [place for place, length in enumerate(lengths, 1)
            if not right_in_range(length)]


def wrong_listed(told):
    """5 with something else of the list."""
    def condition(found, lengths, room):
        wrong = places(found, lengths, room)
        return told(lengths, wrong) if wrong else None
    return with_row(5, condition)


def room_is(short):
    return with_row(9, lambda found, lengths, room: 0 if short(
        room, len(lengths)) else None)


def found_for(chosen):
    """The right answer to another list."""
    return lambda table, lengths, room: right_answer(table, chosen(lengths), room)


def with_needs(change):
    """The needs of an accepted list changed."""
    def answer(table, lengths, room):
        found = right_answer(table, lengths, room)
        return found if isinstance(found, orders.Refusal) else change(found)
    return answer


def next_line(table, length):
    """The need of the line behind the one that meets the length."""
    kept = right_lines(table)
    place, = [place for place, line in enumerate(kept) if length in right_met(line)]
    return kept[(place + 1) % len(kept)].need


right_answer = needs.answer
right_need = needs.need
FILLED = "test_needs.Lists.test_filled"
LISTED = "test_needs.Lists.test_out_of_range"
ROOMS = "test_needs.Lists.test_rooms"

LISTS = [
    ("no 5", needs, "ROWS", in_order(17, 18, 9), LISTED),
    ("no 9", needs, "ROWS", in_order(17, 18, 5), ROOMS),
    ("the place counted from 0", needs, "ROWS",
     wrong_listed(lambda lengths, wrong: wrong[0] - 1), LISTED),
    ("the last place out of range", needs, "ROWS",
     wrong_listed(lambda lengths, wrong: wrong[-1]),
     "test_needs.Lists.test_refusals_of_drawn_lists"),
    ("5 for the first 48 only", needs, "ROWS", wrong_listed(
        lambda lengths, wrong: wrong[0] if wrong[0] <= 48 else None), LISTED),
    ("length 0 let through", needs, "ROWS", wrong_listed(lambda lengths, wrong: next((
        place for place in wrong if lengths[place - 1]), None)), LISTED),
    ("length 100,001 let through", needs, "ROWS", wrong_listed(
        lambda lengths, wrong: next((place for place in wrong
                                     if lengths[place - 1] != 100001), None)), LISTED),
    ("48 needs at most", needs, "answer", found_for(lambda lengths: lengths[:48]),
     FILLED),
    ("9 at just enough room", needs, "ROWS",
     room_is(lambda room, count: room <= count), ROOMS),
    ("9 only where two are missing", needs, "ROWS",
     room_is(lambda room, count: room + 1 < count), ROOMS),
    ("9 for no room and no length", needs, "ROWS",
     room_is(lambda room, count: room < max(count, 1)), ROOMS),
    ("9 with the count of lengths", needs, "ROWS", with_row(
        9, lambda found, lengths, room: len(lengths) if room < len(lengths) else None),
     ROOMS),
    ("needs by the sorted lengths", needs, "answer", found_for(sorted), FILLED),
    ("needs shifted by one", needs, "answer",
     with_needs(lambda found: found[-1:] + found[:-1]),
     "test_needs.Lists.test_each_by_itself"),
    ("a length listed again left out", needs, "answer",
     found_for(lambda lengths: list(dict.fromkeys(lengths))), FILLED),
    ("the need of the line behind", needs, "need", next_line, FILLED),
    ("the need of the first line", needs, "need",
     lambda table, length: right_lines(table)[0].need,
     "test_needs.Lists.test_needs_of_the_lines"),
    ("the need of the last line that begins before", needs, "need",
     lambda table, length: [line for line in right_lines(table)
                            if line.first <= length][-1].need, FILLED),
    ("a need in 16 bits", needs, "need",
     lambda table, length: right_need(table, length) % 65536, FILLED),
    ("a need in two's complement", needs, "need",
     lambda table, length: (right_need(table, length) + 2147483648) % 4294967296
     - 2147483648, FILLED),
    ("a listed length in 16 bits", needs, "need",
     lambda table, length: right_need(table, length % 65536 or 65536), FILLED),
]


def those_before(table, lengths, buffer):
    """What comes before the length that is refused is filled in."""
    found, after = right_filled(table, lengths, buffer)
    if found == (9, 0):
        return found, [right_need(table, length) for length in lengths][:len(buffer)]
    if isinstance(found, orders.Refusal) and found.number == 5:
        before = [right_need(table, length) for length in lengths[:found.carried - 1]]
        return found, (before + after[len(before):])[:len(buffer)]
    return found, after


def zeros_where_refused(table, lengths, buffer):
    found, after = right_filled(table, lengths, buffer)
    if isinstance(found, orders.Refusal):
        after = [0] * len(buffer)
    return found, after


def at_the_end(table, lengths, buffer):
    """The needs stand at the end of the buffer."""
    found, after = right_filled(table, lengths, buffer)
    if not isinstance(found, orders.Refusal):
        after = list(buffer[:len(buffer) - len(found)]) + found
    return found, after


def zeros_beyond(table, lengths, buffer):
    found, after = right_filled(table, lengths, buffer)
    if not isinstance(found, orders.Refusal):
        after = found + [0] * (len(buffer) - len(found))
    return found, after


right_filled = needs.filled
right_told = needs.told
KEPT = "test_needs.Buffer.test_kept_where_refused"
BEYOND = "test_needs.Buffer.test_kept_beyond_the_needs"
TOLD = "test_needs.Answers.test_lines"

BUFFERS = [
    ("needs filled in before the one refused", needs, "filled", those_before, KEPT),
    ("zeros filled in where refused", needs, "filled", zeros_where_refused, KEPT),
    ("needs at the end of the buffer", needs, "filled", at_the_end, BEYOND),
    ("zeros filled in beyond the needs", needs, "filled", zeros_beyond, BEYOND),
    ("the count of needs told as well", needs, "told",
     lambda table, lengths, room: [line.replace("needs", f"needs {len(lengths)}")
                                   for line in right_told(table, lengths, room)], TOLD),
    ("changes not told", needs, "told",
     lambda table, lengths, room: right_told(table, lengths, room)[:1],
     "test_needs.Answers.test_changed"),
]


def words_of(form):
    """A record of needs of another form behind its kind."""
    def pack(record):
        if record.kind != "needs":
            return right_pack(record)
        return stream_form.words(13, *form(*record.values))
    return pack


def the_due_time(jobs, table):
    """The due time taken for the length."""
    turned = right_filled_jobs([job._replace(time=job.due, due=job.time)
                                for job in jobs], table)
    return [job._replace(time=job.due, due=job.time) for job in turned]


def jobs_with_needs_too(jobs, table):
    return right_filled_jobs([job._replace(need=order_text.LEFT)
                              for job in jobs], table)


def first_job_for_all(jobs, table):
    """Each need left is that of the first job that leaves it."""
    whole = right_filled_jobs(jobs, table)
    first = next((job.need for job, before in zip(whole, jobs)
                  if before.need is order_text.LEFT), None)
    return [job._replace(need=first) if before.need is order_text.LEFT else job
            for job, before in zip(whole, jobs)]


def place_for_job(refused, listed):
    """The place in the list told for the job's number."""
    return right_in_words(refused, dict(enumerate(listed.values(), 1)))


right_pack = stream_form.pack
right_filled_jobs = needs_text.filled
right_in_words = needs_text.in_words
right_numbers = order_text.numbers
FORM = "test_streams.Form.test_needs_by_hand"
BY_TIME = "test_needs_text.Orders.test_filled_by_the_time"

FORMS = [
    ("the room before the list", stream_form, "pack", words_of(
        lambda table, lengths, room: (len(table), *table, room, len(lengths),
                                      *lengths)), FORM),
    ("lines counted in place of numbers", stream_form, "pack", words_of(
        lambda table, lengths, room: (len(table) // 3, *table, len(lengths), *lengths,
                                      room)), FORM),
    ("a stream's lengths not counted", stream_form, "pack", words_of(
        lambda table, lengths, room: (len(table), *table, *lengths, room)), FORM),
    ("needs of another kind", stream_form, "KINDS",
     {**stream_form.KINDS, "needs": 14}, FORM),
    ("a text's need by the due time", needs_text, "filled", the_due_time, BY_TIME),
    ("every need of a text from the table", needs_text, "filled", jobs_with_needs_too,
     BY_TIME),
    ("the first need for all that are left", needs_text, "filled", first_job_for_all,
     BY_TIME),
    ("the place told for the job", needs_text, "in_words", place_for_job,
     "test_needs_text.Orders.test_refused"),
    ("a need left is 0 without a table", order_text, "numbers",
     lambda *given: [0 if number is order_text.LEFT else number
                     for number in right_numbers(*given)],
     "test_needs_text.Orders.test_without_a_table"),
]

VARIANTS = LINES + TABLES + LISTS + BUFFERS + FORMS
