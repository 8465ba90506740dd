"""What document 02, §6, invites to get wrong: classes and their processors.

"one pass over the sorted list shall do both. After each processor passed, classes and
counts are those of the processors passed so far." Each variant is as in broken.py:
what is broken, where, by what, and the test that catches it.
"""

import answers
import classes
import orders
import reason
import stream_form

WORKED = "test_classes.Listing.test_worked"
TRIED = "test_classes.Listing.test_by_trying_all"
ONCE = "test_classes.Listing.test_each_counted_once"
AS_REASON = "test_classes.Listing.test_as_the_reason_has_them"
FALL = "test_classes.Listing.test_memories_fall"
INPUT_ORDER = "test_classes.Listing.test_input_order"
LINES = "test_classes.Answers.test_lines"


def falling(memories):
    return sorted(memories, reverse=True)


def another(found, memory):
    """Is the memory another one than that of the last class?"""
    return memory != found[-1][0]


def last(found):
    return found[-1]


def one_pass(ranked=falling, begins=another, raised=last, first=lambda found: 1):
    """A listing in one pass over the memories as they are ranked: a memory begins a
    class, with its first count, or one is added to the class that is raised."""
    def listing(memories):
        found = []
        for memory in ranked(memories):
            if not found or begins(found, memory):
                found.append([memory, first(found)])
            else:
                raised(found)[1] += 1
        return [classes.Class(*one) for one in found]
    return listing


def signed(number):
    return number - 4294967296 if number > 2147483647 else number


def by(key):
    """Falling by something else of a memory."""
    return lambda memories: sorted(memories, key=key, reverse=True)


def cut_to(count):
    """Memories told apart by so many numbers."""
    return lambda found, memory: memory % count != found[-1][0] % count


def most_first(memories):
    return sorted(right_listing(memories), key=lambda one: -one.processors)


def in_input_order(memories):
    """Each memory once, where it stands first in input order."""
    return list(dict.fromkeys(memories))


right_listing = classes.listing
right_distinct = classes.distinct

LISTINGS = [
    ("the count of the first class raised", classes, "listing",
     one_pass(raised=lambda found: found[0]), WORKED),
    ("the count of the first class raised, by trying all", classes, "listing",
     one_pass(raised=lambda found: found[0]), TRIED),
    ("the count of the class before raised", classes, "listing",
     one_pass(raised=lambda found: found[-2:][0]), WORKED),
    ("a new class at an equal memory", classes, "listing",
     one_pass(begins=lambda found, memory: True), WORKED),
    ("a new class at an equal memory, two that do not fall", classes, "listing",
     one_pass(begins=lambda found, memory: True), FALL),
    ("no new class at a smaller memory", classes, "listing",
     one_pass(begins=lambda found, memory: False), WORKED),
    ("a new class at a larger memory only", classes, "listing",
     one_pass(begins=lambda found, memory: memory > found[-1][0]), WORKED),
    ("a new class at a memory smaller by 2 or more", classes, "listing",
     one_pass(begins=lambda found, memory: memory + 1 < found[-1][0]), WORKED),
    ("compared with class 1", classes, "listing",
     one_pass(begins=lambda found, memory: memory != found[0][0]), WORKED),
    ("neighbours compared in input order", classes, "listing", one_pass(ranked=list),
     WORKED),
    ("neighbours compared in input order, in another one", classes, "listing",
     one_pass(ranked=list), INPUT_ORDER),
    ("classes in the order in which their memories come in", classes, "distinct",
     in_input_order, WORKED),
    ("smallest first", classes, "listing", one_pass(ranked=sorted), WORKED),
    ("smallest first, against the reason", classes, "listing",
     one_pass(ranked=sorted), AS_REASON),
    ("the class of most processors first", classes, "listing", most_first, WORKED),
    ("memories ranked in two's complement", classes, "listing",
     one_pass(ranked=by(signed)), WORKED),
    ("memories ranked by their digits", classes, "listing", one_pass(ranked=by(str)),
     WORKED),
    ("memories told apart in 16 bits", classes, "listing",
     one_pass(begins=cut_to(65536)), WORKED),
    ("memories told apart in 8 bits", classes, "listing", one_pass(begins=cut_to(256)),
     WORKED),
    ("last class left out", classes, "distinct",
     lambda memories: right_distinct(memories)[:-1], WORKED),
    ("last class left out, the sum of counts", classes, "listing",
     lambda memories: right_listing(memories)[:-1] or right_listing(memories), ONCE),
    ("class 1 left out", classes, "distinct",
     lambda memories: right_distinct(memories)[1:], WORKED),
    ("last processor not passed", classes, "listing",
     one_pass(ranked=lambda memories: falling(memories)[:-1]), WORKED),
    ("first processor passed twice", classes, "listing",
     one_pass(ranked=lambda memories: falling(memories)[:1] + falling(memories)), ONCE),
    ("no class of memory 0", classes, "distinct",
     lambda memories: right_distinct(set(memories) - {0}), WORKED),
    ("15 classes at most", classes, "distinct",
     lambda memories: right_distinct(memories)[:15], WORKED),
    ("15 processors at most in a class", classes, "processors",
     lambda memories, memory: min(15, memories.count(memory)), WORKED),
    ("a class begins with 0 processors", classes, "listing",
     one_pass(first=lambda found: 0), WORKED),
    ("a class begins with the count of the one before", classes, "listing",
     one_pass(first=lambda found: found[-1][1] if found else 1), WORKED),
    ("every class of one processor", classes, "processors",
     lambda memories, memory: 1, ONCE),
    ("processors whose memory suffices counted", classes, "processors",
     lambda memories, memory: sum(1 for one in memories if one >= memory), AS_REASON),
    ("processors of smaller memories counted as well", classes, "processors",
     lambda memories, memory: sum(1 for one in memories if one <= memory), AS_REASON),
    ("a reason with a class for each processor", reason, "class_memories",
     lambda order: falling(order.memories), AS_REASON),
]


def in_order(ranked):
    """After each processor passed of a list that is ranked in another way."""
    return lambda memories: [right_listing(ranked(memories)[:count])
                             for count in range(1, len(memories) + 1)]


def one_behind(memories):
    """The processor passed is not counted yet."""
    return [[]] + right_listings(memories)[:-1]


def equal_ones_at_once(memories):
    """A listing for each class passed, in place of one for each processor."""
    listed = right_listing(memories)
    return [listed[:count] for count in range(1, len(listed) + 1)]


def counts_of_all(memories):
    """Classes so far, with their processors of the whole order."""
    return [[(memory, memories.count(memory)) for memory, _ in listed]
            for listed in right_listings(memories)]


def classes_of_all(memories):
    """All classes of the order, with the processors so far."""
    return [[(memory, dict(listed).get(memory, 0))
             for memory in right_distinct(memories)]
            for listed in right_listings(memories)]


def last_class_alone(memories):
    return [listed[-1:] for listed in right_listings(memories)]


right_listings = classes.listings
PASSED = "test_classes.Passing.test_worked"
FORMER = "test_classes.Passing.test_the_last_is_the_former_one"
EACH = "test_classes.Passing.test_one_for_each_processor"
OWN = "test_classes.Passing.test_as_orders_of_their_own"
STEP = "test_classes.Passing.test_one_step_each"

PASSES = [
    ("the list passed in input order", classes, "sorted_list", list, PASSED),
    ("the list passed in input order, in another one", classes, "sorted_list", list,
     "test_classes.Passing.test_input_order"),
    ("the list passed in input order, step by step", classes, "sorted_list", list,
     STEP),
    ("the list passed upwards", classes, "listings", in_order(sorted), PASSED),
    ("equal memories dropped from the list", classes, "sorted_list", right_distinct,
     EACH),
    ("the processor passed not counted yet", classes, "listings", one_behind, FORMER),
    ("nothing listed after the first processor", classes, "listings",
     lambda memories: right_listings(memories)[1:], EACH),
    ("nothing listed after the last processor", classes, "listings",
     lambda memories: right_listings(memories)[:-1] or right_listings(memories),
     FORMER),
    ("all of the order listed after each", classes, "listings",
     lambda memories: [right_listing(memories)] * len(memories), EACH),
    ("a listing for each class, not each processor", classes, "listings",
     equal_ones_at_once, EACH),
    ("classes so far with the counts of all", classes, "listings", counts_of_all, OWN),
    ("classes of all with the counts so far", classes, "listings", classes_of_all,
     OWN),
    ("the last class alone listed", classes, "listings", last_class_alone, STEP),
]


def with_listing(told):
    """An answer that has the right refusals and something else for the listing."""
    def answer(order):
        found = right_answer(order)
        return found if isinstance(found, orders.Refusal) else told(order)
    return answer


def counted_by_need(order):
    """The jobs of each class in place of its processors."""
    members = [reason.class_of(order, job) for job in order.jobs]
    return [classes.Class(memory, members.count(place))
            for place, memory in enumerate(reason.class_memories(order))]


def with_a_job_only(order):
    return [one for one in right_listing(order.memories)
            if any(job.need == one.memory for job in order.jobs)]


def needs_listed(order):
    """The distinct needs with their jobs."""
    return right_listing([job.need for job in order.jobs])


def without_row(number):
    """An answer that does not know of this refusal."""
    def answer(order):
        for row, condition in orders.rows(orders.DOCK):
            carried = condition(order)
            if row != number and carried is not None:
                return orders.Refusal(row, carried)
        return right_listing(order.memories)
    return answer


def carrying_0(order):
    found = right_answer(order)
    return found._replace(carried=0) if isinstance(found, orders.Refusal) else found


def told_as(words):
    """A line of other words."""
    def told(order):
        found = right_answer(order)
        if isinstance(found, orders.Refusal):
            return answers.refused(found)
        return [" ".join(map(str, ["classes", *words(found)]))]
    return told


def pairs(found):
    return [number for one in found for number in one]


def a_line_each(order):
    words = right_told(order)[0].split()
    return [" ".join(("class", *pair)) for pair in zip(words[1::2], words[2::2])]


right_answer = classes.answer
right_told = classes.told
REFUSED = "test_classes.Answers.test_refusals"
SEVERAL = "test_classes.Answers.test_refusals_of_several_classes"
ANY_JOBS = "test_classes.Answers.test_any_jobs"

ANSWERS = [
    ("counted by need", classes, "answer", with_listing(counted_by_need), ANY_JOBS),
    ("classes without a job left out", classes, "answer",
     with_listing(with_a_job_only), ANY_JOBS),
    ("distinct needs listed", classes, "answer", with_listing(needs_listed), ANY_JOBS),
    ("every order listed", classes, "answer",
     lambda order: right_listing(order.memories), REFUSED),
    ("every order refused", classes, "answer", lambda order: orders.Refusal(1, 0),
     "test_classes.Answers.test_accepted"),
    *((f"listed without refusal {number}", classes, "answer", without_row(number), test)
      for number, test in ((1, REFUSED), (2, SEVERAL), (3, SEVERAL), (4, SEVERAL),
                           (5, SEVERAL), (6, SEVERAL), (13, SEVERAL), (7, SEVERAL))),
    ("refusals that carry no job", classes, "answer", carrying_0, SEVERAL),
    ("pairs turned", classes, "told", told_as(
        lambda found: pairs((count, memory) for memory, count in found)), LINES),
    ("all memories, then all counts", classes, "told", told_as(
        lambda found: [*(one.memory for one in found),
                       *(one.processors for one in found)]), LINES),
    ("memories without counts", classes, "told", told_as(
        lambda found: [one.memory for one in found]), LINES),
    ("the number of classes told as well", classes, "told", told_as(
        lambda found: [len(found), *pairs(found)]), LINES),
    ("sixteen pairs, zeros behind the classes", classes, "told", told_as(
        lambda found: (pairs(found) + [0] * 32)[:32]), LINES),
    ("a line for each class", classes, "told", a_line_each, LINES),
]


def with_a_word(record):
    """A record of classes with a number behind its order."""
    return right_pack(record) + stream_form.words(0) * (record.kind == "classes")


def without_jobs(record):
    if record.kind == "classes":
        order, = record.values
        record = record._replace(values=(orders.order(order.memories, []),))
    return right_pack(record)


right_pack = stream_form.pack
FORM = "test_streams.Form.test_classes_by_hand"

FORMS = [
    ("a number behind the order of classes", stream_form, "pack", with_a_word, FORM),
    ("a stream's classes without jobs", stream_form, "pack", without_jobs, FORM),
    ("classes of another kind", stream_form, "KINDS",
     {**stream_form.KINDS, "classes": 13}, FORM),
]

VARIANTS = LISTINGS + PASSES + ANSWERS + FORMS
