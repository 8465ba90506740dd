"""Cases of composing the line of a reason and of reading a line back.

Document 02, §1: "a line longer than its buffer is 9; here and later, a lent
buffer stays unchanged beyond what is written." "anything else composes to an
empty line. Each line composed for a reason reads back to that reason alone at a
given order and bound, any other line to none." Each case is (what it shows,
record).
"""

import re

import answers
import draw
import known_orders
import least
import orders
import sentence
from known_orders import A, B, C, FOUR_STAIRS, SEVERAL_LATE
from reason import Reason
from sentence import JOB, STAIRS, Handed
from stream_form import Record

BYTES_MOST = 900
WORD = 4294967296
NONE = Handed(0, 0, 0, (0,) * sentence.DUES)
# A at -1, B at -1, C at -9.
OF_A, OF_B, OF_C = Reason("stairs", (3, 3)), Reason("stairs", (4, 2)), Reason("job", 1)


def stairs(*dues, count=None):
    """A staircase as it is handed in, its due times from class 1 on."""
    return Handed(STAIRS, len(dues) if count is None else count, 0,
                  dues + (0,) * (sentence.DUES - len(dues)))


def job(number, time, *dues):
    return Handed(JOB, number, time, dues + (0,) * (sentence.DUES - len(dues)))


def said(given):
    """What is handed in, in words."""
    last = max((place for place, due in enumerate(given.dues, 1) if due), default=0)
    count = min(given.which, sentence.DUES) if given.kind == STAIRS else 0
    dues = "".join(f" {due}" for due in given.dues[:max(last, count)])
    if given.kind == JOB:
        return f"job {given.which} of time {given.time}" + (dues and f", due{dues}")
    if given.kind == STAIRS:
        return f"stairs k={given.which}{dues and ':'}{dues}"
    return f"kind {given.kind}"


def compose_case(story, order, bound, given, room=None):
    """With room for just the line, where none is named."""
    if room is None:
        room = len(sentence.composed(order, bound, given))
    return (f"{story} at {bound}, {said(given)}, room for {room} bytes",
            Record("compose", (order, bound, *given, room)))


def parse_case(story, order, bound, data):
    return f"{story} at {bound}", Record("parse", (order, bound, data))


def line(order, bound, why):
    return sentence.line(order, bound, why).encode()


def there_and_back(story, order, bound):
    """Every reason that stands, composed and read back."""
    for why in sentence.standing(order, bound):
        given = sentence.handed(order, why)
        yield compose_case(story, order, bound, given)
        yield parse_case(f"the line of {said(given)}, {story}", order, bound,
                         line(order, bound, why))


def of_document():
    for name, order, bound in (("● A", A, -1), ("● B", B, -1), ("● C", C, -9)):
        yield from there_and_back(name, order, bound)
    for bound in (-21, -11, -12, -13, -20, -110, -111, -10000000):
        yield from there_and_back("C", C, bound)
    for order in (known_orders.DUE_MINUS_5, known_orders.NEED_0):
        for bound in (-1, -2, -10000000):
            yield from there_and_back("one job", order, bound)
    yield from there_and_back("several jobs over their ends", SEVERAL_LATE, -1)
    yield from there_and_back("four overfull staircases", FOUR_STAIRS, -1)


def rooms():
    for name, order, bound in (("A", A, -1), ("B", B, -1), ("C", C, -9), ("C", C, -21)):
        given = sentence.handed(order, sentence.standing(order, bound)[0])
        length = len(sentence.composed(order, bound, given))
        for room in (0, 1, length - 1, length + 1, BYTES_MOST):
            yield compose_case(name, order, bound, given, room)
    for name, order, bound, given in (("C", C, -8, job(1, 3)), ("C", C, -9, NONE),
                                      ("B", B, -1, stairs(4, 4)), ("B", B, -1, NONE)):
        for room in (0, 1, BYTES_MOST):
            yield compose_case(f"no line, so no 9: {name}", order, bound, given, room)


def refused():
    """Each refusal of document 01's table by both; of the rest in turn."""
    known = known_orders.REFUSED + known_orders.REFUSED_COUNTS
    for place, (story, order, number, _) in enumerate(known):
        of_table = story.startswith("row")
        if len(order.jobs) >= 48 and not of_table:
            continue
        if of_table or place % 2:
            given = job(1, order.jobs[0].time if order.jobs else 1)
            yield compose_case(f"{number} before 8 and 9: {story}", order, 10000001,
                               given, 0)
        if of_table or not place % 2:
            yield parse_case(f"{number} before 8: {story}", order, -10000001,
                             b"job 1: time 1, end 0: owed 1, on hand 0")
        if of_table and number != 4:
            yield compose_case(story, order, -1, NONE, BYTES_MOST)
            yield parse_case(story, order, -1, b"")
    for bound in (10000001, -10000001, 2147483647, -2147483648):
        for given in (job(1, 3), NONE):
            yield compose_case("8 before 9: C", C, bound, given, 0)
        yield parse_case("no line, C", C, bound, b"")
        yield parse_case("the line that it would be, C", C, bound,
                         line(C, bound, OF_C))


def near_reasons(given):
    """What is handed in, with one thing changed."""
    for kind in (0, 1, 2, 3, given.kind + 256, WORD - 1):
        yield given._replace(kind=kind, time=0 if kind == STAIRS else given.time)
    for which in (0, 1, 2, 3, 16, 17, given.which + 256, given.which + 65536, WORD - 1):
        yield given._replace(which=which)
    if given.kind == JOB:
        for time in (0, given.time - 1, given.time + 1, given.time + 256,
                     given.time + 65536, WORD - given.time):
            yield given._replace(time=time)
    count = given.which if given.kind == STAIRS else 0
    for place in sorted({*range(count), min(count, 15), 15}):
        for more in (-1, 1, 65536):
            yield with_due(given, place, given.dues[place] + more)


def with_due(given, place, due):
    return given._replace(dues=given.dues[:place] + (due,) + given.dues[place + 1:])


# Orders in which one thing keeps a reason from standing.
RISING = orders.order([8, 4], [(1, 1, 8), (2, 2, 4), (2, 2, 4)])
NO_JOBS_DUE = orders.order([4], [(2, 2, 4), (2, 2, 4), (1, 5, 4)])
ONE_CLASS = orders.order([4, 4], [(2, 2, 4)] * 3)
DUE_0 = orders.order([8, 4], [(2, 0, 8), (2, 0, 8), (1, 0, 4)])
DUE_BELOW_0 = orders.order([8, 4], [(2, -3, 8), (1, -4, 8), (1, -4, 4)])


def changed_reasons():
    for name, order, bound, given in (("C", C, -9, job(1, 3)),
                                      ("B", B, -1, stairs(4, 2))):
        for place, near in enumerate(dict.fromkeys(near_reasons(given))):
            if near != given:
                yield compose_case(f"{name}, {said(given)} changed", order, bound, near,
                                   (0, BYTES_MOST)[place % 2])
    yield compose_case("the due time of the job beside it: C", C, -9, job(1, 3, 10))


def anything_else():
    for bound in (-1, 10000000):
        yield compose_case("not over its end: C", C, bound, job(1, 3))
    for number, time in ((2, 1), (0, 3), (4, 0), (1, 5), (3, 3)):
        yield compose_case("several jobs over their ends", SEVERAL_LATE, -1,
                           job(number, time))
    for dues in ((2, 4), (2, 2), (4,), (2,), (4, 2, 2)):
        yield compose_case("B", B, -1, stairs(*dues))
    for dues in ((2, 2), (1, 2)):
        yield compose_case("four overfull staircases", FOUR_STAIRS, -1, stairs(*dues))
    for bound in (0, -2, -10000000, 10000000):
        yield compose_case("the staircase of bound -1, B", B, bound, stairs(4, 2))
    for due in range(1, 7):
        yield compose_case("a due time of no job", NO_JOBS_DUE, -1, stairs(due))
    for count in (0, 3):
        yield compose_case("due times of 0", DUE_0, 1, stairs(count=count))
    for story, order, bound, dues in (
            ("a job is over its end", SEVERAL_LATE, -1, (1, 2)),
            ("times that rise", RISING, -1, (1, 2)),
            ("one class of two processors", ONE_CLASS, -1, (2,)),
            ("due times of 0", DUE_0, 1, (0,)),
            ("due times below 0", DUE_BELOW_0, 4, (-3, -4))):
        for one in dues:
            yield compose_case(story, order, bound, stairs(one))
            for two in dues:
                yield compose_case(story, order, bound, stairs(one, two))


def changed_bytes(data):
    for place, byte in enumerate(data):
        yield (f"byte {place + 1} of {len(data)} changed",
               data[:place] + bytes([byte ^ 1]) + data[place + 1:])


def cuts(data):
    for length in range(1, len(data)):
        yield f"the first {length} of {len(data)} bytes", data[:length]
        yield f"the last {length} of {len(data)} bytes", data[-length:]


def rewritten(data):
    """A line in other ways of writing."""
    for story, tail in (("a line feed", b"\n"), ("CR LF", b"\r\n"), ("a space", b" "),
                        ("a zero byte", b"\0"), ("a full stop", b"."), ("a 0", b"0"),
                        ("itself", data), ("a line feed and itself", b"\n" + data)):
        yield f"{story} behind it", data + tail
    for story, head in (("a space", b" "), ("a line feed", b"\n"),
                        ("a zero byte", b"\0"), ("`tight `", b"tight ")):
        yield f"{story} before it", head + data
    yield "capital letters", data.upper()
    yield "a capital letter first", data.capitalize()
    for old, new in ((" ", "  "), (" ", "\t"), (" ", ""), (", ", ","), (", ", "; "),
                     (": ", ":"), (": ", ", "), ("owed", "owes"),
                     ("on hand", "at hand")):
        yield f"{new!r} for {old!r}", data.replace(old.encode(), new.encode())
    yield "minutes owed and on hand exchanged", re.sub(
        rb"owed (.*), on hand (.*)", rb"owed \2, on hand \1", data)
    yield "without minutes owed and on hand", data.rpartition(b": ")[0]


def renumbered(data):
    """A line with one number written in another way, or another one."""
    for place, found in enumerate(re.finditer(rb"-?[0-9]+", data), 1):
        number = int(found[0])
        sign, digits = (b"-" if number < 0 else b""), b"%d" % abs(number)
        for story, other in (
                ("a leading zero", sign + b"0" + digits),
                ("leading zeros", sign + b"000" + digits), ("a +", b"+" + found[0]),
                ("a minus sign", b"-" + found[0]), ("no sign", digits),
                ("U+2212 for a minus sign", "\u2212".encode() + digits),
                ("one more", b"%d" % (number + 1)), ("one less", b"%d" % (number - 1)),
                ("2^32 more", b"%d" % (number + WORD)),
                ("a fraction", found[0] + b".0"), ("no digits", sign)):
            if other != found[0]:
                yield (f"number {place}: {story}",
                       data[:found.start()] + other + data[found.end():])


def near_lines(data):
    for part in (changed_bytes, cuts, rewritten, renumbered):
        yield from part(data)


def other_lines():
    """Lines near C's and B's, not all of each kind, and what is no line at all."""
    of_c = line(C, -9, OF_C)
    for story, data in (*changed_bytes(of_c), *list(cuts(of_c))[::5],
                        *rewritten(of_c), *list(renumbered(of_c))[::3]):
        yield parse_case(f"C's line, {story}, C", C, -9, data)
    of_b = line(B, -1, OF_B)
    for story, data in list(near_lines(of_b))[::7]:
        yield parse_case(f"B's line, {story}, B", B, -1, data)
    for bound in (-11, -21):
        for story, data in renumbered(line(C, bound, OF_C)):
            if re.match("number [35]: .*(sign|zero)", story):
                yield parse_case(f"C's line, {story}, C", C, bound, data)
    for story, data in (
            ("no byte", b""), ("a line feed", b"\n"), ("a zero byte", b"\0"),
            ("every byte", bytes(range(256))), ("bytes of 255", b"\xff" * 49),
            ("`tight stairs 4 2`", b"tight stairs 4 2")):
        for name, order, bound in (("C", C, -9), ("B", B, -1)):
            yield parse_case(f"{story}, {name}", order, bound, data)
    yield parse_case("900 digits, C", C, -9, b"7" * BYTES_MOST)
    yield parse_case("a job number of 600 digits, C", C, -9, b"job " + b"1" * 600)
    yield parse_case("B's line made 900 bytes by spaces, B", B, -1,
                     of_b.ljust(BYTES_MOST))


def elsewhere():
    """Lines at another bound or order."""
    for bound in (-2, 0, -10000000, 10000000):
        yield parse_case("the line of bound -1, B", B, bound, line(B, -1, OF_B))
        yield parse_case("the staircase of bound -1, B", B, bound, line(B, bound, OF_B))
    for bound in (-10, -8, -1, -21):
        yield parse_case("the line of bound -9, C", C, bound, line(C, -9, OF_C))
    for name, order, bound in (("A", A, -1), ("B", B, -1), ("C", C, -9),
                               ("D", known_orders.D, -4)):
        for other, data in (("A", line(A, -1, OF_A)), ("B", line(B, -1, OF_B)),
                            ("C", line(C, -9, OF_C))):
            if name != other:
                yield parse_case(f"{other}'s line, {name}", order, bound, data)
    with_c = orders.order([8, 2], [(3, 10, 8), (1, 99, 0)])
    yield parse_case("C's line, an order that has the same job", with_c, -9,
                     line(C, -9, OF_C))
    with_b = orders.order([4, 8], [*B.jobs, (1, 99, 4)])
    yield parse_case("B's line, an order that has the same staircase", with_b, -1,
                     line(B, -1, OF_B))
    earlier = orders.order([8, 4], [one._replace(due=one.due - 7) for one in B.jobs])
    yield from there_and_back("B due 7 earlier", earlier, 6)
    yield parse_case("ends for due times, B due 7 earlier", earlier, 6,
                     line(B, -1, OF_B))


def not_standing():
    """Lines of reasons that do not stand, and of classes that are not the order's."""
    yield parse_case("job 1 that is in time, C", C, -8, line(C, -8, OF_C))
    for story, order, why in (
            ("B, not overfull", B, Reason("stairs", (4,))),
            ("B, not overfull", B, Reason("stairs", (2,))),
            ("B, not overfull", B, Reason("stairs", (4, 4))),
            ("B, not overfull", B, Reason("stairs", (2, 2))),
            ("B, times that rise", B, Reason("stairs", (2, 4))),
            ("overfull, times that rise", RISING, Reason("stairs", (1, 2))),
            ("a due time of no job", NO_JOBS_DUE, Reason("stairs", (3,))),
            ("jobs 1 and 3 over their ends", SEVERAL_LATE, Reason("job", 2)),
            ("jobs 1 and 3 over their ends", SEVERAL_LATE, Reason("stairs", (1,))),
            ("jobs 1 and 3 over their ends", SEVERAL_LATE, Reason("stairs", (2,)))):
        yield parse_case(f"{story}, {said(sentence.handed(order, why))}", order, -1,
                         line(order, -1, why))
    for data in (b"memory 4 due 2, memory 4 due 2: owed 12, on hand 8",
                 b"memory 4 due 2: owed 6, on hand 4",
                 b"memory 4 due 2: owed 6, on hand 2"):
        yield parse_case("one class of two processors", ONE_CLASS, -1, data)
    for data in (b"memory 4 due 2, memory 8 due 4: owed 8, on hand 6",
                 b"memory 8 due 2, memory 4 due 4: owed 8, on hand 6",
                 b"memory 8 due 4, memory 8 due 2: owed 8, on hand 6",
                 b"memory 8 due 4, due 2: owed 8, on hand 6",
                 b"memory 8 due 4: owed 8, on hand 6", b": owed 8, on hand 6",
                 b"memory 8 due 4, memory 4 due 2, memory 2 due 2: owed 8, on hand 6"):
        yield parse_case("classes in another way, B", B, -1, data)


# Numbers of which one begins as another does.
TWELVE = orders.order([4], [(2, 1, 4)] * 12)
NESTED = orders.order([10, 1], [(1, -11, 10), (1, -11, 10), (1, -10, 10), (9, -1, 10),
                                (1, -11, 1), (1, -11, 1), (1, -10, 1), (9, -1, 1)])
TEN_DIGITS = orders.order([4294967295, 4294967294, 1000000000, 999999999],
                          [(2, 2, 0), (2, 2, 1000000000), (1, 2, 4294967294),
                           (2, 2, 4294967295), (2, 2, 4294967295)])


def digits():
    for number in (0, 12, 13):
        yield compose_case("12 equal jobs", TWELVE, -1, job(number, 2))
    for number in (0, 1, 2, 10, 11, 12, 13, 112):
        yield parse_case(f"job {number} of 12 equal ones", TWELVE, -1,
                         b"job %d: time 2, end 1: owed 2, on hand 1" % number)
    for why in sentence.standing(NESTED, 11):
        yield parse_case(f"{said(sentence.handed(NESTED, why))}, nested numbers",
                         NESTED, 11, line(NESTED, 11, why))
    yield from there_and_back("memories of 10 digits", TEN_DIGITS, -1)


def longest():
    for story, order, bound, why in (
            ("the longest line", known_orders.LONGEST_STAIRS, known_orders.LONGEST_AT,
             Reason("stairs", (-1000000,) * 16)),
            ("the longest line of a job", known_orders.LONGEST_JOB,
             known_orders.LONGEST_JOB_AT, Reason("job", 48))):
        yield compose_case(story, order, bound, sentence.handed(order, why))
        yield parse_case(story, order, bound, line(order, bound, why))


def furthest_ends():
    """Due times and bounds at the ends of their ranges."""
    for bound in (orders.BOUND_MOST, orders.BOUND_LEAST):
        for due in (orders.DUE_MOST, orders.DUE_LEAST):
            order = orders.order([4] * 16, [(1, due, 4)])
            for why in (Reason("job", 1), Reason("stairs", (due,))):
                given = sentence.handed(order, why)
                story = f"16 processors, a job due {due}"
                yield compose_case(story, order, bound, given)
                yield parse_case(f"the line of {said(given)}, {story}", order, bound,
                                 line(order, bound, why))


# 541 bytes as well, of fewer jobs.
LONG = orders.order([4294967295 - i for i in range(16)], [(62500, -1000000, 0)] * 17)
LONG_AT = 1062499


def sixteen_classes():
    why = Reason("stairs", (-1000000,) * 16)
    data = line(LONG, LONG_AT, why)
    for room in (len(data) - 1, len(data), len(data) + 1):
        yield compose_case("16 classes", LONG, LONG_AT, stairs(*why.values), room)
    yield compose_case("15 of 16 classes", LONG, LONG_AT, stairs(*why.values[:15]))
    for story, near in (("whole", data), ("a line feed behind it", data + b"\n"),
                        ("the last due time one more", data.replace(
                            b"-1000000:", b"-999999:")),
                        ("a 17th class", data.replace(
                            b": owed", b", memory 4294967279 due -1000000: owed"))):
        yield parse_case(f"16 classes, {story}", LONG, LONG_AT, near)
    steps, why = known_orders.long_stairs(16), Reason("stairs", tuple(range(32, 0, -2)))
    data = line(steps, -1, why)
    yield compose_case("16 steps", steps, -1, stairs(*why.values))
    yield parse_case("16 steps", steps, -1, data)
    yield parse_case("16 steps, two exchanged", steps, -1, data.replace(
        b"due 6,", b"due 4,").replace(b"memory 2 due 4", b"memory 2 due 6"))


FAMILIES = (draw.tiny, draw.crowded, draw.stepped, draw.steep)


def drawn_tight(of, most):
    """A drawn order, a bound that is too tight, and the reasons that stand there,
    not over so many."""
    while True:
        order = of.one_of(FAMILIES)(of)
        bound = least.least(order) - of.one_of((1, 1, 1, 2, 3))
        whys = sentence.standing(order, bound)
        if len(whys) <= most:
            return order, bound, whys


def drawn(count):
    """Every reason that stands, and for each order one that is nearly one of them
    and a line that is nearly its line; two of three orders decided by staircases."""
    of = draw.Draw(510)
    for number in range(count):
        order, bound, whys = drawn_tight(of, 4)
        while number % 3 and whys[0].kind == "job":
            order, bound, whys = drawn_tight(of, 4)
        name = f"drawn order {number}"
        for why in whys:
            given, data = sentence.handed(order, why), line(order, bound, why)
            room = len(data) + of.one_of((-1, 0, 0, 1, 9))
            yield compose_case(name, order, bound, given, room)
            yield parse_case(f"{name}, {said(given)}", order, bound, data)
        near = of.one_of([near for near in near_reasons(given) if near != given])
        yield compose_case(f"{name}, {said(given)} changed", order, bound, near,
                           of.one_of((None, BYTES_MOST)))
        story, near = of.one_of(list(near_lines(data)))
        yield parse_case(f"{name}, {said(given)}, {story}", order, bound, near)


def drawn_wide():
    """Large numbers and many classes."""
    of = draw.Draw(511)
    for m, n, due, classes in ((5, 9, 50000, 2), (16, 48, 20000, 10)):
        while True:
            order = draw.wide(of, m, n, 100000, due)
            bound = least.least(order) - 1
            why = answers.why_tight(order, bound)
            if why.kind == "stairs" and len(why.values) >= classes:
                break
        name = f"wide order, {m} processors, {n} jobs"
        given, data = sentence.handed(order, why), line(order, bound, why)
        yield compose_case(name, order, bound, given)
        yield parse_case(name, order, bound, data)
        yield parse_case(f"{name}, without its last byte", order, bound, data[:-1])


def cases():
    for part in (of_document(), rooms(), refused(), changed_reasons(), anything_else(),
                 other_lines(), elsewhere(), not_standing(), digits(), longest(),
                 furthest_ends(), sixteen_classes(), drawn(31), drawn_wide()):
        yield from part
