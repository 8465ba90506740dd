"""Makes the streams of cases and their expected outputs.

Document 01: "all others are run by a program and compared with a plain search
over small orders, made apart from this code." The expected outputs are made by
the plain search, never by running a program.

    cases.py --compare          make all anew, compare with what is stored
    cases.py --write            make all anew and store it
"""

import pathlib
import sys

import answers
import block_answers
import book
import cases_block
import cases_book
import cases_check
import cases_classes
import cases_estimate
import cases_held
import cases_join
import cases_needs
import cases_planner
import cases_read
import cases_screen
import cases_sentence
import cases_timed
import cases_timed_check
import cases_write
import classes
import estimate
import flow
import needs
import orders
import stream_form
import timed_answers

HERE = pathlib.Path(__file__).resolve().parent
PROGRAM = HERE.parent.parent / "crates" / "cases"
PARTS = (cases_read, cases_check, cases_write, cases_planner, cases_sentence,
         cases_join, cases_book, cases_timed, cases_timed_check, cases_classes,
         cases_needs, cases_held, cases_estimate, cases_screen, cases_block)
# What the program reads, what it has to print, and what each case shows.
STORED = {"stdin": PROGRAM / "stdin", "stdout": PROGRAM / "stdout",
          "list": HERE / "streams" / "cases.list"}
ANSWER = {"read": answers.read, "check": answers.check, "write": answers.write,
          "least": answers.least_lateness, "plan": answers.plan,
          "compose": answers.compose, "parse": answers.parse, "book": book.told,
          "asked": timed_answers.asked, "timed": timed_answers.planned,
          "watch": timed_answers.checked, "classes": classes.told,
          "needs": needs.told, "between": estimate.told, "block": block_answers.told}
BYTES_MOST = 2510000


def between(record, lines):
    """The orders at the lows, at the highs and met, each with its least lateness."""
    order, highs, number = record.values
    word, below, above = lines[0].split()
    if word == "refused":
        return
    yield order, int(below)
    yield estimate.with_times(order, highs), int(above)
    if lines[1] != "nowhere":
        yield estimate.with_times(order, [
            int(line.split()[1]) for line in lines[2 + order.m:]]), number


def planned(record, lines):
    """The orders and bounds that a case plans at, with what is told of each."""
    if record.kind == "plan":
        order, bound, _ = record.values
        yield order, bound, lines[0]
    elif record.kind == "book":
        for call, line in zip(record.values[1], lines[::2]):
            if call.which == stream_form.PLAN:
                yield call.order, call.bound, line
    elif record.kind == "between":
        for order, number in between(record, lines):
            yield order, number, "meets"
            yield order, number - 1, "tight"


def answered(record):
    """The lines of one case, by the table of its caller's limits."""
    answer = ANSWER[record.kind]
    if record.kind in stream_form.OF_NO_CALLER:
        return answer(*record.values)
    return answer(*record.values, limits=record.limits)


def expected(record):
    """The lines of one case. A planner's answer, and the least lateness of many
    minutes between a low and a high, is given by the staircases and has to agree with
    the flow."""
    lines = answered(record)
    for order, bound, line in planned(record, lines):
        if (not line.startswith("refused")
                and flow.meets(order, bound) != (line == "meets")):
            raise AssertionError(f"flow and staircases differ: {order} {bound}")
    return lines


def made():
    """The files of the stream, as {kind of file: bytes}."""
    of_parts = [case for part in PARTS for case in part.cases()]
    told, listed = [], []
    for number, (story, record) in enumerate(of_parts, 1):
        lines = expected(record)
        told += lines
        caller = "screen's " * (record.limits == orders.SCREEN)
        listed.append(f"{number} {caller}{record.kind}: {story}")
    data = stream_form.stream(record for _, record in of_parts)
    if len(data) > BYTES_MOST:
        raise AssertionError(f"the stream would have {len(data)} bytes")
    text = {"stdout": told, "list": listed}
    files = {kind: "".join(line + "\n" for line in lines).encode()
             for kind, lines in text.items()}
    return {"stdin": data, **files}


def store():
    for kind, content in made().items():
        STORED[kind].parent.mkdir(exist_ok=True)
        STORED[kind].write_bytes(content)


def compare():
    """Makes all anew; the number of files that differ from what is stored."""
    differ = 0
    for kind, content in made().items():
        stored = STORED[kind]
        if not stored.exists() or stored.read_bytes() != content:
            differ += 1
            print(f"{stored.name}: differs from what is made anew")
    return differ


def main(arguments):
    if arguments == ["--write"]:
        store()
    elif arguments != ["--compare"]:
        sys.exit("cases.py: --compare or --write")
    elif compare():
        return 1
    count = len(STORED["list"].read_text().splitlines())
    print(f"{count} cases, stored and made anew alike")
    return 0


if __name__ == "__main__":
    sys.exit(main(sys.argv[1:]))
