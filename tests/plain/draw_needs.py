"""Drawn tables of needs and lists of lengths, always the same for the same seed.

Document 02, §7: "Lengths 1 to 100,000 must each be met by one line, lines in any
order." The lines part these lengths at drawn cuts, some of them near the ends, and are
shuffled; then a table may have faults: lines that leave a length out or meet one again,
lines that meet none, lines beyond place 32 and numbers left over. The lengths listed
are mostly those at the ends of lines and beside them.
"""

from known_needs import NOTHING, TOP, numbers
from needs import LENGTH_MOST, LINES_MOST

CUTS = (0, 1, 1, 2, 2, 3, 4, 7, 15, 30, 31)
NEAR = 60
OUT_OF_RANGE = (0, LENGTH_MOST + 1, TOP)
NO_LENGTHS = OUT_OF_RANGE + (2147483648, LENGTH_MOST + 65536, 16777216)


def need(of):
    return of.one_of((0, 4, TOP, of.below(65536), of.between(0, TOP)))


def cuts(of, count):
    """So many distinct lengths, from which lines reach to the next: anywhere, or near
    one end or both."""
    spots = of.one_of(("any", "any", "low any", "any high", "low high", "low any high"))
    found = set()
    while len(found) < count:
        found.add({"any": of.between(2, LENGTH_MOST), "low": of.between(2, NEAR),
                   "high": LENGTH_MOST - of.below(NEAR)}[of.one_of(spots.split())])
    return sorted(found)


def parted(of):
    """The lines of an accepted table."""
    begins = [1, *cuts(of, of.one_of((*CUTS, of.below(LINES_MOST))))]
    ends = [begin - 1 for begin in begins[1:]] + [LENGTH_MOST]
    return of.shuffled([(*line, need(of)) for line in zip(begins, ends)])


def changed(of, lines, change):
    """One of the lines is changed."""
    place = of.below(len(lines))
    return lines[:place] + [change(*lines[place])] + lines[place + 1:]


def put(of, lines, line):
    """A line more, anywhere."""
    place = of.between(0, len(lines))
    return lines[:place] + [line] + lines[place:]


def moved(of, lines):
    """One end of a line moved by one."""
    step = of.one_of((-1, 1))
    if of.below(2):
        return changed(of, lines, lambda first, last, need: (
            max(first + step, 0), last, need))
    return changed(of, lines, lambda first, last, need: (
        first, max(last + step, 0), need))


def dropped(of, lines):
    place = of.below(len(lines))
    return lines[:place] + lines[place + 1:]


def doubled(of, lines):
    return put(of, lines, of.one_of(lines))


def widened(of, lines):
    low, high = (of.below(of.one_of((3, 1000, LENGTH_MOST))) for _ in range(2))
    return changed(of, lines, lambda first, last, need: (
        max(first - low, 1), min(last + high, LENGTH_MOST), need))


def turned(of, lines):
    return changed(of, lines, lambda first, last, need: (last, first, need))


def out_of_range(of, lines):
    """One end of a line out of range."""
    beyond = of.one_of(OUT_OF_RANGE)
    if of.below(2):
        return changed(of, lines, lambda first, last, need: (beyond, last, need))
    return changed(of, lines, lambda first, last, need: (first, beyond, need))


def one_more(of, lines):
    first = of.between(1, LENGTH_MOST)
    last = min(first + of.below(of.one_of((1, 9, LENGTH_MOST))), LENGTH_MOST)
    return put(of, lines, (first, last, need(of)))


def one_idle(of, lines):
    return put(of, lines, (*of.one_of(NOTHING), need(of)))


def full(of, lines):
    """With as many lines that meet nothing as make them 32."""
    while len(lines) < LINES_MOST:
        lines = lines + [(*of.one_of(NOTHING), need(of))]
    return lines


def pushed(of, lines):
    """One of the lines beyond place 32."""
    line = of.one_of(lines)
    return full(of, [other for other in lines if other != line]) + [line]


def behind(of, lines):
    """A line more beyond place 32."""
    return full(of, lines) + one_more(of, [])


FAULTS = (("an end moved by one", moved), ("an end moved by one", moved),
          ("a line dropped", dropped), ("a line doubled", doubled),
          ("a line widened", widened), ("a line turned", turned),
          ("a line out of range", out_of_range), ("a line more", one_more),
          ("a line that meets nothing", one_idle),
          ("a line pushed beyond place 32", pushed),
          ("a line more beyond place 32", behind))


def table(of, most=2):
    """What is drawn, and the table, with up to so many faults."""
    lines = parted(of)
    stories = [f"{len(lines)} lines"]
    for _ in range(min(of.one_of((0, 0, 1, 1, 2, 2)), most)):
        story, fault = of.one_of(FAULTS)
        if lines:
            lines = fault(of, lines)
            stories.append(story)
    left_over = of.one_of((0, 0, 0, 0, 1, 2))
    if left_over:
        stories.append(f"{left_over} left over")
    return ", ".join(stories), numbers(lines, *(of.one_of((1, of.between(
        1, LENGTH_MOST), LENGTH_MOST)) for _ in range(left_over)))


def length(of, ends):
    """A length: one of these ends, one beside it, or any."""
    near = of.one_of(ends) + of.between(-1, 1)
    drawn = of.one_of((near, near, of.between(1, LENGTH_MOST)))
    return min(max(drawn, 1), LENGTH_MOST)


def lengths(of, table, wrong=2):
    """Up to 60 lengths, up to so many of them out of range."""
    ends = [1, *(end for at in range(0, len(table) - 2, 3)
                 for end in table[at:at + 2])]
    listed = [length(of, ends) for _ in range(
        of.one_of((0, 1, 2, 3, 5, 8, of.below(61))))]
    for _ in range(min(of.one_of((0, 0, 0, 1, 2)), wrong, len(listed))):
        listed[of.below(len(listed))] = of.one_of(NO_LENGTHS)
    return listed


def room(of, count):
    """For so many needs: just enough, one or some short, or more."""
    return of.one_of((count, count, count, max(count - 1, 0), max(count - 1, 0),
                      count // 2, count + 1, count + 9))
