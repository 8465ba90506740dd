"""Cases of needs from a maker's table.

Document 02, §7: "From an accepted table and a list of lengths the jobs' needs are
filled in, each from its own line". No case has over 120 numbers in its table, over 80
lengths or room for over 80 needs. Each case is (what it shows, record).
"""

import draw
import draw_needs
from known_needs import (ACCEPTED, AT_ONCE, FILLED, LISTED_WRONG, NOTHING, REFUSED,
                         ROOMS, TWO, WHOLE, numbers)
from stream_form import Record

# Lengths that tell many of the known tables' lines apart.
TOLD_APART = [1, 2, 10, 11, 12, 499, 500, 501, 30000, 30001, 65536, 99999, 100000]


def case(story, table, lengths, room=None):
    """With room for just as many needs, where none is named."""
    room = len(lengths) if room is None else room
    return story, Record("needs", (table, lengths, room))


def tables():
    for story, table in ACCEPTED:
        yield case(f"accepted: {story}", table, TOLD_APART)
    for story, table, _, _ in REFUSED:
        yield case(f"refused: {story}", table, TOLD_APART)


def lines_that_meet_nothing():
    for first, last in NOTHING:
        line = first, last, 9
        yield case(f"the line {first} to {last} alone", numbers([line]), [1])
        for name, lines in (("behind", [*WHOLE, line]), ("before", [line, *WHOLE])):
            yield case(f"the line {first} to {last} {name} one of all lengths",
                       numbers(lines), [1, 2, 50000, 99999, 100000])


def near_the_ends():
    """Two lines whose ends touch, leave a length out or meet one twice."""
    for cut in (1, 2, 3, 255, 256, 65535, 65536, 99998, 99999):
        for name, next_one in (("touch", cut + 1), ("part", cut + 2), ("meet", cut)):
            yield case(f"two lines that {name} at {cut}",
                       numbers([(next_one, 100000, 2), (1, cut, 1)]),
                       [1, cut, cut + 1, 100000])


def lists():
    for story, table, lengths, _ in FILLED:
        yield case(f"filled: {story}", table, lengths)
    for story, lengths, _ in LISTED_WRONG:
        yield case(f"5: {story}", numbers(TWO), lengths)
    for count, room, _ in ROOMS:
        yield case(f"{count} lengths, room for {room}", numbers(TWO),
                   [30001 - place for place in range(count)], room)
    for story, table, lengths, room, _, _ in AT_ONCE:
        yield case(f"at once: {story}", table, lengths, room)


def drawn(name, seed, count, faults=2, wrong=2):
    """Tables with up to so many faults, lists with up to so many lengths out of
    range."""
    of = draw.Draw(seed)
    for number in range(count):
        story, table = draw_needs.table(of, faults)
        lengths = draw_needs.lengths(of, table, wrong)
        room = draw_needs.room(of, len(lengths))
        yield case(f"drawn {name} {number}: {story}, {len(lengths)} lengths, room for "
                   f"{room}", table, lengths, room)


def cases():
    for part in (tables(), lines_that_meet_nothing(), near_the_ends(), lists(),
                 drawn("table", 551, 110), drawn("list", 552, 30, 0),
                 drawn("room", 553, 40, 0, 0)):
        yield from part
