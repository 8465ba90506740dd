"""Tables of needs and lists of lengths, and their answers worked out by hand.

Document 02, §7: "Lengths 1 to 100,000 must each be met by one line, lines in any
order." A line is (from, to, need).
"""

from orders import order

TOP = 4294967295


def numbers(lines, *left_over):
    """A table as it is lent, with numbers left over at its end."""
    return [number for line in lines for number in line] + list(left_over)


def parts(count, each):
    """So many lines of so many lengths each, from 1 on; a line's need is its place."""
    return [(each * (place - 1) + 1, each * place, place)
            for place in range(1, count + 1)]


def idle(count):
    """So many lines that meet no length."""
    return [((100000, 1, 9), (0, 100000, 9))[place % 2] for place in range(count)]


WHOLE = [(1, 100000, 4)]
TWO = [(1, 30000, 4), (30001, 100000, 8)]
THREE = [(1, 30, 2), (31, 90, 4), (91, 100000, 8)]
FULL = parts(32, 3125)
# 11 is unmet; 10 is met twice.
GAP = [(1, 10, 1), (12, 100000, 2)]
TWICE = [(1, 10, 1), (10, 100000, 2)]
# Lines that are out of range or run backwards, from and to.
NOTHING = ((0, 100000), (1, 100001), (0, 100001), (0, 0), (0, 1), (100000, 100001),
           (100001, 100001), (TOP, TOP), (0, TOP), (1, TOP), (TOP, 100000), (1, 0),
           (100001, 100000), (100000, 1), (2, 1), (100000, 99999), (50001, 50000),
           (2147483648, 100000), (65537, 65536), (65536, 131072))

# What each shows, and the table.
ACCEPTED = [
    ("two lines", numbers(TWO)),
    ("two lines, the other one first", numbers(TWO[::-1])),
    ("one line", numbers(WHOLE)),
    ("three lines, the middle one last", numbers([THREE[2], THREE[0], THREE[1]])),
    ("length 1 alone", numbers([(2, 100000, 1), (1, 1, 2)])),
    ("length 100000 alone", numbers([(1, 99999, 1), (100000, 100000, 2)])),
    ("one length alone in the middle",
     numbers([(1, 499, 1), (501, 100000, 3), (500, 500, 2)])),
    ("a cut at 65536", numbers([(1, 65535, 1), (65536, 65536, 2), (65537, 100000, 3)])),
    ("lines of one need", numbers([(1, 5, 4), (6, 100000, 4)])),
    ("32 lines of 3125 lengths", numbers(FULL)),
    ("32 lines, the last one first", numbers(FULL[::-1])),
    ("a 33rd line passed over", numbers(FULL + [(1, 1, 9)])),
    ("a 33rd line of all lengths passed over", numbers(FULL + [(1, 100000, 9)])),
    ("eight lines passed over", numbers(FULL + parts(8, 12500))),
    ("31 lines that meet nothing before all lengths", numbers(idle(31) + WHOLE)),
    ("32 lines, another one behind them", numbers(WHOLE + idle(31) + [(7, 7, 9)])),
    ("one number left over", numbers(WHOLE, 1)),
    ("two numbers left over", numbers(WHOLE, 1, 100000)),
    ("two numbers left over behind 32 lines", numbers(FULL, 1, 1)),
]

# What each shows, the table, and the refusal's number and length.
REFUSED = [
    ("no line", [], 17, 1),
    ("one number", [1], 17, 1),
    ("two numbers", [1, 100000], 17, 1),
    ("51 unmet, though 10 is met twice",
     numbers([(1, 10, 1), (10, 50, 2), (52, 100000, 3)]), 17, 51),
    ("10 met twice", numbers(TWICE), 18, 10),
    ("from 0", numbers([(0, 100000, 4)]), 17, 1),
    ("to 100001", numbers([(1, 100001, 4)]), 17, 1),
    ("backwards", numbers([(100000, 1, 4)]), 17, 1),
    ("two equal lines", numbers(WHOLE * 2), 18, 1),
    ("32 lines of 3031 lengths, the rest in a 33rd",
     numbers(parts(32, 3031) + [(96993, 100000, 33)]), 17, 96993),
    ("a gap at 1", numbers([(2, 100000, 4)]), 17, 1),
    ("a gap at 100000", numbers([(1, 99999, 4)]), 17, 100000),
    ("a gap of one length", numbers(GAP), 17, 11),
    ("a gap of one length, the lines exchanged", numbers(GAP[::-1]), 17, 11),
    ("a gap from 2 to 99999", numbers([(100000, 100000, 4), (1, 1, 4)]), 17, 2),
    ("one length only", numbers([(500, 500, 4)]), 17, 1),
    ("two gaps, the larger lengths first",
     numbers([(22, 100000, 3), (12, 20, 2), (1, 10, 1)]), 17, 11),
    ("a gap at 1 and one at 100000", numbers([(2, 99999, 4)]), 17, 1),
    ("what 16 bits leave of 100000", numbers([(1, 34464, 4)]), 17, 34465),
    ("a backwards line over a gap",
     numbers([(1, 10, 1), (20, 11, 2), (21, 100000, 3)]), 17, 11),
    ("a line from 0 over a gap", numbers([(0, 1, 1), (2, 100000, 2)]), 17, 1),
    ("a line to 100001 over a gap",
     numbers([(1, 99999, 1), (100000, 100001, 2)]), 17, 100000),
    ("line 33 over the gap", numbers(GAP + idle(30) + [(11, 11, 3)]), 17, 11),
    ("32 lines that meet nothing before all lengths", numbers(idle(32) + WHOLE), 17, 1),
    ("31 of 32 parts", numbers(FULL[:-1]), 17, 96876),
    ("one number left over, the gap's length", numbers(GAP, 11), 17, 11),
    ("two numbers left over, the gap's length", numbers(GAP, 11, 11), 17, 11),
    ("three equal lines", numbers(WHOLE * 3), 18, 1),
    ("equal lines but for the need", numbers(WHOLE + [(1, 100000, 5)]), 18, 1),
    ("two equal lines of one length",
     numbers([(1, 4, 1), (5, 5, 2), (5, 5, 2), (6, 100000, 3)]), 18, 5),
    ("1 met twice", numbers([(1, 1, 1), (1, 100000, 2)]), 18, 1),
    ("100000 met twice", numbers([(1, 100000, 1), (100000, 100000, 2)]), 18, 100000),
    ("100000 met 32 times", numbers(WHOLE + [(100000, 100000, 2)] * 31), 18, 100000),
    ("a line inside another", numbers([(1, 100000, 1), (500, 600, 2)]), 18, 500),
    ("a line around another", numbers([(500, 600, 2), (1, 100000, 1)]), 18, 500),
    ("10 met three times", numbers([(1, 10, 1), (10, 10, 2), (10, 100000, 3)]), 18, 10),
    ("20 and 40 met twice, the larger first",
     numbers([(40, 100000, 3), (20, 40, 2), (1, 20, 1)]), 18, 20),
    ("lines of one need met twice", numbers([(1, 10, 4), (10, 100000, 4)]), 18, 10),
    ("line 32 meets 7 again", numbers(WHOLE + idle(30) + [(7, 7, 9)]), 18, 7),
    ("line 32 meets 3125 again, and the last part is a 33rd",
     numbers(FULL[:-1] + [(3125, 3125, 9), FULL[-1]]), 17, 96876),
]

# What each shows, the table, the lengths and their needs.
FILLED = [
    ("both sides of a cut", numbers(TWO), [30000, 30001], [4, 8]),
    ("lines exchanged", numbers(TWO[::-1]), [30000, 30001], [4, 8]),
    ("lengths exchanged", numbers(TWO), [30001, 30000], [8, 4]),
    ("no length", numbers(TWO), [], []),
    ("both ends", numbers(TWO), [1, 100000], [4, 8]),
    ("ends of three lines", numbers(THREE), [91, 30, 90, 1, 100000, 31],
     [8, 2, 4, 2, 8, 4]),
    ("a length again and again", numbers(TWO), [5, 99999, 5, 5], [4, 8, 4, 4]),
    ("needs 0 and 4294967295", numbers([(1, 7, 0), (8, 100000, TOP)]), [7, 8],
     [0, TOP]),
    ("needs that 16 bits would cut", numbers([(1, 7, 65540), (8, 100000, 2147483648)]),
     [7, 8], [65540, 2147483648]),
    ("a need as the buffer has it", numbers([(1, 7, 7), (8, 100000, 8)]), [1, 8, 1],
     [7, 8, 7]),
    ("lengths that 16 bits would cut",
     numbers([(51, 65536, 2), (1, 50, 1), (65537, 100000, 3)]),
     [65536, 65537, 65586, 65587, 1, 51], [2, 3, 3, 3, 1, 2]),
    ("both ends of 32 lines", numbers(FULL),
     [end for line in FULL for end in line[:2]],
     [place for place in range(1, 33) for _ in range(2)]),
    ("32 lines, the last one first", numbers(FULL[::-1]), [1, 3125, 3126, 100000],
     [1, 1, 2, 32]),
    ("line 33 says another need", numbers(FULL + [(1, 1, 99)]), [1, 2], [1, 1]),
    ("a backwards line of another need", numbers([(5, 3, 9), *WHOLE]), [3, 4, 5],
     [4, 4, 4]),
    ("lines out of range of another need",
     numbers([(0, 5, 9), *WHOLE, (99999, 100001, 9)]), [1, 5, 99999, 100000],
     [4, 4, 4, 4]),
    ("49 lengths", numbers(TWO), [30001] * 48 + [1], [8] * 48 + [4]),
    ("80 lengths", numbers(TWO), list(range(29961, 30041)), [4] * 40 + [8] * 40),
]

# What each shows, the lengths listed with the table of two lines, and the place.
LISTED_WRONG = [
    ("0 alone", [0], 1),
    ("100001 alone", [100001], 1),
    ("4294967295 alone", [TOP], 1),
    ("2147483648 alone", [2147483648], 1),
    ("65537, which is a length, and 131072", [65537, 131072], 2),
    ("0 first", [0, 1, 2], 1),
    ("0 in the middle", [1, 0, 2], 2),
    ("0 last", [1, 2, 0], 3),
    ("100001 first", [100001, 100000, 1], 1),
    ("100001 in the middle", [100000, 100001, 1], 2),
    ("100001 last", [1, 100000, 100001], 3),
    ("4294967295 first", [TOP, 1, 1], 1),
    ("4294967295 in the middle", [1, TOP, 1], 2),
    ("4294967295 last", [1, 1, TOP], 3),
    ("two out of range", [5, 0, 7, 100001, 8], 2),
    ("two out of range, 0 the later", [5, 7, 100001, 0], 3),
    ("place 48 of 60", [1] * 47 + [0] + [1] * 12, 48),
    ("place 49 of 60", [1] * 48 + [0] + [1] * 11, 49),
    ("place 80 of 80", [1] * 79 + [100001], 80),
]

# How many lengths are listed with the table of two lines, and how many needs the
# buffer is too short, just enough or more than enough for.
ROOMS = [(1, 0, "short"), (2, 1, "short"), (3, 0, "short"), (3, 2, "short"),
         (49, 48, "short"), (80, 79, "short"), (80, 48, "short"),
         (0, 0, "enough"), (1, 1, "enough"), (3, 3, "enough"), (48, 48, "enough"),
         (49, 49, "enough"), (80, 80, "enough"),
         (0, 1, "more"), (0, 80, "more"), (1, 2, "more"), (3, 80, "more"),
         (48, 49, "more"), (79, 80, "more")]

# What holds at once, the table, the lengths, the room, and the refusal's number and
# what it carries.
AT_ONCE = [
    ("17 and 18", numbers([(1, 10, 1), (10, 50, 2), (52, 100000, 3)]), [1], 1, 17, 51),
    ("17 and 18, the gap first", numbers([(2, 10, 1), (10, 100000, 2)]), [1], 1, 17, 1),
    ("17 and 18, the gap at 100000", numbers([(1, 99999, 1), (1, 1, 2)]), [1], 1,
     17, 100000),
    ("17 and 5", numbers(GAP), [0], 1, 17, 11),
    ("17 and 9", numbers(GAP), [1], 0, 17, 11),
    ("17 and no length", numbers(GAP), [], 0, 17, 11),
    ("17 at a length that is not listed", numbers(GAP), [1, 10, 12], 3, 17, 11),
    ("18 and 5", numbers(TWICE), [1, 0], 2, 18, 10),
    ("18 and 9", numbers(TWICE), [1], 0, 18, 10),
    ("18 and no length", numbers(TWICE), [], 0, 18, 10),
    ("18 at a length that is not listed", numbers(TWICE), [1, 9, 11], 3, 18, 10),
    ("5 and 9", numbers(TWO), [1, 0], 1, 5, 2),
    ("5 and 9, no room", numbers(TWO), [100001], 0, 5, 1),
    ("5 beyond the room", numbers(TWO), [1, 1, 0], 2, 5, 3),
    ("17, 5 and 9", numbers(GAP), [0, 1], 1, 17, 11),
    ("18, 5 and 9", numbers(TWICE), [0, 1], 1, 18, 10),
    ("17, 18, 5 and 9", numbers([(1, 10, 1), (10, 99999, 2)]), [0, 1], 0, 17, 100000),
]

# The order of examples/sessions.order, its needs filled in from the table of three
# lines. Both jobs of need 8 run on processor 1, 191 minutes: the least lateness is 0.
SESSIONS = order([8, 4], [(91, 190, 8), (100, 190, 8), (90, 190, 4), (31, 190, 4, 2),
                          (30, 190, 2), (10, 190, 4)])
