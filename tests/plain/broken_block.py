"""What document 02, §11, invites to get wrong: the register block.

"From a cleared block any sequence of reads and writes sees what this table says,
refused commands too". Each variant is as in broken.py: what is broken, where, by what,
and the test that catches it.
"""

import block
import block_answers
import flow
import forced
import join
import order_file
import orders
import stream_form
import wrap
from orders import Refusal

SEQUENCES = "test_block.Known.test_sequences"
PLANS = "test_block.Known.test_plans"
MANY = "test_block.Known.test_many_rows"
FLAGS = "test_block.Known.test_flags"
LENGTHS = "test_block.Known.test_lengths"
OVER = "test_block.Known.test_a_length_over_220"
FILES = "test_block.Known.test_files"
BOUNDS = "test_block.Known.test_bounds"
WRITTEN = "test_block.Table.test_what_keeps_a_write"
OTHERS = "test_block.Table.test_other_commands"
CLEAR = "test_block.Table.test_clear"
STAYS = "test_block.Table.test_rows_stay"
ALLOWED = "test_block.Table.test_allowed_or_not"

right_begun = block.begun
right_bound = block.bound
right_command = block.command
right_is_stored = block.is_stored
right_order_of = block.order_of
right_plan_at_bound = block.plan_at_bound
right_plan_at_least = block.plan_at_least
right_seen = block.seen
right_step = block_answers.step
right_write = block.write
right_write_flags = block.write_flags


def is_unknown(value):
    return value not in (block.PLAN, block.LEAST, block.CLEAR)


def commanding(changed, holds=lambda held, after, value: True):
    """Commands after which the block is changed where this holds; the change is given
    the block before and after."""
    def command(held, value):
        after = right_command(held, value)
        return changed(held, after) if holds(held, after, value) else after
    return command


def of_unknown(held, after, value):
    return is_unknown(value)


def of_refused(held, after, value):
    return after.refused


def of_clear(held, after, value):
    return value == block.CLEAR


def not_of_clear(held, after, value):
    return value != block.CLEAR


def keeping(*names):
    """What a block held under these names before stays."""
    return lambda held, after: after._replace(
        **{name: getattr(held, name) for name in names})


def keeping_bytes(first, last):
    """These bytes of the stored ones stay."""
    return lambda held, after: after._replace(
        stored=after.stored[:first] + held.stored[first:last + 1]
        + after.stored[last + 1:])


def with_values(**values):
    return lambda held, after: after._replace(**values)


def decoding(meant):
    """The command byte taken for another."""
    return lambda held, value: right_command(held, meant(value))


def nothing_for(*values):
    """Some command bytes do nothing."""
    return lambda held, value: held if value in values else right_command(held, value)


def by_bits(held, value):
    """Bits 0 and 1 alone say the command."""
    return right_command(held, value % 4)


COMMANDS = [
    ("an unknown command keeps the rows", block, "command",
     commanding(keeping("rows"), of_unknown), SEQUENCES),
    ("an unknown command keeps the lateness used", block, "command",
     commanding(keeping("used"), of_unknown), SEQUENCES),
    ("an unknown command keeps the number", block, "command",
     commanding(keeping("number"), of_unknown), SEQUENCES),
    ("the number kept after a command 0", block, "command", commanding(
        keeping("number"), lambda held, after, value: value == 0), OTHERS),
    ("an unknown command sets no flag", block, "command",
     commanding(with_values(refused=False), of_unknown), SEQUENCES),
    ("an unknown command sets done", block, "command",
     commanding(with_values(refused=False, done=True), of_unknown), SEQUENCES),
    ("an unknown command leaves the flags", block, "command",
     commanding(keeping("done", "refused"), of_unknown), OTHERS),
    ("an unknown command does nothing", block, "command", commanding(
        lambda held, after: held, of_unknown), SEQUENCES),
    ("an unknown command is 12", block, "unknown", lambda held: Refusal(12, 0),
     SEQUENCES),
    ("an unknown command is 255", block, "unknown", lambda held: Refusal(255, 0),
     SEQUENCES),
    ("an unknown command clears", block, "command", commanding(
        lambda held, after: block.CLEARED, of_unknown), SEQUENCES),
    ("an unknown command raises no interrupt", block, "command",
     commanding(keeping("interrupt"), of_unknown), OTHERS),
    ("0 is no command", block, "command", nothing_for(0), SEQUENCES),
    ("255 is no command", block, "command", nothing_for(255), OTHERS),
    ("two bits say the command", block, "command", by_bits, OTHERS),
    ("four bits say the command", block, "command", decoding(
        lambda value: value % 16), OTHERS),
    ("seven bits say the command", block, "command", decoding(
        lambda value: value % 128), OTHERS),
    ("commands counted from 0", block, "command", decoding(
        lambda value: (value + 1) % 256), SEQUENCES),
    ("commands 1 and 2 exchanged", block, "COMMANDS",
     {block.PLAN: block.plan_at_least, block.LEAST: block.plan_at_bound}, SEQUENCES),
    ("4 clears", block, "command", decoding(
        lambda value: block.CLEAR if value == 4 else value), OTHERS),
]


def flags_by(done, refused, interrupt):
    """The flags at other bits."""
    return lambda held: (done * held.done + refused * held.refused
                         + interrupt * held.interrupt)


def flags_stored(held, value):
    """Byte 1 stores what is written."""
    return held._replace(done=bool(value & 1), refused=bool(value & 2),
                         interrupt=bool(value & 4))


def flags_turned(held, value):
    """A 1 turns its bit round."""
    return held._replace(done=held.done != bool(value & 1),
                         refused=held.refused != bool(value & 2),
                         interrupt=held.interrupt != bool(value & 4))


def zeros_clear(held, value):
    """A 0 clears its bit."""
    return right_write_flags(held, 255 - value)


def flags_with(changed):
    """A write to byte 1 that clears a flag changes more."""
    def write_flags(held, value):
        after = right_write_flags(held, value)
        return changed(held, after) if after != held else after
    return write_flags


FLAGGING = [
    ("byte 1 stores what is written", block, "write_flags", flags_stored, SEQUENCES),
    ("a 1 turns its bit round", block, "write_flags", flags_turned, FLAGS),
    ("a 0 clears its bit", block, "write_flags", zeros_clear, SEQUENCES),
    ("a write to byte 1 clears all flags", block, "write_flags",
     lambda held, value: right_write_flags(held, 7), SEQUENCES),
    ("any 1 written to byte 1 clears all flags", block, "write_flags",
     lambda held, value: right_write_flags(held, 7 * (value > 0)), SEQUENCES),
    ("a write to byte 1 does nothing", block, "write_flags", lambda held, value: held,
     SEQUENCES),
    ("bit 2 falls by no write", block, "write_flags",
     lambda held, value: right_write_flags(held, value & 3), SEQUENCES),
    ("bit 0 falls by no write", block, "write_flags",
     lambda held, value: right_write_flags(held, value & 6), SEQUENCES),
    ("bit 1 falls by no write", block, "write_flags",
     lambda held, value: right_write_flags(held, value & 5), SEQUENCES),
    ("bits 3 to 5 clear flags too", block, "write_flags",
     lambda held, value: right_write_flags(held, value | value >> 3), FLAGS),
    ("a write to byte 1 clears the number", block, "write_flags",
     flags_with(with_values(number=0)), SEQUENCES),
    ("a write to byte 1 drops the rows", block, "write_flags",
     flags_with(with_values(rows=())), SEQUENCES),
    ("a write to byte 1 clears the lateness used", block, "write_flags",
     flags_with(with_values(used=0)), SEQUENCES),
    ("refused and interrupt exchanged", block, "flags", flags_by(1, 4, 2), SEQUENCES),
    ("done and refused exchanged", block, "flags", flags_by(2, 1, 4), SEQUENCES),
    ("flags from bit 1 on", block, "flags", flags_by(2, 4, 8), SEQUENCES),
    ("flags in the upper bits", block, "flags", flags_by(128, 64, 32), SEQUENCES),
    ("refused sets done too", block, "command",
     commanding(with_values(done=True), of_refused), SEQUENCES),
    ("a refused command leaves done", block, "command",
     commanding(keeping("done"), of_refused), OTHERS),
    ("a finished command leaves refused", block, "command", commanding(
        keeping("refused"), lambda held, after, value: after.done), STAYS),
    ("a finished command keeps the number", block, "command", commanding(
        keeping("number"), lambda held, after, value: after.done), SEQUENCES),
    ("a finished command is not told", block, "command", commanding(
        with_values(done=False), lambda held, after, value: after.done), SEQUENCES),
]


def command_drops_interrupt(held, value):
    return right_command(held._replace(interrupt=False), value)


def interrupt_as_allowed(held):
    """Bit 2 is whether it is allowed."""
    return held._replace(interrupt=held.allowed)


def allowed_raises(held, value):
    """Allowing raises the interrupt of a command that is over."""
    after = held._replace(allowed=value % 2)
    return after._replace(interrupt=held.interrupt or after.allowed == 1
                          and (held.done or held.refused))


def forbidden_drops(held, value):
    return held._replace(allowed=value % 2,
                         interrupt=held.interrupt and value % 2 == 1)


INTERRUPTS = [
    ("a command clears bit 2", block, "command", command_drops_interrupt, SEQUENCES),
    ("every command first clears bit 2", block, "begun",
     lambda held: right_begun(held)._replace(interrupt=False), SEQUENCES),
    ("the interrupt is whether it is allowed", block, "interrupted",
     interrupt_as_allowed, SEQUENCES),
    ("the interrupt set though not allowed", block, "interrupted",
     lambda held: held._replace(interrupt=True), SEQUENCES),
    ("the interrupt not set though allowed", block, "interrupted", lambda held: held,
     SEQUENCES),
    ("the interrupt set where it is not allowed", block, "interrupted",
     lambda held: held._replace(interrupt=held.interrupt or not held.allowed),
     SEQUENCES),
    ("the interrupt of finished commands alone", block, "command",
     commanding(keeping("interrupt"), of_refused), ALLOWED),
    ("the interrupt of refused commands alone", block, "command", commanding(
        keeping("interrupt"), lambda held, after, value: after.done), SEQUENCES),
    ("allowing raises the interrupt", block, "allow", allowed_raises, SEQUENCES),
    ("forbidding drops the interrupt", block, "allow", forbidden_drops, SEQUENCES),
    ("any bit of byte 3 allows", block, "allow",
     lambda held, value: held._replace(allowed=int(value > 0)), SEQUENCES),
    ("bit 1 of byte 3 allows", block, "allow",
     lambda held, value: held._replace(allowed=value // 2 % 2), SEQUENCES),
    ("byte 3 is set and never cleared", block, "allow",
     lambda held, value: held._replace(allowed=held.allowed | value % 2),
     SEQUENCES),
    ("a 1 written to byte 3 clears it", block, "allow",
     lambda held, value: held._replace(allowed=held.allowed * (1 - value % 2)),
     SEQUENCES),
    ("byte 3 keeps all bits", block, "allow",
     lambda held, value: held._replace(allowed=value), SEQUENCES),
    ("a command forbids the interrupt", block, "command",
     commanding(with_values(allowed=0), not_of_clear), SEQUENCES),
]


def clear_as_others(held, value):
    """Clear sets a flag, and bit 2 if allowed."""
    if value == block.CLEAR:
        return block.CLEARED._replace(done=True, interrupt=bool(held.allowed))
    return right_command(held, value)


CLEARING = [
    ("clear keeps byte 3", block, "command", commanding(keeping("allowed"), of_clear),
     SEQUENCES),
    ("clear keeps the rows", block, "command", commanding(keeping("rows"), of_clear),
     CLEAR),
    ("clear keeps the flags", block, "command", commanding(
        keeping("done", "refused", "interrupt"), of_clear), SEQUENCES),
    ("clear keeps bit 2", block, "command", commanding(keeping("interrupt"), of_clear),
     SEQUENCES),
    ("clear keeps the number", block, "command", commanding(
        keeping("number"), of_clear), SEQUENCES),
    ("clear keeps the lateness used", block, "command", commanding(
        keeping("used"), of_clear), CLEAR),
    ("clear keeps the bound", block, "command", commanding(
        keeping_bytes(4, 7), of_clear), SEQUENCES),
    ("clear keeps the file length", block, "command", commanding(
        keeping_bytes(8, 9), of_clear), SEQUENCES),
    ("clear keeps the row number", block, "command", commanding(
        keeping_bytes(10, 11), of_clear), SEQUENCES),
    ("clear keeps the file", block, "command", commanding(
        keeping_bytes(32, 251), of_clear), SEQUENCES),
    ("clear keeps the file's last byte", block, "command", commanding(
        keeping_bytes(251, 251), of_clear), CLEAR),
    ("clear raises the interrupt", block, "command", commanding(
        lambda held, after: after._replace(interrupt=bool(held.allowed)), of_clear),
     SEQUENCES),
    ("clear raises the interrupt, allowed or not", block, "command",
     commanding(with_values(interrupt=True), of_clear), SEQUENCES),
    ("clear sets done", block, "command", commanding(with_values(done=True), of_clear),
     SEQUENCES),
    ("clear sets its flag as others do", block, "command", clear_as_others, SEQUENCES),
    ("clear is refused", block, "command", decoding(
        lambda value: 4 if value == block.CLEAR else value), SEQUENCES),
    ("clear does nothing", block, "command", nothing_for(block.CLEAR), SEQUENCES),
]


def seeing(first, last, of):
    """Bytes that read something else."""
    def seen(held):
        data = right_seen(held)
        return data[:first] + bytes(of(held)) + data[last + 1:]
    return seen


def writing(holds, changed):
    """Writes to addresses of which this holds do something else."""
    return lambda held, address, value: (
        changed(held, address, value) if holds(address)
        else right_write(held, address, value))


def nothing(held, address, value):
    return held


def number_written(held, address, value):
    return held._replace(number=value)


def used_written(held, address, value):
    data = bytearray(block.LATENESS.pack(held.used))
    data[address - 12] = value
    return held._replace(used=block.LATENESS.unpack(data)[0])


def row_written(held, address, value):
    """The byte of the row that is shown."""
    number = block.row_number(held)
    if not 1 <= number <= len(held.rows):
        return held
    data = bytearray(block.ROW.pack(*held.rows[number - 1]))
    data[address - 16] = value
    rows = list(held.rows)
    rows[number - 1] = block.ROW.unpack(data)
    return held._replace(rows=tuple(rows))


def turned_round(first, last):
    return seeing(first, last, lambda held: right_seen(held)[first:last + 1][::-1])


def row_bytes(of):
    """The row's bytes made of its numbers in another way."""
    return seeing(16, 31, lambda held: of(*block.row(held)))


def big_endian(*numbers):
    return b"".join(number.to_bytes(4, "big") for number in numbers)


def row_at(of):
    """Another row for a number; zeros where there is none."""
    def row(held):
        place = of(block.row_number(held), len(held.rows))
        return held.rows[place] if 0 <= place < len(held.rows) else block.NO_ROW
    return row


def looked_up_at_once(held, value):
    """The row is looked up when the command runs: it is the one row held, whatever
    number is written later."""
    after = right_command(held, value)
    return after._replace(rows=(block.row(after),) * 65535 if after.rows else ())


def reading_clears(names):
    """A read after which these are cleared."""
    def step(held, access):
        after, lines = right_step(held, access)
        if access[0] == stream_form.READ:
            after = after._replace(**{name: getattr(block.CLEARED, name)
                                      for name in names})
        return after, lines
    return step


TABLE = [
    ("byte 2 written", block, "write", writing(lambda address: address == 2,
                                               number_written), WRITTEN),
    ("12 to 15 written", block, "write", writing(lambda address: 12 <= address <= 15,
                                                 used_written), WRITTEN),
    ("16 to 31 written", block, "write", writing(lambda address: 16 <= address <= 31,
                                                 row_written), WRITTEN),
    ("4 to 10 stored alone", block, "is_stored", lambda address: (
        right_is_stored(address) and address != 11), WRITTEN),
    ("251 not stored", block, "is_stored", lambda address: (
        right_is_stored(address) and address != 251), WRITTEN),
    ("32 not stored", block, "is_stored", lambda address: (
        right_is_stored(address) and address != 32), SEQUENCES),
    ("the bound not stored", block, "write", writing(
        lambda address: 4 <= address <= 7, nothing), SEQUENCES),
    ("252 to 255 stored", block, "is_stored", lambda address: (
        right_is_stored(address) or address > 251), WRITTEN),
    ("251 read at 252 too", block, "seen", seeing(
        252, 252, lambda held: held.stored[251:252]), WRITTEN),
    ("12 to 15 an alias of 4 to 7", block, "seen", seeing(
        12, 15, lambda held: held.stored[4:8]), SEQUENCES),
    ("12 to 15 an alias of 4 to 7 where it is done", block, "seen", seeing(
        12, 15, lambda held: held.stored[4:8] if held.done else bytes(4)), SEQUENCES),
    ("byte 0 reads the file's first byte", block, "seen", seeing(
        0, 0, lambda held: held.stored[32:33]), SEQUENCES),
    ("byte 2 reads 0 where it is not refused", block, "seen", seeing(
        2, 2, lambda held: [held.number * held.refused]), SEQUENCES),
    ("12 to 15 read 0 where it is not done", block, "seen", seeing(
        12, 15, lambda held: block.LATENESS.pack(held.used if held.done else 0)),
     SEQUENCES),
    ("the row reads zeros where it is not done", block, "seen", seeing(
        16, 31, lambda held: block.ROW.pack(*(block.row(held) if held.done
                                              else block.NO_ROW))), SEQUENCES),
    ("the lateness big-endian", block, "seen", turned_round(12, 15), SEQUENCES),
    ("the row's bytes big-endian", block, "seen", row_bytes(big_endian), SEQUENCES),
    ("the row turned round", block, "seen", turned_round(16, 31), SEQUENCES),
    ("the processor before the job", block, "seen", row_bytes(
        lambda job, processor, begin, to: block.ROW.pack(processor, job, begin, to)),
     PLANS),
    ("the length in place of to", block, "seen", row_bytes(
        lambda job, processor, begin, to: block.ROW.pack(
            job, processor, begin, to - begin)), PLANS),
    ("numbers of 16 bits in the row", block, "seen", row_bytes(
        lambda *row: block.ROW.pack(*(number % 65536 for number in row))), PLANS),
    ("the row counted from 0", block, "row", row_at(lambda number, count: number),
     SEQUENCES),
    ("rows 0 and 1 alike", block, "row", row_at(
        lambda number, count: max(number, 1) - 1), SEQUENCES),
    ("the last row for every number beyond", block, "row", row_at(
        lambda number, count: min(number, count) - 1), PLANS),
    ("rows from the last to the first", block, "row", row_at(
        lambda number, count: count - number), PLANS),
    ("the low byte of the row number alone", block, "row", row_at(
        lambda number, count: number % 256 - 1), PLANS),
    ("the row number's bytes exchanged", block, "row", row_at(
        lambda number, count: number // 256 + number % 256 * 256 - 1), SEQUENCES),
    ("15 rows held", block, "row", row_at(
        lambda number, count: number - 1 if number <= 15 else count), MANY),
    ("a row's place in 7 bits", block, "row", row_at(
        lambda number, count: number - 1 if 4 * number < 128 else count), MANY),
    ("the row looked up when the command runs", block, "command", looked_up_at_once,
     SEQUENCES),
    ("reading clears the flags", block_answers, "step",
     reading_clears(("done", "refused", "interrupt")), SEQUENCES),
    ("reading clears the interrupt", block_answers, "step",
     reading_clears(("interrupt",)), SEQUENCES),
    ("reading clears the number", block_answers, "step", reading_clears(("number",)),
     SEQUENCES),
    ("reading drops the rows", block_answers, "step", reading_clears(("rows",)),
     SEQUENCES),
]


def dropping(first, last, *names):
    """A write to these addresses clears what is held under these names."""
    return writing(
        lambda address: first <= address <= last,
        lambda held, address, value: right_write(held, address, value)._replace(
            **{name: getattr(block.CLEARED, name) for name in names}))


STAYING = [
    ("a row number written drops the rows", block, "write", dropping(10, 11, "rows"),
     SEQUENCES),
    ("a bound written drops the rows", block, "write", dropping(4, 7, "rows"),
     SEQUENCES),
    ("a length written drops the rows", block, "write", dropping(8, 9, "rows"),
     SEQUENCES),
    ("a file written drops the rows", block, "write", dropping(32, 251, "rows"),
     SEQUENCES),
    ("a file's last byte written drops the rows", block, "write",
     dropping(251, 251, "rows"), STAYS),
    ("a bound written clears the lateness used", block, "write",
     dropping(4, 7, "used"), SEQUENCES),
    ("a file written clears done", block, "write", dropping(32, 251, "done"),
     SEQUENCES),
    ("byte 3 written clears the flags", block, "write",
     dropping(3, 3, "done", "refused", "interrupt"), SEQUENCES),
    ("byte 3 written drops the rows", block, "write", dropping(3, 3, "rows"), STAYS),
    ("a command clears the bound", block, "command", commanding(
        lambda held, after: after._replace(
            stored=bytes(8) + after.stored[8:])), SEQUENCES),
    ("a command clears the row number", block, "command", commanding(
        lambda held, after: after._replace(
            stored=after.stored[:10] + bytes(2) + after.stored[12:])), SEQUENCES),
    ("a refused command clears the length", block, "command", commanding(
        lambda held, after: after._replace(
            stored=after.stored[:8] + bytes(2) + after.stored[10:]), of_refused),
     SEQUENCES),
    ("the least lateness written to the bound", block, "command", commanding(
        lambda held, after: after._replace(
            stored=after.stored[:4] + block.LATENESS.pack(after.used)
            + after.stored[8:]), lambda held, after, value: value == block.LEAST),
     SEQUENCES),
    ("12 to 15 kept after a refusal", block, "command",
     commanding(keeping("used"), of_refused), SEQUENCES),
    ("rows kept after a refusal", block, "command",
     commanding(keeping("rows"), of_refused), SEQUENCES),
    ("rows kept after 10", block, "command", commanding(
        keeping("rows"), lambda held, after, value: after.number == 10), SEQUENCES),
    ("the bound in 12 to 15 after a refusal", block, "command", commanding(
        lambda held, after: after._replace(used=right_bound(held)), of_refused),
     SEQUENCES),
]


def of_length(length):
    """The order of a file of another length."""
    def order_of(held):
        return order_file.read(held.stored[32:32 + length(block.file_length(held))],
                               orders.SCREEN)
    return order_of


def length_last(held):
    """An order is read from the bytes there are, however long the file is said to be,
    and 12 comes behind its refusal."""
    order = order_file.read(held.stored[32:32 + min(block.file_length(held), 220)],
                            orders.SCREEN)
    if isinstance(order, Refusal) and order.number != 12:
        return order
    return right_order_of(held)


def bound_judged(held):
    """Command 2 judges the bound."""
    outcome = right_plan_at_least(held)
    if not isinstance(outcome, Refusal) and not orders.bound_in_range(
            right_bound(held)):
        return Refusal(8, 0)
    return outcome


def met_at_bound(held):
    """Command 2 judges the bound and whether it is too tight."""
    outcome = right_plan_at_bound(held)
    return outcome if isinstance(outcome, Refusal) else right_plan_at_least(held)


def bound_first(held):
    if not orders.bound_in_range(right_bound(held)):
        return Refusal(8, 0)
    return right_plan_at_bound(held)


def without(number, right):
    """A refusal that is told as 0."""
    def plan(held):
        outcome = right(held)
        return Refusal(0, 0) if outcome == Refusal(number, 0) else outcome
    return plan


def least_used(held):
    """The plan at the bound is the one at the least lateness."""
    outcome = right_plan_at_bound(held)
    return outcome if isinstance(outcome, Refusal) else right_plan_at_least(held)


def used_as(right, used):
    """The lateness used is told otherwise."""
    def plan(held):
        outcome = right(held)
        return outcome if isinstance(outcome, Refusal) else (
            used(held, outcome[0]), outcome[1])
    return plan


def carried_job(right):
    """The job that a refusal carries is told in place of the number."""
    def plan(held):
        outcome = right(held)
        if isinstance(outcome, Refusal) and outcome.carried:
            return Refusal(outcome.carried, 0)
        return outcome
    return plan


def rows_by(laid):
    def rows(order, at):
        amounts = flow.amounts(order, at)
        return None if amounts is None else tuple(laid(order, at, amounts))
    return rows


OUTCOMES = [
    # A file that is really longer has 0 for its counts, bytes 252 to 255, and is 12 too.
    ("221 let through, 220 bytes taken", block, "order_of",
     of_length(lambda length: 220 if length == 221 else length), LENGTHS),
    ("every length let through, 220 bytes taken", block, "order_of",
     of_length(lambda length: min(length, 220)), LENGTHS),
    ("220 refused", block, "FILE_MOST", 219, SEQUENCES),
    ("the low byte of the length alone", block, "order_of",
     of_length(lambda length: length % 256), LENGTHS),
    ("the length not looked at", block, "order_of", of_length(lambda length: 220),
     SEQUENCES),
    ("the length's bytes exchanged", block, "file_length",
     lambda held: int.from_bytes(held.stored[8:10], "big"), SEQUENCES),
    ("a length over 220 after the order's own", block, "order_of", length_last, OVER),
    ("the dock's limits in place of the screen's", block, "LIMITS", orders.DOCK,
     SEQUENCES),
    ("2 for 21", block, "LIMITS", orders.SCREEN._replace(over_processors=2), SEQUENCES),
    ("5 processors let through", block, "LIMITS", orders.SCREEN._replace(processors=5),
     SEQUENCES),
    ("4 processors refused", block, "LIMITS", orders.SCREEN._replace(processors=3),
     SEQUENCES),
    ("12 jobs refused", block, "LIMITS", orders.SCREEN._replace(jobs=11), SEQUENCES),
    ("command 2 judges the bound", block, "COMMANDS",
     {block.PLAN: block.plan_at_bound, block.LEAST: bound_judged}, SEQUENCES),
    ("command 2 tells 10 too", block, "COMMANDS",
     {block.PLAN: block.plan_at_bound, block.LEAST: met_at_bound}, SEQUENCES),
    ("8 before the order", block, "COMMANDS",
     {block.PLAN: bound_first, block.LEAST: block.plan_at_least}, FILES),
    ("10 without its number", block, "COMMANDS",
     {block.PLAN: without(10, block.plan_at_bound), block.LEAST: block.plan_at_least},
     SEQUENCES),
    ("command 1 plans at the least lateness", block, "COMMANDS",
     {block.PLAN: least_used, block.LEAST: block.plan_at_least}, SEQUENCES),
    ("the lateness used told without its sign", block, "COMMANDS",
     {block.PLAN: block.plan_at_bound, block.LEAST: used_as(
         block.plan_at_least, lambda held, used: abs(used))}, SEQUENCES),
    ("the bound told after command 2", block, "COMMANDS",
     {block.PLAN: block.plan_at_bound, block.LEAST: used_as(
         block.plan_at_least, lambda held, used: right_bound(held))}, SEQUENCES),
    ("0 told after command 1", block, "COMMANDS",
     {block.PLAN: used_as(block.plan_at_bound, lambda held, used: 0),
      block.LEAST: block.plan_at_least}, SEQUENCES),
    ("the job for the number", block, "COMMANDS",
     {block.PLAN: carried_job(block.plan_at_bound), block.LEAST: block.plan_at_least},
     FILES),
    ("the bound big-endian", block, "bound",
     lambda held: int.from_bytes(held.stored[4:8], "big", signed=True), SEQUENCES),
    ("the bound of 16 bits", block, "bound",
     lambda held: int.from_bytes(held.stored[4:6], "little", signed=True), SEQUENCES),
    ("the bound of 24 bits", block, "bound",
     lambda held: int.from_bytes(held.stored[4:7], "little", signed=True), BOUNDS),
    ("the bound without a sign", block, "bound",
     lambda held: min(int.from_bytes(held.stored[4:8], "little"), 2147483647),
     SEQUENCES),
    ("the due minute left out of the bound", block, "bound",
     lambda held: max(right_bound(held) - 1, -2147483648), SEQUENCES),
    ("rows not joined", block, "rows", rows_by(wrap.plan), PLANS),
    ("the last row left out", block, "rows", rows_by(
        lambda order, at, amounts: join.plan(order, at, amounts)[:-1]), SEQUENCES),
    ("no room for 180 rows", block, "ROOM", 716, SEQUENCES),
]

# Each of these changes what is told in a case of the stream.
ANSWERS = (COMMANDS + FLAGGING + INTERRUPTS + CLEARING + TABLE + STAYING + OUTCOMES)
FORM = "test_streams.Form.test_blocks_by_hand"
right_pack_access = stream_form.pack_access


def exchanged(access):
    """The value before the address."""
    which, address, value, rest = right_pack_access(access)[:4]
    return bytes([which, value, address, rest]) + right_pack_access(access)[4:]


FORMS = [
    ("the value before the address", stream_form, "pack_access", exchanged, FORM),
    ("an access of three bytes", stream_form, "pack_access",
     lambda access: right_pack_access(access)[:3] + right_pack_access(access)[4:],
     FORM),
    ("a file without its length", stream_form, "pack_access", lambda access: (
        right_pack_access(access)[:4] + right_pack_access(access)[8:]), FORM),
    ("reads and writes exchanged", stream_form, "pack_access", lambda access: (
        right_pack_access(({1: 3, 3: 1}.get(access[0], access[0]), *access[1:]))),
     FORM),
    ("a block's case of another number", stream_form, "KINDS",
     {**stream_form.KINDS, "block": 17}, FORM),
    ("a block's case a screen's", stream_form, "OF_NO_CALLER", ("classes", "needs"),
     FORM),
]

FORCED = "test_block.Forced.test_by_all_amounts"
CHOICES = [
    ("every order's amounts forced", forced, "forced", lambda order, bound: True,
     FORCED),
    ("no order's amounts forced", forced, "forced", lambda order, bound: False, FORCED),
    ("amounts of one stretch alone forced", forced, "forced",
     lambda order, bound: len({job.due for job in order.jobs}) == 1, FORCED),
]

VARIANTS = ANSWERS + FORMS + CHOICES
