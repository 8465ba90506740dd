//! Wrong in what a command leaves: "Every command first clears bits 0 and 1, bytes 2 and 12 to 15 and the rows held";
//! "Finished or refused, a command but 3 sets its flag, and bit 2 if allowed."

use super::block::commanded;
use super::Wrong;
use crate::independent::{amounts, joined, layout, Block, Row};
use crate::library::Function;

pub const PARTS: &[&[Wrong]] = &[UNKNOWN, FLAGS, INTERRUPTS, CLEARED, ROWS, OTHERS];

fn unknown(command: u8) -> bool {
    ![1, 2, 3].contains(&command)
}

const UNKNOWN: &[Wrong] = of_one!(BlockWrite, commanded:
    "keeps the rows by an unknown command" => |command, before, after| if unknown(command) {
        after.rows = before.rows.clone();
    },
    "keeps the lateness by an unknown command" => |command, before, after| if unknown(command) {
        after.lateness = before.lateness;
    },
    "keeps the number by an unknown command" => |command, before, after| if unknown(command) {
        after.number = before.number;
    },
    "keeps the number by command 0" => |command, before, after| if command == 0 {
        after.number = before.number;
    },
    "sets no flag by an unknown command" => |command, _, after| if unknown(command) {
        after.refused = false;
    },
    "sets done by an unknown command" => |command, _, after| if unknown(command) {
        (after.done, after.refused) = (true, false);
    },
    "sets no interrupt by an unknown command" => |command, before, after| if unknown(command) {
        after.interrupt = before.interrupt;
    },
    "tells 12 by an unknown command" => |command, _, after| if unknown(command) {
        after.number = 12;
    },
    "tells an unknown command by its own number" => |command, _, after| if unknown(command) {
        after.number = command;
    },
    "takes command 0 for none" => |command, before, after| if command == 0 {
        *after = before.clone();
    },
    "takes an unknown command for none" => |command, before, after| if unknown(command) {
        *after = before.clone();
    },
    "takes command 255 for none" => |command, before, after| if command == 255 {
        *after = before.clone();
    },
    "clears by command 4" => |command, _, after| if command == 4 {
        *after = Block::cleared();
    },
    "looks at the low bits of a command" => |command, before, after| if unknown(command) {
        *after = before.clone();
        after.write(0, command % 4);
    },
    "looks at the low seven bits of a command" => |command, before, after| if unknown(command) {
        *after = before.clone();
        after.write(0, command % 128);
    },
);

const FLAGS: &[Wrong] = of_one!(BlockWrite, commanded:
    "sets done too where it is refused" => |_, _, after| after.done = true,
    "sets refused too where it is done" => |_, _, after| after.refused = true,
    "keeps done where it is refused" => |_, before, after| after.done |= before.done,
    "keeps refused where it is done" => |_, before, after| after.refused |= before.refused,
    "sets no flag where it is refused" => |_, _, after| after.refused = false,
    "sets no flag where it is done" => |_, _, after| after.done = false,
    "sets refused in place of done" => |_, _, after| {
        (after.done, after.refused) = (after.refused, after.done);
    },
);

const INTERRUPTS: &[Wrong] = of_one!(BlockWrite, commanded:
    "clears the interrupt first" => |_, _, after| after.interrupt = after.allowed,
    "clears the interrupt where it is allowed" => |_, _, after| after.interrupt &= !after.allowed,
    "sets the interrupt though not allowed" => |_, _, after| after.interrupt = true,
    "sets the interrupt where it is not allowed" => |_, before, after| {
        after.interrupt = before.interrupt || !after.allowed;
    },
    "sets no interrupt though allowed" => |_, before, after| after.interrupt = before.interrupt,
    "sets the interrupt where it is done alone" => |_, before, after| if after.refused {
        after.interrupt = before.interrupt;
    },
    "sets the interrupt where it is refused alone" => |_, before, after| if after.done {
        after.interrupt = before.interrupt;
    },
    "turns the interrupt over" => |_, before, after| {
        after.interrupt = before.interrupt != after.allowed;
    },
    "takes the leave away with the interrupt" => |_, _, after| after.allowed = false,
    "allows the interrupt by a command" => |_, _, after| after.allowed = true,
);

const CLEARED: &[Wrong] = of_one!(BlockWrite, commanded:
    "keeps the lateness where it is refused" => |_, before, after| if after.refused {
        after.lateness = before.lateness;
    },
    "shows the bound as lateness where it is refused" => |_, _, after| if after.refused {
        after.lateness = after.bound;
    },
    "keeps the number where it is done" => |_, before, after| if after.done {
        after.number = before.number;
    },
    "keeps the rows where it is refused" => |command, before, after| {
        if after.refused && !unknown(command) {
            after.rows = before.rows.clone();
        }
    },
    "keeps the rows where the bound is too tight" => |_, before, after| if after.number == 10 {
        after.rows = before.rows.clone();
    },
    "keeps the rows behind a shorter plan" => |_, before, after| if after.done {
        let held = held(after);
        after.rows[held..].copy_from_slice(&before.rows[held..]);
    },
    "clears the bound" => |_, _, after| after.bound = 0,
    "clears the length" => |_, _, after| after.length = 0,
    "clears the row number" => |_, _, after| after.row = 0,
    "clears the file" => |_, _, after| after.file.fill(0),
    "sets the row number to 1" => |_, _, after| after.row = 1,
    "puts the least lateness into the bound" => |command, _, after| if command == 2 && after.done {
        after.bound = after.lateness;
    },
);

const ROWS: &[Wrong] = of_one!(BlockWrite, commanded:
    "holds no row" => |_, _, after| after.rows.clear(),
    "holds a row less" => |_, _, after| if after.done {
        let held = held(after);
        after.rows[held - 1] = [0; 4];
    },
    "holds the first row twice" => |_, _, after| if after.done {
        let held = held(after);
        after.rows[held] = after.rows[0];
    },
    "holds rows from the second place on" => |_, _, after| after.rows.rotate_right(1),
    "holds rows in another order" => |_, _, after| if after.done {
        let held = held(after);
        after.rows[..held].reverse();
    },
    "holds rows that are not joined" => |_, _, after| if after.done {
        after.rows = not_joined(after);
    },
    "holds another right plan than a screen is told" => |_, _, after| if after.done {
        after.rows = another(after);
    },
    "numbers jobs from 0" => |_, _, after| each_row(after, |row| row[0] -= 1),
    "numbers processors from 0" => |_, _, after| each_row(after, |row| row[1] -= 1),
    "has rows with the processor first" => |_, _, after| each_row(after, |row| row.swap(0, 1)),
    "has rows with the end first" => |_, _, after| each_row(after, |row| row.swap(2, 3)),
    "has rows with their length for an end" => |_, _, after| {
        each_row(after, |row| row[3] -= row[2]);
    },
    "holds the rows of a longer time" => |_, _, after| each_row(after, |row| row[3] += 1),
    "holds rows that begin a minute later" => |_, _, after| each_row(after, |row| {
        row[2] += 1;
        row[3] += 1;
    }),
);

const OTHERS: &[Wrong] = of_one!(BlockWrite, commanded:
    "has the lateness big-endian" => |_, _, after| after.lateness = after.lateness.swap_bytes(),
    "has the lateness without its sign" => |_, _, after| after.lateness = after.lateness.abs(),
    "has the lateness in 8 bits" => |_, _, after| after.lateness = (after.lateness as u8).into(),
    "has the lateness in 16 bits" => |_, _, after| after.lateness = (after.lateness as i16).into(),
    "uses the least lateness at a bound" => |command, before, after| if command == 1 && after.done {
        let mut other = before.clone();
        other.write(0, 2);
        after.lateness = other.lateness;
    },
    "uses the bound at the least lateness" => |command, _, after| if command == 2 && after.done {
        after.lateness = after.bound;
    },
    "uses one minute more" => |_, _, after| if after.done {
        after.lateness += 1;
    },
);

/// How many rows a block holds.
fn held(block: &Block) -> usize {
    let none = block.rows.iter().position(|row| row[0] == 0);
    none.unwrap_or(block.rows.len())
}

fn each_row(block: &mut Block, change: fn(&mut Row)) {
    let held = held(block);
    block.rows[..held].iter_mut().for_each(change);
}

/// The rows of the same lateness as they are laid out stretch by stretch.
fn not_joined(block: &Block) -> Vec<Row> {
    let order = block.order().expect("an order that was planned");
    let bound = block.lateness.into();
    let amounts = amounts(&order, bound).expect("a bound that is met");
    layout(&order, bound, &amounts).concat()
}

/// The rows of other amounts for the same lateness: those found with the jobs turned round.
fn another(block: &Block) -> Vec<Row> {
    let order = block.order().expect("an order that was planned");
    let bound = block.lateness.into();
    let mut turned = order.clone();
    turned.jobs.reverse();
    let mut amounts = amounts(&turned, bound).expect("a bound that is met");
    amounts.iter_mut().for_each(|stretch| stretch.reverse());
    joined(&order, bound, &amounts)
}
