//! Wrong in the length and in the bound that a command judges, and in the room for rows: "A file length over 220 gives
//! 12." Command 2 does not look at the bound.

use super::block::comes_to;
use super::Wrong;
use crate::independent::{
    least, lists, plan, read_within, rows_asked, Block, Limits, Order, Outcome, Refusal, Row,
    SCREEN,
};
use crate::library::Function;
use std::ops::RangeInclusive;

pub const PARTS: &[&[Wrong]] = &[LENGTHS, BOUNDS, ROOM];

pub const RANGE: RangeInclusive<i32> = -10_000_000..=10_000_000;

const LENGTHS: &[Wrong] = of_one!(BlockWrite, comes_to:
    "takes a length of 221 for 220" => |command, block| {
        let length = if block.length == 221 { 220 } else { block.length };
        right(command, &Block { length, ..block.clone() })
    },
    "takes every longer length for 220" => |command, block| {
        let length = block.length.min(220);
        right(command, &Block { length, ..block.clone() })
    },
    "looks at the first byte of the length alone" => |command, block| {
        let length = block.length % 256;
        right(command, &Block { length, ..block.clone() })
    },
    "has the length big-endian" => |command, block| {
        let length = block.length.swap_bytes();
        right(command, &Block { length, ..block.clone() })
    },
    "takes the length for a signed number" => |command, block| {
        let length = (block.length as i16).max(0) as u16 + (block.length >> 15) * 32;
        right(command, &Block { length, ..block.clone() })
    },
    "refuses a length of 220" => |command, block| match block.length {
        220 => (Outcome::Refused(12), Vec::new()),
        _ => right(command, block),
    },
    "takes 220 for every length" => |command, block| {
        right(command, &Block { length: 220, ..block.clone() })
    },
    "takes a length that is one too short" => |command, block| {
        let length = block.length + u16::from(block.length % 4 == 3);
        right(command, &Block { length, ..block.clone() })
    },
    "takes a length that is up to three too long" => |command, block| {
        let length = if block.length > 220 { block.length } else { block.length / 4 * 4 };
        right(command, &Block { length, ..block.clone() })
    },
    "tells 9 of a longer length" => |command, block| match block.length {
        221.. => (Outcome::Refused(9), Vec::new()),
        _ => right(command, block),
    },
    "tells 0 of a longer length" => |command, block| match block.length {
        221.. => (Outcome::Refused(0), Vec::new()),
        _ => right(command, block),
    },
);

const BOUNDS: &[Wrong] = of_one!(BlockWrite, comes_to:
    "judges the bound by command 2" => |command, block| match right(command, block) {
        (Outcome::AtLeast(_), _) if !RANGE.contains(&block.bound) => told(8),
        came => came,
    },
    "judges by command 2 whether the bound is met" => |command, block| match right(command, block) {
        (Outcome::AtLeast(least), _) if block.bound < least => told(10),
        came => came,
    },
    "tells 8 before a bad file" => |command, block| match block.length {
        _ if command == 1 && !RANGE.contains(&block.bound) => told(8),
        _ => right(command, block),
    },
    "tells 8 before a longer length" => |command, block| match block.length {
        221.. if command == 1 && !RANGE.contains(&block.bound) => told(8),
        _ => right(command, block),
    },
    "tells 8 before the order" => |command, block| match lists(block.order_file().unwrap_or(&[])) {
        Some(_) if command == 1 && !RANGE.contains(&block.bound) => told(8),
        _ => right(command, block),
    },
    "takes any bound" => |command, block| by_bound(command, block, i32::MIN..=i32::MAX),
    "takes a bound of 10,000,001" => |command, block| {
        by_bound(command, block, -10_000_000..=10_000_001)
    },
    "takes a bound of -10,000,001" => |command, block| {
        by_bound(command, block, -10_000_001..=10_000_000)
    },
    "takes no bound of 10,000,000" => |command, block| {
        by_bound(command, block, -10_000_000..=9_999_999)
    },
    "takes no bound of -10,000,000" => |command, block| {
        by_bound(command, block, -9_999_999..=10_000_000)
    },
    "takes no negative bound" => |command, block| by_bound(command, block, 0..=10_000_000),
    "has the bound big-endian" => |command, block| {
        let bound = block.bound.swap_bytes();
        right(command, &Block { bound, ..block.clone() })
    },
    "has the bound in 8 bits" => |command, block| {
        let bound = (block.bound as i8).into();
        right(command, &Block { bound, ..block.clone() })
    },
    "has the bound in 16 bits" => |command, block| {
        let bound = (block.bound as i16).into();
        right(command, &Block { bound, ..block.clone() })
    },
    "has the bound in 24 bits" => |command, block| {
        let bound = block.bound << 8 >> 8;
        right(command, &Block { bound, ..block.clone() })
    },
    "plans at the least by command 1" => |command, block| match right(command, block) {
        (Outcome::AtBound(_), _) => right(2, block),
        came => came,
    },
    "plans a tight bound at the least" => |command, block| match right(command, block) {
        (Outcome::Refused(10), _) => right(2, block),
        came => came,
    },
    "plans at the bound by command 2" => |_, block| right(1, block),
    "plans at the bound but tells the least" => |command, block| match right(command, block) {
        (Outcome::AtLeast(least), rows) => {
            let (_, at_bound) = right(1, block);
            (Outcome::AtLeast(least), if at_bound.is_empty() { rows } else { at_bound })
        }
        came => came,
    },
    "meets a bound one below the least" => |command, block| match right(command, block) {
        (Outcome::Refused(10), _) if right(1, &later(block)).0 != Outcome::Refused(10) => {
            let (_, rows) = right(1, &later(block));
            (Outcome::AtBound(block.bound), rows)
        }
        came => came,
    },
    "calls the least itself too tight" => |command, block| match right(command, block) {
        (Outcome::AtBound(bound), _) if right(2, block).0 == Outcome::AtLeast(bound) => told(10),
        came => came,
    },
);

/// A plan needs room for as many rows as its order asks for, and there is room for 180.
const ROOM: &[Wrong] = of_one!(BlockWrite, comes_to:
    "tells 9 where 180 rows are asked for" => |command, block| short_of(command, block, 179),
    "tells 9 where over 63 rows are asked for" => |command, block| short_of(command, block, 63),
    "refuses every order" => |command, block| match right(command, block) {
        (Outcome::Refused(number), _) => told(number),
        _ => told(10),
    },
);

pub fn told(number: u8) -> (Outcome, Vec<Row>) {
    (Outcome::Refused(number), Vec::new())
}

/// What a command must come to.
pub fn right(command: u8, block: &Block) -> (Outcome, Vec<Row>) {
    within(command, block, &SCREEN)
}

/// The same by other limits.
pub fn within(command: u8, block: &Block, limits: &Limits) -> (Outcome, Vec<Row>) {
    let file = block.order_file().ok_or(Refusal { number: 12, job: 0 });
    match file.and_then(|file| read_within(limits, file)) {
        Ok(order) => at(command, block, &order, RANGE),
        Err(refusal) => told(refusal.number as u8),
    }
}

/// The same with bounds of another range.
fn by_bound(command: u8, block: &Block, range: RangeInclusive<i32>) -> (Outcome, Vec<Row>) {
    match block.order() {
        Ok(order) => at(command, block, &order, range),
        Err(number) => told(number),
    }
}

/// An order that is taken, planned by a command.
pub fn at(
    command: u8,
    block: &Block,
    order: &Order,
    range: RangeInclusive<i32>,
) -> (Outcome, Vec<Row>) {
    let least = least(order);
    let outcome = match command {
        2 => Outcome::AtLeast(least),
        _ if !range.contains(&block.bound) => return told(8),
        _ if block.bound < least => return told(10),
        _ => Outcome::AtBound(block.bound),
    };
    let bound = outcome.planned_at().unwrap_or(least).min(*RANGE.end());
    (outcome, plan(order, bound).unwrap_or_default())
}

/// 9 where more rows than this are asked for.
fn short_of(command: u8, block: &Block, most: usize) -> (Outcome, Vec<Row>) {
    match block.order() {
        Ok(order) if rows_asked(&order) > most => told(9),
        _ => right(command, block),
    }
}

/// The block with its bound one later.
fn later(block: &Block) -> Block {
    Block {
        bound: block.bound.saturating_add(1),
        ..block.clone()
    }
}
