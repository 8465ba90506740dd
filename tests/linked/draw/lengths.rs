//! Lengths of lent buffers: around what the header asks for, on both sides. Lengths of 256 and of
//! 65,536 look like none to whoever counts in 8 or 16 bits.

use super::Random;
use crate::independent::{MAKERS, MOST_ROWS};
use crate::library::{Function, CLASS_NUMBERS, REASON_NUMBERS};

/// Mostly enough room for the answer: exactly, or more; sometimes none, or one number too few.
pub fn answer_length(random: &mut Random, function: Function) -> usize {
    let exact = function.answer_length();
    match random.below(24) {
        0 => 0,
        1 => exact - 1,
        2..=5 => exact + 1 + random.below(5),
        6 => random.pick(&[256, 256, 256, 65_536]),
        _ => exact,
    }
}

/// Mostly enough room for the rows: exactly, with one to three numbers left over, or more;
/// sometimes none, or a row or one number of a row too few.
pub fn room(random: &mut Random, asked: usize) -> usize {
    let exact = 4 * asked;
    match random.below(16) {
        0 => 0,
        1 => exact - 4,
        2 => exact - 1,
        3..=6 => exact + 1 + random.below(3),
        7..=8 => exact + random.below(50),
        9 => random.pick(&[4 * MOST_ROWS, 4 * MOST_ROWS, 65_536]),
        _ => exact,
    }
}

/// Mostly enough room for a file of this length: exactly, or more; sometimes one byte or more too
/// few.
pub fn file_room(random: &mut Random, exact: usize) -> usize {
    match random.below(8) {
        0 => exact - 1,
        1 => random.below(exact),
        2..=3 => exact + 1 + random.below(20),
        4 => exact.max(844),
        _ => exact,
    }
}

/// Room for a line of this length, which may be 0: exactly, or more; sometimes one byte or more too
/// few, or none.
pub fn line_room(random: &mut Random, exact: usize) -> usize {
    match random.below(12) {
        0 => 0,
        1..=2 => exact.saturating_sub(1),
        3 => random.below(exact + 1),
        4..=5 => exact + 1,
        6 => exact + random.below(200),
        7 => 541,
        8 => random.pick(&[256, 256, 256, 65_536]),
        _ => exact,
    }
}

/// Room for an order whose file has this length: exactly, or more; sometimes one byte or more too few, or
/// none.
pub fn order_room(random: &mut Random, exact: usize) -> usize {
    match random.below(12) {
        0 => 0,
        1 => exact - 1,
        2 => random.below(exact),
        3..=4 => exact + 1,
        5 => exact + random.below(200),
        6 => exact.max(844),
        7 => random.pick(&[256, 256, 256, 65_536]),
        _ => exact,
    }
}

/// Mostly the counts of a book and no more; sometimes none, or some too few, or others after them.
pub fn book_length(random: &mut Random) -> usize {
    match random.below(32) {
        0 => 0,
        1 => MAKERS - 1,
        2 => random.below(MAKERS),
        3..=8 => MAKERS + 1,
        9..=11 => MAKERS + random.below(20),
        12 => random.pick(&[256, 256, 256, 65_536]),
        _ => MAKERS,
    }
}

/// Mostly room for 16 classes and no more; sometimes none, or some numbers too few, though they may be
/// enough for an order's classes, or more.
pub fn class_room(random: &mut Random) -> usize {
    match random.below(24) {
        0 => 0,
        1 => CLASS_NUMBERS - 1,
        2 => random.below(CLASS_NUMBERS),
        3..=5 => CLASS_NUMBERS + 1,
        6..=8 => CLASS_NUMBERS + random.below(40),
        9 => random.pick(&[256, 256, 256, 65_536]),
        _ => CLASS_NUMBERS,
    }
}

/// Mostly the numbers of a reason and no more; sometimes none, or one too few, or others after
/// them.
pub fn reason_length(random: &mut Random) -> usize {
    match random.below(24) {
        0 => 0,
        1 => REASON_NUMBERS - 1,
        2..=4 => REASON_NUMBERS + 1,
        5 => REASON_NUMBERS + random.below(10),
        6 => random.pick(&[256, 256, 256, 65_536]),
        _ => REASON_NUMBERS,
    }
}

/// Mostly enough room for so many needs: exactly, or more; sometimes none, or one or more too few.
pub fn need_room(random: &mut Random, exact: usize) -> usize {
    match random.below(16) {
        0 => 0,
        1 => exact.saturating_sub(1),
        2 => random.below(exact + 1),
        3..=5 => exact + 1,
        6..=7 => exact + random.below(50),
        8 => random.pick(&[256, 256, 256, 65_536]),
        _ => exact,
    }
}

/// Mostly so many ready minutes, numbers of windows, or highs, as there must be; sometimes none, or some
/// too few, or too many, or as many as an order may need at most.
pub fn times_length(random: &mut Random, exact: usize) -> usize {
    match random.below(96) {
        0 => 0,
        1 => exact.saturating_sub(1),
        2 => exact + 1,
        3 => exact / 2,
        4 => 2 * exact,
        5 => exact + random.pick(&[256, 256, 256, 65_536]),
        6 => random.pick(&[16, 32, 48, 96]),
        _ => exact,
    }
}
