//! The forms in which a library is wrong with a register block: in what a write leaves, in what a command comes to,
//! in the byte that is read. And wrong in a clear, of either kind: "Clear makes all bytes 0."

use super::Wrong;
use crate::expect::block::{laid, lying};
use crate::independent::{Block, Outcome, Row};
use crate::lent::{held_numbers, Call};
use crate::library::{Function, BLOCK_BYTES, BLOCK_ROWS};
use crate::model::MODEL;

pub const PARTS: &[&[Wrong]] = &[CLEARS];

/// What a call found, and a change of what it left.
pub type Left = fn(&Call, &mut Call);
/// A command, the block that it found, and a change of the one that it left.
pub type Ended = fn(u8, &Block, &mut Block);
/// What a command, 1 or 2, comes to with a block, and the rows that it holds then.
pub type Came = fn(u8, &Block) -> (Outcome, Vec<Row>);
/// What is lent to a read, and the byte that it should answer; another answer.
pub type Seen = fn(&Call, i32) -> i32;

const CLEARS: &[Wrong] = of_these!([BlockClear, BlockWrite], clears, Left:
    "keeps the leave to interrupt by a clear" => |before, after| keep(before, after, 3, 1),
    "keeps the rows by a clear" => |before, after| after.rows = before.rows.clone(),
    "keeps the last row by a clear" => |before, after| {
        let last = BLOCK_ROWS - 4..BLOCK_ROWS;
        after.rows.content_mut()[last.clone()].copy_from_slice(&before.rows.content()[last]);
    },
    "keeps the flags by a clear" => |before, after| keep(before, after, 1, 1),
    "keeps the interrupt by a clear" => |before, after| {
        after.block.content_mut()[1] = before.block.content()[1] & 4;
    },
    "keeps the number by a clear" => |before, after| keep(before, after, 2, 1),
    "keeps the bound by a clear" => |before, after| keep(before, after, 4, 4),
    "keeps the length by a clear" => |before, after| keep(before, after, 8, 2),
    "keeps the row number by a clear" => |before, after| keep(before, after, 10, 2),
    "keeps the lateness by a clear" => |before, after| keep(before, after, 12, 4),
    "keeps the file by a clear" => |before, after| keep(before, after, 32, 220),
    "keeps the file's last byte by a clear" => |before, after| keep(before, after, 251, 1),
    "keeps what lies in byte 0 by a clear" => |before, after| keep(before, after, 0, 1),
    "keeps what lies in bytes 16 to 31 by a clear" => |before, after| keep(before, after, 16, 16),
    "keeps what lies in bytes 252 to 255 by a clear" => |before, after| {
        keep(before, after, 252, 4);
    },
    "raises the interrupt by a clear" => |_, after| after.block.content_mut()[1] = 4,
    "raises the interrupt by a clear if allowed" => |before, after| {
        after.block.content_mut()[1] = 4 * (before.block.content()[3] & 1);
    },
    "sets done by a clear" => |_, after| after.block.content_mut()[1] = 1,
    "sets refused by a clear" => |_, after| after.block.content_mut()[1] = 2,
    "allows the interrupt by a clear" => |_, after| after.block.content_mut()[3] = 1,
    "clears what is lent beyond the bytes" => |_, after| {
        after.block.content_mut()[BLOCK_BYTES..].fill(0);
    },
    "clears what is lent beyond the rows" => |_, after| {
        after.rows.content_mut()[BLOCK_ROWS..].fill(0);
    },
);

/// A clear by either function, then a change.
fn clears(function: Function, call: &mut Call, change: Left) -> u32 {
    let before = call.clone();
    let result = MODEL.entry(function)(call);
    let command = (call.address, call.value) == (0, 3);
    if result == 0 && (function == Function::BlockClear || command) {
        change(&before, call);
    }
    result
}

/// So many bytes from an address on are as they were.
pub fn keep(before: &Call, after: &mut Call, from: usize, count: usize) {
    let kept = &before.block.content()[from..from + count];
    after.block.content_mut()[from..from + count].copy_from_slice(kept);
}

/// A write that is taken, then a change.
pub fn wrote(call: &mut Call, change: Left) -> u32 {
    let before = call.clone();
    let result = (MODEL.block_write)(call);
    if result == 0 {
        change(&before, call);
    }
    result
}

/// A command but 3, then a change of the block.
pub fn commanded(call: &mut Call, change: Ended) -> u32 {
    let before = call.clone();
    let result = (MODEL.block_write)(call);
    if result == 0 && before.address == 0 && before.value != 3 {
        let mut block = lying(call);
        change(before.value, &lying(&before), &mut block);
        lay(call, &block);
    }
    result
}

/// A command 1 or 2 that comes to something else.
pub fn comes_to(call: &mut Call, came: Came) -> u32 {
    let enough = call.block.len() >= BLOCK_BYTES && call.rows.len() >= BLOCK_ROWS;
    if !enough || call.address != 0 || ![1, 2].contains(&call.value) {
        return (MODEL.block_write)(call);
    }
    let mut block = lying(call);
    let (outcome, rows) = came(call.value, &block);
    block.end(outcome, rows);
    lay(call, &block);
    0
}

/// Puts a block where another one lay.
fn lay(call: &mut Call, block: &Block) {
    let bytes = laid(block, call.block.content());
    call.block.put(&bytes);
    call.rows.put(&held_numbers(&block.rows));
}

/// A read that answers another byte.
pub fn sees(call: &mut Call, seen: Seen) -> u32 {
    let result = (MODEL.block_read)(call);
    if result == 0 {
        let byte = seen(call, call.answer.content()[0]);
        call.answer.put(&[byte]);
    }
    result
}

/// A read that changes something besides.
pub fn read_leaves(call: &mut Call, change: Left) -> u32 {
    let before = call.clone();
    let result = (MODEL.block_read)(call);
    if result == 0 {
        change(&before, call);
    }
    result
}
