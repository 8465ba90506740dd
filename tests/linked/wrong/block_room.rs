//! Wrong in the lengths that a block is lent with, and in what is touched besides: 255 first, then 253 under 256 bytes
//! or 720 numbers; "other lent memory never" changes.

use super::block::Left;
use super::untimed::Change;
use super::Wrong;
use crate::lent::Call;
use crate::library::{Function, BLOCK_BYTES, BLOCK_ROWS};
use crate::model::MODEL;

pub const PARTS: &[&[Wrong]] = &[ASKED, ANSWERS, SHORT, SHORT_ANSWERS, BEYOND];

/// Whether bytes and numbers of these lengths are enough.
type Enough = fn(usize, usize) -> bool;
/// Another result for this one.
type Told = fn(&Call, u32) -> u32;

const ASKED: &[Wrong] = of_these!([BlockClear, BlockWrite, BlockRead], asks, Enough:
    "takes 255 bytes" => |bytes, numbers| bytes >= 255 && numbers >= 720,
    "takes 252 bytes" => |bytes, numbers| bytes >= 252 && numbers >= 720,
    "takes 719 numbers" => |bytes, numbers| bytes >= 256 && numbers >= 719,
    "takes 716 numbers" => |bytes, numbers| bytes >= 256 && numbers >= 716,
    "takes any bytes" => |_, numbers| numbers >= 720,
    "takes any numbers" => |bytes, _| bytes >= 256,
    "takes either" => |bytes, numbers| bytes >= 256 || numbers >= 720,
    "asks for 257 bytes" => |bytes, numbers| bytes >= 257 && numbers >= 720,
    "asks for 721 numbers" => |bytes, numbers| bytes >= 256 && numbers >= 721,
    "takes no more than 256 bytes" => |bytes, numbers| bytes == 256 && numbers >= 720,
    "takes no more than 720 numbers" => |bytes, numbers| bytes >= 256 && numbers == 720,
    "asks for 720 bytes and 256 numbers" => |bytes, numbers| bytes >= 720 && numbers >= 256,
    "counts numbers in bytes" => |bytes, numbers| bytes >= 256 && numbers >= 2_880,
    "counts bytes in 16 bits" => |bytes, numbers| bytes as u16 >= 256 && numbers >= 720,
    "counts numbers in 16 bits" => |bytes, numbers| bytes >= 256 && numbers as u16 >= 720,
    "adds both lengths" => |bytes, numbers| bytes + numbers >= 976,
);

const ANSWERS: &[Wrong] = of_these!([BlockRead], tells, Told:
    "tells no short answer" => |call, told| match told {
        255 if call.block.len() >= BLOCK_BYTES && call.rows.len() >= BLOCK_ROWS => 0,
        _ => told,
    },
    "tells a short block before a short answer" => |call, told| match told {
        255 if call.block.len() < BLOCK_BYTES => 253,
        _ => told,
    },
    "tells short rows before a short answer" => |call, told| match told {
        255 if call.rows.len() < BLOCK_ROWS => 253,
        _ => told,
    },
    "asks for an answer of 2" => |call, told| if call.answer.len() < 2 { 255 } else { told },
    "takes no answer over 1" => |call, told| if call.answer.len() > 1 { 255 } else { told },
    "answers the byte as its result" => |call, told| match told {
        0 => {
            let mut other = call.clone();
            (MODEL.block_read)(&mut other);
            other.answer.content()[0] as u32
        }
        _ => told,
    },
    "tells 9 of a short block" => |_, told| if told == 253 { 9 } else { told },
);

const SHORT: &[Wrong] = of_these!([BlockClear, BlockWrite, BlockRead], refused_leaves, Change:
    "clears short rows" => |call| call.rows.content_mut().fill(0),
    "writes into short rows" => |call| call.rows.content_mut().iter_mut().for_each(|one| *one ^= 1),
    "clears a short block" => |call| call.block.content_mut().fill(0),
    "sets refused in a short block" => |call| {
        if let Some(flags) = call.block.content_mut().get_mut(1) {
            *flags ^= 2;
        }
    },
    "tells 253 in byte 2" => |call| {
        if let Some(number) = call.block.content_mut().get_mut(2) {
            *number = 253;
        }
    },
    "touches the guard after a short block" => |call| *call.block.after_mut() ^= 1,
);

const SHORT_ANSWERS: &[Wrong] = of_these!([BlockRead], refused_leaves, Change:
    "writes its answer where the block is short" => |call| {
        if let Some(first) = call.answer.content_mut().first_mut() {
            *first = 0;
        }
    },
    "writes a short answer" => |call| if call.answer.len() == 0 {
        *call.answer.after_mut() = 0;
    },
);

const BEYOND: &[Wrong] = of_these!([BlockClear, BlockWrite, BlockRead], leaves, Left:
    "changes a byte beyond" => |_, call| {
        if let Some(beyond) = call.block.content_mut().get_mut(BLOCK_BYTES) {
            *beyond ^= 1;
        }
    },
    "changes the last byte beyond" => |_, call| {
        if let Some(beyond) = call.block.content_mut()[BLOCK_BYTES..].last_mut() {
            *beyond ^= 1;
        }
    },
    "changes a number beyond" => |_, call| {
        if let Some(beyond) = call.rows.content_mut().get_mut(BLOCK_ROWS) {
            *beyond ^= 1;
        }
    },
    "changes the last number beyond" => |_, call| {
        if let Some(beyond) = call.rows.content_mut()[BLOCK_ROWS..].last_mut() {
            *beyond ^= 1;
        }
    },
    "touches the guard after the block" => |_, call| *call.block.after_mut() ^= 1,
    "touches the guard before the block" => |_, call| *call.block.before_mut() ^= 1,
    "touches the guard after the rows" => |_, call| *call.rows.after_mut() ^= 1,
    "touches the guard before the rows" => |_, call| *call.rows.before_mut() ^= 1,
    "touches the guard after the answer" => |_, call| *call.answer.after_mut() ^= 1,
    "touches the guard before the answer" => |_, call| *call.answer.before_mut() ^= 1,
);

/// 253 by another rule; what then lacks is touched by none.
fn asks(function: Function, call: &mut Call, enough: Enough) -> u32 {
    let (bytes, numbers) = (call.block.len(), call.rows.len());
    let result = match call.answer.len() < function.answer_length() {
        true => 255,
        false if enough(bytes, numbers) => 0,
        false => 253,
    };
    let right = MODEL.entry(function)(&mut call.clone());
    match (result, right) {
        (0, 0) => MODEL.entry(function)(call),
        _ => result,
    }
}

/// Another result; nothing is touched where there is one.
fn tells(function: Function, call: &mut Call, told: Told) -> u32 {
    let right = MODEL.entry(function)(&mut call.clone());
    let other = told(call, right);
    match other == right {
        true => MODEL.entry(function)(call),
        false => other,
    }
}

/// A change where the call is refused.
fn refused_leaves(function: Function, call: &mut Call, change: Change) -> u32 {
    let result = MODEL.entry(function)(call);
    if result != 0 {
        change(call);
    }
    result
}

/// A change where the call is taken.
fn leaves(function: Function, call: &mut Call, change: Left) -> u32 {
    let before = call.clone();
    let result = MODEL.entry(function)(call);
    if result == 0 {
        change(&before, call);
    }
    result
}
