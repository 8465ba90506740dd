//! What a call with a register block must do, and how a block lies in what is lent: each byte that keeps something
//! lies at its address, the rows held are the numbers. The other bytes, and the bits that the request does not
//! name, are as they were lent until a clear. Memory that was never cleared is a block too, whatever is in it.

use super::{refused, Expected, Known};
use crate::independent::{Block, Order, Outcome, SCREEN};
use crate::lent::{rows_of, Call};
use crate::library::{Function, BLOCK_BYTES, BLOCK_ROWS};

pub fn blocked(function: Function, call: &Call, known: &mut Known) -> Expected {
    if call.block.len() < BLOCK_BYTES || call.rows.len() < BLOCK_ROWS {
        return refused(253, 0);
    }
    match function {
        Function::BlockRead => Expected::Answer(vec![lying(call).read(call.address).into()]),
        Function::BlockWrite => written(call, known),
        _ => cleared(),
    }
}

fn cleared() -> Expected {
    Expected::Block {
        bytes: vec![0; BLOCK_BYTES],
        outcome: Some(Outcome::Cleared),
    }
}

/// The least lateness is found once for each file; which rows are held is compared on its own.
fn written(call: &Call, known: &mut Known) -> Expected {
    let mut block = lying(call);
    let mut outcome = None;
    if call.address == 0 {
        let least = |_: &Order| {
            known.turn_to(&SCREEN, block.order_file().unwrap_or_default());
            known.least()
        };
        let ended = block.outcome(call.value, least);
        block.end(ended, Vec::new());
        outcome = Some(ended);
    } else {
        block.store(call.address, call.value);
    }
    match outcome {
        Some(Outcome::Cleared) => cleared(),
        _ => Expected::Block {
            bytes: laid(&block, call.block.content()),
            outcome,
        },
    }
}

/// The block that lies in lent memory of enough length.
pub fn lying(call: &Call) -> Block {
    let bytes = call.block.content();
    let bit = |address: usize, number: u8| bytes[address] >> number & 1 == 1;
    Block {
        done: bit(1, 0),
        refused: bit(1, 1),
        interrupt: bit(1, 2),
        allowed: bit(3, 0),
        number: bytes[2],
        bound: i32::from_le_bytes(part(bytes, 4)),
        length: u16::from_le_bytes(part(bytes, 8)),
        row: u16::from_le_bytes(part(bytes, 10)),
        lateness: i32::from_le_bytes(part(bytes, 12)),
        rows: rows_of(&call.rows.content()[..BLOCK_ROWS]),
        file: part(bytes, 32),
    }
}

fn part<const N: usize>(bytes: &[u8], from: usize) -> [u8; N] {
    let part = bytes[from..from + N].try_into();
    part.expect("a block of 256 bytes")
}

/// The bytes in which a block lies after a write that found these.
pub fn laid(block: &Block, before: &[u8]) -> Vec<u8> {
    let both = (0..=255).zip(before);
    both.map(|(address, before)| {
        let kept = kept_bits(address);
        before & kept | block.read(address) & !kept
    })
    .collect()
}

/// The bits at an address in which nothing of a block lies.
pub fn kept_bits(address: u8) -> u8 {
    match address {
        1 => !7,
        3 => !1,
        2 | 4..=15 | 32..=251 => 0,
        0 | 16..=31 | 252..=255 => !0,
    }
}
