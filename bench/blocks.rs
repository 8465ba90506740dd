//! A register block that has an order's file, its length, a bound and row number 1, and in which command 2
//! has run.

use crate::plain;

/// The bytes of a file that a block has room for.
pub const FILE_ROOM: usize = 220;

#[derive(Clone, Debug, PartialEq)]
pub struct Block {
    pub bytes: [u8; 256],
    pub rows: [u32; 720],
}

impl Block {
    pub fn cleared() -> Block {
        Block {
            bytes: [0; 256],
            rows: [0; 720],
        }
    }
}

/// The writes that store them, address and value of each; of a longer file what there is room for.
pub fn writes(file: &[u8], bound: i32) -> Vec<(u8, u8)> {
    let bound = (4..).zip(bound.to_le_bytes());
    let length = (8..).zip((file.len() as u16).to_le_bytes());
    let row = (10..).zip([1, 0]);
    let file = (32..).zip(file.iter().copied()).take(FILE_ROOM);
    bound.chain(length).chain(row).chain(file).collect()
}

pub fn planned(file: &[u8], bound: i32) -> Block {
    let mut block = Block::cleared();
    for (address, value) in writes(file, bound).into_iter().chain([(0, 2)]) {
        plain::block_write(&mut block.bytes, &mut block.rows, address, value);
    }
    block
}
