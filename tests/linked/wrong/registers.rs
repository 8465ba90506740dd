//! Wrong in what a write that is neither a command nor to flags keeps: bytes that are kept, what is held beside them,
//! and "bytes 2, 12 to 31 and 252 to 255", to which writes "do nothing".

use super::block::{keep, wrote};
use super::Wrong;
use crate::lent::Call;
use crate::library::{Function, BLOCK_ROWS};

pub const PARTS: &[&[Wrong]] = &[READ_ONLY, KEPT, BESIDE];

const READ_ONLY: &[Wrong] = of_one!(BlockWrite, wrote:
    "stores byte 2" => |before, after| store(before, after, 2, 2),
    "stores bytes 12 to 15" => |before, after| store(before, after, 12, 15),
    "stores byte 12" => |before, after| store(before, after, 12, 12),
    "stores byte 15" => |before, after| store(before, after, 15, 15),
    "stores bytes 16 to 31" => |before, after| store(before, after, 16, 31),
    "stores byte 31" => |before, after| store(before, after, 31, 31),
    "stores bytes 12 to 31" => |before, after| store(before, after, 12, 31),
    "stores bytes 252 to 255" => |before, after| store(before, after, 252, 255),
    "stores byte 252" => |before, after| store(before, after, 252, 252),
    "stores byte 255" => |before, after| store(before, after, 255, 255),
    "stores commands" => |before, after| {
        if before.address == 0 && before.value != 3 {
            after.block.content_mut()[0] = before.value;
        }
    },
    "writes into the row that is shown" => |before, after| {
        let bytes = before.block.content();
        let row = usize::from(u16::from_le_bytes([bytes[10], bytes[11]]));
        if (16..=31).contains(&before.address) && (1..=180).contains(&row) {
            let place = usize::from(before.address) - 16;
            let number = &mut after.rows.content_mut()[4 * (row - 1) + place / 4];
            let mut bytes = number.to_le_bytes();
            bytes[place % 4] = before.value;
            *number = u32::from_le_bytes(bytes);
        }
    },
    "lays the row that is shown into bytes 16 to 31" => |before, after| {
        let number = [10, 11].map(|at| after.block.content()[at]);
        let row = usize::from(u16::from_le_bytes(number));
        if [10, 11].contains(&before.address) && (1..=180).contains(&row) {
            let numbers = &after.rows.content()[4 * (row - 1)..4 * row];
            let bytes: Vec<u8> = numbers.iter().flat_map(|one| one.to_le_bytes()).collect();
            after.block.content_mut()[16..32].copy_from_slice(&bytes);
        }
    },
    "clears bytes 252 to 255 by any write" => |_, after| after.block.content_mut()[252..256].fill(0),
    "clears bytes 16 to 31 by a command" => |before, after| if before.address == 0 {
        after.block.content_mut()[16..32].fill(0);
    },
    "clears byte 0 by a command" => |before, after| if before.address == 0 {
        after.block.content_mut()[0] = 0;
    },
    "clears unnamed bits by a command" => |before, after| if before.address == 0 {
        after.block.content_mut()[1] &= 7;
        after.block.content_mut()[3] &= 1;
    },
);

const KEPT: &[Wrong] = of_one!(BlockWrite, wrote:
    "does not store byte 4" => |before, after| lose(before, after, 4, 4),
    "does not store byte 7" => |before, after| lose(before, after, 7, 7),
    "does not store byte 8" => |before, after| lose(before, after, 8, 8),
    "does not store byte 9" => |before, after| lose(before, after, 9, 9),
    "does not store byte 10" => |before, after| lose(before, after, 10, 10),
    "does not store byte 11" => |before, after| lose(before, after, 11, 11),
    "does not store byte 32" => |before, after| lose(before, after, 32, 32),
    "does not store byte 251" => |before, after| lose(before, after, 251, 251),
    "stores 7 bits of a byte" => |before, after| {
        if (32..=251).contains(&before.address) {
            after.block.content_mut()[usize::from(before.address)] &= 127;
        }
    },
    "stores a file's byte one place further" => |before, after| {
        if (32..=250).contains(&before.address) {
            let place = usize::from(before.address);
            keep(before, after, place, 1);
            after.block.content_mut()[place + 1] = before.value;
        }
    },
    "has the bound big-endian where it is stored" => |before, after| {
        if (4..=7).contains(&before.address) {
            keep(before, after, 4, 4);
            after.block.content_mut()[11 - usize::from(before.address)] = before.value;
        }
    },
    "stores no length over 220" => |before, after| {
        let bytes = after.block.content();
        if [8, 9].contains(&before.address) && u16::from_le_bytes([bytes[8], bytes[9]]) > 220 {
            keep(before, after, 8, 2);
        }
    },
    "stores no row number over 180" => |before, after| {
        let bytes = after.block.content();
        if [10, 11].contains(&before.address) && u16::from_le_bytes([bytes[10], bytes[11]]) > 180 {
            keep(before, after, 10, 2);
        }
    },
    "adds what is written" => |before, after| if (4..=11).contains(&before.address) {
        let place = usize::from(before.address);
        let sum = before.block.content()[place].wrapping_add(before.value);
        after.block.content_mut()[place] = sum;
    },
);

/// What is held stays until the next command.
const BESIDE: &[Wrong] = of_one!(BlockWrite, wrote:
    "has the lateness used where the bound is" => |before, after| {
        if (4..=7).contains(&before.address) {
            after.block.content_mut()[8 + usize::from(before.address)] = before.value;
        }
    },
    "drops the rows where the file is written" => |before, after| {
        if (32..=251).contains(&before.address) {
            after.rows.content_mut()[..BLOCK_ROWS].fill(0);
        }
    },
    "drops the rows where the bound is written" => |before, after| {
        if (4..=7).contains(&before.address) {
            after.rows.content_mut()[..BLOCK_ROWS].fill(0);
        }
    },
    "drops the rows where the length is written" => |before, after| {
        if [8, 9].contains(&before.address) {
            after.rows.content_mut()[..BLOCK_ROWS].fill(0);
        }
    },
    "clears done where the file is written" => |before, after| {
        if (32..=251).contains(&before.address) {
            after.block.content_mut()[1] &= !1;
        }
    },
    "clears done where the bound is written" => |before, after| {
        if (4..=7).contains(&before.address) {
            after.block.content_mut()[1] &= !1;
        }
    },
    "clears the row number where its first byte is written" => |before, after| {
        if before.address == 10 {
            after.block.content_mut()[11] = 0;
        }
    },
    "counts a file's length itself" => |before, after| {
        if (32..=251).contains(&before.address) {
            after.block.content_mut()[8..10].copy_from_slice(&[before.address - 31, 0]);
        }
    },
    "drops the row that is shown" => |before, after| {
        let row = before.block.content()[10];
        if before.address == 10 && (1..=180).contains(&row) {
            let at = 4 * (usize::from(row) - 1);
            after.rows.content_mut()[at..at + 4].fill(0);
        }
    },
);

/// What is written from one address to another is kept.
fn store(before: &Call, after: &mut Call, from: u8, to: u8) {
    if (from..=to).contains(&before.address) {
        after.block.content_mut()[usize::from(before.address)] = before.value;
    }
}

/// What is written from one address to another is not.
fn lose(before: &Call, after: &mut Call, from: u8, to: u8) {
    if (from..=to).contains(&before.address) {
        keep(before, after, before.address.into(), 1);
    }
}
