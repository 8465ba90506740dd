//! Wrong in the byte that is read: "Byte 0, bytes 252 to 255 and unnamed bits read 0; numbers are little-endian";
//! "16 to 31 that row or zeros". And wrong in what a read changes, which is the answer's first number alone.

use super::block::{read_leaves, sees};
use super::Wrong;
use crate::expect::block::lying;
use crate::lent::Call;
use crate::library::{Function, BLOCK_ROWS};

pub const PARTS: &[&[Wrong]] = &[ROWS, NUMBERS, NAMED, HELD, CHANGES];

const ROWS: &[Wrong] = of_one!(BlockRead, sees:
    "counts rows from 0" => |call, byte| in_row(call, byte, |row| row + 1),
    "counts rows from 2" => |call, byte| in_row(call, byte, |row| row.saturating_sub(1)),
    "shows the first row for row 0" => |call, byte| in_row(call, byte, |row| row.max(1)),
    "shows row 180 for every later one" => |call, byte| in_row(call, byte, |row| row.min(180)),
    "shows no row 180" => |call, byte| in_row(call, byte, |row| if row == 180 { 0 } else { row }),
    "shows the first row alone" => |call, byte| in_row(call, byte, |row| row.min(1)),
    "looks at byte 10 alone for the row" => |call, byte| in_row(call, byte, |row| row % 256),
    "looks at byte 11 alone for the row" => |call, byte| in_row(call, byte, |row| row / 256),
    "takes the row number big-endian" => |call, byte| {
        in_row(call, byte, |row| (row as u16).swap_bytes().into())
    },
    "takes the row number for a signed one" => |call, byte| in_row(call, byte, |row| row & 0x7FFF),
    "begins again after row 180" => |call, byte| {
        in_row(call, byte, |row| if row == 0 { 0 } else { (row - 1) % 180 + 1 })
    },
    "shows what lies behind 180 rows" => |call, byte| {
        in_numbers(call, byte, call.rows.content(), |row| row)
    },
    "shows the last row held for every later one" => |call, byte| match call.address {
        16..=31 => {
            let mut block = lying(call);
            block.rows.retain(|row| row[0] != 0);
            block.row = block.row.min(block.rows.len() as u16);
            block.read(call.address).into()
        }
        _ => byte,
    },
    "has rows big-endian" => |call, byte| at_place(call, byte, |place| place ^ 3),
    "has rows in halves, the upper first" => |call, byte| at_place(call, byte, |place| place ^ 2),
    "shows the processor first" => |call, byte| at_place(call, byte, |place| match place / 4 {
        0 | 1 => place ^ 4,
        _ => place,
    }),
    "shows the end before the beginning" => |call, byte| {
        at_place(call, byte, |place| match place / 4 {
            2 | 3 => place ^ 4,
            _ => place,
        })
    },
    "shows a row turned round" => |call, byte| at_place(call, byte, |place| 15 - place),
    "shows one byte of each number" => |call, byte| match call.address {
        16..=31 if call.address % 4 != 0 => 0,
        _ => byte,
    },
    "shows what lies in bytes 16 to 31" => |call, byte| as_it_lies(call, byte, 16, 31),
    "shows no row" => |call, byte| if (16..=31).contains(&call.address) { 0 } else { byte },
);

const NUMBERS: &[Wrong] = of_one!(BlockRead, sees:
    "has the lateness big-endian" => |call, byte| turned(call, byte, 12, 15),
    "has the bound big-endian" => |call, byte| turned(call, byte, 4, 7),
    "has the length big-endian" => |call, byte| turned(call, byte, 8, 9),
    "has the row number big-endian" => |call, byte| turned(call, byte, 10, 11),
    "shows the bound as lateness used" => |call, byte| match call.address {
        12..=15 => lying(call).read(call.address - 8).into(),
        _ => byte,
    },
    "shows the lateness used as the bound" => |call, byte| match call.address {
        4..=7 => lying(call).read(call.address + 8).into(),
        _ => byte,
    },
    "answers signed bytes" => |_, byte| (byte as u8 as i8).into(),
    "answers 7 bits" => |_, byte| byte & 127,
    "answers the address with the byte" => |call, byte| byte + 256 * i32::from(call.address),
    "answers the byte before" => |call, byte| {
        if (33..=251).contains(&call.address) { lying(call).read(call.address - 1).into() } else { byte }
    },
    "reads 0 at byte 251" => |call, byte| if call.address == 251 { 0 } else { byte },
    "reads 0 at byte 32" => |call, byte| if call.address == 32 { 0 } else { byte },
    "reads 0 beyond the file's length" => |call, byte| match call.address {
        32..=251 if u16::from(call.address) >= 32 + lying(call).length => 0,
        _ => byte,
    },
    "reads 0 everywhere" => |_, _| 0,
);

const NAMED: &[Wrong] = of_one!(BlockRead, sees:
    "shows all bits of byte 1" => |call, byte| as_it_lies(call, byte, 1, 1),
    "shows four bits of byte 1" => |call, byte| match call.address {
        1 => (call.block.content()[1] & 15).into(),
        _ => byte,
    },
    "shows all bits of byte 3" => |call, byte| as_it_lies(call, byte, 3, 3),
    "shows any bit of byte 3 as the leave" => |call, byte| match call.address {
        3 => (call.block.content()[3] != 0).into(),
        _ => byte,
    },
    "shows what lies in byte 0" => |call, byte| as_it_lies(call, byte, 0, 0),
    "shows what lies in bytes 252 to 255" => |call, byte| as_it_lies(call, byte, 252, 255),
    "shows what lies in byte 252" => |call, byte| as_it_lies(call, byte, 252, 252),
    "shows what lies in byte 255" => |call, byte| as_it_lies(call, byte, 255, 255),
    "shows bytes 252 to 255 as set" => |call, byte| if call.address >= 252 { 255 } else { byte },
    "exchanges done and refused" => |call, byte| match call.address {
        1 => byte & 4 | (byte & 1) << 1 | byte >> 1 & 1,
        _ => byte,
    },
);

/// What is shown does not hang on flags.
const HELD: &[Wrong] = of_one!(BlockRead, sees:
    "shows the interrupt where it is allowed alone" => |call, byte| match call.address {
        1 if !lying(call).allowed => byte & 3,
        _ => byte,
    },
    "shows the number with refused alone" => |call, byte| match call.address {
        2 if !lying(call).refused => 0,
        _ => byte,
    },
    "shows the lateness with done alone" => |call, byte| match call.address {
        12..=15 if !lying(call).done => 0,
        _ => byte,
    },
    "shows a row with done alone" => |call, byte| match call.address {
        16..=31 if !lying(call).done => 0,
        _ => byte,
    },
    "shows 255 for a number that no refusal has" => |call, byte| match call.address {
        2 if byte > 21 => 255,
        _ => byte,
    },
    "shows no refused where done is set" => |call, byte| match call.address {
        1 if byte & 1 == 1 => byte & 5,
        _ => byte,
    },
);

const CHANGES: &[Wrong] = of_one!(BlockRead, read_leaves:
    "clears done where byte 1 is read" => |before, after| if before.address == 1 {
        after.block.content_mut()[1] &= !1;
    },
    "clears the flags where byte 1 is read" => |before, after| if before.address == 1 {
        after.block.content_mut()[1] &= !7;
    },
    "clears the interrupt where byte 1 is read" => |before, after| if before.address == 1 {
        after.block.content_mut()[1] &= !4;
    },
    "clears the number where it is read" => |before, after| if before.address == 2 {
        after.block.content_mut()[2] = 0;
    },
    "goes on to the next row where one is read" => |before, after| if before.address == 31 {
        let next = before.block.content()[10].wrapping_add(1);
        after.block.content_mut()[10] = next;
    },
    "drops a row where it is read" => |before, after| if before.address == 31 {
        after.rows.content_mut()[..4].fill(0);
    },
    "lays the row that is read into bytes 16 to 31" => |before, after| {
        if (16..=31).contains(&before.address) {
            let byte = after.answer.content()[0] as u8;
            after.block.content_mut()[usize::from(before.address)] = byte;
        }
    },
    "puts zeros where nothing lies" => |before, after| if before.address >= 252 {
        after.block.content_mut()[usize::from(before.address)] = 0;
    },
    "writes a second number of the answer" => |_, after| {
        if let Some(second) = after.answer.content_mut().get_mut(1) {
            *second = 0;
        }
    },
    "fills the answer" => |_, after| {
        let byte = after.answer.content()[0];
        after.answer.content_mut().fill(byte);
    },
    "writes no answer of 0" => |before, after| if after.answer.content()[0] == 0 {
        after.answer = before.answer.clone();
    },
    "writes one byte of the answer" => |before, after| {
        let mut bytes = before.answer.content()[0].to_le_bytes();
        bytes[0] = after.answer.content()[0] as u8;
        after.answer.put(&[i32::from_le_bytes(bytes)]);
    },
);

/// The byte of another row.
fn in_row(call: &Call, byte: i32, other: fn(usize) -> usize) -> i32 {
    in_numbers(call, byte, &call.rows.content()[..BLOCK_ROWS], other)
}

/// The same among these numbers.
fn in_numbers(call: &Call, byte: i32, numbers: &[u32], other: fn(usize) -> usize) -> i32 {
    if !(16..=31).contains(&call.address) {
        return byte;
    }
    let row = other(lying(call).row.into()).checked_sub(1);
    let place = usize::from(call.address) - 16;
    let number = row.and_then(|row| numbers.get(4 * row + place / 4));
    number.map_or(0, |number| number.to_le_bytes()[place % 4].into())
}

/// The byte at another place of the row.
fn at_place(call: &Call, byte: i32, other: fn(u8) -> u8) -> i32 {
    match call.address {
        16..=31 => lying(call).read(16 + other(call.address - 16)).into(),
        _ => byte,
    }
}

/// The byte of a number from its other end.
fn turned(call: &Call, byte: i32, from: u8, to: u8) -> i32 {
    match call.address {
        address if (from..=to).contains(&address) => lying(call).read(from + to - address).into(),
        _ => byte,
    }
}

/// The byte that is lent, whole.
fn as_it_lies(call: &Call, byte: i32, from: u8, to: u8) -> i32 {
    match call.address {
        address if (from..=to).contains(&address) => {
            call.block.content()[usize::from(address)].into()
        }
        _ => byte,
    }
}
