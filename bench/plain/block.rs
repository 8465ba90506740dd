//! A register block in place: 256 bytes, and the rows held, four numbers to a row and zeros behind them.

use super::order::Refusal;
use super::{try_screen_least, try_screen_plan};

pub type Bytes = [u8; 256];
pub type Rows = [u32; 720];

const DONE: u8 = 1;
const REFUSED: u8 = 2;
const INTERRUPT: u8 = 4;

/// Where the file begins, and the most bytes that it has.
const FILE: usize = 32;
const FILE_MOST: usize = 220;

const BAD_FILE: Refusal = Refusal::plain(12);
const NO_COMMAND: Refusal = Refusal::plain(0);

pub fn clear(bytes: &mut Bytes, rows: &mut Rows) {
    bytes.fill(0);
    rows.fill(0);
}

pub fn read(bytes: &Bytes, rows: &Rows, address: u8) -> u8 {
    let place = usize::from(address);
    match address {
        1 => bytes[1] % 8,
        3 => bytes[3] % 2,
        2 | 4..=15 | 32..=251 => bytes[place],
        16..=31 => held(rows, number2(bytes, 10), place - 16),
        0 | 252..=255 => 0,
    }
}

/// A byte of a row, which is counted from 1.
fn held(rows: &Rows, row: usize, place: usize) -> u8 {
    let first = row.checked_sub(1).map(|before| 4 * before);
    let number = first.and_then(|first| rows.get(first + place / 4));
    number.map_or(0, |number| number.to_le_bytes()[place % 4])
}

fn number2(bytes: &Bytes, place: usize) -> usize {
    u16::from_le_bytes([bytes[place], bytes[place + 1]]).into()
}

pub fn write(bytes: &mut Bytes, rows: &mut Rows, address: u8, value: u8) {
    match address {
        0 => command(bytes, rows, value),
        1 => bytes[1] &= !(value % 8),
        3 => bytes[3] = bytes[3] / 2 * 2 + value % 2,
        4..=11 | 32..=251 => bytes[usize::from(address)] = value,
        2 | 12..=31 | 252..=255 => {}
    }
}

fn command(bytes: &mut Bytes, rows: &mut Rows, command: u8) {
    if command == 3 {
        return clear(bytes, rows);
    }
    bytes[1] &= !(DONE | REFUSED);
    bytes[2] = 0;
    bytes[12..16].fill(0);
    rows.fill(0);
    match lateness(bytes, rows, command) {
        Ok(lateness) => {
            bytes[1] |= DONE;
            bytes[12..16].copy_from_slice(&lateness.to_le_bytes());
        }
        Err(refusal) => {
            bytes[1] |= REFUSED;
            bytes[2] = refusal.number as u8;
        }
    }
    if bytes[3] % 2 == 1 {
        bytes[1] |= INTERRUPT;
    }
}

/// The lateness at which the command plans, its rows being written.
fn lateness(bytes: &Bytes, rows: &mut Rows, command: u8) -> Result<i32, Refusal> {
    match command {
        1 => {
            let bound = i32::from_le_bytes([bytes[4], bytes[5], bytes[6], bytes[7]]);
            try_screen_plan(file(bytes)?, bound, rows, &mut [0])?;
            Ok(bound)
        }
        2 => {
            let mut answer = [0; 2];
            try_screen_least(file(bytes)?, rows, &mut answer)?;
            Ok(answer[0])
        }
        _ => Err(NO_COMMAND),
    }
}

fn file(bytes: &Bytes) -> Result<&[u8], Refusal> {
    let length = number2(bytes, 8);
    if FILE_MOST < length {
        return Err(BAD_FILE);
    }
    Ok(&bytes[FILE..FILE + length])
}
