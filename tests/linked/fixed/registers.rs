//! Each byte of a block on its own: which are kept, which are not, the flags that a 1 clears; and memory that was
//! never cleared, whose other bytes and unnamed bits stay until a clear and read as the table says.

use super::C_FILE;
use crate::bus::Bus;
use crate::every::states::cleared;
use crate::lent::Call;
use crate::library::{BLOCK_BYTES, BLOCK_ROWS};
use crate::trial::Trial;

pub fn run(trial: &mut Trial) {
    every_byte(trial);
    clears(trial);
    many_rows(trial);
    uncleared(trial);
    flags(trial);
}

/// Each address but that of commands written with its own value, then with others, upwards and downwards.
fn every_byte(trial: &mut Trial) {
    let mut bus = cleared(trial, 2);
    bus.put_file(trial, &C_FILE);
    bus.put_row(trial, 1);
    bus.write(trial, 0, 2);
    for value in [|address: u8| address, |address: u8| !address, |_| 0xA5] {
        for address in 1..=255 {
            bus.write(trial, address, value(address));
        }
        bus.read_all(trial);
        for address in (1..=255).rev() {
            bus.write(trial, address, value(address).wrapping_add(1));
        }
        bus.read_all(trial);
    }
}

/// Memory with these bytes at 1 to 3, C's file, and a row.
fn lent_with(trial: &mut Trial, flags: u8, number: u8, allowed: u8) -> Bus {
    let mut bytes = [0x5A; BLOCK_BYTES];
    bytes[1..4].copy_from_slice(&[flags, number, allowed]);
    bytes[8..16].copy_from_slice(&[32, 0, 1, 0, 0x78, 0x56, 0x34, 0x92]);
    bytes[32..64].copy_from_slice(&C_FILE);
    let mut numbers = [0; BLOCK_ROWS];
    numbers[..4].copy_from_slice(&[0x0403_0201, 0x0807_0605, 0x0C0B_0A09, 0x8F0E_0D0C]);
    Bus::of(Call::with_block(&mut trial.random, &bytes, &numbers, 1))
}

/// "writing a 1 clears that bit": of all flags, though done and refused are never both set from a clear on.
fn flags(trial: &mut Trial) {
    for flags in 0..8 {
        for value in (0..16).chain([0x10, 0x80, 0xF0, 0xF8, 0xFF]) {
            let mut bus = lent_with(trial, flags, 10, 1);
            bus.write(trial, 1, value);
            if value == flags || value == 0xFF {
                bus.read_all(trial);
            }
        }
    }
}

/// Any bits around the flags and around the leave to interrupt, and any number, before each kind of write.
fn uncleared(trial: &mut Trial) {
    for (flags, number, allowed) in [
        (0xF8, 0, 0xFE),
        (0xFF, 0xFF, 0xFF),
        (0x0F, 200, 0x81),
        (0x17, 21, 2),
        (0x80, 1, 0x80),
    ] {
        let writes = [
            (0, 1),
            (0, 2),
            (0, 0),
            (0, 9),
            (1, 0),
            (1, 0xFF),
            (2, 7),
            (3, 0),
            (3, 0xFF),
            (3, 2),
            (10, 2),
            (11, 1),
            (12, 1),
            (20, 1),
            (31, 9),
            (252, 1),
            (255, 0xFF),
            (0, 3),
        ];
        for (address, value) in writes {
            let mut bus = lent_with(trial, flags, number, allowed);
            bus.read_all(trial);
            bus.write(trial, address, value);
            bus.read_all(trial);
        }
    }
}

/// Both ways to clear, from memory with anything in it and from itself.
fn clears(trial: &mut Trial) {
    for command in [false, true] {
        let mut bus = with_many_rows(trial);
        for _ in 0..2 {
            match command {
                true => bus.write(trial, 0, 3),
                false => bus.clear(trial),
            }
            bus.read_all(trial);
        }
    }
}

/// 180 rows of anything, numbers behind them that are none's, and every bit of the block set.
fn with_many_rows(trial: &mut Trial) -> Bus {
    let bytes = [0xFF; BLOCK_BYTES + 1];
    let places = 1..2 * BLOCK_ROWS as u32;
    let numbers: Vec<u32> = places.map(|at| at.wrapping_mul(0x0101_0101)).collect();
    Bus::of(Call::with_block(&mut trial.random, &bytes, &numbers, 1))
}

/// Each of these rows, and the row numbers around them.
fn many_rows(trial: &mut Trial) {
    let mut bus = with_many_rows(trial);
    let around = (0..3).chain(89..91).chain(178..184);
    for row in around.chain([255, 256, 257, 436, 437, 0xFF01, 0xB400]) {
        bus.put_row(trial, row);
        bus.read_all(trial);
    }
}
