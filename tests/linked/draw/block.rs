//! Memory that a block lies in, with anything in it or with an order that can be planned; files for a block, around
//! the longest that it takes; their lengths, off by one and far off; numbers of rows.

use super::damage::{damaged, OF_ORDERS};
use super::files::{doubtful, file_of};
use super::orders::{of_counts, SCREEN_FAMILIES};
use super::Random;
use crate::independent::{Order, LONGEST_FILE};
use crate::lent::Call;
use crate::library::{BLOCK_BYTES, BLOCK_ROWS};

/// Buffers that hold anything, of just enough length or longer. Lengths that are 256 or 65,536 over look like enough
/// or like too little to whoever counts in 8 or 16 bits.
pub fn memory(random: &mut Random) -> Call {
    let bytes = BLOCK_BYTES + longer(random);
    let numbers = BLOCK_ROWS + longer(random);
    let bytes = filled(random, bytes, |drawn| drawn as u8);
    let numbers = filled(random, numbers, |drawn| drawn as u32);
    Call::with_block(random, &bytes, &numbers, 1)
}

fn longer(random: &mut Random) -> usize {
    match random.below(12) {
        0..=2 => 1 + random.below(9),
        3 => random.pick(&[256, 256, 512]),
        4 if random.once_in(12) => 65_536,
        _ => 0,
    }
}

/// All alike, or each of its own.
fn filled<T: Copy>(random: &mut Random, length: usize, of: fn(u64) -> T) -> Vec<T> {
    let alike = random.pick(&[0, u64::MAX, 0x5555_5555, 0xAAAA_AAAA]);
    let each = !random.once_in(4);
    let one = |_| if each { random.number() } else { alike };
    (0..length).map(one).map(of).collect()
}

/// The same with a file and its length in it, a bound, and the number of one of the first rows.
pub fn with_order(random: &mut Random, mut call: Call, file: &[u8], bound: i32) -> Call {
    let row = random.below(4) as u16;
    let bytes = call.block.content_mut();
    let laid = file.len().min(LONGEST_FILE);
    bytes[4..8].copy_from_slice(&bound.to_le_bytes());
    bytes[8..10].copy_from_slice(&(file.len() as u16).to_le_bytes());
    bytes[10..12].copy_from_slice(&row.to_le_bytes());
    bytes[32..32 + laid].copy_from_slice(&file[..laid]);
    call
}

/// The file of an order around the screen's limits, or of one that is refused, or a doubtful one.
pub fn file(random: &mut Random) -> Vec<u8> {
    let order = order(random);
    match random.below(14) {
        0 => doubtful(random, &order),
        1..=2 => {
            let number = random.pick(&OF_ORDERS);
            let order = damaged(random, &order, number);
            file_of(random, &order)
        }
        _ => file_of(random, &order),
    }
}

/// Counts that just go into 220 bytes, or just do not, once in a few times.
fn order(random: &mut Random) -> Order {
    if random.once_in(5) {
        let counts = [
            (4, 12),
            (5, 11),
            (5, 1),
            (8, 11),
            (1, 12),
            (0, 13),
            (0, 1),
            (1, 0),
            (5, 0),
            (52, 0),
            (53, 0),
            (1, 13),
            (5, 12),
        ];
        let (processors, jobs) = random.pick(&counts);
        return of_counts(random, processors, jobs);
    }
    let (_, family) = random.pick(SCREEN_FAMILIES);
    family(random)
}

/// A length for a file of this one: off by one, at the ends, one that looks like it to whoever counts in 8 bits.
pub fn length(random: &mut Random, exact: usize) -> u16 {
    let exact = exact as u16;
    match random.below(12) {
        0..=1 => exact.wrapping_sub(1),
        2..=3 => exact.wrapping_add(1),
        4 => exact.wrapping_add(256),
        5 => random.pick(&[0, 11, 12, 219, 220, 221, 224, 844, u16::MAX]),
        6 => random.number() as u16,
        _ => exact,
    }
}

/// The number of a row where so many are held: of one of them, of none, one that looks like some row's.
pub fn row(random: &mut Random, held: usize) -> u16 {
    let held = held as u16;
    match random.below(10) {
        0 => 0,
        1 => held,
        2 => held + 1,
        3 => random.pick(&[179, 180, 181, 255, 256, 257]),
        4 => 256 + random.below(usize::from(held) + 2) as u16,
        5 => random.number() as u16,
        _ => 1 + random.below(usize::from(held).max(1)) as u16,
    }
}
