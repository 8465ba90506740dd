//! A table of needs of 32 lines, in no order, that is accepted, and 48 lengths. Both are drawn from the
//! bytes of an order's file, so that no other draw changes.

use crate::random::Random;

pub const LONGEST: i32 = 100_000;
pub const TABLE_LINES: usize = 32;
pub const LENGTHS: usize = 48;

/// The numbers of a table, and lengths.
pub struct Table {
    pub numbers: Vec<u32>,
    pub lengths: Vec<u32>,
}

pub fn draw(file: &[u8]) -> Table {
    let mut random = Random::of(file);
    let mut firsts = vec![1];
    while firsts.len() < TABLE_LINES {
        let first = random.between(2, LONGEST);
        if !firsts.contains(&first) {
            firsts.push(first);
        }
    }
    firsts.sort();
    let lasts = firsts[1..].iter().map(|next| next - 1).chain([LONGEST]);
    let lines = firsts.iter().zip(lasts);
    let mut lines: Vec<[u32; 3]> = lines
        .map(|(from, to)| [*from as u32, to as u32, random.between(0, 4096) as u32])
        .collect();
    random.shuffle(&mut lines);
    let lengths = (0..LENGTHS).map(|_| random.between(1, LONGEST) as u32);
    Table {
        lengths: lengths.collect(),
        numbers: lines.concat(),
    }
}
