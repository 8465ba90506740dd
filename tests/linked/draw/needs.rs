//! Tables of needs: lines that together meet each length once, whole or with one or two defects, lines
//! that push others beyond the 32nd place, numbers left over. And lists of lengths, most of them at the
//! ends of lines, some out of range.

use super::Random;
use crate::independent::{Line, LONGEST_LENGTH, TABLE_LINES};
use std::collections::BTreeSet;

const LAST: i64 = LONGEST_LENGTH as i64;
const LARGEST: i64 = u32::MAX as i64;
const HALF: i64 = 1 << 31;

/// Lines that meet no length.
const IDLE: [[u32; 2]; 9] = [
    [0, 0],
    [0, LONGEST_LENGTH],
    [1, LONGEST_LENGTH + 1],
    [7, 6],
    [LONGEST_LENGTH, 1],
    [LONGEST_LENGTH + 1, LONGEST_LENGTH + 1],
    [u32::MAX, 5],
    [5, u32::MAX],
    [1, 0],
];

/// Numbers that are no length, some of which look like one to whoever counts in 16 or 17 bits or takes
/// them for signed numbers.
const NO_LENGTHS: [u32; 6] = [0, LONGEST_LENGTH + 1, 131_072, 131_073, 1 << 31, u32::MAX];

/// The numbers of a table.
pub fn table(random: &mut Random) -> Vec<u32> {
    let mut lines = cut(random);
    for _ in 0..random.pick(&[0, 0, 0, 1, 1, 2]) {
        damage(random, &mut lines);
    }
    if !random.once_in(4) {
        random.shuffle(&mut lines);
    }
    if random.once_in(4) {
        crowd(random, &mut lines);
    }
    let mut numbers = lines.concat();
    match random.below(12) {
        0 => numbers.truncate(numbers.len().saturating_sub(1 + random.below(2))),
        1 => numbers.extend([1, LONGEST_LENGTH].iter().take(1 + random.below(2))),
        _ => {}
    }
    numbers
}

/// The lengths from 1 to 100,000 cut into 1 to 32 lines, anywhere or close together.
fn cut(random: &mut Random) -> Vec<Line> {
    let count = match random.below(6) {
        0 => 1 + random.below(2),
        1..=2 => TABLE_LINES,
        _ => 1 + random.below(TABLE_LINES),
    };
    let anywhere = (2, LAST);
    let close = [(2, 40), (65_520, 65_560), (LAST - 38, LAST)];
    let close = random.pick(&close);
    let (low, high) = random.pick(&[anywhere, anywhere, close]);
    let mut firsts = BTreeSet::from([1]);
    while firsts.len() < count {
        firsts.insert(random.between(low, high));
    }
    let lasts = firsts.iter().skip(1).map(|next| next - 1).chain([LAST]);
    let draw = need_kind(random);
    let both = firsts.iter().zip(lasts);
    both.map(|(from, to)| [*from as u32, to as u32, draw(random)])
        .collect()
}

/// Of what kind the needs of a table are.
fn need_kind(random: &mut Random) -> fn(&mut Random) -> u32 {
    random.pick(&[
        |random| random.between(0, 3) as u32,
        |random| random.between(0, LARGEST) as u32,
        |random| random.between(0, LARGEST) as u32,
        |random| random.between(HALF - 2, HALF + 1) as u32,
        |random| random.pick(&[0, 1, u32::MAX - 1, u32::MAX]),
        |random| 7 + 256 * random.between(0, 500) as u32,
        |random| 7 + 65_536 * random.between(0, 500) as u32,
    ])
}

/// One defect, after which a table may still be accepted.
fn damage(random: &mut Random, lines: &mut Vec<Line>) {
    if lines.is_empty() {
        return lines.push(extra(random));
    }
    let place = random.below(lines.len());
    let [from, to, need] = lines[place];
    let [low, high] = [from, to].map(|end| i64::from(end).clamp(1, LAST));
    let side = random.below(2);
    match random.below(10) {
        0 => lines[place][side] = lines[place][side].wrapping_add(1),
        1 => lines[place][side] = lines[place][side].wrapping_sub(1),
        2 => drop(lines.remove(place)),
        3 => lines.push([from, to, need]),
        4 => lines.push([from, to, need ^ 1]),
        5 => lines[place][0] = random.between(1, low) as u32,
        6 => lines[place][1] = random.between(high, LAST) as u32,
        7 => lines[place] = [to, from, need],
        8 => lines[place][side] = random.pick(&NO_LENGTHS),
        _ => lines.push(extra(random)),
    }
}

/// A line that meets no length, or one, or some.
fn extra(random: &mut Random) -> Line {
    let need = random.number() as u32;
    let one = random.between(1, LAST) as u32;
    let other = random.between(1, LAST) as u32;
    let end = random.pick(&[1, LONGEST_LENGTH]);
    match random.below(5) {
        0 => [end, end, need],
        1 => [one, one, need],
        2 => [one.min(other), one.max(other), need],
        _ => idle(random),
    }
}

fn idle(random: &mut Random) -> Line {
    let [from, to] = random.pick(&IDLE);
    [from, to, random.number() as u32]
}

/// Lines that meet no length between the others, up to the 32nd place or beyond it, and further lines.
fn crowd(random: &mut Random, lines: &mut Vec<Line>) {
    let further = random.below(3);
    let up_to = random.pick(&[TABLE_LINES, TABLE_LINES + 1, TABLE_LINES + 1]);
    while lines.len() < up_to {
        let place = random.below(lines.len() + 1);
        lines.insert(place, idle(random));
    }
    for _ in 0..further {
        lines.push(extra(random));
    }
}

/// A list of lengths, for a table of these numbers.
pub fn lengths(random: &mut Random, table: &[u32]) -> Vec<u32> {
    let count = match random.below(16) {
        0 => 0,
        1..=3 => 1,
        4 => 48,
        5 => 49,
        6 => 200 + random.below(100),
        _ => 1 + random.below(48),
    };
    let mut lengths: Vec<u32> = (0..count).map(|_| length(random, table)).collect();
    if count > 0 && random.once_in(6) {
        for _ in 0..1 + random.below(2) {
            lengths[random.below(count)] = random.pick(&NO_LENGTHS);
        }
    }
    lengths
}

/// A length: an end of a line or one beside it, or any.
fn length(random: &mut Random, table: &[u32]) -> u32 {
    let lines = table.len() / 3;
    let near = match random.below(8) {
        0 => random.pick(&[1, LAST]),
        1..=5 if lines > 0 => {
            let end = table[3 * random.below(lines) + random.below(2)];
            i64::from(end) + random.between(-1, 1)
        }
        _ => random.between(1, LAST),
    };
    near.clamp(1, LAST) as u32
}
