//! Memories of up to 16 processors: one for all, a few, or each its own; in no order or in one. Some
//! look equal to whoever counts in 8 or 16 bits, some negative to whoever takes them for signed
//! numbers.

use super::Random;

const LARGEST: i64 = u32::MAX as i64;
const HALF: i64 = 1 << 31;

pub fn drawn(random: &mut Random) -> Vec<u32> {
    let processors = match random.below(4) {
        0 => 1 + random.below(3),
        1 => 16,
        _ => 1 + random.below(16),
    };
    let mut memories = match random.below(4) {
        0 => apart(random, processors),
        _ => repeated(random, processors),
    };
    match random.below(6) {
        0 => memories.sort(),
        1 => memories.sort_by(|one, other| other.cmp(one)),
        _ => random.shuffle(&mut memories),
    }
    memories
}

/// Memories at equal distances.
fn apart(random: &mut Random, processors: usize) -> Vec<u32> {
    let distance = random.pick(&[1, 1, 5, 256, 65_536, 1 << 28]);
    let first = random.between(0, LARGEST - 15 * distance);
    let places = 0..processors as i64;
    places
        .map(|place| (first + place * distance) as u32)
        .collect()
}

/// A few memories, most of them several times.
fn repeated(random: &mut Random, processors: usize) -> Vec<u32> {
    let draw = kind(random);
    let few = 1 + random.below(processors);
    let few = random.pick(&[1, 2, few]);
    let distinct: Vec<u32> = (0..few).map(|_| draw(random)).collect();
    (0..processors).map(|_| random.pick(&distinct)).collect()
}

/// Of what kind the memories of an order are.
fn kind(random: &mut Random) -> fn(&mut Random) -> u32 {
    random.pick(&[
        |random| random.between(0, 3) as u32,
        |random| random.between(0, 20) as u32,
        |random| random.between(0, LARGEST) as u32,
        |random| random.between(LARGEST - 3, LARGEST) as u32,
        |random| random.between(HALF - 2, HALF + 1) as u32,
        |random| random.pick(&[0, 1, u32::MAX - 1, u32::MAX]),
        |random| 7 + 256 * random.between(0, 5) as u32,
        |random| 7 + 65_536 * random.between(0, 5) as u32,
    ])
}
