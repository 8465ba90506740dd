//! Maker numbers: all jobs of one maker, of two or three, or of any of the sixteen, so that makers
//! have several jobs, one job and none.

use super::Random;
use crate::independent::{Job, MAKERS};

const MOST: u32 = MAKERS as u32;

/// Gives each job a maker.
pub fn give(random: &mut Random, jobs: &mut [Job]) {
    let all: Vec<u32> = (1..=MOST).collect();
    let few = [0; 3].map(|_| random.pick(&all));
    let makers = match random.below(6) {
        0 => &few[..1],
        1 => &few[..2],
        2 => &few[..],
        3 => &[1, MOST],
        _ => &all,
    };
    jobs.iter_mut()
        .for_each(|job| job.maker = random.pick(makers));
}

/// A number that is no maker's; some look like one to whoever counts in 8 or 16 bits.
pub fn nobody(random: &mut Random) -> u32 {
    let far = random.pick(&[256, 65_536, 1 << 24, 1 << 31]);
    match random.below(5) {
        0 | 1 => 0,
        2 => MOST + 1,
        3 => random.pick(&[18, 255, u32::MAX, u32::MAX - 15]),
        _ => far + random.below(MAKERS + 1) as u32,
    }
}
