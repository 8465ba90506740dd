//! Orders that a screen holds too: 4 processors and 12 jobs, each in a register block.

use crate::blocks;
use crate::cases::{case_of, Case};
use crate::families::{self, ORDERS_EACH};
use crate::random::Random;

pub fn draw(seed: u64) -> Vec<Case> {
    let mut random = Random::new(seed);
    (0..ORDERS_EACH)
        .map(|_| {
            let case = case_of(&families::screen(&mut random), "within a screen's limits");
            Case {
                block: Some(blocks::planned(&case.file, case.least)),
                ..case
            }
        })
        .collect()
}
