//! Bounds: "a whole number of -10,000,000 to 10,000,000", drawn mostly where the answers change.

use super::Random;
use crate::independent::{least_between, Order};

/// Where bounds are drawn: no job alone is late from `alone` on, and `least` is the least lateness.
#[derive(Clone, Copy)]
pub struct Around {
    alone: i32,
    pub least: i32,
}

impl Around {
    /// Around the least lateness of an order.
    pub fn of(order: &Order, least: i32) -> Around {
        let (late, _) = least_between(order);
        let alone = late as i32 + 1;
        Around { alone, least }
    }

    /// Around a small number, where there may be no order.
    pub fn any(random: &mut Random) -> Around {
        let least = random.between(-20, 20) as i32;
        Around {
            alone: least,
            least,
        }
    }

    /// A bound: around the least lateness, between where only staircases are reasons, some way off,
    /// at and beyond the ends of the range, or any.
    pub fn bound(self, random: &mut Random) -> i32 {
        let end = random.pick(&[10_000_000, 10_000_001, i32::MAX]);
        match random.below(20) {
            0 => end,
            1 => -end,
            2 => i32::MIN,
            3 => random.number() as i32,
            4 => random.between(-10_000_000, 10_000_000) as i32,
            5 => self.least + random.between(0, 2_000) as i32,
            6 => self.least - random.between(0, 2_000) as i32,
            7..=9 => self.least - 1,
            10..=11 => self.least,
            12..=15 => random.between(self.alone.into(), self.least.into()) as i32,
            _ => self.least + random.between(-3, 3) as i32,
        }
    }

    /// A bound that mostly has reasons: just below the least lateness, where only staircases are
    /// reasons, where some job is late, and any.
    pub fn tight(self, random: &mut Random) -> i32 {
        match random.below(10) {
            0 => self.bound(random),
            1 => self.alone - 1,
            2..=3 => self.alone - random.between(1, 20) as i32,
            4 => random.between(-10_000_000, self.alone.into()) as i32,
            5..=6 => {
                let below = self.least - 1;
                random.between(self.alone.min(below).into(), below.into()) as i32
            }
            _ => self.least - 1,
        }
    }
}
