//! Seeded draws: the same seed gives the same memories, orders, files, row lists, reasons, lines,
//! books, times, tables of needs, estimates, counts around the callers' limits, register blocks and buffers on
//! every machine.

pub mod block;
pub mod books;
pub mod bounds;
pub mod damage;
pub mod estimates;
pub mod files;
pub mod held;
pub mod keeping;
pub mod lengths;
pub mod lines;
pub mod lists;
pub mod makers;
pub mod memories;
pub mod needs;
pub mod orders;
mod packed;
pub mod reasons;
pub mod screen;
pub mod sharp;
pub mod times;

/// The splitmix64 generator.
pub struct Random(u64);

impl Random {
    pub fn new(seed: u64) -> Random {
        Random(seed)
    }

    pub fn number(&mut self) -> u64 {
        self.0 = self.0.wrapping_add(0x9E37_79B9_7F4A_7C15);
        let mixed = (self.0 ^ (self.0 >> 30)).wrapping_mul(0xBF58_476D_1CE4_E5B9);
        let mixed = (mixed ^ (mixed >> 27)).wrapping_mul(0x94D0_49BB_1331_11EB);
        mixed ^ (mixed >> 31)
    }

    /// A place in a list of this length, which is not 0.
    pub fn below(&mut self, length: usize) -> usize {
        (self.number() % length as u64) as usize
    }

    /// A number from `low` to `high`, both included.
    pub fn between(&mut self, low: i64, high: i64) -> i64 {
        low + (self.number() % (high - low + 1) as u64) as i64
    }

    /// Yes once in so many times.
    pub fn once_in(&mut self, times: usize) -> bool {
        self.below(times) == 0
    }

    pub fn pick<T: Copy>(&mut self, list: &[T]) -> T {
        list[self.below(list.len())]
    }

    pub fn shuffle<T>(&mut self, list: &mut [T]) {
        for last in (1..list.len()).rev() {
            list.swap(last, self.below(last + 1));
        }
    }
}
