//! Drawn numbers: splitmix64 from a fixed seed, so that every run sees the same orders.

pub struct Random {
    state: u64,
}

impl Random {
    pub fn new(seed: u64) -> Random {
        Random { state: seed }
    }

    /// Drawn from a seed that these bytes make.
    pub fn of(bytes: &[u8]) -> Random {
        let seed = bytes.iter().fold(0_u64, |seed, byte| {
            seed.wrapping_mul(257).wrapping_add((*byte).into())
        });
        Random::new(seed)
    }

    fn next(&mut self) -> u64 {
        self.state = self.state.wrapping_add(0x9E37_79B9_7F4A_7C15);
        let z = self.state;
        let z = (z ^ (z >> 30)).wrapping_mul(0xBF58_476D_1CE4_E5B9);
        let z = (z ^ (z >> 27)).wrapping_mul(0x94D0_49BB_1331_11EB);
        z ^ (z >> 31)
    }

    /// A whole number from `low` to `high`, both included.
    pub fn between(&mut self, low: i32, high: i32) -> i32 {
        let count = (i64::from(high) - i64::from(low) + 1) as u64;
        (i64::from(low) + (self.next() % count) as i64) as i32
    }

    pub fn shuffle<T>(&mut self, list: &mut [T]) {
        for i in (1..list.len()).rev() {
            let k = self.between(0, i as i32) as usize;
            list.swap(i, k);
        }
    }
}
