//! Wrong in how long a list of lengths may be: up to 16,777,215, since a result has no room for a later
//! place; a longer one is 253, after 255 and before all others.

use super::need_lists::telling;
use super::needs::{by, Way, RIGHT};
use super::Wrong;
use crate::independent::{judge_lengths, Refusal};
use crate::lent::Call;
use crate::library::{Function, MOST_LENGTHS};

pub const PARTS: &[&[Wrong]] = &[MOST, ORDER, PLACES];

/// Another most.
const MOST: &[Wrong] = of_one!(Needs, limiting:
    "takes any list" => usize::MAX,
    "takes a list of 16,777,216 lengths" => MOST_LENGTHS + 1,
    "does not take a list of 16,777,215 lengths" => MOST_LENGTHS - 1,
);

const ORDER: &[Wrong] = of_one!(Needs, telling:
    "tells a long list before a short answer" => [253, 255, 17, 18, 5, 9],
    "tells 17 before a long list" => [255, 17, 253, 18, 5, 9],
    "tells a long list last of all" => [255, 17, 18, 5, 9, 253],
);

const PLACES: &[Wrong] = &[(Function::Needs, "carries a place in 20 bits", |call| {
    let list = |lengths: &[u32]| {
        let refusal = judge_lengths(lengths)?;
        let job = refusal.job % (1 << 20);
        Some(Refusal { job, ..refusal })
    };
    by(call, Way { list, ..RIGHT })
})];

fn limiting(call: &mut Call, most: usize) -> u32 {
    by(call, Way { most, ..RIGHT })
}
