//! Books: opened ones, and those with counts around the most, of makers that have a job in the order
//! and of makers that have none; counts of any size may be handed in.

use super::Random;
use crate::independent::{minutes_of, Order, MAKERS, MOST_BOOKED};

const MOST: u32 = MOST_BOOKED as u32;

/// The sixteen counts of a book that was just opened.
pub fn opened() -> Vec<u32> {
    vec![0; MAKERS]
}

/// The sixteen counts of a book before a plan of this order.
pub fn drawn(random: &mut Random, order: &Order) -> Vec<u32> {
    match random.below(12) {
        0 => opened(),
        1 => vec![random.pick(&[MOST, MOST + 1, u32::MAX]); MAKERS],
        2 => counted(random, u32::MAX),
        3 => near_everywhere(random, order),
        4..=6 => counted(random, 1_000_000),
        _ => near_once(random, order),
    }
}

/// Room for one to four plans of this order.
pub fn nearly_full(random: &mut Random, order: &Order) -> Vec<u32> {
    let plans = 1 + random.below(4) as u64;
    let count = |maker| MOST_BOOKED.saturating_sub(plans * minutes_of(order, maker));
    (1..=MAKERS as u32)
        .map(|maker| count(maker) as u32)
        .collect()
}

fn counted(random: &mut Random, most: u32) -> Vec<u32> {
    let count = |_| random.between(0, most.into()) as u32;
    (0..MAKERS).map(count).collect()
}

/// Small counts but for one that is about the most.
fn near_once(random: &mut Random, order: &Order) -> Vec<u32> {
    let mut book = counted(random, 1_000_000);
    let maker = match order.jobs.is_empty() || random.once_in(3) {
        true => 1 + random.below(MAKERS) as u32,
        false => random.pick(&order.jobs).maker,
    };
    if let Some(count) = book.get_mut((maker as usize).wrapping_sub(1)) {
        *count = near(random, minutes_of(order, maker));
    }
    book
}

/// All counts just so that they are not over the most, and sometimes one that is over it.
fn near_everywhere(random: &mut Random, order: &Order) -> Vec<u32> {
    let left = |maker| (MOST_BOOKED - minutes_of(order, maker).min(MOST_BOOKED)) as u32;
    let mut book: Vec<u32> = (1..=MAKERS as u32).map(left).collect();
    if random.once_in(2) {
        book[random.below(MAKERS)] += 1;
    }
    book
}

/// A count before so many minutes: then exactly the most, a minute more, a minute less, more by more;
/// or then 2^32 and somewhat, which looks small to whoever counts in 32 bits.
fn near(random: &mut Random, minutes: u64) -> u32 {
    let most = random.pick(&[MOST_BOOKED, MOST_BOOKED, 1 << 32]);
    let more = random.pick(&[-1, 0, 0, 1, 1, 2, minutes as i64, 1_000_000]);
    let count = most as i64 - minutes as i64 + more;
    count.clamp(0, u32::MAX.into()) as u32
}
