//! Document 02, "Minutes booked per maker": "A book keeps the minutes planned for each maker since it
//! was opened." It is sixteen counts, that of maker 1 first.

use super::Order;

pub const MAKERS: usize = 16;

/// "a count that would then be over 4,000,000,000, handed in so or not, is 14".
pub const MOST_BOOKED: u64 = 4_000_000_000;

/// "the times of that maker's jobs" in an order.
pub fn minutes_of(order: &Order, maker: u32) -> u64 {
    let own = order.jobs.iter().filter(|job| job.maker == maker);
    own.map(|job| u64::from(job.time)).sum()
}

/// The sixteen counts of a book once a plan of this order is written, or none where one would be
/// over the most, whether its maker has a job in the order or not.
pub fn booked(book: &[u32], order: &Order) -> Option<Vec<u32>> {
    let then = (1..).zip(&book[..MAKERS]).map(|(maker, count)| {
        let then = u64::from(*count) + minutes_of(order, maker);
        (then <= MOST_BOOKED).then_some(then as u32)
    });
    then.collect()
}
