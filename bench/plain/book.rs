//! The minutes planned for each maker, and whether a book has room for an order's.

use super::order::{Order, MAKERS};

const MOST: u32 = 4_000_000_000;

pub type Book = [u32; MAKERS];

/// The counts once a plan of this order is written; nothing where one would be over the most.
pub fn add(counts: &Book, order: &Order) -> Option<Book> {
    let mut then = [0; MAKERS];
    for job in order.jobs() {
        then[job.maker as usize - 1] += job.time;
    }
    for (then, &count) in then.iter_mut().zip(counts) {
        if MOST < count || MOST - count < *then {
            return None;
        }
        *then += count;
    }
    Some(then)
}
