//! Books against the orders: counts grow job by job, "The sum of the sixteen counts equals the times of
//! all their jobs", and a book is full just where one count would be over the most.

use super::hold;
use crate::independent::{booked, Order, MAKERS, MOST_BOOKED};

pub fn agree(order: &Order) -> Result<(), String> {
    let opened = vec![0; MAKERS];
    let once = booked(&opened, order).unwrap_or_default();
    let sum: u64 = once.iter().map(|count| u64::from(*count)).sum();
    let times: u64 = order.jobs.iter().map(|job| u64::from(job.time)).sum();
    hold(order, "booked in all as long as it is", sum == times)?;
    hold(order, "booked job by job", by_jobs(order) == once)?;
    let most = MOST_BOOKED as u32;
    let left: Vec<u32> = once.iter().map(|count| most - count).collect();
    let filled = booked(&left, order) == Some(vec![most; MAKERS]);
    hold(order, "booked up to the most", filled)?;
    for maker in 0..MAKERS {
        let mut over = opened.clone();
        over[maker] = left[maker] + 1;
        hold(order, "full by each maker", booked(&over, order).is_none())?;
    }
    Ok(())
}

/// The counts of an order whose jobs were booked one after the other, each in an order of its own.
fn by_jobs(order: &Order) -> Vec<u32> {
    let alone = |job| Order {
        memories: order.memories.clone(),
        jobs: vec![job],
    };
    let jobs = order.jobs.iter().copied().map(alone);
    jobs.fold(vec![0; MAKERS], |book, job| {
        booked(&book, &job).unwrap_or_default()
    })
}
