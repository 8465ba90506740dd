//! The refusal table's rows 1 to 7: "The lowest applicable number is given"; rows 5 to 7 carry "the
//! first such job". "A maker number out of range is 13, right after 6 in the order". Rows 2 and 4 are those
//! of the caller's limits.

use super::limits::{Limits, DOCK};
use super::{Job, Order, Refusal, MAKERS};
use std::ops::RangeInclusive;

const TIMES: RangeInclusive<u32> = 1..=100_000;
const DUES: RangeInclusive<i32> = -1_000_000..=1_000_000;

/// The refusal of an order, or none where it is accepted, from the dock.
pub fn judge(order: &Order) -> Option<Refusal> {
    judge_within(&DOCK, order)
}

/// The same from a caller with these limits.
pub fn judge_within(limits: &Limits, order: &Order) -> Option<Refusal> {
    judge_counts(limits, order)
        .or_else(|| first(order, 5, |_, job| !is_time(job.time)))
        .or_else(|| first(order, 6, |_, job| !is_due(job)))
        .or_else(|| first(order, 13, |_, job| !is_made(job)))
        .or_else(|| first(order, 7, |_, job| !fits(order, job)))
}

/// Rows 1 to 4.
pub fn judge_counts(limits: &Limits, order: &Order) -> Option<Refusal> {
    let about_counts = [
        (1, order.memories.is_empty()),
        (
            limits.over_processors,
            order.memories.len() > limits.processors,
        ),
        (3, order.jobs.is_empty()),
        (limits.over_jobs, order.jobs.len() > limits.jobs),
    ];
    let (number, _) = about_counts.into_iter().find(|(_, holds)| *holds)?;
    Some(Refusal { number, job: 0 })
}

/// The refusal of this number if its condition holds of some job and its place: it names the first.
pub fn first(order: &Order, number: u32, holds: impl Fn(usize, &Job) -> bool) -> Option<Refusal> {
    let mut jobs = order.jobs.iter().enumerate();
    let place = jobs.position(|(place, job)| holds(place, job))?;
    let job = place as u32 + 1;
    Some(Refusal { number, job })
}

pub fn is_time(minutes: u32) -> bool {
    TIMES.contains(&minutes)
}

pub fn is_due(job: &Job) -> bool {
    DUES.contains(&job.due)
}

pub fn is_made(job: &Job) -> bool {
    (1..=MAKERS).contains(&(job.maker as usize))
}

pub fn fits(order: &Order, job: &Job) -> bool {
    order.memories.iter().any(|&memory| memory >= job.need)
}
