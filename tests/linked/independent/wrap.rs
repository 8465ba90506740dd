//! "The planner cuts time at the distinct ends into stretches, the first from minute 0. Inside a
//! stretch the jobs' amounts are laid out by McNaughton's wrap".

use super::{Order, Row};
use std::cmp::Reverse;
use std::collections::BTreeSet;

/// "With q distinct due times, n jobs and m processors there are at most q × (n + m - 1) rows."
pub fn rows_asked(order: &Order) -> usize {
    let dues: BTreeSet<i32> = order.jobs.iter().map(|job| job.due).collect();
    dues.len() * (order.jobs.len() + order.memories.len() - 1)
}

/// The stretches with their beginnings and ends, in order of time.
pub fn stretches(order: &Order, bound: i64) -> Vec<(i64, i64)> {
    let ends: BTreeSet<i64> = order.jobs.iter().map(|job| job.end(bound)).collect();
    let mut from = 0;
    let mut stretches = Vec::new();
    for to in ends.into_iter().filter(|end| *end > 0) {
        stretches.push((from, to));
        from = to;
    }
    stretches
}

/// The rows of amounts, given by stretch and then by job, stretch by stretch.
pub fn layout(order: &Order, bound: i64, amounts: &[Vec<i64>]) -> Vec<Vec<Row>> {
    let stretches = stretches(order, bound);
    let all: Vec<usize> = (0..order.memories.len()).collect();
    let both = stretches.into_iter().zip(amounts);
    both.map(|(stretch, amounts)| wrap(order, &all, stretch, amounts))
        .collect()
}

/// The rows of one stretch on these processors, given in input order: "processors by falling memory".
pub fn wrap(order: &Order, processors: &[usize], stretch: (i64, i64), amounts: &[i64]) -> Vec<Row> {
    let mut processors = processors.to_vec();
    processors.sort_by_key(|&processor| Reverse(order.memories[processor]));
    wrap_along(order, &processors, stretch, amounts).expect("processors for the amounts")
}

/// The rows of one stretch along processors in this order, where these suffice: "jobs with an amount
/// by falling need, ties in input order; fill a processor to the stretch's end, then go on at the
/// next one's beginning".
pub fn wrap_along(
    order: &Order,
    processors: &[usize],
    (begin, end): (i64, i64),
    amounts: &[i64],
) -> Option<Vec<Row>> {
    let mut jobs: Vec<usize> = (0..order.jobs.len()).collect();
    jobs.sort_by_key(|&job| Reverse(order.jobs[job].need));
    let length = end - begin;
    let mut rows = Vec::new();
    let mut laid_out = 0;
    for job in jobs {
        let mut left = amounts[job];
        while left > 0 {
            let processor = *processors.get((laid_out / length) as usize)?;
            let from = laid_out % length;
            let piece = left.min(length - from);
            let (from, to) = (begin + from, begin + from + piece);
            rows.push([job as u32 + 1, processor as u32 + 1, from as u32, to as u32]);
            laid_out += piece;
            left -= piece;
        }
    }
    Some(rows)
}
