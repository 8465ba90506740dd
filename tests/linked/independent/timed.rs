//! The planner with ready minutes and windows: "It answers a right plan in which no row begins before
//! its job's ready minute or its processor's opening, nor has a `to` above that processor's closing, or
//! too tight where there is none". "Its stretches lie between those times, laid out on the open
//! processors as in document 01 and joined as in §2."

use super::amounts::{served, Room};
use super::classes::Classes;
use super::clip::clipped_to;
use super::join::join;
use super::rules::right;
use super::times::{open, timed_stretches, Times};
use super::wrap::wrap;
use super::{Order, Row};

/// Whether some such plan meets the bound, of an accepted order and accepted times.
pub fn timed_meets(order: &Order, times: &Times, bound: i64) -> bool {
    timed_amounts(order, times, bound).is_some()
}

/// Such a plan at a bound, or none.
pub fn timed_plan(order: &Order, times: &Times, bound: i64) -> Option<Vec<Row>> {
    let amounts = timed_amounts(order, times, bound)?;
    Some(timed_joined(order, times, bound, &amounts))
}

/// Amounts by stretch, then by job, that give each job its whole time on the open processors: none
/// before its ready minute, none after its end.
pub fn timed_amounts(order: &Order, times: &Times, bound: i64) -> Option<Vec<Vec<i64>>> {
    let classes = Classes::of(order);
    let room = |(from, to)| {
        let present = |(place, ready): (usize, &u32)| {
            i64::from(*ready) <= from && to <= order.jobs[place].end(bound)
        };
        let open = open(times, (from, to));
        let memories = open.iter().map(|place| order.memories[*place]);
        Room {
            length: to - from,
            jobs: times.ready.iter().enumerate().map(present).collect(),
            processors: classes.counts(&memories.collect::<Vec<u32>>()),
        }
    };
    let stretches = timed_stretches(order, times, bound).into_iter();
    served(order, &classes, &stretches.map(room).collect::<Vec<Room>>())
}

/// The rows of amounts, given by stretch and then by job, stretch by stretch on the open processors.
pub fn timed_layout(
    order: &Order,
    times: &Times,
    bound: i64,
    amounts: &[Vec<i64>],
) -> Vec<Vec<Row>> {
    let stretches = timed_stretches(order, times, bound);
    let both = stretches.into_iter().zip(amounts);
    both.map(|(stretch, amounts)| wrap(order, &open(times, stretch), stretch, amounts))
        .collect()
}

/// The same, joined.
pub fn timed_joined(order: &Order, times: &Times, bound: i64, amounts: &[Vec<i64>]) -> Vec<Row> {
    let laid_out = timed_layout(order, times, bound, amounts);
    join(&timed_stretches(order, times, bound), &laid_out)
}

/// The minutes that rows give, by stretch and then by job, of rows whose jobs exist.
pub fn timed_clipped(order: &Order, times: &Times, bound: i64, rows: &[Row]) -> Vec<Vec<i64>> {
    clipped_to(order, &timed_stretches(order, times, bound), rows)
}

/// Whether the numbers are a right plan that keeps the times.
pub fn timed_right(order: &Order, times: &Times, bound: i64, numbers: &[u32]) -> bool {
    let keeps = |row: &[u32]| {
        let ready = times.ready[row[0] as usize - 1];
        let [opening, closing] = times.windows[row[1] as usize - 1];
        row[2] >= ready && row[2] >= opening && row[3] <= closing
    };
    right(order, bound, numbers) && numbers.chunks_exact(4).all(keeps)
}
