//! Document 02, "Times known only between two numbers": "Before a session is read its working time is an
//! estimate: a low and a high." "each whole number between them is reached by some such order": "the first
//! met when job 1, then job 2 and so on, goes minute by minute from low to high". That path is walked minute
//! by minute or, where it is long, halved.

use super::accept::{first, fits, is_due, is_made, is_time, judge_counts};
use super::limits::DOCK;
use super::{least, meets, Job, Order, Refusal};

/// An order that has the lows for its times, and a high to each job, in input order.
#[derive(Clone, Debug, PartialEq)]
pub struct Estimate {
    pub lows: Order,
    pub highs: Vec<u32>,
}

impl Estimate {
    /// An order with these highs, or none where there is not one to a job.
    pub fn of(lows: &Order, highs: &[u32]) -> Option<Estimate> {
        let each = highs.len() == lows.jobs.len();
        each.then(|| Estimate {
            lows: lows.clone(),
            highs: highs.to_vec(),
        })
    }

    /// The order with other times.
    pub fn at(&self, times: &[u32]) -> Order {
        let mut order = self.lows.clone();
        for (job, time) in order.jobs.iter_mut().zip(times) {
            job.time = *time;
        }
        order
    }

    /// How many minutes the path has, of an accepted estimate.
    pub fn minutes(&self) -> u64 {
        let both = self.lows.jobs.iter().zip(&self.highs);
        both.map(|(job, high)| u64::from(high - job.time)).sum()
    }

    /// The order of the path after so many minutes: whatever a job leaves of them goes on to the next.
    pub fn after(&self, minutes: u64) -> Order {
        let mut left = minutes;
        let time = |(job, high): (&Job, &u32)| {
            let gone = left.min(u64::from(high - job.time));
            left -= gone;
            job.time + gone as u32
        };
        let times: Vec<u32> = self.lows.jobs.iter().zip(&self.highs).map(time).collect();
        self.at(&times)
    }
}

/// The refusal of an estimate: "both ends must be in the time's range or 5 is given"; "A low above its high
/// is 19, after 6 and 13".
pub fn judge_estimate(estimate: &Estimate) -> Option<Refusal> {
    let Estimate { lows, highs } = estimate;
    let in_range = |place: usize, low: u32| is_time(low) && is_time(highs[place]);
    judge_counts(&DOCK, lows)
        .or_else(|| first(lows, 5, |place, job| !in_range(place, job.time)))
        .or_else(|| first(lows, 6, |_, job| !is_due(job)))
        .or_else(|| first(lows, 13, |_, job| !is_made(job)))
        .or_else(|| first(lows, 19, |place, job| job.time > highs[place]))
        .or_else(|| first(lows, 7, |_, job| !fits(lows, job)))
}

/// "the least lateness at all lows and at all highs", of an accepted estimate.
pub fn leasts(estimate: &Estimate) -> (i32, i32) {
    let highs = estimate.at(&estimate.highs);
    (least(&estimate.lows), least(&highs))
}

/// The orders of the path, the lows first, each with its least lateness.
pub fn walk(estimate: &Estimate) -> Vec<(Order, i32)> {
    let mut order = estimate.lows.clone();
    let mut met = vec![(order.clone(), least(&order))];
    for (place, high) in estimate.highs.iter().enumerate() {
        while order.jobs[place].time < *high {
            order.jobs[place].time += 1;
            met.push((order.clone(), least(&order)));
        }
    }
    met
}

/// The first order of a walk whose least lateness is this number; "A number outside the two yields no order."
pub fn first_met(walk: &[(Order, i32)], number: i32) -> Option<Order> {
    let met = walk.iter().find(|(_, least)| *least == number);
    met.map(|(order, _)| order.clone())
}

/// The same without the walk: no minute more makes an order less late, so the path is halved down to two
/// neighbours, of which the first is less late than this number and the second is not. Their least
/// latenesses must then be the number less one and the number.
pub fn met_by_halving(estimate: &Estimate, number: i32) -> Option<Order> {
    let number = i64::from(number);
    let less_late = |minutes: u64| meets(&estimate.after(minutes), number - 1);
    let (mut before, mut from) = (0, estimate.minutes());
    if !less_late(before) {
        let met = meets(&estimate.lows, number);
        return met.then(|| estimate.lows.clone());
    }
    if less_late(from) {
        return None;
    }
    while from - before > 1 {
        let middle = before + (from - before) / 2;
        match less_late(middle) {
            true => before = middle,
            false => from = middle,
        }
    }
    let reached = meets(&estimate.after(from), number);
    let neighbour = !meets(&estimate.after(before), number - 2);
    assert!(reached && neighbour, "a step of over one: {estimate:?}");
    Some(estimate.after(from))
}
