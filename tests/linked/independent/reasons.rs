//! "Why a bound is too tight": the first job whose time exceeds its end, else the first overfull
//! staircase: "the fewest classes, then the earliest time for class 1, then for class 2, and so
//! on". Where there are few staircases each is tried; else sums over the best completions replace
//! that.

use super::classes::Classes;
use super::{end, Job, Order, Reason};
use std::collections::BTreeSet;

const FEW: usize = 5_000;

/// The reason why an accepted order has no plan at a bound, or none where no staircase is overfull.
pub fn reason(order: &Order, bound: i32) -> Option<Reason> {
    if staircases(order) <= FEW {
        reason_by_trying(order, bound)
    } else {
        reason_by_table(order, bound)
    }
}

/// The reason, each staircase tried in the order of the ranking.
pub fn reason_by_trying(order: &Order, bound: i32) -> Option<Reason> {
    late_job(order, bound).or_else(|| overfull(order, bound, 1).pop().map(Reason::Stairs))
}

/// The first overfull staircases in the order of the ranking, at most so many, as due times.
pub fn overfull(order: &Order, bound: i32, most: usize) -> Vec<Vec<i32>> {
    let slopes = Slopes::of(order, bound);
    let mut found = Vec::new();
    for k in 1..=slopes.excess.len() {
        slopes.try_each(k, &mut Vec::new(), most, &mut found);
    }
    found
}

/// The reason, the staircase found by the best completions.
pub fn reason_by_table(order: &Order, bound: i32) -> Option<Reason> {
    late_job(order, bound).or_else(|| {
        let slopes = Slopes::of(order, bound);
        let first = (1..=slopes.excess.len()).find_map(|k| slopes.first_completed(k));
        first.map(|times| Reason::Stairs(slopes.due_times(&times)))
    })
}

/// How many staircases an order has: for k classes as many as non-rising lists of k due times.
pub fn staircases(order: &Order) -> usize {
    let dues: BTreeSet<i32> = order.jobs.iter().map(|job| job.due).collect();
    let mut lists = vec![1_usize; dues.len()];
    let mut all = 0_usize;
    for _ in 0..Classes::of(order).count() {
        all = all.saturating_add(
            lists
                .iter()
                .fold(0, |sum, lists| sum.saturating_add(*lists)),
        );
        for due in 1..lists.len() {
            lists[due] = lists[due].saturating_add(lists[due - 1]);
        }
    }
    all
}

fn late_job(order: &Order, bound: i32) -> Option<Reason> {
    let late = |job: &Job| i64::from(job.time) > job.end(bound.into());
    let place = order.jobs.iter().position(late)?;
    Some(Reason::Job {
        job: place as u32 + 1,
        time: order.jobs[place].time,
    })
}

/// "its whole time if its end is at most T, else its time less (end - T), and 0 if that is
/// negative".
pub fn owed(job: &Job, bound: i64, by: i64) -> i64 {
    let (time, end) = (i64::from(job.time), job.end(bound));
    if end <= by {
        time
    } else {
        (time - (end - by)).max(0)
    }
}

/// For each class and each distinct end, the minutes owed less the minutes on hand: a staircase is
/// overfull if those of its steps sum to more than 0. A time is a place in the list of due times.
struct Slopes {
    dues: Vec<i32>,
    excess: Vec<Vec<i64>>,
}

impl Slopes {
    fn of(order: &Order, bound: i32) -> Slopes {
        let bound = i64::from(bound);
        let classes = Classes::of(order);
        let dues: BTreeSet<i32> = order.jobs.iter().map(|job| job.due).collect();
        let excess = |class: usize, due: &i32| {
            let by = end(*due, bound);
            let of_class = order.jobs.iter().filter(|job| classes.class(job) == class);
            let owed: i64 = of_class.map(|job| owed(job, bound, by)).sum();
            owed - classes.processors[class] * by
        };
        let row = |class| dues.iter().map(|due| excess(class, due)).collect();
        Slopes {
            excess: (0..classes.count()).map(row).collect(),
            dues: dues.iter().copied().collect(),
        }
    }

    fn due_times(&self, times: &[usize]) -> Vec<i32> {
        times.iter().map(|&time| self.dues[time]).collect()
    }

    /// Adds the overfull staircases of k classes that begin with these times, until `most` are
    /// found.
    fn try_each(&self, k: usize, times: &mut Vec<usize>, most: usize, found: &mut Vec<Vec<i32>>) {
        if found.len() == most {
            return;
        }
        if times.len() == k {
            let steps = times.iter().zip(&self.excess);
            let sum: i64 = steps.map(|(&time, excess)| excess[time]).sum();
            if sum > 0 {
                found.push(self.due_times(times));
            }
            return;
        }
        let latest = times.last().copied().unwrap_or(self.dues.len() - 1);
        for time in 0..=latest {
            times.push(time);
            self.try_each(k, times, most, found);
            times.pop();
        }
    }

    /// For each class up to k and each time, the largest sum from this class at this time on.
    fn completions(&self, k: usize) -> Vec<Vec<i64>> {
        let mut best = self.excess[..k].to_vec();
        for class in (0..k - 1).rev() {
            let mut largest = i64::MIN;
            for time in 0..self.dues.len() {
                largest = largest.max(best[class + 1][time]);
                best[class][time] += largest;
            }
        }
        best
    }

    /// The first overfull staircase of k classes: each class takes the earliest time from which the
    /// rest can still be completed to an overfull one.
    fn first_completed(&self, k: usize) -> Option<Vec<usize>> {
        let best = self.completions(k);
        let mut latest = self.dues.len() - 1;
        let mut sum = 0;
        let mut times = Vec::new();
        for class in 0..k {
            latest = (0..=latest).find(|&time| sum + best[class][time] > 0)?;
            sum += self.excess[class][latest];
            times.push(latest);
        }
        Some(times)
    }
}
