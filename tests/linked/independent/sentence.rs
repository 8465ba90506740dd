//! Document 02, "The reason as a sentence": "one English line: the job with its time and its end,
//! or each class's memory with its due time, then minutes owed and minutes on hand". "Reasons here
//! are every job over its end or, with none such, every overfull staircase; anything else composes
//! to an empty line."

use super::classes::Classes;
use super::reasons::{overfull, owed};
use super::{end, Job, Order, Reason};

/// The line that a reason composes to, of an accepted order.
pub fn composed(order: &Order, bound: i32, reason: &Reason) -> String {
    if stands(order, bound, reason) {
        line_of(order, bound, reason)
    } else {
        String::new()
    }
}

/// Whether a reason is one of those at this bound.
pub fn stands(order: &Order, bound: i32, reason: &Reason) -> bool {
    match reason {
        Reason::Job { job, time } => {
            named(order, *job).is_some_and(|own| own.time == *time && late(own, bound))
        }
        Reason::Stairs(dues) => {
            let (owed, on_hand) = minutes(order, bound, reason);
            let none_late = !order.jobs.iter().any(|job| late(job, bound));
            none_late && staircase(order, dues) && owed > on_hand
        }
    }
}

/// All reasons at this bound, each staircase tried.
pub fn standing(order: &Order, bound: i32) -> Vec<Reason> {
    let jobs = (1..).zip(&order.jobs).map(|(job, own)| Reason::Job {
        job,
        time: own.time,
    });
    let stairs = overfull(order, bound, usize::MAX);
    let all = jobs.chain(stairs.into_iter().map(Reason::Stairs));
    all.filter(|reason| stands(order, bound, reason)).collect()
}

/// "a job whose time exceeds its end".
pub fn late(job: &Job, bound: i32) -> bool {
    i64::from(job.time) > job.end(bound.into())
}

/// "a count k and, for classes 1 to k, times that never rise, each the end of some job".
pub fn staircase(order: &Order, dues: &[i32]) -> bool {
    let of_some_job = |due: &i32| order.jobs.iter().any(|job| job.due == *due);
    let classes = 1..=Classes::of(order).count();
    classes.contains(&dues.len())
        && dues.iter().all(of_some_job)
        && dues.windows(2).all(|pair| pair[0] >= pair[1])
}

/// Minutes owed and minutes on hand: "for a job, its time and its end, and for a staircase the two
/// sums just named".
pub fn minutes(order: &Order, bound: i32, reason: &Reason) -> (i64, i64) {
    let bound = i64::from(bound);
    match reason {
        Reason::Job { job, time } => {
            let end = named(order, *job).map_or(0, |own| own.end(bound));
            (i64::from(*time), end)
        }
        Reason::Stairs(dues) => {
            let classes = Classes::of(order);
            let (mut owed_in_all, mut on_hand) = (0, 0);
            for (class, due) in dues.iter().enumerate().take(classes.count()) {
                let by = end(*due, bound);
                let own = order.jobs.iter().filter(|job| classes.class(job) == class);
                owed_in_all += own.map(|job| owed(job, bound, by)).sum::<i64>();
                on_hand += classes.processors[class] * by;
            }
            (owed_in_all, on_hand)
        }
    }
}

/// The words of a reason, whether it stands or not.
pub fn line_of(order: &Order, bound: i32, reason: &Reason) -> String {
    let (owed, on_hand) = minutes(order, bound, reason);
    let what = match reason {
        Reason::Job { job, time } => format!("job {job}: time {time}, end {on_hand}"),
        Reason::Stairs(dues) => {
            let classes = Classes::of(order);
            let steps = classes.memories.iter().zip(dues);
            let steps = steps.map(|(memory, due)| format!("memory {memory} due {due}"));
            steps.collect::<Vec<String>>().join(", ")
        }
    };
    format!("{what}: owed {owed}, on hand {on_hand}")
}

/// The job of a number.
fn named(order: &Order, number: u32) -> Option<&Job> {
    let place = (number as usize).checked_sub(1)?;
    order.jobs.get(place)
}
