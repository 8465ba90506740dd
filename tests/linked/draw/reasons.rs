//! Reasons before hbr_sentence: every one that stands, those that nearly do, and numbers that are
//! no reason.

use super::Random;
use crate::expect::reason_numbers;
use crate::independent::{reason, stands, Order, Reason};
use crate::library::REASON_NUMBERS;

/// The 19 numbers of a reason at a bound; `tight` is a bound at which the order has a reason.
pub fn numbers(random: &mut Random, order: &Order, bound: i32, tight: i32) -> Vec<i32> {
    let drawn = match random.below(4) {
        0 => Some(near(random, order, tight)),
        _ => standing(random, order, bound),
    };
    let mut numbers = reason_numbers(drawn);
    match random.below(20) {
        0 => numbers.fill(random.pick(&[0, 1, 2, -1])),
        1 => numbers.fill_with(|| random.number() as i32),
        2..=7 => spoil(random, order, &mut numbers),
        _ => {}
    }
    numbers
}

/// A reason that stands at this bound, if one does: any late job, or a staircase some steps from
/// the first.
pub fn standing(random: &mut Random, order: &Order, bound: i32) -> Option<Reason> {
    let mut found = reason(order, bound)?;
    for _ in 0..random.below(6) {
        let other = match &found {
            Reason::Job { .. } => any_job(random, order),
            Reason::Stairs(dues) => Reason::Stairs(neighbour(random, order, dues)),
        };
        if stands(order, bound, &other) {
            found = other;
        }
    }
    Some(found)
}

/// A reason that may stand: a job, any staircase, one that is overfull, one next to it, or due
/// times that are none. What is overfull at a bound is so at each smaller one, where a job may be
/// late.
pub fn near(random: &mut Random, order: &Order, tight: i32) -> Reason {
    match random.below(6) {
        0 => any_job(random, order),
        1 => another_time(random, order),
        2 => any_staircase(random, order),
        _ => match standing(random, order, tight) {
            Some(Reason::Stairs(dues)) => near_stairs(random, order, dues),
            _ => any_staircase(random, order),
        },
    }
}

fn near_stairs(random: &mut Random, order: &Order, dues: Vec<i32>) -> Reason {
    Reason::Stairs(match random.below(3) {
        0 => dues,
        1 => neighbour(random, order, &dues),
        _ => crooked(random, dues),
    })
}

fn any_job(random: &mut Random, order: &Order) -> Reason {
    let place = random.below(order.jobs.len());
    Reason::Job {
        job: place as u32 + 1,
        time: order.jobs[place].time,
    }
}

/// A job with a time that is not its own.
fn another_time(random: &mut Random, order: &Order) -> Reason {
    let place = random.below(order.jobs.len());
    let more = random.pick(&[1, 2, 1_000]);
    Reason::Job {
        job: place as u32 + 1,
        time: order.jobs[place].time + more,
    }
}

fn any_staircase(random: &mut Random, order: &Order) -> Reason {
    let count = 1 + random.below(classes(order));
    let mut dues: Vec<i32> = (0..count).map(|_| random.pick(&order.jobs).due).collect();
    dues.sort();
    dues.reverse();
    Reason::Stairs(dues)
}

/// A staircase one step away: a class more or less, or a due time that is the latest from one class
/// on or the earliest up to one.
fn neighbour(random: &mut Random, order: &Order, dues: &[i32]) -> Vec<i32> {
    let mut dues = dues.to_vec();
    let place = random.below(dues.len());
    let due = random.pick(&order.jobs).due;
    match random.below(4) {
        0 if dues.len() < classes(order) => {
            let last = dues[dues.len() - 1];
            dues.push(due.min(last));
        }
        1 if dues.len() > 1 => drop(dues.pop()),
        2 => dues[place..]
            .iter_mut()
            .for_each(|step| *step = due.min(*step)),
        _ => dues[..=place]
            .iter_mut()
            .for_each(|step| *step = due.max(*step)),
    }
    dues
}

/// Due times that rise, or that are a minute away from one class on or up to one.
fn crooked(random: &mut Random, mut dues: Vec<i32>) -> Vec<i32> {
    let place = random.below(dues.len());
    match random.below(3) {
        0 => dues.reverse(),
        1 => dues[place..].iter_mut().for_each(|due| *due -= 1),
        _ => dues[..=place].iter_mut().for_each(|due| *due += 1),
    }
    dues
}

fn classes(order: &Order) -> usize {
    let mut memories = order.memories.clone();
    memories.sort();
    memories.dedup();
    memories.len()
}

/// Changes the numbers in one thing: most of the changes leave no reason.
fn spoil(random: &mut Random, order: &Order, numbers: &mut [i32]) {
    let job = random.pick(&order.jobs);
    let count = usize::try_from(numbers[1]).unwrap_or(0).min(16);
    let (time, by) = (numbers[2], random.pick(&[1, -1, 256, i32::MIN]));
    match random.below(12) {
        0 => numbers[0] = random.pick(&[0, 1, 2, 3, -1, 257, 258, i32::MAX, i32::MIN]),
        1..=2 => numbers[1] = other_count(random, order, numbers[1]),
        3 => numbers[2] = random.pick(&[0, job.time as i32, time.wrapping_neg()]),
        4 => numbers[2] = time.wrapping_add(by),
        5 => numbers[3 + random.below(16)] = job.due,
        6 => numbers[REASON_NUMBERS - 1] = by,
        7 if count < 16 => numbers[3 + count] = random.pick(&[1, job.due]),
        8..=9 if count > 0 => {
            let due = &mut numbers[3 + random.below(count)];
            *due = due.wrapping_add(by);
        }
        10 if count > 1 => numbers[3..3 + count].reverse(),
        _ => level(random, order, numbers),
    }
}

/// Another job number or class count: next to it, at and beyond the limits, or one that looks the
/// same to whoever counts in 8 or 16 bits.
fn other_count(random: &mut Random, order: &Order, count: i32) -> i32 {
    let limits = [order.jobs.len() as i32, classes(order) as i32, 16, 48];
    match random.below(4) {
        0 => random.pick(&[0, -1, i32::MIN, i32::MAX]),
        1 => random.pick(&limits) + random.pick(&[0, 1]),
        2 => count.wrapping_add(random.pick(&[256, 65_536, 1 << 24])),
        _ => count + random.pick(&[1, -1]),
    }
}

/// A staircase of one due time throughout, of no class or of one class too many.
fn level(random: &mut Random, order: &Order, numbers: &mut [i32]) {
    let due = random.pick(&order.jobs).due;
    let count = random.pick(&[0, classes(order) + 1]).min(16);
    numbers.fill(0);
    numbers[..2].copy_from_slice(&[2, count as i32]);
    numbers[3..3 + count].fill(due);
}
