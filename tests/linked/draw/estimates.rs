//! Estimates: a low and a high to each job of an order. Spans are short enough to be walked, or wide; the
//! first job, one in the middle, the last one or all have a low that equals its high, or that job alone has
//! not; one goes on for long without making the order later. Numbers of a least lateness around those at
//! the lows and at the highs. And estimates that are refused, one damage or several at once.

use super::{makers, Random};
use crate::independent::{Estimate, Job, Order};

const LONGEST: u32 = 100_000;

/// The most minutes of a short path, and of one with many jobs.
const MINUTES: u32 = 20;
const FEW_MINUTES: u32 = 5;

/// So many numbers are asked for each; of more, those around the ends and some between.
const EACH: i32 = 30;

/// The first job, one in the middle or the last.
fn one_job(random: &mut Random, order: &Order) -> usize {
    let last = order.jobs.len() - 1;
    random.pick(&[0, last / 2, last])
}

/// Spans that can be walked.
pub fn short(random: &mut Random, order: &Order) -> Estimate {
    let mut order = order.clone();
    let alone = one_job(random, &order);
    let how = random.below(9);
    if how >= 7 {
        order.jobs[alone].due = (order.jobs[alone].due + 15).min(1_000_000);
    }
    let mut left = match order.jobs.len() {
        ..=12 => MINUTES,
        _ => FEW_MINUTES,
    };
    let mut highs = Vec::new();
    for (place, job) in order.jobs.iter_mut().enumerate() {
        let span = match how {
            0 => 0,
            1 if place == alone => 1 + random.below(9) as u32,
            1 => 0,
            2 if place == alone => 0,
            2 => 1 + random.below(3) as u32,
            3 => 1,
            7.. if place == alone => 8,
            _ => random.below(4) as u32,
        };
        let span = span.min(left);
        left -= span;
        job.time = job.time.min(LONGEST - span);
        highs.push(job.time + span);
    }
    Estimate { lows: order, highs }
}

/// Spans that are mostly too wide to be walked.
pub fn wide(random: &mut Random, order: &Order) -> Estimate {
    let mut order = order.clone();
    let alone = one_job(random, &order);
    let how = random.below(6);
    let mut highs = Vec::new();
    for (place, job) in order.jobs.iter_mut().enumerate() {
        let time = i64::from(job.time);
        let up = random.between(time, LONGEST.into()) as u32;
        let down = random.between(1, time) as u32;
        let (low, high) = match how {
            0 => (1, LONGEST),
            1 => (1, up),
            2 => (down, job.time),
            3 if place == alone => (down, up),
            3 => (job.time, job.time),
            4 if place == alone => (job.time, job.time),
            _ => (down, up),
        };
        job.time = low;
        highs.push(high);
    }
    Estimate { lows: order, highs }
}

/// The order with times between, both ends included and often met.
pub fn between(random: &mut Random, estimate: &Estimate) -> Order {
    let both = estimate.lows.jobs.iter().zip(&estimate.highs);
    let time = |(job, high): (&Job, &u32)| {
        let any = random.between(job.time.into(), (*high).into()) as u32;
        random.pick(&[any, any, job.time, *high])
    };
    let times: Vec<u32> = both.map(time).collect();
    estimate.at(&times)
}

/// Numbers around the least lateness at the lows and that at the highs, and far from them.
pub fn numbers(random: &mut Random, at_lows: i32, at_highs: i32) -> Vec<i32> {
    let mut numbers: Vec<i32> = match at_highs - at_lows {
        ..=EACH => (at_lows - 2..=at_highs + 2).collect(),
        _ => {
            let ends = [-2, -1, 0, 1].map(|away| [at_lows + away, at_highs - away]);
            let between = |_| random.between(at_lows.into(), at_highs.into()) as i32;
            let between = (0..3).map(between);
            ends.concat().into_iter().chain(between).collect()
        }
    };
    let alike = random.pick(&[256, 65_536, 1 << 24]);
    let far = [i32::MIN, i32::MAX, -10_000_001, 10_000_001];
    numbers.extend([at_lows + alike, at_highs - alike, random.pick(&far)]);
    numbers
}

/// The refusals of an estimate's jobs, in the order in which they are told.
pub const OF_ESTIMATES: [u32; 5] = [5, 6, 13, 19, 7];

/// The estimate with one or more damages, the first of them that of this refusal.
pub fn damaged(random: &mut Random, estimate: &Estimate, number: u32) -> Estimate {
    let mut estimate = estimate.clone();
    damage(random, &mut estimate, number);
    while random.once_in(2) {
        let another = random.pick(&OF_ESTIMATES);
        damage(random, &mut estimate, another);
    }
    estimate
}

fn damage(random: &mut Random, estimate: &mut Estimate, number: u32) {
    let Estimate { lows, highs } = estimate;
    let place = random.below(highs.len());
    let (job, high) = (&mut lows.jobs[place], &mut highs[place]);
    let far = random.pick(&[0, LONGEST + 1, LONGEST + 1, 1 << 31, u32::MAX]);
    match number {
        5 => match random.below(4) {
            0 => (job.time, *high) = (far, far),
            1 | 2 => job.time = far,
            _ => *high = far,
        },
        6 => job.due = random.pick(&[-1_000_001, 1_000_001, i32::MIN, i32::MAX]),
        13 => job.maker = makers::nobody(random),
        19 => {
            *high = (*high).clamp(1, LONGEST - 1);
            job.time = random.pick(&[*high + 1, LONGEST]);
        }
        _ => {
            job.need = random.pick(&[1, 2, 1_000, u32::MAX]);
            let too_much = job.need;
            for memory in &mut lows.memories {
                *memory = (*memory).min(too_much - 1);
            }
        }
    }
}
