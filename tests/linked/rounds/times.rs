//! Orders with ready minutes and windows before the three functions that take these: plans at bounds
//! around the least that the times let be met, row lists that keep the times or break one of them, and
//! times that are refused or of a wrong length.

use super::trial_of;
use crate::draw::bounds::Around;
use crate::draw::files::file_of;
use crate::draw::held::HELD_FAMILIES;
use crate::draw::lengths::{room, times_length};
use crate::draw::orders::{Family, LARGE_FAMILIES, SMALL_FAMILIES};
use crate::draw::times::{damaged, drawn, least, window_numbers, OF_TIMES};
use crate::draw::{keeping, lists, sharp, Random};
use crate::independent::{
    self, plan, timed_plan, timed_rows_asked, Order, Row, Times, MOST_MINUTE, MOST_TIMED_ROWS,
};
use crate::lent::Call;
use crate::library::Function;
use crate::trial::Trial;

pub fn small(trial: &mut Trial, seed: u64) {
    timed_order(trial, SMALL_FAMILIES, seed);
}

pub fn large(trial: &mut Trial, seed: u64) {
    timed_order(trial, LARGE_FAMILIES, seed);
}

/// Jobs that lie elsewhere than they are given.
pub fn held(trial: &mut Trial, seed: u64) {
    timed_order(trial, HELD_FAMILIES, seed);
}

/// An accepted order with drawn times.
struct Subject {
    order: Order,
    file: Vec<u8>,
    times: Times,
    around: Around,
    /// a bound, and a plan that meets it and keeps the times, where there is one at any bound; else
    /// one that does not keep them
    made_at: i32,
    made: Vec<Row>,
}

fn timed_order(trial: &mut Trial, families: &[Family], seed: u64) {
    let subject = subject(trial, families, seed);
    let Subject { order, around, .. } = &subject;
    for _ in 0..2 {
        trial_of(trial, Function::TimedRows, |random, answer| {
            let bound = around.bound(random);
            lent(random, &subject, &subject.times, answer).at(bound)
        });
    }
    for _ in 0..6 {
        trial_of(trial, Function::TimedPlan, |random, answer| {
            let loose = random.once_in(3);
            let later = around.least + random.between(0, 12) as i32;
            let bound = if loose { later } else { around.bound(random) };
            let asked = timed_rows_asked(order, &subject.times, bound.into());
            let room = room(random, asked);
            lent(random, &subject, &subject.times, answer)
                .with_room(random, room)
                .at(bound)
        });
    }
    checks(trial, &subject);
}

fn subject(trial: &mut Trial, families: &[Family], seed: u64) -> Subject {
    let (_, family) = families[seed as usize % families.len()];
    let order = family(&mut trial.random);
    let file = file_of(&mut trial.random, &order);
    let without = trial.least(&file);
    let (times, found) = mostly_met(&mut trial.random, &order, without);
    let around = Around::of(&order, found.unwrap_or(without));
    let made_at = around.least + trial.random.pick(&[0, 0, 3]);
    let made = timed_plan(&order, &times, made_at.into());
    let made = made.or_else(|| plan(&order, made_at));
    Subject {
        made: made.expect("the least lateness is met without times"),
        made_at,
        order,
        file,
        times,
        around,
    }
}

/// Times for an order with this least lateness, and the least bound that they let be met. Where none is
/// met, they are drawn again up to three times.
fn mostly_met(random: &mut Random, order: &Order, without: i32) -> (Times, Option<i32>) {
    let mut times = drawn(random, order, without);
    let mut found = least(order, &times, without);
    for _ in 0..3 {
        if found.is_none() {
            times = drawn(random, order, without);
            found = least(order, &times, without);
        }
    }
    (times, found)
}

/// A call with the times as they are, or with ones that are refused, in lists of drawn lengths.
fn lent(random: &mut Random, subject: &Subject, times: &Times, answer: usize) -> Call {
    let mut times = times.clone();
    if random.once_in(10) {
        let number = random.pick(&OF_TIMES);
        times = damaged(random, &times, number);
    }
    let mut windows = window_numbers(&times.windows);
    resize(random, &mut times.ready);
    resize(random, &mut windows);
    Call::with_file(random, &subject.file, answer).with_times(random, &times.ready, &windows)
}

/// Gives a list of times a drawn length; numbers that are added are good ones.
fn resize(random: &mut Random, list: &mut Vec<u32>) {
    let length = times_length(random, list.len());
    list.resize_with(length, || random.between(0, MOST_MINUTE.into()) as u32);
}

/// Row lists before the check, with the times that they were made for or with ones that they break or
/// just keep.
fn checks(trial: &mut Trial, subject: &Subject) {
    let Subject {
        order,
        times,
        around,
        made_at,
        made,
        ..
    } = subject;
    for turn in 0..9 {
        trial_of(trial, Function::TimedCheck, |random, answer| {
            let sharp_times = keeping::sharp(random, times, made);
            let (times, rows) = match turn {
                0 => (times, made.concat()),
                1 => (times, any_list(random, made)),
                2 => (times, sharp::one_rule_broken(random, order, *made_at, made)),
                3 | 4 => (times, lists::hostile(random, made)),
                5 => (times, without_times(order, around.least)),
                _ => (&sharp_times, made.concat()),
            };
            let bound = match random.below(10) {
                0 => around.bound(random),
                1 => made_at + random.between(-1, 9) as i32,
                _ => *made_at,
            };
            lent(random, subject, times, answer)
                .with_rows(random, &rows)
                .at(bound)
        });
    }
}

/// A list that is no plan, or one around the most rows that this check takes.
fn any_list(random: &mut Random, made: &[Row]) -> Vec<u32> {
    match random.below(4) {
        0 => lists::senseless(random),
        _ => super::at_most_rows(random, made, MOST_TIMED_ROWS),
    }
}

/// A plan that no times were asked of.
fn without_times(order: &Order, bound: i32) -> Vec<u32> {
    plan(order, bound).unwrap_or_default().concat()
}

/// A call with times for the lists of a file, accepted or not, which are sometimes refused and
/// sometimes of a wrong length.
pub fn with_any_times(random: &mut Random, file: &[u8], call: Call) -> Call {
    let (jobs, processors) = match independent::lists(file) {
        Some(order) => (order.jobs.len(), order.memories.len()),
        None => (random.below(49), random.below(17)),
    };
    let good = |count: usize, numbers: &[u32]| numbers.repeat(count);
    let ready = random.pick(&[0, 0, 7, MOST_MINUTE, MOST_MINUTE + 1]);
    let window = random.pick(&[
        [0, MOST_MINUTE],
        [0, 9],
        [7, 8],
        [7, 7],
        [0, MOST_MINUTE + 1],
    ]);
    let mut ready = good(jobs, &[ready]);
    let mut windows = good(processors, &window);
    resize(random, &mut ready);
    resize(random, &mut windows);
    call.with_times(random, &ready, &windows)
}
