//! Estimates before the two functions that take highs: the leasts at the lows and at the highs, the orders
//! met for numbers around these and far from them, estimates that are refused, and lists of highs of a wrong
//! length. "any order with times between has its least lateness between these two": orders with drawn times
//! and orders that were written go before hbr_least.

use super::trial_of;
use crate::draw::estimates::{between, damaged, numbers, short, wide, OF_ESTIMATES};
use crate::draw::files::file_of;
use crate::draw::held::HELD_FAMILIES;
use crate::draw::lengths::{order_room, times_length};
use crate::draw::orders::{Family, LARGE_FAMILIES, SMALL_FAMILIES};
use crate::draw::Random;
use crate::independent::{self, read, rows_asked, write, Estimate, Order};
use crate::lent::Call;
use crate::library::{Function, ESTIMATED};
use crate::trial::Trial;

pub fn small(trial: &mut Trial, seed: u64) {
    let order = drawn(trial, SMALL_FAMILIES, seed);
    let estimate = short(&mut trial.random, &order);
    asked(trial, &estimate);
    refused(trial, &estimate, seed);
    let estimate = wide(&mut trial.random, &order);
    asked(trial, &estimate);
}

pub fn large(trial: &mut Trial, seed: u64) {
    let order = drawn(trial, LARGE_FAMILIES, seed);
    let estimate = wide(&mut trial.random, &order);
    asked(trial, &estimate);
}

/// Jobs that lie elsewhere than they are given.
pub fn held(trial: &mut Trial, seed: u64) {
    let order = drawn(trial, HELD_FAMILIES, seed);
    let estimate = short(&mut trial.random, &order);
    asked(trial, &estimate);
}

fn drawn(trial: &mut Trial, families: &[Family], seed: u64) -> Order {
    let (_, family) = families[seed as usize % families.len()];
    family(&mut trial.random)
}

fn asked(trial: &mut Trial, estimate: &Estimate) {
    let file = file_of(&mut trial.random, &estimate.lows);
    let call = Call::with_file(&mut trial.random, &file, 2);
    let call = call.with_highs(&mut trial.random, &estimate.highs);
    let Some((_, after)) = trial.call(Function::Between, call) else {
        return;
    };
    let leasts = (after.answer.content()[0], after.answer.content()[1]);
    trial_of(trial, Function::Between, |random, answer| {
        lent(random, &file, &estimate.highs, answer)
    });
    let mut written = Vec::new();
    for number in numbers(&mut trial.random, leasts.0, leasts.1) {
        let answer = 1 + trial.random.below(2);
        let call = lent(&mut trial.random, &file, &estimate.highs, answer);
        let call = asking(&mut trial.random, call, number, file.len());
        let done = trial.call(Function::BetweenOrder, call);
        written.extend(order_written(done).map(|bytes| (number, bytes)));
    }
    trial_of(trial, Function::BetweenOrder, |random, answer| {
        let call = lent(random, &file, &estimate.highs, answer);
        asking(random, call, leasts.0, file.len())
    });
    for (number, bytes) in written {
        planned(trial, &bytes, (number, number), true);
    }
    for _ in 0..2 {
        let order = between(&mut trial.random, estimate);
        planned(trial, &write(&order), leasts, false);
    }
}

/// The order that a call wrote, if it wrote one.
fn order_written(done: Option<(u32, Call)>) -> Option<Vec<u8>> {
    let (result, after) = done?;
    let length = after.answer.content()[0];
    let wrote = result == 0 && length > 0;
    wrote.then(|| after.order.content()[..length as usize].to_vec())
}

/// The order of a file has its least lateness between these two, by hbr_least and by the independent
/// implementation.
fn planned(trial: &mut Trial, file: &[u8], (low, high): (i32, i32), written: bool) {
    let Ok(order) = read(file) else {
        return trial.differs(format!("no order is written: {file:?}"));
    };
    let room = 4 * rows_asked(&order);
    let call = Call::with_file(&mut trial.random, file, 2).with_room(&mut trial.random, room);
    let Some((_, after)) = trial.call(Function::Least, call) else {
        return;
    };
    trial.tally.count_between(written);
    let leasts = [after.answer.content()[0], trial.least(file)];
    if leasts != leasts.map(|least| least.clamp(low, high)) {
        trial.differs(format!("{leasts:?} is not from {low} to {high}: {order:?}"));
    }
}

/// A call with these highs, in a list of drawn length; numbers that are added are good ones.
fn lent(random: &mut Random, file: &[u8], highs: &[u32], answer: usize) -> Call {
    let mut highs = highs.to_vec();
    let length = times_length(random, highs.len());
    highs.resize_with(length, || random.between(1, 100_000) as u32);
    Call::with_file(random, file, answer).with_highs(random, &highs)
}

/// The same with this number and with drawn room for an order whose file has this length.
fn asking(random: &mut Random, call: Call, number: i32, length: usize) -> Call {
    let room = order_room(random, length);
    call.with_order_room(random, number, room)
}

/// Estimates that are not accepted.
fn refused(trial: &mut Trial, estimate: &Estimate, seed: u64) {
    for turn in 0..3 {
        let number = OF_ESTIMATES[(seed as usize + turn) % OF_ESTIMATES.len()];
        let bad = damaged(&mut trial.random, estimate, number);
        let file = file_of(&mut trial.random, &bad.lows);
        for function in ESTIMATED {
            trial_of(trial, function, |random, answer| {
                let number = random.between(-20, 20) as i32;
                let call = lent(random, &file, &bad.highs, answer);
                asking(random, call, number, file.len())
            });
        }
    }
}

/// A call with highs for the jobs of a file, accepted or not, which are sometimes refused and sometimes of a
/// wrong length.
pub fn with_any_highs(random: &mut Random, file: &[u8], call: Call) -> Call {
    let listed = independent::lists(file);
    let lows: Vec<u32> = match listed {
        Some(order) => order.jobs.iter().map(|job| job.time).collect(),
        None => vec![1; random.below(49)],
    };
    let high = random.pick(&[0, 0, 9, 9, 100_000, 100_001]);
    let mut highs: Vec<u32> = lows.iter().map(|low| (*low).max(high)).collect();
    if random.once_in(6) {
        highs.fill(high);
    }
    let length = times_length(random, highs.len());
    highs.resize(length, 9);
    let number = random.pick(&[0, -1, 1, 5, i32::MIN, i32::MAX]);
    let call = call.with_highs(random, &highs);
    asking(random, call, number, file.len().max(1))
}
