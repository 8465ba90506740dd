//! Orders whose jobs lie elsewhere than they are given before all functions that take an order: where
//! there is a plan, where a staircase is the reason, where several jobs are late, with ready minutes
//! and windows, with lows and highs, and where two jobs are refused.

use super::refused::read_all;
use super::{accepted_order, estimates, times, trial_of, write_order};
use crate::draw::bounds::Around;
use crate::draw::files::file_of;
use crate::draw::held::{several_late, two_not_ready, two_refused, HELD_FAMILIES};
use crate::draw::lengths::{line_room, room};
use crate::draw::{lines, reasons, Random};
use crate::expect::reason_numbers;
use crate::independent::{line_of, rows_asked, Order};
use crate::lent::Call;
use crate::library::{Function, TIMED};
use crate::trial::Trial;

pub fn any_needs(trial: &mut Trial, seed: u64) {
    several(trial, seed);
    refused(trial, seed);
    accepted_order(trial, HELD_FAMILIES, seed);
    times::held(trial, seed);
    estimates::held(trial, seed);
}

fn drawn(trial: &mut Trial, seed: u64) -> Order {
    let (_, family) = HELD_FAMILIES[seed as usize % HELD_FAMILIES.len()];
    family(&mut trial.random)
}

/// Several jobs are late: "the first such in input order".
fn several(trial: &mut Trial, seed: u64) {
    let order = drawn(trial, seed);
    let file = file_of(&mut trial.random, &order);
    for _ in 0..6 {
        let bound = several_late(&mut trial.random, &order);
        trial_of(trial, Function::Reason, |random, answer| {
            Call::with_file(random, &file, answer).at(bound)
        });
        worded(trial, &order, &file, bound);
    }
    for function in [Function::Plan, Function::BookPlan] {
        trial_of(trial, function, |random, answer| {
            let room = room(random, rows_asked(&order));
            let book = super::book(random, &order);
            let bound = several_late(random, &order);
            Call::with_file(random, &file, answer)
                .with_room(random, room)
                .with_book(random, &book)
                .at(bound)
        });
    }
}

/// A reason that stands at this bound is composed, and a line is read back.
fn worded(trial: &mut Trial, order: &Order, file: &[u8], bound: i32) {
    trial_of(trial, Function::Sentence, |random, answer| {
        let reason = reasons::standing(random, order, bound);
        let length = |reason| line_of(order, bound, reason).len();
        let room = line_room(random, reason.as_ref().map_or(0, length));
        Call::with_file(random, file, answer)
            .with_reason(random, &reason_numbers(reason))
            .with_line_room(random, room)
            .at(bound)
    });
    trial_of(trial, Function::Parse, |random, answer| {
        let line = lines::drawn(random, order, bound, bound);
        Call::with_file(random, file, answer)
            .with_line(random, &line)
            .at(bound)
    });
}

/// Two jobs of one refusal: "the first such job".
fn refused(trial: &mut Trial, seed: u64) {
    let order = drawn(trial, seed);
    let number = [5, 6, 13, 7][(seed as usize / HELD_FAMILIES.len()) % 4];
    let bad = two_refused(&mut trial.random, &order, number);
    let file = file_of(&mut trial.random, &bad);
    read_all(trial, &file);
    write_order(trial, &bad);
    let file = file_of(&mut trial.random, &order);
    for function in TIMED {
        trial_of(trial, function, |random, answer| {
            let call = Call::with_file(random, &file, answer);
            not_ready(random, &order, call)
        });
    }
}

/// Two ready minutes out of range.
fn not_ready(random: &mut Random, order: &Order, call: Call) -> Call {
    let least = Around::any(random).least;
    let times = crate::draw::times::drawn(random, order, least);
    let times = two_not_ready(random, order, &times);
    call.with_times(random, &times.ready, &times.windows.concat())
        .at(least)
}
