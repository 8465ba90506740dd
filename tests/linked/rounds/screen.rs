//! The six functions that both callers have, from both, lent the same: orders around the screen's limits,
//! orders that are refused, doubtful files; and counts around the limits of dock and screen.

use super::accepted::Accepted;
use super::refused::lent_any;
use crate::draw::bounds::Around;
use crate::draw::damage::{damaged, OF_ORDERS};
use crate::draw::files::{doubtful, file_of};
use crate::draw::lengths::answer_length;
use crate::draw::orders::SCREEN_FAMILIES;
use crate::draw::screen::file_of_turn;
use crate::draw::Random;
use crate::independent::read;
use crate::lent::Call;
use crate::library::{Function, BOTH};
use crate::trial::Trial;

/// An order, and what is refused of it.
pub fn any_order(trial: &mut Trial, seed: u64) {
    let (_, family) = SCREEN_FAMILIES[seed as usize % SCREEN_FAMILIES.len()];
    let order = family(&mut trial.random);
    let file = file_of(&mut trial.random, &order);
    from_both(trial, &file);
    let bad = match seed % 3 {
        0 => doubtful(&mut trial.random, &order),
        _ => {
            let number = trial.random.pick(&OF_ORDERS);
            let order = damaged(&mut trial.random, &order, number);
            file_of(&mut trial.random, &order)
        }
    };
    from_both(trial, &bad);
}

/// Counts around the limits, with one thing wrong or with nothing.
pub fn any_counts(trial: &mut Trial, seed: u64) {
    let file = file_of_turn(&mut trial.random, seed);
    from_both(trial, &file);
}

/// A file before the six functions, from both callers.
fn from_both(trial: &mut Trial, file: &[u8]) {
    let Ok(order) = read(file) else {
        for both in BOTH {
            trial_of_both(trial, both, |random, answer| {
                lent_any(random, both[0], file, answer)
            });
        }
        return;
    };
    let around = Around::of(&order, trial.least(file));
    let accepted = Accepted {
        order: &order,
        file,
        around,
    };
    accepted_from_both(trial, &accepted);
}

/// An order that the dock accepts, and a screen if it is within its limits.
fn accepted_from_both(trial: &mut Trial, accepted: &Accepted) {
    let [judge, least, plan, reason, sentence, check] = BOTH;
    trial_of_both(trial, judge, |random, answer| {
        Call::with_file(random, accepted.file, answer)
    });
    for both in [least, least, plan, plan, plan] {
        trial_of_both(trial, both, |random, answer| {
            accepted.planning(random, answer)
        });
    }
    for _ in 0..3 {
        trial_of_both(trial, reason, |random, answer| {
            accepted.asking_why(random, answer)
        });
        trial_of_both(trial, sentence, |random, answer| {
            accepted.composing(random, answer)
        });
    }
    let made = accepted.made(&mut trial.random);
    // a right plan twice, since the bound is drawn
    for turn in [0, 0, 1, 2, 3, 7] {
        trial_of_both(trial, check, |random, answer| {
            accepted.checking(random, &made, turn, answer)
        });
    }
}

/// Makes a call with a drawn answer length from both callers.
fn trial_of_both(
    trial: &mut Trial,
    both: [Function; 2],
    make: impl FnOnce(&mut Random, usize) -> Call,
) {
    let answer = answer_length(&mut trial.random, both[0]);
    let call = make(&mut trial.random, answer);
    trial.call_from_both(both, call);
}
