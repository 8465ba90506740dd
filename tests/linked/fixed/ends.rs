//! Document 02's §3, "The due minute is included": rows, plans, reasons and lines at a job's end and
//! a minute beyond it, in the middle and at the edges of the bound's range, which stay where they
//! are.

use super::lines::{composes, empty_of, late, none, numbers_of, stairs};
use super::{c, case, on, order};
use crate::independent::{Order, Reason};
use crate::library::{Function, FUNCTIONS, REASON_NUMBERS};
use crate::trial::Trial;

const LARGEST: i32 = 10_000_000;

pub fn run(trial: &mut Trial) {
    rows(trial);
    plans(trial);
    overdue(trial);
    at_the_edges(trial);
    beyond_the_edges(trial);
    farthest_ends(trial);
}

/// Whether the check takes these rows.
fn takes(trial: &mut Trial, order: &Order, bound: i32, rows: &[u32], right: bool) {
    let call = on(&mut trial.random, order).with_rows(&mut trial.random, rows);
    case(trial, Function::Check, call.at(bound), 0, &[right.into()]);
}

/// A bound that has a plan.
fn met(trial: &mut Trial, order: &Order, bound: i32) {
    let call = on(&mut trial.random, order).at(bound);
    case(trial, Function::Plan, call.clone(), 0, &[]);
    case(trial, Function::BookPlan, call.clone(), 0, &[]);
    case(trial, Function::Reason, call, 0, &[0; REASON_NUMBERS]);
}

/// A bound that is met and is the least.
fn least(trial: &mut Trial, order: &Order, bound: i32) {
    let call = on(&mut trial.random, order);
    case(trial, Function::Least, call.clone(), 0, &[bound]);
    case(trial, Function::BookLeast, call, 0, &[bound]);
    met(trial, order, bound);
}

/// A bound that is too tight, with its reason and that reason's line.
fn tight(trial: &mut Trial, order: &Order, bound: i32, reason: &Reason, line: &str) {
    let call = on(&mut trial.random, order).at(bound);
    case(trial, Function::Plan, call.clone(), 10, &[]);
    case(trial, Function::BookPlan, call.clone(), 10, &[]);
    case(trial, Function::Reason, call, 0, &numbers_of(reason));
    composes(trial, order, bound, reason, line);
}

/// "due 10" means "done by the close of minute 10": minute 10 itself may be the last.
fn rows(trial: &mut Trial) {
    let order = order(&[4], &[(1, 10, 4)]);
    for bound in [0, -1, 1, -10] {
        let last = (10 + bound) as u32;
        takes(trial, &order, bound, &[1, 1, last, last + 1], true);
        takes(trial, &order, bound, &[1, 1, last + 1, last + 2], false);
    }
    takes(trial, &order, -11, &[1, 1, 0, 1], false);
}

/// 11 minutes, of one job or of two, are done by the close of minute 10, and 12 are not.
fn plans(trial: &mut Trial) {
    let alone = |time| order(&[4], &[(time, 10, 4)]);
    let beside = |time| order(&[4], &[(6, 10, 4), (time, 10, 4)]);
    least(trial, &alone(11), 0);
    least(trial, &beside(5), 0);
    let of_job = "job 1: time 12, end 11: owed 12, on hand 11";
    tight(trial, &alone(12), 0, &late(1, 12), of_job);
    let of_both = "memory 4 due 10: owed 12, on hand 11";
    tight(trial, &beside(6), 0, &stairs(&[10]), of_both);
}

/// A job whose due minute is before minute 0 has no minute, however short it is.
fn overdue(trial: &mut Trial) {
    let order = order(&[1], &[(1, -5, 1)]);
    least(trial, &order, 5);
    takes(trial, &order, 5, &[1, 1, 0, 1], true);
    for (bound, end) in [(4, 0), (3, -1), (0, -4)] {
        let line = format!("job 1: time 1, end {end}: owed 1, on hand {end}");
        tight(trial, &order, bound, &late(1, 1), &line);
        takes(trial, &order, bound, &[1, 1, 0, 1], false);
    }
}

/// "A bound is a whole number of -10,000,000 to 10,000,000": no function refuses either of these.
fn at_the_edges(trial: &mut Trial) {
    let rows = [1, 1, 0, 3];
    let line = "job 1: time 3, end -9999989: owed 3, on hand -9999989";
    met(trial, &c(), LARGEST);
    takes(trial, &c(), LARGEST, &rows, true);
    empty_of(trial, &c(), LARGEST, &numbers_of(&late(1, 3)));
    none(trial, &c(), LARGEST, line.as_bytes());
    tight(trial, &c(), -LARGEST, &late(1, 3), line);
    takes(trial, &c(), -LARGEST, &rows, false);
}

/// "bound not in range", whichever function is given it.
fn beyond_the_edges(trial: &mut Trial) {
    for bound in [LARGEST + 1, -LARGEST - 1] {
        for function in FUNCTIONS.into_iter().filter(|one| one.takes_bound()) {
            let call = on(&mut trial.random, &c()).at(bound);
            case(trial, function, call, 8, &[]);
        }
    }
}

/// The latest and the earliest end that there is.
fn farthest_ends(trial: &mut Trial) {
    let latest = order(&[4], &[(1, 1_000_000, 4)]);
    let earliest = order(&[4], &[(1, -1_000_000, 4)]);
    let line = "job 1: time 1, end -10999999: owed 1, on hand -10999999";
    for (last, right) in [(11_000_000, true), (11_000_001, false)] {
        takes(trial, &latest, LARGEST, &[1, 1, last, last + 1], right);
    }
    tight(trial, &earliest, -LARGEST, &late(1, 1), line);
}
