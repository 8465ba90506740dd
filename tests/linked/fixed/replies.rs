//! Document 02's §10, the club screen, what is answered: "An order within the screen's limits gets the dock's
//! own reply from either caller", refusals that are not about its counts too. Both callers are lent the same.

use super::lines::{late, numbers_of, stairs};
use super::screen::{alike, CHECK, JUDGE, LARGEST_BOUND, LEAST, PLAN, REASON, SENTENCE};
use super::{a, b, c, d, on_few, on_with_room, order, reason_cases};
use crate::independent::{write, Order, Reason};
use crate::lent::Call;
use crate::trial::Trial;

pub fn run(trial: &mut Trial) {
    leasts(trial);
    reasons(trial);
    lines(trial);
    checks(trial);
    bounds(trial);
    rooms(trial);
    row_counts(trial);
}

/// Document 01's orders with the leasts of document 02's §3, the planner there and next to it; C has one row.
fn leasts(trial: &mut Trial) {
    let cases: [(Order, &[i32]); 6] = [
        (a(), &[0]),
        (b(), &[0]),
        (c(), &[-8, 1]),
        (d(), &[-3]),
        (order(&[4], &[(1, 1, 0)]), &[-1]),
        (order(&[1], &[(1, -5, 1)]), &[5]),
    ];
    for (order, answer) in cases {
        let call = on_few(&mut trial.random, &order);
        alike(trial, LEAST, call.clone(), 0, answer);
        let least = answer[0];
        alike(trial, PLAN, call.clone().at(least), 0, &[]);
        alike(trial, PLAN, call.clone().at(least + 9), 0, &[]);
        alike(trial, PLAN, call.at(least - 1), 10, &[]);
    }
}

fn reasons(trial: &mut Trial) {
    for (order, bound, reason) in reason_cases() {
        let call = on_few(&mut trial.random, &order).at(bound);
        alike(trial, REASON, call, 0, reason);
    }
}

/// Document 02's lines: in a buffer of their own length, and refused in one that is a byte shorter.
fn lines(trial: &mut Trial) {
    let of_a = "memory 8 due 3, memory 4 due 3: owed 7, on hand 6";
    let of_b = "memory 8 due 4, memory 4 due 2: owed 8, on hand 6";
    let of_c = "job 1: time 3, end 2: owed 3, on hand 2";
    composes(trial, &a(), -1, &stairs(&[3, 3]), of_a);
    composes(trial, &b(), -1, &stairs(&[4, 2]), of_b);
    composes(trial, &c(), -9, &late(1, 3), of_c);
    let call = composing(trial, &c(), -8, &late(1, 3), 0);
    alike(trial, SENTENCE, call, 0, &[0]);
}

fn composing(trial: &mut Trial, order: &Order, bound: i32, reason: &Reason, room: usize) -> Call {
    Call::with_file(&mut trial.random, &write(order), 1)
        .with_reason(&mut trial.random, &numbers_of(reason))
        .with_line_room(&mut trial.random, room)
        .at(bound)
}

fn composes(trial: &mut Trial, order: &Order, bound: i32, reason: &Reason, line: &str) {
    let call = composing(trial, order, bound, reason, line.len() - 1);
    alike(trial, SENTENCE, call, 9, &[]);
    let call = composing(trial, order, bound, reason, line.len());
    for (result, after) in trial.call_from_both(SENTENCE, call).into_iter().flatten() {
        if result != 0 || after.line.content() != line.as_bytes() {
            let is = String::from_utf8_lossy(after.line.content()).into_owned();
            trial.differs(format!("{reason:?} at {bound}: {is}, not {line}"));
        }
    }
}

fn checks(trial: &mut Trial) {
    let cases: [(&[u32], i32); 3] = [
        (&[1, 1, 0, 1, 1, 1, 1, 3], 1),
        (&[1, 1, 0, 2, 1, 1, 1, 2], 0),
        (&[], 0),
    ];
    for (rows, answer) in cases {
        let call = on_few(&mut trial.random, &c()).with_rows(&mut trial.random, rows);
        alike(trial, CHECK, call.at(-1), 0, &[answer]);
    }
}

/// "A bound is a whole number of -10,000,000 to 10,000,000."
fn bounds(trial: &mut Trial) {
    for both in [PLAN, REASON, SENTENCE, CHECK] {
        for bound in [LARGEST_BOUND, -LARGEST_BOUND] {
            let tight = both == PLAN && bound < 0;
            let call = on_few(&mut trial.random, &c()).at(bound);
            alike(trial, both, call, if tight { 10 } else { 0 }, &[]);
        }
        for bound in [LARGEST_BOUND + 1, -LARGEST_BOUND - 1, i32::MAX, i32::MIN] {
            let call = on_few(&mut trial.random, &c()).at(bound);
            alike(trial, both, call, 8, &[]);
        }
    }
}

/// The most rows that a screen's order asks for, 12 × (12 + 4 - 1), and one number fewer.
fn rooms(trial: &mut Trial) {
    let jobs: Vec<(u32, i32, u32)> = (0..12).map(|due| (1, due, 0)).collect();
    let largest = order(&[4; 4], &jobs);
    let call = on_few(&mut trial.random, &largest);
    alike(trial, JUDGE, call, 0, &[4, 12, 180]);
    for (room, result) in [(720, 0), (719, 9), (716, 9), (0, 9)] {
        for both in [LEAST, PLAN] {
            let call = on_with_room(&mut trial.random, &largest, room);
            alike(trial, both, call, result, &[]);
        }
    }
    let call = on_with_room(&mut trial.random, &c(), 4);
    alike(trial, LEAST, call, 0, &[-8, 1]);
}

/// A check takes 3,024 rows from a screen too: a job of so many minutes, a row to each.
fn row_counts(trial: &mut Trial) {
    for (count, result) in [(180, 0), (181, 0), (3_024, 0), (3_025, 11)] {
        let order = order(&[4], &[(count, 9_999, 4)]);
        let rows: Vec<u32> = (0..count).flat_map(|at| [1, 1, at, at + 1]).collect();
        let call = Call::with_file(&mut trial.random, &write(&order), 1);
        let right = call.clone().with_rows(&mut trial.random, &rows);
        alike(trial, CHECK, right, result, &[1]);
        let last = rows.len() - 1;
        let lacking = call.clone().with_rows(&mut trial.random, &rows[..last]);
        alike(trial, CHECK, lacking, result, &[0]);
        let doubled = [&rows[..], &[1, 1, 0, 1]].concat();
        let more = if count < 3_024 { 0 } else { 11 };
        let call = call.with_rows(&mut trial.random, &doubled);
        alike(trial, CHECK, call, more, &[0]);
    }
}
