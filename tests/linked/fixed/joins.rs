//! Small orders whose jobs fill every stretch in one way only, so that the wrap and document 02's §2
//! settle each row: joined over one end and over two, on a processor that is not the first, beside a
//! part on another processor; and not joined where the job or the processor is another one.

use super::{case, on_few, order};
use crate::independent::{rows_asked, Order, Row};
use crate::lent::rows_of;
use crate::library::Function;
use crate::trial::Trial;

pub fn run(trial: &mut Trial) {
    joined(trial);
    joined_later(trial);
    wrapped(trial);
    not_joined(trial);
}

fn joined(trial: &mut Trial) {
    let one_end = [(10, 10, 8), (5, 5, 4)];
    let two_ends = [(15, 15, 8), (5, 5, 4), (5, 10, 4)];
    rows_are(
        trial,
        order(&[8, 4], &one_end),
        &[[1, 1, 0, 10], [2, 2, 0, 5]],
    );
    rows_are(
        trial,
        order(&[4, 8], &one_end),
        &[[1, 2, 0, 10], [2, 1, 0, 5]],
    );
    rows_are(
        trial,
        order(&[8, 4], &two_ends),
        &[[1, 1, 0, 15], [2, 2, 0, 5], [3, 2, 5, 10]],
    );
}

/// "A joined row stands where its earliest part stood": job 2 goes on on processor 2, before the row
/// of job 3 on processor 1 that begins later.
fn joined_later(trial: &mut Trial) {
    rows_are(
        trial,
        order(&[8, 8], &[(5, 5, 8), (10, 10, 6), (5, 10, 7)]),
        &[[1, 1, 0, 5], [2, 2, 0, 10], [3, 1, 5, 10]],
    );
}

/// Job 2 runs on both processors in one stretch, of the first order in the earlier one, of the
/// second in the later one. It is joined where it goes on on its processor, and there only.
fn wrapped(trial: &mut Trial) {
    rows_are(
        trial,
        order(&[8, 8], &[(2, 4, 8), (8, 8, 7), (2, 4, 6)]),
        &[[1, 1, 0, 2], [2, 1, 2, 8], [2, 2, 0, 2], [3, 2, 2, 4]],
    );
    rows_are(
        trial,
        order(&[8, 8], &[(4, 4, 8), (8, 8, 7), (2, 8, 8)]),
        &[[1, 1, 0, 4], [2, 2, 0, 6], [3, 1, 4, 6], [2, 1, 6, 8]],
    );
}

/// Another job opens the next stretch, or the same job on another processor.
fn not_joined(trial: &mut Trial) {
    rows_are(
        trial,
        order(&[4], &[(5, 5, 4), (5, 10, 4)]),
        &[[1, 1, 0, 5], [2, 1, 5, 10]],
    );
    rows_are(
        trial,
        order(&[8, 8], &[(5, 10, 8), (10, 10, 7), (5, 5, 1)]),
        &[[2, 1, 0, 5], [3, 2, 0, 5], [1, 1, 5, 10], [2, 2, 5, 10]],
    );
}

/// The order has the least lateness -1 and this plan at it, which the check takes. However few rows
/// there are, "the buffer asked for stays q × (n + m - 1) rows".
pub fn rows_are(trial: &mut Trial, order: Order, rows: &[Row]) {
    let (asked, count) = (4 * rows_asked(&order), rows.len() as i32);
    let answers = [
        (Function::Least, vec![-1, count]),
        (Function::Plan, vec![count]),
        (Function::BookLeast, vec![-1, count]),
        (Function::BookPlan, vec![count]),
    ];
    for (function, answer) in answers {
        let call = on_few(&mut trial.random, &order).at(-1);
        let call = call.with_room(&mut trial.random, asked);
        case(trial, function, call.clone(), 0, &answer);
        if let Some((_, after)) = trial.call(function, call) {
            let written = rows_of(after.rows.content());
            if !written.starts_with(rows) {
                trial.differs(format!("rows {written:?} of {order:?}, not {rows:?}"));
            }
        }
        let call = on_few(&mut trial.random, &order).at(-1);
        let call = call.with_room(&mut trial.random, asked - 1);
        case(trial, function, call, 9, &[]);
    }
    let call = on_few(&mut trial.random, &order).with_rows(&mut trial.random, &rows.concat());
    case(trial, Function::Check, call.at(-1), 0, &[1]);
}
