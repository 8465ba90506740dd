//! Document 02's §5, the check: rows that just keep a ready minute, an opening, a closing, and rows that
//! break one of them by a minute; "up to 8,064 rows, more is 11".

use super::times::{c_with, Timed, MOST};
use super::{case, order};
use crate::independent::Row;
use crate::library::Function;
use crate::trial::Trial;

pub fn run(trial: &mut Trial) {
    by_a_minute(trial);
    each_its_own(trial);
    other_rules(trial);
}

/// C at 0: the row from 4 to 7, cut in two or not.
fn by_a_minute(trial: &mut Trial) {
    let cases = [
        (4, [0, MOST], true),
        (5, [0, MOST], false),
        (7, [0, MOST], false),
        (0, [4, MOST], true),
        (0, [5, MOST], false),
        (0, [7, MOST], false),
        (0, [0, 7], true),
        (0, [0, 6], false),
        (0, [0, 4], false),
        (4, [4, 7], true),
        (0, [6, 7], false),
        (0, [4, 5], false),
    ];
    for (ready, window, right) in cases {
        let timed = c_with(ready, window);
        timed.checked(trial, 0, &[[1, 1, 4, 7]], right);
        timed.checked(trial, 0, &[[1, 1, 5, 7], [1, 1, 4, 5]], right);
    }
}

/// Each job has its own ready minute and each processor its own window.
fn each_its_own(trial: &mut Trial) {
    let two = order(&[4, 4], &[(2, 9, 1), (2, 9, 1)]);
    let timed = Timed::of(two, &[0, 5], &[[0, 4], [3, 9]]);
    let cases: [([Row; 2], bool); 6] = [
        ([[1, 1, 0, 2], [2, 2, 5, 7]], true),
        ([[2, 2, 5, 7], [1, 1, 2, 4]], true),
        ([[2, 1, 0, 2], [1, 2, 5, 7]], false),
        ([[1, 2, 0, 2], [2, 2, 5, 7]], false),
        ([[1, 1, 0, 2], [2, 1, 5, 7]], false),
        ([[1, 1, 3, 5], [2, 2, 7, 9]], false),
    ];
    for (rows, right) in cases {
        timed.checked(trial, 0, &rows, right);
    }
}

/// The rules of a right plan hold too: full times, ends, needs, nobody twice at once, good rows.
fn other_rules(trial: &mut Trial) {
    let two = order(&[8, 4], &[(4, 9, 8), (2, 5, 4)]);
    let timed = Timed::of(two, &[1, 0], &[[0, 9], [0, 9]]);
    let right: [Row; 2] = [[1, 1, 1, 5], [2, 2, 4, 6]];
    timed.checked(trial, 0, &right, true);
    let wrong: [&[Row]; 9] = [
        &[],
        &[[1, 1, 1, 5]],
        &[[1, 1, 1, 4], [2, 2, 4, 6]],
        &[[1, 1, 1, 6], [2, 2, 4, 6]],
        &[[1, 2, 1, 5], [2, 1, 4, 6]],
        &[[1, 1, 1, 5], [2, 1, 4, 6]],
        &[[1, 1, 1, 5], [2, 2, 5, 7]],
        &[[1, 1, 1, 5], [2, 2, 4, 6], [3, 1, 7, 8]],
        &[[1, 1, 1, 5], [2, 2, 4, 6], [2, 3, 7, 8]],
    ];
    for rows in wrong {
        timed.checked(trial, 0, rows, false);
    }
    for left_over in 1..4 {
        let numbers = [right.concat(), vec![1; left_over]].concat();
        let call = timed.call(trial, 0, 0);
        let call = call.with_rows(&mut trial.random, &numbers);
        case(trial, Function::TimedCheck, call, 0, &[0]);
    }
}

/// One job of so many minutes, a row to each minute, and numbers left over.
pub fn many_rows(trial: &mut Trial) {
    let cases = [
        (3_025, 0, 0, 1),
        (8_063, 0, 0, 1),
        (8_064, 0, 0, 1),
        (8_065, 0, 11, 0),
        (8_063, 1, 0, 0),
        (8_064, 1, 11, 0),
        (8_064, 3, 11, 0),
    ];
    for (rows, left_over, result, right) in cases {
        let long = order(&[4], &[(rows, 999_999, 4)]);
        let timed = Timed::of(long, &[1], &[[1, MOST]]);
        let minutes = (1..=rows).map(|minute| [1, 1, minute, minute + 1]);
        let mut numbers = minutes.collect::<Vec<Row>>().concat();
        numbers.extend(vec![1; left_over]);
        let call = timed.call(trial, 0, 0);
        let call = call.with_rows(&mut trial.random, &numbers);
        let answer = [right];
        let answer = if result == 0 { &answer[..] } else { &[] };
        case(trial, Function::TimedCheck, call, result, answer);
    }
}
