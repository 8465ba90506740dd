//! Document 02's §5, what is refused: "A ready minute out of range is 15 and a window out of range or
//! not closing after it opens is 16, both directly before 8"; lists of a wrong length; and which refusal
//! is told before which.

use super::times::{c_with, Timed, MOST};
use super::{case, made, order};
use crate::independent::{write, Order};
use crate::lent::Call;
use crate::library::{Function, TIMED};
use crate::trial::Trial;

pub fn run(trial: &mut Trial) {
    ready(trial);
    windows(trial);
    lengths(trial);
    counts(trial);
    before_others(trial);
}

/// The three functions give this result, with room for few rows.
fn refused(trial: &mut Trial, timed: &Timed, result: u32) {
    for function in TIMED {
        let call = timed.call(trial, 0, 100);
        case(trial, function, call, result, &[]);
    }
}

/// The first job whose ready minute is out of range.
fn ready(trial: &mut Trial) {
    for ready in [MOST + 1, 1 << 31, u32::MAX] {
        refused(trial, &c_with(ready, [0, MOST]), 15 + 256);
    }
    let three = order(&[4], &[(1, 9, 4); 3]);
    let cases = [
        ([0, MOST + 1, MOST + 1], 2),
        ([MOST, MOST, u32::MAX], 3),
        ([MOST + 1, 0, u32::MAX], 1),
    ];
    for (ready, job) in cases {
        let timed = Timed::of(three.clone(), &ready, &[[7, 7]]);
        refused(trial, &timed, 15 + 256 * job);
    }
}

/// The first processor whose window is out of range or does not close after it opens.
fn windows(trial: &mut Trial) {
    let bad = [
        [7, 7],
        [0, 0],
        [8, 7],
        [MOST, MOST],
        [0, MOST + 1],
        [MOST, MOST + 1],
        [MOST + 1, MOST + 2],
        [MOST + 1, 5],
        [u32::MAX, 5],
        [5, u32::MAX],
        [u32::MAX - 1, u32::MAX],
    ];
    for window in bad {
        refused(trial, &c_with(0, window), 16 + 256);
        let three = order(&[4, 8, 8], &[(1, 9, 4)]);
        let timed = Timed::of(three.clone(), &[0], &[[0, 1], window, window]);
        refused(trial, &timed, 16 + 256 * 2);
        let timed = Timed::of(three, &[0], &[[0, MOST], [MOST - 1, MOST], window]);
        refused(trial, &timed, 16 + 256 * 3);
    }
}

/// One ready minute to a job, two numbers to a window, no less and no more.
fn lengths(trial: &mut Trial) {
    let two = order(&[4, 4], &[(1, 9, 4); 3]);
    let none = [(0, 4), (3, 0), (0, 0)];
    let other = [(2, 4), (4, 4), (3, 2), (3, 3), (3, 5), (3, 6), (4, 6)];
    let exchanged = [(4, 3), (2, 5), (1, 6), (5, 2)];
    for (ready, windows) in [&none[..], &other, &exchanged].concat() {
        let timed = Timed {
            order: two.clone(),
            ready: vec![0; ready],
            windows: [0, 9].repeat(3)[..windows].to_vec(),
        };
        refused(trial, &timed, 253);
    }
    let far = Timed {
        order: two,
        ready: vec![0; 3 + 256],
        windows: [0, 9].repeat(2),
    };
    refused(trial, &far, 253);
}

/// Orders that are refused by their counts, and the refusals.
pub fn refused_counts() -> [(Order, u32); 5] {
    [
        (order(&[], &[(1, 1, 0)]), 1),
        (order(&[4; 17], &[(1, 1, 0)]), 2),
        (order(&[4], &[]), 3),
        (order(&[4], &[(1, 99, 0); 49]), 4),
        (order(&[], &[]), 1),
    ]
}

/// The lists belong to the file's counts, also where these are refused.
fn counts(trial: &mut Trial) {
    for (order, number) in refused_counts() {
        let (jobs, processors) = (order.jobs.len(), order.memories.len());
        let timed = |ready, windows| Timed {
            order: order.clone(),
            ready: vec![u32::MAX; ready],
            windows: vec![7; windows],
        };
        refused(trial, &timed(jobs, 2 * processors), number);
        refused(trial, &timed(jobs + 1, 2 * processors), 253);
        refused(trial, &timed(jobs, 2 * processors + 2), 253);
        refused(trial, &timed(jobs, 2 * processors + 1), 253);
    }
}

/// 255, 12, 253, 6, 13, 7, 15, 16, 8, 9 or 11, 10, each where all that follow hold too.
fn before_others(trial: &mut Trial) {
    let bad = |due, maker, need| write(&made(&[4], &[(3, due, need, maker)]));
    let (late, nobody, large) = (bad(1_000_001, 0, 5), bad(10, 0, 5), bad(10, 1, 5));
    let (file, out, window, far) = (bad(10, 1, 4), 10_000_001, [9, 5], [MOST + 1]);
    let lent: [(usize, &[u8], &[u32], [u32; 2], i32, usize, u32); 11] = [
        (0, &late[1..], &[], window, out, 0, 255),
        (1, &late[1..], &[], window, out, 0, 12),
        (1, &late, &[], window, out, 0, 253),
        (1, &late, &far, window, out, 0, 6 + 256),
        (1, &nobody, &far, window, out, 0, 13 + 256),
        (1, &large, &far, window, out, 0, 7 + 256),
        (1, &file, &far, window, out, 0, 15 + 256),
        (1, &file, &[0], window, out, 0, 16 + 256),
        (1, &file, &[0], [5, 6], out, 0, 8),
        (1, &file, &[0], [5, 6], -4, 15, 9),
        (1, &file, &[0], [5, 6], -4, 16, 10),
    ];
    for (answer, file, ready, window, bound, room, result) in lent {
        let random = &mut trial.random;
        let call = Call::with_file(random, file, answer)
            .with_times(random, ready, &window)
            .at(bound);
        let long = call.clone().with_room(random, 4 * 8_064 + 1);
        let call = call.with_room(random, room);
        case(trial, Function::TimedPlan, call.clone(), result, &[]);
        // no buffer is too short for the number of rows, and no bound too tight
        let of_rows = match result {
            9 | 10 => 0,
            _ => result,
        };
        case(trial, Function::TimedRows, call, of_rows, &[]);
        let of_check = match result {
            9 | 10 => 11,
            _ => result,
        };
        case(trial, Function::TimedCheck, long, of_check, &[]);
    }
}
