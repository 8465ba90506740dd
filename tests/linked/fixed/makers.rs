//! Document 02's §4, the makers: "A maker number out of range is 13, right after 6 in the order"; in
//! the file "4 further bytes at the end of each job".

use super::{a, case, d, made, on_few, order, refused, FEW};
use crate::draw::files::jobs_first;
use crate::independent::{write, Order};
use crate::lent::{job_numbers, Call};
use crate::library::Function;
use crate::trial::Trial;

pub fn run(trial: &mut Trial) {
    in_range(trial);
    out_of_range(trial);
    before_others(trial);
    files(trial);
    lists(trial);
}

/// Memory 4 and nine jobs, with the ninth or the first changed.
fn nine(change: impl Fn(&mut Order)) -> Order {
    let mut order = order(&[4], &[(1, 5, 1); 9]);
    change(&mut order);
    order
}

/// "1 to 16".
fn in_range(trial: &mut Trial) {
    for maker in 1..=16 {
        let call = on_few(&mut trial.random, &made(&[4], &[(1, 5, 1, maker)]));
        case(trial, Function::Judge, call, 0, &[1, 1, 1]);
    }
}

/// Numbers that are no maker's; 257 and 65,537 look like 1 to whoever counts in 8 or 16 bits. The
/// first such job is told.
fn out_of_range(trial: &mut Trial) {
    for maker in [0, 17, 256, 257, 65_537, 1 << 24, 1 << 31, u32::MAX] {
        let order = nine(|order| {
            order.jobs[4].maker = maker;
            order.jobs[8].maker = 17 - maker.min(17);
        });
        refused(trial, &order, FEW, 13 + 256 * 5);
    }
}

/// 13 of job 9 precedes 7 of job 1; 5 and 6 of job 9 precede 13 of job 1.
fn before_others(trial: &mut Trial) {
    let fits_none = nine(|order| {
        order.jobs[0].need = 5;
        order.jobs[8].maker = 0;
    });
    let due = nine(|order| {
        order.jobs[0].maker = 17;
        order.jobs[8].due = 1_000_001;
    });
    let time = nine(|order| {
        order.jobs[0].maker = 17;
        order.jobs[8].time = 0;
    });
    let all = nine(|order| {
        order.jobs[8].maker = 0;
        order.jobs[8].due = -1_000_001;
        order.jobs[8].need = 5;
    });
    refused(trial, &fits_none, FEW, 13 + 256 * 9);
    refused(trial, &due, FEW, 6 + 256 * 9);
    refused(trial, &time, FEW, 5 + 256 * 9);
    refused(trial, &all, FEW, 6 + 256 * 9);
}

/// With the jobs first the processors begin at 16 bytes a job; a job of 12 bytes is none.
fn files(trial: &mut Trial) {
    for order in [a(), d()] {
        let call = Call::with_file(&mut trial.random, &jobs_first(&order), 3);
        case(trial, Function::Judge, call, 0, &[]);
    }
    let mut short = write(&order(&[4], &[(1, 5, 1); 3]));
    short.drain(48..52);
    let call = Call::with_file(&mut trial.random, &short, 3);
    case(trial, Function::Judge, call, 12, &[]);
    let mut long = write(&order(&[4; 16], &[(1, 99, 0); 48]));
    long.push(0);
    let call = Call::with_file(&mut trial.random, &long, 3);
    case(trial, Function::Judge, call, 12, &[]);
}

/// Four numbers to a job; in 12 of them there are three jobs and not four.
fn lists(trial: &mut Trial) {
    let order = made(&[8], &[(1, 5, 2, 3), (2, 6, 3, 4), (3, 7, 4, 16)]);
    let numbers = job_numbers(&order.jobs);
    for (length, result) in [(12, 0), (11, 254), (9, 254), (6, 254), (3, 254)] {
        let call = Call::with_lists(&mut trial.random, &[8], &numbers[..length], 64, 1);
        case(trial, Function::Write, call, result, &[]);
    }
    for (room, result) in [(64, 0), (63, 9), (52, 9)] {
        let call = Call::with_lists(&mut trial.random, &[8], &numbers, room, 1);
        case(trial, Function::Write, call, result, &[]);
    }
}
