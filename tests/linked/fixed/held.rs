//! Document 02's §8, jobs that lie by falling need: "For every order the least lateness, reasons,
//! refusals and rows are equal to those of the input-order table." In none of these orders but those of
//! equal needs does a job lie at the place of its number.

use super::joins::rows_are;
use super::lines::{composes, empty_of, late, numbers_of, stairs};
use super::times::Timed;
use super::{case, made, on_few, order, refused, FEW};
use crate::independent::{held, Held, Order};
use crate::library::{Function, TIMED};
use crate::trial::Trial;

pub fn run(trial: &mut Trial) {
    told(trial);
    stairs_told(trial);
    each_told(trial);
    laid_out(trial);
    with_times(trial);
    not_accepted(trial);
    not_ready(trial);
}

/// At -1, where a job's end is its due time, several jobs are late: the first in input order is told.
fn told(trial: &mut Trial) {
    let cases: [(&[(u32, i32, u32)], u32); 8] = [
        // of the smallest need
        (&[(3, 1, 2), (5, 2, 8), (1, 9, 4)], 1),
        (&[(3, 1, 0), (6, 1, 4), (5, 2, 8), (4, 3, 8)], 1),
        // of a need between those of two others
        (&[(9, 9, 0), (3, 1, 4), (5, 2, 8), (2, 9, 8), (2, 1, 2)], 2),
        // of the largest need
        (&[(1, 9, 0), (5, 2, 8), (3, 1, 4), (2, 1, 2)], 2),
        // of two of one need, and of the last two of three
        (&[(1, 9, 2), (4, 3, 4), (5, 3, 4), (6, 3, 8), (2, 9, 8)], 2),
        (&[(2, 9, 4), (7, 6, 4), (8, 6, 4), (9, 9, 8)], 2),
        // alone late, of the smallest need and of the largest
        (&[(2, 1, 2), (3, 9, 4), (4, 9, 8), (5, 9, 8)], 1),
        (&[(2, 9, 4), (3, 9, 4), (4, 9, 2), (5, 4, 8)], 4),
    ];
    for (jobs, number) in cases {
        let order = order(&[8, 8], jobs);
        let time = order.jobs[number as usize - 1].time;
        let call = on_few(&mut trial.random, &order).at(-1);
        let reason = numbers_of(&late(number, time));
        case(trial, Function::Reason, call.clone(), 0, &reason);
        case(trial, Function::Plan, call.clone(), 10, &[]);
        case(trial, Function::BookPlan, call, 10, &[]);
        worded(trial, &order, number);
    }
}

/// The late job composes; its place in place of its number does not, nor the time of the job that lies
/// at the place of its number.
fn worded(trial: &mut Trial, order: &Order, number: u32) {
    let lying = held(order);
    let own = order.jobs[number as usize - 1];
    let (time, end) = (own.time, own.due);
    let line = format!("job {number}: time {time}, end {end}: owed {time}, on hand {end}");
    composes(trial, order, -1, &late(number, time), &line);
    let place = |one: &Held| one.number == number;
    let place = lying.iter().position(place).map_or(0, |place| place as u32);
    let other = lying[number as usize - 1].job.time;
    for (number, time) in [(place + 1, time), (number, other)] {
        empty_of(trial, order, -1, &numbers_of(&late(number, time)));
    }
}

/// The minutes owed are those of a class's own jobs: B with its jobs by rising need, and jobs of
/// several needs in one class.
fn stairs_told(trial: &mut Trial) {
    let b = order(&[8, 4], &[(2, 2, 4), (2, 2, 4), (2, 4, 8), (2, 4, 8)]);
    let line = "memory 8 due 4, memory 4 due 2: owed 8, on hand 6";
    let one_class = order(&[8, 4], &[(1, 2, 3), (2, 2, 8), (1, 2, 6)]);
    let of_one = "memory 8 due 2: owed 3, on hand 2";
    let cases: [(Order, &[i32], &str); 2] = [(b, &[4, 2], line), (one_class, &[2], of_one)];
    for (order, dues, line) in cases {
        let call = on_few(&mut trial.random, &order).at(-1);
        case(trial, Function::Reason, call, 0, &numbers_of(&stairs(dues)));
        composes(trial, &order, -1, &stairs(dues), line);
    }
}

/// Job k takes k minutes and all are due together: at one bound after the other each is the first late.
fn each_told(trial: &mut Trial) {
    let needs: [&[u32]; 6] = [
        &[4, 4, 4, 4],
        &[2, 4, 6, 8],
        &[8, 2, 4, 8],
        &[4, 8, 4, 8],
        &[2, 4, 8, 2, 4, 8],
        &[u32::MAX, 0, u32::MAX, 0],
    ];
    for needs in needs {
        let jobs = (1..).zip(needs).map(|(time, need)| (time, 9, *need));
        let order = order(&[u32::MAX], &jobs.collect::<Vec<_>>());
        for number in 1..=needs.len() as i32 {
            let call = on_few(&mut trial.random, &order).at(number - 11);
            case(trial, Function::Reason, call, 0, &[1, number, number]);
        }
    }
}

/// Jobs that are due together fill one stretch, which the wrap settles.
fn laid_out(trial: &mut Trial) {
    let wraps = [
        [3, 2, 0, 2],
        [4, 2, 2, 4],
        [4, 1, 0, 1],
        [2, 1, 1, 3],
        [1, 1, 3, 4],
    ];
    rows_are(
        trial,
        order(&[4], &[(1, 8, 0), (2, 8, 1), (3, 8, 2), (2, 8, 4)]),
        &[[4, 1, 0, 2], [3, 1, 2, 5], [2, 1, 5, 7], [1, 1, 7, 8]],
    );
    rows_are(
        trial,
        order(&[4, 4], &[(2, 3, 2), (2, 3, 4), (1, 3, 2), (1, 3, 4)]),
        &[[2, 1, 0, 2], [4, 1, 2, 3], [1, 2, 0, 2], [3, 2, 2, 3]],
    );
    rows_are(
        trial,
        order(&[4, 8], &[(1, 4, 2), (2, 4, 3), (2, 4, 8), (3, 4, 4)]),
        &wraps,
    );
    rows_are(
        trial,
        order(&[8, 2], &[(2, 4, 1), (3, 4, 7), (1, 4, 3)]),
        &[[2, 1, 0, 3], [3, 1, 3, 4], [1, 2, 0, 2]],
    );
    rows_are(
        trial,
        order(&[4, 4], &[(2, 4, 4), (3, 4, 4), (3, 4, 4)]),
        &[[1, 1, 0, 2], [2, 1, 2, 4], [2, 2, 0, 1], [3, 2, 1, 4]],
    );
}

/// Each job has its own ready minute and its own end.
fn with_times(trial: &mut Trial) {
    let two = order(&[8], &[(2, 9, 2), (2, 9, 8)]);
    let rows = [[1, 1, 0, 2], [2, 1, 2, 4]];
    Timed::of(two.clone(), &[0, 2], &[[0, 4]]).settled(trial, -6, 6, &rows);
    let rows = [[2, 1, 0, 2], [1, 1, 2, 4]];
    Timed::of(two, &[2, 0], &[[0, 4]]).settled(trial, -6, 6, &rows);
    let three = order(&[8], &[(1, 1, 2), (2, 3, 8), (3, 6, 4)]);
    let rows = [[1, 1, 0, 1], [2, 1, 1, 3], [3, 1, 3, 6]];
    Timed::of(three, &[0, 1, 3], &[[0, 6]]).settled(trial, -1, 12, &rows);
    let ties = order(&[8], &[(1, 9, 2), (1, 9, 8), (1, 9, 8)]);
    let rows = [[2, 1, 3, 4], [3, 1, 4, 5], [1, 1, 5, 6]];
    Timed::of(ties, &[3, 3, 3], &[[0, 6]]).settled(trial, -4, 9, &rows);
}

/// Of several jobs of one refusal the first is told, though another one has the larger need.
fn not_accepted(trial: &mut Trial) {
    let cases: [(&[(u32, i32, u32, u32)], u32, u32); 5] = [
        (&[(1, 5, 4, 1), (0, 5, 2, 1), (100_001, 5, 8, 1)], 5, 2),
        (
            &[(0, 5, 0, 1), (0, 5, 4, 1), (0, 5, 8, 1), (1, 5, 8, 1)],
            5,
            1,
        ),
        (
            &[(1, 5, 4, 1), (1, 1_000_001, 2, 1), (1, -1_000_001, 8, 1)],
            6,
            2,
        ),
        (&[(1, 5, 4, 1), (1, 5, 2, 17), (1, 5, 8, 0)], 13, 2),
        (&[(1, 5, 9, 1), (1, 5, 8, 1), (1, 5, 10, 1)], 7, 1),
    ];
    for (jobs, number, job) in cases {
        refused(trial, &made(&[8], jobs), FEW, number + 256 * job);
    }
}

/// The same of ready minutes.
fn not_ready(trial: &mut Trial) {
    let four = [4, 2, 8, 8].map(|need| (1, 9, need));
    let late = super::times::MOST + 1;
    let cases = [
        ([0, late, 0, late], 2),
        ([late, 0, late, 0], 1),
        ([0, 0, 0, late], 4),
    ];
    for (ready, job) in cases {
        let timed = Timed::of(order(&[8], &four), &ready, &[[0, 9]]);
        for function in TIMED {
            let call = timed.call(trial, 0, 40);
            case(trial, function, call, 15 + 256 * job, &[]);
        }
    }
}
