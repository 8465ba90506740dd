//! Document 02's §10, the club screen, what is refused: it "holds 12 jobs and 4 processors". "A screen order
//! over 12 jobs is 20 and over 4 processors is 21, given in place of 4 and 2 and where those stand." Both
//! callers are lent the same.

use super::lines::{late, numbers_of};
use super::{compare, made, on_few, on_with_room, order};
use crate::draw::files::jobs_first;
use crate::independent::write;
use crate::lent::Call;
use crate::library::{Function, BOTH};
use crate::trial::Trial;

pub const JUDGE: [Function; 2] = BOTH[0];
pub const LEAST: [Function; 2] = BOTH[1];
pub const PLAN: [Function; 2] = BOTH[2];
pub const REASON: [Function; 2] = BOTH[3];
pub const SENTENCE: [Function; 2] = BOTH[4];
pub const CHECK: [Function; 2] = BOTH[5];

pub const LARGEST_BOUND: i32 = 10_000_000;

pub fn run(trial: &mut Trial) {
    counts(trial);
    bad_files(trial);
    before_others(trial);
    single_faults(trial);
    over(trial);
    short(trial);
}

/// The dock's result and the screen's, and how an answer begins.
fn told(trial: &mut Trial, both: [Function; 2], call: Call, results: [u32; 2], answer: &[i32]) {
    let Some(replies) = trial.call_from_both(both, call) else {
        return;
    };
    for ((function, reply), result) in both.into_iter().zip(&replies).zip(results) {
        let begins = if result == 0 { answer } else { &[] };
        compare(trial, function, reply, result, begins);
    }
}

/// The same result from both.
pub fn alike(trial: &mut Trial, both: [Function; 2], call: Call, result: u32, answer: &[i32]) {
    told(trial, both, call, [result; 2], answer);
}

/// Processors, jobs, the dock's result, the screen's.
const COUNTS: [(usize, usize, u32, u32); 34] = [
    (4, 12, 0, 0),
    (5, 0, 3, 21),
    (5, 13, 0, 21),
    (4, 13, 0, 20),
    (1, 13, 0, 20),
    (17, 1, 2, 21),
    (16, 49, 12, 12),
    (0, 13, 1, 1),
    (4, 0, 3, 3),
    (0, 0, 1, 1),
    (1, 1, 0, 0),
    (4, 1, 0, 0),
    (1, 12, 0, 0),
    (3, 11, 0, 0),
    (5, 1, 0, 21),
    (5, 11, 0, 21),
    (5, 12, 0, 21),
    (12, 4, 0, 21),
    (16, 12, 0, 21),
    (1, 16, 0, 20),
    (4, 48, 0, 20),
    (1, 49, 4, 20),
    (4, 49, 4, 20),
    (5, 49, 4, 21),
    (0, 49, 1, 1),
    (0, 1, 1, 1),
    (17, 0, 2, 21),
    (17, 13, 2, 21),
    (17, 47, 2, 21),
    // the longest file, and what is longer
    (16, 48, 0, 21),
    (208, 0, 2, 21),
    (0, 52, 1, 1),
    (17, 48, 12, 12),
    (4, 52, 12, 12),
];

/// So many processors and jobs, whichever list comes first; a plan asks for at most 63 rows.
fn counts(trial: &mut Trial) {
    for (processors, jobs, at_dock, at_screen) in COUNTS {
        let order = order(&vec![4; processors], &vec![(1, 99, 0); jobs]);
        let answer = match at_dock {
            0 => [processors, jobs, processors + jobs - 1].map(|count| count as i32),
            _ => [0; 3],
        };
        for file in [write(&order), jobs_first(&order)] {
            for both in BOTH {
                let mut call = on_with_room(&mut trial.random, &order, 4 * 63);
                call.file.put(&file);
                let begins = if both == JUDGE { &answer[..] } else { &[] };
                told(trial, both, call, [at_dock, at_screen], begins);
            }
        }
    }
}

/// 12 comes before the counts, whether they are over the limits in the file or in its trailer alone.
fn bad_files(trial: &mut Trial) {
    for (processors, jobs) in [(4, 12), (5, 13), (5, 0), (4, 13), (17, 1), (1, 49), (0, 0)] {
        let order = order(&vec![4; processors], &vec![(1, 99, 0); jobs]);
        for (bad, both) in pairs(&spoilt(&write(&order)), &BOTH) {
            let call = Call::with_file(&mut trial.random, &bad, 19);
            let call = call.with_reason(&mut trial.random, &[0; 19]);
            alike(trial, both, call, 12, &[]);
        }
    }
}

/// The file with 5 processors more in its trailer, with 13 jobs more, with another place, a byte shorter and a
/// byte longer.
fn spoilt(file: &[u8]) -> [Vec<u8>; 5] {
    let trailer = file.len() - 12;
    let added = |at: usize, more: u8| {
        let mut file = file.to_vec();
        file[trailer + at] += more;
        file
    };
    let (shorter, longer) = (file[1..].to_vec(), [file, &[0]].concat());
    [added(8, 5), added(10, 13), added(0, 1), shorter, longer]
}

/// A job's time, due time, need and maker, all of them refused.
const BAD: (u32, i32, u32, u32) = (0, 1_000_001, 9, 0);

/// 1, 21, 3, 20, 5, 6, 13, 7, each where all that follow hold too, and a bound out of range and no room.
fn before_others(trial: &mut Trial) {
    let cases: [(usize, usize, (u32, i32, u32, u32), [u32; 2]); 12] = [
        (0, 13, BAD, [1, 1]),
        (0, 0, BAD, [1, 1]),
        (5, 0, BAD, [3, 21]),
        (5, 13, BAD, [5 + 256, 21]),
        (17, 13, BAD, [2, 21]),
        (4, 0, BAD, [3, 3]),
        (4, 13, BAD, [5 + 256, 20]),
        (4, 49, BAD, [4, 20]),
        (4, 12, BAD, [5 + 256; 2]),
        (4, 12, (1, 1_000_001, 9, 0), [6 + 256; 2]),
        (4, 12, (1, 5, 9, 0), [13 + 256; 2]),
        (4, 12, (1, 5, 9, 1), [7 + 256; 2]),
    ];
    for (processors, jobs, job, results) in cases {
        let order = made(&vec![8; processors], &vec![job; jobs]);
        for both in BOTH {
            let call = Call::with_file(&mut trial.random, &write(&order), 19)
                .with_reason(&mut trial.random, &[0; 19])
                .at(LARGEST_BOUND + 1);
            told(trial, both, call, results, &[]);
        }
    }
}

/// One job is refused, the first or the last: within the limits both callers tell of it, over them the dock
/// alone.
fn single_faults(trial: &mut Trial) {
    let faults = [
        (5, (0, 5, 8, 1)),
        (5, (100_001, 5, 8, 1)),
        (6, (1, 1_000_001, 8, 1)),
        (13, (1, 5, 8, 0)),
        (7, (1, 5, 9, 1)),
    ];
    let counts = [(4, 12, None), (4, 13, Some(20)), (5, 12, Some(21))];
    for ((number, bad), (processors, jobs, over)) in pairs(&faults, &counts) {
        for place in [0, jobs - 1] {
            let mut listed = vec![(1, 5, 8, 1); jobs];
            listed[place] = bad;
            let order = made(&vec![8; processors], &listed);
            let of_job = number + 256 * (place as u32 + 1);
            for both in BOTH {
                let call = on_few(&mut trial.random, &order);
                told(trial, both, call, [of_job, over.unwrap_or(of_job)], &[]);
            }
        }
    }
}

/// Each of the one with each of the other.
fn pairs<A: Clone, B: Clone>(one: &[A], other: &[B]) -> Vec<(A, B)> {
    let with = |first: &A| vec![first.clone(); other.len()];
    let firsts = one.iter().flat_map(with);
    firsts.zip(other.iter().cloned().cycle()).collect()
}

/// 20 and 21 come before whatever the dock tells of an order that it accepts: of 12 or 13 jobs of 3 minutes,
/// due 5, on 5 or 4 processors.
fn over(trial: &mut Trial) {
    for (processors, jobs, number) in [(5, 12, 21), (4, 13, 20), (5, 13, 21)] {
        let order = order(&vec![8; processors], &vec![(3, 5, 8); jobs]);
        let call = on_few(&mut trial.random, &order);
        for both in [PLAN, REASON, SENTENCE, CHECK] {
            let call = call.clone().at(LARGEST_BOUND + 1);
            told(trial, both, call, [8, number], &[]);
        }
        for both in [LEAST, PLAN] {
            let call = call.clone().with_room(&mut trial.random, 4);
            told(trial, both, call, [9, number], &[]);
        }
        let late = numbers_of(&late(1, 3));
        let composing = call.clone().with_reason(&mut trial.random, &late).at(-9);
        told(trial, SENTENCE, composing, [9, number], &[]);
        told(trial, PLAN, call.clone().at(-9), [10, number], &[]);
        let many = call.with_room(&mut trial.random, 4 * 3_025);
        told(trial, CHECK, many, [11, number], &[]);
    }
}

/// A short answer comes before all, and a short reason right after it.
fn short(trial: &mut Trial) {
    let good = order(&[8; 4], &[(1, 5, 8); 12]);
    let processors = order(&[8; 5], &[]);
    let jobs = order(&[8; 4], &[(0, 5, 9); 13]);
    let files = [write(&good), write(&processors), write(&jobs), vec![0; 11]];
    for file in files {
        for both in BOTH {
            let call = Call::with_file(&mut trial.random, &file, both[0].answer_length() - 1);
            alike(trial, both, call, 255, &[]);
        }
        for length in [0, 18] {
            let call = Call::with_file(&mut trial.random, &file, 1);
            let call = call.with_reason(&mut trial.random, &vec![0; length]);
            alike(trial, SENTENCE, call, 253, &[]);
        }
    }
}
