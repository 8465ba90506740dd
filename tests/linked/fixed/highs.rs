//! Document 02's §9, what is refused: "A low above its high is 19, after 6 and 13, and both ends must be in the
//! time's range or 5 is given"; lists of highs of a wrong length; room for the order that is written; and
//! which refusal is told before which.

use super::untimed::refused_counts;
use super::{case, made, order};
use crate::independent::{write, Estimate};
use crate::lent::Call;
use crate::library::{Function, ESTIMATED};
use crate::trial::Trial;

const LONGEST: u32 = 100_000;

pub fn run(trial: &mut Trial) {
    ends(trial);
    above(trial);
    first_jobs(trial);
    pairs(trial);
    lengths(trial);
    counts(trial);
    rooms(trial);
    before_others(trial);
}

/// Both functions give this result.
fn told(trial: &mut Trial, file: &[u8], highs: &[u32], result: u32) {
    for function in ESTIMATED {
        let call = Call::with_file(&mut trial.random, file, 2)
            .with_highs(&mut trial.random, highs)
            .with_order_room(&mut trial.random, 0, 844);
        case(trial, function, call, result, &[]);
    }
}

/// Memory 8, and jobs of these lows and highs that are due 5 and need 4.
fn spans(jobs: &[(u32, u32)]) -> Estimate {
    let lows: Vec<(u32, i32, u32)> = jobs.iter().map(|(low, _)| (*low, 5, 4)).collect();
    Estimate {
        lows: order(&[8], &lows),
        highs: jobs.iter().map(|(_, high)| *high).collect(),
    }
}

fn refused(trial: &mut Trial, estimate: &Estimate, result: u32) {
    told(trial, &write(&estimate.lows), &estimate.highs, result);
}

/// Ends out of range are 5, though the low is above the high too.
fn ends(trial: &mut Trial) {
    for end in [0, LONGEST + 1, 200_000, 131_073, 1 << 31, u32::MAX] {
        for job in [(end, 5), (5, end), (end, end), (end, 0), (u32::MAX, end)] {
            refused(trial, &spans(&[job]), 5 + 256);
            refused(trial, &spans(&[(1, 1), job, job]), 5 + 256 * 2);
            refused(trial, &spans(&[(2, 1), job]), 5 + 256 * 2);
        }
    }
    for job in [
        (1, 1),
        (1, LONGEST),
        (LONGEST, LONGEST),
        (LONGEST - 1, LONGEST),
    ] {
        refused(trial, &spans(&[job]), 0);
    }
}

/// "A low above its high is 19"; one that equals it is good.
fn above(trial: &mut Trial) {
    for job in [(2, 1), (LONGEST, LONGEST - 1), (LONGEST, 1), (65_536, 1)] {
        refused(trial, &spans(&[job]), 19 + 256);
        refused(trial, &spans(&[(1, 1), job]), 19 + 256 * 2);
    }
    for time in [1, 2, 256, 65_536, LONGEST] {
        refused(trial, &spans(&[(time, time)]), 0);
    }
    let large = |low| write(&order(&[8], &[(low, 5, 9)]));
    told(trial, &large(5), &[4], 19 + 256);
    told(trial, &large(5), &[5], 7 + 256);
    told(trial, &large(200_000), &[5], 5 + 256);
}

/// Of several jobs the first is carried, of 5 whichever end is out of range.
fn first_jobs(trial: &mut Trial) {
    let (low, high, above, good) = ((0, 5), (5, LONGEST + 1), (5, 4), (5, 5));
    let cases = [
        ([good, high, low], 5, 2),
        ([good, low, high], 5, 2),
        ([high, good, low], 5, 1),
        ([low, high, good], 5, 1),
        ([above, good, high], 5, 3),
        ([above, low, above], 5, 2),
        ([good, above, above], 19, 2),
        ([above, good, above], 19, 1),
        ([good, good, above], 19, 3),
    ];
    for (jobs, number, job) in cases {
        refused(trial, &spans(&jobs), number + 256 * job);
    }
}

/// Two jobs, each with one thing wrong, in both orders: 5, 6, 13, 19, 7.
fn pairs(trial: &mut Trial) {
    let job = |low, high, due, need, maker| ((low, due, need, maker), high);
    let bad = [
        (5, job(0, 5, 5, 4, 1)),
        (5, job(5, 0, 5, 4, 1)),
        (5, job(LONGEST + 1, 5, 5, 4, 1)),
        (5, job(5, LONGEST + 1, 5, 4, 1)),
        (6, job(5, 5, 1_000_001, 4, 1)),
        (6, job(5, 6, -1_000_001, 4, 1)),
        (13, job(5, 5, 5, 4, 0)),
        (13, job(5, 6, 5, 4, 17)),
        (19, job(5, 4, 5, 4, 1)),
        (19, job(LONGEST, 1, 5, 4, 1)),
        (7, job(5, 5, 5, 9, 1)),
        (7, job(5, 6, 5, u32::MAX, 1)),
    ];
    let rank = |number: u32| [5, 6, 13, 19, 7].iter().position(|one| *one == number);
    for (one, first) in bad {
        for (other, second) in bad {
            let (number, job) = match rank(one) <= rank(other) {
                true => (one, 1),
                false => (other, 2),
            };
            let file = write(&made(&[8], &[first.0, second.0]));
            told(trial, &file, &[first.1, second.1], number + 256 * job);
        }
    }
}

/// One high to a job, no less and no more; of a bad file any list.
fn lengths(trial: &mut Trial) {
    for jobs in [1, 2, 3, 47, 48] {
        let file = write(&order(&[4], &vec![(1, 9, 4); jobs]));
        let all = [0, 1, 2, 3, 4, jobs - 1, jobs + 1, 2 * jobs, 48, 49];
        for length in all.into_iter().chain([jobs + 256, jobs + 65_536]) {
            let result = if length == jobs { 0 } else { 253 };
            told(trial, &file, &vec![1; length], result);
            told(trial, &file[1..], &vec![1; length], 12);
        }
    }
}

/// The highs belong to the file's count of jobs, also where the counts are refused.
fn counts(trial: &mut Trial) {
    for (order, number) in refused_counts() {
        let (file, jobs) = (write(&order), order.jobs.len());
        for high in [0, 1, u32::MAX] {
            told(trial, &file, &vec![high; jobs], number);
            told(trial, &file, &vec![high; jobs + 1], 253);
            if jobs > 0 {
                told(trial, &file, &vec![high; jobs - 1], 253);
            }
        }
    }
}

/// C's file has 32 bytes: fewer are 9 where there is an order to write, and there only.
fn rooms(trial: &mut Trial) {
    let file = write(&order(&[4], &[(1, 10, 4)]));
    for number in [-11, -10, -9, -6, -5, i32::MIN, i32::MAX] {
        for room in [0, 1, 16, 20, 31, 32, 33, 68, 255, 256, 844, 65_536] {
            let call = Call::with_file(&mut trial.random, &file, 2)
                .with_highs(&mut trial.random, &[5])
                .with_order_room(&mut trial.random, number, room);
            let (result, answer): (u32, &[i32]) = match (-10..=-6).contains(&number) {
                false => (0, &[0]),
                true if room < 32 => (9, &[]),
                true => (0, &[32]),
            };
            case(trial, Function::BetweenOrder, call, result, answer);
        }
    }
}

/// 255, 12, 253, 5, 6, 13, 19, 7, 9, each where all that follow hold too.
fn before_others(trial: &mut Trial) {
    let bad = |low, due, need, maker| write(&made(&[4], &[(low, due, need, maker)]));
    let time = bad(LONGEST + 1, 1_000_001, 5, 0);
    let due = bad(3, 1_000_001, 5, 0);
    let (nobody, large, good) = (bad(3, 10, 5, 0), bad(3, 10, 5, 1), bad(3, 10, 4, 1));
    let lent: [(usize, &[u8], &[u32], u32); 10] = [
        (0, &time[1..], &[], 255),
        (9, &time[1..], &[], 12),
        (9, &time, &[], 253),
        (9, &time, &[2], 5 + 256),
        (9, &due, &[0], 5 + 256),
        (9, &due, &[2], 6 + 256),
        (9, &nobody, &[2], 13 + 256),
        (9, &large, &[2], 19 + 256),
        (9, &large, &[3], 7 + 256),
        (9, &good, &[3], 9),
    ];
    for (answer, file, highs, result) in lent {
        for function in ESTIMATED {
            // one number too few, or enough
            let answer = answer.max(function.answer_length() - 1);
            let call = Call::with_file(&mut trial.random, file, answer)
                .with_highs(&mut trial.random, highs)
                .with_order_room(&mut trial.random, -8, 0);
            // hbr_between writes no order
            let writes = function == Function::BetweenOrder;
            let result = if result == 9 && !writes { 0 } else { result };
            case(trial, function, call, result, &[]);
        }
    }
}
