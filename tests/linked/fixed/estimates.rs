//! Document 02's §9, times known only between two numbers: the least lateness at the lows and at the highs,
//! and for each whole number between them the order "first met when job 1, then job 2 and so on, goes minute
//! by minute from low to high. A number outside the two yields no order."

use super::{case, made, order};
use crate::draw::files::jobs_first;
use crate::independent::{read, walk, write, Estimate, Order};
use crate::lent::Call;
use crate::library::Function;
use crate::trial::Trial;

const LONGEST: u32 = 100_000;

/// What takes long comes last.
pub fn run(trial: &mut Trial) {
    of_c(trial);
    of_a(trial);
    of_b_and_d(trial);
    known(trial);
    plateau(trial);
    by_number(trial);
    whole(trial);
    wide(trial);
    largest(trial);
}

/// These highs beside an order that has the lows for its times. For each whole number from the least lateness
/// at the lows to that at the highs the times of the order met are given; for no other number there is one.
fn reaches(trial: &mut Trial, lows: &Order, highs: &[u32], met: &[(i32, &[u32])]) {
    let (first, last) = (met[0].0, met[met.len() - 1].0);
    for file in [write(lows), jobs_first(lows)] {
        let call = lent(trial, &file, highs, 2);
        case(trial, Function::Between, call, 0, &[first, last]);
        for (number, times) in met {
            meets(trial, lows, highs, &file, (*number, times));
        }
        for number in [first - 1, first - 2, last + 1, last + 2, i32::MIN, i32::MAX] {
            meets_none(trial, &file, highs, number);
        }
    }
}

fn lent(trial: &mut Trial, file: &[u8], highs: &[u32], answer: usize) -> Call {
    Call::with_file(&mut trial.random, file, answer).with_highs(&mut trial.random, highs)
}

/// The order met for this number has these times, and is written with the processors first.
fn meets(
    trial: &mut Trial,
    lows: &Order,
    highs: &[u32],
    file: &[u8],
    (number, times): (i32, &[u32]),
) {
    let call = lent(trial, file, highs, 1);
    let call = call.with_order_room(&mut trial.random, number, file.len());
    let Some((result, after)) = trial.call(Function::BetweenOrder, call) else {
        return;
    };
    let mut met = lows.clone();
    let jobs = met.jobs.iter_mut().zip(times);
    jobs.for_each(|(job, time)| job.time = *time);
    let told = (result, after.answer.content()[0]);
    if told != (0, file.len() as i32) || after.order.content() != write(&met) {
        let is = read(after.order.content());
        let should = format!("{number} is met with times {times:?}");
        trial.differs(format!("{should}, up to {highs:?}: {told:?}, {is:?}"));
    }
}

/// No order is met for this number, for which no room is asked.
fn meets_none(trial: &mut Trial, file: &[u8], highs: &[u32], number: i32) {
    for room in [0, 1, file.len()] {
        let call = lent(trial, file, highs, 1);
        let call = call.with_order_room(&mut trial.random, number, room);
        case(trial, Function::BetweenOrder, call, 0, &[0]);
    }
}

/// The orders of the path have these least latenesses.
fn walked(trial: &mut Trial, lows: &Order, highs: &[u32], leasts: &[i32]) {
    let estimate = Estimate::of(lows, highs).expect("a high to each job");
    let walk = walk(&estimate).into_iter().map(|(_, least)| least);
    let walk: Vec<i32> = walk.collect();
    if walk != leasts {
        trial.differs(format!("{lows:?} to {highs:?}: {walk:?}, not {leasts:?}"));
    }
}

fn of_a(trial: &mut Trial) {
    let a = |low| order(&[8, 4], &[(1, 3, 8), (low, 3, 4), (1, 4, 2)]);
    let met: [(i32, &[u32]); 4] = [
        (-3, &[1, 1, 1]),
        (-2, &[2, 1, 1]),
        (-1, &[3, 1, 1]),
        (0, &[3, 3, 2]),
    ];
    walked(trial, &a(1), &[3, 3, 2], &[-3, -2, -1, -1, -1, 0]);
    reaches(trial, &a(1), &[3, 3, 2], &met);
    let met: [(i32, &[u32]); 5] = [
        (-2, &[1, 2, 1]),
        (-1, &[3, 2, 1]),
        (0, &[3, 4, 1]),
        (1, &[3, 5, 1]),
        (2, &[3, 6, 1]),
    ];
    walked(trial, &a(2), &[3, 6, 2], &[-2, -2, -1, -1, 0, 1, 2, 2]);
    reaches(trial, &a(2), &[3, 6, 2], &met);
}

fn of_b_and_d(trial: &mut Trial) {
    let b = order(&[8, 4], &[(1, 4, 8), (1, 4, 8), (1, 2, 4), (1, 2, 4)]);
    let met: [(i32, &[u32]); 5] = [
        (-2, &[1, 1, 1, 1]),
        (-1, &[2, 1, 1, 1]),
        (0, &[3, 2, 1, 1]),
        (1, &[3, 3, 1, 1]),
        (2, &[3, 3, 3, 2]),
    ];
    reaches(trial, &b, &[3; 4], &met);
    let met: [(i32, &[u32]); 5] = [
        (-3, &[1, 1, 1]),
        (-2, &[3, 1, 1]),
        (-1, &[4, 1, 1]),
        (0, &[4, 4, 1]),
        (1, &[4, 4, 3]),
    ];
    reaches(trial, &super::d(), &[4; 3], &met);
}

/// One job: each minute more is a minute later.
fn of_c(trial: &mut Trial) {
    reaches(trial, &super::c(), &[3], &[(-8, &[3])]);
    let c = order(&[4], &[(1, 10, 4)]);
    let met: [(i32, &[u32]); 5] = [(-10, &[1]), (-9, &[2]), (-8, &[3]), (-7, &[4]), (-6, &[5])];
    reaches(trial, &c, &[5], &met);
}

/// Three jobs on one processor, due 9: the least lateness is the sum of times less 10. A low that equals its
/// high is a time that is known: of no job, of the first, of the middle one, of the last, of all.
fn known(trial: &mut Trial) {
    let three = order(&[4], &[(2, 9, 4); 3]);
    let cases: [(&[u32], &[&[u32]]); 6] = [
        (&[3, 3, 3], &[&[3, 2, 2], &[3, 3, 2], &[3, 3, 3]]),
        (&[2, 3, 4], &[&[2, 3, 2], &[2, 3, 3], &[2, 3, 4]]),
        (&[4, 2, 3], &[&[3, 2, 2], &[4, 2, 2], &[4, 2, 3]]),
        (&[3, 4, 2], &[&[3, 2, 2], &[3, 3, 2], &[3, 4, 2]]),
        (&[2, 2, 4], &[&[2, 2, 3], &[2, 2, 4]]),
        (&[2, 2, 2], &[]),
    ];
    for (highs, later) in cases {
        let lows: [&[u32]; 1] = [&[2, 2, 2]];
        let times = lows.iter().chain(later).copied();
        let met: Vec<(i32, &[u32])> = (-4..).zip(times).collect();
        reaches(trial, &three, highs, &met);
    }
}

/// Due 9 and due 0 on one processor: of nine orders with the least lateness 1 the first is told.
fn plateau(trial: &mut Trial) {
    let two = order(&[4], &[(1, 9, 0), (2, 0, 0)]);
    let met: [(i32, &[u32]); 6] = [
        (1, &[1, 2]),
        (2, &[10, 2]),
        (3, &[11, 2]),
        (4, &[12, 2]),
        (5, &[12, 3]),
        (6, &[12, 4]),
    ];
    reaches(trial, &two, &[12, 4], &met);
    let leasts = [[1; 9].as_slice(), &[2, 3, 4, 5, 6]].concat();
    walked(trial, &two, &[12, 4], &leasts);
}

/// "job 1, then job 2 and so on": whatever their needs and due times.
fn by_number(trial: &mut Trial) {
    let met: [(i32, &[u32]); 4] = [
        (-4, &[2, 2, 2]),
        (-3, &[3, 2, 2]),
        (-2, &[3, 3, 2]),
        (-1, &[3, 3, 3]),
    ];
    for needs in [[0, 8, 4], [8, 4, 0], [4, 4, 8]] {
        let jobs = needs.map(|need| (2, 9, need));
        reaches(trial, &order(&[8], &jobs), &[3; 3], &met);
    }
    let dues = order(&[8], &[(2, 9, 0), (2, 8, 8), (2, 7, 4)]);
    reaches(trial, &dues, &[3; 3], &met);
}

/// Memories, due times, needs and makers are those of the order.
fn whole(trial: &mut Trial) {
    let jobs = [(1, -3, 7, 16), (1, 1_000_000, 0, 9), (1, -3, 2, 3)];
    let mixed = made(&[2, 7, 4_294_967_295], &jobs);
    let met: [(i32, &[u32]); 3] = [(3, &[1, 1, 1]), (4, &[2, 1, 1]), (5, &[2, 5, 3])];
    reaches(trial, &mixed, &[2, 5, 3], &met);
}

/// One job from 1 to 100,000 minutes.
fn wide(trial: &mut Trial) {
    let c = order(&[4], &[(1, 10, 4)]);
    let (file, highs) = (write(&c), [LONGEST]);
    let call = lent(trial, &file, &highs, 2);
    case(trial, Function::Between, call, 0, &[-10, 99_989]);
    for time in [1, 2, 3, 255, 256, 257, 65_536, 65_537, 99_999, LONGEST] {
        meets(trial, &c, &highs, &file, (time as i32 - 11, &[time]));
    }
    for number in [-11, 99_990, i32::MIN, i32::MAX] {
        meets_none(trial, &file, &highs, number);
    }
}

/// 48 jobs of 1 to 100,000 minutes on 16 processors, due 99. Job 1 alone is the latest up to 99,900, from
/// where on 16 processors together are.
fn largest(trial: &mut Trial) {
    let all = order(&[4; 16], &[(1, 99, 4); 48]);
    let (file, highs) = (write(&all), [LONGEST; 48]);
    let call = lent(trial, &file, &highs, 2);
    case(trial, Function::Between, call, 0, &[-97, 299_900]);
    let times = |full: usize, next: u32| {
        let mut times = vec![LONGEST; full];
        times.push(next);
        times.resize(48, 1);
        times
    };
    let met = [
        (-97, times(0, 1)),
        (-96, times(0, 2)),
        (-95, times(0, 5)),
        (0, times(0, 100)),
        (99_900, times(0, LONGEST)),
        (99_901, times(15, 99_969)),
        (299_900, times(47, 99_985)),
    ];
    for (number, times) in met {
        meets(trial, &all, &highs, &file, (number, &times));
    }
    for number in [-98, 299_901] {
        meets_none(trial, &file, &highs, number);
    }
}
