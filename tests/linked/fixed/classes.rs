//! Document 02's §6, the classes with their processors: "The listing of classes and their counts is the
//! former one for every order", which is document 01's "Sort the distinct memories downwards: class 1 is
//! the largest."

use super::{case, made, order};
use crate::draw::files::jobs_first;
use crate::independent::{write, Order};
use crate::lent::Call;
use crate::library::{Function, CLASS_NUMBERS};
use crate::trial::Trial;

pub fn run(trial: &mut Trial) {
    listed(trial);
    passed(trial);
    in_any_order(trial);
    with_any_jobs(trial);
    lengths(trial);
    before_others(trial);
}

/// The order has these classes, in either form of its file.
fn has(trial: &mut Trial, order: &Order, classes: &[[u32; 2]]) {
    for file in [write(order), jobs_first(order)] {
        let call = Call::with_file(&mut trial.random, &file, 1)
            .with_class_room(&mut trial.random, CLASS_NUMBERS);
        let Some((result, after)) = trial.call(Function::Classes, call) else {
            return;
        };
        let told = (result, after.answer.content()[0]);
        let numbers = &after.classes.content()[..2 * classes.len()];
        if told != (0, classes.len() as i32) || numbers != classes.concat() {
            let is = format!("result and classes {told:?}, {numbers:?}");
            trial.differs(format!("{:?}: {is}, not {classes:?}", order.memories));
        }
    }
}

/// Processors of these memories, and a job that fits each.
fn of(memories: &[u32]) -> Order {
    order(memories, &[(1, 5, 0)])
}

fn listed(trial: &mut Trial) {
    let (most, half) = (u32::MAX, 1 << 31);
    let upwards: Vec<u32> = (10..26).collect();
    let downwards: Vec<u32> = (10..26).rev().collect();
    let each: Vec<[u32; 2]> = (10..26).rev().map(|memory| [memory, 1]).collect();
    let pairs: Vec<u32> = (0..16).map(|place| place % 8).collect();
    let twice: Vec<[u32; 2]> = (0..8).rev().map(|memory| [memory, 2]).collect();
    let halves = [[most; 8], [0; 8]].concat();
    let cases: [(&[u32], &[[u32; 2]]); 17] = [
        (&[4, 8, 4, 2], &[[8, 1], [4, 2], [2, 1]]),
        (&[4], &[[4, 1]]),
        (&[0], &[[0, 1]]),
        (&[most], &[[most, 1]]),
        (&[4; 16], &[[4, 16]]),
        (&[0; 16], &[[0, 16]]),
        (&[most; 16], &[[most, 16]]),
        (&upwards, &each),
        (&downwards, &each),
        (&pairs, &twice),
        (&halves, &[[most, 8], [0, 8]]),
        (&[0, most], &[[most, 1], [0, 1]]),
        (&[most, 0, most, 0, 1], &[[most, 2], [1, 1], [0, 2]]),
        (&[half - 1, half], &[[half, 1], [half - 1, 1]]),
        (&[most - 1, most, most], &[[most, 2], [most - 1, 1]]),
        (&[7, 263, 7], &[[263, 1], [7, 2]]),
        (&[7, 65_543, 65_543], &[[65_543, 2], [7, 1]]),
    ];
    for (memories, classes) in cases {
        has(trial, &of(memories), classes);
    }
}

/// "After each processor passed, classes and counts are those of the processors passed so far."
fn passed(trial: &mut Trial) {
    let sorted = [8, 4, 4, 2];
    let classes: [&[[u32; 2]]; 4] = [
        &[[8, 1]],
        &[[8, 1], [4, 1]],
        &[[8, 1], [4, 2]],
        &[[8, 1], [4, 2], [2, 1]],
    ];
    for (count, classes) in (1..).zip(classes) {
        has(trial, &of(&sorted[..count]), classes);
    }
}

/// The same processors, listed in each order that there is.
fn in_any_order(trial: &mut Trial) {
    let four = [4, 8, 4, 2];
    for first in 0..4 {
        for second in 0..3 {
            for third in 0..2 {
                let mut left = four.to_vec();
                let taken = [first, second, third, 0].map(|place| left.remove(place));
                has(trial, &of(&taken), &[[8, 1], [4, 2], [2, 1]]);
            }
        }
    }
}

/// Jobs of one class alone, of none but the last, of needs that are no memory.
fn with_any_jobs(trial: &mut Trial) {
    let memories = [4, 8, 4, 2];
    for needs in [[8, 8, 8], [0, 0, 0], [4, 2, 8], [1, 3, 7], [2, 2, 2]] {
        let jobs = needs.map(|need| (3, 5, need));
        has(trial, &order(&memories, &jobs), &[[8, 1], [4, 2], [2, 1]]);
    }
}

/// Room for 16 classes is asked for, whatever the order.
fn lengths(trial: &mut Trial) {
    let distinct: Vec<u32> = (0..16).collect();
    let lent = [
        (0, 253),
        (1, 253),
        (2, 253),
        (6, 253),
        (16, 253),
        (30, 253),
        (31, 253),
        (32, 0),
        (33, 0),
        (64, 0),
        (256, 0),
        (65_536, 0),
    ];
    for memories in [&[4][..], &[4, 8, 4, 2], &distinct] {
        for (room, result) in lent {
            let call = Call::with_file(&mut trial.random, &write(&of(memories)), 2)
                .with_class_room(&mut trial.random, room);
            case(trial, Function::Classes, call, result, &[]);
        }
    }
}

/// 255, 253, 12, 1 to 6, 13, 7, each where all that follow hold too.
fn before_others(trial: &mut Trial) {
    let bad = |time, due, maker, need| write(&made(&[4], &[(time, due, need, maker)]));
    let empty = bad(0, 1_000_001, 0, 5);
    let files = [
        (empty[1..].to_vec(), 12),
        (write(&order(&[], &[(0, 5, 9)])), 1),
        (write(&order(&[4; 17], &[(0, 5, 9)])), 2),
        (write(&order(&[4], &[])), 3),
        (write(&order(&[4], &[(0, 5, 9); 49])), 4),
        (empty, 5 + 256),
        (bad(1, 1_000_001, 0, 5), 6 + 256),
        (bad(1, 5, 0, 5), 13 + 256),
        (bad(1, 5, 1, 5), 7 + 256),
        (bad(1, 5, 1, 4), 0),
    ];
    for (file, result) in files {
        for (answer, room, result) in [(0, 31, 255), (0, 32, 255), (1, 31, 253), (1, 32, result)] {
            let call = Call::with_file(&mut trial.random, &file, answer)
                .with_class_room(&mut trial.random, room);
            case(trial, Function::Classes, call, result, &[]);
        }
    }
}
