//! Document 02's lines, and others that its words settle: each composes in a buffer of its own
//! length, is refused in one that is a byte shorter, and reads back.

use super::{a, b, c, case, order};
use crate::expect::reason_numbers;
use crate::independent::{write, Order, Reason};
use crate::lent::Call;
use crate::library::{Function, REASON_NUMBERS};
use crate::trial::Trial;

pub fn run(trial: &mut Trial) {
    told(trial);
    four_staircases(trial);
    two_late_jobs(trial);
    no_staircases(trial);
    longest(trial);
}

pub fn late(job: u32, time: u32) -> Reason {
    Reason::Job { job, time }
}

pub fn stairs(dues: &[i32]) -> Reason {
    Reason::Stairs(dues.to_vec())
}

pub fn numbers_of(reason: &Reason) -> Vec<i32> {
    reason_numbers(Some(reason.clone()))
}

/// Composes the reason of these numbers in so much room.
fn composing(trial: &mut Trial, order: &Order, bound: i32, numbers: &[i32], room: usize) -> Call {
    Call::with_file(&mut trial.random, &write(order), 1)
        .with_reason(&mut trial.random, numbers)
        .with_line_room(&mut trial.random, room)
        .at(bound)
}

fn reading(trial: &mut Trial, order: &Order, bound: i32, line: &[u8]) -> Call {
    Call::with_file(&mut trial.random, &write(order), REASON_NUMBERS)
        .with_line(&mut trial.random, line)
        .at(bound)
}

/// A reason that composes to this line.
pub fn composes(trial: &mut Trial, order: &Order, bound: i32, reason: &Reason, line: &str) {
    let (length, numbers) = (line.len(), numbers_of(reason));
    for room in [length, length + 1, 600] {
        let call = composing(trial, order, bound, &numbers, room);
        let Some((result, after)) = trial.call(Function::Sentence, call) else {
            return;
        };
        let written = &after.line.content()[..length];
        let told = (result, after.answer.content()[0]);
        if told != (0, length as i32) || written != line.as_bytes() {
            let is = String::from_utf8_lossy(written);
            trial.differs(format!("{reason:?} at {bound}: {is}, not {line}"));
        }
    }
    let call = composing(trial, order, bound, &numbers, length - 1);
    case(trial, Function::Sentence, call, 9, &[]);
    let call = reading(trial, order, bound, line.as_bytes());
    case(trial, Function::Parse, call, 0, &numbers);
}

/// A reason that does not stand.
fn empty(trial: &mut Trial, order: &Order, bound: i32, reason: &Reason) {
    empty_of(trial, order, bound, &numbers_of(reason));
}

/// Numbers that compose to an empty line, in no room too: an empty line is never too long.
pub fn empty_of(trial: &mut Trial, order: &Order, bound: i32, numbers: &[i32]) {
    for room in [0, 600] {
        let call = composing(trial, order, bound, numbers, room);
        case(trial, Function::Sentence, call, 0, &[0]);
    }
}

/// A line that is no reason's here.
pub fn none(trial: &mut Trial, order: &Order, bound: i32, line: &[u8]) {
    let call = reading(trial, order, bound, line);
    case(trial, Function::Parse, call, 0, &[0; REASON_NUMBERS]);
}

fn told(trial: &mut Trial) {
    let of_a = "memory 8 due 3, memory 4 due 3: owed 7, on hand 6";
    let of_b = "memory 8 due 4, memory 4 due 2: owed 8, on hand 6";
    let of_c = "job 1: time 3, end 2: owed 3, on hand 2";
    let early_c = "job 1: time 3, end -10: owed 3, on hand -10";
    composes(trial, &a(), -1, &stairs(&[3, 3]), of_a);
    composes(trial, &b(), -1, &stairs(&[4, 2]), of_b);
    composes(trial, &c(), -9, &late(1, 3), of_c);
    composes(trial, &c(), -21, &late(1, 3), early_c);
    empty(trial, &c(), -8, &late(1, 3));
    empty(trial, &b(), 0, &stairs(&[4, 2]));
}

/// Every overfull staircase composes, not the first alone.
fn four_staircases(trial: &mut Trial) {
    let order = order(&[8, 4], &[(2, 2, 8), (1, 1, 8), (1, 1, 4)]);
    let lines: [(&[i32], &str); 4] = [
        (&[1], "memory 8 due 1: owed 2, on hand 1"),
        (&[2], "memory 8 due 2: owed 3, on hand 2"),
        (&[1, 1], "memory 8 due 1, memory 4 due 1: owed 3, on hand 2"),
        (&[2, 1], "memory 8 due 2, memory 4 due 1: owed 4, on hand 3"),
    ];
    for (dues, line) in lines {
        composes(trial, &order, -1, &stairs(dues), line);
    }
    for dues in [&[2, 2][..], &[1, 2], &[3], &[], &[1, 1, 1]] {
        empty(trial, &order, -1, &stairs(dues));
    }
}

/// Every late job composes, and no staircase beside them.
fn two_late_jobs(trial: &mut Trial) {
    let order = order(&[4], &[(3, 1, 0), (1, 9, 0), (5, 2, 0)]);
    let first = "job 1: time 3, end 1: owed 3, on hand 1";
    let third = "job 3: time 5, end 2: owed 5, on hand 2";
    composes(trial, &order, -1, &late(1, 3), first);
    composes(trial, &order, -1, &late(3, 5), third);
    for (job, time) in [(2, 1), (0, 3), (4, 3), (1, 5), (3, 3)] {
        empty(trial, &order, -1, &late(job, time));
    }
    for due in [1, 2, 9] {
        empty(trial, &order, -1, &stairs(&[due]));
    }
    let second = "job 2: time 1, end 9: owed 1, on hand 9";
    none(trial, &order, -1, second.as_bytes());
    none(trial, &order, -1, b"memory 4 due 2: owed 8, on hand 2");
}

/// Due times of no job and due times that rise, though they add up to more than is on hand.
fn no_staircases(trial: &mut Trial) {
    let alike = order(&[4], &[(2, 2, 0); 3]);
    let steep = order(&[8, 4], &[(2, 2, 8), (2, 2, 8), (2, 2, 8), (2, 3, 4)]);
    let cases: [(&Order, &[i32], &str); 2] = [
        (&alike, &[3], "memory 4 due 3: owed 6, on hand 3"),
        (
            &steep,
            &[2, 3],
            "memory 8 due 2, memory 4 due 3: owed 8, on hand 5",
        ),
    ];
    for (order, dues, line) in cases {
        empty(trial, order, -1, &stairs(dues));
        none(trial, order, -1, line.as_bytes());
    }
}

/// The longest line of all has 541 bytes, the longest of a job 66.
fn longest(trial: &mut Trial) {
    let memories: Vec<u32> = (u32::MAX - 15..=u32::MAX).collect();
    let order = order(&memories, &[(100_000, -1_000_000, 0); 48]);
    let steps = memories.iter().rev();
    let steps = steps.map(|memory| format!("memory {memory} due -1000000"));
    let steps: Vec<String> = steps.collect();
    let line = format!("{}: owed 4800000, on hand 1600000", steps.join(", "));
    let job = "job 48: time 100000, end -10999999: owed 100000, on hand -10999999";
    if (line.len(), job.len()) != (541, 66) {
        trial.differs("the longest lines are not 541 and 66 bytes long".to_string());
    }
    composes(trial, &order, 1_099_999, &stairs(&[-1_000_000; 16]), &line);
    composes(trial, &order, -10_000_000, &late(48, 100_000), job);
}
