//! Document 01's "Orders to try", the small examples of its refusal table and its order file of C,
//! with the values that stand there, the leasts and the bounds one lower as document 02's §3 has
//! them, each job of maker 1 as its §4 has it; the lines, the joined rows, the ends, the makers, the
//! books, the classes, the ready minutes and windows, the needs, the jobs held by need, the lows and highs,
//! the screen's orders and the register block of document 02 in `fixed/`.

mod block;
mod block_lengths;
mod books;
mod classes;
mod commands;
mod ends;
mod estimates;
mod held;
mod highs;
mod joins;
mod kept;
mod lines;
mod makers;
mod needs;
mod others;
mod registers;
mod replies;
mod screen;
mod times;
mod untimed;

use crate::draw::Random;
use crate::independent::{write, Job, Order, MAKERS};
use crate::lent::{job_numbers, Call};
use crate::library::{Function, CLASS_NUMBERS, READERS, REASON_NUMBERS};
use crate::trial::Trial;

const C_FILE: [u8; 32] = [
    0x04, 0, 0, 0, 0x03, 0, 0, 0, 0x0A, 0, 0, 0, 0x04, 0, 0, 0, 0x01, 0, 0, 0, 0, 0, 0, 0, 0x04, 0,
    0, 0, 1, 0, 1, 0,
];
const MOST_BYTES: usize = 844;
const ENOUGH: usize = 12_096;
const FEW: usize = 200;

/// "In document 01's cases the maker is 1."
pub fn order(memories: &[u32], jobs: &[(u32, i32, u32)]) -> Order {
    let job = |&(time, due, need): &(u32, i32, u32)| (time, due, need, 1);
    made(memories, &jobs.iter().map(job).collect::<Vec<_>>())
}

/// An order whose jobs have makers.
fn made(memories: &[u32], jobs: &[(u32, i32, u32, u32)]) -> Order {
    let job = |&(time, due, need, maker): &(u32, i32, u32, u32)| Job {
        time,
        due,
        need,
        maker,
    };
    Order {
        memories: memories.to_vec(),
        jobs: jobs.iter().map(job).collect(),
    }
}

pub fn a() -> Order {
    order(&[8, 4], &[(3, 3, 8), (3, 3, 4), (2, 4, 2)])
}

pub fn b() -> Order {
    order(&[8, 4], &[(2, 4, 8), (2, 4, 8), (2, 2, 4), (2, 2, 4)])
}

pub fn c() -> Order {
    order(&[4], &[(3, 10, 4)])
}

pub fn d() -> Order {
    order(&[8, 8], &[(1, 4, 1); 3])
}

/// Puts all fixed cases before the library, but those with ready minutes and windows, those with a table
/// of needs, those of jobs that lie elsewhere than they are given, those of lows and highs, those of a screen and
/// those of a register block.
pub fn run(trial: &mut Trial) {
    trial.begin("document 01", 0);
    lateness(trial);
    reasons(trial);
    checks(trial);
    refused_orders(trial);
    other_refusals(trial);
    accepted(trial);
    trial.begin("document 02", 0);
    makers::run(trial);
    classes::run(trial);
    books::run(trial);
    lines::run(trial);
    others::run(trial);
    joins::run(trial);
    ends::run(trial);
}

/// Puts the cases with ready minutes and windows before the library.
pub fn run_timed(trial: &mut Trial) {
    trial.begin("document 02, times", 0);
    times::run(trial);
}

/// Puts the cases with a table of needs before the library.
pub fn run_needs(trial: &mut Trial) {
    trial.begin("document 02, needs", 0);
    needs::run(trial);
}

/// Puts the longest lists of lengths before the library, and longer ones.
pub fn run_long_lists(trial: &mut Trial) {
    trial.begin("document 02, long lists", 0);
    needs::long_lists(trial);
}

/// Puts the cases of jobs that lie elsewhere than they are given before the library.
pub fn run_held(trial: &mut Trial) {
    trial.begin("document 02, jobs held", 0);
    held::run(trial);
}

/// Puts the cases of lows and highs before the library.
pub fn run_estimates(trial: &mut Trial) {
    trial.begin("document 02, lows and highs", 0);
    estimates::run(trial);
    highs::run(trial);
}

/// Puts the cases of a screen's orders before the library, from both callers.
pub fn run_screen(trial: &mut Trial) {
    trial.begin("document 02, the club screen", 0);
    screen::run(trial);
    replies::run(trial);
}

/// Puts the cases of a register block before the library.
pub fn run_block(trial: &mut Trial) {
    trial.begin("document 02, a register block", 0);
    block_lengths::run(trial);
    block::run(trial);
    registers::run(trial);
    commands::run(trial);
}

/// A call on the order's file, all of whose buffers are long enough, with a book just opened; jobs are
/// there from the start on, processors always open, and times known.
fn on(random: &mut Random, order: &Order) -> Call {
    on_with_room(random, order, ENOUGH)
}

/// The same with room for few rows, which is quicker.
fn on_few(random: &mut Random, order: &Order) -> Call {
    on_with_room(random, order, FEW)
}

fn on_with_room(random: &mut Random, order: &Order, numbers: usize) -> Call {
    let windows = [0, times::MOST].repeat(order.memories.len());
    let known: Vec<u32> = order.jobs.iter().map(|job| job.time).collect();
    Call::with_file(random, &write(order), 19)
        .with_class_room(random, CLASS_NUMBERS)
        .with_room(random, numbers)
        .with_book(random, &[0; MAKERS])
        .with_times(random, &vec![0; order.jobs.len()], &windows)
        .with_reason(random, &[0; REASON_NUMBERS])
        .with_highs(random, &known)
        .with_order_room(random, 0, MOST_BYTES)
}

/// Compares a call with the result and the first numbers of the answer that the document gives.
fn case(trial: &mut Trial, function: Function, call: Call, result: u32, answer: &[i32]) {
    if let Some(reply) = trial.call(function, call) {
        compare(trial, function, &reply, result, answer);
    }
}

/// The same of a call that was made.
fn compare(
    trial: &mut Trial,
    function: Function,
    (told, after): &(u32, Call),
    result: u32,
    answer: &[i32],
) {
    let numbers = after.answer.content();
    if *told != result || !numbers.starts_with(answer) {
        let (name, bound) = (function.name(), after.bound);
        let is = format!("result {told}, answer {numbers:?}");
        trial.differs(format!(
            "{name} at {bound}: {is}; the document has {result}, {answer:?}"
        ));
    }
}

fn lateness(trial: &mut Trial) {
    let cases = [
        (a(), 0),
        (b(), 0),
        (c(), -8),
        (d(), -3),
        (order(&[4], &[(1, 1, 0)]), -1),
        (order(&[1], &[(1, -5, 1)]), 5),
    ];
    for (order, least) in cases {
        for function in [Function::Least, Function::BookLeast] {
            let call = on(&mut trial.random, &order);
            case(trial, function, call, 0, &[least]);
        }
    }
}

/// Orders at a bound, and the first numbers of the reason told.
fn reason_cases() -> [(Order, i32, &'static [i32]); 4] {
    [
        (a(), -1, &[2, 2, 0, 3, 3, 0]),
        (b(), -1, &[2, 2, 0, 4, 2, 0]),
        (c(), -9, &[1, 1, 3, 0]),
        (c(), -8, &[0, 0, 0, 0]),
    ]
}

fn reasons(trial: &mut Trial) {
    for (order, bound, reason) in reason_cases() {
        let call = on(&mut trial.random, &order).at(bound);
        case(trial, Function::Reason, call, 0, reason);
    }
}

fn checks(trial: &mut Trial) {
    let cases: [(&[u32], i32); 2] = [
        (&[1, 1, 0, 1, 1, 1, 1, 3], 1),
        (&[1, 1, 0, 2, 1, 1, 1, 2], 0),
    ];
    for (rows, answer) in cases {
        let call = on(&mut trial.random, &c()).with_rows(&mut trial.random, rows);
        case(trial, Function::Check, call.at(-1), 0, &[answer]);
    }
}

/// Rows 1 to 7 of the table, and 13, to each function that reads a file, and to the writer.
fn refused_orders(trial: &mut Trial) {
    let cases = [
        (order(&[], &[(1, 1, 0)]), 1, 0),
        (order(&[4; 17], &[(1, 1, 0)]), 2, 0),
        (order(&[4], &[]), 3, 0),
        (order(&[4], &[(1, 99, 0); 49]), 4, 0),
        (order(&[4], &[(0, 5, 1)]), 5, 1),
        (order(&[4], &[(1, 1_000_001, 1)]), 6, 1),
        (order(&[8], &[(1, 5, 9)]), 7, 1),
        (made(&[4], &[(1, 5, 1, 0)]), 13, 1),
        (made(&[4], &[(1, 5, 1, 17)]), 13, 1),
    ];
    for (order, number, job) in cases {
        refused(trial, &order, ENOUGH, number + 256 * job);
    }
}

/// The order is refused by all functions, with room for so many numbers of rows.
fn refused(trial: &mut Trial, order: &Order, room: usize, result: u32) {
    for function in READERS {
        let call = on_with_room(&mut trial.random, order, room);
        case(trial, function, call, result, &[]);
    }
    let jobs = job_numbers(&order.jobs);
    let call = Call::with_lists(&mut trial.random, &order.memories, &jobs, MOST_BYTES, 1);
    case(trial, Function::Write, call, result, &[]);
}

/// Rows 8 to 12 of the table.
fn other_refusals(trial: &mut Trial) {
    let call = on(&mut trial.random, &c()).at(10_000_001);
    case(trial, Function::Plan, call, 8, &[]);
    let call = on(&mut trial.random, &c()).with_room(&mut trial.random, 0);
    case(trial, Function::Least, call, 9, &[]);
    let call = on(&mut trial.random, &a()).at(-1);
    case(trial, Function::Plan, call, 10, &[]);
    let call = on(&mut trial.random, &c()).with_room(&mut trial.random, 4 * 3_025);
    case(trial, Function::Check, call, 11, &[]);
    let call = Call::with_file(&mut trial.random, &[0; 11], 3);
    case(trial, Function::Judge, call, 12, &[]);
    let call = Call::with_file(&mut trial.random, &[0; 12], 3);
    case(trial, Function::Judge, call, 1, &[]);
}

/// "16 processors, 48 jobs: accepted. C with room for 1 row: accepted." And the files of C and of the
/// largest order.
fn accepted(trial: &mut Trial) {
    let largest = order(&[4; 16], &[(1, 99, 0); 48]);
    let call = on(&mut trial.random, &largest);
    case(trial, Function::Judge, call, 0, &[16, 48, 63]);
    let call = on(&mut trial.random, &c()).with_room(&mut trial.random, 4);
    case(trial, Function::Least, call, 0, &[-8, 1]);
    let call = Call::with_lists(&mut trial.random, &[4], &[3, 10, 4, 1], 32, 1);
    case(trial, Function::Write, call, 0, &[32]);
    if write(&c()) != C_FILE {
        trial.differs("the independent writer's file of C is not the documents'".to_string());
    }
    let lengths = [write(&a()).len(), write(&largest).len()];
    if lengths != [68, MOST_BYTES] {
        trial.differs(format!("files of {lengths:?} bytes, not of 68 and 844"));
    }
}
