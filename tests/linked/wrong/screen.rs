//! Wrong in where 20 and 21 stand, in what they carry, in what is written where they are told, and in which
//! files and jobs a screen takes: "given in place of 4 and 2 and where those stand".

use super::limits::counted;
use super::makers::{each, remade};
use super::untimed::{set_first, Change};
use super::Wrong;
use crate::independent::{lists, Job, Order, SCREEN};
use crate::lent::Call;
use crate::library::{Function, REASON_NUMBERS};
use crate::model::MODEL;

pub const PARTS: &[&[Wrong]] = &[
    AFTER_JOBS,
    AFTER_BOUND,
    AFTER_ROOM,
    AFTER_ROWS,
    BEFORE,
    BEFORE_REASON,
    FILES,
    CARRIED,
    WRITES,
    WRITES_ROWS,
    WRITES_LINE,
    REPLIES,
    JOBS,
];

/// One of 20 and 21 and the dock's refusals, one of which is told in place of it.
type After = (u32, &'static [u32]);
/// Another result than the screen's.
type Told = fn(&Call, u32) -> u32;
/// What 20 and 21 carry with these counts.
type Carried = fn(u32, usize, usize) -> u32;
type Numbers = &'static [u32];
type Mend = fn(&mut Order);

const AFTER_JOBS: &[Wrong] = of_screen!(after, After:
    "tells 20 after 5" => (20, &[5]),
    "tells 20 after 6" => (20, &[6]),
    "tells 20 after 13" => (20, &[13]),
    "tells 20 after 7" => (20, &[7]),
    "tells 20 after the jobs" => (20, &[5, 6, 13, 7]),
    "tells 21 after 5" => (21, &[5]),
    "tells 21 after 6" => (21, &[6]),
    "tells 21 after 13" => (21, &[13]),
    "tells 21 after 7" => (21, &[7]),
    "tells 21 after the jobs" => (21, &[5, 6, 13, 7]),
    "tells 21 after the jobs and 3" => (21, &[3, 5, 6, 13, 7]),
);

const AFTER_BOUND: &[Wrong] = of_these!(
    [ScreenPlan, ScreenReason, ScreenSentence, ScreenCheck],
    after, After:
    "tells 20 after a bound out of range" => (20, &[8]),
    "tells 21 after a bound out of range" => (21, &[8]),
);

const AFTER_ROOM: &[Wrong] = of_these!(
    [ScreenLeast, ScreenPlan, ScreenSentence],
    after, After:
    "tells 20 after a short buffer" => (20, &[9]),
    "tells 21 after a short buffer" => (21, &[9]),
);

const AFTER_ROWS: &[Wrong] = &[
    (
        Function::ScreenPlan,
        "tells 20 after a bound too tight",
        |call| after(Function::ScreenPlan, call, (20, &[10])),
    ),
    (
        Function::ScreenPlan,
        "tells 21 after a bound too tight",
        |call| after(Function::ScreenPlan, call, (21, &[10])),
    ),
    (
        Function::ScreenCheck,
        "tells 20 after too many rows",
        |call| after(Function::ScreenCheck, call, (20, &[11])),
    ),
    (
        Function::ScreenCheck,
        "tells 21 after too many rows",
        |call| after(Function::ScreenCheck, call, (21, &[11])),
    ),
];

const BEFORE: &[Wrong] = of_screen!(tells, Told:
    "tells 20 before a short answer" => |call, told| match over(call) {
        Some(20) if told == 255 => 20,
        _ => told,
    },
    "tells 21 before a short answer" => |call, told| match over(call) {
        Some(21) if told == 255 => 21,
        _ => told,
    },
    "tells 20 before a bad file" => |call, told| match over(call) {
        Some(20) if told == 12 => 20,
        _ => told,
    },
    "tells 21 before a bad file" => |call, told| match over(call) {
        Some(21) if told == 12 => 21,
        _ => told,
    },
    "tells 20 and 21 of a file that is too long" => |call, told| match over(call) {
        Some(number) if told == 12 && call.file.len() > 844 => number,
        _ => told,
    },
);

const BEFORE_REASON: &[Wrong] = of_these!([ScreenSentence], tells, Told:
    "tells 20 before a short reason" => |call, told| match over(call) {
        Some(20) if told == 253 => 20,
        _ => told,
    },
    "tells 21 before a short reason" => |call, told| match over(call) {
        Some(21) if told == 253 => 21,
        _ => told,
    },
    "tells a short reason before a short answer" => |call, told| {
        if call.reason.len() < REASON_NUMBERS { 253 } else { told }
    },
    "tells a bad file before a short reason" => |call, told| match lists(call.file.content()) {
        None if told == 253 => 12,
        _ => told,
    },
);

/// 12 in place of 20 and 21, and of whatever else is told of a long file.
const FILES: &[Wrong] = of_screen!(tells, Told:
    "takes no file over 220 bytes" => |call, told| of_long(call, told, 221),
    "takes no file over 652 bytes" => |call, told| of_long(call, told, 653),
    "takes no file of 844 bytes" => |call, told| of_long(call, told, 844),
    "tells a bad file of more than it holds" => |_, told| match told {
        20 | 21 => 12,
        _ => told,
    },
);

const CARRIED: &[Wrong] = of_screen!(carries, Carried:
    "carries the processors with 21" => |told, processors, _| match told {
        21 => processors as u32,
        _ => 0,
    },
    "carries processor 5 with 21" => |told, _, _| if told == 21 { 5 } else { 0 },
    "carries the jobs with 20" => |told, _, jobs| if told == 20 { jobs as u32 } else { 0 },
    "carries job 13 with 20" => |told, _, _| if told == 20 { 13 } else { 0 },
    "carries the most jobs with 20" => |told, _, _| if told == 20 { 12 } else { 0 },
    "carries a job with 21" => |told, _, _| u32::from(told == 21),
);

const WRITES: &[Wrong] = of_screen!(writes_over, Change:
    "writes its answer where it holds too little" => |call| set_first(&mut call.answer, 0),
    "clears its answer where it holds too little" => |call| call.answer.content_mut().fill(0),
    "changes the file where it holds too little" => |call| call.file.content_mut()[0] ^= 1,
    "touches the guard after its answer where it holds too little" => |call| {
        *call.answer.after_mut() ^= 1;
    },
);

const WRITES_ROWS: &[Wrong] = of_these!([ScreenLeast, ScreenPlan, ScreenCheck], writes_over, Change:
    "writes a row where it holds too little" => |call| set_first(&mut call.rows, 0),
    "clears the rows where it holds too little" => |call| call.rows.content_mut().fill(0),
);

const WRITES_LINE: &[Wrong] = of_these!([ScreenSentence], writes_over, Change:
    "writes its line where it holds too little" => |call| set_first(&mut call.line, b'm'),
    "changes the reason where it holds too little" => |call| call.reason.content_mut()[0] ^= 1,
);

/// The dock's reply where one of these is told.
const REPLIES: &[Wrong] = of_screen!(replies, Numbers:
    "tells 20 and leaves the dock's reply" => &[20],
    "tells 21 and leaves the dock's reply" => &[21],
);

/// Jobs that are let through, taken for the nearest good ones.
const JOBS: &[Wrong] = of_screen!(mended, Mend:
    "takes a time of 0" => |order| each(order, |job| job.time = job.time.max(1)),
    "takes a time over 100,000" => |order| each(order, |job| job.time = job.time.min(100_000)),
    "takes any due time" => |order| {
        each(order, |job| job.due = job.due.clamp(-1_000_000, 1_000_000));
    },
    "takes any maker" => |order| each(order, |job| job.maker = job.maker.clamp(1, 16)),
    "takes a job that fits no processor" => |order| {
        let largest = order.memories.iter().copied().max().unwrap_or(0);
        each(order, |job| job.need = job.need.min(largest));
    },
    "looks at the first 11 jobs alone" => |order| {
        let good = Job { time: 1, due: 0, need: 0, maker: 1 };
        order.jobs.iter_mut().skip(11).for_each(|job| *job = good);
    },
);

/// One of the dock's refusals in place of 20 or 21.
fn after(function: Function, call: &mut Call, (number, others): After) -> u32 {
    let result = MODEL.entry(function)(call);
    let other = MODEL.entry(function.at_dock())(&mut call.clone());
    match result == number && others.contains(&(other % 256)) {
        true => other,
        false => result,
    }
}

/// 20 or 21, by the counts that the trailer has, right or not.
fn over(call: &Call) -> Option<u32> {
    let file = call.file.content();
    let trailer = &file[file.len().checked_sub(12)?..];
    let count = |at: usize| usize::from(u16::from_le_bytes([trailer[at], trailer[at + 1]]));
    match (count(8), count(10)) {
        (processors, _) if processors > SCREEN.processors => Some(21),
        (_, jobs) if jobs > SCREEN.jobs => Some(20),
        _ => None,
    }
}

fn tells(function: Function, call: &mut Call, told: Told) -> u32 {
    let result = MODEL.entry(function)(&mut call.clone());
    let other = told(call, result);
    match other == result {
        true => MODEL.entry(function)(call),
        false => other,
    }
}

/// 12 from so many bytes on.
fn of_long(call: &Call, told: u32, from: usize) -> u32 {
    match told {
        253 | 255 => told,
        _ if call.file.len() >= from => 12,
        _ => told,
    }
}

fn carries(function: Function, call: &mut Call, carried: Carried) -> u32 {
    let result = MODEL.entry(function)(call);
    match counted(function, call) {
        Some(order) if [20, 21].contains(&result) => {
            result + 256 * carried(result, order.memories.len(), order.jobs.len())
        }
        _ => result,
    }
}

/// A change where 20 or 21 is told.
fn writes_over(function: Function, call: &mut Call, change: Change) -> u32 {
    let result = MODEL.entry(function)(call);
    if [20, 21].contains(&result) {
        change(call);
    }
    result
}

/// What the dock would leave, where one of these is told.
fn replies(function: Function, call: &mut Call, numbers: Numbers) -> u32 {
    let result = MODEL.entry(function)(&mut call.clone());
    match numbers.contains(&result) {
        true => drop(MODEL.entry(function.at_dock())(call)),
        false => drop(MODEL.entry(function)(call)),
    }
    result
}

/// The call with a mended order, where its counts are within the limits.
fn mended(function: Function, call: &mut Call, mend: Mend) -> u32 {
    match counted(function, call) {
        Some(order) if SCREEN.hold(&order) => remade(function, call, mend),
        _ => MODEL.entry(function)(call),
    }
}
