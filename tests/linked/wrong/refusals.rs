//! Wrong in which refusal is told: "The lowest applicable number is given, except that 12 precedes
//! all"; "the first such job".

use super::Wrong;
use crate::expect::listed;
use crate::independent::{judge, read, Job, Order};
use crate::lent::Call;
use crate::library::{Entry, Function};
use crate::model::MODEL;

pub const WRONG: &[Wrong] = &[
    (Function::Judge, "tells no job", |call| {
        (MODEL.judge)(call) % 256
    }),
    (Function::Least, "counts jobs from 0", |call| {
        let result = (MODEL.least)(call);
        if result > 255 {
            result - 256
        } else {
            result
        }
    }),
    (Function::Write, "tells the last such job", |call| {
        last_job(MODEL.write, call)
    }),
    (Function::Write, "tells a due time before a time", |call| {
        row_by_row(MODEL.write, call)
    }),
    (
        Function::Judge,
        "tells a bad file before a short answer",
        |call| {
            let bad = read(call.file.content()).is_err_and(|refusal| refusal.number == 12);
            if bad {
                12
            } else {
                (MODEL.judge)(call)
            }
        },
    ),
    (
        Function::Write,
        "tells of an order before a part job",
        |call| {
            let told = call.jobs.len() % 4 != 0 && call.answer.len() > 0;
            match judge(&listed(call)) {
                Some(refusal) if told => refusal.number + 256 * refusal.job,
                _ => (MODEL.write)(call),
            }
        },
    ),
    (Function::Write, "drops a part job", |call| {
        first_wins(call, 254, MODEL.write)
    }),
    (
        Function::Plan,
        "tells a tight bound before a short buffer",
        |call| {
            let result = (MODEL.plan)(call);
            if result == 9 && call.bound < super::least(call) {
                10
            } else {
                result
            }
        },
    ),
    (
        Function::Plan,
        "tells a short buffer before a bound out of range",
        |call| {
            let result = (MODEL.plan)(call);
            if result == 8 && call.rows.len() < 4 {
                9
            } else {
                result
            }
        },
    ),
    (
        Function::Check,
        "tells too many rows before a bound out of range",
        |call| {
            let result = (MODEL.check)(call);
            if result == 8 && call.rows.len() > 4 * 3_024 {
                11
            } else {
                result
            }
        },
    ),
    (Function::Reason, "takes any bound", |call| {
        let (bound, result) = (call.bound, (MODEL.reason)(call));
        if result != 8 {
            return result;
        }
        call.bound = bound.clamp(-10_000_000, 10_000_000);
        let result = (MODEL.reason)(call);
        call.bound = bound;
        result
    }),
    (
        Function::Sentence,
        "tells a bad file before a short reason",
        |call| {
            let bad = read(call.file.content()).is_err_and(|refusal| refusal.number == 12);
            if bad && call.answer.len() > 0 {
                12
            } else {
                (MODEL.sentence)(call)
            }
        },
    ),
    (
        Function::Sentence,
        "tells a short reason before a short answer",
        |call| {
            if call.reason.len() < 19 {
                253
            } else {
                (MODEL.sentence)(call)
            }
        },
    ),
    (
        Function::Sentence,
        "takes a reason of 18 numbers",
        |call| match call.reason.len() {
            18 => first_wins(call, 253, MODEL.sentence),
            _ => (MODEL.sentence)(call),
        },
    ),
    (
        Function::Sentence,
        "tells a long line before a bound out of range",
        |call| {
            let result = (MODEL.sentence)(call);
            if result == 8 && call.line.len() < 30 {
                9
            } else {
                result
            }
        },
    ),
    (
        Function::Sentence,
        "does not take a line of the buffer's length",
        |call| {
            let full = |left: &Call| match left.answer.content()[0] {
                0 => false,
                length => left.line.len() == length as usize,
            };
            in_place_of(call, 9, MODEL.sentence, full)
        },
    ),
    (
        Function::Sentence,
        "asks for a byte for an empty line",
        |call| in_place_of(call, 9, MODEL.sentence, |left| left.line.len() == 0),
    ),
    (Function::Sentence, "always asks for 541 bytes", |call| {
        in_place_of(call, 9, MODEL.sentence, |left| left.line.len() < 541)
    }),
    (
        Function::Sentence,
        "refuses a reason that does not stand",
        |call| {
            in_place_of(call, 10, MODEL.sentence, |left| {
                left.answer.content()[0] == 0
            })
        },
    ),
    (
        Function::Parse,
        "refuses a line of over 541 bytes",
        |call| in_place_of(call, 9, MODEL.parse, |left| left.line.len() > 541),
    ),
    (Function::Parse, "refuses a line that is none's", |call| {
        in_place_of(call, 10, MODEL.parse, |left| left.answer.content()[0] == 0)
    }),
    (Function::Parse, "takes any bound", |call| {
        first_wins(call, 8, MODEL.parse)
    }),
    (
        Function::Parse,
        "tells a bound out of range before a bad file",
        |call| {
            let out = !(-10_000_000..=10_000_000).contains(&call.bound);
            if out && call.answer.len() >= 19 {
                8
            } else {
                (MODEL.parse)(call)
            }
        },
    ),
];

/// The refusals of an order that carry a job.
const OF_JOBS: [u32; 4] = [5, 6, 13, 7];

/// The refusal of the order of the lists, told of the last job.
fn last_job(entry: Entry, call: &mut Call) -> u32 {
    let result = entry(call);
    let (number, order) = (result % 256, listed(call));
    let alone = |job: &Job| Order {
        memories: order.memories.clone(),
        jobs: vec![*job],
    };
    let such = |job: &Job| judge(&alone(job)).is_some_and(|refusal| refusal.number == number);
    let last = order.jobs.iter().rposition(such);
    match last {
        Some(place) if OF_JOBS.contains(&number) => number + 256 * (place as u32 + 1),
        _ => result,
    }
}

/// The refusal of the first job that has any, whichever it is.
fn row_by_row(entry: Entry, call: &mut Call) -> u32 {
    let result = entry(call);
    let order = listed(call);
    if !OF_JOBS.contains(&(result % 256)) {
        return result;
    }
    let prefix = |count: usize| Order {
        memories: order.memories.clone(),
        jobs: order.jobs[..count].to_vec(),
    };
    let first = (1..=order.jobs.len()).find_map(|count| judge(&prefix(count)));
    first.map_or(result, |refusal| refusal.number + 256 * refusal.job)
}

/// Success in place of a refusal, with the answer 0.
fn first_wins(call: &mut Call, number: u32, entry: Entry) -> u32 {
    let result = entry(call);
    if result == number {
        call.answer.put(&[0]);
        return 0;
    }
    result
}

/// A refusal in place of success, where this holds of what the call would leave.
fn in_place_of(call: &mut Call, number: u32, entry: Entry, holds: fn(&Call) -> bool) -> u32 {
    let mut left = call.clone();
    if entry(&mut left) == 0 && holds(&left) {
        number
    } else {
        entry(call)
    }
}
