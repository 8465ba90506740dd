//! Wrong in what is booked: "each count equals the times of that maker's jobs in all plans written
//! with it"; "a refused plan books nothing".

use super::{accepted, answered, plan_of, Plan, Wrong};
use crate::independent::{minutes_of, Job, MAKERS};
use crate::lent::Call;
use crate::library::{Function, Library};
use crate::model::MODEL;
use std::collections::BTreeMap;
use std::sync::Mutex;

pub const PARTS: &[&[Wrong]] = &[COUNTS, REFUSED, REFUSED_BOUNDS, UNBOOKED];

const COUNTS: &[Wrong] = of_both!(counts:
    "books nothing" => |before, _| before.to_vec(),
    "books twice" => |before, made| {
        let once = added(before, &made.order.jobs, |job| job.time);
        added(&once, &made.order.jobs, |job| job.time)
    },
    "sets the counts in place of adding to them" => |_, made| {
        added(&[0; MAKERS], &made.order.jobs, |job| job.time)
    },
    "clears the counts of makers without a job" => |before, made| {
        let mut counts = added(before, &made.order.jobs, |job| job.time);
        for (maker, count) in (1..).zip(&mut counts) {
            if minutes_of(&made.order, maker) == 0 {
                *count = 0;
            }
        }
        counts
    },
    "books a minute for each job" => |before, made| added(before, &made.order.jobs, |_| 1),
    "books a minute for each row" => |before, made| {
        let jobs = made.rows.iter().map(|row| made.order.jobs[row[0] as usize - 1]);
        added(before, &jobs.collect::<Vec<Job>>(), |_| 1)
    },
    "books a minute less for each job" => |before, made| {
        added(before, &made.order.jobs, |job| job.time - 1)
    },
    "books minutes in 16 bits" => |before, made| {
        added(before, &made.order.jobs, |job| job.time % 65_536)
    },
    "books needs" => |before, made| added(before, &made.order.jobs, |job| job.need),
    "books the first job of each maker only" => |before, made| {
        added(before, &once(made.order.jobs.iter().rev()), |job| job.time)
    },
    "books the last job of each maker only" => |before, made| {
        added(before, &once(made.order.jobs.iter()), |job| job.time)
    },
    "books the first job only" => |before, made| {
        added(before, &made.order.jobs[..1], |job| job.time)
    },
    "leaves out the last job" => |before, made| {
        let last = made.order.jobs.len() - 1;
        added(before, &made.order.jobs[..last], |job| job.time)
    },
    "leaves out the first job" => |before, made| {
        added(before, &made.order.jobs[1..], |job| job.time)
    },
    "books everything to maker 1" => |before, made| moved(before, made, |_, _| 1),
    "books everything to the first job's maker" => |before, made| {
        let first = made.order.jobs[0].maker;
        let jobs = made.order.jobs.iter().map(|job| Job { maker: first, ..*job });
        added(before, &jobs.collect::<Vec<Job>>(), |job| job.time)
    },
    "books to the next maker" => |before, made| moved(before, made, |_, job| job.maker % 16 + 1),
    "books to the maker before" => |before, made| {
        moved(before, made, |_, job| (job.maker + 14) % 16 + 1)
    },
    "books to the makers backwards" => |before, made| moved(before, made, |_, job| 17 - job.maker),
    "books by job, not by maker" => |before, made| {
        moved(before, made, |place, _| place as u32 % 16 + 1)
    },
    "books by processor, not by maker" => |before, made| {
        let mut counts = before.to_vec();
        for [_, processor, from, to] in &made.rows {
            let count = &mut counts[*processor as usize - 1];
            *count = count.wrapping_add(to - from);
        }
        counts
    },
    "leaves out maker 16" => |before, made| {
        added(before, &without(made, 16), |job| job.time)
    },
    "leaves out maker 1" => |before, made| added(before, &without(made, 1), |job| job.time),
    "books the end of each job's last row" => |before, made| {
        let ends: BTreeMap<u32, u32> = made.rows.iter().map(|row| (row[0], row[3])).collect();
        let ended = (1..).zip(&made.order.jobs).map(|(number, job)| Job {
            time: ends[&number],
            ..*job
        });
        added(before, &ended.collect::<Vec<Job>>(), |job| job.time)
    },
    "books the last plan's minutes to all that have a count" => |before, made| {
        let all: u32 = made.order.jobs.iter().map(|job| job.time).sum();
        let mut counts = added(before, &made.order.jobs, |job| job.time);
        for (count, before) in counts.iter_mut().zip(before) {
            if *before > 0 && *count == *before {
                *count = count.wrapping_add(all);
            }
        }
        counts
    },
);

const REFUSED: &[Wrong] = of_both!(books_at:
    "books though the file is bad" => 12,
    "books though there is no processor" => 1,
    "books though there are too many processors" => 2,
    "books though there is no job" => 3,
    "books though there are too many jobs" => 4,
    "books though a time is out of range" => 5,
    "books though a due time is out of range" => 6,
    "books though a maker is out of range" => 13,
    "books though a job fits no processor" => 7,
    "books though the rows have no room" => 9,
    "books though the book is full" => 14,
    "books though the book is short" => 253,
    "books though the answer is short" => 255,
);

/// Refusals that only a bound can have.
const REFUSED_BOUNDS: &[Wrong] = &[
    (
        Function::BookPlan,
        "books though the bound is tight",
        |call| books_at(Function::BookPlan, call, 10),
    ),
    (
        Function::BookPlan,
        "books though the bound is out of range",
        |call| books_at(Function::BookPlan, call, 8),
    ),
];

/// Functions that do not book, and yet change a book that lies there.
const UNBOOKED: &[Wrong] = &[
    (Function::Judge, "books the order", |call| {
        books_unasked(Function::Judge, call)
    }),
    (Function::Least, "books its plan", |call| {
        books_unasked(Function::Least, call)
    }),
    (Function::Plan, "books its plan", |call| {
        books_unasked(Function::Plan, call)
    }),
    (Function::Check, "books a right plan", |call| {
        books_unasked(Function::Check, call)
    }),
];

/// What is wrong with a library in both functions, and the wrong one.
pub const LIBRARIES: &[(&str, Library)] = &[
    (
        "books nothing",
        Library {
            book_least: |call| counts(Function::BookLeast, call, |before, _| before.to_vec()),
            book_plan: |call| counts(Function::BookPlan, call, |before, _| before.to_vec()),
            ..MODEL
        },
    ),
    (
        "has no books",
        Library {
            book_least: MODEL.least,
            book_plan: MODEL.plan,
            ..MODEL
        },
    ),
    (
        "keeps a book of its own",
        Library {
            book_least: |call| counts(Function::BookLeast, call, own),
            book_plan: |call| counts(Function::BookPlan, call, own),
            ..MODEL
        },
    ),
];

/// The booked call, but with other counts where a plan is written.
pub fn counts(function: Function, call: &mut Call, other: fn(&[u32], &Plan) -> Vec<u32>) -> u32 {
    let before = call.book.content().to_vec();
    answered(MODEL.entry(function), call, |call| {
        let counts = other(&before[..MAKERS], &plan_of(function, call));
        call.book.put(&counts);
    })
}

/// Counts with the minutes of jobs added, which no care is taken of.
pub fn added(before: &[u32], jobs: &[Job], minutes: fn(&Job) -> u32) -> Vec<u32> {
    let mut counts = before.to_vec();
    for job in jobs {
        let count = &mut counts[job.maker as usize - 1];
        *count = count.wrapping_add(minutes(job));
    }
    counts
}

/// Counts with the times of all jobs added, each to another maker.
fn moved(before: &[u32], made: &Plan, maker: fn(usize, &Job) -> u32) -> Vec<u32> {
    let jobs = made.order.jobs.iter().enumerate().map(|(place, job)| Job {
        maker: maker(place, job),
        ..*job
    });
    added(before, &jobs.collect::<Vec<Job>>(), |job| job.time)
}

/// The last of these jobs of each maker.
fn once<'a>(jobs: impl Iterator<Item = &'a Job>) -> Vec<Job> {
    let last: BTreeMap<u32, Job> = jobs.map(|job| (job.maker, *job)).collect();
    last.into_values().collect()
}

fn without(made: &Plan, maker: u32) -> Vec<Job> {
    let jobs = made.order.jobs.iter().filter(|job| job.maker != maker);
    jobs.copied().collect()
}

/// Minutes kept from call to call, whatever book is given.
fn own(_: &[u32], made: &Plan) -> Vec<u32> {
    static KEPT: Mutex<[u32; MAKERS]> = Mutex::new([0; MAKERS]);
    let mut kept = KEPT.lock().expect("nobody failed with the book");
    let counts = added(&*kept, &made.order.jobs, |job| job.time);
    kept.copy_from_slice(&counts);
    counts
}

/// The booked call, which books where it gives this refusal: the minutes of an accepted order, else a
/// minute of maker 1.
fn books_at(function: Function, call: &mut Call, number: u32) -> u32 {
    let result = MODEL.entry(function)(call);
    if result % 256 == number {
        book(call);
    }
    result
}

fn book(call: &mut Call) {
    match accepted(call) {
        Some(order) if call.book.len() >= MAKERS => {
            let counts = added(&call.book.content()[..MAKERS], &order.jobs, |job| job.time);
            call.book.put(&counts);
        }
        _ => {
            if let Some(count) = call.book.content_mut().first_mut() {
                *count = count.wrapping_add(1);
            }
        }
    }
}

/// A call that does not book, but does so where it succeeds and a book lies there.
fn books_unasked(function: Function, call: &mut Call) -> u32 {
    answered(MODEL.entry(function), call, |call| {
        let no = function == Function::Check && call.answer.content()[0] == 0;
        if !no && call.book.len() >= MAKERS {
            book(call);
        }
    })
}
