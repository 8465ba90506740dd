//! Wrong in where a file and the writer's lists have the makers: "4 further bytes at the end of each job
//! in the file, whose longest length becomes 844".

use super::makers::each;
use super::{answered, Wrong};
use crate::draw::files::jobs_first;
use crate::draw::Random;
use crate::expect::listed;
use crate::independent::{lists, write, Order};
use crate::lent::{Call, Lent};
use crate::library::Function;
use crate::model::MODEL;

pub const PARTS: &[&[Wrong]] = &[FILES, WRITTEN];

const FILES: &[Wrong] = &[
    (Function::Judge, "tells no job of a maker", |call| {
        let result = (MODEL.judge)(call);
        if result % 256 == 13 {
            13
        } else {
            result
        }
    }),
    (Function::Check, "tells the maker, not its job", |call| {
        let result = (MODEL.check)(call);
        let place = (result / 256).wrapping_sub(1) as usize;
        match lists(call.file.content()) {
            Some(order) if result % 256 == 13 => 13 + 256 * (order.jobs[place].maker % 65_536),
            _ => result,
        }
    }),
    (Function::Judge, "takes no file over 652 bytes", |call| {
        let long = call.file.len() > 652 && call.answer.len() >= 3;
        if long {
            12
        } else {
            (MODEL.judge)(call)
        }
    }),
    (Function::Plan, "takes no file over 652 bytes", |call| {
        let long = call.file.len() > 652 && call.answer.len() >= 1;
        if long {
            12
        } else {
            (MODEL.plan)(call)
        }
    }),
    (Function::Least, "takes a file of 848 bytes", |call| {
        takes_long(Function::Least, call)
    }),
    (Function::BookPlan, "takes a file of 848 bytes", |call| {
        takes_long(Function::BookPlan, call)
    }),
    (Function::Judge, "takes 12 bytes to a job", |call| {
        let result = (MODEL.judge)(call);
        match with_makers(call.file.content()) {
            Some(file) if result == 12 => {
                let mut other = call.clone();
                other.file = Lent::holding(&file, &mut Random::new(0), |drawn| drawn as u8);
                let result = (MODEL.judge)(&mut other);
                call.answer = other.answer;
                result
            }
            _ => result,
        }
    }),
    (
        Function::Least,
        "looks for processors at 12 bytes a job",
        |call| not_jobs_first(Function::Least, call),
    ),
    (
        Function::BookPlan,
        "looks for processors at 12 bytes a job",
        |call| not_jobs_first(Function::BookPlan, call),
    ),
    (Function::Between, "takes a file of 848 bytes", |call| {
        takes_long(Function::Between, call)
    }),
    (
        Function::BetweenOrder,
        "looks for processors at 12 bytes a job",
        |call| not_jobs_first(Function::BetweenOrder, call),
    ),
];

const WRITTEN: &[Wrong] = &[
    (Function::Write, "takes three numbers to a job", |call| {
        let part = call.jobs.len() % 3 != 0 && call.answer.len() > 0;
        if part {
            254
        } else {
            (MODEL.write)(call)
        }
    }),
    (Function::Write, "writes maker 1 for all", |call| {
        rewritten(call, |order| each(order, |job| job.maker = 1))
    }),
    (Function::Write, "writes maker 0 for maker 16", |call| {
        rewritten(call, |order| each(order, |job| job.maker %= 16))
    }),
    (Function::Write, "writes the need for the maker", |call| {
        rewritten(call, |order| each(order, |job| job.maker = job.need))
    }),
    (
        Function::Write,
        "writes the maker before the need",
        |call| {
            rewritten(call, |order| {
                each(order, |job| std::mem::swap(&mut job.maker, &mut job.need))
            })
        },
    ),
    (Function::Write, "writes the maker backwards", |call| {
        rewritten(call, |order| {
            each(order, |job| job.maker = job.maker.swap_bytes())
        })
    }),
    (Function::Write, "leaves the maker's bytes", |call| {
        let before = call.file.content().to_vec();
        answered(MODEL.write, call, |call| {
            let first = 4 * call.memories.len();
            let jobs = call.jobs.len() / 4;
            for at in (0..jobs).map(|job| first + 16 * job + 12) {
                call.file.content_mut()[at..at + 4].copy_from_slice(&before[at..at + 4]);
            }
        })
    }),
    (Function::Write, "counts 12 bytes to a job", |call| {
        answered(MODEL.write, call, |call| {
            call.answer.content_mut()[0] -= call.jobs.len() as i32
        })
    }),
    (Function::Write, "asks for 12 bytes to a job", |call| {
        let result = (MODEL.write)(call);
        let asked = 12 + 4 * call.memories.len() + 3 * call.jobs.len();
        if result == 9 && call.file.len() >= asked {
            0
        } else {
            result
        }
    }),
];

/// The file of other makers or needs, where the call succeeds.
fn rewritten(call: &mut Call, change: fn(&mut Order)) -> u32 {
    answered(MODEL.write, call, |call| {
        let mut order = listed(call);
        change(&mut order);
        call.file.put(&write(&order));
    })
}

/// The counts of a file that is four bytes too long, which are too many processors or too many jobs.
fn takes_long(function: Function, call: &mut Call) -> u32 {
    match MODEL.entry(function)(call) {
        12 if call.file.len() == 848 && call.file.content()[844] > 16 => 2,
        12 if call.file.len() == 848 => 4,
        result => result,
    }
}

/// 12 where the jobs come first.
fn not_jobs_first(function: Function, call: &mut Call) -> u32 {
    let result = MODEL.entry(function)(&mut call.clone());
    let turned =
        lists(call.file.content()).is_some_and(|order| call.file.content() == jobs_first(&order));
    if turned && result < 253 {
        12
    } else {
        MODEL.entry(function)(call)
    }
}

/// A file of 12 bytes to a job, processors first, with maker 1 put in; none of any other file.
fn with_makers(file: &[u8]) -> Option<Vec<u8>> {
    let trailer_at = file.len().checked_sub(12)?;
    let trailer = &file[trailer_at..];
    let processors = usize::from(u16::from_le_bytes([trailer[8], trailer[9]]));
    let jobs = usize::from(u16::from_le_bytes([trailer[10], trailer[11]]));
    if file.len() != 12 + 4 * processors + 12 * jobs {
        return None;
    }
    let (memories, rest) = file.split_at(4 * processors);
    let mut made = memories.to_vec();
    for job in rest[..12 * jobs].chunks_exact(12) {
        made.extend(job);
        made.extend(1_u32.to_le_bytes());
    }
    made.extend(trailer);
    Some(made)
}
