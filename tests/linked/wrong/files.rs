//! Wrong in the order file, its reader and its writer: "The two lists lie in either order", "this
//! holds for an empty list too", "The writer puts processors first".

use super::{accepted, answered, Wrong};
use crate::draw::files::jobs_first;
use crate::expect::listed;
use crate::independent::read;
use crate::lent::Call;
use crate::library::Function;
use crate::model::MODEL;

pub const WRONG: &[Wrong] = &[
    (Function::Judge, "takes the processors first only", |call| {
        let result = (MODEL.judge)(call);
        let turned = accepted(call).is_some_and(|order| call.file.content() == jobs_first(&order));
        if result == 0 && turned {
            12
        } else {
            result
        }
    }),
    (
        Function::Judge,
        "does not ask for the place of an empty list",
        |call| {
            let result = (MODEL.judge)(call);
            if result == 12 {
                told_of_empty(call).unwrap_or(12)
            } else {
                result
            }
        },
    ),
    (
        Function::Judge,
        "refuses an empty list's second place",
        |call| {
            let result = (MODEL.judge)(call);
            let file = call.file.content();
            let second = result == 1 && file[file.len() - 12..file.len() - 8] != [0; 4];
            if second {
                12
            } else {
                result
            }
        },
    ),
    (
        Function::Judge,
        "counts the processors of a file that is too long",
        |call| {
            let long = call.file.len() == 848 && call.answer.len() >= 3;
            if long {
                2
            } else {
                (MODEL.judge)(call)
            }
        },
    ),
    (Function::Judge, "refuses the longest file", |call| {
        let long = call.file.len() == 844 && call.answer.len() >= 3;
        if long {
            12
        } else {
            (MODEL.judge)(call)
        }
    }),
    (
        Function::Judge,
        "asks for rows by jobs, not by distinct due times",
        |call| {
            answered(MODEL.judge, call, |call| {
                let (processors, jobs) = (call.answer.content()[0], call.answer.content()[1]);
                call.answer.content_mut()[2] = jobs * (jobs + processors - 1);
            })
        },
    ),
    (
        Function::Reason,
        "takes a due time for an unsigned number",
        |call| {
            let early = |call: &Call| accepted(call)?.jobs.iter().position(|job| job.due < 0);
            let result = (MODEL.reason)(call);
            match early(call) {
                Some(place) if result == 0 => 6 + 256 * (place as u32 + 1),
                _ => result,
            }
        },
    ),
    (Function::Write, "puts the jobs first", |call| {
        answered(MODEL.write, call, |call| {
            call.file.put(&jobs_first(&listed(call)))
        })
    }),
    (Function::Write, "always asks for 844 bytes", |call| {
        let short = call.file.len() < 844;
        let mut tried = call.clone();
        if (MODEL.write)(&mut tried) == 0 && short {
            9
        } else {
            (MODEL.write)(call)
        }
    }),
    (Function::Write, "counts the trailer as 8 bytes", |call| {
        answered(MODEL.write, call, |call| call.answer.content_mut()[0] -= 4)
    }),
    (Function::Write, "counts processors in 8 bits", |call| {
        let few = call.memories.len() % 256;
        let result = (MODEL.write)(call);
        if result == 2 && (1..=16).contains(&few) {
            3
        } else {
            result
        }
    }),
];

/// What a file is told whose lists agree with the trailer but for the place of an empty list.
fn told_of_empty(call: &Call) -> Option<u32> {
    let mut file = call.file.content().to_vec();
    let at = file.len().checked_sub(12)?;
    file[at..at + 8].fill(0);
    let refusal = read(&file).err()?;
    (refusal.number != 12).then_some(refusal.number)
}
