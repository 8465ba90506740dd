//! Wrong in the reason: another staircase than the first of the ranking, ends in place of due
//! times, and the errors that document 01 says a planner of this kind invites.

use super::{accepted, answered, class_memory, Wrong};
use crate::expect::reason_numbers;
use crate::independent::{end, overfull, reason, Job, Order, Reason};
use crate::lent::Call;
use crate::library::Function;
use crate::model::MODEL;
use std::collections::BTreeSet;

const MANY: usize = 5_000;

pub const WRONG: &[Wrong] = &[
    (
        Function::Reason,
        "is the second overfull staircase",
        |call| {
            stairs(call, |order, bound| {
                overfull(order, bound, 2).into_iter().nth(1)
            })
        },
    ),
    (Function::Reason, "has the most classes", |call| {
        stairs(call, |order, bound| overfull(order, bound, MANY).pop())
    }),
    (Function::Reason, "has the latest times", |call| {
        stairs(call, latest)
    }),
    (
        Function::Reason,
        "has one common time for all classes",
        |call| {
            stairs(call, |order, bound| {
                let level = |dues: &Vec<i32>| dues.iter().all(|due| *due == dues[0]);
                let first = overfull(order, bound, MANY).into_iter().find(level);
                Some(first.unwrap_or_default())
            })
        },
    ),
    (
        Function::Reason,
        "has only due times of a class's own jobs",
        |call| {
            stairs(call, |order, bound| {
                let own = |dues: &Vec<i32>| own_dues(order, dues);
                let first = overfull(order, bound, MANY).into_iter().find(own);
                Some(first.unwrap_or_default())
            })
        },
    ),
    (Function::Reason, "tells ends, not due times", |call| {
        stairs(call, |order, bound| {
            let mut first = overfull(order, bound, 1).pop()?;
            let told = |due: &mut i32| *due = end(*due, bound.into()) as i32;
            first.iter_mut().for_each(told);
            Some(first)
        })
    }),
    (Function::Reason, "tells due times a minute later", |call| {
        stairs(call, |order, bound| {
            let mut first = overfull(order, bound, 1).pop()?;
            first.iter_mut().for_each(|due| *due += 1);
            Some(first)
        })
    }),
    (
        Function::Reason,
        "leaves out the due minute in staircases alone",
        |call| {
            answered(MODEL.reason, call, |call| {
                let order = accepted(call).expect("the call was answered");
                if call.answer.content()[0] != 1 {
                    let first = overfull(&order, call.bound - 1, 1).pop();
                    call.answer.put(&reason_numbers(first.map(Reason::Stairs)));
                }
            })
        },
    ),
    (Function::Reason, "leaves out jobs that need 0", |call| {
        stairs(call, |order, bound| {
            let mut order = order.clone();
            order.jobs.retain(|job| job.need > 0);
            if order.jobs.is_empty() {
                return Some(Vec::new());
            }
            Some(overfull(&order, bound, 1).pop().unwrap_or_default())
        })
    }),
    (
        Function::Reason,
        "repeats the last due time beyond its classes",
        |call| {
            answered(MODEL.reason, call, |call| {
                let answer = call.answer.content_mut();
                let k = answer[1] as usize;
                if answer[0] == 2 && k < 16 {
                    answer[3 + k] = answer[2 + k];
                }
            })
        },
    ),
    (Function::Reason, "tells the last late job", |call| {
        answered(MODEL.reason, call, |call| {
            let order = accepted(call).expect("the call was answered");
            let bound = i64::from(call.bound);
            let late = order
                .jobs
                .iter()
                .rposition(|job| i64::from(job.time) > job.end(bound));
            if let Some(place) = late {
                let time = order.jobs[place].time as i32;
                call.answer.put(&[1, place as i32 + 1, time]);
            }
        })
    }),
    (
        Function::Reason,
        "prefers a staircase to a late job",
        |call| {
            answered(MODEL.reason, call, |call| {
                let order = accepted(call).expect("the call was answered");
                if let Some(dues) = overfull(&order, call.bound, 1).pop() {
                    call.answer.put(&reason_numbers(Some(Reason::Stairs(dues))));
                }
            })
        },
    ),
    (
        Function::Reason,
        "takes a job that just fits for late",
        |call| {
            answered(MODEL.reason, call, |call| {
                let order = accepted(call).expect("the call was answered");
                if let Some(job @ Reason::Job { .. }) = reason(&order, call.bound - 1) {
                    call.answer.put(&reason_numbers(Some(job)));
                }
            })
        },
    ),
];

/// Another staircase where the reason is one, if there is another; an empty one stands for no
/// reason.
fn stairs(call: &mut Call, other: fn(&Order, i32) -> Option<Vec<i32>>) -> u32 {
    answered(MODEL.reason, call, |call| {
        let order = accepted(call).expect("the call was answered");
        if call.answer.content()[0] == 2 {
            if let Some(dues) = other(&order, call.bound) {
                let told = (!dues.is_empty()).then_some(Reason::Stairs(dues));
                call.answer.put(&reason_numbers(told));
            }
        }
    })
}

/// Among the staircases with the fewest classes the one with the latest times.
fn latest(order: &Order, bound: i32) -> Option<Vec<i32>> {
    let all = overfull(order, bound, MANY);
    let fewest = all.first()?.len();
    all.into_iter().filter(|dues| dues.len() == fewest).max()
}

/// Whether each class has a job of its own with its due time.
fn own_dues(order: &Order, dues: &[i32]) -> bool {
    let memories: BTreeSet<u32> = order.memories.iter().copied().collect();
    let mut steps = memories.iter().rev().zip(dues);
    steps.all(|(memory, due)| {
        let own = |job: &Job| class_memory(order, job) == *memory && job.due == *due;
        order.jobs.iter().any(own)
    })
}
