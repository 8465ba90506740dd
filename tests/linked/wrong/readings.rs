//! Wrong in what a line is held against: "reads back to that reason alone at a given order and
//! bound".

use super::lines::tell;
use super::{accepted, answered, Wrong};
use crate::expect::reason_numbers;
use crate::independent::{late, line_of, minutes, read_back, reason, staircase, stands};
use crate::independent::{taken_apart, Order, Reason, Said, Sentence};
use crate::lent::Call;
use crate::library::Function;
use crate::model::MODEL;

pub const WRONG: &[Wrong] = &[
    (Function::Parse, "does not look at minutes owed", |call| {
        ignores(call, |right, told| right.owed = told.owed)
    }),
    (
        Function::Parse,
        "does not look at minutes on hand",
        |call| ignores(call, |right, told| right.on_hand = told.on_hand),
    ),
    (Function::Parse, "does not look at the end", |call| {
        ignores(call, |right, told| {
            if let (Said::Job { end, .. }, Said::Job { end: told, .. }) =
                (&mut right.said, &told.said)
            {
                *end = *told;
            }
        })
    }),
    (Function::Parse, "does not look at memories", |call| {
        ignores(call, |right, told| {
            if let (Said::Stairs(right), Said::Stairs(told)) = (&mut right.said, &told.said) {
                for (right, told) in right.iter_mut().zip(told) {
                    right.0 = told.0;
                }
            }
        })
    }),
    (Function::Parse, "reads a job that is not late", |call| {
        takes(call, |order, bound, reason| match reason {
            Reason::Job { job, time } => order.jobs[*job as usize - 1].time == *time,
            Reason::Stairs(_) => stands(order, bound, reason),
        })
    }),
    (Function::Parse, "reads any time of a job", |call| {
        takes(call, |order, bound, reason| match reason {
            Reason::Job { .. } => over(order, bound, reason),
            Reason::Stairs(_) => stands(order, bound, reason),
        })
    }),
    (
        Function::Parse,
        "reads a staircase though a job is late",
        |call| {
            takes(call, |order, bound, reason| match reason {
                Reason::Job { .. } => stands(order, bound, reason),
                Reason::Stairs(dues) => staircase(order, dues) && over(order, bound, reason),
            })
        },
    ),
    (
        Function::Parse,
        "reads a staircase that is not overfull",
        |call| {
            takes(call, |order, bound, reason| match reason {
                Reason::Job { .. } => stands(order, bound, reason),
                Reason::Stairs(dues) => staircase(order, dues) && in_time(order, bound),
            })
        },
    ),
    (Function::Parse, "reads due times of no job", |call| {
        takes(call, |order, bound, reason| match reason {
            Reason::Job { .. } => stands(order, bound, reason),
            Reason::Stairs(_) => in_time(order, bound) && over(order, bound, reason),
        })
    }),
    (Function::Parse, "reads the first reason alone", |call| {
        takes(call, |order, bound, told| {
            reason(order, bound).as_ref() == Some(told)
        })
    }),
    (Function::Parse, "reads a line of the next bound", |call| {
        answered(MODEL.parse, call, |call| {
            let order = accepted(call).expect("the call was answered");
            let (bound, line) = (call.bound, call.line.content());
            let next = read_back(&order, bound - 1, line);
            let told = read_back(&order, bound, line).or(next);
            call.answer.put(&reason_numbers(told));
        })
    }),
    (Function::Parse, "tells due times a minute later", |call| {
        answered(MODEL.parse, call, |call| {
            let answer = call.answer.content_mut();
            if answer[0] == 2 {
                let beyond = 3 + answer[1] as usize;
                answer[3..beyond].iter_mut().for_each(|due| *due += 1);
            }
        })
    }),
    (Function::Parse, "reads one due time too few", |call| {
        answered(MODEL.parse, call, |call| {
            let answer = call.answer.content_mut();
            if answer[0] == 2 && answer[1] > 1 {
                answer[2 + answer[1] as usize] = 0;
                answer[1] -= 1;
            }
        })
    }),
    (Function::Parse, "does not tell a job's time", |call| {
        answered(MODEL.parse, call, |call| call.answer.content_mut()[2] = 0)
    }),
    (
        Function::Parse,
        "leaves the due times beyond its classes",
        |call| {
            let before = call.answer.content().to_vec();
            answered(MODEL.parse, call, |call| {
                let answer = call.answer.content_mut();
                let from = 3 + answer[1] as usize;
                if answer[0] == 2 {
                    answer[from..19].copy_from_slice(&before[from..19]);
                }
            })
        },
    ),
    (
        Function::Parse,
        "tells nothing but the kind where there is no reason",
        |call| {
            let before = call.answer.content().to_vec();
            answered(MODEL.parse, call, |call| {
                let answer = call.answer.content_mut();
                if answer[0] == 0 {
                    answer[1..19].copy_from_slice(&before[1..19]);
                }
            })
        },
    ),
];

/// Takes over from the line what it does not look at.
fn ignores(call: &mut Call, take_over: fn(&mut Sentence, &Sentence)) -> u32 {
    understands(call, |order, bound, reason, told| {
        worded(order, bound, reason).is_some_and(|mut right| {
            take_over(&mut right, told);
            right == *told && stands(order, bound, reason)
        })
    })
}

/// Reads other reasons, where every number is the right one.
fn takes(call: &mut Call, taken: fn(&Order, i32, &Reason) -> bool) -> u32 {
    understands(call, |order, bound, reason, told| {
        worded(order, bound, reason).as_ref() == Some(told) && taken(order, bound, reason)
    })
}

/// Reads a line by its words, where they are of this order at all.
fn understands(call: &mut Call, taken: impl Fn(&Order, i32, &Reason, &Sentence) -> bool) -> u32 {
    answered(MODEL.parse, call, |call| {
        tell(call, |order, bound, line| {
            let told = taken_apart(line)?;
            let reason = said(order, &told)?;
            taken(order, bound, &reason, &told).then_some(reason)
        });
    })
}

/// The reason that a sentence names: a job of the order, or at most 16 due times.
fn said(order: &Order, sentence: &Sentence) -> Option<Reason> {
    match &sentence.said {
        Said::Job { job, time, .. } => {
            let (job, time) = (u32::try_from(*job).ok()?, u32::try_from(*time).ok()?);
            let named = 1..=order.jobs.len() as u32;
            named.contains(&job).then_some(Reason::Job { job, time })
        }
        Said::Stairs(steps) => {
            let dues = steps.iter().map(|(_, due)| i32::try_from(*due).ok());
            let dues: Vec<i32> = dues.collect::<Option<_>>()?;
            (dues.len() <= 16).then_some(Reason::Stairs(dues))
        }
    }
}

/// What the line of a reason says, where its numbers are not too long.
fn worded(order: &Order, bound: i32, reason: &Reason) -> Option<Sentence> {
    taken_apart(line_of(order, bound, reason).as_bytes())
}

fn in_time(order: &Order, bound: i32) -> bool {
    !order.jobs.iter().any(|job| late(job, bound))
}

fn over(order: &Order, bound: i32, reason: &Reason) -> bool {
    let (owed, on_hand) = minutes(order, bound, reason);
    owed > on_hand
}
