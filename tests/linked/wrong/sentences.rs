//! Wrong in what composes: other reasons than "every job over its end or, with none such, every
//! overfull staircase".

use super::{accepted, Wrong};
use crate::expect::reason_named;
use crate::independent::{composed, late, line_of, minutes, reason, staircase, stands};
use crate::independent::{Order, Reason};
use crate::lent::Call;
use crate::library::{Function, REASON_NUMBERS};
use crate::model::MODEL;

pub const WRONG: &[Wrong] = &[
    (
        Function::Sentence,
        "composes a staircase though a job is late",
        |call| {
            takes_stairs(call, |order, bound, dues| {
                staircase(order, dues) && excess(order, bound, dues) > 0
            })
        },
    ),
    (
        Function::Sentence,
        "composes a staircase that is just full",
        |call| {
            takes_stairs(call, |order, bound, dues| {
                in_time(order, bound) && staircase(order, dues) && excess(order, bound, dues) >= 0
            })
        },
    ),
    (
        Function::Sentence,
        "composes a staircase that the due minute makes room for",
        |call| {
            takes_stairs(call, |order, bound, dues| {
                let over = excess(order, bound - 1, dues) > 0;
                in_time(order, bound) && staircase(order, dues) && over
            })
        },
    ),
    (Function::Sentence, "composes times that rise", |call| {
        takes_stairs(call, |order, bound, dues| {
            let mut falling = dues.to_vec();
            falling.sort();
            falling.reverse();
            in_time(order, bound) && staircase(order, &falling) && excess(order, bound, dues) > 0
        })
    }),
    (
        Function::Sentence,
        "composes a due time of no job",
        |call| {
            takes_stairs(call, |order, bound, dues| {
                let falls = dues.windows(2).all(|pair| pair[0] >= pair[1]);
                let counted = staircase(order, &vec![order.jobs[0].due; dues.len()]);
                in_time(order, bound) && falls && counted && excess(order, bound, dues) > 0
            })
        },
    ),
    (
        Function::Sentence,
        "composes the first staircase alone",
        |call| {
            takes_stairs(call, |order, bound, dues| {
                reason(order, bound) == Some(Reason::Stairs(dues.to_vec()))
            })
        },
    ),
    (
        Function::Sentence,
        "composes the first late job alone",
        |call| {
            takes_job(call, |order, bound, told| {
                reason(order, bound).as_ref() == Some(told)
            })
        },
    ),
    (
        Function::Sentence,
        "composes a job that just fits",
        |call| takes_job(call, |order, bound, told| stands(order, bound - 1, told)),
    ),
    (
        Function::Sentence,
        "does not look at the time beside the job",
        |call| {
            mends(call, |order, numbers| {
                let place = usize::try_from(i64::from(numbers[1]) - 1);
                let own = place.ok().and_then(|place| order.jobs.get(place));
                if let (1, Some(own)) = (numbers[0], own) {
                    numbers[2] = own.time as i32;
                }
            })
        },
    ),
    (
        Function::Sentence,
        "does not look at due times beside a job",
        |call| {
            mends(call, |_, numbers| {
                if numbers[0] == 1 {
                    numbers[3..].fill(0);
                }
            })
        },
    ),
    (
        Function::Sentence,
        "does not look at due times beyond its classes",
        |call| {
            mends(call, |_, numbers| {
                let classes = usize::try_from(numbers[1]).unwrap_or(16).min(16);
                if numbers[0] == 2 {
                    numbers[3 + classes..].fill(0);
                }
            })
        },
    ),
    (
        Function::Sentence,
        "does not look at a time beside a staircase",
        |call| {
            mends(call, |_, numbers| {
                if numbers[0] == 2 {
                    numbers[2] = 0;
                }
            })
        },
    ),
    (
        Function::Sentence,
        "takes every kind but a job for a staircase",
        |call| {
            mends(call, |_, numbers| {
                if numbers[0] != 1 {
                    numbers[0] = 2;
                }
            })
        },
    ),
    (Function::Sentence, "counts classes in 8 bits", |call| {
        mends(call, |_, numbers| numbers[1] &= 255)
    }),
    (
        Function::Sentence,
        "leaves out the classes that are too many",
        |call| {
            mends(call, |order, numbers| {
                let fits = |count: &usize| staircase(order, &vec![order.jobs[0].due; *count]);
                let most = (1..=16).rev().find(fits).unwrap_or(0);
                if numbers[0] == 2 && numbers[1] > most as i32 {
                    numbers[1] = most as i32;
                    numbers[3 + most..].fill(0);
                }
            })
        },
    ),
    (Function::Sentence, "counts jobs from 0", |call| {
        mends(call, |_, numbers| {
            if numbers[0] == 1 {
                numbers[1] = numbers[1].wrapping_add(1);
            }
        })
    }),
    (
        Function::Sentence,
        "looks at numbers after the 19th",
        |call| {
            let mut more = call.reason.content().iter().skip(REASON_NUMBERS);
            if more.any(|number| *number != 0) {
                composes(call, |_, _, _| String::new())
            } else {
                (MODEL.sentence)(call)
            }
        },
    ),
];

/// Composes another line, where nothing is refused but its length.
pub fn composes(call: &mut Call, line: impl Fn(&Order, i32, &[i32]) -> String) -> u32 {
    let result = (MODEL.sentence)(&mut call.clone());
    if result != 0 && result != 9 {
        return result;
    }
    let order = accepted(call).expect("the order was not refused");
    let line = line(&order, call.bound, &call.reason.content()[..REASON_NUMBERS]);
    if line.len() > call.line.len() {
        return 9;
    }
    call.line.put(line.as_bytes());
    call.answer.put(&[line.len() as i32]);
    0
}

/// The line of numbers as it should be.
pub fn right(order: &Order, bound: i32, numbers: &[i32]) -> String {
    let line = |reason| composed(order, bound, &reason);
    reason_named(numbers).map_or(String::new(), line)
}

/// Other reasons composed.
fn takes(call: &mut Call, taken: impl Fn(&Order, i32, &Reason) -> bool) -> u32 {
    composes(call, |order, bound, numbers| match reason_named(numbers) {
        Some(reason) if taken(order, bound, &reason) => line_of(order, bound, &reason),
        _ => String::new(),
    })
}

fn takes_stairs(call: &mut Call, taken: fn(&Order, i32, &[i32]) -> bool) -> u32 {
    takes(call, |order, bound, reason| match reason {
        Reason::Stairs(dues) => taken(order, bound, dues),
        Reason::Job { .. } => stands(order, bound, reason),
    })
}

fn takes_job(call: &mut Call, taken: fn(&Order, i32, &Reason) -> bool) -> u32 {
    takes(call, |order, bound, reason| match reason {
        Reason::Job { .. } => taken(order, bound, reason),
        Reason::Stairs(_) => stands(order, bound, reason),
    })
}

/// The line of other numbers.
fn mends(call: &mut Call, change: fn(&Order, &mut [i32])) -> u32 {
    composes(call, |order, bound, numbers| {
        let mut numbers = numbers.to_vec();
        change(order, &mut numbers);
        right(order, bound, &numbers)
    })
}

fn in_time(order: &Order, bound: i32) -> bool {
    !order.jobs.iter().any(|job| late(job, bound))
}

/// Minutes owed less minutes on hand.
fn excess(order: &Order, bound: i32, dues: &[i32]) -> i64 {
    let (owed, on_hand) = minutes(order, bound, &Reason::Stairs(dues.to_vec()));
    owed - on_hand
}
