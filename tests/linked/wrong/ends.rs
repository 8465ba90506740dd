//! Wrong in a job's end: "due time plus bound plus 1 from here on, in plans, checks and staircases
//! alike". In one function alone, or in several that agree with one another.

use super::checks::judged;
use super::lines::tell;
use super::sentences::{composes, right as line};
use super::{accepted, answered, replanned, Wrong};
use crate::expect::reason_numbers;
use crate::independent::{self, read_back, right, Order, Row};
use crate::lent::{rows_of, Call};
use crate::library::{Function, Library};
use crate::model::MODEL;

/// Each end a minute before what it should be, or a minute after.
const EARLY: i32 = -1;
const LATE: i32 = 1;

pub const WRONG: &[Wrong] = &[
    (Function::Plan, "leaves out the due minute", plan::<EARLY>),
    (Function::Plan, "adds the due minute twice", plan::<LATE>),
    (
        Function::Least,
        "has a plan that needs a minute more",
        |call| {
            replanned(Function::Least, call, |made| {
                let looser = independent::plan(&made.order, made.bound + 1);
                looser.expect("a looser bound is met")
            })
        },
    ),
    (
        Function::Reason,
        "leaves out the due minute",
        reason::<EARLY>,
    ),
    (
        Function::Reason,
        "adds the due minute twice",
        reason::<LATE>,
    ),
    (
        Function::Sentence,
        "leaves out the due minute",
        sentence::<EARLY>,
    ),
    (
        Function::Sentence,
        "adds the due minute twice",
        sentence::<LATE>,
    ),
    (Function::Parse, "leaves out the due minute", parse::<EARLY>),
    (Function::Parse, "adds the due minute twice", parse::<LATE>),
    (Function::Check, "leaves out the due minute", check::<EARLY>),
    (Function::Check, "adds the due minute twice", check::<LATE>),
    (
        Function::Plan,
        "adds the due minute to an end cut off at 0",
        |call| {
            planned(Function::Plan, call, |order, bound| {
                independent::plan(&cut_off(order, bound.into()), bound)
            })
        },
    ),
    (
        Function::Reason,
        "adds the due minute to an end cut off at 0",
        |call| {
            answered(MODEL.reason, call, |call| {
                let order = accepted(call).expect("the call was answered");
                let order = cut_off(&order, call.bound.into());
                if independent::reason(&order, call.bound).is_none() {
                    call.answer.put(&reason_numbers(None));
                }
            })
        },
    ),
    (
        Function::Check,
        "adds the due minute to an end cut off at 0",
        |call| {
            judged(call, |order, bound, rows| {
                right(&cut_off(order, bound), bound, rows)
            })
        },
    ),
    (
        Function::Check,
        "takes no row after minute 11,000,000",
        |call| {
            judged(call, |order, bound, rows| {
                let by_then = |row: &Row| row[3] <= 11_000_000;
                right(order, bound, rows) && rows_of(rows).iter().all(by_then)
            })
        },
    ),
];

/// What is wrong with a library in several functions, and the wrong one.
pub const LIBRARIES: &[(&str, Library)] = &[
    ("leaves out the due minute", shifted::<EARLY>()),
    ("adds the due minute twice", shifted::<LATE>()),
    (
        "leaves out the due minute but in checks",
        Library {
            check: MODEL.check,
            ..shifted::<EARLY>()
        },
    ),
    (
        "leaves out the due minute in plans alone",
        Library {
            least: least::<EARLY>,
            plan: plan::<EARLY>,
            book_least: book_least::<EARLY>,
            book_plan: book_plan::<EARLY>,
            ..MODEL
        },
    ),
    (
        "leaves out the due minute in booked plans alone",
        Library {
            book_least: book_least::<EARLY>,
            book_plan: book_plan::<EARLY>,
            ..MODEL
        },
    ),
    (
        "adds the due minute twice in booked plans alone",
        Library {
            book_least: book_least::<LATE>,
            book_plan: book_plan::<LATE>,
            ..MODEL
        },
    ),
    (
        "leaves out the due minute in reasons and lines alone",
        Library {
            least: MODEL.least,
            plan: MODEL.plan,
            book_least: MODEL.book_least,
            book_plan: MODEL.book_plan,
            check: MODEL.check,
            ..shifted::<EARLY>()
        },
    ),
];

/// The library with each end so many minutes later: it does at a bound what it should at one so much
/// larger.
const fn shifted<const BY: i32>() -> Library {
    Library {
        least: least::<BY>,
        plan: plan::<BY>,
        book_least: book_least::<BY>,
        book_plan: book_plan::<BY>,
        reason: reason::<BY>,
        sentence: sentence::<BY>,
        parse: parse::<BY>,
        check: check::<BY>,
        ..MODEL
    }
}

fn least<const BY: i32>(call: &mut Call) -> u32 {
    answered(MODEL.least, call, |call| call.answer.content_mut()[0] -= BY)
}

fn book_least<const BY: i32>(call: &mut Call) -> u32 {
    answered(MODEL.book_least, call, |call| {
        call.answer.content_mut()[0] -= BY
    })
}

fn plan<const BY: i32>(call: &mut Call) -> u32 {
    planned(Function::Plan, call, |order, bound| {
        independent::plan(order, bound + BY)
    })
}

fn book_plan<const BY: i32>(call: &mut Call) -> u32 {
    planned(Function::BookPlan, call, |order, bound| {
        independent::plan(order, bound + BY)
    })
}

fn reason<const BY: i32>(call: &mut Call) -> u32 {
    answered(MODEL.reason, call, |call| {
        let order = accepted(call).expect("the call was answered");
        let told = independent::reason(&order, call.bound + BY);
        call.answer.put(&reason_numbers(told));
    })
}

fn sentence<const BY: i32>(call: &mut Call) -> u32 {
    composes(call, |order, bound, numbers| {
        line(order, bound + BY, numbers)
    })
}

fn parse<const BY: i32>(call: &mut Call) -> u32 {
    answered(MODEL.parse, call, |call| {
        tell(call, |order, bound, line| {
            read_back(order, bound + BY, line)
        })
    })
}

fn check<const BY: i32>(call: &mut Call) -> u32 {
    judged(call, |order, bound, rows| {
        right(order, bound + i64::from(BY), rows)
    })
}

/// The planner with another plan or with none, where nothing is refused but a bound too tight.
fn planned(function: Function, call: &mut Call, plan: fn(&Order, i32) -> Option<Vec<Row>>) -> u32 {
    let result = MODEL.entry(function)(&mut call.clone());
    if result != 0 && result != 10 {
        return result;
    }
    let order = accepted(call).expect("the order was not refused");
    let Some(rows) = plan(&order, call.bound) else {
        return 10;
    };
    if function.books() {
        let Some(book) = independent::booked(call.book.content(), &order) else {
            return 14;
        };
        call.book.put(&book);
    }
    call.rows.put(&rows.concat());
    call.answer.put(&[rows.len() as i32]);
    0
}

/// The order with due times that the bound does not move before minute 0.
fn cut_off(order: &Order, bound: i64) -> Order {
    let mut order = order.clone();
    for job in &mut order.jobs {
        job.due = i64::from(job.due).max(-bound) as i32;
    }
    order
}
