//! Wrong in the bound's range, moved by the minute that an end has: "A bound is a whole number of
//! -10,000,000 to 10,000,000."

use super::Wrong;
use crate::lent::Call;
use crate::library::Function;
use crate::model::MODEL;

const LARGEST: i32 = 10_000_000;

pub const WRONG: &[Wrong] = &[
    (Function::Plan, "does not take the largest bound", |call| {
        refuses_largest(Function::Plan, call)
    }),
    (
        Function::Reason,
        "does not take the largest bound",
        |call| refuses_largest(Function::Reason, call),
    ),
    (
        Function::Sentence,
        "does not take the largest bound",
        |call| refuses_largest(Function::Sentence, call),
    ),
    (Function::Parse, "does not take the largest bound", |call| {
        refuses_largest(Function::Parse, call)
    }),
    (
        Function::BookPlan,
        "does not take the largest bound",
        |call| refuses_largest(Function::BookPlan, call),
    ),
    (Function::Check, "does not take the largest bound", |call| {
        refuses_largest(Function::Check, call)
    }),
    (
        Function::Plan,
        "takes one below the smallest bound",
        |call| takes_below_smallest(Function::Plan, call),
    ),
    (
        Function::Reason,
        "takes one below the smallest bound",
        |call| takes_below_smallest(Function::Reason, call),
    ),
    (
        Function::Sentence,
        "takes one below the smallest bound",
        |call| takes_below_smallest(Function::Sentence, call),
    ),
    (
        Function::Parse,
        "takes one below the smallest bound",
        |call| takes_below_smallest(Function::Parse, call),
    ),
    (
        Function::BookPlan,
        "takes one below the smallest bound",
        |call| takes_below_smallest(Function::BookPlan, call),
    ),
    (
        Function::Check,
        "takes one below the smallest bound",
        |call| takes_below_smallest(Function::Check, call),
    ),
];

/// 8 at the largest bound, but where an earlier refusal holds.
pub fn refuses_largest(function: Function, call: &mut Call) -> u32 {
    let result = MODEL.entry(function)(&mut call.clone());
    if call.bound == LARGEST && [0, 9, 10, 11, 14].contains(&result) {
        8
    } else {
        MODEL.entry(function)(call)
    }
}

/// At one below the smallest bound what should be done at the smallest.
pub fn takes_below_smallest(function: Function, call: &mut Call) -> u32 {
    if call.bound != -LARGEST - 1 {
        return MODEL.entry(function)(call);
    }
    call.bound += 1;
    let result = MODEL.entry(function)(call);
    call.bound -= 1;
    result
}
