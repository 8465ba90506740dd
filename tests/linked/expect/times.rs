//! What a function with ready minutes and windows must do.

use super::{refused, Expected, Known, BOUNDS};
use crate::independent::{self, Order, Times, DOCK, MOST_TIMED_ROWS};
use crate::lent::Call;
use crate::library::Function;

/// "judged right after 12 and before 1" is whether they are as many as the file's jobs and processors.
pub fn timed(function: Function, call: &Call, known: &mut Known) -> Expected {
    let file = call.file.content();
    let Some(listed) = independent::lists(file) else {
        return refused(12, 0);
    };
    let Some(times) = Times::of(&listed, call.ready.content(), call.windows.content()) else {
        return refused(253, 0);
    };
    known.turn_to(&DOCK, file);
    let order = match &known.order {
        Err(refusal) => return Expected::Refused(*refusal),
        Ok(order) => order,
    };
    if let Some(refusal) = independent::judge_times(&times) {
        return Expected::Refused(refusal);
    }
    if !BOUNDS.contains(&call.bound) {
        return refused(8, 0);
    }
    timed_answer(function, call, order, times)
}

/// The answer at a bound in range, or 9, 10 or 11.
fn timed_answer(function: Function, call: &Call, order: &Order, times: Times) -> Expected {
    let (bound, rows) = (i64::from(call.bound), &call.rows);
    let asked = independent::timed_rows_asked(order, &times, bound);
    match function {
        Function::TimedRows => Expected::Answer(vec![asked as i32]),
        Function::TimedPlan if rows.len() / 4 < asked => refused(9, 0),
        Function::TimedPlan if !independent::timed_meets(order, &times, bound) => refused(10, 0),
        Function::TimedPlan => Expected::Plan {
            bound: call.bound,
            times: Some(times),
            lateness: None,
            book: None,
        },
        _ if rows.len().div_ceil(4) > MOST_TIMED_ROWS => refused(11, 0),
        _ => {
            let right = independent::timed_right(order, &times, bound, rows.content());
            Expected::Answer(vec![right.into()])
        }
    }
}
