//! Wrong in the least lateness and in plans: the wrap, the order of the rows, their count, and
//! where a bound is too tight.

use super::{accepted, answered, class_memory, least, replanned, Wrong};
use crate::independent::{plan, rows_asked, Order, Row};
use crate::lent::Call;
use crate::library::Function;
use crate::model::MODEL;

pub const WRONG: &[Wrong] = &[
    (Function::Least, "is one too large", |call| {
        answered(MODEL.least, call, |call| call.answer.content_mut()[0] += 1)
    }),
    (Function::Least, "is one too small", |call| {
        answered(MODEL.least, call, |call| call.answer.content_mut()[0] -= 1)
    }),
    (Function::Least, "and its plan are one too late", |call| {
        let result = replanned(Function::Least, call, |made| {
            met(&made.order, made.bound + 1)
        });
        if result == 0 {
            call.answer.content_mut()[0] += 1;
        }
        result
    }),
    (Function::Least, "counts a row too many", |call| {
        answered(MODEL.least, call, |call| call.answer.content_mut()[1] += 1)
    }),
    (Function::Plan, "counts a row too few", |call| {
        answered(MODEL.plan, call, |call| call.answer.content_mut()[0] -= 1)
    }),
    (Function::Plan, "counts no rows", |call| {
        answered(MODEL.plan, call, |call| call.answer.content_mut()[0] = 0)
    }),
    (Function::Plan, "writes its rows backwards", |call| {
        changed(call, |rows| rows.reverse())
    }),
    (Function::Plan, "sorts its rows by `from`", |call| {
        changed(call, |rows| rows.sort_by_key(|row| row[2]))
    }),
    (Function::Plan, "cuts a row in two", |call| {
        changed(call, cut)
    }),
    (Function::Plan, "wraps by class, not by need", |call| {
        replanned(Function::Plan, call, |made| {
            met(&needs_of_classes(&made.order), made.bound)
        })
    }),
    (Function::Plan, "wraps equal needs from the last", |call| {
        replanned(Function::Plan, call, |made| {
            turned(&made.order, made.bound, JOB)
        })
    }),
    (
        Function::Plan,
        "wraps equal memories from the last",
        |call| {
            replanned(Function::Plan, call, |made| {
                turned(&made.order, made.bound, PROCESSOR)
            })
        },
    ),
    (
        Function::Plan,
        "calls the least lateness too tight",
        |call| {
            let mut tried = call.clone();
            let met = (MODEL.plan)(&mut tried) == 0;
            if met && call.bound == least(call) {
                10
            } else {
                (MODEL.plan)(call)
            }
        },
    ),
    (
        Function::Plan,
        "at one below the least is that at the least",
        |call| {
            let mut tried = call.clone();
            if (MODEL.plan)(&mut tried) != 10 || call.bound < least(call) - 1 {
                return (MODEL.plan)(call);
            }
            call.bound += 1;
            let result = (MODEL.plan)(call);
            call.bound -= 1;
            result
        },
    ),
    (
        Function::Least,
        "takes numbers left over for a row of room",
        |call| {
            let result = (MODEL.least)(call);
            let over = result == 9 && call.rows.len() % 4 > 0;
            if over {
                0
            } else {
                result
            }
        },
    ),
    (Function::Plan, "asks for one row more", |call| {
        let asked = |order: Order| 4 * rows_asked(&order);
        let exact = accepted(call).map(asked) == Some(call.rows.len());
        let mut tried = call.clone();
        if (MODEL.plan)(&mut tried) == 0 && exact {
            9
        } else {
            (MODEL.plan)(call)
        }
    }),
];

const JOB: usize = 0;
const PROCESSOR: usize = 1;

/// The independent plan at a bound that is met.
fn met(order: &Order, bound: i32) -> Vec<Row> {
    plan(order, bound).expect("the bound is met")
}

/// The planner with its rows changed.
fn changed(call: &mut Call, change: fn(&mut Vec<Row>)) -> u32 {
    replanned(Function::Plan, call, |made| {
        let mut rows = made.rows.clone();
        change(&mut rows);
        rows
    })
}

fn cut(rows: &mut Vec<Row>) {
    let Some(place) = rows.iter().position(|row| row[2] + 1 < row[3]) else {
        return;
    };
    let [job, processor, from, _] = rows[place];
    rows[place][2] = from + 1;
    rows.insert(place, [job, processor, from, from + 1]);
}

/// The plan of the order with its jobs or its processors listed backwards, named as before.
fn turned(order: &Order, bound: i32, what: usize) -> Vec<Row> {
    let mut order = order.clone();
    let count = match what {
        JOB => {
            order.jobs.reverse();
            order.jobs.len()
        }
        _ => {
            order.memories.reverse();
            order.memories.len()
        }
    };
    let mut rows = met(&order, bound);
    rows.iter_mut()
        .for_each(|row| row[what] = count as u32 + 1 - row[what]);
    rows
}

/// The order, each job with the memory of its class for its need.
fn needs_of_classes(order: &Order) -> Order {
    let mut classed = order.clone();
    for job in &mut classed.jobs {
        job.need = class_memory(order, job);
    }
    classed
}
