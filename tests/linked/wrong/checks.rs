//! Wrong in the plan check: one of the four rules left out or too strict, rows miscounted.

use super::{accepted, answered, Wrong};
use crate::independent::{joins, left_to_join, right, Job, Order, Row};
use crate::lent::{rows_of, Call};
use crate::library::Function;
use crate::model::MODEL;

pub const WRONG: &[Wrong] = &[
    (Function::Check, "says yes", |call| {
        judged(call, |_, _, _| true)
    }),
    (Function::Check, "says no", |call| {
        judged(call, |_, _, _| false)
    }),
    (Function::Check, "ignores needs", |call| {
        judged(call, |order, bound, rows| {
            right(&with_jobs(order, |_, job| job.need = 0), bound, rows)
        })
    }),
    (Function::Check, "ignores due times", |call| {
        judged(call, |order, _, rows| right(order, 1 << 40, rows))
    }),
    (Function::Check, "ignores times", |call| {
        judged(call, |order, bound, rows| {
            let as_long = |number, job: &mut Job| job.time = minutes(number, rows);
            right(&with_jobs(order, as_long), bound, rows)
        })
    }),
    (
        Function::Check,
        "lets a job run longer than its time",
        |call| {
            judged(call, |order, bound, rows| {
                let longer = |number, job: &mut Job| job.time = job.time.max(minutes(number, rows));
                right(&with_jobs(order, longer), bound, rows)
            })
        },
    ),
    (Function::Check, "lets rows of one job overlap", |call| {
        judged(call, jobs_overlap)
    }),
    (
        Function::Check,
        "lets rows of one processor overlap",
        |call| judged(call, processors_overlap),
    ),
    (Function::Check, "takes touching for overlap", |call| {
        judged(call, |order, bound, rows| {
            right(order, bound, rows) && !touching(&rows_of(rows))
        })
    }),
    (
        Function::Check,
        "takes no row that reaches over the end of a stretch",
        |call| {
            judged(call, |order, bound, rows| {
                right(order, bound, rows) && joins(order, bound, &rows_of(rows)) == 0
            })
        },
    ),
    (Function::Check, "takes no rows left to join", |call| {
        judged(call, |order, bound, rows| {
            right(order, bound, rows) && left_to_join(&rows_of(rows)).is_none()
        })
    }),
    (Function::Check, "ignores empty rows", |call| {
        judged(call, |order, bound, rows| {
            let full = rows
                .chunks(4)
                .filter(|row| row.len() < 4 || row[2] != row[3]);
            right(order, bound, &full.flatten().copied().collect::<Vec<u32>>())
        })
    }),
    (Function::Check, "ignores numbers left over", |call| {
        judged(call, |order, bound, rows| {
            right(order, bound, &rows[..rows.len() / 4 * 4])
        })
    }),
    (Function::Check, "takes 3,025 rows", |call| {
        let result = (MODEL.check)(call);
        if result == 11 && call.rows.len() == 4 * 3_025 {
            no(call)
        } else {
            result
        }
    }),
    (
        Function::Check,
        "does not count numbers left over as a row",
        |call| {
            let result = (MODEL.check)(call);
            if result == 11 && call.rows.len() < 4 * 3_025 {
                no(call)
            } else {
                result
            }
        },
    ),
    (Function::Check, "does not take 3,024 rows", |call| {
        let mut tried = call.clone();
        let most = call.rows.len() == 4 * 3_024;
        if (MODEL.check)(&mut tried) == 0 && most {
            11
        } else {
            (MODEL.check)(call)
        }
    }),
];

/// The check with other rules, where the call is not refused.
pub fn judged(call: &mut Call, rules: fn(&Order, i64, &[u32]) -> bool) -> u32 {
    answered(MODEL.check, call, |call| {
        let order = accepted(call).expect("the call was answered");
        let yes = rules(&order, call.bound.into(), call.rows.content());
        call.answer.put(&[yes.into()]);
    })
}

fn no(call: &mut Call) -> u32 {
    call.answer.put(&[0]);
    0
}

/// The order with its jobs changed; they are numbered from 1.
fn with_jobs(order: &Order, change: impl Fn(u32, &mut Job)) -> Order {
    let mut order = order.clone();
    (1..)
        .zip(&mut order.jobs)
        .for_each(|(number, job)| change(number, job));
    order
}

/// The minutes that rows give a job.
fn minutes(number: u32, rows: &[u32]) -> u32 {
    let own = rows_of(rows).into_iter().filter(|row| row[0] == number);
    own.fold(0, |sum, row| sum.wrapping_add(row[3].wrapping_sub(row[2])))
}

/// The four rules with a processor of the same memory for each row: rows of one never overlap.
fn processors_overlap(order: &Order, bound: i64, rows: &[u32]) -> bool {
    let mut named = rows_of(rows);
    let mut order = order.clone();
    let memories = order.memories.clone();
    let memory = |row: &Row| memories.get((row[1] as usize).wrapping_sub(1)).copied();
    let Some(memories) = named.iter().map(memory).collect() else {
        return false;
    };
    order.memories = memories;
    (1..)
        .zip(&mut named)
        .for_each(|(number, row)| row[1] = number);
    rows.len() % 4 == 0 && right(&order, bound, &named.concat())
}

/// The four rules with a job for each row, as long as the row, and the sums apart.
fn jobs_overlap(order: &Order, bound: i64, rows: &[u32]) -> bool {
    let mut named = rows_of(rows);
    let job = |row: &Row| {
        let mut job = *order.jobs.get((row[0] as usize).wrapping_sub(1))?;
        job.time = row[3].wrapping_sub(row[2]);
        Some(job)
    };
    let Some(jobs) = named.iter().map(job).collect() else {
        return false;
    };
    let whole = (1..)
        .zip(&order.jobs)
        .all(|(number, job)| job.time == minutes(number, rows));
    let memories = order.memories.clone();
    (1..)
        .zip(&mut named)
        .for_each(|(number, row)| row[0] = number);
    whole && rows.len() % 4 == 0 && right(&Order { memories, jobs }, bound, &named.concat())
}

/// Whether a row begins where another one of its processor ends.
fn touching(rows: &[Row]) -> bool {
    let touch = |row: &Row, other: &Row| row[1] == other[1] && row[3] == other[2];
    rows.iter()
        .any(|row| rows.iter().any(|other| touch(row, other)))
}
