//! Wrong in joining: "Where a job ends a stretch on a processor and opens the next stretch on that
//! processor, makers want one row"; "A joined row stands where its earliest part stood. Row counts
//! never grow; the buffer asked for stays q × (n + m - 1) rows."

use super::meeting::{laid_out, meet, Meeting};
use super::{accepted, answered, count_at, least, plan_of, replanned, Plan, Wrong};
use crate::draw::Random;
use crate::independent::{join, joins, plan, rows_asked, stretches, Row, MOST_ROWS};
use crate::lent::{Call, Lent};
use crate::library::Function;
use crate::model::MODEL;
use std::cmp::Reverse;

pub const WRONG: &[Wrong] = &[
    (Function::Plan, "joins no rows", |call| {
        joined_where(Function::Plan, call, |_| false)
    }),
    (Function::Least, "joins no rows", |call| {
        joined_where(Function::Least, call, |_| false)
    }),
    (Function::Plan, "joins a job over two processors", |call| {
        joined_where(Function::Plan, call, |at| at.same_job() && at.touch())
    }),
    (Function::Least, "joins two jobs", |call| {
        joined_where(Function::Least, call, |at| {
            at.same_processor() && at.touch()
        })
    }),
    (
        Function::Plan,
        "joins though the job stopped before the stretch's end",
        |call| {
            joined_where(Function::Plan, call, |at| {
                at.same_job() && at.same_processor() && at.opens() && at.before.0 < at.row_to()
            })
        },
    ),
    (
        Function::Plan,
        "joins over a stretch that the job leaves out",
        |call| {
            joined_where(Function::Plan, call, |at| {
                let left_out = at.opens() && at.before.0 == at.row_to();
                at.same_job() && at.same_processor() && (at.touch() || left_out)
            })
        },
    ),
    (Function::Plan, "joins a row only once", |call| {
        joined_where(Function::Plan, call, |at| {
            at.right() && at.before.0 <= i64::from(at.row[2])
        })
    }),
    (
        Function::Least,
        "joins only rows that stand side by side",
        |call| joined_where(Function::Least, call, |at| at.right() && at.side_by_side),
    ),
    (
        Function::Plan,
        "joins only rows that fill their stretch",
        |call| {
            joined_where(Function::Plan, call, |at| {
                at.right() && i64::from(at.row[2]) <= at.before.0
            })
        },
    ),
    (Function::Plan, "joins on processor 1 only", |call| {
        joined_where(Function::Plan, call, |at| at.right() && at.row[1] == 1)
    }),
    (Function::Least, "joins at the first end only", |call| {
        joined_where(Function::Least, call, |at| at.right() && at.before.0 == 0)
    }),
    (Function::Plan, "does not join at the last end", |call| {
        joined_where(Function::Plan, call, |at| at.right() && !at.last_end)
    }),
    (
        Function::Plan,
        "puts a joined row where its last part stood",
        |call| replanned(Function::Plan, call, by_last_parts),
    ),
    (Function::Plan, "puts joined rows last", |call| {
        replanned(Function::Plan, call, |made| {
            let mut rows = made.rows.clone();
            rows.sort_by_key(|row| is_joined(made, row));
            rows
        })
    }),
    (
        Function::Plan,
        "writes its rows processor by processor",
        |call| {
            replanned(Function::Plan, call, |made| {
                let mut rows = made.rows.clone();
                rows.sort_by_key(|row| row[1]);
                rows
            })
        },
    ),
    (
        Function::Plan,
        "exchanges equal processors to join more",
        |call| replanned(Function::Plan, call, exchanged),
    ),
    (Function::Plan, "keeps the `to` of the first part", |call| {
        replanned(Function::Plan, call, |made| {
            each_row(made, |row, ends| row[3] = ends[0])
        })
    }),
    (
        Function::Plan,
        "keeps the `from` of the last part",
        |call| {
            replanned(Function::Plan, call, |made| {
                each_row(made, |row, ends| row[2] = ends[ends.len() - 1])
            })
        },
    ),
    (Function::Plan, "counts its rows before joining", |call| {
        count_before_joining(Function::Plan, call)
    }),
    (Function::Least, "counts its rows before joining", |call| {
        count_before_joining(Function::Least, call)
    }),
    (
        Function::Plan,
        "leaves rows that it joined behind the others",
        |call| beyond(Function::Plan, call, |laid_out| laid_out),
    ),
    (Function::Least, "clears the room of rows joined", |call| {
        beyond(Function::Least, call, |_| [0; 4])
    }),
    (Function::Plan, "asks for its joined rows only", |call| {
        asking(Function::Plan, call, |made| made.rows.len())
    }),
    (
        Function::Least,
        "asks for a row less for each join",
        |call| {
            asking(Function::Least, call, |made| {
                rows_asked(&made.order) - join_count(made)
            })
        },
    ),
    (Function::Judge, "tells a row less for each join", |call| {
        answered(MODEL.judge, call, |call| {
            let order = accepted(call).expect("the call was answered");
            let bound = least(call);
            let rows = plan(&order, bound).expect("the least lateness is met");
            let joins = join_count(&Plan { order, bound, rows });
            call.answer.content_mut()[2] -= joins as i32;
        })
    }),
];

/// The planner with its rows joined by another rule.
fn joined_where(function: Function, call: &mut Call, joins: fn(&Meeting) -> bool) -> u32 {
    replanned(function, call, |made| {
        meet(made, joins, |joined, place, next| {
            joined[place][3] = next[3]
        })
    })
}

/// Joined as they must be, but each where its last part stood.
fn by_last_parts(made: &Plan) -> Vec<Row> {
    meet(made, Meeting::right, |joined, place, next| {
        let [job, processor, from, _] = joined.remove(place);
        joined.push([job, processor, from, next[3]]);
    })
}

/// A stretch that a job opens on another processor than it ended the one before with, of equal
/// memory, is laid out with these two exchanged.
fn exchanged(made: &Plan) -> Vec<Row> {
    let memory = |processor: u32| made.order.memories[processor as usize - 1];
    let mut by_stretch = laid_out(made);
    for number in 1..by_stretch.len() {
        let (earlier, later) = by_stretch.split_at_mut(number);
        for &[job, ended, _, to] in &earlier[number - 1] {
            let opens = |row: &&Row| row[0] == job && row[2] == to;
            let Some(&[_, opened, ..]) = later[0].iter().find(opens) else {
                continue;
            };
            if memory(opened) == memory(ended) {
                exchange(&mut later[0], opened, ended);
            }
        }
        later[0].sort_by_key(|row| (Reverse(memory(row[1])), row[1], row[2]));
    }
    join(&stretches(&made.order, made.bound.into()), &by_stretch)
}

fn exchange(rows: &mut [Row], one: u32, other: u32) {
    for row in rows {
        row[1] = match row[1] {
            number if number == one => other,
            number if number == other => one,
            number => number,
        };
    }
}

fn join_count(made: &Plan) -> usize {
    joins(&made.order, made.bound.into(), &made.rows)
}

fn is_joined(made: &Plan, row: &Row) -> bool {
    joins(&made.order, made.bound.into(), &[*row]) > 0
}

/// The rows, with a change of each that reaches over ends of stretches.
fn each_row(made: &Plan, change: fn(&mut Row, &[u32])) -> Vec<Row> {
    let stretches = stretches(&made.order, made.bound.into());
    let mut rows = made.rows.clone();
    for row in &mut rows {
        let ends = stretches.iter().map(|(_, end)| *end as u32);
        let ends: Vec<u32> = ends.filter(|end| row[2] < *end && *end < row[3]).collect();
        if !ends.is_empty() {
            change(row, &ends);
        }
    }
    rows
}

fn count_before_joining(function: Function, call: &mut Call) -> u32 {
    answered(MODEL.entry(function), call, |call| {
        let count = laid_out(&plan_of(function, call)).concat().len();
        call.answer.content_mut()[count_at(function)] = count as i32;
    })
}

/// The planner, but with something behind its rows in the room of as many as were laid out.
fn beyond(function: Function, call: &mut Call, what: fn(Row) -> Row) -> u32 {
    answered(MODEL.entry(function), call, |call| {
        let made = plan_of(function, call);
        let mut rows = made.rows.clone();
        let behind = laid_out(&made).concat().split_off(rows.len());
        rows.extend(behind.into_iter().map(what));
        call.rows.put(&rows.concat());
    })
}

/// The planner where it asks for fewer rows.
fn asking(function: Function, call: &mut Call, asked: fn(&Plan) -> usize) -> u32 {
    let result = MODEL.entry(function)(call);
    if result != 9 {
        return result;
    }
    let mut roomy = call.clone();
    roomy.rows = Lent::filled(4 * MOST_ROWS, &mut Random::new(0), |drawn| drawn as u32);
    if MODEL.entry(function)(&mut roomy) != 0 {
        return result;
    }
    let made = plan_of(function, &roomy);
    if call.rows.len() / 4 < asked(&made) {
        return result;
    }
    call.rows.put(&made.rows.concat());
    call.answer = roomy.answer;
    0
}
