//! Wrong in plans with ready minutes and windows: "no row begins before its job's ready minute or its
//! processor's opening, nor has a `to` above that processor's closing".

use super::{answered, given, Wrong};
use crate::independent::{
    plan, timed_clipped, timed_layout, timed_plan, timed_stretches, Order, Row, Times, MOST_MINUTE,
};
use crate::lent::{rows_of, Call};
use crate::library::Function;
use crate::model::MODEL;

pub const PARTS: &[&[Wrong]] = &[PLANS, WRITTEN];

/// A plan that was written with times.
pub struct Made {
    pub order: Order,
    pub times: Times,
    pub bound: i64,
    pub rows: Vec<Row>,
}

/// Plans for other times or another bound, where there is one.
const PLANS: &[Wrong] = of_one!(TimedPlan, replanned:
    "plans without times" => |made| plan(&made.order, made.bound as i32),
    "does not look at windows" => |made| made.with(|times| {
        times.windows.fill([0, MOST_MINUTE]);
    }),
    "does not look at closings" => |made| made.with(|times| {
        times.windows.iter_mut().for_each(|window| window[1] = MOST_MINUTE);
    }),
    "does not look at openings" => |made| made.with(|times| {
        times.windows.iter_mut().for_each(|window| window[0] = 0);
    }),
    "does not look at ready minutes" => |made| made.with(|times| times.ready.fill(0)),
    "opens a minute early" => |made| made.with(|times| {
        times.windows.iter_mut().for_each(|window| window[0] = window[0].saturating_sub(1));
    }),
    "closes a minute late" => |made| made.with(|times| {
        times.windows.iter_mut().for_each(|window| window[1] = MOST_MINUTE.min(window[1] + 1));
    }),
    "begins a minute before jobs are ready" => |made| made.with(|times| {
        times.ready.iter_mut().for_each(|ready| *ready = ready.saturating_sub(1));
    }),
    "has the windows in reverse" => |made| made.with(|times| times.windows.reverse()),
    "has the ready minutes in reverse" => |made| made.with(|times| times.ready.reverse()),
    "has the first window for all" => |made| made.with(|times| {
        let first = times.windows[0];
        times.windows.fill(first);
    }),
    "has the first ready minute for all" => |made| made.with(|times| {
        let first = times.ready[0];
        times.ready.fill(first);
    }),
    "ends a minute late" => |made| timed_plan(&made.order, &made.times, made.bound + 1),
    "does not look at ends" => |made| timed_plan(&made.order, &made.times, 3_000_000),
);

const WRITTEN: &[Wrong] = &[
    (Function::TimedPlan, "writes no rows", |call| {
        replanned(call, |_| Some(Vec::new()))
    }),
    (Function::TimedPlan, "writes its rows backwards", |call| {
        replanned(call, |made| Some(made.rows.iter().rev().copied().collect()))
    }),
    (Function::TimedPlan, "sorts its rows by `from`", |call| {
        replanned(call, |made| {
            let mut rows = made.rows.clone();
            rows.sort_by_key(|row| row[2]);
            Some(rows)
        })
    }),
    (Function::TimedPlan, "leaves out its last row", |call| {
        replanned(call, |made| Some(made.rows[..made.rows.len() - 1].to_vec()))
    }),
    (
        Function::TimedPlan,
        "counts minutes from the first opening",
        |call| {
            replanned(call, |made| {
                let first = made.times.windows.iter().map(|window| window[0]).min();
                let first = first.unwrap_or(0);
                let moved =
                    |&[job, processor, from, to]: &Row| [job, processor, from - first, to - first];
                Some(made.rows.iter().map(moved).collect())
            })
        },
    ),
    (Function::TimedPlan, "counts a row too many", |call| {
        answered(MODEL.timed_plan, call, |call| {
            call.answer.content_mut()[0] += 1
        })
    }),
    (Function::TimedPlan, "counts a row too few", |call| {
        answered(MODEL.timed_plan, call, |call| {
            call.answer.content_mut()[0] -= 1
        })
    }),
    (Function::TimedPlan, "answers the rows asked for", |call| {
        answered(MODEL.timed_plan, call, |call| {
            let mut asking = call.clone();
            (MODEL.timed_rows)(&mut asking);
            call.answer.put(asking.answer.content());
        })
    }),
    (
        Function::TimedPlan,
        "counts its rows before joining",
        |call| {
            answered(MODEL.timed_plan, call, |call| {
                let laid_out = made_of(call).by_stretch().concat();
                call.answer.content_mut()[0] = laid_out.len() as i32;
            })
        },
    ),
    (
        Function::TimedPlan,
        "clears the rows beyond its plan",
        |call| {
            answered(MODEL.timed_plan, call, |call| {
                let written = 4 * call.answer.content()[0] as usize;
                call.rows.content_mut()[written..].fill(0);
            })
        },
    ),
    (
        Function::TimedPlan,
        "leaves rows that it joined behind the others",
        |call| {
            answered(MODEL.timed_plan, call, |call| {
                let laid_out = made_of(call).by_stretch().concat();
                let written = 4 * call.answer.content()[0] as usize;
                let behind = &laid_out.concat()[written..];
                call.rows.content_mut()[written..written + behind.len()].copy_from_slice(behind);
            })
        },
    ),
    (
        Function::TimedPlan,
        "changes the number after its last row",
        |call| {
            answered(MODEL.timed_plan, call, |call| {
                let written = 4 * call.answer.content()[0] as usize;
                if let Some(number) = call.rows.content_mut().get_mut(written) {
                    *number ^= 1;
                }
            })
        },
    ),
];

impl Made {
    pub fn stretches(&self) -> Vec<(i64, i64)> {
        timed_stretches(&self.order, &self.times, self.bound)
    }

    /// The rows as they were laid out.
    pub fn by_stretch(&self) -> Vec<Vec<Row>> {
        let Made { order, times, .. } = self;
        let amounts = timed_clipped(order, times, self.bound, &self.rows);
        timed_layout(order, times, self.bound, &amounts)
    }

    /// A plan for other times.
    fn with(&self, change: fn(&mut Times)) -> Option<Vec<Row>> {
        let mut times = self.times.clone();
        change(&mut times);
        timed_plan(&self.order, &times, self.bound)
    }
}

/// The plan of an answered call.
pub fn made_of(call: &Call) -> Made {
    let (order, times) = given(call);
    let count = call.answer.content()[0] as usize;
    Made {
        order,
        times,
        bound: call.bound.into(),
        rows: rows_of(&call.rows.content()[..4 * count]),
    }
}

/// The planner, but with other rows where it succeeds, there are some, and there is room for them. The
/// buffer beyond them is as it was.
pub fn replanned(call: &mut Call, make: fn(&Made) -> Option<Vec<Row>>) -> u32 {
    let before = call.rows.clone();
    answered(MODEL.timed_plan, call, |call| {
        let rows = make(&made_of(call));
        let Some(rows) = rows.filter(|rows| 4 * rows.len() <= before.len()) else {
            return;
        };
        call.rows = before;
        call.rows.put(&rows.concat());
        call.answer.put(&[rows.len() as i32]);
    })
}
