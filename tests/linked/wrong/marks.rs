//! Wrong in how many rows are asked for: "E × (n + m - 1) rows, E being the distinct ready minutes, ends,
//! openings and closings".

use super::{answered, given, Wrong};
use crate::draw::Random;
use crate::independent::{rows_asked, Order, Times, MOST_MINUTE};
use crate::lent::{Call, Lent};
use crate::library::Function;
use crate::model::MODEL;
use std::collections::BTreeSet;

pub const PARTS: &[&[Wrong]] = &[COUNTS, ASKS];

/// How many rows are asked for.
const COUNTS: &[Wrong] = of_one!(TimedRows, counts:
    "counts ends cut off at 0" => |asked| asked.rows_by(&asked.with_ends(|end| end.max(0))),
    "leaves out ready minutes" => |asked| asked.rows_by(&asked.without(READY)),
    "leaves out openings" => |asked| asked.rows_by(&asked.without(OPENINGS)),
    "leaves out closings" => |asked| asked.rows_by(&asked.without(CLOSINGS)),
    "leaves out ends" => |asked| asked.rows_by(&asked.without(ENDS)),
    "takes due times for ends" => |asked| asked.rows_by(&asked.with_ends(|end| end - 1)),
    "takes the ends at bound 0" => |asked| asked.at(0).rows(),
    "counts equal times twice" => |asked| asked.kinds().concat().len() * asked.per_time(),
    "counts each kind of time apart" => |asked| {
        asked.kinds().iter().map(|kind| asked.rows_by(kind)).sum()
    },
    "counts minute 0 as a time" => |asked| asked.rows_by(&[asked.kinds().concat(), vec![0]].concat()),
    "counts stretches for times" => |asked| asked.rows() - asked.per_time(),
    "counts times after the largest minute as one" => |asked| {
        asked.rows_by(&asked.with_ends(|end| end.min(MOST_MINUTE.into())))
    },
    "tells the rows asked without times" => |asked| rows_asked(&asked.order),
    "tells a row more for each time" => |asked| asked.count() * (asked.per_time() + 1),
    "tells times and not rows" => |asked| asked.count(),
    "tells 3,024 at most" => |asked| asked.rows().min(3_024),
    "tells numbers and not rows" => |asked| 4 * asked.rows(),
);

/// The same in the planner, which then takes too few rows or asks for too many.
const ASKS: &[Wrong] = of_one!(TimedPlan, asks:
    "asks for rows by ends cut off at 0" => |asked| {
        asked.rows_by(&asked.with_ends(|end| end.max(0)))
    },
    "asks for rows without ready minutes" => |asked| asked.rows_by(&asked.without(READY)),
    "asks for rows without closings" => |asked| asked.rows_by(&asked.without(CLOSINGS)),
    "asks for rows by stretches" => |asked| asked.rows() - asked.per_time(),
    "asks for rows as without times" => |asked| rows_asked(&asked.order),
    "asks for a row more" => |asked| asked.rows() + 1,
    "asks for a row less" => |asked| asked.rows() - 1,
    "asks for 8,064 rows always" => |_| 8_064,
    "asks for no rows" => |_| 0,
);

/// What rows are asked for.
struct Asked {
    order: Order,
    times: Times,
    bound: i64,
}

/// The kinds of times.
const READY: usize = 0;
const OPENINGS: usize = 1;
const CLOSINGS: usize = 2;
const ENDS: usize = 3;

impl Asked {
    fn of(call: &Call) -> Asked {
        let (order, times) = given(call);
        let bound = call.bound.into();
        Asked {
            order,
            times,
            bound,
        }
    }

    /// The same at another bound.
    fn at(&self, bound: i64) -> Asked {
        Asked {
            order: self.order.clone(),
            times: self.times.clone(),
            bound,
        }
    }

    fn kinds(&self) -> [Vec<i64>; 4] {
        let Times { ready, windows } = &self.times;
        let of_windows = |at: usize| windows.iter().map(|window| window[at].into()).collect();
        let ends = self.order.jobs.iter().map(|job| job.end(self.bound));
        [
            ready.iter().map(|ready| i64::from(*ready)).collect(),
            of_windows(0),
            of_windows(1),
            ends.collect(),
        ]
    }

    /// All times but those of one kind.
    fn without(&self, kind: usize) -> Vec<i64> {
        let mut kinds = self.kinds();
        kinds[kind].clear();
        kinds.concat()
    }

    /// All times, with other ends.
    fn with_ends(&self, change: fn(i64) -> i64) -> Vec<i64> {
        let mut kinds = self.kinds();
        let ends = kinds[ENDS].iter_mut();
        ends.for_each(|end| *end = change(*end));
        kinds.concat()
    }

    fn per_time(&self) -> usize {
        self.order.jobs.len() + self.order.memories.len() - 1
    }

    /// The rows for the distinct ones of these times.
    fn rows_by(&self, times: &[i64]) -> usize {
        let distinct: BTreeSet<&i64> = times.iter().collect();
        distinct.len() * self.per_time()
    }

    fn rows(&self) -> usize {
        self.rows_by(&self.kinds().concat())
    }

    fn count(&self) -> usize {
        self.rows() / self.per_time()
    }
}

/// Another number of rows, where the call succeeds.
fn counts(call: &mut Call, rows: fn(&Asked) -> usize) -> u32 {
    answered(MODEL.timed_rows, call, |call| {
        let rows = rows(&Asked::of(call));
        call.answer.put(&[rows as i32]);
    })
}

/// 9 by another number of rows; a plan that does not fit is not written.
fn asks(call: &mut Call, rows: fn(&Asked) -> usize) -> u32 {
    let random = &mut Random::new(0);
    let mut roomy = call.clone();
    roomy.rows = Lent::filled(4 * 8_064, random, |drawn| drawn as u32);
    let result = (MODEL.timed_plan)(&mut roomy);
    if !matches!(result, 0 | 10) {
        return result;
    }
    if call.rows.len() / 4 < rows(&Asked::of(call)) {
        return 9;
    }
    if result == 0 {
        let written = 4 * roomy.answer.content()[0] as usize;
        let written = written.min(call.rows.len());
        call.rows.put(&roomy.rows.content()[..written]);
        call.answer = roomy.answer;
    }
    result
}
