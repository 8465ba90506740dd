//! Wrong in when a bound is too tight with ready minutes and windows: "too tight where there is none,
//! without a reason"; and in what is told before that.

use super::timed::Made;
use super::{given, Wrong};
use crate::independent::{plan, timed_meets};
use crate::lent::{rows_of, Call};
use crate::library::Function;
use crate::model::MODEL;

pub const PARTS: &[&[Wrong]] = &[TIGHT];

const TIGHT: &[Wrong] = of_one!(TimedPlan, decides:
    "tells of a job with a tight bound" => |_, told| match told {
        10 => 10 + 256,
        _ => told,
    },
    "tells a tight bound before a short buffer" => |made, told| match told {
        9 if !made.met() => 10,
        _ => told,
    },
    "tells a short buffer before a bound out of range" => |made, told| match told {
        8 if made.rows.is_empty() => 9,
        _ => told,
    },
    "takes any bound" => |_, told| match told {
        8 => 10,
        _ => told,
    },
    "is never too tight" => |_, told| match told {
        10 => 0,
        _ => told,
    },
    "is always too tight" => |_, told| match told {
        0 => 10,
        _ => told,
    },
    "is too tight where a minute less would be" => |made, told| match told {
        0 if !timed_meets(&made.order, &made.times, made.bound - 1) => 10,
        _ => told,
    },
    "is too tight a minute too late" => |made, told| match told {
        10 if timed_meets(&made.order, &made.times, made.bound + 1) => 0,
        _ => told,
    },
    "is too tight only where it is so without times" => |made, told| match told {
        10 if plan(&made.order, made.bound as i32).is_some() => 0,
        _ => told,
    },
    "is too tight where a job is longer than each window" => |made, told| {
        let long = |time: u32| made.times.windows.iter().all(|[o, c]| c - o < time);
        match told {
            0 if made.order.jobs.iter().any(|job| long(job.time)) => 10,
            _ => told,
        }
    },
    "is too tight where a window closes before the last end" => |made, told| {
        let last = made.order.jobs.iter().map(|job| job.end(made.bound)).max();
        let early = |window: &[u32; 2]| Some(i64::from(window[1])) < last;
        match told {
            0 if made.times.windows.iter().any(early) => 10,
            _ => told,
        }
    },
    "is too tight where a job is ready after another's end" => |made, told| {
        let first = made.order.jobs.iter().map(|job| job.end(made.bound)).min();
        let late = |ready: &u32| Some(i64::from(*ready)) > first;
        match told {
            0 if made.times.ready.iter().any(late) => 10,
            _ => told,
        }
    },
    "is too tight where a processor does not open at 0" => |made, told| match told {
        0 if made.times.windows.iter().any(|window| window[0] > 0) => 10,
        _ => told,
    },
    "asks for as many minutes in all as there are and no more" => |made, told| match told {
        10 if made.minutes_in_all() => 0,
        _ => told,
    },
    "asks only that each job is there for its time" => |made, told| match told {
        10 if made.each_alone() => 0,
        _ => told,
    },
);

impl Made {
    fn met(&self) -> bool {
        timed_meets(&self.order, &self.times, self.bound)
    }

    /// Whether all times together are at most the minutes of all windows.
    fn minutes_in_all(&self) -> bool {
        let times: u64 = self.order.jobs.iter().map(|job| u64::from(job.time)).sum();
        let windows = self.times.windows.iter();
        let on_hand: u64 = windows.map(|[o, c]| u64::from(c - o)).sum();
        times <= on_hand
    }

    /// Whether each job has its time from its ready minute up to its end.
    fn each_alone(&self) -> bool {
        let mut both = self.order.jobs.iter().zip(&self.times.ready);
        both.all(|(job, ready)| i64::from(*ready) + i64::from(job.time) <= job.end(self.bound))
    }
}

/// Another result; where it is then refused, nothing is written, and where it is not, no rows are.
fn decides(call: &mut Call, told: fn(&Made, u32) -> u32) -> u32 {
    let mut after = call.clone();
    let result = (MODEL.timed_plan)(&mut after);
    if !matches!(result, 0 | 8 | 9 | 10) {
        return result;
    }
    let (order, times) = given(call);
    let made = Made {
        order,
        times,
        bound: call.bound.into(),
        rows: rows_of(call.rows.content()),
    };
    let then = told(&made, result);
    match (result, then) {
        (0, 0) => *call = after,
        (_, 0) => call.answer.put(&[0]),
        _ => {}
    }
    then
}
