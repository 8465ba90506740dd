//! Wrong in the two leasts, "the least lateness at all lows and at all highs", and in which highs are looked at.

use super::{answered, estimate, Wrong};
use crate::independent::{held, least, least_between, Estimate, Job};
use crate::lent::Call;
use crate::library::Function;
use crate::model::MODEL;

pub const PARTS: &[&[Wrong]] = &[ANSWERS, HIGHS];

/// Other highs in place of those that are lent; one that is below its low or out of range is then taken for
/// the nearest that is not.
type Change = fn(&Estimate) -> Vec<u32>;

/// Other leasts, from those at the lows and at the highs.
const ANSWERS: &[Wrong] = of_one!(Between, answering:
    "has the highs before the lows" => |_, [at_lows, at_highs]| [at_highs, at_lows],
    "has the lows twice" => |_, [at_lows, _]| [at_lows, at_lows],
    "has the highs twice" => |_, [_, at_highs]| [at_highs, at_highs],
    "leaves out the due minute" => |_, leasts| leasts.map(|least| least + 1),
    "adds all spans to the lows" => |estimate, [at_lows, _]| {
        [at_lows, at_lows + estimate.minutes() as i32]
    },
    "has each high alone" => |estimate, [at_lows, _]| {
        let alone = |place: usize| {
            let mut order = estimate.lows.clone();
            order.jobs[place].time = estimate.highs[place];
            least(&order)
        };
        let latest = (0..estimate.highs.len()).map(alone).max();
        [at_lows, latest.unwrap_or(at_lows)]
    },
    "has the latest job alone" => |estimate, _| {
        let highs = estimate.at(&estimate.highs);
        [&estimate.lows, &highs].map(|order| least_between(order).0 as i32 + 1)
    },
    "has all jobs on one processor" => |estimate, _| {
        let highs = estimate.at(&estimate.highs);
        [&estimate.lows, &highs].map(|order| least_between(order).1 as i32)
    },
);

const HIGHS: &[Wrong] = of_estimated!(looks_at, Change:
    "takes the high of the next job" => |estimate| {
        let mut highs = estimate.highs.clone();
        highs.rotate_left(1);
        highs
    },
    "takes highs for those of places" => |estimate| {
        let mut highs = estimate.highs.clone();
        for (one, high) in held(&estimate.lows).iter().zip(&estimate.highs) {
            highs[one.number as usize - 1] = *high;
        }
        highs
    },
    "takes highs for minutes beyond the lows" => |estimate| {
        each(estimate, |job, high| job.time + high)
    },
    "leaves out the last minute of a span" => |estimate| each(estimate, |_, high| high - 1),
    "takes a minute more for each job" => |estimate| each(estimate, |_, high| high + 1),
);

/// Each high by another rule.
fn each(estimate: &Estimate, high: fn(&Job, u32) -> u32) -> Vec<u32> {
    let both = estimate.lows.jobs.iter().zip(&estimate.highs);
    both.map(|(job, own)| high(job, *own)).collect()
}

/// Other leasts, where the call succeeds.
fn answering(call: &mut Call, leasts: fn(&Estimate, [i32; 2]) -> [i32; 2]) -> u32 {
    answered(MODEL.between, call, |call| {
        let estimate = estimate(Function::Between, call).expect("the call was answered");
        let own = [call.answer.content()[0], call.answer.content()[1]];
        call.answer.put(&leasts(&estimate, own));
    })
}

/// The call with other highs, where those lent are accepted; they are then as they were.
fn looks_at(function: Function, call: &mut Call, change: Change) -> u32 {
    let Some(estimate) = estimate(function, call) else {
        return MODEL.entry(function)(call);
    };
    let both = estimate.lows.jobs.iter().zip(change(&estimate));
    let within = both.map(|(job, high)| high.clamp(job.time, 100_000));
    let highs = call.highs.clone();
    call.highs.put(&within.collect::<Vec<u32>>());
    let result = MODEL.entry(function)(call);
    call.highs = highs;
    result
}
