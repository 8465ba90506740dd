//! The path of an estimate walked minute by minute against the same path halved: each number has the same
//! first order both ways, or none both ways. Along the path the least lateness goes from that at the lows to
//! that at the highs, never falls and rises by one at most; with any times between it lies between.

use super::hold;
use crate::draw::estimates::{between, damaged, numbers, short, OF_ESTIMATES};
use crate::draw::Random;
use crate::independent::{
    first_met, judge, judge_estimate, least, leasts, met_by_halving, walk, Estimate, Order,
};

pub fn agree(random: &mut Random, order: &Order) -> Result<(), String> {
    let estimate = short(random, order);
    accepted(&estimate)?;
    for number in OF_ESTIMATES {
        accepted(&damaged(random, &estimate, number))?;
    }
    let walk = walk(&estimate);
    walked(&estimate, &walk)?;
    let (at_lows, at_highs) = leasts(&estimate);
    let between_both = |number: i32| (at_lows..=at_highs).contains(&number);
    for number in numbers(random, at_lows, at_highs) {
        let met = first_met(&walk, number);
        let reached = met.is_some() == between_both(number);
        holds(&estimate, "met just between its ends", reached)?;
        let halved = met_by_halving(&estimate, number);
        holds(&estimate, "met alike both ways", met == halved)?;
    }
    let found = least(&between(random, &estimate));
    holds(&estimate, "late between its ends", between_both(found))
}

/// Along the path.
fn walked(estimate: &Estimate, walk: &[(Order, i32)]) -> Result<(), String> {
    let orders = walk.iter().map(|(order, _)| order.clone());
    let after = (0..=estimate.minutes()).map(|minutes| estimate.after(minutes));
    holds(estimate, "walked as its minutes say", orders.eq(after))?;
    let ends = (walk[0].1, walk[walk.len() - 1].1);
    holds(estimate, "walked to its highs", ends == leasts(estimate))?;
    let mut steps = walk.windows(2).map(|two| two[1].1 - two[0].1);
    let rises = steps.all(|step| step == 0 || step == 1);
    holds(estimate, "rising by one at most", rises)
}

fn holds(estimate: &Estimate, what: &str, holds: bool) -> Result<(), String> {
    let what = format!("{what}, up to {:?}", estimate.highs);
    hold(&estimate.lows, &what, holds)
}

/// An estimate is accepted just where the order is with the lows and with the highs, and no low is above its
/// high; where all times are known, it is judged as the order is.
fn accepted(estimate: &Estimate) -> Result<(), String> {
    let Estimate { lows, highs } = estimate;
    let both = judge(lows).is_none() && judge(&estimate.at(highs)).is_none();
    let mut jobs = lows.jobs.iter().zip(highs);
    let rises = jobs.all(|(job, high)| job.time <= *high);
    let good = judge_estimate(estimate).is_none();
    holds(estimate, "accepted at both ends", good == (both && rises))?;
    let known = Estimate {
        lows: lows.clone(),
        highs: lows.jobs.iter().map(|job| job.time).collect(),
    };
    let same = judge_estimate(&known) == judge(lows);
    hold(lows, "judged alike where its times are known", same)
}
