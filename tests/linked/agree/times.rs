//! Plans with ready minutes and windows: the flow against a search minute by minute, in parts of a
//! minute too; what is met stays so at a looser bound; and times that ask for nothing against the
//! planner without any.

use super::{hold, joins};
use crate::draw::times::{drawn, least};
use crate::draw::Random;
use crate::independent::{
    self, meets, timed_meets, timed_plan, timed_right, timed_rows_asked, timed_stretches, Job,
    Order, Times, MOST_MINUTE,
};
use crate::search;

/// An order with drawn times, around the least bound that these let be met.
pub fn agree(random: &mut Random, order: &Order) -> Result<(), String> {
    let without = independent::least(order);
    let times = drawn(random, order, without);
    let found = least(order, &times, without);
    let around = i64::from(found.unwrap_or(without));
    for away in [-2, -1, 0, 1, 40] {
        let bound = around + away;
        let met = found.is_some() && away >= 0;
        let planned = timed_plan(order, &times, bound);
        let of = |what| format!("{what} at {bound} with {times:?}");
        let alike = planned.is_some() == met;
        hold(order, &of("met from its least on"), alike)?;
        let in_parts = [2, 3].map(|parts| timed_meets_in_parts(order, &times, bound, parts));
        hold(order, &of("alike in parts"), in_parts == [met; 2])?;
        if let Some(rows) = planned {
            let asked = timed_rows_asked(order, &times, bound);
            let right = timed_right(order, &times, bound, &rows.concat());
            hold(order, &of("right with times"), right && rows.len() <= asked)?;
            let found = stretch_by_stretch(order, &times, bound);
            hold(order, &of("stretch by stretch"), found)?;
            joins::timed_agree(order, &times, bound)?;
        }
    }
    asks_nothing(order, without.into())
}

/// Whether a bound is met where each minute is cut into so many parts: times and ends in parts.
fn timed_meets_in_parts(order: &Order, times: &Times, bound: i64, parts: u32) -> bool {
    let (order, times) = in_parts(order, times, bound, parts);
    timed_meets(&order, &times, 0)
}

/// The order and the times with each minute cut into parts; its ends at 0 are those at the bound.
fn in_parts(order: &Order, times: &Times, bound: i64, parts: u32) -> (Order, Times) {
    let job = |job: &Job| Job {
        time: parts * job.time,
        due: (i64::from(parts) * job.end(bound) - 1) as i32,
        ..*job
    };
    let order = Order {
        memories: order.memories.clone(),
        jobs: order.jobs.iter().map(job).collect(),
    };
    let times = Times {
        ready: times.ready.iter().map(|ready| parts * ready).collect(),
        windows: times.windows.iter().map(|w| w.map(|m| parts * m)).collect(),
    };
    (order, times)
}

/// Stretches follow one another from minute 0 or later, and nothing changes inside one.
fn stretch_by_stretch(order: &Order, times: &Times, bound: i64) -> bool {
    let stretches = timed_stretches(order, times, bound);
    let minutes = times.ready.iter().chain(times.windows.as_flattened());
    let ends = order.jobs.iter().map(|job| job.end(bound));
    let changes: Vec<i64> = ends.chain(minutes.map(|m| i64::from(*m))).collect();
    let inside = |&(begin, end): &(i64, i64)| changes.iter().any(|c| begin < *c && *c < end);
    let follow = stretches.windows(2).all(|two| two[0].1 == two[1].0);
    let known = |minute: &i64| *minute == 0 || changes.contains(minute);
    let marked = stretches.iter().all(|(b, e)| known(b) && known(e) && b < e);
    follow && marked && !stretches.iter().any(inside)
}

/// Every job there from the start on and every processor always open: a bound is met as without times,
/// as far as all ends lie within the windows.
fn asks_nothing(order: &Order, least: i64) -> Result<(), String> {
    let times = Times {
        ready: vec![0; order.jobs.len()],
        windows: vec![[0, MOST_MINUTE]; order.memories.len()],
    };
    for bound in [least - 1, least, least + 1] {
        let within = |job: &Job| job.end(bound) <= MOST_MINUTE.into();
        if order.jobs.iter().all(within) {
            let alike = timed_meets(order, &times, bound) == meets(order, bound);
            hold(order, "met alike where times ask for nothing", alike)?;
        }
    }
    Ok(())
}

/// A tiny order with drawn times, searched minute by minute, and half a minute by half a minute where
/// that is quick.
pub fn searched(random: &mut Random, order: &Order) -> Result<(), String> {
    let without = independent::least(order);
    let times = drawn(random, order, without);
    let farthest = times.windows.iter().map(|window| window[0]).max();
    if farthest
        .unwrap_or(0)
        .max(times.ready.iter().copied().max().unwrap_or(0))
        > 40
    {
        return Ok(());
    }
    let found = least(order, &times, without);
    let around = i64::from(found.unwrap_or(without + 6));
    for bound in [around - 1, around] {
        let met = timed_meets(order, &times, bound);
        let of = |what| format!("{what} at {bound} with {times:?}");
        let alike = search::timed_meets(order, &times, bound) == met;
        hold(order, &of("met alike by search"), alike)?;
        if random.once_in(4) {
            let (order, times) = in_parts(order, &times, bound, 2);
            let alike = search::timed_meets(&order, &times, 0) == met;
            hold(&order, &of("met alike by search in halves"), alike)?;
        }
    }
    Ok(())
}
