//! Wrong in which of several jobs a refusal carries, though "the first such job" is meant, wherever it
//! lies by falling need.

use super::Wrong;
use crate::expect::listed;
use crate::independent::{held, judge, judge_estimate, lists, Estimate, Held, Order, MOST_MINUTE};
use crate::lent::Call;
use crate::library::Function;
use crate::model::MODEL;

pub const PARTS: &[&[Wrong]] = &[JOBS, READY];

/// The number told, from the jobs as they lie and from those of them that the refusal is about.
type Told = fn(&[Held], &[Held]) -> u32;

const JOBS: &[Wrong] = of_all!(carries, Told:
    "tells the place of a refused job" => PLACE,
    "tells the refused job of the largest need" => LARGEST_NEED,
);

const READY: &[Wrong] = of_timed!(carries_ready, Told:
    "tells the place of a job that is not ready in range" => PLACE,
    "tells the job of the largest need that is not ready in range" => LARGEST_NEED,
);

const PLACE: Told = |lying, bad| {
    let first = bad.iter().map(|one| one.number).min();
    let place = lying.iter().position(|one| Some(one.number) == first);
    place.map_or(0, |place| place as u32 + 1)
};
const LARGEST_NEED: Told = |_, bad| bad[0].number;

/// Another job carried by 5, 6, 13, 19 or 7.
fn carries(function: Function, call: &mut Call, told: Told) -> u32 {
    let result = MODEL.entry(function)(call);
    let number = result % 256;
    let order = match function {
        Function::Write => Some(listed(call)),
        _ => lists(call.file.content()),
    };
    let Some(order) = order.filter(|_| [5, 6, 13, 19, 7].contains(&number)) else {
        return result;
    };
    let bad = |one: &Held| {
        let alone = Order {
            memories: order.memories.clone(),
            jobs: vec![one.job],
        };
        let refusal = match function.takes_highs() {
            true => judge_estimate(&Estimate {
                lows: alone,
                highs: vec![call.highs.content()[one.number as usize - 1]],
            }),
            false => judge(&alone),
        };
        refusal.is_some_and(|refusal| refusal.number == number)
    };
    number + 256 * of_bad(&order, told, bad)
}

/// Another job carried by 15.
fn carries_ready(function: Function, call: &mut Call, told: Told) -> u32 {
    let result = MODEL.entry(function)(call);
    let Some(order) = lists(call.file.content()).filter(|_| result % 256 == 15) else {
        return result;
    };
    let ready = call.ready.content();
    let bad = |one: &Held| ready[one.number as usize - 1] > MOST_MINUTE;
    15 + 256 * of_bad(&order, told, bad)
}

fn of_bad(order: &Order, told: Told, bad: impl Fn(&Held) -> bool) -> u32 {
    let lying = held(order);
    let bad: Vec<Held> = lying.iter().filter(|one| bad(one)).copied().collect();
    told(&lying, &bad)
}
