//! Wrong in which order is met: "the first met when job 1, then job 2 and so on, goes minute by minute from
//! low to high. A number outside the two yields no order." Long paths are left to the unbroken library.

use super::{estimate, Wrong};
use crate::independent::{least, walk, write, Estimate, Job, Order};
use crate::lent::Call;
use crate::library::Function;
use crate::model::MODEL;
use std::cmp::Reverse;

pub const PARTS: &[&[Wrong]] = &[PATHS, TOLD, NUMBERS, REFUSES];

/// The most minutes of a short path.
const SHORT: u64 = 60;

/// An order on the path with its least lateness.
type Met = (Order, i32);

/// Another path.
const PATHS: &[Wrong] = of_one!(BetweenOrder, along:
    "goes from the last job to the first" => |estimate| in_turn(estimate, |place, _| Reverse(place)),
    "goes by falling need" => |estimate| in_turn(estimate, |_, job| Reverse(job.need)),
    "goes by due time" => |estimate| in_turn(estimate, |_, job| job.due),
    "goes by two minutes" => |estimate| by_minutes(estimate, 2),
    "goes from low to high at once" => |estimate| by_minutes(estimate, u32::MAX),
    "goes a minute of each job in turn" => |estimate| spread(estimate, 1),
    "goes with all jobs at once" => |estimate| spread(estimate, usize::MAX),
    "goes with one job alone, the others low" => apart,
    "goes from the highs down" => |estimate| {
        let mut path = orders(estimate);
        path.reverse();
        path
    },
    "begins a minute after the lows" => |estimate| orders(estimate)[1..].to_vec(),
    "ends a minute before the highs" => |estimate| {
        let mut path = orders(estimate);
        path.pop();
        path
    },
    "leaves the first job low" => |estimate| without(estimate, 0),
    "leaves the last job low" => |estimate| without(estimate, estimate.highs.len() - 1),
);

/// Another order of the path.
const TOLD: &[Wrong] = of_one!(BetweenOrder, telling:
    "tells the last order met" => |walk, number| walk.iter().rposition(|(_, least)| *least == number),
    "tells the order before the first met" => |walk, number| {
        first(walk, number).map(|place| place.saturating_sub(1))
    },
    "tells the order after the first met" => |walk, number| {
        first(walk, number).map(|place| (place + 1).min(walk.len() - 1))
    },
    "tells the highs for the largest number" => |walk, number| match walk.last() {
        Some((_, least)) if *least == number => Some(walk.len() - 1),
        _ => first(walk, number),
    },
    "tells the lows for a number below theirs" => |walk, number| first(walk, number.max(walk[0].1)),
    "tells an order for a number above the highs'" => |walk, number| {
        first(walk, number.min(walk[walk.len() - 1].1))
    },
    "tells the nearest end for a number outside" => |walk, number| {
        let (at_lows, at_highs) = (walk[0].1, walk[walk.len() - 1].1);
        match number {
            _ if number < at_lows => Some(0),
            _ if number > at_highs => Some(walk.len() - 1),
            _ => first(walk, number),
        }
    },
    "does not tell the lows" => |walk, number| first(walk, number).filter(|place| *place > 0),
    "does not tell the highs" => |walk, number| {
        first(walk, number).filter(|place| *place + 1 < walk.len())
    },
);

/// Another number asked for.
const NUMBERS: &[Wrong] = of_one!(BetweenOrder, asking:
    "takes the number for one of ends without the due minute" => |number| number.wrapping_sub(1),
    "takes the due minute twice" => |number| number.wrapping_add(1),
    "reads the number in 8 bits" => |number| i32::from(number as i8),
    "reads the number in 16 bits" => |number| i32::from(number as i16),
    "takes the number without its sign" => |number| number.wrapping_abs(),
    "takes no number below 0" => |number| if number < 0 { i32::MIN } else { number },
);

/// A refusal, from the number and from whether an order is met.
const REFUSES: &[Wrong] = of_one!(BetweenOrder, refusing:
    "refuses a number outside" => |_, met| (!met).then_some(10),
    "refuses a number that is no bound" => |number, _| {
        let bound = (-10_000_000..=10_000_000).contains(&number);
        (!bound).then_some(8)
    },
);

/// The orders of the path.
fn orders(estimate: &Estimate) -> Vec<Order> {
    (0..=estimate.minutes())
        .map(|minutes| estimate.after(minutes))
        .collect()
}

/// The path on which the jobs go in this order, ties by number.
fn in_turn<K: Ord>(estimate: &Estimate, key: fn(usize, &Job) -> K) -> Vec<Order> {
    let mut places: Vec<usize> = (0..estimate.highs.len()).collect();
    places.sort_by_key(|place| key(*place, &estimate.lows.jobs[*place]));
    let mut order = estimate.lows.clone();
    let mut path = vec![order.clone()];
    for place in places {
        while order.jobs[place].time < estimate.highs[place] {
            order.jobs[place].time += 1;
            path.push(order.clone());
        }
    }
    path
}

/// The path on which each job goes by so many minutes, or by as many as are left.
fn by_minutes(estimate: &Estimate, minutes: u32) -> Vec<Order> {
    let mut order = estimate.lows.clone();
    let mut path = vec![order.clone()];
    for (place, high) in estimate.highs.iter().enumerate() {
        while order.jobs[place].time < *high {
            let job = &mut order.jobs[place];
            job.time = job.time.saturating_add(minutes).min(*high);
            path.push(order.clone());
        }
    }
    path
}

/// The path on which so many jobs at a time go a minute, over and over.
fn spread(estimate: &Estimate, at_once: usize) -> Vec<Order> {
    let mut order = estimate.lows.clone();
    let mut path = vec![order.clone()];
    for _ in 0..estimate.minutes() {
        let both = order.jobs.clone();
        let both = both.iter().zip(&estimate.highs).enumerate();
        let going = both.filter(|(_, (job, high))| job.time < **high);
        let going: Vec<usize> = going.map(|(place, _)| place).collect();
        for places in going.chunks(at_once) {
            places.iter().for_each(|place| order.jobs[*place].time += 1);
            path.push(order.clone());
        }
    }
    path
}

/// The path on which each job goes from low to high while the others are low.
fn apart(estimate: &Estimate) -> Vec<Order> {
    let lows = &estimate.lows;
    let mut path = vec![lows.clone()];
    for (place, high) in estimate.highs.iter().enumerate() {
        for time in lows.jobs[place].time + 1..=*high {
            let mut order = lows.clone();
            order.jobs[place].time = time;
            path.push(order);
        }
    }
    path
}

/// The path on which one job does not go.
fn without(estimate: &Estimate, place: usize) -> Vec<Order> {
    let mut estimate = estimate.clone();
    estimate.highs[place] = estimate.lows.jobs[place].time;
    orders(&estimate)
}

/// The place of the first order on the path with this least lateness.
fn first(walk: &[Met], number: i32) -> Option<usize> {
    walk.iter().position(|(_, least)| *least == number)
}

/// An accepted estimate whose path is short.
fn short(call: &Call) -> Option<Estimate> {
    let estimate = estimate(Function::BetweenOrder, call);
    estimate.filter(|estimate| estimate.minutes() <= SHORT)
}

/// The call on another path.
fn along(call: &mut Call, path: fn(&Estimate) -> Vec<Order>) -> u32 {
    let Some(estimate) = short(call) else {
        return (MODEL.between_order)(call);
    };
    let mut path = path(&estimate).into_iter();
    let met = path.find(|order| least(order) == call.number);
    leave(call, met)
}

/// The call with another order of the path.
fn telling(call: &mut Call, place: fn(&[Met], i32) -> Option<usize>) -> u32 {
    let Some(estimate) = short(call) else {
        return (MODEL.between_order)(call);
    };
    let walk = walk(&estimate);
    let met = place(&walk, call.number).map(|place| walk[place].0.clone());
    leave(call, met)
}

/// The call with another number.
fn asking(call: &mut Call, other: fn(i32) -> i32) -> u32 {
    let number = call.number;
    call.number = other(number);
    let result = (MODEL.between_order)(call);
    call.number = number;
    result
}

/// A refusal in place of success.
fn refusing(call: &mut Call, refusal: fn(i32, bool) -> Option<u32>) -> u32 {
    let mut left = call.clone();
    let result = (MODEL.between_order)(&mut left);
    let told = match result {
        0 => refusal(call.number, left.answer.content()[0] > 0),
        _ => None,
    };
    told.unwrap_or_else(|| {
        *call = left;
        result
    })
}

/// What is left where this order is met.
fn leave(call: &mut Call, met: Option<Order>) -> u32 {
    let bytes = met.map_or(Vec::new(), |order| write(&order));
    if call.order.len() < bytes.len() {
        return 9;
    }
    call.order.put(&bytes);
    call.answer.put(&[bytes.len() as i32]);
    0
}
