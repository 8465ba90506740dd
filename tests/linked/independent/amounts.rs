//! How many minutes each job gets in each stretch, by a maximum flow, and from it whether a bound
//! is met, a plan, and the least lateness. In a stretch of L minutes amounts can be served exactly
//! if none is above L and, for each i, those of the jobs of classes 1 to i, which no other
//! processors can take, sum to at most L times the processors of classes 1 to i: McNaughton's wrap
//! then serves them.

use super::classes::Classes;
use super::flow::Network;
use super::join::joined;
use super::wrap::stretches;
use super::{Order, Row};

const SOURCE: usize = 0;
const SINK: usize = 1;
const FIRST_JOB: usize = 2;

/// Whether some right plan meets the bound, of an accepted order.
pub fn meets(order: &Order, bound: i64) -> bool {
    amounts(order, bound).is_some()
}

/// A right plan at a bound, laid out by the wrap and joined.
pub fn plan(order: &Order, bound: i32) -> Option<Vec<Row>> {
    let amounts = amounts(order, bound.into())?;
    Some(joined(order, bound.into(), &amounts))
}

/// The least lateness: the smallest whole number that is met.
pub fn least(order: &Order) -> i32 {
    let (mut unmet, mut met) = least_between(order);
    while met - unmet > 1 {
        let middle = unmet + (met - unmet) / 2;
        if meets(order, middle) {
            met = middle;
        } else {
            unmet = middle;
        }
    }
    met as i32
}

/// A bound that is not met and a larger one that is. A job cannot end before it has run for its
/// time; and all jobs, one after the other on a processor of the largest memory, end by the sum of
/// times. A bound moves all ends from where they are at 0.
pub fn least_between(order: &Order) -> (i64, i64) {
    let jobs = || order.jobs.iter();
    let together: i64 = jobs().map(|job| i64::from(job.time)).sum();
    let alone = jobs().map(|job| i64::from(job.time) - job.end(0));
    let earliest = jobs().map(|job| job.end(0)).min();
    let unmet = alone.max().expect("an accepted order has a job") - 1;
    let met = together - earliest.expect("an accepted order has a job");
    (unmet, met)
}

/// Amounts by stretch, then by job, that give each job its whole time; or none if there are none.
pub fn amounts(order: &Order, bound: i64) -> Option<Vec<Vec<i64>>> {
    let classes = Classes::of(order);
    let room = |(from, to)| Room {
        length: to - from,
        jobs: order.jobs.iter().map(|job| to <= job.end(bound)).collect(),
        processors: classes.processors.clone(),
    };
    let stretches = stretches(order, bound).into_iter();
    served(order, &classes, &stretches.map(room).collect::<Vec<Room>>())
}

/// A stretch as the flow has it: its minutes, which jobs may have some of them, and how many
/// processors of each class there are for these.
pub struct Room {
    pub length: i64,
    pub jobs: Vec<bool>,
    pub processors: Vec<i64>,
}

/// Amounts in any stretches, as above.
pub fn served(order: &Order, classes: &Classes, rooms: &[Room]) -> Option<Vec<Vec<i64>>> {
    let class_node = |stretch: usize, class: usize| {
        let first = FIRST_JOB + order.jobs.len();
        first + stretch * classes.count() + class
    };
    let mut network = Network::new(class_node(rooms.len(), 0));
    let mut arcs = vec![vec![None; order.jobs.len()]; rooms.len()];
    for (stretch, room) in rooms.iter().enumerate() {
        let node = |class| class_node(stretch, class);
        add_rooms(&mut network, room, node);
        for (number, job) in order.jobs.iter().enumerate() {
            if room.jobs[number] {
                let arc = network.add(FIRST_JOB + number, node(classes.class(job)), room.length);
                arcs[stretch][number] = Some(arc);
            }
        }
    }
    let mut wanted = 0;
    for (number, job) in order.jobs.iter().enumerate() {
        network.add(SOURCE, FIRST_JOB + number, job.time.into());
        wanted += i64::from(job.time);
    }
    if network.fill(SOURCE, SINK) < wanted {
        return None;
    }
    let amount = |arc: &Option<usize>| arc.map_or(0, |place| network.flow(place));
    let of_stretch = |arcs: &Vec<Option<usize>>| arcs.iter().map(amount).collect();
    Some(arcs.iter().map(of_stretch).collect())
}

/// The rooms of one stretch, a chain: what enters at class i goes on through classes i + 1 and so
/// on to the sink, so the arc that leaves class i carries the amounts of classes 1 to i together.
fn add_rooms(network: &mut Network, room: &Room, node: impl Fn(usize) -> usize) {
    let mut processors = 0;
    for (class, own) in room.processors.iter().enumerate() {
        processors += own;
        let last = class + 1 == room.processors.len();
        let onward = if last { SINK } else { node(class + 1) };
        network.add(node(class), onward, room.length.saturating_mul(processors));
    }
}
