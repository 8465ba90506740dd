//! Orders that are not accepted: one damage for each of the refusals 1 to 7 and for 13, and several
//! at once, so that "the lowest applicable number", and 13 "right after 6", have something to choose
//! from.

use super::{makers, Random};
use crate::independent::Order;

/// The refusals of an order, in the order in which they are told.
pub const OF_ORDERS: [u32; 8] = [1, 2, 3, 4, 5, 6, 13, 7];

/// The order with one or more damages, the first of them that of this refusal.
pub fn damaged(random: &mut Random, order: &Order, number: u32) -> Order {
    let mut order = order.clone();
    damage(random, &mut order, number);
    while random.once_in(3) {
        let another = random.pick(&OF_ORDERS);
        damage(random, &mut order, another);
    }
    order
}

fn damage(random: &mut Random, order: &mut Order, number: u32) {
    match number {
        1 => order.memories.clear(),
        2 => lengthen(random, &mut order.memories, 17),
        3 => order.jobs.clear(),
        4 => lengthen(random, &mut order.jobs, 49),
        _ => damage_job(random, order, number),
    }
}

/// Repeats elements until there are one to three too many, where there is one to repeat.
fn lengthen<T: Copy>(random: &mut Random, list: &mut Vec<T>, least: usize) {
    let length = least + random.below(3);
    while !list.is_empty() && list.len() < length {
        list.push(random.pick(list));
    }
}

/// Gives some job this refusal, where there is a job.
pub fn damage_job(random: &mut Random, order: &mut Order, number: u32) {
    if order.jobs.is_empty() {
        return;
    }
    let place = random.below(order.jobs.len());
    let job = &mut order.jobs[place];
    match number {
        5 => job.time = random.pick(&[0, 100_001, 1 << 31, u32::MAX]),
        6 => job.due = random.pick(&[-1_000_001, 1_000_001, i32::MIN, i32::MAX]),
        13 => job.maker = makers::nobody(random),
        _ => {
            let too_much = random.pick(&[1, 2, 1_000, u32::MAX]);
            job.need = too_much;
            for memory in &mut order.memories {
                *memory = (*memory).min(too_much - 1);
            }
        }
    }
}
