//! What is refused to a screen against what is refused to the dock: orders that neither count of which is over
//! the screen's limits are judged alike; of others the counts alone are told, and each caller's by its own
//! numbers.

use super::hold;
use crate::draw::damage::{damaged, OF_ORDERS};
use crate::draw::orders::SCREEN_FAMILIES;
use crate::draw::Random;
use crate::independent::{judge, judge_within, read, read_within, write, Order, Refusal, SCREEN};

const LONGEST_FILE: usize = 844;

/// An order of a family, and the same with something wrong.
pub fn agree(random: &mut Random, seed: u64) -> Result<(), String> {
    let (_, family) = SCREEN_FAMILIES[seed as usize % SCREEN_FAMILIES.len()];
    let order = family(random);
    judged(&order)?;
    let number = random.pick(&OF_ORDERS);
    judged(&damaged(random, &order, number))
}

fn judged(order: &Order) -> Result<(), String> {
    let (at_dock, at_screen) = (judge(order), judge_within(&SCREEN, order));
    let told = match of_counts(order) {
        None => at_dock,
        Some(number) => Some(Refusal { number, job: 0 }),
    };
    hold(
        order,
        "judged for a screen by its counts",
        at_screen == told,
    )?;
    let alike = !SCREEN.hold(order) || at_screen == at_dock;
    hold(order, "judged alike within the limits", alike)?;
    let is = |refusal: Option<Refusal>, numbers: [u32; 2]| {
        refusal.is_some_and(|refusal| numbers.contains(&refusal.number))
    };
    let own = !is(at_screen, [2, 4]) && !is(at_dock, [20, 21]);
    hold(order, "told each caller's own numbers", own)?;
    let file = write(order);
    let refusals = (read(&file).err(), read_within(&SCREEN, &file).err());
    let read = file.len() > LONGEST_FILE || refusals == (at_dock, at_screen);
    hold(order, "read as it is judged", read)
}

/// What a screen tells of the counts, if anything.
fn of_counts(order: &Order) -> Option<u32> {
    match (order.memories.len(), order.jobs.len()) {
        (0, _) => Some(1),
        (5.., _) => Some(21),
        (_, 0) => Some(3),
        (_, 13..) => Some(20),
        _ => None,
    }
}
