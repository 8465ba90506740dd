//! Orders that are refused and doubtful files before all functions, the other arguments good or not; any lists
//! before the writer.

use super::{book, estimates, times, trial_of, write_lists, write_order};
use crate::draw::bounds::Around;
use crate::draw::damage::{damaged, OF_ORDERS};
use crate::draw::files::{doubtful, file_of};
use crate::draw::lengths::{class_room, reason_length};
use crate::draw::orders::{tiny, SMALL_FAMILIES};
use crate::draw::Random;
use crate::independent::{Order, MOST_ROWS};
use crate::lent::{job_numbers, Call};
use crate::library::{Function, READERS};
use crate::trial::Trial;

/// An order that is not accepted, before all functions, the other arguments good or not.
pub fn any_order(trial: &mut Trial, seed: u64) {
    let (_, family) = SMALL_FAMILIES[seed as usize % SMALL_FAMILIES.len()];
    let order = family(&mut trial.random);
    // each family meets each number, though both counts are even
    let turn = seed as usize + seed as usize / SMALL_FAMILIES.len();
    let number = OF_ORDERS[turn % OF_ORDERS.len()];
    let order = damaged(&mut trial.random, &order, number);
    let file = file_of(&mut trial.random, &order);
    read_all(trial, &file);
    write_order(trial, &order);
}

/// A doubtful file before the functions that read one.
pub fn doubtful_file(trial: &mut Trial, seed: u64) {
    let (_, family) = SMALL_FAMILIES[seed as usize % SMALL_FAMILIES.len()];
    let order = family(&mut trial.random);
    let file = doubtful(&mut trial.random, &order);
    read_all(trial, &file);
}

const NO_ORDER: Order = Order {
    memories: Vec::new(),
    jobs: Vec::new(),
};

/// A file before all functions that read one.
pub fn read_all(trial: &mut Trial, file: &[u8]) {
    for function in READERS {
        trial_of(trial, function, |random, answer| {
            lent_any(random, function, file, answer)
        });
    }
}

/// A file, and other arguments that are good or not.
pub fn lent_any(random: &mut Random, function: Function, file: &[u8], answer: usize) -> Call {
    let bound = Around::any(random).bound(random);
    let call = Call::with_file(random, file, answer).at(bound);
    if function.takes_line() {
        let reason = vec![random.pick(&[0, 1, 2]); reason_length(random)];
        let line = random.pick(&[0, 1, 39, 541, 600]);
        return call
            .with_reason(random, &reason)
            .with_line_room(random, line);
    }
    if function == Function::Classes {
        let room = class_room(random);
        return call.with_class_room(random, room);
    }
    let room = random.pick(&[0, 3, 4, 200, 4 * MOST_ROWS, 4 * MOST_ROWS + 1]);
    let call = call.with_room(random, room);
    if function.books() {
        let book = book(random, &NO_ORDER);
        return call.with_book(random, &book);
    }
    if function.takes_times() {
        return times::with_any_times(random, file, call);
    }
    if function.takes_highs() {
        return estimates::with_any_highs(random, file, call);
    }
    call
}

/// Any lists before the writer: counts up to the limits and beyond, parts of jobs. Counts of 257
/// and of 65,537 look small to whoever counts in 8 or 16 bits.
pub fn any_lists(trial: &mut Trial, seed: u64) {
    let order = tiny(&mut trial.random);
    let random = &mut trial.random;
    let far = if seed % 50 == 0 { 65_537 } else { 257 };
    let memories = repeated(random, &order.memories, 19, far);
    let mut jobs = repeated(random, &order.jobs, 52, far);
    if random.once_in(4) {
        let number = [5, 6, 13, 7][seed as usize % 4];
        jobs.extend(damaged(random, &order, number).jobs);
    }
    let mut numbers = job_numbers(&jobs);
    if random.once_in(4) {
        numbers.truncate(numbers.len().saturating_sub(1 + random.below(3)));
    }
    let length = 12 + 4 * memories.len() + 4 * numbers.len();
    write_lists(trial, &memories, &numbers, length);
}

/// Elements of a list, up to so many or far too many.
fn repeated<T: Copy>(random: &mut Random, list: &[T], most: usize, far: usize) -> Vec<T> {
    let count = random.below(most + 1);
    let count = if random.once_in(12) { far } else { count };
    (0..count).map(|_| random.pick(list)).collect()
}
