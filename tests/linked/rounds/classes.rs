//! The classes of orders with few distinct memories and with many, in lists of drawn lengths; the least
//! lateness and the reasons that these classes lead to; and the classes of files that are damaged.

use super::trial_of;
use crate::draw::bounds::Around;
use crate::draw::damage::{damaged, OF_ORDERS};
use crate::draw::files::{doubtful, file_of};
use crate::draw::lengths::{class_room, room};
use crate::draw::orders::many_memories;
use crate::independent::rows_asked;
use crate::lent::Call;
use crate::library::Function;
use crate::trial::Trial;

pub fn any_memories(trial: &mut Trial, seed: u64) {
    let order = many_memories(&mut trial.random);
    let file = file_of(&mut trial.random, &order);
    for _ in 0..3 {
        list(trial, &file);
    }
    let around = Around::of(&order, trial.least(&file));
    trial_of(trial, Function::Least, |random, answer| {
        let room = room(random, rows_asked(&order));
        Call::with_file(random, &file, answer).with_room(random, room)
    });
    trial_of(trial, Function::Reason, |random, answer| {
        let bound = around.tight(random);
        Call::with_file(random, &file, answer).at(bound)
    });
    let bad = match seed % 2 {
        0 => doubtful(&mut trial.random, &order),
        _ => {
            let number = trial.random.pick(&OF_ORDERS);
            let order = damaged(&mut trial.random, &order, number);
            file_of(&mut trial.random, &order)
        }
    };
    list(trial, &bad);
}

/// The classes of a file.
pub fn list(trial: &mut Trial, file: &[u8]) {
    trial_of(trial, Function::Classes, |random, answer| {
        let room = class_room(random);
        Call::with_file(random, file, answer).with_class_room(random, room)
    });
}
