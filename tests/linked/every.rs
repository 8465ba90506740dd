//! Every address with every value written to a block, from eight states and from memory that was never cleared; all
//! 256 bytes are read after each write. And every command, with others after it.

pub mod states;

use crate::bus::Bus;
use crate::trial::Trial;
use states::STATES;

/// Commands that follow any other.
const NEXT: [u8; 4] = [1, 2, 0, 3];

/// Writes these values to each address, and these commands with others after them.
pub fn run(trial: &mut Trial, values: &[u8]) {
    for (number, state) in (0..).zip(STATES) {
        trial.begin("every write", number);
        let bus = state.reached(trial, number as usize % 2 * 9);
        every_write(trial, &bus, values);
    }
    trial.begin("every write, never cleared", 0);
    let bus = states::uncleared(trial);
    every_write(trial, &bus, values);
}

fn every_write(trial: &mut Trial, bus: &Bus, values: &[u8]) {
    bus.read_all(trial);
    for address in 0..=255 {
        every_value(trial, bus, address, values);
    }
    for command in values {
        followed(trial, bus, *command);
    }
}

fn every_value(trial: &mut Trial, bus: &Bus, address: u8, values: &[u8]) {
    for value in values {
        if trial.difference.is_none() {
            let mut bus = bus.clone();
            bus.write(trial, address, *value);
            bus.read_all(trial);
        }
    }
}

fn followed(trial: &mut Trial, bus: &Bus, command: u8) {
    for next in NEXT {
        if trial.difference.is_none() {
            let mut bus = bus.clone();
            bus.write(trial, 0, command);
            bus.write(trial, 0, next);
            bus.read_all(trial);
        }
    }
}
