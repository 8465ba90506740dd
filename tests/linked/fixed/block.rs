//! Document 02's §11, a register block, with the values that follow from its text for document 01's orders: what a
//! cleared block tells, C and A from the first write on, and what stays until the next command.

use super::{a, c, C_FILE};
use crate::bus::Bus;
use crate::every::states::{cleared, largest, LARGEST_LEAST};
use crate::independent::{least, write, LONGEST_FILE};
use crate::lent::Call;
use crate::library::Function;
use crate::trial::Trial;

/// C's least lateness, -8, little-endian.
const MINUS_8: [u8; 4] = [0xF8, 0xFF, 0xFF, 0xFF];
/// C's one row: job 1 on processor 1 from 0 to 3.
const C_ROW: [u8; 16] = [1, 0, 0, 0, 1, 0, 0, 0, 0, 0, 0, 0, 3, 0, 0, 0];

pub fn run(trial: &mut Trial) {
    just_cleared(trial);
    of_c(trial);
    of_a(trial);
    kept(trial);
    of_largest(trial);
}

/// The bytes that are read from an address on.
pub fn shows(trial: &mut Trial, bus: &Bus, from: u8, bytes: &[u8]) {
    for (address, should) in (from..=255).zip(bytes) {
        let call = Call {
            address,
            ..bus.call.clone()
        };
        let Some((_, after)) = trial.call(Function::BlockRead, call) else {
            return;
        };
        let is = after.answer.content()[0];
        if is != i32::from(*should) {
            trial.differs(format!(
                "byte {address} of a block reads {is}; the document has {should}"
            ));
        }
    }
    bus.read_all(trial);
}

/// A block without a file; each command begins anew.
fn just_cleared(trial: &mut Trial) {
    let mut bus = cleared(trial, 0);
    shows(trial, &bus, 0, &[0; 256]);
    bus.write(trial, 0, 1);
    shows(trial, &bus, 0, &[0, 2, 12, 0]);
    bus.write(trial, 0, 7);
    shows(trial, &bus, 0, &[0, 2, 0, 0]);
    bus.write(trial, 0, 2);
    shows(trial, &bus, 0, &[0, 2, 12, 0]);
    bus.write(trial, 0, 0);
    shows(trial, &bus, 0, &[0, 2, 0, 0]);
    bus.write(trial, 0, 3);
    shows(trial, &bus, 0, &[0; 256]);
}

fn of_c(trial: &mut Trial) {
    let mut bus = cleared(trial, 3);
    bus.put_file(trial, &C_FILE);
    shows(trial, &bus, 32, &C_FILE);
    bus.write(trial, 3, 0xFF);
    bus.write(trial, 0, 2);
    shows(trial, &bus, 0, &[0, 5, 0, 1, 0, 0, 0, 0, 32, 0, 0, 0]);
    shows(trial, &bus, 12, &MINUS_8);
    shows(trial, &bus, 16, &[0; 16]);
    bus.put_row(trial, 1);
    shows(trial, &bus, 16, &C_ROW);
    bus.write(trial, 1, 1);
    shows(trial, &bus, 1, &[4, 0, 1]);
    shows(trial, &bus, 16, &C_ROW);
    bus.put_bound(trial, -9);
    bus.write(trial, 3, 0);
    bus.write(trial, 0, 1);
    shows(trial, &bus, 1, &[6, 10, 0, 0xF7, 0xFF, 0xFF, 0xFF]);
    shows(trial, &bus, 12, &[0; 20]);
    bus.write(trial, 1, 0);
    shows(trial, &bus, 1, &[6, 10]);
    bus.write(trial, 1, 6);
    shows(trial, &bus, 1, &[0, 10]);
    bus.put_bound(trial, -8);
    bus.write(trial, 0, 1);
    shows(trial, &bus, 1, &[1, 0]);
    shows(trial, &bus, 12, &MINUS_8);
    shows(trial, &bus, 16, &C_ROW);
    bus.write(trial, 0, 0);
    shows(trial, &bus, 1, &[2, 0]);
    shows(trial, &bus, 12, &[0; 20]);
    shows(trial, &bus, 32, &C_FILE);
    bus.write(trial, 0, 3);
    shows(trial, &bus, 0, &[0; 256]);
}

/// "memories 8, 4; jobs (3, 3, 8), (3, 3, 4), (2, 4, 2)", whose least lateness is 0.
fn of_a(trial: &mut Trial) {
    let mut bus = cleared(trial, 0);
    let file = write(&a());
    bus.put_file(trial, &file);
    bus.write(trial, 3, 1);
    bus.write(trial, 0, 2);
    shows(trial, &bus, 1, &[5, 0, 1, 0, 0, 0, 0, 68, 0]);
    shows(trial, &bus, 12, &[0; 4]);
    every_row(trial, &mut bus);
    for (bound, command, told) in [
        (-1, 1, [6, 10]),
        (10_000_001, 1, [6, 8]),
        (10_000_001, 2, [5, 0]),
        (-1, 2, [5, 0]),
        (0, 1, [5, 0]),
        (-10_000_001, 1, [6, 8]),
        (10_000_000, 1, [5, 0]),
        (-10_000_000, 1, [6, 10]),
    ] {
        bus.put_bound(trial, bound);
        bus.write(trial, 0, command);
        shows(trial, &bus, 1, &told);
    }
    bus.put_length(trial, 221);
    bus.write(trial, 0, 2);
    shows(trial, &bus, 1, &[6, 12]);
    bus.write(trial, 0, 3);
    shows(trial, &bus, 0, &[0; 256]);
}

/// "rows then stay until the next command", and so does the lateness used, whatever is written elsewhere.
fn kept(trial: &mut Trial) {
    let mut bus = cleared(trial, 0);
    bus.put_file(trial, &C_FILE);
    bus.put_row(trial, 1);
    bus.put_bound(trial, -8);
    bus.write(trial, 0, 1);
    bus.put_bound(trial, 5);
    bus.write(trial, 32, 9);
    bus.put_length(trial, 0);
    bus.write(trial, 3, 1);
    bus.write(trial, 1, 0xF8);
    shows(trial, &bus, 1, &[1, 0, 1, 5, 0, 0, 0, 0, 0, 1, 0]);
    shows(trial, &bus, 12, &MINUS_8);
    shows(trial, &bus, 16, &C_ROW);
    bus.write(trial, 0, 2);
    shows(trial, &bus, 1, &[6, 12, 1]);
    shows(trial, &bus, 12, &[0; 20]);
}

/// A file of 220 bytes; what lies behind a shorter one does not count.
fn of_largest(trial: &mut Trial) {
    let largest = largest();
    if write(&largest).len() != LONGEST_FILE || least(&largest) != LARGEST_LEAST {
        trial.differs("the largest order of a screen is not as it is said to be".to_string());
    }
    let mut bus = cleared(trial, 5);
    bus.put_file(trial, &write(&largest));
    bus.write(trial, 0, 2);
    shows(trial, &bus, 1, &[1, 0, 0, 0, 0, 0, 0, 220, 0]);
    shows(trial, &bus, 12, &[6, 0, 0, 0]);
    every_row(trial, &mut bus);
    bus.put_bound(trial, LARGEST_LEAST - 1);
    bus.write(trial, 0, 1);
    shows(trial, &bus, 1, &[2, 10]);
    bus.put_file(trial, &write(&c()));
    bus.put_bound(trial, 300);
    bus.write(trial, 0, 1);
    shows(trial, &bus, 12, &[44, 1, 0, 0]);
    every_row(trial, &mut bus);
}

/// Row numbers around those held and around the most, and some that look like a row's to whoever counts in 8 bits.
fn every_row(trial: &mut Trial, bus: &mut Bus) {
    let held = bus.block.rows.len() as u16;
    let around = [0, 1, 2, 3, held - 1, held, held + 1, 179, 180, 181, 182];
    let far = [255, 256, 257, 258, 256 + held, 512, 513, 0x8001, u16::MAX];
    for row in around.into_iter().chain(far) {
        bus.put_row(trial, row);
        bus.read_all(trial);
    }
}
