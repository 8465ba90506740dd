//! One block through many accesses: files, bounds, lengths, commands, flags, row numbers, from a clear on or in
//! memory with anything in it; sometimes a call that is lent too little.

use crate::bus::Bus;
use crate::draw::block::{file, length, memory, row, with_order};
use crate::draw::bounds::Around;
use crate::draw::lengths::answer_length;
use crate::independent::{read_within, LONGEST_FILE, SCREEN};
use crate::lent::Call;
use crate::library::{Function, BLOCK_BYTES, BLOCK_ROWS, OF_BLOCK};
use crate::trial::Trial;

/// A file, and the bounds around the least lateness of its order.
struct Subject {
    file: Vec<u8>,
    around: Around,
}

/// A round: from a clear of either kind, or in memory that was never cleared.
pub fn any_accesses(trial: &mut Trial, seed: u64) {
    let subjects: Vec<Subject> = (0..1 + seed % 3).map(|_| subject(trial)).collect();
    let mut call = memory(&mut trial.random);
    if seed % 4 == 3 {
        let Subject { file, around } = &subjects[0];
        let bound = around.bound(&mut trial.random);
        call = with_order(&mut trial.random, call, file, bound);
    }
    let mut bus = Bus::of(call);
    match seed % 4 {
        0 => bus.clear(trial),
        1 => bus.write(trial, 0, 3),
        _ => {}
    }
    bus.read_all(trial);
    if seed % 4 != 3 {
        put_order(trial, &mut bus, &subjects[0]);
    }
    for _ in 0..12 + trial.random.below(20) {
        if trial.difference.is_some() {
            return;
        }
        let subject = &subjects[trial.random.below(subjects.len())];
        access(trial, &mut bus, subject);
        bus.read_all(trial);
    }
}

/// A file with its length, and a bound.
fn put_order(trial: &mut Trial, bus: &mut Bus, subject: &Subject) {
    let bound = subject.around.bound(&mut trial.random);
    bus.put_file(trial, &subject.file);
    bus.put_bound(trial, bound);
}

fn subject(trial: &mut Trial) -> Subject {
    let file = file(&mut trial.random);
    let around = match read_within(&SCREEN, &file) {
        Ok(order) => Around::of(&order, trial.least(&file)),
        Err(_) => Around::any(&mut trial.random),
    };
    Subject { file, around }
}

fn access(trial: &mut Trial, bus: &mut Bus, subject: &Subject) {
    let random = &mut trial.random;
    match random.below(28) {
        0..=3 => put_order(trial, bus, subject),
        4..=7 => {
            let bound = subject.around.bound(random);
            bus.put_bound(trial, bound);
        }
        8..=14 => {
            let command = random.pick(&[1, 1, 2]);
            bus.write(trial, 0, command);
        }
        15 => {
            let command = random.number() as u8;
            bus.write(trial, 0, command);
        }
        16..=17 => {
            let flags = random.pick(&[0, 1, 2, 3, 4, 5, 6, 7, 0xF8, 0xFF]);
            bus.write(trial, 1, flags);
        }
        18..=19 => {
            let allowed = random.pick(&[0, 1, 1, 2, 0xFE, 0xFF]);
            bus.write(trial, 3, allowed);
        }
        20..=23 => {
            let row = row(random, bus.block.rows.len());
            bus.put_row(trial, row);
        }
        24 => {
            let length = length(random, subject.file.len());
            bus.put_length(trial, length);
        }
        25 => spoil(trial, bus, subject),
        26 if random.once_in(2) => bus.clear(trial),
        26 if random.once_in(2) => bus.write(trial, 0, 3),
        _ => alone(trial, bus),
    }
}

/// A bit of the file is another one, or any byte of the block.
fn spoil(trial: &mut Trial, bus: &mut Bus, subject: &Subject) {
    let random = &mut trial.random;
    let (address, value) = match random.once_in(2) {
        true => (random.number() as u8, random.number() as u8),
        false => {
            let place = random.below(subject.file.len().clamp(1, LONGEST_FILE));
            let value = bus.block.file[place] ^ 1 << random.below(8);
            (32 + place as u8, value)
        }
    };
    bus.write(trial, address, value);
}

/// A call beside the others, with drawn lengths; the block goes on as it was.
fn alone(trial: &mut Trial, bus: &Bus) {
    let random = &mut trial.random;
    let function = random.pick(&OF_BLOCK);
    let answer = answer_length(random, Function::BlockRead);
    let call = Call::with_block(
        random,
        bus.call.block.content(),
        bus.call.rows.content(),
        answer,
    );
    let bytes = random.pick(&[0, 1, 32, 255, BLOCK_BYTES, BLOCK_BYTES, call.block.len()]);
    let numbers = random.pick(&[0, 4, 719, BLOCK_ROWS, BLOCK_ROWS, call.rows.len()]);
    let call = Call {
        block: call.block.cut(bytes),
        rows: call.rows.cut(numbers),
        address: random.number() as u8,
        value: random.number() as u8,
        ..call
    };
    trial.call(function, call);
}
