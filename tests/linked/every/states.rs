//! Eight states of a block, each reached from a cleared one by accesses: flags with and without leave to interrupt,
//! rows held or none, the largest order that a screen holds. And a block in memory that was never cleared.

use crate::bus::Bus;
use crate::draw::block::with_order;
use crate::fixed::{a, b, c, d, order};
use crate::independent::{write, Order};
use crate::lent::Call;
use crate::library::{BLOCK_BYTES, BLOCK_ROWS};
use crate::trial::Trial;

/// What bytes 1 and 3 read in a state, whether rows are held, and how it is reached.
pub struct State {
    flags: u8,
    allowed: u8,
    holds: bool,
    by: fn(&mut Trial, &mut Bus),
}

pub const STATES: [State; 8] = [
    State {
        flags: 0,
        allowed: 0,
        holds: false,
        by: |_, _| {},
    },
    State {
        flags: 1,
        allowed: 0,
        holds: true,
        by: |trial, bus| {
            bus.put_file(trial, &write(&c()));
            bus.write(trial, 0, 2);
            bus.put_row(trial, 1);
        },
    },
    State {
        flags: 5,
        allowed: 1,
        holds: true,
        by: |trial, bus| {
            bus.write(trial, 3, 1);
            bus.put_file(trial, &write(&a()));
            bus.write(trial, 0, 2);
            bus.put_row(trial, 2);
        },
    },
    State {
        flags: 2,
        allowed: 0,
        holds: false,
        by: |trial, bus| {
            bus.put_file(trial, &write(&order(&[4; 5], &[(3, 10, 4)])));
            bus.write(trial, 0, 2);
            bus.put_row(trial, 1);
        },
    },
    State {
        flags: 6,
        allowed: 1,
        holds: false,
        by: |trial, bus| {
            bus.write(trial, 3, 1);
            bus.put_file(trial, &write(&a()));
            bus.put_bound(trial, -1);
            bus.write(trial, 0, 1);
        },
    },
    State {
        flags: 4,
        allowed: 1,
        holds: true,
        by: |trial, bus| {
            bus.write(trial, 3, 1);
            bus.put_file(trial, &write(&b()));
            bus.put_bound(trial, 7);
            bus.write(trial, 0, 1);
            bus.write(trial, 1, 1);
            bus.put_row(trial, 3);
        },
    },
    State {
        flags: 0,
        allowed: 1,
        holds: true,
        by: |trial, bus| {
            bus.put_file(trial, &write(&d()));
            bus.write(trial, 0, 2);
            bus.write(trial, 1, 7);
            bus.write(trial, 3, 1);
            bus.put_bound(trial, 10_000_001);
            bus.put_row(trial, 2);
        },
    },
    State {
        flags: 5,
        allowed: 0,
        holds: true,
        by: |trial, bus| {
            bus.write(trial, 3, 1);
            bus.put_file(trial, &write(&largest()));
            bus.put_bound(trial, LARGEST_LEAST);
            bus.write(trial, 0, 1);
            bus.write(trial, 3, 0);
            let last = bus.block.rows.len() as u16;
            bus.put_row(trial, last);
        },
    },
];

/// The least lateness of the largest order below.
pub const LARGEST_LEAST: i32 = 6;

/// 4 processors and 12 jobs with 12 due times: a file of 220 bytes, 180 rows asked for.
pub fn largest() -> Order {
    let needs = [8, 4, 2, 1];
    let jobs = (0..12).map(|due| (5, due as i32, needs[due % 4]));
    order(&needs, &jobs.collect::<Vec<_>>())
}

/// A block in memory that held anything before it was cleared, in buffers that are so much longer than they must be.
pub fn cleared(trial: &mut Trial, longer: usize) -> Bus {
    cleared_in(trial, BLOCK_BYTES + longer, BLOCK_ROWS + longer)
}

/// The same in so many bytes and numbers.
pub fn cleared_in(trial: &mut Trial, bytes: usize, numbers: usize) -> Bus {
    let random = &mut trial.random;
    let bytes: Vec<u8> = (0..bytes).map(|_| random.number() as u8).collect();
    let numbers: Vec<u32> = (0..numbers).map(|_| random.number() as u32).collect();
    let mut bus = Bus::of(Call::with_block(random, &bytes, &numbers, 1));
    bus.clear(trial);
    bus
}

/// A block in memory that was never cleared, with all bits of bytes 1 to 3 set, an order and rows of anything.
pub fn uncleared(trial: &mut Trial) -> Bus {
    let random = &mut trial.random;
    let mut bytes: Vec<u8> = (0..BLOCK_BYTES).map(|_| random.number() as u8).collect();
    bytes[1..4].fill(0xFF);
    let numbers: Vec<u32> = (0..BLOCK_ROWS).map(|_| random.number() as u32).collect();
    let call = Call::with_block(random, &bytes, &numbers, 1);
    Bus::of(with_order(random, call, &write(&d()), -3))
}

impl State {
    /// The state; it is a difference where it is another one than it is said to be.
    pub fn reached(&self, trial: &mut Trial, longer: usize) -> Bus {
        let mut bus = cleared(trial, longer);
        (self.by)(trial, &mut bus);
        let holds = !bus.block.rows.is_empty();
        let is = (bus.block.read(1), bus.block.read(3), holds);
        let should = (self.flags, self.allowed, self.holds);
        if is != should {
            trial.differs(format!("a state of a block is {is:?}, not {should:?}"));
        }
        bus
    }
}
