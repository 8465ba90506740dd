//! What the commands of a block come to: each refusal that there can be, which comes first, and the flags with each
//! of them, where the interrupt is allowed and where it is not.

use super::block::shows;
use super::{c, made, order, C_FILE};
use crate::bus::Bus;
use crate::draw::files::jobs_first;
use crate::every::states::{cleared, largest};
use crate::independent::{write, Order, LONGEST_FILE};
use crate::trial::Trial;

pub fn run(trial: &mut Trial) {
    refusals(trial);
    bounds(trial);
    lengths(trial);
    accepted(trial);
    interrupts(trial);
    unknown(trial);
}

/// A job's time, due time, need and maker, all of them refused.
const BAD: (u32, i32, u32, u32) = (0, 1_000_001, 9, 0);
const GOOD: (u32, i32, u32, u32) = (3, 10, 4, 1);

/// Orders, and what both commands tell of them.
fn refused_orders() -> Vec<(Order, u8)> {
    let of = |processors: usize, jobs: &[(u32, i32, u32, u32)]| made(&vec![4; processors], jobs);
    vec![
        (of(0, &[]), 1),
        (of(0, &[BAD]), 1),
        (of(0, &[GOOD; 13]), 1),
        (of(5, &[GOOD]), 21),
        (of(5, &[]), 21),
        (of(5, &[BAD]), 21),
        (of(8, &[GOOD; 11]), 21),
        (of(16, &[GOOD; 9]), 21),
        (of(17, &[GOOD]), 21),
        (of(52, &[]), 21),
        (of(4, &[]), 3),
        (of(1, &[]), 3),
        (of(4, &[BAD; 12]), 5),
        (of(1, &[(100_001, 10, 4, 1)]), 5),
        (of(1, &[GOOD, (3, -1_000_001, 9, 0)]), 6),
        (of(1, &[(3, 10, 9, 17), GOOD]), 13),
        (of(1, &[(3, 10, 9, 0)]), 13),
        (of(4, &[(3, 10, 5, 16); 12]), 7),
        (of(1, &[GOOD, GOOD, (3, 10, 5, 1)]), 7),
    ]
}

fn refusals(trial: &mut Trial) {
    for (order, number) in refused_orders() {
        for file in [write(&order), jobs_first(&order)] {
            let mut bus = cleared(trial, 0);
            bus.put_file(trial, &file);
            told(trial, &mut bus, 1, &[2, number]);
            told(trial, &mut bus, 2, &[2, number]);
            // a bound out of range comes after all of an order
            bus.put_bound(trial, 10_000_001);
            told(trial, &mut bus, 1, &[2, number]);
        }
    }
}

/// A command, and what bytes 1 and 2 read then.
fn told(trial: &mut Trial, bus: &mut Bus, command: u8, flags: &[u8]) {
    bus.write(trial, 0, command);
    shows(trial, bus, 1, flags);
}

/// 8 comes before 10, and command 2 looks at no bound. Each byte of the bound counts.
fn bounds(trial: &mut Trial) {
    let mut bus = cleared(trial, 0);
    bus.put_file(trial, &C_FILE);
    let cases = [
        (i32::MIN, [2, 8]),
        (-10_000_001, [2, 8]),
        (-10_000_000, [2, 10]),
        (-9, [2, 10]),
        (-8, [1, 0]),
        (0, [1, 0]),
        (10_000_000, [1, 0]),
        (10_000_001, [2, 8]),
        (i32::MAX, [2, 8]),
        // -8 with its bytes turned round, and with one of them or three off
        (-8_i32.swap_bytes(), [2, 8]),
        (0x00FF_FFF8, [2, 8]),
        (0x0000_00F8, [1, 0]),
        (0x0000_FFF8, [1, 0]),
    ];
    for (bound, flags) in cases {
        bus.put_bound(trial, bound);
        told(trial, &mut bus, 1, &flags);
        told(trial, &mut bus, 2, &[1, 0]);
        shows(trial, &bus, 12, &[0xF8, 0xFF, 0xFF, 0xFF]);
    }
}

/// "A file length over 220 gives 12", and so does one that the lists and the trailer disagree with.
fn lengths(trial: &mut Trial) {
    for (file, exact) in [(C_FILE.to_vec(), 32), (write(&largest()), 220)] {
        let mut bus = cleared(trial, 0);
        bus.put_file(trial, &file);
        bus.put_bound(trial, 10_000_001);
        let others = [0, 11, 12, 31, 33, 36, 48, 219, 220, 221, 222, 224, 225];
        let far = [256, 255, 844, 845, 0x8000, u16::MAX];
        let alike = [exact, exact + 256, 256 * exact, exact + 0x8000];
        for length in others.into_iter().chain(far).chain(alike) {
            bus.put_length(trial, length);
            let flags = if length == exact { [1, 0] } else { [2, 12] };
            told(trial, &mut bus, 2, &flags);
            let flags = if length == exact { [2, 8] } else { [2, 12] };
            told(trial, &mut bus, 1, &flags);
        }
    }
    behind(trial);
}

/// In memory that was never cleared bytes 252 to 255 may end a longer file: the length alone tells 12. They end a
/// file of 13 jobs, and one of 5 processors, each 224 bytes long.
fn behind(trial: &mut Trial) {
    for order in [made(&[4], &[GOOD; 13]), made(&[4; 5], &[GOOD; 12])] {
        let file = write(&order);
        let mut call = cleared(trial, 0).call;
        call.block.content_mut()[32..].copy_from_slice(&file);
        call.block.content_mut()[8] = file.len() as u8;
        let mut bus = Bus::of(call);
        told(trial, &mut bus, 1, &[2, 12]);
        told(trial, &mut bus, 2, &[2, 12]);
        bus.put_length(trial, LONGEST_FILE as u16);
        told(trial, &mut bus, 2, &[2, 12]);
    }
}

/// Files in either order of lists, with other bytes behind them; jobs of 12 bytes are none.
fn accepted(trial: &mut Trial) {
    let several = order(&[8, 4, 2], &[(3, 9, 8), (5, 2, 4), (4, 4, 0), (1, 0, 2)]);
    for order in [c(), several, largest()] {
        for file in [write(&order), jobs_first(&order)] {
            let mut bus = cleared(trial, 0);
            bus.put(trial, 32, &[0xEE; LONGEST_FILE]);
            bus.put_file(trial, &file);
            bus.put_row(trial, 1);
            bus.put_bound(trial, 70);
            told(trial, &mut bus, 2, &[1, 0]);
            told(trial, &mut bus, 1, &[1, 0]);
            shows(trial, &bus, 12, &[70, 0, 0, 0]);
        }
    }
    let mut bus = cleared(trial, 0);
    let without_maker = [&C_FILE[..16], &C_FILE[20..]].concat();
    bus.put_file(trial, &without_maker);
    told(trial, &mut bus, 2, &[2, 12]);
}

/// "Finished or refused, a command but 3 sets its flag, and bit 2 if allowed." Bit 2 from before stays.
fn interrupts(trial: &mut Trial) {
    let cases = [
        (2, -8, 1, 0),
        (1, -8, 1, 0),
        (1, -9, 2, 10),
        (1, 10_000_001, 2, 8),
        (0, -8, 2, 0),
        (4, -8, 2, 0),
        (255, -8, 2, 0),
        (3, -8, 0, 0),
    ];
    for (allowed, before) in [(0, false), (0, true), (1, false), (1, true)] {
        for (command, bound, flag, number) in cases {
            let mut bus = cleared(trial, 0);
            bus.put_file(trial, &C_FILE);
            bus.put_bound(trial, bound);
            bus.write(trial, 3, 1);
            bus.write(trial, 0, 2);
            bus.write(trial, 1, if before { 3 } else { 7 });
            bus.write(trial, 3, allowed);
            let interrupt = if before || allowed == 1 { 4 } else { 0 };
            let flags = if command == 3 { 0 } else { flag + interrupt };
            let leave = if command == 3 { 0 } else { allowed };
            told(trial, &mut bus, command, &[flags, number, leave]);
            // what is over raises nothing by a leave, and a leave withdrawn drops nothing
            bus.write(trial, 3, 1 - leave);
            shows(trial, &bus, 1, &[flags, number, 1 - leave]);
        }
    }
}

/// Every other command drops rows and lateness: "others set refused with number 0".
fn unknown(trial: &mut Trial) {
    let mut planned = cleared(trial, 0);
    planned.put_file(trial, &C_FILE);
    planned.put_row(trial, 1);
    planned.write(trial, 0, 2);
    let mut tight = planned.clone();
    tight.put_bound(trial, -9);
    tight.write(trial, 0, 1);
    for command in [0, 4, 5, 7, 8, 16, 127, 128, 129, 130, 131, 254, 255] {
        for before in [&planned, &tight] {
            let mut bus = before.clone();
            told(trial, &mut bus, command, &[2, 0]);
            shows(trial, &bus, 12, &[0; 20]);
        }
    }
}
