//! The lengths that a block is lent with: 253 under 256 bytes or 720 numbers, 255 first where a read has no room for
//! its answer, and then nothing is touched; longer buffers are as good and do not change beyond.

use super::C_FILE;
use crate::bus::Bus;
use crate::every::states::cleared_in;
use crate::lent::Call;
use crate::library::{Function, BLOCK_BYTES, BLOCK_ROWS, OF_BLOCK};
use crate::trial::Trial;

pub fn run(trial: &mut Trial) {
    short(trial);
    longer(trial);
}

/// C's block with its row shown.
fn planned(trial: &mut Trial, bytes: usize, numbers: usize) -> Bus {
    let mut bus = cleared_in(trial, bytes, numbers);
    bus.put_file(trial, &C_FILE);
    bus.write(trial, 3, 1);
    bus.write(trial, 0, 2);
    bus.put_row(trial, 1);
    bus
}

/// Accesses that would each change or read something.
const ACCESSES: [(u8, u8); 8] = [
    (0, 1),
    (0, 3),
    (0, 0),
    (1, 5),
    (3, 0),
    (16, 1),
    (32, 9),
    (251, 9),
];

/// Lengths of bytes, of numbers and of the answer, and what is told of them: to all but a read, and to a read.
fn short(trial: &mut Trial) {
    let (bytes, numbers) = (BLOCK_BYTES, BLOCK_ROWS);
    let lengths = [
        (bytes - 1, numbers, 1, [253, 253]),
        (bytes, numbers - 1, 1, [253, 253]),
        (bytes - 1, numbers - 1, 1, [253, 253]),
        (0, numbers, 1, [253, 253]),
        (bytes, 0, 1, [253, 253]),
        (0, 0, 1, [253, 253]),
        (bytes, numbers - 4, 1, [253, 253]),
        (252, numbers, 1, [253, 253]),
        (numbers, bytes, 1, [253, 253]),
        (bytes, numbers, 0, [0, 255]),
        (bytes - 1, numbers, 0, [253, 255]),
        (bytes, numbers - 1, 0, [253, 255]),
        (0, 0, 0, [253, 255]),
        (bytes, numbers, 1, [0, 0]),
    ];
    let bus = planned(trial, 2 * numbers, 2 * numbers);
    for (bytes, numbers, answer, [others, read]) in lengths {
        for function in OF_BLOCK {
            let result = match function {
                Function::BlockRead => read,
                _ => others,
            };
            for (address, value) in ACCESSES {
                let call = bus.call.clone();
                let call = Call {
                    block: call.block.cut(bytes),
                    rows: call.rows.cut(numbers),
                    answer: call.answer.cut(answer),
                    address,
                    value,
                    ..call
                };
                super::case(trial, function, call, result, &[]);
            }
        }
    }
}

/// Either buffer is longer by one, by a row, by much, or by what looks like none or too little in 16 bits.
fn longer(trial: &mut Trial) {
    for (bytes, numbers) in [
        (BLOCK_BYTES + 1, BLOCK_ROWS),
        (BLOCK_BYTES, BLOCK_ROWS + 1),
        (BLOCK_BYTES + 4, BLOCK_ROWS + 4),
        (2 * BLOCK_BYTES, 2 * BLOCK_ROWS),
        (65_536, BLOCK_ROWS),
        (BLOCK_BYTES, 65_536),
        (65_536 + BLOCK_BYTES, 65_536 + BLOCK_ROWS),
    ] {
        let mut bus = planned(trial, bytes, numbers);
        bus.read_all(trial);
        for (address, value) in ACCESSES {
            bus.write(trial, address, value);
        }
        bus.read_all(trial);
        bus.clear(trial);
        bus.read_all(trial);
    }
    longer_answer(trial);
}

/// "the byte": the first number of an answer of any length, and no other.
fn longer_answer(trial: &mut Trial) {
    let bus = planned(trial, BLOCK_BYTES, BLOCK_ROWS);
    let content = (bus.call.block.content(), bus.call.rows.content());
    for length in [1, 2, 5, 256] {
        let call = Call::with_block(&mut trial.random, content.0, content.1, length);
        for (address, byte) in [(1, 5), (12, 0xF8), (16, 1), (28, 3), (32, 4), (255, 0)] {
            let call = Call {
                address,
                ..call.clone()
            };
            super::case(trial, Function::BlockRead, call, 0, &[byte]);
        }
    }
}
