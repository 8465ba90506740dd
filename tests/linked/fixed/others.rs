//! What does not compose and what does not read back: the numbers and the lines of B at -1 and of C
//! at -9 with one thing changed, and calls that are refused.

use super::lines::{empty_of, late, none, numbers_of, stairs};
use super::{a, b, c, case};
use crate::independent::write;
use crate::lent::Call;
use crate::library::Function;
use crate::trial::Trial;

pub fn run(trial: &mut Trial) {
    refused(trial);
    no_reasons(trial);
    no_lines_of_b(trial);
    no_lines_of_c(trial);
}

/// 255, 253, 12, 8, each where all that follow hold too.
fn refused(trial: &mut Trial) {
    let (file, numbers) = (write(&c()), numbers_of(&late(1, 3)));
    let composing = [
        (0, 18, &file[1..], 255),
        (1, 18, &file[1..], 253),
        (1, 19, &file[1..], 12),
        (1, 19, &file, 8),
    ];
    for (answer, length, file, result) in composing {
        let call = Call::with_file(&mut trial.random, file, answer)
            .with_reason(&mut trial.random, &numbers[..length])
            .at(-10_000_001);
        case(trial, Function::Sentence, call, result, &[]);
    }
    let reading = [(18, &file[1..], 255), (19, &file[1..], 12), (19, &file, 8)];
    for (answer, file, result) in reading {
        let call = Call::with_file(&mut trial.random, file, answer).at(10_000_001);
        case(trial, Function::Parse, call, result, &[]);
    }
}

/// The numbers of B at -1 and of C at -9, each with one that makes them no reason.
fn no_reasons(trial: &mut Trial) {
    let of_b = [
        (0, &[0, 1, 3, -1, 258, i32::MIN, i32::MAX][..]),
        (1, &[0, 1, 3, 16, 17, -2, 258, i32::MIN, i32::MAX]),
        (2, &[1, -1, i32::MIN]),
        (3, &[2, 3, 5, 0, i32::MIN, i32::MAX]),
        (4, &[4, 3, 1, 0, -2, i32::MIN]),
        (5, &[1, 2, -1]),
        (18, &[1, 2, -1]),
    ];
    let of_c = [
        (0, &[0, 2, 3, -1, 257][..]),
        (1, &[0, 2, -1, 257, i32::MIN, i32::MAX]),
        (2, &[0, 2, 4, -3, i32::MIN, i32::MAX]),
        (3, &[1, 10, -1]),
        (18, &[1, 10, -1]),
    ];
    let cases = [
        (b(), -1, stairs(&[4, 2]), &of_b[..]),
        (c(), -9, late(1, 3), &of_c[..]),
    ];
    for (order, bound, reason, changes) in cases {
        for (place, values) in changes {
            for value in *values {
                let mut numbers = numbers_of(&reason);
                numbers[*place] = *value;
                empty_of(trial, &order, bound, &numbers);
            }
        }
    }
}

/// The line of B at -1, changed so that a careless reader might still take it.
fn no_lines_of_b(trial: &mut Trial) {
    let lines = [
        "",
        "\n",
        "memory 8 due 4, memory 4 due 2: owed 8, on hand 6\n",
        "memory 8 due 4, memory 4 due 2: owed 8, on hand 6 ",
        " memory 8 due 4, memory 4 due 2: owed 8, on hand 6",
        "memory 8 due 4, memory 4 due 2: owed 8, on hand 7",
        "memory 8 due 4, memory 4 due 2: owed 8, on hand 06",
        "memory 8 due 4, memory 4 due 2: owed 8, on hand +6",
        "memory 8 due 4, memory 4 due 2: owed 8, on hand -6",
        "memory 8 due 4, memory 4 due 2: owed 8, on hand ",
        "memory 8 due 4, memory 4 due 2: owed 8, on hand 4294967302",
        "memory 8 due 4, memory 4 due 2: owed 6, on hand 8",
        "memory 8 due 4, memory 4 due 2: owed 08, on hand 6",
        "memory 8 due 4, memory 4 due 2",
        "memory 8 due 4, memory 4 due 02: owed 8, on hand 6",
        "memory 08 due 4, memory 4 due 2: owed 8, on hand 6",
        "Memory 8 due 4, memory 4 due 2: owed 8, on hand 6",
        "memory 8 due 4, memory 4 due 2: Owed 8, on hand 6",
        "memory 8 due 4,memory 4 due 2: owed 8, on hand 6",
        "memory 8 due 4: owed 8, on hand 6",
        "memory 4 due 2, memory 8 due 4: owed 8, on hand 6",
        "memory 8 due 4, memory 4 due 2, : owed 8, on hand 6",
        "memory 8 due 4, memory 4 due 4: owed 8, on hand 8",
        "memory 8 due 2, memory 4 due 4: owed 4, on hand 6",
        "job 1: time 2, end 4: owed 2, on hand 4",
    ];
    for line in lines {
        none(trial, &b(), -1, line.as_bytes());
    }
    let good = b"memory 8 due 4, memory 4 due 2: owed 8, on hand 6";
    none(trial, &b(), -2, good);
    none(trial, &a(), -1, good);
}

/// The line of C at -9, changed likewise; at -11 the end is 0, at -21 it is -10.
fn no_lines_of_c(trial: &mut Trial) {
    let lines = [
        "job 01: time 3, end 2: owed 3, on hand 2",
        "job 1: time 03, end 2: owed 3, on hand 2",
        "job 1: time 3, end 2: owed 3, on hand 2\n",
        "job 1: time 3, end 2: owed 3, on hand 2\0",
        "job 1: time 3, end 2: owed 3, on hand",
        "job 1: time 3, end 2: owed 3, on hand 3",
        "job 1: time 3, end -2: owed 3, on hand 2",
        "job 1: time 3, end 2: owed 2, on hand 3",
        "job 2: time 3, end 2: owed 3, on hand 2",
        "job 1: time 4, end 2: owed 4, on hand 2",
        "JOB 1: TIME 3, END 2: OWED 3, ON HAND 2",
    ];
    for line in lines {
        none(trial, &c(), -9, line.as_bytes());
    }
    let minus_0 = b"job 1: time 3, end -0: owed 3, on hand 0";
    none(trial, &c(), -11, minus_0);
    let no_minus = b"job 1: time 3, end 10: owed 3, on hand 10";
    none(trial, &c(), -21, no_minus);
}
