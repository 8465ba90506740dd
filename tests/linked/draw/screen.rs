//! Files with counts around the limits of dock and screen, each pair of counts with nothing wrong, with one
//! thing wrong in a job, and with one thing wrong in the file.

use super::damage::damage_job;
use super::files::{damage_length, damage_trailer, file_of};
use super::orders::of_counts;
use super::Random;

const PROCESSORS: [usize; 7] = [0, 1, 3, 4, 5, 16, 17];
const JOBS: [usize; 7] = [0, 1, 11, 12, 13, 48, 49];

/// What is wrong, in a job by the number of its refusal.
#[derive(Clone, Copy)]
enum Fault {
    None,
    InJob(u32),
    InTrailer,
    InLength,
}

const FAULTS: [Fault; 7] = [
    Fault::None,
    Fault::InJob(5),
    Fault::InJob(6),
    Fault::InJob(13),
    Fault::InJob(7),
    Fault::InTrailer,
    Fault::InLength,
];

/// So many turns have each pair of counts with each fault once.
pub const TURNS: u64 = 343;

/// The file of a turn.
pub fn file_of_turn(random: &mut Random, turn: u64) -> Vec<u8> {
    let turn = turn as usize;
    let (processors, jobs) = (PROCESSORS[turn % 7], JOBS[turn / 7 % 7]);
    let fault = FAULTS[turn / 49 % 7];
    let mut order = of_counts(random, processors, jobs);
    if let Fault::InJob(number) = fault {
        damage_job(random, &mut order, number);
    }
    let mut file = file_of(random, &order);
    match fault {
        Fault::InTrailer => damage_trailer(random, &mut file),
        Fault::InLength => damage_length(random, &mut file),
        Fault::None | Fault::InJob(_) => {}
    }
    file
}
