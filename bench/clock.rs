//! The times of a task: rounds over all cases, one call to a case, so that no call follows one on
//! the same order. The first round warms up; of the others each case keeps its least time.

use crate::cases::Case;
use crate::subjects::{own_block, run, run_independent, Buffers, Functions, Task, LIBRARY, PLAIN};
use std::hint::black_box;
use std::time::Instant;

const ROUNDS: usize = 30;

/// The independent implementation is slow, and takes part in fewer rounds.
const ROUNDS_INDEPENDENT: usize = 5;

/// Microseconds of the library, its plain build and the independent implementation.
pub type Times = [f64; 3];

/// How it is measured, for the report.
pub fn manner() -> String {
    format!(
        "Microseconds; of each order the least of {ROUNDS} calls (independent: \
         {ROUNDS_INDEPENDENT}) after a warm-up, other orders in between; buffers are not cleared \
         between calls, but for the book, which is opened anew, and the register block, which is \
         the order's own each time."
    )
}

pub fn time(task: Task, cases: &[&Case]) -> Vec<Times> {
    let mut times = vec![[f64::INFINITY; 3]; cases.len()];
    let mut buffers = Buffers::new();
    let mut call = |functions: &Functions, case: &Case| {
        buffers.hold(case);
        micros(|| run(functions, task, case, &mut buffers))
    };
    for round in 0..=ROUNDS {
        let counted = 0 < round;
        time_round(cases, &mut times, 0, counted, |case| call(&LIBRARY, case));
        time_round(cases, &mut times, 1, counted, |case| call(&PLAIN, case));
        if round <= ROUNDS_INDEPENDENT {
            time_round(cases, &mut times, 2, counted, |case| {
                let mut block = own_block(case);
                micros(|| run_independent(task, case, &mut block))
            });
        }
    }
    times
}

fn time_round(
    cases: &[&Case],
    times: &mut [Times],
    subject: usize,
    counted: bool,
    mut call: impl FnMut(&Case) -> f64,
) {
    for (case, time) in cases.iter().zip(times) {
        let micros = call(case);
        if counted {
            time[subject] = time[subject].min(micros);
        }
    }
}

fn micros<T>(call: impl FnOnce() -> T) -> f64 {
    let start = Instant::now();
    black_box(call());
    start.elapsed().as_secs_f64() * 1e6
}
