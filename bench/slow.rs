//! Plans that are slow to check: as many rows as a check may have, each a minute long, of few jobs on
//! few equal processors, drawn anew each minute, and shuffled. Whether two rows share a job or a
//! processor, and which of them is the earlier, can hardly be foreseen.

use crate::cases::{case_of, Case, ROWS_MOST};
use crate::orders::{Job, Order};
use crate::random::Random;

/// Processors and jobs; the smaller number divides the rows.
const SIZES: [(u32, u32); 5] = [(1, 1), (3, 3), (8, 2), (10, 2), (2, 12)];

pub fn draw(seed: u64) -> Vec<Case> {
    let mut random = Random::new(seed);
    let mut cases = Vec::new();
    for (processors, jobs) in SIZES {
        let mut rows = minutes(&mut random, processors, jobs);
        let mut case = case_of(&order(processors, jobs, &rows), "slow to check");
        random.shuffle(&mut rows);
        case.long_plan = rows.concat();
        cases.push(case);
    }
    cases
}

/// Minute by minute as many rows as there are jobs and processors for.
fn minutes(random: &mut Random, processors: u32, jobs: u32) -> Vec<[u32; 4]> {
    let mut jobs: Vec<u32> = (1..=jobs).collect();
    let mut processors: Vec<u32> = (1..=processors).collect();
    let mut rows = Vec::new();
    for minute in 0.. {
        random.shuffle(&mut jobs);
        random.shuffle(&mut processors);
        for (&job, &processor) in jobs.iter().zip(&processors) {
            rows.push([job, processor, minute, minute + 1]);
        }
        if ROWS_MOST <= rows.len() {
            break;
        }
    }
    rows
}

/// The order whose jobs have the minutes of the rows. All are due at 0, so that the least lateness
/// is the last row's minute.
fn order(processors: u32, jobs: u32, rows: &[[u32; 4]]) -> Order {
    let job = |number: u32| Job {
        time: rows.iter().filter(|row| row[0] == number).count() as i32,
        due: 0,
        need: 1,
    };
    Order {
        memories: vec![1; processors as usize],
        jobs: (1..=jobs).map(job).collect(),
    }
}
