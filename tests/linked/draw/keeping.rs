//! Times that rows just keep, or break by one minute: a ready minute or an opening at the first `from`,
//! a closing at the last `to`.

use super::Random;
use crate::independent::{Row, Times};

/// The times of a plan that keeps them, with one of them moved to where the rows just keep it or, in
/// every second case, a minute farther.
pub fn sharp(random: &mut Random, times: &Times, plan: &[Row]) -> Times {
    let mut times = times.clone();
    let [job, processor, ..] = random.pick(plan);
    let more = random.below(2) as u32;
    let begins = |at: usize, number: u32| {
        let own = plan.iter().filter(|row| row[at] == number);
        own.map(|row| row[2]).min().unwrap_or(0)
    };
    let ends = |number: u32| {
        let own = plan.iter().filter(|row| row[1] == number);
        own.map(|row| row[3]).max().unwrap_or(1)
    };
    let window = &mut times.windows[processor as usize - 1];
    match random.below(3) {
        0 => times.ready[job as usize - 1] = begins(0, job) + more,
        1 => window[0] = (begins(1, processor) + more).min(window[1] - 1),
        _ => window[1] = (ends(processor) - more).max(window[0] + 1),
    }
    times
}
