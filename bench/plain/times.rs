//! When jobs are there and processors open: always, or by ready minutes and windows with their refusals
//! 15 and 16; and the marks between which the stretches of a plan lie.

use super::order::{self, Order, Refusal, MOST_JOBS, MOST_PROCESSORS};

/// No ready minute, opening or closing is larger.
const MOST_MINUTE: u32 = 1_000_000;

/// The most distinct times: a ready minute and an end to a job, an opening and a closing to a processor.
pub const MOST_TIMES: usize = 2 * (MOST_JOBS + MOST_PROCESSORS);

/// What a plan is held to.
pub trait Times {
    /// The minute from which on job j is there, and that by which it must be done.
    fn span(&self, j: usize) -> (u32, u32);

    /// Whether a processor is open from one minute to another.
    fn open(&self, processor: usize, from: u32, to: u32) -> bool;
}

/// Jobs that are there from the start on, and processors that are always open.
pub struct Always<'a> {
    pub order: &'a Order,
    pub bound: i32,
}

impl Times for Always<'_> {
    fn span(&self, j: usize) -> (u32, u32) {
        (0, order::deadline(self.order.jobs[j].due, self.bound))
    }

    fn open(&self, _: usize, _: u32, _: u32) -> bool {
        true
    }
}

/// A ready minute to each job, and two numbers to each processor.
pub struct Given<'a> {
    pub order: &'a Order,
    pub bound: i32,
    pub ready: &'a [u32],
    pub windows: &'a [u32],
}

impl Times for Given<'_> {
    fn span(&self, j: usize) -> (u32, u32) {
        let deadline = order::deadline(self.order.jobs[j].due, self.bound);
        (self.ready[j], deadline)
    }

    fn open(&self, processor: usize, from: u32, to: u32) -> bool {
        self.windows[2 * processor] <= from && to <= self.windows[2 * processor + 1]
    }
}

/// Distinct times, upwards, ends before the start among them.
pub struct Marks {
    count: usize,
    at: [i32; MOST_TIMES],
}

impl Marks {
    /// How many distinct times there are.
    pub fn count(&self) -> usize {
        self.count
    }

    /// The marks between which the stretches lie, cut off at minute 0.
    pub fn cut_off(&self) -> [u32; MOST_TIMES] {
        self.at.map(|time| time.max(0) as u32)
    }
}

impl Given<'_> {
    /// Refusals 15 and 16, with the first job or processor.
    pub fn accept(&self) -> Result<(), Refusal> {
        if let Some(place) = self.ready.iter().position(|&ready| MOST_MINUTE < ready) {
            return Err(Refusal::about(15, place));
        }
        let bad = |window: &[u32]| MOST_MINUTE < window[1] || window[1] <= window[0];
        if let Some(place) = self.windows.chunks_exact(2).position(bad) {
            return Err(Refusal::about(16, place));
        }
        Ok(())
    }

    pub fn marks(&self) -> Marks {
        let mut at = [0; MOST_TIMES];
        let minutes = self.ready.iter().chain(self.windows);
        let minutes = minutes.map(|&minute| minute as i32);
        let ends = self.order.jobs().iter();
        let ends = ends.map(|job| order::end(job.due, self.bound));
        let mut all = 0;
        for (place, time) in at.iter_mut().zip(minutes.chain(ends)) {
            *place = time;
            all += 1;
        }
        at[..all].sort_unstable();
        let mut count = 1;
        for place in 1..all {
            if at[count - 1] < at[place] {
                at[count] = at[place];
                count += 1;
            }
        }
        Marks { count, at }
    }
}
