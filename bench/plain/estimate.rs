//! Times between lows and highs: job 1, then job 2 and so on, goes minute by minute from its low to its
//! high. The least lateness at a minute of that path, and by halving the first minute at which it is a
//! number.

use super::order::{Order, MOST_JOBS};
use super::setting::{self, Setting};
use super::stairs;

pub struct Path<'a> {
    highs: &'a [u32],
    lows: [u32; MOST_JOBS],
    /// the times in it are those of the minute looked at last
    order: Order,
}

impl Path<'_> {
    /// The path of an accepted order, whose times are the lows.
    pub fn of<'a>(order: &Order, highs: &'a [u32]) -> Path<'a> {
        let mut lows = [0; MOST_JOBS];
        for (low, job) in lows.iter_mut().zip(order.jobs()) {
            *low = job.time;
        }
        Path {
            highs,
            lows,
            order: *order,
        }
    }

    /// The minutes from the lows to the highs.
    pub fn minutes(&self) -> u32 {
        let spans = self.highs.iter().zip(&self.lows);
        spans.map(|(high, low)| high - low).sum()
    }

    /// The times at a minute: each job in turn goes up as far as it can.
    pub fn times(&self, minute: u32) -> [u32; MOST_JOBS] {
        let mut times = self.lows;
        let mut left = minute;
        for (time, high) in times.iter_mut().zip(self.highs) {
            let more = left.min(high - *time);
            *time += more;
            left -= more;
        }
        times
    }

    pub fn least(&mut self, minute: u32) -> i32 {
        let times = self.times(minute);
        for (job, time) in self.order.jobs.iter_mut().zip(times) {
            job.time = time;
        }
        setting::bound_of(stairs::least_reach(&Setting::of(&self.order)))
    }

    /// The first minute at which the least lateness is this number: it never falls, and rises by at most
    /// one a minute.
    pub fn first_met(&mut self, number: i32) -> Option<u32> {
        let last = self.minutes();
        if number < self.least(0) || self.least(last) < number {
            return None;
        }
        let (mut first, mut met) = (0, last);
        while first < met {
            let middle = first + (met - first) / 2;
            if self.least(middle) < number {
                first = middle + 1;
            } else {
                met = middle;
            }
        }
        Some(met)
    }
}
