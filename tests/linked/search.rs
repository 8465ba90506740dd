//! A plain search over tiny orders: minute by minute, any set of jobs that are there and that open
//! processors can take at once. Nothing here knows of ends, stretches, classes or flows.

use crate::independent::{Order, Times};
use std::cmp::Reverse;
use std::collections::HashSet;

/// Whether some right plan in whole minutes meets the bound.
pub fn meets(order: &Order, bound: i64) -> bool {
    searched(order, None, bound)
}

/// Whether some right plan in whole minutes meets the bound and keeps these times.
pub fn timed_meets(order: &Order, times: &Times, bound: i64) -> bool {
    searched(order, Some(times), bound)
}

fn searched(order: &Order, times: Option<&Times>, bound: i64) -> bool {
    let left = order.jobs.iter().map(|job| job.time).collect();
    let mut search = Search {
        order,
        times,
        bound,
        failed: HashSet::new(),
    };
    search.from_minute(0, left)
}

struct Search<'a> {
    order: &'a Order,
    times: Option<&'a Times>,
    bound: i64,
    /// minutes at which so much was left that it could not be done
    failed: HashSet<(i64, Vec<u32>)>,
}

impl Search<'_> {
    /// Whether the minutes left can be done from this minute on. "due 10" is "done by the close of
    /// minute 10": the last minute that a job may take is its due time moved by the bound.
    fn from_minute(&mut self, minute: i64, left: Vec<u32>) -> bool {
        let last = |job: usize| minute + i64::from(left[job]) - 1;
        let lost = |job: usize| last(job) > i64::from(self.order.jobs[job].due) + self.bound;
        let open: Vec<usize> = (0..left.len()).filter(|&job| left[job] > 0).collect();
        if open.is_empty() {
            return true;
        }
        if open.iter().any(|&job| lost(job)) || self.failed.contains(&(minute, left.clone())) {
            return false;
        }
        let there: Vec<usize> = open
            .into_iter()
            .filter(|&job| self.there(minute, job))
            .collect();
        let memories = self.memories(minute);
        for set in 0..1_u32 << there.len() {
            let chosen = there
                .iter()
                .enumerate()
                .filter(|(place, _)| set >> place & 1 == 1);
            let chosen: Vec<usize> = chosen.map(|(_, &job)| job).collect();
            if self.taken_at_once(&memories, &chosen) {
                let mut then = left.clone();
                chosen.iter().for_each(|&job| then[job] -= 1);
                if self.from_minute(minute + 1, then) {
                    return true;
                }
            }
        }
        self.failed.insert((minute, left));
        false
    }

    /// Whether a job has reached the dock by this minute.
    fn there(&self, minute: i64, job: usize) -> bool {
        let ready = |times: &Times| i64::from(times.ready[job]) <= minute;
        self.times.is_none_or(ready)
    }

    /// The memories of the processors that are open in this minute, downwards.
    fn memories(&self, minute: i64) -> Vec<u32> {
        let open = |processor: usize| {
            let within = |times: &Times| {
                let [opening, closing] = times.windows[processor].map(i64::from);
                (opening..closing).contains(&minute)
            };
            self.times.is_none_or(within)
        };
        let memories = self.order.memories.iter().enumerate();
        let memories = memories.filter(|(processor, _)| open(*processor));
        let mut memories: Vec<u32> = memories.map(|(_, &memory)| memory).collect();
        memories.sort_by_key(|&memory| Reverse(memory));
        memories
    }

    /// Whether different processors of these memories can take these jobs: the larger the need, the
    /// larger the memory.
    fn taken_at_once(&self, memories: &[u32], jobs: &[usize]) -> bool {
        let mut needs: Vec<u32> = jobs.iter().map(|&job| self.order.jobs[job].need).collect();
        needs.sort_by_key(|&need| Reverse(need));
        needs.len() <= memories.len()
            && needs
                .iter()
                .zip(memories)
                .all(|(need, memory)| need <= memory)
    }
}
