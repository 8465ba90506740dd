//! Document 02, "The club screen": "A screen in boathouses calls the same planner and holds 12 jobs and 4
//! processors." "the limit belongs to the call"; "A screen order over 12 jobs is 20 and over 4 processors is
//! 21, given in place of 4 and 2 and where those stand."

use super::Order;

/// The most processors and the most jobs of an order that a call takes, and the refusals of more.
#[derive(Clone, Copy, Debug, PartialEq)]
pub struct Limits {
    pub processors: usize,
    pub over_processors: u32,
    pub jobs: usize,
    pub over_jobs: u32,
}

pub const DOCK: Limits = Limits {
    processors: 16,
    over_processors: 2,
    jobs: 48,
    over_jobs: 4,
};

pub const SCREEN: Limits = Limits {
    processors: 4,
    over_processors: 21,
    jobs: 12,
    over_jobs: 20,
};

impl Limits {
    /// Whether neither count is over its limit.
    pub fn hold(&self, order: &Order) -> bool {
        order.memories.len() <= self.processors && order.jobs.len() <= self.jobs
    }
}
