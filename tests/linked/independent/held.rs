//! Document 02, "Jobs held by class": "they shall lie in memory by falling need, ties in input order,
//! each job once, with the input number kept beside each".

use super::{Job, Order, Times};

/// A job as it lies, with its number.
#[derive(Clone, Copy, Debug, PartialEq)]
pub struct Held {
    pub number: u32,
    pub job: Job,
}

/// The jobs as they lie: each is put behind all before it in input order that need as much or more.
pub fn held(order: &Order) -> Vec<Held> {
    let mut lying: Vec<Held> = Vec::new();
    for (number, job) in (1..).zip(&order.jobs) {
        let before = lying.iter().filter(|one| one.job.need >= job.need);
        let place = before.count();
        lying.insert(place, Held { number, job: *job });
    }
    lying
}

/// The order that has jobs for its input order as they lie here.
pub fn order_of(order: &Order, lying: &[Held]) -> Order {
    Order {
        memories: order.memories.clone(),
        jobs: lying.iter().map(|one| one.job).collect(),
    }
}

/// Times with each job's ready minute where the job lies.
pub fn times_of(times: &Times, lying: &[Held]) -> Times {
    let ready = |one: &Held| times.ready[one.number as usize - 1];
    Times {
        ready: lying.iter().map(ready).collect(),
        windows: times.windows.clone(),
    }
}
