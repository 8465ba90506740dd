//! Orders drawn around a hidden plan that leaves no minute free: each class has a time, falling
//! from class to class, up to which its processors are filled with jobs that are due by their own
//! class's time. One minute less and the staircase of these times is overfull, often no shorter
//! one.

use super::{makers, Random};
use crate::independent::{Job, Order};

/// A packed order with up to so many processors and jobs.
pub fn packed(random: &mut Random, most_processors: usize, most_jobs: usize) -> Order {
    let processors = 1 + random.below(most_processors);
    let classes = 1 + random.below(processors);
    let latest = random.pick(&[9, 30, 300]);
    let mut times: Vec<i64> = (0..classes).map(|_| random.between(6, latest)).collect();
    times.sort();
    times.reverse();
    let mut of_processors: Vec<usize> = (0..processors).map(|number| number % classes).collect();
    random.shuffle(&mut of_processors);
    let mut jobs = Vec::new();
    for &class in &of_processors {
        fill(random, class, &times, &mut jobs);
    }
    random.shuffle(&mut jobs);
    jobs.truncate(most_jobs);
    let later = random.between(-30, 30) as i32;
    jobs.iter_mut().for_each(|job| job.due += later);
    makers::give(random, &mut jobs);
    let memory = |class: &usize| 10 * (classes - class) as u32;
    let memories = of_processors.iter().map(memory).collect();
    Order { memories, jobs }
}

/// Fills one processor of a class with jobs of this class and of later ones. No job takes more than
/// half of its class's time: then no job alone is a reason.
fn fill(random: &mut Random, class: usize, times: &[i64], jobs: &mut Vec<Job>) {
    let mut filled = 0;
    while filled < times[class] {
        let open: Vec<usize> = (class..times.len())
            .filter(|&c| times[c] > filled)
            .collect();
        let own = random.pick(&open);
        let (due, rest) = (times[own], times[own] - filled);
        let time = random.between(due / 3, due / 2);
        let time = if rest <= due / 2 { rest } else { time };
        filled += time;
        let above_next = 10 * (times.len() - own - 1) as i64 + 1;
        jobs.push(Job {
            time: time as u32,
            due: due as i32,
            need: random.between(above_next, above_next + 9) as u32,
            maker: 1,
        });
    }
}
