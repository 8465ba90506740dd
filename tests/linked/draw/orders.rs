//! Accepted orders in families, each with what it is apt to show. Small ones are many; large ones
//! have up to 16 processors and 48 jobs; those for a screen are around 4 processors and 12 jobs.

use super::packed::packed;
use super::Random;
use super::{makers, memories};
use crate::independent::{Job, Order};

type Range = (i64, i64);

/// The ranges from which the numbers of a family are drawn.
#[derive(Clone, Copy)]
struct Shape {
    processors: Range,
    jobs: Range,
    times: Range,
    dues: Range,
    memories: Range,
}

impl Shape {
    const fn processors(self, low: i64, high: i64) -> Shape {
        let processors = (low, high);
        Shape { processors, ..self }
    }

    const fn jobs(self, low: i64, high: i64) -> Shape {
        let jobs = (low, high);
        Shape { jobs, ..self }
    }

    const fn times(self, low: i64, high: i64) -> Shape {
        let times = (low, high);
        Shape { times, ..self }
    }

    const fn dues(self, low: i64, high: i64) -> Shape {
        let dues = (low, high);
        Shape { dues, ..self }
    }

    const fn memories(self, low: i64, high: i64) -> Shape {
        let memories = (low, high);
        Shape { memories, ..self }
    }
}

const TINY: Shape = Shape {
    processors: (1, 3),
    jobs: (1, 4),
    times: (1, 4),
    dues: (-2, 5),
    memories: (0, 3),
};

const SMALL: Shape = Shape {
    processors: (1, 4),
    jobs: (1, 8),
    times: (1, 10),
    dues: (-3, 9),
    memories: (0, 9),
};

const FULL: Shape = Shape {
    processors: (16, 16),
    jobs: (48, 48),
    times: (1, 100),
    dues: (0, 200),
    memories: (0, 1_000),
};

const LARGEST: i64 = 4_294_967_295;
const WIDE: Shape = FULL.times(1, 100_000).memories(0, LARGEST);

pub type Family = (&'static str, fn(&mut Random) -> Order);

pub const SMALL_FAMILIES: &[Family] = &[
    ("tiny", tiny),
    ("small", |random| drawn(random, SMALL)),
    ("packed", |random| packed(random, 4, 12)),
    ("packed wider", |random| packed(random, 7, 20)),
    ("crowded", |random| crowded(random, SMALL.jobs(4, 10))),
    ("steep", |random| steep(random, SMALL)),
    ("equal needs", |random| drawn(random, SMALL.memories(7, 7))),
    ("equal dues", |random| drawn(random, SMALL.dues(5, 5))),
    ("tight dues", |random| {
        drawn(random, SMALL.dues(10, 13).jobs(6, 12))
    }),
    ("negative dues", |random| {
        drawn(random, SMALL.dues(-1_000_000, -999_990))
    }),
    ("far dues", |random| {
        drawn(random, SMALL.dues(-1_000_000, 1_000_000))
    }),
    ("huge needs", |random| {
        drawn(random, SMALL.memories(LARGEST - 4, LARGEST))
    }),
    ("any needs", |random| {
        drawn(random, SMALL.memories(0, LARGEST))
    }),
    ("one processor", |random| {
        drawn(random, SMALL.processors(1, 1))
    }),
    ("one job", |random| drawn(random, SMALL.jobs(1, 1))),
    ("equal jobs", |random| {
        drawn(random, SMALL.times(3, 3).dues(4, 4))
    }),
    ("farthest", farthest),
    ("long", |random| {
        drawn(random, SMALL.times(900, 3_000).dues(0, 4_000))
    }),
];

pub const LARGE_FAMILIES: &[Family] = &[
    ("full", |random| drawn(random, FULL)),
    ("full, packed", |random| packed(random, 16, 48)),
    ("full, crowded", |random| crowded(random, FULL)),
    ("full, steep", |random| steep(random, FULL)),
    ("full, wide", |random| drawn(random, WIDE.dues(0, 300_000))),
    ("full, far dues", |random| {
        drawn(random, WIDE.dues(-1_000_000, 1_000_000))
    }),
    ("full, few dues", |random| {
        drawn(random, FULL.dues(100, 107))
    }),
    ("full, one processor", |random| {
        drawn(random, FULL.processors(1, 1))
    }),
    ("many classes", |random| {
        drawn(random, FULL.jobs(16, 30).dues(0, 60))
    }),
    ("middle", |random| {
        drawn(random, FULL.processors(2, 8).jobs(8, 24))
    }),
    ("middle, packed", |random| packed(random, 9, 30)),
    ("full, last class", last_class),
];

/// Most are within the screen's limits, many of them just so, and some are not.
pub const SCREEN_FAMILIES: &[Family] = &[
    ("at the limits", |random| drawn(random, AT_LIMITS)),
    ("a job more", |random| drawn(random, AT_LIMITS.jobs(13, 13))),
    ("packed", |random| packed(random, 4, 12)),
    ("a processor more", |random| {
        drawn(random, AT_LIMITS.processors(5, 5))
    }),
    ("crowded", |random| {
        crowded(random, SMALL.processors(2, 4).jobs(6, 12))
    }),
    ("steep", |random| {
        steep(random, SMALL.processors(2, 4).jobs(6, 12))
    }),
    ("around the limits", |random| {
        drawn(random, SMALL.processors(3, 5).jobs(11, 13))
    }),
    ("small", |random| drawn(random, SMALL)),
    ("tight dues", |random| {
        drawn(random, AT_LIMITS.dues(10, 13).jobs(6, 12))
    }),
    ("both more", |random| {
        drawn(random, AT_LIMITS.processors(5, 5).jobs(13, 13))
    }),
    ("far dues", |random| {
        drawn(random, AT_LIMITS.dues(-1_000_000, 1_000_000))
    }),
    ("wide", |random| {
        let shape = AT_LIMITS.times(1, 100_000).dues(0, 300_000);
        drawn(random, shape.memories(0, LARGEST))
    }),
    ("tiny", tiny),
    ("packed wider", |random| packed(random, 7, 20)),
];

const AT_LIMITS: Shape = SMALL.processors(4, 4).jobs(12, 12);

/// So many processors and jobs: none, as many as an order may have, or more.
pub fn of_counts(random: &mut Random, processors: usize, jobs: usize) -> Order {
    let some = |count: usize| count.max(1) as i64;
    let (of_processors, of_jobs) = (some(processors), some(jobs));
    let shape = SMALL.processors(of_processors, of_processors);
    let mut order = drawn(random, shape.jobs(of_jobs, of_jobs));
    order.memories.truncate(processors);
    order.jobs.truncate(jobs);
    order
}

pub fn tiny(random: &mut Random) -> Order {
    drawn(random, TINY)
}

fn drawn(random: &mut Random, shape: Shape) -> Order {
    let processors = within(random, shape.processors);
    let memory = |_| within(random, shape.memories) as u32;
    let memories: Vec<u32> = (0..processors).map(memory).collect();
    with_memories(random, shape, memories)
}

/// Processors of few distinct memories, or each of its own, with some jobs.
pub fn many_memories(random: &mut Random) -> Order {
    let memories = memories::drawn(random);
    with_memories(random, SMALL, memories)
}

/// Jobs for these memories.
fn with_memories(random: &mut Random, shape: Shape, memories: Vec<u32>) -> Order {
    let jobs = within(random, shape.jobs);
    let job = |_| Job {
        time: within(random, shape.times) as u32,
        due: within(random, shape.dues) as i32,
        need: need(random, &memories),
        maker: 1,
    };
    let mut jobs: Vec<Job> = (0..jobs).map(job).collect();
    makers::give(random, &mut jobs);
    Order { memories, jobs }
}

fn within(random: &mut Random, (low, high): Range) -> i64 {
    random.between(low, high)
}

/// A need that some processor has: often a memory exactly, or a number next to one.
fn need(random: &mut Random, memories: &[u32]) -> u32 {
    let largest = memories.iter().copied().max().unwrap_or(0);
    let near = random.pick(memories);
    let drawn = match random.below(5) {
        0 => near.saturating_sub(1),
        1 => near.saturating_add(1),
        2 => random.between(0, largest.into()) as u32,
        _ => near,
    };
    drawn.min(largest)
}

/// Due times just after the times: the processors are short, the reasons are staircases.
fn crowded(random: &mut Random, shape: Shape) -> Order {
    let mut order = drawn(random, shape.dues(0, 3));
    for job in &mut order.jobs {
        job.due += job.time as i32;
    }
    order
}

/// Due times that rise with the need: staircases whose times fall, as in order B.
fn steep(random: &mut Random, shape: Shape) -> Order {
    let mut order = drawn(random, shape);
    let (low, high) = shape.memories;
    let (_, latest) = shape.times;
    for job in &mut order.jobs {
        let height = (i64::from(job.need) - low) * 2 * latest / (high - low);
        job.due = (height + random.between(0, 2)) as i32 + job.time as i32;
    }
    order
}

/// Jobs of the last class alone, on processors of the largest memories: only staircases of all
/// classes are reasons, and their lines are long.
fn last_class(random: &mut Random) -> Order {
    let shape = FULL
        .times(90_000, 100_000)
        .dues(-1_000_000, -999_900)
        .memories(LARGEST - 99, LARGEST);
    let mut order = drawn(random, shape);
    order.jobs.iter_mut().for_each(|job| job.need = 0);
    order
}

/// The smallest and the largest numbers that an order may have.
fn farthest(random: &mut Random) -> Order {
    let (low, high) = random.pick(&[(1, 3), (48, 48)]);
    let mut order = drawn(random, SMALL.jobs(low, high).memories(0, LARGEST));
    for job in &mut order.jobs {
        job.time = random.pick(&[1, 2, 99_999, 100_000]);
        job.due = random.pick(&[-1_000_000, -999_999, 0, 999_999, 1_000_000]);
    }
    order
}
