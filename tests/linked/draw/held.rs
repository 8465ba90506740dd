//! Orders whose jobs, by falling need and ties in input order, lie elsewhere than they are given: few
//! needs and many, several jobs late at once; bounds at which they are; and two jobs that are refused,
//! the later one of the larger need.

use super::orders::Family;
use super::{makers, Random};
use crate::independent::{held, Job, Order, Times, MOST_MINUTE};

/// In all but the last three no job lies at the place of its number.
pub const HELD_FAMILIES: &[Family] = &[
    ("two needs", |random| apart(random, 2, 8)),
    ("few needs", |random| apart(random, 3, 10)),
    ("many needs", |random| apart(random, 9, 9)),
    ("one stretch", one_stretch),
    ("crowded", crowded),
    ("many jobs of few needs", |random| apart(random, 4, 48)),
    ("rising needs", rising),
    ("equal needs", |random| few(random, 1, 8)),
    ("needs in any order", |random| few(random, 3, 8)),
];

/// Four jobs or more, up to so many, of up to so many needs.
fn few(random: &mut Random, needs: usize, most: i64) -> Order {
    let processors = random.between(1, 4);
    let mut memories: Vec<u32> = (0..processors).map(|_| random.pick(&[2, 5, 9])).collect();
    let largest = random.pick(&[9, 12]);
    memories[0] = largest;
    random.shuffle(&mut memories);
    let need = |_| random.between(0, largest.into()) as u32;
    let needs: Vec<u32> = (0..needs).map(need).collect();
    let count = random.between(4, most);
    let job = |_| Job {
        time: random.between(1, 10) as u32,
        due: random.between(-3, 12) as i32,
        need: random.pick(&needs),
        maker: 1,
    };
    let mut jobs: Vec<Job> = (0..count).map(job).collect();
    makers::give(random, &mut jobs);
    Order { memories, jobs }
}

/// The same, its jobs shuffled so that none lies at the place of its number.
fn apart(random: &mut Random, needs: usize, most: i64) -> Order {
    let mut order = few(random, needs, most);
    while order.jobs.iter().all(|job| job.need == order.jobs[0].need) {
        order = few(random, needs, most);
    }
    while !all_apart(&order) {
        random.shuffle(&mut order.jobs);
    }
    order
}

fn all_apart(order: &Order) -> bool {
    (1..)
        .zip(held(order))
        .all(|(place, one)| place != one.number)
}

/// The larger the need, the later in input order.
fn rising(random: &mut Random) -> Order {
    let mut order = apart(random, 9, 8);
    order.jobs.sort_by_key(|job| job.need);
    order
}

/// Due times just after the times: the processors are short, the reasons are staircases.
fn crowded(random: &mut Random) -> Order {
    let mut order = apart(random, 4, 9);
    for job in &mut order.jobs {
        job.due = job.time as i32 + random.between(0, 3) as i32;
    }
    order
}

/// All due together, so that each job's amount is its time and every row is settled.
fn one_stretch(random: &mut Random) -> Order {
    let mut order = apart(random, 4, 9);
    let due = random.between(0, 40) as i32;
    order.jobs.iter_mut().for_each(|job| job.due = due);
    order
}

/// A bound at which two jobs are late, or more, or all.
pub fn several_late(random: &mut Random, order: &Order) -> i32 {
    let highest = |job: &Job| i64::from(job.time) - job.end(1);
    let mut late: Vec<i64> = order.jobs.iter().map(highest).collect();
    late.sort_by(|one, other| other.cmp(one));
    late[1 + random.below(late.len() - 1)] as i32
}

/// Two jobs, the first before the second and of a smaller need, if there are two.
fn smaller_first(random: &mut Random, order: &Order) -> Option<(usize, usize)> {
    let jobs = &order.jobs;
    let pair = |one: usize| {
        let larger = (one + 1..jobs.len()).filter(move |other| jobs[*other].need > jobs[one].need);
        larger.map(move |other| (one, other))
    };
    let pairs: Vec<(usize, usize)> = (0..jobs.len()).flat_map(pair).collect();
    (!pairs.is_empty()).then(|| random.pick(&pairs))
}

/// The order with two jobs of this refusal, the later one of the larger need.
pub fn two_refused(random: &mut Random, order: &Order, number: u32) -> Order {
    let mut order = order.clone();
    let Some((first, second)) = smaller_first(random, &order) else {
        return order;
    };
    let largest = order.memories.iter().copied().max().unwrap_or(0);
    for (place, need) in [(first, largest + 1), (second, largest + 7)] {
        let job = &mut order.jobs[place];
        match number {
            5 => job.time = random.pick(&[0, 100_001, u32::MAX]),
            6 => job.due = random.pick(&[-1_000_001, 1_000_001, i32::MIN]),
            13 => job.maker = makers::nobody(random),
            _ => job.need = need,
        }
    }
    order
}

/// Times with two ready minutes out of range, the later job of the larger need.
pub fn two_not_ready(random: &mut Random, order: &Order, times: &Times) -> Times {
    let mut times = times.clone();
    if let Some((first, second)) = smaller_first(random, order) {
        times.ready[first] = MOST_MINUTE + 1;
        times.ready[second] = random.pick(&[MOST_MINUTE + 1, u32::MAX]);
    }
    times
}
