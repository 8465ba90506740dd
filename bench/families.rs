//! The families of orders: each draws 48 jobs, mostly on 16 processors, and is hard or easy in its
//! own way.

use crate::orders::{Job, Order};
use crate::random::Random;
use crate::worst;

pub struct Family {
    pub name: &'static str,
    pub draw: fn(&mut Random) -> Order,
}

pub const ORDERS_EACH: usize = 20;

pub const FAMILIES: [Family; 15] = [
    family("16 classes", wide),
    family("3 classes", |random| FEW.draw(random)),
    family("one need", one_need),
    family("congested", |random| CONGESTED.draw(random)),
    family("due times a minute apart", minute_apart),
    family("one due time", |random| TOGETHER.draw(random)),
    family("loose", |random| LOOSE.draw(random)),
    family("every class full", full),
    family("short times", |random| SHORT.draw(random)),
    family("long times", |random| LONG.draw(random)),
    family("small needs", small_needs),
    family("large needs", large_needs),
    family("4 processors", |random| FOUR.draw(random)),
    family("1 processor", |random| ONE.draw(random)),
    family("most steps found", worst::draw),
];

const fn family(name: &'static str, draw: fn(&mut Random) -> Order) -> Family {
    Family { name, draw }
}

/// The first family.
pub fn wide(random: &mut Random) -> Order {
    WIDE.draw(random)
}

/// As large as a screen holds.
pub fn screen(random: &mut Random) -> Order {
    let mut order = SCREEN.draw(random);
    order.jobs.truncate(SCREEN_JOBS);
    order
}

/// Needs spread over all classes, times and due times over a range.
struct Shape {
    processors: usize,
    classes: usize,
    times: (i32, i32),
    dues: (i32, i32),
}

const JOBS: i32 = 48;
const SCREEN_JOBS: usize = 12;

/// The difference between the memories of two neighbouring classes.
const STEP: i32 = 1000;

const WIDE: Shape = Shape {
    processors: 16,
    classes: 16,
    times: (1, 1000),
    dues: (0, 2000),
};

const FEW: Shape = Shape { classes: 3, ..WIDE };

const TOGETHER: Shape = Shape {
    dues: (0, 0),
    ..WIDE
};

const LOOSE: Shape = Shape {
    dues: (0, 1_000_000),
    ..WIDE
};

/// Twice the work that fits before the last due time: amounts are scarce in every stretch.
const CONGESTED: Shape = Shape {
    dues: (0, 750),
    ..WIDE
};

const CROWDED: Shape = Shape {
    times: (500, 1000),
    dues: (0, 4000),
    ..WIDE
};

const SHORT: Shape = Shape {
    times: (1, 10),
    dues: (-5, 40),
    ..WIDE
};

const LONG: Shape = Shape {
    times: (90_000, 100_000),
    dues: (-200_000, 200_000),
    ..WIDE
};

const FOUR: Shape = Shape {
    processors: 4,
    classes: 4,
    times: (1, 1000),
    dues: (0, 6000),
};

/// The work of 12 jobs just fits before the last due time.
const SCREEN: Shape = Shape {
    dues: (0, 1500),
    ..FOUR
};

const ONE: Shape = Shape {
    processors: 1,
    classes: 1,
    times: (1, 1000),
    dues: (0, 24_000),
};

impl Shape {
    fn draw(&self, random: &mut Random) -> Order {
        let memories = memories(random, self.processors, self.classes);
        let most = STEP * self.classes as i32;
        let jobs = (0..JOBS).map(|_| Job {
            time: random.between(self.times.0, self.times.1),
            due: random.between(self.dues.0, self.dues.1),
            need: random.between(0, most) as u32,
        });
        let jobs = jobs.collect();
        Order { memories, jobs }
    }
}

/// A processor of each class, the others of any, shuffled.
fn memories(random: &mut Random, processors: usize, classes: usize) -> Vec<u32> {
    let mut memories = Vec::new();
    for i in 0..processors {
        let class = if i < classes {
            i
        } else {
            random.between(0, classes as i32 - 1) as usize
        };
        memories.push((STEP * (class as i32 + 1)) as u32);
    }
    random.shuffle(&mut memories);
    memories
}

/// All jobs in one class, drawn.
fn one_need(random: &mut Random) -> Order {
    let mut order = WIDE.draw(random);
    let need = random.between(0, STEP * 16) as u32;
    for job in &mut order.jobs {
        job.need = need;
    }
    order
}

/// 48 distinct due times as close together as they can be.
fn minute_apart(random: &mut Random) -> Order {
    let mut order = WIDE.draw(random);
    let mut dues: Vec<i32> = (0..JOBS).collect();
    random.shuffle(&mut dues);
    for (job, due) in order.jobs.iter_mut().zip(dues) {
        job.due = due;
    }
    order
}

/// Three jobs in each of 16 classes that fill its processor without a gap up to their due times: at
/// the least lateness, -1, no minute is free.
fn full(random: &mut Random) -> Order {
    let memories = memories(random, 16, 16);
    let last = 2000;
    let mut jobs = Vec::new();
    for &need in &memories {
        let first_end = random.between(1, last - 2);
        let second_end = random.between(first_end + 1, last - 1);
        let mut start = 0;
        for due in [first_end, second_end, last] {
            let time = due - start;
            jobs.push(Job { time, due, need });
            start = due;
        }
    }
    random.shuffle(&mut jobs);
    Order { memories, jobs }
}

/// Most jobs fit every processor, so that a staircase is overfull with all 16 classes only.
fn small_needs(random: &mut Random) -> Order {
    let mut order = WIDE.draw(random);
    for job in &mut order.jobs {
        if random.between(1, 4) < 4 {
            job.need = 0;
        }
    }
    order
}

/// Long jobs that crowd onto the processors of the seven largest memories: many displace many.
fn large_needs(random: &mut Random) -> Order {
    let mut order = CROWDED.draw(random);
    for job in &mut order.jobs {
        job.need = random.between(STEP * 9 + 1, STEP * 16) as u32;
    }
    order
}
