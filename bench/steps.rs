//! The steps of push and relabel at the least lateness, where amounts are scarcest, counted in the plain build of the library's
//! method. The library must write the same rows. Arguments: a name and an order file of which the steps are told too.

#[path = "plain/amounts.rs"]
mod amounts;
#[allow(dead_code)]
#[path = "../link/highboyrobin.rs"]
mod highboyrobin;
#[allow(dead_code)]
#[path = "plain/order.rs"]
mod order;
#[allow(dead_code)]
mod orders;
#[allow(dead_code)]
mod random;
#[allow(dead_code)]
#[path = "plain/read.rs"]
mod read;
#[allow(dead_code)]
#[path = "plain/setting.rs"]
mod setting;
#[allow(dead_code)]
#[path = "plain/stairs.rs"]
mod stairs;
#[allow(dead_code)]
#[path = "plain/times.rs"]
mod times;
mod worst;
#[path = "plain/wrap.rs"]
mod wrap;

use amounts::{Amounts, Watch};
use highboyrobin::Row;
use orders::{Job, Order};
use random::Random;
use setting::Setting;
use times::Always;

const SEED: u64 = 2;
const ORDERS_EACH: usize = 20;

#[derive(Clone, Copy, Default)]
struct Steps {
    pushes: usize,
    looks: usize,
    rises: usize,
}

impl Watch for Steps {
    fn look(&mut self) {
        self.looks += 1;
    }

    fn push(&mut self) {
        self.pushes += 1;
    }

    fn rise(&mut self) {
        self.rises += 1;
    }
}

/// The steps on an order, and its sizes: jobs, distinct due times, processors.
fn steps(file: &[u8]) -> (Steps, [usize; 3]) {
    let Ok(order) = read::read(file) else {
        panic!("an order is refused");
    };
    let setting = Setting::of(&order);
    let reach = stairs::least_reach(&setting);
    let marks = setting.marks(reach);
    let marks = &marks[..setting.due_count + 1];
    let bound = setting::bound_of(reach);
    let order = &order;
    let times = Always { order, bound };
    let mut amounts = Amounts::<{ order::MOST_JOBS }>::start(order, &setting, &times, marks);
    let mut steps = Steps::default();
    assert!(amounts.fill(&mut steps), "an order is not filled");
    let mut rows = vec![0; 4 * highboyrobin::MOST_ROWS];
    let count = wrap::lay(order, &setting, &times, marks, &amounts, &mut rows);
    compare(file, bound, &rows[..4 * count]);
    let sizes = [order.job_count, setting.due_count, order.processor_count];
    (steps, sizes)
}

/// The library has the same least lateness and writes the same rows.
fn compare(file: &[u8], bound: i32, rows: &[u32]) {
    let mut own = vec![Row::default(); highboyrobin::MOST_ROWS];
    let least = highboyrobin::least(file, &mut own).expect("the library takes the order");
    assert_eq!(least.lateness, bound, "least lateness differs");
    let own = own[..least.rows].iter();
    let own: Vec<u32> = own
        .flat_map(|row| [row.job, row.processor, row.from, row.to])
        .collect();
    assert!(own == rows, "rows differ");
}

/// A class to a processor; due times up to a third more than the mean work of a processor, each of them some job's.
struct Shape {
    name: &'static str,
    jobs: usize,
    dues: usize,
    processors: usize,
    times: (i32, i32),
}

impl Shape {
    fn draw(&self, random: &mut Random) -> Order {
        let mean = (self.times.0 + self.times.1) / 2;
        let last = mean * self.jobs as i32 / self.processors as i32 * 4 / 3;
        let mut dues = Vec::new();
        while dues.len() < self.dues {
            let due = random.between(0, last);
            if !dues.contains(&due) {
                dues.push(due);
            }
        }
        let jobs = (0..self.jobs).map(|j| Job {
            time: random.between(self.times.0, self.times.1),
            due: dues[j % self.dues],
            need: random.between(1, self.processors as i32) as u32,
        });
        let jobs = jobs.collect();
        let memories = (1..=self.processors as u32).collect();
        Order { memories, jobs }
    }
}

const WIDE: Shape = Shape {
    name: "drawn",
    jobs: 48,
    dues: 48,
    processors: 16,
    times: (1, 1000),
};

const SHAPES: [Shape; 7] = [
    Shape {
        jobs: 12,
        dues: 12,
        processors: 4,
        ..WIDE
    },
    Shape {
        jobs: 24,
        dues: 24,
        processors: 8,
        ..WIDE
    },
    Shape { dues: 12, ..WIDE },
    Shape { dues: 24, ..WIDE },
    WIDE,
    Shape {
        processors: 4,
        ..WIDE
    },
    Shape {
        name: "drawn, every time 100,000",
        times: (100_000, 100_000),
        ..WIDE
    },
];

/// A number below 1,000,000 as the table has it.
fn grouped(number: usize) -> String {
    match number / 1000 {
        0 => number.to_string(),
        thousands => format!("{thousands},{:03}", number % 1000),
    }
}

/// A row of the table: sizes where they are all the same, mean and most of each step.
fn tell(name: &str, files: &[Vec<u8>]) {
    let found: Vec<(Steps, [usize; 3])> = files.iter().map(|file| steps(file)).collect();
    let size = |i: usize| {
        let mut sizes: Vec<usize> = found.iter().map(|found| found.1[i]).collect();
        sizes.sort();
        sizes.dedup();
        let sizes: Vec<String> = sizes.iter().map(usize::to_string).collect();
        sizes.join(" or ")
    };
    let count = |of: fn(&Steps) -> usize| {
        let counts: Vec<usize> = found.iter().map(|found| of(&found.0)).collect();
        let mean = (counts.iter().sum::<usize>() + counts.len() / 2) / counts.len();
        let most = counts.iter().max().copied().unwrap_or(0);
        format!("{} / {}", grouped(mean), grouped(most))
    };
    println!(
        "| {name} | {} | {} | {} | {} | {} | {} |",
        size(0),
        size(1),
        size(2),
        count(|steps| steps.pushes),
        count(|steps| steps.looks),
        count(|steps| steps.rises)
    );
}

fn main() {
    let counted = ["pushes", "looks", "rises"].map(|name| format!("{name} mean / most"));
    let counted = counted.join(" | ");
    println!("| orders | jobs | due times | processors | {counted} |");
    println!("|---|---|---|---|---|---|---|");
    let mut random = Random::new(SEED);
    for shape in &SHAPES {
        let orders = (0..ORDERS_EACH).map(|_| shape.draw(&mut random));
        let files: Vec<Vec<u8>> = orders.map(|order| order.file()).collect();
        tell(shape.name, &files);
    }
    let orders = (0..ORDERS_EACH).map(|_| worst::draw(&mut random));
    let files: Vec<Vec<u8>> = orders.map(|order| order.file()).collect();
    tell("most steps found", &files);
    let mut arguments = std::env::args().skip(1);
    while let (Some(name), Some(path)) = (arguments.next(), arguments.next()) {
        let file = std::fs::read(&path).expect("an order file can be read");
        tell(&name, &[file]);
    }
}
