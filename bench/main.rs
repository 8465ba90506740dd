//! The benchmark: the static library beside a plain Rust build of its own method and an independent
//! implementation, on drawn orders of full size. Arguments: the date and the compiler's version, as
//! the report shall say them.

mod blocks;
mod cases;
mod clock;
mod compare;
mod compare_timed;
mod estimates;
mod families;
#[allow(dead_code)]
#[path = "../link/highboyrobin.rs"]
mod highboyrobin;
#[path = "../tests/linked/independent.rs"]
mod independent;
mod library;
mod numbers;
mod orders;
mod plain;
mod random;
mod report;
mod screens;
mod slow;
mod subjects;
mod tables;
mod timed;
mod worst;

use cases::Case;
use clock::Times;
use families::FAMILIES;
use subjects::{Task, SCREEN_TASKS, TASKS, TIMED_TASKS};

const SEED: u64 = 2;

fn main() {
    let cases = cases::draw(SEED);
    let slow = slow::draw(SEED);
    let screens = screens::draw(SEED);
    for (place, case) in cases.iter().chain(&slow).chain(&screens).enumerate() {
        compare::compare(place, case);
    }
    let timed = timed::draw(SEED);
    for (place, case) in timed.iter().enumerate() {
        compare_timed::compare(place, case);
    }
    println!("{}", origin());
    println!(
        "{} orders of 48 jobs, {} that are slow to check, {} within a screen's limits and {} with ready minutes \
         and windows, all answers equal.",
        cases.len(),
        slow.len(),
        screens.len(),
        timed.len()
    );
    println!("{}", clock::manner());
    println!();
    report::head("function");
    let mut least = Vec::new();
    for (task, name) in TASKS {
        let times = clock::time(task, &with_task(task, &cases));
        report::row(name, &times);
        if let Task::Least = task {
            least = times;
        }
    }
    let slow: Vec<&Case> = slow.iter().collect();
    let times = clock::time(Task::CheckLong, &slow);
    report::row("check of 3,024 shuffled rows of one minute", &times);
    for (task, name) in SCREEN_TASKS {
        let times = clock::time(task, &with_task(task, &screens));
        report::row(name, &times);
    }
    let mut timed_plans = Vec::new();
    for (task, name) in TIMED_TASKS {
        let times = clock::time(task, &with_task(task, &timed));
        report::row(name, &times);
        if let Task::TimedPlan = task {
            timed_plans = times;
        }
    }
    println!();
    report::head("least lateness with a plan, by family");
    for family in &FAMILIES {
        let of_family = cases
            .iter()
            .zip(&least)
            .filter(|(case, _)| case.family == family.name);
        let times: Vec<Times> = of_family.map(|(_, times)| *times).collect();
        report::row(family.name, &times);
    }
    println!();
    report::head("plan at the least bound, with times, by family");
    for family in [timed::DRAWN, timed::FULL] {
        let both = timed.iter().zip(&timed_plans);
        let of_family = both.filter(|(case, _)| case.family == family);
        let times: Vec<Times> = of_family.map(|(_, times)| *times).collect();
        report::row(family, &times);
    }
}

/// The cases that have a task.
fn with_task(task: Task, cases: &[Case]) -> Vec<&Case> {
    let has_task = |case: &&Case| match task {
        Task::CheckLong => !case.long_plan.is_empty(),
        Task::TimedCheckLong => !case.times().long_plan.is_empty(),
        _ => true,
    };
    cases.iter().filter(has_task).collect()
}

/// Processor, compiler and date.
fn origin() -> String {
    let mut arguments = std::env::args().skip(1);
    let date = arguments.next().unwrap_or("no date given".to_string());
    let compiler = arguments.next().unwrap_or("no compiler given".to_string());
    let about = std::fs::read_to_string("/proc/cpuinfo").unwrap_or_default();
    let name = about
        .lines()
        .find_map(|line| line.strip_prefix("model name"));
    let processor = name
        .unwrap_or("an unknown processor")
        .trim_start_matches(['\t', ' ', ':']);
    format!("{processor}; {compiler}; {date}.")
}
