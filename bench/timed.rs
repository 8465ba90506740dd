//! Orders with ready minutes and windows: drawn ones of several families, and full ones, at whose bound
//! all 128 times of 48 jobs and 16 processors are distinct.

use crate::cases::{case_of, cut, Case, TIMED_ROWS_MOST};
use crate::families::{self, Family, FAMILIES, ORDERS_EACH};
use crate::orders::Order;
use crate::plain;
use crate::random::Random;

pub const DRAWN: &str = "drawn times";
pub const FULL: &str = "128 distinct times";

/// What an order is given beside its file.
pub struct Timed {
    /// the least bound that is met
    pub least: i32,
    /// that one or, where the times shall be distinct, the next one
    pub bound: i32,
    pub ready: Vec<u32>,
    pub windows: Vec<u32>,
    pub plan: Vec<u32>,
    /// the plan in as many rows as a check may have, shuffled; of few orders only, else empty
    pub long_plan: Vec<u32>,
}

/// From this bound on no end lies before the last closing.
const LOOSEST: i32 = 2_000_000;

const MINUTE_MOST: i32 = 1_000_000;

pub fn draw(seed: u64) -> Vec<Case> {
    let mut random = Random::new(seed);
    let mut cases = Vec::new();
    for (family, draw) in [(DRAWN, drawn as Draw), (FULL, full)] {
        for number in 0..ORDERS_EACH {
            let mut case = draw(&mut random, family, number);
            let plan = &case.times().plan;
            let mut rows = cut(plan, TIMED_ROWS_MOST);
            if number < 3 {
                random.shuffle(&mut rows);
                let times = case.times.as_mut().expect("the times just drawn");
                times.long_plan = rows.concat();
            }
            cases.push(case);
        }
    }
    cases
}

type Draw = fn(&mut Random, &'static str, usize) -> Case;

/// An order of each family in turn, with times around the work of a processor.
fn drawn(random: &mut Random, family: &'static str, number: usize) -> Case {
    let Family { draw, .. } = FAMILIES[number % FAMILIES.len()];
    loop {
        let order = draw(random);
        let case = case_of(&order, family);
        let last = last_end(&order, case.least).clamp(4, MINUTE_MOST / 4);
        let ready = order.jobs.iter().map(|_| random.between(0, last / 2));
        let ready = ready.map(|minute| minute as u32).collect();
        let mut windows = Vec::new();
        for _ in &order.memories {
            windows.push(random.between(0, last / 4) as u32);
            windows.push(random.between(last / 2, 4 * last) as u32);
        }
        if let Some(case) = with_times(case, ready, windows, 1) {
            return case;
        }
    }
}

/// Even minutes and due times, so that at an even bound every end is odd.
fn full(random: &mut Random, family: &'static str, _: usize) -> Case {
    loop {
        let mut order = families::wide(random);
        let mut minutes: Vec<i32> = (0..2_000).map(|half| 2 * half).collect();
        random.shuffle(&mut minutes);
        for (job, due) in order.jobs.iter_mut().zip(&minutes) {
            job.due = *due;
        }
        let mut minutes: Vec<u32> = (0..1_000).map(|half| 2 * half).collect();
        random.shuffle(&mut minutes);
        let ready = minutes.split_off(minutes.len() - order.jobs.len());
        let mut windows = Vec::new();
        for (opening, later) in minutes.iter().zip(1..).take(order.memories.len()) {
            windows.push(*opening);
            windows.push(4_000 + 2 * later);
        }
        if let Some(case) = with_times(case_of(&order, family), ready, windows, 2) {
            return case;
        }
    }
}

fn last_end(order: &Order, bound: i32) -> i32 {
    let ends = order.jobs.iter().map(|job| job.due + bound + 1);
    ends.max().unwrap_or(0)
}

/// A case with times, at the least bound that these let be met and that `step` divides; nothing where
/// none is met.
fn with_times(case: Case, ready: Vec<u32>, windows: Vec<u32>, step: i32) -> Option<Case> {
    let planned = |bound: i32| plan_at(&case.file, bound, &ready, &windows);
    let mut unmet = case.least - 1;
    let mut met = LOOSEST;
    planned(met)?;
    while met - unmet > 1 {
        let middle = unmet + (met - unmet) / 2;
        match planned(middle) {
            Some(_) => met = middle,
            None => unmet = middle,
        }
    }
    let bound = (met + step - 1).div_euclid(step) * step;
    let plan = planned(bound)?;
    let times = Timed {
        least: met,
        bound,
        ready,
        windows,
        plan,
        long_plan: Vec::new(),
    };
    Some(Case {
        times: Some(times),
        ..case
    })
}

/// The rows of a plan at a bound, if there is one.
fn plan_at(file: &[u8], bound: i32, ready: &[u32], windows: &[u32]) -> Option<Vec<u32>> {
    let mut rows = vec![0; 4 * TIMED_ROWS_MOST];
    let mut answer = [0];
    let result = plain::timed_plan(file, bound, ready, windows, &mut rows, &mut answer);
    assert!(result == 0 || result == 10, "drawn times are refused");
    rows.truncate(4 * answer[0] as usize);
    (result == 0).then_some(rows)
}
