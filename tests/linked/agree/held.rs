//! The jobs as they lie by falling need against the jobs in input order: "For every order the least
//! lateness, reasons, refusals and rows are equal to those of the input-order table." What is found of
//! the order whose input order is that in which the jobs lie is told by the numbers kept beside them.

use super::hold;
use crate::draw::times::{drawn, least as least_with};
use crate::draw::Random;
use crate::independent::{
    amounts, held, joined, late, least, order_of, plan, reason, timed_amounts, timed_joined,
    timed_plan, times_of, Held, Job, Order, Reason, Row, Times,
};

pub fn agree(random: &mut Random, order: &Order) -> Result<(), String> {
    let lying = held(order);
    rearranged(order, &lying)?;
    let found = least(order);
    let other = order_of(order, &lying);
    hold(order, "as late as its jobs lie", least(&other) == found)?;
    let late_at = |job: &Job| (i64::from(job.time) - job.end(1)) as i32;
    let late_at = order.jobs.iter().map(late_at);
    for bound in late_at.chain([found - 1, found, found + 1]) {
        let told = told(&other, &lying, bound);
        hold(order, "told as its jobs lie", told == reason(order, bound))?;
    }
    for bound in [found, found + 1, found + 9] {
        let rows = plan(&other, bound).map(|rows| named(&lying, rows));
        let same = rows == in_input_order(order, &lying, bound.into());
        hold(order, "laid out as its jobs lie", same)?;
    }
    timed(random, order, &lying, found)
}

/// "by falling need, ties in input order, each job once, with the input number kept beside each".
fn rearranged(order: &Order, lying: &[Held]) -> Result<(), String> {
    let mut numbers: Vec<u32> = lying.iter().map(|one| one.number).collect();
    numbers.sort();
    let each_once = numbers.into_iter().eq(1..=order.jobs.len() as u32);
    let own = |one: &Held| order.jobs[one.number as usize - 1] == one.job;
    hold(order, "held once each", each_once && lying.iter().all(own))?;
    let falls = |two: &[Held]| {
        let (need, next) = (two[0].job.need, two[1].job.need);
        need > next || need == next && two[0].number < two[1].number
    };
    hold(order, "held by need", lying.windows(2).all(falls))
}

/// The reason along the jobs as they lie: of those that are late the one with the smallest number.
fn told(other: &Order, lying: &[Held], bound: i32) -> Option<Reason> {
    let over = lying.iter().filter(|one| late(&one.job, bound));
    match over.min_by_key(|one| one.number) {
        None => reason(other, bound),
        Some(one) => Some(Reason::Job {
            job: one.number,
            time: one.job.time,
        }),
    }
}

/// Rows of the jobs as they lie, named by their numbers.
fn named(lying: &[Held], mut rows: Vec<Row>) -> Vec<Row> {
    let rename = |row: &mut Row| row[0] = lying[row[0] as usize - 1].number;
    rows.iter_mut().for_each(rename);
    rows
}

/// The rows of the same amounts from the jobs in input order.
fn in_input_order(order: &Order, lying: &[Held], bound: i64) -> Option<Vec<Row>> {
    let amounts = amounts(&order_of(order, lying), bound)?;
    Some(joined(order, bound, &by_number(lying, &amounts)))
}

/// Amounts of the jobs as they lie, moved to their numbers.
fn by_number(lying: &[Held], amounts: &[Vec<i64>]) -> Vec<Vec<i64>> {
    let of_stretch = |amounts: &Vec<i64>| {
        let mut moved = vec![0; lying.len()];
        for (one, amount) in lying.iter().zip(amounts) {
            moved[one.number as usize - 1] = *amount;
        }
        moved
    };
    amounts.iter().map(of_stretch).collect()
}

/// With ready minutes and windows, each ready minute where its job lies.
fn timed(random: &mut Random, order: &Order, lying: &[Held], found: i32) -> Result<(), String> {
    let times = drawn(random, order, found);
    let bound = least_with(order, &times, found).unwrap_or(found);
    let other = order_of(order, lying);
    for bound in [i64::from(bound) - 1, bound.into(), i64::from(bound) + 4] {
        let rows = timed_plan(&other, &times_of(&times, lying), bound);
        let rows = rows.map(|rows| named(lying, rows));
        let same = rows == timed_in_input_order(order, lying, &times, bound);
        hold(order, "laid out with times as its jobs lie", same)?;
    }
    Ok(())
}

/// The rows of the same amounts, where a plan is found from the jobs in input order too.
fn timed_in_input_order(
    order: &Order,
    lying: &[Held],
    times: &Times,
    bound: i64,
) -> Option<Vec<Row>> {
    timed_amounts(order, times, bound)?;
    let other = order_of(order, lying);
    let amounts = timed_amounts(&other, &times_of(times, lying), bound)?;
    let amounts = by_number(lying, &amounts);
    Some(timed_joined(order, times, bound, &amounts))
}
