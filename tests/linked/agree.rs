//! Holds the independent implementation against itself before anything else is held against it: the
//! flow against the staircases, the table of completions against trying each, tiny orders against a
//! search minute by minute, its plans against the four rules, its joined rows against its rows as
//! laid out, its files against their reader, its two readers of lines against each other, its books
//! against the orders, its two ways to list classes against each other, its plans with ready minutes
//! and windows against a search with them, its tables of needs against their ends, all that it finds
//! against the same with the jobs by falling need, its walks from lows to highs against the same halved, its
//! refusals for a screen against those for the dock, and its register blocks against the writes that they had.

mod block;
mod books;
mod classes;
mod estimates;
mod held;
mod joins;
pub mod needs;
mod screen;
mod times;

use crate::draw::held::HELD_FAMILIES;
use crate::draw::lines::changed;
use crate::draw::orders::{many_memories, tiny, LARGE_FAMILIES, SMALL_FAMILIES};
use crate::draw::Random;
use crate::independent::{
    composed, judge, least, least_between, meets, plan, read, read_by_form, read_by_trying, reason,
    reason_by_table, reason_by_trying, right, staircases, standing, write, Order,
};
use crate::search;
use std::collections::BTreeSet;

const FEW: usize = 20_000;
const FEW_LINES: usize = 300;

/// How many orders agreed, or in what one did not.
pub fn run(small: u64, large: u64) -> Result<u64, String> {
    for (families, times) in [(SMALL_FAMILIES, small), (LARGE_FAMILIES, large)] {
        for seed in 0..times {
            let mut random = Random::new(seed);
            let (_, family) = families[seed as usize % families.len()];
            let order = family(&mut random);
            agrees(&order)?;
            worded(&order, &mut random)?;
        }
    }
    for seed in 0..small {
        let mut random = Random::new(seed);
        let order = tiny(&mut random);
        searched(&order)?;
        times::searched(&mut random, &order)?;
    }
    for seed in 0..small / 2 {
        let mut random = Random::new(seed);
        let (_, family) = SMALL_FAMILIES[seed as usize % SMALL_FAMILIES.len()];
        let order = family(&mut random);
        times::agree(&mut random, &order)?;
        classes::agree(&many_memories(&mut random))?;
    }
    for seed in 0..small / 10 {
        let mut random = Random::new(seed);
        let (_, family) = HELD_FAMILIES[seed as usize % HELD_FAMILIES.len()];
        let order = family(&mut random);
        held::agree(&mut random, &order)?;
    }
    for seed in 0..small / 4 {
        let mut random = Random::new(seed);
        let (_, family) = SMALL_FAMILIES[seed as usize % SMALL_FAMILIES.len()];
        let order = family(&mut random);
        estimates::agree(&mut random, &order)?;
    }
    for seed in 0..small / 2 {
        screen::agree(&mut Random::new(seed), seed)?;
    }
    Ok(2 * (small + small / 2) + large + small / 10 + small / 4 + small / 2)
}

/// How many register blocks agreed, or in what one did not.
pub fn blocks(times: u64) -> Result<u64, String> {
    for seed in 0..times {
        block::agree(&mut Random::new(seed))?;
    }
    Ok(times)
}

fn agrees(order: &Order) -> Result<(), String> {
    let least = least(order);
    let (unmet, met) = least_between(order);
    let rows = plan(order, least).unwrap_or_default().concat();
    let planned = right(order, least.into(), &rows);
    let late = !right(order, i64::from(least) - 1, &rows);
    let read_again = read(&write(order));
    hold(order, "accepted", judge(order).is_none())?;
    hold(order, "read as written", read_again.as_ref() == Ok(order))?;
    hold(order, "unmet below its longest job", !meets(order, unmet))?;
    hold(order, "met one job after the other", meets(order, met))?;
    hold(order, "planned at its least", planned)?;
    hold(order, "late one below", late)?;
    for away in [-100, -2, -1, 0, 1, 100] {
        bounded(order, least + away, away >= 0)?;
    }
    for away in [0, 1, 100] {
        joins::agree(order, i64::from(least + away))?;
    }
    books::agree(order)?;
    classes::agree(order)
}

/// An order at a bound that is met or not: the flow, the staircases and both ways to find them
/// agree.
fn bounded(order: &Order, bound: i32, met: bool) -> Result<(), String> {
    let reason = reason(order, bound);
    hold(
        order,
        "met from its least on",
        meets(order, bound.into()) == met,
    )?;
    hold(order, "too tight just where unmet", reason.is_none() == met)?;
    hold(
        order,
        "equal by the table",
        reason == reason_by_table(order, bound),
    )?;
    let tried = staircases(order) > FEW || reason == reason_by_trying(order, bound);
    hold(order, "equal by trying each", tried)
}

/// The lines of an order with few staircases, at some bounds. Just where a bound is too tight some
/// line composes, no two are equal, each reads back both ways, and changed it reads the same both
/// ways.
fn worded(order: &Order, random: &mut Random) -> Result<(), String> {
    if staircases(order) > FEW_LINES {
        return Ok(());
    }
    let least = least(order);
    for bound in [least - 100, least - 2, least - 1, least] {
        let all = standing(order, bound);
        let line = |reason| composed(order, bound, reason);
        let lines: BTreeSet<String> = all.iter().map(line).collect();
        let told = all.is_empty() == (bound == least) && !lines.contains("");
        hold(order, "told just where too tight", told)?;
        hold(order, "told apart", lines.len() == all.len())?;
        let by_form = |line: &[u8]| read_by_form(order, bound, line);
        let by_trying = |line: &[u8]| read_by_trying(order, bound, line);
        let read = |reason| by_form(line(reason).as_bytes()).as_ref() == Some(reason);
        hold(order, "read back", all.iter().all(read))?;
        for _ in 0..all.len().min(4) {
            let good = line(&all[random.below(all.len())]);
            let bad = changed(random, &good);
            let same = |line: &[u8]| by_form(line) == by_trying(line);
            hold(order, "read alike", same(good.as_bytes()) && same(&bad))?;
        }
    }
    Ok(())
}

fn searched(order: &Order) -> Result<(), String> {
    let least = i64::from(least(order));
    hold(order, "met by search", search::meets(order, least))?;
    hold(order, "unmet by search", !search::meets(order, least - 1))
}

fn hold(order: &Order, what: &str, holds: bool) -> Result<(), String> {
    let told = || format!("the independent implementation: not {what}: {order:?}");
    holds.then_some(()).ok_or_else(told)
}
