//! Row lists that break one of the four rules and keep the others, where the order leaves room for
//! that: a check that leaves out that rule says yes.

use super::Random;
use crate::independent::{Order, Row};

/// A right plan at this bound with one rule broken, its rows shuffled.
pub fn one_rule_broken(random: &mut Random, order: &Order, bound: i32, plan: &[Row]) -> Vec<u32> {
    let mut rows = plan.to_vec();
    let place = random.below(rows.len());
    match random.below(10) {
        0 => name_nothing(random, order, &mut rows[place]),
        1 => rows.push(empty(rows[place])),
        2 => move_where(random, order, &mut rows, place, |fits, free| !fits && free),
        3 => move_where(random, order, &mut rows, place, |fits, free| fits && !free),
        4..=5 => run_beside_itself(random, order, &mut rows, place),
        6..=7 => end_late(random, order, bound, &mut rows, place),
        8 => lengthen(random, order, bound, &mut rows, place),
        _ => shorten(&mut rows, place),
    }
    random.shuffle(&mut rows);
    rows.concat()
}

fn name_nothing(random: &mut Random, order: &Order, row: &mut Row) {
    let counts = [order.jobs.len() as u32, order.memories.len() as u32];
    let at = random.below(2);
    row[at] = random.pick(&[0, counts[at] + 1, u32::MAX]);
}

fn empty([job, processor, from, _]: Row) -> Row {
    [job, processor, from, from]
}

/// Moves a row to a processor that fits its job or not, and is free in its minutes or not, as
/// wanted.
fn move_where(
    random: &mut Random,
    order: &Order,
    rows: &mut Vec<Row>,
    place: usize,
    wanted: fn(bool, bool) -> bool,
) {
    let row = rows.remove(place);
    let processor = processor_where(random, order, rows, row, wanted);
    rows.push([row[0], processor.unwrap_or(row[1]), row[2], row[3]]);
}

/// A processor for the job and the minutes of a row, as wanted, if there is one.
fn processor_where(
    random: &mut Random,
    order: &Order,
    rows: &[Row],
    [job, _, from, to]: Row,
    wanted: fn(bool, bool) -> bool,
) -> Option<u32> {
    let need = order.jobs[job as usize - 1].need;
    let mut found: Vec<u32> = (1..=order.memories.len() as u32).collect();
    found.retain(|&processor| {
        let fits = order.memories[processor as usize - 1] >= need;
        let meets = |row: &Row| row[1] == processor && row[2] < to && from < row[3];
        wanted(fits, !rows.iter().any(meets))
    });
    (!found.is_empty()).then(|| random.pick(&found))
}

/// Lets the second half of a row run at the time of the first, on another processor.
fn run_beside_itself(random: &mut Random, order: &Order, rows: &mut Vec<Row>, place: usize) {
    let [job, processor, from, to] = rows[place];
    let half = (to - from) / 2;
    let beside = [job, processor, from, from + half];
    let processor = processor_where(random, order, rows, beside, |fits, free| fits && free);
    if let (Some(processor), true) = (processor, half > 0) {
        rows[place][3] = to - half;
        rows.push([job, processor, from, from + half]);
    }
}

/// Moves the last row of a job so that it ends a minute after the job's end.
fn end_late(random: &mut Random, order: &Order, bound: i32, rows: &mut Vec<Row>, place: usize) {
    let job = rows[place][0];
    let own = (0..rows.len()).filter(|&at| rows[at][0] == job);
    let last = own.max_by_key(|&at| rows[at][2]).unwrap_or(place);
    let row = rows.remove(last);
    let to = order.jobs[job as usize - 1].end(bound.into()) as u32 + 1;
    let late = [job, row[1], to - (row[3] - row[2]), to];
    match processor_where(random, order, rows, late, |fits, free| fits && free) {
        Some(processor) => rows.push([job, processor, late[2], late[3]]),
        None => rows.push(row),
    }
}

/// Gives a job a minute more, in one that it and some processor have free.
fn lengthen(random: &mut Random, order: &Order, bound: i32, rows: &mut Vec<Row>, place: usize) {
    let job = rows[place][0];
    let end = order.jobs[job as usize - 1].end(bound.into()) as u32;
    let runs = |minute: u32| {
        let holds = |row: &Row| row[0] == job && (row[2]..row[3]).contains(&minute);
        rows.iter().any(holds)
    };
    let Some(from) = (end.saturating_sub(50)..end).find(|&minute| !runs(minute)) else {
        return;
    };
    let minute = [job, 0, from, from + 1];
    if let Some(processor) = processor_where(random, order, rows, minute, |fits, free| fits && free)
    {
        rows.push([job, processor, from, from + 1]);
    }
}

/// Takes a minute from a row, or the row where it has no other.
fn shorten(rows: &mut Vec<Row>, place: usize) {
    rows[place][3] -= 1;
    rows.retain(|row| row[2] < row[3]);
}
