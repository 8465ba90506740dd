//! A table swept length by length against the ends of its lines alone: the smallest length that no line
//! meets is 1 or follows the last of some line, the smallest that two lines meet is the first of one. Of
//! an accepted table the lines have 100,000 lengths in all, and each listed length has one line.

use crate::draw::needs::{lengths, table};
use crate::draw::Random;
use crate::independent::{
    counted_lines, good_line, is_length, judge_lines, meets_length, needs_of, Line, Refusal,
    LONGEST_LENGTH,
};

/// How many tables agreed, or in what one did not.
pub fn run(times: u64) -> Result<u64, String> {
    for seed in 0..times {
        let mut random = Random::new(seed);
        let table = table(&mut random);
        let lengths = lengths(&mut random, &table);
        agrees(&table, &lengths)?;
    }
    Ok(times)
}

fn agrees(table: &[u32], lengths: &[u32]) -> Result<(), String> {
    let lines = counted_lines(table);
    let judged = judge_lines(&lines);
    hold(table, "judged alike by its ends", judged == by_ends(&lines))?;
    if judged.is_none() {
        let good = lines.iter().filter(|line| good_line(line));
        let all: u32 = good.map(|[from, to, _]| to - from + 1).sum();
        hold(table, "of 100,000 lengths in all", all == LONGEST_LENGTH)?;
    }
    if let Ok(needs) = needs_of(table, lengths, lengths.len()) {
        let own = lengths.iter().zip(&needs);
        let mut own = own.map(|(length, need)| of_one_line(&lines, *length, *need));
        hold(
            table,
            "giving each length its line's need",
            own.all(|one| one),
        )?;
    }
    Ok(())
}

/// The refusal of a table, by lengths at the ends of lines.
fn by_ends(lines: &[Line]) -> Option<Refusal> {
    let meeting = |length: u32| {
        lines
            .iter()
            .filter(|line| meets_length(line, length))
            .count()
    };
    let good: Vec<&Line> = lines.iter().filter(|line| good_line(line)).collect();
    let after = good.iter().map(|[_, to, _]| to + 1).chain([1]);
    let unmet = after.filter(|length| is_length(*length) && meeting(*length) == 0);
    let firsts = good.iter().map(|[from, _, _]| *from);
    let twice = firsts.filter(|length| meeting(*length) > 1);
    let about = |number: u32| move |job: u32| Refusal { number, job };
    unmet.min().map(about(17)).or(twice.min().map(about(18)))
}

/// Whether one line alone meets the length, and has the need.
fn of_one_line(lines: &[Line], length: u32, need: u32) -> bool {
    let mut own = lines.iter().filter(|line| meets_length(line, length));
    own.next().is_some_and(|line| line[2] == need) && own.next().is_none()
}

fn hold(table: &[u32], what: &str, holds: bool) -> Result<(), String> {
    let told = || format!("the independent implementation: not {what}: table {table:?}");
    holds.then_some(()).ok_or_else(told)
}
