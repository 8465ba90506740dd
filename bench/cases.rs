//! The cases: a file of each drawn order, its least lateness, a looser bound, plans to check, a reason
//! with its line, a table of needs, and highs beside its times.

use crate::blocks::Block;
use crate::estimates::{self, Estimate};
use crate::families::{FAMILIES, ORDERS_EACH};
use crate::orders::Order;
use crate::plain;
use crate::random::Random;
use crate::tables::{self, Table};
use crate::timed::Timed;

pub struct Case {
    pub family: &'static str,
    pub file: Vec<u8>,
    pub least: i32,
    /// later by the longest job's time
    pub looser: i32,
    pub plan: Vec<u32>,
    /// a plan of as many rows as a check may have, shuffled; of the first order of a family only,
    /// else empty
    pub long_plan: Vec<u32>,
    /// the reason one minute below the least lateness, and its line
    pub reason: [i32; 19],
    pub line: Vec<u8>,
    pub table: Table,
    pub estimate: Estimate,
    /// a register block that has planned the order, where the case is within a screen's limits
    pub block: Option<Block>,
    /// ready minutes and windows, where the case is about these
    pub times: Option<Timed>,
}

impl Case {
    /// The times of a case that has some.
    pub fn times(&self) -> &Timed {
        self.times.as_ref().expect("a case with times")
    }
}

/// The most rows of a plan, and of a check.
pub const ROWS_MOST: usize = 3024;

/// The same with ready minutes and windows.
pub const TIMED_ROWS_MOST: usize = 8064;

/// The most bytes of an order file.
pub const FILE_MOST: usize = 844;

/// The numbers to lend for classes.
pub const CLASS_NUMBERS: usize = 32;

/// The most bytes of a line.
pub const LINE_MOST: usize = 541;

pub fn draw(seed: u64) -> Vec<Case> {
    let mut random = Random::new(seed);
    let mut cases = Vec::new();
    for family in &FAMILIES {
        for number in 0..ORDERS_EACH {
            let order = (family.draw)(&mut random);
            let mut case = case_of(&order, family.name);
            if number == 0 {
                let mut rows = cut(&case.plan, ROWS_MOST);
                random.shuffle(&mut rows);
                case.long_plan = rows.concat();
            }
            cases.push(case);
        }
    }
    cases
}

/// An order's case, without a long plan.
pub fn case_of(order: &Order, family: &'static str) -> Case {
    let file = order.file();
    let mut rows = vec![0; 4 * ROWS_MOST];
    let mut answer = [0; 2];
    let result = plain::least(&file, &mut rows, &mut answer);
    assert_eq!(result, 0, "a drawn order is refused");
    let [least, count] = answer;
    rows.truncate(4 * count as usize);
    let (reason, line) = told(&file, least - 1);
    let table = tables::draw(&file);
    let estimate = estimates::draw(order, &file);
    Case {
        family,
        file,
        least,
        looser: least + order.longest_time(),
        plan: rows,
        long_plan: Vec::new(),
        reason,
        line,
        table,
        estimate,
        block: None,
        times: None,
    }
}

/// The reason at a bound that is too tight, and its line.
fn told(file: &[u8], bound: i32) -> ([i32; 19], Vec<u8>) {
    let mut reason = [0; 19];
    let mut line = vec![0; LINE_MOST];
    let mut answer = [0];
    let result = plain::reason(file, bound, &mut reason);
    assert_eq!(result, 0, "a reason is refused");
    let result = plain::sentence(file, bound, &reason, &mut line, &mut answer);
    assert_eq!(result, 0, "a line is refused");
    line.truncate(answer[0] as usize);
    assert!(!line.is_empty(), "a reason does not stand");
    (reason, line)
}

/// Rows are halved, one after the other, until there are so many or each is a minute long.
pub fn cut(plan: &[u32], most: usize) -> Vec<[u32; 4]> {
    let mut rows: Vec<[u32; 4]> = plan
        .chunks_exact(4)
        .map(|row| [row[0], row[1], row[2], row[3]])
        .collect();
    let mut i = 0;
    while i < rows.len() && rows.len() < most {
        let [job, processor, from, to] = rows[i];
        let half = from + (to - from) / 2;
        if from < half {
            rows[i][3] = half;
            rows.push([job, processor, half, to]);
        }
        i += 1;
    }
    rows
}
