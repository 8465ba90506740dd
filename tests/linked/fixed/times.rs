//! Document 02's §5: ready minutes and windows on document 01's orders, plans that are settled row by
//! row, what is counted as a time, and what no plan keeps.

use super::{a, case, d, order};
use crate::independent::{write, Order, Row};
use crate::lent::{rows_of, Call};
use crate::library::Function;
use crate::trial::Trial;

pub const MOST: u32 = 1_000_000;

/// What takes long comes last.
pub fn run(trial: &mut Trial) {
    of_c(trial);
    super::untimed::run(trial);
    super::kept::run(trial);
    of_a_and_d(trial);
    settled(trial);
    counted(trial);
    never(trial);
    most(trial);
    super::kept::many_rows(trial);
}

/// An order with its ready minutes and its windows.
pub struct Timed {
    pub order: Order,
    pub ready: Vec<u32>,
    pub windows: Vec<u32>,
}

impl Timed {
    pub fn of(order: Order, ready: &[u32], windows: &[[u32; 2]]) -> Timed {
        Timed {
            order,
            ready: ready.to_vec(),
            windows: windows.concat(),
        }
    }

    /// A call at a bound with room for so many rows.
    pub fn call(&self, trial: &mut Trial, bound: i32, rows: usize) -> Call {
        Call::with_file(&mut trial.random, &write(&self.order), 1)
            .with_times(&mut trial.random, &self.ready, &self.windows)
            .with_room(&mut trial.random, 4 * rows)
            .at(bound)
    }

    /// So many rows are asked for at a bound, and one less is too few, with a plan or without.
    pub fn asks(&self, trial: &mut Trial, bound: i32, rows: usize) {
        let call = self.call(trial, bound, 0);
        case(trial, Function::TimedRows, call, 0, &[rows as i32]);
        let call = self.call(trial, bound, rows - 1);
        case(trial, Function::TimedPlan, call, 9, &[]);
    }

    /// No plan meets the bound, where so many rows are asked for.
    pub fn tight(&self, trial: &mut Trial, bound: i32, rows: usize) {
        self.asks(trial, bound, rows);
        let call = self.call(trial, bound, rows);
        case(trial, Function::TimedPlan, call, 10, &[]);
    }

    /// These rows are a plan at the bound, by the check, or are none.
    pub fn checked(&self, trial: &mut Trial, bound: i32, rows: &[Row], right: bool) {
        let call = self.call(trial, bound, 0);
        let call = call.with_rows(&mut trial.random, &rows.concat());
        case(trial, Function::TimedCheck, call, 0, &[right.into()]);
    }

    /// Some plan of so many rows meets the bound, where so many are asked for; these rows are one.
    fn planned(&self, trial: &mut Trial, bound: i32, asked: usize, rows: &[Row]) {
        self.asks(trial, bound, asked);
        self.checked(trial, bound, rows, true);
        let call = self.call(trial, bound, asked);
        case(trial, Function::TimedPlan, call, 0, &[]);
    }

    /// This plan, and no other, meets the bound.
    pub fn settled(&self, trial: &mut Trial, bound: i32, asked: usize, rows: &[Row]) {
        self.planned(trial, bound, asked, rows);
        let call = self.call(trial, bound, asked);
        if let Some((_, after)) = trial.call(Function::TimedPlan, call) {
            let written = rows_of(after.rows.content());
            let count = after.answer.content()[0];
            if count != rows.len() as i32 || !written.starts_with(rows) {
                let told = format!("{count} rows {written:?}, not {rows:?}");
                trial.differs(format!("{told}, of {:?}", self.order));
            }
        }
    }
}

/// C, memory 4 and job (3, 10, 4), with one ready minute and one window.
pub fn c_with(ready: u32, window: [u32; 2]) -> Timed {
    Timed::of(super::c(), &[ready], &[window])
}

fn of_c(trial: &mut Trial) {
    let late = c_with(5, [0, 100]);
    late.tight(trial, -4, 4);
    late.settled(trial, -3, 4, &[[1, 1, 5, 8]]);
    let short = c_with(0, [4, 6]);
    for bound in [-10_000_000, -8, 0, 10_000_000] {
        short.tight(trial, bound, 4);
    }
    let exact = c_with(0, [4, 7]);
    exact.settled(trial, -4, 3, &[[1, 1, 4, 7]]);
    exact.tight(trial, -5, 4);
    // ready after its end, at it, and just so long before the closing
    c_with(12, [0, 100]).tight(trial, 0, 4);
    c_with(11, [0, 100]).tight(trial, 0, 3);
    c_with(97, [0, 100]).settled(trial, 1_000, 4, &[[1, 1, 97, 100]]);
    c_with(98, [0, 100]).tight(trial, 1_000, 4);
    c_with(MOST - 3, [0, MOST]).settled(trial, MOST as i32, 4, &[[1, 1, MOST - 3, MOST]]);
    c_with(MOST, [0, MOST]).tight(trial, 10_000_000, 3);
}

fn of_a_and_d(trial: &mut Trial) {
    let d = Timed::of(d(), &[0, 0, 0], &[[0, 2], [2, 9]]);
    d.planned(trial, -2, 16, &[[1, 1, 0, 1], [2, 1, 1, 2], [3, 2, 2, 3]]);
    d.tight(trial, -3, 12);
    let a = Timed::of(a(), &[0, 0, 1], &[[0, 4], [1, 6]]);
    let rows = [[1, 1, 0, 3], [2, 1, 3, 4], [2, 2, 1, 3], [3, 2, 3, 5]];
    a.planned(trial, 0, 20, &rows);
    a.tight(trial, -1, 20);
}

/// Orders whose jobs fill every open stretch in one way only.
fn settled(trial: &mut Trial) {
    let two = order(&[8, 4], &[(4, 4, 8), (2, 2, 4)]);
    let two = Timed::of(two, &[0, 1], &[[0, 9], [0, 9]]);
    two.checked(trial, 0, &[[1, 1, 0, 4], [2, 2, 1, 3]], true);
    two.asks(trial, 0, 15);
    // joined over the opening of another processor
    let opens = order(&[8, 4], &[(10, 9, 8), (5, 9, 4)]);
    let opens = Timed::of(opens, &[0, 0], &[[0, 10], [5, 10]]);
    opens.settled(trial, 0, 9, &[[1, 1, 0, 10], [2, 2, 5, 10]]);
    // joined over the ready minute of another job, and over its end
    let within = order(&[8, 4], &[(12, 11, 8), (3, 7, 4)]);
    let within = Timed::of(within, &[0, 5], &[[0, 12], [0, 12]]);
    within.settled(trial, 0, 12, &[[1, 1, 0, 12], [2, 2, 5, 8]]);
    // one processor closes where the next one opens
    let rests = order(&[8, 8], &[(10, 9, 8)]);
    let rests = Timed::of(rests, &[0], &[[0, 5], [5, 10]]);
    rests.settled(trial, 0, 6, &[[1, 1, 0, 5], [1, 2, 5, 10]]);
    // in each stretch the first of the open processors is filled first
    let three = order(&[8, 8, 8], &[(10, 9, 8), (5, 9, 7), (5, 4, 7)]);
    let three = Timed::of(three, &[0, 5, 0], &[[5, 10], [0, 5], [0, 10]]);
    let rows = [[1, 2, 0, 5], [3, 3, 0, 5], [1, 1, 5, 10], [2, 3, 5, 10]];
    three.settled(trial, 0, 15, &rows);
    // a large memory that opens late is of no use before
    let large = order(&[4, 8], &[(5, 9, 8), (5, 4, 4)]);
    let large = Timed::of(large, &[0, 0], &[[0, 5], [5, 10]]);
    large.settled(trial, 0, 9, &[[2, 1, 0, 5], [1, 2, 5, 10]]);
    let closed = order(&[4, 8], &[(5, 4, 8), (5, 4, 4)]);
    Timed::of(closed, &[0, 0], &[[0, 5], [5, 10]]).tight(trial, 0, 9);
}

/// "E being the distinct ready minutes, ends, openings and closings": ends before the start count each.
fn counted(trial: &mut Trial) {
    let early = order(&[4], &[(1, 10, 4), (1, 11, 4)]);
    let early = Timed::of(early, &[0, 0], &[[0, 7]]);
    early.tight(trial, -20, 8);
    early.tight(trial, -11, 6);
    // 2 ready minutes, 2 ends, 2 openings, 2 closings, and then some of them one
    let all = order(&[4, 4], &[(1, 10, 4), (1, 20, 4)]);
    let counts = [
        ([1, 2], [[3, 40], [4, 50]], 8),
        ([1, 1], [[3, 40], [4, 50]], 7),
        ([1, 2], [[3, 40], [3, 50]], 7),
        ([1, 2], [[3, 40], [4, 40]], 7),
        ([1, 2], [[1, 40], [2, 50]], 6),
        ([1, 2], [[3, 11], [4, 21]], 6),
        ([11, 2], [[3, 40], [4, 50]], 7),
        ([40, 2], [[3, 40], [4, 50]], 7),
        ([1, 2], [[3, 40], [40, 50]], 7),
        ([0, 0], [[0, 11], [11, 21]], 3),
    ];
    for (ready, windows, times) in counts {
        Timed::of(all.clone(), &ready, &windows).asks(trial, 0, 3 * times);
    }
}

/// 48 jobs on 16 processors with 128 distinct times ask for the most rows.
fn most(trial: &mut Trial) {
    let jobs: Vec<(u32, i32, u32)> = (0..48).map(|j| (10, 500 + j, 1)).collect();
    let windows: Vec<[u32; 2]> = (0..16).map(|p| [100 + p, 900 + p]).collect();
    let ready: Vec<u32> = (0..48).collect();
    let full = Timed::of(order(&[4; 16], &jobs), &ready, &windows);
    full.asks(trial, 0, 8_064);
    let call = full.call(trial, 0, 8_064);
    case(trial, Function::TimedPlan, call, 0, &[]);
}

/// 20 jobs of 100,000 minutes on one processor: they end at 2,000,000, which no window reaches.
fn never(trial: &mut Trial) {
    let long = order(&[4], &[(100_000, 0, 4); 20]);
    let call = super::on(&mut trial.random, &long);
    case(trial, Function::Least, call, 0, &[1_999_999, 20]);
    let long = Timed::of(long, &[0; 20], &[[0, MOST]]);
    long.tight(trial, 1_999_999, 60);
    long.tight(trial, 10_000_000, 60);
    let ten = order(&[4], &[(100_000, 0, 4); 10]);
    let ten = Timed::of(ten, &[0; 10], &[[0, MOST]]);
    ten.tight(trial, 999_998, 30);
    let call = ten.call(trial, 999_999, 20);
    case(trial, Function::TimedPlan, call, 0, &[10]);
}
