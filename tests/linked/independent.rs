//! Documents 01 and 02 in plain Rust, made apart from the proved code and from their text alone:
//! orders, order files, classes, right plans and their joining, the least lateness, reasons and their
//! lines, books, plans with ready minutes and windows, needs from a table, jobs by falling need, times known
//! only between two numbers, the limits of dock and screen, the register block. Whether a bound is met is decided
//! by a maximum flow, never by the staircase sums, so that each of the two can be held against the other.

// a program that takes this module in may use only a part of it
#![allow(dead_code, unused_imports)]

#[path = "independent/accept.rs"]
mod accept;
#[path = "independent/amounts.rs"]
mod amounts;
#[path = "independent/block.rs"]
mod block;
#[path = "independent/book.rs"]
mod book;
#[path = "independent/classes.rs"]
mod classes;
#[path = "independent/clip.rs"]
mod clip;
#[path = "independent/estimate.rs"]
mod estimate;
#[path = "independent/flow.rs"]
mod flow;
#[path = "independent/held.rs"]
mod held;
#[path = "independent/join.rs"]
mod join;
#[path = "independent/limits.rs"]
mod limits;
#[path = "independent/needs.rs"]
mod needs;
#[path = "independent/order_file.rs"]
mod order_file;
#[path = "independent/pairs.rs"]
mod pairs;
#[path = "independent/reading.rs"]
mod reading;
#[path = "independent/reasons.rs"]
mod reasons;
#[path = "independent/rules.rs"]
mod rules;
#[path = "independent/sentence.rs"]
mod sentence;
#[path = "independent/timed.rs"]
mod timed;
#[path = "independent/times.rs"]
mod times;
#[path = "independent/wrap.rs"]
mod wrap;

pub use accept::{fits, is_due, is_made, is_time, judge, judge_counts, judge_within};
pub use amounts::{amounts, least, least_between, meets, plan};
pub use block::{Block, Outcome, LONGEST_FILE};
pub use book::{booked, minutes_of, MAKERS, MOST_BOOKED};
pub use classes::{class_list, Classes};
pub use clip::{clipped, clipped_to, joins, joins_over};
pub use estimate::{first_met, judge_estimate, leasts, met_by_halving, walk, Estimate};
pub use held::{held, order_of, times_of, Held};
pub use join::{join, joined};
pub use limits::{Limits, DOCK, SCREEN};
pub use needs::{
    counted_lines, good_line, is_length, judge_lengths, judge_lines, meets_length, need_of,
    needs_of, times_met, Line, LONGEST_LENGTH, TABLE_LINES,
};
pub use order_file::{lists, read, read_within, write};
pub use pairs::{join_pairs, left_to_join};
pub use reading::{read_back, read_by_form, read_by_trying, taken_apart, true_of, Said, Sentence};
pub use reasons::{overfull, reason, reason_by_table, reason_by_trying, staircases};
pub use rules::right;
pub use sentence::{composed, late, line_of, minutes, staircase, standing, stands};
pub use timed::{
    timed_amounts, timed_clipped, timed_joined, timed_layout, timed_meets, timed_plan, timed_right,
};
pub use times::{
    judge_times, open, timed_rows_asked, timed_stretches, Times, Window, MOST_MINUTE,
    MOST_TIMED_ROWS,
};
pub use wrap::{layout, rows_asked, stretches, wrap_along};

/// The most rows of a plan, and the most that the check takes.
pub const MOST_ROWS: usize = 3_024;

/// A job: minutes of work, due time, memory need, the number of its maker.
#[derive(Clone, Copy, Debug, PartialEq)]
pub struct Job {
    pub time: u32,
    pub due: i32,
    pub need: u32,
    pub maker: u32,
}

impl Job {
    pub fn end(&self, bound: i64) -> i64 {
        end(self.due, bound)
    }
}

/// "A job's end is due time plus bound plus 1 from here on, in plans, checks and staircases alike":
/// "due 10" is "done by the close of minute 10".
pub fn end(due: i32, bound: i64) -> i64 {
    i64::from(due).saturating_add(bound).saturating_add(1)
}

/// An order: a memory to each processor, and the jobs, both in input order.
#[derive(Clone, Debug, PartialEq)]
pub struct Order {
    pub memories: Vec<u32>,
    pub jobs: Vec<Job>,
}

/// A row of a plan: job, processor, from, to.
pub type Row = [u32; 4];

/// A refusal: its number in document 01's table or in document 02, and the job that it is about, of 16
/// the processor, of 17 and 18 the length, in a list of lengths the place, or 0.
#[derive(Clone, Copy, Debug, PartialEq)]
pub struct Refusal {
    pub number: u32,
    pub job: u32,
}

/// Why a bound is too tight: a job with its time, or the due times of classes 1 to k.
#[derive(Clone, Debug, PartialEq)]
pub enum Reason {
    Job { job: u32, time: u32 },
    Stairs(Vec<i32>),
}
