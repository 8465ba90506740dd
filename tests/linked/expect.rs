//! What a call must answer, wholly by the independent implementation. "Of several refusals that
//! apply the first is told": 255, 254 or 253, 12, then 1 to 11 upwards with 13 right after 6, 19 after it, 15
//! and 16 right before 8, and 14 last of all; but 253 of ready minutes and windows and of highs comes after
//! 12, and 17 and 18 of a table of needs before 5. From a screen 21 stands for 2 and 20 for 4. A refused command of
//! a register block is a call that succeeds.

pub mod block;
mod estimates;
mod times;

use crate::independent::{
    self, Job, Limits, Order, Outcome, Reason, Refusal, Times, MAKERS, MOST_ROWS,
};
use crate::lent::Call;
use crate::library::{Function, CLASS_NUMBERS, MOST_LENGTHS, REASON_NUMBERS};
use block::blocked;
use estimates::{estimated, Estimated};
use std::ops::RangeInclusive;
use times::timed;

const BOUNDS: RangeInclusive<i32> = -10_000_000..=10_000_000;

#[derive(Debug)]
pub enum Expected {
    Refused(Refusal),
    /// These numbers in the answer, and nothing else written.
    Answer(Vec<i32>),
    /// These classes, memory and processors of each, and their count in the answer.
    Classes(Vec<[u32; 2]>),
    /// The rows of a plan at this bound, which keeps these times, if there are any; the answer is the
    /// lateness, if asked for, and the row count; these counts in the book, if it is booked.
    Plan {
        bound: i32,
        times: Option<Times>,
        lateness: Option<i32>,
        book: Option<Vec<u32>>,
    },
    /// These bytes in the file, and their count in the answer.
    File(Vec<u8>),
    /// These bytes in the line, and their count in the answer.
    Line(String),
    /// These needs, and their count in the answer.
    Needs(Vec<u32>),
    /// These bytes in the order, none where no order is met, and their count in the answer.
    Order(Vec<u8>),
    /// These bytes in the block; the rows held are as they were or, after a command, those of its plan with zeros
    /// behind them.
    Block {
        bytes: Vec<u8>,
        outcome: Option<Outcome>,
    },
}

/// The order of the file that was read last, by the limits of the caller who read it, its least lateness once
/// that was asked for, and what was found of the highs that were lent with it last.
pub struct Known {
    file: Vec<u8>,
    limits: &'static Limits,
    order: Result<Order, Refusal>,
    least: Option<i32>,
    estimated: Option<Estimated>,
}

impl Known {
    pub fn of(limits: &'static Limits, file: &[u8]) -> Known {
        Known {
            file: file.to_vec(),
            limits,
            order: independent::read_within(limits, file),
            least: None,
            estimated: None,
        }
    }

    /// Turns to this file and to a caller with these limits. The least lateness is the order's own, whoever
    /// asks for it.
    pub fn turn_to(&mut self, limits: &'static Limits, file: &[u8]) {
        if self.file != file {
            *self = Known::of(limits, file);
        }
        if self.limits != limits {
            self.limits = limits;
            self.order = independent::read_within(limits, file);
        }
    }

    /// The order of an accepted file.
    pub fn order(&self) -> &Order {
        self.order.as_ref().expect("the file is accepted")
    }

    pub fn least(&mut self) -> i32 {
        let least = self
            .least
            .unwrap_or_else(|| independent::least(self.order()));
        self.least = Some(least);
        least
    }
}

/// What the function must do with what it is lent: what the dock's of the same parameters must, by the limits
/// of its own caller.
pub fn expected(function: Function, call: &Call, known: &mut Known) -> Expected {
    let (limits, function) = (function.limits(), function.at_dock());
    if call.answer.len() < function.answer_length() {
        return refused(255, 0);
    }
    if function.takes_block() {
        return blocked(function, call, known);
    }
    if function == Function::Write {
        return written(call);
    }
    if function == Function::Needs {
        return needs(call);
    }
    if function == Function::Classes && call.classes.len() < CLASS_NUMBERS {
        return refused(253, 0);
    }
    if function == Function::Sentence && call.reason.len() < REASON_NUMBERS {
        return refused(253, 0);
    }
    if function.books() && call.book.len() < MAKERS {
        return refused(253, 0);
    }
    if function.takes_times() {
        return timed(function, call, known);
    }
    if function.takes_highs() {
        return estimated(function, call, known);
    }
    known.turn_to(limits, call.file.content());
    match refusal(function, call, known) {
        Some(refusal) => Expected::Refused(refusal),
        None => answer(function, call, known),
    }
}

fn refused(number: u32, job: u32) -> Expected {
    Expected::Refused(Refusal { number, job })
}

fn written(call: &Call) -> Expected {
    if call.jobs.len() % 4 != 0 {
        return refused(254, 0);
    }
    let order = listed(call);
    if let Some(refusal) = independent::judge(&order) {
        return Expected::Refused(refusal);
    }
    let file = independent::write(&order);
    if call.file.len() < file.len() {
        return refused(9, 0);
    }
    Expected::File(file)
}

/// The needs of the lengths lent to hbr_needs.
fn needs(call: &Call) -> Expected {
    let (table, lengths) = (call.table.content(), call.lengths.content());
    if lengths.len() > MOST_LENGTHS {
        return refused(253, 0);
    }
    match independent::needs_of(table, lengths, call.needs.len()) {
        Err(refusal) => Expected::Refused(refusal),
        Ok(needs) => Expected::Needs(needs),
    }
}

/// The order of the lists lent to hbr_write.
pub fn listed(call: &Call) -> Order {
    let job = |four: &[u32]| Job {
        time: four[0],
        due: four[1] as i32,
        need: four[2],
        maker: four[3],
    };
    Order {
        memories: call.memories.content().to_vec(),
        jobs: call.jobs.content().chunks_exact(4).map(job).collect(),
    }
}

/// The refusal of a function that reads a file: 12, those of an order, 8 to 11 upwards, but for a
/// line that is too long, then 14.
fn refusal(function: Function, call: &Call, known: &mut Known) -> Option<Refusal> {
    let order = match &known.order {
        Err(refusal) => return Some(*refusal),
        Ok(order) => order,
    };
    let asked = independent::rows_asked(order);
    let number = if function.takes_bound() && !BOUNDS.contains(&call.bound) {
        8
    } else if function.plans() && call.rows.len() / 4 < asked {
        9
    } else if function.plans() && function.takes_bound() && call.bound < known.least() {
        10
    } else if function == Function::Check && call.rows.len().div_ceil(4) > MOST_ROWS {
        11
    } else if function.books() && booked(call, known).is_none() {
        14
    } else {
        return None;
    };
    Some(Refusal { number, job: 0 })
}

/// The book once the plan is written, or none where a count would be over the most.
fn booked(call: &Call, known: &Known) -> Option<Vec<u32>> {
    independent::booked(call.book.content(), known.order())
}

/// The answer of a function that reads a file.
fn answer(function: Function, call: &Call, known: &mut Known) -> Expected {
    let bound = call.bound;
    match function {
        Function::Judge => Expected::Answer(counts(known.order())),
        Function::Classes => Expected::Classes(independent::class_list(known.order())),
        Function::Least | Function::BookLeast => Expected::Plan {
            bound: known.least(),
            times: None,
            lateness: Some(known.least()),
            book: function.books().then(|| booked(call, known)).flatten(),
        },
        Function::Plan | Function::BookPlan => Expected::Plan {
            bound,
            times: None,
            lateness: None,
            book: function.books().then(|| booked(call, known)).flatten(),
        },
        Function::Reason => {
            Expected::Answer(reason_numbers(independent::reason(known.order(), bound)))
        }
        Function::Sentence => sentence(call, known.order()),
        Function::Parse => {
            let read = independent::read_back(known.order(), bound, call.line.content());
            Expected::Answer(reason_numbers(read))
        }
        Function::Check => {
            let right = independent::right(known.order(), bound.into(), call.rows.content());
            Expected::Answer(vec![right.into()])
        }
        Function::Needs => needs(call),
        Function::Write => written(call),
        Function::TimedRows | Function::TimedPlan | Function::TimedCheck => {
            timed(function, call, known)
        }
        Function::Between | Function::BetweenOrder => estimated(function, call, known),
        Function::ScreenJudge
        | Function::ScreenLeast
        | Function::ScreenPlan
        | Function::ScreenReason
        | Function::ScreenSentence
        | Function::ScreenCheck => answer(function.at_dock(), call, known),
        Function::BlockClear | Function::BlockWrite | Function::BlockRead => {
            blocked(function, call, known)
        }
    }
}

/// The line of the reason lent, or 9; "anything else composes to an empty line".
fn sentence(call: &Call, order: &Order) -> Expected {
    let reason = reason_named(&call.reason.content()[..REASON_NUMBERS]);
    let composed = |reason| independent::composed(order, call.bound, &reason);
    let line = reason.map_or(String::new(), composed);
    if line.len() > call.line.len() {
        return refused(9, 0);
    }
    Expected::Line(line)
}

fn counts(order: &Order) -> Vec<i32> {
    let asked = independent::rows_asked(order);
    let counts = [order.memories.len(), order.jobs.len(), asked];
    counts.map(|count| count as i32).to_vec()
}

/// The 19 numbers of hbr_reason: its kind, job or class count, time, then the due times of the
/// classes.
pub fn reason_numbers(reason: Option<Reason>) -> Vec<i32> {
    let mut numbers = vec![0; REASON_NUMBERS];
    match reason {
        None => {}
        Some(Reason::Job { job, time }) => {
            numbers[..3].copy_from_slice(&[1, job as i32, time as i32]);
        }
        Some(Reason::Stairs(dues)) => {
            numbers[..2].copy_from_slice(&[2, dues.len() as i32]);
            numbers[3..3 + dues.len()].copy_from_slice(&dues);
        }
    }
    numbers
}

/// The reason that has these 19 numbers, whether it stands or not, or none where they are of no
/// reason's form.
pub fn reason_named(numbers: &[i32]) -> Option<Reason> {
    let reason = match numbers[0] {
        1 => Reason::Job {
            job: u32::try_from(numbers[1]).ok()?,
            time: u32::try_from(numbers[2]).ok()?,
        },
        2 => {
            let classes = usize::try_from(numbers[1]).ok()?;
            Reason::Stairs(numbers[3..].get(..classes)?.to_vec())
        }
        _ => return None,
    };
    (reason_numbers(Some(reason.clone())) == numbers).then_some(reason)
}
