//! The independent implementation as a library of twenty-six functions: what a linked library would do
//! that does just what is expected. The wrong libraries are made from it.

use crate::expect::{expected, Expected, Known};
use crate::independent::{plan, timed_plan};
use crate::lent::{held_numbers, Call};
use crate::library::{Function, Library};

pub const MODEL: Library = Library {
    judge: |call| run(Function::Judge, call),
    classes: |call| run(Function::Classes, call),
    least: |call| run(Function::Least, call),
    plan: |call| run(Function::Plan, call),
    book_least: |call| run(Function::BookLeast, call),
    book_plan: |call| run(Function::BookPlan, call),
    reason: |call| run(Function::Reason, call),
    sentence: |call| run(Function::Sentence, call),
    parse: |call| run(Function::Parse, call),
    check: |call| run(Function::Check, call),
    timed_rows: |call| run(Function::TimedRows, call),
    timed_plan: |call| run(Function::TimedPlan, call),
    timed_check: |call| run(Function::TimedCheck, call),
    needs: |call| run(Function::Needs, call),
    between: |call| run(Function::Between, call),
    between_order: |call| run(Function::BetweenOrder, call),
    write: |call| run(Function::Write, call),
    screen_judge: |call| run(Function::ScreenJudge, call),
    screen_least: |call| run(Function::ScreenLeast, call),
    screen_plan: |call| run(Function::ScreenPlan, call),
    screen_reason: |call| run(Function::ScreenReason, call),
    screen_sentence: |call| run(Function::ScreenSentence, call),
    screen_check: |call| run(Function::ScreenCheck, call),
    block_clear: |call| run(Function::BlockClear, call),
    block_write: |call| run(Function::BlockWrite, call),
    block_read: |call| run(Function::BlockRead, call),
};

fn run(function: Function, call: &mut Call) -> u32 {
    let mut known = Known::of(function.limits(), call.file.content());
    match expected(function, call, &mut known) {
        Expected::Refused(refusal) => return refusal.number + 256 * refusal.job,
        Expected::Answer(numbers) => call.answer.put(&numbers),
        Expected::Classes(classes) => {
            call.classes.put(&classes.concat());
            call.answer.put(&[classes.len() as i32]);
        }
        Expected::Plan {
            bound,
            times,
            lateness,
            book,
        } => {
            let rows = match times {
                None => plan(known.order(), bound),
                Some(times) => timed_plan(known.order(), &times, bound.into()),
            };
            let rows = rows.expect("the bound is met");
            call.rows.put(&rows.concat());
            let answer: Vec<i32> = lateness.into_iter().chain([rows.len() as i32]).collect();
            call.answer.put(&answer);
            if let Some(book) = book {
                call.book.put(&book);
            }
        }
        Expected::File(bytes) => {
            call.file.put(&bytes);
            call.answer.put(&[bytes.len() as i32]);
        }
        Expected::Line(line) => {
            call.line.put(line.as_bytes());
            call.answer.put(&[line.len() as i32]);
        }
        Expected::Needs(needs) => {
            call.needs.put(&needs);
            call.answer.put(&[needs.len() as i32]);
        }
        Expected::Order(bytes) => {
            call.order.put(&bytes);
            call.answer.put(&[bytes.len() as i32]);
        }
        Expected::Block { bytes, outcome } => {
            call.block.put(&bytes);
            if let Some(outcome) = outcome {
                let rows = |bound| plan(known.order(), bound).expect("the bound is met");
                let rows = outcome.planned_at().map_or(Vec::new(), rows);
                call.rows.put(&held_numbers(&rows));
            }
        }
    }
    0
}
