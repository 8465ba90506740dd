//! Shows that the comparison has teeth: libraries that are each wrong in one thing, made from the
//! independent implementation. The unbroken one must pass, and each wrong one must be caught.

#[macro_use]
mod macros;

mod block;
mod block_reads;
mod block_room;
mod booked;
mod books;
mod buffers;
mod cases;
mod checks;
mod class_room;
mod classes;
mod commands;
mod ends;
mod files;
mod first_jobs;
mod flags;
mod forms;
mod full;
mod held;
mod highs;
mod joins;
mod judged;
mod judged_files;
mod kept;
mod leasts;
mod limits;
mod lines;
mod long_lists;
mod lying;
mod makers;
mod marks;
mod meeting;
mod met;
mod need_lists;
mod needs;
mod one_block;
mod open;
mod order_room;
mod paths;
mod plans;
mod ranges;
mod readings;
mod reasons;
mod refusals;
mod registers;
mod replies;
mod screen;
mod sentences;
mod spans;
mod tight;
mod timed;
mod times;
mod untimed;
mod words;

use crate::expect::Known;
use crate::independent::{judge_estimate, lists, read, Estimate, Job, Order, Row, Times, DOCK};
use crate::lent::{rows_of, Call};
use crate::library::{Entry, Function, Library};
use crate::model::MODEL;
use cases::{tried, Cases};

/// A function, what is wrong with it, and the wrong one.
type Wrong = (Function, &'static str, Entry);

/// Puts the unbroken library and all wrong ones before the comparison; answers the last line.
pub fn run() -> Result<String, String> {
    for cases in cases::ALL {
        let (unbroken, calls) = tried(MODEL, cases);
        if let Some(difference) = unbroken {
            return Err(format!(
                "the unbroken library is called wrong: {difference}"
            ));
        }
        println!("unbroken: {calls} calls, 0 differ");
    }
    let all = libraries();
    let mut missed = Vec::new();
    for (name, library, cases) in &all {
        let (difference, calls) = tried(*library, *cases);
        match difference {
            Some(_) => println!("caught at call {calls}: {name}"),
            None => missed.push(name.as_str()),
        }
    }
    if missed.is_empty() {
        return Ok(format!("broken: {} wrong libraries, all caught", all.len()));
    }
    Err(format!("broken: NOT caught: {}", missed.join("; ")))
}

/// The wrong things that need no times, no table of needs, no jobs that lie elsewhere, no highs, no screen and no
/// register block.
fn others() -> Vec<&'static [Wrong]> {
    let parts = [
        buffers::WRONG,
        refusals::WRONG,
        ranges::WRONG,
        files::WRONG,
        plans::WRONG,
        joins::WRONG,
        reasons::WRONG,
        sentences::WRONG,
        words::WRONG,
        lines::WRONG,
        readings::WRONG,
        checks::WRONG,
        ends::WRONG,
    ];
    [
        &parts,
        makers::PARTS,
        forms::PARTS,
        books::PARTS,
        booked::PARTS,
        full::PARTS,
        classes::PARTS,
        class_room::PARTS,
    ]
    .concat()
}

/// All wrong libraries, each with what is wrong with it, and what it is put before.
fn libraries() -> Vec<(String, Library, Cases)> {
    let of_times = [
        untimed::PARTS,
        times::PARTS,
        marks::PARTS,
        timed::PARTS,
        open::PARTS,
        tight::PARTS,
        kept::PARTS,
    ]
    .concat();
    let of_needs = [needs::PARTS, met::PARTS, need_lists::PARTS].concat();
    let of_held = [lying::PARTS, held::PARTS, first_jobs::PARTS].concat();
    let of_estimates = [
        paths::PARTS,
        leasts::PARTS,
        spans::PARTS,
        highs::PARTS,
        order_room::PARTS,
    ]
    .concat();
    let of_screen = [limits::PARTS, screen::PARTS, replies::PARTS].concat();
    let of_blocks = [
        block::PARTS,
        commands::PARTS,
        judged::PARTS,
        judged_files::PARTS,
        flags::PARTS,
        registers::PARTS,
        block_reads::PARTS,
        block_room::PARTS,
    ]
    .concat();
    let in_one = in_one_function(&others(), Cases::Others);
    let of_times = in_one_function(&of_times, Cases::Timed);
    let of_needs = in_one_function(&of_needs, Cases::Needs);
    let of_long_lists = in_one_function(long_lists::PARTS, Cases::LongLists);
    let of_held = in_one_function(&of_held, Cases::Held);
    let of_estimates = in_one_function(&of_estimates, Cases::Estimates);
    let of_screen = in_one_function(&of_screen, Cases::Screen);
    let of_blocks = in_one_function(&of_blocks, Cases::Blocks);
    let in_several = [ends::LIBRARIES, books::LIBRARIES].concat();
    let in_several = in_several_functions(&in_several, Cases::Others);
    let of_both_callers = in_several_functions(limits::LIBRARIES, Cases::Screen);
    let of_one_block = in_several_functions(one_block::LIBRARIES, Cases::Blocks);
    [
        in_one,
        of_times,
        of_needs,
        of_long_lists,
        of_held,
        of_estimates,
        of_screen,
        of_blocks,
        in_several,
        of_both_callers,
        of_one_block,
    ]
    .concat()
}

/// The libraries that are wrong in one function, which are put before these cases.
fn in_one_function(parts: &[&[Wrong]], cases: Cases) -> Vec<(String, Library, Cases)> {
    let library = |&(function, what, entry): &Wrong| {
        let name = format!("{} {what}", function.name());
        (name, MODEL.with(function, entry), cases)
    };
    parts.concat().iter().map(library).collect()
}

/// The libraries that are wrong in several functions, which are put before these cases.
fn in_several_functions(wrong: &[(&str, Library)], cases: Cases) -> Vec<(String, Library, Cases)> {
    let library = |(what, library): &(&str, Library)| {
        let name = format!("the library {what}");
        (name, *library, cases)
    };
    wrong.iter().map(library).collect()
}

/// The unbroken call, then a change where it succeeded.
fn answered(entry: Entry, call: &mut Call, change: impl FnOnce(&mut Call)) -> u32 {
    let result = entry(call);
    if result == 0 {
        change(call);
    }
    result
}

/// The unbroken call, then a change where it was refused.
fn refused(entry: Entry, call: &mut Call, change: impl FnOnce(&mut Call)) -> u32 {
    let result = entry(call);
    if result != 0 {
        change(call);
    }
    result
}

/// A plan that was written: its order, its bound, its rows.
struct Plan {
    order: Order,
    bound: i32,
    rows: Vec<Row>,
}

/// The plan that an answered call of the planner wrote.
fn plan_of(function: Function, call: &Call) -> Plan {
    let count = call.answer.content()[count_at(function)] as usize;
    Plan {
        order: accepted(call).expect("the call was answered"),
        bound: match function.finds_least() {
            true => call.answer.content()[0],
            false => call.bound,
        },
        rows: rows_of(&call.rows.content()[..4 * count]),
    }
}

/// Where the answer of a planner has the row count.
fn count_at(function: Function) -> usize {
    usize::from(function.finds_least())
}

/// The unbroken call of a planner, but with other rows where it succeeded and there is room for
/// them. The buffer beyond them is as it was.
fn replanned(function: Function, call: &mut Call, make: impl FnOnce(&Plan) -> Vec<Row>) -> u32 {
    let before = call.rows.clone();
    answered(MODEL.entry(function), call, |call| {
        let rows = make(&plan_of(function, call));
        if 4 * rows.len() <= call.rows.len() {
            call.rows = before;
            call.rows.put(&rows.concat());
            call.answer.content_mut()[count_at(function)] = rows.len() as i32;
        }
    })
}

/// The order of a call's file, where it is accepted.
fn accepted(call: &Call) -> Option<Order> {
    read(call.file.content()).ok()
}

/// The order and the times of a call that was answered.
fn given(call: &Call) -> (Order, Times) {
    let order = accepted(call).expect("the call was answered");
    let times = Times::of(&order, call.ready.content(), call.windows.content());
    let times = times.expect("the call was answered");
    (order, times)
}

/// The lows and highs lent to a function, accepted or not, where nothing is told before they are judged.
fn lent_estimate(function: Function, call: &Call) -> Option<Estimate> {
    let enough = call.answer.len() >= function.answer_length();
    let listed = lists(call.file.content()).filter(|_| enough)?;
    Estimate::of(&listed, call.highs.content())
}

/// The same where they are accepted.
fn estimate(function: Function, call: &Call) -> Option<Estimate> {
    lent_estimate(function, call).filter(|estimate| judge_estimate(estimate).is_none())
}

/// The least lateness of a call's accepted file.
fn least(call: &Call) -> i32 {
    Known::of(&DOCK, call.file.content()).least()
}

/// The memory of a job's class: the smallest that still suffices.
fn class_memory(order: &Order, job: &Job) -> u32 {
    let suffices = order.memories.iter().filter(|memory| **memory >= job.need);
    suffices.min().copied().expect("a job fits some processor")
}
