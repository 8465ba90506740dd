//! The three implementations that are compared, each behind a function that does one task on one
//! case.

use crate::blocks::{self, Block};
use crate::cases::{Case, CLASS_NUMBERS, FILE_MOST, LINE_MOST, TIMED_ROWS_MOST};
use crate::estimates::Estimate;
use crate::independent::{Order, Times, MAKERS};
use crate::tables::{Table, LENGTHS};
use crate::timed::Timed;
use crate::{independent, library, numbers, plain};
use std::hint::black_box;

/// The C interface on slices, as the library and its plain build both have it.
pub struct Functions {
    pub judge: fn(&[u8], &mut [i32]) -> u32,
    pub classes: fn(&[u8], &mut [u32], &mut [i32]) -> u32,
    pub needs: fn(&[u32], &[u32], &mut [u32], &mut [i32]) -> u32,
    pub least: fn(&[u8], &mut [u32], &mut [i32]) -> u32,
    pub plan: fn(&[u8], i32, &mut [u32], &mut [i32]) -> u32,
    pub screen_plan: fn(&[u8], i32, &mut [u32], &mut [i32]) -> u32,
    pub block_clear: fn(&mut [u8], &mut [u32]) -> u32,
    pub block_write: fn(&mut [u8], &mut [u32], u8, u8) -> u32,
    pub block_read: fn(&[u8], &[u32], u8, &mut [i32]) -> u32,
    pub book_least: fn(&[u8], &mut [u32], &mut [u32], &mut [i32]) -> u32,
    pub book_plan: fn(&[u8], i32, &mut [u32], &mut [u32], &mut [i32]) -> u32,
    pub reason: fn(&[u8], i32, &mut [i32]) -> u32,
    pub sentence: fn(&[u8], i32, &[i32], &mut [u8], &mut [i32]) -> u32,
    pub parse: fn(&[u8], i32, &[u8], &mut [i32]) -> u32,
    pub check: fn(&[u8], i32, &[u32], &mut [i32]) -> u32,
    pub timed_rows: fn(&[u8], i32, &[u32], &[u32], &mut [i32]) -> u32,
    pub timed_plan: fn(&[u8], i32, &[u32], &[u32], &mut [u32], &mut [i32]) -> u32,
    pub timed_check: fn(&[u8], i32, &[u32], &[u32], &[u32], &mut [i32]) -> u32,
    pub between: fn(&[u8], &[u32], &mut [i32]) -> u32,
    pub between_order: fn(&[u8], &[u32], i32, &mut [u8], &mut [i32]) -> u32,
}

pub const LIBRARY: Functions = Functions {
    judge: library::judge,
    classes: library::classes,
    needs: library::needs,
    least: library::least,
    plan: library::plan,
    screen_plan: library::screen_plan,
    block_clear: library::block_clear,
    block_write: library::block_write,
    block_read: library::block_read,
    book_least: library::book_least,
    book_plan: library::book_plan,
    reason: library::reason,
    sentence: library::sentence,
    parse: library::parse,
    check: library::check,
    timed_rows: library::timed_rows,
    timed_plan: library::timed_plan,
    timed_check: library::timed_check,
    between: library::between,
    between_order: library::between_order,
};

pub const PLAIN: Functions = Functions {
    judge: plain::judge,
    classes: plain::classes,
    needs: plain::needs,
    least: plain::least,
    plan: plain::plan,
    screen_plan: plain::screen_plan,
    block_clear: plain::block_clear,
    block_write: plain::block_write,
    block_read: plain::block_read,
    book_least: plain::book_least,
    book_plan: plain::book_plan,
    reason: plain::reason,
    sentence: plain::sentence,
    parse: plain::parse,
    check: plain::check,
    timed_rows: plain::timed_rows,
    timed_plan: plain::timed_plan,
    timed_check: plain::timed_check,
    between: plain::between,
    between_order: plain::between_order,
};

#[derive(Clone, Copy)]
pub enum Task {
    Judge,
    Classes,
    Needs,
    Least,
    PlanAtLeast,
    PlanLooser,
    ScreenPlan,
    BlockLeast,
    BlockPlan,
    BlockWrites,
    BlockReads,
    BookLeast,
    BookPlan,
    Between,
    BetweenOrder,
    Reason,
    Sentence,
    Parse,
    Check,
    CheckLong,
    TimedRows,
    TimedPlan,
    TimedCheck,
    TimedCheckLong,
}

pub const TASKS: [(Task, &str); 15] = [
    (Task::Judge, "judge a file"),
    (Task::Classes, "classes of a file"),
    (Task::Needs, "needs of 48 lengths from a table of 32 lines"),
    (Task::Least, "least lateness with a plan"),
    (Task::PlanAtLeast, "plan at the least lateness"),
    (Task::PlanLooser, "plan at a looser bound"),
    (Task::BookLeast, "least lateness with a plan, booked"),
    (Task::BookPlan, "plan at the least lateness, booked"),
    (Task::Between, "least lateness at lows and at highs"),
    (Task::BetweenOrder, "order of the number in the middle"),
    (Task::Reason, "reason one minute below the least"),
    (Task::Sentence, "sentence of that reason"),
    (Task::Parse, "reading that sentence back"),
    (Task::Check, "check of that plan"),
    (Task::CheckLong, "check of it in 3,024 shuffled rows"),
];

/// How many writes or reads of a block are timed together: one alone is no longer than a look at the clock.
pub const BUS: usize = 1000;

/// The tasks of cases within a screen's limits: the same plan from either caller and by the commands of a
/// block, a write that is no command and a read of a row's byte.
pub const SCREEN_TASKS: [(Task, &str); 6] = [
    (Task::PlanAtLeast, "plan of 12 jobs on 4 processors"),
    (Task::ScreenPlan, "the same plan from a screen"),
    (Task::BlockPlan, "the same plan by command 1 of a block"),
    (Task::BlockLeast, "the same plan by command 2 of a block"),
    (Task::BlockWrites, "1,000 writes to byte 40 of a block"),
    (Task::BlockReads, "1,000 reads of byte 16 of a block"),
];

/// The tasks of cases with ready minutes and windows.
pub const TIMED_TASKS: [(Task, &str); 4] = [
    (Task::TimedRows, "rows asked for, with times"),
    (Task::TimedPlan, "plan at the least bound, with times"),
    (Task::TimedCheck, "check of that plan, with times"),
    (
        Task::TimedCheckLong,
        "check of it in 8,064 shuffled rows, with times",
    ),
];

/// What a call writes to, never cleared between calls but for the book, which each call is given just
/// opened, and the block, which is the case's own.
pub struct Buffers {
    pub classes: [u32; CLASS_NUMBERS],
    pub needs: [u32; LENGTHS],
    pub rows: Vec<u32>,
    pub book: [u32; MAKERS],
    pub line: Vec<u8>,
    pub order: [u8; FILE_MOST],
    pub block: Block,
    pub answer: [i32; 19],
}

impl Buffers {
    pub fn new() -> Buffers {
        Buffers {
            classes: [0; CLASS_NUMBERS],
            needs: [0; LENGTHS],
            rows: vec![0; 4 * TIMED_ROWS_MOST],
            book: [0; MAKERS],
            line: vec![0; LINE_MOST],
            order: [0; FILE_MOST],
            block: Block::cleared(),
            answer: [0; 19],
        }
    }

    /// The block of a case that has one.
    pub fn hold(&mut self, case: &Case) {
        if let Some(block) = &case.block {
            self.block = block.clone();
        }
    }
}

pub fn run(functions: &Functions, task: Task, case: &Case, buffers: &mut Buffers) -> u32 {
    let Buffers {
        classes,
        needs,
        rows,
        book,
        line,
        order,
        block,
        answer,
    } = buffers;
    book.fill(0);
    let file = black_box(&case.file[..]);
    let tight = case.least - 1;
    match task {
        Task::Judge => (functions.judge)(file, answer),
        Task::Classes => (functions.classes)(file, classes, answer),
        Task::Needs => {
            let Table { numbers, lengths } = black_box(&case.table);
            (functions.needs)(numbers, lengths, needs, answer)
        }
        Task::Least => (functions.least)(file, rows, answer),
        Task::PlanAtLeast => (functions.plan)(file, case.least, rows, answer),
        Task::PlanLooser => (functions.plan)(file, case.looser, rows, answer),
        Task::ScreenPlan => (functions.screen_plan)(file, case.least, rows, answer),
        Task::BlockLeast => command(functions, block, 2),
        Task::BlockPlan => command(functions, block, 1),
        Task::BlockWrites => bus(|| {
            let Block { bytes, rows } = &mut *block;
            (functions.block_write)(bytes, rows, black_box(40), black_box(9))
        }),
        Task::BlockReads => bus(|| {
            let Block { bytes, rows } = &*block;
            (functions.block_read)(bytes, rows, black_box(16), answer)
        }),
        Task::BookLeast => (functions.book_least)(file, rows, book, answer),
        Task::BookPlan => (functions.book_plan)(file, case.least, rows, book, answer),
        Task::Reason => (functions.reason)(file, tight, answer),
        Task::Sentence => (functions.sentence)(file, tight, &case.reason, line, answer),
        Task::Parse => (functions.parse)(file, tight, &case.line, answer),
        Task::Check => (functions.check)(file, case.least, &case.plan, answer),
        Task::CheckLong => (functions.check)(file, case.least, &case.long_plan, answer),
        Task::Between => (functions.between)(file, black_box(&case.estimate.highs), answer),
        Task::BetweenOrder => {
            let Estimate { highs, number, .. } = black_box(&case.estimate);
            (functions.between_order)(file, highs, *number, order, answer)
        }
        _ => run_timed(functions, task, case, rows, answer),
    }
}

fn command(functions: &Functions, block: &mut Block, command: u8) -> u32 {
    let Block { bytes, rows } = block;
    (functions.block_write)(bytes, rows, black_box(0), black_box(command))
}

/// As many calls on a block; 0 where all succeed.
fn bus(mut call: impl FnMut() -> u32) -> u32 {
    (0..BUS).fold(0, |results, _| results | call())
}

/// A task with ready minutes and windows.
fn run_timed(
    functions: &Functions,
    task: Task,
    case: &Case,
    rows: &mut [u32],
    answer: &mut [i32],
) -> u32 {
    let Timed {
        bound,
        ready,
        windows,
        plan,
        long_plan,
        ..
    } = case.times();
    let (file, bound) = (black_box(&case.file[..]), *bound);
    match task {
        Task::TimedRows => (functions.timed_rows)(file, bound, ready, windows, answer),
        Task::TimedPlan => (functions.timed_plan)(file, bound, ready, windows, rows, answer),
        Task::TimedCheck => (functions.timed_check)(file, bound, ready, windows, plan, answer),
        _ => (functions.timed_check)(file, bound, ready, windows, long_plan, answer),
    }
}

/// The block of a case in the independent implementation; a cleared one where the case has none.
pub fn own_block(case: &Case) -> independent::Block {
    let mut block = independent::Block::cleared();
    if case.block.is_some() {
        for (address, value) in blocks::writes(&case.file, case.least) {
            block.store(address, value);
        }
        block.write(0, 2);
    }
    block
}

/// The independent implementation reads the file, or the table, and does the task; it makes its own
/// buffers, but for the block.
pub fn run_independent(task: Task, case: &Case, block: &mut independent::Block) {
    if let Task::Needs = task {
        let Table { numbers, lengths } = black_box(&case.table);
        let needs = independent::needs_of(numbers, lengths, LENGTHS);
        return drop(black_box(needs));
    }
    match task {
        Task::BlockLeast => return block.write(0, black_box(2)),
        Task::BlockPlan => return block.write(0, black_box(1)),
        Task::BlockWrites => {
            return (0..BUS).for_each(|_| block.write(black_box(40), 9));
        }
        Task::BlockReads => {
            return (0..BUS).for_each(|_| {
                black_box(block.read(black_box(16)));
            });
        }
        _ => {}
    }
    let Ok(order) = independent::read(black_box(&case.file)) else {
        return;
    };
    let tight = case.least - 1;
    match task {
        Task::Judge => {
            black_box(independent::rows_asked(&order));
        }
        Task::Classes => drop(black_box(independent::class_list(&order))),
        Task::Least => {
            let least = independent::least(&order);
            drop(black_box(independent::plan(&order, least)));
        }
        Task::PlanAtLeast | Task::ScreenPlan => {
            drop(black_box(independent::plan(&order, case.least)));
        }
        Task::PlanLooser => drop(black_box(independent::plan(&order, case.looser))),
        Task::BookLeast => {
            drop(black_box(independent::booked(&[0; MAKERS], &order)));
            let least = independent::least(&order);
            drop(black_box(independent::plan(&order, least)));
        }
        Task::BookPlan => {
            drop(black_box(independent::booked(&[0; MAKERS], &order)));
            drop(black_box(independent::plan(&order, case.least)));
        }
        Task::Reason => drop(black_box(independent::reason(&order, tight))),
        Task::Sentence => {
            let reason = numbers::reason_of(&case.reason);
            drop(black_box(independent::composed(&order, tight, &reason)));
        }
        Task::Parse => drop(black_box(independent::read_back(&order, tight, &case.line))),
        Task::Check => {
            black_box(independent::right(&order, case.least.into(), &case.plan));
        }
        Task::CheckLong => {
            let rows = &case.long_plan;
            black_box(independent::right(&order, case.least.into(), rows));
        }
        Task::Between | Task::BetweenOrder => run_independent_between(task, case, &order),
        _ => run_independent_timed(task, case, &order),
    }
}

fn run_independent_between(task: Task, case: &Case, order: &Order) {
    let Estimate { highs, number, .. } = &case.estimate;
    let Some(estimate) = independent::Estimate::of(order, highs) else {
        return;
    };
    match task {
        Task::Between => {
            black_box(independent::leasts(&estimate));
        }
        _ => drop(black_box(independent::met_by_halving(&estimate, *number))),
    }
}

fn run_independent_timed(task: Task, case: &Case, order: &Order) {
    let given = case.times();
    let Some(times) = Times::of(order, &given.ready, &given.windows) else {
        return;
    };
    let bound = given.bound.into();
    let check = |rows: &[u32]| independent::timed_right(order, &times, bound, rows);
    match task {
        Task::TimedRows => {
            black_box(independent::timed_rows_asked(order, &times, bound));
        }
        Task::TimedPlan => drop(black_box(independent::timed_plan(order, &times, bound))),
        Task::TimedCheck => {
            black_box(check(&given.plan));
        }
        _ => {
            black_box(check(&given.long_plan));
        }
    }
}
