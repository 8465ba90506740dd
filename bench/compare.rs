//! Before anything is timed, the answers of all three are compared on every order; a difference
//! stops the benchmark. The library and its plain build are of one method, so their rows must be
//! the same word for word.

use crate::blocks::{self, Block};
use crate::cases::{Case, LINE_MOST};
use crate::estimates::Estimate;
use crate::independent::{self, MAKERS, MOST_BOOKED};
use crate::numbers::{numbers_of, reason_of};
use crate::subjects::{run, Buffers, Functions, Task, LIBRARY, PLAIN, SCREEN_TASKS, TASKS};
use crate::tables::{Table, LENGTHS, LONGEST};

const BUFFER_TOO_SHORT: u32 = 9;
const BOUND_TOO_TIGHT: u32 = 10;
const BOOK_FULL: u32 = 14;
const WRONG_HIGHS: u32 = 253;

/// Tells on which order the answers differ.
pub struct At<'a>(pub usize, pub &'a Case);

impl Drop for At<'_> {
    fn drop(&mut self) {
        if std::thread::panicking() {
            eprintln!("at order {}, of the family '{}'", self.0 + 1, self.1.family);
        }
    }
}

pub fn compare(place: usize, case: &Case) {
    let _at = At(place, case);
    let order = independent::read(&case.file).expect("the independent reader takes the order");
    for (task, _) in TASKS {
        same_answers(case, task);
    }
    if case.block.is_some() {
        for (task, _) in SCREEN_TASKS {
            same_answers(case, task);
        }
    }
    check_judge(case, &order);
    check_classes(case, &order);
    check_needs(case);
    check_least(case, &order);
    check_books(case, &order);
    check_tight(case, &order);
    check_lines(case, &order);
    check_plans(case, &order);
    check_screen(case, &order);
    check_block(case, &order);
    check_between(case, &order);
    check_estimates(case, &order);
}

/// The library and its plain build give the same result, classes, needs, rows, book, line, order, block and
/// answer.
pub fn same_answers(case: &Case, task: Task) {
    let mut ours = Buffers::new();
    let mut plain = Buffers::new();
    ours.hold(case);
    plain.hold(case);
    let result = run(&LIBRARY, task, case, &mut ours);
    assert_eq!(
        result,
        run(&PLAIN, task, case, &mut plain),
        "results differ"
    );
    assert_eq!(result, 0, "an accepted order is refused");
    assert_eq!(ours.answer, plain.answer, "answers differ");
    assert_eq!(ours.classes, plain.classes, "classes differ");
    assert_eq!(ours.needs, plain.needs, "needs differ");
    assert!(ours.rows == plain.rows, "rows differ");
    assert_eq!(ours.book, plain.book, "books differ");
    assert!(ours.line == plain.line, "lines differ");
    assert!(ours.order == plain.order, "orders differ");
    assert!(ours.block == plain.block, "blocks differ");
}

fn check_judge(case: &Case, order: &independent::Order) {
    let mut buffers = Buffers::new();
    run(&LIBRARY, Task::Judge, case, &mut buffers);
    let [processors, jobs, rows] = [0, 1, 2].map(|i| buffers.answer[i] as usize);
    assert_eq!(processors, order.memories.len(), "processors differ");
    assert_eq!(jobs, order.jobs.len(), "jobs differ");
    assert_eq!(rows, independent::rows_asked(order), "rows asked differ");
}

fn check_classes(case: &Case, order: &independent::Order) {
    let mut buffers = Buffers::new();
    run(&LIBRARY, Task::Classes, case, &mut buffers);
    let listed = independent::class_list(order);
    assert_eq!(buffers.answer[0] as usize, listed.len(), "classes differ");
    let numbers = &buffers.classes[..2 * listed.len()];
    assert_eq!(numbers, listed.concat(), "classes differ");
}

/// All three fill the same needs in, and tell the same refusal where a line is dropped, turned round or
/// widened by one length at either end, a length is out of range or the room is one short.
fn check_needs(case: &Case) {
    let Table { numbers, lengths } = &case.table;
    same_needs(numbers, lengths, LENGTHS);
    same_needs(numbers, lengths, LENGTHS - 1);
    same_needs(&numbers[3..], lengths, LENGTHS);
    for place in (0..numbers.len()).step_by(3) {
        let mut other = numbers.clone();
        other.swap(place, place + 1);
        same_needs(&other, lengths, LENGTHS);
        other.swap(place, place + 1);
        other[place] -= 1;
        same_needs(&other, lengths, LENGTHS);
        other[place] += 1;
        other[place + 1] += 1;
        same_needs(&other, lengths, LENGTHS);
    }
    for length in [0, LONGEST as u32 + 1] {
        let mut other = lengths.clone();
        other[LENGTHS / 2] = length;
        same_needs(numbers, &other, LENGTHS - 1);
    }
}

/// All three do the same with a table, lengths and room for so many needs.
fn same_needs(table: &[u32], lengths: &[u32], room: usize) {
    let expected = independent::needs_of(table, lengths, room);
    let expected = expected.map_err(|refusal| refusal.number + 256 * refusal.job);
    for functions in [LIBRARY, PLAIN] {
        let (mut needs, mut answer) = (vec![0; room], [0]);
        let told = match (functions.needs)(table, lengths, &mut needs, &mut answer) {
            0 => Ok(needs[..answer[0] as usize].to_vec()),
            result => Err(result),
        };
        assert_eq!(told, expected, "needs differ");
    }
}

fn check_least(case: &Case, order: &independent::Order) {
    let mut buffers = Buffers::new();
    run(&LIBRARY, Task::Least, case, &mut buffers);
    assert_eq!(buffers.answer[0], case.least, "least lateness differs");
    assert_eq!(
        case.least,
        independent::least(order),
        "least lateness differs"
    );
}

/// Booked calls write the rows and the answer of unbooked ones, and the counts that the independent
/// implementation has, from an opened book and from one that is then full; a minute more is refused.
fn check_books(case: &Case, order: &independent::Order) {
    for (booked, unbooked) in [
        (Task::BookLeast, Task::Least),
        (Task::BookPlan, Task::PlanAtLeast),
    ] {
        let mut with = Buffers::new();
        let mut without = Buffers::new();
        run(&LIBRARY, booked, case, &mut with);
        run(&LIBRARY, unbooked, case, &mut without);
        assert!(with.rows == without.rows, "booked rows differ");
        assert_eq!(with.answer, without.answer, "booked answers differ");
        let opened = independent::booked(&[0; MAKERS], order);
        assert_eq!(Some(with.book.to_vec()), opened, "books differ");
    }
    for functions in [LIBRARY, PLAIN] {
        let mut buffers = Buffers::new();
        let Buffers {
            rows, book, answer, ..
        } = &mut buffers;
        for (place, count) in book.iter_mut().enumerate() {
            let planned = independent::minutes_of(order, place as u32 + 1);
            *count = (MOST_BOOKED - planned) as u32;
        }
        let result = (functions.book_least)(&case.file, rows, book, answer);
        assert_eq!(result, 0, "a book with just enough room is refused");
        assert_eq!(*book, [MOST_BOOKED as u32; MAKERS], "full books differ");
        let result = (functions.book_plan)(&case.file, case.least, rows, book, answer);
        assert_eq!(result, BOOK_FULL, "a full book is taken");
        assert_eq!(*book, [MOST_BOOKED as u32; MAKERS], "full books differ");
    }
}

/// A minute below the least lateness there is no plan, and all three give the same reason.
fn check_tight(case: &Case, order: &independent::Order) {
    let bound = case.least - 1;
    let mut buffers = Buffers::new();
    for functions in [LIBRARY, PLAIN] {
        let result = (functions.plan)(&case.file, bound, &mut buffers.rows, &mut buffers.answer);
        assert_eq!(result, BOUND_TOO_TIGHT, "a plan below the least lateness");
    }
    assert!(
        independent::plan(order, bound).is_none(),
        "a plan below the least lateness"
    );
    run(&LIBRARY, Task::Reason, case, &mut buffers);
    let expected = numbers_of(independent::reason(order, bound));
    assert_eq!(buffers.answer, expected, "reasons differ");
    assert_eq!(case.reason, expected, "reasons differ");
}

/// A minute below the least lateness the reason has its line and the line this reason. At the least
/// lateness neither has the other, and a line that is cut or empty has none.
fn check_lines(case: &Case, order: &independent::Order) {
    let tight = case.least - 1;
    let none = [0; 19];
    composed(case, order, tight, &case.line);
    composed(case, order, case.least, b"");
    read_back(case, order, tight, &case.line, &case.reason);
    read_back(case, order, case.least, &case.line, &none);
    read_back(case, order, tight, &case.line[1..], &none);
    read_back(case, order, tight, &case.line[..case.line.len() - 1], &none);
    read_back(case, order, tight, b"", &none);
}

/// All three compose this line of the case's reason.
fn composed(case: &Case, order: &independent::Order, bound: i32, line: &[u8]) {
    for functions in [LIBRARY, PLAIN] {
        let mut own = [0; LINE_MOST];
        let mut answer = [0];
        let result = (functions.sentence)(&case.file, bound, &case.reason, &mut own, &mut answer);
        assert_eq!(result, 0, "a line is refused");
        assert_eq!(&own[..answer[0] as usize], line, "lines differ");
    }
    let other = independent::composed(order, bound, &reason_of(&case.reason));
    assert_eq!(other.as_bytes(), line, "lines differ");
}

/// All three read this reason, or none, from a line.
fn read_back(case: &Case, order: &independent::Order, bound: i32, line: &[u8], reason: &[i32; 19]) {
    for functions in [LIBRARY, PLAIN] {
        let mut answer = [1; 19];
        let result = (functions.parse)(&case.file, bound, line, &mut answer);
        assert_eq!(result, 0, "a line is refused");
        assert_eq!(&answer, reason, "readings differ");
    }
    let other = numbers_of(independent::read_back(order, bound, line));
    assert_eq!(&other, reason, "readings differ");
}

/// Each one's plan is right by every check, and a plan that lacks its last row is not.
fn check_plans(case: &Case, order: &independent::Order) {
    for bound in [case.least, case.looser] {
        let mut buffers = Buffers::new();
        (LIBRARY.plan)(&case.file, bound, &mut buffers.rows, &mut buffers.answer);
        let rows = &buffers.rows[..4 * buffers.answer[0] as usize];
        judged(case, order, bound, rows, true);
        judged(case, order, bound, &rows[..rows.len() - 4], false);
        let other = independent::plan(order, bound).expect("a plan that meets the bound");
        judged(case, order, bound, &other.concat(), true);
    }
    if !case.long_plan.is_empty() {
        judged(case, order, case.least, &case.long_plan, true);
    }
}

fn judged(case: &Case, order: &independent::Order, bound: i32, rows: &[u32], right: bool) {
    let mut answer = [0];
    for functions in [LIBRARY, PLAIN] {
        let result = (functions.check)(&case.file, bound, rows, &mut answer);
        assert_eq!((result, answer[0]), (0, i32::from(right)), "checks differ");
    }
    assert_eq!(
        independent::right(order, bound.into(), rows),
        right,
        "checks differ"
    );
}

/// Within a screen's limits its plan is the dock's, rows and answer; over them it is refused.
fn check_screen(case: &Case, order: &independent::Order) {
    let refusal = independent::judge_within(&independent::SCREEN, order);
    let told = refusal.map_or(0, |refusal| refusal.number + 256 * refusal.job);
    for functions in [LIBRARY, PLAIN] {
        let mut at_dock = Buffers::new();
        let mut from_screen = Buffers::new();
        if told == 0 {
            run(&functions, Task::PlanAtLeast, case, &mut at_dock);
        }
        let result = run(&functions, Task::ScreenPlan, case, &mut from_screen);
        assert_eq!(result, told, "a screen's result differs");
        assert!(from_screen.rows == at_dock.rows, "a screen's rows differ");
        assert_eq!(from_screen.answer, at_dock.answer, "answers differ");
    }
}

/// The block of all three after each write, from a cleared one on: the order's file, commands that plan and
/// that are refused, flags that are cleared, at a bound that is met and at one that is not, row numbers, a
/// length too many. Rows that are held are a right plan, those of the library and its plain build the same.
fn check_block(case: &Case, order: &independent::Order) {
    let mut blocks = [LIBRARY, PLAIN].map(|functions| {
        let (mut bytes, mut rows) = ([9; 256], [9; 720]);
        let result = (functions.block_clear)(&mut bytes, &mut rows);
        assert_eq!(result, 0, "a block is not cleared");
        (functions, Block { bytes, rows })
    });
    let mut own = independent::Block::cleared();
    let at_least = blocks::writes(&case.file, case.least);
    let too_tight = blocks::writes(&case.file, case.least - 1);
    let commands = [(0, 2), (1, 1), (10, 2), (0, 1), (3, 1), (0, 2), (0, 0)];
    let [low, high] = (case.file.len() as u16 + 1).to_le_bytes();
    let longer = [(8, low), (9, high), (0, 1), (0, 3)];
    let writes = [&at_least[..], &commands, &too_tight, &commands, &longer].concat();
    for (address, value) in writes {
        own.write(address, value);
        for (functions, block) in &mut blocks {
            let Block { bytes, rows } = block;
            let result = (functions.block_write)(bytes, rows, address, value);
            assert_eq!(result, 0, "a write to a block is refused");
        }
        let [(_, ours), (_, plain)] = &blocks;
        assert!(ours == plain, "blocks differ");
        if matches!(address, 0 | 1 | 3 | 10) {
            for (functions, block) in &blocks {
                same_registers(functions, block, &own);
            }
            held_is_right(order, ours, &own);
        }
    }
}

/// Every byte of a block but those of a row, whose amounts are free, reads as in the independent one.
fn same_registers(functions: &Functions, block: &Block, own: &independent::Block) {
    for address in (0..16).chain(32..=255) {
        let mut answer = [0];
        let result = (functions.block_read)(&block.bytes, &block.rows, address, &mut answer);
        let expected = own.read(address).into();
        assert_eq!((result, answer[0]), (0, expected), "byte {address} differs");
    }
}

/// A block that is done holds a right plan at the lateness used, any other no row.
fn held_is_right(order: &independent::Order, block: &Block, own: &independent::Block) {
    let count = block.rows.chunks_exact(4).take_while(|row| row[0] != 0);
    let (held, beyond) = block.rows.split_at(4 * count.count());
    assert!(beyond.iter().all(|number| *number == 0), "numbers beyond");
    assert_eq!(held.is_empty(), own.rows.is_empty(), "rows differ");
    let right = held.is_empty() || independent::right(order, own.lateness.into(), held);
    assert!(right, "rows that are held are no right plan");
}

/// All three tell the same two numbers at the lows and at the highs, and write the same orders for both
/// and for the number in the middle; outside the two there is none.
fn check_between(case: &Case, order: &independent::Order) {
    let Estimate {
        highs,
        at_lows,
        at_highs,
        number,
    } = &case.estimate;
    let estimate = independent::Estimate::of(order, highs).expect("a high for each job");
    let leasts = independent::leasts(&estimate);
    for functions in [LIBRARY, PLAIN] {
        let mut answer = [0; 2];
        let result = (functions.between)(&case.file, highs, &mut answer);
        assert_eq!(result, 0, "an accepted estimate is refused");
        assert_eq!((answer[0], answer[1]), leasts, "least lateness differs");
    }
    for number in [at_lows - 1, *at_lows, *number, *at_highs, at_highs + 1] {
        let met = independent::met_by_halving(&estimate, number);
        let file = met.map_or(Vec::new(), |met| independent::write(&met));
        same_order(case, number, &file);
    }
}

/// The library and its plain build write this file for a number, or none, which is empty; a byte less of
/// room is refused.
fn same_order(case: &Case, number: i32, file: &[u8]) {
    for functions in [LIBRARY, PLAIN] {
        let call = |room: &mut [u8], answer: &mut [i32]| {
            let highs = &case.estimate.highs;
            (functions.between_order)(&case.file, highs, number, room, answer)
        };
        let (mut room, mut answer) = (vec![0; file.len()], [1]);
        let result = call(&mut room, &mut answer);
        let told = (result, answer[0] as usize, &room[..]);
        assert_eq!(told, (0, file.len(), file), "orders differ");
        if !file.is_empty() {
            let result = call(&mut room[1..], &mut answer);
            assert_eq!(result, BUFFER_TOO_SHORT, "a short order is taken");
        }
    }
}

/// A high too few or too many, one out of range, one below its low: all three refuse alike.
fn check_estimates(case: &Case, order: &independent::Order) {
    let highs = &case.estimate.highs;
    let last = highs.len() - 1;
    let longer = order.jobs.iter().position(|job| 1 < job.time);
    let place = longer.expect("a job of more than a minute");
    same_refusal(case, order, &highs[1..]);
    same_refusal(case, order, &[&highs[..], &[1]].concat());
    for (place, high) in [
        (last, 0),
        (last, LONGEST as u32 + 1),
        (place, order.jobs[place].time - 1),
    ] {
        let mut other = highs.clone();
        other[place] = high;
        same_refusal(case, order, &other);
    }
}

/// All three refuse these highs alike.
fn same_refusal(case: &Case, order: &independent::Order, highs: &[u32]) {
    let told = match independent::Estimate::of(order, highs) {
        None => WRONG_HIGHS,
        Some(estimate) => {
            let refusal = independent::judge_estimate(&estimate).expect("a refused estimate");
            refusal.number + 256 * refusal.job
        }
    };
    for functions in [LIBRARY, PLAIN] {
        let (mut room, mut answer) = ([], [0; 2]);
        let result = (functions.between)(&case.file, highs, &mut answer);
        assert_eq!(result, told, "refusals of an estimate differ");
        let number = case.estimate.number;
        let result = (functions.between_order)(&case.file, highs, number, &mut room, &mut answer);
        assert_eq!(result, told, "refusals of an estimate differ");
    }
}
