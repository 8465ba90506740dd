//! The library's method in plain Rust, for the benchmark to compare with: the same algorithms,
//! tables and passes, each value computed once and handed on by reference. Twenty functions of the
//! C interface, with the same results.

mod amounts;
mod block;
mod book;
mod check;
mod estimate;
mod line;
mod needs;
mod order;
mod read;
mod recover;
mod scan;
mod setting;
mod stairs;
mod standing;
mod text;
mod times;
mod wrap;
mod write;

use amounts::Amounts;
use book::Book;
use estimate::Path;
use order::{Order, Refusal};
use setting::Setting;
use stairs::Reason;
use times::{Always, Given, Times, MOST_TIMES};

const BOUND_MOST: i32 = 10_000_000;
const ROWS_MOST: usize = 3024;
const TIMED_ROWS_MOST: usize = 8064;
const CLASS_NUMBERS: usize = 2 * order::MOST_PROCESSORS;
const LENGTHS_MOST: usize = 16_777_215;

const BOUND_OUT_OF_RANGE: Refusal = Refusal::plain(8);
const BUFFER_TOO_SHORT: Refusal = Refusal::plain(9);
const BOUND_TOO_TIGHT: Refusal = Refusal::plain(10);
const TOO_MANY_ROWS: Refusal = Refusal::plain(11);
const BOOK_FULL: Refusal = Refusal::plain(14);
const SHORT_BLOCK: Refusal = Refusal::plain(253);
const SHORT_BOOK: Refusal = Refusal::plain(253);
const SHORT_CLASSES: Refusal = Refusal::plain(253);
const SHORT_REASON: Refusal = Refusal::plain(253);
const LONG_LIST: Refusal = Refusal::plain(253);
const WRONG_TIMES: Refusal = Refusal::plain(253);
const WRONG_HIGHS: Refusal = Refusal::plain(253);
const SHORT_ANSWER: Refusal = Refusal::plain(255);

/// Judges an order file: processors, jobs, rows that a plan may have.
pub fn judge(file: &[u8], answer: &mut [i32]) -> u32 {
    code(try_judge(file, answer))
}

/// The classes of an order file in `classes`, memory and processors of each: the number of classes.
pub fn classes(file: &[u8], classes: &mut [u32], answer: &mut [i32]) -> u32 {
    code(try_classes(file, classes, answer))
}

/// The needs of lengths in `needs`, from a table: their number.
pub fn needs(table: &[u32], lengths: &[u32], needs: &mut [u32], answer: &mut [i32]) -> u32 {
    code(try_needs(table, lengths, needs, answer))
}

/// The least lateness, with a plan that meets it in `rows`: the lateness, the number of rows.
pub fn least(file: &[u8], rows: &mut [u32], answer: &mut [i32]) -> u32 {
    code(try_least(file, rows, answer))
}

/// A plan that meets the bound in `rows`: the number of rows.
pub fn plan(file: &[u8], bound: i32, rows: &mut [u32], answer: &mut [i32]) -> u32 {
    code(try_plan(file, bound, rows, answer))
}

/// `plan` with a screen's limits.
pub fn screen_plan(file: &[u8], bound: i32, rows: &mut [u32], answer: &mut [i32]) -> u32 {
    code(try_screen_plan(file, bound, rows, answer))
}

/// Clears a register block: its bytes, and in `rows` the rows that it holds.
pub fn block_clear(block: &mut [u8], rows: &mut [u32]) -> u32 {
    code(try_block_clear(block, rows))
}

/// Writes a byte of a block; at address 0 that is a command.
pub fn block_write(block: &mut [u8], rows: &mut [u32], address: u8, value: u8) -> u32 {
    code(try_block_write(block, rows, address, value))
}

/// Reads a byte of a block.
pub fn block_read(block: &[u8], rows: &[u32], address: u8, answer: &mut [i32]) -> u32 {
    code(try_block_read(block, rows, address, answer))
}

/// `least`, and the times of each maker's jobs are added to that maker's count in `book`.
pub fn book_least(file: &[u8], rows: &mut [u32], book: &mut [u32], answer: &mut [i32]) -> u32 {
    code(try_book_least(file, rows, book, answer))
}

/// `plan`, and the times are booked likewise.
pub fn book_plan(
    file: &[u8],
    bound: i32,
    rows: &mut [u32],
    book: &mut [u32],
    answer: &mut [i32],
) -> u32 {
    code(try_book_plan(file, bound, rows, book, answer))
}

/// Why no plan can meet the bound: the kind of the reason, then its numbers.
pub fn reason(file: &[u8], bound: i32, answer: &mut [i32]) -> u32 {
    code(try_reason(file, bound, answer))
}

/// The line of a reason in `line`: its length, 0 where the reason does not stand.
pub fn sentence(
    file: &[u8],
    bound: i32,
    reason: &[i32],
    line: &mut [u8],
    answer: &mut [i32],
) -> u32 {
    code(try_sentence(file, bound, reason, line, answer))
}

/// The reason of a line: its kind, then its numbers; zeros where there is none.
pub fn parse(file: &[u8], bound: i32, line: &[u8], answer: &mut [i32]) -> u32 {
    code(try_parse(file, bound, line, answer))
}

/// Whether rows are a right plan that meets the bound: 1 for yes, 0 for no.
pub fn check(file: &[u8], bound: i32, rows: &[u32], answer: &mut [i32]) -> u32 {
    code(try_check(file, bound, rows, answer))
}

/// How many rows `timed_plan` asks for.
pub fn timed_rows(
    file: &[u8],
    bound: i32,
    ready: &[u32],
    windows: &[u32],
    answer: &mut [i32],
) -> u32 {
    code(try_timed_rows(file, bound, ready, windows, answer))
}

/// A plan in `rows` that meets the bound and keeps ready minutes and windows: the number of rows.
pub fn timed_plan(
    file: &[u8],
    bound: i32,
    ready: &[u32],
    windows: &[u32],
    rows: &mut [u32],
    answer: &mut [i32],
) -> u32 {
    code(try_timed_plan(file, bound, ready, windows, rows, answer))
}

/// Whether rows are such a plan: 1 for yes, 0 for no.
pub fn timed_check(
    file: &[u8],
    bound: i32,
    ready: &[u32],
    windows: &[u32],
    rows: &[u32],
    answer: &mut [i32],
) -> u32 {
    code(try_timed_check(file, bound, ready, windows, rows, answer))
}

/// The least lateness at the lows, which are the file's times, and at the highs.
pub fn between(file: &[u8], highs: &[u32], answer: &mut [i32]) -> u32 {
    code(try_between(file, highs, answer))
}

/// The first order between lows and highs with this least lateness, its file in `order`: the length, 0
/// where there is none.
pub fn between_order(
    file: &[u8],
    highs: &[u32],
    number: i32,
    order: &mut [u8],
    answer: &mut [i32],
) -> u32 {
    code(try_between_order(file, highs, number, order, answer))
}

/// 0, or the refusal's number and 256 times the job that it is about.
fn code(outcome: Result<(), Refusal>) -> u32 {
    match outcome {
        Ok(()) => 0,
        Err(refusal) => refusal.number + 256 * refusal.job,
    }
}

fn ask_answer(answer: &[i32], length: usize) -> Result<(), Refusal> {
    if answer.len() < length {
        return Err(SHORT_ANSWER);
    }
    Ok(())
}

fn ask_bound(bound: i32) -> Result<(), Refusal> {
    if !(-BOUND_MOST..=BOUND_MOST).contains(&bound) {
        return Err(BOUND_OUT_OF_RANGE);
    }
    Ok(())
}

fn ask_book(book: &mut [u32]) -> Result<&mut Book, Refusal> {
    book.first_chunk_mut().ok_or(SHORT_BOOK)
}

fn ask_rows(order: &Order, setting: &Setting, rows: &[u32]) -> Result<(), Refusal> {
    if rows.len() / 4 < rows_asked(order, setting.due_count) {
        return Err(BUFFER_TOO_SHORT);
    }
    Ok(())
}

/// The rows that a plan may have: for each distinct due time, or for each distinct time, as many as
/// there are jobs and processors, less one.
fn rows_asked(order: &Order, count: usize) -> usize {
    count * (order.job_count + order.processor_count - 1)
}

fn try_judge(file: &[u8], answer: &mut [i32]) -> Result<(), Refusal> {
    ask_answer(answer, 3)?;
    let order = read::read(file)?;
    let due_count = setting::distinct_dues(&order).count;
    answer[0] = order.processor_count as i32;
    answer[1] = order.job_count as i32;
    answer[2] = rows_asked(&order, due_count) as i32;
    Ok(())
}

fn try_classes(file: &[u8], classes: &mut [u32], answer: &mut [i32]) -> Result<(), Refusal> {
    ask_answer(answer, 1)?;
    if classes.len() < CLASS_NUMBERS {
        return Err(SHORT_CLASSES);
    }
    let order = read::read(file)?;
    let found = setting::classes_along(&order, &setting::by_memory(&order));
    for (i, class) in classes.chunks_exact_mut(2).take(found.count).enumerate() {
        class[0] = found.memories[i];
        class[1] = found.processors[i];
    }
    answer[0] = found.count as i32;
    Ok(())
}

fn try_needs(
    table: &[u32],
    lengths: &[u32],
    needs: &mut [u32],
    answer: &mut [i32],
) -> Result<(), Refusal> {
    ask_answer(answer, 1)?;
    if LENGTHS_MOST < lengths.len() {
        return Err(LONG_LIST);
    }
    let table = needs::Table::accept(table)?;
    needs::accept_lengths(lengths)?;
    let room = needs.get_mut(..lengths.len()).ok_or(BUFFER_TOO_SHORT)?;
    for (need, length) in room.iter_mut().zip(lengths) {
        *need = table.need_of(*length);
    }
    answer[0] = lengths.len() as i32;
    Ok(())
}

fn try_least(file: &[u8], rows: &mut [u32], answer: &mut [i32]) -> Result<(), Refusal> {
    ask_answer(answer, 2)?;
    let order = read::read(file)?;
    let setting = Setting::of(&order);
    ask_rows(&order, &setting, rows)?;
    put_least(&order, &setting, rows, answer);
    Ok(())
}

fn try_book_least(
    file: &[u8],
    rows: &mut [u32],
    book: &mut [u32],
    answer: &mut [i32],
) -> Result<(), Refusal> {
    ask_answer(answer, 2)?;
    let book = ask_book(book)?;
    let order = read::read(file)?;
    let setting = Setting::of(&order);
    ask_rows(&order, &setting, rows)?;
    *book = book::add(book, &order).ok_or(BOOK_FULL)?;
    put_least(&order, &setting, rows, answer);
    Ok(())
}

/// The least lateness and its plan.
fn put_least(order: &Order, setting: &Setting, rows: &mut [u32], answer: &mut [i32]) {
    let lateness = setting::bound_of(stairs::least_reach(setting));
    answer[0] = lateness;
    answer[1] = make_plan(order, setting, lateness, rows) as i32;
}

fn try_plan(file: &[u8], bound: i32, rows: &mut [u32], answer: &mut [i32]) -> Result<(), Refusal> {
    ask_answer(answer, 1)?;
    let order = read::read(file)?;
    ask_bound(bound)?;
    let setting = Setting::of(&order);
    ask_rows(&order, &setting, rows)?;
    ask_loose(&setting, bound)?;
    answer[0] = make_plan(&order, &setting, bound, rows) as i32;
    Ok(())
}

/// The counts by a screen's limits, then the dock's call.
fn try_screen_plan(
    file: &[u8],
    bound: i32,
    rows: &mut [u32],
    answer: &mut [i32],
) -> Result<(), Refusal> {
    ask_answer(answer, 1)?;
    ask_screen(file)?;
    try_plan(file, bound, rows, answer)
}

/// The same of the least lateness.
fn try_screen_least(file: &[u8], rows: &mut [u32], answer: &mut [i32]) -> Result<(), Refusal> {
    ask_answer(answer, 2)?;
    ask_screen(file)?;
    try_least(file, rows, answer)
}

fn ask_screen(file: &[u8]) -> Result<(), Refusal> {
    let (processors, jobs) = read::counts(file)?;
    order::accept_counts(&order::SCREEN, processors, jobs)
}

fn try_block_clear(block: &mut [u8], rows: &mut [u32]) -> Result<(), Refusal> {
    let bytes = block.first_chunk_mut().ok_or(SHORT_BLOCK)?;
    let rows = rows.first_chunk_mut().ok_or(SHORT_BLOCK)?;
    block::clear(bytes, rows);
    Ok(())
}

fn try_block_write(
    block: &mut [u8],
    rows: &mut [u32],
    address: u8,
    value: u8,
) -> Result<(), Refusal> {
    let bytes = block.first_chunk_mut().ok_or(SHORT_BLOCK)?;
    let rows = rows.first_chunk_mut().ok_or(SHORT_BLOCK)?;
    block::write(bytes, rows, address, value);
    Ok(())
}

fn try_block_read(
    block: &[u8],
    rows: &[u32],
    address: u8,
    answer: &mut [i32],
) -> Result<(), Refusal> {
    ask_answer(answer, 1)?;
    let bytes = block.first_chunk().ok_or(SHORT_BLOCK)?;
    let rows = rows.first_chunk().ok_or(SHORT_BLOCK)?;
    answer[0] = block::read(bytes, rows, address).into();
    Ok(())
}

fn try_book_plan(
    file: &[u8],
    bound: i32,
    rows: &mut [u32],
    book: &mut [u32],
    answer: &mut [i32],
) -> Result<(), Refusal> {
    ask_answer(answer, 1)?;
    let book = ask_book(book)?;
    let order = read::read(file)?;
    ask_bound(bound)?;
    let setting = Setting::of(&order);
    ask_rows(&order, &setting, rows)?;
    ask_loose(&setting, bound)?;
    *book = book::add(book, &order).ok_or(BOOK_FULL)?;
    answer[0] = make_plan(&order, &setting, bound, rows) as i32;
    Ok(())
}

fn ask_loose(setting: &Setting, bound: i32) -> Result<(), Refusal> {
    match stairs::reason(setting, setting::reach_of(bound)) {
        Reason::Nothing => Ok(()),
        _ => Err(BOUND_TOO_TIGHT),
    }
}

/// A plan where there is no reason against the bound; answers how many rows it has.
fn make_plan(order: &Order, setting: &Setting, bound: i32, rows: &mut [u32]) -> usize {
    let marks = setting.marks(setting::reach_of(bound));
    let marks = &marks[..setting.due_count + 1];
    let times = Always { order, bound };
    let planned = fill_and_lay::<{ order::MOST_JOBS }>(order, setting, &times, marks, rows);
    planned.unwrap_or(0)
}

/// The plan in stretches between marks, at most Q of them; nothing where there is none.
fn fill_and_lay<const Q: usize>(
    order: &Order,
    setting: &Setting,
    times: &impl Times,
    marks: &[u32],
    rows: &mut [u32],
) -> Option<usize> {
    let mut amounts = Amounts::<Q>::start(order, setting, times, marks);
    let filled = amounts.fill(&mut ());
    filled.then(|| wrap::lay(order, setting, times, marks, &amounts, rows))
}

fn try_reason(file: &[u8], bound: i32, answer: &mut [i32]) -> Result<(), Refusal> {
    ask_answer(answer, 19)?;
    let order = read::read(file)?;
    ask_bound(bound)?;
    let setting = Setting::of(&order);
    let answer = &mut answer[..19];
    answer.fill(0);
    match stairs::reason(&setting, setting::reach_of(bound)) {
        Reason::Nothing => {}
        Reason::Job { job, time } => {
            answer[0] = 1;
            answer[1] = job as i32;
            answer[2] = time as i32;
        }
        Reason::Stairs { count, places } => {
            answer[0] = 2;
            answer[1] = count as i32;
            for (due, &place) in answer[3..].iter_mut().zip(&places[..count]) {
                *due = setting.due_at(place);
            }
        }
    }
    Ok(())
}

fn try_sentence(
    file: &[u8],
    bound: i32,
    reason: &[i32],
    line: &mut [u8],
    answer: &mut [i32],
) -> Result<(), Refusal> {
    ask_answer(answer, 1)?;
    let reason = reason.first_chunk().ok_or(SHORT_REASON)?;
    let order = read::read(file)?;
    ask_bound(bound)?;
    let text = line::line_of(&order, bound, reason);
    let written = text.written();
    let room = line.get_mut(..written.len()).ok_or(BUFFER_TOO_SHORT)?;
    room.copy_from_slice(written);
    answer[0] = written.len() as i32;
    Ok(())
}

fn try_parse(file: &[u8], bound: i32, line: &[u8], answer: &mut [i32]) -> Result<(), Refusal> {
    ask_answer(answer, 19)?;
    let order = read::read(file)?;
    ask_bound(bound)?;
    answer[..19].copy_from_slice(&recover::recover(&order, bound, line));
    Ok(())
}

fn try_check(file: &[u8], bound: i32, rows: &[u32], answer: &mut [i32]) -> Result<(), Refusal> {
    ask_answer(answer, 1)?;
    let order = read::read(file)?;
    ask_bound(bound)?;
    if 4 * ROWS_MOST < rows.len() {
        return Err(TOO_MANY_ROWS);
    }
    let order = &order;
    let times = Always { order, bound };
    answer[0] = check::right::<ROWS_MOST>(order, &times, rows) as i32;
    Ok(())
}

/// A ready minute to each job of the file, two numbers to each processor.
fn ask_lengths(file: &[u8], ready: &[u32], windows: &[u32]) -> Result<(), Refusal> {
    let (processors, jobs) = read::counts(file)?;
    if ready.len() != jobs || windows.len() != 2 * processors {
        return Err(WRONG_TIMES);
    }
    Ok(())
}

fn try_timed_rows(
    file: &[u8],
    bound: i32,
    ready: &[u32],
    windows: &[u32],
    answer: &mut [i32],
) -> Result<(), Refusal> {
    ask_answer(answer, 1)?;
    ask_lengths(file, ready, windows)?;
    let order = &read::read(file)?;
    let times = given(order, bound, ready, windows)?;
    answer[0] = rows_asked(order, times.marks().count()) as i32;
    Ok(())
}

/// The times of an accepted order, where they and the bound are in range.
fn given<'a>(
    order: &'a Order,
    bound: i32,
    ready: &'a [u32],
    windows: &'a [u32],
) -> Result<Given<'a>, Refusal> {
    let times = Given {
        order,
        bound,
        ready,
        windows,
    };
    times.accept()?;
    ask_bound(bound)?;
    Ok(times)
}

fn try_timed_plan(
    file: &[u8],
    bound: i32,
    ready: &[u32],
    windows: &[u32],
    rows: &mut [u32],
    answer: &mut [i32],
) -> Result<(), Refusal> {
    ask_answer(answer, 1)?;
    ask_lengths(file, ready, windows)?;
    let order = &read::read(file)?;
    let times = given(order, bound, ready, windows)?;
    let marks = times.marks();
    if rows.len() / 4 < rows_asked(order, marks.count()) {
        return Err(BUFFER_TOO_SHORT);
    }
    let setting = Setting::of(order);
    let cut_off = marks.cut_off();
    let cut_off = &cut_off[..marks.count()];
    let planned = fill_and_lay::<MOST_TIMES>(order, &setting, &times, cut_off, rows);
    answer[0] = planned.ok_or(BOUND_TOO_TIGHT)? as i32;
    Ok(())
}

fn try_timed_check(
    file: &[u8],
    bound: i32,
    ready: &[u32],
    windows: &[u32],
    rows: &[u32],
    answer: &mut [i32],
) -> Result<(), Refusal> {
    ask_answer(answer, 1)?;
    ask_lengths(file, ready, windows)?;
    let order = &read::read(file)?;
    let times = given(order, bound, ready, windows)?;
    if 4 * TIMED_ROWS_MOST < rows.len() {
        return Err(TOO_MANY_ROWS);
    }
    answer[0] = check::right::<TIMED_ROWS_MOST>(order, &times, rows) as i32;
    Ok(())
}

/// The order of a file whose times are the lows, with a high to each job.
fn read_lows(file: &[u8], highs: &[u32]) -> Result<Order, Refusal> {
    let (_, jobs) = read::counts(file)?;
    if highs.len() != jobs {
        return Err(WRONG_HIGHS);
    }
    read::read_by(file, |order| order::accept_estimate(order, highs))
}

fn try_between(file: &[u8], highs: &[u32], answer: &mut [i32]) -> Result<(), Refusal> {
    ask_answer(answer, 2)?;
    let order = read_lows(file, highs)?;
    let mut path = Path::of(&order, highs);
    answer[0] = path.least(0);
    answer[1] = path.least(path.minutes());
    Ok(())
}

fn try_between_order(
    file: &[u8],
    highs: &[u32],
    number: i32,
    order: &mut [u8],
    answer: &mut [i32],
) -> Result<(), Refusal> {
    ask_answer(answer, 1)?;
    let lows = read_lows(file, highs)?;
    let mut path = Path::of(&lows, highs);
    let Some(minute) = path.first_met(number) else {
        answer[0] = 0;
        return Ok(());
    };
    let length = write::length(&lows);
    let room = order.get_mut(..length).ok_or(BUFFER_TOO_SHORT)?;
    write::put_file(&lows, &path.times(minute), room);
    answer[0] = length as i32;
    Ok(())
}
