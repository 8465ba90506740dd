//! The static library itself, called as a C program calls it: pointers and lengths of the lent
//! buffers, in the header's order. Only here and in `linked/` there is unsafe code.

mod block;
mod estimates;
mod screen;

use crate::highboyrobin::raw;
use crate::lent::Call;
use crate::library::Library;

pub const LINKED: Library = Library {
    judge,
    classes,
    least,
    plan,
    book_least,
    book_plan,
    reason,
    sentence,
    parse,
    check,
    timed_rows,
    timed_plan,
    timed_check,
    needs,
    between: estimates::between,
    between_order: estimates::between_order,
    write,
    screen_judge: screen::judge,
    screen_least: screen::least,
    screen_plan: screen::plan,
    screen_reason: screen::reason,
    screen_sentence: screen::sentence,
    screen_check: screen::check,
    block_clear: block::clear,
    block_write: block::write,
    block_read: block::read,
};

fn judge(call: &mut Call) -> u32 {
    let (file, file_length) = (call.file.pointer(), call.file.len());
    let (answer, answer_length) = (call.answer.pointer_mut(), call.answer.len());
    unsafe { raw::hbr_judge(file, file_length, answer, answer_length) }
}

fn classes(call: &mut Call) -> u32 {
    let (file, file_length) = (call.file.pointer(), call.file.len());
    let (classes, classes_length) = (call.classes.pointer_mut(), call.classes.len());
    let (answer, answer_length) = (call.answer.pointer_mut(), call.answer.len());
    unsafe {
        raw::hbr_classes(
            file,
            file_length,
            classes,
            classes_length,
            answer,
            answer_length,
        )
    }
}

fn least(call: &mut Call) -> u32 {
    let (file, file_length) = (call.file.pointer(), call.file.len());
    let (rows, rows_length) = (call.rows.pointer_mut(), call.rows.len());
    let (answer, answer_length) = (call.answer.pointer_mut(), call.answer.len());
    unsafe { raw::hbr_least(file, file_length, rows, rows_length, answer, answer_length) }
}

fn plan(call: &mut Call) -> u32 {
    let (file, file_length) = (call.file.pointer(), call.file.len());
    let (rows, rows_length) = (call.rows.pointer_mut(), call.rows.len());
    let (answer, answer_length) = (call.answer.pointer_mut(), call.answer.len());
    let bound = call.bound;
    unsafe {
        raw::hbr_plan(
            file,
            file_length,
            bound,
            rows,
            rows_length,
            answer,
            answer_length,
        )
    }
}

fn book_least(call: &mut Call) -> u32 {
    let (file, file_length) = (call.file.pointer(), call.file.len());
    let (rows, rows_length) = (call.rows.pointer_mut(), call.rows.len());
    let (book, book_length) = (call.book.pointer_mut(), call.book.len());
    let (answer, answer_length) = (call.answer.pointer_mut(), call.answer.len());
    unsafe {
        raw::hbr_book_least(
            file,
            file_length,
            rows,
            rows_length,
            book,
            book_length,
            answer,
            answer_length,
        )
    }
}

fn book_plan(call: &mut Call) -> u32 {
    let (file, file_length) = (call.file.pointer(), call.file.len());
    let (rows, rows_length) = (call.rows.pointer_mut(), call.rows.len());
    let (book, book_length) = (call.book.pointer_mut(), call.book.len());
    let (answer, answer_length) = (call.answer.pointer_mut(), call.answer.len());
    let bound = call.bound;
    unsafe {
        raw::hbr_book_plan(
            file,
            file_length,
            bound,
            rows,
            rows_length,
            book,
            book_length,
            answer,
            answer_length,
        )
    }
}

fn reason(call: &mut Call) -> u32 {
    let (file, file_length) = (call.file.pointer(), call.file.len());
    let (answer, answer_length) = (call.answer.pointer_mut(), call.answer.len());
    unsafe { raw::hbr_reason(file, file_length, call.bound, answer, answer_length) }
}

fn sentence(call: &mut Call) -> u32 {
    let (file, file_length) = (call.file.pointer(), call.file.len());
    let (reason, reason_length) = (call.reason.pointer(), call.reason.len());
    let (line, line_length) = (call.line.pointer_mut(), call.line.len());
    let (answer, answer_length) = (call.answer.pointer_mut(), call.answer.len());
    let bound = call.bound;
    unsafe {
        raw::hbr_sentence(
            file,
            file_length,
            bound,
            reason,
            reason_length,
            line,
            line_length,
            answer,
            answer_length,
        )
    }
}

fn parse(call: &mut Call) -> u32 {
    let (file, file_length) = (call.file.pointer(), call.file.len());
    let (line, line_length) = (call.line.pointer(), call.line.len());
    let (answer, answer_length) = (call.answer.pointer_mut(), call.answer.len());
    let bound = call.bound;
    unsafe {
        raw::hbr_parse(
            file,
            file_length,
            bound,
            line,
            line_length,
            answer,
            answer_length,
        )
    }
}

fn check(call: &mut Call) -> u32 {
    let (file, file_length) = (call.file.pointer(), call.file.len());
    let (rows, rows_length) = (call.rows.pointer(), call.rows.len());
    let (answer, answer_length) = (call.answer.pointer_mut(), call.answer.len());
    let bound = call.bound;
    unsafe {
        raw::hbr_check(
            file,
            file_length,
            bound,
            rows,
            rows_length,
            answer,
            answer_length,
        )
    }
}

fn timed_rows(call: &mut Call) -> u32 {
    let (file, file_length) = (call.file.pointer(), call.file.len());
    let (ready, ready_length) = (call.ready.pointer(), call.ready.len());
    let (windows, windows_length) = (call.windows.pointer(), call.windows.len());
    let (answer, answer_length) = (call.answer.pointer_mut(), call.answer.len());
    let bound = call.bound;
    unsafe {
        raw::hbr_timed_rows(
            file,
            file_length,
            bound,
            ready,
            ready_length,
            windows,
            windows_length,
            answer,
            answer_length,
        )
    }
}

fn timed_plan(call: &mut Call) -> u32 {
    let (file, file_length) = (call.file.pointer(), call.file.len());
    let (ready, ready_length) = (call.ready.pointer(), call.ready.len());
    let (windows, windows_length) = (call.windows.pointer(), call.windows.len());
    let (rows, rows_length) = (call.rows.pointer_mut(), call.rows.len());
    let (answer, answer_length) = (call.answer.pointer_mut(), call.answer.len());
    let bound = call.bound;
    unsafe {
        raw::hbr_timed_plan(
            file,
            file_length,
            bound,
            ready,
            ready_length,
            windows,
            windows_length,
            rows,
            rows_length,
            answer,
            answer_length,
        )
    }
}

fn timed_check(call: &mut Call) -> u32 {
    let (file, file_length) = (call.file.pointer(), call.file.len());
    let (ready, ready_length) = (call.ready.pointer(), call.ready.len());
    let (windows, windows_length) = (call.windows.pointer(), call.windows.len());
    let (rows, rows_length) = (call.rows.pointer(), call.rows.len());
    let (answer, answer_length) = (call.answer.pointer_mut(), call.answer.len());
    let bound = call.bound;
    unsafe {
        raw::hbr_timed_check(
            file,
            file_length,
            bound,
            ready,
            ready_length,
            windows,
            windows_length,
            rows,
            rows_length,
            answer,
            answer_length,
        )
    }
}

fn needs(call: &mut Call) -> u32 {
    let (table, table_length) = (call.table.pointer(), call.table.len());
    let (lengths, lengths_length) = (call.lengths.pointer(), call.lengths.len());
    let (needs, needs_length) = (call.needs.pointer_mut(), call.needs.len());
    let (answer, answer_length) = (call.answer.pointer_mut(), call.answer.len());
    unsafe {
        raw::hbr_needs(
            table,
            table_length,
            lengths,
            lengths_length,
            needs,
            needs_length,
            answer,
            answer_length,
        )
    }
}

fn write(call: &mut Call) -> u32 {
    let (memories, memories_length) = (call.memories.pointer(), call.memories.len());
    let (jobs, jobs_length) = (call.jobs.pointer(), call.jobs.len());
    let (file, file_length) = (call.file.pointer_mut(), call.file.len());
    let (answer, answer_length) = (call.answer.pointer_mut(), call.answer.len());
    unsafe {
        raw::hbr_write(
            memories,
            memories_length,
            jobs,
            jobs_length,
            file,
            file_length,
            answer,
            answer_length,
        )
    }
}
