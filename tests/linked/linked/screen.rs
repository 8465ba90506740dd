//! The six functions that a screen calls.

use crate::highboyrobin::raw;
use crate::lent::Call;

pub fn judge(call: &mut Call) -> u32 {
    let (file, file_length) = (call.file.pointer(), call.file.len());
    let (answer, answer_length) = (call.answer.pointer_mut(), call.answer.len());
    unsafe { raw::hbr_screen_judge(file, file_length, answer, answer_length) }
}

pub fn least(call: &mut Call) -> u32 {
    let (file, file_length) = (call.file.pointer(), call.file.len());
    let (rows, rows_length) = (call.rows.pointer_mut(), call.rows.len());
    let (answer, answer_length) = (call.answer.pointer_mut(), call.answer.len());
    unsafe { raw::hbr_screen_least(file, file_length, rows, rows_length, answer, answer_length) }
}

pub fn plan(call: &mut Call) -> u32 {
    let (file, file_length) = (call.file.pointer(), call.file.len());
    let (rows, rows_length) = (call.rows.pointer_mut(), call.rows.len());
    let (answer, answer_length) = (call.answer.pointer_mut(), call.answer.len());
    let bound = call.bound;
    unsafe {
        raw::hbr_screen_plan(
            file,
            file_length,
            bound,
            rows,
            rows_length,
            answer,
            answer_length,
        )
    }
}

pub fn reason(call: &mut Call) -> u32 {
    let (file, file_length) = (call.file.pointer(), call.file.len());
    let (answer, answer_length) = (call.answer.pointer_mut(), call.answer.len());
    unsafe { raw::hbr_screen_reason(file, file_length, call.bound, answer, answer_length) }
}

pub fn sentence(call: &mut Call) -> u32 {
    let (file, file_length) = (call.file.pointer(), call.file.len());
    let (reason, reason_length) = (call.reason.pointer(), call.reason.len());
    let (line, line_length) = (call.line.pointer_mut(), call.line.len());
    let (answer, answer_length) = (call.answer.pointer_mut(), call.answer.len());
    let bound = call.bound;
    unsafe {
        raw::hbr_screen_sentence(
            file,
            file_length,
            bound,
            reason,
            reason_length,
            line,
            line_length,
            answer,
            answer_length,
        )
    }
}

pub fn check(call: &mut Call) -> u32 {
    let (file, file_length) = (call.file.pointer(), call.file.len());
    let (rows, rows_length) = (call.rows.pointer(), call.rows.len());
    let (answer, answer_length) = (call.answer.pointer_mut(), call.answer.len());
    let bound = call.bound;
    unsafe {
        raw::hbr_screen_check(
            file,
            file_length,
            bound,
            rows,
            rows_length,
            answer,
            answer_length,
        )
    }
}
