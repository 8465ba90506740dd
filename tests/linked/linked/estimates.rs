//! The two functions that take highs.

use crate::highboyrobin::raw;
use crate::lent::Call;

pub fn between(call: &mut Call) -> u32 {
    let (file, file_length) = (call.file.pointer(), call.file.len());
    let (highs, highs_length) = (call.highs.pointer(), call.highs.len());
    let (answer, answer_length) = (call.answer.pointer_mut(), call.answer.len());
    unsafe {
        raw::hbr_between(
            file,
            file_length,
            highs,
            highs_length,
            answer,
            answer_length,
        )
    }
}

pub fn between_order(call: &mut Call) -> u32 {
    let (file, file_length) = (call.file.pointer(), call.file.len());
    let (highs, highs_length) = (call.highs.pointer(), call.highs.len());
    let (order, order_length) = (call.order.pointer_mut(), call.order.len());
    let (answer, answer_length) = (call.answer.pointer_mut(), call.answer.len());
    let number = call.number;
    unsafe {
        raw::hbr_between_order(
            file,
            file_length,
            highs,
            highs_length,
            number,
            order,
            order_length,
            answer,
            answer_length,
        )
    }
}
