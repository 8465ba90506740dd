//! The three functions of a register block.

use crate::highboyrobin::raw;
use crate::lent::Call;

pub fn clear(call: &mut Call) -> u32 {
    let (block, block_length) = (call.block.pointer_mut(), call.block.len());
    let (rows, rows_length) = (call.rows.pointer_mut(), call.rows.len());
    unsafe { raw::hbr_block_clear(block, block_length, rows, rows_length) }
}

pub fn write(call: &mut Call) -> u32 {
    let (block, block_length) = (call.block.pointer_mut(), call.block.len());
    let (rows, rows_length) = (call.rows.pointer_mut(), call.rows.len());
    let (address, value) = (call.address, call.value);
    unsafe { raw::hbr_block_write(block, block_length, rows, rows_length, address, value) }
}

pub fn read(call: &mut Call) -> u32 {
    let (block, block_length) = (call.block.pointer(), call.block.len());
    let (rows, rows_length) = (call.rows.pointer(), call.rows.len());
    let (answer, answer_length) = (call.answer.pointer_mut(), call.answer.len());
    let address = call.address;
    unsafe {
        raw::hbr_block_read(
            block,
            block_length,
            rows,
            rows_length,
            address,
            answer,
            answer_length,
        )
    }
}
