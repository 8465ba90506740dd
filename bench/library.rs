//! The static library's functions on slices.

use crate::highboyrobin::raw;

pub fn judge(file: &[u8], answer: &mut [i32]) -> u32 {
    // SAFETY: each pointer is valid for its length, and what is written overlaps nothing.
    unsafe { raw::hbr_judge(file.as_ptr(), file.len(), answer.as_mut_ptr(), answer.len()) }
}

pub fn classes(file: &[u8], classes: &mut [u32], answer: &mut [i32]) -> u32 {
    // SAFETY: as above.
    unsafe {
        raw::hbr_classes(
            file.as_ptr(),
            file.len(),
            classes.as_mut_ptr(),
            classes.len(),
            answer.as_mut_ptr(),
            answer.len(),
        )
    }
}

pub fn needs(table: &[u32], lengths: &[u32], needs: &mut [u32], answer: &mut [i32]) -> u32 {
    // SAFETY: as above.
    unsafe {
        raw::hbr_needs(
            table.as_ptr(),
            table.len(),
            lengths.as_ptr(),
            lengths.len(),
            needs.as_mut_ptr(),
            needs.len(),
            answer.as_mut_ptr(),
            answer.len(),
        )
    }
}

pub fn least(file: &[u8], rows: &mut [u32], answer: &mut [i32]) -> u32 {
    // SAFETY: as above.
    unsafe {
        raw::hbr_least(
            file.as_ptr(),
            file.len(),
            rows.as_mut_ptr(),
            rows.len(),
            answer.as_mut_ptr(),
            answer.len(),
        )
    }
}

pub fn plan(file: &[u8], bound: i32, rows: &mut [u32], answer: &mut [i32]) -> u32 {
    // SAFETY: as above.
    unsafe {
        raw::hbr_plan(
            file.as_ptr(),
            file.len(),
            bound,
            rows.as_mut_ptr(),
            rows.len(),
            answer.as_mut_ptr(),
            answer.len(),
        )
    }
}

pub fn screen_plan(file: &[u8], bound: i32, rows: &mut [u32], answer: &mut [i32]) -> u32 {
    // SAFETY: as above.
    unsafe {
        raw::hbr_screen_plan(
            file.as_ptr(),
            file.len(),
            bound,
            rows.as_mut_ptr(),
            rows.len(),
            answer.as_mut_ptr(),
            answer.len(),
        )
    }
}

pub fn block_clear(block: &mut [u8], rows: &mut [u32]) -> u32 {
    // SAFETY: as above.
    unsafe {
        raw::hbr_block_clear(
            block.as_mut_ptr(),
            block.len(),
            rows.as_mut_ptr(),
            rows.len(),
        )
    }
}

pub fn block_write(block: &mut [u8], rows: &mut [u32], address: u8, value: u8) -> u32 {
    // SAFETY: as above.
    unsafe {
        raw::hbr_block_write(
            block.as_mut_ptr(),
            block.len(),
            rows.as_mut_ptr(),
            rows.len(),
            address,
            value,
        )
    }
}

pub fn block_read(block: &[u8], rows: &[u32], address: u8, answer: &mut [i32]) -> u32 {
    // SAFETY: as above.
    unsafe {
        raw::hbr_block_read(
            block.as_ptr(),
            block.len(),
            rows.as_ptr(),
            rows.len(),
            address,
            answer.as_mut_ptr(),
            answer.len(),
        )
    }
}

pub fn book_least(file: &[u8], rows: &mut [u32], book: &mut [u32], answer: &mut [i32]) -> u32 {
    // SAFETY: as above.
    unsafe {
        raw::hbr_book_least(
            file.as_ptr(),
            file.len(),
            rows.as_mut_ptr(),
            rows.len(),
            book.as_mut_ptr(),
            book.len(),
            answer.as_mut_ptr(),
            answer.len(),
        )
    }
}

pub fn book_plan(
    file: &[u8],
    bound: i32,
    rows: &mut [u32],
    book: &mut [u32],
    answer: &mut [i32],
) -> u32 {
    // SAFETY: as above.
    unsafe {
        raw::hbr_book_plan(
            file.as_ptr(),
            file.len(),
            bound,
            rows.as_mut_ptr(),
            rows.len(),
            book.as_mut_ptr(),
            book.len(),
            answer.as_mut_ptr(),
            answer.len(),
        )
    }
}

pub fn reason(file: &[u8], bound: i32, answer: &mut [i32]) -> u32 {
    // SAFETY: as above.
    unsafe {
        raw::hbr_reason(
            file.as_ptr(),
            file.len(),
            bound,
            answer.as_mut_ptr(),
            answer.len(),
        )
    }
}

pub fn sentence(
    file: &[u8],
    bound: i32,
    reason: &[i32],
    line: &mut [u8],
    answer: &mut [i32],
) -> u32 {
    // SAFETY: as above.
    unsafe {
        raw::hbr_sentence(
            file.as_ptr(),
            file.len(),
            bound,
            reason.as_ptr(),
            reason.len(),
            line.as_mut_ptr(),
            line.len(),
            answer.as_mut_ptr(),
            answer.len(),
        )
    }
}

pub fn parse(file: &[u8], bound: i32, line: &[u8], answer: &mut [i32]) -> u32 {
    // SAFETY: as above.
    unsafe {
        raw::hbr_parse(
            file.as_ptr(),
            file.len(),
            bound,
            line.as_ptr(),
            line.len(),
            answer.as_mut_ptr(),
            answer.len(),
        )
    }
}

pub fn check(file: &[u8], bound: i32, rows: &[u32], answer: &mut [i32]) -> u32 {
    // SAFETY: as above.
    unsafe {
        raw::hbr_check(
            file.as_ptr(),
            file.len(),
            bound,
            rows.as_ptr(),
            rows.len(),
            answer.as_mut_ptr(),
            answer.len(),
        )
    }
}

pub fn timed_rows(
    file: &[u8],
    bound: i32,
    ready: &[u32],
    windows: &[u32],
    answer: &mut [i32],
) -> u32 {
    // SAFETY: as above.
    unsafe {
        raw::hbr_timed_rows(
            file.as_ptr(),
            file.len(),
            bound,
            ready.as_ptr(),
            ready.len(),
            windows.as_ptr(),
            windows.len(),
            answer.as_mut_ptr(),
            answer.len(),
        )
    }
}

pub fn timed_plan(
    file: &[u8],
    bound: i32,
    ready: &[u32],
    windows: &[u32],
    rows: &mut [u32],
    answer: &mut [i32],
) -> u32 {
    // SAFETY: as above.
    unsafe {
        raw::hbr_timed_plan(
            file.as_ptr(),
            file.len(),
            bound,
            ready.as_ptr(),
            ready.len(),
            windows.as_ptr(),
            windows.len(),
            rows.as_mut_ptr(),
            rows.len(),
            answer.as_mut_ptr(),
            answer.len(),
        )
    }
}

pub fn timed_check(
    file: &[u8],
    bound: i32,
    ready: &[u32],
    windows: &[u32],
    rows: &[u32],
    answer: &mut [i32],
) -> u32 {
    // SAFETY: as above.
    unsafe {
        raw::hbr_timed_check(
            file.as_ptr(),
            file.len(),
            bound,
            ready.as_ptr(),
            ready.len(),
            windows.as_ptr(),
            windows.len(),
            rows.as_ptr(),
            rows.len(),
            answer.as_mut_ptr(),
            answer.len(),
        )
    }
}

pub fn between(file: &[u8], highs: &[u32], answer: &mut [i32]) -> u32 {
    // SAFETY: as above.
    unsafe {
        raw::hbr_between(
            file.as_ptr(),
            file.len(),
            highs.as_ptr(),
            highs.len(),
            answer.as_mut_ptr(),
            answer.len(),
        )
    }
}

pub fn between_order(
    file: &[u8],
    highs: &[u32],
    number: i32,
    order: &mut [u8],
    answer: &mut [i32],
) -> u32 {
    // SAFETY: as above.
    unsafe {
        raw::hbr_between_order(
            file.as_ptr(),
            file.len(),
            highs.as_ptr(),
            highs.len(),
            number,
            order.as_mut_ptr(),
            order.len(),
            answer.as_mut_ptr(),
            answer.len(),
        )
    }
}
