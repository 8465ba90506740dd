//! The bytes of an order's file: processors first, then jobs, then the trailer.

use super::order::Order;

fn put(file: &mut [u8], at: &mut usize, bytes: &[u8]) {
    file[*at..][..bytes.len()].copy_from_slice(bytes);
    *at += bytes.len();
}

/// The length of an order's file.
pub fn length(order: &Order) -> usize {
    4 * order.processor_count + 16 * order.job_count + 12
}

/// The file of an order with these times; it is as long as the order's file.
pub fn put_file(order: &Order, times: &[u32], file: &mut [u8]) {
    let mut at = 0;
    for memory in order.memories() {
        put(file, &mut at, &memory.to_le_bytes());
    }
    let jobs_at = at as u32;
    for (job, time) in order.jobs().iter().zip(times) {
        put(file, &mut at, &time.to_le_bytes());
        put(file, &mut at, &job.due.to_le_bytes());
        put(file, &mut at, &job.need.to_le_bytes());
        put(file, &mut at, &job.maker.to_le_bytes());
    }
    put(file, &mut at, &0_u32.to_le_bytes());
    put(file, &mut at, &jobs_at.to_le_bytes());
    put(file, &mut at, &(order.processor_count as u16).to_le_bytes());
    put(file, &mut at, &(order.job_count as u16).to_le_bytes());
}
