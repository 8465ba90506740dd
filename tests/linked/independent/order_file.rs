//! The order file: "ends in a trailer of 12 bytes that points back", "The two lists lie in either
//! order, the first from byte 0, the second from where the first ends up to the trailer exactly".
//! A job has its maker number "as 4 further bytes at the end".

use super::limits::{Limits, DOCK};
use super::{judge_within, Job, Order, Refusal};
use std::ops::RangeInclusive;

const TRAILER: usize = 12;
const JOB: usize = 16;
const LENGTHS: RangeInclusive<usize> = 12..=844;

/// The order of a file, or refusal 12, then 1 to 6, 13, 7, from the dock.
pub fn read(file: &[u8]) -> Result<Order, Refusal> {
    read_within(&DOCK, file)
}

/// The same from a caller with these limits: how long a file may be is no matter of them.
pub fn read_within(limits: &Limits, file: &[u8]) -> Result<Order, Refusal> {
    let bad_file = Refusal { number: 12, job: 0 };
    let order = lists(file).ok_or(bad_file)?;
    match judge_within(limits, &order) {
        Some(refusal) => Err(refusal),
        None => Ok(order),
    }
}

/// The two lists of a file, accepted or not, or none where they and the trailer disagree.
pub fn lists(file: &[u8]) -> Option<Order> {
    if !LENGTHS.contains(&file.len()) {
        return None;
    }
    let trailer = &file[file.len() - TRAILER..];
    let processors_at = number(&trailer[0..]) as usize;
    let jobs_at = number(&trailer[4..]) as usize;
    let processors_length = 4 * count(&trailer[8..]);
    let jobs_length = JOB * count(&trailer[10..]);
    let processors_first = processors_at == 0 && jobs_at == processors_length;
    let jobs_first = jobs_at == 0 && processors_at == jobs_length;
    let filled = processors_length + jobs_length + TRAILER == file.len();
    if !filled || !(processors_first || jobs_first) {
        return None;
    }
    let processors = &file[processors_at..processors_at + processors_length];
    let jobs = &file[jobs_at..jobs_at + jobs_length];
    Some(Order {
        memories: processors.chunks_exact(4).map(number).collect(),
        jobs: jobs.chunks_exact(JOB).map(job).collect(),
    })
}

/// The file of an order, "processors first".
pub fn write(order: &Order) -> Vec<u8> {
    let mut file = Vec::new();
    for memory in &order.memories {
        file.extend(memory.to_le_bytes());
    }
    let jobs_at = file.len() as u32;
    for job in &order.jobs {
        file.extend(job.time.to_le_bytes());
        file.extend(job.due.to_le_bytes());
        file.extend(job.need.to_le_bytes());
        file.extend(job.maker.to_le_bytes());
    }
    file.extend(0_u32.to_le_bytes());
    file.extend(jobs_at.to_le_bytes());
    file.extend((order.memories.len() as u16).to_le_bytes());
    file.extend((order.jobs.len() as u16).to_le_bytes());
    file
}

fn job(bytes: &[u8]) -> Job {
    Job {
        time: number(&bytes[0..]),
        due: number(&bytes[4..]) as i32,
        need: number(&bytes[8..]),
        maker: number(&bytes[12..]),
    }
}

fn number(bytes: &[u8]) -> u32 {
    u32::from_le_bytes([bytes[0], bytes[1], bytes[2], bytes[3]])
}

fn count(bytes: &[u8]) -> usize {
    usize::from(u16::from_le_bytes([bytes[0], bytes[1]]))
}
