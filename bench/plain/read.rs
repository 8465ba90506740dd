//! The order of an order file: refusal 12, then those of an order.

use super::order::{self, Job, Order, Refusal, MOST_JOBS, MOST_PROCESSORS};

/// The bytes of a job.
const JOB: usize = 16;

const BAD_FILE: Refusal = Refusal::plain(12);

/// Where the lists lie, and how many they hold.
struct Trailer {
    processors_at: usize,
    jobs_at: usize,
    processors: usize,
    jobs: usize,
}

fn number4(bytes: &[u8]) -> u32 {
    u32::from_le_bytes([bytes[0], bytes[1], bytes[2], bytes[3]])
}

fn number2(bytes: &[u8]) -> usize {
    u16::from_le_bytes([bytes[0], bytes[1]]) as usize
}

/// The trailer of a file, where the lists and it agree.
fn trailer(file: &[u8]) -> Option<Trailer> {
    if !(12..=844).contains(&file.len()) {
        return None;
    }
    let bytes = &file[file.len() - 12..];
    let processors_at = number4(bytes) as usize;
    let jobs_at = number4(&bytes[4..]) as usize;
    let processors = number2(&bytes[8..]);
    let jobs = number2(&bytes[10..]);
    if 4 * processors + JOB * jobs + 12 != file.len() {
        return None;
    }
    let processors_first = processors_at == 0 && jobs_at == 4 * processors;
    let jobs_first = jobs_at == 0 && processors_at == JOB * jobs;
    (processors_first || jobs_first).then_some(Trailer {
        processors_at,
        jobs_at,
        processors,
        jobs,
    })
}

/// How many processors and jobs a file has, whatever these are.
pub fn counts(file: &[u8]) -> Result<(usize, usize), Refusal> {
    let trailer = trailer(file).ok_or(BAD_FILE)?;
    Ok((trailer.processors, trailer.jobs))
}

pub fn read(file: &[u8]) -> Result<Order, Refusal> {
    read_by(file, order::accept_jobs)
}

/// The same where the jobs are accepted in a way of the caller's.
pub fn read_by(
    file: &[u8],
    accept: impl Fn(&Order) -> Result<(), Refusal>,
) -> Result<Order, Refusal> {
    let trailer = trailer(file).ok_or(BAD_FILE)?;
    order::accept_counts(&order::DOCK, trailer.processors, trailer.jobs)?;
    let mut order = Order {
        processor_count: trailer.processors,
        job_count: trailer.jobs,
        memories: [0; MOST_PROCESSORS],
        jobs: [Job::default(); MOST_JOBS],
    };
    let processor_list = &file[trailer.processors_at..][..4 * trailer.processors];
    for (memory, bytes) in order
        .memories
        .iter_mut()
        .zip(processor_list.chunks_exact(4))
    {
        *memory = number4(bytes);
    }
    let job_list = &file[trailer.jobs_at..][..JOB * trailer.jobs];
    for (job, bytes) in order.jobs.iter_mut().zip(job_list.chunks_exact(JOB)) {
        job.time = number4(bytes);
        job.due = number4(&bytes[4..]) as i32;
        job.need = number4(&bytes[8..]);
        job.maker = number4(&bytes[12..]);
    }
    accept(&order)?;
    Ok(order)
}
