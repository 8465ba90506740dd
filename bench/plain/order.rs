//! An order of jobs on processors, and whether it is accepted: refusals 1 to 7, 13 after 6 and, with a
//! high to each job, 19 after 13.

pub const MOST_PROCESSORS: usize = 16;
pub const MOST_JOBS: usize = 48;
pub const MAKERS: usize = 16;

#[derive(Clone, Copy, Default)]
pub struct Job {
    pub time: u32,
    pub due: i32,
    pub need: u32,
    pub maker: u32,
}

/// Counts, and as many processors and jobs; zeros beyond.
#[derive(Clone, Copy)]
pub struct Order {
    pub processor_count: usize,
    pub job_count: usize,
    pub memories: [u32; MOST_PROCESSORS],
    pub jobs: [Job; MOST_JOBS],
}

/// The most processors and jobs of a caller's order, and the refusals of more.
pub struct Limits {
    processors: usize,
    jobs: usize,
    over_processors: Refusal,
    over_jobs: Refusal,
}

pub const DOCK: Limits = Limits {
    processors: MOST_PROCESSORS,
    jobs: MOST_JOBS,
    over_processors: Refusal::plain(2),
    over_jobs: Refusal::plain(4),
};

pub const SCREEN: Limits = Limits {
    processors: 4,
    jobs: 12,
    over_processors: Refusal::plain(21),
    over_jobs: Refusal::plain(20),
};

/// A refusal's number, and the job, the length or the place in a list that it is about, or 0.
#[derive(Clone, Copy)]
pub struct Refusal {
    pub number: u32,
    pub job: u32,
}

impl Refusal {
    pub const fn plain(number: u32) -> Refusal {
        Refusal { number, job: 0 }
    }

    /// A refusal about the job, the processor or the length at a place, counted from 0.
    pub fn about(number: u32, place: usize) -> Refusal {
        let job = place as u32 + 1;
        Refusal { number, job }
    }
}

impl Order {
    pub fn memories(&self) -> &[u32] {
        &self.memories[..self.processor_count]
    }

    pub fn jobs(&self) -> &[Job] {
        &self.jobs[..self.job_count]
    }
}

/// Refusals 1 to 4, or 1, 21, 3 and 20, by the counts alone.
pub fn accept_counts(limits: &Limits, processors: usize, jobs: usize) -> Result<(), Refusal> {
    if processors == 0 {
        return Err(Refusal::plain(1));
    }
    if limits.processors < processors {
        return Err(limits.over_processors);
    }
    if jobs == 0 {
        return Err(Refusal::plain(3));
    }
    if limits.jobs < jobs {
        return Err(limits.over_jobs);
    }
    Ok(())
}

/// The first job of which something is wrong.
fn first(order: &Order, wrong: impl Fn(&Job) -> bool) -> Option<usize> {
    order.jobs().iter().position(wrong)
}

fn in_range(time: u32) -> bool {
    (1..=100_000).contains(&time)
}

/// Refusals 5, 6, 13 and 7, each with the first job that it is about.
pub fn accept_jobs(order: &Order) -> Result<(), Refusal> {
    if let Some(place) = first(order, |job| !in_range(job.time)) {
        return Err(Refusal::about(5, place));
    }
    accept_dues(order)?;
    accept_needs(order)
}

/// Refusals 5, 6, 13, 19 and 7 of an order whose times are the lows, with a high to each job.
pub fn accept_estimate(order: &Order, highs: &[u32]) -> Result<(), Refusal> {
    let both = || order.jobs().iter().map(|job| job.time).zip(highs);
    if let Some(place) = both().position(|(low, high)| !in_range(low) || !in_range(*high)) {
        return Err(Refusal::about(5, place));
    }
    accept_dues(order)?;
    if let Some(place) = both().position(|(low, high)| *high < low) {
        return Err(Refusal::about(19, place));
    }
    accept_needs(order)
}

/// Refusals 6 and 13.
fn accept_dues(order: &Order) -> Result<(), Refusal> {
    if let Some(place) = first(order, |job| !(-1_000_000..=1_000_000).contains(&job.due)) {
        return Err(Refusal::about(6, place));
    }
    if let Some(place) = first(order, |job| !(1..=MAKERS as u32).contains(&job.maker)) {
        return Err(Refusal::about(13, place));
    }
    Ok(())
}

/// Refusal 7.
fn accept_needs(order: &Order) -> Result<(), Refusal> {
    let fits = |need: u32| order.memories().iter().any(|&memory| need <= memory);
    if let Some(place) = first(order, |job| !fits(job.need)) {
        return Err(Refusal::about(7, place));
    }
    Ok(())
}

/// A job's end at a bound: the due minute is included.
pub fn end(due: i32, bound: i32) -> i32 {
    due + bound + 1
}

/// A job's end at a bound, cut off at minute 0.
pub fn deadline(due: i32, bound: i32) -> u32 {
    end(due, bound).max(0) as u32
}
