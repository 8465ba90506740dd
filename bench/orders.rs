//! An order as the benchmark draws it, and the bytes of its order file. The makers are not drawn: the
//! jobs are theirs in turn.

const MAKERS: u32 = 16;

#[derive(Clone, Copy)]
pub struct Job {
    pub time: i32,
    pub due: i32,
    pub need: u32,
}

#[derive(Clone)]
pub struct Order {
    pub memories: Vec<u32>,
    pub jobs: Vec<Job>,
}

impl Order {
    /// Processors first, then jobs, then the trailer; all little-endian.
    pub fn file(&self) -> Vec<u8> {
        let mut file = Vec::new();
        for memory in &self.memories {
            file.extend(memory.to_le_bytes());
        }
        let jobs_at = file.len() as u32;
        for (place, job) in (0..).zip(&self.jobs) {
            file.extend(job.time.to_le_bytes());
            file.extend(job.due.to_le_bytes());
            file.extend(job.need.to_le_bytes());
            file.extend((place % MAKERS + 1).to_le_bytes());
        }
        file.extend(0u32.to_le_bytes());
        file.extend(jobs_at.to_le_bytes());
        file.extend((self.memories.len() as u16).to_le_bytes());
        file.extend((self.jobs.len() as u16).to_le_bytes());
        file
    }

    pub fn longest_time(&self) -> i32 {
        self.jobs.iter().map(|job| job.time).max().unwrap_or(0)
    }
}
