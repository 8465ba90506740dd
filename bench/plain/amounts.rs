//! How many minutes of each job go into each stretch: push and relabel over jobs. An idle job,
//! behind the last, holds what nobody holds in a stretch; a job displaces jobs one height below it.

use super::order::{Order, MOST_JOBS, MOST_PROCESSORS};
use super::setting::Setting;
use super::times::Times;

const ROOMS: usize = MOST_PROCESSORS + 1;

/// Of n jobs, q stretches, of which there are at most Q, and m - 1 classes.
pub struct Amounts<const Q: usize> {
    n: usize,
    q: usize,
    m: usize,
    class: [usize; MOST_JOBS + 1],
    /// a row for each job: what it may have of a stretch, and what it has
    cap: [[u32; Q]; MOST_JOBS],
    held: [[u32; Q]; MOST_JOBS + 1],
    /// a row for each stretch: what the first 0, 1, 2, .. classes could still have of it
    slack: [[u32; ROOMS]; Q],
    /// what is not yet held of each job
    left: [u32; MOST_JOBS + 1],
    height: [usize; MOST_JOBS + 1],
}

/// Is told of every step on the way. Nobody listens where it is `()`, and then it costs nothing.
pub trait Watch {
    /// a job may have more of a stretch, and somebody to displace is looked for there
    fn look(&mut self) {}
    fn push(&mut self) {}
    fn rise(&mut self) {}
}

impl Watch for () {}

/// A step of a job: to displace a job in a stretch, or to rise.
enum Move {
    Push { stretch: usize, other: usize },
    Rise,
}

impl<const Q: usize> Amounts<Q> {
    /// All of every job is left, and the idle job holds every stretch. A stretch lies between a mark and
    /// the next one.
    pub fn start(
        order: &Order,
        setting: &Setting,
        times: &impl Times,
        marks: &[u32],
    ) -> Amounts<Q> {
        let mut amounts = Amounts {
            n: order.job_count,
            q: marks.len() - 1,
            m: setting.class_count + 1,
            class: [0; MOST_JOBS + 1],
            cap: [[0; Q]; MOST_JOBS],
            held: [[0; Q]; MOST_JOBS + 1],
            slack: [[0; ROOMS]; Q],
            left: [0; MOST_JOBS + 1],
            height: [1; MOST_JOBS + 1],
        };
        amounts.put_jobs(setting, times, marks);
        amounts.put_rooms(setting, times, marks);
        amounts
    }

    /// The jobs in input order. A job may have a whole stretch that begins when it is there and ends by its
    /// deadline, and nothing of any other.
    fn put_jobs(&mut self, setting: &Setting, times: &impl Times, marks: &[u32]) {
        for held in setting.jobs() {
            let j = held.job;
            self.class[j] = held.class;
            self.left[j] = held.time;
            let (ready, deadline) = times.span(j);
            for (cap, mark) in self.cap[j].iter_mut().zip(marks.windows(2)) {
                if ready <= mark[0] && mark[1] <= deadline {
                    *cap = mark[1] - mark[0];
                }
            }
        }
        self.class[self.n] = self.m;
        self.height[self.n] = 0;
    }

    /// The room of a stretch for no class, for the first, for the first two, .., on the processors that
    /// are open; the idle job holds the last of them.
    fn put_rooms(&mut self, setting: &Setting, times: &impl Times, marks: &[u32]) {
        for (s, mark) in marks.windows(2).enumerate() {
            let (start, end) = (mark[0], mark[1]);
            let rooms = &mut self.slack[s][..self.m];
            let mut by_memory = setting.by_memory.iter();
            let mut open = 0;
            for (room, &processors) in rooms[1..].iter_mut().zip(&setting.processors) {
                let of_class = by_memory.by_ref().take(processors as usize);
                open += of_class
                    .map(|&processor| u32::from(times.open(processor, start, end)))
                    .sum::<u32>();
                *room = open * (end - start);
            }
            self.held[self.n][s] = rooms[self.m - 1];
        }
    }

    /// The minutes of job j in stretch s.
    pub fn of(&self, j: usize, s: usize) -> u32 {
        self.held[j][s]
    }

    /// True where nothing is left of any job, false where there is no way.
    pub fn fill(&mut self, watch: &mut impl Watch) -> bool {
        while let Some(j) = self.left[..self.n].iter().position(|&left| 0 < left) {
            let height = self.height[j];
            if self.n < height {
                return false;
            }
            if 1 < height && !self.height[..self.n].contains(&(height - 1)) {
                return false;
            }
            self.discharge(j, watch);
        }
        true
    }

    /// Job j displaces until nothing of it is left, or it rises.
    fn discharge(&mut self, j: usize, watch: &mut impl Watch) {
        let mut below = self.q;
        while 0 < self.left[j] {
            match self.find(j, below, watch) {
                Move::Push { stretch, other } => {
                    watch.push();
                    self.push(j, stretch, other);
                    below = stretch + 1;
                }
                Move::Rise => {
                    watch.rise();
                    self.height[j] += 1;
                    return;
                }
            }
        }
    }

    /// A step of job j in the stretches below one, from the last to the first.
    fn find(&self, j: usize, below: usize, watch: &mut impl Watch) -> Move {
        for stretch in (0..below).rev() {
            if self.held[j][stretch] < self.cap[j][stretch] {
                watch.look();
                let tight = self.tight_class(stretch, self.class[j]);
                if let Some(other) = self.aim(stretch, tight, self.height[j]) {
                    return Move::Push { stretch, other };
                }
            }
        }
        Move::Rise
    }

    /// The first class from c on that has no slack in a stretch.
    fn tight_class(&self, stretch: usize, c: usize) -> usize {
        let slacks = &self.slack[stretch][..self.m];
        slacks[c..]
            .iter()
            .position(|&slack| slack == 0)
            .map_or(self.m, |place| c + place)
    }

    /// A job that one of this height can displace in a stretch, up to a class; from the idle job
    /// down to the first.
    fn aim(&self, stretch: usize, tight: usize, height: usize) -> Option<usize> {
        (0..=self.n).rev().find(|&i| {
            self.height[i] + 1 == height && self.class[i] <= tight && 0 < self.held[i][stretch]
        })
    }

    /// Job j displaces job i in a stretch by the most that it can.
    fn push(&mut self, j: usize, stretch: usize, i: usize) {
        let slacks = &mut self.slack[stretch][..self.m];
        let (c, e) = (self.class[j], self.class[i]);
        let mut minutes = self.left[j]
            .min(self.cap[j][stretch] - self.held[j][stretch])
            .min(self.held[i][stretch]);
        if c < e {
            for &slack in &slacks[c..e] {
                minutes = minutes.min(slack);
            }
            for slack in &mut slacks[c..e] {
                *slack -= minutes;
            }
        } else {
            for slack in &mut slacks[e..c] {
                *slack += minutes;
            }
        }
        self.held[j][stretch] += minutes;
        self.held[i][stretch] -= minutes;
        self.left[i] += minutes;
        self.left[j] -= minutes;
    }
}
