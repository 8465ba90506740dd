//! Why a bound is too tight, and the least reach: a table of what each class weighs at each due
//! time, and of the best that the later classes can add.

use super::order::{MOST_JOBS, MOST_PROCESSORS};
use super::setting::{Held, Setting};

type Row = [u32; MOST_JOBS];
type Table = [Row; MOST_PROCESSORS];

/// A job whose time exceeds its end, or an overfull staircase by its places in the grid.
pub enum Reason {
    Job {
        job: u32,
        time: u32,
    },
    Stairs {
        count: usize,
        places: [usize; MOST_PROCESSORS],
    },
    Nothing,
}

/// The minutes that a job owes by the time of the lead g.
pub fn owed(time: u32, lead: u32, g: u32) -> u32 {
    if g <= lead {
        return time;
    }
    time.saturating_sub(g - lead)
}

/// The minutes owed by the jobs of each class, and its processors times the lead, at each due time.
fn weigh(setting: &Setting) -> Table {
    let mut table = [[0; MOST_JOBS]; MOST_PROCESSORS];
    let grid = &setting.grid[..setting.due_count];
    for held in setting.jobs() {
        for (weight, &g) in table[held.class - 1].iter_mut().zip(grid) {
            *weight += owed(held.time, held.lead, g);
        }
    }
    for (row, &processors) in table.iter_mut().zip(&setting.processors) {
        for (weight, &g) in row.iter_mut().zip(grid) {
            *weight += processors * g;
        }
    }
    table
}

/// For each due time the best that a class and the rest behind it weigh up to there.
fn above(weights: &[u32], rest: &[u32], best: &mut [u32]) {
    let mut top = 0;
    for ((best, &weight), &rest) in best.iter_mut().zip(weights).zip(rest) {
        top = top.max(weight + rest);
        *best = top;
    }
}

/// The best completions by the last 1 to k of k + 1 classes; those by none are the zeros of row 0.
fn complete(table: &Table, k: usize, q: usize, completions: &mut Table) {
    for m in 0..k {
        let (done, open) = completions.split_at_mut(m + 1);
        above(&table[k - m][..q], &done[m][..q], &mut open[0][..q]);
    }
}

/// The weight of the heaviest staircase of k + 1 classes.
fn heaviest(table: &Table, k: usize, q: usize, completions: &mut Table) -> u32 {
    complete(table, k, q, completions);
    let mut best = [0; MOST_JOBS];
    above(&table[0][..q], &completions[k][..q], &mut best[..q]);
    best[q - 1]
}

/// The least reach at which every job has its time by its end and no staircase is overfull.
pub fn least_reach(setting: &Setting) -> u32 {
    let table = weigh(setting);
    let mut completions = [[0; MOST_JOBS]; MOST_PROCESSORS];
    let mut reach = 0;
    for held in setting.jobs() {
        reach = reach.max(held.time + held.lead);
    }
    let mut processors = 0;
    for k in 0..setting.class_count {
        processors += setting.processors[k];
        let weight = heaviest(&table, k, setting.due_count, &mut completions);
        reach = reach.max(weight.div_ceil(processors));
    }
    reach
}

/// Why a reach is too small, or that it is not.
pub fn reason(setting: &Setting, reach: u32) -> Reason {
    if let Some(held) = first_late(setting, reach) {
        return Reason::Job {
            job: held.job as u32 + 1,
            time: held.time,
        };
    }
    first_overfull(setting, reach)
}

/// The first job in input order whose time exceeds its end.
pub fn first_late(setting: &Setting, reach: u32) -> Option<&Held> {
    let jobs = setting.jobs().iter();
    let late = jobs.filter(|held| reach < held.time + held.lead);
    late.min_by_key(|held| held.job)
}

/// The first overfull staircase: the fewest classes, then the earliest due time for class 1, for
/// class 2, and so on.
fn first_overfull(setting: &Setting, reach: u32) -> Reason {
    let table = weigh(setting);
    let mut completions = [[0; MOST_JOBS]; MOST_PROCESSORS];
    let q = setting.due_count;
    let mut room = 0;
    for k in 0..setting.class_count {
        room += setting.processors[k] * reach;
        complete(&table, k, q, &mut completions);
        for d in 0..q {
            if room < table[0][d] + completions[k][d] {
                return Reason::Stairs {
                    count: k + 1,
                    places: staircase(&table, &completions, k, d, room),
                };
            }
        }
    }
    Reason::Nothing
}

/// The first overfull staircase of k + 1 classes that begins at d.
fn staircase(
    table: &Table,
    completions: &Table,
    k: usize,
    d: usize,
    room: u32,
) -> [usize; MOST_PROCESSORS] {
    let mut places = [0; MOST_PROCESSORS];
    places[0] = d;
    let mut weight = table[0][d];
    let mut place = d;
    for i in 1..=k {
        let (weights, rest) = (&table[i], &completions[k - i]);
        place = (0..place)
            .find(|&e| room < weight + weights[e] + rest[e])
            .unwrap_or(place);
        places[i] = place;
        weight += weights[place];
    }
    places
}
