//! Document 02, "Sessions that arrive later, processors that rest": "a ready minute (0 to 1,000,000)
//! for each job and one window, opening to closing minute in the same range, for each processor";
//! their refusals; and the stretches that "lie between those times".

use super::{Order, Refusal};
use std::collections::BTreeSet;

/// The largest ready minute, opening and closing.
pub const MOST_MINUTE: u32 = 1_000_000;

/// "its check asks the same of up to 8,064 rows".
pub const MOST_TIMED_ROWS: usize = 8_064;

/// The minutes at which a processor opens and closes.
pub type Window = [u32; 2];

/// A ready minute to each job and a window to each processor, both in input order.
#[derive(Clone, Debug, PartialEq)]
pub struct Times {
    pub ready: Vec<u32>,
    pub windows: Vec<Window>,
}

impl Times {
    /// The times that are lent as numbers, a window as two of them; or none where there is not one
    /// ready minute to a job and one window to a processor.
    pub fn of(order: &Order, ready: &[u32], windows: &[u32]) -> Option<Times> {
        let each = ready.len() == order.jobs.len() && windows.len() == 2 * order.memories.len();
        let window = |two: &[u32]| [two[0], two[1]];
        each.then(|| Times {
            ready: ready.to_vec(),
            windows: windows.chunks_exact(2).map(window).collect(),
        })
    }
}

/// "A ready minute out of range is 15", with the first such job; "a window out of range or not closing
/// after it opens is 16", with the first such processor.
pub fn judge_times(times: &Times) -> Option<Refusal> {
    let late = |ready: &u32| *ready > MOST_MINUTE;
    let bad = |[opening, closing]: &Window| *closing > MOST_MINUTE || closing <= opening;
    let first = |number, place| Refusal {
        number,
        job: place as u32 + 1,
    };
    let job = times.ready.iter().position(late);
    let processor = times.windows.iter().position(bad);
    job.map(|place| first(15, place))
        .or_else(|| processor.map(|place| first(16, place)))
}

/// "the distinct ready minutes, ends, openings and closings", ends before the start too.
fn distinct(order: &Order, times: &Times, bound: i64) -> BTreeSet<i64> {
    let ends = order.jobs.iter().map(|job| job.end(bound));
    let minutes = times.ready.iter().chain(times.windows.as_flattened());
    ends.chain(minutes.map(|minute| i64::from(*minute)))
        .collect()
}

/// "Its buffer needs E × (n + m - 1) rows".
pub fn timed_rows_asked(order: &Order, times: &Times, bound: i64) -> usize {
    distinct(order, times, bound).len() * (order.jobs.len() + order.memories.len() - 1)
}

/// The stretches with their beginnings and ends, in order of time; nothing is before minute 0.
pub fn timed_stretches(order: &Order, times: &Times, bound: i64) -> Vec<(i64, i64)> {
    let cut_off = |time: i64| time.max(0);
    let marks = distinct(order, times, bound).into_iter().map(cut_off);
    let marks: Vec<i64> = marks.collect::<BTreeSet<i64>>().into_iter().collect();
    marks.windows(2).map(|two| (two[0], two[1])).collect()
}

/// The places of the processors that are open throughout a stretch, in input order.
pub fn open(times: &Times, (begin, end): (i64, i64)) -> Vec<usize> {
    let opens = |place: &usize| {
        let [opening, closing] = times.windows[*place];
        i64::from(opening) <= begin && end <= i64::from(closing)
    };
    (0..times.windows.len()).filter(opens).collect()
}
