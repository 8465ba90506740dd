//! A row of a joined plan may reach over the ends of stretches. Clipped to the stretches, rows tell
//! the amounts that they were laid out from.

use super::wrap::stretches;
use super::{Order, Row};

/// The minutes that rows give, by stretch and then by job, of rows whose jobs exist.
pub fn clipped(order: &Order, bound: i64, rows: &[Row]) -> Vec<Vec<i64>> {
    clipped_to(order, &stretches(order, bound), rows)
}

/// The same over any stretches.
pub fn clipped_to(order: &Order, stretches: &[(i64, i64)], rows: &[Row]) -> Vec<Vec<i64>> {
    let in_stretch = |&(begin, end): &(i64, i64)| {
        let mut minutes = vec![0; order.jobs.len()];
        for &[job, _, from, to] in rows {
            let (from, to) = (begin.max(i64::from(from)), end.min(i64::from(to)));
            minutes[job as usize - 1] += 0.max(to - from);
        }
        minutes
    };
    stretches.iter().map(in_stretch).collect()
}

/// How many ends of stretches rows reach over: so many joins were made. Rows just laid out reach
/// over none.
pub fn joins(order: &Order, bound: i64, rows: &[Row]) -> usize {
    joins_over(&stretches(order, bound), rows)
}

/// The same over any stretches.
pub fn joins_over(stretches: &[(i64, i64)], rows: &[Row]) -> usize {
    let over = |end: i64| {
        let reaches = |row: &&Row| i64::from(row[2]) < end && end < i64::from(row[3]);
        rows.iter().filter(reaches).count()
    };
    stretches.iter().map(|(_, end)| over(*end)).sum()
}
