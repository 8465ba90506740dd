//! Reading back: a reason is taken from the numbers in a line, its own line is composed, and the two
//! are compared.

use super::line::{self, Reason};
use super::order::Order;
use super::scan::Scan;

/// The reason of a line; zeros where there is none.
pub fn recover(order: &Order, bound: i32, line: &[u8]) -> Reason {
    let reason = candidate(order, line);
    let text = line::line_of(order, bound, &reason);
    let own = text.written();
    if own.is_empty() || own != line {
        return Reason::default();
    }
    reason
}

/// The reason that a line may be of: a job's begins with j.
fn candidate(order: &Order, line: &[u8]) -> Reason {
    let scan = Scan::of(line);
    let mut reason = Reason::default();
    if line.first() == Some(&b'j') {
        let job = order.jobs().get((scan.first as usize).wrapping_sub(1));
        let time = job.map_or(0, |job| job.time);
        reason[..3].copy_from_slice(&[line::JOB, scan.first as i32, time as i32]);
    } else {
        reason[..2].copy_from_slice(&[line::STAIRS, scan.done as i32 / 2]);
        reason[3..].copy_from_slice(&scan.dues);
    }
    reason
}
