//! "Where a job ends a stretch on a processor and opens the next stretch on that processor, makers
//! want one row". "A joined row stands where its earliest part stood."

use super::wrap::{layout, stretches};
use super::{Order, Row};
use std::collections::BTreeMap;

/// "which job each processor ends with", and the place of that job's row among the joined ones, by
/// processor. A processor that rests at the stretch's end is not listed.
type Endings = BTreeMap<u32, (u32, usize)>;

/// The rows of amounts, given by stretch and then by job: laid out by the wrap and joined.
pub fn joined(order: &Order, bound: i64, amounts: &[Vec<i64>]) -> Vec<Row> {
    join(&stretches(order, bound), &layout(order, bound, amounts))
}

/// The rows of stretches that follow one another, joined stretch by stretch.
pub fn join(stretches: &[(i64, i64)], laid_out: &[Vec<Row>]) -> Vec<Row> {
    let mut rows = Vec::new();
    let mut endings = Endings::new();
    for (stretch, laid_out) in stretches.iter().zip(laid_out) {
        endings = join_stretch(&mut rows, &endings, *stretch, laid_out);
    }
    rows
}

/// Puts the rows of a stretch behind those of earlier ones or, where they go on with the job that
/// the processor ended with, onto them; answers how this stretch ends.
fn join_stretch(
    rows: &mut Vec<Row>,
    before: &Endings,
    (begin, end): (i64, i64),
    laid_out: &[Row],
) -> Endings {
    let mut endings = Endings::new();
    for &[job, processor, from, to] in laid_out {
        let opens = i64::from(from) == begin;
        let place = match before.get(&processor) {
            Some(&(ended, place)) if opens && ended == job => {
                rows[place][3] = to;
                place
            }
            _ => {
                rows.push([job, processor, from, to]);
                rows.len() - 1
            }
        };
        if i64::from(to) == end {
            endings.insert(processor, (job, place));
        }
    }
    endings
}
