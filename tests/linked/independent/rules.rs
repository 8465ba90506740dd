//! "A plan is right for an order and a bound if": the four rules, over rows lent as numbers. "one
//! to three left over at the end are, in the check, one more row and a malformed one".

use super::{Order, Row};

const JOB: usize = 0;
const PROCESSOR: usize = 1;

/// Whether the numbers are a right plan.
pub fn right(order: &Order, bound: i64, numbers: &[u32]) -> bool {
    if numbers.len() % 4 != 0 {
        return false;
    }
    let row = |four: &[u32]| [four[0], four[1], four[2], four[3]];
    let rows: Vec<Row> = numbers.chunks_exact(4).map(row).collect();
    rows.iter().all(|row| stands(order, bound, row))
        && apart(&rows, JOB)
        && apart(&rows, PROCESSOR)
        && whole(order, &rows)
}

/// "every row names an existing job and processor that fit, and `from` is below `to`"; "`to` is at
/// most the job's end".
fn stands(order: &Order, bound: i64, row: &Row) -> bool {
    let [job, processor, from, to] = *row;
    let (Some(job), Some(processor)) = (job.checked_sub(1), processor.checked_sub(1)) else {
        return false;
    };
    let job = order.jobs.get(job as usize);
    let memory = order.memories.get(processor as usize);
    match (job, memory) {
        (Some(job), Some(&memory)) => {
            memory >= job.need && from < to && i64::from(to) <= job.end(bound)
        }
        _ => false,
    }
}

/// "two rows of one job never overlap, nor two rows of one processor; touching is no overlap". No
/// row here is empty, so rows sorted by `from` are apart if each is apart from the next.
fn apart(rows: &[Row], of: usize) -> bool {
    let mut sorted: Vec<&Row> = rows.iter().collect();
    sorted.sort_by_key(|row| (row[of], row[2]));
    let meet = |pair: &[&Row]| pair[0][of] == pair[1][of] && pair[1][2] < pair[0][3];
    !sorted.windows(2).any(meet)
}

/// "the lengths of a job's rows add up to its time exactly".
fn whole(order: &Order, rows: &[Row]) -> bool {
    let mut minutes = vec![0_i64; order.jobs.len()];
    for row in rows {
        minutes[row[JOB] as usize - 1] += i64::from(row[3]) - i64::from(row[2]);
    }
    let times = order.jobs.iter().map(|job| i64::from(job.time));
    minutes.into_iter().eq(times)
}
