//! McNaughton's wrap: the rows of a plan from amounts. Open processors by falling memory, jobs by
//! falling need, ties in input order; a processor is filled to the stretch's end, then the next one
//! from its beginning. Where a job ends a stretch on a processor and opens the next stretch on that
//! processor, it has one row.

use super::amounts::Amounts;
use super::order::{Order, MOST_PROCESSORS};
use super::setting::Setting;
use super::times::Times;

/// Where the next share goes on: the place in the processor order, the minute.
struct Place {
    processor: usize,
    minute: u32,
}

/// The rows written so far, and of each processor the number of its last row, from 1; 0 for none.
struct Written<'a> {
    rows: &'a mut [u32],
    count: usize,
    last: [usize; MOST_PROCESSORS],
}

impl Written<'_> {
    /// A piece that begins where the last row of its processor ends lengthens that row if it has the
    /// same job; any other is a row behind all rows.
    fn put(&mut self, j: usize, processor: usize, from: u32, to: u32) {
        let job = j as u32 + 1;
        let last = self.last[processor];
        if 0 < last {
            let row = &mut self.rows[4 * (last - 1)..][..4];
            if row[3] == from && row[0] == job {
                row[3] = to;
                return;
            }
        }
        let row = &mut self.rows[4 * self.count..][..4];
        row[0] = job;
        row[1] = processor as u32 + 1;
        row[2] = from;
        row[3] = to;
        self.count += 1;
        self.last[processor] = self.count;
    }
}

/// The rows of all stretches, from row 0 on; answers how many there are.
pub fn lay<const Q: usize>(
    order: &Order,
    setting: &Setting,
    times: &impl Times,
    marks: &[u32],
    amounts: &Amounts<Q>,
    rows: &mut [u32],
) -> usize {
    let by_memory = &setting.by_memory[..order.processor_count];
    let mut written = Written {
        rows,
        count: 0,
        last: [0; MOST_PROCESSORS],
    };
    for (s, mark) in marks.windows(2).enumerate() {
        let (start, end) = (mark[0], mark[1]);
        let mut processors = [0; MOST_PROCESSORS];
        let mut open = 0;
        for &processor in by_memory {
            processors[open] = processor;
            open += usize::from(times.open(processor, start, end));
        }
        let processors = &processors[..open];
        let mut place = Place {
            processor: 0,
            minute: start,
        };
        for held in setting.jobs() {
            let minutes = amounts.of(held.job, s);
            lay_share(
                &mut written,
                processors,
                start,
                end,
                &mut place,
                held.job,
                minutes,
            );
        }
    }
    written.count
}

/// The minutes of job j in a stretch, from a place on.
fn lay_share(
    written: &mut Written,
    processors: &[usize],
    start: u32,
    end: u32,
    place: &mut Place,
    j: usize,
    minutes: u32,
) {
    let mut left = minutes;
    while 0 < left && place.processor < processors.len() {
        let length = left.min(end - place.minute);
        let to = place.minute + length;
        written.put(j, processors[place.processor], place.minute, to);
        place.minute = to;
        left -= length;
        if to == end {
            place.processor += 1;
            place.minute = start;
        }
    }
}
