//! Compares what a call did with what it had to do, over whole buffers. Which amounts a job gets in
//! which stretch is free; "Of them it holds that the rows written are their layout and a right
//! plan", where a job that goes on over the end of a stretch on its processor has one row.

use crate::expect::Expected;
use crate::independent::{
    clipped, joined, left_to_join, right, rows_asked, timed_clipped, timed_joined, timed_right,
    timed_rows_asked, Order, Outcome, Row, Times,
};
use crate::lent::{held_numbers, held_rows, rows_of, Call};

/// What is wrong with a call's result and with what it left in its buffers, or none.
pub fn wrong(
    expected: &Expected,
    order: impl Fn() -> Order,
    before: &Call,
    after: &Call,
    result: u32,
) -> Option<String> {
    let told = match expected {
        Expected::Refused(refusal) => refusal.number + 256 * refusal.job,
        _ => 0,
    };
    if result != told {
        return Some(format!("result {result}, not {told} (refusal + 256 × job)"));
    }
    // a refused call writes nothing
    if told != 0 {
        return unequal(before, after);
    }
    let mut should = before.clone();
    match expected {
        Expected::Refused(_) => {}
        Expected::Answer(numbers) => should.answer.put(numbers),
        Expected::Classes(classes) => {
            should.classes.put(&classes.concat());
            should.answer.put(&[classes.len() as i32]);
        }
        Expected::File(bytes) => {
            should.file.put(bytes);
            should.answer.put(&[bytes.len() as i32]);
        }
        Expected::Line(line) => {
            should.line.put(line.as_bytes());
            should.answer.put(&[line.len() as i32]);
        }
        Expected::Needs(needs) => {
            should.needs.put(needs);
            should.answer.put(&[needs.len() as i32]);
        }
        Expected::Order(bytes) => {
            should.order.put(bytes);
            should.answer.put(&[bytes.len() as i32]);
        }
        Expected::Plan {
            bound,
            times,
            lateness,
            book,
        } => {
            let made = Made {
                order: order(),
                bound: i64::from(*bound),
                times: times.as_ref(),
            };
            let rows = match planned(&made, lateness.is_some().into(), after) {
                Ok(rows) => rows,
                Err(wrong) => return Some(wrong),
            };
            should.rows.put(rows);
            let numbers = lateness.iter().copied().chain([rows.len() as i32 / 4]);
            should.answer.put(&numbers.collect::<Vec<i32>>());
            if let Some(book) = book {
                should.book.put(book);
            }
        }
        Expected::Block { bytes, outcome } => {
            should.block.put(bytes);
            match held(*outcome, order, after) {
                Ok(Some(numbers)) => should.rows.put(&numbers),
                Ok(None) => {}
                Err(wrong) => return Some(wrong),
            }
        }
    }
    unequal(&should, after)
}

/// The numbers that a block must hold after a command, or what is wrong with its rows; none after other writes.
fn held(
    outcome: Option<Outcome>,
    order: impl Fn() -> Order,
    after: &Call,
) -> Result<Option<Vec<u32>>, String> {
    let Some(outcome) = outcome else {
        return Ok(None);
    };
    let Some(bound) = outcome.planned_at() else {
        return Ok(Some(held_numbers(&[])));
    };
    let made = Made {
        order: order(),
        bound: bound.into(),
        times: None,
    };
    let rows = held_rows(after.rows.content());
    match wrong_rows(&made, &rows.concat()) {
        Some(wrong) => Err(wrong),
        None => Ok(Some(held_numbers(&rows))),
    }
}

/// What a plan was made of: at a bound, with ready minutes and windows or without.
struct Made<'a> {
    order: Order,
    bound: i64,
    times: Option<&'a Times>,
}

impl Made<'_> {
    /// How many rows it may have at most.
    fn asked(&self) -> usize {
        match self.times {
            None => rows_asked(&self.order),
            Some(times) => timed_rows_asked(&self.order, times, self.bound),
        }
    }

    /// Whether the numbers are a right plan, which keeps the times.
    fn right(&self, numbers: &[u32]) -> bool {
        match self.times {
            None => right(&self.order, self.bound, numbers),
            Some(times) => timed_right(&self.order, times, self.bound, numbers),
        }
    }

    /// The joined layout of the amounts that the rows of a right plan themselves give.
    fn laid_out_again(&self, rows: &[Row]) -> Vec<Row> {
        let Made {
            ref order, bound, ..
        } = *self;
        match self.times {
            None => joined(order, bound, &clipped(order, bound, rows)),
            Some(times) => {
                let amounts = timed_clipped(order, times, bound, rows);
                timed_joined(order, times, bound, &amounts)
            }
        }
    }
}

/// The rows written, by the count at this place of the answer, or what is wrong with them.
fn planned<'a>(made: &Made, count_at: usize, after: &'a Call) -> Result<&'a [u32], String> {
    let told = after.answer.content()[count_at];
    match usize::try_from(told) {
        Ok(count) if count <= made.asked() => {
            let rows = &after.rows.content()[..4 * count];
            wrong_rows(made, rows).map_or(Ok(rows), Err)
        }
        _ => Err(format!("{told} rows written")),
    }
}

/// What is wrong with rows as a plan of the planner: clipped to the stretches they give amounts, and
/// they must be the layout of these, joined.
fn wrong_rows(made: &Made, numbers: &[u32]) -> Option<String> {
    let bound = made.bound;
    if !made.right(numbers) {
        return Some(format!("no right plan at {bound}"));
    }
    let rows = rows_of(numbers);
    if let Some((place, next)) = left_to_join(&rows) {
        let (row, next) = (rows[place], rows[next]);
        return Some(format!("row {next:?} continues row {row:?}"));
    }
    let should = made.laid_out_again(&rows);
    let told = || format!("not the joined layout of its amounts at {bound}: {should:?}");
    (should != rows).then(told)
}

/// The first place at which a buffer, guards included, is not as it should be.
pub fn unequal(should: &Call, is: &Call) -> Option<String> {
    let buffers = [
        ("file", is.file.unequal_at(&should.file)),
        ("memories", is.memories.unequal_at(&should.memories)),
        ("jobs", is.jobs.unequal_at(&should.jobs)),
        ("classes", is.classes.unequal_at(&should.classes)),
        ("ready", is.ready.unequal_at(&should.ready)),
        ("windows", is.windows.unequal_at(&should.windows)),
        ("rows", is.rows.unequal_at(&should.rows)),
        ("book", is.book.unequal_at(&should.book)),
        ("reason", is.reason.unequal_at(&should.reason)),
        ("line", is.line.unequal_at(&should.line)),
        ("table", is.table.unequal_at(&should.table)),
        ("lengths", is.lengths.unequal_at(&should.lengths)),
        ("needs", is.needs.unequal_at(&should.needs)),
        ("highs", is.highs.unequal_at(&should.highs)),
        ("order", is.order.unequal_at(&should.order)),
        ("block", is.block.unequal_at(&should.block)),
        ("answer", is.answer.unequal_at(&should.answer)),
    ];
    let (name, place) = buffers.iter().find(|(_, place)| place.is_some())?;
    let place = (*place)?;
    Some(format!("{name}[{place}] is not as it should be"))
}
