//! Wrong in the check with ready minutes and windows: one rule left out, too strict or of another job or
//! processor, rows miscounted.

use super::{answered, given, Wrong};
use crate::independent::{
    right, timed_clipped, timed_joined, timed_right, Order, Row, Times, MOST_MINUTE,
};
use crate::lent::{rows_of, Call};
use crate::library::Function;
use crate::model::MODEL;

pub const PARTS: &[&[Wrong]] = &[RULES, BASE, ROWS];

const RULES: &[Wrong] = of_one!(TimedCheck, judged:
    "says yes" => |_| true,
    "says no" => |_| false,
    "does not look at times" => |asked| right(&asked.order, asked.bound, &asked.numbers),
    "does not look at ready minutes" => |asked| asked.with(|times| times.ready.fill(0)),
    "does not look at openings" => |asked| asked.with(|times| {
        times.windows.iter_mut().for_each(|window| window[0] = 0);
    }),
    "does not look at closings" => |asked| asked.with(|times| {
        times.windows.iter_mut().for_each(|window| window[1] = MOST_MINUTE);
    }),
    "does not look at windows" => |asked| asked.with(|times| times.windows.fill([0, MOST_MINUTE])),
    "compares a ready minute with `to`" => |asked| {
        asked.with(|times| times.ready.fill(0)) && asked.each(|[_, _, _, to], ready, _| ready <= to)
    },
    "compares an opening with `to`" => |asked| {
        asked.with(|times| times.windows.iter_mut().for_each(|window| window[0] = 0))
            && asked.each(|[_, _, _, to], _, [opening, _]| opening <= to)
    },
    "compares a closing with `from`" => |asked| {
        asked.with(|times| times.windows.iter_mut().for_each(|window| window[1] = MOST_MINUTE))
            && asked.each(|[_, _, from, _], _, [_, closing]| from <= closing)
    },
    "takes no row at its ready minute" => |asked| {
        asked.right() && asked.each(|[_, _, from, _], ready, _| ready == 0 || ready < from)
    },
    "takes no row at an opening" => |asked| {
        asked.right() && asked.each(|[_, _, from, _], _, [opening, _]| opening == 0 || opening < from)
    },
    "takes no row up to a closing" => |asked| {
        asked.right() && asked.each(|[_, _, _, to], _, [_, closing]| to < closing)
    },
    "takes a row a minute before a ready minute" => |asked| asked.with(|times| {
        times.ready.iter_mut().for_each(|ready| *ready = ready.saturating_sub(1));
    }),
    "takes a row a minute before an opening" => |asked| asked.with(|times| {
        times.windows.iter_mut().for_each(|window| window[0] = window[0].saturating_sub(1));
    }),
    "takes a row a minute after a closing" => |asked| asked.with(|times| {
        times.windows.iter_mut().for_each(|window| window[1] += 1);
    }),
    "has the first ready minute for all" => |asked| asked.with(|times| {
        let first = times.ready[0];
        times.ready.fill(first);
    }),
    "has the first window for all" => |asked| asked.with(|times| {
        let first = times.windows[0];
        times.windows.fill(first);
    }),
    "has the ready minutes in reverse" => |asked| asked.with(|times| times.ready.reverse()),
    "has the windows in reverse" => |asked| asked.with(|times| times.windows.reverse()),
    "looks at the first row of the list alone" => |asked| {
        let first: Vec<Row> = rows_of(&asked.numbers).into_iter().take(1).collect();
        let first = Asked { numbers: first.concat(), ..asked.clone() };
        right(&asked.order, asked.bound, &asked.numbers) && first.each(within)
    },
    "does not look at the last row of the list" => |asked| {
        let rows = rows_of(&asked.numbers);
        let others = rows[..rows.len().saturating_sub(1)].concat();
        let others = Asked { numbers: others, ..asked.clone() };
        right(&asked.order, asked.bound, &asked.numbers) && others.each(within)
    },
    "takes no other plans than the planner's" => |asked| asked.right() && asked.laid_out(),
);

/// The rules of a plan without times.
const BASE: &[Wrong] = of_one!(TimedCheck, judged:
    "ignores needs" => |asked| asked.of(|order, _| {
        order.jobs.iter_mut().for_each(|job| job.need = 0);
    }),
    "ignores ends" => |asked| {
        timed_right(&asked.order, &asked.times, 1 << 40, &asked.numbers)
    },
    "ends a minute late" => |asked| {
        timed_right(&asked.order, &asked.times, asked.bound + 1, &asked.numbers)
    },
    "ends a minute early" => |asked| {
        timed_right(&asked.order, &asked.times, asked.bound - 1, &asked.numbers)
    },
    "ignores times" => |asked| asked.of(|order, rows| {
        for (number, job) in (1..).zip(&mut order.jobs) {
            let own = rows.iter().filter(|row| row[0] == number);
            job.time = own.fold(0, |sum, row| sum.wrapping_add(row[3].wrapping_sub(row[2])));
        }
    }),
    "ignores numbers left over" => |asked| {
        let whole = asked.numbers.len() / 4 * 4;
        timed_right(&asked.order, &asked.times, asked.bound, &asked.numbers[..whole])
    },
    "takes an empty list" => |asked| asked.numbers.is_empty() || asked.right(),
    "ignores rows of jobs that are none" => |asked| {
        let jobs = asked.order.jobs.len() as u32;
        let mut rows = rows_of(&asked.numbers);
        rows.retain(|row| (1..=jobs).contains(&row[0]));
        asked.numbers.len() % 4 == 0
            && timed_right(&asked.order, &asked.times, asked.bound, &rows.concat())
    },
    "ignores empty rows" => |asked| {
        let mut rows = rows_of(&asked.numbers);
        rows.retain(|row| row[2] != row[3]);
        asked.numbers.len() % 4 == 0
            && timed_right(&asked.order, &asked.times, asked.bound, &rows.concat())
    },
);

const ROWS: &[Wrong] = of_one!(TimedCheck, counted:
    "takes no more than 3,024 rows" => |length, told| match told {
        0 if length > 4 * 3_024 => 11,
        _ => told,
    },
    "does not take 8,064 rows" => |length, told| match told {
        0 if length == 4 * 8_064 => 11,
        _ => told,
    },
    "takes 8,065 rows" => |length, told| match told {
        11 if length == 4 * 8_065 => 0,
        _ => told,
    },
    "does not count numbers left over as a row" => |length, told| match told {
        11 if length < 4 * 8_065 => 0,
        _ => told,
    },
    "takes any number of rows" => |_, told| match told {
        11 => 0,
        _ => told,
    },
    "counts rows in 16 bits" => |length, told| match told {
        11 if length / 4 % 65_536 <= 8_064 => 0,
        _ => told,
    },
    "tells too many rows before a bound out of range" => |length, told| match told {
        8 if length > 4 * 8_064 => 11,
        _ => told,
    },
    "tells too many rows before times" => |length, told| match told % 256 {
        8 | 15 | 16 if length > 4 * 8_064 => 11,
        _ => told,
    },
    "takes any bound" => |_, told| match told {
        8 => 0,
        _ => told,
    },
    "refuses an empty list" => |length, told| match told {
        0 if length == 0 => 9,
        _ => told,
    },
    "refuses numbers left over" => |length, told| match told {
        0 if length % 4 != 0 => 9,
        _ => told,
    },
);

/// What the check was asked.
#[derive(Clone)]
struct Asked {
    order: Order,
    times: Times,
    bound: i64,
    numbers: Vec<u32>,
}

impl Asked {
    fn right(&self) -> bool {
        timed_right(&self.order, &self.times, self.bound, &self.numbers)
    }

    /// Right with other times.
    fn with(&self, change: fn(&mut Times)) -> bool {
        let mut other = self.clone();
        change(&mut other.times);
        other.right()
    }

    /// Right for another order.
    fn of(&self, change: fn(&mut Order, &[Row])) -> bool {
        let mut other = self.clone();
        change(&mut other.order, &rows_of(&self.numbers));
        other.right()
    }

    /// Whether this holds of each row, its job's ready minute and its processor's window.
    fn each(&self, holds: fn(Row, u32, [u32; 2]) -> bool) -> bool {
        rows_of(&self.numbers).into_iter().all(|row| {
            let ready = self.times.ready[row[0] as usize - 1];
            holds(row, ready, self.times.windows[row[1] as usize - 1])
        })
    }

    /// Whether the rows are the joined layout of their amounts.
    fn laid_out(&self) -> bool {
        let Asked {
            order,
            times,
            bound,
            numbers,
        } = self;
        let rows = rows_of(numbers);
        let amounts = timed_clipped(order, times, *bound, &rows);
        timed_joined(order, times, *bound, &amounts) == rows
    }
}

/// The row keeps its ready minute and its window.
fn within([_, _, from, to]: Row, ready: u32, [opening, closing]: [u32; 2]) -> bool {
    ready <= from && opening <= from && to <= closing
}

/// The check with other rules, where the call is not refused.
fn judged(call: &mut Call, rules: fn(&Asked) -> bool) -> u32 {
    answered(MODEL.timed_check, call, |call| {
        let (order, times) = given(call);
        let asked = Asked {
            order,
            times,
            bound: call.bound.into(),
            numbers: call.rows.content().to_vec(),
        };
        call.answer.put(&[rules(&asked).into()]);
    })
}

/// Another result, from this one and from how many numbers there are; no where it is then answered.
fn counted(call: &mut Call, told: fn(usize, u32) -> u32) -> u32 {
    let mut after = call.clone();
    let result = (MODEL.timed_check)(&mut after);
    let then = told(call.rows.len(), result);
    match (result, then) {
        (0, 0) => *call = after,
        (_, 0) => call.answer.put(&[0]),
        _ => {}
    }
    then
}
