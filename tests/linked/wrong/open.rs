//! Wrong in how plans with ready minutes and windows are laid out: "on the open processors as in document
//! 01 and joined as in §2".

use super::timed::{made_of, replanned, Made};
use super::{answered, Wrong};
use crate::independent::{clipped_to, join, joins_over, open, timed_clipped, wrap_along, Row};
use crate::lent::Call;
use crate::library::Function;
use crate::model::MODEL;
use std::cmp::Reverse;

pub const PARTS: &[&[Wrong]] = &[LAYOUTS, JOINS];

/// Rows that are laid out otherwise.
const LAYOUTS: &[Wrong] = of_one!(TimedPlan, relaid:
    "fills closed processors too" => |made, _| (0..made.order.memories.len()).collect(),
    "takes the open processors by rising memory" => |made, stretch| {
        let mut open = open(&made.times, stretch);
        open.sort_by_key(|place| made.order.memories[*place]);
        open
    },
    "takes the open processors backwards" => |made, stretch| {
        let mut open = by_memory(made, stretch);
        open.reverse();
        open
    },
    "takes the open processors by opening" => |made, stretch| {
        let mut open = by_memory(made, stretch);
        open.sort_by_key(|place| made.times.windows[*place][0]);
        open
    },
    "takes the open processors by closing" => |made, stretch| {
        let mut open = by_memory(made, stretch);
        open.sort_by_key(|place| made.times.windows[*place][1]);
        open
    },
    "takes the open processors by number" => |made, stretch| open(&made.times, stretch),
    "breaks ties of processors backwards" => |made, stretch| {
        let mut open = open(&made.times, stretch);
        open.reverse();
        open.sort_by_key(|place| Reverse(made.order.memories[*place]));
        open
    },
);

const JOINS: &[Wrong] = of_one!(TimedPlan, replanned:
    "joins no rows" => |made| Some(made.by_stretch().concat()),
    "joins at ends alone" => |made| made.joined_at(|made, mark| {
        made.order.jobs.iter().any(|job| job.end(made.bound) == mark)
    }),
    "does not join at ready minutes" => |made| made.joined_at(|made, mark| {
        !made.times.ready.iter().any(|ready| i64::from(*ready) == mark)
    }),
    "does not join at openings" => |made| made.joined_at(|made, mark| {
        !made.times.windows.iter().any(|window| i64::from(window[0]) == mark)
    }),
    "does not join at closings" => |made| made.joined_at(|made, mark| {
        !made.times.windows.iter().any(|window| i64::from(window[1]) == mark)
    }),
    "does not join at ends" => |made| made.joined_at(|made, mark| {
        !made.order.jobs.iter().any(|job| job.end(made.bound) == mark)
    }),
    "puts a joined row where its last part stood" => |made| {
        let mut rows = made.rows.clone();
        let stretches = made.stretches();
        let of = |row: &Row| stretches.iter().position(|stretch| stretch.1 >= i64::from(row[3]));
        rows.sort_by_key(|row| of(row));
        Some(rows)
    },
    "puts joined rows last" => |made| {
        let mut rows = made.rows.clone();
        rows.sort_by_key(|row| joins_over(&made.stretches(), &[*row]) > 0);
        Some(rows)
    },
    "cuts at ends alone" => |made| made.cut_at(|made, mark| {
        made.order.jobs.iter().any(|job| job.end(made.bound) == mark)
    }),
    "does not cut at ready minutes" => |made| made.cut_at(|made, mark| {
        !made.times.ready.iter().any(|ready| i64::from(*ready) == mark)
    }),
);

impl Made {
    /// The rows, joined only at the marks of which this holds.
    fn joined_at(&self, joins: fn(&Made, i64) -> bool) -> Option<Vec<Row>> {
        let mut rows = Vec::new();
        let (mut stretches, mut by_stretch) = (Vec::new(), Vec::new());
        for (stretch, laid_out) in self.stretches().into_iter().zip(self.by_stretch()) {
            if !joins(self, stretch.0) {
                rows.extend(join(&stretches, &by_stretch));
                (stretches, by_stretch) = (Vec::new(), Vec::new());
            }
            stretches.push(stretch);
            by_stretch.push(laid_out);
        }
        rows.extend(join(&stretches, &by_stretch));
        Some(rows)
    }

    /// The rows, laid out between the marks of which this holds, on the processors that are open
    /// throughout, where these suffice.
    fn cut_at(&self, cuts: fn(&Made, i64) -> bool) -> Option<Vec<Row>> {
        let mut longer: Vec<(i64, i64)> = Vec::new();
        for stretch in self.stretches() {
            match longer.last_mut() {
                Some(last) if !cuts(self, stretch.0) => last.1 = stretch.1,
                _ => longer.push(stretch),
            }
        }
        let amounts = clipped_to(&self.order, &longer, &self.rows);
        let both = longer.iter().zip(&amounts);
        let laid_out = both.map(|(stretch, amounts)| {
            let open = by_memory(self, *stretch);
            wrap_along(&self.order, &open, *stretch, amounts)
        });
        let laid_out: Vec<Vec<Row>> = laid_out.collect::<Option<_>>()?;
        Some(join(&longer, &laid_out))
    }
}

/// The open processors by falling memory, ties in input order.
fn by_memory(made: &Made, stretch: (i64, i64)) -> Vec<usize> {
    let mut open = open(&made.times, stretch);
    open.sort_by_key(|place| Reverse(made.order.memories[*place]));
    open
}

/// The planner with each stretch laid out on other processors, or in another order of them.
fn relaid(call: &mut Call, processors: fn(&Made, (i64, i64)) -> Vec<usize>) -> u32 {
    let before = call.rows.clone();
    answered(MODEL.timed_plan, call, |call| {
        let made = made_of(call);
        let amounts = timed_clipped(&made.order, &made.times, made.bound, &made.rows);
        let stretches = made.stretches();
        let both = stretches.iter().zip(&amounts);
        let laid_out = both.map(|(stretch, amounts)| {
            let processors = processors(&made, *stretch);
            wrap_along(&made.order, &processors, *stretch, amounts)
        });
        let Some(laid_out) = laid_out.collect::<Option<Vec<Vec<Row>>>>() else {
            return;
        };
        let rows = join(&stretches, &laid_out);
        if 4 * rows.len() <= before.len() {
            call.rows = before;
            call.rows.put(&rows.concat());
            call.answer.put(&[rows.len() as i32]);
        }
    })
}
