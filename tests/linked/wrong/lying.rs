//! Wrong in which job a row names and in where it is laid out: "jobs with an amount by falling need,
//! ties in input order".

use super::{class_memory, replanned, Plan, Wrong};
use crate::independent::{
    clipped_to, held, join, open, order_of, stretches, timed_stretches, wrap_along, Held, Order,
    Row, Times,
};
use crate::lent::Call;
use crate::library::Function;
use std::cmp::Reverse;

pub const PARTS: &[&[Wrong]] = &[LAID_OUT, LAID_OUT_BY_PLAN, NAMED, NAMED_BY_PLAN];

/// Puts the jobs as they lie into another order.
type Rank = fn(&Order, &mut Vec<Held>);
/// The number that a row names for the job of a number.
type Name = fn(&[Held], u32) -> u32;

/// A wrong thing of each planner of the dock but hbr_plan.
macro_rules! of_other_planners {
    ($($listed:tt)*) => {
        of_these!([Least, BookLeast, BookPlan, TimedPlan], $($listed)*)
    };
}

const LAID_OUT: &[Wrong] = of_other_planners!(along, Rank:
    "lays jobs out in input order" => IN_INPUT_ORDER,
    "lays jobs out by rising need" => BY_RISING_NEED,
    "lays jobs of one class out in input order" => |order, lying| {
        lying.sort_by_key(|one| (Reverse(class_memory(order, &one.job)), one.number));
    },
    "lays equal needs out from the last" => |_, lying| {
        lying.sort_by_key(|one| Reverse((one.job.need, one.number)));
    },
    "lays equal needs out by due time" => TIES_BY_DUE_TIME,
    "lays equal needs out by time" => TIES_BY_TIME,
);

/// The others of hbr_plan are among the wrong plans.
const LAID_OUT_BY_PLAN: &[Wrong] = of_one!(Plan, plan_along:
    "lays jobs out in input order" => IN_INPUT_ORDER,
    "lays jobs out by rising need" => BY_RISING_NEED,
    "lays equal needs out by due time" => TIES_BY_DUE_TIME,
    "lays equal needs out by time" => TIES_BY_TIME,
);

const IN_INPUT_ORDER: Rank = |_, lying| lying.sort_by_key(|one| one.number);
const BY_RISING_NEED: Rank = |_, lying| lying.sort_by_key(|one| one.job.need);
const TIES_BY_DUE_TIME: Rank = |_, lying| {
    lying.sort_by_key(|one| (Reverse(one.job.need), one.job.due));
};
const TIES_BY_TIME: Rank = |_, lying| {
    lying.sort_by_key(|one| (Reverse(one.job.need), one.job.time));
};

const NAMED: &[Wrong] = of_other_planners!(named, Name:
    "names the place of each job" => PLACE,
    "names the job at the place of each number" => AT_PLACE,
);

const NAMED_BY_PLAN: &[Wrong] = of_one!(Plan, plan_named:
    "names the place of each job" => PLACE,
    "names the job at the place of each number" => AT_PLACE,
);

const PLACE: Name = |lying, number| {
    let place = lying.iter().position(|one| one.number == number);
    place.map_or(0, |place| place as u32 + 1)
};
const AT_PLACE: Name = |lying, number| lying[number as usize - 1].number;

/// The planner, but with its amounts laid out along the jobs in another order.
fn along(function: Function, call: &mut Call, rank: Rank) -> u32 {
    let lent = call.clone();
    replanned(function, call, |made| {
        let times = Times::of(&made.order, lent.ready.content(), lent.windows.content());
        let times = times.filter(|_| function.takes_times());
        let mut lying = held(&made.order);
        rank(&made.order, &mut lying);
        laid_along(made, times.as_ref(), &lying).unwrap_or_else(|| made.rows.clone())
    })
}

fn plan_along(call: &mut Call, rank: Rank) -> u32 {
    along(Function::Plan, call, rank)
}

/// The planner, but with other names for the jobs of its rows.
fn named(function: Function, call: &mut Call, name: Name) -> u32 {
    replanned(function, call, |made| {
        let lying = held(&made.order);
        let mut rows = made.rows.clone();
        rows.iter_mut()
            .for_each(|row| row[0] = name(&lying, row[0]));
        rows
    })
}

fn plan_named(call: &mut Call, name: Name) -> u32 {
    named(Function::Plan, call, name)
}

/// The joined rows of a plan's amounts, laid out along the jobs as they lie here, where the processors
/// suffice.
fn laid_along(made: &Plan, times: Option<&Times>, lying: &[Held]) -> Option<Vec<Row>> {
    let (order, bound) = (&made.order, i64::from(made.bound));
    let stretches = match times {
        None => stretches(order, bound),
        Some(times) => timed_stretches(order, times, bound),
    };
    let amounts = clipped_to(order, &stretches, &made.rows);
    let laid_out = stretches.iter().zip(&amounts).map(|(stretch, amounts)| {
        let processors = processors(order, times, *stretch);
        wrapped(order, &processors, *stretch, amounts, lying)
    });
    let laid_out: Vec<Vec<Row>> = laid_out.collect::<Option<_>>()?;
    Some(join(&stretches, &laid_out))
}

/// The processors on hand in a stretch by falling memory.
fn processors(order: &Order, times: Option<&Times>, stretch: (i64, i64)) -> Vec<usize> {
    let mut found = match times {
        None => (0..order.memories.len()).collect(),
        Some(times) => open(times, stretch),
    };
    found.sort_by_key(|place| Reverse(order.memories[*place]));
    found
}

/// The rows of one stretch. The wrap leaves jobs of equal needs as they lie.
fn wrapped(
    order: &Order,
    processors: &[usize],
    stretch: (i64, i64),
    amounts: &[i64],
    lying: &[Held],
) -> Option<Vec<Row>> {
    let mut alike = order_of(order, lying);
    alike.jobs.iter_mut().for_each(|job| job.need = 0);
    let moved = lying.iter().map(|one| amounts[one.number as usize - 1]);
    let mut rows = wrap_along(&alike, processors, stretch, &moved.collect::<Vec<i64>>())?;
    rows.iter_mut()
        .for_each(|row| row[0] = lying[row[0] as usize - 1].number);
    Some(rows)
}
