//! Wrong in a reply to a screen, of an order within its limits: not "the dock's own reply". Some would be right
//! by themselves, such as another right plan, and are wrong beside the dock's.

use super::ranges::{refuses_largest, takes_below_smallest};
use super::untimed::{set_first, writes, writes_refused, Change};
use super::{accepted, answered, least, replanned, Plan, Wrong};
use crate::expect::reason_numbers;
use crate::independent::{amounts, joined, reason, rows_asked, Order, Reason, Row};
use crate::lent::Call;
use crate::library::Function;
use crate::model::MODEL;

pub const PARTS: &[&[Wrong]] = &[
    COUNTS, LEASTS, PLANNED, ROOM, TIGHT, RETOLD, REASONS, LINES, CHECKS, ROWS, BOUNDS, WRITES,
    REFUSES, ANSWERS,
];

/// Another plan in place of the one written.
type Replan = fn(&Plan) -> Vec<Row>;
/// Whether so many rows are enough where so many are asked for.
type Enough = fn(usize, usize) -> bool;
/// A change from what the call left, where it succeeds, and from what it was lent.
type Leave = fn(&mut Call, &Call);
/// Another result where the call leaves this.
type Told = fn(&Call, u32) -> u32;
type Other = fn(Function, &mut Call) -> u32;

const COUNTS: &[Wrong] = of_these!([ScreenJudge], writes, Change:
    "asks for as many rows as a screen's order can" => |call| call.answer.content_mut()[2] = 180,
    "answers what a screen holds" => |call| call.answer.put(&[4, 12, 180]),
    "answers jobs before processors" => |call| call.answer.content_mut().swap(0, 1),
);

const LEASTS: &[Wrong] = of_these!([ScreenLeast], writes, Change:
    "is one too large" => |call| call.answer.content_mut()[0] += 1,
    "is one too small" => |call| call.answer.content_mut()[0] -= 1,
    "counts a row too many" => |call| call.answer.content_mut()[1] += 1,
);

const PLANNED: &[Wrong] = of_these!([ScreenLeast, ScreenPlan], replans, Replan:
    "plans the jobs from the last" => from_the_last,
    "writes its rows backwards" => |made| made.rows.iter().rev().copied().collect(),
    "leaves out the last row" => |made| made.rows[..made.rows.len() - 1].to_vec(),
    "leaves no plan" => |_| Vec::new(),
);

const ROOM: &[Wrong] = of_these!([ScreenLeast, ScreenPlan], asks, Enough:
    "asks for 180 rows" => |rows, _| rows >= 180,
    "asks for 3,024 rows" => |rows, _| rows >= 3_024,
    "asks for a row more" => |rows, asked| rows > asked,
    "asks for a row less" => |rows, asked| rows + 1 >= asked,
    "asks for no rows" => |_, _| true,
);

const TIGHT: &[Wrong] = of_these!([ScreenPlan], tells, Told:
    "calls the least lateness too tight" => |call, told| match told {
        0 if call.bound == least(call) => 10,
        _ => told,
    },
    "calls no bound too tight" => |_, told| if told == 10 { 0 } else { told },
    "has no plan of over 12 rows" => |call, told| match told {
        0 if call.answer.content()[0] > 12 => 9,
        _ => told,
    },
);

const RETOLD: &[Wrong] = of_one!(ScreenReason, retold:
    "leaves out the due minute" => |order, bound| reason(order, bound - 1),
    "adds the due minute twice" => |order, bound| reason(order, bound + 1),
    "tells no staircase" => |order, bound| {
        reason(order, bound).filter(|told| matches!(told, Reason::Job { .. }))
    },
    "tells no job" => |order, bound| {
        reason(order, bound).filter(|told| matches!(told, Reason::Stairs(_)))
    },
);

const REASONS: &[Wrong] = of_these!([ScreenReason], leaves, Leave:
    "leaves what is beyond four classes" => |call, lent| {
        let beyond = lent.answer.content()[7..].to_vec();
        call.answer.content_mut()[7..].copy_from_slice(&beyond);
    },
    "leaves its answer where there is no reason" => |call, lent| if call.answer.content()[0] == 0 {
        call.answer = lent.answer.clone();
    },
);

const LINES: &[Wrong] = of_these!([ScreenSentence], tells, Told:
    "takes any reason" => |_, told| if told == 253 { 0 } else { told },
    "takes a reason of 7 numbers" => |call, told| match told {
        253 if call.reason.len() >= 7 => 0,
        _ => told,
    },
    "asks for 541 bytes" => |call, told| match told {
        0 if call.line.len() < 541 => 9,
        _ => told,
    },
    "asks for a byte more than its line" => |call, told| match told {
        0 if call.line.len() == call.answer.content()[0] as usize => 9,
        _ => told,
    },
    "asks for no room" => |_, told| if told == 9 { 0 } else { told },
);

const CHECKS: &[Wrong] = of_these!([ScreenCheck], writes, Change:
    "says yes" => |call| call.answer.put(&[1]),
    "says no" => |call| call.answer.put(&[0]),
    "says no to more rows than a screen's order can ask for" => |call| {
        if call.rows.len() > 4 * 180 {
            call.answer.put(&[0]);
        }
    },
    "sorts the rows" => |call| call.rows.content_mut().sort(),
);

const ROWS: &[Wrong] = of_these!([ScreenCheck], tells, Told:
    "takes 180 rows" => |call, told| match told {
        0 if call.rows.len() > 4 * 180 => 11,
        _ => told,
    },
    "does not take 3,024 rows" => |call, told| match told {
        0 if call.rows.len() == 4 * 3_024 => 11,
        _ => told,
    },
    "takes 3,025 rows" => |call, told| match told {
        11 if call.rows.len() <= 4 * 3_025 => 0,
        _ => told,
    },
);

const BOUNDS: &[Wrong] = of_these!(
    [ScreenPlan, ScreenReason, ScreenSentence, ScreenCheck],
    otherwise, Other:
    "does not take the largest bound" => refuses_largest,
    "takes one below the smallest bound" => takes_below_smallest,
    "takes any bound" => |function, call| {
        let bound = call.bound;
        call.bound = bound.clamp(-10_000_000, 10_000_000);
        let result = MODEL.entry(function)(call);
        call.bound = bound;
        result
    },
);

const WRITES: &[Wrong] = of_screen!(writes, Change:
    "changes the file" => |call| call.file.content_mut()[0] ^= 1,
    "touches the guard before the file" => |call| *call.file.before_mut() ^= 1,
    "touches the guard before its answer" => |call| *call.answer.before_mut() ^= 1,
    "touches the guard after its answer" => |call| *call.answer.after_mut() ^= 1,
    "touches the guard after its rows" => |call| *call.rows.after_mut() ^= 1,
    "touches the guard before its line" => |call| *call.line.before_mut() ^= 1,
);

const REFUSES: &[Wrong] = of_screen!(writes_refused, Change:
    "writes its answer where it refuses" => |call| set_first(&mut call.answer, 0),
    "touches the guard after its answer where it refuses" => |call| *call.answer.after_mut() ^= 1,
    "touches the guard before the file where it refuses" => |call| *call.file.before_mut() ^= 1,
);

const ANSWERS: &[Wrong] = of_screen!(otherwise, Other:
    "clears a longer answer to its end" => |function, call| {
        answered(MODEL.entry(function), call, |call| {
            call.answer.content_mut()[function.answer_length()..].fill(0);
        })
    },
    "takes an answer of a number less" => |function, call| match MODEL.entry(function)(call) {
        255 if call.answer.len() + 1 == function.answer_length() => 0,
        result => result,
    },
    "asks for an answer of a number more" => |function, call| {
        let result = MODEL.entry(function)(&mut call.clone());
        match call.answer.len() == function.answer_length() && result == 0 {
            true => 255,
            false => MODEL.entry(function)(call),
        }
    },
);

/// The plan of amounts that are found for the jobs from the last to the first: as right as the other one, and
/// its rows are the layout of its amounts too.
fn from_the_last(made: &Plan) -> Vec<Row> {
    let (order, bound) = (&made.order, i64::from(made.bound));
    let mut turned = order.clone();
    turned.jobs.reverse();
    let mut found = amounts(&turned, bound).expect("the bound is met");
    found.iter_mut().for_each(|amounts| amounts.reverse());
    joined(order, bound, &found)
}

fn replans(function: Function, call: &mut Call, replan: Replan) -> u32 {
    replanned(function, call, replan)
}

/// 9 by another rule; where too few rows are lent then, nothing is written.
fn asks(function: Function, call: &mut Call, enough: Enough) -> u32 {
    let result = MODEL.entry(function)(&mut call.clone());
    let rows = call.rows.len() / 4;
    let enough = accepted(call).map(|order| enough(rows, rows_asked(&order)));
    match (result, enough) {
        (0 | 10, Some(false)) => 9,
        (9, Some(true)) => 0,
        _ => MODEL.entry(function)(call),
    }
}

/// Another result, and nothing written with it.
fn tells(function: Function, call: &mut Call, told: Told) -> u32 {
    let mut left = call.clone();
    let result = MODEL.entry(function)(&mut left);
    let other = told(&left, result);
    if other == result {
        *call = left;
    }
    other
}

fn retold(call: &mut Call, told: fn(&Order, i32) -> Option<Reason>) -> u32 {
    answered(MODEL.screen_reason, call, |call| {
        let order = accepted(call).expect("the call was answered");
        call.answer.put(&reason_numbers(told(&order, call.bound)));
    })
}

fn leaves(function: Function, call: &mut Call, change: Leave) -> u32 {
    let lent = call.clone();
    answered(MODEL.entry(function), call, |call| change(call, &lent))
}

fn otherwise(function: Function, call: &mut Call, other: Other) -> u32 {
    other(function, call)
}
