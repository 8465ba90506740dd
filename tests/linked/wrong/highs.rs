//! Wrong in how highs are lent: one to a job of the file, else 253, after 12 and before 1; nothing but order and
//! answer is written, and where the call is refused nothing at all.

use super::untimed::{set_first, writes, writes_refused, Change};
use super::Wrong;
use crate::draw::Random;
use crate::independent::{lists, Order};
use crate::lent::{Call, Lent};
use crate::library::Function;
use crate::model::MODEL;

pub const PARTS: &[&[Wrong]] = &[LENGTHS, ORDER, WRITES, REFUSES];

/// Whether so many highs are enough for so many jobs.
type Enough = fn(usize, usize) -> bool;
type Told = fn(&Call, u32, u32) -> u32;

const LENGTHS: &[Wrong] = of_estimated!(asks, Enough:
    "takes any list of highs" => |_, _| true,
    "takes more highs than jobs" => |highs, jobs| highs >= jobs,
    "takes fewer highs than jobs" => |highs, jobs| highs <= jobs,
    "asks for 48 highs" => |highs, _| highs == 48,
    "counts highs in 8 bits" => |highs, jobs| highs % 256 == jobs,
    "counts highs in 16 bits" => |highs, jobs| highs % 65_536 == jobs,
);

const ORDER: &[Wrong] = of_estimated!(tells, Told:
    "tells a wrong list before a short answer" => |_, told, _| match told {
        255 => 253,
        _ => told,
    },
    "tells a wrong list before a bad file" => |_, told, _| match told {
        12 => 253,
        _ => told,
    },
    "tells a wrong list after counts out of range" => |_, told, next| match next {
        1..=4 if told == 253 => next,
        _ => told,
    },
    "tells a wrong list after the order" => |_, told, next| match next % 256 {
        1..=7 | 13 | 19 if told == 253 => next,
        _ => told,
    },
    "tells of which job there is no high" => |call, told, _| match told {
        253 => 253 + 256 * (call.highs.len() as u32 + 1),
        _ => told,
    },
);

const WRITES: &[Wrong] = of_estimated!(writes, Change:
    "changes a high" => |call| call.highs.content_mut()[0] ^= 1,
    "changes the file" => |call| call.file.content_mut()[12] ^= 1,
    "touches the guard after the highs" => |call| *call.highs.after_mut() ^= 1,
    "touches the guard after its answer" => |call| *call.answer.after_mut() ^= 1,
    "clears a longer answer to its end" => |call| {
        if let Some(beyond) = call.answer.content_mut().get_mut(2..) {
            beyond.fill(0);
        }
    },
);

const REFUSES: &[Wrong] = of_estimated!(writes_refused, Change:
    "writes its answer where it refuses" => |call| set_first(&mut call.answer, 0),
    "cuts highs off where it refuses" => |call| {
        let highs = call.highs.content_mut().iter_mut();
        highs.for_each(|high| *high = (*high).clamp(1, 100_000));
    },
);

/// 253 by another rule for lengths; a high that then lacks is the low.
fn asks(function: Function, call: &mut Call, enough: Enough) -> u32 {
    let listed = match lists(call.file.content()) {
        Some(listed) if call.answer.len() >= function.answer_length() => listed,
        _ => return MODEL.entry(function)(call),
    };
    match enough(call.highs.len(), listed.jobs.len()) {
        true => with_length(function, call, &listed),
        false => 253,
    }
}

/// The call with a list of the right length, which is then as it was.
fn with_length(function: Function, call: &mut Call, listed: &Order) -> u32 {
    let lent = call.highs.clone();
    let lows = listed.jobs.iter().map(|job| job.time);
    let lacking = lows.skip(lent.len());
    let mut highs: Vec<u32> = lent.content().iter().copied().chain(lacking).collect();
    highs.truncate(listed.jobs.len());
    call.highs = Lent::holding(&highs, &mut Random::new(0), |drawn| drawn as u32);
    let result = MODEL.entry(function)(call);
    call.highs = lent;
    result
}

/// Another result, from this one and from that with a list of the right length. Of a bad file no list but
/// an empty one is wrong.
fn tells(function: Function, call: &mut Call, told: Told) -> u32 {
    let result = MODEL.entry(function)(call);
    let listed = lists(call.file.content());
    let wrong = match &listed {
        Some(order) => order.jobs.len() != call.highs.len(),
        None => call.highs.len() == 0,
    };
    let next = match listed {
        Some(order) => with_length(function, &mut call.clone(), &order),
        None => result,
    };
    match wrong {
        true => told(call, result, next),
        false => result,
    }
}
