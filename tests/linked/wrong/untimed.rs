//! Wrong in how ready minutes and windows are lent: one number to a job and two to a processor of the
//! file, else 253, after 12 and before 1; nothing but rows and answer is written.

use super::{answered, refused, Wrong};
use crate::draw::Random;
use crate::independent::{lists, Order, MOST_MINUTE};
use crate::lent::{Call, Lent};
use crate::library::Function;
use crate::model::MODEL;

pub const PARTS: &[&[Wrong]] = &[LENGTHS, ORDER, WRITES, REFUSES];

/// How many ready minutes and numbers of windows are lent, and how many jobs and processors there are.
struct Lengths {
    ready: usize,
    jobs: usize,
    windows: usize,
    processors: usize,
}

type Enough = fn(&Lengths) -> bool;
type Told = fn(&Call, u32, u32) -> u32;
pub type Change = fn(&mut Call);

const LENGTHS: &[Wrong] = of_timed!(asks, Enough:
    "takes any lists" => |_| true,
    "takes more ready minutes than jobs" => |l| l.ready >= l.jobs && l.windows == 2 * l.processors,
    "takes fewer ready minutes than jobs" => |l| l.ready <= l.jobs && l.windows == 2 * l.processors,
    "takes more windows than processors" => |l| l.ready == l.jobs && l.windows >= 2 * l.processors,
    "takes fewer windows than processors" => |l| l.ready == l.jobs && l.windows <= 2 * l.processors,
    "drops half a window" => |l| l.ready == l.jobs && l.windows / 2 == l.processors,
    "asks for one number to a window" => |l| l.ready == l.jobs && l.windows == l.processors,
    "asks for 48 ready minutes and 16 windows" => |l| l.ready == 48 && l.windows == 32,
    "counts ready minutes in 8 bits" => |l| {
        l.ready % 256 == l.jobs && l.windows == 2 * l.processors
    },
    "takes a sum of both lengths" => |l| l.ready + l.windows == l.jobs + 2 * l.processors,
    "takes no lists of over 48 and 32" => |l| {
        l.ready == l.jobs && l.windows == 2 * l.processors && l.ready <= 48 && l.windows <= 32
    },
);

const ORDER: &[Wrong] = of_timed!(tells, Told:
    "tells wrong lengths before a short answer" => |_, told, _| match told {
        255 => 253,
        _ => told,
    },
    "tells wrong lengths before a bad file" => |_, told, _| match told {
        12 => 253,
        _ => told,
    },
    "tells wrong lengths after counts out of range" => |_, told, next| match next {
        1..=4 if told == 253 => next,
        _ => told,
    },
    "tells wrong lengths after the order" => |_, told, next| match next % 256 {
        1..=7 | 13 if told == 253 => next,
        _ => told,
    },
    "tells wrong lengths after a bound out of range" => |_, told, next| match next {
        8 if told == 253 => 8,
        _ => told,
    },
    "tells wrong lengths last of all" => |_, told, next| match next {
        0 => told,
        _ if told == 253 => next,
        _ => told,
    },
    "tells of which job there is no ready minute" => |call, told, _| match told {
        253 => 253 + 256 * (call.ready.len() as u32 + 1),
        _ => told,
    },
);

const WRITES: &[Wrong] = of_timed!(writes, Change:
    "changes a ready minute" => |call| call.ready.content_mut()[0] ^= 1,
    "sorts the ready minutes" => |call| call.ready.content_mut().sort(),
    "sorts the windows" => |call| call.windows.content_mut().sort(),
    "clears the windows" => |call| call.windows.content_mut().fill(0),
    "touches the guard after the ready minutes" => |call| *call.ready.after_mut() ^= 1,
    "touches the guard before the windows" => |call| *call.windows.before_mut() ^= 1,
    "touches the guard after its rows" => |call| *call.rows.after_mut() ^= 1,
    "touches the guard before its answer" => |call| *call.answer.before_mut() ^= 1,
    "changes the file" => |call| call.file.content_mut()[12] ^= 1,
    "clears a longer answer to its end" => |call| call.answer.content_mut()[1..].fill(0),
);

const REFUSES: &[Wrong] = of_timed!(writes_refused, Change:
    "writes its answer where it refuses" => |call| set_first(&mut call.answer, 0),
    "writes rows where it refuses" => |call| set_first(&mut call.rows, 0),
    "cuts ready minutes off where it refuses" => |call| {
        let minutes = call.ready.content_mut().iter_mut();
        minutes.for_each(|minute| *minute = (*minute).min(MOST_MINUTE));
    },
);

/// The first number of a buffer, where it has one, is this one.
pub fn set_first<T: Copy + PartialEq>(lent: &mut Lent<T>, value: T) {
    if let Some(first) = lent.content_mut().first_mut() {
        *first = value;
    }
}

/// A change where the call succeeds.
pub fn writes(function: Function, call: &mut Call, change: Change) -> u32 {
    answered(MODEL.entry(function), call, change)
}

/// A change where the call is refused.
pub fn writes_refused(function: Function, call: &mut Call, change: Change) -> u32 {
    refused(MODEL.entry(function), call, change)
}

/// 253 by another rule for lengths; what then lacks is as if it asked for nothing.
fn asks(function: Function, call: &mut Call, enough: Enough) -> u32 {
    let listed = match lists(call.file.content()) {
        Some(listed) if call.answer.len() > 0 => listed,
        _ => return MODEL.entry(function)(call),
    };
    let lengths = Lengths {
        ready: call.ready.len(),
        jobs: listed.jobs.len(),
        windows: call.windows.len(),
        processors: listed.memories.len(),
    };
    match enough(&lengths) {
        true => with_lengths(function, call, &listed),
        false => 253,
    }
}

/// The call with lists of the right lengths, which are then as they were.
fn with_lengths(function: Function, call: &mut Call, listed: &Order) -> u32 {
    let (ready, windows) = (call.ready.clone(), call.windows.clone());
    let mut minutes = ready.content().to_vec();
    minutes.resize(listed.jobs.len(), 0);
    let mut numbers = windows.content().to_vec();
    let whole = [0, MOST_MINUTE].into_iter().cycle();
    let lacking = whole
        .skip(numbers.len() % 2)
        .take(2 * listed.memories.len());
    numbers.extend(lacking);
    numbers.truncate(2 * listed.memories.len());
    let random = &mut Random::new(0);
    call.ready = Lent::holding(&minutes, random, |drawn| drawn as u32);
    call.windows = Lent::holding(&numbers, random, |drawn| drawn as u32);
    let result = MODEL.entry(function)(call);
    (call.ready, call.windows) = (ready, windows);
    result
}

/// Another result, from this one and from that with lists of the right lengths.
fn tells(function: Function, call: &mut Call, told: Told) -> u32 {
    let result = MODEL.entry(function)(call);
    let next = match lists(call.file.content()) {
        Some(listed) => with_lengths(function, &mut call.clone(), &listed),
        None => result,
    };
    let odd = call.ready.len() == 0 || call.windows.len() % 2 == 1;
    match result {
        12 | 255 if !odd => result,
        _ => told(call, result, next),
    }
}
