//! Wrong in which times are taken: "A ready minute out of range is 15 and a window out of range or not
//! closing after it opens is 16, both directly before 8".

use super::Wrong;
use crate::independent::{judge_times, lists, Times, Window, MOST_MINUTE};
use crate::lent::Call;
use crate::library::Function;
use crate::model::MODEL;

pub const PARTS: &[&[Wrong]] = &[TAKES, REFUSES, ORDER];

type Change = fn(&mut Times);
type Told = fn(&Bad, u32) -> u32;

/// Other times looked at than those that are lent.
const TAKES: &[Wrong] = of_timed!(takes, Change:
    "takes a ready minute of 1,000,001" => |times| each_ready(times, |ready| match ready {
        1_000_001 => MOST_MINUTE,
        _ => ready,
    }),
    "does not look at the range of ready minutes" => |times| each_ready(times, |ready| {
        ready.min(MOST_MINUTE)
    }),
    "takes a ready minute for a signed number" => |times| each_ready(times, |ready| {
        if ready > i32::MAX as u32 { 0 } else { ready }
    }),
    "does not look at the last ready minute" => |times| if let Some(last) = times.ready.last_mut() {
        *last = (*last).min(MOST_MINUTE);
    },
    "takes a closing of 1,000,001" => |times| each_window(times, |[opening, closing]| match closing {
        1_000_001 => [opening, MOST_MINUTE],
        _ => [opening, closing],
    }),
    "takes a window that closes as it opens" => |times| each_window(times, |[opening, closing]| {
        match opening == closing && closing <= MOST_MINUTE {
            true => [opening.min(MOST_MINUTE - 1), closing.max(1)],
            false => [opening, closing],
        }
    }),
    "takes a window that closes before it opens" => |times| each_window(times, |[one, other]| {
        [one.min(other), one.max(other)]
    }),
    "does not look at the range of windows" => |times| each_window(times, |[opening, closing]| {
        let within = |minute: u32| minute.min(MOST_MINUTE);
        match opening < closing {
            true => [within(opening).min(MOST_MINUTE - 1), within(closing)],
            false => [opening, closing],
        }
    }),
    "does not look at windows" => |times| each_window(times, |[opening, closing]| {
        match judge_times(&Times { ready: Vec::new(), windows: vec![[opening, closing]] }) {
            Some(_) => [0, MOST_MINUTE],
            None => [opening, closing],
        }
    }),
    "does not look at the last window" => |times| if let Some(last) = times.windows.last_mut() {
        if judge_times(&Times { ready: Vec::new(), windows: vec![*last] }).is_some() {
            *last = [0, MOST_MINUTE];
        }
    },
    "does not take a ready minute of 1,000,000" => |times| each_ready(times, |ready| match ready {
        MOST_MINUTE => MOST_MINUTE + 1,
        _ => ready,
    }),
    "does not take a closing of 1,000,000" => |times| each_window(times, |[opening, closing]| {
        match closing {
            MOST_MINUTE => [opening, MOST_MINUTE + 1],
            _ => [opening, closing],
        }
    }),
    "does not take an opening of 0" => |times| each_window(times, |[opening, closing]| match opening {
        0 => [closing, closing],
        _ => [opening, closing],
    }),
    "takes windows as opening and length" => |times| each_window(times, |[opening, closing]| {
        [opening, opening.saturating_add(closing)]
    }),
    "takes all openings before all closings" => |times| {
        let numbers = times.windows.concat();
        let (openings, closings) = numbers.split_at(numbers.len() / 2);
        times.windows = openings.iter().zip(closings).map(|(o, c)| [*o, *c]).collect();
    },
    "asks for a window of two minutes" => |times| each_window(times, |[opening, closing]| {
        match closing.checked_sub(opening) {
            Some(1) => [opening, opening],
            _ => [opening, closing],
        }
    }),
);

/// What a refused call carries, and in place of which other refusal it is told.
const REFUSES: &[Wrong] = of_timed!(tells, Told:
    "tells no job with 15" => |_, told| match told % 256 {
        15 => 15,
        _ => told,
    },
    "tells no processor with 16" => |_, told| match told % 256 {
        16 => 16,
        _ => told,
    },
    "counts the processors of 16 from 0" => |_, told| match told % 256 {
        16 => told - 256,
        _ => told,
    },
    "tells the place of the opening with 16" => |_, told| match told % 256 {
        16 => 16 + 256 * (2 * (told / 256) - 1),
        _ => told,
    },
    "tells the last such job" => |bad, told| match told % 256 {
        15 => 15 + 256 * bad.last_ready,
        _ => told,
    },
    "tells the last such processor" => |bad, told| match told % 256 {
        16 => 16 + 256 * bad.last_window,
        _ => told,
    },
    "tells a window before a ready minute" => |bad, told| match told % 256 {
        15 if bad.first_window > 0 => 16 + 256 * bad.first_window,
        _ => told,
    },
    "tells 15 for a window" => |_, told| match told % 256 {
        16 => told - 1,
        _ => told,
    },
    "tells 5 for a ready minute" => |_, told| match told % 256 {
        15 => told - 10,
        _ => told,
    },
);

const ORDER: &[Wrong] = of_timed!(tells, Told:
    "tells a bound out of range before times" => |bad, told| match told % 256 {
        15 | 16 if bad.bound => 8,
        _ => told,
    },
    "tells a bound out of range before a window" => |bad, told| match told % 256 {
        16 if bad.bound => 8,
        _ => told,
    },
    "tells times before a job that fits no processor" => |bad, told| match told % 256 {
        7 => bad.first().unwrap_or(told),
        _ => told,
    },
    "tells times before a maker" => |bad, told| match told % 256 {
        7 | 13 => bad.first().unwrap_or(told),
        _ => told,
    },
    "tells times before the order" => |bad, told| match told % 256 {
        1..=7 | 13 => bad.first().unwrap_or(told),
        _ => told,
    },
    "tells times last of all" => |bad, told| match told % 256 {
        15 | 16 if bad.bound => 8,
        15 | 16 if bad.no_room => 9,
        _ => told,
    },
);

fn each_ready(times: &mut Times, change: fn(u32) -> u32) {
    times
        .ready
        .iter_mut()
        .for_each(|ready| *ready = change(*ready));
}

fn each_window(times: &mut Times, change: fn(Window) -> Window) {
    let windows = times.windows.iter_mut();
    windows.for_each(|window| *window = change(*window));
}

/// The call with other times in its lists, where these are of the right lengths; they are then as they
/// were.
fn takes(function: Function, call: &mut Call, change: Change) -> u32 {
    let Some(mut times) = lent_times(call) else {
        return MODEL.entry(function)(call);
    };
    change(&mut times);
    let (ready, windows) = (call.ready.clone(), call.windows.clone());
    call.ready.put(&times.ready);
    call.windows.put(&times.windows.concat());
    let result = MODEL.entry(function)(call);
    (call.ready, call.windows) = (ready, windows);
    result
}

fn lent_times(call: &Call) -> Option<Times> {
    let listed = lists(call.file.content())?;
    Times::of(&listed, call.ready.content(), call.windows.content())
}

/// What else holds of a call: numbers of jobs and processors from 1, or 0 for none.
struct Bad {
    first_ready: u32,
    last_ready: u32,
    first_window: u32,
    last_window: u32,
    bound: bool,
    no_room: bool,
}

impl Bad {
    fn of(call: &Call, times: &Times) -> Bad {
        let late = |ready: &u32| *ready > MOST_MINUTE;
        let bad = |[opening, closing]: &Window| *closing > MOST_MINUTE || closing <= opening;
        let number = |place: Option<usize>| place.map_or(0, |place| place as u32 + 1);
        Bad {
            first_ready: number(times.ready.iter().position(late)),
            last_ready: number(times.ready.iter().rposition(late)),
            first_window: number(times.windows.iter().position(bad)),
            last_window: number(times.windows.iter().rposition(bad)),
            bound: !(-10_000_000..=10_000_000).contains(&call.bound),
            no_room: call.rows.len() < 4,
        }
    }

    /// The refusal of the times.
    fn first(&self) -> Option<u32> {
        match (self.first_ready, self.first_window) {
            (0, 0) => None,
            (0, processor) => Some(16 + 256 * processor),
            (job, _) => Some(15 + 256 * job),
        }
    }
}

/// Another result, from this one and from what else holds.
fn tells(function: Function, call: &mut Call, told: Told) -> u32 {
    let result = MODEL.entry(function)(call);
    match lent_times(call) {
        Some(times) => told(&Bad::of(call, &times), result),
        None => result,
    }
}
