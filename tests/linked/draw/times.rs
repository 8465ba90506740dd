//! Ready minutes and windows: wide ones; windows that touch, that close at ready minutes and open at
//! ends; short ones; and those that are refused, one damage or several at once.

use super::Random;
use crate::independent::{timed_meets, Order, Times, Window, MOST_MINUTE};

/// From this bound on every end is at 1,000,000 or later, and no window is: a larger one changes
/// nothing.
const LOOSEST: i32 = 2_000_000;

const WHOLE: Window = [0, MOST_MINUTE];

/// Times for an accepted order with this least lateness, so that plans at it and somewhat later are
/// often just possible.
pub fn drawn(random: &mut Random, order: &Order, least: i32) -> Times {
    let end = |due| i64::from(due) + i64::from(least) + 1;
    let minute = |time: i64| time.clamp(0, MOST_MINUTE.into()) as u32;
    let ends: Vec<u32> = order.jobs.iter().map(|job| minute(end(job.due))).collect();
    let last = ends.iter().copied().max().unwrap_or(1).max(1);
    let ready = ready(random, &ends, last);
    let windows = windows(random, order.memories.len(), &ready, &ends, last);
    Times { ready, windows }
}

/// A ready minute to each job, which has one of these ends, the last of them `last`.
fn ready(random: &mut Random, ends: &[u32], last: u32) -> Vec<u32> {
    let few = [0, random.below(last as usize) as u32, last];
    let late = random.below(ends.len());
    let how = random.below(7);
    let ready = (0..ends.len()).map(|place| match how {
        0 | 1 => 0,
        2 => random.between(0, (last / 2).into()) as u32,
        3 => random.pick(ends),
        4 => random.pick(&few),
        5 if place == late => random.pick(&[1, last, MOST_MINUTE]),
        5 => 0,
        _ => random.between(0, ends[place].into()) as u32 / 2,
    });
    ready.collect()
}

/// A window to each of so many processors.
fn windows(
    random: &mut Random,
    count: usize,
    ready: &[u32],
    ends: &[u32],
    last: u32,
) -> Vec<Window> {
    let same = any_window(random, last);
    let middle = 1 + random.below(last as usize) as u32;
    let rests = random.below(count);
    let how = random.below(9);
    let windows = (0..count).map(|place| match how {
        0 | 1 => WHOLE,
        2 => any_window(random, last),
        3 if place % 2 == 0 => [0, middle],
        3 => [middle.min(MOST_MINUTE - 1), MOST_MINUTE],
        4 => window(random.pick(ends), random.pick(ready)),
        5 => window(random.pick(ready), random.pick(ends)),
        6 if place == rests => any_window(random, last),
        6 => WHOLE,
        7 => short_window(random, last),
        _ => same,
    });
    windows.collect()
}

/// From one minute to the other, whichever is the earlier; to the end of the range where they are one.
fn window(one: u32, other: u32) -> Window {
    match (one.min(other), one.max(other)) {
        (opening, closing) if opening < closing => [opening, closing],
        (opening, _) if opening < MOST_MINUTE => [opening, MOST_MINUTE],
        _ => WHOLE,
    }
}

fn any_window(random: &mut Random, last: u32) -> Window {
    let latest = i64::from(MOST_MINUTE).min(3 * i64::from(last));
    let opening = random.between(0, i64::from(last) / 2) as u32;
    window(opening, random.between(opening.into(), latest) as u32)
}

fn short_window(random: &mut Random, last: u32) -> Window {
    let opening = random.below(last as usize) as u32;
    let closing = opening + random.between(1, 4) as u32;
    [opening, closing.min(MOST_MINUTE)]
}

/// The least bound that such times let be met, or none where no bound is; it is not below the least
/// lateness of the order.
pub fn least(order: &Order, times: &Times, least: i32) -> Option<i32> {
    let meets = |bound: i32| timed_meets(order, times, bound.into());
    let (mut unmet, mut step) = (least - 1, 1);
    while !meets(unmet + step) {
        unmet += step;
        step *= 8;
        if unmet >= LOOSEST {
            return None;
        }
    }
    let mut met = unmet + step;
    while met - unmet > 1 {
        let middle = unmet + (met - unmet) / 2;
        match meets(middle) {
            true => met = middle,
            false => unmet = middle,
        }
    }
    Some(met)
}

/// The refusals of times.
pub const OF_TIMES: [u32; 2] = [15, 16];

/// The times with one or more damages, the first of them that of this refusal.
pub fn damaged(random: &mut Random, times: &Times, number: u32) -> Times {
    let mut times = times.clone();
    damage(random, &mut times, number);
    while random.once_in(2) {
        let another = random.pick(&OF_TIMES);
        damage(random, &mut times, another);
    }
    times
}

fn damage(random: &mut Random, times: &mut Times, number: u32) {
    let far = random.pick(&[MOST_MINUTE + 1, MOST_MINUTE + 1, 1 << 31, u32::MAX]);
    if number == 15 {
        let place = random.below(times.ready.len());
        times.ready[place] = far;
        return;
    }
    let place = random.below(times.windows.len());
    let [opening, closing] = times.windows[place];
    times.windows[place] = match random.below(8) {
        0 => [opening, opening],
        1 => [closing, closing],
        2 => [closing, opening],
        3 => [opening + 1, opening],
        4 => [far, far],
        5 => [far, closing],
        6 => [far - 1, far],
        _ => [opening, far],
    };
}

/// The numbers of windows as they are lent, two to a window.
pub fn window_numbers(windows: &[Window]) -> Vec<u32> {
    windows.concat()
}
