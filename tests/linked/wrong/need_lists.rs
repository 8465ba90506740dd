//! Wrong in the list of lengths, in the room for needs, in what is written: "a listed length out of range
//! is 5, else a buffer for fewer needs is 9, and then none is filled in"; "the refusals here are 17, 18, 5
//! and 9, in that order".

use super::met::{twice, unmet};
use super::needs::{by, result_of, Way, RIGHT};
use super::{answered, refused, Wrong};
use crate::independent::{
    counted_lines, is_length, judge_lengths, need_of, Refusal, LONGEST_LENGTH as LAST,
};
use crate::lent::Call;
use crate::library::{Function, MOST_LENGTHS};
use crate::model::MODEL;

pub const PARTS: &[&[Wrong]] = &[PLACES, LENGTHS, ROOMS, ORDER, WRITES, REFUSES];

/// Another place told with 5, or another refusal of a list.
const PLACES: &[Wrong] = of_one!(Needs, listing:
    "counts places from 0" => |lengths| {
        judge_lengths(lengths).map(|refusal| about(5, refusal.job - 1))
    },
    "tells the last place out of range" => |lengths| {
        let last = lengths.iter().rposition(|length| !is_length(*length))?;
        Some(about(5, last as u32 + 1))
    },
    "carries no place" => |lengths| judge_lengths(lengths).map(|_| about(5, 0)),
    "carries a place in 8 bits" => |lengths| {
        judge_lengths(lengths).map(|refusal| about(5, refusal.job % 256))
    },
    "carries a place in 16 bits" => |lengths| {
        judge_lengths(lengths).map(|refusal| about(5, refusal.job % 65_536))
    },
    "does not look beyond 48 lengths" => |lengths| judge_lengths(&lengths[..lengths.len().min(48)]),
    "does not look at the last length" => |lengths| {
        judge_lengths(&lengths[..lengths.len().saturating_sub(1)])
    },
    "takes no list of no length" => |lengths| match lengths.len() {
        0 => Some(about(3, 0)),
        _ => judge_lengths(lengths),
    },
    "takes no list of over 48 lengths" => |lengths| match lengths.len() {
        0..=48 => judge_lengths(lengths),
        _ => Some(about(4, 0)),
    },
);

/// Other lengths in range.
const LENGTHS: &[Wrong] = of_one!(Needs, ranging:
    "takes length 0" => |length| length <= LAST,
    "takes length 100,001" => |length| (1..=LAST + 1).contains(&length),
    "does not take length 100,000" => |length| (1..LAST).contains(&length),
    "does not take length 1" => |length| (2..=LAST).contains(&length),
    "takes a negative length" => |length| length != 0 && length as i32 <= LAST as i32,
    "reads a length in 17 bits" => |length| is_length(length % 131_072),
);

/// Another room for needs.
const ROOMS: &[Wrong] = of_one!(Needs, asking:
    "takes any room" => |_, _| true,
    "takes room for one need less" => |room, count| room + 1 >= count,
    "asks for room for one need more" => |room, count| room > count,
    "asks for room for just so many needs" => |room, count| room == count,
    "asks for room for 48 needs" => |room, count| room >= count.max(48),
    "counts the room in 8 bits" => |room, count| room % 256 >= count,
    "counts the room in 16 bits" => |room, count| room % 65_536 >= count,
    "counts the lengths in 8 bits" => |room, count| room >= count % 256,
);

/// Refusals told in another order.
const ORDER: &[Wrong] = of_one!(Needs, telling:
    "tells 18 before 17" => [255, 253, 18, 17, 5, 9],
    "tells 5 before 17" => [255, 253, 5, 17, 18, 9],
    "tells 5 before 18" => [255, 253, 17, 5, 18, 9],
    "tells 9 before 5" => [255, 253, 17, 18, 9, 5],
    "tells 9 before 18" => [255, 253, 17, 9, 18, 5],
    "tells 9 before 17" => [255, 253, 9, 17, 18, 5],
    "tells a short answer after the table" => [253, 17, 18, 255, 5, 9],
    "tells a short answer last of all" => [253, 17, 18, 5, 9, 255],
);

/// Something else written where the call succeeds, from what was lent.
const WRITES: &[Wrong] = of_one!(Needs, writes:
    "fills one need more in" => |call, _| {
        let need = need_of(&counted_lines(call.table.content()), 1);
        if let Some(next) = beyond(call).first_mut() {
            *next = need.unwrap_or(0);
        }
    },
    "clears the buffer beyond its needs" => |call, _| beyond(call).fill(0),
    "begins its needs at the second number" => |call, before| {
        let count = call.lengths.len();
        if call.needs.len() > count {
            call.needs.content_mut()[..count + 1].rotate_right(1);
            call.needs.content_mut()[0] = before.needs.content()[0];
        }
    },
    "fills 48 needs in" => |call, before| {
        for (place, need) in call.needs.content_mut().iter_mut().enumerate().skip(48) {
            *need = before.needs.content()[place];
        }
    },
    "leaves the last need" => |call, before| {
        if let Some(last) = call.lengths.len().checked_sub(1) {
            call.needs.content_mut()[last] = before.needs.content()[last];
        }
    },
    "has its needs backwards" => |call, _| {
        let count = call.lengths.len();
        call.needs.content_mut()[..count].reverse();
    },
    "leaves its answer" => |call, before| call.answer = before.answer.clone(),
    "answers one need too many" => |call, _| call.answer.content_mut()[0] += 1,
    "answers lines and not needs" => |call, _| {
        let lines = counted_lines(call.table.content()).len();
        call.answer.put(&[lines as i32]);
    },
    "answers the room lent" => |call, _| call.answer.put(&[call.needs.len() as i32]),
    "writes a second number of its answer" => |call, _| {
        if let Some(second) = call.answer.content_mut().get_mut(1) {
            *second = 0;
        }
    },
    "touches the guard before its needs" => |call, _| *call.needs.before_mut() ^= 1,
    "touches the guard after its needs" => |call, _| *call.needs.after_mut() ^= 1,
    "touches the guard after its answer" => |call, _| *call.answer.after_mut() ^= 1,
    "sorts the table" => |call, _| {
        let mut lines: Vec<[u32; 3]> = counted_lines(call.table.content());
        lines.sort();
        call.table.put(&lines.concat());
    },
    "sorts the lengths" => |call, _| call.lengths.content_mut().sort(),
);

/// Something written where the call is refused.
const REFUSES: &[Wrong] = of_one!(Needs, writes_refused:
    "clears its needs where it refuses" => |call, _| call.needs.content_mut().fill(0),
    "clears its answer where it refuses" => |call, _| call.answer.content_mut().fill(0),
    "fills in what there is room for" => |call, told| fill_at(call, told, 9),
    "fills in what comes before a length out of range" => |call, told| fill_at(call, told, 5),
    "fills in though two lines meet a length" => |call, told| fill_at(call, told, 18),
);

fn about(number: u32, job: u32) -> Refusal {
    Refusal { number, job }
}

/// What lies beyond the needs that were filled in.
fn beyond(call: &mut Call) -> &mut [u32] {
    let count = call.lengths.len();
    &mut call.needs.content_mut()[count..]
}

fn listing(call: &mut Call, list: fn(&[u32]) -> Option<Refusal>) -> u32 {
    by(call, Way { list, ..RIGHT })
}

fn asking(call: &mut Call, enough: fn(usize, usize) -> bool) -> u32 {
    by(call, Way { enough, ..RIGHT })
}

/// The call where lengths are in range by another rule; what is let through is taken for the next length.
fn ranging(call: &mut Call, in_range: fn(u32) -> bool) -> u32 {
    let before = call.lengths.clone();
    for length in call.lengths.content_mut() {
        *length = match in_range(*length) {
            true => (*length).clamp(1, LAST),
            false => 0,
        };
    }
    let result = by(call, RIGHT);
    call.lengths = before;
    result
}

/// The first refusal that applies, in another order.
pub fn telling(call: &mut Call, order: [u32; 6]) -> u32 {
    let lines = counted_lines(call.table.content());
    let (lengths, room) = (call.lengths.content(), call.needs.len());
    let such = |number: u32, job: u32| result_of(about(number, job));
    let applies = |number: u32| match number {
        255 => (call.answer.len() == 0).then_some(255),
        253 => (lengths.len() > MOST_LENGTHS).then_some(253),
        17 => unmet(&lines).map(|length| such(17, length)),
        18 => twice(&lines).map(|length| such(18, length)),
        5 => judge_lengths(lengths).map(result_of),
        _ => (room < lengths.len()).then_some(9),
    };
    let first = order.into_iter().find_map(applies);
    first.unwrap_or_else(|| (MODEL.needs)(call))
}

/// A change where the call succeeds.
fn writes(call: &mut Call, change: fn(&mut Call, &Call)) -> u32 {
    let before = call.clone();
    answered(MODEL.needs, call, |call| change(call, &before))
}

/// A change where the call is refused, from the number that is told.
fn writes_refused(call: &mut Call, change: fn(&mut Call, u32)) -> u32 {
    let told = (MODEL.needs)(&mut call.clone()) % 256;
    refused(MODEL.needs, call, |call| change(call, told))
}

/// Fills needs in, as many as there is room for and up to a length that no line meets, where this number is
/// told.
fn fill_at(call: &mut Call, told: u32, number: u32) {
    if told == number {
        let lines = counted_lines(call.table.content());
        let lengths = call.lengths.content().iter().take(call.needs.len());
        let needs = lengths.map_while(|length| need_of(&lines, *length));
        let needs: Vec<u32> = needs.collect();
        call.needs.put(&needs);
    }
}
