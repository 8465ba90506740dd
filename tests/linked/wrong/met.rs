//! Wrong in what is told of a table: "A length that no line meets is 17, carrying the smallest such
//! length; one met by two lines is 18, likewise".

use super::needs::{by, Way, RIGHT};
use super::Wrong;
use crate::independent::{
    good_line, judge_lines, meets_length, times_met, Line, Refusal, LONGEST_LENGTH as LAST,
};
use crate::lent::Call;
use crate::library::Function;

pub const PARTS: &[&[Wrong]] = &[UNMET, TWICE];

/// Another length told with 17, or none.
const UNMET: &[Wrong] = of_one!(Needs, judging:
    "tells the largest length that no line meets" => |lines| told(largest(lines, none), twice(lines)),
    "does not see a length that no line meets" => |lines| told(None, twice(lines)),
    "does not see that no line meets 1" => |lines| {
        told(such(lines, none).find(|length| *length > 1), twice(lines))
    },
    "does not see that no line meets 100,000" => |lines| {
        told(such(lines, none).find(|length| *length < LAST), twice(lines))
    },
    "does not look beyond the last line" => |lines| {
        let last = such(lines, |times| times > 0).last().unwrap_or(LAST);
        told(unmet(lines).filter(|length| *length < last), twice(lines))
    },
    "tells the length before those that no line meets" => |lines| {
        told(unmet(lines).map(|length| length - 1), twice(lines))
    },
    "tells the last of the first lengths that no line meets" => |lines| {
        let after = |from: u32| such(lines, |times| times > 0).find(|length| *length > from);
        let last = unmet(lines).map(|from| after(from).unwrap_or(LAST + 1) - 1);
        told(last, twice(lines))
    },
    "looks at lines in the table's order" => |lines| {
        let mut next = 1;
        for [from, to, _] in lines.iter().filter(|line| good_line(line)) {
            if *from > next {
                return told(Some(next), None);
            }
            next = to + 1;
        }
        judge_lines(lines)
    },
    "goes on from line to line 31 times" => |lines| {
        let mut length = 1;
        for _ in 0..31 {
            let own = lines.iter().find(|line| meets_length(line, length));
            length = own.map_or(length, |line| line[1] + 1);
        }
        told(Some(length).filter(|length| *length <= LAST), twice(lines))
    },
    "adds the lengths of all lines up" => |lines| {
        let all: u32 = times_met(lines).iter().map(|times| u32::from(*times)).sum();
        judge_lines(lines).filter(|_| all != LAST)
    },
);

/// Another length told with 18, or none.
const TWICE: &[Wrong] = of_one!(Needs, judging:
    "tells the largest length that two lines meet" => |lines| told(unmet(lines), largest(lines, two)),
    "does not see a length that two lines meet" => |lines| told(unmet(lines), None),
    "asks for three lines" => |lines| told(unmet(lines), such(lines, |times| times > 2).next()),
    "does not see three lines" => |lines| told(unmet(lines), such(lines, |times| times == 2).next()),
    "does not see that two lines meet 1" => |lines| {
        told(unmet(lines), such(lines, two).find(|length| *length > 1))
    },
    "does not see that two lines meet 100,000" => |lines| {
        told(unmet(lines), such(lines, two).find(|length| *length < LAST))
    },
    "tells the last of the first lengths that two lines meet" => |lines| {
        let after = |from: u32| such(lines, |times| times < 2).find(|length| *length > from);
        let last = twice(lines).map(|from| after(from).unwrap_or(LAST + 1) - 1);
        told(unmet(lines), last)
    },
    "tells of the first two lines in the table" => |lines| {
        let shared = |line| such(lines, two).find(|length| meets_length(line, *length));
        told(unmet(lines), lines.iter().find_map(shared))
    },
    "tells the smaller of both lengths" => |lines| match (unmet(lines), twice(lines)) {
        (Some(unmet), Some(twice)) if twice < unmet => told(None, Some(twice)),
        (unmet, twice) => told(unmet, twice),
    },
    "carries a length in 16 bits" => |lines| {
        judge_lines(lines).map(|refusal| Refusal { job: refusal.job % 65_536, ..refusal })
    },
    "carries a length times 1,000" => |lines| judge_lines(lines).map(|refusal| Refusal {
        number: refusal.number + 1_000 * refusal.job,
        job: 0,
    }),
    "carries no length" => |lines| judge_lines(lines).map(|refusal| Refusal { job: 0, ..refusal }),
);

fn none(times: u8) -> bool {
    times == 0
}

fn two(times: u8) -> bool {
    times > 1
}

/// The lengths that are met such a number of times, upwards.
fn such(lines: &[Line], such: fn(u8) -> bool) -> impl Iterator<Item = u32> {
    let met = (1..).zip(times_met(lines));
    let met = met.filter(move |(_, times)| such(*times));
    met.map(|(length, _)| length)
}

fn largest(lines: &[Line], times: fn(u8) -> bool) -> Option<u32> {
    such(lines, times).last()
}

pub fn unmet(lines: &[Line]) -> Option<u32> {
    such(lines, none).next()
}

pub fn twice(lines: &[Line]) -> Option<u32> {
    such(lines, two).next()
}

/// 17 of a length that no line meets, else 18 of one that two meet.
fn told(unmet: Option<u32>, twice: Option<u32>) -> Option<Refusal> {
    let about = |number: u32| move |job: u32| Refusal { number, job };
    unmet.map(about(17)).or(twice.map(about(18)))
}

fn judging(call: &mut Call, judge: fn(&[Line]) -> Option<Refusal>) -> u32 {
    by(call, Way { judge, ..RIGHT })
}
