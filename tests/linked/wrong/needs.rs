//! Wrong in a table of needs: "first 32 lines count, any further ones being passed over: from length, to
//! length (both included, in minutes), need"; "a line out of range or running backwards meets no length";
//! each need "from its own line".

use super::Wrong;
use crate::independent::{
    counted_lines, good_line, judge_lengths, judge_lines, meets_length, need_of, Line, Refusal,
    LONGEST_LENGTH as LAST, TABLE_LINES,
};
use crate::lent::Call;
use crate::library::{Function, MOST_LENGTHS};

pub const PARTS: &[&[Wrong]] = &[LINES, MEETING, TAKEN, NEEDS];

/// How needs are found.
pub struct Way {
    /// the lines of a table that count
    pub lines: fn(&[u32]) -> Vec<Line>,
    /// what is wrong with these
    pub judge: fn(&[Line]) -> Option<Refusal>,
    /// the most lengths
    pub most: usize,
    /// what is wrong with the lengths
    pub list: fn(&[u32]) -> Option<Refusal>,
    /// whether room for so many needs is enough for so many lengths
    pub enough: fn(usize, usize) -> bool,
    /// the need of a length
    pub need: fn(&[Line], u32) -> u32,
}

/// As it should be.
pub const RIGHT: Way = Way {
    lines: counted_lines,
    judge: judge_lines,
    most: MOST_LENGTHS,
    list: judge_lengths,
    enough: |room, count| room >= count,
    need: |lines, length| need_of(lines, length).unwrap_or(0),
};

/// Other lines that count.
const LINES: &[Wrong] = of_one!(Needs, counting:
    "counts 33 lines" => |table| first(table, 33),
    "counts 31 lines" => |table| first(table, 31),
    "counts all lines" => |table| first(table, usize::MAX),
    "counts the last 32 lines" => |table| {
        let lines = first(table, usize::MAX);
        lines[lines.len().saturating_sub(TABLE_LINES)..].to_vec()
    },
    "counts 32 lines that meet some length" => |table| {
        let mut lines = first(table, usize::MAX);
        lines.retain(good_line);
        lines.truncate(TABLE_LINES);
        lines
    },
    "counts lines in 8 bits" => |table| first(table, (table.len() / 3 % 256).min(TABLE_LINES)),
    "counts lines in 16 bits" => |table| first(table, (table.len() / 3 % 65_536).min(TABLE_LINES)),
    "leaves out the last line" => |table| first(table, (table.len() / 3).clamp(1, TABLE_LINES) - 1),
    "takes equal lines for one" => |table| once(table, |one, other| one == other),
    "takes lines of the same lengths for one" => |table| {
        once(table, |one, other| one[..2] == other[..2])
    },
    "stops at a line that meets no length" => |table| {
        counted_lines(table).into_iter().take_while(good_line).collect()
    },
    "stops at a line of zeros" => |table| {
        counted_lines(table).into_iter().take_while(|line| *line != [0, 0, 0]).collect()
    },
    "takes two numbers left over for a line" => |table| completed(table, 2),
    "takes a number left over for a line" => |table| completed(table, 1),
    "takes no table with numbers left over" => |table| match table.len() % 3 {
        0 => counted_lines(table),
        _ => Vec::new(),
    },
    "passes over a line below the one before" => |table| {
        let mut lines = counted_lines(table);
        lines.dedup_by(|line, before| line[0] < before[0]);
        lines
    },
    "passes over a line of need 0" => |table| {
        let mut lines = counted_lines(table);
        lines.retain(|line| line[2] > 0);
        lines
    },
);

/// Other lengths of a line that meets some.
const MEETING: &[Wrong] = of_one!(Needs, meeting:
    "leaves out the last length of a line" => |[from, to, need]| [from, to - 1, need],
    "leaves out the first length of a line" => |[from, to, need]| [from + 1, to, need],
    "takes in the length before a line" => |[from, to, need]| [(from - 1).max(1), to, need],
    "takes in the length after a line" => |[from, to, need]| [from, (to + 1).min(LAST), need],
    "takes a line of one length for none" => |[from, to, need]| match from == to {
        true => [0, 0, need],
        false => [from, to, need],
    },
    "has the need before the lengths" => |[from, to, need]| [to, need, from],
    "reads the lengths of a line in 16 bits" => |[from, to, need]| [from % 65_536, to % 65_536, need],
);

/// Other lengths of a line that meets none.
const TAKEN: &[Wrong] = of_one!(Needs, taking:
    "takes the part in range of a line from 0" => |[from, to, need]| [from.max(1), to, need],
    "takes the part in range of a line beyond 100,000" => |[from, to, need]| [from, to.min(LAST), need],
    "takes 100,001 for a length of a line" => |[from, to, need]| match to == LAST + 1 {
        true => [from, LAST, need],
        false => [from, to, need],
    },
    "takes a line from a negative number" => |[from, to, need]| match from > i32::MAX as u32 {
        true => [1, to, need],
        false => [from, to, need],
    },
    "turns a backwards line round" => |[from, to, need]| [from.min(to), from.max(to), need],
    "takes a line backwards by one for one length" => |[from, to, need]| match from.checked_sub(to) {
        Some(1) => [to, to, need],
        _ => [from, to, need],
    },
    "reads the lengths of a line in 17 bits" => |[from, to, need]| [from % 131_072, to % 131_072, need],
);

/// Another need.
const NEEDS: &[Wrong] = of_one!(Needs, filling:
    "has the need of the next line" => |lines, length| {
        lines[(own(lines, length) + 1) % lines.len()][2]
    },
    "has the need of the line before" => |lines, length| {
        lines[(own(lines, length) + lines.len() - 1) % lines.len()][2]
    },
    "has the need of the next longer lengths" => |lines, length| {
        let to = lines[own(lines, length)][1];
        need_of(lines, (to + 1).min(LAST)).unwrap_or(0)
    },
    "has the need of the length after it" => |lines, length| {
        need_of(lines, (length + 1).min(LAST)).unwrap_or(0)
    },
    "has the need of the length before it" => |lines, length| {
        need_of(lines, (length - 1).max(1)).unwrap_or(0)
    },
    "has the first length of a line for a need" => |lines, length| lines[own(lines, length)][0],
    "has needs of 16 bits" => |lines, length| lines[own(lines, length)][2] % 65_536,
    "has needs of 31 bits" => |lines, length| lines[own(lines, length)][2] & i32::MAX as u32,
);

/// So many lines of a table, or all.
fn first(table: &[u32], count: usize) -> Vec<Line> {
    let lines = table.chunks_exact(3).take(count);
    lines.map(|line| [line[0], line[1], line[2]]).collect()
}

/// The lines that count but those that are the same as one before them.
fn once(table: &[u32], same: fn(&Line, &Line) -> bool) -> Vec<Line> {
    let mut lines: Vec<Line> = Vec::new();
    for line in counted_lines(table) {
        if !lines.iter().any(|one| same(one, &line)) {
            lines.push(line);
        }
    }
    lines
}

/// The lines that count, and so many numbers left over as one up to 100,000.
fn completed(table: &[u32], left_over: usize) -> Vec<Line> {
    let mut numbers = table.to_vec();
    if numbers.len() % 3 == left_over {
        numbers.extend(&[LAST, 0][left_over - 1..]);
    }
    counted_lines(&numbers)
}

/// The place of the line that meets a length.
fn own(lines: &[Line], length: u32) -> usize {
    let own = lines.iter().position(|line| meets_length(line, length));
    own.expect("each length is met")
}

/// The result that tells a refusal.
pub fn result_of(refusal: Refusal) -> u32 {
    refusal.job.wrapping_mul(256).wrapping_add(refusal.number)
}

/// The call by another way; of the needs those are written that fit.
pub fn by(call: &mut Call, way: Way) -> u32 {
    if call.answer.len() == 0 {
        return 255;
    }
    let (lengths, room) = (call.lengths.content(), call.needs.len());
    if lengths.len() > way.most {
        return 253;
    }
    let lines = (way.lines)(call.table.content());
    let refusal = (way.judge)(&lines).or_else(|| (way.list)(lengths));
    if let Some(refusal) = refusal {
        return result_of(refusal);
    }
    if !(way.enough)(room, lengths.len()) {
        return 9;
    }
    let needs = lengths.iter().map(|length| (way.need)(&lines, *length));
    let needs: Vec<u32> = needs.take(room).collect();
    let count = lengths.len() as i32;
    call.needs.put(&needs);
    call.answer.put(&[count]);
    0
}

fn counting(call: &mut Call, lines: fn(&[u32]) -> Vec<Line>) -> u32 {
    by(call, Way { lines, ..RIGHT })
}

fn filling(call: &mut Call, need: fn(&[Line], u32) -> u32) -> u32 {
    by(call, Way { need, ..RIGHT })
}

/// Other lines in place of those that meet some length.
fn meeting(call: &mut Call, change: fn(Line) -> Line) -> u32 {
    changed(call, change, true)
}

/// Other lines in place of those that meet none.
fn taking(call: &mut Call, change: fn(Line) -> Line) -> u32 {
    changed(call, change, false)
}

/// The call with other lines in place of those that are good, or of those that are not.
fn changed(call: &mut Call, change: fn(Line) -> Line, good: bool) -> u32 {
    let table = call.table.clone();
    for three in call.table.content_mut().chunks_exact_mut(3) {
        let line = [three[0], three[1], three[2]];
        if good_line(&line) == good {
            three.copy_from_slice(&change(line));
        }
    }
    let result = by(call, RIGHT);
    call.table = table;
    result
}
