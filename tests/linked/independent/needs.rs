//! "They will edit a table whose first 32 lines count, any further ones being passed over: from length, to
//! length (both included, in minutes), need. Lengths 1 to 100,000 must each be met by one line, lines in
//! any order." Each length is looked at, with how many lines meet it.

use super::Refusal;

/// "first 32 lines count".
pub const TABLE_LINES: usize = 32;

/// "Lengths 1 to 100,000".
pub const LONGEST_LENGTH: u32 = 100_000;

/// A line of a table: from length, to length, need.
pub type Line = [u32; 3];

/// The lines that count. One or two numbers left over are no line.
pub fn counted_lines(table: &[u32]) -> Vec<Line> {
    let line = |three: &[u32]| [three[0], three[1], three[2]];
    let lines = table.chunks_exact(3).take(TABLE_LINES);
    lines.map(line).collect()
}

pub fn is_length(number: u32) -> bool {
    (1..=LONGEST_LENGTH).contains(&number)
}

/// "a line out of range or running backwards meets no length".
pub fn good_line(line: &Line) -> bool {
    let [from, to, _] = *line;
    is_length(from) && is_length(to) && from <= to
}

pub fn meets_length(line: &Line, length: u32) -> bool {
    let [from, to, _] = *line;
    good_line(line) && (from..=to).contains(&length)
}

/// How many lines meet each length, from length 1 on; 255 where they are more.
pub fn times_met(lines: &[Line]) -> Vec<u8> {
    let mut met = vec![0_u8; LONGEST_LENGTH as usize];
    for [from, to, _] in lines.iter().filter(|line| good_line(line)) {
        for times in &mut met[*from as usize - 1..*to as usize] {
            *times = times.saturating_add(1);
        }
    }
    met
}

/// "A length that no line meets is 17, carrying the smallest such length; one met by two lines is 18,
/// likewise".
pub fn judge_lines(lines: &[Line]) -> Option<Refusal> {
    let met = times_met(lines);
    let about = |number: u32, place: usize| Refusal {
        number,
        job: place as u32 + 1,
    };
    let unmet = met.iter().position(|times| *times == 0);
    let unmet = unmet.map(|place| about(17, place));
    unmet.or_else(|| {
        let twice = met.iter().position(|times| *times > 1);
        twice.map(|place| about(18, place))
    })
}

/// "a listed length out of range is 5": the first such place in the list.
pub fn judge_lengths(lengths: &[u32]) -> Option<Refusal> {
    let place = lengths.iter().position(|length| !is_length(*length))?;
    Some(Refusal {
        number: 5,
        job: place as u32 + 1,
    })
}

/// The need of the line that meets a length, if there is one.
pub fn need_of(lines: &[Line], length: u32) -> Option<u32> {
    let line = lines.iter().find(|line| meets_length(line, length))?;
    Some(line[2])
}

/// "From an accepted table and a list of lengths the jobs' needs are filled in, each from its own line";
/// "a buffer for fewer needs is 9, and then none is filled in".
pub fn needs_of(table: &[u32], lengths: &[u32], room: usize) -> Result<Vec<u32>, Refusal> {
    let lines = counted_lines(table);
    if let Some(refusal) = judge_lines(&lines).or_else(|| judge_lengths(lengths)) {
        return Err(refusal);
    }
    if room < lengths.len() {
        return Err(Refusal { number: 9, job: 0 });
    }
    let need = |length: &u32| need_of(&lines, *length).expect("each length is met");
    Ok(lengths.iter().map(need).collect())
}
