//! A table of needs: the smallest length that no line meets, by going on from line to line; the smallest
//! that two lines meet, by pairs of lines; the needs of listed lengths.

use super::order::Refusal;

const TABLE_LINES: usize = 32;
const LONGEST: u32 = 100_000;

#[derive(Clone, Copy, Default)]
struct Line {
    from: u32,
    to: u32,
    need: u32,
}

impl Line {
    fn meets(&self, length: u32) -> bool {
        self.from <= length && length <= self.to
    }
}

/// The lines among the first 32 that meet some length; zeros beyond.
pub struct Table {
    count: usize,
    lines: [Line; TABLE_LINES],
}

impl Table {
    /// The table of these numbers, where each length has one line.
    pub fn accept(numbers: &[u32]) -> Result<Table, Refusal> {
        let table = Table::of(numbers);
        if let Some(length) = table.unmet() {
            return Err(about(17, length));
        }
        if let Some(length) = table.met_twice() {
            return Err(about(18, length));
        }
        Ok(table)
    }

    fn of(numbers: &[u32]) -> Table {
        let mut table = Table {
            count: 0,
            lines: [Line::default(); TABLE_LINES],
        };
        for line in numbers.chunks_exact(3).take(TABLE_LINES) {
            let (from, to, need) = (line[0], line[1], line[2]);
            if 1 <= from && from <= to && to <= LONGEST {
                table.lines[table.count] = Line { from, to, need };
                table.count += 1;
            }
        }
        table
    }

    fn lines(&self) -> &[Line] {
        &self.lines[..self.count]
    }

    /// After a length that is met comes the one after the last of the lines that meet it.
    fn unmet(&self) -> Option<u32> {
        let mut length = 1;
        while length <= LONGEST {
            let own = self.lines().iter().filter(|line| line.meets(length));
            let last = own.map(|line| line.to).max();
            match last {
                Some(last) => length = last + 1,
                None => return Some(length),
            }
        }
        None
    }

    /// Two lines that share a length share first the later of their firsts.
    fn met_twice(&self) -> Option<u32> {
        let mut least = None;
        for (i, line) in self.lines().iter().enumerate() {
            for other in &self.lines()[i + 1..] {
                let first = line.from.max(other.from);
                if first <= line.to.min(other.to) && least.is_none_or(|least| first < least) {
                    least = Some(first);
                }
            }
        }
        least
    }

    /// The need of a length in range.
    pub fn need_of(&self, length: u32) -> u32 {
        let own = self.lines().iter().find(|line| line.meets(length));
        own.map_or(0, |line| line.need)
    }
}

/// 5, with the first place in the list.
pub fn accept_lengths(lengths: &[u32]) -> Result<(), Refusal> {
    let outside = |length: &u32| !(1..=LONGEST).contains(length);
    match lengths.iter().position(outside) {
        Some(place) => Err(Refusal::about(5, place)),
        None => Ok(()),
    }
}

fn about(number: u32, length: u32) -> Refusal {
    Refusal {
        number,
        job: length,
    }
}
