//! What a call is lent: buffers between guards. All of them, guards and what they hold beforehand
//! included, are kept and compared after the call: "the lent buffer beyond them is unchanged".

use crate::draw::Random;
use crate::independent::{Job, Row};
use crate::library::BLOCK_ROWS;

const GUARD: usize = 16;

/// A buffer with guards before and after it. Its beginning varies, so bytes are not always aligned.
#[derive(Clone)]
pub struct Lent<T> {
    whole: Vec<T>,
    begin: usize,
    length: usize,
}

impl<T: Copy + PartialEq> Lent<T> {
    /// A buffer that holds this, between drawn guards.
    pub fn holding(content: &[T], random: &mut Random, draw: fn(u64) -> T) -> Lent<T> {
        let mut lent = Lent::filled(content.len(), random, draw);
        lent.content_mut().copy_from_slice(content);
        lent
    }

    /// A buffer of this length, which holds drawn numbers.
    pub fn filled(length: usize, random: &mut Random, draw: fn(u64) -> T) -> Lent<T> {
        let begin = GUARD + random.below(8);
        let whole = (0..begin + length + GUARD).map(|_| draw(random.number()));
        Lent {
            whole: whole.collect(),
            begin,
            length,
        }
    }

    /// No buffer: the function does not take it.
    pub fn none() -> Lent<T> {
        Lent {
            whole: Vec::new(),
            begin: 0,
            length: 0,
        }
    }

    pub fn content(&self) -> &[T] {
        &self.whole[self.begin..self.begin + self.length]
    }

    pub fn content_mut(&mut self) -> &mut [T] {
        &mut self.whole[self.begin..self.begin + self.length]
    }

    pub fn len(&self) -> usize {
        self.length
    }

    /// The same memory, of which only so much is lent: what is cut off belongs to the guard.
    pub fn cut(mut self, length: usize) -> Lent<T> {
        self.length = length;
        self
    }

    /// Overwrites the beginning of the buffer.
    pub fn put(&mut self, content: &[T]) {
        self.content_mut()[..content.len()].copy_from_slice(content);
    }

    /// The place just before the buffer, and the one just after it: both are guards.
    pub fn before_mut(&mut self) -> &mut T {
        &mut self.whole[self.begin - 1]
    }

    pub fn after_mut(&mut self) -> &mut T {
        &mut self.whole[self.begin + self.length]
    }

    /// The first place that differs, counted from the buffer's beginning: a guard where it is
    /// negative or not below the length.
    pub fn unequal_at(&self, other: &Lent<T>) -> Option<i64> {
        let mut pairs = self.whole.iter().zip(&other.whole);
        let place = pairs.position(|(one, other)| one != other)?;
        Some(place as i64 - self.begin as i64)
    }

    pub fn pointer(&self) -> *const T {
        self.whole.as_ptr().wrapping_add(self.begin)
    }

    pub fn pointer_mut(&mut self) -> *mut T {
        self.whole.as_mut_ptr().wrapping_add(self.begin)
    }
}

/// The arguments of a call. A function takes only those that the header names; the others are
/// short, or none.
#[derive(Clone)]
pub struct Call {
    pub file: Lent<u8>,
    pub memories: Lent<u32>,
    pub jobs: Lent<u32>,
    pub classes: Lent<u32>,
    pub bound: i32,
    pub ready: Lent<u32>,
    pub windows: Lent<u32>,
    pub rows: Lent<u32>,
    pub book: Lent<u32>,
    pub reason: Lent<i32>,
    pub line: Lent<u8>,
    pub table: Lent<u32>,
    pub lengths: Lent<u32>,
    pub needs: Lent<u32>,
    pub highs: Lent<u32>,
    pub number: i32,
    pub order: Lent<u8>,
    pub block: Lent<u8>,
    pub address: u8,
    pub value: u8,
    pub answer: Lent<i32>,
}

impl Call {
    /// A call with this order file, and with room for an answer of this length.
    pub fn with_file(random: &mut Random, file: &[u8], answer: usize) -> Call {
        Call {
            file: Lent::holding(file, random, byte),
            memories: Lent::filled(0, random, number),
            jobs: Lent::filled(0, random, number),
            classes: Lent::filled(0, random, number),
            bound: 0,
            ready: Lent::filled(0, random, number),
            windows: Lent::filled(0, random, number),
            rows: Lent::filled(0, random, number),
            book: Lent::filled(0, random, number),
            reason: Lent::filled(0, random, signed),
            line: Lent::filled(0, random, byte),
            table: Lent::none(),
            lengths: Lent::none(),
            needs: Lent::none(),
            highs: Lent::none(),
            number: 0,
            order: Lent::none(),
            block: Lent::none(),
            address: 0,
            value: 0,
            answer: Lent::filled(answer, random, signed),
        }
    }

    /// A call of hbr_write with these lists and with room for a file of this length.
    pub fn with_lists(
        random: &mut Random,
        memories: &[u32],
        jobs: &[u32],
        file: usize,
        answer: usize,
    ) -> Call {
        Call {
            file: Lent::filled(file, random, byte),
            memories: Lent::holding(memories, random, number),
            jobs: Lent::holding(jobs, random, number),
            ..Call::with_file(random, &[], answer)
        }
    }

    /// A call of hbr_needs with this table and these lengths, and with room for so many needs.
    pub fn with_table(
        random: &mut Random,
        table: &[u32],
        lengths: &[u32],
        room: usize,
        answer: usize,
    ) -> Call {
        Call {
            table: Lent::holding(table, random, number),
            lengths: Lent::holding(lengths, random, number),
            needs: Lent::filled(room, random, number),
            ..Call::with_file(random, &[], answer)
        }
    }

    /// A call with these bytes for a register block, these numbers for the rows that it holds, and room for an
    /// answer of this length. Nothing else is lent.
    pub fn with_block(random: &mut Random, bytes: &[u8], numbers: &[u32], answer: usize) -> Call {
        Call {
            file: Lent::none(),
            memories: Lent::none(),
            jobs: Lent::none(),
            classes: Lent::none(),
            ready: Lent::none(),
            windows: Lent::none(),
            rows: Lent::holding(numbers, random, number),
            book: Lent::none(),
            reason: Lent::none(),
            line: Lent::none(),
            block: Lent::holding(bytes, random, byte),
            ..Call::with_file(random, &[], answer)
        }
    }

    /// The same with this bound.
    pub fn at(self, bound: i32) -> Call {
        Call { bound, ..self }
    }

    /// The same with room for so many numbers of classes.
    pub fn with_class_room(self, random: &mut Random, numbers: usize) -> Call {
        let classes = Lent::filled(numbers, random, number);
        Call { classes, ..self }
    }

    /// The same with these ready minutes and these windows.
    pub fn with_times(self, random: &mut Random, ready: &[u32], windows: &[u32]) -> Call {
        let ready = Lent::holding(ready, random, number);
        let windows = Lent::holding(windows, random, number);
        Call {
            ready,
            windows,
            ..self
        }
    }

    /// The same with these highs.
    pub fn with_highs(self, random: &mut Random, highs: &[u32]) -> Call {
        let highs = Lent::holding(highs, random, number);
        Call { highs, ..self }
    }

    /// The same with this number for a least lateness, and with room for an order of so many bytes.
    pub fn with_order_room(self, random: &mut Random, number: i32, bytes: usize) -> Call {
        let order = Lent::filled(bytes, random, byte);
        Call {
            number,
            order,
            ..self
        }
    }

    /// The same with room for so many numbers of rows.
    pub fn with_room(self, random: &mut Random, numbers: usize) -> Call {
        let rows = Lent::filled(numbers, random, number);
        Call { rows, ..self }
    }

    /// The same with these rows.
    pub fn with_rows(self, random: &mut Random, numbers: &[u32]) -> Call {
        let rows = Lent::holding(numbers, random, number);
        Call { rows, ..self }
    }

    /// The same with these numbers for a book.
    pub fn with_book(self, random: &mut Random, numbers: &[u32]) -> Call {
        let book = Lent::holding(numbers, random, number);
        Call { book, ..self }
    }

    /// The same with these numbers for a reason.
    pub fn with_reason(self, random: &mut Random, numbers: &[i32]) -> Call {
        let reason = Lent::holding(numbers, random, signed);
        Call { reason, ..self }
    }

    /// The same with room for a line of so many bytes.
    pub fn with_line_room(self, random: &mut Random, bytes: usize) -> Call {
        let line = Lent::filled(bytes, random, byte);
        Call { line, ..self }
    }

    /// The same with this line.
    pub fn with_line(self, random: &mut Random, bytes: &[u8]) -> Call {
        let line = Lent::holding(bytes, random, byte);
        Call { line, ..self }
    }
}

/// Jobs as hbr_write takes them, four numbers to a job.
pub fn job_numbers(jobs: &[Job]) -> Vec<u32> {
    let four = |job: &Job| [job.time, job.due as u32, job.need, job.maker];
    jobs.iter().flat_map(four).collect()
}

/// Rows as they are lent, four numbers to a row; numbers left over are none.
pub fn rows_of(numbers: &[u32]) -> Vec<Row> {
    let row = |four: &[u32]| [four[0], four[1], four[2], four[3]];
    numbers.chunks_exact(4).map(row).collect()
}

/// The numbers of the rows that a block holds, zeros behind them.
pub fn held_numbers(rows: &[Row]) -> Vec<u32> {
    let mut numbers = rows.concat();
    numbers.resize(BLOCK_ROWS, 0);
    numbers
}

/// The rows among the numbers that a block lies in: up to the first that has no job.
pub fn held_rows(numbers: &[u32]) -> Vec<Row> {
    let rows = rows_of(&numbers[..BLOCK_ROWS]).into_iter();
    rows.take_while(|row| row[0] != 0).collect()
}

fn byte(drawn: u64) -> u8 {
    drawn as u8
}

fn number(drawn: u64) -> u32 {
    drawn as u32
}

fn signed(drawn: u64) -> i32 {
    drawn as i32
}
