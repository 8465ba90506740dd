//! Safe Rust over `libhighboyrobin.a`: a session planner whose refusals are facts. It needs neither `std` nor a heap.
//!
//! Times are whole minutes from a common start, minute 0. Jobs and processors are numbered from 1, in the order in which they are
//! listed. Due 10 means done by the close of minute 10, so the end is minute 11: a job's end is its due time plus the bound plus 1.
//! An order is handed over as the bytes of an order file, which `write` makes. A refused call writes nothing. A screen, which holds
//! fewer processors and jobs than a dock, calls by `Caller::Screen`. A `Block` is the planner behind 256 bytes, as a bus has them.

/// The most processors, jobs and classes of an order, bytes of its file, rows of a plan, rows of a plan with times, bytes of a
/// reason's line.
pub const MOST_PROCESSORS: usize = 16;
pub const MOST_JOBS: usize = 48;
pub const MOST_CLASSES: usize = 16;
pub const MOST_BYTES: usize = 844;
pub const MOST_ROWS: usize = 3024;
pub const MOST_TIMED_ROWS: usize = 8064;
pub const MOST_LINE: usize = 541;

/// Makers are numbered from 1 to this; a book has as many counts, none over `MOST_BOOKED`.
pub const MOST_MAKERS: usize = 16;
pub const MOST_BOOKED: u32 = 4_000_000_000;

/// The largest ready minute, opening and closing.
pub const MOST_MINUTE: u32 = 1_000_000;

/// The lines of a table of needs that count, the longest length, the most lengths of a call.
pub const TABLE_LINES: usize = 32;
pub const LONGEST_LENGTH: u32 = 100_000;
pub const MOST_LENGTHS: usize = 16_777_215;

/// Of a screen: the most processors and jobs of an order, bytes of its file, rows that it asks to be lent.
pub const SCREEN_PROCESSORS: usize = 4;
pub const SCREEN_JOBS: usize = 12;
pub const SCREEN_BYTES: usize = 220;
pub const SCREEN_ROWS: usize = 180;

/// Of a register block: its bytes, and the numbers of the rows that it holds, `SCREEN_ROWS` rows of four.
pub const BLOCK_BYTES: usize = 256;
pub const BLOCK_ROWS: usize = 720;

/// The functions of the archive, as `highboyrobin.h` declares them. A slice is a pointer and a length in elements.
pub mod raw {
    unsafe extern "C" {
        pub fn hbr_judge(
            file: *const u8,
            file_length: usize,
            answer: *mut i32,
            answer_length: usize,
        ) -> u32;
        pub fn hbr_classes(
            file: *const u8,
            file_length: usize,
            classes: *mut u32,
            classes_length: usize,
            answer: *mut i32,
            answer_length: usize,
        ) -> u32;
        pub fn hbr_least(
            file: *const u8,
            file_length: usize,
            rows: *mut u32,
            rows_length: usize,
            answer: *mut i32,
            answer_length: usize,
        ) -> u32;
        pub fn hbr_plan(
            file: *const u8,
            file_length: usize,
            bound: i32,
            rows: *mut u32,
            rows_length: usize,
            answer: *mut i32,
            answer_length: usize,
        ) -> u32;
        pub fn hbr_book_least(
            file: *const u8,
            file_length: usize,
            rows: *mut u32,
            rows_length: usize,
            book: *mut u32,
            book_length: usize,
            answer: *mut i32,
            answer_length: usize,
        ) -> u32;
        pub fn hbr_book_plan(
            file: *const u8,
            file_length: usize,
            bound: i32,
            rows: *mut u32,
            rows_length: usize,
            book: *mut u32,
            book_length: usize,
            answer: *mut i32,
            answer_length: usize,
        ) -> u32;
        pub fn hbr_reason(
            file: *const u8,
            file_length: usize,
            bound: i32,
            answer: *mut i32,
            answer_length: usize,
        ) -> u32;
        pub fn hbr_sentence(
            file: *const u8,
            file_length: usize,
            bound: i32,
            reason: *const i32,
            reason_length: usize,
            line: *mut u8,
            line_length: usize,
            answer: *mut i32,
            answer_length: usize,
        ) -> u32;
        pub fn hbr_parse(
            file: *const u8,
            file_length: usize,
            bound: i32,
            line: *const u8,
            line_length: usize,
            answer: *mut i32,
            answer_length: usize,
        ) -> u32;
        pub fn hbr_check(
            file: *const u8,
            file_length: usize,
            bound: i32,
            rows: *const u32,
            rows_length: usize,
            answer: *mut i32,
            answer_length: usize,
        ) -> u32;
        pub fn hbr_timed_rows(
            file: *const u8,
            file_length: usize,
            bound: i32,
            ready: *const u32,
            ready_length: usize,
            windows: *const u32,
            windows_length: usize,
            answer: *mut i32,
            answer_length: usize,
        ) -> u32;
        pub fn hbr_timed_plan(
            file: *const u8,
            file_length: usize,
            bound: i32,
            ready: *const u32,
            ready_length: usize,
            windows: *const u32,
            windows_length: usize,
            rows: *mut u32,
            rows_length: usize,
            answer: *mut i32,
            answer_length: usize,
        ) -> u32;
        pub fn hbr_timed_check(
            file: *const u8,
            file_length: usize,
            bound: i32,
            ready: *const u32,
            ready_length: usize,
            windows: *const u32,
            windows_length: usize,
            rows: *const u32,
            rows_length: usize,
            answer: *mut i32,
            answer_length: usize,
        ) -> u32;
        pub fn hbr_between(
            file: *const u8,
            file_length: usize,
            highs: *const u32,
            highs_length: usize,
            answer: *mut i32,
            answer_length: usize,
        ) -> u32;
        pub fn hbr_between_order(
            file: *const u8,
            file_length: usize,
            highs: *const u32,
            highs_length: usize,
            number: i32,
            order: *mut u8,
            order_length: usize,
            answer: *mut i32,
            answer_length: usize,
        ) -> u32;
        pub fn hbr_needs(
            table: *const u32,
            table_length: usize,
            lengths: *const u32,
            lengths_length: usize,
            needs: *mut u32,
            needs_length: usize,
            answer: *mut i32,
            answer_length: usize,
        ) -> u32;
        pub fn hbr_write(
            memories: *const u32,
            memories_length: usize,
            jobs: *const u32,
            jobs_length: usize,
            file: *mut u8,
            file_length: usize,
            answer: *mut i32,
            answer_length: usize,
        ) -> u32;
        pub fn hbr_screen_judge(
            file: *const u8,
            file_length: usize,
            answer: *mut i32,
            answer_length: usize,
        ) -> u32;
        pub fn hbr_screen_least(
            file: *const u8,
            file_length: usize,
            rows: *mut u32,
            rows_length: usize,
            answer: *mut i32,
            answer_length: usize,
        ) -> u32;
        pub fn hbr_screen_plan(
            file: *const u8,
            file_length: usize,
            bound: i32,
            rows: *mut u32,
            rows_length: usize,
            answer: *mut i32,
            answer_length: usize,
        ) -> u32;
        pub fn hbr_screen_reason(
            file: *const u8,
            file_length: usize,
            bound: i32,
            answer: *mut i32,
            answer_length: usize,
        ) -> u32;
        pub fn hbr_screen_sentence(
            file: *const u8,
            file_length: usize,
            bound: i32,
            reason: *const i32,
            reason_length: usize,
            line: *mut u8,
            line_length: usize,
            answer: *mut i32,
            answer_length: usize,
        ) -> u32;
        pub fn hbr_screen_check(
            file: *const u8,
            file_length: usize,
            bound: i32,
            rows: *const u32,
            rows_length: usize,
            answer: *mut i32,
            answer_length: usize,
        ) -> u32;
        pub fn hbr_block_clear(
            block: *mut u8,
            block_length: usize,
            rows: *mut u32,
            rows_length: usize,
        ) -> u32;
        pub fn hbr_block_write(
            block: *mut u8,
            block_length: usize,
            rows: *mut u32,
            rows_length: usize,
            address: u8,
            value: u8,
        ) -> u32;
        pub fn hbr_block_read(
            block: *const u8,
            block_length: usize,
            rows: *const u32,
            rows_length: usize,
            address: u8,
            answer: *mut i32,
            answer_length: usize,
        ) -> u32;
    }
}

/// A job: its working time, the minute by which it is due, the memory that it needs, the number of its maker.
#[repr(C)]
#[derive(Clone, Copy, Debug, PartialEq, Eq)]
pub struct Job {
    pub time: u32,
    pub due: i32,
    pub need: u32,
    pub maker: u32,
}

/// A row of a plan: the minutes from `from` up to but not including `to`.
#[repr(C)]
#[derive(Clone, Copy, Debug, Default, PartialEq, Eq)]
pub struct Row {
    pub job: u32,
    pub processor: u32,
    pub from: u32,
    pub to: u32,
}

/// When a processor is open: the minutes from `opens` up to but not including `closes`.
#[repr(C)]
#[derive(Clone, Copy, Debug, PartialEq, Eq)]
pub struct Window {
    pub opens: u32,
    pub closes: u32,
}

/// A line of a table of needs: the lengths from `from` to `to`, both included, have this need.
#[repr(C)]
#[derive(Clone, Copy, Debug, PartialEq, Eq)]
pub struct NeedLine {
    pub from: u32,
    pub to: u32,
    pub need: u32,
}

/// Why a call was refused: the number of `highboyrobin.h`, and the job that it is about, of 16 the processor, of 17 and 18 the
/// length, of 5 from `needs` the place in the list, 0 where it is about none.
#[derive(Clone, Copy, Debug, PartialEq, Eq)]
pub struct Refused {
    pub number: u32,
    pub job: u32,
}

impl Refused {
    /// The refusal in words, as the table of `docs/LINKING.md` has them.
    fn words(&self) -> &'static str {
        match self.number {
            1 => "the order has no processor",
            2 => "the order has over 16 processors",
            3 => "the order has no job",
            4 => "the order has over 48 jobs",
            5 => "a job's time, low or high, or a listed length, is not 1 to 100,000",
            6 => "a due time is not -1,000,000 to 1,000,000",
            7 => "a job fits no processor",
            8 => "the bound is not -10,000,000 to 10,000,000",
            9 => "the lent buffer is too short",
            10 => "no plan whatever meets the bound",
            11 => "over 3,024 rows to check, with times over 8,064",
            12 => "the file is under 12 or over 844 bytes, or its lists and its trailer disagree",
            13 => "a job's maker is not 1 to 16",
            14 => "a count of the book would be over 4,000,000,000",
            15 => "a ready minute is not 0 to 1,000,000",
            16 => "a window is not in 0 to 1,000,000, or does not close after it opens",
            17 => "no line of the table of needs meets a length",
            18 => "two lines of the table of needs meet a length",
            19 => "a job's low is above its high",
            20 => "a screen's order has over 12 jobs",
            21 => "a screen's order has over 4 processors",
            253 => "the reason has under 19 numbers, the book under 16, the classes under 32, a block under 256 bytes or 720 numbers, the times are not one to each job and processor, the highs not one to a job, or over 16,777,215 lengths are listed",
            254 => "the numbers of the jobs are not four to a job",
            255 => "the answer is too short",
            _ => "no refusal has this number",
        }
    }
}

/// Number, job, processor or length where it is about one, and words: `refusal 7 of job 2: a job fits no processor`.
impl core::fmt::Display for Refused {
    fn fmt(&self, out: &mut core::fmt::Formatter<'_>) -> core::fmt::Result {
        let (number, job, words) = (self.number, self.job, self.words());
        match (number, job) {
            (_, 0) => write!(out, "refusal {number}: {words}"),
            (16, _) => write!(out, "refusal {number} of processor {job}: {words}"),
            (17 | 18, _) => write!(out, "refusal {number} of length {job}: {words}"),
            _ => write!(out, "refusal {number} of job {job}: {words}"),
        }
    }
}

impl core::error::Error for Refused {}

/// The sizes of an order; `rows` is how many rows `least` and `plan` ask to be lent.
#[derive(Clone, Copy, Debug, PartialEq, Eq)]
pub struct Sizes {
    pub processors: usize,
    pub jobs: usize,
    pub rows: usize,
}

/// A class of processors: the memory that they have, and how many they are.
#[repr(C)]
#[derive(Clone, Copy, Debug, Default, PartialEq, Eq)]
pub struct Class {
    pub memory: u32,
    pub processors: u32,
}

/// The classes of an order.
#[derive(Clone, Copy, Debug, PartialEq, Eq)]
pub struct Classes {
    count: usize,
    /// zeros beyond the count
    all: [Class; MOST_CLASSES],
}

impl Classes {
    /// How many there are, 1 to 16.
    pub fn count(&self) -> usize {
        self.count
    }

    /// The classes, class 1 with the largest memory first.
    pub fn listed(&self) -> &[Class] {
        &self.all[..self.count]
    }
}

/// The least lateness, and how many rows were written.
#[derive(Clone, Copy, Debug, PartialEq, Eq)]
pub struct Least {
    pub lateness: i32,
    pub rows: usize,
}

/// The least lateness at the lows and at the highs.
#[derive(Clone, Copy, Debug, PartialEq, Eq)]
pub struct Between {
    pub at_lows: i32,
    pub at_highs: i32,
}

/// The minutes planned for each maker since the book was opened, maker 1 first.
#[derive(Clone, Copy, Debug, PartialEq, Eq)]
pub struct Book {
    pub counts: [u32; MOST_MAKERS],
}

impl Book {
    /// An opened book: sixteen zeros.
    pub fn open() -> Book {
        Book {
            counts: [0; MOST_MAKERS],
        }
    }

    /// The minutes of a maker; `None` where no maker has this number.
    pub fn minutes(&self, maker: u32) -> Option<u32> {
        let place = maker.checked_sub(1)?;
        self.counts.get(place as usize).copied()
    }
}

/// Why no plan can meet a bound.
#[derive(Clone, Copy, Debug, PartialEq, Eq)]
pub enum Reason {
    /// A job whose time exceeds its end; `reason` tells the first.
    Job { job: u32, time: u32 },
    /// The first `classes` due times, one for each class of processors from the largest memory down: by the ends of these due times
    /// the jobs of these classes need more minutes than their processors have. The others are 0.
    Stairs { classes: usize, dues: [i32; 16] },
}

impl Reason {
    /// The reason of an answer, `None` where its kind is 0.
    fn of(answer: &[i32; 19]) -> Option<Reason> {
        let [kind, number, time, dues @ ..] = *answer;
        match kind {
            0 => None,
            1 => Some(Reason::Job {
                job: number as u32,
                time: time as u32,
            }),
            _ => Some(Reason::Stairs {
                classes: number as usize,
                dues,
            }),
        }
    }

    /// The numbers of the reason; a number that is too large for one is -1, and the reason does not stand.
    fn numbers(&self) -> [i32; 19] {
        let mut numbers = [0; 19];
        match *self {
            Reason::Job { job, time } => {
                numbers[0] = 1;
                numbers[1] = job.try_into().unwrap_or(-1);
                numbers[2] = time.try_into().unwrap_or(-1);
            }
            Reason::Stairs { classes, dues } => {
                numbers[0] = 2;
                numbers[1] = classes.try_into().unwrap_or(-1);
                numbers[3..].copy_from_slice(&dues);
            }
        }
        numbers
    }
}

fn told(result: u32) -> Result<(), Refused> {
    if result == 0 {
        return Ok(());
    }
    Err(Refused {
        number: result % 256,
        job: result / 256,
    })
}

/// Judges an order file. Refusals: 12, 1 to 6, 13, 7.
pub fn judge(file: &[u8]) -> Result<Sizes, Refused> {
    Caller::Dock.judge(file)
}

/// The classes of an order: its distinct memories, the largest first, each with how many processors have it. Refusals: 12, 1 to 6,
/// 13, 7.
pub fn classes(file: &[u8]) -> Result<Classes, Refused> {
    let (mut all, mut answer) = ([Class::default(); MOST_CLASSES], [0; 1]);
    let (at, length) = (all.as_mut_ptr().cast(), all.len() * 2);
    told(unsafe {
        raw::hbr_classes(
            file.as_ptr(),
            file.len(),
            at,
            length,
            answer.as_mut_ptr(),
            answer.len(),
        )
    })?;
    Ok(Classes {
        count: answer[0] as usize,
        all,
    })
}

/// The least lateness, with a plan that meets it from `rows[0]` on, in which no row begins where another of its job on its
/// processor ends. Refusals: 12, 1 to 6, 13, 7, 9.
pub fn least(file: &[u8], rows: &mut [Row]) -> Result<Least, Refused> {
    Caller::Dock.least(file, rows)
}

/// A plan in which every job is done by its end, from `rows[0]` on, joined as that of `least`; its number of rows. Refusals: 12, 1
/// to 6, 13, 7 to 10.
pub fn plan(file: &[u8], bound: i32, rows: &mut [Row]) -> Result<usize, Refused> {
    Caller::Dock.plan(file, bound, rows)
}

/// `least`, and where a plan is written the times of each maker's jobs are added to that maker's count. Hand each call the book that
/// the last one left. Refusals: 12, 1 to 6, 13, 7, 9, and last 14: a count would then be over `MOST_BOOKED`.
pub fn book_least(file: &[u8], rows: &mut [Row], book: &mut Book) -> Result<Least, Refused> {
    let mut answer = [0; 2];
    let (at, length) = (rows.as_mut_ptr().cast(), rows.len() * 4);
    told(unsafe {
        raw::hbr_book_least(
            file.as_ptr(),
            file.len(),
            at,
            length,
            book.counts.as_mut_ptr(),
            book.counts.len(),
            answer.as_mut_ptr(),
            answer.len(),
        )
    })?;
    Ok(Least {
        lateness: answer[0],
        rows: answer[1] as usize,
    })
}

/// `plan`, with a book as `book_least` has it. Refusals: 12, 1 to 6, 13, 7 to 10, 14.
pub fn book_plan(
    file: &[u8],
    bound: i32,
    rows: &mut [Row],
    book: &mut Book,
) -> Result<usize, Refused> {
    let mut answer = [0; 1];
    let (at, length) = (rows.as_mut_ptr().cast(), rows.len() * 4);
    told(unsafe {
        raw::hbr_book_plan(
            file.as_ptr(),
            file.len(),
            bound,
            at,
            length,
            book.counts.as_mut_ptr(),
            book.counts.len(),
            answer.as_mut_ptr(),
            answer.len(),
        )
    })?;
    Ok(answer[0] as usize)
}

/// Why no plan can meet the bound; `None` where one can. Refusals: 12, 1 to 6, 13, 7, 8.
pub fn reason(file: &[u8], bound: i32) -> Result<Option<Reason>, Refused> {
    Caller::Dock.reason(file, bound)
}

/// A reason as one English line, written from `line[0]` on, without a line feed; `MOST_LINE` bytes are always enough. The reason
/// may be by anybody: one that does not stand at this bound has an empty line. Refusals: 12, 1 to 6, 13, 7 to 9.
pub fn sentence<'a>(
    file: &[u8],
    bound: i32,
    reason: &Reason,
    line: &'a mut [u8],
) -> Result<&'a str, Refused> {
    Caller::Dock.sentence(file, bound, reason, line)
}

/// The one reason that stands at this bound and whose line these bytes are; `None` for any other line. Refusals: 12, 1
/// to 6, 13, 7, 8.
pub fn parse(file: &[u8], bound: i32, line: &[u8]) -> Result<Option<Reason>, Refused> {
    let mut answer = [0; 19];
    told(unsafe {
        raw::hbr_parse(
            file.as_ptr(),
            file.len(),
            bound,
            line.as_ptr(),
            line.len(),
            answer.as_mut_ptr(),
            answer.len(),
        )
    })?;
    Ok(Reason::of(&answer))
}

/// Whether rows, made by anybody and in any order, are a right plan that meets the bound. Refusals: 12, 1 to 6, 13, 7, 8,
/// 11.
pub fn check(file: &[u8], bound: i32, rows: &[Row]) -> Result<bool, Refused> {
    Caller::Dock.check(file, bound, rows)
}

/// How many rows `timed_plan` asks to be lent at a bound, at most `MOST_TIMED_ROWS`: a ready minute for each job, a window for each
/// processor, in the order of the file. Refusals: 12, 253 where they are not so many, 1 to 6, 13, 7, 15, 16, 8.
pub fn timed_rows(
    file: &[u8],
    bound: i32,
    ready: &[u32],
    windows: &[Window],
) -> Result<usize, Refused> {
    let mut answer = [0; 1];
    told(unsafe {
        raw::hbr_timed_rows(
            file.as_ptr(),
            file.len(),
            bound,
            ready.as_ptr(),
            ready.len(),
            windows.as_ptr().cast(),
            windows.len() * 2,
            answer.as_mut_ptr(),
            answer.len(),
        )
    })?;
    Ok(answer[0] as usize)
}

/// `plan` with times as `timed_rows` has them: no row begins before its job's ready minute or its processor's opening, nor has a
/// `to` above that processor's closing. Refusals: 12, 253, 1 to 6, 13, 7, 15, 16, 8 to 10; 10 where there is no such plan whatever.
pub fn timed_plan(
    file: &[u8],
    bound: i32,
    ready: &[u32],
    windows: &[Window],
    rows: &mut [Row],
) -> Result<usize, Refused> {
    let mut answer = [0; 1];
    let (at, length) = (rows.as_mut_ptr().cast(), rows.len() * 4);
    told(unsafe {
        raw::hbr_timed_plan(
            file.as_ptr(),
            file.len(),
            bound,
            ready.as_ptr(),
            ready.len(),
            windows.as_ptr().cast(),
            windows.len() * 2,
            at,
            length,
            answer.as_mut_ptr(),
            answer.len(),
        )
    })?;
    Ok(answer[0] as usize)
}

/// Whether rows, made by anybody and in any order, are a right plan that meets the bound and keeps the times. Refusals: 12, 253, 1
/// to 6, 13, 7, 15, 16, 8, 11: here over `MOST_TIMED_ROWS` rows.
pub fn timed_check(
    file: &[u8],
    bound: i32,
    ready: &[u32],
    windows: &[Window],
    rows: &[Row],
) -> Result<bool, Refused> {
    let mut answer = [0; 1];
    let (at, length) = (rows.as_ptr().cast(), rows.len() * 4);
    told(unsafe {
        raw::hbr_timed_check(
            file.as_ptr(),
            file.len(),
            bound,
            ready.as_ptr(),
            ready.len(),
            windows.as_ptr().cast(),
            windows.len() * 2,
            at,
            length,
            answer.as_mut_ptr(),
            answer.len(),
        )
    })?;
    Ok(answer[0] == 1)
}

/// The least lateness where times are known only between lows, which are the file's times, and highs, one to a job: whatever the
/// times, it lies between these two. Refusals: 12, 253 where there is not a high to each job, 1 to 4, 5 of a low or a high, 6,
/// 13, 19, 7.
pub fn between(file: &[u8], highs: &[u32]) -> Result<Between, Refused> {
    let mut answer = [0; 2];
    told(unsafe {
        raw::hbr_between(
            file.as_ptr(),
            file.len(),
            highs.as_ptr(),
            highs.len(),
            answer.as_mut_ptr(),
            answer.len(),
        )
    })?;
    let [at_lows, at_highs] = answer;
    Ok(Between { at_lows, at_highs })
}

/// An order between lows and highs, as `between` has them, whose least lateness is this number: the first met when job 1, then
/// job 2 and so on, goes minute by minute from its low to its high. Its file is written from `order[0]` on, as `write` writes it;
/// its length, or `None` where the number is not between the two of `between`. Refusals: 12, 253, 1 to 6, 13, 19, 7, and last,
/// where there is an order, 9.
pub fn between_order(
    file: &[u8],
    highs: &[u32],
    number: i32,
    order: &mut [u8],
) -> Result<Option<usize>, Refused> {
    let mut answer = [0; 1];
    let (at, length) = (order.as_mut_ptr(), order.len());
    told(unsafe {
        raw::hbr_between_order(
            file.as_ptr(),
            file.len(),
            highs.as_ptr(),
            highs.len(),
            number,
            at,
            length,
            answer.as_mut_ptr(),
            answer.len(),
        )
    })?;
    let length = answer[0] as usize;
    Ok((length > 0).then_some(length))
}

/// The needs of listed lengths, from `needs[0]` on, each from the line of the table that meets it; their number. The first
/// `TABLE_LINES` lines count, in any order, and each length from 1 to `LONGEST_LENGTH` must be met by exactly one of them.
/// Refusals: 253 over `MOST_LENGTHS` lengths, 17, 18, 5 with the place in the list, 9.
pub fn needs(table: &[NeedLine], lengths: &[u32], needs: &mut [u32]) -> Result<usize, Refused> {
    let mut answer = [0; 1];
    let (line, numbers) = (table.as_ptr().cast(), table.len() * 3);
    let (at, length) = (needs.as_mut_ptr(), needs.len());
    told(unsafe {
        raw::hbr_needs(
            line,
            numbers,
            lengths.as_ptr(),
            lengths.len(),
            at,
            length,
            answer.as_mut_ptr(),
            answer.len(),
        )
    })?;
    Ok(answer[0] as usize)
}

/// Writes the order file of an order; its length. Refusals: 1 to 6, 13, 7, 9.
pub fn write(memories: &[u32], jobs: &[Job], file: &mut [u8]) -> Result<usize, Refused> {
    let mut answer = [0; 1];
    let (job, numbers) = (jobs.as_ptr().cast(), jobs.len() * 4);
    let (at, length) = (file.as_mut_ptr(), file.len());
    told(unsafe {
        raw::hbr_write(
            memories.as_ptr(),
            memories.len(),
            job,
            numbers,
            at,
            length,
            answer.as_mut_ptr(),
            answer.len(),
        )
    })?;
    Ok(answer[0] as usize)
}

/// Who calls: a dock, or a screen, which holds `SCREEN_PROCESSORS` processors and `SCREEN_JOBS` jobs. An order within these gets the
/// same reply from either. Over them a screen refuses: 21 stands where a dock has 2 and 20 where it has 4, so 12, 1, 21, 3, 20, 5,
/// 6, 13, 7 and what follows. The functions above are a dock's.
#[derive(Clone, Copy, Debug, PartialEq, Eq)]
pub enum Caller {
    Dock,
    Screen,
}

impl Caller {
    /// `judge` by this caller's limits.
    pub fn judge(self, file: &[u8]) -> Result<Sizes, Refused> {
        let call = match self {
            Caller::Dock => raw::hbr_judge,
            Caller::Screen => raw::hbr_screen_judge,
        };
        let mut answer = [0; 3];
        told(unsafe { call(file.as_ptr(), file.len(), answer.as_mut_ptr(), answer.len()) })?;
        let [processors, jobs, rows] = answer.map(|n| n as usize);
        Ok(Sizes {
            processors,
            jobs,
            rows,
        })
    }

    /// `least` by this caller's limits.
    pub fn least(self, file: &[u8], rows: &mut [Row]) -> Result<Least, Refused> {
        let call = match self {
            Caller::Dock => raw::hbr_least,
            Caller::Screen => raw::hbr_screen_least,
        };
        let mut answer = [0; 2];
        let (at, length) = (rows.as_mut_ptr().cast(), rows.len() * 4);
        told(unsafe {
            call(
                file.as_ptr(),
                file.len(),
                at,
                length,
                answer.as_mut_ptr(),
                answer.len(),
            )
        })?;
        Ok(Least {
            lateness: answer[0],
            rows: answer[1] as usize,
        })
    }

    /// `plan` by this caller's limits.
    pub fn plan(self, file: &[u8], bound: i32, rows: &mut [Row]) -> Result<usize, Refused> {
        let call = match self {
            Caller::Dock => raw::hbr_plan,
            Caller::Screen => raw::hbr_screen_plan,
        };
        let mut answer = [0; 1];
        let (at, length) = (rows.as_mut_ptr().cast(), rows.len() * 4);
        told(unsafe {
            call(
                file.as_ptr(),
                file.len(),
                bound,
                at,
                length,
                answer.as_mut_ptr(),
                answer.len(),
            )
        })?;
        Ok(answer[0] as usize)
    }

    /// `reason` by this caller's limits.
    pub fn reason(self, file: &[u8], bound: i32) -> Result<Option<Reason>, Refused> {
        let call = match self {
            Caller::Dock => raw::hbr_reason,
            Caller::Screen => raw::hbr_screen_reason,
        };
        let mut answer = [0; 19];
        told(unsafe {
            call(
                file.as_ptr(),
                file.len(),
                bound,
                answer.as_mut_ptr(),
                answer.len(),
            )
        })?;
        Ok(Reason::of(&answer))
    }

    /// `sentence` by this caller's limits.
    pub fn sentence<'a>(
        self,
        file: &[u8],
        bound: i32,
        reason: &Reason,
        line: &'a mut [u8],
    ) -> Result<&'a str, Refused> {
        let call = match self {
            Caller::Dock => raw::hbr_sentence,
            Caller::Screen => raw::hbr_screen_sentence,
        };
        let (reason, mut answer) = (reason.numbers(), [0; 1]);
        let (at, length) = (line.as_mut_ptr(), line.len());
        told(unsafe {
            call(
                file.as_ptr(),
                file.len(),
                bound,
                reason.as_ptr(),
                reason.len(),
                at,
                length,
                answer.as_mut_ptr(),
                answer.len(),
            )
        })?;
        let written = &line[..answer[0] as usize];
        Ok(core::str::from_utf8(written).expect("a line is ASCII"))
    }

    /// `check` by this caller's limits.
    pub fn check(self, file: &[u8], bound: i32, rows: &[Row]) -> Result<bool, Refused> {
        let call = match self {
            Caller::Dock => raw::hbr_check,
            Caller::Screen => raw::hbr_screen_check,
        };
        let mut answer = [0; 1];
        let (at, length) = (rows.as_ptr().cast(), rows.len() * 4);
        told(unsafe {
            call(
                file.as_ptr(),
                file.len(),
                bound,
                at,
                length,
                answer.as_mut_ptr(),
                answer.len(),
            )
        })?;
        Ok(answer[0] == 1)
    }
}

/// A register block: 256 bytes as a bus has them, and the rows of its last plan behind them. From a cleared one on, `read` and `write`
/// do what the table of `docs/LINKING.md` says. A refused command is told by bytes 1 and 2.
#[derive(Clone, Copy, Debug, PartialEq, Eq)]
pub struct Block {
    bytes: [u8; BLOCK_BYTES],
    /// four numbers to a row, zeros behind them
    rows: [u32; BLOCK_ROWS],
}

impl Block {
    /// A cleared block: every byte reads 0, and no row is held.
    pub fn cleared() -> Block {
        let mut block = Block {
            bytes: [0; BLOCK_BYTES],
            rows: [0; BLOCK_ROWS],
        };
        told(unsafe {
            raw::hbr_block_clear(
                block.bytes.as_mut_ptr(),
                block.bytes.len(),
                block.rows.as_mut_ptr(),
                block.rows.len(),
            )
        })
        .expect("a block is long enough");
        block
    }

    /// The byte at an address. Nothing changes.
    pub fn read(&self, address: u8) -> u8 {
        let mut answer = [0; 1];
        told(unsafe {
            raw::hbr_block_read(
                self.bytes.as_ptr(),
                self.bytes.len(),
                self.rows.as_ptr(),
                self.rows.len(),
                address,
                answer.as_mut_ptr(),
                answer.len(),
            )
        })
        .expect("a block is long enough");
        answer[0] as u8
    }

    /// Writes a byte; at address 0 it is a command, which is over when this returns.
    pub fn write(&mut self, address: u8, value: u8) {
        told(unsafe {
            raw::hbr_block_write(
                self.bytes.as_mut_ptr(),
                self.bytes.len(),
                self.rows.as_mut_ptr(),
                self.rows.len(),
                address,
                value,
            )
        })
        .expect("a block is long enough");
    }
}
