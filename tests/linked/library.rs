//! The twenty-six functions of the header: what they are called, how long their answers are, which
//! refusals each can give, by whose limits each judges, and a library as twenty-six entries of one form.

use crate::independent::{Limits, DOCK, SCREEN};
use crate::lent::Call;

#[derive(Clone, Copy, Debug, PartialEq)]
pub enum Function {
    Judge,
    Classes,
    Least,
    Plan,
    BookLeast,
    BookPlan,
    Reason,
    Sentence,
    Parse,
    Check,
    TimedRows,
    TimedPlan,
    TimedCheck,
    Needs,
    Between,
    BetweenOrder,
    Write,
    ScreenJudge,
    ScreenLeast,
    ScreenPlan,
    ScreenReason,
    ScreenSentence,
    ScreenCheck,
    BlockClear,
    BlockWrite,
    BlockRead,
}

pub const FUNCTIONS: [Function; 26] = [
    Function::Judge,
    Function::Classes,
    Function::Least,
    Function::Plan,
    Function::BookLeast,
    Function::BookPlan,
    Function::Reason,
    Function::Sentence,
    Function::Parse,
    Function::Check,
    Function::TimedRows,
    Function::TimedPlan,
    Function::TimedCheck,
    Function::Needs,
    Function::Between,
    Function::BetweenOrder,
    Function::Write,
    Function::ScreenJudge,
    Function::ScreenLeast,
    Function::ScreenPlan,
    Function::ScreenReason,
    Function::ScreenSentence,
    Function::ScreenCheck,
    Function::BlockClear,
    Function::BlockWrite,
    Function::BlockRead,
];

/// Those of the dock that read an order file.
pub const READERS: [Function; 15] = [
    Function::Judge,
    Function::Classes,
    Function::Least,
    Function::Plan,
    Function::BookLeast,
    Function::BookPlan,
    Function::Reason,
    Function::Sentence,
    Function::Parse,
    Function::Check,
    Function::TimedRows,
    Function::TimedPlan,
    Function::TimedCheck,
    Function::Between,
    Function::BetweenOrder,
];

/// Those that take ready minutes and windows.
pub const TIMED: [Function; 3] = [
    Function::TimedRows,
    Function::TimedPlan,
    Function::TimedCheck,
];

/// Those that take highs.
pub const ESTIMATED: [Function; 2] = [Function::Between, Function::BetweenOrder];

/// What both callers have: a function of the dock, and the screen's that takes and answers the same.
pub const BOTH: [[Function; 2]; 6] = [
    [Function::Judge, Function::ScreenJudge],
    [Function::Least, Function::ScreenLeast],
    [Function::Plan, Function::ScreenPlan],
    [Function::Reason, Function::ScreenReason],
    [Function::Sentence, Function::ScreenSentence],
    [Function::Check, Function::ScreenCheck],
];

/// Those that take a register block.
pub const OF_BLOCK: [Function; 3] = [
    Function::BlockClear,
    Function::BlockWrite,
    Function::BlockRead,
];

/// The numbers of a reason.
pub const REASON_NUMBERS: usize = 19;

/// The numbers that a list of classes must have: two to each of 16.
pub const CLASS_NUMBERS: usize = 32;

/// The bytes of a register block, and the numbers of the rows that it holds, 180 rows of four.
pub const BLOCK_BYTES: usize = 256;
pub const BLOCK_ROWS: usize = 720;

/// The most lengths of a list: a result has no room for a later place.
pub const MOST_LENGTHS: usize = 16_777_215;

impl Function {
    pub fn name(self) -> &'static str {
        match self {
            Function::Judge => "hbr_judge",
            Function::Classes => "hbr_classes",
            Function::Least => "hbr_least",
            Function::Plan => "hbr_plan",
            Function::BookLeast => "hbr_book_least",
            Function::BookPlan => "hbr_book_plan",
            Function::Reason => "hbr_reason",
            Function::Sentence => "hbr_sentence",
            Function::Parse => "hbr_parse",
            Function::Check => "hbr_check",
            Function::TimedRows => "hbr_timed_rows",
            Function::TimedPlan => "hbr_timed_plan",
            Function::TimedCheck => "hbr_timed_check",
            Function::Needs => "hbr_needs",
            Function::Between => "hbr_between",
            Function::BetweenOrder => "hbr_between_order",
            Function::Write => "hbr_write",
            Function::ScreenJudge => "hbr_screen_judge",
            Function::ScreenLeast => "hbr_screen_least",
            Function::ScreenPlan => "hbr_screen_plan",
            Function::ScreenReason => "hbr_screen_reason",
            Function::ScreenSentence => "hbr_screen_sentence",
            Function::ScreenCheck => "hbr_screen_check",
            Function::BlockClear => "hbr_block_clear",
            Function::BlockWrite => "hbr_block_write",
            Function::BlockRead => "hbr_block_read",
        }
    }

    /// The dock's function that takes and answers the same.
    pub fn at_dock(self) -> Function {
        let both = BOTH.iter().find(|[_, screen]| *screen == self);
        both.map_or(self, |[dock, _]| *dock)
    }

    /// The limits of its caller: "the limit belongs to the call". A block's file is "judged as a screen order".
    pub fn limits(self) -> &'static Limits {
        match self.at_dock() == self && !self.takes_block() {
            true => &DOCK,
            false => &SCREEN,
        }
    }

    /// The header's HBR_.._ANSWER.
    pub fn answer_length(self) -> usize {
        match self.at_dock() {
            Function::Judge => 3,
            Function::Least | Function::BookLeast | Function::Between => 2,
            Function::Reason | Function::Parse => REASON_NUMBERS,
            Function::BlockClear | Function::BlockWrite => 0,
            _ => 1,
        }
    }

    /// The refusals that the header names for it.
    pub fn refusals(self) -> &'static [u32] {
        match self {
            Function::Judge => &[1, 2, 3, 4, 5, 6, 13, 7, 12, 255],
            Function::Classes => &[1, 2, 3, 4, 5, 6, 13, 7, 12, 253, 255],
            Function::Least => &[1, 2, 3, 4, 5, 6, 13, 7, 9, 12, 255],
            Function::Plan => &[1, 2, 3, 4, 5, 6, 13, 7, 8, 9, 10, 12, 255],
            Function::BookLeast => &[1, 2, 3, 4, 5, 6, 13, 7, 9, 14, 12, 253, 255],
            Function::BookPlan => &[1, 2, 3, 4, 5, 6, 13, 7, 8, 9, 10, 14, 12, 253, 255],
            Function::Reason | Function::Parse => &[1, 2, 3, 4, 5, 6, 13, 7, 8, 12, 255],
            Function::Sentence => &[1, 2, 3, 4, 5, 6, 13, 7, 8, 9, 12, 253, 255],
            Function::Check => &[1, 2, 3, 4, 5, 6, 13, 7, 8, 11, 12, 255],
            Function::TimedRows => &[1, 2, 3, 4, 5, 6, 13, 7, 15, 16, 8, 12, 253, 255],
            Function::TimedPlan => &[1, 2, 3, 4, 5, 6, 13, 7, 15, 16, 8, 9, 10, 12, 253, 255],
            Function::TimedCheck => &[1, 2, 3, 4, 5, 6, 13, 7, 15, 16, 8, 11, 12, 253, 255],
            Function::Needs => &[17, 18, 5, 9, 253, 255],
            Function::Between => &[1, 2, 3, 4, 5, 6, 13, 19, 7, 12, 253, 255],
            Function::BetweenOrder => &[1, 2, 3, 4, 5, 6, 13, 19, 7, 9, 12, 253, 255],
            Function::Write => &[1, 2, 3, 4, 5, 6, 13, 7, 9, 254, 255],
            Function::ScreenJudge => &[1, 21, 3, 20, 5, 6, 13, 7, 12, 255],
            Function::ScreenLeast => &[1, 21, 3, 20, 5, 6, 13, 7, 9, 12, 255],
            Function::ScreenPlan => &[1, 21, 3, 20, 5, 6, 13, 7, 8, 9, 10, 12, 255],
            Function::ScreenReason => &[1, 21, 3, 20, 5, 6, 13, 7, 8, 12, 255],
            Function::ScreenSentence => &[1, 21, 3, 20, 5, 6, 13, 7, 8, 9, 12, 253, 255],
            Function::ScreenCheck => &[1, 21, 3, 20, 5, 6, 13, 7, 8, 11, 12, 255],
            Function::BlockClear | Function::BlockWrite => &[253],
            Function::BlockRead => &[253, 255],
        }
    }

    /// Whether it writes rows: then a short buffer is refused.
    pub fn plans(self) -> bool {
        let plans = [Function::Least, Function::Plan, Function::TimedPlan];
        self.books() || plans.contains(&self.at_dock())
    }

    /// Whether rows are joined in what it leaves: those of a plan, or those that a block holds.
    pub fn joins(self) -> bool {
        self.plans() || self == Function::BlockWrite
    }

    /// Whether it takes ready minutes and windows: then lists of a wrong length are refused.
    pub fn takes_times(self) -> bool {
        TIMED.contains(&self)
    }

    /// Whether it takes a register block: then one of too few bytes or with room for too few rows is refused.
    pub fn takes_block(self) -> bool {
        OF_BLOCK.contains(&self)
    }

    /// Whether it takes highs: then a list of a wrong length is refused.
    pub fn takes_highs(self) -> bool {
        ESTIMATED.contains(&self)
    }

    /// Whether it books what it plans: then a short book and a full one are refused.
    pub fn books(self) -> bool {
        matches!(self, Function::BookLeast | Function::BookPlan)
    }

    /// Whether it plans at the least lateness, which it answers before the row count.
    pub fn finds_least(self) -> bool {
        matches!(self.at_dock(), Function::Least | Function::BookLeast)
    }

    /// Whether it writes or reads a line.
    pub fn takes_line(self) -> bool {
        matches!(self.at_dock(), Function::Sentence | Function::Parse)
    }

    pub fn takes_bound(self) -> bool {
        let without = [
            Function::Judge,
            Function::Classes,
            Function::Needs,
            Function::Write,
        ];
        let other = self.finds_least() || self.takes_highs() || self.takes_block();
        !other && !without.contains(&self.at_dock())
    }
}

/// Takes what is lent, answers the result: refusal + 256 × job.
pub type Entry = fn(&mut Call) -> u32;

#[derive(Clone, Copy)]
pub struct Library {
    pub judge: Entry,
    pub classes: Entry,
    pub least: Entry,
    pub plan: Entry,
    pub book_least: Entry,
    pub book_plan: Entry,
    pub reason: Entry,
    pub sentence: Entry,
    pub parse: Entry,
    pub check: Entry,
    pub timed_rows: Entry,
    pub timed_plan: Entry,
    pub timed_check: Entry,
    pub needs: Entry,
    pub between: Entry,
    pub between_order: Entry,
    pub write: Entry,
    pub screen_judge: Entry,
    pub screen_least: Entry,
    pub screen_plan: Entry,
    pub screen_reason: Entry,
    pub screen_sentence: Entry,
    pub screen_check: Entry,
    pub block_clear: Entry,
    pub block_write: Entry,
    pub block_read: Entry,
}

impl Library {
    pub fn entry(&self, function: Function) -> Entry {
        match function {
            Function::Judge => self.judge,
            Function::Classes => self.classes,
            Function::Least => self.least,
            Function::Plan => self.plan,
            Function::BookLeast => self.book_least,
            Function::BookPlan => self.book_plan,
            Function::Reason => self.reason,
            Function::Sentence => self.sentence,
            Function::Parse => self.parse,
            Function::Check => self.check,
            Function::TimedRows => self.timed_rows,
            Function::TimedPlan => self.timed_plan,
            Function::TimedCheck => self.timed_check,
            Function::Needs => self.needs,
            Function::Between => self.between,
            Function::BetweenOrder => self.between_order,
            Function::Write => self.write,
            Function::ScreenJudge => self.screen_judge,
            Function::ScreenLeast => self.screen_least,
            Function::ScreenPlan => self.screen_plan,
            Function::ScreenReason => self.screen_reason,
            Function::ScreenSentence => self.screen_sentence,
            Function::ScreenCheck => self.screen_check,
            Function::BlockClear => self.block_clear,
            Function::BlockWrite => self.block_write,
            Function::BlockRead => self.block_read,
        }
    }

    /// The same library but for one function.
    pub fn with(mut self, function: Function, entry: Entry) -> Library {
        let place = match function {
            Function::Judge => &mut self.judge,
            Function::Classes => &mut self.classes,
            Function::Least => &mut self.least,
            Function::Plan => &mut self.plan,
            Function::BookLeast => &mut self.book_least,
            Function::BookPlan => &mut self.book_plan,
            Function::Reason => &mut self.reason,
            Function::Sentence => &mut self.sentence,
            Function::Parse => &mut self.parse,
            Function::Check => &mut self.check,
            Function::TimedRows => &mut self.timed_rows,
            Function::TimedPlan => &mut self.timed_plan,
            Function::TimedCheck => &mut self.timed_check,
            Function::Needs => &mut self.needs,
            Function::Between => &mut self.between,
            Function::BetweenOrder => &mut self.between_order,
            Function::Write => &mut self.write,
            Function::ScreenJudge => &mut self.screen_judge,
            Function::ScreenLeast => &mut self.screen_least,
            Function::ScreenPlan => &mut self.screen_plan,
            Function::ScreenReason => &mut self.screen_reason,
            Function::ScreenSentence => &mut self.screen_sentence,
            Function::ScreenCheck => &mut self.screen_check,
            Function::BlockClear => &mut self.block_clear,
            Function::BlockWrite => &mut self.block_write,
            Function::BlockRead => &mut self.block_read,
        };
        *place = entry;
        self
    }
}
