//! Counts the calls by function and by what they had to do, so that a reader sees that every
//! refusal and every kind of answer was met; the joins of the plans that were written; the books that
//! went through many calls; the orders between lows and highs that were planned; the replies to a screen
//! beside the dock's; and what the commands of a block came to.

mod block;

use crate::expect::Expected;
use crate::library::{Function, BOTH, FUNCTIONS};
use block::{kind_of_command, COMMANDS};
use std::collections::BTreeMap;

/// The kinds of answers that each function must have given.
fn kinds(function: Function) -> &'static [&'static str] {
    match function.at_dock() {
        Function::Classes => &["one class", "several", "16 classes"],
        Function::Reason | Function::Parse => &["none", "job", "level stairs", "falling stairs"],
        Function::Sentence => &["empty", "job", "stairs"],
        Function::Check | Function::TimedCheck => &["yes", "no"],
        Function::Needs => &["of no length", "of up to 48", "of more"],
        Function::Between => &["equal", "apart"],
        Function::BetweenOrder => &["met", "none met"],
        Function::BlockClear => &["cleared"],
        Function::BlockWrite => COMMANDS,
        Function::BlockRead => &["read"],
        _ => &["answered"],
    }
}

#[derive(Default)]
pub struct Tally {
    pub calls: u64,
    counts: BTreeMap<(&'static str, String), u64>,
    joined: BTreeMap<&'static str, Joined>,
    opened: Sequences,
    drawn: Sequences,
    between: Between,
    replies: BTreeMap<&'static str, Replies>,
}

/// How many plans had a join, and how many joins there were in all.
#[derive(Clone, Copy, Default)]
struct Joined {
    plans: u64,
    joins: u64,
}

/// Books that went through calls, and how many of these calls wrote a plan with them.
#[derive(Clone, Copy, Default)]
struct Sequences {
    books: u64,
    calls: u64,
    plans: u64,
}

/// Orders with times between lows and highs that hbr_least planned: of drawn times, and those that
/// hbr_between_order wrote.
#[derive(Clone, Copy, Default)]
struct Between {
    drawn: u64,
    written: u64,
}

/// Replies to a screen beside the dock's, of orders within the screen's limits, which are equal, and of others.
#[derive(Clone, Copy, Default)]
struct Replies {
    within: u64,
    over: u64,
}

impl Tally {
    pub fn count(&mut self, function: Function, expected: &Expected) {
        self.calls += 1;
        let outcome = match expected {
            Expected::Refused(refusal) => refusal.number.to_string(),
            Expected::Answer(numbers) => kind(function, numbers).to_string(),
            Expected::Classes(classes) => kind_of_classes(classes.len()).to_string(),
            Expected::Line(line) => kind_of_line(line).to_string(),
            Expected::Needs(needs) => kind_of_needs(needs.len()).to_string(),
            Expected::Order(bytes) => kind_of_order(bytes).to_string(),
            Expected::Block { outcome, .. } => kind_of_command(*outcome),
            _ => "answered".to_string(),
        };
        *self.counts.entry((function.name(), outcome)).or_insert(0) += 1;
    }

    /// Counts a plan that was written with so many joins.
    pub fn count_joins(&mut self, function: Function, joins: usize) {
        let joined = self.joined.entry(function.name()).or_default();
        joined.plans += u64::from(joins > 0);
        joined.joins += joins as u64;
    }

    /// Counts a book, from opening on or not, that so many calls were given and so many plans were
    /// written with.
    pub fn count_sequence(&mut self, opened: bool, calls: usize, plans: usize) {
        let sequences = match opened {
            true => &mut self.opened,
            false => &mut self.drawn,
        };
        sequences.books += 1;
        sequences.calls += calls as u64;
        sequences.plans += plans as u64;
    }

    /// Counts an order with times between lows and highs that was planned, written by the library or not.
    pub fn count_between(&mut self, written: bool) {
        match written {
            true => self.between.written += 1,
            false => self.between.drawn += 1,
        }
    }

    /// Counts a reply to a screen beside the dock's, of an order that is over the screen's limits or not.
    pub fn count_replies(&mut self, function: Function, over: bool) {
        let replies = self.replies.entry(function.name()).or_default();
        match over {
            true => replies.over += 1,
            false => replies.within += 1,
        }
    }

    fn joined(&self, function: Function) -> Joined {
        let joined = self.joined.get(function.name());
        joined.copied().unwrap_or_default()
    }

    fn times(&self, function: Function, outcome: &str) -> u64 {
        let key = (function.name(), outcome.to_string());
        self.counts.get(&key).copied().unwrap_or(0)
    }

    fn replies(&self, function: Function) -> Replies {
        let replies = self.replies.get(function.name());
        replies.copied().unwrap_or_default()
    }

    /// A line for each function, one for the books, one for the orders between lows and highs, and one for the
    /// replies to a screen.
    pub fn lines(&self) -> Vec<String> {
        let functions = FUNCTIONS.iter().map(|function| self.line(*function));
        let told = |sequences: Sequences, from: &str| {
            let Sequences {
                books,
                calls,
                plans,
            } = sequences;
            format!("{books} {from}, {plans} plans written in {calls} calls")
        };
        let opened = told(self.opened, "from opening on");
        let drawn = told(self.drawn, "from drawn counts on");
        let books = format!("books through many calls: {opened}; {drawn}");
        let Between { drawn, written } = self.between;
        let between =
            format!("between lows and highs: {drawn} drawn, {written} written, all planned");
        let replies = BOTH.map(|[_, screen]| self.replies(screen));
        let within: u64 = replies.iter().map(|of_one| of_one.within).sum();
        let over: u64 = replies.iter().map(|of_one| of_one.over).sum();
        let screen =
            format!("from both callers: {within} replies equal, {over} over the screen's limits");
        functions.chain([books, between, screen]).collect()
    }

    fn line(&self, function: Function) -> String {
        let answered = kinds(function).iter().map(|kind| {
            let times = self.times(function, kind);
            format!("{times} {kind}")
        });
        let refused = function.refusals().iter().map(|number| {
            let times = self.times(function, &number.to_string());
            format!("{number}: {times}")
        });
        let refused: Vec<String> = refused.collect();
        let mut answered: Vec<String> = answered.collect();
        if function.joins() {
            let Joined { plans, joins } = self.joined(function);
            answered.push(format!("{plans} of these with {joins} joins"));
        }
        let (answered, refused) = (answered.join(", "), refused.join(", "));
        let all: u64 = self.of(function);
        format!(
            "{:<19} {all} calls; {answered}; refused {refused}",
            function.name()
        )
    }

    fn of(&self, function: Function) -> u64 {
        let own = self
            .counts
            .iter()
            .filter(|((name, _), _)| *name == function.name());
        own.map(|(_, times)| times).sum()
    }

    /// What was counted of a function and is neither a kind nor a refusal of it.
    pub fn never_named(&self) -> Vec<String> {
        let mut unnamed = Vec::new();
        for function in FUNCTIONS {
            let own = self.counts.keys().filter(|key| key.0 == function.name());
            let refusals: Vec<String> = function.refusals().iter().map(u32::to_string).collect();
            let named = |what: &str| {
                kinds(function).contains(&what) || refusals.iter().any(|number| number == what)
            };
            let unknown = own.filter(|(_, what)| !named(what));
            unnamed.extend(unknown.map(|(name, what)| format!("{name}: {what}")));
        }
        unnamed
    }

    /// What a function can answer and never had to.
    pub fn never_met(&self) -> Vec<String> {
        let mut never = Vec::new();
        for function in FUNCTIONS {
            let refusals = function.refusals().iter().map(u32::to_string);
            let kinds = kinds(function).iter().map(|kind| kind.to_string());
            let unmet = refusals
                .chain(kinds)
                .filter(|what| self.times(function, what) == 0);
            never.extend(unmet.map(|what| format!("{}: {what}", function.name())));
            if function.joins() && self.joined(function).plans == 0 {
                never.push(format!("{}: a join", function.name()));
            }
        }
        for (sequences, from) in [(self.opened, "opening"), (self.drawn, "drawn counts")] {
            if sequences.plans == 0 {
                never.push(format!("a plan with a book from {from} on"));
            }
        }
        if self.between.drawn == 0 || self.between.written == 0 {
            never.push("a plan between lows and highs".to_string());
        }
        for [_, screen] in BOTH {
            let Replies { within, over } = self.replies(screen);
            if within == 0 || over == 0 {
                never.push(format!("{} beside the dock's", screen.name()));
            }
        }
        never
    }
}

/// The kind of an answer. Stairs whose times fall are told apart: only they show more than sums at
/// one common time do.
fn kind(function: Function, numbers: &[i32]) -> &'static str {
    match (function.at_dock(), numbers[0]) {
        (Function::Check | Function::TimedCheck, 0) => "no",
        (Function::Check | Function::TimedCheck, _) => "yes",
        (Function::BlockRead, _) => "read",
        (Function::Between, at_lows) if numbers[1] == at_lows => "equal",
        (Function::Between, _) => "apart",
        (Function::Reason | Function::Parse, 0) => "none",
        (Function::Reason | Function::Parse, 1) => "job",
        (Function::Reason | Function::Parse, _) => {
            let dues = &numbers[3..3 + numbers[1] as usize];
            let level = dues.iter().all(|due| *due == dues[0]);
            if level {
                "level stairs"
            } else {
                "falling stairs"
            }
        }
        _ => "answered",
    }
}

fn kind_of_classes(count: usize) -> &'static str {
    match count {
        1 => "one class",
        16 => "16 classes",
        _ => "several",
    }
}

/// A list may be longer than any order's.
fn kind_of_needs(count: usize) -> &'static str {
    match count {
        0 => "of no length",
        1..=48 => "of up to 48",
        _ => "of more",
    }
}

fn kind_of_order(bytes: &[u8]) -> &'static str {
    match bytes {
        [] => "none met",
        _ => "met",
    }
}

fn kind_of_line(line: &str) -> &'static str {
    match line.as_bytes().first() {
        None => "empty",
        Some(b'j') => "job",
        Some(_) => "stairs",
    }
}
