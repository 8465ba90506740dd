//! Puts calls before a library one by one, compares each with what it had to do, what a screen is told also
//! with what the dock is and what a block holds with what a screen is told, and stops at the first difference,
//! with all that is needed to see it again.

mod block;

use crate::compare::{unequal, wrong};
use crate::draw::Random;
use crate::expect::{expected, Expected, Known};
use crate::independent::{joins_over, lists, stretches, timed_stretches, DOCK, SCREEN};
use crate::lent::{rows_of, Call};
use crate::library::{Function, Library};
use crate::tally::Tally;
use std::fmt::Debug;

const LONG: usize = 4_000;

pub struct Trial {
    library: Library,
    known: Known,
    part: &'static str,
    seed: u64,
    pub random: Random,
    pub tally: Tally,
    pub difference: Option<String>,
}

impl Trial {
    pub fn of(library: Library) -> Trial {
        Trial {
            library,
            known: Known::of(&DOCK, &[]),
            part: "",
            seed: 0,
            random: Random::new(0),
            tally: Tally::default(),
            difference: None,
        }
    }

    /// Begins a round: all that it draws comes from this seed.
    pub fn begin(&mut self, part: &'static str, seed: u64) {
        self.part = part;
        self.seed = seed;
        let letters = part.bytes().map(u64::from);
        let start = letters.fold(seed, |start, letter| start.wrapping_mul(257) ^ letter);
        self.random = Random::new(start);
    }

    /// The least lateness of an accepted file.
    pub fn least(&mut self, file: &[u8]) -> i32 {
        self.known.turn_to(&DOCK, file);
        self.known.least()
    }

    /// Makes one call and answers its result and what it left; none once a difference was found.
    pub fn call(&mut self, function: Function, call: Call) -> Option<(u32, Call)> {
        if self.difference.is_some() {
            return None;
        }
        let expected = expected(function, &call, &mut self.known);
        self.tally.count(function, &expected);
        let mut after = call.clone();
        let result = self.library.entry(function)(&mut after);
        let order = || self.known.order().clone();
        if let Some(wrong) = wrong(&expected, order, &call, &after, result) {
            let (name, part, seed) = (function.name(), self.part, self.seed);
            let lines = [
                format!("{name} differs in part {part}, seed {seed}: {wrong}"),
                format!("expected: {}", shown(&expected)),
                told("lent", &call),
                told("left", &after),
            ];
            self.difference = Some(lines.join("\n"));
            return None;
        }
        self.count_joins(function, &expected, &after);
        if let Expected::Block {
            outcome: Some(outcome),
            ..
        } = expected
        {
            self.held_as_told(outcome, &after)?;
        }
        Some((result, after))
    }

    /// Makes one call from the dock and from a screen, lent the same. "An order within the screen's limits
    /// gets the dock's own reply from either caller": the amounts, free to the dock, are not to a screen.
    pub fn call_from_both(
        &mut self,
        [dock, screen]: [Function; 2],
        call: Call,
    ) -> Option<[(u32, Call); 2]> {
        let own = self.call(dock, call.clone())?;
        let reply = self.call(screen, call)?;
        let over = lists(own.1.file.content()).is_some_and(|order| !SCREEN.hold(&order));
        let differs = match own.0 == reply.0 {
            true => unequal(&own.1, &reply.1),
            false => Some(format!("result {}, not {}", reply.0, own.0)),
        };
        self.tally.count_replies(screen, over);
        match differs {
            Some(differs) if !over => {
                let (name, part, seed) = (screen.name(), self.part, self.seed);
                let lines = [
                    format!("{name} is not the dock's in part {part}, seed {seed}: {differs}"),
                    told("left by the dock's", &own.1),
                    told("left", &reply.1),
                ];
                self.difference = Some(lines.join("\n"));
                None
            }
            _ => Some([own, reply]),
        }
    }

    /// Counts the joins of a plan that was written.
    fn count_joins(&mut self, function: Function, expected: &Expected, after: &Call) {
        if let Expected::Plan {
            bound,
            times,
            lateness,
            ..
        } = expected
        {
            let count = after.answer.content()[usize::from(lateness.is_some())] as usize;
            let rows = rows_of(&after.rows.content()[..4 * count]);
            let (order, bound) = (self.known.order(), i64::from(*bound));
            let stretches = match times {
                None => stretches(order, bound),
                Some(times) => timed_stretches(order, times, bound),
            };
            self.tally
                .count_joins(function, joins_over(&stretches, &rows));
        }
    }

    /// Notes a difference from a value that the documents themselves give.
    pub fn differs(&mut self, told: String) {
        self.difference.get_or_insert(told);
    }
}

/// What a call was lent, or what it left.
fn told(what: &str, call: &Call) -> String {
    let buffers = [
        ("file", call.file.len(), shown(&call.file.content())),
        (
            "memories",
            call.memories.len(),
            shown(&call.memories.content()),
        ),
        ("jobs", call.jobs.len(), shown(&call.jobs.content())),
        (
            "classes",
            call.classes.len(),
            shown(&call.classes.content()),
        ),
        ("ready", call.ready.len(), shown(&call.ready.content())),
        (
            "windows",
            call.windows.len(),
            shown(&call.windows.content()),
        ),
        ("rows", call.rows.len(), shown(&call.rows.content())),
        ("book", call.book.len(), shown(&call.book.content())),
        ("reason", call.reason.len(), shown(&call.reason.content())),
        ("line", call.line.len(), shown(&text(call.line.content()))),
        ("table", call.table.len(), shown(&call.table.content())),
        (
            "lengths",
            call.lengths.len(),
            shown(&beginning(call.lengths.content())),
        ),
        (
            "needs",
            call.needs.len(),
            shown(&beginning(call.needs.content())),
        ),
        ("highs", call.highs.len(), shown(&call.highs.content())),
        ("order", call.order.len(), shown(&call.order.content())),
        ("block", call.block.len(), shown(&call.block.content())),
        ("answer", call.answer.len(), shown(&call.answer.content())),
    ];
    let line = |(name, length, content)| format!("\n  {name}, length {length}: {content}");
    let (bound, number) = (call.bound, call.number);
    let (address, value) = (call.address, call.value);
    let buffers = buffers.map(line).concat();
    format!("{what}: bound {bound}, number {number}, address {address}, value {value}{buffers}")
}

fn text(line: &[u8]) -> String {
    String::from_utf8_lossy(line).into_owned()
}

/// As many numbers of a list as can be shown, and no millions.
fn beginning(list: &[u32]) -> &[u32] {
    &list[..list.len().min(LONG)]
}

/// A value as text, cut where it is very long.
fn shown(value: &impl Debug) -> String {
    let text = format!("{value:?}");
    match text.char_indices().nth(LONG) {
        Some((at, _)) => format!("{} ..", &text[..at]),
        None => text,
    }
}
