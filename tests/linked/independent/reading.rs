//! "Each line composed for a reason reads back to that reason alone at a given order and bound, any
//! other line to none." Where an order has few staircases the line is looked for among all that
//! compose; else it is taken apart by its words, and each number in it held against the order.

use super::classes::Classes;
use super::reasons::staircases;
use super::sentence::{line_of, minutes, standing, stands};
use super::{Order, Reason};

const FEW: usize = 60;

/// The reason of a line, of an accepted order.
pub fn read_back(order: &Order, bound: i32, line: &[u8]) -> Option<Reason> {
    if staircases(order) <= FEW {
        read_by_trying(order, bound, line)
    } else {
        read_by_form(order, bound, line)
    }
}

/// The reason of a line, by the lines of all reasons.
pub fn read_by_trying(order: &Order, bound: i32, line: &[u8]) -> Option<Reason> {
    let mut all = standing(order, bound).into_iter();
    all.find(|reason| line_of(order, bound, reason).as_bytes() == line)
}

/// The reason of a line, taken apart.
pub fn read_by_form(order: &Order, bound: i32, line: &[u8]) -> Option<Reason> {
    true_of(order, bound, &taken_apart(line)?)
}

/// What a line says by its words alone, of whatever order.
#[derive(Clone, Debug, PartialEq)]
pub struct Sentence {
    pub said: Said,
    pub owed: i64,
    pub on_hand: i64,
}

#[derive(Clone, Debug, PartialEq)]
pub enum Said {
    Job {
        job: i64,
        time: i64,
        end: i64,
    },
    /// The memory and the due time of each class.
    Stairs(Vec<(i64, i64)>),
}

/// The reason that a sentence tells, if it stands and every number is the right one.
pub fn true_of(order: &Order, bound: i32, sentence: &Sentence) -> Option<Reason> {
    let reason = match &sentence.said {
        Said::Job { job, time, end } => {
            let job = u32::try_from(*job).ok()?;
            let time = u32::try_from(*time).ok()?;
            let own = order.jobs.get((job as usize).checked_sub(1)?)?;
            (own.end(bound.into()) == *end).then_some(Reason::Job { job, time })?
        }
        Said::Stairs(steps) => {
            let memories = Classes::of(order).memories;
            let told = steps.iter().map(|(memory, _)| *memory);
            let right = memories.iter().take(steps.len()).copied().map(i64::from);
            let dues = steps.iter().map(|(_, due)| i32::try_from(*due).ok());
            right
                .eq(told)
                .then_some(Reason::Stairs(dues.collect::<Option<_>>()?))?
        }
    };
    let summed = minutes(order, bound, &reason) == (sentence.owed, sentence.on_hand);
    (summed && stands(order, bound, &reason)).then_some(reason)
}

/// The sentence of a line, or none where its words are others.
pub fn taken_apart(line: &[u8]) -> Option<Sentence> {
    let mut rest = Rest(line);
    let said = match rest.word("job ") {
        Some(()) => rest.job()?,
        None => rest.stairs()?,
    };
    rest.word(": owed ")?;
    let owed = rest.number()?;
    rest.word(", on hand ")?;
    let on_hand = rest.number()?;
    rest.0.is_empty().then_some(Sentence {
        said,
        owed,
        on_hand,
    })
}

/// What is left of a line.
struct Rest<'a>(&'a [u8]);

impl Rest<'_> {
    fn word(&mut self, word: &str) -> Option<()> {
        self.0 = self.0.strip_prefix(word.as_bytes())?;
        Some(())
    }

    /// A number in base ten; "Negative numbers carry a minus sign", others none, and no number
    /// begins with a 0 that says nothing. No number of a reason has more than ten digits.
    fn number(&mut self) -> Option<i64> {
        let sign = self.word("-").map_or(1, |()| -1);
        let count = self.0.iter().take_while(|byte| byte.is_ascii_digit());
        let (digits, rest) = self.0.split_at(count.count());
        let value = digits
            .iter()
            .take(11)
            .fold(0, |value, digit| 10 * value + i64::from(digit - b'0'));
        let plain = match digits {
            [] => false,
            [b'0'] => sign == 1,
            [b'0', ..] => false,
            _ => digits.len() <= 10,
        };
        self.0 = rest;
        plain.then_some(sign * value)
    }

    fn job(&mut self) -> Option<Said> {
        let job = self.number()?;
        self.word(": time ")?;
        let time = self.number()?;
        self.word(", end ")?;
        let end = self.number()?;
        Some(Said::Job { job, time, end })
    }

    fn stairs(&mut self) -> Option<Said> {
        let mut steps = Vec::new();
        loop {
            self.word("memory ")?;
            let memory = self.number()?;
            self.word(" due ")?;
            steps.push((memory, self.number()?));
            if self.word(", ").is_none() {
                return Some(Said::Stairs(steps));
            }
        }
    }
}
