//! An accepted order and the calls that are drawn for it: bounds, rooms, reasons and row lists around its
//! least lateness.

use super::at_most_rows;
use crate::draw::bounds::Around;
use crate::draw::lengths::{line_room, reason_length, room};
use crate::draw::{lists, reasons, sharp, Random};
use crate::expect::reason_named;
use crate::independent::{composed, plan, rows_asked, Order, Row, MOST_ROWS};
use crate::lent::Call;

#[derive(Clone, Copy)]
pub struct Accepted<'a> {
    pub order: &'a Order,
    pub file: &'a [u8],
    pub around: Around,
}

/// A bound, and a plan that meets it.
pub struct Made {
    bound: i32,
    rows: Vec<Row>,
}

impl Accepted<'_> {
    /// Room for rows, and a bound.
    pub fn planning(&self, random: &mut Random, answer: usize) -> Call {
        let asked = rows_asked(self.order);
        let (room, bound) = (room(random, asked), self.around.bound(random));
        Call::with_file(random, self.file, answer)
            .with_room(random, room)
            .at(bound)
    }

    /// A bound.
    pub fn asking_why(&self, random: &mut Random, answer: usize) -> Call {
        let bound = self.around.bound(random);
        Call::with_file(random, self.file, answer).at(bound)
    }

    /// A reason, and room for its line.
    pub fn composing(&self, random: &mut Random, answer: usize) -> Call {
        let bound = self.around.tight(random);
        let mut reason = reasons::numbers(random, self.order, bound, self.around.least - 1);
        let line = reason_named(&reason).map(|reason| composed(self.order, bound, &reason));
        let room = line_room(random, line.unwrap_or_default().len());
        reason.resize(reason_length(random), random.number() as i32);
        Call::with_file(random, self.file, answer)
            .with_reason(random, &reason)
            .with_line_room(random, room)
            .at(bound)
    }

    /// A plan at the least lateness or somewhat above it.
    pub fn made(&self, random: &mut Random) -> Made {
        let loose = self.around.least + random.between(0, 4) as i32;
        let bound = random.pick(&[self.around.least, loose]);
        let rows = plan(self.order, bound);
        let rows = rows.expect("the least lateness and what is above it are met");
        Made { bound, rows }
    }

    /// A row list to check, at the bound that it was made for or at one next to it.
    pub fn checking(&self, random: &mut Random, made: &Made, turn: usize, answer: usize) -> Call {
        let rows = match turn {
            0 => made.rows.concat(),
            1 => lists::senseless(random),
            2 => at_most_rows(random, &made.rows, MOST_ROWS),
            3..=6 => sharp::one_rule_broken(random, self.order, made.bound, &made.rows),
            _ => lists::hostile(random, &made.rows),
        };
        let bound = match random.below(12) {
            0..=1 => self.around.bound(random),
            2 => made.bound - 1,
            3 => made.bound + random.between(1, 20) as i32,
            _ => made.bound,
        };
        Call::with_file(random, self.file, answer)
            .with_rows(random, &rows)
            .at(bound)
    }
}
