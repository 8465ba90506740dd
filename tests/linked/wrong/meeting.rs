//! Joining by a rule that may be wrong: the rows of a plan as they were laid out, and which row that
//! stands each of them is held against.

use super::Plan;
use crate::independent::{clipped, layout, stretches, Row};

/// A row that stands and one of a later stretch.
pub struct Meeting {
    pub row: Row,
    pub next: Row,
    /// the stretch just before that of the next row
    pub before: (i64, i64),
    /// the stretch of the next row is the last one
    pub last_end: bool,
    /// the next row would stand just behind the row
    pub side_by_side: bool,
}

impl Meeting {
    pub fn same_job(&self) -> bool {
        self.row[0] == self.next[0]
    }

    pub fn same_processor(&self) -> bool {
        self.row[1] == self.next[1]
    }

    pub fn row_to(&self) -> i64 {
        self.row[3].into()
    }

    /// The next row opens its stretch.
    pub fn opens(&self) -> bool {
        i64::from(self.next[2]) == self.before.1
    }

    /// The next row opens its stretch, and the row ended the one before.
    pub fn touch(&self) -> bool {
        self.opens() && self.row_to() == self.before.1
    }

    /// They are to be joined.
    pub fn right(&self) -> bool {
        self.same_job() && self.same_processor() && self.touch()
    }
}

/// The rows of a plan as they were laid out, by stretch.
pub fn laid_out(made: &Plan) -> Vec<Vec<Row>> {
    let bound = made.bound.into();
    let amounts = clipped(&made.order, bound, &made.rows);
    layout(&made.order, bound, &amounts)
}

/// Puts the rows of a plan one by one behind those that stand; where one meets a row by the rule, it
/// is joined to that one instead.
pub fn meet(
    made: &Plan,
    joins: fn(&Meeting) -> bool,
    join: fn(&mut Vec<Row>, usize, Row),
) -> Vec<Row> {
    let stretches = stretches(&made.order, made.bound.into());
    let mut joined: Vec<Row> = Vec::new();
    let mut before = (0, 0);
    for (number, rows) in laid_out(made).into_iter().enumerate() {
        for next in rows {
            let meeting = |place: usize| Meeting {
                row: joined[place],
                next,
                before,
                last_end: number + 1 == stretches.len(),
                side_by_side: place + 1 == joined.len(),
            };
            let mut places = (0..joined.len()).rev();
            match places.find(|&place| joins(&meeting(place))) {
                Some(place) => join(&mut joined, place, next),
                None => joined.push(next),
            }
        }
        before = stretches[number];
    }
    joined
}
