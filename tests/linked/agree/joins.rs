//! The joined rows of a plan against its rows as laid out: "Row counts never grow", "Joined plans
//! are still right plans, and a second joining finds nothing to join."

use super::hold;
use crate::independent::{
    amounts, clipped_to, join, join_pairs, joined, joins_over, layout, left_to_join, right,
    stretches, timed_amounts, timed_joined, timed_layout, timed_right, timed_stretches, Order, Row,
    Times,
};
use std::cmp::Reverse;

/// An order at a bound that is met.
pub fn agree(order: &Order, bound: i64) -> Result<(), String> {
    let amounts = amounts(order, bound).unwrap_or_default();
    let made = Made {
        order,
        stretches: stretches(order, bound),
        by_stretch: layout(order, bound, &amounts),
        amounts,
    };
    made.agree(
        |rows| right(order, bound, rows),
        |amounts| joined(order, bound, amounts),
    )
}

/// An order with ready minutes and windows at a bound that is met.
pub fn timed_agree(order: &Order, times: &Times, bound: i64) -> Result<(), String> {
    let amounts = timed_amounts(order, times, bound).unwrap_or_default();
    let made = Made {
        order,
        stretches: timed_stretches(order, times, bound),
        by_stretch: timed_layout(order, times, bound, &amounts),
        amounts,
    };
    made.agree(
        |rows| timed_right(order, times, bound, rows),
        |amounts| timed_joined(order, times, bound, amounts),
    )
}

/// A plan as it was laid out.
struct Made<'a> {
    order: &'a Order,
    stretches: Vec<(i64, i64)>,
    amounts: Vec<Vec<i64>>,
    by_stretch: Vec<Vec<Row>>,
}

impl Made<'_> {
    /// Stretch by stretch and pair by pair the same rows join, each join saves a row, and clipped to
    /// the stretches the joined rows give the amounts back.
    fn agree(
        &self,
        right: impl Fn(&[u32]) -> bool,
        joined: impl Fn(&[Vec<i64>]) -> Vec<Row>,
    ) -> Result<(), String> {
        let order = self.order;
        let laid_out = self.by_stretch.concat();
        let rows = join(&self.stretches, &self.by_stretch);
        let in_pairs = join_pairs(&laid_out);
        let again = join_pairs(&rows);
        let back = clipped_to(order, &self.stretches, &rows);
        let saved = laid_out.len() == rows.len() + joins_over(&self.stretches, &rows);
        let nothing_left = left_to_join(&rows).is_none() && again == rows;
        let placed = in_their_places(order, &self.stretches, &rows);
        hold(order, "right when joined", right(&rows.concat()))?;
        hold(order, "a row less for each join", saved)?;
        hold(order, "joined alike in pairs", in_pairs == rows)?;
        hold(order, "unchanged by a second joining", nothing_left)?;
        hold(order, "in their places when joined", placed)?;
        hold(order, "clipped to the amounts", back == self.amounts)?;
        hold(order, "joined again alike", joined(&back) == rows)
    }
}

/// "A joined row stands where its earliest part stood": by the stretch in which it begins, then by
/// its processor, of falling memory and ties in input order, then by `from`.
fn in_their_places(order: &Order, stretches: &[(i64, i64)], rows: &[Row]) -> bool {
    let place = |&[_, processor, from, _]: &Row| {
        let from = i64::from(from);
        let begun = stretches.iter().filter(|(begin, _)| *begin <= from);
        let memory = order.memories[processor as usize - 1];
        (begun.count(), Reverse(memory), processor, from)
    };
    let mut pairs = rows.windows(2);
    pairs.all(|pair| place(&pair[0]) < place(&pair[1]))
}
