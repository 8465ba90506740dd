//! Whether a staircase that is handed in stands.

use super::order::Order;
use super::setting::{self, Setting};
use super::stairs;

/// Minutes owed and minutes on hand of a staircase that stands at a bound, by its due times; nothing
/// of another.
pub fn weigh(order: &Order, setting: &Setting, bound: i32, dues: &[i32]) -> Option<(u32, u32)> {
    let reach = setting::reach_of(bound);
    let late = stairs::first_late(setting, reach);
    if late.is_some() || setting.class_count < dues.len() || !is_staircase(order, dues) {
        return None;
    }
    let (mut owed, mut on_hand) = (0, 0);
    for (i, &due) in dues.iter().enumerate() {
        let g = setting::lead_of(due);
        owed += class_owes(setting, i + 1, g);
        on_hand += setting.processors[i] * (reach - g);
    }
    (on_hand < owed).then_some((owed, on_hand))
}

/// Whether each due time is some job's, and none is above the one before it.
fn is_staircase(order: &Order, dues: &[i32]) -> bool {
    let is_due = |due: &i32| order.jobs().iter().any(|job| job.due == *due);
    dues.iter().all(is_due) && dues.windows(2).all(|two| two[1] <= two[0])
}

/// The minutes that the jobs of a class owe by the time of the lead g.
fn class_owes(setting: &Setting, class: usize, g: u32) -> u32 {
    let own = setting.jobs().iter().filter(|held| held.class == class);
    own.map(|held| stairs::owed(held.time, held.lead, g)).sum()
}
